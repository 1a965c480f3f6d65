"""The anchors of a document's headings, as GitHub names them: for the check of links, and for the pages of `make site`."""
import collections
import re
from typing import Counter, Iterable, Iterator


def anchors_of(headings: Iterable[str]) -> Iterator[str]:
    """The anchor of each heading of a document, of its plain words. One that is there already gets a number."""
    seen: Counter[str] = collections.Counter()
    for heading in headings:
        anchor = re.sub(r"[^\w\- ]", "", heading.strip().lower()).replace(" ", "-")
        yield f"{anchor}-{seen[anchor]}" if seen[anchor] else anchor
        seen[anchor] += 1
