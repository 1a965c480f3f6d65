"""Edits that the prover must refuse or that a test must see, and the functions that they change."""
import pathlib
import re


class Edit:
    """An edit: a file's name, for each file that it changes its pairs of old and new text, and the test that must see it.

    The test stands on a line 'test: ..', as CRATE::MODULE::NAME in Rattle, or from outside as FOLDER.MODULE or FOLDER.MODULE: CASE, as
    `python3 -m tests --list` names it; there is none where the prover must refuse the edit.
    """

    def __init__(self, path, folder):
        self.name = path.stem
        self.folder = folder
        self.pairs = []
        self.test = None
        at, old = None, None
        for line in path.read_text(encoding="utf-8").split("\n"):
            if line.startswith("test: "):
                self.test = line[len("test: "):].strip()
            elif line.startswith("file: "):
                at = line[len("file: "):].strip()
            elif line.startswith("old: "):
                old = line[len("old: "):]
            elif line.startswith("new:"):
                self.pairs.append((at, old, line[len("new:"):].removeprefix(" ")))
        self.wrong = None if self.applied({}) else "a text that it replaces doesn't stand in its file once"

    def applied(self, texts):
        """The texts of the files with this edit in them too, or None where it can't be applied to these texts."""
        texts = dict(texts)
        for at, old, new in self.pairs:
            text = texts.get(at) or (self.folder / at).read_text(encoding="utf-8")
            if text.count(old) != 1:
                return None
            texts[at] = text.replace(old, new)
        return texts if self.pairs else None

    def outside(self):
        """The name of the test that must see it, if that runs the program from outside."""
        return self.test if self.test and re.fullmatch(r"\w+\.\w+(: .+)?", self.test) else None

    def test_stands(self):
        """Whether the test that must see it stands in its crate, or in its module."""
        if self.outside():
            module, _, case = self.outside().partition(": ")
            path = (self.folder.parents[1] / "tests").joinpath(*module.split(".")).with_suffix(".py")
            form = rf"^ *def (?:test_)?{re.escape(case.replace(' ', '_'))}\(" if case else ""
            return path.is_file() and re.search(form, path.read_text(encoding="utf-8"), re.M) is not None
        crate, *modules, name = (self.test or "::").split("::")
        path = self.folder.parent / crate / "src" / "/".join(modules)
        path = path.with_suffix(".rt") if modules else path
        form = rf"^#\[test\]\nfn {re.escape(name)}\("
        return path.is_file() and re.search(form, path.read_text(encoding="utf-8"), re.M) is not None

    def functions(self):
        """Patterns of the prover's names of the functions that this edit changes."""
        texts, found = {}, []
        for at, old, new in self.pairs:
            text = texts.get(at) or (self.folder / at).read_text(encoding="utf-8")
            found.append(function_at(text, old, at))
            texts[at] = text.replace(old, new)
        return found


def function_at(text, old, path, last=False):
    """A pattern of the prover's name of the function of this file in which a text stands: its first place, or its last."""
    modules = [part for part in pathlib.Path(path).with_suffix("").parts[1:] if part not in ("lib", "main")]
    # from the end of the text on: it may hold the function's name
    start = text.rindex(old) if last else text.index(old)
    lines = text[:start + len(old)].split("\n")
    name, owner, beside = None, "", None
    for line in reversed(lines):
        found = re.match(r"(\s*)(?:pub(?:\([a-z]+\))? )?(?:const )?(?:unsafe )?fn (\w+)", line)
        if name is None and found:
            name, indented = found[2], bool(found[1])
            if not indented:
                break
        elif name is not None and (found := re.match(r"impl(?:<.*?>)? (?:([\w:]+)(?:<.*>)? for )?(\w+)", line)):
            owner = rf"{found[2]}{found[1].split('::')[-1] if found[1] else ''}\w*::"
            beside = found[2]
            break
        elif name is not None and (found := re.match(r"(?:pub )?trait (\w+)", line)):
            owner = rf"\w*{found[1]}::"
            break
    # the prover names a method by the module of its type, which may be one above this file's, or one beside it
    above = "".join(f"(?:{part}::)?" if owner and index else f"{part}::" for index, part in enumerate(modules))
    if beside and not re.search(rf"\b(?:struct|enum|trait) {beside}\b", text):
        above = "".join(f"{part}::" for part in modules[:-1]) + (r"(?:\w+::)?" if modules[1:] else r"\w+::")
    return re.compile(rf"\w+::{above}{owner}{name}") if name else None


def public_functions(folder):
    """Patterns of the prover's names of a crate's public functions, by their places in the text."""
    found = {}
    for path in sorted((folder / "src").rglob("*.rt")):
        text, at = path.read_text(encoding="utf-8"), str(path.relative_to(folder))
        for line in re.finditer(r"^ *pub fn \w+", text, re.M):
            found[f"{at}:{text.count(chr(10), 0, line.start()) + 1}"] = function_at(text[:line.end()], line[0], at, last=True)
    return found
