"""What a wrong client is, and what clients of both languages do wrong."""
from typing import NamedTuple


class Edit(NamedTuple):
    """A text that stands once in a file, and what stands there in its place."""

    file: str
    old: str
    new: str


class WrongClient(NamedTuple):
    """What a client does, the case that must find it, and the edits that make it so."""

    does: str
    case: str
    edits: list


# What clients of both languages do.
ANOTHER_NUMBER = "settles by a late reply of another number"
NEW_KEY = "asks under a new key where a link was lost"
OTHER_EPOCH = "ends by a refusal of an epoch that is not above its own"
NOBODY = "tells received for timed out"
NEWEST_FIRST = "gives the items of a drain newest first"
TOO_MANY = "takes more texts for a drain than a drain gives"
SHORT_FRAMES = "reads no frame above 4,096 bytes"
OUT_OF_STEP = "keeps a link that is out of step"
OTHER_WELCOME = "is welcome in another version"
OLD_HELLO = "says the hello of version 1 for version 2"
OWN_NUMBER = "names the consumer by the transfer's own number"
PART_OF_A_KEY = "takes a part of the consumer's key"
OTHER_VERSION = "asks on where its version was refused"
FULL_TOO_EARLY = "takes a refusal for want of room as final though a copy is out"
REPEATS_ANEW = "repeats its request behind a lost session"
ANY_REPLY = "takes a reply that the call can't have"
LAST_OUTCOME = "tells the session's last outcome for an interrupt's own"
ANY_CALL = "cancels whatever call runs"
TELLS_WRONG = "hears an item, records it and tells another one"
NOTHING_GIVEN = "records an item and tells that there is none"
CANCEL_RECORDED = "records a cancel in place of the request that it cancels"
NEW_RECORD = "begins its record anew with each line"
DROPS_REPLY = "drops a reply that it can't record"
UNMET_THOUGH_LOST = "tells of a request as unmet of which a copy was lost"
UNMET_THOUGH_HEARD = "tells of a request as unmet that the old server answered"
NO_PRESENCE = "asks a wait as a whole though it has a presence"
NEVER_UNMET = "tells of no request that the old server can't have as unmet"
