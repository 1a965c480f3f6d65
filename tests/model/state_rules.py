"""Which entry may follow a state: the twelve rules in their order, each asked of the state (docs/MODEL.md, section 7)."""
from tests.model.account import OTHER_SIDE, Cancel, Hello, Request, Tick
from tests.model.state_after import followed_by

# The one case in which a state doesn't tell the rule that is broken: a place that is named is open nowhere. P1 is broken
# if one of those named was met or named before, and P2 or S1 if none was.
NOT_OPEN = "not open"


def follow(state, entry):
    """What an entry makes of a state, or the first rule that it breaks, or that one of those named is not open."""
    return broken_rule(state, entry) or followed_by(state, entry)


def broken_rule(state, entry):
    """The first rule that an entry breaks behind a state; none where it may follow."""
    return moment_rule(state, entry) or number_rule(state, entry.act) or partner_rule(state, entry)


def moment_rule(state, entry):
    """The first rule on moments that an entry breaks, if it breaks one."""
    is_tick, is_due = isinstance(entry.act, Tick), bool(state.due(entry.moment))
    if entry.moment < state.moment:
        return "M1"
    if is_due and not is_tick:
        return "M2"
    return "M3" if is_tick and not is_due else None


def number_rule(state, act):
    """The first rule on incarnations and numbers that an act breaks, if it breaks one."""
    match act:
        case Hello():
            client = state.clients.get(act.client)
            return "N1" if client and client.incarnation >= act.incarnation else None
        case Request() | Cancel():
            return key_rule(state, act)
    return None


def key_rule(state, act):
    """The first rule that the key of a request or cancel breaks, if it breaks one."""
    key = act.key
    client = state.clients.get(key.client)
    if not client or (key.epoch, key.incarnation) != (state.epoch, client.incarnation):
        return "N2"
    if not state.waiting_of(key.client):
        return None if key.number == client.last + 1 else "N3"
    return None if isinstance(act, Cancel) and key.number == client.last else "N3"


def partner_rule(state, entry):
    """The first rule on pairs and swaps that an entry breaks, if it breaks one."""
    call = entry.act.call if isinstance(entry.act, Request) else None
    partners, most = entry.partners, call.may_name if call else 0
    rises = all(earlier < later for earlier, later in zip(partners, partners[1:]))
    if partners and (len(partners) > most or not rises or partners[-1] >= state.length):
        return "P1"
    if not {*partners} <= {there.place for there in state.every_open()}:
        return NOT_OPEN
    return meeting_rule(state, call, partners) if call and call.side in OTHER_SIDE else None


def meeting_rule(state, call, partners):
    """The first rule on who meets whom that an arrival with these partners breaks, each of which is open somewhere."""
    opposites, swaps = [there.place for there in state.opposites(call)], call.side == "exchanging"
    if not {*partners} <= {*opposites}:
        return "S1" if swaps else "P2"
    if [*partners] != opposites[: len(partners)]:
        return "P3"
    if len(partners) < min(call.may_name, len(opposites)):
        return "S2" if swaps else "P4"
    return None
