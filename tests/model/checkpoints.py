"""The lines of a checkpoint of a state (docs/FORMATS.md, section 13)."""
from tests.model.account import Call, Cancel, Hello, Key, Request
from tests.model.state import CancelledFirst, Fresh, Replied, Waits
from tests.model.texts import members_of, members_of_call, written


def checkpoint_text(state):
    """The text of the checkpoint of a state."""
    places = sorted((there.place, at, there) for (_, at), places in state.open.items() for there in places)
    clients = sorted(state.clients.items())
    lines = [f"state 1 {state.epoch} {state.moment} {state.length}",
             *(open_line(state, at, there) for _, at, there in places),
             *(client_line(state, client, session) for client, session in clients),
             f"end {len(places)} {len(clients)}"]
    return "".join(f"{line}\n" for line in lines).encode()


def open_line(state, at, there):
    """The line of an open place of a queue or exchanger."""
    if not there.waits:
        return f"lies {there.place} {written(members_of_call(Call('put', at, there.item)))}"
    call = state.clients[there.key.client].request.call
    return f"waits {there.place} {there.came} {written(members_of(Request(there.key, call)))}"


def client_line(state, client, session):
    """The line of a client's session."""
    key, version = Key(state.epoch, client, session.incarnation, session.last), session.version
    match session.request:
        case Fresh():
            return f"fresh {written(members_of(Hello(client, session.incarnation, version)))}"
        case Waits(place, call):
            return f"asks {version} {place} {written(members_of(Request(key, call)))}"
        case Replied(call, reply):
            text = written(members_of_call(call))
            return f"replied {version} {len(text.encode())} {text}{written({'kind': 'reply', **vars(key), **reply})}"
        case CancelledFirst():
            return f"unseen {version} {written(members_of(Cancel(key)))}"
