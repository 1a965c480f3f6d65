"""Wrong clients in Java: with other bodies in them, and the case that must find each. What an edit changes is within
bodies, for the classes of the other files are not built anew."""
from tests.clients.wrong import (
    ANOTHER_NUMBER, NEW_KEY, OTHER_EPOCH, NOBODY, NEWEST_FIRST, TOO_MANY, SHORT_FRAMES, OTHER_WELCOME,
    OLD_HELLO, OWN_NUMBER, PART_OF_A_KEY, OTHER_VERSION, TELLS_WRONG, NOTHING_GIVEN, CANCEL_RECORDED, NEW_RECORD, DROPS_REPLY,
    NEVER_UNMET, NO_PRESENCE, UNMET_THOUGH_HEARD, UNMET_THOUGH_LOST, Edit, WrongClient)

(CALLS, MACHINE, REPLIES, SESSION, RUNNING, POOL, LEASES, QUEUE, FUTURE, UNCLAIMED, CONSUMER, BODIES, LINK, CLIENTS, RECORD,
 INCARNATIONS, LOG, SERVERS, SHARDS, ADDRESS) = (
    f"clients/java/src/main/java/rendezvous/{name}.java"
    for name in ("Calls", "Machine", "Replies", "RvSession", "Running", "Pool", "Leases", "RvTransferQueue", "RequestFuture", "Unclaimed",
                 "RvConsumer", "Bodies", "SocketLink", "RvClients", "RecordFile", "Incarnations", "Log",
                 "Servers", "RvShards", "Address"))

IN_JAVA = [
    WrongClient(ANOTHER_NUMBER, "clients.java: the java process", [
        Edit(MACHINE, 'Bodies.keyOf(answer).equals(key)', 'Bodies.number(answer, "epoch") == key.epoch()')]),
    WrongClient(NEW_KEY, "clients.java: repeats until it is told", [
        Edit(MACHINE, '        draft.flying = Flying.NOTHING;\n        return draft.made();',
             '        draft.flying = Flying.NOTHING;\n        draft.key = key == null ? null : key.next();\n'
             '        return draft.made();')]),
    WrongClient("knows a request by what it sent alone, where it is given up before that", "clients.java: whatever is let in", [
        Edit(SESSION, 'machine.flying() == Machine.Flying.REQUEST && step.send() != null',
             'event instanceof Plain && machine.flying() == Machine.Flying.REQUEST && step.send() != null')]),
    WrongClient(OTHER_EPOCH, "clients.java: the java process", [
        Edit(MACHINE, 'case 2 -> above(refusal, "current", key.epoch())',
             'case 2 -> Bodies.number(refusal, "current") != key.epoch()')]),
    WrongClient(UNMET_THOUGH_LOST, "clients.java: the java process", [
        Edit(MACHINE, '        draft.doubtful |= flying == Flying.REQUEST;\n        draft.flying = Flying.NOTHING;\n        return draft.made();',
             '        draft.flying = Flying.NOTHING;\n        return draft.made();')]),
    WrongClient(UNMET_THOUGH_HEARD, "clients.java: the java process", [
        Edit(MACHINE, '        draft.doubtful = true;\n', '')]),
    WrongClient(UNMET_THOUGH_LOST + ", in its calls", "clients.java_scenes: an ended session", [
        Edit(MACHINE, 'Bodies.number(refusal, "current"), !doubtful)', 'Bodies.number(refusal, "current"), out == 1 || !accepted)')]),
    WrongClient(NEVER_UNMET, "clients.java_scenes: a restart before each call", [
        Edit(MACHINE, 'Bodies.number(refusal, "current"), !doubtful)', 'Bodies.number(refusal, "current"), false)')]),
    WrongClient("asks no call again behind a restart", "clients.java_scenes: a restart before each call", [
        Edit(CLIENTS, 'if (current <= epoch) {', 'if (current >= epoch) {')]),
    WrongClient("fails for a restart where it only looks", "clients.java_scenes: a restart in calls that look", [
        Edit(CLIENTS, '&& Calls.looks(call) ? ended.current() : 0', '&& Calls.looks(call) ? 0 : 0')]),
    WrongClient("asks a call again that may have been met", "clients.java_scenes: an ended session", [
        Edit(CLIENTS, '&& Calls.looks(call) ? ended.current() : 0', '&& Calls.looks(call) == Calls.looks(call) ? ended.current() : 0')]),
    WrongClient("is sure that nothing is there where a copy is under way", "clients.java: a copy under way", [
        Edit(MACHINE, 'full && out == 0', 'full')]),
    WrongClient(NOBODY, "clients.java: each call", [
        Edit(QUEUE, 'Optional.of(receipt) : Optional.empty()',
             'Optional.of(receipt) : Optional.of(new Receipt(outcome.key(), Optional.empty()))')]),
    WrongClient(NEWEST_FIRST, "clients.java: drains by steps", [
        Edit(REPLIES, 'items.add(text.getAsString())', 'items.add(0, text.getAsString())')]),
    WrongClient(TOO_MANY, "clients.java: a drain is asked under one key", [
        Edit(REPLIES, '<= Bodies.number(call, "max")', '<= Bodies.GREATEST_DRAIN')]),
    WrongClient(SHORT_FRAMES, "clients.java: a drain is asked under one key", [
        Edit(LINK, 'if (length == 0) {', 'if (length < 1 || length > 4096) {')]),
    WrongClient("loses what finished steps of a drain took", "clients.java: a step that fails", [
        Edit(QUEUE, 'int drained = drainedUnclaimed(into, most);',
             'int drained = drainedUnclaimed(into, most);\n        var all = new java.util.ArrayList<String>();'),
        Edit(QUEUE, 'into.addAll(items);', 'all.addAll(items);'),
        Edit(QUEUE, 'more = items.size() == step;\n        }', 'more = items.size() == step;\n        }\n        into.addAll(all);')]),
    WrongClient("drains more than it was asked for", "clients.java: drains by steps", [
        Edit(QUEUE, 'Math.min(Bodies.GREATEST_DRAIN, most - drained)', 'Bodies.GREATEST_DRAIN')]),
    WrongClient(OTHER_WELCOME, "clients.java: the java process", [
        Edit(MACHINE, '            && named == version;', '            && named > 0;')]),
    WrongClient(OLD_HELLO, "clients.java: versions", [
        Edit(MACHINE, 'if (version > 1) {', 'if (version > 2) {')]),
    WrongClient(OWN_NUMBER, "clients.java: receipts", [
        Edit(REPLIES, 'Bodies.number(reply, "by_number")', 'Bodies.number(reply, "number")')]),
    WrongClient(PART_OF_A_KEY, "clients.java: what is no receipt", [
        Edit(BODIES, 'names ? BY :', 'names ? BY.stream().filter(answer::has).toList() :')]),
    WrongClient(OTHER_VERSION, "clients.java: other versions", [
        Edit(MACHINE, ' || code == 12 && current != version', '')]),
    WrongClient("asks on a connection that is out of step", "clients.java: a closed connection is made anew", [
        Edit(SESSION, 'if (link != null && link.isOver()) {', 'if (link != null && closed) {')]),
    WrongClient("forgets the interrupt of a call that gives its result", "clients.java: interrupts", [
        Edit(RUNNING, '        if (interrupted) {\n            Thread.c',
             '        if (interrupted && !interruptible) {\n            Thread.c')]),
    WrongClient("tells each cancel as a time that is over", "clients.java_scenes: cancelled though nobody asked", [
        Edit(SESSION, 'running.order() == Order.TIME', 'running.order() != Order.USER')]),
    WrongClient(NO_PRESENCE, "clients.presence: java at the double", [
        Edit(CALLS, "return presence < FOR_EVER && call.has", "return presence < 0 && call.has")]),
    WrongClient("asks the next piece of a call that was interrupted", "clients.java_scenes: a wait in pieces", [
        Edit(RUNNING, "        due |= order != Order.NOBODY;\n", "")]),
    WrongClient("goes on behind a close", "clients.java_scenes: close in a pause", [
        Edit(RUNNING, "            noteClose();\n", "")]),
    WrongClient("closes and waits not for what was given up", "clients.java_scenes: a close after a cancel", [
        Edit(RUNNING, "order == Order.NOBODY ? now() : sum(now(), grace)", "now()")]),
    WrongClient("closes and tells nobody what is unsettled", "clients.java_scenes: close in a call", [
        Edit(POOL, "            abandoned.add(seat.session);\n", "")]),
    WrongClient("closes at once, and tells nobody what it left", "clients.java_closes: at the double", [
        Edit(RUNNING, "order == Order.NOBODY ? now() : sum(now(), grace)", "now()"),
        Edit(POOL, "            abandoned.add(seat.session);\n", "")]),
    WrongClient("tells an earlier call's outcome for one that asked nothing", "clients.java_scenes: a threads last outcome", [
        Edit(CLIENTS, "        last.remove();\n", "")]),
    WrongClient("tells the outcome of another request", "clients.java_scenes: the last outcome", [
        Edit(SESSION, '            last = null;\n', '')]),
    WrongClient("gives a thread its unsettled session again", "clients.java_scenes: a pooled thread", [
        Edit(POOL, 'if (own.isPresent() && own.get().isFree()) {', 'if (own.isPresent()) {')]),
    WrongClient("keeps the connections of dead threads", "clients.java_scenes: connections of dead threads", [
        Edit(POOL, '                seat.session.rest();\n            }\n        }\n', '            }\n        }\n')]),
    WrongClient("has a session for each thread", "clients.java_scenes: connections of dead threads", [
        Edit(POOL, 'Stream.concat(free().filter(Seat::isNobodys), free()).findFirst().or(this::made)', 'made()')]),
    WrongClient("leases a number that another program has", "clients.java_leases: beside another language", [
        Edit(LEASES, '            return Optional.empty();\n        } finally', '            bound = true;\n'
                     '            return Optional.of(channel);\n        } finally')]),
    WrongClient("shares its number with who allows that too", "clients.java_leases: between programs", [
        Edit(LEASES, 'channel.bind(place);',
             'channel.setOption(java.net.StandardSocketOptions.SO_REUSEPORT, true).bind(place);')]),
    WrongClient("leases apart in each environment", "clients.java_leases: environments", [
        Edit(LEASES, 'long user = user();', 'long user = user() + String.valueOf(System.getenv("XDG_RUNTIME_DIR")).length();')]),
    WrongClient("begins by the clock alone", "clients.java_leases: a clock that stands or goes back", [
        Edit(INCARNATIONS, 'Math.max(micros, before + 1)', 'micros')]),
    WrongClient("is replaced where its clock was set back", "clients.java_leases: a clock that was set back", [
        Edit(SESSION, 'if (renews && machine', 'if (renews && closed && machine')]),
    WrongClient("begins anew again and again", "clients.java_leases: a clock that was set back", [
        Edit(SESSION, '            renews = false;\n', '')]),
    WrongClient("drops an item that reached a cancelled future", "clients.java_scenes: a cancelled take", [
        Edit(UNCLAIMED, 'if (outcome instanceof Outcome.Item taken) {', 'if (outcome instanceof Outcome.Item taken && !future.isDone()) {')]),
    WrongClient("takes no heed of a take that is being cancelled", "clients.java_scenes: a cancelled take", [
        Edit(UNCLAIMED, 'while (count() == 0 && running', 'while (count() > 0 && running')]),
    WrongClient("tells a transfer as cancelled that was received", "clients.java_scenes: a cancelled transfer", [
        Edit(FUTURE, 'return cancelAndWait();', 'return super.cancel(mayInterrupt);')]),
    WrongClient("drops the item that came with a consumer's end", "clients.java_scenes: a consumer", [
        Edit(CONSUMER, '                item.ifPresent(action);\n', '                if (!closed) {\n                    item.ifPresent(action);\n                }\n')]),
    WrongClient(TELLS_WRONG, "clients.crowds: at the double", [
        Edit(QUEUE, 'return outcome instanceof Outcome.Item taken ? taken.item() : null;',
             'return outcome instanceof Outcome.Item taken ? taken.item() + " " : null;')]),
    WrongClient(NOTHING_GIVEN, "clients.crowds: at the double", [
        Edit(QUEUE, 'return outcome instanceof Outcome.Item taken ? taken.item() : null;', 'return null;')]),
    WrongClient(CANCEL_RECORDED, "clients.java_record: an interrupt", [
        Edit(SESSION, 'if (machine.flying() == Machine.Flying.REQUEST && step.send() != null) {',
             'if (machine.key() != null && step.send() != null) {')]),
    WrongClient(NEW_RECORD, "clients.java_record: it goes on", [
        Edit(RECORD, 'StandardOpenOption.APPEND)', 'StandardOpenOption.TRUNCATE_EXISTING)')]),
    WrongClient(DROPS_REPLY, "clients.java_record: where it can not be written", [
        Edit(SESSION, 'throw new RvException.NotRecorded(outcome, line, file, fault);',
             'throw new IllegalStateException("not recorded", fault);')]),
    WrongClient("writes LF within a line", "clients.java_record: byte by byte", [
        Edit(RECORD, "line.put(each == '\\n' ? (byte) ' ' : each);", 'line.put(each);')]),
    WrongClient("records in the environment's file though another is chosen", "clients.java_record: the environment", [
        Edit(CLIENTS, 'recordIsChosen ? Optional', 'recordIsChosen && System.getenv("RV_RECORD") == null ? Optional')]),
    WrongClient("drops an item of a cancelled future that it can't record", "clients.java_record: futures", [
        Edit(FUTURE, "throw unrecorded;", 'throw new IllegalStateException("not recorded");')]),
    WrongClient("waits for its first welcome as long as its patience", "clients.java: a first hello", [
        Edit(SESSION, "welcomed ? patience : Math.min(patience, connectTime)", "patience")]),
    WrongClient("ends all its calls by the time of its first hello", "clients.java: behind the welcome", [
        Edit(SESSION, "welcomed ? patience : Math.min(patience, connectTime)", "Math.min(patience, connectTime)")]),
    WrongClient("logs each try", "clients.java: a first hello", [
        Edit(LOG, "if (!words.equals(faults.put(server, words))) {", "if (!words.isEmpty()) {")]),
    WrongClient("logs nothing of a server of a lower epoch", "clients.java: a lower epoch", [
        Edit(SESSION, "            log.notReached(turns.name(), named(words));\n            goesOn(words);\n", "            goesOn(words);\n")]),
    WrongClient("knows no address but its server's first", "clients.java_shards: a server that moves", [
        Edit(SERVERS, "current = (current + 1) % all.size();", "current = 0;")]),
    WrongClient("asks all shards at the first server", "clients.java_shards: a server that is killed", [
        Edit(SHARDS, "all.get(Calls.place(place) % all.size())", "all.get(Calls.place(place) / 64)")]),
    WrongClient("takes a port with a zero before it", "clients.java: the java addresses", [
        Edit(ADDRESS, '":([1-9][0-9]{0,4})"', '":([0-9]{1,5})"')]),
    WrongClient("finds out by its first reply that it can't record", "clients.java_record: found before anything", [
        Edit(CLIENTS, "            kept.ifPresent(RecordFile::check);\n", "")]),
    WrongClient("leaves descriptors behind", "clients.java_scenes: no descriptors", [
        Edit(LINK, 'if (registered == null) {', 'if (registered == null && opened != null) {')]),
]
