"""Wrong clients in Python: copies with another body in them, and the test that must find each."""
from tests.clients.wrong import (
    ANOTHER_NUMBER, NEW_KEY, OTHER_EPOCH, NOBODY, NEWEST_FIRST, TOO_MANY, SHORT_FRAMES, OUT_OF_STEP,
    OTHER_WELCOME, OLD_HELLO, OWN_NUMBER, PART_OF_A_KEY, OTHER_VERSION, FULL_TOO_EARLY, REPEATS_ANEW,
    ANY_REPLY, LAST_OUTCOME, ANY_CALL, TELLS_WRONG, NOTHING_GIVEN, CANCEL_RECORDED, NEW_RECORD, DROPS_REPLY, NEVER_UNMET, NO_PRESENCE,
    UNMET_THOUGH_HEARD,
    UNMET_THOUGH_LOST, Edit, WrongClient)

PACKAGE, TESTS = "clients/python/src/rendezvous", "clients/python/tests"
(MACHINE, SESSION, BODIES, CALLS, REPLIES, LINK, DRIVER, ERRORS, COURSE, ENDINGS, LEASES, UNCLAIMED, AIO, STREAM, RECORD,
 BELL, MANNER, LOG, SPREAD, SHARDS, JOBS, WORKER) = (
    f"{PACKAGE}/{name}.py" for name in (
        "machine", "session", "bodies", "calls", "replies", "link", "driver", "errors", "course", "endings", "leases",
        "unclaimed", "aio", "stream", "record", "bell", "manner", "log", "spread", "shards",
        "jobs", "worker"))
# Where a link was lost, and what goes on to another number there.
LOST = "            self._failed(why)\n            return None\n"
SKIP = ("            key = self.machine.key\n            if key and %s:\n"
        "                self.machine = m.replace(self.machine, key=key._replace(number=key.number + 1))\n")
CALL_IS = 'self.machine.call and self.machine.call["call"] == "drain"'

IN_PYTHON = [
    WrongClient(ANOTHER_NUMBER, "test_refusals.Repeats.test_repeats_until_it_is_told", [
        Edit(MACHINE, "if key_of(reply) != key or", "if key_of(reply)[:3] != key[:3] or")]),
    WrongClient(NEW_KEY, "test_refusals.Repeats.test_repeats_until_it_is_told", [
        Edit(COURSE, LOST, SKIP % "self.machine.sent" + LOST)]),
    WrongClient(NEW_KEY + " in a drain", "test_calls.Drains.test_a_drain_is_asked_under_one_key", [
        Edit(COURSE, LOST, SKIP % CALL_IS + LOST)]),
    WrongClient(OTHER_EPOCH, "test_refusals.Repeats.test_refusals_that_are_not_its_own", [
        Edit(MACHINE, 'if refusal["current"] <= machine.key.epoch:', 'if refusal["current"] < machine.key.epoch:')]),
    WrongClient(UNMET_THOUGH_LOST, "clients.table_cases: the python machine", [
        Edit(MACHINE, "doubtful=machine.doubtful or machine.flying is Flying.REQUEST)", "doubtful=machine.doubtful)")]),
    WrongClient(UNMET_THOUGH_HEARD, "clients.table_cases: the python machine", [
        Edit(MACHINE, "accepted=True, full=False, doubtful=True)", "accepted=True, full=False)")]),
    WrongClient(UNMET_THOUGH_LOST + ", in its calls", "test_restarts.SomebodyMayHaveMetIt.test_it_is_not_known", [
        Edit(MACHINE, 'refusal["current"], not machine.doubtful))', 'refusal["current"], machine.out == 1))')]),
    WrongClient(NEVER_UNMET, "test_restarts.NobodyMetIt.test_idle_over_a_restart", [
        Edit(MACHINE, 'refusal["current"], not machine.doubtful))', 'refusal["current"]))')]),
    WrongClient("asks a call anew that may have been met", "test_restarts.SomebodyMayHaveMetIt.test_it_is_not_known", [
        Edit(COURSE, "not (told.unmet or looks(call))", "False")]),
    WrongClient("asks a look anew that was cancelled", "test_restarts.SomebodyMayHaveMetIt.test_a_cancelled_look", [
        Edit(COURSE, "job.resumes or job.given_up or told", "job.resumes or told")]),
    WrongClient("renews itself for an old server again and again", "test_restarts.Renewed.test_more_restarts_than_one", [
        Edit(COURSE, " or told.current <= self._renewed_for:", ":")]),
    WrongClient("renews itself in the incarnation that it had", "test_restarts.Renewed.test_each_call_goes_on", [
        Edit(LEASES, "self.incarnation = new_incarnation()", "pass")]),
    WrongClient(NOBODY, "test_calls.Calls.test_each_call", [
        Edit(ENDINGS, "return outcome if isinstance(outcome, Receipt) else None",
             "return outcome if isinstance(outcome, (Receipt, replies.TimedOut)) else None")]),
    WrongClient(NEWEST_FIRST, "test_calls.Calls.test_each_call", [
        Edit(ENDINGS, "outcome).items)", "outcome).items)[::-1]")]),
    WrongClient(TOO_MANY, "test_calls.Drains.test_a_drain_is_asked_under_one_key", [
        Edit(BODIES, "len(value) <= GREATEST_DRAIN", "len(value) <= GREATEST_DRAIN + 1"),
        Edit(MACHINE, 'machine.call.get("max", 0)', 'machine.call.get("max", 0) + 1')]),
    WrongClient("takes more texts for a drain than it asked for",
                "test_calls.Drains.test_a_drain_gives_no_more_than_was_asked_for", [
                    Edit(MACHINE, 'machine.call.get("max", 0)', "16")]),
    WrongClient(SHORT_FRAMES, "test_calls.Drains.test_frames_of_each_length", [
        Edit(LINK, "if end == 2:", "if not 2 < end <= 4098:")]),
    WrongClient(OUT_OF_STEP, "test_refusals.Repeats.test_repeats_until_it_is_told", [
        Edit(MACHINE, "return Step(_lost(machine), drop=True)", "return Step(machine)")]),
    WrongClient(OTHER_WELCOME, "test_refusals.Hellos.test_versions", [
        Edit(MACHINE, 'welcome.get("version", 1))', "machine.version)")]),
    WrongClient(OLD_HELLO, "test_refusals.Hellos.test_versions", [
        Edit(MACHINE, "if machine.version > 1 else {}", "if machine.version > 2 else {}")]),
    WrongClient(OWN_NUMBER, "test_calls.Calls.test_each_call", [
        Edit(REPLIES, "Key(key.epoch, *by) if", "Key(key.epoch, *by[:2], key.number) if")]),
    WrongClient(PART_OF_A_KEY, "test_calls.Receipts.test_what_is_no_receipt", [
        Edit(BODIES, "return BY if", "return tuple(filter(reply.get, BY)) if"),
        Edit(REPLIES, "Key(key.epoch, *by) if", "Key(key.epoch, *by, *[1] * (3 - len(by))) if")]),
    WrongClient(OTHER_VERSION, "test_refusals.Hellos.test_other_versions", [
        Edit(MACHINE, " or code == 12 and current != machine.version:", ":")]),
    WrongClient(FULL_TOO_EARLY, "test_true_words.Refusals.test_no_room_with_a_copy_out", [
        Edit(MACHINE, "    if machine.full and machine.out == 0:\n        return Step(_idle",
             "    if machine.full:\n        return Step(_idle")]),
    WrongClient(FULL_TOO_EARLY + ", in an answer", "test_true_words.Refusals.test_no_room_behind_no_memory", [
        Edit(MACHINE, "return Step(replace(_lost(machine), out=machine.out - 1, full=False))",
             "return Step(replace(_lost(machine), out=machine.out - 1, full=True))")]),
    WrongClient(REPEATS_ANEW, "test_true_words.Refusals.test_nothing_is_repeated_behind_a_lost_session", [
        Edit(MACHINE, "    return _end(machine, EpochEnded(machine.key, machine.key.epoch))\n",
             "    return Step(replace(machine, state=State.NEW, key=None, flying=Flying.NOTHING))\n")]),
    WrongClient(ANY_REPLY, "test_true_words.Refusals.test_replies_of_other_calls", [
        Edit(MACHINE, "return word in replies_of(machine.call)", "return True")]),
    WrongClient(ANY_REPLY + ", by its wait", "test_calls.Replies.test_replies_of_other_calls", [
        Edit(CALLS, 'now=("empty",)', 'now=("empty", "timedout")')]),
    WrongClient(LAST_OUTCOME, "test_interrupts.Interrupts.test_each_line_of_each_call", [
        Edit(SESSION, "        outcome, fault = known_of(job)\n        if isinstance(thrown",
             "        outcome, fault = self.last, None\n        if isinstance(thrown")]),
    WrongClient(ANY_CALL, "test_true_words.Cancels.test_a_cancel_names_its_call", [
        Edit(SESSION, "return None if job is None or job.told is not None else Running(job, partial(self._driver.order, job))",
             "return None if job is None or job.told is not None else self"),
    ]),
    WrongClient("loses a cancel in the hello", "test_true_words.Cancels.test_a_cancel_in_the_hello", [
        Edit(MACHINE, "    if machine.state is State.NEW:\n        return known._replace(tell=NotAsked())\n",
             "    if machine.state is State.NEW:\n        return Step(machine)\n")]),
    WrongClient("swallows an alarm's TimeoutError", "test_true_words.Signals.test_an_alarm", [
        Edit(SESSION, "        except BaseException as thrown:\n            self._interrupted",
             "        except OSError:\n            return self._told(job, result)\n"
             "        except BaseException as thrown:\n            self._interrupted")]),
    WrongClient("throws on without a cancel", "test_true_words.Signals.test_an_exit", [
        Edit(SESSION, "        job.give_up(FAREWELL)\n",
             "        self._jobs.clear()\n        raise thrown\n        job.give_up(FAREWELL)\n")]),
    WrongClient("goes on behind its close", "test_true_words.Cancels.test_a_closed_session_takes_nothing", [
        Edit(COURSE, "        if self.closing or now >= job.tell_at", "        if now >= job.tell_at")]),
    WrongClient("lets its patience outlast a call's own time", "test_times.OwnTimes.test_a_short_poll_that_was_asked", [
        Edit(COURSE, "return min(moment, job.tell_at, cancels,", "return min(moment, cancels,"),
        Edit(COURSE, "now >= job.tell_at or", "False or")]),
    WrongClient("tells a put that its own time cancelled as done", "test_times.OwnTimes.test_a_put_that_is_late", [
        Edit(ENDINGS, "    late = waits and not job", "    late = not job")]),
    WrongClient("asks on in a forked process", "test_processes.Forks.test_a_child_asks_nothing", [
        Edit(SESSION, "        if os.getpid() != self._process:\n            raise",
             "        if False:\n            raise")]),
    WrongClient("waits for its first welcome as long as its patience", "test_words.FirstHello.test_behind_the_welcome", [
        Edit(COURSE, "else min(job.patience, self.manner.connect_timeout))", "else job.patience)")]),
    WrongClient("ends all its calls by the time of its first hello", "test_words.FirstHello.test_behind_the_welcome", [
        Edit(COURSE, "job.patience if self._welcomed else min(", "min(")]),
    WrongClient("logs nothing of a refused connection", "test_words.Logged.test_a_refused_connection", [
        Edit(COURSE, '            log(WARNING, "%s", told)\n', "")]),
    WrongClient("logs each try", "test_words.Logged.test_a_refused_connection", [
        Edit(COURSE, "if not_reached and told != self._logged.get(self.server):", "if not_reached:")]),
    WrongClient("logs what it asks", "test_log.Lines.test_a_link_that_breaks", [
        Edit(COURSE, '"%s: connected", self.server)', '"%s: connected for %s", self.server, self.machine.call)')]),
    WrongClient("ends a call by what a handler of its log raises", "test_log.Lines.test_a_handler_that_raises", [
        Edit(LOG, "    with contextlib.suppress(Exception):\n", "    with contextlib.suppress():\n")]),
    WrongClient("asks one server alone", "test_addresses.Alternatives.test_a_lost_connection", [
        Edit(COURSE, "(self._at + 1) % len(self.servers)", "0")]),
    WrongClient("pauses before it asks the next server", "test_addresses.Alternatives.test_one_that_is_away", [
        Edit(COURSE, "if not drops or self._missed >= len(self.servers):", "if True:")]),
    WrongClient("waits for one server until the call's end", "test_addresses.Alternatives.test_shares", [
        Edit(COURSE, "left / (len(self.servers) - self._missed)", "left")]),
    WrongClient("has its address's options before what it is given", "test_addresses.Given.test_arguments_come_first", [
        Edit(MANNER, "options.record if record is None else record", "options.record or record")]),
    WrongClient("pauses longer than its longest pause", "test_addresses.Retries.test_pauses", [
        Edit(COURSE, "min(self.manner.retry.largest, 2 * self._bound)", "2 * self._bound")]),
    WrongClient("counts a job's characters for its bytes", "test_jobs.Texts.test_how_long_it_may_be", [
        Edit(JOBS, 'len(made.encode(errors="surrogatepass"))', "len(made)")]),
    WrongClient("asks another shard's server", "test_shards.Places.test_each_queue", [
        Edit(SPREAD, ") % len(self.addresses)", ") % 2")]),
    WrongClient("shares one client number among its shards", "test_shards.Places.test_client_numbers", [
        Edit(SPREAD, "**self._options))", "**{**self._options, 'client': 1}))")]),
    WrongClient("ends the loop of a shard beside the call that it cancels", "test_shards.All.test_a_cancel", [
        Edit(SPREAD, "return running is not None and running.cancel() or any(", "return any(")]),
    WrongClient("closes no shard behind one that tells something", "test_shards.Unclaimed.test_a_close_that_tells_something", [
        Edit(SHARDS, "ends.callback(one.__exit__, kind, fault, trace)", "one.__exit__(kind, fault, trace)")]),
    WrongClient("leases a number beside its address's", "test_addresses.Given.test_options", [
        Edit(LEASES, "if clients is not None or addressed is None else", "if addressed is None or addressed else")]),
    WrongClient("finds out by its first reply that it can't record", "test_record.Before.test_a_folder", [
        Edit(RECORD, "    record.check()\n", "")]),
    WrongClient("takes a wrong time for a right one", "test_words.Arguments.test_of_a_call", [
        Edit(CALLS, "if isinstance(seconds, bool) or not", "if not")]),
    WrongClient(NO_PRESENCE, "clients.presence: at the double", [
        Edit(CALLS, "    if presence is None or not is_in_pieces(call, presence):", "    if True or presence is None:")]),
    WrongClient("gives its last piece more than is left", "test_presence.Pieces.test_a_time_of_its_own", [
        Edit(CALLS, "presence if left * 1000 >= presence else math.ceil(max(0.0, left) * 1000)}", "presence}")]),
    WrongClient("tells a piece that timed out as the end of its call", "test_presence.Pieces.test_one_after_another", [
        Edit(COURSE, "        if not timed_out or job.call is None or", "        if told or job.call is None or")]),
    WrongClient("asks the next piece of a call that was cancelled", "test_presence.Cancels.test_within_a_piece", [
        Edit(COURSE, "        self._leads_on()\n        return None\n",
             "        job.given_up = False\n        return None\n")]),
    WrongClient("asks on after a piece that it can't record", "test_presence.Records.test_one_that_is_not_recorded", [
        Edit(COURSE, " and job.unrecorded is None\n", "\n")]),
    WrongClient("asks another piece for a cancelled task", "test_presence.Tasks.test_as_the_answer_comes", [
        Edit(AIO, "        under_way.job.given_up = True\n        if self._course.has_news():\n            self._go_on(under_way, True)\n",
             "        if self._course.has_news():\n            self._go_on(under_way, True)\n        under_way.job.given_up = True\n")]),
    WrongClient("has exceptions without pickles", "test_processes.Pickles.test_exceptions", [
        Edit(ERRORS, "super().__init__(key, number, current, why)", "super().__init__(key)")]),
    WrongClient("counts a copy over a link that its peer had closed",
                "test_links.Kept.test_a_connection_that_the_server_closed_meanwhile", [
                    Edit(LINK, "        if not self.connected:\n            return False\n        try:\n            return",
                         "        return False\n        try:\n            return"),
                    Edit(DRIVER, "            if self._wait(FOREVER, UNHEARD):\n",
                         "            if self._wait(FOREVER, UNHEARD) and False:\n")]),
    WrongClient("leases a number that another program has", "test_leases.Programs.test_another_program", [
        Edit(BELL, "                return False\n", "                return True\n"),
        Edit(BELL, "        held.connect(held.getsockname())\n", "")]),
    WrongClient("shares its number with who allows that too", "test_leases.Programs.test_two_copies_of_the_package", [
        Edit(BELL, "        try:\n            bind(", "        held.setsockopt(socket.SOL_SOCKET, socket.SO_REUSEPORT, 1)\n"
                   "        try:\n            bind(")]),
    WrongClient("leases apart in each environment", "test_leases.Programs.test_other_environments", [
        Edit(LEASES, "place_of(user(), client)", "place_of(len(os.environ.get('XDG_RUNTIME_DIR', '')), client)")]),
    WrongClient("keeps the sockets of its parent in a forked process",
                "test_leases.Programs.test_a_number_that_outlives_its_parent", [
                    Edit(BELL, "    for bell in list(BELLS):\n", "    for bell in ():\n")]),
    WrongClient("begins by the clock alone", "test_leases.Incarnations.test_a_clock_that_stands_or_goes_back", [
        Edit(LEASES, "    return number\n\n\n# ---- from", "    return now()\n\n\n# ---- from")]),
    WrongClient("gives no number back", "test_leases.Numbers.test_the_least_free_number", [
        Edit(BELL, '        self._open.pop("socket", None)\n', "        pass\n")]),
    WrongClient("closes the descriptor of who rings", "test_leases.Places.test_who_rings_as_it_is_closed", [
        Edit(BELL, '        self._open.pop("socket", None)\n', '        held = self._open.pop("socket", None)\n'
                   "        if held is not None:\n            held.close()\n")]),
    WrongClient("keeps what strangers send", "test_leases.Places.test_what_others_send", [
        Edit(BELL, "held.connect(held.getsockname())", "self.ring = lambda: held.sendto(b'', held.getsockname())")]),
    WrongClient("is replaced where its clock was set back", "test_leases.TheServersWord.test_a_clock_that_was_set_back", [
        Edit(LEASES, "        if self._has_passed or current >= GREATEST:\n", "        if True:\n")]),
    WrongClient("begins anew where it is replaced", "test_leases.TheServersWord.test_behind_a_welcome", [
        Edit(COURSE, "if self.machine.state is m.State.NEW and isinstance(made", "if isinstance(made")]),
    WrongClient("begins anew again and again", "test_leases.TheServersWord.test_once", [
        Edit(LEASES, "self._has_passed, self.incarnation = True,", "self._has_passed, self.incarnation = False,")]),
    WrongClient("has a descriptor more than it needs", "test_leases.Descriptors.test_a_session", [
        Edit(DRIVER, 'getattr(selectors, "PollSelector", selectors.SelectSelector)', "selectors.DefaultSelector")]),
    WrongClient("takes a wrong range for none", "test_leases.Ranges.test_wrong_variables", [
        Edit(LEASES, "return range_told(os.environ[VARIABLE]) if VARIABLE in os.environ else CLIENTS",
             "return range_told(os.environ[VARIABLE]) if os.environ.get(VARIABLE) else CLIENTS")]),
    WrongClient("drops the item of a call that a handler's exception ended", "test_items.Unclaimed", [
        Edit(SESSION, "                self._shelf.keep(job)\n", "                pass\n"),
        Edit(SESSION, "        self._shelf.keep(job)\n        self._jobs.pop", "        self._jobs.pop")]),
    WrongClient("takes on behind a cancel that came late", "test_items.Loops.test_a_cancel_ends_its_take", [
        Edit(SESSION, "self._stopped = self._stopped or job.cancelled\n            return", "return")]),
    WrongClient("loses a cancel between two takes", "test_items.Loops.test_a_cancel_between_two_takes", [
        Edit(SESSION, "return running is not None and running.cancel() or loop is not None and loop.stop()",
             "return running is not None and running.cancel()")]),
    WrongClient("loses a cancel as a take begins", "test_items.Loops.test_a_cancel_at_each_line", [
        Edit(SESSION, "        if job is not None and not job.over:\n            job.cancelled",
             "        if False:\n            job.cancelled")]),
    WrongClient("goes on where no item came in time", "test_worker.Waits", [
        Edit(WORKER, "            self.stop()\n            raise StopIteration", "            raise StopIteration")]),
    WrongClient("drops the item that came with a worker's signal", "test_worker.Signals.test_while_it_waits", [
        Edit(WORKER, "if item is None else", "if item is None or self._stop else")]),
    WrongClient("has a worker's command get the terminal's signal", "test_worker.Signals.test_while_a_command_runs", [
        Edit(WORKER, "return subprocess.Popen(words, stdin=stdin, start_new_session=True)",
             "return subprocess.Popen(words, stdin=stdin)")]),
    WrongClient("ends a worker by a failure", "test_worker.Failures.test_it_goes_on", [
        Edit(WORKER, "Status.COMMAND_FAILED if self._work.stops_on_failure else ends", "Status.COMMAND_FAILED")]),
    WrongClient("tells an item that nobody asked for", "test_worker.Failures.test_it_goes_on", [
        Edit(WORKER, ' if self._work.shows_items else ""', "")]),
    WrongClient("drops the item of a cancelled task", "test_aio.Cancels.test_the_next_take_gives_it", [
        Edit(AIO, "            self._shelf.keep(left.job)\n", "")]),
    WrongClient("gives an unclaimed item twice", "test_aio.Cancels.test_at_each_step_of_the_event_loop", [
        Edit(UNCLAIMED, "self._kept.pop(place, None) is not None:", "place in self._kept:")]),
    WrongClient("has an item unclaimed again after its claim", "test_aio.Once.test_calls_after_a_take", [
        Edit(UNCLAIMED, "[] if job.shelved else taken_by(job)", "taken_by(job)"),
        Edit(AIO, "        self._left = None\n\n    def _has_room",
             "        if self._left is not None:\n            self._shelf.keep(self._left.job)\n        self._left = None\n\n"
             "    def _has_room")]),
    WrongClient("tells an outcome whose item was claimed", "test_aio.Once.test_calls_after_a_drain", [
        Edit(AIO, " and not self._shelf.lacks(left.job):", ":")]),
    WrongClient("throws away an answer that has come with the cancel", "test_aio.Cancels.test_an_answer_that_is_here", [
        Edit(AIO, "        if self._course.has_news():\n            self._go_on(under_way, True)\n", "")]),
    WrongClient("asks on before a cancelled request is settled", "test_aio.Cancels.test_the_next_call_waits_for_it", [
        Edit(AIO, "            await self._settled(job)\n", "")]),
    WrongClient("cancels nothing for a cancelled task", "test_aio.Cancels.test_it_goes_on_at_once", [
        Edit(AIO, "            self._settling = self._event_loop.create_task(self._to_its_end(under_way))\n",
             "            pass\n")]),
    WrongClient("gives a cancelled request up later than its task may ask on", "test_aio.Cancels.test_a_call_in_the_same_step", [
        Edit(AIO, "        self._go_on(under_way, False)\n        if not", "        if not")]),
    WrongClient("keeps its number where its block can't begin", "test_aio.Tasks.test_a_block_that_can_not_begin", [
        Edit(AIO, "            self._closed = True\n            self._end()\n            raise\n", "            raise\n")]),
    WrongClient("has two tasks ask at once", "test_aio.Tasks.test_a_second_task", [
        Edit(AIO, "        if self._job is not None:\n            raise", "        if False:\n            raise")]),
    WrongClient("closes before a cancelled request is settled", "test_aio.Tasks.test_a_block_that_is_left_by_a_timeout", [
        Edit(AIO, "        await self._to_its_end(self._left)\n", "")]),
    WrongClient("closes before a task hears that it was cancelled", "test_closes.Tasks.test_each_moment", [
        Edit(AIO, "            await asyncio.wait([self._idle], timeout=FAREWELL)\n", "")]),
    WrongClient("leaves the request of a call that its close ended", "test_closes.Tasks.test_each_moment", [
        Edit(AIO, "not (runs or machine.giving_up):", "not machine.giving_up:")]),
    WrongClient("closes before an interrupted request is settled", "test_closes.Threads.test_after_a_second_exception", [
        Edit(SESSION, "            self._await(farewell)\n", "")]),
    WrongClient("drops what a call took that two exceptions ended",
                "test_interrupts.Interrupts.test_a_close_after_two_exceptions", [
                    Edit(SESSION, '        self._collect("job")\n', "")]),
    WrongClient(TELLS_WRONG, "clients.crowds: at the double", [
        Edit(ENDINGS, "return outcome.item if", "return outcome.item[::-1] if")]),
    WrongClient(TELLS_WRONG + ", once", "test_record.Lines.test_each_reply", [
        Edit(ENDINGS, "return outcome.item if", "return outcome.item[1:] if")]),
    WrongClient(NOTHING_GIVEN, "clients.crowds: at the double", [
        Edit(ENDINGS, "isinstance(outcome, (replies.Item, replies.Swapped,", "isinstance(outcome, (replies.Swapped,")]),
    WrongClient("tells a receipt without its consumer", "test_record.Lines.test_each_reply", [
        Edit(ENDINGS, "return cast(Receipt, outcome)", "return Receipt(outcome.key)")]),
    WrongClient(CANCEL_RECORDED, "test_record.Lines.test_once_it_is_known", [
        Edit(COURSE, "if made.machine.flying is m.Flying.REQUEST:", "if made.machine.key is not None:")]),
    WrongClient(NEW_RECORD, "test_record.Places.test_what_is_there_stays", [
        Edit(RECORD, "os.O_WRONLY | os.O_APPEND |", "os.O_WRONLY | os.O_TRUNC |")]),
    WrongClient("writes where it believes the end to be", "test_record.Lines.test_one_write", [
        Edit(RECORD, "os.O_WRONLY | os.O_APPEND |", "os.O_WRONLY |"),
        Edit(RECORD, "                written", "                os.lseek(file, 0, os.SEEK_END)\n                written")]),
    WrongClient("writes a line in two pieces", "test_record.Lines.test_one_write", [
        Edit(RECORD, "written = os.write(file, line)", "written = os.write(file, line[:9]) + os.write(file, line[9:])")]),
    WrongClient("records a reply once its call is told", "test_record.Lines.test_before_anybody_is_told", [
        Edit(COURSE, "            job.unrecorded = self", "            self.last = made.tell.outcome\n            job.unrecorded = self")]),
    WrongClient("records that a request waits", "test_record.Lines.test_what_is_no_reply", [
        Edit(COURSE, "            self._leads_on()\n            if made",
             "            self._recorded(Outcome(self.machine.key), body)\n            self._leads_on()\n            if made")]),
    WrongClient("takes a line that was cut for a whole one", "test_record.NotWritten.test_a_line_that_is_cut", [
        Edit(RECORD, "if written < len(line):", "if written < 1:")]),
    WrongClient(DROPS_REPLY, "test_record.NotWritten.test_whatever_is_in_the_way", [
        Edit(ERRORS, "self.outcome, self.line = outcome, line", "self.outcome, self.line = Outcome(outcome.key), line")]),
    WrongClient("tells nobody what a handler hid of its record", "test_record.NotWritten.test_what_a_handler_hides", [
        Edit(SESSION, '            self._hidden["fault"] = fault\n', "            pass\n")]),
    WrongClient("swallows an item with what its block's end hides", "test_record.NotWritten.test_a_close_behind_it", [
        Edit(SESSION, "        if kind is None:\n            self._tell_hidden()\n",
             "        try:\n            self._tell_hidden()\n        except errors.NotRecorded:\n            pass\n")]),
    WrongClient("tells nobody what of a cancelled task can't be recorded", "test_record.Tasks.test_where_it_has_none", [
        Edit(AIO, "        if left.job.unrecorded is not None:\n", "        if False:\n")]),
    WrongClient("gives an item that its exception has told", "test_record.Tasks.test_where_it_has_none", [
        Edit(AIO, "            self._shelf.forget(fault.outcome.key)\n", "")]),
    WrongClient("claims an item that an exception is to tell", "test_record.NotWritten.test_a_claim_after_it", [
        Edit(SESSION, "        if fault is not None and fault.outcome.key == one.key:\n", "        if False:\n")]),
    WrongClient("claims an item of a cancelled task that an exception is to tell", "test_record.Tasks.test_where_it_has_none", [
        Edit(AIO, "        if fault is not None and fault.outcome.key == one.key:\n", "        if False:\n")]),
    WrongClient("waits in its close as long as for an answer", "test_aio.Tasks.test_a_close_beside_a_silent_server", [
        Edit(AIO, "        self._left.job.give_up(FAREWELL)\n", "")]),
]
