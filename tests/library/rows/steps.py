"""Single steps of a host and a terminal: bytes are brought, and each step does one thing and says what."""
from checks import expect_equal
from frames import frame, kinds
from sulgrevad import Change, Host, HostDid, Status, Step, Terminal, TerminalDid

from .hosts import EVERY_KIND, host_of
from .trying import code_of, expect_sent, host_with, messages, take_all, with_gaps

NO_KIND = bytes([255, 0, 0])  # begins no message and no frame


def number(name):
    """The number of a kind."""
    return kinds()[name][0]


def answered(name, tag=0):
    return HostDid(Step.ANSWERED, number(name), tag, 1)


def edited(tag, count):
    return HostDid(Step.EDITED, 0, tag, count)


def received(name, tag=0, change=(0, 0, 0)):
    return TerminalDid(Step.RECEIVED, number(name), tag, Change(*change), loads=name == "Hdata")


def acted(event, tag=0, change=(0, 0, 0)):
    return TerminalDid(Step.ACTED, 0, tag, Change(*change), event)


def refused(event, why):
    return TerminalDid(Step.REFUSED, event=event, why=why)


WROTE, IDLE = HostDid(Step.WROTE), HostDid(Step.IDLE)
COMPOSED, AT_REST, LOCKED = TerminalDid(Step.WROTE), TerminalDid(Step.IDLE), TerminalDid(Step.LOCKED)


def expect_steps(side, *wanted):
    """These are the next steps."""
    expect_equal([side.step() for _ in wanted], list(wanted))


# ---- The host


def test_a_step_answers_one_message():
    host = host_of("abc")
    host.bring(frame("Tstartfile", 1) + frame("Tcheck", 1))
    expect_equal((host.next_message(), host.taken), ((number("Tstartfile"), 1), 0))
    expect_steps(host, answered("Tstartfile", 1))
    expect_equal((host.taken, host.pending, host.next_message()), (1, 0, (number("Tcheck"), 1)))
    expect_steps(host, WROTE)
    expect_equal(messages(host.take_out()), [("Hbindname", 1), ("Hgrow", 1, 0, 3), ("Hunlock",)])
    expect_steps(host, answered("Tcheck", 1), WROTE, IDLE, IDLE)
    expect_equal((messages(host.take_out()), host.next_message()), ([("Hcheck", 1)], None))


def test_a_message_that_names_no_file_has_tag_0():
    host = Host()
    host.bring(frame("Tversion", 2) + frame("Tack") + frame("Texit"))
    expect_equal(host.next_message(), (number("Tversion"), 0))
    expect_steps(host, answered("Tversion"), WROTE, answered("Tack"), answered("Texit"), WROTE, IDLE)
    expect_equal(host.is_done, True)


def test_edits_of_one_file_are_one_step():
    host = host_with("abcdef", "ghi")
    host.bring(
        frame("Ttype", 1, 0, "x") + frame("Tcut", 1, 1, 3) + frame("Ttype", 1, 0, "yz")
        + frame("Tcut", 2, 0, 1) + frame("Ttype", 2, 2, "w")
        + frame("Ttype", 1, 0, "q") + frame("Twrite", 1)
    )  # fmt: skip
    expect_equal(host.next_message(), (number("Ttype"), 1))
    expect_steps(host, edited(1, 3))
    expect_equal((host.text(1), host.text(2), host.taken), ("yzxcdef", "ghi", 5))
    expect_steps(host, edited(2, 2))
    expect_equal((host.text(1), host.text(2), host.taken), ("yzxcdef", "hiw", 7))
    expect_steps(host, answered("Ttype", 1))
    expect_equal(host.text(1), "qyzxcdef")
    expect_steps(host, answered("Twrite", 1), WROTE, IDLE)
    expect_equal(list(host.written()), [1])


def test_checks_among_edits_are_answered_with_them():
    one, many = host_with("abcdef", "ghi"), host_with("abcdef", "ghi")
    run = (
        frame("Ttype", 1, 0, "x"), frame("Tcheck", 1), frame("Tcut", 1, 1, 3), frame("Tcheck", 2), frame("Tcheck", 1),
        frame("Ttype", 1, 0, "yz"), frame("Tcheck", 1),
    )  # fmt: skip
    many.bring(b"".join(run) + frame("Tcheck", 0))
    expect_steps(many, edited(1, 7))
    expect_equal((many.text(1), many.taken, many.pending), ("yzxcdef", 9, 0))
    expect_steps(many, WROTE)
    for message in run:
        one.feed(message)
    told, seen = ((1, 4), (2, 6), (1, 7), (1, 9)), many.take_out()
    expect_equal(seen, b"".join(frame("Hcheck", tag, seen=stamp) for tag, stamp in told))
    expect_equal((seen, many.text(1), many.taken), (one.take_out(), one.text(1), one.taken))
    expect_equal(code_of(many.step), "HOST_NOT_OPEN")  # the command file, which no terminal has opened


def test_a_check_in_front_of_edits_is_a_step_of_its_own():
    host = host_with("abc")
    host.bring(frame("Tcheck", 1) + frame("Ttype", 1, 0, "x") + frame("Tcheck", 1) + frame("Twrite", 1))
    expect_steps(host, answered("Tcheck", 1), WROTE, answered("Ttype", 1), answered("Tcheck", 1), WROTE, answered("Twrite", 1), WROTE, IDLE)


def test_edits_in_front_of_a_refused_one_are_one_step():
    host = host_with("abc")
    host.bring(frame("Ttype", 1, 0, "x") + frame("Tcut", 1, 0, 99))
    expect_steps(host, edited(1, 1))
    expect_equal((code_of(host.step), host.text(1)), ("HOST_BAD_POSITION", "xabc"))


def test_checks_in_front_of_a_refused_edit_are_answered():
    host = host_with("abc")
    host.bring(frame("Ttype", 1, 0, "x") + 2 * frame("Tcheck", 1) + frame("Tcut", 1, 0, 99) + frame("Tcheck", 1))
    expect_steps(host, edited(1, 3), WROTE)
    expect_equal((code_of(host.step), host.text(1)), ("HOST_BAD_POSITION", "xabc"))
    expect_equal(host.take_out(), frame("Hcheck", 1, seen=3) + frame("Hcheck", 1, seen=4))


def test_edits_in_front_of_a_refused_check_are_one_step():
    host = host_with("abc")
    host.bring(frame("Ttype", 1, 0, "x") + frame("Tcheck", 1) + frame("Ttype", 1, 0, "y") + frame("Tcheck", 9) + frame("Ttype", 1, 0, "z"))
    expect_steps(host, edited(1, 3), WROTE)
    expect_equal((code_of(host.step), host.text(1), host.taken), ("HOST_NO_FILE", "yxabc", 4))


def test_a_text_is_saved_before_its_file_closes():
    host = host_with("abc")
    host.bring(frame("Ttype", 1, 3, "d") + frame("Twrite", 1) + frame("Tclose", 1))
    expect_steps(host, answered("Ttype", 1), answered("Twrite", 1))
    expect_equal((host.next_written(), host.saved(1)), (1, "abcd"))
    expect_steps(host, WROTE)
    expect_equal((host.next_message(), host.has_file(1)), ((number("Tclose"), 1), True))
    expect_steps(host, answered("Tclose", 1))
    expect_equal(host.has_file(1), False)


def test_no_piece_is_brought_while_something_waits():
    host = host_of("abc")
    start, check = frame("Tstartfile", 1), frame("Tcheck", 1)
    host.bring(start[:2])
    expect_steps(host, IDLE)
    host.bring(start[2:] + check[:1])
    expect_equal(code_of(host.bring, check[1:]), "WAITING")
    expect_steps(host, answered("Tstartfile", 1))
    expect_equal((code_of(host.bring, check[1:]), code_of(host.bring, b""), host.next_message()), ("WAITING", "WAITING", None))
    expect_steps(host, WROTE, IDLE)
    host.bring(check[1:])
    expect_steps(host, answered("Tcheck", 1), WROTE, IDLE)
    expect_equal(host.taken, 2)


def test_a_host_stops_at_the_step_of_a_refused_message():
    host = host_with("abc")
    host.bring(frame("Tcheck", 1) + frame("Tcut", 1, 0, 9) + frame("Tcheck", 1))
    expect_steps(host, answered("Tcheck", 1), WROTE)
    expect_equal((code_of(host.step), code_of(host.step)), ("HOST_BAD_POSITION", "HOST_BAD_POSITION"))
    expect_equal((host.taken, host.next_message()), (2, (number("Tcut"), 1)))
    expect_equal((code_of(host.bring, b""), messages(host.take_out())), ("HOST_BAD_POSITION", [("Hcheck", 1)]))


def test_a_host_stops_at_a_fault_of_the_stream_after_all_messages():
    host = host_with("abc")
    host.bring(frame("Tcheck", 1) + NO_KIND)
    expect_equal(code_of(host.bring, b""), "WAITING")
    expect_steps(host, answered("Tcheck", 1), WROTE)
    expect_equal((code_of(host.bring, b""), code_of(host.step), code_of(host.bring, b"")), ("WAITING", "BAD_KIND", "BAD_KIND"))
    expect_equal(messages(host.take_out()), [("Hcheck", 1)])


def test_steps_answer_each_kind_as_a_feed_does():
    fed, stepped = host_of("abcdefghij"), host_of("abcdefghij")
    for message, count in EVERY_KIND:
        name, values = message[0], message[1:]
        fed.feed(frame(*message))
        stepped.bring(frame(*message))
        tag = values[0] if values and name not in ("Tversion", "Tsetsnarf") else 0
        expect_steps(stepped, answered(name, tag), *([WROTE] if count else []), IDLE)
        expect_equal(stepped.take_out(), fed.take_out())


# ---- The terminal


def test_a_step_receives_one_frame_and_tells_what_it_changed():
    terminal = Terminal()
    told = (
        (("Hnewname", 1), (0, 0, 0)),
        (("Hmovname", 1, "name"), (0, 0, 0)),
        (("Hbindname", 1), (0, 0, 0)),
        (("Hgrow", 1, 0, 5), (0, 0, 5)),
        (("Hdata", 1, 2, "cd"), (2, 2, 2)),
        (("Hgrowdata", 1, 4, "xyz"), (4, 0, 3)),
        (("Hcut", 1, 1, 2), (1, 2, 0)),
        (("Hsetdot", 1, 1, 2), (0, 0, 0)),
        (("Hdirty", 1), (0, 0, 0)),
        (("Hclose", 1), (0, 6, 0)),
        (("Hdelname", 1), (0, 0, 0)),
    )
    terminal.bring(b"".join(frame(*message) for message, _ in told))
    expect_steps(terminal, *(received(message[0], 1, change) for message, change in told), AT_REST, AT_REST)
    expect_equal(terminal.is_known(1), False)


def test_a_frame_that_names_no_file_has_tag_0():
    terminal = Terminal()
    terminal.bring(frame("Hsetpat", "abc") + frame("Hsnarflen", 3) + frame("Hack"))
    expect_steps(terminal, received("Hsetpat"), received("Hsnarflen"), received("Hack"))
    expect_equal((terminal.pattern, terminal.pending), ("abc", 0))
    expect_steps(terminal, COMPOSED, AT_REST)
    expect_sent(terminal, ("Tack",))


def test_an_event_acts_at_a_step_once_its_lock_is_free():
    terminal = with_gaps(5)
    terminal.select(1, 1, 3)
    terminal.write(1)
    terminal.type(1, "xyz")
    expect_sent(terminal, ("Twrite", 1))
    expect_steps(terminal, LOCKED)
    terminal.bring(frame("Hclean", 1, seen=1) + frame("Hunlockfile", 1, seen=1))
    expect_steps(terminal, received("Hclean", 1))
    expect_equal((terminal.len(1), terminal.decided), (5, 2))
    expect_steps(terminal, received("Hunlockfile", 1), acted(3, 1, (1, 2, 3)))
    expect_equal((terminal.len(1), terminal.decided, terminal.pending > 0), (6, 3, False))
    expect_steps(terminal, COMPOSED, AT_REST)
    expect_sent(terminal, ("Tcut", 1, 1, 3))
    terminal.flush_now()
    expect_sent(terminal, ("Ttype", 1, 1, "xyz"))


def test_a_refused_event_is_a_step_of_its_own():
    terminal = Terminal()
    terminal.offer_version(2)
    terminal.open_cmd()
    terminal.cut(7)
    expect_sent(terminal, ("Tversion", 2))
    expect_steps(terminal, LOCKED)
    terminal.bring(frame("Hunlock", seen=1))
    expect_steps(terminal, received("Hunlock"), acted(2), COMPOSED, LOCKED)
    expect_sent(terminal, ("Tstartcmdfile",))
    terminal.bring(frame("Hunlock", seen=2))
    expect_steps(terminal, received("Hunlock"), refused(3, Status.REFUSAL_NO_FILE), AT_REST)
    expect_equal((terminal.next_refusal(), terminal.next_refusal()), ((3, Status.REFUSAL_NO_FILE), None))


def test_no_frames_are_brought_while_something_waits():
    terminal = Terminal()
    bound = frame("Hnewname", 1) + frame("Hbindname", 1)
    terminal.bring(bound[:5])
    expect_steps(terminal, AT_REST)
    terminal.bring(bound[5:])
    expect_equal(code_of(terminal.bring, b""), "WAITING")
    expect_steps(terminal, received("Hnewname", 1))
    expect_equal(code_of(terminal.bring, b""), "WAITING")
    expect_steps(terminal, received("Hbindname", 1))
    terminal.bring(b"")
    expect_steps(terminal, AT_REST)


def test_a_terminal_stops_at_the_step_of_a_refused_frame():
    terminal = Terminal()
    terminal.bring(frame("Hnewname", 1) + frame("Hgrow", 1, 0, 1) + frame("Hnewname", 2))
    expect_steps(terminal, received("Hnewname", 1))
    expect_equal((code_of(terminal.step), code_of(terminal.step), code_of(terminal.bring, b"")), ("TERM_NOT_OPEN",) * 3)
    expect_equal((terminal.is_known(1), terminal.is_known(2)), (True, False))


def test_a_terminal_stops_at_a_fault_of_the_stream_before_events_act():
    terminal = Terminal()
    terminal.offer_version(2)
    terminal.open_cmd()
    terminal.bring(frame("Hunlock", seen=1) + NO_KIND)
    expect_steps(terminal, received("Hunlock"))
    expect_equal((code_of(terminal.step), code_of(terminal.bring, b""), terminal.decided), ("BAD_KIND", "BAD_KIND", 1))


def test_steps_leave_a_terminal_as_a_feed_does():
    fed, stepped = with_gaps(5), with_gaps(5)
    told = frame("Hdata", 1, 0, "abcde") + frame("Hcut", 1, 1, 1) + frame("Hack") + frame("Hgrowdata", 1, 4, "z")
    fed.feed(told)
    stepped.bring(told)
    while stepped.step().step not in (Step.IDLE, Step.LOCKED):
        pass
    expect_equal((stepped.text(1), stepped.changed(1), stepped.take_out()), (fed.text(1), fed.changed(1), fed.take_out()))
    take_all(stepped, ("Hclose", 1))
    expect_equal(stepped.is_open(1), False)
