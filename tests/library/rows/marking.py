"""Files that a host's program marks as dirty: what the terminal is told and when, what stays as it was, and what refuses a mark."""
from checks import expect_equal
from frames import frame, messages, stamps
from sulgrevad import Host

from .joining import answered_host, carry, session, state_of
from .trying import answers, code_of

FILE = 1

# Messages of which some make the file dirty or clean, and what a mark of it after each tells.
MARKED_AFTER = (
    (("Tversion", 2), [("Hdirty", FILE)]),
    (("Tstartfile", FILE), []),
    (("Twrite", FILE), [("Hdirty", FILE)]),
    (("Twrite", FILE), [("Hdirty", FILE)]),
    (("Ttype", FILE, 0, "x"), []),
    (("Tstartcmdfile",), []),
    (("Twrite", FILE), [("Hdirty", FILE)]),
    (("Texit",), []),
)


def marked(host, tag=FILE):
    """What the host tells by a mark."""
    host.mark_dirty(tag)
    return messages(host.take_out())


def test_a_mark_is_told_once():
    host = answered_host()
    expect_equal((host.is_dirty(FILE), marked(host), host.is_dirty(FILE)), (False, [("Hdirty", FILE)], True))
    expect_equal((marked(host), host.is_dirty(FILE)), ([], True))


def test_a_mark_is_told_wherever_the_file_is_clean():
    host = Host()
    host.add_file("file", "one")
    for message, told in MARKED_AFTER:
        host.feed(frame(*message))
        host.take_out()
        expect_equal((message, marked(host)), (message, told))


def test_a_mark_changes_nothing_else():
    host = answered_host()
    for message in (("Tstartfile", FILE), ("Ttype", FILE, 0, "x"), ("Twrite", FILE), ("Tdclick", FILE, 1)):
        answers(host, *message)
    _, (command, (tag, name, text, is_dirty, dot)), *others = state_of(host)
    expect_equal((is_dirty, host.saved(FILE), marked(host)), (False, "xone", [("Hdirty", FILE)]))
    expect_equal(state_of(host), (2, [command, (tag, name, text, True, dot)], *others))
    expect_equal(host.saved(FILE), "xone")


def test_a_mark_has_the_count_of_messages():
    host = answered_host()
    host.mark_dirty(FILE)
    expect_equal((stamps(host.take_out()), host.taken), ([1], 1))


def test_a_mark_stands_behind_answers_and_before_messages_that_wait():
    host = answered_host()
    host.feed(frame("Tstartfile", FILE))
    host.bring(frame("Tcheck", FILE) + frame("Twrite", FILE))
    host.step()  # the Tcheck is answered, and the answer is not pending yet
    opened = [("Hbindname", FILE), ("Hgrow", FILE, 0, 3), ("Hunlock",)]
    expect_equal((messages(host.take_out()), marked(host)), (opened, [("Hcheck", FILE), ("Hdirty", FILE)]))
    host.feed()
    expect_equal((messages(host.take_out()), host.is_dirty(FILE)), ([("Hclean", FILE), ("Hunlockfile", FILE)], False))


def test_a_failed_write_ends_dirty_at_both_sides():
    host, terminal = session()
    terminal.open(FILE)
    carry(terminal, host)
    terminal.type(FILE, "x")
    terminal.write(FILE)
    terminal.flush_now()
    host.feed(terminal.take_out())
    expect_equal(list(host.written()), [FILE])
    host.mark_dirty(FILE)
    carry(terminal, host)
    expect_equal((terminal.is_dirty(FILE), terminal.is_changed(FILE), host.is_dirty(FILE)), (True, True, True))
    expect_equal((terminal.locked(FILE), terminal.dot(FILE), host.text(FILE)), (False, (1, 1), "xone"))
    terminal.write(FILE)
    carry(terminal, host)
    expect_equal((terminal.is_dirty(FILE), terminal.is_changed(FILE), host.is_dirty(FILE)), (False, False, False))


def test_a_mark_frees_no_lock():
    host, terminal = session()
    terminal.open(FILE)
    carry(terminal, host)
    terminal.write(FILE)
    host.mark_dirty(FILE)
    terminal.feed(host.take_out())
    expect_equal((terminal.is_dirty(FILE), terminal.locked(FILE)), (True, True))


def test_a_file_that_is_not_open_is_marked():
    host, terminal = session()
    host.mark_dirty(FILE)
    carry(terminal, host)
    expect_equal((terminal.is_dirty(FILE), terminal.is_open(FILE)), (True, False))


def test_a_new_file_of_the_terminal_is_marked():
    host = answered_host()
    answers(host, "Tstartnewfile")
    expect_equal(marked(host, 2), [("Hdirty", 2)])


def test_marks_are_refused_in_order():
    host = answered_host()
    host.add_file("late", "two")
    answers(host, "Tstartnewfile")
    answers(host, "Tclose", 3)
    before = state_of(host)
    expect_equal([code_of(host.mark_dirty, tag) for tag in (4, 3, 65_535)], ["NONE"] * 3)
    expect_equal(code_of(host.mark_dirty, 0), "MARK_COMMAND_FILE")
    expect_equal(code_of(host.mark_dirty, 2), "MARK_NOT_ANNOUNCED")
    expect_equal(state_of(host), before)
    answers(host, "Tversion", 2)
    expect_equal(marked(host, 2), [("Hdirty", 2)])


def test_a_file_is_marked_after_the_end():
    host = answered_host()
    expect_equal(answers(host, "Texit"), [("Hexit",)])
    expect_equal((marked(host), host.is_dirty(FILE), host.is_done), ([("Hdirty", FILE)], True, True))


def test_a_file_of_a_host_that_has_stopped_is_marked():
    host = answered_host()
    expect_equal(code_of(host.feed, frame("Tstartfile", 2)), "HOST_NO_FILE")
    expect_equal((marked(host), host.is_dirty(FILE), code_of(host.feed)), ([("Hdirty", FILE)], True, "HOST_NO_FILE"))


def test_a_host_is_made_again_from_its_stream_and_its_marks():
    first, again = Host(), Host()
    for host in (first, again):
        host.add_file("file", "one")
    told, marks = b"", []
    for message, _ in MARKED_AFTER:
        first.feed(frame(*message))
        first.mark_dirty(FILE)
        marks.append(first.taken)
        told += first.take_out()
    for byte in b"".join(frame(*message) for message, _ in MARKED_AFTER):
        again.feed(bytes([byte]))
        if marks and marks[0] == again.taken:
            again.mark_dirty(FILE)
            marks.pop(0)
    expect_equal((marks, again.take_out() == told, state_of(again)), ([], True, state_of(first)))
