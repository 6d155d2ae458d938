"""A terminal: what it refuses, what locks it takes, and what the host does to its texts."""
import random

from frames import frame
from sulgrevad import Status, Terminal

from .trying import code_of, expect_equal, expect_sent, five_gaps, refusals, refused, take, take_all


def test_an_answer_to_what_was_not_sent_is_refused():
    for seen, told in ((2, "TERM_FROM_THE_FUTURE"), (1, None)):
        terminal = Terminal()
        terminal.offer_version(1)
        expect_sent(terminal, ("Tversion", 1))
        expect_equal(terminal.sent, 1)
        if told:
            expect_equal(refused(terminal, "Hversion", 1, seen=seen), told)
        else:
            take(terminal, "Hversion", 1, seen=seen)


def test_frames_that_no_host_sends_are_refused():
    for message, told in (
        (("Hunlock",), "TERM_LOCK_NOT_HELD"),
        (("Hunlockfile", 1), "TERM_LOCK_NOT_HELD"),
        (("Hunlockfile", 2), "TERM_NO_FILE"),
        (("Hbindname", 1), "TERM_ALREADY_BOUND"),
        (("Hdelname", 1), "TERM_ALREADY_BOUND"),
    ):
        expect_equal((message, refused(five_gaps(), *message)), (message, told))


def test_a_refused_frame_changes_nothing():
    terminal = five_gaps()
    expect_equal(refused(terminal, "Hbindname", 1), "TERM_ALREADY_BOUND")
    expect_equal((terminal.dot(1), terminal.locked(1), terminal.len(1)), ((0, 0), False, 5))


def test_events_of_no_file_and_of_no_place_are_refused():
    terminal = five_gaps()
    terminal.select(1, 0, 9)
    terminal.open(0)
    expect_equal(refusals(terminal), ["BAD_POSITION", "NO_FILE"])
    take(terminal, "Hnewname", 0)
    terminal.open(0)
    expect_equal((refusals(terminal), terminal.sent), (["COMMAND_FILE"], 0))


def test_typing_too_much_and_into_no_file_is_refused():
    terminal = five_gaps()
    terminal.type(1, "a" * 513)
    terminal.type(9, "a")
    expect_equal((refusals(terminal), terminal.len(1)), (["TEXT_TOO_LONG", "NO_FILE"], 5))
    terminal.type(1, "a" * 512)
    expect_equal((refusals(terminal), terminal.len(1)), ([], 517))


def test_a_look_locks_its_file_alone():
    terminal = five_gaps()
    take(terminal, "Hnewname", 2)
    take(terminal, "Hbindname", 2)
    terminal.look(1)
    expect_sent(terminal, ("Tlook", 1, 0, 0))
    expect_equal((terminal.locked(1), terminal.locked(2), terminal.command_locked), (True, False, False))
    terminal.type(1, "a")
    expect_equal((terminal.held, terminal.len(1)), (1, 5))


def free_files(terminal, *tags):
    """Of which of these files it says that an edit would act at once, where an edit put now does just that."""
    free = [tag for tag in tags if terminal.file(tag).is_free]
    for tag in tags:
        decided = terminal.decided
        terminal.edit(tag, 0, 0, "")
        expect_equal((tag, terminal.decided == terminal.events), (tag, tag in free and decided + 1 == terminal.events))
    return free


def test_a_file_is_free_where_an_edit_acts_at_once():
    terminal = five_gaps()
    take(terminal, "Hnewname", 2)
    take(terminal, "Hbindname", 2)
    expect_equal((free_files(terminal, 1, 2), terminal.file(3).is_free), ([1, 2], False))
    terminal.look(1)  # it locks file 1
    expect_equal((terminal.file(1).is_free, free_files(terminal, 2)), (False, [2]))
    terminal.type(1, "a")  # it is held, and so is each event after it
    expect_equal((terminal.locked(2), free_files(terminal, 1, 2)), (False, []))


def test_a_file_is_not_free_once_the_session_is_over():
    terminal = five_gaps()
    take(terminal, "Hexit")
    expect_equal((terminal.locked(1), terminal.is_open(1), terminal.file(1).is_free), (False, True, False))


def test_a_file_is_not_free_while_a_frame_waits():
    terminal = five_gaps()
    terminal.bring(frame("Hgrow", 1, 0, 2))
    expect_equal((terminal.locked(1), terminal.held, terminal.file(1).is_free), (False, 0, False))
    terminal.feed(b"")
    expect_equal((terminal.len(1), terminal.file(1).is_free), (7, True))


def test_the_count_of_events_is_the_number_of_the_last():
    terminal = five_gaps()
    terminal.type(1, "a")
    terminal.select(1, 0, 99)
    number = terminal.events
    terminal.look(1)
    terminal.type(1, "a" * 513)  # held until the answer comes
    late = terminal.events
    expect_equal([(number, Status.REFUSAL_BAD_POSITION)], [*terminal.refusals()])
    expect_equal((late - number, terminal.held), (2, 1))
    terminal.take_out()
    take(terminal, "Hunlockfile", 1)
    expect_equal([(late, Status.REFUSAL_TEXT_TOO_LONG)], [*terminal.refusals()])


def test_a_command_event_waits_for_each_file():
    terminal = five_gaps()
    terminal.look(1)
    expect_sent(terminal, ("Tlook", 1, 0, 0))
    terminal.open_cmd()
    expect_sent(terminal)
    expect_equal((terminal.held, terminal.command_locked), (1, False))
    take(terminal, "Hunlockfile", 1)
    expect_sent(terminal, ("Tstartcmdfile",))
    expect_equal((terminal.held, terminal.locked(1), terminal.command_locked), (0, True, True))


def open_gaps(terminal, tag):
    """Opens a known file, with as many gaps as three requests ask for."""
    take_all(terminal, ("Hbindname", tag), ("Hgrow", tag, 0, 1_200))


def change_locks(source, terminal, locks):
    """By chance an event that takes locks of a file, or a frame that frees some. `locks` has how many each file holds."""
    tag, kind = source.choice(list(locks)), source.choice(("look", "load", "free", "close"))
    if kind == "close":
        take(terminal, "Hclose", tag)
        open_gaps(terminal, tag)
        locks[tag] = 0
    elif kind == "free" and locks[tag]:
        take(terminal, "Hunlockfile", tag)
        locks[tag] -= 1
    elif kind == "look" and not locks[tag]:
        terminal.look(tag)
        locks[tag] = 1
    elif kind == "load" and not locks[tag]:
        terminal.load(tag, 0, 1_200)
        locks[tag] = 3


def test_a_command_event_waits_for_all_locks_of_all_files():
    source = random.Random(20261128)
    for turn in range(300):
        terminal, locks = Terminal(), {1: 0, 2: 0, 3: 0}
        for tag in locks:
            take(terminal, "Hnewname", tag)
            open_gaps(terminal, tag)
        for _ in range(source.randrange(12)):
            change_locks(source, terminal, locks)
        terminal.open_cmd()
        while held := [tag for tag in locks if locks[tag]]:
            expect_equal((turn, terminal.held, terminal.command_locked), (turn, 1, False))
            tag = source.choice(held)
            take(terminal, "Hunlockfile", tag)
            locks[tag] -= 1
        expect_equal((turn, terminal.held, terminal.command_locked), (turn, 0, True))


def test_what_comes_behind_a_paste_waits():
    terminal = five_gaps()
    terminal.paste(1)
    expect_sent(terminal, ("Tpaste", 1, 0))
    terminal.type(1, "a")
    terminal.flush()
    expect_equal((terminal.held, terminal.locked(1), terminal.len(1)), (2, True, 5))
    take(terminal, "Hunlockfile", 1)
    expect_sent(terminal, ("Ttype", 1, 0, "a"))
    expect_equal((terminal.held, terminal.locked(1)), (0, False))


def test_what_the_host_puts_into_a_text_moves_the_dot():
    terminal = five_gaps()
    take_all(terminal, ("Hdata", 1, 0, "ab cd"), ("Hsetdot", 1, 1, 4))
    expect_equal((terminal.text(1), terminal.dot(1)), ("ab cd", (1, 4)))
    take(terminal, "Hgrowdata", 1, 0, "xy")
    expect_equal((terminal.text(1), terminal.dot(1)), ("xyab cd", (3, 6)))
    expect_sent(terminal)


def test_what_the_host_cuts_out_of_a_text_moves_the_dot():
    terminal = five_gaps()
    take_all(terminal, ("Hdata", 1, 0, "abcde"), ("Hsetdot", 1, 3, 5), ("Hcut", 1, 1, 3))
    expect_equal((terminal.dot(1), terminal.read(1, 0, 5)), ((1, 2), ["a", "e"]))
    expect_sent(terminal)


def test_a_closed_file_has_no_dot():
    terminal = five_gaps()
    take(terminal, "Hmovname", 1, "name")
    expect_equal(terminal.name(1), "name")
    take(terminal, "Hclose", 1)
    expect_equal((code_of(terminal.dot, 1), code_of(terminal.len, 1), terminal.is_open(1)), ("NONE", "NONE", False))
