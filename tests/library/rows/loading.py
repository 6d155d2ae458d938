"""`load`: what it asks for, what the request rule asks for after it, and when it is refused."""
from .trying import expect_equal, expect_sent, five_gaps, locks_of, refusals, take, take_all, with_gaps


def loading_round_a_rune():
    """A terminal with five gaps, of which that at place 1 is loaded, and the others are asked for."""
    terminal = five_gaps()
    take(terminal, "Hdata", 1, 1, "b")
    terminal.load(1, 0, 5)
    expect_sent(terminal, ("Trequest", 1, 0, 1), ("Trequest", 1, 2, 3))
    return terminal


def test_load_asks_for_all_gaps():
    terminal = loading_round_a_rune()
    expect_equal((terminal.sent, terminal.view_of(1)), (2, (0, 5)))
    terminal.type(1, "X")
    expect_equal((terminal.held, terminal.len(1)), (1, 5))
    expect_equal((locks_of(terminal, 1), terminal.held), (2, 0))


def test_load_asks_for_the_longest_text_whole():
    terminal = with_gaps(1_000_000)
    terminal.load(1, 0, 1_000_000)
    expect_sent(terminal, *(("Trequest", 1, place, min(512, 1_000_000 - place)) for place in range(0, 1_000_000, 512)))
    expect_equal(locks_of(terminal, 1), 1954)


def test_load_asks_for_1954_stretches_at_most():
    terminal = with_gaps(2 * 1955)
    take_all(terminal, *(("Hdata", 1, place, "x") for place in range(1, 2 * 1955, 2)))
    terminal.load(1, 0, 2 * 1955)
    expect_sent(terminal, *(("Trequest", 1, place, 1) for place in range(0, 2 * 1954, 2)))
    expect_equal(locks_of(terminal, 1), 1954)


def test_nothing_more_is_asked_for_until_all_came():
    terminal = loading_round_a_rune()
    take_all(terminal, ("Hdata", 1, 0, "a"), ("Hcheck", 1), ("Hunlockfile", 1), ("Hdata", 1, 2, "c"))
    expect_sent(terminal)
    take(terminal, "Hcheck", 1)
    expect_sent(terminal, ("Trequest", 1, 3, 2))


def test_load_of_no_gap_asks_for_nothing():
    terminal = five_gaps()
    terminal.load(1, 5, 9)
    expect_equal(terminal.view_of(1), (5, 5))
    terminal.load(1, 2, 0)
    expect_sent(terminal)
    expect_equal((terminal.locked(1), terminal.view_of(1), terminal.held), (False, (2, 2), 0))


def test_loads_are_refused_in_their_order():
    terminal = five_gaps()
    take(terminal, "Hnewname", 2)
    terminal.load(3, 0, 1)
    terminal.load(2, 0, 1)
    terminal.load(1, 6, 1)
    expect_equal(refusals(terminal), ["NO_FILE", "NOT_OPEN", "BAD_POSITION"])
    take(terminal, "Hexit")
    terminal.load(3, 0, 1)
    expect_equal((refusals(terminal), terminal.sent), (["EXITED"], 0))


def test_load_waits_for_a_lock():
    terminal = five_gaps()
    terminal.look(1)
    expect_sent(terminal, ("Tlook", 1, 0, 0))
    terminal.load(1, 0, 5)
    expect_equal((terminal.held, terminal.view_of(1)), (1, (0, 0)))
    take(terminal, "Hunlockfile", 1)
    expect_sent(terminal, ("Trequest", 1, 0, 5))
    take(terminal, "Hdata", 1, 0, "abcde")
    expect_equal((terminal.held, locks_of(terminal, 1)), (0, 1))
