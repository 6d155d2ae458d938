"""Events that change a text, a dot or a view, and what they compose."""
from sulgrevad import Terminal

from .trying import expect_equal, expect_sent, five_gaps, open_file, refusals, take


def typed_two():
    """A terminal with five gaps, before which `X` and then `Y` were typed."""
    terminal = five_gaps()
    terminal.type(1, "X")
    terminal.type(1, "Y")
    expect_sent(terminal)
    return terminal


def typed_sent_and_selected():
    """The same, once these two runes are sent and selected."""
    terminal = typed_two()
    terminal.flush()
    expect_sent(terminal, ("Ttype", 1, 0, "XY"))
    terminal.select(1, 0, 2)
    expect_sent(terminal)
    return terminal


def with_two_selected():
    """A terminal with five gaps, two of them selected."""
    terminal = five_gaps()
    terminal.select(1, 0, 2)
    expect_sent(terminal)
    return terminal


def test_a_view_asks_for_its_gap():
    terminal = five_gaps()
    terminal.view(1, 0, 5)
    expect_sent(terminal, ("Trequest", 1, 0, 5))


def test_a_snarf_copies_the_dot():
    terminal = with_two_selected()
    terminal.snarf(1)
    expect_sent(terminal, ("Tsnarf", 1, 0, 2))
    expect_equal((terminal.len(1), terminal.is_changed(1)), (5, False))


def test_a_cut_copies_the_dot_and_takes_it_out():
    terminal = with_two_selected()
    terminal.cut(1)
    expect_sent(terminal, ("Tsnarf", 1, 0, 2), ("Tcut", 1, 0, 2))
    expect_equal((terminal.len(1), terminal.sent, terminal.dot(1)), (3, 2, (0, 0)))


def test_a_typed_file_is_changed_until_it_is_written():
    terminal = five_gaps()
    told = [terminal.is_changed(1)]
    terminal.type(1, "X")
    told.append(terminal.is_changed(1))
    take(terminal, "Hclean", 1)
    told.append(terminal.is_changed(1))
    expect_equal(told, [False, True, False])
    expect_sent(terminal)


def test_a_cut_file_is_changed_until_it_is_written():
    terminal = with_two_selected()
    terminal.cut(1)
    told = [terminal.is_changed(1)]
    take(terminal, "Hdirty", 1)
    told.append(terminal.is_changed(1))
    take(terminal, "Hclean", 1)
    told.append(terminal.is_changed(1))
    expect_equal(told, [True, True, False])


def test_the_host_tells_of_a_changed_file():
    terminal = five_gaps()
    terminal.type(1, "")
    expect_sent(terminal)
    expect_equal((refusals(terminal), terminal.is_changed(1)), ([], False))
    take(terminal, "Hdirty", 1)
    expect_equal((terminal.is_changed(1), terminal.is_dirty(1), terminal.is_changed(2)), (True, True, False))


def test_a_selection_waits_for_a_paste():
    terminal = five_gaps()
    terminal.paste(1)
    expect_sent(terminal, ("Tpaste", 1, 0))
    terminal.select(1, 0, 2)
    expect_equal((terminal.held, terminal.dot(1)), (1, (0, 0)))


def test_a_paste_over_a_dot_cuts_it():
    terminal = five_gaps()
    terminal.select(1, 1, 3)
    terminal.paste(1)
    expect_sent(terminal, ("Tcut", 1, 1, 3), ("Tpaste", 1, 1))
    expect_equal((terminal.len(1), terminal.dot(1)), (3, (1, 1)))


def test_runes_for_the_snarf_buffer():
    terminal = Terminal()
    terminal.set_snarf("ab")
    expect_sent(terminal, ("Tsetsnarf", "ab"))
    terminal.set_snarf("a" * 4_097)
    terminal.flush()
    expect_equal((refusals(terminal), terminal.sent), (["TEXT_TOO_LONG"], 1))
    expect_sent(terminal)
    terminal.set_snarf("a" * 4_096)
    expect_sent(terminal, ("Tsetsnarf", "a" * 4_096))


def test_typing_waits_for_what_the_view_asked_for():
    terminal = five_gaps()
    terminal.view(1, 0, 5)
    expect_sent(terminal, ("Trequest", 1, 0, 5))
    terminal.type(1, "X")
    expect_equal(terminal.held, 1)
    take(terminal, "Hdata", 1, 0, "ab cd")
    expect_equal((terminal.held, terminal.text(1)), (1, "ab cd"))
    take(terminal, "Hunlockfile", 1)
    expect_equal((terminal.held, terminal.text(1)), (0, "Xab cd"))
    expect_sent(terminal)


def test_typed_runes_are_sent_together():
    terminal = typed_two()
    expect_equal(terminal.unsent, 2)
    terminal.flush()
    expect_sent(terminal, ("Ttype", 1, 0, "XY"))
    expect_equal((terminal.unsent, terminal.sent, terminal.dot(1), terminal.len(1)), (0, 1, (2, 2), 7))


def test_a_flush_sends_typed_runes():
    terminal = typed_two()
    terminal.flush_now()
    expect_sent(terminal, ("Ttype", 1, 0, "XY"))
    expect_equal(terminal.unsent, 0)


def test_typing_over_a_dot_cuts_it():
    terminal = typed_sent_and_selected()
    terminal.type(1, "Z")
    expect_sent(terminal, ("Tcut", 1, 0, 2))
    expect_equal((terminal.unsent, terminal.dot(1)), (1, (1, 1)))
    expect_equal((terminal.len(1), terminal.read(1, 0, 2)), (6, ["Z", None]))


def test_typing_nothing_over_a_dot_cuts_it():
    terminal = typed_sent_and_selected()
    terminal.type(1, "")
    expect_sent(terminal, ("Tcut", 1, 0, 2))
    expect_equal((terminal.unsent, terminal.len(1)), (0, 5))


def test_typing_beside_a_locked_file_does_not_wait():
    terminal = five_gaps()
    open_file(terminal, 2)
    terminal.paste(1)
    expect_sent(terminal, ("Tpaste", 1, 0))
    terminal.type(2, "b")
    expect_sent(terminal)
    expect_equal((terminal.unsent, terminal.held, terminal.text(2)), (1, 0, "b"))


def test_a_command_line_is_sent_at_once():
    terminal = Terminal()
    open_file(terminal, 0)
    terminal.type(0, ",d\n")
    expect_sent(terminal, ("Ttype", 0, 0, ",d\n"))
    expect_equal((terminal.command_locked, terminal.unsent), (True, 0))
