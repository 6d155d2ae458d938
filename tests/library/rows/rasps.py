"""Rasps: what a terminal holds of a text that it has loaded in parts, beside a plain list of runes and gaps."""
import random

from frames import messages

from .trying import expect_equal, expect_sent, refused, take, take_all, with_gaps

MOST = 1_000_000  # runes and gaps of a file
MOST_IN_MESSAGE = 512  # runes
MOST_REQUESTS = 1954
TURNS = 2_000
BLOCKS = 1_000
BAD_POSITION, TOO_LONG = "TERM_BAD_POSITION", "TERM_TOO_LONG"


def members(terminal):
    """All runes and gaps of file 1."""
    return terminal.read(1, 0, terminal.len(1))


def three_members():
    """A gap, a rune and a gap."""
    terminal = with_gaps(5)
    take_all(terminal, ("Hdata", 1, 2, "cd"), ("Hcut", 1, 1, 2))
    return terminal


def four_members():
    """The same with `x` typed before the rune."""
    terminal = three_members()
    terminal.select(1, 1, 1)
    terminal.type(1, "x")
    return terminal


def test_a_small_rasp():
    expect_equal(members(with_gaps(0)), [])
    terminal = three_members()
    expect_equal((members(terminal), terminal.first_gap(1, 1)), ([None, "d", None], 2))
    terminal = four_members()
    expect_equal(members(terminal), [None, "x", "d", None])
    expect_equal([terminal.first_gap(1, place) for place in range(5)], [0, 3, 3, 3, None])
    expect_equal((terminal.read(1, 4, 9), terminal.text(1, 1), terminal.text(1, 0)), ([], "xd", ""))


def test_runes_behind_the_end_of_a_rasp_are_refused():
    terminal = four_members()
    expect_equal(refused(terminal, "Hdata", 1, 3, "ab"), BAD_POSITION)
    expect_equal(members(terminal), [None, "x", "d", None])


def test_the_gaps_of_a_stretch_are_asked_for():
    for place, count, gaps in ((0, 4, [(0, 1), (3, 1)]), (1, 2, []), (1, 3, [(3, 1)]), (0, 3, [(0, 1)])):
        terminal = four_members()
        terminal.load(1, place, count)
        expect_equal(asked(terminal), gaps)


def test_a_full_rasp_takes_no_more():
    for message, why in (
        (("Hgrow", 1, 0, 1), TOO_LONG),
        (("Hgrow", 1, MOST + 1, 1), BAD_POSITION),
        (("Hdata", 1, MOST - 1, "ab"), BAD_POSITION),
        (("Hcut", 1, 2, 2**32 - 1), BAD_POSITION),
    ):
        terminal = with_gaps(MOST)
        expect_equal((message, refused(terminal, *message)), (message, why))
        expect_equal((terminal.len(1), terminal.first_gap(1, MOST - 1)), (MOST, MOST - 1))


def test_replacing_in_a_full_rasp():
    terminal = with_gaps(MOST)
    take(terminal, "Hcut", 1, MOST, 0)
    terminal.edit(1, 0, 2, "ab")
    expect_sent(terminal, ("Tcut", 1, 0, 2), ("Ttype", 1, 0, "ab"))
    terminal.edit(1, 0, 1, "ab")
    terminal.edit(1, 1, 0, "ab")
    expect_equal([refusal.why.name for refusal in terminal.refusals()], ["REFUSAL_TOO_LONG", "REFUSAL_BAD_POSITION"])
    expect_equal((terminal.len(1), terminal.read(1, 0, 3)), (MOST, ["a", "b", None]))


def asked(terminal):
    """The stretches that the terminal asked for since it was last looked at. Their locks are freed, and none of them comes."""
    told = [message for message in messages(terminal.take_out()) if message[0] == "Trequest"]
    for _ in told:
        take(terminal, "Hunlockfile", 1)
    return [(place, count) for _, _, place, count in told]


def holes(cells, place, end):
    """The stretches of gaps from a place to an end, of 512 at most each, and 1,954 of them at most."""
    found = []
    for at in range(place, end):
        if cells[at] is not None:
            continue
        if found and sum(found[-1]) == at and found[-1][1] < MOST_IN_MESSAGE:
            found[-1] = found[-1][0], found[-1][1] + 1
        else:
            found.append((at, 1))
    return found[:MOST_REQUESTS]


def some_runes(source, count):
    return "".join(source.choice("abcdefghijkl\né→\N{BIRD}") for _ in range(count))


def change(source, terminal, cells):
    """One change of both, by chance: at most 700 runes or gaps go or come, most times fewer than 9. The plain list that it makes."""
    place = source.randint(0, len(cells))
    size = 700 if source.random() < 0.2 else 9
    end = min(place + source.randrange(size), len(cells))
    kind = source.choice(("cut", "data") if len(cells) > 1_000 else ("cut", "data", "type", "edit", "grow", "put"))
    runes = some_runes(source, min(source.randrange(size), MOST_IN_MESSAGE))
    if kind == "cut":
        take(terminal, "Hcut", 1, place, end - place)
        return cells[:place] + cells[end:]
    if kind == "data":
        runes = some_runes(source, min(end - place, MOST_IN_MESSAGE))
        take(terminal, "Hdata", 1, place, runes)
        return cells[:place] + [*runes] + cells[place + len(runes) :]
    if kind == "grow":
        take(terminal, "Hgrow", 1, place, len(runes))
        return cells[:place] + [None] * len(runes) + cells[place:]
    if kind == "put":
        take(terminal, "Hgrowdata", 1, place, runes)
        return cells[:place] + [*runes] + cells[place:]
    if kind == "type":
        terminal.select(1, place, place)
        terminal.type(1, runes)
        return cells[:place] + [*runes] + cells[place:]
    runes = some_runes(source, source.randrange(size))
    terminal.edit(1, place, end, runes)
    return cells[:place] + [*runes] + cells[end:]


def line_before(cells, place, lines):
    """Where the line begins that is so many lines before that of a place; None if there is none, or a gap hides it."""
    starts = [0] + [at + 1 for at in range(place) if cells[at] == "\n"]
    start = starts[-1 - lines] if lines < len(starts) else None
    return None if start is None or None in cells[start:place] else start


def bytes_of(rune):
    return len(rune.encode())


def units_of(rune):
    return len(rune.encode("utf-16-le")) // 2


def taken(cells, place, end, size_of):
    """How much the runes from a place to an end take."""
    return sum(size_of(rune) for rune in cells[place:end] if rune is not None)


def place_after(cells, place, size, size_of):
    """The place after the runes from a place on that so much holds whole: a gap or the end is the last."""
    while place < len(cells) and cells[place] is not None and size_of(cells[place]) <= size:
        size -= size_of(cells[place])
        place += 1
    return place


def line_after(cells, place, lines):
    """The place after so many line ends from a place on; None if a gap or the end comes before."""
    while lines:
        if place >= len(cells) or cells[place] is None:
            return None
        lines -= cells[place] == "\n"
        place += 1
    return place


def test_a_rasp_says_what_a_plain_list_says():
    source, terminal, cells = random.Random(20261128), with_gaps(0), []
    for turn in range(TURNS):
        cells = change(source, terminal, cells)
        terminal.flush_now()
        terminal.take_out()
        expect_equal((turn, members(terminal)), (turn, cells))
        place = source.randint(0, len(cells))
        end = source.randint(place, len(cells))
        terminal.load(1, place, end - place)
        expect_equal((turn, asked(terminal)), (turn, holes(cells, place, end)))
        first = next((at for at in range(place, len(cells)) if cells[at] is None), None)
        count = sum(rune is not None for rune in cells[place:end])
        gaps = end - place - count
        expect_equal((turn, terminal.first_gap(1, place)), (turn, first))
        expect_equal((turn, terminal.bytes(1, place, end)), (turn, (taken(cells, place, end, bytes_of), gaps)))
        expect_equal((turn, terminal.units(1, place, end)), (turn, (taken(cells, place, end, units_of), gaps)))
        size = source.randrange(2_000)
        expect_equal((turn, terminal.place(1, place, size)), (turn, place_after(cells, place, size, bytes_of)))
        expect_equal((turn, terminal.unit_place(1, place, size)), (turn, place_after(cells, place, size, units_of)))
        expect_equal((turn, terminal.line(1, place, turn % 4)), (turn, line_after(cells, place, turn % 4)))
        ends = cells[place:end].count("\n")
        expect_equal((turn, terminal.lines(1, place, end)), (turn, (ends, gaps)))
        expect_equal((turn, terminal.line_before(1, end, turn % 3)), (turn, line_before(cells, end, turn % 3)))


def blocks_loaded():
    """1,000 blocks of six gaps, of which the third in each is loaded, in a scattered order."""
    terminal = with_gaps(6 * BLOCKS)
    for turn in range(BLOCKS):
        take(terminal, "Hdata", 1, turn * 377 % BLOCKS * 6 + 2, "a")
    return terminal


def blocks_cut():
    """The same with the gap behind the rune cut out of each, in another scattered order."""
    terminal, are_cut = blocks_loaded(), [False] * BLOCKS
    for turn in range(BLOCKS):
        block = turn * 619 % BLOCKS
        take(terminal, "Hcut", 1, block * 6 + 3 - sum(are_cut[:block]), 1)
        are_cut[block] = True
    return terminal


def test_many_stretches_are_loaded_and_cut_out_of_order():
    expect_equal(members(blocks_loaded()), [None, None, "a", None, None, None] * BLOCKS)
    expect_equal(members(blocks_cut()), [None, None, "a", None, None] * BLOCKS)


def test_one_change_takes_many_stretches():
    terminal = blocks_cut()
    take(terminal, "Hcut", 1, 3, 4_990)
    expect_equal(members(terminal), [None, None, "a", None, None, None, None, "a", None, None])
    terminal.edit(1, 0, 10, "m" * 600)
    expect_equal((terminal.len(1), terminal.text(1)), (600, "m" * 600))
    take(terminal, "Hcut", 1, 0, 600)
    expect_equal(members(terminal), [])
