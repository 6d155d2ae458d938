"""Command lines on a small text, wrong ones, and those at the limit of a text."""
from frames import frame
from sulgrevad import Host

from .trying import expect_equal

START = "one two\nthree\n"
PARTS = "a,b,,c"
MOST = 1_000_000  # runes of a file

# A text, a line, the text and the dot that the line leaves, and what it prints
ROWS = (
    (START, "2", START, (8, 14), ""),
    (START, "3", START, (14, 14), ""),
    (START, "/two/", START, (4, 7), ""),
    (START, "#3,$i/X/", "oneX two\nthree\n", (3, 4), ""),
    (START, "0a/X/", "Xone two\nthree\n", (0, 1), ""),
    (START, ",x/e/a/!/", "one! two\nthre!e!\n", (0, 17), ""),
    (START, ",x/e/g/e/d", "on two\nthr\n", (0, 11), ""),
    (START, ",y/\\n/p", START, (0, 14), "one twothree"),
    (START, "f", START, (0, 0), "a\n"),
    (START, "f  new name ", START, (0, 0), ""),
    (START, "q", START, (0, 0), ""),
    (PARTS, ",y/,/d", ",,,", (0, 3), ""),
    (PARTS, ",y/,/v/b/d", ",b,,", (0, 4), ""),
    (PARTS, ",y/,/c/X/", "X,X,X,X", (0, 7), ""),
    (PARTS, ",x/b/g/c/d", PARTS, (0, 6), ""),
    ("abab\n", ",x/a/c/X/", "XbXb\n", (0, 5), ""),
    ("xa.b", "/a\\.b/", "xa.b", (1, 4), ""),
)

# Wrong lines, by the word that is printed. The last line of each word has another fault too, which comes later.
WRONG = {
    "escape": (",x/\\q/d", "a/x\\", "/\\q"),
    "pattern": (",x//d", "/a.b/", ",x//x/\\q/d"),
    "command": ("", "m", "m,x//d"),
    "search": ("/zz/", "/zz/,2", "/zz/,4"),
    "address": ("4", "#15", "$,0", "4,/zz/"),
}


def ran(text, line):
    """A host that has run a line on the file 1, named `a`, with this text and the dot 0, 0; and what the line printed."""
    host = Host()
    host.add_file("a", text)
    host.feed(frame("Tstartcmdfile") + frame("Tstartfile", 1))
    host.feed(frame("Ttype", 0, 0, line + "\n"))
    return host, host.text(0, len(line) + 1)


def test_lines_on_a_small_text():
    for text, line, left, dot, printed in ROWS:
        host, told = ran(text, line)
        expect_equal((line, host.text(1), host.dot(1), told), (line, left, dot, printed))


def test_a_name_has_no_blanks_at_its_ends():
    host, _ = ran(START, "f  new name ")
    expect_equal((host.name(1), host.is_dirty(1)), ("new name", False))


def test_q_ends_the_session():
    expect_equal([ran(START, line)[0].is_done for line in ("q", "f")], [True, False])


def test_wrong_lines_print_a_word_and_change_nothing():
    for word, lines in WRONG.items():
        for line in lines:
            host, told = ran(START, line)
            expect_equal((line, told), (line, f"? {word}\n"))
            expect_equal((host.text(1), host.dot(1), host.is_dirty(1)), (START, (0, 0), False))


def test_lines_past_the_limit_change_nothing():
    for count, line in ((500_001, ",x/a/c/b/"), (MOST, "$a/x/")):
        host, told = ran("a" * count, line)
        expect_equal((line, told, host.text(1) == "a" * count), (line, "? long\n", True))


def test_an_address_out_of_range_comes_before_the_limit():
    expect_equal(ran("a" * MOST, "#1000001a/x/")[1], "? address\n")


def test_lines_within_the_limit():
    for count, line, left in ((500_000, ",x/a/c/b/", "b" * 500_000), (MOST, ",x/a/d", "")):
        host, told = ran("a" * count, line)
        expect_equal((line, told, host.text(1) == left), (line, "", True))
