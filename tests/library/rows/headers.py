"""Each kind's least and greatest length, and what a text may be."""
from frames import frame
from sulgrevad import Host, StreamFault, Terminal

from .trying import answers, code_of, expect_equal, five_gaps, host_with, take

# Each kind of the terminal, with the bytes of its numbers and the most bytes of its text in version 1.
TERMINAL = (
    (1, 2, 0), (2, 0, 0), (3, 2, 0), (4, 8, 0), (5, 10, 0), (6, 2, 0), (7, 10, 0), (8, 6, 2048), (9, 10, 0), (10, 6, 0), (11, 10, 0),
    (12, 0, 0), (13, 2, 0), (14, 2, 0), (15, 10, 0), (16, 10, 0), (17, 10, 0), (18, 6, 0), (19, 0, 0), (20, 0, 4096), (21, 0, 0),
    (22, 0, 0),
)  # fmt: skip
# The same of the host. The stamp counts as a number.
HOST = (
    (65, 10, 0), (66, 10, 0), (67, 10, 0), (68, 10, 0), (69, 10, 256), (70, 18, 0), (71, 10, 0), (72, 8, 0), (73, 14, 2048), (74, 14, 0),
    (75, 10, 0), (76, 18, 0), (77, 14, 2048), (78, 14, 0), (79, 10, 0), (80, 10, 0), (81, 18, 0), (82, 8, 512), (83, 10, 0), (84, 10, 0),
    (85, 8, 4096), (86, 12, 0), (87, 8, 0), (88, 8, 0),
)  # fmt: skip
SMILE = "\U0001f600"  # a rune of four bytes


def host_of(version):
    """A host that speaks a version."""
    host = Host()
    if version == 2:
        answers(host, "Tversion", 2)
    expect_equal(host.version, version)
    return host


def terminal_of(version):
    """A terminal that speaks a version."""
    terminal = Terminal()
    take(terminal, "Hversion", version)
    expect_equal(terminal.version, version)
    return terminal


def header_fault(side, kind, length):
    """Why a side stops at the third byte of a frame of this kind and length; None if it goes on."""
    high, low = length.to_bytes(2, "big")
    side.feed(bytes([kind]))
    side.feed(bytes([high]))
    try:
        side.feed(bytes([low]))
    except StreamFault as error:
        return error.code.name
    return None


def expect_lengths(side_of, table):
    """Each kind of the table has its least and its greatest length, and no shorter and no longer one."""
    for version in (1, 2):
        for kind, numbers, text in table:
            greatest = numbers + (32_000 if version == 2 and text == 4096 else text)
            rows = (numbers, None), (greatest, None), (greatest + 1, "BAD_LENGTH"), ((numbers - 1) % 2**16, "BAD_LENGTH")
            for length, fault in rows:
                told = header_fault(side_of(version), kind, length)
                expect_equal((version, kind, length, told), (version, kind, length, fault))


def test_lengths_of_the_terminals_kinds():
    expect_lengths(host_of, TERMINAL)


def test_lengths_of_the_hosts_kinds():
    expect_lengths(terminal_of, HOST)


def test_a_first_byte_that_is_no_kind():
    for side, table in ((Host, TERMINAL), (Terminal, HOST)):
        known = [kind for kind, _, _ in table]
        for kind in range(256):
            try:
                side().feed(bytes([kind]))
                told = None
            except StreamFault as error:
                told = error.code.name
            expect_equal((side.__name__, kind, told), (side.__name__, kind, None if kind in known else "BAD_KIND"))


def test_least_and_greatest_texts_of_the_terminal():
    for text in "", SMILE * 512:
        host = host_with("")
        host.feed(frame("Ttype", 1, 0, text))
        expect_equal((host.text(1), host.taken), (text, 2))
    for version, most in (1, 1_024), (2, 8_000):
        for text in "", SMILE * most:
            host = host_of(version)
            expect_equal(answers(host, "Tsetsnarf", text), [("Hsnarflen", len(text))])
            expect_equal(answers(host, "Tstartsnarf"), [("Hsetsnarf", text)])


def test_least_and_greatest_texts_of_the_host():
    for name, values, most, told in (
        ("Hmovname", (1,), 64, lambda terminal: terminal.name(1)),
        ("Hsetpat", (), 128, lambda terminal: terminal.pattern),
        ("Hdata", (1, 0), 512, lambda terminal: terminal.text(1, 0, 512) if terminal.first_gap(1) else ""),
        ("Hgrowdata", (1, 0), 512, lambda terminal: terminal.text(1)),
    ):
        for text in "", SMILE * most:
            terminal = five_gaps()
            take(terminal, "Hgrow", 1, 0, 600)
            take(terminal, name, *values, text)
            expect_equal((name, told(terminal)), (name, text))
    for version, most in (1, 1_024), (2, 8_000):
        for text in "", SMILE * most:
            terminal = terminal_of(version)
            take(terminal, "Hsetsnarf", text)
            expect_equal(terminal.snarfed(), text)


def test_texts_of_the_host_are_written_up_to_the_greatest():
    host = host_with(SMILE * 512)
    expect_equal(answers(host, "Trequest", 1, 0, 512), [("Hdata", 1, 0, SMILE * 512), ("Hunlockfile", 1)])
    answers(host, "Tsnarf", 1, 0, 512)
    expect_equal(answers(host, "Tpaste", 1, 512)[0], ("Hgrowdata", 1, 512, SMILE * 512))
    expect_equal(answers(host, "Tlook", 1, 0, 128)[0], ("Hsetpat", SMILE * 128))
    expect_equal(answers(host, "Tlook", 1, 0, 129), [("Hunlockfile", 1)])
    host.feed(frame("Tcut", 1, 0, 511))
    expect_equal(answers(host, "Trequest", 1, 0, 600)[0], ("Hdata", 1, 0, SMILE * 512))
    answers(host, "Tsnarf", 1, 0, 513)
    expect_equal(answers(host, "Tpaste", 1, 0)[0], ("Hgrow", 1, 0, 513))
    host = Host()
    host.add_file(SMILE * 64, "")
    expect_equal(answers(host, "Tversion", 2)[1:3], [("Hnewname", 1), ("Hmovname", 1, SMILE * 64)])


def test_one_rune_more_than_a_kind_may_have():
    for name, values, most in (
        ("Ttype", (1, 0), 512),
        ("Hmovname", (1,), 64),
        ("Hdata", (1, 0), 512),
        ("Hgrowdata", (1, 0), 512),
        ("Hsetpat", (), 128),
    ):
        side = host_with("") if name[0] == "T" else five_gaps()
        if name == "Hdata":
            take(side, "Hgrow", 1, 0, 600)
        side.feed(frame(name, *values, "a" * most))
        told = code_of(side.feed, frame(name, *values, "a" * (most + 1)))
        expect_equal((name, told), (name, "BAD_TEXT"))


# Overlong forms, surrogates, codes above U+10FFFF, cut sequences, and bytes that begin none.
NOT_UTF_8 = (
    "c080", "c1bf", "e08080", "e09fbf", "f0808080", "f08fbfbf", "eda080", "edbfbf", "f4908080", "f5808080", "f888808080", "c3", "e282",
    "f09f98", "c361", "e28261", "f09f9861", "80", "61bf", "ff",
)  # fmt: skip
# The first and last codes of each length, and those beside the surrogates.
RUNES = (
    ("00", 0), ("7f", 0x7F), ("c280", 0x80), ("dfbf", 0x7FF), ("e0a080", 0x800), ("ed9fbf", 0xD7FF), ("ee8080", 0xE000), ("efbfbf", 0xFFFF),
    ("f0908080", 0x10000), ("f48fbfbf", 0x10FFFF),
)  # fmt: skip


def test_what_is_not_utf_8():
    for digits in NOT_UTF_8:
        for side, name in (host_with(""), "Ttype"), (five_gaps(), "Hgrowdata"):
            told = code_of(side.feed, frame(name, 1, 0, bytes.fromhex(digits)))
            expect_equal((name, digits, told), (name, digits, "BAD_TEXT"))


def test_runes_and_their_bytes():
    for digits, code in RUNES:
        data = bytes.fromhex(digits)
        host = host_with("")
        host.feed(frame("Ttype", 1, 0, data))
        expect_equal((digits, host.text(1)), (digits, chr(code)))
        host.feed(frame("Tsetsnarf", data) + frame("Tstartsnarf"))
        expect_equal(host.take_out(), frame("Hsnarflen", 1, seen=3) + frame("Hsetsnarf", data, seen=4))
        terminal = Terminal()
        take(terminal, "Hsetsnarf", data)
        expect_equal((digits, terminal.snarfed()), (digits, chr(code)))
