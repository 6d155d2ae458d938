"""Each kind of the terminal as bytes: which event composes them, and what the host makes of them."""
from frames import frame, messages
from sulgrevad import Host

from .trying import answers, code_of, expect_equal, take, with_gaps

TAG, P, Q = 0x0102, 0x0A0B0C, 0x0A0B1D  # a file and places whose bytes differ
LENGTH = 700_000
NEEDLE = "needle_of_17_rune"  # what stands at P, Q
BEFORE = ("." * 99 + "\n") * 6_581 + "." * 88
TEXT = BEFORE + NEEDLE + "\n" + "." * 1_000 + NEEDLE + "\n"
NEXT = P + 1_018  # where the needle stands once more
UNLOCKED = ("Hunlockfile", TAG)
FOUND = [("Hsetdot", TAG, NEXT, NEXT + 17), ("Hmoveto", TAG, NEXT), ("Hcheck", TAG), UNLOCKED]
GREETED = [
    ("Hversion", 2),
    *(told for tag in range(1, TAG) for told in (("Hnewname", tag), ("Hmovname", tag, ""))),
    ("Hnewname", TAG),
    ("Hmovname", TAG, "name"),
    ("Hack",),
    ("Hunlock",),
]


def selected(start=P, end=Q):
    """A terminal that has the file open, all gaps, with a range selected."""
    terminal = with_gaps(LENGTH, TAG)
    terminal.select(TAG, start, end)
    return terminal


def big_host():
    """A host that has the file open, and 257 empty ones before it."""
    host = Host()
    for _ in range(1, TAG):
        host.add_file("", "")
    expect_equal(host.add_file("name", TEXT), TAG)
    host.feed(frame("Tstartfile", TAG))
    host.take_out()
    return host


def scroll(terminal, lines):
    terminal.view(TAG, P, 0)
    terminal.scroll(TAG, lines)


def type_e(terminal):
    terminal.select(TAG, P, P)
    terminal.type(TAG, "é")
    terminal.flush()


def paste(terminal):
    terminal.select(TAG, P, P)
    terminal.paste(TAG)


# The bytes, the event that composes them, and what the host answers.
ROWS = (
    ("01 0002 0203", lambda terminal: terminal.offer_version(0x0203), GREETED),
    ("02 0000", lambda terminal: terminal.open_cmd(), [("Hnewname", 0), ("Hmovname", 0, "~~sam~~"), ("Hbindname", 0), ("Hunlock",)]),
    ("03 0002 0102", lambda terminal: terminal.check(TAG), [("Hcheck", TAG)]),
    ("04 0008 0102 000a0b0c 0102", lambda terminal: terminal.view(TAG, P, 0x0102), [("Hdata", TAG, P, TEXT[P : P + 0x0102]), UNLOCKED]),
    ("05 000a 0102 000a0b0c 0c0d0e0f", lambda terminal: scroll(terminal, 0x0C0D0E0F), [("Horigin", TAG, 0), UNLOCKED]),
    ("05 000a 0102 000a0b0c 00000102", lambda terminal: scroll(terminal, 0x0102), [("Horigin", TAG, (6_581 - 0x0102) * 100), UNLOCKED]),
    ("06 0002 0102", lambda terminal: terminal.open(TAG), [("Hunlock",)]),
    ("07 000a 0102 000a0b0c 000a0b1d", lambda terminal: terminal.work(TAG), [("Hcurrent", TAG)]),
    ("08 0008 0102 000a0b0c c3a9", type_e, []),
    ("0b 000a 0102 000a0b0c 000a0b1d  09 000a 0102 000a0b0c 000a0b1d", lambda terminal: terminal.cut(TAG), [("Hsnarflen", 17)]),
    ("0a 0006 0102 000a0b0c", paste, [UNLOCKED]),
    ("0b 000a 0102 000a0b0c 000a0b1d", lambda terminal: terminal.snarf(TAG), [("Hsnarflen", 17)]),
    ("0c 0000", lambda terminal: terminal.new_file(), [("Hnewname", 259), ("Hbindname", 259), ("Hcurrent", 259), ("Hunlock",)]),
    ("0d 0002 0102", lambda terminal: terminal.write(TAG), [("Hclean", TAG), UNLOCKED]),
    ("0e 0002 0102", lambda terminal: terminal.close(TAG), [("Hclose", TAG), ("Hdelname", TAG), ("Hunlock",)]),
    ("0f 000a 0102 000a0b0c 000a0b1d", lambda terminal: terminal.look(TAG), [("Hsetpat", NEEDLE), *FOUND]),
    ("10 000a 0102 000a0b0c 000a0b1d", lambda terminal: terminal.search(TAG), [UNLOCKED]),
    ("11 000a 0102 000a0b0c 000a0b1d", lambda terminal: terminal.send(TAG), [("Hunlock",)]),
    ("12 0006 0102 000a0b0c", lambda terminal: terminal.dclick(TAG, P), [("Hsetdot", TAG, P, Q), UNLOCKED]),
    ("13 0000", lambda terminal: terminal.get_snarf(), [("Hsetsnarf", "")]),
    ("14 0002 c3a9", lambda terminal: terminal.set_snarf("é"), [("Hsnarflen", 1)]),
    ("15 0000", lambda terminal: take(terminal, "Hack"), []),
    ("16 0000", lambda terminal: terminal.exit(), [("Hexit",)]),
)


def test_the_bytes_that_events_compose():
    for digits, event, _ in ROWS:
        terminal = selected()
        event(terminal)
        expect_equal((digits, terminal.take_out().hex()), (digits, digits.replace(" ", "")))
    expect_equal({int(digits[:2], 16) for digits, _, _ in ROWS} | {9}, set(range(1, 23)))


def test_what_the_host_makes_of_the_bytes():
    for digits, _, wanted in ROWS:
        host = big_host()
        host.feed(bytes.fromhex(digits))
        expect_equal((digits, messages(host.take_out())), (digits, wanted))


def after(*digits):
    """The host once it has taken these bytes, with what it answers to the last of them."""
    host = big_host()
    for one in digits:
        host.take_out()
        host.feed(bytes.fromhex(one))
    return host, messages(host.take_out())


def test_what_the_host_keeps_of_the_bytes():
    host, _ = after("07 000a 0102 000a0b0c 000a0b1d")
    expect_equal(host.dot(TAG), (P, Q))
    host, _ = after("08 0008 0102 000a0b0c c3a9")
    expect_equal((host.text(TAG, P - 1, 3), host.dot(TAG), host.is_dirty(TAG)), (".én", (P + 1, P + 1), True))
    host, _ = after("09 000a 0102 000a0b0c 000a0b1d")
    expect_equal((host.text(TAG, P - 1, 3), host.dot(TAG), host.len(TAG)), (".\n.", (P, P), len(TEXT) - 17))
    host, _ = after("11 000a 0102 000a0b0c 000a0b1d")
    expect_equal(host.text(0), f"{NEEDLE}\n? command\n")
    host, told = after("14 0002 c3a9", "0a 0006 0102 000a0b0c")
    pasted = [("Hgrowdata", TAG, P, "é"), ("Hdirty", TAG), ("Hsetdot", TAG, P, P + 1), ("Hcheck", TAG), UNLOCKED]
    expect_equal((told, host.text(TAG, P - 1, 3)), (pasted, ".én"))
    _, told = after("0f 000a 0102 000a0b0c 000a0b1d", "10 000a 0102 000a0b0c 000a0b1d")
    expect_equal(told, FOUND)


def test_the_last_place_that_gives_an_answer_and_the_first_that_gives_another():
    host = big_host()
    for place, line in (658_099, 658_000), (658_100, 658_100):
        expect_equal(answers(host, "Torigin", TAG, place, 0), [("Horigin", TAG, line), UNLOCKED])
    answers(host, "Tlook", TAG, P, Q)
    for end, found in (P, P), (P + 1, NEXT), (NEXT, NEXT), (NEXT + 1, P):
        told = answers(host, "Tsearch", TAG, P, end)
        expect_equal((end, told[0]), (end, ("Hsetdot", TAG, found, found + 17)))
    expect_equal(answers(host, "Tsearch", TAG, NEXT, NEXT)[-1], UNLOCKED)
    answers(host, "Tsend", TAG, P + 1, P + 4)
    expect_equal(host.text(0), "eed\n? command\n")
    expect_equal(code_of(host.feed, frame("Tsearch", TAG, P + 1, P)), "HOST_BAD_POSITION")


def test_the_version_that_is_answered():
    for offered, version in (1, 1), (2, 2), (3, 2), (0x0100, 2), (0xFFFF, 2):
        host = Host()
        expect_equal(answers(host, "Tversion", offered), [("Hversion", version), ("Hack",), ("Hunlock",)])
        expect_equal(host.version, version)
    expect_equal(code_of(Host().feed, frame("Tversion", 0)), "HOST_BAD_VERSION")


def test_a_typed_text_as_bytes():
    terminal = with_gaps(0)
    terminal.type(1, "hi")
    terminal.flush()
    expect_equal(terminal.take_out().hex(" "), "08 00 08 00 01 00 00 00 00 68 69")
