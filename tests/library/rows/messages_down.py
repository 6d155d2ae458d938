"""Each kind of the host as bytes: which message it answers by them, and what the terminal makes of them."""
from frames import frame, messages

from .messages_up import LENGTH, NEXT, TAG, P, Q, big_host
from .trying import expect_equal, host_with, take, with_gaps

SENT, SEEN = 300, 0x0102  # how many messages the terminal sends, and the host has taken
STAMP = "0000000000000102"


def bytes_in(digits):
    """The bytes of hexadecimal digits, with the stamp for an S."""
    return bytes.fromhex(digits.replace("S", STAMP))


def terminal_with(*events):
    """A terminal that has the file open, all gaps, and has sent some messages, of which these events compose the last."""
    terminal = with_gaps(LENGTH, TAG)
    take(terminal, "Hnewname", 0x0203)
    terminal.changed(TAG)
    for event in events:
        event(terminal)
    while terminal.sent < SENT:
        if terminal.command_locked:
            take(terminal, "Hack")
        else:
            terminal.get_snarf()
    terminal.take_out()
    return terminal


def open_cmd(terminal):
    terminal.open_cmd()


def look(terminal):
    terminal.look(TAG)


def be_dirty(terminal):
    take(terminal, "Hdirty", TAG)


def view(terminal):
    """Views five gaps, of which the first two are loaded then."""
    terminal.view(TAG, P, 5)
    take(terminal, "Hdata", TAG, P, "ab")


def round_p(terminal):
    """How long the file is, and what stands round P."""
    return terminal.len(TAG), *terminal.read(TAG, P - 1, 4)


# The bytes, what happened before, what is asked of the terminal, and what it answers.
ROWS = (
    ("41 000a S 0002", (), lambda terminal: terminal.version, 2),
    ("42 000a S 0203", (), lambda terminal: terminal.is_open(0x0203), True),
    ("43 000a S 0102", (), lambda terminal: terminal.current, TAG),
    ("44 000a S 0304", (), lambda terminal: terminal.files(), [TAG, 0x0203, 0x0304]),
    ("45 000c S 0102 c3a9", (), lambda terminal: terminal.name(TAG), "é"),
    ("46 0012 S 0102 000a0b0c 0000f1f2", (), lambda terminal: terminal.changed(TAG), (P, 0, 0xF1F2)),
    ("47 000a S 0102", (view,), lambda terminal: messages(terminal.take_out()), [("Trequest", TAG, P + 2, 3)]),
    ("48 0008 S", (open_cmd,), lambda terminal: terminal.command_locked, False),
    ("49 0010 S 0102 000a0b0c 6162", (), round_p, (LENGTH, None, "a", "b", None)),
    ("4a 000e S 0102 000a0b0c", (), lambda terminal: terminal.view_of(TAG), (P, P)),
    ("4b 000a S 0102", (look,), lambda terminal: terminal.locked(TAG), False),
    ("4c 0012 S 0102 000a0b0c 000a0b1d", (), lambda terminal: terminal.dot(TAG), (P, Q)),
    ("4d 0010 S 0102 000a0b0c 6162", (), round_p, (LENGTH + 2, None, "a", "b", None)),
    ("4e 000e S 0102 000a0b0c", (), lambda terminal: terminal.view_of(TAG), (P, P)),
    ("4f 000a S 0102", (be_dirty,), lambda terminal: terminal.is_dirty(TAG), False),
    ("50 000a S 0102", (), lambda terminal: terminal.is_dirty(TAG), True),
    ("51 0012 S 0102 000a0b0c 00000c0d", (), lambda terminal: terminal.changed(TAG), (P, 0x0C0D, 0)),
    ("52 000a S c3a9", (), lambda terminal: terminal.pattern, "é"),
    ("53 000a S 0203", (), lambda terminal: terminal.files(), [TAG]),
    ("54 000a S 0102", (), lambda terminal: terminal.is_open(TAG), False),
    ("55 000a S c3a9", (), lambda terminal: terminal.snarfed(), "é"),
    ("56 000c S 0c0d0e0f", (), lambda terminal: terminal.snarf_len, 0x0C0D0E0F),
    ("57 0008 S", (), lambda terminal: messages(terminal.take_out()), [("Tack",)]),
    ("58 0008 S", (), lambda terminal: terminal.exited, True),
)


def test_what_the_terminal_makes_of_the_bytes():
    for digits, before, ask, wanted in ROWS:
        terminal = terminal_with(*before)
        untouched = ask(terminal)
        terminal.feed(bytes_in(digits))
        terminal.finish()
        expect_equal((digits, terminal.sent - terminal.under_way), (digits, SEEN))
        expect_equal((digits, ask(terminal) if untouched != wanted else "as before"), (digits, wanted))
    expect_equal([int(digits[:2], 16) for digits, _, _, _ in ROWS], list(range(65, 89)))


CUT = "51 0012 S 0102 000a0b0c 00000011  50 000a S 0102  4c 0012 S 0102 000a0b0c 000a0b0c  47 000a S 0102  48 0008 S"
LOOKED = "4c 0012 S 0102 000a0f06 000a0f17  4e 000e S 0102 000a0f06  47 000a S 0102  4b 000a S 0102"
PASTED = "50 000a S 0102  4c 0012 S 0102 000a0b0c 000a0dc8  47 000a S 0102  4b 000a S 0102"
# What the host was sent before, what it is sent then, and what it answers.
ANSWERS = (
    ([], ("Trequest", TAG, P, 2), "49 0010 S 0102 000a0b0c 6e65  4b 000a S 0102"),
    ([], ("Torigin", TAG, P, 0x0102), "4a 000e S 0102 0009a5ec  4b 000a S 0102"),
    ([], ("Tlook", TAG, P, Q), f"52 0019 S 6e6565646c655f6f665f31375f72756e65  {LOOKED}"),
    ([], ("Tstartnewfile",), "44 000a S 0103  42 000a S 0103  43 000a S 0103  48 0008 S"),
    ([], ("Tclose", TAG), "54 000a S 0102  53 000a S 0102  48 0008 S"),
    ([], ("Twrite", TAG), "4f 000a S 0102  4b 000a S 0102"),
    ([], ("Tsnarf", TAG, P, Q), "56 000c S 00000011"),
    ([("Tsetsnarf", "é")], ("Tstartsnarf",), "55 000a S c3a9"),
    ([("Tsetsnarf", "é")], ("Tpaste", TAG, P), f"4d 0010 S 0102 000a0b0c c3a9  {PASTED.replace('000a0dc8', '000a0b0d')}"),
    ([("Tsnarf", TAG, 0, 700)], ("Tpaste", TAG, P), f"46 0012 S 0102 000a0b0c 000002bc  {PASTED}"),
    ([("Tstartcmdfile",)], ("Ttype", 0, 0, f"#{P},#{Q}d\n"), CUT),
    ([("Tstartcmdfile",)], ("Ttype", 0, 0, "f é\n"), "45 000c S 0102 c3a9  48 0008 S"),
    ([], ("Texit",), "58 0008 S"),
)


def answer(before, message):
    """What a host answers as it takes its 258th message."""
    host = big_host()
    for told in before:
        host.feed(frame(*told))
    while host.taken < SEEN - 1:
        host.feed(frame("Tack"))
    host.take_out()
    host.feed(frame(*message))
    return host.take_out()


def test_the_bytes_of_answers():
    for before, message, digits in ANSWERS:
        expect_equal((message, answer(before, message).hex()), (message, bytes_in(digits).hex()))
    written = {int(digits[:2], 16) for _, _, told in ANSWERS for digits in told.split("  ")}
    expect_equal(set(range(65, 89)) - written, {0x41, 0x57})


def test_the_bytes_of_a_greeting():
    told = answer([], ("Tversion", 2))
    expect_equal(told[:13].hex(" "), "41 00 0a 00 00 00 00 00 00 01 02 00 02")
    expect_equal(told[-22:], bytes_in("57 0008 S  48 0008 S"))


def test_a_loaded_text_as_bytes():
    host = host_with("ab")
    host.feed(frame("Trequest", 1, 0, 2))
    expect_equal(host.take_out()[:19].hex(" "), "49 00 10 00 00 00 00 00 00 00 02 00 01 00 00 00 00 61 62")


def test_the_places_of_the_needle():
    expect_equal((NEXT, NEXT + 17, P + 700), (0x0A0F06, 0x0A0F17, 0x0A0DC8))
