"""Files that a host's program adds while a session runs: who learns of them and when, which tags they get, and what refuses one."""
from checks import expect_equal
from frames import frame, messages
from sulgrevad import Host, Terminal

from .trying import answers, code_of, command_host, refusals, runs

MOST_TAG = 65_535

# Messages that each tell which files are there: their names, or the next tag.
LONG_SESSION = (
    ("Tversion", 2),
    ("Tstartcmdfile",),
    ("Tstartfile", 1),
    ("Tstartnewfile",),
    ("Ttype", 1, 0, "x"),
    ("Tversion", 2),
    ("Tclose", 1),
    ("Tstartnewfile",),
    ("Tversion", 1),
    ("Tstartfile", 2),
    ("Ttype", 2, 0, "y"),
    ("Tversion", 2),
    ("Texit",),
)
JOINED_AFTER = {("Tversion", 2), ("Tstartcmdfile",), ("Ttype", 1, 0, "x"), ("Tclose", 1), ("Texit",)}


def answered_host():
    """A host with the file `file`, of the text `one`, that has answered a Tversion."""
    host = Host()
    host.add_file("file", "one")
    answers(host, "Tversion", 2)
    return host


def carry(terminal, host):
    """Carries bytes both ways until neither side has any."""
    while terminal.pending or host.pending:
        host.feed(terminal.take_out())
        terminal.feed(host.take_out())


def session():
    """A host with the file `file`, and a terminal that knows its name."""
    host, terminal = Host(), Terminal()
    host.add_file("file", "one")
    terminal.offer_version(2)
    carry(terminal, host)
    return host, terminal


def state_of(host):
    """All that a host's readers say."""
    files = [(tag, host.name(tag), host.text(tag), host.is_dirty(tag), host.dot(tag)) for tag in host.files()]
    return host.tags, files, host.taken, host.is_done, host.version, host.pending


def test_no_byte_comes_of_a_file_that_joins():
    host = answered_host()
    expect_equal((host.add_file("late", "two"), host.pending, host.taken), (2, 0, 1))
    expect_equal((host.name(2), host.text(2), host.is_dirty(2), host.dot(2)), ("late", "two", False, (0, 0)))
    expect_equal(answers(host, "Tstartfile", 1), [("Hbindname", 1), ("Hgrow", 1, 0, 3), ("Hunlock",)])


def test_the_next_version_has_the_name():
    host = answered_host()
    host.add_file("late", "two")
    host.add_file("last")
    named = [("Hnewname", 2), ("Hmovname", 2, "late"), ("Hnewname", 3), ("Hmovname", 3, "last")]
    expect_equal(answers(host, "Tversion", 2), [("Hversion", 2), *named, ("Hack",), ("Hunlock",)])
    expect_equal(answers(host, "Tversion", 2), [("Hversion", 2), ("Hack",), ("Hunlock",)])


def test_a_joined_file_is_opened_edited_written_and_closed():
    host = answered_host()
    tag = host.add_file("late", "two")
    answers(host, "Tversion", 2)
    expect_equal(answers(host, "Tstartfile", tag), [("Hbindname", tag), ("Hgrow", tag, 0, 3), ("Hunlock",)])
    expect_equal(answers(host, "Trequest", tag, 0, 3), [("Hdata", tag, 0, "two"), ("Hunlockfile", tag)])
    expect_equal(answers(host, "Ttype", tag, 3, "!"), [])
    expect_equal((host.text(tag), host.is_dirty(tag), host.next_written()), ("two!", True, None))
    expect_equal(answers(host, "Twrite", tag), [("Hclean", tag), ("Hunlockfile", tag)])
    expect_equal((host.next_written(), host.saved(tag), host.is_dirty(tag)), (tag, "two!", False))
    expect_equal(answers(host, "Tclose", tag), [("Hclose", tag), ("Hdelname", tag), ("Hunlock",)])
    expect_equal((host.files(), host.next_written()), ([0, 1], None))


def test_the_tag_of_a_closed_file_is_not_given_again():
    host = answered_host()
    host.feed(frame("Tstartfile", 1) + frame("Tclose", 1))
    expect_equal(host.add_file("file", "again"), 2)
    host.feed(frame("Tversion", 2) + frame("Tstartfile", 2) + frame("Tclose", 2))
    expect_equal((host.add_file("late"), host.files()), (3, [0, 3]))


def test_a_new_file_under_way_gets_the_next_tag():
    host, terminal = session()
    terminal.new_file()
    sent = terminal.take_out()
    expect_equal((messages(sent), host.add_file("late", "two")), ([("Tstartnewfile",)], 2))
    host.feed(sent)
    told = host.take_out()
    expect_equal(messages(told), [("Hnewname", 3), ("Hbindname", 3), ("Hcurrent", 3), ("Hunlock",)])
    expect_equal(host.add_file("last"), 4)
    terminal.feed(told)
    expect_equal((terminal.files(), terminal.is_open(3)), ([1, 3], True))
    terminal.offer_version(2)
    carry(terminal, host)
    expect_equal([(tag, terminal.name(tag)) for tag in terminal.files()], [(1, "file"), (2, "late"), (3, ""), (4, "last")])
    expect_equal((terminal.is_open(2), terminal.is_dirty(2), terminal.is_open(4)), (False, False, False))


def test_a_version_under_way_has_the_name():
    host, terminal = session()
    terminal.offer_version(2)
    sent = terminal.take_out()
    host.add_file("late", "two")
    host.feed(sent)
    terminal.feed(host.take_out())
    expect_equal(terminal.name(2), "late")


def test_half_a_version_has_the_name():
    host, half = answered_host(), frame("Tversion", 2)
    host.feed(half[:3])
    host.add_file("late", "two")
    host.feed(half[3:])
    expect_equal(messages(host.take_out())[1:3], [("Hnewname", 2), ("Hmovname", 2, "late")])


def test_a_terminal_that_offers_no_version_never_learns_of_it():
    host, terminal = session()
    tag = host.add_file("late", "two")
    terminal.open(1)
    terminal.check(1)
    carry(terminal, host)
    terminal.open(tag)
    expect_equal((terminal.files(), terminal.is_known(tag), refusals(terminal), terminal.pending), ([1], False, ["NO_FILE"], 0))
    terminal.offer_version(2)
    carry(terminal, host)
    terminal.open(tag)
    terminal.view(tag, 0, 80)
    carry(terminal, host)
    expect_equal((terminal.name(tag), terminal.text(tag), refusals(terminal)), ("late", "two", []))


def test_command_lines_stay_with_their_work_file():
    host = command_host("one\n")
    host.add_file("late", "two\n")
    expect_equal(runs(host, "f")[0], ("Hgrowdata", 0, 2, "file\n"))
    host.add_file("last", "three\n")
    runs(host, ",d")
    expect_equal([host.text(tag) for tag in (1, 2, 3)], ["", "two\n", "three\n"])


def test_files_join_after_the_end():
    host = answered_host()
    expect_equal(answers(host, "Texit"), [("Hexit",)])
    expect_equal((host.is_done, host.add_file("late", "two"), host.text(2), host.pending), (True, 2, "two", 0))
    expect_equal(answers(host, "Tversion", 2), [])


def test_files_join_a_host_that_has_stopped():
    host = answered_host()
    expect_equal(code_of(host.feed, frame("Tstartfile", 2)), "HOST_NO_FILE")
    expect_equal((host.add_file("late", "two"), host.text(2), host.taken), (2, "two", 1))
    expect_equal((code_of(host.feed), host.pending), ("HOST_NO_FILE", 0))


def test_files_that_join_are_refused_in_order():
    host = answered_host()
    before = state_of(host)
    expect_equal(code_of(host.add_file, "é" * 65, b"\xff"), "NOT_TEXT")
    expect_equal(code_of(host.add_file, b"\xff", "x" * 1_000_001), "NOT_TEXT")
    expect_equal(code_of(host.add_file, "é" * 65, "x"), "ADD_TOO_LONG")
    expect_equal(code_of(host.add_file, "x", "é" * 1_000_001), "ADD_TOO_LONG")
    expect_equal(state_of(host), before)
    expect_equal((host.add_file("é" * 64, "é" * 1_000_000), host.len(2)), (2, 1_000_000))


def test_a_host_is_made_again_from_its_stream_and_its_files():
    first, again, files = Host(), Host(), []
    told = b""

    def join(name, text):
        files.append((first.taken, name, text))
        first.add_file(name, text)

    def join_again():
        while files and files[0][0] == again.taken:
            again.add_file(*files.pop(0)[1:])

    join("file", "one\n")
    for message in LONG_SESSION:
        first.feed(frame(*message))
        told += first.take_out()
        if message in JOINED_AFTER:
            join(f"late {first.taken}", "two\n")
            join("", "")
    for byte in b"".join(frame(*message) for message in LONG_SESSION):
        join_again()
        again.feed(bytes([byte]))
    join_again()
    expect_equal((files, again.take_out() == told), ([], True))
    expect_equal(state_of(again), state_of(first))


def test_tags_run_out_in_a_session():
    host = answered_host()
    answers(host, "Tstartnewfile")
    tags = [host.add_file("late") for _ in range(3, MOST_TAG + 1)]
    expect_equal((tags[0], tags[-1], code_of(host.add_file, "late")), (3, MOST_TAG, "ADD_NO_TAG"))
    expect_equal((code_of(host.add_file, "a" * 65), code_of(host.add_file, b"\xff")), ("ADD_TOO_LONG", "NOT_TEXT"))
    expect_equal((host.tags, answers(host, "Tstartnewfile")), (MOST_TAG + 1, [("Hunlock",)]))
    expect_equal(len(answers(host, "Tversion", 2)), 3 + 2 * (MOST_TAG - 2))
