"""Names and trees that are made to mislead: what a screen must not get raw, what front ends take for their own, what has no end."""
import os
import shutil
import subprocess
import unicodedata

from checks import GIVEN_UP, Skipped, expect
from host_checks.line import Staying
from host_checks.support import SAMHOST, Session, expect_equal, expect_line, made, names_of, run_host, text_of

JOINERS = "\u200c\u200d"  # scripts and emoji need them
# Of the category Cf, and shown all the same.
SIGNS = "".join(map(chr, (*range(0x600, 0x606), 0x6DD, 0x70F, 0x890, 0x891, 0x8E2, 0x110BD, 0x110CD, *range(0x13430, 0x13440))))
MISLEADING = "\u202e\u2066\u200e\u200f\u061c\u200b\ufeff\u00ad\u2028\u2029\U000e0041"  # bidi controls, unseen characters, separators


def check_names_in_told_lines(folder):
    """What a line says of a name has a question mark for each control, format and separating character, and for each byte that is no UTF-8;
    joiners and all other characters stay."""
    made(folder)
    shown = "a\u00e9\u4e2d\U0001f468" + JOINERS + "b"
    bad = [b"\x9b", b"\xff", b"\xc0\xaf", b"\xed\xa0\x80", b"\xf4\x90\x80\x80", b"\xe4\xb8"]
    name = os.fsencode(shown) + b"|".join([MISLEADING.encode(), b"\x1b\x7f\xc2\x9b\n", *bad]) + b"z"
    path = os.path.join(os.fsencode(folder), name)
    with open(path, "wb") as file:
        file.write(b"\xff")
    ended = subprocess.run([SAMHOST, name], cwd=folder, input=b"", capture_output=True, timeout=GIVEN_UP)
    marks = "|".join("?" * count for count in (len(MISLEADING), 4, *(len(each) for each in bad)))
    expect_equal(ended.stderr.decode(), f"samhost: {shown}{marks}z: it is not UTF-8\n", "what it says")


def check_names_of_each_kind(folder):
    """Of all assigned characters those of the categories Cc, Cf, Zl and Zp are question marks, but for the joiners and for signs that show
    though they are of Cf; and no others are."""
    made(folder)
    odd = [chr(rune) for rune in range(1, 0x110000) if unicodedata.category(chr(rune)) in ("Cc", "Cf", "Zl", "Zp") and rune != ord("\n")]
    even = [chr(rune) for rune in range(0x20, 0x3100) if unicodedata.category(chr(rune)) not in ("Cc", "Cf", "Zl", "Zp", "Cn")]
    names = ["x" + "".join(runes[at : at + 40]).replace("/", "") for runes in (odd, even) for at in range(0, len(runes), 40)]
    for name in names:
        (folder / name).write_bytes(b"\xff")
    ended = subprocess.run([SAMHOST, *names], cwd=folder, input=b"", capture_output=True, timeout=GIVEN_UP)
    marks = {rune: "?" for rune in odd if rune not in JOINERS + SIGNS}
    wanted = [f"samhost: {''.join(marks.get(rune, rune) for rune in name)}: it is not UTF-8" for name in names]
    told = [line for line in ended.stderr.decode().split("\n") if line]
    expect_equal(len(told), len(wanted), "the number of lines")
    expect_equal([line for line in told if line not in wanted][:3], [], "what is told otherwise")


def check_names_in_the_list(folder):
    """A file's name makes no row of its own in --list, and no screen does what stands in it."""
    name = "x\x1b]0;owned\x07\u202e\n0123456789abcdef  1 s old"
    (folder / "temporary").mkdir()
    (folder / name).write_text("one\n")
    with Staying(folder, name) as session:
        listed = session.run("--list").stdout
        expect_equal(listed.count("\n"), 1, f"the rows of {listed!r}")
        expect("  x?]0;owned???0123456789abcdef  1 s old, in " in listed, f"the list has {listed!r}")
        session.leave()


def check_names_that_front_ends_take_for_theirs(folder):
    """A user's file whose name is that of a hidden one is not hidden, and is read, written, reported and taken over as any other. What an
    earlier session left of it is hidden."""
    (folder / "temporary").mkdir()
    names = ["~~left~~ 1 + 2026-01-01 00:00:00", "~~anew~~ 1", "~~sam~~", "~~left~~ 0 - " + "x" * 60]
    for name in names:
        (folder / name).write_text("one\n")
    (folder / f"{names[1]}.sam-saved").write_text("left\n")
    with Staying(folder, *names, options=("--left",)) as old:
        seen = [old.terminal.name(tag) for tag in sorted(tag for tag in old.terminal.files() if tag != 0)]
        expect_equal(seen[:3], names[:3], "the names in the session")
        expect(seen[3].startswith("\u2026") and len(seen[3]) == 64, f"the long name is {seen[3]!r}")
        expect_equal([note.number for note in old.of("ANEW")], [5], "the hidden files")
        old.terminal.open(1)
        old.settle()
        old.type("two\n")
        old.write()
        expect_equal(text_of(folder / names[0]), "one\ntwo\n", "the file")
        (folder / names[0]).write_text("another\n")
        old.type("three\n")
        old.write()
        why = "another program changed it, and the next write replaces it"
        told = f"not written: {names[0]}: {why}; its text is in {names[0]}.sam-saved"
        expect(told in old.said(), f"no {told!r} in {old.said()}")
        with Staying(folder, takes=old.name) as new:
            expect_equal(names_of(new), [*names[:3], seen[3]], "the names for the new terminal")
            expect_equal(new.of("ANEW"), [], "the files that are hidden from it")
            new.terminal.open(1)
            new.settle()
            new.write()
            new.write()
            expect_equal(text_of(folder / names[0]), "one\ntwo\nthree\n", "the file that the new terminal has written")
            new.leave()


def check_names_that_are_given_in_a_session(folder):
    """A name of that kind that the user gives to a file makes it none that is hidden, also for a new terminal."""
    made(folder, a="one\n")
    with Staying(folder, "a.txt") as old:
        old.rename("~~left~~ 1 + 1")
        old.type("two\n")
        with Staying(folder, takes=old.name) as new:
            expect_equal((names_of(new), new.of("ANEW")), (["~~left~~ 1 + 1"], []), "the names for the new terminal, and those hidden")
            new.leave()
    expect_equal(text_of(folder / "~~left~~ 1 + 1.sam-saved"), "one\ntwo\n", "the copy")


def check_names_of_what_is_opened(folder):
    """What is no regular file is never opened: to open a device may do something."""
    made(folder, a="one\n")
    os.mkfifo(folder / "fifo")
    (folder / "link").symlink_to("fifo")
    log = folder / "calls"
    words = ("strace", "-qq", "-o", log, "-e", "trace=open,openat")
    if shutil.which("strace") is None:
        raise Skipped("no strace")
    files = ["fifo", "link", "/dev/null", "a.txt"]
    expect_equal(run_host(folder, [*words, SAMHOST, *files])[0], 0, "the status")
    opened = log.read_text()
    expect('"a.txt"' in opened, "this test is wrong: the file isn't opened")
    for name in ('"fifo"', '"link"', '"/dev/null"'):
        expect(name not in opened, f"it opens {name}")


def check_trees_without_end(folder):
    """A tree of very many folders is walked so far and no farther, which is told; its files until there are served."""
    made(folder)
    tree = folder / "tree"
    tree.mkdir()
    (tree / "a.txt").write_text("one\n")
    for at in range(80):
        inner = tree / f"{at:03}"
        inner.mkdir()
        for number in range(130):
            (inner / str(number)).mkdir()
    with Session(folder, "tree") as session:
        expect_equal(names_of(session), ["tree/a.txt"], "the names")
        expect_line(session.told(), r"tree has more than 10000 folders; 1 files of the first ones are offered")
        expect_equal(session.end(), 0, "the status")
