"""Files that are written in place, with what belongs to them, and links."""
import os
import shutil
import struct

from checks import Skipped, expect
from sulgrevad import NoteKind

from .support import (
    AGE, IDLE, IS_ROOT, LATE, NOBODY, OPEN, SAMHOST, WRITE, Session, as_nobody, expect_equal, expect_line, expect_only, files_below, made,
    names_in, names_of, on_file, own_copy, run_host, text_of, typed, with_mount,
)  # fmt: skip

ACCESS_LIST = "system.posix_acl_access"
LONGEST_PATH, LINKS = 4095, 40  # bytes of a path, and symbolic links on the way to a file, that the system takes


def in_place(folder, path, prefix=(), text="two\n", **more):
    """Writes a file, which is to stay the file that it is, and to leave nothing beside it."""
    before, names = path.stat(), names_in(path.parent)
    with Session(folder, str(path), prefix=prefix, **more) as session:
        session.type(text)
        session.write()
        expect_equal(session.told(), [], "what it says")
        after = path.stat()
        expect_equal(text_of(path), "one\n" + text, "the file")
        session.type("three\n")
        session.write()
        expect_equal(session.end(), 0, "the status")
    marks = [(status.st_ino, status.st_mode, status.st_uid, status.st_gid, status.st_nlink) for status in (before, after)]
    expect_equal(marks[1], marks[0], "device, mode, owner, group and links")
    expect_equal(text_of(path), f"one\n{text}three\n", "the file")
    expect_equal(names_in(path.parent), names, "what is in the folder")
    expect_equal(files_below(folder / "temporary"), [], "what is in the folder for temporary files")


def check_hard_link(folder):
    (path,) = made(folder, a="one\n")
    os.link(path, folder / "b.txt")
    in_place(folder, path)
    expect_equal(text_of(folder / "b.txt"), "one\ntwo\nthree\n", "the other name's text")


def check_shorter_in_place(folder):
    """A text that is shorter than what the file had."""
    (path,) = made(folder, a="long " * 1000)
    os.link(path, folder / "b.txt")
    with Session(folder, "a.txt") as session:
        session.replace("short")
        session.write()
        session.end()
    expect_equal(text_of(folder / "b.txt"), "short", "the file")


def access_list(*entries):
    """An access list of entries (kind, rights, user or group), as the system keeps it."""
    return struct.pack("<I", 2) + b"".join(struct.pack("<HHI", *entry) for entry in entries)


def give_access_list(path):
    """Lets one user more read a file, whose group may not: the mode then has the rights of the mask where the group's stand."""
    rights = access_list((1, 6, 2**32 - 1), (2, 4, 12345), (4, 0, 2**32 - 1), (0x10, 4, 2**32 - 1), (0x20, 0, 2**32 - 1))
    try:
        os.setxattr(path, ACCESS_LIST, rights)
    except OSError as error:
        raise Skipped(f"no access lists here: {error}") from error
    return os.getxattr(path, ACCESS_LIST)


def check_access_list(folder):
    (path,) = made(folder, a="one\n")
    rights = give_access_list(path)
    in_place(folder, path)
    expect_equal(os.getxattr(path, ACCESS_LIST), rights, "the access list")


def check_access_list_of_a_copy(folder):
    """The group gets no more of a copy than it has of the file."""
    (path,) = made(folder, a="one\n")
    give_access_list(path)
    expect_equal(path.stat().st_mode & 0o777, 0o640, "the mode of the file, in this test")
    with Session(folder, "a.txt") as session:
        session.type("two\n")
        session.end()
    expect_equal((folder / "a.txt.sam-saved").stat().st_mode & 0o777, 0o600, "the mode of the copy")


def check_access_list_of_a_folder(folder):
    """A file that has no access list gets none from its folder."""
    (path,) = made(folder, a="one\n")
    path.chmod(0o640)
    give_access_list(folder / "temporary")  # is there what this needs?
    os.setxattr(folder, "system.posix_acl_default", access_list(
        (1, 7, 2**32 - 1), (2, 7, 12345), (4, 5, 2**32 - 1), (0x10, 7, 2**32 - 1), (0x20, 5, 2**32 - 1)))  # fmt: skip
    with Session(folder, "a.txt") as session:
        session.type("two\n")
        session.write()
        session.end()
    expect_equal(text_of(path), "one\ntwo\n", "the file")
    expect(ACCESS_LIST not in os.listxattr(path), "the file got an access list")
    expect_equal(path.stat().st_mode & 0o777, 0o640, "the mode")


def check_attributes(folder):
    (path,) = made(folder, a="one\n")
    try:
        os.setxattr(path, "user.note", b"kept")
    except OSError as error:
        raise Skipped(f"no attributes here: {error}") from error
    in_place(folder, path)
    expect_equal(os.getxattr(path, "user.note"), b"kept", "the attribute")


def check_folder_not_writable(folder):
    """What the file was goes to the user's own folder meanwhile, and so does a copy."""
    made(folder)
    prefix = as_nobody(folder)
    place = folder / "place"
    place.mkdir()
    path = place / "a.txt"
    path.write_text("one\n")
    if IS_ROOT:
        os.chown(path, NOBODY, NOBODY)
    place.chmod(0o555)
    in_place(folder, path, prefix)
    with Session(folder, "place/a.txt", prefix=prefix) as session:
        session.type("four\n")
        session.end()
        copy = own_copy(folder, "place/a.txt")
        expect_line(session.lines, f"place/a.txt was not written; its text is in {copy}")
    with Session(folder, "place/a.txt", prefix=prefix) as session:
        expect_line(session.lines, f"place/a.txt has a text that was not written: it is in {copy}{AGE}")
    place.chmod(0o755)


def check_no_place_for_the_old(folder):
    """Where what the file was can't be kept, it is not written in place."""
    (path,) = made(folder, a="o" * 100)
    os.link(path, folder / "b.txt")
    with Session(folder, "a.txt", limit=50) as session:
        session.replace("short")
        session.write()
        expect_line(session.told(), r"not written: a.txt: File too large; its text is in a.txt.sam-saved")
        expect_equal(session.end(), 0, "the status")
    expect_equal(text_of(path), "o" * 100, "the file")
    expect_equal(text_of(folder / "a.txt.sam-saved"), "short", "the copy")


def check_owner_in_place(folder):
    """A file of another user, which this one may write: it stays the other's."""
    if not IS_ROOT:
        raise Skipped("not root, so no file can be another's")
    (path,) = made(folder, a="one\n")
    path.chmod(0o666)
    in_place(folder, path, as_nobody(folder))
    expect_equal(path.stat().st_uid, 0, "the owner")


def check_owner_kept(folder):
    """A new file gets the owner and the mode of the old one, also the parts of it that a write takes. So it is in place."""
    made(folder)
    for is_linked in (False, True):
        for is_nobody in (False, True) if IS_ROOT else (True,):
            (path,) = made(folder, a="one\n")
            if IS_ROOT:
                os.chown(path, NOBODY, NOBODY)
            path.chmod(0o6750)
            if is_linked:
                os.link(path, folder / "b.txt")
            before = path.stat()
            with Session(folder, "a.txt", prefix=as_nobody(folder) if is_nobody else ()) as session:
                session.type("two\n")
                session.write()
                session.end()
            after, what = path.stat(), f"nobody: {is_nobody}, linked: {is_linked}: "
            expect((after.st_ino == before.st_ino) == is_linked, f"{what}that it is the same file")
            marks = [(status.st_uid, status.st_gid, oct(status.st_mode)) for status in (before, after)]
            expect_equal(marks[1], marks[0], f"{what}owner, group and mode")
            for entry in ("a.txt", "b.txt"):
                (folder / entry).unlink(missing_ok=True)


def check_mode_of_new_files(folder):
    """A new file has the mode that the user's mask leaves; its copy is the owner's alone."""
    made(folder)
    for mask, mode in ((0o077, 0o600), (0o022, 0o644)):
        with Session(folder, "new.txt", prefix=("sh", "-c", f'umask {mask:o}; exec "$@"', "sh")) as session:
            session.type("one\n")
            session.write()
            session.terminal.new_file()
            session.settle()
            session.type("two\n", session.terminal.current)
            session.end()
        for name, wanted in (("new.txt", mode), ("unnamed-2.sam-saved", 0o600)):
            expect_equal(oct((folder / name).stat().st_mode & 0o777), oct(wanted), f"the mode of {name} under {mask:o}")
            (folder / name).unlink()


def check_may_not_write(folder):
    """A file that the user may not write is not replaced, though its folder would allow it."""
    (path,) = made(folder, a="one\n")
    prefix = as_nobody(folder)
    if IS_ROOT:
        os.chown(path, NOBODY, NOBODY)
    path.chmod(0o444)
    with Session(folder, "a.txt", prefix=prefix) as session:
        session.write()
        expect_line(session.told(), r"not written: a.txt: Permission denied; it has this text already")
        expect_only(folder, "a.txt")
        session.type("two\n")
        session.write()
        expect_line(session.told(), r"not written: a.txt: Permission denied; its text is in a.txt.sam-saved")
        session.end()
    expect_equal(text_of(path), "one\n", "the file")


def check_bind_mount(folder):
    """A file that something is mounted on, as containers have it."""
    (path,) = made(folder, a="one\n")
    other = folder / "other"
    other.write_text("one\n")
    prefix = with_mount(folder, "mount --bind other a.txt")
    with Session(folder, "a.txt", prefix=prefix) as session:
        session.type("two\n")
        session.write()
        expect_equal(session.told(), [], "what it says")
        expect_equal(session.end(), 0, "the status")
    expect_equal((text_of(path), text_of(other)), ("one\n", "one\ntwo\n"), "the files")
    expect_only(folder, "a.txt", "other")


def check_links(folder):
    """Symbolic links stay, whether they lead to a file or nowhere yet."""
    (path,) = made(folder, a="one\n")
    (folder / "d").mkdir()
    for name, target in (("link", "a.txt"), ("chain", "link"), ("dangling", "d/new.txt"), ("far", "no/where.txt")):
        (folder / name).symlink_to(target)
    with Session(folder, "chain", "dangling", "far") as session:
        for tag in (1, 2, 3):
            session.type("two\n", tag)
            session.write(tag)
        expect_line(session.told(), r"not written: far: No such file or directory; its text is in far.sam-saved")
        session.end()
    expect_equal(text_of(path), "one\ntwo\n", "the file at the end of two links")
    expect_equal(text_of(folder / "d" / "new.txt"), "two\n", "the file that a link led to before it was there")
    expect(all((folder / name).is_symlink() for name in ("link", "chain", "dangling", "far")), "a link is gone")


def check_unreadable_link(folder):
    """A symbolic link that can't be read for once is not taken for a file, so the text doesn't take its place."""
    if shutil.which("strace") is None:
        raise Skipped("no strace")
    (path,) = made(folder, a="one\n")
    (folder / "d").mkdir()
    (folder / "d" / "link").symlink_to("../a.txt")
    stream = on_file(OPEN) + typed(1, 0, b"two ") + on_file(WRITE)
    # The link is read to find it twice among the words, then to note what was read there, and then for the write.
    for first, word, given, status, said in (
        (2, "d/link", b"", 1, "d/link: Input/output error"), (1, "d", b"", 0, "d has no text files"),
        (3, "d/link", stream, 0, "not written: d/link: Input/output error; its text is in d/link.sam-saved"),
    ):  # fmt: skip
        fault = f"inject=readlink:error=EIO:when={first}+"
        words = ("strace", "-qq", "-o", "/dev/null", "-P", "d/link", "-e", fault, SAMHOST, word)
        got, lines = run_host(folder, words, given)
        expect_equal(got, status, f"{word}, from call {first}: the status")
        expect(f"samhost: {said}" in lines, f"{word}, from call {first}: it says {lines}")
        expect((folder / "d" / "link").is_symlink() and text_of(path) == "one\n", f"{word}, from call {first}: the link is gone")
    expect_equal(text_of(folder / "d" / "link.sam-saved"), "two one\n", "the copy")


def check_many_links(folder):
    """As many symbolic links as the system follows, on the way to a file that is named, and to one of a folder."""
    (path,) = made(folder, a="one\n")
    (folder / "d").mkdir()
    for number in range(1, LINKS):
        (folder / str(number)).symlink_to(str(number - 1) if number > 1 else "a.txt")
    (folder / "d" / "last").symlink_to(f"../{LINKS - 1}")
    expect_equal(text_of(folder / "d" / "last"), "one\n", "this test is wrong: what the system finds")
    for word in ("d", "d/last"):
        with Session(folder, word) as session:
            expect_equal(names_of(session), ["d/last"], f"{word}: the names")
            session.type("two\n")
            session.write()
            expect_equal(session.told(), [], f"{word}: what it says")
            expect_equal(session.end(), 0, f"{word}: the status")
    expect_equal(text_of(path), "one\ntwo\ntwo\n", "the file")


def deep_folder(folder, length):
    """A folder whose path has so many bytes."""
    place = folder / "d"
    while len(str(place)) < length - 220:
        place /= "d" * 100
    place /= "d" * (length - len(str(place)) - 1)
    place.mkdir(parents=True)
    return place


def check_long_path(folder):
    """A file whose path is as long as the system takes is replaced, or made, as any other. Beside one in a folder of so long a path there
    is no place for a new one, so it is written in place, and what isn't there can't be made."""
    made(folder)
    for number, is_there in enumerate((True, False)):
        (folder / f"{number}").mkdir()
        place = deep_folder(folder / f"{number}", LONGEST_PATH - 51)
        path = place / ("a" * 50)
        expect_equal(len(str(path)), LONGEST_PATH, "this test is wrong: the length of the path")
        if is_there:
            path.write_text("one\n")
        before = is_there and path.stat().st_ino
        with Session(folder, str(path)) as session:
            session.type("two\n")
            session.write()
            expect_equal(session.told(), [], f"there: {is_there}: what it says")
            expect_equal(session.end(), 0, "the status")
        expect_equal(text_of(path), "one\ntwo\n" if is_there else "two\n", "the file")
        expect_equal(names_in(place), [path.name], "what is in the folder")
        expect(path.stat().st_ino != before, "it was written in place")
    place = deep_folder(folder, LONGEST_PATH - 4)
    path, absent = place / "abc", place / "new"
    path.write_text("one\n")
    in_place(folder, path)
    with Session(folder, str(absent)) as session:
        session.type("two\n")
        session.write()
        copy = own_copy(folder, absent)
        answer = session.line.messages[-1]
        expect_equal((answer.kind, answer.tag, answer.copy), (NoteKind.NOT_SAVED, 1, os.fsencode(copy)), "what it answers")
        expect(f"not written: {absent}: File name too long; its text".startswith(answer.text), "it says something else")
        expect_equal(text_of(copy), "two\n", "the copy")


def check_failed_in_place(folder):
    """A write in place that fails on its way gives the file back what it had."""
    (path,) = made(folder, a="one\n" + "o" * 100)
    os.link(path, folder / "b.txt")
    with Session(folder, "a.txt", limit=1000) as session:
        session.type("x" * 2000)
        session.write()
        expect_line(session.told(), r"not written: a.txt: File too large; its text could not be saved: File too large")
        expect_equal(text_of(path), "one\n" + "o" * 100, "the file")
        expect_equal(session.end(), 5, "the status")
    expect_only(folder, "a.txt", "b.txt")


def check_broken_in_place(folder):
    """Where the file can't be given back what it had either, that stays beside it, and is said. The text is saved aside."""
    if shutil.which("strace") is None:
        raise Skipped("no strace")
    (path,) = made(folder, a="one\n")
    os.link(path, folder / "b.txt")
    # The first of these calls keeps what the file was; the second writes into it, the third gives it back.
    failing = ("strace", "-qq", "-o", "/dev/null", "-e", "inject=pwrite64:error=EIO:when=2..3")
    with Session(folder, "a.txt", prefix=failing) as session:
        session.type("two\n")
        session.write()
        lines = session.told()
        expect_line(lines, r"a.txt is broken; what it was is in a.txt.sam-old")
        expect_line(lines, r"not written: a.txt: Input/output error; its text is in a.txt.sam-saved")
        expect_equal(session.end(), 0, "the status")
    expect_equal(text_of(folder / "a.txt.sam-old"), "one\n", "what the file was")
    expect_equal(text_of(folder / "a.txt.sam-saved"), "one\ntwo\n", "the copy")


def check_broken_in_place_unseen(folder):
    """So it is where the disk has failed behind a write, and the system shows what it could not bring there: no look at the file tells."""
    if shutil.which("strace") is None:
        raise Skipped("no strace")
    (path,) = made(folder, a="one\n")
    os.link(path, folder / "b.txt")
    copy = folder / "a.txt.sam-saved"
    # The third sync is that of the file, behind those of what it was and its name; the third write gives back what it was.
    failing = ("strace", "-qq", "-o", "/dev/null", "-e", "inject=fsync:error=EIO:when=3", "-e", "inject=pwrite64:error=EIO:when=3")
    with Session(folder, "a.txt", prefix=failing) as session:
        session.type("two\n")
        session.write()
        lines = session.told()
        expect_equal(text_of(path), "one\ntwo\n", "this test is wrong: the file")
        expect_line(lines, r"a.txt is broken; what it was is in a.txt.sam-old")
        expect_line(lines, r"not written: a.txt: Input/output error; its text is in a.txt.sam-saved")
        session.let_pass(IDLE + LATE)
        session.type("x")
        session.let_pass(IDLE + LATE)
        end = session.terminal.len(1)
        session.terminal.edit(1, end - 1, end, "")
        session.settle()
        session.let_pass(IDLE + LATE)
        expect_equal(text_of(copy), "one\ntwo\n", "the copy")
        session.write()
        expect_equal((session.told(), copy.exists()), ([], False), "what it says of the next write, and whether the copy stays")
        expect_equal(session.end(), 0, "the status")
    expect_equal(text_of(path), "one\ntwo\n", "the file")


def check_without_links(folder):
    """Where a file system has no links a copy takes a name that is free all the same."""
    if shutil.which("strace") is None:
        raise Skipped("no strace")
    made(folder, a="one\n")
    (folder / "a.txt.sam-saved").write_text("of another session")
    without = ("strace", "-qq", "-o", "/dev/null", "-e", "inject=link:error=EPERM")
    with Session(folder, "a.txt", prefix=without) as session:
        session.type("two\n")
        expect_equal(session.end(), 0, "the status")
        expect_line(session.lines, r"a.txt was not written; its text is in a.txt.sam-saved.2")
    expect_equal(text_of(folder / "a.txt.sam-saved"), "of another session", "the copy that was there")
    expect_equal(text_of(folder / "a.txt.sam-saved.2"), "one\ntwo\n", "the copy")
    expect_only(folder, "a.txt", "a.txt.sam-saved", "a.txt.sam-saved.2")
