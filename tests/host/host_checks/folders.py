"""Folders that are served."""
import os

from .support import Session, as_nobody, expect_equal, made, names_of, text_of

LEFT_OUT = "files are left out, as they are no UTF-8 text, are too long or can't be read"


def check_folder(folder):
    """Of a folder the text files below it are served: its own first, by their names. What is left out is said."""
    made(folder, z="zeta\n")
    for name in ("d/e/f", "d/.hidden", "other"):
        (folder / name).mkdir(parents=True)
    files = {
        "d/b": b"beta\n", "d/a": b"", "d/e/c": b"gamma\n", "d/e/f/g": b"delta\n", "d/.h": b"x", "d/.hidden/i": b"x", "other/j": b"x",
        "d/nul": b"a\0b", "d/latin": b"\xe9", "d/long": b"x" * 1_000_001, "d/e/longer": b"x" * 4_000_001,
    }  # fmt: skip
    for name, data in files.items():
        (folder / name).write_bytes(data)
    os.mkfifo(folder / "d/fifo")
    (folder / "d/link").symlink_to("../other")
    (folder / "d/again").symlink_to("../z.txt")
    with Session(folder, "d", "z.txt") as session:
        expect_equal(names_of(session), ["d/a", "d/b", "d/e/c", "d/e/f/g", "z.txt"], "the names")
        expect_equal(session.told(), [f"samhost: d: 5 {LEFT_OUT}"], "what it says")
        session.type("more\n", 3)
        session.write(3)
        expect_equal(text_of(folder / "d/e/c"), "gamma\nmore\n", "the file")
        expect_equal(session.end(), 0, "the status")
    with Session(folder, "d/e/f/", "d/e/f/g") as session:
        expect_equal(names_of(session), ["d/e/f/g"], "the names")
        expect_equal(session.told(), ["samhost: d/e/f/ has no text files"], "what it says")
    with Session(folder, "d/e", "d") as session:
        expect_equal(names_of(session), ["d/e/c", "d/e/f/g", "d/a", "d/again", "d/b"], "the names of a folder in another")


def check_large_folder(folder):
    """Of a folder 200 files are served, and that there are more is said."""
    made(folder)
    (folder / "d").mkdir()
    for at in range(201):
        (folder / "d" / f"{at:03}").write_text(f"{at}\n")
    with Session(folder, "d") as session:
        expect_equal(names_of(session), [f"d/{at:03}" for at in range(200)], "the names")
        expect_equal(session.told(), ["samhost: d has more files; the first 200 are offered"], "what it says")
    (folder / "d" / "200").unlink()
    with Session(folder, "d") as session:
        expect_equal((len(names_of(session)), session.told()), (200, []), "of 200 files, the number and what it says")


def check_closed_folder(folder):
    """A folder, or a file in one, that may not be read is said to be so, and the others are served."""
    made(folder)
    for name in ("d/open", "d/closed"):
        (folder / name).mkdir(parents=True)
        (folder / name / "a").write_text("a\n")
    (folder / "d/open/b").write_text("b\n")
    prefix = as_nobody(folder)
    (folder / "d/closed").chmod(0)
    (folder / "d/open/b").chmod(0)
    with Session(folder, "d", prefix=prefix) as session:
        expect_equal(names_of(session), ["d/open/a"], "the names")
        expect_equal(session.told(), ["samhost: d/closed: Permission denied", f"samhost: d: 1 {LEFT_OUT}"], "what it says")
