"""What the host says, and that nobody reads it."""
import contextlib
import fcntl
import os
import subprocess

from checks import GIVEN_UP, expect, wait_until

from .support import (
    IDLE, LATE, OPEN, SAMHOST, WRITE, Line, carried, expect_equal, expect_line, made, message, on_file, own_copy, text_of, typed,
)  # fmt: skip


def check_control_characters(folder):
    """A line says what is in a name so that no screen does what stands there, and that it stays one line."""
    made(folder)
    name = "a\x1b[31m\nsamhost: b"
    (folder / name).write_bytes(b"\xff")
    ended = subprocess.run([SAMHOST, name], cwd=folder, input=b"", capture_output=True, timeout=GIVEN_UP)
    expect_equal(ended.stderr.decode(), "samhost: a?[31m?samhost: b: it is not UTF-8\n", "what it says")


@contextlib.contextmanager
def unread(folder, *words):
    """A host whose standard error is a pipe that is full, and all that it has, as its terminal doesn't hear it: the process, and both ends
    of that pipe."""
    source, sink = os.pipe()
    unheard, output = os.pipe()
    os.close(unheard)
    os.set_blocking(sink, False)
    with contextlib.suppress(BlockingIOError):
        while True:
            os.write(sink, b"\n" * 4096)
    os.set_blocking(sink, True)
    with subprocess.Popen(
        [SAMHOST, *words], cwd=folder, stdin=subprocess.PIPE, stdout=output, stderr=sink, bufsize=0,
        env={**os.environ, "XDG_STATE_HOME": str(folder / "temporary")},
    ) as process:  # fmt: skip
        os.close(output)
        try:
            yield process, source, sink
        finally:
            process.kill()
            os.close(source)
            os.close(sink)


def check_nobody_reads_what_it_says(folder):
    """A host whose standard error has no room saves texts all the same, and says later that lines are missing. Others who have that
    standard error find it as it was."""
    made(folder, a="one\n")
    copy = own_copy(folder, "no/c.txt")
    failing, line = typed(1, 0, b"2") + on_file(WRITE), Line()
    with unread(folder, "a.txt") as (process, source, sink):
        process.stdin.write(line.carried(message(2) + on_file(OPEN) + typed(0, 0, b"f no/c.txt\n") + failing + typed(1, 0, b"3")))
        wait_until(lambda: text_of(copy) == "32one\n", "the text is not saved", IDLE + LATE)
        expect(not fcntl.fcntl(sink, fcntl.F_GETFL) & os.O_NONBLOCK, "who writes there next doesn't wait for room any more")
        expect_equal(os.read(source, 1 << 20).strip(), b"", "this test is wrong: what is in the full pipe")
        process.stdin.write(line.carried(failing))
        process.stdin.close()
        expect_equal(process.wait(GIVEN_UP), 0, "the status")
        lines = os.read(source, 65536).decode().splitlines()
    expect_line(lines, r"lines missing before this one, since nobody read them: [1-9]\d*")
    expect_line(lines, rf"not written: no/c.txt: No such file or directory; its text is in {copy}")
    expect_line(lines, f"no/c.txt was not written; its text is in {copy}")
    expect_equal(len(lines), 3, f"in {lines} the number")
    expect_equal(text_of(copy), "232one\n", "the copy")


def check_nobody_reads_of_many(folder):
    """Nor do many lines hold up its end: once one has waited in vain, no other does."""
    made(folder)
    (folder / "d").mkdir()
    count = 100
    for at in range(count):
        (folder / "d" / f"{at:02}").write_text("one\n")
    with unread(folder, "d") as (process, source, _):
        process.stdin.write(carried(b"".join(on_file(OPEN, tag) + typed(tag, 0, b"two ") for tag in range(1, count + 1))))
        process.stdin.close()
        expect_equal(process.wait(GIVEN_UP), 0, "the status")
    copies = [text_of(folder / "d" / f"{at:02}.sam-saved") for at in range(count)]
    expect_equal(copies, ["two one\n"] * count, "the copies")


def check_control_characters_of_any_kind(folder):
    """DEL, and the control characters from U+0080 on, are question marks, too, one each. Bytes of other characters stay."""
    made(folder)
    name = "a\x7f\x9b31m\x80\x9f\xa0\u251b\u00e9b"  # the last byte of U+251B is 9B
    (folder / name).write_bytes(b"\xff")
    ended = subprocess.run([SAMHOST, name], cwd=folder, input=b"", capture_output=True, timeout=GIVEN_UP)
    expect_equal(ended.stderr.decode(), "samhost: a??31m??\xa0\u251b\u00e9b: it is not UTF-8\n", "what it says")
