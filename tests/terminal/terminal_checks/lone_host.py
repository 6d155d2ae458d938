"""The host without a terminal."""
import os
import subprocess

from .support import SAMHOST, SECONDS, expect


def host(folder, *words, **more):
    return subprocess.run([SAMHOST, *words], cwd=folder, capture_output=True, timeout=SECONDS, **more)


def check_host_words(folder):
    """What is wrong with the words, or with a file, is told; where nothing is, that there is no terminal."""
    (folder / "long.txt").write_text("x" * 1_000_001)
    (folder / "latin.txt").write_bytes(b"caf\xe9\n")
    os.link(folder / "latin.txt", folder / "hard")
    (folder / "soft").symlink_to("latin.txt")
    for words, status, told in (
        (["long.txt"], 1, "long.txt: it is longer than 1,000,000"),
        (["latin.txt"], 1, "latin.txt: it is not UTF-8"),
        (["."], 6, ".: 4 files are left out"),
        (["/dev/null"], 1, "/dev/null: it is not a regular file"),
        (["--nonsense"], 2, "usage"),
        (["a", "a"], 6, "twice"),
        (["latin.txt", "a"], 6, "latin.txt: it is not UTF-8"),
        (["latin.txt", "hard"], 1, "twice"),
        (["latin.txt", "soft"], 1, "twice"),
        ([], 6, "standard input has no hello of a terminal"),
    ):
        ended = host(folder, *words, input=b"")
        expect(ended.returncode == status and told in ended.stderr.decode(), f"{words}: {ended.returncode}, {ended.stderr}")
        expect(ended.stdout == b"", f"{words}: it writes {ended.stdout}")
