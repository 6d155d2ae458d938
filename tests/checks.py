"""The common parts of the tests in Python: how a check fails or is skipped, how it waits, and a place of its own."""
import contextlib
import ctypes
import os
import re
import shutil
import tempfile
import time
from collections import Counter
from pathlib import Path

SECONDS = 100  # how long something may take
MOST_MORE = 300  # seconds that are waited beyond that, however busy the machine is: what never comes would hold up the gate for half an hour
MOST_TIMES = 20
GIVEN_UP = 300  # seconds after which what doesn't end counts as hanging, however busy the machine is
ROOT = Path(__file__).resolve().parent.parent
LIBRARY = Path(os.environ.get("SAM_LIBRARY") or ROOT / "out" / "libsulgrevad.so").resolve()
SAMHOST = Path(os.environ.get("SAMHOST") or ROOT / "out" / "samhost").resolve()
TMP = Path("/tmp")
CLONE_NEWNS, MS_BIND, MS_REC, MS_PRIVATE, MNT_DETACH = 0x20000, 0x1000, 0x4000, 0x40000, 2  # of <sched.h> and <sys/mount.h>
libc = ctypes.CDLL(None)


class Failed(Exception):
    """What does not hold."""


class Skipped(Exception):
    """What is missing."""


def expect(holds, told):
    if not holds:
        raise Failed(told)


def expect_equal(got, wanted):
    expect(got == wanted, f"{got!r}, wanted {wanted!r}")


# ---- Words of calls

NO_VERBS = ("This", "Its", "Always", "Unless")  # first words of this form that are none
OF_A_NOUN = ("of", "that", "which", "are")  # the word after a noun of this form, as in "Bytes of a text"


def begins_with_verb(words):
    """Whether a call is described by its work: the first word has the form of a verb in the third person, as in "Returns the name"."""
    first, second = [*words.split(), "", ""][:2]
    return bool(re.fullmatch(r"[A-Z][a-z]+s", first)) and first not in NO_VERBS and second not in OF_A_NOUN


# ---- Checks, which are functions of modules


def checks_of(modules):
    """The checks by their names."""
    return {name[6:]: check for module in modules for name, check in vars(module).items() if name.startswith("check_")}


def named_twice(modules):
    """The names that more than one check has: only the last of these would run."""
    names = [name for module in modules for name in re.findall(r"^def check_(\w+)", Path(module.__file__).read_text(), re.MULTILINE)]
    return [name for name, count in Counter(names).items() if count > 1]


# ---- Waiting


def times_longer():
    """How many times longer a piece of work takes now by the clock than it takes the processor: once where the machine is quiet."""
    clock, processor = time.monotonic(), time.process_time()
    while time.process_time() - processor < 0.3:
        pass
    return max(1, min(MOST_TIMES, (time.monotonic() - clock) / (time.process_time() - processor)))


def times_slower():
    """How many times more of the processor a piece of work takes now, beside the work of others, than at its quickest: once where the
    machine is quiet."""
    pieces = []
    for _ in range(200):
        start = time.process_time()
        sum(range(50_000))
        pieces.append(time.process_time() - start)
    pieces.sort()
    return max(1, min(MOST_TIMES, pieces[len(pieces) // 2] / pieces[0]))


QUIET_LOOP = 0.023  # seconds of the processor that `least_loop` took on the quiet machine on which the limits for costs were set


def least_loop():
    """The least seconds of the processor that a fixed loop takes here, of three."""

    def loop():
        before = time.process_time()
        sum(at * at for at in range(300_000))
        return time.process_time() - before

    return min(loop() for _ in range(3))


def times_dearer():
    """How many times more of the processor a piece of work takes here than on a quiet machine; once at least. Machines of one kind differ
    by two times, and from hour to hour."""
    return max(1, least_loop() / QUIET_LOOP)


PAUSES = (0, 1, 4, 10)  # seconds before each try


def in_some_try(check):
    """Has a check that measures something hold in one of several tries, with longer and longer pauses: other programs make a machine slow
    for a while, and what is slow by itself fails each time. Returns what it returned."""
    why = None
    for pause in PAUSES:
        time.sleep(pause)
        try:
            return check()
        except Failed as failed:
            why = failed
    raise why


def expect_cheap(cost, most, told):
    """What `cost` does takes fewer seconds of the processor than so many of a quiet machine; it returns them."""

    def check():
        took, dearer = cost(), times_dearer()
        expect(took < most * dearer, f"{told}: {took * 1000:.2f} ms of the processor, wanted {most * 1000:.2f}, {dearer:.1f} times dearer here")

    in_some_try(check)


def seconds_of(process):
    """The seconds of the processor that a process has taken."""
    return sum(int((task / "schedstat").read_text().split()[0]) for task in Path(f"/proc/{process}/task").iterdir()) / 1e9


def expect_sleep(processes, most=0.05):
    """Two seconds cost processes next to none of the processor."""

    def check():
        before = sum(map(seconds_of, processes))
        time.sleep(2)
        cost = sum(map(seconds_of, processes)) - before
        expect(cost < most, f"two quiet seconds cost {cost:.3f} s of the processor")

    in_some_try(check)


def wait_until(holds, told, seconds=None):
    """Waits until something holds; answers what it was. On a busy machine it waits as many times longer as work takes there, to a limit."""
    limit, is_longer = seconds or SECONDS, False
    until = time.monotonic() + limit
    while True:
        got = holds()
        if got:
            return got
        if time.monotonic() >= until:
            expect(not is_longer, told() if callable(told) else told)
            until, is_longer = until + min(limit * (times_longer() - 1), MOST_MORE), True
        time.sleep(0.01)


# ---- A place of its own


def mount(source, target, kind, flags):
    return libc.mount(os.fsencode(source), os.fsencode(target), kind, flags, None) == 0


def cover_tmp(kept):
    """Gives this process, and those that it starts, a /tmp of its own, where the system lets it: what others have there under the bare name
    of a file shows nowhere. Of the old one these folders stay, where they are there. Returns whether it is there."""
    kept = [path for path in map(Path.resolve, kept) if TMP in path.parents and path.exists()]
    if libc.unshare(CLONE_NEWNS) != 0 or not mount("none", "/", None, MS_REC | MS_PRIVATE):
        return False
    places = [(path, os.open(path, os.O_PATH)) for path in kept]
    is_there = mount("none", TMP, b"tmpfs", 0)
    for path, place in places:
        path.mkdir(parents=True, exist_ok=True)
        expect(not is_there or mount(f"/proc/self/fd/{place}", path, None, MS_BIND), f"{path} is not there in a /tmp of its own")
        os.close(place)
    return is_there


def uncover_tmp():
    libc.umount2(os.fsencode(TMP), MNT_DETACH)


def set_home(folder):
    """Has programs find a home and a folder for temporary files in this folder, the tools of the user where they were, and nothing else
    that he has chosen."""
    old = Path(os.environ.get("HOME") or "/")
    for name in [name for name in os.environ if name.startswith("XDG_") or name == "SAMTERM_KEYS"]:
        del os.environ[name]
    for name, place in (("CARGO_HOME", ".cargo"), ("RUSTUP_HOME", ".rustup"), ("PYTHONUSERBASE", ".local")):
        os.environ.setdefault(name, str(old / place))
    for name, place in (("HOME", "home"), ("TMPDIR", "tmp")):
        (folder / place).mkdir(mode=0o755)
        os.environ[name] = str(folder / place)
    tempfile.tempdir = None


def remove(folder):
    """Removes a folder. A host whose session was cut off may still save a text there, so it is tried until the folder is gone."""
    end = time.monotonic() + SECONDS
    while folder.exists() and time.monotonic() < end:
        for entry in folder.rglob("*"):
            if entry.is_dir() and not entry.is_symlink():
                entry.chmod(0o755)
        shutil.rmtree(folder, ignore_errors=True)


@contextlib.contextmanager
def own_room():
    """A folder that every user can reach, in which checks have their places. It goes at the end."""
    room = Path(tempfile.mkdtemp(prefix="sam-")).resolve()
    room.chmod(0o755)
    try:
        yield room
    finally:
        remove(room)


@contextlib.contextmanager
def own_place(room):
    """A folder in the room for what runs meanwhile in this process: with a home, a folder for temporary files, and where the system lets it
    a /tmp, that are no other's."""
    before = dict(os.environ)
    folder, beside = (Path(tempfile.mkdtemp("", "", room)) for _ in range(2))
    for place in (folder, beside):
        place.chmod(0o755)
    is_covered = cover_tmp([room, ROOT, LIBRARY.parent, SAMHOST.parent, Path.cwd()])
    set_home(beside)
    if is_covered:
        os.environ["TMP_IS_OWN"] = "1"
    try:
        yield folder
    finally:
        os.environ.clear()
        os.environ.update(before)
        tempfile.tempdir = None
        for place in (folder, beside):
            remove(place)
        if is_covered:
            uncover_tmp()
