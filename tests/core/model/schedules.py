"""What `sam_play threads` prints, a schedule, judged by the model."""

from . import scripts
from .world import World


class WrongSchedule(Exception):
    """Why a schedule is none of its script."""


def wanted(is_so, *told):
    if not is_so:
        raise WrongSchedule(" ".join(map(str, told)))


def is_merged(events, keys, mouse):
    """Whether the events are those of both senders, each in its order, and at most one exit behind."""
    places = {(0, 0)}
    for at, event in enumerate(events):
        after = {(key + 1, other) for key, other in places if keys[key : key + 1] == [event]}
        after |= {(key, other + 1) for key, other in places if mouse[other : other + 1] == [event]}
        if not after and at == len(events) - 1 and event == ("exit",):
            after = places
        places = after
    return (len(keys), len(mouse)) in places


def run_step(world, line):
    """Does a line of a schedule, which has to do something."""
    if line.word == "act":
        wanted(world.act(), "line", line.number, "acts where nothing is held, or a lock holds it back")
    elif line.word == "flush":
        wanted(world.flush(), "line", line.number, "flushes where nothing is unsent")
    else:
        wanted(line.word in ("k", "host", "term"), "line", line.number, "is no line of a schedule")
        scripts.run(world, line)


def judge(script, printed):
    """Judges what is printed of a right script, both as bytes: its files, then a run of its events to its end, one `show`, and what the
    model shows of this run. Raises WrongSchedule."""
    asked = scripts.read(script)
    senders = [[line.values for line in asked if line.word == sender] for sender in "km"]
    try:
        lines = scripts.read(printed)
        files = [line.values for line in lines if line.word == "file"]
        wanted(files == [line.values for line in asked if line.word == "file"], "the files are others")
        world = World(files)
        *steps, last = [line for line in lines if line.word != "file"]
        for line in steps:
            run_step(world, line)
    except scripts.WrongScript as why:
        raise WrongSchedule(f"line {why} can't be run") from None
    wanted(is_merged([line.values for line in steps if line.word == "k"], *senders), "the events are not those of both senders, in order")
    wanted(world.is_at_rest() and world.terminal.is_over, "it ends before all is done")
    shown = [line for line in printed.decode().splitlines() if line.startswith("=")]
    wanted(last.word == "show" and shown == world.show(), "it shows", shown, "and the model", world.show())
