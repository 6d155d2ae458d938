"""What the rows share: a terminal that is fed frames by hand, and what it composes; a host that is fed messages, and what it answers."""
from checks import Failed, expect_equal
from frames import frame, messages
from sulgrevad import Host, SamError, Terminal


def code_of(call, *arguments):
    """The name of the status that a call raises."""
    try:
        call(*arguments)
    except SamError as error:
        return error.code.name
    raise Failed(f"{call.__name__}{arguments} raises nothing")


def take(terminal, name, *values, seen=0):
    """Hands a message of the host in."""
    terminal.feed(frame(name, *values, seen=seen))


def take_all(terminal, *told):
    """Hands messages of the host in, each a name and its values."""
    for name, *values in told:
        take(terminal, name, *values)


def refused(terminal, name, *values, seen=0):
    """Why a message of the host is refused."""
    return code_of(terminal.feed, frame(name, *values, seen=seen))


def expect_sent(terminal, *told):
    """The messages that were composed since this was asked last are these."""
    expect_equal(messages(terminal.take_out()), list(told))


def refusals(terminal):
    """Why events were refused since this was asked last."""
    return [refusal.why.name.removeprefix("REFUSAL_") for refusal in terminal.refusals()]


def with_gaps(count, tag=1):
    """A terminal that has one file open, with so many gaps."""
    terminal = Terminal()
    take_all(terminal, ("Hnewname", tag), ("Hbindname", tag), ("Hgrow", tag, 0, count))
    return terminal


def five_gaps():
    """A terminal that has file 1 open with five gaps."""
    return with_gaps(5)


def open_file(terminal, tag):
    """Opens an empty file."""
    take_all(terminal, ("Hnewname", tag), ("Hbindname", tag))


def locks_of(terminal, tag):
    """How many locks a file has: so many of the host's frames free it. They are gone then."""
    count = 0
    while terminal.locked(tag):
        take(terminal, "Hunlockfile", tag)
        count += 1
    return count


def host_with(*texts):
    """A host that has these texts as the files 1, 2, .., which a terminal has opened. The last is the work file."""
    host = Host()
    for text in texts:
        host.add_file("file", text)
    for tag in range(1, len(texts) + 1):
        host.feed(frame("Tstartfile", tag))
    host.take_out()
    return host


def answers(host, name, *values):
    """What the host answers to a message."""
    host.feed(frame(name, *values))
    return messages(host.take_out())


def command_host(text):
    """A host with a text as the file 1, which command lines work on, and an open command file."""
    host = host_with(text)
    answers(host, "Tstartcmdfile")
    return host


def runs(host, line):
    """What the host answers to a command line that is typed at the end of the command file."""
    return answers(host, "Ttype", 0, host.len(0), line + "\n")
