"""Scripts: at which line one is wrong, and that one prints the same each time."""
from checks import expect_equal
from sulgrevad import ScriptFault, replay

# Scripts that are right, and do nothing that can't be done.
RIGHT = (
    "",
    "\n\n# a\n= b\n",
    "k version 1\nact\nhost",
    "file a b c\\n\\\\d\nk type 1 X y\nm flush\nk exit\ndrain\nshow",
    "file a\nk type 1",
    "k select 1 2 3\nk scroll 1 4294967295",
)

# Scripts, each with its first wrong line.
WRONG = (
    ("host\nfile a b", 2),
    ("host ", 1),
    (" host", 1),
    ("show\nhost x", 2),
    ("k", 1),
    ("k type", 1),
    ("k select 1 2", 1),
    ("k select 1 2 3 4", 1),
    ("k select 1 2 +3", 1),
    ("k select 1  3", 1),
    ("k cut 65536", 1),
    ("k scroll 1 4294967296", 1),
    ("k version 65536", 1),
    ("show\nk type 1 a\\", 2),
    ("show\nk type 1 a\\x", 2),
    ("file", 1),
    ("file  a", 1),
    ("fly", 1),
    ("show\nhost\r", 2),
    (b"show\n# \xC3", 2),
)


def fault_of(script):
    """The code and the line of a script's fault; None where it has none."""
    try:
        replay(script)
    except ScriptFault as fault:
        return fault.code.name, fault.line
    return None


def test_right_scripts_have_no_fault():
    expect_equal([fault_of(script) for script in RIGHT], [None] * len(RIGHT))


def test_the_first_wrong_line_is_the_fault():
    for script, line in WRONG:
        expect_equal((script, fault_of(script)), (script, ("SCRIPT_LINE", line)))


def test_a_run_stops_where_nothing_is_there():
    version = "file a ab\nk version 1\nact\nhost\n"
    expect_equal(fault_of(version + "host\n"), ("SCRIPT_LINE", 5))
    expect_equal(replay(version + "show\n").splitlines()[-1], b"= s 1 1 1 0 0 5")


def test_a_script_prints_the_same_each_time():
    script = "file a hello\\n\nk version 1\nk open 1\nk type 1 X\ndrain\nshow\n"
    shown = replay(script)
    expect_equal((shown, b"|Xhello\\n|" in shown), (replay(script), True))
