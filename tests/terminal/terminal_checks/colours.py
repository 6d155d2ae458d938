"""Colours of languages: what has one, that they follow the text, what they cost, and that nothing else goes by them."""
import importlib.util
import random
import re
import time
from unittest.mock import patch

from checks import GIVEN_UP, Skipped, expect_cheap, seconds_of

from .support import Session, expect, made, wait_until

PYTHON = 'def first(one):  # a note\n    """Of words,\n    in lines."""\n    return one + 12, "text"\n'
SAMPLES = {
    "python.PythonLexer": PYTHON * 9,
    "c_cpp.CppLexer": '/* a\n * note */\n#include <a.h>\nint main(void)\n{\n    char *a = "b"; // c\n    return 0x1f;\n}\n' * 9,
    "javascript.JavascriptLexer": 'const a = /b+/g;\nfunction c() {\n    return `d ${e}\n f`; /* g\n h */\n}\n' * 9,
    "html.HtmlLexer": '<p class="a">b</p>\n<!-- c\nd -->\n<script>\nlet e = "f";\n</script>\n' * 9,
    "shell.BashLexer": 'if [ "$a" = b ]; then\n    echo "c $d"  # e\nfi\ncat << F\nf\nF\n' * 9,
    "data.YamlLexer": "a: 1\nb:\n  - c # d\n" * 9,
}
PIECES = ("x", " ", "\n", '"', "'", '"""', "/*", "*/", "<!--", "-->", "#", "`", "ab\ncd\n", "")
CHANGES = 300


def expect_pygments():
    if importlib.util.find_spec("pygments") is None:
        raise Skipped("no Pygments")


def coloured_rows(session):
    """The rows of the screen that have a colour."""
    rows = session.tmux("capture-pane", "-p", "-e").split("\n")
    return [row for row in rows if re.search(r"\x1b\[(?:\d+;)*3[1-7]", row)]


def shown_with(folder, name, words="", settings=""):
    """The rows with a colour, and what stands in the window, of a Python text in a session with such words and settings."""
    place = folder / name
    place.mkdir()
    made(place, a=PYTHON)
    (place / "a.txt").rename(place / "a.py")
    with Session(place, words, "a.py", settings=settings) as session:
        session.wait_for("return one")
        session.wait_for_quiet()
        if name == "coloured":
            wait_until(lambda: any("return" in row for row in coloured_rows(session)), "nothing has a colour")
        else:
            time.sleep(1)
        session.type("x")
        session.wait_for("xdef")
        rows, text = coloured_rows(session), session.rows("a.py")
        session.leave_unwritten()
    return rows, text


def check_colours_on_the_screen(folder):
    """A Python text has colours, and stands as without them. With --plain, with NO_COLOR, on a screen without colours and without
    Pygments nothing has one."""
    (folder / "pygments.py").write_text('raise ImportError("none here")\n')
    plain = {
        "plain": ("--plain", ""), "wish": ("", "NO_COLOR=1"), "screen": ("", "TERM=vt220"), "without": ("", f"PYTHONPATH={folder}"),
    }  # fmt: skip
    found = {name: shown_with(folder, name, *words) for name, words in plain.items()}
    for name, (rows, text) in found.items():
        expect(not rows, f"{name}: it has colours: {rows}")
        expect(text == found["plain"][1], f"{name}: the window shows {text}")
    expect_pygments()
    rows, text = shown_with(folder, "coloured", settings="NO_COLOR=")
    expect(text == found["plain"][1], f"with colours the window shows {text}")
    words = ("return", "# a note", "Of words")
    keyword, comment, string = (
        {re.findall(r"\x1b\[([\d;]*)m", row[: row.index(word)])[-1] for row in rows if word in row} for word in words
    )
    expect(len(keyword) == len(comment) == len(string) == 1, f"the colours are {keyword}, {comment}, {string}")
    expect(len(keyword | comment | string) == 3, f"two of these have one colour: {keyword}, {comment}, {string}")


def looked_at(language, text):
    from terminal.view.colours import Coloured

    file = Coloured(language)
    file.look(lambda place, count: text[place : place + count], 0, len(text), len(text), lambda: False)
    return file


def colour_of_each(file, text):
    """The colour of each rune of a text, as the file has it."""
    found = [0] * len(text)
    for start, spans in file.lines(0, len(text)).items():
        for low, high, colour in spans:
            found[start + low : start + high] = [colour] * (high - low)
    return found


def check_colours_are_those_of_pygments(folder):
    """Of a whole text each rune has the colour that Pygments gives it."""
    expect_pygments()
    from terminal.view.colours import Language
    from pygments import lexers
    from pygments.lexer import RegexLexer

    for name, text in SAMPLES.items():
        language, wanted = Language(name), [0] * len(text)
        if not language.by_line:
            lexer = getattr(lexers, name.partition(".")[2])()
            for place, kind, runes in RegexLexer.get_tokens_unprocessed(lexer, text):
                wanted[place : place + len(runes)] = [language.colour(kind)] * len(runes)
            got = colour_of_each(looked_at(language, text), text)
            wrong = [at for at in range(len(text)) if not text[at].isspace() and got[at] != wanted[at]]
            expect(not wrong, f"{name}: another colour has {[text[max(0, at - 9) : at + 9] for at in wrong[:3]]}")
        expect(any(colour_of_each(looked_at(language, text), text)), f"{name}: nothing has a colour")


def expect_followed(name, text):
    """After any change of a text its colours are those of the text looked at anew."""
    from terminal.view.colours import Language
    from terminal.text.texts import Change

    language, numbers = Language(name), random.Random(1)
    file, wrong = looked_at(language, text), 0
    for _ in range(CHANGES):
        place = numbers.randrange(len(text) + 1)
        gone, came = text[place : place + numbers.choice((0, 0, 1, 5, 60))], numbers.choice(PIECES)
        text = text[:place] + came + text[place + len(gone) :]
        file.hear([Change(1, place, gone, came)])
        read = lambda at, count: text[at : at + count]  # noqa: E731, B023
        file.look(read, 0, len(text), len(text), lambda: False)
        got, wanted = (colour_of_each(each, text) for each in (file, looked_at(language, text)))
        wrong += got != wanted
        anew = file.anew(0)
        anew.look(read, 0, len(text), len(text), lambda: False)
        got = colour_of_each(anew, text)
        expect(got == wanted, f"{name}: after {came!r} for {gone!r} at {place} the colours are others than of {text!r} alone")
    expect(wrong < CHANGES // 10, f"{name}: after {wrong} of {CHANGES} changes the colours are not at once those of the text")


def check_colours_follow(folder):
    """After any change the colours are those of the text looked at anew: at once, unless it ends what was begun above it, and else once
    the user rests."""
    expect_pygments()
    from terminal.view import colours

    with patch.object(colours, "LIMIT", colours.TimeLimit(GIVEN_UP)):  # else a line that takes long on a busy machine is plain
        for name, text in SAMPLES.items():
            expect_followed(name, text)


def check_colours_in_pieces(folder):
    """Where the time of a key is over the lines that were not looked at are plain, and they come later; so they do in the end."""
    expect_pygments()
    from terminal.view.colours import Coloured, Language

    language, text = Language("python.PythonLexer"), PYTHON * 90
    for top in (0, PYTHON.index("    return") + 50 * len(PYTHON)):
        file, looks, end = Coloured(language), 0, top + 8 * len(PYTHON)
        is_known = False
        while not is_known:
            is_known = file.look(lambda at, count: text[at : at + count], top, end, len(text), lambda: True)
            looks += 1
            expect(looks <= len(text), f"from {top} on it never ends")
        expect(looks > 20, f"it takes {looks} pieces alone")
        got, wanted = colour_of_each(file, text), colour_of_each(looked_at(language, text), text)
        expect(got[top:end] == wanted[top:end], f"from {top} on the colours are others than at once")


def check_cost_of_colours(folder):
    """A typed key costs little of a quiet processor in a Python text of 1,000,000 characters, too."""
    expect_pygments()
    path = folder / "a.py"
    path.write_text((PYTHON * (1_000_000 // len(PYTHON)))[:999_900])
    with Session(folder, "a.py", width=120, height=50, settings="NO_COLOR=") as session:
        session.wait_for("return one")
        wait_until(lambda: any("return" in row for row in coloured_rows(session)), "nothing has a colour")
        session.command("3000")
        wait_until(lambda: "line 3001" in session.status() and coloured_rows(session), lambda: f"no colour at {session.status()}")
        session.wait_for_quiet()
        terminal = session.terminal()

        def cost():
            before = seconds_of(terminal)
            for _ in range(100):
                session.type("x")
                time.sleep(0.01)
            return (seconds_of(terminal) - before) / 100

        expect_cheap(cost, 0.006, "a key")
        session.leave_unwritten()
