"""The two sets of keys: what each key does, how a set is chosen and printed, and the keys that lines on the screen name."""
import ast
import os
import re
import signal
import subprocess

from checks import expect_equal

from .messages import replacing
from .pairs import opened
from .support import KEYS_PAGE, ROOT, SAMTERM, SAMTERM_WORD, Session, expect, made, wait_for_text, wait_until

USUAL_WORD = f"{SAMTERM_WORD} --keys usual"

# What keys do that users of other editors know; and what they do in the set of sam, as docs/howto/EDITOR.md has had it from the start.
WANTED = {
    "usual": {
        "^S": "write", "^F": "find", "^G": "search", "F3": "search", "Shift-F3": "search_back", "^Z": "undo", "^Y": "redo", "^X": "cut",
        "^C": "snarf", "^V": "paste", "^A": "select_all", "^O": "menu", "^W": "close", "^Q": "leave", "F1": "help",
    },
    "sam": {
        "^W": "write", "^S": "find", "^F": "search", "^B": "search_back", "^Z": "undo", "^R": "redo", "^X": "cut", "^C": "snarf",
        "^V": "paste", "^A": "select_all", "^O": "menu", "^K": "close", "^Q": "leave", "F1": "help", "^G": "help", "F3": "split",
        "Shift-F3": "split", "^Y": "unsplit",
    },
}  # fmt: skip
OF_THE_PAGE = {  # the actions here that the page's are
    "save": "write", "open": "menu", "find": "find", "next": "search", "previous": "search_back", "undo": "undo", "redo": "redo",
}  # fmt: skip
OF_THE_DECODER = ("bindings.py", "decoder.py")  # files that have keys by their names
NAMED_KEY = re.compile(r"\^[A-Z_]|\bF\d")
STOPS = "^C"  # stops what goes on while there is no screen, by a signal: no key of a set


def key_sets():
    from terminal.keys.bindings import KEY_SETS

    return KEY_SETS


def check_keys_of_both_sets(folder):
    """Each action has keys in both sets, and no key has two actions in one. The keys do what is expected of them. One whose question names
    its key has no other, since the same key has to answer it."""
    for name, key_set in key_sets().items():
        keys = [key for binding in key_set.bindings for key in binding.keys]
        expect(len({*keys}) == len(keys) and all(binding.keys for binding in key_set.bindings), f"{name}: {sorted(keys)}")
        expect_equal({key: key_set.get(key).action for key in WANTED[name]}, WANTED[name])
        for binding in key_set.bindings:
            expect(len(binding.keys) == 1 or binding.reads, f"{name}: {binding}")
    sam, usual = (key_sets()[name].bindings for name in ("sam", "usual"))
    expect_equal([binding._replace(keys=()) for binding in usual], [binding._replace(keys=()) for binding in sam])
    expect(key_sets()["usual"].get("^K") is None, "^K, by which other editors cut a line, does something else")


def check_keys_as_on_the_page(folder):
    """The set `usual` does what the keys of the web page do, as far as a terminal sends them."""
    source = (ROOT / "editor/web/page/main.js").read_text()
    (letters,) = re.findall(r"const own = \{(.*)\};", source)
    (others,) = re.findall(r"const keys = \{(.*)\};", source)
    of_page = {f"^{letter}": action for letter, action in re.findall(r'(\w): "(\w+)"', letters)}
    of_page.update({key: action for key, action in re.findall(r'"?((?:Shift-)?F\d+)"?: "(\w+)"', others)})
    expect({"^S", "^F", "^G", "F3", "Shift-F3"} <= {*of_page}, f"this test is wrong: the page has {of_page}")
    usual = key_sets()["usual"]
    expect_equal({key: usual.get(key).action for key in of_page}, {key: OF_THE_PAGE[action] for key, action in of_page.items()})


def check_each_key_acts(folder):
    """Each key of each set does its action, and no other; so does it with Shift, where that says nothing else."""
    for name, key_set in key_sets().items():
        actions = {key: binding.action for binding in key_set.bindings for key in binding.keys}
        shifted = {f"Shift-{key}": action for key, action in actions.items() if not key.startswith("Shift-")}
        for pressed, action in {**shifted, **actions}.items():
            pair, editor, key, _ = opened("one two\n", "b\n", key_set=name)
            acted = []
            for each in key_set.bindings:
                setattr(editor, f"do_{each.action}", lambda *_, action=each.action: acted.append(action))
            pair.press(key(pressed))
            expect_equal((name, pressed, acted), (name, pressed, [action]))


def check_usual_keys_lose_nothing(folder):
    """A key that only reads in sam's set, or writes, loses no text in the other: it reads, too, or writes, or asks before it closes, or
    brings back. So `^W` closes no changed file unasked, also if it is pressed twice or held down, and any other key takes the question
    back."""
    sam, usual = (key_sets()[name] for name in ("sam", "usual"))
    others = {key: binding for binding in usual.bindings for key in binding.keys if sam.get(key) != binding}
    changing = {key: each.action for key, each in others.items() if not each.reads and (sam.get(key) or each).action != each.action}
    expect_equal(changing, {"^S": "write", "^W": "close", "^Y": "redo"})
    for times in (1, 2, 60):
        pair, editor, key, text = opened("one\n", "b\n", key_set="usual")
        pair.press(text("x"))
        for _ in range(times):
            pair.press(key("^W"), seconds=0.03)
        expect(editor.focus.tag in editor.tags and "^W again closes it" in editor.message, f"{times} times: it tells {editor.message!r}")
        pair.press(text("y"))
        pair.finish()
        expect(pair.host.text(2) == "xyb\n" and editor.message == "", f"{pair.host.text(2)!r}; it tells {editor.message!r}")
    pair, editor, key, text = opened("one\n", key_set="usual")
    pair.press(text("x"), key("^K"), key("^R"), key("^U"), key("Esc"), key("Esc"), key("^Y"))
    expect_equal((pair.host.text(1), editor.message), ("xone\n", "nothing was taken back"))
    pair.press(key("^Z"), key("^Y"))
    expect_equal(pair.host.text(1), "xone\n")


def check_lines_name_keys_of_the_set(folder):
    """Hints and questions name the keys of the set; and the key that a question names answers it."""
    for name, keys in (("sam", ("F1 or ^G", "^W", "^K")), ("usual", ("F1 or ^_", "^S", "^W"))):
        shows, write, close = keys
        pair, editor, key, text = opened("one\n", key_set=name)
        expect_equal(editor.hint, f"{shows} shows the keys")
        pair.press(key("Insert"))
        expect_equal(editor.message, f"Insert does nothing; {shows} shows the keys")
        pair.press(text("x"), key(write))
        expect(not editor.is_changed(1), f"{name}: {write} doesn't write")
        pair.press(text("y"))
        pair.failing = [replacing(1)]
        editor.take(key(write))
        pair.finish()
        expect(f"{write} again replaces it" in editor.message, f"{name}: it tells {editor.message!r}")
        pair.press(key(write))
        expect(not editor.is_changed(1), f"{name}: {write} doesn't answer")
        pair.press(text("z"), key(close))
        expect_equal(editor.message, f"file0 was not written; {close} again closes it")
        pair.press(key(close))
        expect_equal(editor.tags, [])


def check_no_line_has_a_key_of_its_own(folder):
    """No text in the editor's code has the name of a key: each comes from the table. What a comment or a docstring says is not shown."""
    texts = []
    for path in sorted((ROOT / "editor/terminal").rglob("*.py")):
        tree = ast.parse(path.read_text())
        told = {id(node.value) for node in ast.walk(tree) if isinstance(node, ast.Expr)}
        constants = (node for node in ast.walk(tree) if isinstance(node, ast.Constant) and id(node) not in told)
        texts += [(path.name, node.value) for node in constants if isinstance(node.value, str) and path.name not in OF_THE_DECODER]
    expect(len(texts) > 500, f"this test is wrong: it finds {len(texts)} texts")
    named = [(path, text) for path, text in texts if NAMED_KEY.search(text.replace(STOPS, ""))]
    expect(not named, f"these name a key: {named}")


def check_find_with_usual_keys(folder):
    """While a text is sought the keys that find and go on lead to the next place, and those that go back to the one before; that which
    writes ends it, and writes."""
    pair, editor, key, text = opened("one two one two one\n", key_set="usual")
    pair.press(key("^F"), text("one"))
    places = [editor.focus.dot]
    for name in ("^F", "^G", "^B", "F3", "Shift-F3", "F7", "Down", "Up", "Up"):
        pair.press(key(name))
        places.append(editor.focus.dot)
    expect_equal(places, [(at, at + 3) for at in (0, 8, 16, 8, 16, 8, 16, 0, 16, 8)])  # Down goes on from the top, Up from the end
    pair.press(text("\n"))
    expect(editor.menu is None, "Enter doesn't end it")
    for name, at in (("^G", 16), ("F3", 0), ("Shift-F3", 0), ("^G", 8), ("^B", 0)):
        pair.press(key(name))
        expect_equal((name, editor.focus.dot), (name, (at, at + 3)))
    pair.press(key("Left"), text("x"), key("^F"), text("two"), key("^S"))
    expect(editor.menu is None and not editor.is_changed(1), "^S doesn't write")
    expect_equal(pair.host.text(1), "xone two one two one\n")


def check_usual_session(folder):
    """A session by the keys of the set `usual`."""
    (path,) = made(folder, a="one two one\n")
    with Session(folder, "a.txt", program=USUAL_WORD, width=100) as session:
        session.wait_for("F1 or ^_ shows the keys")
        session.wait_for("one two one")
        session.type("x ")
        session.keys("C-s")
        wait_for_text(path, "x one two one\n")
        session.keys("C-f")
        session.type("one")
        session.wait_for("2,5 of 14")
        session.keys("Enter")
        session.wait_for_quiet()
        for name, place in (("C-g", "10,13"), ("F3", "2,5")):
            session.keys(name)
            session.wait_for(f"{place} of 14")
        session.keys("C-z")
        wait_until(lambda: session.rows("a.txt")[:1] == ["one two one"], "^Z doesn't take back")
        session.keys("C-y")
        wait_until(lambda: session.rows("a.txt")[:1] == ["x one two one"], "^Y doesn't bring back")
        session.keys("C-a", "C-x")
        session.wait_for("0,0 of 0")
        session.keys("C-v", "C-v")
        session.wait_for("28,28 of 28")
        session.keys("C-w")
        session.wait_for("a.txt was not written; ^W again closes it")
        session.keys("C-k")
        session.wait_for("^K does nothing; F1 or ^_ shows the keys")
        session.keys("C-_")
        session.wait_for("^S                    writes the file")
        session.keys("C-s")  # it ends the help
        wait_until(lambda: not session.shows("writes the file"), "the help stays")
        session.keys("C-s")
        wait_for_text(path, "x one two one\n" * 2)
        session.leave()


def check_keys_by_the_variable(folder):
    """SAMTERM_KEYS chooses, unless --keys does. A session that is left is gone on with by the same keys."""
    (path,) = made(folder, a="one\n")
    with Session(folder, "a.txt", settings="SAMTERM_KEYS=usual", stays=True, width=100) as session:
        session.wait_for("one")
        session.type("x")
        session.keys("C-s")
        wait_for_text(path, "xone\n")
        os.kill(session.terminal(), signal.SIGTERM)
        session.wait_for_end(128 + signal.SIGTERM)
        session.ends_staying = False  # the next one ends it
    told = (folder / "stderr").read_text()
    (folder / "status").unlink()
    with Session(folder, settings="SAMTERM_KEYS=usual", program=f"{SAMTERM_WORD} --keys sam", take="", width=100) as session:
        session.wait_for("xone")
        session.type("y")
        session.keys("C-w")
        wait_for_text(path, "yxone\n")
        session.leave()
    expect("This goes on with it: samterm --keys usual --take " in told, f"it tells {told!r}")


def printed(*words, variable=None):
    """The status of samterm that prints keys, what it prints, and what it tells."""
    setting = {**os.environ, **({} if variable is None else {"SAMTERM_KEYS": variable})}
    run = subprocess.run([SAMTERM, *words], env=setting, stdin=subprocess.DEVNULL, capture_output=True, text=True, check=False)
    return run.returncode, run.stdout, run.stderr


def check_keys_printed(folder):
    """`--keys` alone prints the keys, also before or after a FILE, whose name it doesn't take for that of a set. A set's name chooses."""
    sam, usual = printed("--keys"), printed("--keys", "usual", "--print-keys")
    for (status, table, told), writes, finds in ((sam, "^W", "^S or F7"), (usual, "^S", "^F or F7")):
        expect((status, told) == (0, "") and f"\n{writes:21} writes the file\n" in table, f"status {status}, {told!r}:\n{table}")
        expect(f"\n{finds:21} finds as you type; Enter has the host look\n" in table, table)
    for words in (("--keys", "sam", "--print-keys"), ("--print-keys",)):
        expect_equal((words, printed(*words)), (words, sam))
    for words, wanted in ((("--keys",), usual), (("--keys=sam", "--print-keys"), sam)):
        expect_equal((words, printed(*words, variable="usual")), (words, wanted))
    expect_equal(printed("--keys", variable=""), sam)
    for words in (("--keys", "a.txt"), ("a.txt", "--keys"), ("--keys", "--", "usual")):
        status, table, told = printed(*words)
        expect_equal((words, status, table), (words, *sam[:2]))
        expect("no FILE is edited" in told, f"{words}: it tells {told!r}")
    for words, variable in ((("--keys=nano",), None), (("--keys",), "nano")):
        status, table, told = printed(*words, variable=variable)
        expect((status, table) == (2, "") and all(name in told for name in ("nano", "sam", "usual")), f"{words}: {status}, {told!r}")
    for words in (("--", "--keys"), ("--keys", "usual", "a.txt"), ("--keys=usual",)):
        status, table, told = printed(*words)
        expect((status, table) == (2, "") and "are to be a screen" in told, f"{words}: {status}, {table[:50]!r}, {told!r}")


def check_file_named_as_the_option(folder):
    """After `--` a FILE may have the name of the option."""
    (folder / "--keys").write_text("text of it\n")
    with Session(folder, "--", "--keys") as session:
        session.wait_for("text of it")
        session.wait_to_go_to("--keys")
        session.leave()


def check_keys_that_differ_in_pages(folder):
    """The tables of docs/reference/KEYS.md and of the manual have each action whose keys differ, with the keys of both sets."""
    sam, usual = (key_sets()[name].bindings for name in ("sam", "usual"))
    keys = [(other.keys, each.keys) for each, other in zip(sam, usual) if other.keys != each.keys]
    page, manual = KEYS_PAGE.read_text(), (ROOT / "man/samterm.1").read_text()
    rows = re.findall(r"^.* \| (`.*`) \| (`.*`)$", page.partition("Does | `usual` | `sam`\n")[2].partition("\n\n")[0], re.MULTILINE)
    expect_equal(rows, [tuple(" or ".join(f"`{key}`" for key in each) for each in row) for row in keys])
    rows = re.findall(r"^\.It .* Ta (.*) Ta (.*)$", manual.partition("Ta Sy usual Ta Sy sam\n")[2].partition(".El")[0], re.MULTILINE)
    expect_equal(rows, [tuple(" or ".join(each).replace("^", "Control-") for each in row) for row in keys])
