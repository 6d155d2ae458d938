"""docs/howto/EDITOR.md."""
import json
import subprocess
import time
from importlib.machinery import SourceFileLoader
from importlib.util import module_from_spec, spec_from_loader

from .support import KEYS_PAGE, PAGE, ROOT, SAMTERM, Session, expect, made


def picture(folder):
    """The picture of the page."""
    made(folder, notes="Shopping\n\ttea, rice, 豆腐\n\tpaper\n", todo="call the bank\n")
    with Session(folder, "notes.txt", "todo.txt", slow=0, width=72, height=20, details=False) as session:
        session.wait_for("paper")
        session.keys("C-t")
        session.wait_for("call the bank")
        session.keys("C-p", "C-p")
        session.wait_to_go_to("notes.txt")
        session.command("2p")
        session.switch()
        session.type(",x/paper/c/ink/")
        session.keys("Enter")
        session.wait_for("        ink")
        session.wait_for("line 3 of 3")
        time.sleep(0.3)
        return "\n".join(line.rstrip() for line in session.screen())


def check_page(folder):
    """The keys, the picture and the form of the table are those that the programs print."""
    keys = subprocess.run([SAMTERM, "--keys"], capture_output=True, check=True).stdout.decode()
    expect(keys in KEYS_PAGE.read_text(), "the keys of docs/reference/KEYS.md are not those of `samterm --keys`")
    expect(picture(folder) in PAGE.read_text(), "the picture of docs/howto/EDITOR.md is not what `tests/terminal/terminal --draw` prints")


def check_times_of_the_pages(folder):
    """The times that the pages tell are those of bench/editor.json, which has one for each row."""
    bench = loaded_script(ROOT / "bench" / "editor")
    data = json.loads(bench.RESULT.read_text())
    for delay, found in data["found"].items():
        for program, rows in (("samterm", bench.ROWS), ("vim", bench.ROWS_OF_VIM)):
            wrong = set(found[program]) ^ set(bench.rows_at(int(delay), rows))
            expect(not wrong, f"at {delay} ms bench/editor.json has of {program} {wrong} too many or too few")
    told = bench.page_of(data)
    expect(told in PAGE.read_text(), f"docs/howto/EDITOR.md doesn't say what `bench/editor --page` prints:\n{told}")
    told = bench.sentence_of(data)
    expect(told in (ROOT / "README.md").read_text(), f"README.md doesn't say what `bench/editor --page` prints:\n{told}")


def loaded_script(path):
    """The module of a program without a suffix."""
    loader = SourceFileLoader(path.name + "_script", str(path))
    module = module_from_spec(spec_from_loader(loader.name, loader))
    loader.exec_module(module)
    return module
