"""Programs that the tutorials and how-tos show."""
import os
import re
import shutil
import subprocess
import sys
from pathlib import Path

from checks import GIVEN_UP, ROOT, Skipped, expect

PAGES = sorted([*(ROOT / "docs/tutorials").glob("*.md"), *(ROOT / "docs/howto").glob("*.md")])
PROGRAM = re.compile(r"^```python\n(# (\w+\.py)\n.*?)^```$.*?^```text\n(.*?)^```$", re.MULTILINE | re.DOTALL)
WITH_PROGRAMS = {"SPLIT_EDITOR": 5, "SAVING": 1, "UNDO": 1, "CLIPBOARD": 1, "EMBEDDING": 1}  # pages, and how many programs each has
SPLIT = ROOT / "examples/split"
MOST_LINES = 70


def build_disk(folder):
    """The library that is a disk, of disk.c."""
    compiler = (os.environ.get("CC") or "cc").split()
    if not shutil.which(compiler[0]):
        raise Skipped(f"{compiler[0]} is not installed")
    library = folder / "disk.so"
    subprocess.run([*compiler, "-O2", "-shared", "-fPIC", "-o", library, Path(__file__).with_name("disk.c")], check=True)
    return library


def run(folder, name, text, more=()):
    """What a program of a page prints."""
    (folder / name).write_text(text)
    setting = dict(os.environ, PYTHONPATH=str(ROOT / "bindings/python"), **dict(more))
    ran = subprocess.run([sys.executable, name], cwd=folder, env=setting, capture_output=True, text=True, timeout=GIVEN_UP)
    expect(ran.returncode == 0, f"{name} ends with status {ran.returncode}:\n{ran.stdout}{ran.stderr}")
    return ran.stdout


def check_programs(folder):
    """Each program of a page prints what the page says."""
    counts = {}
    for page in PAGES:
        for text, name, wanted in PROGRAM.findall(page.read_text()):
            printed = run(folder, name, text)
            expect(printed == wanted, f"{name} of {page.name} prints\n{printed}and the page says\n{wanted}")
            counts[page.stem] = counts.get(page.stem, 0) + 1
    expect(counts == WITH_PROGRAMS, f"the pages have so many programs: {counts}")


def check_durable_host(folder):
    """The durable host of EMBEDDING prints the same over a disk that takes a few bytes of each write."""
    page = (ROOT / "docs/howto/EMBEDDING.md").read_text()
    ((text, name, wanted),) = PROGRAM.findall(page)
    printed = run(folder, name, text, {"LD_PRELOAD": str(build_disk(folder)), "PYTHONDONTWRITEBYTECODE": "1"})
    expect(printed == wanted, f"{name} prints\n{printed}and the page says\n{wanted}")


def lines_of_code(text):
    """How many lines of a program have code: no blank line, comment or docstring."""
    text = re.sub(r'^ *""".*?"""$', "", text, flags=re.MULTILINE | re.DOTALL)
    return sum(1 for line in text.splitlines() if line.strip() and not line.lstrip().startswith("#"))


def check_split_editor_is_shown(_folder):
    """The tutorial shows both programs in Python of examples/split as they are, and they have 70 lines of code at most."""
    page = (ROOT / "docs/tutorials/SPLIT_EDITOR.md").read_text()
    programs = sorted(path.name for path in SPLIT.glob("*.py"))
    expect(programs == ["host.py", "terminal.py"], f"examples/split has {programs}")
    texts = [(SPLIT / name).read_text() for name in programs]
    for name, text in zip(programs, texts):
        expect(f"```python\n{text}```\n" in page, f"docs/tutorials/SPLIT_EDITOR.md doesn't show examples/split/{name} as it is")
    count = sum(map(lines_of_code, texts))
    expect(count <= MOST_LINES, f"the split editor has {count} lines of code")
    expect(f"{count} lines of code" in page, f"docs/tutorials/SPLIT_EDITOR.md doesn't say that there are {count} lines of code")
