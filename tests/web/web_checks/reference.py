"""A page of fixed work, behind a proxy as the editor's is: what a machine needs for it tells how busy that is.

It asks for as many files as the editor's page, reads a long script, computes, waits for three answers, and shows lines as CodeMirror does,
so that the same recorder notes when.
"""
import subprocess
import sys

from web_checks.proxy import Proxy

QUIET = 200  # milliseconds that it takes on a quiet machine of 4 processors
MODULES = 24
METHODS = 100  # of each module
FUNCTIONS = 8_000  # of the long script
TURNS = 3_000_000
ANSWERS = 3
LINES = 60

PAGE = """<!doctype html>
<link rel="icon" href="data:," />
{links}
<script src="long.js" defer></script>
<script type="module" src="main.js"></script>
<body class="CodeMirror-code"></body>
"""
MAIN = """{imports}
let sum = {sum};
for (let turn = 0; turn < {turns}; turn++) sum = (sum * 1103515245 + 12345) % 4294967296;
for (let answer = 0; answer < {answers}; answer++) await (await fetch("module0.js", {{ cache: "no-store" }})).text();
for (let number = 1; number <= {lines}; number++) {{
  const line = document.createElement("pre");
  line.className = "CodeMirror-line";
  line.textContent = `line ${{number}} ${{"some words ".repeat(8)}} ${{function1(sum)}}`;
  document.body.append(line);
}}
"""


def files():
    """The page's files, by their names."""
    names = [f"module{number}" for number in range(MODULES)]
    methods = "".join(f"  method{at}(number) {{ return number + {at}; }}\n" for at in range(METHODS))
    all_files = {f"{name}.js": f"export class {name} {{\n{methods}}}\n" for name in names}
    all_files["long.js"] = "".join(f"function function{at}(x) {{ const y = x + {at}; return y * 2; }}\n" for at in range(FUNCTIONS))
    imports = "\n".join(f'import {{ {name} }} from "./{name}.js";' for name in names)
    total = " + ".join(f"new {name}().method1(1)" for name in names)
    all_files["main.js"] = MAIN.format(imports=imports, sum=total, turns=TURNS, answers=ANSWERS, lines=LINES)
    all_files["index.html"] = PAGE.format(links="\n".join(f'<link rel="modulepreload" href="{name}.js" />' for name in names))
    return all_files


class Reference:
    """The page, and a server of its own for it."""

    def __init__(self, room):
        folder = room / "reference"
        folder.mkdir()
        for name, text in files().items():
            (folder / name).write_text(text)
        words = [sys.executable, "-u", "-m", "http.server", "0", "--bind", "127.0.0.1", "--directory", str(folder)]
        self.server = subprocess.Popen(words, stdout=subprocess.PIPE, stderr=subprocess.DEVNULL, text=True)
        self.proxy = Proxy(int(self.server.stdout.readline().split(" port ")[1].split()[0]))
        self.address = f"http://127.0.0.1:{self.proxy.port}/"

    def close(self):
        self.server.kill()
        self.server.wait()
        self.server.stdout.close()
        self.proxy.close()
