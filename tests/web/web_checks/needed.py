"""What the checks of the page need: what ./build makes, and Debian's browser and libraries."""
from pathlib import Path

ROOT = Path(__file__).resolve().parents[3]
NEEDED = [
    (ROOT / "out/samhost", "./build builds it"),
    (ROOT / "bindings/javascript/sulgrevad.wasm", "./build --target wasm64 builds it"),
    (Path("/usr/bin/chromium"), "Debian's chromium has it"),
    (Path("/usr/bin/chromedriver"), "Debian's chromium-driver has it"),
    (Path("/usr/share/javascript/codemirror/lib/codemirror.js"), "Debian's libjs-codemirror has it"),
]


def missing():
    """Why nothing can be tried; "" where all is there."""
    for path, remedy in NEEDED:
        if not path.exists():
            return f"{path} is missing; {remedy}"
    host, module = NEEDED[0][0], NEEDED[1][0]
    if module.stat().st_mtime < host.stat().st_mtime:
        return f"{module} is older than {host}; {NEEDED[1][1]} anew"
    try:
        import aiohttp  # noqa: F401
        import selenium  # noqa: F401
    except ImportError as error:
        return f"{error}; Debian's python3-selenium and python3-aiohttp have it"
    return ""
