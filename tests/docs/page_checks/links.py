"""Links of the pages."""
import re
import subprocess

from checks import ROOT, expect

FENCE = re.compile(r"^```.*?^```$", re.MULTILINE | re.DOTALL)


def pages():
    """All pages of the repository."""
    words = ["git", "-C", ROOT, "ls-files", "-co", "--exclude-standard", "*.md"]
    names = subprocess.run(words, check=True, capture_output=True, text=True).stdout.splitlines()
    return [ROOT / name for name in names if (ROOT / name).is_file()]


def anchors(page):
    """The places in a page to which a link can lead: its headings, as they are told in an address."""
    headings = re.findall(r"^#+ (.*)$", FENCE.sub("", page.read_text()), re.MULTILINE)
    return {re.sub(r"[^\w\- ]", "", re.sub(r"\]\([^)]*\)", "", heading).lower()).replace(" ", "-") for heading in headings}


def dead(page):
    """The links of a page that lead nowhere."""
    for link in re.findall(r"\]\(([^)\s]+)\)", FENCE.sub("", page.read_text())):
        name, _, anchor = link.partition("#")
        target = (page.parent / name) if name else page
        if ":" in name:
            continue
        if not target.exists() or (anchor and target.suffix == ".md" and anchor not in anchors(target)):
            yield link


def check_links(_folder):
    """Each link leads to a file or a folder that is there, and behind # to a heading of a page."""
    wrong = [f"{page.relative_to(ROOT)}: {link}" for page in pages() for link in dead(page)]
    expect(not wrong, "these links are dead:\n" + "\n".join(wrong))


def check_set(_folder):
    """The site has each page of docs/, and README, or a page that it leads to, names each how-to."""
    names = [str(page.relative_to(ROOT)) for page in pages()]
    site, readme = (ROOT / "docs/site/mkdocs.yml").read_text(), (ROOT / "README.md").read_text()
    missing = [name for name in names if name.startswith("docs/") and f": {name}\n" not in site]
    expect(not missing, f"docs/site/mkdocs.yml lacks {missing}")
    missing = [name for name in names if name.startswith(("docs/howto/", "docs/tutorials/")) and f"({name}" not in readme]
    expect(not missing, f"README.md has no link to {missing}")


def check_cells(_folder):
    """No cell of a table has more than 60 words, and in a how-to none more than 40."""
    long = []
    for page in pages():
        most = 40 if page.parent.name == "howto" else 60
        for cell in re.findall(r"[^|\n]+(?=\|)|(?<=\|)[^|\n]+", page.read_text()):
            if len(cell.split()) > most:
                long.append(f"{page.name}: {cell.strip()[:60]}")
    expect(not long, f"these cells are too long: {long}")
