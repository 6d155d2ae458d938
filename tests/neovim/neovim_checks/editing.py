"""Files that open, edits of all sorts, and writes: beside a plain Neovim that gets the same keys."""
import random
import time
from pathlib import Path

from checks import expect, expect_equal

from .support import TERMINAL, Place

TEXT = "one\ntwo é日\n\tthree words here\n"

# Keys, each of which edits in another way. What they leave is what a plain Neovim leaves.
WAYS = (
    "ihello <Esc>", "Gonew line<Esc>", "ggOabove\n<Esc>", "ggdd", "Gdd", "u", "<C-r>", "g-", "g+", "ggyyGp", "ggyy3P", "gg/three\ndw",
    "ggxp", "ggJ", "gg>>", "G$a日本é<Esc>", "ggqqAx<Esc>jq3@q", ":%s/o/0/ge\n", ":%s/$/ end/e\n", ":g/x/m0\n", ":%!sort\n", "gg<C-v>jjIQ<Esc>",
    "ggVGgU", "ggVGgu", "gg0D", "Go1<CR>2<CR>3<Esc>", "ggcwchanged<Esc>", "gg0r日", ":sil! 2,$d\n", "u", ":1t$\n", "ggdG", "u", "Gi\t<Esc>",
    ":undo 2\n", ":redo\n", "G5o=<Esc>", "ggv$y:put\n", ":s/\\n//e\n", "gg~",
)  # fmt: skip


def check_open(folder):
    """A file opens with its text, its name and its filetype, unmodified, and undo takes nothing of it away. It isn't here while locked."""
    with Place(folder) as place:
        neovim = place.opened("notes.lua", TEXT)
        expect_equal(neovim.text, TEXT)
        name = neovim.lua("return vim.api.nvim_buf_get_name(0)")
        expect(name.startswith("sulgrevad://") and name.endswith("/notes.lua"), name)
        expect_equal(neovim.lua("return {vim.bo.buftype, vim.bo.filetype, vim.bo.modified}"), ["acwrite", "lua", False])
        neovim.keys("u")
        expect_equal(neovim.text, TEXT)
        expect_equal(neovim.lua("vim.cmd 'SulgrevadRun ,p'" + IS_HERE), False)
        neovim.wait_settled()
        expect_equal(neovim.lua(IS_HERE), True)


IS_HERE = """
local file = require("sulgrevad").files[vim.api.nvim_get_current_buf()]
return file.session:is_here(file.tag)
"""


def check_ways(folder):
    """Each way of editing, undo and redo leaves what it leaves in a plain Neovim; the terminal has it at once, the disk after :w."""
    with Place(folder) as place:
        (folder / "plain.txt").write_text(TEXT)
        plain = place.neovim(str(folder / "plain.txt"), has_plugin=False)
        neovim = place.opened("notes.txt", TEXT)
        for keys in WAYS:
            for one in (plain, neovim):
                one.keys(keys)
            expect_equal((keys, neovim.text), (keys, plain.text))
            neovim.wait_settled()
        plain.command("write")
        expect_equal(place.expect_same(neovim, "notes.txt"), (folder / "plain.txt").read_text())


def check_random(folder):
    """Random keys leave what they leave in a plain Neovim, over a slow line that is cut now and then."""
    chance = random.Random(7)
    with Place(folder, 40) as place:
        (folder / "plain.txt").write_text(TEXT)
        plain = place.neovim(str(folder / "plain.txt"), has_plugin=False)
        neovim = place.opened("notes.txt", TEXT)
        for turn in range(200):
            keys = chance.choice(WAYS)
            for one in (plain, neovim):
                one.keys(keys)
            if turn % 20 == 10:
                neovim.command("write")
            if turn % 50 == 25:
                place.cut(neovim)
        expect_equal(neovim.text, plain.text)
        neovim.wait_settled()
        plain.command("write")
        expect_equal(place.expect_same(neovim, "notes.txt"), (folder / "plain.txt").read_text())


def check_exact(folder):
    """Texts of all forms are written as they are, and :w adds a last newline only where 'fixendofline' says so. There is no
    other 'fileformat' than unix."""
    texts = ["", "\n", "\n\n", "one", "one\n", "one\n\n", "one\r\ntwo\r\n", "\r", "\ufeffone\n", "é日😀e\u0301", "\u2028\u0085\n", "\t\n x"]
    with Place(folder) as place:
        neovim = place.neovim()
        neovim.command("set nofixendofline fileformats=dos,unix")
        for number, text in enumerate(texts):
            name = f"text {number}"
            place.host.write(name, text)
            place.open(neovim, name)
            expect_equal((number, neovim.text), (number, text))
            neovim.keys("Ox<Esc>")
            place.expect_same(neovim, name)
            neovim.keys("u")
            expect_equal((number, place.expect_same(neovim, name)), (number, text))
        neovim.command("set fixendofline")
        place.open(neovim, "text 3")
        neovim.command("set fixendofline")
        neovim.keys("ix<Esc>")
        expect_equal(place.expect_same(neovim, "text 3"), "xone\n")
        neovim.command("set fileformat=dos | silent! write")
        expect("not written" in neovim.lua("return vim.v.errmsg"), "a text is written with other ends of lines than the user wants")


def check_fileformat(folder):
    """Where a modeline or the user has set another 'fileformat', what the host changes comes to its place all the same."""
    with Place(folder) as place:
        neovim = place.opened("notes.txt", "one\ntwo\nthree\nfour\n")
        neovim.lua("vim.api.nvim_echo = function() end")  # long words about an error would wait for a key
        neovim.command("set fileformat=dos")
        neovim.keys("3GAx<Esc>")
        neovim.command("SulgrevadRun ,x/o/c/0/")
        neovim.wait_settled()
        expect_equal(neovim.text, "0ne\ntw0\nthreex\nf0ur\n")
        neovim.command("set fileformat=unix")
        place.expect_same(neovim, "notes.txt")


def check_unlisted(folder):
    """A buffer that is only taken from the list of buffers has its file on: what is typed goes to the host, and :bwipe closes the file."""
    with Place(folder) as place:
        neovim = place.opened("notes.txt", "one\n")
        neovim.command("set nobuflisted")
        neovim.keys("Ax<Esc>")
        expect_equal(place.expect_same(neovim, "notes.txt"), "onex\n")
        neovim.command("bwipe")
        neovim.wait("next(select(2, next(require('sulgrevad').sessions)).files) == nil")


def check_emptied(folder):
    """Of a buffer without a line the terminal has no line either, at once."""
    with Place(folder) as place:
        neovim = place.opened("notes.txt", "one\n\n")
        for keys in ("ggdG", "u", "ggVGp", "i\n<Esc>", "ggdG"):
            neovim.keys(keys)
            neovim.wait_settled()
            expect_equal((keys, neovim.lua("return " + TERMINAL)), (keys, neovim.text))
        neovim.keys("ione\n\n")
        neovim.command("SulgrevadRun ,d")  # while Insert mode is in the buffer
        neovim.wait_settled()
        expect_equal((neovim.text, neovim.lua("vim.cmd 'write' return " + TERMINAL)), ("", ""))


def check_no_text(folder):
    """What is typed and is no Unicode becomes U+FFFD, in the buffer, too."""
    with Place(folder) as place:
        neovim = place.opened("notes.txt", "one\n")
        neovim.lua("vim.api.nvim_buf_set_lines(0, 0, 1, true, {'a\\255b\\237\\160\\128c\\0d'})")
        neovim.wait_settled()
        expect_equal(neovim.text, "a\ufffdb\ufffd\ufffd\ufffdc\0d\n")


def check_texts(folder):
    """Random texts and edits through the plugin's modules that know no host."""
    with Place(folder) as place:
        expect_equal(place.neovim().lua(Path(__file__).with_name("texts.lua").read_text()), [])


def check_drift(folder):
    """A change of the buffer that no event has told of goes to the terminal with the next one, or if the length stays, by :w."""
    with Place(folder) as place:
        neovim = place.opened("notes.txt", "one\ntwo\nthree\n")
        neovim.lua(UNTOLD, "first")
        neovim.keys("GAx<Esc>")
        neovim.wait_settled()
        expect_equal((neovim.text, neovim.lua("return " + TERMINAL)), ("first\ntwo\nthreex\n", neovim.text))
        neovim.lua(UNTOLD, "FIRST")
        neovim.keys("GAy<Esc>")
        expect_equal(place.expect_same(neovim, "notes.txt"), "FIRST\ntwo\nthreexy\n")


# Changes the first line, and has the plugin pass the event over.
UNTOLD = """
local file = require("sulgrevad").files[vim.api.nvim_get_current_buf()]
file.is_changing = true
vim.api.nvim_buf_set_lines(0, 0, 1, true, { ... })
file.is_changing, file.tick = nil, vim.api.nvim_buf_get_changedtick(0)
"""


def check_two_buffers(folder):
    """An edit of one buffer leaves cursor, undo and text of the other."""
    with Place(folder) as place:
        neovim = place.opened("one.txt", "1\n2\n3\n")
        neovim.keys("jAx<Esc>")
        before = neovim.lua("return {vim.fn.undotree().seq_last, vim.fn.getcurpos()}")
        place.host.write("other.txt", "4\n5\n")
        place.open(neovim, "other.txt")
        neovim.keys("Gox<Esc>")
        neovim.command("SulgrevadRun ,x/5/c/five/")
        neovim.wait_settled()
        expect_equal(place.expect_same(neovim, "other.txt"), "4\nfive\nx\n")
        neovim.command("buffer one.txt")
        expect_equal(neovim.lua("return {vim.fn.undotree().seq_last, vim.fn.getcurpos()}"), before)
        expect_equal(place.expect_same(neovim, "one.txt"), "1\n2x\n3\n")
        expect_equal(len(place.host.sessions()), 1)


def check_too_long(folder):
    """A text that is too long for the host stays in the buffer, which is told, and is not written; one that is short enough is."""
    with Place(folder) as place:
        neovim = place.opened("notes.txt", "one\n")
        neovim.lua("vim.api.nvim_buf_set_lines(0, 0, 0, true, {('x'):rep(1000000)})")
        neovim.wait_told("is not at the host as it is here")
        expect(neovim.lua("vim.cmd 'silent! write' return vim.bo.modified"), "for :w|q the buffer counts as written")
        expect("is not written" in neovim.lua("return vim.v.errmsg"), neovim.told)
        expect_equal(len(neovim.text), 1_000_005)
        expect(neovim.lua("return vim.bo.modified"), "the buffer counts as written")
        expect_equal(place.host.read("notes.txt"), "one\n")
        neovim.keys("ggdd")
        expect_equal(place.expect_same(neovim, "notes.txt"), "one\n")


def check_replaced(folder):
    """A long text that takes the place of another goes to the host, though both together are too long."""
    with Place(folder, 40) as place:
        neovim = place.opened("notes.txt", "old words\n" * 60000)
        for change in ("vim.fn['repeat']({'the new words'}, 45000)", "vim.fn['repeat']({'short'}, 150000)"):
            neovim.lua(f"vim.api.nvim_buf_set_lines(0, 0, -1, true, {change})")
            neovim.wait_settled()
            expect("is not at the host" not in neovim.told, neovim.told)
        expect(place.expect_same(neovim, "notes.txt") == "short\n" * 150000, "the text is another")


def check_many(folder):
    """Very many changes of a long text go to the host, also while it is busy with the file."""
    text = "".join(f"ink {number} and some words that make the line longer\n" for number in range(12000))
    with Place(folder, 40) as place:
        neovim = place.opened("notes.txt", text)
        neovim.command("%s/ink/inc/")
        neovim.wait_settled()
        expect(place.expect_same(neovim, "notes.txt") == text.replace("ink", "inc"), "the first change is another")
        neovim.lua("vim.cmd 'write'; vim.cmd '%s/inc/pen/'")
        neovim.wait_settled()
        expect("is not at the host" not in neovim.told, neovim.told)
        expect(place.expect_same(neovim, "notes.txt") == text.replace("ink", "pen"), "the second change is another")


MOST_TIMES_PLAIN = 10  # as long as in a plain Neovim


def check_global(folder):
    """A :g over very many lines takes hardly longer than in a plain Neovim, and what it leaves, as what u brings back, is at the host."""
    text, seconds = "x\n" * 100_000, []
    with Place(folder) as place:
        (folder / "plain.txt").write_text(text)
        plain = place.neovim(str(folder / "plain.txt"), has_plugin=False)
        neovim = place.opened("notes.txt", text)
        for one in (plain, neovim):
            start = time.monotonic()
            one.command("silent g/x/d")
            seconds.append(time.monotonic() - start)
        expect(seconds[1] < MOST_TIMES_PLAIN * seconds[0] + 1, f"seconds in a plain Neovim, and here: {seconds}")
        expect_equal(place.expect_same(neovim, "notes.txt"), "")
        neovim.keys("u")
        expect(place.expect_same(neovim, "notes.txt") == text, "the text is another")


MOST_CALLS = 0.2  # of the library, for each line
MOST_TIMES_CALLS = 2.3  # as many for twice as many lines
# Gives a command. How many calls of the library it takes until the session of the current buffer rests.
CALLS = """
local library, made = require "sulgrevad.library", 0
local try = library.try
library.try = function(...)
  made = made + 1
  return try(...)
end
vim.cmd(...)
require("sulgrevad").files[vim.api.nvim_get_current_buf()].session:go_on()
library.try = try
return made
"""


def check_substitution(folder):
    """A :s over many lines, and its undo, take few calls of the library, which grow as the lines do; the host has the same text then."""
    with Place(folder) as place:
        neovim, counts = place.neovim(), []
        for lines in (5000, 10000):
            text = "an x in a line\n" * lines
            place.host.write(f"{lines}.txt", text)
            place.open(neovim, f"{lines}.txt")
            for command, wanted in (("%s/x/word/", text.replace("x", "word")), ("undo", text)):
                counts.append(neovim.lua(CALLS, command))
                expect(counts[-1] < MOST_CALLS * lines, f"{counts[-1]} calls of the library for {command} over {lines} lines")
                neovim.wait_settled()
                expect(place.expect_same(neovim, f"{lines}.txt") == wanted, f"the text is another after {command}")
        expect(counts[2] < MOST_TIMES_CALLS * counts[0] and counts[3] < MOST_TIMES_CALLS * counts[1], f"calls of the library: {counts}")


# Has a command line of the session change the text of the current buffer, which the host has otherwise.
CHANGE = """
local file = require("sulgrevad").files[vim.api.nvim_get_current_buf()]
local line = ",x/two/c/2/"
file.session:must("run", file.tag, line, #line, require("sulgrevad.library").count)
file.session:go_on()
"""


def check_parted(folder):
    """Where the host changes a text while that of the buffer is too long for it, neither is lost: the user is told, and chooses."""
    with Place(folder) as place:
        neovim = place.opened("notes.txt", "one\ntwo\n")
        neovim.lua("vim.api.nvim_buf_set_lines(0, 0, 0, true, {('x'):rep(1000000)})")
        neovim.wait_told("is not at the host as it is here")
        neovim.lua(CHANGE)
        neovim.wait(TERMINAL, "one\n2\n")
        neovim.keys("ggddAz<Esc>")
        neovim.wait_told("the host has changed it meanwhile")
        neovim.command("silent! write")
        expect("is not written" in neovim.lua("return vim.v.errmsg"), neovim.told)
        neovim.command("write! here.txt")
        expect_equal((neovim.text, (neovim.folder / "here.txt").read_text()), ("onez\ntwo\n", "onez\ntwo\n"))
        expect_equal((neovim.lua("return vim.bo.modified"), place.host.read("notes.txt")), (True, "one\ntwo\n"))
        neovim.command("edit!")
        neovim.keys("u")
        expect_equal(place.expect_same(neovim, "notes.txt"), "one\n2\n")
