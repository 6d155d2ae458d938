"""Command lines, and lines that are slow, break or are dead, while the user types."""
import os
import random
import shutil
import signal
import time

from checks import expect, expect_equal, wait_until

from .support import Place


def check_run(folder):
    """A command line changes the buffer as one step of undo, and leaves the cursor at its text; an address alone moves it; output shows."""
    with Place(folder) as place:
        neovim = place.opened("notes.txt", "a b\nb a\nc\n")
        neovim.keys("2l:split\nj3l")  # two windows, with the cursors behind what changes
        neovim.command("SulgrevadRun ,x/a/c/long/")
        neovim.wait_settled()
        expect_equal((neovim.text, neovim.lua(CURSORS)), ("long b\nb long\nc\n", [[2, 5], [1, 5]]))
        neovim.command("only")
        neovim.keys("u")
        expect_equal(neovim.text, "a b\nb a\nc\n")
        neovim.keys("<C-r>")
        expect_equal(neovim.text, "long b\nb long\nc\n")
        neovim.command("SulgrevadRun /c/")
        neovim.wait_settled()
        expect_equal(neovim.lua("return vim.api.nvim_win_get_cursor(0)"), [3, 0])
        neovim.command("SulgrevadRun 2p")
        neovim.wait_told("b long")
        neovim.command("SulgrevadRun ,z")
        neovim.wait_told("? command")
        neovim.command("SulgrevadRun #0,#1p")  # that ends in no newline
        neovim.command("1SulgrevadRun x/b/c/B/")
        neovim.wait_settled()
        expect_equal(place.expect_same(neovim, "notes.txt"), "long B\nb long\nc\n")
        neovim.command("SulgrevadRun ,p")
        neovim.command("SulgrevadRun $a/日%s/" % ("é" * 700))
        neovim.wait_settled()
        expect_equal(place.expect_same(neovim, "notes.txt"), "long B\nb long\nc\n日%s" % ("é" * 700) + "\n")
        neovim.command("messages clear")
        neovim.lua("vim.cmd 'SulgrevadRun 4p'; vim.cmd 'SulgrevadRun 2p'")
        neovim.wait_told("é" * 700 + "\nsulgrevad: b long")  # the first is loaded while the second comes
        neovim.command("messages clear")
        neovim.keys("gg")
        neovim.lua("vim.cmd 'SulgrevadRun /c/'; vim.cmd 'SulgrevadRun 2p'")
        neovim.wait_told("b long")
        expect_equal(neovim.lua("return vim.api.nvim_win_get_cursor(0)"), [3, 0])  # the place of the first line, not of the second


CURSORS = "return vim.tbl_map(vim.api.nvim_win_get_cursor, vim.api.nvim_list_wins())"


def check_zeros(folder):
    """U+0000 is a character like any other: for edits behind it, for the places of command lines, and in what these print."""
    with Place(folder) as place:
        neovim = place.opened("notes.txt", "one\ntwo\nthree\n")
        neovim.keys("A<C-v>000x<Esc>jj0cwlast<Esc>kdd")
        expect_equal(place.expect_same(neovim, "notes.txt"), "one\0x\nlast\n")
        neovim.command("2SulgrevadRun c/end\\n/")
        neovim.wait_settled()
        expect_equal(place.expect_same(neovim, "notes.txt"), "one\0x\nend\n")
        neovim.command("1SulgrevadRun p")
        neovim.wait_told("one^@x")


def check_typing(folder):
    """What is typed while the host changes the text is in it once, and so are the host's changes."""
    with Place(folder, 150) as place:
        neovim = place.opened("notes.txt", "title\nink one\nink two\nink three\n" + "ink\n" * 40)
        for turn in range(5):
            neovim.command(f"SulgrevadRun ,x/ink/c/<{turn}>ink/")
            neovim.keys("jA (typed")
            neovim.keys(f" {turn})<Esc>2GOline {turn}<Esc>")
            neovim.command("write")
        neovim.wait_settled()
        text = place.expect_same(neovim, "notes.txt")
        for turn in range(5):
            expect_equal((turn, text.count(f"(typed {turn})"), text.count(f"line {turn}"), text.count(f"<{turn}>")), (turn, 1, 1, 43))
            expect(f"\nline {turn}" in "\n" + text, f"line {turn} is torn: {text[:400]!r}")


LINES = (",x/ink/c/<ink>/", ",x/<ink>/c/ink/", f"1a/{'é' * 600}\\n/", "$a/end\\n/", ",x/é日/c/日é/", "/with/", "1p")
TYPED = ("A {}", "0wi{} ", "o{}", "O{}", "$a{}")


def check_crossing(folder):
    """Words that are typed anywhere, while command lines change the text, the line is cut and the host is killed, are in the text once."""
    chance = random.Random(5)
    with Place(folder, 80) as place:
        neovim = place.opened("notes.txt", "".join(f"ink line {number} with words é日\n" for number in range(40)))
        for step in range(100):
            neovim.keys(f"{chance.randrange(1, 41)}G{chance.choice(TYPED).format(f'word{step}x')}<Esc>")
            if step % 3 == 0:
                neovim.command(f"silent! SulgrevadRun {chance.choice(LINES)}")
            if step % 10 == 4:
                neovim.command("write")
            if step % 25 == 7:
                place.cut(neovim)
            if step == 60:
                place.host.kill()
            time.sleep(chance.choice((0, 0, 0.1)))
        neovim.wait_settled()
        text = place.expect_same(neovim, "notes.txt")
        expect_equal({step: text.count(f"word{step}x") for step in range(100) if text.count(f"word{step}x") != 1}, {})


# Command lines, the keys before their answer comes and those after it, and the text that is left of "one two\nthree\nfour\nfive\n".
AMID = (
    ("0a/new\\n/", "3Gd", "d", "new\none two\nthree\nfive\n"),
    ("0a/new\\n/", "2Gdw<Esc>g~", "j", "new\none two\n\nFOUR\nfive\n"),
    ("0a/new\\n/", "3GV", "d", "new\none two\nthree\nfive\n"),
    ("#0a/x\\ny /", "gg0wve", "d", "x\ny one \nthree\nfour\nfive\n"),
    ("0a/new\\n/", "3G0v$<C-g>", "X<Esc>", "new\none two\nthree\nXfive\n"),
    ("0a/new\\n/", "2G<F2>", "x", "new\none two\nhree\nfour\nfive\n"),  # a key for which a mapping waits
    ("0a/new\\n/", "2Gd/fou", "r<CR>", "new\none two\nfour\nfive\n"),
    ("0a/new\\n/", "2Gi<C-r>=", "1<CR><Esc>", "new\none two\n1three\nfour\nfive\n"),
    ("0a/new\\n/", "2G<C-v>jIQ", "R<Esc>", "new\none two\nQRthree\nQRfour\nfive\n"),
    ("2i/XX/", "2GA t<C-n>", "<C-n><Esc>", "one two\nXXthree three\nfour\nfive\n"),
    ("1a/new\\n/", "1GA x", "y<Esc>", "one two xy\nnew\nthree\nfour\nfive\n"),
    (",x/\\n/a/new\\n/", "4GA x", "y<Esc>", "one two\nnew\nthree\nnew\nfour\nnew\nfive xy\nnew\n"),
    ("0a/new\\n/", ":set ve=all<CR>2G7|", "ix<Esc>:set ve=<CR>", "new\none two\nthree x\nfour\nfive\n"),
    ("0a/new\\n/", "2GAx<C-o>", "zzy<Esc>", "new\none two\nthreexy\nfour\nfive\n"),
    ("0a/new\\n/", "1GVj<Esc>", ":'<lt>,'>d<CR>", "new\nfour\nfive\n"),
    ("0a/new\\n/", "1G0<C-v>j$", "A!<Esc>", "new\none two!\nthree!\nfour\nfive\n"),
)


def check_amid(folder):
    """An operator, and a selection, is of the text of which the user began it, if the host changes the text before the next key comes. What
    is typed into a block, from a command line or a completion, or at the end of a line, goes to its place."""
    with Place(folder, 150) as place:
        neovim = place.opened("notes.txt", "")
        neovim.command("nnoremap <expr> <F2> nr2char(getchar())")
        for line, first, then, wanted in AMID:
            neovim.lua("vim.api.nvim_buf_set_lines(0, 0, -1, true, { 'one two', 'three', 'four', 'five' })")
            neovim.wait_settled()
            neovim.command(f"SulgrevadRun {line}")
            neovim.ask("nvim_input", first)
            time.sleep(1)  # in which the host's answer comes
            neovim.ask("nvim_input", then)
            neovim.wait_settled()
            expect_equal((first, place.expect_same(neovim, "notes.txt")), (first, wanted))


def check_undo_of_line(folder):
    """U puts the line that the user changed last in the place of no other one, where the host has moved it."""
    with Place(folder) as place:
        neovim = place.opened("notes.txt", "one\ntwo\nthree\n")
        neovim.keys("2GAx<Esc>")
        neovim.command("SulgrevadRun 0a/new\\n/")
        neovim.wait_settled()
        neovim.keys("U")
        expect_equal(place.expect_same(neovim, "notes.txt"), "new\none\ntwox\nthree\n")


def check_marks(folder):
    """Marks, and the places of the last insertion and the last change, stay at their lines, also where the host changes these."""
    with Place(folder) as place:
        neovim = place.opened("notes.txt", "one\ntwo\nthree\nfour\n")
        neovim.keys("2Gma3Gmb4GAx<Esc>gg")
        for line in (",x/o/c/0/", "1d", "0a/new\\nnew\\n/"):
            neovim.command(f"SulgrevadRun {line}")
            neovim.wait_settled()
        expect_equal(neovim.lua("return { vim.fn.line \"'a\", vim.fn.line \"'b\" }"), [3, 4])
        neovim.keys("giy<Esc>gg`.iz<Esc>")
        expect_equal(place.expect_same(neovim, "notes.txt"), "new\nnew\ntw0\nthree\nf0urxzy\n")


def check_amid_pattern(folder):
    """A :s acts on the line on which it was begun, if the host puts one in before that while its pattern is typed."""
    with Place(folder, 150) as place:
        neovim = place.opened("notes.txt", "one two\nthree\nfour\n")
        neovim.command("SulgrevadRun 0a/new\\n/")
        neovim.ask("nvim_input", "2G:s/t")
        time.sleep(1)  # in which the host's answer comes
        for key in ("h", "/T/<CR>"):
            neovim.keys(key)
        neovim.wait_settled()
        expect_equal(place.expect_same(neovim, "notes.txt"), "new\none two\nTree\nfour\n")


def check_message(folder):
    """Words that come in Insert mode, or amid an operator, take no key of the user's, though they fill the screen, and are shown once
    that is over."""
    with Place(folder) as place:
        neovim = place.opened("notes.txt", "one\n")
        neovim.ask("nvim_ui_attach", 80, 10, {})
        neovim.ask("nvim_input", "A")
        neovim.lua("require('sulgrevad.session').say(('word '):rep(50))")
        neovim.ask("nvim_input", " two")
        neovim.wait("vim.api.nvim_get_current_line()", "one two")
        neovim.ask("nvim_input", "<Esc>")
        wait_until(lambda: neovim.ask("nvim_get_mode")["mode"] == "r", "the words are not shown")
        neovim.ask("nvim_input", "<CR>")
        neovim.wait_told("word word")
        neovim.ask("nvim_input", "0d")
        neovim.lua("require('sulgrevad.session').say(('more '):rep(50))")
        neovim.ask("nvim_input", " ")
        neovim.wait("vim.api.nvim_get_current_line()", "ne two")


# Presses CTRL-C just before the session of the current buffer goes on, or at the next change of its text.
PRESS = """
vim.api.nvim_input "<C-c>"
require("sulgrevad").files[vim.api.nvim_get_current_buf()].session:go_on()
"""
PRESS_AT_CHANGE = "vim.api.nvim_buf_attach(0, false, { on_lines = function() vim.api.nvim_input '<C-c>' return true end })"


def check_interrupt(folder):
    """A CTRL-C ends no session, and what the host changes then comes into the buffer as a whole, as one step of undo."""
    with Place(folder) as place:
        neovim = place.opened("notes.txt", "ink\n" * 3)
        neovim.lua(PRESS)
        neovim.lua(PRESS_AT_CHANGE)
        neovim.command("SulgrevadRun ,x/ink/c/pen/")
        neovim.wait_settled()
        expect_equal(place.expect_same(neovim, "notes.txt"), "pen\n" * 3)
        neovim.keys("u")
        expect_equal(place.expect_same(neovim, "notes.txt"), "ink\n" * 3)


def check_insertion(folder):
    """Undo of an insertion into which the host's change came takes back what was typed before and after, and the host's change between."""
    with Place(folder, 100) as place:
        neovim = place.opened("notes.txt", "one\ntwo\n")
        neovim.command("SulgrevadRun ,x/two/c/2/")
        neovim.ask("nvim_input", "Ax")
        neovim.wait_settled()
        neovim.ask("nvim_input", "y<Esc>")
        neovim.wait_settled()
        expect_equal(place.expect_same(neovim, "notes.txt"), "onexy\n2\n")
        for wanted in ("onex\n2\n", "onex\ntwo\n", "one\ntwo\n"):
            neovim.keys("u")
            expect_equal(neovim.text, wanted)
        neovim.keys("3<C-r>")
        expect_equal(neovim.text, "onexy\n2\n")


def check_insertion_of_lines(folder):
    """Undo of lines that are typed behind the host's change takes back these alone, also where it made two."""
    with Place(folder) as place:
        neovim = place.opened("notes.txt", "one\ntwo\nthree\nfour\n")
        neovim.ask("nvim_input", "2GAx")
        for line in (",x/four/c/4/", ",x/one/c/1/"):
            neovim.command(f"SulgrevadRun {line}")
            neovim.wait_settled()
        neovim.ask("nvim_input", "<CR>z<CR>w<Esc>")
        neovim.wait_settled()
        typed = "1\ntwox\nz\nw\nthree\n4\n"
        expect_equal(place.expect_same(neovim, "notes.txt"), typed)
        for wanted in ("1\ntwox\nthree\n4\n", "one\ntwox\nthree\n4\n", "one\ntwox\nthree\nfour\n", "one\ntwo\nthree\nfour\n"):
            neovim.keys("u")
            expect_equal(neovim.text, wanted)
        neovim.keys("4<C-r>")
        expect_equal(place.expect_same(neovim, "notes.txt"), typed)


def check_one_step(folder):
    """A command line whose answer comes in many pieces is one step of undo, and so is one that puts in more than comes at once."""
    text = "ink one\n" * 3000
    with Place(folder, 40) as place:
        neovim = place.opened("notes.txt", text)
        long = "é" * 5000
        for line, wanted in (
            (",x/ink/c/paper/", text.replace("ink", "paper")),
            ("1d", text[8:]),
            (f"1a/{long}/", f"ink one\n{long}{text[8:]}"),
        ):
            neovim.command(f"SulgrevadRun {line}")
            neovim.wait_settled()
            expect(neovim.text == wanted, f"{line} leaves {neovim.text[:100]!r}")
            neovim.keys("u")
            expect(neovim.text == text, f"u after {line} leaves {neovim.text[:100]!r}")
        neovim.lua("vim.cmd 'SulgrevadRun ,x/ink/c/one/'; vim.cmd 'SulgrevadRun ,x/one one/c/two/'")
        neovim.wait_settled()
        for wanted in ("one one\n" * 3000, text):
            neovim.keys("u")
            expect(neovim.text == wanted, f"u after two lines leaves {neovim.text[:100]!r}")
        place.expect_same(neovim, "notes.txt")


# Has the session of the current buffer load nothing more, or go on with that.
LOADING = """
local file = require("sulgrevad").files[vim.api.nvim_get_current_buf()]
if ... then file.session:must("see", file.tag, 0, 1000000) else file.session:must("forget", file.tag) end
file.session:go_on()
"""
HOLES = "#require('sulgrevad').files[vim.api.nvim_get_current_buf()].holes"


def check_holes(folder):
    """What is typed round a long text of the host that isn't loaded yet stays where it was typed, and undo takes it back alone."""
    long = "é" * 700
    with Place(folder) as place:
        neovim = place.opened("notes.txt", "one\ntwo\nthree\n")
        neovim.lua(LOADING, False)
        neovim.command(f"SulgrevadRun 1,2x/\\n/a/{long}/")
        neovim.wait(HOLES, 2)
        neovim.keys("ggAx<Esc>Gonew<Esc>2GAy<Esc>gg0iz<Esc>")
        expect_equal(neovim.text, "zonex\ntwoy\nthree\nnew\n")
        neovim.lua(LOADING, True)
        neovim.wait_settled()
        expect_equal(place.expect_same(neovim, "notes.txt"), f"zonex\n{long}twoy\n{long}three\nnew\n")
        neovim.keys("u")
        expect_equal(neovim.text, "zonex\ntwoy\nthree\nnew\n")
        neovim.keys("uuuu")
        expect_equal(place.expect_same(neovim, "notes.txt"), "one\ntwo\nthree\n")


def check_breaks(folder):
    """Typing goes on while the line breaks and the host is killed; each word is in the text once, in order."""
    with Place(folder, 30) as place:
        neovim = place.opened("notes.txt", "")
        words = [f"word{number}" for number in range(120)]
        for number, word in enumerate(words):
            neovim.ask("nvim_input", f"A{word} <Esc>")
            if number % 30 == 10:
                place.cut(neovim)
            elif number % 60 == 40:
                place.host.kill()
            elif number % 20 == 5:
                neovim.command("write")
        neovim.wait_settled()
        expect_equal(place.expect_same(neovim, "notes.txt"), "".join(f"{word} " for word in words) + "\n")


def lost_and_edited(place):
    """A Neovim whose line is lost, with an x that was typed since at the end of its line "one"."""
    neovim = place.opened("notes.txt", "one\n")
    place.host.dead.touch()
    place.cut(neovim)
    neovim.wait("require('sulgrevad').status(0):find('LINE LOST') ~= nil")
    neovim.keys("Ax<Esc>")
    return neovim


def check_dead(folder):
    """While the line is dead all can be edited, the statusline has it, and :w is done when the line is back; so is :SulgrevadReconnect."""
    with Place(folder, 10) as place:
        neovim = lost_and_edited(place)
        neovim.command("write")
        neovim.keys("Gonext<Esc>ddp")
        expect_equal((neovim.text, neovim.lua("return vim.bo.modified")), ("onex\nnext\n", True))
        neovim.command("silent! edit!")
        expect("onex\n" in neovim.text, neovim.text)
        place.host.dead.unlink()
        neovim.command("SulgrevadReconnect")
        neovim.wait_settled()
        expect_equal(neovim.lua("return require('sulgrevad').status()"), "")
        place.host.wait_written("notes.txt", "onex\n")
        expect_equal(place.expect_same(neovim, "notes.txt"), "onex\nnext\n")


def check_silent(folder):
    """A line that takes bytes and brings none is told, all can be edited, and what was done comes when it goes on, or by another one."""
    with Place(folder, 10) as place:
        neovim = place.opened("notes.txt", "one\n")
        process = place.line(neovim)
        os.kill(process, signal.SIGSTOP)
        neovim.keys("Ax<Esc>")
        neovim.command("write")
        neovim.keys("Ay<Esc>")
        neovim.wait("require('sulgrevad').status():find('no answer for') ~= nil")
        expect_equal(neovim.text, "onexy\n")
        os.kill(process, signal.SIGCONT)
        place.host.wait_written("notes.txt", "onex\n")
        expect_equal(place.expect_same(neovim, "notes.txt"), "onexy\n")
        os.kill(process, signal.SIGSTOP)
        neovim.keys("Az<Esc>")
        neovim.wait("require('sulgrevad').status():find('no answer for') ~= nil")
        neovim.command("SulgrevadReconnect")
        neovim.wait_settled()
        expect_equal(place.expect_same(neovim, "notes.txt"), "onexyz\n")
        expect(place.line(neovim) != process, "the line is the same")


def check_reload_late(folder):
    """What is typed while :e! waits for a silent host stays, also behind a second one, and the user is told."""
    with Place(folder, 10) as place:
        neovim = place.opened("notes.txt", "one\n")
        process = place.line(neovim)
        os.kill(process, signal.SIGSTOP)
        for told in ("notes.txt comes once the host answers", "the file is not read anew: no answer for"):
            neovim.command("edit!")
            neovim.wait_told(told)
        neovim.keys("Ax<Esc>")
        os.kill(process, signal.SIGCONT)
        neovim.wait_told("notes.txt is not read anew: it has changed here meanwhile")
        neovim.wait_settled()
        expect_equal(place.expect_same(neovim, "notes.txt"), "onex\n")


def check_no_folder(folder):
    """A line comes back also if the folder is gone in which the session began."""
    with Place(folder, 10) as place:
        neovim = place.opened("notes.txt", "one\n")
        shutil.rmtree(neovim.folder)
        place.cut(neovim)
        neovim.keys("Ax<Esc>")
        neovim.wait_settled()
        expect_equal(place.expect_same(neovim, "notes.txt"), "onex\n")


def check_write_refused(folder):
    """Where a write waits for a dead line, and the text is too long since, another write fails and tells why."""
    with Place(folder, 10) as place:
        neovim = lost_and_edited(place)
        neovim.command("write")
        neovim.lua("vim.api.nvim_buf_set_lines(0, 0, 0, true, {('x'):rep(1000000)})")
        expect_equal(neovim.lua("vim.cmd 'silent! write' return vim.bo.modified"), True)
        expect("is not written" in neovim.lua("return vim.v.errmsg"), neovim.told)
        place.host.dead.unlink()
        neovim.command("SulgrevadReconnect")
        place.host.wait_written("notes.txt", "onex\n")
        expect_equal(neovim.lua("return vim.bo.modified"), True)
