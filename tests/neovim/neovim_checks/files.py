"""Opening, writing, reading anew and leaving; what fails is told, and nothing is lost."""
import shlex
import shutil
import time
from pathlib import Path

from checks import ROOT, expect, expect_equal, wait_until

from .support import COMPLETE, PLUGIN, TERMINAL, Place


def check_names(folder):
    """A file that is there by another path is shown in its buffer; names of buffers open files, also by absolute paths; blanks are theirs."""
    with Place(folder) as place:
        neovim = place.opened("my notes.txt", "one\n")
        first = neovim.lua("return vim.api.nvim_get_current_buf()")
        neovim.command(f"Sulgrevad {place.host.command} ./my notes.txt")
        neovim.wait("vim.api.nvim_get_current_buf()", first)
        for name in ("other.txt", f"{place.host.folder}/third.txt"):
            (place.host.folder / name).write_text(name)
            neovim.lua(EDIT_BESIDE, name)
            expect_equal(neovim.text, name)
        neovim.command(f"buffer {first}")
        expect_equal(neovim.text, "one\n")
        expect_equal(len(place.host.sessions()), 1)


def check_own_command(folder):
    """The name of a buffer alone begins a session, by g:sulgrevad_command; a name that is no machine's runs nothing."""
    with Place(folder) as place:
        place.host.write("notes.txt", "one\n")
        neovim = place.neovim()
        neovim.lua("vim.g.sulgrevad_command = ...", f"{shlex.quote(str(folder))}/%s/samhost")
        neovim.command("edit sulgrevad://bin/notes.txt")
        expect_equal(neovim.text, "one\n")
        for label in ("bin;touch wrong", "-bin", "$(touch wrong)"):
            neovim.lua("vim.cmd('silent! edit ' .. vim.fn.fnameescape(...))", f"sulgrevad://{label}/notes.txt")
            expect("no file is named by" in neovim.lua("return vim.v.errmsg"), f"{label}: {neovim.told}")
        expect(not [*folder.rglob("wrong")], "a word of a name was run")


EDIT_BESIDE = """
local label = vim.api.nvim_buf_get_name(0):match "^sulgrevad://([^/]*)/"
vim.cmd("edit " .. vim.fn.fnameescape(("sulgrevad://%s/%s"):format(label, ...)))
"""


def check_late(folder):
    """What is opened while the line is dead comes once that is back, however often it is asked for; what is refused is told then, and what
    was closed meanwhile is not there."""
    with Place(folder, 10) as place:
        neovim = place.opened("notes.txt", "one\n")
        first = neovim.lua("return vim.api.nvim_get_current_buf()")
        place.host.dead.touch()
        place.cut(neovim)
        neovim.wait("require('sulgrevad').status(0):find('LINE LOST') ~= nil")
        for name in ("again.txt", "closed.txt", "none/new.txt", "anew.txt"):
            place.host.write(Path(name).name, name)
            neovim.lua(EDIT_BESIDE, name)
            neovim.wait_told(f"{name} comes once the host answers")
        neovim.command("edit")
        neovim.command("bdelete closed.txt again.txt")
        neovim.lua(EDIT_BESIDE, "again.txt")
        neovim.command("split")
        neovim.lua(EDIT_BESIDE, "./notes.txt")
        place.host.dead.unlink()
        neovim.command("SulgrevadReconnect")
        neovim.wait_settled()
        neovim.wait("vim.api.nvim_get_current_buf()", first)
        neovim.wait_told("none/new.txt: ")
        for name in ("anew.txt", "again.txt"):
            neovim.command(f"buffer {name}")
            neovim.wait(IS_FILLED, True)
            expect_equal((neovim.text, neovim.lua("return vim.bo.modifiable")), (name, True))
        neovim.wait(OPEN, 3)


# Whether the text of the current buffer is there.
IS_FILLED = "require('sulgrevad').files[vim.api.nvim_get_current_buf()].is_filled"
# How many files the session of the current buffer has open.
OPEN = "vim.tbl_count(require('sulgrevad').files[vim.api.nvim_get_current_buf()].session.files)"


def check_failed_write(folder):
    """A write that fails is told, and the buffer stays modified until one succeeds; :wq stays."""
    with Place(folder) as place:
        (place.host.folder / "gone").mkdir()
        neovim = place.changed("gone/notes.txt")
        shutil.rmtree(place.host.folder / "gone")
        neovim.command("write")
        neovim.wait_told("notes.txt")
        neovim.wait(ANSWERED, True)
        neovim.wait("vim.bo.modified", True)
        neovim.keys(":wq\n")
        neovim.wait_told("gone/notes.txt is not written")
        expect_equal(neovim.text, "onex\n")
        (place.host.folder / "gone").mkdir()
        place.expect_same(neovim, "gone/notes.txt")
        expect_equal(place.host.read("gone/notes.txt"), "onex\n")


def check_own_name(folder):
    """:saveas and :file leave the buffer its name, and write no other file's text over the host's; :w writes its own."""
    with Place(folder) as place:
        neovim = place.changed()
        name = neovim.lua("return vim.api.nvim_buf_get_name(0)")
        other = name.replace("notes.txt", "other.txt")
        for command in (f"saveas {other}", f"file {other} | write", f"saveas {folder}/here.txt", f"file {other}", "0file"):
            neovim.lua("pcall(vim.cmd, ...)", command)
            neovim.wait("vim.api.nvim_buf_get_name(0)", name)
            neovim.wait_settled()
            expect_equal((command, place.host.read("notes.txt"), neovim.lua("return vim.bo.modified")), (command, "one\n", True))
        place.expect_same(neovim, "notes.txt")
        expect_equal([path.name for path in place.host.folder.iterdir()], ["notes.txt"])


def check_new_name(folder):
    """After the command line `f NAME` the buffer has that name, :w writes there alone, and says so; the old name is another file's."""
    with Place(folder) as place:
        neovim = place.changed()
        neovim.command("SulgrevadRun f other.txt")
        neovim.wait("vim.api.nvim_buf_get_name(0):match '[^/]*$'", "other.txt")
        place.expect_same(neovim, "other.txt")
        neovim.wait_told("other.txt is written")
        expect_equal((place.host.read("notes.txt"), place.host.read("other.txt")), ("one\n", "onex\n"))
        place.open(neovim, "notes.txt")
        expect_equal(neovim.text, "one\n")
        neovim.keys("Ay<Esc>")
        place.expect_same(neovim, "notes.txt")
        expect_equal((place.host.read("notes.txt"), place.host.read("other.txt")), ("oney\n", "onex\n"))


def check_end_in_write(folder):
    """Where an error ends the session within a write, :w says so, the buffer stays modified, and :w NAME writes its text here."""
    with Place(folder) as place:
        neovim = place.changed()
        neovim.wait_settled()
        told, is_modified = neovim.lua(END_IN_WRITE)
        expect("not written" in told and "no memory" in told and is_modified, f"{told!r}, modified: {is_modified}")
        expect_equal(place.host.read("notes.txt"), "one\n")
        neovim.command("write! here.txt")
        expect_equal((neovim.folder / "here.txt").read_text(), "onex\n")


END_IN_WRITE = """
require("sulgrevad").files[vim.api.nvim_get_current_buf()].session.advance = function() error "no memory" end
vim.cmd "silent! write"
return { vim.v.errmsg, vim.bo.modified }
"""


# Whether each write is answered.
ANSWERED = "(function() for _, file in pairs(require('sulgrevad').files) do if file.writing then return false end end return true end)()"


def check_reload(folder):
    """:e! shows what another program has written, unmodified, and undo goes back to what was there; a change of another is told."""
    with Place(folder) as place:
        neovim = place.opened("notes.txt", "one\ntwo\n")
        neovim.keys("Gomine<Esc>")
        neovim.wait_settled()
        place.host.write("notes.txt", "one\nother\n")
        neovim.wait_told("notes.txt")
        neovim.command("edit!")
        expect_equal(neovim.text, "one\nother\n")
        expect_equal(neovim.lua("return vim.bo.modified"), False)
        neovim.keys("Gox<Esc>")
        expect_equal(place.expect_same(neovim, "notes.txt"), "one\nother\nx\n")
        neovim.keys("uu")
        expect_equal(neovim.text, "one\ntwo\nmine\n")


def check_undo_of_reload(folder):
    """Undo and redo over :e! leave no empty text, and what is typed then stays and goes to the host."""
    first, mine = "one\ntwo\n", "one\ntwo\nmine\n"
    with Place(folder) as place:
        neovim = place.opened("notes.txt", first)
        neovim.keys("Gomine<Esc>")
        neovim.wait_settled()
        neovim.command("edit!")
        for key in ("u", "<C-r>", "u"):
            for wanted in (mine, mine, first):  # the step between reads the client's text, which is the same
                neovim.keys(key)
                neovim.wait_settled()
                expect_equal((key, neovim.text, neovim.lua("return " + TERMINAL)), (key, wanted, wanted))
        neovim.keys("Goend<Esc>")
        neovim.wait_settled()
        expect_equal(place.expect_same(neovim, "notes.txt"), "one\ntwo\nend\n")


def check_unload(folder):
    """An unloaded buffer has told all its changes, also very many of one moment. It is read anew, and undo goes back to these alone."""
    with Place(folder) as place:
        neovim = place.opened("notes.txt", "one\n" * 300)
        neovim.command("edit beside.txt")
        neovim.lua("vim.cmd 'buffer notes.txt'; vim.cmd 'g/one/s/$/x/'; vim.cmd 'buffer beside.txt'; vim.cmd 'bunload! notes.txt'")
        neovim.wait_settled()
        neovim.command("set nohidden")
        neovim.command("buffer notes.txt")
        expect_equal(neovim.text, "one\n" * 300)
        neovim.keys("uu")
        expect_equal(place.expect_same(neovim, "notes.txt"), "onex\n" * 300)


def check_replacing(folder):
    """A write over another program's text is refused once and told; the next one replaces that text."""
    with Place(folder) as place:
        neovim = place.changed()
        neovim.wait_settled()
        place.host.write("notes.txt", "other text\n")
        neovim.command("write")
        neovim.wait(ANSWERED, True)
        expect_equal(place.host.read("notes.txt"), "other text\n")
        neovim.wait("vim.bo.modified", True)
        expect_equal(place.expect_same(neovim, "notes.txt"), "onex\n")


def check_replacing_by_habit(folder):
    """A second :w, or :wq, that comes before the host has refused the first replaces no text of another program."""
    with Place(folder, 100) as place:
        neovim = place.opened("notes.txt", "one\n")
        for keys in (":w\n:w\n", ":w\n:wq\n"):
            place.host.write("notes.txt", f"other text {keys}")
            neovim.keys(f"Ax<Esc>{keys}")
            neovim.wait(ANSWERED, True)
            neovim.wait_settled()
            expect_equal((place.host.read("notes.txt"), neovim.lua("return vim.bo.modified")), (f"other text {keys}", True))
            expect_equal(place.expect_same(neovim, "notes.txt"), neovim.text)
        neovim.lua("vim.cmd 'silent write'; vim.api.nvim_buf_set_lines(0, 0, 0, true, { 'last' }); vim.cmd 'silent write'")
        neovim.wait(ANSWERED, True)
        expect_equal((place.host.read("notes.txt"), neovim.lua("return vim.bo.modified")), ("last\nonexx\n", False))


def check_replacing_unheard(folder):
    """No write replaces another program's text before the user hears of it: none of Insert mode, and none that is typed while :wq waits."""
    with Place(folder, 100) as place:
        neovim = place.changed()
        neovim.command("inoremap <F2> <Cmd>silent! write<CR>")
        neovim.wait_settled()
        place.host.write("notes.txt", "other text\n")
        for keys in ("A<F2>", "y<F2>"):
            neovim.keys(keys)
            neovim.wait(ANSWERED, True)
            neovim.wait_settled()
            expect_equal((keys, place.host.read("notes.txt")), (keys, "other text\n"))
        expect("the next write replaces it" in neovim.lua("return vim.v.errmsg"), neovim.told)
        neovim.keys("<F2><Esc>")
        place.host.wait_written("notes.txt", "onexy\n")
        neovim.wait_settled()
        place.host.write("notes.txt", "more of another\n")
        neovim.ask("nvim_input", "Az<Esc>:wq<CR>:w<CR>:w<CR>:let g:is_done = 1<CR>")
        neovim.wait("vim.g.is_done", 1)
        neovim.wait_settled()
        expect_equal((place.host.read("notes.txt"), neovim.lua("return vim.bo.modified")), ("more of another\n", True))
        expect_equal(place.expect_same(neovim, "notes.txt"), "onexyz\n")


def check_replacing_by_unloading(folder):
    """A second :w that waits for the answer to the first replaces no text of another program when the buffer is read anew or closed."""
    with Place(folder, 100) as place:
        neovim = place.opened("notes.txt", "one\n")
        place.host.write("notes.txt", "other text\n")
        neovim.keys("Ax<Esc>:w\n:w\n")
        neovim.wait(ANSWERED, True)
        neovim.command("edit!")
        neovim.wait_settled()
        expect_equal((place.host.read("notes.txt"), neovim.text), ("other text\n", "other text\n"))
        place.host.write("notes.txt", "more of another\n")
        neovim.keys("Ay<Esc>:w\n:w\n:bd\n")
        neovim.wait("next(select(2, next(require('sulgrevad').sessions)).files) == nil", True)
        expect_equal((place.host.read("notes.txt"), place.host.read("notes.txt.sam-saved")), ("more of another\n", "other texty\n"))
        place.open(neovim, "notes.txt")
        neovim.lua("vim.cmd 'silent write'; vim.api.nvim_buf_set_lines(0, 0, 0, true, { 'last' }); vim.cmd 'silent write | bdelete'")
        place.host.wait_written("notes.txt", "last\nmore of another\n")


def check_replacing_at_end(folder):
    """Where :wq replaces another program's text, it is told where that is now."""
    with Place(folder) as place:
        neovim = place.opened("notes.txt", "one\n")
        neovim.keys("Ax<Esc>")
        place.host.write("notes.txt", "other text\n")
        neovim.command("write")
        neovim.wait_told("the next write replaces it")
        neovim.ask("nvim_input", ":wq<CR>")
        wait_until(lambda: neovim.process.poll() is not None, "Neovim does not end")
        told = (neovim.folder / "errors").read_text()
        expect("what another program had written there is in" in told, told)
        expect_equal(place.host.read("notes.txt"), "onex\n")


def check_leave(folder):
    """:wq writes and ends the session; after :bd the file can be opened again; :w NAME writes here."""
    with Place(folder) as place:
        neovim = place.changed()
        place.expect_same(neovim, "notes.txt")
        neovim.lua("vim.cmd('write! ' .. vim.fn.fnameescape(...))", str(folder / "copy.txt"))
        neovim.command("bdelete")
        place.open(neovim, "notes.txt")
        expect_equal((neovim.text, (folder / "copy.txt").read_text()), ("onex\n", "onex\n"))
        neovim.keys("Ay<Esc>")
        neovim.ask("nvim_input", ":wq<CR>")
        wait_until(lambda: neovim.process.poll() is not None, "Neovim does not end")
        expect_equal((place.host.read("notes.txt"), place.host.sessions()), ("onexy\n", []))


def check_leave_all(folder):
    """:wqa writes all files before Neovim ends, and where one can't be written it doesn't end."""
    with Place(folder) as place:
        (place.host.folder / "gone").mkdir()
        neovim = place.changed("gone/notes.txt")
        place.host.write("other.txt", "other\n")
        place.open(neovim, "other.txt")
        neovim.keys("Ay<Esc>")
        shutil.rmtree(place.host.folder / "gone")
        neovim.command("let v:errmsg = ''")
        neovim.keys(":wqa\n")
        place.host.wait_written("other.txt", "othery\n")
        neovim.wait_told("gone/notes.txt is not written")
        neovim.wait("vim.v.errmsg ~= ''")  # an error drops keys that came before it
        neovim.wait_told("not written: gone/notes.txt")  # none is made before the user has heard that
        (place.host.folder / "gone").mkdir()
        neovim.ask("nvim_input", ":wqa<CR>")
        wait_until(lambda: neovim.process.poll() is not None, "Neovim does not end")
        expect_equal(place.host.read("gone/notes.txt"), "onex\n")


def check_leave_unwritten(folder):
    """Where :w fails and Neovim ends at once, what the host says of it is told, and its copy is there."""
    with Place(folder) as place:
        neovim = place.changed()
        neovim.wait_settled()
        place.host.write("notes.txt", "other text\n")
        neovim.ask("nvim_input", ":w|q<CR>")
        wait_until(lambda: neovim.process.poll() is not None, "Neovim does not end")
        told = (neovim.folder / "errors").read_text()
        expect("not written: notes.txt: another program changed it" in told and "notes.txt.sam-saved" in told, told)
        expect_equal((place.host.read("notes.txt"), place.host.read("notes.txt.sam-saved")), ("other text\n", "onex\n"))


def check_refused(folder):
    """Unknown hosts, folders, files that are no text, and wrong words are told, and no buffer can be edited for them."""
    with Place(folder) as place:
        neovim = place.neovim()
        for command, told in (
            ("no-such-program samhost notes.txt", "no-such-program"),
            ("true samhost notes.txt", "the host is gone"),
            ("echo hello", "usage"),
            (f"{place.host.command}", "usage"),
        ):
            neovim.command(f"silent! Sulgrevad {command}")
            error = neovim.lua("return vim.v.errmsg")
            expect(told in error + neovim.told, f"{command}: {error!r}, {neovim.told!r}")
        place.host.write("wrong.txt", "")
        (place.host.folder / "wrong.txt").write_bytes(b"\xff\xfe")
        (place.host.folder / "folder").mkdir()
        for name, told in (("wrong.txt", "UTF-8"), ("folder", "folder"), ("none/new.txt", "new.txt")):
            neovim.command(f"silent! Sulgrevad {place.host.command} {name}")
            expect(told in neovim.lua("return vim.v.errmsg"), f"{name}: {neovim.told!r}")
            expect(not neovim.lua("return vim.bo.modifiable"), f"{name} can be edited")
        (place.host.folder / "none").mkdir()
        neovim.command("edit")
        neovim.keys("ihello<Esc>")
        expect_equal(place.expect_same(neovim, "none/new.txt"), "hello\n")
        place.open(neovim, "new.txt")
        neovim.keys("ihello<Esc>")
        expect_equal(place.expect_same(neovim, "new.txt"), "hello\n")


def check_completion(folder):
    """Paths at the host are completed, also those with blanks and in folders; before samhost commands are."""
    with Place(folder) as place:
        (place.host.folder / "some folder").mkdir()
        for name in ("notes.txt", "notes two.txt", "some folder/inside.txt"):
            place.host.write(name, "")
        neovim = place.neovim()
        for typed, wanted in (
            ("no", ["notes two.txt", "notes.txt"]),
            ("notes t", ["two.txt"]),
            ("some", ["some folder/"]),
            ("some folder/in", ["folder/inside.txt"]),
            ("none", []),
        ):
            expect_equal((typed, neovim.lua(COMPLETE, f"Sulgrevad {place.host.command} {typed}")), (typed, wanted))
        expect("true" in neovim.lua(COMPLETE, "Sulgrevad tru"), "commands are not completed")


def check_takeover(folder):
    """A second Neovim takes a session over, with what was not written; the first is told, and keeps its text."""
    with Place(folder) as place:
        first = place.changed()
        first.wait_settled()
        second = place.neovim()
        second.command(f"Sulgrevad {place.host.command} --take")
        second.wait("vim.bo.modifiable and vim.bo.buftype == 'acwrite'")
        expect_equal((second.text, second.lua("return vim.bo.modified")), ("onex\n", True))
        first.wait_told("another terminal has taken the session over")
        first.keys("Ay<Esc>")
        expect_equal((first.text, first.lua("return vim.bo.modified")), ("onexy\n", True))
        first.command("silent! write")
        expect("not written" in first.lua("return vim.v.errmsg"), first.told)
        second.keys("Az<Esc>")
        expect_equal(place.expect_same(second, "notes.txt"), "onexz\n")
        first.command("edit!")
        expect_equal((first.text, first.lua("return vim.bo.modified"), len(place.host.sessions())), ("onexz\n", False, 2))


def check_takeover_back(folder):
    """A session that is taken back has buffers of its own, whose names are those of files: they are written, and read anew."""
    with Place(folder) as place:
        first = place.opened("notes.lua", "one\n")
        second = place.neovim()
        second.command(f"Sulgrevad {place.host.command} --take")
        first.wait_told("another terminal has taken the session over")
        first.keys("Ax<Esc>")
        old = first.lua("return vim.api.nvim_buf_get_name(0)")
        first.command(f"Sulgrevad {place.host.command} --take")
        first.wait(f"vim.api.nvim_buf_get_name(0) ~= {old!r} and vim.bo.modifiable and vim.bo.filetype", "lua")
        first.keys("Ay<Esc>")
        expect_equal(place.expect_same(first, "notes.lua"), "oney\n")
        place.host.write("notes.lua", "other\n")
        first.command("edit!")
        expect_equal((first.text, first.lua(f"vim.cmd('buffer ' .. {old!r}) return vim.api.nvim_get_current_line()")), ("other\n", "onex"))


def check_takeover_late(folder):
    """The files of a session that is taken over come also where the wait for them ends before, as by CTRL-C, or since the host is late."""
    with Place(folder, 1000) as place:
        first = place.changed()
        first.wait_settled()
        second = place.neovim()
        second.ask("nvim_input", f":Sulgrevad {place.host.command} --take<CR>")
        second.wait("next(require('sulgrevad').sessions) ~= nil")
        second.ask("nvim_input", "<C-c>")
        time.sleep(1)  # until it has ended the wait, and no call
        second.wait_told("the session's files come once the host answers")
        second.wait("vim.bo.modified and vim.api.nvim_get_current_line()", "onex")
        expect("no file is open" not in second.told, second.told)


def check_takeover_of_nothing(folder):
    """Where no file is open in a session that is taken over, the user hears so at once."""
    with Place(folder) as place:
        first = place.opened("notes.txt", "one\n")
        first.command("bdelete")
        first.wait_settled()
        second = place.neovim()
        start = time.monotonic()
        second.command(f"Sulgrevad {place.host.command} --take")
        second.wait_told("no file is open in the session")
        expect(time.monotonic() - start < 25, "it takes as long as for a host that says nothing")


def check_health(folder):
    """:checkhealth has the library and the session, and says what is missing."""
    with Place(folder) as place:
        neovim = place.opened("notes.txt", "one\n")
        neovim.command("checkhealth sulgrevad")
        shown = neovim.text
        expect("OK: library: " in shown and "the line is well" in shown and "ERROR" not in shown, shown)
        other = place.neovim("--cmd", "let g:sulgrevad_library = '/none.so'")
        other.command("checkhealth sulgrevad")
        expect("ERROR: the library is not there" in other.text, other.text)
        header = (ROOT / "include/sulgrevad.h").read_text()
        (folder / "other.h").write_text(header.replace("SAM_VERSION_MAJOR ", "SAM_VERSION_MAJOR 9"))
        other = place.neovim("--cmd", f"let g:sulgrevad_header = '{folder}/other.h'")
        other.command(f"silent! Sulgrevad {place.host.command} notes.txt")
        expect("is of another version than" in other.lua("return vim.v.errmsg"), other.told)


def check_help(folder):
    """:help has the page, and its tags are those of the page."""
    with Place(folder) as place:
        neovim = place.neovim()
        neovim.command("help sulgrevad")
        expect("sulgrevad.txt" in neovim.lua("return vim.fn.expand('%')"), "there is no page")
        for command in ("Sulgrevad", "SulgrevadRun", "SulgrevadKept", "SulgrevadReconnect"):
            neovim.command(f"help :{command}")
        copy = folder / "doc"
        shutil.copytree(PLUGIN / "doc", copy)
        neovim.command(f"helptags {str(copy).replace(' ', chr(92) + ' ')}")
        expect_equal((copy / "tags").read_text(), (PLUGIN / "doc/tags").read_text())
