"""Texts that Neovim keeps on this machine while the line is lost, and once the session or Neovim ends."""
import os
import signal
import time

from checks import GIVEN_UP, SAMHOST, expect, expect_equal, wait_until

from .lines import lost_and_edited
from .support import COMPLETE, Neovim, Place

SECONDS_UNKEPT = 10  # of what is typed while the line is lost


def check_copies(folder):
    """While the line is lost a changed text is soon kept here, also if Neovim is killed; once the host has all the copy goes. It comes
    again where an error ends the session."""
    with Place(folder, 10) as place:
        neovim = place.opened("notes.txt", "one\n")
        copy = neovim.folder / "notes.txt.sam-here"
        place.host.dead.touch()
        place.cut(neovim)
        neovim.keys("Ax<Esc>")
        wait_until(copy.exists, "there is no copy", SECONDS_UNKEPT)
        neovim.keys("Ay<Esc>")
        wait_until(lambda: copy.read_text() == "onexy\n", lambda: f"the copy has {copy.read_text()!r}", SECONDS_UNKEPT)
        place.host.dead.unlink()
        neovim.command("SulgrevadReconnect")
        neovim.wait_settled()
        wait_until(lambda: not [*neovim.folder.glob("*.sam-here*")], "the copy stays")
        neovim.command("SulgrevadRun ,p")
        neovim.lua(END)
        expect_equal(copy.read_text(), "onexy\n")


# Has an error end the session of the current buffer.
END = "require('sulgrevad').files[vim.api.nvim_get_current_buf()].session:end_here 'no memory'"


def check_copies_of_killed(folder):
    """Where Neovim was killed while the line was lost, the next one that shows the file says where its text is kept, and no other's."""
    with Place(folder, 10) as place:
        neovim = lost_and_edited(place)
        copy = neovim.folder / "notes.txt.sam-here"
        wait_until(copy.exists, "there is no copy", SECONDS_UNKEPT)
        neovim.close()
        place.host.dead.unlink()
        for name in ("notes.txt.sam-here.txt", "other.txt.sam-here"):
            (neovim.folder / name).write_text("other\n")
        second = Neovim(neovim.folder)
        place.neovims.append(second)
        second.ask("nvim_command", f"Sulgrevad {place.host.command} notes.txt")
        second.wait_told(f"a text of notes.txt was kept here: {copy}, of 2")
        expect_equal((second.told.count("kept here"), copy.read_text()), (1, "onex\n"))


def check_kept(folder):
    """:SulgrevadKept lists what is kept here and at the host, shows one text exactly beside the buffer, and drops one here if the user is
    sure."""
    text = "\ufeffonex\r\n\0\n"
    with Place(folder) as place:
        here, other = folder / "neovim0/notes.txt.sam-here", folder / "neovim0/other.txt.sam-here"
        saved = "sulgrevad://localhost/notes.txt.sam-saved"
        here.parent.mkdir()
        for path in (here, other):
            path.write_bytes(text.encode())
        for name in ("notes.txt.sam-saved", "notes.txt.sam-saved.txt"):
            place.host.write(name, "saved\n")
        place.host.write("notes.txt", "one\n")
        neovim = place.neovim()
        neovim.ask("nvim_command", f"Sulgrevad {place.host.command} notes.txt")
        neovim.wait_told(f"kept here: {here}")
        neovim.command("messages clear | SulgrevadKept")
        neovim.wait_told(f"sulgrevad: {here}, of 2")
        expect(f"{saved}, at the host" in neovim.told and neovim.told.count("\n") == 1, neovim.told)
        expect_equal(neovim.lua(COMPLETE, "SulgrevadKept sul"), [saved])
        for name, wanted in ((str(here), text), (saved, "saved\n")):
            neovim.command(f"SulgrevadKept {name}")
            expect_equal(neovim.lua(WINDOWS), [[name, True, True], ["sulgrevad://localhost/notes.txt", True, False]])
            neovim.command("%diffget")
            expect_equal(place.expect_same(neovim, "notes.txt"), wanted)
            neovim.command("diffoff! | only")
        for name in (str(other), saved):
            neovim.command(f"silent! SulgrevadKept! {name}")
            expect(neovim.lua("return vim.v.errmsg") != "", neovim.told)
        neovim.ask("nvim_ui_attach", 400, 10, {})  # else nobody is asked
        for answer, is_there in (("n", True), ("y", False)):
            neovim.ask("nvim_input", f":SulgrevadKept! {here}<CR>")
            wait_until(lambda: neovim.ask("nvim_get_mode")["blocking"], "nobody asks")
            neovim.keys(answer)
            expect_equal((answer, here.exists()), (answer, is_there))
        expect_equal((other.read_bytes().decode(), place.host.read("notes.txt.sam-saved")), (text, "saved\n"))


# Of each window the name of its text, whether it is compared, and whether it is only read.
WINDOWS = """
return vim.tbl_map(function(window)
  local buf = vim.api.nvim_win_get_buf(window)
  return { vim.api.nvim_buf_get_name(buf), vim.wo[window].diff, vim.bo[buf].readonly }
end, vim.api.nvim_list_wins())
"""


def check_copies_of_refused(folder):
    """A text that is too long for the host is kept here, also if Neovim is killed or the buffer closed, until it is short enough."""
    with Place(folder) as place:
        neovim = place.opened("notes.txt", "one\n")
        copy = neovim.folder / "notes.txt.sam-here"
        neovim.lua("vim.api.nvim_buf_set_lines(0, 0, 0, true, {('x'):rep(1000000)})")
        wait_until(lambda: copy.exists() and len(copy.read_text()) == 1_000_005, "there is no copy")
        neovim.keys("ggdd")
        neovim.wait_settled()
        wait_until(lambda: not copy.exists(), "the copy stays")
        neovim.keys("u")
        neovim.wait("vim.bo.modified", True)
        neovim.command("bdelete!")
        neovim.wait_told(f"the text of notes.txt is in {copy}")
        neovim.wait("next(select(2, next(require('sulgrevad').sessions)).files) == nil", True)
        time.sleep(1)  # two ticks of the clock
        expect_equal(len(copy.read_text()), 1_000_005)


def check_copies_of_refused_unloaded(folder):
    """A text that is too long for the host stays here where :e! shows the host's in its place, though the host has all then."""
    with Place(folder) as place:
        neovim = place.opened("notes.txt", "one\n")
        neovim.lua("vim.api.nvim_buf_set_lines(0, 0, 0, true, {('x'):rep(1000000)})")
        neovim.wait_told("is not at the host as it is here")
        neovim.keys(":edit!\n")
        neovim.wait("vim.api.nvim_get_current_line()", "one")
        copy = neovim.folder / "notes.txt.sam-here"
        neovim.wait_told(f"the text of notes.txt is in {copy}")
        time.sleep(1)  # two ticks of the clock
        expect_equal(len(copy.read_text()), 1_000_005)


def check_copies_of_closed(folder):
    """What is closed or unloaded while the line is lost, and isn't at the host, is kept here until it is, also when Neovim ends."""
    with Place(folder, 10) as place:
        neovim = lost_and_edited(place)
        copy = neovim.folder / "notes.txt.sam-here"
        neovim.command("set nohidden | write | enew")
        expect_equal(copy.read_text(), "onex\n")
        neovim.command("buffer notes.txt")
        neovim.keys("Ay<Esc>")
        neovim.command("write | bdelete")
        expect_equal(copy.read_text(), "onexy\n")
        place.host.dead.unlink()
        neovim.command("SulgrevadReconnect")
        place.host.wait_written("notes.txt", "onexy\n")
        wait_until(lambda: not [*neovim.folder.glob("*.sam-here*")], "the copy stays")
        place.open(neovim, "notes.txt")
        place.host.dead.touch()
        place.cut(neovim)
        neovim.wait("require('sulgrevad').status(0):find('LINE LOST') ~= nil")
        neovim.keys("Az<Esc>")
        neovim.command("write | bdelete")
        neovim.ask("nvim_input", ":qa<CR>")
        wait_until(lambda: neovim.process.poll() is not None, "Neovim does not end")
        expect_equal(copy.read_text(), "onexyz\n")
        expect(f"the text of notes.txt is in {copy}" in (neovim.folder / "errors").read_text(), "the copy is not told")


def check_copies_of_ended(folder):
    """What the host may not have once a session is over is kept here at once, and what is typed then a little later."""
    with Place(folder, 10) as place:
        neovim = lost_and_edited(place)
        neovim.lua(END)
        copy = neovim.folder / "notes.txt.sam-here"
        expect_equal(copy.read_text(), "onex\n")
        neovim.wait_told(f"the text of notes.txt is in {copy}")
        neovim.keys("Ay<Esc>")
        wait_until(lambda: copy.read_text() == "onexy\n", lambda: f"the copy has {copy.read_text()!r}")
        neovim.keys("Az<Esc>")
        neovim.ask("nvim_input", ":qa!<CR>")
        wait_until(lambda: neovim.process.poll() is not None, "Neovim does not end")
        expect_equal(([*neovim.folder.glob("*.sam-here*")], copy.read_text()), ([copy], "onexyz\n"))


def check_copies_of_failed(folder):
    """Where a host ends badly, what it had and has not written is kept here at once; a text that it has written is not."""
    with Place(folder, 10) as place:
        neovim = place.changed()
        place.expect_same(neovim, "notes.txt")
        place.host.write("other.txt", "")
        place.open(neovim, "other.txt")
        neovim.keys("iy<Esc>")
        neovim.wait_settled()
        neovim.lua(END_BADLY)
        expect_equal([(path.name, path.read_text()) for path in neovim.folder.glob("*.sam-here*")], [("other.txt.sam-here", "y\n")])
        expect_equal(neovim.lua("return {vim.bo.modified, vim.bo[vim.fn.bufnr 'notes.txt'].modified}"), [True, False])


# Has the host of the current buffer say that the session is over, with the status 1.
END_BADLY = """
local note = { kind = require("sulgrevad.library").C.SAM_NOTE_ENDED, number = 1 }
require("sulgrevad").files[vim.api.nvim_get_current_buf()].session:meet(note)
"""


# Has the plugin's clock go on by a part of a second. Whether the session of the current buffer is over.
LATER = """
(function()
  if not ahead then
    local now = vim.loop.hrtime
    ahead, vim.loop.hrtime = 0, function() return now() + ahead end
  end
  ahead = ahead + 2e8
  return require("sulgrevad").files[vim.api.nvim_get_current_buf()].session.over ~= nil
end)()
"""


def expect_kept(neovim, *told):
    """The session of a Neovim ends because the host says one of these again and again; what was not written is kept here, and told."""
    wait_until(lambda: any(words in neovim.told for words in told), lambda: f"none of {told} is told, but {neovim.told!r}")
    neovim.wait(LATER)
    copy = neovim.folder / "notes.txt.sam-here"
    neovim.wait_told(f"the text of notes.txt is in {copy}")
    expect_equal((copy.read_text(), neovim.lua("return vim.bo.modified")), ("onex\n", True))
    neovim.keys("Ay<Esc>")
    wait_until(lambda: copy.read_text() == "onexy\n", lambda: f"the copy has {copy.read_text()!r}")


def check_session_gone(folder):
    """Where the host finds the session no more, it is over here, and what was not written is kept."""
    with Place(folder) as place:
        neovim = place.changed()
        neovim.wait_settled()
        place.host.state.rename(folder / "elsewhere")  # one that is removed its samhost would make again
        place.host.kill()
        expect_kept(neovim, "no session is found", "the host has none of this id")  # samhost's words or its refusal, which comes first


def check_folder_gone(folder):
    """Where the folder is gone in which the session began at the host, what was not written is kept here at once. The session is over here
    soon; it can be taken up once the folder is back."""
    with Place(folder) as place:
        neovim = place.changed()
        neovim.wait_settled()
        (place.host.bin / "samhost").write_text(f"#!/bin/sh\nexec '{SAMHOST}' \"$@\"\n")
        place.host.folder.rename(folder / "away")
        place.host.kill()
        wait_until((neovim.folder / "notes.txt.sam-here").exists, "there is no copy")
        expect_kept(neovim, "can't go on")
        (folder / "away").rename(place.host.folder)
        neovim.command(f"Sulgrevad {place.host.command} --take")
        neovim.wait("vim.bo.modifiable and vim.api.nvim_get_current_line()", "onex")


def check_copies_behind_q(folder):
    """What is typed while a command line ends the session is kept here."""
    with Place(folder, 150) as place:
        neovim = place.changed()
        neovim.wait_settled()
        neovim.command("SulgrevadRun q")
        neovim.keys("Ay<Esc>")
        neovim.wait_told("the session is over")
        expect_equal(((neovim.folder / "notes.txt.sam-here").read_text(), neovim.lua("return vim.bo.modified")), ("onexy\n", True))


def check_left(folder):
    """Where Neovim ends while the line is dead, its text is kept here, and the session can be taken up with what the host has."""
    with Place(folder, 10) as place:
        neovim = lost_and_edited(place)
        neovim.ask("nvim_input", ":qa!<CR>")
        wait_until(lambda: neovim.process.poll() is not None, "Neovim does not end")
        expect_equal((neovim.folder / "notes.txt.sam-here").read_text(), "onex\n")
        place.host.dead.unlink()
        expect_equal(len(place.host.sessions()), 1)
        second = place.neovim()
        second.command(f"Sulgrevad {place.host.command} --take")
        second.wait("vim.bo.modifiable and vim.bo.buftype == 'acwrite'")
        expect_equal(second.text, "one\n")


def check_left_silent(folder):
    """Where the host has all, and says nothing as Neovim leaves, the user hears that the session may stay there."""
    with Place(folder, 10) as place:
        neovim = place.changed()
        neovim.wait_settled()
        process = place.line(neovim)
        os.kill(process, signal.SIGSTOP)
        neovim.ask("nvim_input", ":qa!<CR>")
        wait_until(lambda: neovim.process.poll() is not None, "Neovim does not end")
        os.kill(process, signal.SIGKILL)
        expect("the session may stay there" in (neovim.folder / "errors").read_text(), "nothing is told")


def check_signal(folder):
    """Where a signal ends Neovim, as when its terminal goes, the host has its text, or while the line is lost it is kept here."""
    with Place(folder, 10) as place:
        neovim = place.opened("notes.txt", "one\n")
        neovim.lua("vim.api.nvim_input('Ax<Esc>d')")  # amid an operator
        neovim.wait("vim.fn.mode(1)", "no")
        neovim.process.send_signal(signal.SIGHUP)
        wait_until(lambda: neovim.process.poll() is not None, "Neovim does not end")
        place.host.wait_written("notes.txt.sam-saved", "onex\n")
        neovim = lost_and_edited(place)
        neovim.process.send_signal(signal.SIGTERM)
        wait_until(lambda: neovim.process.poll() is not None, "Neovim does not end")
        expect_equal((neovim.folder / "notes.txt.sam-here").read_text(), "onex\n")


def check_shown(folder):
    """samhost --open --wait has Neovim show a file, at its line, and waits until :bd; what the window can't leave stays, and it is told."""
    with Place(folder) as place:
        neovim = place.opened("notes.txt", "one\n")
        place.host.write("other.txt", "1\n2\n3\n")
        with place.host.opening("other.txt", "+2") as waiting:
            neovim.wait("vim.api.nvim_buf_get_name(0):find('other.txt') ~= nil and vim.api.nvim_win_get_cursor(0)[1]", 2)
            expect_equal(neovim.text, "1\n2\n3\n")
            neovim.keys("Ax<Esc>")
            place.expect_same(neovim, "other.txt")
            expect(waiting.poll() is None, "it does not wait")
            neovim.command("bdelete")
            expect_equal(waiting.wait(GIVEN_UP), 0)
        neovim.command("enew | set nohidden")
        neovim.keys("ihere<Esc>")
        waiting = place.host.opening("other.txt")
        neovim.wait_told("another program wants buffer")
        expect_equal(neovim.text, "here\n")
        neovim.command("buffer! other.txt | bdelete")
        expect_equal(waiting.wait(GIVEN_UP), 0)


def check_shown_unloaded(folder):
    """A file whose buffer was unloaded is shown for another program at once."""
    with Place(folder) as place:
        neovim = place.opened("notes.txt", "one\n")
        neovim.command("enew | set hidden | bunload notes.txt")
        place.host.opening("notes.txt")  # which ends with the session
        neovim.wait("vim.api.nvim_buf_get_name(0):find('notes.txt') ~= nil and vim.api.nvim_get_current_line()", "one")
        expect("once the host answers" not in neovim.told, neovim.told)
