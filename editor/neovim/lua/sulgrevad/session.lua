-- A session with a host: the library's client, the connections that carry its bytes, and the files, each with its buffer. The client
-- decides what waits, what is sent and loaded, and when to connect; here stands what Neovim shows of it.
local ffi = require "ffi"
local api, uv = vim.api, vim.loop
local copies = require "sulgrevad.copies"
local files = require "sulgrevad.file"
local library = require "sulgrevad.library"
local lines = require "sulgrevad.line"
local text = require "sulgrevad.text"
local C, bytes, size, truth, now = library.C, library.bytes, library.size, library.truth, lines.now

local M, Session = {}, {}
Session.__index = Session

local VERSION, MESSAGES = 2, 1 -- of the core protocol, and of the session's messages
local MOST_RUNES = library.number.SAM_MOST_RUNES -- of a text
local TICK = 500 -- milliseconds after which the clock is looked at again
local PAUSE = 20 -- between copies that are kept, by the time that these took
local SECONDS_TO_LEAVE = 10 -- for which the end of Neovim waits for a host that answers
local NAME = "^%x%x%x%x%x%x%x%x%x%x%x%x%x%x%x%x$" -- of a session: it becomes a word of a command
local GAP = 0xFFFFFFFF -- SAM_GAP: a rune that is not loaded
local ENDED = "the session is over"

local is_leaving = false -- Neovim ends
local unsaid = {} -- words that are still to be shown, with their highlights

-- Whether Neovim ends once a write is done, as by :wq and :wqa, or nil where that is not known. No option or event says so.
function M.is_exiting()
  pcall(ffi.cdef, "bool exiting;")
  local is_known, is = pcall(function() return ffi.C.exiting end)
  if is_known then return is end
end

-- Says words that stay when Neovim has ended: if it has a screen of its own, on the one before, whose cursor is kept behind them.
function M.say_last(words)
  io.stderr:write((uv.guess_handle(2) == "tty" and "\27[?1049lsulgrevad: %s\r\n\27[?1049h" or "sulgrevad: %s\n"):format(words))
end

M.interrupts = 0 -- CTRL-Cs that came while the plugin worked

-- The mode in full. A CTRL-C makes the next function of Neovim fail, whichever that is, so first comes one that does nothing.
local function mode_now()
  if not pcall(vim.fn.mode) then M.interrupts = M.interrupts + 1 end
  return vim.fn.mode(1)
end

-- Whether the user is in Normal mode, and not amid an operator or one command of Insert mode.
local function is_normal() return mode_now():find "^nt?$" end

-- Shows words for people, in Normal mode: in Insert mode short ones would go at once, and long ones take the user's next key. Neovim would
-- end them at U+0000. `heard` is called then, if it is given.
function M.say(words, highlight, heard)
  if is_leaving then return highlight == "ErrorMsg" and M.say_last(words) end
  table.insert(unsaid, { words, highlight, heard })
  local function show()
    if not is_normal() or M.is_exiting() then return vim.defer_fn(show, TICK) end
    local said = table.remove(unsaid, 1)
    api.nvim_echo({ { "sulgrevad: " .. said[1]:gsub("%z", "^@"), said[2] } }, true, {})
    if said[3] then said[3]() end
  end
  vim.schedule(show)
end

-- Begins a session: `command` runs samhost; `takes` is the name of another terminal's session, perhaps empty, or nil.
function M.begin(label, command, takes)
  local session = setmetatable({
    label = label, command = command, say = M.say, files = {}, copies = {}, keeps_from = 0, is_lost = false,
    answers = {}, -- by the numbers of tasks: what is called with the host's answer, or with nil where none comes
    runs = {}, -- by the numbers of requests: command lines
    waiting = {}, -- what is done once the client rests and a condition holds
  }, Session)
  session.line = lines.new(session, command, takes)
  session:ask(C.SAM_EVENT_OFFER_VERSION)
  session.timer = uv.new_timer()
  session.timer:start(TICK, TICK, vim.schedule_wrap(function() session:tick() end))
  session:go_on()
  return session
end

--## The client

-- Make a call of the client by its name without `sam_client_`.
function Session:try(name, ...) return library.try("client_" .. name, self.line.client, ...) end
function Session:must(name, ...) library.must("client_" .. name, self.line.client, ...) end

function Session:state()
  self:must("state", library.state)
  return library.state
end

function Session:file_state(tag)
  self:must("file", tag, library.file)
  return library.file
end

-- Asks for what is no edit (SAM_EVENT_..), behind the edits that were told. Returns the number of the request.
function Session:ask(kind, tag, start, number, words)
  local event = library.event
  event.kind, event.tag, event.start, event.number, event.version = kind, tag or 0, start or 0, number or 0, VERSION
  self:must("ask", event, words or "", #(words or ""), library.count)
  self.is_idle = false
  return tonumber(library.count[0])
end

-- Asks the host's program (SAM_NOTE_..). `answer` is called with its answer.
function Session:request(kind, tag, path, answer)
  self:must("begin", kind, tag, path, #path, now(), library.place)
  self.answers[library.place[0]] = answer
  self:go_on()
end

-- Has what a task waits for be done with its answer, or nil.
function Session:answer(task, note)
  local answer = self.answers[task]
  self.answers[task] = nil
  if answer then answer(note) end
end

-- Goes on with all that waits, as soon as Neovim is idle.
function Session:wake()
  if not self.is_awake then vim.schedule(function() self:go_on() end) end
  self.is_awake = true
end

-- Insert mode begins at a block: as it ends, what was typed goes into the block's lines by their numbers.
local is_in_block = false
api.nvim_create_autocmd("ModeChanged", { callback = function()
  is_in_block = vim.v.event.new_mode:find "^i" and (is_in_block or vim.v.event.old_mode:find "^[\19\22]")
end })

-- Whether buffers can get what the host changed: not while Neovim keeps numbers of lines for what the user has begun, be it a block, an
-- operator, a completion, or a command line, but the one in which the host's paths are completed; and not where it lets no text change, as
-- while a mapping with <expr> waits for a key, which no function says.
local function is_ready()
  local _, why = pcall(api.nvim_win_close, -1, true)
  local mode, line = mode_now(), vim.fn.getcmdtype() .. vim.fn.getcmdline()
  local keeps_numbers = is_in_block or mode:find "^no" or mode:find "^[iR]v?c" or line ~= "" and not line:find "^:[:%s]*Sulgrevad"
  return is_leaving or not keeps_numbers and not why:find "E523" and not why:find "E565"
end

-- Goes on with all that waits. An error ends the session here, and the buffers keep their texts; a CTRL-C is none.
function Session:go_on()
  self.is_awake = false
  if self.over or self.is_going then return end
  if not is_ready() then return self.line:push() end
  self.is_going = true
  local is_right, why = files.whole(function()
    self.line:tick()
    while not self.over and self:advance() do end
    if self.over then return end
    self.line:push()
    self:tell_line()
  end)
  self.is_going = false
  if not is_right then self:end_here(why) end
end

-- Has the client go on by one thing, and takes steps and refusals. Returns what it has told (SAM_CLIENT_..), or nil where memory is short.
function Session:next_event()
  local status, did = self:try("next_event", now(), library.told, library.did), library.did
  local told = status == 0 and tonumber(library.told[0]) or nil
  self.is_idle = told == C.SAM_CLIENT_IDLE
  if told == C.SAM_CLIENT_STEPPED then
    self:take_step(did)
  elseif told == C.SAM_CLIENT_RAN then
    self:end_run(tonumber(did.request), did.start, did.came)
  elseif told == C.SAM_CLIENT_REFUSED then
    self.runs[tonumber(did.request)] = nil
    M.say(library.words(did.why), "ErrorMsg")
    self:answer(did.task)
  elseif status ~= 0 and status ~= C.SAM_UNFINISHED then
    error(library.words(status))
  end
  return told
end

-- Has the client put the edit that was told, if it can, so that few wait. Nothing of the host is left to be taken, so no text changes.
function Session:put_edit()
  if not self.is_idle then return end
  repeat
    local told = self:next_event()
  until told ~= C.SAM_CLIENT_BUSY and told ~= C.SAM_CLIENT_STEPPED and told ~= C.SAM_CLIENT_REFUSED
end

-- Tells the client what the user changed, and takes one thing that it tells. Returns whether there may be more.
function Session:advance()
  for _, file in pairs(self.files) do
    if file:is_touched() then file:tell() end
  end
  local told, task = self:next_event(), library.did.task
  if told == C.SAM_CLIENT_STEPPED then return true end
  for _, file in pairs(self.files) do file:settle() end
  if told == C.SAM_CLIENT_IDLE then return self:rest() end
  if told == C.SAM_CLIENT_ANSWERED then self:answer(task, self:read_note()) end
  if told == C.SAM_CLIENT_NOTE then self:meet(self:read_note()) end
  return told ~= nil -- else it goes on with the next tick
end

-- Takes a step with its splices. Where the client lacks what the user did with a text that the host changes, the user chooses between the
-- two. The dot of a line's file is the line's own only until the next one begins.
function Session:take_step(did)
  local splice, request = library.splice, tonumber(did.request)
  while self:try("next_splice", splice) == 0 do
    local file = self.files[splice.tag]
    if file and splice.kind ~= C.SAM_SPLICE_EMPTIED then file[file.refusal and "is_apart" or "is_behind"] = true end
  end
  self.running = self.runs[request] or self.running
  if did.step == C.SAM_STEP_RECEIVED and did.kind == C.SAM_KIND_HUNLOCK then
    for _, file in pairs(self.files) do file:settle() end -- the next line's changes are a step of undo of their own
    if self.running then self.running.dot = self:file_state(self.running.file.tag).dot_start end
    self.running = nil
  end
end

-- The shown text of a file from a place on, without what is not loaded; and a list of these holes, each with a `place` and a `count`.
function Session:shown(tag, from)
  local parts, holes, place, count = {}, {}, from or 0, library.place
  repeat
    self:must("text", tag, place, bytes, library.MOST_BYTES, size, count)
    local found, gap = count[0], 0
    parts[#parts + 1], place = ffi.string(bytes, size[0]), place + found
    if found == 0 then
      self:must("read", tag, place, library.cells, library.MOST_CELLS, count)
      while gap < count[0] and library.cells[gap] == GAP do gap = gap + 1 end
      if gap > 0 then holes[#holes + 1] = { place = place, count = gap } end
      place = place + gap
    end
  until found + gap == 0
  return table.concat(parts), holes
end

-- Whether a file is open and loaded. As long as the answer that opens it locks it, its text may be still to come.
function Session:is_here(tag)
  local state = self:file_state(tag)
  return state.is_open and not state.is_locked and self:try("first_gap", tag, 0, library.place) ~= 0
end

-- Whether the host has all that was done here, has done it, and may keep it: a session that can't go on may be there no more.
function Session:has_all()
  if self.line.is_stuck or next(self.answers) or self:state().command_locked then return false end
  for tag, file in pairs(self.files) do
    if file:is_touched() or file.is_reloading or self:file_state(tag).is_locked then return false end
  end
  self:must("has_all", truth)
  return truth[0]
end

--## The line

-- Says that the line was lost, or is back, and has the statusline say how it is.
function Session:tell_line()
  local is_broken, words = self.line:is_broken(), self.line:words()
  if is_broken ~= self.is_lost then
    M.say(self.label .. (is_broken and ": the line is lost; edits go on here" or ": the line is back"), is_broken and "WarningMsg" or nil)
  end
  if words ~= self.shown_words then vim.cmd "redrawstatus!" end
  self.is_lost, self.shown_words = is_broken, words
end

--## What samhost says

-- The fields of the message that came, or nil where it is of a later version.
function Session:read_note()
  local note = library.note
  self:must("note", bytes, library.MOST_BYTES, size)
  local status = library.try("note_read", bytes, size[0], note)
  if status == C.SAM_NOTE_BAD_KIND then return nil end
  if status ~= 0 then error(library.words(status)) end
  local function part(at, length) return ffi.string(bytes + at, length) end
  return {
    kind = note.kind, code = note.code, tag = note.tag, number = tonumber(note.number),
    path = part(note.path_at, note.path_len), text = part(note.text_at, note.text_len),
  }
end

-- Does what a message says that answers nothing. Where nothing is to be done its words are shown.
function Session:meet(note)
  if not note then return end
  if note.kind == C.SAM_NOTE_SESSION then
    if note.number ~= MESSAGES or not note.path:find(NAME) then return self:end_here "samhost there is of another version" end
    self.line.name, self.is_named = note.path, true
  elseif note.kind == C.SAM_NOTE_ENDED then
    self:must "acknowledge" -- so that the host need not wait
    self.line:push()
    self.has_failed = note.number ~= 0
    self:end_here(ENDED, true)
  elseif note.kind == C.SAM_NOTE_TAKEN_OVER then
    self:end_here("another terminal has taken the session over: " .. note.text)
  elseif note.kind == C.SAM_NOTE_SHOWN then
    self:ask(C.SAM_EVENT_OFFER_VERSION)
    self:once(function() return self:file_state(note.tag).is_known end, function() self:show_file(note.tag, note.number) end)
  elseif note.text ~= "" then
    local is_error = note.kind == C.SAM_NOTE_LOST or note.kind == C.SAM_NOTE_NOT_SAVED
    M.say(note.text, is_error and "ErrorMsg" or nil)
  end
end

--## Files

-- Does something once the client rests and a condition holds.
function Session:once(holds, act) table.insert(self.waiting, { holds = holds, act = act }) end

-- The client does nothing by itself. Returns whether it may have something to do again.
function Session:rest()
  local waiting, has_acted = self.waiting, false
  for tag, file in pairs(self.files) do
    if (file.same or self:is_here(tag)) and self:attend(file) then has_acted = true end
  end
  self.waiting = {}
  for _, one in ipairs(waiting) do
    local holds = one.holds()
    if holds then one.act() else table.insert(self.waiting, one) end
    has_acted = has_acted or holds
  end
  return has_acted
end

-- Goes on with a file that is open, and was loaded. Returns whether it has something to tell.
function Session:attend(file)
  if file.is_closing or not api.nvim_buf_is_loaded(file.buf) then return false end
  if not file.is_filled then file:fill() end
  local name = self:name(file.tag)
  if name ~= (file.known_as or name) then file:rename(name) end -- by the command line `f`: it is written there from now on
  file.known_as = name
  self:must("is_unsaved", file.tag, truth)
  local is_modified = truth[0] or file.writing ~= nil or file.refusal ~= nil
  if vim.bo[file.buf].modified ~= is_modified then vim.bo[file.buf].modified = is_modified end
  if not file.is_refused_for_now or file:has_more() then return false end
  file.is_refused_for_now, file.tick = false, nil -- what was refused while the file was locked is told again
  return true
end

-- Has a buffer show the file at a path, which is returned. Once the host has said what becomes of it, it has a tag, a refusal or a twin,
-- and `answered` is called.
function Session:open(path, buf, answered)
  local file = files.new(self, path, buf)
  local function ask()
    self:request(C.SAM_NOTE_OPEN, 0, path, function(note)
      local other = self.files[note.tag]
      if note.kind ~= C.SAM_NOTE_OPENED then
        file.refusal = note.code == C.SAM_NOTE_IS_FOLDER and "it is a folder" or note.text
      elseif other and other.is_closing then -- again, once it is closed
        return self:once(function() return not self.files[note.tag] end, ask)
      elseif other then
        file.twin = other.buf
      else
        self:open_tag(note.tag, file)
        if file.is_closing then self:once(function() return self:file_state(note.tag).is_known end, function() self:close(file) end) end
      end
      vim.schedule(function() answered(file) end)
    end)
  end
  ask()
  return file
end

-- Opens a file of the session, which perhaps has joined just now, and has all of it be loaded. `file` shows it, if that is given.
function Session:open_tag(tag, file)
  if file then
    file.tag, self.files[tag] = tag, file
    self:tell_left(file)
  end
  self:ask(C.SAM_EVENT_OFFER_VERSION)
  self:ask(C.SAM_EVENT_OPEN, tag)
  self:must("see", tag, 0, MOST_RUNES)
end

-- Asks that a file be closed for good.
function Session:close_tag(tag)
  self:must("forget", tag)
  self:ask(C.SAM_EVENT_CLOSE, tag)
end

-- The host's name of a file: its path, or the end of it.
function Session:name(tag)
  self:must("name", tag, bytes, library.MOST_BYTES, size)
  return ffi.string(bytes, size[0])
end

-- Shows a file of the session whose name is known, at a line, where that is not 0.
function Session:show_file(tag, line)
  if not self.files[tag] then self:open_tag(tag, require("sulgrevad").new_file(self, self:name(tag))) end
  local file = self.files[tag]
  if line > 0 then self:once(function() return file.is_filled end, function() file:go_to(line - 1, 0) end) end
  vim.schedule(function() -- since one that was unloaded waits for the host
    if is_normal() and pcall(api.nvim_set_current_buf, file.buf) then return end
    M.say(("another program wants buffer %d shown"):format(file.buf))
  end)
end

-- Shows all files that a session has which was taken over, once the host has named them, the first one last: it has none that terminals
-- keep for themselves.
function Session:show_all()
  self:once(function() return self.is_named and not self:state().command_locked and self:state().version > 1 end, function()
    for tag = tonumber(self:state().tags) - 1, 1, -1 do
      if self:file_state(tag).is_known then self:show_file(tag, 0) end
    end
    self.are_shown = true
  end)
  self:go_on()
end

-- The text of a buffer is about to go: the client is told of it, and what the host may not have is kept here. What the client refuses never
-- comes to it, so that stays.
function Session:unload(file)
  if not file.is_filled then return end
  if file:is_touched() and not self.over then file:tell() end
  if self.over or file.refusal or not self:has_all() then self:keep_copy(file) end
  local words = file.refusal and not self.over and self:words_of_copy(file)
  if not words then return end
  M.say(words, "WarningMsg")
  self.copies[file.tag] = nil
end

-- Closes a file for good, also one that is still to come, once its writes are answered. The host keeps a copy of what was not written.
function Session:close(file)
  file.is_closing, file.is_filled = true, false
  if self.over or not file.tag then return end
  self:once(function() return not file.writing end, function()
    self:close_tag(file.tag)
    self:once(function() return not self:file_state(file.tag).is_known end, function() self.files[file.tag] = nil end)
  end)
  self:go_on()
end

-- Has the host write a file. What became of it shows in `writing`, and in whether the file is unsaved. The write behind one that is refused
-- replaces another program's text. So while one is not answered the next one waits, and none is made that comes before the user hears why.
function Session:write(file)
  local options = vim.bo[file.buf]
  if options.fileformat ~= "unix" then error("sulgrevad: not written: a carriage return is a character here: :set fileformat=unix", 0) end
  if options.fixendofline and not options.binary and not options.endofline then options.endofline = true end
  file:tell() -- also of changes that no event has told
  if file.refusal then error(("sulgrevad: %s is not written: %s"):format(file.path, file.refusal), 0) end
  if file.unheard then
    vim.schedule(function() file.unheard = nil end) -- behind all keys that were typed before this error showed
    error("sulgrevad: " .. file.unheard, 0)
  end
  if file.writing then file.is_next = true else self:ask_write(file) end
  self:go_on()
end

function Session:ask_write(file)
  self:must("write", file.tag, library.place)
  file.writing = true
  self.answers[library.place[0]] = function(note)
    local is_next = file.is_next
    file.writing, file.is_next = nil, nil
    if note and note.kind == C.SAM_NOTE_SAVED then
      local is_plain = note.code == C.SAM_NOTE_NO_CODE
      M.say(is_plain and ("%s: %s is written"):format(self.label, file.path) or note.text, not is_plain and "ErrorMsg" or nil)
      if is_next and not file.refusal then self:ask_write(file) end
    elseif note then
      file.unheard = note.text
      M.say(note.text, "ErrorMsg", function() file.unheard = nil end)
    end
  end
end

-- Has the host read a file anew from its disk, as a hidden file. Its text takes the place of the buffer's; undo takes that back. What was
-- typed since the user was left to wait for it stays.
function Session:reload(file)
  file.is_reloading, file.left_at = true, nil
  local function is_free() return file:is_free() or not file.is_filled end
  local function finish(anew, why)
    if why then M.say(("%s is not read anew: %s"):format(file.path, why), "ErrorMsg") end
    if anew then self:close_tag(anew) end
    self:once(is_free, function() file.is_reloading = false end)
  end
  local function accept(anew)
    if not file.is_filled then return finish(anew) end
    local note = ffi.new("sam_note", { kind = C.SAM_NOTE_RELOADED, tag = file.tag, number = anew })
    library.must("note_write", note, "", "", "", bytes, library.MOST_BYTES, size)
    self:must("put_note", bytes, size[0], now())
    self:ask(C.SAM_EVENT_WRITE, file.tag)
    finish(anew)
  end
  self:request(C.SAM_NOTE_RELOAD, file.tag, "", function(note)
    if note.kind ~= C.SAM_NOTE_ANEW then return finish(nil, note.text) end
    self:open_tag(note.number)
    self:once(function() return self:is_here(note.number) and is_free() end, function()
      local left_at = file.is_filled and file.left_at
      if left_at and left_at ~= api.nvim_buf_get_changedtick(file.buf) then return finish(note.number, "it has changed here meanwhile") end
      if file.is_filled then file:become((self:shown(note.number))) end
      self:once(is_free, function() accept(note.number) end) -- the client has put it
    end)
  end)
end

--## Command lines

-- Runs a command line of sam on a file, from one row and column up to another, where that is given.
function Session:run(file, line, from, to)
  file:tell()
  if file.refusal then error(("sulgrevad: not run: %s: %s"):format(file.path, file.refusal), 0) end
  local start = file:place_of(unpack(from))
  self:ask(C.SAM_EVENT_SELECT, file.tag, start, to and file:place_of(unpack(to)) or start)
  self:must("run", file.tag, line, #line, library.count)
  self.runs[tonumber(library.count[0])] = { file = file, window = api.nvim_get_current_win(), tick = api.nvim_buf_get_changedtick(file.buf) }
  self:go_on()
end

-- A line is answered: so many runes that it printed stand at a place of the command file. If it was an address alone, its window goes
-- there.
function Session:end_run(request, place, count)
  local run = self.runs[request]
  self.runs[request] = nil
  if count > 0 then
    local printed = self:shown(0, place)
    return M.say((printed:sub(1, text.size(printed, count)):gsub("\n$", "")))
  end
  if not run or not run.dot then return end
  local file = run.file
  if not file.is_filled or run.tick ~= api.nvim_buf_get_changedtick(file.buf) then return end
  local row, column = text.spot(text.line_ends(file.same), text.size(file.same, run.dot))
  file:go_to(row, column, run.window)
end

--## What the host may not have

-- Keeps here the text of a file that is modified, or is being written, if it has changed since it was kept.
function Session:keep_copy(file)
  local tick, is_loaded = api.nvim_buf_get_changedtick(file.buf), api.nvim_buf_is_loaded(file.buf)
  if file.kept == tick or not (vim.bo[file.buf].modified or file.writing) then return end
  if not is_loaded and (file.refusal or not file.is_exact) then return end -- a signal ends Neovim, and the client has not all
  local copy = copies.keep(self.line.folder, file.path, is_loaded and file:text() or file.same, self.copies[file.tag] or nil)
  file.kept, self.copies[file.tag] = copy and tick, copy or self.copies[file.tag] or false
end

-- Words about the copy of a file, or nil.
function Session:words_of_copy(file)
  local copy = self.copies[file.tag]
  if copy == false then return "no file can be written here for " .. file.path end
  return copy and ("the text of %s is in %s"):format(file.path, copy)
end

-- Where texts of a file are kept here, by their paths, and when each was written, but for those that this session renews and removes.
function Session:left(file)
  local left = copies.left(self.line.folder, file.path)
  for _, copy in pairs(self.over and {} or self.copies) do left[copy] = nil end
  return left
end

-- Says where earlier sessions have kept texts of a file: the host may lack what these have.
function Session:tell_left(file)
  for copy, written in pairs(self:left(file)) do
    local words = "a text of %s was kept here: %s, of %s; :SulgrevadKept compares or drops it"
    M.say(words:format(file.path, copy, os.date("%F %T", written)), "WarningMsg")
  end
end

-- Keeps here the texts that are modified, if `is_lost`, or else those that the client refuses. Returns words about each copy.
function Session:keep_copies(is_lost)
  local words = {}
  for _, file in pairs(self.files) do
    if file.is_filled and (is_lost or file.refusal) then self:keep_copy(file) end
    words[#words + 1] = self:words_of_copy(file)
  end
  return words
end

-- The copies go, if the host has all, but those of texts that the client refuses. Returns whether it has.
function Session:drop_copies()
  if not self:has_all() then return false end
  for tag, copy in pairs(self.copies) do
    local file = self.files[tag]
    if not (file and file.refusal) then
      if copy then uv.fs_unlink(copy) end
      self.copies[tag] = nil
      if file then file.kept = nil end
    end
  end
  return true
end

-- The clock has gone on. While the line is lost or late, or the session is over, copies are kept, so that they are there if Neovim is
-- killed: of a long text, or to a slow disk, less often.
function Session:tick()
  self:go_on()
  local is_lost, start = self.over or not self:drop_copies() and self.line:is_late(), now()
  if start < self.keeps_from then return end
  self:keep_copies(is_lost)
  self.keeps_from = now() + PAUSE * (now() - start)
end

--## The end

-- The session is over here, with `is_gentle` once the last bytes have arrived. The buffers keep their texts, and what the host may not have
-- of them, or may not keep, is kept.
function Session:end_here(why, is_gentle)
  if self.over then return end
  self.line:drop(is_gentle)
  local has_all = self:has_all() and not self.has_failed
  self.over = why
  if not next(self.files) then self.timer:close() end
  for tag, file in pairs(self.files) do
    self:must("is_unsaved", tag, truth)
    if file.is_filled and not has_all and (truth[0] or file.writing) then vim.bo[file.buf].modified = true end
    if file.is_filled and has_all and not file.refusal then file.kept = api.nvim_buf_get_changedtick(file.buf) end
    file.writing = nil
  end
  if is_leaving then return end
  M.say(self.label .. ": " .. why, "WarningMsg")
  for _, words in ipairs(self:keep_copies(true)) do M.say(words, "WarningMsg") end
  vim.cmd "redrawstatus!"
end

-- Ends the session once the host has all. If it does not answer, the session stays there, and what it may not have is kept here.
function Session:leave()
  is_leaving = true
  while #unsaid > 0 do M.say(unpack(table.remove(unsaid, 1))) end
  local was_over, has_all = self.over, false
  if not was_over then
    self:go_on()
    vim.wait(1000 * SECONDS_TO_LEAVE, function() return self.over or self.line:is_late() or self:has_all() end, 10)
    has_all = not self.over and self:drop_copies()
  end
  if has_all then
    self:ask(C.SAM_EVENT_EXIT)
    self:go_on()
    vim.wait(1000 * SECONDS_TO_LEAVE, function() return self.over or self.line:is_broken() end, 10)
  end
  if not was_over and self.over ~= ENDED then
    self:end_here "the host does not answer"
    local words = "%s: %s; the session may stay there: :Sulgrevad %s --take %s"
    M.say_last(words:format(self.label, self.over, self.command, self.line.name))
  end
  for _, words in ipairs(self:keep_copies(not has_all or self.has_failed)) do M.say_last(words) end
end

return M
