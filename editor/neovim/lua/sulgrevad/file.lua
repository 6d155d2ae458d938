-- A file of a session, and its buffer, which has the text that the client shows: what the user changed is told to the client before it goes
-- on, and then the buffer gets what the host changed. Places count runes. Of a text that ends in a newline the option 'endofline' is set,
-- else not; an empty text is the buffer that has no line at all.
--
-- What the client has not loaded is left out of the buffer. `holes` has these parts, ascending: a `place` in the shown text, and a `count`.
-- The host makes one where a command line puts in more than it tells at once.
local ffi = require "ffi"
local api = vim.api
local library = require "sulgrevad.library"
local text = require "sulgrevad.text"
local C = library.C

local M, File = {}, {}
File.__index = File

local MOST_NOTED = 100 -- changes that are told one by one, until the client goes on
local MOST_APART = 10000 -- differences that stay apart while the file is locked, which costs the client 0.1 seconds
local APART = "the host has changed it meanwhile; :w NAME keeps this text here, :e! shows the host's"
local space = api.nvim_create_namespace "sulgrevad"

-- A file at a path of a session's host, which is to be shown in a buffer. That can't be edited until the text is there.
function M.new(session, path, buf)
  local options = vim.bo[buf]
  if options.fileformat ~= "unix" then options.fileformat = "unix" end -- a carriage return is a character of the text
  options.buftype, options.swapfile, options.modifiable = "acwrite", false, false -- the host has the text, or a copy that is kept here
  return setmetatable({ session = session, path = path, buf = buf, name = api.nvim_buf_get_name(buf), holes = {} }, File)
end

-- Calls `act`, and again where a CTRL-C breaks it off: by that the next function of Neovim fails, whichever it is. Returns whether it is
-- right, and else why not.
function M.whole(act)
  local is_right, why
  repeat
    is_right, why = xpcall(act, function(why) return tostring(why) .. (vim.o.verbose > 0 and debug.traceback() or "") end)
  until is_right or not why:find "Keyboard interrupt"
  return is_right, why
end

-- Gives the file another path, and its buffer the name of that, if no other buffer has it.
function File:rename(path)
  self.path, self.name = path, ("sulgrevad://%s/%s"):format(self.session.label, path)
  if not pcall(api.nvim_buf_set_name, self.buf, self.name) then self.name = api.nvim_buf_get_name(self.buf) end
end

--## The two texts

function File:line(row) return api.nvim_buf_get_lines(self.buf, row, row + 1, true)[1] end

-- Whether the buffer has no line at all, for which Neovim shows one that is empty.
function File:is_empty()
  if api.nvim_buf_line_count(self.buf) > 1 or self:line(0) ~= "" then return false end
  return api.nvim_buf_call(self.buf, function() return vim.fn.wordcount().bytes == 0 end)
end

-- The text of the buffer, or of its lines from `first` up to `last`, counted from 0.
function File:text(first, last)
  if self:is_empty() then return "" end
  local count = api.nvim_buf_line_count(self.buf)
  local lines = api.nvim_buf_get_lines(self.buf, first or 0, last or -1, false)
  if last and last < count or vim.bo[self.buf].endofline then lines[#lines + 1] = "" end
  return table.concat(lines, "\n")
end

-- The number of bytes before a row, or behind the last one of all. Neovim may not know it (-1).
function File:offset(row)
  if row < api.nvim_buf_line_count(self.buf) then return row > 0 and api.nvim_buf_get_offset(self.buf, row) or 0 end
  return self:is_empty() and 0 or self:offset(row - 1) + #self:line(row - 1) + (vim.bo[self.buf].endofline and 1 or 0)
end

-- The place in the shown text of a place in the buffer, before a hole that is there, or if `is_behind`, behind it.
function File:shown_place(place, is_behind)
  for _, hole in ipairs(self.holes) do
    if hole.place < place or is_behind and hole.place == place then place = place + hole.count end
  end
  return place
end

-- The place in the shown text of a row and a column.
function File:place_of(row, column)
  return self:shown_place(text.runes(self:text(0, row)) + text.runes(self:text(row, row + 1):sub(1, column)))
end

-- Has a window, or all of them that show the file, go to a row and a column.
function File:go_to(row, column, window)
  for _, one in ipairs(vim.fn.win_findbuf(self.buf)) do
    if one == (window or one) then
      api.nvim_win_set_cursor(one, { math.min(row + 1, api.nvim_buf_line_count(self.buf)), column })
    end
  end
end

--## What the user does

-- Notes that what was told is what the buffer has now, or all of it that the client takes.
function File:agree() self.tick, self.noted, self.is_exact = api.nvim_buf_get_changedtick(self.buf), 0, true end

function File:is_free() return self.session:file_state(self.tag).is_free end

-- Whether the user may have changed the buffer since both texts were the same. A signal takes its text away before Neovim tells of its end.
function File:is_touched()
  if not self.is_filled or self.is_changing or not api.nvim_buf_is_loaded(self.buf) then return false end
  return self.tick ~= api.nvim_buf_get_changedtick(self.buf)
end

-- Tells the client that behind so many bytes of the text `old` gave way to `new`. Returns why that is refused, or nil.
function File:replace(at, old, new)
  local front, back = self.same:sub(1, at), self.same:sub(at + #old + 1)
  local before, grown, shift, refusal = text.runes(front), 0, 0, nil
  local changes = text.differences(old, new)
  local acts_now = self.session.is_idle and self:is_free() -- so the host changes nothing between them
  local is_apart = #self.holes > 0 or not acts_now and #changes <= MOST_APART
  if not is_apart then changes = text.together(old, changes) end
  for _, change in ipairs(changes) do
    local start = self:shown_place(before + change.start, change.start < change.last) -- a hole before what goes stays
    local last = self:shown_place(before + change.last)
    local status = self.session:try("replace", self.tag, start + shift, last + shift, change.text, #change.text)
    if status ~= 0 then
      new, refusal = new:sub(1, change.from + grown) .. old:sub(change.from + 1), status
      break
    end
    self.session:put_edit()
    grown = grown + #change.text - (change.to - change.from)
    shift = shift + text.runes(change.text) - (last - start)
  end
  self.same = front .. new .. back
  if #self.holes > 0 then self.holes = select(2, self.session:shown(self.tag)) end
  return refusal
end

-- Tells the client at once that some lines gave way to those from `first` up to `last`, where the event fits the texts: so several edits of
-- a moment stay apart. Returns whether it does. What is left out, and what the length of the text shows to be missing, is told by `tell`.
function File:note(first, last)
  self.noted = self.noted + 1
  if self.noted > MOST_NOTED or self.refusal or self.session.is_going or self.session.over then return false end
  local count, before = api.nvim_buf_line_count(self.buf), first > 0 and "\n" or ""
  local from, rest = self:offset(first) - #before, self:offset(count) - self:offset(last)
  local old, new = self.same:sub(from + 1, #self.same - rest), before .. self:text(first, last)
  local fits = from >= 0 and rest >= 0 and from + rest <= #self.same and old:sub(1, #before) == before
  fits = fits and (rest == 0 or old:sub(-1) == "\n" or from == 0 and old == "")
  if not fits or self:replace(from, old, new) then return false end
  if self.is_exact and #self.same == self:offset(count) then self.tick = api.nvim_buf_get_changedtick(self.buf) end
  return true
end

-- Tells the client what the user changed. `refusal` says why it does not take that, and the buffer keeps its text. What goes counts until
-- that has acted, as does what waits: so where a text alone has room, all of the one before goes first.
function File:tell()
  local new = self:text()
  local status = self.is_apart and APART or self:replace(0, self.same, new)
  if status == C.SAM_NOT_TEXT then
    self:become(text.repaired(new))
    return self:tell()
  end
  local is_at_rest = self.session.is_idle and not self:has_more()
  if status == C.SAM_REFUSAL_TOO_LONG and is_at_rest and text.runes(new) <= library.number.SAM_MOST_RUNES then
    status = self:replace(0, self.same, "") or self:replace(0, "", new)
  end
  self.refusal = type(status) == "number" and library.words(status) or status
  self.is_refused_for_now = self.refusal and not is_at_rest
  if self.refusal and is_at_rest and self.refusal ~= self.told then
    self.session.say(("%s is not at the host as it is here: %s"):format(self.path, self.refusal), "ErrorMsg")
  end
  self.told = is_at_rest and self.refusal
  self:agree()
end

--## Changes of the buffer of which the client is not told

-- Whether more of the host's answer is to come: it locks the file, or has put in what is not loaded yet.
function File:has_more() return not self:is_free() or #self.holes > 0 end

-- Saves the cursor's line for undo, if Insert mode is in the buffer: that takes the line as saved where it began, in a step which is over.
function File:save_line()
  self.saved = nil
  if not vim.fn.mode():find "^[iR]" or api.nvim_get_current_buf() ~= self.buf then return end
  local row = vim.fn.line "." - 1
  if self:is_empty() then self:set_all "" else api.nvim_buf_set_text(self.buf, row, 0, row, 0, { "" }) end
  self.saved = api.nvim_buf_get_changedtick(self.buf)
end

pcall(ffi.cdef, "void *curbuf; void u_clearline(void *buf);")

-- Has `U` forget the line of the current buffer that it would bring back: Neovim knows that by its number, which may be another line's now.
local function forget_line()
  pcall(function() ffi.C.u_clearline(ffi.C.curbuf) end)
end

-- Has `act` change the buffer, as a step of undo of its own, or as more of one that stayed open. Cursors and selections stay at their text.
-- The step stays open where more of the host's answer is to come, until the user changes something. `act` is called again where a CTRL-C
-- breaks it off: what is not done of it would count as the user's.
function File:change(act)
  local buf, marks, mode, view = self.buf, {}, vim.fn.mode(), vim.fn.winsaveview()
  local was_modifiable, tick = vim.bo[buf].modifiable, api.nvim_buf_get_changedtick(buf)
  local is_open = self.open_step == tick or self.saved == tick -- nothing was typed into the step of that line
  self.is_changing = true
  if not was_modifiable then vim.bo[buf].modifiable = true end -- to set it takes the end of a line out of a selection
  local function mark(row, column) return api.nvim_buf_set_extmark(buf, space, row - 1, column, { strict = false }) end
  local function go_to(window, at)
    local row, column = unpack(api.nvim_buf_get_extmark_by_id(buf, space, at, {}))
    if row then pcall(api.nvim_win_set_cursor, window, { row + 1, column }) end
    api.nvim_buf_del_extmark(buf, space, at)
  end
  for _, window in ipairs(vim.fn.win_findbuf(buf)) do marks[window] = mark(unpack(api.nvim_win_get_cursor(window))) end
  local start = mode:find "[vV\22sS\19]" and api.nvim_get_current_buf() == buf and mark(vim.fn.line "v", vim.fn.col "v" - 1)
  local end_step = "let &g:undolevels = &g:undolevels"
  local is_right, why = M.whole(function()
    api.nvim_buf_call(buf, function()
      vim.cmd(end_step .. ((is_open or tick ~= api.nvim_buf_get_changedtick(buf)) and "| silent! undojoin" or ""))
      act()
      vim.cmd(end_step)
      forget_line()
    end)
  end)
  if start then
    local to_other_end = "normal! " .. (mode:find "[sS\19]" and "\7o\7" or "o") -- of the selection
    pcall(vim.cmd, to_other_end) -- a CTRL-C ends the selection
    go_to(0, start)
    pcall(vim.cmd, to_other_end)
  end
  for window, at in pairs(marks) do go_to(window, at) end
  vim.fn.winrestview { curswant = view.curswant, coladd = view.coladd } -- by `$` the end of each line, and a place behind one
  self:save_line()
  if not was_modifiable then vim.bo[buf].modifiable = false end
  self.is_changing = nil
  self.open_step = self:has_more() and api.nvim_buf_get_changedtick(buf)
  if not is_right then error(why, 0) end
end

-- Calls `act` under a modifier of commands, and so that `g;` and the like find the last change of the user's, and not what `act` changes.
local function under(modifier, act)
  M.act = act
  vim.cmd(("keepjumps %s lua require('sulgrevad.file').act()"):format(modifier))
end

-- Gives the buffer another text as a whole.
function File:set_all(new)
  local ends = new == "" or new:sub(-1) == "\n"
  api.nvim_buf_set_lines(self.buf, 0, -1, true, new == "" and {} or vim.split(ends and new:sub(1, -2) or new, "\n", { plain = true }))
  vim.bo[self.buf].endofline = ends
end

-- Puts a text in the place of bytes `from` up to `to` of the buffer, whose lines end where `ends` says. Whole lines go and come as such, so
-- what stands at the ends of those beside them stays, and so do their marks.
function File:put(ends, from, to, new)
  local row, column = text.spot(ends, from)
  local last_row, last_column = text.spot(ends, to)
  local lines = vim.split(new, "\n", { plain = true })
  local is_behind = lines[1] == "" and column == #self:line(row) and last_column == #self:line(last_row)
  local are_whole = is_behind or lines[#lines] == "" and column == 0 and last_column == 0
  if not are_whole or row == last_row and #lines == 1 then
    return api.nvim_buf_set_text(self.buf, row, column, last_row, last_column, lines)
  end
  table.remove(lines, is_behind and 1 or #lines)
  if is_behind then row, last_row = row + 1, last_row + 1 end
  api.nvim_buf_set_lines(self.buf, row, last_row, true, lines)
end

-- Has the buffer have another text, where that differs. The texts are compared with a newline at their ends, which is the option.
function File:become(new)
  if self:text() == new then return end
  self:change(function()
    local old = self:text()
    if old == "" or new == "" then return self:set_all(new) end
    local before, ends = vim.bo[self.buf].endofline and old or old .. "\n", new:sub(-1) == "\n"
    local changes, line_ends = text.differences(before, ends and new or new .. "\n"), text.line_ends(before)
    local function put_those(are_within)
      for n = #changes, 1, -1 do
        local change = changes[n]
        local past = change.to == #before and 1 or 0 -- the last lines go with the newline before them
        local is_within = not (before:sub(change.from + 1, change.to) .. change.text):find("\n", 1, true)
        if is_within == are_within then self:put(line_ends, change.from - past, change.to - past, change.text) end
      end
    end
    under("lockmarks", function() put_those(true) end) -- within lines, whose numbers stay, and so do the marks in them
    under("", function() put_those(false) end)
    vim.bo[self.buf].endofline = ends
  end)
end

-- The client has gone on: the buffer gets what it shows.
function File:settle()
  self.noted = 0
  if self.is_behind and self.is_filled then
    self.same, self.holes = self.session:shown(self.tag)
    self:become(self.same)
    self:agree()
  end
  self.is_behind = false
  if self.open_step and not self:has_more() then self.open_step = nil end
end

-- Has the buffer show the whole text of the file, and follows its changes from now on.
function File:fill()
  local options, steps = vim.bo[self.buf], api.nvim_buf_call(self.buf, vim.fn.undotree).entries
  local levels = options.undolevels
  if #steps == 0 then options.undolevels = -1 end -- no undo takes the first text away
  self.refusal, self.is_apart, self.kept = nil, false, nil
  self.open_step = api.nvim_buf_get_changedtick(self.buf) -- more of the step by which :e! emptied the buffer
  self.same, self.holes = self.session:shown(self.tag)
  self:change(function() self:set_all(self.same) end)
  options.undolevels, options.modifiable, options.modified = levels, true, false
  self.is_filled, self.is_read = true, false
  self:agree()
  api.nvim_buf_attach(self.buf, false, {
    on_lines = function(_, _, _, first, _, last)
      if not self.is_filled then return true end
      if self.is_changing then return end
      local is_right, fits = pcall(self.note, self, first, last)
      self.is_exact = is_right and fits and self.is_exact -- else `tell` finds it, or what is wrong
      self.session:wake()
    end,
    on_reload = function() -- by undo of :e!
      self.tick, self.is_exact = nil, false
      self.session:wake()
    end,
    on_detach = function() -- at :e! before the text goes; else BufUnload came before
      if api.nvim_buf_is_loaded(self.buf) then self.session:unload(self) end
      self.is_filled = false
      self.session:wake()
    end,
  })
  vim.schedule(function() -- has Neovim do what it does with a file that was read, as to find its filetype
    self.is_read = true
    if self.is_filled then api.nvim_buf_call(self.buf, function() vim.cmd "silent doautocmd BufReadPost" end) end
  end)
end

return M
