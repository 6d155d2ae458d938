-- What the user has: commands, and buffers with names as sulgrevad://box/notes.txt. All else is the session's.
local api = vim.api

local M = { sessions = {}, files = {} } -- by the words that name the host in a buffer's name; by the numbers of buffers

local SECONDS_TO_OPEN = 30
local SECONDS_TO_COMPLETE = 3
local SECONDS_TO_WRITE = 10 -- for which :wq and :wqa wait for a host that answers
local LABEL = "^[%w_.@][%w_.@-]*$"

local function say(...) require("sulgrevad.session").say(...) end
local function fail(words, ...) error("sulgrevad: " .. words:format(...), 0) end

--## Sessions

-- The word for a host in the names of buffers: that before samhost, as `box` in `ssh box samhost`.
local function label_of(command)
  local label
  for word in command:gmatch "%S+" do
    if word:find "%a" and not word:find "^%-" and not word:find "samhost['\"]?$" then label = word:gsub("[^%w_.@-]", "_") end
  end
  return label and label:find(LABEL) and label or "localhost"
end

-- The session of a command, which begins where there is none. The buffers of one that is over keep their names.
local function session_of(command, takes)
  local first, number = label_of(command), 1
  local label, session = first, M.sessions[first]
  while session and (session.over and next(session.files) or not session.over and (session.command ~= command or takes)) do
    number = number + 1
    label = first .. "-" .. number
    session = M.sessions[label]
  end
  if not session or session.over then M.sessions[label] = require("sulgrevad.session").begin(label, command, takes) end
  return M.sessions[label]
end

-- The session that the names of buffers name so. One begins by g:sulgrevad_command, where there is none.
local function session_named(label)
  local session = M.sessions[label]
  if session then return session.over and session_of(session.command) or session end
  return session_of(label == "localhost" and "samhost" or (vim.g.sulgrevad_command or "ssh %s samhost"):format(label))
end

-- Waits until something holds, for a host that answers or is asked the first time, or until CTRL-C. Whether it holds.
local function wait(session, seconds, holds)
  local sessions, line = require "sulgrevad.session", session.line
  local interrupts = sessions.interrupts
  vim.wait(1000 * seconds, function()
    return session.over or holds() or sessions.interrupts > interrupts or line:details().is_known and line:is_late()
  end, 5)
  return holds()
end

--## Buffers

-- The host has said what becomes of a file that a buffer waits for: it comes, or is refused, or is in another buffer already.
local function answered(file)
  if M.files[file.buf] ~= file then return end
  if file.refusal and file.is_late then say(("%s: %s"):format(file.path, file.refusal), "ErrorMsg") end
  if not file.twin then return end
  for _, window in ipairs(vim.fn.win_findbuf(file.buf)) do api.nvim_win_set_buf(window, file.twin) end
  api.nvim_buf_delete(file.buf, { force = true })
end

-- BufReadCmd: shows the file that a buffer's name names. That of a file that is open comes from the host's disk.
function M.read(buf, name)
  local label, path = name:match "^sulgrevad://([^/]*)/(.+)$"
  if not label or not label:find(LABEL) then fail("no file is named by %s", name) end
  local file = M.files[buf]
  if file and not file.session.over and file.tag then
    file.session:go_on()
    if file.session.line:is_late() then return say("the file is not read anew: " .. file.session.line:words(), "WarningMsg") end
    file.session:reload(file)
  elseif not file or file.session.over or file.refusal then -- else the host is asked already
    file = session_named(label):open(path, buf, answered)
    M.files[buf] = file
  end
  file.is_late = not wait(file.session, SECONDS_TO_OPEN, function()
    return file.is_filled and file.is_read and not file.is_reloading or not file.tag and (file.refusal or file.twin)
  end)
  file.left_at = file.is_filled and api.nvim_buf_get_changedtick(buf)
  local why = not file.tag and file.refusal or file.is_late and file.session.over
  if why then fail("%s: %s", path, why) end
  if file.is_late then say(path .. " comes once the host answers", "WarningMsg") end
end

-- A file of a session, with a buffer of its own, as another program wants one shown.
function M.new_file(session, path)
  local buf = api.nvim_create_buf(true, false)
  M.files[buf] = require("sulgrevad.file").new(session, path, buf)
  M.files[buf]:rename(path) -- the buffer of a session that is over may have the name
  return M.files[buf]
end

-- BufWriteCmd: has the host write the file. It is shown as modified until the host has done so.
function M.write(buf, name)
  local file = M.files[buf]
  if not file or not file.is_filled then fail "not written: the file is not there" end
  local session = file.session
  if file.name == "" then file.name = api.nvim_buf_get_name(buf) end -- the buffer of a session that is over had it at first
  if name ~= file.name then fail "not written: a file of the host keeps its name" end
  if not session.over then session:write(file) end -- which may end it
  if session.over then fail("not written: %s; :w NAME writes it here", session.over) end
  if require("sulgrevad.session").is_exiting() ~= false then
    wait(session, SECONDS_TO_WRITE, function() return not file.writing end)
    if vim.bo[buf].modified then fail("%s is not written", file.path) end
    return
  end
  if file.writing and session.line:is_late() then say(("%s is written once the host answers"):format(file.path), "WarningMsg") end
  vim.bo[buf].modified = not file.writing -- a command that leaves it modified counts as failed
  session:wake() -- which says what is true
end

-- BufFilePre: :file, or :saveas before it writes, is about to give the buffer another name. It gets its own back.
function M.rename(buf)
  vim.schedule(function()
    local file = M.files[buf]
    if not file or file.name == "" or api.nvim_buf_get_name(buf) == file.name then return end
    api.nvim_buf_set_name(buf, file.name)
    say("a file of the host keeps its name", "WarningMsg")
  end)
end

-- BufUnload: the text goes. When Neovim ends it does later.
function M.unload(buf)
  local file = M.files[buf]
  if file and vim.v.exiting == vim.NIL then file.session:unload(file) end
end

-- BufDelete, BufWipeout: the host closes the file, but where 'nobuflisted' only takes its buffer from the list.
function M.delete(buf, _, event)
  local file = M.files[buf]
  if event == "BufDelete" and not vim.bo[buf].buflisted then return end
  M.files[buf] = nil
  if file then file.session:close(file) end
end

-- VimLeavePre: the sessions end.
function M.leave()
  for _, session in pairs(M.sessions) do session:leave() end
end

--## Commands

-- The words of :Sulgrevad: the command that runs samhost, perhaps in quotation marks, and what stands behind it.
local function parse(words)
  local command, rest = words:match "^(%S*samhost['\"]?)%s(.*)$"
  if command then return command, rest end
  return words:match "^(.-%s%S*samhost['\"]?)%s(.*)$"
end

-- :Sulgrevad COMMAND.. samhost PATH, or COMMAND.. samhost --take [NAME]
function M.start(words)
  local command, rest = parse(words .. " ")
  rest = vim.trim(rest or "")
  if rest == "" then fail "usage: :Sulgrevad [ssh box] samhost FILE, or samhost --take [SESSION]" end
  local takes = rest:match "^%-%-take%s*(%x*)$"
  local session = session_of(command, takes)
  if not takes then return vim.cmd("edit " .. vim.fn.fnameescape(("sulgrevad://%s/%s"):format(session.label, rest))) end
  session:show_all()
  local are_shown = wait(session, SECONDS_TO_OPEN, function() return session.are_shown end)
  if session.over then fail("%s", session.over) end
  if not are_shown then return say("the session's files come once the host answers", "WarningMsg") end
  if not next(session.files) then say("no file is open in the session", "WarningMsg") end
end

-- Completes the words of :Sulgrevad: commands, and behind samhost the host's paths.
function M.complete(lead, line, position)
  local command, path = parse((line:sub(1, position):gsub("^.-Sulgrevad%s+", "")))
  if not command or path == "" and lead ~= "" then return vim.fn.getcompletion(lead, "shellcmd") end
  local session, names = session_of(command), nil
  session:request(require("sulgrevad.library").C.SAM_NOTE_COMPLETE, 0, path, function(note) names = note.path end)
  wait(session, SECONDS_TO_COMPLETE, function() return names end)
  local folder, found = path:match "^(.*/)" or "", {}
  for name in (names or ""):gmatch "[^\n]+" do
    found[#found + 1] = (folder .. name):sub(#path - #lead + 1) -- of a path with blanks `lead` is the end
  end
  return found
end

-- The file of the current buffer.
local function current_file()
  local file = M.files[api.nvim_get_current_buf()]
  if not file or not file.is_filled then fail "the buffer is of no file of a host" end
  return file
end

-- :SulgrevadRun LINE: runs a command line of sam on the buffer, from its cursor on, or on the lines of a range.
function M.run(options)
  local file = current_file()
  if file.session.over then fail("%s", file.session.over) end
  if options.args:find "\n" then fail "one line at a time" end
  local row, column = unpack(api.nvim_win_get_cursor(0))
  local is_range = options.range > 0
  file.session:run(file, options.args, is_range and { options.line1 - 1, 0 } or { row - 1, column }, is_range and { options.line2, 0 })
end

-- The texts that are kept of the files of the buffer's session, here, and beside the files at the host if that answers soon: a line about
-- each, by the name by which Neovim opens it.
local function kept_texts()
  local session, kept, asked = current_file().session, {}, 0
  for _, file in pairs(session.files) do
    for name, written in pairs(session:left(file)) do kept[name] = ("%s, of %s"):format(name, os.date("%F %T", written)) end
    asked = asked + 1
    session:request(require("sulgrevad.library").C.SAM_NOTE_COMPLETE, 0, file.path .. ".sam-saved", function(note)
      asked = asked - 1
      for found in note.path:gmatch "([^\n]+%.sam%-saved%.?%d*)\n" do
        local name = ("sulgrevad://%s/%s%s"):format(session.label, file.path:match "^.*/" or "", found)
        kept[name] = name .. ", at the host"
      end
    end)
  end
  wait(session, SECONDS_TO_COMPLETE, function() return asked == 0 end)
  return kept
end

local function sorted(list)
  table.sort(list)
  return list
end

-- :SulgrevadKept[!] [TEXT]: lists the texts that are kept, compares one with the buffer, or drops one that is here.
function M.kept(options)
  local kept, name = kept_texts(), options.args
  if name == "" then
    return say(next(kept) and table.concat(sorted(vim.tbl_values(kept)), "\n") or "no text of the session's files is kept")
  end
  if not kept[name] then fail("no text is kept in %s", name) end
  if not options.bang then
    vim.cmd(("diffthis | noswapfile vertical split ++bin %s"):format(vim.fn.fnameescape(name)))
    return vim.cmd "diffthis | set readonly | wincmd p"
  end
  if name:find "^sulgrevad:" then fail "the host drops its text itself, once the file has the same" end
  if vim.fn.confirm(("Drop %s for good?"):format(name), "&Yes\n&No", 2) == 1 then assert(vim.loop.fs_unlink(name)) end
end

-- Completes the names of texts that are kept.
function M.complete_kept(lead)
  return sorted(vim.tbl_filter(function(name) return vim.startswith(name, lead) end, vim.tbl_keys(kept_texts())))
end

-- :SulgrevadReconnect: tries lost lines at once.
function M.reconnect()
  for _, session in pairs(M.sessions) do
    session.line:retry()
    session:go_on()
  end
end

-- The statusline's part: how the line of the buffer's file is, or that it is being written; else "".
function M.status(buf)
  if not buf or buf == 0 then buf = api.nvim_get_current_buf() end
  local file = M.files[buf]
  if not file then return "" end
  local words = file.session.line:words()
  return words ~= "" and ("[%s]"):format(words) or file.writing and "[writing]" or ""
end

return M
