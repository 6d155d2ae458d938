-- The connections of a client to samhost, one after another: jobs that carry its bytes, as `ssh box samhost --attach NAME`. The client says
-- when to connect and when to give up, and keeps what the host has not acknowledged.
local ffi = require "ffi"
local api, uv, fn = vim.api, vim.loop, vim.fn
local library = require "sulgrevad.library"
local C, must, try, bytes, size, count = library.C, library.must, library.try, library.bytes, library.size, library.count

local M, Line = {}, {}
Line.__index = Line

local MOST_TOLD = 4096 -- bytes of a line on standard error
local MOST_FAILURES = 6 -- connections, one after another, of which the last is tried half a minute after the first
local STUCK = "^samhost: session %x+ can't go on" -- as long as the folder in which it began is gone, say
local SWAPPED = { ["\0"] = "\n", ["\n"] = "\0" } -- Neovim hands out lines, in which a zero is a newline

function M.now() return math.floor(uv.hrtime() / 1e6) end

-- Makes a client, and its line to a host that a shell's line `command` runs; `takes` is nil, or the name of another terminal's session,
-- perhaps empty. The session goes on before and after bytes come, says words of the command, and is told when no connection comes any more.
function M.new(session, command, takes)
  local id = assert(uv.random(library.number.SAM_LINK_ID_BYTES))
  local line = setmetatable({
    client = ffi.gc(ffi.new "sam_client", C.sam_client_free), session = session, command = command, takes = takes, folder = uv.cwd() or ".",
    told = "", name = id:sub(1, 8):gsub(".", function(byte) return ("%02x"):format(byte:byte()) end),
  }, Line)
  must("client_new", line.client, id, takes ~= nil, M.now())
  return line
end

function Line:details()
  must("client_describe", self.client, M.now(), library.details)
  return library.details
end

--## Connections

-- Does what the clock says.
function Line:tick()
  while not self.session.over do
    must("client_tick", self.client, M.now(), library.place)
    local tick = library.place[0]
    if tick == C.SAM_TICK_NOTHING then return end
    if tick == C.SAM_TICK_CONNECT then self:connect() elseif tick == C.SAM_TICK_DROP then self:broke "the host does not answer" end
  end
end

-- Begins another connection, in the place of the one before.
function Line:connect()
  self:drop()
  local is_known = self:details().is_known
  local words = is_known and "--attach " .. self.name or self.takes and "--take " .. self.takes or "--serve " .. self.name
  local quietly = is_known and "export SSH_ASKPASS_REQUIRE=never; " or "" -- no window asks amid the user's typing
  local function of_newest(act)
    return function(job, data)
      if job == self.job then act(self, data) end
    end
  end
  local is_made, job = pcall(fn.jobstart, { "/bin/sh", "-c", quietly .. "exec " .. self.command .. " " .. words }, {
    on_stdout = of_newest(self.came), on_stderr = of_newest(self.tell), on_exit = of_newest(function()
      self:broke(self.told ~= "" and self.told or "the host is gone")
      self.session:go_on()
    end),
    cwd = fn.isdirectory(self.folder) == 1 and self.folder or nil, detach = true, -- without the screen, on which ssh would ask
  })
  if not is_made or job <= 0 then
    must("client_not_connected", self.client, M.now())
    return self:broke "no process can be made"
  end
  must("client_connected", self.client, M.now(), count)
  self.job, self.attempt = job, count[0]
end

-- Gives up the connection, or with `is_gentle` what comes on it alone, so that the last bytes arrive.
function Line:drop(is_gentle)
  if not self.job then return end
  if is_gentle then pcall(fn.chanclose, self.job, "stdin") else fn.jobstop(self.job) end
  self.job = nil
  must("client_broken", self.client, self.attempt, M.now())
end

-- The newest connection is over. Another is not tried if no host was met yet, or if one said each time that the session can't go on.
function Line:broke(why)
  self:drop()
  local details = self:details()
  if not details.is_known or self.is_stuck and details.failures >= MOST_FAILURES then self.session:end_here(why) end
end

-- Tries a line that is lost or silent at once.
function Line:retry()
  if not self.session.over and self:details().is_known and self:is_late() then self:connect() end
end

--## Bytes

-- Gives the job all that there is to send.
function Line:push()
  while self.job do
    local status = try("client_take_out", self.client, self.attempt, bytes, library.MOST_BYTES, size)
    if status ~= 0 or size[0] == 0 then return end
    pcall(api.nvim_chan_send, self.job, ffi.string(bytes, size[0])) -- one that takes nothing has ended, and is told of
  end
end

-- Bytes have come.
function Line:came(data)
  data = table.concat(data, "\0"):gsub("[%z\n]", SWAPPED)
  if data == "" then return end -- their end, soon that of the job
  self.session:go_on()
  self.session.is_idle = false
  local status = try("client_receive", self.client, self.attempt, data, #data, M.now())
  local state = self:details().state
  if state == C.SAM_LINE_OPEN or state == C.SAM_LINE_LOST then self.is_stuck = state == C.SAM_LINE_LOST end
  if state == C.SAM_LINE_LOST then return self.session:end_here(library.words(status)) end
  if status ~= 0 then self:broke(library.words(status)) end
  self.session:go_on()
end

-- The job has written to standard error. A line is told once, however many connections fail alike.
function Line:tell(data)
  for told in table.concat(data, "\n"):gmatch "[^\r\n]+" do
    if told ~= self.told then self.session.say(told:sub(1, MOST_TOLD)) end
    self.told, self.is_stuck = told, self.is_stuck or told:find(STUCK) ~= nil
  end
end

--## How the line is

-- Whether there is no line, though there was one.
function Line:is_broken() return self:details().is_broken end

-- Whether there is no line, or an answer is late.
function Line:is_late()
  local details = self:details()
  return self.session.over ~= nil or details.is_broken or details.silence >= details.overdue_after
end

-- How the line is, in words, or "" where it is well.
function Line:words()
  if self.session.over then return self.session.over end
  local is_broken, seconds = self:is_broken(), tonumber(self:details().silence) / 1000 -- for which nothing has come that was due
  if not is_broken then return self:is_late() and ("no answer for %d s"):format(seconds) or "" end
  local goes_on = "connecting"
  if not self.job and try("client_due_in", self.client, M.now(), count) == 0 then
    goes_on = ("again in %d s"):format(math.ceil(tonumber(count[0]) / 1000))
  end
  return ("LINE LOST %d s, %s"):format(seconds, goes_on)
end

return M
