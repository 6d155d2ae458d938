-- :checkhealth sulgrevad
local M = {}

local health = vim.health or require "health"
local function tell(how) return health[how] or health["report_" .. how] end -- as later Neovims, or 0.7, call it
local ok, warn, fail, info = tell "ok", tell "warn", tell "error", tell "info"

local function check_library()
  if not jit then return fail "Neovim runs without LuaJIT, whose FFI is needed" end
  local is_there, library = pcall(require, "sulgrevad.library")
  if is_there then return ok("library: " .. library.path) end
  local advice = { "./build or ./install, or set g:sulgrevad_library and g:sulgrevad_header" }
  fail("the library is not there: " .. tostring(library):gsub("\n.*", ""), advice)
end

function M.check()
  tell "start" "sulgrevad"
  check_library()
  for name, why in pairs { ssh = "to reach another machine", samhost = "for files of this machine" } do
    if vim.fn.executable(name) == 1 then ok(name .. " is there") else info(("%s is not there, which is needed %s"):format(name, why)) end
  end
  local sessions = require("sulgrevad").sessions
  for label, session in pairs(sessions) do
    local words = session.line:words();
    (words == "" and ok or warn)(("session %s, %s: %s"):format(label, session.line.name, words == "" and "the line is well" or words))
  end
  if not next(sessions) then info "there is no session" end
end

return M
