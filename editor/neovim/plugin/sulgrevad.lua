-- Files of another machine, over a line that is slow or breaks. :help sulgrevad
if vim.g.loaded_sulgrevad then return end
vim.g.loaded_sulgrevad = true

-- Calls a function of the plugin, which is loaded when it is first needed. An error is told in words.
local function calls(name, words_of)
  return function(event)
    local is_right, why = pcall(require("sulgrevad")[name], words_of(event))
    if not is_right then vim.api.nvim_err_writeln(tostring(why)) end
  end
end

local function command(name, method, words_of, options) vim.api.nvim_create_user_command(name, calls(method, words_of), options) end

command("Sulgrevad", "start", function(options) return options.args end,
  { nargs = "+", complete = function(...) return require("sulgrevad").complete(...) end })
command("SulgrevadRun", "run", function(options) return options end, { nargs = 1, range = true })
command("SulgrevadKept", "kept", function(options) return options end,
  { nargs = "?", bang = true, complete = function(...) return require("sulgrevad").complete_kept(...) end })
command("SulgrevadReconnect", "reconnect", function() end, {})

local group = vim.api.nvim_create_augroup("sulgrevad", {})
local closes = { "BufDelete", "BufWipeout" }
for method, names in pairs { read = "BufReadCmd", write = "BufWriteCmd", rename = "BufFilePre", unload = "BufUnload", delete = closes } do
  local callback = calls(method, function(event) return event.buf, event.match, event.event end)
  vim.api.nvim_create_autocmd(names, { group = group, pattern = "sulgrevad://*", callback = callback })
end
vim.api.nvim_create_autocmd("VimLeavePre", { group = group, callback = function()
  if package.loaded.sulgrevad then require("sulgrevad").leave() end
end })
