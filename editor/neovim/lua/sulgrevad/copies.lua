-- Copies on this machine of texts that a host may not have: NAME.sam-here, in the folder of a session or that for temporary files.
local uv = vim.loop

local M = {}

local MOST_NAMES = 1000 -- that are tried
local MOST_IN_NAME = 200 -- bytes of a file's name with which such a name begins
local OWNER_ALONE = tonumber("600", 8)

-- Writes a text to a new file. Returns its path, or nil and why not.
local function write_new(path, text)
  local file, _, why = uv.fs_open(path, "wx", OWNER_ALONE)
  if not file then return nil, why end
  local is_whole = uv.fs_write(file, text, 0) == #text and uv.fs_fsync(file)
  uv.fs_close(file)
  if is_whole then return path end
  uv.fs_unlink(path)
end

-- The folders for copies, the first one first, and what the names of those begin with that are of the file at a path of the host.
local function places(folder) return ipairs { folder, vim.env.TMPDIR or "/tmp" } end
local function base_of(path) return vim.fn.fnamemodify(path, ":t"):sub(1, MOST_IN_NAME) .. ".sam-here" end

-- Keeps the text of the file at a path of the host. It takes the place of the copy `before`, if that is given. Returns the copy's path, or
-- nil where none can be written.
function M.keep(folder, path, text, before)
  local base = base_of(path)
  for _, place in places(folder) do
    for number = 1, MOST_NAMES do
      local copy, why = write_new(("%s/%s%s"):format(place, base, number > 1 and "." .. number or ""), text)
      if copy and before and uv.fs_rename(copy, before) then return before end -- the old one stays until the new one is whole
      if copy then return copy end
      if why ~= "EEXIST" then break end
    end
  end
end

-- The copies of the user's that are here of the file at a path of the host: by their paths, when each was written.
function M.left(folder, path)
  local left, base = {}, base_of(path)
  for _, place in places(folder) do
    local entries = uv.fs_scandir(place)
    for name in function() return entries and uv.fs_scandir_next(entries) end do
      local rest, copy = name:sub(#base + 1), place .. "/" .. name
      local about = name:sub(1, #base) == base and (rest == "" or rest:find "^%.%d+$") and uv.fs_lstat(copy)
      if about and about.type == "file" and about.uid == uv.getuid() then left[copy] = about.mtime.sec end
    end
  end
  return left
end

return M
