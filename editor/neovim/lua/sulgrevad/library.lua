-- The library, over LuaJIT's FFI. Its header says all calls, kinds and numbers, and is read when the library is first needed.
local ffi = require "ffi"

local here = vim.loop.fs_realpath(debug.getinfo(1, "S").source:sub(2))
local root = vim.fn.fnamemodify(here, ":h:h:h:h:h") -- of the repository, or lib/sulgrevad of an install: both lie alike
local M = {
  header = vim.g.sulgrevad_header or root .. "/include/sulgrevad.h",
  path = vim.g.sulgrevad_library or root .. "/out/libsulgrevad.so",
  number = {}, -- that the header defines
}

-- The declarations of a header, without what only a preprocessor reads.
local function declarations(header)
  for name, value in header:gmatch "#define%s+(SAM_[%w_]+)%s+(%d+)" do M.number[name] = tonumber(value) end
  local text = header:gsub("/%*.-%*/", ""):gsub("\n#ifdef __cplusplus.-\n#endif", ""):gsub("\n#[^\n]*", ""):gsub("SAM_MUST_USE", "")
  return (text:gsub("%[(SAM_[%w_]+)%]", function(name) return "[" .. M.number[name] .. "]" end))
end

local file = assert(io.open(M.header, "rb"))
local declared = declarations(file:read "*a")
file:close()
if not pcall(ffi.typeof, "sam_client") then ffi.cdef(declared) end -- a type can't be declared twice
M.C = ffi.load(M.path)
local version = M.number.SAM_VERSION_MAJOR * 65536 + M.number.SAM_VERSION_MINOR * 256 + M.number.SAM_VERSION_PATCH
if M.C.sam_library_version() ~= version then error(("%s is of another version than %s"):format(M.path, M.header), 0) end

-- Words about a status.
function M.words(status) return ffi.string(M.C.sam_status_text(status)) end

-- Makes a call by its name without `sam_`. Returns its status.
function M.try(name, ...) return tonumber(M.C["sam_" .. name](...)) end

-- Makes a call that has to succeed.
function M.must(name, ...)
  local status = M.try(name, ...)
  if status ~= 0 then error("sam_" .. name .. ": " .. M.words(status), 2) end
end

-- What calls hand out stands in these until the next call.
M.MOST_BYTES = 65536
M.bytes = ffi.new("uint8_t[?]", M.MOST_BYTES)
M.MOST_CELLS = M.MOST_BYTES / ffi.sizeof "uint32_t"
M.cells = ffi.cast("uint32_t *", M.bytes)
M.size, M.place, M.count, M.truth = ffi.new "size_t[1]", ffi.new "uint32_t[1]", ffi.new "uint64_t[1]", ffi.new "bool[1]"
M.told, M.did, M.splice, M.event = ffi.new "sam_client_event[1]", ffi.new "sam_did", ffi.new "sam_splice", ffi.new "sam_event"
M.file, M.state, M.note, M.details = ffi.new "sam_file", ffi.new "sam_state", ffi.new "sam_note", ffi.new "sam_line_details"

return M
