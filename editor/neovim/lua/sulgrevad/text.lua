-- Texts of UTF-8: their runes and lines, and where two of them differ.
local ffi = require "ffi"

local M = {}

local NEWLINE = 10
local NEAR = 64 -- bytes between two differences, which are cheaper to send than an edit of its own
local MOST_TOGETHER = 4096 -- bytes of differences that become one: what goes counts as long as what comes waits
local REPLACEMENT = "\239\191\189" -- U+FFFD

local function bytes_of(text) return ffi.cast("const uint8_t *", text) end

local function is_inside(byte) return byte >= 0x80 and byte < 0xC0 end -- a rune

local function begins_line(bytes, at) return at == 0 or bytes[at - 1] == NEWLINE end

-- The number of runes of a text. vim.str_utfindex stops at U+0000.
function M.runes(text)
  local found, bytes = 0, bytes_of(text)
  for at = 0, #text - 1 do
    if not is_inside(bytes[at]) then found = found + 1 end
  end
  return found
end

-- The number of bytes that so many runes of a text have, from its begin on.
function M.size(text, runes)
  local bytes, at = bytes_of(text), 0
  while at < #text and (runes > 0 or is_inside(bytes[at])) do
    if not is_inside(bytes[at]) then runes = runes - 1 end
    at = at + 1
  end
  return at
end

-- Where two texts differ: bytes `first` up to `old_last` of the old one, and up to `new_last` of the new one, by whole runes.
local function trimmed(old, new)
  local a, b, first, i, j = bytes_of(old), bytes_of(new), 0, #old, #new
  while first < i and first < j and a[first] == b[first] do first = first + 1 end
  while first > 0 and (first < i and is_inside(a[first]) or first < j and is_inside(b[first])) do first = first - 1 end
  while i > first and j > first and a[i - 1] == b[j - 1] do i, j = i - 1, j - 1 end
  while i < #old and is_inside(a[i]) do i, j = i + 1, j + 1 end
  return first, i, j
end

-- Where each line of a text ends, by its number.
function M.line_ends(text)
  local ends, at = { [0] = 0 }, 0
  while at do
    at = text:find("\n", at + 1, true)
    ends[#ends + 1] = at or #text
  end
  return ends
end

-- The row of a byte of a text whose lines end so, and its column, which behind the last newline is one more than the row has.
function M.spot(ends, at)
  local row, last = 0, #ends - 1
  while row < last do
    local middle = math.ceil((row + last) / 2)
    if ends[middle] <= at and ends[middle] < ends[#ends] then row = middle else last = middle - 1 end
  end
  return row, at - ends[row]
end

-- The stretches in which two texts differ, ascending: bytes `from` up to `to` of the old one, which are its runes `start` up to `last`, and
-- the `text` in their place. Where several lines differ these are compared line by line, so that what the host changes between them stays.
-- Lines that came in come behind the line before them, if there is one: then what the host puts in before the next line can't part them.
function M.differences(old, new)
  if old == new then return {} end
  local found, a, b, at, place = {}, bytes_of(old), bytes_of(new), 0, 0
  local function add(begin, before, after)
    local first, i, j = trimmed(before, after)
    local from, to, came = begin + first, begin + i, after:sub(first + 1, j)
    if from == to and came == "" then return end
    if from == to and from > at and begins_line(a, from) and came:sub(-1) == "\n" then
      from, to, came = from - 1, to - 1, "\n" .. came:sub(1, -2)
    end
    local start = place + M.runes(old:sub(at + 1, from))
    at, place = to, start + M.runes(old:sub(from + 1, to))
    found[#found + 1] = { from = from, to = to, start = start, last = place, text = came }
  end
  local first, i, j = trimmed(old, new)
  while not begins_line(a, first) do first = first - 1 end
  while i < #old and not (begins_line(a, i) and begins_line(b, j)) do i, j = i + 1, j + 1 end
  local before, after = old:sub(first + 1, i), new:sub(first + 1, j)
  local old_ends, new_ends = M.line_ends(before), M.line_ends(after)
  for _, hunk in ipairs(vim.diff(before, after, { result_type = "indices" })) do
    local from, gone, to, came = unpack(hunk)
    if gone > 0 then from = from - 1 end -- where no line goes, the hunk names the one before
    if came > 0 then to = to - 1 end
    local most = math.max(gone, came)
    for n = 0, most - 1, gone == came and 1 or most do -- as many lines at once
      local last = gone == came and n + 1 or most
      add(first + old_ends[from + n], before:sub(old_ends[from + n] + 1, old_ends[from + math.min(last, gone)]),
        after:sub(new_ends[to + n] + 1, new_ends[to + math.min(last, came)]))
    end
  end
  return found
end

-- Joins those differences from an old text that stand near each other, and returns what they are then.
function M.together(old, changes)
  local joined, last = {}, nil
  for _, change in ipairs(changes) do
    if last and change.from - last.to <= NEAR and math.max(change.to - last.from, #last.text) < MOST_TOGETHER then
      last.text = last.text .. old:sub(last.to + 1, change.from) .. change.text
      last.to, last.last = change.to, change.last
    else
      joined[#joined + 1], last = change, change
    end
  end
  return joined
end

-- A byte that is not ASCII, with the bytes behind it that could belong to it: with U+FFFD in the place of each that is no UTF-8.
local function repaired_run(run)
  local lead, second = run:byte(1, 2)
  local size = lead >= 0xF0 and 4 or lead >= 0xE0 and 3 or 2
  local is_rune = lead >= 0xC2 and lead <= 0xF4 and #run >= size
  is_rune = is_rune and second >= (lead == 0xE0 and 0xA0 or lead == 0xF0 and 0x90 or 0x80)
  is_rune = is_rune and second <= (lead == 0xED and 0x9F or lead == 0xF4 and 0x8F or 0xBF)
  return (is_rune and run:sub(1, size) or "") .. REPLACEMENT:rep(#run - (is_rune and size or 0))
end

-- A text with U+FFFD in the place of each byte that is no UTF-8.
function M.repaired(text) return (text:gsub("[\128-\255][\128-\191]*", repaired_run)) end

return M
