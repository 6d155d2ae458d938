-- Random texts and edits through text.lua and file.lua. Returns a list of what is wrong.
local text, files = require "sulgrevad.text", require "sulgrevad.file"

local SIGNS = { "a", "b", "word ", "\n", "\n", "é", "日", "\0", "\r", "😀", "c", "\255" }
local wrong = {}
math.randomseed(1)

local function random_text(most, signs)
  local parts = {}
  for n = 1, math.random(0, most) do parts[n] = SIGNS[math.random(signs or #SIGNS)] end
  return table.concat(parts)
end

local function expect(is_right, ...)
  if not is_right and #wrong < 5 then wrong[#wrong + 1] = vim.inspect { ... } end
end

local function runes_of(words)
  local runes = {}
  for rune in words:gmatch "[^\128-\191][\128-\191]*" do runes[#runes + 1] = rune end
  return runes
end

-- Differences turn the old text into the new one, by bytes as by runes.
local function made_by_runes(old, changes)
  local runes = runes_of(old)
  for n = #changes, 1, -1 do
    local change = changes[n]
    runes = vim.list_extend(vim.list_slice(runes, 1, change.start), { change.text, unpack(vim.list_slice(runes, change.last + 1)) })
  end
  return table.concat(runes)
end

for _ = 1, 3000 do
  local old = random_text(30)
  local new = math.random() < 0.5 and random_text(30) or old:gsub("[ab\n]", function() return math.random() < 0.3 and "xy" or nil end)
  local made, at = {}, 0
  for _, change in ipairs(text.differences(old, new)) do
    vim.list_extend(made, { old:sub(at + 1, change.from), change.text })
    at = change.to
  end
  expect(table.concat(made) .. old:sub(at + 1) == new, "differences", old, new)
  expect(made_by_runes(old, text.differences(old, new)) == new, "differences by runes", old, new)
  local joined = text.together(old, text.differences(old, new))
  expect(made_by_runes(old, joined) == new and #joined < 2, "differences that are near", old, new)
end

-- Lines that stay between lines that change are no part of a difference; very many differences are one.
expect(#text.differences("a ink\nb\nc\n", "a inky\nb\n\nc\n") == 2, "two lines")
local many = ("x\ny\n"):rep(12000)
local all = text.differences(many, (many:gsub("x", "z")))
expect(#all == 12000, "all differences")

-- Differences that stand near each other are one, but few thousand bytes at most.
local joined, far = text.together(many, all), ("x" .. ("y"):rep(100) .. "\n"):rep(10)
expect(#joined < 20 and made_by_runes(many, joined) == many:gsub("x", "z"), "differences together", #joined)
for _, change in ipairs(joined) do expect(change.to - change.from < 5000, "too many together", change.from, change.to) end
expect(#text.together(far, text.differences(far, (far:gsub("x", "z")))) == 10, "differences that are far")

-- Of what is no UTF-8 each byte gives way to U+FFFD.
for bytes, wanted in pairs {
  ["a\255b\237\160\128c\0d"] = "a\u{FFFD}b\u{FFFD}\u{FFFD}\u{FFFD}c\0d", ["\128é\195"] = "\u{FFFD}é\u{FFFD}",
  ["\224\159\191\240\143\191\191\244\144\128\128"] = ("\u{FFFD}"):rep(11), ["日\u{10FFFF}\193\191"] = "日\u{10FFFF}\u{FFFD}\u{FFFD}",
} do
  expect(text.repaired(bytes) == wanted, "repaired", bytes, text.repaired(bytes))
end

-- A buffer shows a text exactly, and edits of it as well.
local session = { is_idle = true, file_state = function() return { is_free = true } end }
local buf = vim.api.nvim_create_buf(true, false)
local file = files.new(session, "a path", buf)
for _ = 1, 1000 do
  local shown = random_text(math.random() < 0.3 and 2 or 20)
  if math.random() < 0.2 then vim.bo[buf].endofline = false end -- also behind an empty line
  file:become(shown)
  expect(file:text() == shown, "become", shown, file:text())
end
for _ = 1, 3000 do
  local old, new = random_text(12, 8), random_text(3, 8)
  file:become(old)
  local runes = runes_of(old)
  local place = math.random(0, #runes)
  local gone = math.random(0, #runes - place)
  local wanted = table.concat(runes, "", 1, place) .. new .. table.concat(runes, "", place + gone + 1)
  file:become(wanted)
  expect(file:text() == wanted, "a change", old, place, gone, new, file:text())
  expect(file:place_of(0, 0) == 0, "the first place")
  local size = text.size(wanted, place + #runes_of(new))
  expect(size == #table.concat(runes, "", 1, place) + #new, "the size of runes", wanted, place, size)
  local row, column = text.spot(text.line_ends(wanted), size)
  expect(file:place_of(row, column) == place + #runes_of(new), "the place of a spot", wanted, place, row, column)
end

-- Holes part a shown text, in which "." is not loaded. Edits leave those round them, also one of many that is refused.
local shown, taken
local reads = 0

function session:put_edit() end

function session:try(_, _, start, last, came)
  taken = taken - 1
  if taken < 0 then return 1 end
  shown = shown:sub(1, start) .. came .. shown:sub(last + 1)
  return 0
end

function session:shown()
  reads = reads + 1
  local holes = {}
  for place, hole in shown:gmatch "()(%.+)" do table.insert(holes, { place = place - 1, count = #hole }) end
  return (shown:gsub("%.", "")), holes
end

local function behind(loaded)
  local place = 0
  for _ = 1, loaded do place = shown:find("[^.]", place + 1) end
  return place
end

for _ = 1, 3000 do
  shown = random_text(20, 5):gsub("[ab]", function() return math.random() < 0.4 and ".." or nil end)
  file.same, file.holes = session:shown()
  for loaded = 0, #file.same do expect(file:shown_place(loaded) == behind(loaded), "a place in a text with holes", shown, loaded) end
  local before, new = shown, file.same:gsub("[ab\n]", function() return math.random() < 0.3 and "xy" or nil end)
  local changes, most = text.differences(file.same, new), math.random(0, 9)
  if #file.holes == 0 then changes = text.together(file.same, changes) end
  for n = math.min(#changes, most), 1, -1 do
    local change = changes[n]
    local start, last = behind(change.start), behind(change.last)
    if start < last then start = behind(change.start + 1) - 1 end
    shown = shown:sub(1, start) .. change.text .. shown:sub(last + 1)
  end
  local wanted = shown
  shown, reads, taken = before, 0, most
  local refusal = file:replace(0, file.same, new)
  expect(shown == wanted and refusal == (#changes > most and 1 or nil), "edits round holes", before, new, shown, wanted)
  expect(reads <= 1, "the text is read more than once", before, new, reads)
  local same, holes = session:shown()
  expect(file.same == same and vim.deep_equal(file.holes, holes), "what is noted of holes", file.same, file.holes, shown)
end

return wrong
