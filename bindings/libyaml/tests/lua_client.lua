-- lua-yaml over a file: its tokens, its events, and what it emits of the events.
--
--     lua_client.lua FILE..
local yaml = require 'yaml'

local function show(value)
  if type(value) ~= 'table' then
    return tostring(value)
  end
  local lines = {}
  for key, held in pairs(value) do
    lines[#lines + 1] = tostring(key) .. '=' .. show(held)
  end
  table.sort(lines)
  return '{' .. table.concat(lines, ', ') .. '}'
end

-- All that an iterator gives, each shown in a line; a fault after them.
local function list(iterator, text)
  local found = {}
  local is_read, problem = pcall(function()
    for it in iterator(text) do
      found[#found + 1] = it
      print(show(it))
    end
  end)
  if not is_read then
    print(problem)
  end
  return found
end

-- Emits the events. libyaml reads on past the end of a tag that isn't UTF-8, so that none beyond ASCII is given.
local function emit(events)
  local emitter, told, text = yaml.emitter(), true, nil
  for _, it in ipairs(events) do
    if it.tag and it.tag:find('[\128-\255]') then
      return print('a tag beyond ASCII')
    end
    told, text = emitter.emit(it)
    if not told then
      break
    end
  end
  print(told, text)
end

for _, path in ipairs(arg) do
  print('\n@@ ' .. path)
  local file = io.open(path, 'rb')
  local text = file:read('*a')
  file:close()
  list(yaml.scanner, text)
  local is_emitted, problem = pcall(emit, list(yaml.parser, text))
  if not is_emitted then
    print(problem)
  end
end
