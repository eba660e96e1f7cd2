-- A bank: customers come, wait and are served. Each is a coroutine, so that part of the state is where each of them stands. An event is one
-- call of `event`; what it does hangs on nothing but the state, in which the generator of random numbers lies, too.
math.randomseed(42)

local waiting, words = {}, {}
local came, served, left = 0, 0, 0

local function customer(name)
  local patience = math.random(2, 12)
  local story = name .. " came"
  for turn = 1, patience do
    local is_called = coroutine.yield()
    if is_called then
      served = served + 1
      return story .. ", was served after " .. turn
    end
    story = story .. "."
  end
  left = left + 1
  return story .. ", went"
end

local function come()
  came = came + 1
  local guest = coroutine.create(customer)
  coroutine.resume(guest, string.format("customer %d", came))
  waiting[#waiting + 1] = guest
end

function event(now)
  for _ = 1, math.random(0, 3) do come() end
  local called = #waiting > 0 and math.random(#waiting)
  for k = #waiting, 1, -1 do
    local _, story = coroutine.resume(waiting[k], k == called)
    if coroutine.status(waiting[k]) == "dead" then
      table.remove(waiting, k)
      words[story:match("%S+$")] = story
    end
  end
  if now % 100 == 0 then
    words.memory = select(2, pcall(string.rep, "a block that is too long ", 10000))
  end
end

function report()
  print(string.format("%d customers came, %d were served, %d went, %d wait", came, served, left, #waiting))
  local keys = {}
  for key in pairs(words) do keys[#keys + 1] = key end
  table.sort(keys)
  for _, key in ipairs(keys) do print(key, words[key]) end
end
