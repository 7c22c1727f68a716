-- Plays programs in Lua, as play.py does in Python.
package.path = arg[0]:gsub("play.lua$", "?.lua")
io.stdout:setvbuf("full")

local function say(text)
    io.stdout:write(text, "\n")
    io.stdout:flush()
end

for line in io.lines() do
    local name, file, turns, times = line:match("(%S+) (%S+) (%S+) (%S+)")
    local run = dofile(file)
    turns, times = tonumber(turns), tonumber(times)
    for _ = 1, 10 do run(1) end
    collectgarbage()
    say("ready")
    local answer
    for _ = 1, times do answer = run(turns) end
    say(name .. " = " .. tostring(answer))
end
