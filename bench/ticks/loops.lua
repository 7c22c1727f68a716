-- The loops in Lua: each function goes through 4,000 turns, and is called as often as the second argument says.
local Thing = {}
Thing.__index = Thing

function Thing.new()
    return setmetatable({ size = 0 }, Thing)
end

function Thing:id(x)
    return x
end

function Thing:kept(x)
    local y = x
    return y
end

local thing = Thing.new()

local function hundred()
    local l = {}
    for i = 1, 100 do
        l[i] = i
    end
    return l
end

local loops = {}

loops["while"] = function()
    local i = 0
    while i < 4000 do
        i = i + 1
    end
end

loops["arithmetic"] = function()
    local x = 0
    local i = 0
    while i < 4000 do
        x = x + i * 2 % 7
        i = i + 1
    end
end

loops["for-range"] = function()
    local x
    for i = 1, 4000 do
        x = i
    end
end

loops["for-list"] = function()
    local l = hundred()
    local y
    for j = 1, 40 do
        for _, x in ipairs(l) do
            y = x
        end
    end
end

loops["index-read"] = function()
    local l = hundred()
    local x
    local i = 0
    while i < 4000 do
        x = l[i % 100 + 1]
        i = i + 1
    end
end

loops["index-write"] = function()
    local l = hundred()
    local i = 0
    while i < 4000 do
        l[i % 100 + 1] = i
        i = i + 1
    end
end

loops["list-append"] = function()
    local j = 0
    while j < 40 do
        local l = {}
        local i = 0
        while i < 100 do
            l = { table.unpack(l) }
            l[#l + 1] = i
            i = i + 1
        end
        j = j + 1
    end
end

loops["string-append"] = function()
    local j = 0
    while j < 40 do
        local s = ""
        local i = 0
        while i < 100 do
            s = s .. "x"
            i = i + 1
        end
        j = j + 1
    end
end

loops["property-read"] = function()
    local x
    local i = 0
    while i < 4000 do
        x = thing.size
        i = i + 1
    end
end

loops["property-write"] = function()
    local i = 0
    while i < 4000 do
        thing.size = i
        i = i + 1
    end
end

loops["verb-call"] = function()
    local x
    local i = 0
    while i < 4000 do
        x = thing:id(i)
        i = i + 1
    end
end

loops["verb-statements"] = function()
    local x
    local i = 0
    while i < 4000 do
        x = thing:kept(i)
        i = i + 1
    end
end

loops["length"] = function()
    local l = { 1, 2, 3 }
    local x
    local i = 0
    while i < 4000 do
        x = #l
        i = i + 1
    end
end

loops["listappend"] = function()
    local j = 0
    while j < 40 do
        local l = {}
        local i = 0
        while i < 100 do
            table.insert(l, i)
            i = i + 1
        end
        j = j + 1
    end
end

loops["strsub"] = function()
    local x
    local i = 0
    while i < 4000 do
        x = string.gsub("the quick brown fox", "o", "0")
        i = i + 1
    end
end

loops["create-recycle"] = function()
    local o
    local i = 0
    while i < 4000 do
        o = Thing.new()
        o = nil
        i = i + 1
    end
end

loops["if-else"] = function()
    local x = 0
    local i = 0
    while i < 4000 do
        if i % 2 == 0 then
            x = x + 1
        else
            x = x - 1
        end
        i = i + 1
    end
end

loops["if-and"] = function()
    local x = 0
    local i = 0
    while i < 4000 do
        if i > 0 and i < 2000 then
            x = x + 1
        end
        i = i + 1
    end
end

loops["choice"] = function()
    local x
    local i = 0
    while i < 4000 do
        x = i < 2000 and 1 or 2
        i = i + 1
    end
end

loops["long-names"] = function()
    local result_value = 0
    local counter_number = 0
    while counter_number < 4000 do
        result_value = result_value + counter_number
        counter_number = counter_number + 1
    end
end

loops["typeof"] = function()
    local x = 0
    local i = 0
    while i < 4000 do
        if type(i) == "number" then x = i end
        i = i + 1
    end
end

loops["least"] = function()
    local x = 0
    local i = 0
    while i < 4000 do
        x = math.min(i, 7)
        i = i + 1
    end
end

loops["grid"] = function()
    local m = {{1, 2, 3}, {4, 5, 6}, {7, 8, 9}}
    local x = 0
    local i = 0
    while i < 4000 do
        x = x + m[i % 3 + 1][2]
        i = i + 1
    end
end

loops["characters"] = function()
    local s = "the quick brown fox"
    local x = 0
    local i = 0
    while i < 4000 do
        if s:sub(i % 19 + 1, i % 19 + 1) == "o" then
            x = i
        end
        i = i + 1
    end
end

loops["scatter"] = function()
    local l = {1, 2}
    local a, b
    local i = 0
    while i < 4000 do
        a, b = table.unpack(l)
        i = i + 1
    end
end

loops["many-properties"] = function()
    local thing = {}
    for number = 1, 30 do
        thing["property_" .. number] = number
    end
    local x
    local i = 0
    while i < 4000 do
        x = thing.property_20
        i = i + 1
    end
end

loops["new-list"] = function()
    local x
    local i = 0
    while i < 4000 do
        x = {i, 2, 3}
        i = i + 1
    end
end

loops["last"] = function()
    local l = {1, 2, 3, 4, 5}
    local x
    local i = 0
    while i < 4000 do
        x = l[#l]
        i = i + 1
    end
end

loops["part"] = function()
    local l = {1, 2, 3, 4, 5}
    local x
    local i = 0
    while i < 4000 do
        x = {table.unpack(l, 2)}
        i = i + 1
    end
end

for task = 1, tonumber(arg[2]) do
    loops[arg[1]]()
end
