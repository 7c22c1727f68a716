-- Six tables, each below the one before, with the verbs of bench/verbs/names.txt as functions that return their first argument.
local function first(self, value)
    return value
end

local core, above, level = {}, nil, 0
for line in io.lines((arg[0]:gsub("programs/play.lua$", "verbs/names.txt"))) do
    local kind = setmetatable({}, above)
    kind.__index = kind
    for name in line:gmatch("%S+") do kind[name:gsub("%*", "")] = first end
    level = level + 1
    core["Core" .. level] = kind
    above = kind
end
return core
