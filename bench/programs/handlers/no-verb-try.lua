local core = require("core")

local deaf_thing = setmetatable({}, core.Core6)

return function(n)
    local o = deaf_thing
    local y = 0
    for i = 1, n do
        local ok = pcall(function()
            y = y + o:weight(i)
        end)
        if not ok then
            y = y + 1
        end
    end
    return y
end
