local core = require("core")

local far_thing = setmetatable({}, core.Core6)

return function(n)
    local o = far_thing
    local x = 0
    for i = 1, n do
        x = x + o:titlec(i) + o:notify(1)
    end
    return x
end
