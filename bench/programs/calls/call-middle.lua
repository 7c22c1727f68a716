local core = require("core")

local mid_thing = setmetatable({}, core.Core6)

return function(n)
    local o = mid_thing
    local x = 0
    for i = 1, n do
        x = x + o:description(i) + o:tell_lines(1) + o:check_quota(2)
    end
    return x
end
