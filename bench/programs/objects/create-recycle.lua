local Made = {weight = 1, made = 0}
Made.__index = Made

function Made.create()
    local o = setmetatable({}, Made)
    o.weight = 2
    return o
end

function Made:recycle()
    Made.made = Made.made + self.weight
end

return function(n)
    Made.made = 0
    for i = 1, n do
        local o = Made.create()
        o.name = "thing"
        o:recycle()
        o = nil
    end
    return Made.made
end
