local Weighty = {weight = 2}
Weighty.__index = Weighty

function Weighty:heavier(other)
    return self.weight > other
end

local Furniture = setmetatable({}, Weighty)
Furniture.__index = Furniture

local chair = setmetatable({weight = 700}, Furniture)

return function(n)
    local o = chair
    local x = 0
    for i = 1, n do
        if o:heavier(i) then
            x = x + 1
        end
    end
    return x
end
