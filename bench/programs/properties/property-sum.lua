local Heavy = {weight = 1}
Heavy.__index = Heavy

local function heavy(weight)
    return setmetatable({weight = weight}, Heavy)
end

local objects = {heavy(3), heavy(5), heavy(), heavy(7), heavy()}

return function(n)
    local things = objects
    local x = 0
    for i = 1, n do
        for _, o in ipairs(things) do
            x = x + o.weight
        end
    end
    return x
end
