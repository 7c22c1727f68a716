local Mapped = {owner_name = "nobody"}
Mapped.__index = Mapped

function Mapped:map_prop(objects, prop)
    local values = {}
    for _, o in ipairs(objects) do
        values[#values + 1] = o[prop]
    end
    return values
end

local function mapped(owner_name)
    return setmetatable({owner_name = owner_name}, Mapped)
end

local objects = {mapped(), mapped("Frances"), mapped(), mapped("Bob"), mapped()}

return function(n)
    local x = 0
    for i = 1, n do
        x = x + #table.concat(Mapped:map_prop(objects, "owner_name"))
    end
    return x
end
