local Load = {weight = 1}
Load.__index = Load

function Load:load()
    local sum = self.weight
    for _, o in ipairs(self.contents) do
        sum = sum + o:load()
    end
    return sum
end

local function load_in(place, weight)
    local made = setmetatable({contents = {}, weight = weight}, Load)
    if place then
        place.contents[#place.contents + 1] = made
    end
    return made
end

local big_chest = load_in()
local small_chest = load_in(big_chest)
local purse = load_in(small_chest)
load_in(purse)
load_in(purse, 2)
load_in(big_chest, 5)
load_in(big_chest)

return function(n)
    local x = 0
    for i = 1, n do
        x = x + big_chest:load()
    end
    return x
end
