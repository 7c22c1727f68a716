local Stocked = {
    description = "A crate.",
    take_succeeded_message = "Taken.",
    remaining_stock_count = 1,
    remaining_stock_limit = 9,
    drop_succeeded_message = "Dropped.",
    last_stocked_at_time = 0,
}
Stocked.__index = Stocked

local function stocked(count)
    return setmetatable({remaining_stock_count = count}, Stocked)
end

local objects = {stocked(3), stocked(5), stocked(), stocked(7), stocked()}

return function(n)
    local things = objects
    local total_stock_of_things = 0
    for i = 1, n do
        for _, o in ipairs(things) do
            total_stock_of_things = total_stock_of_things + o.remaining_stock_count
        end
    end
    return total_stock_of_things
end
