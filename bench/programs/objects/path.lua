local Site = {}
Site.__index = Site

local function has(l, e)
    for _, v in ipairs(l) do
        if v == e then
            return true
        end
    end
    return false
end

function Site:distance(goal)
    local seen = {self}
    local steps = {0}
    local at = 1
    while at <= #seen do
        if seen[at] == goal then
            return steps[at]
        end
        for _, next in ipairs(seen[at].exits) do
            if not has(seen, next) then
                seen[#seen + 1] = next
                steps[#steps + 1] = steps[at] + 1
            end
        end
        at = at + 1
    end
    return -1
end

local sites = {}
for i = 1, 8 do
    sites[i] = setmetatable({}, Site)
end
for place, exits in ipairs({{2, 3}, {1, 4}, {1, 5, 6}, {2, 5}, {3, 4, 7}, {3}, {5, 8}, {7}}) do
    sites[place].exits = {}
    for i, number in ipairs(exits) do
        sites[place].exits[i] = sites[number]
    end
end

return function(n)
    local x = 0
    for i = 1, n do
        x = x + sites[1]:distance(sites[8])
    end
    return x
end
