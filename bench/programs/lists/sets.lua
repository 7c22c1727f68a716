local set_utils = {}

local function place(l, e)
    for i, v in ipairs(l) do
        if v == e then
            return i
        end
    end
end

function set_utils:union(set, other)
    set = table.move(set, 1, #set, 1, {})
    for _, e in ipairs(other) do
        if not place(set, e) then
            set[#set + 1] = e
        end
    end
    return set
end

function set_utils:intersection(set, other)
    local both = {}
    for _, e in ipairs(set) do
        if place(other, e) then
            both[#both + 1] = e
        end
    end
    return both
end

function set_utils:difference(set, other)
    set = table.move(set, 1, #set, 1, {})
    for _, e in ipairs(other) do
        local i = place(set, e)
        if i then
            table.remove(set, i)
        end
    end
    return set
end

return function(n)
    local a = {1, 2, 3, 4, 5, 6, 7, 8, 9, 10}
    local b = {2, 4, 6, 8, 10, 12, 14, 16, 18, 20}
    local x = 0
    for i = 1, n do
        x = x + #set_utils:union(a, b) + #set_utils:intersection(a, b) + #set_utils:difference(a, b)
    end
    return x
end
