local function equal(a, b)
    if type(a) ~= "table" or type(b) ~= "table" then
        return a == b
    end
    if #a ~= #b then
        return false
    end
    for i, v in ipairs(a) do
        if not equal(v, b[i]) then
            return false
        end
    end
    return true
end

return function(n)
    local a = {{1, "north"}, {2, "south"}, {3, "east"}}
    local b = {{1, "north"}, {2, "south"}, {3, "east"}}
    local c = {{1, "north"}, {2, "south"}, {3, "west"}}
    local x = 0
    for i = 1, n do
        if equal(a, b) then
            x = x + 1
        end
        if not equal(a, c) then
            x = x + 2
        end
    end
    return x
end
