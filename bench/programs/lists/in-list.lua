local function has(l, e)
    for _, v in ipairs(l) do
        if v == e then
            return true
        end
    end
    return false
end

return function(n)
    local l = {"north", "south", "east", "west", "up", "down", "in", "out", "northeast", "northwest", "southeast", "southwest"}
    local x = 0
    for i = 1, n do
        if has(l, "southeast") then
            x = x + 1
        end
        if not has(l, "nowhere") then
            x = x + 2
        end
    end
    return x
end
