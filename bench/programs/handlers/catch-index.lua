return function(n)
    local l = {1, 2, 3}
    local y = 0
    for i = 1, n do
        local x = l[2 + i % 2 * 2]
        if x == nil then
            x = 7
        end
        y = y + x
    end
    return y
end
