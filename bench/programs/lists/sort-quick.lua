local quick = {}

function quick:sort(l)
    if #l < 2 then
        return l
    end
    local pivot = l[1]
    local low, high = {}, {}
    for i = 2, #l do
        local v = l[i]
        if v < pivot then
            low[#low + 1] = v
        else
            high[#high + 1] = v
        end
    end
    local sorted = table.move(self:sort(low), 1, #low, 1, {})
    sorted[#sorted + 1] = pivot
    return table.move(self:sort(high), 1, #high, #sorted + 1, sorted)
end

return function(n)
    local l = {57, 13, 99, 4, 76, 31, 68, 22, 85, 40, 11, 92, 64, 37, 5, 71, 28, 83, 49, 16}
    local x = 0
    for k = 1, n do
        local s = quick:sort(l)
        x = x + s[1] + s[20]
    end
    return x
end
