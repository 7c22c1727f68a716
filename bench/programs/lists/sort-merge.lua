local merging = {}

function merging:sort(l)
    local len = #l
    if len < 2 then
        return l
    end
    local half = len // 2
    return (self:merge(self:sort(table.move(l, 1, half, 1, {})), self:sort(table.move(l, half + 1, len, 1, {}))))
end

function merging:merge(a, b)
    local la, lb = #a, #b
    local r = {}
    local i, j = 1, 1
    while i <= la and j <= lb do
        if a[i] <= b[j] then
            r[#r + 1] = a[i]
            i = i + 1
        else
            r[#r + 1] = b[j]
            j = j + 1
        end
    end
    table.move(a, i, la, #r + 1, r)
    return table.move(b, j, lb, #r + 1, r)
end

return function(n)
    local l = {57, 13, 99, 4, 76, 31, 68, 22, 85, 40, 11, 92, 64, 37, 5, 71, 28, 83, 49, 16}
    local x = 0
    for k = 1, n do
        local s = merging:sort(l)
        x = x + s[1] + s[20]
    end
    return x
end
