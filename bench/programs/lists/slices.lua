local function part(l, from, to)
    return table.move(l, from, to, 1, {})
end

return function(n)
    local l = {}
    for i = 1, 10 do
        l[#l + 1] = i
    end
    local x = 0
    for i = 1, n do
        local k = i % 10 + 1
        local m = part(l, k, #l)
        table.move(l, 1, k - 1, #m + 1, m)
        x = x + m[1] + part(m, 2, 4)[2]
    end
    return x
end
