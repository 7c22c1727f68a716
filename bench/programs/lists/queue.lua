return function(n)
    local q = {}
    for i = 1, 20 do
        q[#q + 1] = i
    end
    local x = 0
    for i = 1, n do
        q[#q + 1] = i
        x = x + q[1]
        table.remove(q, 1)
    end
    return x
end
