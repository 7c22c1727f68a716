return function(n)
    local x = 0
    for j = 1, n do
        local l = {}
        for i = 1, 50 do
            table.insert(l, 1, i)
        end
        x = x + l[1] + l[#l]
    end
    return x
end
