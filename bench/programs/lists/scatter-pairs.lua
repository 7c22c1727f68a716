return function(n)
    local l = {{1, 2}, {3, 4}, {5, 6}, {7, 8}, {9, 10}}
    local x = 0
    for i = 1, n do
        for _, pair in ipairs(l) do
            local a, b = table.unpack(pair)
            x = x + a * b
        end
    end
    return x
end
