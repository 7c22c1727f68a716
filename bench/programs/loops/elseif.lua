return function(n)
    local a, b, c, d, e = 0, 0, 0, 0, 0
    for i = 1, n do
        local k = i % 7
        if k == 0 then
            a = a + 1
        elseif k == 1 then
            b = b + 1
        elseif k < 3 then
            c = c + 1
        elseif k == 5 and i % 2 == 1 then
            d = d + 1
        else
            e = e + 1
        end
    end
    return a + 10 * b + 100 * c + 1000 * d + 10000 * e
end
