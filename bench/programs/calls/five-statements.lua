local five = {}

function five:five(a, b)
    local c = a + b
    local d = c * 2
    local e = d - a
    return e
end

return function(n)
    local o = five
    local x = 0
    for i = 1, n do
        x = x + o:five(i, 7)
    end
    return x
end
