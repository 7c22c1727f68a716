local taking = {}

function taking:take(a, b, c, d, e)
    return a
end

return function(n)
    local o = taking
    local x = 0
    for i = 1, n do
        x = x + o:take(i, 2, 3, 4, 5)
    end
    return x
end
