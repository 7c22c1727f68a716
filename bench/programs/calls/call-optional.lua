local optional = {}

function optional:sum(a, b)
    if b == nil then b = 2 end
    return a + b
end

return function(n)
    local o = optional
    local x = 0
    for i = 1, n do
        x = x + o:sum(i)
        x = x + o:sum(i, 3)
    end
    return x
end
