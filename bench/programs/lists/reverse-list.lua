local reversing = {}

function reversing:reverse(l)
    local r = {}
    local i = #l
    while i > 0 do
        r[#r + 1] = l[i]
        i = i - 1
    end
    return r
end

return function(n)
    local l = {}
    for i = 1, 20 do
        l[#l + 1] = i
    end
    local x = 0
    for i = 1, n do
        l = reversing:reverse(l)
        x = x + l[1]
    end
    return x
end
