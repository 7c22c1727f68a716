return function(n)
    local l = {}
    for i = 1, 100 do
        l[#l + 1] = i
    end
    local i = 0
    while i < n do
        l[i % 100 + 1] = l[i % 50 + 1] + 1
        i = i + 1
    end
    return l[7]
end
