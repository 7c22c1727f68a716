return function(n)
    local l = {}
    for i = 1, 20 do
        l[#l + 1] = i
    end
    local x = 0
    for i = 1, n do
        for _, v in ipairs(l) do
            x = x + v
        end
    end
    return x
end
