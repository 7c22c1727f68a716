return function(n)
    local x = 0
    for j = 1, n do
        local l = {}
        for i = 1, 50 do
            l[#l + 1] = i
        end
        for _, v in ipairs(l) do
            x = x + v
        end
    end
    return x
end
