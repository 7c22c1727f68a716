return function(n)
    local l = {57, 13, 99, 4, 76, 31, 68, 22, 85, 40, 11, 92, 64, 37, 5, 71, 28, 83, 49, 16}
    local x = 0
    for k = 1, n do
        local s = table.move(l, 1, #l, 1, {})
        for i = 2, #s do
            local v = s[i]
            local j = i - 1
            while j > 0 and s[j] > v do
                s[j + 1] = s[j]
                j = j - 1
            end
            s[j + 1] = v
        end
        x = x + s[1] + s[20]
    end
    return x
end
