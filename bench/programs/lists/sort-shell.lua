return function(n)
    local l = {57, 13, 99, 4, 76, 31, 68, 22, 85, 40, 11, 92, 64, 37, 5, 71, 28, 83, 49, 16}
    local len = #l
    local x = 0
    for k = 1, n do
        local s = table.move(l, 1, #l, 1, {})
        local gap = len // 2
        while gap > 0 do
            for i = gap + 1, len do
                local v = s[i]
                local j = i
                while j > gap and s[j - gap] > v do
                    s[j] = s[j - gap]
                    j = j - gap
                end
                s[j] = v
            end
            gap = gap // 2
        end
        x = x + s[1] + s[20]
    end
    return x
end
