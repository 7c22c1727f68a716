local ordering = {}

function ordering:less(a, b)
    return a % 10 < b % 10
end

function ordering:sort(l)
    l = table.move(l, 1, #l, 1, {})
    for i = 2, #l do
        local x = l[i]
        local j = i - 1
        while j > 0 and self:less(x, l[j]) do
            l[j + 1] = l[j]
            j = j - 1
        end
        l[j + 1] = x
    end
    return l
end

return function(n)
    local l = {57, 13, 99, 4, 76, 31, 68, 22, 85, 40, 11, 92}
    local x = 0
    for i = 1, n do
        local s = ordering:sort(l)
        x = x + s[1] + s[12]
    end
    return x
end
