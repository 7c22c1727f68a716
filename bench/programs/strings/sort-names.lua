return function(n)
    local l = {"walnut", "oak", "birch", "elm", "maple", "cedar", "ash", "willow"}
    local x = 0
    for k = 1, n do
        local s = table.move(l, 1, #l, 1, {})
        for i = 1, #s - 1 do
            for j = 1, #s - i do
                if s[j + 1] < s[j] then
                    local t = s[j]
                    s[j] = s[j + 1]
                    s[j + 1] = t
                end
            end
        end
        x = x + #s[1] + #s[8]
    end
    return x
end
