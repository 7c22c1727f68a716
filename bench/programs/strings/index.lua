local function rindex(s, t)
    local last, i = 0, string.find(s, t, 1, true)
    while i do
        last = i
        i = string.find(s, t, i + 1, true)
    end
    return last
end

return function(n)
    local s = "the quick brown fox jumps over the lazy dog"
    local x = 0
    for i = 1, n do
        x = x + (string.find(s, "jumps", 1, true) or 0) + (string.find(s, "cat", 1, true) or 0) + rindex(s, " ")
    end
    return x
end
