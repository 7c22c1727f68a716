local mirror = {}

function mirror:reverse(s)
    local r = ""
    for i = 1, #s do
        r = s:sub(i, i) .. r
    end
    return r
end

return function(n)
    local s = "the quick brown fox!"
    for i = 1, n do
        s = mirror:reverse(s)
    end
    return s
end
