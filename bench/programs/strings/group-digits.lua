local digits = {}

function digits:group(number)
    local s = tostring(number)
    local r = ""
    while #s > 3 do
        r = "," .. s:sub(-3) .. r
        s = s:sub(1, -4)
    end
    return s .. r
end

return function(n)
    local x = 0
    for i = 1, n do
        local s = digits:group(1234567 + i)
        x = x + #s + tonumber(s:sub(-1))
    end
    return x
end
