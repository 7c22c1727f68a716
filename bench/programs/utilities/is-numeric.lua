local numeric = {}

function numeric:is_numeric(s)
    if s == "" then
        return 0
    end
    for i = s:sub(1, 1) == "-" and 2 or 1, #s do
        if not string.find("0123456789", s:sub(i, i), 1, true) then
            return 0
        end
    end
    return s ~= "-" and 1 or 0
end

return function(n)
    local words = {"-12345", "lamp", "7", "12b"}
    local x = 0
    for i = 1, n do
        x = x + numeric:is_numeric(words[i % 4 + 1])
    end
    return x
end
