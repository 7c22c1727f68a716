local strings = {}

function strings:explode(subject, breakit)
    breakit = (breakit or " "):sub(1, 1)
    subject = subject .. breakit
    local parts = {}
    while subject ~= "" do
        local i = string.find(subject, breakit, 1, true)
        if i > 1 then
            parts[#parts + 1] = subject:sub(1, i - 1)
        end
        subject = subject:sub(i + 1)
    end
    return parts
end

return function(n)
    local x = 0
    for i = 1, n do
        x = x + #strings:explode("the quick brown fox jumps over the lazy dog")
    end
    return x
end
