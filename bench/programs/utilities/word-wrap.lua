local wrapping = {}

function wrapping:wrap(text, width)
    local lines = {}
    while #text > width do
        local cut = text:sub(1, width + 1):match("^.*() ")
        if cut then
            lines[#lines + 1] = text:sub(1, cut - 1)
            text = text:sub(cut + 1)
        else
            lines[#lines + 1] = text:sub(1, width)
            text = text:sub(width + 1)
        end
    end
    lines[#lines + 1] = text
    return lines
end

return function(n)
    local text = "You see a large room with a high ceiling, an oak table and six chairs. On the north wall hangs a portrait of an old man with a beard."
    local x = 0
    for i = 1, n do
        for _, line in ipairs(wrapping:wrap(text, 30)) do
            x = x + #line
        end
    end
    return x
end
