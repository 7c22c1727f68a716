local replacing = {}

function replacing:replace(text, old, new)
    local done = ""
    local i = string.find(text, old, 1, true)
    while i do
        done = done .. text:sub(1, i - 1) .. new
        text = text:sub(i + #old)
        i = string.find(text, old, 1, true)
    end
    return done .. text
end

return function(n)
    local x = 0
    for i = 1, n do
        x = x + #replacing:replace("the cat and the dog and the bird", "the", "one")
    end
    return x
end
