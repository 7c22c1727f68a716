return function(n)
    local s = "the quick brown fox jumps over the lazy dog"
    local x = 0
    for i = 1, n do
        for j = 1, #s do
            local c = s:sub(j, j)
            if c == "a" or c == "e" or c == "o" then
                x = x + 1
            end
        end
    end
    return x
end
