return function(n)
    local words = {"take", "drop", "give", "throw"}
    local x = 0
    for i = 1, n do
        local w = words[i % 4 + 1]
        if w == "take" then
            x = x + 1
        elseif w == "drop" then
            x = x + 2
        elseif w == "give" then
            x = x + 3
        elseif w == "throw" then
            x = x + 4
        end
    end
    return x
end
