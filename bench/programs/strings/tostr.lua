return function(n)
    local x = 0
    for i = 1, n do
        x = x + #("You have " .. i .. " coins and " .. i % 7 .. " stamps.")
    end
    return x
end
