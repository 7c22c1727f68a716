return function(n)
    local x = 12345
    for i = 1, n do
        x = (x * 171 + 11213) % 53125
    end
    return x
end
