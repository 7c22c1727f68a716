return function(n)
    local x = 0
    for i = 1, n do
        local s = ""
        for j = 1, 40 do
            s = s .. "x"
        end
        x = x + #s
    end
    return x
end
