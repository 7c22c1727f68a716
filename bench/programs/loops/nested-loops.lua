return function(n)
    local x = 0
    for i = 1, n do
        for j = 1, 10 do
            for k = 1, 10 do
                x = x + j * k
            end
        end
    end
    return x
end
