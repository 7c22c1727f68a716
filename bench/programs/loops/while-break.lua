return function(n)
    local x = 0
    for i = 1, n do
        local k = 0
        while true do
            k = k + 1
            if k % 2 == 0 then
                for j = 1, 3 do
                    if k * k + j > 200 + i then
                        goto done
                    end
                end
            end
        end
        ::done::
        x = x + k
    end
    return x
end
