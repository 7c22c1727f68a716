return function(n)
    local x = 0
    for i = 1, n do
        local k = i
        local steps = 0
        while k ~= 1 do
            if k % 2 == 0 then
                k = k // 2
            else
                k = 3 * k + 1
            end
            steps = steps + 1
        end
        x = x + steps
    end
    return x
end
