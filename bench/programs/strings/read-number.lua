local reading = {}

function reading:sum(s)
    local sum, number = 0, 0
    for i = 1, #s do
        local d = string.find("0123456789", s:sub(i, i), 1, true)
        if d then
            number = number * 10 + d - 1
        else
            sum = sum + number
            number = 0
        end
    end
    return sum + number
end

return function(n)
    local x = 0
    for i = 1, n do
        x = x + reading:sum("12, 345 and 6789")
    end
    return x
end
