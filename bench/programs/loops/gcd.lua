local divisors = {}

function divisors:gcd(a, b)
    while b ~= 0 do
        local t = a % b
        a = b
        b = t
    end
    return a
end

return function(n)
    local x = 0
    for i = 1, n do
        x = x + divisors:gcd(1071 + i, 462)
    end
    return x
end
