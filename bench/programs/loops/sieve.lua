local primes = {}

function primes:sieve(limit)
    local marks = {}
    for i = 1, limit do
        marks[#marks + 1] = true
    end
    local found = {}
    for i = 2, limit do
        if marks[i] then
            found[#found + 1] = i
            local k = i * i
            while k <= limit do
                marks[k] = false
                k = k + i
            end
        end
    end
    return found
end

return function(n)
    local x = 0
    for i = 1, n do
        x = x + #primes:sieve(150)
    end
    return x
end
