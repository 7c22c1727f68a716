local parity = {}

function parity:is_even(n)
    if n == 0 then
        return 1
    end
    return (self:is_odd(n - 1))
end

function parity:is_odd(n)
    if n == 0 then
        return 0
    end
    return (self:is_even(n - 1))
end

return function(n)
    local x = 0
    for i = 1, n do
        x = x + parity:is_even(20)
    end
    return x
end
