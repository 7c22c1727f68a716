local fibonacci = {}

function fibonacci:fib(n)
    if n < 2 then
        return n
    end
    return self:fib(n - 1) + self:fib(n - 2)
end

return function(n)
    local x = 0
    for i = 1, n do
        x = x + fibonacci:fib(10)
    end
    return x
end
