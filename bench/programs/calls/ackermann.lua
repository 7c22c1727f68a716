local ackermann = {}

function ackermann:a(m, n)
    if m == 0 then
        return n + 1
    elseif n == 0 then
        return self:a(m - 1, 1)
    else
        return self:a(m - 1, self:a(m, n - 1))
    end
end

return function(n)
    local x = 0
    for i = 1, n do
        x = x + ackermann:a(2, 2)
    end
    return x
end
