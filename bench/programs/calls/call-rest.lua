local rest = {}

function rest:rest(a, b, ...)
    if b == nil then b = 2 end
    return {...}
end

return function(n)
    local l = {1, 2, 3, 4}
    local x = 0
    for i = 1, n do
        x = x + #rest:rest(table.unpack(l))
    end
    return x
end
