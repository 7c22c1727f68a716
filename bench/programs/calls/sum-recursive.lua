local summing = {}

function summing:sum(l)
    return #l > 0 and l[1] + self:sum(table.move(l, 2, #l, 1, {})) or 0
end

return function(n)
    local l = {}
    for i = 1, 20 do
        l[#l + 1] = i
    end
    local x = 0
    for i = 1, n do
        x = x + summing:sum(l)
    end
    return x
end
