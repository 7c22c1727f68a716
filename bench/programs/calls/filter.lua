local filters = {}

function filters:filter(l)
    local r = {}
    for _, x in ipairs(l) do
        if self:wanted(x) then
            r[#r + 1] = x
        end
    end
    return r
end

function filters:wanted(x)
    return x % 3 == 0
end

return function(n)
    local l = {}
    for i = 1, 50 do
        l[#l + 1] = i
    end
    local x = 0
    for i = 1, n do
        x = x + #filters:filter(l)
    end
    return x
end
