local plain_thing = {weight = 3}

return function(n)
    local o = plain_thing
    local y = 0
    for i = 1, n do
        y = y + (o.opaque or 1) + (o.weight or 0)
    end
    return y
end
