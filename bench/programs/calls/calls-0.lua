local taking = {}

function taking:take()
    return 1
end

return function(n)
    local o = taking
    local x = 0
    for i = 1, n do
        x = x + o:take()
    end
    return x
end
