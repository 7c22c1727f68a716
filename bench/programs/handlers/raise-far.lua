local refusing = {}

function refusing:top(x)
    return self:second(x) + 1
end

function refusing:second(x)
    return self:third(x) + 1
end

function refusing:third(x)
    return self:last(x) + 1
end

function refusing:last(x)
    if x ~= 0 then
        error("No such thing.", 0)
    end
    return 0
end

return function(n)
    local y = 0
    for i = 1, n do
        local ok, value = pcall(refusing.top, refusing, i % 2)
        if ok then
            y = y + value
        else
            y = y + #value
        end
    end
    return y
end
