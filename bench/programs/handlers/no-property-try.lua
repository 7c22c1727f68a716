local bare_thing = setmetatable({weight = 3}, {__index = function()
    error("E_PROPNF")
end})

return function(n)
    local o = bare_thing
    local y = 0
    for i = 1, n do
        local ok = pcall(function()
            y = y + o.opaque
        end)
        if not ok then
            y = y + 1
        end
    end
    return y
end
