local system = {options = {width = 79, margin = 4}}

return function(n)
    local x = 0
    for i = 1, n do
        x = x + system.options.width - system.options.margin
    end
    return x
end
