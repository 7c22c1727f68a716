local lists = {}

function lists:map_arg(object, verb, data)
    local results = {}
    for _, elt in ipairs(data) do
        results[#results + 1] = object[verb](object, elt)
    end
    return results
end

function lists:double(x)
    return 2 * x
end

return function(n)
    local l = {1, 2, 3, 4, 5, 6, 7, 8, 9, 10}
    local x = 0
    for i = 1, n do
        local r = lists:map_arg(lists, "double", l)
        x = x + r[10]
    end
    return x
end
