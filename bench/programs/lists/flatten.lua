local flattening = {}

function flattening:flatten(l)
    local flat = {}
    for _, e in ipairs(l) do
        if type(e) == "table" then
            local inner = self:flatten(e)
            table.move(inner, 1, #inner, #flat + 1, flat)
        else
            flat[#flat + 1] = e
        end
    end
    return flat
end

return function(n)
    local l = {1, {2, {3, 4}, 5}, {6, 7}, {{8}, 9}, 10}
    local x = 0
    for i = 1, n do
        x = x + #flattening:flatten(l)
    end
    return x
end
