local function literal(value)
    if type(value) == "table" then
        local parts = {}
        for i, v in ipairs(value) do
            parts[i] = literal(v)
        end
        return "{" .. table.concat(parts, ", ") .. "}"
    elseif type(value) == "string" then
        return '"' .. value .. '"'
    end
    return tostring(value)
end

return function(n)
    local x = 0
    for i = 1, n do
        x = x + #literal({i, "lamp", {1, 2, 3}})
    end
    return x
end
