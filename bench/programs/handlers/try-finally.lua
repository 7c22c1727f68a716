local function div(a, b)
    if b == 0 then
        error("E_DIV")
    end
    return a // b
end

return function(n)
    local y, z = 0, 0
    for i = 1, n do
        local outer = pcall(function()
            local ok, e = pcall(function()
                local x = div(10, i % 2)
                y = y + x
            end)
            z = z + 1
            if not ok then
                error(e, 0)
            end
        end)
        if not outer then
            y = y + 1
        end
    end
    return y + z
end
