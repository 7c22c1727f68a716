local function div(a, b)
    if b == 0 then
        error("E_DIV")
    end
    return a // b
end

return function(n)
    local y = 0
    for i = 1, n do
        local ok = pcall(function()
            local x = div(10, i % 2)
            y = y + x
        end)
        if not ok then
            y = y + 1
        end
    end
    return y
end
