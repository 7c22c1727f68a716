local function div(a, b)
    if b == 0 then
        error("E_DIV")
    end
    return a // b
end

return function(n)
    local y = 0
    for i = 1, n do
        local ok, x = pcall(div, 100, i)
        y = y + (ok and x or 0)
    end
    return y
end
