local locking = {locked = 0}

function locking:read(x)
    self.locked = 1
    local ok, value = pcall(function()
        return x + 1
    end)
    self.locked = 0
    if not ok then
        error(value, 0)
    end
    return value
end

return function(n)
    local y = 0
    for i = 1, n do
        y = y + locking:read(i)
    end
    return y + locking.locked
end
