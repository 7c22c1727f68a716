local queueing = {size = 0}

function queueing:bump(n, what)
    self.size = self.size + n % 3
    local m
    if what == "cat" and n > 2 then
        m = {n, what, self.size}
    else
        m = {}
    end
    return #m > 0 and m[3] or 0
end

return function(n)
    queueing.size = 0
    local x = 0
    for i = 1, n do
        x = x + queueing:bump(i, "cat")
    end
    return x
end
