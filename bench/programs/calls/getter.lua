local holder = {_count = 3, _limit = 5}

function holder:count()
    return self._count
end

function holder:limit()
    return self._limit
end

return function(n)
    local x = 0
    for i = 1, n do
        x = x + holder:count() + holder:limit()
    end
    return x
end
