return function(n)
    local i = 0
    while i < n do
        i = i + 1
    end
    return i
end
