return function(n)
    local m = {{0, 0, 0, 0}, {0, 0, 0, 0}, {0, 0, 0, 0}, {0, 0, 0, 0}}
    for i = 1, n do
        local r = i % 4 + 1
        local c = i % 3 + 1
        m[r][c] = m[r][c] + i
    end
    return m[2][2]
end
