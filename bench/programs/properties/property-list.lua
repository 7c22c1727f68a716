local board = {cells = {0, 0, 0, 0, 0, 0, 0, 0, 0, 0}}

return function(n)
    local b = board
    for i = 1, 10 do
        b.cells[i] = 0
    end
    for i = 1, n do
        local k = i % 10 + 1
        b.cells[k] = b.cells[k] + i
    end
    return b.cells[3]
end
