local queens = {}

function queens:place(row, size, columns)
    if row > size then
        return 1
    end
    local count = 0
    for c = 1, size do
        local free = true
        for r = 1, row - 1 do
            local d = columns[r] - c
            if d == 0 or d == row - r or d == r - row then
                free = false
                break
            end
        end
        if free then
            local more = table.move(columns, 1, #columns, 1, {})
            more[#more + 1] = c
            count = count + self:place(row + 1, size, more)
        end
    end
    return count
end

return function(n)
    local x = 0
    for i = 1, n do
        x = x + queens:place(1, 5, {})
    end
    return x
end
