local life = {}

function life:step(board)
    local size = #board
    local next = {}
    for r = 1, size do
        local row = {}
        for c = 1, size do
            local count = 0
            for dr = math.max(1, r - 1), math.min(size, r + 1) do
                for dc = math.max(1, c - 1), math.min(size, c + 1) do
                    count = count + board[dr][dc]
                end
            end
            row[#row + 1] = (count == 3 or (count == 4 and board[r][c] == 1)) and 1 or 0
        end
        next[#next + 1] = row
    end
    return next
end

return function(n)
    local board = {{0, 1, 0, 0, 0, 0}, {0, 0, 1, 0, 0, 0}, {1, 1, 1, 0, 0, 0}, {0, 0, 0, 0, 0, 0}, {0, 0, 0, 0, 1, 1}, {0, 0, 0, 0, 1, 1}}
    for i = 1, n do
        board = life:step(board)
    end
    local x = 0
    for _, row in ipairs(board) do
        for _, cell in ipairs(row) do
            x = 2 * x % 10007 + cell
        end
    end
    return x
end
