local matrices = {}

function matrices:product(a, b)
    local size = #a
    local c = {}
    for i = 1, size do
        local row = {}
        for j = 1, size do
            local sum = 0
            for k = 1, size do
                sum = sum + a[i][k] * b[k][j]
            end
            row[#row + 1] = sum
        end
        c[#c + 1] = row
    end
    return c
end

return function(n)
    local a = {{1, 2, 3, 4}, {5, 6, 7, 8}, {9, 10, 11, 12}, {13, 14, 15, 16}}
    local b = {{2, 0, 1, 0}, {0, 2, 0, 1}, {1, 0, 2, 0}, {0, 1, 0, 2}}
    local x = 0
    for i = 1, n do
        local c = matrices:product(a, b)
        x = x + c[2][3]
    end
    return x
end
