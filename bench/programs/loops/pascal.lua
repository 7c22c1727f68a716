return function(n)
    local x = 0
    for i = 1, n do
        local row = {1}
        for k = 1, 9 do
            local next = {1}
            for j = 2, #row do
                next[#next + 1] = row[j - 1] + row[j]
            end
            next[#next + 1] = 1
            row = next
        end
        x = x + row[5]
    end
    return x
end
