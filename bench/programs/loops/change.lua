return function(n)
    local coins = {1, 5, 10, 25}
    local x = 0
    for i = 1, n do
        local ways = {1}
        for k = 1, 50 do
            ways[#ways + 1] = 0
        end
        for _, coin in ipairs(coins) do
            for sum = coin, 50 do
                ways[sum + 1] = ways[sum + 1] + ways[sum + 1 - coin]
            end
        end
        x = x + ways[51]
    end
    return x
end
