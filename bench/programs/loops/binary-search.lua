local searching = {}

function searching:find(l, key)
    local low, high = 1, #l
    while low <= high do
        local middle = (low + high) // 2
        if l[middle] < key then
            low = middle + 1
        elseif l[middle] > key then
            high = middle - 1
        else
            return middle
        end
    end
    return 0
end

return function(n)
    local l = {}
    for i = 1, 100 do
        l[#l + 1] = 3 * i
    end
    local x = 0
    for i = 1, n do
        x = x + searching:find(l, i * 7 % 300)
    end
    return x
end
