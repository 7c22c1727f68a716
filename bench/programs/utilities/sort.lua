local lists = {}

function lists:find_insert(lst, key)
    local r = #lst
    if r < 8 then
        for l = 1, r do
            if lst[l] > key then
                return l
            end
        end
        return r + 1
    end
    local l = 1
    while r >= l do
        local i = (r + l) // 2
        if key < lst[i] then
            r = i - 1
        else
            l = i + 1
        end
    end
    return l
end

function lists:sort(lst, keys)
    local sorted_lst, sorted_keys = {}, {}
    for e = 1, #lst do
        local k = self:find_insert(sorted_keys, keys[e])
        table.insert(sorted_keys, k, keys[e])
        table.insert(sorted_lst, k, lst[e])
    end
    return sorted_lst
end

return function(n)
    local names = {"oak", "elm", "ash", "fir", "yew", "box", "bay", "fig", "nut", "may", "tea", "sal"}
    local keys = {57, 13, 99, 4, 76, 31, 68, 22, 85, 40, 11, 92}
    local x = 0
    for i = 1, n do
        local s = lists:sort(names, keys)
        x = x + (s[1] == "fir" and 1 or 0) + (s[12] == "ash" and 1 or 0)
    end
    return x
end
