return function(n)
    local x = 0
    for j = 1, n do
        local l = {}
        for i = 1, 40 do
            if i % 2 == 1 then
                table.insert(l, 1, i)
            else
                l[#l + 1] = i
            end
        end
        x = x + l[1] + l[#l]
    end
    return x
end
