local columns = {}

function columns:columnize(items, count, width)
    width = width or 60
    local rows = (#items + count - 1) // count
    local each = width // count
    local lines = {}
    for r = 1, rows do
        local line = ""
        for c = 0, count - 1 do
            local k = r + c * rows
            if k <= #items then
                local item = items[k]
                while #item < each do
                    item = item .. "    "
                end
                line = line .. item:sub(1, each)
            end
        end
        lines[#lines + 1] = line
    end
    return lines
end

return function(n)
    local names = {"oak", "elm", "ash", "fir", "yew", "box", "bay", "fig", "nut", "may"}
    local x = 0
    for i = 1, n do
        for _, line in ipairs(columns:columnize(names, 3)) do
            x = x + #line
        end
    end
    return x
end
