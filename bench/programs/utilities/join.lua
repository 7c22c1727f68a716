local strings = {}

function strings:from_list(thelist, separator)
    separator = separator or ""
    if separator == "" then
        return table.concat(thelist)
    elseif #thelist > 0 then
        local result = tostring(thelist[1])
        for i = 2, #thelist do
            result = result .. separator .. thelist[i]
        end
        return result
    else
        return ""
    end
end

return function(n)
    local l = {"the", "quick", "brown", "fox", "jumps", "over", "the", "lazy", "dog"}
    local x = 0
    for i = 1, n do
        x = x + #strings:from_list(l, ", ")
    end
    return x
end
