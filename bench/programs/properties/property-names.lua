local pronouns = {ps = "she", po = "her", pp = "hers"}

return function(n)
    local o = pronouns
    local names = {"ps", "po", "pp"}
    local x = 0
    for i = 1, n do
        for _, name in ipairs(names) do
            x = x + #o[name]
        end
    end
    return x
end
