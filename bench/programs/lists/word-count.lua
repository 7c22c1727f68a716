local function place(l, e)
    for i, v in ipairs(l) do
        if v == e then
            return i
        end
    end
end

return function(n)
    local l = {"the", "cat", "and", "the", "dog", "and", "the", "bird", "saw", "a", "cat", "and", "a", "dog", "in", "the", "tree", "by", "the", "lake"}
    local x = 0
    for i = 1, n do
        local words, counts = {}, {}
        for _, w in ipairs(l) do
            local k = place(words, w)
            if k then
                counts[k] = counts[k] + 1
            else
                words[#words + 1] = w
                counts[#counts + 1] = 1
            end
        end
        x = x + counts[1] + #words
    end
    return x
end
