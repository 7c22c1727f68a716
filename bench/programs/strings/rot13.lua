local cipher = {from = "abcdefghijklmnopqrstuvwxyz", to = "nopqrstuvwxyzabcdefghijklm"}

function cipher:rot13(s)
    local parts = {}
    for i = 1, #s do
        local c = s:sub(i, i)
        local k = string.find(self.from, c, 1, true)
        parts[i] = k and self.to:sub(k, k) or c
    end
    return table.concat(parts)
end

return function(n)
    local s = "the quick brown fox!"
    for i = 1, n do
        s = cipher:rot13(s)
    end
    return s
end
