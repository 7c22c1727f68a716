local capital = {small = "abcdefghijklmnopqrstuvwxyz", large = "ABCDEFGHIJKLMNOPQRSTUVWXYZ"}

function capital:capitalize(string_)
    local i = string_ ~= "" and string.find(self.small, string_:sub(1, 1), 1, true)
    if i then
        string_ = self.large:sub(i, i) .. string_:sub(2)
    end
    return string_
end

return function(n)
    local names = {"oak table", "Brass lamp"}
    local x = 0
    for i = 1, n do
        if capital:capitalize(names[i % 2 + 1]) == "Oak table" then
            x = x + 1
        end
    end
    return x
end
