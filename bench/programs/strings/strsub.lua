return function(n)
    local x = 0
    for i = 1, n do
        local s = string.gsub("You take %d from %i.", "%%d", "the lamp")
        s = string.gsub(s, "%%i", "the chest")
        s = string.gsub(s, "%%n", "Frances")
        x = x + #s
    end
    return x
end
