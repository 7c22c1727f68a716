local trimming = {}

function trimming:trim(s, space)
    space = space or " "
    local len = #s
    local i = 1
    while i <= len and s:sub(i, i) == space do
        i = i + 1
    end
    local j = len
    while j > i and s:sub(j, j) == space do
        j = j - 1
    end
    return s:sub(i, j)
end

return function(n)
    local x = 0
    for i = 1, n do
        x = x + #trimming:trim("   the old lamp  ")
    end
    return x
end
