local both_ends = {}

function both_ends:is_palindrome(s)
    local i, j = 1, #s
    while i < j do
        if s:sub(i, i) ~= s:sub(j, j) then
            return 0
        end
        i = i + 1
        j = j - 1
    end
    return 1
end

return function(n)
    local x = 0
    for i = 1, n do
        x = x + both_ends:is_palindrome("amanaplanacanalpanama")
    end
    return x
end
