local word_utils = {}

function word_utils:words(line)
    local words = {}
    local word = ""
    local quoted = false
    for i = 1, #line do
        local c = line:sub(i, i)
        if c == "'" then
            quoted = not quoted
        elseif c == " " and not quoted then
            if word ~= "" then
                words[#words + 1] = word
                word = ""
            end
        else
            word = word .. c
        end
    end
    if word ~= "" then
        words[#words + 1] = word
    end
    return words
end

return function(n)
    local x = 0
    for i = 1, n do
        x = x + #word_utils:words("put 'the old lamp' on table")
    end
    return x
end
