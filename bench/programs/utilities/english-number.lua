local numbers = {
    ones = {
        "one", "two", "three", "four", "five", "six", "seven", "eight", "nine", "ten", "eleven", "twelve", "thirteen", "fourteen", "fifteen",
        "sixteen", "seventeen", "eighteen", "nineteen",
    },
    tens = {"ten", "twenty", "thirty", "forty", "fifty", "sixty", "seventy", "eighty", "ninety"},
}

function numbers:english_number(number)
    if number == 0 then
        return "zero"
    elseif number < 20 then
        return self.ones[number]
    elseif number < 100 then
        return self.tens[number // 10] .. (number % 10 ~= 0 and "-" .. self.ones[number % 10] or "")
    else
        local rest = number % 100
        return self.ones[number // 100] .. " hundred" .. (rest ~= 0 and " and " .. self:english_number(rest) or "")
    end
end

return function(n)
    local x = 0
    for i = 1, n do
        x = x + #numbers:english_number(i * 37 % 1000)
    end
    return x
end
