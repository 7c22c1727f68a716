local roman = {values = {100, 90, 50, 40, 10, 9, 5, 4, 1}, letters = {"C", "XC", "L", "XL", "X", "IX", "V", "IV", "I"}}

function roman:letters_of(number)
    local s = ""
    for i = 1, #self.values do
        while number >= self.values[i] do
            s = s .. self.letters[i]
            number = number - self.values[i]
        end
    end
    return s
end

return function(n)
    local x = 0
    for i = 1, n do
        x = x + #roman:letters_of(i)
    end
    return x
end
