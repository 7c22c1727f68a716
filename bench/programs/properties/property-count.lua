local counter = {count = 0}

function counter:tally(n)
    self.count = 0
    for i = 1, n do
        self.count = self.count + 1
    end
    return self.count
end

return function(...)
    return counter:tally(...)
end
