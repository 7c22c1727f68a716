local hanoi = {moves = 0}

function hanoi:carry(count, from, to, via)
    if count > 0 then
        self:carry(count - 1, from, via, to)
        self.moves = self.moves + 1
        self:carry(count - 1, via, to, from)
    end
end

return function(n)
    hanoi.moves = 0
    for i = 1, n do
        hanoi:carry(5, "left", "right", "middle")
    end
    return hanoi.moves
end
