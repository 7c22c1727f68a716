local mailbox = {}

function mailbox:receive(from, subject, when)
    self.messages[#self.messages + 1] = {when, from, subject, {"Hello.", "Goodbye."}}
    if #self.messages > 10 then
        table.remove(self.messages, 1)
    end
end

function mailbox:count_new()
    local count = 0
    for _, message in ipairs(self.messages) do
        local when, from, subject, text = table.unpack(message)
        if when > self.last_read and from ~= "nobody" then
            count = count + 1
        end
    end
    return count
end

return function(n)
    local b = mailbox
    b.messages = {}
    b.last_read = 0
    local x = 0
    for i = 1, n do
        b:receive("Frances", "tea", i)
        b.last_read = i - 5
        x = x + b:count_new()
    end
    return x
end
