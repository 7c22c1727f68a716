local notice = {text = {
    "Welcome to the hall.", "", "Please wipe your feet.", "Do not feed the cat.", "Supper is at six.", "", "The lamp is lit at night.", "Thank you.",
}}

local function notify(who, line)
    who.output[#who.output + 1] = line
end

function notice:show(who)
    local number = 0
    for _, line in ipairs(self.text) do
        number = number + 1
        notify(who, number .. ": " .. line)
    end
    return number
end

local player = {}

return function(n)
    player.output = {}
    local x = 0
    for i = 1, n do
        x = x + notice:show(player)
    end
    return x
end
