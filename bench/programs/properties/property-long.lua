local mailer = {
    mail_forward = 0,
    mail_options = 0,
    current_message = 4,
    current_folder = 0,
    message_keep_date = 0,
    last_connect_time = 7,
    ownership_quota = 10,
    last_disconnect_at = 0,
}

return function(n)
    local o = mailer
    for i = 1, n do
        o.last_disconnect_at = o.last_connect_time + i
    end
    return o.last_disconnect_at
end
