class Mailer:
    def __init__(self):
        self.mail_forward = 0
        self.mail_options = 0
        self.current_message = 4
        self.current_folder = 0
        self.message_keep_date = 0
        self.last_connect_time = 7
        self.ownership_quota = 10
        self.last_disconnect_at = 0


mailer = Mailer()


def run(n):
    o = mailer
    for i in range(1, n + 1):
        o.last_disconnect_at = o.last_connect_time + i
    return o.last_disconnect_at
