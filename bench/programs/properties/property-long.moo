@turns 1500 two properties with names of 17 and 18 letters, one read and one set, of an object with six others
@create #-1 named mailer
@property $mailer.mail_forward 0
@property $mailer.mail_options 0
@property $mailer.current_message 4
@property $mailer.current_folder 0
@property $mailer.message_keep_date 0
@property $mailer.last_connect_time 7
@property $mailer.ownership_quota 10
@property $mailer.last_disconnect_at 0
@program run
{n} = args;
o = $mailer;
for i in [1..n]
  o.last_disconnect_at = o.last_connect_time + i;
endfor
return o.last_disconnect_at;
.
