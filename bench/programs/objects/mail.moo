@turns 40 a message put into a box of ten, the new ones counted, the oldest dropped
@create #-1 named mailbox
@property $mailbox.messages {}
@property $mailbox.last_read 0
@program $mailbox:receive
{from, subject, when} = args;
this.messages = {@this.messages, {when, from, subject, {"Hello.", "Goodbye."}}};
if (length(this.messages) > 10)
  this.messages = listdelete(this.messages, 1);
endif
.
@program $mailbox:count_new
count = 0;
for message in (this.messages)
  {when, from, subject, text} = message;
  if (when > this.last_read && from != "nobody")
    count = count + 1;
  endif
endfor
return count;
.
@program run
{n} = args;
b = $mailbox;
b.messages = {};
b.last_read = 0;
x = 0;
for i in [1..n]
  b:receive("Frances", "tea", i);
  b.last_read = i - 5;
  x = x + b:count_new();
endfor
return x;
.
