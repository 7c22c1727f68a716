@turns 250 three calls of a verb whose name is an element of a list
@create #-1 named named
@program $named:first
return args[1] + 1;
.
@program $named:second
return args[1] + 2;
.
@program $named:third
return args[1] + 3;
.
@program run
{n} = args;
names = {"first", "second", "third"};
x = 0;
for i in [1..n]
  for name in (names)
    x = x + $named:(name)(i);
  endfor
endfor
return x;
.
