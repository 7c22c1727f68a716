@turns 15 a name looked for among six objects with two aliases each: whole, begun and not found
@create #-1 named match_kind
@property $match_kind.aliases {}
@create $match_kind named match_1
@set $match_1.aliases to {"brass lamp", "lamp"}
@create $match_kind named match_2
@set $match_2.aliases to {"leather bag", "bag"}
@create $match_kind named match_3
@set $match_3.aliases to {"wooden chest", "chest"}
@create $match_kind named match_4
@set $match_4.aliases to {"iron key", "key"}
@create $match_kind named match_5
@set $match_5.aliases to {"old book", "book"}
@create $match_kind named match_6
@set $match_6.aliases to {"oak table", "table"}
@create #-1 named match_utils
@program $match_utils:match
{subject, objects} = args;
whole = begun = #-1;
for o in (objects)
  if (subject in o.aliases)
    if (whole != #-1)
      return #-2;
    endif
    whole = o;
  elseif (whole == #-1)
    for alias in (o.aliases)
      if (index(alias, subject) == 1)
        begun = begun == #-1 || begun == o ? o | #-2;
      endif
    endfor
  endif
endfor
return whole == #-1 ? begun == #-2 ? #-3 | begun | whole;
.
@program run
{n} = args;
objects = {$match_1, $match_2, $match_3, $match_4, $match_5, $match_6};
x = 0;
for i in [1..n]
  a = $match_utils:match("key", objects);
  b = $match_utils:match("wood", objects);
  c = $match_utils:match("sword", objects);
  x = x + (a == $match_4) + 2 * (b == $match_3) + 4 * (c == #-1);
endfor
return x;
.
