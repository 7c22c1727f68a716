own~i = 0; while (i < 4000) x = #8:own(i); i = i + 1; endwhile
title~i = 0; while (i < 4000) x = #8:title(i); i = i + 1; endwhile
tell~i = 0; while (i < 4000) x = #8:tell(i); i = i + 1; endwhile
examine_verbs~i = 0; while (i < 4000) x = #8:examine_verbs(i); i = i + 1; endwhile
near-miss~i = 0; while (i < 4000) x = `#9:exitfunc(i) ! E_VERBNF => 0'; i = i + 1; endwhile
miss~i = 0; while (i < 4000) x = `#8:exitfunc(i) ! E_VERBNF => 0'; i = i + 1; endwhile
verb_1~i = 0; while (i < 4000) x = #10:verb_1(i); i = i + 1; endwhile
verb_480~i = 0; while (i < 4000) x = #10:verb_480(i); i = i + 1; endwhile
