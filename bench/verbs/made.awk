# Prints the database of a world for bench/verbs/run. #0 is the players' system, #1 the wizard. #2 to #7 are a chain of six parents with the verbs of
# names.txt, one line each, and #8 below them has the verb `own`. #9 has no parent and the verb `own`. #10 has 480 verbs whose names begin with one
# prefix. Each verb returns its first argument, but those of #1: one for each loop of loops.moo, and `start` of no turn.
function head(o, name, flags, parent, child, sibling) {
    print "#" o; print name; print ""; print flags; print 1; print -1; print -1; print -1; print parent; print child; print sibling
}
function verb(name, perms) { print name; print 1; print perms; print -1 }
function program(o, v, source) { print "#" o ":" v; print source; print "."; }
BEGIN {
    FS = "~"
    while ((getline line < loops) > 0) { split(line, part, "~"); name[++many] = part[1]; source[many] = part[2] }
    name[++many] = "start"; source[many] = ""
    while ((getline line < names) > 0) { ++levels; count[levels] = split(line, words, " "); total += count[levels]; for (i = 1; i <= count[levels]; i++) word[levels, i] = words[i] }
    print "** LambdaMOO Database, Format Version 4 **"
    print levels + 5; print 1 + many + total + 1 + 1 + 480; print 0; print 1; print 1
    head(0, "System", 16, -1, -1, -1); print 1; verb("do_login_command", 173); print 0; print 0
    head(1, "Wizard", 7, -1, -1, -1); print many; for (i = 1; i <= many; i++) verb(name[i], 13); print 0; print 0
    for (k = 1; k <= levels; k++) {
        head(k + 1, "level " k, 16, k == 1 ? -1 : k, k + 2, -1)
        print count[k]; for (i = 1; i <= count[k]; i++) verb(word[k, i], 173); print 0; print 0
    }
    head(levels + 2, "child", 16, levels + 1, -1, -1); print 1; verb("own", 173); print 0; print 0
    head(levels + 3, "orphan", 16, -1, -1, -1); print 1; verb("own", 173); print 0; print 0
    head(levels + 4, "prefix", 16, -1, -1, -1); print 480; for (i = 1; i <= 480; i++) verb("verb_" i, 173); print 0; print 0
    program(0, 0, "return #1;")
    for (i = 1; i <= many; i++) { print "#1:" (i - 1); if (source[i] != "") print source[i]; print "notify(player, tostr(ticks_left()));"; print "." }
    for (k = 1; k <= levels; k++) for (i = 1; i <= count[k]; i++) program(k + 1, i - 1, "return args[1];")
    program(levels + 2, 0, "return args[1];"); program(levels + 3, 0, "return args[1];")
    for (i = 1; i <= 480; i++) program(levels + 4, i - 1, "return args[1];")
    print "0 clocks"; print "0 queued tasks"; print "0 suspended tasks"; print "0 active connections with listeners"
}
