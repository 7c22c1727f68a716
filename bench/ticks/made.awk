# Prints the database of a world whose player #1, a wizard, has thirty properties, a verb for each loop of loops.moo, and one `start` of no turn.
# Each verb prints the ticks that are left at its end. #0 has the property `size`, the verb `id`, which returns its argument, and `kept`, which sets a
# variable first.
function head(o, name, flags) {
    print "#" o; print name; print ""; print flags; print 1; print -1; print -1; print -1; print -1; print -1; print -1
}
function verb(name, perms) { print name; print 1; print perms; print -1 }
BEGIN {
    FS = "~"
    while ((getline line < loops) > 0) { split(line, part, "~"); name[++many] = part[1]; source[many] = part[2] }
    name[++many] = "start"; source[many] = ""
    print "** LambdaMOO Database, Format Version 4 **"
    print 2; print many + 3; print 0; print 1; print 1
    head(0, "System", 16)
    print 3; verb("do_login_command", 173); verb("id", 173); verb("kept", 173)
    print 1; print "size"; print 1; print 0; print 0; print 1; print 5
    head(1, "Wizard", 7)
    print many; for (i = 1; i <= many; i++) verb(name[i], 13)
    print 30; for (i = 1; i <= 30; i++) print "property_" i; print 30; for (i = 1; i <= 30; i++) { print 0; print i; print 0; print 5 }
    print "#0:0"; print "return #1;"; print "."
    print "#0:1"; print "return args[1];"; print "."
    print "#0:2"; print "y = args[1];"; print "return y;"; print "."
    for (i = 1; i <= many; i++) { print "#1:" (i - 1); if (source[i] != "") print source[i]; print "notify(player, tostr(ticks_left()));"; print "." }
    print "0 clocks"; print "0 queued tasks"; print "0 suspended tasks"; print "0 active connections with listeners"
}
