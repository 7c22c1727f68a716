# Prints a database text of `many` objects, each with two verbs, ten property definitions and as many values, and a program.
BEGIN {
    line = "The quick brown fox jumps over the lazy dog, and once again."
    print "** LambdaMOO Database, Format Version 4 **"
    print many; print many; print 0; print 1; print 0
    for (o = 0; o < many; o++) {
        print "#" o; print "Object number " o; print ""
        print 16; print 0; print -1; print -1; print -1; print -1; print -1; print -1
        print 2
        for (v = 0; v < 2; v++) { print "look_self exam*ine"; print 0; print 173; print -1 }
        print 10
        for (p = 0; p < 10; p++) print "property_" p
        print 10
        for (p = 0; p < 4; p++) { print 0; print o * 1000 % 999983 - p; print 0; print 5 }
        for (p = 0; p < 4; p++) { print 2; print line; print 0; print 5 }
        for (p = 0; p < 2; p++) { print 4; print 3; print 1; print o; print 2; print line; print 0; print p; print 0; print 5 }
    }
    for (o = 0; o < many; o++) {
        print "#" o ":0"
        print "if (caller == this)"; print "notify(player, tostr(this.name, \" is here.\"));"; print "else"
        print "return E_PERM;"; print "endif"; print "."
    }
    print "0 clocks"; print "0 queued tasks"; print "0 suspended tasks"; print "0 active connections with listeners"
}
