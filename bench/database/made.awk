# Prints a database of `many` objects in a tree of ten children each, a hundred in a place. Each of the first eleven defines five properties, and
# an object has a cell for each definition above it. Each has two verbs, and a program for one of them: about 2,500 bytes an object. With `apart`
# no two strings of cells are alike.
function first(o, step, n) { n = step * o + 1; return n < many ? n : -1 }
function text(o, p) { return apart ? line " " o "." p : line }
BEGIN {
    line = "The quick brown fox jumps over the lazy dog, and once again, and then it looks back at the dog that is still lying there."
    print "** LambdaMOO Database, Format Version 4 **"
    print many; print many; print 0; print 1; print 0
    for (o = 0; o < many; o++) {
        print "#" o; print "Object number " o; print ""
        print 16; print 0
        place = o % 100 ? o - o % 100 : -1
        print place
        print (o % 100 || o + 1 >= many) ? -1 : o + 1
        print (place < 0 || o % 100 == 99 || o + 1 >= many) ? -1 : o + 1
        print o ? int((o - 1) / 10) : -1
        print first(o, 10)
        print (o == 0 || o % 10 == 0 || o + 1 >= many) ? -1 : o + 1
        print 2
        for (v = 0; v < 2; v++) { print "look_self exam*ine"; print 0; print 173; print -1 }
        own = o < 11 ? 5 : 0
        print own
        for (p = 0; p < own; p++) print "property_" o "_" p
        cells = o ? 10 : 5
        print cells
        for (p = 0; p < cells; p++) {
            if (p >= own && p % 3 == 0) print 5
            else if (p % 3 == 1) { print 2; print text(o, p) }
            else { print 4; print 4; print 1; print o; print 2; print text(o, p); print 0; print p; print 2; print text(o, p) line line }
            print 0; print 5
        }
    }
    for (o = 0; o < many; o++) {
        print "#" o ":0"
        print "if ((caller == this) && (player.location != $nothing))"
        print "notify(player, tostr(this.name, \" is here, and \", length(this.contents), \" things with it.\"));"
        print "for x in (this.contents)"
        print "if (valid(x) && (x.location == this))"
        print "x:tell(\"" line "\");"
        print "endif"; print "endfor"
        print "else"; print "return E_PERM;"; print "endif"; print "."
    }
    print "0 clocks"; print "0 queued tasks"; print "0 suspended tasks"; print "0 active connections with listeners"
}
