"""Random programs of the language: their grammar with weights, and the programs that a random number generator makes of it."""

import re

# The last line of a program returns these, and the ticks that it took.
VARIABLES = ["a", "b", "c", "s", "u", "l", "m", "a_rather_long_variable_name"]
FIRST = (
    'o = #1; a = 1; b = 2; c = 3; i = 1; w = 0; s = "hello"; u = "xyz"; l = {1, 2, 3}; m = {{1, 2}, {"x", 4}}; '
    "a_rather_long_variable_name = 5; "
)

# What each kind may be, with weights. A kind between angles is made in its place, one level deeper.
GRAMMAR = {
    "variable": "a b c s u l m a_rather_long_variable_name".split(),
    "literal": ["0", "1", "2", "3", "-1", "7", "2147483647", '""', '"x"', '"abc"', '"hello"', "{}", "{1}", "{1, 2, 3}", '{"a", "b"}',
                "{{1, 2}, {3, 4}}", "#0", "#1", "#2", "E_TYPE", "E_RANGE"],
    "atom": ["0", "1", "2", "-1", "-2147483648", '""', '"x"', '"abc"', "#1", "#-1", "E_TYPE", "E_DIV"],
    "constant": [
        (3, "{}"), (2, "{<atom>}"), (4, "{<atom>, <atom>, <atom>}"), (3, "{<atom>, <constant>}"), (3, "{<constant>, <constant>}"), (1, "{<constant>}"),
        (1, "{<constant>, <atom>, <constant>, <atom>}"),
    ],
    "flat": ["{}", "{<atom>}", "{<atom>, <atom>}", "{<atom>, <atom>, <atom>}"],
    "leaf": [(4, "<variable>"), (1, "args"), (1, "player"), (1, "o"), (1, "never"), (1, "A_Rather_Long_Variable_Name"), (1, "L"), (4, "<literal>")],
    "count": ["a", "b", "c", "i", "w", "1", "2", "3", "length(l)", "length(s)", "a_rather_long_variable_name"],
    "counter": ["a", "b", "c", "i"],
    "bound": [(2, "1"), (2, "3"), (4, "<number>"), (1, "<expression>")],
    "arithmetic": ["+", "-", "*", "/", "%", "<", "<=", "==", "!=", ">", ">="],
    "operator": ["<arithmetic>", "^", "in"],
    "number": [(6, "<count>"), (4, "l[<number>]"), (1, "m[<number>][<number>]"), (1, "o.p"), (8, "(<number> <arithmetic> <number>)")],
    "object": ["o", "this", "#1", "#2", "player", "a", "#0", "o.location"],
    "property": [(3, "p"), (3, "q"), (2, "r_long_property_name"), (2, "extra"), (1, "name"), (1, "location"), (1, "owner"), (1, "nosuch")],
    "verb": ["f", "g", "h", "mild", "deep", "fresh", "nosuch"],
    "container": ["s", "u", "l", "m", "args", "o.q", "o.r_long_property_name", "m[1]", "<constant>"],
    "place": [(3, "<number>"), (1, "<expression>"), (1, "$"), (1, "$ - 1"), (1, "$ + a"), (2, "1"), (1, "2")],
    "spot": [(4, "<number>"), (1, "<expression>"), (1, "0"), (1, "1"), (1, "length(l)"), (1, "length(l) + 1"), (1, "-1")],
    "inserter": ["listinsert", "listappend"],
    "changer": ["listinsert", "listappend", "listdelete", "setadd", "setremove"],
    "end": [(3, "1"), (3, "2"), (4, "$"), (3, "$ - 1"), (2, "<number>"), (1, "0"), (1, "$ + 1"), (1, "<expression>")],
    "codes": [(3, "ANY"), (1, "E_TYPE"), (1, "E_RANGE, E_DIV"), (1, "E_TYPE, E_TYPE, <leaf>"), (2, "E_PROPNF, E_VERBNF, E_VARNF, E_INVIND"), (1, "@<container>")],
    "item": [(5, "<expression>"), (1, "@<container>"), (1, "@<expression>")],
    "items": [(1, ""), (3, "<item>"), (3, "<item>, <item>"), (2, "<item>, <item>, <item>")],
    "function": "typeof length tostr toliteral toint toobj equal strcmp min max abs index rindex strsub listappend listinsert listset listdelete"
    " setadd setremove is_member valid parent".split(),
    "caller": [
        "raise(<expression>)", "pass(<items>)", "callers()", "ticks_left()", "caller_perms()", "eval(<text>)", "move(#2, <object>)", "recycle(create(#1))",
    ],
    "text": ['"return a;"', '"a = 1; return {a, callers()};"', '"return this:f(1);"', '"1 / 0;"', '"return ("', "s"],
    "target": [(4, "<variable>"), (3, "l[<place>]"), (2, "s[<place>]"), (2, "m[<place>][<place>]"), (1, "l[<place>..<place>]"),
               (1, "s[<place>..<place>]"), (3, "<object>.<property>"), (1, "o.q[<place>]"), (1, "o.(u)"), (2, "{<names>}")],
    "names": ["a, b", "a, ?b", "a, ?b = <number>, @l", "a", "@l", "b, c, a", "?a = <expression>, @m"],
    "expression": [
        (10, "<leaf>"), (12, "<number>"), (8, "(<expression> <operator> <expression>)"), (6, "<container>[<place>]"),
        (3, "<container>[<place>..<place>]"), (8, "<object>.<property>"), (2, "(<expression>).(<expression>)"), (6, "{<items>}"),
        (4, "(<expression> ? <expression> | <expression>)"), (3, "(<expression> && <expression>)"), (3, "(<expression> || <expression>)"),
        (2, "!<expression>"), (1, "-(<expression>)"), (4, "`<expression> ! <codes>'"), (4, "`<expression> ! <codes> => <expression>'"),
        (5, "(<target> = <expression>)"), (1, "(l = {@l, <expression>})"), (1, "(l = <inserter>(l, <expression>, <spot>))"), (5, "<constant>"),
        (2, "<expression> in <constant>"), (1, "<constant>[<place>][<place>]"), (5, "<function>(<items>)"),
        (6, "<object>:<verb>(<items>)"), (1, "<object>:(u)(<items>)"), (3, "<caller>"),
    ],
    "edit": [
        (3, "l[<place>] = <expression>;"), (2, "l[<place>][<place>] = <expression>;"), (3, "l = {@l, <expression>};"), (2, "l = {<expression>, @l};"),
        (2, "l = {@l, @<constant>};"), (1, "l[<place>..<place>] = <constant>;"), (1, "l[<place>] = {@l[<place>], <expression>};"), (1, "u = l;"),
        (2, "l = <inserter>(l, <expression>, <spot>);"), (1, "l[<place>] = <inserter>(l[<place>], <expression>, <spot>);"), (1, "l = listdelete(l, 1);"),
        (1, "l[<place>][<place>] = {@l[<place>][<place>], <expression>};"), (1, "l = setadd(l, <atom>);"), (1, "s = this:fresh(l);"),
        (3, "l = l[<end>..<end>];"), (2, "l[<place>] = <changer>(l[<place>], <spot>);"), (1, "l[<place>] = l[<place>][<end>..<end>];"),
        (1, "l = listset(l, <expression>, <spot>);"), (1, "l = listdelete(l, <spot>);"), (1, "l[<place>] = listset(l[<place>], <expression>, <spot>);"),
    ],
    "simple": [
        (8, "<variable> = <expression>;"), (5, "<counter> = <number>;"), (6, "l = {@l, <expression>};"), (4, "l = {<expression>, @l};"),
        (3, "m = {@m, <item>};"),
        (3, "s = s + <expression>;"), (3, "a = a + <number>;"), (6, "<target> = <expression>;"), (4, "<expression>;"),
        (2, "<expression> && (l = {@l, <expression>});"), (2, "<expression> || (<variable> = <expression>);"), (1, "<expression> && (<expression> || (<target> = <expression>));"),
        (2, "l = listappend(l, <expression>);"), (2, "l = listdelete(l, <number>);"), (1, "l = setadd(l, <expression>);"), (1, "l = setremove(l, <expression>);"),
        (1, "m = listinsert(m, <item>);"), (2, "<variable> = <function>(<variable>, <items>);"),
        (3, "l = l[<end>..<end>];"), (1, "<variable> = <variable>[<end>..<end>];"), (1, "<variable> = (l = l[<end>..<end>]);"),
        (2, "o.q = o.q[<end>..<end>];"), (1, "<object>.<property> = <object>.<property>[<end>..<end>];"), (1, "l = a ? l[<end>..<end>] | m;"),
        (2, "m[<place>] = <changer>(m[<place>], <expression>);"), (1, "o.q[<place>] = <changer>(o.q[<place>], <expression>);"),
        (2, "o.q = {@o.q, <expression>};"), (2, "o.q = {<expression>, @o.q};"), (2, "o.q = <function>(o.q, <expression>);"), (2, "o.q[<place>] = <expression>;"),
        (1, "<object>.<property> = {@<object>.<property>, <expression>};"), (1, "<object>.<property>[<place>] = <expression>;"),
        (2, "m[<place>] = {@m[<place>], <expression>};"), (1, "o.q[<place>] = {@o.q[<place>], <expression>};"), (1, "o.(u) = {@o.(u), <expression>};"),
        (3, "l = <constant>;"), (2, "m = <constant>;"), (2, "<target> = <constant>;"), (1, "l = m = <constant>;"), (2, "o.q = <constant>;"),
        (3, "l = <inserter>(l, <expression>, <spot>);"), (1, "l = <inserter>(<container>, <item>, <spot>);"),
        (1, "m[<place>] = <inserter>(m[<place>], <item>, <spot>);"),
        (2, "o.q = <inserter>(o.q, <expression>, <spot>);"), (1, "o.q[<place>] = <inserter>(o.q[<place>], <expression>, <spot>);"),
        (1, "l = <expression> ? <inserter>(l, <expression>, <spot>) | <constant>;"), (1, "<expression> && (l = <inserter>(l, <expression>, <spot>));"),
        (2, "l = <expression> ? {@l, <expression>} | {@<container>, <expression>};"), (1, "<expression> ? l = {@l, <expression>} | m = {@m, <item>};"),
    ],
    "arm": [(6, ""), (3, "else <block>"), (3, "elseif (<expression>) <block>"), (2, "elseif (<number>) <block> else <block>")],
    "leaving": [(5, ""), (2, "break;"), (2, "continue;"), (1, "if (<number>) break; else continue; endif"), (1, "return <expression>;")],
    "change": [
        'set_verb_code(#1, "f", {"return <plain>;"});', 'set_verb_info(#1, "f", {#3, "rx", "f"});', 'delete_property(#2, "extra");',
        'add_property(#2, "extra", <plain>, {#3, "rw"});', "chparent(#2, #4);", 'set_property_info(#1, "q", {#3, "", "q"});', "set_task_perms(#4);",
    ],
    "plain": ["1", "{}", "a", "args", "this", "{@args, 1}", "1 / 0", "nosuch"],
    "statement": [
        (14, "<simple>"), (22, "try <simple> except (ANY) endtry"), (2, "<change>"),
        (5, "if (<expression>) <block> <arm> endif"), (4, "if (<number>) <block> <arm> endif"),
        (4, "for i in (<expression>) <block> <leaving> endfor"), (4, "for i in [<bound>..<bound>] <block> if (i > 20) break; endif endfor"),
        (4, "w = 0; while (w < <number> && w < 9) w = w + 1; <block> <leaving> endwhile"),
        (1, "w = 0; while loop (w < 3) w = w + 1; for i in (l) try <block> except (ANY) continue loop; endtry break loop; endfor endwhile"),
        (3, "for i in [1..3] l = <constant>; try <edit> <edit> except (ANY) endtry <edit> endfor"),
        (2, "for i in [1..3] try l = <constant>; <edit> <edit> <edit> except (ANY) endtry u = {@l}; endfor"),
        (2, "for i in [1..3] try o.q = <constant>; o.q[<place>] = <expression>; o.q = <inserter>(o.q, i, <spot>); except (ANY) endtry endfor"),
        (2, "for l in (<constant>) try <edit> <edit> except (ANY) endtry endfor"),
        (3, "try <block> except e (<codes>) <block> endtry"), (2, "try <block> except (E_TYPE, E_DIV) <block> except e (ANY) <block> endtry"),
        (3, "try <block> finally <block> endtry"), (1, "return <expression>;"),
    ],
    "block": [(2, "<statement>"), (3, "<statement> <statement>"), (1, "<statement> <statement> <statement>")],
    "program": [(1, "<statement> <block> <block>"), (1, "<statement> <block> <statement> <block>")],
}

# What takes the place of a kind in which no more levels are left.
SHORTEST = {
    "number": "count", "expression": "leaf", "place": "count", "bound": "count",
    "item": "leaf", "items": "leaf", "target": "variable", "statement": "simple", "block": "simple",
    "constant": "flat",
}


def made(chance, kind, depth):
    """Returns a text of a kind, of at most so many levels."""
    forms = GRAMMAR[SHORTEST.get(kind, kind) if depth <= 0 else kind]
    weighted = [form if isinstance(form, tuple) else (1, form) for form in forms]
    form = chance.choices([text for _, text in weighted], [weight for weight, _ in weighted])[0]
    return re.sub(r"<(\w+)>", lambda found: made(chance, found[1], depth - 1), form)


def program(chance, depth=5):
    """Returns a program. It returns its variables and the ticks that it took, or it begins with few ticks left and returns its variables."""
    body = made(chance, "program", depth)
    if chance.random() < 0.5:
        return f"{FIRST}t = ticks_left(); {body} return {{{', '.join(VARIABLES)}, t - ticks_left()}};"
    return f"{FIRST}for i in [1..{chance.randrange(99_700, 99_960)}] endfor {body} return {{{', '.join(VARIABLES)}}};"
