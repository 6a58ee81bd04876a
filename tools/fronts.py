#!/usr/bin/env python3
"""Where lists of tokens stop being a front of a program, by a chart over the grammar, for expected values. A front is a list of tokens with
which a program begins.

`tools/fronts.py all` writes the tables of crates/front_end_tests: src/faults/*.rt, as src/faults.rt explains them, and
src/nesting/samples.rt. `rt fmt` lays them out. `tools/fronts.py rows NAME` and `tools/fronts.py nesting` print one of them.
`tools/fronts.py TOKENS`, with spaces between, prints `ok` for a program, or `syntax` with the number of the token at which these fault, or
`depth` with that of the first that is nested above 200.

A symbol of a rule is a pair: of "token" and a kind, of "form" and a form's name, or of "mark" and what counts from there on.
"""
import json
import os
import re
import sys

GRAMMAR = '''
program  = { structdef | decl | proto | function }
structdef= "struct" ID "{" mdecl { mdecl } "}" ";"
mdecl    = spec dtor { "," dtor } ";"
spec     = ["private"] base ["private"]
base     = "char" | "int" | "long" | "void" | "struct" ID
ptr      = { "*" ["private"] }
dtor     = ptr ID [ "[" NUM "]" ]
         | ptr "(" "*" ["private"] ID ")" "(" ptypes ")"
decl     = spec dtor ["=" assign] { "," dtor ["=" assign] } ";"
proto    = spec ptr ID "(" params ")" ";"
function = spec ptr ID "(" params ")" block
params   = [ "void" | spec dtor { "," spec dtor } ]
ptypes   = [ "void" | type { "," type } ]
type     = spec ptr [ "(" "*" ["private"] ")" "(" ptypes ")" ]
block    = "{" { decl | stmt } "}"
stmt     = block | [expr] ";" | "if" "(" expr ")" stmt ["else" stmt]
         | "while" "(" expr ")" stmt | "do" stmt "while" "(" expr ")" ";"
         | "for" "(" [expr] ";" [expr] ";" [expr] ")" stmt
         | "return" [expr] ";" | "break" ";" | "continue" ";"
expr     = assign
assign   = unary "=" assign | cond
cond     = lor [ "?" expr ":" cond ]
lor      = land { "||" land }
land     = or { "&&" or }
or       = xor { "|" xor }
xor      = and { "^" and }
and      = equal { "&" equal }
equal    = order { ("==" | "!=") order }
order    = shift { ("<" | "<=" | ">" | ">=") shift }
shift    = sum { ("<<" | ">>") sum }
sum      = product { ("+" | "-") product }
product  = cast { ("*" | "/" | "%") cast }
cast     = "(" type ")" cast | unary
unary    = ("-" | "~" | "!" | "*" | "&") cast | "sizeof" "(" type ")" | postfix
postfix  = primary { "[" expr "]" | "(" [assign {"," assign}] ")" | "." ID | "->" ID }
primary  = ID | NUM | CHAR | STRING | "(" expr ")"
'''

# the kinds of tokens: how a row writes it, and a token of this kind
KINDS = [
    ("n", "a"), ("1", "1"), ("'", "'a'"), ("t", '"a"'),
    ("C", "char"), ("I", "int"), ("L", "long"), ("V", "void"), ("S", "struct"), ("P", "private"),
    ("F", "if"), ("E", "else"), ("W", "while"), ("O", "for"), ("D", "do"), ("R", "return"), ("B", "break"), ("K", "continue"),
    ("Z", "sizeof"),
    ("+", "+"), ("-", "-"), ("*", "*"), ("/", "/"), ("%", "%"), ("&", "&"), ("|", "|"), ("^", "^"), ("~", "~"), ("!", "!"),
    ("<", "<"), (">", ">"), ("=", "="), ("?", "?"), (":", ":"), (";", ";"), (",", ","), (".", "."), ("(", "("), (")", ")"),
    ("[", "["), ("]", "]"), ("{", "{"), ("}", "}"),
    ("l", "<<"), ("r", ">>"), ("b", "<="), ("g", ">="), ("e", "=="), ("x", "!="), ("c", "&&"), ("o", "||"), ("m", "->"),
    ("u", "+="),
]
WORDS = "char int long void struct private if else while for do return break continue sizeof".split()

# programs that have each way of each rule
SAMPLES = {
    "objects": """
int a ; char b ;
private long a ;
void private a ;
private int private a ;
struct s a ;
char * * private a ;
int a , * b ;
int a [ 3 ] ;
int ( * a ) ( ) ;
int ( * private a ) ( void ) ;
long * ( * a ) ( int , char * ) ;
int ( * a ) ( void ( * ) ( ) ) ;
int a = b , c = 1 ;
""",
    "structures_and_functions": """
struct s { int a ; } ;
struct s { char a , b ; long c ; } ;
int f ( ) ;
int f ( void ) ;
int f ( void * a , char b ) ;
private int f ( struct s a ) { }
int * f ( int ( * a ) ( ) ) { }
int f ( ) { } int a ;
""",
    "statements": """
int f ( ) { ; }
int f ( ) { { } }
int f ( ) { int a ; a ; }
int f ( ) { struct s * a = b , c ; }
int f ( ) { if ( a ) ; }
int f ( ) { if ( a ) ; else b ; }
int f ( ) { if ( a ) if ( b ) ; else ; }
int f ( ) { while ( a ) { } }
int f ( ) { do ; while ( a ) ; }
int f ( ) { for ( ; ; ) ; }
int f ( ) { for ( a ; b ; c ) d ; }
int f ( ) { return ; }
int f ( ) { return a ; }
int f ( ) { break ; }
int f ( ) { continue ; }
""",
    "operands": """
int a = 'b' ;
int a = "b" ;
int a = ( b ) ;
int a = - ~ b ;
int a = ! * & b ;
int a = sizeof ( int ) ;
int a = sizeof ( int ( * private ) ( ) ) ;
int a = ( char ) b ;
int a = ( struct s * ) 1 ;
int a = ( int ( * ) ( void ) ) b ;
int a = b [ 1 ] ;
int a = b ( ) ;
int a = b ( c , d ) ;
int a = b . c -> d ;
int a = ( ( b ) ) ( ) [ c ] ;
""",
    "operators": """
int a = b || c && d ;
int a = b | c ^ d & e ;
int a = b == c != d ;
int a = b < c <= d > e >= f ;
int a = b << c >> d ;
int a = b + c - d ;
int a = b * c / d % e ;
int f ( void ) { return a ? b : c ; }
int a = b ? c = d : e ? f : g ;
int a = b ? c ? d : e : f ;
int a = b = * c = d ;
int a = ( b ) = - c ;
""",
}


# A rule's right side is a tree of ("alt", ways), ("seq", parts), ("opt", tree), ("many", tree), ("form", name) and ("token", kind).


def tree_of(text):
    parts = re.findall(r'"[^"]*"|\w+|[][{}()|]', text)
    at = 0

    def choice(end):
        nonlocal at
        ways, way = [], []
        while at < len(parts) and parts[at] != end:
            part = parts[at]
            at += 1
            if part == "|":
                ways.append(("seq", way))
                way = []
            elif part in "[{(":
                inner = choice({"[": "]", "{": "}", "(": ")"}[part])
                way.append(inner if part == "(" else ({"[": "opt", "{": "many"}[part], inner))
            elif part[0] == '"':
                way.append(("token", part[1:-1]))
            else:
                way.append(("token" if part.isupper() else "form", part))
        at += 1
        ways.append(("seq", way))
        return ("alt", ways)

    return choice(None)


def trees_of(grammar):
    rules = re.split(r"\n(?=\w)", grammar.strip())
    return {name.strip(): tree_of(right) for name, right in (rule.split("=", 1) for rule in rules)}


def plain_rules(trees):
    """Rules without brackets, each a list of ways, and each way a list of symbols. The forms that are none of the grammar's are numbers."""
    rules = {}

    def symbol(rule, tree):
        if tree[0] in ("form", "token"):
            return marked(rule, tree)
        name = len(rules)
        rules[name] = []
        if tree[0] == "alt":
            rules[name] = [way(rule, part) for part in tree[1]]
        elif tree[0] == "opt":
            inner = symbol(rule, tree[1])
            empty = [("mark", "no else")] if rule == "stmt" and rules[inner[0][1]][0][:1] == [("token", "else")] else []
            rules[name] = [empty, inner]
        else:
            rules[name] = [[], symbol(rule, tree[1]) + [("form", name)]]
        return [("form", name)]

    def way(rule, tree):
        symbols = [symbol for part in tree[1] for symbol in symbol_of(rule, part)]
        if rule in ("cast", "unary") and tree[1][-1:] == [("form", "cast")]:
            return [("mark", "in")] + symbols + [("mark", "out")]
        if rule == "postfix" and tree[1][0] in SUFFIXES:
            return symbols + [("mark", "ends")]
        return symbols

    symbol_of = symbol
    for name, tree in trees.items():
        rules[name] = [way(name, part) for part in tree[1]]
    return rules


LEVELS = ("lor", "land", "or", "xor", "and", "equal", "order", "shift", "sum", "product")
COUNTED = [("function", "block"), ("cond", "cond")]
SUFFIXES = [("token", sign) for sign in ("[", "(", ".", "->")]


def marked(rule, symbol):
    """A symbol with marks for what counts in the nesting. Ways are marked where prefix operators and bracketed types begin and end with their
    operands, and where suffixes end."""
    kind, name = symbol
    if kind == "token" and rule in LEVELS:
        return [symbol, ("mark", "ends")]
    if symbol == ("token", "*") and rule == "ptr":
        return [symbol, ("mark", "star")]
    if symbol == ("form", "ptr"):
        return [symbol, ("mark", "no stars")]
    if symbol == ("form", "assign"):
        return [("mark", "assign"), symbol, ("mark", "end of assign")]
    if kind == "form" and (name in ("stmt", "ptypes") or (rule, name) in COUNTED):
        return [("mark", "in"), symbol, ("mark", "out")]
    return [symbol]


MARKED = plain_rules(trees_of(GRAMMAR))
RULES = {form: [[symbol for symbol in way if symbol[0] != "mark"] for way in ways] for form, ways in MARKED.items()}


def empty_forms():
    empty = set()
    while True:
        more = {name for name, ways in RULES.items() if any(all(s[0] == "form" and s[1] in empty for s in way) for way in ways)}
        if more == empty:
            return empty
        empty = more


EMPTY = empty_forms()

# A row of the chart is the set of (form, way, place in the way, row where the form began) that the tokens so far allow.


def closed(chart, row):
    work = list(row)
    while work:
        form, way, at, start = work.pop()
        symbols = RULES[form][way]
        if at == len(symbols):
            origin = row if start == len(chart) else chart[start]
            new = [(f, w, a + 1, s) for f, w, a, s in origin if RULES[f][w][a : a + 1] == [("form", form)]]
        elif symbols[at][0] == "form":
            new = [(symbols[at][1], w, 0, len(chart)) for w in range(len(RULES[symbols[at][1]]))]
            if symbols[at][1] in EMPTY:
                new.append((form, way, at + 1, start))
        else:
            new = []
        for item in new:
            if item not in row:
                row.add(item)
                work.append(item)
    return row


def first_row():
    return closed([], {("program", way, 0, 0) for way in range(len(RULES["program"]))})


def next_row(chart, kind):
    last = chart[-1]
    row = {(f, w, a + 1, s) for f, w, a, s in last if RULES[f][w][a : a + 1] == [("token", kind)]}
    return closed(chart, row)


def is_program(row):
    return any(f == "program" and a == len(RULES[f][w]) and s == 0 for f, w, a, s in row)


def answer(kinds, chart=None):
    """`ok`, or the number of the token at which these faults. `chart` has the rows of the first of them."""
    chart = list(chart or [first_row()])
    for place in range(len(chart) - 1, len(kinds)):
        row = next_row(chart, kinds[place])
        if not row:
            return str(place)
        chart.append(row)
    return "ok" if is_program(chart[-1]) else str(len(kinds))


def kind_of(token):
    if token[0] == "'":
        return "CHAR"
    if token[0] == '"':
        return "STRING"
    if token[0].isdigit():
        return "NUM"
    return "ID" if token not in WORDS and (token[0].isalpha() or token[0] == "_") else token


def line(kinds, chart, place):
    groups = {}
    cut = answer(kinds[:place], chart)
    if cut != str(place):
        groups[cut] = "$"
    for sign, token in KINDS:
        changed = answer(kinds[:place] + [kind_of(token)] + kinds[place + 1 :], chart)
        if changed != str(place):
            groups[changed] = groups.get(changed, "") + sign
    return " ".join(f"{found}:{groups[found]}" for found in sorted(groups, key=lambda g: -1 if g == "ok" else int(g)))


def lines(sample):
    kinds = [kind_of(token) for token in sample.split()]
    chart = [first_row()]
    found = []
    for place in range(len(kinds) + 1):
        found.append(line(kinds, chart, place))
        if place < len(kinds):
            chart.append(next_row(chart, kinds[place]))
    if not is_program(chart[-1]):
        sys.exit(f"no program: {sample}")
    return found


def samples(group):
    return [sample for sample in SAMPLES[group].split("\n") if sample]


def ways_in(kinds):
    """The ways of rules that readings of a program use."""
    chart = [first_row()]
    for kind in kinds:
        chart.append(next_row(chart, kind))
    seen = set()

    def walk(form, start, end):
        for f, w, a, s in chart[end]:
            if f == form and s == start and a == len(RULES[f][w]) and (f, w, start, end) not in seen:
                seen.add((f, w, start, end))
                back(RULES[f][w], a, start, end, (f, w))

    def back(symbols, at, start, end, item):
        if at == 0:
            return start == end
        kind, name = symbols[at - 1]
        if kind == "token":
            return end > start and kinds[end - 1] == name and back(symbols, at - 1, start, end - 1, item)
        found = False
        for middle in range(start, end + 1):
            complete = any(f == name and s == middle and a == len(RULES[f][w]) for f, w, a, s in chart[end])
            before = (item[0], item[1], at - 1, start) in chart[middle]
            if complete and before and back(symbols, at - 1, start, middle, item):
                walk(name, middle, end)
                found = True
        return found

    walk("program", 0, len(kinds))
    return {(f, w) for f, w, _, _ in seen}


def check_samples():
    used = set()
    for group in SAMPLES:
        for sample in samples(group):
            used |= ways_in([kind_of(token) for token in sample.split()])
    for name, ways in RULES.items():
        for number, way in enumerate(ways):
            if (name, number) not in used:
                print("no sample has", name, way, file=sys.stderr)


# The nesting. A way to read some tokens is what has still to come, as a pair (symbol, what comes after it), and what counts now: the marks
# that are open, the assignments among them, the operators and suffixes that have ended in the outermost of these, and the stars.


def after_mark(mark, counts):
    within, assigns, ended, stars = counts
    if mark in ("in", "assign"):
        return within + 1, assigns + (mark == "assign"), ended, stars
    if mark == "out":
        return within - 1, assigns, ended, stars
    if mark == "end of assign":
        return within - 1, assigns - 1, ended if assigns > 1 else 0, stars
    if mark == "ends":
        return within, assigns, ended + 1, stars
    return within, assigns, ended, stars + 1 if mark == "star" else 0


def read(kind, ahead, counts):
    """The ways in which a token of this kind comes next, each with its nesting."""
    if ahead is None:
        return []
    (what, name), later = ahead
    if what == "token":
        return [(later, counts, counts[0] + counts[2] + counts[3])] if name == kind else []
    if (what, name) == ("mark", "no else"):
        return [] if kind == "else" else read(kind, later, counts)
    if what == "mark":
        return read(kind, later, after_mark(name, counts))
    found = []
    for way in MARKED[name]:
        more = later
        for symbol in reversed(way):
            more = (symbol, more)
        found += read(kind, more, counts)
    return found


START = (("form", "program"), None), (0, 0, 0, 0)


def nestings(kinds):
    """The least nesting of each token of a front, over the ways that the token after leaves."""
    ways = read(kinds[0], *START)
    found = []
    for kind in kinds[1:]:
        steps = [(nesting, way) for later, counts, nesting in ways for way in read(kind, later, counts)]
        found.append(min(nesting for nesting, _ in steps))
        ways = [way for _, way in steps]
    return found + [min(nesting for _, _, nesting in ways)]


def full_answer(kinds, most=200):
    """The answer, or the first token that is nested above `most`. So that the ways stay few, brackets are not nested deep."""
    fault = answer(kinds)
    fits = kinds if fault == "ok" else kinds[: int(fault)]
    for place, nesting in enumerate(nestings(fits) if fits else []):
        if nesting > most:
            return f"depth {place}"
    return fault if fault == "ok" else f"syntax {fault}"


# statements and declarations of a function's body
NESTED = """
;
{ ; { } }
a + b ;
int a ; { }
int * * private * a , * * b ;
struct s ( * a ) ( int * * , char ) , b ;
int ( * a ) ( int ( * ) ( void * ) , long ) ;
int a = b + c , d = - e , * f = g ;
if ( a + b ) c ; else d ;
if ( a ) if ( b ) ; else c ; d ;
if ( a ) { b ; } else if ( c ) ; else d ;
while ( a ) { b ; }
do a ; while ( b + c ) ;
for ( a + b ; c ; d = e ) f ;
for ( ; ; ) { break ; continue ; }
return ;
return a + b ;
a = b = c + d ;
a ? b : c ? d : e ;
a ? b ? c : d : e + f ;
a + b ? c = d : e ;
a + b * c << d == e && f ;
a || b ^ c | d & e ;
a - ( b - c ) - d ;
( ( a + b ) ) * c ;
- ~ a + ! b ;
* & a . b ;
( int ) a ;
( int ) ( char * * ) a + b ;
( int ( * ) ( int * ) ) a ;
a + ( int ) b + c ;
sizeof ( int * * ) + a ;
- sizeof ( int ) ;
a [ b + c ] [ d ] . e -> f ;
f ( a , b + c ) ( d ) ;
f ( a = b , - c ) + d ;
( a + b ) . c = d [ e ] ;
* a -> b = & c . d + e ;
f ( ) ( ) + a ;
"""


def module(name):
    rows = [f"//! Samples of {name.replace('_', ' ')}.", "", "use crate::faults::Sample;", ""]
    rows.append(f"pub static {name.upper()}: [Sample; {len(samples(name))}] = [")
    for sample in samples(name):
        rows.append(f"Sample {{ tokens: {quoted(sample)}, places: &[")
        rows += [quoted(text) + "," for text in lines(sample)]
        rows.append("] },")
    return "\n".join(rows + ["];", ""])


def quoted(text):
    return json.dumps(text)


def nesting_module():
    rows = ["//! Statements and declarations with the nesting of each of their tokens.", "", "use crate::nesting::Statement;", ""]
    statements = [statement for statement in NESTED.split("\n") if statement]
    rows.append(f"pub static STATEMENTS: [Statement; {len(statements)}] = [")
    for statement in statements:
        kinds = [kind_of(token) for token in f"int f ( ) {{ {statement} }}".split()]
        numbers = ", ".join(str(nesting) for nesting in nestings(kinds)[5:-1])
        rows.append(f"Statement {{ tokens: {quoted(statement)}, nestings: &[{numbers}] }},")
    return "\n".join(rows + ["];", ""])


def main(words):
    crate = os.path.join(os.path.dirname(__file__), "..", "crates", "front_end_tests", "src")
    if words == ["all"]:
        check_samples()
        for name in SAMPLES:
            with open(os.path.join(crate, "faults", name + ".rt"), "w", encoding="utf-8") as out:
                out.write(module(name))
        with open(os.path.join(crate, "nesting", "samples.rt"), "w", encoding="utf-8") as out:
            out.write(nesting_module())
    elif words[:1] == ["rows"]:
        print(module(words[1]), end="")
    elif words == ["nesting"]:
        print(nesting_module(), end="")
    else:
        print(full_answer([kind_of(token) for token in " ".join(words).split()]))


if __name__ == "__main__":
    main(sys.argv[1:])
