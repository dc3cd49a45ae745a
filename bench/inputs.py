"""Files of Ribbit whose length grows with a number: what bench/run times.

GROUPS at the end names them, each with the number at the whole size; at half of it a file is about half as long. FILES are
given to `check`, those of layouts that agree to `layout` too, and COMPILED to `compile`; RUNS are programs with their words;
IMAGES are files, each with the text of an image that `value` reads, or `peek` where a path stands behind it. CODES are code
texts of bench/code that are run by `exec`.
"""
import itertools
import os
import string

LIMIT = 262_144
IMAGE_LIMIT = 16_777_216
NODES = 1_000_000
MAIN = "fun main(): u8 = 0;\n"
LIST = (
    "type List = Nil | Cons(u64, List);\nlayout List <64> = split 0[0:1] {\n  1 => Nil : { word 64 { [0:1] = 1 } }\n"
    "  0 => Cons(_, _) : { word 64 { [0:1] = 0, [3:61] -> 8 { word 64 { [0:64] .0 }, inline .1 } } }\n};\n"
)
TREE = (
    "type T = L | F(T, T);\nlayout T <64> = split 0[0:1] {\n  1 => L : { word 64 { [0:1] = 1 } }\n"
    "  0 => F(_, _) : { word 64 { [0:1] = 0, [3:61] -> 8 { inline .0, inline .1 } } }\n};\n"
)


def names(letter, count):
    return [f"{letter}{i}" for i in range(count)]


def comma(items):
    return ",".join(items)


def enumeration(name, cons):
    """A type of constructors without fields, told by their numbers in a word of 16 bits."""
    arms = "".join(f"{i}=>{con}:{{word 16{{[0:16]={i}}}}}\n" for i, con in enumerate(cons))
    return f"type {name}={'|'.join(cons)};\nlayout {name}<16>=split 0[0:16]{{\n{arms}}};\n"


def numbered(provenances, width=16):
    """An arm for each provenance, told by its number."""
    return [f"{k}=>{prov}:{{word {width}{{[0:{width}]={k}}}}}" for k, prov in enumerate(provenances)]


# Layouts that agree -------------------------------------------------------------------------------------------------------


def words(n):
    """n types, each with a block of 64 words."""
    block = comma(f"word 8{{[0:8]={i}}}" for i in range(63))
    return MAIN + "".join(
        f"type T{t}=C{t}(u8);\nlayout T{t}<64>=C{t}(_):{{word 64{{[0:64]->8{{{block},word 8{{[0:8].0}}}}}}}};\n" for t in range(n)
    )


def blocks(n):
    """n types, each with 64 blocks, one inside the other."""
    inner = "word 64{[0:64].0}"
    for _ in range(64):
        inner = f"word 64{{[0:64]->8{{{inner}}}}}"
    return MAIN + "".join(f"type T{t}=C{t}(u64);\nlayout T{t}<64>=C{t}(_):{{{inner}}};\n" for t in range(n))


def leaves(n):
    """n types of 256 constructors."""
    return MAIN + "".join(enumeration(f"T{t}", names(f"A{t}_", 256)) for t in range(n))


def many(n):
    """n types, each with a layout of four leaves."""
    return MAIN + "".join(
        f"type T{t}=A{t}|B{t}(u8)|C{t}(u8,u8,u8)|D{t}(u32);\nlayout T{t}<64>=split 0[0:2]{{0=>A{t}:{{word 64{{[0:2]=0}}}}\n"
        f"1=>B{t}(_):{{word 64{{[0:2]=1,[8:8].0}}}}\n2=>C{t}(_,_,_):{{word 64{{[0:2]=2,[8:8].0,[16:8].1,[24:8].2}}}}\n"
        f"3=>D{t}(_):{{word 64{{[0:2]=3,[32:32].0}}}}}};\n"
        for t in range(n)
    )


def pairs(n):
    """A layout of 100 n leaves, one for each pair of constructors: all have the same root."""
    one, other = names("A", n), names("B", 100)
    arms = numbered(f"D({a},{b})" for a, b in itertools.product(one, other))
    body = "\n".join(arms)
    return MAIN + enumeration("A", one) + enumeration("B", other) + f"type D=D(A,B);\nlayout D<16>=split 0[0:16]{{\n{body}\n}};\n"


def roots(n):
    """A layout of 250 n leaves with 250 roots."""
    one, other = names("A", n), names("B", 250)
    body = "\n".join(numbered(f"{b}({a})" for a, b in itertools.product(one, other)))
    cons = "|".join(f"{b}(A)" for b in other)
    return MAIN + enumeration("A", one) + f"type D={cons};\nlayout D<16>=split 0[0:16]{{\n{body}\n}};\n"




def nested(n):
    """n types, each with 126 splits, one below the `else` of the other."""
    text = MAIN
    for t in range(n):
        cons = names(f"A{t}_", 127)
        splits = "".join(f"split 0[0:8]{{{i}=>{con}:{{word 8{{[0:8]={i}}}}} else=>\n" for i, con in enumerate(cons[:-1]))
        text += f"type T{t}={'|'.join(cons)};\nlayout T{t}<8>={splits}{cons[-1]}:{{word 8{{[0:8]=126}}}}{'}' * 126};\n"
    return text


def below(n):
    """100 n leaves below 120 splits."""
    one, other = names("A", n), names("B", 100)
    provs = (f"D({a},{b})" for a, b in itertools.product(one, other))
    arms = "\n".join(f"{k}=>{prov}:{{word 64{{[0:64]={k}}}}}" for k, prov in enumerate(provs))
    tree = f"split 0[0:32]{{\n{arms}\n}}"
    for i in range(120):
        tree = f"split 0[{32 + i % 32}:1]{{0=>{tree}}}"
    return MAIN + enumeration("A", one) + enumeration("B", other) + f"type D=D(A,B);\nlayout D<64>={tree};\n"


def others(n):
    """50 n literals beside an `else`, and 50 n leaves below it."""
    one, other = names("A", n), names("B", 100)
    arms = numbered(f"D({a},{b})" for a, b in itertools.product(one, other))
    half = len(arms) // 2
    first, second = "\n".join(arms[:half]), "\n".join(arms[half:])
    tree = f"split 0[0:16]{{\n{first}\nelse=>split 0[0:16]{{\n{second}\n}}}}"
    return MAIN + enumeration("A", one) + enumeration("B", other) + f"type D=D(A,B);\nlayout D<16>={tree};\n"


def niche(n):
    """100 n literals beside an `else` whose leaf holds a field of a type of 256 constructors."""
    one, other = names("A", n), names("B", 100)
    held = names("S", 256)
    arms = "\n".join(numbered((f"D({a},{b})" for a, b in itertools.product(one, other)), 32))
    far = "".join(f"{100000 + i}=>{con}:{{word 32{{[0:32]={100000 + i}}}}}\n" for i, con in enumerate(held))
    return (
        MAIN + enumeration("A", one) + enumeration("B", other) + f"type S={'|'.join(held)};\nlayout S<32>=split 0[0:32]{{\n{far}}};\n"
        f"type D=D(A,B)|E(S);\nlayout D<32>=split 0[0:32]{{\n{arms}\nelse=>E(_):{{word 32{{[0:32].0}}}}}};\n"
    )


def niches(n):
    """40 n literals beside an `else` and 40 n leaves below it, each with a field of a type of ten constructors."""
    one, other, held = names("A", n), names("B", 40), names("S", 10)
    arms = "\n".join(numbered((f"D({a},{b})" for a, b in itertools.product(one, other)), 64))
    far = "".join(f"{100000 + i}=>{con}:{{word 32{{[0:32]={100000 + i}}}}}\n" for i, con in enumerate(held))
    under = "\n".join(
        f"{k}=>E({a},{b},_):{{word 64{{[0:32].2,[32:32]={k}}}}}" for k, (a, b) in enumerate(itertools.product(one, other))
    )
    return (
        MAIN + enumeration("A", one) + enumeration("B", other) + f"type S={'|'.join(held)};\nlayout S<32>=split 0[0:32]{{\n{far}}};\n"
        f"type D=D(A,B)|E(A,B,S);\nlayout D<64>=split 0[0:32]{{\n{arms}\nelse=>split 0[32:32]{{\n{under}\n}}}};\n"
    )


def turns(n):
    """40 n literals beside an `else` and 40 n leaves below it, whose fields have one of two types of 256 constructors in turn."""
    one, other, half = names("A", n), names("B", 40), names("C", 20)
    arms = "\n".join(numbered((f"D({a},{b})" for a, b in itertools.product(one, other)), 64))
    held = ""
    for name, first in ("S", 100000), ("T", 200000):
        cons = names(name, 256)
        far = "".join(f"{first + i}=>{con}:{{word 32{{[0:32]={first + i}}}}}\n" for i, con in enumerate(cons))
        held += f"type {name}={'|'.join(cons)};\nlayout {name}<32>=split 0[0:32]{{\n{far}}};\n"
    pairs_ = (f"{con}({a},{c},_)" for a, c in itertools.product(one, half) for con in "EF")
    under = "\n".join(f"{k}=>{prov}:{{word 64{{[0:32].2,[32:32]={k}}}}}" for k, prov in enumerate(pairs_))
    return (
        MAIN + enumeration("A", one) + enumeration("B", other) + enumeration("C", half) + held
        + f"type D=D(A,B)|E(A,C,S)|F(A,C,T);\nlayout D<64>=split 0[0:32]{{\n{arms}\nelse=>split 0[32:32]{{\n{under}\n}}}};\n"
    )


def bits(n):
    """A leaf with 512 n open bits, each held by a part of its own."""
    low = comma(f"[{i}:1].{i}" for i in range(16))
    wide = comma(f"word 64{{{comma(f'[{16 * j}:16].{4 * w + j}' for j in range(4))}}}" for w in range(8))
    text = f"type B=B({comma(['u1'] * 16)});\nlayout B<16>=B({comma('_' * 16)}):{{word 16{{{low}}}}};\n"
    text += f"type C=C({comma(['B'] * 32)});\nlayout C<{comma(['64'] * 8)}>=C({comma('_' * 32)}):{{{wide}}};\n"
    b = f"B({comma('_' * 16)})"
    prov = comma([f"C({comma([b] * 32)})"] * n)
    paths = [f".{i}.{j}.{k}" for i in range(n) for j in range(32) for k in range(16)]
    flat = [f"word 64{{{comma(f'[{i}:1]{path}' for i, path in enumerate(paths[w : w + 64]))}}}" for w in range(0, len(paths), 64)]
    roots_ = [f"word 64{{[0:64]->8{{{comma(flat[w : w + 64])}}}}}" for w in range(0, len(flat), 64)]
    return MAIN + text + f"type D=D({comma(['C'] * n)});\nlayout D<{comma(['64'] * len(roots_))}>=D({prov}):{{{comma(roots_)}}};\n"


def chain(n):
    """n types, each of which holds the one before it in its root word."""
    text = MAIN + "type T0=C0(u8);\nlayout T0<8>=C0(_):{word 8{[0:8].0}};\n"
    return text + "".join(f"type T{t}=C{t}(T{t - 1});\nlayout T{t}<8>=C{t}(_):{{word 8{{[0:8].0}}}};\n" for t in range(1, n))


def flat(n):
    """n types, each of which flattens the one before it."""
    text = MAIN + "type T0=C0(u8);\nlayout T0<8>=C0(_):{word 8{[0:8].0}};\n"
    return text + "".join(f"type T{t}=C{t}(T{t - 1});\nlayout T{t}<8>=C{t}(C{t - 1}(_)):{{word 8{{[0:8].0.0}}}};\n" for t in range(1, n))


def steps(n):
    """n types, each a bit wider than the one before it, the last beside a niche of the first."""
    text = MAIN + "type C0=A0|B0;\nlayout C0<2>=split 0[0:2]{0=>A0:{word 2{[0:2]=0}} 1=>B0:{word 2{[0:2]=1}}};\n"
    for i in range(1, n):
        w, b = i + 2, i + 1
        text += (
            f"type C{i}=A{i}(C{i - 1})|B{i}(C{i - 1});\nlayout C{i}<{w}>=split 0[{b}:1]{{0=>A{i}(_):{{word {w}{{[0:{b}].0,[{b}:1]=0}}}}"
            f" 1=>B{i}(_):{{word {w}{{[0:{b}].0,[{b}:1]=1}}}}}};\n"
        )
    w = n + 1
    return text + f"type E=F|G(C{n - 1});\nlayout E<{w}>=split 0[0:2]{{2=>F:{{word {w}{{[0:2]=2}}}} else=>G(_):{{word {w}{{[0:{w}].0}}}}}};\n"


# Layouts that are refused -------------------------------------------------------------------------------------------------


def closed(n):
    """A word with 100 n parts whose path is not open."""
    return MAIN + f"type T=C(u8);\nlayout T<8>=C(_):{{word 8{{[0:8].0,{comma(['[0:1].9'] * (100 * n))}}}}};\n"


def twice(n):
    """A split of 100 n arms, the last two of the same literal."""
    one, other = names("A", n), names("B", 100)
    arms = numbered(f"D({a},{b})" for a, b in itertools.product(one, other))
    last = len(arms) - 2
    arms[-1] = f"{last}=>D({one[-1]},{other[-1]}):{{word 16{{[0:16]={last}}}}}"
    body = "\n".join(arms)
    return MAIN + enumeration("A", one) + enumeration("B", other) + f"type D=D(A,B);\nlayout D<16>=split 0[0:16]{{\n{body}\n}};\n"


def ring(n):
    """n types, each of which flattens the next, the last the first."""
    return MAIN + "".join(
        f"type T{t}=C{t}(T{(t + 1) % n})|E{t};\nlayout T{t}<64>=split 0[0:2]{{\n"
        f"0=>C{t}(C{(t + 1) % n}(_)):{{word 64{{[0:2]=0,[3:61]->8{{inline.0.0}}}}}}\n"
        f"1=>C{t}(E{(t + 1) % n}):{{word 64{{[0:2]=1}}}} 2=>E{t}:{{word 64{{[0:2]=2}}}}}};\n"
        for t in range(n)
    )


# Matches and names --------------------------------------------------------------------------------------------------------


def literals(n):
    """A match of 1,000 n literals."""
    clauses = comma(f"{i}=>{i}" for i in range(1000 * n))
    return f"fun main(x: u64): u64 = match x {{{clauses},_=>0}};\n"


def short_clauses(n):
    """A match of 1,000 n literals with one answer, so that more of them fit into a file."""
    return f"fun main(x: u64): u64 = match x {{{comma(f'{i}=>0' for i in range(1000 * n))},_=>1}};\n"


def wrapped(n):
    """A match of 1,000 n clauses with one constructor, each with a number in it."""
    return f"type P=P(u64);\nfun f(p: P): u8 = match p {{{comma(f'P({i})=>0' for i in range(1000 * n))},_=>1}};\n" + MAIN


def crossed(n):
    """A match of 1,000 n clauses that look at one of two numbers in turn, so that none of them is told apart from the next."""
    clauses = (f"P({i},_)=>0,P(_,{i})=>0" for i in range(500 * n))
    return f"type P=P(u64,u64);\nfun f(p: P): u8 = match p {{{comma(clauses)},_=>1}};\n" + MAIN


def wilds(n):
    """A match of 1,000 n clauses, all of them `_`."""
    return f"fun main(x: u64): u64 = match x {{{comma(['_=>0'] * (1000 * n))}}};\n"


def columns(n):
    """For each of n columns of 32 two clauses, with 0 and with 1 there."""
    clauses = []
    for j in range(n):
        for bit in "01":
            row = ["_"] * 32
            row[j] = bit
            clauses.append(f"S({comma(row)})=>0")
    return f"type S=S({comma(['u1'] * 32)});\nfun main(s: S): u8 = match s {{{comma(clauses)}}};\n"


def nested_columns(n):
    """A clause with 0 for each of n columns of 1,024, which stand in 32 constructors of 32 bits each, and then one of `_`."""
    clauses = []
    for j in range(n):
        row, bits = ["_"] * 32, ["_"] * 32
        bits[j % 32] = "0"
        row[j // 32] = f"B({comma(bits)})"
        clauses.append(f"S({comma(row)})=>0")
    types = f"type B=B({comma(['u1'] * 32)});\ntype S=S({comma(['B'] * 32)});\n"
    return types + f"fun f(s: S): u8 = match s {{{comma(clauses)},_=>1}};\n" + MAIN


def heads(n):
    """A match of 256 constructors of 32 fields, a clause each, and then 1,000 n of `_`."""
    cons = names("C", 256)
    fields_ = comma(["u8"] * 32)
    types = f"type S={'|'.join(f'{con}({fields_})' for con in cons)};\n"
    clauses = [f"{con}({comma('_' * 32)})=>0" for con in cons] + ["_=>0"] * (1000 * n)
    return types + f"fun f(s: S): u8 = match s {{{comma(clauses)}}};\n" + MAIN


def unfolded(n):
    """A match on a value and a number: a clause for each of 256 constructors of 32 fields, and 100 n that look at the number alone."""
    cons = names("C", 256)
    fields_ = comma(["u8"] * 32)
    types = f"type S={'|'.join(f'{con}({fields_})' for con in cons)};\ntype P=P(S,u64);\n"
    clauses = [f"P({con}({comma('_' * 32)}),0)=>0" for con in cons] + [f"P(_,{k})=>0" for k in range(1, 100 * n + 1)] + ["_=>0"]
    return types + f"fun f(p: P): u8 = match p {{{comma(clauses)}}};\n" + MAIN


def all_numbers(n):
    """A match of a clause for each number of the widest type of integers that has at most 1,024 n."""
    width = (1024 * n).bit_length() - 1
    return f"fun main(x: u{width}): u8 = match x {{{comma(f'{i}=>0' for i in range(1 << width))}}};\n"


def crowded(n):
    """A match on a value and a number: a clause for each of 256 constructors, and 1,000 n that look at the number alone."""
    cons = names("C", 256)
    clauses = [f"P({con},_)=>0" for con in cons] + [f"P(_,{k})=>0" for k in range(1000 * n)]
    return f"type S={'|'.join(cons)};\ntype P=P(S,u64);\nfun f(p: P): u8 = match p {{{comma(clauses)}}};\n" + MAIN


def crowded_numbers(bits):
    """A match on two numbers: a clause with 0 beside each of the 4,096 of `u12`, and one for each of the other type alone."""
    clauses = [f"P({k},0)=>0" for k in range(4096)] + [f"P(_,{k})=>0" for k in range(1 << bits)]
    return f"type P=P(u12,u{bits});\nfun f(p: P): u8 = match p {{{comma(clauses)}}};\n" + MAIN


def balanced(levels, leaf):
    return leaf if levels == 0 else f"F({balanced(levels - 1, leaf)},{balanced(levels - 1, leaf)})"


def pattern(n):
    """A pattern of 1,024 n nodes: n trees of ten levels."""
    types = f"type T=L|F(T,T);\ntype S=S({comma(['T'] * 32)});\n"
    clause = f"S({comma([balanced(9, 'L')] * n + ['_'] * (32 - n))})=>0"
    return types + f"fun f(s: S): u8 = match s {{{clause},_=>1}};\n" + MAIN


def carried(n):
    """A match on a value and a tree: a pattern of 1,024 n nodes for the tree, and a clause for each of 256 constructors."""
    cons, tree = names("C", 256), "L"
    for _ in range(n):
        tree = f"F({balanced(9, 'L')},{tree})"
    clauses = [f"P(_,{tree})=>0"] + [f"P({con},_)=>0" for con in cons]
    types = f"type S={'|'.join(cons)};\ntype T=L|F(T,T);\ntype P=P(S,T);\n"
    return types + f"fun f(p: P): u8 = match p {{{comma(clauses)}}};\n" + MAIN


def bound(n, answer):
    """A match with a pattern of 1,024 n names, and its answer."""
    types = f"type B=B({comma(['u8'] * 32)});\ntype C=C({comma(['B'] * 32)});\ntype D=D({comma(['C'] * 32)});\n"
    fresh = (f"x{i}" for i in itertools.count())

    def con(name, parts):
        return f"{name}({comma(parts)})"

    groups = [con("C", [con("B", [next(fresh) for _ in range(32)]) for _ in range(32)]) for _ in range(n)]
    return types + f"fun f(d: D): u8 = match d {{{con('D', groups + ['_'] * (32 - n))}=>{answer}}};\n" + MAIN


def binders(n):
    """A pattern of 1,024 n names."""
    return bound(n, "0")


def used(n):
    """A pattern of 1,024 n names, and as many uses of the first of them."""
    one = f"g({comma(['x0'] * 32)})"
    many = f"g({comma([one] * 32)})"
    params = comma(f"a{i}: u8" for i in range(32))
    return bound(n, f"g({comma([many] * n + ['0'] * (32 - n))})") + f"fun g({params}): u8 = a0;\n"


def unknown(n):
    """A constructor that is not there, with 1,000 n names."""
    return f"fun main(): u8 = match 0 {{C({comma(f'x{i}' for i in range(1000 * n))})=>0}};\n"


def short_names(n):
    """The same with 1,000 n names of three letters, whose first is that of no reserved word of three."""
    second = string.ascii_letters + string.digits + "_"
    found = map("".join, itertools.product("bcdeghijknopqrtvwyz", second, second))
    return f"fun main(): u8 = match 0 {{C({comma(itertools.islice(found, 1000 * n))})=>0}};\n"


# Matches that are compiled ------------------------------------------------------------------------------------------------


def coloured(n):
    """A pattern of 382 n + 1 constructors, most of them of a type whose leaves tell the colour of a node."""
    types = "type C=R|K;\nlayout C<1>=split 0[0:1]{0=>R:{word 1{[0:1]=0}} 1=>K:{word 1{[0:1]=1}}};\n"
    parts = "[3:61]->8{inline.1,inline.2}"
    nodes = "\n".join(f"{k}=>N({colour},_,_):{{word 64{{[0:2]={k},{parts}}}}}" for k, colour in enumerate("RK", 1))
    types += f"type T=E|N(C,T,T);\nlayout T<64>=split 0[0:2]{{\n0=>E:{{word 64{{[0:2]=0}}}}\n{nodes}\n}};\n"
    held = comma(f"inline.{i}" for i in range(32))
    types += f"type S=S({comma(['T'] * 32)});\nlayout S<64>=S({comma('_' * 32)}):{{word 64{{[0:64]->8{{{held}}}}}}};\n"
    tree = "E"
    for _ in range(7):
        tree = f"N(R,{tree},{tree})"
    clause = f"S({comma([tree] * n + ['_'] * (32 - n))})=>0"
    return types + f"fun f(s: S): u8 = match s {{{clause},_=>1}};\n" + MAIN


# Plain files --------------------------------------------------------------------------------------------------------------


def functions(n):
    """n functions: `main`, and others of which each calls the next."""
    return MAIN + "".join(f"fun f{i}():u8=f{(i + 1) % (n - 1)}();\n" for i in range(n - 1))


def fields(n):
    """n constructors of 32 fields, and a layout of as many leaves."""
    cons = names("C", n)
    inner = comma(f"inline.{i}" for i in range(32))
    arms = "\n".join(f"{k}=>{con}({comma('_' * 32)}):{{word 64{{[0:8]={k},[8:56]->8{{{inner}}}}}}}" for k, con in enumerate(cons))
    types = "|".join(f"{con}({comma(['u8'] * 32)})" for con in cons)
    return MAIN + f"type S={types};\nlayout S<64>=split 0[0:8]{{\n{arms}\n}};\n"


def levels(n):
    """n functions whose bodies have 128 levels."""
    body = "add(1," * 127 + "1" + ")" * 127
    return MAIN + "".join(f"fun f{i}():u64={body};\n" for i in range(n))


def text(n):
    """n functions that match on a list and call themselves."""
    return MAIN + LIST + "".join(
        f"fun sum{i}(list: List, start: u64): u64 = match list {{ Nil => start, Cons(first, rest) => sum{i}(rest, add(first, start)) }};\n"
        for i in range(n)
    )


# Programs that are run ----------------------------------------------------------------------------------------------------


def spread(value, one, count, result=None):
    """An identity of its first parameter, or the number 0, of as many parameters as there are values: a word of a command line is at most 131,071 bytes."""
    ends = f"{one} = x0" if result is None else f"{result} = 0"
    return f"fun main({comma(f'x{i}: {one}' for i in range(count))}): {ends};\n", ["1", "16777216"] + [value] * count


def chain_of(count):
    """A list of so many ones, its type and constructors by one letter each."""
    return "C(1," * count + "N" + ")" * count


def short(text):
    return text.replace("List", "S").replace("Nil", "N").replace("Cons", "C")


def lists(n):
    """15 lists of 1,000 n numbers as arguments."""
    main, words_ = spread(chain_of(1000 * n), "S", 15)
    return short(LIST) + main, words_


def lists_in(n):
    """21 lists of 1,000 n numbers as arguments that are read and encoded, and not looked at."""
    main, words_ = spread(chain_of(1000 * n), "S", 21, "u64")
    return short(LIST) + main, words_


def trees(n):
    """2 n trees of 16,383 nodes as arguments."""
    main, words_ = spread(balanced(13, "L"), "T", 2 * n)
    return TREE + main, words_


def trees_in(n):
    """2 n trees of 16,383 nodes as arguments that are read and encoded, and not looked at."""
    main, words_ = spread(balanced(13, "L"), "T", 2 * n, "u64")
    return TREE + main, words_


UP = "fun up(n: u64, l: List): List = match n { 0 => l, _ => up(sub(n, 1), Cons(n, l)) };\n"
BUILD = "fun build(n: u64): List = match n { 0 => Nil, _ => Cons(n, build(sub(n, 1))) };\n"
SUM = "fun sum(l: List): u64 = match l { Nil => 0, Cons(x, r) => add(x, sum(r)) };\n"


def printed(n):
    """A list of 1,000 n - 1 numbers, built and printed."""
    return LIST + UP + "fun main(n: u64): List = up(n, Nil);\n", ["1000000000", "16777216", str(1000 * n - 1)]


def grown(n):
    """A tree of 2^n - 1 nodes that share their halves, built and printed."""
    grow = "fun grow(n: u64, t: T): T = match n { 0 => t, _ => grow(sub(n, 1), F(t, t)) };\nfun main(n: u64): T = grow(n, L);\n"
    return TREE + grow, ["1000", "16777216", str(n - 1)]


def halved(n):
    """The same tree, small enough to be printed."""
    return grown(n)


def summed(n):
    """A list of 1,000 n numbers, built by recursion and summed by recursion, ten times."""
    again = "fun again(k: u64, n: u64): u64 = match k { 0 => 0, _ => add(sum(build(n)), again(sub(k, 1), n)) };\n"
    return LIST + BUILD + SUM + again + "fun main(n: u64): u64 = again(10, n);\n", ["1000000000", "16777216", str(1000 * n)]


REDBLACK = open(f"{os.path.dirname(os.path.realpath(__file__))}/../examples/redblack/redblack.rib").read().rpartition("fun main")[0]
RISCVB = open(f"{os.path.dirname(os.path.realpath(__file__))}/../examples/riscvb/riscvb.rib").read().rpartition("fun main")[0]


def inserted(n):
    """1,000 n numbers put into a red-black tree, one after the other, and summed."""
    put_all = "fun put_all(n: u64, t: Tree): Tree = match n { 0 => t, _ => put_all(sub(n, 1), blacken(put(t, to u64(to u16(mul(n, 7919)))))) };\n"
    total = "fun total(t: Tree): u64 = match t { Leaf => 0, Node(_, l, x, r) => add(x, add(total(l), total(r))) };\n"
    return REDBLACK + put_all + total + "fun main(n: u64): u64 = total(put_all(n, Leaf));\n", ["1000000000", "16777216", str(1000 * n)]


def decoded(n):
    """1,000 n RISC-V branches put together and their offsets taken out again, by a thousand each."""
    inner = "fun inner(i: u64): u64 = match i { 0 => 0, _ => add(to u64(offset(equal(1, 2, to u12(i)))), inner(sub(i, 1))) };\n"
    outer = "fun outer(k: u64): u64 = match k { 0 => 0, _ => add(inner(1000), outer(sub(k, 1))) };\n"
    return RISCVB + inner + outer + "fun main(n: u64): u64 = outer(n);\n", ["1000000000", "64", str(n)]


# Images that are read back ------------------------------------------------------------------------------------------------


def address(i):
    """That of block i, where each has 16 bytes."""
    return 64 + 16 * i


def image_of(blocks_):
    """The text of an image of blocks, each of two words, whose root leads to the last."""
    lines = [f"root 0x{address(len(blocks_) - 1):x}\n"]
    for i, pair in enumerate(blocks_):
        held = b"".join(word.to_bytes(8, "little") for word in pair)
        lines.append(f"block {address(i)} 16 {held.hex()}\n")
    return "".join(lines)


def list_image(n):
    """A list of 1,000 n numbers."""
    pairs_ = [(i, address(i - 1) if i else 1) for i in range(1000 * n)]
    return LIST + "fun main(): List = Nil;\n", image_of(pairs_)


def tree_image(n):
    """A tree of 1,000 n forks, as balanced as can be."""
    count = 1000 * n

    def part(k):
        return address(count - 1 - k) if k < count else 1

    pairs_ = [(part(2 * k + 1), part(2 * k + 2)) for k in reversed(range(count))]
    return TREE + "fun main(): T = L;\n", image_of(pairs_)


def shared_image(n):
    """1,000 n forks, each of the one below and a leaf, or a fork that all share where the value stays below a million nodes."""
    count = 1000 * n
    thick = min(count - 1, (NODES - 1 - 2 * count - 1) // 2)
    pairs_ = [(1, 1)] + [(address(i - 1), address(0) if i <= thick else 1) for i in range(1, count)]
    return TREE + "fun main(): T = L;\n", image_of(pairs_)


def doubled_image(n):
    """n forks, each of the one below and that again: 2^(n + 1) - 1 nodes."""
    return TREE + "fun main(): T = L;\n", image_of([(1, 1)] + [(address(i), address(i)) for i in range(n - 1)])


def walked_image(n):
    """A list of 1,000 n numbers, and the path to the last of them."""
    text, image = list_image(n)
    return text, image, ".1" * (1000 * n - 1) + ".0"


def sought_image(n):
    """A tree of 1,000 n forks, as balanced as can be, and the path to its first leaf."""
    text, image = tree_image(n)
    return text, image, ".0" * (1000 * n).bit_length()


# What is made, and how large ----------------------------------------------------------------------------------------------

# Of these a size is an exponent of two, so that one less is half as much.
BY_POWERS = (crowded_numbers, grown, halved)
AGREEING = [
    (words, 200), (blocks, 140), (leaves, 24), (many, 1000), (pairs, 64), (roots, 26), (nested, 34), (below, 56), (others, 64), (niche, 54),
    (niches, 70), (turns, 66), (bits, 24), (chain, 1000), (flat, 1000), (steps, 60), (fields, 256),
]
REFUSED = [(closed, 300), (twice, 64), (ring, 900)]
MATCHES = [
    (literals, 16), (short_clauses, 28), (wrapped, 20), (crossed, 18), (wilds, 52), (columns, 32), (nested_columns, 1024), (heads, 43), (unfolded, 4),
    (crowded, 15), (crowded_numbers, 13), (all_numbers, 16), (pattern, 32), (carried, 96), (binders, 28), (used, 26), (unknown, 36), (short_names, 65),
]
COMPILED = [(coloured, 8)]
PLAIN = [(functions, 10000), (levels, 280), (text, 2000)]
RUNS = [
    (lists, 24), (lists_in, 24), (trees, 14), (trees_in, 16), (printed, 500), (halved, 19), (grown, 20), (summed, 100), (inserted, 10),
    (decoded, 1000),
]
IMAGES = [(list_image, 336), (tree_image, 336), (shared_image, 336), (doubled_image, 40), (walked_image, 65), (sought_image, 336)]
# By name: how many instructions the run of `main` begins, and CALLS, REGION and WORD.
CODES = [
    ("list", 14_000_125, 1_000_000_000, 16_777_216, 100_000),
    ("redblack", 3_632_325, 1_000_000_000, 16_777_216, 10_000),
    ("decode", 27_010_002, 1_000_000_000, 64, 1_000),
]
