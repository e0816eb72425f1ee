"""Inputs that nest as deep, or repeat as often, as a text or a module can, and small ones that take much time or memory, for `bench/faults`."""
from random_changes import leb

BOOL = "(InductiveDecl bool (params) (family bool (sort Set) (indices) (ctor true (args) (result)) (ctor false (args) (result))))"
NAT = "(InductiveDecl nat (params) (family nat (sort Set) (indices) (ctor O (args) (result)) (ctor S (args (n (tInd nat 0))) (result))))"
N, O = "(tInd nat 0)", "(tConstruct nat 0 0)"
ADD = (f"(ConstantDecl add (tProd n {N} (tProd m {N} {N})) (tFix ((def add (tProd n {N} (tProd m {N} {N})) (tLambda n {N} (tLambda m {N} "
       f"(tCase (nat 0) (params) (pred (x) {N}) (tRel 1) (br () (tRel 0)) (br (p) (tApp (tConstruct nat 0 1) (tApp (tRel 3) (tRel 0) (tRel 1))))))) 0)) 0))")
MUL = (f"(ConstantDecl mul (tProd n {N} (tProd m {N} {N})) (tFix ((def mul (tProd n {N} (tProd m {N} {N})) (tLambda n {N} (tLambda m {N} "
       f"(tCase (nat 0) (params) (pred (x) {N}) (tRel 1) (br () {O}) (br (p) (tApp (tConst add) (tRel 1) (tApp (tRel 3) (tRel 0) (tRel 1))))))) 0)) 0))")


def number(n, of=O):
    return "(tApp (tConstruct nat 0 1) " * n + of + ")" * n


def environment(declarations, main, levels="", constraints=""):
    return f"(env 1 (levels {levels}) (constraints {constraints}) {declarations} (main {main}))".encode()


FULL = 16 * 1024 * 1024


def filled(front, piece, back):
    """A text of at most 16 MiB with as many pieces as fit."""
    return front + piece * ((FULL - len(front) - len(back)) // len(piece)) + back


def nests():
    """Texts whose brackets or terms nest as deep as may be."""
    front = b"(env 1 (levels) (constraints) (main "
    yield "brackets to the end", front + b"(tApp " * 998
    yield "a bracket more", front + b"(tApp " * 999
    yield "lambdas", environment(NAT, "(tLambda x (tInd nat 0) " * 990 + "(tRel 0)" + ")" * 990)
    yield "products", environment(NAT, "(tProd x (tInd nat 0) " * 990 + "(tInd nat 0)" + ")" * 990)
    yield "products in domains", environment(NAT, "(tProd x " * 990 + "(tInd nat 0)" + " (tInd nat 0))" * 990)
    yield "lets in bodies", environment(NAT, f"(tLetIn x {O} (tInd nat 0) " * 990 + "(tRel 0)" + ")" * 990)
    yield "lets in values", environment(NAT, "(tLetIn x " * 990 + O + " (tInd nat 0) (tRel 0))" * 990)
    yield "successors", environment(NAT, number(990))
    yield "casts", environment(NAT, "(tCast " * 990 + O + " Cast (tInd nat 0))" * 990)
    yield "matches in scrutinees", environment(NAT, f"(tCase (nat 0) (params) (pred (x) {N}) " * 985 + O + f" (br () {O}) (br (p) {O}))" * 985)
    yield "matches in branches", environment(NAT, f"(tCase (nat 0) (params) (pred (x) {N}) {O} (br () " * 490 + O + f") (br (p) {O}))" * 490)
    yield "fixpoints in bodies", environment(NAT, f"(tFix ((def f (tProd n {N} {N}) (tLambda n {N} (tApp " * 190 + f"(tLambda x {N} (tRel 0))" + " (tRel 0))) 0)) 0)" * 190)
    yield "a function of 960 arguments", environment(f"{NAT} (ConstantDecl f {'(tProd x (tInd nat 0) ' * 960}{N}{')' * 960} None)", "(tApp (tConst f)" + f" {O}" * 960 + ")")
    yield "applications of one term, 2,040", environment(NAT, "(tApp (tRel 0)" + f" {O}" * 2040 + ")")
    yield "applications past the depth", environment(NAT, "(tApp (tRel 0)" + f" {O}" * 2050 + ")")
    yield "a sum of 1,900", environment(NAT + ADD, f"(tApp (tConst add) {number(950)} {number(950)})")
    yield "a value deeper than a term may be", environment(NAT + ADD, f"(tApp (tConst add) {number(980)} (tApp (tConst add) {number(980)} {number(980)}))")
    yield "a product of 810,000", environment(NAT + ADD + MUL, f"(tApp (tConst mul) {number(900)} {number(900)})")


def compared(declarations, kind, types, body):
    """A constant whose type is compared with that of its body: a predicate of a term of `kind` that nests 490 levels, four times in itself, and of another such term, which
    differs from it at the innermost place alone. `body` is a term in the context of a truth value and of the innermost place, closed by lambdas of `types`."""
    bool_of, place_of = types
    nest = f"(ConstantDecl f (tProd b {bool_of} (tProd x {place_of} {kind})) (tLambda b {bool_of} (tLambda x {place_of} {body})))"
    of = f"(InductiveDecl V (params (x {kind})) (family V (sort (Type (Set 1))) (indices) (ctor v (args) (result))))"

    def deep(end, b):
        return f"(tApp (tInd V 0) {f'(tApp (tConst f) (tRel {b}) ' * 4}{end}{')' * 4})"

    return lambda left, right: environment(f"{BOOL} {NAT} {declarations} {nest} {of} (ConstantDecl c (tProd b {bool_of} (tProd v {deep(left, 0)} {deep(right, 1)})) "
                                           f"(tLambda b {bool_of} (tLambda v {deep(left, 0)} (tRel 0))))", "(tSort Prop)")


def comparisons():
    """Texts whose check compares 1,960 parts in one another, and finds a difference at the last."""
    one, two = O, f"(tApp (tConstruct nat 0 1) {O})"
    both = ("(tInd bool 0)", N)
    in_branches = f"(tCase (bool 0) (params) (pred (y) {N}) (tRel 1) (br () " * 490 + "(tRel 0)" + f") (br () {O}))" * 490
    yield "branches that are compared", compared("", N, both, in_branches)(one, two)
    in_scrutinees = f"(tCase (nat 0) (params) (pred (y) {N}) " * 490 + "(tApp (tConst s) (tRel 0))" + f" (br () {O}) (br (p) (tRel 0)))" * 490
    yield "scrutinees that are compared", compared(f"(ConstantDecl s (tProd n {N} {N}) None)", N, both, in_scrutinees)(one, two)
    in_arguments = "(tApp (tConst s) " * 490 + "(tRel 0)" + ")" * 490
    yield "arguments that are compared", compared(f"(ConstantDecl s (tProd n {N} {N}) None)", N, both, in_arguments)(one, two)
    in_products = f"(tProd y {N} " * 490 + "(tRel 490)" + ")" * 490
    yield "products that are compared", compared("", "(tSort Set)", ("(tInd bool 0)", "(tSort Set)"), in_products)(N, "(tInd bool 0)")


def long_texts():
    """Texts of 16 MiB."""
    front = b"(env 1 (levels) (constraints) (main "
    yield "opening brackets", b"(" * FULL
    yield "closing brackets", b")" * FULL
    yield "pairs of brackets", b"()" * (FULL // 2)
    yield "brackets behind a term's place", filled(front, b"(", b"")
    yield "one comment", b";" * FULL
    yield "one atom", b"a" * FULL
    yield "applications in one", filled(front + b"(tApp", b" (tRel 0)", b")))")
    axiom = f"(ConstantDecl f {'(tProd x (tInd nat 0) ' * 200}{N}{')' * 200} None)"
    use = f"(tApp (tConst f){(' ' + O) * 100})".encode()
    many = b"".join(b"(ConstantDecl c%d %s %s)" % (at, ("(tProd x (tInd nat 0) " * 100 + N + ")" * 100).encode(), use) for at in range(FULL // 5000))
    yield "constants that apply", f"(env 1 (levels) (constraints) {NAT} {axiom} ".encode() + many + b"(main " + use + b"))"
    yield "arguments of a constructor's branch", filled(environment(NAT, "X").split(b"X")[0] + b"(tCase (nat 0) (params) (pred (x) (tInd nat 0)) (tConstruct nat 0 0)", b" (br () (tConstruct nat 0 0))", b")))")
    yield "definitions of one fixpoint", filled(environment(NAT, "X").split(b"X")[0] + b"(tFix (", b"(def f (tProd n (tInd nat 0) (tInd nat 0)) (tLambda n (tInd nat 0) (tRel 0)) 0)", b") 0)))")
    yield "levels, one again and again", filled(b"(env 1 (levels", b" a", b") (constraints) (main (tSort Prop)))")
    yield "levels of a sort", filled(b"(env 1 (levels a) (constraints) (main (tSort (Type", b" (a 0)", b"))))")
    names = [f"l{at}" for at in range(1024)]
    every = "".join(f" ({name} 0)" for name in names).encode()
    yield "a sort of 1,024 levels again and again", filled(f"(env 1 (levels {' '.join(names)}) (constraints) (main (tSort (Type".encode(), every, b"))))")
    yield "undeclared levels of a sort", b"(env 1 (levels) (constraints) (main (tSort (Type" + b"".join(b" (x%d 0)" % at for at in range(1_300_000)) + b"))))"
    yield "products of sorts of 1,024 levels", b"(env 1 (levels " + " ".join(names).encode() + b") (constraints) (main " + b"(tProd x (tSort (Type" .join([b""] + [every + b")) "] * 900) + b"(tSort Prop)" + b")" * 900 + b"))"
    yield "constraints", filled(b"(env 1 (levels a b) (constraints", b" (le a b)", b") (main (tSort Prop)))")
    yield "axioms", b"(env 1 (levels) (constraints)" + b"".join(b"(ConstantDecl c%d (tSort Prop) None)" % at for at in range(65_536)) + b"(main (tSort Prop)))"
    constructors = b"".join(b"(ctor c%d (args) (result))" % at for at in range(500_000))
    yield "constructors of one family", b"(env 1 (levels) (constraints) (InductiveDecl b (params) (family b (sort Set) (indices)" + constructors + b")) (main (tConstruct b 0 7)))"
    many = "".join(f"(ctor c{at} (args) (result))" for at in range(1024))
    yield "500 families of 1,024 constructors", environment("".join(f"(InductiveDecl b{at} (params) (family b{at} (sort Set) (indices) {many}))" for at in range(500)), "(tConstruct b499 0 1023)")
    families = "".join(f"(family f{at} (sort Set) (indices) (ctor c{at} (args) (result)))" for at in range(255))
    yield "1,000 blocks of 255 families", environment("".join(f"(InductiveDecl b{at} (params) {families})" for at in range(1000)), "(tConstruct b999 254 0)")
    chain = "".join(f"({('le', 'lt')[at % 7 == 0]} l{at * 37 % 1024} l{(at * 37 + at % 11 + 1) % 1024})" if at * 37 % 1024 < 1012 else "(le l0 l1023)" for at in range(16_384))
    yield "16,384 constraints between 1,024 levels", environment(BOOL, "(tConstruct bool 0 0)", " ".join(names), chain)


def deep_certificates():
    """Environments with certificates of at most 16 MiB."""
    constant = f"(ConstantDecl c {N} {O})"
    for what, items in (("numbers", b" 0"), ("steps", b" l 1"), ("parts", b" k"), ("numbers that are too large", b" 4294967296")):
        yield f"a certificate of {what} alone", filled(environment(NAT + constant, O) + b" (cert 1 0", items, b")")
    yield "one number", filled(environment(NAT, O) + b" (cert 1 ", b"1", b")")
    yield "a certificate behind a comment", filled(environment(NAT, O) + b" ;", b";", b"\n(cert 1 0)")
    yield "a comment behind a certificate", filled(environment(NAT, O) + b" (cert 1 0) ;", b";", b"")
    yield "certificates again and again", filled(environment(NAT, O), b" (cert 1)", b"")


def deep_modules():
    """Modules of at most 16 MiB that nest, repeat or run deep."""
    def module(bodies, table=b"", element=b""):
        bodies = [leb(len(body) + 2) + b"\0" + body + b"\x0b" for body in bodies]
        exports = b"".join(leb(len(name)) + name + kind for name, kind in ((b"main", b"\0\0"), (b"memory", b"\2\0"), (b"result", b"\3\0"), (b"status", b"\3\1")))
        parts = [(1, b"\1\x60\0\0"), (3, leb(len(bodies)) + bytes(len(bodies))), (4, table), (5, b"\1\0\1"), (6, b"\2" + 2 * b"\x7f\1\x41\3\x0b"), (7, b"\4" + exports), (9, element),
                 (10, leb(len(bodies)) + b"".join(bodies))]
        return b"\0asm\1\0\0\0" + b"".join(bytes([kind]) + leb(len(part)) + part for kind, part in parts if part)

    full = FULL - 200
    yield "nested blocks", module([b"\x02\x40" * (full // 3) + b"\x0b" * (full // 3)])
    yield "nested blocks without ends", module([b"\x02\x40" * (full // 2)])
    yield "nested loops", module([b"\x03\x40" * (full // 3) + b"\x0b" * (full // 3)])
    yield "nested ifs", module([b"\x41\1\x04\x40" * (full // 5) + b"\x0b" * (full // 5)])
    yield "a table of 16 MiB of labels", module([b"\x41\0\x0e" + leb(full - 20) + b"\0" * (full - 19)])
    yield "nested blocks, a label of each", module([b"\x02\x40" * (full // 8) + b"\x41\0\x0e" + leb(full // 8) + b"".join(leb(at) for at in range(full // 8)) + b"\0" + b"\x0b" * (full // 8)])
    yield "words on the stack", module([b"\x41\0" * (full // 3) + b"\x1a" * (full // 3)])
    yield "functions", module([b""] * (full // 5))
    yield "nothing in 16 MiB", module([b"\1" * full])
    yield "a function that calls itself", module([b"\x10\0"])
    yield "a loop without an end", module([b"\x03\x40\x0c\0\x0b"])
    yield "a loop that grows memory", module([b"\x03\x40\x41\1\x40\0\x1a\x0c\0\x0b"])


def dear_texts():
    """Texts whose check takes much time or memory, with what each shows."""
    sets = "(ConstantDecl f (tProd a (tSort Set) (tProd b (tSort Set) (tSort Set))) None) (ConstantDecl g (tProd n (tInd nat 0) (tSort Set)) None)"
    for times in (10, 15, 20, 25, 40):
        double = "(tLetIn x (tApp (tConst f) (tRel 0) (tRel 0)) (tSort Set) "
        tower = f"(tLetIn x (tApp (tConst g) (tRel 0)) (tSort Set) {double * times}(tProd z {N} (tRel 1)){')' * times})"
        yield f"an open value doubled {times} times and put in under a binder", environment(NAT + sets, f"(tLambda y {N} (tLambda w {tower} (tApp (tRel 0) {O})))")
    names = [f"l{at}" for at in range(1024)]
    low, high = ("".join(f"({name} 0)" for name in some) for some in (names[1:], names))
    uses = f"(ConstantDecl c (tSort (Type {low})) None) (ConstantDecl F (tProd x (tSort (Type {high})) {N}) None) (ConstantDecl h {'(tProd x (tInd nat 0) ' * 200}{N}{')' * 200} None)"
    for times in (5, 50, 500):
        constants = "".join(f"(ConstantDecl k{at} {N} (tApp (tConst h) {'(tApp (tConst F) (tConst c))' * 200}))" for at in range(times))
        yield f"{200 * times} comparisons of sorts of 1,024 levels", environment(NAT + uses + constants, O, levels=" ".join(names))
    wide = "(tApp (tConst h)" + " (tRel 2)" * 200 + ")"
    for times in (1, 4, 40):
        dead = "(tApp (tConst h)" + f" {wide}" * 200 + ")"
        again = f"(tApp (tConst h) {dead * times}{(' ' + O) * (200 - times)})"
        body = (f"(tFix ((def f (tProd n {N} {N}) (tLambda n {N} (tCase (nat 0) (params) (pred (x) {N}) (tRel 0) (br () {O}) (br (p) (tLetIn x (tApp (tRel 2) (tRel 0)) {N} "
                f"(tCase (nat 0) (params) (pred (x) {N}) (tRel 0) (br () (tRel 0)) (br (q) {again.replace('(tRel 2)', '(tRel 3)')}))))) ) 0)) 0)")
        yield f"a recursion of 900 through a body of {len(body)} bytes", environment(
            NAT + f"(ConstantDecl h {'(tProd x (tInd nat 0) ' * 200}{N}{')' * 200} None)", f"(tApp {body} {number(900)})")
