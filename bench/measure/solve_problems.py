"""Scripts for bench/measure/solve.sh: the worked scripts, rules of peephole optimisers, conditions of invertibility, bounded model
checking, pigeons, the generator's scripts, and what stands in bench/written. A problem is a name and a script's text, which
all solvers read alike: constants are declared by declare-fun, and it ends with an exit. Those of one name with another width
or another size grow."""
import glob
import os

WIDTHS = [8, 16, 32, 64]
TOP = os.path.dirname(os.path.abspath(__file__))


def bits(width):
    return f"(_ BitVec {width})"


def number(value, width):
    return f"(_ bv{value % 2 ** width} {width})"


def script(logic, declared, asserted):
    lines = [f"(set-logic {logic})", *(f"(declare-fun {name} () {sort})" for name, sort in declared)]
    return "\n".join([*lines, *(f"(assert {text})" for text in asserted), "(check-sat)", "(exit)", ""])


# --- the worked scripts ----------------------------------------------------------------------------------------------

SIGNED = "(and (= (bvsdiv #xfb #x03) #xff) (= (bvsrem #xfb #x03) #xfe) (= (bvsmod #xfb #x03) #x01) (= (bvsmod #x05 #xfd) #xff))"
MACROS = """(set-logic BV)
(define-fun h ((p (_ BitVec 4))) Bool (exists ((y (_ BitVec 4))) (distinct y p)))
(define-fun g ((a (_ BitVec 4))) (_ BitVec 4) (bvadd a #x1))
(assert (forall ((x (_ BitVec 4))) (h x)))
(assert (= (g (g #x1)) #x3))
(assert (let ((f (exists ((y (_ BitVec 4))) (= y #x3)))) (and f (forall ((x (_ BitVec 4))) (=> f (bvule x #xf))))))
(check-sat)
(exit)
"""


def closed(width, prefix, body):
    """A body below quantifiers over x, y and z."""
    for name, quantifier in reversed(list(zip("xyz", prefix))):
        body = f"({'forall' if quantifier == 'A' else 'exists'} (({name} {bits(width)})) {body})"
    return body


def worked():
    yield "worked empty", script("QF_BV", [], [])
    yield "worked division-by-zero", script("QF_BV", [], ["(= (bvudiv #x05 #x00) #xff)"])
    yield "worked signed-division", script("QF_BV", [], [SIGNED])
    for width in [8, 128]:
        yield f"worked not {width}", script("BV", [], [closed(width, "AE", "(= y (bvnot x))")])
        yield f"worked greatest {width}", script("BV", [], [closed(width, "EA", "(bvuge x y)")])
        yield f"worked nothing-below-zero {width}", script("BV", [], [closed(width, "AE", "(bvult y x)")])
        yield f"worked three-levels {width}", script("BV", [], [closed(width, "AEA", "(bvule (bvand y z) x)")])
    yield "worked siblings", script("BV", [], [closed(2, "AE", "(and (= ((_ extract 0 0) x) #b1) (= ((_ extract 0 0) y) #b0))")])
    yield "worked quantified-equality", script("BV", [], ["(= (forall ((p Bool)) p) (exists ((q Bool)) (not q)))"])
    yield "worked macros-and-lets", MACROS
    for count in [1024, 4096]:
        yield f"worked places {count}", script("QF_BV", [(f"a{n}", "Bool") for n in range(count)], [f"a{n}" for n in range(count)])
    wide = [("a", bits(64)), ("b", bits(64))]
    yield "worked concat-widths", script("QF_BV", wide, ["(= (concat a b) (concat a b))"])
    yield "worked values", script("QF_BV", [("a", bits(8)), ("p", "Bool")], ["(= a #x2a)", "(not p)"])
    yield "worked let-successor", script("BV", [("x", bits(32))], ["(let ((?v_0 (bvadd x #x00000001))) (= ?v_0 x))"])


# --- peephole rules: both sides are equal for all values; those whose name begins with `not` aren't ------------------

# 0, 1 and M stand for these values (M: all bits set), W for the width, C for half of it
RULES = {
    "add-sub": ("(bvsub (bvadd x y) y)", "x"),
    "neg-is-not-plus-one": ("(bvneg x)", "(bvadd (bvnot x) 1)"),
    "xor-by-or-and": ("(bvxor x y)", "(bvsub (bvor x y) (bvand x y))"),
    "add-by-xor-and": ("(bvadd x y)", "(bvadd (bvxor x y) (bvshl (bvand x y) 1))"),
    "mul-two": ("(bvmul x (bvadd 1 1))", "(bvshl x 1)"),
    "de-morgan": ("(bvnot (bvand x y))", "(bvor (bvnot x) (bvnot y))"),
    "sub-not": ("(bvsub x y)", "(bvnot (bvadd (bvnot x) y))"),
    "and-low-bit": ("(bvand x (bvneg x))", "(bvand x (bvnot (bvsub x 1)))"),
    "ult-by-sub": ("(ite (bvult x y) 1 0)", "(ite (= (bvuge x y) true) 0 1)"),
    "shift-there-and-back": ("(bvlshr (bvshl x 1) 1)", "(bvand x (bvlshr M 1))"),
    "select-max": ("(ite (bvult x y) y x)", "(ite (bvule y x) x y)"),
    "sign-by-shift": ("(bvashr x (bvsub W 1))", "(ite (bvslt x 0) M 0)"),
    "abs": ("(bvsub (bvxor x (bvashr x (bvsub W 1))) (bvashr x (bvsub W 1)))", "(ite (bvslt x 0) (bvneg x) x)"),
    "udiv-by-shift": ("(bvudiv x (bvadd 1 1))", "(bvlshr x 1)"),
    "urem-by-mask": ("(bvurem x (bvshl 1 C))", "(bvand x (bvsub (bvshl 1 C) 1))"),
    "distribute": ("(bvmul x (bvadd y 1))", "(bvadd (bvmul x y) x)"),
    "add-commutes": ("(bvadd x y)", "(bvadd y x)"),
    "add-is-associative": ("(bvadd x (bvadd y z))", "(bvadd (bvadd x y) z)"),
    "mean": ("(bvadd (bvand x y) (bvlshr (bvxor x y) 1))", "(bvsub (bvor x y) (bvsub (bvxor x y) (bvlshr (bvxor x y) 1)))"),
    # those that aren't
    "not-mean": ("(bvlshr (bvadd x y) 1)", "(bvadd (bvand x y) (bvlshr (bvxor x y) 1))"),
    "not-sdiv-by-shift": ("(bvsdiv x (bvadd 1 1))", "(bvashr x 1)"),
    "not-sub-commutes": ("(bvsub x y)", "(bvsub y x)"),
    "not-mul-back": ("(bvudiv (bvmul x y) y)", "x"),
}


def filled(text, width):
    values = {"0": 0, "1": 1, "M": -1, "W": width, "C": width // 2}
    words = text.replace("(", " ( ").replace(")", " ) ").split()
    return " ".join(number(values[word], width) if word in values else word for word in words)


def peephole():
    for name, (left, right) in RULES.items():
        for width in WIDTHS:
            declared = [(letter, bits(width)) for letter in "xyz"]
            yield f"rule {name} {width}", script("QF_BV", declared, [f"(distinct {filled(left, width)} {filled(right, width)})"])


# --- invertibility (Niemetz, Preiner, Reynolds, Barrett, Tinelli: Solving quantified bit-vectors using invertibility
#     conditions, 2018): for all s and t, the condition holds exactly if some x solves the equation ------------------

CONDITIONS = {
    "add": ("(= (bvadd x s) t)", "true"),
    "mul": ("(= (bvmul x s) t)", "(= (bvand (bvor (bvneg s) s) t) t)"),
    "and": ("(= (bvand x s) t)", "(= (bvand t s) t)"),
    "or": ("(= (bvor x s) t)", "(= (bvor t s) t)"),
    "udiv": ("(= (bvudiv x s) t)", "(= (bvudiv (bvmul s t) s) t)"),
    "urem": ("(= (bvurem x s) t)", "(bvuge (bvnot (bvneg s)) t)"),
    "shl": ("(= (bvshl x s) t)", "(= (bvshl (bvlshr t s) s) t)"),
    "lshr": ("(= (bvlshr x s) t)", "(= (bvlshr (bvshl t s) s) t)"),
    "ult": ("(bvult x t)", "(distinct t 0)"),
    "wrong-and": ("(= (bvand x s) t)", "(= (bvor t s) t)"),
}


def invertibility():
    for name, (equation, condition) in CONDITIONS.items():
        for width in [4, 8, 16]:
            sort = bits(width)
            solved = f"(exists ((x {sort})) {filled(equation, width)})"
            both = f"(= {filled(condition, width)} {solved})"
            yield f"inverse {name} {width}", script("BV", [], [f"(forall ((s {sort}) (t {sort})) {both})"])


# --- reductions: what two forms of a term are, told by a pass or by closure more than by a search --------------------

EQUAL = {
    "distributed": ("(bvmul x (bvadd y z))", "(bvadd (bvmul x y) (bvmul x z))", [6, 8, 12, 16, 32, 64]),
    "associated": ("(bvmul (bvmul x y) z)", "(bvmul x (bvmul y z))", [6, 8, 16, 32, 64]),
    "commuted": ("(bvmul x y)", "(bvmul y x)", [6, 8, 12, 16, 32, 64]),
    "negated-factor": ("(bvmul (bvneg x) y)", "(bvneg (bvmul x y))", [6, 8, 16, 32, 64]),
    "square-of-sum": ("(bvmul (bvadd x y) (bvadd x y))", "(bvadd (bvmul x x) (bvadd (bvmul 2 (bvmul x y)) (bvmul y y)))", [6, 8, 16, 32]),
    "difference-of-squares": ("(bvmul (bvadd x y) (bvsub x y))", "(bvsub (bvmul x x) (bvmul y y))", [6, 8, 16, 32]),
    "cube": ("(bvmul (bvadd x 1) (bvmul (bvadd x 1) (bvadd x 1)))", "(bvadd (bvmul x (bvmul x x)) (bvadd (bvmul 3 (bvmul x x)) (bvadd (bvmul 3 x) 1)))", [6, 8, 16, 32]),
    "horner": ("(bvadd (bvmul (bvadd (bvmul (bvadd x 3) x) y) x) z)", "(bvadd (bvmul x (bvmul x x)) (bvadd (bvmul 3 (bvmul x x)) (bvadd (bvmul y x) z)))", [8, 16, 32, 64]),
    "three-terms": ("(bvadd x (bvadd y z))", "(bvadd (bvadd z x) y)", [8, 16, 32, 64]),
    "four-terms": ("(bvadd (bvadd x y) (bvsub z 7))", "(bvsub (bvadd z (bvadd y x)) 7)", [8, 16, 32, 64]),
    "ten-times": ("(bvmul x 10)", "(bvadd (bvshl x 3) (bvshl x 1))", [8, 16, 32, 64]),
    "minus-eight-times": ("(bvmul x (bvneg 8))", "(bvneg (bvshl x 3))", [8, 16, 32, 64]),
    "complement": ("(bvadd (bvnot x) (bvnot y))", "(bvsub (bvnot (bvadd x y)) 1)", [8, 16, 32, 64]),
    "absolute": ("(ite (bvslt x 0) (bvneg x) x)", "(bvsub (bvxor x (bvashr x T)) (bvashr x T))", [8, 16, 32, 64]),
    "absolute-of-negated": ("(ite (bvslt x 0) (bvneg x) x)", "(ite (bvslt (bvneg x) 0) x (bvneg x))", [8, 16, 32, 64]),
    "average": ("(bvadd (bvand x y) (bvlshr (bvxor x y) 1))", "(bvsub (bvor x y) (bvsub (bvxor x y) (bvlshr (bvxor x y) 1)))", [8, 16, 32, 64]),
    "or-and-sum": ("(bvadd (bvor x y) (bvand x y))", "(bvadd x y)", [8, 16, 32, 64]),
    "remainder-of-negated": ("(ite (= x (bvneg x)) x (bvsrem (bvneg x) y))", "(ite (= x (bvneg x)) x (bvneg (bvsrem x y)))", [4, 6, 8, 12, 16]),
    "remainder-by-five": ("(bvurem x 5)", "(bvsub x (bvmul 5 (bvudiv x 5)))", [8, 16, 32]),
    "gray": ("(bvxor (bvxor x (bvlshr x 1)) (bvlshr y 1))", "(bvxor (bvlshr (bvxor x y) 1) x)", [8, 16, 32, 64]),
}


def parity(width, order):
    bits_of = [f"((_ extract {k} {k}) x)" for k in order]
    text = bits_of[0]
    for bit in bits_of[1:]:
        text = f"(bvxor {text} {bit})"
    return text


def barrel(width):
    """x shifted left by y, a stage for each bit of y below the width's."""
    text, stages = "x", width.bit_length() - 1
    for k in range(stages):
        text = f"(ite (= ((_ extract {k} {k}) y) #b1) (bvshl {text} {number(1 << k, width)}) {text})"
    return text


def put(text, width):
    words = text.replace("(", " ( ").replace(")", " ) ").split()
    return " ".join(number(int(word), width) if word.isdigit() else number(width - 1, width) if word == "T" else word for word in words)


def reductions():
    for name, (left, right, widths) in EQUAL.items():
        for width in widths:
            declared = [(letter, bits(width)) for letter in "xyz"]
            yield f"reduce {name} {width}", script("QF_BV", declared, [f"(distinct {put(left, width)} {put(right, width)})"])
    for width in [16, 24, 32, 48, 64]:
        forth = list(range(width))
        other = forth[::2] + forth[1::2][::-1]
        yield f"reduce parity {width}", script("QF_BV", [("x", bits(width))], [f"(distinct {parity(width, forth)} {parity(width, other)})"])
    for width in [8, 16, 32, 64]:
        declared = [("x", bits(width)), ("y", bits(width))]
        yield f"reduce barrel {width}", script("QF_BV", declared, [f"(bvult y {number(width, width)})", f"(distinct {barrel(width)} (bvshl x y))"])
        yield f"reduce odd {width}", script("QF_BV", declared, [f"(= (bvadd (bvmul {number(2, width)} x) {number(1, width)}) (bvmul {number(6, width)} y))"])


# --- bounded model checking ----------------------------------------------------------------------------------------


def unrolled(name, width, steps, first, step, bad):
    """Whether a state that is bad can be met within so many steps: s0 is first, and each next one is step of it and an input."""
    declared = [(f"s{k}", bits(width)) for k in range(steps + 1)] + [(f"i{k}", "Bool") for k in range(steps)]
    asserted = [first("s0")]
    asserted += [f"(= s{k + 1} {step(f's{k}', f'i{k}')})" for k in range(steps)]
    asserted.append("(or " + " ".join(bad(f"s{k}") for k in range(steps + 1)) + " false)")
    return f"unrolled {name} {width} {steps}", script("QF_BV", declared, asserted)


def models():
    for width, steps in [(8, 10), (8, 20), (16, 20), (16, 40), (32, 40)]:
        one, zero = number(1, width), number(0, width)
        counts = lambda s, i: f"(ite {i} (bvadd {s} {one}) {s})"
        yield unrolled("counter-safe", width, steps, lambda s: f"(= {s} {zero})", counts, lambda s: f"(= {s} {number(steps + 1, width)})")
        yield unrolled("counter-bad", width, steps, lambda s: f"(= {s} {zero})", counts, lambda s: f"(= {s} {number(steps, width)})")
        tap = number(0xB8 << (width - 8), width)
        lfsr = lambda s, i: f"(bvxor (bvlshr {s} {one}) (ite (= ((_ extract 0 0) {s}) #b1) {tap} {zero}))"
        yield unrolled("register-safe", width, steps, lambda s: f"(distinct {s} {zero})", lfsr, lambda s: f"(= {s} {zero})")
        saturating = lambda s, i: f"(ite (and {i} (bvult {s} {number(5, width)})) (bvadd {s} {one}) {s})"
        yield unrolled("saturating-safe", width, steps, lambda s: f"(= {s} {zero})", saturating, lambda s: f"(bvugt {s} {number(5, width)})")


# --- pigeons ---------------------------------------------------------------------------------------------------------


def pigeons():
    for holes in range(3, 10):
        for birds in [holes, holes + 1]:
            declared = [(f"p{b}_{h}", "Bool") for b in range(birds) for h in range(holes)]
            asserted = [f"(or {' '.join(f'p{b}_{h}' for h in range(holes))})" for b in range(birds)]
            asserted += [f"(not (and p{b}_{h} p{c}_{h}))" for h in range(holes) for b in range(birds) for c in range(b)]
            yield f"pigeons {birds} in {holes}", script("QF_BV", declared, asserted)


# --- the generator's scripts, and those of other programs -----------------------------------------------------------


def generated():
    """Each block by itself: the first is true, the second isn't."""
    state = 1
    for number in range(1, 4):
        state = (state * 6364136223846793005 + 1442695040888963407) % 2**64
        c, d = f"#x{state >> 56:02x}", f"#x{(state >> 48) % 256:02x}"
        moved = f"(forall ((x {bits(8)})) (exists ((y {bits(8)})) (= (bvadd y {c}) (bvxor x {d}))))"
        below = f"(forall ((z {bits(8)})) (bvult z {c}))"
        yield f"generated {number} sat", script("BV", [], [moved])
        yield f"generated {number} unsat", script("BV", [], [moved, below])


def written():
    """Those with a check and no form that is refused; an exit is put behind."""
    for path in sorted(glob.glob(f"{TOP}/../written/*.smt2")):
        with open(path) as file:
            text = file.read()
        if "(check-sat)" in text and "(define-sort" not in text:
            yield f"written {os.path.basename(path)}", text if "(exit)" in text else text + "(exit)\n"


def problems():
    for family in [worked, peephole, invertibility, reductions, models, pigeons, generated, written]:
        yield from family()
