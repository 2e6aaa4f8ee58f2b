"""Rows of a pass on terms, and terms for them: what sum_cases.py, xor_cases.py and simp_cases.py share. Terms are written as in
bench/cases/rewrite_cases.py. A pass is its name and a function from a term to the term that is made."""
from rewrite_cases import SORTS, literal, show, sort_of
from word_cases import evaluate


def read(text):
    """The term of a text, arguments first."""
    stack = []
    for word in text.split():
        arity = 0 if ":" in word else 1 if word in ["not", "bvneg", "bvnot"] else 3 if word == "ite" else 2
        if arity:
            args = stack[-arity:]
            del stack[-arity:]
            stack.append((word, args))
        else:
            stack.append(word)
    return stack[0]


def words_for(chosen):
    """Words for two constants and two variables of each sort."""
    return [[(of, chosen.randrange(2 if of == "bool" else 2**of)) for of in SORTS for _ in range(2)] for _ in range(2)]


def check(made, examples, terms, chosen):
    """Compares the examples with what the pass makes, and of terms their sorts and their values at four points each."""
    for text, expected in examples:
        assert show(made(read(text))) == expected, (text, show(made(read(text))))
    count = same = stay = 0
    for t in terms:
        other = made(t)
        assert sort_of(other) == sort_of(t), (t, other)
        for _ in range(4):
            words = words_for(chosen)
            assert evaluate(t, *words) == evaluate(other, *words), (t, other)
        count += 1
        same += made(other) == other
        stay += other == t
    print(f"{len(examples)} examples, {count} terms keep their values, {same} stay in a second pass, {stay} in the first")


def present(made, examples):
    """Prints what the examples become."""
    for text, _ in examples:
        print(f"{text}  ->  {show(made(read(text)))}")


def pass_row(name, made, t):
    return f"pass {name} {show(t)}", show(made(t))


def at_row(name, made, chosen, t):
    """The term that is made, and the value before and after, at words that are chosen."""
    words = words_for(chosen)
    sides = [" ".join(literal(of, v) for of, v in side) for side in words]
    values = " ".join(literal(*evaluate(u, *words)) for u in [t, made(t)])
    return f"at {name} {sides[0]} | {sides[1]} | {show(t)}", f"{show(made(t))} {values}"


def twice(op, t, times):
    """A term joined with itself, again and again: small as nodes that are shared."""
    for _ in range(times):
        t = op, [t, t]
    return t
