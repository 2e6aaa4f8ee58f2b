"""Scripts by chance, with constants, quantifiers, levels, and here and there a fault. `rng` gives the chance."""


def sort_text(sort):
    return "Bool" if sort == "bool" else f"(_ BitVec {sort})"


def random_term(rng, sort, depth, names, binders):
    """A term over names, each with its sort."""
    of_sort = [name for name, own in names if own == sort]
    if depth == 0 or rng.random() < 0.15:
        if of_sort and rng.random() < 0.75:
            return rng.choice(of_sort)
        if sort == "bool":
            return rng.choice(["true", "false"])
        value = rng.randrange(2**sort)
        return rng.choice([f"#b{value:0{sort}b}", f"(_ bv{value} {sort})"])

    def inside(of, more=(), fewer=0):
        return random_term(rng, of, depth - 1, [*names, *more], binders - fewer)

    if sort != "bool":
        op = rng.choice(["bvadd", "bvsub", "bvand", "bvor", "bvxor", "bvnot", "bvneg", "bvmul", "ite", "bvudiv"])
        if op == "ite":
            return f"(ite {inside('bool')} {inside(sort)} {inside(sort)})"
        return f"({op} {' '.join(inside(sort) for _ in range(1 if op in ['bvnot', 'bvneg'] else 2))})"
    if binders and rng.random() < 0.35:
        name, of = rng.choice("uvw"), rng.choice(["bool", 2, 2])
        return f"({rng.choice(['forall', 'exists'])} (({name} {sort_text(of)})) {inside('bool', [(name, of)], 1)})"
    op = rng.choice(["and", "or", "xor", "=>", "not", "=", "=", "distinct", "bvult", "bvsle", "let"])
    if op == "not":
        return f"(not {inside('bool')})"
    if op == "let":
        of = rng.choice(["bool", 2])
        return f"(let ((l {inside(of)})) {inside('bool', [('l', of)])})"
    of = rng.choice(["bool", 2]) if op in ["=", "distinct"] else 2 if op.startswith("bv") else "bool"
    return f"({op} {inside(of)} {inside(of)})"


FAULTS = ["(pop 9)", "(assert #b1)", "(assert z)", "(get-unsat-core)", "(", ")", "x", "(declare-const a Bool)(declare-const a Bool)", "(check-sat 1)",
          "(foo)", "(assert (forall ((x Bool)) x) true)", "(get-value (zz))", "(get-model)", "(get-info :reason-unknown)", "\"", "(declare-fun g (Bool) Bool)"]


def random_command(rng, names):
    """A command that is mostly no fault, where these names are in force; it may add one."""
    way = rng.randrange(22)
    if way < 3:
        name, sort = f"c{len(names)}", rng.choice(["bool", 2, 2])
        names.append((name, sort))
        return rng.choice([f"(declare-const {name} {sort_text(sort)})", f"(declare-fun {name} () {sort_text(sort)})"])
    if way < 10:
        return f"(assert {random_term(rng, 'bool', 3, names, 2)})"
    if way < 15:
        return "(check-sat)"
    if way == 15:
        return f"(check-sat-assuming ({' '.join(random_term(rng, 'bool', 2, names, 1) for _ in range(rng.randrange(3)))}))"
    if way == 16:
        name, sort = f"c{len(names)}", rng.choice(["bool", 2])
        body = random_term(rng, sort, 2, names, 0)
        names.append((name, sort))
        return f"(define-fun {name} () {sort_text(sort)} {body})"
    return rng.choice(["(echo \"a\")", "(set-option :print-success true)", "(get-info :name)", "(set-info :status sat)", "(get-option :x)",
                       "; a comment\n", "(set-option :produce-models true)", "(get-info :reason-unknown)", "(get-model)",
                       f"(get-value ({random_term(rng, 2, 2, names, 0)}))", "(reset)", "(reset-assertions)", "(exit)"])


def random_script(rng):
    """Commands between levels, with a fault here and there."""
    names, kept, out = [], [], []
    for _ in range(rng.randrange(3, 12)):
        chance = rng.random()
        if chance < 0.08:
            kept.append(len(names))
            out.append("(push 1)")
        elif chance < 0.14 and kept:
            del names[kept.pop():]
            out.append("(pop 1)")
        else:
            command = random_command(rng, names)
            if command in ["(reset)", "(reset-assertions)"]:
                names, kept = [], []
            out.append(command)
    if rng.random() < 0.15:
        out.append(rng.choice(FAULTS))
    return rng.choice(["", "\n", " "]).join(out).encode()


def random_atom(rng, names):
    """A comparison or a truth value over names, of which there may be none."""
    if not names or rng.random() < 0.1:
        return rng.choice(["true", "false"])
    name, sort = rng.choice(names)
    if sort == "bool":
        return rng.choice([name, f"(not {name})"])
    others = [other for other, own in names if own == sort] + [f"(_ bv{rng.randrange(2**sort)} {sort})"]
    return f"({rng.choice(['=', 'distinct', 'bvult', 'bvule', 'bvsge'])} {name} {rng.choice(others)})"


def following_script(rng):
    """Checks that follow each other between levels: constants come, go and come again, maybe with another sort."""
    names, kept, out = [], [], []
    for _ in range(rng.randrange(8, 30)):
        way = rng.random()
        if way < 0.14:
            kept.append(len(names))
            out.append("(push 1)")
        elif way < 0.26 and kept:
            del names[kept.pop():]
            out.append("(pop 1)")
        elif way < 0.38:
            name, sort = f"c{len(names)}", rng.choice(["bool", 1, 2, 2, 3])
            names.append((name, sort))
            out.append(f"(declare-const {name} {sort_text(sort)})")
        elif way < 0.54:
            atoms = [random_atom(rng, names) for _ in range(rng.randrange(1, 4))]
            out.append(f"(assert ({rng.choice(['or', 'or', 'and', '=>'])} {' '.join(atoms)} {rng.choice(atoms)}))")
        elif way < 0.62:
            out.append(f"(assert {random_term(rng, 'bool', 3, names, 0 if rng.random() < 0.9 else 1)})")
        elif way < 0.84:
            out.append("(check-sat)")
        elif way < 0.97:
            atoms = [random_atom(rng, names) for _ in range(rng.randrange(0, 4))]
            out.append(f"(check-sat-assuming ({' '.join(atoms + rng.choice([[], atoms[:1]]))}))")
        else:
            names, kept = [], []
            out.append(rng.choice(["(reset)", "(reset-assertions)"]))
    return "".join([*out, "(check-sat)"]).encode()
