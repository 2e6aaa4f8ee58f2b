"""How an added clause is judged by its hints, RAT hints among them, from the rules and not from the program."""


def look(live, true, hint):
    """What a positive hint's clause says where these literals are true: "false", the literal that it forces, or None."""
    if hint not in live:
        return None
    left = {lit for lit in live[hint] if -lit not in true}
    if not left:
        return "false"
    return left.pop() if len(left) == 1 and not left & true else None


def first_part(live, lits, hints):
    """The hints before the first negative one: "ok", "hint P" or None, the place behind them, and what is true there."""
    true, place = {-lit for lit in lits}, 0
    while place < len(hints) and hints[place] >= 0:
        said = look(live, true, hints[place])
        if said == "false":
            return "ok", place, true
        if said is None:
            return f"hint {place + 1}", place, true
        true.add(said)
        place += 1
    return None, place, true


def judge_rup(live, lits, hints):
    """The same as `judge`, by unit propagation alone."""
    said, place, _ = first_part(live, lits, hints)
    return said or (f"rat {place + 1}" if place < len(hints) else "open")


def judge(live, lits, hints):
    """"ok", "rat P", "hint P" or "open", where `live` has the literals of each live clause by its id."""
    said, place, true = first_part(live, lits, hints)
    if said is not None or not lits:
        return judge_rup(live, lits, hints)
    pivot, kept = lits[0], frozenset(true)
    groups, is_open = set(), False
    for place in range(place, len(hints)):
        hint = hints[place]
        if hint < 0:
            clause = live.get(-hint)
            if is_open or clause is None or -pivot not in clause:
                return f"rat {place + 1}"
            others = [lit for lit in clause if lit != -pivot]
            groups.add(-hint)
            is_open = pivot not in clause and not any(lit in kept for lit in others)
            true = set(kept) | {-lit for lit in others}
        elif is_open:
            said = look(live, true, hint)
            if said is None:
                return f"hint {place + 1}"
            if said == "false":
                is_open = False
            else:
                true.add(said)
    wanted = {id for id, clause in live.items() if -pivot in clause and pivot not in clause}
    return "ok" if not is_open and wanted <= groups else "open"


def propagated(live, true, rounds):
    """Hints by unit propagation where these literals are true, the literals that are true behind them, and whether a clause is
    false then."""
    true, hints, order, more = set(true), [], list(live), True
    rounds.shuffle(order)
    while more:
        more = False
        for id in order:
            said = look(live, true, id)
            if said is not None:
                hints.append(id)
                if said == "false":
                    return hints, true, True
                true.add(said)
                more = True
    return hints, true, False


def rat_hints(live, lits, rounds):
    """Hints that show the clause if it follows, or if it keeps satisfiability by its first literal; else hints that don't."""
    hints, kept, done = propagated(live, {-lit for lit in lits}, rounds)
    if done or not lits:
        return hints
    if rounds.randrange(2):
        hints, kept = [], {-lit for lit in lits}
    pivot = lits[0]
    wanted = [id for id, clause in live.items() if -pivot in clause and (pivot not in clause or rounds.randrange(2))]
    rounds.shuffle(wanted)
    for id in wanted:
        others = [lit for lit in live[id] if lit != -pivot]
        hints = hints + [-id]
        if pivot not in live[id] and not any(lit in kept for lit in others):
            hints = hints + propagated(live, kept | {-lit for lit in others}, rounds)[0]
        elif rounds.randrange(4) == 0:
            hints = hints + [rounds.randrange(1, 99)]
    return hints
