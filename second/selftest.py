"""Known results, and what is found in two ways."""

import sys

from rules import Chart, EFFECTS, Refusal, effects_of, table
from formulas import (
    Overflow, ROUNDS, STATION, Solution, first_round, holds, list_formula,
    mask_of, next_round, procedure_in, procedures_of, read_procedures, solve,
    solved, winning_set, within)
from lines import SHAPES, answer, build_rule, leaves, read_case, write_case
from draws import (
    Dice, SMALL_CHART, call, draw_chart, draw_count, draw_form,
    draw_procedures, draw_small_rule, draw_target, draw_walk, record)
from cases import (
    KNOWN_SET, MALFORMED, THREE, WIDE, WIDE_SET, counted, generate,
    partial_chart)


def agrees_with_lists(rule, lists):
    """The table against effects walked from lists of commands."""
    try:
        t = table(rule, EFFECTS)
    except Refusal:
        return True
    # One list for each number, the shortest and smallest first.
    words = [[]]
    number = {rule.walked([]): 0}
    for word in words:
        for c in range(rule.commands):
            longer = word + [c]
            effect = rule.walked(longer)
            if effect not in number:
                number[effect] = len(words)
                words.append(longer)
    if len(words) != t.count:
        return False
    if t.numbers != [number[rule.walked([c])] for c in range(t.commands)]:
        return False
    for i, first in enumerate(words):
        if (t.breaking >> i & 1) == rule.permits(first):
            return False
        for j, second in enumerate(words):
            if t.joins[i][j] != number[rule.walked(first + second)]:
                return False
    # Judgement of lists by the table.
    for commands in lists:
        at = 0
        for c in commands:
            at = t.joins[at][t.numbers[c]]
        if (t.breaking >> at & 1) == rule.permits(commands):
            return False
    return True


def bodies_of(records, p):
    return [r.body for r in records if r.procedure == p]


def station_owns(records, p):
    return any(r.procedure == p and r.owner == STATION for r in records)


class Play:
    """The game played out: the station and the field choose bodies, and the
    field wins if the play ends with an effect of the target.

    A play is a list of symbols still to come, each with the number of calls
    that may be made one inside the other; the field loses at a call too many.
    """

    def __init__(self, t, records, target):
        self.t = t
        self.records = records
        self.target = target
        self.known = {}

    def won(self, effect, play):
        """Whether the field wins from here."""
        if (effect, play) not in self.known:
            self.known[effect, play] = self._won(effect, play)
        return self.known[effect, play]

    def _won(self, effect, play):
        if not play:
            return self.target >> effect & 1 == 1
        (symbol, calls), rest = play[0], play[1:]
        p = procedure_in(symbol)
        if p is None:
            return self.won(self.t.joins[effect][self.t.numbers[symbol]], rest)
        if not calls:
            return False
        outcomes = (
            self.won(effect, tuple((s, calls - 1) for s in body) + rest)
            for body in bodies_of(self.records, p))
        if station_owns(self.records, p):
            return all(outcomes)
        return any(outcomes)


def agrees_with_plays(t, records, targets, most_rounds):
    """Each round against the plays with as many calls inside one another."""
    formulas = first_round(records)
    for calls in range(most_rounds + 1):
        for target in targets:
            play = Play(t, records, target)
            for p in formulas:
                won = mask_of(e for e in range(t.count)
                              if play.won(e, ((call(p), calls),)))
                if won != winning_set(t, formulas, target, [call(p)]):
                    return False
        try:
            formulas = next_round(t, records, formulas)
        except Refusal:
            return True
    return True


def winners(t, records):
    """For each procedure the field's winning set of each target.

    These are the least such functions, found with no formula: a body's is
    made of those of its symbols, the last one first."""
    targets = range(1 << t.count)
    won = {p: [0] * len(targets) for p in procedures_of(records)}

    def before(symbol, target):
        p = procedure_in(symbol)
        if p is not None:
            return won[p][target]
        return mask_of(e for e in range(t.count)
                       if target >> t.joins[e][t.numbers[symbol]] & 1)

    def before_all(body, target):
        for symbol in reversed(body):
            target = before(symbol, target)
        return target

    changed = True
    while changed:
        changed = False
        for p in won:
            bodies = bodies_of(records, p)
            for target in targets:
                sets = [before_all(body, target) for body in bodies]
                new = sets[0]
                for other in sets[1:]:
                    new = new & other if station_owns(records, p) \
                        else new | other
                if new != won[p][target]:
                    won[p][target] = new
                    changed = True
    return won


def agrees_with_winners(t, records, formulas):
    return all(winning_set(t, formulas, target, [call(p)]) == found
               for p, sets in winners(t, records).items()
               for target, found in enumerate(sets))


def agrees_with_form(t, formulas, form, targets):
    """The winning set of a form, by its symbols and by its formula."""
    try:
        formula = list_formula(t, formulas, form)
    except Overflow:
        return True
    for target in targets:
        won = mask_of(e for e in range(t.count) if holds(formula, mask_of(
            k for k in range(t.count) if target >> t.joins[e][k] & 1)))
        if won != winning_set(t, formulas, target, form):
            return False
    return True


def is_normal(formula):
    return list(formula) == sorted(set(formula)) and not any(
        within(a, b) for a in formula for b in formula if a != b)


def selftest_game(same):
    """Formulas against the game itself, on small procedure sets."""
    dice = Dice(98)
    for _ in range(60):
        name, parts, rule = draw_small_rule(dice)
        t = table(rule, EFFECTS)
        records = read_procedures(draw_procedures(dice, min(4, t.commands)))
        targets = [draw_target(dice, t) & (1 << t.count) - 1
                   for _ in range(3)]
        same("plays", agrees_with_plays(t, records, targets, 3), True)
        solution = solved(t, records)
        if solution is None:
            continue
        formulas = solution.formulas
        same("normal", all(map(is_normal, formulas.values())), True)
        if t.count <= 7:
            same("winners", agrees_with_winners(t, records, formulas), True)
        form = draw_form(dice, t.commands, procedures_of(records))
        same("form", agrees_with_form(t, formulas, form, targets), True)


def selftest():
    checks = []

    def same(what, got, wanted):
        checks.append(what)
        if got != wanted:
            print("selftest: %s: got %r, wanted %r" % (what, got, wanted))
            sys.exit(1)

    def outcome(shape, parts, room=64):
        try:
            return table(build_rule(shape, parts), room)
        except Refusal as refusal:
            return refusal.text()

    # Known results.
    t = outcome("chart", [SMALL_CHART])
    same("small chart", (t.count, t.breaking), (6, 46))
    same("small chart, numbers", t.numbers, [1, 2] + [3] * 14)
    pair = [(7, [1], 1), (9, [1], 1)]
    same("7 and 9", outcome("count+count", pair).count, 63)
    pair[0] = (8, [1], 1)
    same("8 and 9", outcome("count+count", pair), "refused 6 effects 64")
    same("modulus 3", outcome("count", [(3, [1], 1)]).breaking, 6)
    for extra in range(7):
        rule = Chart(partial_chart(extra))
        same("partial chart", len(effects_of(rule, 100)), 59 + extra)
    same("room", outcome("count+count", pair, 63), "refused 7 effects 63")
    same("empty chart", answer("chart 64 - -"),
         "forbidden effects 2 commands 16 breaking 3 numbers "
         + ",".join(["1"] * 16) + " joins %d" % (((31 + 1) * 31 + 1) % 65521))
    same("one line", answer("count 64 0,0 2:1:1"),
         "permitted effects 2 commands 1 breaking 2 numbers 1 joins %d"
         % ((31 + 1) * 31))
    same("chart too long", answer("chart 64 - " + "00" * 13),
         "refused 5 rule 1")
    same("mask", answer("count 64 - 5:32:0"), "refused 5 rule 18")

    # The known procedure sets.
    t = outcome("count", [THREE])
    records = read_procedures(KNOWN_SET)
    same("known set", solve(t, records, 4), Solution(4, {
        0: (2,), 1: (1, 4), 2: (0,), 3: (0,), 4: (2,), 5: (7,)}))
    formulas = solve(t, records, 4).formulas
    same("known form", list_formula(t, formulas, bytes([call(1), call(1)])),
         (1, 2, 4))
    same("one round less", answer(write_case(counted(KNOWN_SET, allowance=3))),
         "refused 12 solve 3")
    t = outcome("count", [WIDE])
    wide = solve(t, read_procedures(WIDE_SET), ROUNDS)
    same("wide set", (wide.round, wide.formulas[2]), (3, tuple(
        1 << b | 1 << a for b in range(8, 16) for a in range(8))))
    same("too wide", answer(write_case(counted(
        WIDE_SET + record(1, STATION, 15, 1), count=WIDE))),
         "refused 11 solve 2")

    # The game played out, and its winners, against the formulas.
    selftest_game(same)

    # Tables and judgements from joins against those from lists.
    dice = Dice(99)
    for name, shape in SHAPES.items():
        for _ in range(12):
            parts = [draw_chart(dice) if leaf == "chart"
                     else draw_count(dice, 6, 4) for leaf in leaves(shape)]
            rule = build_rule(name, parts)
            lists = [draw_walk(dice, rule, n) for n in (0, 1, 2, 3, 9, 40)]
            same("lists of " + name, agrees_with_lists(rule, lists), True)

    # Every case reads back as it was written.
    for text in generate():
        if text in MALFORMED:
            same("no case", answer(text), "malformed")
        else:
            same("text of a case", write_case(read_case(text)), text)
    print("selftest: %d checks pass" % len(checks))
