"""Procedure sets, their formulas and winning sets.

A symbol is a byte, a list of symbols is bytes.  A set of effect numbers is an
int, bit k for the number k.  A formula is a tuple of such sets, its clauses.
"""

from collections import namedtuple

from rules import Refusal

# ---------------------------------------------------------- procedure sets
# A symbol 0 .. 15 is a command, a symbol 32 .. 63 is one of 32 procedures.

COMMANDS = 16
PROCEDURES = 32
STATION, FIELD = 0, 1

Record = namedtuple("Record", "procedure owner body")


def command_in(symbol):
    """The command that a symbol is, or None."""
    return symbol if symbol < COMMANDS else None


def procedure_in(symbol):
    """The procedure that a symbol is, or None."""
    return symbol - 32 if 32 <= symbol < 32 + PROCEDURES else None


def is_symbol(byte):
    return command_in(byte) is not None or procedure_in(byte) is not None


def read_record(data):
    """The record that twelve bytes say, or None if their form is broken."""
    procedure, owner, length = data[:3]
    body, fill = data[3:3 + length], data[3 + length:]
    if procedure >= PROCEDURES or owner not in (STATION, FIELD) or length > 9:
        return None
    if not all(is_symbol(byte) for byte in body):
        return None
    if any(byte != 255 for byte in fill):
        return None
    return Record(procedure, owner, body)


def refuse_first(number, subject, faults):
    """Refuse at the first place that has a fault, if there is one."""
    for place, fault in enumerate(faults):
        if fault:
            raise Refusal(number, subject, place)


def read_procedures(data):
    """The records of a procedure set."""
    whole, over = divmod(len(data), 12)
    if over or not 1 <= whole <= 128:
        raise Refusal(1, "records", whole)
    records = [read_record(data[12 * k:12 * k + 12]) for k in range(whole)]
    refuse_first(2, "records", [r is None for r in records])
    refuse_first(3, "records", [
        any(e.procedure == r.procedure and e.owner != r.owner
            for e in records[:k]) for k, r in enumerate(records)])
    known = {r.procedure for r in records}
    refuse_first(4, "records", [
        any(procedure_in(s) not in known for s in r.body
            if procedure_in(s) is not None) for r in records])
    return records


# ---------------------------------------------------------------- formulas
# A formula holds for a set of effects if each of its clauses has a member
# there.  No clause lies within another, and the clauses rise.

CLAUSES = 64
IMPOSSIBLE = (0,)                           # holds for no set
NEUTRAL = (1,)                              # holds for the sets with effect 0


class Overflow(Exception):
    """A 65th clause would stand."""


def mask_of(numbers):
    return sum(1 << n for n in set(numbers))


def within(a, b):
    return a & b == a


def members(effects):
    return [k for k in range(effects.bit_length()) if effects >> k & 1]


def holds(formula, effects):
    return all(clause & effects for clause in formula)


def offered(formula, clauses):
    """A formula after it was offered some clauses, one after the other."""
    for new in clauses:
        if any(within(old, new) for old in formula):
            continue
        kept = [old for old in formula if not within(new, old)]
        if len(kept) == CLAUSES:
            raise Overflow()
        formula = tuple(sorted(kept + [new]))
    return formula


def both(f, g):
    return offered(f, g)


def either(f, g):
    return offered((), (k | l for k in f for l in g))


def shift(t, effect, formula):
    """The formula after an effect."""
    row = t.joins[effect]
    return offered((), (mask_of(row[k] for k in members(clause))
                        for clause in formula))


def then(t, f, g):
    """The formula f and after it the formula g."""
    result = ()
    for clause in f:
        choice = IMPOSSIBLE
        for effect in members(clause):
            choice = either(choice, shift(t, effect, g))
        result = both(result, choice)
    return result


def list_formula(t, formulas, symbols):
    """The formula of a list of symbols, found from its end.

    A procedure without a formula, and a command that the rule lacks, lead
    nowhere."""
    formula = NEUTRAL
    for symbol in reversed(symbols):
        command, procedure = command_in(symbol), procedure_in(symbol)
        if procedure is not None:
            formula = then(t, formulas.get(procedure, IMPOSSIBLE), formula)
        elif command < t.commands:
            formula = shift(t, t.numbers[command], formula)
        else:
            formula = IMPOSSIBLE
    return formula


# ------------------------------------------------------------------ rounds

ROUNDS = 1000

Solution = namedtuple("Solution", "round formulas")


def procedures_of(records):
    return sorted({r.procedure for r in records})


def next_formula(t, records, formulas):
    """The formula of the one procedure of some records, a round later."""
    combine = both if records[0].owner == STATION else either
    formula = list_formula(t, formulas, records[0].body)
    for r in records[1:]:
        formula = combine(formula, list_formula(t, formulas, r.body))
    return formula


def next_round(t, records, formulas):
    after = {}
    for p in procedures_of(records):
        own = [r for r in records if r.procedure == p]
        try:
            after[p] = next_formula(t, own, formulas)
        except Overflow:
            raise Refusal(11, "solve", p) from None
    return after


def first_round(records):
    return {p: IMPOSSIBLE for p in procedures_of(records)}


def solve(t, records, allowance):
    """The first round that is equal to the one before it."""
    if not 1 <= allowance <= ROUNDS:
        raise Refusal(8, "solve", 0)
    refuse_first(10, "solve", [
        any(command_in(s) is not None and s >= t.commands for s in r.body)
        for r in records])
    formulas = first_round(records)
    for number in range(1, allowance + 1):
        before, formulas = formulas, next_round(t, records, formulas)
        if formulas == before:
            return Solution(number, formulas)
    raise Refusal(12, "solve", allowance)


def solved(t, records):
    """The solution of a procedure set, or None if it is refused."""
    try:
        return solve(t, records, ROUNDS)
    except Refusal:
        return None


# ------------------------------------------------------------ winning sets

def winning_set(t, formulas, target, symbols):
    """The effects after which the field brings a list into the target."""
    won = target
    for symbol in reversed(symbols):
        won = mask_of(e for e in range(t.count)
                      if wins_before(t, formulas, won, symbol, e))
    return won


def wins_before(t, formulas, won, symbol, effect):
    command, procedure = command_in(symbol), procedure_in(symbol)
    row = t.joins[effect]
    if procedure is not None:
        leading = mask_of(k for k in range(t.count) if won >> row[k] & 1)
        return holds(formulas.get(procedure, IMPOSSIBLE), leading)
    return command < t.commands and won >> row[t.numbers[command]] & 1 == 1
