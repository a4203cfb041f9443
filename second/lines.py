"""The text of cases and of their answers."""

from collections import namedtuple

from rules import Chart, Count, EFFECTS, Pair, Refusal, judge, table
from formulas import (
    Overflow, is_symbol, list_formula, read_procedures, solve, winning_set)

SHAPES = {
    "chart": "chart",
    "count": "count",
    "count+count": ("count", "count"),
    "chart+count": ("chart", "count"),
    "count+(chart+count)": ("count", ("chart", "count")),
    "(count+count)+count": (("count", "count"), "count"),
}

Case = namedtuple("Case", "shape room commands parts")
SolveCase = namedtuple("SolveCase",
                       "shape allowance records form target parts")


def leaves(shape):
    """The leaf names of a shape from left to right."""
    if isinstance(shape, str):
        return [shape]
    return leaves(shape[0]) + leaves(shape[1])


def read_number(word, largest):
    if not (word.isascii() and word.isdigit()):
        raise ValueError("no number: %r" % word)
    number = int(word)
    if number > largest:
        raise ValueError("number too large: %r" % word)
    return number


def read_numbers(word):
    if word == "-":
        return []
    return [read_number(part, 255) for part in word.split(",")]


def read_bytes(word):
    if word == "-":
        return b""
    if not word or any(letter not in "0123456789abcdef" for letter in word):
        raise ValueError("no bytes: %r" % word)
    return bytes.fromhex(word)


def read_form(word):
    form = read_bytes(word)
    if not all(is_symbol(byte) for byte in form):
        raise ValueError("no symbols: %r" % word)
    return form


def read_count(word):
    modulus, mask, weights = word.split(":")
    return (read_number(modulus, 255), read_numbers(weights),
            read_number(mask, 2 ** 64 - 1))


READ = {"chart": read_bytes, "count": read_count}


def read_parts(shape, words):
    names = leaves(SHAPES[shape])
    if len(words) != len(names):
        raise ValueError("wrong number of parts: %d" % len(words))
    return [READ[name](word) for name, word in zip(names, words)]


def read_table_case(shape, room, commands, *parts):
    return Case(shape, read_number(room, 100), read_numbers(commands),
                read_parts(shape, parts))


def read_solve_case(shape, allowance, records, form, target, *parts):
    return SolveCase(shape, read_number(allowance, 2 ** 32 - 1),
                     read_bytes(records), read_form(form),
                     read_number(target, 2 ** 64 - 1),
                     read_parts(shape, parts))


def read_case(text):
    """The case of a line; a ValueError if the line has another form."""
    words = text.split(" ")
    if len(words) > 6 and words[0] == "solve" and words[1] in SHAPES:
        return read_solve_case(*words[1:])
    if len(words) > 3 and words[0] in SHAPES:
        return read_table_case(*words)
    raise ValueError("no case: %r" % text[:80])


def write_numbers(numbers):
    return ",".join(str(n) for n in numbers) if numbers else "-"


def write_bytes(data):
    return data.hex() or "-"


def write_part(part):
    if isinstance(part, bytes):
        return write_bytes(part)
    modulus, weights, mask = part
    return "%d:%d:%s" % (modulus, mask, write_numbers(weights))


def write_case(case):
    if isinstance(case, SolveCase):
        words = ["solve", case.shape, str(case.allowance),
                 write_bytes(case.records), write_bytes(case.form),
                 str(case.target)]
    else:
        words = [case.shape, str(case.room), write_numbers(case.commands)]
    return " ".join(words + [write_part(part) for part in case.parts])


def build(shape, parts):
    """The rule of a shape; parts is an iterator, used from left to right."""
    if shape == "chart":
        return Chart(next(parts))
    if shape == "count":
        return Count(*next(parts))
    left = build(shape[0], parts)
    return Pair(left, build(shape[1], parts))


def build_rule(shape_name, parts):
    return build(SHAPES[shape_name], iter(parts))


def checksum(joins):
    h = 0
    for row in joins:
        for number in row:
            h = (h * 31 + number) % 65521
    return h


def write_table(t):
    return "effects %d commands %d breaking %d numbers %s joins %d" % (
        t.count, t.commands, t.breaking, write_numbers(t.numbers),
        checksum(t.joins))


def write_formulas(formulas):
    return ";".join("%d:%s" % (p, write_numbers(formulas[p]))
                    for p in sorted(formulas))


def write_form_formula(t, formulas, form):
    try:
        return write_numbers(list_formula(t, formulas, form))
    except Overflow:
        return "overflow"


def answer_table_case(case):
    rule = build_rule(case.shape, case.parts)
    judgement = judge(rule, case.commands)
    try:
        outcome = write_table(table(rule, case.room))
    except Refusal as refusal:
        outcome = refusal.text()
    return judgement + " " + outcome


def answer_solve_case(case):
    rule = build_rule(case.shape, case.parts)
    records = read_procedures(case.records)
    t = table(rule, EFFECTS)
    number, formulas = solve(t, records, case.allowance)
    return "effects %d rounds %d formulas %s form %s wins %d" % (
        t.count, number, write_formulas(formulas),
        write_form_formula(t, formulas, case.form),
        winning_set(t, formulas, case.target, case.form))


def answer(text):
    try:
        case = read_case(text)
    except ValueError:
        return "malformed"
    try:
        if isinstance(case, SolveCase):
            return answer_solve_case(case)
        return answer_table_case(case)
    except Refusal as refusal:
        return refusal.text()
