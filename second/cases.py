"""The cases that the trials run.

Every section yields cases and has dice of its own, so that a new section
leaves the others as they are.
"""

from rules import Chart, Count, EFFECTS, effects_of, table
from formulas import (
    CLAUSES, FIELD, ROUNDS, STATION, mask_of, procedures_of, read_procedures,
    solve, solved, winning_set)
from lines import Case, SHAPES, SolveCase, build_rule, leaves, write_case
from draws import (
    Dice, SMALL_CHART, arrow, call, chart_bytes, draw_chart, draw_count,
    draw_form, draw_list, draw_procedures, draw_room, draw_small_rule,
    draw_symbol, draw_target, final, record)


def section_chart_lengths():
    whole = SMALL_CHART * 342               # 1026 records
    for length in (1, 2, 11, 13, 23, 25, 35, 12289, 12300):
        yield Case("chart", 64, [0, 1], [whole[:length]])
    broken = b"\x02" + whole[1:]            # the length comes first
    for length in (1, 13, 25, 12312):
        yield Case("chart", 64, [0, 1], [broken[:length]])


def section_chart_bytes():
    dice = Dice(2)
    good_arrow = arrow(7, 15, 7)
    good_final = final(7)
    everywhere, middle = (0, 2, 4), (2,)
    changes = [
        (good_arrow, 0, 2, everywhere), (good_final, 0, 2, everywhere),
        (good_arrow, 0, 255, middle), (good_final, 0, 255, middle),
        (good_arrow, 0, 1, middle), (good_final, 0, 0, middle),
        (good_arrow, 1, 8, everywhere), (good_arrow, 1, 255, middle),
        (good_arrow, 2, 16, everywhere), (good_arrow, 2, 255, middle),
        (good_arrow, 3, 8, everywhere), (good_arrow, 3, 255, middle),
        (good_final, 1, 8, everywhere), (good_final, 1, 255, middle),
    ]
    for good, fill in ((good_arrow, 4), (good_final, 2)):
        changes += [(good, index, dice.pick([0, 1, 127, 254]), everywhere)
                    for index in range(fill, 12)]
    for good, index, byte, places in changes:
        bad = good[:index] + bytes([byte]) + good[index + 1:]
        for place in places:
            records = [arrow(0, 0, 1), final(0), good_arrow, good_final,
                       arrow(1, 1, 0)]
            records[place] = bad
            yield Case("chart", 64, [], [b"".join(records)])
    # The unchanged records are fine.
    yield Case("chart", 64, [0, 1], [good_arrow + good_final])
    # Several broken records: the first counts.
    bad = bytes([9]) * 12
    good = arrow(0, 0, 1)
    for places in ((0, 1), (1, 2), (1, 4), (3, 4), (0, 4), (0, 1, 2, 3, 4)):
        yield Case("chart", 64, [0], [b"".join(
            bad if k in places else good for k in range(5))])
    yield Case("chart", 64, [0], [b"\0" * 12])
    yield Case("chart", 64, [0], [b"\xff" * 12])
    yield Case("chart", 64, [0], [good * 40 + bad + good * 3])


def section_chart_full():
    dice = Dice(3)
    yield Case("chart", 64, [0, 1] * 50, [(SMALL_CHART * 342)[:12288]])
    records = [arrow(dice.below(8), dice.below(16), dice.below(8))
               if dice.chance(0.95) else final(dice.below(7))
               for _ in range(1024)]
    yield Case("chart", 64, [dice.below(16) for _ in range(100)],
               [b"".join(records)])
    records[1023] = final(8)
    yield Case("chart", 64, [], [b"".join(records)])
    # Every record of a chart with 64 effects, again and again.
    data = partial_chart(5)
    records = [data[k:k + 12] for k in range(0, len(data), 12)]
    records += [dice.pick(records) for _ in range(1024 - len(records))]
    yield Case("chart", 64, [0, 1, 2, 3, 4, 5, 7] + [8] * 93,
               [b"".join(dice.shuffled(records))])


def section_count_faults():
    ok = [0, 1, 2]
    for modulus in (0, 65, 66, 127, 128, 255):
        yield Case("count", 64, [0], [(modulus, [0, 1], 1)])
    for number in (0, 17, 18, 32):
        yield Case("count", 64, [0], [(5, [1] * number, 3)])
    for number in (1, 15, 16):
        yield Case("count", 64, [number - 1], [(5, [1] * number, 3)])
        yield Case("count", 64, [number], [(5, [1] * number, 3)])
    for index in range(16):
        modulus = 3 + 4 * index
        weights = [modulus - 1] * 16
        weights[index] = modulus if index % 2 else 255
        yield Case("count", 64, [0], [(modulus, weights, 1)])
    yield Case("count", 64, [0], [(1, [1], 1)])
    yield Case("count", 64, [0], [(64, [64], 1)])
    yield Case("count", 64, [0], [(64, [63], 1)])
    for modulus in (1, 2, 7, 8, 31, 32, 33, 63):
        yield Case("count", 64, [0], [(modulus, [0], 1 << modulus)])
    for modulus in (1, 8, 32, 63):
        yield Case("count", 64, [0], [(modulus, [0], (1 << modulus) - 1)])
    yield Case("count", 64, [0], [(3, ok, 1 << 63)])
    yield Case("count", 64, [0], [(32, ok, 2 ** 64 - 1)])
    yield Case("count", 64, [0], [(63, ok, 2 ** 64 - 1)])
    yield Case("count", 64, [0], [(64, ok, 2 ** 64 - 1)])
    yield Case("count", 64, [1], [(64, ok, 1 << 63)])
    # Several faults at once: the order of the looks.
    every = 2 ** 64 - 1
    yield Case("count", 0, [0], [(0, [], every)])
    yield Case("count", 0, [0], [(0, [255] * 17, every)])
    yield Case("count", 0, [0], [(65, [255] * 17, every)])
    yield Case("count", 0, [0], [(65, [255] * 3, every)])
    yield Case("count", 0, [0], [(65, ok, every)])
    yield Case("count", 0, [0], [(5, [], every)])
    yield Case("count", 0, [0], [(5, [255] * 17, every)])
    yield Case("count", 0, [0], [(5, ok * 5 + [1, 5], every)])
    yield Case("count", 0, [0], [(5, ok + [5, 9, 255], every)])
    yield Case("count", 0, [0], [(5, ok * 5 + [5], every)])
    yield Case("count", 0, [0], [(5, ok, every)])


def section_rooms():
    one = {
        "chart": [SMALL_CHART],
        "count": [(64, [1], 1)],
        "count+count": [(3, [1, 0], 1), (4, [0, 1, 1], 3)],
        "chart+count": [SMALL_CHART, (2, [0, 1, 1], 1)],
        "count+(chart+count)": [(2, [1, 1], 1), SMALL_CHART, (3, [1, 2], 5)],
        "(count+count)+count": [(2, [1], 1), (3, [1], 1), (5, [1], 1)],
    }
    for shape in SHAPES:
        for room in (0, 63, 64, 65, 100):
            yield Case(shape, room, [0], one[shape])
    for room in (1, 62):
        yield Case("count", room, [0, 0], [(1, [0], 1)])
    # The room is looked at before a 65th effect.
    too_many = [(8, [1], 255), (9, [1], 511)]
    for room in (0, 63, 64, 100):
        yield Case("count+count", room, [0], too_many)
    # A refused part is told before the room.
    yield Case("count+count", 0, [0], [(8, [8], 1), (9, [1], 1)])


def partial_chart(extra):
    """A chart with 59 + extra effects (extra 0..6).

    One-pair effects on states 0..6, the way to 7 and a loop there, and for
    each extra one more command that keeps the states 0..k in place.
    """
    arrows = [(k, k, (k + 1) % 7) for k in range(7)] + [(6, 7, 7), (7, 8, 7)]
    for k in range(1, extra + 1):
        arrows += [(p, 8 + k, p) for p in range(k + 1)]
    return chart_bytes(arrows, [0, 7])


def section_plain_charts():
    for commands in ([], [15], [16], [255], [0] * 100):
        yield Case("chart", 64, commands, [b""])
    yield Case("chart", 63, [], [b""])
    # Final states only.
    yield Case("chart", 64, [], [final(0)])
    yield Case("chart", 64, [], [final(7)])
    yield Case("chart", 64, [0], [b"".join(final(q) for q in range(8))])
    # One state.
    loop = [(0, 3, 0)]
    yield Case("chart", 64, [], [chart_bytes(loop, [])])
    yield Case("chart", 64, [3] * 100, [chart_bytes(loop, [0])])
    yield Case("chart", 64, [3, 3, 2], [chart_bytes(loop, [0])])
    loops = [(0, c, 0) for c in range(16)]
    yield Case("chart", 64, list(range(16)), [chart_bytes(loops, [0])])
    yield Case("chart", 64, list(range(17)), [chart_bytes(loops, [0])])
    # Every command keeps every state: one effect.
    stay = [(p, c, p) for p in range(8) for c in range(16)]
    yield Case("chart", 64, [4, 15], [chart_bytes(stay, [0])])
    # Two ways with the same command.
    fork = [(0, 0, 1), (0, 0, 2), (1, 1, 3), (2, 2, 3), (3, 0, 0)]
    for commands in ([0, 1], [0, 2], [0, 1, 0, 0, 2], [0, 0]):
        yield Case("chart", 64, commands, [chart_bytes(fork, [3])])
    # The known chart, the same records again, in another order.
    for commands in ([], [1], [0, 1], [1, 0], [0, 1] * 50, [16], [0, 16],
                     [0, 1] * 49 + [0, 16]):
        yield Case("chart", 64, commands, [SMALL_CHART])
    yield Case("chart", 64, [0, 1], [SMALL_CHART * 3])
    yield Case("chart", 64, [0, 1], [SMALL_CHART[24:] + SMALL_CHART[:24]])
    # Around the largest number of effects.
    for extra in range(7):
        yield Case("chart", 64, [k % 7 for k in range(7 * extra)],
                   [partial_chart(extra)])
    yield Case("chart", 64, [0, 1, 2, 3, 4, 5, 7, 8], [partial_chart(5)])


# Numbers of random charts wanted for each band of numbers of effects.
BANDS = [(2, 3, 5), (4, 6, 6), (7, 10, 6), (11, 16, 7), (17, 24, 7),
         (25, 32, 5), (33, 48, 5), (49, 64, 5), (65, 65, 30)]


def section_random_charts():
    dice = Dice(7)
    left = {band: band[2] for band in BANDS}
    for _ in range(3000):
        data = draw_chart(dice)
        rule = Chart(data)
        count = len(effects_of(rule, EFFECTS))
        for band in BANDS:
            if band[0] <= count <= band[1] and left[band]:
                left[band] -= 1
                yield Case("chart", draw_room(dice), draw_list(dice, rule),
                           [data])
        if not any(left.values()):
            return


def section_moduli():
    dice = Dice(8)
    for modulus in range(1, 65):
        weights = [dice.below(modulus) for _ in range(dice.between(1, 16))]
        if modulus % 2 == 0 and dice.chance(0.4):
            weights = [w // 2 * 2 for w in weights]
        elif dice.chance(0.3):
            weights = [1 % modulus]
        part = dice.pick([0.3, 0.6, 0.8])
        mask = mask_of(r for r in range(modulus) if dice.chance(part))
        data = (modulus, weights, mask)
        yield Case("count", 64, draw_list(dice, Count(*data)), [data])


def section_plain_pairs():
    def ones(*moduli):
        return [(m, [1], (1 << m) - 2 if m > 1 else 1) for m in moduli]

    for moduli in ((7, 9), (8, 9), (8, 8), (5, 13), (1, 64), (64, 1),
                   (63, 64), (3, 21), (32, 64)):
        parts = [(m, [1 % m], 1) for m in moduli]
        yield Case("count+count", 64, [0] * moduli[0], parts)
    # Two commands, one for each part: the product of the moduli.
    for m, n in ((8, 8), (7, 9), (5, 13), (2, 32), (16, 4), (6, 11)):
        yield Case("count+count", 64, [0] * m + [1] * n,
                   [(m, [1, 0], 1), (n, [0, 1], 1)])
    for moduli in ((3, 4, 5), (2, 5, 7), (4, 4, 4), (2, 3, 11)):
        yield Case("(count+count)+count", 64, [0], ones(*moduli))
    # Different C: only the smaller one counts.
    few, many = (3, [1, 2], 1), (4, [1, 2, 3, 0, 1], 9)
    for commands in ([0, 1], [2], [0, 4], [5]):
        yield Case("count+count", 64, commands, [few, many])
        yield Case("count+count", 64, commands, [many, few])
    for commands in ([0, 1], [0, 1, 2], [15], [16], [0, 1] * 49 + [0, 2]):
        yield Case("chart+count", 64, commands, [SMALL_CHART, few])
    yield Case("chart+count", 64, [15, 0, 1], [SMALL_CHART, (2, [0] * 16, 1)])
    # Only one part breaks, then the other.
    yield Case("chart+count", 64, [0, 1], [SMALL_CHART, (2, [1, 0], 1)])
    yield Case("chart+count", 64, [1, 0], [SMALL_CHART, (2, [1, 1], 1)])
    # The empty chart in a pair.
    yield Case("chart+count", 64, [], [b"", (5, [1], 31)])
    # Around the largest number of effects, with a chart.
    for extra in (4, 5, 6):
        yield Case("chart+count", 64, [0, 1, 2, 3, 4, 5, 6],
                   [partial_chart(extra), (1, [0] * 16, 1)])


def section_refused_parts():
    """The first refused part from left to right is told."""
    good = {"chart": SMALL_CHART, "count": (5, [1, 2], 3)}

    def bad(leaf, at):                      # a place of its own for each part
        if leaf == "chart":
            return arrow(0, 0, 1) * (6 + at) + b"\2" + b"\xff" * 11
        return (5, [1] * at + [5], 3)

    for name, shape in SHAPES.items():
        names = leaves(shape)
        if len(names) == 1:
            continue
        for at in range(len(names)):
            parts = [good[leaf] for leaf in names]
            parts[at] = bad(names[at], at)
            yield Case(name, 64, [0], parts)
            for after in range(at + 1, len(names)):
                more = list(parts)
                more[after] = bad(names[after], after)
                yield Case(name, 64, [0], more)


def section_random_pairs():
    dice = Dice(11)
    for name, shape in SHAPES.items():
        names = leaves(shape)
        if len(names) == 1:
            continue
        largest = 16 if len(names) == 2 else 6
        left = {True: 11, False: 3}         # accepted or not
        for _ in range(400):
            parts = [draw_chart(dice) if leaf == "chart"
                     else draw_count(dice, largest) for leaf in names]
            rule = build_rule(name, parts)
            count = len(effects_of(rule, EFFECTS))
            accepted = count <= EFFECTS
            if count == 1 or not left[accepted]:
                continue
            left[accepted] -= 1
            yield Case(name, draw_room(dice), draw_list(dice, rule), parts)
            if not any(left.values()):
                break


# The procedure set with a known solution under a count of 3 with weight 1.
KNOWN_RECORDS = [
    record(0, FIELD, 0), record(0, FIELD, 0, call(1)),
    record(1, STATION), record(1, STATION, 0, 0),
    record(2, FIELD, 0, call(2)),
    record(3, STATION, call(3)), record(3, STATION, 0),
    record(4, FIELD, call(4)), record(4, FIELD, 0),
    record(5, FIELD, 0, call(5)), record(5, FIELD),
]
KNOWN_SET = b"".join(KNOWN_RECORDS)
THREE = (3, [1], 1)

# The command c has the effect c, and there are 64 effects.
WIDE = (64, list(range(16)), 1)


def one_command_bodies(procedure, commands):
    return [record(procedure, STATION, c) for c in commands]


def choice_set(left, right):
    """Procedure 2 is the field's choice between two of the station's."""
    return b"".join(one_command_bodies(0, left) + one_command_bodies(1, right)
                    + [record(2, FIELD, call(0)), record(2, FIELD, call(1))])


# The field's choice has 64 clauses here, and 72 there.
WIDE_SET = choice_set(range(8), range(8, 16))
TOO_WIDE_SET = choice_set(range(8), range(8, 15)) \
    + record(1, STATION, 14, 2) + record(1, STATION, 14, 3)


def counted(records, form=b"", allowance=1000, target=6, count=THREE):
    """A case under a count."""
    return SolveCase("count", allowance, records, bytes(form), target, [count])


def section_known_set():
    for allowance in (0, 1, 2, 3, 4, 5, 999, 1000, 1001, 2 ** 32 - 1):
        yield counted(KNOWN_SET, [call(1), call(1)], allowance)
    forms = [[], [0], [1], [15], [call(6)], [call(31)], [0, 0, 0], [0, 1],
             [1, 0], [call(1), 1], [1, call(1)], [call(2), call(0)],
             [call(0), call(2)], [call(5), call(1)], [call(1), call(5)]]
    for form in forms + [[call(p)] for p in range(6)]:
        yield counted(KNOWN_SET, form)
    for target in range(8):
        yield counted(KNOWN_SET, [call(0), call(1)], target=target)
    # The order of the records of different procedures does not matter.
    yield counted(b"".join(reversed(KNOWN_RECORDS)), [call(0)])


def section_record_lengths():
    whole = record(7, FIELD, 0) * 130
    for length in (0, 1, 11, 12, 13, 23, 24, 25, 1524, 1535, 1536, 1537,
                   1547, 1548, 1549, 1560):
        yield counted(whole[:length], [call(7)])
    broken = b"\x20" + whole[1:]            # the length comes first
    for length in (11, 12, 13, 1536, 1548):
        yield counted(broken[:length])


def section_record_bytes():
    dice = Dice(21)
    sixteen = (3, [1] * 16, 1)
    good = [record(31, FIELD), record(0, STATION, 15, call(31), 0, call(0)),
            record(5, FIELD, 1, 2, 3, call(5), 15, 0, call(0), call(31), 9)]
    yield counted(b"".join(good), [call(5)], count=sixteen)

    def bad_bytes(index, length):
        if index == 0:
            return [32, 64, 255]
        if index == 1:
            return [2, 255]
        if index == 2:
            return sorted({length - 1, length + 1, 10, 255} - {-1})
        if index < 3 + length:
            return dice.shuffled([16, 31, 64, 254, 255])[:2]
        return dice.shuffled([0, 15, 32, 63, 254])[:1]

    for number, unbroken in enumerate(good):
        for index in range(12):
            for byte in bad_bytes(index, unbroken[2]):
                bad = bytearray(unbroken)
                bad[index] = byte
                records = list(good)
                records[number] = bytes(bad)
                yield counted(b"".join(dice.shuffled(records)), count=sixteen)
    # Several broken records: the first counts.
    bad = b"\x80" * 12
    for places in ((0, 1), (1, 2), (0, 2), (0, 1, 2)):
        yield counted(b"".join(bad if k in places else r
                               for k, r in enumerate(good)))
    yield counted(b"\0" * 12)
    yield counted(b"\xff" * 12)
    yield counted(record(0, STATION) * 127 + bad)


def section_record_faults():
    """Owners that differ, calls without a record, and which comes first."""
    ours, theirs = record(3, STATION, 0), record(3, FIELD, 0)
    other = record(9, FIELD)
    strange = record(9, FIELD, 0, call(10))
    bad = record(32, FIELD)
    for records in ([ours, theirs], [theirs, ours], [ours, other, theirs],
                    [ours, theirs, ours], [ours, ours, theirs, theirs],
                    [other, ours, ours, other, theirs, ours],
                    [ours] * 127 + [theirs], [ours] * 128):
        yield counted(b"".join(records))
    for records in ([strange], [other, strange], [strange, other],
                    [strange, strange], [record(9, FIELD, call(8))],
                    [record(0, STATION, call(31))],
                    [record(31, STATION, call(0))],
                    [record(9, FIELD, call(9), call(3), call(10)), ours],
                    [record(9, FIELD, call(3)), ours],
                    [record(9, FIELD, *[call(9)] * 8, call(3)), other],
                    [other] * 127 + [strange], [strange] + [other] * 127):
        yield counted(b"".join(records))
    for records in ([theirs, ours, bad], [bad, theirs, ours],
                    [strange, bad], [bad, strange], [strange, ours, theirs],
                    [ours, theirs, strange], [ours, strange, theirs],
                    [strange, ours, theirs, bad], [ours, theirs, bad, strange],
                    [bad, strange, ours, theirs]):
        yield counted(b"".join(records))


def section_layers():
    """The rule comes first, then the records, the effects and the rounds."""
    wrong = (3, [3], 1)
    broken = b"\x80" * 12
    late = record(0, FIELD, 0, call(0)) + record(0, FIELD, 15)
    eight, nine = (8, [1] * 16, 1), (9, [1] * 16, 1)

    def paired(records, left, right, allowance=1000):
        return SolveCase("count+count", allowance, records, b"", 1,
                         [left, right])

    yield counted(broken, allowance=0, count=wrong)
    yield counted(KNOWN_SET, allowance=0, count=wrong)
    yield paired(broken, eight, wrong, 0)
    yield paired(broken, eight, nine, 0)
    yield paired(broken, eight, eight, 0)
    yield paired(KNOWN_SET, eight, nine)
    yield paired(KNOWN_SET, eight, nine, 0)
    yield paired(KNOWN_SET, eight, eight)
    yield paired(KNOWN_SET, eight, eight, 3)
    for allowance in (0, 1, 1000, 1001):
        yield counted(broken, allowance=allowance)
        yield counted(late, allowance=allowance)
        yield counted(TOO_WIDE_SET, allowance=allowance, count=WIDE)
        yield counted(TOO_WIDE_SET + record(31, FIELD, 15),
                      allowance=allowance, count=(64, list(range(15)), 1))


def section_lacking_commands():
    """Bodies with commands that the rule lacks."""
    for commands in (1, 2, 15):
        count = (7, [1] * commands, 1)
        for command in (commands - 1, commands, 15):
            yield counted(record(4, STATION, command), [call(4)], count=count)
            yield counted(record(4, STATION) * 5
                          + record(6, FIELD, 0, call(4), command) * 2,
                          [call(6)], count=count)
    yield counted(record(0, FIELD, *[0] * 8, 1))
    yield counted(record(0, FIELD) * 127 + record(0, FIELD, 1))
    yield counted(record(0, FIELD, 1) + record(0, FIELD) * 127)
    few = [SMALL_CHART, (5, [1, 2], 1)]
    for command in (1, 2):
        yield SolveCase("chart+count", 9, record(0, FIELD, 0, command),
                        bytes([call(0), command]), 1, few)
    yield SolveCase("chart", 9, record(0, FIELD, 15), bytes([15]), 1,
                    [SMALL_CHART])


def section_many_clauses():
    """At and around 64 clauses."""
    low, high = range(8), range(8, 16)
    for allowance in (2, 3, 1000):
        yield counted(WIDE_SET, [call(2)], allowance, 257, WIDE)
        yield counted(TOO_WIDE_SET, [call(2)], allowance, 257, WIDE)
    for body in ([15, 1], [7], [8], [15]):
        yield counted(WIDE_SET + record(0, STATION, *body), [call(2)],
                      count=WIDE)
        yield counted(WIDE_SET + record(1, STATION, *body), [call(2)],
                      count=WIDE)
    # Clauses within others: some are refused before the others would leave.
    for left, right in ((low, range(7, 16)), (low, range(6, 16)),
                        (low, low), (low, range(16)), (low, range(9, 16)),
                        ([*range(7), 15], range(7, 16)),
                        ([*range(7), 15], high)):
        yield counted(choice_set(left, right), [call(2)], count=WIDE)
        yield counted(choice_set(right, left), [call(2)], count=WIDE)
    # One effect for each clause: two commands are a residue of 64.
    units = (64, [0, 1, 2, 3, 4, 5, 6, 7] + [8 * k for k in range(8)], 1)
    pairs = [record(12, STATION, a, b) for a in low for b in high]
    yield counted(b"".join(pairs), [call(12)], count=units)
    yield counted(b"".join(pairs), [call(12), call(12)], count=units)
    yield counted(b"".join(pairs + [record(12, STATION, 0, 0, 0)]),
                  [call(12)], count=units)
    # The station's clauses joined: 8 after 8 of them are 64.
    first, second = one_command_bodies(0, low), one_command_bodies(1, high)
    joined = b"".join(first + second + [record(2, FIELD, call(0), call(1))])
    yield counted(joined, [call(2)], count=units)
    yield counted(joined, [call(0), call(1)], count=units, target=2 ** 63)
    yield counted(joined, [call(1), call(0)], count=units, target=1)
    # The choice of the field before and after others, in bodies and forms.
    for body in ([call(2), call(2)], [call(2), 0], [0, call(2)],
                 [call(0), call(2)], [call(2), call(0)]):
        yield counted(WIDE_SET + record(3, STATION, *body)
                      + record(3, STATION), [call(3)], count=WIDE)
        yield counted(WIDE_SET, body, count=WIDE, target=2 ** 32 - 1)
    for body in ([0], [15], [15, 15]):
        yield counted(WIDE_SET + record(3, STATION, call(2))
                      + record(3, STATION, *body), [call(3)], count=WIDE)
        yield counted(WIDE_SET + record(3, STATION, *body)
                      + record(3, STATION, call(2)), [call(3)], count=WIDE)
    # The procedure with the smallest number is told.
    calls = [record(p, FIELD, call(q)) for p in (31, 30) for q in (0, 1)]
    yield counted(TOO_WIDE_SET + b"".join(calls), count=WIDE)
    yield counted(b"".join(calls) + TOO_WIDE_SET.replace(
        record(2, FIELD, call(0)), record(2, FIELD, 0)), count=WIDE)
    # A body that goes on for ever.
    yield counted(WIDE_SET + record(2, FIELD, 0, call(2)), count=WIDE)
    yield counted(WIDE_SET + record(0, STATION, call(0)), count=WIDE)


def section_clause_orders():
    """Where it is seen in which order clauses are offered: a 65th one would
    stand on the way in one order, and in none in another."""
    def cases(data, procedure, form):
        for allowance in (2, 1000):
            yield counted(data, form, allowance, 1, WIDE)
        yield counted(data + record(procedure, STATION, *form), form,
                      target=2 ** 62 - 1, count=WIDE)

    # 64 clauses; {0, 1}, which would be a 65th; {7}, which lets eight leave.
    data = WIDE_SET + b"".join([
        record(5, FIELD, 0), record(5, FIELD, 1),
        record(4, STATION, call(5)), record(4, STATION, 7)])
    for bodies in ([2, 4], [4, 2]):
        yield counted(data + b"".join(record(3, STATION, call(p))
                                      for p in bodies), [call(3)], count=WIDE)
    # {9} comes last in the one and first in the other.
    data = b"".join(one_command_bodies(0, range(10))
                    + one_command_bodies(1, range(9, 16))
                    + [record(1, STATION, 15, 1)])
    for bodies in ([0, 1], [1, 0]):
        yield counted(data + b"".join(record(2, FIELD, call(p))
                                      for p in bodies), [call(2)], count=WIDE)
    # The effects 0 and 7, and 0 to 9 or 7 to 16 after them.
    data = b"".join(one_command_bodies(0, range(10))
                    + [record(1, FIELD, 0), record(1, FIELD, 7)])
    yield from cases(data, 2, [call(1), call(0)])
    yield from cases(data, 2, [call(0), call(1)])
    # The clause {4}, and then {8, 16}.
    data = b"".join(one_command_bodies(0, range(8)) + [
        record(1, FIELD, 8), record(1, FIELD, 8, 8),
        record(2, STATION, 4), record(2, STATION, call(1))])
    yield from cases(data, 3, [call(2), call(0)])


def chain(length, owner=FIELD):
    """Procedure k calls procedure k + 1, and the last one ends."""
    return b"".join(record(k, owner, 0, call(k + 1)) for k in range(length)) \
        + record(length, owner, 0)


def section_allowances():
    """Sets that settle late, with fewer rounds than that, and enough."""
    def gatherer(modulus, weight=1):
        return (record(3, FIELD) + record(3, FIELD, 0, call(3)),
                (modulus, [weight], 1))

    dice = Dice(22)
    sets = [(chain(n), THREE) for n in (1, 2, 30, 31)]
    sets += [(chain(n, STATION), THREE) for n in (1, 31)]
    sets += [gatherer(m) for m in (2, 16, 63, 64)]
    sets += [gatherer(64, 3), gatherer(64, 32)]
    sets.append((record(0, STATION, call(0)), THREE))
    sets.append((record(0, STATION), THREE))
    while len(sets) < 20:
        count = draw_count(dice, 24, 4)
        t = table(Count(*count), EFFECTS)
        data = draw_procedures(dice, t.commands)
        solution = solved(t, read_procedures(data))
        if solution and solution.round > 6:
            sets.append((data, count))
    for data, count in sets:
        settled = solve(table(Count(*count), EFFECTS), read_procedures(data),
                        ROUNDS).round
        for allowance in (settled - 1, settled, settled + 1):
            yield counted(data, [data[0] + 32, 0], allowance, count=count)


def section_forms():
    """Forms with every symbol there is."""
    dice = Dice(23)
    count = (6, [k % 5 for k in range(14)], 0b101011)
    procedures = dice.shuffled(range(32))[:20]
    owners = {p: dice.pick([STATION, FIELD]) for p in procedures}
    records = [record(p, owners[p], dice.below(14)) for p in procedures]
    records += [record(p, owners[p], draw_symbol(dice, 14, procedures),
                       dice.below(14)) for p in procedures]
    data = b"".join(dice.shuffled(records))
    symbols = list(range(16)) + [call(p) for p in range(32)]
    for symbol in symbols:
        yield counted(data, [symbol], count=count, target=0b010100)
    lasting = [s for s in symbols if s < 14 or s - 32 in procedures]
    for form in (symbols, symbols[::-1], lasting, lasting[::-1],
                 [s for s in lasting if s < 14], lasting * 4):
        yield counted(data, form, count=count, target=0b010100)


def section_targets():
    data = b"".join([record(8, FIELD, 0, 1), record(8, FIELD, 0, call(8), 1),
                     record(2, STATION, 0), record(2, STATION, call(2), 1),
                     record(2, STATION, 1)])
    every = 2 ** 64 - 1
    for target in [0, 46, 17, 63, 64, every, every - 63]:
        for form in ([], [0], [call(8)], [call(2), call(8)]):
            yield SolveCase("chart", 99, data, bytes(form), target,
                            [SMALL_CHART])
    for target in (1, 1 << 63, every, every >> 1, 0x5555555555555555):
        yield counted(WIDE_SET, [call(2)], target=target, count=WIDE)
        yield counted(WIDE_SET, [15, call(0)], target=target, count=WIDE)


def commutes(t):
    return all(t.joins[a][b] == t.joins[b][a]
               for a in range(t.count) for b in range(a))


def section_form_orders():
    """Forms that the field wins from other effects than the reversed ones."""
    dice = Dice(26)
    wanted = 24
    while wanted:
        name, parts, rule = draw_small_rule(dice)
        t = table(rule, EFFECTS)
        if commutes(t):
            continue
        data = draw_procedures(dice, min(4, rule.commands))
        records = read_procedures(data)
        solution = solved(t, records)
        if solution is None:
            continue
        for _ in range(20):
            form = draw_form(dice, 4, procedures_of(records))
            target = draw_target(dice, t)
            won, other = (winning_set(t, solution.formulas, target, symbols)
                          for symbols in (form, form[::-1]))
            if won != other and won and max(form) >= call(0):
                wanted -= 1
                yield SolveCase(name, ROUNDS, data, form, target, parts)
                break


def section_full_set():
    """128 records with bodies of nine symbols, four for each procedure."""
    dice = Dice(24)
    for part in (0, 0.6):                   # of the bodies make a call
        records = []
        for p in sorted([*range(32)] * 4):
            body = [dice.below(5) for _ in range(9)]
            if dice.chance(part):
                body[dice.below(9)] = call(dice.below(32))
            records.append(record(p, p % 2, *body))
        yield counted(b"".join(dice.shuffled(records)), [call(31), call(0)],
                      count=(5, [0, 1, 0, 2, 1], 1), target=0b10110)


# Numbers of random procedure sets wanted for each band of the largest number
# of clauses of a formula; 65 stands for a refused one.
CLAUSE_BANDS = [(1, 1, 25), (2, 2, 30), (3, 3, 30), (4, 5, 20), (6, 9, 15),
                (10, 64, 12), (65, 65, 10)]


def most_clauses(solution):
    if solution is None:
        return CLAUSES + 1
    return max(map(len, solution.formulas.values()))


def section_random_sets():
    dice = Dice(25)
    left = {band: band[2] for band in CLAUSE_BANDS}
    while any(left.values()):
        name, parts, rule = draw_small_rule(dice)
        t = table(rule, EFFECTS)
        data = draw_procedures(dice, min(4, rule.commands))
        records = read_procedures(data)
        count = most_clauses(solved(t, records))
        for band in CLAUSE_BANDS:
            if band[0] <= count <= band[1] and left[band]:
                left[band] -= 1
                form = draw_form(dice, rule.commands, procedures_of(records))
                yield SolveCase(name, dice.pick([100, 1000]), data, form,
                                draw_target(dice, t), parts)


SECTIONS = [
    section_chart_lengths,
    section_chart_bytes,
    section_chart_full,
    section_count_faults,
    section_rooms,
    section_plain_charts,
    section_random_charts,
    section_moduli,
    section_plain_pairs,
    section_refused_parts,
    section_random_pairs,
    section_known_set,
    section_record_lengths,
    section_record_bytes,
    section_record_faults,
    section_layers,
    section_lacking_commands,
    section_many_clauses,
    section_clause_orders,
    section_allowances,
    section_forms,
    section_form_orders,
    section_targets,
    section_full_set,
    section_random_sets,
]

# Lines that are no cases.
MALFORMED = [
    "", "-", "solve", "solve count", "solve count 9 - - 1",
    "solve count 9 - - 1 ", "solve count 9 - - 1 3:1:1 3:1:1",
    "solve count 9 - - 1 3:1:1 ", " solve count 9 - - 1 3:1:1",
    "solve  count 9 - - 1 3:1:1", "solve chart 9 - - 1 3:1:1",
    "solve count+count 9 - - 1 3:1:1", "solve mix 9 - - 1 3:1:1",
    "Solve count 9 - - 1 3:1:1", "solve count -1 - - 1 3:1:1",
    "solve count 4294967296 - - 1 3:1:1", "solve count +9 - - 1 3:1:1",
    "solve count 9 0 - 1 3:1:1", "solve count 9 0g - 1 3:1:1",
    "solve count 9 0A - 1 3:1:1", "solve count 9 - 10 1 3:1:1",
    "solve count 9 - 1f 1 3:1:1", "solve count 9 - 0040 1 3:1:1",
    "solve count 9 - ff 1 3:1:1", "solve count 9 - 000 1 3:1:1",
    "solve count 9 - - - 3:1:1", "solve count 9 - - x 3:1:1",
    "solve count 9 - - 18446744073709551616 3:1:1",
    "count 64 - 3:1", "count 101 - 3:1:1", "count 64 256 3:1:1",
    "count 64 0,,0 3:1:1", "chart 64 - ", "chart 64 - 000",
]


def generate():
    cases = [case for section in SECTIONS for case in section()]
    return [write_case(case) for case in cases] + MALFORMED
