"""Drawing rules, lists, procedure sets, forms and targets for cases."""

import random

from rules import (
    Chart, EFFECTS, FORBIDDEN, PERMITTED, Pair, effects_of, judge)
from formulas import FIELD, STATION, mask_of
from lines import SHAPES, build_rule, leaves

SEED = 20260


class Dice:
    """Draws from random.Random; only random() is used, so that the draws
    stay the same from one Python version to the next."""

    def __init__(self, section):
        self._random = random.Random(SEED * 1000 + section)

    def below(self, n):
        return int(self._random.random() * n)

    def between(self, low, high):
        return low + self.below(high - low + 1)

    def chance(self, part):
        return self._random.random() < part

    def pick(self, things):
        return things[self.below(len(things))]

    def shuffled(self, things):
        things = list(things)
        for i in range(len(things) - 1, 0, -1):
            j = self.below(i + 1)
            things[i], things[j] = things[j], things[i]
        return things


def arrow(start, command, end):
    return bytes([0, start, command, end]) + b"\xff" * 8


def final(state):
    return bytes([1, state]) + b"\xff" * 10


def chart_bytes(arrows, finals):
    return b"".join([arrow(*a) for a in arrows] + [final(q) for q in finals])


# The chart with a known table: 0 -0-> 1 -1-> 0, final 0.
SMALL_CHART = chart_bytes([(0, 0, 1), (1, 1, 0)], [0])


def draw_arrows(dice):
    """Arrows of a small random automaton; returns (states, arrows)."""
    states = dice.between(1, 8)
    letters = dice.shuffled(range(16))[:dice.between(1, 4)]
    if dice.chance(0.5):
        letters = list(range(len(letters)))
    style = dice.below(5)
    if style == 0:                          # deterministic, with gaps
        part = dice.pick([0.3, 0.5, 0.8])
        return states, [(p, c, dice.below(states)) for c in letters
                        for p in range(states) if dice.chance(part)]
    if style == 1:                          # deterministic, no gaps
        return states, [(p, c, dice.below(states)) for c in letters
                        for p in range(states)]
    if style == 2:                          # nondeterministic
        part = dice.pick([0.1, 0.2, 0.4])
        return states, [(p, c, q) for c in letters for p in range(states)
                        for q in range(states) if dice.chance(part)]
    if style == 3:                          # states only change places
        return states, [(p, c, q) for c in letters
                        for p, q in enumerate(dice.shuffled(range(states)))]
    return states, [(dice.below(states), dice.below(16), dice.below(states))
                    for _ in range(dice.between(1, 9))]     # few arrows


def draw_chart(dice):
    states, arrows = draw_arrows(dice)
    finals = [q for q in range(states) if dice.chance(0.4)]
    if not finals and dice.chance(0.9):
        finals = [dice.below(states)]
    records = [arrow(*a) for a in arrows] + [final(q) for q in finals]
    if records and dice.chance(0.2):        # the same records again
        records += [dice.pick(records) for _ in range(dice.between(1, 5))]
    return b"".join(dice.shuffled(records))


def draw_count(dice, largest, most=16):
    modulus = dice.between(1, largest)
    weights = [dice.below(modulus) for _ in range(dice.between(1, most))]
    part = dice.pick([0.3, 0.6, 0.8])
    return (modulus, weights,
            mask_of(r for r in range(modulus) if dice.chance(part)))


def charts_in(rule):
    if isinstance(rule, Chart):
        return [rule]
    if isinstance(rule, Pair):
        return charts_in(rule.left) + charts_in(rule.right)
    return []


def draw_walk(dice, rule, length):
    """A list of commands that keeps every chart alive where it can."""
    charts = charts_in(rule)
    at = [{Chart.START} for _ in charts]
    commands = []
    while len(commands) < length:
        good = [c for c in range(rule.commands)
                if all(chart.step(s, c) for chart, s in zip(charts, at))]
        if not good or dice.chance(0.002):
            good = range(rule.commands)
        commands.append(dice.pick(good))
        at = [chart.step(s, commands[-1]) for chart, s in zip(charts, at)]
    return commands


def draw_list(dice, rule):
    """A list for a rule: empty, short or long, mostly with its commands."""
    style = dice.below(12)
    if style == 0:
        return []
    if style == 1:                          # any bytes
        return [dice.below(256) for _ in range(dice.between(1, 6))]
    if style == 2:                          # any commands of the rule
        return [dice.below(rule.commands)
                for _ in range(dice.pick([1, 2, 5, 100]))]
    if style == 3:                          # one command too large
        commands = draw_walk(dice, rule, dice.pick([1, 3, 8, 100]))
        over = dice.pick([rule.commands, rule.commands, 16, 255])
        commands[dice.pick([0, -1, dice.below(len(commands))])] = over
        return commands
    wish = dice.pick([PERMITTED, PERMITTED, FORBIDDEN])
    lengths = [100] if style <= 5 else [1, 2, 3, 4, 5, 6, 8, 12]
    for _ in range(8):
        commands = draw_walk(dice, rule, dice.pick(lengths))
        if judge(rule, commands) == wish:
            break
    return commands


def draw_room(dice):
    if dice.chance(0.04):
        return dice.below(64)
    return dice.pick([64, 64, 64, 65, 99, 100])


def record(procedure, owner, *body):
    return bytes([procedure, owner, len(body), *body]).ljust(12, b"\xff")


def call(procedure):
    return 32 + procedure


def draw_parts(dice, name, largest, most=16):
    return [draw_chart(dice) if leaf == "chart"
            else draw_count(dice, largest, most)
            for leaf in leaves(SHAPES[name])]


def draw_small_rule(dice):
    """A shape with its parts and its rule, of 2 to 64 effects."""
    while True:
        name = dice.pick(list(SHAPES))
        parts = draw_parts(dice, name, 8, 6)
        rule = build_rule(name, parts)
        if 2 <= len(effects_of(rule, EFFECTS)) <= EFFECTS:
            return name, parts, rule


def draw_symbol(dice, commands, procedures):
    if dice.chance(0.6):
        return dice.below(commands)
    return call(dice.pick(procedures))


def draw_body(dice, commands, procedures):
    length = dice.pick([0, 1, 1, 2, 2, 3, 3, 4])
    if dice.chance(0.3):                    # no calls
        return [dice.below(commands) for _ in range(length)]
    return [draw_symbol(dice, commands, procedures) for _ in range(length)]


def draw_procedures(dice, commands):
    """The bytes of a small procedure set over the commands of a rule."""
    procedures = dice.shuffled(range(32))[:dice.between(1, 6)]
    records = []
    for p in procedures:
        owner = FIELD if dice.chance(0.45) else STATION
        records += [record(p, owner, *draw_body(dice, commands, procedures))
                    for _ in range(dice.pick([1, 2, 3, 3, 4, 5]))]
    return b"".join(dice.shuffled(records))


def draw_form(dice, commands, procedures):
    """A form: mostly short, with symbols of the rule and the set."""
    if dice.chance(0.1):                    # any symbols
        return bytes(dice.pick([dice.below(16), call(dice.below(32))])
                     for _ in range(dice.between(1, 4)))
    return bytes(draw_symbol(dice, commands, procedures)
                 for _ in range(dice.pick([0, 1, 1, 2, 2, 3, 4, 5])))


def draw_target(dice, t):
    style = dice.below(8)
    if style < 3:
        return t.breaking
    if style == 3:
        return dice.pick([0, (1 << t.count) - 1, 2 ** 64 - 1])
    if style == 4:                          # one effect
        return 1 << dice.below(t.count)
    if style == 5:                          # any numbers, effects or not
        return mask_of(k for k in range(64) if dice.chance(0.5))
    part = dice.pick([0.3, 0.5, 0.8])
    return mask_of(k for k in range(t.count) if dice.chance(part))
