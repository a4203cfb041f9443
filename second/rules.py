"""Order rules, their judgements and their effect tables.

A command is a byte.  A rule of any kind offers:
    commands          C; the commands of the rule are 0 .. C-1
    neutral           effect of the empty list
    effect(command)   effect of one command
    join(a, b)        effect of a list with effect a, then one with effect b
    breaks(effect)    whether the effect breaks the rule
    permits(list)     judgement from the definition, without effects
    walked(list)      effect from the definition, without joins
Effects can be compared and hashed.
"""

from collections import namedtuple

# ---------------------------------------------------------------- refusals

class Refusal(Exception):
    """A thing was refused: a number, a subject and a place."""

    def __init__(self, number, subject, place):
        super().__init__(number, subject, place)
        self.number = number
        self.subject = subject
        self.place = place

    def text(self):
        return "refused %d %s %d" % (self.number, self.subject, self.place)


def refuse_rule(place):
    raise Refusal(5, "rule", place)


# ------------------------------------------------------------------- chart

class Chart:
    """A finite automaton; the effect of a list is a set of pairs (p, q)."""

    STATES = 8
    START = 0
    COMMANDS = 16
    RECORD = 12
    LONGEST = 12288
    ARROW = 0
    FINAL = 1
    FILL = 255

    def __init__(self, data):
        if len(data) % self.RECORD or len(data) > self.LONGEST:
            refuse_rule(len(data) // self.RECORD)
        self.onward = {}        # (state, command) -> set of next states
        self.finals = set()
        for place in range(len(data) // self.RECORD):
            begin = place * self.RECORD
            if not self._enter(data[begin:begin + self.RECORD]):
                refuse_rule(place)
        self.commands = self.COMMANDS
        self.neutral = frozenset((p, p) for p in range(self.STATES))
        self._rows = {}         # effect -> {p: [q, ..]}, kept for speed

    def _enter(self, record):
        """Take in one record; False if its form is broken."""
        if record[0] == self.ARROW:
            start, command, end = record[1], record[2], record[3]
            if start >= self.STATES or command >= self.COMMANDS:
                return False
            if end >= self.STATES:
                return False
            if any(byte != self.FILL for byte in record[4:]):
                return False
            self.onward.setdefault((start, command), set()).add(end)
            return True
        if record[0] == self.FINAL:
            if record[1] >= self.STATES:
                return False
            if any(byte != self.FILL for byte in record[2:]):
                return False
            self.finals.add(record[1])
            return True
        return False

    def effect(self, command):
        return frozenset((p, q) for p in range(self.STATES)
                         for q in self.onward.get((p, command), ()))

    def _row(self, effect):
        rows = self._rows.get(effect)
        if rows is None:
            rows = self._rows[effect] = {}
            for p, q in effect:
                rows.setdefault(p, []).append(q)
        return rows

    def join(self, left, right):
        rows = self._row(right)
        return frozenset([(p, r) for p, q in left for r in rows.get(q, ())])

    def breaks(self, effect):
        return not any((self.START, q) in effect for q in self.finals)

    def step(self, states, command):
        """All states one command further on."""
        after = set()
        for state in states:
            after |= self.onward.get((state, command), set())
        return after

    def reached(self, state, commands):
        """All states that the list can lead to from one state."""
        states = {state}
        for command in commands:
            states = self.step(states, command)
        return states

    def permits(self, commands):
        return bool(self.reached(self.START, commands) & self.finals)

    def walked(self, commands):
        return frozenset((p, q) for p in range(self.STATES)
                         for q in self.reached(p, commands))


# ------------------------------------------------------------------- count

class Count:
    """A sum of weights to a modulus; the effect of a list is its residue."""

    LARGEST = 64
    MOST = 16
    MASK_PLACE = 18

    def __init__(self, modulus, weights, mask):
        if not 1 <= modulus <= self.LARGEST:
            refuse_rule(0)
        if not 1 <= len(weights) <= self.MOST:
            refuse_rule(1)
        for index, weight in enumerate(weights):
            if weight >= modulus:
                refuse_rule(2 + index)
        if mask >> modulus:
            refuse_rule(self.MASK_PLACE)
        self.modulus = modulus
        self.weights = tuple(weights)
        self.allowed = {r for r in range(modulus) if mask >> r & 1}
        self.commands = len(weights)
        self.neutral = 0

    def effect(self, command):
        return self.weights[command]

    def join(self, left, right):
        return (left + right) % self.modulus

    def breaks(self, effect):
        return effect not in self.allowed

    def permits(self, commands):
        return self.walked(commands) in self.allowed

    def walked(self, commands):
        return sum(self.weights[c] for c in commands) % self.modulus


# -------------------------------------------------------------------- pair

class Pair:
    """Two rules at once; effects are pairs, joined side by side."""

    def __init__(self, left, right):
        self.left = left
        self.right = right
        self.commands = min(left.commands, right.commands)
        self.neutral = (left.neutral, right.neutral)

    def effect(self, command):
        return (self.left.effect(command), self.right.effect(command))

    def join(self, left, right):
        return (self.left.join(left[0], right[0]),
                self.right.join(left[1], right[1]))

    def breaks(self, effect):
        return self.left.breaks(effect[0]) or self.right.breaks(effect[1])

    def permits(self, commands):
        return self.left.permits(commands) and self.right.permits(commands)

    def walked(self, commands):
        return (self.left.walked(commands), self.right.walked(commands))


# ------------------------------------------------------------- effect table

EFFECTS = 64

Table = namedtuple("Table", "count commands numbers joins breaking")


def effects_of(rule, most):
    """The effects in the order in which they are met.

    Stops with most + 1 effects as soon as there are more than most.
    """
    letters = [rule.effect(c) for c in range(rule.commands)]
    found = [rule.neutral]
    known = {rule.neutral}
    at = 0
    while at < len(found):
        for letter in letters:
            new = rule.join(found[at], letter)
            if new not in known:
                known.add(new)
                found.append(new)
                if len(found) > most:
                    return found
        at += 1
    return found


def table(rule, room):
    """The effect table in the offered room.  The room is looked at first."""
    if room < EFFECTS:
        raise Refusal(7, "effects", room)
    found = effects_of(rule, EFFECTS)
    if len(found) > EFFECTS:
        raise Refusal(6, "effects", EFFECTS)
    number = {effect: k for k, effect in enumerate(found)}
    return Table(
        count=len(found),
        commands=rule.commands,
        numbers=[number[rule.effect(c)] for c in range(rule.commands)],
        joins=[[number[rule.join(a, b)] for b in found] for a in found],
        breaking=sum(1 << k for k, e in enumerate(found) if rule.breaks(e)))


# --------------------------------------------------------------- judgement

PERMITTED = "permitted"
FORBIDDEN = "forbidden"
NEITHER = "neither"


def judge(rule, commands):
    if any(c >= rule.commands for c in commands):
        return NEITHER
    return PERMITTED if rule.permits(commands) else FORBIDDEN
