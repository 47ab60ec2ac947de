"""Random expressions of a wanted kind. A number without a sort, of literals alone, fits each place of a number."""

from dataclasses import dataclass, field

from soaking.transitions import Active, Inner, Joined, Literal, Named, Own, Signed

KINDS = {"Natural": "Integer", "PId": "Pid"}
NUMBERS = ("Integer", "Time", "Duration")
STRENGTH = {
    "=>": 1, "or": 2, "xor": 2, "and": 3, "=": 4, "/=": 4, "<": 4, "<=": 4, ">": 4, ">=": 4,
    "+": 5, "-": 5, "*": 6, "/": 6, "mod": 6, "rem": 6,
}  # fmt: skip


def kind_of(sort):
    return KINDS.get(sort, sort)


@dataclass
class Sight:
    """What expressions may name at some place: synonyms and variables, timers, and words for the instance itself."""

    things: list
    timers: list = field(default_factory=list)
    words: tuple = ()

    def of_kind(self, kind):
        return [thing for thing in self.things if kind_of(thing.sort) == kind]


def strength(expression):
    if isinstance(expression, Joined):
        return STRENGTH[expression.mark]
    return 7 if isinstance(expression, Signed) else 8


class Speaker:
    """Draws expressions by lot."""

    def __init__(self, lot):
        self.lot = lot

    def often(self, part):
        return self.lot.random() < part

    def joined(self, left, mark, right):
        """Both operands, in parentheses where they need them, and now and then where they don't."""
        if strength(left) < STRENGTH[mark] or self.often(0.05):
            left = Inner(left)
        if strength(right) <= STRENGTH[mark] or self.often(0.05):
            right = Inner(right)
        return Joined(left, mark, right)

    def signed(self, mark, operand):
        return Signed(mark, operand if strength(operand) == 8 and not self.often(0.05) else Inner(operand))

    def literal(self):
        rare = [0, 63, 64, 100, 2**31, 2**62, 2**63 - 1]
        return Literal(self.lot.choice(rare) if self.often(0.03) else self.lot.randint(0, 9))

    def of(self, sort, sight, depth=2):
        """An expression that fits a place of this sort."""
        kind = kind_of(sort)
        if sort == "Natural" and self.often(0.85):
            return self.natural(sight)
        if kind in NUMBERS:
            return self.number(kind, sight, depth)
        return self.truth(sight, depth) if kind == "Boolean" else self.pid(sight)

    def number(self, kind, sight, depth):
        if depth == 0 or self.often(0.45):
            return self.sorted_leaf(kind, sight) if self.often(0.7) else self.free(depth)
        if self.often(0.08) and kind != "Time":
            return self.signed("-", self.number(kind, sight, depth - 1))
        if kind == "Time":
            return self.time(sight, depth)
        if kind == "Duration":
            return self.duration(sight, depth)
        mark = self.lot.choice(["+", "+", "-", "-", "*", "/", "mod", "rem"])
        right = self.number(kind, sight, depth - 1)
        if mark in ("/", "mod", "rem") and self.often(0.8):
            right = Literal(self.lot.randint(1, 5))
        return self.joined(self.number(kind, sight, depth - 1), mark, right)

    def natural(self, sight):
        """An expression that is mostly not negative."""
        leaves = [Named(thing) for thing in sight.things if thing.sort == "Natural"]
        leaf = self.lot.choice([*leaves, self.literal()])
        if self.often(0.7):
            return leaf
        return self.joined(leaf, self.lot.choice(["+", "/", "mod", "rem"]), Literal(self.lot.randint(1, 5)))

    def sorted_leaf(self, kind, sight):
        """A leaf that has this sort of number, or a literal where there is none."""
        leaves = [Named(thing) for thing in sight.of_kind(kind)]
        if kind == "Time" and "now" in sight.words:
            leaves += [Own("now")] * (1 + len(leaves))
        return self.lot.choice(leaves) if leaves else self.literal()

    def free(self, depth):
        if depth == 0 or self.often(0.8):
            return self.literal() if self.often(0.9) else self.signed("-", self.literal())
        return self.joined(self.free(depth - 1), self.lot.choice("+-*"), self.free(depth - 1))

    def time(self, sight, depth):
        """A time and a duration; without a time that has its sort, a number alone."""
        base = self.sorted_leaf("Time", sight)
        if isinstance(base, Literal):
            return self.free(depth)
        span = self.number("Duration", sight, depth - 1)
        if self.often(0.2):
            return self.joined(span, "+", base)
        return self.joined(base, self.lot.choice("++-"), span)

    def duration(self, sight, depth):
        if self.often(0.3):
            later, sooner = self.sorted_leaf("Time", sight), self.sorted_leaf("Time", sight)
            if not isinstance(sooner, Literal):
                return self.joined(later, "-", sooner)
        left, right = (self.number("Duration", sight, depth - 1) for _ in range(2))
        return self.joined(left, self.lot.choice("+-"), right)

    def truth(self, sight, depth):
        leaves = [Named(thing) for thing in sight.of_kind("Boolean")]
        if depth == 0 or self.often(0.15):
            return self.lot.choice(leaves * 2 + [Literal(True), Literal(False)])
        if sight.timers and self.often(0.15):
            timer = self.lot.choice(sight.timers)
            return Active(timer, [self.of(sort, sight, 1) for sort in timer.sorts])
        if self.often(0.15):
            return self.signed("not", self.truth(sight, depth - 1))
        if self.often(0.35):
            mark = self.lot.choice(["and", "or", "xor", "=>", "=", "/="])
            return self.joined(self.truth(sight, depth - 1), mark, self.truth(sight, depth - 1))
        if self.often(0.2):
            return self.joined(self.pid(sight), self.lot.choice(["=", "/="]), self.pid(sight))
        kind = self.lot.choice(["Integer", "Integer", "Time", "Duration"])
        mark = self.lot.choice(["=", "/=", "<", "<=", ">", ">="])
        return self.joined(self.number(kind, sight, depth - 1), mark, self.number(kind, sight, depth - 1))

    def pid(self, sight):
        leaves = [Own(word) for word in sight.words if word != "now"] + [Named(thing) for thing in sight.of_kind("Pid")]
        leaf = Literal("null") if not leaves or self.often(0.15) else self.lot.choice(leaves)
        return Inner(leaf) if self.often(0.03) else leaf
