"""What expressions come to: numbers, truths, and Pids, which are texts here (`null`, `env`, `#1`)."""

from soaking.specification import Synonym
from soaking.transitions import Active, Inner, Joined, Literal, Named, Own, Signed

LEAST, GREATEST = -(2**63), 2**63 - 1


class Failure(Exception):
    """Why there is no value, as a trace says it."""


def ranged(number):
    if not LEAST <= number <= GREATEST:
        raise Failure("Overflow")
    return number


def divided(mark, left, right):
    if right == 0:
        raise Failure("ZeroDivisor")
    quotient = abs(left) // abs(right) * (1 if (left < 0) == (right < 0) else -1)
    return {"/": quotient, "rem": left - quotient * right, "mod": left % abs(right)}[mark]


OPERATORS = {
    "+": lambda left, right: ranged(left + right),
    "-": lambda left, right: ranged(left - right),
    "*": lambda left, right: ranged(left * right),
    "/": lambda left, right: ranged(divided("/", left, right)),
    "mod": lambda left, right: ranged(divided("mod", left, right)),
    "rem": lambda left, right: ranged(divided("rem", left, right)),
    "=": lambda left, right: left == right,
    "/=": lambda left, right: left != right,
    "<": lambda left, right: left < right,
    "<=": lambda left, right: left <= right,
    ">": lambda left, right: left > right,
    ">=": lambda left, right: left >= right,
    "and": lambda left, right: left and right,
    "or": lambda left, right: left or right,
    "xor": lambda left, right: left != right,
    "=>": lambda left, right: not left or right,
}


def value_of(expression, knows):
    """The value of an expression for one who knows variables, Pids, the time, and which timers are active."""
    match expression:
        case Literal(value):
            return value
        case Named(Synonym() as synonym):
            return synonym.value
        case Named(variable):
            return knows.variable(variable)
        case Own(word):
            return knows.own(word)
        case Active(timer, values):
            return knows.active(timer, values_at(values, timer.sorts, knows))
        case Inner(inner):
            return value_of(inner, knows)
        case Signed(mark, operand):
            value = value_of(operand, knows)
            return not value if mark == "not" else ranged(-value)
        case Joined():
            return value_of_chain(expression, knows)


def value_of_chain(expression, knows):
    """The value of operands with operators between them, which group to the left."""
    rest = []
    while isinstance(expression, Joined):
        rest.append((expression.mark, expression.right))
        expression = expression.left
    value = value_of(expression, knows)
    for mark, right in reversed(rest):
        value = OPERATORS[mark](value, value_of(right, knows))
    return value


def at(sort, value):
    """The value at a place of this sort."""
    if sort == "Natural" and value < 0:
        raise Failure("NotNatural")
    return value


def values_at(expressions, sorts, knows):
    """The values from left to right, each at its place."""
    return tuple(at(sort, value_of(expression, knows)) for expression, sort in zip(expressions, sorts))


def meets(answer, value):
    """Whether a value meets an answer, whose own values are constants."""
    first = value_of(answer.first, None)
    if answer.mark == ":":
        return first <= value <= value_of(answer.last, None)
    return OPERATORS[answer.mark or "="](value, first)


def place_of_answer(node, value):
    """Where a decision goes on that asks for a value."""
    for answers, place in node["parts"]:
        if any(meets(answer, value) for answer in answers):
            return place
    if node["else"] is None:
        raise Failure("NoAnswer")
    return node["else"]


def told(value):
    """A value as a trace has it."""
    return str(value).lower() if isinstance(value, bool) else str(value)


def signal_text(signal, values):
    return signal.name + ("(" + ",".join(map(told, values)) + ")" if values else "")
