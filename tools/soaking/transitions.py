"""Transitions as trees, with their expressions, and how they are written."""

from dataclasses import dataclass

from soaking.coverage import Part
from soaking.specification import Process, Signal


@dataclass(eq=False)
class Body:
    """Statements, and a terminator or none. Each may have a label."""

    statements: list
    end: object = None

    def put(self, writer):
        for statement in [*self.statements, *[self.end] * (self.end is not None)]:
            if statement.label is not None:
                writer.put(statement.label, ":")
            statement.put(writer)


@dataclass(eq=False)
class Task:
    pairs: list
    label: object = None

    def put(self, writer):
        writer.put("task")
        writer.listed(self.pairs, lambda pair: put_task(writer, *pair))
        writer.end()


def put_task(writer, variable, value):
    writer.use(variable.name)
    writer.put(":=")
    writer.value(value, variable.sort)


def put_call(writer, callee, values, sorts):
    """A name with its values in parentheses, where it has some."""
    writer.use(callee.name)
    if values:
        writer.put("(")
        writer.listed(list(zip(values, sorts)), lambda place: writer.value(*place))
        writer.put(")")


def put_signal(writer, signal, values):
    put_call(writer, signal, values, signal.sorts)


@dataclass(eq=False)
class Output:
    """Signals with their values, to a process, to the Pid of an expression, or plain."""

    signals: list
    to: object = None
    label: object = None

    def put(self, writer):
        writer.put("output")
        writer.listed(self.signals, lambda pair: put_signal(writer, *pair))
        if self.to is not None:
            writer.put("to")
            writer.use(self.to.name) if isinstance(self.to, Process) else self.to.put(writer)
        writer.end()


@dataclass(eq=False)
class Set:
    """Clauses of a time or none, a timer and its values."""

    clauses: list
    label: object = None

    def put(self, writer):
        writer.put("set")
        writer.listed(self.clauses, lambda clause: self.put_clause(writer, *clause))
        writer.end()

    @staticmethod
    def put_clause(writer, time, timer, values):
        writer.put("(")
        if time is not None:
            writer.value(time, "Time")
            writer.put(",")
        put_signal(writer, timer, values)
        writer.put(")")


@dataclass(eq=False)
class Reset:
    """Groups of timers with their values."""

    groups: list
    label: object = None

    def put(self, writer):
        writer.put("reset")
        writer.listed(self.groups, lambda group: self.put_group(writer, group))
        writer.end()

    @staticmethod
    def put_group(writer, group):
        writer.put("(")
        writer.listed(group, lambda pair: put_signal(writer, *pair))
        writer.put(")")


@dataclass(eq=False)
class Create:
    process: Process
    values: list
    label: object = None

    def put(self, writer):
        writer.put("create")
        put_call(writer, self.process, self.values, [it.sort for it in self.process.parameters])
        writer.end()


@dataclass(eq=False)
class Answer:
    """A value; a comparison, by its mark; or a range, of the mark `:` between two values."""

    mark: object
    first: object
    last: object = None

    def put(self, writer):
        if self.mark not in (None, ":"):
            writer.put(self.mark)
        self.first.put(writer)
        if self.mark == ":":
            writer.put(":")
            self.last.put(writer)


@dataclass(eq=False)
class Decision:
    question: object
    parts: list
    otherwise: object = None
    label: object = None

    def put(self, writer):
        decision = len(writer.shown)
        writer.put("decision")
        self.question.put(writer)
        writer.end()
        parts = [*self.parts, *[(None, self.otherwise)] * (self.otherwise is not None)]
        for number, (answers, body) in enumerate(parts):
            start = len(writer.shown)
            self.put_answers(writer, answers)
            writer.covered.part(Part(start, len(writer.shown), answers is None, body, decision, number))
            writer.put(":")
            body.put(writer)
        writer.put("enddecision")
        writer.end()

    @staticmethod
    def put_answers(writer, answers):
        if answers is None:
            writer.put("else")
            return
        writer.put("(")
        writer.listed(answers, lambda answer: answer.put(writer))
        writer.put(")")


@dataclass(eq=False)
class Terminator:
    """`nextstate` with a state or `-`, `join` with a label, or `stop`."""

    word: str
    name: object = None
    label: object = None

    def put(self, writer):
        writer.put(self.word)
        if self.name == "-":
            writer.put(self.name)
        elif self.name is not None:
            writer.use(self.name, "NoState" if self.word == "nextstate" else "NoLabel")
        writer.end()


# ---- expressions


@dataclass(eq=False)
class Literal:
    """A number, a truth or null."""

    value: object

    def put(self, writer):
        truths = {True: "true", False: "false"}
        writer.put(truths[self.value] if isinstance(self.value, bool) else str(self.value))


@dataclass(eq=False)
class Named:
    """A variable or a synonym."""

    thing: object

    def put(self, writer):
        writer.use(self.thing.name)


@dataclass(eq=False)
class Own:
    """`now`, `self`, `parent`, `offspring` or `sender`."""

    word: str

    def put(self, writer):
        writer.put(self.word)


@dataclass(eq=False)
class Active:
    timer: Signal
    values: list

    def put(self, writer):
        writer.put("active", "(")
        put_signal(writer, self.timer, self.values)
        writer.put(")")


@dataclass(eq=False)
class Signed:
    """`-` or `not` before a primary."""

    mark: str
    operand: object

    def put(self, writer):
        writer.put(self.mark)
        self.operand.put(writer)


@dataclass(eq=False)
class Joined:
    """Two operands with an operator between them; parentheses are no part of it."""

    left: object
    mark: str
    right: object

    def put(self, writer):
        self.left.put(writer)
        writer.put(self.mark)
        self.right.put(writer)


@dataclass(eq=False)
class Inner:
    """An expression in parentheses."""

    expression: object

    def put(self, writer):
        writer.put("(")
        self.expression.put(writer)
        writer.put(")")
