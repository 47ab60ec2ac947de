"""Random transitions of a process."""

from soaking.expressions import Sight, kind_of
from soaking.specification import Process
from soaking.transitions import (
    Answer, Body, Create, Decision, Joined, Literal, Named, Output, Reset, Set, Task, Terminator,
)  # fmt: skip
from soaking.values import Failure, value_of


class Bodies:
    """Draws transitions. Those that the start can reach have no `nextstate -`; its joins lead to such alone."""

    def __init__(self, lot, speaker, process, seen, routes):
        self.lot = lot
        self.speaker = speaker
        self.process = process
        self.routes = routes
        words = ("now", "self", "parent", "offspring", "sender")
        self.sight = Sight([*seen.synonyms.values(), *process.variables], process.timers, words)
        self.constants = Sight(list(seen.synonyms.values()))
        self.signals = [it for it in seen.signals.values() if not it.is_timer]
        self.agents = [it for it in seen.agents.values() if isinstance(it, Process)]
        self.labels = []
        self.joins = []

    def often(self, part):
        return self.lot.random() < part

    def label(self, at_start):
        """A new label, in a transition that the start may reach or not."""
        turn = len(self.labels)
        names = self.process.states
        self.labels.append((names[turn] if turn < len(names) and self.often(0.1) else f"l{turn}", at_start))
        return self.labels[-1][0]

    def whole(self, at_start):
        """A transition all of whose paths end."""
        return self.body(at_start, 2, True)

    def body(self, at_start, depth, must_end):
        statements = []
        for _ in range(self.lot.choice([0, 1, 1, 2, 2, 3])):
            statements += self.statements(at_start, depth)
        if must_end and depth and self.often(0.12):
            statements.append(self.decision(at_start, depth, True))
            return Body(statements)
        end = self.terminator(at_start) if must_end or self.often(0.15) else None
        if end is not None and self.often(0.05):
            end.label = self.label(at_start)
        return Body(statements, end)

    def terminator(self, at_start):
        if self.often(0.1):
            join = Terminator("join")
            self.joins.append((join, at_start, len(self.labels)))
            return join
        if self.often(0.03 if at_start else 0.08):
            return Terminator("stop")
        if not at_start and self.often(0.4):
            return Terminator("nextstate", "-")
        return Terminator("nextstate", self.lot.choice(self.process.states))

    def lead_joins(self):
        """Gives each join a label: mostly one that came later, so that few go round in a circle."""
        for join, at_start, before in self.joins:
            labels = [(name, turn) for turn, (name, starts) in enumerate(self.labels) if starts or not at_start]
            later = [name for name, turn in labels if turn >= before]
            if later:
                join.name = self.lot.choice(later)
            elif labels and self.often(0.1):
                join.name = self.lot.choice(labels)[0]
            else:
                join.word, join.name = "nextstate", self.lot.choice(self.process.states)

    # ---- statements

    def statements(self, at_start, depth):
        kinds = ["task"] * 4 + ["output"] * 5 + ["set"] * 3 + ["reset"] * 2 + ["decision"] * 2 + ["create", "loop"]
        draw = self.lot.choice(kinds)
        made = {
            "task": self.task,
            "output": self.output,
            "set": self.set,
            "reset": self.reset,
            "create": self.create,
            "loop": lambda: self.loop(at_start),
            "decision": lambda: [self.decision(at_start, depth, False)] if depth else [],
        }[draw]()
        if made and made[0].label is None and self.often(0.05):
            made[0].label = self.label(at_start)
        return made

    def values(self, sorts):
        return [self.speaker.of(sort, self.sight) for sort in sorts]

    def task(self):
        variables = [self.lot.choice(self.process.variables) for _ in range(self.lot.choice([1, 1, 1, 2, 3]))]
        return [Task([(variable, self.speaker.of(variable.sort, self.sight)) for variable in variables])]

    def loop(self, at_start):
        """A statement that is done again as long as a number is small: a label, a decision and a join."""
        numbers = [it for it in self.process.variables if it.sort == "Integer"]
        if not numbers:
            return []
        counter, label = self.lot.choice(numbers), self.label(at_start)
        step = Task([(counter, Joined(Named(counter), "+", Literal(self.lot.randint(1, 3))))], label)
        again = Body([], Terminator("join", label))
        return [step, Decision(Named(counter), [([Answer("<", Literal(self.lot.randint(1, 9)))], again)], Body([]))]

    def output(self):
        """An output of signals that paths lead, or with a destination; mostly of such as somebody inputs."""
        to = None
        signals = [it for it in self.signals if self.routes.leads(self.process, it)]
        liked = [it for it in signals if self.routes.of(self.process, it)[0]]
        if not signals or self.often(0.4):
            signals = liked = self.signals
            to = self.speaker.of("Pid", self.sight)
            if self.often(0.4):
                to = self.lot.choice(self.agents)
                liked = [it for it in signals if it in to.named()]
        if not signals:
            return []
        wanted = liked if liked and self.often(0.7) else signals
        chosen = [self.lot.choice(wanted) for _ in range(self.lot.choice([1, 1, 1, 2]))]
        return [Output([(signal, self.values(signal.sorts)) for signal in chosen], to)]

    def timer(self):
        timer = self.lot.choice(self.process.timers)
        return timer, self.values(timer.sorts)

    def set(self):
        if not self.process.timers:
            return []
        clauses = []
        for _ in range(self.lot.choice([1, 1, 1, 2])):
            timer, values = self.timer()
            has_time = timer.default is None or self.often(0.4)
            clauses.append((self.speaker.of("Time", self.sight) if has_time else None, timer, values))
        return [Set(clauses)]

    def reset(self):
        if not self.process.timers:
            return []
        groups = [self.lot.choice([1, 1, 2]) for _ in range(self.lot.choice([1, 1, 2]))]
        return [Reset([[self.timer() for _ in range(number)] for number in groups])]

    def create(self):
        process = self.lot.choice(self.agents)
        return [Create(process, self.values([it.sort for it in process.parameters]))]

    # ---- decisions

    def decision(self, at_start, depth, must_end):
        sort = self.lot.choice(["Integer", "Integer", "Boolean", "Pid", "Time", "Duration"])
        question = self.speaker.of(sort, self.sight)
        parts = []
        for _ in range(self.lot.choice([1, 2, 2, 3])):
            answers = [self.answer(sort) for _ in range(self.lot.choice([1, 1, 2]))]
            parts.append((answers, self.body(at_start, depth - 1, must_end)))
        otherwise = self.body(at_start, depth - 1, must_end) if self.often(0.92) else None
        return Decision(question, parts, otherwise)

    def answer(self, sort):
        if kind_of(sort) in ("Boolean", "Pid"):
            mark = self.lot.choice([None, None, "=", "/="])
        else:
            mark = self.lot.choice([None, None, ":", ":", "=", "/=", "<", "<=", ">", ">="])
        return Answer(mark, self.settled(sort), self.settled(sort) if mark == ":" else None)

    def settled(self, sort):
        """A constant that has a value."""
        while True:
            expression = self.speaker.of(sort, self.constants, 1)
            try:
                value_of(expression, None)
            except Failure:
                continue
            return expression
