"""Random scripts for a specification."""

from dataclasses import dataclass, field

from soaking.specification import ENVIRONMENT, Group, Process


@dataclass
class Line:
    """A line that is heard: its time, and a signal with values, to a process, to a Pid, or where a path leads."""

    time: int
    signal: object = None
    values: list = field(default_factory=list)
    to: object = None


class ScriptGrower:
    def __init__(self, lot, system, routes):
        self.lot = lot
        self.signals = [it for group in system.all_of(Group) if group.word == "signal" for it in group.items]
        named = set().union(*(process.named() for process in system.processes()))
        self.liked = [it for it in self.signals if it in named] or self.signals
        self.routes = routes
        # Of several processes of one name the first in the text is meant.
        self.processes = list({it.name: it for it in reversed(system.processes())}.values())

    def value(self, sort):
        small = self.lot.randint(0, 9)
        if sort == "Natural":
            return small
        if sort == "Boolean":
            return self.lot.random() < 0.5
        if sort in ("Pid", "PId"):
            return self.lot.choice(["null", "env", "#1", "#2", f"#{small}", "#4294967295"])
        return self.lot.choice([small, small, -small, 63, 2**63 - 1, -(2**63)])

    def lines(self):
        """The lines that are heard, in their order."""
        time, lines = 0, []
        for _ in range(self.lot.choice([0, 4, 8, 8, 12, 12, 16, 16, 24, 24])):
            time += self.lot.choice([0] * 6 + [1] * 4 + [2, 2, 5, 5, 1000 if self.lot.random() < 0.2 else 0])
            lines.append(self.line(time))
        if lines and self.lot.random() < 0.03:
            lines.append(self.line(10**15))
        return lines

    def line(self, time):
        signal = self.lot.choice(self.signals if self.lot.random() < 0.2 else self.liked)
        if self.lot.random() < 0.08:
            return Line(time)
        to = None
        # A path must lead to a process where no receiver is named.
        if not self.routes.of(ENVIRONMENT, signal)[0] or self.lot.random() < 0.4:
            to = self.lot.choice([f"#{self.lot.choice([0, 1, 1, 1, 2, 2, 3, 4])}", *self.processes])
        return Line(time, signal, [self.value(sort) for sort in signal.sorts], to)

    def text(self, lines):
        """The text of a script, with lines among them that say nothing."""
        out = []
        for line in lines:
            if self.lot.random() < 0.1:
                out.append(self.lot.choice(["", " \t", "# nothing", "#"]))
            out.append(self.spelled(line))
        end = self.lot.choice(["\n", "\n", "\n", "\r\n"])
        text = "".join(line + end for line in out)
        return text.rstrip("\r\n") if out and out[-1] and self.lot.random() < 0.1 else text

    def spelled(self, line):
        gap = self.lot.choice(["", "", "", " ", "\t "])
        text = f"{gap}{'0' * (self.lot.random() < 0.05)}{line.time}"
        if line.signal is not None:
            text += f" {gap}{line.signal.name}"
            if line.values:
                text += f"{gap}({gap}" + f"{gap},{gap}".join(map(self.literal, line.values)) + ")"
        if line.to is not None:
            name = line.to.name if isinstance(line.to, Process) else "#" + gap + line.to[1:]
            text += f" {self.lot.choice(['to', 'to', 'TO'])} {name}"
        return text + gap

    def literal(self, value):
        if isinstance(value, str):
            return value
        text = str(value).lower()
        return text.upper() if isinstance(value, bool) and self.lot.random() < 0.1 else text
