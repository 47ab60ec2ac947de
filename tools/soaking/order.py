"""The order of a run: what `--lines` and `--json` say of it. The reference keeps it while it makes the run, so it knows
who took what, and need not find that out."""

import json
from dataclasses import dataclass, field


def of_value(value):
    """A value of SDL as one of JSON: numbers, truths, and Pids, which are texts."""
    return None if value == "null" else value


def of_values(values):
    return [of_value(value) for value in values]


@dataclass(eq=False)
class Move:
    """A transition: how its object opens, what it does, and its lines, each with what it says of it."""

    opening: dict
    deeds: list = field(default_factory=list)
    lines: list = field(default_factory=list)

    def json(self):
        return written({**self.opening, "does": self.deeds})

    def text(self):
        return "".join(line + fate(deed) + "\n" for line, deed in self.lines)


@dataclass(eq=False)
class Sending:
    """A signal of the script, among the transitions: it is told if nobody takes it."""

    time: int
    head: str
    deed: dict
    taken: bool = False

    def json(self):
        return "" if self.taken else written({"at": self.time, **self.deed})

    def text(self):
        return "" if self.taken else f"{self.time} env output {self.head} to {self.deed['to']}{fate(self.deed)}\n"


@dataclass
class Order:
    """The transitions so far, how many arrows there are, and how many signals of the environment were taken. Signals of
    the script are among the transitions."""

    moves: list = field(default_factory=list)
    arrows: int = 0
    heard: int = 0

    def begin(self, time, instance, text, **opening):
        """A transition of an instance begins."""
        head = {"at": time, "instance": instance.number, "process": instance.process.name}
        move = Move({**head, **opening})
        move.lines.append((f"{time} {instance.name} {instance.process.name} {text}", {}))
        self.moves.append(move)

    def do(self, text, **deed):
        """What the last transition does; what it sends is told where it goes by `take` and `lose`."""
        self.moves[-1].deeds.append(deed)
        self.moves[-1].lines.append((text, deed))
        return deed

    def send(self, time, head, signal, values, target):
        """The environment sends a signal; what becomes of it is told by `take` and `lose`."""
        sending = Sending(time, head, {"lost": signal, "values": of_values(values), "to": of_value(target)})
        self.moves.append(sending)
        return sending

    def take(self, entry):
        """The arrow of what is taken, if an instance sent it."""
        self.heard += entry.sender == "env"
        if entry.sending is not None:
            entry.sending.taken = True
        if entry.deed is None:
            return {}
        self.arrows += 1
        entry.deed["arrow"] = self.arrows
        return {"arrow": self.arrows}

    def told(self, run):
        """The two texts of a run that was made: that of `--lines` and that of `--json`."""
        for it in run.instances:
            for entry in it.port:
                if entry.deed is not None:
                    entry.deed["waits"] = True
                if entry.sending is not None:
                    entry.sending.deed["waits"] = True
        return self.lines(run), self.json(run)

    def lines(self, run):
        closed = [f"{it.name} {it.process.name} {run.word} {it.position}\n" for it in run.instances if it.lives]
        script = f"script: {run.signals} signals, {self.heard} taken\n" if run.signals != self.heard else ""
        return "".join([*(move.text() for move in self.moves), *closed, f"{run.last()}\n", script])

    def json(self, run):
        instances = []
        for it in run.instances:
            head = {"instance": it.number, "process": it.process.name, "parent": of_value(it.parent)}
            instances.append({**head, run.word: it.position} if it.lives else head)
        end = {"end": run.end, "whole": run.word == "rest", "instances": instances}
        return "".join([*(move.json() for move in self.moves), written(end)])


def lose(entry):
    """What is sent to nobody who lives, or waits for one who ends, is gone."""
    if entry.deed is not None:
        entry.deed["gone"] = True
    if entry.sending is not None:
        entry.sending.deed["gone"] = True


def written(what):
    return json.dumps(what, separators=(",", ":")) + "\n"


def fate(deed):
    """What became of what was sent, where nobody took it."""
    return " gone" if "gone" in deed else " waits" if "waits" in deed else ""
