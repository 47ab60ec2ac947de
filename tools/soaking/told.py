"""The order of a run with workers, as its text of Z.120 tells it, judged by the trace of the same run.

The text says whose each move is, how many events of its record it has, and of each output whether it was taken. What
these events are the trace knows. A transition may be told in parts, with parts of others between them."""

import re
from collections import deque
from dataclasses import dataclass, field

from soaking.trace import BEGINS, CLOSES, CONSUMED, Trace, demand

MOVE = re.compile(r"(\w+)_(\d+): (.*)")
# A statement of a move. In a comment or an action there may be a semicolon.
STATEMENT = re.compile(r"(?:[^;']|'[^']*')+;")
SENT = re.compile(r"(?<![\w'])out [^;]*?(,m\d+)?(?:\([^;]*\))? to [^;]*;")
LAST = re.compile(r"endmsc; /\* end (\d+) (whole|cut)(; order not known from #(\d+) on)? \*/")
OUTPUT = re.compile(r"  output (\S+) to #(\d+)")
CREATE = re.compile(r"  create \w+ #(\d+)")
ENDS = ("  stop", "  failed")


@dataclass
class Part:
    """A transition or a part of one, or how a record closes: whose it is, how many events it has, and of its outputs
    whether they are taken."""

    own: int
    events: int
    outputs: list[bool]


@dataclass
class Told:
    """The parts, one after the other. And who is stuck."""

    parts: list[Part]
    stuck: int | None


def events_in(text: str) -> int:
    """How many events of a record these statements are: a start has two of them, and so has a failure."""
    statements = STATEMENT.findall(text)
    doubled = [it for it in statements if it.lstrip().startswith(("instance process ", "action 'failed "))]
    return len(statements) - len(doubled)


def read(text: str) -> Told:
    """What a text of Z.120 tells of the order."""
    *lines, last = text.splitlines()
    end = LAST.fullmatch(last)
    demand(end, f"not the last line of a text of Z.120: {last}")
    found = [MOVE.fullmatch(line) for line in lines if MOVE.fullmatch(line)]
    parts = [Part(int(it[2]), events_in(it[3]), [bool(arrow) for arrow in SENT.findall(it[3])]) for it in found]
    return Told(parts, int(end[4]) if end[4] else None)


@dataclass
class Move:
    """A transition, or how a record closes: when it begins, if it does, and its lines that aren't told."""

    time: int | None
    lines: list[str]


def moves_of(lines: list[str]) -> deque[Move]:
    moves: deque[Move] = deque()
    for line in lines:
        begins = BEGINS.fullmatch(line)
        if begins or CLOSES.fullmatch(line):
            moves.append(Move(int(begins[1]) if begins else None, [line]))
        else:
            moves[-1].lines.append(line)
    return moves


@dataclass
class Replay:
    """The records of a run, told one after the other: who has begun, who has ended, and what waits."""

    left: dict[int, deque[Move]]
    timers: set[tuple[int, str]]
    # Whether a number may be known before its instance is created: from the script.
    knows_numbers: bool
    begun: set[int]
    ended: set[int] = field(default_factory=set)
    waiting: dict[tuple[int, int, str], deque[tuple[str, list[bool]]]] = field(default_factory=dict)

    @classmethod
    def of(cls, trace: Trace, knows_numbers: bool) -> "Replay":
        sets = [(it.number, line.split()[1]) for it in trace.records for line in it.lines if line.startswith("  set ")]
        left = {it.number: moves_of(it.lines) for it in trace.records}
        return cls(left, set(sets), knows_numbers, {it.number for it in trace.records if it.parent == "null"})

    def hinders(self, own: int, line: str) -> str | None:
        """Why an instance can't do this now, if it can't."""
        if own not in self.begun:
            return f"#{own} isn't created"
        if own in self.ended:
            return f"#{own} has ended"
        taken = self.taken(own, line)
        if taken is not None:
            first = next(iter(self.waiting.get(taken[0], ())), None)
            return None if first and first[0] == taken[1] else f"#{own} takes what isn't sent: {line}"
        sent = OUTPUT.fullmatch(line)
        if sent and int(sent[2]) not in self.begun and not self.knows_numbers:
            return f"#{own} sends before its receiver is created: {line}"
        return None

    def taken(self, own: int, line: str) -> tuple[tuple[int, int, str], str] | None:
        """Whose row a line takes from, and the signal with its values; nothing of the environment or of a timer, whose
        signal comes from the instance itself. A signal of another may have the name of a timer."""
        took = CONSUMED.fullmatch(line)
        if not took or took[4] == "env" or (took[4] == f"#{own}" and (own, took[3]) in self.timers):
            return None
        return (int(took[4][1:]), own, took[3].partition("(")[0]), took[3]

    def do(self, own: int, line: str) -> list[bool] | None:
        """Does it. Of an output whether it's taken, once that is known."""
        taken = self.taken(own, line)
        if taken is not None:
            self.waiting[taken[0]].popleft()[1].append(True)
        if made := CREATE.fullmatch(line):
            self.begun.add(int(made[1]))
        begins = BEGINS.fullmatch(line)
        if line.startswith(ENDS) or (begins and begins[2].startswith("failed")):
            self.ended.add(own)
        if line.startswith("  output "):
            return self.put(own, line)
        return None

    def put(self, own: int, line: str) -> list[bool]:
        fate: list[bool] = []
        sent = OUTPUT.fullmatch(line)
        if sent and int(sent[2]) in self.begun and int(sent[2]) not in self.ended:
            row = (own, int(sent[2]), sent[1].partition("(")[0])
            self.waiting.setdefault(row, deque()).append((sent[1], fate))
        return fate

    def tell(self, part: Part) -> list[list[bool]]:
        """Tells the next events of an instance, all of one transition, as an order has it: nothing hinders one."""
        own, left = part.own, self.left.get(part.own)
        demand(left, f"the order has a move of #{own} that the trace doesn't have")
        lines = left[0].lines
        demand(part.events <= len(lines), f"a move of #{own} has {part.events} events, of which {len(lines)} are left")
        fates = []
        for _ in range(part.events):
            line = lines.pop(0)
            why = self.hinders(own, line)
            demand(why is None, f"by the order {why}")
            fate = self.do(own, line)
            fates += [] if fate is None else [fate]
        if not lines:
            left.popleft()
        return fates

    def goes_on(self, own: int) -> bool:
        """Whether the next event of an instance is one with which a transition goes on."""
        left = self.left.get(own)
        return bool(left) and not BEGINS.fullmatch(left[0].lines[0]) and not CLOSES.fullmatch(left[0].lines[0])


def judge(told: Told, trace: Trace, knows_numbers: bool) -> int:
    """Demands of an order what it promises. How often a transition goes on in it, once others were told."""
    replay, known, latest, went_on = Replay.of(trace, knows_numbers), [], 0, 0
    for part in told.parts:
        own = part.own
        moves = replay.left.get(own)
        time = moves[0].time if moves else None
        demand(time is None or latest <= time, f"by the order #{own} goes back in time to {time}")
        latest = latest if time is None else time
        went_on += replay.goes_on(own)
        fates = replay.tell(part)
        outputs = len(part.outputs)
        demand(len(fates) == outputs, f"a move of #{own} has {outputs} outputs, and not {len(fates)}")
        known += zip([own] * len(fates), fates, part.outputs)
    for own, fate, is_taken in known:
        demand(is_taken == bool(fate), f"an output of #{own} is told as {'taken' if is_taken else 'lost'}")
    demand(told.stuck is None, f"the order isn't known from #{told.stuck} on")
    lost = [own for own, moves in replay.left.items() if moves]
    demand(not lost, f"the order has lost events of {', '.join(f'#{own}' for own in lost)}")
    return went_on
