"""The ports of a run: each signal that was taken was put, and each take is one of the port of the standard.

What a state does with a signal goes by the signal's name. So of each name the first that was put is the first that is
taken, and from takes and puts it follows which put came before which: a run has the report if all these pairs together
leave an order. No order has to be tried."""

from collections import defaultdict
from dataclasses import dataclass, field

from judging.order import Order
from judging.replay import Sent, Step, Story, TimerSet, Wait
from soaking.specification import Signal
from soaking.trace import Wrong

BEFORE = "{}: line `{}`, though {} is in the port before it"
FIRST = "{}: line `{}`, though {} is in the port and comes first"
WAITS = "{}: line `{}`, though {} is in the port"
TAKEN = "{}: line `{}`, before it can have been sent"


@dataclass(eq=False)
class Item:
    """What was put into a port: where it stands in the order, when it came, and in which step it was taken."""

    what: Sent | TimerSet
    point: int
    time: int
    taken: int | None = None


@dataclass
class Queue:
    """All items of one name: those that are taken, in the order in which they are, and those that stay."""

    taken: list[Item] = field(default_factory=list)
    stay: list[Item] = field(default_factory=list)
    at: int = 0
    before_stay: int | None = None

    def head(self) -> tuple[int, Item] | None:
        """The next item, with a point that comes before all that are there."""
        if self.at < len(self.taken):
            return self.taken[self.at].point, self.taken[self.at]
        return (self.before_stay, self.stay[0]) if self.stay else None


def matched(story: Story, sent: list[Sent]) -> list[Item]:
    """The items that came into the port of an instance, each with the step in which it is taken. What a sender sent of
    one name is taken in its order."""
    items, waiting = [], defaultdict(list)
    for one in sent:
        items.append(Item(one, one.point, one.time))
        waiting[one.sender, one.signal].append(items[-1])
    used = defaultdict(int)
    for turn, step in enumerate(story.steps):
        if step.signal is not None and step.timer is None:
            stream = waiting[step.sender, step.signal]
            number = used[step.sender, step.signal]
            used[step.sender, step.signal] += 1
            story.demand(number < len(stream), f"line `{step.line}`: {missing(step, stream)}")
            item = stream[number]
            is_it = item.what.values == step.values
            story.demand(is_it, f"line `{step.line}`: the next one of this name is {item.what}")
            story.demand(item.time <= step.time, f"line `{step.line}`: it is sent at {item.time}")
            item.taken = turn
    return items


def missing(step: Step, stream: list[Item]) -> str:
    is_sent = any(item.what.values == step.values for item in stream)
    return f"{step.sender} didn't send it so often" if is_sent else f"{step.sender} didn't send it"


@dataclass
class Port:
    """The port of one instance, from step to step."""

    story: Story
    items: list[Item]
    order: Order
    queues: dict[Signal, Queue] = field(default_factory=dict)
    pending: list[Item] = field(default_factory=list)

    def __post_init__(self):
        self.items += [
            Item(it, it.point if it.is_at_once else it.expired, it.expires_at, it.last if it.is_taken else None)
            for it in self.story.sets
            if it.is_at_once or it.expired is not None
        ]
        for item in self.items:
            self.sort(item)
        for queue in self.queues.values():
            queue.taken.sort(key=lambda item: item.taken)
            queue.before_stay = self.order.point()
            for item in queue.stay:
                self.order.put(queue.before_stay, item.point, is_cause=False)
            queue.stay.sort(key=lambda item: item.time)

    def sort(self, item: Item) -> None:
        """Timers that were reset while they waited are apart: they may go in another order than they came."""
        if isinstance(item.what, TimerSet) and item.taken is None:
            self.pending.append(item)
            return
        signal = item.what.key[0] if isinstance(item.what, TimerSet) else item.what.signal
        queue = self.queues.setdefault(signal, Queue())
        (queue.stay if item.taken is None else queue.taken).append(item)

    def judge(self, end: int | None) -> None:
        """Each step after the other; at the end the instance rests, if all that came by this time is known."""
        steps, time = self.story.steps, self.story.birth.time
        for turn, step in enumerate(steps):
            if step.wait is not None:
                if step.time > time:
                    self.demand_rest(step.wait, turn, step.time)
                self.look(turn, step)
            time = step.time
        if not self.story.ended and self.story.wait is not None and end is not None and end > time:
            self.demand_rest(self.story.wait, len(steps), end)

    def here(self, turn: int):
        """What may be in the port before a step, each with a point before it, by its signal."""
        for signal, queue in self.queues.items():
            head = queue.head()
            if head is not None:
                yield signal, *head
        for item in self.pending:
            timer = item.what
            if timer.first < turn and (timer.last is None or turn <= timer.last):
                yield timer.key[0], item.point, item

    def demand_rest(self, wait: Wait, turn: int, time: int) -> None:
        """The clock moves to this time, so the instance rests, and whatever came before stays in the port."""
        self.story.demand(not wait.acts(), f"rests in state {wait.state}, but {wait.told()}")
        for signal, _, item in self.here(turn):
            if item.time < time and not wait.saves(signal):
                self.story.demand(False, f"waits in state {wait.state} though {item.what} is in its port")

    def look(self, turn: int, step: Step) -> None:
        """What a step says of the items that are in the port before it."""
        item = None
        if step.signal is not None:
            queue = self.queues[step.signal]
            item = queue.taken[queue.at]
            queue.at += 1
            self.order.put(item.point, step.point, (TAKEN, self.story.name, step.line))
        elif not step.finds_nothing:
            return
        for signal, point, other in self.here(turn):
            kind = step.wait.reaction(signal).kind
            if kind != "save" and (step.kind != "priority" or kind == "priority"):
                self.pair(step, item, kind, point, other)

    def pair(self, step: Step, item: Item | None, kind: str, point: int, other: Item) -> None:
        """Another item, which the state takes, comes into the port after the one that is taken, or after the step."""
        if item is None:
            self.order.put(step.point, point, (WAITS, self.story.name, step.line, other.what), False)
        elif kind == "priority" and step.kind != "priority":
            self.order.put(step.point, point, (FIRST, self.story.name, step.line, other.what), False)
        else:
            self.order.put(item.point, point, (BEFORE, self.story.name, step.line, other.what), False)

    def demand_rest_before(self, turn: int, later: set[int]) -> None:
        """The instance rests before a step, with all in its port that didn't come later than this."""
        wait = self.story.steps[turn].wait if turn < len(self.story.steps) else self.story.wait
        self.story.demand(not wait.acts(), f"rests in state {wait.state}, but {wait.told()}")
        for item in self.items:
            timer = item.what if isinstance(item.what, TimerSet) else None
            is_here = item.point not in later and (item.taken is None or item.taken >= turn)
            if timer is not None:
                is_here = is_here and timer.first < turn and (timer.last is None or turn <= timer.last)
            signal = item.what.signal if timer is None else timer.key[0]
            if is_here and not wait.saves(signal):
                raise Wrong(f"{self.story.name}: the script goes on though {item.what} is in its port")
