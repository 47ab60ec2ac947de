"""A record, replayed: its process does again what the record says, and must come to just these events.

What can't be known of one record alone is taken from it: which signal came, whom an output reached, and which number a
create gave."""

from dataclasses import dataclass, field

from judging.inputs import values_in
from judging.order import Order
from soaking.specification import Process, Signal
from soaking.tables import Code, Reaction, Table
from soaking.trace import BEGINS, CLOSES, CONSUMED, Record, Wrong
from soaking.transitions import Create, Output, Reset, Set, Task
from soaking.values import Failure, at, place_of_answer, ranged, signal_text, told, value_of, values_at

STATEMENTS = 10_000
DOES = {"input": "an input", "priority": "a priority input", "discard": "nothing", "save": "a save"}


class Ended(Exception):
    """The transition is at its end."""


@dataclass(eq=False)
class Birth:
    """How an instance came to be: who made it, when and with which values; where in the order its number was drawn,
    since when it can be found by its number, and since when it lives for those who look for its process."""

    process: Process
    parent: str = "null"
    time: int = 0
    values: tuple = ()
    drawn: int | None = None
    entered: int | None = None
    lives: int | None = None


@dataclass(eq=False)
class Sent:
    """A signal that was sent, by an output or by the script: to a process, to a Pid, or where a path leads. First is
    looked who lives, if it goes to no Pid, and then it is put into the port."""

    sender: str
    signal: Signal
    values: tuple
    to: Process | str | None
    time: int
    looked: int
    point: int
    target: str | None = None

    def __str__(self) -> str:
        return f"`{signal_text(self.signal, self.values)}` from {self.sender}"


@dataclass(eq=False)
class TimerSet:
    """A set of a timer: in which step, and in which one it was taken, or was reset if it was not."""

    key: tuple
    time: int
    due: int
    point: int
    number: int
    owner: int
    first: int
    last: int | None = None
    is_taken: bool = False
    expired: int | None = None

    def __str__(self) -> str:
        return f"the timer's signal `{signal_text(*self.key)}`"

    @property
    def is_at_once(self) -> bool:
        return self.due <= self.time

    @property
    def expires_at(self) -> int:
        return max(self.due, self.time)


@dataclass(eq=False)
class Asked:
    """A create: of which process, and which number it gave, if it gave one."""

    process: Process
    time: int
    point: int
    number: int | None

    def __str__(self) -> str:
        return f"`create {self.process.name} {'null' if self.number is None else f'#{self.number}'}`"


@dataclass(eq=False)
class Wait:
    """An instance in a state: what it does with each signal, and what it does if there is none to take."""

    state: str
    table: Table
    truths: dict
    failure: str | None
    goes_on: str | None
    known: dict = field(default_factory=dict)

    def reaction(self, signal: Signal) -> Reaction:
        if signal not in self.known:
            self.known[signal] = self.table.reaction(self.state, signal, self.truths)
        return self.known[signal]

    def saves(self, signal: Signal) -> bool:
        return self.reaction(signal).kind == "save"

    def acts(self) -> str | None:
        """What the instance does though nothing comes: it fails, or a continuous signal begins."""
        return self.failure or self.goes_on

    def told(self) -> str:
        return f"the process does `{self.acts()}`" if self.acts() else f"in state {self.state} nothing else can begin"


@dataclass(eq=False)
class Step:
    """A step of an instance, from its first point to its last: what it waited for before it, and what it took, unless
    it took nothing."""

    time: int
    point: int
    last: int
    line: str
    wait: Wait | None = None
    kind: str | None = None
    signal: Signal | None = None
    values: tuple = ()
    sender: str | None = None
    timer: TimerSet | None = None
    finds_nothing: bool = False


@dataclass(eq=False)
class Story:
    """An instance, with all that its record says of it."""

    number: int
    record: Record
    birth: Birth
    steps: list[Step] = field(default_factory=list)
    sent: list[Sent] = field(default_factory=list)
    sets: list[TimerSet] = field(default_factory=list)
    asked: list[Asked] = field(default_factory=list)
    wait: Wait | None = None
    time: int = 0
    ended: bool = False
    last: int | None = None

    @property
    def name(self) -> str:
        return f"#{self.number}"

    @property
    def process(self) -> Process:
        return self.birth.process

    def demand(self, is_so, what: str) -> None:
        if not is_so:
            raise Wrong(f"{self.name}: {what}")


@dataclass
class Plans:
    """The transitions and the states of each process, made when they are asked for."""

    codes: dict[Process, Code] = field(default_factory=dict)
    tables: dict[Process, Table] = field(default_factory=dict)

    def code(self, process: Process) -> Code:
        if process not in self.codes:
            self.codes[process] = Code(process)
        return self.codes[process]

    def table(self, process: Process) -> Table:
        if process not in self.tables:
            self.tables[process] = Table(process)
        return self.tables[process]


class Replay:
    """One record, line by line. Expressions ask it for variables, Pids, the time and active timers."""

    def __init__(self, record: Record, birth: Birth, plans: Plans, find_signal, order: Order):
        self.story = Story(record.number, record, birth, time=birth.time)
        self.code, self.table = plans.code(birth.process), plans.table(birth.process)
        self.find_signal, self.order = find_signal, order
        self.at, self.left = 0, 0
        self.state, self.sender, self.offspring = None, "null", "null"
        self.values = {variable: variable.value for variable in birth.process.variables}
        self.values.update(zip(birth.process.parameters, birth.values))
        self.timers: dict[tuple, TimerSet] = {}
        self.births: dict[int, Birth] = {}
        self.story.last = birth.lives

    # ---- what expressions ask

    def variable(self, variable):
        value = self.values.get(variable)
        if value is None:
            raise Failure("Undefined")
        return value

    def own(self, word: str):
        if word == "now":
            return self.story.time
        parent = self.story.birth.parent
        return {"self": self.story.name, "parent": parent, "offspring": self.offspring, "sender": self.sender}[word]

    def active(self, timer: Signal, values: tuple) -> bool:
        return (timer, values) in self.timers

    # ---- lines

    @property
    def line(self) -> str:
        lines = self.story.record.lines
        return lines[self.at] if self.at < len(lines) else "nothing more"

    def demand(self, is_so, what: str) -> None:
        self.story.demand(is_so, f"line `{self.line.strip()}`: {what}")

    def say(self, text: str, is_whole: bool = True) -> str:
        """The rest of the line, which has to be this, or to begin with it. Memory may be wanting at each."""
        if self.line == "  failed Memory" and not text.startswith("  failed"):
            raise Failure("Memory")
        fits = self.line == text if is_whole else self.line.startswith(text)
        self.demand(fits, f"the process does `{text.strip()}`")
        self.at += 1
        return self.story.record.lines[self.at - 1].removeprefix(text)

    def point(self) -> int:
        """The next point of the step."""
        self.story.last = self.story.steps[-1].last = self.order.point(self.story.last)
        return self.story.last

    # ---- steps

    def go(self) -> Story:
        if self.line != "cut start":
            self.start()
            while not self.story.ended and not CLOSES.fullmatch(self.line):
                self.step()
            if not self.story.ended:
                self.close()
        return self.story

    def begin(self, time: int, **taken) -> None:
        story = self.story
        story.last = self.order.point(story.last)
        story.steps.append(Step(time, story.last, story.last, self.line, story.wait, **taken))
        story.time = time
        self.at += 1

    def start(self) -> None:
        time = self.story.birth.time
        self.demand(self.line == f"{time} start", f"the instance starts at {time}")
        self.begin(time)
        self.transit(self.story.process.start)

    def step(self) -> None:
        begins, wait = BEGINS.fullmatch(self.line), self.story.wait
        self.demand(begins, "no step begins so")
        time, what = int(begins[1]), begins[2]
        if time > self.story.time and what != "failed Memory":
            self.demand(not wait.acts(), f"at {self.story.time} the process does `{wait.acts()}`")
        consumed = CONSUMED.fullmatch(self.line)
        if consumed:
            self.take(time, *consumed.groups()[1:])
        elif what.startswith("failed"):
            self.demand(what in (wait.acts(), "failed Memory"), wait.told())
            self.begin(time, finds_nothing=wait.failure is None and what == wait.acts())
            self.end()
        else:
            self.demand(what == wait.acts(), wait.told())
            self.begin(time, finds_nothing=True)
            self.sender = self.story.name
            self.transit(self.continuous(int(what.split()[1])))

    def continuous(self, number: int):
        return dict(self.table.continuous(self.state))[number].body

    def take(self, time: int, kind: str, text: str, sender: str) -> None:
        """A signal is taken, by what the state does with it."""
        wait = self.story.wait
        self.demand(wait.failure is None, wait.told())
        name, _, rest = text.partition("(")
        signal, values = self.find_signal(sender, name), tuple(values_in(rest.removesuffix(")") if rest else None))
        self.demand(signal is not None, f"{sender} has no signal of this name")
        timer = self.expired(time, signal, values, sender) if signal.is_timer else None
        reaction = wait.reaction(signal)
        self.demand(reaction.kind == kind, f"in state {self.state} the process has {DOES[reaction.kind]} for it")
        self.begin(time, kind=kind, signal=signal, values=values, sender=sender, timer=timer)
        self.sender = sender
        if kind == "discard":
            self.wait()
        else:
            self.transit(reaction.body, zip(reaction.places, values))

    def expired(self, time: int, signal: Signal, values: tuple, sender: str) -> TimerSet:
        """The set of a timer whose signal is taken."""
        self.demand(sender == self.story.name, "a timer's signal is of the instance itself")
        timer = self.timers.pop((signal, values), None)
        self.demand(timer is not None, "the timer is not active")
        self.demand(timer.expires_at <= time, f"the timer is due at {timer.due}")
        timer.last, timer.is_taken = len(self.story.steps), True
        return timer

    def wait(self) -> None:
        """What the instance does in its state from here on."""
        truths, failure, goes_on = {}, None, None
        try:
            truths = self.table.truths(self.state, self)
        except Failure as why:
            failure = f"failed {why}"
        try:
            if failure is None:
                goes_on = self.true_continuous()
        except Failure as why:
            goes_on = f"failed {why}"
        self.story.wait = Wait(self.state, self.table, truths, failure, goes_on)

    def true_continuous(self) -> str | None:
        for number, stimulus in self.table.continuous(self.state):
            if value_of(stimulus.condition, self):
                return f"provided {number}"
        return None

    def close(self) -> None:
        word, state = self.line.split()
        self.demand(state == self.state, f"the instance is in state {self.state}")
        acts = self.story.wait.acts()
        self.demand(word == "cut" or not acts, self.story.wait.told())

    def end(self) -> None:
        """The instance is at its end, and its timers are gone."""
        for timer in self.timers.values():
            timer.last = len(self.story.steps) - 1
        self.timers, self.story.ended = {}, True

    # ---- a transition

    def transit(self, body, received=()) -> None:
        try:
            for variable, value in received:
                if variable is not None:
                    self.values[variable] = at(variable.sort, value)
            place, self.left = self.code.begins[id(body)], STATEMENTS
            while True:
                place = self.visit(place)
        except Failure as failure:
            self.say(f"  failed {failure}")
            self.point()
            self.end()
        except Ended:
            pass

    def visit(self, place: int) -> int:
        """Does what is at a place, and says which place is next."""
        node = self.code.nodes[place]
        if isinstance(node, int):
            return node
        work = {Task: self.task, Output: self.output, Set: self.set, Reset: self.reset, Create: self.create}
        if isinstance(node, dict) or type(node) in work or node.word == "join":
            if self.left == 0:
                raise Failure("TooLong")
            self.left -= 1
        if isinstance(node, dict):
            return self.decide(node)
        if type(node) in work:
            work[type(node)](node)
            return place + 1
        if node.word == "join":
            return self.code.labels[node.name]
        self.terminate(node)
        raise Ended

    def terminate(self, node) -> None:
        if node.word == "stop":
            self.say("  stop")
            self.point()
            self.end()
            return
        self.state = self.state if node.name == "-" else node.name
        self.say(f"  nextstate {self.state}")
        self.wait()

    def decide(self, node: dict) -> int:
        return place_of_answer(node, value_of(node["question"], self))

    def task(self, task: Task) -> None:
        for variable, expression in task.pairs:
            value = at(variable.sort, value_of(expression, self))
            self.say(f"  task {variable.name} := {told(value)}")
            self.values[variable] = value

    def output(self, output: Output) -> None:
        for signal, expressions in output.signals:
            to = output.to
            if to is not None and not isinstance(to, Process):
                to = value_of(to, self)
            values = values_at(expressions, signal.sorts, self)
            target = self.say_output(signal_text(signal, values), to)
            looked, story = self.point(), self.story
            story.sent.append(Sent(story.name, signal, values, to, story.time, looked, self.point(), target))

    def say_output(self, text: str, to: Process | str | None) -> str:
        """The line of an output; whom it reached, which is known if it names a Pid."""
        if isinstance(to, str):
            self.say(f"  output {text} to {to}")
            return to
        return self.say(f"  output {text} to ", False)

    def key(self, timer: Signal, expressions: list) -> tuple:
        return timer, values_at(expressions, timer.sorts, self)

    def cancel(self, key: tuple) -> None:
        timer = self.timers.pop(key, None)
        if timer is not None:
            timer.last = len(self.story.steps) - 1

    def set(self, statement: Set) -> None:
        for time, timer, expressions in statement.clauses:
            due = None if time is None else value_of(time, self)
            key = self.key(timer, expressions)
            if due is None:
                due = ranged(self.story.time + value_of(timer.default, None))
            self.say(f"  set {signal_text(*key)} {max(0, due)}")
            self.cancel(key)
            story, step = self.story, len(self.story.steps) - 1
            made = TimerSet(key, story.time, max(0, due), self.point(), len(story.sets) + 1, story.number, step)
            story.sets.append(made)
            self.timers[key] = made

    def reset(self, statement: Reset) -> None:
        for group in statement.groups:
            for timer, expressions in group:
                key = self.key(timer, expressions)
                self.say(f"  reset {signal_text(*key)}")
                self.cancel(key)

    def create(self, statement: Create) -> None:
        process, story = statement.process, self.story
        values = values_at(statement.values, [it.sort for it in process.parameters], self)
        self.offspring = self.say(f"  create {process.name} ", False)
        number = None if self.offspring == "null" else int(self.offspring[1:])
        story.asked.append(Asked(process, story.time, self.point(), number))
        if number is not None:
            story.demand(number not in self.births, f"creates #{number} twice")
            points = story.last, self.point(), self.point()
            self.births[number] = Birth(process, story.name, story.time, values, *points)
