"""A run as LANGUAGE.md tells it, made by the plainest means: lists that are searched, and no thought of cost.

It knows the tree of a specification and not its text, shares no code with the program, and writes the same trace. It
keeps the order of the run, too (`order.py`), and how often it passed what there is to cover (`coverage.py`)."""

from collections import Counter
from dataclasses import dataclass, field

from soaking.order import Order, lose, of_value, of_values
from soaking.specification import ENVIRONMENT, Process
from soaking.tables import Code, Table
from soaking.transitions import Create, Output, Reset, Set, Task
from soaking.values import Failure, at, place_of_answer, ranged, signal_text, told, value_of, values_at

STATEMENTS, INSTANCES = 10_000, 1_000


class Cut(Exception):
    """The limit is reached."""


class Ended(Exception):
    """The instance is at its end."""


@dataclass(eq=False)
class Entry:
    """What waits in a port; the signal of a timer has the number of its set, that of an instance what sent it, and that
    of the environment where it was sent."""

    signal: object
    values: tuple
    sender: str
    number: int = 0
    deed: dict | None = None
    sending: object = None


@dataclass(eq=False)
class Instance:
    run: object
    process: Process
    number: int
    parent: str
    values: dict
    position: object = "start"
    port: list = field(default_factory=list)
    timers: dict = field(default_factory=dict)
    lines: list = field(default_factory=list)
    sets: int = 0
    sender: str = "null"
    offspring: str = "null"
    acts: list = field(default_factory=list)
    created: list = field(default_factory=list)

    def __post_init__(self):
        self.name = f"#{self.number}"
        self.lives = True

    # ---- what expressions ask

    def variable(self, variable):
        value = self.values.get(variable)
        if value is None:
            raise Failure("Undefined")
        return value

    def own(self, word):
        if word == "now":
            return self.run.time
        return {"self": self.name, "parent": self.parent, "offspring": self.offspring, "sender": self.sender}[word]

    def active(self, timer, values):
        return (timer, values) in self.timers

    # ---- a step

    def say(self, text, **deed):
        """A line of what the transition does."""
        self.lines.append(text)
        return self.run.order.do(text, **deed)

    def begin(self, text, **opening):
        """The line of something that happens now."""
        self.lines.append(f"{self.run.time} {text}")
        self.run.order.begin(self.run.time, self, text, **opening)

    def finish(self):
        self.lives = False
        for entry in self.port:
            lose(entry)
        self.port, self.timers = [], {}

    def step(self):
        """One step: whether anything happened, and whether it was a transition."""
        if not self.lives:
            return False, False
        if self.position == "start":
            self.begin("start", by="start")
            self.transit(self.process.start)
            return True, True
        try:
            truths = self.table.truths(self.position, self)
            found = self.take(truths)
            if found is None:
                return self.look()
        except Failure as failure:
            self.begin(f"failed {failure}", by="failed", failure=str(failure))
            self.finish()
            return True, False
        self.consume(*found)
        return True, True

    @property
    def table(self):
        return self.run.tables[self.process]

    def take(self, truths):
        """The entry that is taken, with the reaction to it."""
        reactions = [(it, self.table.reaction(self.position, it.signal, truths)) for it in self.port]
        for kinds in (("priority",), ("input", "discard")):
            for entry, reaction in reactions:
                if reaction.kind in kinds:
                    self.port.remove(entry)
                    if entry.signal.is_timer:
                        del self.timers[entry.signal, entry.values]
                    return entry, reaction
        return None

    def consume(self, entry, reaction):
        self.sender = entry.sender
        text = f"{reaction.kind} {signal_text(entry.signal, entry.values)} from {entry.sender}"
        taken = {"signal": entry.signal.name, "values": of_values(entry.values), "from": of_value(entry.sender)}
        self.begin(text, by=reaction.kind, **taken, **self.run.order.take(entry))
        if reaction.kind == "discard":
            return
        self.count("rest" if reaction.is_star else entry.signal)
        self.transit(reaction.body, zip(reaction.places, entry.values))

    def look(self):
        """Begins the first continuous signal whose condition is true."""
        for number, stimulus in self.table.continuous(self.position):
            if value_of(stimulus.condition, self):
                self.sender = self.name
                self.begin(f"provided {number}", by="provided", number=number)
                self.count(number)
                self.transit(stimulus.body)
                return True, True
        return False, False

    # ---- a transition

    def transit(self, body, received=()):
        code = self.run.codes[self.process]
        try:
            for variable, value in received:
                if variable is not None:
                    self.values[variable] = at(variable.sort, value)
            place, self.left = code.begins[id(body)], STATEMENTS
            while True:
                place = self.visit(code, place)
        except Failure as failure:
            self.say(f"  failed {failure}", failed=str(failure))
            self.finish()
        except Ended:
            pass

    def visit(self, code, place):
        """Does what stands at a place, and tells the next one."""
        node = code.nodes[place]
        if isinstance(node, int):
            return node
        if isinstance(node, (Task, Output, Set, Reset, Create, dict)) or node.word == "join":
            self.spend()
        if isinstance(node, dict):
            return self.decide(node)
        if isinstance(node, (Task, Output, Set, Reset, Create)):
            work = {Task: self.task, Output: self.output, Set: self.set, Reset: self.reset, Create: self.create}
            work[type(node)](node)
            return place + 1
        if node.word == "join":
            return code.labels[node.name]
        if node.word == "stop":
            self.say("  stop", stop=True)
            self.finish()
        else:
            self.position = self.position if node.name == "-" else node.name
            self.say(f"  nextstate {self.position}", nextstate=self.position)
            self.count("entered")
        raise Ended

    def count(self, what):
        """Counts what the state does, or that it is entered."""
        self.run.passes[self.process, self.position, what] += 1

    def spend(self):
        """Makes one of the statements that a transition may have."""
        if self.left == 0:
            raise Failure("TooLong")
        self.left -= 1

    def decide(self, node):
        place = place_of_answer(node, value_of(node["question"], self))
        if self.run.has_marks:
            self.spend()
        self.run.passes[node["bodies"][place]] += 1
        return place

    def task(self, task):
        for variable, expression in task.pairs:
            self.values[variable] = at(variable.sort, value_of(expression, self))
            value = self.values[variable]
            self.say(f"  task {variable.name} := {told(value)}", task=variable.name, value=of_value(value))

    def output(self, output):
        for signal, expressions in output.signals:
            to = output.to
            if to is not None and not isinstance(to, Process):
                to = value_of(to, self)
            values = values_at(expressions, signal.sorts, self)
            target = self.run.target(self.process, signal, to, self.created)
            text = f"  output {signal_text(signal, values)} to {target}"
            deed = self.say(text, output=signal.name, values=of_values(values), to=of_value(target))
            self.acts.append(("send", target, Entry(signal, values, self.name, deed=deed)))

    def key(self, timer, expressions):
        return timer, values_at(expressions, timer.sorts, self)

    def cancel(self, key):
        """Makes a timer inactive, and takes its signal out of the port."""
        if self.timers.pop(key, None) is not None:
            self.port = [it for it in self.port if (it.signal, it.values) != key]

    def set(self, statement):
        for time, timer, expressions in statement.clauses:
            due = None if time is None else value_of(time, self)
            key = self.key(timer, expressions)
            if due is None:
                due = ranged(self.run.time + value_of(timer.default, None))
            self.cancel(key)
            self.sets += 1
            self.timers[key] = self.sets
            text = f"  set {signal_text(*key)} {max(0, due)}"
            self.say(text, set=timer.name, values=of_values(key[1]), due=max(0, due))
            self.acts.append(("arm", max(0, due), self.number, self.sets, key))

    def reset(self, statement):
        for group in statement.groups:
            for timer, expressions in group:
                key = self.key(timer, expressions)
                self.cancel(key)
                self.say(f"  reset {signal_text(*key)}", reset=timer.name, values=of_values(key[1]))

    def create(self, statement):
        process = statement.process
        values = values_at(statement.values, [it.sort for it in process.parameters], self)
        number = len(self.run.instances) + len(self.created) + 1
        alive = [it for it in [*self.run.instances, *self.created] if it.lives and it.process is process]
        if number > INSTANCES or process.most is not None and len(alive) >= process.most:
            self.offspring = "null"
        else:
            child = self.run.instance(process, number, self.name, values)
            self.created.append(child)
            self.acts.append(("add", child))
            self.offspring = child.name
        made = None if self.offspring == "null" else number
        self.say(f"  create {process.name} {self.offspring}", create=process.name, instance=made)


class Run:
    """A whole run, by sweeps. With marks each part of a decision costs a statement more."""

    def __init__(self, system, routes, script, limit, has_marks=False):
        self.has_marks, self.passes = has_marks, Counter()
        self.system, self.routes, self.script, self.limit = system, routes, list(script), limit
        self.processes = system.processes()
        self.codes = {process: Code(process) for process in self.processes}
        self.tables = {process: Table(process) for process in self.processes}
        self.time, self.made, self.instances, self.fuses = 0, 0, [], []
        self.order, self.signals = Order(), sum(line.signal is not None for line in self.script)
        for process in self.processes:
            for _ in range(process.initial):
                self.instances.append(self.instance(process, len(self.instances) + 1, "null", ()))

    @staticmethod
    def instance(process, number, parent, values):
        known = {variable: variable.value for variable in process.variables}
        known.update(zip(process.parameters, values))
        made = Instance(None, process, number, parent, known)
        return made

    def living(self, process, created=()):
        return [it for it in [*self.instances, *created] if it.lives and it.process is process]

    def target(self, sender, signal, to, created=()):
        """Whom an output reaches."""
        if isinstance(to, str):
            return to
        processes, outside = ([to], False) if to is not None else self.routes.of(sender, signal)
        for process in processes:
            living = self.living(process, created)
            if living:
                return living[0].name
        return "env" if outside else "nobody"

    def put(self, target, entry):
        """An entry comes to a port, if its instance is there."""
        number = int(target[1:]) if target.startswith("#") else 0
        if 0 < number <= len(self.instances) and self.instances[number - 1].lives:
            self.instances[number - 1].port.append(entry)
        elif target.startswith("#"):
            lose(entry)

    def expire(self, number, sets, key):
        instance = self.instances[number - 1]
        if instance.lives and instance.timers.get(key) == sets:
            instance.port.append(Entry(*key, instance.name, sets))

    def act(self, instance):
        """What the step of an instance did outside of it."""
        for act in instance.acts:
            self.act_one(*act)
        instance.acts, instance.created = [], []

    def act_one(self, kind, *what):
        if kind == "send":
            self.put(*what)
        elif kind == "add":
            self.instances.append(what[0])
        elif what[0] <= self.time:
            self.expire(*what[1:])
        else:
            self.fuses.append(tuple(what))

    def sweep(self):
        """A step of each instance that is there; whether any did something."""
        moved = False
        for instance in list(self.instances):
            instance.run = self
            happened, counts = instance.step()
            self.act(instance)
            moved = moved or happened
            self.made += counts
            if counts and self.made == self.limit:
                raise Cut
        return moved

    def go(self):
        """Makes the run, and tells its trace."""
        self.word, self.end = self.make()
        return self.trace()

    def last(self):
        """The last line."""
        return f"end {self.end} {'whole' if self.word == 'rest' else 'cut'}"

    def make(self):
        """Makes the run, and tells how its records close, and when it ends."""
        end = self.script[-1].time if self.script else 0
        try:
            while True:
                self.come_to_rest()
                due = [it[0] for it in self.fuses] + [line.time for line in self.script[:1]]
                if not due or min(due) > end:
                    return "rest", end
                self.time = max(self.time, min(due))
                self.hear()
        except Cut:
            return "cut", self.time

    def come_to_rest(self):
        """Sweeps, until all instances rest."""
        while self.sweep():
            pass

    def hear(self):
        """What is due expires, and the lines of this time are heard."""
        for fuse in sorted((it for it in self.fuses if it[0] <= self.time), key=lambda it: it[:3]):
            self.expire(*fuse[1:])
        self.fuses = [it for it in self.fuses if it[0] > self.time]
        while self.script and self.script[0].time <= self.time:
            line = self.script.pop(0)
            if line.signal is not None:
                target, values = self.target(ENVIRONMENT, line.signal, line.to), tuple(line.values)
                head = signal_text(line.signal, values)
                sending = self.order.send(self.time, head, line.signal.name, values, target)
                self.put(target, Entry(line.signal, values, "env", sending=sending))

    def trace(self):
        lines = []
        for it in self.instances:
            lines += [f"instance {it.name} {it.process.name} parent {it.parent}", *it.lines]
            lines += [f"{self.word} {it.position}"] if it.lives else []
        return "".join(line + "\n" for line in [*lines, self.last()])
