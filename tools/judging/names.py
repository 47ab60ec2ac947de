"""What the names of a parsed specification stand for: each is looked up in its own scope, and then in those around it.

The things take the places of their names in the tree, so that it is one as `soaking.specification` has it."""

from dataclasses import dataclass, field

from soaking.specification import (
    ENVIRONMENT, Channel, Connect, Connection, Continuous, Group, Input, Process, Save, Scope, Signal, SignalList,
    SignalSet, State, Synonym, Variable, Variables,
)  # fmt: skip
from soaking.trace import Wrong
from soaking.transitions import Active, Body, Create, Decision, Inner, Joined, Named, Output, Reset, Set, Signed, Task
from soaking.values import at, value_of


@dataclass
class Names:
    """The names of one scope in their spaces, and the scope around it."""

    around: "Names | None" = None
    signals: dict[str, Signal] = field(default_factory=dict)
    lists: dict[str, SignalList] = field(default_factory=dict)
    agents: dict[str, Scope | Process] = field(default_factory=dict)
    values: dict[str, Variable | Synonym] = field(default_factory=dict)
    channels: dict[str, Channel] = field(default_factory=dict)

    def find(self, space: str, name: str):
        """What a name stands for here, or nothing."""
        found = getattr(self, space).get(name)
        return found if found is not None or self.around is None else self.around.find(space, name)

    def get(self, space: str, name: str):
        found = self.find(space, name)
        if found is None:
            raise Wrong(f"the specification can't be read: {name} stands for nothing")
        return found

    def note(self, definition) -> None:
        """The names that a definition gives."""
        match definition:
            case Group(word="synonym"):
                self.values.update((it.name, it) for it in definition.items)
            case Group():
                self.signals.update((it.name, it) for it in definition.items)
            case SignalList():
                self.lists[definition.name] = definition
            case Channel():
                self.channels[definition.name] = definition
            case Scope() | Process():
                self.agents[definition.name] = definition
            case Variables():
                for variables, _ in definition.groups:
                    self.values.update((it.name, it) for it in variables)


@dataclass
class Resolver:
    """Puts things in the places of names, scope by scope."""

    names: dict = field(default_factory=dict)
    settled: set = field(default_factory=set)

    def resolve(self, system: Scope) -> None:
        scopes = [system, *system.all_of(Scope)]
        self.enter(system, None)
        for scope in [*scopes[1:], *system.processes()]:
            self.enter(scope, self.names[scope.around])
        for scope in [*scopes, *system.processes()]:
            self.define(scope)
        self.settle_lists()
        for process in system.processes():
            self.process(process)
        self.settle_constants(system)

    def enter(self, scope: Scope | Process, around: Names | None) -> None:
        self.names[scope] = Names(around)
        for definition in scope.definitions:
            self.names[scope].note(definition)

    # ---- definitions

    def define(self, scope: Scope | Process) -> None:
        """The definitions of a scope."""
        names = self.names[scope]
        for definition in scope.definitions:
            match definition:
                case Group():
                    self.group(definition, names)
                case SignalList() | SignalSet():
                    definition.items = self.items(definition.items, names)
                case Channel():
                    self.channel(definition, names)
                case Connect():
                    definition.outer = [names.around.get("channels", name) for name in definition.outer]
                    definition.inner = [names.channels[name] for name in definition.inner]
                case Variables():
                    for _, initial in definition.groups:
                        self.expression(initial, names)

    def group(self, group: Group, names: Names) -> None:
        for item in group.items:
            self.expression(item.expression if group.word == "synonym" else item.default, names)

    @staticmethod
    def items(items: list, names: Names) -> list:
        """Signals by their names, and lists by theirs, each of which the parser put into a list."""
        return [names.get("lists", it[0]) if isinstance(it, list) else names.get("signals", it) for it in items]

    def channel(self, channel: Channel, names: Names) -> None:
        for path in channel.paths:
            path.items = self.items(path.items, names)
            path.start, path.end = (self.point(point, names) for point in (path.start, path.end))

    @staticmethod
    def point(point: str | None, names: Names):
        return ENVIRONMENT if point is ENVIRONMENT else names.get("agents", point)

    # ---- processes

    def process(self, process: Process) -> None:
        names = self.names[process]
        for definition in process.definitions:
            match definition:
                case Group(word="timer"):
                    process.timers += definition.items
                case Variables():
                    found = [it for variables, _ in definition.groups for it in variables]
                    process.variables += found
                    process.parameters += found if definition.word == "fpar" else []
        for count in process.counts:
            self.expression(count, self.names[process.around])
        self.body(process.start, names)
        for part in process.parts:
            if isinstance(part, Connection):
                self.body(part.body, names)
            else:
                self.state(part, names)
        stated = [part for part in process.parts if isinstance(part, State) and not part.is_star]
        process.states = list(dict.fromkeys(name for part in stated for name in part.names))

    def state(self, state: State, names: Names) -> None:
        for stimulus in state.stimuli:
            match stimulus:
                case Save():
                    stimulus.items = self.items(stimulus.items, names)
                case Input():
                    stimulus.pairs = [self.pair(pair, names) for pair in stimulus.pairs]
            if isinstance(stimulus, (Input, Continuous)):
                self.expression(stimulus.condition, names)
                self.body(stimulus.body, names)

    @staticmethod
    def pair(pair: tuple, names: Names) -> tuple:
        signal, places = pair
        return names.get("signals", signal), [place and names.get("values", place) for place in places]

    # ---- transitions

    def body(self, body: Body | None, names: Names) -> None:
        if body is not None:
            for statement in body.statements:
                self.statement(statement, names)

    def statement(self, statement, names: Names) -> None:
        match statement:
            case Task():
                statement.pairs = [(names.get("values", name), value) for name, value in statement.pairs]
                self.expressions([value for _, value in statement.pairs], names)
            case Output():
                statement.signals = self.calls(statement.signals, names)
                statement.to = self.destination(statement.to, names)
            case Set():
                self.expressions([time for time, _, _ in statement.clauses], names)
                timers = self.calls([(timer, values) for _, timer, values in statement.clauses], names)
                statement.clauses = [(clause[0], *timer) for clause, timer in zip(statement.clauses, timers)]
            case Reset():
                statement.groups = [self.calls(group, names) for group in statement.groups]
            case Create():
                statement.process = names.get("agents", statement.process)
                self.expressions(statement.values, names)
            case Decision():
                self.decision(statement, names)

    def calls(self, calls: list, names: Names) -> list:
        """Signals or timers with their values."""
        for _, values in calls:
            self.expressions(values, names)
        return [(names.get("signals", name), values) for name, values in calls]

    def destination(self, to, names: Names):
        """A Pid, or a process if the name alone is there and no variable or synonym has it."""
        if isinstance(to, Named) and names.find("values", to.thing) is None:
            return names.get("agents", to.thing)
        self.expression(to, names)
        return to

    def decision(self, decision: Decision, names: Names) -> None:
        self.expression(decision.question, names)
        for answers, body in decision.parts:
            self.expressions([it.first for it in answers] + [it.last for it in answers], names)
            self.body(body, names)
        self.body(decision.otherwise, names)

    # ---- expressions

    def expressions(self, expressions: list, names: Names) -> None:
        for expression in expressions:
            self.expression(expression, names)

    def expression(self, expression, names: Names) -> None:
        waiting = [expression]
        while waiting:
            part = waiting.pop()
            if isinstance(part, Named):
                part.thing = names.get("values", part.thing)
            elif isinstance(part, Active):
                part.timer = names.get("signals", part.timer)
            waiting += parts_of(part)

    # ---- lists and constants

    def settle_lists(self) -> None:
        """Each list has the signals of the lists that it names, also if they go round in a circle."""
        lists = [it for names in self.names.values() for it in names.lists.values()]
        whole = {it: list(signals_named(it)) for it in lists}
        for it in lists:
            it.items = whole[it]

    def settle_constants(self, system: Scope) -> None:
        """The values of synonyms, counts and initial values."""
        for names in self.names.values():
            for synonym in names.values.values():
                self.settle(synonym)
        for process in system.processes():
            initial, most = process.counts
            process.initial = 1 if initial is None else value_of(initial, None)
            process.most = None if most is None else value_of(most, None)
            for definition in process.definitions:
                if isinstance(definition, Variables):
                    self.begin(definition)

    def settle(self, thing: Variable | Synonym) -> None:
        """A synonym, after those that it names."""
        if isinstance(thing, Synonym) and thing not in self.settled:
            self.settled.add(thing)
            for named in named_in(thing.expression):
                self.settle(named)
            thing.value = at(thing.sort, value_of(thing.expression, None))

    @staticmethod
    def begin(definition: Variables) -> None:
        for variables, initial in definition.groups:
            for variable in variables:
                variable.value = None if initial is None else at(variable.sort, value_of(initial, None))


def signals_named(signal_list: SignalList):
    """The signals for which a list stands."""
    seen, waiting = {signal_list}, [signal_list]
    while waiting:
        for item in waiting.pop().items:
            if isinstance(item, Signal):
                yield item
            elif item not in seen:
                seen.add(item)
                waiting.append(item)


def named_in(expression) -> list:
    """What a constant expression names."""
    found, waiting = [], [expression]
    while waiting:
        part = waiting.pop()
        if isinstance(part, Named):
            found.append(part.thing)
        waiting += parts_of(part)
    return found


def parts_of(expression) -> list:
    """The expressions that one is made of."""
    match expression:
        case Active() as active:
            return active.values
        case Inner(inner):
            return [inner]
        case Signed(_, operand):
            return [operand]
        case Joined(left, _, right):
            return [left, right]
    return []
