"""Random specifications of the whole language, all of them meant to be accepted."""

from dataclasses import dataclass, field

from soaking.bodies import Bodies
from soaking.expressions import Sight, Speaker, kind_of
from soaking.routes import Routes
from soaking.specification import (
    ENVIRONMENT, Channel, Connect, Connection, Continuous, Group, Input, Path, Process, Save, Scope, Signal,
    SignalList, SignalSet, State, Synonym, Variable, Variables, signals_of,
)  # fmt: skip
from soaking.transitions import Joined, Literal, Named, Task
from soaking.values import Failure, at, value_of

# Names that are nearly something else: keywords and literals in mixed case, sorts, and one that is as long as may be.
ODD = ["Start", "sTATE", "tRUE", "Env", "nULL", "Now", "Integer", "Pid", "Time", "a_", "x__1", "z" * 255]
SORTS = ["Integer"] * 4 + ["Natural", "Boolean", "Boolean", "Pid", "PId", "Time", "Duration"]


def insert(lot, definitions, item):
    definitions.insert(lot.randint(0, len(definitions)), item)


@dataclass
class Seen:
    """The names that can be seen in a scope, in their spaces; those of a scope hide those around it."""

    signals: dict = field(default_factory=dict)
    lists: dict = field(default_factory=dict)
    synonyms: dict = field(default_factory=dict)
    agents: dict = field(default_factory=dict)
    own: set = field(default_factory=set)

    def inner(self):
        return Seen(dict(self.signals), dict(self.lists), dict(self.synonyms), dict(self.agents))


class Grower:
    """Grows one system: first its scopes with their names, then what processes input, then channels, then bodies."""

    def __init__(self, lot):
        self.lot = lot
        self.speaker = Speaker(lot)
        self.counted = {}
        self.odd = lot.sample(ODD, len(ODD))
        self.seen = {}
        self.system = Scope("system", "S")

    def often(self, part):
        return self.lot.random() < part

    def fresh(self, stem):
        if self.odd and self.often(0.03):
            return self.odd.pop()
        self.counted[stem] = self.counted.get(stem, 0) + 1
        return f"{stem}{self.counted[stem]}"

    def some(self, items, most):
        return self.lot.sample(items, min(len(items), self.lot.randint(1, most)))

    def grow(self):
        self.agents()
        for scope in [self.system, *self.system.all_of(Scope)]:
            self.seen[scope] = self.seen[scope.around].inner() if scope.around else Seen()
            self.names(scope)
        for process in self.system.processes():
            self.process(process)
        for scope in [self.system, *self.system.all_of(Scope)]:
            if self.often(0.35):
                self.channels(scope)
        for block in self.system.all_of(Scope):
            self.connects(block)
        routes = Routes(self.system)
        for process in self.system.processes():
            self.bodies(process, routes)
        return self.system, routes

    # ---- scopes and names

    def agents(self):
        """Blocks, and processes in them and in the system."""
        scopes = [self.system]
        for _ in range(self.lot.choice([0, 0, 0, 1, 2])):
            block = Scope("block", self.fresh("B"), self.system)
            self.system.definitions.append(block)
            scopes.append(block)
        for _ in range(self.lot.choice([1, 2, 2, 3, 3, 4])):
            scope = self.lot.choice(scopes)
            names = {it.name for it in scope.all_of(Process)}
            name = "Twin" if self.often(0.1) and "Twin" not in names else self.fresh("P")
            insert(self.lot, scope.definitions, Process(name, scope))

    def names(self, scope):
        """Signals, lists and synonyms of a scope, and its agents."""
        seen = self.seen[scope]
        for agent in scope.definitions:
            seen.agents[agent.name] = agent
        for _ in range(self.lot.randint(0, 2) + 3 * (scope is self.system)):
            self.signals(scope.definitions, seen)
        for _ in range(self.lot.choice([0, 0, 1, 2])):
            self.synonyms(scope.definitions, seen)
        for _ in range(self.lot.choice([0, 0, 1])):
            self.signal_list(scope.definitions, seen)

    def name_of(self, stem, used, around):
        """A new name, or now and then one of a scope around."""
        hidden = sorted(set(around) - set(used))
        return self.lot.choice(hidden) if hidden and self.often(0.1) else self.fresh(stem)

    def signals(self, definitions, seen):
        made = []
        for _ in range(self.lot.randint(1, 2)):
            name = self.name_of("a", [*seen.own, *[it.name for it in made]], seen.signals)
            made.append(Signal(name, [self.lot.choice(SORTS) for _ in range(self.lot.choice([0, 0, 0, 1, 1, 2, 3]))]))
        seen.signals.update((it.name, it) for it in made)
        seen.own.update(it.name for it in made)
        insert(self.lot, definitions, Group("signal", made))

    def synonyms(self, definitions, seen):
        made = []
        for _ in range(self.lot.randint(1, 2)):
            sort = self.lot.choice(SORTS)
            expression, value = self.constant(sort, seen)
            made.append(Synonym(self.fresh("k"), sort, expression, value))
            seen.synonyms[made[-1].name] = made[-1]
        insert(self.lot, definitions, Group("synonym", made))

    def signal_list(self, definitions, seen):
        items = self.some(list(seen.signals.values()), 3) + self.some(list(seen.lists.values()), 1)
        items = [it for turn, it in enumerate(items) if not set(signals_of([it])) & set(signals_of(items[:turn]))]
        if items:
            made = SignalList(self.fresh("L"), items)
            seen.lists[made.name] = made
            insert(self.lot, definitions, made)

    def constant(self, sort, seen, wanted=lambda value: True):
        """A constant expression that has a value at a place of this sort, with the value."""
        sight = Sight(list(seen.synonyms.values()))
        for _ in range(20):
            expression = self.speaker.of(sort, sight, 2)
            try:
                value = at(sort, value_of(expression, None))
            except Failure:
                continue
            if wanted(value):
                return expression, value
        return self.least_constant(sort, wanted)

    def least_constant(self, sort, wanted):
        """The first literal that will do."""
        literals = {"Boolean": [Literal(False), Literal(True)], "Pid": [Literal("null")], "PId": [Literal("null")]}
        for literal in literals.get(sort, [Literal(value) for value in range(10)]):
            if wanted(literal.value):
                return literal, literal.value

    # ---- processes

    def process(self, process):
        seen = self.seen[process] = self.seen[process.around].inner()
        # Variables of these names hide synonyms around the process, but not from its counts.
        self.hiding = [name for name in seen.synonyms if self.often(0.1)]
        seen.synonyms = {name: it for name, it in seen.synonyms.items() if name not in self.hiding}
        is_first = process is self.system.processes()[0]
        if self.often(0.05 if is_first else 0.35):
            process.definitions.insert(0, self.variables("fpar", process, seen))
        if self.often(0.9):
            self.counts(process)
        for _ in range(self.lot.choice([0, 0, 1])):
            self.signals(process.definitions, seen)
        for _ in range(self.lot.choice([0, 0, 0, 1])):
            self.synonyms(process.definitions, seen)
        for _ in range(self.lot.choice([0, 1, 1, 2])):
            self.timers(process, seen)
        for _ in range(self.lot.randint(1, 3)):
            insert(self.lot, process.definitions, self.variables("dcl", process, seen))
        for _ in range(self.lot.choice([0, 0, 0, 1])):
            self.signal_list(process.definitions, seen)
        for _ in range(self.lot.choice([0, 0, 1])):
            items = self.some([it for it in seen.signals.values() if not it.is_timer], 3)
            insert(self.lot, process.definitions, SignalSet(items + self.some(list(seen.lists.values()), 1)))
        # Parameters stand before all other definitions.
        process.definitions.sort(key=lambda it: getattr(it, "word", "") != "fpar")
        self.states(process)

    def counts(self, process):
        seen = self.seen[process.around]
        initial, most = self.lot.choice([0, 1, 1, 1, 2, 3]), self.lot.choice([1, 2, 3, 5])
        shape = self.lot.choice(["", ",", "i", "i,", ",m", ",m", ",m", ",m", *["i,m"] * 6])
        if process.parameters and process is not self.system.processes()[0] and self.often(0.9):
            initial, shape = 0, "i,m"
        if process is self.system.processes()[0]:
            initial = max(1, initial)
        process.counts = ["("]
        if "i" in shape:
            expression, process.initial = self.constant("Natural", seen, lambda value: value == initial)
            process.counts.append(expression)
        process.counts += [","] * ("," in shape)
        if "m" in shape:
            least = max(1, process.initial)
            expression, process.most = self.constant("Natural", seen, lambda value: least <= value <= least + most)
            process.counts.append(expression)
        process.counts.append(")")

    def timers(self, process, seen):
        made = []
        for _ in range(self.lot.randint(1, 2)):
            sorts = [self.lot.choice(SORTS) for _ in range(self.lot.choice([0, 0, 0, 1, 2]))]
            default = self.constant("Duration", seen)[0] if self.often(0.6) else None
            used = [it.name for it in [*process.timers, *made]] + list(seen.own)
            made.append(Signal(self.name_of("T", used, seen.signals), sorts, True, default))
        process.timers += made
        seen.signals.update((it.name, it) for it in made)
        insert(self.lot, process.definitions, Group("timer", made))

    def variables(self, word, process, seen):
        groups = []
        for _ in range(self.lot.randint(1, 3)):
            sort = self.lot.choice(SORTS)
            initial, value = self.constant(sort, seen) if word == "dcl" and self.often(0.97) else (None, None)
            made = []
            for _ in range(self.lot.randint(1, 2)):
                made.append(Variable(self.variable_name(process, seen), sort, value))
                process.variables.append(made[-1])
            groups.append((made, initial))
            process.parameters += made if word == "fpar" else []
        return Variables(word, groups)

    def variable_name(self, process, seen):
        """A new name, that of a hidden synonym, or that of a signal, whose names are in a space of their own."""
        if self.hiding:
            return self.hiding.pop()
        free = sorted(set(seen.signals) - {it.name for it in process.variables})
        return self.lot.choice(free) if free and self.often(0.05) else self.fresh("v")

    # ---- states

    def states(self, process):
        """The parts of the states, with what they input and save."""
        process.states = [f"s{turn}" for turn in range(self.lot.randint(1, 4))]
        if self.often(0.1):
            process.states[0] = self.lot.choice(list(self.seen[process].signals))
        mentioned = {name: set() for name in process.states}
        starred = set()
        for name in process.states:
            more = self.some(process.states, 2) if self.often(0.2) else []
            self.part(process, State(False, [name, *[it for it in more if it != name]]), mentioned, starred)
        for _ in range(self.lot.choice([0, 0, 1, 2])):
            names = self.some(process.states, 2)
            part = self.lot.choice([State(True, []), State(True, names), State(False, names)])
            self.part(process, part, mentioned, starred)

    def part(self, process, part, mentioned, starred):
        covered = [name for name in process.states if part.covers(name)]
        insert(self.lot, process.parts, part)
        for _ in range(self.lot.randint(1, 5)):
            taken = set().union(*(mentioned[name] for name in covered))
            free = [it for it in self.seen[process].signals.values() if it not in taken]
            stimulus = self.stimulus(process, free, not starred & set(covered))
            if stimulus is None:
                continue
            part.stimuli.append(stimulus)
            for name in covered:
                mentioned[name].update(stimulus.signals())
            if isinstance(stimulus, (Input, Save)) and not stimulus.signals():
                starred.update(covered)

    def stimulus(self, process, free, star_is_free):
        """A stimulus of signals that are free, or nothing where there is none of the kind that was drawn."""
        sight = self.sight(process)
        kind = self.lot.choice(["input"] * 7 + ["priority"] * 2 + ["save"] * 2 + ["star", "save star", "continuous"])
        if kind == "continuous":
            return self.continuous(process, sight)
        if kind in ("star", "save star") and not (star_is_free and self.often(0.4)):
            return None
        if kind == "save star":
            return Save([])
        condition = self.speaker.of("Boolean", sight) if self.often(0.15) else None
        if kind == "star":
            return Input([], condition=condition)
        if kind == "save":
            lists = [it for it in self.seen[process].lists.values() if set(signals_of([it])) <= set(free)]
            items = self.some(lists, 1) if lists and self.often(0.3) else self.some(free, 2)
            return Save(items) if items else None
        if not free:
            return None
        pairs = [(signal, self.places(process, signal)) for signal in self.some(free, 2)]
        return Input(pairs, kind == "priority", condition if kind == "input" else None)

    def continuous(self, process, sight):
        """A continuous signal: mostly one that counts up to some number, so that it doesn't begin for ever."""
        number = self.lot.choice([None, 0, 1, 1, 2, 7])
        counters = [it for it in process.variables if it.sort == "Integer" and it.value is not None]
        if not counters or self.often(0.1):
            return Continuous(self.speaker.of("Boolean", sight), number)
        counter = self.lot.choice(counters)
        small = self.speaker.joined(Named(counter), "<", self.speaker.literal())
        if self.often(0.5):
            small = self.speaker.joined(small, "and", self.speaker.truth(sight, 1))
        return Continuous(small, number, counter)

    def places(self, process, signal):
        """Variables for the values of a signal: some left out, and the list perhaps short."""
        places = []
        for sort in signal.sorts:
            fitting = [it for it in process.variables if kind_of(it.sort) == kind_of(sort)]
            places.append(self.lot.choice(fitting) if fitting and self.often(0.9) else None)
        return places[: self.lot.randint(0, len(places))] if self.often(0.1) else places

    def sight(self, process, words=("self", "parent", "offspring", "sender")):
        things = [*self.seen[process].synonyms.values(), *process.variables]
        return Sight(things, process.timers, words)

    # ---- channels

    def channels(self, scope):
        """Channels between agents and the environment, each for signals and lists that are seen in the scope."""
        points = [ENVIRONMENT, *scope.all_of(Process), *scope.all_of(Scope)]
        seen = self.seen[scope]
        wanted = {process: process.named() for process in scope.all_of(Process)}
        for _ in range(self.lot.randint(1, 5)):
            start, end = self.lot.choice(points), self.lot.choice(points)
            if start is end and not self.often(0.1):
                continue
            paths = [self.path(start, end, seen, wanted)]
            if self.often(0.4):
                paths.append(self.path(end, start, seen, wanted))
            if all(path.items for path in paths):
                insert(self.lot, scope.definitions, Channel(self.fresh("C"), self.often(0.2), paths))

    def path(self, start, end, seen, wanted):
        signals = list(seen.signals.values())
        liked = [it for it in signals if it in wanted.get(end, ())]
        items = self.some(liked if liked and self.often(0.7) else signals, 4) if signals else []
        return Path(start, end, items + (self.some(list(seen.lists.values()), 1) if self.often(0.2) else []))

    def connects(self, block):
        """Connects of channels at the block's border."""
        around = [it for it in self.system.all_of(Channel) if any(block in (path.start, path.end) for path in it.paths)]
        inner = [it for it in block.all_of(Channel) if any(ENVIRONMENT in (path.start, path.end) for path in it.paths)]
        while around and inner and self.often(0.5):
            insert(self.lot, block.definitions, Connect(self.some(around, 2), self.some(inner, 2)))

    # ---- transitions

    def bodies(self, process, routes):
        grower = Bodies(self.lot, self.speaker, process, self.seen[process], routes)
        for stimulus in process.stimuli():
            if not isinstance(stimulus, Save):
                stimulus.body = grower.whole(False)
            if isinstance(stimulus, Continuous) and stimulus.counter is not None:
                step = Joined(Named(stimulus.counter), "+", Literal(self.lot.randint(1, 3)))
                stimulus.body.statements.insert(0, Task([(stimulus.counter, step)]))
        process.start = grower.whole(True)
        for at_start in [self.often(0.5) for _ in range(self.lot.choice([0, 0, 0, 1, 2]))]:
            label = grower.label(at_start)
            insert(self.lot, process.parts, Connection(label, grower.whole(at_start)))
        grower.lead_joins()
