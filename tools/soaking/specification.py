"""Specifications as trees whose names are the things that they stand for, and how they are written.

A writer collects two lists of tokens: those of the text, and those of the canonical text, which LANGUAGE.md lays down.
So the canonical text of each specification is known before any program has seen it."""

from dataclasses import dataclass, field

from soaking.coverage import Notes

ENVIRONMENT = None
WORDS = set(
    "system endsystem block endblock process endprocess channel endchannel nodelay connect from to with env signal"
    " signallist signalset synonym dcl fpar timer comment start state endstate input save provided priority connection"
    " endconnection task output set reset create decision else enddecision nextstate stop join active now self parent"
    " offspring sender not and or xor mod rem true false null".split()
)


class Writer:
    """Collects the tokens of a text, with its freedoms drawn by lot, and those of its canonical text."""

    def __init__(self, lot):
        self.lot = lot
        self.shown = []
        self.canonical = []
        self.uses = []
        self.values = []
        self.covered = Notes()

    def often(self, part):
        return self.lot.random() < part

    def put(self, *tokens):
        for token in tokens:
            self.canonical.append("Pid" if token == "PId" else token)
            self.shown.append(self.spelled(token))

    def use(self, name, fault="Unknown"):
        """A name that stands for something defined elsewhere, with the fault that another name would be."""
        self.uses.append((len(self.shown), fault))
        self.put(name)

    def value(self, expression, sort):
        """An expression at a place of some sort."""
        start = len(self.shown)
        expression.put(self)
        self.values.append((start, len(self.shown), sort))

    def spelled(self, token):
        if token in WORDS and self.often(0.02):
            return token.upper()
        if token in ("true", "false", "null") and self.often(0.05):
            return token.capitalize()
        if token.isdigit() and self.often(0.03):
            return "0" * self.lot.randint(1, 3) + token
        return token

    def end(self):
        if self.often(0.02):
            self.shown += ["comment", self.lot.choice(["''", "'x'", "'it''s; endstate'", "'/* */ %'"])]
        self.put(";")

    def close(self, word, name, keeps_name):
        """The end of what has a name, which may stand there, and does in the canonical text if it is kept."""
        self.put(word)
        if name is not None and self.often(0.5):
            self.shown.append(name)
        if keeps_name:
            self.canonical.append(name)
        self.end()

    def listed(self, items, put, mark=","):
        for turn, item in enumerate(items):
            if turn:
                self.put(mark)
            put(item)


# ---- names


@dataclass(eq=False)
class Signal:
    """A signal, or a timer, which may have a default duration."""

    name: str
    sorts: list
    is_timer: bool = False
    default: object = None

    def put(self, writer):
        writer.put(self.name)
        if self.sorts:
            writer.put("(")
            writer.listed(self.sorts, writer.use)
            writer.put(")")
        if self.default is not None:
            writer.put(":=")
            writer.value(self.default, "Duration")


@dataclass(eq=False)
class SignalList:
    name: str
    items: list

    def put(self, writer):
        writer.put("signallist", self.name, "=")
        put_signals(writer, self.items)
        writer.end()


@dataclass(eq=False)
class Synonym:
    name: str
    sort: str
    expression: object
    value: object

    def put(self, writer):
        writer.put(self.name)
        writer.use(self.sort)
        writer.put("=")
        writer.value(self.expression, self.sort)


@dataclass(eq=False)
class Variable:
    name: str
    sort: str
    value: object = None


def put_signals(writer, items):
    """Signals by their names, lists in parentheses."""
    writer.listed(items, lambda item: writer.put(*([item.name] if isinstance(item, Signal) else ["(", item.name, ")"])))


def signals_of(items):
    """All signals for which the items of a list stand."""
    return [signal for item in items for signal in ([item] if isinstance(item, Signal) else signals_of(item.items))]


# ---- definitions


@dataclass(eq=False)
class Group:
    """Signals, synonyms or timers that one word defines."""

    word: str
    items: list

    def put(self, writer):
        writer.put(self.word)
        writer.listed(self.items, lambda item: item.put(writer))
        writer.end()


@dataclass(eq=False)
class SignalSet:
    items: list

    def put(self, writer):
        writer.put("signalset")
        put_signals(writer, self.items)
        writer.end()


@dataclass(eq=False)
class Variables:
    """Groups of variables of one sort with one initial value."""

    word: str
    groups: list

    def put(self, writer):
        writer.put(self.word)
        writer.listed(self.groups, lambda group: self.put_group(writer, *group))
        writer.end()

    @staticmethod
    def put_group(writer, variables, initial):
        writer.listed(variables, lambda variable: writer.put(variable.name))
        writer.use(variables[0].sort)
        if initial is not None:
            writer.put(":=")
            writer.value(initial, variables[0].sort)


@dataclass(eq=False)
class Path:
    start: object
    end: object
    items: list

    def put(self, writer):
        writer.put("from", name_of(self.start), "to", name_of(self.end), "with")
        put_signals(writer, self.items)
        writer.end()


def name_of(point):
    return "env" if point is ENVIRONMENT else point.name


@dataclass(eq=False)
class Channel:
    name: str
    is_immediate: bool
    paths: list

    def put(self, writer):
        writer.put("channel", self.name, *["nodelay"] * self.is_immediate)
        for path in self.paths:
            path.put(writer)
        writer.close("endchannel", self.name, True)


@dataclass(eq=False)
class Connect:
    outer: list
    inner: list

    def put(self, writer):
        writer.put("connect")
        writer.listed(self.outer, lambda channel: writer.put(channel.name))
        writer.put("and")
        writer.listed(self.inner, lambda channel: writer.put(channel.name))
        writer.end()


@dataclass(eq=False)
class Scope:
    """A system or a block, with its definitions in the order of the text."""

    word: str
    name: str
    around: object = None
    definitions: list = field(default_factory=list)

    def put(self, writer):
        writer.put(self.word, self.name)
        writer.end()
        for definition in self.definitions:
            definition.put(writer)
        writer.close("end" + self.word, self.name, True)

    def all_of(self, kind):
        return [it for it in self.definitions if isinstance(it, kind)]

    def processes(self):
        """All processes in it, in the order of the text."""
        found = []
        for it in self.definitions:
            found += [it] if isinstance(it, Process) else it.processes() if isinstance(it, Scope) else []
        return found


@dataclass(eq=False)
class Process:
    name: str
    around: Scope
    initial: int = 1
    most: object = None
    counts: list = None
    parameters: list = field(default_factory=list)
    definitions: list = field(default_factory=list)
    states: list = field(default_factory=list)
    start: object = None
    parts: list = field(default_factory=list)
    variables: list = field(default_factory=list)
    timers: list = field(default_factory=list)

    def put(self, writer):
        writer.covered.process(self)
        writer.put("process", self.name)
        for item in self.counts or []:
            writer.put(item) if isinstance(item, str) else item.put(writer)
        writer.end()
        for definition in self.definitions:
            definition.put(writer)
        writer.put("start")
        writer.end()
        self.start.put(writer)
        for part in self.parts:
            part.put(writer)
        writer.close("endprocess", self.name, True)

    def stimuli(self):
        return [stimulus for part in self.parts if isinstance(part, State) for stimulus in part.stimuli]

    def signal_sets(self):
        return [signal for it in self.definitions if isinstance(it, SignalSet) for signal in signals_of(it.items)]

    def named(self):
        """The signals and timers that it names in inputs, saves and signal sets."""
        return set(self.signal_sets()).union(*(set(stimulus.signals()) for stimulus in self.stimuli()))


# ---- states


@dataclass(eq=False)
class State:
    """A part of some states; a star stands for all but those that are named behind it."""

    is_star: bool
    names: list
    stimuli: list = field(default_factory=list)

    def put(self, writer):
        writer.put("state", *["*"] * self.is_star)
        if self.names:
            writer.put(*["("] * self.is_star)
            writer.listed(self.names, lambda name: self.put_name(writer, name))
            writer.put(*[")"] * self.is_star)
        writer.end()
        for stimulus in self.stimuli:
            stimulus.put(writer, self)
        if writer.often(0.6):
            writer.close("endstate", writer.lot.choice(self.names) if self.names and not self.is_star else None, False)
        else:
            writer.canonical += ["endstate", ";"]

    def put_name(self, writer, name):
        if not self.is_star:
            writer.covered.state(len(writer.shown), name)
        writer.put(name)

    def covers(self, name):
        return (name in self.names) != self.is_star


@dataclass(eq=False)
class Connection:
    label: str
    body: object

    def put(self, writer):
        writer.put("connection", self.label, ":")
        self.body.put(writer)
        if writer.often(0.6):
            writer.close("endconnection", self.label, False)
        else:
            writer.canonical += ["endconnection", ";"]


@dataclass(eq=False)
class Input:
    """An input, or a priority input, of pairs of a signal and its variables; without pairs that of the asterisk."""

    pairs: list
    is_urgent: bool = False
    condition: object = None
    body: object = None
    is_continuous = False

    def put(self, writer, state):
        writer.put(*["priority"] * self.is_urgent, "input")
        if self.pairs:
            writer.listed(self.pairs, lambda pair: self.put_pair(writer, state, *pair))
        else:
            writer.covered.stimulus(len(writer.shown), state, self)
            writer.put("*")
        writer.end()
        if self.condition is not None:
            writer.put("provided")
            writer.value(self.condition, "Boolean")
            writer.end()
        self.body.put(writer)

    def put_pair(self, writer, state, signal, variables):
        writer.covered.stimulus(len(writer.shown), state, self, signal)
        writer.put(signal.name)
        if variables:
            writer.put("(")
            writer.listed(variables, lambda variable: variable and writer.use(variable.name))
            writer.put(")")

    def signals(self):
        return [signal for signal, _ in self.pairs]


@dataclass(eq=False)
class Save:
    """A save of some signals and lists; without any it is that of the asterisk."""

    items: list

    def put(self, writer, _state):
        writer.put("save")
        put_signals(writer, self.items) if self.items else writer.put("*")
        writer.end()

    def signals(self):
        return signals_of(self.items)


@dataclass(eq=False)
class Continuous:
    condition: object
    priority: object = None
    counter: object = None
    body: object = None
    is_continuous = True

    def put(self, writer, state):
        writer.covered.stimulus(len(writer.shown), state, self)
        writer.put("provided")
        writer.value(self.condition, "Boolean")
        writer.end()
        if self.priority is not None:
            writer.put("priority", str(self.priority))
            writer.end()
        self.body.put(writer)

    @staticmethod
    def signals():
        return []
