"""The tree of a specification's text, by the grammar of LANGUAGE.md.

The tree is made of the classes of `soaking.specification` and `soaking.transitions`. Where they have a thing that a
name stands for, the parser leaves the name; `judging.names` puts the things there. Only texts that the program accepts
are read, so no rule is checked."""

import re

from soaking.expressions import STRENGTH
from soaking.grammar import ACTIONS, LITERALS, OWN, TERMINATORS, meaning
from soaking.specification import (
    ENVIRONMENT, Channel, Connect, Connection, Continuous, Group, Input, Path, Process, Save, Scope, Signal,
    SignalList, SignalSet, State, Synonym, Variable, Variables,
)  # fmt: skip
from soaking.trace import Wrong
from soaking.transitions import (
    Active, Answer, Body, Create, Decision, Inner, Joined, Literal, Named, Output, Own, Reset, Set, Signed, Task,
    Terminator,
)  # fmt: skip

TOKEN = re.compile(r"/\*.*?\*/|'(?:[^']|'')*'|[A-Za-z]\w*|\d+|:=|/=|<=|>=|=>|[(),;:=<>+\-*/]", re.DOTALL | re.ASCII)
COMPARISONS = ("=", "/=", "<", "<=", ">", ">=")


def tokens_of(text: str) -> list[str]:
    """The tokens of a text, without its comments."""
    return [token for token in TOKEN.findall(text) if not token.startswith("/*")]


def parsed(text: str) -> Scope:
    """The system of a text, with names where things are to stand."""
    return Parser(tokens_of(text)).system()


class Parser:
    """Reads one production after the other; each method is named after its own."""

    def __init__(self, tokens: list[str]):
        self.tokens = tokens
        self.words = [*map(meaning, tokens), None]
        self.at = 0

    # ---- words

    @property
    def word(self) -> str | None:
        return self.words[self.at]

    def has(self, word: str) -> bool:
        """Takes the word if it comes."""
        found = self.word == word
        self.at += found
        return found

    def take(self, word: str) -> str:
        """The token of a word that must come."""
        if not self.has(word):
            raise Wrong(f"the specification can't be read: {word} is missing before token {self.at + 1}")
        return self.tokens[self.at - 1]

    def name(self) -> str:
        return self.take("name")

    def listed(self, read) -> list:
        """What is read once, and again after each comma."""
        found = [read()]
        while self.has(","):
            found.append(read())
        return found

    def in_parentheses(self, read) -> list:
        """A list in parentheses, empty if there are none."""
        if not self.has("("):
            return []
        found = self.listed(read)
        self.take(")")
        return found

    def end(self) -> None:
        if self.has("comment"):
            self.take("text")
        self.take(";")

    def close(self, word: str) -> None:
        """The end of a part, whose name may follow."""
        self.take(word)
        self.has("name")
        self.end()

    # ---- definitions

    def system(self) -> Scope:
        self.take("system")
        scope = Scope("system", self.name())
        self.scope(scope)
        return scope

    def scope(self, scope: Scope) -> None:
        """The definitions of a system or a block, up to its end."""
        self.end()
        while self.word != "end" + scope.word:
            scope.definitions.append(self.definition(scope))
        self.close("end" + scope.word)

    def definition(self, around: Scope | Process):
        readers = {
            "signal": self.signals, "signallist": self.signal_list, "synonym": self.synonyms, "channel": self.channel,
            "connect": self.connect, "signalset": self.signal_set, "dcl": self.variables, "timer": self.timers,
        }  # fmt: skip
        if self.word == "block":
            return self.block(around)
        if self.word == "process":
            return self.process(around)
        if self.word not in readers:
            raise Wrong(f"the specification can't be read: no definition begins with {self.word}")
        return readers[self.word]()

    def block(self, around: Scope) -> Scope:
        self.take("block")
        scope = Scope("block", self.name(), around)
        self.scope(scope)
        return scope

    def signals(self) -> Group:
        self.take("signal")
        items = self.listed(lambda: Signal(self.name(), self.in_parentheses(self.name)))
        self.end()
        return Group("signal", items)

    def signal_list(self) -> SignalList:
        self.take("signallist")
        name = self.name()
        self.take("=")
        items = self.sigs()
        self.end()
        return SignalList(name, items)

    def sigs(self) -> list:
        """Names of signals, and names of lists, each of these as a list of one name."""
        return self.listed(lambda: self.in_parentheses(self.name) or self.name())

    def synonyms(self) -> Group:
        self.take("synonym")
        items = self.listed(self.synonym)
        self.end()
        return Group("synonym", items)

    def synonym(self) -> Synonym:
        name, sort = self.name(), self.name()
        self.take("=")
        return Synonym(name, sort, self.expression(), None)

    def channel(self) -> Channel:
        self.take("channel")
        name, is_immediate = self.name(), self.has("nodelay")
        paths = [self.path()]
        if self.word == "from":
            paths.append(self.path())
        self.close("endchannel")
        return Channel(name, is_immediate, paths)

    def path(self) -> Path:
        self.take("from")
        start = self.point()
        self.take("to")
        end = self.point()
        self.take("with")
        items = self.sigs()
        self.end()
        return Path(start, end, items)

    def point(self) -> str | None:
        return ENVIRONMENT if self.has("env") else self.name()

    def connect(self) -> Connect:
        self.take("connect")
        outer = self.listed(self.name)
        self.take("and")
        inner = self.listed(self.name)
        self.end()
        return Connect(outer, inner)

    # ---- processes

    def process(self, around: Scope) -> Process:
        self.take("process")
        process = Process(self.name(), around)
        process.counts = self.counts() if self.has("(") else [None, None]
        self.end()
        if self.word == "fpar":
            process.definitions.append(self.variables("fpar"))
        while self.word != "start":
            process.definitions.append(self.definition(process))
        self.take("start")
        self.end()
        process.start = self.body()
        while self.word != "endprocess":
            process.parts.append(self.connection() if self.word == "connection" else self.state())
        self.close("endprocess")
        return process

    def counts(self) -> list:
        """The initial number and the maximum, each of which may be left out."""
        initial = None if self.word in (",", ")") else self.expression()
        most = self.expression() if self.has(",") and self.word != ")" else None
        self.take(")")
        return [initial, most]

    def variables(self, word: str = "dcl") -> Variables:
        self.take(word)
        groups = self.listed(self.group)
        self.end()
        return Variables(word, groups)

    def group(self) -> tuple:
        """Variables of one sort, with the initial value of all of them."""
        names = self.listed(self.name)
        sort = self.name()
        initial = self.expression() if self.has(":=") else None
        return [Variable(name, sort) for name in names], initial

    def signal_set(self) -> SignalSet:
        self.take("signalset")
        items = self.sigs()
        self.end()
        return SignalSet(items)

    def timers(self) -> Group:
        self.take("timer")
        items = self.listed(self.timer)
        self.end()
        return Group("timer", items)

    def timer(self) -> Signal:
        name, sorts = self.name(), self.in_parentheses(self.name)
        return Signal(name, sorts, True, self.expression() if self.has(":=") else None)

    # ---- states

    def state(self) -> State:
        self.take("state")
        is_star = self.has("*")
        state = State(is_star, self.in_parentheses(self.name) if is_star else self.listed(self.name))
        self.end()
        readers = {"input": self.input, "priority": self.urgent, "save": self.save, "provided": self.continuous}
        while self.word in readers:
            state.stimuli.append(readers[self.word]())
        if self.word == "endstate":
            self.close("endstate")
        return state

    def input(self) -> Input:
        self.take("input")
        pairs = [] if self.has("*") else self.listed(self.pair)
        self.end()
        condition = self.condition() if self.word == "provided" else None
        return Input(pairs, False, condition, self.body())

    def urgent(self) -> Input:
        self.take("priority")
        self.take("input")
        pairs = self.listed(self.pair)
        self.end()
        return Input(pairs, True, None, self.body())

    def pair(self) -> tuple:
        """A signal, and the variables for its values, some of which may be left out."""
        return self.name(), self.in_parentheses(lambda: self.name() if self.word == "name" else None)

    def condition(self):
        self.take("provided")
        condition = self.expression()
        self.end()
        return condition

    def save(self) -> Save:
        self.take("save")
        items = [] if self.has("*") else self.sigs()
        self.end()
        return Save(items)

    def continuous(self) -> Continuous:
        condition, priority = self.condition(), None
        if self.has("priority"):
            priority = int(self.take("number"))
            self.end()
        return Continuous(condition, priority, None, self.body())

    def connection(self) -> Connection:
        self.take("connection")
        label = self.name()
        self.take(":")
        body = self.body()
        if self.word == "endconnection":
            self.close("endconnection")
        return Connection(label, body)

    # ---- transitions

    def body(self) -> Body:
        body = Body([])
        while self.word == "name" or self.word in ACTIONS | TERMINATORS:
            label = self.label()
            if self.word in TERMINATORS:
                body.end = self.terminator()
                body.end.label = label
                break
            statement = getattr(self, self.word)()
            statement.label = label
            body.statements.append(statement)
        return body

    def label(self) -> str | None:
        if self.word != "name":
            return None
        label = self.name()
        self.take(":")
        return label

    def terminator(self) -> Terminator:
        word = self.take(self.word).lower()
        name = None
        if word != "stop":
            name = self.take("-") if self.word == "-" else self.name()
        self.end()
        return Terminator(word, name)

    def task(self) -> Task:
        self.take("task")
        pairs = self.listed(self.assignment)
        self.end()
        return Task(pairs)

    def assignment(self) -> tuple:
        name = self.name()
        self.take(":=")
        return name, self.expression()

    def call(self) -> tuple:
        """A name with its values."""
        return self.name(), self.in_parentheses(self.expression)

    def output(self) -> Output:
        self.take("output")
        signals = self.listed(self.call)
        to = self.expression() if self.has("to") else None
        self.end()
        return Output(signals, to)

    def set(self) -> Set:
        self.take("set")
        clauses = self.listed(self.clause)
        self.end()
        return Set(clauses)

    def clause(self) -> tuple:
        """A time or none, a timer and its values."""
        self.take("(")
        time = None
        if self.has_time():
            time = self.expression()
            self.take(",")
        timer, values = self.call()
        self.take(")")
        return time, timer, values

    def has_time(self) -> bool:
        """Whether a comma is in no inner parentheses before the clause's end."""
        depth = 0
        for word in self.words[self.at :]:
            if depth == 0 and word in (",", ")"):
                return word == ","
            depth += (word == "(") - (word == ")")
        return False

    def reset(self) -> Reset:
        self.take("reset")
        groups = self.listed(lambda: self.in_parentheses(self.call))
        self.end()
        return Reset(groups)

    def create(self) -> Create:
        self.take("create")
        process, values = self.call()
        self.end()
        return Create(process, values)

    def decision(self) -> Decision:
        self.take("decision")
        question = self.expression()
        self.end()
        parts, otherwise = [], None
        while self.word == "(":
            answers = self.in_parentheses(self.answer)
            self.take(":")
            parts.append((answers, self.body()))
        if self.has("else"):
            self.take(":")
            otherwise = self.body()
        self.take("enddecision")
        self.end()
        return Decision(question, parts, otherwise)

    def answer(self) -> Answer:
        if self.word in COMPARISONS:
            return Answer(self.take(self.word), self.expression())
        first = self.expression()
        if self.has(":"):
            return Answer(":", first, self.expression())
        return Answer(None, first)

    # ---- expressions

    def expression(self, least: int = 1):
        """An expression of operators that are at least so strong; those of one strength group to the left."""
        left = self.signed()
        while STRENGTH.get(self.word, 0) >= least:
            mark = self.word
            self.take(mark)
            left = Joined(left, mark, self.expression(STRENGTH[mark] + 1))
        return left

    def signed(self):
        if self.word in ("-", "not"):
            mark = self.word
            self.take(mark)
            return Signed(mark, self.primary())
        return self.primary()

    def primary(self):
        word = self.word
        if self.has("("):
            inner = self.expression()
            self.take(")")
            return Inner(inner)
        if self.has("active"):
            self.take("(")
            timer, values = self.call()
            self.take(")")
            return Active(timer, values)
        if word == "number":
            return Literal(int(self.take(word)))
        if word in LITERALS:
            self.take(word)
            return Literal("null" if word == "null" else word == "true")
        if word in OWN:
            self.take(word)
            return Own(word)
        return Named(self.name())
