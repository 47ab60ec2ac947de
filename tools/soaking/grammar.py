"""The grammar of LANGUAGE.md, read from left to right: where a list of tokens can't go on, and what is told there."""

from soaking.specification import WORDS

LEFT_OUT = set(
    "alternative any call exception exceptionhandler export exported gate if import imported inherits interface macro"
    " macrodefinition newtype none package procedure referenced remote return revealed select service signalroute"
    " substructure syntype this type via view viewed virtual".split()
)
LITERALS = {"true", "false", "null"}
OWN = {"now", "self", "parent", "offspring", "sender"}
OPERATORS = set("=> or xor and = /= < <= > >= + - * / mod rem".split())
COMPARISONS = ("=", "/=", "<", "<=", ">", ">=")
ACTIONS = {"task", "output", "set", "reset", "create", "decision"}
TERMINATORS = {"nextstate", "stop", "join"}


class Refused(Exception):
    """The number of the token at which no reading goes on, and what is told of it."""

    def __init__(self, at, told):
        super().__init__(at, told)
        self.at, self.told = at, told


def meaning(token):
    """What a token is: a keyword or a mark in its one spelling, or `name`, `number`, `text`, or `left out`."""
    lower = token.lower()
    if token.isdigit():
        return "number"
    if token.startswith("'"):
        return "text"
    if not token[0].isalpha():
        return token
    is_spelled = token in (lower, token.upper()) or lower in LITERALS and token == lower.capitalize()
    if is_spelled and lower in WORDS:
        return lower
    return "left out" if token in (lower, token.upper()) and lower in LEFT_OUT else "name"


class Reader:
    """Reads one production after the other; each method is named after its own."""

    def __init__(self, tokens):
        self.tokens = tokens
        self.words = [*map(meaning, tokens), None]
        self.at = 0

    @property
    def word(self):
        return self.words[self.at]

    def refuse(self, wanted):
        if self.word == "left out":
            raise Refused(self.at, f"LeftOut {self.tokens[self.at].lower()}")
        raise Refused(self.at, "LeftOut text" if self.word == "text" else f"Expected {wanted}")

    def take(self, *wanted):
        """Takes the words that must come."""
        for word in wanted:
            if self.word != word:
                self.refuse(word)
            self.at += 1

    def has(self, word):
        """Takes the word if it comes."""
        found = self.word == word
        self.at += found
        return found

    def listed(self, read):
        read()
        while self.has(","):
            read()

    def name(self):
        self.take("name")
        return self.tokens[self.at - 1]

    def end(self):
        if self.has("comment"):
            self.take("text")
        self.take(";")

    def close(self, word, names):
        """The end of what has one of these names, which may stand there."""
        self.take(word)
        self.closing(names)

    def closing(self, names):
        if self.word == "name" and names:
            if self.tokens[self.at] not in names:
                self.refuse(names[0])
            self.at += 1
        self.end()

    # ---- definitions

    def specification(self):
        self.scope("system", ("signal", "signallist", "synonym", "channel", "block", "process"))
        if self.word is not None:
            self.refuse("end")

    def scope(self, word, kinds):
        self.take(word)
        name = self.name()
        self.end()
        while self.word in kinds:
            getattr(self, self.word)()
        self.close("end" + word, [name])

    def block(self):
        self.scope("block", ("signal", "signallist", "synonym", "channel", "connect", "process"))

    def signal(self):
        self.take("signal")
        self.listed(lambda: (self.name(), self.sorts()))
        self.end()

    def sorts(self):
        if self.has("("):
            self.listed(self.name)
            self.take(")")

    def signallist(self):
        self.take("signallist", "name", "=")
        self.sigs()
        self.end()

    def sigs(self):
        self.listed(lambda: self.take("name", ")") if self.has("(") else self.name())

    def synonym(self):
        self.take("synonym")
        self.listed(lambda: (self.take("name", "name", "="), self.expr()))
        self.end()

    def channel(self):
        self.take("channel")
        name = self.name()
        self.has("nodelay")
        self.path()
        if self.word == "from":
            self.path()
        self.close("endchannel", [name])

    def path(self):
        self.take("from")
        self.point()
        self.take("to")
        self.point()
        self.take("with")
        self.sigs()
        self.end()

    def point(self):
        if not self.has("env") and not self.has("name"):
            self.refuse("point")

    def connect(self):
        self.take("connect")
        self.listed(self.name)
        self.take("and")
        self.listed(self.name)
        self.end()

    def process(self):
        self.take("process")
        name = self.name()
        if self.has("("):
            self.maybe_expr()
            if self.has(","):
                self.maybe_expr()
            self.take(")")
        self.end()
        if self.has("fpar"):
            self.vars(False)
            self.end()
        while self.word in ("signal", "signallist", "synonym", "signalset", "dcl", "timer"):
            getattr(self, self.word)()
        self.take("start")
        self.end()
        self.trans()
        while self.word in ("state", "connection"):
            getattr(self, self.word)()
        self.close("endprocess", [name])

    def vars(self, may_begin):
        self.name()
        while self.has(","):
            self.name()
        self.name()
        if may_begin and self.has(":="):
            self.expr()
        if self.has(","):
            self.vars(may_begin)

    def signalset(self):
        self.take("signalset")
        self.sigs()
        self.end()

    def dcl(self):
        self.take("dcl")
        self.vars(True)
        self.end()

    def timer(self):
        self.take("timer")
        self.listed(lambda: (self.name(), self.sorts(), self.has(":=") and self.expr()))
        self.end()

    # ---- states

    def state(self):
        self.take("state")
        names = []
        if self.has("*"):
            if self.has("("):
                self.listed(self.name)
                self.take(")")
        else:
            self.listed(lambda: names.append(self.name()))
        self.end()
        while self.word in ("input", "priority", "save", "provided"):
            {"input": self.input, "priority": self.urgent, "save": self.save, "provided": self.provided}[self.word]()
        if self.has("endstate"):
            self.closing(names)

    def input(self):
        self.take("input")
        if not self.has("*"):
            self.listed(self.in1)
        self.end()
        if self.has("provided"):
            self.expr()
            self.end()
        self.trans()

    def urgent(self):
        self.take("priority", "input")
        self.listed(self.in1)
        self.end()
        if self.word == "provided":
            raise Refused(self.at, "LeftOut provided")
        self.trans()

    def in1(self):
        self.name()
        if self.has("("):
            self.listed(lambda: self.has("name"))
            self.take(")")

    def save(self):
        self.take("save")
        if not self.has("*"):
            self.sigs()
        self.end()

    def provided(self):
        self.take("provided")
        self.expr()
        self.end()
        if self.has("priority"):
            self.take("number")
            self.end()
        self.trans()

    def connection(self):
        self.take("connection")
        label = self.name()
        self.take(":")
        self.trans()
        if self.has("endconnection"):
            self.closing([label])

    # ---- transitions

    def trans(self):
        while self.word == "name" or self.word in ACTIONS | TERMINATORS:
            if self.has("name"):
                self.take(":")
                if self.word not in ACTIONS | TERMINATORS:
                    self.refuse("action")
            if self.word in TERMINATORS:
                return self.terminator()
            getattr(self, self.word)()
        return None

    def terminator(self):
        if self.has("nextstate"):
            self.has("-") or self.name()
        elif not self.has("stop"):
            self.take("join", "name")
        self.end()

    def task(self):
        self.take("task")
        self.listed(lambda: (self.take("name", ":="), self.expr()))
        self.end()

    def call(self):
        self.name()
        self.args()

    def args(self):
        if self.has("("):
            self.listed(self.expr)
            self.take(")")

    def output(self):
        self.take("output")
        self.listed(self.call)
        if self.has("to"):
            self.expr()
        self.end()

    def set(self):
        self.take("set")
        self.listed(self.clause)
        self.end()

    def clause(self):
        self.take("(")
        if self.has_time():
            self.expr()
            self.take(",")
        self.call()
        self.take(")")

    def has_time(self):
        """Whether a comma stands in no inner parentheses before the clause's end."""
        depth = 0
        for word in self.words[self.at :]:
            if depth == 0 and word in (",", ")") or word in (";", None):
                return word == ","
            depth += (word == "(") - (word == ")")
        return False

    def reset(self):
        self.take("reset")
        self.listed(lambda: (self.take("("), self.listed(self.call), self.take(")")))
        self.end()

    def create(self):
        self.take("create")
        self.call()
        self.end()

    def decision(self):
        self.take("decision")
        self.expr()
        self.end()
        while self.has("("):
            self.listed(self.answer)
            self.take(")", ":")
            self.trans()
        if self.has("else"):
            self.take(":")
            self.trans()
        self.take("enddecision")
        self.end()

    def answer(self):
        if self.word in COMPARISONS:
            self.at += 1
            self.expr()
        else:
            self.expr()
            if self.has(":"):
                self.expr()

    # ---- expressions

    def maybe_expr(self):
        if self.word in {"-", "not", "(", "number", "name", "active"} | LITERALS | OWN:
            self.expr()

    def expr(self):
        self.signed()
        while self.word in OPERATORS:
            self.at += 1
            self.signed()

    def signed(self):
        self.has("-") or self.has("not")
        if self.word in {"number", "name"} | LITERALS | OWN:
            self.at += 1
        elif self.has("active"):
            self.take("(")
            self.call()
            self.take(")")
        elif self.has("("):
            self.expr()
            self.take(")")
        else:
            self.refuse("expression")


def refusal(tokens):
    """The number of the token at which no reading goes on, with what is told; nothing where all is read, or where a
    token begins a string or a comment, so that nothing is known of those behind it."""
    faults = {"'": None, "/*": None, "$": "lex {} BadByte", "9223372036854775808": "lex {} NumberTooBig"}
    for at, token in enumerate(tokens):
        if token in faults:
            return faults[token] and (at, faults[token])
    try:
        Reader(tokens).specification()
    except Refused as refused:
        return refused.at, "parse {} " + refused.told
    return None
