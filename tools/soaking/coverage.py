"""What a run covered, as LANGUAGE.md tells it: the two texts that `--coverage` writes.

Where everything is that can be covered, the writer of the text notes (`Notes`). How often it was, the reference counts
while it makes the run; answers in a run of its own, in which each part of a decision costs a statement more."""

from collections import Counter
from dataclasses import dataclass, field

UNKNOWN = "answers of decisions: not known, since a run that counts them is another one\n"


@dataclass
class Part:
    """A part of a decision: its tokens, its body, the token of its decision, and its own number."""

    start: int
    end: int
    is_else: bool
    body: object
    decision: int
    number: int


@dataclass
class Covered:
    """Where the states, the stimuli and the parts of decisions of a process are, by their tokens."""

    process: object
    states: dict = field(default_factory=dict)
    stimuli: list = field(default_factory=list)
    parts: list = field(default_factory=list)


class Notes:
    """What there is to cover, as a text is written."""

    def __init__(self):
        self.processes = []

    def process(self, process):
        self.processes.append(Covered(process))

    def state(self, at, name):
        self.processes[-1].states.setdefault(name, at)

    def stimulus(self, at, state, stimulus, signal=None):
        self.processes[-1].stimuli.append((at, state, stimulus, signal))

    def part(self, part):
        self.processes[-1].parts.append(part)


@dataclass
class Item:
    """What may happen at a place, and how often it did. Of a stimulus also its place and the number of the state; of an
    answer the place of its decision and the number of its part."""

    place: tuple
    kind: str
    owner: str
    what: str
    times: int
    branch: tuple | None = None

    @property
    def at(self):
        return "%d:%d" % self.place


class Text:
    """The tokens of a text, each with the gap behind it."""

    def __init__(self, tokens, pieces):
        self.tokens, self.pieces = tokens, pieces

    def place(self, at):
        *lines, last = "".join(self.pieces[:at]).encode().split(b"\n")
        return len(lines) + 1, len(last) + 1

    def shown(self, start, end):
        """Some tokens, with one blank in place of each gap."""
        pairs = zip(self.tokens[start:end], self.pieces[start:end])
        return "".join(token + " " * (piece != token) for token, piece in pairs).rstrip(" ")


def sections(notes, text, run, marked):
    """Each process by its name with its items; `marked` is the run that counts the answers, or none."""
    return [(it.process.name, items(it, text, run, marked)) for it in notes.processes]


def items(covered, text, run, marked):
    process, passes = covered.process, run.passes
    found = [
        Item(text.place(at), "state", f"in {name}", "entered", passes[process, name, "entered"])
        for name, at in covered.states.items()
    ]
    numbers = Counter()
    for at, state, stimulus, signal in covered.stimuli:
        for name in states_of(state, covered.states):
            what, times = stimulus_of(process, name, stimulus, signal, numbers, passes)
            branch = *text.place(at), list(covered.states).index(name)
            found.append(Item(text.place(at), "stimulus", f"in {name}", what, times, branch))
    for part in covered.parts if marked else []:
        line, column = text.place(part.decision)
        branch = line, column, part.number
        owner, what = f"decision of {line}:{column}", text.shown(part.start, part.end)
        what = "else" if part.is_else else what
        found.append(Item(text.place(part.start), "answer", owner, what, marked.passes[part.body], branch))
    return sorted(found, key=lambda it: it.place)


def states_of(state, names):
    """The states that a part of states is of, in the order in which the text first names them."""
    return [it for it in names if (it in state.names) != state.is_star]


def stimulus_of(process, name, stimulus, signal, numbers, passes):
    """What a stimulus of a state awaits, and how often that came."""
    if signal is not None:
        return f"{'priority ' * stimulus.is_urgent}input {signal.name}", passes[process, name, signal]
    if stimulus.is_continuous:
        numbers[name] += 1
        return f"provided {numbers[name]}", passes[process, name, numbers[name]]
    return "input *", passes[process, name, "rest"]


# ---- the texts


def plain(found, is_known):
    """The text for people."""
    all_of = [(name, it) for name, its in found for it in its]
    missed = [(name, it) for name, it in all_of if it.kind != "state" and not it.times]
    entered = [(name, it) for name, it in all_of if it.kind == "state"]
    never = [(name, it) for name, it in entered if not it.times]
    wide = Widths(found)
    lines = [f"never: {len(missed)} of {len(all_of) - len(entered)}\n", *(wide.missed(*it) for it in missed)]
    if never:
        lines += [f"never entered: {len(never)} of {len(entered)} states\n", *(wide.missed(*it) for it in never)]
    lines += [UNKNOWN] * (not is_known)
    for name, its in found:
        kinds = [("states", "state"), ("stimuli", "stimulus"), *[("answers", "answer")] * is_known]
        lines.append(f"{name}: {', '.join(f'{word} {tally(its, kind)}' for word, kind in kinds)}\n")
        lines += [wide.row(it) for it in its]
    return "".join(lines)


def tally(its, kind):
    times = [it.times for it in its if it.kind == kind]
    return f"{sum(number > 0 for number in times)} of {len(times)}"


class Widths:
    """The columns of the text: each as wide as what is widest in it."""

    def __init__(self, found):
        its = [it for _, its in found for it in its]
        self.at, self.owner, self.what = (
            max(map(len, column), default=0)
            for column in ([it.at for it in its], [it.owner for it in its], [it.what for it in its])
        )
        self.name = max((len(name) for name, _ in found), default=0)

    def missed(self, name, it):
        return f"  {it.at:{self.at}}  {name:{self.name}}  {it.owner:{self.owner}}  {it.what}\n"

    def row(self, it):
        return f"  {it.at:{self.at}}  {it.owner:{self.owner}}  {it.what:{self.what}}  {it.times}\n"


def tracefile(found, is_known, source):
    """The text for LCOV."""
    its = [it for _, its in found for it in its if it.kind != "state"]
    lines = Counter()
    for it in its:
        lines[it.branch[0]] += it.times
    told = [f"TN:{'' if is_known else 'answers_not_known'}", f"SF:{source}"]
    told += ["BRDA:%d,%d,%d,%d" % (*it.branch, it.times) for it in its]
    told += [f"BRF:{len(its)}", f"BRH:{sum(it.times > 0 for it in its)}"]
    told += [f"DA:{line},{times}" for line, times in sorted(lines.items())]
    told += [f"LF:{len(lines)}", f"LH:{sum(times > 0 for times in lines.values())}", "end_of_record"]
    return "".join(f"{line}\n" for line in told)
