"""What a reference looks up in a process: the nodes of its transitions, and what its states do."""

from dataclasses import dataclass

from soaking.specification import Channel, Connection, Continuous, Input, Save, State, signals_of
from soaking.transitions import Decision
from soaking.values import value_of


@dataclass
class Reaction:
    """What a state does with a signal."""

    kind: str
    places: list = None
    body: object = None
    is_star: bool = False


class Code:
    """The transitions of a process as nodes that stand one behind the other, with the places of its labels."""

    def __init__(self, process):
        self.nodes = []
        self.labels = {}
        self.begins = {}
        for body in [process.start, *[it.body for it in process.stimuli() if not isinstance(it, Save)]]:
            self.begins[id(body)] = len(self.nodes)
            self.add(body)
        for part in process.parts:
            if isinstance(part, Connection):
                self.labels[part.label] = len(self.nodes)
                self.add(part.body)

    def add(self, body):
        for statement in [*body.statements, *[body.end] * (body.end is not None)]:
            if statement.label is not None:
                self.labels[statement.label] = len(self.nodes)
            if isinstance(statement, Decision):
                self.decision(statement)
            else:
                self.nodes.append(statement)

    def decision(self, decision):
        node = {"question": decision.question, "parts": [], "else": None, "bodies": {}}
        self.nodes.append(node)
        jumps = []
        for answers, body in [*decision.parts, *[(None, decision.otherwise)] * (decision.otherwise is not None)]:
            if answers is None:
                node["else"] = len(self.nodes)
            else:
                node["parts"].append((answers, len(self.nodes)))
            node["bodies"][len(self.nodes)] = body
            self.add(body)
            jumps.append(len(self.nodes))
            self.nodes.append(None)
        for jump in jumps:
            self.nodes[jump] = len(self.nodes)


class Table:
    """What the states of a process do, by the parts that name them."""

    def __init__(self, process):
        self.valid = process.named() | set(process.timers)
        for channel in process.around.all_of(Channel):
            for path in channel.paths:
                self.valid |= set(signals_of(path.items)) if path.end is process else set()
        self.stimuli = {
            name: [it for part in process.parts if isinstance(part, State) and part.covers(name) for it in part.stimuli]
            for name in process.states
        }

    def truths(self, name, knows):
        """The truth of each enabling condition of a state, in the order of the text."""
        inputs = [it for it in self.stimuli[name] if isinstance(it, Input) and it.condition is not None]
        return {id(it): value_of(it.condition, knows) for it in inputs}

    def reaction(self, name, signal, truths):
        """What the state does with a signal: what it says of it, else what its asterisk says, else it discards it."""
        star = None
        for stimulus in self.stimuli[name]:
            if isinstance(stimulus, Save):
                if not stimulus.items:
                    star = Reaction("save")
                elif signal in signals_of(stimulus.items):
                    return Reaction("save")
            elif isinstance(stimulus, Input):
                is_open = truths.get(id(stimulus), True)
                kind = "priority" if stimulus.is_urgent else "input" if is_open else "save"
                if not stimulus.pairs:
                    star = Reaction(kind, [], stimulus.body, True)
                for one, places in stimulus.pairs:
                    if one is signal:
                        return Reaction(kind, places, stimulus.body)
        return star if star and signal in self.valid else Reaction("discard")

    def continuous(self, name):
        """Its continuous signals, each with its number, in the order in which they are tried."""
        all_of = [it for it in self.stimuli[name] if isinstance(it, Continuous)]
        return sorted(enumerate(all_of, 1), key=lambda it: (it[1].priority is None, it[1].priority or 0, it[0]))
