"""Judges what `bench` answers to a row of calls of a port if memory is refused: one line of how the row ended."""

from dataclasses import dataclass

from soaking.trace import demand

# By name: the words of the command line, and how much is done.
ROWS = {
    "two-senders": ("two-senders 5", 10),
    "many-puts": ("two-senders 100", 200),
    "stop-and-workers": ("stop-and-workers 1", 1),
    "save-in-port": ("save-in-port 1", 1),
    "finish": ("finish 5", 5),
}
CALLS = ["port", "put", "take", "gather", "finish"]
TWICE, MEMORY = "twice refused", "out of memory"
KINDS = ["whole", *(f"{call} again" for call in CALLS), TWICE, MEMORY]


@dataclass
class Row:
    """A row of calls."""

    name: str
    asked: str
    count: int
    input: bytes = b""

    @property
    def words(self):
        return self.asked.split()

    @property
    def line(self):
        """The answer if nothing is refused."""
        return f"{self.asked}: {self.count}"

    def is_as_wanted(self, answer):
        """Whether the answer with no allocation refused is that of a whole row."""
        return (answer.status, line_of(answer.output), answer.messages) == (0, self.line, b"")

    def kinds(self):
        """The kind of each answer that there may be, by its status, its line and its message."""
        told = f"bench: {self.asked}: {MEMORY}"
        # The command line is told of no lack of memory.
        kinds = {(0, self.line, ""): "whole", (3, "", told): MEMORY, (3, "", ""): MEMORY}
        for call in CALLS:
            kinds[0, f"{self.line}, {call} made again", ""] = f"{call} again"
            kinds[3, "", f"{told}, {call}"] = TWICE
        return kinds

    def kind_of(self, answer, _, is_to_the_end):
        """Of which kind an answer is. If one allocation alone is refused, no second call may be."""
        kind = self.kinds().get((answer.status, line_of(answer.output), line_of(answer.messages)))
        demand(kind is not None, f"status {answer.status}, {answer.output[:200]}, {answer.messages[:200]}")
        demand(kind != TWICE or is_to_the_end, f"one allocation refused, and two calls: {line_of(answer.messages)}")
        return kind


def line_of(text):
    return text.decode().removesuffix("\n")


def read():
    """The rows by name."""
    return {name: Row(name, *row) for name, row in ROWS.items()}
