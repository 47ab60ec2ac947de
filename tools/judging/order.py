"""What came before what in a run, as far as its report says: points, and pairs of which the first came before."""

from dataclasses import dataclass, field

from soaking.trace import Wrong


@dataclass
class Order:
    """Points by number, each with those after it. A pair may have a reason, a template with what is to be put into it.
    A pair is of cause and effect, or only of the places in a port."""

    later: list[list[tuple[int, tuple | None, bool]]] = field(default_factory=list)
    log: list[int] = field(default_factory=list)

    def point(self, after: int | None = None) -> int:
        """A new point, which comes after another one."""
        self.later.append([])
        if after is not None:
            self.put(after, len(self.later) - 1)
        return len(self.later) - 1

    def put(self, before: int, after: int, why: tuple | None = None, is_cause: bool = True) -> None:
        self.later[before].append((after, why, is_cause))
        self.log.append(before)

    def mark(self) -> tuple[int, int]:
        return len(self.later), len(self.log)

    def undo(self, mark: tuple[int, int]) -> None:
        """Takes back all points and pairs that came after the mark."""
        points, pairs = mark
        for before in reversed(self.log[pairs:]):
            self.later[before].pop()
        del self.log[pairs:], self.later[points:]

    def demand_order(self) -> None:
        """Demands that the points can be put into a row; else says a reason why they can't."""
        left = self.unordered()
        if left:
            # What a port says tells more than that something is sent before it is taken.
            circle = sorted(self.circle(left), key=lambda pair: pair[1])
            reasons = [why for why, _ in circle if why is not None]
            template, *parts = reasons[0] if reasons else ["the records can't have happened in any order"]
            raise Wrong(template.format(*parts))

    def circle(self, left: set[int]) -> list[tuple[tuple | None, bool]]:
        """The pairs of a circle, their reasons and whether they are causes. Each point that is left has one before it
        that is left, too."""
        before: dict[int, tuple[int, tuple]] = {}
        for point in sorted(left):
            for after, *pair in self.later[point]:
                before.setdefault(after, (point, tuple(pair)))
        seen: dict[int, int] = {}
        path, point = [], min(left)
        while point not in seen:
            seen[point] = len(path)
            point, pair = before[point]
            path.append(pair)
        return path[seen[point] :][::-1]

    def unordered(self) -> set[int]:
        """The points that can't be put into a row: those on circles, and those after them."""
        waiting = [0] * len(self.later)
        for pairs in self.later:
            for after, _, _ in pairs:
                waiting[after] += 1
        free = [point for point, number in enumerate(waiting) if number == 0]
        left = set(range(len(self.later))).difference(free)
        while free:
            for after, _, _ in self.later[free.pop()]:
                waiting[after] -= 1
                if waiting[after] == 0:
                    left.remove(after)
                    free.append(after)
        return left

    def reached(self, start: int, by_cause: bool = False) -> set[int]:
        """The point and all after it; on wish only those of which it is a cause."""
        seen, waiting = {start}, [start]
        while waiting:
            for after, _, is_cause in self.later[waiting.pop()]:
                if after not in seen and (is_cause or not by_cause):
                    seen.add(after)
                    waiting.append(after)
        return seen
