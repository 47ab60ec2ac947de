"""Whom signals reached where the report doesn't say it: those of the script, and those that were sent to a number which
nobody had yet. All choices are tried by which the ports can give what was taken."""

from collections import defaultdict
from collections.abc import Iterator
from dataclasses import dataclass
from itertools import product

from judging.living import Living
from judging.replay import Birth, Sent, Story
from soaking.trace import Wrong

GONE, MOST_TRIES = "gone", 100_000
UNKNOWN = "{}: {} goes to {} before there is one, and nobody can know the number"


class Undecided(Exception):
    """There are too many choices to try."""


@dataclass
class Choices:
    """The signals of the script in their order, and those of the records; each choice gives each its fate: the name of
    an instance, or none."""

    births: dict[int, Birth]
    stories: dict[int, Story]
    living: Living
    heard: list[Sent]
    named: set[str]

    def all(self) -> Iterator[list[tuple[Sent, str]]]:
        sent = [list(self.beginnings(stream)) for stream in self.streams().values()]
        for heard in self.heard_choices():
            for chosen in product(*sent):
                yield [*zip(self.heard, heard), *(pair for stream in chosen for pair in stream)]

    # ---- signals of instances

    def streams(self) -> dict[tuple, list[Sent]]:
        """What each instance sends to each other one."""
        streams = defaultdict(list)
        for story in self.stories.values():
            for one in story.sent:
                if one.target.startswith("#"):
                    streams[one.sender, one.target].append(one)
        return streams

    def beginnings(self, stream: list[Sent]) -> Iterator[list[tuple[Sent, str]]]:
        """Of what an instance sends to another, the first signals may be gone."""
        fates = [self.fates(one, one.target) for one in stream]
        least = max([turn for turn, kinds in enumerate(fates, 1) if kinds == [GONE]], default=0)
        most = min([turn for turn, kinds in enumerate(fates) if GONE not in kinds], default=len(stream))
        for gone in range(least, most + 1):
            yield [(one, GONE if turn < gone else one.target) for turn, one in enumerate(stream)]

    def fates(self, one: Sent, target: str) -> list[str]:
        """Whether a signal comes to the number to which it is sent, or is gone since nobody has it yet."""
        birth = self.births.get(int(target[1:]))
        if birth is None:
            return [GONE]
        if birth.drawn is None or one.sender == target or one.time > birth.time or not isinstance(one.to, str):
            return [target]
        if one.sender == birth.parent and one.point > birth.entered:
            return [target]
        is_known = one.sender == "env" or target in self.named
        # The script's signals are heard while all rest: an instance that is made at the same time is made later.
        is_heard = one.sender == "env" and one.time > 0
        if one.time < birth.time or one.sender == birth.parent or is_heard:
            if not is_known:
                raise Wrong(UNKNOWN.format(one.sender, one, target))
            return [GONE]
        return [target, GONE] if is_known else [target]

    # ---- signals of the script

    def heard_fates(self, one: Sent) -> list[str]:
        return self.fates(one, one.to) if isinstance(one.to, str) else self.living.options(one)

    def taken(self) -> dict[tuple, list[tuple]]:
        """The values of all that was taken from the environment, by instance and signal."""
        taken = defaultdict(list)
        for story in self.stories.values():
            for step in story.steps:
                if step.sender == "env":
                    taken[story.name, step.signal].append(step.values)
        return taken

    def heard_choices(self) -> Iterator[list[str]]:
        """The fates of the script's signals, one after the other. A signal that comes to an instance is the next one of
        its name that is taken there, if any is; where that can't be, the last one before it gets another fate."""
        taken, used = self.taken(), defaultdict(int)
        fates = [self.heard_fates(one) for one in self.heard]
        chosen: list[str] = []
        tries, waiting = 0, [iter(fates[0])] if fates else []
        if not fates:
            yield []
        while waiting:
            tries += 1
            if tries > MOST_TRIES + len(fates):
                raise Undecided
            fate = next(waiting[-1], None)
            if fate is None:
                waiting.pop()
            else:
                one = self.heard[len(chosen)]
                values = taken[fate, one.signal]
                if used[fate, one.signal] < len(values) and values[used[fate, one.signal]] != one.values:
                    continue
                chosen.append(fate)
                used[fate, one.signal] += 1
                if len(chosen) < len(fates):
                    waiting.append(iter(fates[len(chosen)]))
                    continue
                if all(len(values) <= used[key] for key, values in taken.items()):
                    yield list(chosen)
            if chosen:
                used[chosen[-1], self.heard[len(chosen) - 1].signal] -= 1
                chosen.pop()

    def unheard(self) -> str:
        """What is wrong if no choice gives what was taken from the environment."""
        fates = [(one, self.heard_fates(one)) for one in self.heard]
        for story in self.stories.values():
            left = [one for one, kinds in fates if story.name in kinds]
            for step in story.steps:
                if step.sender != "env":
                    continue
                found = [it for it in left if (it.signal, it.values) == (step.signal, step.values)]
                if not found or found[0].time > step.time:
                    return f"{story.name}: line `{step.line}`: the script doesn't send it here by then"
                left.remove(found[0])
        return "the script's signals can't have come as they are taken"
