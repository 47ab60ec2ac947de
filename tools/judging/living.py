"""Who lived when: whom signals may reach, and when a create gives no number."""

from dataclasses import dataclass, field
from functools import cached_property

from judging.order import Order
from judging.replay import Asked, Sent, Story
from soaking.routes import Routes
from soaking.specification import ENVIRONMENT, Process

MOST_INSTANCES, MOST_DOUBTS = 1_000, 200
PASSED = "{}: {} goes to {}, though {} lives and comes first"
UNBORN = "{}: {} goes to {} before there is one"


@dataclass
class Living:
    """The instances of a run, by their processes. One lives from its create to the end of its record."""

    routes: Routes
    stories: dict[int, Story]
    order: Order
    by_process: dict[Process, list[Story]] = field(default_factory=dict)
    doubts: list[tuple[Sent, Story]] = field(default_factory=list)

    def __post_init__(self):
        for story in self.stories.values():
            self.by_process.setdefault(story.process, []).append(story)

    @staticmethod
    def is_unborn(story: Story, time: int) -> bool:
        """Whether it may be that the instance is not there yet at some moment of this time."""
        return story.birth.drawn is not None and story.birth.time >= time

    @staticmethod
    def is_gone(story: Story, time: int) -> bool:
        """Whether it may be that it has ended."""
        return story.ended and story.time <= time

    @staticmethod
    def may_live(story: Story, time: int) -> bool:
        return story.birth.time <= time and not (story.ended and story.time < time)

    def lives_at_rest(self, story: Story, time: int) -> bool:
        """Whether it lives when the clock has moved to this time, and nobody steps yet."""
        return self.may_live(story, time) and not self.is_unborn(story, time)

    def must_live(self, story: Story, time: int) -> bool:
        return not self.is_unborn(story, time) and not self.is_gone(story, time)

    # ---- targets

    def receivers(self, one: Sent) -> tuple[list[Process], str]:
        """The processes that may get a signal, and where it goes if none of them has an instance."""
        if isinstance(one.to, Process):
            return [one.to], "nobody"
        source = ENVIRONMENT if one.sender == "env" else self.stories[int(one.sender[1:])].process
        processes, outside = self.routes.of(source, one.signal)
        return processes, "env" if outside else "nobody"

    def candidates(self, one: Sent) -> list[Story]:
        """The instances that may get it, in their order, up to the first that lives whatever came before what. Of the
        script's signals it is known who lives, except at time 0: they are heard while all rest."""
        found, is_at_rest = [], one.sender == "env" and one.time > 0
        for process in self.receivers(one)[0]:
            for story in self.by_process.get(process, []):
                if is_at_rest and self.lives_at_rest(story, one.time):
                    return [story]
                if not is_at_rest and self.may_live(story, one.time):
                    found.append(story)
                if not is_at_rest and self.must_live(story, one.time):
                    return found
        return found

    def options(self, one: Sent) -> list[str]:
        """Whom it may reach."""
        candidates, is_at_rest = self.candidates(one), one.sender == "env" and one.time > 0
        found = [story.name for story in candidates]
        if not candidates or not is_at_rest and not self.must_live(candidates[-1], one.time):
            found.append(self.receivers(one)[1])
        return found

    def judge_target(self, one: Sent) -> None:
        """It reaches an instance that lives, and none that comes before that lives."""
        sender = one.sender
        for story in self.candidates(one):
            if story.name == one.target:
                if story.birth.drawn is not None:
                    self.order.put(story.birth.lives, one.looked, (UNBORN, sender, one, one.target))
                return
            self.judge_passed(one, story)

    def judge_passed(self, one: Sent, story: Story) -> None:
        """An instance doesn't live as the signal is sent: it is not there yet, or has ended."""
        why = (PASSED, one.sender, one, one.target, story.name)
        if not self.is_gone(story, one.time):
            self.order.put(one.looked, story.birth.lives, why)
        elif not self.is_unborn(story, one.time):
            self.order.put(story.last, one.looked, why)
        else:
            self.doubts.append((one, story))

    def settle_doubts(self) -> None:
        """Instances that may be created after a signal or have ended before it. Where one of both can't be, the other
        is so. Of many such instances only the first are looked at; where both can be, nothing is said."""
        for one, story in self.doubts[:MOST_DOUBTS]:
            why = (PASSED, one.sender, one, one.target, story.name)
            if one.looked in self.order.reached(story.birth.lives):
                self.order.put(story.last, one.looked, why)
            elif story.last in self.order.reached(one.looked):
                self.order.put(one.looked, story.birth.lives, why)

    # ---- creates

    def judge_create(self, story: Story, asked: Asked) -> None:
        """A create gives null only if as many live as may; and it gives a number only if fewer do."""
        most, others = asked.process.most, self.by_process.get(asked.process, [])
        if asked.number is not None:
            living = sum(self.lives_before(other, story, asked) for other in others)
            story.demand(most is None or living < most, f"{asked}, though {living} live, as many as may")
        elif len(self.stories) < MOST_INSTANCES and not self.is_memory_wanting:
            living = sum(self.may_live_before(other, story, asked) for other in others)
            story.demand(most is not None and living >= most, f"{asked}, though no more than {living} live")

    @cached_property
    def is_memory_wanting(self) -> bool:
        """Whether an instance has failed for lack of memory. Asked once, since each null of a create asks."""
        return any(line.endswith("failed Memory") for story in self.stories.values() for line in story.record.lines)

    def lives_before(self, other: Story, story: Story, asked: Asked) -> bool:
        if other is story:
            return True
        is_there = other.birth.parent == story.name and other.birth.drawn < asked.point
        return not self.is_gone(other, asked.time) and (is_there or not self.is_unborn(other, asked.time))

    def may_live_before(self, other: Story, story: Story, asked: Asked) -> bool:
        is_later = other.birth.parent == story.name and other.birth.drawn > asked.point
        return self.may_live(other, asked.time) and not is_later
