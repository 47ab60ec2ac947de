"""Whether a report may be of a run: all that LANGUAGE.md says of runs, whatever the schedule was."""

from bisect import bisect_right
from collections import defaultdict
from collections.abc import Iterator
from dataclasses import dataclass, field
from math import inf

from judging.choices import GONE, Choices, Undecided
from judging.inputs import Given, given
from judging.living import MOST_INSTANCES, UNBORN, Living
from judging.order import Order
from judging.ports import Port, matched
from judging.replay import Birth, Plans, Replay, Sent, Story, TimerSet
from soaking import trace
from soaking.routes import Routes
from soaking.specification import Process, Signal
from soaking.trace import Trace, Wrong, demand

DEFAULT_LIMIT, MOST_CHOICES = 1_000_000, 200
SOON = "{}: line `{}`, before all lines of the script of that time are heard"
HASTE = "{}: line `{}`, after the script's first lines, which are no cause of it"


def judge(text: str, report: str, limit: int = DEFAULT_LIMIT) -> None:
    """Demands that the report may be of a run of the specification with its script, with this limit."""
    Judgement(given(text), trace.read(report), limit).judge()


@dataclass
class Judgement:
    """A report, judged part by part; each part adds to the stories of the instances, and to the order of the run."""

    given: Given
    report: Trace
    limit: int
    order: Order = field(default_factory=Order)
    plans: Plans = field(default_factory=Plans)
    births: dict[int, Birth] = field(default_factory=dict)
    processes: dict[int, Process] = field(default_factory=dict)
    stories: dict[int, Story] = field(default_factory=dict)
    clock: list[int] = field(default_factory=list)
    moves: dict[int, int] = field(default_factory=dict)
    begins: dict[int, int] = field(default_factory=dict)
    heard: list[Sent] = field(default_factory=list)
    first: int = 0
    living: Living | None = None

    def judge(self) -> None:
        for record in self.report.records:
            trace.judge_record(record, self.report)
        self.begin()
        self.replay()
        self.judge_end()
        self.judge_clock()
        self.living = Living(Routes(self.given.system), self.stories, self.order)
        self.judge_targets()
        self.judge_signals()

    # ---- records

    def begin(self) -> None:
        """Who is there from the start, and of which process each instance says that it is."""
        self.first = self.order.point()
        before = 0
        for record in self.report.records:
            demand(record.number > before, f"#{record.number}: comes after #{before}, but numbers ascend")
            before = record.number
        for process in self.given.system.processes():
            for _ in range(process.initial):
                number = len(self.births) + 1
                self.births[number] = Birth(process, lives=self.first)
                self.processes[number] = process
        for record in self.report.records:
            if record.number not in self.processes:
                demand(record.parent != "null", f"#{record.number}: the system doesn't begin with it")
                creator = self.processes.get(int(record.parent[1:]))
                demand(creator, f"#{record.number}: its parent {record.parent} is no instance before it")
                self.processes[record.number] = self.given.names[creator].find("agents", record.process)

    def replay(self) -> None:
        """Replays each record, by ascending number: so its creator's is replayed before it."""
        for record in self.report.records:
            birth = self.births.get(record.number)
            demand(birth, f"#{record.number}: {record.parent} doesn't create it")
            is_it = (record.process, record.parent) == (birth.process.name, birth.parent)
            demand(is_it, f"#{record.number}: is of the process {birth.process.name}, and its parent is {birth.parent}")
            replay = Replay(record, birth, self.plans, self.find_signal, self.order)
            self.stories[record.number] = replay.go()
            for number, made in replay.births.items():
                demand(number not in self.births, f"#{record.number}: creates #{number}, which is there already")
                self.births[number] = made
        for number, birth in self.births.items():
            demand(number in self.stories, f"#{number}: has no record")
        self.judge_numbers()

    def find_signal(self, sender: str, name: str) -> Signal | None:
        """What a name stands for where the sender is; the environment sends what the system's own scope has."""
        if sender == "env":
            return self.given.names[self.given.system].find("signals", name)
        process = self.processes.get(int(sender[1:]))
        return process and self.given.names[process].find("signals", name)

    def judge_numbers(self) -> None:
        """Numbers are given in their order, none is left out, and each instance has the next one."""
        numbers, before = sorted(self.births), None
        demand(len(numbers) <= MOST_INSTANCES, f"{len(numbers)} instances are made")
        is_spent = any("failed Memory" in line for it in self.report.records for line in it.lines)
        for turn, number in enumerate(numbers, 1):
            birth = self.births[number]
            demand(number == turn or is_spent, f"#{number}: the number #{turn} was left out")
            if birth.drawn is not None:
                if before is not None:
                    why = ("#{}: was made before {}, which has a smaller number", number, f"#{numbers[turn - 2]}")
                    self.order.put(before, birth.drawn, why)
                before = birth.drawn

    # ---- the end and the clock

    def judge_end(self) -> None:
        """The last line fits the records, the limit and the script."""
        made, latest = trace.transitions(self.report), max([story.time for story in self.stories.values()], default=0)
        if self.report.is_cut:
            demand(made >= self.limit, f"the end: cut after {made} transitions, which are less than {self.limit}")
            demand(self.report.time == latest, f"the end: cut at {self.report.time}, but the last step was at {latest}")
        else:
            demand(made < self.limit, f"the end: whole, though there are {made} transitions of {self.limit}")
            end = self.given.end()
            demand(self.report.time == end, f"the end: whole at {self.report.time}, but the script ends at {end}")

    def sets(self) -> Iterator[TimerSet]:
        return (it for story in self.stories.values() for it in story.sets)

    def judge_clock(self) -> None:
        """The clock stands only at times of the script, and at times at which a timer is due. Where it moves, all that
        happened comes before all that will."""
        due = {it.due for it in self.sets() if not it.is_at_once}
        times = due | {line.time for line in self.given.script} - {0}
        self.clock = sorted(time for time in times if time <= min(self.report.time, self.given.end()))
        for story in self.stories.values():
            for step in story.steps:
                is_time = step.time == 0 or step.time in times and step.time <= self.given.end()
                story.demand(is_time, f"line `{step.line}`: the clock is never at {step.time}")
        for story in self.stories.values():
            is_due = story.steps or self.report.is_cut and self.report.time == story.birth.time
            story.demand(is_due, f"is there since {story.birth.time} and has not started")
        self.hear()
        for story in self.stories.values():
            self.part_steps(story)

    def hear(self) -> None:
        """What comes from outside, in its order: the clock moves, then timers expire, then lines are heard, and only
        then instances step. The lines of time 0 have a move of their own, which comes when all rest after their
        starts."""
        last = self.first
        timers = defaultdict(list)
        for timer in self.sets():
            timers[timer.expires_at].append(timer)
        lines = defaultdict(list)
        for line in self.given.script:
            if line.signal is not None:
                lines[line.time].append(line)
        for time in [0, *self.clock]:
            last = self.moves[time] = self.order.point(last)
            for timer in sorted(timers[time], key=lambda it: (it.owner, it.number)):
                if not timer.is_at_once:
                    last = timer.expired = self.order.point(last)
            for line in lines[time]:
                looked = self.order.point(last)
                last = self.order.point(looked)
                self.heard.append(Sent("env", line.signal, tuple(line.values), line.to, time, looked, last))
            self.begins[time] = last

    def part_steps(self, story: Story) -> None:
        """The steps of an instance come between the moves of the clock."""
        for step, after in zip(story.steps, [*story.steps[1:], None]):
            if step.time > 0:
                self.order.put(self.begins[step.time], step.point)
            at = bisect_right(self.clock, step.time)
            if at < len(self.clock) and (after is None or after.time > step.time):
                self.order.put(step.last, self.moves[self.clock[at]])

    # ---- targets and creates

    def judge_targets(self) -> None:
        for story in self.stories.values():
            for one in story.sent:
                if not isinstance(one.to, str):
                    story.demand(one.target in self.living.options(one), f"{one} can't go to {one.target}")
                    self.living.judge_target(one)
            for asked in story.asked:
                self.living.judge_create(story, asked)

    # ---- signals

    def judge_signals(self) -> None:
        """If there are very many choices of whom signals reached, only the first are tried, and the report may be of a
        run."""
        named = self.given.numbers_named()
        try:
            self.judge_choices(Choices(self.births, self.stories, self.living, self.heard, named))
        except Undecided:
            pass

    def judge_choices(self, choices: Choices) -> None:
        """Looks for a choice by which all that was taken was put; else says what is wrong with the first one."""
        fault = None
        for turn, choice in enumerate(choices.all()):
            mark, doubts = self.order.mark(), list(self.living.doubts)
            try:
                self.judge_choice(choice)
                return
            except Wrong as why:
                fault = fault or why
            if turn == MOST_CHOICES:
                raise Undecided
            self.order.undo(mark)
            self.living.doubts = doubts
        raise fault or Wrong(choices.unheard())

    def judge_choice(self, choice: list[tuple[Sent, str]]) -> None:
        sent = defaultdict(list)
        for one, fate in choice:
            if isinstance(one.to, str):
                self.judge_number(one, fate)
            elif one.sender == "env":
                one.target = fate
                self.living.judge_target(one)
            sent[fate].append(one)
        ports = [Port(story, matched(story, sent[story.name]), self.order) for story in self.stories.values()]
        for port in ports:
            port.judge(self.report.time if self.report.is_cut else inf)
        self.judge_first_rest(ports)
        self.order.demand_order()
        self.living.settle_doubts()
        self.order.demand_order()

    def judge_number(self, one: Sent, fate: str) -> None:
        """A signal that is gone was sent before there was its number, and another one after that."""
        number = one.to if one.sender == "env" else one.target
        birth = self.births.get(int(number[1:])) if number.startswith("#") else None
        if birth is None or birth.drawn is None or birth.time != one.time or one.sender == number:
            return
        pair = (one.point, birth.entered) if fate == GONE else (birth.entered, one.point)
        self.order.put(*pair, (UNBORN, one.sender, one, number), False)

    # ---- the script's first lines

    def judge_first_rest(self, ports: list[Port]) -> None:
        """Before the lines of time 0 are heard, all that began by itself has come to rest: just the steps of which no
        such line is a cause. It is known that they were heard if one of their signals was taken, or time went on."""
        first = [one for one in self.heard if one.time == 0]
        taken = {item.what for port in ports for item in port.items if item.taken is not None}
        if not first or not (taken.intersection(first) or self.report.time > 0 or not self.report.is_cut):
            return
        later = self.order.reached(first[0].looked, by_cause=True)
        for port in ports:
            if port.story.birth.time == 0 and port.story.birth.lives not in later:
                self.judge_rest_of(port, later)
        for one in [*first, *(one for story in self.stories.values() for one in story.sent if one.time == 0)]:
            if not isinstance(one.to, str) and one.target.startswith("#") and one.point in later:
                story = self.stories[int(one.target[1:])]
                has_ended = story.ended and story.time == 0 and story.last not in later
                demand(not has_ended, f"{one.sender}: {one} goes to {one.target}, which has ended")

    def judge_rest_of(self, port: Port, later: set[int]) -> None:
        """An instance rests before the first step of which such a line is a cause, and makes it when all are heard."""
        story = port.story
        turn = next((at for at, it in enumerate(story.steps) if it.time > 0 or it.point in later), len(story.steps))
        story.demand(turn > 0, "has not started, and the script goes on")
        before = story.steps[turn - 1]
        self.order.put(before.last, self.moves[0], (HASTE, story.name, before.line), False)
        if turn < len(story.steps):
            why = (SOON, story.name, story.steps[turn].line)
            self.order.put(self.begins[0], story.steps[turn].point, why, False)
        if turn < len(story.steps) or not story.ended:
            port.demand_rest_before(turn, later)
