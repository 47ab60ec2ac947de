"""Runs on threads, soaked: random specifications, the examples and some cases, each report judged (`tools/judge`).

Each run is drawn by lot from its own seed: the text, how many workers, on how many processors, the limit, and whether
its order is told, which must go to its end. How often a transition goes on in one, once others were told, is counted.
In some runs all instances are always able to step; there each must have had its turns, unless a worker that the
system didn't run was at its step."""

import os
import re
import subprocess
import tempfile
import time
from collections import Counter
from collections.abc import Callable
from dataclasses import dataclass, field
from pathlib import Path
from random import Random

from judging.reports import CASES, DATA, of_examples, of_file
from judging.turns import always_able, short_of_turns
from judging.verdict import judge
from soaking import told, trace
from soaking.trace import Wrong, demand

WORKERS = (1, 2, 3, 4, 7, 16)
LIMITS = (1, 5, 20, 100, 400, 400, 3_000)
# Of so many instances that are always able to step, with limits that leave the system time for all threads.
ABLE = ((2, 200_000), (3, 200_000), (600, 100_000))
ABLE_SHARE, KNOWN_SHARE = 0.02, 0.35
# In so many runs of one text somebody comes short of its turns only if the program passes over it.
SHORT = 3
FILES = ("features", "runs", "protocols", "edges", "routes")
REFUSES_OPTIONS, SOON, FAULT = 4, 0.2, 3
STUCK_NOTE = re.compile(rb"sdlrun: the order isn't known from instance #\d+ on\n")


class NoThreads(Exception):
    """The program doesn't take the command line."""


@dataclass
class Job:
    """A run: its text, how many workers on how many processors, and the limit."""

    name: str
    text: str
    workers: int
    processors: int
    limit: int
    is_ordered: bool = False
    is_able: bool = False

    def __str__(self) -> str:
        ordered = ", in its order" if self.is_ordered else ""
        return f"{self.name}, {self.workers} workers on {self.processors} processors, limit {self.limit}{ordered}"

    def knows_numbers(self) -> bool:
        """Whether the script may tell an instance the number of another one."""
        return "#" in self.text.partition("%script")[2]


@dataclass
class Answer:
    """The status of a run without the fault of its order, its report, and its order as text of Z.120."""

    status: int
    report: str
    order: str | None


@dataclass
class ThreadSoak:
    """Soaks a program; without workers the option is left out, for a program that has no threads."""

    program: str
    keep: Path | None
    grown: Callable
    has_workers: bool = True
    seconds: float = 10
    tally: Counter = field(default_factory=Counter)
    by_workers: Counter = field(default_factory=Counter)

    def __post_init__(self):
        self.processors = sorted(os.sched_getaffinity(0))
        files = [DATA / "right.cases", *(CASES / f"{name}.cases" for name in FILES)]
        known = [*of_examples(), *(report for file in files for report in of_file(file))]
        self.known = {report.name: report.text for report in known}

    def soak(self, first: int, count: int, seconds: float) -> None:
        """Makes so many runs, or as many as there is time for."""
        end = time.monotonic() + seconds
        for seed in range(first, first + count):
            if time.monotonic() > end:
                break
            self.soak_one(self.job(seed))

    def job(self, seed: int) -> Job:
        lot = Random(f"threads {seed}")
        kind, able = lot.random(), None
        if kind < ABLE_SHARE:
            able = lot.choice(ABLE)
            name, text = f"{able[0]} that are always able", always_able(able[0])
        elif kind < KNOWN_SHARE:
            name = lot.choice(list(self.known))
            text = self.known[name]
        else:
            specimen = self.grown(seed)[1]
            # The judge reads bytes, as the program does.
            name, text = "a random text", specimen.input(specimen.text).encode().decode("latin-1")
        processors = lot.choice([1, min(2, len(self.processors)), len(self.processors)])
        workers, limit = lot.choice(WORKERS), lot.choice(LIMITS)
        if able:
            return Job(f"seed {seed}, {name}", text, workers, processors, able[1], is_able=True)
        return Job(f"seed {seed}, {name}", text, workers, processors, limit, is_ordered=lot.random() < 0.5)

    def soak_one(self, job: Job) -> None:
        self.tally["runs"] += 1
        self.by_workers[job.workers] += 1
        report = ""
        try:
            answer = self.run(job)
            report = answer.report
            self.judge(job, answer)
        except subprocess.TimeoutExpired:
            if self.is_long(job):
                self.tally["long"] += 1
            else:
                self.tally["hang"] += 1
                self.wrong(job, report, f"has not ended after {self.seconds} seconds, though serially it does soon")
        except (Wrong, UnicodeDecodeError) as fault:
            self.wrong(job, report, str(fault))

    def is_long(self, job: Job) -> bool:
        """Whether the serial run, too, takes at least a good part of the time."""
        try:
            self.ask(job, [], self.seconds * SOON)
        except subprocess.TimeoutExpired:
            return True
        return not self.has_workers

    def ask(self, job: Job, options: list[str], seconds: float) -> subprocess.CompletedProcess:
        words, chosen = [self.program, "run", *options, "--limit", str(job.limit)], self.processors[: job.processors]
        return subprocess.run(
            words, input=job.text.encode("latin-1"), capture_output=True, timeout=seconds,
            preexec_fn=lambda: os.sched_setaffinity(0, chosen),
        )  # fmt: skip

    def run(self, job: Job) -> Answer:
        """What comes of a run. It must write nothing else, except what cut it, and that its order isn't known."""
        workers = ["--workers", str(job.workers)] if self.has_workers else []
        if not job.is_ordered:
            return self.answer(self.ask(job, workers, self.seconds), None)
        with tempfile.TemporaryDirectory(prefix="soak-") as folder:
            file = Path(folder, "order.mpr")
            ran = self.ask(job, [*workers, "--chart", str(file)], self.seconds)
            return self.answer(ran, file.read_text() if file.exists() else None)

    def answer(self, ran: subprocess.CompletedProcess, order: str | None) -> Answer:
        if ran.returncode == REFUSES_OPTIONS:
            raise NoThreads(f"{' '.join(ran.args)}: {ran.stderr.decode(errors='replace')}")
        demand(ran.returncode in (0, 1, 3), f"status {ran.returncode}: {ran.stdout[:200]!r} {ran.stderr[:500]!r}")
        report, said, status = ran.stdout.decode(), ran.stderr, ran.returncode
        if order is not None and STUCK_NOTE.search(said):
            demand(status == FAULT, f"status {status} of an order that isn't known to its end")
            said, status = STUCK_NOTE.sub(b"", said), int(report.endswith(" cut\n"))
        demand(trace.is_note(status, said), f"on standard error: {said[:500]!r}")
        return Answer(status, report, order)

    def judge(self, job: Job, answer: Answer) -> None:
        status, report = answer.status, answer.report
        for word in ("Lost", "Memory"):
            if report.startswith(f"run {word}"):
                self.tally[word] += 1
                raise Wrong(f"status {status}: {report.strip()}")
        ran = trace.read(report)
        self.tally["cut" if ran.is_cut else "whole"] += 1
        self.tally["transitions"] += trace.transitions(ran)
        demand(status == ran.is_cut, f"status {status} of a run that is {'cut' if ran.is_cut else 'whole'}")
        if job.is_able:
            # The judge would take long, and the same text with a lower limit says as much.
            self.tally["always able"] += 1
            demand(ran.is_cut, "whole, though all were always able to step")
            self.judge_turns(job, ran)
        else:
            judge(job.text, report, job.limit)
        if job.is_ordered:
            demand(answer.order is not None, "no file has the order")
            self.tally["orders"] += 1
            self.tally["gone on"] += told.judge(told.read(answer.order), ran, job.knows_numbers())

    def judge_turns(self, job: Job, ran: trace.Trace) -> None:
        """Demands that each instance had its turns. Who came short may have been with a thread that the system didn't
        run. So the run is made again then: that happens by chance, and whom the program passes over, each time."""
        for _ in range(SHORT):
            short = short_of_turns(ran, job.limit)
            if short is None:
                return
            self.tally["short"] += 1
            ran = trace.read(self.run(job).report)
        raise Wrong(f"in each of {SHORT} runs somebody came short, last {short}")

    def wrong(self, job: Job, report: str, what: str) -> None:
        """Tells what is wrong, and keeps the text and the report: the same run need not come again."""
        self.tally["wrong"] += 1
        print(f"{job}: {what}", flush=True)
        if self.keep:
            self.keep.mkdir(parents=True, exist_ok=True)
            stem = job.name.split(",")[0].replace(" ", "-")
            (self.keep / f"{stem}.sdl").write_bytes(job.text.encode("latin-1"))
            (self.keep / f"{stem}.report").write_text(report)

    def told(self) -> str:
        kinds = ("runs", "whole", "cut", "always able", "short", "long", "Lost", "Memory", "hang", "wrong")
        kinds += ("transitions", "orders", "gone on")
        workers = ", ".join(f"{self.by_workers[number]} with {number}" for number in WORKERS)
        return ", ".join(f"{self.tally[kind]} {kind}" for kind in kinds) + f"; workers: {workers}"
