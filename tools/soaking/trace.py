"""What must be so of every trace, whatever was run: its form, its order, and who sent what is consumed."""

import re
from collections import Counter
from dataclasses import dataclass, field

HEAD = re.compile(r"instance #(\d+) (\w+) parent (null|#\d+)")
CONSUMED = re.compile(r"(\d+) (input|priority|discard) (\S+) from (env|#\d+)")
BEGINS = re.compile(r"(\d+) (start|provided \d+|(input|priority|discard) \S+ from (env|#\d+)|failed \w+)")
INSIDE = re.compile(
    r"  (task \w+ := \S+|output \S+ to (#\d+|env|null|nobody)|set \S+ \d+|reset \S+|create \w+ (null|#\d+)"
    r"|nextstate \w+|stop|failed \w+)"
)
CLOSES = re.compile(r"(rest|cut) \w+")
LAST = re.compile(r"end (\d+) (whole|cut)")
REFUSAL = re.compile(r"((lex|parse|build) (\d+:\d+ \w+( \S+)?|Memory)|script (\d+ \w+|Memory)|run Memory)\n")
CUT_NOTE = re.compile(
    rb"sdlrun: cut after (?:1 transition|\d+ transitions)"
    rb"(; the clock never moved; --limit shows less| at time [1-9]\d*; --limit shows less, or more)\n"
)
WARNING = re.compile(
    rb"[^\n:]+:\d+:\d+: warning \w+: [^\n]+\n\d+ \| [^\n]*\n[ \t]*\^+\n|[^\n:]+: \d+ more, not shown\n"
)
FAILURE = re.compile(
    rb"[^\n:]+(:\d+:\d+)?: Instance #\d+ \w+ failed at time \d+: [^\n]+\n(\d+ \| [^\n]*\n[ \t]*\^+\n)?"
    rb"|sdlrun: \d+ more instances? failed\n"
)
EXPLANATION = re.compile(rb"[^\n:]+(:\d+:\d+)?: [^\n]+\n(?:[^\n]*\n)*")


class Wrong(Exception):
    """What is wrong with an answer."""


def demand(is_so, what):
    if not is_so:
        raise Wrong(what)


@dataclass
class Record:
    number: int
    process: str
    parent: str
    lines: list = field(default_factory=list)

    def is_closed(self):
        return bool(self.lines) and CLOSES.fullmatch(self.lines[-1]) is not None

    def events(self):
        """The lines without the one that closes a record."""
        return self.lines[:-1] if self.is_closed() else self.lines


@dataclass
class Trace:
    records: list
    time: int
    is_cut: bool


def is_note(status, said):
    """Whether standard error says what it has to, and nothing else: what cut a run, or why a text is refused. Of a text
    that is accepted, whatever came of the run, there may be warnings and failures of instances, too."""
    wanted = {1: CUT_NOTE, 2: EXPLANATION}.get(status)
    if status != 2:
        said = FAILURE.sub(b"", WARNING.sub(b"", said))
    return wanted.fullmatch(said) is not None if wanted else not said


def is_explained(told, said):
    """Whether standard error explains the refusal of this line, at its place in standard input."""
    place = re.match(r"(?:lex|parse|build) (\d+:\d+) ", told)
    return said.startswith(f"<stdin>:{place[1]}: " if place else "<stdin>:")


def read(text):
    """The trace of a text, whose lines must have the form of one."""
    demand(text.endswith("\n"), "the trace has no last line end")
    *lines, last = text[:-1].split("\n")
    end = LAST.fullmatch(last)
    demand(end, f"not the last line of a trace: {last}")
    records = []
    for line in lines:
        head = HEAD.fullmatch(line)
        if head:
            records.append(Record(int(head[1]), head[2], head[3]))
        else:
            demand(records, f"a line before the first instance: {line}")
            demand(any(form.fullmatch(line) for form in (BEGINS, INSIDE, CLOSES)), f"no line of a trace: {line}")
            records[-1].lines.append(line)
    return Trace(records, int(end[1]), end[2] == "cut")


def transitions(trace):
    """How many transitions began: starts, what was consumed or discarded, continuous signals."""
    lines = [line for record in trace.records for line in record.lines]
    return sum(1 for line in lines if (begins := BEGINS.fullmatch(line)) and not begins[2].startswith("failed"))


def judge(trace, most_of):
    """Demands of a trace what needs no run to be known. The greatest numbers of instances are given by names."""
    judge_numbers(trace, most_of)
    for record in trace.records:
        judge_record(record, trace)
    judge_signals(trace)


def judge_numbers(trace, most_of):
    numbers = [it.number for it in trace.records]
    demand(numbers == list(range(1, len(numbers) + 1)), "the numbers of instances don't ascend")
    made = {}
    for record in trace.records:
        last = 0
        for line in record.lines:
            if (created := re.fullmatch(r"  create (\w+) #(\d+)", line)) is not None:
                number = int(created[2])
                demand(number > last and number not in made, f"the instance #{number} is made out of turn")
                last, made[number] = number, (created[1], f"#{record.number}")
    for record in trace.records:
        told = made.get(record.number, (record.process, "null"))
        demand(told == (record.process, record.parent), f"the instance #{record.number} is another than was made")
    alive = Counter(record.process for record in trace.records if record.is_closed())
    for name, most in most_of.items():
        demand(most is None or alive[name] <= most, f"{name} has more instances than it may")


def judge_record(record, trace):
    """Times never go back, each part of a transition stands in one, and nothing follows an end."""
    time, inside, has_ended = 0, False, False
    for line in record.lines:
        demand(not has_ended, f"#{record.number} goes on behind its end: {line}")
        begins = BEGINS.fullmatch(line)
        if begins:
            demand(not inside, f"#{record.number} has a transition without an end before {line}")
            demand(time <= int(begins[1]) <= trace.time, f"#{record.number} goes back in time: {line}")
            time = int(begins[1])
            has_ended = begins[2].startswith("failed")
            inside = not has_ended and begins[3] != "discard"
        elif CLOSES.fullmatch(line):
            demand(not inside, f"#{record.number} is closed in a transition")
            demand(line.startswith("cut") == trace.is_cut, f"#{record.number} is not closed as the trace is: {line}")
            has_ended = True
        else:
            demand(inside, f"#{record.number} has a line outside of a transition: {line}")
            inside = not line.startswith(("  nextstate", "  stop", "  failed"))
            has_ended = line.startswith(("  stop", "  failed"))
    demand(has_ended, f"#{record.number} is neither at its end nor closed")


def outputs(record):
    """What an instance sent to others and to itself: when, what, and to whom."""
    time = 0
    for line in record.lines:
        begins = BEGINS.fullmatch(line)
        if begins:
            time = int(begins[1])
        elif line.startswith("  output "):
            signal, to = line.removeprefix("  output ").split(" to ")
            yield time, signal, to


def judge_signals(trace):
    """What is consumed from an instance was sent there by it, each of it once and no later than it is consumed."""
    sent = {}
    for record in trace.records:
        for time, signal, to in outputs(record):
            sent.setdefault((f"#{record.number}", to, signal), []).append(time)
    sets = [(it, line) for it in trace.records for line in it.lines if line.startswith("  set ")]
    timers = {(f"#{it.number}", line.split()[1]) for it, line in sets}
    for record in trace.records:
        own = f"#{record.number}"
        for line in record.lines:
            consumed = CONSUMED.fullmatch(line)
            if not consumed or consumed[4] == "env" or (own, consumed[3]) in timers:
                continue
            times = sent.get((consumed[4], own, consumed[3]), [])
            demand(times and times[0] <= int(consumed[1]), f"{own} consumes what was not sent: {line}")
            # Equal signals of one sender are consumed in the order in which they were sent.
            times.pop(0)


def is_beginning(short, long):
    """Whether the records of a run that was cut are beginnings of those of a longer one."""
    if len(short.records) > len(long.records):
        return False
    return all(
        (less.number, less.process, less.parent) == (more.number, more.process, more.parent)
        and more.events()[: len(less.events())] == less.events()
        for less, more in zip(short.records, long.records)
    )
