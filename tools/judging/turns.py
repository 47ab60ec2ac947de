"""Whether each instance had its turn, in a run in which all are always able to step.

A report may be of a run though one of its instances makes no step: no rule says when a worker comes to it. So this is
no part of `judge`."""

from soaking import trace
from soaking.trace import Trace

# Each instance makes so great a part of its serial share, at least.
PART = 10


def always_able(count: int) -> str:
    """A specification of so many instances that are always able to step."""
    return (
        f"system S;\nprocess P ({count}); start; nextstate s; state s; provided true; nextstate -; endprocess;\n"
        "endsystem;\n"
    )


def short_of_turns(report: Trace, limit: int) -> str | None:
    """Who made less than its part of its share, in a cut run in which all were always able to step, or None.

    A worker that the system doesn't run keeps the instance at whose step it is: nobody else can make a step of that one
    before this step has ended. If it was stopped while it had the lock of its local queue, it keeps what is in that,
    too. So one run in which somebody comes short shows nothing, and the same again and again does."""
    share = limit // len(report.records)
    made = {it.number: trace.transitions(Trace([it], report.time, report.is_cut)) for it in report.records}
    short = {number: count for number, count in made.items() if count < share // PART}
    told = ", ".join(f"#{number}: made {count} transitions" for number, count in short.items())
    return f"{told}; serially each makes {share}" if short else None
