"""What a run is given: a specification with its script, each read into things."""

import re
from dataclasses import dataclass

from judging.names import Names, Resolver
from judging.parser import parsed
from soaking.scripts import Line
from soaking.specification import Process, Scope
from soaking.trace import Wrong

MARK = re.compile(r"^%script\r?(?:\n|\Z)", re.MULTILINE)
LINE = re.compile(
    r"[ \t]*(\d+)[ \t]*(?:([A-Za-z]\w*)[ \t]*(?:\(([^)]*)\))?[ \t]*"
    r"(?:(?:to|TO)[ \t]*(?:#[ \t]*(\d+)|([A-Za-z]\w*)))?)?[ \t]*",
    re.ASCII,
)


@dataclass
class Given:
    """A system, the names of its scopes, and the lines of a script with something to say."""

    system: Scope
    names: dict[Scope | Process, Names]
    script: list[Line]

    def end(self) -> int:
        """The time of the script's last line."""
        return self.script[-1].time if self.script else 0

    def numbers_named(self) -> set[str]:
        """The instances that the script names, as destinations or as values."""
        found = {line.to for line in self.script if isinstance(line.to, str)}
        return found.union(value for line in self.script for value in line.values if isinstance(value, str))


def given(text: str) -> Given:
    """The specification and the script of a text."""
    mark = MARK.search(text)
    specification, script = (text[: mark.start()], text[mark.end() :]) if mark else (text, "")
    system = parsed(specification)
    resolver = Resolver()
    resolver.resolve(system)
    return Given(system, resolver.names, list(lines_of(script, system, resolver.names[system])))


def lines_of(script: str, system: Scope, names: Names):
    """The lines of a script, without those that say nothing."""
    for text in script.split("\n"):
        text = text.removesuffix("\r")
        if text.strip(" \t") and not text.startswith("#"):
            yield line_of(text, system, names)


def line_of(text: str, system: Scope, names: Names) -> Line:
    found = LINE.fullmatch(text)
    if found is None:
        raise Wrong(f"the script can't be read: {text}")
    time, signal, values, number, process = found.groups()
    to = f"#{int(number)}" if number is not None else None
    if process is not None:
        to = next(it for it in system.processes() if it.name == process)
    if signal is None:
        return Line(int(time))
    return Line(int(time), names.get("signals", signal), values_in(values), to)


def values_in(text: str | None) -> list:
    """The values of a list: numbers, truths, and Pids, which are texts."""
    return [] if text is None else [value_in(it.strip(" \t")) for it in text.split(",")]


def value_in(text: str):
    if text.lower() in ("true", "false"):
        return text.lower() == "true"
    if text.startswith("#"):
        return f"#{int(text[1:])}"
    if text.lower() in ("null", "env"):
        return text.lower()
    return int(text.replace(" ", "").replace("\t", ""))
