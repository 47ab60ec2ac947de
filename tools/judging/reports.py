"""Reports that are known: those of the examples, of the cases, and of files in the format of cases."""

import sys
from collections.abc import Iterator
from dataclasses import dataclass
from importlib.machinery import SourceFileLoader
from importlib.util import module_from_spec, spec_from_loader
from pathlib import Path

from judging.verdict import DEFAULT_LIMIT, judge
from soaking.trace import Wrong

ROOT = Path(__file__).resolve().parent.parent.parent
CASES, DATA = ROOT / "crates" / "conformance" / "data", ROOT / "tools" / "judging" / "data"


def load(path: Path):
    """A script of this repository as a module."""
    loader = SourceFileLoader(path.name, str(path))
    module = module_from_spec(spec_from_loader(path.name, loader))
    sys.modules[path.name] = module
    loader.exec_module(module)
    return module


cases = load(ROOT / "bin" / "cases")


@dataclass
class Report:
    """A report with the text of its run."""

    name: str
    text: str
    report: str
    limit: int = DEFAULT_LIMIT

    def fault(self) -> str | None:
        """What the judge says of it, if it says something."""
        try:
            judge(self.text, self.report, self.limit)
        except Wrong as wrong:
            return str(wrong)
        return None


def of_case(case) -> Report | None:
    """The report of a case of a run, if it ends in one."""
    last = case.output.rstrip(b"\n").split(b"\n")[-1]
    if case.words[:1] != ["run"] or not last.startswith(b"end ") or "--lines" in case.words:
        return None
    limit = int(case.words[case.words.index("--limit") + 1]) if "--limit" in case.words else DEFAULT_LIMIT
    # A comment may have any byte.
    return Report(case.name, case.input.decode("latin-1"), case.output.decode("latin-1"), limit)


def of_examples() -> Iterator[Report]:
    for path in sorted((ROOT / "examples").glob("*.sdl")):
        report = path.with_suffix(".trace").read_text("latin-1")
        if report.rstrip().split("\n")[-1].startswith("end "):
            yield Report(f"examples/{path.stem}", path.read_text("latin-1"), report)


def of_file(path: Path) -> Iterator[Report]:
    """The reports of a file in the format of cases."""
    lines = list(enumerate(path.read_bytes().split(b"\n"), 1))
    for (number, title), section in cases.split_at_marks(lines, b"==== ")[1]:
        yield from filter(None, map(of_case, cases.read_section(number, title, section)))
