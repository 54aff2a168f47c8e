"""Figures of one program, or of two alternately, and the tables and aims that show them.

Measurements on a machine vary with its other work. So if two programs are compared, each figure is measured alternately, A B A B .., and the ratio of
the first to the other says more than either. If a program lacks a word, a dash replaces its figure.
"""
import functools
import re
import subprocess
from collections.abc import Callable, Iterable, Iterator, Sequence
from typing import Any, NamedTuple, TypeVar

T = TypeVar("T", float, tuple[float, ...])
# A cell of a table, or several.
Part = str | Sequence[str]
DASH = "–"
# The program, and after it the one that it is compared with, if any.
PROGRAMS: "list[Program]" = []
AIMS: list[tuple[str, float, float, bool, str]] = []


class Program(NamedTuple):
    path: str
    # What distinguishes its files from those of the other program.
    mark: str
    usage: str

    def has(self, word: str) -> bool:
        return re.search(rf"^lisfs {word}\b", self.usage, re.MULTILINE) is not None

    def run(self, *words: str) -> list[str]:
        return [self.path, *words]


def take_programs(paths: Sequence[str]) -> None:
    for number, path in enumerate(paths):
        told = subprocess.run([path], stdin=subprocess.DEVNULL, capture_output=True, check=False)
        PROGRAMS.append(Program(path, "ab"[number], (told.stdout + told.stderr).decode()))


def middle(figures: Sequence[T]) -> T:
    return sorted(figures)[len(figures) // 2]


def chosen(figures: Sequence[Any], choose: Callable[[Sequence[Any]], Any]) -> Any:
    """The chosen one of some figures, or of each column of them if they are tuples."""
    return tuple(map(choose, zip(*figures))) if isinstance(figures[0], tuple) else choose(figures)


def rounds(count: int, takes: Sequence[Callable[[], Any]]) -> list[list[Any]]:
    """The results of each of these functions in a number of rounds, in which each has its turn: a list for each."""
    taken: list[list[Any]] = [[] for _ in takes]
    for _ in range(count):
        for figures, take in zip(taken, takes):
            figures.append(take())
    return taken


def by_turns(count: int, take: Callable[[Program], Any], choose: Callable[[Sequence[Any]], Any] = middle) -> list[Any]:
    """The chosen result of the function for each program, in a number of rounds."""
    return [chosen(figures, choose) for figures in rounds(count, [functools.partial(take, program) for program in PROGRAMS])]


def with_word(word: str) -> list[Program]:
    """The programs that have this word."""
    return [program for program in PROGRAMS if program.has(word)]


def head(name: str) -> list[str]:
    """The columns of a figure: this program's, and if another one is compared with it, its figure and the ratio."""
    return [name] if len(PROGRAMS) == 1 else [name, "of the other", "ratio"]


def cells(figures: Sequence[Any], form: str) -> list[str]:
    """The cells of a figure of each program, None if there is none. A figure that is not positive has no ratio: it is within the variation of an
    opening."""
    shown = [DASH if figure is None else format(figure, form) for figure in figures]
    return shown if len(PROGRAMS) == 1 else shown + [DASH if None in figures or min(figures) <= 0 else f"{figures[0] / figures[1]:.2f}"]


def flat(parts: Iterable[Part]) -> Iterator[str]:
    for part in parts:
        yield from [part] if isinstance(part, str) else part


def table(*heads: Part) -> None:
    names = list(flat(heads))
    print()
    row(*names)
    print("|" + "---|" * len(names))


def row(*parts: Part) -> None:
    print("| " + " | ".join(flat(parts)) + " |", flush=True)


def aim(text: str, figure: float, bound: float, at_least: bool = False) -> None:
    """Notes a figure with its upper bound, or lower bound, to be printed at the end. None of them is required."""
    AIMS.append((text, figure, bound, figure >= bound if at_least else figure <= bound, "least" if at_least else "most"))


def aim_beside(text: str, figures: Sequence[float | None], bound: float) -> None:
    """The same for the ratio of this program's figure to the other's, if there is one."""
    known = [figure for figure in figures if figure is not None]
    if len(figures) == len(known) == 2 and known[1] > 0:
        aim(text, known[0] / known[1], bound)


def tell_aims() -> None:
    if AIMS:
        table("aim", "figure", "should be", "")
        for text, figure, bound, is_met, side in AIMS:
            row(text, f"{figure:,.2f}", f"at {side} {bound:,.2f}", "met" if is_met else "not met")
