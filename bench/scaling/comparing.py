"""A collection goes into each system, and all are asked alternately. A wrong answer ends the run before any figure is shown."""
import contextlib
import functools
import os
import shutil
import time
from collections.abc import Callable, Sequence
from typing import NamedTuple, TypeVar

from measuring import Ran
from scaling.facts import Fact, Version, facts_of, fitting, linked
from scaling.in_lisfs import Lisfs
from scaling.in_notmuch import Notmuch
from scaling.in_sqlite import Sqlite
from scaling.making import kept
from scaling.questions import HEADS, Answer, Change, Question, asked_word, changes_of, questions_of
from scaling.systems import System, Wrong
from turns import DASH, middle, row, rounds, table

T = TypeVar("T")
MEBIBYTE = 1 << 20
SYSTEMS: tuple[type[System], ...] = (Lisfs, Sqlite, Notmuch)


class Wish(NamedTuple):
    """What to compare: a collection with its number of files and its seed, in a folder, by an image of this version; and the rounds of bringing in and
    of questions."""

    top: str
    name: str
    files: int
    seed: int
    version: Version
    bringing: int
    asking: int


class Cost(NamedTuple):
    """Seconds of processor time and by the clock."""

    processor: float
    clock: float


# The costs of each system, by the label of a question.
Costs = dict[str, dict[System, list[Cost]]]


def compare(wish: Wish) -> None:
    """Compares the systems over a collection, and shows the tables. Raises `Wrong`."""
    folder, facts, left = collection(wish)
    words = {word for fact in facts for word in fact.words}
    size = sum(fact.size for fact in facts)
    print(f"\n{wish.name}: {len(facts):,} of {wish.files:,} files, with {size:,} bytes and {len(words):,} words")
    for why in left:
        print(f"  not brought in: {why}")
    systems = [system for system in (kind(os.path.join(wish.top, f"in-{wish.name}")) for kind in SYSTEMS) if system.takes(wish.name)]
    for system in systems:
        lack = system.lacks()
        print(f"  {system.name}{f' is skipped: {lack}' if lack else f': {system.told}'}", flush=True)
    print("  TMSU is skipped: it can't be asked yet", flush=True)
    systems = [system for system in systems if not system.lacks()]
    brought: list[list[Ran]] = rounds(wish.bringing, [functools.partial(system.bring, folder, facts, wish.version) for system in systems])
    disk = {system: system.bytes_on_disk() for system in systems}
    costs = asked(systems, wish, facts)
    once: list[list[Ran]] = rounds(wish.bringing, [functools.partial(system.asked_once, asked_word(wish.name, facts)) for system in systems])
    show_runs(f"bringing in, the median of {wish.bringing}", systems, brought, disk)
    show_runs(f"start, find {HEADS[wish.name].one[1]} and end, the median of {wish.bringing}", systems, once)
    for place, kind_of_time in enumerate(("of processor", "by the clock")):
        show_costs(f"milliseconds {kind_of_time}, the median of {wish.asking}", systems, costs, place)


def collection(wish: Wish) -> tuple[str, list[Fact], list[str]]:
    """The folder of the files that an image has room for, these files, and in words what was left out."""
    folder = kept(wish.top, wish.name, wish.files, wish.seed)
    facts, large = facts_of(folder, wish.version.file_bytes)
    room = fitting(facts, wish.version, wish.files)
    if len(room.facts) == wish.files:
        return folder, room.facts, []
    to = f"{folder}-in-{wish.version.word}"
    shutil.rmtree(to, ignore_errors=True)
    linked(folder, room.facts, to)
    return to, [fact._replace(path=os.path.join(to, fact.below)) for fact in room.facts], large + room.left


def asked(systems: Sequence[System], wish: Wish, facts: Sequence[Fact]) -> Costs:
    """Asks all questions in turn, and makes all changes. What a system answers first is not counted, since it reads the files' words then."""
    costs: Costs = {}
    with contextlib.ExitStack() as stack:
        for system in systems:
            stack.callback(system.close)
            system.open(facts)
        for question in questions_of(wish.name, facts):
            for number in range(wish.asking + 1):
                for system in systems:
                    note(costs, question.label, system, ask(system, question), number)
        for change in changes_of(wish.name, facts):
            for number in range(wish.asking + 1):
                for system in systems:
                    for label, cost in zip((change.label, change.undo_label), made(system, change)):
                        note(costs, label, system, cost, number)
    return costs


def note(costs: Costs, label: str, system: System, cost: Cost | None, number: int) -> None:
    """Notes a cost, if it is not the first one of the system."""
    of_all = costs.setdefault(label, {})
    if cost and number:
        of_all.setdefault(system, []).append(cost)


def ask(system: System, question: Question) -> Cost | None:
    """What an answer costs, or None if the system has none. Raises `Wrong`."""
    cost, answer = timed(system, lambda: question.ask(system))
    if answer is None:
        return None
    judge(system, question.label, answer, question.right)
    return cost


def made(system: System, change: Change) -> list[Cost | None]:
    """What a change and its undoing cost, or None. Raises `Wrong`."""
    costs: list[Cost | None] = []
    for make, right in ((change.make, change.right), (change.undo, set[bytes]())):
        cost, is_made = timed(system, lambda: make(system))
        if is_made:
            judge(system, change.label if right else change.undo_label, system.find(change.look), right)
        costs.append(cost if is_made else None)
    return costs


def timed(system: System, call: Callable[[], T]) -> tuple[Cost, T]:
    clock, processor = time.monotonic(), system.processor()
    result = call()
    return Cost(system.processor() - processor, time.monotonic() - clock), result


def judge(system: System, label: str, answer: Answer, right: Answer) -> None:
    """Raises `Wrong` unless an answer is the right one."""
    if answer != right:
        differing = sorted(set(answer or ()) ^ set(right or ()))[:3] or "counts"
        raise Wrong(f"{system.name} answers `{label}` by {len(answer or ()):,} and not {len(right or ()):,}: {differing}")


def show_runs(title: str, systems: Sequence[System], runs: Sequence[Sequence[Ran]], disk: dict[System, int] | None = None) -> None:
    table(title, "seconds of processor", "seconds", "MiB resident", *(["MiB on disk"] if disk else []))
    for system, ran in zip(systems, runs):
        figures = [middle(column) for column in zip(*((one.processor, one.seconds, sum(one.mebibytes)) for one in ran))]
        row(system.name, *(f"{figure:.2f}" for figure in figures[:2]), f"{figures[2]:.1f}", *([f"{disk[system] / MEBIBYTE:.1f}"] if disk else []))


def show_costs(title: str, systems: Sequence[System], costs: Costs, place: int) -> None:
    table(title, *(system.name for system in systems))
    for label, of_all in costs.items():
        row(label, *(f"{1000 * middle([cost[place] for cost in of_all[system]]):.2f}" if system in of_all else DASH for system in systems))
