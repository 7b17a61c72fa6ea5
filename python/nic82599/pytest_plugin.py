"""The pytest plugin: the report of a failed test says why nothing happens, and a test that returns a scenario is
searched.

A failed test may have created controllers, or received them from fixtures. The test's report has a section for each of
these controllers in which something is waiting or that dropped a frame. The section contains the output of `nic.why()`.
A controller that was closed earlier has a section only if the failure itself closed it, for example by leaving a `with`
block. pytest's option `-p no:nic82599` disables the plugin.

    @pytest.mark.nic_schedules(1000)
    def test_poll():
        return Poll()                  # a nic82599.explore.Scenario

The marker takes the arguments of `nic82599.explore.search`: runs, seed, strategy, depth, preemptions, hang, shrink,
jobs, strict, memory, shard. What never ran in a scenario is reported as a warning and as a property in the JUnit XML;
with `strict` it is a failure. A failure is reported with its schedule. With --nic-out FOLDER the schedule is also
written to NAME.schedule there, the device's events to NAME.nic (a script for nicview), and a page to NAME.html.
--nic-replay FILE replays a schedule instead of searching; tests of other scenarios are then skipped. --nic-jobs N
searches each scenario with N processes. --nic-shard K/N runs only machine K's part of searches that N machines share.
An invalid argument of the marker fails its test; an invalid option ends pytest with status 4.
"""

from __future__ import annotations

import contextlib
import re
import sys
import weakref
from collections.abc import Generator, Iterator
from typing import TYPE_CHECKING, Any

import pytest

import nic82599

from .explore import (
    BadSchedule,
    BadWord,
    Failure,
    Report,
    Scenario,
    Vacuous,
    check_number,
    check_out,
    check_shard,
    replay,
    search,
)

if TYPE_CHECKING:
    from pluggy import Result

WORDS = ("runs", "seed", "strategy", "depth", "preemptions", "hang", "shrink", "jobs", "strict", "memory", "shard")


def pytest_addoption(parser: pytest.Parser) -> None:
    group = parser.getgroup("nic82599")
    group.addoption("--nic-out", metavar="FOLDER", help="folder for each failure's schedule, script and page")
    group.addoption("--nic-jobs", metavar="N", type=int, help="number of processes for each search")
    group.addoption("--nic-shard", metavar="K/N", help="run only machine K's part of searches that N machines share")
    group.addoption("--nic-replay", metavar="FILE", help="replay this schedule file instead of searching")


def pytest_configure(config: pytest.Config) -> None:
    config.addinivalue_line(
        "markers", "nic_schedules(runs, ...): searches the scenario that the test returns (nic82599.explore.search)"
    )
    jobs, out = config.getoption("--nic-jobs"), config.getoption("--nic-out")
    try:
        if jobs is not None:
            check_number("jobs", jobs)
        if out is not None:
            check_out(out)
        shard_of(config)
    except BadWord as fault:
        raise pytest.UsageError(f"--nic-{fault}") from None


def shard_of(config: pytest.Config) -> tuple[int, int] | None:
    """Returns the shard that the option specifies, if any. Raises BadWord."""
    text = config.getoption("--nic-shard")
    if text is None:
        return None
    found = re.fullmatch(r"(\d{1,5})/(\d{1,5})", text)
    shard = (int(found[1]), int(found[2])) if found else None
    check_shard(shard or text)
    return shard


def words_of(marker: pytest.Mark) -> dict[str, Any]:
    """Returns a marker's arguments as keyword arguments of `search`."""
    words = dict(marker.kwargs)
    if len(marker.args) > 1 or marker.args and "runs" in words:
        pytest.fail("nic_schedules: only the number of schedules may be positional", pytrace=False)
    if marker.args:
        words["runs"] = marker.args[0]
    for name in words:
        if name not in WORDS:
            pytest.fail(f"nic_schedules: {name} isn't one of {', '.join(WORDS)}", pytrace=False)
    if words.get("strategy") == "exhaustive":
        words.setdefault("runs", None)
    return words


def replayed(scenario: Scenario, path: str) -> None:
    """Replays a schedule's file. Raises Failure if it fails."""
    try:
        result = replay(scenario, path)
    except BadSchedule as fault:
        if f"and this is {scenario.name}" in str(fault):
            pytest.skip(str(fault))
        raise
    if result.outcome != "fine":
        raise Failure(result, "replayed", None)


def tell_report(item: pytest.Function, report: Report) -> None:
    """Adds properties for the JUnit file, and a warning if something never ran."""
    item.user_properties.append(("distinct", report.distinct))
    item.user_properties.extend(("never", line) for line in report.never)
    if report.never:
        item.warn(pytest.PytestWarning("nic_schedules: " + "; ".join(report.never)))


@pytest.hookimpl(tryfirst=True)
def pytest_pyfunc_call(pyfuncitem: pytest.Function) -> bool | None:
    marker = pyfuncitem.get_closest_marker("nic_schedules")
    if marker is None:
        return None
    names = pyfuncitem._fixtureinfo.argnames
    given = pyfuncitem.obj(**{name: pyfuncitem.funcargs[name] for name in names})
    scenario = given() if isinstance(given, type) else given
    if not isinstance(scenario, Scenario):
        pytest.fail(f"{pyfuncitem.name} returns no Scenario but is marked nic_schedules", pytrace=False)
    config = pyfuncitem.config
    path = config.getoption("--nic-replay")
    if path:
        replayed(scenario, path)
    else:
        words = words_of(marker)
        if config.getoption("--nic-jobs") is not None:
            words["jobs"] = config.getoption("--nic-jobs")
        if (shard := shard_of(config)) is not None:
            words["shard"] = shard
        try:
            report = search(scenario, **words, out=config.getoption("--nic-out"))
        except BadWord as fault:
            pytest.fail(f"nic_schedules: {fault}", pytrace=False)
        tell_report(pyfuncitem, report)
    return True


class Watch:
    """The controllers that a test creates, and why nothing happened in the ones that its failure closed."""

    def __init__(self) -> None:
        self.made: weakref.WeakKeyDictionary[nic82599.Nic, None] = weakref.WeakKeyDictionary()
        self.closed: list[tuple[str, str]] = []

    def see(self, nic: nic82599.Nic) -> None:
        """Called for each new controller, and again before it is closed."""
        if nic not in self.made:
            self.made[nic] = None
        elif sys.exc_info()[0] is not None:
            del self.made[nic]
            self.closed.append((repr(nic), why_of(nic)))

    def texts(self, more: list[nic82599.Nic]) -> Iterator[tuple[str, str]]:
        """Returns the name of each controller, and why nothing happens in it."""
        yield from self.closed
        for nic in [*self.made, *(it for it in more if it not in self.made)]:
            yield repr(nic), why_of(nic)

    def sections(self, more: list[nic82599.Nic]) -> list[tuple[str, str]]:
        """Returns the sections of a report: one for each controller in which something is waiting."""
        shown = [(name, text) for name, text in self.texts(more) if text]
        of = f" of {len(shown)})" if len(shown) > 1 else ""
        names = [f"{name} ({k}{of}" if of else name for k, (name, _) in enumerate(shown, 1)]
        return [(f"why nothing happens in {name}", text) for name, (_, text) in zip(names, shown)]


def why_of(nic: nic82599.Nic) -> str:
    """Returns why nothing happens in a controller; "" if it is closed."""
    with contextlib.suppress(nic82599.NicError):
        return nic.why()
    return ""


WATCH = pytest.StashKey[Watch]()


@pytest.hookimpl(hookwrapper=True)
def pytest_runtest_protocol(item: pytest.Item) -> Generator[None, None, None]:
    item.stash[WATCH] = Watch()
    nic82599._watcher = item.stash[WATCH].see
    yield
    nic82599._watcher = None


def tell_why(item: pytest.Item, report: pytest.TestReport) -> None:
    """Adds to a failed test's report why nothing happens."""
    given = getattr(item, "funcargs", {}).values()
    report.sections += item.stash[WATCH].sections([it for it in given if isinstance(it, nic82599.Nic)])


@pytest.hookimpl(hookwrapper=True)
def pytest_runtest_makereport(
    item: pytest.Item, call: pytest.CallInfo[None]
) -> Generator[None, Result[pytest.TestReport], None]:
    """Reports a failed schedule without a traceback, which would only show the line in `search` that raised. To the
    report of any other failure, adds why nothing happens."""
    outcome = yield
    if call.when != "teardown" and outcome.get_result().failed:
        tell_why(item, outcome.get_result())
    if call.excinfo is not None and isinstance(call.excinfo.value, (Failure, BadSchedule, Vacuous)):
        report = outcome.get_result()
        if report.failed:
            report.longrepr = str(call.excinfo.value)
