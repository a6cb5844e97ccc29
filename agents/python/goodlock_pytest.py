"""A plugin for pytest: `pytest -p goodlock_pytest` with agents/python in PYTHONPATH traces the whole run. A deadlock on which the run fails
is one more item, goodlock::deadlocks: it fails, and its text is the report. Another item, goodlock::analysis, is an error if a process of
the run was not analysed. A run that cannot be traced does not start, and its status is 4.

    --goodlock-out NAME         writes NAME.report and NAME.trace; default goodlock. %p is the process number
    --goodlock-bound K          the most members of a cycle, 2 to 8, or auto; default 4
    --goodlock-seconds N        the most seconds of the search after the tests; default 60
    --goodlock-allow-partial    a run that was analysed only in part is no error
    --goodlock-fail-on WORD     fails if a deadlock is confirmed, potential or new, as `goodlock --fail-on WORD`
    --goodlock-baseline FILE    the known deadlocks
    --goodlock-suppress FILE    patterns of code locations that are no failure

With xdist each worker is traced: worker gw0 writes NAME.gw0.report and NAME.gw0.trace. The controller has the items.
"""
import os
import re

import goodlock_agent
import pytest
from _pytest.reports import TestReport

WITHOUT_TESTS = ("collectonly", "setupplan", "showfixtures", "show_fixtures_per_test", "cacheshow")  # such a run executes none
WINDOW = re.compile("    window [0-9]+: (.*)")
FAILED = 1


def pytest_addoption(parser):
    group = parser.getgroup("goodlock")
    group.addoption("--goodlock-out", default="goodlock", help="writes NAME.report and NAME.trace")
    group.addoption("--goodlock-bound", help="the most members of a cycle, 2 to 8, or auto")
    group.addoption("--goodlock-seconds", metavar="N", help="the most seconds of the search after the tests")
    group.addoption("--goodlock-allow-partial", action="store_true", help="a run that was analysed only in part is no error")
    group.addoption("--goodlock-fail-on", metavar="WORD", help="fails if a deadlock is confirmed, potential or new")
    group.addoption("--goodlock-baseline", metavar="FILE", help="the known deadlocks")
    group.addoption("--goodlock-suppress", metavar="FILE", help="patterns of code locations that are no failure")


def pytest_configure(config):
    if not any(config.getoption(name, False) for name in WITHOUT_TESTS):
        config.pluginmanager.register(Tracing(config), "goodlock")


class Line(str):
    """The line of the summary about an item; pytest asks for its `message`."""

    message = property(str)


class Text:
    """What pytest shows of an item that has failed."""

    def __init__(self, line, text):
        self.reprcrash, self.text = Line(line), text

    def __str__(self):
        return self.text

    def toterminal(self, terminal):
        terminal.line(self.text)


def read(path):
    with open(path, encoding="utf-8", errors="replace") as file:
        return file.read()


def report_of(out):
    """Returns the text of the reports of a process: the first one names those of further windows."""
    try:
        text = read("{}.report".format(out))
        others = WINDOW.findall(text)
        return "\n".join([text] + [read(os.path.join(os.path.dirname(out), name)) for name in others]) or "the report is empty"
    except OSError as error:
        return "the report cannot be read: {}".format(error)


class Tracing:
    """Traces this process. With xdist the workers are traced, and not the controller that starts them. `found` has for the name of each
    traced process its report if it fails, "" if it does not, and None if it was not analysed."""

    def __init__(self, config):
        self.config, self.name = config, config.getoption("--goodlock-out")
        self.worker = getattr(config, "workerinput", {}).get("workerid")
        self.is_controller = self.worker is None and config.getoption("dist", "no") != "no"
        self.out = self.name_of(self.worker) if self.worker else self.name
        self.path = os.path.abspath(self.out.replace("%p", str(os.getpid())))  # a test may change the working folder
        self.found, self.tracing, self.run, self.is_over = {}, None, None, False

    def name_of(self, worker):
        return "{}.{}".format(self.name, worker)

    # ---- the process that is traced ----

    def pytest_sessionstart(self):
        if self.is_controller:
            return
        self.found[self.out] = None
        named = {name: self.config.getoption("--goodlock-{}".format(name)) for name in ("fail-on", "baseline", "suppress", "seconds")}
        options = ["--{}={}".format(name, value) for name, value in named.items() if value is not None]
        options += ["--allow-partial"] * self.config.getoption("--goodlock-allow-partial")
        try:
            os.makedirs(os.path.dirname(self.out) or ".", exist_ok=True)
        except OSError as error:
            goodlock_agent.say("cannot make the folder of {}: {}".format(self.out, error))
        self.tracing = goodlock_agent.tracing(self.out, self.config.getoption("--goodlock-bound"), options=options)
        self.run = self.tracing.__enter__()
        if not self.run.is_traced and not self.worker:  # the controller says so of a worker
            raise pytest.UsageError("goodlock cannot trace this run; the line above that begins with goodlock: says why")

    def end_trace(self):
        if self.tracing:
            self.tracing.__exit__(None, None, None)
            self.tracing = None
            if self.run.has_deadlock is not None:
                self.found[self.out] = report_of(self.path) if self.run.has_deadlock else ""

    # ---- the workers of xdist ----

    @pytest.hookimpl(optionalhook=True)
    def pytest_configure_node(self, node):
        self.found[self.name_of(node.gateway.id)] = None

    @pytest.hookimpl(optionalhook=True)
    def pytest_testnodedown(self, node):
        self.found.update(getattr(node, "workeroutput", {}).get("goodlock", {}))

    # ---- the items ----

    def finish(self):
        """Ends the trace, and adds the items."""
        if self.is_over:
            return
        self.is_over = True
        terminal = self.config.pluginmanager.getplugin("terminalreporter")
        if terminal and not self.worker:
            terminal.ensure_newline()  # the agent prints lines too
        self.end_trace()
        if self.worker:
            self.config.workeroutput["goodlock"] = self.found
            return
        unknown = sorted(name for name, text in self.found.items() if text is None)
        failing = sorted(name for name, text in self.found.items() if text)
        if failing:
            names = ", ".join("{}.report".format(name) for name in failing)
            self.add("deadlocks", "call", "deadlock: {}".format(names),
                     "\n".join("{}.report:\n{}".format(name, self.found[name]) for name in failing))
        if unknown:
            line = "no report of deadlocks: {}".format(", ".join(unknown))
            self.add("analysis", "setup", line, line + "\nThe process has ended early, or a line on standard error that begins with goodlock: "
                     "says why. Its tests have run without an analysis.")

    def add(self, name, when, line, text):
        node, location = "goodlock::{}".format(name), ("goodlock", None, name)
        self.config.hook.pytest_runtest_logstart(nodeid=node, location=location)
        self.config.hook.pytest_runtest_logreport(
            report=TestReport(node, location, {name: 1}, "failed", Text(line, text), when, duration=0.0))

    @pytest.hookimpl(hookwrapper=True)
    def pytest_runtestloop(self):
        yield
        self.finish()

    @pytest.hookimpl(tryfirst=True)
    def pytest_sessionfinish(self, session):
        self.finish()
        if session.exitstatus == 0 and not all(text == "" for text in self.found.values()):
            session.exitstatus = FAILED

    def pytest_unconfigure(self):
        self.end_trace()
