"""Decides whether a run fails: by its groups and its deadlock, the options of the gate, and `goodlock.toml`."""
from __future__ import annotations

import argparse
import sys
from collections.abc import Iterable, Sequence
from dataclasses import replace

from goodlock.agent.run import say
from goodlock.agent.search import TIMED, Found, Window
from goodlock.agent.sites import Sites
from goodlock.config import find_config, read_config
from goodlock.gates import Gate, Judgement
from goodlock.happened import deadlock_of, spot_of, with_happened
from goodlock.locations import Root
from goodlock.results import LeftOut, Result, ResultMember, headline, numbered, unused_lines
from goodlock.settings import Settings, add_gate_options, settings_of

DEFAULT, NO_CONFIG = Gate("confirmed"), "--no-config"


def settings_from(words: Sequence[str]) -> Settings:
    """Returns what the options of the gate say; other words are not for it. Without --fail-on a run fails if a deadlock is confirmed or has
    happened."""
    parser = argparse.ArgumentParser(prog="goodlock", usage="goodlock [OPTION ..] PROGRAM [ARG ..]")
    add_gate_options(parser)
    settings = settings_of(parser.parse_known_args(words)[0])
    return settings if settings.gate.fail_on else replace(settings, gate=DEFAULT)


def take_options(words: Sequence[str]) -> None:
    """Prints the options that the configuration file gives, each with a zero byte, and tests those of the gate: with them a run must not
    fail when it has ended. `words` are on the command line."""
    name = None if NO_CONFIG in words else find_config()
    given = read_config(name).words_for("agent") if name else []
    settings_from([*given, *words])
    sys.stdout.buffer.write("".join(f"{word}\0" for word in given).encode("utf-8", "surrogateescape"))
    sys.stdout.flush()


def judge(windows: Iterable[Window], groups: Iterable[Found], deadlock: Sequence[str], sites: Sites, settings: Settings) -> Judgement:
    """Returns whether the groups of a run, and the deadlock that these lines describe, make it fail. Prints why, unless it is by default."""
    happened, _ = deadlock_of([line.strip() for line in deadlock], settings.root)
    found = [result_of(group, sites, settings.root) for group in groups if group.kind != TIMED]
    results = settings.judge.judged(numbered(with_happened(found, happened), settings.root))
    judgement = settings.gate.judgement(results, left_out_of(windows))
    if results and (settings.gate is not DEFAULT or settings.suppressions.name or settings.judge.baseline is not None):
        say(f"{headline(results)}{f'; {judgement.sentence}' if judgement.sentence else ''}")
    return judgement


def name_unused(settings: Settings) -> None:
    """Prints which suppressions no result of the run needed, in the words of `summary`. Call it after `judge`."""
    for line in unused_lines(settings.suppression_file, settings.suppressions.unused()):
        say(line)


def left_out_of(windows: Iterable[Window]) -> LeftOut:
    found = list(windows)
    return LeftOut(further=sum(window.further for window in found), further_confirmed=sum(window.further_confirmed for window in found),
                   further_no_value=sum(window.further_no_value for window in found))


def result_of(found: Found, sites: Sites, root: Root) -> Result:
    members = []
    for at, member in enumerate(found.members):
        wanted = found.members[at - 1].lock
        hold = sites.name(member.since[member.held.index(wanted)])
        members.append(ResultMember(member.thread, spot_of(hold, wanted, root), spot_of(sites.name(member.site), member.lock, root),
                                    tuple(member.held)))
    return Result(found.verdict, tuple(members), "", found.cycles, found.confirmed, condition=found.condition, no_value=found.no_value)
