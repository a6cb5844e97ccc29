"""Runs a program again so that a deadlock which its trace predicts happens. `goodlock --reproduce` starts it.

usage: tools/agent_reproduce COLLECTOR RECORDER GOODLOCKD REPORTER --reproduce NAME [--cycle N,N,..] [--tries N] [--patience S] [--gdb]
                             PROGRAM [ARG ..]

Exit status: 0 if the deadlock has happened, 1 if it has not, 2 if the command line is wrong, there is no such cycle, the trace lacks what
this needs or the program was rebuilt, 3 if only another deadlock has happened.
"""
from __future__ import annotations

import argparse
import shutil
import signal
import sys

from goodlock.agent.run import say
from goodlock.commandline import ENDING, WordsParser, is_number, print_usage, whole_number
from goodlock.errors import InputError
from goodlock.reproduce.drive import NOT_REPRODUCED, Agent, Driver, Plan
from goodlock.reproduce.recorded import check_builds, find_cycle
from goodlock.reproduce.notes import note_reproduced

WRONG, MOST_TRIES, MOST_PATIENCE, AGENT_FILES = 2, 1000, 3600, 4


def seconds(word: str) -> float:
    try:
        value = float(word)
    except ValueError:
        value = 0
    if not 0.01 <= value <= MOST_PATIENCE:
        raise argparse.ArgumentTypeError(f"not 0.01 to {MOST_PATIENCE} seconds")
    return value


def numbers(word: str) -> tuple[int, ...]:
    words = word.replace(",", " ").split()
    if not words or not all(is_number(part, 11) for part in words):
        raise argparse.ArgumentTypeError("not the numbers of a cycle, as in 0,1")
    return tuple(map(int, words))


def read_args(words: list[str]) -> argparse.Namespace:
    parser = WordsParser("goodlock")
    parser.add_argument("--reproduce", required=True)
    parser.add_argument("--cycle", type=numbers)
    parser.add_argument("--tries", type=whole_number(1, MOST_TRIES), default=3)
    parser.add_argument("--patience", type=seconds, default=2.0)
    parser.add_argument("--gdb", action="store_true")
    args = parser.command_in(words, "program to run")
    if not shutil.which(args.command[0]):
        parser.error(f"cannot run {args.command[0]}: there is no such program")
    return args


def reproduce(words: list[str]) -> int:
    agent = Agent(*words[:AGENT_FILES])
    args = read_args(words[AGENT_FILES:])
    found = find_cycle(args.reproduce, args.cycle)
    check_builds(found.schedule.run.log, args.command[0])
    driver = Driver(agent, Plan(args.command, args.tries, round(args.patience * 1000), args.gdb))
    status = driver.reproduce(found.schedule)
    if driver.proof:
        note_reproduced(found.report, found.schedule.cycle, driver.proof)
    return status


def main() -> int:
    if len(sys.argv) <= AGENT_FILES + 1:
        return print_usage(__doc__, WRONG)
    for number in ENDING:  # end as by Ctrl-C: nothing is left behind
        signal.signal(number, signal.default_int_handler)
    try:
        return reproduce(sys.argv[1:])
    except InputError as fault:
        say(str(fault))
        return WRONG
    except OSError as fault:
        say(f"{fault.filename or 'a file'}: {fault.strerror or fault}")
        return WRONG
    except MemoryError:
        say("no memory for the calls of this run")
        return WRONG
    except KeyboardInterrupt:
        return NOT_REPRODUCED
