"""Runs an agent with a server and the dashboard next to it. `goodlock --dashboard` starts it.

usage: tools/agent_dashboard GOODLOCK --dashboard[=SECONDS] [OPTION ..] PROGRAM [ARG ..]

Ctrl-C reaches the program while it runs; then it ends the page. The exit status is that of the agent. With --server no server is
started. GOODLOCKD_PROGRAM names another program than ./goodlockd.
"""
import contextlib
import os
import shutil
import signal
import subprocess
import sys
import threading
import time
from collections.abc import Iterator
from typing import NoReturn, Optional

from goodlock.agent.run import say
from goodlock.commandline import ENDING, is_number, print_usage, wait_for
from goodlock.dashboard.web import start, work_folder
from goodlock.protocol import split
from goodlock.rolling import Server

FOR_EVER, WRONG = 10**8, 2
SWITCHES = ("--dashboard", "--no-config", "--allow-partial", "--trace-children")  # options without a value


def refuse(text: str) -> NoReturn:
    say(text)
    sys.exit(WRONG)


@contextlib.contextmanager
def server_at(address: Optional[str]) -> Iterator[str]:
    """Gives the address of a server. If there is no address, it starts one, which Ctrl-C in the terminal does not end, and ends it."""
    if address is not None:
        yield address
        return
    try:
        server = Server()
    except OSError as fault:
        refuse(f"there is no server: {fault}; the program is not run")
    try:
        yield server.address
    finally:
        server.end()


def is_address(word: str) -> bool:
    with contextlib.suppress(ValueError):
        return bool(split(word))
    return False


def take_options(args: list[str]) -> tuple[list[str], dict[str, str]]:
    """Takes `--dashboard` from the options before the program. Returns the other arguments, and the values of the options."""
    options: dict[str, str] = {}
    kept: list[str] = []
    at = 0
    while at < len(args) and args[at].startswith("--") and args[at] != "--":
        name, equals, value = args[at].partition("=")
        end = at + 1 if equals or name in SWITCHES else at + 2
        options[name] = value if equals else "".join(args[at + 1:end])
        kept += args[at:end] if name != "--dashboard" else []
        at = end
    return kept + args[at:], options


def open_browser(page: str) -> None:
    if (os.environ.get("DISPLAY") or os.environ.get("WAYLAND_DISPLAY")) and shutil.which("xdg-open"):
        quiet = subprocess.DEVNULL
        subprocess.Popen(["xdg-open", page], start_new_session=True, stdin=quiet, stdout=quiet, stderr=quiet)


def run_agent(args: list[str]) -> tuple[int, bool]:
    """Runs the agent to its end. Returns its exit status, and whether a signal was passed on to it that ends all."""
    signal.signal(signal.SIGINT, lambda *_: None)  # the terminal sends it to the program too
    with subprocess.Popen(args) as agent:
        return wait_for(agent)


def stay(page: str, seconds: str) -> None:
    """Returns after this time or at a signal."""
    say(f"{page} shows the run {f'for {seconds} s' if seconds else 'until Ctrl-C'}")
    with contextlib.suppress(KeyboardInterrupt):
        for number in signal.SIGINT, *ENDING:
            signal.signal(number, signal.default_int_handler)
        time.sleep(int(seconds or FOR_EVER))


def main() -> int:
    if len(sys.argv) < 3:
        return print_usage(__doc__, WRONG)
    args, options = take_options(sys.argv[2:])
    seconds, trace = options.get("--dashboard", ""), f"{options.get('--out', 'goodlock')}.trace"
    if seconds and not is_number(seconds, 8):
        refuse("--dashboard takes a number of seconds; --help explains the options")
    if "--server" in options and not is_address(options["--server"]):
        refuse("--server is an IPv4 address and a port; --help explains the options")
    if "%p" in trace:
        refuse("--dashboard reads the trace while the program runs: choose a name without %p for --out")
    with server_at(options.get("--server")) as server, work_folder() as folder:
        dashboard = start(server, trace, "127.0.0.1", 0, folder)
        threading.Thread(target=dashboard.serve_forever, daemon=True).start()
        say(f"{dashboard.url()} shows the run")
        open_browser(dashboard.url())
        status, is_over = run_agent([sys.argv[1], "--server", server, *args])
        dashboard.watch.look()
        if not is_over and dashboard.watch.view["accepted"] != 0:  # if 0, the program was not run, or there is nothing to show
            stay(dashboard.url(), seconds)
    return status
