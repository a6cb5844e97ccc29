"""Tests what from_ftrace makes of the events of a kernel. The lines are written from the documented formats of the kernel, of trace-cmd and of
perf; tests/kernel has recordings of a real one."""
from __future__ import annotations

import contextlib
import gzip
import io
import lzma
import os
from typing import NamedTuple
from unittest.mock import patch

from goodlock.commands import from_ftrace
from goodlock.kernel.classes import MOST_CYCLES, MOST_SAMPLES, Classes, Finder, Finding, read_classes, text_of
from goodlock.kernel.program import ProgramError, Progress, Recording, program, recorded
from goodlock.kernel.recording import lacking, losses, made
from goodlock.limits import MOST_HELD_OF_RUN
from written import InFolder, ends

# The same run as tracefs, as `trace-cmd report`, as `trace-cmd report -l` and as `perf script` print it.
TRACEFS = """# tracer: nop
            bash-1234    [001] d..2.   100.000001: lock_acquire: 00000000000000e1 read rcu_read_lock
            bash-1234    [001] d..2.   100.000002: lock_release: 00000000000000e1 rcu_read_lock
            bash-1234    [001] .....   100.000003: lock_acquire: 00000000000000a1 &A->mutex
            bash-1234    [001] .....   100.000004: lock_acquired: 00000000000000a1 &A->mutex
            bash-1234    [001] .....   100.000005: lock_acquire: 00000000000000b1 &(&B->lock)->rlock
            bash-1234    [001] .....   100.000006: kmalloc: call_site=foo ptr=0xffff
           <...>-77      [000] .....   100.000007: lock_acquire: 00000000000000a1 &A->mutex
           <...>-77      [000] ..s1.   100.000008: lock_acquire: 00000000000000c1 try &C
           <...>-77      [000] ..s1.   100.000009: lock_release: 00000000000000c1 &C
           <...>-77      [000] .....   100.000010: lock_contended: 00000000000000a1 &A->mutex
           <...>-77      [000] d....   100.000011: sched_switch: prev_comm=kworker/0:1 prev_pid=77 prev_prio=120 prev_state=D \
==> next_comm=swapper/0 next_pid=0 next_prio=120
            bash-1234    [001] .....   100.000012: lock_release: 00000000000000b1 &(&B->lock)->rlock
            bash-1234    [001] .....   100.000013: lock_release: 00000000000000a1 &A->mutex
          <idle>-0       [000] .....   100.000014: lock_acquire: 00000000000000c1 try &C
          <idle>-0       [000] .....   100.000015: lock_release: 00000000000000c1 &C
           <...>-77      [000] .....   100.000016: lock_acquired: 00000000000000a1 &A->mutex
           <...>-77      [000] .....   100.000017: lock_release: 00000000000000a1 &A->mutex
"""
TRACE_CMD = """cpus=2
            bash-1234  [001]  100.000001: lock_acquire:         0xffff8880000000a1 &A->mutex
            bash-1234  [001]  100.000002: lock_acquire:         0xffff8880000000b1 &B
            bash-1234  [001]  100.000003: lock_release:         0xffff8880000000b1 &B
            bash-1234  [001]  100.000004: lock_release:         0xffff8880000000a1 &A->mutex
            bash-1234  [001]  100.000005: sched_switch:         bash:1234 [120] X ==> my worker:77 [120]
       my worker-77    [001]  100.000006: lock_acquire:         0xffff8880000000b1 &B
       my worker-77    [001]  100.000007: lock_acquire:         0xffff8880000000a1 &A->mutex
       my worker-77    [001]  100.000008: lock_release:         0xffff8880000000a1 &A->mutex
       my worker-77    [001]  100.000009: lock_acquire:         0xffff8880000000c1 try &C
       my worker-77    [001]  100.000010: lock_release:         0xffff8880000000c1 &C
       my worker-77    [001]  100.000011: lock_release:         0xffff8880000000b1 &B
CPU:1 [456 EVENTS DROPPED]
             cat-1234  [001]  100.000012: lock_acquire:         0xffff8880000000c1 &C
             cat-1234  [001]  100.000013: lock_acquire:         0xffff8880000000b1 &B
             cat-1234  [001]  100.000014: lock_release:         0xffff8880000000b1 &B
             cat-1234  [001]  100.000015: lock_release:         0xffff8880000000c1 &C
"""
LATENCY = TRACE_CMD.replace("    [001]  ", "    1...1. ").replace("  [001]  ", "  1d..1. ").replace("456 EVENTS", "EVENTS")
PERF = """perf  45 [001]    99.900001:       lock:lock_acquire: 0xffff8880000000d1 &early
perf  45 [001]    99.900002:       lock:lock_release: 0xffff8880000000d2 &late
perf  45 [001]    99.900003:       sched:sched_switch: prev_comm=perf prev_pid=45 prev_prio=120 prev_state=S \
==> next_comm=bash next_pid=1234 next_prio=120
bash  1234 [001]   100.000001:       lock:lock_acquire: 0xffff8880000000a1 &A->mutex
\tffffffff8110b2f7 lock_acquire+0xd7 ([kernel.kallsyms])

bash  1234 [001]   100.000002:       lock:lock_acquire: 0xffff8880000000b1 &B
bash  1234 [001]   100.000003:       lock:lock_release: 0xffff8880000000b1 &B
:-1    -1 [001]   100.000004:          1 lock:lock_release: 0xffff8880000000a1 &A->mutex
:-1    -1 [001]   100.000005:       sched:sched_switch: prev_comm=bash prev_pid=1234 prev_prio=120 prev_state=X \
==> next_comm=my worker next_pid=77 next_prio=120
my worker    70/77 [001]   100.000006:       lock:lock_acquire: 0xffff8880000000b1 &B
my worker    77 [001]   100.000007:       lock:lock_acquire: 0xffff8880000000a1 &A->mutex
my worker    77 [001]   100.000008:       lock:lock_release: 0xffff8880000000a1 &A->mutex
my worker    77 [001]   100.000009:       lock:lock_acquire: 0xffff8880000000c1 try &C
my worker    77 [001]   100.000010:       lock:lock_release: 0xffff8880000000c1 &C
my worker    77   100.000011:       lock:lock_release: 0xffff8880000000b1 &B
cat  1234 [001]   100.000012:       lock:lock_acquire: 0xffff8880000000c1 &C
cat  1234 [001]   100.000013:       lock:lock_acquire: 0xffff8880000000b1 &B
cat  1234 [001]   100.000014:       lock:lock_release: 0xffff8880000000b1 &B
cat  1234 [001]   100.000015:       lock:lock_release: 0xffff8880000000c1 &C
"""
TWO_TASKS = "0f1 1a1 1a2 1r2 1r1 0f2 2a2 2a1 2r1 2a3 2a4 2r3 2r4 2r2 0f3 3a4 3a2 3r2 3r4"
SHORT = {"acquire": "lock_acquire", "got": "lock_acquired", "busy": "lock_contended", "release": "lock_release"}


def line_of(number: int, text: str) -> str:
    """Returns a line of tracefs for `TASK[@PROCESSOR][/FLAGS] EVENT TEXT`."""
    who, event, rest = text.split(" ", 2)
    task, _, flags = who.partition("/")
    task, _, processor = task.partition("@")
    if event in SHORT:
        words = rest.split(" ")
        rest = f"{sum(map(ord, words[-1])):x}0 {rest}" if not words[0].startswith("0x") else rest
    return f"{task} [{int(processor or 0):03}] {flags or '....'} {number}.000000: {SHORT.get(event, event)}: {rest}\n"


def text_of_lines(*events: str) -> str:
    """Returns a recording. `take` is an acquire that gets its lock at once: `lock_acquire` and `lock_acquired`."""
    lines = []
    for event in events:
        who, what, rest = event.split(" ", 2)
        both = [f"{who} acquire {rest}", f"{who} got {rest.removeprefix('read ')}"]
        lines += both if what == "take" else [event]
    return "".join(line_of(number, line) for number, line in enumerate(lines, 1))


class Made(NamedTuple):
    events: str
    comments: list[str]
    counts: dict[str, int]
    classes: Classes


class Kernel(InFolder):
    @classmethod
    def setUpClass(cls) -> None:
        program()  # is built here, since it takes longer than a test may

    def record(self, text: str, *ww: str) -> Recording:
        return recorded(self.write("in", text), "in", ".", list(ww))

    def convert(self, text: str, *ww: str) -> Made:
        found = self.record(text, *ww)
        lines = self.read("converted").splitlines()
        return Made(" ".join(line for line in lines if not line.startswith("#")), [line for line in lines if line.startswith("#")],
                    found.counts, read_classes(found.classes))

    def check(self, events: str, *lines: str) -> Made:
        """Checks the events that lines become."""
        found = self.convert(text_of_lines(*lines))
        self.assertEqual(found.events, events, lines)
        return found

    def findings(self, *lines: str, nested: tuple[str, ...] = (), not_validated: tuple[str, ...] = ()) -> list[Finding]:
        return Finder(self.convert(text_of_lines(*lines)).classes, nested, not_validated).findings()


class Formats(Kernel):
    def test_tracefs(self) -> None:
        """The second acquire of &A waits until 100.000016. B is never acquired, so it is no lock here."""
        found = self.convert(TRACEFS)
        self.assertEqual(found.events, "0f1 1a1 0f2 2a2 2r2 1r1 0f3 3a2 3r2 0f4 4a1 4r1")
        for line in ["# lock 1 is &A->mutex at a1", "# at class &A->mutex", "# thread 2 is softirq of processor 0", "# thread 4 is kworker/0:1-77",
                     "# thread 3 is idle task of processor 0", "# line 5 of in"]:
            self.assertIn(line, found.comments)
        self.assertEqual(found.counts["annotations"], 1)

    def test_tools(self) -> None:
        for name, text, lost, begun in [("report", TRACE_CMD, 1, 0), ("report -l", LATENCY, 1, 0), ("perf", PERF, 0, 3)]:
            found = self.convert(text)
            with self.subTest(name):
                self.assertEqual(found.events, TWO_TASKS)
                self.assertIn("# mark 3", found.comments)
                self.assertEqual((found.counts["tried"], found.counts["lost"], found.counts["begun"]), (1, lost, begun))
                self.assertEqual(found.counts["flagged"] > 0, name == "report -l")

    def test_heads(self) -> None:
        for head, name in [
            ("bash-1234    [001] d.h2.   100.000001:", "hardirq of processor 1"), ("<...>-7 [0] 1.0:", "task 7"), ("a b-9 ( 1234) [001] .... 1.5:", "a b-9"),
            ("a-9 (-------) [001] .... 1.5:", "a-9"), ("my worker 70/77 [001] 1.5:", "my worker-77"), ("my worker 77 1.5:  1", "my worker-77"),
            ("x-y-3 [000] 5:", "x-y-3"), ("workload-48      1..s..    20.065269:", "softirq of processor 1"), ("a-0 12.....    20.065269:", "idle task of processor 12"),
        ]:
            found = self.convert(f"{head} lock_acquire: 0xa1 x\n{head} lock_release: 0xa1 x\n")
            with self.subTest(head):
                self.assertIn(f"# thread 1 is {name}", found.comments)

    def test_lost(self) -> None:
        for line, is_lost in [("CPU:1 [LOST 12 EVENTS]", 1), ("CPU:1 [456 EVENTS DROPPED]", 1), ("CPU:1 [EVENTS DROPPED]", 1), ("PERF_RECORD_LOST lost 5", 1),
                              ("x 1 [000] lost 5 events", 1), ("a-1 [000] lost and found", 0), ("a-1 [000] .... 1.0: kmalloc: [x]", 0)]:
            with self.subTest(line):
                self.assertEqual(self.convert(f"{TRACEFS}{line}\n").counts["lost"], is_lost)

    def test_faults(self) -> None:
        head = "bash-1 [000] 1.0: "
        for text, message in [
            (f"{head}lock_acquire: (null) x\n", "in:1: (null) x: lock_acquire has no address and name"),
            (f"{head}lock_acquire: 0xa1\n", "in:1: 0xa1: lock_acquire has no address and name"),
            ("bash [000] 1.0: lock_acquire: 0xa1 x\n", "in:1: bash [000] 1.0: lock_acquire: 0xa1 x: before the event there are no task, number and time"),
            (f"{head}lock_acquire: 0xa1 x\n{head}sched_switch: bash\n", "in:2: bash: sched_switch has no previous and next task"),
            (f"{head}lock_acquire: 0xa1 x\n{head}sched_process_fork: comm=a\n", "in:2: comm=a: sched_process_fork has no child"),
            (f"{head}lock_acquire: 0xa1 x\n{head}sched_waking: a\n", "in:2: a: sched_waking has no task"),
            (f"{head}lock_acquire: 0xa1 x\n{head}workqueue_queue_work: a\n", "in:2: a: the event has no work"),
            ("bash-1 [8192] 1.0: lock_acquire: 0xa1 x\n", "in:1: processor 8192: the largest number is 8191"),
            ("# tracer: nop\n", "in:2: the file has no lock events"), ("", "in:1: the file has no lock events"),
            ("x" * 65_537 + "\n", "in:1: a line of more than 65536 bytes"), ("x" * 65_537, "in:1: a line of more than 65536 bytes"),
            (" " * 20_000 + ": lock_acquire: 0xa1 x\n", None), ("1-1 " * 7_000 + ": lock_acquire: 0xa1 x\n", None),
            (f"{head}lock_acquire:" + " " * 20_000 + "x\n", None),
            (f"{head}lock_acquire: 0xa1 x\n{head}sched_switch: " + "prev_pid= ==> " * 2_000 + "\n", None),
        ]:
            with self.subTest(text=text[:60]), ends():
                status, printed = self.faulty(text)
                self.assertEqual(status, 2)
                self.assertIn(message or "in:", printed)
        self.convert("bash-1 [8191] 1.0: lock_acquire: 0xa1 x\n" + "x" * 65_536 + "\n")

    def faulty(self, text: str) -> tuple[int, str]:
        """Returns the status of the program and what it prints as a fault."""
        kept = os.dup(2)
        with open("err", "w+b") as err:
            os.dup2(err.fileno(), 2)
            try:
                self.record(text)
                status = 0
            except ProgramError as fault:
                status = fault.status
            finally:
                os.dup2(kept, 2)
                os.close(kept)
            err.seek(0)
            return status, err.read().decode()

    def test_cut_files(self) -> None:
        events = self.convert(TRACEFS).events
        for more, name in [("\0\0\0", "nul_line"), ("bash-1 [000] 1.0: lo\0\0\nbash-1 [000] 1.0: lock_acquire: 0xa1 x\n", "nul_line"),
                           ("bash-1 [000] .... 1.0: lock_acquire: 0xa1 &mm->mm", "cut_line")]:
            found = self.convert(TRACEFS + more)
            with self.subTest(more):
                self.assertEqual((found.events, found.counts[name]), (events, len(TRACEFS.splitlines()) + 1))
                self.assertEqual(len(list(losses(found.counts))), 1)
        hidden = self.convert(TRACEFS + "bash-1 [000] .... 1.0: lock_acquire: (____ptrval____) x\n")
        self.assertEqual((hidden.events, hidden.counts["hidden"]), (events, 1))

    def test_packed(self) -> None:
        for packed in (gzip.compress(TRACE_CMD.encode()), lzma.compress(TRACE_CMD.encode())):
            with open("packed", "wb") as file:
                file.write(packed)
            recorded("packed", "packed", ".", [])
            self.assertEqual(" ".join(line for line in self.read("converted").splitlines() if line[0] != "#"), TWO_TASKS)
        with open("packed", "wb") as file:
            file.write(packed[:-30])
        with patch("sys.argv", ["from_ftrace", "packed", "out"]), contextlib.redirect_stderr(io.StringIO()) as err:
            self.assertEqual(from_ftrace.main(), 2)
        self.assertIn("packed: cannot be unpacked: ", err.getvalue())
        self.assertFalse(os.path.exists("out.trace"))


class Orders(Kernel):
    def test_forks(self) -> None:
        """The parent forks the child, whose number was another task's before."""
        found = self.check("0f1 1a1 1r1 0f2 2a1 2r1 2f3 3a1 3r1", "b-2 take A", "b-2 release A", "p-1 take A", "p-1 release A",
                           "p-1 sched_process_fork comm=p pid=1 child_comm=p child_pid=2", "c-2 take A", "c-2 release A")
        self.assertIn("# thread 3 is c-2", found.comments)

    def test_wake_ups(self) -> None:
        waking = "p-1 sched_waking comm=w pid=2 prio=120 target_cpu=001"
        self.check("0f1 1w1 0f2 2d1 2a1 2r1", waking, "w-2 take A", "w-2 release A")
        self.check("0f1 1w1 0f2 2d1 2a1 2r1", "p-1 sched_waking w:2 [120] CPU:001", "w-2 take A", "w-2 release A")
        self.check("0f1 1a1 1r1 0f2 2a1 2r1", "p-1 take A", "w-2 acquire A", "w-2 busy A", "p-1 release A", waking, "w-2 got A", "w-2 release A")

    def test_completions(self) -> None:
        """A section of a completion comes after those before it, except after one that waits."""
        for name in ("&x->wait", "(done).wait.lock", "&sig->wait_chldexit"):
            self.check("0f1 1a1 1r1 1w1 1a2 1r2 0f2 2a1 2d1 2r1", f"p-1 take {name}", f"p-1 release {name}", "p-1 take A", "p-1 release A",
                       f"w-2 take {name}", f"w-2 release {name}")
        self.check("0f1 1a1 1r1 1a2 1r2 0f2 2a1 2r1", "p-1 take &x->wait", "p-1 release &x->wait", "p-1 take &rq->__lock", "p-1 release &rq->__lock",
                   "p-1 sched_switch prev_comm=p prev_pid=1 prev_prio=1 prev_state=D ==> next_comm=w next_pid=2 next_prio=1", "w-2 take &x->wait",
                   "w-2 release &x->wait")
        self.check("0f1 1a1 1r1 0f2 2a1 1w1 2d1 2r1", "p-1 take &x->wait", "p-1 release &x->wait", "w-2 take &x->wait", "w-2 release &x->wait")
        self.check("0f1 1a1 1r1 1w1 0f2 2a2 2r2 0f3 3a1 3d1 3r1", "p-1/d.h. take &x->wait", "p-1/d.h. release &x->wait", "p-1 take A", "p-1 release A",
                   "w-2/d... take &x->wait", "w-2/d... release &x->wait")

    def test_works(self) -> None:
        """The execution comes after the queueing. Who flushes it waits for it, while it holds A."""
        run = ["k-9 acquire (wq_completion)q", "k-9 acquire (work_completion)(&w)", "k-9 workqueue_execute_start work struct 0xd1: function f", "k-9 take A",
               "k-9 release A", "k-9 release (work_completion)(&w)", "k-9 release (wq_completion)q"]
        queue = "p-1 workqueue_queue_work work struct=0xd1 function=f workqueue=events req_cpu=4 cpu=0"
        flush = ["p-1 acquire 0xf1 (work_completion)(&w)", "p-1 release 0xf1 (work_completion)(&w)"]
        found = self.check("0f1 1w1 0f2 2d1 2a1 2a2 2r2 2w2 2r1 1a2 1a3 1a1 1r1 1r3 1d2 1r2", queue, *run, "p-1 take A", *flush, "p-1 release A")
        self.assertIn("# lock 1 is work (work_completion)(&w) by name, executed by k-9", found.comments)
        self.assertEqual(found.counts["named"], 1)
        other = [line.replace("0xd1", "0xd2") for line in [queue, *run]]
        self.check("0f1 1w1 0f2 2d1 2a1 2r1 1w2 2d2 2a1 2r1 1a1 1r1", queue, *run, *other, "p-1 take A", *flush, "p-1 release A")

    def test_waits_for_a_running_work(self) -> None:
        """The wait is an acquire at the end of the execution, if the thread still holds what it held."""
        begin = ["k-9 acquire (work_completion)(&w)", "k-9 workqueue_execute_start work struct 0xd1: function f"]
        flush = ["p-1 take A", "p-1 acquire 0xf1 (work_completion)(&w)", "p-1 release 0xf1 (work_completion)(&w)"]
        self.check("0f1 1a1 0f2 2a2 2a3 2r3 1w1 1r1 2a1 2r1 2d1 2r2", *begin, *flush, "k-9 release (work_completion)(&w)", "p-1 release A")
        self.check("0f1 1a1 0f2 2a2 2a3 2r3 2r2 1w1 1r1", *begin, *flush, "p-1 release A", "k-9 release (work_completion)(&w)")

    def test_timers(self) -> None:
        """Executions of a timer and waits for it keep their turn: who asked for it is not recorded."""
        timer, sync = "<idle>-0/..s.", ["p-1/d... take A", "p-1/d... acquire 0xf1 (&t)", "p-1 release 0xf1 (&t)", "p-1 release A"]
        fire = [f"{timer} acquire 0xe1 (&t)", f"{timer} take A", f"{timer} release A", f"{timer} release 0xe1 (&t)"]
        self.check("0f1 1a1 1w1 1a2 1r2 1d1 1w1 1r1 0f2 2a2 2d1 2a3 2a1 2r1 2r3 2d1 2w1 2r2", *fire, *sync)
        several = [*sync, "p-1/d... acquire 0xf2 (&t)", "p-1 release 0xf2 (&t)"]
        self.check("0f1 1a1 1r1 0f2 2a1 2r1", *fire, *several)

    def test_interrupts(self) -> None:
        """A task that holds A where an interrupt may come that takes A waits for the interrupts of the processors that have some."""
        task, irq = ["p-1@1 take A", "p-1@1 release A"], ["p-1@1/d.h. take A", "p-1@1/d.h. release A"]
        found = self.check("0f1 1a1 1a2 1r2 1w1 1r1 0f2 2a2 2d1 2a1 2r1 2d1 2w1 2r2 1a1 1d1 1a2 1r2 1w1 1r1", *task, *irq, *task)
        self.assertIn("# lock 2 is hardirq of processor 1", found.comments)
        other = [line.replace("p-1@1", "q-2@0") for line in task]  # the end of the interrupt is not seen before
        self.check("0f1 1a1 1a2 1r2 1w1 1r1 0f2 2a2 2d1 2a1 2r1 0f3 3a1 2d1 2w1 2r2 3d1 3a2 3r2 3w1 3r1", *task, *irq, *other)
        off = [line.replace("@1 ", "@1/d... ") for line in task]
        self.check("0f1 1a1 1r1 0f2 2a1 2r1 1a1 1r1", *off, *irq, *off)

    def test_interrupts_of_many_processors(self) -> None:
        """A task waits for those of the first eight."""
        for number in (8, 9):
            irqs = [line for at in range(number) for line in (f"p-1@{at}/d.h. take A", f"p-1@{at}/d.h. release A")]
            found = self.convert(text_of_lines(*irqs, "p-1@90 take A", "p-1@90 release A"))
            self.assertEqual(found.counts["interrupts"], 8)

    def test_interrupts_on_a_cycle(self) -> None:
        """An interrupt that acquires on a cycle of classes comes after all that was before it."""
        task = ["p-1/d... take B", "p-1/d... take A", "p-1/d... release A", "p-1/d... release B"]
        irq = ["p-1@1/d.h. take A", "p-1@1/d.h. take B", "p-1@1/d.h. release B", "p-1@1/d.h. release A"]
        self.check("0f1 1a1 1a2 1r2 1r1 0f2 2a2 1w1 2d1 2a1 2r1 2r2", *task, *irq)


class Sections(Kernel):
    def test_readers(self) -> None:
        """A waiting writer of a lock that prefers writers keeps each reader out while it waits for another."""
        found = self.check("0f1 1a2 0f2 2a3 1r2 2r3 0f3 3a1 3a3 3a2 3r2 3r3 3a2 3a3 3r3 3r2 3r1", "r-1 take read S", "r-2 take read S", "r-1 release S", "r-2 release S",
                           "w-3 take S", "w-3 release S")
        for line in ["# lock 2 is a part of lock 1 for thread 1", "# lock 3 is a part of lock 1 for thread 2", "# lock 1 prefers writers"]:
            self.assertIn(line, found.comments)
        spin = self.check("0f1 1a2 1r2 0f2 2a1 2a2 2r2 2r1", "r-1/...1 take read S", "r-1/...1 release S", "w-3/...1 take S", "w-3/...1 release S")
        self.assertNotIn("# lock 1 prefers writers", spin.comments)
        self.check("0f1 1a1 1r1", "r-1 take read S", "r-1 release S", "w-3 take T", "w-3 release T")  # nobody writes S

    def test_many_readers(self) -> None:
        """A ninth reader has no part: it and the writers are ordered by variables."""
        lines = [line for number in range(1, 9) for line in (f"r-{number}/...1 take read S", f"r-{number} release S")]
        found = self.convert(text_of_lines(*lines, "w-20/...1 take S", "w-20 release S"))
        self.assertEqual(found.events.split()[24:], "0f9 9a1 9a2 9a3 9a4 9a5 9a6 9a7 9a8 9a9 9r9 9r8 9r7 9r6 9r5 9r4 9r3 9r2 9r1".split())
        self.assertEqual(found.counts["readers_as_orders"], 0)
        ninth = self.convert(text_of_lines(*lines, "r-9/...1 take read S", "r-9 release S", "w-20/...1 take S", "w-20 release S"))
        self.assertEqual(ninth.events.split()[24:], "0f9 9w1 0f10 10a1 10a2 10a3 10a4 10a5 10a6 10a7 10a8 10a9 10d1 10w2 10r9 10r8 10r7 10r6 10r5 "
                                                    "10r4 10r3 10r2 10r1".split())
        self.assertEqual(ninth.counts["readers_as_orders"], 1)

    def test_downgrade(self) -> None:
        """A writer that lets a reader in has become a reader."""
        found = self.check("0f1 1a2 1r2 1a1 1a2 1a3 1r3 1r1 0f2 2a3 2r3 1r2", "w-1/...1 take read S", "w-1 release S", "w-1/...1 take S", "r-2/...1 take read S",
                           "r-2 release S", "w-1 release S")
        self.assertEqual((found.counts["downgraded"], found.counts["unseen"]), (1, 0))

    def test_other_class(self) -> None:
        """A lock may get another class while it is held."""
        found = self.check("0f1 1a1 1r1 1a2 1r2", "p-1 take 0xa1 A", "p-1 release 0xa1 B", "p-1 take C", "p-1 release C")
        self.assertEqual(found.counts["not_held"], 0)

    def test_failed(self) -> None:
        """An acquire without lock_acquired has failed, or waits for nothing."""
        found = self.check("0f1 1a1 1r1", "p-1 take A", "p-1 acquire B", "p-1 release B", "p-1 release A")
        self.assertEqual(found.counts["annotations"], 1)

    def test_without_lock_acquired(self) -> None:
        """A lock counts as held from the thread's next event. The switch is none, annotations are known by their names."""
        away = "p-1 sched_switch prev_comm=p prev_pid=1 prev_prio=1 prev_state=D ==> next_comm=w next_pid=2 next_prio=1"
        self.check("0f1 1a1 1r1 0f2 2a1 2r1", "p-1 acquire A", away, "w-2 acquire A", "p-1 release A", "w-2 acquire fs_reclaim", "w-2 release fs_reclaim",
                   "w-2 release A")

    def test_unseen_releases(self) -> None:
        found = self.check("0f1 1a1 1r1 0f2 2a1 2r1", "p-1 take A", "w-2 take A", "w-2 release A")
        self.assertEqual(found.counts["unseen"], 1)
        found = self.check("0f1 1a1 1r1 1a1 1r1", "p-1 take A", "p-1 take A", "p-1 release A")
        self.assertEqual(found.counts["unseen"], 1)

    def test_held_before(self) -> None:
        """What is released without an acquire was held from the begin, or from where events were lost, unless it was acquired since."""
        found = self.check("0f1 1a1 1a2 1r2 1r1", "p-1 take B", "p-1 release B", "p-1 release A", "w-2 got A")
        self.assertEqual(found.events, "0f1 1a1 1a2 1r2 1r1")
        self.assertEqual((found.counts["before"], found.counts["not_held"]), (1, 0))
        found = self.check("0f1 1a1 1r1", "w-2 take A", "w-2 release A", "p-1 release A")
        self.assertEqual((found.counts["before"], found.counts["not_held"]), (0, 1))
        lost = text_of_lines("p-1 take A", "p-1 take C") + "CPU:1 [LOST 5 EVENTS]\n" + text_of_lines("p-1 take B", "p-1 release B", "p-1 release A")
        self.assertEqual(self.convert(lost).events, "0f1 1a1 1a2 1r2 1r1 1a1 1a3 1r3 1r1")  # A is held before and after, C before

    def test_end_of_a_task(self) -> None:
        """The release that follows the switch of a task that ends is its own."""
        end = "p-1 sched_switch prev_comm=p prev_pid=1 prev_prio=1 prev_state=X ==> next_comm=w next_pid=2 next_prio=1"
        found = self.check("0f1 1a1 1r1 0f2 2a1 2r1 0f3 3a1 3r1", "p-1 take &rq->__lock", end, "p-1 release &rq->__lock", "w-2 take &rq->__lock",
                           "w-2 release &rq->__lock", "n-1 take &rq->__lock", "n-1 release &rq->__lock")
        self.assertEqual(found.counts["unseen"], 0)
        self.check("0f1 1a1 0f2 2a2 1r1 2r2", "<idle>-0@0 take A", "<idle>-0@1 take B", "<idle>-0@0 release A", "<idle>-0@1 release B")

    def test_ww(self) -> None:
        lines = text_of_lines("p-1 take reservation_ww_class_mutex", "p-1 take mine", "p-1 release mine", "p-1 release reservation_ww_class_mutex")
        self.assertEqual(self.convert(lines).events, "0f1 1a1 1r1")
        found = self.convert(lines, "mine")
        self.assertEqual((found.events, found.counts["ww"]), ("", 2))

    def test_many_held_locks(self) -> None:
        for number, too_many in [(MOST_HELD_OF_RUN, 0), (MOST_HELD_OF_RUN + 1, 1)]:
            found = self.convert(text_of_lines(*(f"p-1 take 0x{at:x} A" for at in range(number))))
            self.assertEqual((len(found.events.split()), found.counts["too_many"]), (MOST_HELD_OF_RUN + 1, too_many))

    def test_long_names(self) -> None:
        for length in (10_000, 10_001):
            found = self.convert(text_of_lines(f"p-1 take 0xa1 {'A' * length}"))
            self.assertIn(f"# lock 1 is {'A' * 10_000} at a1", found.comments)


class ByClass(Kernel):
    def test_cycles(self) -> None:
        first = ["p-1 take 0xa1 A", "p-1 take 0xb1 B", "p-1 release 0xb1 B", "p-1 release 0xa1 A"]
        same, other = ["w-2 take 0xb1 B", "w-2 take 0xa1 A"], ["w-2 take 0xb2 B", "w-2 take 0xa2 A"]
        one_task = [line.replace("w-2", "p-1") for line in same]
        for lines, instances in [(same, "the run has these locks in different threads"), (other, "in this run they are other locks"),
                                 (one_task, "in this run they are other locks")]:
            found, = self.findings(*first, *lines)
            self.assertEqual((found.kind, found.classes), ("cycle", ("A", "B", "A")))
            self.assertTrue(found.instances.startswith(instances), found.instances)
        self.assertEqual(self.findings(*first, *same, not_validated=("B",)), [])
        tried = ["w-2 take 0xb1 B", "w-2 acquire 0xa1 try A"]
        self.assertEqual(self.findings(*first, *tried), [])
        self.assertEqual(self.findings(*(line.replace("A", "rcu_read_lock") for line in [*first, *same])), [])

    def test_many_instances(self) -> None:
        """Only the first instances of a dependency are kept."""
        for number, instances in [(MOST_SAMPLES - 1, "in this run"), (MOST_SAMPLES, "there are more instances")]:
            many = [line for at in range(1, number + 1) for line in (f"p-{at} take 0x{at}1 A", f"p-{at} take 0x{at}2 B")]
            found, = self.findings(*many, "w-90 take 0xb1 B", "w-90 take 0xa1 A")
            self.assertTrue(found.instances.startswith(instances), found.instances)

    def test_many_cycles(self) -> None:
        for number in (MOST_CYCLES, MOST_CYCLES + 1):
            lines = [line for at in range(number) for line in (f"p-1 take A{at}", f"p-1 take B{at}", f"p-1 release B{at}", f"p-1 release A{at}",
                                                               f"p-2 take B{at}", f"p-2 take A{at}", f"p-2 release A{at}", f"p-2 release B{at}")]
            finder = Finder(self.convert(text_of_lines(*lines)).classes)
            findings = finder.findings()
            self.assertEqual((len(findings), finder.is_cut), (MOST_CYCLES, number > MOST_CYCLES))
            printed = list(text_of(findings, finder, True))
            self.assertIn(f"{MOST_CYCLES:,} findings", printed[0])
            self.assertEqual("there are more cycles: the first 100 are shown" in printed, number > MOST_CYCLES)

    def test_names_of_several_classes(self) -> None:
        for name in ("lock", "mutex", "sem", "rwsem"):
            one, two = ["p-1 take 0xa1 {}", "p-1 take 0xb1 B", "p-1 release 0xb1 B", "p-1 release 0xa1 {}"], ["w-2 take 0xb1 B", "w-2 take 0xa2 {}"]
            self.assertEqual(self.findings(*(line.format(name) for line in [*one, *two])), [])
            self.assertEqual(len(self.findings(*(line.format(f"{name}s") for line in [*one, *two]))), 1)

    def test_recursion(self) -> None:
        found, = self.findings("p-1 take read S", "p-1 take read S")
        self.assertEqual((found.kind, found.classes, found.instances), ("recursion", ("S",), "one lock"))
        two = ["p-1 take 0xa1 A", "p-1 take 0xa2 A"]
        self.assertEqual([found.kind for found in self.findings(*two)], ["recursion"])
        self.assertEqual(self.findings(*two, nested=("A",)), [])
        self.assertEqual(self.findings(*(line.replace(" A", " &dentry->d_lock") for line in two)), [])
        self.assertEqual(self.findings("p-1 take A", "p-1 take A"), [])  # the release between was not seen

    def test_interrupts(self) -> None:
        on, off, irq = "p-1 take A", "p-1/d... take A", "p-1/d.h. take A"
        for lines, kinds in [([on, irq], ["hardirq"]), ([off, irq], []), ([on, "p-1/..s. take A"], ["softirq"]), (["p-1/b... take A", "p-1/..s. take A"], []),
                             (["p-1 take read A", "p-1/d.h. take read A"], []), (["p-1 take A", "p-1/d.h. take read A"], ["hardirq"]),
                             ([on, "p-1/d.h. acquire try A"], [])]:
            with self.subTest(lines):
                self.assertEqual([found.kind for found in self.findings(*lines)], kinds)
        path, = self.findings(irq, "p-1/d.h. release A", off, "p-1/d... take B", "p-1 release B", "p-1 release A", "w-2 take B")
        self.assertEqual((path.kind, path.classes), ("hardirq", ("A", "B")))


class Terminal(io.StringIO):
    def isatty(self) -> bool:
        return True


class Texts(Kernel):
    def test_progress(self) -> None:
        """A terminal shows the share of a file, at most twice a second, and nothing of it stays. A pipe has no share."""
        self.write("in", "x" * (4 << 20))
        with open("in", "rb") as file, patch("time.monotonic", side_effect=[0, 0.4, 0.5, 0.5, 10, 11, 11]):
            for source, shown in [(file, "\r3 MiB read, 50%\x1b[K\r\x1b[K"), (None, "\r2 MiB read\x1b[K\r\x1b[K")]:
                with contextlib.redirect_stderr(Terminal()) as err:
                    progress = Progress(source)
                    for size in ((1 << 20, 2 << 20) if source else (2 << 20,)):
                        file.seek(2 << 20)
                        progress.add(size)
                    progress.end()
                    self.assertEqual(err.getvalue(), shown)
        with contextlib.redirect_stderr(io.StringIO()) as err:
            progress = Progress(None)
            progress.add(1)
            progress.end()
        self.assertEqual(err.getvalue(), "")

    def test_lacking(self) -> None:
        """Each thing that a recording lacks has its line."""
        whole = {name: 1 for name in ("flagged", "lock_acquired", "sched_switch", "sched_process_fork", "sched_waking", "workqueue_execute_start")}
        self.assertEqual(list(lacking(whole)), [])
        for name, begin in [("flagged", "no flags: "), ("lock_acquired", "no lock_acquired: "), ("sched_switch", "no sched_switch: "),
                            ("sched_process_fork", "no sched_process_fork: forks order nothing"), ("sched_waking", "no sched_waking: wake-ups order nothing"),
                            ("workqueue_execute_start", "no workqueue_execute_start: works order nothing")]:
            found = list(lacking({**whole, name: 0}))
            self.assertTrue(found[0].startswith(begin), found)
            self.assertEqual(len(found), 1)

    def test_made(self) -> None:
        counts = self.convert(TRACE_CMD).counts
        self.assertEqual([line for line in made(counts) if "marked" in line], ["tried acquires of a thread that held locks, which are marked: 1"])
