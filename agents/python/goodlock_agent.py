"""An agent for programs in Python: records what a program's threads and locks do, in memory shared with a collector.

    agents/python/goodlock SCRIPT [ARG ..]       traces a whole program, without a change in it

or a part of a program:

    import goodlock_agent
    with goodlock_agent.tracing(out="bank", bound=2) as run:
        ...                                 # locks made here, threads started here
    print(run.has_deadlock)

The collector is the one of the agent for pthreads. It is another process, outlives the program, and makes the report.

`threading.Lock` and `threading.RLock` then make locks that record their acquires and releases. `Thread.start` records a fork,
`Thread.join` a join. Semaphores, conditions, events, barriers, queues and futures record who goes on after whom. A release, a fork and what
is given are recorded before the call, an acquire, a join and what is received after it. No thread waits for the agent.
"""
import _thread
import atexit
import collections
import contextlib
import importlib.util
import itertools
import mmap
import operator
import os
import queue
import runpy
import struct
import subprocess
import sys
import sysconfig
import threading
import time

R_FORK, R_NAMED, R_START, R_UNSEEN, R_END, R_JOINS, R_JOINED, R_EXEC = range(1, 9)
R_LOCK, R_TRIED, R_TIMED, R_UNLOCK = range(9, 13)
R_GIVE, R_TAKE, R_NEW, R_FORGOTTEN, R_TITLE = 19, 20, 22, 25, 27
BY_CONDITION = 2  # of R_GIVE
WAITS_FOR_LOCK, WAITS_FOR_THREAD = 1, 2
# The shared memory; collector.c tests that these are the offsets in ring.h.
NEXT, MAGIC, CONSUMED, THREADS, OWNER, ATTACHED, OFF, FINISHED, SITES_USED, TEXT = 0, 8, 64, 128, 132, 144, 148, 152, 160, 164
COLLECTOR_NUMBER = 136
WAITS, SLOTS, SIZE, MOST_WAITS, MOST_SLOTS, MOST_TEXT = 1_048_768, 2_097_344, 24_396_096, 1 << 14, 1 << 18, 1 << 20
RECORD, NUMBER, PLACE = struct.Struct("<QQIBB30s"), struct.Struct("I"), struct.Struct("Q")  # native: written in one step
WAIT, NAME = struct.Struct("<IIII5Q"), struct.Struct("<QQ")
RING_MAGIC = 0x31676E69726C6467
SECONDS_WITHOUT_PROGRESS = 30

HERE = os.path.dirname(os.path.abspath(__file__))
ROOT = os.path.dirname(os.path.dirname(HERE))
COLLECTOR = os.path.join(ROOT, "agents", "pthread", "out", "collector")
REAL_LOCK, REAL_RLOCK = _thread.allocate_lock, threading.RLock
OWN_FILES = {__file__, threading.__file__, contextlib.__file__, runpy.__file__}
LIBRARY = tuple(os.path.join(path, "") for path in {sysconfig.get_path("stdlib"), os.path.dirname(os.__file__)})
PACKAGES = tuple(os.path.join(path, name, "") for path in LIBRARY for name in ("site-packages", "dist-packages"))
MOST_CALLERS, MOST_FRAMES = 100, 5  # that it looks at; in a record


def say(text):
    with contextlib.suppress(Exception):
        sys.stderr.write(f"goodlock: {text}\n")


class Recorder:
    """Writes records to the shared memory. Its methods use no lock: a signal handler or a finalizer may call them at any point."""

    objects = itertools.count(8, 8)  # also unique in a process that is traced twice

    def __init__(self, path, frames):
        if not getattr(sys, "_is_gil_enabled", lambda: True)():
            raise OSError("this interpreter runs without the global interpreter lock, which the agent needs")
        with open(path, "r+b") as file:
            self.memory = mmap.mmap(file.fileno(), SIZE)
        if PLACE.unpack_from(self.memory, MAGIC)[0] != RING_MAGIC or NUMBER.unpack_from(self.memory, ATTACHED)[0]:
            raise OSError(f"{path} is of another run")
        self.frames = min(frames, MOST_FRAMES)
        self.places, self.numbers = itertools.count(), itertools.count(1)
        self.here = threading.local()
        self.here.number = 0
        self.sites, self.known, self.registers = {}, {}, REAL_LOCK()  # numbers by text, and by code and line
        self.is_on, self.process = True, os.getpid()
        self.texts = {}  # of sites, by number
        NUMBER.pack_into(self.memory, OWNER, self.process)
        NUMBER.pack_into(self.memory, ATTACHED, 1)

    # ---- callers ----

    def register(self, text):
        """Returns the number of a new site, or 0 if there is no room or this thread is already registering one."""
        if not self.registers.acquire(False):
            return 0
        try:
            used = NUMBER.unpack_from(self.memory, SITES_USED)[0]
            line = f"{text}\n".encode("utf-8", "replace")
            number = MOST_TEXT - used - len(line)
            if number < 1:
                return 0
            self.texts[number] = text
            self.memory[TEXT + number : TEXT + number + len(line)] = line
            NUMBER.pack_into(self.memory, SITES_USED, used + len(line))
            self.sites[text] = number
            return number
        finally:
            self.registers.release()

    def number_of_line(self, frame):
        """Returns the number of the line that a frame executes."""
        code, line = key = frame.f_code, frame.f_lineno
        number = self.known.get(key)
        if number is None:
            text = f"{os.path.abspath(code.co_filename)}:{line} in {code.co_name.strip('<>')}"
            number = self.sites.get(text) or self.register(text)
            if number:
                self.known[key] = number
        return number

    def callers(self):
        """Returns the numbers of the innermost lines outside the agent and the library, or else of the library's innermost line."""
        frame, found, innermost = sys._getframe(2), [], None
        for _ in range(MOST_CALLERS):
            if not frame or len(found) == self.frames:
                break
            path = frame.f_code.co_filename
            if path not in OWN_FILES and not path.startswith("<frozen"):
                if not path.startswith(LIBRARY) or path.startswith(PACKAGES):
                    found.append(self.number_of_line(frame))
                elif innermost is None:
                    innermost = frame
            frame = frame.f_back
        return found if found or innermost is None else [self.number_of_line(innermost)]

    # ---- records ----

    def name_thread(self, number, name):
        """Records the name of a thread: in the record, or as a text if it is long. The texts of names leave room for those of lines."""
        name = " ".join(name.split())
        content, text = name.encode("utf-8", "replace"), 0
        if len(content) >= NAME.size:
            has_room = NUMBER.unpack_from(self.memory, SITES_USED)[0] < MOST_TEXT // 2
            text = self.sites.get(name) or (self.register(name) if has_room else 0)
            content = content[: NAME.size - 3] + b".."
        self.write(number, R_TITLE, *NAME.unpack(content.ljust(NAME.size, b"\0")), (text,) if text else ())

    def number(self):
        """Returns this thread's number. A thread whose start was not seen gets one now."""
        try:
            return self.here.number
        except AttributeError:
            number = self.here.number = self.new_number()
            self.write(number, R_UNSEEN, number + 1, 0, ())
            return number

    def new_number(self):
        """Returns a number that no thread has."""
        number = next(self.numbers)
        NUMBER.pack_into(self.memory, THREADS, number + 1)
        return number

    def is_recording(self):
        return self.is_on and os.getpid() == self.process  # a child by fork is not traced

    def record(self, kind, address, other=0):
        if self.is_recording():
            self.write(self.number(), kind, address, other, self.callers())

    def write(self, thread, kind, address, other, callers):
        place = next(self.places)
        at = SLOTS + place % MOST_SLOTS * 64
        if place - PLACE.unpack_from(self.memory, CONSUMED)[0] >= MOST_SLOTS and not self.waits_for_slot(place):
            return
        packed = b"".join(caller.to_bytes(6, "little") for caller in callers)
        RECORD.pack_into(self.memory, at + 8, address, other, thread, kind, len(callers), packed)
        PLACE.pack_into(self.memory, at, place + 1)

    def waits_for_slot(self, place):
        """Waits until the collector has read the slot. If it does not, nothing more is recorded."""
        since, before = time.monotonic(), None
        while self.is_on and time.monotonic() - since < SECONDS_WITHOUT_PROGRESS:
            consumed = PLACE.unpack_from(self.memory, CONSUMED)[0]
            if place - consumed < MOST_SLOTS:
                return True
            if consumed != before:
                since, before = time.monotonic(), consumed
            time.sleep(0.0005)
        self.is_on = False
        NUMBER.pack_into(self.memory, OFF, 1)
        return False

    @contextlib.contextmanager
    def waiting(self, kind, address):
        """Shows what this thread waits for."""
        if not self.is_recording():
            yield
            return
        thread, callers = self.number(), self.callers()
        at = WAITS + thread % MOST_WAITS * 64
        tid = threading.get_native_id() if hasattr(threading, "get_native_id") else 0  # since Python 3.8
        WAIT.pack_into(self.memory, at + 8, thread, kind, len(callers), tid, *(callers + [0] * (5 - len(callers))))
        PLACE.pack_into(self.memory, at, address)
        try:
            yield
        finally:
            PLACE.pack_into(self.memory, at, 0)

    # ---- what library objects do inside is not recorded ----

    @contextlib.contextmanager
    def inside(self):
        before = self.is_inside()
        self.here.is_inside = True
        try:
            yield
        finally:
            self.here.is_inside = before

    def is_inside(self):
        return getattr(self.here, "is_inside", False)


recorder = None  # the one of this process, from `attach` on
follower = None  # that of a run that follows a recorded one: goodlock_follow.Follower


def enter(kind, about, may_fail=False):
    """Before a call of a run that follows a recorded one: waits for its turn. Returns what `leave` takes after the call."""
    if follower is None or not recorder.is_recording():
        return None
    site = (recorder.callers() or [0])[0]
    return follower.enter(kind, about, site, recorder.texts.get(site), may_fail)


def leave(call):
    if call is not None:
        follower.leave(call)


def has_to_fail(call):
    """Whether the call has failed in the recorded run."""
    return call is not None and call is follower.failing_call


class Number:
    """The number of an object, whose attribute keeps it. When the object ends, a record says so, and the collector forgets the number."""

    __slots__ = ("recorder", "kind", "value")

    def __init__(self, kind=R_NEW, value=None):
        self.recorder, self.kind, self.value = recorder, kind, next(recorder.objects) if value is None else value

    def __del__(self):
        try:
            if self.recorder.is_recording():
                self.recorder.write(0, self.kind, self.value, self.value, ())
        except Exception:  # the interpreter ends
            pass


def address_of(thing):
    """Returns the number of an object that hands something over."""
    try:
        return thing.goodlock_address.value
    except AttributeError:
        thing.goodlock_address = Number()
        return thing.goodlock_address.value


def give(thing, by=0):
    """What this thread did is before what a receiver does."""
    call = enter(R_GIVE, address_of(thing))
    recorder.record(R_GIVE, address_of(thing), by)
    thing.goodlock_receivers = set()
    leave(call)


def receive(thing):
    """This thread comes after those who gave. It is recorded once until somebody gives again: a loop may ask an event often."""
    receivers = getattr(thing, "goodlock_receivers", None)
    if receivers is None or not recorder.is_recording():
        return
    number = recorder.number()
    if number not in receivers:
        receivers.add(number)  # first: after the set is replaced, what is recorded comes after what was given
        call = enter(R_TAKE, address_of(thing))
        recorder.record(R_TAKE, address_of(thing))
        leave(call)


def is_of_the_library():
    """Whether the library calls for itself. `run` of a thread or a timer, `cancel` of a timer and `wait_for` call for the program."""
    frame = sys._getframe(2)
    return frame.f_globals.get("__name__") == "threading" and frame.f_code.co_name not in ("run", "cancel", "wait_for")


class TracedLock:
    """A lock that records its acquires and releases. All else is that of the real lock."""

    make, is_used_by_library = staticmethod(REAL_LOCK), True

    def __new__(cls):
        if cls.is_used_by_library and is_of_the_library():
            return cls.make()
        lock = super().__new__(cls)
        lock.within, lock.number = cls.make(), Number()
        lock.address = lock.number.value
        return lock

    def acquire(self, blocking=True, timeout=-1):
        kind = R_TRIED if not blocking else R_TIMED if timeout != -1 else R_LOCK
        if follower is not None:
            return self.acquire_in_turn(kind, blocking, timeout)
        if not self.acquire_within(blocking, timeout):
            return False
        self.has_acquired(kind)
        return True

    def acquire_within(self, blocking, timeout):
        if blocking != 1 or timeout != -1:
            return self.within.acquire(blocking, timeout)
        if not self.within.acquire(False):
            with recorder.waiting(WAITS_FOR_LOCK, self.address):
                self.within.acquire()
        return True

    def acquire_in_turn(self, kind, blocking, timeout):
        """In a run that follows a recorded one. If it is the turn of an attempt, it waits for those that are about to release the lock."""
        self.receive_notice()
        call = enter(kind, self.address, kind != R_LOCK)
        if has_to_fail(call):
            return False
        while not self.acquire_within(blocking, timeout):
            if not follower.may_retry(call):
                return False
        recorder.record(kind, self.address)
        leave(call)
        return True

    def receive_notice(self):
        """A wait on a condition acquires the lock again: what the notifier gave comes first."""
        condition = getattr(recorder.here, "condition", None)
        if condition is not None:
            recorder.here.condition = None
            receive(condition)

    def has_acquired(self, kind):
        self.receive_notice()
        recorder.record(kind, self.address)

    def record_in_turn(self, kind):
        call = enter(kind, self.address)
        recorder.record(kind, self.address)
        return call

    def release(self):
        call = self.record_in_turn(R_UNLOCK) if self.within.locked() else None
        self.within.release()
        leave(call)

    acquire_lock, release_lock = acquire, release

    def __enter__(self):
        return self.acquire()

    def __exit__(self, *_):
        self.release()

    def __repr__(self):
        return repr(self.within)

    def __getattr__(self, name):
        return getattr(self.within, name)

    def __reduce_ex__(self, _protocol):
        raise TypeError(f"cannot pickle '{type(self.within).__name__}' object")

    @property
    def __class__(self):
        return type(self.within)


class TracedRLock(TracedLock):
    """A condition calls the three methods with an underscore. The library makes one only for a condition of the program."""

    make, is_used_by_library = staticmethod(REAL_RLOCK), False

    def release(self):
        call = self.record_in_turn(R_UNLOCK) if self.within._is_owned() else None
        self.within.release()
        leave(call)

    def _is_owned(self):
        return self.within._is_owned()

    def _release_save(self):
        saved = self.within._release_save()
        self.within._acquire_restore(saved)
        calls = [self.record_in_turn(R_UNLOCK) for _ in range(saved[0])]
        saved = self.within._release_save()
        for call in calls:
            leave(call)
        return saved

    def _acquire_restore(self, saved):
        if follower is not None:
            self.receive_notice()
        call = enter(R_LOCK, self.address)
        self.within._acquire_restore(saved)
        self.has_acquired(R_LOCK)
        leave(call)
        for _ in range(1, saved[0]):
            leave(self.record_in_turn(R_LOCK))


class Finder:
    """Finds a module as the other finders do, and calls a function with it after its import. So the agent does not import it by itself:
    the import of `concurrent.futures` makes locks."""

    def __init__(self, name, then):
        self.name, self.then = name, then

    def find_spec(self, name, _path=None, _target=None):
        if name != self.name:
            return None
        sys.meta_path.remove(self)
        spec = importlib.util.find_spec(name)
        if spec and hasattr(spec.loader, "exec_module"):
            spec.loader.exec_module = self.exec_and_patch(spec.loader)
        return spec

    def exec_and_patch(self, loader):
        def exec_module(module):
            del loader.exec_module
            loader.exec_module(module)
            self.then(module)

        return exec_module


class Patches:
    """Replaces functions of modules and classes, and restores them."""

    def __init__(self):
        self.before, self.finders = [], []

    def when_imported(self, name, then):
        if name in sys.modules:
            then(sys.modules[name])
        else:
            self.finders.append(Finder(name, then))
            sys.meta_path.insert(0, self.finders[-1])

    def put(self, where, make, *names):
        """Replaces those of these functions that are there: versions of Python differ."""
        for name in names:
            if hasattr(where, name):
                self.before.append((where, name, vars(where).get(name)))
                setattr(where, name, make(getattr(where, name)))

    def restore(self):
        sys.meta_path[:] = [finder for finder in sys.meta_path if finder not in self.finders]
        for where, name, before in reversed(self.before):
            if before is None:
                delattr(where, name)  # it was inherited
            else:
                setattr(where, name, before)


def itself(thing):
    return thing


def always(_):
    return True


def gives(real, means=itself, by=0):
    """The call gives: what the caller did before is before what a receiver does. `means` returns the object that hands over."""

    def method(self, *args, **named):
        if not recorder.is_inside() and not is_of_the_library():
            give(means(self), by)
        return real(self, *args, **named)

    return method


def notifies(real):
    """The call gives, and a later section of the condition's lock comes after it, also if its thread does not wait."""
    return gives(real, by=BY_CONDITION)


def takes(real, has_received=bool, means=itself):
    """The call receives if `has_received` is true for what it returns, by default if that is true itself."""

    def method(self, *args, **named):
        if recorder.is_inside() or is_of_the_library():
            return real(self, *args, **named)
        with recorder.inside():
            result = real(self, *args, **named)
        if has_received(result):
            receive(means(self))
        return result

    return method


def meets(real):
    """The call gives, and receives when it ends, also by an exception: `abort` gives too."""

    def method(self, *args, **named):
        give(self)
        try:
            with recorder.inside():
                return real(self, *args, **named)
        finally:
            receive(self)

    return method


def receive_from(future):
    """Receives from a future if it is done. Its `done` would acquire its lock."""
    if future._state not in ("PENDING", "RUNNING"):
        receive(future)


def takes_outcome(real):
    """The call receives if the future is done when it returns, or raises what the task has raised."""

    def method(self, *args, **named):
        try:
            return real(self, *args, **named)
        finally:
            receive_from(self)

    return method


def takes_all_done(real):
    def wait(*args, **named):
        result = real(*args, **named)
        for future in result.done:
            receive_from(future)
        return result

    return wait


def takes_each(real):
    def as_completed(*args, **named):
        for future in real(*args, **named):
            receive_from(future)
            yield future

    return as_completed


def calls_back(real):
    """A callback comes after the task, also if the task is done and the caller runs it at once."""

    def add_done_callback(self, function):
        def receive_and_call(future):
            receive_from(future)
            return function(future)

        return real(self, receive_and_call)

    return add_done_callback


def simple_queue(real):
    class SimpleQueue(real):
        """Each item in the queue hands over by itself: who gets it comes after the one who put it, and after no later one."""

        free = collections.deque()  # addresses that no item of a queue has; its methods are atomic

        def put(self, item, block=True, timeout=None):
            try:
                address = self.free.pop()
            except IndexError:
                address = next(recorder.objects)
            call = enter(R_GIVE, address)
            recorder.record(R_GIVE, address)
            super().put((address, item), block, timeout)
            leave(call)

        def get(self, block=True, timeout=None):
            address, item = super().get(block, timeout)
            call = enter(R_TAKE, address)
            recorder.record(R_TAKE, address)
            leave(call)
            self.free.append(address)
            return item

        def put_nowait(self, item):
            self.put(item)

        def get_nowait(self):
            return self.get(False)

    SimpleQueue.__module__, SimpleQueue.__qualname__ = real.__module__, real.__qualname__
    return SimpleQueue


def waits_for_notice(real):
    def wait(self, timeout=None):
        if recorder.is_inside() or is_of_the_library():
            return real(self, timeout)
        recorder.here.condition = self
        try:
            return real(self, timeout)
        finally:
            if recorder.here.condition is not None:
                recorder.here.condition = None
                receive(self)

    return wait


def starts(real):
    def start(thread):
        if not recorder.is_recording() or thread._started.is_set():
            return real(thread)  # raises if it was started before
        recorded = follower.number_of_child() if follower else None
        child, run = recorder.new_number() if recorded is None else recorded, thread.run

        def numbered():
            recorder.here.number = child
            try:
                run()
            finally:
                vars(thread).pop("run", None)  # it refers to the thread, which would live until the next collection
                if follower:
                    follower.end_lane()
                if recorder.is_on:
                    recorder.write(child, R_END, 0, 0, ())

        call = enter(R_FORK, child)
        recorder.record(R_FORK, 0, child)
        recorder.record(R_NAMED, child + 1, child)
        recorder.name_thread(child, thread.name)
        thread.goodlock_number, thread.run = Number(R_FORGOTTEN, child), numbered
        with recorder.inside():
            real(thread)
        leave(call)

    return start


def joins(real):
    def join(thread, timeout=None):
        number = getattr(thread, "goodlock_number", None)
        if number is None or not recorder.is_recording():
            return real(thread, timeout)
        child = number.value
        call = enter(R_JOINED, child, timeout is not None)
        if has_to_fail(call):
            return
        recorder.record(R_JOINS, child + 1, int(timeout is None))
        with contextlib.ExitStack() as stack:
            if timeout is None:
                stack.enter_context(recorder.waiting(WAITS_FOR_THREAD, child + 1))
            stack.enter_context(recorder.inside())
            real(thread, timeout)
        if not thread.is_alive():
            recorder.record(R_JOINED, child + 1)
            leave(call)

    return join


def patch_queues(patches):
    all_done = operator.attrgetter("all_tasks_done")
    patches.put(queue.Queue, gives, "put")
    patches.put(queue.Queue, lambda real: takes(real, always), "get")
    patches.put(queue.Queue, lambda real: gives(real, all_done), "task_done")
    patches.put(queue.Queue, lambda real: takes(real, always, all_done), "join")
    patches.put(queue, simple_queue, "SimpleQueue")  # since Python 3.7


def patch_futures(patches, base):
    """`base` is concurrent.futures._base."""
    patches.put(base.Future, gives, "set_result", "set_exception", "cancel")
    patches.put(base.Future, takes_outcome, "result", "exception", "done", "cancelled")
    patches.put(base.Future, calls_back, "add_done_callback")
    for module in (base, sys.modules["concurrent.futures"]):  # the package may import these names of `base` later
        patches.put(module, takes_all_done, "wait")
        patches.put(module, takes_each, "as_completed")


def attach(path, frames):
    """Records from here on. Returns the patches."""
    global recorder
    recorder = Recorder(path, frames)
    patches = Patches()
    patches.put(threading, lambda _: TracedLock, "Lock")
    patches.put(threading, lambda _: TracedRLock, "RLock")
    patch_queues(patches)
    patches.when_imported("concurrent.futures._base", lambda base: patch_futures(patches, base))
    patches.put(threading.Thread, starts, "start")
    patches.put(threading.Thread, joins, "join")
    for kind in (threading.Semaphore, threading.BoundedSemaphore):
        patches.put(kind, gives, "release")
        patches.put(kind, takes, "acquire", "__enter__")
        patches.put(kind, lambda _: lambda self, *_: self.release(), "__exit__")
    patches.put(threading.Event, gives, "set")
    patches.put(threading.Event, takes, "wait", "is_set", "isSet")
    patches.put(threading.Barrier, meets, "wait")
    patches.put(threading.Barrier, gives, "abort")
    patches.put(threading.Condition, waits_for_notice, "wait")
    patches.put(threading.Condition, notifies, "notify", "notify_all")
    return patches


class Run:
    """What `tracing` gives. After the block, `has_deadlock` says whether the gate fails, by default because a deadlock was confirmed or has
    happened, or is None without a report. `is_traced` says whether the block is recorded."""

    has_deadlock, is_traced = None, False


@contextlib.contextmanager
def tracing(out="goodlock", bound=None, server=None, stacks=None, options=()):
    """Records the threads and locks made in the block, and writes OUT.report and OUT.trace at its end. `options` are further options of
    `goodlock`, such as `--fail-on=new`."""
    run, collector, patches = Run(), None, None
    try:
        subprocess.run([os.path.join(ROOT, "agents", "pthread", "build")], check=True)
        program = os.environ.get("GOODLOCKD_PROGRAM", os.path.join(ROOT, "goodlockd"))
        command = [COLLECTOR, "=", program, os.path.join(ROOT, "tools", "agent_report")]
        named = [("bound", bound), ("server", server), ("stacks", stacks), ("out", out), ("error-exitcode", 1)]
        command += [*options, *("--{}={}".format(name, value) for name, value in named if value is not None)]
        collector = subprocess.Popen(command, stdout=subprocess.PIPE, universal_newlines=True)
        path, _, frames = collector.stdout.readline().strip().rpartition(" ")
        if not path:
            raise OSError("the collector has not started")
        patches = attach(path, int(frames or 1))
        run.is_traced = True
    except (OSError, ValueError, subprocess.SubprocessError) as error:
        say(f"cannot trace: {error}; the program runs on")
        if collector:
            collector.kill()  # it would wait for this process
    try:
        yield run
    finally:
        if patches:
            patches.restore()
            recorder.is_on = False
            NUMBER.pack_into(recorder.memory, FINISHED, 1)
        if collector:
            run.has_deadlock = {0: False, 1: True}.get(collector.wait())
            collector.stdout.close()


def follow(schedule):
    """Follows a schedule from here on."""
    global follower
    import goodlock_follow  # other runs do without it

    OWN_FILES.add(goodlock_follow.__file__)
    follower = goodlock_follow.Follower(schedule, recorder, NUMBER.unpack_from(recorder.memory, COLLECTOR_NUMBER)[0])
    recorder.numbers = itertools.count(follower.first_number)
    getattr(threading, "_register_atexit", atexit.register)(follower.hold_exit)  # since Python 3.9: before threads are joined


def start():
    """Records the whole program from here on, if a collector has started it."""
    path = os.environ.pop("GOODLOCK_RING", None)  # a program that this one starts is not traced
    schedule = os.environ.pop("GOODLOCK_SCHEDULE", None)
    if path and not recorder:
        try:
            attach(path, int(os.environ.pop("GOODLOCK_STACKS", "1")))
            if schedule:
                follow(schedule)
        except (OSError, ValueError) as error:  # mmap raises both
            say(f"cannot trace: {error}; the program runs on")


def main():
    """Runs a script, or a module after -m, as Python does."""
    import goodlock_agent  # the copy that others import

    goodlock_agent.start()
    sys.argv = sys.argv[1:]
    if sys.argv[:1] == ["-m"] and len(sys.argv) > 1:
        sys.argv = sys.argv[1:]
        sys.path[0] = os.getcwd()
        runpy.run_module(sys.argv[0], run_name="__main__", alter_sys=True)
    elif sys.argv:
        sys.path[0] = os.path.dirname(os.path.abspath(sys.argv[0]))
        sys.path.append(HERE)
        runpy.run_path(sys.argv[0], run_name="__main__")
    else:
        sys.exit("usage: goodlock_agent.py SCRIPT [ARG ..] | -m MODULE [ARG ..]")


if __name__ == "__main__":
    main()
