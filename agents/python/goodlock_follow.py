"""Makes a program in Python follow a schedule: the calls of a recorded run, in their order. goodlock_agent uses it if GOODLOCK_SCHEDULE names
one. It does what agents/pthread/recorder/follow.c and pause.c do, and agents/pthread/shared/schedule.h describes the memory.

A call that has a turn waits until all earlier turns are done. When all turns are done and each member of the cycle is before its acquire, the
members go on into their real calls, and nobody is held any more. A site is known by a hash of its source line.
"""
import _thread
import hashlib
import mmap
import os
import random
import struct
import threading
import time

MAGIC = 0x31646568637321
STATUS_SIZE, LANES_AT, MOST_LANES = 24576, 56, 1024
HEAD, LANE, CALL, SITE = struct.Struct("<Q14I"), struct.Struct("<8I"), struct.Struct("<IIIi"), struct.Struct("<QII")
FILE_SIZE, MEMBER = 104, struct.Struct("<34I")
NUMBER, DIVERGENCE, STATUS_OF_LANE = struct.Struct("<I"), struct.Struct("<4IQ"), struct.Struct("<4I")
COMMAND, STATE, TURN, ARRIVED, SKIPPED, EXTRA, DIVERGED_AT = 8, 12, 16, 20, 24, 28, 32
FREE, HELD, REACH = 0, -1, -2
GO_ON, LOOSEN, RELEASE = range(3)
FOLLOWS, CLOSED, DIVERGED, ESCAPED = range(1, 5)
UNSEEN, OUTSIDE, WAITS_FOR_TURN, HELD_BACK, ARRIVED_THERE, IN_CALL, ENDED = range(7)
R_FORK, R_END, R_JOINED, R_LOCK, R_TRIED, R_TIMED, R_UNLOCK = 1, 5, 7, 9, 10, 11, 12
AHEAD, NAP_SECONDS, SURE_MILLISECONDS = 200, 0.01, 2000


class Call:
    """A call of the recorded run, or one that has no place there."""

    __slots__ = ("kind", "object", "site", "turn")

    def __init__(self, kind, about, site, turn):
        self.kind, self.object, self.site, self.turn = kind, about, site, turn


EXTRA_CALL, FAILING_CALL = Call(0, 0, 0, HELD), Call(0, 0, 0, HELD)


class Lane:
    """The calls of a thread, of which the witness needs the first `needed` and the order has the first `wanted`."""

    def __init__(self, number, is_listed=0, parent=0, child_of=0, calls=(), needed=0, wanted=0):
        self.number, self.is_listed, self.parent, self.child_of = number, is_listed, parent, child_of
        self.calls, self.needed, self.wanted = calls, needed, wanted
        self.next = self.forks = self.extra_depth = self.pauses = 0
        self.is_lost = False
        self.bell = _thread.allocate_lock()
        self.bell.acquire()

    def call(self, at):
        return self.calls[at] if at < len(self.calls) else None

    def ring(self):
        try:
            self.bell.release()
        except RuntimeError:  # it has rung already
            pass


def hash_of(text):
    return int.from_bytes(hashlib.sha256(text.encode("utf-8", "replace")).digest()[:8], "little")


def depth_of(kind):
    return (kind in (R_LOCK, R_TRIED, R_TIMED)) - (kind == R_UNLOCK)


class Follower:
    """The schedule of this process, and how far it is. `recorder` is that of goodlock_agent."""

    failing_call = FAILING_CALL

    def __init__(self, path, recorder, collector):
        if not hasattr(threading, "get_native_id"):  # the kernel is asked what each thread waits for
            raise ValueError("a run that follows a recorded one needs Python 3.8 or later")
        with open(path, "r+b") as file:
            size = os.fstat(file.fileno()).st_size
            if size < STATUS_SIZE + HEAD.size:
                raise ValueError("{} is no schedule".format(path))
            self.memory = mmap.mmap(file.fileno(), STATUS_SIZE)
            file.seek(STATUS_SIZE)
            data = file.read()
        self.recorder, self.collector, self.mutex, self.here = recorder, collector, _thread.allocate_lock(), threading.local()
        self.state, self.turn, self.arrived = FOLLOWS, 1, 0
        self.hashes, self.address_of, self.object_at = {}, {}, {}
        self.read_schedule(data)

    def read_schedule(self, data):
        magic, lanes, calls, turns, sites, files, members, _, self.pause, self.is_early = HEAD.unpack_from(data)[:10]
        if magic != MAGIC or lanes > MOST_LANES:
            raise ValueError("the schedule is damaged")
        calls_at = HEAD.size + lanes * LANE.size
        owners_at = calls_at + calls * CALL.size
        sites_at = owners_at + (turns + 2 & ~1) * NUMBER.size
        members_at = sites_at + sites * SITE.size + files * FILE_SIZE
        if len(data) != members_at + members * MEMBER.size:
            raise ValueError("the schedule is damaged")
        all_calls = [Call(*found) for found in CALL.iter_unpack(data[calls_at:owners_at])]
        self.lanes = {}
        for number, found in enumerate(LANE.iter_unpack(data[HEAD.size:calls_at])):
            first, count, needed, wanted = found[3:7]
            self.lanes[number] = Lane(number, *found[:3], all_calls[first:first + count], needed, wanted)
        self.owners = [number for number, in NUMBER.iter_unpack(data[owners_at:owners_at + (turns + 1) * NUMBER.size])]
        self.sites = [found for found in SITE.iter_unpack(data[sites_at:sites_at + sites * SITE.size])]
        self.members = [(found[0], found[2:2 + min(found[1], 32)]) for found in MEMBER.iter_unpack(data[members_at:])]
        self.turns, self.is_done, self.first_number = turns, [False] * (turns + 1), max(lanes, 1)

    # ---- what the collector sees ----

    def put(self, at, value):
        NUMBER.pack_into(self.memory, at, value)

    def command(self):
        return NUMBER.unpack_from(self.memory, COMMAND)[0]

    def is_over(self):
        return self.state != FOLLOWS or self.command() == RELEASE

    def note(self, lane, place):
        if lane.number < MOST_LANES:
            STATUS_OF_LANE.pack_into(self.memory, LANES_AT + STATUS_OF_LANE.size * lane.number, self.here.tid, lane.next, place, lane.pauses)

    def set_state(self, state):
        self.state = state
        self.put(STATE, state)
        for lane in list(self.lanes.values()):
            lane.ring()

    # ---- lanes ----

    def lane(self):
        """Returns the lane of this thread; None within this class, and in a child by fork."""
        if getattr(self.here, "is_inside", False) or not self.recorder.is_recording():
            return None
        number = self.recorder.number()
        if getattr(self.here, "number", None) != number:
            self.here.number, self.here.tid = number, threading.get_native_id()
            self.note(self.lanes.setdefault(number, Lane(number)), OUTSIDE)
        return self.lanes[number]

    def is_at(self, site, text):
        wanted, _, is_known = self.sites[site] if site < len(self.sites) else (0, 0, 0)
        if not is_known or text is None:
            return True
        if text not in self.hashes:
            self.hashes[text] = hash_of(text)
        return self.hashes[text] == wanted

    def fits(self, call, kind, about, text, binds):
        if call.kind != kind or not self.is_at(call.site, text):
            return False
        if kind in (R_FORK, R_JOINED):
            return call.object == about
        if call.object in self.address_of:
            return self.address_of[call.object] == about and self.object_at.get(about) == call.object
        if binds:
            self.address_of[call.object], self.object_at[about] = about, call.object
        return True

    def is_free(self, lane):
        return lane.is_lost or (self.command() == LOOSEN and lane.next >= lane.needed)

    def next_turn(self):
        while self.turn <= self.turns and (self.is_done[self.turn] or self.is_free(self.lanes[self.owners[self.turn]])):
            self.turn += 1
        self.put(TURN, self.turn)
        if self.turn <= self.turns:
            self.lanes[self.owners[self.turn]].ring()
        elif self.arrived == len(self.members) and self.state == FOLLOWS:
            self.set_state(CLOSED)

    def find_again(self, lane, kind, about, text):
        """Returns a later call of the lane, if the thread has left out rounds of a loop; EXTRA_CALL if it makes more of them; or None."""
        depth, at = 0, lane.next
        while not lane.extra_depth and at < lane.next + AHEAD and lane.call(at):
            call = lane.call(at)
            if depth == 0 and at > lane.next and self.fits(call, kind, about, text, True):
                for left_out in lane.calls[lane.next:at]:
                    if left_out.turn > 0:
                        self.is_done[left_out.turn] = True
                self.put(SKIPPED, NUMBER.unpack_from(self.memory, SKIPPED)[0] + at - lane.next)
                lane.next = at
                self.next_turn()
                return call
            if call.turn == REACH or call.kind == R_FORK:
                break
            depth, at = depth + depth_of(call.kind), at + 1
        before = lane.calls[max(0, lane.next - AHEAD):lane.next]
        if kind != R_FORK and any(self.fits(call, kind, about, text, False) for call in before):
            lane.extra_depth += depth_of(kind)
            self.put(EXTRA, NUMBER.unpack_from(self.memory, EXTRA)[0] + 1)
            return EXTRA_CALL
        return None

    def find_call(self, lane, kind, about, site, text, may_fail):
        call = None if lane.is_lost else lane.call(lane.next)
        if call and not self.fits(call, kind, about, text, True):
            call = FAILING_CALL if may_fail and lane.next < lane.wanted else self.find_again(lane, kind, about, text)
        if call or lane.is_lost:
            return call
        if lane.next < lane.needed:
            known = 0 if kind in (R_FORK, R_JOINED) else self.object_at.get(about, 0)
            DIVERGENCE.pack_into(self.memory, DIVERGED_AT, lane.number, lane.next, kind, known, site)
            self.set_state(DIVERGED)
        else:
            lane.is_lost = True  # nobody needs that it follows its lane
            self.next_turn()
        return None

    # ---- waiting ----

    def nap(self, lane):
        """Waits a moment without the mutex."""
        self.mutex.release()
        lane.bell.acquire(True, NAP_SECONDS)
        if not is_alive(self.collector):
            self.put(COMMAND, RELEASE)
        self.mutex.acquire()
        if self.command() == LOOSEN:
            self.next_turn()

    def wait_for_turn(self, lane, turn):
        self.note(lane, ARRIVED_THERE if turn == REACH else WAITS_FOR_TURN if turn > 0 else HELD_BACK)
        if turn == REACH:
            self.arrived += 1
            self.put(ARRIVED, self.arrived)
            self.next_turn()
        while not self.is_over() and (turn == REACH or (turn > 0 and turn > self.turn and not self.is_free(lane))
                                      or (turn == HELD and self.command() != LOOSEN)):
            self.nap(lane)
        self.note(lane, IN_CALL)

    # ---- calls ----

    def enter(self, kind, about, site=0, text=None, may_fail=False):
        """Before a call: waits for its turn. Returns what `leave` takes after it, FAILING_CALL if the call has to fail, or None."""
        lane = self.lane()
        if lane is None or (not self.pause and self.is_over()):
            return None
        self.here.is_inside = True
        try:
            if self.pause:
                self.pause_before(lane, kind, about, text)
                return None
            with self.mutex:
                call = None if self.is_over() else self.find_call(lane, kind, about, site, text, may_fail)
                if kind != R_END and call not in (EXTRA_CALL, FAILING_CALL) and not self.is_over():
                    self.wait_for_turn(lane, call.turn if call else HELD)
        finally:
            self.here.is_inside = False
        if call is FAILING_CALL or (call and call.turn == REACH):
            return call
        return None if self.is_over() else call or EXTRA_CALL

    def leave(self, call):
        lane = self.lane() if call not in (None, EXTRA_CALL, FAILING_CALL) else None
        if lane is None:
            return
        self.here.is_inside = True
        try:
            with self.mutex:
                lane.next += 1
                self.note(lane, OUTSIDE)
                if call.turn == REACH and self.state == CLOSED:
                    self.set_state(ESCAPED)
                if call.turn > 0:
                    self.is_done[call.turn] = True
                    self.next_turn()
        finally:
            self.here.is_inside = False

    def may_retry(self, call):
        """Whether an attempt that has failed is to be made again: its turn has come."""
        if call is None or call.turn <= 0 or self.is_over():
            return False
        time.sleep(0.001)
        return True

    def number_of_child(self):
        """Returns the number of this thread's next child in the recorded run, or None."""
        lane = self.lane()
        if lane is None:
            return None
        with self.mutex:
            found = [child.number for child in self.lanes.values()
                     if child.is_listed and child.parent == lane.number and child.child_of == lane.forks]
            lane.forks += 1
        return found[0] if found else None

    def end_lane(self):
        self.enter(R_END, 0)
        lane = self.lane()
        if lane is not None:
            self.note(lane, ENDED)

    def hold_exit(self):
        """The program does not end before the schedule, and not while its deadlock is looked at."""
        lane = self.lane()
        if lane is None or self.pause:
            return
        with self.mutex:
            self.note(lane, HELD_BACK)
            while not self.is_over() or (self.state == CLOSED and self.command() != RELEASE):
                self.nap(lane)

    # ---- a run without a witness ----

    def pause_before(self, lane, kind, about, text):
        """Pauses a thread that is at a member's acquire and holds what this member holds. After SURE_MILLISECONDS of these, each makes its next
        ones rarer."""
        held = self.here.__dict__.setdefault("held", [])
        if kind == R_UNLOCK:
            held[:] = [entry for entry in held if entry[0] != about]
        if kind != R_LOCK or self.is_over():
            return
        role = self.role_at(held, text)
        held.append((about, text))
        if not role:
            return
        lane.pauses += 1
        if random.randrange(role * max(1, lane.pauses - SURE_MILLISECONDS // self.pause + 1)):
            return
        with self.mutex:
            until = time.monotonic() + self.pause / 1000
            while time.monotonic() < until and not self.is_over():
                self.nap(lane)

    def role_at(self, held, text):
        role = 0
        for wait, holds in self.members:
            if all(any(self.is_at(site, where) for _, where in held) for site in holds) and self.is_at(wait, text):
                return 1
            if self.is_early and any(self.is_at(site, text) for site in holds):
                role = 2
        return role


def is_alive(process):
    try:
        os.kill(process, 0)
    except ProcessLookupError:
        return False
    except OSError:
        pass
    return True
