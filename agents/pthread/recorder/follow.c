/* Makes a program follow a schedule: the calls of a recorded run, in their order. GOODLOCK_SCHEDULE names it.
 *
 * A call that has a turn waits until all earlier turns are done; a call that is not in the order is held. When all turns are done and each
 * member of the cycle is before its acquire, the members go on into their real calls and nobody is held any more: then the program itself is
 * deadlocked. If a thread that the witness needs makes another call than the one in its lane, the run has diverged, and nobody is held any
 * more. The collector watches, and ends the schedule if there is no step; if the collector has ended, the waiting threads notice.
 *
 * Nothing here takes a lock of the C library or the loader: a thread that is held may have it. */
#include "follow.h"

#include <fcntl.h>
#include <link.h>
#include <linux/futex.h>
#include <signal.h>
#include <stdlib.h>
#include <string.h>
#include <sys/mman.h>
#include <sys/stat.h>
#include <sys/syscall.h>
#include <time.h>
#include <unistd.h>

enum { NAP_NS = 10000000, RETRY_NS = 1000000, AHEAD = 200, MOST_NOTES = 4096, NT_BUILD_ID = 3 };

const struct schedule *schedule;
struct parts parts;
struct status *status;
const struct call_of_schedule extra_call = {.turn = HELD}, failing_call = {.turn = HELD};

static struct lane { uint32_t next, forks, bell; int is_lost, extra_depth; uint64_t handle; } lanes[MOST_LANES];
static uint32_t turn = 1, arrived, state = FOLLOWS;
static uint8_t *is_done;                                            /* turns */
static uint64_t *address_of;                                        /* of an object of the schedule, in this run */
static struct slot { uint64_t address; uint32_t object; } *slots;   /* the other direction, hashed */
static uint32_t slots_count;
static const struct link_map **file_of;                             /* NULL until a file is found in this run */
static uint32_t state_word;                                         /* 0 free, 1 taken, 2 others wait */
static THREAD_LOCAL int is_inside, has_lane;
static int has_exit_handler;


/* ---- waiting ---- */

static long futex(uint32_t *word, int operation, uint32_t value, const struct timespec *most) {
    int before = errno;
#if defined(__x86_64__)
    long result;
    register long fourth __asm__("r10") = (long)most;
    __asm__ volatile("syscall" : "=a"(result) : "a"(SYS_futex), "D"(word), "S"((long)operation), "d"((long)value), "r"(fourth)
                     : "rcx", "r11", "memory");
#else
    long result = syscall(SYS_futex, word, operation, value, most, NULL, 0);
#endif
    errno = before;
    return result;
}

void enter_state(void) {
    uint32_t is_free = 0;
    is_inside++;
    if (__atomic_compare_exchange_n(&state_word, &is_free, 1, 0, __ATOMIC_ACQUIRE, __ATOMIC_RELAXED)) return;
    while (__atomic_exchange_n(&state_word, 2, __ATOMIC_ACQUIRE)) futex(&state_word, FUTEX_WAIT_PRIVATE, 2, NULL);
}

void leave_state(void) {
    if (__atomic_exchange_n(&state_word, 0, __ATOMIC_RELEASE) == 2) futex(&state_word, FUTEX_WAKE_PRIVATE, 1, NULL);
    is_inside--;
}

static uint32_t command(void) { return __atomic_load_n(&status->command, __ATOMIC_RELAXED); }
int is_over(void) { return __atomic_load_n(&state, __ATOMIC_ACQUIRE) != FOLLOWS || command() == RELEASE; }

static void ring_bell(uint32_t lane) {
    __atomic_fetch_add(&lanes[lane].bell, 1, __ATOMIC_RELEASE);
    futex(&lanes[lane].bell, FUTEX_WAKE_PRIVATE, 1, NULL);
}

static void set_state(uint32_t to) {
    __atomic_store_n(&state, to, __ATOMIC_RELEASE);
    __atomic_store_n(&status->state, to, __ATOMIC_RELEASE);
    for (uint32_t lane = 0; lane < MOST_LANES; lane++) if (status->lanes[lane].tid) ring_bell(lane);
}

static int has_collector_ended(void) {
    int before = errno, has_ended = !page.ring || (kill((pid_t)page.ring->collector, 0) && errno == ESRCH);
    errno = before;
    return has_ended;
}

static void note_place(uint32_t place) { status->lanes[self].place = place; }

/* ---- files and code addresses ---- */

static const struct link_map *module_of(uint64_t address, struct dl_find_object *found) {
    return _dl_find_object && !_dl_find_object((void *)address, found) ? found->dlfo_link_map : NULL;
}

/* Whether notes in the memory of a file have this build-id. */
static int has_id(const uint8_t *notes, size_t size, const struct file_of_schedule *file) {
    for (size_t at = 0; at + 12 <= size && size <= MOST_NOTES;) {
        const uint32_t *note = (const uint32_t *)(notes + at);
        size_t text = at + 12 + ((note[0] + 3ul) & ~3ul);
        if (note[2] == NT_BUILD_ID && note[1] == file->id_size && text + note[1] <= size) return !memcmp(notes + text, file->id, note[1]);
        at = text + ((note[1] + 3ul) & ~3ul);
    }
    return 0;
}

/* A file is known by its build-id. One without is known by its name: nothing else of it is in memory. */
static int is_file(const struct file_of_schedule *file, const struct dl_find_object *found) {
    const ElfW(Ehdr) *head = found->dlfo_map_start;
    const struct link_map *module = found->dlfo_link_map;
    if (!file->id_size) {
        const char *name = strrchr(module->l_name, '/');
        return !strncmp(file->name, name ? name + 1 : module->l_name[0] ? module->l_name : file->name, FILE_NAME);
    }
    if (memcmp(head->e_ident, ELFMAG, SELFMAG) || head->e_phoff + head->e_phnum * sizeof(ElfW(Phdr)) > 4096) return 0;
    const ElfW(Phdr) *part = (const void *)((const uint8_t *)head + head->e_phoff);
    for (int at = 0; at < head->e_phnum; at++)
        if (part[at].p_type == PT_NOTE && has_id((const uint8_t *)module->l_addr + part[at].p_vaddr, part[at].p_memsz, file)) return 1;
    return 0;
}

int is_at(uint32_t site, uint64_t caller) {
    const struct site_of_schedule *wanted = &parts.sites[site];
    struct dl_find_object found;
    if (!wanted->is_known || !caller) return 1;
    const struct link_map *module = module_of(caller, &found);
    if (!module || caller - 1 - module->l_addr != wanted->offset) return 0;
    if (file_of[wanted->file] != module && is_file(&parts.files[wanted->file], &found)) file_of[wanted->file] = module;
    return file_of[wanted->file] == module;
}

/* ---- lanes ---- */

uint32_t own_lane(void) {
    if (!schedule || is_inside || !is_recorded() || self >= MOST_LANES) return NOBODY;
    if (!has_lane) has_lane = 1, status->lanes[self].tid = (uint32_t)syscall(SYS_gettid), note_place(OUTSIDE);
    return self;
}

static const struct lane_of_schedule *listed(uint32_t lane) {
    static const struct lane_of_schedule none;
    return lane < schedule->lanes ? &parts.lanes[lane] : &none;
}

static const struct call_of_schedule *call_of(uint32_t lane, uint32_t at) {
    return at < listed(lane)->count ? &parts.calls[listed(lane)->first + at] : NULL;
}

static int is_acquire(uint32_t kind) { return (kind >= R_LOCK && kind <= R_TIMED) || (kind >= R_WRITE_LOCK && kind <= R_READ_LOCK); }
static int depth_of(uint32_t kind) { return is_acquire(kind) - (kind == R_UNLOCK || kind == R_UNLOCK_EITHER); }

static struct slot *slot_of(uint64_t address) {
    uint32_t at = (uint32_t)(address * 0x9E3779B97F4A7C15u >> 32) & (slots_count - 1);
    while (slots[at].address && slots[at].address != address) at = (at + 1) & (slots_count - 1);
    return &slots[at];
}

/* The object of the schedule that is at an address, 0 if none is known. */
static uint32_t object_at(uint64_t address) { return slot_of(address)->object; }

static void bind_object(uint32_t object, uint64_t address) {
    struct slot *slot = slot_of(address);
    slot->address = address_of[object] = address, slot->object = object;
}

/* Whether the thread may be at this call of its lane. An object is bound to an address at its first call, and later calls must agree. */
static int fits(const struct call_of_schedule *call, uint32_t kind, uint64_t object, uint64_t caller, int binds) {
    if (call->kind != kind || !is_at(call->site, caller)) return 0;
    if (kind == R_FORK || kind == R_JOINED) return call->object == object;
    if (call->object > schedule->objects) return 0;
    if (address_of[call->object]) return address_of[call->object] == object && object_at(object) == call->object;
    if (binds) bind_object(call->object, object);
    return 1;
}

/* Whether no other thread waits for this one. */
static int is_free(uint32_t lane) { return lanes[lane].is_lost || (command() == LOOSEN && lanes[lane].next >= listed(lane)->needed); }

/* Goes to the next turn that is left. If there is none, and all members have arrived, the cycle is closed. */
static void next_turn(void) {
    while (turn <= schedule->turns && (is_done[turn] || is_free(parts.owners[turn]))) turn++;
    status->turn = turn;
    if (turn <= schedule->turns) ring_bell(parts.owners[turn]);
    else if (arrived == schedule->members && state == FOLLOWS) set_state(CLOSED);
}

/* The call is later in the lane: the thread has left out some rounds of a loop, after which it holds the same locks. */
static const struct call_of_schedule *find_later(uint32_t kind, uint64_t object, uint64_t caller) {
    struct lane *mine = &lanes[self];
    const struct call_of_schedule *call;
    int depth = 0;
    for (uint32_t at = mine->next; !mine->extra_depth && at < mine->next + AHEAD && (call = call_of(self, at)); at++) {
        if (depth == 0 && at > mine->next && fits(call, kind, object, caller, 1)) {
            for (; mine->next < at; mine->next++, status->skipped++)
                if (call_of(self, mine->next)->turn > 0) is_done[call_of(self, mine->next)->turn] = 1;
            status->lanes[self].next = mine->next;
            next_turn();
            return call;
        }
        if (call->turn == REACH || call->kind == R_FORK) break;
        depth += depth_of(call->kind);
    }
    return NULL;
}

/* The thread is not at the next call of its lane. It may have left out rounds of a loop, or make more of them: then the call is an earlier one
 * again, `extra_call`. Returns NULL if it is neither. */
static const struct call_of_schedule *find_again(uint32_t kind, uint64_t object, uint64_t caller) {
    struct lane *mine = &lanes[self];
    const struct call_of_schedule *call = find_later(kind, object, caller);
    if (call) return call;
    for (uint32_t at = mine->next; at-- > 0 && at + AHEAD > mine->next && kind != R_FORK;)
        if (fits(call_of(self, at), kind, object, caller, 0)) {
            mine->extra_depth += depth_of(kind), status->extra++;
            return &extra_call;
        }
    return NULL;
}

void nap(void) {
    struct timespec most = {0, NAP_NS};
    uint32_t seen = __atomic_load_n(&lanes[self].bell, __ATOMIC_ACQUIRE);
    leave_state();
    futex(&lanes[self].bell, FUTEX_WAIT_PRIVATE, seen, &most);
    if (has_collector_ended()) __atomic_store_n(&status->command, RELEASE, __ATOMIC_RELAXED);
    enter_state();
    if (command() == LOOSEN) next_turn();
}

static void wait_for_turn(int32_t of) {
    note_place(of == REACH ? ARRIVED : of > 0 ? WAITS_FOR_TURN : HELD_BACK);
    if (of == REACH) status->arrived = ++arrived, next_turn();
    while (!is_over() && (of == REACH || (of > 0 && (uint32_t)of > turn && !is_free(self)) || (of == HELD && command() != LOOSEN))) nap();
    note_place(IN_CALL);
}

static void diverge(uint32_t kind, uint64_t object, uint64_t caller) {
    status->divergence.lane = self, status->divergence.next = lanes[self].next, status->divergence.kind = kind;
    status->divergence.caller = caller, status->divergence.object = kind == R_FORK || kind == R_JOINED ? 0 : object_at(object);
    set_state(DIVERGED);
}

/* The place of a call in the lane; NULL if it has none, and if the thread follows its lane no more. */
static const struct call_of_schedule *find_call(uint32_t kind, uint64_t object, uint64_t caller, int may_fail) {
    struct lane *mine = &lanes[self];
    const struct call_of_schedule *call = mine->is_lost ? NULL : call_of(self, mine->next);
    if (call && !fits(call, kind, object, caller, 1))
        call = may_fail && mine->next < listed(self)->wanted ? &failing_call : find_again(kind, object, caller);
    if (call || mine->is_lost) return call;
    if (mine->next < listed(self)->needed) diverge(kind, object, caller);
    else mine->is_lost = 1, next_turn(); /* nobody needs that it follows its lane */
    return NULL;
}

const struct call_of_schedule *enter(enum kind kind, uint64_t object, struct site *site, int may_fail) {
    uint64_t caller = site->count ? site->callers[0] : 0;
    if (own_lane() == NOBODY) return NULL;
    if (!schedule->pause && is_over()) return NULL;
    is_inside++; /* also while it waits: a call of a signal handler has no turn then */
    if (schedule->pause) { pause_before(kind, object, site), is_inside--; return NULL; }
    enter_state();
    const struct call_of_schedule *call = is_over() ? NULL : find_call(kind, object, caller, may_fail);
    if (kind != R_END && call != &extra_call && call != &failing_call && !is_over()) wait_for_turn(call ? call->turn : HELD);
    leave_state(), is_inside--;
    if (call == &failing_call || (call && call->turn == REACH)) return call;
    return is_over() ? NULL : call ? call : &extra_call;
}

void leave(const struct call_of_schedule *call) {
    if (call == &extra_call || call == &failing_call || own_lane() == NOBODY) return;
    enter_state();
    status->lanes[self].next = ++lanes[self].next;
    note_place(OUTSIDE);
    if (call->turn == REACH && state == CLOSED) set_state(ESCAPED);
    if (call->turn > 0) is_done[call->turn] = 1, next_turn();
    leave_state();
}

int may_retry(const struct call_of_schedule *call) {
    struct timespec moment = {0, RETRY_NS};
    if (!call || call->turn <= 0 || is_over()) return 0;
    syscall(SYS_nanosleep, &moment, NULL);
    return 1;
}

int has_turn(const struct call_of_schedule *call) { return call && call->turn >= 0; }

void enter_loop_of_wait(const struct call_of_schedule *call) {
    if (call == &extra_call && own_lane() != NOBODY) lanes[self].extra_depth++;
}

int comes_next(enum kind kind) {
    if (own_lane() == NOBODY || schedule->pause || is_over() || lanes[self].is_lost) return 0;
    const struct call_of_schedule *call = call_of(self, lanes[self].next);
    return call && lanes[self].next < listed(self)->wanted && call->kind == (uint32_t)kind;
}

/* ---- threads ---- */

static void hold_exit(void) { /* the program does not end before the schedule, and not while its deadlock is looked at */
    if (own_lane() == NOBODY || schedule->pause) return;
    enter_state();
    note_place(HELD_BACK);
    while (!is_over() || (state == CLOSED && command() != RELEASE)) nap();
    leave_state();
}

uint32_t number_of_child(void) {
    uint32_t child = NOBODY;
    if (own_lane() == NOBODY) return NOBODY;
    enter_state();
    if (!has_exit_handler) has_exit_handler = 1, atexit(hold_exit);
    for (uint32_t lane = 1; lane < schedule->lanes; lane++)
        if (parts.lanes[lane].is_listed && parts.lanes[lane].parent == self && parts.lanes[lane].child_of == lanes[self].forks) child = lane;
    lanes[self].forks++;
    leave_state();
    return child;
}

void note_handle(uint32_t number, uint64_t handle) {
    if (schedule && number < MOST_LANES) lanes[number].handle = handle;
}

uint32_t number_of_handle(uint64_t handle) {
    for (uint32_t lane = MOST_LANES; lane-- > 0;) if (lanes[lane].handle == handle) return lane;
    return NOBODY;
}

void begin_lane(void) { own_lane(); }

void end_lane(void) {
    struct site none = {.count = 0};
    if (own_lane() == NOBODY) return;
    enter(R_END, 0, &none, 0);
    note_place(ENDED);
}

/* ---- start ---- */

static void *zeros(uint64_t size) {
    void *memory = mmap(NULL, size, PROT_READ | PROT_WRITE, MAP_PRIVATE | MAP_ANONYMOUS, -1, 0);
    return memory == MAP_FAILED ? NULL : memory;
}

static int map_schedule(int file, uint64_t size) {
    struct status *shared = mmap(NULL, sizeof *shared, PROT_READ | PROT_WRITE, MAP_SHARED, file, 0);
    const struct schedule *found = mmap(NULL, size - sizeof *shared, PROT_READ, MAP_PRIVATE, file, sizeof *shared);
    if (shared == MAP_FAILED || found == MAP_FAILED || shared->magic != SCHEDULE_MAGIC || !find_parts(found, size - sizeof *shared, &parts)) return 0;
    for (slots_count = 8; slots_count < 2 * found->objects + 2; slots_count *= 2) continue;
    is_done = zeros(found->turns + 1), address_of = zeros((found->objects + 1ull) * sizeof *address_of);
    slots = zeros(slots_count * sizeof *slots), file_of = zeros((found->files + 1ull) * sizeof *file_of);
    if (!is_done || !address_of || !slots || !file_of || !_dl_find_object) return 0;
    status = shared;
    schedule = found;
    return 1;
}

/* The name may be that of a run which has ended, and by now of any file: only memory that cannot be cut is mapped. */
void begin_schedule(void) {
    const char *path = getenv("GOODLOCK_SCHEDULE");
    struct stat it;
    int file = path ? open(path, O_RDWR | O_CLOEXEC | O_NONBLOCK | O_NOCTTY) : -1;
    if (file < 0) return;
    if (fstat(file, &it) == 0 && it.st_size > (off_t)sizeof(struct status) && fcntl(file, F_GET_SEALS) == RING_SEALS)
        map_schedule(file, (uint64_t)it.st_size);
    close(file);
}
