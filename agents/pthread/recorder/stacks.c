/* The callers of a call, by the unwind tables of the program and its libraries. They are read only the first time that a call is made with
 * these callers: then they are kept, with the places on the stack where their return addresses are. Later calls compare these places. So a call
 * costs a look into a table. Here is no lock, no allocation and no system call; what is written is never changed. */
#include "recorder.h"

#include <string.h>

enum { CACHE = 1 << 16, PROBES = 8, MOST_SAVED = 8, RBP = 6, RSP = 7, RETURN = 16 };
struct known { uint32_t number, count; uint64_t callers[MOST_STACK]; uint32_t places[MOST_STACK]; }; /* places: from the first one, in 8 bytes */

static struct known known[STACKS];
static uint64_t own_low, own_high; /* the recorder: a thread begins in it */
static uint32_t known_count, cache[CACHE]; /* by hash: 1 more than the position of a stack in `known`; 0: free */

void forget_stacks(void) {
    memset(cache, 0, sizeof cache);
    known_count = 0;
}

void begin_stacks(void) {
    struct dl_find_object found;
    if (_dl_find_object && !_dl_find_object((void *)begin_stacks, &found))
        own_low = (uint64_t)found.dlfo_map_start, own_high = (uint64_t)found.dlfo_map_end;
}

/* Where a thread is in a function: at the return address of a call. */
struct frame { uint64_t pc, sp, bp; };

/* Goes on to the caller by the frame pointer. Returns the place of its return address on the stack, or 0 if there is none. */
static uint64_t step_by_pointer(struct frame *frame) {
    const uint64_t *up = (const uint64_t *)frame->bp;
    if (frame->bp < frame->sp || frame->bp >= stack_high - 16 || frame->bp % 8) return 0;
    uint64_t place = frame->bp + 8;
    *frame = (struct frame){up[1], frame->bp + 16, up[0]};
    return frame->pc ? place : 0;
}

#if defined(__x86_64__)

/* ---- the rules of a table for one place of the code ---- */

struct rule { enum { UNCHANGED, AT_CFA, AT_BP, UNKNOWN } kind; int64_t offset; };
/* cfa_register: RSP, RBP, or NONE if the CFA is read from the address rbp + cfa_offset. */
struct row { uint32_t cfa_register; int64_t cfa_offset; struct rule bp, back; };
struct table { const uint8_t *at, *end; uint64_t code_step; int64_t data_step; uint8_t pointers; int has_data, is_signal; };
enum { NONE = 1000 };

static uint64_t read_uleb(struct table *from) {
    uint64_t value = 0;
    for (int shift = 0; from->at < from->end && shift < 64; shift += 7) {
        uint8_t byte = *from->at++;
        value |= (uint64_t)(byte & 127) << shift;
        if (byte < 128) break;
    }
    return value;
}

static int64_t read_sleb(struct table *from) {
    uint64_t value = 0;
    int shift = 0;
    uint8_t byte = 0;
    do {
        if (from->at >= from->end) return 0;
        byte = *from->at++;
        value |= (uint64_t)(byte & 127) << shift, shift += 7;
    } while (byte >= 128 && shift < 63);
    if (byte & 64 && shift < 64) value |= ~(uint64_t)0 << shift;
    return (int64_t)value;
}

static uint64_t read_fixed(struct table *from, int size) {
    uint64_t value = 0;
    if (from->end - from->at < size) { from->at = from->end; return 0; }
    memcpy(&value, from->at, (size_t)size);
    from->at += size;
    return value;
}

/* The bytes of an encoded pointer; 0: one of another kind. */
static int size_of_pointer(uint8_t encoding) {
    switch (encoding & 0x0f) {
    case 0x00: case 0x04: case 0x0c: return 8;
    case 0x03: case 0x0b: return 4;
    case 0x02: case 0x0a: return 2;
    default: return 0;
    }
}

/* The address rbp + offset, or what is there: *is_read. Returns 0 for another expression. */
static int read_expression(struct table *from, int64_t *offset, int *is_read) {
    uint64_t length = read_uleb(from);
    if (length > (uint64_t)(from->end - from->at)) return 0;
    struct table inner = *from;
    inner.end = from->at += length;
    if (inner.at == inner.end || *inner.at++ != 0x70 + RBP) return 0;
    *offset = read_sleb(&inner), *is_read = inner.at < inner.end && *inner.at == 0x06;
    return inner.at + *is_read == inner.end;
}

static struct rule *rule_of(struct row *row, uint64_t number) {
    static __thread __attribute__((tls_model("initial-exec"))) struct rule other;
    return number == RBP ? &row->bp : number == RETURN ? &row->back : &other;
}

static void set_cfa(struct row *row, uint64_t number, int64_t offset) {
    row->cfa_register = number == RSP || number == RBP ? (uint32_t)number : UINT32_MAX, row->cfa_offset = offset;
}

/* One instruction that is no advance. Returns 0 if it is not understood. */
static int run_instruction(struct table *from, uint8_t code, struct row *row, const struct row *first, struct row *saved, int *depth) {
    uint64_t number;
    int64_t offset;
    int is_read;
    switch (code >> 6) {
    case 2: *rule_of(row, code & 63) = (struct rule){AT_CFA, (int64_t)read_uleb(from) * from->data_step}; return 1;
    case 3: number = code & 63, *rule_of(row, number) = number == RBP ? first->bp : first->back; return 1;
    }
    switch (code) {
    case 0x00: return 1;
    case 0x05: number = read_uleb(from), *rule_of(row, number) = (struct rule){AT_CFA, (int64_t)read_uleb(from) * from->data_step}; return 1;
    case 0x11: number = read_uleb(from), *rule_of(row, number) = (struct rule){AT_CFA, read_sleb(from) * from->data_step}; return 1;
    case 0x06: number = read_uleb(from), *rule_of(row, number) = number == RBP ? first->bp : first->back; return 1;
    case 0x07: *rule_of(row, read_uleb(from)) = (struct rule){UNKNOWN, 0}; return 1;
    case 0x08: *rule_of(row, read_uleb(from)) = (struct rule){UNCHANGED, 0}; return 1;
    case 0x09: case 0x14: case 0x15: number = read_uleb(from), read_uleb(from), *rule_of(row, number) = (struct rule){UNKNOWN, 0}; return 1;
    case 0x0a: return *depth < MOST_SAVED ? (saved[(*depth)++] = *row, 1) : 0;
    case 0x0b: return *depth > 0 ? (*row = saved[--*depth], 1) : 0;
    case 0x0c: number = read_uleb(from), set_cfa(row, number, (int64_t)read_uleb(from)); return 1;
    case 0x0d: set_cfa(row, read_uleb(from), row->cfa_offset); return 1;
    case 0x0e: row->cfa_offset = (int64_t)read_uleb(from); return 1;
    case 0x12: number = read_uleb(from), set_cfa(row, number, read_sleb(from) * from->data_step); return 1;
    case 0x13: row->cfa_offset = read_sleb(from) * from->data_step; return 1;
    case 0x0f:
        row->cfa_register = read_expression(from, &row->cfa_offset, &is_read) && is_read ? NONE : UINT32_MAX;
        return 1;
    case 0x10: case 0x16:
        number = read_uleb(from);
        is_read = 0;
        *rule_of(row, number) = read_expression(from, &offset, &is_read) && !is_read && code == 0x10 ? (struct rule){AT_BP, offset} : (struct rule){UNKNOWN, 0};
        return 1;
    case 0x2e: read_uleb(from); return 1;
    default: return 0;
    }
}

/* Runs the instructions that are for the code up to `skip` bytes after its first one. */
static int run_table(struct table *from, uint64_t skip, struct row *row, const struct row *first) {
    struct row saved[MOST_SAVED];
    uint64_t location = 0;
    int depth = 0;
    while (from->at < from->end) {
        uint8_t code = *from->at++;
        uint64_t step = code >> 6 == 1 ? code & 63 : code == 0x02 ? read_fixed(from, 1) : code == 0x03 ? read_fixed(from, 2) :
            code == 0x04 ? read_fixed(from, 4) : 0;
        if (code >> 6 == 1 || (code >= 0x02 && code <= 0x04)) {
            if ((location += step * from->code_step) > skip) return 1;
        } else if (!run_instruction(from, code, row, first, saved, &depth)) return 0;
    }
    return 1;
}

/* ---- the table of a function ---- */

/* Reads the common part, which begins at this address. Its instructions are left. */
static int read_common(const uint8_t *at, struct table *common) {
    uint32_t length;
    memcpy(&length, at, 4);
    *common = (struct table){.at = at + 8, .end = at + 4 + length};
    if (length == UINT32_MAX || length < 8) return 0;
    uint8_t version = *common->at++;
    const char *letters = (const char *)common->at;
    common->at += strnlen(letters, (size_t)(common->end - common->at)) + 1;
    common->code_step = read_uleb(common), common->data_step = read_sleb(common);
    if ((version == 1 ? read_fixed(common, 1) : read_uleb(common)) != RETURN) return 0;
    if (*letters != 'z') return !*letters;
    common->has_data = 1;
    uint64_t size = read_uleb(common);
    const uint8_t *instructions = common->at + size;
    for (letters++; *letters; letters++) {
        if (*letters == 'R') common->pointers = (uint8_t)read_fixed(common, 1);
        else if (*letters == 'L') read_fixed(common, 1);
        else if (*letters == 'P') {
            int bytes = size_of_pointer((uint8_t)read_fixed(common, 1));
            if (!bytes) return 0;
            read_fixed(common, bytes);
        } else if (*letters == 'S') common->is_signal = 1;
        else return 0;
    }
    common->at = instructions;
    return instructions <= common->end;
}

/* The rules at a place of the code, from the table of its function, which begins at this address. */
static int read_row(const uint8_t *at, uint64_t pc, struct row *row) {
    uint32_t length, back;
    struct table common;
    struct row first = {.cfa_register = UINT32_MAX, .bp = {UNCHANGED, 0}, .back = {UNKNOWN, 0}};
    memcpy(&length, at, 4), memcpy(&back, at + 4, 4);
    if (length == UINT32_MAX || length < 8 || !back || !read_common(at + 4 - back, &common) || common.is_signal) return 0;
    int bytes = size_of_pointer(common.pointers), how = common.pointers & 0xf0;
    if ((bytes != 4 && bytes != 8) || (how != 0x10 && how != 0)) return 0;
    struct table own = {.at = at + 8, .end = at + 4 + length, .code_step = common.code_step, .data_step = common.data_step};
    uint64_t begin = how ? (uint64_t)own.at : 0, offset = read_fixed(&own, bytes), size = read_fixed(&own, bytes);
    begin += bytes == 4 ? (uint64_t)(int64_t)(int32_t)offset : offset;
    if (pc < begin || pc - begin >= size) return 0;
    if (common.has_data) {
        uint64_t data = read_uleb(&own);
        own.at += data < (uint64_t)(own.end - own.at) ? data : (uint64_t)(own.end - own.at);
    }
    if (!run_table(&common, UINT64_MAX, &first, &first)) return 0;
    *row = first;
    return run_table(&own, pc - begin, row, &first);
}

/* The table of the function at a place of the code; NULL if there is none. */
static const uint8_t *table_at(uint64_t pc) {
    struct dl_find_object found;
    if (_dl_find_object((void *)pc, &found) || !found.dlfo_eh_frame) return NULL;
    const uint8_t *head = found.dlfo_eh_frame;
    uint32_t count;
    if (head[0] != 1 || head[1] != 0x1b || head[2] != 0x03 || head[3] != 0x3b) return NULL;
    memcpy(&count, head + 8, 4);
    int64_t wanted = (int64_t)(pc - (uint64_t)head);
    uint32_t low = 0, high = count;
    int32_t entry[2];
    while (low < high) {
        uint32_t middle = low + (high - low) / 2;
        memcpy(entry, head + 12 + 8 * (uint64_t)middle, sizeof entry);
        if (entry[0] <= wanted) low = middle + 1;
        else high = middle;
    }
    if (!low) return NULL;
    memcpy(entry, head + 12 + 8 * (uint64_t)(low - 1), sizeof entry);
    return head + entry[1];
}

/* ---- frames ---- */

/* Reads a word of the stack. Returns 0 if it is not on the part of the stack that is in use. */
static int read_stack(const struct frame *frame, uint64_t at, uint64_t *word) {
    if (at < frame->sp - 16 || at > stack_high - 8 || at % 8) return 0;
    *word = *(const uint64_t *)at;
    return 1;
}

/* Goes on to the caller. Returns the place of its return address on the stack, or 0 if the stack ends or is not understood. */
static uint64_t step_out(struct frame *frame) {
    struct row row;
    if (!_dl_find_object) return step_by_pointer(frame);
    const uint8_t *table = table_at(frame->pc - 1);
    uint64_t cfa, bp = frame->bp;
    if (!table || !read_row(table, frame->pc - 1, &row) || row.back.kind != AT_CFA) return 0;
    if (row.cfa_register == NONE) {
        if (!read_stack(frame, frame->bp + (uint64_t)row.cfa_offset, &cfa)) return 0;
    } else if (row.cfa_register == UINT32_MAX) return 0;
    else cfa = (row.cfa_register == RSP ? frame->sp : frame->bp) + (uint64_t)row.cfa_offset;
    if (cfa <= frame->sp || cfa > stack_high || cfa % 8) return 0;
    if (row.bp.kind == AT_CFA && !read_stack(frame, cfa + (uint64_t)row.bp.offset, &bp)) return 0;
    if (row.bp.kind == AT_BP && !read_stack(frame, frame->bp + (uint64_t)row.bp.offset, &bp)) return 0;
    uint64_t place = cfa + (uint64_t)row.back.offset;
    if (!read_stack(frame, place, &frame->pc) || !frame->pc) return 0;
    frame->sp = cfa, frame->bp = bp;
    return place;
}
#else
static uint64_t step_out(struct frame *frame) { return step_by_pointer(frame); }
#endif

/* ---- stacks that are known ---- */

static uint32_t *slot_of(uint64_t caller, uint64_t depth, uint32_t probe) {
    uint64_t hash = (caller ^ depth << 20) * 0x9E3779B97F4A7C15u;
    return &cache[((hash >> 40) + probe) % CACHE];
}

static int is_same(const struct known *it, uint64_t caller, const uint64_t *base) {
    if (it->callers[0] != caller || (uint64_t)(base + it->places[it->count - 1]) > stack_high - 8) return 0;
    for (uint32_t at = 1; at < it->count; at++) if (base[it->places[at]] != it->callers[at]) return 0;
    return 1;
}

static struct known *add_stack(struct ring *to, struct frame frame) {
    uint32_t at = __atomic_load_n(&known_count, __ATOMIC_RELAXED) < STACKS ? __atomic_fetch_add(&known_count, 1, __ATOMIC_RELAXED) : STACKS;
    uint32_t number = at < STACKS && __atomic_load_n(&to->stacks_used, __ATOMIC_RELAXED) < STACKS ?
        __atomic_fetch_add(&to->stacks_used, 1, __ATOMIC_RELAXED) : STACKS;
    uint64_t base = frame.sp, place;
    if (number >= STACKS) return NULL;
    struct known *it = &known[at];
    it->number = number, it->callers[0] = frame.pc, it->places[0] = 0, it->count = 1;
    while (it->count < MOST_STACK && (place = step_out(&frame)) && place - base < (uint64_t)UINT32_MAX * 8 &&
           (frame.pc < own_low || frame.pc >= own_high))
        it->callers[it->count] = frame.pc, it->places[it->count++] = (uint32_t)((place - base) / 8);
    memcpy(to->stacks[number].callers, it->callers, it->count * sizeof *it->callers);
    to->stacks[number].count = it->count;
    return it;
}

void find_stack(struct site *site, const uint64_t *frame) {
    struct ring *to;
    if (!is_recorded() || !(to = page.ring)) return;
    const uint64_t *base = frame + 2; /* the caller's stack pointer after the call */
    uint64_t caller = site->callers[0], depth = stack_high - (uint64_t)base;
    uint32_t *free_slot = NULL;
    for (uint32_t probe = 0; probe < PROBES; probe++) {
        uint32_t *slot = slot_of(caller, depth, probe), at = __atomic_load_n(slot, __ATOMIC_ACQUIRE);
        if (!at) { free_slot = slot; break; }
        if (is_same(&known[at - 1], caller, base)) {
            site->callers[1] = known[at - 1].number, site->count = BY_STACK;
            return;
        }
    }
    const struct known *it = add_stack(to, (struct frame){caller, (uint64_t)base, frame[0]});
    if (!it) return;
    if (free_slot) __atomic_store_n(free_slot, (uint32_t)(it - known) + 1, __ATOMIC_RELEASE);
    site->callers[1] = it->number, site->count = BY_STACK;
}
