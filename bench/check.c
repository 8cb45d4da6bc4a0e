/* check pages|heap [SEED] [ROUNDS]: every call that is lent bytes, on slices that are exactly as long as the call is
 * told; of the records that come back, how many cells their cycles will touch; and their page writes laid over each
 * other. With `pages` a slice starts or ends at a page of the machine that may not be touched, so that one byte read or
 * written beside it stops the program; with `heap` each is an allocation of its own, for a memory checker to watch.
 * Results are compared by differ.c; here only what is touched counts. */
#define _DEFAULT_SOURCE
#include "cartvesper.h"
#include <stdio.h>
#include <stdlib.h>
#include <string.h>
#include <sys/mman.h>
#include <unistd.h>

enum { CELLS = CARTVESPER_LARGEST_PAGE, WORDS = CELLS / 64 }; /* of a latch */
/* memory, input, output, identification page, the positions and the readings of a timed frame; room for the longest */
enum { ROLES = 6, ROOM = 1 << 18 };
enum { MOST_DRAWN = 4 + CELLS + 4 }; /* bytes of a frame at the pins: around the end of the largest page */

static int on_heap;
static uint8_t part; /* of the devices at work */
static uint8_t *areas[ROLES];
static uint64_t state, seen, calls;
static uint64_t timed, ended; /* timed frames done, cycles that ended inside one */
static uint64_t cuts, cut;    /* cuts done, those in a cycle */

static uint32_t random32(void)
{
    state ^= state >> 12;
    state ^= state << 25;
    state ^= state >> 27;
    return (uint32_t)((state * 0x2545F4914F6CDD1DULL) >> 32);
}

static uint32_t below(uint32_t n)
{
    return (uint32_t)(((uint64_t)random32() * n) >> 32);
}

/* ---- lent bytes */

static void map_areas(void)
{
    size_t page = (size_t)sysconf(_SC_PAGESIZE);
    for (int i = 0; i < ROLES; i++) {
        uint8_t *area = mmap(NULL, ROOM + 2 * page, PROT_NONE, MAP_PRIVATE | MAP_ANONYMOUS, -1, 0);
        if (area == MAP_FAILED || mprotect(area + page, ROOM, PROT_READ | PROT_WRITE) != 0) {
            fprintf(stderr, "check: no pages to lend\n");
            exit(2);
        }
        areas[i] = area + page;
    }
}

/* a multiple of `each` bytes; none is null, or a place where nothing may be touched */
static void *lend(int role, size_t length, size_t each)
{
    if (on_heap)
        return length == 0 && below(2) ? NULL : malloc(length * each);
    if (length == 0 && below(2))
        return NULL;
    return below(2) ? areas[role] : areas[role] + ROOM - length * each;
}

static void give_back(void *lent)
{
    if (on_heap)
        free(lent);
}

static void fill(uint8_t *bytes, size_t length)
{
    uint32_t mix = random32();
    for (size_t i = 0; i < length; i++)
        bytes[i] = (uint8_t)(mix >> (i % 4 * 8)) ^ (uint8_t)i;
}

/* a branch on each byte: a checker sees one that was never written */
static void look(const uint8_t *bytes, size_t length)
{
    for (size_t i = 0; i < length; i++)
        if (bytes[i] & 1)
            seen++;
}

static size_t about(size_t n)
{
    return below(4) ? n : n == 0 || below(2) ? n + 1 : n - 1;
}

/* ---- the calls */

static cartvesper_core core;
static cartvesper_device device;

/* the sizes of the part */
static size_t memory_size(void)
{
    return cartvesper_memory_of(part);
}

static size_t page_size(void)
{
    return cartvesper_identification_of(part);
}

static uint32_t longest_cycle(void)
{
    return part == CARTVESPER_M95M01 ? CARTVESPER_M95M01_LONGEST_CYCLE : CARTVESPER_LONGEST_CYCLE;
}

/* the memory and the identification page, and the four arguments that they are */
typedef struct {
    uint8_t *memory, *identification;
    size_t size, cells;
} slices;

#define LENT(lent) (lent).memory, (lent).size, (lent).identification, (lent).cells

static size_t random_length(void)
{
    switch (below(8)) {
    case 0:
        return 0;
    case 1:
        return below(20) == 0 ? memory_size() + 3 + below(3) : 3; /* the longest is the memory's size plus 4 */
    case 2:
        return 4 + (part == CARTVESPER_M95M01); /* of a frame that sets the lock */
    default:
        return 1 + below(300);
    }
}

static uint8_t random_code(void)
{
    static const uint8_t codes[] = {CARTVESPER_WREN, CARTVESPER_WRDI,  CARTVESPER_RDSR, CARTVESPER_WRSR,
                                    CARTVESPER_READ, CARTVESPER_READ,  CARTVESPER_RDID, CARTVESPER_RDID,
                                    CARTVESPER_WRID, CARTVESPER_WRITE, CARTVESPER_WRID, CARTVESPER_WRITE};
    return codes[below(sizeof codes)];
}

/* WEL and an open lock by hand, so that frames that need them are executed: inside the ranges at any time. A WRDI then
 * meets a cycle with WEL 1 */
static void enable(cartvesper_core *one)
{
    if (below(2)) {
        one->wel = 1;
        one->lock = 0;
    }
}

/* the memory alone, of any length; a branch on the number: a checker sees one that was never written */
static void check_power_up(slices lent)
{
    uint32_t cycle = below(longest_cycle() + 2), reading = random32();
    uint8_t lock = (uint8_t)below(3), bp0 = (uint8_t)below(2);
    cartvesper_core_answer one =
        cartvesper_power_up(part, lock, cycle, 0, 0, bp0, reading, lent.memory, lent.size);
    cartvesper_device_answer other =
        cartvesper_device_power_up(part, lock, cycle, 0, 0, bp0, reading, lent.memory, lent.size);
    if (one.number != other.number || one.core.blank != other.device.core.blank) {
        fprintf(stderr, "check: the two power-ups differ\n");
        exit(1);
    }
    if (one.core.blank > (one.number == 0 ? lent.size : 0)) {
        fprintf(stderr, "check: a power-up counted more blank cells than it was lent, or was refused and counted\n");
        exit(1);
    }
    seen += one.core.blank;
}

static void check_frame(slices lent)
{
    size_t length = random_length(), room = about(length);
    uint8_t *bytes = lend(1, length, 1), *out = lend(2, room, 1);
    fill(bytes, length);
    if (length > 0)
        bytes[0] = random_code();
    enable(&core);
    size_t bits = length == 0 ? 0 : 8 * length - (below(4) ? 0 : below(9));
    cartvesper_frame_answer answer =
        cartvesper_frame(core, LENT(lent), (uint8_t)below(2), bytes, length, bits, out, room);
    if (answer.number == 0)
        look(out, room);
    core = answer.core;
    give_back(bytes);
    give_back(out);
}

/* lists that mostly fit: positions that rise or stay, up to the frame's whole bytes, and readings that go on */
static void fill_lists(size_t *positions, size_t places, uint32_t *readings, size_t times, size_t most)
{
    size_t at = 0;
    uint32_t last = core.last;
    for (size_t i = 0; i < places; i++) {
        at += below((uint32_t)(most - at) + 1) / (1 + below(4));
        positions[i] = below(200) ? at : SIZE_MAX - below(2);
    }
    for (size_t i = 0; i < times; i++)
        readings[i] = last += below(3000);
}

/* a cycle may end inside it and store into what is lent; its lists lie where they just fit, as all does */
static void check_timed(slices lent)
{
    size_t length = below(2) ? random_length() : 1 + below(12), room = below(8) ? length : about(length);
    size_t places = below(4) ? below(6) : below(600), times = below(8) ? places : about(places);
    uint8_t *bytes = lend(1, length, 1), *out = lend(2, room, 1), mode = (uint8_t)(below(16) ? 3 * below(2) : below(5));
    size_t *positions = lend(4, places, sizeof *positions);
    uint32_t *readings = lend(5, times, sizeof *readings);
    size_t bits = length == 0 ? 0 : 8 * length - (below(4) ? 0 : below(9));
    fill(bytes, length);
    if (length > 0)
        bytes[0] = below(2) ? CARTVESPER_RDSR : random_code();
    fill_lists(positions, places, readings, times, bits / 8);
    enable(&core);
    cartvesper_frame_answer answer =
        cartvesper_timed_frame(core, LENT(lent), (uint8_t)below(2), mode, bytes, length, bits, positions, places,
                               readings, times, out, room);
    if (answer.number == 0)
        look(out, room);
    timed += answer.number == 0;
    ended += core.left > 0 && answer.core.left == 0;
    core = answer.core;
    give_back(bytes);
    give_back(out);
    give_back(positions);
    give_back(readings);
}

static void check_reading(slices lent)
{
    core = cartvesper_clock_reading(core, core.last + below(6000), LENT(lent)).core;
    device = cartvesper_device_read_clock(device, device.core.last + below(6000), LENT(lent)).device;
    device = cartvesper_device_set_c(device, (uint8_t)below(2), LENT(lent)).device;
}

/* none, all, or any words, where they just fit */
static void check_cut(slices lent)
{
    cartvesper_choice *choice = lend(1, 1, sizeof *choice);
    uint32_t kind = below(4);
    for (size_t k = 0; k < WORDS; k++)
        choice->words[k] = kind == 0 ? 0 : kind == 1 ? UINT64_MAX : (uint64_t)random32() << 32 | random32();
    cartvesper_core_answer one = cartvesper_cut(core, *choice, LENT(lent));
    cartvesper_device_answer other = cartvesper_device_cut(device, *choice, LENT(lent));
    cuts += (one.number == 0) + (other.number == 0);
    cut += (one.number == 0 && core.left > 0) + (other.number == 0 && device.core.left > 0);
    core = one.core;
    device = other.device;
    give_back(choice);
}

/* a frame of whole bytes drawn in mode 0, from a deselect on: 5 events, and 3 for each bit */
static void draw(uint64_t *events, size_t length)
{
    uint8_t bytes[MOST_DRAWN];
    fill(bytes, length);
    bytes[0] = random_code();
    *events++ = cartvesper_event(CARTVESPER_EVENT_S, 1);
    *events++ = cartvesper_event(CARTVESPER_EVENT_HOLD, 1);
    *events++ = cartvesper_event(CARTVESPER_EVENT_C, 0);
    *events++ = cartvesper_event(CARTVESPER_EVENT_S, 0);
    for (size_t bit = 0; bit < 8 * length; bit++) {
        *events++ = cartvesper_event(CARTVESPER_EVENT_D, bytes[bit / 8] >> (7 - bit % 8) & 1);
        *events++ = cartvesper_event(CARTVESPER_EVENT_C, 1);
        *events++ = cartvesper_event(CARTVESPER_EVENT_C, 0);
    }
    *events = cartvesper_event(CARTVESPER_EVENT_S, 1);
}

/* mostly clock edges, so that frames come about */
static void scatter(uint64_t *events, size_t count)
{
    for (size_t i = 0; i < count; i++)
        events[i] = below(5000) ? cartvesper_event(below(3) ? CARTVESPER_EVENT_C : below(6), below(2)) : ~0ULL;
}

static void check_play(slices lent)
{
    size_t drawn = below(2) ? 0 : 1 + below(below(4) ? 12 : MOST_DRAWN);
    size_t count = drawn ? 5 + 24 * drawn : below(400), room = about(count);
    uint64_t *events = lend(1, count, sizeof *events);
    uint8_t *out = lend(2, room, 1);
    if (drawn)
        draw(events, drawn);
    else
        scatter(events, count);
    enable(&device.core);
    cartvesper_device_answer answer = cartvesper_device_play(device, LENT(lent), events, count, out, room);
    if (answer.number == 0)
        look(out, room);
    device = answer.device;
    give_back(events);
    give_back(out);
}

/* a branch on the answer: a checker sees a field of the record that was never written */
static void check_cells(cartvesper_value touched)
{
    if (touched.number != 0 || touched.value > page_size()) {
        fprintf(stderr, "check: a record that came back is refused, or its cycle touches more than a page\n");
        exit(1);
    }
    seen += touched.value;
}

/* of a record that came back, or random marks and bytes: most with the unmarked ones at 0 */
static void fill_latch(cartvesper_latch *latch)
{
    if (below(2)) {
        *latch = below(2) ? core.waits.latch : device.frame.latch;
        return;
    }
    fill(latch->bytes, sizeof latch->bytes);
    for (size_t k = 0; k < WORDS; k++)
        latch->marks[k] = (uint64_t)random32() << 32 | random32();
    for (size_t i = 0; i < CELLS; i++)
        if (!cartvesper_marked(latch, i) && below(1000))
            latch->bytes[i] = 0;
}

/* no bytes are lent, but two records go in by value and one comes out: each where it just fits */
static void check_lay(void)
{
    cartvesper_latch *earlier = lend(0, 1, sizeof *earlier), *later = lend(1, 1, sizeof *later);
    cartvesper_latch_answer *answer = lend(2, 1, sizeof *answer);
    fill_latch(earlier);
    fill_latch(later);
    *answer = cartvesper_lay(*earlier, *later);
    if (answer->number != 0 && memcmp(&answer->latch, earlier, sizeof *earlier) != 0) {
        fprintf(stderr, "check: a page write that was not laid over came back changed\n");
        exit(1);
    }
    look((const uint8_t *)&answer->latch, sizeof answer->latch);
    give_back(earlier);
    give_back(later);
    give_back(answer);
}

/* a cycle begun by hand: its end stores the identification page, or the lock. The M95512 has neither; of the M95M01
 * some with WEL 0, as WRDI leaves it */
static void begin_cycle(cartvesper_core *idle)
{
    if (idle->part == CARTVESPER_M95512 || idle->left != 0)
        return;
    idle->wel = idle->part != CARTVESPER_M95M01 || below(2);
    idle->left = idle->cycle;
    idle->waits.kind = (uint8_t)(below(8) ? 3 : 4);
    if (idle->waits.kind == 4)
        return;
    fill(idle->waits.latch.bytes, sizeof idle->waits.latch.bytes);
    for (size_t k = 0; k < page_size() / 64; k++)
        idle->waits.latch.marks[k] = below(2) ? UINT64_MAX : (uint64_t)random32() << 32 | random32();
    for (size_t i = 0; i < CELLS; i++)
        if (!cartvesper_marked(&idle->waits.latch, i))
            idle->waits.latch.bytes[i] = 0;
}

static void check_write(slices lent)
{
    size_t length = random_length(), size = memory_size();
    uint64_t address = length <= size ? size - length + below(2) : 0 - (uint64_t)length;
    if (below(4))
        address = below((uint32_t)size + 1);
    uint8_t *bytes = lend(1, length, 1);
    fill(bytes, length);
    uint32_t longest = longest_cycle(), interval = 500 + below(longest - 400);
    uint32_t limit = below(3) ? longest + 1 : below(12);
    core = cartvesper_write(core, LENT(lent), address, bytes, length, interval, limit).core;
    give_back(bytes);
}

static void check_hex(slices lent)
{
    size_t room = below(8) ? CARTVESPER_HEX_TEXT : about(below(2) * CARTVESPER_HEX_TEXT);
    uint8_t *out = lend(2, room, 1);
    int done = cartvesper_hex_export(core, lent.memory, lent.size, out, room) == 0;
    if (done)
        look(out, room);
    /* what was exported, or its front, or one line and the end, or noise; sometimes with one byte changed */
    size_t length = done ? (below(2) ? room : below((uint32_t)room)) : below(100);
    uint8_t *text = lend(1, length, 1);
    if (done)
        memcpy(text, out, length);
    else
        fill(text, length);
    if (length > 0 && below(2))
        text[below((uint32_t)length)] ^= (uint8_t)(1 << below(8));
    core = cartvesper_hex_import(core, lent.memory, lent.size, text, length).core;
    give_back(text);
    give_back(out);
}

static void check_call(void)
{
    for (int i = 0; i < 8; i++)
        check_lay();
    calls += 8;
    slices lent;
    uint8_t other = (uint8_t)below(3); /* with its lengths, or beside them */
    lent.size = below(16) ? memory_size() : about(below(2) * cartvesper_memory_of(other));
    lent.cells = below(16) ? page_size() : about(below(2) * cartvesper_identification_of(other));
    lent.memory = lend(0, lent.size, 1);
    lent.identification = lend(3, lent.cells, 1);
    if (on_heap || below(64) == 0)
        fill(lent.memory, lent.size);
    fill(lent.identification, lent.cells);
    check_power_up(lent);
    calls += 2;
    for (int i = 0; i < 8; i++) {
        if (below(4) == 0)
            begin_cycle(&core);
        if (below(4) == 0 && device.frame.taken == 0)
            begin_cycle(&device.core);
        check_frame(lent);
        check_timed(lent);
        if (below(4) == 0) { /* seldom, as it leaves no cycle and no frame */
            check_cut(lent);
            calls += 2;
        }
        check_reading(lent);
        check_play(lent);
        check_write(lent);
        check_cells(cartvesper_core_touched(core));
        check_cells(cartvesper_device_touched(device));
        calls += 9;
    }
    check_hex(lent);
    calls += 2;
    look(lent.memory, lent.size < 256 ? lent.size : 256);
    look(lent.identification, lent.cells);
    give_back(lent.memory);
    give_back(lent.identification);
}

/* new devices of a part, their memory counted: with FFh cells at both ends, where a count just ends */
static void begin_part(void)
{
    part = (uint8_t)below(3);
    uint8_t lock = (uint8_t)below(2), bp0 = (uint8_t)(below(4) == 0);
    uint32_t cycle = 1 + below(longest_cycle()), reading = random32();
    size_t size = memory_size();
    uint8_t *memory = lend(0, size, 1);
    fill(memory, size);
    memory[0] = memory[size - 1] = 0xFF;
    core = cartvesper_power_up(part, lock, cycle, 0, 0, bp0, reading, memory, size).core;
    device = cartvesper_device_power_up(part, lock, cycle, 0, 0, 0, reading, memory, size).device;
    calls += 2;
    give_back(memory);
}

int main(int argc, char **argv)
{
    if (argc < 2 || (strcmp(argv[1], "pages") != 0 && strcmp(argv[1], "heap") != 0)) {
        fprintf(stderr, "usage: check pages|heap [SEED] [ROUNDS]\n");
        return 2;
    }
    on_heap = argv[1][0] == 'h';
    uint64_t seed = argc > 2 ? strtoull(argv[2], NULL, 10) : 1, rounds = argc > 3 ? strtoull(argv[3], NULL, 10) : 2000;
    state = (seed + 1) * 0x9E3779B97F4A7C15ULL | 1;
    map_areas();
    for (uint64_t i = 0; i < rounds; i++) {
        if (i % 8 == 0)
            begin_part();
        check_call();
    }
    printf("check %s: nothing beside the lent bytes was touched in %llu calls; of %llu timed frames %llu saw a cycle "
           "end, of %llu cuts %llu fell in one\n",
           argv[1], (unsigned long long)calls, (unsigned long long)timed, (unsigned long long)ended,
           (unsigned long long)cuts, (unsigned long long)cut);
    return 0;
}
