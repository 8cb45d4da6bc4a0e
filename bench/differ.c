/* differ [SEED] [ROUNDS]: the library of cartvesper.h and the plain model on the same inputs, compared in every byte
 * of records (field by field, without padding), memory, identification page, outputs and answers. The first difference
 * is printed in full (exit 1); else a summary of counts (exit 0). */
#include "plain.h"
#include <inttypes.h>
#include <stdarg.h>
#include <stdio.h>
#include <stdlib.h>
#include <string.h>

enum { WREN = CARTVESPER_WREN, WRDI = CARTVESPER_WRDI, RDSR = CARTVESPER_RDSR };
enum { WRSR = CARTVESPER_WRSR, READ = CARTVESPER_READ, WRITE = CARTVESPER_WRITE };
enum { RDID = CARTVESPER_RDID, WRID = CARTVESPER_WRID };
enum { LOCK_ADDRESS = CARTVESPER_LOCK_ADDRESS, LOCK_DATA = CARTVESPER_LOCK_DATA };
enum { M95512 = CARTVESPER_M95512, M95512D = CARTVESPER_M95512D, M95M01 = CARTVESPER_M95M01 };
/* room for every part: the largest memory, the longest frame, the cells of a latch */
enum { LARGEST = CARTVESPER_LARGEST_MEMORY, LONGEST = CARTVESPER_M95M01_LONGEST_FRAME };
enum { CELLS = CARTVESPER_LARGEST_PAGE, WORD = 64, WORDS = CELLS / WORD }; /* and its words of marks */
enum { PAGES = 512, GUARD = 64 };                                          /* pages of every part */
enum { SET_S, SET_C, SET_D, SET_W, SET_HOLD, CLOCK };
enum { EVENTS = 16384 };

/* ---- chance: xorshift64* */

static uint64_t state;

static uint64_t next64(void)
{
    state ^= state >> 12;
    state ^= state << 25;
    state ^= state >> 27;
    return state * 0x2545F4914F6CDD1DULL;
}

static uint32_t random32(void)
{
    return (uint32_t)(next64() >> 32);
}

static uint32_t below(uint32_t n)
{
    return (uint32_t)(((uint64_t)random32() * n) >> 32);
}

static int percent(uint32_t p)
{
    return below(100) < p;
}

static void random_bytes(void *to, size_t length)
{
    uint8_t *bytes = to;
    for (size_t i = 0; i < length; i++)
        bytes[i] = (uint8_t)random32();
}

/* none, all, one, all but one, a few, or any */
static uint64_t random_word(void)
{
    switch (below(6)) {
    case 0:
        return 0;
    case 1:
        return UINT64_MAX;
    case 2:
        return 1ULL << below(WORD);
    case 3:
        return ~(1ULL << below(WORD));
    case 4:
        return next64() & next64() & next64() & next64();
    default:
        return next64();
    }
}

/* some of the bytes become FFh, so that cells are blank, and are written blank */
static void sprinkle_blank(void *to, size_t length)
{
    uint8_t *bytes = to;
    uint32_t share = 1 + below(90);
    for (size_t i = 0; i < length; i++)
        bytes[i] = percent(share) ? 0xFF : bytes[i];
}

/* ---- lent bytes, one set for each side, with guards around them: the memory and the identification page */

typedef struct {
    uint8_t before[GUARD], bytes[LARGEST + 1], between[GUARD], identification[CELLS + 1], after[GUARD];
} lent_memory;

/* how long both slices are said to be */
typedef struct {
    size_t size, cells;
} lengths;

/* a part's own lengths */
static lengths whole(uint8_t part)
{
    const plain_row *row = plain_row_of(part);
    return (lengths){row->size, row->page};
}

typedef struct {
    uint8_t before[GUARD], bytes[LONGEST + 3], after[GUARD]; /* a list has at most 16,384 events */
} lent_output;

static lent_memory lib_memory, plain_memory, start_memory, singles_memory, script_memory;
static lent_output lib_out, plain_out;
static uint8_t frame_bytes[LONGEST + 3];

/* ---- counts */

/* an 82h of a part that knows it, executed or ignored: the first test that fails */
enum { EXECUTED, IN_CYCLE, WITHOUT_WEL, BY_COUNT, LOCKED, BP_11, IN_HOLD, BY_DATA, CAUSES };

static struct {
    uint64_t calls, frames, executed, events, readings, lists, listed, spoiled, cycles, cells, driven, drawn;
    uint64_t unreached, damaged, damaged_calls, swept;
    uint64_t runs, moved, pages, sent, parts; /* of the driver and the split */
    uint64_t asked, some, marked;             /* cells touched: asked for, not 0; latches made cell by cell */
    uint64_t lays, unlaid, laws, ordered;     /* page writes laid over, refused; laws; pairs whose order matters */
    uint64_t bytewise, stored;                /* writes laid byte by byte; pages stored by two of them and by one */
    uint64_t twice, busy;                     /* runs sent twice, both done; a cycle ran at the first one's start */
    uint64_t identified, locked;              /* cycles that stored the identification page, the lock */
    uint64_t kept, parts_swept;               /* its cells changed; records made of each part, lock and kind */
    uint64_t by_page[CAUSES], by_lock[CAUSES]; /* 82h of the parts that know it, for the page and for the lock */
    uint64_t page_shown, lock_shown, unshown; /* their 83h past the address; those that drove nothing */
    uint64_t unknown, fields_swept;           /* 82h and 83h of the M95512; frames in hand made field by field */
    uint64_t disabled, stayed, unlatched;     /* WRDI in a cycle: WEL became 0, stayed; readings in a cycle at WEL 0 */
    uint64_t gained, lost, rewritten;         /* cells that a page's cycle stored: became FFh, were FFh, stayed FFh */
    uint64_t at_zero, at_size;                /* page cycles' ends and cuts: sums held at 0, at the memory's size */
    uint64_t scanned, twins;                  /* numbers of blank cells seen to be right; calls with two numbers */
    uint64_t timed, inside, wraps, unfit;     /* timed frames; their readings, wraps between them; lists that got 4 */
    uint64_t ended_at[3];                     /* cycles that ended inside one: at position 0, between, at the last */
    uint64_t seen;                            /* RDSR frames that showed WIP 1, and at their end 0 */
    uint64_t timed_drawn[2], drawn_ends[2];   /* drawn at the pins, in mode 0 and 3; in which a cycle ended */
    uint64_t cuts, at_pins, dropped;          /* supply cuts done; those at the pins, those inside a frame */
    uint64_t cut_in[5];                       /* by what waited: nothing, a status value, a page, and so on */
    uint64_t taken, untaken;                  /* marked cells at a cut: have their new bytes, stayed */
    uint64_t cut_laws, cut_models;            /* laws of a cut; cuts of both models compared */
    uint64_t cut_runs, in_run, in_frame;      /* runs cut and sent again; in a page's cycle, inside a frame */
    uint64_t of_part[PLAIN_PARTS];            /* frames ended, by the part: those of the frame model and at the pins */
    uint64_t numbers[14];                     /* answers by their number */
} counts;

static uint64_t seed, current_round;

/* ---- equality and printing of records */

static int frame_same(const cartvesper_frame_part *a, const cartvesper_frame_part *b)
{
    return a->taken == b->taken && a->bits == b->bits && a->partial == b->partial && a->code == b->code &&
           a->ran == b->ran && a->value == b->value && a->out == b->out && a->shown == b->shown &&
           a->address == b->address && plain_latch_same(&a->latch, &b->latch);
}

static int device_same(const cartvesper_device *a, const cartvesper_device *b)
{
    return a->pins.s == b->pins.s && a->pins.c == b->pins.c && a->pins.d == b->pins.d && a->pins.w == b->pins.w &&
           a->pins.hold == b->pins.hold && a->held == b->held && frame_same(&a->frame, &b->frame) &&
           plain_core_same(&a->core, &b->core);
}

static void print_bytes(const uint8_t *bytes, size_t length)
{
    for (size_t i = 0; i < length && i < 512; i++)
        printf("%02X%s", bytes[i], i % 32 == 31 ? "\n      " : " ");
    printf(length > 512 ? "..\n" : "\n");
}

static void print_latch(const cartvesper_latch *latch)
{
    printf("    latch, byte/mark of each cell that is not 0/0:");
    for (int i = 0; i < CELLS; i++)
        if (latch->bytes[i] || cartvesper_marked(latch, (size_t)i))
            printf(" %d:%02X/%d", i, latch->bytes[i], cartvesper_marked(latch, (size_t)i));
    printf("\n    its words:");
    for (int k = 0; k < WORDS; k++)
        printf(" %016" PRIX64, latch->marks[k]);
    printf("\n");
}

static void print_core(const cartvesper_core *core)
{
    printf("    part %d lock %d srwd %d bp1 %d bp0 %d wel %d", core->part, core->lock, core->srwd, core->bp1, core->bp0,
           core->wel);
    printf(" cycle %" PRIu32 " left %" PRIu32 " last %" PRIu32 " blank %" PRIu32 "\n", core->cycle, core->left,
           core->last, core->blank);
    printf("    waits: kind %d status %02X page %" PRIu32 "\n", core->waits.kind, core->waits.status, core->waits.page);
    print_latch(&core->waits.latch);
}

static void print_device(const cartvesper_device *device)
{
    const cartvesper_frame_part *frame = &device->frame;
    printf("    s %d c %d d %d w %d hold %d held %d\n", device->pins.s, device->pins.c, device->pins.d, device->pins.w,
           device->pins.hold, device->held);
    printf("    frame: taken %d bits %d partial %02X code %02X ran %d value %02X", frame->taken, frame->bits,
           frame->partial, frame->code, frame->ran, frame->value);
    printf(" out %02X shown %d address %04" PRIX32 "\n", frame->out, frame->shown, frame->address);
    print_latch(&frame->latch);
    print_core(&device->core);
}

/* ---- the call in hand, for the report of a difference */

typedef struct {
    char call[256];
    int has_core, has_device; /* the record given, one of the two or none */
    int has_latches;          /* or two page writes */
    int has_choice;           /* a cut's */
    cartvesper_core core;
    cartvesper_device device;
    cartvesper_latch earlier, later;
    cartvesper_choice choice;
    const uint8_t *bytes;
    size_t length;
    const uint64_t *events;
    size_t count;
    int timed; /* with the schedule's readings */
} call_in_hand;

static call_in_hand hand;

/* the readings inside the timed frame in hand, and how long its two lists are said to be */
enum { PLACES = 64 };

typedef struct {
    size_t positions[PLACES + 1], places;
    uint32_t readings[PLACES + 1];
    size_t times;
} lists;

static lists schedule, schedule_kept;

static void begin_call(const cartvesper_core *core, const cartvesper_device *device, const char *format, ...)
{
    va_list values;
    hand.has_core = core != NULL;
    hand.has_device = device != NULL;
    if (core)
        hand.core = *core;
    if (device)
        hand.device = *device;
    hand.has_latches = 0;
    hand.has_choice = 0;
    hand.bytes = NULL;
    hand.events = NULL;
    hand.timed = 0;
    va_start(values, format);
    vsnprintf(hand.call, sizeof hand.call, format, values);
    va_end(values);
    counts.calls++;
}

static void print_schedule(void)
{
    printf("  positions:");
    for (size_t i = 0; i < schedule.places; i++)
        printf(" %zu", schedule.positions[i]);
    printf("\n  readings:");
    for (size_t i = 0; i < schedule.times; i++)
        printf(" %" PRIu32, schedule.readings[i]);
    printf("\n");
}

static void print_choice(void)
{
    printf("  choice:");
    for (int k = 0; k < WORDS; k++)
        printf(" %016" PRIX64, hand.choice.words[k]);
    printf("\n");
}

static void print_hand(const char *what)
{
    printf("DIFFERENCE: %s\n  seed %" PRIu64 ", round %" PRIu64 ", call %" PRIu64 "\n  call: %s\n", what, seed,
           current_round, counts.calls, hand.call);
    if (hand.has_core)
        printf("  record given:\n"), print_core(&hand.core);
    if (hand.has_device)
        printf("  record given:\n"), print_device(&hand.device);
    if (hand.has_latches)
        printf("  earlier:\n"), print_latch(&hand.earlier), printf("  later:\n"), print_latch(&hand.later);
    if (hand.has_choice)
        print_choice();
    if (hand.bytes)
        printf("  bytes:\n      "), print_bytes(hand.bytes, hand.length);
    if (hand.timed)
        print_schedule();
    if (hand.events)
        printf("  events (kind.value):\n");
    for (size_t i = 0; hand.events && i < hand.count; i++)
        printf("  %" PRIu64 ".%" PRIu32, hand.events[i] >> 32 & 7, (uint32_t)hand.events[i]);
    printf("\n");
}

static void fail(const char *what)
{
    print_hand(what);
    exit(1);
}

static void fail_numbers(const char *what, uint64_t lib, uint64_t plain)
{
    print_hand(what);
    printf("  library: %" PRIu64 "\n  plain:   %" PRIu64 "\n", lib, plain);
    exit(1);
}

static void fail_bytes(const char *what, const uint8_t *lib, const uint8_t *plain, size_t length, size_t guard)
{
    print_hand(what);
    for (size_t i = 0, shown = 0; i < length && shown < 64; i++)
        if (lib[i] != plain[i])
            printf("  at %ld: library %02X, plain %02X\n", (long)i - (long)guard, lib[i], plain[i]), shown++;
    exit(1);
}

static void compare_numbers(const char *what, uint64_t lib, uint64_t plain)
{
    if (lib != plain)
        fail_numbers(what, lib, plain);
}

static void compare_bytes(const char *what, const uint8_t *lib, const uint8_t *plain, size_t length, size_t guard)
{
    if (memcmp(lib, plain, length) != 0)
        fail_bytes(what, lib, plain, length, guard);
}

/* the memory and the identification page, and beside them; the places printed are the cells of the one that differs */
static void compare_lent(const char *what, const lent_memory *lib, const lent_memory *plain)
{
    size_t page = offsetof(lent_memory, identification), at = 0;
    const uint8_t *one = lib->before, *other = plain->before;
    if (memcmp(lib, plain, sizeof *lib) == 0)
        return;
    while (at < sizeof *lib && one[at] == other[at])
        at++;
    if (at < page - GUARD / 2)
        fail_bytes(what, one, other, sizeof *lib, GUARD);
    printf("(places count from the identification page)\n");
    fail_bytes(what, one, other, sizeof *lib, page);
}

static void compare_memory(void)
{
    compare_lent("memory or identification page (or beside it)", &lib_memory, &plain_memory);
}

static void compare_cores(const char *what, const cartvesper_core *lib, const cartvesper_core *plain)
{
    if (plain_core_same(lib, plain))
        return;
    print_hand(what);
    printf("  library:\n"), print_core(lib);
    printf("  plain:\n"), print_core(plain);
    exit(1);
}

static void compare_devices(const char *what, const cartvesper_device *lib, const cartvesper_device *plain)
{
    if (device_same(lib, plain))
        return;
    print_hand(what);
    printf("  library:\n"), print_device(lib);
    printf("  plain:\n"), print_device(plain);
    exit(1);
}

static void compare_latches(const char *what, const cartvesper_latch *lib, const cartvesper_latch *plain)
{
    if (plain_latch_same(lib, plain))
        return;
    print_hand(what);
    printf("  library:\n"), print_latch(lib);
    printf("  plain:\n"), print_latch(plain);
    exit(1);
}

static void count_refusal(uint32_t number)
{
    if (number < 14)
        counts.numbers[number]++;
}

/* refused: the record as given; done: inside the ranges */
static void check_core(uint32_t number, const cartvesper_core *given, const cartvesper_core *lib)
{
    count_refusal(number);
    if (number != 0 && !plain_core_same(given, lib))
        fail("a refusal changed the record");
    if (number == 0 && !plain_core_ok(lib))
        printf("  library:\n"), print_core(lib), fail("the record handed back is outside the ranges");
}

static void check_device(uint32_t number, const cartvesper_device *given, const cartvesper_device *lib)
{
    count_refusal(number);
    if (number != 0 && !device_same(given, lib))
        fail("a refusal changed the record");
    if (number == 0 && !plain_device_ok(lib))
        printf("  library:\n"), print_device(lib), fail("the record handed back is outside the ranges");
}

/* ---- one call on both sides */

static void *or_null(void *bytes, size_t length)
{
    return length == 0 && percent(50) ? NULL : bytes;
}

/* both slices as four arguments */
#define LENT(memory, lent)                                                                                             \
    or_null((memory).bytes, (lent).size), (lent).size, or_null((memory).identification, (lent).cells), (lent).cells

static void compare_values(cartvesper_value lib, cartvesper_value plain)
{
    compare_numbers("the number", lib.number, plain.number);
    compare_numbers("the value", lib.value, plain.value);
    count_refusal(lib.number);
}

/* a part, and its lock */
typedef struct {
    uint8_t part, lock;
} which;

/* refused: the delivered record of the M95512, with no cell counted */
static void check_delivered(const cartvesper_core *core)
{
    cartvesper_core delivered;
    memset(&delivered, 0, sizeof delivered);
    delivered.cycle = CARTVESPER_LONGEST_CYCLE;
    compare_cores("a refused power-up's record (second: wanted)", core, &delivered);
}

/* done: the number is the scan's */
static void check_powered(uint32_t number, const cartvesper_core *core, size_t size)
{
    if (!plain_core_ok(core))
        fail("the record handed back is outside the ranges");
    if (number != 0)
        check_delivered(core);
    else
        compare_numbers("blank cells (second: by the scan)", core->blank, plain_blank(lib_memory.bytes, size));
    count_refusal(number);
}

/* lent so many bytes of the memory */
static uint32_t try_power_up_of(cartvesper_core *core, which one, uint32_t cycle, uint8_t srwd, uint8_t bp1,
                                uint8_t bp0, uint32_t reading, size_t size)
{
    begin_call(NULL, NULL,
               "power_up part %d lock %d cycle %" PRIu32 " srwd %d bp1 %d bp0 %d reading %" PRIu32 ", memory %zu",
               one.part, one.lock, cycle, srwd, bp1, bp0, reading, size);
    cartvesper_core_answer lib = cartvesper_power_up(one.part, one.lock, cycle, srwd, bp1, bp0, reading,
                                                     or_null(lib_memory.bytes, size), size);
    cartvesper_core_answer plain = plain_power_up_call(one.part, one.lock, cycle, srwd, bp1, bp0, reading,
                                                       or_null(plain_memory.bytes, size), size);
    compare_numbers("the number", lib.number, plain.number);
    compare_cores("the record", &lib.core, &plain.core);
    compare_memory();
    check_powered(lib.number, &lib.core, size);
    *core = lib.core;
    return lib.number;
}

static uint32_t try_device_power_up_of(cartvesper_device *device, which one, uint32_t cycle, uint8_t srwd, uint8_t bp1,
                                       uint8_t bp0, uint32_t reading, size_t size)
{
    begin_call(NULL, NULL,
               "device_power_up part %d lock %d cycle %" PRIu32 " srwd %d bp1 %d bp0 %d reading %" PRIu32
               ", memory %zu",
               one.part, one.lock, cycle, srwd, bp1, bp0, reading, size);
    cartvesper_device_answer lib = cartvesper_device_power_up(one.part, one.lock, cycle, srwd, bp1, bp0, reading,
                                                              or_null(lib_memory.bytes, size), size);
    cartvesper_device_answer plain = plain_device_power_up_call(one.part, one.lock, cycle, srwd, bp1, bp0, reading,
                                                                or_null(plain_memory.bytes, size), size);
    compare_numbers("the number", lib.number, plain.number);
    compare_devices("the record", &lib.device, &plain.device);
    compare_memory();
    if (!plain_device_ok(&lib.device))
        fail("the record handed back is outside the ranges");
    check_powered(lib.number, &lib.device.core, size);
    *device = lib.device;
    return lib.number;
}

/* lent what the part has */
static uint32_t try_power_up(cartvesper_core *core, which one, uint32_t cycle, uint8_t srwd, uint8_t bp1, uint8_t bp0,
                             uint32_t reading)
{
    return try_power_up_of(core, one, cycle, srwd, bp1, bp0, reading, whole(one.part).size);
}

static uint32_t try_device_power_up(cartvesper_device *device, which one, uint32_t cycle, uint8_t srwd, uint8_t bp1,
                                    uint8_t bp0, uint32_t reading)
{
    return try_device_power_up_of(device, one, cycle, srwd, bp1, bp0, reading, whole(one.part).size);
}

/* the cells that what waits is to be stored in */
static const uint8_t *waiting_cells(const cartvesper_core *core)
{
    size_t page = whole(core->part).cells;
    return core->waits.kind == 3 ? lib_memory.identification : lib_memory.bytes + core->waits.page % PAGES * page;
}

/* the cycle's end: cells changed, counted from the page that waited */
static void count_cycle_end(const cartvesper_core *before, const cartvesper_core *after, const uint8_t *old_page)
{
    uint64_t changed = 0;
    if (before->left == 0 || after->left != 0)
        return;
    counts.cycles++;
    for (size_t i = 0; i < whole(before->part).cells; i++)
        changed += old_page[i] != waiting_cells(before)[i];
    counts.cells += before->waits.kind == 2 ? changed : 0;
    counts.kept += before->waits.kind == 3 ? changed : 0;
    counts.identified += before->waits.kind == 3;
    counts.locked += before->waits.kind == 4;
}

/* how a page cycle's end moves the number, cell by cell: a marked cell that keeps its byte is neither gained nor lost;
 * one clamp of the sum */
static uint32_t blank_after(const cartvesper_core *before, const uint8_t *old_page)
{
    const int64_t size = whole(before->part).size;
    int64_t number = before->blank;
    for (size_t i = 0; i < whole(before->part).cells; i++) {
        if (!cartvesper_marked(&before->waits.latch, i))
            continue;
        int was = old_page[i] == 0xFF, is = before->waits.latch.bytes[i] == 0xFF;
        number += is - was;
        counts.gained += (uint64_t)(is && !was);
        counts.lost += (uint64_t)(was && !is);
        counts.rewritten += (uint64_t)(was && is);
    }
    counts.at_zero += number < 0;
    counts.at_size += number > size;
    return (uint32_t)(number < 0 ? 0 : number > size ? size : number);
}

/* a reading: only the end of a page's cycle moves the number */
static void check_blank(const cartvesper_core *before, const cartvesper_core *after, const uint8_t *old_page)
{
    int page_ends = before->left > 0 && after->left == 0 && before->waits.kind == 2;
    compare_numbers("blank cells (second: wanted)", after->blank,
                    page_ends ? blank_after(before, old_page) : before->blank);
}

/* a record that has had the right number for this memory: it has it still */
static void check_right(const cartvesper_core *core)
{
    begin_call(core, NULL, "a record with the right number of blank cells for its memory");
    compare_numbers("blank cells (second: by the scan)", core->blank,
                    plain_blank(lib_memory.bytes, whole(core->part).size));
    counts.scanned++;
}

/* a WRDI, an 82h or an 83h at its deselect, of the frame model or of the pins: `taken` whole bytes, up to the part's
 * most */
typedef struct {
    uint8_t code, ran, taken, part_of_byte, data, held, shown;
    uint32_t address;
} ended;

static int cause_of(const cartvesper_core *core, ended one)
{
    uint32_t data = plain_head(plain_row_of(core->part)) + 1; /* whole bytes with the first data byte */
    int lock = (one.address & LOCK_ADDRESS) != 0;
    if (one.ran)
        return IN_CYCLE;
    if (!core->wel)
        return WITHOUT_WEL;
    if (one.part_of_byte || one.taken < data || (lock && one.taken > data))
        return BY_COUNT;
    if (core->lock)
        return LOCKED;
    if (core->bp1 && core->bp0)
        return BP_11;
    if (one.held)
        return IN_HOLD;
    return lock && !(one.data & LOCK_DATA) ? BY_DATA : EXECUTED;
}

static void count_wrid(const cartvesper_core *before, const cartvesper_core *after, ended one)
{
    int cause = cause_of(before, one), lock = (one.address & LOCK_ADDRESS) != 0;
    if (cause == EXECUTED && (before->left != 0 || after->left == 0 || after->waits.kind != (lock ? 4 : 3)))
        fail("an 82h that meets every test is not executed");
    if (cause != EXECUTED && !plain_core_same(before, after))
        fail("an 82h that fails a test moved the record");
    (lock ? counts.by_lock : counts.by_page)[cause]++;
}

/* in a cycle: of the M95M01 with 8 bits WEL becomes 0 and nothing else moves; any other does nothing */
static void count_wrdi(const cartvesper_core *before, const cartvesper_core *after, ended one)
{
    cartvesper_core wanted = *before;
    int executed = before->part == M95M01 && one.taken == 1 && !one.part_of_byte && !one.held;
    if (!one.ran)
        return;
    wanted.wel = executed ? 0 : before->wel;
    if (!plain_core_same(&wanted, after))
        fail("a WRDI in a cycle");
    counts.disabled += executed && before->wel;
    counts.stayed += !executed;
}

static void count_ended(const cartvesper_core *before, const cartvesper_core *after, ended one)
{
    int identified = before->part != M95512;
    counts.of_part[before->part]++;
    if (one.taken > 0 && one.code == WRDI)
        count_wrdi(before, after, one);
    if (one.taken == 0 || (one.code != WRID && one.code != RDID))
        return;
    if (!identified)
        counts.unknown++;
    else if (one.code == WRID)
        count_wrid(before, after, one);
    else if (!one.shown)
        counts.unshown++;
    else if (one.address & LOCK_ADDRESS)
        counts.lock_shown++;
    else
        counts.page_shown++;
    if ((!identified || one.code == RDID) && !plain_core_same(before, after))
        fail("an 83h, or an 82h of the M95512, moved the record");
}

/* the address that frame_bytes gives, as taken */
static uint32_t sent_address(const plain_row *row)
{
    uint32_t address = 0;
    for (uint32_t i = 1; i <= row->address_bytes; i++)
        address = address << 8 | frame_bytes[i];
    return address % row->size;
}

static void count_frame_end(const cartvesper_core *before, const cartvesper_core *after, size_t bits, int shown)
{
    const plain_row *row = plain_row_of(before->part);
    size_t taken = bits / 8, head = plain_head(row);
    ended one = {taken ? frame_bytes[0] : 0, before->left > 0, (uint8_t)(taken > row->most ? row->most : taken),
                 bits % 8 != 0, 0, 0, (uint8_t)shown, 0};
    if (taken >= head)
        one.address = sent_address(row);
    if (taken > head)
        one.data = frame_bytes[head];
    count_ended(before, after, one);
}

static void count_deselect(const cartvesper_device *before, const cartvesper_device *after)
{
    const cartvesper_frame_part *frame = &before->frame;
    int addressed = frame->taken >= plain_head(plain_row_of(before->core.part));
    ended one = {frame->code,  frame->ran,   frame->taken, frame->bits != 0,
                 frame->value, before->held, frame->shown, addressed ? frame->address : 0};
    if (!before->pins.s && after->pins.s)
        count_ended(&before->core, &after->core, one);
}

static void keep_page(uint8_t *page, const cartvesper_core *core)
{
    memcpy(page, waiting_cells(core), whole(core->part).cells);
}

static void count_touched(cartvesper_value touched)
{
    counts.asked++;
    counts.some += touched.value != 0;
}

static void try_core_touched(const cartvesper_core *core)
{
    cartvesper_value touched = cartvesper_core_touched(*core);
    begin_call(core, NULL, "core_touched");
    compare_values(touched, plain_core_touched_call(*core));
    count_touched(touched);
}

static void try_device_touched(const cartvesper_device *device)
{
    cartvesper_value touched = cartvesper_device_touched(*device);
    begin_call(NULL, device, "device_touched");
    compare_values(touched, plain_device_touched_call(*device));
    count_touched(touched);
}

static uint32_t try_reading(cartvesper_core *core, uint32_t reading, lengths lent)
{
    uint8_t page[CELLS];
    cartvesper_core given = *core;
    begin_call(&given, NULL, "clock_reading %" PRIu32 ", memory %zu, page %zu", reading, lent.size, lent.cells);
    keep_page(page, &given);
    cartvesper_core_answer lib = cartvesper_clock_reading(given, reading, LENT(lib_memory, lent));
    cartvesper_core_answer plain = plain_clock_reading_call(given, reading, LENT(plain_memory, lent));
    compare_numbers("the number", lib.number, plain.number);
    compare_cores("the record", &lib.core, &plain.core);
    compare_memory();
    check_core(lib.number, &given, &lib.core);
    counts.readings++;
    counts.unlatched += lib.number == 0 && given.left > 0 && !given.wel;
    if (lib.number == 0) {
        count_cycle_end(&given, &lib.core, page);
        check_blank(&given, &lib.core, page);
    }
    *core = lib.core;
    try_core_touched(core);
    return lib.number;
}

/* what waits with the chosen part of it alone: fewer marks, or a status value that keeps the old bits */
static cartvesper_waiting chosen_part(const cartvesper_core *core, const cartvesper_choice *choice)
{
    cartvesper_waiting part = core->waits;
    uint8_t bits = choice->words[0] & 0x8C;
    if (part.kind == 1)
        part.status = (uint8_t)((part.status & bits) | (plain_status(core) & 0x8C & ~bits));
    for (int k = 0; k < WORDS; k++)
        part.latch.marks[k] &= choice->words[k];
    for (size_t i = 0; i < CELLS; i++)
        part.latch.bytes[i] = cartvesper_marked(&part.latch, i) ? part.latch.bytes[i] : 0;
    return part;
}

static void count_cut(const cartvesper_core *before, const cartvesper_choice *choice)
{
    counts.cuts++;
    counts.cut_in[before->waits.kind]++;
    for (size_t i = 0; i < CELLS; i++) {
        int marked = cartvesper_marked(&before->waits.latch, i), chosen = choice->words[i / WORD] >> i % WORD & 1;
        counts.taken += marked && chosen;
        counts.untaken += marked && !chosen;
    }
}

/* a cut: of what waited the chosen part is stored, and all else of the page is as it was; no cycle runs and WEL is 0 */
static void check_cut(const cartvesper_core *before, const cartvesper_core *after, const cartvesper_choice *choice,
                      const uint8_t *old_page)
{
    const size_t cells = whole(before->part).cells;
    uint8_t page[CELLS];
    cartvesper_core narrow = *before, wanted = *before;
    narrow.waits = chosen_part(before, choice);
    for (size_t i = 0; i < cells; i++)
        page[i] = cartvesper_marked(&narrow.waits.latch, i) ? narrow.waits.latch.bytes[i] : old_page[i];
    compare_bytes("the page after a cut (second: wanted)", waiting_cells(before), page, cells, 0);
    wanted.wel = 0;
    wanted.left = 0;
    memset(&wanted.waits, 0, sizeof wanted.waits);
    if (before->waits.kind == 1) {
        wanted.srwd = narrow.waits.status >> 7 & 1;
        wanted.bp1 = narrow.waits.status >> 3 & 1;
        wanted.bp0 = narrow.waits.status >> 2 & 1;
    }
    if (before->waits.kind == 2)
        wanted.blank = blank_after(&narrow, old_page);
    if (before->waits.kind == 4 && (choice->words[0] & 1))
        wanted.lock = 1;
    compare_cores("the record after a cut (second: wanted)", after, &wanted);
    count_cut(before, choice);
}

static void begin_cut(const cartvesper_core *core, const cartvesper_device *device, cartvesper_choice choice,
                      lengths lent)
{
    begin_call(core, device, "%s, memory %zu, page %zu", device ? "device_cut" : "cut", lent.size, lent.cells);
    hand.has_choice = 1;
    hand.choice = choice;
}

static uint32_t try_cut(cartvesper_core *core, cartvesper_choice choice, lengths lent)
{
    uint8_t page[CELLS];
    cartvesper_core given = *core;
    begin_cut(&given, NULL, choice, lent);
    keep_page(page, &given);
    cartvesper_core_answer lib = cartvesper_cut(given, choice, LENT(lib_memory, lent));
    cartvesper_core_answer plain = plain_cut_call(given, choice, LENT(plain_memory, lent));
    compare_numbers("the number", lib.number, plain.number);
    compare_cores("the record", &lib.core, &plain.core);
    compare_memory();
    check_core(lib.number, &given, &lib.core);
    if (lib.number == 0)
        check_cut(&given, &lib.core, &choice, page);
    *core = lib.core;
    try_core_touched(core);
    return lib.number;
}

/* as at power-up: S, W and HOLD high, C and D low, no frame in hand */
static void check_rest(const cartvesper_device *device)
{
    cartvesper_device rest;
    memset(&rest, 0, sizeof rest);
    rest.pins.s = rest.pins.w = rest.pins.hold = 1;
    rest.core = device->core;
    compare_devices("pins and frame after a cut (second: wanted)", device, &rest);
}

static uint32_t try_device_cut(cartvesper_device *device, cartvesper_choice choice, lengths lent)
{
    uint8_t page[CELLS];
    cartvesper_device given = *device;
    begin_cut(NULL, &given, choice, lent);
    keep_page(page, &given.core);
    cartvesper_device_answer lib = cartvesper_device_cut(given, choice, LENT(lib_memory, lent));
    cartvesper_device_answer plain = plain_device_cut_call(given, choice, LENT(plain_memory, lent));
    compare_numbers("the number", lib.number, plain.number);
    compare_devices("the record", &lib.device, &plain.device);
    compare_memory();
    check_device(lib.number, &given, &lib.device);
    if (lib.number == 0) {
        check_cut(&given.core, &lib.device.core, &choice, page);
        check_rest(&lib.device);
        counts.at_pins++;
        counts.dropped += given.frame.taken > 0 || given.frame.bits > 0;
    }
    *device = lib.device;
    try_device_touched(device);
    return lib.number;
}

/* the same stale bytes in both output buffers, never what was there before */
static void stale_outputs(size_t span)
{
    int stale = (int)below(256);
    memset(lib_out.before, stale, span);
    memset(plain_out.before, stale, span);
}

static size_t output_span(size_t length, size_t room)
{
    return GUARD + (length > room ? length : room) + GUARD;
}

/* a library that wrote the frame's bytes would be seen here */
static uint8_t frame_bytes_kept[LONGEST + 3];

static void compare_framed(const cartvesper_core *given, const cartvesper_frame_answer *lib,
                           const cartvesper_frame_answer *plain, size_t length, size_t span)
{
    compare_numbers("the number", lib->number, plain->number);
    compare_numbers("the undriven count", lib->undriven, plain->undriven);
    compare_cores("the record", &lib->core, &plain->core);
    compare_bytes("the output (or beside it)", lib_out.before, plain_out.before, span, GUARD);
    compare_bytes("the frame's own bytes", frame_bytes, frame_bytes_kept, length, 0);
    compare_memory();
    check_core(lib->number, given, &lib->core);
}

static uint32_t try_frame(cartvesper_core *core, lengths lent, uint8_t w, size_t length, size_t bits, size_t room)
{
    cartvesper_core given = *core;
    size_t span = output_span(length, room);
    begin_call(&given, NULL, "frame of %zu bytes, %zu bits, w %d, room %zu, memory %zu, page %zu", length, bits, w,
               room, lent.size, lent.cells);
    hand.bytes = frame_bytes;
    hand.length = length;
    stale_outputs(span);
    memcpy(frame_bytes_kept, frame_bytes, length);
    cartvesper_frame_answer lib = cartvesper_frame(given, LENT(lib_memory, lent), w, or_null(frame_bytes, length),
                                                   length, bits, or_null(lib_out.bytes, room), room);
    cartvesper_frame_answer plain = plain_frame_call(given, LENT(plain_memory, lent), w, or_null(frame_bytes, length),
                                                     length, bits, or_null(plain_out.bytes, room), room);
    compare_framed(&given, &lib, &plain, length, span);
    counts.frames++;
    compare_numbers("blank cells after a frame (second: wanted)", lib.core.blank, given.blank);
    counts.driven += lib.number == 0 ? bits - lib.undriven : 0;
    counts.executed += given.left == 0 && lib.core.left != 0;
    if (lib.number == 0)
        count_frame_end(&given, &lib.core, bits, lib.undriven < bits);
    *core = lib.core;
    try_core_touched(core);
    return lib.number;
}

/* both lists as four arguments */
#define SCHEDULE                                                                                                       \
    or_null(schedule.positions, schedule.places), schedule.places, or_null(schedule.readings, schedule.times),         \
        schedule.times

/* which reading of the schedule ends the cycle that the record is in, or how many there are */
static size_t ending(const cartvesper_core *core)
{
    uint32_t left = core->left, last = core->last;
    for (size_t i = 0; i < schedule.places; i++) {
        uint32_t elapsed = schedule.readings[i] - last;
        if (elapsed >= left)
            return i;
        left -= elapsed;
        last = schedule.readings[i];
    }
    return schedule.places;
}

/* a timed frame that was done: where its cycle ended, and whether a poll saw it */
static void count_timed(const cartvesper_core *before, size_t length, size_t bits)
{
    size_t end = before->left > 0 ? ending(before) : schedule.places;
    counts.inside += schedule.places;
    for (size_t i = 1; i < schedule.places; i++)
        counts.wraps += schedule.readings[i] < schedule.readings[i - 1];
    if (end == schedule.places)
        return;
    counts.ended_at[schedule.positions[end] == 0 ? 0 : schedule.positions[end] < bits / 8 ? 1 : 2]++;
    if (length > 2 && frame_bytes[0] == RDSR)
        counts.seen += (lib_out.bytes[1] & 1) && !(lib_out.bytes[length - 1] & 1);
}

static uint32_t try_timed(cartvesper_core *core, lengths lent, uint8_t w, uint8_t mode, size_t length, size_t bits,
                          size_t room)
{
    uint8_t page[CELLS];
    cartvesper_core given = *core;
    size_t span = output_span(length, room);
    begin_call(&given, NULL, "timed frame of %zu bytes, %zu bits, w %d, mode %d, room %zu, memory %zu, page %zu",
               length, bits, w, mode, room, lent.size, lent.cells);
    hand.bytes = frame_bytes;
    hand.length = length;
    hand.timed = 1;
    keep_page(page, &given);
    stale_outputs(span);
    memcpy(frame_bytes_kept, frame_bytes, length);
    memcpy(&schedule_kept, &schedule, sizeof schedule); /* padding too */
    cartvesper_frame_answer lib =
        cartvesper_timed_frame(given, LENT(lib_memory, lent), w, mode, or_null(frame_bytes, length), length, bits,
                               SCHEDULE, or_null(lib_out.bytes, room), room);
    cartvesper_frame_answer plain =
        plain_timed_frame_call(given, LENT(plain_memory, lent), w, mode, or_null(frame_bytes, length), length, bits,
                               SCHEDULE, or_null(plain_out.bytes, room), room);
    compare_framed(&given, &lib, &plain, length, span);
    compare_bytes("the lists", (uint8_t *)&schedule, (uint8_t *)&schedule_kept, sizeof schedule, 0);
    counts.timed++;
    if (lib.number == 0) {
        count_cycle_end(&given, &lib.core, page);
        check_blank(&given, &lib.core, page);
        count_timed(&given, length, bits);
    }
    *core = lib.core;
    return lib.number;
}

static void try_core_queries(const cartvesper_core *core, uint32_t address)
{
    begin_call(core, NULL, "core_in_ranges");
    compare_values(cartvesper_core_in_ranges(*core), plain_core_in_ranges_call(*core));
    begin_call(core, NULL, "core_status");
    compare_values(cartvesper_core_status(*core), plain_core_status_call(*core));
    begin_call(core, NULL, "core_lowest_protected");
    compare_values(cartvesper_core_lowest_protected(*core), plain_core_lowest_protected_call(*core));
    begin_call(core, NULL, "core_protected %" PRIX32, address);
    compare_values(cartvesper_core_protected(*core, address), plain_core_protected_call(*core, address));
    try_core_touched(core);
}

static cartvesper_value try_device_queries(const cartvesper_device *device)
{
    cartvesper_value q = cartvesper_device_q(*device);
    begin_call(NULL, device, "device_q");
    compare_values(q, plain_device_q_call(*device));
    if (percent(10)) {
        begin_call(NULL, device, "device_status");
        compare_values(cartvesper_device_status(*device), plain_device_status_call(*device));
        begin_call(NULL, device, "device_in_ranges");
        compare_values(cartvesper_device_in_ranges(*device), plain_device_in_ranges_call(*device));
    }
    try_device_touched(device);
    return q;
}

static cartvesper_device_answer lib_event(const cartvesper_device *device, int kind, uint32_t value, lengths lent)
{
    switch (kind) {
    case SET_S:
        return cartvesper_device_set_s(*device, (uint8_t)value);
    case SET_C:
        return cartvesper_device_set_c(*device, (uint8_t)value, LENT(lib_memory, lent));
    case SET_D:
        return cartvesper_device_set_d(*device, (uint8_t)value);
    case SET_W:
        return cartvesper_device_set_w(*device, (uint8_t)value);
    case SET_HOLD:
        return cartvesper_device_set_hold(*device, (uint8_t)value);
    default:
        return cartvesper_device_read_clock(*device, value, LENT(lib_memory, lent));
    }
}

static cartvesper_device_answer plain_event_call(const cartvesper_device *device, int kind, uint32_t value,
                                                 lengths lent)
{
    switch (kind) {
    case SET_S:
        return plain_device_set_s_call(*device, (uint8_t)value);
    case SET_C:
        return plain_device_set_c_call(*device, (uint8_t)value, LENT(plain_memory, lent));
    case SET_D:
        return plain_device_set_d_call(*device, (uint8_t)value);
    case SET_W:
        return plain_device_set_w_call(*device, (uint8_t)value);
    case SET_HOLD:
        return plain_device_set_hold_call(*device, (uint8_t)value);
    default:
        return plain_device_read_clock_call(*device, value, LENT(plain_memory, lent));
    }
}

static uint32_t try_event(cartvesper_device *device, int kind, uint32_t value, lengths lent)
{
    static const char *const names[] = {"set_s", "set_c", "set_d", "set_w", "set_hold", "read_clock"};
    uint8_t page[CELLS];
    cartvesper_device given = *device;
    begin_call(NULL, &given, "device_%s %" PRIu32 ", memory %zu, page %zu", names[kind], value, lent.size, lent.cells);
    if (kind == CLOCK)
        keep_page(page, &given.core);
    cartvesper_device_answer lib = lib_event(&given, kind, value, lent);
    cartvesper_device_answer plain = plain_event_call(&given, kind, value, lent);
    compare_numbers("the number", lib.number, plain.number);
    compare_devices("the record", &lib.device, &plain.device);
    check_device(lib.number, &given, &lib.device);
    if (kind == CLOCK || percent(5)) /* C is lent the cells to read only: seldom looked at, and at each list's end */
        compare_memory();
    counts.events++;
    counts.readings += kind == CLOCK;
    counts.executed += given.core.left == 0 && lib.device.core.left != 0;
    if (kind == CLOCK && lib.number == 0) {
        count_cycle_end(&given.core, &lib.device.core, page);
        check_blank(&given.core, &lib.device.core, page);
    }
    if (kind != CLOCK)
        compare_numbers("blank cells after a pin event (second: wanted)", lib.device.core.blank, given.core.blank);
    if (kind == SET_S && lib.number == 0)
        count_deselect(&given, &lib.device);
    *device = lib.device;
    if (kind == SET_S || kind == CLOCK) /* what begins or ends a cycle */
        try_device_touched(device);
    return lib.number;
}

/* an event with what the part is to be lent, and a reading */
static void whole_event(cartvesper_device *device, int kind, uint32_t value)
{
    try_event(device, kind, value, whole(device->core.part));
}

static void whole_reading(cartvesper_core *core, uint32_t reading)
{
    try_reading(core, reading, whole(core->part));
}

static uint32_t try_play(cartvesper_device *device, const uint64_t *events, size_t count, size_t room, lengths lent)
{
    cartvesper_device given = *device;
    size_t span = output_span(count, room);
    begin_call(NULL, &given, "device_play of %zu events, room %zu, memory %zu, page %zu", count, room, lent.size,
               lent.cells);
    hand.events = events;
    hand.count = count;
    stale_outputs(span);
    const uint64_t *list = count == 0 && percent(50) ? NULL : events;
    cartvesper_device_answer lib =
        cartvesper_device_play(given, LENT(lib_memory, lent), list, count, or_null(lib_out.bytes, room), room);
    cartvesper_device_answer plain =
        plain_device_play_call(given, LENT(plain_memory, lent), list, count, or_null(plain_out.bytes, room), room);
    compare_numbers("the number", lib.number, plain.number);
    compare_devices("the record", &lib.device, &plain.device);
    compare_bytes("the output (or beside it)", lib_out.before, plain_out.before, span, GUARD);
    compare_memory();
    check_device(lib.number, &given, &lib.device);
    counts.lists++;
    counts.listed += lib.number == 0 ? count : 0;
    *device = lib.device;
    try_device_touched(device);
    return lib.number;
}

/* the driver: 9 and 13 leave the state that they ended in, a refusal the one given */
static uint8_t run_bytes[LARGEST + 2], run_bytes_kept[LARGEST + 2];

static uint32_t try_write(cartvesper_core *core, lengths lent, uint64_t address, size_t length, uint32_t interval,
                          uint32_t limit)
{
    uint8_t page[CELLS];
    cartvesper_core given = *core;
    begin_call(&given, NULL,
               "write of %zu bytes at %" PRIu64 ", interval %" PRIu32 ", limit %" PRIu32 ", memory %zu, page %zu",
               length, address, interval, limit, lent.size, lent.cells);
    keep_page(page, &given);
    hand.bytes = run_bytes;
    hand.length = length;
    memcpy(run_bytes_kept, run_bytes, length);
    cartvesper_driver_answer lib =
        cartvesper_write(given, LENT(lib_memory, lent), address, or_null(run_bytes, length), length, interval, limit);
    cartvesper_driver_answer plain =
        plain_write_call(given, LENT(plain_memory, lent), address, or_null(run_bytes, length), length, interval, limit);
    compare_numbers("the number", lib.number, plain.number);
    compare_numbers("pages done", lib.pages, plain.pages);
    compare_numbers("frames sent", lib.frames, plain.frames);
    compare_cores("the record", &lib.core, &plain.core);
    compare_bytes("the run's own bytes", run_bytes, run_bytes_kept, length, 0);
    compare_memory();
    check_core(lib.number < 9 ? lib.number : 0, &given, &lib.core);
    if (lib.number >= 9)
        count_refusal(lib.number);
    counts.runs++;
    counts.moved += given.waits.kind == 1 && given.left > 0 && lib.core.left == 0;
    if (given.waits.kind == 3 || given.waits.kind == 4) /* a page of the memory may be one of the run's own too */
        count_cycle_end(&given, &lib.core, page);
    counts.pages += lib.pages;
    counts.sent += lib.frames;
    *core = lib.core;
    try_core_touched(core);
    return lib.number;
}

static void try_part(uint8_t chip, uint64_t address, uint64_t length, uint64_t part)
{
    begin_call(NULL, NULL, "chip %d, part %" PRIu64 " of %" PRIu64 " bytes at %" PRIu64, chip, part, length, address);
    compare_numbers("the part's refusal", cartvesper_part_refusal(chip, address, length, part),
                    plain_part_refusal(chip, address, length, part));
    compare_numbers("the count of parts", cartvesper_part_count(chip, address, length, part),
                    plain_part_count(chip, address, length, part));
    compare_numbers("the part's address", cartvesper_part_address(chip, address, length, part),
                    plain_part_address(chip, address, length, part));
    compare_numbers("the part's length", cartvesper_part_length(chip, address, length, part),
                    plain_part_length(chip, address, length, part));
    counts.calls += 3;
    counts.parts++;
}

static cartvesper_latch_answer try_lay(const cartvesper_latch *earlier, const cartvesper_latch *later)
{
    begin_call(NULL, NULL, "lay");
    hand.has_latches = 1;
    hand.earlier = *earlier;
    hand.later = *later;
    cartvesper_latch_answer lib = cartvesper_lay(*earlier, *later);
    cartvesper_latch_answer plain = plain_lay_call(*earlier, *later);
    compare_numbers("the number", lib.number, plain.number);
    compare_latches("the page write", &lib.latch, &plain.latch);
    count_refusal(lib.number);
    if (lib.number != 0 && !plain_latch_same(earlier, &lib.latch))
        fail("a refusal changed the earlier page write");
    if (lib.number == 0 && !plain_latch_ok(&lib.latch))
        printf("  library:\n"), print_latch(&lib.latch), fail("the page write handed back is outside the ranges");
    counts.lays++;
    counts.unlaid += lib.number != 0;
    return lib;
}

/* ---- what is random: sizes, readings, frames */

static void new_memory(void)
{
    if (percent(20))
        memset(&lib_memory, 0xFF, sizeof lib_memory);
    else
        random_bytes(&lib_memory, sizeof lib_memory);
    if (percent(50))
        sprinkle_blank(&lib_memory, sizeof lib_memory);
    plain_memory = lib_memory;
}

/* a number of blank cells inside the range, seldom the right one: at both ends, near them, or any */
static uint32_t random_blank(uint8_t part)
{
    const uint32_t size = plain_row_of(part)->size;
    switch (below(8)) {
    case 0:
        return 0;
    case 1:
        return size;
    case 2:
    case 3:
        return below(300);
    case 4:
    case 5:
        return size - below(300);
    default:
        return below(size + 1);
    }
}

static uint32_t random_cycle(uint8_t part)
{
    uint32_t longest = plain_row_of(part)->longest_cycle;
    switch (below(5)) {
    case 0:
        return 1;
    case 1:
        return longest;
    case 2:
        return 1 + below(4);
    default:
        return 1 + below(longest);
    }
}

static uint32_t random_clock(void)
{
    switch (below(4)) {
    case 0:
        return below(3);
    case 1:
        return 0u - 1 - below(6000); /* about to wrap */
    default:
        return random32();
    }
}

/* the next reading: ends the cycle, just misses it, goes beyond it, stays, steps back by one (nearly a full turn),
 * or anything */
static uint32_t random_reading(const cartvesper_core *core)
{
    switch (below(9)) {
    case 0:
    case 1:
        return core->last + core->left;
    case 2:
        return core->last + core->left - 1;
    case 3:
        return core->last + core->left + 1 + below(100);
    case 4:
        return core->last;
    case 5:
        return core->last - 1 - below(3);
    case 6:
        return random_clock();
    default:
        return core->last + below(core->cycle + 2);
    }
}

/* one of the two lengths, or both, are none that is taken: beside the part's own, or those of another part */
static lengths random_lengths(uint8_t part, uint32_t damage)
{
    const lengths own = whole(part), other = whole(part == M95M01 ? M95512 : M95M01);
    const size_t sizes[] = {own.size - 1, own.size + 1, 0, 1, other.size};
    const size_t cells[] = {own.cells - 1, own.cells + 1, 0, 1, other.cells};
    lengths lent = own;
    uint32_t bad = percent(damage) ? 1 + below(3) : 0;
    if (bad == 3 && percent(30))
        return other;
    if (bad & 1)
        lent.size = sizes[below(5)];
    if (bad & 2)
        lent.cells = cells[below(5)];
    return lent;
}

/* of a cut: none, all, or each word by itself */
static cartvesper_choice random_choice(void)
{
    cartvesper_choice choice;
    uint32_t kind = below(5);
    for (int k = 0; k < WORDS; k++)
        choice.words[k] = kind == 0 ? 0 : kind == 1 ? UINT64_MAX : kind == 2 ? random_word() : next64();
    return choice;
}

/* a part and a lock, now and then outside their ranges */
static which random_which(uint32_t damage)
{
    static const uint8_t none[] = {3, 4, 255};
    which one = {(uint8_t)below(PLAIN_PARTS), (uint8_t)below(2)};
    if (percent(damage))
        one.part = percent(70) ? none[below(3)] : (uint8_t)random32();
    if (percent(damage))
        one.lock = percent(70) ? 2 : (uint8_t)random32();
    return one;
}

/* a part that has an identification page */
static uint8_t identified_part(void)
{
    return percent(50) ? M95512D : M95M01;
}

static size_t off_by_one(size_t n, uint32_t damage)
{
    if (!percent(damage))
        return n;
    return n == 0 || percent(50) ? n + 1 : n - 1;
}

static uint8_t random_code(void)
{
    static const uint8_t codes[] = {WREN, WREN, WREN, WREN, WREN, WREN, WRITE, WRITE, WRITE, WRITE, WRSR, WRSR,
                                    WRDI, WRDI, RDSR, RDSR, READ, READ, WRID, WRID,  WRID,  WRID,  RDID, RDID};
    static const uint8_t others[] = {0x80, 0x81, 0x84, 0x86, 0x92, 0xC2, 0xC3, 0x00, 0x07, 0xFF};
    if (percent(5))
        return percent(50) ? others[below(sizeof others)] : (uint8_t)random32();
    return codes[below(sizeof codes)];
}

static size_t random_length(uint8_t code, const plain_row *row)
{
    size_t head = plain_head(row);
    if (percent(8))
        return below(300);
    switch (code) {
    case WREN:
    case WRDI:
        return percent(90) ? 1 : 2;
    case WRSR:
        return percent(90) ? 2 : 1 + below(3);
    case RDSR:
        return 1 + below(6);
    case READ:
    case RDID:
        return percent(70) ? head + below(12) : head + below(2 * row->page + 24);
    case WRID:
        if (percent(40))
            return head + 1;
        /* fall through */
    case WRITE:
        return percent(60) ? head + below(12) : head + row->page - 8 + below(16) + (percent(10) ? row->page : 0);
    default:
        return 1 + below(6);
    }
}

/* addresses near the edges of pages, of the protected areas, of the memory */
static uint32_t random_address(const plain_row *row)
{
    const uint32_t edges[] = {0,         row->size - 1, row->size / 2,     row->size / 4 * 3, row->size / 4,
                              row->page, 0xFFFF,        row->size / 2 - 1, 0x10000};
    if (percent(50))
        return below(row->size);
    return (edges[below(9)] + below(9) - 4) % row->size;
}

/* an address of 82h or 83h: bit 10 either way, cells near the ends of the page, upper bits that are not looked at */
static uint32_t random_page_address(const plain_row *row)
{
    uint32_t ends[] = {below(4), row->page - 1 - below(4)};
    if (percent(30))
        return random_address(row);
    return below(row->size / row->page) * row->page + (percent(50) ? below(row->page) : ends[below(2)]);
}

static int about_page(uint8_t code)
{
    return code == WRID || code == RDID;
}

static uint32_t address_for(uint8_t code, const plain_row *row)
{
    return about_page(code) ? random_page_address(row) : random_address(row);
}

/* the address bytes of frame_bytes; of the M95M01 the first one's upper seven bits are dropped when taken: any */
static void put_address(const plain_row *row, uint32_t address)
{
    if (row->size == LARGEST && percent(30))
        address |= below(128) << 17;
    for (uint32_t i = row->address_bytes; i > 0; i--, address >>= 8)
        frame_bytes[i] = (uint8_t)address;
}

/* frame_bytes, its length and bit count; of the longest some are one byte above the part's limit: refused */
static size_t random_frame(uint8_t part, size_t *bits, int longest)
{
    const plain_row *row = plain_row_of(part);
    uint8_t code = random_code();
    size_t length = random_length(code, row);
    if (longest)
        length = plain_longest_frame(row) - 2 + below(4);
    random_bytes(frame_bytes, length);
    if (code != WRSR && percent(50))
        sprinkle_blank(frame_bytes, length);
    if (length >= plain_head(row))
        put_address(row, address_for(code, row));
    frame_bytes[0] = code;
    if (code == WRSR && percent(60))
        frame_bytes[1] &= 0x73 | (percent(50) ? 0x08 : 0) | (percent(50) ? 0x04 : 0); /* keep the device usable */
    *bits = length == 0 ? 0 : percent(85) ? 8 * length : 8 * length - below(8);
    return length;
}

/* ---- sessions of frames */

static void frame_step(cartvesper_core *core)
{
    size_t bits, length = random_frame(core->part, &bits, below(400) == 0);
    uint8_t w = percent(2) ? (uint8_t)random32() : percent(70);
    size_t count = percent(2) ? bits + 8 - below(17) : bits;
    try_frame(core, random_lengths(core->part, 2), w, length, percent(1) ? random32() : count, off_by_one(length, 2));
}

/* a cut between frames: what follows starts from power-up */
static void cut_step(cartvesper_core *core)
{
    try_cut(core, random_choice(), random_lengths(core->part, 10));
}

/* ---- timed frames */

/* for a frame of so many bits: positions that rise or stay, and readings that aim at the cycle's end as it stands after
 * those before them */
static void random_schedule(const cartvesper_core *core, size_t bits)
{
    cartvesper_core aim = *core;
    size_t most = bits / 8, at = 0;
    schedule.places = schedule.times = percent(15) ? 0 : percent(10) ? below(PLACES + 1) : 1 + below(4);
    for (size_t i = 0; i < schedule.places; i++) {
        if (percent(75))
            at += below(percent(70) && most - at > 3 ? 4 : (uint32_t)(most - at) + 1);
        uint32_t reading = random_reading(&aim), elapsed = reading - aim.last;
        aim.left = elapsed >= aim.left ? 0 : aim.left - elapsed;
        aim.last = reading;
        schedule.positions[i] = at;
        schedule.readings[i] = reading;
    }
}

/* one thing that gets 4: lists of unequal length, a position beyond the frame's whole bytes, one that falls */
static void spoil_schedule(size_t bits)
{
    const size_t beyond[] = {bits / 8 + 1, bits / 8 + 2, SIZE_MAX, (size_t)1 << 32, (size_t)1 << 63};
    size_t at = schedule.places ? below((uint32_t)schedule.places) : 0;
    uint32_t kind = below(3);
    if (kind == 0 || schedule.places == 0)
        schedule.times = schedule.places == 0 || (schedule.places < PLACES && percent(50)) ? schedule.places + 1
                                                                                           : schedule.places - 1;
    else if (kind == 1 || schedule.places == 1 || bits < 8)
        schedule.positions[at] = beyond[below(5)];
    else {
        at += at == 0;
        schedule.positions[at - 1] = 1 + below((uint32_t)(bits / 8));
        schedule.positions[at] = schedule.positions[at - 1] - 1;
    }
}

/* a random frame; many are polls of some length */
static size_t random_timed_frame(uint8_t part, size_t *bits)
{
    size_t length = random_frame(part, bits, below(400) == 0);
    if (!percent(30))
        return length;
    length = 2 + below(20);
    random_bytes(frame_bytes, length);
    frame_bytes[0] = RDSR;
    *bits = 8 * length - (percent(30) ? below(8) : 0);
    return length;
}

static void timed_step(cartvesper_core *core)
{
    static const uint8_t others[] = {1, 2, 4, 255};
    const lengths lent = random_lengths(core->part, 2);
    size_t bits, length = random_timed_frame(core->part, &bits), room = off_by_one(length, 2);
    uint8_t w = percent(2) ? (uint8_t)random32() : percent(70), mode = percent(50) ? 0 : 3;
    random_schedule(core, bits);
    if (percent(3))
        mode = percent(70) ? others[below(4)] : (uint8_t)random32();
    if (percent(2))
        try_timed(core, lent, w, mode, length, percent(50) ? random32() : bits + 8 - below(17), room);
    else if (!percent(10))
        try_timed(core, lent, w, mode, length, bits, room);
    else {
        spoil_schedule(bits);
        uint32_t number = try_timed(core, lent, w, mode, length, bits, room);
        if (number == 0 || number > 4)
            fail_numbers("lists that do not fit (second: wanted, or 1, 2, 3)", number, 4);
        counts.unfit += number == 4;
    }
}

/* frames at the limits of the slice, several refusals at once */
static void try_limits(int count)
{
    static const size_t lengths[] = {0, 1, 2, 65539, 65540, 65541, 131075, 131076, 131077};
    for (int i = 0; i < count; i++) {
        cartvesper_core core;
        which one = random_which(0);
        try_power_up(&core, one, random_cycle(one.part), 0, 0, 0, random_clock());
        core.wel = percent(90) ? (uint8_t)below(2) : 2;
        size_t length = lengths[below(9)];
        size_t bits = percent(60) ? 8 * length - below(8) * (length > 0) : 8 * length + 2 - below(12);
        frame_bytes[0] = random_code();
        try_frame(&core, random_lengths(core.part, 10), (uint8_t)(percent(95) ? below(2) : 2), length, bits,
                  off_by_one(length, 30));
    }
}

/* an address to ask about, now and then one that the memory has not */
static uint32_t random_question(uint8_t part)
{
    const plain_row *row = plain_row_of(part);
    switch (below(10)) {
    case 0:
        return row->size + below(3);
    case 1:
        return random32() >> below(32);
    default:
        return random_address(row);
    }
}

static void frame_session(int steps)
{
    cartvesper_core core;
    which one;
    new_memory();
    do
        one = random_which(2);
    while (try_power_up(&core, one, percent(90) ? random_cycle(one.part) : random32() >> below(32),
                        percent(2) ? 2 : percent(20), percent(2) ? 255 : percent(20), percent(2) ? 2 : percent(30),
                        random_clock()) != 0);
    for (int i = 0; i < steps; i++) {
        if (percent(3)) /* a frame never opens a lock; whoever has the record may */
            core.lock = (uint8_t)percent(30);
        if (percent(65))
            frame_step(&core);
        else
            try_reading(&core, random_reading(&core), random_lengths(core.part, 2));
        if (percent(5))
            cut_step(&core);
        if (percent(10))
            try_core_queries(&core, random_question(core.part));
        if (percent(5))
            check_right(&core);
    }
    check_right(&core);
}

/* ---- runs of the driver, and parts */

static size_t random_run(const plain_row *row)
{
    if (below(400) == 0)
        return row->size - 1 + below(3);
    switch (below(8)) {
    case 0:
        return 0;
    case 1:
        return 1;
    case 2:
        return row->page * (1 + below(4)) + 1 - below(3);
    default:
        return below(450);
    }
}

/* just inside the memory, one past it; ends at an edge of the protected areas, one past it, across it; sums that 32
 * or 64 bits would lose */
static uint64_t random_run_address(const plain_row *row, size_t length)
{
    const uint64_t size = row->size, block = size / 2 + size / 4 * below(2);
    const uint64_t far[] = {size + 1,   0x100000000, 0xFFFFFFFF, 0x100000000 - length, 0 - (uint64_t)length,
                            UINT64_MAX, 1ULL << 63,  next64()};
    switch (below(16)) {
    case 0:
        return percent(60) ? far[below(8)] : far[below(8)] + below(300);
    case 1:
        return length <= size ? size + 1 - length : 0;
    case 2:
        return size;
    case 3:
    case 4:
        return length <= size ? size - length : 0;
    case 5:
        return 0;
    case 6:
    case 7:
        return length < size / 2 ? block - length + below(2) : 0;
    case 8:
    case 9:
        return block - below(450);
    default:
        return length < size ? random_address(row) % (size - length) : 0;
    }
}

static uint32_t random_interval(const cartvesper_core *core)
{
    uint32_t longest = plain_row_of(core->part)->longest_cycle, cycle = core->cycle % (longest + 1);
    const uint32_t outside[] = {0, longest + 1, 0xFFFFFFFF, 0x80000000};
    switch (below(20)) {
    case 0:
        return outside[below(4)];
    case 1:
        return 1;
    case 2:
        return longest;
    case 3:
        return percent(70) ? 1000 : 4000 + below(2);
    case 4:
    case 5:
        return cycle + 1 - below(3);
    case 6:
    case 7:
        return cycle / 2 + below(3);
    default:
        return cycle / 16 + 1 + below(2500);
    }
}

/* about as many polls as the cycle takes, so that a wait just ends or just doesn't */
static uint32_t random_limit(const cartvesper_core *core, uint32_t interval)
{
    const plain_row *row = plain_row_of(core->part);
    uint32_t most = plain_most_polls(row), cycle = core->cycle % most;
    uint32_t polls = interval ? (uint32_t)(((uint64_t)cycle + interval - 1) / interval) : 1;
    const uint32_t outside[] = {0, most + 1, 0xFFFFFFFF, 0x80000000};
    switch (below(20)) {
    case 0:
        return outside[below(4)];
    case 1:
        return 1;
    case 2:
        return 2;
    case 3:
        return percent(70) ? 1 + below(most) : 4001 + below(2);
    case 4:
    case 5:
        return polls;
    case 6:
        return polls + 1;
    case 7:
        return polls - 1;
    default:
        return most;
    }
}

static void random_write(cartvesper_core *core, uint32_t damage)
{
    const plain_row *row = plain_row_of(core->part);
    size_t length = random_run(row);
    uint32_t interval = random_interval(core), limit = random_limit(core, interval);
    if (length > 1000 && interval < core->cycle / 4) /* else some 2,000,000 polls */
        interval = 1000;
    random_bytes(run_bytes, length < 1000 ? length : 1000);
    if (percent(50))
        sprinkle_blank(run_bytes, length);
    try_write(core, random_lengths(core->part, damage), random_run_address(row, length), length, interval, limit);
}

static uint64_t random_number(void)
{
    static const uint64_t at[] = {0,          1,           100,        127,    128,    129,    255,    256,
                                  257,        300,         511,        512,    1023,   1024,   0x7FFF, 0x8000,
                                  65407,      65408,       65535,      65536,  65537,  130815, 130816, 131071,
                                  131072,     131073,      1u << 31,   0xFFFFFFFF,
                                  0x100000000, 1ULL << 63, UINT64_MAX};
    switch (below(4)) {
    case 0:
        return at[below(sizeof at / sizeof *at)];
    case 1:
        return below(LARGEST + 1);
    case 2:
        return below(600);
    default:
        return next64() >> below(64);
    }
}

/* of every chip, and of numbers that are none */
static void try_parts(int count)
{
    static const uint8_t chips[] = {M95512, M95512D, M95M01, M95M01, 3, 255};
    for (int i = 0; i < count; i++) {
        uint8_t chip = percent(95) ? chips[below(sizeof chips)] : (uint8_t)random32();
        const plain_row *row = plain_row_of(chip);
        uint64_t address = random_number(), length = random_number();
        if (percent(60)) { /* a run that lies in the memory, or ends one past it */
            address = below(row->size + 1);
            length = below((uint32_t)(row->size - address) + 1) + percent(5);
        }
        if (percent(10))
            length = 0 - address + below(1000); /* the sum wraps */
        uint32_t parts = (uint32_t)(length % row->size) / row->page + 3;
        try_part(chip, address, length, percent(50) ? below(parts) : random_number());
    }
}

/* ---- power-up at the edges of the cycle length, with parts that are none, a lock and flags that are not 0 or 1, and
 * with a memory of another length: none, one byte short, one too long, another part's */

static uint8_t random_flag(void)
{
    return (uint8_t)(percent(85) ? below(2) : percent(50) ? 2 : random32());
}

static void try_power_ups(int count)
{
    static const uint32_t cycles[] = {0, 1, 2, 3999, 4000, 4001, 4999, 5000, 5001, 0xFFFFFFFF};
    cartvesper_core core;
    cartvesper_device device;
    for (int i = 0; i < count; i++) {
        uint32_t cycle = percent(70) ? cycles[below(10)] : random32() >> below(32);
        uint8_t srwd = random_flag(), bp1 = random_flag(), bp0 = random_flag();
        uint32_t reading = random_clock();
        which one = random_which(15);
        size_t size = random_lengths(one.part, 30).size;
        try_power_up_of(&core, one, cycle, srwd, bp1, bp0, reading, size);
        try_device_power_up_of(&device, one, cycle, srwd, bp1, bp0, reading, size);
        compare_cores("the two power-ups: device (first), core (second)", &device.core, &core);
    }
}

/* ---- lists of events: generated on a plain device, so that readings can aim at the cycle's end */

static uint64_t script[EVENTS];
static size_t script_count;
static cartvesper_device script_device;

static void emit(int kind, uint32_t value)
{
    if (script_count == EVENTS)
        return;
    uint64_t event = cartvesper_event(kind, value);
    plain_event(&script_device, script_memory.bytes, script_memory.identification, event);
    script[script_count++] = event;
}

static void toggle(int kind)
{
    const cartvesper_pins *pins = &script_device.pins;
    const uint8_t levels[] = {pins->s, pins->c, pins->d, pins->w, pins->hold};
    emit(kind, !levels[kind]);
}

/* anything in between: HOLD and S with C high too, readings inside frames, redundant settings */
static void disturb(void)
{
    switch (below(12)) {
    case 0:
    case 1:
    case 2:
    case 3:
        toggle(SET_HOLD);
        break;
    case 4:
    case 5:
        toggle(SET_D);
        break;
    case 6:
        toggle(SET_W);
        break;
    case 7:
    case 8:
        emit(CLOCK, random_reading(&script_device.core));
        break;
    case 9:
        emit((int)below(5), percent(50));
        break;
    case 10:
        toggle(SET_C);
        break;
    default:
        if (percent(15))
            toggle(SET_S);
        break;
    }
}

static void maybe_disturb(uint32_t rough)
{
    if (rough && below(1000) < rough)
        disturb();
}

/* one bit in mode 0 (C low before it) or 3 (C high before it) */
static void draw_bit(int bit, int mode, uint32_t rough)
{
    if (mode)
        emit(SET_C, 0);
    maybe_disturb(rough);
    emit(SET_D, (uint32_t)bit);
    emit(SET_C, 1);
    maybe_disturb(rough);
    if (!mode)
        emit(SET_C, 0);
}

static void draw_frame(size_t bits, int mode, uint32_t rough)
{
    emit(SET_S, 1);
    if (percent(80))
        emit(SET_HOLD, 1);
    if (percent(80))
        emit(SET_W, 1);
    emit(SET_C, (uint32_t)mode);
    emit(SET_S, 0);
    for (size_t i = 0; i < bits; i++)
        draw_bit(frame_bytes[i / 8] >> (7 - i % 8) & 1, mode, rough);
    maybe_disturb(rough);
    emit(SET_S, 1);
}

static void draw_noise(int count)
{
    for (int i = 0; i < count; i++) {
        if (percent(60))
            toggle(SET_C);
        else if (percent(70))
            emit(SET_D, percent(50));
        else
            disturb();
    }
}

/* a frame's start drawn well, then noise: noise alone seldom makes an instruction */
static void draw_start_then_noise(void)
{
    size_t bits, length = random_frame(script_device.core.part, &bits, 0);
    int mode = percent(50);
    emit(SET_S, 1);
    emit(SET_HOLD, 1);
    emit(SET_C, (uint32_t)mode);
    emit(SET_S, 0);
    for (size_t i = 0; i < bits && i < 8 * length && i < 48; i++)
        draw_bit(frame_bytes[i / 8] >> (7 - i % 8) & 1, mode, 0);
    draw_noise((int)below(200));
}

static void draw_something(void)
{
    size_t bits;
    switch (below(6)) {
    case 0:
        draw_noise((int)below(100));
        break;
    case 1:
        draw_start_then_noise();
        break;
    case 2:
        random_frame(script_device.core.part, &bits, 0);
        draw_frame(bits, percent(50), 1 + below(60));
        break;
    case 3:
        emit(CLOCK, random_reading(&script_device.core));
        break;
    default:
        random_frame(script_device.core.part, &bits, 0);
        draw_frame(bits, percent(50), 0);
        break;
    }
}

static void new_script(const cartvesper_device *device)
{
    script_count = 0;
    script_device = *device;
    script_memory = plain_memory;
    for (uint32_t parts = below(12); parts > 0; parts--)
        draw_something();
}

/* a number near an event that is none: a level above 1, a kind above the last, or a bit above the kind */
static uint64_t no_event(uint64_t event)
{
    switch (below(3)) {
    case 0:
        return cartvesper_event(below(CLOCK), percent(50) ? 2 + below(2) : random32() | 1u << (1 + below(31)));
    case 1:
        return cartvesper_event(CLOCK + 1 + below(2), percent(50) ? below(2) : random32());
    default:
        return event | 1ULL << (35 + below(29));
    }
}

/* a list with one number that is no event: refused, and nothing played */
static void spoil_script(const cartvesper_device *device)
{
    if (script_count == 0)
        return;
    cartvesper_device copy = *device;
    size_t i = percent(20) ? script_count - 1 : below((uint32_t)script_count);
    uint64_t event = script[i];
    script[i] = no_event(event);
    if (try_play(&copy, script, script_count, off_by_one(script_count, 20), whole(copy.core.part)) != 2)
        fail("a number that is no event, played");
    if (memcmp(&lib_memory, &start_memory, sizeof lib_memory) != 0)
        fail("a list that was refused moved the memory");
    script[i] = event;
    counts.spoiled++;
}

/* the script event by event, then the same as a list */
static void run_script(cartvesper_device *device)
{
    static uint8_t q[EVENTS];
    cartvesper_device start = *device, refused = *device;
    const uint8_t part = device->core.part;
    start_memory = lib_memory;
    for (size_t i = 0; i < script_count; i++) {
        whole_event(device, (int)(script[i] >> 32), (uint32_t)script[i]);
        q[i] = (uint8_t)try_device_queries(device).value;
        if (percent(1))
            /* refused, or S, D, W, HOLD at a level above 1 */
            try_event(device, (int)below(6), percent(50) ? 2 : random32() | 2, random_lengths(part, 100));
    }
    singles_memory = lib_memory;
    lib_memory = plain_memory = start_memory;
    for (int i = 0; i < 5; i++)
        spoil_script(&start);
    if (percent(10))
        try_play(&refused, script, script_count, off_by_one(script_count, 70), random_lengths(part, 50));
    lib_memory = plain_memory = start_memory;
    if (try_play(&start, script, script_count, script_count, whole(part)) != 0)
        fail("the list refused");
    compare_devices("the list (library) and the single events (plain)", &start, device);
    compare_bytes("Q of the list (library) and of the single events (plain)", lib_out.bytes, q, script_count, 0);
    compare_lent("what is lent after the list (library) and the single events (plain)", &lib_memory, &singles_memory);
}

/* ---- records inside the ranges, also those that no events reach, field by field */

/* bytes for the cells that are marked, 0 for the others */
static void fill_marked(cartvesper_latch *latch)
{
    for (size_t i = 0; i < CELLS; i++)
        latch->bytes[i] = cartvesper_marked(latch, i) ? (uint8_t)(percent(30) ? 0xFF : random32()) : 0;
}

/* marks in the first cells alone, those of a part's page */
static void random_latch(cartvesper_latch *latch, size_t cells)
{
    for (size_t k = 0; k < WORDS; k++)
        latch->marks[k] = k < cells / WORD ? random_word() : 0;
    fill_marked(latch);
}

/* the last two only of a part that has them */
static void random_waiting(cartvesper_waiting *waits, uint8_t part)
{
    waits->kind = (uint8_t)(1 + below(part == M95512 ? 2 : 4));
    if (waits->kind == 1)
        waits->status = random32() & 0x8C;
    if (waits->kind == 2)
        waits->page = percent(30) ? below(2) * (PAGES - 1) : below(PAGES);
    if (waits->kind == 2 || waits->kind == 3)
        random_latch(&waits->latch, whole(part).cells);
}

/* a cycle that no frame began: of a part that has them also one that stores the identification page or the lock; of
 * the M95M01 half of them with WEL 0, as WRDI leaves it */
static void begin_cycle(cartvesper_core *core)
{
    core->wel = core->part != M95M01 || percent(50);
    core->left = percent(30) ? core->cycle : 1 + below(core->cycle);
    random_waiting(&core->waits, core->part);
}

static cartvesper_core random_core_of(uint8_t part)
{
    cartvesper_core core;
    memset(&core, 0, sizeof core);
    core.part = part;
    core.lock = (uint8_t)percent(40);
    core.srwd = (uint8_t)percent(50);
    core.bp1 = (uint8_t)percent(30);
    core.bp0 = (uint8_t)percent(30);
    core.wel = (uint8_t)percent(60);
    core.cycle = random_cycle(part);
    core.last = random_clock();
    core.blank = percent(10) ? plain_blank(lib_memory.bytes, whole(part).size) : random_blank(part);
    if (percent(40))
        begin_cycle(&core);
    return core;
}

static cartvesper_core random_core(void)
{
    return random_core_of((uint8_t)below(PLAIN_PARTS));
}

/* 82h and 83h are known to the parts that have the page */
static int known_about_page(const cartvesper_frame_part *frame, int part)
{
    return about_page(frame->code) && part != M95512;
}

/* whole bytes of the code and the address */
static uint32_t head_of(int part)
{
    return plain_head(plain_row_of((uint8_t)part));
}

static int is_output(const cartvesper_frame_part *frame, int part)
{
    if (frame->code == RDSR)
        return frame->taken >= 1;
    if (frame->code != READ && !(frame->code == RDID && known_about_page(frame, part)))
        return 0;
    return frame->taken >= head_of(part) && !frame->ran;
}

static int has_address(const cartvesper_frame_part *frame, int part)
{
    return (frame->code == READ || frame->code == WRITE || known_about_page(frame, part)) && frame->taken >= 2;
}

/* an 82h past its first data byte: for the lock it keeps that byte, for the page it latches */
static int is_wrid(const cartvesper_frame_part *frame, int part)
{
    return frame->code == WRID && known_about_page(frame, part) && frame->taken > head_of(part);
}

static int has_value(const cartvesper_frame_part *frame, int part)
{
    if (frame->code == WRSR)
        return frame->taken >= 2;
    return is_wrid(frame, part) && (frame->address & LOCK_ADDRESS) != 0;
}

static int has_latch(const cartvesper_frame_part *frame, int part)
{
    if (frame->code == WRITE)
        return frame->taken > head_of(part);
    return is_wrid(frame, part) && (frame->address & LOCK_ADDRESS) == 0;
}

/* an address as far as it is taken: of the bytes still to come every bit is 0 */
static uint32_t taken_address(const cartvesper_frame_part *frame, const plain_row *row)
{
    uint32_t address = address_for(frame->code, row), head = plain_head(row);
    for (uint32_t k = frame->taken; k < head; k++)
        address &= ~(0xFFu << 8 * (head - 1 - k));
    return address;
}

static void random_frame_fields(cartvesper_frame_part *frame, uint8_t part, int cycle_runs)
{
    const plain_row *row = plain_row_of(part);
    frame->taken = (uint8_t)below(row->most + 1);
    frame->bits = (uint8_t)(percent(60) ? 7 * below(2) : below(8));
    frame->partial = (uint8_t)below(1u << frame->bits);
    if (frame->taken == 0)
        return;
    frame->code = random_code();
    frame->ran = cycle_runs || percent(30);
    if (has_address(frame, part))
        frame->address = taken_address(frame, row);
    if (has_value(frame, part))
        frame->value = (uint8_t)random32();
    if (has_latch(frame, part))
        random_latch(&frame->latch, row->page);
    if (is_output(frame, part)) {
        frame->shown = (uint8_t)below(9);
        frame->out = frame->shown ? (uint8_t)random32() : 0;
    }
}

static cartvesper_device random_device(void)
{
    cartvesper_device device;
    memset(&device, 0, sizeof device);
    device.core = random_core();
    device.pins.s = (uint8_t)percent(15);
    device.pins.c = (uint8_t)percent(50);
    device.pins.d = (uint8_t)percent(50);
    device.pins.w = (uint8_t)percent(50);
    device.pins.hold = (uint8_t)percent(70);
    if (device.pins.s)
        return device;
    device.held = (uint8_t)(device.pins.c ? percent(30) : !device.pins.hold);
    random_frame_fields(&device.frame, device.core.part, device.core.left > 0);
    return device;
}

/* before a script, where no frame is in hand: one that has a byte would have seen the cycle run */
static void begin_idle_cycle(cartvesper_device *device)
{
    if (device->core.left == 0 && device->frame.taken == 0)
        begin_cycle(&device->core);
}

/* a cut, in a frame or not: what follows starts from pins at rest */
static void device_cut_step(cartvesper_device *device)
{
    try_device_cut(device, random_choice(), random_lengths(device->core.part, 10));
}

static void pin_session(int scripts)
{
    cartvesper_device device;
    which one;
    new_memory();
    do
        one = random_which(2);
    while (try_device_power_up(&device, one, percent(90) ? random_cycle(one.part) : random32() >> below(32),
                               percent(2) ? 2 : percent(20), percent(2) ? 255 : percent(20),
                               percent(2) ? 2 : percent(30), random_clock()) != 0);
    for (int i = 0; i < scripts; i++) {
        if (percent(30))
            begin_idle_cycle(&device);
        if (percent(30))
            device.core.lock = (uint8_t)percent(30);
        new_script(&device);
        if (percent(50)) /* ends anywhere, so that a cut falls inside a frame */
            script_count = below((uint32_t)script_count + 1);
        run_script(&device);
        check_right(&device.core);
        if (percent(50)) {
            device_cut_step(&device);
            check_right(&device.core);
        }
    }
}

/* one random event; then, now and then, a few more */
static void step_unreached(void)
{
    cartvesper_device device = random_device();
    begin_call(NULL, &device, "a record built inside the ranges");
    if (!plain_device_ok(&device) || cartvesper_device_in_ranges(device).number != 0)
        fail("a record built inside the ranges is refused");
    counts.unreached++;
    do {
        int kind = (int)(percent(25) ? SET_S : percent(40) ? SET_C : below(6));
        const cartvesper_pins *pins = &device.pins;
        const uint8_t levels[] = {pins->s, pins->c, pins->d, pins->w, pins->hold};
        if (percent(10))
            device_cut_step(&device);
        else if (kind == CLOCK)
            whole_event(&device, kind, random_reading(&device.core));
        else
            whole_event(&device, kind, percent(90) ? !levels[kind] : levels[kind]);
        try_device_queries(&device);
    } while (percent(60));
}

/* the same for the frame model: one frame, now and then a cut, and one reading */
static void step_unreached_core(void)
{
    cartvesper_core core = random_core();
    size_t bits, length = random_frame(core.part, &bits, 0);
    begin_call(&core, NULL, "a record built inside the ranges");
    if (!plain_core_ok(&core) || cartvesper_core_in_ranges(core).number != 0)
        fail("a record built inside the ranges is refused");
    counts.unreached++;
    try_frame(&core, whole(core.part), percent(50), length, bits, length);
    if (percent(30))
        cut_step(&core);
    whole_reading(&core, random_reading(&core));
    try_core_queries(&core, random_question(core.part));
}

/* a status cycle that gives BP1 and BP0 a value runs when the driver comes; of the M95M01 at times with WEL 0 */
static void begin_status_cycle(cartvesper_core *core)
{
    const lengths lent = whole(core->part);
    frame_bytes[0] = WREN;
    try_frame(core, lent, 1, 1, 8, 1);
    frame_bytes[0] = WRSR;
    frame_bytes[1] = (uint8_t)(below(4) << 2);
    try_frame(core, lent, 1, 2, 16, 2);
    frame_bytes[0] = WRDI;
    if (percent(30))
        try_frame(core, lent, 1, 1, 8, 1);
}

/* from a device as the last run left it, in a cycle too, or from a record that no calls reach, with the right number of
 * blank cells for its part */
static void driver_session(int runs)
{
    cartvesper_core core;
    which one = random_which(0);
    new_memory();
    try_power_up(&core, one, random_cycle(one.part), percent(20), percent(20), percent(30), random_clock());
    for (int i = 0; i < runs; i++) {
        if (percent(20)) {
            core = random_core();
            core.blank = plain_blank(lib_memory.bytes, whole(core.part).size);
        }
        if (percent(10))
            frame_step(&core);
        if (percent(10))
            whole_reading(&core, random_reading(&core));
        if (percent(15))
            begin_status_cycle(&core);
        if (percent(10))
            cut_step(&core);
        random_write(&core, 2);
        if (percent(10))
            check_right(&core);
    }
    check_right(&core);
}

/* ---- damaged records */

typedef struct {
    size_t at, size;
} field;

#define CORE_FIELD(name) {offsetof(cartvesper_core, name), sizeof(((cartvesper_core *)0)->name)}
#define FIELDS(fields) (sizeof(fields) / sizeof *(fields))
#define DEVICE_FIELD(name) {offsetof(cartvesper_device, name), sizeof(((cartvesper_device *)0)->name)}

/* of a latch: the ends of both pages, and each word */
#define LATCH_FIELDS(FIELD, latch)                                                                                     \
    FIELD(latch.bytes[0]), FIELD(latch.bytes[127]), FIELD(latch.bytes[128]), FIELD(latch.bytes[255]),                  \
        FIELD(latch.marks[0]), FIELD(latch.marks[1]), FIELD(latch.marks[2]), FIELD(latch.marks[3])

static const field core_fields[] = {CORE_FIELD(part),       CORE_FIELD(lock),         CORE_FIELD(srwd),
                                    CORE_FIELD(bp1),        CORE_FIELD(bp0),          CORE_FIELD(wel),
                                    CORE_FIELD(cycle),      CORE_FIELD(left),         CORE_FIELD(last),
                                    CORE_FIELD(waits.kind), CORE_FIELD(waits.status), CORE_FIELD(waits.page),
                                    CORE_FIELD(blank),      LATCH_FIELDS(CORE_FIELD, waits.latch)};
static const field device_fields[] = {DEVICE_FIELD(pins.s),      DEVICE_FIELD(pins.c),     DEVICE_FIELD(pins.d),
                                      DEVICE_FIELD(pins.w),      DEVICE_FIELD(pins.hold),  DEVICE_FIELD(held),
                                      DEVICE_FIELD(frame.taken), DEVICE_FIELD(frame.bits), DEVICE_FIELD(frame.partial),
                                      DEVICE_FIELD(frame.code),  DEVICE_FIELD(frame.ran),  DEVICE_FIELD(frame.value),
                                      DEVICE_FIELD(frame.out),   DEVICE_FIELD(frame.shown),
                                      DEVICE_FIELD(frame.address), LATCH_FIELDS(DEVICE_FIELD, frame.latch)};

/* those above 32 bits are for the words of marks; a smaller field takes their low bits */
static const uint64_t edges[] = {0,          1,          2,          3,                  4,               5,
                                 6,          7,          8,          9,                  16,              127,
                                 128,        255,        256,        511,                512,             3999,
                                 4000,       4001,       4999,       5000,               5001,            65535,
                                 65536,      65537,      131071,     131072,             131073,          0x7FFFFFFF,
                                 0xFFFFFFFF, 1ULL << 32, 1ULL << 62, 1ULL << 63, 0xFFFFFFFF00000000,
                                 UINT64_MAX >> 1, UINT64_MAX};
enum { EDGES = sizeof edges / sizeof *edges };

static uint64_t damaged_value(uint64_t old)
{
    switch (below(4)) {
    case 0:
        return edges[below(EDGES)];
    case 1:
        return old + 1;
    case 2:
        return old ^ 1u << below(32);
    default:
        return random32() >> below(32);
    }
}

static void damage_word(uint64_t *word)
{
    *word = percent(50) ? *word ^ 1ULL << below(WORD) : percent(50) ? random_word() : damaged_value(*word);
}

static void set_field(void *record, field chosen, uint64_t value)
{
    uint8_t *at = (uint8_t *)record + chosen.at;
    uint32_t number = (uint32_t)value;
    if (chosen.size == 1)
        *at = (uint8_t)value;
    else if (chosen.size == 4)
        memcpy(at, &number, 4);
    else
        memcpy(at, &value, 8);
}

static void damage_field(void *record, field chosen)
{
    uint8_t *at = (uint8_t *)record + chosen.at;
    uint32_t number = 0;
    uint64_t word = 0;
    if (chosen.size == 1) {
        *at = (uint8_t)(percent(30) ? *at ^ 1u << below(8) : damaged_value(*at));
    } else if (chosen.size == 4) {
        memcpy(&number, at, 4);
        set_field(record, chosen, damaged_value(number));
    } else {
        memcpy(&word, at, 8);
        damage_word(&word);
        set_field(record, chosen, word);
    }
}

static void damage_latch(cartvesper_latch *latch)
{
    static const uint32_t ends[] = {0, 127, 128, 255};
    uint32_t cell = percent(40) ? ends[below(4)] : below(CELLS);
    if (percent(50))
        latch->bytes[cell] = (uint8_t)damaged_value(latch->bytes[cell]);
    else if (percent(50))
        latch->marks[cell / WORD] ^= 1ULL << cell % WORD;
    else
        damage_word(&latch->marks[cell / WORD]);
}

static void damage_core(cartvesper_core *core)
{
    if (percent(3)) {
        random_bytes(core, sizeof *core);
        return;
    }
    do {
        if (percent(25))
            damage_latch(&core->waits.latch);
        else
            damage_field(core, core_fields[below(FIELDS(core_fields))]);
    } while (percent(20));
}

static void damage_device(cartvesper_device *device)
{
    if (percent(3)) {
        random_bytes(device, sizeof *device);
        return;
    }
    do {
        if (percent(15))
            damage_core(&device->core);
        else if (percent(20))
            damage_latch(&device->frame.latch);
        else
            damage_field(device, device_fields[below(FIELDS(device_fields))]);
    } while (percent(20));
}

/* every call of the frame model on it, with now and then other refusals at once */
static void try_core_calls(const cartvesper_core *core)
{
    cartvesper_core copy;
    size_t bits, length;
    try_core_queries(core, random_question(core->part));
    length = random_frame(core->part, &bits, below(500) == 0);
    copy = *core;
    try_frame(&copy, random_lengths(core->part, 20), (uint8_t)(percent(10) ? random32() : below(2)), length,
              off_by_one(bits, 20), off_by_one(length, 20));
    copy = *core;
    random_schedule(core, bits);
    if (percent(20))
        spoil_schedule(bits);
    try_timed(&copy, random_lengths(core->part, 20), (uint8_t)(percent(10) ? random32() : below(2)),
              (uint8_t)(percent(10) ? random32() : 3 * below(2)), length, off_by_one(bits, 20), off_by_one(length, 20));
    copy = *core;
    try_cut(&copy, random_choice(), random_lengths(core->part, 20));
    copy = *core;
    try_reading(&copy, random_reading(core), random_lengths(core->part, 20));
    copy = *core;
    random_write(&copy, 20);
}

/* every call of the pin model */
static void try_device_calls(const cartvesper_device *device)
{
    cartvesper_device copy;
    const uint8_t part = device->core.part;
    try_device_queries(device);
    for (int kind = SET_S; kind <= CLOCK; kind++) {
        copy = *device;
        uint32_t level = percent(15) ? random32() : (uint32_t)percent(50);
        try_event(&copy, kind, kind == CLOCK ? random_reading(&device->core) : level, random_lengths(part, 15));
    }
    copy = *device;
    try_device_cut(&copy, random_choice(), random_lengths(part, 15));
    uint64_t events[4];
    for (int i = 0; i < 4; i++)
        events[i] = percent(10) ? next64() : cartvesper_event(below(CLOCK + 1), below(2));
    size_t count = below(4);
    copy = *device;
    try_play(&copy, events, count, off_by_one(count, 20), random_lengths(part, 20));
}

static void try_damaged_core(void)
{
    cartvesper_core core = random_core();
    uint64_t before = counts.calls;
    damage_core(&core);
    try_core_calls(&core);
    counts.damaged++;
    counts.damaged_calls += counts.calls - before;
}

static void try_damaged_device(void)
{
    cartvesper_device device = random_device();
    uint64_t before = counts.calls;
    damage_device(&device);
    try_device_calls(&device);
    counts.damaged++;
    counts.damaged_calls += counts.calls - before;
}

/* records of random bytes throughout */
static void try_random_records(int count)
{
    cartvesper_core core;
    cartvesper_device device;
    uint64_t before = counts.calls;
    for (int i = 0; i < count; i++) {
        random_bytes(&core, sizeof core);
        random_bytes(&device, sizeof device);
        try_core_calls(&core);
        try_device_calls(&device);
    }
    counts.damaged += 2 * (uint64_t)count;
    counts.damaged_calls += counts.calls - before;
}

/* each field of a record inside the ranges at each edge, the other fields as they were */
static void sweep_core(void)
{
    const cartvesper_core core = random_core();
    for (size_t f = 0; f < FIELDS(core_fields); f++)
        for (size_t e = 0; e < EDGES; e++) {
            cartvesper_core copy = core;
            set_field(&copy, core_fields[f], edges[e]);
            try_core_calls(&copy);
        }
    counts.swept += FIELDS(core_fields) * EDGES;
}

static void sweep_device(void)
{
    const cartvesper_device device = random_device();
    for (size_t f = 0; f < FIELDS(device_fields); f++)
        for (size_t e = 0; e < EDGES; e++) {
            cartvesper_device copy = device;
            set_field(&copy, device_fields[f], edges[e]);
            try_device_calls(&copy);
        }
    for (size_t f = 0; f < FIELDS(core_fields); f++)
        for (size_t e = 0; e < EDGES; e++) {
            cartvesper_device copy = device;
            set_field(&copy.core, core_fields[f], edges[e]);
            try_device_calls(&copy);
        }
    counts.swept += (FIELDS(device_fields) + FIELDS(core_fields)) * EDGES;
}

/* each part with each kind that waits, and what may stand beside it: time left, WEL, a status value, a page number, a
 * mark, a byte without one */
static cartvesper_core core_of(uint8_t part, uint8_t kind, uint32_t beside)
{
    cartvesper_core core;
    uint32_t cell = below(CELLS); /* of the M95512 every other one is past the page */
    memset(&core, 0, sizeof core);
    core.part = part;
    core.lock = (uint8_t)(percent(70) ? below(2) : percent(70) ? 2 : 255);
    core.cycle = random_cycle(part);
    core.last = random_clock();
    core.blank = random_blank(part);
    core.left = beside & 1 ? 1 + below(core.cycle) : 0;
    core.wel = beside >> 1 & 1;
    core.waits.kind = kind;
    core.waits.status = beside & 4 ? 0x80 : 0;
    core.waits.page = beside & 8 ? 1 + below(PAGES - 1) : 0;
    if (beside & 16)
        core.waits.latch.marks[cell / WORD] = 1ULL << cell % WORD;
    if (beside & 32)
        core.waits.latch.bytes[cell] = (uint8_t)(1 + below(255));
    return core;
}

static void sweep_parts(void)
{
    static const uint8_t parts[] = {0, 1, 2, 3, 255};
    for (size_t p = 0; p < sizeof parts; p++)
        for (uint32_t beside = 0; beside < 6 * 64; beside++) {
            cartvesper_core core = core_of(parts[p], (uint8_t)(beside / 64), beside % 64);
            cartvesper_device device;
            plain_device_power_up(&device, 0, 0, 1, 0, 0, 0, 0, 0);
            device.core = core;
            cartvesper_core cut = core;
            cartvesper_device device_cut = device;
            try_cut(&cut, random_choice(), random_lengths(core.part, 5));
            try_device_cut(&device_cut, random_choice(), random_lengths(core.part, 5));
            try_core_queries(&core, random_question(core.part));
            try_reading(&core, core.last + core.left, random_lengths(core.part, 5));
            try_device_queries(&device);
            try_event(&device, CLOCK, device.core.last + device.core.left, random_lengths(core.part, 5));
            counts.parts_swept++;
        }
}

/* a frame in hand of each part and code with each number of whole bytes, and what may stand beside them: a running
 * cycle, one at the eighth edge, address bit 10, a low and a high address bit, one of those above 16 bits, a data byte,
 * a mark, a byte without one, bits shown, an output byte */
enum { TAKEN = 8, BESIDE = 1 << 11 };

static cartvesper_device device_of(uint8_t part, uint8_t code, uint8_t taken, uint32_t beside)
{
    cartvesper_device device;
    uint32_t cell = percent(70) ? below(CELLS / 2) : below(CELLS);
    plain_device_power_up(&device, part, percent(30), random_cycle(part), 0, percent(30), percent(30), random_clock(),
                          random_blank(part));
    device.pins.s = 0;
    device.pins.c = (uint8_t)below(2);
    device.core.wel = (uint8_t)percent(70);
    if (beside & 1)
        begin_cycle(&device.core);
    device.frame.taken = taken;
    device.frame.code = code;
    device.frame.ran = beside >> 1 & 1;
    device.frame.address = (beside & 4 ? LOCK_ADDRESS : 0) | (beside & 8 ? 1u << below(8) : 0);
    device.frame.address |= beside & 16 ? 1u << (11 + below(5)) : 0;
    device.frame.address |= beside & 32 ? 1u << (percent(50) ? 16 : 16 + below(16)) : 0;
    device.frame.value = (uint8_t)(beside & 64 ? 1u << below(8) : 0);
    if (beside & 128)
        device.frame.latch.marks[cell / WORD] = 1ULL << cell % WORD;
    device.frame.latch.bytes[cell] = (uint8_t)(beside & 256 ? 1 + below(255) : 0);
    device.frame.shown = (uint8_t)(beside & 512 ? 1 + below(9) : 0);
    device.frame.out = (uint8_t)(beside & 1024 ? 1 + below(255) : 0);
    return device;
}

static void sweep_fields(int some)
{
    static const uint8_t codes[] = {WRID, RDID, WRITE, READ, WRSR, RDSR, 0x81};
    for (uint32_t one = 0; one < PLAIN_PARTS * sizeof codes * TAKEN * BESIDE; one++) {
        if (some && below(100) != 0)
            continue;
        uint32_t place = one / BESIDE;
        uint8_t part = place % PLAIN_PARTS, taken = place / PLAIN_PARTS % TAKEN;
        cartvesper_device device = device_of(part, codes[place / PLAIN_PARTS / TAKEN], taken, one % BESIDE);
        begin_call(NULL, &device, "device_in_ranges");
        compare_values(cartvesper_device_in_ranges(device), plain_device_in_ranges_call(device));
        if (percent(5))
            try_device_cut(&device, random_choice(), whole(part));
        else
            whole_event(&device, percent(50) ? SET_S : SET_C, percent(50) ? 1 : !device.pins.c);
        counts.fields_swept++;
    }
}

/* ---- marks cell by cell, in the page that waits and in the frame in hand; what is to be answered is known */

static void expect_touched(const cartvesper_device *device, uint32_t number, uint32_t cells)
{
    cartvesper_value touched = cartvesper_device_touched(*device);
    try_device_queries(device);
    compare_numbers("the number (second: wanted)", touched.number, number);
    compare_numbers("cells touched (second: wanted)", touched.value, cells);
}

static void expect_core_touched(const cartvesper_core *core, uint32_t number, uint32_t cells)
{
    cartvesper_value touched = cartvesper_core_touched(*core);
    try_core_queries(core, random_question(core->part));
    compare_numbers("the number (second: wanted)", touched.number, number);
    compare_numbers("cells touched (second: wanted)", touched.value, cells);
}

/* latched bytes wait: of a page, or of the identification page */
static int bytes_wait(const cartvesper_core *core)
{
    return core->waits.kind == 2 || core->waits.kind == 3;
}

static cartvesper_core core_with(uint8_t part, uint8_t kind)
{
    cartvesper_core core = random_core_of(part);
    while (core.waits.kind != kind) {
        memset(&core.waits, 0, sizeof core.waits);
        begin_cycle(&core);
    }
    return core;
}

static cartvesper_core core_without_bytes(void)
{
    cartvesper_core core;
    do
        core = random_core();
    while (bytes_wait(&core));
    return core;
}

/* selected, with a WRITE or an 82h in hand that its deselect executes */
static cartvesper_device device_in_write(uint8_t part, uint8_t code)
{
    cartvesper_device device;
    const plain_row *row = plain_row_of(part);
    int lock = code == WRITE && percent(50);
    plain_device_power_up(&device, part, lock, random_cycle(part), 0, 0, 0, random_clock(), random_blank(part));
    device.core.wel = 1;
    device.pins.s = 0;
    device.frame.taken = (uint8_t)(plain_head(row) + 1 + below(2));
    device.frame.code = code;
    device.frame.address = code == WRITE ? random_address(row) : random_page_address(row) & ~LOCK_ADDRESS;
    return device;
}

/* the latch in a page or an identification page that waits: asked, then its cycle ended */
static void try_waiting(const cartvesper_latch *latch, uint8_t part, uint8_t kind, uint32_t number, uint32_t cells)
{
    cartvesper_core core = core_with(part, kind);
    cartvesper_device device;
    plain_device_power_up(&device, 0, 0, 1, 0, 0, 0, 0, 0);
    core.waits.latch = *latch;
    device.core = core;
    expect_core_touched(&core, number, cells);
    whole_reading(&core, core.last + core.left);
    expect_core_touched(&core, number, 0);
    expect_touched(&device, number, cells);
    whole_event(&device, CLOCK, device.core.last + device.core.left);
    expect_touched(&device, number, 0);
}

/* the latch in the frame in hand: it waits from the deselect on */
static void try_latching(const cartvesper_latch *latch, uint8_t part, uint8_t code, uint32_t number, uint32_t cells)
{
    cartvesper_device device = device_in_write(part, code);
    device.frame.latch = *latch;
    expect_touched(&device, number, 0);
    whole_event(&device, SET_S, 1);
    expect_touched(&device, number, cells);
    whole_event(&device, CLOCK, device.core.last + device.core.left);
    expect_touched(&device, number, 0);
}

/* inside the ranges: so many cells; outside them: 2 */
static void try_latch(const cartvesper_latch *latch, uint8_t part, uint32_t number, uint32_t cells)
{
    try_waiting(latch, part, 2, number, cells);
    try_latching(latch, part, WRITE, number, cells);
    counts.marked++;
    if (part == M95512)
        return;
    try_waiting(latch, part, 3, number, cells);
    try_latching(latch, part, WRID, number, cells);
}

/* a latch that is not empty where neither page waits, and where the frame has latched nothing: 2 */
static void try_stray(const cartvesper_latch *latch)
{
    cartvesper_core core = core_without_bytes();
    cartvesper_device device;
    core.waits.latch = *latch;
    expect_core_touched(&core, 2, 0);
    do
        device = random_device();
    while (bytes_wait(&device.core));
    device.core.waits.latch = *latch;
    expect_touched(&device, 2, 0);
    do
        device = random_device();
    while (has_latch(&device.frame, device.core.part));
    device.frame.latch = *latch;
    expect_touched(&device, 2, 0);
    counts.marked++;
}

/* so many cells from cell 0 on */
static void mark_first(cartvesper_latch *latch, size_t cells)
{
    for (size_t k = 0; k < WORDS; k++)
        latch->marks[k] = k < cells / WORD ? UINT64_MAX : 0;
}

/* a cell alone, and every cell of the page but it; its byte not 0 where it is not marked. A mark past the page is
 * outside the ranges */
static void sweep_cell(uint8_t part, size_t cell)
{
    const size_t page = whole(part).cells;
    const uint32_t past = cell < page ? 0 : 2;
    cartvesper_latch latch;
    memset(&latch, 0, sizeof latch);
    latch.bytes[cell] = (uint8_t)(1u << below(8));
    try_latch(&latch, part, 2, 0);
    try_stray(&latch);
    latch.marks[cell / WORD] = 1ULL << cell % WORD;
    try_latch(&latch, part, past, past ? 0 : 1);
    try_stray(&latch);
    latch.bytes[cell] = 0;
    try_latch(&latch, part, past, past ? 0 : 1);
    try_stray(&latch);
    mark_first(&latch, page);
    latch.marks[cell / WORD] ^= 1ULL << cell % WORD; /* past the page: every cell of it, and this one */
    fill_marked(&latch);
    try_latch(&latch, part, past, past ? 0 : (uint32_t)page - 1);
    latch.marks[cell / WORD] &= ~(1ULL << cell % WORD);
    latch.bytes[cell] = (uint8_t)(1u << below(8));
    try_latch(&latch, part, 2, 0);
}

static void sweep_marks(uint8_t part)
{
    const size_t page = whole(part).cells;
    cartvesper_latch latch;
    for (size_t cell = 0; cell < CELLS; cell++)
        sweep_cell(part, cell);
    for (unsigned full = 0; full < 1u << WORDS; full++) { /* each word empty or full */
        uint32_t cells = 0, past = full >> page / WORD ? 2 : 0;
        for (int k = 0; k < WORDS; k++) {
            latch.marks[k] = full >> k & 1 ? UINT64_MAX : 0;
            cells += full >> k & 1 ? WORD : 0;
        }
        fill_marked(&latch);
        try_latch(&latch, part, past, past ? 0 : cells);
    }
    for (int i = 0; i < 32; i++) {
        uint32_t cells = 0;
        random_latch(&latch, page);
        for (size_t cell = 0; cell < CELLS; cell++)
            cells += (uint32_t)cartvesper_marked(&latch, cell);
        try_latch(&latch, part, 0, cells);
    }
}

/* ---- one page write laid over another: 02, Item 10 */

/* of a page of so many cells: none, every cell, one cell, a few, most, each word by itself */
static cartvesper_latch random_page_write(uint32_t page)
{
    cartvesper_latch latch;
    uint32_t kind = below(6), cell = percent(40) ? (page - 1) * below(2) : below(page);
    memset(&latch, 0, sizeof latch);
    for (uint32_t k = 0; k < page / WORD; k++)
        latch.marks[k] = kind == 1   ? UINT64_MAX
                         : kind == 3 ? next64() & next64() & next64()
                         : kind == 4 ? next64() | next64() | next64()
                         : kind == 5 ? random_word()
                                     : 0;
    if (kind == 2)
        latch.marks[cell / WORD] = 1ULL << cell % WORD;
    fill_marked(&latch);
    return latch;
}

static cartvesper_latch one_cell(size_t cell, uint8_t byte)
{
    cartvesper_latch latch;
    memset(&latch, 0, sizeof latch);
    latch.marks[cell / WORD] = 1ULL << cell % WORD;
    latch.bytes[cell] = byte;
    return latch;
}

/* the marks of another taken away, with their bytes */
static cartvesper_latch apart_from(cartvesper_latch latch, const cartvesper_latch *other)
{
    for (int k = 0; k < WORDS; k++)
        latch.marks[k] &= ~other->marks[k];
    for (size_t i = 0; i < CELLS; i++)
        latch.bytes[i] = cartvesper_marked(&latch, i) ? latch.bytes[i] : 0;
    return latch;
}

/* a byte that is not 0 in a cell that is not marked */
static void spoil_latch(cartvesper_latch *latch, size_t cell)
{
    latch->marks[cell / WORD] &= ~(1ULL << cell % WORD);
    latch->bytes[cell] = (uint8_t)(percent(50) ? 1u << below(8) : 1 + below(255));
}

static cartvesper_latch laid(cartvesper_latch earlier, cartvesper_latch later)
{
    cartvesper_latch_answer answer = try_lay(&earlier, &later);
    compare_numbers("the number of two inside their ranges (second: wanted)", answer.number, 0);
    return answer.latch;
}

static void expect_refused(const cartvesper_latch *earlier, const cartvesper_latch *later)
{
    compare_numbers("the number of one outside its ranges (second: wanted)", try_lay(earlier, later).number, 2);
}

/* a cell marked in neither, in one, in the other, in both: what is to be answered is known; then it is spoiled */
static void sweep_laid_cell(size_t cell)
{
    for (int marks = 0; marks < 4; marks++) {
        const cartvesper_latch alone = one_cell(cell, (uint8_t)random32());
        const cartvesper_latch over = one_cell(cell, (uint8_t)random32());
        cartvesper_latch earlier = random_page_write(CELLS), later = random_page_write(CELLS);
        earlier = apart_from(earlier, &alone);
        later = apart_from(later, &over);
        if (marks & 1)
            earlier.marks[cell / WORD] |= alone.marks[cell / WORD], earlier.bytes[cell] = alone.bytes[cell];
        if (marks & 2)
            later.marks[cell / WORD] |= over.marks[cell / WORD], later.bytes[cell] = over.bytes[cell];
        cartvesper_latch both = laid(earlier, later);
        compare_numbers("the cell's mark (second: wanted)", (uint64_t)cartvesper_marked(&both, cell), marks != 0);
        compare_numbers("the cell's byte (second: wanted)", both.bytes[cell],
                        marks & 2   ? over.bytes[cell]
                        : marks & 1 ? alone.bytes[cell]
                                    : 0);
        cartvesper_latch bad = earlier, worse = later;
        spoil_latch(&bad, cell);
        spoil_latch(&worse, cell);
        expect_refused(&bad, &later);
        expect_refused(&earlier, &worse);
        expect_refused(&bad, &worse);
    }
}

/* now and then: one byte or some marks changed, outside the ranges, or random bytes throughout */
static void maybe_damage(cartvesper_latch *latch)
{
    if (percent(10))
        damage_latch(latch);
    else if (percent(10))
        spoil_latch(latch, below(CELLS));
    else if (percent(2))
        random_bytes(latch, sizeof *latch);
}

static void try_lays(int count)
{
    for (int i = 0; i < count; i++) {
        uint32_t page = percent(70) ? CELLS : CELLS / 2;
        cartvesper_latch earlier = random_page_write(page), later = random_page_write(page);
        if (percent(20))
            later = apart_from(later, &earlier);
        maybe_damage(&earlier);
        maybe_damage(&later);
        try_lay(&earlier, &later);
    }
}

static void law(const char *what, cartvesper_latch first, cartvesper_latch second)
{
    compare_latches(what, &first, &second);
    counts.laws++;
}

/* order matters exactly where a cell is marked in both, with two bytes */
static void try_order(cartvesper_latch one, cartvesper_latch other)
{
    int matters = 0;
    for (size_t i = 0; i < CELLS; i++)
        matters |= cartvesper_marked(&one, i) && cartvesper_marked(&other, i) && one.bytes[i] != other.bytes[i];
    cartvesper_latch first = laid(one, other), second = laid(other, one);
    compare_numbers("that order matters (second: wanted)", !plain_latch_same(&first, &second), (uint64_t)matters);
    counts.ordered += (uint64_t)matters;
}

static void try_laws(int count)
{
    const cartvesper_latch none = {{0}, {0}};
    for (int i = 0; i < count; i++) {
        uint32_t page = percent(70) ? CELLS : CELLS / 2;
        cartvesper_latch l = random_page_write(page), k = random_page_write(page), m = random_page_write(page);
        law("grouping: from the left (first), from the right (second)", laid(laid(l, k), m), laid(l, laid(k, m)));
        law("an empty one laid over another (first), the other (second)", laid(l, none), l);
        law("one laid over an empty one (first), the one (second)", laid(none, l), l);
        law("one laid over itself (first), the one (second)", laid(l, l), l);
        law("one laid twice (first), once (second)", laid(laid(l, k), k), laid(l, k));
        try_order(l, k);
        k = apart_from(k, &l);
        law("order where the marks share no cell: one (first), the other (second)", laid(l, k), laid(k, l));
    }
}

/* WREN and a WRITE to the page, or an 82h to the identification page: what waits is its bytes laid over each other, a
 * page write of one cell for each; then its cycle ends */
static cartvesper_latch send_write(cartvesper_core *core, uint8_t code, uint32_t page)
{
    const plain_row *row = plain_row_of(core->part);
    const lengths lent = whole(core->part);
    cartvesper_latch bytewise = {{0}, {0}};
    size_t head = plain_head(row), start = below(row->page);
    size_t length = 1 + (percent(70) ? below(12) : below(2 * row->page));
    frame_bytes[0] = WREN;
    try_frame(core, lent, 1, 1, 8, 1);
    frame_bytes[0] = code;
    put_address(row, page * row->page + (uint32_t)start);
    random_bytes(frame_bytes + head, length);
    try_frame(core, lent, 1, head + length, 8 * (head + length), head + length);
    for (size_t i = 0; i < length; i++)
        bytewise = laid(bytewise, one_cell((start + i) % row->page, frame_bytes[head + i]));
    compare_latches("what waits (first), its bytes laid one by one (second)", &core->waits.latch, &bytewise);
    counts.bytewise++;
    try_reading(core, core->last + core->left, lent);
    return bytewise;
}

/* any page write, by the end of a cycle that it waits for: into a page, or into the identification page, which is 0 */
static void store_latch(const cartvesper_latch *latch, uint8_t part, uint8_t kind, uint32_t page)
{
    cartvesper_core core = core_with(part, kind);
    core.waits.page = page;
    core.waits.latch = *latch;
    if (try_reading(&core, core.last + core.left, whole(part)) != 0)
        fail("a page write inside its ranges, refused where it waits");
}

static void compare_kept(const char *what)
{
    compare_lent(what, &lib_memory, &singles_memory);
}

/* two page writes stored one after the other are the one laid over the other, stored: by two frames, or any two */
static void try_stored(int count)
{
    for (int i = 0; i < count; i++) {
        uint8_t kind = percent(30) ? 3 : 2, part = kind == 3 ? identified_part() : (uint8_t)below(PLAIN_PARTS);
        uint32_t cells = plain_row_of(part)->page;
        uint32_t page = kind == 3 ? 0 : percent(30) ? below(2) * (PAGES - 1) : below(PAGES);
        cartvesper_latch earlier = random_page_write(cells), later = random_page_write(cells);
        start_memory = lib_memory;
        if (percent(50)) {
            cartvesper_core core;
            try_power_up(&core, (which){part, 0}, random_cycle(part), 0, 0, 0, random_clock());
            earlier = send_write(&core, kind == 3 ? WRID : WRITE, page);
            later = send_write(&core, kind == 3 ? WRID : WRITE, page);
        } else {
            store_latch(&earlier, part, kind, page);
            store_latch(&later, part, kind, page);
        }
        singles_memory = lib_memory;
        lib_memory = plain_memory = start_memory;
        cartvesper_latch both = laid(earlier, later);
        store_latch(&both, part, kind, page);
        compare_kept("what the one laid over left (first), what the two left (second)");
        counts.stored++;
    }
}

/* the identification page takes a page write as page 0 of the memory does */
static void try_same_laying(int count)
{
    for (int i = 0; i < count; i++) {
        uint8_t part = identified_part();
        size_t page = whole(part).cells;
        cartvesper_latch latch = random_page_write((uint32_t)page);
        memcpy(lib_memory.bytes, lib_memory.identification, page);
        plain_memory = lib_memory;
        store_latch(&latch, part, 2, 0);
        store_latch(&latch, part, 3, 0);
        compare_bytes("the identification page (first), page 0 (second)", lib_memory.identification, lib_memory.bytes,
                      page, 0);
    }
}

static void lay_session(void)
{
    new_memory();
    for (size_t cell = 0; cell < CELLS; cell++)
        sweep_laid_cell(cell);
    try_lays(500);
    try_laws(150);
    try_stored(20);
    try_same_laying(20);
}

/* the same write sent twice, both done, leaves the memory of one; interval and limit may differ, and time may pass in
 * between */
static void try_twice(void)
{
    cartvesper_core core = random_core();
    const plain_row *row = plain_row_of(core.part);
    const lengths lent = whole(core.part);
    size_t length = random_run(row);
    uint64_t address = random_run_address(row, length);
    uint32_t least = length > 1000 ? 1000 : 1, interval = least + below(row->longest_cycle + 1 - least);
    int running = core.left > 0;
    if (percent(70)) /* else half of the runs touch the block */
        core.bp1 = core.bp0 = core.waits.status = 0;
    random_bytes(run_bytes, length < 1000 ? length : 1000);
    if (percent(50))
        sprinkle_blank(run_bytes, length);
    if (try_write(&core, lent, address, length, interval, plain_most_polls(row)) != 0)
        return;
    compare_bytes("the run's cells (first), its bytes (second)", lib_memory.bytes + address, run_bytes, length, 0);
    singles_memory = lib_memory;
    if (length > 0 && percent(30)) /* no cycle runs now; with no data one may */
        try_reading(&core, random_reading(&core), lent);
    interval = length > 1000 ? interval : random_interval(&core);
    if (try_write(&core, lent, address, length, interval, random_limit(&core, interval)) != 0)
        return;
    compare_kept("memory of a write sent twice (first), once (second)");
    counts.twice++;
    counts.busy += (uint64_t)running;
}

static void twice_session(int count)
{
    new_memory();
    for (int i = 0; i < count; i++)
        try_twice();
}

/* ---- supply cuts: 02, Item 8 */

/* inside the ranges, most in a cycle; the number of blank cells is right */
static cartvesper_core core_to_cut(void)
{
    cartvesper_core core = random_core();
    if (core.left == 0 && percent(80))
        begin_cycle(&core);
    core.blank = plain_blank(lib_memory.bytes, whole(core.part).size);
    return core;
}

/* the marks of a choice that are looked at, in word k of it */
static uint64_t looked_at(const cartvesper_waiting *waits, int k)
{
    if (waits->kind == 1 || waits->kind == 4)
        return k > 0 ? 0 : waits->kind == 1 ? 0x8C : 1;
    return waits->latch.marks[k];
}

static void cut_law(const char *what, const cartvesper_core *first, const cartvesper_core *second)
{
    compare_cores(what, first, second);
    compare_kept(what);
    counts.cut_laws++;
}

/* `core` with start_memory, cut, is `cut` with singles_memory: what else leaves the same */
static void try_cut_laws(const cartvesper_core *core, const cartvesper_core *cut, cartvesper_choice choice)
{
    const lengths lent = whole(core->part);
    cartvesper_core other = *core;
    if (core->left > 0 && (core->waits.kind != 4 || (choice.words[0] & 1))) { /* the end of a lock's always sets it */
        other.waits = chosen_part(core, &choice);
        try_reading(&other, other.last + other.left, lent);
        other.last = core->last;
        cut_law("the end of a cycle of the chosen part (first), the cut (second)", &other, cut);
    }
    lib_memory = plain_memory = start_memory;
    other = *core;
    for (int k = 0; k < WORDS; k++)
        choice.words[k] ^= next64() & ~looked_at(&core->waits, k);
    try_cut(&other, choice, lent);
    cut_law("a cut with other marks that are not looked at (first), the cut (second)", &other, cut);
    try_cut(&other, random_choice(), lent);
    cut_law("a cut after the cut (first), the cut (second)", &other, cut);
    try_power_up(&other, (which){cut->part, cut->lock}, cut->cycle, cut->srwd, cut->bp1, cut->bp0, cut->last);
    cut_law("power-up with what survived (first), the cut (second)", &other, cut);
}

static void try_cuts(int count)
{
    for (int i = 0; i < count; i++) {
        const cartvesper_core core = core_to_cut();
        const cartvesper_choice choice = random_choice();
        cartvesper_core cut = core;
        start_memory = lib_memory;
        try_cut(&cut, choice, whole(core.part));
        check_right(&cut);
        singles_memory = lib_memory;
        lib_memory = plain_memory = start_memory;
        try_cut_laws(&core, &cut, choice);
    }
}

/* the same cut in both models: that of the device is that of its core, whatever frame is in hand */
static void cross_cut(cartvesper_device *device)
{
    const cartvesper_choice choice = random_choice();
    const lengths lent = whole(device->core.part);
    cartvesper_core core = device->core;
    start_memory = lib_memory;
    try_device_cut(device, choice, lent);
    singles_memory = lib_memory;
    lib_memory = plain_memory = start_memory;
    try_cut(&core, choice, lent);
    compare_kept("what is lent after a cut of the core (first) and of the device (second)");
    compare_cores("core after a cut: pins (first), frame (second)", &device->core, &core);
    counts.cut_models++;
}

static void cross_cuts(int count)
{
    for (int i = 0; i < count; i++) {
        cartvesper_device device = random_device();
        cross_cut(&device);
    }
}

/* a cell alone, marked or not and chosen or not, in a page and in an identification page: what is left is known */
static void sweep_cut_cell(uint8_t part, uint8_t kind, size_t cell)
{
    const uint64_t bit = 1ULL << cell % WORD;
    for (int way = 0; way < 4; way++) {
        cartvesper_core core = core_with(part, kind);
        cartvesper_choice choice = random_choice();
        const uint8_t *at = &waiting_cells(&core)[cell];
        const uint8_t old = *at, byte = (uint8_t)(old + 1 + below(255));
        core.waits.latch.marks[cell / WORD] &= ~bit;
        core.waits.latch.marks[cell / WORD] |= way & 1 ? bit : 0;
        core.waits.latch.bytes[cell] = way & 1 ? byte : 0;
        choice.words[cell / WORD] &= ~bit;
        choice.words[cell / WORD] |= way & 2 ? bit : 0;
        compare_numbers("a cut (second: wanted)", try_cut(&core, choice, whole(part)), 0);
        compare_numbers("the cell after a cut (second: wanted)", *at, way == 3 ? byte : old);
    }
}

static void sweep_cut_cells(uint8_t part)
{
    for (size_t cell = 0; cell < whole(part).cells; cell++)
        for (uint8_t kind = 2; kind <= (part == M95512 ? 2 : 3); kind++)
            sweep_cut_cell(part, kind, cell);
}

static size_t steps_left; /* frames and readings of a run before its cut */

static int step_taken(void)
{
    if (steps_left == 0)
        return 0;
    steps_left--;
    return 1;
}

/* frame_bytes, if the cut does not come before */
static int frame_sent(cartvesper_core *core, size_t length)
{
    if (!step_taken())
        return 0;
    try_frame(core, whole(core->part), 1, length, 8 * length, length);
    return 1;
}

static void put_poll(void)
{
    frame_bytes[0] = RDSR;
    frame_bytes[1] = 0;
}

/* the wait of a page part: gives 0 where the cut comes in it */
static int polled(cartvesper_core *core, uint32_t interval)
{
    do {
        put_poll();
        if (!step_taken())
            return 0;
        whole_reading(core, core->last + interval);
        if (!frame_sent(core, 2))
            return 0;
    } while (lib_out.bytes[1] & 1);
    return 1;
}

/* a run of run_bytes frame by frame, as the driver sends it with no cycle running (but that address bits that are
 * dropped are any), up to the cut. Gives the length of the frame that the cut comes before or into, which is in
 * frame_bytes; 0 where the run is done */
static size_t send_until_cut(cartvesper_core *core, uint32_t address, size_t length, uint32_t interval)
{
    const plain_row *row = plain_row_of(core->part);
    const size_t head = plain_head(row);
    put_poll();
    if (!frame_sent(core, 2))
        return 2;
    for (size_t at = 0, part; at < length; at += part) {
        part = row->page - (address + at) % row->page;
        if (part > length - at)
            part = length - at;
        frame_bytes[0] = WREN;
        if (!frame_sent(core, 1))
            return 1;
        put_address(row, address + (uint32_t)at);
        frame_bytes[0] = WRITE;
        memcpy(frame_bytes + head, run_bytes + at, part);
        if (!frame_sent(core, head + part))
            return head + part;
        if (!polled(core, interval))
            return 2;
    }
    return 0;
}

/* so many bits of frame_bytes drawn at the pins, from a select on; S stays low */
static void draw_at_pins(cartvesper_device *device, size_t bits, uint32_t mode)
{
    whole_event(device, SET_C, mode);
    whole_event(device, SET_S, 0);
    for (size_t bit = 0; bit < bits; bit++) {
        if (mode)
            whole_event(device, SET_C, 0);
        whole_event(device, SET_D, frame_bytes[bit / 8] >> (7 - bit % 8) & 1);
        whole_event(device, SET_C, 1);
        if (!mode)
            whole_event(device, SET_C, 0);
    }
}

/* frame_bytes up to some bit or to the last one, now and then in a pause; then the cut */
static void cut_inside(cartvesper_core *core, size_t length)
{
    cartvesper_device device;
    size_t bits = percent(30) ? 8 * length : below(8 * (uint32_t)length + 1);
    plain_device_power_up(&device, 0, 0, 1, 0, 0, 0, 0, 0);
    device.core = *core;
    whole_event(&device, SET_W, percent(50));
    draw_at_pins(&device, bits, percent(50));
    if (percent(20))
        whole_event(&device, SET_HOLD, 0);
    counts.in_frame += bits > 0;
    try_device_cut(&device, random_choice(), whole(core->part));
    *core = device.core;
}

/* inside the ranges, with no cycle running and the right number of blank cells; most without a protected block */
static cartvesper_core idle_core(void)
{
    cartvesper_core core = random_core();
    core.left = 0;
    memset(&core.waits, 0, sizeof core.waits);
    core.blank = plain_blank(lib_memory.bytes, whole(core.part).size);
    if (percent(70))
        core.bp1 = core.bp0 = 0;
    return core;
}

/* the whole run frame by frame, from start_memory: it leaves what the driver left. Gives how many steps it has */
static size_t steps_of(cartvesper_core core, const cartvesper_core *driven, uint32_t address, size_t length,
                       uint32_t interval)
{
    lib_memory = plain_memory = start_memory;
    steps_left = SIZE_MAX;
    send_until_cut(&core, address, length, interval);
    compare_cores("a run frame by frame (first), the driver's (second)", &core, driven);
    compare_kept("memory of a run frame by frame (first), the driver's (second)");
    lib_memory = plain_memory = start_memory;
    return SIZE_MAX - steps_left;
}

/* the run of so many steps once more, up to a cut between or inside its frames */
static void run_cut(cartvesper_core *core, uint32_t address, size_t length, uint32_t interval, size_t steps)
{
    steps_left = below((uint32_t)steps + 1);
    size_t next = send_until_cut(core, address, length, interval);
    counts.in_run += core->left > 0;
    if (next > 0 && percent(50))
        cut_inside(core, next);
    else
        try_cut(core, random_choice(), whole(core->part));
    check_right(core);
    if (percent(20))
        whole_reading(core, random_reading(core));
}

/* a run that begins with no cycle running and is done; then from the same start, cut, now and then more than once, and
 * sent again: the same memory */
static void try_cut_run(void)
{
    const cartvesper_core start = idle_core();
    const plain_row *row = plain_row_of(start.part);
    const lengths lent = whole(start.part);
    const uint32_t most = plain_most_polls(row), interval = 1 + (start.cycle - 1) / (1 + below(4));
    size_t length = 1 + below(percent(50) ? 12 : 3 * row->page);
    uint32_t address = (uint32_t)(random_address(row) % (row->size + 1 - length));
    cartvesper_core core = start;
    random_bytes(run_bytes, length);
    if (percent(50))
        sprinkle_blank(run_bytes, length);
    start_memory = lib_memory;
    if (try_write(&core, lent, address, length, interval, most) != 0)
        return;
    singles_memory = lib_memory;
    size_t steps = steps_of(start, &core, address, length, interval);
    core = start;
    do
        run_cut(&core, address, length, interval, steps);
    while (percent(20));
    compare_numbers("a write cut and sent again (second: wanted)",
                    try_write(&core, lent, address, length, interval, most), 0);
    compare_kept("memory of a write cut and sent again (first), uncut (second)");
    counts.cut_runs++;
}

static void cut_session(void)
{
    new_memory();
    try_cuts(200);
    cross_cuts(100);
    sweep_cut_cells((uint8_t)(current_round % PLAIN_PARTS));
    for (int i = 0; i < 100; i++)
        try_cut_run();
}

/* ---- a wrong number of blank cells changes no other answer: 02, Item 6. The library twice on the same input, but that
 * the second record, a twin of the first, has another number; the second is lent the plain side's bytes */

static void compare_twin_cores(const cartvesper_core *one, cartvesper_core other)
{
    other.blank = one->blank;
    compare_cores("the record but for the number (second: its twin's)", one, &other);
    counts.twins++;
}

static void compare_twin_devices(const cartvesper_device *one, cartvesper_device other)
{
    other.core.blank = one->core.blank;
    compare_devices("the record but for the number (second: its twin's)", one, &other);
    counts.twins++;
}

static void compare_twin_values(cartvesper_value one, cartvesper_value other)
{
    compare_numbers("the number (second: its twin's)", one.number, other.number);
    compare_numbers("the value (second: its twin's)", one.value, other.value);
    counts.twins++;
}

static void twin_readings(cartvesper_core core, cartvesper_core twin)
{
    const lengths lent = random_lengths(core.part, 5);
    uint32_t reading = random_reading(&core);
    begin_call(&core, NULL, "clock_reading %" PRIu32 ", its twin with %" PRIu32 " blank cells", reading, twin.blank);
    cartvesper_core_answer one = cartvesper_clock_reading(core, reading, LENT(lib_memory, lent));
    cartvesper_core_answer other = cartvesper_clock_reading(twin, reading, LENT(plain_memory, lent));
    compare_numbers("the number (second: its twin's)", one.number, other.number);
    compare_twin_cores(&one.core, other.core);
    compare_memory();
}

static void twin_cuts(const cartvesper_device *device, const cartvesper_device *twin)
{
    const lengths lent = random_lengths(device->core.part, 5);
    const cartvesper_choice choice = random_choice();
    start_memory = lib_memory;
    begin_cut(NULL, device, choice, lent);
    cartvesper_device_answer one = cartvesper_device_cut(*device, choice, LENT(lib_memory, lent));
    cartvesper_device_answer other = cartvesper_device_cut(*twin, choice, LENT(plain_memory, lent));
    compare_numbers("the number (second: its twin's)", one.number, other.number);
    compare_twin_devices(&one.device, other.device);
    compare_memory();
    lib_memory = plain_memory = start_memory;
    begin_cut(&device->core, NULL, choice, lent);
    cartvesper_core_answer core = cartvesper_cut(device->core, choice, LENT(lib_memory, lent));
    cartvesper_core_answer twin_core = cartvesper_cut(twin->core, choice, LENT(plain_memory, lent));
    compare_numbers("the number (second: its twin's)", core.number, twin_core.number);
    compare_twin_cores(&core.core, twin_core.core);
    compare_memory();
}

static void twin_frames(cartvesper_core core, cartvesper_core twin)
{
    const lengths lent = random_lengths(core.part, 5);
    size_t bits, length = random_frame(core.part, &bits, 0), room = off_by_one(length, 5);
    uint8_t w = (uint8_t)below(2);
    begin_call(&core, NULL, "frame of %zu bits, its twin with %" PRIu32 " blank cells", bits, twin.blank);
    hand.bytes = frame_bytes;
    hand.length = length;
    stale_outputs(output_span(length, room));
    cartvesper_frame_answer one =
        cartvesper_frame(core, LENT(lib_memory, lent), w, frame_bytes, length, bits, lib_out.bytes, room);
    cartvesper_frame_answer other =
        cartvesper_frame(twin, LENT(plain_memory, lent), w, frame_bytes, length, bits, plain_out.bytes, room);
    compare_numbers("the number (second: its twin's)", one.number, other.number);
    compare_numbers("the undriven count (second: its twin's)", one.undriven, other.undriven);
    compare_twin_cores(&one.core, other.core);
    compare_bytes("the output (or beside it)", lib_out.before, plain_out.before, output_span(length, room), GUARD);
    compare_memory();
}

static void twin_timed(cartvesper_core core, cartvesper_core twin)
{
    const lengths lent = random_lengths(core.part, 5);
    size_t bits, length = random_timed_frame(core.part, &bits), room = off_by_one(length, 5);
    uint8_t w = (uint8_t)below(2), mode = percent(50) ? 0 : 3;
    random_schedule(&core, bits);
    begin_call(&core, NULL, "timed frame of %zu bits, its twin with %" PRIu32 " blank cells", bits, twin.blank);
    hand.bytes = frame_bytes;
    hand.length = length;
    hand.timed = 1;
    stale_outputs(output_span(length, room));
    cartvesper_frame_answer one = cartvesper_timed_frame(core, LENT(lib_memory, lent), w, mode, frame_bytes, length,
                                                         bits, SCHEDULE, lib_out.bytes, room);
    cartvesper_frame_answer other = cartvesper_timed_frame(twin, LENT(plain_memory, lent), w, mode, frame_bytes,
                                                           length, bits, SCHEDULE, plain_out.bytes, room);
    compare_numbers("the number (second: its twin's)", one.number, other.number);
    compare_numbers("the undriven count (second: its twin's)", one.undriven, other.undriven);
    compare_twin_cores(&one.core, other.core);
    compare_bytes("the output (or beside it)", lib_out.before, plain_out.before, output_span(length, room), GUARD);
    compare_memory();
}

static void twin_writes(cartvesper_core core, cartvesper_core twin)
{
    const lengths lent = random_lengths(core.part, 5);
    size_t length = below(600);
    uint64_t address = random_run_address(plain_row_of(core.part), length);
    uint32_t interval = random_interval(&core), limit = random_limit(&core, interval);
    random_bytes(run_bytes, length);
    sprinkle_blank(run_bytes, length);
    begin_call(&core, NULL, "write of %zu bytes at %" PRIu64 ", its twin with %" PRIu32 " blank cells", length, address,
               twin.blank);
    cartvesper_driver_answer one =
        cartvesper_write(core, LENT(lib_memory, lent), address, run_bytes, length, interval, limit);
    cartvesper_driver_answer other =
        cartvesper_write(twin, LENT(plain_memory, lent), address, run_bytes, length, interval, limit);
    compare_numbers("the number (second: its twin's)", one.number, other.number);
    compare_numbers("pages done (second: its twin's)", one.pages, other.pages);
    compare_numbers("frames sent (second: its twin's)", one.frames, other.frames);
    compare_twin_cores(&one.core, other.core);
    compare_memory();
}

static void twin_questions(const cartvesper_device *device, const cartvesper_device *twin)
{
    const cartvesper_core core = device->core, other = twin->core;
    uint32_t address = random_question(core.part);
    begin_call(NULL, device, "what is asked, its twin with %" PRIu32 " blank cells", other.blank);
    compare_twin_values(cartvesper_core_in_ranges(core), cartvesper_core_in_ranges(other));
    compare_twin_values(cartvesper_core_status(core), cartvesper_core_status(other));
    compare_twin_values(cartvesper_core_lowest_protected(core), cartvesper_core_lowest_protected(other));
    compare_twin_values(cartvesper_core_protected(core, address), cartvesper_core_protected(other, address));
    compare_twin_values(cartvesper_core_touched(core), cartvesper_core_touched(other));
    compare_twin_values(cartvesper_device_q(*device), cartvesper_device_q(*twin));
    compare_twin_values(cartvesper_device_status(*device), cartvesper_device_status(*twin));
    compare_twin_values(cartvesper_device_touched(*device), cartvesper_device_touched(*twin));
    compare_twin_values(cartvesper_device_in_ranges(*device), cartvesper_device_in_ranges(*twin));
}

static void twin_events(const cartvesper_device *device, const cartvesper_device *twin)
{
    const lengths lent = random_lengths(device->core.part, 5);
    for (int kind = SET_S; kind <= CLOCK; kind++) {
        uint32_t value = kind == CLOCK ? random_reading(&device->core) : below(2);
        begin_call(NULL, device, "event %d.%" PRIu32 ", its twin with %" PRIu32 " blank cells", kind, value,
                   twin->core.blank);
        cartvesper_device_answer one = lib_event(device, kind, value, lent), other;
        start_memory = lib_memory;
        lib_memory = plain_memory; /* the twin's turn */
        other = lib_event(twin, kind, value, lent);
        plain_memory = lib_memory;
        lib_memory = start_memory;
        compare_numbers("the number (second: its twin's)", one.number, other.number);
        compare_twin_devices(&one.device, other.device);
        compare_memory();
    }
}

static void twin_lists(const cartvesper_device *device, const cartvesper_device *twin)
{
    const lengths lent = random_lengths(device->core.part, 5);
    new_script(device);
    size_t count = script_count, room = off_by_one(count, 5);
    begin_call(NULL, device, "device_play of %zu events, its twin with %" PRIu32 " blank cells", count,
               twin->core.blank);
    hand.events = script;
    hand.count = count;
    stale_outputs(output_span(count, room));
    cartvesper_device_answer one =
        cartvesper_device_play(*device, LENT(lib_memory, lent), script, count, lib_out.bytes, room);
    cartvesper_device_answer other =
        cartvesper_device_play(*twin, LENT(plain_memory, lent), script, count, plain_out.bytes, room);
    compare_numbers("the number (second: its twin's)", one.number, other.number);
    compare_twin_devices(&one.device, other.device);
    compare_bytes("the output (or beside it)", lib_out.before, plain_out.before, output_span(count, room), GUARD);
    compare_memory();
}

static void try_twins(int count)
{
    new_memory();
    for (int i = 0; i < count; i++) {
        cartvesper_device device = random_device(), twin = device;
        twin.core.blank = random_blank(device.core.part);
        twin_questions(&device, &twin);
        twin_readings(device.core, twin.core);
        twin_cuts(&device, &twin);
        twin_frames(device.core, twin.core);
        twin_timed(device.core, twin.core);
        twin_writes(device.core, twin.core);
        twin_events(&device, &twin);
        twin_lists(&device, &twin);
    }
}

/* ---- the two models against each other, through the library: 01 "Frames" */

static uint64_t leading_z;
static int driven_yet;

/* Q just before a counted edge: Z as 1 */
static void cross_bit(const cartvesper_device *device, const uint8_t *expected, size_t bit)
{
    uint32_t q = cartvesper_device_q(*device).value;
    uint32_t drawn = q == 2 ? 1 : q, frame = expected[bit / 8] >> (7 - bit % 8) & 1;
    driven_yet |= q != 2;
    leading_z += !driven_yet;
    if (drawn != frame)
        fail_numbers("Q before a counted edge (first: pins, second: frame's output bit)", drawn, frame);
}

/* a pause begins and ends while C is low; C and D move inside, S does not, W is set to the level it has */
static void cross_pause(cartvesper_device *device)
{
    whole_event(device, SET_HOLD, 0);
    for (uint32_t moves = below(12); moves > 0; moves--) {
        int kind = (int)(SET_C + below(3));
        whole_event(device, kind, kind == SET_W ? device->pins.w : below(2));
    }
    whole_event(device, SET_C, 0);
    whole_event(device, SET_HOLD, 1);
}

static void maybe_pause(cartvesper_device *device, uint32_t pauses)
{
    while (percent(pauses))
        cross_pause(device);
}

/* D may move between edges; redundant settings change nothing */
static void idle_moves(cartvesper_device *device, uint32_t pauses)
{
    const cartvesper_pins *pins = &device->pins;
    const uint8_t levels[] = {pins->s, pins->c, pins->d, pins->w, pins->hold};
    while (percent(pauses)) {
        int kind = (int)below(5);
        whole_event(device, kind, kind == SET_D ? below(2) : levels[kind]);
    }
}

static size_t next_reading; /* of the schedule */

/* 02, Item 12: the readings after so many whole bytes, after the falling edge in mode 0 and before it in mode 3; never
 * in a pause, which C low (mode 0) allows between them */
static void cross_readings(cartvesper_device *device, size_t position, int mode, uint32_t pauses)
{
    while (next_reading < schedule.places && schedule.positions[next_reading] == position) {
        if (!mode)
            maybe_pause(device, pauses);
        idle_moves(device, pauses);
        whole_event(device, CLOCK, schedule.readings[next_reading++]);
    }
}

static void cross_edge(cartvesper_device *device, size_t bit, int mode, uint32_t pauses, const uint8_t *expected)
{
    if (mode)
        whole_event(device, SET_C, 0);
    idle_moves(device, pauses);
    maybe_pause(device, pauses);
    whole_event(device, SET_D, frame_bytes[bit / 8] >> (7 - bit % 8) & 1);
    cross_bit(device, expected, bit);
    whole_event(device, SET_C, 1);
    idle_moves(device, pauses);
    if (!mode)
        whole_event(device, SET_C, 0);
}

/* the whole drawing of a frame, from an unselected device */
static void cross_draw(cartvesper_device *device, size_t bits, int mode, uint32_t pauses, const uint8_t *expected)
{
    leading_z = 0;
    driven_yet = 0;
    whole_event(device, SET_C, (uint32_t)mode);
    next_reading = 0;
    whole_event(device, SET_S, 0);
    cross_readings(device, 0, mode, pauses);
    for (size_t bit = 0; bit < bits; bit++) {
        cross_edge(device, bit, mode, pauses, expected);
        if (bit % 8 == 7)
            cross_readings(device, (bit + 1) / 8, mode, pauses);
    }
    if (!mode)
        maybe_pause(device, pauses);
    whole_event(device, SET_S, 1);
}

/* then both cycles end: the memories must agree too */
static void cross_memory(cartvesper_device *device, cartvesper_core *core)
{
    uint32_t reading = random_reading(core);
    start_memory = lib_memory;
    whole_event(device, CLOCK, reading);
    singles_memory = lib_memory;
    lib_memory = plain_memory = start_memory;
    whole_reading(core, reading);
    compare_lent("what is lent after frame (first) and pins (second)", &lib_memory, &singles_memory);
    compare_cores("core after the reading: pins (first), frame (second)", &device->core, core);
}

/* the output's bits past the bit count are 1 */
static void cross_tail(const uint8_t *out, size_t length, size_t bits)
{
    for (size_t bit = bits; bit < 8 * length; bit++)
        if ((out[bit / 8] >> (7 - bit % 8) & 1) == 0)
            fail("a bit past the bit count is 0 in the frame's output");
}

/* frame_bytes, by the frame call and drawn at the pins */
static void cross_given(cartvesper_device *device, size_t length, size_t bits, uint32_t pauses)
{
    static uint8_t expected[LONGEST + 1];
    cartvesper_core core = device->core;
    const lengths lent = whole(core.part);
    uint8_t w = (uint8_t)percent(70);
    cartvesper_frame_answer answer =
        cartvesper_frame(core, LENT(lib_memory, lent), w, frame_bytes, length, bits, expected, length);
    try_frame(&core, lent, w, length, bits, length);
    compare_numbers("frame number", answer.number, 0);
    cross_tail(expected, length, bits);
    whole_event(device, SET_W, w);
    schedule.places = schedule.times = 0;
    cross_draw(device, bits, percent(50), pauses, expected);
    counts.drawn++;
    begin_call(&core, NULL, "frame %02X of %zu bits drawn (record: after the frame)", length ? frame_bytes[0] : 0,
               bits);
    compare_numbers("leading Z (first: pins, second: frame's undriven)", leading_z, answer.undriven);
    compare_numbers("status (first: pins, second: frame)", cartvesper_device_status(*device).value,
                    cartvesper_core_status(core).value);
    compare_numbers("time left (first: pins, second: frame)", device->core.left, core.left);
    compare_cores("core (library: pins, plain: frame)", &device->core, &core);
    compare_memory();
    if (percent(50))
        cross_memory(device, &core);
}

/* frame_bytes with the schedule's readings, by the timed call and drawn at the pins */
static void cross_timed(cartvesper_device *device, size_t length, size_t bits, int mode, uint32_t pauses)
{
    static uint8_t expected[LONGEST + 1];
    cartvesper_core core = device->core;
    const lengths lent = whole(core.part);
    uint8_t w = (uint8_t)percent(70);
    int ends = core.left > 0 && ending(&core) < schedule.places;
    start_memory = lib_memory;
    cartvesper_frame_answer answer =
        cartvesper_timed_frame(core, LENT(lib_memory, lent), w, mode ? CARTVESPER_MODE3 : CARTVESPER_MODE0, frame_bytes,
                               length, bits, SCHEDULE, expected, length);
    lib_memory = start_memory;
    compare_numbers("timed frame number", try_timed(&core, lent, w, mode ? 3 : 0, length, bits, length), 0);
    cross_tail(expected, length, bits);
    singles_memory = lib_memory;
    lib_memory = plain_memory = start_memory;
    whole_event(device, SET_W, w);
    cross_draw(device, bits, mode, pauses, expected);
    begin_call(&core, NULL, "timed frame %02X of %zu bits drawn in mode %d (record: after the frame)",
               length ? frame_bytes[0] : 0, bits, mode ? 3 : 0);
    hand.timed = 1;
    compare_numbers("readings at the pins (second: of the lists)", next_reading, schedule.places);
    compare_numbers("leading Z (first: pins, second: frame's undriven)", leading_z, answer.undriven);
    compare_cores("core (library: pins, plain: frame)", &device->core, &core);
    compare_lent("what is lent after pins (first) and the timed frame (second)", &lib_memory, &singles_memory);
    counts.timed_drawn[mode]++;
    counts.drawn_ends[mode] += (uint64_t)ends;
}

static void cross_frame(cartvesper_device *device, int longest)
{
    static const uint8_t long_codes[] = {READ, READ, WRITE, RDID, WRID};
    const uint8_t part = device->core.part;
    size_t bits, length;
    do
        length = random_frame(part, &bits, longest);
    while (length > plain_longest_frame(plain_row_of(part)));
    if (longest && percent(70))
        frame_bytes[0] = long_codes[below(sizeof long_codes)];
    cross_given(device, length, bits, longest ? 0 : percent(50) ? below(30) : 0);
}

/* a device with no frame in hand, of a part: half of them would take an 82h */
static cartvesper_device device_about_page(uint8_t part)
{
    cartvesper_device device;
    plain_device_power_up(&device, part, 0, 1, 0, 0, 0, 0, 0);
    device.core = random_core_of(part);
    if (percent(50)) {
        plain_core_power_up(&device.core, part, 0, random_cycle(part), percent(50), percent(30), 0, random_clock(),
                            random_blank(part));
        device.core.wel = 1;
    }
    return device;
}

/* frame_bytes: an instruction with an address whose bit 10 is given, and data */
static void page_frame(uint8_t part, uint8_t code, int lock, size_t length)
{
    const plain_row *row = plain_row_of(part);
    uint32_t address = random_page_address(row), head = plain_head(row);
    random_bytes(frame_bytes, length <= head ? head + 1 : length);
    frame_bytes[0] = code;
    put_address(row, lock ? address | LOCK_ADDRESS : address & ~LOCK_ADDRESS);
}

/* 82h and 83h, of each part, with address bit 10 either way and each count from 0 to 56 bits */
static void sweep_counts(void)
{
    for (size_t bits = 0; bits <= 56; bits++)
        for (unsigned kind = 0; kind < 4 * PLAIN_PARTS; kind++) {
            uint8_t part = (uint8_t)(kind / 4);
            cartvesper_device device = device_about_page(part);
            page_frame(part, kind & 2 ? RDID : WRID, kind & 1, 7);
            cross_given(&device, (bits + 7) / 8, bits, percent(30) ? 10 : 0);
        }
}

/* an 82h of a part that knows it, which meets every test, or fails one or two: a cycle, WEL, the count, the lock,
 * BP 11, data bit 1 */
static void try_conditions(int count)
{
    for (int i = 0; i < count; i++) {
        uint32_t faults = percent(25) ? 0 : 1u << below(6) | (percent(25) ? 1u << below(6) : 0);
        uint8_t part = identified_part();
        const plain_row *row = plain_row_of(part);
        int lock = percent(50);
        size_t head = plain_head(row), more = lock ? 0 : percent(80) ? below(4) : below(row->page + 8);
        size_t length = head + 1 + more, bits = 8 * length;
        cartvesper_device device;
        plain_device_power_up(&device, part, faults >> 3 & 1, random_cycle(part), percent(50), 0, 0, random_clock(),
                              random_blank(part));
        device.core.bp1 = faults & 16 || percent(30);
        device.core.bp0 = faults & 16 || (!device.core.bp1 && percent(30));
        if (faults & 1)
            begin_cycle(&device.core);
        if (!(faults & 1) || part == M95M01) /* a cycle of the M95512-D has WEL 1 */
            device.core.wel = !(faults & 2);
        page_frame(part, WRID, lock, length + 1);
        frame_bytes[head] = (uint8_t)(faults & 32 ? frame_bytes[head] & ~LOCK_DATA : frame_bytes[head] | LOCK_DATA);
        if (faults & 4)
            bits = bits + (lock && percent(30) ? 8 : percent(50) ? 1 + below(7) : 0 - 1 - (size_t)below(7));
        cross_given(&device, (bits + 7) / 8, bits, percent(30) ? 10 : 0);
    }
}

/* READ and WRITE of a few bytes at the edges of the memory, of its halves and of its pages, of each part */
static void try_addressed(int count)
{
    for (int i = 0; i < count; i++) {
        uint8_t part = (uint8_t)below(PLAIN_PARTS);
        const plain_row *row = plain_row_of(part);
        const uint32_t ends[] = {row->size, row->size / 2, row->page * (1 + below(PAGES))};
        size_t length = plain_head(row) + below(8);
        cartvesper_device device;
        plain_device_power_up(&device, part, 0, random_cycle(part), 0, percent(30), percent(30), random_clock(),
                              random_blank(part));
        device.core.wel = (uint8_t)percent(80);
        random_bytes(frame_bytes, length);
        frame_bytes[0] = percent(50) ? READ : WRITE;
        put_address(row, percent(30) ? random_address(row) : ends[below(3)] - 1 - below(4));
        cross_given(&device, length, 8 * length, percent(30) ? 10 : 0);
    }
}

/* WRDI, WREN and RDSR in a cycle, of each part, with WEL 1 and of the M95M01 with WEL 0 too: with 8 bits, with 16, and
 * with a part of a byte */
static void try_in_cycle(int count)
{
    static const uint8_t codes[] = {WRDI, WRDI, WREN, RDSR};
    static const uint8_t bit_counts[] = {8, 8, 8, 16, 16, 7, 9};
    for (int i = 0; i < count; i++) {
        uint8_t part = (uint8_t)below(PLAIN_PARTS);
        cartvesper_device device;
        plain_device_power_up(&device, part, percent(50), random_cycle(part), percent(30), percent(30), percent(30),
                              random_clock(), random_blank(part));
        begin_cycle(&device.core);
        for (uint32_t frames = 1 + below(3); frames > 0; frames--) {
            size_t bits = bit_counts[below(sizeof bit_counts)];
            random_bytes(frame_bytes, 2);
            frame_bytes[0] = codes[below(sizeof codes)];
            cross_given(&device, (bits + 7) / 8, bits, percent(30) ? 10 : 0);
        }
    }
}

/* a frame drawn in mode 0, with Q at Z throughout, and dropped in a pause, C either way: of those that would be
 * executed only a WRITE is */
static void drop_in_hold(cartvesper_device *device, size_t bits)
{
    static const uint8_t undriven[7] = {0xFF, 0xFF, 0xFF, 0xFF, 0xFF, 0xFF, 0xFF};
    const cartvesper_core before = device->core;
    whole_event(device, SET_C, 0);
    whole_event(device, SET_S, 0);
    for (size_t bit = 0; bit < bits; bit++)
        cross_edge(device, bit, 0, 0, undriven);
    whole_event(device, SET_HOLD, 0);
    if (percent(50))
        whole_event(device, SET_C, 1);
    whole_event(device, SET_S, 1);
    begin_call(&before, NULL, "frame %02X of %zu bits dropped in Hold (record: before it)", frame_bytes[0], bits);
    if (frame_bytes[0] == WRITE)
        compare_numbers("a WRITE dropped in Hold: time left (second: wanted)", device->core.left, before.cycle);
    else
        compare_cores("dropped in Hold: pins (first), before it (second)", &device->core, &before);
}

/* frames that would be executed: of the page, of the lock, and, beside them, of the memory */
static void try_in_hold(int count)
{
    for (int i = 0; i < count; i++) {
        cartvesper_device device;
        uint8_t part = identified_part();
        uint32_t head = plain_head(plain_row_of(part));
        int lock = percent(40), write = percent(20);
        plain_device_power_up(&device, part, 0, random_cycle(part), 0, 0, 0, random_clock(), random_blank(part));
        device.core.wel = 1;
        page_frame(part, write ? WRITE : WRID, lock, head + 3);
        frame_bytes[head] |= LOCK_DATA;
        drop_in_hold(&device, 8 * (head + 1 + (lock ? 0 : below(3))));
    }
}

/* a WRDI in a cycle, dropped in a pause: WEL stays, on the M95M01 too */
static void try_wrdi_in_hold(int count)
{
    for (int i = 0; i < count; i++) {
        cartvesper_device device;
        uint8_t part = (uint8_t)below(PLAIN_PARTS);
        plain_device_power_up(&device, part, 0, random_cycle(part), 0, 0, 0, random_clock(), random_blank(part));
        begin_cycle(&device.core);
        device.core.wel = 1;
        frame_bytes[0] = WRDI;
        drop_in_hold(&device, 8);
    }
}

static void cross_session(int frames)
{
    cartvesper_device device;
    which one = random_which(0);
    new_memory();
    try_device_power_up(&device, one, random_cycle(one.part), percent(20), percent(20), percent(30), random_clock());
    if (percent(30))
        device.core = random_core();
    for (int i = 0; i < frames; i++) {
        cross_frame(&device, below(1000) == 0);
        if (percent(20))
            cross_cut(&device);
    }
}

/* timed frames drawn at the pins: a cycle runs at the start of most */
static void cross_timed_session(int frames)
{
    cartvesper_device device;
    which one = random_which(0);
    size_t bits, length;
    new_memory();
    try_device_power_up(&device, one, random_cycle(one.part), percent(20), percent(20), percent(30), random_clock());
    for (int i = 0; i < frames; i++) {
        do
            length = random_timed_frame(one.part, &bits);
        while (length > 600);
        if (device.core.left == 0 && percent(70))
            begin_cycle(&device.core);
        random_schedule(&device.core, bits);
        cross_timed(&device, length, bits, percent(50), percent(50) ? below(30) : 0);
        if (percent(10))
            cross_cut(&device);
    }
    check_right(&device.core);
}

/* timed frames, plain ones and readings, one after the other */
static void timed_session(int steps)
{
    new_memory();
    cartvesper_core core = random_core();
    core.blank = plain_blank(lib_memory.bytes, whole(core.part).size);
    for (int i = 0; i < steps; i++) {
        if (core.left == 0 && percent(40))
            begin_cycle(&core);
        if (percent(70))
            timed_step(&core);
        else if (percent(70))
            frame_step(&core);
        else
            try_reading(&core, random_reading(&core), random_lengths(core.part, 2));
        if (percent(5))
            cut_step(&core);
        if (percent(5))
            check_right(&core);
    }
    check_right(&core);
}

/* ---- the cases of document 01 that are about the chip, with the values it gives */

static size_t case_bytes(const char *hex)
{
    size_t length = 0;
    for (char *end = (char *)hex; *end != 0; length++)
        frame_bytes[length] = (uint8_t)strtoul(end, &end, 16);
    return length;
}

static void case_frame(cartvesper_core *core, const char *hex, size_t bits)
{
    size_t length = case_bytes(hex);
    try_frame(core, whole(core->part), 1, length, bits ? bits : 8 * length, length);
}

static void case_start_of(cartvesper_core *core, uint8_t part, int bits)
{
    memset(&lib_memory, 0xFF, sizeof lib_memory);
    plain_memory = lib_memory;
    try_power_up(core, (which){part, 0}, plain_row_of(part)->longest_cycle, (uint8_t)bits >> 2 & 1,
                 (uint8_t)bits >> 1 & 1, (uint8_t)bits & 1, 4294967290);
    case_frame(core, "06", 0);
}

static void case_start(cartvesper_core *core, int bits)
{
    case_start_of(core, M95512, bits);
}

static void case_expect(const char *what, uint32_t got, uint32_t wanted)
{
    if (got != wanted)
        fail_numbers(what, got, wanted);
}

static void cases_a_b(void)
{
    cartvesper_core core;
    case_start(&core, 0);
    case_frame(&core, "02 00 7E 11 22 33 44", 55);
    case_expect("case b: time left (second: wanted)", core.left, 0);
    case_frame(&core, "02 00 7E 11 22 33 44 55", 57);
    case_expect("case b: time left (second: wanted)", core.left, 0);
    case_frame(&core, "02 00 7E 11 22 33 44", 0);
    case_expect("case a: cells touched (second: wanted)", cartvesper_core_touched(core).value, 4);
    whole_reading(&core, 10); /* case i: 16 elapsed */
    case_expect("case i: time left (second: wanted)", core.left, 4984);
    case_frame(&core, "03 00 7E 00 00", 0);
    case_expect("case k: Q in a cycle (second: wanted)", lib_out.bytes[3], 0xFF);
    whole_reading(&core, 10 + 4984);
    case_expect("case a: cells touched after it (second: wanted)", cartvesper_core_touched(core).value, 0);
    case_expect("case a: 007Eh (second: wanted)", lib_memory.bytes[0x7E], 0x11);
    case_expect("case a: 007Fh (second: wanted)", lib_memory.bytes[0x7F], 0x22);
    case_expect("case a: 0000h (second: wanted)", lib_memory.bytes[0], 0x33);
    case_expect("case a: 0001h (second: wanted)", lib_memory.bytes[1], 0x44);
    case_expect("case a: 0080h (second: wanted)", lib_memory.bytes[0x80], 0xFF);
    lib_memory.bytes[0xFFFF] = plain_memory.bytes[0xFFFF] = 0x5A;
    case_frame(&core, "03 FF FF 00 00", 0);
    case_expect("case f: cell FFFFh (second: wanted)", lib_out.bytes[3], 0x5A);
    case_expect("case f: cell 0000h (second: wanted)", lib_out.bytes[4], 0x33);
    case_frame(&core, "06 00", 0);
    case_expect("case j: WEL (second: wanted)", core.wel, 0);
}

static void case_c(void)
{
    cartvesper_core core;
    case_start(&core, 0);
    memset(frame_bytes, 0, 3);
    frame_bytes[0] = WRITE;
    for (int i = 0; i < 130; i++)
        frame_bytes[3 + i] = (uint8_t)i;
    try_frame(&core, whole(M95512), 1, 133, 8 * 133, 133);
    case_expect("case c: cells touched (second: wanted)", cartvesper_core_touched(core).value, 128);
    whole_reading(&core, core.last + 5000);
    case_expect("case c: cell 0 (second: wanted)", lib_memory.bytes[0], 0x80);
    case_expect("case c: cell 1 (second: wanted)", lib_memory.bytes[1], 0x81);
    case_expect("case c: cell 2 (second: wanted)", lib_memory.bytes[2], 0x02);
}

static void cases_d_e(void)
{
    cartvesper_core core;
    case_start(&core, 1);
    case_frame(&core, "02 C0 00 11", 0);
    case_expect("case d: C000h, time left (second: wanted)", core.left, 0);
    case_frame(&core, "02 BF FF 11", 0);
    case_expect("case d: BFFFh, time left (second: wanted)", core.left, 5000);
    case_start(&core, 7);
    case_expect("case e: with WEL (second: wanted)", cartvesper_core_status(core).value, 0x8E);
    case_frame(&core, "01 8C", 0);
    case_expect("case e: in a cycle (second: wanted)", cartvesper_core_status(core).value, 0x8F);
    case_expect("case e: cells touched by a status (second: wanted)", cartvesper_core_touched(core).value, 0);
    whole_reading(&core, core.last + 5000);
    case_expect("case e: idle (second: wanted)", cartvesper_core_status(core).value, 0x8C);
}

/* case h, case l, what the ends of the ranges do, and the protected block */
static void case_run(cartvesper_core *core, const char *what, uint64_t address, size_t length, uint32_t interval,
                     uint32_t limit, uint32_t number, uint32_t pages, uint32_t frames)
{
    memset(run_bytes, 0x5A, length);
    uint64_t pages_before = counts.pages, frames_before = counts.sent;
    case_expect(what, try_write(core, whole(core->part), address, length, interval, limit), number);
    case_expect(what, (uint32_t)(counts.pages - pages_before), pages);
    case_expect(what, (uint32_t)(counts.sent - frames_before), frames);
}

static void case_write_of(uint8_t part, const char *what, uint64_t address, size_t length, uint32_t interval,
                          uint32_t limit, uint32_t number, uint32_t pages, uint32_t frames)
{
    cartvesper_core core;
    case_start_of(&core, part, 1);
    case_run(&core, what, address, length, interval, limit, number, pages, frames);
}

static void case_write(const char *what, uint64_t address, size_t length, uint32_t interval, uint32_t limit,
                       uint32_t number, uint32_t pages, uint32_t frames)
{
    case_write_of(M95512, what, address, length, interval, limit, number, pages, frames);
}

/* one byte at C000h after a WRSR, whose cycle of 5,000 the first wait meets; gives the status byte that the run
 * leaves */
static void case_moved(const char *what, int bits, const char *wrsr, uint32_t limit, uint32_t number, uint32_t pages,
                       uint32_t frames, uint32_t status)
{
    cartvesper_core core;
    case_start(&core, bits);
    case_frame(&core, wrsr, 0);
    case_run(&core, what, 0xC000, 1, 5000, limit, number, pages, frames);
    case_expect(what, cartvesper_core_status(core).value, status);
}

static void cases_protected(void)
{
    cartvesper_core core;
    case_write("ends one cell below the block (second: wanted)", 0xBFFE, 2, 5000, 1, 0, 1, 1 + 3);
    case_write("ends in its first cell (second: wanted)", 0xBFFE, 3, 5000, 1, 13, 0, 1);
    case_write("crosses into it (second: wanted)", 0xBF00, 400, 5000, 1, 13, 0, 1);
    case_write("lies in it (second: wanted)", 0xFFFF, 1, 5000, 1, 13, 0, 1);
    case_write("the whole memory (second: wanted)", 0, 65536, 1000, 5, 13, 0, 1);
    case_write("no data at a protected address (second: wanted)", 0xC000, 0, 5000, 1, 0, 0, 0);
    case_start(&core, 3);
    case_run(&core, "BP 11 (second: wanted)", 0, 1, 5000, 1, 13, 0, 1);
    case_expect("WEL stays (second: wanted)", cartvesper_core_status(core).value, 0x0E);
    case_moved("BP 00 to 01 (second: wanted)", 0, "01 04", 2, 13, 0, 2, 0x04);
    case_moved("BP 01 to 00 (second: wanted)", 1, "01 00", 2, 0, 1, 2 + 3, 0x00);
    case_moved("BP 00 to 01, limit 1 (second: wanted)", 0, "01 04", 1, 9, 0, 1, 0x03);
    case_moved("BP 01 to 00, limit 1 (second: wanted)", 1, "01 00", 1, 9, 0, 1, 0x07);
}

static void cases_h_l(void)
{
    case_write("case h, interval 1,000 (second: wanted)", 100, 300, 1000, 5001, 0, 4, 29);
    case_write("case h, interval 700 (second: wanted)", 100, 300, 700, 5001, 0, 4, 1 + 4 * (2 + 8));
    case_write("case l (second: wanted)", 100, 300, 1000, 4, 9, 0, 1 + 2 + 4);
    case_write("interval 1, 5,000 polls (second: wanted)", 0, 1, 1, 5001, 0, 1, 1 + 2 + 5000);
    case_write("interval 5,000 (second: wanted)", 0, 1, 5000, 1, 0, 1, 1 + 2 + 1);
    case_write("interval 0 (second: wanted)", 0, 1, 0, 1, 8, 0, 0);
    case_write("interval 5,001 (second: wanted)", 0, 1, 5001, 1, 8, 0, 0);
    case_write("limit 0 (second: wanted)", 0, 1, 1, 0, 8, 0, 0);
    case_write("limit 5,002 (second: wanted)", 0, 1, 1, 5002, 8, 0, 0);
    case_write("no data at 65,536 (second: wanted)", 65536, 0, 1, 1, 0, 0, 0);
    case_write("no data at 65,537 (second: wanted)", 65537, 0, 1, 1, 7, 0, 0);
    case_write("one byte at 65,536 (second: wanted)", 65536, 1, 1, 1, 7, 0, 0);
    case_write("a sum of 0 in 64 bits (second: wanted)", UINT64_MAX, 1, 1, 1, 7, 0, 0);
    case_write("a sum of 0 in 32 bits (second: wanted)", 0xFFFFFFFF, 1, 1, 1, 7, 0, 0);
}

/* what waits of the identification page and its lock, with a cycle begun by hand */
static void case_wait(cartvesper_core *core, uint8_t kind, const cartvesper_latch *latch)
{
    core->wel = 1;
    core->left = core->cycle;
    core->waits.kind = kind;
    core->waits.latch = *latch;
}

static void cases_identification(void)
{
    const cartvesper_latch none = {{0}, {0}};
    cartvesper_latch three = laid(laid(one_cell(0, 0x20), one_cell(64, 0x21)), one_cell(127, 0x22));
    cartvesper_core core;
    memset(&lib_memory, 0xFF, sizeof lib_memory);
    plain_memory = lib_memory;
    try_power_up(&core, (which){1, 0}, 5000, 0, 0, 0, 4294967290);
    case_expect("the part (second: wanted)", core.part, M95512D);
    case_wait(&core, 3, &three);
    case_expect("cells touched of the identification page (second: wanted)", cartvesper_core_touched(core).value, 3);
    whole_reading(&core, core.last + 4999);
    case_expect("its first cell before the end (second: wanted)", lib_memory.identification[0], 0xFF);
    whole_reading(&core, core.last + 1);
    case_expect("its cell 0 (second: wanted)", lib_memory.identification[0], 0x20);
    case_expect("its cell 1 (second: wanted)", lib_memory.identification[1], 0xFF);
    case_expect("its cell 64 (second: wanted)", lib_memory.identification[64], 0x21);
    case_expect("its cell 127 (second: wanted)", lib_memory.identification[127], 0x22);
    case_expect("the memory's cell 0 (second: wanted)", lib_memory.bytes[0], 0xFF);
    case_expect("the lock after it (second: wanted)", core.lock, 0);
    case_expect("the status after it (second: wanted)", cartvesper_core_status(core).value, 0x00);
    case_wait(&core, 4, &none);
    case_expect("cells touched by the lock (second: wanted)", cartvesper_core_touched(core).value, 0);
    whole_reading(&core, core.last + 4999);
    case_expect("the lock before the end (second: wanted)", core.lock, 0);
    whole_reading(&core, core.last + 1);
    case_expect("the lock (second: wanted)", core.lock, 1);
    case_expect("the status after it (second: wanted)", cartvesper_core_status(core).value, 0x00);
}

/* 82h and 83h by hand: the identification page */
static void cases_page(void)
{
    cartvesper_core core;
    case_start_of(&core, M95512D, 0);
    case_frame(&core, "82 00 7E 11 22 33 44", 55);
    case_frame(&core, "82 00 7E 11 22 33 44 55", 57);
    case_frame(&core, "82 00 7E", 0);
    case_expect("82h with 55, 57 and 24 bits: time left (second: wanted)", core.left, 0);
    case_frame(&core, "82 00 7E 11 22 33 44", 0);
    case_expect("82h: time left (second: wanted)", core.left, 5000);
    case_expect("82h: what waits (second: wanted)", core.waits.kind, 3);
    case_expect("82h: cells touched (second: wanted)", cartvesper_core_touched(core).value, 4);
    case_frame(&core, "83 00 7E 00", 0);
    case_expect("83h in a cycle (second: wanted)", lib_out.bytes[3], 0xFF);
    whole_reading(&core, core.last + 5000);
    case_expect("82h: cell 126 (second: wanted)", lib_memory.identification[126], 0x11);
    case_expect("82h: cell 1 (second: wanted)", lib_memory.identification[1], 0x44);
    case_expect("82h: the memory's cell 007Eh (second: wanted)", lib_memory.bytes[0x7E], 0xFF);
    case_frame(&core, "83 FB FF 00 00", 0); /* the upper bits do not matter */
    case_expect("83h: cell 127 (second: wanted)", lib_out.bytes[3], 0x22);
    case_expect("83h: cell 0 (second: wanted)", lib_out.bytes[4], 0x33);
    case_start_of(&core, M95512D, 3);
    case_frame(&core, "82 00 00 55", 0);
    case_frame(&core, "82 04 00 02", 0);
    case_expect("BP 11: time left (second: wanted)", core.left, 0);
    case_expect("BP 11: the status (second: wanted)", cartvesper_core_status(core).value, 0x0E);
    case_start_of(&core, M95512D, 6);
    memcpy(frame_bytes, "\x82\xFB\xFF\x55", 4);
    try_frame(&core, whole(M95512D), 0, 4, 32, 4);
    case_expect("SRWD and W low, BP 10: time left (second: wanted)", core.left, 5000);
}

/* the lock; and the M95512, which knows neither code */
static void cases_lock(void)
{
    cartvesper_core core;
    case_start_of(&core, M95512D, 0);
    case_frame(&core, "83 04 00 00 00", 0);
    case_expect("83h: a lock that is not set (second: wanted)", lib_out.bytes[3], 0x00);
    case_frame(&core, "82 04 00 FD", 0);
    case_frame(&core, "82 04 00 02 02", 0);
    case_frame(&core, "82 04 00 02", 31);
    case_frame(&core, "82 04 00 02 00", 33);
    case_expect("no lock: time left (second: wanted)", core.left, 0);
    case_frame(&core, "82 FF FF 02", 0);
    case_expect("the lock: what waits (second: wanted)", core.waits.kind, 4);
    case_expect("the lock in its cycle (second: wanted)", core.lock, 0);
    whole_reading(&core, core.last + 5000);
    case_expect("the lock after it (second: wanted)", core.lock, 1);
    case_frame(&core, "83 04 00 00 00", 0);
    case_expect("83h: the lock (second: wanted)", lib_out.bytes[3], 0x01);
    case_expect("83h: again (second: wanted)", lib_out.bytes[4], 0x01);
    case_frame(&core, "06", 0);
    case_frame(&core, "82 00 00 55", 0);
    case_frame(&core, "82 04 00 02", 0);
    case_expect("82h when locked: the status (second: wanted)", cartvesper_core_status(core).value, 0x02);
    case_start_of(&core, M95512, 0);
    case_frame(&core, "82 00 00 55", 0);
    case_frame(&core, "82 04 00 02", 0);
    case_expect("82h on the M95512: the status (second: wanted)", cartvesper_core_status(core).value, 0x02);
    case_frame(&core, "83 04 00 00", 0);
    case_expect("83h on the M95512 (second: wanted)", lib_out.bytes[3], 0xFF);
}

/* one thing outside its range, alone; 1 before 2 */
static void case_refused(const char *what, cartvesper_core core, lengths lent, uint32_t number)
{
    cartvesper_core sent = core;
    cartvesper_device device;
    plain_device_power_up(&device, 0, 0, 1, 0, 0, 0, 0, 0);
    device.core = core;
    memset(frame_bytes, 0, 5);
    for (frame_bytes[0] = WRID; frame_bytes[0] <= RDID; frame_bytes[0]++)
        case_expect(what, try_frame(&sent, lent, 1, 5, 40, 5), number);
    schedule.places = schedule.times = 0;
    case_expect(what, try_timed(&sent, lent, 1, CARTVESPER_MODE3, 5, 40, 5), number);
    case_expect(what, try_event(&device, SET_C, 1, lent), number);
    case_expect(what, try_device_cut(&device, random_choice(), lent), number);
    sent = core;
    case_expect(what, try_cut(&sent, random_choice(), lent), number);
    case_expect(what, try_reading(&core, core.last + core.left, lent), number);
}

static void case_own(const char *what, cartvesper_core core, uint32_t number)
{
    case_refused(what, core, whole(core.part), number);
}

static void cases_parts(void)
{
    const cartvesper_latch none = {{0}, {0}}, one = one_cell(5, 0x33);
    cartvesper_core plain_part, other, core;
    try_power_up(&plain_part, (which){M95512, 1}, 5000, 0, 0, 0, 0);
    case_expect("the lock of the M95512 is kept (second: wanted)", plain_part.lock, 1);
    try_power_up(&other, (which){M95512D, 1}, 5000, 0, 0, 0, 0);
    case_refused("a page of 127 (second: wanted)", other, (lengths){65536, 127}, 1);
    case_refused("a page of 129 (second: wanted)", other, (lengths){65536, 129}, 1);
    case_refused("no page, on the M95512 too (second: wanted)", plain_part, (lengths){65536, 0}, 1);
    core = other;
    core.part = 3;
    case_own("part 3 (second: wanted)", core, 2);
    case_refused("part 3, a page of 127 (second: wanted)", core, (lengths){65536, 127}, 1);
    case_refused("part 3, the sizes of the M95M01 (second: wanted)", core, whole(M95M01), 1);
    core = plain_part;
    core.lock = 2;
    case_own("lock 2, on the M95512 too (second: wanted)", core, 2);
    for (uint8_t kind = 3; kind <= 4; kind++) {
        core = plain_part;
        case_wait(&core, kind, &none);
        case_own("kinds 3 and 4 of the M95512 (second: wanted)", core, 2);
        core = other;
        case_wait(&core, kind, &none);
        case_own("kinds 3 and 4 of the M95512-D (second: wanted)", core, 0);
        core.waits.page = 1;
        case_own("their page number (second: wanted)", core, 2);
        core.waits.page = 0;
        core.waits.latch = one;
        case_own("a mark where they wait (second: wanted)", core, kind == 3 ? 0 : 2);
    }
    case_expect("part 3 at power-up (second: wanted)", try_power_up(&core, (which){3, 0}, 0, 0, 0, 0, 9), 2);
    case_expect("lock 2 at power-up (second: wanted)", try_power_up(&core, (which){1, 2}, 5000, 0, 0, 0, 9), 2);
    case_expect("cycle 0 at power-up (second: wanted)", try_power_up(&core, (which){1, 1}, 0, 0, 0, 0, 9), 6);
    case_expect("the part it leaves (second: wanted)", core.part, 0);
    case_expect("the lock it leaves (second: wanted)", core.lock, 0);
}

/* ---- the M95M01: 02, Item 11, with values made by hand */

/* cases a and b, with one address byte more; cells above FFFFh; the upper bits of the first address byte */
static void cases_large_page(void)
{
    cartvesper_core core;
    case_start_of(&core, M95M01, 0);
    case_frame(&core, "02 00 00 FE", 0);
    case_frame(&core, "02 00 00 FE 11 22 33 44", 63);
    case_frame(&core, "02 00 00 FE 11 22 33 44 55", 65);
    case_expect("M95M01: 32, 63 and 65 bits: time left (second: wanted)", core.left, 0);
    case_frame(&core, "02 00 00 FE 11 22 33 44", 0);
    case_expect("M95M01: time left (second: wanted)", core.left, 4000);
    case_expect("M95M01: cells touched (second: wanted)", cartvesper_core_touched(core).value, 4);
    whole_reading(&core, core.last + 4000);
    case_expect("M95M01: cell 000FEh (second: wanted)", lib_memory.bytes[0xFE], 0x11);
    case_expect("M95M01: cell 000FFh (second: wanted)", lib_memory.bytes[0xFF], 0x22);
    case_expect("M95M01: cell 00000h (second: wanted)", lib_memory.bytes[0], 0x33);
    case_expect("M95M01: cell 00001h (second: wanted)", lib_memory.bytes[1], 0x44);
    case_expect("M95M01: cell 0007Eh (second: wanted)", lib_memory.bytes[0x7E], 0xFF);
    case_frame(&core, "06", 0);
    case_frame(&core, "02 FF FF FF 5A", 0);
    case_expect("M95M01: the page that waits (second: wanted)", core.waits.page, 511);
    whole_reading(&core, core.last + 4000);
    case_expect("M95M01: cell 1FFFFh (second: wanted)", lib_memory.bytes[0x1FFFF], 0x5A);
    case_expect("M95M01: cell 0FFFFh (second: wanted)", lib_memory.bytes[0xFFFF], 0xFF);
    case_frame(&core, "03 03 FF FF 00 00", 0);
    case_expect("M95M01: READ at 1FFFFh (second: wanted)", lib_out.bytes[4], 0x5A);
    case_expect("M95M01: rolled to 00000h (second: wanted)", lib_out.bytes[5], 0x33);
    memset(frame_bytes, 0, 4);
    frame_bytes[0] = WREN;
    try_frame(&core, whole(M95M01), 1, 1, 8, 1);
    frame_bytes[0] = WRITE;
    for (int i = 0; i < 258; i++)
        frame_bytes[4 + i] = (uint8_t)(i + i / 256);
    try_frame(&core, whole(M95M01), 1, 262, 8 * 262, 262);
    case_expect("M95M01, case c: cells touched (second: wanted)", cartvesper_core_touched(core).value, 256);
    whole_reading(&core, core.last + 4000);
    case_expect("M95M01, case c: cell 0 (second: wanted)", lib_memory.bytes[0], 0x01);
    case_expect("M95M01, case c: cell 1 (second: wanted)", lib_memory.bytes[1], 0x02);
    case_expect("M95M01, case c: cell 2 (second: wanted)", lib_memory.bytes[2], 0x02);
    case_expect("M95M01, case c: cell 255 (second: wanted)", lib_memory.bytes[255], 0xFF);
}

static void case_block(const char *what, int bits, const char *below_it, const char *in_it, uint32_t lowest)
{
    cartvesper_core core;
    case_start_of(&core, M95M01, bits);
    case_expect(what, cartvesper_core_lowest_protected(core).value, lowest);
    if (in_it)
        case_frame(&core, in_it, 0);
    case_expect(what, core.left, 0);
    if (below_it)
        case_frame(&core, below_it, 0);
    case_expect(what, core.left, below_it ? 4000 : 0);
}

static void cases_large_block(void)
{
    cartvesper_core core;
    case_block("M95M01: BP 00 (second: wanted)", 0, "02 01 FF FF 11", NULL, 0x20000);
    case_block("M95M01: BP 01 (second: wanted)", 1, "02 01 7F FF 11", "02 01 80 00 11", 0x18000);
    case_block("M95M01: BP 10 (second: wanted)", 2, "02 00 FF FF 11", "02 01 00 00 11", 0x10000);
    case_block("M95M01: BP 11 (second: wanted)", 3, NULL, "02 00 00 00 11", 0);
    case_start_of(&core, M95M01, 1);
    case_expect("M95M01: 1FFFFh (second: wanted)", cartvesper_core_protected(core, 0x1FFFF).value, 1);
    case_expect("M95M01: 20000h (second: wanted)", cartvesper_core_protected(core, 0x20000).number, 7);
}

/* a cycle runs, and a frame comes; then a WREN, and the cycle ends */
static void case_in_cycle(const char *what, uint8_t part, const char *frame, uint32_t status)
{
    cartvesper_core core;
    const char *write = part == M95M01 ? "02 00 00 00 11" : "02 00 00 11";
    case_start_of(&core, part, 0);
    case_frame(&core, write, 0);
    whole_reading(&core, core.last + 1000);
    uint32_t left = core.left;
    case_frame(&core, frame, 0);
    case_expect(what, cartvesper_core_status(core).value, status);
    case_expect(what, core.left, left);
    case_expect(what, cartvesper_core_touched(core).value, 1);
    case_frame(&core, "06", 0);
    case_expect(what, cartvesper_core_status(core).value, status);
    whole_reading(&core, core.last + left);
    case_expect(what, cartvesper_core_status(core).value, 0x00);
    case_expect(what, lib_memory.bytes[0], 0x11);
}

static void cases_disabled(void)
{
    const cartvesper_latch one = one_cell(5, 0x33);
    cartvesper_core core;
    case_in_cycle("M95M01: WRDI in a cycle (second: wanted)", M95M01, "04", 0x01);
    case_in_cycle("M95M01: WRDI of 16 bits in a cycle (second: wanted)", M95M01, "04 00", 0x03);
    case_in_cycle("M95512: WRDI in a cycle (second: wanted)", M95512, "04", 0x03);
    case_in_cycle("M95512-D: WRDI in a cycle (second: wanted)", M95512D, "04", 0x03);
    for (uint8_t part = 0; part < PLAIN_PARTS; part++) {
        try_power_up(&core, (which){part, 0}, 4000, 0, 0, 0, 0);
        case_wait(&core, 2, &one);
        case_own("a cycle with WEL 1 (second: wanted)", core, 0);
        core.waits.page = 511;
        case_own("page 511 waits (second: wanted)", core, 0);
        core.waits.page = 512;
        case_own("page 512 waits (second: wanted)", core, 2);
        core.waits.page = 0;
        core.wel = 0;
        case_own("a cycle with WEL 0 (second: wanted)", core, part == M95M01 ? 0 : 2);
        core.waits.kind = 0;
        memset(&core.waits.latch, 0, sizeof core.waits.latch);
        case_own("a cycle with nothing waiting (second: wanted)", core, 2);
    }
}

/* the identification page and the lock */
static void cases_large_identification(void)
{
    cartvesper_core core;
    case_start_of(&core, M95M01, 0);
    case_frame(&core, "82 00 00 FF 11 22", 0);
    case_expect("M95M01, 82h: what waits (second: wanted)", core.waits.kind, 3);
    whole_reading(&core, core.last + 4000);
    case_expect("M95M01, 82h: cell 255 (second: wanted)", lib_memory.identification[255], 0x11);
    case_expect("M95M01, 82h: cell 0 (second: wanted)", lib_memory.identification[0], 0x22);
    case_expect("M95M01, 82h: cell 127 (second: wanted)", lib_memory.identification[127], 0xFF);
    case_frame(&core, "83 FF FB FF 00 00", 0); /* the upper bits do not matter */
    case_expect("M95M01, 83h: cell 255 (second: wanted)", lib_out.bytes[4], 0x11);
    case_expect("M95M01, 83h: cell 0 (second: wanted)", lib_out.bytes[5], 0x22);
    case_frame(&core, "06", 0);
    case_frame(&core, "82 00 04 02", 0);
    case_frame(&core, "82 00 04 00 02 02", 0);
    case_frame(&core, "82 00 04 00 FD", 0);
    case_frame(&core, "82 00 04 00 02", 39);
    case_expect("M95M01, the lock: 32, 48, 39 bits, bit 1 at 0: time left (second: wanted)", core.left, 0);
    case_frame(&core, "82 00 04 00 02", 0);
    case_expect("M95M01, the lock: what waits (second: wanted)", core.waits.kind, 4);
    whole_reading(&core, core.last + 4000);
    case_frame(&core, "83 00 04 00 00 00", 0);
    case_expect("M95M01, 83h: the lock (second: wanted)", lib_out.bytes[4], 0x01);
    case_expect("M95M01, 83h: again (second: wanted)", lib_out.bytes[5], 0x01);
}

static void cases_large_driver(void)
{
    case_write_of(M95M01, "M95M01: two pages (second: wanted)", 100, 300, 1000, 4001, 0, 2, 1 + 2 * (2 + 4));
    case_write_of(M95M01, "M95M01: across FFFFh (second: wanted)", 0xFFFE, 4, 700, 4001, 0, 2, 1 + 2 * (2 + 6));
    case_write_of(M95M01, "M95M01: up to the block (second: wanted)", 0x17FFE, 2, 4000, 1, 0, 1, 1 + 3);
    case_write_of(M95M01, "M95M01: into the block (second: wanted)", 0x17FFE, 3, 4000, 1, 13, 0, 1);
    case_write_of(M95M01, "M95M01: limit 3 (second: wanted)", 0, 1, 1000, 3, 9, 0, 1 + 2 + 3);
    case_write_of(M95M01, "M95M01: interval 4,001 (second: wanted)", 0, 1, 4001, 1, 8, 0, 0);
    case_write_of(M95M01, "M95M01: limit 4,002 (second: wanted)", 0, 1, 1, 4002, 8, 0, 0);
    case_write_of(M95M01, "M95M01: no data at 131,072 (second: wanted)", 131072, 0, 1, 1, 0, 0, 0);
    case_write_of(M95M01, "M95M01: one byte at 131,072 (second: wanted)", 131072, 1, 1, 1, 7, 0, 0);
    case_write_of(M95512D, "M95512-D: one byte at 65,536 (second: wanted)", 65536, 1, 1, 1, 7, 0, 0);
    case_write_of(M95512D, "M95512-D: interval 4,001, limit 5,001 (second: wanted)", 0, 1, 4001, 5001, 0, 1, 1 + 2 + 2);
}

/* the sizes that refusals read, and the cells past a page of 128 */
static void cases_sizes(void)
{
    cartvesper_core large, small, core;
    case_expect("M95M01: cycle 4,001 (second: wanted)", try_power_up(&core, (which){2, 1}, 4001, 1, 1, 1, 9), 6);
    case_expect("the part it leaves (second: wanted)", core.part, M95512);
    case_expect("the cycle it leaves (second: wanted)", core.cycle, 5000);
    try_power_up(&large, (which){M95M01, 0}, 4000, 0, 0, 0, 0);
    try_power_up(&small, (which){M95512D, 0}, 5000, 0, 0, 0, 0);
    case_refused("M95M01: the M95512's lengths (second: wanted)", large, (lengths){65536, 128}, 1);
    case_refused("M95M01: a memory of 65,536 (second: wanted)", large, (lengths){65536, 256}, 1);
    case_refused("M95M01: a page of 128 (second: wanted)", large, (lengths){131072, 128}, 1);
    case_refused("M95512-D: the M95M01's lengths (second: wanted)", small, (lengths){131072, 256}, 1);
    case_own("M95M01 (second: wanted)", large, 0);
    core = large;
    core.cycle = 4001;
    case_own("M95M01: a cycle length of 4,001 (second: wanted)", core, 2);
    memset(frame_bytes, 0, 131077);
    core = large;
    case_expect("M95M01: 131,077 bytes (second: wanted)", try_frame(&core, whole(2), 1, 131077, 8 * 131077, 0), 3);
    case_expect("M95M01: 131,076 bytes (second: wanted)", try_frame(&core, whole(2), 1, 131076, 8 * 131076, 131076), 0);
    core = small;
    case_expect("M95512-D: 65,541 bytes (second: wanted)", try_frame(&core, whole(1), 1, 65541, 8 * 65541, 65541), 3);
    for (size_t cell = 127; cell <= 128; cell++) {
        const cartvesper_latch one = one_cell(cell, 0x33);
        cartvesper_latch byte = one;
        byte.marks[cell / WORD] = 0;
        for (uint8_t kind = 2; kind <= 3; kind++) {
            core = small;
            case_wait(&core, kind, &one);
            case_own("M95512-D: a mark on cell 127, on cell 128 (second: wanted)", core, cell < 128 ? 0 : 2);
            case_wait(&core, kind, &byte);
            case_own("M95512-D: a byte without a mark (second: wanted)", core, 2);
            core = large;
            case_wait(&core, kind, &one);
            case_own("M95M01: a mark on cell 127, on cell 128 (second: wanted)", core, 0);
        }
    }
}

/* ---- the number of blank cells: 02, Item 6, with values made by hand */

/* every cell of a memory, on both sides */
static void fill_cells(uint8_t byte)
{
    memset(lib_memory.bytes, byte, sizeof lib_memory.bytes);
    plain_memory = lib_memory;
}

static void put_cell(size_t cell, uint8_t byte)
{
    lib_memory.bytes[cell] = plain_memory.bytes[cell] = byte;
}

/* power-up counts all cells of the part's memory, and no others */
static void case_counted(const char *what, uint8_t part, uint32_t cells)
{
    cartvesper_core core;
    cartvesper_device device;
    try_power_up(&core, (which){part, 0}, 4000, 0, 0, 0, 0);
    try_device_power_up(&device, (which){part, 0}, 4000, 0, 0, 0, 0);
    case_expect(what, core.blank, cells);
    case_expect(what, device.core.blank, cells);
}

static void cases_counted(void)
{
    fill_cells(0xFF);
    case_counted("M95512: every cell blank (second: wanted)", M95512, 65536);
    case_counted("M95512-D: every cell blank (second: wanted)", M95512D, 65536);
    case_counted("M95M01: every cell blank (second: wanted)", M95M01, 131072);
    fill_cells(0xFE);
    case_counted("M95512: none blank (second: wanted)", M95512, 0);
    case_counted("M95M01: none blank (second: wanted)", M95M01, 0);
    put_cell(0, 0xFF);
    put_cell(0xFFFF, 0xFF);
    put_cell(0x10000, 0xFF); /* past the M95512's last cell */
    put_cell(0x1FFFF, 0xFF);
    put_cell(0x20000, 0xFF); /* past the M95M01's */
    case_counted("M95512: the first and the last cell (second: wanted)", M95512, 2);
    case_counted("M95512-D: the first and the last cell (second: wanted)", M95512D, 2);
    case_counted("M95M01: four cells (second: wanted)", M95M01, 4);
}

/* at power-up: 1 before 2 before 6, and each leaves the delivered record with no cell counted */
static void case_unpowered(const char *what, uint8_t part, uint32_t cycle, size_t size, uint32_t number)
{
    cartvesper_core core;
    cartvesper_device device;
    case_expect(what, try_power_up_of(&core, (which){part, 0}, cycle, 0, 1, 1, 9, size), number);
    case_expect(what, try_device_power_up_of(&device, (which){part, 0}, cycle, 0, 1, 1, 9, size), number);
    if (number == 0)
        return;
    case_expect(what, core.blank, 0);
    case_expect(what, core.part, M95512);
    case_expect(what, core.cycle, 5000);
    case_expect(what, core.last, 0);
    case_expect(what, core.bp0, 0);
    compare_cores("the two power-ups: device (first), core (second)", &device.core, &core);
}

static void cases_unpowered(void)
{
    static const uint8_t parts[] = {M95512, M95512D, M95M01, 3, 255};
    fill_cells(0xFF);
    for (size_t p = 0; p < sizeof parts; p++) {
        const uint8_t part = parts[p];
        const size_t own = whole(part).size, other = own == 65536 ? 131072 : 65536;
        const size_t sizes[] = {0, own - 1, own + 1, other};
        for (size_t i = 0; i < sizeof sizes / sizeof *sizes; i++) {
            case_unpowered("a memory of another length (second: wanted)", part, 4000, sizes[i], 1);
            case_unpowered("a memory of another length, cycle 0 (second: wanted)", part, 0, sizes[i], 1);
        }
        case_unpowered("cycle 0 (second: wanted)", part, 0, own, part > M95M01 ? 2 : 6);
        case_unpowered("cycle 4,000 (second: wanted)", part, 4000, own, part > M95M01 ? 2 : 0);
    }
}

/* of a cut */
static const cartvesper_choice none_chosen = {{0}};
static const cartvesper_choice all_chosen = {{UINT64_MAX, UINT64_MAX, UINT64_MAX, UINT64_MAX}};

/* a cut with every cell chosen moves the number as the cycle's end does; with none it stays */
static void case_cut_blank(const char *what, const cartvesper_core *core, uint32_t wanted)
{
    cartvesper_core cut = *core;
    start_memory = lib_memory;
    try_cut(&cut, none_chosen, whole(core->part));
    case_expect("blank cells after a cut with no cell chosen (second: wanted)", cut.blank, core->blank);
    cut = *core;
    try_cut(&cut, all_chosen, whole(core->part));
    case_expect(what, cut.blank, wanted);
    lib_memory = plain_memory = start_memory;
}

/* so many cells of a page gained, so many lost, others marked that keep FFh or 00h, and the rest not marked: the number
 * before and after */
static void case_blank(const char *what, uint8_t part, uint32_t number, size_t gained, size_t lost, uint32_t wanted)
{
    const size_t page = whole(part).cells;
    cartvesper_core core;
    try_power_up(&core, (which){part, 0}, 4000, 0, 0, 0, 0);
    core.wel = 1;
    core.left = core.cycle;
    core.waits.kind = 2;
    core.waits.page = below(PAGES);
    core.blank = number;
    for (size_t i = 0; i < page; i++) {
        int gains = i < gained, loses = !gains && i < gained + lost, marked = gains || loses || i % 4 < 2;
        put_cell(core.waits.page * page + i, loses || (!gains && i % 2) ? 0xFF : 0x00);
        core.waits.latch.bytes[i] = marked && (gains || (!loses && i % 2)) ? 0xFF : 0x00;
        core.waits.latch.marks[i / WORD] |= (uint64_t)marked << i % WORD;
    }
    case_cut_blank(what, &core, wanted);
    whole_reading(&core, core.last + 3999);
    case_expect("blank cells before the cycle's end (second: wanted)", core.blank, number);
    whole_reading(&core, core.last + 1);
    case_expect(what, core.blank, wanted);
}

static void cases_moved(uint8_t part)
{
    const uint32_t size = plain_row_of(part)->size, page = plain_row_of(part)->page;
    case_blank("three cells gained (second: wanted)", part, 1000, 3, 0, 1003);
    case_blank("three cells lost (second: wanted)", part, 1000, 0, 3, 997);
    case_blank("marked cells that keep their bytes (second: wanted)", part, 1000, 0, 0, 1000);
    case_blank("three gained, five lost (second: wanted)", part, 1000, 3, 5, 998);
    case_blank("a page gained (second: wanted)", part, 0, page, 0, page);
    case_blank("a page lost (second: wanted)", part, size, 0, page, size - page);
    case_blank("0, cells lost (second: wanted)", part, 0, 0, 3, 0);
    case_blank("2, three lost (second: wanted)", part, 2, 0, 3, 0);
    case_blank("3, three lost (second: wanted)", part, 3, 0, 3, 0);
    case_blank("4, three lost (second: wanted)", part, 4, 0, 3, 1);
    case_blank("0, a page lost (second: wanted)", part, 0, 0, page, 0);
    case_blank("the size, cells gained (second: wanted)", part, size, 3, 0, size);
    case_blank("the size less 2, three gained (second: wanted)", part, size - 2, 3, 0, size);
    case_blank("the size less 3, three gained (second: wanted)", part, size - 3, 3, 0, size);
    case_blank("the size less 4, three gained (second: wanted)", part, size - 4, 3, 0, size - 1);
    case_blank("the size, a page gained (second: wanted)", part, size, page, 0, size);
    case_blank("0, five gained, three lost: one clamp (second: wanted)", part, 0, 5, 3, 2);
    case_blank("0, three gained, five lost (second: wanted)", part, 0, 3, 5, 0);
    case_blank("the size, five gained, three lost: one clamp (second: wanted)", part, size, 5, 3, size);
    case_blank("the size, three gained, five lost (second: wanted)", part, size, 3, 5, size - 2);
}

/* by frames, over a delivered memory: a WRITE, which loses; one that gains; one that keeps; one of both */
static void cases_stores_page(void)
{
    cartvesper_core core;
    case_start(&core, 0);
    case_frame(&core, "02 00 10 11 FF 33", 0);
    whole_reading(&core, core.last + 4999);
    case_expect("blank cells in the cycle (second: wanted)", core.blank, 65536);
    whole_reading(&core, core.last + 1);
    case_expect("two cells lost (second: wanted)", core.blank, 65534);
    case_frame(&core, "06", 0);
    case_frame(&core, "02 00 10 FF FF 33", 0);
    whole_reading(&core, core.last + 5000);
    case_expect("one cell gained (second: wanted)", core.blank, 65535);
    case_frame(&core, "06", 0);
    case_frame(&core, "02 00 11 FF 33", 0);
    whole_reading(&core, core.last + 5000);
    case_expect("the same bytes again (second: wanted)", core.blank, 65535);
    case_frame(&core, "06", 0);
    case_frame(&core, "02 00 12 FF 44", 0);
    whole_reading(&core, core.last + 5000);
    case_expect("one gained, one lost (second: wanted)", core.blank, 65535);
    check_right(&core);
    case_start_of(&core, M95M01, 0);
    case_frame(&core, "02 01 00 FF 11 FF 33", 0);
    whole_reading(&core, core.last + 4000);
    case_expect("M95M01: two cells lost (second: wanted)", core.blank, 131070);
    case_frame(&core, "06", 0);
    case_frame(&core, "02 01 00 01 FF", 0); /* the third byte went around the page's end */
    whole_reading(&core, core.last + 4000);
    case_expect("M95M01: one cell gained (second: wanted)", core.blank, 131071);
    check_right(&core);
}

/* the driver's polls pass time: the pages whose cycle they end are counted, one that still waits is not */
static void cases_driven(void)
{
    cartvesper_core core;
    case_start(&core, 0);
    case_run(&core, "four pages of 5Ah (second: wanted)", 100, 300, 1000, 5001, 0, 4, 29);
    case_expect("300 cells lost (second: wanted)", core.blank, 65236);
    case_run(&core, "a page part that waits on (second: wanted)", 1000, 20, 1000, 4, 9, 0, 7);
    case_expect("not yet lost (second: wanted)", core.blank, 65236);
    case_run(&core, "the same again (second: wanted)", 1000, 20, 1000, 5001, 0, 1, 2 + 2 + 5);
    case_expect("20 cells lost, once (second: wanted)", core.blank, 65216);
    check_right(&core);
    case_start_of(&core, M95M01, 0);
    case_run(&core, "M95M01: two pages (second: wanted)", 0x100FF, 2, 1000, 4001, 0, 2, 1 + 2 * (2 + 4));
    case_expect("M95M01: two cells lost (second: wanted)", core.blank, 131070);
    check_right(&core);
}

/* at the pins: one by one, and as a list; the second reading ends the cycle */
static void cases_at_pins(uint8_t part)
{
    static const uint64_t list[4] = {(uint64_t)CLOCK << 32 | 3999, (uint64_t)SET_S << 32 | 0, (uint64_t)SET_S << 32 | 1,
                                     (uint64_t)CLOCK << 32 | 4000};
    const cartvesper_latch latch = laid(one_cell(5, 0x33), laid(one_cell(6, 0xFF), one_cell(127, 0x00)));
    const uint32_t size = plain_row_of(part)->size;
    cartvesper_device device, start;
    fill_cells(0xFF);
    try_device_power_up(&start, (which){part, 0}, 4000, 0, 0, 0, 0);
    case_wait(&start.core, 2, &latch);
    device = start;
    for (int i = 0; i < 4; i++) {
        whole_event(&device, (int)(list[i] >> 32), (uint32_t)list[i]);
        case_expect("blank cells at the pins (second: wanted)", device.core.blank, i < 3 ? size : size - 2);
    }
    check_right(&device.core);
    fill_cells(0xFF);
    try_play(&start, list, 4, 4, whole(part));
    case_expect("blank cells after a list (second: wanted)", start.core.blank, size - 2);
    check_right(&start.core);
}

/* a cycle that is no page's leaves the number, whatever becomes of the identification page's cells */
static void cases_uncounted(void)
{
    const cartvesper_latch none = {{0}, {0}};
    cartvesper_latch both = laid(laid(one_cell(0, 0xFF), one_cell(1, 0x00)), one_cell(2, 0xFF));
    for (uint8_t part = M95512D; part <= M95M01; part++)
        for (uint8_t kind = 1; kind <= 4; kind++) {
            cartvesper_core core;
            case_start_of(&core, part, 0);
            memset(lib_memory.identification, 0x00, CELLS / 2);
            lib_memory.identification[1] = 0xFF;
            plain_memory = lib_memory;
            core.blank = 77;
            case_wait(&core, kind, kind == 2 || kind == 3 ? &both : &none);
            whole_reading(&core, core.last + core.left);
            case_expect("the end of a status, a page, an identification and a lock cycle (second: wanted)", core.blank,
                        kind == 2 ? 76 : 77);
        }
}

/* every call that looks at a record's ranges */
static void case_number(const char *what, uint8_t part, uint32_t blank, uint32_t number)
{
    static const uint64_t list[2] = {(uint64_t)CLOCK << 32 | 7, (uint64_t)SET_D << 32 | 1};
    const lengths lent = whole(part);
    cartvesper_core core, copy;
    cartvesper_device device, moved;
    fill_cells(0xFF);
    try_power_up(&core, (which){part, 0}, 4000, 0, 0, 0, 0);
    try_device_power_up(&device, (which){part, 0}, 4000, 0, 0, 0, 0);
    core.blank = device.core.blank = blank;
    case_own(what, core, number);
    try_core_queries(&core, 0);
    try_device_queries(&device);
    case_expect(what, cartvesper_core_in_ranges(core).number, number);
    case_expect(what, cartvesper_core_status(core).number, number);
    case_expect(what, cartvesper_core_lowest_protected(core).number, number);
    case_expect(what, cartvesper_core_protected(core, 0).number, number);
    case_expect(what, cartvesper_core_touched(core).number, number);
    case_expect(what, cartvesper_device_q(device).number, number);
    case_expect(what, cartvesper_device_status(device).number, number);
    case_expect(what, cartvesper_device_touched(device).number, number);
    case_expect(what, cartvesper_device_in_ranges(device).number, number);
    for (int kind = SET_S; kind <= CLOCK; kind++) {
        moved = device;
        case_expect(what, try_event(&moved, kind, 1, lent), number);
    }
    moved = device;
    case_expect(what, try_play(&moved, list, 2, 2, lent), number);
    copy = core;
    case_expect(what, try_write(&copy, lent, 0, 0, 1, 1), number);
    case_expect(what, try_write(&copy, lent, 0, 1, 1000, 4001), number);
}

static void cases_numbers(void)
{
    case_number("M95512: 0 blank cells (second: wanted)", M95512, 0, 0);
    case_number("M95512: 65,536 blank cells (second: wanted)", M95512, 65536, 0);
    case_number("M95512: 65,537 blank cells (second: wanted)", M95512, 65537, 2);
    case_number("M95512: 131,072 blank cells (second: wanted)", M95512, 131072, 2);
    case_number("M95512: 4,294,967,295 blank cells (second: wanted)", M95512, 4294967295, 2);
    case_number("M95512-D: 65,536 blank cells (second: wanted)", M95512D, 65536, 0);
    case_number("M95512-D: 65,537 blank cells (second: wanted)", M95512D, 65537, 2);
    case_number("M95M01: 65,537 blank cells (second: wanted)", M95M01, 65537, 0);
    case_number("M95M01: 131,072 blank cells (second: wanted)", M95M01, 131072, 0);
    case_number("M95M01: 131,073 blank cells (second: wanted)", M95M01, 131073, 2);
    case_number("M95M01: 4,294,967,295 blank cells (second: wanted)", M95M01, 4294967295, 2);
}

/* ---- supply cuts: 02, Item 8, with values made by hand */

/* cells 126, 0 and 2 of a page */
static const cartvesper_choice some_chosen = {{1 | 1 << 2, 1ULL << 62, 0, 0}};

/* a WRITE of four cells, of which two are chosen; cell 2 is chosen, but not marked */
static void cases_cut_page(void)
{
    cartvesper_core core;
    case_start(&core, 0);
    case_frame(&core, "02 00 7E 11 22 33 44", 0);
    whole_reading(&core, core.last + 4999);
    const uint32_t last = core.last;
    case_expect("a cut in a page's cycle (second: wanted)", try_cut(&core, some_chosen, whole(M95512)), 0);
    case_expect("a cut: 007Eh, chosen (second: wanted)", lib_memory.bytes[0x7E], 0x11);
    case_expect("a cut: 007Fh, not chosen (second: wanted)", lib_memory.bytes[0x7F], 0xFF);
    case_expect("a cut: 0000h, chosen (second: wanted)", lib_memory.bytes[0], 0x33);
    case_expect("a cut: 0001h, not chosen (second: wanted)", lib_memory.bytes[1], 0xFF);
    case_expect("a cut: 0002h, not marked (second: wanted)", lib_memory.bytes[2], 0xFF);
    case_expect("a cut: the status (second: wanted)", cartvesper_core_status(core).value, 0x00);
    case_expect("a cut: cells touched after it (second: wanted)", cartvesper_core_touched(core).value, 0);
    case_expect("a cut: blank cells (second: wanted)", core.blank, 65534);
    case_expect("a cut: the last reading (second: wanted)", core.last, last);
    case_expect("a cut: the cycle length (second: wanted)", core.cycle, 5000);
    whole_reading(&core, core.last + 5000);
    case_expect("0001h later (second: wanted)", lib_memory.bytes[1], 0xFF);
    case_frame(&core, "02 00 7E 11 22 33 44", 0);
    case_expect("the same WRITE without WREN (second: wanted)", core.left, 0);
    case_frame(&core, "06", 0);
    case_frame(&core, "02 00 7E 11 22 33 44", 0);
    whole_reading(&core, core.last + 5000);
    case_expect("the same WRITE again: 0001h (second: wanted)", lib_memory.bytes[1], 0x44);
    case_expect("the same WRITE again: blank cells (second: wanted)", core.blank, 65532);
}

/* with no cycle WEL alone falls, whatever is chosen */
static void cases_cut_idle(void)
{
    cartvesper_core core;
    case_start(&core, 7);
    case_expect("before a cut with no cycle (second: wanted)", cartvesper_core_status(core).value, 0x8E);
    case_expect("a cut with no cycle (second: wanted)", try_cut(&core, all_chosen, whole(M95512)), 0);
    case_expect("a cut with no cycle: the status (second: wanted)", cartvesper_core_status(core).value, 0x8C);
    case_expect("a cut with no cycle: blank cells (second: wanted)", core.blank, 65536);
    case_expect("a cut with no cycle: the last reading (second: wanted)", core.last, 4294967290);
}

/* SRWD, BP1 and BP0 as bits 7, 3 and 2 */
static uint8_t status_bits(int bits)
{
    return (uint8_t)((bits & 4) << 5 | (bits & 3) << 2);
}

/* each old value, each that waits and each choice of the three bits; the other marks are any */
static void cases_cut_status(uint8_t part)
{
    const cartvesper_latch none = {{0}, {0}};
    for (int way = 0; way < 512; way++) {
        int old = way & 7, waiting = way >> 3 & 7, bits = way >> 6;
        cartvesper_choice choice = random_choice();
        cartvesper_core core;
        choice.words[0] = (choice.words[0] & ~0x8CULL) | status_bits(bits);
        plain_core_power_up(&core, part, 0, 4000, old >> 2, old >> 1 & 1, old & 1, 9, 77);
        case_wait(&core, 1, &none);
        core.waits.status = status_bits(waiting);
        case_expect("a cut in a status cycle (second: wanted)", try_cut(&core, choice, whole(part)), 0);
        case_expect("a cut in a status cycle: the status (second: wanted)", cartvesper_core_status(core).value,
                    status_bits((old & ~bits) | (waiting & bits)));
    }
}

/* a lock is set by mark 0 alone, and never falls: locked with the lock waiting is inside the ranges */
static void cases_cut_lock(uint8_t part)
{
    const cartvesper_latch none = {{0}, {0}};
    for (int way = 0; way < 8; way++) {
        int lock = way & 1, mark = way >> 1 & 1;
        cartvesper_choice choice = way & 4 ? all_chosen : none_chosen;
        cartvesper_core core;
        choice.words[0] = (choice.words[0] & ~1ULL) | (uint64_t)mark;
        plain_core_power_up(&core, part, lock, 4000, 0, 0, 0, 9, 77);
        case_wait(&core, 4, &none);
        case_expect("a cut in a lock's cycle (second: wanted)", try_cut(&core, choice, whole(part)), 0);
        case_expect("a cut in a lock's cycle: the lock (second: wanted)", core.lock, (uint32_t)(lock | mark));
    }
}

/* an 82h of four cells of the identification page, of which two are chosen; the memory and its number stay */
static void cases_cut_identification(void)
{
    cartvesper_core core;
    case_start_of(&core, M95512D, 0);
    case_frame(&core, "82 00 7E 11 22 33 44", 0);
    case_expect("a cut in 82h's cycle (second: wanted)", try_cut(&core, some_chosen, whole(M95512D)), 0);
    case_expect("a cut in 82h's cycle: cell 126 (second: wanted)", lib_memory.identification[126], 0x11);
    case_expect("a cut in 82h's cycle: cell 127 (second: wanted)", lib_memory.identification[127], 0xFF);
    case_expect("a cut in 82h's cycle: cell 0 (second: wanted)", lib_memory.identification[0], 0x33);
    case_expect("a cut in 82h's cycle: cell 1 (second: wanted)", lib_memory.identification[1], 0xFF);
    case_expect("a cut in 82h's cycle: 007Eh (second: wanted)", lib_memory.bytes[0x7E], 0xFF);
    case_expect("a cut in 82h's cycle: blank cells (second: wanted)", core.blank, 65536);
    case_expect("a cut in 82h's cycle: the lock (second: wanted)", core.lock, 0);
}

/* the M95M01: the last of its 256 cells, and WEL 0 in the cycle */
static void cases_cut_large(void)
{
    const cartvesper_choice last_chosen = {{0, 0, 0, 1ULL << 63}};
    cartvesper_core core;
    case_start_of(&core, M95M01, 0);
    case_frame(&core, "02 01 FF FF 11 22", 0);
    case_frame(&core, "04", 0);
    case_expect("M95M01: a cut at WEL 0 (second: wanted)", try_cut(&core, last_chosen, whole(M95M01)), 0);
    case_expect("M95M01, a cut: cell 1FFFFh, chosen (second: wanted)", lib_memory.bytes[0x1FFFF], 0x11);
    case_expect("M95M01, a cut: cell 1FF00h, not chosen (second: wanted)", lib_memory.bytes[0x1FF00], 0xFF);
    case_expect("M95M01, a cut: blank cells (second: wanted)", core.blank, 131071);
}

/* a WRITE that S rising would execute, with W low, in a pause too: it is dropped, and the pins are at rest */
static void cases_cut_at_pins(uint8_t part)
{
    for (int held = 0; held <= 1; held++) {
        cartvesper_device device;
        fill_cells(0xFF);
        try_device_power_up(&device, (which){part, 0}, 4000, 0, 0, 0, 0);
        device.core.wel = 1;
        whole_event(&device, SET_W, 0);
        draw_at_pins(&device, 8 * case_bytes(part == M95M01 ? "02 00 00 00 11" : "02 00 00 11"), 0);
        if (held)
            whole_event(&device, SET_HOLD, 0);
        case_expect("a cut in a frame (second: wanted)", try_device_cut(&device, all_chosen, whole(part)), 0);
        case_expect("a cut in a frame: S (second: wanted)", device.pins.s, 1);
        case_expect("a cut in a frame: W (second: wanted)", device.pins.w, 1);
        case_expect("a cut in a frame: HOLD (second: wanted)", device.pins.hold, 1);
        case_expect("a cut in a frame: held (second: wanted)", device.held, 0);
        case_expect("a cut in a frame: whole bytes taken (second: wanted)", device.frame.taken, 0);
        case_expect("a cut in a frame: Q (second: wanted)", cartvesper_device_q(device).value, CARTVESPER_Z);
        whole_event(&device, SET_S, 0);
        whole_event(&device, SET_S, 1);
        whole_event(&device, CLOCK, 4000);
        case_expect("a cut in a frame: the status (second: wanted)", cartvesper_device_status(device).value, 0x00);
        case_expect("a cut in a frame: cell 0 (second: wanted)", lib_memory.bytes[0], 0xFF);
    }
}

/* a device outside its ranges whose core is inside them; 1 before 2 */
static void cases_cut_refused(uint8_t part)
{
    const lengths own = whole(part), short_page = {own.size, own.cells - 1};
    cartvesper_device device, damaged[4];
    try_device_power_up(&device, (which){part, 0}, 4000, 0, 0, 0, 0);
    case_expect("a cut (second: wanted)", try_device_cut(&device, all_chosen, own), 0);
    for (int i = 0; i < 4; i++)
        damaged[i] = device;
    damaged[0].pins.d = 2;
    damaged[1].held = 1;
    damaged[2].frame.bits = 1;
    damaged[3].frame.latch.marks[0] = 1;
    for (int i = 0; i < 4; i++) {
        case_expect("a cut: pins or frame outside their ranges (second: wanted)",
                    try_device_cut(&damaged[i], all_chosen, own), 2);
        case_expect("and a page one byte short (second: wanted)",
                    try_device_cut(&damaged[i], all_chosen, short_page), 1);
    }
}

static void cases_cut(void)
{
    cases_cut_page();
    cases_cut_idle();
    cases_cut_identification();
    cases_cut_large();
    for (uint8_t part = 0; part < PLAIN_PARTS; part++) {
        cases_cut_status(part);
        cases_cut_at_pins(part);
        cases_cut_refused(part);
    }
    cases_cut_lock(M95512D);
    cases_cut_lock(M95M01);
}

/* ---- readings inside a frame: 02, Item 12 */

/* two positions and two readings at most */
static void put_lists(size_t places, size_t times, size_t first, size_t second)
{
    schedule = (lists){{first, second}, places, {100, 200}, times};
}

/* lists that fit, and lists that do not */
static const struct {
    const char *what;
    size_t places, times, first, second;
    const char *hex;
    size_t bits;
    uint32_t number;
} list_cases[] = {
    {"no readings (second: wanted)", 0, 0, 0, 0, "05 00 00", 24, 0},
    {"no position, one reading (second: wanted)", 0, 1, 0, 0, "05 00 00", 24, 4},
    {"one position, no reading (second: wanted)", 1, 0, 0, 0, "05 00 00", 24, 4},
    {"two positions, one reading (second: wanted)", 2, 1, 0, 0, "05 00 00", 24, 4},
    {"equal positions (second: wanted)", 2, 2, 1, 1, "05 00 00", 24, 0},
    {"a position that falls (second: wanted)", 2, 2, 2, 1, "05 00 00", 24, 4},
    {"at the end (second: wanted)", 1, 1, 3, 0, "05 00 00", 24, 0},
    {"one past the end (second: wanted)", 1, 1, 4, 0, "05 00 00", 24, 4},
    {"the second one past the end (second: wanted)", 2, 2, 0, 4, "05 00 00", 24, 4},
    {"2^64 - 1 (second: wanted)", 1, 1, SIZE_MAX, 0, "05 00 00", 24, 4},
    {"the second 2^64 - 1 (second: wanted)", 2, 2, 0, SIZE_MAX, "05 00 00", 24, 4},
    {"2^64 - 1, then 0 (second: wanted)", 2, 2, SIZE_MAX, 0, "05 00 00", 24, 4},
    {"2^32 (second: wanted)", 1, 1, (size_t)1 << 32, 0, "05 00 00", 24, 4},
    {"23 bits, after two bytes (second: wanted)", 1, 1, 2, 0, "05 00 00", 23, 0},
    {"23 bits, after three (second: wanted)", 1, 1, 3, 0, "05 00 00", 23, 4},
    {"7 bits, at 0 (second: wanted)", 1, 1, 0, 0, "05", 7, 0},
    {"7 bits, at 1 (second: wanted)", 1, 1, 1, 0, "05", 7, 4},
    {"an empty frame, at 0 (second: wanted)", 2, 2, 0, 0, "", 0, 0},
    {"an empty frame, at 1 (second: wanted)", 1, 1, 1, 0, "", 0, 4},
};

static void cases_lists(void)
{
    memset(&lib_memory, 0xFF, sizeof lib_memory);
    plain_memory = lib_memory;
    for (size_t i = 0; i < sizeof list_cases / sizeof *list_cases; i++)
        for (uint8_t mode = 0; mode <= 3; mode += 3) {
            cartvesper_core core;
            size_t length = case_bytes(list_cases[i].hex);
            try_power_up(&core, (which){M95512, 0}, 5000, 0, 0, 0, 0);
            put_lists(list_cases[i].places, list_cases[i].times, list_cases[i].first, list_cases[i].second);
            case_expect(list_cases[i].what,
                        try_timed(&core, whole(M95512), 1, mode, length, list_cases[i].bits, length),
                        list_cases[i].number);
            /* the last reading has come, or none */
            case_expect(list_cases[i].what, core.last, list_cases[i].number ? 0 : 100 * (uint32_t)schedule.times);
        }
}

/* the order of the refusals: 1, 2, 3, 4, 5 */
static void cases_modes(void)
{
    static const uint8_t modes[] = {1, 2, 4, 128, 255};
    const lengths own = whole(M95512), short_memory = {own.size - 1, own.cells};
    cartvesper_core core, damaged;
    try_power_up(&core, (which){M95512, 0}, 5000, 0, 0, 0, 0);
    damaged = core;
    damaged.wel = 2;
    case_bytes("05 00 00");
    put_lists(1, 1, 1, 0);
    for (size_t i = 0; i < sizeof modes; i++) {
        case_expect("a mode that is none (second: wanted)", try_timed(&core, own, 1, modes[i], 3, 24, 3), 2);
        case_expect("and a memory one byte short (second: wanted)",
                    try_timed(&core, short_memory, 1, modes[i], 3, 24, 3), 1);
        case_expect("and a slice too long (second: wanted)", try_timed(&core, own, 1, modes[i], 65541, 24, 3), 2);
    }
    case_expect("a level of 2 (second: wanted)", try_timed(&core, own, 2, 3, 3, 24, 3), 2);
    case_expect("a record outside its ranges (second: wanted)", try_timed(&damaged, own, 1, 3, 3, 24, 3), 2);
    put_lists(1, 0, 0, 0);
    case_expect("2 before 4 (second: wanted)", try_timed(&core, own, 1, 1, 3, 24, 3), 2);
    case_expect("3 before 4 (second: wanted)", try_timed(&core, own, 1, 0, 65541, 24, 3), 3);
    case_expect("4 before 5 (second: wanted)", try_timed(&core, own, 1, 3, 3, 24, 2), 4);
    put_lists(1, 1, 3, 0);
    case_expect("5 alone (second: wanted)", try_timed(&core, own, 1, 3, 3, 24, 2), 5);
}

/* a cycle of 5,000 with byte 11h for cell 0, or another WREN and write; then a frame with a reading that ends it */
static cartvesper_core case_ended(uint8_t part, const char *write, const char *hex, size_t bits, int mode, size_t at)
{
    cartvesper_core core;
    size_t length;
    case_start_of(&core, part, 0);
    case_frame(&core, write, 0);
    put_lists(1, 1, at, 0);
    schedule.readings[0] = core.last + core.left; /* wraps: the clock started near its end */
    length = case_bytes(hex);
    case_expect("a timed frame (second: wanted)",
                try_timed(&core, whole(part), 1, (uint8_t)mode, length, bits ? bits : 8 * length, length), 0);
    case_expect("the cycle has ended (second: wanted)", core.left, 0);
    return core;
}

/* the status bytes of an RDSR of three of them */
static void case_seen(int mode, size_t at, uint32_t one, uint32_t two, uint32_t three)
{
    case_ended(M95512, "02 00 00 11", "05 00 00 00", 0, mode, at);
    case_expect("RDSR, first status byte (second: wanted)", lib_out.bytes[1], one);
    case_expect("RDSR, second (second: wanted)", lib_out.bytes[2], two);
    case_expect("RDSR, third (second: wanted)", lib_out.bytes[3], three);
    case_expect("RDSR, the cell stored (second: wanted)", lib_memory.bytes[0], 0x11);
}

static void cases_seen(void)
{
    case_seen(0, 0, 0x00, 0x00, 0x00);
    case_seen(3, 0, 0x00, 0x00, 0x00);
    case_seen(0, 1, 0x03, 0x00, 0x00);
    case_seen(3, 1, 0x00, 0x00, 0x00);
    case_seen(0, 2, 0x03, 0x03, 0x00);
    case_seen(3, 2, 0x03, 0x00, 0x00);
    case_seen(0, 3, 0x03, 0x03, 0x03);
    case_seen(3, 3, 0x03, 0x03, 0x00);
    case_seen(0, 4, 0x03, 0x03, 0x03); /* before S rises: nothing is shown any more */
    case_seen(3, 4, 0x03, 0x03, 0x03);
    case_ended(M95512, "02 00 00 11", "05 00 00", 23, 0, 2);
    case_expect("23 bits, mode 0, at 2 (second: wanted)", lib_out.bytes[2], 0x03);
    case_ended(M95512, "02 00 00 11", "05 00 00", 23, 3, 2);
    case_expect("23 bits, mode 3, at 2 (second: wanted)", lib_out.bytes[2], 0x01);
    case_ended(M95512, "01 8C", "05 00 00", 0, 0, 1);
    case_expect("a status cycle, before (second: wanted)", lib_out.bytes[1], 0x03);
    case_expect("a status cycle, after (second: wanted)", lib_out.bytes[2], 0x8C);
}

/* "no cycle" is judged after the readings at 0 and before those at 1; WEL at deselect */
static void cases_judged(int mode)
{
    cartvesper_core core;
    for (size_t at = 0; at <= 1; at++) {
        case_ended(M95512, "02 00 00 11", "03 00 00 00", 0, mode, at);
        case_expect("READ: the cell (second: wanted)", lib_out.bytes[3], at == 0 ? 0x11 : 0xFF);
        core = case_ended(M95512, "02 00 00 11", "06", 0, mode, at);
        case_expect("WREN: WEL (second: wanted)", core.wel, at == 0);
        core = case_ended(M95512, "02 00 00 11", "02 00 00 22", 0, mode, at);
        case_expect("WRITE: the cycle's end took WEL (second: wanted)", cartvesper_core_status(core).value, 0x00);
        core = case_ended(M95512D, "82 04 00 02", "83 04 00 00", 0, mode, at);
        case_expect("83h: the lock (second: wanted)", lib_out.bytes[3], at == 0 ? 0x01 : 0xFF);
        case_expect("and in the record (second: wanted)", core.lock, 1);
        case_ended(M95512D, "82 00 05 2A", "83 00 05 00", 0, mode, at);
        case_expect("83h: the page (second: wanted)", lib_out.bytes[3], at == 0 ? 0x2A : 0xFF);
        case_expect("and in its cells (second: wanted)", lib_memory.identification[5], 0x2A);
        core = case_ended(M95M01, "02 00 00 00 11", "04", 0, mode, at);
        case_expect("WRDI of the M95M01: WEL (second: wanted)", core.wel, 0);
        core = case_ended(M95512, "02 00 00 11", "06", 7, mode, 0);
        case_expect("7 bits: WEL (second: wanted)", core.wel, 0);
    }
}

/* the counter wraps inside the frame, between positions 1 and 2, and one of 5,000 microseconds is left; then none */
static void cases_wrap(int mode)
{
    cartvesper_core core;
    case_start(&core, 0);
    case_frame(&core, "02 00 00 11", 0);
    put_lists(2, 2, 1, 2);
    schedule.readings[0] = 4294967295;
    schedule.readings[1] = 4993;
    size_t length = case_bytes("05 00 00 00");
    try_timed(&core, whole(M95512), 1, (uint8_t)mode, length, 32, length);
    case_expect("a wrap, one microsecond left (second: wanted)", core.left, 1);
    case_expect("a wrap, the last reading (second: wanted)", core.last, 4993);
    case_expect("a wrap, third status byte (second: wanted)", lib_out.bytes[3], 0x03);
    put_lists(2, 2, 1, 2);
    schedule.readings[0] = 4993;
    schedule.readings[1] = 4994;
    try_timed(&core, whole(M95512), 1, (uint8_t)mode, length, 32, length);
    case_expect("a wrap, ended (second: wanted)", core.left, 0);
    case_expect("a wrap, second status byte (second: wanted)", lib_out.bytes[2], mode == 0 ? 0x03 : 0x00);
    case_expect("a wrap, third status byte (second: wanted)", lib_out.bytes[3], 0x00);
}

/* ---- */

static void run_round(void)
{
    frame_session(300);
    for (int i = 0; i < 5; i++) {
        timed_session(200);
        cross_timed_session(20);
    }
    for (int i = 0; i < 8; i++)
        driver_session(100);
    try_parts(1000);
    try_random_records(1000);
    try_limits(20);
    pin_session(8);
    for (int i = 0; i < 150; i++) {
        try_damaged_core();
        try_damaged_device();
    }
    for (int i = 0; i < 300; i++)
        step_unreached();
    for (int i = 0; i < 60; i++)
        step_unreached_core();
    sweep_core();
    sweep_device();
    sweep_marks((uint8_t)(current_round % PLAIN_PARTS));
    sweep_parts();
    sweep_fields(1);
    try_power_ups(40);
    cross_session(12);
    sweep_counts();
    try_conditions(60);
    try_addressed(60);
    try_in_cycle(60);
    try_in_hold(20);
    try_wrdi_in_hold(10);
    lay_session();
    twice_session(100);
    cut_session();
    try_twins(60);
}

/* 82h at deselect of the parts that know it, by frame calls and at the pins; the page's has no last cause */
static void print_causes(const char *what, const uint64_t *causes, int count)
{
    static const char *const names[CAUSES] = {"executed", "in a cycle", "without WEL", "by the count",
                                              "locked",   "at BP 11",   "in Hold",     "without data bit 1"};
    printf("82h of the M95512-D and the M95M01 for the %s:", what);
    for (int i = 0; i < count; i++)
        printf("%s %s %" PRIu64, i == 0 ? "" : i == 1 ? "; ignored" : ",", names[i], causes[i]);
    printf("\n");
}

static void print_timed(void)
{
    printf("timed frames %" PRIu64 " with %" PRIu64 " readings inside (wraps between two %" PRIu64 "), lists refused %"
           PRIu64, counts.timed, counts.inside, counts.wraps, counts.unfit);
    printf("; cycles ended at position 0 %" PRIu64 ", inside %" PRIu64 ", at the last %" PRIu64
           "; polls that saw the end %" PRIu64 "\n",
           counts.ended_at[0], counts.ended_at[1], counts.ended_at[2], counts.seen);
    printf("timed frames drawn at the pins against the timed call: mode 0 %" PRIu64 ", a cycle ended in %" PRIu64
           "; mode 3 %" PRIu64 ", a cycle ended in %" PRIu64 "\n",
           counts.timed_drawn[0], counts.drawn_ends[0], counts.timed_drawn[1], counts.drawn_ends[1]);
}

static void print_cuts(void)
{
    static const char *const names[] = {"with no cycle", "in a status cycle", "a page's", "an identification page's",
                                        "a lock's"};
    printf("supply cuts %" PRIu64 ", at the pins %" PRIu64 ", inside a frame %" PRIu64 ":", counts.cuts, counts.at_pins,
           counts.dropped);
    for (int i = 0; i < 5; i++)
        printf("%s %s %" PRIu64, i == 0 ? "" : ",", names[i], counts.cut_in[i]);
    printf("; marked cells that took their bytes %" PRIu64 ", that stayed %" PRIu64 "\n", counts.taken,
           counts.untaken);
    printf("laws of a cut %" PRIu64 ", cuts of both models %" PRIu64 "; runs cut and sent again %" PRIu64
           ", cuts in a page's cycle %" PRIu64 ", inside a frame %" PRIu64 "\n",
           counts.cut_laws, counts.cut_models, counts.cut_runs, counts.in_run, counts.in_frame);
}

/* laying, runs sent twice, the driver and the split */
static void print_writes(void)
{
    printf("page writes laid over another %" PRIu64 ", refused %" PRIu64 ", laws %" PRIu64, counts.lays, counts.unlaid,
           counts.laws);
    printf(", pairs whose order matters %" PRIu64 "\n", counts.ordered);
    printf("writes laid byte by byte %" PRIu64 ", pages stored by two writes and by one %" PRIu64 "\n",
           counts.bytewise, counts.stored);
    printf("runs sent twice, both done %" PRIu64 ", a cycle at the first one's start %" PRIu64 "\n",
           counts.twice, counts.busy);
    printf("runs of the driver %" PRIu64 ", a status cycle ended in the first wait %" PRIu64 ", pages done %" PRIu64
           ", frames sent %" PRIu64 "\n",
           counts.runs, counts.moved, counts.pages, counts.sent);
    printf("parts asked for %" PRIu64 "\n", counts.parts);
}

static void print_summary(uint64_t rounds)
{
    printf("no difference: seed %" PRIu64 ", %" PRIu64 " rounds, %" PRIu64 " calls compared\n", seed, rounds,
           counts.calls);
    printf("frames %" PRIu64 ", executed writes %" PRIu64 ", bits driven %" PRIu64 "\n", counts.frames,
           counts.executed, counts.driven);
    printf("events %" PRIu64 ", in lists again %" PRIu64 " (%" PRIu64 " lists, %" PRIu64
           " spoiled by a number), clock readings %" PRIu64 "\n",
           counts.events, counts.listed, counts.lists, counts.spoiled, counts.readings);
    printf("frames ended, of the M95512 %" PRIu64 ", the M95512-D %" PRIu64 ", the M95M01 %" PRIu64 "\n",
           counts.of_part[M95512], counts.of_part[M95512D], counts.of_part[M95M01]);
    printf("cycles ended %" PRIu64 ", cells changed %" PRIu64 "\n", counts.cycles, counts.cells);
    printf("identification pages stored %" PRIu64 ", their cells changed %" PRIu64 ", locks set %" PRIu64,
           counts.identified, counts.kept, counts.locked);
    printf(", records made of each part and kind %" PRIu64 "\n", counts.parts_swept);
    printf("blank cells: at page cycles' ends and cuts %" PRIu64 " gained, %" PRIu64 " lost, %" PRIu64
           " written FFh again",
           counts.gained, counts.lost, counts.rewritten);
    printf("; sums held at 0 %" PRIu64 ", at the memory's size %" PRIu64 "; numbers seen to be the scan's %" PRIu64,
           counts.at_zero, counts.at_size, counts.scanned);
    printf("; calls with two numbers %" PRIu64 "\n", counts.twins);
    print_causes("page", counts.by_page, BY_DATA);
    print_causes("lock", counts.by_lock, CAUSES);
    printf("83h of both: page shown %" PRIu64 ", lock shown %" PRIu64 ", nothing shown %" PRIu64,
           counts.page_shown, counts.lock_shown, counts.unshown);
    printf("; 82h and 83h of the M95512 %" PRIu64 "\n", counts.unknown);
    printf("WRDI in a cycle: WEL became 0 %" PRIu64 ", ignored %" PRIu64 "; readings in a cycle at WEL 0 %" PRIu64 "\n",
           counts.disabled, counts.stayed, counts.unlatched);
    print_timed();
    print_cuts();
    printf("frames in hand made field by field %" PRIu64 "\n", counts.fields_swept);
    printf("frames drawn at the pins against the frame call %" PRIu64 "\n", counts.drawn);
    printf("records inside the ranges built by hand %" PRIu64 ", damaged records %" PRIu64 " (%" PRIu64
           " calls), fields set to an edge %" PRIu64 "\n",
           counts.unreached, counts.damaged, counts.damaged_calls, counts.swept);
    printf("cells touched asked for %" PRIu64 ", not 0 %" PRIu64 ", latches made cell by cell %" PRIu64 "\n",
           counts.asked, counts.some, counts.marked);
    print_writes();
    printf("refusals, and endings 9 and 13:");
    for (int i = 1; i < 10; i++)
        printf(" %d: %" PRIu64 ",", i, counts.numbers[i]);
    printf(" 13: %" PRIu64 "\n", counts.numbers[13]);
}

static void cases_by_hand(void)
{
    cases_a_b();
    case_c();
    cases_d_e();
    cases_h_l();
    cases_protected();
    cases_identification();
    cases_page();
    cases_lock();
    cases_parts();
    cases_large_page();
    cases_large_block();
    cases_disabled();
    cases_large_identification();
    cases_large_driver();
    cases_sizes();
    cases_counted();
    cases_unpowered();
    for (uint8_t part = 0; part < PLAIN_PARTS; part++) {
        cases_moved(part);
        cases_at_pins(part);
    }
    cases_stores_page();
    cases_driven();
    cases_uncounted();
    cases_numbers();
    cases_cut();
    cases_lists();
    cases_modes();
    cases_seen();
    for (int mode = 0; mode <= 3; mode += 3) {
        cases_judged(mode);
        cases_wrap(mode);
    }
}

int main(int argc, char **argv)
{
    seed = argc > 1 ? strtoull(argv[1], NULL, 10) : 1;
    uint64_t rounds = argc > 2 ? strtoull(argv[2], NULL, 10) : 100;
    state = (seed + 1) * 0x9E3779B97F4A7C15ULL | 1;
    for (int i = 0; i < 20; i++)
        next64();
    cases_by_hand();
    sweep_fields(0);
    for (current_round = 0; current_round < rounds; current_round++)
        run_round();
    print_summary(rounds);
    return 0;
}
