/* speed [call]: the library of cartvesper.h against the plain model. The sides run alternately, at least 0.3 s each.
 * Printed are ns per operation of each, and two ratios (1.00 = as fast as C): to plain C in place, which tests nothing,
 * and to the same C that first tests its input as the library does (the record's ranges, a list's numbers). With `call`
 * the plain model runs through its plain_*_call functions instead of the first, which also hand the record over by
 * value. The compiler of the C is named. */
#define _POSIX_C_SOURCE 199309L
#include "plain.h"
#include <stdio.h>
#include <stdlib.h>
#include <string.h>
#include <time.h>

#ifdef __clang__
#define COMPILER "clang"
#else
#define COMPILER "gcc"
#endif

enum { WREN = CARTVESPER_WREN, RDSR = CARTVESPER_RDSR, READ = CARTVESPER_READ, WRITE = CARTVESPER_WRITE };
enum { M95512 = CARTVESPER_M95512, M95M01 = CARTVESPER_M95M01 };
enum { LARGEST = CARTVESPER_LARGEST_MEMORY, CELLS = CARTVESPER_LARGEST_PAGE, LONGEST = LARGEST + 4, EVENTS = 1 << 15 };
enum { HEAD = 4, DATA = 64 }; /* bytes before the data, at most; data bytes of a drawn frame */
enum { PAGES = 512 };         /* of every part */
enum { SET_S, SET_C, SET_D, SET_W, SET_HOLD, CLOCK };

/* one side: what it works on */
typedef struct {
    cartvesper_core core;
    cartvesper_device device;
    uint8_t memory[LARGEST], identification[CELLS], out[LONGEST];
} side;

/* the part at work, its row and the bytes before the data */
static uint8_t part;
static plain_row row;
static size_t head;

/* both slices as four arguments */
#define LENT(one) (one).memory, row.size, (one).identification, row.page

static side lib, plain;
static uint8_t frame_bytes[LONGEST];
static size_t frame_length;
static const uint8_t wren_byte[1] = {WREN};
static uint64_t events[EVENTS];
static size_t event_count;

static double now(void)
{
    struct timespec t;
    clock_gettime(CLOCK_PROCESS_CPUTIME_ID, &t); /* what else runs on the machine counts little */
    return (double)t.tv_sec * 1e9 + (double)t.tv_nsec;
}

static void reset_side(side *one)
{
    memset(one, 0, sizeof *one);
    for (size_t i = 0; i < LARGEST; i++)
        one->memory[i] = (uint8_t)(i * 31 + (i >> 8));
    uint32_t blank = plain_blank(one->memory, row.size);
    plain_core_power_up(&one->core, part, 0, row.longest_cycle, 0, 0, 0, 0, blank);
    plain_device_power_up(&one->device, part, 0, row.longest_cycle, 0, 0, 0, 0, blank);
}

static void choose_part(uint8_t chosen)
{
    part = chosen;
    row = *plain_row_of(chosen);
    head = plain_head(&row);
}

/* the address bytes of a frame, high byte first */
static void put_address(uint8_t *bytes, uint32_t address)
{
    for (uint32_t i = row.address_bytes; i > 0; i--, address >>= 8)
        bytes[i] = (uint8_t)address;
}

static void refused(void)
{
    fprintf(stderr, "speed: a call was refused\n");
    exit(1);
}

/* ---- one frame; operation = frame */

static void lib_frames(size_t n)
{
    while (n-- > 0) {
        cartvesper_frame_answer a =
            cartvesper_frame(lib.core, LENT(lib), 1, frame_bytes, frame_length, 8 * frame_length, lib.out,
                             frame_length);
        if (a.number)
            refused();
        lib.core = a.core;
    }
}

/* one frame of the plain model in place, W high */
static void plain_send(const uint8_t *bytes, size_t length)
{
    plain_frame(&plain.core, plain.memory, plain.identification, 1, bytes, length, 8 * length, plain.out);
}

static void plain_frames(size_t n)
{
    while (n-- > 0)
        plain_send(frame_bytes, frame_length);
}

static void test_core(void)
{
    if (!plain_core_ok(&plain.core))
        refused();
}

static void tested_frames(size_t n)
{
    while (n-- > 0) {
        test_core();
        plain_send(frame_bytes, frame_length);
    }
}

static void call_frames(size_t n)
{
    while (n-- > 0) {
        cartvesper_frame_answer a =
            plain_frame_call(plain.core, LENT(plain), 1, frame_bytes, frame_length, 8 * frame_length, plain.out,
                             frame_length);
        if (a.number)
            refused();
        plain.core = a.core;
    }
}

static void set_up_rdsr(void)
{
    frame_bytes[0] = RDSR;
    frame_length = 2;
}

static void set_up_read(void)
{
    frame_bytes[0] = READ;
    put_address(frame_bytes, 0x1234);
    frame_length = 259;
}

static void set_up_long_read(void)
{
    set_up_read();
    frame_length = 65539;
}

/* ---- WREN, WRITE of a page, the reading that ends its cycle; operation = the three */

static void set_up_write(void)
{
    frame_bytes[0] = WRITE;
    frame_length = head + row.page;
    for (size_t i = 0; i < row.page; i++)
        frame_bytes[head + i] = (uint8_t)(i * 7);
}

/* the next page, from the middle of it */
static void next_address(size_t n)
{
    put_address(frame_bytes, (uint32_t)n * row.page + row.page / 2);
}

static void lib_writes(size_t n)
{
    while (n-- > 0) {
        next_address(n);
        cartvesper_frame_answer wren = cartvesper_frame(lib.core, LENT(lib), 1, wren_byte, 1, 8, lib.out, 1);
        cartvesper_frame_answer write =
            cartvesper_frame(wren.core, LENT(lib), 1, frame_bytes, frame_length, 8 * frame_length, lib.out,
                             frame_length);
        cartvesper_core_answer end =
            cartvesper_clock_reading(write.core, write.core.last + row.longest_cycle, LENT(lib));
        if (wren.number || write.number || end.number)
            refused();
        lib.core = end.core;
    }
}

static void plain_writes(size_t n)
{
    while (n-- > 0) {
        next_address(n);
        plain_send(wren_byte, 1);
        plain_send(frame_bytes, frame_length);
        plain_time(&plain.core, plain.memory, plain.identification, plain.core.last + row.longest_cycle);
    }
}

static void tested_writes(size_t n)
{
    while (n-- > 0) {
        next_address(n);
        test_core();
        plain_send(wren_byte, 1);
        test_core();
        plain_send(frame_bytes, frame_length);
        test_core();
        plain_time(&plain.core, plain.memory, plain.identification, plain.core.last + row.longest_cycle);
    }
}

static void call_writes(size_t n)
{
    while (n-- > 0) {
        next_address(n);
        cartvesper_frame_answer wren = plain_frame_call(plain.core, LENT(plain), 1, wren_byte, 1, 8, plain.out, 1);
        cartvesper_frame_answer write =
            plain_frame_call(wren.core, LENT(plain), 1, frame_bytes, frame_length, 8 * frame_length, plain.out,
                             frame_length);
        cartvesper_core_answer end =
            plain_clock_reading_call(write.core, write.core.last + row.longest_cycle, LENT(plain));
        if (wren.number || write.number || end.number)
            refused();
        plain.core = end.core;
    }
}

/* ---- the reading alone that ends the cycle of a whole page; operation = the reading. Each side copies the record
 * whose page waits. All pages in turn, by turns with two page writes: where one is FFh the other is not, so that cells
 * are gained and lost */

static cartvesper_core waiting[2];

static void set_up_ends(void)
{
    for (size_t k = 0; k < 2; k++) {
        cartvesper_core *one = &waiting[k];
        plain_core_power_up(one, part, 0, row.longest_cycle, 0, 0, 0, 0, 0);
        one->wel = 1;
        one->left = one->cycle;
        one->waits.kind = 2;
        for (size_t i = 0; i < row.page; i++) {
            one->waits.latch.bytes[i] = i % 2 == k ? 0xFF : (uint8_t)(i * 7);
            one->waits.latch.marks[i / 64] |= 1ULL << i % 64;
        }
    }
}

/* the record for the n-th reading, with the number of blank cells that the last one left */
static void next_waiting(cartvesper_core *core, size_t n)
{
    uint32_t blank = core->blank;
    *core = waiting[n / PAGES % 2];
    core->blank = blank;
    core->waits.page = (uint32_t)(n % PAGES);
}

static void lib_ends(size_t n)
{
    while (n-- > 0) {
        next_waiting(&lib.core, n);
        cartvesper_core_answer end = cartvesper_clock_reading(lib.core, row.longest_cycle, LENT(lib));
        if (end.number)
            refused();
        lib.core = end.core;
    }
}

static void plain_ends(size_t n)
{
    while (n-- > 0) {
        next_waiting(&plain.core, n);
        plain_time(&plain.core, plain.memory, plain.identification, row.longest_cycle);
    }
}

static void tested_ends(size_t n)
{
    while (n-- > 0) {
        next_waiting(&plain.core, n);
        test_core();
        plain_time(&plain.core, plain.memory, plain.identification, row.longest_cycle);
    }
}

static void call_ends(size_t n)
{
    while (n-- > 0) {
        next_waiting(&plain.core, n);
        cartvesper_core_answer end = plain_clock_reading_call(plain.core, row.longest_cycle, LENT(plain));
        if (end.number)
            refused();
        plain.core = end.core;
    }
}

/* ---- one timed frame; operation = frame. With no readings plain C sends the plain frame, which is the same */

enum { STATUSES = 64 }; /* bytes of a long poll, with a reading at the boundary of each */

static size_t positions[STATUSES];
static uint32_t readings[STATUSES];
static size_t places;

static void lib_send_timed(void)
{
    cartvesper_frame_answer a =
        cartvesper_timed_frame(lib.core, LENT(lib), 1, CARTVESPER_MODE0, frame_bytes, frame_length, 8 * frame_length,
                               positions, places, readings, places, lib.out, frame_length);
    if (a.number)
        refused();
    lib.core = a.core;
}

static void lib_timed(size_t n)
{
    while (n-- > 0)
        lib_send_timed();
}

static void call_send_timed(void)
{
    cartvesper_frame_answer a =
        plain_timed_frame_call(plain.core, LENT(plain), 1, CARTVESPER_MODE0, frame_bytes, frame_length,
                               8 * frame_length, positions, places, readings, places, plain.out, frame_length);
    if (a.number)
        refused();
    plain.core = a.core;
}

static void set_up_timed_rdsr(void)
{
    set_up_rdsr();
    places = 0;
}

static void set_up_timed_read(void)
{
    set_up_read();
    places = 0;
}

static void set_up_long_timed_read(void)
{
    set_up_long_read();
    places = 0;
}

/* RDSR through the cycle of a whole page, the clock read after each byte: it ends halfway, and the page is stored. The
 * record is copied in as above */
static void set_up_polls(void)
{
    set_up_ends();
    frame_bytes[0] = RDSR;
    frame_length = 1 + STATUSES;
    places = STATUSES;
    for (uint32_t i = 0; i < STATUSES; i++) {
        positions[i] = i + 1;
        readings[i] = (i + 1) * row.longest_cycle / (STATUSES / 2);
    }
}

static void lib_polls(size_t n)
{
    while (n-- > 0) {
        next_waiting(&lib.core, n);
        lib_send_timed();
    }
}

static void plain_send_timed(void)
{
    plain_schedule schedule = {positions, readings, places};
    plain_timed_frame(&plain.core, plain.memory, plain.identification, 1, CARTVESPER_MODE0, frame_bytes, frame_length,
                      8 * frame_length, schedule, plain.out);
}

static void plain_polls(size_t n)
{
    while (n-- > 0) {
        next_waiting(&plain.core, n);
        plain_send_timed();
    }
}

static void tested_polls(size_t n)
{
    while (n-- > 0) {
        next_waiting(&plain.core, n);
        test_core();
        if (!plain_schedule_ok(8 * frame_length, positions, places, places))
            refused();
        plain_send_timed();
    }
}

static void call_polls(size_t n)
{
    while (n-- > 0) {
        next_waiting(&plain.core, n);
        call_send_timed();
    }
}

/* ---- pin events: streams of frames drawn in mode 0; operation = event */

static void emit(unsigned kind, uint32_t value)
{
    events[event_count++] = cartvesper_event(kind, value);
}

static void draw_frame(const uint8_t *bytes, size_t length)
{
    emit(SET_S, 0);
    for (size_t i = 0; i < 8 * length; i++) {
        emit(SET_D, bytes[i / 8] >> (7 - i % 8) & 1);
        emit(SET_C, 1);
        emit(SET_C, 0);
    }
    emit(SET_S, 1);
}

/* here and there in the whole memory */
static uint32_t stream_address(uint32_t i)
{
    return i * 17 * (row.size / 256) + i * 29 % 256;
}

static void set_up_read_stream(void)
{
    uint8_t bytes[HEAD + DATA] = {READ};
    event_count = 0;
    for (uint32_t i = 0; i < 16; i++) {
        put_address(bytes, stream_address(i));
        draw_frame(bytes, head + DATA);
    }
}

static void set_up_write_stream(void)
{
    uint8_t bytes[HEAD + DATA] = {WRITE};
    event_count = 0;
    for (uint32_t i = 0; i < 16; i++) {
        for (uint32_t k = 0; k < DATA; k++)
            bytes[head + k] = (uint8_t)(i * k);
        put_address(bytes, stream_address(i));
        draw_frame(wren_byte, 1);
        draw_frame(bytes, head + DATA);
        /* from the last to the first again counts as nearly a full turn: ends the cycle too */
        emit(CLOCK, (i + 1) * row.longest_cycle);
    }
}

/* short frames: a poll of two bytes after each clock reading */
static void set_up_poll_stream(void)
{
    const uint8_t bytes[2] = {RDSR, 0};
    event_count = 0;
    for (uint32_t i = 0; i < 200; i++) {
        emit(CLOCK, i);
        draw_frame(bytes, sizeof bytes);
    }
}

static cartvesper_device_answer lib_event(uint64_t event)
{
    uint8_t level = event & 1;
    switch (event >> 32) {
    case SET_S:
        return cartvesper_device_set_s(lib.device, level);
    case SET_C:
        return cartvesper_device_set_c(lib.device, level, LENT(lib));
    case SET_D:
        return cartvesper_device_set_d(lib.device, level);
    case SET_W:
        return cartvesper_device_set_w(lib.device, level);
    case SET_HOLD:
        return cartvesper_device_set_hold(lib.device, level);
    default:
        return cartvesper_device_read_clock(lib.device, (uint32_t)event, LENT(lib));
    }
}

static void lib_events(size_t n)
{
    while (n-- > 0)
        for (size_t i = 0; i < event_count; i++) {
            cartvesper_device_answer a = lib_event(events[i]);
            if (a.number)
                refused();
            lib.device = a.device;
        }
}

static void plain_events(size_t n)
{
    while (n-- > 0)
        for (size_t i = 0; i < event_count; i++)
            plain_event(&plain.device, plain.memory, plain.identification, events[i]);
}

static void tested_events(size_t n)
{
    while (n-- > 0)
        for (size_t i = 0; i < event_count; i++) {
            if (!plain_device_ok(&plain.device))
                refused();
            plain_event(&plain.device, plain.memory, plain.identification, events[i]);
        }
}

static cartvesper_device_answer call_event(uint64_t event)
{
    uint8_t level = event & 1;
    switch (event >> 32) {
    case SET_S:
        return plain_device_set_s_call(plain.device, level);
    case SET_C:
        return plain_device_set_c_call(plain.device, level, LENT(plain));
    case SET_D:
        return plain_device_set_d_call(plain.device, level);
    case SET_W:
        return plain_device_set_w_call(plain.device, level);
    case SET_HOLD:
        return plain_device_set_hold_call(plain.device, level);
    default:
        return plain_device_read_clock_call(plain.device, (uint32_t)event, LENT(plain));
    }
}

static void call_events(size_t n)
{
    while (n-- > 0)
        for (size_t i = 0; i < event_count; i++) {
            cartvesper_device_answer a = call_event(events[i]);
            if (a.number)
                refused();
            plain.device = a.device;
        }
}

static void lib_play(size_t n)
{
    while (n-- > 0) {
        cartvesper_device_answer a =
            cartvesper_device_play(lib.device, LENT(lib), events, event_count, lib.out, event_count);
        if (a.number)
            refused();
        lib.device = a.device;
    }
}

static void plain_plays(size_t n)
{
    while (n-- > 0)
        plain_play(&plain.device, plain.memory, plain.identification, events, event_count, plain.out);
}

static void tested_plays(size_t n)
{
    while (n-- > 0) {
        if (plain_play_refusal(&plain.device, row.size, row.page, events, event_count, event_count))
            refused();
        plain_play(&plain.device, plain.memory, plain.identification, events, event_count, plain.out);
    }
}

static void call_plays(size_t n)
{
    while (n-- > 0) {
        cartvesper_device_answer a =
            plain_device_play_call(plain.device, LENT(plain), events, event_count, plain.out, event_count);
        if (a.number)
            refused();
        plain.device = a.device;
    }
}

/* ---- the driver writes the whole memory; operation = the run of 512 pages */

static uint8_t run_bytes[LARGEST];
static uint32_t run_interval;

static void set_up_run(void)
{
    for (size_t i = 0; i < LARGEST; i++)
        run_bytes[i] = (uint8_t)(i * 5 + (i >> 7));
    run_interval = 1000;
}

static void set_up_fine_run(void)
{
    set_up_run();
    run_interval = 1;
}

static void lib_runs(size_t n)
{
    while (n-- > 0) {
        cartvesper_driver_answer a =
            cartvesper_write(lib.core, LENT(lib), 0, run_bytes, row.size, run_interval, plain_most_polls(&row));
        if (a.number)
            refused();
        lib.core = a.core;
    }
}

static void plain_runs(size_t n)
{
    uint32_t pages, frames;
    while (n-- > 0)
        if (plain_write(&plain.core, plain.memory, plain.identification, 0, run_bytes, row.size, run_interval,
                        plain_most_polls(&row), &pages, &frames))
            refused();
}

/* the driver tests its record once; its frames are its own */
static void tested_runs(size_t n)
{
    while (n-- > 0) {
        test_core();
        plain_runs(1);
    }
}

static void call_runs(size_t n)
{
    while (n-- > 0) {
        cartvesper_driver_answer a =
            plain_write_call(plain.core, LENT(plain), 0, run_bytes, row.size, run_interval, plain_most_polls(&row));
        if (a.number)
            refused();
        plain.core = a.core;
    }
}

/* ---- the cases */

typedef struct {
    const char *name;
    uint8_t part;
    void (*set_up)(void);
    void (*lib)(size_t), (*plain)(size_t), (*call)(size_t), (*tested)(size_t);
    size_t before; /* runs that are not timed: every page once, so that both memories end the same */
    int is_stream; /* an operation is one event */
} speed_case;

#define FRAMES lib_frames, plain_frames, call_frames, tested_frames, 512, 0
#define TIMED lib_timed, plain_frames, call_frames, tested_frames, 512, 0
#define POLLS lib_polls, plain_polls, call_polls, tested_polls, 512, 0
#define WRITES lib_writes, plain_writes, call_writes, tested_writes, 512, 0
#define ENDS lib_ends, plain_ends, call_ends, tested_ends, 512, 0
#define SINGLES lib_events, plain_events, call_events, tested_events, 512, 1
#define LISTS lib_play, plain_plays, call_plays, tested_plays, 512, 1
#define RUNS lib_runs, plain_runs, call_runs, tested_runs, 1, 0

static const speed_case cases[] = {
    {"frame RDSR, 2 bytes", M95512, set_up_rdsr, FRAMES},
    {"timed frame RDSR, 2 bytes, no readings", M95512, set_up_timed_rdsr, TIMED},
    {"frame READ, 259 bytes", M95512, set_up_read, FRAMES},
    {"timed frame READ, 259 bytes, no readings", M95512, set_up_timed_read, TIMED},
    {"frame READ, 65,539 bytes", M95512, set_up_long_read, FRAMES},
    {"timed frame READ, 65,539 bytes, no readings", M95512, set_up_long_timed_read, TIMED},
    {"timed frame RDSR, 65 bytes, 64 readings", M95512, set_up_polls, POLLS},
    {"WREN, WRITE of 128 bytes, cycle's end", M95512, set_up_write, WRITES},
    {"clock reading that ends a page cycle", M95512, set_up_ends, ENDS},
    {"pin event, READ frames, one by one", M95512, set_up_read_stream, SINGLES},
    {"pin event, WRITE frames, one by one", M95512, set_up_write_stream, SINGLES},
    {"pin event, READ frames, as a list", M95512, set_up_read_stream, LISTS},
    {"pin event, WRITE frames, as a list", M95512, set_up_write_stream, LISTS},
    {"pin event, RDSR polls, as a list", M95512, set_up_poll_stream, LISTS},
    {"driver, 65,536 bytes, interval 1,000", M95512, set_up_run, RUNS},
    {"driver, 65,536 bytes, interval 1", M95512, set_up_fine_run, RUNS},
    {"M95M01, frame READ, 259 bytes", M95M01, set_up_read, FRAMES},
    {"M95M01, WREN, WRITE of 256 bytes, cycle's end", M95M01, set_up_write, WRITES},
    {"M95M01, clock reading that ends a page cycle", M95M01, set_up_ends, ENDS},
    {"M95M01, timed frame RDSR, 65 bytes, 64 readings", M95M01, set_up_polls, POLLS},
    {"M95M01, pin event, READ frames, as a list", M95M01, set_up_read_stream, LISTS},
    {"M95M01, pin event, WRITE frames, as a list", M95M01, set_up_write_stream, LISTS},
    {"M95M01, driver, 131,072 bytes, interval 1,000", M95M01, set_up_run, RUNS},
};

static double timed(void (*run)(size_t), size_t n)
{
    double start = now();
    run(n);
    return now() - start;
}

/* how many runs take about 5 ms */
static size_t calibrate(void (*run)(size_t))
{
    size_t n = 1;
    while (timed(run, n) < 5e6)
        n *= 2;
    return n;
}

/* the record that a case works on has the right number of blank cells, after all its cycles */
static uint32_t blank_of(const side *one, int is_stream)
{
    return is_stream ? one->device.core.blank : one->core.blank;
}

static void check_same(const char *name, int is_stream)
{
    uint32_t scanned = plain_blank(plain.memory, row.size);
    if (memcmp(lib.memory, plain.memory, LARGEST) != 0 || memcmp(lib.out, plain.out, LONGEST) != 0 ||
        memcmp(lib.identification, plain.identification, CELLS) != 0 || blank_of(&lib, is_stream) != scanned ||
        blank_of(&plain, is_stream) != scanned) {
        fprintf(stderr, "speed: the two sides differ after: %s\n", name);
        exit(1);
    }
}

/* Where the stack stands decides how the records that go by value lie to the cache lines, and a short frame takes up to
 * a third longer in one place than in another. So the batches go round places over 4 KB, 272 bytes apart. */
enum { PLACES = 16, APART = 272 };

static __attribute__((noinline)) double timed_at(size_t place, void (*run)(size_t), size_t n)
{
    volatile char *room = __builtin_alloca(APART * place + 1);
    room[0] = 0;
    return timed(run, n);
}

/* one side's time so far, its runs and its batches */
typedef struct {
    void (*run)(size_t);
    size_t n;
    double time, runs;
    size_t batches;
} clocked;

static void go(clocked *one)
{
    one->time += timed_at(one->batches++ % PLACES, one->run, one->n);
    one->runs += (double)one->n;
}

static void run_case(const speed_case *one, int through_call)
{
    clocked sides[3] = {{.run = one->lib}, {.run = through_call ? one->call : one->plain}, {.run = one->tested}};
    double ns[3], each;
    choose_part(one->part);
    reset_side(&lib);
    reset_side(&plain);
    one->set_up();
    one->lib(one->before);
    sides[1].run(one->before);
    for (int k = 0; k < 3; k++)
        sides[k].n = calibrate(sides[k].run);
    while (sides[0].time < 3e8 || sides[1].time < 3e8 || sides[2].time < 3e8 || sides[0].batches % PLACES != 0)
        for (int k = 0; k < 3; k++)
            go(&sides[k]);
    check_same(one->name, one->is_stream);
    each = one->is_stream ? (double)event_count : 1;
    for (int k = 0; k < 3; k++)
        ns[k] = sides[k].time / sides[k].runs / each;
    printf("%-48s %14.2f %14.2f %8.2f %14.2f %8.2f\n", one->name, ns[0], ns[1], ns[1] / ns[0], ns[2], ns[2] / ns[0]);
    fflush(stdout);
}

int main(int argc, char **argv)
{
    int through_call = argc > 1 && strcmp(argv[1], "call") == 0;
    printf("C compiler: %s %s\n", COMPILER, __VERSION__);
    printf("%-48s %14s %14s %8s %14s %8s\n", "", "library ns", through_call ? "call ns" : "plain ns", "ratio",
           "tested ns", "ratio");
    for (size_t i = 0; i < sizeof cases / sizeof *cases; i++)
        run_case(&cases[i], through_call);
    return 0;
}
