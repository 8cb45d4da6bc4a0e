/* The library by example: one M95512 on a bench, from power-up to a run of the driver, then an M95512-D and an M95M01.
 * Read it from the top; example.sh builds and runs it.
 *
 * The library keeps no state. The device is a record that goes in by value and comes back in the answer, and its cells
 * are yours, lent to each call: 65,536 bytes of memory and then 128 of the identification page; of an M95M01 131,072
 * and 256. The M95512 has no such page, but is lent one too, and leaves it alone. So a device is copied by copying all
 * three, and a call that is refused has changed none of them. */
#include "cartvesper.h"
#include <stdio.h>
#include <stdlib.h>
#include <string.h>

enum { MEMORY = CARTVESPER_MEMORY, IDENTIFICATION = CARTVESPER_IDENTIFICATION };

/* room for any part; a call is lent what its part has */
static uint8_t memory[CARTVESPER_LARGEST_MEMORY], identification[CARTVESPER_LARGEST_IDENTIFICATION];

#define LENT(part) memory, cartvesper_memory_of(part), identification, cartvesper_identification_of(part)

/* Power-up, with SRWD and BP1 0. It is lent the memory alone, and counts its blank cells. */
static cartvesper_core_answer power_up(uint8_t part, uint8_t lock, uint32_t cycle, uint8_t bp0, uint32_t reading)
{
    return cartvesper_power_up(part, lock, cycle, 0, 0, bp0, reading, memory, cartvesper_memory_of(part));
}

/* Every answer starts with a number: 0 is done, the others are in cartvesper.h. A bench that sends what it means to
 * send can stop at any other. */
static void must_be_done(const char *what, uint32_t number)
{
    if (number == 0)
        return;
    printf("%s: %u\n", what, number);
    exit(1);
}

/* A whole frame from select to deselect, W high. All bits of the bytes are sent here: for a frame cut short, give a
 * bit count down to 8 * length - 7. The output has the frame's length: byte i of it is what Q showed while byte i
 * went in, FFh where the chip did not drive Q. */
static void send(const char *what, cartvesper_core *core, const uint8_t *bytes, size_t length, uint8_t *out)
{
    cartvesper_frame_answer answer =
        cartvesper_frame(*core, LENT(core->part), 1, bytes, length, 8 * length, out, length);
    must_be_done(what, answer.number);
    *core = answer.core; /* the device that follows */
}

/* Time is yours too: readings of a free-running 32-bit microsecond counter. It may wrap; the device takes the
 * difference to the last one. */
static void pass_time(cartvesper_core *core, uint32_t microseconds)
{
    cartvesper_core_answer answer = cartvesper_clock_reading(*core, core->last + microseconds, LENT(core->part));
    must_be_done("clock reading", answer.number);
    *core = answer.core;
}

static uint8_t poll(cartvesper_core *core)
{
    const uint8_t rdsr[2] = {0x05, 0x00};
    uint8_t out[2];
    send("RDSR", core, rdsr, 2, out);
    return out[1]; /* SRWD 0 0 0 BP1 BP0 WEL WIP */
}

/* ---- how many cells are blank, for the stores page */

/* The record has the number, so nobody needs to look at the cells. Here they are looked at, to show that it is right:
 * it stays so while the memory is changed by calls alone, each with the record that the last one gave. */
static void print_blank(const char *when, const cartvesper_core *core)
{
    uint32_t scanned = 0;
    for (size_t cell = 0; cell < cartvesper_memory_of(core->part); cell++)
        scanned += memory[cell] == 0xFF;
    printf("%s: %u blank cells, by the scan %u\n", when, core->blank, scanned);
    if (core->blank != scanned)
        exit(1);
}

/* ---- one page write, frame by frame */

/* How many cells of the page that waits the end of the cycle will touch, and which: those with a mark. Asked at any
 * time; 0 when no page waits. */
static void print_touched(const cartvesper_core *core)
{
    cartvesper_value touched = cartvesper_core_touched(*core);
    must_be_done("cells touched", touched.number);
    printf("cells to be touched: %u;", touched.value);
    for (size_t cell = 0; cell < CARTVESPER_LARGEST_PAGE; cell++)
        if (cartvesper_marked(&core->waits.latch, cell))
            printf(" %u", (unsigned)cell);
    printf("%s\n", touched.value == 0 ? " no page waits" : " of the page");
}

static void write_by_hand(cartvesper_core *core)
{
    const uint8_t wren[1] = {CARTVESPER_WREN}, read[7] = {CARTVESPER_READ, 0x00, 0x7E};
    const uint8_t write[7] = {CARTVESPER_WRITE, 0x00, 0x7E, 0x11, 0x22, 0x33, 0x44};
    uint8_t out[7];
    send("WREN", core, wren, 1, out);
    send("WRITE", core, write, 7, out);
    /* WIP and WEL are 1, the cell is as it was */
    printf("after WRITE: status %02X, cell 007E %02X\n", poll(core), memory[0x7E]);
    print_touched(core);
    print_blank("in the cycle", core);
    for (int polls = 1; polls <= 5; polls++) {
        pass_time(core, 1000);
        printf("after %d ms: status %02X\n", polls, poll(core));
    }
    print_touched(core);
    print_blank("after the cycle", core);
    /* the cycle has ended and the page is stored: four bytes from offset 126 on, around the page's end */
    printf("cells 007E %02X, 007F %02X, 0000 %02X, 0001 %02X\n", memory[0x7E], memory[0x7F], memory[0x00],
           memory[0x01]);
    send("READ", core, read, 7, out); /* READ goes on into the next page */
    printf("READ at 007E: %02X %02X %02X %02X\n", out[3], out[4], out[5], out[6]);
}

/* ---- one long poll: the clock is read inside the frame, and RDSR sees the cycle end */

enum { STATUSES = 7 };

/* Reading i comes after positions[i] whole bytes: here one after each, 1,000 microseconds later. Status byte k is
 * loaded before the reading at position k in mode 0 and after it in mode 3, so that mode 3 sees the end one byte
 * earlier. A reading stores the page, so both slices are lent to be written. */
static cartvesper_frame_answer poll_on(const cartvesper_core *core, uint8_t mode, size_t times, uint8_t *out)
{
    const uint8_t rdsr[1 + STATUSES] = {CARTVESPER_RDSR};
    size_t positions[STATUSES];
    uint32_t readings[STATUSES];
    for (uint32_t i = 0; i < STATUSES; i++) {
        positions[i] = i + 1;
        readings[i] = core->last + 1000 * (i + 1);
    }
    return cartvesper_timed_frame(*core, LENT(core->part), 1, mode, rdsr, sizeof rdsr, 8 * sizeof rdsr, positions,
                                  STATUSES, readings, times, out, sizeof rdsr);
}

static void long_poll(cartvesper_core *core, uint8_t mode, uint8_t data)
{
    const uint8_t wren[1] = {CARTVESPER_WREN}, write[4] = {CARTVESPER_WRITE, 0x00, 0x7E, data};
    uint8_t out[1 + STATUSES];
    send("WREN", core, wren, 1, out);
    send("WRITE", core, write, 4, out);
    cartvesper_frame_answer answer = poll_on(core, mode, STATUSES, out);
    must_be_done("timed frame", answer.number);
    *core = answer.core;
    printf("mode %u, one RDSR through the cycle:", mode);
    for (int i = 1; i <= STATUSES; i++)
        printf(" %02X", out[i]);
    printf("; cell 007E %02X\n", memory[0x7E]);
}

static void long_polls(cartvesper_core *core)
{
    uint8_t out[1 + STATUSES];
    long_poll(core, CARTVESPER_MODE0, 0x12);
    long_poll(core, CARTVESPER_MODE3, 0x13);
    printf("one reading too few: %u\n", poll_on(core, CARTVESPER_MODE0, STATUSES - 1, out).number);
    printf("mode 1: %u\n", poll_on(core, 1, STATUSES, out).number);
}

/* ---- the driver: any run of bytes, with a poll each 1,000 microseconds and at most 5,001 polls in a wait */

static cartvesper_driver_answer drive(const cartvesper_core *core, uint64_t address, const uint8_t *bytes,
                                      size_t length, uint32_t interval, uint32_t limit)
{
    return cartvesper_write(*core, LENT(core->part), address, bytes, length, interval, limit);
}

static void write_by_driver(cartvesper_core *core)
{
    uint8_t bytes[300];
    for (int i = 0; i < 300; i++)
        bytes[i] = (uint8_t)(i + 1);
    const uint8_t chip = core->part;
    /* how it will be split: the first number says whether there is a part k */
    for (uint64_t k = 0; cartvesper_part_refusal(chip, 100, 300, k) == 0; k++)
        printf("part %u of %u: %u bytes at %u\n", (unsigned)k + 1, (unsigned)cartvesper_part_count(chip, 100, 300, k),
               (unsigned)cartvesper_part_length(chip, 100, 300, k),
               (unsigned)cartvesper_part_address(chip, 100, 300, k));
    cartvesper_driver_answer done = drive(core, 100, bytes, sizeof bytes, 1000, 5001);
    must_be_done("driver", done.number);
    *core = done.core;
    printf("driver: %u pages, %u frames, all there: %s\n", done.pages, done.frames,
           memcmp(memory + 100, bytes, 300) == 0 ? "yes" : "no");
    print_blank("after the driver", core);
    /* Four polls of 1,000 microseconds do not see the end of a cycle of 5,000: 9. The page in hand waits on in the
     * record */
    cartvesper_driver_answer early = drive(core, 1000, bytes, 1, 1000, 4);
    printf("limit 4: number %u, %u pages, %u frames, %u microseconds left\n", early.number, early.pages, early.frames,
           early.core.left);
    *core = early.core;
    pass_time(core, early.core.left);
    printf("and then: cell 03E8 %02X\n", memory[1000]);
}

/* ---- two retries in a row are one */

/* A WRITE of two bytes, its cycle ended; gives the page write that waited for that end. */
static cartvesper_latch write_two(cartvesper_core *core, uint8_t low, uint8_t first, uint8_t second)
{
    const uint8_t wren[1] = {CARTVESPER_WREN}, write[5] = {CARTVESPER_WRITE, 0x20, low, first, second};
    uint8_t out[5];
    send("WREN", core, wren, 1, out);
    send("WRITE", core, write, 5, out);
    cartvesper_latch latch = core->waits.latch;
    pass_time(core, core->left);
    return latch;
}

/* One page write laid over another, the later winning. A latch has no bytes between its fields, so two may be compared
 * whole. */
static cartvesper_latch lay(cartvesper_latch earlier, cartvesper_latch later)
{
    cartvesper_latch_answer laid = cartvesper_lay(earlier, later);
    must_be_done("lay", laid.number);
    return laid.latch;
}

static void retries(cartvesper_core *core)
{
    static uint8_t once[MEMORY];
    const uint8_t bytes[4] = {0x51, 0x52, 0x53, 0x54};
    cartvesper_latch earlier = write_two(core, 0x00, 0x0A, 0x0B), later = write_two(core, 0x01, 0x1B, 0x1C);
    cartvesper_latch both = lay(earlier, later), again = lay(both, later);
    printf("stored one after the other: %02X %02X %02X\n", memory[0x2000], memory[0x2001], memory[0x2002]);
    printf("one laid over the other: %02X %02X %02X\n", both.bytes[0], both.bytes[1], both.bytes[2]);
    printf("the later laid twice is as once: %s\n", memcmp(&again, &both, sizeof both) == 0 ? "yes" : "no");
    /* the driver: the same run again, into the next page too */
    for (int sent = 1; sent <= 2; sent++) {
        cartvesper_driver_answer done = drive(core, 0x20FE, bytes, 4, 1000, 5001);
        must_be_done("driver", done.number);
        *core = done.core;
        if (sent == 1)
            memcpy(once, memory, MEMORY);
    }
    printf("a run sent twice leaves the memory of one: %s\n", memcmp(memory, once, MEMORY) == 0 ? "yes" : "no");
}

/* ---- the supply falls in the middle of a write */

/* 132 bytes over three pages: two of the first, the whole second, two of the third. */
enum { CUT_FROM = 0x307E, CUT_LENGTH = 132 };

static void print_around_second(const char *when)
{
    printf("%s: cells 307F %02X, 3080 %02X, 3081 %02X, 3082 %02X, 30FF %02X, 3100 %02X\n", when, memory[0x307F],
           memory[0x3080], memory[0x3081], memory[0x3082], memory[0x30FF], memory[0x3100]);
}

/* The driver sends one page part after the other. So its run up to the second page's cycle is the first part, and then
 * the second with too few polls to see the end. There the supply falls, and comes back. Which cells had taken their
 * bytes is yours to choose: here the even ones. A mark stands for a cell, as in a latch. */
static void cut_second_page(cartvesper_core *core, const uint8_t *bytes)
{
    const cartvesper_choice even = {{0x5555555555555555, 0x5555555555555555, 0, 0}};
    cartvesper_driver_answer first = drive(core, CUT_FROM, bytes, 2, 1000, 5001);
    must_be_done("driver", first.number);
    cartvesper_driver_answer second = drive(&first.core, CUT_FROM + 2, bytes + 2, CARTVESPER_PAGE, 1000, 4);
    printf("the second page's cycle: number %u, %u cells to be touched, %u microseconds left\n", second.number,
           cartvesper_core_touched(second.core).value, second.core.left);
    cartvesper_core_answer returned = cartvesper_cut(second.core, even, LENT(core->part));
    must_be_done("cut", returned.number);
    *core = returned.core; /* as at power-up: WEL 0, no cycle, nothing waits */
    printf("after the cut: status %02X, %u cells to be touched, %u microseconds left\n", poll(core),
           cartvesper_core_touched(*core).value, core->left);
}

static void supply_cut(cartvesper_core *core)
{
    static uint8_t before[MEMORY], uncut[MEMORY];
    uint8_t bytes[CUT_LENGTH];
    for (int i = 0; i < CUT_LENGTH; i++)
        bytes[i] = (uint8_t)(i + 1);
    /* first the whole write, to know what it leaves; the memory and the record from before it are the way back */
    memcpy(before, memory, MEMORY);
    must_be_done("driver", drive(core, CUT_FROM, bytes, CUT_LENGTH, 1000, 5001).number);
    memcpy(uncut, memory, MEMORY);
    memcpy(memory, before, MEMORY);
    cut_second_page(core, bytes);
    print_around_second("after the cut");
    print_blank("after the cut", core);
    /* the same write again: no more is needed */
    cartvesper_driver_answer again = drive(core, CUT_FROM, bytes, CUT_LENGTH, 1000, 5001);
    must_be_done("driver", again.number);
    *core = again.core;
    print_around_second("sent again");
    print_blank("sent again", core);
    printf("the memory of the uncut write: %s\n", memcmp(memory, uncut, MEMORY) == 0 ? "yes" : "no");
}

/* ---- images as Intel HEX */

static void image(cartvesper_core *core)
{
    static uint8_t text[CARTVESPER_HEX_TEXT];
    static const char three[] = ":0300300002337A1E\n:00000001FF\n";
    cartvesper_core_answer read =
        cartvesper_hex_import(*core, memory, MEMORY, (const uint8_t *)three, sizeof three - 1);
    must_be_done("import", read.number);
    *core = read.core; /* as it was, but that the blank cells were counted afresh */
    print_blank("after import", core);
    must_be_done("export", cartvesper_hex_export(*core, memory, MEMORY, text, sizeof text));
    printf("the line of cells 0030 to 003F: %.43s\n", (const char *)text + 3 * 44);
    printf("lower case: %u\n",
           cartvesper_hex_import(*core, memory, MEMORY, (const uint8_t *)":00000001ff\n", 12).number);
}

/* ---- what is not done says so, and changes nothing */

static uint32_t read_clock(const cartvesper_core *core, size_t size, size_t cells)
{
    return cartvesper_clock_reading(*core, 0, memory, size, identification, cells).number;
}

static void refusals(const cartvesper_core *core)
{
    const uint8_t bytes[4] = {1, 2, 3, 4};
    cartvesper_core damaged = *core;
    damaged.wel = 2; /* a flag is 0 or 1 */
    printf("a record outside its ranges: %u\n", read_clock(&damaged, MEMORY, IDENTIFICATION));
    damaged = *core;
    damaged.blank = MEMORY + 1; /* there are not so many cells */
    printf("65,537 blank cells: %u\n", read_clock(&damaged, MEMORY, IDENTIFICATION));
    printf("a memory one byte short: %u\n", read_clock(core, MEMORY - 1, IDENTIFICATION));
    printf("one byte past the memory: %u\n", drive(core, 65533, bytes, 4, 1000, 5001).number);
    printf("interval 0: %u\n", drive(core, 0, bytes, 4, 0, 5001).number);
    /* BP0 protects C000h to FFFFh: a write that ends below is done, one that touches the block is refused whole,
     * after the one poll that saw BP */
    cartvesper_core_answer guarded = power_up(CARTVESPER_M95512, 0, CARTVESPER_LONGEST_CYCLE, 1, 0);
    must_be_done("power-up", guarded.number);
    printf("protected from %04X\n", cartvesper_core_lowest_protected(guarded.core).value);
    cartvesper_driver_answer stopped = drive(&guarded.core, 0xBFFE, bytes, 4, 1000, 5001);
    printf("into the protected quarter: %u, %u pages, %u frame; cells BFFE %02X, BFFF %02X, C000 %02X\n",
           stopped.number, stopped.pages, stopped.frames, memory[0xBFFE], memory[0xBFFF], memory[0xC000]);
    cartvesper_driver_answer below = drive(&guarded.core, 0xBFFE, bytes, 2, 1000, 5001);
    printf("up to it: %u, %u page, %u frames; cells BFFE %02X, BFFF %02X\n", below.number, below.pages, below.frames,
           memory[0xBFFE], memory[0xBFFF]);
    /* a power-up that is refused has no record to give back, so it gives the delivered one; it has counted nothing */
    cartvesper_core_answer unlent =
        cartvesper_power_up(CARTVESPER_M95512, 0, CARTVESPER_LONGEST_CYCLE, 0, 0, 1, 0, memory, MEMORY - 1);
    printf("power-up with a memory one byte short: %u, status %02X, %u blank cells\n", unlent.number,
           poll(&unlent.core), unlent.core.blank);
}

/* ---- the M95512-D: an identification page, and a lock that closes it for good */

/* WREN, and then an 82h of four bytes: an address and one data byte. Gives the status byte after it. */
static uint8_t send_82h(cartvesper_core *core, uint16_t address, uint8_t data)
{
    const uint8_t wren[1] = {CARTVESPER_WREN};
    const uint8_t wrid[4] = {CARTVESPER_WRID, (uint8_t)(address >> 8), (uint8_t)address, data};
    uint8_t out[4];
    send("WREN", core, wren, 1, out);
    send("82h", core, wrid, 4, out);
    return poll(core);
}

/* An 83h, and two bytes that it shows. */
static void print_83h(const char *what, cartvesper_core *core, uint16_t address)
{
    const uint8_t rdid[5] = {CARTVESPER_RDID, (uint8_t)(address >> 8), (uint8_t)address};
    uint8_t out[5];
    send("83h", core, rdid, 5, out);
    printf("%s: %02X %02X\n", what, out[3], out[4]);
}

static void identification_page(cartvesper_core *core)
{
    /* address bit 10 at 0: the page. The low 7 bits pick the cell, here its last one */
    printf("82h for the page: status %02X\n", send_82h(core, 0x007F, 0x2A));
    print_touched(core);
    print_83h("83h in the cycle, not driven", core, 0x007F);
    pass_time(core, core->left);
    print_83h("83h at 7F, rolling to 00", core, 0x007F);
    printf("identification page 7F %02X, memory 007F %02X\n", identification[0x7F], memory[0x7F]);
    print_blank("after the page's cycle", core); /* cells of the identification page do not count */
    /* address bit 10 at 1: the lock. Data bit 1 sets it, and it shows when the cycle has ended */
    print_83h("the lock, twice", core, CARTVESPER_LOCK_ADDRESS);
    printf("82h for the lock: status %02X\n", send_82h(core, CARTVESPER_LOCK_ADDRESS, CARTVESPER_LOCK_DATA));
    pass_time(core, core->left);
    print_83h("the lock, twice", core, CARTVESPER_LOCK_ADDRESS);
    /* From now on 82h is ignored: that is no refusal. No cycle runs, WEL stays, and the page is as it was */
    printf("82h for the page, locked: status %02X\n", send_82h(core, 0x007F, 0x2B));
    print_83h("83h at 7F", core, 0x007F);
}

static void other_part(void)
{
    cartvesper_core_answer powered = power_up(CARTVESPER_M95512D, 0, CARTVESPER_LONGEST_CYCLE, 0, 0);
    must_be_done("power-up", powered.number);
    identification_page(&powered.core);
    /* the lock is the second argument, kept from one power-up to the next as the status bits are */
    powered = power_up(CARTVESPER_M95512D, powered.core.lock, CARTVESPER_LONGEST_CYCLE, 0, 0);
    must_be_done("power-up", powered.number);
    printf("an M95512-D: part %u, lock %u, status %02X\n", powered.core.part, powered.core.lock, poll(&powered.core));
    /* the page's length is judged as the memory's is, and by the same number */
    printf("an identification page one byte short: %u\n", read_clock(&powered.core, MEMORY, IDENTIFICATION - 1));
    printf("part 3: %u\n", power_up(3, 0, CARTVESPER_LONGEST_CYCLE, 0, 0).number);
    /* the M95512 knows neither code */
    powered = power_up(CARTVESPER_M95512, 0, CARTVESPER_LONGEST_CYCLE, 0, 0);
    must_be_done("power-up", powered.number);
    printf("82h on an M95512: status %02X\n", send_82h(&powered.core, 0x007F, 0x2C));
    print_83h("83h on an M95512, not driven", &powered.core, 0x007F);
}

/* ---- the M95M01: 131,072 bytes in pages of 256, and three address bytes */

/* A run over the edge of a page above FFFFh. The address says A16 in the first address byte; its upper seven bits do
 * not count. */
static void write_above_ffff(cartvesper_core *core)
{
    const uint8_t bytes[2] = {0x3A, 0x3B}, read[6] = {CARTVESPER_READ, 0x01, 0x00, 0xFF};
    uint8_t out[6];
    cartvesper_driver_answer done = drive(core, 0x100FF, bytes, 2, 1000, CARTVESPER_M95M01_MOST_POLLS);
    must_be_done("driver", done.number);
    *core = done.core;
    printf("M95M01, driver: %u pages, %u frames; cells 100FF %02X, 10100 %02X\n", done.pages, done.frames,
           memory[0x100FF], memory[0x10100]);
    send("READ", core, read, 6, out); /* four bytes go in before the first data byte */
    printf("READ at 100FF: %02X %02X\n", out[4], out[5]);
}

/* WRDI is executed in a cycle too: WEL is 0, and the cycle runs on and stores. */
static void disable_in_cycle(cartvesper_core *core)
{
    const uint8_t wren[1] = {CARTVESPER_WREN}, wrdi[1] = {CARTVESPER_WRDI};
    const uint8_t write[6] = {CARTVESPER_WRITE, 0x01, 0x00, 0xFF, 0x4A, 0x4B};
    uint8_t out[6];
    send("WREN", core, wren, 1, out);
    send("WRITE", core, write, 6, out);
    printf("after WRITE: status %02X, %u microseconds left\n", poll(core), core->left);
    print_touched(core); /* around the end of the page of 256 */
    send("WRDI", core, wrdi, 1, out);
    printf("after WRDI: status %02X, %u microseconds left\n", poll(core), core->left);
    pass_time(core, core->left);
    printf("after the cycle: status %02X, cells 100FF %02X, 10000 %02X\n", poll(core), memory[0x100FF],
           memory[0x10000]);
}

static void large_part(void)
{
    static const uint8_t code[3] = {0x20, 0x00, 0x11}; /* delivered in the identification page (001, table 5) */
    const uint8_t rdid[7] = {CARTVESPER_RDID};
    uint8_t out[7];
    memset(memory, 0xFF, sizeof memory);
    memset(identification, 0xFF, sizeof identification);
    memcpy(identification, code, sizeof code);
    cartvesper_core_answer powered = power_up(CARTVESPER_M95M01, 0, CARTVESPER_M95M01_LONGEST_CYCLE, 0, 0);
    must_be_done("power-up", powered.number);
    print_blank("an M95M01 as delivered", &powered.core);
    write_above_ffff(&powered.core);
    disable_in_cycle(&powered.core);
    print_blank("an M95M01 after three cycles", &powered.core);
    send("83h", &powered.core, rdid, 7, out);
    printf("83h at 00: %02X %02X %02X\n", out[4], out[5], out[6]);
    /* its own numbers: a cycle of at most 4,000 microseconds, its own lengths, and no HEX text for it */
    printf("cycle length 5,000: %u\n", power_up(CARTVESPER_M95M01, 0, CARTVESPER_LONGEST_CYCLE, 0, 0).number);
    printf("a memory of 65,536 bytes: %u\n", read_clock(&powered.core, MEMORY, IDENTIFICATION));
    printf("export: %u\n", cartvesper_hex_export(powered.core, memory, sizeof memory, NULL, 0));
}

int main(void)
{
    memset(memory, 0xFF, sizeof memory); /* as delivered */
    memset(identification, 0xFF, sizeof identification);
    /* the M95512, lock 0, cycle length 5,000 microseconds, BP0 0, the clock just about to wrap */
    cartvesper_core_answer powered = power_up(CARTVESPER_M95512, 0, CARTVESPER_LONGEST_CYCLE, 0, 4294967290u);
    must_be_done("power-up", powered.number);
    cartvesper_core core = powered.core;
    print_blank("as delivered", &core);
    write_by_hand(&core);
    long_polls(&core);
    write_by_driver(&core);
    retries(&core);
    supply_cut(&core);
    image(&core);
    refusals(&core);
    other_part();
    large_part();
    return 0;
}
