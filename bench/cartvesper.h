/* The bench library for C and C++: both models of the M95512, the M95512-D and the M95M01, the driver, the split, one
 * page write laid over another and images as Intel HEX, proved. Build the archive with `tools/build.sh bench` (x86-64).
 * docs/LINKING.md says how to link it, and bench/example.c shows each kind of call.
 *
 * The device is a record, whose `part` says which of the three it is. Its cells are the caller's: the memory and, right
 * after it in each call that may look at them, the identification page, both of that part's length. The M95512 has no
 * such page, but its calls are lent one too, of 128 bytes, and leave it as it was. The M95512-D and the M95M01 read
 * their page and the page's lock with 83h. With 82h they write the page or set the lock.
 *
 * The record keeps the number of blank cells, those of the memory that are FFh. Power-up and HEX import count them, and
 * the end of a page's cycle, by time or by a supply cut, adds the cells gained and takes off those lost. So the number
 * stays right as long as a memory is changed by calls alone, each with the record that the last one gave.
 *
 * Every call answers every input. A caller must guarantee only that a pointer and the length beside it name bytes that
 * are there (a null pointer with length 0 is an empty slice), and that what is lent to be written overlaps nothing else
 * that the same call is lent. No call keeps state, so calls from several threads need no lock unless they share lent
 * bytes.
 *
 * Each answer's `number` is CARTVESPER_DONE or a refusal, 1 to 8 or 12. Where several apply the lowest is given, but
 * for the export of an M95M01, where 12 comes before 5. Everything lent and every record then comes back byte for byte
 * as it was, and every count and every `value` is 0. (Power-up takes no record: where it refuses, with 1, 2 or 6, it
 * gives the delivered one, with the number of blank cells 0.) 9 and 13 are of the driver alone, and come after frames
 * were sent: they say how a run ended before its last page.
 */
#ifndef CARTVESPER_H
#define CARTVESPER_H
#include <stddef.h>
#include <stdint.h>

#ifdef __cplusplus
extern "C" {
#define CARTVESPER_ASSERT(fact) static_assert(fact, #fact)
#else
#define CARTVESPER_ASSERT(fact) _Static_assert(fact, #fact)
#endif

/* The numbers given back. Sizes are the part's: the record's, or the one named at power-up or to the split. A part that
 * is none has the M95512's. */
enum {
    CARTVESPER_DONE = 0,
    CARTVESPER_MEMORY_LENGTH = 1, /* memory or identification page not of the part's length; at power-up too */
    CARTVESPER_RECORD_RANGE = 2,  /* record, part, level, flag or mode outside its range, or no event; also a number of
                                     blank cells above the memory's size */
    CARTVESPER_FRAME_LENGTH = 3,  /* slice above the memory's size plus 4 bytes */
    CARTVESPER_BIT_COUNT = 4,     /* bit count doesn't fit the slice; of a timed frame also lists that don't fit */
    CARTVESPER_OUTPUT_LENGTH = 5, /* output length differs */
    CARTVESPER_CYCLE_LENGTH = 6,  /* cycle length not 1 to the part's longest */
    CARTVESPER_ADDRESS_RANGE = 7, /* address + length above the memory's size, no such address, or no part k */
    CARTVESPER_POLL_RANGE = 8,    /* poll interval or poll limit outside its range */
    CARTVESPER_TIMED_OUT = 9,     /* a wait used its limit and WIP is still 1 */
    CARTVESPER_NOT_IMPORTED = 12, /* a HEX text is not good, or a cycle runs; also export and import of an M95M01 */
    CARTVESPER_PROTECTED = 13     /* the data touches the protected block */
};

/* The parts: the one without an identification page and its lock, the one of its sizes with them, and the one of 1
 * Mbit, which has them too. */
enum { CARTVESPER_M95512 = 0, CARTVESPER_M95512D = 1, CARTVESPER_M95M01 = 2 };

/* The sizes: cells of the memory, of a page and of the identification page, bytes of the longest frame, microseconds of
 * the longest cycle, which is the longest poll interval too, and the highest poll limit. */
enum {
    /* the same for the M95512 and the M95512-D */
    CARTVESPER_MEMORY = 65536,
    CARTVESPER_PAGE = 128,
    CARTVESPER_IDENTIFICATION = 128,
    CARTVESPER_LONGEST_FRAME = 65540,
    CARTVESPER_LONGEST_CYCLE = 5000,
    CARTVESPER_MOST_POLLS = 5001,
    /* of the M95M01 */
    CARTVESPER_M95M01_MEMORY = 131072,
    CARTVESPER_M95M01_PAGE = 256,
    CARTVESPER_M95M01_IDENTIFICATION = 256,
    CARTVESPER_M95M01_LONGEST_FRAME = 131076,
    CARTVESPER_M95M01_LONGEST_CYCLE = 4000,
    CARTVESPER_M95M01_MOST_POLLS = 4001,
    /* room that serves every part */
    CARTVESPER_LARGEST_MEMORY = CARTVESPER_M95M01_MEMORY,
    CARTVESPER_LARGEST_PAGE = CARTVESPER_M95M01_PAGE,
    CARTVESPER_LARGEST_IDENTIFICATION = CARTVESPER_M95M01_IDENTIFICATION
};

/* How many bytes the calls want lent for a part by its number: of the memory, and of the identification page. */
static inline size_t cartvesper_memory_of(uint8_t part) {
    return part == CARTVESPER_M95M01 ? CARTVESPER_M95M01_MEMORY : CARTVESPER_MEMORY;
}

static inline size_t cartvesper_identification_of(uint8_t part) {
    return part == CARTVESPER_M95M01 ? CARTVESPER_M95M01_IDENTIFICATION : CARTVESPER_IDENTIFICATION;
}

/* The version of the records. Each change of a record's fields, their places or their sizes raises it. Whoever keeps
 * records in a file, or builds them in another language, keeps this number beside them. Version 1 stands for a byte for
 * each mark, version 2 for a bit; version 3 also for the part and its lock, and for whole bytes taken to 5; version 4
 * also for latches of 256 cells, and for whole bytes taken to 6 on the M95M01; version 5 also for the number of blank
 * cells. */
#define CARTVESPER_RECORDS 5

/* Bytes of an exported HEX text. */
enum { CARTVESPER_HEX_TEXT = 180236 };

/* The instruction codes. Any other waits in silence for deselect; on the M95512 the last two are among those. On the
 * M95M01 WRDI is executed in a cycle too: WEL becomes 0, and the cycle runs on. */
enum {
    CARTVESPER_WREN = 0x06,
    CARTVESPER_WRDI = 0x04,
    CARTVESPER_RDSR = 0x05,
    CARTVESPER_WRSR = 0x01,
    CARTVESPER_READ = 0x03,
    CARTVESPER_WRITE = 0x02,
    CARTVESPER_RDID = 0x83, /* of the M95512-D and the M95M01 */
    CARTVESPER_WRID = 0x82
};

/* READ and WRITE take two address bytes, on the M95M01 three, of whose first only the lowest bit counts. A WRITE has 32
 * bits or more, on the M95M01 40 or more, in whole bytes.
 *
 * RDID (83h) and WRID (82h) take as many address bytes. Bit 10 of the address says what is meant:
 *   0 the identification page. The low 7 bits, on the M95M01 the low 8, pick the cell, and both roll within the page.
 *     83h shows the cells from there on. 82h writes them, with the bit counts of WRITE
 *   1 the lock. 83h shows it again and again, as 00h or 01h (RDLS). 82h sets it for good (LID): with exactly 32 bits,
 *     on the M95M01 40, and bit 1 of the data byte at 1
 * 83h is ignored in a cycle, as READ is. 82h needs WEL, no cycle, lock 0, and BP1 and BP0 not both 1; W and SRWD do not
 * matter to it. It runs a cycle, and the lock shows when that ends. */
enum { CARTVESPER_LOCK_ADDRESS = 0x400, CARTVESPER_LOCK_DATA = 0x02 };

/* The value of Q where it is not driven. */
enum { CARTVESPER_Z = 2 };

/* The SPI mode of a timed frame. */
enum { CARTVESPER_MODE0 = 0, CARTVESPER_MODE3 = 3 };

/* The kinds of events in a list. */
enum {
    CARTVESPER_EVENT_S = 0,
    CARTVESPER_EVENT_C = 1,
    CARTVESPER_EVENT_D = 2,
    CARTVESPER_EVENT_W = 3,
    CARTVESPER_EVENT_HOLD = 4,
    CARTVESPER_EVENT_CLOCK = 5
};

/* An event of a list: its kind, and the level, 0 or 1, or the clock reading. */
static inline uint64_t cartvesper_event(unsigned kind, uint32_t value) {
    return (uint64_t)kind << 32 | value;
}

/* A page write: latched bytes, and a mark on each addressed one: cell i has bit i % 64 of word i / 64. A byte whose
 * cell is not marked is 0. There are as many cells as the largest page has. In a record of the M95512 or the M95512-D
 * those from 128 on are not marked; in one of the M95M01, and where one latch is laid over another, any word is inside
 * the ranges. */
typedef struct {
    uint8_t bytes[CARTVESPER_LARGEST_PAGE];
    uint64_t marks[CARTVESPER_LARGEST_PAGE / 64];
} cartvesper_latch;

/* 1 where a cell is marked, 0 where it is not or a latch has no such cell. */
static inline int cartvesper_marked(const cartvesper_latch *latch, size_t cell) {
    return cell < CARTVESPER_LARGEST_PAGE && (latch->marks[cell / 64] >> cell % 64 & 1) != 0;
}

/* What waits for the end of the write cycle: kind 0 nothing, 1 a status value, 2 a page; of the M95512-D and the M95M01
 * also 3 the identification page (page number 0, bytes and marks as a page's) and 4 the lock. What does not wait is 0,
 * so no cell is marked where neither page waits. */
typedef struct {
    uint8_t kind;
    uint8_t status;
    uint32_t page; /* below 512 */
    cartvesper_latch latch;
} cartvesper_waiting;

/* The device of the frame model. Flags are 0 or 1; times are microseconds. */
typedef struct {
    uint8_t part; /* CARTVESPER_M95512, CARTVESPER_M95512D or CARTVESPER_M95M01 */
    uint8_t lock; /* 1: the identification page is locked for good. The M95512 keeps it and never looks at it */
    uint8_t srwd, bp1, bp0, wel;
    uint32_t cycle; /* 1 to 5,000, of the M95M01 1 to 4,000 */
    uint32_t left;  /* 0 to cycle; above 0 while a cycle runs, with WEL 1, of the M95M01 0 or 1 */
    uint32_t last;  /* the last clock reading */
    uint32_t blank; /* FFh cells of the memory, 0 to its size. A wrong number is not looked for, and changes no other
                       answer */
    cartvesper_waiting waits;
} cartvesper_core;

/* The levels of the five pins, 0 or 1. */
typedef struct {
    uint8_t s, c, d, w, hold;
} cartvesper_pins;

/* The frame in hand; fields that it has not reached are 0, so no cell is marked where it has latched nothing. */
typedef struct {
    uint8_t taken;   /* whole bytes, 0 to 5, staying at 5, of the M95M01 0 to 6 */
    uint8_t bits;    /* of the current byte, 0 to 7 */
    uint8_t partial; /* their values */
    uint8_t code;    /* the instruction byte */
    uint8_t ran;     /* a cycle ran at the eighth edge */
    uint8_t value;   /* the data byte of WRSR, or the first of an 82h for the lock */
    uint8_t out;     /* the output byte */
    uint8_t shown;   /* its bits shown, 0 to 8 */
    uint32_t address; /* as taken, then of the next data byte; 82h and 83h keep all but the bits that pick the cell */
    cartvesper_latch latch;
} cartvesper_frame_part;

/* The device of the pin model. held is 1 in a pause. */
typedef struct {
    cartvesper_pins pins;
    uint8_t held;
    cartvesper_frame_part frame;
    cartvesper_core core;
} cartvesper_device;

/* Which of what waits had been taken when the supply fell: mark i, bit i % 64 of word i / 64, says it for cell i of the
 * page that waits, for bit i of a waiting status value (7, 3 and 2 count), and mark 0 for a waiting lock. Any words are
 * a choice: the mark of a cell or a bit that does not wait is not looked at. */
typedef struct {
    uint64_t words[CARTVESPER_LARGEST_PAGE / 64];
} cartvesper_choice;

/* The layout that the archive goes by. */
CARTVESPER_ASSERT(sizeof(cartvesper_latch) == 288 && offsetof(cartvesper_latch, marks) == 256);
CARTVESPER_ASSERT(sizeof(cartvesper_waiting) == 296 && offsetof(cartvesper_waiting, latch) == 8);
CARTVESPER_ASSERT(offsetof(cartvesper_waiting, page) == 4);
CARTVESPER_ASSERT(sizeof(cartvesper_core) == 320 && offsetof(cartvesper_core, waits) == 24);
CARTVESPER_ASSERT(offsetof(cartvesper_core, lock) == 1 && offsetof(cartvesper_core, srwd) == 2);
CARTVESPER_ASSERT(offsetof(cartvesper_core, cycle) == 8 && offsetof(cartvesper_core, last) == 16);
CARTVESPER_ASSERT(offsetof(cartvesper_core, blank) == 20);
CARTVESPER_ASSERT(sizeof(cartvesper_pins) == 5);
CARTVESPER_ASSERT(sizeof(cartvesper_frame_part) == 304 && offsetof(cartvesper_frame_part, latch) == 16);
CARTVESPER_ASSERT(offsetof(cartvesper_frame_part, address) == 8);
CARTVESPER_ASSERT(sizeof(cartvesper_device) == 632 && offsetof(cartvesper_device, frame) == 8);
CARTVESPER_ASSERT(offsetof(cartvesper_device, core) == 312);
CARTVESPER_ASSERT(sizeof(cartvesper_choice) == 32);

typedef struct {
    uint32_t number;
    cartvesper_core core;
} cartvesper_core_answer;

typedef struct {
    uint32_t number;
    uint64_t undriven; /* leading bits of the count that Q did not drive */
    cartvesper_core core;
} cartvesper_frame_answer;

typedef struct {
    uint32_t number;
    cartvesper_device device;
} cartvesper_device_answer;

typedef struct {
    uint32_t number;
    cartvesper_latch latch;
} cartvesper_latch_answer;

typedef struct {
    uint32_t number;
    uint32_t pages;  /* done: written, and their cycle seen to end */
    uint32_t frames; /* sent, every poll among them */
    cartvesper_core core;
} cartvesper_driver_answer;

typedef struct {
    uint32_t number;
    uint32_t value; /* 0 in a refusal */
} cartvesper_value;

CARTVESPER_ASSERT(sizeof(cartvesper_core_answer) == 328 && offsetof(cartvesper_core_answer, core) == 8);
CARTVESPER_ASSERT(sizeof(cartvesper_frame_answer) == 336 && offsetof(cartvesper_frame_answer, core) == 16);
CARTVESPER_ASSERT(sizeof(cartvesper_device_answer) == 640 && offsetof(cartvesper_device_answer, device) == 8);
CARTVESPER_ASSERT(sizeof(cartvesper_latch_answer) == 296 && offsetof(cartvesper_latch_answer, latch) == 8);
CARTVESPER_ASSERT(sizeof(cartvesper_driver_answer) == 336 && offsetof(cartvesper_driver_answer, core) == 16);
CARTVESPER_ASSERT(sizeof(cartvesper_value) == 8);

/* ---- the frame model */

/* Power-up of a part with the given lock, status bits, cycle length and clock reading. It is lent the memory, to read,
 * and counts its blank cells into the record; the identification page is not lent. 1 (a memory that is not of the
 * part's size), 2 (a part that is none, a lock or a flag that is not 0 or 1) and then 6 leave the delivered record,
 * whatever part was asked for: the M95512, lock and status bits 0, cycle 5,000, reading 0. Its number of blank cells is
 * then 0, as nothing was counted. */
cartvesper_core_answer cartvesper_power_up(uint8_t part, uint8_t lock, uint32_t cycle, uint8_t srwd, uint8_t bp1,
                                           uint8_t bp0, uint32_t reading, const uint8_t *memory, size_t size);
/* A clock reading of the free-running 32-bit microsecond counter; the end of a cycle stores what waits: the marked
 * bytes of a page into the memory, those of the identification page into its cells, a status value or the lock into
 * the record. The end of a page's cycle adds to the number of blank cells those that become FFh and takes off those
 * that no longer are; below 0 it is 0, above the memory's size that size. No other reading moves it: the identification
 * page's cells do not count. */
cartvesper_core_answer cartvesper_clock_reading(cartvesper_core core, uint32_t reading, uint8_t *memory, size_t size,
                                                uint8_t *identification, size_t cells);
/* A supply cut and return. Where a cycle runs, the choice says what of it had been taken:
 *   a page: the marked cells that are chosen have their new bytes, all other cells stay. The number of blank cells
 *   moves as at a cycle's end, by the cells that have their new bytes
 *   the identification page: the same, but that the number of blank cells stays
 *   a status value: SRWD, BP1 and BP0 are each the new one where bit 7, 3 or 2 is chosen, else the old one
 *   the lock: set where mark 0 is chosen, else as it was
 * Then, in a cycle or not, it is power-up with what survives: WEL 0, no time left, nothing waits. Part, lock, SRWD,
 * BP1, BP0, cycle length and last reading are kept. */
cartvesper_core_answer cartvesper_cut(cartvesper_core core, cartvesper_choice choice, uint8_t *memory, size_t size,
                                      uint8_t *identification, size_t cells);
/* A whole frame of `bits` bits, with W at level w; out has the slice's length and gets Q as it stands just before each
 * counted clock, undriven bits and bits past the count as 1. */
cartvesper_frame_answer cartvesper_frame(cartvesper_core core, const uint8_t *memory, size_t size,
                                         const uint8_t *identification, size_t cells, uint8_t w, const uint8_t *bytes,
                                         size_t length, size_t bits, uint8_t *out, size_t room);
/* A whole frame with clock readings inside it: a poll that sits on RDSR sees the cycle end. Reading i comes at position
 * positions[i], after that many whole bytes: from 0, after select and before the first clock, to bits / 8, before S
 * rises. Positions rise or stay; those that are equal come in the list's order.
 *   Output byte k of RDSR is the status as it was when that byte was loaded. In mode 0 that is before the readings at
 *   position k, in mode 3 after them.
 *   Whether a cycle runs is judged at the eighth clock, in both modes after the readings at 0 and before those at 1. So
 *   an instruction that a cycle stops is ignored where the cycle ends at 1 or later. WEL, BP1, BP0, SRWD and the lock
 *   are judged at deselect, after all readings.
 * A reading may store what waits, so both slices are lent to be written. 2 also for a mode that is not CARTVESPER_MODE0
 * or CARTVESPER_MODE3. 4 also for lists of unequal length (places, times) and for a position that falls or is above
 * bits / 8. With no readings it answers as cartvesper_frame does, in either mode. */
cartvesper_frame_answer cartvesper_timed_frame(cartvesper_core core, uint8_t *memory, size_t size,
                                               uint8_t *identification, size_t cells, uint8_t w, uint8_t mode,
                                               const uint8_t *bytes, size_t length, size_t bits,
                                               const size_t *positions, size_t places, const uint32_t *readings,
                                               size_t times, uint8_t *out, size_t room);
/* number 0 and value 1 where the record is inside its ranges, else number 2 */
cartvesper_value cartvesper_core_in_ranges(cartvesper_core core);
/* the status byte */
cartvesper_value cartvesper_core_status(cartvesper_core core);
/* the lowest protected address, the memory's size for none: at three quarters of the memory, at half of it, or 0. For a
 * device of the pin model, ask of its `core` */
cartvesper_value cartvesper_core_lowest_protected(cartvesper_core core);
/* value 1 where the address is protected, which it is from that one on; 7 for an address that the memory has not */
cartvesper_value cartvesper_core_protected(cartvesper_core core, uint32_t address);
/* how many cells the running cycle will touch: the marked cells of the page or the identification page that waits, 0
 * where neither waits */
cartvesper_value cartvesper_core_touched(cartvesper_core core);

/* ---- the pin model */

/* Power-up, as in the frame model, with the pins at rest: S, W and HOLD high, C and D low. */
cartvesper_device_answer cartvesper_device_power_up(uint8_t part, uint8_t lock, uint32_t cycle, uint8_t srwd,
                                                    uint8_t bp1, uint8_t bp0, uint32_t reading, const uint8_t *memory,
                                                    size_t size);
/* One pin to a level: S falling selects and S rising ends the frame; C rising takes the bit on D, C falling moves Q,
 * so it is lent the cells that a frame may show; HOLD pauses while C is low. S rising in a pause drops the frame,
 * unless it is a WRITE (02h): that is executed where its count and its conditions allow, as it is outside a pause. */
cartvesper_device_answer cartvesper_device_set_s(cartvesper_device device, uint8_t level);
cartvesper_device_answer cartvesper_device_set_c(cartvesper_device device, uint8_t level, const uint8_t *memory,
                                                 size_t size, const uint8_t *identification, size_t cells);
cartvesper_device_answer cartvesper_device_set_d(cartvesper_device device, uint8_t level);
cartvesper_device_answer cartvesper_device_set_w(cartvesper_device device, uint8_t level);
cartvesper_device_answer cartvesper_device_set_hold(cartvesper_device device, uint8_t level);
/* A clock reading, selected or not; the end of a cycle stores what waits, and moves the number of blank cells, as in
 * the frame model. */
cartvesper_device_answer cartvesper_device_read_clock(cartvesper_device device, uint32_t reading, uint8_t *memory,
                                                      size_t size, uint8_t *identification, size_t cells);
/* A supply cut and return, selected or not, as in the frame model; after it the pins are at rest, as at power-up. A cut
 * inside a frame drops the frame, whatever it is. */
cartvesper_device_answer cartvesper_device_cut(cartvesper_device device, cartvesper_choice choice, uint8_t *memory,
                                               size_t size, uint8_t *identification, size_t cells);
/* Q: value 0, 1, or CARTVESPER_Z */
cartvesper_value cartvesper_device_q(cartvesper_device device);
/* the status byte */
cartvesper_value cartvesper_device_status(cartvesper_device device);
/* how many cells the running cycle will touch; those of the frame in hand do not count before its deselect */
cartvesper_value cartvesper_device_touched(cartvesper_device device);
/* number 0 and value 1 where the device is inside its ranges, else number 2 */
cartvesper_value cartvesper_device_in_ranges(cartvesper_device device);
/* A list of events at once, each a number that cartvesper_event makes: the kind, 0 to 5, above the low 32 bits, which
 * are the level, 0 or 1, or the reading. Any other number in the list gets refusal 2, and nothing is played. out has
 * the list's length and gets Q after each event: 0, 1, or CARTVESPER_Z. */
cartvesper_device_answer cartvesper_device_play(cartvesper_device device, uint8_t *memory, size_t size,
                                                uint8_t *identification, size_t cells, const uint64_t *events,
                                                size_t count, uint8_t *out, size_t room);

/* ---- page writes */

/* A later page write laid over an earlier one of the same page: a cell that the later one marks has the later one's
 * byte, any other cell the earlier one's, and the marks are those of both. To store the result is to store the earlier
 * one and then the later. So two retries in a row are one:
 *   grouping does not matter; an empty one (no mark, every byte 0) changes nothing, over another or under it; one laid
 *   twice is as once; order does not matter where no cell is marked in both.
 * 2 where either is outside its ranges, an unmarked byte that is not 0 in any of the 256 cells: the latch is then the
 * earlier one as it was given. No part is asked for: two that mark no cell from 128 on give one that does not. */
cartvesper_latch_answer cartvesper_lay(cartvesper_latch earlier, cartvesper_latch later);

/* ---- the driver, over the frame model */

/* Writes `length` bytes from an address on, as page writes: polls with RDSR until no cycle runs, reads BP1 and BP0 in
 * the status byte that ended this wait, then for each page part sends WREN and WRITE and polls until its cycle has
 * ended. A poll but the first moves the clock by `interval` microseconds, 1 to 5,000; each wait makes at most `limit`
 * polls, 1 to 5,001. On the M95M01 these are 1 to 4,000 and 1 to 4,001. Refusals 1, 2, 7, 8 in that order, also with no
 * data; pages and frames are 0 there. The address is any 64-bit number: no sum wraps, and the memory's size is taken
 * with no data. Else the number is
 *   0 all pages done: the bytes are in the memory (no data: done at once, 0 frames, the clock not moved)
 *   9 a wait used its limit and WIP is still 1: the record and the memory are those after the last poll. The cycle goes
 *     on with the next clock reading; what it is to store (the page in hand, or, in the first wait, what waited before)
 *     still waits in the record and is not counted. pages is 0: all pages take the same polls, so only the first wait
 *     or the first page's can run out
 *  13 the data touches the protected block of that status byte, as address + length is above the lowest protected
 *     address: nothing but the first wait's polls was sent. frames counts them, pages is 0. The record is that after
 *     the last of them, WEL as it is there, and no cell has changed but by a cycle that was already running
 * The identification page changes only by a cycle that was already running: the first wait may end it. A poll that ends
 * a page's cycle moves the number of blank cells as a clock reading does. The same run sent twice, both with 0, leaves
 * the memory that the first left. A run that starts with no cycle running and would end with 0, but is cut between or
 * inside its frames, and is then sent again with 0, leaves the memory that it would have left uncut. */
cartvesper_driver_answer cartvesper_write(cartvesper_core core, uint8_t *memory, size_t size, uint8_t *identification,
                                          size_t cells, uint64_t address, const uint8_t *bytes, size_t length,
                                          uint32_t interval, uint32_t limit);

/* ---- the split of a run of bytes into page parts, the numbers that the driver goes by: `chip` is CARTVESPER_M95512,
 * CARTVESPER_M95512D or CARTVESPER_M95M01, and any other number reads the M95512's sizes; address, length and part are
 * any 64-bit numbers */

/* 0 where the run lies in the memory and has the part, from 0; else 7, and the three others give 0. No data has no
 * part 0. */
uint64_t cartvesper_part_refusal(uint8_t chip, uint64_t address, uint64_t length, uint64_t part);
/* how many parts the run has */
uint64_t cartvesper_part_count(uint8_t chip, uint64_t address, uint64_t length, uint64_t part);
/* the part's first cell, and its length */
uint64_t cartvesper_part_address(uint8_t chip, uint64_t address, uint64_t length, uint64_t part);
uint64_t cartvesper_part_length(uint8_t chip, uint64_t address, uint64_t length, uint64_t part);

/* ---- images as Intel HEX, of the M95512 and the M95512-D */

/* All cells as a text into `out`, as stored, in a cycle too: 4,096 records of 16 bytes in rising order, upper case, LF
 * ends, then :00000001FF. Refusals 1, 2, then 12 for an M95M01, then 5 for a room that is not CARTVESPER_HEX_TEXT, with
 * `out` as it was. The answer is the number alone. */
uint32_t cartvesper_hex_export(cartvesper_core core, const uint8_t *memory, size_t size, uint8_t *out, size_t room);
/* The cells that a text names, a later record over an earlier one; cells that none names keep their bytes, whatever
 * protects them. A good text is records of type 00 with 0 to 255 bytes, upper case, LF ends, in any order, then exactly
 * :00000001FF and its LF, and nothing more. Refusals 1, 2, and 12 for any other text, while a cycle runs or for an
 * M95M01, with the memory as it was. The record comes back as it was given, but for one field: an import that is done
 * counts the blank cells afresh, whatever their number was. */
cartvesper_core_answer cartvesper_hex_import(cartvesper_core core, uint8_t *memory, size_t size, const uint8_t *text,
                                             size_t length);

#ifdef __cplusplus
}
#endif
#endif
