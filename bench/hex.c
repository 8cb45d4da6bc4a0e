/* hex [seed] [rounds]: HEX texts through the library and through plain C, good, damaged and random ones; then each
 * alone against what it should be answered; then the time of export and import in both. The number of blank cells that
 * a record goes in with is seldom the right one; an import that is done hands back the right one. */
#define _POSIX_C_SOURCE 199309L
#include "plain.h"
#include "plainhex.h"
#include <stdio.h>
#include <stdlib.h>
#include <string.h>
#include <time.h>

enum { MEMORY = CARTVESPER_MEMORY, ROOM = CARTVESPER_HEX_TEXT, MOST = 16 << 20 };
enum { LARGEST = CARTVESPER_LARGEST_MEMORY }; /* of an M95M01, whose cells no text names: both calls refuse it */

static uint8_t text[MOST], scratch[MOST];
static uint8_t memory[LARGEST], lib_memory[LARGEST], plain_memory[LARGEST];
static uint8_t lib_out[ROOM + 1], plain_out[ROOM + 1];
static cartvesper_core core;
static uint32_t blank_left; /* the number of blank cells that the last import handed back */
static unsigned long calls, counts[20];

/* ---- numbers */

static uint64_t state = 1;

static uint32_t drawn(uint32_t below)
{
    state ^= state << 13;
    state ^= state >> 7;
    state ^= state << 17;
    return (uint32_t)((state >> 16) % below);
}

static void fail(const char *what)
{
    fprintf(stderr, "hex: %s differs (after %lu calls)\n", what, calls);
    exit(1);
}

/* a third of them with about every other cell blank */
static void draw_memory(uint8_t *cells)
{
    uint32_t blank = drawn(3) ? 0 : 128;
    for (size_t i = 0; i < LARGEST; i++)
        cells[i] = (uint8_t)(drawn(256) < blank ? 0xFF : drawn(256));
}

/* the right number, both ends of its range, or any inside it */
static uint32_t draw_blank(size_t size)
{
    switch (drawn(4)) {
    case 0:
        return plain_blank(memory, size);
    case 1:
        return 0;
    case 2:
        return (uint32_t)size;
    default:
        return drawn((uint32_t)size + 1);
    }
}

/* ---- both sides on one input */

static uint32_t both_import(cartvesper_core given, size_t size, size_t length)
{
    memcpy(lib_memory, memory, LARGEST);
    memcpy(plain_memory, memory, LARGEST);
    cartvesper_core_answer a = cartvesper_hex_import(given, lib_memory, size, text, length);
    cartvesper_core_answer b = plain_hex_import_call(given, plain_memory, size, text, length);
    calls++;
    blank_left = a.core.blank;
    if (a.number != b.number)
        fail("import's number");
    if (!plain_core_same(&a.core, &b.core))
        fail("import's record");
    if (a.number == 0) {
        if (a.core.blank != plain_blank(lib_memory, size))
            fail("import's number of blank cells (from the scan's)");
        given.blank = a.core.blank;
    }
    if (!plain_core_same(&a.core, &given)) /* refused: as it was; done: but for the number */
        fail("import's record (from the one given)");
    if (memcmp(lib_memory, plain_memory, LARGEST) || memcmp(lib_memory + MEMORY, memory + MEMORY, LARGEST - MEMORY))
        fail("import's memory, or what stands past it");
    if (a.number && memcmp(lib_memory, memory, LARGEST))
        fail("a refused import's memory");
    counts[a.number]++;
    return a.number;
}

static uint32_t both_export(cartvesper_core given, size_t size, size_t room)
{
    memset(lib_out, 0xa5, sizeof lib_out);
    memset(plain_out, 0xa5, sizeof plain_out);
    uint32_t a = cartvesper_hex_export(given, memory, size, lib_out, room);
    uint32_t b = plain_hex_export_call(given, memory, size, plain_out, room);
    calls++;
    if (a != b)
        fail("export's number");
    if (memcmp(lib_out, plain_out, sizeof lib_out))
        fail("export's output");
    if (a)
        for (size_t i = 0; i < sizeof lib_out; i++)
            if (lib_out[i] != 0xa5)
                fail("a refused export's output");
    counts[a]++;
    return a;
}

/* ---- texts */

static size_t put_line(uint8_t *at, unsigned length, unsigned address, unsigned type, const uint8_t *bytes)
{
    unsigned sum = length + (address >> 8) + (address & 255) + type;
    char *p = (char *)at;
    p += sprintf(p, ":%02X%04X%02X", length, address, type);
    for (unsigned i = 0; i < length; i++) {
        p += sprintf(p, "%02X", bytes[i]);
        sum += bytes[i];
    }
    p += sprintf(p, "%02X\n", -sum & 255);
    return (size_t)(p - (char *)at);
}

static size_t put_end(uint8_t *at)
{
    memcpy(at, ":00000001FF\n", 12);
    return 12;
}

/* records of every length in any order, some over others; now and then one that ends with the last cell or one past
 * it */
static size_t draw_text(unsigned records, int past)
{
    uint8_t bytes[255];
    size_t n = 0;
    for (unsigned k = 0; k < records; k++) {
        unsigned length = drawn(4) ? drawn(40) : drawn(256), address = drawn(4) ? drawn(MEMORY) : drawn(300);
        for (unsigned i = 0; i < length; i++)
            bytes[i] = (uint8_t)drawn(256);
        if (drawn(6) == 0)
            address = MEMORY - length;
        if (address + length > MEMORY)
            address = MEMORY - length;
        if (past && k == records / 2 && length > 0)
            address = MEMORY + 1 - length;
        n += put_line(text + n, length, address & 0xffff, 0, bytes);
    }
    return n + put_end(text + n);
}

/* one damage: a byte changed, put in or taken out, a cut, a line doubled, another case, CR */
static size_t damage(size_t n)
{
    size_t at = n ? drawn((uint32_t)n) : 0;
    static const char likely[] = "0123456789ABCDEFabcdef:\n\r \tG@/";
    switch (drawn(8)) {
    case 0:
        if (n)
            text[at] = (uint8_t)drawn(256);
        return n;
    case 1:
        if (n)
            text[at] = (uint8_t)likely[drawn(sizeof likely - 1)];
        return n;
    case 2:
        memmove(text + at + 1, text + at, n - at);
        text[at] = (uint8_t)likely[drawn(sizeof likely - 1)];
        return n + 1;
    case 3:
        if (n) {
            memmove(text + at, text + at + 1, n - at - 1);
            return n - 1;
        }
        return n;
    case 4:
        return at;
    case 5:
        memmove(text + n, text + at, n - at);
        return n + (n - at);
    case 6:
        if (n && text[at] >= 'A' && text[at] <= 'F')
            text[at] = (uint8_t)(text[at] + 32);
        return n;
    default:
        return n + put_end(text + n);
    }
}

/* ---- each alone */

static void expect(const char *what, uint32_t got, uint32_t want)
{
    printf("%-52s%u\n", what, got);
    if (got != want) {
        fprintf(stderr, "hex: %s: %u, not %u\n", what, got, want);
        exit(1);
    }
}

static size_t say(const char *s)
{
    size_t n = strlen(s);
    memcpy(text, s, n);
    return n;
}

static void import_of(const char *what, const char *s, uint32_t want)
{
    expect(what, both_import(core, MEMORY, say(s)), want);
}

#define END ":00000001FF\n"

/* the number of blank cells that comes back where a record with some number of them goes in */
static uint32_t blank_after(uint32_t given, const char *s)
{
    cartvesper_core one = core;
    one.blank = given;
    both_import(one, MEMORY, say(s));
    return blank_left;
}

/* cells 0030h to 0032h of a blank memory take other bytes, and of a memory of 00h become FFh */
static void each_blank(void)
{
    static const char three[] = ":0300300002337A1E\n" END, back[] = ":03003000FFFFFFD0\n" END;
    cartvesper_core one = core;
    memset(memory, 0xFF, LARGEST);
    expect("blank cells after 3 bytes, from 65,536", blank_after(MEMORY, three), MEMORY - 3);
    expect("blank cells after 3 bytes, from 0", blank_after(0, three), MEMORY - 3);
    expect("blank cells after 3 bytes, from 12", blank_after(12, three), MEMORY - 3);
    expect("blank cells after no byte, from 0", blank_after(0, END), MEMORY);
    expect("blank cells after a bad text, from 12", blank_after(12, "x"), 12);
    memset(memory, 0x00, MEMORY);
    expect("blank cells after 3 bytes FFh in a memory of 00h", blank_after(MEMORY, back), 3);
    one.blank = MEMORY;
    expect("65,536 blank cells given", both_import(one, MEMORY, say(three)), 0);
    one.blank = MEMORY + 1;
    expect("65,537 blank cells given", both_import(one, MEMORY, say(three)), 2);
    expect("65,537 blank cells given, and the text is bad", both_import(one, MEMORY, 5), 2);
    expect("65,537 blank cells given, a short memory", both_import(one, MEMORY - 1, 5), 1);
    expect("export of it", both_export(one, MEMORY, ROOM), 2);
    one.blank = 4294967295u;
    expect("4,294,967,295 blank cells given", both_import(one, MEMORY, say(three)), 2);
    one.part = CARTVESPER_M95M01;
    one.cycle = CARTVESPER_M95M01_LONGEST_CYCLE;
    one.blank = LARGEST;
    expect("an M95M01, 131,072 blank cells given", both_import(one, LARGEST, say(three)), 12);
    expect("export of it", both_export(one, LARGEST, ROOM), 12);
    one.blank = LARGEST + 1;
    expect("an M95M01, 131,073 blank cells given", both_import(one, LARGEST, say(three)), 2);
    expect("export of it", both_export(one, LARGEST, ROOM), 2);
}

static void each_alone(void)
{
    cartvesper_core running = core, outside = core, other = core, none = core, large = core, past = core;
    other.part = CARTVESPER_M95512D;
    other.lock = 1;
    none.part = 3;
    large.part = CARTVESPER_M95M01;
    large.cycle = CARTVESPER_M95M01_LONGEST_CYCLE;
    past.part = CARTVESPER_M95M01; /* its cycle length is the M95512's */
    running.wel = 1;
    running.left = running.cycle;
    running.waits.kind = 1;
    outside.wel = 2;
    import_of("the closing record alone", END, 0);
    import_of("a record of 3 bytes", ":0300300002337A1E\n" END, 0);
    import_of("a record of 0 bytes at FFFFh", ":00FFFF0002\n" END, 0);
    import_of("a byte at FFFFh", ":01FFFF00AA57\n" END, 0);
    import_of("one past FFFFh", ":02FFFF00AA55FF\n" END, 12);
    import_of("an empty text", "", 12);
    import_of("no closing record", ":0300300002337A1E\n", 12);
    import_of("no last LF", ":0300300002337A1E\n:00000001FF", 12);
    import_of("text after the end", END "\n", 12);
    import_of("two ends", END END, 12);
    import_of("a record after the end", END ":0300300002337A1E\n", 12);
    import_of("lower case", ":0300300002337a1e\n" END, 12);
    import_of("a closing record in lower case", ":00000001ff\n", 12);
    import_of("CR LF", ":0300300002337A1E\r\n" END, 12);
    import_of("an empty line", "\n" END, 12);
    import_of("a space before the colon", " :0300300002337A1E\n" END, 12);
    import_of("a space at the end of a line", ":0300300002337A1E \n" END, 12);
    import_of("a sum off by one", ":0300300002337A1F\n" END, 12);
    import_of("a length one too large", ":0400300002337A1D\n" END, 12);
    import_of("a length one too small", ":0200300002337A1F\n" END, 12);
    import_of("an odd number of digits", ":0300300002337A1\n" END, 12);
    import_of("no digit", ":030030000233GA1E\n" END, 12);
    import_of("type 01 with an address", ":00001001EF\n", 12);
    import_of("type 01 with data", ":0100000100FE\n", 12);
    import_of("type 02", ":020000021200EA\n" END, 12);
    import_of("type 03", ":0400000300003800C1\n" END, 12);
    import_of("type 04", ":020000040800F2\n" END, 12);
    import_of("type 05", ":04000005000000CD2A\n" END, 12);
    import_of("type FF", ":000000FF01\n" END, 12);
    size_t n = say(":0300300002337A1E\n" END);
    expect("a cycle runs", both_import(running, MEMORY, n), 12);
    expect("a cycle runs, and the text is bad", both_import(running, MEMORY, 5), 12);
    expect("an M95512-D, locked", both_import(other, MEMORY, n), 0);
    expect("a part that is none", both_import(none, MEMORY, n), 2);
    expect("a part that is none, 131,072 cells", both_import(none, LARGEST, n), 1);
    expect("an M95M01", both_import(large, LARGEST, n), 12);
    expect("an M95M01, and the text is bad", both_import(large, LARGEST, 5), 12);
    expect("an M95M01, 65,536 cells", both_import(large, MEMORY, n), 1);
    expect("an M95M01, its cycle length outside its range", both_import(past, LARGEST, n), 2);
    expect("an M95512, 131,072 cells", both_import(core, LARGEST, n), 1);
    expect("a memory one byte short", both_import(core, MEMORY - 1, n), 1);
    expect("a record outside its ranges", both_import(outside, MEMORY, n), 2);
    expect("a short memory and such a record and a bad text", both_import(outside, MEMORY - 1, 5), 1);
    expect("such a record and a bad text", both_import(outside, MEMORY, 5), 2);
    n = 0;
    for (unsigned k = 0; k < 300000; k++) {
        uint8_t byte = (uint8_t)k;
        n += put_line(text + n, 1, k % MEMORY, 0, &byte);
    }
    n += put_end(text + n);
    expect("300,000 records", both_import(core, MEMORY, n), 0);
    text[n / 2] = 'x';
    expect("300,000 records, one bad", both_import(core, MEMORY, n), 12);
    expect("export", both_export(core, MEMORY, ROOM), 0);
    expect("export in a cycle", both_export(running, MEMORY, ROOM), 0);
    expect("export of an M95512-D, locked", both_export(other, MEMORY, ROOM), 0);
    expect("export of a part that is none", both_export(none, MEMORY, ROOM), 2);
    expect("export of an M95M01", both_export(large, LARGEST, ROOM), 12);
    expect("export of an M95M01 to one byte fewer", both_export(large, LARGEST, ROOM - 1), 12);
    expect("export of an M95M01, 65,536 cells", both_export(large, MEMORY, ROOM), 1);
    expect("export of an M95M01 by such a record", both_export(past, LARGEST, ROOM - 1), 2);
    expect("export to one byte fewer", both_export(core, MEMORY, ROOM - 1), 5);
    expect("export to one byte more", both_export(core, MEMORY, ROOM + 1), 5);
    expect("export to nothing", both_export(core, MEMORY, 0), 5);
    expect("export of a short memory to one byte fewer", both_export(outside, MEMORY - 1, ROOM - 1), 1);
    expect("export by such a record to one byte fewer", both_export(outside, MEMORY, ROOM - 1), 2);
}

/* ---- every part, and one that is none, with each length; the record may be outside its ranges */

static void try_parts(size_t n)
{
    static const size_t sizes[] = {MEMORY, LARGEST, MEMORY - 1, LARGEST - 1, 0};
    cartvesper_core given = core;
    given.part = (uint8_t)drawn(4);
    given.cycle = drawn(2) ? 1 : 4000 + drawn(1002);
    given.blank = draw_blank(drawn(2) ? LARGEST : MEMORY) + !drawn(8);
    both_import(given, sizes[drawn(5)], n);
    both_export(given, sizes[drawn(5)], ROOM - drawn(2));
}

/* ---- time */

static double now(void)
{
    struct timespec t;
    clock_gettime(CLOCK_PROCESS_CPUTIME_ID, &t);
    return (double)t.tv_sec * 1e9 + (double)t.tv_nsec;
}

static void lib_export(size_t n)
{
    (void)n;
    if (cartvesper_hex_export(core, memory, MEMORY, lib_out, ROOM))
        exit(1);
}

static void plain_export(size_t n)
{
    (void)n;
    if (plain_hex_export_call(core, memory, MEMORY, plain_out, ROOM))
        exit(1);
}

static void lib_import(size_t n)
{
    if (cartvesper_hex_import(core, lib_memory, MEMORY, text, n).number)
        exit(1);
}

static void plain_import(size_t n)
{
    if (plain_hex_import_call(core, plain_memory, MEMORY, text, n).number)
        exit(1);
}

/* nanoseconds of each byte of the text, the best of 7 runs of each side, alternately */
static void timed(const char *what, void (*lib)(size_t), void (*plain)(size_t), size_t bytes)
{
    double best[2] = {1e30, 1e30};
    for (int run = 0; run < 7; run++)
        for (int side = 0; side < 2; side++) {
            unsigned rounds = 0;
            double start = now(), took;
            do {
                (side ? plain : lib)(bytes);
                rounds++;
            } while ((took = now() - start) < 1e8);
            took /= rounds * (double)bytes;
            if (took < best[side])
                best[side] = took;
        }
    printf("%-28s%10zu bytes%9.3f ns a byte%9.3f plain%8.2f\n", what, bytes, best[0], best[1], best[1] / best[0]);
}

int main(int argc, char **argv)
{
    unsigned rounds = argc > 2 ? (unsigned)strtoul(argv[2], 0, 10) : 20000;
    if (argc > 1)
        state = strtoull(argv[1], 0, 10) | 1;
    draw_memory(memory);
    plain_core_power_up(&core, CARTVESPER_M95512, 0, 5000, 0, 0, 0, 0, plain_blank(memory, MEMORY));
    each_alone();
    each_blank();
    draw_memory(memory);
    for (unsigned k = 0; k < rounds; k++) {
        size_t n = draw_text(drawn(12), drawn(10) == 0);
        for (unsigned d = drawn(3); d > 0; d--)
            n = damage(n);
        core.blank = draw_blank(MEMORY);
        both_import(core, MEMORY, n);
        if (k % 64 == 0)
            try_parts(n);
        if (k % 16 == 0) {
            n = drawn(200);
            for (size_t i = 0; i < n; i++)
                text[i] = (uint8_t)drawn(256);
            both_import(core, MEMORY, n);
        }
        if (k % 256 == 0) {
            draw_memory(memory);
            if (both_export(core, MEMORY, ROOM))
                fail("export");
            memcpy(scratch, memory, MEMORY);
            memcpy(text, lib_out, ROOM);
            draw_memory(memory);
            if (both_import(core, MEMORY, ROOM) || memcmp(lib_memory, scratch, MEMORY))
                fail("export and then import");
        }
    }
    printf("%lu calls answered as plain C does: %lu done, %lu of 12\n", calls, counts[0], counts[12]);
    if (argc > 3) {
        memcpy(text, lib_out, ROOM);
        timed("export", lib_export, plain_export, ROOM);
        timed("import of an export", lib_import, plain_import, ROOM);
        size_t n = 0;
        uint8_t bytes[255];
        memset(bytes, 0x5a, sizeof bytes);
        for (unsigned k = 0; k < 3000; k++)
            n += put_line(text + n, 255, (k * 255) % (MEMORY - 255), 0, bytes);
        n += put_end(text + n);
        timed("import, 255 bytes a record", lib_import, plain_import, n);
        n = 0;
        for (unsigned k = 0; k < 300000; k++)
            n += put_line(text + n, 1, k % MEMORY, 0, bytes);
        n += put_end(text + n);
        timed("import, 1 byte a record", lib_import, plain_import, n);
    }
    return 0;
}
