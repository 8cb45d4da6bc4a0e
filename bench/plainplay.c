/* plainplay [--part M95512|M95512-D|M95M01]: a plain C player of a trace, written from document 01's "Trace text" over
 * the plain model of plain.c. It reads and writes in one buffer each way: the line is parsed where it stands, played in
 * place, and printed. Standard input to standard output. */
#include "plain.h"
#include <string.h>
#include <unistd.h>

enum { ROOM = 1 << 16, LAST = 1000000 };

static cartvesper_device device;
static uint8_t memory[CARTVESPER_LARGEST_MEMORY], identification[CARTVESPER_LARGEST_IDENTIFICATION];
static uint8_t in[ROOM], out[ROOM + 64];
static size_t have, at, used;

static void flush(void)
{
    size_t done = 0;
    while (done < used) {
        ssize_t n = write(1, out + done, used - done);
        if (n <= 0)
            _exit(1);
        done += (size_t)n;
    }
    used = 0;
}

/* the next byte, or -1 at the end */
static inline int next(void)
{
    if (at == have) {
        ssize_t n = read(0, in, ROOM);
        if (n <= 0)
            return -1;
        have = (size_t)n;
        at = 0;
    }
    return in[at++];
}

static void number(uint32_t n)
{
    uint8_t digits[10];
    int k = 0;
    do
        digits[k++] = (uint8_t)('0' + n % 10);
    while (n /= 10);
    while (k)
        out[used++] = digits[--k];
}

static void line(uint32_t n, const char *what, size_t length)
{
    number(n);
    out[used++] = '\t';
    memcpy(out + used, what, length);
    used += length;
    out[used++] = '\n';
    if (used > ROOM - 64)
        flush();
}

/* one line: 1 played, 0 bad, -1 the end of the text */
static int one(uint32_t whole)
{
    int name = next();
    if (name < 0)
        return -1;
    if (whole == LAST || next() != '\t')
        return 0;
    int b = next();
    if (name == 'T') {
        if (b < '0' || b > '9')
            return 0;
        uint64_t reading = (uint64_t)(b - '0');
        int c = next();
        while (c >= '0' && c <= '9') {
            if (reading == 0)
                return 0;
            reading = reading * 10 + (uint64_t)(c - '0');
            if (reading > 4294967295u)
                return 0;
            c = next();
        }
        if (c != '\n')
            return 0;
        plain_device_time(&device, memory, identification, (uint32_t)reading);
        return 1;
    }
    if ((b != '0' && b != '1') || next() != '\n')
        return 0;
    int level = b - '0';
    switch (name) {
    case 'S':
        plain_s(&device, level);
        return 1;
    case 'C':
        plain_c(&device, level, memory, identification);
        return 1;
    case 'D':
        plain_d(&device, level);
        return 1;
    case 'W':
        plain_w(&device, level);
        return 1;
    case 'H':
        plain_hold(&device, level);
        return 1;
    }
    return 0;
}

/* as delivered, with the part's longest cycle and every cell blank; the identification page of the M95M01 has its code
 * (001, table 5) */
static void start(uint8_t part)
{
    static const uint8_t code[3] = {0x20, 0x00, 0x11};
    memset(memory, 0xFF, sizeof memory);
    memset(identification, 0xFF, sizeof identification);
    if (part == CARTVESPER_M95M01)
        memcpy(identification, code, sizeof code);
    plain_device_power_up(&device, part, 0, plain_row_of(part)->longest_cycle, 0, 0, 0, 0, plain_row_of(part)->size);
}

/* the part that the words name, the M95512 where there are none; PLAIN_PARTS for other words */
static uint8_t part_of(int count, char **words)
{
    static const char *const names[PLAIN_PARTS] = {"M95512", "M95512-D", "M95M01"};
    uint8_t part = 0;
    if (count == 1)
        return CARTVESPER_M95512;
    if (count != 3 || strcmp(words[1], "--part") != 0)
        return PLAIN_PARTS;
    while (part < PLAIN_PARTS && strcmp(words[2], names[part]) != 0)
        part++;
    return part;
}

int main(int count, char **words)
{
    uint8_t part = part_of(count, words);
    if (part == PLAIN_PARTS)
        return 2;
    start(part);
    memcpy(out, "line\tq\n", 7);
    used = 7;
    for (uint32_t whole = 0;; whole++) {
        int answer = one(whole);
        if (answer < 0)
            break;
        if (answer == 0) {
            line(whole + 1, "bad", 3);
            break;
        }
        line(whole + 1, &"01Z"[plain_q(&device)], 1);
    }
    flush();
    return 0;
}
