/* The reader goes by lines: it looks for LF, then reads what stands before it. It stores into a copy of the memory,
 * which becomes the memory where the text was good. */
#include "plainhex.h"
#include "plain.h"
#include <string.h>

enum { MEMORY = CARTVESPER_MEMORY };

/* the memory by the record's own part, then the record, then a part whose cells a text cannot name */
static uint32_t refusal(const cartvesper_core *core, size_t size)
{
    if (size != plain_row_of(core->part)->size)
        return CARTVESPER_MEMORY_LENGTH;
    if (!plain_core_ok(core))
        return CARTVESPER_RECORD_RANGE;
    return core->part == CARTVESPER_M95M01 ? CARTVESPER_NOT_IMPORTED : CARTVESPER_DONE;
}

static void put_byte(uint8_t **at, unsigned value, unsigned *sum)
{
    static const char digits[] = "0123456789ABCDEF";
    *(*at)++ = (uint8_t)digits[value >> 4];
    *(*at)++ = (uint8_t)digits[value & 15];
    *sum += value;
}

uint32_t plain_hex_export_call(cartvesper_core core, const uint8_t *memory, size_t size, uint8_t *out, size_t room)
{
    uint32_t number = refusal(&core, size);
    if (number)
        return number;
    if (room != CARTVESPER_HEX_TEXT)
        return CARTVESPER_OUTPUT_LENGTH;
    for (unsigned address = 0; address < MEMORY; address += 16) {
        unsigned sum = 0;
        *out++ = ':';
        put_byte(&out, 16, &sum);
        put_byte(&out, address >> 8, &sum);
        put_byte(&out, address & 255, &sum);
        put_byte(&out, 0, &sum);
        for (unsigned i = 0; i < 16; i++)
            put_byte(&out, memory[address + i], &sum);
        put_byte(&out, -sum & 255, &sum);
        *out++ = '\n';
    }
    memcpy(out, ":00000001FF\n", 12);
    return CARTVESPER_DONE;
}

/* one more than the value of a digit, 0 for every other byte */
static const uint8_t values[256] = {['0'] = 1,  ['1'] = 2,  ['2'] = 3,  ['3'] = 4,  ['4'] = 5,  ['5'] = 6,
                                    ['6'] = 7,  ['7'] = 8,  ['8'] = 9,  ['9'] = 10, ['A'] = 11, ['B'] = 12,
                                    ['C'] = 13, ['D'] = 14, ['E'] = 15, ['F'] = 16};

static int digit(uint8_t c)
{
    return values[c] - 1;
}

/* The bytes of a line of so many digits, or -1. */
static int line_bytes(const uint8_t *text, size_t digits, uint8_t *bytes)
{
    if (digits % 2 || digits > 2 * 260)
        return -1;
    for (size_t i = 0; i < digits / 2; i++) {
        int high = digit(text[2 * i]), low = digit(text[2 * i + 1]);
        if ((high | low) < 0)
            return -1;
        bytes[i] = (uint8_t)(high << 4 | low);
    }
    return (int)(digits / 2);
}

static int stores(uint8_t *memory, const uint8_t *text, size_t length)
{
    uint8_t bytes[260];
    while (length > 0) {
        const uint8_t *end = memchr(text, '\n', length);
        if (!end)
            return 0;
        size_t line = (size_t)(end - text) + 1;
        if (line == 12 && memcmp(text, ":00000001FF", 11) == 0)
            return length == 12;
        if (text[0] != ':')
            return 0;
        int count = line_bytes(text + 1, line - 2, bytes);
        if (count < 5 || bytes[0] + 5 != count || bytes[3] != 0)
            return 0;
        unsigned sum = 0, address = (unsigned)bytes[1] << 8 | bytes[2];
        for (int i = 0; i < count; i++)
            sum += bytes[i];
        if (sum % 256 || address + bytes[0] > MEMORY)
            return 0;
        memcpy(memory + address, bytes + 4, bytes[0]);
        text += line;
        length -= line;
    }
    return 0;
}

cartvesper_core_answer plain_hex_import_call(cartvesper_core core, uint8_t *memory, size_t size, const uint8_t *text,
                                             size_t length)
{
    static uint8_t next[MEMORY];
    cartvesper_core_answer answer = {refusal(&core, size), core};
    if (answer.number)
        return answer;
    memcpy(next, memory, MEMORY);
    if (core.left > 0 || !stores(next, text, length)) {
        answer.number = CARTVESPER_NOT_IMPORTED;
        return answer;
    }
    memcpy(memory, next, MEMORY);
    answer.core.blank = plain_blank(memory, MEMORY); /* afresh, whatever it was */
    return answer;
}
