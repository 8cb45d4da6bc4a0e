/* The bench's questions to the proved split: case g and the edges, a line each: what was asked, then the refusal,
   the number of parts, and the address and length of the part. First of the M95512, then of the M95M01, then of
   chips with the M95512's sizes. It needs no header, so that the toolchain's own clang, which has none, compiles it
   too. */
typedef __UINT8_TYPE__ uint8_t;
typedef __UINT64_TYPE__ uint64_t;
int printf(const char *, ...);

uint64_t cartvesper_split_refusal(uint8_t chip, uint64_t address, uint64_t length, uint64_t part);
uint64_t cartvesper_split_parts(uint8_t chip, uint64_t address, uint64_t length, uint64_t part);
uint64_t cartvesper_split_address(uint8_t chip, uint64_t address, uint64_t length, uint64_t part);
uint64_t cartvesper_split_length(uint8_t chip, uint64_t address, uint64_t length, uint64_t part);

enum { M95512 = 0, M95512D = 1, M95M01 = 2 };

#define LAST 0xffffffffffffffffu

static void ask_of(uint8_t chip, const char *what, uint64_t address, uint64_t length, uint64_t part)
{
    printf("%s\t%llu\t%llu\t%llu\t%llu\n", what,
           (unsigned long long)cartvesper_split_refusal(chip, address, length, part),
           (unsigned long long)cartvesper_split_parts(chip, address, length, part),
           (unsigned long long)cartvesper_split_address(chip, address, length, part),
           (unsigned long long)cartvesper_split_length(chip, address, length, part));
}

static void ask(const char *what, uint64_t address, uint64_t length, uint64_t part)
{
    ask_of(M95512, what, address, length, part);
}

static void ask_large(const char *what, uint64_t address, uint64_t length, uint64_t part)
{
    ask_of(M95M01, what, address, length, part);
}

int main(void)
{
    ask("case g, part 0", 100, 300, 0);
    ask("case g, part 1", 100, 300, 1);
    ask("case g, part 2", 100, 300, 2);
    ask("case g, part 3", 100, 300, 3);
    ask("case g, no part 4", 100, 300, 4);
    ask("no data", 100, 0, 0);
    ask("no data, past the memory", 65537, 0, 0);
    ask("one byte, the page's last", 127, 1, 0);
    ask("two bytes over an edge, part 0", 127, 2, 0);
    ask("two bytes over an edge, part 1", 127, 2, 1);
    ask("a whole page", 128, 128, 0);
    ask("a whole page, no part 1", 128, 128, 1);
    ask("the memory's last byte", 65535, 1, 0);
    ask("one past it", 65536, 1, 0);
    ask("the last byte and one past it", 65535, 2, 0);
    ask("the whole memory, part 0", 0, 65536, 0);
    ask("the whole memory, part 511", 0, 65536, 511);
    ask("the whole memory, no part 512", 0, 65536, 512);
    ask("one more than the memory", 0, 65537, 0);
    ask("address 2^32", 4294967296u, 1, 0);
    ask("address 2^64 - 1, sum 0 in 64 bits", LAST, 1, 0);
    ask("length 2^64 - 1, sum 99 in 64 bits", 100, LAST, 0);
    ask("part 2^64 - 1", 100, 300, LAST);
    ask_large("M95M01, case g, part 0", 100, 300, 0);
    ask_large("M95M01, case g, part 1", 100, 300, 1);
    ask_large("M95M01, case g, no part 2", 100, 300, 2);
    ask_large("M95M01, two bytes over FFFFh, part 0", 65535, 2, 0);
    ask_large("M95M01, two bytes over FFFFh, part 1", 65535, 2, 1);
    ask_large("M95M01, 127 is not a page's last", 127, 2, 0);
    ask_large("M95M01, the memory's last byte", 131071, 1, 0);
    ask_large("M95M01, one past it", 131072, 1, 0);
    ask_large("M95M01, the last byte and one past it", 131071, 2, 0);
    ask_large("M95M01, the whole memory, part 511", 0, 131072, 511);
    ask_large("M95M01, the whole memory, no part 512", 0, 131072, 512);
    ask_large("M95M01, one more than the memory", 0, 131073, 0);
    ask_of(M95512D, "M95512-D, case g, part 3", 100, 300, 3);
    ask_of(M95512D, "M95512-D, one past the memory", 65536, 1, 0);
    ask_of(3, "chip 3, case g, part 3", 100, 300, 3);
    ask_of(255, "chip 255, one past the M95512's memory", 65536, 1, 0);
    return 0;
}
