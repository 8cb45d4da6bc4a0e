/* playspeed PLAY PLAIN FOLDER [PREFIX..]: makes two traces of a million lines in FOLDER, READ frames and WRITE
 * frames of 32 bytes, sees that both players put out the same, then runs them alternately with their output thrown
 * away and prints the least processor time of each and the ratio plain/play (1.00 is as fast as plain C); and, once,
 * the time of a script that only numbers the lines (numbered.awk, in the folder it is run in). First for the M95512,
 * then for the M95M01, which the players are told. Before, a short trace of each part with every instruction, only
 * compared. PREFIX is what stands before a program's name (an emulator and its words). */
#define _DEFAULT_SOURCE
#include <fcntl.h>
#include <stdint.h>
#include <stdio.h>
#include <stdlib.h>
#include <string.h>
#include <sys/resource.h>
#include <sys/wait.h>
#include <unistd.h>

enum { LINES = 1000000, DATA = 32, ROUNDS = 9, WORDS = 16 };

/* a part as the players take it: NULL for none named, which is the M95512; its address bytes and its cells */
typedef struct {
    const char *name;
    int address_bytes;
    unsigned size, step; /* from one frame's address to the next, over the memory in a million lines */
} played_part;

static const played_part small = {NULL, 2, 65536, 37}, dashed = {"M95512-D", 2, 65536, 37};
static const played_part large = {"M95M01", 3, 131072, 97};

static long left;
static FILE *trace;

static void put(const char *line)
{
    if (left > 0) {
        fputs(line, trace);
        left--;
    }
}

static void frame(const uint8_t *bytes, int length)
{
    put("S\t0\n");
    for (int i = 0; i < length; i++)
        for (int bit = 7; bit >= 0; bit--) {
            put(bytes[i] >> bit & 1 ? "D\t1\n" : "D\t0\n");
            put("C\t1\n");
            put("C\t0\n");
        }
    put("S\t1\n");
}

/* a code, an address with as many bytes as the part takes, and data: none, or rising bytes from one on */
static void addressed(const played_part *part, int code, unsigned address, int length, int data)
{
    uint8_t bytes[4 + DATA] = {(uint8_t)code};
    for (int i = part->address_bytes; i > 0; i--, address >>= 8)
        bytes[i] = (uint8_t)address;
    for (int i = 0; i < length && data >= 0; i++)
        bytes[1 + part->address_bytes + i] = (uint8_t)(data + i);
    frame(bytes, 1 + part->address_bytes + length);
}

static void short_frame(int code, int length)
{
    const uint8_t bytes[2] = {(uint8_t)code, 0x04};
    frame(bytes, length);
}

static void read_clock(unsigned reading)
{
    char text[16];
    snprintf(text, sizeof text, "T\t%u\n", reading);
    put(text);
}

static void open_trace(const char *path)
{
    trace = fopen(path, "w");
    if (!trace) {
        perror(path);
        exit(2);
    }
    left = LINES;
}

static void make(const char *path, const played_part *part, int writes)
{
    unsigned address = 0, reading = 0;
    open_trace(path);
    for (; left > 0; address = (address + part->step) % part->size) {
        if (writes)
            short_frame(0x06, 1);
        addressed(part, writes ? 0x02 : 0x03, address, DATA, writes ? (int)(address & 0xFF) : -1);
        if (writes)
            read_clock(reading += 6000);
    }
    fclose(trace);
}

/* the identification page as delivered; a WRITE over the page's end, with WRDI and polls in its cycle; that page
 * written, locked, and closed to an 82h; a status that protects a quarter */
static void make_codes(const char *path, const played_part *part)
{
    unsigned last = part->size - 1;
    open_trace(path);
    addressed(part, 0x83, 0x0000, 4, -1);
    short_frame(0x06, 1);
    addressed(part, 0x02, last, 3, 0x51);
    short_frame(0x05, 2);
    short_frame(0x04, 1);
    short_frame(0x05, 2);
    read_clock(3999);
    short_frame(0x05, 2);
    read_clock(4000);
    short_frame(0x05, 2);
    read_clock(5000);
    addressed(part, 0x03, last - 2, 6, -1);
    for (unsigned k = 0; k < 5; k++) {
        static const unsigned addresses[] = {0x007F, 0x00FF, 0x0400, 0x0000, 0x0000};
        short_frame(0x06, 1);
        if (k < 4)
            addressed(part, 0x82, addresses[k], k == 2 ? 1 : 2, 0x62);
        else
            short_frame(0x01, 2);
        read_clock(10000 * (k + 1));
        addressed(part, 0x83, addresses[k], 3, -1);
        addressed(part, 0x83, 0x0400, 1, -1);
        short_frame(0x05, 2);
    }
    fclose(trace);
}

/* one run: processor seconds */
static double run(char **prefix, const char *program, const char *part, const char *in, const char *out)
{
    char *words[WORDS] = {0};
    int n = 0;
    while (prefix[n] && n < WORDS - 4) {
        words[n] = prefix[n];
        n++;
    }
    words[n++] = (char *)program;
    if (part) {
        words[n++] = "--part";
        words[n++] = (char *)part;
    }
    pid_t child = fork();
    if (child == 0) {
        int from = open(in, O_RDONLY), to = open(out, O_WRONLY | O_CREAT | O_TRUNC, 0666);
        if (from < 0 || to < 0 || dup2(from, 0) < 0 || dup2(to, 1) < 0)
            _exit(2);
        execvp(words[0], words);
        _exit(2);
    }
    int status;
    struct rusage used;
    if (child < 0 || wait4(child, &status, 0, &used) < 0 || status != 0) {
        fprintf(stderr, "playspeed: %s did not run\n", program);
        exit(2);
    }
    return (double)(used.ru_utime.tv_sec + used.ru_stime.tv_sec) +
           (double)(used.ru_utime.tv_usec + used.ru_stime.tv_usec) / 1e6;
}

static int same(const char *a, const char *b)
{
    FILE *f = fopen(a, "r"), *g = fopen(b, "r");
    int x = 0, y = 0;
    if (f && g)
        do {
            x = getc(f);
            y = getc(g);
        } while (x == y && x != EOF);
    return f && g && x == y;
}

/* both players on a trace: they put out the same, or the program ends */
static void compare(char **words, const played_part *part, const char *in)
{
    char a[256], b[256];
    snprintf(a, sizeof a, "%s/play.out", words[3]);
    snprintf(b, sizeof b, "%s/plain.out", words[3]);
    run(words + 4, words[1], part->name, in, a);
    run(words + 4, words[2], part->name, in, b);
    if (!same(a, b)) {
        printf("%s: the players differ\n", in);
        exit(1);
    }
}

static void compare_codes(char **words, const played_part *part)
{
    char in[256];
    const char *name = part->name ? part->name : "M95512";
    snprintf(in, sizeof in, "%s/codes-%s.trace", words[3], name);
    make_codes(in, part);
    compare(words, part, in);
    printf("every instruction, %s: the players put out the same\n", name);
}

static void compare_speed(char **words, const played_part *part, int writes)
{
    char in[256];
    const char *kind = writes ? "write" : "read";
    snprintf(in, sizeof in, "%s/%s%s%s.trace", words[3], kind, part->name ? "-" : "", part->name ? part->name : "");
    make(in, part, writes);
    compare(words, part, in);
    double play = 1e9, plain = 1e9;
    for (int i = 0; i < ROUNDS; i++) {
        double t = run(words + 4, words[1], part->name, in, "/dev/null");
        if (t < play)
            play = t;
        t = run(words + 4, words[2], part->name, in, "/dev/null");
        if (t < plain)
            plain = t;
    }
    char *awk[] = {"awk", "-f", 0};
    printf("a million lines of %s frames%s%s\tplay %.1f ns a line\tplain C %.1f ns a line\tratio %.2f\n",
           writes ? "WRITE" : "READ", part->name ? ", " : "", part->name ? part->name : "", play * 1e9 / LINES,
           plain * 1e9 / LINES, plain / play);
    if (part->name)
        return;
    if (system("command -v awk >/dev/null 2>&1") == 0) {
        double script = run(awk, "numbered.awk", NULL, in, "/dev/null");
        printf("\ta script that only numbers them\t%.1f ns a line\tplay is %.1f times as fast\n",
               script * 1e9 / LINES, script / play);
    } else
        printf("\tno awk here to compare with\n");
}

int main(int count, char **words)
{
    if (count < 4) {
        fprintf(stderr, "playspeed PLAY PLAIN FOLDER [PREFIX..]\n");
        return 2;
    }
    compare_codes(words, &small);
    compare_codes(words, &dashed);
    compare_codes(words, &large);
    for (int writes = 0; writes < 2; writes++)
        compare_speed(words, &small, writes);
    for (int writes = 0; writes < 2; writes++)
        compare_speed(words, &large, writes);
    return 0;
}
