/* The plain model. "01" is document 01, "reading" its reading, "02" document 02. */
#include "plain.h"
#include <string.h>

enum { WREN = 0x06, WRDI = 0x04, RDSR = 0x05, WRSR = 0x01, READ = 0x03, WRITE = 0x02 };
enum { RDID = 0x83, WRID = 0x82 };               /* the identification page, or the page's lock */
enum { LOCK_ADDRESS = 0x400, LOCK_DATA = 0x02 }; /* address bit 10 asks for the lock, data bit 1 sets it */
enum { CELLS = CARTVESPER_LARGEST_PAGE };        /* of a latch, whatever the part */
enum { HEAD = 4 };                               /* bytes before the data, at most */
enum { WORD = 64, WORDS = CELLS / WORD };        /* a word of marks has a bit for each of 64 cells */
enum { NOTHING = 0, STATUS = 1, LATCHED = 2, IDENTIFICATION = 3, LOCK = 4 }; /* what waits */
enum { WRITABLE = 0x8C };                        /* SRWD, BP1, BP0 in the status byte */
enum { Z = 2 };

/* ---- the parts: 01, 02 Item 4 and Item 11. What differs between them stands here and nowhere else */

enum { M95512 = 0, M95512D = 1, M95M01 = 2 };

static const plain_row rows[PLAIN_PARTS] = {
    /* size, page, address_bytes, most, longest_cycle, identified, wrdi_in_cycle */
    [M95512] = {65536, 128, 2, 5, 5000, 0, 0},
    [M95512D] = {65536, 128, 2, 5, 5000, 1, 0},
    [M95M01] = {131072, 256, 3, 6, 4000, 1, 1},
};

static inline const plain_row *row_of(uint8_t part)
{
    return &rows[part < PLAIN_PARTS ? part : M95512];
}

static inline uint32_t head_of(const plain_row *row)
{
    return 1 + row->address_bytes;
}

const plain_row *plain_row_of(uint8_t part)
{
    return row_of(part);
}

uint32_t plain_head(const plain_row *row)
{
    return head_of(row);
}

uint32_t plain_longest_frame(const plain_row *row)
{
    return row->size + 4;
}

uint32_t plain_most_polls(const plain_row *row)
{
    return row->longest_cycle + 1;
}

/* the cell of its page that an address is of */
static inline uint32_t cell_of(const plain_row *row, uint32_t address)
{
    return address & (row->page - 1);
}

/* ---- equality, without the bytes between fields */

int plain_latch_same(const cartvesper_latch *one, const cartvesper_latch *other)
{
    return memcmp(one->bytes, other->bytes, CELLS) == 0 && memcmp(one->marks, other->marks, sizeof one->marks) == 0;
}

static int waiting_same(const cartvesper_waiting *one, const cartvesper_waiting *other)
{
    return one->kind == other->kind && one->status == other->status && one->page == other->page &&
           plain_latch_same(&one->latch, &other->latch);
}

int plain_core_same(const cartvesper_core *one, const cartvesper_core *other)
{
    return one->part == other->part && one->lock == other->lock && one->srwd == other->srwd && one->bp1 == other->bp1 &&
           one->bp0 == other->bp0 && one->wel == other->wel && one->cycle == other->cycle && one->left == other->left &&
           one->last == other->last && one->blank == other->blank && waiting_same(&one->waits, &other->waits);
}

/* ---- ranges: 01 "What the device holds", reading "The record" */

static int all_zero(const uint8_t *bytes, size_t length)
{
    unsigned seen = 0;
    for (size_t i = 0; i < length; i++)
        seen |= bytes[i];
    return seen == 0;
}

static int marks_empty(const cartvesper_latch *latch)
{
    uint64_t seen = 0;
    for (size_t k = 0; k < WORDS; k++)
        seen |= latch->marks[k];
    return seen == 0;
}

static int latch_empty(const cartvesper_latch *latch)
{
    return all_zero(latch->bytes, CELLS) && marks_empty(latch);
}

/* eight cells at once, the first in the low byte, as x86-64 has them */
static uint64_t eight(const uint8_t *cells)
{
    uint64_t bytes;
    memcpy(&bytes, cells, sizeof bytes);
    return bytes;
}

/* a mask of FFh on each marked one of the eight cells from `cell` on, a multiple of 8 */
static uint64_t eight_marked(const cartvesper_latch *latch, size_t cell)
{
    const uint64_t ones = 0x0101010101010101;
    uint64_t marks = latch->marks[cell / WORD] >> cell % WORD & 0xFF;
    uint64_t own = marks * ones & 0x8040201008040201; /* in byte j of them all, mark j alone */
    return ((own + 0x7F * ones) >> 7 & ones) * 0xFF;
}

/* unmarked bytes are 0 */
int plain_latch_ok(const cartvesper_latch *latch)
{
    uint64_t bad = 0;
    for (size_t i = 0; i < CELLS; i += 8)
        bad |= eight(latch->bytes + i) & ~eight_marked(latch, i);
    return bad == 0;
}

/* in a record: the cells past the part's page are not marked either */
static int latch_ok(const cartvesper_latch *latch, const plain_row *row)
{
    uint64_t past = 0;
    for (size_t k = row->page / WORD; k < WORDS; k++)
        past |= latch->marks[k];
    return past == 0 && plain_latch_ok(latch);
}

/* the identification page and the lock wait only on a part that has them; the page's number is 0 */
static int waiting_ok(const cartvesper_waiting *waits, const plain_row *row)
{
    switch (waits->kind) {
    case NOTHING:
        return waits->status == 0 && waits->page == 0 && latch_empty(&waits->latch);
    case STATUS:
        return (waits->status & ~WRITABLE) == 0 && waits->page == 0 && latch_empty(&waits->latch);
    case LATCHED:
        return waits->status == 0 && waits->page < row->size / row->page && latch_ok(&waits->latch, row);
    case IDENTIFICATION:
        return row->identified && waits->status == 0 && waits->page == 0 && latch_ok(&waits->latch, row);
    case LOCK:
        return row->identified && waits->status == 0 && waits->page == 0 && latch_empty(&waits->latch);
    default:
        return 0;
    }
}

/* 01: time left has WEL 1 and one thing waiting; with none left, nothing waits. 02, Item 11: where WRDI works in a
 * cycle, WEL may be 0 */
static int tied(const cartvesper_core *core, const plain_row *row)
{
    if (core->left == 0)
        return core->waits.kind == NOTHING;
    return core->waits.kind != NOTHING && (core->wel || row->wrdi_in_cycle);
}

int plain_core_ok(const cartvesper_core *core)
{
    const plain_row *row = row_of(core->part);
    if (core->part >= PLAIN_PARTS || core->lock > 1)
        return 0;
    if (core->srwd > 1 || core->bp1 > 1 || core->bp0 > 1 || core->wel > 1)
        return 0;
    if (core->cycle < 1 || core->cycle > row->longest_cycle || core->left > core->cycle)
        return 0;
    if (core->blank > row->size) /* 02, Item 6: whether it is right is not asked */
        return 0;
    return tied(core, row) && waiting_ok(&core->waits, row);
}

static int frame_empty(const cartvesper_frame_part *frame)
{
    return frame->taken == 0 && frame->bits == 0 && frame->partial == 0 && frame->code == 0 && frame->ran == 0 &&
           frame->value == 0 && frame->out == 0 && frame->shown == 0 && frame->address == 0 &&
           latch_empty(&frame->latch);
}

/* 02, Item 4: a part without the page knows neither 82h nor 83h */
static inline int is_wrid(const plain_row *row, uint8_t code)
{
    return code == WRID && row->identified;
}

static inline int is_rdid(const plain_row *row, uint8_t code)
{
    return code == RDID && row->identified;
}

static inline int has_address(const plain_row *row, uint8_t code)
{
    return code == READ || code == WRITE || is_rdid(row, code) || is_wrid(row, code);
}

/* of an 82h or an 83h: its address bit 10, which stays as it was taken */
static inline int of_lock(uint32_t address)
{
    return (address & LOCK_ADDRESS) != 0;
}

/* the address: its highest byte from two whole bytes, each other from one more; the bits above the memory's are
 * dropped */
static int address_ok(const cartvesper_frame_part *frame, const plain_row *row)
{
    uint32_t head = head_of(row), below = 0;
    if (!has_address(row, frame->code) || frame->taken < 2)
        return frame->address == 0;
    if (frame->taken < head)
        below = (1u << 8 * (head - frame->taken)) - 1; /* of the bytes that are still to come */
    return frame->address < row->size && (frame->address & below) == 0;
}

/* the data byte of WRSR, or of an 82h that asks for the lock */
static int has_value(const cartvesper_frame_part *frame, const plain_row *row)
{
    if (frame->code == WRSR)
        return frame->taken >= 2;
    return is_wrid(row, frame->code) && frame->taken > head_of(row) && of_lock(frame->address);
}

/* the data bytes of WRITE, or of an 82h that asks for the identification page */
static int has_latch(const cartvesper_frame_part *frame, const plain_row *row)
{
    if (frame->taken <= head_of(row))
        return 0;
    return frame->code == WRITE || (is_wrid(row, frame->code) && !of_lock(frame->address));
}

/* data output: RDSR from one whole byte, READ and 83h from the whole address if no cycle ran at the eighth edge */
static inline int in_output(const cartvesper_frame_part *frame, const plain_row *row)
{
    switch (frame->code) {
    case RDSR:
        return frame->taken >= 1;
    case READ:
        return frame->taken >= head_of(row) && !frame->ran;
    case RDID:
        return row->identified && frame->taken >= head_of(row) && !frame->ran;
    default:
        return 0;
    }
}

static int output_ok(const cartvesper_frame_part *frame, const plain_row *row)
{
    if (!in_output(frame, row) || frame->shown == 0)
        return frame->out == 0 && frame->shown == 0;
    return frame->shown <= 8;
}

static int frame_ok(const cartvesper_frame_part *frame, const plain_row *row, int cycle_runs)
{
    if (frame->taken > row->most || frame->bits > 7 || frame->partial >> frame->bits != 0 || frame->ran > 1)
        return 0;
    if (frame->taken == 0 && (frame->code != 0 || frame->ran != 0))
        return 0;
    if (frame->taken >= 1 && cycle_runs && !frame->ran)
        return 0;
    if (!has_value(frame, row) && frame->value != 0)
        return 0;
    if (!address_ok(frame, row) || !output_ok(frame, row))
        return 0;
    return has_latch(frame, row) ? latch_ok(&frame->latch, row) : latch_empty(&frame->latch);
}

int plain_device_ok(const cartvesper_device *device)
{
    const cartvesper_pins *pins = &device->pins;
    if (pins->s > 1 || pins->c > 1 || pins->d > 1 || pins->w > 1 || pins->hold > 1 || device->held > 1)
        return 0;
    if (!plain_core_ok(&device->core))
        return 0;
    if (pins->s)
        return !device->held && frame_empty(&device->frame);
    if (!pins->c && device->held != !pins->hold)
        return 0;
    return frame_ok(&device->frame, row_of(device->core.part), device->core.left > 0);
}

/* ---- the status byte, protection, time */

uint8_t plain_status(const cartvesper_core *core)
{
    return (uint8_t)(core->srwd << 7 | core->bp1 << 3 | core->bp0 << 2 | core->wel << 1 | (core->left > 0));
}

/* BP1 and BP0 as a number: nothing, the upper quarter, the upper half or everything is protected */
static uint32_t lowest_by(const plain_row *row, uint8_t bp)
{
    const uint32_t lowest[4] = {row->size, row->size / 4 * 3, row->size / 2, 0};
    return lowest[bp & 3];
}

uint32_t plain_lowest_protected(const cartvesper_core *core)
{
    return lowest_by(row_of(core->part), (uint8_t)(core->bp1 << 1 | core->bp0));
}

int plain_protected(const cartvesper_core *core, uint32_t address)
{
    return address >= plain_lowest_protected(core);
}

/* the marked cells of the page that waits, the identification page too, one by one */
uint32_t plain_touched(const cartvesper_core *core)
{
    uint32_t cells = 0;
    if (core->waits.kind != LATCHED && core->waits.kind != IDENTIFICATION)
        return 0;
    for (size_t i = 0; i < CELLS; i++)
        if (cartvesper_marked(&core->waits.latch, i))
            cells++;
    return cells;
}

/* 02, Item 6: the scan is what the number means */
uint32_t plain_blank(const uint8_t *memory, size_t size)
{
    uint32_t cells = 0;
    for (size_t i = 0; i < size; i++)
        cells += memory[i] == 0xFF;
    return cells;
}

void plain_core_power_up(cartvesper_core *core, int part, int lock, uint32_t cycle, int srwd, int bp1, int bp0,
                         uint32_t reading, uint32_t blank)
{
    memset(core, 0, sizeof *core);
    core->part = (uint8_t)part;
    core->lock = (uint8_t)lock;
    core->srwd = (uint8_t)srwd;
    core->bp1 = (uint8_t)bp1;
    core->bp0 = (uint8_t)bp0;
    core->cycle = cycle;
    core->last = reading;
    core->blank = blank;
}

static int all_marked(const cartvesper_latch *latch, size_t page)
{
    uint64_t marks = UINT64_MAX;
    for (size_t k = 0; k < page / WORD; k++)
        marks &= latch->marks[k];
    return marks == UINT64_MAX;
}

/* the marked cells of the target page */
static void store_page(uint8_t *restrict cells, const cartvesper_latch *restrict latch, size_t page)
{
    if (all_marked(latch, page)) {
        memcpy(cells, latch->bytes, page);
        return;
    }
    for (size_t i = 0; i < page; i += 8) {
        uint64_t mask = eight_marked(latch, i);
        uint64_t bytes = (eight(cells + i) & ~mask) | (eight(latch->bytes + i) & mask);
        memcpy(cells + i, &bytes, sizeof bytes);
    }
}

/* of eight cells: 01h for each that is FFh, 00h for any other */
static uint64_t eight_blank(uint64_t bytes)
{
    const uint64_t ones = 0x0101010101010101;
    return (((bytes & 0x7F * ones) + ones) & bytes) >> 7 & ones;
}

/* the sum of eight bytes */
static uint32_t eight_sum(uint64_t bytes)
{
    const uint64_t low = 0x00FF00FF00FF00FF;
    uint64_t pairs = (bytes & low) + (bytes >> 8 & low);
    return (uint32_t)(pairs * 0x0001000100010001 >> 48);
}

/* 02, Item 6: the sum is held within 0 and the memory's size */
static inline void move_blank(cartvesper_core *core, uint32_t gained, uint32_t lost, const plain_row *row)
{
    uint32_t number = core->blank + gained; /* at most the sizes of a memory and of a page */
    number = number > lost ? number - lost : 0;
    core->blank = number < row->size ? number : row->size;
}

/* 02, Item 6: before the page is stored. Gained are the marked cells that become FFh, lost those that no longer are; a
 * cell that is not marked keeps its byte, so it is neither */
static void count_page(cartvesper_core *core, const uint8_t *cells, const plain_row *row)
{
    const cartvesper_latch *latch = &core->waits.latch;
    uint64_t gains = 0, losses = 0; /* in byte j those of the cells j, j + 8 and so on: at most 32 */
    for (size_t i = 0; i < row->page; i += 8) {
        uint64_t mask = eight_marked(latch, i);
        uint64_t before = eight_blank(eight(cells + i)) & mask, after = eight_blank(eight(latch->bytes + i)) & mask;
        gains += after & ~before;
        losses += before & ~after;
    }
    move_blank(core, eight_sum(gains), eight_sum(losses), row);
}

static void store_status(cartvesper_core *core, uint8_t status)
{
    core->srwd = status >> 7;
    core->bp1 = status >> 3 & 1;
    core->bp0 = status >> 2 & 1;
}

static void end_cycle(cartvesper_core *core, uint8_t *memory, uint8_t *identification)
{
    const plain_row *row = row_of(core->part);
    uint8_t *cells = memory + (size_t)row->page * core->waits.page;
    switch (core->waits.kind) {
    case STATUS:
        store_status(core, core->waits.status);
        break;
    case LATCHED:
        count_page(core, cells, row);
        store_page(cells, &core->waits.latch, row->page);
        break;
    case IDENTIFICATION:
        store_page(identification, &core->waits.latch, row->page); /* not counted */
        break;
    case LOCK:
        core->lock = 1;
        break;
    }
    memset(&core->waits, 0, sizeof core->waits);
    core->left = 0;
    core->wel = 0;
}

void plain_time(cartvesper_core *core, uint8_t *memory, uint8_t *identification, uint32_t reading)
{
    uint32_t elapsed = reading - core->last; /* modulo 2^32 */
    core->last = reading;
    if (core->left == 0)
        return;
    if (elapsed >= core->left)
        end_cycle(core, memory, identification);
    else
        core->left -= elapsed;
}

/* ---- a supply cut: 02, Item 8. Cell by cell and bit by bit, each as it is chosen */

static int chosen(const cartvesper_choice *choice, size_t mark)
{
    return (choice->words[mark / WORD] >> mark % WORD & 1) != 0;
}

/* a chosen cell takes its byte if it is marked; the identification page's are not counted */
static void cut_page(cartvesper_core *core, uint8_t *cells, const cartvesper_choice *choice, const plain_row *row)
{
    const cartvesper_latch *latch = &core->waits.latch;
    uint32_t gained = 0, lost = 0;
    for (size_t i = 0; i < row->page; i++) {
        if (!cartvesper_marked(latch, i) || !chosen(choice, i))
            continue;
        gained += cells[i] != 0xFF && latch->bytes[i] == 0xFF;
        lost += cells[i] == 0xFF && latch->bytes[i] != 0xFF;
        cells[i] = latch->bytes[i];
    }
    if (core->waits.kind == LATCHED)
        move_blank(core, gained, lost, row);
}

static void cut_status(cartvesper_core *core, const cartvesper_choice *choice)
{
    const uint8_t status = core->waits.status;
    if (chosen(choice, 7))
        core->srwd = status >> 7;
    if (chosen(choice, 3))
        core->bp1 = status >> 3 & 1;
    if (chosen(choice, 2))
        core->bp0 = status >> 2 & 1;
}

static void cut_cycle(cartvesper_core *core, uint8_t *memory, uint8_t *identification, const cartvesper_choice *choice)
{
    const plain_row *row = row_of(core->part);
    switch (core->waits.kind) {
    case STATUS:
        cut_status(core, choice);
        break;
    case LATCHED:
        cut_page(core, memory + (size_t)row->page * core->waits.page, choice, row);
        break;
    case IDENTIFICATION:
        cut_page(core, identification, choice, row);
        break;
    case LOCK:
        if (chosen(choice, 0)) /* else it stays, and a lock that was set does not fall */
            core->lock = 1;
        break;
    }
}

/* then power-up with what survives */
void plain_cut(cartvesper_core *core, uint8_t *memory, uint8_t *identification, const cartvesper_choice *choice)
{
    if (core->left > 0)
        cut_cycle(core, memory, identification, choice);
    plain_core_power_up(core, core->part, core->lock, core->cycle, core->srwd, core->bp1, core->bp0, core->last,
                        core->blank);
}

/* ---- execution: nothing waits here, so only what begins to wait is written; but WRDI may come in a cycle */

/* what a running cycle stops */
static int needs_no_cycle(const plain_row *row, uint8_t code)
{
    return code != RDSR && !(code == WRDI && row->wrdi_in_cycle);
}

static int status_write_allowed(const cartvesper_core *core, int w)
{
    return core->wel && !(core->srwd && !w);
}

static void start_status_cycle(cartvesper_core *core, uint8_t value)
{
    core->waits.kind = STATUS;
    core->waits.status = value & WRITABLE;
    core->left = core->cycle;
}

static void start_page_cycle(cartvesper_core *core, uint32_t address)
{
    core->waits.kind = LATCHED;
    core->waits.page = address / row_of(core->part)->page;
    core->left = core->cycle;
}

/* 82h, for the page or for the lock: BP 11 stops both, and a set lock does for good. W and SRWD do not matter, and no
 * address is looked at */
static int identification_write_allowed(const cartvesper_core *core)
{
    return core->wel && !core->lock && !(core->bp1 && core->bp0);
}

/* the identification page has no number to wait with, and the lock no value */
static void start_identification_cycle(cartvesper_core *core, uint8_t kind)
{
    core->waits.kind = kind;
    core->left = core->cycle;
}

/* ---- the frame level */

/* bits past the count are written as 1 */
static void fill_tail(uint8_t *out, size_t length, size_t bits)
{
    out[length - 1] |= 0xFF >> (bits - 8 * (length - 1));
}

static uint64_t frame_rdsr(const cartvesper_core *core, size_t length, size_t bits, uint8_t *out)
{
    out[0] = 0xFF;
    memset(out + 1, plain_status(core), length - 1);
    fill_tail(out, length, bits);
    return 8;
}

/* the address bytes, high byte first; the bits above the memory's are dropped */
static uint32_t frame_address(const plain_row *row, const uint8_t *bytes)
{
    uint32_t address = 0;
    for (uint32_t i = 1; i <= row->address_bytes; i++)
        address = address << 8 | bytes[i];
    return address & (row->size - 1);
}

static uint64_t frame_read(const plain_row *row, const uint8_t *memory, const uint8_t *bytes, size_t length,
                           size_t bits, uint8_t *out)
{
    size_t head = head_of(row);
    if (length <= head) {
        memset(out, 0xFF, length);
        return bits;
    }
    size_t address = frame_address(row, bytes), data = length - head, first = row->size - address;
    if (first > data)
        first = data;
    memset(out, 0xFF, head);
    memcpy(out + head, memory + address, first);
    /* rolls from the last cell to the first, once at most: a frame has at most one byte more than head and memory */
    memcpy(out + head + first, memory, data - first);
    fill_tail(out, length, bits);
    return 8 * head;
}

/* 83h: the identification page's cells, again from its start after its end; or the lock, again and again */
static uint64_t frame_rdid(const cartvesper_core *core, const uint8_t *identification, const uint8_t *bytes,
                           size_t length, size_t bits, uint8_t *out)
{
    const plain_row *row = row_of(core->part);
    uint32_t head = head_of(row);
    if (length <= head) {
        memset(out, 0xFF, length);
        return bits;
    }
    uint32_t address = frame_address(row, bytes);
    memset(out, 0xFF, head);
    for (uint32_t i = head; i < length; i++)
        out[i] = of_lock(address) ? core->lock : identification[cell_of(row, address + i - head)];
    fill_tail(out, length, bits);
    return 8 * head;
}

/* marks `count` cells from `cell` on, as many in a word as it has left */
static void mark_cells(cartvesper_latch *latch, size_t cell, size_t count)
{
    while (count > 0) {
        size_t bit = cell % WORD, here = WORD - bit;
        if (here > count)
            here = count;
        latch->marks[cell / WORD] |= UINT64_MAX >> (WORD - here) << bit;
        cell += here;
        count -= here;
    }
}

/* the latest byte for a cell wins, so only the last page of data bytes can stay */
static void frame_latch(cartvesper_latch *latch, size_t page, size_t offset, const uint8_t *data, size_t count)
{
    if (count > page) {
        offset = (offset + count - page) % page;
        data += count - page;
        count = page;
    }
    size_t first = page - offset;
    if (first > count)
        first = count;
    memcpy(latch->bytes + offset, data, first);
    memcpy(latch->bytes, data + first, count - first);
    mark_cells(latch, offset, first);
    mark_cells(latch, 0, count - first);
}

static void frame_wrsr(cartvesper_core *core, int w, const uint8_t *bytes, size_t bits)
{
    if (bits == 16 && status_write_allowed(core, w))
        start_status_cycle(core, bytes[1]);
}

static void frame_write(cartvesper_core *core, const uint8_t *bytes, size_t length, size_t bits)
{
    const plain_row *row = row_of(core->part);
    size_t head = head_of(row);
    if (length <= head || bits != 8 * length || !core->wel)
        return;
    uint32_t address = frame_address(row, bytes);
    if (plain_protected(core, address))
        return;
    frame_latch(&core->waits.latch, row->page, cell_of(row, address), bytes + head, length - head);
    start_page_cycle(core, address);
}

static void frame_wrid(cartvesper_core *core, const uint8_t *bytes, size_t length, size_t bits)
{
    const plain_row *row = row_of(core->part);
    size_t head = head_of(row);
    if (length <= head || bits != 8 * length || !identification_write_allowed(core))
        return;
    uint32_t address = frame_address(row, bytes);
    if (!of_lock(address)) {
        frame_latch(&core->waits.latch, row->page, cell_of(row, address), bytes + head, length - head);
        start_identification_cycle(core, IDENTIFICATION);
    } else if (length == head + 1 && (bytes[head] & LOCK_DATA)) {
        start_identification_cycle(core, LOCK);
    }
}

/* what a frame without output does; no cycle runs, or it does not matter */
static void frame_execute(cartvesper_core *core, int w, const uint8_t *bytes, size_t length, size_t bits)
{
    switch (bytes[0]) {
    case WREN:
        if (bits == 8)
            core->wel = 1;
        break;
    case WRDI:
        if (bits == 8)
            core->wel = 0;
        break;
    case WRSR:
        frame_wrsr(core, w, bytes, bits);
        break;
    case WRITE:
        frame_write(core, bytes, length, bits);
        break;
    case WRID:
        if (row_of(core->part)->identified)
            frame_wrid(core, bytes, length, bits);
        break;
    }
}

uint64_t plain_frame(cartvesper_core *core, const uint8_t *memory, const uint8_t *identification, int w,
                     const uint8_t *bytes, size_t length, size_t bits, uint8_t *out)
{
    const plain_row *row = row_of(core->part);
    if (bits >= 8 && (core->left == 0 || !needs_no_cycle(row, bytes[0]))) {
        if (bytes[0] == RDSR)
            return frame_rdsr(core, length, bits, out);
        if (bytes[0] == READ)
            return frame_read(row, memory, bytes, length, bits, out);
        if (is_rdid(row, bytes[0]))
            return frame_rdid(core, identification, bytes, length, bits, out);
        frame_execute(core, w, bytes, length, bits);
    }
    if (length > 0)
        memset(out, 0xFF, length);
    return bits;
}

/* ---- the frame level, with readings inside a frame: 02, Item 12. A byte at a time, in the order of the edges */

typedef struct {
    cartvesper_core *core;
    uint8_t *memory, *identification;
    const uint8_t *bytes;
    plain_schedule left; /* the readings that have not come */
    int ran;             /* a cycle ran at the eighth edge */
} timed_walk;

/* all readings after k whole bytes */
static void come_at(timed_walk *walk, size_t k)
{
    plain_schedule *left = &walk->left;
    for (; left->count > 0 && *left->positions == k; left->positions++, left->readings++, left->count--)
        plain_time(walk->core, walk->memory, walk->identification, *left->readings);
}

/* the byte that the falling edge after k whole bytes loads; -1 where Q is not driven */
static int loaded_after(const timed_walk *walk, size_t k)
{
    const plain_row *row = row_of(walk->core->part);
    uint32_t head = head_of(row), address;
    if (k > 0 && walk->bytes[0] == RDSR)
        return plain_status(walk->core);
    if (k < head || walk->ran)
        return -1;
    address = frame_address(row, walk->bytes) + (uint32_t)(k - head);
    if (walk->bytes[0] == READ)
        return walk->memory[address & (row->size - 1)];
    if (!is_rdid(row, walk->bytes[0]))
        return -1;
    return of_lock(frame_address(row, walk->bytes)) ? walk->core->lock : walk->identification[cell_of(row, address)];
}

/* position k and the byte after it: the falling edge before the readings in mode 0, after them in mode 3 */
static int timed_byte(timed_walk *walk, int mode, size_t k)
{
    int shown = mode == 0 ? loaded_after(walk, k) : -1;
    come_at(walk, k);
    if (mode == 3)
        shown = loaded_after(walk, k);
    if (k == 0)
        walk->ran = walk->core->left > 0;
    return shown;
}

uint64_t plain_timed_frame(cartvesper_core *core, uint8_t *memory, uint8_t *identification, int w, int mode,
                           const uint8_t *bytes, size_t length, size_t bits, plain_schedule schedule, uint8_t *out)
{
    timed_walk walk = {core, memory, identification, bytes, schedule, 0};
    uint64_t undriven = bits;
    for (size_t k = 0; k < length; k++) {
        int shown = timed_byte(&walk, mode, k);
        if (shown >= 0 && undriven == bits)
            undriven = 8 * k;
        out[k] = (uint8_t)(shown >= 0 ? shown : 0xFF);
    }
    come_at(&walk, length); /* after the last byte, before S rises */
    if (length > 0)
        fill_tail(out, length, bits);
    if (bits >= 8 && !(walk.ran && needs_no_cycle(row_of(core->part), bytes[0])))
        frame_execute(core, w, bytes, length, bits);
    return undriven;
}

/* ---- the pin level */

void plain_device_power_up(cartvesper_device *device, int part, int lock, uint32_t cycle, int srwd, int bp1, int bp0,
                           uint32_t reading, uint32_t blank)
{
    memset(device, 0, sizeof *device);
    device->pins.s = 1;
    device->pins.w = 1;
    device->pins.hold = 1;
    plain_core_power_up(&device->core, part, lock, cycle, srwd, bp1, bp0, reading, blank);
}

/* the cell after this one: at the page's end its start, not the next page */
static uint32_t next_in_page(const plain_row *row, uint32_t address)
{
    return address - cell_of(row, address) + cell_of(row, address + 1);
}

static void latch_byte(cartvesper_frame_part *frame, const plain_row *row, uint8_t byte)
{
    uint32_t cell = cell_of(row, frame->address);
    frame->latch.bytes[cell] = byte;
    frame->latch.marks[cell / WORD] |= (uint64_t)1 << cell % WORD;
    frame->address = next_in_page(row, frame->address);
}

/* high byte first, each to its place; the bits above the memory's are dropped when taken */
static void address_byte(cartvesper_frame_part *frame, const plain_row *row, uint8_t byte)
{
    frame->address |= (uint32_t)byte << 8 * (row->address_bytes - frame->taken) & (row->size - 1);
}

/* after the address; of a lock frame's data bytes the first is kept */
static void data_byte(cartvesper_frame_part *frame, const plain_row *row, uint8_t byte)
{
    int wrid = is_wrid(row, frame->code);
    if (frame->code == WRITE || (wrid && !of_lock(frame->address)))
        latch_byte(frame, row, byte);
    else if (wrid && frame->taken == head_of(row))
        frame->value = byte;
}

/* fields fill by the instruction's code, in ignored frames too */
static void whole_byte(cartvesper_device *device, uint8_t byte)
{
    cartvesper_frame_part *frame = &device->frame;
    const plain_row *row = row_of(device->core.part);
    if (frame->taken == 0) {
        frame->code = byte;
        frame->ran = device->core.left > 0; /* 01: "No cycle" is judged at the eighth counted edge */
    } else if (frame->taken == 1 && frame->code == WRSR) {
        frame->value = byte;
    } else if (frame->taken >= head_of(row)) {
        data_byte(frame, row, byte);
    } else if (has_address(row, frame->code)) {
        address_byte(frame, row, byte);
    }
    if (frame->taken < row->most)
        frame->taken++;
}

/* a counted rising edge takes D, high bit first */
static void take_bit(cartvesper_device *device)
{
    cartvesper_frame_part *frame = &device->frame;
    uint8_t partial = (uint8_t)(frame->partial << 1 | device->pins.d);
    if (frame->bits < 7) {
        frame->partial = partial;
        frame->bits++;
        return;
    }
    frame->partial = 0;
    frame->bits = 0;
    whole_byte(device, partial);
}

/* the next byte of RDSR, READ or 83h */
static void load_byte(cartvesper_device *device, const uint8_t *memory, const uint8_t *identification)
{
    cartvesper_frame_part *frame = &device->frame;
    const plain_row *row = row_of(device->core.part);
    if (frame->code == RDSR) {
        frame->out = plain_status(&device->core);
    } else if (frame->code == READ) {
        frame->out = memory[frame->address];
        frame->address = (frame->address + 1) & (row->size - 1);
    } else if (of_lock(frame->address)) {
        frame->out = device->core.lock;
    } else {
        frame->out = identification[cell_of(row, frame->address)];
        frame->address = next_in_page(row, frame->address);
    }
}

/* an unheld falling edge: bits shown 1 to 7 step, 0 and 8 load the next byte; outside data output they are 0 */
static void move_q(cartvesper_device *device, const uint8_t *memory, const uint8_t *identification)
{
    cartvesper_frame_part *frame = &device->frame;
    if (frame->shown >= 1 && frame->shown <= 7) {
        frame->shown++;
        return;
    }
    if (!in_output(frame, row_of(device->core.part)))
        return;
    frame->shown = 1;
    load_byte(device, memory, identification);
}

/* an 82h with data */
static void execute_wrid(cartvesper_core *core, const cartvesper_frame_part *frame, const plain_row *row)
{
    if (!identification_write_allowed(core))
        return;
    if (!of_lock(frame->address)) {
        core->waits.latch = frame->latch;
        start_identification_cycle(core, IDENTIFICATION);
    } else if (frame->taken == head_of(row) + 1 && (frame->value & LOCK_DATA)) {
        start_identification_cycle(core, LOCK);
    }
}

/* the frame's bits are `taken` whole bytes (at the most: that many or more) and no part of one; `ran` 0 means that no
 * cycle runs now either */
static void execute(cartvesper_device *device)
{
    const cartvesper_frame_part *frame = &device->frame;
    cartvesper_core *core = &device->core;
    const plain_row *row = row_of(core->part);
    if (frame->bits != 0 || (frame->ran && needs_no_cycle(row, frame->code)))
        return;
    switch (frame->code) {
    case WREN:
        if (frame->taken == 1)
            core->wel = 1;
        break;
    case WRDI:
        if (frame->taken == 1)
            core->wel = 0;
        break;
    case WRSR:
        if (frame->taken == 2 && status_write_allowed(core, device->pins.w))
            start_status_cycle(core, frame->value);
        break;
    case WRITE:
        if (frame->taken > head_of(row) && core->wel && !plain_protected(core, frame->address)) {
            core->waits.latch = frame->latch;
            start_page_cycle(core, frame->address);
        }
        break;
    case WRID:
        if (row->identified && frame->taken > head_of(row))
            execute_wrid(core, frame, row);
        break;
    }
}

static void empty_frame(cartvesper_frame_part *frame, const plain_row *row)
{
    if ((frame->code == WRITE || frame->code == WRID) && frame->taken > head_of(row)) /* else the latch is empty */
        memset(&frame->latch, 0, sizeof frame->latch);
    memset(frame, 0, offsetof(cartvesper_frame_part, latch));
}

void plain_s(cartvesper_device *device, int level)
{
    if (device->pins.s == level)
        return;
    device->pins.s = (uint8_t)level;
    if (level) {
        if (!device->held || device->frame.code == WRITE) /* deselecting while held drops every frame but 02h */
            execute(device);
        device->held = 0;
        empty_frame(&device->frame, row_of(device->core.part));
    } else {
        device->held = !device->pins.c && !device->pins.hold;
    }
}

void plain_c(cartvesper_device *device, int level, const uint8_t *memory, const uint8_t *identification)
{
    if (device->pins.c == level)
        return;
    device->pins.c = (uint8_t)level;
    if (device->pins.s)
        return;
    if (level) {
        if (!device->held)
            take_bit(device);
    } else {
        if (!device->held)
            move_q(device, memory, identification);
        device->held = !device->pins.hold; /* the edge acts by the old held value, then held is renewed */
    }
}

void plain_d(cartvesper_device *device, int level)
{
    device->pins.d = (uint8_t)level;
}

void plain_w(cartvesper_device *device, int level)
{
    device->pins.w = (uint8_t)level;
}

void plain_hold(cartvesper_device *device, int level)
{
    device->pins.hold = (uint8_t)level;
    if (!device->pins.s && !device->pins.c)
        device->held = !level;
}

void plain_device_time(cartvesper_device *device, uint8_t *memory, uint8_t *identification, uint32_t reading)
{
    plain_time(&device->core, memory, identification, reading);
}

/* the pins and the frame are power-up's, whatever they were: a frame in hand is dropped */
void plain_device_cut(cartvesper_device *device, uint8_t *memory, uint8_t *identification,
                      const cartvesper_choice *choice)
{
    cartvesper_core *core = &device->core;
    plain_cut(core, memory, identification, choice);
    plain_device_power_up(device, core->part, core->lock, core->cycle, core->srwd, core->bp1, core->bp0, core->last,
                          core->blank);
}

int plain_q(const cartvesper_device *device)
{
    /* in this order, or gcc loads S and held in one word and waits for the byte that was just stored */
    if (device->pins.s || device->frame.shown == 0 || device->held)
        return Z;
    return device->frame.out >> (8 - device->frame.shown) & 1;
}

void plain_event(cartvesper_device *device, uint8_t *memory, uint8_t *identification, uint64_t event)
{
    int level = event & 1;
    switch (event >> 32 & 7) {
    case 0:
        plain_s(device, level);
        break;
    case 1:
        plain_c(device, level, memory, identification);
        break;
    case 2:
        plain_d(device, level);
        break;
    case 3:
        plain_w(device, level);
        break;
    case 4:
        plain_hold(device, level);
        break;
    default:
        plain_device_time(device, memory, identification, (uint32_t)event);
        break;
    }
}

void plain_play(cartvesper_device *device, uint8_t *memory, uint8_t *identification, const uint64_t *events,
                size_t count, uint8_t *out)
{
    for (size_t i = 0; i < count; i++) {
        plain_event(device, memory, identification, events[i]);
        out[i] = (uint8_t)plain_q(device);
    }
}

/* ---- laying: 02, Item 10. Each cell is wholly the one's or wholly the other's, byte and mark; no part is asked */

void plain_lay(cartvesper_latch *laid, const cartvesper_latch *earlier, const cartvesper_latch *later)
{
    memset(laid, 0, sizeof *laid);
    for (size_t i = 0; i < CELLS; i++) {
        const cartvesper_latch *winner = cartvesper_marked(later, i) ? later : earlier;
        if (!cartvesper_marked(winner, i))
            continue;
        laid->bytes[i] = winner->bytes[i];
        laid->marks[i / WORD] |= 1ULL << i % WORD;
    }
}

/* ---- the driver: 01 "The driver", reading "Driver and split" */

typedef struct {
    cartvesper_core *core;
    uint8_t *memory, *identification;
    uint32_t interval, limit, frames;
} driver_run;

static void send(driver_run *run, const uint8_t *bytes, size_t length, uint8_t *out)
{
    /* W does not matter */
    plain_frame(run->core, run->memory, run->identification, 1, bytes, length, 8 * length, out);
    run->frames++;
}

static uint8_t poll(driver_run *run)
{
    static const uint8_t rdsr[2] = {RDSR, 0};
    uint8_t out[2];
    send(run, rdsr, sizeof rdsr, out);
    return out[1];
}

/* polls until WIP is 0 or the limit is used, and gives the last one's status; the first wait's first poll does not
 * move the clock */
static uint8_t wait_for_wip(driver_run *run, int first_wait)
{
    uint8_t status = 0;
    for (uint32_t polls = 0; polls < run->limit; polls++) {
        if (!first_wait || polls > 0)
            plain_time(run->core, run->memory, run->identification, run->core->last + run->interval);
        status = poll(run);
        if (!(status & 0x01))
            break;
    }
    return status;
}

static uint8_t write_page(driver_run *run, uint32_t address, const uint8_t *bytes, size_t length)
{
    static const uint8_t wren[1] = {WREN};
    uint32_t head = head_of(row_of(run->core->part));
    uint8_t frame[HEAD + CELLS], out[HEAD + CELLS];
    frame[0] = WRITE;
    for (uint32_t i = 1; i < head; i++)
        frame[i] = (uint8_t)(address >> 8 * (head - 1 - i));
    memcpy(frame + head, bytes, length);
    send(run, wren, sizeof wren, out);
    send(run, frame, head + length, out);
    return wait_for_wip(run, 0);
}

uint32_t plain_write(cartvesper_core *core, uint8_t *memory, uint8_t *identification, uint32_t address,
                     const uint8_t *bytes, size_t length, uint32_t interval, uint32_t limit, uint32_t *pages,
                     uint32_t *frames)
{
    const plain_row *row = row_of(core->part);
    driver_run run = {core, memory, identification, interval, limit, 0};
    uint32_t number = 0;
    *pages = 0;
    if (length > 0) {
        uint8_t status = wait_for_wip(&run, 1);
        if (status & 0x01)
            number = 9;
        else if (address + length > lowest_by(row, status >> 2 & 3))
            number = 13;
    }
    while (length > 0 && number == 0) {
        size_t part = row->page - cell_of(row, address);
        if (part > length)
            part = length;
        number = write_page(&run, address, bytes, part) & 0x01 ? 9 : 0;
        *pages += number == 0;
        address += (uint32_t)part;
        bytes += part;
        length -= part;
    }
    *frames = run.frames;
    return number;
}

/* ---- the split: the parts one after the other, as a person would cut the run */

static int run_fits(const plain_row *row, uint64_t address, uint64_t length)
{
    return address <= row->size && length <= row->size && address + length <= row->size;
}

typedef struct {
    uint64_t refusal, count, address, length;
} split_answer;

static split_answer split(uint8_t chip, uint64_t address, uint64_t length, uint64_t part)
{
    const plain_row *row = row_of(chip);
    split_answer answer = {7, 0, 0, 0}, none = answer;
    if (!run_fits(row, address, length))
        return none;
    for (uint64_t k = 0; length > 0; k++) {
        uint64_t here = row->page - address % row->page;
        if (here > length)
            here = length;
        if (k == part) {
            answer.refusal = 0;
            answer.address = address;
            answer.length = here;
        }
        answer.count++;
        address += here;
        length -= here;
    }
    return answer.refusal ? none : answer;
}

uint64_t plain_part_refusal(uint8_t chip, uint64_t address, uint64_t length, uint64_t part)
{
    return split(chip, address, length, part).refusal;
}

uint64_t plain_part_count(uint8_t chip, uint64_t address, uint64_t length, uint64_t part)
{
    return split(chip, address, length, part).count;
}

uint64_t plain_part_address(uint8_t chip, uint64_t address, uint64_t length, uint64_t part)
{
    return split(chip, address, length, part).address;
}

uint64_t plain_part_length(uint8_t chip, uint64_t address, uint64_t length, uint64_t part)
{
    return split(chip, address, length, part).length;
}

/* ---- every input answered */

/* every part is lent an identification page, and its length shares the memory's refusal */
static int lent_ok(const cartvesper_core *core, size_t size, size_t cells)
{
    const plain_row *row = row_of(core->part);
    return size == row->size && cells == row->page;
}

/* the memory alone is lent, to be counted */
static uint32_t power_up_refusal(uint8_t part, uint8_t lock, uint32_t cycle, uint8_t srwd, uint8_t bp1, uint8_t bp0,
                                 size_t size)
{
    if (size != row_of(part)->size)
        return 1;
    if (part >= PLAIN_PARTS || lock > 1 || srwd > 1 || bp1 > 1 || bp0 > 1)
        return 2;
    return cycle < 1 || cycle > row_of(part)->longest_cycle ? 6 : 0;
}

cartvesper_core_answer plain_power_up_call(uint8_t part, uint8_t lock, uint32_t cycle, uint8_t srwd, uint8_t bp1,
                                           uint8_t bp0, uint32_t reading, const uint8_t *memory, size_t size)
{
    cartvesper_core_answer answer;
    answer.number = power_up_refusal(part, lock, cycle, srwd, bp1, bp0, size);
    if (answer.number) /* as delivered, but that nothing was counted */
        plain_core_power_up(&answer.core, M95512, 0, rows[M95512].longest_cycle, 0, 0, 0, 0, 0);
    else
        plain_core_power_up(&answer.core, part, lock, cycle, srwd, bp1, bp0, reading, plain_blank(memory, size));
    return answer;
}

cartvesper_core_answer plain_clock_reading_call(cartvesper_core core, uint32_t reading, uint8_t *memory, size_t size,
                                                uint8_t *identification, size_t cells)
{
    cartvesper_core_answer answer = {!lent_ok(&core, size, cells) ? 1 : !plain_core_ok(&core) ? 2 : 0, core};
    if (answer.number == 0)
        plain_time(&answer.core, memory, identification, reading);
    return answer;
}

cartvesper_core_answer plain_cut_call(cartvesper_core core, cartvesper_choice choice, uint8_t *memory, size_t size,
                                      uint8_t *identification, size_t cells)
{
    cartvesper_core_answer answer = {!lent_ok(&core, size, cells) ? 1 : !plain_core_ok(&core) ? 2 : 0, core};
    if (answer.number == 0)
        plain_cut(&answer.core, memory, identification, &choice);
    return answer;
}

static uint32_t frame_refusal(const cartvesper_core *core, size_t size, size_t cells, uint8_t w, size_t length,
                              size_t bits, size_t room)
{
    if (!lent_ok(core, size, cells))
        return 1;
    if (!plain_core_ok(core) || w > 1)
        return 2;
    if (length > plain_longest_frame(row_of(core->part)))
        return 3;
    if (length == 0 ? bits != 0 : bits < 8 * length - 7 || bits > 8 * length)
        return 4;
    return room != length ? 5 : 0;
}

cartvesper_frame_answer plain_frame_call(cartvesper_core core, const uint8_t *memory, size_t size,
                                         const uint8_t *identification, size_t cells, uint8_t w, const uint8_t *bytes,
                                         size_t length, size_t bits, uint8_t *out, size_t room)
{
    cartvesper_frame_answer answer = {frame_refusal(&core, size, cells, w, length, bits, room), 0, core};
    if (answer.number == 0)
        answer.undriven = plain_frame(&answer.core, memory, identification, w, bytes, length, bits, out);
    return answer;
}

int plain_schedule_ok(size_t bits, const size_t *positions, size_t places, size_t times)
{
    if (places != times)
        return 0;
    for (size_t i = 0; i < places; i++)
        if (positions[i] > bits / 8 || (i > 0 && positions[i] < positions[i - 1]))
            return 0;
    return 1;
}

cartvesper_frame_answer plain_timed_frame_call(cartvesper_core core, uint8_t *memory, size_t size,
                                               uint8_t *identification, size_t cells, uint8_t w, uint8_t mode,
                                               const uint8_t *bytes, size_t length, size_t bits,
                                               const size_t *positions, size_t places, const uint32_t *readings,
                                               size_t times, uint8_t *out, size_t room)
{
    uint8_t level = mode == 0 || mode == 3 ? w : 2; /* a mode that is none is refused as a level that is none */
    cartvesper_frame_answer answer = {frame_refusal(&core, size, cells, level, length, bits, room), 0, core};
    plain_schedule schedule = {positions, readings, places};
    if ((answer.number == 0 || answer.number == 5) && !plain_schedule_ok(bits, positions, places, times))
        answer.number = 4;
    if (answer.number == 0)
        answer.undriven = plain_timed_frame(&answer.core, memory, identification, w, mode, bytes, length, bits,
                                            schedule, out);
    return answer;
}

static cartvesper_value value_or_2(int ok, uint32_t value)
{
    cartvesper_value answer = {ok ? 0 : 2, ok ? value : 0};
    return answer;
}

cartvesper_value plain_core_in_ranges_call(cartvesper_core core)
{
    return value_or_2(plain_core_ok(&core), 1);
}

cartvesper_value plain_core_status_call(cartvesper_core core)
{
    return value_or_2(plain_core_ok(&core), plain_status(&core));
}

cartvesper_value plain_core_lowest_protected_call(cartvesper_core core)
{
    return value_or_2(plain_core_ok(&core), plain_lowest_protected(&core));
}

cartvesper_value plain_core_protected_call(cartvesper_core core, uint32_t address)
{
    cartvesper_value above = {7, 0};
    if (plain_core_ok(&core) && address >= row_of(core.part)->size)
        return above;
    return value_or_2(plain_core_ok(&core), (uint32_t)plain_protected(&core, address));
}

cartvesper_value plain_core_touched_call(cartvesper_core core)
{
    return value_or_2(plain_core_ok(&core), plain_touched(&core));
}

cartvesper_device_answer plain_device_power_up_call(uint8_t part, uint8_t lock, uint32_t cycle, uint8_t srwd,
                                                    uint8_t bp1, uint8_t bp0, uint32_t reading, const uint8_t *memory,
                                                    size_t size)
{
    cartvesper_device_answer answer;
    answer.number = power_up_refusal(part, lock, cycle, srwd, bp1, bp0, size);
    if (answer.number)
        plain_device_power_up(&answer.device, M95512, 0, rows[M95512].longest_cycle, 0, 0, 0, 0, 0);
    else
        plain_device_power_up(&answer.device, part, lock, cycle, srwd, bp1, bp0, reading, plain_blank(memory, size));
    return answer;
}

static uint32_t level_refusal(const cartvesper_device *device, uint8_t level)
{
    return plain_device_ok(device) && level <= 1 ? 0 : 2;
}

cartvesper_device_answer plain_device_set_s_call(cartvesper_device device, uint8_t level)
{
    cartvesper_device_answer answer = {level_refusal(&device, level), device};
    if (answer.number == 0)
        plain_s(&answer.device, level);
    return answer;
}

cartvesper_device_answer plain_device_set_c_call(cartvesper_device device, uint8_t level, const uint8_t *memory,
                                                 size_t size, const uint8_t *identification, size_t cells)
{
    cartvesper_device_answer answer = {!lent_ok(&device.core, size, cells) ? 1 : level_refusal(&device, level), device};
    if (answer.number == 0)
        plain_c(&answer.device, level, memory, identification);
    return answer;
}

cartvesper_device_answer plain_device_set_d_call(cartvesper_device device, uint8_t level)
{
    cartvesper_device_answer answer = {level_refusal(&device, level), device};
    if (answer.number == 0)
        plain_d(&answer.device, level);
    return answer;
}

cartvesper_device_answer plain_device_set_w_call(cartvesper_device device, uint8_t level)
{
    cartvesper_device_answer answer = {level_refusal(&device, level), device};
    if (answer.number == 0)
        plain_w(&answer.device, level);
    return answer;
}

cartvesper_device_answer plain_device_set_hold_call(cartvesper_device device, uint8_t level)
{
    cartvesper_device_answer answer = {level_refusal(&device, level), device};
    if (answer.number == 0)
        plain_hold(&answer.device, level);
    return answer;
}

cartvesper_device_answer plain_device_read_clock_call(cartvesper_device device, uint32_t reading, uint8_t *memory,
                                                      size_t size, uint8_t *identification, size_t cells)
{
    cartvesper_device_answer answer = {!lent_ok(&device.core, size, cells) ? 1 : !plain_device_ok(&device) ? 2 : 0,
                                       device};
    if (answer.number == 0)
        plain_device_time(&answer.device, memory, identification, reading);
    return answer;
}

cartvesper_device_answer plain_device_cut_call(cartvesper_device device, cartvesper_choice choice, uint8_t *memory,
                                               size_t size, uint8_t *identification, size_t cells)
{
    cartvesper_device_answer answer = {!lent_ok(&device.core, size, cells) ? 1 : !plain_device_ok(&device) ? 2 : 0,
                                       device};
    if (answer.number == 0)
        plain_device_cut(&answer.device, memory, identification, &choice);
    return answer;
}

cartvesper_value plain_device_q_call(cartvesper_device device)
{
    if (!plain_device_ok(&device)) /* before Q: bits shown may be above 8 */
        return value_or_2(0, 0);
    return value_or_2(1, (uint32_t)plain_q(&device));
}

cartvesper_value plain_device_status_call(cartvesper_device device)
{
    return value_or_2(plain_device_ok(&device), plain_status(&device.core));
}

cartvesper_value plain_device_touched_call(cartvesper_device device)
{
    return value_or_2(plain_device_ok(&device), plain_touched(&device.core));
}

cartvesper_value plain_device_in_ranges_call(cartvesper_device device)
{
    return value_or_2(plain_device_ok(&device), 1);
}

/* a level above 1, a kind above 5 and anything above the kind are no event */
static int is_event(uint64_t event)
{
    uint32_t kind = event >> 32 & 7, value = (uint32_t)event;
    if (event >> 35 != 0 || kind > 5)
        return 0;
    return kind == 5 || value <= 1;
}

uint32_t plain_play_refusal(const cartvesper_device *device, size_t size, size_t cells, const uint64_t *events,
                            size_t count, size_t room)
{
    if (!lent_ok(&device->core, size, cells))
        return 1;
    if (!plain_device_ok(device))
        return 2;
    for (size_t i = 0; i < count; i++)
        if (!is_event(events[i]))
            return 2;
    return room != count ? 5 : 0;
}

cartvesper_device_answer plain_device_play_call(cartvesper_device device, uint8_t *memory, size_t size,
                                                uint8_t *identification, size_t cells, const uint64_t *events,
                                                size_t count, uint8_t *out, size_t room)
{
    cartvesper_device_answer answer = {plain_play_refusal(&device, size, cells, events, count, room), device};
    if (answer.number == 0)
        plain_play(&answer.device, memory, identification, events, count, out);
    return answer;
}

cartvesper_latch_answer plain_lay_call(cartvesper_latch earlier, cartvesper_latch later)
{
    cartvesper_latch_answer answer = {plain_latch_ok(&earlier) && plain_latch_ok(&later) ? 0 : 2, earlier};
    if (answer.number == 0)
        plain_lay(&answer.latch, &earlier, &later);
    return answer;
}

static uint32_t write_refusal(const cartvesper_core *core, size_t size, size_t cells, uint64_t address, size_t length,
                              uint32_t interval, uint32_t limit)
{
    const plain_row *row = row_of(core->part);
    if (!lent_ok(core, size, cells))
        return 1;
    if (!plain_core_ok(core))
        return 2;
    if (!run_fits(row, address, length))
        return 7;
    return interval < 1 || interval > row->longest_cycle || limit < 1 || limit > plain_most_polls(row) ? 8 : 0;
}

cartvesper_driver_answer plain_write_call(cartvesper_core core, uint8_t *memory, size_t size, uint8_t *identification,
                                          size_t cells, uint64_t address, const uint8_t *bytes, size_t length,
                                          uint32_t interval, uint32_t limit)
{
    cartvesper_driver_answer answer = {write_refusal(&core, size, cells, address, length, interval, limit), 0, 0, core};
    if (answer.number == 0)
        answer.number = plain_write(&answer.core, memory, identification, (uint32_t)address, bytes, length, interval,
                                    limit, &answer.pages, &answer.frames);
    return answer;
}
