/* A plain C model of the M95512, the M95512-D and the M95M01 in the C record types of cartvesper.h, updated in place:
 * the frame level and the pin level, written from the papers and their reading alone, and laying, the driver and the
 * split, written from the papers with the proved ones known. The functions without `_call` trust their caller (a record
 * inside its ranges, memory and identification page of its part's length, levels 0 or 1); the `_call` functions answer
 * every input as cartvesper.h says. */
#ifndef PLAIN_H
#define PLAIN_H
#include "cartvesper.h"

/* ---- the parts: a row for each */

typedef struct {
    uint32_t size, page;    /* cells of the memory; of a page, and of the identification page. Powers of two */
    uint32_t address_bytes; /* after the code */
    uint32_t most;          /* where the count of whole bytes taken stays */
    uint32_t longest_cycle; /* microseconds */
    int identified;         /* it has an identification page and a lock */
    int wrdi_in_cycle;      /* WRDI is executed in a cycle too */
} plain_row;

enum { PLAIN_PARTS = 3 };

const plain_row *plain_row_of(uint8_t part); /* a number that is none reads the M95512's row */
uint32_t plain_head(const plain_row *row);   /* bytes before the data: the code and the address */
uint32_t plain_longest_frame(const plain_row *row);
uint32_t plain_most_polls(const plain_row *row);

/* ---- both levels */

int plain_latch_same(const cartvesper_latch *one, const cartvesper_latch *other);
int plain_core_same(const cartvesper_core *one, const cartvesper_core *other); /* in every field */
int plain_latch_ok(const cartvesper_latch *latch); /* of laying, whatever the part: unmarked bytes are 0 */
int plain_core_ok(const cartvesper_core *core);
int plain_device_ok(const cartvesper_device *device);
uint8_t plain_status(const cartvesper_core *core);
uint32_t plain_lowest_protected(const cartvesper_core *core); /* the memory's size where nothing is protected */
int plain_protected(const cartvesper_core *core, uint32_t address);
uint32_t plain_touched(const cartvesper_core *core); /* cells that the running cycle will touch */
uint32_t plain_blank(const uint8_t *memory, size_t size); /* FFh cells of a memory, by looking at each */

/* ---- the frame level */

/* `blank` is the number for the memory, by plain_blank */
void plain_core_power_up(cartvesper_core *core, int part, int lock, uint32_t cycle, int srwd, int bp1, int bp0,
                         uint32_t reading, uint32_t blank);
void plain_time(cartvesper_core *core, uint8_t *memory, uint8_t *identification, uint32_t reading);
/* a supply cut and return */
void plain_cut(cartvesper_core *core, uint8_t *memory, uint8_t *identification, const cartvesper_choice *choice);
/* a whole frame; out has the slice's length; gives back how many leading bits were undriven */
uint64_t plain_frame(cartvesper_core *core, const uint8_t *memory, const uint8_t *identification, int w,
                     const uint8_t *bytes, size_t length, size_t bits, uint8_t *out);
/* the readings of a frame, each after so many whole bytes */
typedef struct {
    const size_t *positions;
    const uint32_t *readings;
    size_t count;
} plain_schedule;
/* as many positions as readings, none that falls, none beyond the frame's whole bytes */
int plain_schedule_ok(size_t bits, const size_t *positions, size_t places, size_t times);
/* the same with readings inside it, byte by byte; mode is 0 or 3 */
uint64_t plain_timed_frame(cartvesper_core *core, uint8_t *memory, uint8_t *identification, int w, int mode,
                           const uint8_t *bytes, size_t length, size_t bits, plain_schedule schedule, uint8_t *out);

/* ---- the pin level */

void plain_device_power_up(cartvesper_device *device, int part, int lock, uint32_t cycle, int srwd, int bp1, int bp0,
                           uint32_t reading, uint32_t blank);
void plain_s(cartvesper_device *device, int level);
void plain_c(cartvesper_device *device, int level, const uint8_t *memory, const uint8_t *identification);
void plain_d(cartvesper_device *device, int level);
void plain_w(cartvesper_device *device, int level);
void plain_hold(cartvesper_device *device, int level);
void plain_device_time(cartvesper_device *device, uint8_t *memory, uint8_t *identification, uint32_t reading);
void plain_device_cut(cartvesper_device *device, uint8_t *memory, uint8_t *identification,
                      const cartvesper_choice *choice);
int plain_q(const cartvesper_device *device); /* 0, 1, or 2 for Z */
/* one event, or a list of them, as cartvesper_device_play writes them; out gets Q after each */
void plain_event(cartvesper_device *device, uint8_t *memory, uint8_t *identification, uint64_t event);
void plain_play(cartvesper_device *device, uint8_t *memory, uint8_t *identification, const uint64_t *events,
                size_t count, uint8_t *out);
/* what a list is refused by before anything is played: 1, 2, 5, or 0 */
uint32_t plain_play_refusal(const cartvesper_device *device, size_t size, size_t cells, const uint64_t *events,
                            size_t count, size_t room);

/* ---- page writes */

/* the later laid over the earlier, into a third */
void plain_lay(cartvesper_latch *laid, const cartvesper_latch *earlier, const cartvesper_latch *later);

/* ---- the driver and the split */

/* a run that lies in the memory, with interval and limit in range; gives back 0, 9 or 13 */
uint32_t plain_write(cartvesper_core *core, uint8_t *memory, uint8_t *identification, uint32_t address,
                     const uint8_t *bytes, size_t length, uint32_t interval, uint32_t limit, uint32_t *pages,
                     uint32_t *frames);
/* the four numbers, for any chip, address, length and part */
uint64_t plain_part_refusal(uint8_t chip, uint64_t address, uint64_t length, uint64_t part);
uint64_t plain_part_count(uint8_t chip, uint64_t address, uint64_t length, uint64_t part);
uint64_t plain_part_address(uint8_t chip, uint64_t address, uint64_t length, uint64_t part);
uint64_t plain_part_length(uint8_t chip, uint64_t address, uint64_t length, uint64_t part);

/* ---- every input answered, call by call as cartvesper.h */

cartvesper_core_answer plain_power_up_call(uint8_t part, uint8_t lock, uint32_t cycle, uint8_t srwd, uint8_t bp1,
                                           uint8_t bp0, uint32_t reading, const uint8_t *memory, size_t size);
cartvesper_core_answer plain_clock_reading_call(cartvesper_core core, uint32_t reading, uint8_t *memory, size_t size,
                                                uint8_t *identification, size_t cells);
cartvesper_core_answer plain_cut_call(cartvesper_core core, cartvesper_choice choice, uint8_t *memory, size_t size,
                                      uint8_t *identification, size_t cells);
cartvesper_frame_answer plain_frame_call(cartvesper_core core, const uint8_t *memory, size_t size,
                                         const uint8_t *identification, size_t cells, uint8_t w, const uint8_t *bytes,
                                         size_t length, size_t bits, uint8_t *out, size_t room);
cartvesper_frame_answer plain_timed_frame_call(cartvesper_core core, uint8_t *memory, size_t size,
                                               uint8_t *identification, size_t cells, uint8_t w, uint8_t mode,
                                               const uint8_t *bytes, size_t length, size_t bits,
                                               const size_t *positions, size_t places, const uint32_t *readings,
                                               size_t times, uint8_t *out, size_t room);
cartvesper_value plain_core_in_ranges_call(cartvesper_core core);
cartvesper_value plain_core_status_call(cartvesper_core core);
cartvesper_value plain_core_lowest_protected_call(cartvesper_core core);
cartvesper_value plain_core_protected_call(cartvesper_core core, uint32_t address);
cartvesper_value plain_core_touched_call(cartvesper_core core);

cartvesper_device_answer plain_device_power_up_call(uint8_t part, uint8_t lock, uint32_t cycle, uint8_t srwd,
                                                    uint8_t bp1, uint8_t bp0, uint32_t reading, const uint8_t *memory,
                                                    size_t size);
cartvesper_device_answer plain_device_set_s_call(cartvesper_device device, uint8_t level);
cartvesper_device_answer plain_device_set_c_call(cartvesper_device device, uint8_t level, const uint8_t *memory,
                                                 size_t size, const uint8_t *identification, size_t cells);
cartvesper_device_answer plain_device_set_d_call(cartvesper_device device, uint8_t level);
cartvesper_device_answer plain_device_set_w_call(cartvesper_device device, uint8_t level);
cartvesper_device_answer plain_device_set_hold_call(cartvesper_device device, uint8_t level);
cartvesper_device_answer plain_device_read_clock_call(cartvesper_device device, uint32_t reading, uint8_t *memory,
                                                      size_t size, uint8_t *identification, size_t cells);
cartvesper_device_answer plain_device_cut_call(cartvesper_device device, cartvesper_choice choice, uint8_t *memory,
                                               size_t size, uint8_t *identification, size_t cells);
cartvesper_value plain_device_q_call(cartvesper_device device);
cartvesper_value plain_device_status_call(cartvesper_device device);
cartvesper_value plain_device_touched_call(cartvesper_device device);
cartvesper_value plain_device_in_ranges_call(cartvesper_device device);
cartvesper_device_answer plain_device_play_call(cartvesper_device device, uint8_t *memory, size_t size,
                                                uint8_t *identification, size_t cells, const uint64_t *events,
                                                size_t count, uint8_t *out, size_t room);

cartvesper_latch_answer plain_lay_call(cartvesper_latch earlier, cartvesper_latch later);
cartvesper_driver_answer plain_write_call(cartvesper_core core, uint8_t *memory, size_t size, uint8_t *identification,
                                          size_t cells, uint64_t address, const uint8_t *bytes, size_t length,
                                          uint32_t interval, uint32_t limit);
#endif
