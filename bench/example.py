# The library from Python: the records as ctypes structures, a WRITE by frames, a poll with clock readings inside it, a
# run of the driver, the number of blank cells, two retries in a row, the M95512-D's lock, and an M95M01. Argument: the
# shared object (docs/LINKING.md says how to make it from the archive).
import ctypes
import sys
from ctypes import POINTER, Structure, c_size_t, c_uint8, c_uint32, c_uint64

M95512, M95512D, M95M01 = 0, 1, 2


class Latch(Structure):
    _fields_ = [("bytes", c_uint8 * 256), ("marks", c_uint64 * 4)]  # cell i: bit i % 64 of word i / 64


class Waiting(Structure):
    _fields_ = [("kind", c_uint8), ("status", c_uint8), ("page", c_uint32), ("latch", Latch)]


class Core(Structure):
    _fields_ = [("part", c_uint8), ("lock", c_uint8), ("srwd", c_uint8), ("bp1", c_uint8), ("bp0", c_uint8),
                ("wel", c_uint8), ("cycle", c_uint32), ("left", c_uint32), ("last", c_uint32), ("blank", c_uint32),
                ("waits", Waiting)]


class CoreAnswer(Structure):
    _fields_ = [("number", c_uint32), ("core", Core)]


class FrameAnswer(Structure):
    _fields_ = [("number", c_uint32), ("undriven", c_uint64), ("core", Core)]


class LatchAnswer(Structure):
    _fields_ = [("number", c_uint32), ("latch", Latch)]


class DriverAnswer(Structure):
    _fields_ = [("number", c_uint32), ("pages", c_uint32), ("frames", c_uint32), ("core", Core)]


class Value(Structure):
    _fields_ = [("number", c_uint32), ("value", c_uint32)]


# the sizes of version 5 of the records (docs/LINKING.md)
RECORDS = [(Latch, 288), (Core, 320), (CoreAnswer, 328), (FrameAnswer, 336), (LatchAnswer, 296), (DriverAnswer, 336),
           (Value, 8)]
assert all(ctypes.sizeof(record) == size for record, size in RECORDS)
assert (Core.blank.offset, Core.waits.offset) == (20, 24)

BYTES = POINTER(c_uint8)
library = ctypes.CDLL(sys.argv[1])
power_up, reading = library.cartvesper_power_up, library.cartvesper_clock_reading
frame, write = library.cartvesper_frame, library.cartvesper_write
timed_frame = library.cartvesper_timed_frame
touched, lay = library.cartvesper_core_touched, library.cartvesper_lay
LENT = [BYTES, c_size_t, BYTES, c_size_t]  # the memory, the identification page
power_up.restype = CoreAnswer
power_up.argtypes = [c_uint8, c_uint8, c_uint32, c_uint8, c_uint8, c_uint8, c_uint32, BYTES, c_size_t]
reading.restype, reading.argtypes = CoreAnswer, [Core, c_uint32, *LENT]
frame.restype = FrameAnswer
frame.argtypes = [Core, *LENT, c_uint8, BYTES, c_size_t, c_size_t, BYTES, c_size_t]
timed_frame.restype = FrameAnswer
timed_frame.argtypes = [Core, *LENT, c_uint8, c_uint8, BYTES, c_size_t, c_size_t, POINTER(c_size_t), c_size_t,
                        POINTER(c_uint32), c_size_t, BYTES, c_size_t]
touched.restype, touched.argtypes = Value, [Core]
lay.restype, lay.argtypes = LatchAnswer, [Latch, Latch]
write.restype, write.argtypes = DriverAnswer, [Core, *LENT, c_uint64, BYTES, c_size_t, c_uint32, c_uint32]



def cells(size, page):
    """Memory and identification page as the calls are lent them, every byte FFh."""
    return (c_uint8 * size)(*[0xFF] * size), size, (c_uint8 * page)(*[0xFF] * page), page


lent = cells(65536, 128)
memory = lent[0]


def send(core, values, lent=lent):
    """A whole frame with W high; the device that follows, and what Q showed."""
    sent, out = (c_uint8 * len(values))(*values), (c_uint8 * len(values))()
    answer = frame(core, *lent, 1, sent, len(values), 8 * len(values), out, len(values))
    assert answer.number == 0, answer.number
    return answer.core, bytes(out)


core = power_up(M95512, 0, 5000, 0, 0, 0, 0, memory, 65536).core  # counts the blank cells
delivered = core.blank
core, _ = send(core, [0x06])
core, _ = send(core, [0x02, 0x00, 0x7E, 0x11, 0x22, 0x33, 0x44])
core, out = send(core, [0x05, 0x00])
marked = [i for i in range(256) if core.waits.latch.marks[i // 64] >> i % 64 & 1]
print("status", out[1:].hex(), "cells to be touched", touched(core).value, marked)
page_write = Latch.from_buffer_copy(core.waits.latch)
core = reading(core, 5000, *lent).core
core, out = send(core, [0x03, 0x00, 0x7E, 0, 0])
print("READ at 007E", out[3:].hex(), "cells to be touched", touched(core).value)



def long_poll(core, mode, times):
    """One RDSR of seven status bytes, the clock read after each whole byte; its answer, and what Q showed."""
    sent, out = (c_uint8 * 8)(0x05), (c_uint8 * 8)()
    places = (c_size_t * 7)(*range(1, 8))
    readings = (c_uint32 * times)(*[core.last + 1000 * (i + 1) for i in range(times)])
    return timed_frame(core, *lent, 1, mode, sent, 8, 64, places, 7, readings, times, out, 8), bytes(out)


for mode in (0, 3):  # the cycle's 5,000 microseconds end inside the frame
    core, _ = send(core, [0x06])
    core, _ = send(core, [0x02, 0x00, 0x7E, 0x12 + mode])
    polled, out = long_poll(core, mode, 7)
    core = polled.core
    print("mode", mode, "RDSR", out[1:].hex(), "cell 007E", bytes(memory[0x7E:0x7F]).hex())
print("a reading too few", long_poll(core, 0, 6)[0].number, "mode 1", long_poll(core, 1, 7)[0].number)

run = (c_uint8 * 300)(*[i % 251 for i in range(300)])
done = write(core, *lent, 100, run, 300, 1000, 5001)
print("driver", done.number, done.pages, done.frames, bytes(memory[100:400]) == bytes(run))
print("blank cells", delivered, "then", done.core.blank, "by a scan", bytes(memory).count(0xFF))
twice = lay(page_write, page_write)
print("laid twice", twice.number, "as once", bytes(twice.latch) == bytes(page_write))
once = bytes(memory)
done = write(done.core, *lent, 100, run, 300, 700, 5001)
print("sent twice", done.number, done.pages, done.frames, "the memory of one", bytes(memory) == once)
guarded = power_up(M95512, 0, 5000, 0, 0, 1, 0, memory, 65536).core  # BP0: C000h and above is protected
refused = write(guarded, *lent, 0xBFFF, run, 2, 1000, 5001)
print("into the protected block", refused.number, refused.pages, refused.frames)
damaged = done.core
damaged.wel = 2
page_write.bytes[2] = 1  # not marked
print("a record outside its ranges", reading(damaged, 0, *lent).number, touched(damaged).number,
      lay(page_write, page_write).number)

other = power_up(M95512D, 0, 5000, 0, 0, 0, 0, memory, 65536).core
other, open_lock = send(other, [0x83, 0x04, 0x00, 0])  # address bit 10: the lock
other, _ = send(other, [0x06])
other, _ = send(other, [0x82, 0x04, 0x00, 0x02])  # data bit 1 sets it
other = reading(other, 5000, *lent).core
other, lock = send(other, [0x83, 0x04, 0x00, 0])
other, _ = send(other, [0x06])
other, _ = send(other, [0x82, 0x00, 0x00, 0x2A])  # to the page: ignored from now on
other, out = send(other, [0x05, 0x00])
print("M95512-D: lock", open_lock[3:].hex(), "then", lock[3:].hex(), "in the record", other.lock,
      "status", out[1:].hex())

large_lent = cells(131072, 256)
large = power_up(M95M01, 0, 4000, 0, 0, 0, 0, *large_lent[:2]).core
done = write(large, *large_lent, 0x100FF, run, 2, 1000, 4001)  # over a page's edge above FFFFh
large, out = send(done.core, [0x03, 0x01, 0x00, 0xFF, 0, 0], large_lent)  # three address bytes
print("M95M01: driver", done.number, done.pages, done.frames, "READ at 100FF", out[4:].hex())
large, _ = send(large, [0x06], large_lent)
large, _ = send(large, [0x02, 0x01, 0x00, 0xFF, 0x11, 0x22], large_lent)
large, before = send(large, [0x05, 0x00], large_lent)
large, _ = send(large, [0x04], large_lent)  # WRDI works in a cycle too: WEL 0, and the cycle runs on
large, after = send(large, [0x05, 0x00], large_lent)
large = reading(large, large.last + 4000, *large_lent).core
print("WRDI in a cycle: status", before[1:].hex(), "then", after[1:].hex(), "cells 100FF and 10000",
      bytes([large_lent[0][0x100FF], large_lent[0][0x10000]]).hex())
print("blank cells", large.blank, "by a scan", bytes(large_lent[0]).count(0xFF))
print("cycle length 5000:", power_up(M95M01, 0, 5000, 0, 0, 0, 0, *large_lent[:2]).number, "the M95512's lengths:",
      power_up(M95M01, 0, 4000, 0, 0, 0, 0, memory, 65536).number, reading(large, 0, *lent).number)
