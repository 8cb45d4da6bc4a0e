// The library from C++: the driver writes a run, a poll sees the end of a cycle, and a list of pin events reads the
// first cell back.
#include "cartvesper.h"
#include <algorithm>
#include <cstdio>
#include <vector>

static void frame_bit(std::vector<uint64_t> &events, bool bit) {
    events.push_back(cartvesper_event(CARTVESPER_EVENT_D, bit));
    events.push_back(cartvesper_event(CARTVESPER_EVENT_C, 1));
    events.push_back(cartvesper_event(CARTVESPER_EVENT_C, 0));
}

int main() {
    std::vector<uint8_t> memory(CARTVESPER_MEMORY, 0xFF), identification(CARTVESPER_IDENTIFICATION, 0xFF);
    const uint8_t bytes[] = {0x2A, 0x2B};
    auto powered = cartvesper_power_up(CARTVESPER_M95512, 0, CARTVESPER_LONGEST_CYCLE, 0, 0, 0, 0, memory.data(),
                                       memory.size());
    auto run = cartvesper_write(powered.core, memory.data(), memory.size(), identification.data(),
                                identification.size(), 0x007F, bytes, sizeof bytes, 1000, CARTVESPER_MOST_POLLS);
    std::printf("driver: number %u, pages %u, frames %u, blank cells %u then %u, by a scan %u\n", run.number, run.pages,
                run.frames, powered.core.blank, run.core.blank,
                static_cast<unsigned>(std::count(memory.begin(), memory.end(), 0xFF)));

    // one poll does not see the end of the cycle: the page part waits in the record
    auto late = cartvesper_write(run.core, memory.data(), memory.size(), identification.data(), identification.size(),
                                 0x0100, bytes, sizeof bytes, 1000, 1);
    std::printf("limit 1: number %u, cells to be touched %u\n", late.number, cartvesper_core_touched(late.core).value);

    // one RDSR with a clock reading between its two status bytes, which ends that cycle
    const std::vector<uint8_t> rdsr{CARTVESPER_RDSR, 0, 0};
    const std::vector<size_t> positions{1};
    const std::vector<uint32_t> readings{late.core.last + late.core.left};
    std::vector<uint8_t> shown_statuses(rdsr.size());
    auto polled = cartvesper_timed_frame(late.core, memory.data(), memory.size(), identification.data(),
                                         identification.size(), 1, CARTVESPER_MODE0, rdsr.data(), rdsr.size(),
                                         8 * rdsr.size(), positions.data(), positions.size(), readings.data(),
                                         readings.size(), shown_statuses.data(), shown_statuses.size());
    std::printf("timed frame: number %u, status %02X then %02X, cell 0100 %02X\n", polled.number, shown_statuses[1],
                shown_statuses[2], memory[0x0100]);

    auto device = cartvesper_device_power_up(CARTVESPER_M95512, 0, CARTVESPER_LONGEST_CYCLE, 0, 0, 0, run.core.last,
                                             memory.data(), memory.size())
                      .device;
    std::vector<uint64_t> events{cartvesper_event(CARTVESPER_EVENT_S, 0)};
    for (uint32_t head = (uint32_t)CARTVESPER_READ << 16 | 0x007F, bit = 1u << 23; bit != 0; bit >>= 1)
        frame_bit(events, (head & bit) != 0);
    size_t shown = events.size() - 1; // after the last falling edge of the address, bit 7 of the cell
    for (int i = 0; i < 7; i++)
        frame_bit(events, false);
    std::vector<uint8_t> q(events.size());
    auto played = cartvesper_device_play(device, memory.data(), memory.size(), identification.data(),
                                         identification.size(), events.data(), events.size(), q.data(), q.size());
    unsigned cell = 0;
    for (size_t i = shown; i < q.size(); i += 3)
        cell = cell << 1 | q[i];
    std::printf("pins: number %u, before the data Z is %d, cell 007F %02X\n", played.number, q[0] == CARTVESPER_Z,
                cell);

    auto refused = cartvesper_core_status(cartvesper_core{CARTVESPER_M95512, 0, 2, 0, 0, 0, 1, 0, 0, 0, {}});
    std::printf("a flag of 2: number %u, value %u\n", refused.number, refused.value);
}
