// The header in C++, with the recorder.
#include <galitzaf.h>

#include <array>
#include <cstdint>
#include <iostream>

int main()
{
    std::array<std::uint8_t, GALITZAF_RECORDS_SIZE> records{};
    std::array<std::uint8_t, GALITZAF_RECORDER_SIZE> recorder{{0, 1}};
    const std::uint32_t status = galitzaf_clear_overflow(records.data(), records.size(), recorder.data(), recorder.size());
    std::cout << GALITZAF_VERSION << (status == GALITZAF_OVERFLOW_CLEARED ? ": cleared\n" : ": not cleared\n");
}
