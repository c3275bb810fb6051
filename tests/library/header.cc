// A program in C++ that makes the calls that n2kdec.h declares.
#include "n2kdec.h"

int main() {
    n2k_decoder decoder = {};
    const n2k_settings settings = {10000, true, false, false, 0, {}};
    const char table[] = "format = 1\n";
    const auto bytes = reinterpret_cast<const uint8_t *>(table);
    const int32_t status = n2k_open(bytes, sizeof table - 1, false, nullptr, 0, &settings, &decoder);
    n2k_close(&decoder);
    return status == N2K_DONE && n2k_end(&decoder) == N2K_CLOSED ? 0 : 1;
}
