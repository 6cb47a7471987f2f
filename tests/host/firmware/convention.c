/*
 * A caller to be compiled for the calling convention of UEFI and Windows, without
 * a C library: that one follows another. Exits 0 where the library got what it
 * was handed.
 */
#include <bootfw.h>

int main(void)
{
    static const uint8_t memory[IBFT_LEAST_LENGTH] = { 0 };

    return ibft_scan(memory, sizeof memory, IBFT_WINDOW_START) != IBFT_REFUSED_NO_TABLE
        || ibft_scan(memory, sizeof memory, IBFT_WINDOW_END) != IBFT_REFUSED_PAST_WINDOW
        || ibft_check(memory, sizeof memory) != IBFT_REFUSED_SIGNATURE
        || ibft_check(memory, 0) != IBFT_REFUSED_FEW_BYTES
        || ibft_rebuild(memory, sizeof memory, NULL, 0) != IBFT_REFUSED_SIGNATURE
        || ibft_rebuild(memory, 0, NULL, 0) != IBFT_REFUSED_FEW_BYTES;
}
