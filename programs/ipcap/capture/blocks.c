#include "capture/blocks.h"

uint32_t block_number(const uint8_t *place, bool is_little)
{
    uint32_t number = 0;
    for (int i = 0; i < 4; i++) number |= (uint32_t)place[i] << (is_little ? 8 * i : 24 - 8 * i);
    return number;
}

void put_block_number(uint8_t *place, uint32_t number, bool is_little)
{
    for (int i = 0; i < 4; i++) place[i] = (uint8_t)(number >> (is_little ? 8 * i : 24 - 8 * i));
}

uint32_t padded_len(uint32_t len)
{
    return (len + 3) / 4 * 4;
}
