/* 600 bps fields. The 54 bits of a body are one number with B_01 lowest; turned round, so that
   B_01 is highest, each field is a shift and a mask. */
#include "second.h"

/* Widths in bits, from B_01 on, each field's highest bit first. */
static const uint8_t mode_1[] = {5, 4, 4, 4, 6, 4, 4, 4, 6, 6, 7};
static const uint8_t mode_2[] = {5, 6, 4, 4, 6, 4, 5, 7, 6, 7};
static const uint8_t mode_3[] = {5, 8, 4, 5, 6, 4, 5, 6, 5, 6};

static uint64_t turned(uint64_t x)
{
    x = ((x >> 1) & 0x5555555555555555u) | ((x & 0x5555555555555555u) << 1);
    x = ((x >> 2) & 0x3333333333333333u) | ((x & 0x3333333333333333u) << 2);
    x = ((x >> 4) & 0x0F0F0F0F0F0F0F0Fu) | ((x & 0x0F0F0F0F0F0F0F0Fu) << 4);
    return __builtin_bswap64(x);
}

static moult_writing writing(uint32_t number, size_t place, size_t octets)
{
    moult_writing w = {number, place, octets};
    return w;
}

/* Inlined into a switch over the modes, so that each mode's widths are constants. */
#define EACH_MODE static inline __attribute__((always_inline))

EACH_MODE moult_writing unpack(const uint8_t *widths, size_t count, const uint8_t *body,
                               uint16_t *fields, size_t fields_n)
{
    if (fields_n < count)
        return writing(MOULT_NUMBERS_TOO_SHORT, count, 0);
    uint64_t bits = 0;
    for (int i = 6; i >= 0; i--)
        bits = bits << 8 | body[i];
    bits = turned(bits);
    for (size_t i = 0; i < count; i++) {
        fields[i] = (uint16_t)(bits >> (64 - widths[i]));
        bits <<= widths[i];
    }
    return writing(0, 0, count);
}

moult_writing second_unpack(uint8_t mode, const uint8_t *body, size_t body_n, uint16_t *fields,
                       size_t fields_n)
{
    if (mode < 1 || mode > 3)
        return writing(MOULT_WRONG_MODE, 0, 0);
    if (body_n != MOULT_BODY_600)
        return writing(MOULT_WRONG_LENGTH, MOULT_BODY_600, 0);
    if (body[6] > 63)
        return writing(MOULT_RESERVED_BITS, 6, 0);
    switch (mode) {
    case 1:
        return unpack(mode_1, sizeof mode_1, body, fields, fields_n);
    case 2:
        return unpack(mode_2, sizeof mode_2, body, fields, fields_n);
    default:
        return unpack(mode_3, sizeof mode_3, body, fields, fields_n);
    }
}

EACH_MODE moult_writing pack(const uint8_t *widths, size_t count, const uint16_t *fields,
                             size_t fields_n, uint8_t *out, size_t out_n)
{
    if (fields_n != count)
        return writing(MOULT_WRONG_LENGTH, count, 0);
    uint64_t bits = 0;
    for (size_t i = 0; i < count; i++) {
        if (fields[i] >> widths[i])
            return writing(MOULT_FIELD_TOO_LARGE, i, 0);
        bits = bits << widths[i] | fields[i];
    }
    if (out_n < MOULT_BODY_600)
        return writing(MOULT_OCTETS_TOO_SHORT, MOULT_BODY_600, 0);
    bits = turned(bits << 10);
    for (int i = 0; i < 7; i++)
        out[i] = (uint8_t)(bits >> (8 * i));
    return writing(0, 0, MOULT_BODY_600);
}

moult_writing second_pack(uint8_t mode, const uint16_t *fields, size_t fields_n, uint8_t *out,
                     size_t out_n)
{
    switch (mode) {
    case 1:
        return pack(mode_1, sizeof mode_1, fields, fields_n, out, out_n);
    case 2:
        return pack(mode_2, sizeof mode_2, fields, fields_n, out, out_n);
    case 3:
        return pack(mode_3, sizeof mode_3, fields, fields_n, out, out_n);
    default:
        return writing(MOULT_WRONG_MODE, 0, 0);
    }
}
