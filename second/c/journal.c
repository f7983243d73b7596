/* The journal, an entry at a time: ticks since the entry before, source, payload length, payload. */
#include "second.h"

#include <string.h>

/* Steps over the number at *at, below 2^32 in at most five groups of seven bits; 0, or the refusal.
   The fifth group has the four highest bits; a last group of 0 would not be the shortest form. */
static uint32_t get_number(const uint8_t *journal, size_t n, size_t *at, uint64_t *number)
{
    *number = 0;
    for (int group = 0; *at < n; group++) {
        uint8_t octet = journal[(*at)++];
        if ((group > 0 && octet == 0) || (group == 4 && octet > 15))
            return MOULT_BAD_NUMBER;
        *number |= (uint64_t)(octet & 127) << 7 * group;
        if (octet < 128)
            return 0;
    }
    return MOULT_ENTRY_CUT;
}

static moult_entry refused(uint32_t number, size_t place)
{
    moult_entry e = {0};
    e.number = number;
    e.place = place;
    return e;
}

moult_entry second_journal_entry_at(const uint8_t *journal, size_t n, size_t at)
{
    uint64_t values[3]; /* ticks, source, length */
    size_t start = at;
    if (at >= n)
        return refused(0, 0);
    for (int i = 0; i < 3; i++) {
        uint32_t number = get_number(journal, n, &start, &values[i]);
        if (number)
            return refused(number, at);
    }
    if (values[2] > MOULT_MAX_OCTETS)
        return refused(MOULT_TOO_LONG, at);
    if (values[2] > n - start)
        return refused(MOULT_ENTRY_CUT, at);
    moult_entry e = {0, 1, 0, values[0], values[1], start, start + (size_t)values[2]};
    return e;
}

static size_t number_octets(uint64_t number)
{
    size_t n = 1;
    while (number >>= 7)
        n++;
    return n;
}

static uint8_t *put_number(uint8_t *at, uint64_t number)
{
    for (; number > 127; number >>= 7)
        *at++ = (uint8_t)(128 | number);
    *at++ = (uint8_t)number;
    return at;
}

static moult_writing writing(uint32_t number, size_t place, size_t octets)
{
    moult_writing w = {number, place, octets};
    return w;
}

moult_writing second_journal_write_entry(uint64_t ticks, uint64_t source, const uint8_t *payload,
                                         size_t payload_n, uint8_t *out, size_t out_n)
{
    if (ticks > UINT32_MAX || source > UINT32_MAX)
        return writing(MOULT_BAD_NUMBER, 0, 0);
    if (payload_n > MOULT_MAX_OCTETS)
        return writing(MOULT_TOO_LONG, MOULT_MAX_OCTETS, 0);
    size_t needed = number_octets(ticks) + number_octets(source) + number_octets(payload_n) +
                    payload_n;
    if (out_n < needed)
        return writing(MOULT_OCTETS_TOO_SHORT, needed, 0);
    uint8_t *at = put_number(put_number(put_number(out, ticks), source), payload_n);
    if (payload_n > 0)
        memcpy(at, payload, payload_n);
    return writing(0, 0, needed);
}
