/* A libFuzzer target: the library beside the second C implementation (tests/c/compare.h). Of an
   input's first octet the low four bits choose the function, the next three the session of a
   payload or of rows, and the highest bit on which side of the lent inputs memory ends: in front (1)
   or behind (0). The second octet's halves choose the
   rooms lent, low half first: 2 is just enough, 1 is one less. The rest is a payload, rows and
   bodies, a setting text, settings, fields, a body, a rate and a number of frames, a journal or
   what an entry of one is written of, or operations on a packet record or such a record itself. */
#include "compare.h"

enum { MOST = COMPARE_OCTETS / 2 };

/* What is left of a fuzzer's input; 0 where nothing is. */
typedef struct {
    const uint8_t *at;
    size_t n;
} rest;

static uint8_t take(rest *from)
{
    if (from->n == 0)
        return 0;
    from->n--;
    return *from->at++;
}

static size_t take_number(rest *from, int octets_of_it)
{
    size_t number = 0;
    for (int i = 0; i < octets_of_it; i++)
        number |= (size_t)take(from) << 8 * i;
    return number;
}

/* Row numbers or fields, an octet each; each fifteenth has its octet as high octet too, from the
   place that `wide` names, counted from 1. */
static const uint16_t *take_list(rest *from, size_t n, unsigned wide)
{
    static uint16_t list[MOST];
    for (size_t i = 0; i < n; i++)
        list[i] = (uint16_t)(take(from) * (wide > 0 && i % 15 == wide - 1 ? 0x0101 : 1));
    return list;
}

/* Not agreed, in which no rate is looked at; agreed, with the two rates and with ones that are not. */
static const compare_session sessions[8] = {
    {0, 0},    {1, 2400}, {1, 600}, {0, 2400},
    {1, 1200}, {2, 2401}, {1, 0},   {UINT32_MAX, UINT32_MAX},
};

/* How many row numbers there are, in two octets, low first; the numbers; bodies are the rest. */
static void try_write(compare_session in, rest data, int more, unsigned wide)
{
    size_t rows_n = take_number(&data, 2);
    if (rows_n > data.n)
        rows_n = data.n;
    const uint16_t *rows = take_list(&data, rows_n, wide);
    compare_write(in, rows, rows_n, data.at, data.n, more);
    for (size_t i = 0; i + 1 < rows_n; i += 2)
        compare_body_octets(rows[i], rows[i + 1]);
}

static void try_settings_read(rest data, int more)
{
    compare_settings_read(data.at, data.n);
    compare_settings_write(moult_settings_read(data.at, data.n).settings, more);
}

/* Rates, and numbers that are none. */
static uint16_t take_rate(rest *from)
{
    static const uint16_t rates[16] = {0,    600,  1200, 2400, 300,    4800,   1,      599,
                                       601,  1199, 1201, 2399, 2401,   0x1000, 0x8960, 0xFFFF};
    return rates[take(from) % 16];
}

static void try_settings_write(rest data, int more)
{
    moult_settings s;
    s.first = take_rate(&data);
    s.second = take_rate(&data);
    s.third = take_rate(&data);
    s.tcmax = (uint16_t)take_number(&data, 2);
    compare_settings_write(s, more);
}

/* The mode; the fields are the rest. */
static void try_pack(rest data, int more, unsigned wide)
{
    uint8_t mode = take(&data);
    size_t fields_n = data.n;
    compare_pack(mode, take_list(&data, fields_n, wide), fields_n, more);
}

/* The mode; the body is the rest. */
static void try_unpack(rest data, int more)
{
    uint8_t mode = take(&data);
    compare_unpack(mode, data.at, data.n, more);
}

/* The rate, with an octet above its lower 16 bits; the number of frames, low octet first. */
static void try_ptime(rest data)
{
    uint32_t low = take_rate(&data), rate = low + 65536u * take(&data);
    compare_ptime(rate, take_number(&data, sizeof(size_t)));
}

/* An index in two octets, low first; the journal is the rest. */
static void try_journal(rest data)
{
    size_t at = take_number(&data, 2);
    compare_journal(data.at, data.n, at);
}

/* Ticks and source, low octet first; the payload is the rest. */
static void try_entry_write(rest data, int more)
{
    uint64_t ticks = take_number(&data, sizeof(size_t));
    uint64_t source = take_number(&data, sizeof(size_t));
    compare_entry_write(ticks, source, data.at, data.n, more);
}

/* An octet, where it is wide as high octet too. */
static uint16_t take_wide(rest *from, int is_wide)
{
    return (uint16_t)(take(from) * (is_wide ? 0x0101 : 1));
}

/* What it does, the row, kind and TC, an octet each. Most take a row at the end. */
static compare_operation take_operation(rest *from, int is_wide)
{
    static const int what[8] = {COMPARE_PUSH, COMPARE_POP,  COMPARE_REPLACE, COMPARE_PUSH,
                                COMPARE_PUSH, COMPARE_PUSH, COMPARE_REPLACE, COMPARE_PUSH};
    compare_operation o;
    o.what = what[take(from) % 8];
    o.row = take_wide(from, is_wide);
    o.kind = take_wide(from, is_wide);
    o.tc = take_wide(from, is_wide);
    return o;
}

/* An index to ask for; operations are the rest. Each fifteenth is wide, from the one that `wide`
   names, counted from 1. */
static void try_record(rest data, unsigned wide)
{
    static compare_operation run[MOST / 4 + 1];
    size_t n = 0, row = take(&data);
    while (data.n > 0) {
        run[n] = take_operation(&data, wide > 0 && n % 15 == wide - 1);
        n++;
    }
    compare_rows(compare_record(run, n, row));
}

/* An operation's numbers; the record's octets are the rest, and 0 behind them. */
static void try_made_up_record(rest data, unsigned wide)
{
    compare_operation values = take_operation(&data, wide > 0);
    moult_record record;
    for (size_t i = 0; i < sizeof record; i++)
        ((uint8_t *)&record)[i] = take(&data);
    compare_made_up(record, values);
}

int LLVMFuzzerTestOneInput(const uint8_t *data, size_t n)
{
    if (n < 2 || n > MOST)
        return 0;
    rest behind = {data + 2, n - 2};
    unsigned high = data[1] / 16;
    int low_more = data[1] % 16 - 2, high_more = (int)high - 2;
    compare_session in = sessions[data[0] / 16 % 8];
    compare_in_front(data[0] / 128);
    switch (data[0] & 15) {
    case 0:
        try_write(in, behind, low_more, high);
        break;
    case 1:
        try_settings_read(behind, low_more);
        break;
    case 2:
        try_settings_write(behind, low_more);
        break;
    case 3:
        try_pack(behind, low_more, high);
        break;
    case 4:
        try_unpack(behind, low_more);
        break;
    case 5:
        try_ptime(behind);
        break;
    case 8:
        try_journal(behind);
        break;
    case 9:
        try_entry_write(behind, low_more);
        break;
    case 10:
        try_record(behind, high);
        break;
    case 11:
        try_made_up_record(behind, high);
        break;
    default:
        compare_payload(in, behind.at, behind.n, low_more, high_more);
        break;
    }
    return 0;
}
