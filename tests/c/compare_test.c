/* The library against the second C implementation over many inputs, the same in each run: legal
   payloads, damaged and clipped ones, random octets, row lists, setting texts, fields, times,
   journals and packet records. Payloads and row lists are tried in every session. */
#include "compare.h"

#include <stdio.h>
#include <string.h>

static unsigned long compared;

/* ---- random numbers (SplitMix64), from a fixed start */

static uint64_t state = 1;

static uint64_t random_64(void)
{
    uint64_t x = state += 0x9E3779B97F4A7C15u;
    x = (x ^ (x >> 30)) * 0xBF58476D1CE4E5B9u;
    x = (x ^ (x >> 27)) * 0x94D049BB133111EBu;
    return x ^ (x >> 31);
}

static size_t below(size_t n)
{
    return (size_t)(random_64() % n);
}

static int one_in(size_t n)
{
    return below(n) == 0;
}

/* An octet: often one at a border of what a frame may end in, or a count. */
static uint8_t random_octet(void)
{
    static const uint8_t borders[] = {0,   1,   14,  15,  16,  63,  64,  76,  77,  78,  127,
                                      128, 129, 130, 159, 160, 191, 192, 193, 253, 254, 255};
    return one_in(2) ? borders[below(sizeof borders)] : (uint8_t)random_64();
}

/* Room for what is needed, mostly; one or two too few, or one or two more, at times. */
static int random_more(void)
{
    return one_in(2) ? 0 : (int)below(5) - 2;
}

/* ---- sessions */

enum { NOT_AGREED, AGREED_2400, AGREED_600, LEGAL_SESSIONS, SESSIONS = LEGAL_SESSIONS + 5 };

/* Not agreed looks at no rate; any number but 0 says agreed. */
static compare_session session_of(size_t index)
{
    static const uint32_t agreed[] = {1, 2, 0x100, 0x10000, 0x80000000, UINT32_MAX};
    static const uint32_t rates[SESSIONS] = {0, 2400, 600, 0, 1200, 2401, 67936, UINT32_MAX};
    compare_session not_agreed = {0, rates[below(SESSIONS)]};
    compare_session in = {agreed[below(6)], rates[index]};
    return index == NOT_AGREED ? not_agreed : in;
}

/* ---- payloads */

static void try_payload(const uint8_t *payload, size_t n)
{
    compare_in_front((int)below(2));
    for (size_t i = 0; i < SESSIONS; i++)
        compare_payload(session_of(i), payload, n, random_more(), random_more());
    compared++;
}

/* Rows and bodies of a legal sequence of a session, and its octets. */
typedef struct {
    size_t session;
    uint16_t rows[MOULT_MAX_NUMBERS];
    size_t rows_n;
    uint8_t bodies[MOULT_MAX_OCTETS + 300];
    size_t bodies_n;
    uint8_t wire[MOULT_MAX_OCTETS + 8];
    size_t wire_n;
} sequence;

static uint16_t random_tc(void)
{
    static const uint16_t borders[] = {1, 2, 13, 14, 15, 16, 76, 77, 78, 79, 254, 255};
    return one_in(2) ? borders[below(12)] : (uint16_t)(1 + below(one_in(4) ? 255 : 20));
}

/* The largest last octet of a body of the kind, its augmentation set aside. */
static uint8_t end_of(size_t session, uint16_t kind)
{
    uint8_t others = session == NOT_AGREED ? 63 : 127;
    return kind == MOULT_KIND_1200 ? 1 : kind == MOULT_KIND_COMFORT_NOISE ? 31 : others;
}

/* A TSVCIS frame, with either count where its TC allows both. */
static uint16_t random_tsvcis(uint16_t tc)
{
    int both = second_body_octets(MOULT_KIND_TSVCIS_LONG, tc) > 0;
    return both && one_in(2) ? MOULT_KIND_TSVCIS_LONG : MOULT_KIND_TSVCIS;
}

static void add_frame(sequence *s, uint16_t kind, uint16_t tc)
{
    uint8_t *body = s->bodies + s->bodies_n;
    size_t n = second_body_octets(kind, tc);
    for (size_t i = 0; i < n; i++)
        body[i] = random_octet();
    body[n - tc - 1] &= end_of(s->session, kind);
    s->rows[s->rows_n] = kind;
    s->rows[s->rows_n + 1] = tc;
    s->rows_n += 2;
    s->bodies_n += n;
}

static void make_sequence(sequence *s)
{
    static const uint16_t kinds[] = {MOULT_KIND_2400, MOULT_KIND_600, MOULT_KIND_1200};
    s->session = below(LEGAL_SESSIONS);
    uint16_t plain = kinds[s->session == NOT_AGREED ? below(3) : s->session - AGREED_2400];
    size_t frames = one_in(20) ? below(MOULT_MAX_FRAMES + 1) : below(6);
    size_t wire = 0;
    s->rows_n = s->bodies_n = 0;
    for (size_t i = 0; i < frames; i++) {
        int augmented = plain == MOULT_KIND_2400 && one_in(2);
        uint16_t tc = augmented ? random_tc() : 0;
        uint16_t kind = augmented ? random_tsvcis(tc) : plain;
        wire += second_body_octets(kind, tc) + 2;
        if (wire > MOULT_MAX_OCTETS - 2)
            break;
        add_frame(s, kind, tc);
    }
    if (one_in(3) && s->rows_n < MOULT_MAX_NUMBERS)
        add_frame(s, MOULT_KIND_COMFORT_NOISE, 0);
    compare_session in = session_of(s->session);
    s->wire_n = second_write_session(in.agreed, in.rate, s->rows, s->rows_n, s->bodies, s->bodies_n,
                                     s->wire, MOULT_MAX_OCTETS)
                    .octets;
}

static void try_write(const uint16_t *rows, size_t rows_n, const uint8_t *bodies, size_t bodies_n)
{
    compare_in_front((int)below(2));
    for (size_t i = 0; i < SESSIONS; i++)
        compare_write(session_of(i), rows, rows_n, bodies, bodies_n, random_more());
    compared++;
}

/* Any number that a row list may hold. */
static uint16_t random_number(void)
{
    return one_in(3) ? (uint16_t)random_64() : (uint16_t)below(8);
}

static void try_damaged_rows(sequence *s)
{
    if (s->rows_n > 0)
        s->rows[below(s->rows_n)] = random_number();
    if (one_in(4))
        s->rows_n -= s->rows_n > 0;
    try_write(s->rows, s->rows_n, s->bodies, s->bodies_n);
}

static void try_damaged_bodies(sequence *s)
{
    size_t n = s->bodies_n;
    if (n > 0)
        s->bodies[below(n)] = random_octet();
    if (one_in(4))
        n = one_in(2) ? n + 1 : n - (n > 0);
    try_write(s->rows, s->rows_n, s->bodies, n);
}

/* An octet changed, left out or put in. */
static void try_damaged_wire(const sequence *s)
{
    uint8_t wire[MOULT_MAX_OCTETS + 8];
    size_t n = s->wire_n, at = below(n + 1);
    memcpy(wire, s->wire, n);
    switch (below(3)) {
    case 0:
        wire[at] = random_octet();
        n += at == n;
        break;
    case 1:
        memmove(wire + at, s->wire + at + (at < n), n - at - (at < n));
        n -= at < n;
        break;
    default:
        memmove(wire + at + 1, s->wire + at, n - at);
        wire[at] = random_octet();
        n++;
    }
    try_payload(wire, n);
}

static void try_sequences(void)
{
    static sequence s;
    for (int i = 0; i < 40000; i++) {
        make_sequence(&s);
        try_write(s.rows, s.rows_n, s.bodies, s.bodies_n);
        try_payload(s.wire, s.wire_n);
        /* Its first or its last octets lost. */
        size_t lost = below(s.wire_n + 1);
        try_payload(s.wire + lost, s.wire_n - lost);
        try_payload(s.wire, s.wire_n - lost);
        try_damaged_wire(&s);
        if (one_in(2))
            try_damaged_bodies(&s);
        else
            try_damaged_rows(&s);
    }
}

/* Payloads about 1,400 octets, row lists of 199 to 201 rows, and totals about 1,400 octets. */
static void try_limits(void)
{
    static uint16_t rows[404];
    static uint8_t bodies[2300];
    static uint8_t payload[1420];
    for (size_t n = 1380; n <= 1420; n++) {
        try_payload(payload, n);
        payload[n - 1] = 160;
        try_payload(payload, n);
        payload[n - 1] = 0;
    }
    for (size_t frames = 199; frames <= 201; frames++) {
        for (uint16_t kind = 0; kind <= 7; kind++) {
            for (size_t i = 0; i < frames; i++) {
                rows[2 * i] = kind;
                rows[2 * i + 1] = 0;
            }
            size_t n = frames * second_body_octets(kind, 0);
            try_write(rows, 2 * frames, bodies, n);
            rows[2 * frames - 2] = MOULT_KIND_COMFORT_NOISE;
            try_write(rows, 2 * frames, bodies, n - second_body_octets(kind, 0) + 2);
        }
    }
    for (uint16_t tc = 60; tc < 90; tc++) {
        for (size_t i = 0; i < 5; i++) {
            rows[2 * i] = MOULT_KIND_TSVCIS;
            rows[2 * i + 1] = 255;
        }
        rows[11] = tc;
        for (uint16_t kind = MOULT_KIND_TSVCIS; kind <= MOULT_KIND_TSVCIS_LONG; kind++) {
            rows[10] = kind;
            try_write(rows, 12, bodies, 5 * 262 + 7u + tc);
        }
    }
}

/* Every TC up to 300 of both TSVCIS kinds, alone and in front of another row. */
static void try_tcs(void)
{
    static uint8_t bodies[314];
    for (uint16_t tc = 0; tc <= 300; tc++) {
        for (uint16_t kind = MOULT_KIND_TSVCIS; kind <= MOULT_KIND_TSVCIS_LONG; kind++) {
            uint16_t rows[4] = {kind, tc, MOULT_KIND_2400, 0};
            try_write(rows, 2, bodies, 7u + tc);
            try_write(rows, 4, bodies, 14u + tc);
            rows[2] = MOULT_KIND_600;
            try_write(rows, 4, bodies, 14u + tc);
        }
    }
}

/* Every long count behind bases of several ends: alone, with octets missing in front, with a frame
   in front, and with a frame behind. */
static void try_long_counts(void)
{
    static const uint8_t ends[] = {0, 63, 64, 127, 128, 129, 160, 192, 255};
    static uint8_t payload[300];
    uint8_t *frame = payload + 7;
    for (unsigned tc = 0; tc < 256; tc++) {
        for (size_t i = 0; i < sizeof ends; i++) {
            size_t n = 9 + tc;
            memset(payload, 0, sizeof payload);
            memset(frame + 7, random_octet(), tc);
            payload[6] = ends[below(sizeof ends)];
            frame[6] = ends[i];
            frame[n - 2] = (uint8_t)tc;
            frame[n - 1] = 255;
            try_payload(frame, n);
            for (size_t missing = 1; missing < 10; missing++)
                try_payload(frame + missing, n - missing);
            try_payload(payload, n + 7);
            frame[n + 6] = one_in(2) ? 0 : 64;
            try_payload(frame, n + 7);
        }
    }
}

/* Every payload of up to two octets, every pair of octets behind zeros, and every last octet of any
   number of zeros up to 300. */
static void try_ends(void)
{
    static uint8_t payload[300];
    try_payload(payload, 0);
    for (unsigned pair = 0; pair < 65536; pair++) {
        uint8_t end[2] = {(uint8_t)(pair / 256), (uint8_t)pair};
        try_payload(end + 1, 1);
        try_payload(end, 2);
        memcpy(payload + 298, end, 2);
        size_t n = 2 + below(299);
        try_payload(payload + 300 - n, n);
    }
    payload[298] = 0;
    for (unsigned last = 0; last < 256; last++) {
        payload[299] = (uint8_t)last;
        for (size_t n = 1; n <= 300; n++)
            try_payload(payload + 300 - n, n);
    }
}

static void try_random_octets(void)
{
    static uint8_t payload[1600];
    for (int i = 0; i < 100000; i++) {
        size_t n = one_in(50) ? below(1600) : below(60);
        for (size_t at = 0; at < n; at++)
            payload[at] = one_in(3) ? random_octet() : 0;
        try_payload(payload, n);
    }
}

static void try_body_octets(void)
{
    for (uint16_t kind = 0; kind < 300; kind++)
        for (uint16_t tc = 0; tc < 300; tc++)
            compare_body_octets(kind, tc);
    for (int i = 0; i < 1000; i++)
        compare_body_octets((uint16_t)random_64(), (uint16_t)random_64());
    compared += 91000;
}

static void try_ptimes(void)
{
    static const uint32_t rates[] = {0,    180,  599,  600,  601,   1199,      1200,
                                     1201, 2399, 2400, 2401, 67936, 0xFFFFFFFF};
    for (size_t i = 0; i < sizeof rates / sizeof rates[0]; i++) {
        for (size_t frames = 0; frames < 260; frames++)
            compare_ptime(rates[i], frames);
        compare_ptime(rates[i], SIZE_MAX);
        compare_ptime(rates[i], (size_t)1 << 32 | 5);
        compared += 262;
    }
}

/* ---- settings */

static const uint16_t rates[] = {0, 600, 1200, 2400, 300, 4800, 65535};

static void try_text(const char *text, size_t n)
{
    compare_in_front((int)below(2));
    compare_settings_read((const uint8_t *)text, n);
    compared++;
}

/* An octet changed, left out or put in: often one that texts have. */
static void try_damaged_text(const char *text, size_t n)
{
    static const char octets[] = "bitraecmxBITRATECMX=;,0123456789 \n";
    char damaged[80];
    size_t at = below(n + 1);
    char octet = one_in(8) ? (char)random_64() : octets[below(sizeof octets)];
    memcpy(damaged, text, at);
    damaged[at] = octet;
    size_t skipped = one_in(2) && at < n;
    memcpy(damaged + at + 1, text + at + skipped, n - at - skipped);
    try_text(damaged, n + 1 - skipped);
    memcpy(damaged + at, text + at + (at < n), n - at - (at < n));
    try_text(damaged, n - (at < n));
}

/* Letters of names in either case. */
static void try_cases(char *text, size_t n)
{
    for (size_t i = 0; i < n; i++)
        if (text[i] >= 'a' && text[i] <= 'z' && one_in(2))
            text[i] = (char)(text[i] - 32);
    try_text(text, n);
}

static void try_texts_of(const char *bitrate, unsigned tcmax)
{
    char text[80];
    int n = snprintf(text, sizeof text, "%s%stcmax=%u", bitrate, *bitrate ? ";" : "", tcmax);
    try_text(text, (size_t)n);
    try_damaged_text(text, (size_t)n);
    n = snprintf(text, sizeof text, "tcmax=%u%s%s", tcmax, *bitrate ? ";" : "", bitrate);
    try_text(text, (size_t)n);
    try_damaged_text(text, (size_t)n);
    try_cases(text, (size_t)n);
}

/* Every list of up to three rates, repeated ones too, alone and with every tcmax up to 300. */
static void try_settings(void)
{
    char bitrate[40];
    for (size_t list = 0; list < 64; list++) {
        int n = list == 0 ? 0 : snprintf(bitrate, sizeof bitrate, "bitrate=");
        bitrate[n] = 0;
        for (size_t left = list; left > 0; left /= 4)
            n += snprintf(bitrate + n, sizeof bitrate - (size_t)n, "%s%u", left == list ? "" : ",",
                          (unsigned)rates[left % 4]);
        try_text(bitrate, (size_t)n);
        for (unsigned tcmax = 0; tcmax < 300; tcmax++)
            try_texts_of(bitrate, tcmax);
    }
    for (size_t list = 0; list < 343; list++) {
        for (unsigned tcmax = 0; tcmax < 270; tcmax += tcmax < 12 || tcmax > 250 ? 1 : 10) {
            moult_settings s = {rates[list % 7], rates[list / 7 % 7], rates[list / 49],
                                (uint16_t)tcmax};
            compare_settings_write(s, random_more());
            compared++;
        }
    }
    moult_settings most = {2400, 0, 0, 65535};
    compare_settings_write(most, 0);
}

/* ---- fields */

static void try_bodies(void)
{
    uint8_t body[9];
    for (int i = 0; i < 20000; i++) {
        uint8_t mode = one_in(20) ? (uint8_t)random_64() : (uint8_t)below(5);
        size_t n = one_in(10) ? below(10) : 7;
        for (size_t at = 0; at < n; at++)
            body[at] = random_octet();
        if (n == 7 && !one_in(10))
            body[6] &= 63;
        compare_in_front((int)below(2));
        compare_unpack(mode, body, n, random_more());
        compared++;
    }
}

static void try_fields(void)
{
    uint8_t body[7];
    for (int i = 0; i < 20000; i++) {
        uint16_t fields[13] = {0};
        uint8_t mode = one_in(20) ? (uint8_t)random_64() : (uint8_t)below(5);
        for (size_t at = 0; at < 6; at++)
            body[at] = (uint8_t)random_64();
        body[6] = (uint8_t)below(64);
        /* Fields that fit, of which one is made too large at times. */
        size_t n = second_unpack(mode, body, 7, fields, 11).octets;
        if (one_in(4))
            fields[below(11)] = (uint16_t)((size_t)1 << below(16));
        if (one_in(10))
            n = below(14);
        compare_in_front((int)below(2));
        compare_pack(mode, fields, n, random_more());
        compared++;
    }
}

/* ---- journals */

/* A number with any count of groups, or about 2^32; at times one that is too large. */
static uint64_t random_groups(void)
{
    if (one_in(8))
        return UINT32_MAX - 1 + (uint64_t)below(3);
    if (one_in(40))
        return random_64();
    uint64_t border = (uint64_t)1 << 7 * below(5);
    return one_in(2) ? border - below(2) : (uint64_t)below((size_t)border * 16);
}

/* An octet at a border of what a group may be. */
static uint8_t random_group(void)
{
    static const uint8_t borders[] = {0,   1,   9,   10,  11,  15,  16,  127,
                                      128, 129, 143, 144, 247, 248, 249, 255};
    return borders[below(sizeof borders)];
}

/* Entries whose payloads are mostly short, one after another; damaged or clipped at times. */
static void try_journals(void)
{
    static uint8_t journal[COMPARE_OCTETS], payload[MOULT_MAX_OCTETS + 2];
    for (int i = 0; i < 40000; i++) {
        size_t n = 0;
        for (size_t entries = below(4); entries > 0; entries--) {
            size_t length = one_in(20) ? 1402 - below(20) : below(one_in(4) ? 140 : 9);
            uint64_t ticks = random_groups(), source = random_groups();
            memset(payload, random_octet(), length);
            compare_in_front((int)below(2));
            compare_entry_write(ticks, source, payload, length, random_more());
            compared++;
            n += second_journal_write_entry(ticks, source, payload, length, journal + n,
                                            sizeof journal - n)
                     .octets;
        }
        if (n > 0 && one_in(2))
            journal[below(one_in(2) ? n : n < 12 ? n : 12)] = random_group();
        compare_in_front((int)below(2));
        compare_journal(journal, one_in(2) ? n : below(n + 1), below(n + 2));
        compared++;
    }
}

/* Numbers and lengths of any groups, good and bad, and what stands behind them. */
static void try_groups(void)
{
    uint8_t journal[24];
    for (int i = 0; i < 100000; i++) {
        size_t n = below(sizeof journal + 1);
        for (size_t at = 0; at < n; at++)
            journal[at] = one_in(3) ? (uint8_t)random_64() : random_group();
        compare_in_front((int)below(2));
        compare_journal(journal, n, one_in(10) ? (size_t)random_64() : below(n + 2));
        compared++;
    }
}

/* ---- packet records */

/* Mostly a row of one rate, else of any kind and TC. */
static compare_operation random_row(uint16_t plain)
{
    compare_operation o = {COMPARE_PUSH, 0, plain, 0};
    if (plain == MOULT_KIND_2400 && one_in(3)) {
        o.tc = random_tc();
        o.kind = random_tsvcis(o.tc);
    } else if (one_in(12)) {
        o.kind = MOULT_KIND_COMFORT_NOISE;
    } else if (one_in(8)) {
        o.kind = random_number();
        o.tc = one_in(2) ? 0 : random_number();
    }
    return o;
}

/* An operation on a record of about so many rows. */
static compare_operation random_operation(uint16_t plain, size_t rows)
{
    compare_operation o = random_row(plain);
    if (one_in(3))
        o.what = one_in(2) ? COMPARE_POP : COMPARE_REPLACE;
    o.row = one_in(10) ? (size_t)random_64() : below(rows + 2);
    return o;
}

/* How many rows of a kind a packet may have. */
static size_t most_rows(uint16_t kind, uint16_t tc)
{
    size_t most = MOULT_MAX_OCTETS / second_wire_octets(kind, tc);
    return most < MOULT_MAX_FRAMES ? most : MOULT_MAX_FRAMES;
}

/* Short runs of any operations; long ones, in which a packet fills up to one of its limits first. */
static void try_records(void)
{
    static const uint16_t kinds[] = {MOULT_KIND_2400, MOULT_KIND_600, MOULT_KIND_1200};
    static compare_operation run[300];
    for (int i = 0; i < 100000; i++) {
        uint16_t plain = kinds[below(3)];
        size_t full = one_in(500) ? most_rows(plain, 0) - below(3) : 0;
        size_t n = full + below(full > 0 ? 60 : 24);
        compare_operation row = {COMPARE_PUSH, 0, plain, 0};
        for (size_t at = 0; at < n; at++)
            run[at] = at < full ? row : random_operation(plain, full > 0 ? full : at / 2);
        compare_rows(compare_record(run, n, below(MOULT_MAX_FRAMES + 1)));
        compared++;
    }
}

/* Totals on both sides of 1,400, by a row more and by another row in each place. */
static void try_record_limits(void)
{
    static compare_operation run[MOULT_MAX_FRAMES + 2];
    for (uint16_t tc = 1; tc <= 255; tc++) {
        for (uint16_t kind = MOULT_KIND_TSVCIS; kind <= MOULT_KIND_TSVCIS_LONG; kind++) {
            if (second_body_octets(kind, tc) == 0)
                continue;
            size_t rows = most_rows(kind, tc), n = rows + 1;
            for (size_t i = 0; i < n; i++) {
                compare_operation row = {COMPARE_PUSH, 0, kind, tc};
                run[i] = row;
            }
            for (int more = -2; more <= 2; more++) {
                size_t left = MOULT_MAX_OCTETS - rows * second_wire_octets(kind, tc);
                compare_operation other = {COMPARE_REPLACE, below(rows), MOULT_KIND_TSVCIS,
                                           (uint16_t)((int)(tc + left) + more)};
                run[n] = other;
                compare_record(run, n + 1, other.row);
                compared++;
            }
        }
    }
}

/* Records that no operation made: any octets, or one of an operation with a member changed. */
static void try_made_up_records(void)
{
    for (int i = 0; i < 20000; i++) {
        moult_record record = MOULT_RECORD_EMPTY;
        compare_operation values = random_operation(MOULT_KIND_2400, MOULT_MAX_FRAMES);
        size_t rows = below(4);
        for (size_t row = 0; row < rows; row++)
            record = second_record_push(record, MOULT_KIND_2400, 0).record;
        switch (below(6)) {
        case 0:
            record.rows = one_in(2) ? (size_t)random_64() : 199 + below(4);
            break;
        case 1:
            record.octets = one_in(2) ? SIZE_MAX - below(20) : 1390 + below(20);
            break;
        case 2:
            record.ticks = UINT32_MAX - (uint32_t)below(800);
            break;
        case 3:
            record.numbers[below(8)] = random_number();
            break;
        case 4:
            record.starts[below(4)] = (uint16_t)random_64();
            break;
        default:
            for (size_t at = 0; at < sizeof record; at++)
                ((uint8_t *)&record)[at] = one_in(2) ? 0xFF : (uint8_t)random_64();
            record.rows = one_in(2) ? below(202) : record.rows;
        }
        compare_made_up(record, values);
        compared++;
    }
}

int main(void)
{
    try_sequences();
    try_limits();
    try_tcs();
    try_long_counts();
    try_ends();
    try_random_octets();
    try_body_octets();
    try_ptimes();
    try_settings();
    try_bodies();
    try_fields();
    try_journals();
    try_groups();
    try_records();
    try_record_limits();
    try_made_up_records();
    printf("%lu inputs: the library and the second C implementation answer alike\n", compared);
    return 0;
}
