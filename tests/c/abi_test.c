/* The header and the library from C and from C++: sizes and places of the answers' fields, NULL with
   length 0, texts, and each function over the bench payloads of docs/FORMAT.md. */
#include "moult.h"

#include "check.h"

#include <string.h>

#ifdef __cplusplus
#define STATIC_CHECK(what) static_assert(what, #what)
#else
#define STATIC_CHECK(what) _Static_assert(what, #what)
#endif

STATIC_CHECK(sizeof(moult_reading) == 5 * sizeof(size_t));
STATIC_CHECK(offsetof(moult_reading, rate) == 4);
STATIC_CHECK(offsetof(moult_reading, place) == sizeof(size_t));
STATIC_CHECK(offsetof(moult_reading, ticks) == 4 * sizeof(size_t));
STATIC_CHECK(sizeof(moult_writing) == 3 * sizeof(size_t));
STATIC_CHECK(sizeof(moult_ticks) == 3 * sizeof(size_t));
STATIC_CHECK(sizeof(moult_millis) == 3 * sizeof(size_t));
STATIC_CHECK(sizeof(moult_part) == 3 * sizeof(size_t));
STATIC_CHECK(sizeof(moult_settings) == 8);
STATIC_CHECK(offsetof(moult_settings_reading, settings) == 2 * sizeof(size_t));
STATIC_CHECK(sizeof(moult_settings_reading) == 3 * sizeof(size_t));
STATIC_CHECK(sizeof(moult_entry) == 6 * sizeof(size_t));
STATIC_CHECK(offsetof(moult_entry, entries) == 4);
STATIC_CHECK(offsetof(moult_entry, place) == sizeof(size_t));
STATIC_CHECK(offsetof(moult_entry, ticks) == 2 * sizeof(size_t));
STATIC_CHECK(offsetof(moult_entry, next) == 5 * sizeof(size_t));
STATIC_CHECK(sizeof(moult_record) == 1200 + 3 * sizeof(size_t));
STATIC_CHECK(offsetof(moult_record, starts) == 800);
STATIC_CHECK(offsetof(moult_record, rows) == 1200);
STATIC_CHECK(offsetof(moult_record, octets) == 1200 + sizeof(size_t));
STATIC_CHECK(offsetof(moult_record, ticks) == 1200 + 2 * sizeof(size_t));
STATIC_CHECK(sizeof(moult_record_change) == sizeof(moult_record) + 2 * sizeof(size_t));
STATIC_CHECK(offsetof(moult_record_change, place) == sizeof(size_t));
STATIC_CHECK(offsetof(moult_record_change, record) == 2 * sizeof(size_t));
STATIC_CHECK(sizeof(moult_row) == 2 * sizeof(size_t));
STATIC_CHECK(offsetof(moult_row, kind) == 4);
STATIC_CHECK(offsetof(moult_row, tc) == 6);
STATIC_CHECK(offsetof(moult_row, place) == sizeof(size_t));
STATIC_CHECK(sizeof(moult_start) == 3 * sizeof(size_t));
STATIC_CHECK(offsetof(moult_start, start) == 2 * sizeof(size_t));
STATIC_CHECK(MOULT_MAX_NUMBERS == 2 * MOULT_MAX_FRAMES);

#define GUARD 0xA5
static uint8_t octets[1500];
static uint16_t rows[MOULT_MAX_NUMBERS + 2];
static uint8_t bodies[MOULT_MAX_OCTETS + 2];

/* Puts a payload such as "00*6 40", six zeros and 64, into octets; gives its length. */
static size_t payload_of(const char *text)
{
    size_t n = 0;
    while (*text) {
        char *end;
        unsigned octet = (unsigned)strtoul(text, &end, 16);
        unsigned times = 1;
        if (*end == '*')
            times = (unsigned)strtoul(end + 1, &end, 10);
        while (times-- > 0)
            octets[n++] = (uint8_t)octet;
        text = *end == ' ' ? end + 1 : end;
    }
    return n;
}

static moult_reading read_into_guarded(const char *text)
{
    size_t n = payload_of(text);
    memset(rows, GUARD, sizeof rows);
    memset(bodies, GUARD, sizeof bodies);
    return moult_read(octets, n, rows, MOULT_MAX_NUMBERS, bodies, MOULT_MAX_OCTETS);
}

static int unchanged_from(size_t row_numbers, size_t body_octets)
{
    const uint8_t *numbers = (const uint8_t *)(rows + row_numbers);
    for (size_t i = 0; i < sizeof rows - 2 * row_numbers; i++)
        if (numbers[i] != GUARD)
            return 0;
    for (size_t i = body_octets; i < sizeof bodies; i++)
        if (bodies[i] != GUARD)
            return 0;
    return 1;
}

static void one_row(const char *text, unsigned kind, unsigned tc, size_t body, size_t ticks)
{
    moult_reading r = read_into_guarded(text);
    size_t n = payload_of(text);
    CHECK(r.number == 0 && r.place == 0 && r.rows == 1 && r.octets == body);
    CHECK(r.rate == (ticks == 180 ? 2400u : ticks == 540 ? 1200u : ticks == 720 ? 600u : 0u));
    CHECK(r.ticks == ticks);
    CHECK(rows[0] == kind && rows[1] == tc);
    CHECK(moult_body_octets(rows[0], rows[1]) == body);
    CHECK(unchanged_from(2, body));
    CHECK(moult_count(octets, n) == 1);
    moult_ticks t = moult_packet_ticks(octets, n);
    CHECK(t.number == 0 && t.place == 0 && t.ticks == ticks);
    moult_part whole = moult_frame_or(octets, n, 0, NULL, 0);
    CHECK(whole.stand_in == 0 && whole.start == 0 && whole.length == n);
    moult_part augmentation = moult_augmentation(octets, n, 0);
    CHECK(augmentation.start == (tc ? 7u : 0u) && augmentation.length == tc);
}

static void refused(const char *text, uint32_t number, size_t place)
{
    moult_reading r = read_into_guarded(text);
    size_t n = payload_of(text);
    CHECK(r.number == number && r.place == place && r.rows == 0 && r.octets == 0);
    CHECK(r.rate == 0 && r.ticks == 0);
    CHECK(unchanged_from(0, 0));
    CHECK(moult_count(octets, n) == -(int32_t)number);
    moult_ticks t = moult_packet_ticks(octets, n);
    CHECK(t.number == number && t.place == place && t.ticks == 0);
    moult_part part = moult_frame_or(octets, n, 0, bodies, 5);
    CHECK(part.stand_in == 1 && part.start == 0 && part.length == 5);
    part = moult_augmentation(octets, n, 0);
    CHECK(part.stand_in == 0 && part.start == 0 && part.length == 0);
}

static void bench_payloads(void)
{
    one_row("00*7", 1, 0, 7, 180);
    refused("00*6", 2, 6);
    one_row("00*6 40", 3, 0, 7, 720);
    refused("00*13 40", 8, 7);
    one_row("00*10 81", 2, 0, 11, 540);
    CHECK(bodies[10] == 1);
    refused("00*10 82", 3, 11);
    one_row("00 A0", 4, 0, 2, 0);
    refused("00 A0 00 A0", 6, 2);
    one_row("00*22 C0", 5, 15, 22, 180);
    refused("00*6 40 00*15 C0", 7, 23);
    one_row("00*7 AA 01 FF", 5, 1, 8, 180);
    CHECK(bodies[7] == 0xAA);
    refused("00*9 FF", 4, 10);
    one_row("00*22 0F FF", 6, 15, 22, 180);
    refused("00*7 01 FF", 2, 9);
    refused("00*1401", 1, 1400);
    moult_reading most = read_into_guarded("00*1400");
    CHECK(most.rows == MOULT_MAX_FRAMES && most.octets == MOULT_MAX_OCTETS && most.rate == 2400);
    CHECK(most.ticks == 36000 && unchanged_from(400, 1400));
}

static void nothing_lent(void)
{
    moult_reading r = moult_read(NULL, 0, NULL, 0, NULL, 0);
    CHECK(r.number == 0 && r.place == 0 && r.rows == 0 && r.octets == 0);
    CHECK(r.rate == 0 && r.ticks == 0);
    CHECK(moult_count(NULL, 0) == 0);
    CHECK(moult_packet_ticks(NULL, 0).number == 0);
    CHECK(moult_augmentation(NULL, 0, 0).length == 0);
    moult_part part = moult_frame_or(NULL, 0, 0, NULL, 0);
    CHECK(part.stand_in == 1 && part.start == 0 && part.length == 0);
    moult_writing w = moult_write(NULL, 0, NULL, 0, NULL, 0);
    CHECK(w.number == 0 && w.place == 0 && w.octets == 0);
    for (uint32_t rate = 600; rate <= 2400; rate += 1800) {
        r = moult_read_session(1, rate, NULL, 0, NULL, 0, NULL, 0);
        CHECK(r.number == 0 && r.place == 0 && r.rows == 0 && r.octets == 0);
        CHECK(r.rate == 0 && r.ticks == 0);
        CHECK(moult_packet_ticks_session(1, rate, NULL, 0).number == 0);
        CHECK(moult_augmentation_session(1, rate, NULL, 0, 0).length == 0);
        part = moult_frame_or_session(1, rate, NULL, 0, 0, NULL, 0);
        CHECK(part.stand_in == 1 && part.start == 0 && part.length == 0);
        w = moult_write_session(1, rate, NULL, 0, NULL, 0, NULL, 0);
        CHECK(w.number == 0 && w.place == 0 && w.octets == 0);
    }
    moult_settings_reading s = moult_settings_read(NULL, 0);
    CHECK(s.number == 0 && s.settings.first == 2400 && s.settings.second == 0 &&
          s.settings.third == 0 && s.settings.tcmax == 35);
    w = moult_settings_write(2400, 0, 0, 35, NULL, 0);
    CHECK(w.number == 10 && w.place == 21 && w.octets == 0);
    w = moult_unpack(1, NULL, 0, NULL, 0);
    CHECK(w.number == 14 && w.place == 7 && w.octets == 0);
    w = moult_pack(1, NULL, 0, NULL, 0);
    CHECK(w.number == 14 && w.place == 11 && w.octets == 0);
    moult_entry e = moult_journal_entry_at(NULL, 0, 0);
    CHECK(e.number == 0 && e.place == 0 && e.entries == 0 && e.next == 0);
    w = moult_journal_write_entry(0, 0, NULL, 0, NULL, 0);
    CHECK(w.number == 10 && w.place == 3 && w.octets == 0);
}

/* One frame alone in a session, in which it is the same octets again. */
static void one_row_in(uint32_t agreed, uint32_t rate, const char *text, unsigned kind, unsigned tc,
                       size_t ticks)
{
    static uint8_t back[64];
    size_t n = payload_of(text), body = moult_body_octets((uint16_t)kind, (uint16_t)tc);
    memset(rows, GUARD, sizeof rows);
    memset(bodies, GUARD, sizeof bodies);
    moult_reading r = moult_read_session(agreed, rate, octets, n, rows, MOULT_MAX_NUMBERS, bodies,
                                         MOULT_MAX_OCTETS);
    CHECK(r.number == 0 && r.place == 0 && r.rows == 1 && r.octets == body);
    CHECK(r.rate == (ticks == 180 ? 2400u : ticks == 540 ? 1200u : ticks == 720 ? 600u : 0u));
    CHECK(r.ticks == ticks && rows[0] == kind && rows[1] == tc && unchanged_from(2, body));
    moult_ticks t = moult_packet_ticks_session(agreed, rate, octets, n);
    CHECK(t.number == 0 && t.place == 0 && t.ticks == ticks);
    moult_part part = moult_frame_or_session(agreed, rate, octets, n, 0, NULL, 0);
    CHECK(part.stand_in == 0 && part.start == 0 && part.length == n);
    part = moult_augmentation_session(agreed, rate, octets, n, 0);
    CHECK(part.stand_in == 0 && part.start == (tc ? 7u : 0u) && part.length == tc);
    moult_writing w = moult_write_session(agreed, rate, rows, 2, bodies, body, back, sizeof back);
    CHECK(w.number == 0 && w.place == 0 && w.octets == n && memcmp(back, octets, n) == 0);
}

static void refused_in(uint32_t agreed, uint32_t rate, const char *text, uint32_t number,
                       size_t place)
{
    size_t n = payload_of(text);
    memset(rows, GUARD, sizeof rows);
    memset(bodies, GUARD, sizeof bodies);
    moult_reading r = moult_read_session(agreed, rate, octets, n, rows, MOULT_MAX_NUMBERS, bodies,
                                         MOULT_MAX_OCTETS);
    CHECK(r.number == number && r.place == place && r.rows == 0 && r.octets == 0);
    CHECK(r.rate == 0 && r.ticks == 0 && unchanged_from(0, 0));
    moult_ticks t = moult_packet_ticks_session(agreed, rate, octets, n);
    CHECK(t.number == number && t.place == place && t.ticks == 0);
    moult_part part = moult_frame_or_session(agreed, rate, octets, n, 0, bodies, 5);
    CHECK(part.stand_in == 1 && part.start == 0 && part.length == 5);
    part = moult_augmentation_session(agreed, rate, octets, n, 0);
    CHECK(part.stand_in == 0 && part.start == 0 && part.length == 0);
}

static void written_refused_in(uint32_t agreed, uint32_t rate, uint16_t kind, uint8_t end,
                               uint32_t number, size_t place)
{
    uint16_t row[2] = {kind, 0};
    uint8_t body[7] = {0, 0, 0, 0, 0, 0, end}, out[7] = {GUARD};
    moult_writing w = moult_write_session(agreed, rate, row, 2, body, 7, out, 7);
    CHECK(w.number == number && w.place == place && w.octets == 0 && out[0] == GUARD);
}

static void sessions(void)
{
    one_row_in(0, 0, "00*6 40", 3, 0, 720);
    one_row_in(0, 2400, "00*6 40", 3, 0, 720);
    one_row_in(0, 1200, "00*10 81", 2, 0, 540);
    one_row_in(0, UINT32_MAX, "00*7", 1, 0, 180);
    one_row_in(1, 2400, "00*6 40", 1, 0, 180);
    CHECK(bodies[6] == 0x40);
    one_row_in(2, 2400, "00*6 40", 1, 0, 180);
    one_row_in(0x10000, 600, "00*7", 3, 0, 720);
    one_row_in(UINT32_MAX, 600, "00*6 7F", 3, 0, 720);
    CHECK(bodies[6] == 0x7F);
    one_row_in(1, 2400, "00*6 64 AA 01 FF", 5, 1, 180);
    CHECK(bodies[6] == 0x64);
    one_row_in(1, 2400, "00*6 7F AA*15 0F FF", 6, 15, 180);
    one_row_in(1, 2400, "00 A0", 4, 0, 0);
    one_row_in(1, 600, "00 A0", 4, 0, 0);
    refused_in(0, 2400, "00*13 40", 8, 7);
    refused_in(1, 2400, "00*6 80 AA 01 FF", 7, 10);
    refused_in(1, 600, "00*6 80 AA 01 FF", 7, 10);
    refused_in(1, 600, "00*7 AA 01 FF", 8, 10);
    refused_in(1, 600, "00*22 0F FF", 8, 24);
    refused_in(1, 2400, "00*10 81", 8, 11);
    refused_in(1, 600, "00*10 81", 8, 11);
    refused_in(1, 0, "", 12, 0);
    refused_in(1, 1200, "00*10 81", 12, 0);
    refused_in(1, 2401, "00*1401", 12, 0);
    refused_in(1, 65536 + 2400, "00*7", 12, 0);
    refused_in(UINT32_MAX, UINT32_MAX, "FF", 12, 0);
    written_refused_in(0, 600, 1, 64, 3, 6);
    written_refused_in(1, 2400, 1, 128, 3, 6);
    written_refused_in(1, 600, 3, 128, 3, 6);
    written_refused_in(1, 600, 1, 0, 8, 0);
    written_refused_in(1, 2400, 3, 0, 8, 0);
    written_refused_in(1, 1200, 9, 0, 12, 0);
    moult_writing w = moult_write_session(1, 2401, rows, 1, NULL, 0, NULL, 0);
    CHECK(w.number == 12 && w.place == 0 && w.octets == 0);
    w = moult_write_session(1, 2400, rows, 1, NULL, 0, NULL, 0);
    CHECK(w.number == 11 && w.place == 1 && w.octets == 0);
}

static void room(void)
{
    size_t n = payload_of("00*14");
    moult_reading r = moult_read(octets, n, rows, 3, bodies, MOULT_MAX_OCTETS);
    CHECK(r.number == MOULT_NUMBERS_TOO_SHORT && r.place == 2 && r.rows == 0 && r.octets == 0);
    CHECK(r.rate == 0 && r.ticks == 0);
    r = moult_read(octets, n, rows, 4, bodies, 13);
    CHECK(r.number == MOULT_OCTETS_TOO_SHORT && r.place == 14 && r.rows == 0 && r.octets == 0);
    CHECK(r.rate == 0 && r.ticks == 0);
}

static void body_octets(void)
{
    CHECK(moult_body_octets(0, 0) == 0 && moult_body_octets(7, 15) == 0);
    CHECK(moult_body_octets(65535, 0) == 0 && moult_body_octets(257, 0) == 0);
    CHECK(moult_body_octets(MOULT_KIND_2400, 1) == 0 && moult_body_octets(MOULT_KIND_600, 1) == 0);
    CHECK(moult_body_octets(MOULT_KIND_TSVCIS, 0) == 0);
    CHECK(moult_body_octets(MOULT_KIND_TSVCIS, 255) == 262);
    CHECK(moult_body_octets(MOULT_KIND_TSVCIS, 256) == 0);
    CHECK(moult_body_octets(MOULT_KIND_TSVCIS_LONG, 14) == 0);
    CHECK(moult_body_octets(MOULT_KIND_TSVCIS_LONG, 15) == 22);
    CHECK(moult_body_octets(MOULT_KIND_TSVCIS_LONG, 77) == 84);
    CHECK(moult_body_octets(MOULT_KIND_TSVCIS_LONG, 78) == 0);
}

/* Each number has a text of its own; one that is not known has one too. */
static void texts(void)
{
    const char *other = moult_refusal_text(MOULT_ENTRY_CUT + 1);
    for (uint32_t number = 0; number <= MOULT_ENTRY_CUT; number++) {
        CHECK(strlen(moult_refusal_text(number)) > 0);
        CHECK(strcmp(moult_refusal_text(number), other) != 0);
        for (uint32_t earlier = 0; earlier < number; earlier++)
            CHECK(strcmp(moult_refusal_text(number), moult_refusal_text(earlier)) != 0);
    }
    CHECK(strcmp(moult_refusal_text(UINT32_MAX), other) == 0);
    CHECK(strcmp(moult_refusal_text(6), "comfort noise not last") == 0);
    other = moult_kind_text(0);
    for (uint16_t kind = MOULT_KIND_2400; kind <= MOULT_KIND_TSVCIS_LONG; kind++)
        CHECK(strlen(moult_kind_text(kind)) > 0 && strcmp(moult_kind_text(kind), other) != 0);
    CHECK(strcmp(moult_kind_text(65535), other) == 0);
    CHECK(strcmp(moult_kind_text(4), "comfort noise") == 0);
}

static void times(void)
{
    CHECK(moult_ptime(2400, 5).millis == 113 && moult_ptime(2400, 7).millis == 158);
    CHECK(moult_ptime(1200, 1).millis == 68 && moult_ptime(600, 200).millis == 18000);
    moult_millis t = moult_ptime(300, 1);
    CHECK(t.number == 12 && t.place == 0 && t.millis == 0);
    CHECK(moult_ptime(2400, 0).number == 12 && moult_ptime(2400, 201).number == 12);
}

static void writer(void)
{
    uint16_t list[] = {5, 1, 4, 0};
    uint8_t lent[10] = {1, 2, 3, 4, 5, 6, 7, 0xAA, 8, 9};
    uint8_t wanted[12] = {1, 2, 3, 4, 5, 6, 7, 0xAA, 0x01, 0xFF, 8, 0xA9};
    uint8_t out[14];
    memset(out, GUARD, sizeof out);
    moult_writing w = moult_write(list, 4, lent, 10, out, 11);
    CHECK(w.number == 10 && w.place == 12 && w.octets == 0 && out[0] == GUARD);
    w = moult_write(list, 4, lent, 10, out, 13);
    CHECK(w.number == 0 && w.place == 0 && w.octets == 12);
    CHECK(memcmp(out, wanted, 12) == 0 && out[12] == GUARD && out[13] == GUARD);
    w = moult_write(list, 3, lent, 10, out, 13);
    CHECK(w.number == 11 && w.place == 3);
    list[0] = 4;
    list[1] = 0;
    w = moult_write(list, 4, lent, 10, out, 13);
    CHECK(w.number == 6 && w.place == 0);
}

static moult_writing write_settings(moult_settings s, uint8_t *out, size_t out_n)
{
    return moult_settings_write(s.first, s.second, s.third, s.tcmax, out, out_n);
}

static void settings(void)
{
    const char *text = "TCMAX=101;bitrate=600,2400";
    const char *wanted = "bitrate=600,2400;tcmax=101";
    uint8_t out[32];
    memset(out, GUARD, sizeof out);
    moult_settings_reading s = moult_settings_read((const uint8_t *)text, strlen(text));
    CHECK(s.number == 0 && s.settings.first == 600 && s.settings.second == 2400 &&
          s.settings.third == 0 && s.settings.tcmax == 101);
    moult_writing w = write_settings(s.settings, out, sizeof out);
    CHECK(w.number == 0 && w.octets == 26 && memcmp(out, wanted, 26) == 0 && out[26] == GUARD);
    s = moult_settings_read((const uint8_t *)"tcmax=0", 7);
    CHECK(s.number == 15 && s.place == 0 && s.settings.first == 0 && s.settings.tcmax == 0);
    w = write_settings(s.settings, out, sizeof out);
    CHECK(w.number == 15 && w.place == 0 && w.octets == 0);
}

/* Mode 1, all 0 but one field: the body is all 0 but one octet. */
static void one_field(size_t field, uint16_t value, size_t index, uint8_t octet)
{
    uint16_t fields[12] = {0};
    uint8_t body[8];
    memset(body, GUARD, sizeof body);
    fields[field] = value;
    moult_writing w = moult_pack(1, fields, 11, body, 8);
    CHECK(w.number == 0 && w.octets == 7 && body[7] == GUARD);
    for (size_t i = 0; i < 7; i++)
        CHECK(body[i] == (i == index ? octet : 0));
    uint16_t back[12];
    memset(back, GUARD, sizeof back);
    w = moult_unpack(1, body, 7, back, 12);
    CHECK(w.number == 0 && w.octets == 11 && memcmp(fields, back, 22) == 0 && back[11] == 0xA5A5);
}

static void fields(void)
{
    uint8_t body[7] = {0, 0, 0, 0, 0, 0, 64};
    uint16_t wide[10] = {0, 64, 0, 0, 0, 0, 0, 0, 0, 0};
    one_field(0, 16, 0, 0x01);
    one_field(10, 1, 6, 0x20);
    one_field(10, 64, 5, 0x80);
    CHECK(moult_unpack(0, body, 7, rows, 11).number == 16);
    CHECK(moult_unpack(4, body, 7, rows, 11).number == 16);
    moult_writing w = moult_unpack(2, body, 7, rows, 11);
    CHECK(w.number == 3 && w.place == 6);
    body[6] = 63;
    w = moult_unpack(3, body, 7, rows, 9);
    CHECK(w.number == 9 && w.place == 10);
    w = moult_pack(2, wide, 10, octets, 7);
    CHECK(w.number == 17 && w.place == 1);
    w = moult_pack(3, wide, 10, octets, 6);
    CHECK(w.number == 10 && w.place == 7);
}

/* The longest entry, and behind it one that is cut short. */
static void journal(void)
{
    static uint8_t payload[MOULT_MAX_OCTETS + 1], out[MOULT_MAX_ENTRY + 4];
    memset(out, GUARD, sizeof out);
    moult_writing w = moult_journal_write_entry(UINT32_MAX, UINT32_MAX, payload, MOULT_MAX_OCTETS,
                                                out, MOULT_MAX_ENTRY - 1);
    CHECK(w.number == 10 && w.place == MOULT_MAX_ENTRY && w.octets == 0 && out[0] == GUARD);
    w = moult_journal_write_entry(UINT32_MAX, UINT32_MAX, payload, MOULT_MAX_OCTETS, out,
                                  MOULT_MAX_ENTRY);
    CHECK(w.number == 0 && w.place == 0 && w.octets == MOULT_MAX_ENTRY);
    CHECK(memcmp(out, "\xFF\xFF\xFF\xFF\x0F\xFF\xFF\xFF\xFF\x0F\xF8\x0A", 12) == 0);
    CHECK(memcmp(out + 12, payload, MOULT_MAX_OCTETS) == 0 && out[MOULT_MAX_ENTRY] == GUARD);
    moult_entry e = moult_journal_entry_at(out, sizeof out, 0);
    CHECK(e.number == 0 && e.place == 0 && e.entries == 1);
    CHECK(e.ticks == UINT32_MAX && e.source == UINT32_MAX);
    CHECK(e.start == 12 && e.next == MOULT_MAX_ENTRY);
    e = moult_journal_entry_at(out, sizeof out, e.next);
    CHECK(e.number == MOULT_ENTRY_CUT && e.place == MOULT_MAX_ENTRY && e.entries == 0);
    CHECK(e.ticks == 0 && e.source == 0 && e.start == 0 && e.next == 0);
    e = moult_journal_entry_at(out, sizeof out, sizeof out);
    CHECK(e.number == 0 && e.place == 0 && e.entries == 0 && e.next == 0);
    e = moult_journal_entry_at((const uint8_t *)"\x80", 2, 0);
    CHECK(e.number == MOULT_BAD_NUMBER && e.place == 0 && e.entries == 0);
    w = moult_journal_write_entry((uint64_t)UINT32_MAX + 1, 0, payload, 1, out, sizeof out);
    CHECK(w.number == 18 && w.place == 0 && w.octets == 0);
    w = moult_journal_write_entry(0, UINT64_MAX, payload, 1, out, sizeof out);
    CHECK(w.number == 18 && w.place == 0 && w.octets == 0);
    w = moult_journal_write_entry(0, 0, payload, MOULT_MAX_OCTETS + 1, out, sizeof out);
    CHECK(w.number == 1 && w.place == 1400 && w.octets == 0 && out[0] == 0xFF);
}

static int same_record(moult_record a, moult_record b)
{
    return memcmp(a.numbers, b.numbers, sizeof a.numbers) == 0 &&
           memcmp(a.starts, b.starts, sizeof a.starts) == 0 && a.rows == b.rows &&
           a.octets == b.octets && a.ticks == b.ticks;
}

static moult_record pushed(moult_record record, uint16_t kind, uint16_t tc)
{
    moult_record_change c = moult_record_push(record, kind, tc);
    CHECK(c.number == 0 && c.place == 0 && c.record.rows == record.rows + 1);
    return c.record;
}

/* A change that is refused so, with the record as it was. */
static void unchanged_by(moult_record_change c, moult_record before, uint32_t number, size_t place)
{
    CHECK(c.number == number && c.place == place && same_record(c.record, before));
}

static void has_row(moult_record record, size_t row, unsigned kind, unsigned tc, size_t start)
{
    moult_row r = moult_record_row(record, row);
    CHECK(r.number == 0 && r.place == 0 && r.kind == kind && r.tc == tc);
    moult_start s = moult_record_start(record, row);
    CHECK(s.number == 0 && s.place == 0 && s.start == start);
}

static void has_no_row(moult_record record, size_t row)
{
    moult_row r = moult_record_row(record, row);
    CHECK(r.number == 12 && r.place == 0 && r.kind == 0 && r.tc == 0);
    moult_start s = moult_record_start(record, row);
    CHECK(s.number == 12 && s.place == 0 && s.start == 0);
}

static void has_totals(moult_record record, size_t row_count, size_t octet_count, uint32_t ticks)
{
    CHECK(moult_record_rows(record) == row_count && record.rows == row_count);
    CHECK(moult_record_octets(record) == octet_count && record.octets == octet_count);
    CHECK(moult_record_ticks(record) == ticks && record.ticks == ticks);
    has_no_row(record, row_count);
    has_no_row(record, SIZE_MAX);
}

static void records(void)
{
    moult_record empty = MOULT_RECORD_EMPTY;
    CHECK(same_record(moult_record_empty(), empty));
    has_totals(empty, 0, 0, 0);
    unchanged_by(moult_record_pop(empty), empty, 12, 0);
    unchanged_by(moult_record_replace(empty, 0, 1, 0), empty, 12, 0);
    unchanged_by(moult_record_push(empty, 9, 0), empty, 12, 0);

    moult_record one = pushed(empty, 1, 0);
    moult_record three = pushed(pushed(one, 5, 15), 6, 15);
    has_totals(three, 3, 54, 540);
    has_row(three, 0, 1, 0, 0);
    has_row(three, 1, 5, 15, 7);
    has_row(three, 2, 6, 15, 30);
    unchanged_by(moult_record_replace(three, 0, 3, 0), three, 8, 1);
    unchanged_by(moult_record_replace(three, 3, 1, 0), three, 12, 0);
    unchanged_by(moult_record_replace(three, 2, 6, 78), three, 13, 2);
    moult_record_change c = moult_record_replace(three, 1, 1, 0);
    CHECK(c.number == 0 && c.place == 0);
    has_totals(c.record, 3, 38, 540);
    has_row(c.record, 2, 6, 15, 14);

    moult_record noise = pushed(three, 4, 0);
    has_totals(noise, 4, 56, 540);
    unchanged_by(moult_record_push(noise, 1, 0), noise, 6, 3);
    c = moult_record_pop(noise);
    CHECK(c.number == 0 && c.place == 0 && same_record(c.record, three));

    moult_record most = empty;
    for (size_t i = 0; i < MOULT_MAX_FRAMES; i++)
        most = pushed(most, 3, 0);
    has_totals(most, 200, 1400, 144000);
    has_row(most, 199, 3, 0, 1393);
    unchanged_by(moult_record_push(most, 9, 9), most, 1, 1400);
    unchanged_by(moult_record_replace(most, 0, 1, 0), most, 8, 1);
}

int main(void)
{
    CHECK(moult_version() == MOULT_VERSION);
    bench_payloads();
    sessions();
    nothing_lent();
    room();
    body_octets();
    texts();
    times();
    writer();
    settings();
    fields();
    journal();
    records();
    printf("%lu checks held\n", checks);
    return 0;
}
