#define _DEFAULT_SOURCE
#include "compare.h"

#include <stdio.h>
#include <stdlib.h>
#include <string.h>
#include <sys/mman.h>
#include <unistd.h>

#define MUST(what)                                                                          \
    do {                                                                                    \
        if (!(what)) {                                                                      \
            fprintf(stderr, "%s:%d: the library differs: %s\n", __FILE__, __LINE__, #what); \
            abort();                                                                        \
        }                                                                                   \
    } while (0)

enum { GUARD = 16, FILL = 0xA5, ROOM = MOULT_MAX_OCTETS + 64 };

/* Buffers lent to be written, and what is wanted in them. */
static uint8_t octets[GUARD + ROOM], wanted_octets[GUARD + ROOM];
static uint16_t numbers[GUARD + ROOM], wanted_numbers[GUARD + ROOM];

static void lend(void)
{
    memset(octets, FILL, sizeof octets);
    memset(wanted_octets, FILL, sizeof wanted_octets);
    memset(numbers, FILL, sizeof numbers);
    memset(wanted_numbers, FILL, sizeof wanted_numbers);
}

/* An input lent to be read: at an edge of the middle one of three parts of memory, the others of
   which can't be read. Nothing is watched inside the library, so this is what shows a read outside. */
typedef struct {
    uint8_t *start;
    uint8_t *lent;
    size_t n;
    uint8_t before[COMPARE_OCTETS];
} input;

/* Bodies are lent beside rows; any other input is the only one. */
static input first_lent, bodies_lent;
static int is_in_front;

void compare_in_front(int in_front)
{
    is_in_front = in_front;
}

/* The middle part's size: whole pages. */
static size_t middle(void)
{
    size_t page = (size_t)sysconf(_SC_PAGESIZE);
    return (COMPARE_OCTETS + page - 1) / page * page;
}

static const void *lend_input(input *to, const void *data, size_t n)
{
    if (to->start == NULL) {
        void *got = mmap(NULL, 3 * middle(), PROT_NONE, MAP_PRIVATE | MAP_ANONYMOUS, -1, 0);
        if (got == MAP_FAILED)
            abort();
        to->start = got;
        if (mprotect(to->start + middle(), middle(), PROT_READ | PROT_WRITE) != 0)
            abort();
    }
    if (n > COMPARE_OCTETS)
        abort();
    to->n = n;
    to->lent = to->start + (is_in_front ? middle() : 2 * middle() - n);
    if (n > 0) {
        memcpy(to->lent, data, n);
        memcpy(to->before, data, n);
    }
    return to->lent;
}

static int unchanged(const input *lent)
{
    return lent->n == 0 || memcmp(lent->lent, lent->before, lent->n) == 0;
}

/* All memory lent to be written, with some on both sides, is as the second implementation left its
   own, and the inputs are as they were. */
static void compare_memory(void)
{
    MUST(memcmp(octets, wanted_octets, sizeof octets) == 0);
    MUST(memcmp(numbers, wanted_numbers, sizeof numbers) == 0);
    MUST(unchanged(&first_lent) && unchanged(&bodies_lent));
}

static void compare_writing(moult_writing got, moult_writing wanted)
{
    MUST(got.number == wanted.number && got.place == wanted.place && got.octets == wanted.octets);
    compare_memory();
}

static size_t room(size_t needed, int more)
{
    if (more < 0 && needed < (size_t)-more)
        return 0;
    size_t n = more < 0 ? needed - (size_t)-more : needed + (size_t)more;
    if (n > ROOM - GUARD)
        abort();
    return n;
}

/* What was read, written: the payload again. */
static void compare_back(compare_session in, const uint8_t *payload, size_t n, moult_reading r)
{
    static uint8_t back[MOULT_MAX_OCTETS];
    moult_writing w = moult_write_session(in.agreed, in.rate, numbers + GUARD, 2 * r.rows,
                                          octets + GUARD, r.octets, back, n);
    MUST(w.number == 0 && w.octets == n && (n == 0 || memcmp(back, payload, n) == 0));
}

static void compare_reading(moult_reading got, moult_reading wanted)
{
    MUST(got.number == wanted.number && got.place == wanted.place);
    MUST(got.rows == wanted.rows && got.octets == wanted.octets);
    MUST(got.rate == wanted.rate && got.ticks == wanted.ticks);
    compare_memory();
}

static void compare_read(compare_session in, const uint8_t *payload, size_t n, int more_numbers,
                         int more_octets)
{
    second_walked w = second_walk_session(in.agreed, in.rate, payload, n);
    size_t rows_n = room(2 * w.frames, more_numbers), bodies_n = room(w.octets, more_octets);
    lend();
    moult_reading got = moult_read_session(in.agreed, in.rate, payload, n, numbers + GUARD, rows_n,
                                           octets + GUARD, bodies_n);
    moult_reading wanted = second_read_session(in.agreed, in.rate, payload, n,
                                               wanted_numbers + GUARD, rows_n,
                                               wanted_octets + GUARD, bodies_n);
    compare_reading(got, wanted);
    if (got.number == 0)
        compare_back(in, payload, n, got);
    if (in.agreed)
        return;
    lend();
    got = moult_read(payload, n, numbers + GUARD, rows_n, octets + GUARD, bodies_n);
    compare_reading(second_read(payload, n, wanted_numbers + GUARD, rows_n, wanted_octets + GUARD,
                                bodies_n),
                    wanted);
    compare_reading(got, wanted);
}

static void compare_part(moult_part got, moult_part wanted)
{
    MUST(got.stand_in == wanted.stand_in);
    MUST(got.start == wanted.start && got.length == wanted.length);
}

static void compare_view(compare_session in, const uint8_t *payload, size_t n, size_t row)
{
    /* A stand-in is never looked at, so it need not be readable. */
    const uint8_t *stand_in = first_lent.start;
    moult_part wanted = second_augmentation_session(in.agreed, in.rate, payload, n, row);
    compare_part(moult_augmentation_session(in.agreed, in.rate, payload, n, row), wanted);
    if (!in.agreed) {
        compare_part(second_augmentation(payload, n, row), wanted);
        compare_part(moult_augmentation(payload, n, row), wanted);
    }
    wanted = second_frame_or_session(in.agreed, in.rate, payload, n, row, stand_in, 9);
    compare_part(moult_frame_or_session(in.agreed, in.rate, payload, n, row, stand_in, 9), wanted);
    if (!in.agreed) {
        compare_part(second_frame_or(payload, n, row, stand_in, 9), wanted);
        compare_part(moult_frame_or(payload, n, row, stand_in, 9), wanted);
    }
}

static void compare_time(moult_ticks got, moult_ticks wanted)
{
    MUST(got.number == wanted.number && got.place == wanted.place && got.ticks == wanted.ticks);
}

static void compare_ticks(compare_session in, const uint8_t *payload, size_t n)
{
    moult_ticks wanted = second_packet_ticks_session(in.agreed, in.rate, payload, n);
    compare_time(moult_packet_ticks_session(in.agreed, in.rate, payload, n), wanted);
    if (!in.agreed) {
        compare_time(second_packet_ticks(payload, n), wanted);
        compare_time(moult_packet_ticks(payload, n), wanted);
        MUST(moult_count(payload, n) == second_count(payload, n));
    }
}

void compare_payload(compare_session in, const uint8_t *data, size_t n, int more_numbers,
                     int more_octets)
{
    const uint8_t *payload = lend_input(&first_lent, data, n);
    size_t frames = second_walk_session(in.agreed, in.rate, payload, n).frames;
    compare_read(in, payload, n, more_numbers, more_octets);
    compare_ticks(in, payload, n);
    for (size_t row = 0; row <= frames; row++)
        compare_view(in, payload, n, row);
    compare_view(in, payload, n, SIZE_MAX);
    compare_memory();
}

void compare_write(compare_session in, const uint16_t *row_list, size_t rows_n,
                   const uint8_t *body_list, size_t bodies_n, int more)
{
    const uint16_t *rows = lend_input(&first_lent, row_list, rows_n * sizeof *rows);
    const uint8_t *bodies = lend_input(&bodies_lent, body_list, bodies_n);
    lend();
    moult_writing full = second_write_session(in.agreed, in.rate, rows, rows_n, bodies, bodies_n,
                                              wanted_octets + GUARD, MOULT_MAX_OCTETS);
    size_t out_n = room(full.octets, more);
    lend();
    moult_writing wanted = second_write_session(in.agreed, in.rate, rows, rows_n, bodies, bodies_n,
                                                wanted_octets + GUARD, out_n);
    compare_writing(moult_write_session(in.agreed, in.rate, rows, rows_n, bodies, bodies_n,
                                        octets + GUARD, out_n),
                    wanted);
    if (in.agreed)
        return;
    lend();
    moult_writing got = moult_write(rows, rows_n, bodies, bodies_n, octets + GUARD, out_n);
    compare_writing(second_write(rows, rows_n, bodies, bodies_n, wanted_octets + GUARD, out_n),
                    wanted);
    compare_writing(got, wanted);
}

void compare_body_octets(uint16_t kind, uint16_t tc)
{
    MUST(moult_body_octets(kind, tc) == second_body_octets(kind, tc));
}

void compare_ptime(uint32_t rate, size_t frames)
{
    moult_millis got = moult_ptime(rate, frames), wanted = second_ptime(rate, frames);
    MUST(got.number == wanted.number && got.place == wanted.place && got.millis == wanted.millis);
}

void compare_settings_read(const uint8_t *data, size_t n)
{
    const uint8_t *text = lend_input(&first_lent, data, n);
    moult_settings_reading got = moult_settings_read(text, n);
    moult_settings_reading wanted = second_settings_read(text, n);
    MUST(got.number == wanted.number && got.place == wanted.place);
    MUST(got.settings.first == wanted.settings.first);
    MUST(got.settings.second == wanted.settings.second);
    MUST(got.settings.third == wanted.settings.third);
    MUST(got.settings.tcmax == wanted.settings.tcmax);
    MUST(unchanged(&first_lent));
}

void compare_settings_write(moult_settings s, int more)
{
    uint8_t text[MOULT_MAX_SETTINGS];
    size_t n = second_settings_write(s.first, s.second, s.third, s.tcmax, text, sizeof text).octets;
    size_t out_n = room(n, more);
    lend();
    compare_writing(
        moult_settings_write(s.first, s.second, s.third, s.tcmax, octets + GUARD, out_n),
        second_settings_write(s.first, s.second, s.third, s.tcmax, wanted_octets + GUARD, out_n));
}

void compare_unpack(uint8_t mode, const uint8_t *data, size_t body_n, int more)
{
    uint16_t all[MOULT_MAX_FIELDS];
    const uint8_t *body = lend_input(&first_lent, data, body_n);
    size_t fields_n = room(second_unpack(mode, body, body_n, all, MOULT_MAX_FIELDS).octets, more);
    lend();
    compare_writing(moult_unpack(mode, body, body_n, numbers + GUARD, fields_n),
                    second_unpack(mode, body, body_n, wanted_numbers + GUARD, fields_n));
}

void compare_pack(uint8_t mode, const uint16_t *data, size_t fields_n, int more)
{
    const uint16_t *fields = lend_input(&first_lent, data, fields_n * sizeof *fields);
    size_t out_n = room(MOULT_BODY_600, more);
    lend();
    compare_writing(moult_pack(mode, fields, fields_n, octets + GUARD, out_n),
                    second_pack(mode, fields, fields_n, wanted_octets + GUARD, out_n));
}

static int same_entry(moult_entry a, moult_entry b)
{
    return a.number == b.number && a.entries == b.entries && a.place == b.place &&
           a.ticks == b.ticks && a.source == b.source && a.start == b.start && a.next == b.next;
}

/* An entry that was read, written: its octets again. */
static moult_entry compare_entry(const uint8_t *journal, size_t n, size_t at)
{
    static uint8_t back[MOULT_MAX_ENTRY];
    moult_entry e = moult_journal_entry_at(journal, n, at);
    MUST(same_entry(e, second_journal_entry_at(journal, n, at)));
    if (e.entries) {
        moult_writing w = moult_journal_write_entry(e.ticks, e.source, journal + e.start,
                                                    e.next - e.start, back, e.next - at);
        MUST(w.number == 0 && w.octets == e.next - at);
        MUST(memcmp(back, journal + at, w.octets) == 0);
    }
    return e;
}

void compare_journal(const uint8_t *data, size_t n, size_t at)
{
    const uint8_t *journal = lend_input(&first_lent, data, n);
    compare_entry(journal, n, at);
    moult_entry e = compare_entry(journal, n, 0);
    while (e.entries)
        e = compare_entry(journal, n, e.next);
    MUST(unchanged(&first_lent));
}

void compare_entry_write(uint64_t ticks, uint64_t source, const uint8_t *data, size_t n, int more)
{
    uint8_t entry[MOULT_MAX_ENTRY];
    const uint8_t *payload = lend_input(&first_lent, data, n);
    size_t needed = second_journal_write_entry(ticks, source, payload, n, entry, sizeof entry)
                        .octets;
    size_t out_n = room(needed, more);
    lend();
    moult_writing got = moult_journal_write_entry(ticks, source, payload, n, octets + GUARD, out_n);
    compare_writing(got, second_journal_write_entry(ticks, source, payload, n,
                                                    wanted_octets + GUARD, out_n));
    if (got.number == 0) {
        moult_entry read = {0, 1, 0, ticks, source, needed - n, needed};
        MUST(same_entry(moult_journal_entry_at(octets + GUARD, needed, 0), read));
    }
}

/* Member by member: what stands behind the last one is nobody's. */
static int same_record(const moult_record *a, const moult_record *b)
{
    return memcmp(a->numbers, b->numbers, sizeof a->numbers) == 0 &&
           memcmp(a->starts, b->starts, sizeof a->starts) == 0 && a->rows == b->rows &&
           a->octets == b->octets && a->ticks == b->ticks;
}

static moult_record_change operate(moult_record record, compare_operation o)
{
    switch (o.what) {
    case COMPARE_PUSH:
        return moult_record_push(record, o.kind, o.tc);
    case COMPARE_POP:
        return moult_record_pop(record);
    default:
        return moult_record_replace(record, o.row, o.kind, o.tc);
    }
}

static moult_record_change operate_second(moult_record record, compare_operation o)
{
    switch (o.what) {
    case COMPARE_PUSH:
        return second_record_push(record, o.kind, o.tc);
    case COMPARE_POP:
        return second_record_pop(record);
    default:
        return second_record_replace(record, o.row, o.kind, o.tc);
    }
}

/* What a record says of a row, there or not. */
static void compare_row(moult_record record, size_t row)
{
    moult_row got = moult_record_row(record, row), wanted = second_record_row(record, row);
    MUST(got.number == wanted.number && got.place == wanted.place);
    MUST(got.kind == wanted.kind && got.tc == wanted.tc);
    moult_start start = moult_record_start(record, row);
    moult_start wanted_start = second_record_start(record, row);
    MUST(start.number == wanted_start.number && start.place == wanted_start.place);
    MUST(start.start == wanted_start.start);
}

void compare_rows(moult_record record)
{
    for (size_t row = 0; row <= record.rows; row++)
        compare_row(record, row);
}

moult_record compare_record(const compare_operation *run, size_t n, size_t row)
{
    moult_record record = moult_record_empty(), empty = MOULT_RECORD_EMPTY;
    MUST(same_record(&record, &empty));
    for (size_t i = 0; i < n; i++) {
        moult_record_change got = operate(record, run[i]);
        moult_record_change wanted = operate_second(record, run[i]);
        MUST(got.number == wanted.number && got.place == wanted.place);
        MUST(same_record(&got.record, &wanted.record));
        MUST(got.number == 0 || same_record(&got.record, &record));
        record = got.record;
        MUST(moult_record_rows(record) == record.rows);
        MUST(moult_record_octets(record) == record.octets);
        MUST(moult_record_ticks(record) == record.ticks);
        compare_row(record, 0);
        compare_row(record, record.rows - 1);
        compare_row(record, record.rows);
        compare_row(record, SIZE_MAX);
        compare_row(record, row);
    }
    return record;
}

void compare_made_up(moult_record record, compare_operation values)
{
    moult_record before = record;
    for (values.what = COMPARE_PUSH; values.what <= COMPARE_REPLACE; values.what++) {
        moult_record_change got = operate(record, values);
        MUST(same_record(&record, &before));
        MUST(got.number == 0 || same_record(&got.record, &before));
        MUST(got.number != 0 || got.place == 0);
    }
    moult_record_rows(record);
    moult_record_octets(record);
    moult_record_ticks(record);
    moult_record_row(record, values.row);
    moult_record_start(record, values.row);
    MUST(same_record(&record, &before));
}
