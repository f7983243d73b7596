/* Runs the recorded cases of tests/vectors, each file (.jsonl) that an argument names. The first
   answer that differs is named with its line, and ends the run. Compiled with SECOND, it runs them
   with the second C implementation in the library's place. */
#define _POSIX_C_SOURCE 200809L
#include "check.h"

#include <string.h>

#ifdef SECOND
#include "second.h"
#define CALL(name) second_##name
#else
#include "moult.h"
#define CALL(name) moult_##name
#endif

/* ---- a line: one object, written as make_vectors writes it */

static const char *file_name, *line;
static unsigned long line_number;

/* EXPECT holds of the answer to the case at hand. */
#define EXPECT(what)                                                                             \
    do {                                                                                         \
        if (!(what)) {                                                                           \
            fprintf(stderr, "%s:%lu: does not hold: %s\n%.300s\n", file_name, line_number, #what, \
                    line);                                                                       \
            exit(1);                                                                             \
        }                                                                                        \
        checks++;                                                                                \
    } while (0)

static const char *value_behind(const char *from, const char *key)
{
    char wanted[40];
    snprintf(wanted, sizeof wanted, "\"%s\": ", key);
    const char *at = strstr(from, wanted);
    EXPECT(at != NULL);
    return at + strlen(wanted);
}

static size_t number_of(const char *key)
{
    return strtoull(value_behind(line, key), NULL, 10);
}

/* Puts the octets of a hex text into out; gives how many. */
static size_t octets_at(const char *text, uint8_t *out)
{
    size_t n = 0;
    for (text++; *text != '"'; text += 2) {
        char digits[3] = {text[0], text[1], 0};
        out[n++] = (uint8_t)strtoul(digits, NULL, 16);
    }
    return n;
}

static size_t octets_of(const char *key, uint8_t *out)
{
    return octets_at(value_behind(line, key), out);
}

/* Puts the numbers of a list into out; gives how many. */
static size_t list_of(const char *key, uint16_t *out)
{
    size_t n = 0;
    const char *at = value_behind(line, key) + 1;
    while (*at != ']') {
        char *end;
        out[n++] = (uint16_t)strtoul(at, &end, 10);
        at = *end == ',' ? end + 2 : end;
    }
    return n;
}

/* Puts the octets of a text into out; gives how many. Each character is one octet. */
static size_t text_of(const char *key, uint8_t *out)
{
    size_t n = 0;
    for (const char *at = value_behind(line, key) + 1; *at != '"'; at++) {
        if (*at != '\\') {
            out[n++] = (uint8_t)*at;
        } else if (*++at == 'u') {
            char digits[5] = {at[1], at[2], at[3], at[4], 0};
            out[n++] = (uint8_t)strtoul(digits, NULL, 16);
            at += 4;
        } else {
            out[n++] = (uint8_t)(*at == 'n' ? '\n' : *at == 't' ? '\t' : *at == 'r' ? '\r' : *at);
        }
    }
    return n;
}

/* ---- memory lent to be filled, with some on both sides */

enum { SIDE = 16, ROOM = 1500, FILL = 0xA5 };
static uint8_t octets[SIDE + ROOM + SIDE], wanted_octets[SIDE + ROOM + SIDE];
static uint16_t numbers[SIDE + ROOM + SIDE], wanted_numbers[SIDE + ROOM + SIDE];
static uint8_t *const lent_octets = octets + SIDE, *const want_octets = wanted_octets + SIDE;
static uint16_t *const lent_numbers = numbers + SIDE, *const want_numbers = wanted_numbers + SIDE;

/* Octets and numbers that a case hands in. */
static uint8_t given[4096], more_given[4096];
static uint16_t listed[4096];

static void lend(void)
{
    memset(octets, FILL, sizeof octets);
    memset(wanted_octets, FILL, sizeof wanted_octets);
    memset(numbers, FILL, sizeof numbers);
    memset(wanted_numbers, FILL, sizeof wanted_numbers);
}

static void expect_memory(void)
{
    EXPECT(memcmp(octets, wanted_octets, sizeof octets) == 0);
    EXPECT(memcmp(numbers, wanted_numbers, sizeof numbers) == 0);
}

static void expect_writing(moult_writing w, size_t filled)
{
    EXPECT(w.number == number_of("number") && w.place == number_of("place"));
    EXPECT(w.octets == filled);
    expect_memory();
}

/* ---- the cases */

/* Puts the frames wanted into the memory wanted; gives the octets of their bodies. */
static size_t wanted_frames(size_t *rows)
{
    size_t size = 0;
    const char *at = value_behind(line, "frames");
    const char *end = value_behind(at, "packet_ticks");
    *rows = 0;
    while ((at = strstr(at, "\"kind\": ")) != NULL && at < end) {
        want_numbers[2 * *rows] = (uint16_t)strtoul(value_behind(at, "kind"), NULL, 10);
        want_numbers[2 * *rows + 1] = (uint16_t)strtoul(value_behind(at, "tc"), NULL, 10);
        size_t body = octets_at(value_behind(at, "body"), want_octets + size);
        EXPECT(CALL(body_octets)(want_numbers[2 * *rows], want_numbers[2 * *rows + 1]) == body);
        size += body;
        *rows += 1;
        at++;
    }
    return size;
}

static void expect_reading(moult_reading r)
{
    size_t rows, size = wanted_frames(&rows);
    EXPECT(r.number == number_of("number") && r.place == number_of("place"));
    EXPECT(r.rows == rows && r.octets == size);
    EXPECT(r.rate == number_of("rate") && r.ticks == number_of("ticks"));
    expect_memory();
}

/* Packet time asks for no room. */
static void expect_ticks(moult_ticks t)
{
    size_t number = number_of("number");
    int for_room = number == MOULT_NUMBERS_TOO_SHORT || number == MOULT_OCTETS_TOO_SHORT;
    EXPECT(t.number == (for_room ? 0 : number));
    EXPECT(t.place == (for_room ? 0 : number_of("place")));
    EXPECT(t.ticks == number_of("packet_ticks"));
}

static void run_read(void)
{
    size_t n = octets_of("payload", given);
    lend();
    expect_reading(CALL(read)(given, n, lent_numbers, number_of("numbers"), lent_octets,
                              number_of("octets")));
    EXPECT(CALL(count)(given, n) == strtol(value_behind(line, "count"), NULL, 10));
    expect_ticks(CALL(packet_ticks)(given, n));
}

static void expect_augmentation(moult_part part, size_t n)
{
    size_t length = octets_of("augmentation", want_octets);
    EXPECT(part.stand_in == 0 && part.length == length && (length > 0 || part.start == 0));
    EXPECT(part.start <= n && length <= n - part.start);
    EXPECT(memcmp(given + part.start, want_octets, length) == 0);
}

static void expect_frame(moult_part part, size_t n, size_t stand_in_n)
{
    size_t length = octets_of("frame", want_octets);
    EXPECT(part.length == length);
    EXPECT(part.start + length <= (part.stand_in ? stand_in_n : n));
    EXPECT(memcmp((part.stand_in ? more_given : given) + part.start, want_octets, length) == 0);
}

static void run_view(void)
{
    size_t n = octets_of("payload", given), row = number_of("row");
    size_t stand_in_n = octets_of("stand_in", more_given);
    expect_augmentation(CALL(augmentation)(given, n, row), n);
    expect_frame(CALL(frame_or)(given, n, row, more_given, stand_in_n), n, stand_in_n);
}

static void run_time(void)
{
    moult_millis t = CALL(ptime)((uint32_t)number_of("rate"), number_of("frames"));
    EXPECT(t.number == number_of("number") && t.place == number_of("place"));
    EXPECT(t.millis == number_of("millis"));
}

static void run_write(void)
{
    size_t rows_n = list_of("rows", listed), n = octets_of("bodies", given);
    lend();
    moult_writing w = CALL(write)(listed, rows_n, given, n, lent_octets, number_of("octets"));
    expect_writing(w, octets_of("payload", want_octets));
}

static uint32_t agreed(void)
{
    return (uint32_t)number_of("agreed");
}

static uint32_t agreed_rate(void)
{
    return (uint32_t)number_of("agreed_rate");
}

static void run_session_read(void)
{
    size_t n = octets_of("payload", given);
    lend();
    expect_reading(CALL(read_session)(agreed(), agreed_rate(), given, n, lent_numbers,
                                      number_of("numbers"), lent_octets, number_of("octets")));
    expect_ticks(CALL(packet_ticks_session)(agreed(), agreed_rate(), given, n));
}

static void run_session_write(void)
{
    size_t rows_n = list_of("rows", listed), n = octets_of("bodies", given);
    lend();
    moult_writing w = CALL(write_session)(agreed(), agreed_rate(), listed, rows_n, given, n,
                                          lent_octets, number_of("octets"));
    expect_writing(w, octets_of("payload", want_octets));
}

static void run_session_view(void)
{
    size_t n = octets_of("payload", given), row = number_of("row");
    size_t stand_in_n = octets_of("stand_in", more_given);
    expect_augmentation(CALL(augmentation_session)(agreed(), agreed_rate(), given, n, row), n);
    moult_part part = CALL(frame_or_session)(agreed(), agreed_rate(), given, n, row, more_given,
                                             stand_in_n);
    expect_frame(part, n, stand_in_n);
}

static void run_settings_read(void)
{
    uint16_t rates[3];
    size_t n = text_of("text", given);
    moult_settings_reading r = CALL(settings_read)(given, n);
    EXPECT(r.number == number_of("number") && r.place == number_of("place"));
    EXPECT(list_of("rates", rates) == 3);
    EXPECT(r.settings.first == rates[0] && r.settings.second == rates[1]);
    EXPECT(r.settings.third == rates[2] && r.settings.tcmax == number_of("tcmax"));
}

static void run_settings_write(void)
{
    uint16_t rates[3];
    EXPECT(list_of("rates", rates) == 3);
    lend();
    moult_writing w = CALL(settings_write)(rates[0], rates[1], rates[2],
                                           (uint16_t)number_of("tcmax"), lent_octets,
                                           number_of("octets"));
    expect_writing(w, text_of("text", want_octets));
}

static void run_unpack(void)
{
    size_t n = octets_of("body", given);
    lend();
    moult_writing w = CALL(unpack)((uint8_t)number_of("mode"), given, n, lent_numbers,
                                   number_of("numbers"));
    expect_writing(w, list_of("fields", want_numbers));
}

static void run_pack(void)
{
    size_t n = list_of("fields", listed);
    lend();
    moult_writing w = CALL(pack)((uint8_t)number_of("mode"), listed, n, lent_octets,
                                 number_of("octets"));
    expect_writing(w, octets_of("body", want_octets));
}

static void run_entry(void)
{
    size_t n = octets_of("journal", given);
    moult_entry e = CALL(journal_entry_at)(given, n, number_of("at"));
    EXPECT(e.number == number_of("number") && e.place == number_of("place"));
    EXPECT(e.entries == number_of("entries"));
    EXPECT(e.ticks == number_of("ticks") && e.source == number_of("source"));
    EXPECT(e.start == number_of("start") && e.next == number_of("next"));
}

static void run_entry_write(void)
{
    size_t n = octets_of("payload", given);
    lend();
    moult_writing w = CALL(journal_write_entry)(number_of("ticks"), number_of("source"), given, n,
                                                lent_octets, number_of("octets"));
    expect_writing(w, octets_of("entry", want_octets));
}

/* The next number, which may be one of 64 bits; *at is then behind it. */
static size_t next_number(const char **at)
{
    char *end;
    size_t number = strtoull(*at + strcspn(*at, "0123456789"), &end, 10);
    *at = end;
    return number;
}

/* An operation such as ["replace", 0, 3, 0]. */
static moult_record_change operate(moult_record record, const char *at)
{
    int replaces = strncmp(at, "[\"replace\"", 10) == 0;
    if (strncmp(at, "[\"pop\"", 6) == 0)
        return CALL(record_pop)(record);
    EXPECT(replaces || strncmp(at, "[\"push\"", 7) == 0);
    size_t row = replaces ? next_number(&at) : 0;
    uint16_t kind = (uint16_t)next_number(&at), tc = (uint16_t)next_number(&at);
    return replaces ? CALL(record_replace)(record, row, kind, tc)
                    : CALL(record_push)(record, kind, tc);
}

static int same_record(const moult_record *a, const moult_record *b)
{
    return memcmp(a->numbers, b->numbers, sizeof a->numbers) == 0 &&
           memcmp(a->starts, b->starts, sizeof a->starts) == 0 && a->rows == b->rows &&
           a->octets == b->octets && a->ticks == b->ticks;
}

/* The record behind a case's operations, of which those are refused that it says. */
static moult_record run_operations(void)
{
    moult_record record = CALL(record_empty)();
    const char *refusal = value_behind(line, "refusals"), *end = refusal;
    const char *at = value_behind(line, "operations");
    for (size_t i = 0; (at = strstr(at, "[\"")) != NULL && at < end; at++, i++) {
        const char *next = refusal;
        moult_record_change c = operate(record, at);
        if (c.number == 0) {
            EXPECT(c.place == 0);
        } else {
            EXPECT(same_record(&c.record, &record));
            EXPECT(next_number(&next) == i);
            EXPECT(next_number(&next) == c.number && next_number(&next) == c.place);
            refusal = next;
        }
        record = c.record;
    }
    /* None is left: the list ends. */
    EXPECT(refusal[strcspn(refusal, "0123456789\"")] == '"');
    return record;
}

static void run_record(void)
{
    moult_record record = run_operations(), wanted = MOULT_RECORD_EMPTY;
    size_t asked = number_of("asked");
    wanted.rows = list_of("rows", listed) / 2;
    memcpy(wanted.numbers, listed, 2 * wanted.rows * sizeof listed[0]);
    EXPECT(list_of("starts", listed) == wanted.rows);
    memcpy(wanted.starts, listed, wanted.rows * sizeof listed[0]);
    wanted.octets = number_of("octets");
    wanted.ticks = (uint32_t)number_of("ticks");
    EXPECT(same_record(&record, &wanted));
    EXPECT(CALL(record_rows)(record) == wanted.rows);
    EXPECT(CALL(record_octets)(record) == wanted.octets);
    EXPECT(CALL(record_ticks)(record) == wanted.ticks);
    for (size_t i = 0; i < wanted.rows; i++) {
        moult_row r = CALL(record_row)(record, i);
        EXPECT(r.number == 0 && r.place == 0);
        EXPECT(r.kind == wanted.numbers[2 * i] && r.tc == wanted.numbers[2 * i + 1]);
        moult_start s = CALL(record_start)(record, i);
        EXPECT(s.number == 0 && s.place == 0 && s.start == wanted.starts[i]);
    }
    moult_row r = CALL(record_row)(record, asked);
    moult_start s = CALL(record_start)(record, asked);
    uint16_t row[2] = {0, 0};
    list_of("row", row);
    EXPECT(r.number == number_of("number") && r.place == number_of("place"));
    EXPECT(r.kind == row[0] && r.tc == row[1]);
    EXPECT(s.number == r.number && s.place == r.place && s.start == number_of("start"));
}

static void run_line(void)
{
    static const struct {
        const char *name;
        void (*run)(void);
    } cases[] = {
        {"read", run_read},
        {"view", run_view},
        {"time", run_time},
        {"write", run_write},
        {"session_read", run_session_read},
        {"session_write", run_session_write},
        {"session_view", run_session_view},
        {"settings_read", run_settings_read},
        {"settings_write", run_settings_write},
        {"unpack", run_unpack},
        {"pack", run_pack},
        {"entry", run_entry},
        {"entry_write", run_entry_write},
        {"record", run_record},
    };
    char name[20];
    EXPECT(sscanf(line, "{\"case\": \"%19[a-z_]\"", name) == 1);
    for (size_t i = 0; i < sizeof cases / sizeof cases[0]; i++) {
        if (strcmp(name, cases[i].name) == 0) {
            cases[i].run();
            return;
        }
    }
    EXPECT(!"a case of a name that is known");
}

static unsigned long run_file(const char *name)
{
    FILE *in = fopen(name, "r");
    char *text = NULL;
    size_t room = 0;
    file_name = name;
    line_number = 0;
    if (in == NULL) {
        perror(name);
        exit(1);
    }
    while (getline(&text, &room, in) > 0) {
        line = text;
        line_number++;
        run_line();
    }
    CHECK(!ferror(in) && line_number > 0);
    fclose(in);
    free(text);
    return line_number;
}

int main(int argc, char **argv)
{
    unsigned long cases = 0;
    for (int i = 1; i < argc; i++)
        cases += run_file(argv[i]);
    CHECK(cases > 0);
    printf("%lu recorded cases, %lu checks held\n", cases, checks);
    return 0;
}
