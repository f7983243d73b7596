/* Lists a file of payloads, each behind its length in groups of seven bits, low group
   first, 128 meaning "more", shortest form, at most two groups. For each payload a line: its
   number, "ok", frames and ticks; or its number, "refused", refusal number and place. Then "end"
   (or "cut", where a length is bad or the file ends inside a payload) and the number of payloads.
   A file that cannot be read to its end gets no last line: a message says so, and the exit is 1. */
#include <moult.h>

#include <stdio.h>

enum { LENGTH_END, LENGTH_BAD, LENGTH_GOOD };

static int read_length(FILE *in, size_t *length)
{
    int low = getc(in);
    if (low == EOF)
        return LENGTH_END;
    *length = (size_t)low;
    if (low < 128)
        return LENGTH_GOOD;
    int high = getc(in);
    /* A high group of 0 is not the shortest form, one of 128 or more calls for a third group. */
    if (high == EOF || high == 0 || high >= 128)
        return LENGTH_BAD;
    *length = (size_t)(low - 128) + 128 * (size_t)high;
    return *length <= MOULT_MAX_OCTETS ? LENGTH_GOOD : LENGTH_BAD;
}

/* One reading tells everything about a payload; the rows and bodies are not needed here. */
static void print_line(unsigned long number, const uint8_t *payload, size_t length)
{
    static uint16_t rows[MOULT_MAX_NUMBERS];
    static uint8_t bodies[MOULT_MAX_OCTETS];
    moult_reading r = moult_read(payload, length, rows, MOULT_MAX_NUMBERS, bodies, MOULT_MAX_OCTETS);
    if (r.number != MOULT_ACCEPTED)
        printf("%lu refused %u %zu\n", number, (unsigned)r.number, r.place);
    else
        printf("%lu ok %zu %zu\n", number, r.rows, r.ticks);
}

/* Gives 0 if the file cannot be read to its end. */
static int list(FILE *in)
{
    static uint8_t payload[MOULT_MAX_OCTETS];
    unsigned long lines = 0;
    size_t length = 0;
    int answer;
    while ((answer = read_length(in, &length)) == LENGTH_GOOD) {
        if (fread(payload, 1, length, in) != length) {
            answer = LENGTH_BAD;
            break;
        }
        print_line(++lines, payload, length);
    }
    if (ferror(in))
        return 0;
    printf("%s %lu\n", answer == LENGTH_END ? "end" : "cut", lines);
    return 1;
}

int main(int argc, char **argv)
{
    if (argc > 2) {
        fprintf(stderr, "usage: %s [file]\n", argv[0]);
        return 2;
    }
    const char *name = argc == 2 ? argv[1] : "standard input";
    FILE *in = argc == 2 ? fopen(argv[1], "rb") : stdin;
    int failed = in == NULL || !list(in);
    if (failed)
        perror(name);
    if (in != NULL && in != stdin)
        fclose(in);
    /* An earlier line may have failed though the last ones can be written. */
    if (fflush(stdout) != 0 || ferror(stdout)) {
        fprintf(stderr, "the list cannot be written\n");
        failed = 1;
    }
    return failed;
}
