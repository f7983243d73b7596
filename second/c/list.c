/* The listing of standard input. */
#include "second.h"

#include <stdio.h>
#include <string.h>

static char line[128];

static char *put_number(char *at, unsigned long value)
{
    char digits[24];
    int n = 0;
    do {
        digits[n++] = (char)('0' + value % 10);
        value /= 10;
    } while (value);
    while (n)
        *at++ = digits[--n];
    return at;
}

static char *put_text(char *at, const char *text)
{
    size_t n = strlen(text);
    memcpy(at, text, n);
    return at + n;
}

static void put_line(unsigned long number, const second_walked *walked)
{
    char *at = put_number(line, number);
    at = put_text(at, walked->number ? " refused " : " ok ");
    at = put_number(at, walked->number ? walked->number : walked->frames);
    *at++ = ' ';
    at = put_number(at, walked->number ? walked->place : walked->ticks);
    *at++ = '\n';
    fwrite_unlocked(line, 1, (size_t)(at - line), stdout);
}

/* 1 with a length, 0 at the end of the input, -1 for a bad length. */
static int get_length(size_t *length)
{
    int low = getc_unlocked(stdin);
    if (low == EOF)
        return 0;
    *length = (size_t)low;
    if (low < 128)
        return 1;
    int high = getc_unlocked(stdin);
    if (high == EOF || high == 0 || high >= 128)
        return -1;
    *length = (size_t)(low - 128) + 128 * (size_t)high;
    return *length <= MOULT_MAX_OCTETS ? 1 : -1;
}

int main(void)
{
    static uint8_t payload[MOULT_MAX_OCTETS];
    static char in[65536], out[65536];
    setvbuf(stdin, in, _IOFBF, sizeof in);
    setvbuf(stdout, out, _IOFBF, sizeof out);
    unsigned long lines = 0;
    size_t length = 0;
    int answer;
    while ((answer = get_length(&length)) == 1) {
        if (fread_unlocked(payload, 1, length, stdin) != length) {
            answer = -1;
            break;
        }
        second_walked walked = second_walk(payload, length);
        put_line(++lines, &walked);
    }
    if (ferror(stdin)) {
        perror("standard input");
        return 1;
    }
    printf("%s %lu\n", answer == 0 ? "end" : "cut", lines);
    return fflush(stdout) != 0;
}
