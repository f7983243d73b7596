/* A first host: takes the octets of a payload in hex, one to an argument, and prints its frames.
       cc first.c $(pkg-config --cflags --libs moult) -o first
       ./first 01 02 03 04 05 06 07 00 A0 */
#include <moult.h>

#include <stdio.h>
#include <stdlib.h>

int main(int argc, char **argv)
{
    uint8_t payload[MOULT_MAX_OCTETS + 1]; /* one more: the library says what is too long */
    uint16_t rows[MOULT_MAX_NUMBERS];
    uint8_t bodies[MOULT_MAX_OCTETS];
    size_t n = 0;
    for (int i = 1; i < argc && n < sizeof payload; i++)
        payload[n++] = (uint8_t)strtoul(argv[i], NULL, 16);
    moult_reading r = moult_read(payload, n, rows, MOULT_MAX_NUMBERS, bodies, MOULT_MAX_OCTETS);
    if (r.number != MOULT_ACCEPTED) {
        printf("refused %u (%s), place %zu\n", (unsigned)r.number, moult_refusal_text(r.number),
               r.place);
        return 1;
    }
    printf("%zu frames, %zu ticks of 1/8000 second\n", r.rows, r.ticks);
    const uint8_t *body = bodies;
    for (size_t i = 0; i < r.rows; i++) {
        uint16_t kind = rows[2 * i], tc = rows[2 * i + 1];
        size_t octets = moult_body_octets(kind, tc);
        printf("%s:", moult_kind_text(kind));
        for (size_t k = 0; k < octets; k++)
            printf(" %02X", (unsigned)body[k]);
        printf("\n");
        body += octets;
    }
    return 0;
}
