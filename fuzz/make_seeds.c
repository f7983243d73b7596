/* Writes each line of seeds.txt that is no comment as a file of octets into a directory. */
#include <stdio.h>
#include <stdlib.h>
#include <string.h>

static int write_seed(const char *line, FILE *out)
{
    while (*line && *line != '\n') {
        char *end;
        unsigned octet = (unsigned)strtoul(line, &end, 16);
        unsigned times = 1;
        if (end == line)
            return 0;
        if (*end == '*')
            times = (unsigned)strtoul(end + 1, &end, 10);
        while (times-- > 0)
            fputc((int)octet, out);
        line = end + strspn(end, " ");
    }
    return 1;
}

int main(int argc, char **argv)
{
    char line[1024], path[4096];
    unsigned lines = 0, seeds = 0;
    FILE *in = argc == 3 ? fopen(argv[1], "r") : NULL;
    if (in == NULL) {
        fprintf(stderr, "usage: make_seeds seeds.txt directory\n");
        return 2;
    }
    while (fgets(line, sizeof line, in)) {
        lines++;
        if (line[0] == '#')
            continue;
        snprintf(path, sizeof path, "%s/seed-%02u", argv[2], ++seeds);
        FILE *out = fopen(path, "wb");
        if (out == NULL || !write_seed(line, out) || fclose(out) != 0) {
            fprintf(stderr, "%s: line %u cannot be written as %s\n", argv[1], lines, path);
            return 1;
        }
    }
    fclose(in);
    return 0;
}
