/*
 * May a crawler fetch each of a list of paths? batch NAME FILE PATH..., or batch alone for an example. The exit status
 * is 0 only if every path is allowed, and 2 if nothing is answered.
 */
#include <stdio.h>
#include <string.h>

#include "robots.h"

enum { PATHS_MOST = 300, OCTETS_MOST = 65536 };

static uint8_t file[ROBOTS_FILE_MOST + 1] = "user-agent: *\ndisallow: /sailings/draft\nallow: /sailings\n";
static const char *const example[] = {"/sailings/draft/9", "/sailings/9", "/harbour", "sailings/9"};

/* The paths, joined, and where each ends; and the answers, a place for each path. */
static uint8_t joined[OCTETS_MOST];
static size_t ends[PATHS_MOST];
static size_t refusals[PATHS_MOST], sides[PATHS_MOST], lines[PATHS_MOST];

/* Reads one octet more than is answered, so that a longer file is refused. Answers 0 if it can't be read. */
static int read_file(const char *where, size_t *length)
{
    FILE *in = fopen(where, "rb");

    if (in == NULL) {
        return 0;
    }
    *length = fread(file, 1, sizeof file, in);
    int failed = ferror(in);
    fclose(in);
    return !failed;
}

/* Answers 0 if there is no room for the paths. */
static int join(const char *const *paths, size_t count, size_t *length)
{
    *length = 0;
    if (count > PATHS_MOST) {
        return 0;
    }
    for (size_t i = 0; i < count; i++) {
        size_t octets = strlen(paths[i]);

        if (octets > sizeof joined - *length) {
            return 0;
        }
        memcpy(joined + *length, paths[i], octets);
        *length += octets;
        ends[i] = *length;
    }
    return 1;
}

/* Prints a line for each path. Answers how many are disallowed; a refused path is. */
static size_t tell(const char *const *paths, size_t count)
{
    size_t disallowed = 0;

    for (size_t i = 0; i < count; i++) {
        printf("%s, ", sides[i] ? "disallow" : "allow");
        if (refusals[i] != ROBOTS_ANSWERED) {
            printf("refused %zu: %s\n", refusals[i], paths[i]);
        } else if (lines[i] > 0) {
            printf("by line %zu: %s\n", lines[i], paths[i]);
        } else {
            printf("by no rule: %s\n", paths[i]);
        }
        disallowed += sides[i];
    }
    return disallowed;
}

int main(int argc, char **argv)
{
    if (argc != 1 && argc < 4) {
        fputs("batch: give it a name, a file and paths, such as drydockbot robots.txt /sailings/9 /harbour\n", stderr);
        return 2;
    }
    const char *name = argc > 3 ? argv[1] : "drydockbot";
    const char *const *paths = argc > 3 ? (const char *const *)argv + 3 : example;
    size_t count = argc > 3 ? (size_t)argc - 3 : sizeof example / sizeof example[0];
    size_t length = strlen((const char *)file), octets;

    if (argc > 3 && !read_file(argv[2], &length)) {
        fprintf(stderr, "batch: can't read %s, so nothing is allowed: give it a file that can be read\n", argv[2]);
        return 2;
    }
    if (!join(paths, count, &octets)) {
        fprintf(stderr, "batch: more than %d paths, or %d octets of them, so nothing is allowed: give it fewer\n",
                PATHS_MOST, OCTETS_MOST);
        return 2;
    }
    /* a refused call writes no answers, so the number comes first */
    size_t refusal = robots_batch(ROBOTS_RFC9309, file, length, (const uint8_t *)name, strlen(name), joined, octets,
                                  ends, count, refusals, count, sides, count, lines, count);

    if (refusal != ROBOTS_ANSWERED) {
        fprintf(stderr, "batch: refused %zu, so nothing is allowed: see enum robots_refusal in robots.h\n", refusal);
        return 2;
    }
    return tell(paths, count) > 0 ? 1 : 0;
}
