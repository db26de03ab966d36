/* May a crawler fetch a path? link NAME PATH FILE, or link alone for an example. The exit status is 0 for allow only. */
#include <stdio.h>
#include <string.h>

#include "robots.h"

static uint8_t file[ROBOTS_FILE_MOST + 1] = "user-agent: *\ndisallow: /sailings/draft\nallow: /sailings\n";

/* Reads one octet more than is answered, so that a longer file is refused. Answers 0 if it can't be read. */
static int read_file(const char *where, size_t *length)
{
    FILE *in = fopen(where, "rb");

    if (in == NULL) {
        return 0;
    }
    *length = fread(file, 1, sizeof file, in);
    int failed = ferror(in);
    fclose(in);
    return !failed;
}

/* What each function is asked: by the RFC. */
#define QUESTION \
    ROBOTS_RFC9309, file, length, (const uint8_t *)name, strlen(name), (const uint8_t *)path, strlen(path)

int main(int argc, char **argv)
{
    if (argc != 1 && argc != 4) {
        fputs("link: give it a name, a path and a file, such as drydockbot /sailings/draft/9 robots.txt\n", stderr);
        return 2;
    }
    const char *name = argc == 4 ? argv[1] : "drydockbot";
    const char *path = argc == 4 ? argv[2] : "/sailings/draft/9";
    size_t length = strlen((const char *)file);

    if (argc == 4 && !read_file(argv[3], &length)) {
        fprintf(stderr, "link: can't read %s, so nothing is allowed: give it a file that can be read\n", argv[3]);
        return 2;
    }
    size_t disallow = robots_decide_disallow(QUESTION);
    size_t line = robots_decide_line(QUESTION);

    printf("%s, ", disallow ? "disallow" : "allow");
    if (line > 0) {
        int octets = (int)robots_decide_length(QUESTION);
        printf("by line %zu: %.*s\n", line, octets, (const char *)file + robots_decide_place(QUESTION));
    } else if (disallow) {
        printf("refused %zu\n", robots_decide_refusal(QUESTION));
    } else {
        puts("by no rule");
    }
    return disallow ? 1 : 0;
}
