/* Tells whether a rule's pattern matches a path: match PATTERN PATH */
#include <stdio.h>
#include <string.h>

#include "robots.h"

int main(int argc, char **argv)
{
    if (argc != 3) {
        fputs("match: give it a pattern and a path, such as '/*.htm' /page.htm\n", stderr);
        return 2;
    }
    const uint8_t *pattern = (const uint8_t *)argv[1];
    const uint8_t *path = (const uint8_t *)argv[2];
    size_t pattern_length = strlen(argv[1]);
    size_t path_length = strlen(argv[2]);
    size_t refusal = robots_match_refusal(pattern, pattern_length, path, path_length);

    if (refusal != ROBOTS_ANSWERED) {
        printf("refused %zu\n", refusal);
        return 0;
    }
    size_t found = robots_match_found(pattern, pattern_length, path, path_length);
    size_t compared = robots_match_compared(pattern, pattern_length, path, path_length);

    printf("%s, %zu compared\n", found ? "yes" : "no", compared);
    return 0;
}
