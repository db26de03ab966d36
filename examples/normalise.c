/* Prints each path as it is compared with patterns: normalise PATH... */
#include <stdio.h>
#include <string.h>

#include "robots.h"

int main(int argc, char **argv)
{
    uint8_t buffer[ROBOTS_NORMALISED_MOST] = {0};

    if (argc < 2) {
        fputs("normalise: give it one or more paths, such as '/caf%c3%a9'\n", stderr);
        return 2;
    }
    for (int i = 1; i < argc; i++) {
        const uint8_t *path = (const uint8_t *)argv[i];
        size_t length = strlen(argv[i]);
        size_t written = robots_normalise(path, length, buffer, sizeof buffer);

        if (written == 0) {
            printf("refused %zu\n", robots_normalise_refusal(path, length, sizeof buffer));
        } else {
            printf("%.*s\n", (int)written, (const char *)buffer);
        }
    }
    return 0;
}
