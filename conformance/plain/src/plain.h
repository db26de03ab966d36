/*
 * plain.h - a plain evaluator of robots.txt files (RFC 9309, and the draft of
 * 1996).
 */
#ifndef PLAIN_H
#define PLAIN_H

#include <stddef.h>
#include <stdint.h>

/* A refused decision holds its refusal, disallow 1, and zeros. */
struct plain_decision {
    size_t refusal;  /* 0 if answered, otherwise 1 to 5, or 20 */
    size_t disallow; /* 0 or 1 */
    size_t line;     /* the deciding rule's line, from 1; 0 if no rule decided */
    size_t place;    /* of that rule's raw pattern in the file, from 0 */
    size_t length;   /* of that raw pattern */
    size_t unread;   /* unreadable agent and rule lines in the whole file */
    size_t compared; /* pairs of octets compared for the rules that apply */
};

/*
 * `dialect` is 0 for the RFC's, 1 for the draft's; another is refused. No
 * pointer is NULL, even if its length is 0.
 */
struct plain_decision plain_decide(size_t dialect, const uint8_t *file, size_t file_length,
                                   const uint8_t *name, size_t name_length,
                                   const uint8_t *path, size_t path_length);

/* Given if the rules of a file need more memory than there is. */
enum { PLAIN_NO_MEMORY = 100 };

/*
 * A list of paths, joined: `ends` tells where each one ends. Each path's
 * refusal, side (disallow 1) and deciding line go to its place in the three
 * slices. Gives 0, or 20, 1, 2, 12 if the ends ever decrease or the last isn't
 * the joined length, 13 if a slice is shorter than the list, or PLAIN_NO_MEMORY;
 * then nothing is written. No pointer is NULL.
 */
size_t plain_batch(size_t dialect, const uint8_t *file, size_t file_length,
                   const uint8_t *name, size_t name_length,
                   const uint8_t *paths, size_t paths_length,
                   const size_t *ends, size_t ends_length,
                   size_t *refusals, size_t refusals_length,
                   size_t *sides, size_t sides_length, size_t *lines, size_t lines_length);

/* One pattern against one path; a refused match holds its refusal and zeros. */
struct plain_matched {
    size_t refusal;  /* 0 if answered, otherwise 1, 3, 4, 5 or 8 */
    size_t found;    /* 0 or 1 */
    size_t compared; /* pairs of octets compared */
};

struct plain_matched plain_match(const uint8_t *pattern, size_t pattern_length,
                                 const uint8_t *path, size_t path_length);

/* A path normalised into the front of a buffer; a refused one writes nothing. */
struct plain_normalised {
    size_t refusal; /* 0 if answered, otherwise 3 to 6 */
    size_t written; /* octets */
};

/* `buffer` holds `room` octets, and may be NULL only if that is 0. */
struct plain_normalised plain_normalise(const uint8_t *path, size_t path_length,
                                        uint8_t *buffer, size_t room);

#endif
