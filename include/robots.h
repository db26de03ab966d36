/*
 * robots.h - questions about robots.txt files (RFC 9309, and the draft of 1996).
 *
 * May this crawler fetch this path, by this rules file? The library answers
 * allow or disallow, with the rule that decided, for one path or for a list of
 * paths in one call. It ends with an answer on any octets, and a refused
 * decision is disallow: it fails shut. It also matches one pattern against one
 * path, normalises a path, and tells the kind of one line.
 *
 * A whole program, which prints "disallow" and ends with status 1:
 *
 *     #include "robots.h"
 *     #include <stdio.h>
 *     int main(void) {
 *         const uint8_t file[] = "user-agent: *\ndisallow: /sailings/draft\n";
 *         const uint8_t name[] = "drydockbot", path[] = "/sailings/draft/9";
 *         size_t disallow = robots_decide_disallow(ROBOTS_RFC9309,
 *             file, sizeof file - 1, name, sizeof name - 1,
 *             path, sizeof path - 1);
 *         puts(disallow ? "disallow" : "allow");
 *         return disallow ? 1 : 0;
 *     }
 *
 * Each function answers one number of one question; robots_batch alone answers
 * for a list. None keeps anything between calls or allocates memory. Each needs
 * at most 16 KiB of stack, however long its inputs are; robots_batch needs more,
 * as is told there.
 *
 * Octets are given as a pointer and a length. The caller owes:
 * - the pointer points to at least `length` octets that may be read and are
 *   initialised. It may be NULL only if the length is 0;
 * - nobody changes these octets during the call.
 * The octets needn't end with NUL, and a NUL among them is an octet like
 * others.
 *
 * Places count from 0, and line numbers from 1.
 */
#ifndef ROBOTS_H
#define ROBOTS_H

#include <stddef.h>
#include <stdint.h>

#ifdef __cplusplus
extern "C" {
#endif

/*
 * Whose rules decide: the first argument of robots_batch and of the functions
 * named robots_decide_...
 *
 * The dialect changes two things: what a pattern means, and which of the rules
 * that match decides. By the RFC "*" and a final "$" have a meaning in a pattern,
 * and the heaviest match decides. By the draft of 1996 they are octets like
 * others, and the first match in file order decides. Lines, groups, names and
 * paths are read alike. Any other number, however large, is no dialect: it is
 * refused, and so disallowed, before anything else is looked at.
 */
enum robots_dialect {
    ROBOTS_RFC9309 = 0,  /* the RFC's */
    ROBOTS_DRAFT1996 = 1 /* that of the draft of 1996, for old servers only: a
                            file for the RFC may close less by it */
};

/*
 * Why a question is refused: what robots_batch and the functions named
 * robots_..._refusal answer. Each tests what concerns its question, and gives
 * the smallest number that holds; but ROBOTS_REFUSED_DIALECT is tested first of
 * all.
 */
enum robots_refusal {
    ROBOTS_ANSWERED = 0,            /* not refused */
    ROBOTS_REFUSED_LENGTH = 1,      /* file, pattern or line over 512,000
                                       octets */
    ROBOTS_REFUSED_NAME = 2,        /* name empty, over 64 octets, or with an
                                       octet other than A-Z a-z - _ */
    ROBOTS_REFUSED_PATH_LENGTH = 3, /* path empty, or over 2,048 octets */
    ROBOTS_REFUSED_PATH_START = 4,  /* path doesn't begin with "/" */
    ROBOTS_REFUSED_PATH_OCTET = 5,  /* path holds an octet of 0x20 or less, or
                                       "#" */
    ROBOTS_REFUSED_ROOM = 6,        /* normalised path longer than the buffer */
    ROBOTS_REFUSED_INPUT = 7,       /* input over 65,536 octets: the program
                                       robots_decide only, no function */
    ROBOTS_REFUSED_PATTERN = 8,     /* pattern empty or unreadable */
    ROBOTS_REFUSED_LINES = 9,       /* line holds CR or LF */
    ROBOTS_REFUSED_ENDS = 12,       /* an end is smaller than the one before
                                       it, or the last isn't the length of the
                                       joined paths: robots_batch only */
    ROBOTS_REFUSED_ANSWERS = 13,    /* fewer places in refusals, sides or lines
                                       than ends: robots_batch only */
    ROBOTS_REFUSED_DIALECT = 20     /* no number of enum robots_dialect */
};

/*
 * The kinds of lines. The name of a user-agent line is the longest beginning of
 * its value that holds A-Z a-z - _ only, and what stands behind it, such as a
 * version, is ignored: "ExampleBot/2.1" names ExampleBot. The line is unreadable
 * if that beginning is empty and the value isn't exactly "*". A readable pattern
 * begins with "/" or "*"; the rest is told below, with one pattern against one
 * path.
 */
enum robots_kind {
    ROBOTS_KIND_REFUSED = 0,             /* no kind: see robots_line_refusal */
    ROBOTS_KIND_BLANK = 1,               /* empty, spaces, or a comment only */
    ROBOTS_KIND_NOISE = 2,               /* no colon */
    ROBOTS_KIND_OTHER = 3,               /* a field that isn't named below */
    ROBOTS_KIND_AGENT_READABLE = 4,      /* user-agent: "*", or begins with a
                                            name */
    ROBOTS_KIND_AGENT_UNREADABLE = 5,    /* user-agent: anything else */
    ROBOTS_KIND_ALLOW_EMPTY = 6,         /* allow: no pattern */
    ROBOTS_KIND_ALLOW_READABLE = 7,      /* allow: a readable pattern */
    ROBOTS_KIND_ALLOW_UNREADABLE = 8,    /* allow: anything else */
    ROBOTS_KIND_DISALLOW_EMPTY = 9,      /* disallow: no pattern */
    ROBOTS_KIND_DISALLOW_READABLE = 10,  /* disallow: a readable pattern */
    ROBOTS_KIND_DISALLOW_UNREADABLE = 11 /* disallow: anything else */
};

/* The longest inputs that are answered, and the longest outcome. */
enum robots_limit {
    ROBOTS_FILE_MOST = 512000,    /* octets of a rules file */
    ROBOTS_NAME_MOST = 64,        /* octets of a crawler's name */
    ROBOTS_LINE_MOST = 512000,    /* octets of a line */
    ROBOTS_PATTERN_MOST = 512000, /* octets of a pattern */
    ROBOTS_PATH_MOST = 2048,      /* octets of a path */
    ROBOTS_NORMALISED_MOST = 6142 /* octets of a normalised path */
};

/*
 * May a crawler fetch a path, by a rules file?
 *
 * `dialect` is a number of enum robots_dialect: give ROBOTS_RFC9309 unless the
 * server's files are known to be written for the draft.
 *
 * `file` is a whole robots.txt as it was fetched; it may be empty. `name` is
 * the crawler's name, without a version: it is compared with the names of
 * user-agent lines, as told above, ignoring ASCII case, and is equal or
 * different; ExampleBot isn't met by "Example", nor by "ExampleBot-News". `path`
 * is given raw, with its query if any.
 *
 * If any group of the file names the crawler, the rules of all such groups
 * apply; otherwise those of all groups that name "*"; otherwise none. If no rule
 * matches, or if the normalised path is /robots.txt, no rule decides and the
 * answer is allow.
 *
 * ROBOTS_RFC9309: of the rules that match the path the heaviest decides, allow
 * before disallow at equal weight, then the earliest line. A match and a weight
 * are as below, with robots_match_found and robots_match_compared.
 *
 * ROBOTS_DRAFT1996: of the rules that match the path the first in file order
 * decides, over all groups that apply, and none behind it is compared. "*" and
 * "$" in a pattern stand for themselves and are normalised as in a path, to %2A
 * and %24. A rule matches if its normalised pattern is a beginning of the
 * normalised path; its weight is the octets of that pattern. So a rule such as
 * "*.gif", which is read as in the RFC, matches no path.
 *
 * The seven functions take the same question, and each answers one number of
 * the same decision. If refused, robots_decide_disallow answers 1, and line,
 * place, length and both counts are 0.
 */

/*
 * Why a dialect, a file, a name and a path are refused.
 *
 * Answers ROBOTS_ANSWERED if they aren't, else ROBOTS_REFUSED_DIALECT,
 * ROBOTS_REFUSED_LENGTH, ROBOTS_REFUSED_NAME, ROBOTS_REFUSED_PATH_LENGTH,
 * ROBOTS_REFUSED_PATH_START or ROBOTS_REFUSED_PATH_OCTET: the first of these
 * that holds.
 */
size_t robots_decide_refusal(size_t dialect,
                             const uint8_t *file, size_t file_length,
                             const uint8_t *name, size_t name_length,
                             const uint8_t *path, size_t path_length);

/*
 * Whether the crawler has to leave the path alone.
 *
 * Answers 0 for allow and 1 for disallow. Answers 1 if refused.
 */
size_t robots_decide_disallow(size_t dialect,
                              const uint8_t *file, size_t file_length,
                              const uint8_t *name, size_t name_length,
                              const uint8_t *path, size_t path_length);

/*
 * The number of the line that decided.
 *
 * It is the line of the deciding rule. Answers 0 if no rule decided, and if
 * refused.
 */
size_t robots_decide_line(size_t dialect,
                          const uint8_t *file, size_t file_length,
                          const uint8_t *name, size_t name_length,
                          const uint8_t *path, size_t path_length);

/*
 * The place in the file of the deciding rule's pattern.
 *
 * Answers 0 if no rule decided, and if refused. Otherwise the octets from this
 * place on, as many as robots_decide_length answers, lie inside the file. They
 * are the pattern raw, as it is written there. If the file begins with
 * EF BB BF, these octets are skipped, but the places count from the first.
 */
size_t robots_decide_place(size_t dialect,
                           const uint8_t *file, size_t file_length,
                           const uint8_t *name, size_t name_length,
                           const uint8_t *path, size_t path_length);

/*
 * The length of the deciding rule's pattern, raw, without the spaces and tabs
 * around it and without a comment.
 *
 * Answers 0 if no rule decided, and if refused.
 */
size_t robots_decide_length(size_t dialect,
                            const uint8_t *file, size_t file_length,
                            const uint8_t *name, size_t name_length,
                            const uint8_t *path, size_t path_length);

/*
 * The number of unreadable user-agent, allow and disallow lines in the whole
 * file, whoever they are for. An allow or disallow line without a pattern isn't
 * one of them.
 *
 * Answers 0 if refused; an answer of 0 by itself is no refusal.
 */
size_t robots_decide_unread(size_t dialect,
                            const uint8_t *file, size_t file_length,
                            const uint8_t *name, size_t name_length,
                            const uint8_t *path, size_t path_length);

/*
 * The number of pairs of octets that were compared to decide.
 *
 * ROBOTS_RFC9309: it is the sum of what robots_match_compared answers for each
 * readable rule that applies. ROBOTS_DRAFT1996: the sum goes over the readable
 * rules that apply up to the deciding one, or over all if none decides; each
 * compares its pattern with the path from the first octet to the first
 * difference, and a pattern that is longer than the path compares nothing. In
 * both it is 0 if the normalised path is /robots.txt, and at most the summed
 * weights of those rules, times the octets of the normalised path. Answers 0 if
 * refused; an answer of 0 by itself is no refusal.
 */
size_t robots_decide_compared(size_t dialect,
                              const uint8_t *file, size_t file_length,
                              const uint8_t *name, size_t name_length,
                              const uint8_t *path, size_t path_length);

/*
 * May a crawler fetch each of a list of paths, by one rules file?
 *
 * Dialect, file and name are as told above. `paths` is the octets of all paths,
 * joined, with nothing between them. `ends` has one element for each path, and
 * tells where it ends: path i is the octets of `paths` from place ends[i - 1], or
 * 0 for the first, to before place ends[i]. So equal neighbours are an empty
 * path, the last end is `paths_length`, and an empty list has both lengths 0.
 *
 * The answers for path i go to place i of three arrays. They are those to a
 * single question about this path:
 * - refusals[i] is what robots_decide_refusal answers;
 * - sides[i] is what robots_decide_disallow answers, 0 for allow and 1 for
 *   disallow;
 * - lines[i] is what robots_decide_line answers.
 * A path's own refusal, ROBOTS_REFUSED_PATH_LENGTH, ROBOTS_REFUSED_PATH_START or
 * ROBOTS_REFUSED_PATH_OCTET, closes this path and leaves the others as they are.
 * The arrays may be longer than the list: places beyond the last path stay as
 * they were. The file is read once for all paths.
 *
 * Answers ROBOTS_ANSWERED, or why the whole call is refused:
 * ROBOTS_REFUSED_DIALECT, ROBOTS_REFUSED_LENGTH, ROBOTS_REFUSED_NAME,
 * ROBOTS_REFUSED_ENDS or ROBOTS_REFUSED_ANSWERS, the first of these that holds.
 * If refused, nothing is written: whoever doesn't look at the number reads what
 * was in the arrays before, and 0 in `sides` is allow. So test the number, or
 * set all of `sides` to 1 before the call.
 *
 * The caller owes, besides the above, for `ends`, `refusals`, `sides` and
 * `lines`, which are arrays of size_t:
 * - their lengths count elements, not octets;
 * - each pointer points to so many elements that are initialised, and may be
 *   NULL only if the length is 0; nobody changes `ends` during the call;
 * - `refusals`, `sides` and `lines` may be written. They overlap neither each
 *   other nor anything else that is lent to the call, and nobody else reads or
 *   writes them during it.
 *
 * The call needs at most 40 KiB of stack, however long file and list are.
 */
size_t robots_batch(size_t dialect,
                    const uint8_t *file, size_t file_length,
                    const uint8_t *name, size_t name_length,
                    const uint8_t *paths, size_t paths_length,
                    const size_t *ends, size_t ends_length,
                    size_t *refusals, size_t refusals_length,
                    size_t *sides, size_t sides_length,
                    size_t *lines, size_t lines_length);

/*
 * Normalises a path, with its query if any, into the front of `buffer`.
 *
 * Answers the number of octets written, at least 1; the rest of the buffer
 * stays as it was. No NUL is added. If refused, the answer is 0 and nothing
 * is written; robots_normalise_refusal says why. A buffer of
 * ROBOTS_NORMALISED_MOST octets is never too small.
 *
 * The caller owes, besides the above: `buffer` points to `buffer_length`
 * octets that may be written and are initialised (NULL only if that is 0), it
 * doesn't overlap `path`, and nobody else reads or writes it during the call.
 */
size_t robots_normalise(const uint8_t *path, size_t path_length,
                        uint8_t *buffer, size_t buffer_length);

/*
 * Why robots_normalise refuses this path with a buffer of `room` octets.
 *
 * Answers ROBOTS_ANSWERED if it doesn't, else ROBOTS_REFUSED_PATH_LENGTH,
 * ROBOTS_REFUSED_PATH_START, ROBOTS_REFUSED_PATH_OCTET or ROBOTS_REFUSED_ROOM.
 * `room` is a number only: no buffer is lent, and any number may be given.
 */
size_t robots_normalise_refusal(const uint8_t *path, size_t path_length,
                                size_t room);

/*
 * Why a line, given without its line ending, is refused.
 *
 * Answers ROBOTS_ANSWERED if it isn't, else ROBOTS_REFUSED_LENGTH or
 * ROBOTS_REFUSED_LINES.
 */
size_t robots_line_refusal(const uint8_t *line, size_t line_length);

/*
 * The kind of one line, given without its line ending.
 *
 * Answers a number of enum robots_kind; ROBOTS_KIND_REFUSED if the line is
 * refused. The octets EF BB BF, which may begin a file, are octets like
 * others here: skip them before giving a file's first line.
 */
size_t robots_line_kind(const uint8_t *line, size_t line_length);

/*
 * The place in the line of an agent's value or a rule's pattern.
 *
 * Answers 0 if the line is refused, if that value or pattern is empty, and
 * for every other kind of line. Otherwise the octets from this place on, as
 * many as robots_line_length answers, lie inside the line.
 */
size_t robots_line_place(const uint8_t *line, size_t line_length);

/*
 * The length of an agent's value, with what stands behind its name, or of a
 * rule's pattern, without the spaces and tabs around it and without a comment.
 *
 * Answers 0 if the line is refused, if that value or pattern is empty, and
 * for every other kind of line.
 */
size_t robots_line_length(const uint8_t *line, size_t line_length);

/*
 * One pattern against one path.
 *
 * This is the RFC's dialect. The pattern is given raw, as it stands in a rule
 * line. "*" is a star: it stands for any number of octets of the normalised
 * path, none included, and may stop inside a %XX. "$" as the last octet is the
 * end mark. All else stands for itself; %61 is "a", but %2F isn't "/". A
 * pattern is readable if it begins with "/" or "*" and is UTF-8 that holds
 * neither "#" nor an octet under 0x21: so "*.gif$" is, and "gif" and "$"
 * aren't. The path is given raw too, with its query if any. Both are normalised
 * before they are compared. /robots.txt is a path like others here.
 */

/*
 * Why a pattern and a path are refused.
 *
 * Answers ROBOTS_ANSWERED if they aren't, else ROBOTS_REFUSED_LENGTH,
 * ROBOTS_REFUSED_PATH_LENGTH, ROBOTS_REFUSED_PATH_START,
 * ROBOTS_REFUSED_PATH_OCTET or ROBOTS_REFUSED_PATTERN.
 */
size_t robots_match_refusal(const uint8_t *pattern, size_t pattern_length,
                            const uint8_t *path, size_t path_length);

/*
 * Whether the pattern matches the path.
 *
 * Answers 1 if its stars can be filled so that it is a beginning of the path,
 * or all of the path where there is an end mark; otherwise 0. Answers 0 if
 * refused.
 */
size_t robots_match_found(const uint8_t *pattern, size_t pattern_length,
                          const uint8_t *path, size_t path_length);

/*
 * The number of pairs of octets that were compared to find that out.
 *
 * It is that of the leftmost walk, which tries the octets between two stars
 * from left to right and never moves them once they stand. It is at most the
 * pattern's weight times the octets of the normalised path; the weight is the
 * octets of the normalised pattern, with 1 for each star and 1 for the end
 * mark. Answers 0 if refused; an answer of 0 by itself is no refusal.
 */
size_t robots_match_compared(const uint8_t *pattern, size_t pattern_length,
                             const uint8_t *path, size_t path_length);

#ifdef __cplusplus
}
#endif

#endif
