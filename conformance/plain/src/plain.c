/*
 * A file is read once, from front to back. A line that is neither an agent line
 * nor a rule is left at its first octets. Whether a group names the crawler is
 * known at the end only; until one does, the rules for everyone are walked too,
 * into a tally of their own. By the draft of 1996 the first match decides, and
 * no rule behind it is walked. For a list of paths these rules are kept, their
 * patterns normalised, and those that apply are walked once the file is read.
 */
#include "plain.h"

#include <stdbool.h>
#include <stdlib.h>
#include <string.h>

enum {
    FILE_MOST = 512000,
    NAME_MOST = 64,
    PATTERN_MOST = 512000,
    PATH_MOST = 2048,
    NORMALISED_MOST = 6142 /* "/", and an escape for each other octet */
};

/* Rules that are kept before there is more memory for them; it is doubled. */
enum { RULES_FIRST = 64 };

enum { RFC9309 = 0, DRAFT1996 = 1 };

/* What an octet is; several may hold. */
enum {
    PLAIN = 1,      /* normalising leaves it as it is, in a pattern and in a path */
    UNRESERVED = 2, /* A-Z a-z 0-9 - . _ ~ */
    NAME = 4,       /* A-Z a-z - _ */
    STOP = 8        /* ends a value: CR, LF, "#" */
};

#define P PLAIN
#define U (PLAIN | UNRESERVED)
#define N (PLAIN | UNRESERVED | NAME)
#define S STOP
static const uint8_t sorts[256] = {
    0, 0, 0, 0, 0, 0, 0, 0, 0, 0, S, 0, 0, S, 0, 0, /* LF, CR */
    0, 0, 0, 0, 0, 0, 0, 0, 0, 0, 0, 0, 0, 0, 0, 0,
    0, P, P, S, 0, 0, P, P, P, P, 0, P, P, N, U, P, /*  !"#$%&'()*+,-./ */
    U, U, U, U, U, U, U, U, U, U, P, P, P, P, P, P, /* 0123456789:;<=>? */
    P, N, N, N, N, N, N, N, N, N, N, N, N, N, N, N, /* @ABCDEFGHIJKLMNO */
    N, N, N, N, N, N, N, N, N, N, N, P, P, P, P, N, /* PQRSTUVWXYZ[\]^_ */
    P, N, N, N, N, N, N, N, N, N, N, N, N, N, N, N, /* `abcdefghijklmno */
    N, N, N, N, N, N, N, N, N, N, N, P, P, P, U, 0, /* pqrstuvwxyz{|}~  */
};
#undef P
#undef U
#undef N
#undef S

struct text {
    const uint8_t *start;
    size_t length;
};

/* A readable pattern. */
struct pattern {
    struct text raw;
    size_t stars;
    size_t changed; /* octets and characters that normalising changes */
    bool end_mark;
};

/* The places where a run may be tried; none if `last` is under `first`. */
struct places {
    size_t first;
    size_t last;
};

struct walked {
    size_t weight; /* the pattern's; 0 if it doesn't match */
    size_t compared;
};

/* The deciding rule so far; its weight and line are 0 if there is none. */
struct tally {
    size_t weight;
    bool disallow;
    size_t line;
    struct text raw;
    size_t compared;
};

struct rule {
    struct pattern pattern;
    size_t line;
    bool disallow;
};

/* In the order of the file. */
struct rules {
    struct rule *start;
    size_t count;
    size_t room;
};

/* The rules that may apply to the paths of a list. */
struct kept {
    struct rules own;
    struct rules everyone;
    uint8_t *octets; /* of patterns that normalising changes, to at most three for one */
    size_t used;
    bool no_memory; /* for a rule, or for the octets */
};

/* Joined paths, their ends, and a place for each one's answers. */
struct list {
    const uint8_t *paths;
    const size_t *ends;
    size_t count;
    size_t *refusals, *sides, *lines;
};

struct state {
    bool draft; /* the dialect is that of 1996 */
    struct text name;
    struct text path;
    bool walks_none;   /* the path is /robots.txt, or the rules are kept */
    struct kept *kept; /* NULL if they aren't */
    /* the first at or behind the place of the last search, or the file's end */
    const uint8_t *next_lf, *next_cr;
    size_t line;
    size_t unread;
    bool after_rule;     /* the next agent line starts a group */
    bool names_crawler;  /* this group */
    bool names_everyone; /* this group names "*" */
    bool crawler_named;  /* by some group */
    struct tally own;
    struct tally everyone;
};

static uint8_t lower(uint8_t octet)
{
    return octet >= 'A' && octet <= 'Z' ? octet + ('a' - 'A') : octet;
}

static int hex_value(uint8_t digit)
{
    if (digit >= '0' && digit <= '9')
        return digit - '0';
    digit = lower(digit);
    return digit >= 'a' && digit <= 'f' ? digit - 'a' + 10 : -1;
}

/* The octet that is meant by "%" and two hex digits; -1 if none is. */
static int escape_meant(const uint8_t *at, size_t left)
{
    if (left < 3 || at[0] != '%')
        return -1;
    int high = hex_value(at[1]), low = hex_value(at[2]);
    return high < 0 || low < 0 ? -1 : high * 16 + low;
}

/*
 * Normalises a path, or a run of a pattern, into the buffer. Gives the octets
 * written, or more than `room` if that is too small.
 */
static size_t normalise(struct text raw, uint8_t *buffer, size_t room)
{
    static const char digits[] = "0123456789ABCDEF";
    size_t written = 0;
    for (size_t at = 0; at < raw.length; at++) {
        uint8_t octet = raw.start[at];
        bool stays = sorts[octet] & PLAIN;
        int meant = stays ? -1 : escape_meant(raw.start + at, raw.length - at);
        if (meant >= 0) {
            octet = (uint8_t)meant;
            stays = sorts[octet] & UNRESERVED;
            at += 2;
        }
        if (room - written < (stays ? 1 : 3))
            return room + 1;
        if (stays) {
            buffer[written++] = octet;
        } else {
            buffer[written++] = '%';
            buffer[written++] = (uint8_t)digits[octet / 16];
            buffer[written++] = (uint8_t)digits[octet % 16];
        }
    }
    return written;
}

/*
 * Tries the run at one place after the other, until it stands. Gives that
 * place, or one that is over `places.last`. Every pair is compared here and
 * counted: document 01 wants it so, and memchr isn't used for that reason.
 */
static size_t try_places(struct text run, const uint8_t *path, struct places places,
                         size_t *compared)
{
    size_t start, count = 0;
    if (run.length == 0)
        return places.first;
    for (start = places.first; start <= places.last; start++) {
        count++;
        if (path[start] != run.start[0])
            continue;
        size_t equal = 1;
        while (equal < run.length && path[start + equal] == run.start[equal])
            equal++;
        count += equal - 1;
        if (equal == run.length)
            break;
        count++;
    }
    *compared += count;
    return start;
}

static struct places places_for(size_t run_length, size_t path_length, size_t end_before,
                                bool is_first, bool at_end)
{
    static const struct places none = {1, 0};
    if (run_length > path_length - end_before)
        return none;
    size_t last = path_length - run_length;
    if (at_end)
        return is_first && last != 0 ? none : (struct places){last, last};
    return is_first ? (struct places){0, 0} : (struct places){end_before, last};
}

/* The leftmost walk. */
static struct walked walk(const struct pattern *pattern, struct text path)
{
    uint8_t buffer[NORMALISED_MOST];
    struct walked walked = {pattern->stars + pattern->end_mark, 0};
    const uint8_t *raw = pattern->raw.start;
    const uint8_t *raw_end = raw + pattern->raw.length - pattern->end_mark;
    size_t end_before = 0;
    for (size_t stars = pattern->stars;; stars--) {
        bool is_first = stars == pattern->stars, is_last = stars == 0;
        const uint8_t *star = is_last ? raw_end : memchr(raw, '*', (size_t)(raw_end - raw));
        struct text run = {raw, (size_t)(star - raw)};
        if (pattern->changed)
            run = (struct text){buffer, normalise(run, buffer, path.length)};
        struct places places = places_for(run.length, path.length, end_before, is_first,
                                          is_last && pattern->end_mark);
        size_t start = try_places(run, path.start, places, &walked.compared);
        if (start > places.last)
            return (struct walked){0, walked.compared};
        walked.weight += run.length;
        if (is_last)
            return walked;
        end_before = start + run.length;
        raw = star + 1;
    }
}

/* By the draft, "*" and "$" are octets that normalising changes, as in a path. */
static void make_one_run(struct pattern *pattern)
{
    pattern->changed += pattern->stars + pattern->end_mark;
    pattern->stars = 0;
    pattern->end_mark = false;
}

static void walk_rule(const struct state *state, struct tally *tally, struct pattern *pattern,
                      bool disallow)
{
    if (state->draft) {
        if (tally->line != 0)
            return;
        make_one_run(pattern);
    }
    struct walked walked = walk(pattern, state->path);
    tally->compared += walked.compared;
    bool allows_at_tie = walked.weight == tally->weight && tally->disallow && !disallow;
    if (walked.weight > tally->weight || allows_at_tie) {
        tally->weight = walked.weight;
        tally->disallow = disallow;
        tally->line = state->line;
        tally->raw = pattern->raw;
    }
}

static const uint8_t *skip_blanks(const uint8_t *at, const uint8_t *end)
{
    while (at < end && (*at == ' ' || *at == '\t'))
        at++;
    return at;
}

static bool value_ends(const uint8_t *at, const uint8_t *end)
{
    return at == end || sorts[*at] & STOP;
}

static bool is_tail(uint8_t octet)
{
    return octet >= 0x80 && octet <= 0xBF;
}

/* The octets of the UTF8-char-noctl that stands here; 0 if none does. */
static size_t character_length(const uint8_t *at, size_t left)
{
    uint8_t first = at[0];
    if (first < 0x80)
        return first > 0x20 && first != '#';
    if (first < 0xC2 || first > 0xF4 || left < 2 || !is_tail(at[1]))
        return 0;
    if (first < 0xE0)
        return 2;
    /* overlong forms, surrogates, and what lies over U+10FFFF */
    if ((first == 0xE0 && at[1] < 0xA0) || (first == 0xED && at[1] > 0x9F)
        || (first == 0xF0 && at[1] < 0x90) || (first == 0xF4 && at[1] > 0x8F))
        return 0;
    if (left < 3 || !is_tail(at[2]))
        return 0;
    if (first < 0xF0)
        return 3;
    return left < 4 || !is_tail(at[3]) ? 0 : 4;
}

/* Reads characters as long as there are any: the pattern, and its end. */
static const uint8_t *read_characters(const uint8_t *start, const uint8_t *end,
                                      struct pattern *pattern)
{
    const uint8_t *at = start;
    size_t stars = 0, changed = 0;
    while (at < end) {
        if (sorts[*at] & PLAIN) {
            at++;
            continue;
        }
        size_t length = character_length(at, (size_t)(end - at));
        if (length == 0)
            break;
        if (*at == '*')
            stars++;
        else
            changed++;
        at += length;
    }
    bool end_mark = at[-1] == '$';
    *pattern = (struct pattern){{start, (size_t)(at - start)}, stars, changed - end_mark, end_mark};
    return at;
}

/* Adds a rule, unless there is no memory for it. */
static void add_rule(struct kept *kept, struct rules *rules, const struct rule *rule)
{
    if (rules->count == rules->room) {
        size_t room = rules->room ? 2 * rules->room : RULES_FIRST;
        struct rule *start = realloc(rules->start, room * sizeof *start);
        if (!start) {
            kept->no_memory = true;
            return;
        }
        rules->start = start;
        rules->room = room;
    }
    rules->start[rules->count++] = *rule;
}

/* Normalises a pattern, so that no walk has to: its stars and end mark stay. */
static void normalise_pattern(struct kept *kept, struct pattern *pattern)
{
    uint8_t *start = kept->octets + kept->used, *at = start;
    const uint8_t *raw = pattern->raw.start;
    const uint8_t *raw_end = raw + pattern->raw.length - pattern->end_mark;
    for (size_t stars = pattern->stars; stars > 0; stars--) {
        const uint8_t *star = memchr(raw, '*', (size_t)(raw_end - raw));
        struct text run = {raw, (size_t)(star - raw)};
        at += normalise(run, at, 3 * run.length);
        *at++ = '*';
        raw = star + 1;
    }
    struct text last = {raw, (size_t)(raw_end - raw)};
    at += normalise(last, at, 3 * last.length);
    if (pattern->end_mark)
        *at++ = '$';
    pattern->raw = (struct text){start, (size_t)(at - start)};
    pattern->changed = 0;
    kept->used += pattern->raw.length;
}

/* Keeps a rule, if it may apply to the paths of a list. */
static void keep_rule(struct state *state, struct pattern *pattern, bool disallow)
{
    struct kept *kept = state->kept;
    bool for_everyone = state->names_everyone && !state->crawler_named;
    if (!kept || kept->no_memory || !(state->names_crawler || for_everyone))
        return;
    if (state->draft)
        make_one_run(pattern);
    if (pattern->changed)
        normalise_pattern(kept, pattern);
    const struct rule rule = {*pattern, state->line, disallow};
    add_rule(kept, state->names_crawler ? &kept->own : &kept->everyone, &rule);
}

/* Reads a rule from behind its colon; gives the place where that ended. */
static const uint8_t *rule_line(struct state *state, const uint8_t *at, const uint8_t *end,
                                bool disallow)
{
    struct pattern pattern;
    state->after_rule = true;
    at = skip_blanks(at, end);
    if (value_ends(at, end))
        return at;
    bool starts_well = *at == '/' || *at == '*';
    if (starts_well)
        at = skip_blanks(read_characters(at, end, &pattern), end);
    if (!starts_well || !value_ends(at, end)) {
        state->unread++;
        return at;
    }
    if (state->walks_none)
        keep_rule(state, &pattern, disallow);
    else if (state->names_crawler)
        walk_rule(state, &state->own, &pattern, disallow);
    else if (state->names_everyone && !state->crawler_named)
        walk_rule(state, &state->everyone, &pattern, disallow);
    return at;
}

static bool same_name(struct text one, struct text other)
{
    if (one.length != other.length)
        return false;
    for (size_t at = 0; at < one.length; at++)
        if (lower(one.start[at]) != lower(other.start[at]))
            return false;
    return true;
}

/*
 * Reads an agent line from behind its colon; gives the place where that ended.
 * What stands behind a name is ignored, and behind "*" nothing may stand.
 */
static const uint8_t *agent_line(struct state *state, const uint8_t *at, const uint8_t *end)
{
    const uint8_t *start = skip_blanks(at, end);
    at = start;
    while (at < end && sorts[*at] & NAME)
        at++;
    struct text name = {start, (size_t)(at - start)};
    if (state->after_rule)
        state->after_rule = state->names_crawler = state->names_everyone = false;
    if (name.length != 0) {
        if (same_name(name, state->name))
            state->names_crawler = state->crawler_named = true;
        return at;
    }
    bool is_star = at < end && *at == '*';
    at = skip_blanks(at + is_star, end);
    if (is_star && value_ends(at, end))
        state->names_everyone = true;
    else
        state->unread++;
    return at;
}

/*
 * Whether the field that stands here has this name, which is in lower case; if
 * so, `*at` is put behind its colon.
 */
static inline bool is_field(const uint8_t **at, const uint8_t *end, const char *name,
                            size_t length)
{
    if ((size_t)(end - *at) < length)
        return false;
    for (size_t i = 0; i < length; i++)
        if (lower((*at)[i]) != (uint8_t)name[i])
            return false;
    const uint8_t *colon = skip_blanks(*at + length, end);
    if (colon == end || *colon != ':')
        return false;
    *at = colon + 1;
    return true;
}

/* Reads a line as far as it matters; gives the place where that ended. */
static const uint8_t *read_line(struct state *state, const uint8_t *at, const uint8_t *end)
{
    at = skip_blanks(at, end);
    if (at == end)
        return at;
    switch (*at) {
    case 'U':
    case 'u':
        return is_field(&at, end, "user-agent", 10) ? agent_line(state, at, end) : at;
    case 'A':
    case 'a':
        return is_field(&at, end, "allow", 5) ? rule_line(state, at, end, false) : at;
    case 'D':
    case 'd':
        return is_field(&at, end, "disallow", 8) ? rule_line(state, at, end, true) : at;
    default:
        return at;
    }
}

static const uint8_t *find(const uint8_t *at, const uint8_t *end, int octet)
{
    const uint8_t *found = memchr(at, octet, (size_t)(end - at));
    return found ? found : end;
}

/* The end of the line, seen from a place in it. */
static const uint8_t *line_end(struct state *state, const uint8_t *at, const uint8_t *end)
{
    if (at == end || *at == '\n' || *at == '\r')
        return at;
    if (state->next_lf < at)
        state->next_lf = find(at, end, '\n');
    if (state->next_cr < at)
        state->next_cr = find(at, end, '\r');
    return state->next_lf < state->next_cr ? state->next_lf : state->next_cr;
}

/* The start of the next line, seen from this one's end. */
static const uint8_t *next_line(const uint8_t *at, const uint8_t *end)
{
    if (end - at >= 2 && at[0] == '\r' && at[1] == '\n')
        return at + 2;
    return at == end ? at : at + 1;
}

static void read_file(struct state *state, struct text file)
{
    const uint8_t *at = file.start, *end = file.start + file.length;
    if (file.length >= 3 && memcmp(at, "\xEF\xBB\xBF", 3) == 0)
        at += 3;
    state->next_lf = find(at, end, '\n');
    state->next_cr = find(at, end, '\r');
    while (at < end) {
        state->line++;
        at = read_line(state, at, end);
        at = next_line(line_end(state, at, end), end);
    }
}

static bool is_name(struct text name)
{
    if (name.length == 0 || name.length > NAME_MOST)
        return false;
    for (size_t at = 0; at < name.length; at++)
        if (!(sorts[name.start[at]] & NAME))
            return false;
    return true;
}

static size_t path_refusal(struct text path)
{
    if (path.length == 0 || path.length > PATH_MOST)
        return 3;
    if (path.start[0] != '/')
        return 4;
    for (size_t at = 0; at < path.length; at++)
        if (path.start[at] <= 0x20 || path.start[at] == '#')
            return 5;
    return 0;
}

/* The refusal of a question, whatever its path. */
static size_t refusal(size_t dialect, struct text file, struct text name)
{
    if (dialect != RFC9309 && dialect != DRAFT1996)
        return 20;
    if (file.length > FILE_MOST)
        return 1;
    return is_name(name) ? 0 : 2;
}

static bool is_robots_txt(struct text path)
{
    static const char robots_txt[] = "/robots.txt";
    return path.length == sizeof robots_txt - 1
           && memcmp(path.start, robots_txt, path.length) == 0;
}

struct plain_decision plain_decide(size_t dialect, const uint8_t *file, size_t file_length,
                                   const uint8_t *name, size_t name_length,
                                   const uint8_t *path, size_t path_length)
{
    struct text whole = {file, file_length}, raw_path = {path, path_length};
    struct state state = {.draft = dialect == DRAFT1996, .name = {name, name_length}};
    size_t refused = refusal(dialect, whole, state.name);
    if (!refused)
        refused = path_refusal(raw_path);
    if (refused)
        return (struct plain_decision){.refusal = refused, .disallow = 1};
    uint8_t buffer[NORMALISED_MOST];
    state.path = (struct text){buffer, normalise(raw_path, buffer, NORMALISED_MOST)};
    state.walks_none = is_robots_txt(state.path);
    read_file(&state, whole);
    const struct tally *tally = state.crawler_named ? &state.own : &state.everyone;
    return (struct plain_decision){
        .disallow = tally->disallow,
        .line = tally->line,
        .place = tally->line ? (size_t)(tally->raw.start - file) : 0,
        .length = tally->raw.length,
        .unread = state.unread,
        .compared = tally->compared,
    };
}

/* Whether the ends never decrease, and the last is that of the joined paths. */
static bool are_ends(const size_t *ends, size_t count, size_t paths_length)
{
    size_t start = 0;
    for (size_t at = 0; at < count; at++) {
        if (ends[at] < start)
            return false;
        start = ends[at];
    }
    return start == paths_length;
}

/* Decides for a path by the rules that apply, which are kept. */
static struct tally walk_rules(struct state *state, const struct rules *rules, struct text raw_path)
{
    uint8_t buffer[NORMALISED_MOST];
    struct tally tally = {0};
    state->path = (struct text){buffer, normalise(raw_path, buffer, NORMALISED_MOST)};
    if (is_robots_txt(state->path))
        return tally;
    for (size_t at = 0; at < rules->count; at++) {
        struct rule *rule = &rules->start[at];
        state->line = rule->line;
        walk_rule(state, &tally, &rule->pattern, rule->disallow);
        if (state->draft && tally.line != 0)
            break;
    }
    return tally;
}

static void answer_all(struct state *state, const struct rules *rules, const struct list *list)
{
    size_t start = 0;
    for (size_t at = 0; at < list->count; at++) {
        struct text path = {list->paths + start, list->ends[at] - start};
        struct tally tally = {.disallow = true};
        size_t refused = path_refusal(path);
        if (!refused)
            tally = walk_rules(state, rules, path);
        list->refusals[at] = refused;
        list->sides[at] = tally.disallow;
        list->lines[at] = tally.line;
        start = list->ends[at];
    }
}

size_t plain_batch(size_t dialect, const uint8_t *file, size_t file_length,
                   const uint8_t *name, size_t name_length,
                   const uint8_t *paths, size_t paths_length,
                   const size_t *ends, size_t ends_length,
                   size_t *refusals, size_t refusals_length,
                   size_t *sides, size_t sides_length, size_t *lines, size_t lines_length)
{
    struct text whole = {file, file_length};
    struct kept kept = {.used = 0};
    struct state state = {.draft = dialect == DRAFT1996, .name = {name, name_length}};
    size_t refused = refusal(dialect, whole, state.name);
    if (refused)
        return refused;
    if (!are_ends(ends, ends_length, paths_length))
        return 12;
    if (refusals_length < ends_length || sides_length < ends_length || lines_length < ends_length)
        return 13;
    state.walks_none = true;
    state.kept = &kept;
    /* one more, since malloc may give NULL for none */
    kept.octets = malloc(3 * file_length + 1);
    kept.no_memory = !kept.octets;
    read_file(&state, whole);
    const struct rules *rules = state.crawler_named ? &kept.own : &kept.everyone;
    if (!kept.no_memory)
        answer_all(&state, rules, &(struct list){paths, ends, ends_length, refusals, sides, lines});
    free(kept.octets);
    free(kept.own.start);
    free(kept.everyone.start);
    return kept.no_memory ? PLAIN_NO_MEMORY : 0;
}

/* Whether these octets are a readable pattern, which is taken apart if so. */
static bool is_readable(struct text raw, struct pattern *pattern)
{
    const uint8_t *end = raw.start + raw.length;
    if (raw.length == 0 || (raw.start[0] != '/' && raw.start[0] != '*'))
        return false;
    return read_characters(raw.start, end, pattern) == end;
}

struct plain_matched plain_match(const uint8_t *pattern, size_t pattern_length,
                                 const uint8_t *path, size_t path_length)
{
    struct text raw_path = {path, path_length};
    struct pattern readable;
    size_t refused = pattern_length > PATTERN_MOST ? 1 : path_refusal(raw_path);
    if (!refused && !is_readable((struct text){pattern, pattern_length}, &readable))
        refused = 8;
    if (refused)
        return (struct plain_matched){.refusal = refused};
    uint8_t buffer[NORMALISED_MOST];
    struct text normalised = {buffer, normalise(raw_path, buffer, NORMALISED_MOST)};
    struct walked walked = walk(&readable, normalised);
    return (struct plain_matched){.found = walked.weight != 0, .compared = walked.compared};
}

struct plain_normalised plain_normalise(const uint8_t *path, size_t path_length,
                                        uint8_t *buffer, size_t room)
{
    struct text raw = {path, path_length};
    size_t refused = path_refusal(raw);
    if (refused)
        return (struct plain_normalised){.refusal = refused};
    if (room >= 3 * path_length)
        return (struct plain_normalised){.written = normalise(raw, buffer, room)};
    /* it may not fit, and a refused path writes nothing */
    uint8_t own[NORMALISED_MOST];
    size_t written = normalise(raw, own, NORMALISED_MOST);
    if (written > room)
        return (struct plain_normalised){.refusal = 6};
    memcpy(buffer, own, written);
    return (struct plain_normalised){.written = written};
}
