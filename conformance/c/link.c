/*
 * Links the library through its header and asks fixed questions. The answers
 * are those of document 01 and of the sources' examples. Compiles as C11 and
 * as C++.
 */
#include "robots.h"

#include <stdio.h>
#include <stdlib.h>
#include <string.h>

/* The octets of a string literal, and their number without its last NUL. */
#define TEXT(literal) (const uint8_t *)(literal), sizeof(literal) - 1

#define COUNT(rows) (sizeof(rows) / sizeof((rows)[0]))

struct octets {
    const uint8_t *start;
    size_t length;
};

/* The deciding pattern is empty, and its place 0, where no rule decides. */
struct decide_row {
    struct octets file;
    struct octets name;
    struct octets path;
    size_t refusal;
    size_t disallow;
    size_t line;
    size_t place;
    struct octets pattern;
    size_t unread;
    size_t compared;
};

struct line_row {
    struct octets line;
    size_t refusal;
    size_t kind;
    size_t place;
    size_t length;
};

struct path_row {
    struct octets path;
    struct octets normalised;
};

struct refused_row {
    struct octets path;
    size_t refusal;
};

struct match_row {
    struct octets pattern;
    struct octets path;
    size_t refusal;
    size_t found;
    size_t compared;
};

/* The most paths of a row. */
#define LIST_MOST 8

/* A list of `count` paths, and the three answers for each, which a refused call doesn't have. */
struct batch_row {
    size_t dialect;
    struct octets file;
    struct octets name;
    struct octets paths;
    size_t count;
    size_t ends[LIST_MOST];
    size_t refusal;
    size_t refusals[LIST_MOST];
    size_t sides[LIST_MOST];
    size_t lines[LIST_MOST];
};

/* What a refused decision and one by no rule hold behind the refusal. */
#define REFUSED 1, 0, 0, {TEXT("")}, 0, 0
#define NO_RULE(unread, compared) 0, 0, 0, {TEXT("")}, unread, compared

static const struct decide_row decide_rows[] = {
    /* document 01's table */
    {{TEXT("")}, {TEXT("a")}, {TEXT("/")}, ROBOTS_ANSWERED, NO_RULE(0, 0)},
    {{TEXT("user-agent: a\ndisallow: /")}, {TEXT("A")}, {TEXT("/x")}, ROBOTS_ANSWERED, 1, 2, 24, {TEXT("/")}, 0, 1},
    {{TEXT("user-agent: a\ndisallow: /")}, {TEXT("a")}, {TEXT("/%72obots.txt")}, ROBOTS_ANSWERED, NO_RULE(0, 0)},
    {{TEXT("user-agent: a\ndisallow: /")}, {TEXT("b")}, {TEXT("/x")}, ROBOTS_ANSWERED, NO_RULE(0, 0)},
    {{TEXT("user-agent: *\nallow: /p\ndisallow: /")}, {TEXT("a")}, {TEXT("/page")}, ROBOTS_ANSWERED, 0, 2, 21, {TEXT("/p")}, 0, 3},
    {{TEXT("user-agent: *\ndisallow: /folder\nallow: /folder")}, {TEXT("a")}, {TEXT("/folder/page")}, ROBOTS_ANSWERED, 0, 3, 39, {TEXT("/folder")}, 0, 14},
    {{TEXT("user-agent: *\nallow: /page\ndisallow: /*.htm")}, {TEXT("a")}, {TEXT("/page.htm")}, ROBOTS_ANSWERED, 1, 3, 37, {TEXT("/*.htm")}, 0, 14},
    {{TEXT("user-agent: *\ndisallow: /*.php$")}, {TEXT("a")}, {TEXT("/filename.php5")}, ROBOTS_ANSWERED, NO_RULE(0, 2)},
    {{TEXT("user-agent: *\ndisallow: /path/foo-%24")}, {TEXT("a")}, {TEXT("/path/foo-$")}, ROBOTS_ANSWERED, 1, 2, 24, {TEXT("/path/foo-%24")}, 0, 13},
    {{TEXT("user-agent: a\nsitemap: x\nuser-agent: b\ndisallow: /")}, {TEXT("a")}, {TEXT("/")}, ROBOTS_ANSWERED, 1, 4, 49, {TEXT("/")}, 0, 1},
    {{TEXT("user-agent: a\ndisallow: x\nuser-agent: b\ndisallow: /")}, {TEXT("a")}, {TEXT("/")}, ROBOTS_ANSWERED, NO_RULE(1, 0)},
    /* M-102's row of that table */
    {{TEXT("user-agent: *\ndisallow: *.gif$")}, {TEXT("a")}, {TEXT("/x.gif")}, ROBOTS_ANSWERED, 1, 2, 24, {TEXT("*.gif$")}, 0, 4},
    /* document 01's program */
    {{TEXT("user-agent: *\ndisallow: /sailings/draft\nallow: /sailings\n")}, {TEXT("drydockbot")}, {TEXT("/sailings/draft/9")}, ROBOTS_ANSWERED, 1, 2, 24, {TEXT("/sailings/draft")}, 0, 24},
    /* "those three octets are skipped but keep their places" */
    {{TEXT("\xEF\xBB\xBF" "user-agent: a\r\nallow:\t/x # y\r\n")}, {TEXT("a")}, {TEXT("/x")}, ROBOTS_ANSWERED, 0, 2, 25, {TEXT("/x")}, 0, 2},
    /* "LF CR is two endings" */
    {{TEXT("user-agent: a\n\rdisallow: /%78$")}, {TEXT("a")}, {TEXT("/x")}, ROBOTS_ANSWERED, 1, 3, 25, {TEXT("/%78$")}, 0, 2},
    /* NUL is an octet like others */
    {{TEXT("\0\nuser-agent: a\ndisallow: /")}, {TEXT("a")}, {TEXT("/")}, ROBOTS_ANSWERED, 1, 3, 26, {TEXT("/")}, 0, 1},
    /* "the rules of all such groups, each group once" */
    {{TEXT("user-agent: a\nuser-agent: A\nallow: /\nuser-agent: *\nallow: /x/y\nuser-agent: a\ndisallow: /x")}, {TEXT("a")}, {TEXT("/x/y")}, ROBOTS_ANSWERED, 1, 7, 87, {TEXT("/x")}, 0, 3},
    /* "allow before disallow at equal weight, then the earliest line" */
    {{TEXT("user-agent: a\ndisallow: /x\nallow: /*\nallow: /x")}, {TEXT("a")}, {TEXT("/x")}, ROBOTS_ANSWERED, 0, 3, 34, {TEXT("/*")}, 0, 5},
    /* "*" weighs 1 and compares nothing; "$" begins no readable pattern */
    {{TEXT("user-agent: a\ndisallow: /\nallow: *")}, {TEXT("a")}, {TEXT("/x")}, ROBOTS_ANSWERED, 0, 3, 33, {TEXT("*")}, 0, 1},
    {{TEXT("user-agent: a\nallow: $*\ndisallow: *")}, {TEXT("a")}, {TEXT("/x")}, ROBOTS_ANSWERED, 1, 3, 34, {TEXT("*")}, 1, 0},
    /* "The value's name is now its longest beginning of A-Z a-z - _ ; the rest is ignored." (M-105) */
    {{TEXT("user-agent: *\nallow: /\nuser-agent: DrydockBot/2.1\ndisallow: /x")}, {TEXT("drydockbot")}, {TEXT("/x")}, ROBOTS_ANSWERED, 1, 4, 60, {TEXT("/x")}, 0, 2},
    {{TEXT("user-agent: *\nallow: /\nuser-agent: DrydockBot/2.1\ndisallow: /x")}, {TEXT("Drydock")}, {TEXT("/x")}, ROBOTS_ANSWERED, 0, 2, 21, {TEXT("/")}, 0, 1},
    {{TEXT("user-agent: Bot\0\nuser-agent: */2\ndisallow: /x")}, {TEXT("bot")}, {TEXT("/x")}, ROBOTS_ANSWERED, 1, 3, 43, {TEXT("/x")}, 1, 2},
    /* "/robots.txt?x isn't that path" */
    {{TEXT("user-agent: *\ndisallow: /")}, {TEXT("a")}, {TEXT("/robots.txt?x")}, ROBOTS_ANSWERED, 1, 2, 24, {TEXT("/")}, 0, 1},
    /* "The unread count is the number of unreadable agent and rule lines in the whole file." */
    {{TEXT("user-agent: 9\nallow: x\ndisallow:\nuser-agent: *\ndisallow: /")}, {TEXT("a")}, {TEXT("/robots.txt")}, ROBOTS_ANSWERED, NO_RULE(2, 0)},
    /* the table of refusals, "the smallest number first"; "A refused decision holds its number, disallow, and zeros." */
    {{TEXT("user-agent: 9\nuser-agent: *\nallow: /")}, {TEXT("")}, {TEXT("")}, ROBOTS_REFUSED_NAME, REFUSED},
    {{TEXT("user-agent: 9\nuser-agent: *\nallow: /")}, {TEXT("*")}, {TEXT("/")}, ROBOTS_REFUSED_NAME, REFUSED},
    {{TEXT("user-agent: 9\nuser-agent: *\nallow: /")}, {TEXT("a\0")}, {TEXT("/")}, ROBOTS_REFUSED_NAME, REFUSED},
    {{TEXT("user-agent: a/2\nallow: /")}, {TEXT("a/2")}, {TEXT("/")}, ROBOTS_REFUSED_NAME, REFUSED},
    {{TEXT("user-agent: 9\nuser-agent: *\nallow: /")}, {TEXT("a")}, {TEXT("")}, ROBOTS_REFUSED_PATH_LENGTH, REFUSED},
    {{TEXT("user-agent: 9\nuser-agent: *\nallow: /")}, {TEXT("a")}, {TEXT("a#")}, ROBOTS_REFUSED_PATH_START, REFUSED},
    {{TEXT("user-agent: 9\nuser-agent: *\nallow: /")}, {TEXT("a")}, {TEXT("/#")}, ROBOTS_REFUSED_PATH_OCTET, REFUSED},
    {{TEXT("user-agent: 9\nuser-agent: *\nallow: /")}, {TEXT("a")}, {TEXT("/\0")}, ROBOTS_REFUSED_PATH_OCTET, REFUSED},
};

/* The draft's record, section 3.2. */
#define RECORD TEXT("user-agent: webcrawler\nuser-agent: infoseek\nallow: /tmp/ok.html\ndisallow: /tmp\ndisallow: /user/foo")

/* The dialect of the draft of 1996 (M-113). */
static const struct decide_row draft_rows[] = {
    {{RECORD}, {TEXT("infoseek")}, {TEXT("/tmp/ok.html")}, ROBOTS_ANSWERED, 0, 3, 51, {TEXT("/tmp/ok.html")}, 0, 12},
    {{RECORD}, {TEXT("webcrawler")}, {TEXT("/tmp/a.html")}, ROBOTS_ANSWERED, 1, 4, 74, {TEXT("/tmp")}, 0, 4},
    {{RECORD}, {TEXT("webcrawler")}, {TEXT("/user/foo")}, ROBOTS_ANSWERED, 1, 5, 89, {TEXT("/user/foo")}, 0, 11},
    {{RECORD}, {TEXT("webcrawler")}, {TEXT("/")}, ROBOTS_ANSWERED, NO_RULE(0, 0)},
    {{RECORD}, {TEXT("a")}, {TEXT("/tmp")}, ROBOTS_ANSWERED, NO_RULE(0, 0)},
    /* "the first match in file order decides", and "rules after the deciding one add nothing to the compared count" */
    {{TEXT("user-agent: *\nallow: /\ndisallow: /x")}, {TEXT("a")}, {TEXT("/x")}, ROBOTS_ANSWERED, 0, 2, 21, {TEXT("/")}, 0, 1},
    {{TEXT("user-agent: *\ndisallow: /x\nallow: /x")}, {TEXT("a")}, {TEXT("/x")}, ROBOTS_ANSWERED, 1, 2, 24, {TEXT("/x")}, 0, 2},
    /* in a later group */
    {{TEXT("user-agent: a\ndisallow: /b\nuser-agent: *\nallow: /\nuser-agent: A/2\nallow: /a")}, {TEXT("a")}, {TEXT("/ab")}, ROBOTS_ANSWERED, 0, 6, 73, {TEXT("/a")}, 0, 4},
    /* "star and dollar in a pattern are plain octets, normalised as in a path" */
    {{TEXT("user-agent: *\ndisallow: /*")}, {TEXT("a")}, {TEXT("/x")}, ROBOTS_ANSWERED, NO_RULE(0, 0)},
    {{TEXT("user-agent: *\ndisallow: /*")}, {TEXT("a")}, {TEXT("/*y")}, ROBOTS_ANSWERED, 1, 2, 24, {TEXT("/*")}, 0, 4},
    {{TEXT("user-agent: *\ndisallow: /x$")}, {TEXT("a")}, {TEXT("/x")}, ROBOTS_ANSWERED, NO_RULE(0, 0)},
    {{TEXT("user-agent: *\ndisallow: /x$")}, {TEXT("a")}, {TEXT("/x$")}, ROBOTS_ANSWERED, 1, 2, 24, {TEXT("/x$")}, 0, 5},
    {{TEXT("user-agent: *\ndisallow: /x$")}, {TEXT("a")}, {TEXT("/x%24y")}, ROBOTS_ANSWERED, 1, 2, 24, {TEXT("/x$")}, 0, 5},
    /* *x is %2Ax: it is longer than /x, and differs from /xyz at once */
    {{TEXT("user-agent: *\ndisallow: *x\nallow: /x")}, {TEXT("a")}, {TEXT("/x")}, ROBOTS_ANSWERED, 0, 3, 34, {TEXT("/x")}, 0, 2},
    {{TEXT("user-agent: *\ndisallow: *x\nallow: /x")}, {TEXT("a")}, {TEXT("/xyz")}, ROBOTS_ANSWERED, 0, 3, 34, {TEXT("/x")}, 0, 3},
    /* "empty patterns never match", and the unread count is of the whole file */
    {{TEXT("user-agent: *\ndisallow:\nallow: x\ndisallow: /")}, {TEXT("a")}, {TEXT("/")}, ROBOTS_ANSWERED, 1, 4, 43, {TEXT("/")}, 1, 1},
    {{TEXT("user-agent: *\nallow: /\ndisallow: x")}, {TEXT("a")}, {TEXT("/")}, ROBOTS_ANSWERED, 0, 2, 21, {TEXT("/")}, 1, 1},
    /* "/robots.txt stays allowed as in 01" */
    {{TEXT("user-agent: *\ndisallow: /\nallow: x")}, {TEXT("a")}, {TEXT("/%72obots.txt")}, ROBOTS_ANSWERED, NO_RULE(1, 0)},
    /* the table of refusals */
    {{TEXT("user-agent: *\nallow: /")}, {TEXT("")}, {TEXT("")}, ROBOTS_REFUSED_NAME, REFUSED},
    {{TEXT("user-agent: *\nallow: /")}, {TEXT("a")}, {TEXT("")}, ROBOTS_REFUSED_PATH_LENGTH, REFUSED},
    {{TEXT("user-agent: *\nallow: /")}, {TEXT("a")}, {TEXT("a#")}, ROBOTS_REFUSED_PATH_START, REFUSED},
    {{TEXT("user-agent: *\nallow: /")}, {TEXT("a")}, {TEXT("/#")}, ROBOTS_REFUSED_PATH_OCTET, REFUSED},
};

/* No dialects, in however many of their bits they look like one. */
static const size_t unknown_dialects[] = {
    2, 3, 20, 255, 256, 257, 65535, 65536, 65537,
#if SIZE_MAX > 0xFFFFFFFF
    4294967296, 4294967297,
#endif
    SIZE_MAX / 2, SIZE_MAX / 2 + 1, SIZE_MAX / 2 + 2, SIZE_MAX - 1, SIZE_MAX,
};

/* The rules of document 01's program, and a broad allow ahead of a narrow disallow. */
#define SAILINGS TEXT("user-agent: *\ndisallow: /sailings/draft\nallow: /sailings\n")
#define BROAD TEXT("user-agent: *\nallow: /sailings\ndisallow: /sailings/draft\n")

/* A path's own refusals, by shorter names, and what a refused call holds behind the refusal. */
#define LENGTH ROBOTS_REFUSED_PATH_LENGTH
#define START ROBOTS_REFUSED_PATH_START
#define OCTET ROBOTS_REFUSED_PATH_OCTET
#define NO_ANSWERS {0}, {0}, {0}

/* Lists of paths (M-101). */
static const struct batch_row batch_rows[] = {
    /* document 01's table, second and third row, and its program */
    {ROBOTS_RFC9309, {TEXT("user-agent: a\ndisallow: /")}, {TEXT("A")}, {TEXT("/x/%72obots.txt")}, 2, {2, 15}, ROBOTS_ANSWERED, {0, 0}, {1, 0}, {2, 0}},
    {ROBOTS_RFC9309, {SAILINGS}, {TEXT("drydockbot")}, {TEXT("/sailings/draft/9")}, 1, {17}, ROBOTS_ANSWERED, {0}, {1}, {2}},
    {ROBOTS_RFC9309, {SAILINGS}, {TEXT("drydockbot")}, {TEXT("/sailings/draft/9/sailings/harbour")}, 3, {17, 26, 34}, ROBOTS_ANSWERED, {0, 0, 0}, {1, 0, 0}, {2, 3, 0}},
    {ROBOTS_DRAFT1996, {SAILINGS}, {TEXT("drydockbot")}, {TEXT("/sailings/draft/9/sailings/harbour")}, 3, {17, 26, 34}, ROBOTS_ANSWERED, {0, 0, 0}, {1, 0, 0}, {2, 3, 0}},
    /* "the first match in file order decides" (M-113) */
    {ROBOTS_RFC9309, {BROAD}, {TEXT("a")}, {TEXT("/sailings/draft/sailings")}, 2, {15, 24}, ROBOTS_ANSWERED, {0, 0}, {1, 0}, {3, 2}},
    {ROBOTS_DRAFT1996, {BROAD}, {TEXT("a")}, {TEXT("/sailings/draft/sailings")}, 2, {15, 24}, ROBOTS_ANSWERED, {0, 0}, {0, 0}, {2, 2}},
    /* "a path's own refusal included": empty paths in front, between and behind; others between answered ones */
    {ROBOTS_RFC9309, {SAILINGS}, {TEXT("a")}, {TEXT("/sailings/x")}, 5, {0, 9, 9, 11, 11}, ROBOTS_ANSWERED, {LENGTH, 0, LENGTH, 0, LENGTH}, {1, 0, 1, 0, 1}, {0, 3, 0, 0, 0}},
    {ROBOTS_RFC9309, {SAILINGS}, {TEXT("a")}, {TEXT("")}, 2, {0, 0}, ROBOTS_ANSWERED, {LENGTH, LENGTH}, {1, 1}, {0, 0}},
    {ROBOTS_RFC9309, {SAILINGS}, {TEXT("a")}, {TEXT("/sailingssailings/a\0/sailings/draft/#")}, 5, {9, 17, 20, 35, 37}, ROBOTS_ANSWERED, {0, START, OCTET, 0, OCTET}, {0, 1, 1, 1, 1}, {3, 0, 0, 2, 0}},
    /* "any other "%": %25": an escape takes no digits from the next path */
    {ROBOTS_RFC9309, {TEXT("user-agent: *\ndisallow: /aA\ndisallow: /a%254")}, {TEXT("a")}, {TEXT("/a%41/b/a%41/a%4")}, 4, {4, 7, 12, 16}, ROBOTS_ANSWERED, {0, START, 0, 0}, {1, 1, 1, 1}, {3, 0, 2, 3}},
    /* "an empty list needs length 0" */
    {ROBOTS_RFC9309, {SAILINGS}, {TEXT("a")}, {TEXT("")}, 0, {0}, ROBOTS_ANSWERED, NO_ANSWERS},
    {ROBOTS_RFC9309, {SAILINGS}, {TEXT("a")}, {TEXT("/")}, 0, {0}, ROBOTS_REFUSED_ENDS, NO_ANSWERS},
    {ROBOTS_RFC9309, {SAILINGS}, {TEXT("")}, {TEXT("")}, 0, {0}, ROBOTS_REFUSED_NAME, NO_ANSWERS},
    /* "12 if the ends ever decrease or the last isn't the joined length" */
    {ROBOTS_RFC9309, {SAILINGS}, {TEXT("a")}, {TEXT("")}, 1, {1}, ROBOTS_REFUSED_ENDS, NO_ANSWERS},
    {ROBOTS_RFC9309, {SAILINGS}, {TEXT("a")}, {TEXT("/a/b")}, 2, {2, 3}, ROBOTS_REFUSED_ENDS, NO_ANSWERS},
    {ROBOTS_RFC9309, {SAILINGS}, {TEXT("a")}, {TEXT("/a/b")}, 2, {2, 5}, ROBOTS_REFUSED_ENDS, NO_ANSWERS},
    {ROBOTS_RFC9309, {SAILINGS}, {TEXT("a")}, {TEXT("/a/b")}, 2, {5, 4}, ROBOTS_REFUSED_ENDS, NO_ANSWERS},
    {ROBOTS_RFC9309, {SAILINGS}, {TEXT("a")}, {TEXT("/a/b")}, 3, {2, 1, 4}, ROBOTS_REFUSED_ENDS, NO_ANSWERS},
    {ROBOTS_DRAFT1996, {SAILINGS}, {TEXT("a")}, {TEXT("/a/b")}, 3, {4, 0, 4}, ROBOTS_REFUSED_ENDS, NO_ANSWERS},
    {ROBOTS_RFC9309, {SAILINGS}, {TEXT("a")}, {TEXT("/a/b")}, 2, {SIZE_MAX, 4}, ROBOTS_REFUSED_ENDS, NO_ANSWERS},
    {ROBOTS_RFC9309, {SAILINGS}, {TEXT("a")}, {TEXT("/a/b")}, 2, {2, SIZE_MAX}, ROBOTS_REFUSED_ENDS, NO_ANSWERS},
    /* "Refusals: 1 and 2, then 12" */
    {ROBOTS_RFC9309, {SAILINGS}, {TEXT("no name")}, {TEXT("/a/b")}, 2, {2, 4}, ROBOTS_REFUSED_NAME, NO_ANSWERS},
    {ROBOTS_DRAFT1996, {SAILINGS}, {TEXT("no name")}, {TEXT("/a/b")}, 2, {4, 2}, ROBOTS_REFUSED_NAME, NO_ANSWERS},
};

static const struct line_row line_rows[] = {
    /* RFC 9309, figures 1 and 5, sections 2.2.4 and 5.1 */
    {{TEXT("user-agent: ExampleBot")}, ROBOTS_ANSWERED, ROBOTS_KIND_AGENT_READABLE, 12, 10},
    {{TEXT("allow: / # comment in line")}, ROBOTS_ANSWERED, ROBOTS_KIND_ALLOW_READABLE, 7, 1},
    {{TEXT("# comment on its own line")}, ROBOTS_ANSWERED, ROBOTS_KIND_BLANK, 0, 0},
    {{TEXT("allow: /this/path/exactly$")}, ROBOTS_ANSWERED, ROBOTS_KIND_ALLOW_READABLE, 7, 19},
    {{TEXT("allow: /this/*/exactly")}, ROBOTS_ANSWERED, ROBOTS_KIND_ALLOW_READABLE, 7, 15},
    {{TEXT("sitemap: https://www.example.com/sitemap.xml")}, ROBOTS_ANSWERED, ROBOTS_KIND_OTHER, 0, 0},
    {{TEXT("Disallow:/")}, ROBOTS_ANSWERED, ROBOTS_KIND_DISALLOW_READABLE, 9, 1},
    /* "a readable pattern begins with "/" or "*"" (M-102) */
    {{TEXT("Disallow: *.gif$")}, ROBOTS_ANSWERED, ROBOTS_KIND_DISALLOW_READABLE, 10, 6},
    {{TEXT("Disallow: *")}, ROBOTS_ANSWERED, ROBOTS_KIND_DISALLOW_READABLE, 10, 1},
    {{TEXT("Disallow: $")}, ROBOTS_ANSWERED, ROBOTS_KIND_DISALLOW_UNREADABLE, 10, 1},
    {{TEXT("Disallow: .gif$")}, ROBOTS_ANSWERED, ROBOTS_KIND_DISALLOW_UNREADABLE, 10, 5},
    /* the search firm's page */
    {{TEXT("user-agent:googlebot#optional-comment")}, ROBOTS_ANSWERED, ROBOTS_KIND_AGENT_READABLE, 11, 9},
    {{TEXT(" \tdisallow: /fish\t ")}, ROBOTS_ANSWERED, ROBOTS_KIND_DISALLOW_READABLE, 12, 5},
    {{TEXT("USER-AGENT: googlebot")}, ROBOTS_ANSWERED, ROBOTS_KIND_AGENT_READABLE, 12, 9},
    {{TEXT("useragent: googlebot")}, ROBOTS_ANSWERED, ROBOTS_KIND_OTHER, 0, 0},
    {{TEXT("allow:")}, ROBOTS_ANSWERED, ROBOTS_KIND_ALLOW_EMPTY, 0, 0},
    {{TEXT("disallow:")}, ROBOTS_ANSWERED, ROBOTS_KIND_DISALLOW_EMPTY, 0, 0},
    /* the 2019 draft, 3.1 */
    {{TEXT("User-Agent : foobot")}, ROBOTS_ANSWERED, ROBOTS_KIND_AGENT_READABLE, 13, 6},
    /* "blank: nothing left; noise: no colon" */
    {{TEXT("")}, ROBOTS_ANSWERED, ROBOTS_KIND_BLANK, 0, 0},
    {{TEXT(" \t ")}, ROBOTS_ANSWERED, ROBOTS_KIND_BLANK, 0, 0},
    {{TEXT("disallow /")}, ROBOTS_ANSWERED, ROBOTS_KIND_NOISE, 0, 0},
    {{TEXT("disallow # :")}, ROBOTS_ANSWERED, ROBOTS_KIND_NOISE, 0, 0},
    /* "other: any other field, an empty one included" */
    {{TEXT(": /")}, ROBOTS_ANSWERED, ROBOTS_KIND_OTHER, 0, 0},
    {{TEXT("allow\0: /")}, ROBOTS_ANSWERED, ROBOTS_KIND_OTHER, 0, 0},
    /* "the value what follows" the first colon */
    {{TEXT("disallow: /a:b")}, ROBOTS_ANSWERED, ROBOTS_KIND_DISALLOW_READABLE, 10, 4},
    /* "unread exactly if that beginning is empty and the value isn't exactly "*"" (M-105) */
    {{TEXT("user-agent: *")}, ROBOTS_ANSWERED, ROBOTS_KIND_AGENT_READABLE, 12, 1},
    {{TEXT("user-agent: Foo_bot-")}, ROBOTS_ANSWERED, ROBOTS_KIND_AGENT_READABLE, 12, 8},
    {{TEXT("user-agent: DrydockBot/2.1")}, ROBOTS_ANSWERED, ROBOTS_KIND_AGENT_READABLE, 12, 14},
    {{TEXT("user-agent: bot\0")}, ROBOTS_ANSWERED, ROBOTS_KIND_AGENT_READABLE, 12, 4},
    {{TEXT("user-agent: 2bot")}, ROBOTS_ANSWERED, ROBOTS_KIND_AGENT_UNREADABLE, 12, 4},
    {{TEXT("user-agent: */2")}, ROBOTS_ANSWERED, ROBOTS_KIND_AGENT_UNREADABLE, 12, 3},
    {{TEXT("user-agent:")}, ROBOTS_ANSWERED, ROBOTS_KIND_AGENT_UNREADABLE, 0, 0},
    /* "no octet under 0x21; 0x7F is accepted; surrogates and overlong forms aren't" */
    {{TEXT("allow: /a b")}, ROBOTS_ANSWERED, ROBOTS_KIND_ALLOW_UNREADABLE, 7, 4},
    {{TEXT("allow: /\0")}, ROBOTS_ANSWERED, ROBOTS_KIND_ALLOW_UNREADABLE, 7, 2},
    {{TEXT("allow: /\x7F")}, ROBOTS_ANSWERED, ROBOTS_KIND_ALLOW_READABLE, 7, 2},
    {{TEXT("allow: /\xE3\x83\x84")}, ROBOTS_ANSWERED, ROBOTS_KIND_ALLOW_READABLE, 7, 4},
    {{TEXT("allow: /\xE3\x83")}, ROBOTS_ANSWERED, ROBOTS_KIND_ALLOW_UNREADABLE, 7, 3},
    {{TEXT("allow: /\xED\xA0\x80")}, ROBOTS_ANSWERED, ROBOTS_KIND_ALLOW_UNREADABLE, 7, 4},
    {{TEXT("allow: /\xC0\xAF")}, ROBOTS_ANSWERED, ROBOTS_KIND_ALLOW_UNREADABLE, 7, 3},
    {{TEXT("allow: *\xC0\xAF")}, ROBOTS_ANSWERED, ROBOTS_KIND_ALLOW_UNREADABLE, 7, 3},
    /* "No leading mark is skipped here." */
    {{TEXT("\xEF\xBB\xBF" "allow: /")}, ROBOTS_ANSWERED, ROBOTS_KIND_OTHER, 0, 0},
    /* "line holds CR or LF" */
    {{TEXT("allow: /\n")}, ROBOTS_REFUSED_LINES, ROBOTS_KIND_REFUSED, 0, 0},
    {{TEXT("\rallow: /")}, ROBOTS_REFUSED_LINES, ROBOTS_KIND_REFUSED, 0, 0},
    {{TEXT("allow: / # \r\n")}, ROBOTS_REFUSED_LINES, ROBOTS_KIND_REFUSED, 0, 0},
};

static const struct path_row path_rows[] = {
    /* RFC 9309, figures 4 and 6 */
    {{TEXT("/foo/bar?baz=quz")}, {TEXT("/foo/bar?baz=quz")}},
    {{TEXT("/foo/bar/\xE3\x83\x84")}, {TEXT("/foo/bar/%E3%83%84")}},
    {{TEXT("/foo/bar/%E3%83%84")}, {TEXT("/foo/bar/%E3%83%84")}},
    {{TEXT("/foo/bar/%62%61%7A")}, {TEXT("/foo/bar/baz")}},
    {{TEXT("/path/file-with-a-*.html")}, {TEXT("/path/file-with-a-%2A.html")}},
    {{TEXT("/path/foo-$")}, {TEXT("/path/foo-%24")}},
    /* "The second row, which encodes ":" and "/" inside a query, isn't followed." */
    {{TEXT("/foo/bar?baz=https://foo.bar")}, {TEXT("/foo/bar?baz=https://foo.bar")}},
    /* document 01's table, third row */
    {{TEXT("/%72obots.txt")}, {TEXT("/robots.txt")}},
    /* "if the octet meant is unreserved [..], that octet" */
    {{TEXT("/%41%7a%30%2d%2E%5f%7e")}, {TEXT("/Az0-._~")}},
    /* "otherwise "%" and the two digits in upper case" */
    {{TEXT("/%2f%2A%3c%e3%00")}, {TEXT("/%2F%2A%3C%E3%00")}},
    /* "any other "%": %25" */
    {{TEXT("/%")}, {TEXT("/%25")}},
    {{TEXT("/%4")}, {TEXT("/%254")}},
    {{TEXT("/%zz%4g%%41")}, {TEXT("/%25zz%254g%25A")}},
    /* "an octet of 0x7F or more: "%" and two upper-case hex digits" */
    {{TEXT("/\x7F\x80\xFF")}, {TEXT("/%7F%80%FF")}},
    /* "anything else as it is" */
    {{TEXT("/")}, {TEXT("/")}},
    {{TEXT("/!\"&'()+,:;<=>?@[\\]^`{|}~")}, {TEXT("/!\"&'()+,:;<=>?@[\\]^`{|}~")}},
};

static const struct refused_row refused_rows[] = {
    /* the table of refusals, "the smallest number first" */
    {{TEXT("")}, ROBOTS_REFUSED_PATH_LENGTH},
    {{TEXT("a")}, ROBOTS_REFUSED_PATH_START},
    {{TEXT("%2F")}, ROBOTS_REFUSED_PATH_START},
    {{TEXT("#")}, ROBOTS_REFUSED_PATH_START},
    {{TEXT("/a b")}, ROBOTS_REFUSED_PATH_OCTET},
    {{TEXT("/#")}, ROBOTS_REFUSED_PATH_OCTET},
    {{TEXT("/\0")}, ROBOTS_REFUSED_PATH_OCTET},
};

static const struct match_row match_rows[] = {
    /* document 01's table and program, each rule by itself */
    {{TEXT("/")}, {TEXT("/x")}, ROBOTS_ANSWERED, 1, 1},
    {{TEXT("/p")}, {TEXT("/page")}, ROBOTS_ANSWERED, 1, 2},
    {{TEXT("/folder")}, {TEXT("/folder/page")}, ROBOTS_ANSWERED, 1, 7},
    {{TEXT("/*.htm")}, {TEXT("/page.htm")}, ROBOTS_ANSWERED, 1, 9},
    {{TEXT("/*.php$")}, {TEXT("/filename.php5")}, ROBOTS_ANSWERED, 0, 2},
    {{TEXT("/path/foo-%24")}, {TEXT("/path/foo-$")}, ROBOTS_ANSWERED, 1, 13},
    {{TEXT("/sailings/draft")}, {TEXT("/sailings/draft/9")}, ROBOTS_ANSWERED, 1, 15},
    /* "a readable pattern begins with "/" or "*"" (M-102); the first row is its own */
    {{TEXT("*.gif$")}, {TEXT("/x.gif")}, ROBOTS_ANSWERED, 1, 4},
    {{TEXT("*.gif$")}, {TEXT("/x.gif/")}, ROBOTS_ANSWERED, 0, 1},
    {{TEXT("*")}, {TEXT("/x")}, ROBOTS_ANSWERED, 1, 0},
    {{TEXT("*$")}, {TEXT("/x")}, ROBOTS_ANSWERED, 1, 0},
    {{TEXT("*x")}, {TEXT("/x")}, ROBOTS_ANSWERED, 1, 2},
    /* "/robots.txt has no special standing here." */
    {{TEXT("/")}, {TEXT("/robots.txt")}, ROBOTS_ANSWERED, 1, 1},
    /* "The first run is tried at 0 only." */
    {{TEXT("/a")}, {TEXT("/b/a")}, ROBOTS_ANSWERED, 0, 2},
    /* "Decoding %2F or %2A before comparing" only looks right */
    {{TEXT("/a/b")}, {TEXT("/a%2Fb")}, ROBOTS_ANSWERED, 0, 3},
    {{TEXT("/a%2fb")}, {TEXT("/a%2Fb")}, ROBOTS_ANSWERED, 1, 6},
    /* "A try that would pass p fails the rule at no cost." */
    {{TEXT("/ab")}, {TEXT("/a")}, ROBOTS_ANSWERED, 0, 0},
    /* "A try [..] stops at the first difference" */
    {{TEXT("/abc")}, {TEXT("/axc")}, ROBOTS_ANSWERED, 0, 3},
    /* "an empty one costs nothing" */
    {{TEXT("/**")}, {TEXT("/")}, ROBOTS_ANSWERED, 1, 1},
    /* "It fails at no cost if that start is [..] for a run that is also the first, not 0." */
    {{TEXT("/$")}, {TEXT("/")}, ROBOTS_ANSWERED, 1, 1},
    {{TEXT("/$")}, {TEXT("/x")}, ROBOTS_ANSWERED, 0, 0},
    /* "or under the end of the run before" */
    {{TEXT("/a*a$")}, {TEXT("/a")}, ROBOTS_ANSWERED, 0, 2},
    /* "another "$" becomes %24" */
    {{TEXT("/a$b")}, {TEXT("/a$b")}, ROBOTS_ANSWERED, 1, 6},
    /* "any other "%": %25" */
    {{TEXT("/%4*1")}, {TEXT("/%41")}, ROBOTS_ANSWERED, 0, 0},
    {{TEXT("/%4*1")}, {TEXT("/%4x1")}, ROBOTS_ANSWERED, 1, 7},
    /* "it may stop inside a %XX" */
    {{TEXT("/*2A")}, {TEXT("/*")}, ROBOTS_ANSWERED, 1, 4},
    /* eleven stars: "/" 1, ten times "a" 1, "b" at the nine places left */
    {{TEXT("/*a*a*a*a*a*a*a*a*a*a*b")}, {TEXT("/aaaaaaaaaaaaaaaaaaa")}, ROBOTS_ANSWERED, 0, 20},
    /* the table of refusals, "the smallest number first" */
    {{TEXT("/")}, {TEXT("")}, ROBOTS_REFUSED_PATH_LENGTH, 0, 0},
    {{TEXT("")}, {TEXT("")}, ROBOTS_REFUSED_PATH_LENGTH, 0, 0},
    {{TEXT("")}, {TEXT("a#")}, ROBOTS_REFUSED_PATH_START, 0, 0},
    {{TEXT("/#")}, {TEXT("/#")}, ROBOTS_REFUSED_PATH_OCTET, 0, 0},
    {{TEXT("/")}, {TEXT("/\0")}, ROBOTS_REFUSED_PATH_OCTET, 0, 0},
    {{TEXT("")}, {TEXT("/")}, ROBOTS_REFUSED_PATTERN, 0, 0},
    {{TEXT(".gif$")}, {TEXT("/image.gif")}, ROBOTS_REFUSED_PATTERN, 0, 0},
    {{TEXT("$")}, {TEXT("/")}, ROBOTS_REFUSED_PATTERN, 0, 0},
    {{TEXT("*\xC3")}, {TEXT("/\xC3")}, ROBOTS_REFUSED_PATTERN, 0, 0},
    {{TEXT("/#")}, {TEXT("/")}, ROBOTS_REFUSED_PATTERN, 0, 0},
    {{TEXT("/\0")}, {TEXT("/")}, ROBOTS_REFUSED_PATTERN, 0, 0},
    {{TEXT("/\xC3")}, {TEXT("/\xC3")}, ROBOTS_REFUSED_PATTERN, 0, 0},
};

static unsigned passed;
static unsigned failed;

/* Prints at most the first 60 octets. */
static void show(struct octets text)
{
    size_t at;

    for (at = 0; at < text.length && at < 60; at++) {
        if (text.start[at] > 0x20 && text.start[at] < 0x7F) {
            putchar(text.start[at]);
        } else {
            printf("\\x%02X", (unsigned)text.start[at]);
        }
    }
    printf("%s (%lu octets)", at < text.length ? ".." : "", (unsigned long)text.length);
}

static void check(const char *what, struct octets input, size_t answer, size_t expected)
{
    if (answer == expected) {
        passed++;
        return;
    }
    failed++;
    printf("link test: failed: %s of ", what);
    show(input);
    printf(": %lu, not %lu\n", (unsigned long)answer, (unsigned long)expected);
}

/* Memory of exactly this length, so that a step past it can be found. */
static uint8_t *memory(size_t length)
{
    uint8_t *start = (uint8_t *)malloc(length);

    if (start == NULL && length > 0) {
        printf("link test: failed: no memory for %lu octets\n", (unsigned long)length);
        exit(1);
    }
    return start;
}

static uint8_t *copy(struct octets text)
{
    uint8_t *start = memory(text.length);

    if (text.length > 0) {
        memcpy(start, text.start, text.length);
    }
    return start;
}

/* The arguments of each function of a decision. */
#define QUESTION dialect, file, row.file.length, name, row.name.length, path, row.path.length

/* A message shows the row's path. */
static void check_decide_in(size_t dialect, struct decide_row row)
{
    uint8_t *file = copy(row.file);
    uint8_t *name = copy(row.name);
    uint8_t *path = copy(row.path);
    size_t place = robots_decide_place(QUESTION);
    size_t length = robots_decide_length(QUESTION);

    check("refusal", row.path, robots_decide_refusal(QUESTION), row.refusal);
    check("disallow", row.path, robots_decide_disallow(QUESTION), row.disallow);
    check("deciding line", row.path, robots_decide_line(QUESTION), row.line);
    check("deciding place", row.path, place, row.place);
    check("deciding length", row.path, length, row.pattern.length);
    check("unread", row.path, robots_decide_unread(QUESTION), row.unread);
    check("compared", row.path, robots_decide_compared(QUESTION), row.compared);
    if (length > 0 && place == row.place && length == row.pattern.length) {
        check("difference in the deciding octets", row.path, memcmp(file + place, row.pattern.start, length) != 0, 0);
    }
    free(path);
    free(name);
    free(file);
}

static void check_decide(struct decide_row row)
{
    check_decide_in(ROBOTS_RFC9309, row);
}

/* "Refusals: 20 for an unknown dialect, first of all." */
static void check_unknown_dialects(struct decide_row row)
{
    struct decide_row refused = {row.file, row.name, row.path, ROBOTS_REFUSED_DIALECT, REFUSED};
    size_t at;

    for (at = 0; at < COUNT(unknown_dialects); at++) {
        check_decide_in(unknown_dialects[at], refused);
    }
}

/* What a slice for answers holds before it is lent; no answer is so large. */
static size_t size_before(size_t at)
{
    return SIZE_MAX - at;
}

/* Memory for exactly so many numbers: those that are given, and behind them what is there before. */
static size_t *sizes(size_t length, const size_t *given, size_t count)
{
    size_t *start = (size_t *)(void *)memory(length * sizeof(size_t));
    size_t at;

    for (at = 0; at < length; at++) {
        start[at] = at < count ? given[at] : size_before(at);
    }
    return start;
}

/* How many numbers of the slice aren't what they should be; `answers` are all that is written. */
static size_t wrong_sizes(const size_t *slice, size_t room, const size_t *answers, size_t count)
{
    size_t at;
    size_t wrong = 0;

    for (at = 0; at < room; at++) {
        wrong += slice[at] != (at < count ? answers[at] : size_before(at));
    }
    return wrong;
}

/* Places in the three slices for the answers. */
struct rooms {
    size_t refusals;
    size_t sides;
    size_t lines;
};

/* A message shows the joined paths. */
static void check_batch_in(struct rooms room, struct batch_row row)
{
    uint8_t *file = copy(row.file);
    uint8_t *name = copy(row.name);
    uint8_t *paths = copy(row.paths);
    size_t *ends = sizes(row.count, row.ends, row.count);
    size_t *refusals = sizes(room.refusals, NULL, 0);
    size_t *sides = sizes(room.sides, NULL, 0);
    size_t *lines = sizes(room.lines, NULL, 0);
    size_t written = row.refusal == ROBOTS_ANSWERED ? row.count : 0;
    size_t refusal = robots_batch(row.dialect, file, row.file.length, name, row.name.length, paths, row.paths.length,
                                  ends, row.count, refusals, room.refusals, sides, room.sides, lines, room.lines);

    check("refusal of the list", row.paths, refusal, row.refusal);
    check("wrong refusals", row.paths, wrong_sizes(refusals, room.refusals, row.refusals, written), 0);
    check("wrong sides", row.paths, wrong_sizes(sides, room.sides, row.sides, written), 0);
    check("wrong lines", row.paths, wrong_sizes(lines, room.lines, row.lines, written), 0);
    free(lines);
    free(sides);
    free(refusals);
    free(ends);
    free(paths);
    free(name);
    free(file);
}

/* The arguments of a single question about a path of a list. */
#define SINGLE row.dialect, row.file.start, row.file.length, row.name.start, row.name.length, path.start, path.length

/* "each what a single question gives" */
static void check_singles(struct batch_row row)
{
    size_t start = 0;
    size_t at;

    for (at = 0; at < row.count; at++) {
        struct octets path = {row.paths.start + start, row.ends[at] - start};

        check("refusal", path, robots_decide_refusal(SINGLE), row.refusals[at]);
        check("disallow", path, robots_decide_disallow(SINGLE), row.sides[at]);
        check("deciding line", path, robots_decide_line(SINGLE), row.lines[at]);
        start = row.ends[at];
    }
}

/* "13 if an answer slice is shorter than the list", behind every other refusal */
static void check_short_slices(struct batch_row row)
{
    size_t count = row.count;
    struct rooms short_refusals = {count - 1, count, count};
    struct rooms short_sides = {count, count - 1, count + 40};
    struct rooms short_lines = {count + 1, count, count - 1};
    struct rooms none = {0, 0, 0};

    if (row.refusal == ROBOTS_ANSWERED) {
        row.refusal = ROBOTS_REFUSED_ANSWERS;
    }
    check_batch_in(short_refusals, row);
    check_batch_in(short_sides, row);
    check_batch_in(short_lines, row);
    check_batch_in(none, row);
}

/* "Places beyond the last path stay." */
static void check_batch(struct batch_row row)
{
    struct rooms just = {row.count, row.count, row.count};
    struct rooms more = {row.count + 1, row.count + 40, row.count};

    check_batch_in(just, row);
    check_batch_in(more, row);
    if (row.refusal == ROBOTS_ANSWERED) {
        check_singles(row);
    }
    if (row.count > 0) {
        check_short_slices(row);
    }
}

/* "Refusals: 20 for an unknown dialect, first of all." */
static void check_batch_dialects(struct batch_row row)
{
    struct rooms just = {row.count, row.count, row.count};
    struct rooms none = {0, 0, 0};
    size_t at;

    row.refusal = ROBOTS_REFUSED_DIALECT;
    for (at = 0; at < COUNT(unknown_dialects); at++) {
        row.dialect = unknown_dialects[at];
        check_batch_in(just, row);
        check_batch_in(none, row);
    }
}

static void check_line(struct line_row row)
{
    uint8_t *line = copy(row.line);
    size_t length = row.line.length;

    check("line refusal", row.line, robots_line_refusal(line, length), row.refusal);
    check("line kind", row.line, robots_line_kind(line, length), row.kind);
    check("line place", row.line, robots_line_place(line, length), row.place);
    check("line length", row.line, robots_line_length(line, length), row.length);
    free(line);
}

/* What a buffer holds before it is lent; no normalised path holds it. */
static uint8_t before(size_t at)
{
    return (uint8_t)(0x80 + at % 127);
}

/* How many octets of the buffer aren't what they should be. */
static size_t wrong_octets(const uint8_t *buffer, size_t room, struct octets front)
{
    size_t at;
    size_t wrong = 0;

    for (at = 0; at < room; at++) {
        wrong += buffer[at] != (at < front.length ? front.start[at] : before(at));
    }
    return wrong;
}

/* Normalises into a buffer of `room` octets; `front` is all that is written. */
static void check_normalise(struct octets text, size_t room, size_t refusal, struct octets front)
{
    uint8_t *path = copy(text);
    uint8_t *buffer = memory(room);
    size_t at;

    for (at = 0; at < room; at++) {
        buffer[at] = before(at);
    }
    check("refusal", text, robots_normalise_refusal(path, text.length, room), refusal);
    check("octets written", text, robots_normalise(path, text.length, buffer, room), front.length);
    check("wrong octets in the buffer", text, wrong_octets(buffer, room, front), 0);
    free(buffer);
    free(path);
}

/* Just enough room, more, and one octet too little. */
static void check_path(struct path_row row)
{
    struct octets nothing = {NULL, 0};
    size_t needed = row.normalised.length;

    check_normalise(row.path, needed, ROBOTS_ANSWERED, row.normalised);
    check_normalise(row.path, needed + 1, ROBOTS_ANSWERED, row.normalised);
    check_normalise(row.path, needed + 40, ROBOTS_ANSWERED, row.normalised);
    check_normalise(row.path, needed - 1, ROBOTS_REFUSED_ROOM, nothing);
    check_normalise(row.path, 0, ROBOTS_REFUSED_ROOM, nothing);
}

static void check_refused(struct refused_row row)
{
    struct octets nothing = {NULL, 0};

    check_normalise(row.path, 0, row.refusal, nothing);
    check_normalise(row.path, 40, row.refusal, nothing);
}

static void check_match(struct match_row row)
{
    uint8_t *pattern = copy(row.pattern);
    uint8_t *path = copy(row.path);
    size_t length = row.pattern.length;
    size_t path_length = row.path.length;

    check("match refusal", row.pattern, robots_match_refusal(pattern, length, path, path_length), row.refusal);
    check("match found", row.pattern, robots_match_found(pattern, length, path, path_length), row.found);
    check("match compared", row.pattern, robots_match_compared(pattern, length, path, path_length), row.compared);
    free(path);
    free(pattern);
}

static void check_rows(void)
{
    size_t row;

    for (row = 0; row < COUNT(decide_rows); row++) {
        check_decide(decide_rows[row]);
        check_unknown_dialects(decide_rows[row]);
    }
    for (row = 0; row < COUNT(draft_rows); row++) {
        check_decide_in(ROBOTS_DRAFT1996, draft_rows[row]);
        check_unknown_dialects(draft_rows[row]);
    }
    for (row = 0; row < COUNT(batch_rows); row++) {
        check_batch(batch_rows[row]);
        check_batch_dialects(batch_rows[row]);
    }
    for (row = 0; row < COUNT(line_rows); row++) {
        check_line(line_rows[row]);
    }
    for (row = 0; row < COUNT(path_rows); row++) {
        check_path(path_rows[row]);
    }
    for (row = 0; row < COUNT(refused_rows); row++) {
        check_refused(refused_rows[row]);
    }
    for (row = 0; row < COUNT(match_rows); row++) {
        check_match(match_rows[row]);
    }
}

/* The header's limits are document 01's. */
static void check_limits(void)
{
    struct octets nothing = {NULL, 0};

    check("limit", nothing, ROBOTS_FILE_MOST, 512000);
    check("limit", nothing, ROBOTS_NAME_MOST, 64);
    check("limit", nothing, ROBOTS_LINE_MOST, 512000);
    check("limit", nothing, ROBOTS_PATTERN_MOST, 512000);
    check("limit", nothing, ROBOTS_PATH_MOST, 2048);
    check("limit", nothing, ROBOTS_NORMALISED_MOST, 6142);
}

/* "Add that dialect as a choice (1; 0 is the RFC's)", "20 for an unknown dialect", and M-101's "12" and "13" */
static void check_numbers(void)
{
    struct octets nothing = {NULL, 0};

    check("number", nothing, ROBOTS_RFC9309, 0);
    check("number", nothing, ROBOTS_DRAFT1996, 1);
    check("number", nothing, ROBOTS_REFUSED_DIALECT, 20);
    check("number", nothing, ROBOTS_REFUSED_ENDS, 12);
    check("number", nothing, ROBOTS_REFUSED_ANSWERS, 13);
}

/* "Just inside: a 512,000-octet file, a 64-octet name, a 2,048-octet path" */
static void check_longest_question(void)
{
    static const char rules[] = "user-agent:*\ndisallow:/";
    uint8_t *file = memory(ROBOTS_FILE_MOST + 1);
    uint8_t *name = memory(ROBOTS_NAME_MOST + 1);
    uint8_t *path = memory(ROBOTS_PATH_MOST + 1);
    struct decide_row inside = {{file, 512000}, {name, 64}, {path, 2048}, ROBOTS_ANSWERED, 1, 2, 22, {NULL, 0}, 0, 1};
    struct decide_row long_file = {{file, 512001}, {name, 65}, {path, 2049}, ROBOTS_REFUSED_LENGTH, REFUSED};
    struct decide_row long_name = {{file, 512000}, {name, 65}, {path, 2049}, ROBOTS_REFUSED_NAME, REFUSED};
    struct decide_row long_path = {{file, 512000}, {name, 64}, {path, 2049}, ROBOTS_REFUSED_PATH_LENGTH, REFUSED};
    /* by the draft the pattern is far longer than the path */
    struct decide_row draft = {{file, 512000}, {name, 64}, {path, 2048}, ROBOTS_ANSWERED, NO_RULE(0, 0)};

    memset(file, '*', ROBOTS_FILE_MOST + 1);
    memcpy(file, rules, sizeof rules - 1);
    memset(name, 'a', ROBOTS_NAME_MOST + 1);
    memset(path, '%', ROBOTS_PATH_MOST + 1);
    path[0] = '/';
    inside.pattern.start = file + 22;
    inside.pattern.length = 512000 - 22;
    check_decide(inside);
    check_decide(long_file);
    check_decide(long_name);
    check_decide(long_path);
    check_decide_in(ROBOTS_DRAFT1996, draft);
    check_decide_in(ROBOTS_DRAFT1996, long_file);
    check_unknown_dialects(long_file);
    free(path);
    free(name);
    free(file);
}

/* The same for a list of two paths, of which the second is one octet too long. */
static void check_longest_list(void)
{
    static const char rules[] = "user-agent:*\ndisallow:/";
    uint8_t *file = memory(ROBOTS_FILE_MOST + 1);
    uint8_t *name = memory(ROBOTS_NAME_MOST + 1);
    uint8_t *paths = memory(2048 + 2049);
    struct batch_row inside = {ROBOTS_RFC9309, {file, 512000}, {name, 64}, {paths, 4097}, 2, {2048, 4097},
                               ROBOTS_ANSWERED, {0, LENGTH}, {1, 1}, {2, 0}};
    struct batch_row long_file = {ROBOTS_RFC9309, {file, 512001}, {name, 65}, {paths, 4097}, 2, {4097, 2048},
                                  ROBOTS_REFUSED_LENGTH, NO_ANSWERS};
    struct batch_row long_name = {ROBOTS_RFC9309, {file, 512000}, {name, 65}, {paths, 4097}, 2, {4097, 2048},
                                  ROBOTS_REFUSED_NAME, NO_ANSWERS};

    memset(file, '*', ROBOTS_FILE_MOST + 1);
    memcpy(file, rules, sizeof rules - 1);
    memset(name, 'a', ROBOTS_NAME_MOST + 1);
    memset(paths, '%', 2048 + 2049);
    paths[0] = '/';
    paths[2048] = '/';
    check_batch(inside);
    check_batch(long_file);
    check_batch(long_name);
    check_batch_dialects(long_file);
    free(paths);
    free(name);
    free(file);
}

/* "file, pattern or line longer than 512,000 octets" */
static void check_longest_line(void)
{
    uint8_t *text = memory(512001);
    struct line_row inside = {{text, 512000}, ROBOTS_ANSWERED, ROBOTS_KIND_ALLOW_READABLE, 6, 511994};
    struct line_row outside = {{text, 512001}, ROBOTS_REFUSED_LENGTH, ROBOTS_KIND_REFUSED, 0, 0};

    memset(text, 'a', 512001);
    memcpy(text, "allow:/", 7);
    check_line(inside);
    text[100] = '\n';
    check_line(outside);
    free(text);
}

/* "a 2,048-octet path (at most 6,142 normalised)" */
static void check_longest_path(void)
{
    uint8_t *text = memory(2049);
    uint8_t *normal = memory(6142);
    struct path_row inside = {{text, 2048}, {normal, 6142}};
    struct refused_row outside = {{text, 2049}, ROBOTS_REFUSED_PATH_LENGTH};
    size_t at;

    memset(text, '%', 2049);
    text[0] = '/';
    normal[0] = '/';
    for (at = 1; at < 6142; at += 3) {
        memcpy(normal + at, "%25", 3);
    }
    check_path(inside);
    check_refused(outside);
    free(normal);
    free(text);
}

/* "file, pattern or line longer than 512,000 octets"; the path is 2,048 octets */
static void check_longest_pattern(void)
{
    uint8_t *text = memory(ROBOTS_PATTERN_MOST + 1);
    uint8_t *path = memory(ROBOTS_PATH_MOST + 1);
    /* "/" 1, and each later run is empty */
    struct match_row stars = {{text, 512000}, {path, 2048}, ROBOTS_ANSWERED, 1, 1};
    /* the one run would pass the end of the path */
    struct match_row run = {{text, 512000}, {path, 2048}, ROBOTS_ANSWERED, 0, 0};
    struct match_row outside = {{text, 512001}, {path, 2049}, ROBOTS_REFUSED_LENGTH, 0, 0};
    struct match_row long_path = {{text, 512000}, {path, 2049}, ROBOTS_REFUSED_PATH_LENGTH, 0, 0};

    memset(path, 'a', ROBOTS_PATH_MOST + 1);
    path[0] = '/';
    memset(text, '*', ROBOTS_PATTERN_MOST + 1);
    text[0] = '/';
    check_match(stars);
    check_match(outside);
    check_match(long_path);
    memset(text, '%', ROBOTS_PATTERN_MOST + 1);
    text[0] = '/';
    check_match(run);
    check_match(outside);
    free(path);
    free(text);
}

/* NULL stands for no octets, in each place. */
static void check_null(void)
{
    struct octets nothing = {NULL, 0};
    struct octets slash = {TEXT("/")};
    uint8_t buffer[2] = {0x80, 0x81};

    check("line refusal", nothing, robots_line_refusal(NULL, 0), ROBOTS_ANSWERED);
    check("line kind", nothing, robots_line_kind(NULL, 0), ROBOTS_KIND_BLANK);
    check("line place", nothing, robots_line_place(NULL, 0), 0);
    check("line length", nothing, robots_line_length(NULL, 0), 0);
    check("refusal", nothing, robots_normalise_refusal(NULL, 0, 2), ROBOTS_REFUSED_PATH_LENGTH);
    check("octets written", nothing, robots_normalise(NULL, 0, NULL, 0), 0);
    check("octets written", nothing, robots_normalise(NULL, 0, buffer, 2), 0);
    check("wrong octets in the buffer", nothing, wrong_octets(buffer, 2, nothing), 0);
    check("refusal", slash, robots_normalise_refusal(slash.start, 1, 0), ROBOTS_REFUSED_ROOM);
    check("octets written", slash, robots_normalise(slash.start, 1, NULL, 0), 0);
}

/* The same for a file, a name and a path. */
static void check_null_decide(size_t dialect)
{
    struct octets nothing = {NULL, 0};
    struct octets slash = {TEXT("/")};
    const uint8_t *a = (const uint8_t *)"a";

    check("refusal", nothing, robots_decide_refusal(dialect, NULL, 0, NULL, 0, NULL, 0), ROBOTS_REFUSED_NAME);
    check("disallow", nothing, robots_decide_disallow(dialect, NULL, 0, NULL, 0, NULL, 0), 1);
    check("refusal", nothing, robots_decide_refusal(dialect, NULL, 0, a, 1, NULL, 0), ROBOTS_REFUSED_PATH_LENGTH);
    check("disallow", nothing, robots_decide_disallow(dialect, NULL, 0, a, 1, NULL, 0), 1);
    check("refusal", nothing, robots_decide_refusal(20, NULL, 0, NULL, 0, NULL, 0), ROBOTS_REFUSED_DIALECT);
    check("disallow", nothing, robots_decide_disallow(20, NULL, 0, NULL, 0, NULL, 0), 1);
    check("refusal", slash, robots_decide_refusal(dialect, NULL, 0, a, 1, slash.start, 1), ROBOTS_ANSWERED);
    check("disallow", slash, robots_decide_disallow(dialect, NULL, 0, a, 1, slash.start, 1), 0);
    check("deciding line", slash, robots_decide_line(dialect, NULL, 0, a, 1, slash.start, 1), 0);
    check("deciding place", slash, robots_decide_place(dialect, NULL, 0, a, 1, slash.start, 1), 0);
    check("deciding length", slash, robots_decide_length(dialect, NULL, 0, a, 1, slash.start, 1), 0);
    check("unread", slash, robots_decide_unread(dialect, NULL, 0, a, 1, slash.start, 1), 0);
    check("compared", slash, robots_decide_compared(dialect, NULL, 0, a, 1, slash.start, 1), 0);
}

/* A list with no file and no places for answers. */
#define LIST(dialect, name, name_length, paths, paths_length, ends, ends_length) \
    robots_batch(dialect, NULL, 0, name, name_length, paths, paths_length, ends, ends_length, NULL, 0, NULL, 0, NULL, 0)

/* The same for a list, its ends and the slices for its answers. */
static void check_null_batch(size_t dialect)
{
    struct octets nothing = {NULL, 0};
    struct octets slash = {TEXT("/")};
    const uint8_t *a = (const uint8_t *)"a";
    size_t end = 1;

    check("refusal of the list", nothing, LIST(20, NULL, 0, NULL, 0, NULL, 0), ROBOTS_REFUSED_DIALECT);
    check("refusal of the list", nothing, LIST(dialect, NULL, 0, NULL, 0, NULL, 0), ROBOTS_REFUSED_NAME);
    check("refusal of the list", nothing, LIST(dialect, a, 1, NULL, 0, NULL, 0), ROBOTS_ANSWERED);
    check("refusal of the list", nothing, LIST(dialect, a, 1, NULL, 0, &end, 1), ROBOTS_REFUSED_ENDS);
    check("refusal of the list", slash, LIST(dialect, a, 1, slash.start, 1, NULL, 0), ROBOTS_REFUSED_ENDS);
    check("refusal of the list", slash, LIST(dialect, a, 1, slash.start, 1, &end, 1), ROBOTS_REFUSED_ANSWERS);
}

/* The same for a pattern and a path. */
static void check_null_match(void)
{
    struct octets nothing = {NULL, 0};
    struct octets slash = {TEXT("/")};

    check("match refusal", nothing, robots_match_refusal(NULL, 0, NULL, 0), ROBOTS_REFUSED_PATH_LENGTH);
    check("match found", nothing, robots_match_found(NULL, 0, NULL, 0), 0);
    check("match compared", nothing, robots_match_compared(NULL, 0, NULL, 0), 0);
    check("match refusal", nothing, robots_match_refusal(NULL, 0, slash.start, 1), ROBOTS_REFUSED_PATTERN);
    check("match found", nothing, robots_match_found(NULL, 0, slash.start, 1), 0);
    check("match compared", nothing, robots_match_compared(NULL, 0, slash.start, 1), 0);
    check("match refusal", slash, robots_match_refusal(slash.start, 1, NULL, 0), ROBOTS_REFUSED_PATH_LENGTH);
    check("match found", slash, robots_match_found(slash.start, 1, NULL, 0), 0);
    check("match compared", slash, robots_match_compared(slash.start, 1, NULL, 0), 0);
}

int main(int count, char **words)
{
    if (count > 1) {
        fprintf(stderr, "%s: it takes no arguments: run it alone\n", words[0]);
        return 2;
    }
    check_rows();
    check_limits();
    check_numbers();
    check_longest_question();
    check_longest_list();
    check_longest_line();
    check_longest_path();
    check_longest_pattern();
    check_null();
    check_null_decide(ROBOTS_RFC9309);
    check_null_decide(ROBOTS_DRAFT1996);
    check_null_batch(ROBOTS_RFC9309);
    check_null_batch(ROBOTS_DRAFT1996);
    check_null_match();
    if (failed > 0) {
        printf("link test: %u checks failed, %u passed\n", failed, passed);
        return 1;
    }
    printf("link test: %u checks passed\n", passed);
    return 0;
}
