/* Regular expressions for untrusted patterns and texts, for C and C++.
 *
 * The time of a search grows linearly with the text: no pattern causes catastrophic backtracking.
 * What each call returns is proved. The contract of each call is in crates/regex_lite_c/src, and
 * README.md in this folder has an example.
 *
 * Texts are UTF-8 with a length, and need no terminating NUL. Offsets count bytes. A match begins
 * and ends on character boundaries.
 *
 * CALLER'S OBLIGATIONS. A call rejects whatever invalid input it can detect, and returns why: bytes
 * that are not valid UTF-8, an offset inside a character or beyond the end, a handle that holds
 * nothing, an index out of range, a buffer that is too small. It can't detect the following, so the
 * caller has to ensure it:
 *
 * 1. A pointer that is passed with a length may be null if the length is 0. No other pointer is
 *    null. A length is that of the memory at its pointer, and below 2^63. What the library exports
 *    takes no null at all: regex_lite_null.h lets C and C++ pass it, so a binding to another
 *    language has to replace it.
 * 2. What a call writes to overlaps nothing else that is passed to the call.
 * 3. A handle is initialised with REGEX_LITE_NOTHING, modified by these calls alone and never
 *    copied. Options are initialised with REGEX_LITE_DEFAULTS, and their flags are true or false.
 * 4. No two calls use the same handle at the same time, whatever the calls are.
 * 5. No call is made in a signal handler, nor in the forked child of a process with threads.
 * 6. malloc, realloc and free belong to one allocator, and align to 16 bytes.
 *
 * THREADS. Every call writes to its handle, even one that only reads the regex: it takes the regex
 * out of the handle, and puts it back before it returns. If two threads use the same handle at the
 * same time, the second finds an empty handle or a regex that is in use, so that a regex is lost or
 * freed twice. Under a mutex, any thread may make any call with a handle, including those that
 * build and free: the thread that builds a regex need not be the one that uses or frees it.
 * Different handles may be used by different threads at the same time without a mutex. For
 * searches in parallel, build one regex for each thread. A searcher has its regex for itself, so
 * that the same holds for it.
 *
 * LONG TEXTS. Each call with a text reads the whole text once to check that it is UTF-8, wherever
 * the search starts. So a loop that passes the end of each match as the next start takes time that
 * grows with the square of the text's length. Use regex_lite_find_all, regex_lite_captures_all or
 * their counterparts for lists instead, with room for many matches per call; or a searcher, which
 * reads a text once for all searches in it: see A SEARCHER below.
 *
 * MANY TEXTS. A call that searches may request memory, and frees it before it returns. A searcher
 * keeps its memory, and the transitions that its searches have cached, for text after text.
 */
#ifndef REGEX_LITE_H
#define REGEX_LITE_H

#include <stdbool.h>
#include <stddef.h>
#include <stdint.h>

#ifdef __cplusplus
extern "C" {
#endif

/* The version of this header. regex_lite_version returns that of the library. */
#define REGEX_LITE_VERSION "0.1.9"
#define REGEX_LITE_VERSION_MAJOR 0
#define REGEX_LITE_VERSION_MINOR 1
#define REGEX_LITE_VERSION_PATCH 9

/* A handle: it holds a regex, or nothing. */
typedef struct regex_lite {
    void *place;
} regex_lite;

/* A handle for several patterns that are searched for in one pass: it holds a list of them, or
 * nothing. The rules for handles above hold for it too. */
typedef struct regex_lite_list {
    void *place;
} regex_lite_list;

/* A handle for a searcher: it holds a regex, the memory for its searches and a text; or nothing.
 * The rules for handles above hold for it too. */
typedef struct regex_lite_searcher {
    void *place;
} regex_lite_searcher;

/* A handle of any kind that holds nothing. */
#define REGEX_LITE_NOTHING {0}

/* The settings under which a pattern is built. */
typedef struct regex_lite_options {
    bool case_insensitive;     /* letters match in either case: i */
    bool multi_line;           /* ^ and $ match at every line: m */
    bool dot_matches_new_line; /* . matches every character: s */
    bool crlf;                 /* a carriage return ends a line as well: R */
    bool swap_greed;           /* greedy and lazy operators are swapped: U */
    bool ignore_whitespace;    /* white space and comments in the pattern are ignored: x */
    uint32_t nest_limit;       /* how deeply the pattern may nest */
    size_t size_limit;         /* how large it may become when compiled */
} regex_lite_options;

/* No flag, and the limits that the Rust crate has. */
#define REGEX_LITE_DEFAULTS {false, false, false, false, false, false, 50, 10485760}

/* A part of a text, from the offset of its first byte to the offset after its last. A group that
 * took no part in a match has none: then both offsets are 0. */
typedef struct regex_lite_span {
    bool is_there;
    size_t start;
    size_t end;
} regex_lite_span;

/* The place of the first fault in a pattern, as offsets in bytes. */
typedef struct regex_lite_fault {
    size_t start;      /* the start of the part that can't be parsed */
    size_t end;        /* the end of the fault; if the pattern is cut short, its length */
    bool is_cut_short; /* whether some accepted pattern begins with this one */
} regex_lite_fault;

/* The kind of a part of a pattern. */
typedef enum regex_lite_part_kind {
    REGEX_LITE_PART_EMPTY = 0,      /* the empty text */
    REGEX_LITE_PART_CHAR = 1,       /* the character `first` */
    REGEX_LITE_PART_CLASS = 2,      /* a character of the ranges right after it, in order */
    REGEX_LITE_PART_RANGE = 3,      /* of a class: the characters from `first` to `last` */
    REGEX_LITE_PART_LOOK = 4,       /* a test of the position: `look` */
    REGEX_LITE_PART_REPETITION = 5, /* the part after it, at least `least` times, and at most `most`
                                     * times where `has_most`; `greedy` says whether more are
                                     * preferred to fewer */
    REGEX_LITE_PART_CAPTURE = 6,    /* the part after it, as the group `index` */
    REGEX_LITE_PART_CONCAT = 7,     /* the parts one level below it, one after another */
    REGEX_LITE_PART_ALTERNATION = 8 /* one of the parts one level below it, the earlier preferred */
} regex_lite_part_kind;

/* A test of a position of the text. */
typedef enum regex_lite_look {
    REGEX_LITE_LOOK_NONE = 0,             /* the part isn't a look */
    REGEX_LITE_LOOK_START = 1,            /* the start of the text */
    REGEX_LITE_LOOK_END = 2,              /* the end of the text */
    REGEX_LITE_LOOK_START_LF = 3,         /* the start of a line, where \n ends lines */
    REGEX_LITE_LOOK_END_LF = 4,           /* the end of such a line */
    REGEX_LITE_LOOK_START_CRLF = 5,       /* the start of a line, where \r, \n and \r\n end lines */
    REGEX_LITE_LOOK_END_CRLF = 6,         /* the end of such a line */
    REGEX_LITE_LOOK_WORD = 7,             /* where a word starts or ends: \b */
    REGEX_LITE_LOOK_WORD_NEGATE = 8,      /* where no word starts or ends: \B */
    REGEX_LITE_LOOK_WORD_START = 9,       /* where a word starts */
    REGEX_LITE_LOOK_WORD_END = 10,        /* where a word ends */
    REGEX_LITE_LOOK_WORD_START_HALF = 11, /* no word character before */
    REGEX_LITE_LOOK_WORD_END_HALF = 12    /* no word character after */
} regex_lite_look;

/* A part of a pattern. The parts of a part follow it directly, and are one level below it. A field
 * that parts of its kind don't have is 0 or false. */
typedef struct regex_lite_part {
    size_t depth;              /* the depth in the tree: how many parts are around it */
    regex_lite_part_kind kind; /* the kind of the part */
    uint32_t first;            /* the first character, as its number */
    uint32_t last;             /* the last character, or the only one */
    regex_lite_look look;      /* the look */
    uint32_t index;            /* the index of a group */
    uint32_t least;            /* the least number of passes */
    uint32_t most;             /* the greatest number of passes */
    bool has_most;             /* whether there is a limit */
    bool greedy;               /* whether more passes are preferred to fewer */
} regex_lite_part;

/* The number of parts of a pattern, and the length of the message. */
typedef struct regex_lite_outlined {
    size_t count;       /* the number of parts; 0 if the pattern is rejected */
    size_t message_len; /* the length of the message */
} regex_lite_outlined;

/* The position of a walk over all matches in a text. */
typedef struct regex_lite_walk {
    bool is_begun;
    size_t end;
} regex_lite_walk;

/* The start of a walk. */
#define REGEX_LITE_START {false, 0}

/* The position up to which a text has been split. */
typedef struct regex_lite_cut {
    regex_lite_walk walk; /* over the matches before which pieces were written */
    bool is_over;         /* whether the last piece was written */
} regex_lite_cut;

/* The start of a split. */
#define REGEX_LITE_UNCUT {{false, 0}, false}

/* How matches are replaced. */
typedef struct regex_lite_replacing {
    size_t limit;    /* how many matches, from the first on; 0 means all */
    bool is_literal; /* whether the template is literal, so that a $ in it is a $ */
    size_t len;      /* the length of the new text: written by the call */
    size_t count;    /* how many matches were replaced: written by the call */
} regex_lite_replacing;

/* All matches, by the template's expansion for their groups. */
#define REGEX_LITE_ALL {0, false, 0, 0}

/* The cost of a search, in places: states of the compiled pattern, an NFA. A number above 2^64 - 1
 * is written as 2^64 - 1. */
typedef struct regex_lite_cost {
    uint64_t tried;   /* the number of places that the search tried */
    uint64_t entered; /* the number of places that it entered */
    uint64_t looked;  /* the number of places that it looked up */
} regex_lite_cost;

/* One of several patterns, whose bytes are concatenated. */
typedef struct regex_lite_list_pattern {
    size_t len;                 /* the length of the pattern */
    regex_lite_options options; /* the settings under which it is built */
} regex_lite_list_pattern;

/* Why several patterns are rejected. */
typedef struct regex_lite_list_refusal {
    size_t number;      /* of the rejected pattern; the number of patterns if no single one is */
    size_t message_len; /* the length of the message */
} regex_lite_list_refusal;

/* A match of one of several patterns. */
typedef struct regex_lite_list_span {
    size_t number; /* of the pattern */
    size_t start;
    size_t end;
} regex_lite_list_span;

/* The number of a match's pattern, and the number of that pattern's groups, including the whole
 * match. */
typedef struct regex_lite_list_groups {
    size_t number;
    size_t count;
} regex_lite_list_groups;

/* An answer: what a call returns. If it isn't REGEX_LITE_YES, the call has written only what its
 * description says. */
typedef enum regex_lite_answer {
    REGEX_LITE_NO = 0,            /* there is none, or none is left */
    REGEX_LITE_YES = 1,           /* there is one, and everything was written */
    REGEX_LITE_NOTHING_HELD = 2,  /* the handle holds nothing */
    REGEX_LITE_NOT_TEXT = 3,      /* the bytes are not valid UTF-8 */
    REGEX_LITE_BAD_OFFSET = 4,    /* beyond the end, or inside a character */
    REGEX_LITE_NO_ROOM = 5,       /* too little room, which is unchanged; the description of the
                                   * call says whether it writes how much is needed */
    REGEX_LITE_OUT_OF_MEMORY = 6, /* memory ran out */
    REGEX_LITE_NO_GROUP = 7,      /* no group has this index */
    REGEX_LITE_NO_PATTERN = 8,    /* the list has no pattern with this number */
    REGEX_LITE_SYNTAX = 10,       /* errors in a pattern from here on: bad syntax */
    REGEX_LITE_NESTING = 11,      /* deeper than the nest limit */
    REGEX_LITE_GROUPS = 12,       /* more groups than can be numbered */
    REGEX_LITE_SIZE = 13,         /* larger than the size limit */
    REGEX_LITE_PLACES = 14,       /* more places than can be numbered */
    REGEX_LITE_SLOTS = 15         /* more ends of groups than can be numbered */
} regex_lite_answer;

/* Writes the version of the library, as text: REGEX_LITE_VERSION, followed by "+unproved" if the
 * library was built without a proof. Returns REGEX_LITE_YES, or REGEX_LITE_NO_ROOM; its length is
 * written either way. Ten bytes more than REGEX_LITE_VERSION has are enough. */
regex_lite_answer regex_lite_version(uint8_t *room, size_t room_len, size_t *len);

/* Writes what an answer means, as English text: REGEX_LITE_YES, or REGEX_LITE_NO_ROOM; its length
 * is written either way. A number that isn't an answer has the text "unknown answer". No text has
 * more than 100 bytes. */
regex_lite_answer regex_lite_strerror(uint32_t answer, uint8_t *room, size_t room_len, size_t *len);

/* Builds the regex of a pattern: REGEX_LITE_YES, and the handle holds it; otherwise it returns the
 * reason, and the handle holds nothing. What it held before is freed.
 *
 * The text of an error is written to the message, even if memory ran out, and its length to
 * message_len; a message that is longer than its room isn't written, but its length is. No message
 * has more than 100 bytes. message_len is 0 with REGEX_LITE_YES and with REGEX_LITE_NOT_TEXT. */
regex_lite_answer regex_lite_new(regex_lite *handle, const uint8_t *pattern, size_t pattern_len,
                                 const regex_lite_options *options, uint8_t *message,
                                 size_t message_room, size_t *message_len);

/* Writes the place of the first fault in a pattern: REGEX_LITE_YES. It returns REGEX_LITE_NO if the
 * syntax has no fault; the limits of the options don't matter.
 *
 * The fault starts with the part that can't be parsed: a class, an escape, an operator, a list of
 * flags, a group with a bad name. If groups are open at the end of the pattern, it starts with the
 * innermost of them. It ends at the end of the shortest prefix with which no accepted pattern
 * begins; an editor can mark it up to there. If some accepted pattern begins with this one, as when
 * a group or a class is open, it is cut short, and an editor can wait for more.
 *
 * A pattern that isn't valid UTF-8 is REGEX_LITE_NOT_TEXT, and one with more groups than can be
 * numbered may be REGEX_LITE_GROUPS. */
regex_lite_answer regex_lite_fault_at(const uint8_t *pattern, size_t pattern_len,
                                      const regex_lite_options *options, regex_lite_fault *fault);

/* Writes the parts of a pattern in order, and their number to outlined->count: REGEX_LITE_YES. With
 * room for fewer it only writes their number: REGEX_LITE_NO_ROOM.
 *
 * They are the parts of the tree that the syntax gives the pattern under these options, and of
 * which regex_lite_new builds a regex: (?i)a is a class of two ranges, a{1} is a, and a group that
 * doesn't capture isn't a part. The name of a group is what regex_lite_group_name writes.
 *
 * A pattern is rejected as by regex_lite_new, with the same answers and the same message, but never
 * for its compiled size: neither the size limit nor the number of places matters. */
regex_lite_answer regex_lite_outline(const uint8_t *pattern, size_t pattern_len,
                                     const regex_lite_options *options, regex_lite_part *parts,
                                     size_t room, uint8_t *message, size_t message_room,
                                     regex_lite_outlined *outlined);

/* Frees what the handle holds, if anything. */
void regex_lite_free(regex_lite *handle);

/* Writes the pattern: REGEX_LITE_YES, or REGEX_LITE_NO_ROOM. Its length is written either way. */
regex_lite_answer regex_lite_pattern(regex_lite *handle, uint8_t *room, size_t room_len,
                                     size_t *len);

/* The number of groups of a match, including the whole match; 0 if nothing is held. */
size_t regex_lite_groups(regex_lite *handle);

/* The least number of groups that take part in every match; 0 if it isn't known. */
size_t regex_lite_static_groups(regex_lite *handle);

/* Whether the pattern may match the empty text if its looks, such as ^ and \b, are assumed to hold.
 * REGEX_LITE_NO means that no match is empty; with REGEX_LITE_YES there may still be no empty
 * match, as for \b\B. For a handle that holds nothing it is REGEX_LITE_NOTHING_HELD. */
regex_lite_answer regex_lite_may_be_empty(regex_lite *handle);

/* Writes the name of a group: REGEX_LITE_YES or REGEX_LITE_NO_ROOM, with its length written either
 * way; REGEX_LITE_NO if it has none, like the whole match; or REGEX_LITE_NO_GROUP. */
regex_lite_answer regex_lite_group_name(regex_lite *handle, size_t index, uint8_t *room,
                                        size_t room_len, size_t *len);

/* Writes the index of the group with a name: REGEX_LITE_YES, or REGEX_LITE_NO. */
regex_lite_answer regex_lite_group_index(regex_lite *handle, const uint8_t *name, size_t name_len,
                                         size_t *index);

/* The number of places of the compiled pattern, and the number of arrows between them: the states
 * and transitions of an NFA. A search tries at most (arrows + 1) * (characters + 1) places. 0 if
 * nothing is held. */
size_t regex_lite_places(regex_lite *handle);
size_t regex_lite_arrows(regex_lite *handle);

/* Whether the bytes are UTF-8. The calls below check that themselves. */
bool regex_lite_is_text(const uint8_t *bytes, size_t len);

/* Whether the pattern matches somewhere from this offset on: REGEX_LITE_YES or REGEX_LITE_NO. Looks
 * see the whole text: ^ doesn't match at the offset, unless that is 0.
 *
 * Like each call below that takes a start, it reads the whole text, not only the part from the
 * start on: see LONG TEXTS above before you call it in a loop. */
regex_lite_answer regex_lite_is_match(regex_lite *handle, const uint8_t *text, size_t len,
                                      size_t start);

/* Writes the match that starts first from this offset on, and of several that start there the one
 * that the pattern prefers: REGEX_LITE_YES, or REGEX_LITE_NO. It reads the whole text, whatever the
 * start: for all matches in a text, regex_lite_find_all takes linear time, but a loop over this
 * call doesn't. */
regex_lite_answer regex_lite_find(regex_lite *handle, const uint8_t *text, size_t len, size_t start,
                                  regex_lite_span *span);

/* Whether the pattern matches at this very offset: REGEX_LITE_YES or REGEX_LITE_NO. Looks see the
 * whole text, as with regex_lite_is_match: ^ matches at the start of the text, not at that of the
 * search. The search stops as soon as no match that starts there can continue, and doesn't scan the
 * rest of the text. The whole text is still read once, as above. */
regex_lite_answer regex_lite_is_match_anchored(regex_lite *handle, const uint8_t *text, size_t len,
                                               size_t start);

/* Writes the match that starts at this very offset, and of several the one that the pattern
 * prefers: REGEX_LITE_YES, or REGEX_LITE_NO. It is the match that regex_lite_find writes, if that
 * starts at this offset. It reads the whole text, whatever the start, and looks see the whole
 * text. */
regex_lite_answer regex_lite_find_anchored(regex_lite *handle, const uint8_t *text, size_t len,
                                           size_t start, regex_lite_span *span);

/* Whether the pattern matches the whole text: REGEX_LITE_YES or REGEX_LITE_NO. It is what
 * regex_lite_is_match returns for the pattern between \A(?: and )\z, without another regex. */
regex_lite_answer regex_lite_is_full_match(regex_lite *handle, const uint8_t *text, size_t len);

/* Writes the match of the whole text: REGEX_LITE_YES, or REGEX_LITE_NO. There may be one even if
 * regex_lite_find writes a shorter one, which the pattern prefers, as a|ab does in "ab". */
regex_lite_answer regex_lite_full_match(regex_lite *handle, const uint8_t *text, size_t len,
                                        regex_lite_span *span);

/* Does the same as regex_lite_find, and also writes the cost of the search if the answer is
 * REGEX_LITE_YES or REGEX_LITE_NO. It reads the whole text, whatever the start. */
regex_lite_answer regex_lite_find_counted(regex_lite *handle, const uint8_t *text, size_t len,
                                          size_t start, regex_lite_span *span,
                                          regex_lite_cost *cost);

/* Writes the least offset at which a match ends that starts at this offset or later:
 * REGEX_LITE_YES, or REGEX_LITE_NO. It reads the whole text, whatever the start. */
regex_lite_answer regex_lite_shortest(regex_lite *handle, const uint8_t *text, size_t len,
                                      size_t start, size_t *end);

/* Searches many texts, whose bytes are concatenated, and writes the first match in each, as offsets
 * in that text; is_there is false if a text has none: REGEX_LITE_YES. With room for fewer spans
 * than texts nothing at all is written: REGEX_LITE_NO_ROOM. `count` spans are needed.
 *
 * The lengths of the texts have to add up to `len`, and no text may end inside a character;
 * otherwise the answer is REGEX_LITE_BAD_OFFSET. The searches share their memory and the
 * transitions that they cache. */
regex_lite_answer regex_lite_find_each(regex_lite *handle, const uint8_t *texts, size_t len,
                                       const size_t *lens, size_t count, regex_lite_span *spans,
                                       size_t room);

/* Writes the groups of the match that regex_lite_find writes, beginning with the whole match, and
 * their number: REGEX_LITE_YES, or REGEX_LITE_NO. With room for fewer it only writes their number:
 * REGEX_LITE_NO_ROOM. It reads the whole text, whatever the start: for the groups of all matches of
 * a text use regex_lite_captures_all, which takes linear time where a loop over this call takes
 * quadratic time. */
regex_lite_answer regex_lite_captures(regex_lite *handle, const uint8_t *text, size_t len,
                                      size_t start, regex_lite_span *spans, size_t room,
                                      size_t *count);

/* Writes the groups of the match that regex_lite_find_anchored writes, and their number. The
 * answers, and what is written with too little room, are those of regex_lite_captures. */
regex_lite_answer regex_lite_captures_anchored(regex_lite *handle, const uint8_t *text, size_t len,
                                               size_t start, regex_lite_span *spans, size_t room,
                                               size_t *count);

/* Writes the groups of the match of the whole text, and their number. If the pattern matches it in
 * several ways, the groups are those of the preferred one. The answers, and what is written with
 * too little room, are those of regex_lite_captures. */
regex_lite_answer regex_lite_full_captures(regex_lite *handle, const uint8_t *text, size_t len,
                                           regex_lite_span *spans, size_t room, size_t *count);

/* Writes the next matches in a text from left to right, as many as there is room for, and their
 * number: REGEX_LITE_YES, or REGEX_LITE_NO if none is left. No two overlap. With a `room` of 0 the
 * answer is REGEX_LITE_NO_ROOM, and the count is 0. If the answer isn't REGEX_LITE_YES, the walk
 * doesn't move.
 *
 * The walk is initialised with REGEX_LITE_START, and continues with the same handle and text. Each
 * call reads the whole text once to check that it is UTF-8, so room for many matches is better. */
regex_lite_answer regex_lite_find_all(regex_lite *handle, const uint8_t *text, size_t len,
                                      regex_lite_walk *walk, regex_lite_span *spans, size_t room,
                                      size_t *count);

/* Writes the groups of the matches that regex_lite_find_all writes, one match after another, and
 * the number of these matches: the groups of match i begin at i * regex_lite_groups. It writes as
 * many as there is room for: REGEX_LITE_YES means that all remaining matches were written, or that
 * the next one has more groups than there are spans left. REGEX_LITE_NO means that none is left.
 * With room for fewer spans than a match has groups, which is regex_lite_groups, the answer is
 * REGEX_LITE_NO_ROOM, and the count is 0.
 *
 * If memory runs out, the answer is REGEX_LITE_OUT_OF_MEMORY. Then the groups of the matches before
 * have been written, the count is the number of these matches, which may be 0, and the walk moves
 * past them. Each call reads the whole text once, so room for many matches is better. */
regex_lite_answer regex_lite_captures_all(regex_lite *handle, const uint8_t *text, size_t len,
                                          regex_lite_walk *walk, regex_lite_span *spans,
                                          size_t room, size_t *count);

/* Writes the next pieces of a text, as many as there is room for, and their number: REGEX_LITE_YES,
 * or REGEX_LITE_NO if none is left. The pieces are the texts before, between and after the matches
 * that regex_lite_find_all writes, so there is one more piece than matches. With a `room` of 0 the
 * answer is REGEX_LITE_NO_ROOM, and the count is 0. If the answer isn't REGEX_LITE_YES, the cut
 * doesn't move.
 *
 * The cut is initialised with REGEX_LITE_UNCUT, and continues with the same handle and text. Each
 * call reads the whole text once, so room for many pieces is better. */
regex_lite_answer regex_lite_split(regex_lite *handle, const uint8_t *text, size_t len,
                                   regex_lite_cut *cut, regex_lite_span *pieces, size_t room,
                                   size_t *count);

/* Writes the text with its matches replaced, its length to replacing->len, and the number of
 * matches that were replaced to replacing->count: REGEX_LITE_YES; or only these two numbers:
 * REGEX_LITE_NO_ROOM. In a template $1 or $name refers to a group, and $$ is a $. */
regex_lite_answer regex_lite_replace(regex_lite *handle, const uint8_t *text, size_t len,
                                     const uint8_t *replacement, size_t replacement_len,
                                     regex_lite_replacing *replacing, uint8_t *room,
                                     size_t room_len);

/* Writes a pattern that matches exactly this text, and its length: REGEX_LITE_YES; or only the
 * length: REGEX_LITE_NO_ROOM. */
regex_lite_answer regex_lite_escape(const uint8_t *text, size_t len, uint8_t *room, size_t room_len,
                                    size_t *pattern_len);

/* A SEARCHER runs one regex over many texts. It has a text of its own, which is validated as UTF-8
 * once, so that a loop over the matches in a long text reads it once in all. It keeps its memory,
 * so that no search requests any: once its buffer is large enough, a loop that reads lines and
 * searches them requests none. */

/* Makes a searcher of the regex that the second handle holds: REGEX_LITE_YES. The searcher has the
 * regex from then on, and the second handle holds nothing; ask it for the names of groups before.
 * The text is empty until one is read.
 *
 * Otherwise the first handle holds nothing, and the second is unchanged: the answer is
 * REGEX_LITE_NOTHING_HELD if the second holds nothing, or REGEX_LITE_OUT_OF_MEMORY. What the first
 * handle held before is freed. */
regex_lite_answer regex_lite_searcher_new(regex_lite_searcher *handle, regex_lite *regex);

/* Frees what the handle holds, if anything: the regex, the memory and the text. */
void regex_lite_searcher_free(regex_lite_searcher *handle);

/* Reads the bytes as the text that the calls below search, and copies them: REGEX_LITE_YES. The
 * bytes may then change, or be freed. With REGEX_LITE_NOT_TEXT, REGEX_LITE_OUT_OF_MEMORY and
 * REGEX_LITE_NOTHING_HELD the text is unchanged. */
regex_lite_answer regex_lite_searcher_read(regex_lite_searcher *handle, const uint8_t *text,
                                           size_t len);

/* Whether the pattern matches somewhere in the text: REGEX_LITE_YES or REGEX_LITE_NO. No call from
 * here on runs out of memory. */
regex_lite_answer regex_lite_searcher_is_match(regex_lite_searcher *handle);

/* Writes the match that starts first from this offset of the text on, and of several that start
 * there the one that the pattern prefers: REGEX_LITE_YES, or REGEX_LITE_NO. Looks see the whole
 * text. It takes only the time of the search, so it may be called in a loop from the end of each
 * match. After an empty match such a loop has to continue one character later, as
 * regex_lite_find_all does by itself. */
regex_lite_answer regex_lite_searcher_find(regex_lite_searcher *handle, size_t start,
                                           regex_lite_span *span);

/* Writes the groups of the match that regex_lite_searcher_find writes, beginning with the whole
 * match, and their number: REGEX_LITE_YES, or REGEX_LITE_NO. With room for fewer it only writes
 * their number: REGEX_LITE_NO_ROOM. */
regex_lite_answer regex_lite_searcher_captures(regex_lite_searcher *handle, size_t start,
                                               regex_lite_span *spans, size_t room,
                                               size_t *count);

/* Whether the pattern matches at this very offset of the text: REGEX_LITE_YES or REGEX_LITE_NO.
 * Looks see the whole text. */
regex_lite_answer regex_lite_searcher_is_match_anchored(regex_lite_searcher *handle,
                                                        size_t start);

/* Writes the match that starts at this very offset, and of several the one that the pattern
 * prefers: REGEX_LITE_YES, or REGEX_LITE_NO. It stops as soon as no match that starts there can
 * continue. */
regex_lite_answer regex_lite_searcher_find_anchored(regex_lite_searcher *handle, size_t start,
                                                    regex_lite_span *span);

/* Writes the groups of the match that regex_lite_searcher_find_anchored writes, and their number.
 * The answers, and what is written with too little room, are those of
 * regex_lite_searcher_captures. */
regex_lite_answer regex_lite_searcher_captures_anchored(regex_lite_searcher *handle, size_t start,
                                                        regex_lite_span *spans, size_t room,
                                                        size_t *count);

/* Whether the pattern matches the whole text: REGEX_LITE_YES or REGEX_LITE_NO. */
regex_lite_answer regex_lite_searcher_is_full_match(regex_lite_searcher *handle);

/* Writes the match of the whole text, even if the pattern prefers a shorter one: REGEX_LITE_YES, or
 * REGEX_LITE_NO. */
regex_lite_answer regex_lite_searcher_full_match(regex_lite_searcher *handle,
                                                 regex_lite_span *span);

/* SEVERAL PATTERNS AT ONCE. They are numbered in order, from 0 on, and a search makes one pass over
 * the text for all of them. Of the matches that start first it finds that of the pattern with the
 * lowest number, and of that pattern's matches the one that it prefers. */

/* Builds the list of several patterns, whose bytes are concatenated: REGEX_LITE_YES, and the handle
 * holds it; otherwise it returns the reason, and the handle holds nothing. What it held before is
 * freed. The list may be empty, and a pattern may occur in it more than once.
 *
 * The lengths of the patterns have to add up to `len`; otherwise the answer is
 * REGEX_LITE_BAD_OFFSET. With REGEX_LITE_NOT_TEXT, refusal->number is that of the first pattern
 * that isn't valid UTF-8. With any other error it is that of the first pattern that is rejected by
 * itself, or the number of patterns if none is: if memory runs out, or if the patterns have more
 * places together than can be numbered. The message is like that of regex_lite_new, and its length
 * is also 0 with REGEX_LITE_BAD_OFFSET. */
regex_lite_answer regex_lite_list_new(regex_lite_list *handle, const uint8_t *bytes, size_t len,
                                      const regex_lite_list_pattern *patterns, size_t count,
                                      uint8_t *message, size_t message_room,
                                      regex_lite_list_refusal *refusal);

/* Frees what the handle holds, if anything. */
void regex_lite_list_free(regex_lite_list *handle);

/* The number of patterns in the list; 0 if nothing is held. */
size_t regex_lite_list_len(regex_lite_list *handle);

/* Writes the pattern with this number: REGEX_LITE_YES or REGEX_LITE_NO_ROOM, with its length
 * written either way; or REGEX_LITE_NO if the list has no such pattern. */
regex_lite_answer regex_lite_list_pattern_at(regex_lite_list *handle, size_t number, uint8_t *room,
                                             size_t room_len, size_t *len);

/* What regex_lite_may_be_empty returns for the pattern with this number; or REGEX_LITE_NO_PATTERN
 * if the list has no such pattern. */
regex_lite_answer regex_lite_list_may_be_empty(regex_lite_list *handle, size_t number);

/* The number of places of the compiled patterns together, and the number of arrows between them. A
 * search tries at most (arrows + patterns) * (characters + 1) places. 0 if nothing is held. */
size_t regex_lite_list_places(regex_lite_list *handle);
size_t regex_lite_list_arrows(regex_lite_list *handle);

/* Whether one of the patterns matches somewhere from this offset on: REGEX_LITE_YES or
 * REGEX_LITE_NO. Looks see the whole text, as with regex_lite_is_match, and the whole text is
 * read. */
regex_lite_answer regex_lite_list_is_match(regex_lite_list *handle, const uint8_t *text, size_t len,
                                           size_t start);

/* Writes the match that is found from this offset on, with the number of its pattern:
 * REGEX_LITE_YES, or REGEX_LITE_NO. It reads the whole text, whatever the start: for all matches in
 * a text use regex_lite_list_find_all. */
regex_lite_answer regex_lite_list_find(regex_lite_list *handle, const uint8_t *text, size_t len,
                                       size_t start, regex_lite_list_span *span);

/* Whether one of the patterns matches at this very offset: REGEX_LITE_YES or REGEX_LITE_NO. Looks
 * see the whole text, and the whole text is read. */
regex_lite_answer regex_lite_list_is_match_anchored(regex_lite_list *handle, const uint8_t *text,
                                                    size_t len, size_t start);

/* Writes the match that starts at this very offset, of the pattern with the lowest number that
 * matches there, with that number: REGEX_LITE_YES, or REGEX_LITE_NO. Looks see the whole text. It
 * reads the whole text, whatever the start: for all tokens of a long text call
 * regex_lite_list_find_all, and check that each match starts where the one before it ends. */
regex_lite_answer regex_lite_list_find_anchored(regex_lite_list *handle, const uint8_t *text,
                                                size_t len, size_t start,
                                                regex_lite_list_span *span);

/* Whether one of the patterns matches the whole text: REGEX_LITE_YES or REGEX_LITE_NO. */
regex_lite_answer regex_lite_list_is_full_match(regex_lite_list *handle, const uint8_t *text,
                                                size_t len);

/* Writes the match of the whole text, of the pattern with the lowest number that has one, with that
 * number: REGEX_LITE_YES, or REGEX_LITE_NO. */
regex_lite_answer regex_lite_list_full_match(regex_lite_list *handle, const uint8_t *text,
                                             size_t len, regex_lite_list_span *span);

/* Does the same as regex_lite_list_find, and also writes the cost of the search if the answer is
 * REGEX_LITE_YES or REGEX_LITE_NO. It reads the whole text, whatever the start. */
regex_lite_answer regex_lite_list_find_counted(regex_lite_list *handle, const uint8_t *text,
                                               size_t len, size_t start, regex_lite_list_span *span,
                                               regex_lite_cost *cost);

/* Writes the groups of the match that regex_lite_list_find writes, beginning with the whole match,
 * the number of its pattern, and the number of that pattern's groups: REGEX_LITE_YES, or
 * REGEX_LITE_NO. With room for fewer groups it only writes the two numbers: REGEX_LITE_NO_ROOM. It
 * reads the whole text, whatever the start: for the groups of all matches of a text use
 * regex_lite_list_captures_all. */
regex_lite_answer regex_lite_list_captures(regex_lite_list *handle, const uint8_t *text, size_t len,
                                           size_t start, regex_lite_span *spans, size_t room,
                                           regex_lite_list_groups *groups);

/* Writes the groups of the match that regex_lite_list_find_anchored writes, the number of its
 * pattern, and the number of that pattern's groups. The answers, and what is written with too
 * little room, are those of regex_lite_list_captures. */
regex_lite_answer regex_lite_list_captures_anchored(regex_lite_list *handle, const uint8_t *text,
                                                    size_t len, size_t start,
                                                    regex_lite_span *spans, size_t room,
                                                    regex_lite_list_groups *groups);

/* Writes the groups of the match that regex_lite_list_full_match writes, the number of its pattern,
 * and the number of that pattern's groups. The answers, and what is written with too little room,
 * are those of regex_lite_list_captures. */
regex_lite_answer regex_lite_list_full_captures(regex_lite_list *handle, const uint8_t *text,
                                                size_t len, regex_lite_span *spans, size_t room,
                                                regex_lite_list_groups *groups);

/* Whether the pattern with this number matches somewhere from this offset on: REGEX_LITE_YES or
 * REGEX_LITE_NO; or REGEX_LITE_NO_PATTERN if the list has no such pattern. This call and the next
 * two search only for that pattern, and return what the calls for its own regex return, whatever
 * the other patterns match: a caller that prefers some patterns to others searches for them in that
 * order. They read the whole text, whatever the start. */
regex_lite_answer regex_lite_list_is_match_of(regex_lite_list *handle, size_t number,
                                              const uint8_t *text, size_t len, size_t start);

/* Writes the match of the pattern with this number that starts first from this offset on:
 * REGEX_LITE_YES, REGEX_LITE_NO or REGEX_LITE_NO_PATTERN. */
regex_lite_answer regex_lite_list_find_of(regex_lite_list *handle, size_t number,
                                          const uint8_t *text, size_t len, size_t start,
                                          regex_lite_span *span);

/* Writes the groups of the match that regex_lite_list_find_of writes, by the indices of their own
 * pattern, and their number: REGEX_LITE_YES, REGEX_LITE_NO or REGEX_LITE_NO_PATTERN. With room for
 * fewer it only writes their number: REGEX_LITE_NO_ROOM. */
regex_lite_answer regex_lite_list_captures_of(regex_lite_list *handle, size_t number,
                                              const uint8_t *text, size_t len, size_t start,
                                              regex_lite_span *spans, size_t room, size_t *count);

/* Writes the next matches in a text from left to right, of any pattern, as many as there is room
 * for, and their number: REGEX_LITE_YES, or REGEX_LITE_NO if none is left. No two overlap. The walk
 * and the answers are like those of regex_lite_find_all. */
regex_lite_answer regex_lite_list_find_all(regex_lite_list *handle, const uint8_t *text, size_t len,
                                           regex_lite_walk *walk, regex_lite_list_span *spans,
                                           size_t room, size_t *count);

/* Writes the groups of the matches that regex_lite_list_find_all writes, one match after another,
 * and the number of these matches. For each match it writes the number of its pattern and the
 * number of that pattern's groups. It writes as many as there is room for: REGEX_LITE_YES means
 * that all remaining matches were written, or that there is no room left for the number or for the
 * groups of the next one. REGEX_LITE_NO means that none is left. With too little room for the first
 * of them the answer is REGEX_LITE_NO_ROOM, and `count` is the number of its groups.
 *
 * If memory runs out, the answer is REGEX_LITE_OUT_OF_MEMORY. Then the groups of the matches before
 * have been written, `count` is the number of these matches, which may be 0, and the walk moves
 * past them. Each call reads the whole text once, so room for many matches is better. */
regex_lite_answer regex_lite_list_captures_all(regex_lite_list *handle, const uint8_t *text,
                                               size_t len, regex_lite_walk *walk,
                                               regex_lite_list_groups *groups, size_t groups_room,
                                               regex_lite_span *spans, size_t room, size_t *count);

/* Writes for each pattern, by its number, whether it matches somewhere from this offset on, 1 or 0,
 * and the number of patterns: REGEX_LITE_YES. With room for fewer bytes it only writes their
 * number: REGEX_LITE_NO_ROOM. For 16 or more patterns it may make a single pass; otherwise it
 * searches for each pattern by itself. It reads the whole text, whatever the start. */
regex_lite_answer regex_lite_list_matches(regex_lite_list *handle, const uint8_t *text, size_t len,
                                          size_t start, uint8_t *matched, size_t room,
                                          size_t *count);

#ifdef __cplusplus
}
#endif

/* Lets a pointer be null if its length is 0. */
#include "regex_lite_null.h"

#endif
