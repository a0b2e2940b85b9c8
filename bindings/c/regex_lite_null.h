/* Lets a pointer be null if its length is 0. regex_lite.h includes this file.
 *
 * The calls of the library take arrays by reference, and no reference is null, not even one to an
 * empty array. So each call that takes a pointer with a length has a function here that passes its
 * arguments on, but replaces a pointer whose length is 0 by a pointer to an object. That object is
 * neither read nor written. A pointer with any other length is unchanged, so that a null pointer
 * with such a length isn't hidden.
 *
 * The name of the call stands for the function, even if a pointer to it is taken. Its arguments are
 * those of a function: each is evaluated once, and may be a macro that expands to several. What is
 * proved about the call holds for the function as far as it passes its arguments on, which is
 * tested.
 *
 * `#undef regex_lite_find`, after all headers, gives the call itself, with a name that the linker
 * knows, for a program that defines it or checks whether it exists. No pointer that it takes may be
 * null. */
#ifndef REGEX_LITE_NULL_H
#define REGEX_LITE_NULL_H

#include "regex_lite.h"

#if defined(__cplusplus)
#define REGEX_LITE_INLINE inline
#elif defined(__STDC_VERSION__) && __STDC_VERSION__ >= 199901L
#define REGEX_LITE_INLINE static inline
#else
#define REGEX_LITE_INLINE static __inline
#endif

/* Defines a function that returns a pointer to elements of a type, or a pointer to another object
 * of this type if the length is 0. */
#define REGEX_LITE_SOME(name, pointer, type)                    \
    REGEX_LITE_INLINE pointer name(pointer array, size_t len) { \
        static type unread;                                     \
        return len == 0 ? &unread : array;                      \
    }

REGEX_LITE_SOME(regex_lite_some_text, const uint8_t *, uint8_t)
REGEX_LITE_SOME(regex_lite_some_lens, const size_t *, size_t)
REGEX_LITE_SOME(regex_lite_some_patterns, const regex_lite_list_pattern *, regex_lite_list_pattern)
REGEX_LITE_SOME(regex_lite_some_bytes, uint8_t *, uint8_t)
REGEX_LITE_SOME(regex_lite_some_spans, regex_lite_span *, regex_lite_span)
REGEX_LITE_SOME(regex_lite_some_parts, regex_lite_part *, regex_lite_part)
REGEX_LITE_SOME(regex_lite_some_list_spans, regex_lite_list_span *, regex_lite_list_span)
REGEX_LITE_SOME(regex_lite_some_list_groups, regex_lite_list_groups *, regex_lite_list_groups)

REGEX_LITE_INLINE regex_lite_answer
regex_lite_version_(uint8_t *room, size_t room_len, size_t *len) {
    return regex_lite_version(regex_lite_some_bytes(room, room_len), room_len, len);
}
#define regex_lite_version regex_lite_version_

REGEX_LITE_INLINE regex_lite_answer
regex_lite_strerror_(uint32_t answer, uint8_t *room, size_t room_len, size_t *len) {
    return regex_lite_strerror(answer, regex_lite_some_bytes(room, room_len), room_len, len);
}
#define regex_lite_strerror regex_lite_strerror_

REGEX_LITE_INLINE regex_lite_answer
regex_lite_new_(regex_lite *handle, const uint8_t *pattern, size_t pattern_len,
                const regex_lite_options *options, uint8_t *message, size_t message_room,
                size_t *message_len) {
    return regex_lite_new(handle, regex_lite_some_text(pattern, pattern_len), pattern_len, options,
                          regex_lite_some_bytes(message, message_room), message_room, message_len);
}
#define regex_lite_new regex_lite_new_

REGEX_LITE_INLINE regex_lite_answer
regex_lite_fault_at_(const uint8_t *pattern, size_t pattern_len, const regex_lite_options *options,
                     regex_lite_fault *fault) {
    return regex_lite_fault_at(regex_lite_some_text(pattern, pattern_len), pattern_len, options,
                               fault);
}
#define regex_lite_fault_at regex_lite_fault_at_

REGEX_LITE_INLINE regex_lite_answer
regex_lite_outline_(const uint8_t *pattern, size_t pattern_len, const regex_lite_options *options,
                    regex_lite_part *parts, size_t room, uint8_t *message, size_t message_room,
                    regex_lite_outlined *outlined) {
    return regex_lite_outline(regex_lite_some_text(pattern, pattern_len), pattern_len, options,
                              regex_lite_some_parts(parts, room), room,
                              regex_lite_some_bytes(message, message_room), message_room, outlined);
}
#define regex_lite_outline regex_lite_outline_

REGEX_LITE_INLINE regex_lite_answer
regex_lite_pattern_(regex_lite *handle, uint8_t *room, size_t room_len, size_t *len) {
    return regex_lite_pattern(handle, regex_lite_some_bytes(room, room_len), room_len, len);
}
#define regex_lite_pattern regex_lite_pattern_

REGEX_LITE_INLINE regex_lite_answer
regex_lite_group_name_(regex_lite *handle, size_t index, uint8_t *room, size_t room_len,
                       size_t *len) {
    return regex_lite_group_name(handle, index, regex_lite_some_bytes(room, room_len), room_len,
                                 len);
}
#define regex_lite_group_name regex_lite_group_name_

REGEX_LITE_INLINE regex_lite_answer
regex_lite_group_index_(regex_lite *handle, const uint8_t *name, size_t name_len, size_t *index) {
    return regex_lite_group_index(handle, regex_lite_some_text(name, name_len), name_len, index);
}
#define regex_lite_group_index regex_lite_group_index_

REGEX_LITE_INLINE bool regex_lite_is_text_(const uint8_t *bytes, size_t len) {
    return regex_lite_is_text(regex_lite_some_text(bytes, len), len);
}
#define regex_lite_is_text regex_lite_is_text_

REGEX_LITE_INLINE regex_lite_answer
regex_lite_is_match_(regex_lite *handle, const uint8_t *text, size_t len, size_t start) {
    return regex_lite_is_match(handle, regex_lite_some_text(text, len), len, start);
}
#define regex_lite_is_match regex_lite_is_match_

REGEX_LITE_INLINE regex_lite_answer
regex_lite_find_(regex_lite *handle, const uint8_t *text, size_t len, size_t start,
                 regex_lite_span *span) {
    return regex_lite_find(handle, regex_lite_some_text(text, len), len, start, span);
}
#define regex_lite_find regex_lite_find_

REGEX_LITE_INLINE regex_lite_answer
regex_lite_is_match_anchored_(regex_lite *handle, const uint8_t *text, size_t len, size_t start) {
    return regex_lite_is_match_anchored(handle, regex_lite_some_text(text, len), len, start);
}
#define regex_lite_is_match_anchored regex_lite_is_match_anchored_

REGEX_LITE_INLINE regex_lite_answer
regex_lite_find_anchored_(regex_lite *handle, const uint8_t *text, size_t len, size_t start,
                          regex_lite_span *span) {
    return regex_lite_find_anchored(handle, regex_lite_some_text(text, len), len, start, span);
}
#define regex_lite_find_anchored regex_lite_find_anchored_

REGEX_LITE_INLINE regex_lite_answer
regex_lite_is_full_match_(regex_lite *handle, const uint8_t *text, size_t len) {
    return regex_lite_is_full_match(handle, regex_lite_some_text(text, len), len);
}
#define regex_lite_is_full_match regex_lite_is_full_match_

REGEX_LITE_INLINE regex_lite_answer
regex_lite_full_match_(regex_lite *handle, const uint8_t *text, size_t len, regex_lite_span *span) {
    return regex_lite_full_match(handle, regex_lite_some_text(text, len), len, span);
}
#define regex_lite_full_match regex_lite_full_match_

REGEX_LITE_INLINE regex_lite_answer
regex_lite_find_counted_(regex_lite *handle, const uint8_t *text, size_t len, size_t start,
                         regex_lite_span *span, regex_lite_cost *cost) {
    return regex_lite_find_counted(handle, regex_lite_some_text(text, len), len, start, span, cost);
}
#define regex_lite_find_counted regex_lite_find_counted_

REGEX_LITE_INLINE regex_lite_answer
regex_lite_shortest_(regex_lite *handle, const uint8_t *text, size_t len, size_t start,
                     size_t *end) {
    return regex_lite_shortest(handle, regex_lite_some_text(text, len), len, start, end);
}
#define regex_lite_shortest regex_lite_shortest_

REGEX_LITE_INLINE regex_lite_answer
regex_lite_find_each_(regex_lite *handle, const uint8_t *texts, size_t len, const size_t *lens,
                      size_t count, regex_lite_span *spans, size_t room) {
    return regex_lite_find_each(handle, regex_lite_some_text(texts, len), len,
                                regex_lite_some_lens(lens, count), count,
                                regex_lite_some_spans(spans, room), room);
}
#define regex_lite_find_each regex_lite_find_each_

REGEX_LITE_INLINE regex_lite_answer
regex_lite_captures_(regex_lite *handle, const uint8_t *text, size_t len, size_t start,
                     regex_lite_span *spans, size_t room, size_t *count) {
    return regex_lite_captures(handle, regex_lite_some_text(text, len), len, start,
                               regex_lite_some_spans(spans, room), room, count);
}
#define regex_lite_captures regex_lite_captures_

REGEX_LITE_INLINE regex_lite_answer
regex_lite_captures_anchored_(regex_lite *handle, const uint8_t *text, size_t len, size_t start,
                              regex_lite_span *spans, size_t room, size_t *count) {
    return regex_lite_captures_anchored(handle, regex_lite_some_text(text, len), len, start,
                                        regex_lite_some_spans(spans, room), room, count);
}
#define regex_lite_captures_anchored regex_lite_captures_anchored_

REGEX_LITE_INLINE regex_lite_answer
regex_lite_full_captures_(regex_lite *handle, const uint8_t *text, size_t len,
                          regex_lite_span *spans, size_t room, size_t *count) {
    return regex_lite_full_captures(handle, regex_lite_some_text(text, len), len,
                                    regex_lite_some_spans(spans, room), room, count);
}
#define regex_lite_full_captures regex_lite_full_captures_

REGEX_LITE_INLINE regex_lite_answer
regex_lite_find_all_(regex_lite *handle, const uint8_t *text, size_t len, regex_lite_walk *walk,
                     regex_lite_span *spans, size_t room, size_t *count) {
    return regex_lite_find_all(handle, regex_lite_some_text(text, len), len, walk,
                               regex_lite_some_spans(spans, room), room, count);
}
#define regex_lite_find_all regex_lite_find_all_

REGEX_LITE_INLINE regex_lite_answer
regex_lite_captures_all_(regex_lite *handle, const uint8_t *text, size_t len, regex_lite_walk *walk,
                         regex_lite_span *spans, size_t room, size_t *count) {
    return regex_lite_captures_all(handle, regex_lite_some_text(text, len), len, walk,
                                   regex_lite_some_spans(spans, room), room, count);
}
#define regex_lite_captures_all regex_lite_captures_all_

REGEX_LITE_INLINE regex_lite_answer
regex_lite_split_(regex_lite *handle, const uint8_t *text, size_t len, regex_lite_cut *cut,
                  regex_lite_span *pieces, size_t room, size_t *count) {
    return regex_lite_split(handle, regex_lite_some_text(text, len), len, cut,
                            regex_lite_some_spans(pieces, room), room, count);
}
#define regex_lite_split regex_lite_split_

REGEX_LITE_INLINE regex_lite_answer
regex_lite_replace_(regex_lite *handle, const uint8_t *text, size_t len, const uint8_t *replacement,
                    size_t replacement_len, regex_lite_replacing *replacing, uint8_t *room,
                    size_t room_len) {
    return regex_lite_replace(handle, regex_lite_some_text(text, len), len,
                              regex_lite_some_text(replacement, replacement_len), replacement_len,
                              replacing, regex_lite_some_bytes(room, room_len), room_len);
}
#define regex_lite_replace regex_lite_replace_

REGEX_LITE_INLINE regex_lite_answer
regex_lite_escape_(const uint8_t *text, size_t len, uint8_t *room, size_t room_len,
                   size_t *pattern_len) {
    return regex_lite_escape(regex_lite_some_text(text, len), len,
                             regex_lite_some_bytes(room, room_len), room_len, pattern_len);
}
#define regex_lite_escape regex_lite_escape_

REGEX_LITE_INLINE regex_lite_answer
regex_lite_searcher_read_(regex_lite_searcher *handle, const uint8_t *text, size_t len) {
    return regex_lite_searcher_read(handle, regex_lite_some_text(text, len), len);
}
#define regex_lite_searcher_read regex_lite_searcher_read_

REGEX_LITE_INLINE regex_lite_answer
regex_lite_searcher_captures_(regex_lite_searcher *handle, size_t start, regex_lite_span *spans,
                              size_t room, size_t *count) {
    return regex_lite_searcher_captures(handle, start, regex_lite_some_spans(spans, room), room,
                                        count);
}
#define regex_lite_searcher_captures regex_lite_searcher_captures_

REGEX_LITE_INLINE regex_lite_answer
regex_lite_searcher_captures_anchored_(regex_lite_searcher *handle, size_t start,
                                       regex_lite_span *spans, size_t room, size_t *count) {
    return regex_lite_searcher_captures_anchored(handle, start, regex_lite_some_spans(spans, room),
                                                 room, count);
}
#define regex_lite_searcher_captures_anchored regex_lite_searcher_captures_anchored_

REGEX_LITE_INLINE regex_lite_answer
regex_lite_list_new_(regex_lite_list *handle, const uint8_t *bytes, size_t len,
                     const regex_lite_list_pattern *patterns, size_t count, uint8_t *message,
                     size_t message_room, regex_lite_list_refusal *refusal) {
    return regex_lite_list_new(handle, regex_lite_some_text(bytes, len), len,
                               regex_lite_some_patterns(patterns, count), count,
                               regex_lite_some_bytes(message, message_room), message_room, refusal);
}
#define regex_lite_list_new regex_lite_list_new_

REGEX_LITE_INLINE regex_lite_answer
regex_lite_list_pattern_at_(regex_lite_list *handle, size_t number, uint8_t *room, size_t room_len,
                            size_t *len) {
    return regex_lite_list_pattern_at(handle, number, regex_lite_some_bytes(room, room_len),
                                      room_len, len);
}
#define regex_lite_list_pattern_at regex_lite_list_pattern_at_

REGEX_LITE_INLINE regex_lite_answer
regex_lite_list_is_match_(regex_lite_list *handle, const uint8_t *text, size_t len, size_t start) {
    return regex_lite_list_is_match(handle, regex_lite_some_text(text, len), len, start);
}
#define regex_lite_list_is_match regex_lite_list_is_match_

REGEX_LITE_INLINE regex_lite_answer
regex_lite_list_find_(regex_lite_list *handle, const uint8_t *text, size_t len, size_t start,
                      regex_lite_list_span *span) {
    return regex_lite_list_find(handle, regex_lite_some_text(text, len), len, start, span);
}
#define regex_lite_list_find regex_lite_list_find_

REGEX_LITE_INLINE regex_lite_answer
regex_lite_list_is_match_anchored_(regex_lite_list *handle, const uint8_t *text, size_t len,
                                   size_t start) {
    return regex_lite_list_is_match_anchored(handle, regex_lite_some_text(text, len), len, start);
}
#define regex_lite_list_is_match_anchored regex_lite_list_is_match_anchored_

REGEX_LITE_INLINE regex_lite_answer
regex_lite_list_find_anchored_(regex_lite_list *handle, const uint8_t *text, size_t len,
                               size_t start, regex_lite_list_span *span) {
    return regex_lite_list_find_anchored(handle, regex_lite_some_text(text, len), len, start, span);
}
#define regex_lite_list_find_anchored regex_lite_list_find_anchored_

REGEX_LITE_INLINE regex_lite_answer
regex_lite_list_is_full_match_(regex_lite_list *handle, const uint8_t *text, size_t len) {
    return regex_lite_list_is_full_match(handle, regex_lite_some_text(text, len), len);
}
#define regex_lite_list_is_full_match regex_lite_list_is_full_match_

REGEX_LITE_INLINE regex_lite_answer
regex_lite_list_full_match_(regex_lite_list *handle, const uint8_t *text, size_t len,
                            regex_lite_list_span *span) {
    return regex_lite_list_full_match(handle, regex_lite_some_text(text, len), len, span);
}
#define regex_lite_list_full_match regex_lite_list_full_match_

REGEX_LITE_INLINE regex_lite_answer
regex_lite_list_find_counted_(regex_lite_list *handle, const uint8_t *text, size_t len,
                              size_t start, regex_lite_list_span *span, regex_lite_cost *cost) {
    return regex_lite_list_find_counted(handle, regex_lite_some_text(text, len), len, start, span,
                                        cost);
}
#define regex_lite_list_find_counted regex_lite_list_find_counted_

REGEX_LITE_INLINE regex_lite_answer
regex_lite_list_captures_(regex_lite_list *handle, const uint8_t *text, size_t len, size_t start,
                          regex_lite_span *spans, size_t room, regex_lite_list_groups *groups) {
    return regex_lite_list_captures(handle, regex_lite_some_text(text, len), len, start,
                                    regex_lite_some_spans(spans, room), room, groups);
}
#define regex_lite_list_captures regex_lite_list_captures_

REGEX_LITE_INLINE regex_lite_answer
regex_lite_list_captures_anchored_(regex_lite_list *handle, const uint8_t *text, size_t len,
                                   size_t start, regex_lite_span *spans, size_t room,
                                   regex_lite_list_groups *groups) {
    return regex_lite_list_captures_anchored(handle, regex_lite_some_text(text, len), len, start,
                                             regex_lite_some_spans(spans, room), room, groups);
}
#define regex_lite_list_captures_anchored regex_lite_list_captures_anchored_

REGEX_LITE_INLINE regex_lite_answer
regex_lite_list_full_captures_(regex_lite_list *handle, const uint8_t *text, size_t len,
                               regex_lite_span *spans, size_t room,
                               regex_lite_list_groups *groups) {
    return regex_lite_list_full_captures(handle, regex_lite_some_text(text, len), len,
                                         regex_lite_some_spans(spans, room), room, groups);
}
#define regex_lite_list_full_captures regex_lite_list_full_captures_

REGEX_LITE_INLINE regex_lite_answer
regex_lite_list_is_match_of_(regex_lite_list *handle, size_t number, const uint8_t *text,
                             size_t len, size_t start) {
    return regex_lite_list_is_match_of(handle, number, regex_lite_some_text(text, len), len, start);
}
#define regex_lite_list_is_match_of regex_lite_list_is_match_of_

REGEX_LITE_INLINE regex_lite_answer
regex_lite_list_find_of_(regex_lite_list *handle, size_t number, const uint8_t *text, size_t len,
                         size_t start, regex_lite_span *span) {
    return regex_lite_list_find_of(handle, number, regex_lite_some_text(text, len), len, start,
                                   span);
}
#define regex_lite_list_find_of regex_lite_list_find_of_

REGEX_LITE_INLINE regex_lite_answer
regex_lite_list_captures_of_(regex_lite_list *handle, size_t number, const uint8_t *text,
                             size_t len, size_t start, regex_lite_span *spans, size_t room,
                             size_t *count) {
    return regex_lite_list_captures_of(handle, number, regex_lite_some_text(text, len), len, start,
                                       regex_lite_some_spans(spans, room), room, count);
}
#define regex_lite_list_captures_of regex_lite_list_captures_of_

REGEX_LITE_INLINE regex_lite_answer
regex_lite_list_find_all_(regex_lite_list *handle, const uint8_t *text, size_t len,
                          regex_lite_walk *walk, regex_lite_list_span *spans, size_t room,
                          size_t *count) {
    return regex_lite_list_find_all(handle, regex_lite_some_text(text, len), len, walk,
                                    regex_lite_some_list_spans(spans, room), room, count);
}
#define regex_lite_list_find_all regex_lite_list_find_all_

REGEX_LITE_INLINE regex_lite_answer
regex_lite_list_captures_all_(regex_lite_list *handle, const uint8_t *text, size_t len,
                              regex_lite_walk *walk, regex_lite_list_groups *groups,
                              size_t groups_room, regex_lite_span *spans, size_t room,
                              size_t *count) {
    return regex_lite_list_captures_all(handle, regex_lite_some_text(text, len), len, walk,
                                        regex_lite_some_list_groups(groups, groups_room),
                                        groups_room, regex_lite_some_spans(spans, room), room,
                                        count);
}
#define regex_lite_list_captures_all regex_lite_list_captures_all_

REGEX_LITE_INLINE regex_lite_answer
regex_lite_list_matches_(regex_lite_list *handle, const uint8_t *text, size_t len, size_t start,
                         uint8_t *matched, size_t room, size_t *count) {
    return regex_lite_list_matches(handle, regex_lite_some_text(text, len), len, start,
                                   regex_lite_some_bytes(matched, room), room, count);
}
#define regex_lite_list_matches regex_lite_list_matches_

#endif
