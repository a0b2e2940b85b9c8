//! The calls, as regex_lite.h declares them.

use super::handle::Handle;
use super::list::List;
use super::one::One;
use super::types::{GroupCount, ListPattern, ListRefusal, ListSpan, RawFault, Span, Walk};
use crate::{Cost, Options};

extern "C" {
    pub fn regex_lite_new(
        handle: *mut Handle<One>,
        pattern: *const u8,
        pattern_len: usize,
        options: *const Options,
        message: *mut u8,
        message_room: usize,
        message_len: *mut usize,
    ) -> u32;
    pub fn regex_lite_fault_at(
        pattern: *const u8,
        pattern_len: usize,
        options: *const Options,
        fault: *mut RawFault,
    ) -> u32;
    pub fn regex_lite_free(handle: *mut Handle<One>);
    pub fn regex_lite_groups(handle: *mut Handle<One>) -> usize;
    pub fn regex_lite_static_groups(handle: *mut Handle<One>) -> usize;
    pub fn regex_lite_group_name(
        handle: *mut Handle<One>,
        index: usize,
        room: *mut u8,
        room_len: usize,
        len: *mut usize,
    ) -> u32;
    pub fn regex_lite_may_be_empty(handle: *mut Handle<One>) -> u32;
    pub fn regex_lite_places(handle: *mut Handle<One>) -> usize;
    pub fn regex_lite_arrows(handle: *mut Handle<One>) -> usize;
    pub fn regex_lite_is_match(
        handle: *mut Handle<One>,
        text: *const u8,
        len: usize,
        start: usize,
    ) -> u32;
    pub fn regex_lite_find(
        handle: *mut Handle<One>,
        text: *const u8,
        len: usize,
        start: usize,
        span: *mut Span,
    ) -> u32;
    pub fn regex_lite_is_match_anchored(
        handle: *mut Handle<One>,
        text: *const u8,
        len: usize,
        start: usize,
    ) -> u32;
    pub fn regex_lite_find_anchored(
        handle: *mut Handle<One>,
        text: *const u8,
        len: usize,
        start: usize,
        span: *mut Span,
    ) -> u32;
    pub fn regex_lite_is_full_match(handle: *mut Handle<One>, text: *const u8, len: usize) -> u32;
    pub fn regex_lite_full_match(
        handle: *mut Handle<One>,
        text: *const u8,
        len: usize,
        span: *mut Span,
    ) -> u32;
    pub fn regex_lite_find_counted(
        handle: *mut Handle<One>,
        text: *const u8,
        len: usize,
        start: usize,
        span: *mut Span,
        cost: *mut Cost,
    ) -> u32;
    pub fn regex_lite_shortest(
        handle: *mut Handle<One>,
        text: *const u8,
        len: usize,
        start: usize,
        end: *mut usize,
    ) -> u32;
    pub fn regex_lite_find_each(
        handle: *mut Handle<One>,
        texts: *const u8,
        len: usize,
        lens: *const usize,
        count: usize,
        spans: *mut Span,
        room: usize,
    ) -> u32;
    pub fn regex_lite_captures(
        handle: *mut Handle<One>,
        text: *const u8,
        len: usize,
        start: usize,
        spans: *mut Span,
        room: usize,
        count: *mut usize,
    ) -> u32;
    pub fn regex_lite_captures_anchored(
        handle: *mut Handle<One>,
        text: *const u8,
        len: usize,
        start: usize,
        spans: *mut Span,
        room: usize,
        count: *mut usize,
    ) -> u32;
    pub fn regex_lite_full_captures(
        handle: *mut Handle<One>,
        text: *const u8,
        len: usize,
        spans: *mut Span,
        room: usize,
        count: *mut usize,
    ) -> u32;
    pub fn regex_lite_find_all(
        handle: *mut Handle<One>,
        text: *const u8,
        len: usize,
        walk: *mut Walk,
        spans: *mut Span,
        room: usize,
        count: *mut usize,
    ) -> u32;
    pub fn regex_lite_captures_all(
        handle: *mut Handle<One>,
        text: *const u8,
        len: usize,
        walk: *mut Walk,
        spans: *mut Span,
        room: usize,
        count: *mut usize,
    ) -> u32;
    pub fn regex_lite_escape(
        text: *const u8,
        len: usize,
        room: *mut u8,
        room_len: usize,
        pattern_len: *mut usize,
    ) -> u32;
    pub fn regex_lite_list_new(
        handle: *mut Handle<List>,
        bytes: *const u8,
        len: usize,
        patterns: *const ListPattern,
        count: usize,
        message: *mut u8,
        message_room: usize,
        refusal: *mut ListRefusal,
    ) -> u32;
    pub fn regex_lite_list_free(handle: *mut Handle<List>);
    pub fn regex_lite_list_may_be_empty(handle: *mut Handle<List>, number: usize) -> u32;
    pub fn regex_lite_list_places(handle: *mut Handle<List>) -> usize;
    pub fn regex_lite_list_arrows(handle: *mut Handle<List>) -> usize;
    pub fn regex_lite_list_is_match(
        handle: *mut Handle<List>,
        text: *const u8,
        len: usize,
        start: usize,
    ) -> u32;
    pub fn regex_lite_list_find(
        handle: *mut Handle<List>,
        text: *const u8,
        len: usize,
        start: usize,
        span: *mut ListSpan,
    ) -> u32;
    pub fn regex_lite_list_is_match_anchored(
        handle: *mut Handle<List>,
        text: *const u8,
        len: usize,
        start: usize,
    ) -> u32;
    pub fn regex_lite_list_find_anchored(
        handle: *mut Handle<List>,
        text: *const u8,
        len: usize,
        start: usize,
        span: *mut ListSpan,
    ) -> u32;
    pub fn regex_lite_list_is_full_match(
        handle: *mut Handle<List>,
        text: *const u8,
        len: usize,
    ) -> u32;
    pub fn regex_lite_list_full_match(
        handle: *mut Handle<List>,
        text: *const u8,
        len: usize,
        span: *mut ListSpan,
    ) -> u32;
    pub fn regex_lite_list_find_counted(
        handle: *mut Handle<List>,
        text: *const u8,
        len: usize,
        start: usize,
        span: *mut ListSpan,
        cost: *mut Cost,
    ) -> u32;
    pub fn regex_lite_list_captures(
        handle: *mut Handle<List>,
        text: *const u8,
        len: usize,
        start: usize,
        spans: *mut Span,
        room: usize,
        groups: *mut GroupCount,
    ) -> u32;
    pub fn regex_lite_list_captures_anchored(
        handle: *mut Handle<List>,
        text: *const u8,
        len: usize,
        start: usize,
        spans: *mut Span,
        room: usize,
        groups: *mut GroupCount,
    ) -> u32;
    pub fn regex_lite_list_full_captures(
        handle: *mut Handle<List>,
        text: *const u8,
        len: usize,
        spans: *mut Span,
        room: usize,
        groups: *mut GroupCount,
    ) -> u32;
    pub fn regex_lite_list_is_match_of(
        handle: *mut Handle<List>,
        number: usize,
        text: *const u8,
        len: usize,
        start: usize,
    ) -> u32;
    pub fn regex_lite_list_find_of(
        handle: *mut Handle<List>,
        number: usize,
        text: *const u8,
        len: usize,
        start: usize,
        span: *mut Span,
    ) -> u32;
    pub fn regex_lite_list_captures_of(
        handle: *mut Handle<List>,
        number: usize,
        text: *const u8,
        len: usize,
        start: usize,
        spans: *mut Span,
        room: usize,
        count: *mut usize,
    ) -> u32;
    pub fn regex_lite_list_find_all(
        handle: *mut Handle<List>,
        text: *const u8,
        len: usize,
        walk: *mut Walk,
        spans: *mut ListSpan,
        room: usize,
        count: *mut usize,
    ) -> u32;
    pub fn regex_lite_list_captures_all(
        handle: *mut Handle<List>,
        text: *const u8,
        len: usize,
        walk: *mut Walk,
        groups: *mut GroupCount,
        groups_room: usize,
        spans: *mut Span,
        room: usize,
        count: *mut usize,
    ) -> u32;
    pub fn regex_lite_list_matches(
        handle: *mut Handle<List>,
        text: *const u8,
        len: usize,
        start: usize,
        matched: *mut u8,
        room: usize,
        count: *mut usize,
    ) -> u32;
}
