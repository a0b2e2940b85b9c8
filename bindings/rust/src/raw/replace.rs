//! The library's own replacement, with which tests compare that of this crate.

use super::handle::Handle;
use super::one::One;
use super::written;

/// How matches are replaced: all of them, by a template.
#[repr(C)]
#[derive(Default)]
struct Replacing {
    limit: usize,
    is_literal: bool,
    len: usize,
    count: usize,
}

extern "C" {
    fn regex_lite_replace(
        handle: *mut Handle<One>,
        text: *const u8,
        len: usize,
        replacement: *const u8,
        replacement_len: usize,
        replacing: *mut Replacing,
        room: *mut u8,
        room_len: usize,
    ) -> u32;
}

/// Returns the text with all its matches replaced by the library's expansion of the template.
pub fn replaced(handle: &mut Handle<One>, text: &str, template: &str) -> String {
    let mut replacing = Replacing::default();
    let new = written(text.len(), |buffer| {
        // SAFETY: all that is passed is live and as long as is said.
        let answer = unsafe {
            regex_lite_replace(
                handle,
                text.as_ptr(),
                text.len(),
                template.as_ptr(),
                template.len(),
                &mut replacing,
                buffer.as_mut_ptr(),
                buffer.len(),
            )
        };
        (answer, replacing.len)
    });
    new.unwrap().unwrap()
}
