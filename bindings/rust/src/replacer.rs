//! Replacers: what matches are replaced by.

use std::borrow::Cow;

use crate::Captures;

/// What replaces matches in [`Regex::replace_all`](crate::Regex::replace_all) and the calls like
/// it.
///
/// Texts are replacers: templates for [`Captures::expand`]. So are closures that take
/// `&Captures` and return a text, and [`NoExpand`].
pub trait Replacer {
    /// Appends the text that replaces the match with these groups.
    fn replace_append(&mut self, caps: &Captures<'_>, dst: &mut String);

    /// Returns the text that replaces each match, if it is the same for all; then no groups are
    /// searched for. It is called once, before the first search.
    fn no_expansion(&mut self) -> Option<Cow<'_, str>> {
        None
    }

    /// Returns this replacer by reference, so that it can be used again.
    fn by_ref(&mut self) -> ReplacerRef<'_, Self> {
        ReplacerRef(self)
    }
}

/// Makes texts of these types templates.
macro_rules! templates {
    ($($text:ty),*) => {$(
        impl Replacer for $text {
            fn replace_append(&mut self, caps: &Captures<'_>, dst: &mut String) {
                caps.expand(self, dst);
            }

            fn no_expansion(&mut self) -> Option<Cow<'_, str>> {
                // Without a `$` there is nothing to expand.
                (!self.contains('$')).then(|| Cow::Borrowed(&self[..]))
            }
        }
    )*};
}

templates!(&str, &String, String, Cow<'_, str>, &Cow<'_, str>);

impl<F, T> Replacer for F
where
    F: FnMut(&Captures<'_>) -> T,
    T: AsRef<str>,
{
    fn replace_append(&mut self, caps: &Captures<'_>, dst: &mut String) {
        dst.push_str(self(caps).as_ref());
    }
}

/// A literal replacement: a `$` in it is a `$`.
///
/// ```
/// use regex_lite_proved::{NoExpand, Regex};
///
/// let price = Regex::new("[0-9]+ dollars")?;
/// assert_eq!(price.replace_all("for 10 dollars", NoExpand("$10")), "for $10");
/// # Ok::<(), regex_lite_proved::Error>(())
/// ```
#[derive(Clone, Copy, Debug)]
pub struct NoExpand<'t>(pub &'t str);

impl Replacer for NoExpand<'_> {
    fn replace_append(&mut self, _: &Captures<'_>, dst: &mut String) {
        dst.push_str(self.0);
    }

    fn no_expansion(&mut self) -> Option<Cow<'_, str>> {
        Some(Cow::Borrowed(self.0))
    }
}

/// A replacer that is borrowed: see [`Replacer::by_ref`].
#[derive(Debug)]
pub struct ReplacerRef<'a, R: ?Sized>(&'a mut R);

impl<R: Replacer + ?Sized> Replacer for ReplacerRef<'_, R> {
    fn replace_append(&mut self, caps: &Captures<'_>, dst: &mut String) {
        self.0.replace_append(caps, dst);
    }

    fn no_expansion(&mut self) -> Option<Cow<'_, str>> {
        self.0.no_expansion()
    }
}
