//! Templates of replacements: text, and references to groups.

/// A piece of a template.
pub(crate) enum Piece<'t> {
    /// Literal text.
    Text(&'t str),
    /// A reference to the group with this index.
    Index(usize),
    /// A reference to the group with this name.
    Name(&'t str),
}

/// Returns the pieces of a template, from left to right.
pub(crate) fn pieces(template: &str) -> impl Iterator<Item = Piece<'_>> {
    let mut rest = template;
    std::iter::from_fn(move || {
        let (piece, after) = first(rest)?;
        rest = after;
        Some(piece)
    })
}

/// Returns the first piece of a template, and the rest.
fn first(template: &str) -> Option<(Piece<'_>, &str)> {
    match template.bytes().position(|byte| byte == b'$') {
        None if template.is_empty() => None,
        None => Some((Piece::Text(template), "")),
        Some(0) => Some(at_dollar(template)),
        Some(end) => Some((Piece::Text(&template[..end]), &template[end..])),
    }
}

/// Returns the piece that begins with a `$`, and the rest.
fn at_dollar(template: &str) -> (Piece<'_>, &str) {
    let (dollar, after) = template.split_at(1);
    if let Some(rest) = after.strip_prefix('$') {
        return (Piece::Text(dollar), rest);
    }
    let reference = match after.strip_prefix('{') {
        Some(inner) => inner.split_once('}'),
        None => Some(after.split_at(name_len(after))).filter(|(name, _)| !name.is_empty()),
    };
    match reference {
        Some((name, rest)) => (referred(name), rest),
        None => (Piece::Text(dollar), after),
    }
}

/// Returns the length of the name without braces at the start, in bytes.
fn name_len(text: &str) -> usize {
    let is_other = |byte: u8| !byte.is_ascii_alphanumeric() && byte != b'_';
    text.bytes().position(is_other).unwrap_or(text.len())
}

/// Returns the reference by this name. A name of digits is an index, unless that is too great.
fn referred(name: &str) -> Piece<'_> {
    let are_digits = name.bytes().all(|byte| byte.is_ascii_digit());
    match name.parse() {
        Ok(index) if are_digits => Piece::Index(index),
        _ => Piece::Name(name),
    }
}

#[cfg(test)]
mod tests;
