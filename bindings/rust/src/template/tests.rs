//! Templates are expanded as the library expands them, whose calls are proved.

use crate::raw::replace::replaced;
use crate::raw::{Handle, One};
use crate::{Options, Regex};

/// What random templates are made of.
const PARTS: [&str; 18] = [
    "$",
    "$$",
    "{",
    "}",
    "${",
    "0",
    "1",
    "2",
    "3",
    "9",
    "n",
    "name",
    "_",
    "ü",
    "-",
    "+",
    " ",
    "99999999999999999999",
];

#[test]
fn templates_give_what_the_library_gives() {
    let pattern = "(?<n>[a-z])(?<name>[0-9])?([A-Z])?";
    let regex = Regex::new(pattern).unwrap();
    let mut handle = Handle::<One>::new(pattern, &Options::default()).unwrap();
    let text = "a1 bC ü d2E";
    let mut random = 1_u64;
    for _ in 0..20_000 {
        let mut template = String::new();
        for _ in 0..6 {
            random = random
                .wrapping_mul(6_364_136_223_846_793_005)
                .wrapping_add(1);
            template += PARTS[(random >> 33) as usize % PARTS.len()];
        }
        let own = regex.replace_all(text, &template);
        assert_eq!(own, replaced(&mut handle, text, &template), "{template}");
    }
}
