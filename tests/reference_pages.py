"""Which pages bin/api makes of sources, and what they say."""

import sys
import unittest

from scratch import TOP

sys.path.insert(0, str(TOP / 'bin'))
from apidoc.pages import LONGEST, made_from
from apidoc.texts import WIDTH, wrapped
from apidoc.tokens import Unreadable

CRATE = 'demo'
ROOT = '//! A crate.\n'
# A type with a call, for tests of what stands around them.
BOX = '''/// A box.
pub struct Box { inner: usize }

impl Box {
    /// What it holds.
    pub fn held(&self) -> usize { self.inner }
}
'''


def made(**files: str) -> dict[str, str]:
    """The pages of a crate of these files, in which `__` stands for a slash."""
    return made_from({f'{CRATE}/src/{name.replace("__", "/")}.rt': text
                      for name, text in files.items()}, CRATE)


def page(name: str, **files: str) -> str:
    """One of these pages."""
    return made(**files)[f'{name}.md']


class Surfaces(unittest.TestCase):
    """What is public."""

    def test_passed_on(self) -> None:
        """A type that modules pass on has its page, with the calls of all files and those alone."""
        found = page('crate_box', lib=ROOT + 'mod a;\npub use a::{c::Box as CrateBox};',
                     a='mod b;\nmod c;', a__c=BOX, a__b='''use crate::a::c::Box;

impl Box {
    /// Another call.
    pub fn other(&self) {}
    /// Not for all.
    pub(super) fn hidden(&self) {}
    fn private(&self) {}
}''')
        self.assertIn('## `held`', found)
        self.assertIn('## `other`', found)
        self.assertNotIn('hidden', found)
        self.assertNotIn('private(', found)

    def test_homonyms(self) -> None:
        """A private type of the same name is another type."""
        found = page('box', lib=ROOT + 'mod a;\nmod b;\npub use a::Box;', a=BOX,
                     b='struct Box;\nimpl Box { pub fn of_other(&self) {} }')
        self.assertNotIn('of_other', found)

    def test_implementations(self) -> None:
        """Implementations are listed with what they say, also those for another type. One that
        names what isn't public is left out, and so are proofs and what a model says of private
        fields."""
        found = page('box', lib=ROOT + 'mod a;\npub use a::Box;', a=BOX + '''
struct Hidden;
impl From<Hidden> for Box { fn from(h: Hidden) -> Box { Box { inner: 0 } } }
impl From<Box> for usize {
    /// What it holds.
    fn from(b: Box) -> usize { b.inner }
}
/// Writes it.
impl fmt::Debug for Box { fn fmt(&self) {} }
impl PartialEq for Box { ghost eq = { is_same }; ghost laws = { proof }; fn eq(&self) {} }
impl Model for Box { ghost Value = { ℕ }; ghost view = { λ b. b.inner }; }''')
        self.assertIn('- `impl From<Box> for usize`: What it holds.\n', found)
        self.assertIn('- `impl fmt::Debug for Box`: Writes it.\n', found)
        self.assertIn('impl PartialEq for Box {\n    ghost eq = { is_same };\n}\n', found)
        self.assertIn('\nghost Value = { ℕ };\n', found)
        for left_out in ('Hidden', 'proof', 'view', 'Model'):
            self.assertNotIn(left_out, found)

    def test_undocumented(self) -> None:
        """What is public and has no documentation is refused, with all places at once."""
        with self.assertRaises(Unreadable) as refused:
            made(lib=ROOT + '''pub struct A { pub a: u8, b: u8, pub ghost c: { ⊤ } }
/// An enum.
pub enum B { Two, Three { d: u8 } }
/// A tuple.
pub struct C(pub u8);
impl C { pub fn call(&self) {} fn private(&self) {} }
pub fn free() {}
/// A trait.
pub trait D { fn asked(&self); }''')
        self.assertEqual(str(refused.exception).splitlines(), [
            f'demo/src/lib.rt:{line}: {name} is public and has no `///`' for line, name in (
                (8, 'free'), (2, 'A'), (2, 'A::a'), (4, 'B::Two'), (4, 'B::Three'), (4, 'B::d'),
                (7, 'C::call'), (10, 'D::asked'))])

    def test_named_fields(self) -> None:
        """A field that the text of its type or variant names needs none of its own."""
        found = page('lib', lib=ROOT + '''/// From `a` on.
pub struct A { pub a: u8 }
/// An enum.
pub enum B {
    /// More than `least`.
    More {
        least: u8,
        /// By `least`.
        by: u8,
    },
}''')
        self.assertIn('- `More`: More than `least`.\n  - `by`: By `least`.\n\n', found + '\n')

    def test_without_page(self) -> None:
        """What would have no page is refused, and not left out."""
        for text in ('/// A.\npub const A: usize = 1 << 3;', 'pub use std::Missing;', 'pub mod a;',
                     'mod a;\npub use a::*;',
                     BOX + 'impl Box {\n    /// A.\n    pub const A: u8 = 1;\n}'):
            with self.subTest(text), self.assertRaises(Unreadable):
                made(lib=ROOT + text, a='//! A module.\n/// A.\npub struct A;')


class Pages(unittest.TestCase):
    """What the pages say."""

    def test_call(self) -> None:
        """A call has its head, its text, its conditions and errors, and its contract, folded."""
        found = page('first', lib=ROOT + '''/// The first one.
///
/// Condition: there is one.
///
/// ```
/// # hidden
/// first(3); // Some(3)
/// ```
///
/// # Errors
///
/// `Memory` if memory runs out.
pub fn first(n: usize) -> Option<usize>
    requires { 0 < n }
{
    Some(n)
}''')
        self.assertEqual(found.split('\n', 2)[2], '''# `first`

```rust
pub fn first(n: usize) -> Option<usize>
```

The first one.

**Condition:** there is one.

```rust
first(3); // Some(3)
```

**Errors**

`Memory` if memory runs out.

<details><summary>Contract</summary>

```text
requires { 0 < n }
```

</details>
''')

    def test_declarations(self) -> None:
        """Declarations show what is public."""
        for text, shown in (
                ('pub struct A { pub a: u8, b: u8 }',
                 'pub struct A {\n    pub a: u8,\n    /* private fields */\n}'),
                ('pub struct A<T>(T, pub u8) where T: Copy;',
                 'pub struct A<T>(pub u8, /* private fields */) where T: Copy;'),
                ('pub struct A { a: u8 }', 'pub struct A { /* private fields */ }'),
                ('pub struct A;', 'pub struct A;'),
                ('pub enum A {\n/// .\nOne,\n/// .\nTwo {\n/// .\na: u8,\n/// .\nb: u8,\n},\n}',
                 'pub enum A {\n    One,\n    Two { a: u8, b: u8 },\n}'),
                ('pub trait A: Copy {\n/// .\nfn b(&self) {}\n/// .\nfn c(&self);\n}',
                 'pub trait A: Copy {\n    fn c(&self);\n    fn b(&self) { /* provided */ }\n}')):
            documented = text.replace('pub a', '/// .\npub a')
            with self.subTest(text):
                found = page('a', lib=f'{ROOT}/// .\n{documented}')
                self.assertIn(f'\n```rust\n{shown}\n```\n', found)

    def test_bounds(self) -> None:
        """A call for some parameters of its type alone says for which."""
        found = page('a', lib=ROOT + '''/// A.
pub struct A<T: Copy>(T);
impl<T: Copy> A<T> {
    /// For all.
    pub fn all(&self) {}
}
impl<T: Copy + Drop> A<T> {
    /// For some.
    pub fn some(&self) {}
}''')
        self.assertEqual(found.count('It stands in'), 1)
        self.assertIn('It stands in `impl<T: Copy + Drop> A<T>`.\n\nFor some.', found)

    def test_links(self) -> None:
        """Links lead to anchors, on their own page or another one, by whatever text."""
        found = made(lib=ROOT + 'mod a;\npub use a::{Box, made};', a=BOX.replace(
            'What it holds.', 'See [`Self::held`], [`Box`]: or [`Box::held()`](crate::Box::held).')
            + '/// By [its call](Box::held), `[a-z]` and [`made`](https://example.com).\n'
              'pub fn made() {}')
        self.assertIn('See [`Self::held`][`Box::held`], [`Box`][]: or '
                      '[`Box::held()`][`Box::held`].', found['box.md'])
        self.assertIn('[`Box::held`]: #held\n', found['box.md'])
        self.assertIn('By [its call][`Box::held`], `[a-z]` and', found['made.md'])
        self.assertIn('[`Box::held`]: box.md#held\n', found['made.md'])

    def test_dead_links(self) -> None:
        """A link to what isn't public is refused, with its place."""
        with self.assertRaisesRegex(Unreadable, 'lib.rt:7: .* Box::lost'):
            made(lib=ROOT + BOX.replace('What it holds.', '[`Box::lost`]'))

    def test_specifications(self) -> None:
        """A page says where the names in its contracts are defined, and no others."""
        found = made_from({
            'demo/specs/A/Held.antt': '', 'demo/src/lib.rt': ROOT + '''
ghost use Rattle.demo.specs.A.Held.{IsHeld, Unused};
ghost use Rattle.std.specs.Prelude.{◌≡◌, IfOk};
/// A.
pub fn a() ensures { IfOk result IsHeld } {}'''}, CRATE)['a.md']
        key = '`demo/specs/A/Held.antt`'
        self.assertIn(f'## Names in contracts\n\n- [{key}][]: `IsHeld`\n\n', found)
        self.assertIn(f'\n[{key}]: ../../crates/demo/specs/A/Held.antt\n', found)

    def test_anchors(self) -> None:
        """Of two headings that are alike on one page, the second is told apart by a number."""
        text = ROOT + '/// See [`B::new`].\npub struct A;\n/// B.\npub struct B;\n' + ''.join(
            f'impl {it} {{\n    /// New.\n    pub fn new() -> {it} {{ {it} }}\n}}\n' for it in 'AB')
        self.assertIn('[`B::new`]: #new-1\n', page('lib', lib=text))

    def test_subjects(self) -> None:
        """A type of many calls has them by subject, and new ones find their place."""
        names = ('is_match', 'find', 'find_anchored_at', 'find_counted_at', 'full_match', 'replace')
        searches = ''.join(f'    /// Of it.\n    pub fn {it}(&self, haystack: &str) -> u8 {{ 0 }}\n'
                           for it in reversed(names))
        found = page('regex', lib=f'''{ROOT}/// A.
pub struct Regex;
impl Regex {{
{searches}    /// Of it.
    pub fn into_searcher(self) -> Result<Regex, Error> {{ 0 }}
    /// Of it.
    pub fn as_str(&self) -> &str {{ 0 }}
    /// Of it.
    pub fn new() -> Regex {{ 0 }}
    /// Of it.
    pub fn unicode(&mut self, yes: bool) -> &mut Regex {{ 0 }}
}}''')
        headings = [line for line in found.splitlines() if line.startswith('## ')]
        self.assertEqual(headings, [f'## {it}' for it in (
            'Constructors', 'Settings', 'Searches', 'Replacing matches', 'Memory for searches',
            'Anchored searches', 'Whole matches', 'Counted searches', 'Properties')])
        self.assertLess(found.index('### `is_match`'), found.index('### `find`'))
        self.assertIn('\n- **Searches**: [`is_match`](#is_match), [`find`](#find)\n', found)

    def test_split(self) -> None:
        """A type that would be too long for a page has several."""
        calls = ''.join(f'''    /// Of it, with [`Regex::find_{it}`].
    pub fn {name}_{it}(&self, haystack: &str) -> u8 {{ 0 }}
''' for name in ('find', 'replace') for it in range(LONGEST // 10))
        text = f'{ROOT}/// See [`Regex::find_3`].\npub struct Regex;\nimpl Regex {{\n{calls}}}\n'
        found = made(lib=text)
        self.assertEqual(sorted(found), ['README.md', 'regex.md', 'regex_replacing.md',
                                         'regex_searches.md'])
        self.assertIn('[`Regex::find_3`]: regex_searches.md#find_3\n', found['regex.md'])
        self.assertNotIn('### ', found['regex.md'])
        self.assertIn('[`Regex`]: regex.md\n', found['regex_searches.md'])
        for name, own in found.items():
            self.assertLessEqual(own.count('\n'), LONGEST, name)

    def test_index(self) -> None:
        """The index has each type, trait and function with its first sentence."""
        found = page('README', lib=ROOT + 'pub mod laws;\n' + BOX + '''/// Kinds `a.b` of 3.5 things
/// are here. Not this.
pub trait Kind {}
/// A walk.
pub struct Walk;
impl Iterator for Walk {}''', laws='//! Laws. All of them.\n/// One law! Really.\npub fn one() {}')
        for line in ('## Types\n\n- [`Box`][]: A box.\n', '## Iterators\n\n- [`Walk`][]: A walk.\n',
                     '## Traits\n\n- [`Kind`][]: Kinds `a.b` of 3.5 things are here.\n',
                     '[`laws`][]: Laws.\n\n- [`laws::one`][]: One law!\n'):
            self.assertIn(line, found)

    def test_wrapped(self) -> None:
        """Long lines are cut, but not in code or before what would be a mark."""
        text = '- ' + 'abcd ' * 19 + '- `a b c` 1. end'
        self.assertEqual(wrapped(text, '  '), ['- ' + 'abcd ' * 18 + 'abcd -', '  `a b c` 1. end'])
        self.assertLessEqual(len(wrapped(text, '  ')[0]), WIDTH)
