"""How bin/api reads sources of Rattle."""

import sys
import unittest
from textwrap import indent

from scratch import TOP

sys.path.insert(0, str(TOP / 'bin'))
from apidoc.items import Function, Impl, Source, Trait, Type
from apidoc.reader import read
from apidoc.tokens import Unreadable


def source(text: str) -> Source:
    """What a file has."""
    return read('lib.rt', text)


def function(text: str) -> Function:
    """The only function of a file."""
    found, = source(text).items
    assert isinstance(found, Function)
    return found


class Functions(unittest.TestCase):
    """How functions are read."""

    def test_nested_generics(self) -> None:
        """Generics nest, and hold arrows and bounds of functions."""
        head = ("pub fn all<'h, F: Fn(&str) -> Option<u8>>(f: F, text: &'h str)"
                " -> Result<Vec<(usize, Option<&'h str>)>, Error>")
        found = function(f'{head} {{ f(text) }}')
        self.assertEqual(found.head, head)
        self.assertEqual(found.result, "Result<Vec<(usize, Option<&'h str>)>, Error>")
        self.assertEqual(found.parameters, "f: F, text: &'h str")

    def test_const_generics(self) -> None:
        """Braces in angle brackets begin no body, and a length is a part of a type."""
        head = 'pub fn pair<const N: usize, T: Grid<{ N + 1 }>>(&self) -> (T, [T; N])'
        self.assertEqual(function(f'{head}\n    ensures {{ ⊤ }}\n{{ todo() }}').head, head)

    def test_where(self) -> None:
        """What stands after `where` is a part of the head, and not of the clauses."""
        found = function('''fn lent(&mut self) -> Lent<'_, Self>
    where
        Self: Sized,
        F: Fn() -> u8,
        ensures value { result.0.now ≡ self.old }
    {
        Lent(self)
    }''')
        self.assertTrue(found.head.endswith('where\n        Self: Sized,\n        F: Fn() -> u8,'))
        self.assertEqual(found.result, "Lent<'_, Self>")
        self.assertEqual(found.clauses, 'ensures value { result.0.now ≡ self.old }')

    def test_clauses(self) -> None:
        """Clauses go over several lines, hold braces and primes, and are kept as they stand."""
        clauses = '''requires room { 0 < n' }
ensures ok { IfOk result (λ _. self.new ≡ record self.old {
  items = self.old.items ++ (item' ∷ []);
}) }
ensures* rests { ⊤ }'''
        text = f'fn push(&mut self)\n{indent(clauses, "    ")}\n{{}}\n'
        found, = source(f'impl Box {{\n{indent(text, "    ")}}}').items
        assert isinstance(found, Impl)
        call, = found.members.functions
        self.assertEqual((call.head, call.clauses), ('fn push(&mut self)', clauses))

    def test_bodies(self) -> None:
        """Brackets in texts, characters and comments of a body open and close nothing."""
        first = r'''fn first<'a>(s: &'a str) {
    let (c, d, e) = ('{', '\'', "} \" {"); // }
    let raw = r#"}"{"#; /* } */
    'outer: loop { break 'outer; }
}'''
        names = [it.name for it in source(f'{first}\nfn second() {{}}').items
                 if isinstance(it, Function)]
        self.assertEqual(names, ['first', 'second'])

    def test_without_body(self) -> None:
        """A call that a trait requires ends with its clauses, and one that it provides doesn't."""
        found, = source('''pub trait Text: Copy {
    /// The bytes.
    ghost bytes: { Self → List ℕ } = { λ _. [] };

    type Item: Drop;

    /// A part.
    fn part(self, start: usize) -> Self
        requires { start < 3 };

    /// The whole.
    fn whole(self) -> Self { self }
}''').items
        assert isinstance(found, Trait)
        self.assertEqual([(it.name, it.has_body, it.clauses) for it in found.members.functions],
                         [('part', False, 'requires { start < 3 }'), ('whole', True, '')])
        self.assertEqual(found.members.types, ['type Item: Drop'])
        self.assertEqual([it.text for it in found.members.ghosts],
                         ['ghost bytes: { Self → List ℕ } = { λ _. [] };'])

    def test_documentation(self) -> None:
        """Documentation keeps its examples, also where these have documentation of their own."""
        doc = '''First.

```
/// Inner.
fn inner() {}
    // indented
```'''
        lines = ''.join(f'/// {line}'.rstrip() + '\n' for line in doc.split('\n'))
        found = function(f'''{lines}#[inline(always)]
// a remark
pub(crate) unsafe extern "C" fn outer() {{}}''')
        self.assertEqual(found.doc, doc)
        self.assertEqual((found.visibility, found.name), ('pub(crate)', 'outer'))

    def test_methods(self) -> None:
        """A method is told by its first parameter."""
        for parameters, is_method in (('self', True), ('mut self', True), ("&'a mut self", True),
                                      ('self: Box<Self>', True), ('', False),
                                      ('itself: u8', False), ('a: &self::Kind', False)):
            with self.subTest(parameters):
                self.assertIs(function(f'fn f({parameters}) {{}}').is_method, is_method)

    def test_unreadable(self) -> None:
        """What isn't understood is refused, with its line."""
        with self.assertRaisesRegex(Unreadable, r'^lib\.rt:3: .*decreases'):
            source('fn a() {}\n\nfn b() ensures { ⊤ } decreases { 1 } {}')
        with self.assertRaisesRegex(Unreadable, r'^lib\.rt:2: .*thing'):
            source('impl Box {\n    thing;\n}')


class Types(unittest.TestCase):
    """How types, implementations and imports are read."""

    def parts(self, text: str) -> list[tuple[str, str]]:
        """The names and the declarations of the parts of a type."""
        found, = source(text).items
        assert isinstance(found, Type)
        return [(it.name, it.text) for it in found.parts]

    def test_structs(self) -> None:
        """Fields are told apart also where their types have commas."""
        self.assertEqual(
            self.parts('struct A<T: Fn(u8) -> u8, const N: usize> where T: Copy {\n'
                       '    pub map: Map<T, [u8; N]>, // of T, N\n    pub ghost g: { a, b }\n}'),
            [('map', 'pub map: Map<T, [u8; N]>'), ('g', 'pub ghost g: { a, b }')])
        tuple_struct = "pub struct B<'t>(pub &'t str, Map<u8, u8>) where 't: 'static;"
        self.assertEqual(self.parts(tuple_struct), [('0', "pub &'t str"), ('1', 'Map<u8, u8>')])
        self.assertEqual(self.parts('struct C;'), [])

    def test_enums(self) -> None:
        """Variants have no fields, or some with names or without."""
        self.assertEqual(self.parts('enum A {\n/// One.\nOne,\nTwo(u8, u8),\n'
                                    'Three {\n/// Its field.\na: u8,\n},\n}'),
                         [('One', 'One'), ('Two', 'Two(u8, u8)'), ('Three', 'Three { a: u8, }')])

    def test_implementations(self) -> None:
        """The `for` of a bound isn't that of the implementation."""
        found, = source("impl<F: for<'a> Fn(&'a str) -> u8> From<F> for &'static Made<F>\n"
                        'where F: Copy { type Item = (u8, u8); }').items
        assert isinstance(found, Impl)
        self.assertEqual((found.trait, found.owner, found.members.types),
                         ('From<F>', "&'static Made<F>", ['type Item = (u8, u8)']))

    def test_derived(self) -> None:
        """What a type derives stands in attributes, of which there may be several."""
        found, = source('#[derive(Clone, Copy)]\n#[must_use]\n#[derive(Debug)]\nstruct A;').items
        assert isinstance(found, Type)
        self.assertEqual(found.derived, ['Clone', 'Copy', 'Debug'])
