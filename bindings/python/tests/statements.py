"""The statements of CPython's own tests of `re`, test/test_re.py, run one by one.

A statement is a call of an assertion, as `self.assertEqual(..)` or `self.checkPatternError(..)`, or
a `with` that holds one, as `with self.assertRaises(..)`, in the body of a test. It has the name of
its class and its test, and a number: the first of a test is 1. One in a loop passes if it passes in
each round. What stands between statements is run too, and where it raises something, the test goes
on, so that each statement is judged by itself."""

import ast
import contextlib
import io
import sys
import types
import unittest
import warnings
from pathlib import Path
from typing import Any, Dict, Iterator, Tuple

Name = Tuple[str, int]  # of a statement: its test, and its number
NAMESPACE = 'statements_of_test_re'


def is_statement(node: ast.stmt) -> bool:
    """Whether this is a statement in that sense."""
    if isinstance(node, ast.With):
        return any(_is_assertion(item.context_expr) for item in node.items)
    return isinstance(node, ast.Expr) and _is_assertion(node.value)


def _is_assertion(node: ast.expr) -> bool:
    return (isinstance(node, ast.Call) and isinstance(node.func, ast.Attribute)
            and isinstance(node.func.value, ast.Name) and node.func.value.id == 'self'
            and node.func.attr.startswith(('assert', 'check')))


class Marker(ast.NodeTransformer):
    """Puts each statement of a test, and what stands between them, into a `with` of its own."""

    def __init__(self, test: str) -> None:
        self.test = test
        self.count = 0
        self.is_tried = False

    def visit(self, node: ast.AST) -> Any:
        """The node, with what is in it."""
        if isinstance(node, ast.stmt) and is_statement(node):
            self.count += 1
            return self.within(node, f'__statement__({self.test!r}, {self.count})')
        if isinstance(node, (ast.Expr, ast.Assign)) and not self.is_tried:
            return self.within(node, '__between__()')
        if isinstance(node, (ast.FunctionDef, ast.ClassDef)):
            return node
        return super().visit(node)

    def visit_Try(self, node: ast.Try) -> ast.Try:
        """Whatever is raised in a `try` is to reach its handlers."""
        self.is_tried, before = True, self.is_tried
        node.body = [self.visit(part) for part in node.body]
        self.is_tried = before
        for name in ('handlers', 'orelse', 'finalbody'):
            setattr(node, name, [self.visit(part) for part in getattr(node, name)])
        return node

    @staticmethod
    def within(node: ast.stmt, call: str) -> ast.With:
        """A `with` of this call around the node."""
        context = ast.parse(call, mode='eval').body
        return ast.copy_location(ast.With([ast.withitem(context)], [node]), node)


def marked(path: Path) -> ast.Module:
    """The file, with what is to be run one by one in a `with` of its own. What it imports from `re`
    is left out."""
    tree = ast.parse(path.read_text(encoding='utf-8'))
    tree.body = [node for node in tree.body
                 if not (isinstance(node, ast.Import) and node.names[0].name == 're')
                 and not (isinstance(node, ast.ImportFrom) and node.module == 're')]
    for owner in (node for node in tree.body if isinstance(node, ast.ClassDef)):
        for part in owner.body:
            if isinstance(part, ast.FunctionDef) and part.name.startswith('test'):
                marker = Marker(f'{owner.name}.{part.name}')
                part.body = [marker.visit(node) for node in part.body]
    return ast.fix_missing_locations(tree)


class Run:
    """One run of the statements with a module in the place of `re`. `passed` says of each that was
    reached whether it passed."""

    def __init__(self, path: Path, module: Any) -> None:
        self.passed: Dict[Name, bool] = {}
        space = types.ModuleType(NAMESPACE)
        space.__dict__.update(__file__=str(path), re=module, Scanner=module.Scanner,
                              __statement__=self.statement, __between__=self.between)
        sys.modules[NAMESPACE] = space  # where what the tests define is looked up
        with warnings.catch_warnings(), contextlib.redirect_stdout(io.StringIO()):
            warnings.simplefilter('ignore')
            exec(compile(marked(path), str(path), 'exec'), space.__dict__)
            for case in list(vars(space).values()):
                if isinstance(case, type) and issubclass(case, unittest.TestCase):
                    setattr(case, 'subTest', no_part)
            unittest.defaultTestLoader.loadTestsFromModule(space).run(unittest.TestResult())
        del sys.modules[NAMESPACE]

    @contextlib.contextmanager
    def statement(self, test: str, number: int) -> Iterator[None]:
        """Runs a statement, and notes whether it passed."""
        name = test, number
        self.passed.setdefault(name, True)
        try:
            yield
        except unittest.SkipTest:
            raise
        except Exception:  # pylint: disable=broad-except
            self.passed[name] = False

    @contextlib.contextmanager
    def between(self) -> Iterator[None]:
        """Runs what stands between statements."""
        try:
            yield
        except unittest.SkipTest:
            raise
        except Exception:  # pylint: disable=broad-except
            pass


def no_part(case: unittest.TestCase, *_: object, **__: object) -> Any:
    """What stands for `subTest`, which would take a failure in it for itself."""
    return contextlib.nullcontext()
