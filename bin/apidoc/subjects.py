"""The calls of a type by their subjects, in the order in which a reader wants them. A subject is
told by how a call is declared, and by the parts of its name that have one meaning in the whole
crate, so that a new call finds its place."""

import re
from typing import NamedTuple

from .surface import Call, Entry, Surface

SECTIONED = 8  # a type with more calls than these has a section for each subject
HAYSTACK = re.compile(r'\bhaystack\b')
# The searches of the first kinds stand in this order; the others follow.
FAMILIES = ('is_match', 'find', 'captures')


class Subject(NamedTuple):
    """What calls are about: the title of their section, and the part of the type's pages that has
    it if these are several; the first has no name."""

    title: str
    part: str = ''
    is_search: bool = False


CONSTRUCTORS = Subject('Constructors')
SETTINGS = Subject('Settings')
SEARCHES = Subject('Searches', 'searches', True)
ANCHORED = Subject('Anchored searches', 'searches', True)
WHOLE = Subject('Whole matches', 'searches', True)
ONE_PATTERN = Subject('Searches for one pattern', 'searches_for_one_pattern', True)
COUNTED = Subject('Counted searches', 'counted_searches', True)
ITERATORS = Subject('Iterators over matches', 'iterators', True)
REPLACING = Subject('Replacing matches', 'replacing')
BUILDING = Subject('Building')
MEMORY = Subject('Memory for searches')
PROPERTIES = Subject('Properties')
IN_ORDER = (CONSTRUCTORS, SETTINGS, BUILDING, SEARCHES, ITERATORS, REPLACING, MEMORY, ANCHORED,
            WHOLE, ONE_PATTERN, COUNTED, PROPERTIES)


def is_constructor(entry: Entry, call: Call) -> bool:
    """Whether the call makes a value of its type from others."""
    function = call.function
    return not function.is_method and bool(re.search(rf'\b(?:Self|{entry.item.name})\b',
                                                     function.result))


def is_setter(entry: Entry, call: Call) -> bool:
    """Whether the call returns the value that it changes."""
    return bool(re.search(rf'&mut (?:Self|{entry.item.name})\b', call.function.result))


def searches(call: Call) -> bool:
    """Whether the call is about a haystack."""
    return HAYSTACK.search(call.function.parameters) is not None


def gives_iterator(surface: Surface, call: Call) -> bool:
    """Whether the call returns one of the crate's iterators."""
    return any(surface.entries[name].implements('Iterator')
               for name in re.findall(r'\w+', call.function.result) if name in surface.entries)


# How the names of searches tell their subjects.
BY_NAME: tuple[tuple[str, Subject], ...] = (
    (r'^replace', REPLACING), (r'_counted', COUNTED), (r'_anchored', ANCHORED),
    (r'full_', WHOLE), (r'_of(?:_|$)', ONE_PATTERN), ('', SEARCHES))


def subject(surface: Surface, entry: Entry, call: Call) -> Subject:
    """What a call of a type is about."""
    if is_constructor(entry, call):
        return CONSTRUCTORS
    if is_setter(entry, call):
        return SETTINGS
    if searches(call) and gives_iterator(surface, call):
        return ITERATORS
    if searches(call):
        return next(it for pattern, it in BY_NAME if re.search(pattern, call.function.name))
    if 'Result<' in call.function.result:
        return MEMORY if any(searches(it) for it in entry.calls) else BUILDING
    return PROPERTIES


def in_file_order(entry: Entry, call: Call) -> tuple[bool, str, int]:
    """Where a call stands: in the file of its type or in another one, and there on which line."""
    return call.place != entry.place, call.place.file, call.function.line


def family(call: Call) -> int:
    """The place of a search among those of other kinds."""
    ranks = [rank for rank, it in enumerate(FAMILIES) if call.function.name.startswith(it)]
    return ranks[0] if ranks else len(FAMILIES)


def by_subject(surface: Surface, entry: Entry) -> list[tuple[Subject, list[Call]]]:
    """The calls of a type by their subjects."""
    calls = sorted(entry.calls, key=lambda it: in_file_order(entry, it))
    found = []
    for one in IN_ORDER:
        own = [it for it in calls if subject(surface, entry, it) == one]
        if one.is_search:
            own.sort(key=family)
        if own:
            found.append((one, own))
    return found


def in_order(entry: Entry) -> list[Call]:
    """The calls of a type that has few: its constructors, and then the others as they stand."""
    calls = sorted(entry.calls, key=lambda it: in_file_order(entry, it))
    return sorted(calls, key=lambda it: not is_constructor(entry, it))
