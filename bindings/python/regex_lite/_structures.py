"""The structures that the calls of the library take."""

from __future__ import annotations

import ctypes
from ctypes import c_bool, c_size_t, c_uint32, c_uint64, c_void_p


class Handle(ctypes.Structure):
    """A handle: it holds a regex, or nothing."""

    _fields_ = [('place', c_void_p)]


class Options(ctypes.Structure):
    """The settings under which a pattern is built."""

    _fields_ = [('case_insensitive', c_bool), ('multi_line', c_bool),
                ('dot_matches_new_line', c_bool), ('crlf', c_bool), ('swap_greed', c_bool),
                ('ignore_whitespace', c_bool), ('nest_limit', c_uint32), ('size_limit', c_size_t)]


class CSpan(ctypes.Structure):
    """A part of a text, in bytes."""

    _fields_ = [('is_there', c_bool), ('start', c_size_t), ('end', c_size_t)]


class Fault(ctypes.Structure):
    """The place of the first fault in a pattern, in bytes."""

    _fields_ = [('start', c_size_t), ('end', c_size_t), ('is_cut_short', c_bool)]


class Outlined(ctypes.Structure):
    """The number of parts of a pattern, and the length of the message if it is rejected."""

    _fields_ = [('count', c_size_t), ('message_len', c_size_t)]


class Walk(ctypes.Structure):
    """The position of a walk over the matches in a text."""

    _fields_ = [('is_begun', c_bool), ('end', c_size_t)]


class Cut(ctypes.Structure):
    """The position up to which a text has been split."""

    _fields_ = [('walk', Walk), ('is_over', c_bool)]


class Replacing(ctypes.Structure):
    """How matches are replaced, the length of the new text, and the number of matches that were
    replaced."""

    _fields_ = [('limit', c_size_t), ('is_literal', c_bool), ('len', c_size_t),
                ('count', c_size_t)]


class Cost(ctypes.Structure):
    """The cost of a search."""

    _fields_ = [('tried', c_uint64), ('entered', c_uint64), ('looked', c_uint64)]
