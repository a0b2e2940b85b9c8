"""Requests that no page sends, each with the status that it gets, or None where the connection is
closed without one. PORT stands for the port of the server."""

from __future__ import annotations

import json
from typing import List, NamedTuple, Optional, Tuple

from page.tests.running import GOOD

HOST = b'Host: 127.0.0.1:PORT\r\n'
KIND = b'Content-Type: application/json\r\n'
BODY = json.dumps(GOOD).encode()
HEAD = b'POST /search HTTP/1.1\r\n' + HOST + KIND


class BadRequest(NamedTuple):
    """What is sent, and the status."""

    name: str
    raw: bytes
    status: Optional[int]


def of_length(length: bytes, body: bytes = BODY) -> bytes:
    """A question with this length."""
    return HEAD + b'Content-Length: ' + length + b'\r\n\r\n' + body


def of_body(body: bytes) -> bytes:
    """A question with this body."""
    return of_length(str(len(body)).encode(), body)


def of_fields(**fields: object) -> bytes:
    """A question with these fields in the place of its own."""
    return of_body(json.dumps({**GOOD, **fields}).encode())


def get(path: bytes, *lines: bytes) -> bytes:
    """A request for this path with these lines."""
    return b'GET ' + path + b' HTTP/1.1\r\n' + b''.join(lines) + b'\r\n'


LENGTHS = [
    BadRequest('a length of 5,000 digits', of_length(b'9' * 5000), 413),
    BadRequest('5,000 zeros before a length', of_length(b'0' * 5000 + b'99999999'), 413),
    BadRequest('a length of 20 digits', of_length(b'1' * 20), 413),
    BadRequest('a negative length', of_length(b'-1'), 411),
    BadRequest('a length with a sign', of_length(b'+5'), 411),
    BadRequest('a length in words', of_length(b'five'), 411),
    BadRequest('a length in other digits', of_length('٥'.encode()), 411),
    BadRequest('an empty length', of_length(b''), 411),
    BadRequest('no length', HEAD + b'\r\n' + BODY, 411),
    BadRequest('two lengths', HEAD + b'Content-Length: 2\r\nContent-Length: 3\r\n\r\n{}', 411),
    BadRequest('chunks', HEAD + b'Transfer-Encoding: chunked\r\n\r\n2\r\n{}\r\n0\r\n\r\n', 411),
    BadRequest('chunks with a length',
               HEAD + b'Transfer-Encoding: chunked\r\nContent-Length: 2\r\n\r\n{}', 411),
    BadRequest('a length of nothing', of_length(b'0', b''), 400),
    BadRequest('a body of 3 MB', of_body(b'a' * (3 << 20)), 413),
    BadRequest('a body that is longer than said', of_length(b'2'), 400),
    BadRequest('a file with a body', get(b'/', HOST, b'Content-Length: 2\r\n') + b'{}', 400),
]
# The sender of each of these goes before it has sent all.
CUT_SHORT = [
    BadRequest('nothing', b'', None),
    BadRequest('part of a line', b'POST /sea', 400),
    BadRequest('part of the head', b'POST /search HTTP/1.1\r\nHost: 127', 403),
    BadRequest('a head without a body', of_length(b'1000', b''), None),
    BadRequest('part of a body', of_length(b'1000', BODY), None),
    BadRequest('part of a large body', of_length(b'2000000', b'a' * 1000), None),
]
BODIES = [
    BadRequest(name, of_body(body), 400) for name, body in (
        ('no JSON', b'{'), ('words', b'pattern=a'), ('a list', b'[]'), ('a text', b'"a"'),
        ('a number', b'1'), ('null', b'null'), ('no fields', b'{}'), ('bad UTF-8', b'"\xff"'),
        ('UTF-16', json.dumps(GOOD).encode('utf-16')), ('a byte order mark', b'\xef\xbb\xbf{}'),
        ('deep lists', b'[' * 100_000), ('deep objects', b'{"a":' * 100_000),
        ('a number of 100,000 digits', b'1' * 100_000), ('not a number', b'NaN'),
        ('two values', BODY + BODY), ('null bytes', bytes(100)), ('all bytes', bytes(range(256))))]
VALUES: List[Tuple[str, str, object]] = [
    ('a number for a text', 'text', 1), ('null for patterns', 'patterns', None),
    ('a text for patterns', 'patterns', 'a'), ('no pattern', 'patterns', []),
    ('101 patterns', 'patterns', ['a'] * 101), ('null for a pattern', 'patterns', ['a', None]),
    ('a list for a pattern', 'patterns', [['a']]), ('a list for flags', 'flags', ['i']),
    ('an object for a replacement', 'replacement', {}), ('one field more', 'more', ''),
    ('an unknown flag', 'flags', 'z'), ('flags that are no letters', 'flags', '\ud800'),
    ('a text for a limit', 'nest_limit', '50'), ('no limit', 'size_limit', None),
    ('a limit that is true', 'nest_limit', True), ('half a limit', 'size_limit', 50.5),
    ('a negative limit', 'nest_limit', -1), ('a nest limit of 2^32', 'nest_limit', 1 << 32),
    ('a size limit of 2^53', 'size_limit', 1 << 53)]
FIELDS = [BadRequest(name, of_fields(**{field: value}), 400) for name, field, value in VALUES]
PATHS = [
    BadRequest(f'{method} {path}', f'{method} {path} HTTP/1.1\r\n'.encode() + HOST + KIND
               + b'Content-Length: 2\r\n\r\n{}', status) for method, path, status in (
        ('PUT', '/search', 405), ('DELETE', '/search', 405), ('OPTIONS', '/search', 405),
        ('GET', '/search', 405), ('HEAD', '/search', 405), ('POST', '/', 405),
        ('POST', '/page.js', 405), ('PATCH', '/page.js', 405), ('get', '/', 405),
        ('POST', '/other', 404), ('PUT', '/other', 404), ('GET', '/other', 404),
        ('GET', '/../README.md', 404), ('GET', '//etc/passwd', 404), ('GET', '/page.css/', 404),
        ('GET', '/%00', 404), ('GET', '*', 404), ('GET', 'http://example.org/', 404))]
LINES = [
    BadRequest('no HTTP', b'\x16\x03\x01\x02\x00\x01\x00\x01\xfc\x03\x03\r\n\r\n', 400),
    BadRequest('all bytes', bytes(range(256)) + b'\r\n\r\n', 400),
    BadRequest('one word', b'GET\r\n\r\n', 400),
    BadRequest('a version of one number', b'GET / HTTP/1\r\n\r\n', 400),
    BadRequest('a version of 5,000 digits', b'GET / HTTP/1.' + b'1' * 5000 + b'\r\n\r\n', 400),
    BadRequest('no version', b'POST /search\r\n\r\n', 400),
    BadRequest('another protocol', b'GET / SPDY/3\r\n\r\n', 400),
    BadRequest('a later version', b'GET / HTTP/2.0\r\n\r\n', 505),
    BadRequest('a long path', get(b'/' + b'a' * 100_000, HOST), 414),
    BadRequest('a long line', get(b'/', HOST, b'A: ' + b'a' * 100_000 + b'\r\n'), 431),
    BadRequest('many lines', get(b'/', HOST, *[b'A: a\r\n'] * 1000), 431),
]
HEADS = [
    BadRequest('no host', get(b'/'), 403),
    BadRequest('another host', get(b'/', b'Host: example.org:PORT\r\n'), 403),
    BadRequest('another port', get(b'/', b'Host: 127.0.0.1:1\r\n'), 403),
    BadRequest('no port', get(b'/', b'Host: 127.0.0.1\r\n'), 403),
    BadRequest('two hosts', get(b'/', HOST, b'Host: example.org\r\n'), 403),
    *[BadRequest(f'a page at {origin}', get(b'/', HOST, f'Origin: {origin}\r\n'.encode()), 403)
      for origin in ('http://example.org', 'null', 'https://127.0.0.1:PORT')],
    BadRequest('another kind', of_body(BODY).replace(b'application/json', b'text/plain'), 415),
    BadRequest('no kind', of_body(BODY).replace(KIND, b''), 415),
    BadRequest('an odd kind', of_body(BODY).replace(b'application/json', b'\xff;=;/"'), 415),
]
WHOLE: List[BadRequest] = [*LENGTHS, *BODIES, *FIELDS, *PATHS, *LINES, *HEADS]
