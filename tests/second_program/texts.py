"""Texts and JSON (RFC 8259), where a JSON value is the text that is stored, and the lines of refusals."""
import json
import re


LIMIT, JUMP, CAP = 2**63 - 1, 1_000_000, 2**62
MOST_BYTES, MOST_OPS, MOST_PACKED = 4_194_304, 4_096, 16_777_216

# How many trees may lie between a commit's tree and one below it, that one counted.
MOST_DEEP = 16


def is_control(code):
    return code < 32 or 127 <= code <= 159


def is_line(text):
    return not any(is_control(ord(char)) for char in text)


def is_title(text):
    return is_line(text) and any(not char.isspace() for char in text)


def is_message(text):
    return not any(is_control(ord(char)) and char not in "\n\r\t" for char in text)


def decimal(text):
    """The number of a decimal without leading zeros, below 2^64."""
    found = re.fullmatch(rb"0|[1-9][0-9]*", text)
    return int(text) if found and int(text) < 2**64 else None


def without_line_end(text):
    return text[:-1] if text.endswith(b"\n") else text


class Bad(Exception):
    pass


SPACE = rb"[ \t\n\r]*"
STRING = re.compile(rb'"(?:[^"\\\x00-\x1f]|\\["\\/bfnrt]|\\u[0-9a-fA-F]{4})*"', re.S)
SCALAR = re.compile(rb"-?(?:0|[1-9][0-9]*)(?:\.[0-9]+)?(?:[eE][+-]?[0-9]+)?|true|false|null")
SKIP = re.compile(SPACE)


def skip(text, at):
    return SKIP.match(text, at).end()


def value_end(text, at, brackets):
    """Where the value that begins here ends, if so many brackets of a part are open around it."""
    if text[at:at + 1] in (b"{", b"["):
        if brackets == 100:
            raise Bad
        return list_at(text, at, brackets + 1)[1]
    found = (STRING if text[at:at + 1] == b'"' else SCALAR).match(text, at)
    if not found:
        raise Bad
    return found.end()


def list_at(text, at, brackets):
    """The parts of the object or array that begins here, and where it ends."""
    is_object, parts = text[at:at + 1] == b"{", []
    close = b"}" if is_object else b"]"
    at = skip(text, at + 1)
    if text[at:at + 1] == close:
        return parts, at + 1
    while True:
        name = None
        if is_object:
            found = STRING.match(text, at)
            if not found:
                raise Bad
            name, at = found.group(), skip(text, found.end())
            if text[at:at + 1] != b":":
                raise Bad
            at = skip(text, at + 1)
        end = value_end(text, at, brackets)
        parts.append((name, text[at:end]) if is_object else text[at:end])
        at = skip(text, end)
        if text[at:at + 1] == close:
            return parts, at + 1
        if text[at:at + 1] != b",":
            raise Bad
        at = skip(text, at + 1)


def whole(text, bracket):
    """The parts of a text that is one object, or one array, with white space round it; None where it is none."""
    at = skip(text, 0)
    try:
        if text[at:at + 1] != bracket:
            return None
        parts, end = list_at(text, at, 0)
    except (Bad, RecursionError):
        return None
    return parts if skip(text, end) == len(text) else None


def string(value):
    """The text of a JSON string, or None."""
    if not STRING.fullmatch(value):
        return None
    try:
        text = json.loads(value.decode())
        text.encode()
        return text
    except (ValueError, UnicodeError):
        return None


def members(text):
    """The members of an object by their names as they read, each with all its values; None where it is no object."""
    try:
        text.decode()
    except UnicodeError:
        return None
    parts = whole(text, b"{")
    if parts is None:
        return None
    found = {}
    for name, value in parts:
        found.setdefault(string(name), []).append(value)
    return found


def only(fields, name):
    values = fields.get(name, [])
    return values[0] if len(values) == 1 else None


def quoted(text):
    """A JSON string as compact writers make it: no escape but those that are needed."""
    short = {'"': '\\"', "\\": "\\\\", "\b": "\\b", "\f": "\\f", "\n": "\\n", "\r": "\\r", "\t": "\\t"}
    return '"' + "".join(short.get(char) or (f"\\u{ord(char):04x}" if ord(char) < 32 else char) for char in text) + '"'


def refused(*lines):
    return {(1, f"refused {it}\n") for it in lines}


def compact(value):
    if isinstance(value, str):
        return quoted(value)
    if isinstance(value, list):
        return "[" + ",".join(map(compact, value)) + "]"
    if isinstance(value, dict):
        return "{" + ",".join(f"{quoted(key)}:{compact(it)}" for key, it in value.items()) + "}"
    return str(value)
