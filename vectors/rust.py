"""Bytes as Rust spells them, in the layout of `rt fmt`."""

WIDTH = 92
PLACED = {ord('"'): '\\"', ord("\\"): "\\\\", 0: "\\0"}
NAMED = {'"': '\\"', "\\": "\\\\", "\n": "\\n", "\r": "\\r"}


def rust_char(octet):
    return PLACED.get(octet) or (chr(octet) if 32 <= octet < 127 else f"\\x{octet:02x}")


def rust_text_char(char):
    if char in NAMED:
        return NAMED[char]
    return char if 32 <= ord(char) < 127 else f"\\u{{{ord(char):x}}}"


def quoted(chars):
    """A string of these characters, broken into lines."""
    lines, line = [], ""
    for char in chars:
        if len(line) + len(char) > WIDTH:
            lines.append(line)
            line = "\\x20" if char == " " else char
        else:
            line += char
    return '"' + "\\\n    ".join(lines + [line]) + '"'


def rust_string(octets):
    """A byte string."""
    return "b" + quoted(map(rust_char, octets))


def rust_text(text):
    """A string."""
    return quoted(map(rust_text_char, text))


def rust_lines(text):
    """A string of printable lines, each of which stands on a line of its own."""
    spelled = text.replace("\\", "\\\\").replace('"', '\\"')
    return '"\\\n' + spelled + '"' if text else '""'


def rust_octets(octets):
    """A byte string in hexadecimal digits, 24 octets a line."""
    lines = [octets[start : start + 24] for start in range(0, len(octets), 24)]
    return 'b"' + "\\\n    ".join("".join(f"\\x{octet:02x}" for octet in line) for line in lines) + '"'


def rust_table(doc, name, item, rows):
    """A table behind a function: a proof that calls it doesn't read the table. The rows have their indentation."""
    yield f"/// {doc}"
    yield f"pub fn {name}() -> &'static [{item}] {{\n    &{name.upper()}\n}}\n"
    yield f"static {name.upper()}: [{item}; {len(rows)}] = ["
    yield from rows
    yield "];"


def rust_tuples(rows):
    """Rows of a table whose parts are spelled."""
    for parts in rows:
        if len(", ".join(parts)) <= 60:
            yield f"    ({', '.join(parts)}),"
        else:
            yield "    (\n" + "".join(f"        {part},\n" for part in parts) + "    ),"


def rust_file(lines):
    return "\n".join(lines).rstrip() + "\n"
