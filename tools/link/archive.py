"""An ar archive: its members in their order."""

import re

HEADER_SIZE = 60
MAGIC = b"!<arch>\n"


def members(data):
    """The name and bytes of each member that is neither a symbol table nor the table of long names."""
    assert data[: len(MAGIC)] == MAGIC, "no archive"
    found, long_names, at = [], b"", len(MAGIC)
    while at < len(data):
        header = data[at : at + HEADER_SIZE]
        name, size = header[:16].rstrip(), int(header[48:58])
        body = data[at + HEADER_SIZE :][:size]
        at += HEADER_SIZE + size + size % 2
        if name == b"//":
            long_names = body
        elif name not in (b"/", b"/<ECSYMBOLS>/"):
            found.append((full_name(name, long_names), body))
    return found


def full_name(name, long_names):
    """The name of a member: ended by a slash, or its place among the long names."""
    if name.startswith(b"/"):
        name = re.split(rb"[\0\n]", long_names[int(name[1:]) :], maxsplit=1)[0]
    return name.removesuffix(b"/").decode()
