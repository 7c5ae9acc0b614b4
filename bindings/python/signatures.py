"""signatures.py FILE: gives the C code that Cython made the heads that `inspect.signature` reads, as Cython 3 does by itself.

Cython 0.29 begins a method's text by `Bits.find(self, item, start=0)`; CPython takes `find($self, item, start=0)` and `--`."""

from __future__ import annotations

import pathlib
import re
import sys

HEAD = re.compile(r'^(static char __pyx_doc_\w+\[\] = "|  "(?=.*/\*tp_doc\*/$))(?:\w+\.)?(\w+)\((self|type cls)?(.*?)\)(\\n|(?=";$))', re.M)
SELF = {"self": "$self", "type cls": "$type", None: ""}


def head(found: re.Match[str]) -> str:
    """A head as CPython takes it. Of a method it knows no names of the module, so that Lsb0 stands there as what it is equal to."""
    before, name, first, rest, _ = found.groups()
    words = re.sub(r"\bBits (\w+)", r"\1", rest).replace("=Lsb0", "=0")
    return f"{before}{name}({SELF[first]}{words})\\n--\\n\\n"


if __name__ == "__main__":
    path = pathlib.Path(sys.argv[1])
    path.write_text(HEAD.sub(head, path.read_text()))
