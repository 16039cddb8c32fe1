#!/usr/bin/env python3
"""Whether tools/limits.py reads of host/src/limits.rs what stands there: every constant, with the rules' figures."""
import re

import limits


def main():
    declared = re.findall(r"\bconst (?!fn)(\w+)", limits.SOURCE.read_text())
    read = {name: getattr(limits, name) for name in declared}
    assert all(type(value) is int and value > 0 for value in read.values()), read
    assert (limits.HANDLE_WORDS, limits.CLOSING_WORDS, limits.MAXIMUM_PEER) == (4136, 96, 128), read
    assert limits.read("pub const A: usize = 1_000;\n/// B\npub const B: usize = 2 * (A + words_of(5));\n")["B"] == 2004
    print(f"{len(read)} limits are read as they stand")


main()
