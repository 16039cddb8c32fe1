"""The rules' figures for the tools, by their names in host/src/limits.rs: MAXIMUM_PEER, HANDLE_WORDS and the rest.

They are read from there, so that no number stands twice.
"""
import pathlib
import re

SOURCE = pathlib.Path(__file__).resolve().parent.parent / "host/src/limits.rs"


def read(text):
    """The constants of the Rust file: each a number, or reckoned from the names above it."""
    known = {"words_of": lambda size: -(-size // 4)}
    for name, value in re.findall(r"^pub const (\w+): \w+ =\s*([^;]+);", text, re.M):
        known[name] = eval(f"({value})", {"__builtins__": {}}, known)
    return known


globals().update(read(SOURCE.read_text()))
