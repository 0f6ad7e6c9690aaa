"""The crates that the program argo stands on, by crates.txt, and the digest of their sources."""

from __future__ import annotations

import functools
import hashlib
from pathlib import Path

TOP = Path(__file__).resolve().parent.parent
PROGRAM = "argo"
# What a proof of a crate, and the program, are made from.
PARTS = ("src", "specs", "proofs")
LISTS = ("HANDLES", "crates.txt")


@functools.lru_cache(maxsize=None)
def named() -> dict[str, list[str]]:
    """Each crate of crates.txt, with the crates and libraries that its line names."""
    lines = (TOP / "crates.txt").read_text(encoding="utf-8").splitlines()
    rows = [line.partition("#")[0].partition(":") for line in lines]
    return {crate.split()[0]: names.split() for crate, _, names in rows if crate.strip()}


def crates_below(crate: str = PROGRAM) -> list[str]:
    """The crates that this one stands on, each behind those that it stands on, and this one last."""
    found: list[str] = []

    def add(it: str) -> None:
        if it in named() and it not in found:
            for name in named()[it]:
                add(name)
            found.append(it)

    add(crate)
    return found


@functools.lru_cache(maxsize=None)
def line_of(path: str) -> bytes:
    """The line that sha256sum prints for this file."""
    return f"{hashlib.sha256((TOP / path).read_bytes()).hexdigest()}  {path}\n".encode()


@functools.lru_cache(maxsize=None)
def files_of(crate: str) -> list[str]:
    folders = [TOP / "crates" / crate / part for part in PARTS]
    files = [it for folder in folders for it in folder.rglob("*") if it.is_file()]
    return [it.relative_to(TOP).as_posix() for it in files]


def digest(crate: str = PROGRAM) -> str:
    """The SHA-256 of the lines of sha256sum for all files that the crate is made from, in the order of their paths."""
    paths = [*LISTS, *(path for it in crates_below(crate) for path in files_of(it))]
    return hashlib.sha256(b"".join(map(line_of, sorted(paths)))).hexdigest()
