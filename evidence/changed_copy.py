"""A copy of what the programs over the erased text are built from, in which mistakes are made. Cargo builds a program
of it again only where its text has changed.
"""

import os
import shutil
import subprocess
from pathlib import Path

TOP = Path(__file__).resolve().parent.parent
PARTS = ("Cargo.toml", ".cargo", "crates", "rust")


def copy_to(room):
    """Makes the copy in a folder. No function of it asks to be part of its callers, which a build without optimization
    would otherwise compile again with it.
    """
    for part in PARTS:
        if (TOP / part).is_dir():
            shutil.copytree(TOP / part, room / part, ignore=shutil.ignore_patterns("out", "proofs"))
        else:
            room.mkdir(parents=True, exist_ok=True)
            shutil.copy(TOP / part, room)
    for file in room.glob("crates/*/src/**/*.rt"):
        text = file.read_text(encoding="utf-8")
        file.write_text(text.replace("#[inline(always)]", "#[inline(never)]"), encoding="utf-8")


def built(room, program):
    """The program of a copy, or `None` if it does not compile, and what cargo says."""
    ran = subprocess.run(
        ["cargo", "build", "--quiet", "--offline", "-p", "programs", "--bin", program],
        cwd=room,
        stdout=subprocess.PIPE,
        stderr=subprocess.STDOUT,
        text=True,
        check=False,
        env=os.environ | {"CARGO_TARGET_DIR": "target", "CARGO_INCREMENTAL": "1"},
    )
    return None if ran.returncode else room / "target" / "debug" / program, ran.stdout
