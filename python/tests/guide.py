"""guide.py [--write]: runs the commands of docs/GUIDE.md and compares what they print with what it shows, or writes it there.

In a block marked console each line that begins with '$ ' is a command, and the lines up to the next one are what it prints. A block marked
pycon is a session of Python, and all such blocks are one. Everything runs in one new directory."""
from __future__ import annotations

import contextlib
import io
import os
import subprocess
import sys
import tempfile
from pathlib import Path

ROOT = Path(__file__).resolve().parents[2]
GUIDE = ROOT / "docs" / "GUIDE.md"


def shell(command: str) -> list[str]:
    path = f"{ROOT / 'python' / 'bin'}:{os.environ['PATH']}"
    ran = subprocess.run(
        ["bash", "-c", command], stdout=subprocess.PIPE, stderr=subprocess.STDOUT, stdin=subprocess.DEVNULL, text=True,
        env={**os.environ, "PATH": path},
    )  # fmt: skip
    return ran.stdout.splitlines()


def console(lines: list[str]) -> list[str]:
    shown: list[str] = []
    for line in lines:
        if line.startswith("$ "):
            shown += [line] + shell(line[2:])
    return shown


def session(lines: list[str], names: dict) -> list[str]:
    shown: list[str] = []
    sources: list[list[str]] = []
    for line in lines:
        if line.startswith(">>> "):
            sources.append([line])
        elif line.startswith("..."):
            sources[-1].append(line)
    for source in sources:
        printed = io.StringIO()
        with contextlib.redirect_stdout(printed):
            exec(compile("\n".join(line[4:] for line in source) + "\n", "guide", "single"), names)
        shown += source + printed.getvalue().splitlines()
    return shown


def main() -> int:
    blocks, kind, new, names = [], None, [], {}
    text = GUIDE.read_text().splitlines()
    place = tempfile.TemporaryDirectory(prefix="guide")
    os.chdir(place.name)
    for line in text:
        if kind is None:
            new.append(line)
            kind, blocks = {"```console": "console", "```pycon": "pycon"}.get(line), []
        elif line == "```":
            new += console(blocks) if kind == "console" else session(blocks, names)
            new.append(line)
            kind = None
        else:
            blocks.append(line)
    if "--write" in sys.argv[1:]:
        GUIDE.write_text("\n".join(new) + "\n")
        return 0
    wrong = [(was, now) for was, now in zip(text, new) if was != now]
    for was, now in wrong[:3]:
        print(f"the guide shows: {was}\nwhat is printed: {now}")
    return 1 if wrong or len(text) != len(new) else 0


sys.exit(main())
