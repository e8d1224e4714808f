"""Sheets: how a line is written, and how a program that answers sheets is asked."""

import struct
import subprocess
import sys
from pathlib import Path
from typing import NamedTuple

TOP = Path(__file__).resolve().parent.parent
NAMES = "way,kind,a,f,lon0,lat0,lat1,lat2,fe,fn,u,v"
ANSWER_NAMES = "code,p,q"
MOST_BYTES = 65_536


class Settings(NamedTuple):
    """A map's numbers, in the order of the sheet: metres and radians."""

    a: float
    f: float
    lon0: float
    lat0: float
    lat1: float
    lat2: float
    fe: float
    fn: float


class Answer(NamedTuple):
    """A refusal number, 0 if answered, and two results."""

    number: int
    p: float
    q: float


def bits(x):
    return struct.pack(">d", x).hex()


def f64(field):
    return struct.unpack(">d", bytes.fromhex(field))[0]


def line(way, kind, settings, u, v):
    return ",".join([way, kind, *map(bits, settings), bits(u), bits(v)])


def sheets(lines):
    """The lines, cut into sheets that are not too long."""
    room = MOST_BYTES - len(NAMES) - 1
    sheet, used = [], 0
    for text in lines:
        if used + len(text) + 1 > room:
            yield sheet
            sheet, used = [], 0
        sheet.append(text)
        used += len(text) + 1
    if sheet:
        yield sheet


def run(command, text=""):
    """What a command prints. It ends the script where the command fails, with what that said."""
    try:
        done = subprocess.run([str(word) for word in command], input=text, capture_output=True, text=True)
    except OSError as error:
        sys.exit(f"{command[0]}: {error.strerror}")
    if done.returncode != 0:
        sys.exit(f"{command[0]} ended with {done.returncode}\n{done.stderr}".rstrip())
    return done.stdout


def read_answer(text):
    try:
        number, p, q = text.split(",")
        return Answer(int(number), f64(p), f64(q))
    except (ValueError, struct.error):
        sys.exit(f"not an answer: {text!r}")


def ask(command, lines):
    """The answers to the lines, in their order."""
    answers = []
    for sheet in sheets(lines):
        names, *rows = run(command, "\n".join([NAMES, *sheet, ""])).splitlines() or [""]
        if names != ANSWER_NAMES or len(rows) != len(sheet):
            sys.exit(f"{command[0]} gave {len(rows)} answers to {len(sheet)} lines, under the names {names!r}")
        answers += map(read_answer, rows)
    return answers


def built_program():
    """The command that runs the sheet program, which is proved and built first where that is not done."""
    return run([TOP / "lenthuc", "--build"]).splitlines() or sys.exit("./lenthuc --build named no command")
