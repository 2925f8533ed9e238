"""What the commands share: their words, reading of files, and writing of a folder once all of it is known."""

import os
import sys

from wasp_system import fit
from wasp_text import Unreadable, decks_of, read_report, read_script

USAGE, UNREADABLE, NO_INPUT, NO_OUTPUT = 64, 65, 66, 73


def read_bytes(path):
    """The bytes of a file."""
    with open(path, "rb") as source:
        return source.read()


def read_study(deck_path, report_path):
    """The report with the System of each of its plans."""
    decks = decks_of(deck_path, read_script(deck_path, read_bytes(deck_path)))
    report = read_report(report_path, read_bytes(report_path))
    return report, fit(report, decks)


def write_files(folder, files):
    """Writes each text under its name into a folder, which is made where it is absent."""
    os.makedirs(folder, exist_ok=True)
    for name, text in files.items():
        with open(os.path.join(folder, name), "w", encoding="ascii", newline="") as sink:
            sink.write(text)


def guarded(name, work):
    """Runs a command and gives its exit status; a fault is one sentence on standard error."""
    try:
        return work() or 0
    except Unreadable as fault:
        print(f"{name}: {fault}", file=sys.stderr)
        return UNREADABLE
    except FileNotFoundError as fault:
        print(f"{name}: {fault.filename} is not there", file=sys.stderr)
        return NO_INPUT
    except OSError as fault:
        print(f"{name}: {fault}", file=sys.stderr)
        return NO_OUTPUT


def deck_report_folder(name, what, make):
    """A command of the words DECK REPORT FOLDER: `make` gives the files by the report and its systems."""
    if len(sys.argv) != 4:
        print(f"usage: {name} DECK REPORT FOLDER\n{what}", file=sys.stderr)
        return USAGE

    def work():
        deck, report, folder = sys.argv[1:]
        files = make(*read_study(deck, report))
        write_files(folder, files)
        for file in files:
            print(os.path.join(folder, file))

    return guarded(name, work)
