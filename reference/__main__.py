"""`python3 reference COMMAND ...` does what `addrman COMMAND ...` does, as docs/FORMATS.md says."""

import os
import sys

import command
import help_texts
from folder import MAXIMUM_PIECE, Folder, Stop
from given import changed_folder, plain_words


def write_all(descriptor: int, data: bytes):
    """Writes all bytes to a descriptor."""
    while data:
        data = data[os.write(descriptor, data):]


def main() -> int:
    """Runs the command of the arguments.

    A standard stream that is closed is a folder from then on, so no file is opened as one. Nothing is
    said of a run whose output nobody reads any more.
    """
    for _ in range(3):
        os.open("/", os.O_RDONLY)
    is_unread = False

    def write(data: bytes):
        nonlocal is_unread
        try:
            write_all(1, data)
        except BrokenPipeError:
            is_unread = True
            raise

    said: list[str] = []
    try:
        words = changed_folder(sys.argv[1:])
        paths: dict[str, str | None] = {}
        plain = plain_words(words, paths)
        code, text = command.run(plain, lambda most=MAXIMUM_PIECE: os.read(0, most), write, Folder(paths), said)
    except Stop as stop:
        words, code, text = sys.argv[1:], stop.code, stop.text
    lines = [line for line in (text, *said) if line]
    if lines and not is_unread:
        try:
            write_all(2, "".join(f"addrman: {line}\n" for line in lines).encode())
            if not words:
                write_all(2, help_texts.list_of_commands().encode())
        except OSError:
            pass
    return code


sys.exit(main())
