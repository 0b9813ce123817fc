"""The texts of `help` and `version`, which stand in the source of the program."""

import re
import subprocess
from pathlib import Path

CRATES = Path(__file__).resolve().parent.parent / "crates"
LITERAL = r'"((?:[^"\\]|\\.)*)"'


def plain(literal: str) -> str:
    """The text of a string literal: a backslash at the end of a line joins it with the next one."""
    joined = re.sub(r"\\\n\s*", "", literal)
    return joined.replace("\\n", "\n").replace('\\"', '"').replace("\\\\", "\\")


def constants(path: Path, form: str) -> list[tuple[str, list[str]]]:
    """The constants of this type, each with its texts, in order."""
    found = re.findall(rf"(?s)const ([A-Z_]+): {re.escape(form)} =(.*?[\")]);\n", path.read_text())
    return [(name.lower().replace("_", "-"), [plain(text) for text in re.findall(f"(?s){LITERAL}", value)])
            for name, value in found]


PAGES = {name: texts for name, texts in constants(CRATES / "arguments/src/pages.rt", "Page")}
OTHERS = dict(constants(CRATES / "arguments/src/pages.rt", "&str"))
VERSION = dict(constants(CRATES / "addrman_run/src/help.rt", "&str"))["version"][0]


def version_of(program: str) -> str:
    """What `version` prints in a program: VERSION, or what tools/plain writes in its place."""
    said = subprocess.run([program, "version"], stdout=subprocess.PIPE, text=True, check=True).stdout
    built = re.sub(r"built with cargo at ([0-9a-f]{12}( and changes)?|an unknown commit), from sources for",
                   "proved with", said)
    return said if built == VERSION else VERSION


def entry(name: str) -> str:
    """The form of a command, and what it does."""
    form, sentence, _ = PAGES[name]
    return f"{form}\n    {sentence}\n"


def page(name: str) -> str:
    """What `help COMMAND` prints."""
    return f"addrman {entry(name)}\n{PAGES[name][2]}"


def list_of_commands() -> str:
    """What `help` prints."""
    return OTHERS["head"][0] + "".join(entry(name) for name in PAGES) + OTHERS["tail"][0]
