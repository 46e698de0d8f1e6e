"""What the scripts of this folder share: their command lines and counts, how they run a program, and the tables of the machines."""
import contextlib
import os
import resource
import subprocess
import sys

TOP = os.path.dirname(os.path.dirname(os.path.realpath(__file__)))
ALPHABET = "ABCDEFGHIJKLMNOPQRSTUVWXYZ"
ROMAN = ["I", "II", "III", "IV", "V", "VI", "VII", "VIII"]
GREEK = ["Beta", "Gamma"]
# Of each rotor model: the wheels of its box, its slots, and its reflectors.
ROTORS = {"Enigma I": (ROMAN[:5], 3, "ABC"), "M3": (ROMAN, 3, "BC"), "M4": (ROMAN + GREEK, 4, "bc")}
CONVERTER = "M-209"
MODELS = [*ROTORS, CONVERTER]
# The models as pages name them.
NAMES = {"Enigma I": "Enigma I", "M3": "Enigma M3", "M4": "Enigma M4", CONVERTER: "Converter M-209"}
PIN_WHEELS = [ALPHABET, ALPHABET.replace("W", ""), ALPHABET[:22] + "X", ALPHABET[:21], ALPHABET[:19], ALPHABET[:17]]
# The places of a bar's lugs, from the left.
PLACES = ["1", "0L", "2", "3", "4", "5", "0R", "6"]
# Days whose pages are tried: a name, the machine file, the key sheet, the day, and the most sheets of paper for the page.
DAYS = [
    ("enigma-i-day-2", "examples/enigma-i.toml", "examples/key-sheet.toml", "2", 1),
    ("enigma-i-nothing", "examples/enigma-i-day-4.toml", "examples/key-sheet.toml", "4", 1),
    ("enigma-i-ten-cables", "examples/enigma-i-day-4.toml", "tests/machines/ten-cables-sheet.toml", "9", 2),
    ("enigma-i-thirteen-cables", "tests/machines/thirteen-cables.toml", "tests/machines/ten-cables-sheet.toml", "12", 2),
    ("enigma-i-loose-ends", "tests/machines/loose-ends.toml", "tests/machines/ten-cables-sheet.toml", "10", 2),
    ("m3-day-5", "examples/m3.toml", "examples/key-sheet.toml", "5", 2),
    ("m4-day-8", "examples/m4.toml", "examples/key-sheet.toml", "8", 2),
    ("m4-inner-stays", "examples/m4.toml", "tests/machines/m4-inner-stays.toml", "7", 1),
    ("m4-all-new", "tests/machines/m4-six-cables.toml", "tests/machines/m4-sheet.toml", "20", 2),
    ("m209-day-7", "examples/m209.toml", "examples/key-sheet.toml", "7", 2),
    ("m209-new-list", "examples/m209.toml", "tests/machines/m209-new-list.toml", "8", 2),
    ("m209-largest-card", "tests/machines/m209-all-else.toml", "tests/machines/m209-all-else-sheet.toml", "31", 2),
]
_counts = {True: 0, False: 0}
# Programs and scripts are in English here, unless a comparison asks for German.
os.environ["LANG"] = "C.UTF-8"


# ---- Command lines and counts.

def arguments(number, seed):
    """The two programs, how many cases to draw, and the seed: DESK CURATOR [NUMBER [SEED]], else `number` and `seed`."""
    desk, curator, *given = sys.argv[1:]
    return os.path.realpath(desk), os.path.realpath(curator), int((given[:1] or [number])[0]), int((given[1:2] or [seed])[0])


def tell(what):
    """Says something, after the script's name."""
    print(f"{os.path.basename(sys.argv[0])}: {what}")


def judge(holds, what):
    """Counts a comparison, and says `what` if it doesn't hold. Answers whether it holds."""
    _counts[bool(holds)] += 1
    if not holds:
        tell(what)
    return bool(holds)


def add(passed, failed):
    """Adds comparisons that another program has counted."""
    _counts[True] += passed
    _counts[False] += failed


def failures():
    """How many comparisons have failed so far."""
    return _counts[False]


def end():
    """Says the counts, and ends the script, with status 1 if a comparison has failed."""
    print(f"{_counts[True]} passed, {_counts[False]} failed")
    sys.exit(_counts[False] > 0)


# ---- Programs and files.

def run(*words, given="", folder=TOP, environment=None):
    """The status of a command, what it writes, and what it writes to standard error. It reads `given`, a text or bytes."""
    given = given.encode() if isinstance(given, str) else given
    done = subprocess.run(words, input=given, capture_output=True, check=False, cwd=folder, env=environment, timeout=300)
    return done.returncode, done.stdout.decode(), done.stderr.decode()


def output(*words, **options):
    """What a command writes, or None if it is refused. The options are those of `run`."""
    status, out, _ = run(*words, **options)
    return out if status == 0 else None


def speaking(language):
    """The environment in a language."""
    return {**os.environ, "LANG": language}


@contextlib.contextmanager
def file_limit(size):
    """Meanwhile a file can grow to so many bytes and no further. Programs are run with `restore_signals=False`, so that
    a failed write tells them, not a signal that ends them, which Python ignores."""
    resource.setrlimit(resource.RLIMIT_FSIZE, (size, resource.RLIM_INFINITY))
    try:
        yield
    finally:
        resource.setrlimit(resource.RLIMIT_FSIZE, (resource.RLIM_INFINITY, resource.RLIM_INFINITY))


def read(path):
    """The text of a file; a path that isn't absolute begins at the repository."""
    with open(os.path.join(TOP, path), encoding="utf-8") as file:
        return file.read()


def write(path, text):
    """Writes a text, or bytes, to a file. Answers the path."""
    with open(path, "wb") as file:
        file.write(text.encode() if isinstance(text, str) else text)
    return path


def toml(values):
    """A table of TOML: texts, numbers, truths and arrays of them, and the empty table."""
    def value(it):
        if isinstance(it, bool):
            return str(it).lower()
        if isinstance(it, list):
            return "[" + ", ".join(map(value, it)) + "]"
        return f'"{it}"' if isinstance(it, str) else str(it)
    return "".join(f"{key} = {value(it)}\n" for key, it in values.items())


def sheet_of(days):
    """A key sheet of these days."""
    return "\n".join("[[day]]\n" + toml(day) for day in days)


# ---- Machines and days, as TOML has them.

def letter_number(letter):
    """A letter's number, from 01 to 26."""
    return f"{ALPHABET.index(letter) + 1:02}"


def named(letter):
    """A letter and its number, as pages have them."""
    return f"{letter}\u00a0{letter_number(letter)}"


def in_fives(text):
    """A text in groups of five letters."""
    return " ".join(text[place:place + 5] for place in range(0, len(text), 5))


def ring_letters(day):
    """The rings of a day, each as a letter; a sheet may have them as numbers."""
    return [ring if isinstance(ring, str) else ALPHABET[ring - 1] for ring in day["rings"]]


def by_wheel(machine, key):
    """The letters that a rotor machine has under a key, `rings` or `letters`, by the wheels of its box."""
    box, _, _ = ROTORS[machine["model"]]
    return dict(zip(box, machine[key]))


def shown_by(machine):
    """The letters that a machine shows, from the left."""
    if machine["model"] == CONVERTER:
        return machine["letters"]
    letters = by_wheel(machine, "letters")
    return "".join(letters[wheel] for wheel in machine["slots"])


def row_of(bar):
    """The row that a bar's places read as: 0L and 0R are both 0."""
    return "-".join(place[0] for place in bar.split("-"))


def lugs_of(row):
    """The numbers of a row's lugs, the smaller one first."""
    return "-".join(sorted(row.split("-")))


# ---- Pages and cards.

def style_of(page):
    """The style sheet of a page."""
    return page.partition("<style>\n")[2].partition("</style>")[0]


def difference(page, due):
    """Where two texts differ first, with what is around it."""
    if page == due:
        return "no difference"
    at = len(os.path.commonprefix([page, due]))
    start = max(0, at - 40)
    return f"differs at {at}: {page[start:at + 40]!r}, due {due[start:at + 40]!r}"


def settings_of(card):
    """The settings of a card: the lines between its first one and `SETTINGS`."""
    lines = card.splitlines()
    return lines[1:next(place for place, line in enumerate(lines) if line.startswith("SETTINGS"))]
