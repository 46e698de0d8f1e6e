"""How to try a program on hostile files, and on cases with each of its calls refused in turn (shim.c), for `tests/refusals`
and `tests/page-refusals`."""
import os
import re
import shutil
import subprocess
import sys
import tempfile
from glob import glob

from case_files import cases
from shared import TOP, add, judge, run, write

# The most bytes of a file; and the memory that there is, in KiB: twice what the neediest commands take, some 26,000.
LONGEST, MEMORY = 1048576, 52000


def is_german(words, locale):
    """Whether the words of a command line ask for German or, where they ask for no language, the locale does."""
    asked = re.search(r" --in[ =](\w+)", words)
    return (asked[1] if asked else locale).startswith("de")


class Trial:
    """A built program, and a folder with the files of examples/, where the script then works."""

    def __init__(self, name, room):
        self.path = os.path.abspath(sys.argv[1] if len(sys.argv) > 1 else f"{TOP}/crates/{name}/out/{name}")
        self.name, self.room, self.shim = name, room, f"{room}/shim.so"
        if not os.access(self.path, os.X_OK):
            sys.exit(f"the program isn't built: {self.path}")
        subprocess.run(["cc", "-O1", "-shared", "-fPIC", "-o", self.shim, f"{TOP}/tests/shim.c", "-ldl"], check=True)
        os.mkdir(f"{room}/files")
        os.chdir(f"{room}/files")
        for path in glob(f"{TOP}/examples/*"):
            shutil.copy(path, ".")

    def run(self, *words, given=b""):
        """The status of the program, and what it writes to both outputs."""
        return run(self.path, *words, given=given, folder=".", environment=os.environ)

    def refuse_each(self, *words, given=b"", program=None, **environment):
        """Runs the program with each of its calls refused in turn. Words of the environment are those of shim.c."""
        what = f"{self.name} {' '.join(map(str, words))}"
        environment = {**os.environ, "CASE": what[:300], "LD_PRELOAD": self.shim, **environment}
        if self.name == "curator" and is_german(what, environment.get("LANG", "")):
            environment["REFUSED"] = "abgelehnt: "
        with open(write(f"{self.room}/in", given), "rb") as file:
            words = [program or self.path, *words]
            done = subprocess.run(words, stdin=file, stdout=subprocess.PIPE, env=environment, check=False)
        *lines, last = done.stdout.decode(errors="replace").splitlines() or [""]
        print("".join(f"{line}\n" for line in lines), end="")
        if counts := re.fullmatch(r"(\d+) passed, (\d+) failed", last):
            add(*map(int, counts.groups()))
        else:
            judge(False, f"{what}: the calls weren't refused")

    def refuse_cases(self, *commands):
        """Each case that is `refusing` gets its answer, and the right one if a call is refused.

        Of each command, there is such a case that isn't refused, and one that is.
        """
        files, tried = os.getcwd(), set()
        for case in cases():
            if case.refusing and case.program == self.name:
                with tempfile.TemporaryDirectory(dir=self.room) as room:
                    case.judge(self.path, room)
                    os.chdir(room)
                    how = {"KEEPS": "letters"} if case.words[:1] == ["type"] else {}
                    how |= {"KEEPS": case.values["keeps"]} if "keeps" in case.values else {}
                    how |= {"MEMORY_ALONE": "1"} if case.refusing == "memory" else {}
                    how |= {"LANG": case.values["locale"]} if "locale" in case.values else {}
                    self.refuse_each(*case.words, given=case.values.get("in", b""), **how)
                    os.chdir(files)
                    tried.add((*case.words[:1], case.values.get("status", 0)))
        for command in commands:
            judge({(command, 0), (command, 1)} <= tried, f"too few cases of {self.name} {command} are refusing")

    def writes(self, due, *words, given=b"", **environment):
        """The program writes `due`, and nothing to standard error; then with each of its calls refused."""
        status, out, told = run(self.path, *words, given=given, folder=".", environment={**os.environ, **environment})
        judge((status, out, told) == (0, due, ""), f"{self.name} {words}: status {status}, {len(out)} bytes, {told}")
        self.refuse_each(*words, given=given, **environment)

    # ---- Hostile files: they are the file `cut`.

    def judge_said(self, due, status, told, words):
        """The program gave this answer in a line, perhaps with words about the file `cut`; or `fine`, without refusal."""
        told = re.sub(r": [^:]* cut$", "", told.removesuffix("\n")) or "fine"
        what = f"{self.name} {words}, the file cut being {os.path.getsize('cut')} bytes"
        judge(status == (due != "fine") and told == due, f"{what}: status {status}, {told}; due: {due}")

    def says(self, due, *words, cut=None, given=b""):
        """The program gives this answer, where the file `cut` has this text."""
        if cut is not None:
            write("cut", cut)
        how = {"input": given} if given else {"stdin": subprocess.DEVNULL}
        how |= {"stdout": subprocess.DEVNULL, "stderr": subprocess.PIPE}
        done = subprocess.run([self.path, *words], check=False, **how)
        self.judge_said(due, done.returncode, done.stderr.decode(errors="replace"), words)

    def prefixes(self, text, *words):
        """Each prefix of a file: within a line it is no TOML; between two the next key is missing, unless it may be."""
        front = ""
        for line in text.splitlines():
            key = line.split(" =")[0].replace("[[day]]", "day")
            for cut in (front, front[:-1]):
                self.says("fine" if key in ("cables", "groups") else f"refused 20 Missing {key}", *words, cut=cut)
            for at in range(1, len(line)):
                self.says("refused 18 NotToml", *words, cut=front + line[:at])
            front += f"{line}\n"
        for cut in (front, front[:-1]):
            self.says("fine", *words, cut=cut)

    def byte_at_each_place(self, text, *words):
        """The byte FF stands at each place of the file in turn."""
        for cut in with_byte(text):
            self.says("refused 18 NotToml", *words, cut=cut)

    def never_ends(self, due, begin, line, *words):
        """The program gives this answer on standard input that has `begin`, and then this line again and again."""
        pipe = 'begin=$0 line=$1; shift; { printf %s "$begin"; yes "$line"; } | "$@"'
        status, _, told = run("sh", "-c", pipe, begin, line, self.path, *words, folder=".", environment=os.environ)
        self.judge_said(due, status, told, words)

    def within(self, due, *words, given=b"", program=None):
        """The command writes this, and takes no more memory than `MEMORY`; if `due` is `None`, whatever it writes."""
        status, out, told = run("sh", "-c", 'ulimit -v "$0" && exec "$@"', str(MEMORY), program or self.path, *words,
                                given=given, folder=".", environment=os.environ)
        right = status == 0 and (due is None or (out, told) == (due, ""))
        judge(right, f"{self.name} {words}, within {MEMORY} KiB: status {status}, {len(out)} bytes, {told}")


def with_byte(text):
    """A text, as bytes, with the byte FF at each of its places in turn."""
    text = text.encode()
    return [text[:at] + b"\xff" + text[at:] for at in range(len(text) + 1)]


def item(sheet, number):
    """The entry of a day of a sheet, as a sheet of its own."""
    return next(f"[[day]]\n{day.strip()}\n" for day in sheet.split("[[day]]\n") if day.startswith(f"day = {number}\n"))


def longest_machine(text):
    """A machine file as long as one may be, by a key that isn't looked at."""
    return f"x = [{('0,' * LONGEST)[:LONGEST - 7 - len(text)]}]\n{text}"


def longest_sheet(text):
    """A key sheet as long as one may be, by a comment."""
    return f"{text}#{'A' * (LONGEST - 2 - len(text))}\n"
