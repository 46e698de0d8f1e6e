"""Reads the worked examples in tests/cases, and compares what the programs answer with what is due. Their files are TOML:

    program = "curator"               # or "desk"

    [texts]                           # texts that cases share, by their names
    M1 = '''..'''

    [[group]]
    what = "slips in a machine file"  # what the cases of the group show
    run = ["look", "m.toml"]          # the words after the program's name; or `runs`, a list of such lists
    files = { "m.toml" = "M1" }       # the files that the words name: for each, its text
    change = "m.toml"                 # the file in which a case exchanges `old` for `new`
    status = 1                        # the exit status; 0 if it isn't given
    refusing = true                   # each case also runs with each of its calls refused in turn (shim.c); or "memory"
    columns = ["old", "new", "out"]   # what the values of a case are; if "refusing" comes last, the case is `refusing`
    cases = [["= 1", "= 3", ".."]]

A column is one of these, or else the name of a file:

    words             words behind those of `run`
    in                standard input
    old, new          each occurrence of `old` in the file `change` becomes `new`; or lists: one change after another
    out, err, status  both outputs and the exit status
    refused           the words of a refusal: the line on standard error, status 1, no output
    body              the output behind the end of its style sheet, in place of `out`
    has, lacks        lists of texts that the output has, or hasn't, in place of `out`; for `has` also pairs: a text,
                      and how often the output has it
    turn              a list of texts that the output has one after another, in place of `out`
    verdict           the output is a card: what `desk check` writes for it, on the same machine, sheet and day
    keeps             what may be written before a refused read, as KEEPS of shim.c has it
    locale            the value of the variable LANG; C if it isn't given

What no column gives, the group gives, and else nothing is there. A text is the name of one of `texts`, or the text
itself, or a list of pairs: a text, and how often it comes. Each of `texts` is a text or such a list. With `encoding =
"latin-1"` in a group, each letter of a file is a byte.
"""
import os
import tomllib
from itertools import product

from shared import TOP, judge, read, run, write

CASES = f"{TOP}/tests/cases"
COLUMNS = {"words", "in", "old", "new", "out", "err", "status", "refused", "body", "has", "lacks", "turn", "verdict",
           "keeps", "locale"}
STYLE_END = "</style>\n"
REFUSING = "refusing"


class Wrong(Exception):
    """A case that isn't written as the rules say."""


def text_of(told, texts):
    """The text that is told by name, as it is, or as pairs."""
    if isinstance(told, str):
        told = texts.get(told, told)
    if isinstance(told, list):
        return "".join(text_of(piece, texts) * times for piece, times in told)
    return told


def texts_of(name):
    """The texts of the file of cases `name`, by their names."""
    texts = tomllib.loads(read(f"{CASES}/{name}"))["texts"]
    return {name: text_of(name, texts) for name in texts}


def changed(text, old, new):
    """The text with each occurrence of `old` exchanged for `new`; if both are lists, with one change after another."""
    changes = zip(old, new, strict=True) if isinstance(old, list) else [(old, new)]
    for old, new in changes:
        if old not in text:
            raise Wrong(f"no text {old!r} to exchange")
        text = text.replace(old, new)
    return text


class Case:
    """A case of a file. After `read`, its `values` are those of its columns, and of its group where it has none."""

    def __init__(self, name, told, group, words, values):
        self.name = f"{name}: {group['what']}: {words} {values[:2]}"
        self.program = group.get("program", told["program"])
        self.told, self.group, self.words, self.values, self.files = told, group, words, {}, {}
        marked = values[len(group["columns"]):] == [REFUSING]
        self.refusing, self.row = group.get(REFUSING, marked), values[:-1] if marked else values

    def read(self):
        """Reads the case's values, its files and its words."""
        columns, texts = self.group["columns"], self.told.get("texts", {})
        encoding = self.group.get("encoding", "utf-8")
        if len(self.row) != len(columns):
            raise Wrong(f"{len(self.row)} values for {len(columns)} columns")
        case = {name: self.group[name] for name in COLUMNS if name in self.group} | dict(zip(columns, self.row))
        files = self.group.get("files", {}) | {name: case[name] for name in columns if name not in COLUMNS}
        files = {name: text_of(text, texts) for name, text in files.items()}
        for name in {"in", "out", "err", *({"body"} & case.keys())}:
            case[name] = text_of(case.get(name, ""), texts)
        if "refused" in case:
            case["err"], case["status"] = f"refused {case['refused']}\n", 1
        if "old" in case:
            files[self.group["change"]] = changed(files[self.group["change"]], case["old"], case["new"])
        self.files = {name: text.encode(encoding) for name, text in files.items()}
        case["in"] = case["in"].encode(encoding)
        self.words, self.values = [*self.words, *case.get("words", [])], case

    def answer(self, program, room):
        """The exit status of the program, and both outputs, in the folder `room`, which gets the case's files.

        Last comes what the program says of its output as a card, if the case has a verdict.
        """
        for name, text in self.files.items():
            write(f"{room}/{name}", text)
        locale = {"LANG": self.values.get("locale", "C")}
        answer = run(program, *self.words, given=self.values["in"], folder=room, environment=locale)
        if "verdict" not in self.values:
            return *answer, None
        write(f"{room}/card", answer[1])
        return *answer, run(program, "check", *self.words[1:], "card", folder=room)[1]

    def judge(self, program, room):
        """Counts whether the program gives the answer that is due, and answers this."""
        try:
            self.read()
            fault = fault_of(self.values, *self.answer(program, room))
        except (Wrong, KeyError, ValueError) as wrong:
            fault = f"{type(wrong).__name__} {wrong}"
        return judge(not fault, f"{self.name}: {fault}")


def fault_of(case, status, out, err, verdict):
    """What differs between the answer and the one that is due; nothing if nothing does."""
    if (err, status) != (case["err"], case.get("status", 0)):
        return f"{err!r} and status {status}, in place of {case['err']!r} and {case.get('status', 0)}"
    if verdict != case.get("verdict"):
        return f"verdict {verdict!r}, in place of {case['verdict']!r}"
    if "body" in case and case["body"] != out.partition(STYLE_END)[2]:
        return f"another page:\n{out.partition(STYLE_END)[2]}"
    for told in case.get("has", []):
        text, times = told if isinstance(told, list) else (told, None)
        if text not in out or times not in (None, out.count(text)):
            return f"{text!r} {out.count(text)} times in {out!r}, in place of {times or 'once or more'}"
    for text in case.get("lacks", []):
        if text in out:
            return f"{text!r} in {out!r}"
    rest = out
    for text in case.get("turn", []):
        _, found, rest = rest.partition(text)
        if not found:
            return f"no {text!r} in its turn in {out!r}"
    if not {"body", "has", "lacks", "turn"} & case.keys() and out != case["out"]:
        return f"{out!r}, in place of {case['out']!r}"
    return ""


def cases(word="", what=""):
    """The cases of each file whose name has `word`, in groups whose `what` has this text."""
    for name in sorted(os.listdir(CASES)):
        if word in name:
            told = tomllib.loads(read(f"{CASES}/{name}"))
            for group in told["group"]:
                if what in group["what"]:
                    for words, values in product(group.get("runs", [group.get("run", [])]), group["cases"]):
                        yield Case(name, told, group, words, values)
