"""Which definitions of specs/ a text cites, and which ones those cite in turn, in the repository where the script stands."""
import glob
import os
import re

import shared

DEFINED = re.compile(r"(?m)^(?:  (?=abbrev|unfoldable|record|data|pub record|pub data))?(?:(?:abbrev|unfoldable|pub|record|data) )+(\S+)(?= [:({])")


def read(path):
    return shared.read(os.path.abspath(path))


def definition_files():
    """The files of definitions, each with the module that it is."""
    paths = [path for path in sorted(glob.glob("crates/*/specs/**/*.antt", recursive=True)) if not path.endswith("/Lib.antt")]
    return {path: f"Rattle.{path.split('/')[1]}.specs.{path.split('/specs/')[1][:-5].replace('/', '.')}" for path in paths}


def definitions_in(text):
    """The definitions of a text: each name, with what stands from there up to the next."""
    found = list(DEFINED.finditer(text))
    for one, after in zip(found, [*found[1:], None]):
        yield one[1], text[one.start():after.start() if after else None]


def imported(text):
    """What the `use` lines of a text bring in: each name, with the path of what it names."""
    found = {}

    def walk(prefix, body):
        for part in re.findall(r"[^,{}]+(?:\{(?:[^{}]|\{[^{}]*\})*\})?", body):
            head, _, group = part.strip().partition("{")
            head = head.strip().strip(".")
            if group:
                walk(f"{prefix}.{head}", group.rsplit("}", 1)[0])
            elif head:
                path, _, alias = head.partition(" as ")
                found[alias or path.split(".")[-1]] = f"{prefix}.{path}".strip(".")

    for line in re.findall(r"(?m)^\s*(?:(?:pub|ghost|unfoldable) )*use (Rattle\.[^\n;]*)", text):
        walk("", line.split(" -- ")[0])
    return found


def cited(text, names, here, all_names):
    """The definitions that a text cites, by the names that its file has, or that stand in its module."""
    words = set(re.findall(r"[^\s(){}\[\],;]+", text))
    words |= {part for word in words for part in (word.split(".")[0], word.rsplit(".", 1)[-1])}
    if "do" in words:
        words |= {">>=", ">>"}
    words |= {f"◌{word}◌" for word in words}
    dotted = {f"{names[first]}.{last}" for first, last in re.findall(r"\b(\w+)\.([\w'-]+)", text) if first in names}
    return {path for path in dotted | {names.get(word, f"{here}.{word}") for word in words} | {f"{here}.{word}" for word in words} if path in all_names}


def citations(texts):
    """What each definition cites, where `texts` has the file and the text of each definition by its full name."""
    files = definition_files()
    names = {path: imported(read(path)) for path in files}
    return {name: cited(re.sub(r"(?m)^ *--.*", "", text), names[path], files[path], texts) - {name} for name, (path, text) in texts.items()}


def reach(graph, roots):
    """What the definitions cite, and what is cited there, and so on."""
    seen, left = set(), set(roots)
    while left:
        seen |= left
        left = set().union(*(graph[name] for name in left)) - seen
    return seen
