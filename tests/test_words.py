"""Each name of the definitions means one thing, and each lemma is stated once.

A name that the definitions (`specs`) have more than once, is listed by the table in docs/DECISIONS.md for exactly the crates that have
it. A statement of two arguments or more that `proofs` have more than once, under whatever names, is named by the section of that table.
How bound variables are named makes no difference, and the parameters of a module are arguments of its lemmas.
"""

import re
from typing import NamedTuple

from harness import ROOT

PAGE = "docs/DECISIONS.md"
SECTION = "\n## Definitions and lemmas in several crates\n"
LEAST_ARGUMENTS = 2  # of a lemma that is to stand once

HEAD = re.compile(r"((?:(?:pub|abbrev|unfoldable|record|data) )*)(\S+) (: )?(.*)")
MODULE = re.compile(r"module _ ?(.*) where")
BETWEEN_BINDERS = re.compile(r"(?<=[)}]) (?=[({][^(){}\[\]:;,.]+ : )")
BOUND = re.compile(r"[({]([^(){}\[\]:;,.]+) : |λ ([^(){}\[\]:;,.]+)\.")
TOKEN = re.compile(r"[(){}\[\];,.]|[^\s(){}\[\];,.]+")
QUOTED = re.compile(r"`([^`]+)`")


class Declaration(NamedTuple):
    crate: str
    place: str
    kinds: frozenset  # the words before the name
    name: str
    type: str  # as it is outside of modules


def texts(lines):
    """Each line with those below that are indented further, up to one that ends with `where`, as [number, indent, text]; no comments."""
    found = []
    for number, line in enumerate(lines, 1):
        text = line.strip()
        indent = len(line) - len(line.lstrip())
        if not text or text.startswith("--"):
            continue
        if found and indent > found[-1][1] and not found[-1][2].endswith(" where"):
            found[-1][2] += f" {text}"
        else:
            found.append([number, indent, text])
    return found


def declarations(folder):
    """The records, data types and signatures in this folder of each crate. What a module has is indented by two columns more than the module."""
    for path in sorted(ROOT.glob(f"crates/*/{folder}/**/*.antt")):
        name = path.relative_to(ROOT)
        modules = []
        for number, indent, text in texts(path.read_text().splitlines()):
            del modules[indent // 2 :]
            if indent != 2 * len(modules):
                continue
            module, head = MODULE.fullmatch(text), HEAD.fullmatch(text)
            if module:
                modules.append(f"{module[1]} → " if module[1] else "")
            elif head:
                kinds = frozenset(head[1].split())
                if kinds & {"record", "data"} or head[3]:
                    yield Declaration(name.parts[1], f"{name}:{number}", kinds, head[2], "".join(modules) + head[4])


def statement(text):
    """The tokens of a type, in which an arrow follows each binder, and each bound name is a number, by where it is bound first."""
    text = BETWEEN_BINDERS.sub(" → ", text)
    bound = " ".join(found[1] or found[2] for found in BOUND.finditer(text)).split()
    numbers = {name: f"#{number}" for number, name in enumerate(dict.fromkeys(bound))}
    is_field = {found.end() for found in re.finditer(r"\.", text)}
    return tuple(found[0] if found.start() in is_field else numbers.get(found[0], found[0]) for found in TOKEN.finditer(text))


def parts(tokens):
    """How many arguments a statement has, and its conclusion."""
    depth = opened = names = arguments = behind = 0
    for at, token in enumerate(tokens):
        if token in ("(", "{", "["):
            if depth == 0:
                opened = at
            depth += 1
        elif token in (")", "}", "]"):
            depth -= 1
        elif token == ":" and depth == 1:
            names += at - opened - 1
        elif token == "→" and depth == 0:
            arguments += max(names, 1)
            names, behind = 0, at + 1
    return arguments, tokens[behind:]


def is_lemma(tokens):
    """Whether a signature says something of its arguments, or that they cannot be; else it is of a value. A goal is one function's own."""
    arguments, conclusion = parts(tokens)
    says = conclusion == ("⊥",) or any(token.startswith("#") for token in conclusion)
    return arguments >= LEAST_ARGUMENTS and says and "goal" not in tokens


def section():
    """The crates of each word that the page lists in its table, and what its section names outside of that."""
    text = (ROOT / PAGE).read_text().partition(SECTION)[2].partition("\n## ")[0]
    listed, named = {}, set()
    for line in text.splitlines():
        if line.startswith("|"):
            words, crates = map(QUOTED.findall, line.split("|")[1:3])
            for word in words:
                listed.setdefault(word, set()).update(crates)
        else:
            named.update(QUOTED.findall(line))
    return listed, named


def faults_of_words(listed):
    crates = {}
    for it in declarations("specs"):
        crates.setdefault(it.name.strip("◌"), []).append(it.crate)
    for word in sorted({*crates, *listed}):
        defined, told = sorted(crates.get(word, [])), sorted(listed.get(word, []))
        if told != defined if len(defined) > 1 else word in listed:
            yield f"`{word}` is defined in {', '.join(defined) or 'none'}, and {PAGE} lists it for {', '.join(told) or 'none'}"


def faults_of_lemmas(named):
    lemmas = {}
    for it in declarations("proofs"):
        tokens = statement(it.type)
        if it.kinds <= {"pub"} and it.name not in named and is_lemma(tokens):
            lemmas.setdefault(tokens, []).append(it)
    for same in lemmas.values():
        if len(same) > 1:
            yield "one statement stands as " + ", ".join(f"`{it.name}` ({it.place})" for it in same)


def test_words_are_defined_once():
    assert list(faults_of_words(section()[0])) == []


def test_lemmas_are_stated_once():
    assert list(faults_of_lemmas(section()[1])) == []
