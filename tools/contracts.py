"""The functions of the crates with their contracts, as the tools beside this file read them."""
import re
from dataclasses import dataclass
from pathlib import Path

HEAD = re.compile(
    r'(?P<public>\bpub(?:\([^)]*\))?\s+)?(?P<kind>(?:\b(?:const|unsafe|extern(?:\s+"[^"]*")?)\s+)*)'
    r"\bfn\s+(?P<name>\w+)\s*(?P<kinds><(?:[^<>()]|\([^()]*\)|(?<=-)>|<[^<>]*>)*>)?\s*\("
)
CLAUSE = re.compile(r"^\s*(?P<kind>requires|ensures)\b(?P<text>.*?)(?=^\s*(?:requires|ensures)\b|\Z)", re.M | re.S)
FORM = re.compile(r"(?P<about>\w*) ?\{ (?P<said>.*) \}")
IMPLEMENTED = re.compile(
    r"^(?P<space> *)(?:unsafe +)?impl\b(?:<(?:[^<>]|(?<=-)>|<[^<>]*>)*>)?\s+(?P<trait>[\w:]+)(?P<of>(?:<[^{}]*?>)?)\s+for\s+(?P<kind>[^{}]*?)"
    r"(?:\s+where\b[^{}]*)?\s*\{(?:\}|\n(?P<body>.*?)^(?P=space)\})", re.M | re.S
)
GHOST = re.compile(r"\bghost\s+(?P<name>\w+)\s*=\s*\{(?P<said>[^;]*)\}\s*;")
RESULT = "result"  # what a clause calls the answer


@dataclass
class Function:
    path: Path
    line: int
    name: str
    public: bool  # to other crates, or to the other files of its own
    exported: bool
    closures: list  # those of its type parameters that are a closure's
    parameters: str
    answer: str  # its type, or nothing
    requires: list
    ensures: list

    @property
    def crate(self):
        return crate_of(self.path)

    @property
    def kind(self):
        return self.answer


def crate_of(path):
    return path.parts[path.parts.index("src") - 1]


def without_comments(text, begin="//"):
    """The text with blanks for its comments, so that places stay."""
    return re.sub(rf"(?<!\S){re.escape(begin)}[^\n]*", lambda found: " " * len(found[0]), text)


def closing(text, at):
    """Where the bracket that opens at `at` is closed."""
    depth = 0
    for place in range(at, len(text)):
        depth += {"(": 1, ")": -1}.get(text[place], 0)
        if depth == 0:
            return place
    raise ValueError("a bracket is not closed")


def promised(text, closes):
    """What stands between a function's parameters and its body, or the end of a trait's declaration."""
    brace = text.find("{", closes)
    body = re.compile(r"^ *\{", re.M).search(text, closes)
    ends = body.start() if body and "\n" in text[closes:brace] else brace
    declared = re.compile(r";[ \t]*$", re.M).search(text, closes, ends)
    return text[closes + 1 : declared.start() if declared else ends]


def functions_in(path):
    text = without_comments(path.read_text())
    for found in HEAD.finditer(text):
        closes = closing(text, found.end() - 1)
        said = promised(text, closes)
        clauses = [(clause["kind"], " ".join(clause["text"].split())) for clause in CLAUSE.finditer(said)]
        yield Function(
            path=path,
            line=text.count("\n", 0, found.start()) + 1,
            name=found["name"],
            public=bool(found["public"]),
            exported="extern" in found["kind"],
            closures=re.findall(r"(\w+): Fn(?:Mut|Once)?\(", found["kinds"] or ""),
            parameters=text[found.end() : closes],
            answer=" ".join(said[: CLAUSE.search(said).start() if clauses else None].replace("->", "").split()),
            requires=[words for kind, words in clauses if kind == "requires"],
            ensures=[words for kind, words in clauses if kind == "ensures"],
        )


@dataclass
class Implementation:
    path: Path
    line: int
    trait: str  # its name alone
    words: str  # what is implemented for which type
    kind: str  # that type
    laws: dict  # what it gives for each ghost member

    @property
    def crate(self):
        return crate_of(self.path)


def implementations_in(path):
    """The traits that a file implements for types."""
    text = without_comments(path.read_text())
    for found in IMPLEMENTED.finditer(text):
        yield Implementation(
            path=path,
            line=text.count("\n", 0, found.start()) + 1,
            trait=found["trait"].rpartition("::")[2],
            words=f"{found['trait']}{found['of']} for {found['kind']}",
            kind=found["kind"],
            laws={law["name"]: " ".join(law["said"].split()) for law in GHOST.finditer(found["body"] or "")},
        )


def sources(crates):
    return sorted(crates.glob("*/src/**/*.rt"))


def functions(crates):
    return [function for path in sources(crates) for function in functions_in(path)]


def implementations(crates):
    return [implementation for path in sources(crates) for implementation in implementations_in(path)]
