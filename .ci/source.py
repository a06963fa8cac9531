"""Reads Rattle and antt: the functions, constants (statics too) and modules of a crate, and the text of an antt file without its comments.

Rattle's comments nest, and the braces of a clause (`ensures`, `requires`, `ghost`) hold antt, which has comments and texts of its own. What this
reader does not know it refuses with `Unreadable`, so that no script passes over a function that it cannot see.
"""
import functools
import glob
import os
import re
import sys
from dataclasses import dataclass, field

CODE = re.compile(
    r"""(?P<space>\s+|//[^\n]*)
      | (?P<open>/\*)
      | (?P<literal>(?:br|cr|r)(?P<raw>\#*)".*?"(?P=raw) | [bc]?"(?:[^"\\]|\\.)*" | b?'(?:\\(?:x..|u\{[^}]*\}|.)|[^'\\\n])')
      | (?P<word>'?\w+)
      | (?P<mark>::|.)""",
    re.X | re.S,
)
ANTT = re.compile(
    r"""(?P<open>\{-)
      | (?P<comment>--[^\n]*)
      | (?P<text>"(?:[^"\\]|\\.)*")
      | (?P<name>«[^»]*»|[^\s(){}.;,@"«»⟦]+)
      | (?P<mark>.)""",
    re.X | re.S,
)
CLAUSES = ("requires", "ensures", "ghost")
CLOSING = {"(": ")", "[": "]", "{": "}"}


class Unreadable(Exception):
    """The reader meets something that it does not know; the message says where."""


@dataclass
class Token:
    kind: str  # word, literal, mark, or one of CLAUSES
    text: str
    start: int
    end: int


@dataclass
class Function:
    path: str  # with its modules and its type, as the prover names it: Session::feed
    public: bool
    method: bool  # whether it stands in an `impl`
    clauses: list  # kind and text of each
    body: str  # its words, with one space between them
    span: tuple  # where it starts and ends in its file
    file: str


@dataclass
class Constant:
    path: str
    text: str
    span: tuple
    file: str


@dataclass
class Source:
    functions: list = field(default_factory=list)
    constants: list = field(default_factory=list)
    modules: list = field(default_factory=list)  # those that stand in files of their own
    rest: str = ""  # all words but those of bodies and constants: heads with their clauses, types, uses


def after_comment(text, at, opening, closing):
    """Where a comment ends that starts at a place, and may hold others."""
    depth = 0
    for found in re.compile(f"{re.escape(opening)}|{re.escape(closing)}").finditer(text, at):
        depth += 1 if found.group() == opening else -1
        if depth == 0:
            return found.end()
    raise Unreadable(f"{place(text, at)}: a comment that does not end")


def place(text, at):
    return f"line {text.count(chr(10), 0, at) + 1}"


def after_antt(text, at, closing):
    """Where a piece of antt ends: after the first closing mark outside of braces, comments, texts and brackets of code."""
    depth, start = 0, at
    while at < len(text):
        found = ANTT.match(text, at)
        at, mark = found.end(), found.group("mark")
        if found.group("open"):
            at = after_comment(text, found.start(), "{-", "-}")
        elif mark == closing and depth == 0:
            return at
        elif mark == "⟦":
            at = next((token.end for token in tokens(text, at) if token.text == "⟧"), len(text))
        elif mark in ("{", "}"):
            depth += 1 if mark == "{" else -1
    raise Unreadable(f"{place(text, start)}: antt that does not end")


def tokens(text, at=0):
    """The words, literals and marks of Rattle from a place on. A clause is one token, and so is a `ghost use`, of the kind word."""
    while at < len(text):
        found = CODE.match(text, at)
        at, kind = found.end(), found.lastgroup
        if kind == "open":
            at = after_comment(text, found.start(), "/*", "*/")
        elif found.group() in CLAUSES:
            kind, at = clause(text, found)
            yield Token(kind, text[found.start() : at], found.start(), at)
        elif kind != "space":
            yield Token(kind, found.group(), found.start(), at)


def clause(text, keyword):
    """The kind of what a keyword of CLAUSES starts, and where it ends."""
    for token in tokens(text, keyword.end()):
        if token.text == "{":
            return keyword.group(), after_antt(text, token.end, "}")
        if keyword.group() == "ghost" and token.text == "use":
            return "word", after_antt(text, token.end, ";")
        if token.kind != "word" and token.text not in ("*", ":", "="):  # ensures* { .. }, ghost name: { .. }, ghost name = { .. };
            break
    raise Unreadable(f"{place(text, keyword.start())}: `{keyword.group()}` without braces")


class Reader:
    """Reads the items of one file of Rattle."""

    def __init__(self, file, text):
        self.file, self.text, self.at, self.found = file, text, 0, Source()
        self.tokens = [*tokens(text), Token("end", "", len(text), len(text))]
        self.apart = set()  # the tokens that belong to bodies and constants
        self.method = False

    def read(self, path):
        self.items(path, "")
        self.found.rest = self.words(token for number, token in enumerate(self.tokens) if number not in self.apart)
        return self.found

    def words(self, some):
        return " ".join(" ".join(token.text.split()) if token.kind in CLAUSES else token.text for token in some if token.text)

    def now(self):
        return self.tokens[self.at]

    def next(self):
        self.at += 1
        return self.tokens[self.at - 1]

    def fail(self, what):
        raise Unreadable(f"{place(self.text, self.now().start)}: {what}: `{self.now().text}`")

    def name(self):
        if self.now().kind != "word" or self.now().text.startswith("'"):
            self.fail("a name is expected")
        return self.next().text

    def group(self):
        """Passes what stands between two brackets, with them."""
        closing = CLOSING[self.next().text]
        while self.now().text != closing or self.now().kind != "mark":
            if self.now().kind == "end" or (self.now().kind == "mark" and self.now().text in CLOSING.values()):
                self.fail(f"`{closing}` is expected")
            self.group() if self.opens() else self.next()
        self.next()

    def opens(self):
        return self.now().kind == "mark" and self.now().text in CLOSING

    def until(self, *ends):
        """Passes all up to one of some marks that stands in no bracket."""
        while self.now().kind != "mark" or self.now().text not in ends:
            if self.now().kind == "end":
                self.fail(f"{' or '.join(ends)} is expected")
            self.group() if self.opens() else self.next()

    def items(self, path, end):
        while self.now().text != end:
            self.item(path)

    def item(self, path):
        start, public = self.now().start, False
        if self.now().kind == "ghost":  # a member of a trait, or what an `impl` gives for it
            self.until(";")
            return self.next()
        if self.now().text == "#" and self.tokens[self.at + 1].text == "!":  # of the whole file
            self.until("[")
            return self.group()
        while self.now().text == "#":
            self.until("[")
            before = self.at
            self.group()
            public |= any(token.text == "no_mangle" for token in self.tokens[before : self.at])
        if self.now().text == "pub":
            self.next()
            public |= self.now().text != "("
            if self.now().text == "(":
                self.group()
        if self.now().text == "static" or self.now().text == "const" and self.tokens[self.at + 1].text not in ("fn", "extern", "unsafe"):
            return self.constant(path, start)
        while self.now().text in ("const", "unsafe", "extern") or self.now().kind == "literal":
            self.next()
        word = self.next().text if self.now().kind == "word" else self.fail("an item is expected")
        if word == "fn":
            self.function(path, start, public)
        elif word == "impl":
            self.method = True
            self.block([*path, *self.implemented()])
            self.method = False
        elif word == "trait":
            path = [*path, self.now().text]
            self.until("{")
            self.block(path)
        elif word == "mod":
            self.module(path)
        elif word in ("struct", "enum", "union"):
            self.until("{", ";", "(")
            if self.now().text == "{":
                self.group()
            else:
                self.until(";")
                self.next()
        elif word in ("use", "type"):
            self.until(";")
            self.next()
        elif not word.startswith("ghost"):
            self.at -= 1
            self.fail("an item is expected")

    def block(self, path):
        self.next()
        self.items(path, "}")
        self.next()

    def implemented(self):
        """The path of the type of an `impl`; of an `impl` of a trait the name that the prover makes of both: U32FromRefusal for `From<Refusal> for u32`."""
        before = self.at
        self.until("{")
        names, inner, trait, depth = [], [], None, 0
        for token in self.tokens[before : self.at]:
            depth += (token.text == "<") - (token.text == ">")
            if token.kind != "word" or token.text in ("crate", "self") or token.text.startswith("'"):
                continue
            if depth == 0 and token.text == "for":
                names, inner, trait = [], [], names[-1:] + inner
            elif depth == 0:
                names, inner = [*names, token.text], []
            elif names:
                inner.append(token.text)
        if trait is None:
            return names
        return ["".join(name[:1].upper() + name[1:] for name in (*names[-1:], *trait))]

    def module(self, path):
        name = self.name()
        if self.now().text == "{":
            return self.block([*path, name])
        self.found.modules.append("::".join([*path, name]))
        if self.next().text != ";":
            self.at -= 1
            self.fail("`;` or a block is expected")

    def constant(self, path, start):
        self.next()
        before, name = self.at, self.name()
        self.until(";")
        self.apart |= set(range(before, self.at))
        text = self.words(self.tokens[before : self.at])
        self.found.constants.append(Constant("::".join([*path, name]), text, (start, self.next().end), self.file))

    def function(self, path, start, public):
        name, clauses, body = self.name(), [], ""
        while self.now().text not in ("{", ";") or self.now().kind != "mark":
            if self.now().kind in CLAUSES:
                clauses.append((self.now().kind, self.now().text))
            elif self.now().kind == "end" or self.now().text in CLOSING.values():
                self.fail("the body of a function is expected")
            self.group() if self.opens() else self.next()
        if self.now().text == "{":
            before = self.at
            self.group()
            self.apart |= set(range(before, self.at))
            body = self.words(self.tokens[before : self.at])
        else:
            self.next()
        span = (start, self.tokens[self.at - 1].end)
        self.found.functions.append(Function("::".join([*path, name]), public, self.method, clauses, body, span, self.file))


def read(path):
    with open(path, encoding="utf-8") as file:
        return file.read()


def files(crate):
    """The files of Rattle of a crate, by their names in it."""
    return sorted(os.path.relpath(path, f"crates/{crate}") for path in glob.glob(f"crates/{crate}/src/**/*.rt", recursive=True))


def module_of(file):
    """The path of the module that a file of src/ is."""
    parts = file.removeprefix("src/").removesuffix(".rt").split("/")
    return parts[:-1] if parts[-1] in ("lib", "main", "mod") else parts


@functools.lru_cache(maxsize=None)
def source_of(name, text, module):
    try:
        return Reader(name, text).read([*module])
    except Unreadable as error:
        raise Unreadable(f"{name}: {error}") from None


def source(crate, edit=lambda file, text: text):
    """All of a crate, each file after an edit."""
    whole = Source()
    for file in files(crate):
        name = f"crates/{crate}/{file}"
        part = source_of(name, edit(file, read(name)), tuple(module_of(file)))
        whole.functions += part.functions
        whole.constants += part.constants
        whole.modules += part.modules
        whole.rest += f" {file}: {part.rest}"
    return whole


def without_comments(text):
    """A file of antt with blanks in the place of its comments."""
    kept, at = "", 0
    while at < len(text):
        found = ANTT.match(text, at)
        end = after_comment(text, at, "{-", "-}") if found.group("open") else found.end()
        part = text[at:end]
        kept += re.sub(r"[^\n]", " ", part) if found.group("open") or found.group("comment") else part
        at = end
    return kept


def declared(path):
    """The modules that a file of antt declares, and whether each is public."""
    return [(name, bool(public)) for public, name in re.findall(r"^(pub )?mod (\S+)[ \t]*$", without_comments(read(path)), re.M)]


def crates():
    """The crates of crates.txt, as they stand there: `NAME: DEP ..`, or `NAME staticlib: DEP ..`."""
    return [name for name, _ in uses()]


def uses():
    """The crates of crates.txt, each with those that it uses."""
    lines = [line.partition("#")[0] for line in read("crates.txt").splitlines()]
    parts = [line.partition(":") for line in lines if line.strip()]
    return [((name.split() or [""])[0], used.split()) for name, _, used in parts]


def enter():
    """Goes to the repository, or to another folder that the command names, as its scripts do."""
    os.chdir(sys.argv[1] if len(sys.argv) > 1 else os.path.dirname(os.path.dirname(os.path.abspath(__file__))))


def finish(faults, fine):
    """Ends a script: with what is wrong and status 1, or with a line that says what is right."""
    if faults:
        sys.exit("\n".join(faults))
    print(fine)
