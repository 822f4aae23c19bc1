"""The public calls of the crates as their sources have them: signature, comment and contract. tests/calls writes its pages from them.

A call is a `pub fn` in an `impl` of a public type, a `fn` of a public trait, or a `pub fn` that a crate exports. Its comment is its `///` lines,
which may have the sections `# Arguments` and `# Errors`.
"""

import dataclasses
import functools
import pathlib
import re
import textwrap

TOP = pathlib.Path(__file__).resolve().parent.parent

# These calls list a bucket, and so may allocate, although their signatures don't show it.
LISTING = {"Domain::put_plain", "Domain::put_loose", "Domain::put_sealed"}

# These calls never allocate, although other calls with the same type of refusal may.
NEVER = {"Pool::reader", "Local::read", "Reader::read", "DirectoryLocal::look"}

FN = re.compile(r"^( *)(pub )?fn (\w+)", re.M)
COMMENT = re.compile(r"((?:^ *///.*\n)+)(?:^ *#\[.*\n)*\Z", re.M)
CLAUSE = re.compile(r"\s*(requires|ensures)\*? *(\w+ *)?\{")
NUMBER = re.compile(r"\b(?:[ui](?:8|16|32|64|128|size)|bool)\b")


@dataclasses.dataclass(frozen=True)
class Clause:
    """One clause of a contract. One without a name is known by the record that it names, and by the file of that."""

    kind: str
    name: str
    record: str
    file: str
    text: str


@dataclasses.dataclass(frozen=True)
class Call:
    """One public call: its name, file below crates/, signature, sections of its comment, and clauses."""

    name: str
    file: str
    signature: str
    sections: dict
    clauses: tuple

    @property
    def line(self):
        return squeezed(self.signature)

    @property
    def result(self):
        return self.line.rpartition(") -> ")[2] if ") -> " in self.line else ""

    @property
    def is_law(self):
        return self.name.rpartition("::")[0].endswith("laws")

    @property
    def blocks(self):
        """Whether it may block: its runtime has the bound Wait then."""
        return bool(re.search(r"\bWait\b", self.line))

    @property
    def allocates(self):
        """Whether it may allocate: it has the argument `alloc`, or may return that an allocation failed."""
        return "alloc: Global" in self.line or may_return_memory(self.result) and self.name not in NEVER or self.name in LISTING

    @property
    def numbers(self):
        """The arguments that are numbers, or have some: their units and ranges are to be described."""
        return [name for name, kind in arguments(self.line) if NUMBER.search(kind)]


def squeezed(signature):
    """The signature on one line: where it is broken into lines means nothing."""
    line = re.sub(r"\s+", " ", signature).strip()
    return re.sub(r",? \)", ")", re.sub(r"\( ", "(", line))


def arguments(line):
    """The arguments of a signature that is on one line, each with its type."""
    start = re.match(r"fn \w+(?:<.*?>)?\(", line).end()
    depth, part, parts = 1, "", []
    for before, letter in zip(line[start - 1 :], line[start:]):
        depth += (letter in "(<[") - (letter in ")]" or letter == ">" and before != "-")
        if depth == 0:
            break
        if letter == "," and depth == 1:
            parts, part = [*parts, part], ""
        else:
            part += letter
    pairs = [part.partition(":") for part in [*parts, part]]
    return [(name.strip().lstrip("_"), kind.strip()) for name, colon, kind in pairs if colon]


@functools.cache
def text_of(file):
    """A source without its comments, but with those of calls."""
    return re.sub(r"^ *//(?!/).*\n", "", file.read_text(), flags=re.M)


def sections_of(comment):
    """The sections of a `///` comment by their titles. What is above all titles has the title ''."""
    lines = [re.sub(r"^ */// ?", "", line) for line in comment.splitlines()]
    parts = re.split(r"^# (\w+)\n", "\n".join([*lines, ""]), flags=re.M)
    return {title: text.strip("\n") for title, text in zip(["", *parts[1::2]], parts[::2])}


def records_in(text):
    """The records that a file imports from definitions of this repository, each with the file that defines it."""
    found = {}
    for crate, path, names in re.findall(r"ghost use Rattle\.(\w+)\.specs\.([\w.]+)\.\{([^}]*)\}", text):
        file = f"{crate}/specs/{path.replace('.', '/')}"
        if (TOP / f"crates/{file}.antt").exists():
            found.update(dict.fromkeys(re.findall(r"[\w]+", names), file))
    return found


def clauses_in(text, start, records):
    """The clauses that follow a signature, which ends at `start`."""
    while at := CLAUSE.match(text, start):
        depth, start = 1, at.end()
        while depth:
            depth += {"{": 1, "}": -1}.get(text[start], 0)
            start += 1
        body = re.sub(r"\s+", " ", text[at.end() : start - 1]).strip()
        record = next((word for word in re.findall(r"\w+", body) if word[0].isupper() and word in records), "")
        yield Clause(at[1], (at[2] or "").strip(), record, records.get(record, ""), body)


def functions(file):
    """Each function of a file: what it is in, whether it is marked as public, its name, signature, comment and clauses."""
    text = text_of(file)
    records = records_in(text)
    blocks = [(at.start(), at[0]) for at in re.finditer(r"^(?:pub )?(?:impl|trait|struct|enum)\b[^{;]*", text, re.M)]
    for start in FN.finditer(text):
        end = re.compile(r"\s*^ *(?:requires|ensures)\b|\s*\{|;$", re.M).search(text, start.end())
        signature = textwrap.dedent(text[start.start() : end.start()]).replace("pub fn", "fn", 1)
        comment = COMMENT.search(text, 0, start.start())
        inside = [head for at, head in blocks if at < start.start()][-1:] if start[1] else []
        clauses = tuple(clauses_in(text, end.start(), records))
        yield (inside[0] if inside else ""), bool(start[2]), start[3], signature, comment[1] if comment else "", clauses


def exported(crate):
    """The names that a crate exports, and its public modules."""
    root = (TOP / f"crates/{crate}/src/lib.rt").read_text()
    names = re.findall(r"\w+", " ".join(re.findall(r"^pub use [^;{]*?::(\{[^;]*\}|\w+);", root, re.M | re.S)))
    return set(names), set(re.findall(r"^pub mod (\w+);", root, re.M))


def bare(head):
    """The head of an `impl` without what is in angle brackets."""
    while "<" in head:
        head = re.sub(r"<[^<>]*>", "", head)
    return head


def named(inside, public, name, module, names, modules):
    """How an entry names a function, or None where it is no public call."""
    if inside.startswith("impl"):
        of = bare(inside).removeprefix("impl").split()
        return f"{of[0]}::{name}" if public and "for" not in of and of[0] in names else None
    if inside.startswith("pub trait"):
        of = re.match(r"pub trait (\w+)", inside)[1]
        return f"{of}::{name}" if of in names else None
    if not public or inside:
        return None
    return f"{module}::{name}" if module in modules else name if name in names else None


def calls_of(crate, types):
    """The public calls of a crate, or of some of its types, by name. The calls of one type are together."""
    names, modules = exported(crate)
    found = {}
    for file in sorted((TOP / f"crates/{crate}/src").rglob("*.rt")):
        if any(part in ("tests", "tests.rt") for part in file.relative_to(TOP).parts[3:]):
            continue
        for inside, public, name, signature, comment, clauses in functions(file):
            call = named(inside, public, name, file.stem, names, modules)
            if call and (types is None or call.split("::")[0] in types):
                found[call] = Call(call, str(file.relative_to(TOP / "crates")), signature, sections_of(comment), clauses)
    order = [call.rpartition("::")[0] for call in found]
    return dict(sorted(found.items(), key=lambda pair: order.index(pair[0].rpartition("::")[0])))


@functools.cache
def memory_types():
    """The types by which a call may return that an allocation failed: Memory, and the enums that have such a variant."""
    texts = [text_of(file) for file in sorted((TOP / "crates").glob("*/src/**/*.rt"))]
    enums = [at.groups() for text in texts for at in re.finditer(r"^pub enum (\w+)[^{]*\{(.*?)^\}", text, re.M | re.S)]
    return {"Memory", *(name for name, variants in enums if re.search(r"\bMemory\b", re.sub(r"^ *///.*$", "", variants, flags=re.M)))}


def may_return_memory(result):
    return not memory_types().isdisjoint(re.findall(r"\w+", result))


def summary(crate):
    """The first paragraph of a crate's head."""
    head = re.match(r"(?://!.*\n)+", (TOP / f"crates/{crate}/src/lib.rt").read_text())
    lines = [line.removeprefix("//!").strip() for line in head[0].splitlines()] if head else []
    return "\n".join(lines).split("\n\n")[0]
