"""Looks at how documents read: sentences that begin with 'Of', 'By', 'That' or 'What' and aren't questions, and the words of private_words.txt.

Code is left out: blocks that are indented by four, what is in backquotes, and the requests of the manual page.
"""

import pathlib
import re

HERE = pathlib.Path(__file__).resolve().parent
# Documents that aren't looked at yet. Take the pages of calls out once they are generated from the sources, and the crates' notes once all are written.
NOT_YET = re.compile(r"$^")
ENDS = re.compile(r"(?<=[.?!])[)\"'*]*\s+")
BEGINS = re.compile(r"[\W_]*(?:Of|By|That|What)\b")


def words():
    """Each pattern, what to write in its place, and the documents that may have it."""
    for line in (HERE / "private_words.txt").read_text().splitlines():
        if line and not line.startswith("#"):
            pattern, rest = re.split(r" {2,}", line, maxsplit=1)
            instead, _, allowed = rest.partition(" | ")
            yield re.compile(pattern, re.I), instead.strip(), allowed.split()


def parts(document, text):
    """The paragraphs, points, headings and cells of a document without its code, each with its first line's number, and whether it has sentences."""
    lines = text.splitlines()
    if document.startswith("man/"):
        lines = ["" if line.startswith(".") else re.sub(r"\\f.|\\&", "", line) for line in lines]
    found = []
    for number, line in enumerate(lines, 1):
        line = "" if line.startswith("    ") else re.sub(r"`[^`]*`", "`x`", line)
        if line.startswith("|"):
            is_head = lines[number].startswith("|--") if number < len(lines) else False
            found += [(number, cell, not is_head) for cell in line.split("|")] + [(number, "", False)]
        elif line.startswith("#"):
            found += [(number, line, False), (number, "", False)]
        elif line and found and found[-1][1] and not re.match(r"- |\d+\. ", line):
            found[-1] = (found[-1][0], f"{found[-1][1]} {line.strip()}", True)
        else:
            found.append((number, re.sub(r"^(- |\d+\. )", "", line), True))
    return found


def stilted(document, text):
    """What is to be written anew in a document, each with its line."""
    listed = list(words())
    for number, part, has_sentences in parts(document, text):
        part = re.sub(r"`[^`]*`", "`x`", part)
        for sentence in ENDS.split(part) if has_sentences else ():
            if BEGINS.match(sentence) and not sentence.rstrip(" *").endswith("?"):
                yield f"{document}:{number}: begins a sentence so: {sentence[:50]}"
        for pattern, instead, allowed in listed:
            for match in pattern.finditer(part) if document not in allowed else ():
                yield f"{document}:{number}: has '{match[0]}' in '{part[max(0, match.start() - 15) : match.end() + 15]}'; write: {instead}"
