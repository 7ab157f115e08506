#!/usr/bin/python3
"""Counts the phrases that the documents avoid, because each has a plainer name, such as returns for `tells` and again for `anew`.

Prints for each document how often each phrase is in its text, with sums. Code font and code blocks are not counted: they are
for words that formats, commands and replies fix. docs/GLOSSARY.md has the names that are used.

    tools/check/words.py                    README.md, CONTRIBUTING.md, docs/*.md and bench/README.md
    tools/check/words.py FILE ..            these
    tools/check/words.py --sources          the comments of each crate
    tools/check/words.py --lines ..         also each line that has one
"""
import argparse
import pathlib
import re

ROOT = pathlib.Path(__file__).resolve().parent.parent.parent
DOCUMENTS = ["README.md", "CONTRIBUTING.md", "docs/*.md", "bench/README.md"]
SOURCES = ["crates/*/*/**/*.rt", "crates/*/*/**/*.antt"]
COMMENTS = {".rt": re.compile(r"(?:^|\s)//[/!]?(.*)"), ".antt": re.compile(r"(?:^|\s)--(.*)")}

# For the head of each column, the pattern that finds its phrases.
PHRASES = {
    "tell": r"(?:un)?(?:tells?|told)|telling",
    "stand": r"stands?|stood|standing",
    "behind": r"behind",
    "memory": r"wants? of memory|lack of memory|want(?:s|ing)? (?:\w+ ){0,2}memory|memory (?:\w+ )?(?:be )?(?:never )?wanting|f(?:inds?|ound) no memory",
    "anew": r"anew",
    "be it": r"be it|be the \w+ (?:new )?or",
    "but for": r"but for",
    "reason": r"for which reason|no matter",
    "from .. on": r"from (?:[\w.,]+ ){1,6}on(?= *[,.;:)|]|$)",
    "hand on": r"hand(?:s|ed|ing)? (?:\w+ ){0,3}on\b(?! the| a)",
    "aside": r"aside",
}
CODE = re.compile(r"(?ms)^```.*?^```|`[^`\n]*`|^ {4}[^\n]*|\]\([^)\n]*\)")
FOUND = {name: re.compile(r"(?i)\b(?:%s)\b" % phrase) for name, phrase in PHRASES.items()}


def blanked(found):
    """As many lines as a match has, without what is in them."""
    return "\n" * found[0].count("\n") + "`"


def comment_in(line, comment):
    """The comment at the end of a line of a source, or an empty text."""
    found = comment.search(line)
    return found[1] if found else ""


def text_of(path):
    """The text of a document, or the comments of a source, without code and the targets of links."""
    text, comment = path.read_text(encoding="utf-8"), COMMENTS.get(path.suffix)
    if comment:
        text = "\n".join(comment_in(line, comment) for line in text.split("\n"))
    return CODE.sub(blanked, text)


def counts_of(text):
    return [len(found.findall(text)) for found in FOUND.values()]


def lines_of(path, text):
    """The lines with a phrase, each with its place and the phrases."""
    for number, line in enumerate(text.split("\n"), 1):
        for found in FOUND.values():
            for one in found.finditer(line):
                yield "%s:%d: %s: %s" % (path, number, one[0], line[max(0, one.start() - 40):one.end() + 40].strip())


def named(path):
    """A path as it is printed: relative to the repository if it is in there."""
    path = path.resolve()
    return str(path.relative_to(ROOT)) if path.is_relative_to(ROOT) else str(path)


def row_of(path):
    """The name of the row that counts a file: the crate of a source, otherwise the file."""
    name = named(path)
    return "/".join(name.split("/")[:2]) if path.suffix in COMMENTS and name.startswith("crates/") else name


def main():
    options = argparse.ArgumentParser(description=__doc__, formatter_class=argparse.RawDescriptionHelpFormatter)
    options.add_argument("files", nargs="*", metavar="FILE", type=pathlib.Path)
    options.add_argument("--sources", action="store_true", help="the comments of each crate in place of the documents")
    options.add_argument("--lines", action="store_true", help="print each line that has a phrase")
    given = options.parse_args()
    paths = given.files or [path for one in (SOURCES if given.sources else DOCUMENTS) for path in sorted(ROOT.glob(one))]
    rows, everything = {}, [0] * (1 + len(FOUND))
    for path in paths:
        text = text_of(path)
        counts = [len(text.split()), *counts_of(text)]
        rows[row_of(path)] = [sum(each) for each in zip(rows.get(row_of(path), everything), counts)]
        for line in lines_of(named(path), text) if given.lines else []:
            print(line)
    rows["all"] = [sum(each) for each in zip(everything, *rows.values())]
    widths = [max(len(name), 5) for name in FOUND]
    print("%-24s %6s  %s  %5s" % ("document", "words", "  ".join("%*s" % one for one in zip(widths, FOUND)), "sum"))
    for name, (words, *counts) in sorted(rows.items(), key=lambda row: row[0] == "all"):
        print("%-24s %6d  %s  %5d" % (name, words, "  ".join("%*d" % one for one in zip(widths, counts)), sum(counts)))


if __name__ == "__main__":
    main()
