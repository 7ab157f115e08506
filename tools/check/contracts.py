"""Shared by trust.py and figures.py: reads the contracts of crates/*/src. These are the clauses of public functions and laws,
the ghost members of public traits and of their implementations, and what the values of public types are in clauses (`Value` and
`view` of a `Model`)."""
import pathlib
import re
from collections import namedtuple

# A clause: its file, the name of its function or member, its text, and the `ghost use` lines that apply to it.
Clause = namedtuple("Clause", "file what text imports")

BLOCK = re.compile(r"^(?P<pub>pub )?(?P<kind>impl|trait)\b(?P<head>[^{]*)\{", re.M)
FUNCTION = re.compile(r"^(?P<indent> *)(?P<pub>pub(?:\([^)]*\))? )?(?:const )?fn (?P<name>\w+)", re.M)
CLAUSE = re.compile(r"\b(?:requires|ensures)(?: \w+)?\s*$")
TYPE = re.compile(r"^(?P<pub>pub )?(?:struct|enum) (?P<name>\w+)", re.M)
DECLARED = re.compile(r"^pub (?:struct|enum|trait|(?:const )?fn|const|type) (\w+)", re.M)
PASSED_ON = re.compile(r"^pub use (dv_\w+)::(?:\{([^}]*)\}|(\w+));", re.M)
MEMBER = re.compile(r"^ +ghost (?P<name>\w+)\s*[=:]\s*", re.M)
# Ghost members of an implementation that are proofs, or invariants; the others say what something means.
SERVES_PROOFS = {"coded", "even", "empty", "exact", "from_gives", "invariant", "is_clone", "laws", "matches_eq", "matches_partial_cmp",
                 "next_gives", "ordered", "positioned", "single", "size", "size_decreases", "sound", "total"}


def partner(text, at):
    """The place of the bracket that closes the one at a place."""
    depth = 0
    for place in range(at, len(text)):
        if text[place] in "([{":
            depth += 1
        elif text[place] in ")]}":
            depth -= 1
            if depth == 0:
                return place
    return len(text) - 1


def plain(text):
    """A source without its comments, texts and characters, each line where it was."""
    text = re.sub(r'"(?:\\.|[^"\\])*"|b?\'(?:\\.|[^\'\\\n])\'', '""', text)
    return re.sub(r"//[^\n]*", "", text)


def clauses_behind(text, at):
    """The clauses of the function whose name ends at a place."""
    found, start = [], at
    while True:
        place = next((it for it in range(start, len(text)) if text[it] in "([{;"), len(text))
        if place == len(text) or text[place] == ";":
            return found
        close = partner(text, place)
        if text[place] == "{":
            if not CLAUSE.search(text, start, place):
                return found
            found.append(text[place + 1:close])
        start = close + 1


class Source:
    """A file of code."""

    def __init__(self, path, module):
        self.path, self.module = path, module
        self.text = plain(path.read_text())
        self.blocks = []
        for match in BLOCK.finditer(self.text):
            self.blocks.append((match, match.end() - 1, partner(self.text, match.end() - 1)))

    def block_of(self, at):
        return next((block for block in self.blocks if block[1] < at < block[2]), None)

    def imports(self, block):
        """The `ghost use` lines at the top of the file, and those of a block."""
        found = []
        for match in re.finditer(r"^ *ghost use [^;]*;", self.text, re.M):
            around = self.block_of(match.start())
            if around is None or around == block:
                found.append(match[0].strip())
        return "\n".join(found)


class Crate:
    """The contracts of a crate: of all that its root passes on, or of these names alone."""

    def __init__(self, root, name, names=None):
        self.name, self.folder = name, pathlib.Path(root, "crates", name, "src")
        self.sources = {}
        top = next(it for it in (self.folder / "lib.rt", self.folder / "main.rt") if it.is_file())
        for path in sorted(self.folder.rglob("*.rt")):
            module = "" if path == top else "::".join(path.relative_to(self.folder).with_suffix("").parts)
            if "tests" not in module.split("::"):
                self.sources[module] = Source(path, module)
        exported = self._exported()
        self.exported = exported if names is None else {(module, name) for module, name in exported if name in names}

    def _exported(self):
        """(module, name) of what the root passes on, with all that a public module has."""
        found, text = set(), self.sources[""].text
        for path, names in re.findall(r"^pub use ([\w:]+?)::(?:\{([^}]*)\}|(?=\w+;))", text, re.M):
            for name in names.split(","):
                found.add((path.removeprefix("crate::"), name.split(" as ")[0].strip()))
        for path in re.findall(r"^pub use ([\w:]+);", text, re.M):
            head, _, name = path.removeprefix("crate::").rpartition("::")
            found.add((head, name))
        public = {"", *re.findall(r"^pub mod (\w+);", text, re.M)}
        for module, source in self.sources.items():
            if module.split("::")[0] in public:
                found.update((module, name) for name in DECLARED.findall(source.text))
        return found

    def passed_on(self):
        """The names of other crates that the root passes on: {crate: names}."""
        found = {}
        for crate, names, name in PASSED_ON.findall(self.sources[""].text):
            found.setdefault(crate, set()).update(one.strip() for one in (names or name).split(","))
        return found

    def is_exported(self, module, name):
        return (module, name) in self.exported

    def is_type_exported(self, name):
        return any(it == name for _, it in self.exported)

    def types_seen(self):
        """The exported types, and those that they are made of."""
        bodies = {}
        for source in self.sources.values():
            for match in TYPE.finditer(source.text):
                at = next((it for it in range(match.end(), len(source.text)) if source.text[it] in "{(;"), len(source.text) - 1)
                bodies[match["name"]] = source.text[at:partner(source.text, at) + 1] if source.text[at] != ";" else ""
        seen, left = set(), [name for name in bodies if self.is_type_exported(name)]
        while left:
            name = left.pop()
            if name not in seen:
                seen.add(name)
                left += [word for word in re.findall(r"\w+", bodies[name]) if word in bodies]
        return seen

    def clauses(self):
        """Each clause that has to be believed."""
        seen = self.types_seen()
        for module, source in self.sources.items():
            for match in FUNCTION.finditer(source.text):
                block = source.block_of(match.start())
                if match["indent"] and not block:
                    continue
                if self._is_public(module, match, block):
                    for clause in clauses_behind(source.text, match.end()):
                        yield Clause(source.path, match["name"], clause, source.imports(block))
            for block in source.blocks:
                yield from self._members(source, block, seen)

    def _is_public(self, module, function, block):
        is_public = function["pub"] == "pub "
        if block is None:
            return is_public and self.is_exported(module, function["name"])
        head = block[0]["head"]
        if block[0]["kind"] == "trait":
            return bool(block[0]["pub"]) and self.is_type_exported(re.match(r"\s*(\w+)", head)[1])
        of = head.split(" for ")[-1]
        name = re.search(r"(\w+)(?:<[^{]*)?\s*$", re.sub(r"^<[^>]*>", "", of.split(" where ")[0].strip()))
        return (is_public or " for " in head) and bool(name) and self.is_type_exported(name[1])

    def _members(self, source, block, seen):
        """The ghost members of a block that say what something means."""
        match, start, end = block
        head = match["head"]
        if match["kind"] == "trait":
            if not (match["pub"] and self.is_type_exported(re.match(r"\s*(\w+)", head)[1])):
                return
            serves = set()
        else:
            name = re.match(r"\s*(\w+)", head.partition(" for ")[2])
            if not (name and name[1] in seen):
                return
            serves = SERVES_PROOFS
        for member in MEMBER.finditer(source.text, start, end):
            if member["name"] not in serves and source.text[member.end()] == "{":
                text = source.text[member.end():partner(source.text, member.end()) + 1]
                yield Clause(source.path, member["name"], text, source.imports(block))
