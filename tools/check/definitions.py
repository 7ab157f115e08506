"""Shared by trust.py and figures.py: reads the files of definitions in crates/*/specs, the items in them, and which other items
each item names."""
import functools
import pathlib
import re
from collections import namedtuple

ROOT = pathlib.Path(__file__).resolve().parent.parent.parent
INNER = "Inner"
HEAD = re.compile(r"(?P<kind>(?:abbrev|unfoldable)(?: pub)?|pub record|record|pub data|data|pub|) ?(?P<name>[^\s(){}]+)\s*(?P<end>:|\(|\{|where)")
MUTUAL = re.compile(r"(?:(?:abbrev|unfoldable) )?mutual\b")
SECTION = re.compile(r"module _\b")
USE = re.compile(r"(?:pub )?use (Rattle\.[^\s;{]+?)(?:\.\{([^}]*)\})?(?: as (\S+?))?;?$")
WORD = re.compile(r"[^\s(){}\[\],;]+")

# A file of definitions: its crate and the path of its module below specs, such as `Key` or `Inner.KeyLaws`.
Module = namedtuple("Module", "crate name")


class Item:
    """A definition, a type or a lemma, with the comment above it: its names (with those in a `mutual` block and of a type's
    constructors), the names of its heads, its lines, and the words in them. A section (`module _`) is an item of items."""

    def __init__(self, kind, names, heads, first, lines, inside=()):
        self.kind, self.names, self.heads, self.first, self.lines, self.inside = kind, names, heads, first, lines, inside

    @property
    def comment(self):
        """What the lines above it say, without the titles of parts of a file."""
        found = []
        for line in self.lines:
            if not line.lstrip().startswith("--") and line.strip():
                break
            words = line.strip().removeprefix("--").strip()
            found = [] if not words or words.startswith("--") else [*found, words]
        return " ".join(found)

    @property
    def is_lemma(self):
        return self.kind == "lemma"

    @functools.cached_property
    def words(self):
        return words_of("\n".join(self.lines))


def head_of(line):
    """What a line declares, if it begins an item: a match of HEAD, or True for a section, a `mutual` block or a fixity."""
    if SECTION.match(line) or MUTUAL.match(line) or line.startswith("infix"):
        return True
    match = HEAD.match(line)
    return match if match and (match["kind"] not in ("", "pub") or match["end"] == ":") else None


def without_comments(text, mark="--"):
    return "\n".join(line.split(mark, 1)[0] if line.lstrip().startswith(mark) else re.split(r"\s%s " % re.escape(mark), line, 1)[0]
                     for line in text.split("\n"))


def words_of(text, mark="--"):
    """The words of a text without its comments. A path `a.b` counts as `a.b` and `a`; a field `.b` doesn't count."""
    found = set()
    for word in WORD.findall(without_comments(text, mark)):
        if not word.startswith("."):
            word = word.rstrip(".")
            found.update((word, word.split(".")[0]))
    return found


def spoken(name):
    """The words by which a name is written. Those of an operator are also its parts between the arguments."""
    return {name, *(part for part in name.split("◌") if part)} if "◌" in name else {name}


def use_lines(text):
    """The imports of a text: (path below Rattle, [(name there, name here)] or None for a module, name of the module here)."""
    for line in re.sub(r"\{[^}]*\}", lambda found: " ".join(found[0].split()), text).split("\n"):
        match = USE.match(line.strip().removeprefix("ghost "))
        if match:
            path, names, alias = match.groups()
            pairs = None
            if names is not None:
                pairs = [tuple((one.split(" as ") * 2)[:2]) for one in (name.strip() for name in names.split(",")) if one]
            yield path.split(".")[1:], pairs, alias or path.split(".")[-1]


def below(path):
    """For the path of a `use` line, if it leads to a crate's definitions: the crate, and the names of the module and in it."""
    if len(path) < 3 or not path[0].startswith("dv_") or path[1] != "specs" or path[2] == "declared":
        return None
    names = path[2:]
    return path[0], [".".join(names[:2]), *names[2:]] if names[0] == INNER else names


class Definitions:
    """A file of definitions."""

    def __init__(self, path, module):
        self.path, self.module = path, module
        self.text = path.read_text()
        self.lines = self.text.rstrip("\n").split("\n")
        self.items = list(self._items())

    @property
    def is_inner(self):
        return self.path.parent.name == INNER

    @property
    def heading(self):
        """The comment at the head of the file."""
        lines = []
        for line in self.lines:
            if not line.startswith("--"):
                break
            lines.append(line[2:].strip())
        return lines

    def _items(self):
        """Each item. What is above it at the same depth (comments, `unfolding` lines) belongs to it."""
        start = next((at for at, line in enumerate(self.lines) if line and not line.startswith(("--", "use ", "pub use "))), len(self.lines))
        while start > 0 and self.lines[start - 1].startswith("--"):
            start -= 1
        yield from self._items_in(start, len(self.lines), "")

    def _items_in(self, start, end, indent):
        above, at = start, start
        while at < end:
            line = self.lines[at]
            own = line[len(indent):] if line.startswith(indent) else ""
            if not own or own[0] == " " or own.startswith(("--", "unfolding ", "infix")):
                at += 1
                continue
            behind = self._end(at, end, indent)
            if SECTION.match(own):
                inside = list(self._items_in(at + 1, behind, indent + "  "))
                lemma = all(item.is_lemma for item in inside)
                yield Item("lemma" if lemma else "definition", [name for item in inside for name in item.names],
                           [name for item in inside for name in item.heads], above, self.lines[above:behind], inside)
            elif MUTUAL.match(own):
                deeper = [it[len(indent) + 2:] for it in self.lines[at + 1:behind] if it.startswith(indent + "  ") and it[len(indent) + 2:][:1] != " "]
                inside = [match for match in map(head_of, deeper) if match and match is not True]
                heads = [match["name"] for match in inside]
                names = heads + list(self._members(at + 1, behind, indent + "    "))
                kinds = {match["kind"] for match in inside}
                lemma = own.startswith("mutual") and not any("record" in kind or "data" in kind for kind in kinds)
                yield Item("lemma" if lemma else "definition", names, heads, above, self.lines[above:behind])
            else:
                match = HEAD.match(own)
                if match:
                    kind = match["kind"]
                    behind = self._with_clauses(behind, end, indent)
                    is_type = "record" in kind or "data" in kind
                    names = [match["name"], *(self._members(at + 1, behind, indent + "  ") if "data" in kind else [])]
                    what = "lemma" if kind in ("pub", "") else "type" if is_type else "definition"
                    yield Item(what, names, [match["name"]], above, self.lines[above:behind])
            above = at = behind

    def _end(self, at, end, indent):
        """The line after a head and the deeper lines below it, without the comments of the next item."""
        at += 1
        while at < end and (not self.lines[at] or self.lines[at].startswith((indent + " ", indent + "}", indent + ")"))):
            at += 1
        return at

    def _with_clauses(self, at, end, indent):
        """The line after the clauses of a declaration. They are at its own depth, and so are the `unfolding` lines before them."""
        while at < end:
            behind = at
            while behind < end and (not self.lines[behind].strip() or self.lines[behind][len(indent):].startswith(("--", "unfolding "))):
                behind += 1
            if behind == end or head_of(self.lines[behind][len(indent):]):
                return at
            at = self._end(behind, end, indent)
        return at

    def _members(self, start, end, indent):
        for line in self.lines[start:end]:
            match = re.match(re.escape(indent) + r"(?:pub )?([^\s(){}\-][^\s(){}]*) :", line)
            if match:
                yield match[1]


class Everything:
    """All files of definitions of the repository."""

    def __init__(self, root=ROOT):
        self.root = pathlib.Path(root)
        self.crates = [line.split(":")[0] for line in (self.root / "crates.txt").read_text().splitlines()
                       if line.strip() and not line.startswith("#")]
        self.files, self.passed_on, self.listed = {}, {}, {}
        for crate in self.crates:
            folder = self.root / "crates" / crate / "specs"
            if (folder / "Lib.antt").is_file():
                self._read(crate, folder)
        self.owner = {}
        for module, file in self.files.items():
            for item in file.items:
                for name in item.names:
                    self.owner.setdefault((module, name), item)

    def _read(self, crate, folder):
        self.listed[crate] = []
        for library in [folder / "Lib.antt", folder / (INNER + ".antt")]:
            if not library.is_file():
                continue
            for line in library.read_text().split("\n"):
                if line.startswith("pub mod ") and line.split()[2] != INNER:
                    is_inner = library.stem == INNER
                    module = Module(crate, (INNER + "." if is_inner else "") + line.split()[2])
                    self.listed[crate].append(module)
                    self.files[module] = Definitions(folder.joinpath(*module.name.split(".")).with_suffix(".antt"), module)
            for path, names, alias in use_lines(library.read_text()):
                found = below(path)
                if found and names is None:
                    self.passed_on[Module(crate, alias)] = Module(found[0], found[1][0])

    def module(self, crate, name):
        module = Module(crate, name)
        return self.passed_on.get(module, module)

    def imports(self, text):
        """What the words of a text stand for: {word: (module, name)}, and {qualifier: module}."""
        words, modules = {}, {}
        for path, names, alias in use_lines(text):
            found = below(path)
            if not found or not found[1]:
                continue
            module, rest = self.module(found[0], found[1][0]), found[1][1:]
            if names is None and not rest:
                modules[alias] = module
            elif names is None:
                words[alias] = module, rest[0]
            else:
                for there, here in names:
                    words[here] = (module, rest[0]) if rest else (module, there)
        return words, modules

    def named(self, words, text, own=None):
        """The (module, name) pairs that words of a text stand for; `own` is the module that the text is of."""
        imported, modules = self.imports(text)
        found = set()
        for here, target in imported.items():
            if spoken(here) & words:
                found.add(target)
        for word in words:
            first, _, rest = word.partition(".")
            if rest and first in modules:
                found.add((modules[first], rest.split(".")[0]))
            if own and (own, word) in self.owner:
                found.add((own, word))
        if own:
            found.update((own, name) for (module, name) in self.of_module(own) if "◌" in name and spoken(name) & words)
        return {self.passed(target) for target in found if self.passed(target) in self.owner}

    def passed(self, target):
        """Where a name that a module passes on (`pub use`) is defined."""
        module, name = target
        if target in self.owner or module not in self.files:
            return target
        for path, names, _ in use_lines("\n".join(line for line in self.files[module].lines if line.startswith("pub use "))):
            found = below(path)
            if found and names and name in {here for _, here in names}:
                return self.passed((self.module(found[0], found[1][0]), {here: there for there, here in names}[name]))
        return target

    @functools.lru_cache(None)
    def of_module(self, module):
        return [pair for pair in self.owner if pair[0] == module]

    @functools.lru_cache(None)
    def needs(self, pair):
        """What the definition of a name names, without itself."""
        module, _ = pair
        item = self.owner[pair]
        return frozenset(self.named(item.words, self.files[module].text, module)) - {(module, name) for name in item.names}
