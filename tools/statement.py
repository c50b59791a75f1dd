"""The whole statement of a clause: each definition of specs/ on which it stands, once, before it is used, and the types of the code."""
import functools
import pathlib
import re

TOP = pathlib.Path(__file__).resolve().parent.parent
NAME = r"[A-Za-z_][\w'-]*"
KEYWORDS = r"(?:(?:unfoldable|abbrev|pub|record|data) +)*"
IMPORT = re.compile(r"^ *(?:ghost )?use Rattle\.(edr_\w+)\.specs\.([\w.]+?)(?:\.\{([^}]*)\}| as (\w+));?$", re.M)


@functools.lru_cache(None)
def definitions(path):
    """The definitions of a file of specs/: by each name the line on which it begins, and its text with the comment above it."""
    found, line = {}, 1
    for block in re.split(r"(\n\n+)", path.read_text()):
        code = re.sub(r"^--.*\n", "", block, flags=re.M)
        name = re.match(rf"{KEYWORDS}({NAME})", code)
        if name and not code.startswith(("use ", "ghost use ")):
            found[name[1]] = (line, block)
        line += block.count("\n")
    return found


class Imports:
    """What the names of a file stand for."""

    def __init__(self, text):
        self.words, self.modules = {}, {}
        for crate, module, words, alias in IMPORT.findall(text):
            if alias:
                self.modules[alias] = (crate, module)
            for word in filter(None, (it.strip() for it in words.split(","))):
                own, _, here = word.partition(" as ")
                self.words[here or own] = (crate, module, own)

    def found(self, word):
        """The crate, the module and the name in it of a word, which may be one of a module: `events.chain`."""
        first, _, rest = word.partition(".")
        if rest and first in self.modules:
            return (*self.modules[first], rest.split(".")[0])
        return self.words.get(first)


def words_of(text):
    """The words of a definition, each once, as they come."""
    code = re.sub(r"--.*", "", re.sub(r'"[^"\n]*"', "", text))
    return dict.fromkeys(re.findall(rf"{NAME}(?:\.{NAME})*", code))


class Statement:
    """The definitions that were met, each after those that it cites, and the types of the code that they name."""

    def __init__(self):
        self.told, self.types, self.seen = [], {}, set()

    def cite(self, crate, module, name):
        """Tells what a name of a crate's specs/ stands for."""
        parts = module.split(".")
        if parts[0] == "declared":
            self.types.setdefault((crate, parts[-2] if parts[-1] == "TheVariants" else name))
            return
        path = TOP / f"crates/{crate}/specs/{'/'.join(parts)}.antt"
        if path.exists() and name in definitions(path):
            self.define(path, name)

    def define(self, path, name):
        """Tells a definition, after all that it cites."""
        if (path, name) in self.seen:
            return
        self.seen.add((path, name))
        line, text = definitions(path)[name]
        self.read(text, path.read_text(), path)
        self.told.append(f"-- {path.relative_to(TOP)}:{line}\n{text.strip()}")

    def read(self, text, file, path=None):
        """Tells what the words of a text cite that stands in a file with these imports."""
        imports = Imports(file)
        for word in words_of(text):
            found = imports.found(word)
            own = word.split(".")[0]
            if found:
                self.cite(*found)
            elif path and own in definitions(path):
                self.define(path, own)


def place_of(crate, name):
    """Where a type or a constant of the code is declared, if it is found."""
    declared = re.compile(rf"^ *pub (?:const|struct|enum|trait|type) {re.escape(name)}\b", re.M)
    for path in sorted(TOP.glob(f"crates/{crate}/src/**/*.rt")):
        text = path.read_text()
        found = declared.search(text)
        if found:
            return f"{path.relative_to(TOP)}:{text.count(chr(10), 0, found.start()) + 1}: {name}"
    return None


def whole(clause, text):
    """The lines of the statement of a clause whose file has this text."""
    statement = Statement()
    statement.read(clause, text)
    places = sorted(filter(None, (place_of(*it) for it in statement.types)))
    yield f"-- {len(statement.told)} definitions, and {len(places)} types and constants of the code:"
    yield from (f"--   {place}" for place in places)
    for told in statement.told:
        yield f"\n{told}"
    yield f"\n{clause}"
