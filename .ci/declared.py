"""The names that the repository declares, which are those that a document may name.

In src/ of a crate these are its functions, types, traits, constants and modules, their fields, variants and parameters, ghost items and
clauses, and each word that stands alone between quotes, as those of the program and of a trace do; in specs/ records, data, definitions,
fields and constructors. Beside them stand the names of crates, files and must-fail edits. What only proofs/ have is none of them.
"""
import collections
import functools
import pathlib
import re
import subprocess

TOP = pathlib.Path(__file__).resolve().parent.parent

# Of src/: an item, a ghost item, a clause, a field or a parameter, a variant, what a type has, the head of a function, a word, a re-export.
ITEM = re.compile(r"\b(?:fn|struct|enum|union|trait|const|static|type|mod)\s+([A-Za-z_]\w*)")
GHOST = re.compile(r"\bghost\s+(?!use\b)([a-z]\w*)")
CLAUSE = re.compile(r"\b(?:ensures|requires|invariant|decreases)\s+([a-z_]\w*)\s*\{")
FIELD = re.compile(r"\b([a-z_]\w*)\s*:(?!:)")
VARIANT = re.compile(r"(?:^\s*|[{,]\s*)([A-Z]\w*)\s*(?=[,({=}]|$)", re.M)
TYPE = re.compile(r"\b(?:struct|enum|union)\s+\w+[^;{(]*\{")
HEAD = re.compile(r"\bfn\s+\w+[^{;]*")
WORD = re.compile(r'b?"([A-Za-z][\w-]*)"')
EXPORT = re.compile(r"\bpub use ([^;]*);")
BLOCK = re.compile(r"^\s*(?:pub(?:\([a-z]+\))? )?(impl|trait|enum|struct)\b([^{;]*)\{", re.M)
# Of specs/: what begins at the front of its line, and a field or a constructor.
DEFINITION = re.compile(r"^(?:(?:abbrev|unfoldable|record|data|pub|mod)\s+)+(?!use\b)([A-Za-z_][\w']*)", re.M)
PART = re.compile(r"^  (?:pub )?([A-Za-z_][\w']*) :", re.M)


def tracked(*patterns):
    """The files of the repository that git knows, or is about to."""
    out = subprocess.run(
        ["git", "ls-files", "--cached", "--others", "--exclude-standard", "--", *patterns],
        cwd=TOP, check=True, capture_output=True, text=True,
    ).stdout
    return [path for path in out.splitlines() if (TOP / path).exists()]


def body(text, begin):
    """What stands between a brace and the one that closes it."""
    depth = 0
    for at in range(begin, len(text)):
        depth += {"{": 1, "}": -1}.get(text[at], 0)
        if depth == 0:
            return text[begin:at]
    return text[begin:]


def of_code(text):
    """The names that a text of src/ declares."""
    names = {name for pattern in (ITEM, GHOST, CLAUSE, WORD) for name in pattern.findall(text)}
    for head in HEAD.findall(text):
        names.update(FIELD.findall(head))
    for begun in TYPE.finditer(text):
        names |= of_type(body(text, begun.end() - 1))
    return names


def of_type(inner):
    """The fields and variants between the braces of a type."""
    return {*FIELD.findall(inner), *VARIANT.findall(inner)}


def of_specs(text):
    """The names that a file of specs/ declares."""
    return {name for pattern in (DEFINITION, PART) for name in pattern.findall(text)}


@functools.lru_cache(None)
def texts(crate, kind):
    """The files of src/ or specs/ of a crate, by their stems, without the lines that are comments."""
    paths = sorted(TOP.glob(f"crates/{crate}/{kind}/**/*.*t"))
    return [(path.stem, re.sub(r"^\s*(?://|--).*$", "", path.read_text(), flags=re.M)) for path in paths]


@functools.lru_cache(None)
def of_crate(crate):
    """The names that a crate declares or passes on."""
    names = set()
    for stem, text in texts(crate, "src"):
        names |= {stem} | of_code(text)
        names.update(word for export in EXPORT.findall(text) for word in re.findall(r"\w+", export))
    for stem, text in texts(crate, "specs"):
        names |= {stem} | of_specs(text)
    return names


def crates():
    return {path.name for path in TOP.glob("crates/*") if path.is_dir()}


@functools.lru_cache(None)
def of_types():
    """For each type and trait of src/ what stands in its blocks: fields, variants, and methods."""
    names = collections.defaultdict(set)
    for crate in crates():
        for _, text in texts(crate, "src"):
            for block in BLOCK.finditer(text):
                inner = body(text, block.end() - 1)
                own = of_type(inner) if block[1] in ("enum", "struct") else of_code(inner)
                for owner in re.findall(r"\b[A-Z]\w*", block[2]):
                    names[owner] |= own
    return names


@functools.lru_cache(None)
def of_files():
    """The names of files and folders, with their endings and without, but for those of proofs/."""
    parts = {part for path in tracked() if "/proofs/" not in path for part in path.split("/")}
    return parts | {part.rpartition(".")[0] or part for part in parts}


@functools.lru_cache(None)
def everywhere():
    """All declared names."""
    return set().union(crates(), of_files(), *map(of_crate, crates()))


def is_declared(name):
    """Whether each word of a name such as `apply`, `Banks::apply` or `edr_cli::drive` is declared, and by the word before it."""
    words = name.split("::")
    for owner, word in zip(words, words[1:]):
        if owner in crates() and word not in of_crate(owner):
            return False
        if owner in of_types() and word not in of_types()[owner]:
            return False
    return all(word in everywhere() for word in words)
