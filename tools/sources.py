"""Reads the repository's sources, for the tools that hold them to something: the crates, the functions and structs of their Rattle code, and where
the kit is."""
import dataclasses
import functools
import pathlib
import re
import subprocess

ROOT = pathlib.Path(__file__).resolve().parent.parent
CRATES = ROOT / "crates"

OPEN, CLOSE = "([{", ")]}"


@functools.cache
def kit():
    """The kit's folder."""
    guide = subprocess.run(["rt", "doc"], check=True, capture_output=True, text=True).stdout.strip()
    return pathlib.Path(guide).parent


def crates():
    """The crates of crates.txt, each with those that it stands on."""
    listed = {}
    for line in (ROOT / "crates.txt").read_text().splitlines():
        said, colon, deps = line.split("#")[0].partition(":")
        if colon:
            listed[said.split()[0]] = deps.split()
    return listed


@dataclasses.dataclass
class Function:
    """A function of a crate, with its contract as text. `path` is crate::module::name, a method's with its type before its name."""

    path: str
    file: pathlib.Path
    line: int
    public: bool
    params: dict  # a parameter's name and its type
    result: str  # "" where nothing is returned
    requires: list
    ensures: list
    start: int  # where its body starts in the file's text, and where it ends
    end: int
    body: str
    calls: set  # the paths of what its code calls, where its names lead


def without_comments(text):
    """The text with comments blanked out, so that places and lines stay."""
    return re.sub(r"//.*", lambda found: " " * len(found[0]), text)


def closing(text, at):
    """The place of the bracket that closes the one at a place."""
    depth = 0
    for i in range(at, len(text)):
        depth += (text[i] in OPEN) - (text[i] in CLOSE)
        if depth == 0:
            return i
    raise ValueError(f"no end of the bracket in: {text[at:at + 80]}")


def split(text, mark):
    """The parts of a text between marks that stand in no bracket."""
    parts, depth, start = [], 0, 0
    for i, c in enumerate(text):
        depth += (c in OPEN) - (c in CLOSE)
        if depth == 0 and text.startswith(mark, i):
            parts.append(text[start:i])
            start = i + len(mark)
    return [part.strip() for part in parts + [text[start:]]]


def parameters(text):
    """Names and types. `&mut self` is the parameter self of the type `&mut`."""
    found = {}
    for part in filter(None, split(text, ",")):
        name, colon, kind = part.partition(":")
        name = name.removeprefix("mut ").strip()
        found["self" if not colon else name] = kind.strip() if colon else name.removesuffix("self").strip()
    return found


def imports(text, here):
    """The names that the `use` lines of a module bring, with the paths that they stand for."""
    found = {}
    for line in re.findall(r"^(?:pub )?use ([^;]*);", text, re.M):
        head, _, tail = line.partition("::{")
        for name in split(tail.rstrip("} \n"), ",") if tail else [""]:
            path = f"{head}::{name}" if name else head
            path, _, other = path.partition(" as ")
            found[other or path.split("::")[-1]] = resolved(path, here)
    return found


def resolved(path, here):
    """A path as its module writes it, from its crate on."""
    first, _, rest = path.partition("::")
    if first == "crate":
        return f"{here[0]}::{rest}"
    if first == "super":
        return resolved(f"self::{rest}", here[:-1])
    if first == "self":
        return "::".join([*here, rest]) if not rest.startswith("super::") else resolved(rest, here)
    return path


def calls(body, here, names):
    """The paths that the calls of a body may stand for: a name that was imported, one of this module, one of another crate; of a method `.name`."""
    found = set()
    for path in re.findall(r"(?<![\w.:])((?:\w+::)*\w+)\(", body):
        first, _, rest = path.partition("::")
        if first in names:
            found.add(f"{names[first]}::{rest}" if rest else names[first])
        else:
            found |= {resolved(path, here), "::".join([*here, path])}
    return found | {"." + name for name in re.findall(r"\.(\w+)\(", body)}


def functions(crate):
    """All functions of a crate, in the order of its files."""
    for file in sorted((CRATES / crate / "src").rglob("*.rt")):
        text = without_comments(file.read_text())
        parts = file.relative_to(CRATES / crate / "src").with_suffix("").parts
        module = [part for part in parts if part not in ("lib", "main", "mod")]
        here = [crate, *module]
        names = imports(text, here)
        impls = [(found.end() - 1, closing(text, found.end() - 1), found[1]) for found in re.finditer(r"^impl(?:<[^>]*>)? (?:[^{]* for )?(\w+)(?:<[^>]*>)? \{", text, re.M)]
        for found in re.finditer(r"^[ \t]*(pub )?(?:pub\(\w+\) )?(?:extern \"C\" )?fn (\w+)(?:<(?:->|[^>])*>)?\(", text, re.M):
            last = closing(text, found.end() - 1)
            at = last + 1
            result = re.match(r"\s*->\s*(.*?)(?=\s*(?:\b(?:requires|ensures|ghost)\b|\{))", text[at:], re.S)
            at += result.end() if result else 0
            clauses = {"requires": [], "ensures": [], "ghost": []}
            while clause := re.match(r"\s*(requires|ensures|ghost)\b\s*\w*\s*\{", text[at:]):
                end = closing(text, at + clause.end() - 1)
                clauses[clause[1]].append(text[at + clause.end() : end].strip())
                at = end + 1
            start = text.index("{", at)
            stop = closing(text, start) + 1
            body = text[start:stop]
            owner = [kind for first, last, kind in impls if first < found.start() < last]
            yield Function(
                path="::".join([*here, *owner, found[2]]),
                file=file,
                line=text.count("\n", 0, found.start(2)) + 1,
                public=bool(found[1]),
                params=parameters(text[found.end() : last]),
                result=result[1].strip() if result else "",
                requires=clauses["requires"],
                ensures=clauses["ensures"],
                start=start,
                end=stop,
                body=body,
                calls=calls(body, here, names),
            )


def types(crate):
    """The structs and enums of a crate by name: a struct's fields, and None of an enum."""
    found = {}
    for file in sorted((CRATES / crate / "src").rglob("*.rt")):
        text = without_comments(file.read_text())
        for one in re.finditer(r"^(?:pub )?(struct|enum) (\w+)(?:<[^>]*>)? \{", text, re.M):
            fields = split(text[one.end() : closing(text, one.end() - 1)], ",")
            found[one[2]] = [re.match(r"(?:pub )?(\w+)", field)[1] for field in fields if field] if one[1] == "struct" else None
    return found
