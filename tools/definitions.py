"""Reads the repository's definitions, for the tools that follow them: the items of antt files, the structs and enums of the Rattle code, which antt
sees as records and data types, the constants of that code, and to which item each name in a text leads."""
import dataclasses
import functools
import pathlib
import re

from sources import CRATES, ROOT, closing, crates, functions, imports, split, without_comments

WORD = r"(?:«[^»]*»|[^\s(){}.;,@\"«»]+)"
TOKEN = re.compile(rf"(?<=\))(?:\.{WORD})+|{WORD}(?:\.{WORD})*|[(){{}}.;,@]")
MODIFIERS = {"pub", "unfoldable", "abbrev"}
MARKS = set("(){}.;,@")
RESERVED = MARKS | set("λ → ↔ × : = _ let in elim record where unfold unfolding Type ← ⌜ ⌝ rw simp search grw cc omega".split())
PRELUDE = {"Unit", "tt", "⊥", "absurd", "¬", "Dec", "yes", "no"}  # open in every file
HELD = {"now", "old", "new"}  # what a contract reads of a reference


# std's own, which every file knows; one letter is a parameter
STD = {"Option", "Result"}


class Unresolved(Exception):
    """A name that leads nowhere."""


@dataclasses.dataclass(eq=False)
class Item:
    """What a file declares. Its kind is 'definition' (laws too), 'record', 'data', 'struct', 'enum', 'const', or 'section' for `module _ (..) where`."""

    name: str
    kind: str
    place: object  # the Module or the Source
    lines: list  # the numbers of its lines, its comment's among them, no blank ones
    text: str  # without comments; of a struct or an enum the types in it, of a constant its type and value
    members: list  # fields, or constructors
    section: object = None  # the section that it stands in


def tokens(text):
    return TOKEN.findall(text)


def plain(name):
    return name.strip("«»")


def spellings(name):
    """How a name is written: `◌≡◌` also as `≡`."""
    return {name, *(filter(None, name.split("◌")) if "◌" in name else [])}


class Scope:
    """The names and modules that `use` lines bring, each with the path that it comes from."""

    def __init__(self, lines):
        self.names, self.modules = {}, {}
        for line in lines:
            path, braces, inside = re.sub(r"^(?:pub |ghost )?use ", "", line).rstrip(";").partition(".{")
            if not braces:
                path, _, other = path.partition(" as ")
                self.modules[other or path.split(".")[-1]] = path
            for one in filter(None, split(inside.rstrip("} \n"), ",")):
                name, _, other = one.partition(" as ")
                self.names |= {spelling: (path, name) for spelling in spellings(other or name)}

    def find(self, name):
        first, _, rest = name.partition(".")
        if name in self.names:
            return find(*self.names[name])
        if first in self.modules:
            return find(self.modules[first], rest)
        return find(*self.names[first]) if first in self.names else None


class Module:
    """An antt file: its items by name, and how many of its other lines are headings, `use` and `mod` lines, and blank."""

    def __init__(self, file):
        self.file, self.length, self.items = file, 0, {}
        self.headings = self.imports = self.blank = 0
        uses, sections, item, comment = [], [], None, []
        for self.length, line in enumerate(file.read_text().splitlines(), 1):
            code = re.sub(r"(?<!\S)--.*", "", line).rstrip()
            if not code and line.strip():
                comment.append(self.length)
                continue
            if not code:
                self.blank += 1
                self.headings += len(comment)
                comment = []
                continue
            indent = len(code) - len(code.lstrip())
            sections = [(at, section) for at, section in sections if at < indent]
            kind, name = declared(code) if indent == (sections[-1][0] + 2 if sections else 0) else (None, None)
            outer = sections[-1][1] if sections else None
            if kind == "use":
                self.imports += 1
                self.headings += len(comment)
                uses.append(code.strip())
            elif kind:
                item = Item(name, kind, self, comment + [self.length], code, [], outer)
                if kind == "section":
                    sections.append((indent, item))
                else:
                    self.items |= {spelling: item for spelling in spellings(name)}
            else:
                item.lines += comment + [self.length]
                item.text += "\n" + code
            comment = []
        self.headings += len(comment)
        self.scope = Scope([line.removeprefix("unfoldable ") for line in uses if re.match(r"(?:unfoldable )?(?:pub )?use ", line)])
        for item in self.own():
            item.members = members(item)
            if item.kind == "data":
                self.items |= {spelling: item for name in item.members for spelling in spellings(name)}

    def own(self):
        return list(dict.fromkeys(self.items.values()))

    def find(self, name):
        return self.items.get(name) or self.items.get(name.partition(".")[0]) or self.scope.find(name)


def declared(code):
    """Kind and name of what a line declares; nothing of a clause, of an `unfolding` line and of the end of a record."""
    words = code.split()
    bare = [word for word in words if word not in MODIFIERS]
    if bare[0] in ("use", "mod"):
        return "use", None
    if bare[0] in ("record", "data"):
        return bare[0], bare[1]
    if bare[0] == "module":
        return "section", bare[1]
    return ("definition", bare[0]) if bare[0] != "unfolding" and (bare != words or bare[1:2] == [":"]) else (None, None)


def members(item):
    """The fields of a record, the constructors of a data type."""
    if item.kind not in ("record", "data"):
        return []
    return [name for line in parts(item)[1:] for name in line.strip().removeprefix("pub ").partition(" : ")[0].split()]


def parts(item):
    """An item's text in parts: a definition's signature, `unfolding` line and clauses; a record's or data type's head and members."""
    indent = len(item.text) - len(item.text.lstrip()) + (0 if item.kind == "definition" else 2)
    return re.split(rf"\n(?={' ' * indent}[^\s}}])", item.text)


@functools.cache
def module(file):
    return Module(file)


def numbers(text, start, end):
    """The numbers of a text's lines between two places, with the comment and the attributes above them."""
    first, last = (text.count("\n", 0, at) + 1 for at in (start, end))
    while first > 1 and text.splitlines()[first - 2].startswith(("//", "#[")):
        first -= 1
    return list(range(first, last + 1))


class Source:
    """A Rattle file: its structs, enums and constants as items, and the names that its contracts know."""

    def __init__(self, file):
        raw = file.read_text()
        text = without_comments(raw)
        self.file, self.items = file, {}
        self.here = (file.relative_to(CRATES).parts[0], *(part for part in [file.stem] if part not in ("lib", "main")))
        self.scope = Scope(re.findall(r"^ghost use [^;]*;", text, re.M))
        self.uses = imports(text, self.here)
        for found in re.finditer(r"^(?:pub )?(struct|enum) (\w+)(?:<[^>]*>)? \{", text, re.M):
            end = closing(text, found.end() - 1)
            body = [re.match(r"(?:pub )?(\w+)(.*)", one, re.S) for one in split(text[found.end() : end], ",") if one]
            lines = numbers(raw, found.start(), end)
            self.items[found[2]] = Item(found[2], found[1], self, lines, " ".join(one[2] for one in body), [one[1] for one in body])
        for found in re.finditer(r"^(?:pub )?(const|type) (\w+)(?::| =) (.*?);$", text, re.M | re.S):
            self.items[found[2]] = Item(found[2], found[1], self, numbers(raw, found.start(), found.end()), found[3], [])

    def find(self, name):
        first, dot, _ = name.partition(".")
        return self.scope.find(name) or (next(self.types(first), None) if dot else None)

    def types(self, text):
        """The structs and enums that a text of types names, and the constants that an array's length is."""
        for path in re.findall(r"(?:\w+::)*\b[A-Z]\w*", text):
            if path in STD or len(path) == 1:
                continue
            *owner, name = self.uses.get(path, path).split("::")
            places = (tuple(owner), (*self.here, *owner))
            found = [one.items[name] for crate in {self.here[0], *owner[:1]} for one in sources(crate) if one.here in places and name in one.items]
            if not found:
                raise Unresolved(f"the type {path} in {self.file.relative_to(ROOT)}")
            yield found[0]


@functools.cache
def source(file):
    return Source(file)


def sources(crate):
    return [source(file) for file in sorted((CRATES / crate / "src").rglob("*.rt"))]


def find(path, name):
    """The item that a module declares under a name; of the kit's modules the path and the name."""
    inside = re.fullmatch(r"Rattle\.(\w+)\.(specs|proofs)\.(.+)", path)
    if not inside or inside[1] not in crates():
        return path, name
    crate, folder, rest = inside.groups()
    if rest.startswith("declared."):
        kind = rest.removesuffix(".TheVariants").split(".")[-1]
        found = next((one.items[kind] for one in sources(crate) if kind in one.items), None)
        known = found and (name in found.members if rest.endswith(".TheVariants") else name == kind)
    else:
        file = CRATES / crate / folder / pathlib.Path(*rest.split(".")).with_suffix(".antt")
        found = known = file.exists() and (module(file).items.get(name) or module(file).scope.find(name))
    if not known:
        raise Unresolved(f"{path} has no {name}")
    return found


class Reader:
    """Reads texts and gathers what they cite: items, the kit's names, and the fields that are looked at."""

    def __init__(self, place, bound=()):
        self.place, self.items, self.kit, self.fields = place, {}, set(), set()
        self.frames, self.lets = [set(bound)], []

    def cite(self, found):
        if isinstance(found, Item):
            self.items[found] = True
        else:
            self.kit.add(found)

    def find(self, name):
        return self.place.find(name) or (("Prim", name) if name in PRELUDE else None)

    def bind(self, names):
        self.frames[-1] |= {plain(name) for name in names}

    def name(self, name):
        """A name in a term: bound in the text, or an item, or the kit's."""
        if name in RESERVED or name[0].isdigit():
            return
        first, *looked = name.split(".")
        bound = any(plain(first) in frame for frame in self.frames)
        found = bound or self.find(name)
        if not found:
            raise Unresolved(f"{name} in {self.place.file.relative_to(ROOT)}")
        variant = isinstance(found, Item) and found.kind == "enum"
        if not variant and first not in self.place.scope.modules:
            self.fields.update(map(plain, looked))
        if not bound:
            self.cite(found)

    def pattern(self, words):
        """The names of a pattern: constructors are cited, others bound. A kit's name is taken for a constructor."""
        for word in words:
            if word not in RESERVED and not word[0].isdigit():
                found = self.find(word)
                constructor = isinstance(found, tuple) or found and found.kind in ("data", "enum") and word != found.name
                self.cite(found) if constructor else self.bind([word])

    def term(self, words):
        """A term or a type. What a bracket binds, `(x : A)`, is bound after it as well; what stands in a bracket ends there."""
        at = 0
        while at < len(words):
            word = words[at]
            if word in ("(", "{"):
                at = self.opened(words, at)
            elif word in (")", "}"):
                self.frames.pop()
            elif word == ";":
                at += 2 if words[at + 2 : at + 3] == ["="] else 0
            elif word == "λ":
                at = self.abstracted(words, at)
            elif word in ("[", "|", "]"):
                at = self.branched(words, at)
            elif word == "let":
                self.lets.append(words[at + 1])
                at += 1
            elif word == "in":
                self.bind([self.lets.pop()])
            elif word[0] == "." and len(word) > 1:
                self.fields.update(map(plain, word[1:].split(".")))
            else:
                self.name(word)
            at += 1

    def opened(self, words, at):
        """An opening bracket, with the names that it binds or the label that stands first in it; the place of the last word read."""
        end = next((i for i in range(at + 1, len(words)) if words[i] in MARKS or words[i] in ":="), len(words))
        names = words[at + 1 : end]
        binder = words[end : end + 1] == [":"]
        label = words[at] == "{" and words[end : end + 1] == ["="] and len(names) == 1
        if binder:
            self.bind(names)
        self.frames.append(set())
        return end if binder or label else at

    def abstracted(self, words, at):
        """`λ x y.`, or `λ (x : A).`, whose bracket binds; the place of the last word read."""
        end = words.index(".", at)
        if ":" in words[at:end]:
            return at
        self.bind(word for word in words[at + 1 : end] if word not in MARKS)
        return end

    def branched(self, words, at):
        """A branch of `elim e [ p ↦ a | q ↦ b ]`, whose pattern binds in it alone, or their end; the place of the last word read."""
        if words[at] != "[":
            self.frames.pop()
        if words[at] == "]":
            return at
        self.frames.append(set())
        end = words.index("↦", at)
        self.pattern(words[at + 1 : end])
        return end

    def scoped(self, read, *given):
        """Reads something whose names end with it."""
        self.frames.append(set())
        read(*given)
        self.frames.pop()

    def clause(self, words):
        at = words.index("=")
        self.pattern(words[1:at])
        self.term(words[at + 1 :])

    def within(self, section):
        """Goes into sections: they are cited, and their parameters bound."""
        if section:
            self.within(section.section)
            self.items[section] = True
            words = tokens(section.text)
            for at, word in enumerate(words):
                if word in ("(", "{"):
                    self.bind(words[at + 1 : words.index(":", at)])

    def signature(self, item):
        self.scoped(self.term, tokens(parts(item)[0].partition(" : ")[2]))

    def definition(self, item):
        self.signature(item)
        for part in parts(item)[1:]:
            words = tokens(part)
            if words[0] == "unfolding":
                self.term(words[1:])
            else:
                self.scoped(self.clause, words)

    def record(self, item):
        """Head and members; a field's type may name the fields before it."""
        head, *rest = parts(item)
        words = tokens(head)
        self.term(words[words.index(item.name) + 1 :])
        for part in rest:
            names, _, kind = part.strip().removeprefix("pub ").partition(" : ")
            self.scoped(self.term, tokens(kind))
            self.bind(names.split() if item.kind == "record" else [])


def cited_by(item):
    """What an item cites."""
    reader = Reader(item.place)
    if item.kind in ("struct", "enum", "const", "type"):
        for found in item.place.types(item.text):
            reader.cite(found)
        return reader
    reader.within(item.section)
    if item.kind == "section":
        reader.term(tokens(item.text)[2:])
    elif item.kind == "definition":
        reader.definition(item)
    else:
        reader.record(item)
    return reader


def cited_by_statement(crate, file, name):
    """What the statement of a law of proofs/ cites."""
    item = find(f"Rattle.{crate}.proofs.{file}", name)
    reader = Reader(item.place)
    reader.within(item.section)
    reader.signature(item)
    return reader


def cited_by_contract(function):
    """What the contract of a function cites: its clauses, and the types of what it takes and answers."""
    place = source(function.file)
    reader = Reader(place, [*function.params, "result"])
    for clause in function.requires + function.ensures:
        reader.scoped(reader.term, tokens(clause))
    for found in place.types(" ".join([*function.params.values(), function.result])):
        reader.cite(found)
    return reader


def contracts(crate, wanted=lambda function: True):
    """What each contract of a crate cites."""
    return [cited_by_contract(function) for function in functions(crate) if wanted(function)]
