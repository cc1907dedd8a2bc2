"""Reads what the pages show of a crate: its public items, with documentation and contract, and its definitions."""

import glob
import os
import re
from dataclasses import dataclass, field

ROOT = os.path.dirname(os.path.dirname(os.path.dirname(os.path.abspath(__file__))))
# crates that are no part of the product
OTHERS = re.compile(r"check_|ip_vectors|ip_workloads|ipexts_calls")
ITEM = re.compile(r"(?P<pub>pub(?:\(\w+\))? )?(?:const )?(?P<kind>fn|struct|enum|trait|const|type) (?P<name>\w+)")
IMPL = re.compile(r"impl(?:<.*?>)? (?:(?P<trait>\S.*?) for )?(?P<type>&?[\w\[\]()]+)")
# the text of an error, which precedes a variant or a struct
TEXT = re.compile(r"#\[error\((?:\"(.*)\".*|transparent)\)\]")
CLAUSE = re.compile(r"\s*(?P<kind>requires|ensures)(?P<star>\*)?(?: (?P<name>\w+))? \{(?P<text>.*)")
GHOST = re.compile(r"\s*ghost (?P<name>\w+)(?: =|:) \{(?P<text>.*)")
# an import of definitions, in code or in a file of definitions: a module, and names of it or a name for it
IMPORT = re.compile(r"^\s*(?:pub )?(?:ghost )?use Rattle\.([\w.']+?)(?:\.\{([^}]*)\})?(?: as (\w+))?;?\s*$", re.M)
MEMBER = re.compile(r"^ {2,}(?:pub )?([\w']+) :", re.M)
HEAD = re.compile(r"^(?: *(?:abbrev|unfoldable) pub (?:record |data )?| *pub (?:record|data) |pub (?!mod |use ))([\w'◌]+)", re.M)
# one of several definitions that use one another
MUTUAL = re.compile(r"^  pub ([\w']+) :", re.M)


@dataclass
class Item:
    """A public item: a function, a type, a trait, a constant, or a trait's impl."""

    kind: str
    name: str
    owner: str
    path: str
    module: str = ""  # of an error, its module below `err`
    imports: dict = field(default_factory=dict)  # the last module of the path of each name that its file imports
    doc: str = ""
    head: str = ""
    is_public: bool = True
    clauses: list = field(default_factory=list)  # of its kind, its name and its text
    members: list = field(default_factory=list)  # fields, variants and a trait's functions: text and documentation
    scope: dict = field(default_factory=dict)

    @property
    def label(self):
        return f"{self.owner}::{self.name}" if self.owner else self.name

    @property
    def is_law(self):
        """Returns whether it is a function without arguments and result, which only proves its clauses."""
        return self.head == f"pub fn {self.name}()"

    @property
    def title(self):
        """Returns the label, before which an error has its module."""
        return f"{self.module}::{self.label}" if self.module else self.label


@dataclass
class Definition:
    """Definitions that stand together in a file, with the comment before them."""

    names: list
    members: list  # constructors and fields
    comment: str
    text: str
    module: str
    scope: dict


def read(path):
    with open(path, encoding="utf-8") as it:
        return it.read()


def crates():
    """Returns the crates of crates.txt, each with those of the repository on which it builds, lowest first."""
    lines = [it.split("#")[0].strip() for it in read(f"{ROOT}/crates.txt").splitlines()]
    named = dict(it.split(":", 1) for it in lines if it)
    uses = {name.split()[0]: below.split() for name, below in named.items()}
    left, found = {name: [it for it in below if it in uses] for name, below in uses.items()}, {}
    while left:
        ready = [it for it, below in left.items() if all(low in found for low in below)]
        found |= {it: left.pop(it) for it in ready}
    return found


def product():
    """Returns the crates of the product, as `crates` does."""
    return {name: below for name, below in crates().items() if not OTHERS.match(name)}


def scope_of(text):
    """Returns the names that a file imports from definitions, each with its module and its name there. An alias of a
    module is a name with an empty name there."""
    found = {}
    for module, names, alias in IMPORT.findall(text):
        if alias:
            found[alias] = (module, "")
        for it in names.split(","):
            name, _, renamed = it.strip().partition(" as ")
            if name:
                found[renamed or name] = (module, name)
    return found


def paths_of(text):
    """Returns the paths of a `use`, whose braces may be nested."""
    head, brace, rest = text.partition("{")
    if not brace:
        return [text]
    parts, depth = [""], 0
    for it in rest.rpartition("}")[0]:
        depth += (it == "{") - (it == "}")
        parts = [*parts, ""] if it == "," and not depth else [*parts[:-1], parts[-1] + it]
    return [head + path for part in parts if part.strip() for path in paths_of(part.strip())]


def imports_of(text):
    """Returns the names that a file imports, each with the last module of its path."""
    uses = re.findall(r"^(?:pub )?use ([^;]*);", text, re.M)
    return {name: module for use in uses for path in paths_of(use) for module, name in re.findall(r"(\w+)::(\w+)$", path)}


def shown_as(line):
    """Returns documentation that says with which text an error is shown, or none."""
    it = TEXT.fullmatch(line)
    if not it:
        return []
    return ["", f"Shown as `` {it[1]} ``." if it[1] else "Shown as the error that it holds."]


def braced(first, lines, at):
    """Returns the text up to the brace that closes one that is open, which may be in a later line, and the next line's
    index."""
    found = [first]
    while "".join(found).count("{") >= "".join(found).count("}"):
        found.append(lines[at])
        at += 1
    return "\n".join([found[0].strip(), *(it.strip() for it in found[1:])]).rstrip().removesuffix(",").removesuffix("}").strip(), at


def passed_on(crate):
    """Returns what files of definitions pass on from others: a module and a name there, with the module and the name meant. Of a
    module that is passed on whole, both names are empty."""
    folder, found = f"{ROOT}/crates/{crate}/specs", {}
    if os.path.isfile(f"{folder}/Lib.antt"):
        whole = re.findall(r"^pub use Rattle\.([\w.]+)$", read(f"{folder}/Lib.antt"), re.M)
        found = {(f"{crate}.specs.{it.split('.specs.')[-1]}", ""): (it, "") for it in whole}
    for path in glob.glob(f"{folder}/**/*.antt", recursive=True):
        module = os.path.relpath(path, folder).removesuffix(".antt").replace("/", ".")
        lines = "\n".join(it for it in read(path).split("\n") if it.startswith("pub use "))
        found |= {(f"{crate}.specs.{module}", name): meant for name, meant in scope_of(lines).items()}
    return found


class Reader:
    """Reads a source file, which `rt fmt` has laid out."""

    def __init__(self, path, folder):
        self.text = read(path)
        self.lines = self.text.split("\n")
        self.path = os.path.relpath(path, folder)
        module = re.fullmatch(r"err/(\w+)/\w+\.rt", self.path)
        self.of_file = {"module": module[1] if module else "", "imports": imports_of(self.text), "scope": scope_of(self.text)}
        self.items, self.doc, self.owner, self.impl = [], [], "", None

    def read(self):
        at = 0
        while at < len(self.lines):
            at = self.take(self.lines[at], at + 1)
        return self.items

    def take(self, line, at):
        """Reads a line. Returns the index of the next one."""
        bare = line.strip()
        if line == "}":
            self.owner, self.impl = "", None
        elif bare.startswith("///"):
            self.doc.append(bare[4:])
            return at
        elif bare.startswith(("#[", "//")) or not bare:
            self.doc = self.doc + shown_as(bare) if bare else []
            return at
        elif line.startswith("impl"):
            self.take_impl(line)
        elif (it := ITEM.match(bare)) and len(line) - len(bare) in (0, 4):
            at = self.take_item(it, bare, at, is_inner=line[0] == " ")
        elif self.impl and (it := GHOST.match(line)):
            text, at = braced(it["text"], self.lines, at)
            self.impl.clauses.append(("ghost", it["name"], text))
        self.doc = []
        return at

    def take_impl(self, line):
        it = IMPL.match(line)
        self.owner = re.sub(r"\W", "", it["type"])
        trait = re.sub(r"^(\w+::)+", "", it["trait"] or "")
        if trait and not line.endswith("{}"):
            self.impl = Item("impl", trait, self.owner, self.path, head=line.rstrip("{ "), **self.of_file)
            self.items.append(self.impl)

    def take_item(self, found, bare, at, is_inner):
        """Reads an item from its first line on."""
        owner = self.owner if is_inner else ""
        is_public = found["pub"] == "pub " or bool(self.impl) or (is_inner and self.is_in_trait())
        item = Item(found["kind"], found["name"], owner, self.path, doc="\n".join(self.doc), is_public=is_public, **self.of_file)
        if item.kind in ("fn", "const", "type"):
            at = self.take_head(item, bare, at)
        else:
            item.head = bare.rstrip("{ ")
            at = self.take_members(item, bare, at)
        if self.impl and is_inner:
            self.impl.members.append((item.head, item.doc, item.clauses))
        else:
            self.items.append(item)
        return at

    def is_in_trait(self):
        return any(it.kind == "trait" and it.name == self.owner for it in self.items)

    def take_head(self, item, bare, at):
        """Reads a signature, and the clauses after it."""
        head = [bare]
        while not head[-1].endswith(("{", ";", "}")) and not re.match(r"\s*(requires|ensures|\{)", self.lines[at]):
            head.append(self.lines[at])
            at += 1
        margin = re.match(r" *", self.lines[at - len(head)])[0]
        item.head = "\n".join(it.removeprefix(margin) for it in head).rstrip("{; \n")
        item.head = re.sub(r"\s*=[^=>].*", "", item.head, flags=re.S) if item.kind == "const" and len(item.head) > 120 else item.head
        while item.kind == "fn" and (it := CLAUSE.match(self.lines[self.after_remarks(at)])):
            text, at = braced(it["text"], self.lines, self.after_remarks(at) + 1)
            item.clauses.append((it["kind"] + (it["star"] or ""), it["name"] or "", text))
        return at

    def after_remarks(self, at):
        """Returns the index of the first line from this one on that is neither empty nor a comment."""
        while at < len(self.lines) - 1 and re.match(r"\s*(//|$)", self.lines[at]):
            at += 1
        return at

    def take_members(self, item, bare, at):
        """Reads the fields, variants or functions of a type or a trait."""
        if not bare.endswith("{"):
            return at
        if item.kind == "trait":
            self.owner = item.name
            return at
        doc = []
        while self.lines[at] != "}":
            line = self.lines[at]
            at += 1
            if it := GHOST.match(line):
                text, at = braced(it["text"], self.lines, at)
                item.clauses.append(("invariant", it["name"], text))
            elif line.strip().startswith("///"):
                doc.append(line.strip()[4:])
            elif line.startswith("    #["):
                doc += shown_as(line.strip())[1:]
            elif len(line) - len(line.lstrip()) == 4 and not line.strip().startswith(("#", "}", "//")):
                if item.kind == "enum" or line.strip().startswith("pub "):
                    item.members.append((line.strip().rstrip(",{ "), "\n".join(doc), []))
                doc = []
            elif doc and item.members and (it := re.match(r" {8}(\w+): ", line)):
                head, said, clauses = item.members[-1]
                item.members[-1] = (head, f"{said} `{it[1]}`: {' '.join(doc)}", clauses)
                doc = []
        return at


def items_of(crate):
    """Returns what the root file says of a crate, its public items, and its private types, which definitions may name. An item in
    a private module is public if the root file exports it."""
    folder = f"{ROOT}/crates/{crate}/src"
    root = next(it for it in (f"{folder}/lib.rt", f"{folder}/main.rt") if os.path.isfile(it))
    said = "\n".join(it[4:] for it in read(root).split("\n") if it.startswith("//!"))
    shown = set(re.findall(r"\w+", " ".join(re.findall(r"^pub (?:use|mod) (.*?);", read(root), re.M | re.S))))
    shown -= set(re.findall(r"^mod (\w+);", read(root), re.M))
    found, private = [], []
    for path in sorted(glob.glob(f"{folder}/**/*.rt", recursive=True)):
        modules = set(re.sub(r"\.rt$", "", os.path.relpath(path, folder)).split("/"))
        for it in Reader(path, folder).read():
            is_shown = it.is_public and (path == root or shown & {it.owner if it.kind == "impl" else it.name, it.owner, *modules})
            if is_shown:
                found.append(it)
            elif it.kind in ("struct", "enum"):
                private.append(it)
    return said, found, private


def definitions_of(crate):
    """Returns the files of definitions of a crate, each with its first comment and its definitions."""
    folder, found = f"{ROOT}/crates/{crate}/specs", {}
    for path in sorted(glob.glob(f"{folder}/**/*.antt", recursive=True)):
        module = os.path.relpath(path, folder).removesuffix(".antt").replace("/", ".")
        text = read(path)
        scope = scope_of(text)
        blocks = [it for it in re.split(r"\n\n+", text) if it.strip()]
        definitions = []
        for block in blocks:
            names = HEAD.findall(block) or MUTUAL.findall(block)
            comment = " ".join(it.strip()[3:] for it in block.split("\n") if it.strip().startswith("-- ") and not it.strip("- ") == "")
            code = "\n".join(it for it in block.split("\n") if not it.strip().startswith("--") and not IMPORT.match(it))
            if names and code.strip():
                members = [it for it in MEMBER.findall(code) if it not in names]
                definitions.append(Definition(names, members, comment, code.strip("\n"), module, scope))
        first = " ".join(it[3:] for it in blocks[0].split("\n") if it.startswith("-- ")) if blocks else ""
        if definitions:
            found[module] = (first, definitions)
    return found
