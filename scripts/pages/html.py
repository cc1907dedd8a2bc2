"""Makes pages of the items, definitions and documents of the repository."""

import html
import re

import markdown

WORD = re.compile(r"[A-Za-z_◌][\w'◌]*(?:\.[A-Za-z_][\w']*)?")
# a section of an RFC, as documents and comments name it
RFC = re.compile(r"RFC\s(\d+)((?:,\s(?:sections?\s)?(?:\d+\.)*\d+(?:\sand\s(?:\d+\.)*\d+)?)?)")
EXTENSIONS = ["tables", "fenced_code", "toc", "sane_lists"]
LAYOUT = """<!DOCTYPE html>
<html lang="en">
<meta charset="utf-8">
<meta name="viewport" content="width=device-width">
<title>{title}</title>
<link rel="stylesheet" href="{top}style.css">
<nav><a href="{top}index.html">Wolfaren</a> <a href="{top}crates/index.html">Crates</a>
<a href="{top}definitions/index.html">Definitions</a> <a href="{top}documents/index.html">Documents</a>
<input id="search" type="search" placeholder="Search" aria-label="Search" autocomplete="off"><ul id="found" hidden></ul></nav>
<main>
{body}
</main>
<script>const top_of_pages = "{top}";</script>
<script src="{top}entries.js"></script>
<script src="{top}search.js"></script>
</html>
"""


def page(title, body, top="../"):
    """Returns a whole page. `top` leads from it to the first page's folder."""
    return LAYOUT.format(title=html.escape(title), body=body, top=top)


def with_rfcs(text):
    """Returns HTML in which each RFC, with its first section, is a link."""
    def link(found):
        section = re.search(r"(?:\d+\.)*\d+", found[2])
        return (f'<a href="https://www.rfc-editor.org/rfc/rfc{found[1]}{f"#section-{section[0]}" if section else ""}">'
                f"{found[0]}</a>")
    return RFC.sub(link, text)


def prose(text):
    """Returns the HTML of a text in Markdown."""
    return with_rfcs(markdown.markdown(text, extensions=EXTENSIONS))


def line(text):
    """Returns the HTML of a text of one paragraph, without its tags."""
    return re.sub(r"^<p>(.*)</p>$", r"\1", prose(text), flags=re.S)


def first_sentence(text):
    """Returns the HTML of the first sentence of a text."""
    return line(re.split(r"(?<=\.)\s+(?=[A-Z`])|\n\n", text)[0])


class Links:
    """Where each word of a contract is defined, and which items and definitions use it."""

    def __init__(self, crates):
        self.crates = crates
        self.targets, self.types, self.passed_on, self.users, self.missing = {}, {}, {}, {}, set()
        self.types_named = {}  # where each type is named in signatures and members
        self.private = set()  # the addresses of private types, which only their own crate can name

    def add_definition(self, crate, module, it):
        for name in it.names:
            self.targets[f"{crate}.specs.{module}", name] = f"definitions/{crate}.html#{module}.{name}"
        for name in it.members:
            self.targets.setdefault((f"{crate}.specs.{module}", name), f"definitions/{crate}.html#{module}.{it.names[0]}")

    def add_item(self, crate, item, is_private=False):
        address = f"crates/{crate}.html#{anchor(item)}"
        if item.kind in ("struct", "enum", "trait"):
            self.types.setdefault(item.name, []).append((crate, item.module, address))
        if item.kind == "const" and not item.owner:
            self.targets[f"{crate}.specs.declared.{item.path.removesuffix('.rt')}.TheConstants", item.name] = address
        if is_private:
            self.private.add(address)

    def address(self, module, name):
        """Returns the address of a definition or of a type, or nothing if it has no page, such as those of std."""
        found = self.targets.get((module, name))
        if not found and (module, name) in self.passed_on:
            return self.address(*self.passed_on[module, name])
        if not found and (module, "") in self.passed_on:
            return self.address(self.passed_on[module, ""][0], name)
        if found or not re.search(r"\.specs\.(declared|contracts)\.", f"{module}."):
            return found
        crate, kind = module.split(".")[0], module.removesuffix(".TheVariants").split(".")[-1]
        found = [(own, at) for it, own, at in self.types.get(kind, []) if it == crate]
        return next((at for own, at in found if own in module.split(".")), found[0][1] if found else None)

    def of_word(self, word, scope, own):
        """Returns the address of a word, and the module and name that it stands for. `own` has the words of its own file."""
        first, _, rest = word.partition(".")
        for name, inner in ((first, ""), (first, rest)):
            if name not in scope and name in own:
                return own[name], (own[name], name)
            module, meant = scope.get(name, ("", ""))
            if module and (meant or inner):
                return self.address(module, meant or inner), (module, meant or inner)
        return None, None

    def code(self, text, scope, own, user, top="../"):
        """Returns the HTML of code in which each defined word is a link. The user, a label with its address, is noted."""
        def link(found):
            address, meant = self.of_word(found[0], scope, own)
            if meant and not address and meant[0].split(".")[0] in self.crates and ".proofs" not in meant[0]:
                self.missing.add(meant)
            if not address:
                return html.escape(found[0])
            if user and user[1] != address:
                self.users.setdefault(address, {})[user[1]] = user[0]
            return f'<a href="{top}{address}">{html.escape(found[0])}</a>'
        parts, at = [], 0
        for found in WORD.finditer(text):
            parts += [html.escape(text[at:found.start()]), link(found)]
            at = found.end()
        return "".join([*parts, html.escape(text[at:])])

    def of_type(self, name, prefix, crate, item):
        """Returns the address of a type that an item of a crate names, or nothing. Of types with the same name, that of the module
        before it or in the import is meant, and otherwise that of the crate."""
        module = prefix or item.imports.get(name, "super")
        module = item.module if module == "super" else module
        found = self.types.get(name, [])
        for which in ([at for it, own, at in found if own == module and it == crate], [at for _, own, at in found if own and own == module],
                      [at for it, _, at in found if it == crate], [at for _, _, at in found if len(found) == 1 and at not in self.private]):
            if which:
                return which[0]
        return None

    def used_by(self, address, users=None, top="../"):
        found = sorted((self.users if users is None else users).get(address, {}).items(), key=lambda it: it[1])
        if not found:
            return ""
        named = ", ".join(f'<a href="{top}{at}"><code>{html.escape(label)}</code></a>' for at, label in found)
        return f'<details><summary>Used by {len(found)}</summary><p>{named}</p></details>'


def anchor(item):
    return ".".join(it for it in (item.module, item.owner, item.name) if it)


def clause(links, it, scope, user):
    kind, name, text = it
    head = f"{kind} {name}".strip()
    return f'<tr><th>{html.escape(head)}</th><td><code>{links.code(text, scope, {}, user)}</code></td></tr>'


def of_types(links, text, crate, item, user):
    """Returns the HTML of a signature, in which each type with a page is a link. That the item names the type is noted, except for
    the item itself and its own calls."""
    def link(found):
        at = links.of_type(found[2], found[1] or "", crate, item)
        if not at:
            return found[0]
        if at != user[1] and at != f"crates/{crate}.html#{'.'.join(it for it in (item.module, item.owner) if it)}":
            links.types_named.setdefault(at, {})[user[1]] = user[0]
        return f'{found[1] + "::" if found[1] else ""}<a href="../{at}">{found[2]}</a>'
    return re.sub(r"\b(?:(\w+)::)?([A-Z]\w+)", link, html.escape(text))


def item_section(links, crate, item):
    """Returns the HTML of an item: its signature, documentation, members and contract."""
    at = f"crates/{crate}.html#{anchor(item)}"
    user = (item.title if item.kind != "impl" else f"{item.name} for {item.owner}", at)
    parts = [f'<section id="{anchor(item)}"><h3><code>{html.escape(user[0])}</code></h3>',
             f"<pre>{of_types(links, item.head, crate, item, user)}</pre>", prose(item.doc)]
    if item.members:
        rows = "".join(f"<tr><td><code>{of_types(links, text, crate, item, user)}</code></td><td>{line(doc)}"
                       + ("<table>" + "".join(clause(links, it, item.scope, user) for it in clauses) + "</table>" if clauses else "")
                       + "</td></tr>" for text, doc, clauses in item.members)
        parts.append(f'<table class="members">{rows}</table>')
    if item.clauses:
        rows = "".join(clause(links, it, item.scope, user) for it in item.clauses)
        parts.append(f'<table class="contract">{rows}</table>')
    if item.kind in ("struct", "enum", "trait"):
        parts.append(links.used_by(at, links.types_named))
    return "\n".join([*parts, "</section>"])


def crate_page(links, crate, said, items, private, below):
    """Returns the page of a crate. Of its private types, those that definitions name are on it."""
    named_by_definitions = [it for it in private if f"crates/{crate}.html#{anchor(it)}" in links.users]
    of_kind = {"Calls": [it for it in items if it.kind == "fn" and not it.owner and not it.is_law],
               "Types": [it for it in items if it.kind in ("struct", "enum", "trait", "type")],
               "Methods": [it for it in items if it.owner and it.kind in ("fn", "const")],
               "Impls": [it for it in items if it.kind == "impl"],
               "Constants": [it for it in items if it.kind == "const" and not it.owner],
               "Laws": [it for it in items if it.is_law],
               "Private types that definitions name": named_by_definitions}
    parts = [f"<h1>{crate}</h1>", prose(said)]
    parts.append("<p>Builds on " + (", ".join(f'<a href="{it}.html">{it}</a>' for it in below) or "nothing") + "."
                 f' Its words: <a href="../definitions/{crate}.html">definitions</a>.</p>')
    for kind, found in of_kind.items():
        if found:
            named = ", ".join(f'<a href="#{anchor(it)}"><code>{html.escape(it.title)}</code></a>' for it in found)
            parts.append(f"<h2>{kind}</h2><p>{named}</p>")
            parts += [item_section(links, crate, it) for it in found]
    return page(crate, "\n".join(parts))


def definitions_page(links, crate, files):
    """Returns the page of a crate's definitions, of which the links and their users have been noted."""
    parts = [f"<h1>Definitions of {crate}</h1>"]
    for module, (first, definitions) in files.items():
        own = own_words(crate, module, definitions)
        parts.append(f'<h2 id="{module}">{module}</h2><p>{line(first)}</p>')
        for it in definitions:
            text = links.code(it.text, it.scope, {name: at for name, at in own.items() if name not in it.names}, None)
            anchors = "".join(f'<a id="{module}.{html.escape(name)}"></a>' for name in it.names)
            users = "".join(links.used_by(f"definitions/{crate}.html#{module}.{name}") for name in it.names)
            parts.append(f"<section>{anchors}<p>{line(it.comment)}</p><pre>{text}</pre>{users}</section>")
    return page(f"Definitions of {crate}", "\n".join(parts))


def own_words(crate, module, definitions):
    return {name: f"definitions/{crate}.html#{module}.{name}" for it in definitions for name in it.names}
