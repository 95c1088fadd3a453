"""Writes the pages of docs/api.py: HTML from what docs/api_sources.py reads."""
import html
import json
import re

import closure
from api_sources import NAME, Item, crate, declared, definition, is_crate

TITLES = (("mod", "Modules"), ("struct", "Structs"), ("enum", "Enums"), ("trait", "Traits"), ("fn", "Functions"), ("const", "Constants"), ("type", "Types"))
SPAN = re.compile(r"`([^`]+)`|\*\*([^*]+)\*\*|\[([^\]]+)\]\(([^)\s]+)\)")
TOKEN = re.compile(r"[^\W\d][\w']*(?:\.[^\W\d][\w']*)*|--[^\n]*|[^\w]+?|\d+")
RUST = re.compile(r"//[^\n]*|'?[A-Za-z_]\w*|\W|\d+")
WORDS = set("pub fn struct enum trait impl const type where mut dyn unsafe extern ghost self Self".split())
GHOST = re.compile(r"ghost (\w+)\s*(?:[:=])?\s*(.*)", re.DOTALL)

STYLE = """:root { color-scheme: light dark; --back: #fff; --fore: #1c1e21; --soft: #5b6470; --line: #dfe3e8; --code: #f4f6f8;
  --link: #0b5cad; --mark: #8a3c00; --word: #6b2fa0 }
@media (prefers-color-scheme: dark) { :root { --back: #15181c; --fore: #e3e6ea; --soft: #9aa4b0; --line: #30363d;
  --code: #1e2329; --link: #7ab7ff; --mark: #f0a868; --word: #c9a2f2 } }
* { box-sizing: border-box }
html { scroll-padding-top: 1rem; -webkit-text-size-adjust: 100% }
body { margin: 0; background: var(--back); color: var(--fore); font: 16px/1.55 system-ui, sans-serif }
a { color: var(--link); text-decoration: none } a:hover { text-decoration: underline }
code, pre { font: 0.875em/1.5 ui-monospace, SFMono-Regular, Menlo, Consolas, "DejaVu Sans Mono", monospace }
p code, li code, td code { background: var(--code); border-radius: 3px; padding: 0.1em 0.3em }
pre { background: var(--code); border-radius: 6px; padding: 0.6rem 0.8rem; margin: 0.4rem 0; white-space: pre-wrap;
  overflow-wrap: anywhere }
.word { color: var(--word) } .comment { color: var(--soft) }
.page { display: grid; grid-template-columns: 15rem minmax(0, 54rem); gap: 2.5rem; max-width: 76rem; margin: 0 auto;
  padding: 1.2rem 1.5rem 4rem }
.plain { max-width: 58rem; margin: 0 auto; padding: 1.2rem 1.5rem 4rem }
nav.side { position: sticky; top: 0; align-self: start; max-height: 100vh; overflow: auto; padding: 0.5rem 0;
  font-size: 0.9rem }
nav.side h2 { font-size: 0.8rem; color: var(--soft); margin: 0.9rem 0 0.2rem; border: 0; padding: 0 }
nav.side ul, ul.names { list-style: none; margin: 0; padding: 0 } nav.side li { overflow-wrap: anywhere }
nav.side summary { display: none }
h1 { font-size: 1.7rem; line-height: 1.25; margin: 0.3rem 0 0.8rem; overflow-wrap: anywhere }
h2 { font-size: 1.2rem; margin: 2.2rem 0 0.6rem; padding-bottom: 0.2rem; border-bottom: 1px solid var(--line) }
h3 { margin: 1.8rem 0 0.2rem } h4 { margin: 1.1rem 0 0.2rem } .inside > div:first-child h4 { margin-top: 0 }
.inside p { margin: 0.3rem 0 }
h3, h4 { overflow-wrap: anywhere } h3 a.self, h4 a.self { color: inherit }
p.where { margin: 0 0 1rem } span.where { margin-left: 0.5em }
.where { color: var(--soft); font-size: 0.8rem; font-weight: normal }
h3 code { font-size: 1.1rem; font-weight: 600 } h4 code { font-size: 0.95rem; font-weight: 600 }
h3 { border-top: 1px solid var(--line); padding-top: 1.1rem } h2 + h3 { border-top: 0; padding-top: 0; margin-top: 0.8rem }
.inside { border-left: 2px solid var(--line); padding-left: 1rem; margin-top: 0.6rem }
.clauses { margin: 0.3rem 0 0.6rem; border-left: 3px solid var(--mark); padding-left: 0.7rem }
.clause { margin: 0.35rem 0 } .clause .label { color: var(--mark); font-size: 0.8rem }
.clause pre { padding: 0.25rem 0.6rem; margin: 0.1rem 0 }
:target { scroll-margin-top: 1rem } :target > .self { background: var(--code); box-shadow: 0 0 0 4px var(--code) }
table { border-collapse: collapse; width: 100% }
td, th { text-align: left; vertical-align: top; padding: 0.3rem 0.8rem 0.3rem 0; border-bottom: 1px solid var(--line) }
td:first-child { white-space: nowrap; width: 13rem }
input { width: 100%; font: inherit; padding: 0.6rem 0.8rem; color: inherit; background: var(--code);
  border: 1px solid var(--line); border-radius: 6px }
ul.names li { padding: 0.3rem 0; border-bottom: 1px solid var(--line) } .kind { color: var(--soft); font-size: 0.85rem }
@media (max-width: 50rem) { .page { display: block; padding: 0.8rem 1rem 3rem } .plain { padding: 0.8rem 1rem 3rem }
  nav.side { position: static; max-height: none; border-bottom: 1px solid var(--line); padding-bottom: 0.6rem }
  nav.side summary { display: list-item; cursor: pointer; color: var(--link) }
  .inside { padding-left: 0.6rem } td:first-child { white-space: normal; width: 9rem; overflow-wrap: anywhere } }
"""

SEARCH = """const input = document.getElementById("search"), list = document.getElementById("found");
const rank = (name, word) => name === word ? 0 : name.split("::").pop() === word ? 1 : name.startsWith(word) ? 2
  : name.split("::").pop().startsWith(word) ? 3 : name.includes(word) ? 4 : 9;
function look() {
  const word = input.value.trim().toLowerCase();
  list.replaceChildren();
  document.getElementById("all").hidden = word !== "";
  if (!word) return;
  const found = NAMES.map(it => [rank(it[0].toLowerCase(), word), it]).filter(it => it[0] < 9);
  found.sort((a, b) => a[0] - b[0] || a[1][0].length - b[1][0].length || (a[1][0] < b[1][0] ? -1 : 1));
  for (const [, [name, kind, home, href]] of found.slice(0, 80)) {
    const line = document.createElement("li"), link = document.createElement("a"), more = document.createElement("span");
    link.href = href; link.textContent = name; more.className = "kind"; more.textContent = ` ${kind}, ${home}`;
    line.append(link, more); list.append(line);
  }
  const rest = document.createElement("li");
  rest.textContent = found.length === 0 ? "Nothing has this name." : found.length > 80 ? `And ${found.length - 80} more.` : "";
  if (rest.textContent) list.append(rest);
}
input.addEventListener("input", look);
// The word after # is looked for: index.html#Outbox
input.value = decodeURIComponent(location.hash.slice(1));
look();
"""


def escaped(text):
    return html.escape(text, quote=True)


def page(title, body, root, wide=False):
    return (
        '<!doctype html>\n<html lang="en">\n<head>\n<meta charset="utf-8">\n'
        '<meta name="viewport" content="width=device-width, initial-scale=1">\n'
        f'<title>{escaped(title)}</title>\n<link rel="stylesheet" href="{root}style.css">\n</head>\n'
        f'<body>\n<div class="{"page" if wide else "plain"}">\n{body}\n</div>\n</body>\n</html>\n'
    )


def link(href, inside):
    return f'<a href="{escaped(href)}">{inside}</a>'


class Site:
    """All pages: where each item and each definition is, and who names a definition."""

    def __init__(self, faces):
        self.faces = faces
        self.homes, self.definitions, self.citing, self.names = {}, {}, {}, []
        self.counts = dict.fromkeys(("pages", "items", "clauses", "definitions"), 0)
        for face in sorted(faces, key=lambda name: faces.index(name)):
            self.place(face)
        for item, text in self.all_clauses():
            for there in named_in(item.file.scope, text):
                self.citing.setdefault(there, []).append(self.homes[item])
        self.place_definitions()

    def place(self, face):
        """Gives a place to what a crate exports, where its own crate has no page or is this one."""
        for name, item in crate(face).exports.items():
            if not isinstance(item, Item):
                for inner in item.items if item.crate == face or item.crate not in self.faces else []:
                    if inner.is_public and inner not in self.homes:
                        self.add(inner, face, f"{name}::{inner.name}")
            elif item.file.crate == face or item.file.crate not in self.faces and item not in self.homes:
                self.add(item, face, name)

    def add(self, item, face, label):
        anchor = label.replace("::", ".")
        self.homes[item] = (label, f"{face}.html#{anchor}")
        self.names.append((label, item.kind, face, self.homes[item][1]))
        self.counts["items"] += 1
        for kind, inner in members(item):
            inner_label = f"{label}::{inner.name}"
            if inner not in self.homes:
                part = "" if kind == "field" else f".{inner.name}"
                self.homes[inner] = (inner_label, f"{face}.html#{anchor}{part}")
                self.names.append((inner_label, kind, face, self.homes[inner][1]))
                self.counts["items"] += 1

    def all_clauses(self):
        """Every clause of an item that has a place, and the ghost members of traits and of what contracts see."""
        for item in list(self.homes):
            yield from ((item, text) for _, _, text in item.clauses)
            yield from ((item, text) for text in ghosts_of(item))

    def place_definitions(self):
        """A page for each definition that a clause names, and for those that these rest on."""
        taken = set()
        for file, name in sorted(closure.closure(self.citing), key=lambda it: (str(it[0].path), it[1])):
            crate_name, _, *parts = file.path.relative_to(closure.CRATES).with_suffix("").parts
            base = "/".join(["definitions", crate_name, *parts, re.sub(r"[^A-Za-z0-9_]", lambda it: f"-{ord(it[0]):x}", name)])
            at = base
            while at.lower() in taken:
                at += "-2"
            taken.add(at.lower())
            self.definitions[file, name] = f"{at}.html"
            self.names.append((name, "definition", f"{crate_name}, {'/'.join(parts)}", f"{at}.html"))

    def item_named(self, file, name):
        """The item with a place that a name in a file of code means."""
        for item in file.items:
            if item.name == name and item in self.homes:
                return item
        for _, path, called in file.uses:
            if called == name and (path[0] == "crate" or is_crate(path[0])):
                found = crate(file.crate).item_at(path)
                return found if found in self.homes else None
        return None

    def declared_at(self, scope, name):
        """The place of a type of the code that a clause names."""
        found = declared(scope, name)
        for item, (label, href) in self.homes.items() if found else ():
            if item.name == found[1] and item.file.crate == found[0] and "::" not in label:
                return href
        return None

    def type_at(self, scope, name):
        """The place of a type that a clause names as the code does, without an import of its own."""
        first = name.split(".")[0]
        item = self.item_named(scope.file, first) if first[:1].isupper() and hasattr(scope, "file") and first not in scope.imports else None
        return self.homes[item][1] if item else None


def members(item):
    """What is inside an item that people use: variants, a trait's members, public fields, methods and their constants."""
    if item.kind == "enum":
        yield from (("variant", inner) for inner in item.inside)
    if item.kind == "trait":
        yield from (("member", inner) for inner in item.inside if inner.kind in ("fn", "type", "const") or inner.kind == "ghost" and inner.name != "use")
    if item.kind == "struct":
        yield from (("field", inner) for inner in item.inside if inner.is_public and inner.kind == "part")
    for trait, block in impls_of(item):
        if not trait:
            yield from (("method" if inner.kind == "fn" else inner.kind, inner) for inner in block.inside if inner.is_public)


def impls_of(item):
    return crate(item.file.crate).impls.get(item.name, []) if item.kind in ("struct", "enum", "type") else []


def model_of(item):
    """What contracts see of a type: the members of its impl of Model."""
    for trait, block in impls_of(item):
        if trait == "Model":
            return [inner for inner in block.inside if inner.kind == "ghost" and inner.name in ("Value", "view", "invariant")]
    return []


def ghosts_of(item):
    if item.kind == "ghost":
        return [GHOST.sub(r"\2", item.signature)]
    return [GHOST.sub(r"\2", inner.signature) for inner in model_of(item)]


def named_in(scope, text):
    """The definitions that a clause names, in order, each once."""
    out = []
    for name in closure.names_in(scope, text, ""):
        there = closure.meant(scope, name)
        if there and there not in out:
            out.append(there)
    return out


class Writer:
    """One page's text: links are seen from the folder that it is in."""

    def __init__(self, site, root):
        self.site, self.root = site, root

    def antt(self, scope, text, own=None):
        """A clause or a definition, with a link at each name that is a definition or a type of the code."""
        out, known = [], {}
        wanted = set(closure.named_by(*own) if own else named_in(scope, text))
        for token in TOKEN.findall(text):
            if token not in known:
                known[token] = self.target(scope, token, wanted)
            said = escaped(token)
            if token.startswith("--"):
                said = f'<span class="comment">{said}</span>'
            out.append(link(self.root + known[token], said) if known[token] else said)
        return "".join(out)

    def target(self, scope, token, wanted):
        if not (token[0].isalpha() or token[0] == "_"):
            return None
        there = closure.meant(scope, token)
        if there in wanted:
            return self.site.definitions.get(there)
        return None if there else self.site.declared_at(scope, token) or self.site.type_at(scope, token)

    def rust(self, file, text):
        """A signature, with a link at each type that has a place."""
        out = []
        for token in RUST.findall(text):
            item = self.site.item_named(file, token) if token[:1].isupper() else None
            said = escaped(token)
            if item:
                said = link(self.root + self.site.homes[item][1], said)
            elif token in WORDS:
                said = f'<span class="word">{said}</span>'
            elif token.startswith("//"):
                said = f'<span class="comment">{said}</span>'
            out.append(said)
        return "".join(out)

    def docs(self, file, lines):
        """A comment as HTML: paragraphs, lists, blocks of code, and code between backticks."""
        out = []
        for block in re.split(r"\n\s*\n", "\n".join(lines).strip()):
            if block.startswith("```"):
                out.append(f"<pre>{escaped(re.sub(r'^```.*?$|^```$', '', block, flags=re.MULTILINE).strip())}</pre>")
            elif re.match(r"(?:- |\d+\. )", block):
                parts = re.split(r"(?m)^(?:- |\d+\. )", block)[1:]
                kind = "ul" if block.startswith("-") else "ol"
                out.append(f"<{kind}>{''.join(f'<li>{self.spans(file, part)}</li>' for part in parts)}</{kind}>")
            elif block:
                out.append(f"<p>{self.spans(file, block)}</p>")
        return "\n".join(out)

    def spans(self, file, text):
        out, at = [], 0
        for it in SPAN.finditer(text):
            out.append(escaped(text[at : it.start()]))
            if it[1]:
                out.append(self.code_span(file, it[1]))
            else:
                out.append(f"<strong>{escaped(it[2])}</strong>" if it[2] else link(it[4], escaped(it[3])))
            at = it.end()
        return "".join(out) + escaped(text[at:])

    def code_span(self, file, text):
        first, _, rest = text.rstrip("()").partition("::")
        item = self.site.item_named(file, first) if file and NAME.fullmatch(first) else None
        for inner in [inner for _, inner in members(item)] if item and rest else []:
            item = inner if inner.name == rest and inner in self.site.homes else item
        said = f"<code>{escaped(text)}</code>"
        return link(self.root + self.site.homes[item][1], said) if item else said

    def clauses(self, item):
        if not item.clauses:
            return ""
        out = []
        for keyword, label, text in item.clauses:
            self.site.counts["clauses"] += 1
            named = f" <b>{escaped(label)}</b>" if label else ""
            out.append(f'<div class="clause"><span class="label">{keyword}{named}</span><pre>{self.antt(item.file.scope, text)}</pre></div>')
        return f'<div class="clauses">\n{chr(10).join(out)}\n</div>'

    def where(self, item):
        return f'<span class="where">{escaped(str(item.file.path.relative_to(closure.CRATES)))}:{item.line}</span>'

    def heading(self, item, level, title):
        anchor = self.site.homes[item][1].partition("#")[2]
        return f'<h{level} id="{escaped(anchor)}"><a class="self" href="#{escaped(anchor)}"><code>{escaped(title)}</code></a>{self.where(item)}</h{level}>'


class CratePage(Writer):
    """The page of a crate."""

    def __init__(self, site, face):
        super().__init__(site, "")
        self.face, self.crate = face, crate(face)

    def own(self):
        """The exported items with their place here, by kind, and those whose place is elsewhere."""
        here, there = {}, []
        for name, item in self.crate.exports.items():
            if not isinstance(item, Item):
                inside = [inner for inner in item.items if self.is_here(inner)]
                here.setdefault("mod", []).append((name, item)) if inside else there.append((name, item))
            elif self.is_here(item):
                here.setdefault(item.kind, []).append((name, item))
            else:
                there.append((name, item))
        return here, there

    def is_here(self, item):
        return self.site.homes.get(item, ("", ""))[1].startswith(f"{self.face}.html#")

    def text(self):
        here, there = self.own()
        head = f'<h1><code>{self.face}</code></h1>\n{self.docs(None, self.crate.lib.head)}'
        parts = []
        for kind, title in TITLES:
            if kind in here:
                parts.append(f"<h2>{title}</h2>")
                parts += [self.module(name, item) if kind == "mod" else self.item(name, item) for name, item in here[kind]]
        body = f"{self.side(here)}\n<main>\n{head}\n{chr(10).join(parts)}\n{self.elsewhere(there)}\n</main>"
        return page(self.face, body, "", wide=True)

    def side(self, here):
        parts = []
        for kind, title in TITLES:
            rows = "".join(f'<li><a href="#{escaped(name)}"><code>{escaped(name)}</code></a></li>' for name, _ in here.get(kind, []))
            parts.append(f"<h2>{title}</h2><ul>{rows}</ul>" if rows else "")
        fold = 'if (matchMedia("(max-width: 50rem)").matches) document.querySelector("nav.side details").open = false;'
        inside = f'<details open><summary>In this crate</summary>{"".join(parts)}</details>'
        return f'<nav class="side">{link("index.html", "All crates")}{inside}</nav><script>{fold}</script>'

    def elsewhere(self, there):
        rows = []
        for name, item in there:
            if isinstance(item, Item) and item in self.site.homes:
                href = self.site.homes[item][1]
            elif not isinstance(item, Item):
                href = f"{item.crate}.html#{item.path.stem}"
            else:
                continue
            rows.append(f'<tr><td>{link(href, f"<code>{escaped(name)}</code>")}</td><td>{self.first_sentence(item)}</td></tr>')
        return f"<h2>Also exported</h2>\n<table>{''.join(rows)}</table>" if rows else ""

    def first_sentence(self, item):
        lines = item.docs if isinstance(item, Item) else item.head
        text = " ".join(lines).strip()
        return self.spans(item.file if isinstance(item, Item) else None, re.split(r"(?<=\.)\s", text)[0])

    def module(self, name, file):
        rows = []
        for item in file.items:
            if self.is_here(item):
                anchor = self.site.homes[item][1].partition("#")[2]
                rows.append(f'<div class="member" id="{anchor}"><pre>{self.rust(file, item.signature)}</pre>{self.docs(file, item.docs)}</div>')
        return f'<h3 id="{name}"><code>{name}</code></h3>\n{self.docs(None, file.head)}\n{"".join(rows)}'

    def item(self, name, item):
        parts = [self.heading(item, 3, name), f"<pre>{self.signature(item)}</pre>", self.docs(item.file, item.docs), self.clauses(item), self.seen(item)]
        listed = [(kind, inner) for kind, inner in members(item) if kind in ("variant", "member")]
        called = [(kind, inner) for kind, inner in members(item) if kind not in ("variant", "member", "field")]
        parts += [self.inside(listed), self.traits(item), self.inside(called)]
        return "\n".join(part for part in parts if part)

    def signature(self, item):
        """A struct is shown with its public fields; of an enum and a trait the members follow one by one."""
        if item.kind != "struct" or not item.body:
            return self.rust(item.file, item.signature)
        lines = []
        for field in (inner for inner in item.inside if inner.is_public):
            lines += [f"/// {line}".rstrip() for line in field.docs] + f"{field.signature},".splitlines()
        if any(not inner.is_public for inner in item.inside):
            lines.append("// private fields")
        text = "\n".join([f"{item.signature} {{", *(f"    {line}" for line in lines), "}"])
        return self.rust(item.file, text)

    def seen(self, item):
        rows = []
        for inner in model_of(item):
            title = {"Value": "contracts see it as", "view": "by", "invariant": "always"}[inner.name]
            text = re.sub(r"\A\{\s*|\s*\}\Z", "", GHOST.sub(r"\2", inner.signature))
            rows.append(f'<div class="clause"><span class="label">{title}</span><pre>{self.antt(item.file.scope, text)}</pre></div>')
        return f'<div class="clauses">{"".join(rows)}</div>' if rows else ""

    def traits(self, item):
        names = []
        for trait, block in impls_of(item):
            if trait and trait not in ("Model", "Drop"):
                there = self.site.item_named(block.file, trait)
                said = f"<code>{escaped(trait)}</code>"
                names.append(link(self.site.homes[there][1], said) if there else said)
        return f"<p>Implements {', '.join(dict.fromkeys(names))}.</p>" if names else ""

    def inside(self, listed):
        parts = []
        for kind, inner in listed:
            shown = self.ghost(inner) if inner.kind == "ghost" else self.rust(inner.file, inner.signature)
            text = "" if inner.signature == inner.name else f"<pre>{shown}</pre>\n"
            parts.append(f'<div class="{kind}">{self.heading(inner, 4, inner.name)}\n{text}{self.docs(inner.file, inner.docs)}{self.clauses(inner)}</div>')
        return f'<div class="inside">{chr(10).join(parts)}</div>' if parts else ""

    def ghost(self, item):
        text = self.antt(item.file.scope, GHOST.sub(r"\2", item.signature))
        return f'<span class="word">ghost</span> {escaped(item.name)}: {text}'


def definition_page(site, file, name):
    """The page of a definition: its comment, its text, what it rests on, and who names it."""
    href = site.definitions[file, name]
    root = "../" * href.count("/")
    writer, it = Writer(site, root), definition(file, name)
    rests = [(there[1], site.definitions[there]) for there in dict.fromkeys(closure.named_by(file, name)) if there in site.definitions]
    cited = list(dict.fromkeys(site.citing.get((file, name), [])))
    users = site.users.get((file, name), [])
    path = file.path.relative_to(closure.CRATES)
    parts = [
        f'<p>{link(root + "index.html", "All crates")} · {link(root + path.parts[0] + ".html", path.parts[0]) if path.parts[0] in site.faces else path.parts[0]}</p>',
        f'<h1><code>{escaped(name)}</code></h1>\n<p class="where">crates/{escaped(str(path))}, line {it.line}</p>',
        writer.docs(None, [" ".join(it.comment)]),
        f"<pre>{writer.antt(file, it.text, (file, name))}</pre>",
        listing(root, "It rests on", rests),
        listing(root, "Clauses that name it", cited),
        listing(root, "Definitions that name it", users),
    ]
    return page(name, "\n".join(part for part in parts if part), root)


def listing(root, title, rows):
    said = ", ".join(link(root + href, f"<code>{escaped(name)}</code>") for name, href in rows)
    return f"<h2>{title}</h2>\n<p>{said}</p>" if rows else ""


def index_page(site, families, says):
    parts = ["<h1>Sazhonthil: the public calls and what their contracts say</h1>", f"<p>{says}</p>"]
    parts.append('<p><input id="search" type="search" placeholder="Search by name: a type, a call, a definition" autofocus></p><ul class="names" id="found"></ul><div id="all">')
    for title, crates in families:
        rows = [f'<tr><td>{link(f"{name}.html", f"<code>{name}</code>")}</td><td>{Writer(site, "").spans(None, said)}</td></tr>' for name, said in crates if name in site.faces]
        if rows:
            parts.append(f"<h2>{escaped(title)}</h2><table>{''.join(rows)}</table>")
    parts.append('</div><script src="names.js"></script><script src="search.js"></script>')
    return page("Sazhonthil: API", "\n".join(parts), "")


def pages(site, families):
    """Every file by its path."""
    site.users = {}
    for file, name in site.definitions:
        for there in dict.fromkeys(closure.named_by(file, name)):
            site.users.setdefault(there, []).append((name, site.definitions[file, name]))
    out = {f"{face}.html": CratePage(site, face).text() for face in site.faces}
    for file, name in site.definitions:
        out[site.definitions[file, name]] = definition_page(site, file, name)
    site.counts["definitions"] = len(site.definitions)
    says = f"{site.counts['items']:,} items with {site.counts['clauses']:,} clauses; each definition that a clause names, and those that it rests on, has a page: {len(site.definitions):,}. A name in a clause without a link is a parameter, or the kit's."
    out["index.html"] = index_page(site, families, says)
    out["style.css"], out["search.js"] = STYLE, SEARCH
    names = ",\n".join(json.dumps(name, ensure_ascii=False) for name in sorted(site.names))
    out["names.js"] = f"const NAMES = [\n{names}\n];\n"
    site.counts["pages"] = sum(path.endswith(".html") for path in out)
    return out
