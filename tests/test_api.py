"""Tests of docs/api.py and what it reads and writes: `python3 -m unittest discover tests`."""
import pathlib
import re
import sys
import unittest

sys.dont_write_bytecode = True
TOP = pathlib.Path(__file__).resolve().parent.parent
sys.path.insert(0, str(TOP / "docs"))
import api
import api_pages
import api_sources
import closure


class Text:
    """A file of code that is only a text."""

    def __init__(self, text):
        self.text, self.mask = text, api_sources.blanked(text)

    def line_of(self, at):
        return self.text.count("\n", 0, at) + 1


def items_of(text):
    return list(api_sources.Reader(Text(text), 0, len(text)).items())


class Items(unittest.TestCase):
    def test_a_function_has_its_comment_its_signature_and_its_clauses(self):
        (item,) = items_of(
            "/// Adds `n`.\n#[tactic(auto, using(a::b))]\npub fn add(&mut self, n: &[u8]) -> Result<(), E>\nwhere\n    T: A,\n"
            "    requires room { f n.now { x = 1 } }\n    ensures { self.new ≡ [] }\n{\n    if n == '{' { \"}\" }\n}\n"
        )
        self.assertEqual((item.kind, item.name, item.docs, item.line), ("fn", "add", ["Adds `n`."], 3))
        self.assertEqual(item.signature, "pub fn add(&mut self, n: &[u8]) -> Result<(), E>\nwhere\n    T: A,")
        self.assertEqual(item.clauses, [("requires", "room", "f n.now { x = 1 }"), ("ensures", "", "self.new ≡ []")])

    def test_a_function_of_a_trait_ends_with_a_semicolon(self):
        (item,) = items_of("pub trait A {\n    /// Left.\n    ghost left: { Self → ℕ };\n\n    fn read(&self) -> u8\n        ensures a { b };\n}\n")
        self.assertEqual([(inner.kind, inner.name) for inner in item.inside], [("ghost", "left"), ("fn", "read")])
        self.assertEqual(item.inside[1].clauses, [("ensures", "a", "b")])

    def test_variants_and_fields_end_with_commas(self):
        (item,) = items_of("pub enum E<'a> {\n    /// One, or\n    /// more.\n    A { x: u8, y: u8 },\n    B(&'a str),\n    C,\n}\n")
        self.assertEqual([inner.signature for inner in item.inside], ["A { x: u8, y: u8 }", "B(&'a str)", "C"])
        self.assertEqual(item.inside[0].docs, ["One, or", "more."])

    def test_an_impl_is_named_by_its_trait_and_its_type(self):
        names = [item.name for item in items_of("impl<T: A<B>> Model for List<T> where T: A {}\nimpl Opening {}\nimpl<'a> a::B for &'a c::D {}\n")]
        self.assertEqual(names, ["Model for List", "Opening", "B for D"])

    def test_a_use_names_paths(self):
        uses = api_sources.uses_of("pub use a::{b, c::{D as E, F}}")
        self.assertEqual(uses, [(True, ["a", "b"], "b"), (True, ["a", "c", "D"], "E"), (True, ["a", "c", "F"], "F")])


class Exports(unittest.TestCase):
    def test_each_name_that_a_face_exports_is_found(self):
        for face in api.FACES:
            crate = api_sources.crate(face)
            wanted = {name for is_public, _, name in crate.lib.uses if is_public}
            self.assertEqual(wanted - set(crate.exports), set(), face)

    def test_each_face_is_a_crate_of_the_list(self):
        listed = [name for _, crates in api_sources.families(TOP / "crates.txt") for name, _ in crates]
        self.assertEqual([face for face in listed if face in api.FACES], list(api.FACES))

    def test_a_definition_has_its_comment_and_its_line(self):
        file = closure.File.at(TOP / "crates" / "sshc_hosts" / "specs" / "Judgement.antt")
        it = api_sources.definition(file, "has_key")
        self.assertEqual(it.comment, ["the line has the key"])
        self.assertTrue(it.text.startswith("abbrev pub has_key : Key → KnownKey → Bool\nhas_key key known ="))
        self.assertIn("has_key", file.path.read_text(encoding="utf-8").splitlines()[it.line - 1])


class Pages(unittest.TestCase):
    @classmethod
    def setUpClass(cls):
        cls.families = api_sources.families(TOP / "crates.txt")
        cls.pages = api_pages.pages(api_pages.Site(api.FACES), cls.families)

    def test_each_link_leads_to_a_page_and_a_place(self):
        places = {path: set(re.findall(r'id="([^"]+)"', text)) for path, text in self.pages.items()}
        for path, text in self.pages.items():
            for href in set(re.findall(r'href="([^"]+)"', text)) if path.endswith(".html") else ():
                to, _, place = href.partition("#")
                to = str(pathlib.PurePosixPath(path).parent / to) if to else path
                parts = []
                for part in to.split("/"):
                    parts = parts[:-1] if part == ".." else parts + [part]
                self.assertIn("/".join(parts), self.pages, f"{path}: {href}")
                if place:
                    self.assertIn(place, places["/".join(parts)], f"{path}: {href}")

    def test_each_clause_of_a_call_is_shown(self):
        page = self.pages["sshc_hosts.html"]
        item = api_sources.crate("sshc_hosts").exports["judge_text"]
        part = page[page.index('id="judge_text"') : page.index('id="known_host_keys"')]
        self.assertEqual(part.count('<div class="clause">'), len(item.clauses))
        self.assertIn("definitions/sshc_hosts/Judgement/judged.html", part)

    def test_the_same_sources_give_the_same_pages(self):
        self.assertEqual(api_pages.pages(api_pages.Site(api.FACES), self.families), self.pages)

    def test_comments_become_paragraphs_and_code(self):
        said = api_pages.Writer(None, "").docs(None, ["Reads `a < b`,", "once.", "", "- one", "- two"])
        self.assertEqual(said, "<p>Reads <code>a &lt; b</code>,\nonce.</p>\n<ul><li>one\n</li><li>two</li></ul>")


if __name__ == "__main__":
    unittest.main()
