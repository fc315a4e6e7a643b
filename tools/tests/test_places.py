"""The counting of places that could be written in a newer form."""
import importlib.machinery
import importlib.util
import os
import unittest

PATH = os.path.join(os.path.dirname(os.path.dirname(os.path.abspath(__file__))), "places")
LOADER = importlib.machinery.SourceFileLoader("places", PATH)
places = importlib.util.module_from_spec(importlib.util.spec_from_loader("places", LOADER))
LOADER.exec_module(places)

SOURCE = """
enum Found {
    Nothing,
    One(u32),
}

struct Report {
    number: u32,
    taken: u64,
}

const ADD_KIND: u32 = 1;

fn first(part: &[u32]) -> u32
    requires { length part.now ≡ 6 }
{
    let mut i: usize = 0;
    while i < part.len() {
        i += 1;
    }
    UNSOUND
}

fn low(x: u64) -> u32 {
    (x % 4294967296) as u32
}
"""

TWIN = """
fn pick(first: bool, x: u32, y: u32) -> u32 {
    if first { x + 100 } else { y + 100 }
}

fn choose(first: bool, x: i64, y: i64) -> i64 {
    if first { x + 7 } else { y + 7 }
}
"""


class Places(unittest.TestCase):
    def found(self, sources):
        kept = places.files
        places.files = lambda commit, pattern: list(sources.items()) if "src" in pattern else []
        try:
            return [(row, place[2]) for row, place in places.places(None)]
        finally:
            places.files = kept

    def test_forms(self):
        found = self.found({"crates/a/src/a.rt": SOURCE})
        self.assertIn(("1 enums of the shape of Option or Result", "Found"), found)
        self.assertIn(("1 flags or numbers with a value beside", "Report"), found)
        self.assertIn(("1 numbers for kinds", "ADD_KIND"), found)
        self.assertIn(("1 numbers for refusals", "UNSOUND"), found)
        self.assertIn(("3 loops by hand: while", "while i < part.len() {"), found)
        self.assertIn(("4 equality, order, copying, conversion, printing by hand", "low"), found)
        self.assertFalse([row for row, _ in found if row.startswith("5")])

    def test_clause_of_three(self):
        found = self.found({"crates/%s/src/a.rt" % name: SOURCE for name in "abc"})
        self.assertEqual(3, len([row for row, _ in found if row == "5 a fact asked by three functions or more"]))

    def test_twins(self):
        found = self.found({"crates/a/src/a.rt": TWIN})
        self.assertEqual([("2 twins", "pick"), ("2 twins", "choose")], found)

    def test_text_is_no_twin(self):
        text = 'fn %s() -> &\'static str {\n    "what\\nit says, which is long enough to be a body of some size"\n}\n'
        self.assertEqual([], self.found({"crates/a/src/a.rt": text % "one" + "\n" + text % "two"}))


if __name__ == "__main__":
    unittest.main()
