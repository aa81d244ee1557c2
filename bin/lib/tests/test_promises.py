"""The script that lists the definitions of the promises, over a small tree: two public modules and a private one."""
import os
import re
import shutil
import subprocess
import unittest

import kit
from lib import desks

ROOT = "#![tactic(auto)]\n\npub mod first;\npub mod second;\n\nmod hidden;\n"
FIRST = """//! The first.
ghost use Rattle.rtgs_book.specs.Books.{IsBook, IsLater as comes_later};

/// Says what a book is.
pub fn one()
    ensures { IsBook 1 }
{}
"""
SECOND = """//! The second.
ghost use Rattle.rtgs_promises.specs.Own.{IsOwn};

/// Says it of both.
pub fn both()
    ensures { IsOwn 2 }
{
    one();
}

/// Says nothing of a definition of ours.
pub fn none()
    ensures { 1 ≡ 1 }
{}
"""
HIDDEN = """/// Is no promise.
pub fn hidden()
    ensures { IsBook 1 }
{}
"""
BOOKS = """use Rattle.rtgs_book.specs.Days.{day}
-- what a book is, unlike IsLater
abbrev pub IsBook : ℕ → Type 0
IsBook n = day n ≡ n

abbrev pub IsLater : ℕ → Type 0
IsLater n = day n ≡ 2
"""
DAYS = "abbrev pub day : ℕ → ℕ\nday n = n\n"
OWN = "use Rattle.rtgs_book.specs.Books.{IsBook}\nabbrev pub IsOwn : ℕ → Type 0\nIsOwn n = IsBook n\n"
# what is passed on: a file, a definition under another name, a type by a file of definitions, and one by a crate's root
PASSED = {
    "rtgs_book/specs/Lib.antt": "pub mod Books\npub use Rattle.rtgs_lists.specs.Sums\n",
    "rtgs_lists/specs/Sums.antt": "abbrev pub sum : ℕ → ℕ\nsum n = n\n",
    "rtgs_book/specs/Marks.antt":
        "pub use Rattle.rtgs_book.specs.Days.{day as date}\npub use Rattle.rtgs_book.specs.declared.mark.Mark.{Mark}\n",
    "rtgs_book/src/lib.rt": "mod mark;\n\npub use crate::mark::Mark;\npub use rtgs_lists::Rows;\n",
    "rtgs_book/src/mark.rt": "use rtgs_lists::Count;\n\n/// A mark.\npub struct Mark {\n    pub count: Count,\n}\n\n"
                             "/// Is no type.\npub fn marked() {\n}\n",
    "rtgs_lists/src/lib.rt": "mod counts;\n\npub use counts::{\n    Count, Rows,\n};\n",
    "rtgs_lists/src/counts.rt": "/// How many.\npub struct Count(u64);\n\n/// Rows.\npub enum Rows {\n    One,\n}\n",
}
# definitions in modules with parameters, whose heads may take two lines, and one behind them
IN_MODULES = """use Rattle.rtgs_book.specs.Days.{day}
use Rattle.rtgs_lists.specs.Sums.{sum}
module _ (n : ℕ)
    (is : day n ≡ n) where
  -- what stands inside
  pub record IsWhole : Type 0 where
    pub is : n ≡ n

  module _ (m : ℕ) where
    abbrev pub IsInner : Type 0
    IsInner = sum m ≡ n

abbrev pub IsBare : ℕ → Type 0
IsBare n = n ≡ n
"""
# each name of them, and what it leads to
BY_NAME = {
    "Rattle.rtgs_book.specs.Sums.{sum}": ("sum 1 ≡ 1", "rtgs_lists Sums", 2),
    "Rattle.rtgs_book.specs.Sums as sums": ("sums.sum 1 ≡ 1", "rtgs_lists Sums", 2),
    "Rattle.rtgs_book.specs.Marks.{date}": ("date 1 ≡ 1", "rtgs_book Days", 2),
    "Rattle.rtgs_book.specs.Marks.{Mark}": ("(it : Mark) → ⊤", "rtgs_book mark.rt; rtgs_lists counts.rt", 4),
    "Rattle.rtgs_book.specs.declared.Mark.{Mark}": ("(it : Mark) → ⊤", "rtgs_book mark.rt; rtgs_lists counts.rt", 4),
}
MODELLED = """//! A key.
ghost use Rattle.rtgs_lists.specs.Sums.{sum};
use crate::mark::Mark;
use rtgs_lists::{Count, Rows};

/// Contracts see the count.
pub struct Key {
    count: Count,
    mark: Mark,
}

impl Model for Key {
    ghost use Rattle.rtgs_book.specs.Days.{day};

    ghost Value = { ℕ };

    ghost view = { λ k. day k.count };

    ghost invariant = { λ k. sum k.count ≡ 1 };
}

/// What has one.
pub trait Keyed {
    // Its kind.
    ghost kind: { Self → Rows };

    fn key(&self) -> Mark;
}
"""


class Promises(unittest.TestCase):
    def setUp(self):
        folder = desks.room()
        self.addCleanup(folder.cleanup)
        self.top = f"{folder.name}/tree"
        shutil.copytree(f"{kit.TOP}/bin", f"{self.top}/bin", ignore=shutil.ignore_patterns("__pycache__"))
        for name, text in (("rtgs_promises/src/lib.rt", ROOT), ("rtgs_promises/src/first.rt", FIRST),
                           ("rtgs_promises/src/second.rt", SECOND), ("rtgs_promises/src/hidden.rt", HIDDEN),
                           ("rtgs_promises/specs/Own.antt", OWN), ("rtgs_book/specs/Books.antt", BOOKS),
                           ("rtgs_book/specs/Days.antt", DAYS)):
            self.write(name, text)

    def write(self, name, text):
        os.makedirs(os.path.dirname(f"{self.top}/crates/{name}"), exist_ok=True)
        with open(f"{self.top}/crates/{name}", "w", encoding="utf-8") as it:
            it.write(text)

    def read(self, module):
        with open(f"{self.top}/crates/rtgs_promises/src/{module}.rt", encoding="utf-8") as it:
            return it.read()

    def run_script(self, *words):
        ran = subprocess.run([f"{self.top}/bin/promises", *words], capture_output=True, text=True, check=False)
        return ran.returncode, ran.stdout.splitlines()

    def test_the_lists_of_each_public_module_are_written_once(self):
        counts = ["  2 files     9 lines first::one", "  3 files    12 lines second::both",
                  "  0 files     0 lines second::none"]
        self.assertEqual(self.run_script(), (0, counts))
        self.assertIn("// To judge it, read these 2 files: rtgs_book Books, Days.\npub fn one()",
                      self.read("first"))
        second = self.read("second")
        self.assertIn("// To judge it, read these 3 files: rtgs_promises Own; rtgs_book Books, Days.\n"
                      "pub fn both()", second)
        self.assertIn("// To judge it, read no file.\npub fn none()", second)
        self.assertEqual(self.read("hidden"), HIDDEN)
        self.assertEqual(self.run_script(), (0, counts))
        self.assertEqual(self.read("second"), second)
        self.assertEqual(self.run_script("--check"), (0, [*counts, "the lists are as they should be"]))

    def test_a_list_that_is_another_is_said_and_not_mended(self):
        self.run_script()
        right = self.read("second")
        self.write("rtgs_promises/src/second.rt", right.replace("these 3 files", "these 2 files"))
        status, said = self.run_script("--check")
        self.assertEqual((status, said[-1]), (1, "the list of second::both is another"))
        self.assertNotEqual(self.read("second"), right)
        self.run_script()
        self.assertEqual(self.read("second"), right)

    def reading(self, used, contract):
        """Writes a module with this contract, and returns what the script then does and the list that it writes."""
        self.write("rtgs_promises/src/second.rt",
                   f"{used}\n\n/// Says so.\npub fn both()\n    ensures {{ {contract} }}\n{{}}\n")
        ran = subprocess.run([f"{self.top}/bin/promises"], capture_output=True, text=True, check=False)
        said = re.search(r"^// (To judge it.*)\npub fn both", self.read("second"), re.M)
        return ran, said and said[1]

    def test_what_another_file_or_crate_passes_on_is_found_where_it_stands(self):
        for name, text in PASSED.items():
            self.write(name, text)
        for path, (contract, files, lines) in BY_NAME.items():
            ran, said = self.reading(f"ghost use {path};", contract)
            count = len(re.findall(r"\w+\.rt|[A-Z]\w+", files))
            these = "this file" if count == 1 else f"these {count} files"
            self.assertEqual((ran.returncode, said), (0, f"To judge it, read {these}: {files}."), path)
            self.assertIn(f"{count:3} files {lines:5} lines second::both", ran.stdout)

    def test_what_stands_in_a_module_names_what_its_head_names(self):
        for name, text in {**PASSED, "rtgs_book/specs/Inside.antt": IN_MODULES}.items():
            self.write(name, text)
        for name, files in (("IsWhole", "these 2 files: rtgs_book Inside, Days"),
                            ("IsInner", "these 3 files: rtgs_book Inside, Days; rtgs_lists Sums"),
                            ("IsBare", "this file: rtgs_book Inside")):
            ran, said = self.reading(f"ghost use Rattle.rtgs_book.specs.Inside.{{{name}}};", f"{name} 1")
            self.assertEqual((ran.returncode, said), (0, f"To judge it, read {files}."), ran)

    def test_types_that_a_signature_names_are_read_too(self):
        for name, text in PASSED.items():
            self.write(name, text)
        for path in ("rtgs_book::Rows", "rtgs_book::{Rows}", "rtgs_lists::Rows", "rtgs_lists::counts::Rows"):
            ran, said = self.reading(f"use {path};", "(it : Rows) → ⊤")
            self.assertEqual((ran.returncode, said), (0, "To judge it, read this file: rtgs_lists counts.rt."), path)
        ran, said = self.reading("use rtgs_book::mark::marked;", "marked ≡ marked")
        self.assertEqual((ran.returncode, said), (0, "To judge it, read no file."))

    def test_of_a_type_counts_what_contracts_see_and_of_a_trait_its_members(self):
        for name, text in {**PASSED, "rtgs_book/src/key.rt": MODELLED}.items():
            self.write(name, text)
        ran, said = self.reading("use rtgs_book::key::Key;", "(it : Key) → ⊤")
        self.assertEqual(said, "To judge it, read these 3 files: rtgs_book Days, key.rt; rtgs_lists counts.rt.", ran)
        ran, said = self.reading("use rtgs_book::key::Keyed;", "(it : Keyed) → ⊤")
        self.assertEqual(said, "To judge it, read these 2 files: rtgs_book key.rt; rtgs_lists counts.rt.", ran)

    def test_a_name_that_is_not_found_ends_the_run_and_nothing_is_written(self):
        for name, text in PASSED.items():
            self.write(name, text)
        for used, contract, name in (
                ("ghost use Rattle.rtgs_book.specs.None.{IsNone};", "IsNone 1", "IsNone"),
                ("ghost use Rattle.rtgs_book.specs.Books.{IsNone};", "IsNone 1", "IsNone"),
                ("ghost use Rattle.rtgs_book.specs.Books as books;", "books.IsNone 1", "IsNone"),
                ("ghost use Rattle.rtgs_book.proofs.Books.{lemma};", "lemma 1", "lemma"),
                ("ghost use Rattle.rtgs_book.specs.declared.mark.None.{None};", "(it : None) → ⊤", "None"),
                ("use rtgs_book::None;", "(it : None) → ⊤", "None")):
            ran, said = self.reading(used, contract)
            self.assertEqual((ran.returncode, ran.stdout, said), (1, "", None), used)
            self.assertIn(f"{name} is not found", ran.stderr)
            self.assertEqual(self.read("first"), FIRST)
