"""The names by which the list of contracts tells what a crate passes on, over a small tree."""
import os
import shutil
import subprocess
import unittest

import kit
from lib import desks

ROOT = "//! A crate.\nmod low;\nmod own;\n\npub use crate::low::{laws, twice};\npub use crate::own::once;\n"
LOW = "//! A part.\nmod deep;\nmod hidden;\npub mod laws;\n\npub use crate::low::deep::twice;\n"
FUNCTION = "/// Does it.\npub fn {}()\n    ensures {{ 1 ≡ 1 }}\n{{}}\n"
TRAIT = "/// One.\npub trait One {\n    /// Does it.\n    final fn done()\n        ensures { 1 ≡ 1 }\n    {}\n}\n"


class Contracts(unittest.TestCase):
    def setUp(self):
        folder = desks.room()
        self.addCleanup(folder.cleanup)
        self.top = f"{folder.name}/tree"
        shutil.copytree(f"{kit.TOP}/bin", f"{self.top}/bin", ignore=shutil.ignore_patterns("__pycache__"))
        self.write("crates.txt", "it:\n")
        self.write("crates/it/src/lib.rt", ROOT)
        self.write("crates/it/src/low.rt", LOW)
        for path, name in (("own", "once"), ("low/deep", "twice"), ("low/laws", "law"), ("low/hidden", "hidden")):
            self.write(f"crates/it/src/{path}.rt", FUNCTION.format(name))

    def write(self, name, text):
        os.makedirs(os.path.dirname(f"{self.top}/{name}"), exist_ok=True)
        with open(f"{self.top}/{name}", "w", encoding="utf-8") as it:
            it.write(text)

    def heads(self):
        """Returns the names that the list has, in their order."""
        ran = subprocess.run([f"{self.top}/bin/contracts"], capture_output=True, text=True, check=False)
        self.assertEqual((ran.returncode, ran.stderr), (0, ""))
        with open(f"{self.top}/out/CONTRACTS.md", encoding="utf-8") as it:
            return sorted(line.strip("# `\n") for line in it if line.startswith("### "))

    def test_what_is_passed_on_has_the_name_that_other_crates_call(self):
        self.assertEqual(self.heads(), ["it::laws::law", "it::low::hidden::hidden", "it::once", "it::twice"])

    def test_a_function_that_no_implementation_overrides_is_listed(self):
        self.write("crates/it/src/lib.rt", ROOT.replace("own::once", "own::{One, once}"))
        self.write("crates/it/src/own.rt", FUNCTION.format("once") + TRAIT)
        self.assertIn("it::One::done", self.heads())
