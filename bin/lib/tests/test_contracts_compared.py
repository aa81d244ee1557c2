"""What a comparison of contracts says about two small trees that differ in one thing."""
import os
import shutil
import subprocess
import unittest

import kit
from lib import comparing, desks

LIB = "//! A crate.\nmod low;\nmod own;\n\npub use crate::low::twice;\npub use crate::own::{Held, once};\n"
ONCE = """use crate::low::twice;
ghost use Rattle.it.specs.Rules.{IsRight};
ghost use Rattle.it.specs.Rules as rules;

/// What is held.
pub struct Held {
    count: u64,
}

/// Does it.
pub fn once(count: u64) -> u64
    requires small { count ≤ 9 }
    ensures right { IsRight result }
    ensures kept { rules.IsKept count result }
{
    count
}
"""
TWICE = "/// Does it.\npub fn twice()\n    ensures { 1 ≡ 1 }\n{}\n"
RULES = """-- Rules.
use Rattle.it.specs.Limits.{most}

-- it is right
abbrev pub IsRight : ℕ → Type 0
IsRight n = IsKept n n

pub record IsKept (old new : ℕ) : Type 0 where
  pub same : old ≡ new -- and no other
  pub few : new ≤ most
"""
LIMITS = """module _ {K : Type 0}
    (k : K) where
  abbrev pub most : ℕ
  most = 9

abbrev pub unused : ℕ
unused = 1
"""
FILES = {"src/lib.rt": LIB, "src/own.rt": ONCE, "src/low.rt": TWICE,
         "specs/Rules.antt": RULES, "specs/Limits.antt": LIMITS}
OTHERS = "\n# New functions, and those that gained a clause or have another head: "
DEFINITIONS = "\n# Definitions that clauses lead to and that changed, to be judged by reading: "


def write(top, files):
    """Writes a tree with one crate of these files."""
    for name, text in {"crates.txt": "it:\n", **{f"crates/it/{it}": text for it, text in files.items()}}.items():
        os.makedirs(os.path.dirname(f"{top}/{name}"), exist_ok=True)
        with open(f"{top}/{name}", "w", encoding="utf-8") as it:
            it.write(text)


class Compared(unittest.TestCase):
    def setUp(self):
        folder = desks.room()
        self.addCleanup(folder.cleanup)
        self.old, self.new = f"{folder.name}/old", f"{folder.name}/new"
        write(self.old, FILES)

    def compared(self, changed):
        """Returns what is told of bad functions, of other ones, and of definitions, and whether nothing is bad."""
        write(self.new, {**FILES, **changed})
        *lines, is_kept = comparing.compare(self.old, self.new)
        bad, _, rest = "\n".join(lines).partition(OTHERS)
        others, _, defined = rest.partition(DEFINITIONS)
        return [it.splitlines()[1:] for it in (bad, others, defined)], is_kept

    def once(self, old, new):
        """Compares with a tree in which the code has this text in the place of that."""
        self.assertEqual(ONCE.count(old), 1)
        return self.compared({"src/own.rt": ONCE.replace(old, new)})

    def test_nothing_is_told_where_nothing_changed_but_comments_and_spaces(self):
        code = ONCE.replace("Does it.", "It does.").replace("{ count ≤ 9 }", "{\n        count ≤ 9 }")
        changed = {"src/own.rt": code,
                   "specs/Rules.antt": RULES.replace("it is right", "right it is").replace(" -- and no other", "")}
        self.assertEqual(self.compared(changed), ([[], [], []], True))

    def test_a_clause_that_is_gone(self):
        told, is_kept = self.once("    ensures right { IsRight result }\n", "")
        self.assertEqual(told, [["lost or changed: it::once", "    lost ensures right: IsRight result"], [], []])
        self.assertFalse(is_kept)

    def test_a_clause_that_changed(self):
        told, is_kept = self.once("{ IsRight result }", "{ IsRight count }")
        wanted = ["lost or changed: it::once", "    was ensures right: IsRight result",
                  "    is  ensures right: IsRight count"]
        self.assertEqual((told, is_kept), ([wanted, [], []], False))

    def test_a_function_that_asks_for_more(self):
        told, is_kept = self.once("    ensures right", "    requires odd { IsOdd count }\n    ensures right")
        wanted = ["lost or changed: it::once", "    added requires odd: IsOdd count"]
        self.assertEqual((told, is_kept), ([wanted, [], []], False))

    def test_a_clause_that_is_only_added_is_told_and_is_not_bad(self):
        told, is_kept = self.once("    ensures right", "    ensures odd { IsOdd result }\n    ensures right")
        self.assertEqual((told, is_kept), ([[], ["gained: it::once", "    added ensures odd: IsOdd result"], []], True))

    def test_a_clause_with_another_name_and_one_in_another_place_are_the_same(self):
        told, is_kept = self.once("    requires small { count ≤ 9 }\n    ensures right { IsRight result }",
                                  "    ensures well { IsRight result }\n    requires small { count ≤ 9 }")
        self.assertEqual((told, is_kept), ([[], [], []], True))

    def test_a_head_that_changed(self):
        told, is_kept = self.once("once(count: u64) -> u64", "once(count: u32) -> u64")
        wanted = ["other head: it::once", "    head was: pub fn once(count: u64) -> u64",
                  "    head is:  pub fn once(count: u32) -> u64"]
        self.assertEqual((told, is_kept), ([[], wanted, []], True))

    def test_a_function_that_is_new(self):
        told, is_kept = self.compared({"src/low.rt": TWICE + TWICE.replace("twice", "thrice")})
        self.assertEqual((told, is_kept), ([[], ["new: it::low::thrice", "    added ensures -: 1 ≡ 1"], []], True))

    def test_a_function_that_is_gone(self):
        told, is_kept = self.compared({"src/low.rt": "", "src/lib.rt": LIB.replace("pub use crate::low::twice;\n", "")})
        self.assertEqual((told, is_kept), ([["gone: it::twice", "    lost ensures -: 1 ≡ 1"], [], []], False))

    def test_a_function_that_moved_to_another_file_is_the_same(self):
        for passed_on, title in (("pub use crate::deep::twice;\n", ""), ("", "it::deep::twice")):
            root = LIB.replace("pub use crate::low::twice;\n", passed_on).replace("mod low", "mod deep")
            told, is_kept = self.compared({"src/lib.rt": root, "src/low.rt": "", "src/deep.rt": TWICE})
            self.assertEqual((told[0], is_kept), ([], True), title)

    def test_what_moved_and_lost_a_clause_is_told_with_both_names(self):
        root = LIB.replace("pub use crate::low::twice;\n", "").replace("mod low", "mod deep")
        lost = TWICE.replace("    ensures { 1 ≡ 1 }\n", "")
        told, is_kept = self.compared({"src/lib.rt": root, "src/low.rt": "", "src/deep.rt": lost})
        wanted = ["lost or changed: it::deep::twice", "    was called: it::twice", "    lost ensures -: 1 ≡ 1"]
        self.assertEqual((told[0], is_kept), (wanted, False))

    def test_a_definition_that_changed_is_told_with_the_functions_whose_clauses_lead_to_it(self):
        told, is_kept = self.compared({"specs/Rules.antt": RULES.replace("  pub few : new ≤ most\n", "")})
        wanted = ["changed: IsKept (crates/it/specs/Rules.antt)", "    clauses of it::once",
                  "       pub same : old ≡ new", "    -  pub few : new ≤ most"]
        self.assertEqual((told, is_kept), ([[], [], wanted], True))

    def test_definitions_are_followed_through_others_into_other_files_and_modules(self):
        told, _ = self.compared({"specs/Limits.antt": LIMITS.replace("most = 9", "most = 90").replace("= 1", "= 2")})
        self.assertEqual(told[2][0], "changed: most (crates/it/specs/Limits.antt)")
        self.assertEqual([it for it in told[2] if "unused" in it], [])

    def test_a_definition_that_moved_to_another_file_of_its_crate_is_the_same(self):
        limits = "abbrev pub unused : ℕ\nunused = 1\n"
        moved = {"specs/Limits.antt": limits, "specs/Most.antt": LIMITS.replace(limits, ""),
                 "specs/Rules.antt": RULES.replace("Limits", "Most")}
        self.assertEqual(self.compared(moved), ([[], [], []], True))

    def test_a_name_that_leads_to_another_definition_is_told(self):
        other = "abbrev pub IsRight : ℕ → Type 0\nIsRight n = n ≤ 9\n"
        told, is_kept = self.compared({"src/own.rt": ONCE.replace("Rules.{IsRight}", "Other.{IsRight}"),
                                       "specs/Other.antt": other})
        self.assertEqual((told[:2], is_kept), ([[], []], True))
        self.assertEqual(told[2][:2], ["changed: IsRight (crates/it/specs/Rules.antt)",
                                       "    its name leads now to crates/it/specs/Other.antt"])
        self.assertIn("    +IsRight n = n ≤ 9", told[2])

    def test_a_definition_that_is_gone_is_told(self):
        told, _ = self.compared({"specs/Rules.antt": RULES.replace("few : new ≤ most", "few : new ≤ 9"),
                                 "specs/Limits.antt": ""})
        self.assertIn("gone: most (crates/it/specs/Limits.antt)", told[2])


class Script(unittest.TestCase):
    def setUp(self):
        folder = desks.room()
        self.addCleanup(folder.cleanup)
        self.top = f"{folder.name}/tree"
        shutil.copytree(f"{kit.TOP}/bin", f"{self.top}/bin", ignore=shutil.ignore_patterns("__pycache__"))
        write(self.top, FILES)
        who = ["-c", "user.name=A", "-c", "user.email=a@b.example"]
        for words in (["init", "-q"], ["add", "-A"], ["commit", "-q", "-m", "A"]):
            subprocess.run(["git", *who, *words], cwd=self.top, check=True, capture_output=True)

    def compare(self, revision):
        """Returns how the script ends, and the first line that it prints."""
        command = [f"{self.top}/bin/contracts", "--compare", revision]
        ran = subprocess.run(command, capture_output=True, text=True, check=False)
        return ran.returncode, ran.stdout.partition("\n")[0]

    def test_the_tree_as_it_is_is_compared_with_a_revision(self):
        head = "# Functions that lost or changed a clause, are gone, or ask for more: "
        self.assertEqual(self.compare("HEAD"), (0, f"{head}0"))
        write(self.top, {"src/low.rt": ""})
        self.assertEqual(self.compare("HEAD"), (1, f"{head}1"))
        self.assertEqual(self.compare("none"), (2, ""))
