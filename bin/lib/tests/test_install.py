"""What is installed beside the program, made from help texts that stand in for the program's own."""
import hashlib
import os
import re
import shutil
import stat
import subprocess
import unittest
from unittest import mock

import kit
from lib import completions, desks, evidence, helps, installing, manual, sources, stated
from lib.checks import install, served

WHOLE = """\
The settlement desk of a central bank

Usage: desk <COMMAND>

Commands:
  import  Submits a participant's file of orders
  serve   Serves connections
  explain  Says what a refusal means
  help    Print this message or the help of the given subcommand(s)

Options:
  -h, --help     Print help
  -V, --version  Print version
"""
IMPORT = """\
Submits a participant's file of orders

Usage: desk import [OPTIONS] <FILE> <CODE> <ORDERS>

Arguments:
  <FILE>    The file of the book
  <CODE>    The participant
  <ORDERS>  The file of orders, as CSV

Options:
      --all   Takes all
  -h, --help  Print help
"""
# (as clap prints what would be too wide)
SERVE = """\
Serves connections, one after the other

Usage: desk serve --port <P> <FILE>

Arguments:
  <FILE>
          The file of the book

Options:
      --port <P>
          The port,
          1 to 65535
  -h, --help
          Print help
"""
EXPLAIN = """\
Says what a refusal means

Usage: desk explain [NUMBER]

Arguments:
  [NUMBER]  The number of the refusal

Options:
  -h, --help  Print help
"""
TEXTS = {
    ("--help",): WHOLE,
    ("import", "--help"): IMPORT,
    ("serve", "--help"): SERVE,
    ("explain", "--help"): EXPLAIN,
    ("--version",): "desk 1.2, more\n",
}


def run(*words):
    return TEXTS[words]


def needs(tool):
    return unittest.skipUnless(shutil.which(tool), f"needs {tool}")


class Helps(unittest.TestCase):
    def test_a_help_text_is_read_into_its_parts(self):
        program = helps.program(run)
        self.assertEqual(list(program.each), ["import", "serve", "explain"])
        said = program.each["import"]
        self.assertEqual(said.about, "Submits a participant's file of orders")
        self.assertEqual(said.usage, "desk import [OPTIONS] <FILE> <CODE> <ORDERS>")
        self.assertEqual([it.shown for it in said.arguments], ["FILE", "CODE", "ORDERS"])
        self.assertEqual(said.options, [("--all", "", "", "Takes all"), ("--help", "-h", "", "Print help")])

    def test_a_help_that_stands_in_lines_of_its_own_is_read_too(self):
        said = helps.program(run).each["serve"]
        self.assertEqual(said.arguments, [("FILE", "The file of the book")])
        self.assertEqual(said.options[0], ("--port", "", "P", "The port, 1 to 65535"))

    def test_an_argument_that_may_be_left_out_is_read_too(self):
        said = helps.program(run).each["explain"]
        self.assertEqual(said.arguments, [("NUMBER", "The number of the refusal")])
        self.assertEqual(manual.marked(said.usage), "\\fBdesk\\fR \\fBexplain\\fR [\\fINUMBER\\fR]")

    def test_what_is_no_help_text_is_refused(self):
        for text in ("refused 93 NotADeskFile\n", WHOLE.replace("Options:", "Settings:")):
            self.assertRaises(ValueError, helps.read, text)


class Manual(unittest.TestCase):
    def test_no_place_is_left_and_the_commands_stand_in_it(self):
        page = manual.made(helps.program(run), "/usr/share/doc/desk")
        self.assertEqual(re.findall(r"@\w+@", page), [])
        self.assertIn("\n.SS import\n", page)
        self.assertIn("\\fB\\-\\-port\\fR \\fIP\\fR\nThe port, 1 to 65535\n", page)

    def test_signs_of_groff_are_escaped_and_come_back(self):
        for text in ("a-b\\c", "\\-", ".TH", "'x", "\\e"):
            self.assertEqual(manual.unescaped(manual.escaped(text)), text)
        self.assertEqual(manual.escaped(".TH"), "\\&.TH")

    def test_the_examples_are_commands_and_what_they_print(self):
        shown = manual.examples(manual.page())
        self.assertIn("    $ desk open bank.desk 2024-03-04\n    opened\n", shown)
        self.assertIn("A-1,BETA,100\\nA-2", shown)

    def test_the_exit_statuses_are_those_of_the_code(self):
        part = manual.page().split(".SH EXIT STATUS")[1].split(".SH ")[0]
        known = {int(stated.constants()[it]) for it in ("done", "refused", "misused", "failed")}
        self.assertEqual({int(it) for it in re.findall(r"^\.B (\d)$", part, re.M)}, known)

    @needs("groff")
    def test_groff_warns_of_nothing(self):
        with desks.room() as folder:
            with open(f"{folder}/desk.1", "w", encoding="utf-8") as it:
                it.write(manual.made(helps.program(run), "/usr/share/doc/desk"))
            self.assertEqual(install.run_tool("groff", "-man", "-Tutf8", "-ww", "-z", it.name), (0, ""))


class Completions(unittest.TestCase):
    def completed(self, *words):
        """Returns what bash completes the last of the words to, in a folder with a book and a file of orders."""
        files = {"bank.desk": "", "orders.csv": "", "c": completions.bash("desk", helps.program(run))}
        with desks.room() as folder:
            for name, text in files.items():
                with open(f"{folder}/{name}", "w", encoding="utf-8") as it:
                    it.write(text)
            status, said = install.run_tool("bash", "-c", install.COMPLETED, "bash", f"{folder}/c", *words, cwd=folder)
            self.assertEqual(status, 0, said)
            return said.split()

    def test_bash_completes_commands_options_and_files(self):
        for words, wanted in (
                (("desk", "i"), ["import"]),
                (("desk", "--v"), ["--version"]),
                (("desk", "import", "--"), ["--all", "--help"]),
                (("desk", "import", "ban"), ["bank.desk"]),
                (("desk", "import", "bank.desk", "o"), []),
                (("desk", "import", "bank.desk", "ALFA", "o"), ["orders.csv"]),
                (("desk", "serve", "--port", "b"), []),
                (("desk", "serve", "--port", "80", "b"), ["bank.desk"]),
                (("desk", "help", "s"), ["serve"]),
        ):
            self.assertEqual(self.completed(*words), wanted, words)

    def test_each_shell_has_each_command_and_option(self):
        for make in (completions.bash, completions.zsh, completions.fish):
            text = make("desk", helps.program(run))
            for word in ("import", "serve", "help", "all", "port", "version"):
                self.assertIn(word, text)

    def test_descriptions_are_quoted(self):
        self.assertEqual(completions.zsh_text("a's]: b"), "a'\\''s\\]\\: b")
        self.assertEqual(completions.fish_text("a's \\b"), "'a\\'s \\\\b'")


class Installing(unittest.TestCase):
    def setUp(self):
        folder = desks.room()
        self.addCleanup(folder.cleanup)
        self.prefix = f"{folder.name}/usr"
        program = mock.patch.object(desks, "DESK", f"{folder.name}/desk")
        program.start()
        self.addCleanup(program.stop)
        with open(desks.DESK, "w", encoding="utf-8") as it:
            it.write("the program")

    def installed(self):
        told = []
        with mock.patch.object(desks, "desk", run):
            installing.install(self.prefix, told.append)
        return told

    def test_each_file_is_told_and_can_be_read_whatever_the_umask(self):
        before = os.umask(0o077)
        self.addCleanup(os.umask, before)
        told = self.installed()
        self.assertEqual(sorted(told), sorted(f"{at}/{it}" for at, _, names in os.walk(self.prefix) for it in names))
        for path in told:
            is_program = os.path.basename(os.path.dirname(path)) == "bin"
            self.assertEqual(stat.S_IMODE(os.stat(path).st_mode), 0o755 if is_program else 0o644, path)
            self.assertEqual(stat.S_IMODE(os.stat(os.path.dirname(path)).st_mode), 0o755, path)

    def test_what_was_installed_is_listed_and_removed_and_nothing_else(self):
        told = self.installed()
        names = desks.content(f"{self.prefix}/{installing.LISTED}").decode().splitlines()
        self.assertEqual([f"{self.prefix}/{it}" for it in names], sorted(told))
        kept = f"{self.prefix}/share/man/man1/other.1"
        with open(kept, "w", encoding="utf-8") as it:
            it.write("of another")
        removed = []
        installing.uninstall(self.prefix, removed.append)
        self.assertEqual(sorted(removed), sorted(told))
        left = [f"{at}/{it}" for at, folders, names in os.walk(self.prefix) for it in names + folders]
        self.assertEqual(sorted(left), [f"{self.prefix}/{it}" for it in
                                        ("share", "share/man", "share/man/man1", "share/man/man1/other.1")])
        self.assertRaisesRegex(desks.Broken, "is missing", installing.uninstall, self.prefix, print)

    def test_a_list_that_names_other_places_is_refused(self):
        self.installed()
        for line in ("../other", "/etc/passwd", "share/../../other"):
            with open(f"{self.prefix}/{installing.LISTED}", "w", encoding="utf-8") as it:
                it.write(f"bin/desk\n{line}\n")
            self.assertRaisesRegex(desks.Broken, "names", installing.uninstall, self.prefix, print)
            self.assertTrue(os.path.exists(f"{self.prefix}/bin/desk"))

    def test_for_a_package_all_is_put_below_another_root(self):
        root, told = f"{self.prefix}/root", []
        with mock.patch.object(desks, "desk", run):
            installing.install("/usr", told.append, root)
        self.assertTrue(all(it.startswith(f"{root}/usr/") and os.path.exists(it) for it in told))
        unit = desks.content(f"{root}/usr/{installing.UNIT}").decode()
        self.assertIn("\nExecStart=/usr/bin/desk serve bank.desk ", unit)
        self.assertNotIn(root, unit + desks.content(f"{root}/usr/{installing.BACKUP}").decode())
        installing.uninstall("/usr", told.append, root)
        self.assertEqual(os.listdir(f"{root}/usr"), [])

    @unittest.skipUnless(sources.is_checkout(), "needs a checkout")
    def test_sources_that_were_written_before_are_taken_again(self):
        with desks.room() as top, mock.patch.object(sources.kit, "TOP", top), \
                mock.patch.object(sources, "write", lambda folder: open(f"{folder}/a", "x").close()) as _, \
                mock.patch.object(evidence, "output", lambda *_: "c1"):
            first = sources.kept()
            with open(f"{first}/built", "w", encoding="utf-8"):
                pass
            self.assertEqual((sources.kept(), sorted(os.listdir(first))), (first, ["a", "built"]))
            os.mkdir(f"{top}/out/installed/c2.part")
            with mock.patch.object(evidence, "output", lambda *_: "c2"):
                self.assertEqual(os.listdir(sources.kept()), ["a"])
            self.assertEqual(os.listdir(f"{top}/out/installed"), ["c2"])

    def test_a_file_that_is_there_is_replaced_and_not_written_over(self):
        self.installed()
        with open(f"{self.prefix}/bin/desk", encoding="utf-8") as kept:
            with open(desks.DESK, "w", encoding="utf-8") as it:
                it.write("a new one")
            self.installed()
            self.assertEqual(kept.read(), "the program")
        self.assertEqual(desks.content(f"{self.prefix}/bin/desk"), b"a new one")

    def test_the_origin_has_the_digest_of_the_program_that_is_installed(self):
        self.installed()
        with open(f"{self.prefix}/bin/desk", "rb") as it:
            digest = hashlib.sha256(it.read()).hexdigest()
        said = desks.content(f"{self.prefix}/{installing.ORIGIN}").decode().splitlines()
        self.assertEqual(said, [f"commit {evidence.commit()}", f"kit {kit.version()}", f"sha256 {digest}"])

    def test_a_program_that_names_its_commit_is_of_that(self):
        named = "0123456789abcdef" * 2 + "01234567"
        self.assertEqual(sources.commit(f"desk 1.2, kit x, commit {named}"), named)
        self.assertEqual(sources.commit("desk 1.2, kit x, commit $Format:%H$"), evidence.commit())

    @unittest.skipUnless(sources.is_checkout(), "needs a checkout")
    def test_sources_that_git_writes_name_their_commit(self):
        path = "crates/rtgs_cli_arguments/src/version.rt"
        with desks.room() as folder:
            sources.write(folder)
            version = desks.content(f"{folder}/{path}").decode().split('"')[1]
        self.assertEqual(sources.commit(version), evidence.output("git", "rev-parse", "HEAD"))
        with open(f"{kit.TOP}/{path}", encoding="utf-8") as it:
            self.assertIn('commit $Format:%H$"', it.read())

    def test_a_program_that_is_not_proved_is_not_installed(self):
        said = {**TEXTS, ("--version",): "desk 1.2, tables 3, not proved, commit x\n"}
        with mock.patch.object(desks, "desk", lambda *words: said[words]):
            self.assertRaisesRegex(desks.Broken, "not proved", installing.install, self.prefix, print)
        self.assertFalse(os.path.exists(self.prefix))

    def test_the_unit_has_the_prefix_and_one_that_it_cannot_have_is_refused(self):
        self.installed()
        unit = desks.content(f"{self.prefix}/{installing.UNIT}").decode()
        self.assertIn(f"\nExecStart={self.prefix}/bin/desk serve bank.desk ", unit)
        self.assertNotIn("@PREFIX@", unit)
        self.assertRaises(desks.Broken, installing.with_prefix, "@PREFIX@", "/a b")

    def test_the_console_has_its_page_and_the_sites_name_its_folder(self):
        self.installed()
        page = sorted(os.listdir(f"{self.prefix}/share/desk/console"))
        self.assertEqual(page, sorted(os.listdir(f"{kit.TOP}/console")))
        for name, line in zip(installing.OF_CONSOLES, ("root {}/share/desk;", "root * {}/share/desk")):
            text = desks.content(f"{self.prefix}/{installing.SHARED}/{name}").decode()
            self.assertIn(line.format(self.prefix), text)
            self.assertNotIn("@PREFIX@", text)

    def modes(self, text):
        def makes(path):
            with open(path, "w", encoding="utf-8"):
                pass

        with desks.room() as folder:
            return install.modes_made(text, folder, makes)

    def test_what_the_unit_makes_its_user_alone_may_read_and_another_umask_is_found(self):
        self.installed()
        unit = desks.content(f"{self.prefix}/{installing.UNIT}").decode()
        self.assertEqual(self.modes(unit), {"": "700", "bank.desk": "600"})
        open_files, open_folder = unit.replace("UMask=0077", "UMask=0022"), unit.replace("Mode=0700", "Mode=0755")
        self.assertEqual(self.modes(open_files), {"": "700", "bank.desk": "644"})
        self.assertEqual(self.modes(open_folder), {"": "755", "bank.desk": "600"})
        for line in ("UMask=0077\n", "StateDirectoryMode=0700\n"):
            self.assertRaises(desks.Broken, self.modes, unit.replace(line, ""))

    def test_the_unit_serves_as_many_connections_as_may_be_and_is_started_again(self):
        self.installed()
        unit = desks.content(f"{self.prefix}/{installing.UNIT}").decode()
        self.assertIn(f" --count {served.MOST} ", install.setting(unit, "ExecStart"))
        self.assertEqual(install.setting(unit, "Restart"), "always")

    @needs("systemd-analyze")
    def test_systemd_finds_no_fault_with_the_unit(self):
        self.installed()
        os.chmod(f"{self.prefix}/bin/desk", 0o755)
        os.chmod(f"{self.prefix}/{installing.BACKUP}", 0o755)
        for it in installing.OF_SYSTEMD:
            said = install.run_tool("systemd-analyze", "verify", "--man=no", f"{self.prefix}/{installing.UNITS}/{it}")
            self.assertEqual(said, (0, ""), it)

    def test_the_user_of_the_units_is_the_one_that_is_made(self):
        self.installed()
        made = desks.content(f"{self.prefix}/{installing.USER}").decode().splitlines()[-1].split()[:2]
        for it in ("desk.service", "desk-backup.service"):
            unit = desks.content(f"{self.prefix}/{installing.UNITS}/{it}").decode()
            self.assertEqual(made, ["u", install.setting(unit, "User")])


class Deployed(unittest.TestCase):
    """The files of deploy/."""

    def reasons(self, name, ends):
        """Returns the lines that have no reason above them: a comment, or a line that has one."""
        with open(f"{kit.TOP}/deploy/{name}", encoding="utf-8") as it:
            lines = [line.strip() for line in it]
        bare, is_told = [], False
        for line in lines:
            if line.startswith("#"):
                is_told = True
            elif not line or re.fullmatch(ends, line):
                is_told = False
            elif not is_told:
                bare.append(line)
        return bare

    def test_each_line_has_its_reason(self):
        # (what only opens or closes a part, and what says again what stands in the line that opens it)
        for name in ("desk.service", "desk-backup.service", "desk-backup.timer"):
            ends = r"\[\w+\]|(Description|Documentation|ExecStart=@PREFIX@/bin/desk-backup)=?.*"
            self.assertEqual(self.reasons(name, ends), [])
        self.assertEqual(self.reasons("nginx.conf", r"\}|(server|location) .*\{|default_type .*|return .*"), [])
        ends = r"\}|.*\{|max_size .*|max_buffer_size .*|header .*|respond .*|import way"
        self.assertEqual(self.reasons("Caddyfile", ends), [])
        self.assertEqual(self.reasons("console-Caddyfile", ends), [])
        ends = r"\}|(server|location|types) .*\{|default_type .*|return .*|(text|image)/.*;"
        self.assertEqual(self.reasons("console-nginx.conf", ends), [])

    def test_braces_are_balanced(self):
        for name in ("nginx.conf", "Caddyfile", "console-nginx.conf", "console-Caddyfile"):
            whole = desks.content(f"{kit.TOP}/deploy/{name}").decode()
            text = re.sub(r"^\s*#.*$|'[^']*'|`[^`]*`", "", whole, flags=re.M)
            self.assertEqual(text.count("{"), text.count("}"), name)
            self.assertGreater(text.count("{"), 2)


if __name__ == "__main__":
    unittest.main()
