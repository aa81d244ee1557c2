"""The parts of each check that need no program."""
import random
import re
import socket
import threading
import unittest
from unittest import mock

from lib import columns, desks, findings, hostile, runs, stated
from lib.checks import copies, documents, edges, handbooks, hostile_files, kills, migrations, plants, refusals
from lib.report import Report


def quiet():
    return Report(lambda *_, **__: None)


class Kills(unittest.TestCase):
    """The server is stood in for by numbers: of the orders that were answered, and of those in the book."""

    def found(self, answered, in_the_book, is_in_flight=True):
        """Returns the report and the counts of rounds that came to this, with four clients that are alike."""
        report, rounds = quiet(), iter(answered)

        def send(_book, clients, _before):
            number = next(rounds)
            for it in clients:
                it.next, it.is_in_flight = it.first + number, is_in_flight

        with mock.patch.object(kills, "new_book") as new, mock.patch.object(kills, "send_until_killed", send), \
                mock.patch.object(kills, "found_in", side_effect=[[it] * kills.CLIENTS for it in in_the_book]):
            counts = kills.kill_again_and_again(len(answered), report, None, "")
        self.assertEqual(new.call_count, (len(answered) + 9) // 10)
        return report, counts

    def test_all_that_was_answered_and_one_in_flight_is_well(self):
        report, counts = self.found([3, 9], [3, 13])
        self.assertEqual((report.wrong, report.found), (0, []))
        told = "2 kills: 48 orders were answered, 24 before each, and all are in the book with what followed them"
        self.assertEqual(counts.told("kills"), f"{told}; 4.0 were in flight at each, and 4 of 8 are in the book")

    def test_an_order_that_is_lost_or_was_not_sent_ends_the_check(self):
        for found, is_in_flight in ((2, True), (5, True), (4, False)):
            report, _ = self.found([3, 9], [found], is_in_flight)
            told = f"round 1: orders of ALFA000: 3 were answered, and {found} are in the book"
            self.assertEqual((report.wrong, report.found), (1, [told]))

    def test_rounds_without_orders_show_nothing(self):
        self.assertEqual(self.found([0], [0])[0].wrong, 1)
        self.assertEqual(self.found([3], [3], False)[0].wrong, 1)

    def test_a_book_serves_ten_rounds(self):
        self.found([1] * 11, range(1, 12))

    def test_the_orders_of_a_client_wait_and_settle_in_turn(self):
        clients = [kills.Client(it) for it in range(kills.CLIENTS)]
        self.assertGreaterEqual(len({key for it in clients for key in it.keys.values()}), 12)
        clients[1].begins(5)
        sent, answer = clients[1].order()
        self.assertEqual(answer, "settled")
        self.assertIn(b'{"amount": 1, "reference": "A-3", "to": "BETA001"}', sent)
        clients[1].begins(6)
        self.assertEqual(clients[1].order()[1], "queued")

    def replied(self, *replies):
        """Returns a client that sent orders to a server with these replies, which was then gone."""
        client = kills.Client(0)
        with socket.create_server(("127.0.0.1", 0)) as server:
            def serve():
                for reply in replies:
                    with server.accept()[0] as link:
                        link.recv(65536)
                        link.sendall(reply)
                server.close()

            serving = threading.Thread(target=serve)
            serving.start()
            try:
                client.sends(server.getsockname()[1])
            finally:
                serving.join()
        return client

    def test_a_reply_that_is_cut_off_is_none(self):
        good = [kills.GOOD + f'Content-Length: {len(it)}\r\n\r\n{it}'.encode()
                for it in ('{"answer":"queued"}', '{"answer":"settled"}')]
        client = self.replied(*good, good[0][:-1])
        self.assertEqual((client.next, client.is_in_flight), (2, True))
        self.assertRaisesRegex(desks.Broken, "a server replied", self.replied, good[1])
        for reply in good:
            self.assertEqual([kills.is_whole(reply[:it]) for it in (-1, 20, 0)], [False] * 3)

    def test_a_copy_is_looked_at_in_place_of_the_book_and_the_pause_is_told(self):
        report = quiet()

        def kills_twice(rounds, same, before_a_kill, end):
            self.assertEqual((rounds, same, end), (5, report, ".copy"))
            before_a_kill("a server", "a book")
            before_a_kill("a server", "a book")
            return mock.Mock(told=lambda what: what)

        with mock.patch.object(kills, "kill_again_and_again", side_effect=kills_twice), \
                mock.patch.object(copies, "copy_held_still") as held:
            copies.run(mock.Mock(rounds=5), report)
        self.assertEqual(held.call_args_list, [mock.call("a server", "a book")] * 2)
        self.assertRegex(report.found[0], r"^held still for \d+ ms \(\d+ to \d+\)$")
        self.assertEqual(report.found[1], "copies and kills")


class Documents(unittest.TestCase):
    """Texts stand in for documents."""

    def found(self, look, *words, read=None):
        report = quiet()
        with mock.patch.object(documents, "read", read or documents.read):
            look(*words, report.sees)
        return [it.splitlines()[0] for it in report.found]

    def numbers(self, text, name="docs/NONE.md"):
        return self.found(documents.numbers, name, text)

    def test_a_number_is_that_of_a_refusal_or_stated(self):
        for text in ("refused with 93, or 94 Inconsistent 9", "the status is 503", "`--count 1000`", "RFC 9112",
                     "    $ desk post 1500", "on 2024-03-04", "rule 16", "version 2"):
            self.assertEqual(self.numbers(text), [], text)
        for text, told in (("it takes 5 seconds", "5 seconds"), ("93 BadKey", "93 BadKey"), ("some 1,234", "1,234"),
                           ("a\nb 21", "21"), ("| 99 |", "99")):
            (found,) = self.numbers(text)
            self.assertIn(told, found)

    def test_a_text_that_states_a_number_must_have_that_of_the_code(self):
        texts = {"docs/NONE.md": ["at most {queue} orders", "{tables:w} tables", "up to {total:p}", "{lingered:K} KiB"]}
        with mock.patch.object(stated, "TEXTS", texts):
            self.assertEqual(self.numbers("at most\n500 orders, seven tables, up to 10^15, 256 KiB"), [])
            said = self.numbers("at most 501 orders, seven tables, up to 10^15, 256 KiB", "docs/NONE.md")
        self.assertEqual(said[0], "docs/NONE.md says: at most 500 orders")
        self.assertIn("501 orders", said[1])

    def test_each_constant_is_found_in_the_code(self):
        self.assertEqual(stated.constants()["number"], 999999999)
        self.assertEqual(stated.refusals()[94], ("Inconsistent", None, 3))
        self.assertRaises(ValueError, stated.constant, "rtgs_book/src/limits.rt", "NONE")

    def test_an_entry_has_a_name_of_its_own_a_place_in_the_table_and_four_parts(self):
        entry = "## {} a way\n\n**Chosen:** a\n\n**Because:** b\n\n**Instead of:** c\n\n**Price:** d\n\n"
        table = "# All\n\n## By topic\n\n| A | [One](#one-a-way); [Two](#two-a-way) |\n\n"
        good = table + "# Part\n\n" + entry.format("One") + "# Part\n\n" + entry.format("`Two`")
        without = "docs/DECISIONS.md, the entries in the table by topic"
        self.assertEqual(self.found(documents.decisions, good), [])
        twice = self.found(documents.decisions, good + entry.format("One"))
        self.assertEqual(twice, ["entries with one name", without])
        self.assertEqual(self.found(documents.decisions, good + entry.format("Three")), [without])
        self.assertEqual(self.found(documents.decisions, good.replace("[Two](#two-a-way)", "")), [without])
        bad = good.replace("**Price:** d\n\n# Part", "# Part")
        self.assertEqual(self.found(documents.decisions, bad), ["docs/DECISIONS.md, the parts of: One a way"])

    def test_files_and_headings_that_are_named_must_be_there(self):
        good = "docs/COSTS.md, COSTS.md, `rtgs_book/src/book.rt`, bin/tour, [it](#a-part), [it](README.md)\n## A part\n"
        self.assertEqual(self.found(documents.files, "README.md", good, read=lambda _: good), [])
        for bad in ("docs/NONE.md", "NONE.md", "`none.rt`", "bin/none", "[it](none.md)", "[it](#none)"):
            self.assertEqual(len(self.found(documents.files, "README.md", bad, read=lambda _, bad=bad: bad)), 1, bad)

    def test_the_promises_are_those_of_the_crate(self):
        good = "## The promises\n\n- [`a`](b): A long\n  promise. *So* it is. *Premises:* none.\n\n## Else\n"
        with mock.patch.object(documents, "promises", lambda: {"[`a`](b)": "A long promise."}):
            self.assertEqual(self.found(documents.same_promises, good), [])
            self.assertEqual(self.found(documents.same_promises, good.replace("long", "short")),
                             ["the sentences of [`a`](b)"])
            self.assertEqual(self.found(documents.same_promises, good.replace("\n## Else", "- [`b`](b): B\n\n## Else")),
                             ["links of the promises"])

    def at_a_glance(self, rows):
        """Returns what is wrong with these rows of two promises, of which one has two functions."""
        wanted = {"a": (1, 24), "b": (1, 3), "c": (2, 1)}
        text = "## At a glance\n\n| promise | files |\n|---|---|\n" + rows + "\n## Else\n"
        with mock.patch.object(documents, "judged", lambda: wanted), \
                mock.patch.object(documents, "promises", lambda: {f"[`{it}`](d)": "" for it in wanted}):
            return self.found(documents.at_a_glance, text)

    def test_the_table_on_top_has_each_promise_with_its_files(self):
        good = "| 1 | so | `a` (24), `b` (3) | |\n| 2 | so | `c` (1) | |\n"
        self.assertEqual(self.at_a_glance(good), [])
        for old, new, name in (("24", "25", "a"), (", `b` (3)", "", "b"), ("`c`", "`d`", "c")):
            self.assertIn(f"number and files of {name} at a glance", self.at_a_glance(good.replace(old, new)))
        self.assertIn("numbers of the promises at a glance", self.at_a_glance(good.replace("| 2 |", "| 3 |")))

    def test_columns_are_those_of_the_lines_that_are_shown(self):
        text = documents.section(documents.read(documents.SPECIFICATION), "Statement and day report")
        self.assertEqual(self.found(documents.columns_as_shown, text), [])
        for old, new in (("| 12 to 20 | number, in", "| 12 to 21 | number, in"), ("| 22 to 37 |", "| 22 to 36 |"),
                         ("| 69 to 77 |", "| 69 to 78 |"), ("columns 12 to 41.", "columns 12 to 40."),
                         ("| 1 to 8 |", "| 1 to 9 |"), ("| 22 to 51 |", "| 22 to 50 |"), ("    marks ", "    marks")):
            self.assertEqual(text.count(old), 1, old)
            self.assertNotEqual(self.found(documents.columns_as_shown, text.replace(old, new)), [], old)

    def test_the_columns_are_those_of_the_code(self):
        self.assertEqual(columns.of_code()["sums"], [(1, 10), (12, 41)])
        self.assertEqual(columns.of_code()["entries"][-1], (69, 77))
        told = stated.told("{entries[1]}: {number_digits:w}; {participants_of[3]}")
        self.assertEqual(told, "12 to 20: nine; 72 to 101")
        with desks.room() as folder, mock.patch.object(columns, "CODE", folder):
            for made, wanted in (('    write!(line, "{a:<3} {b:09} ")?;\n    writeln!(line, "{c:>4}")\n', [3, 9, 4]),
                                 ('    format!(in alloc; "{a:<3} {b:>4}\\n")\n', [3, 4])):
                with open(f"{folder}/a.rt", "w", encoding="utf-8") as it:
                    it.write(f"fn other() {{\n}}\n\nfn columns(\n    a: u8,\n) {{\n{made}}}\n")
                self.assertEqual(columns.widths_of("a.rt", "columns"), wanted)
            self.assertRaises(ValueError, columns.widths_of, "a.rt", "other")

    def test_a_number_stands_in_one_line_of_its_form(self):
        with mock.patch.object(stated, "content", return_value="let most = 7;\nlet more = 8;\n"):
            self.assertEqual(stated.in_line("a.rt", r"^let most = (\d+);$"), 7)
            for form in (r"^let \w+ = (\d+);$", r"^let none = (\d+);$"):
                self.assertRaises(ValueError, stated.in_line, "a.rt", form)

    def test_what_follows_from_lines_is_compared(self):
        found = {"summed_bits": 128, "resolved_bits": 128, "shown_bits": 64, "more_lines": 39}
        self.assertEqual(stated.of_lines(found), {"added_bits": 128, "shown_bits_but_one": 63, "lines": 40})
        self.assertRaises(ValueError, stated.of_lines, {**found, "resolved_bits": 64})
        self.assertEqual([stated.bits_of(it) for it in (127, 128, 2 ** 63 - 1, 2 ** 63)], [8, 16, 64, 128])

    def test_a_text_whose_number_is_another_is_found(self):
        text = documents.read("docs/DECISIONS.md")
        self.assertEqual(self.found(documents.numbers, "docs/DECISIONS.md", text), [])
        for name, old, new in (("docs/DECISIONS.md", "resolving add in 128 bits", "resolving add in 64 bits"),
                               ("docs/SPECIFICATION.md", "| 48 to 67 | amount", "| 48 to 66 | amount"),
                               ("docs/BANKS.md", "ALFA has 150 cents", "ALFA has 151 cents"),
                               ("docs/OPERATORS.md", "no commits (41 bytes)", "no commits (42 bytes)"),
                               ("docs/AUDITORS.md", "from 512 to 65536", "from 1024 to 65536")):
            text = documents.read(name)
            self.assertEqual(text.count(old), 1, old)
            self.assertNotEqual(self.found(documents.numbers, name, text.replace(old, new)), [], old)

    def test_the_version_is_what_the_program_tells(self):
        self.assertEqual(self.found(documents.versions), [])
        for name, old, what in (("CHANGELOG.md", r"(?m)^## \d", "the newest version in CHANGELOG.md"),
                                ("docs/CALLERS.md", r"(?m)^## \d", "the newest version in docs/CALLERS.md"),
                                ("docs/openapi.yaml", r"(?m)^  version: \d", "versions in docs/openapi.yaml"),
                                ("docs/openapi.yaml", r"(?m)^ {3,}version: \d", "versions in docs/openapi.yaml"),
                                (documents.RELEASE, r'PROGRAM_VERSION: &str = "\d', f"versions in {documents.RELEASE}"),
                                (documents.RELEASE, r"TABLES_VERSION: u64 = \d", f"versions in {documents.RELEASE}"),
                                ("docs/OPERATORS.md", r"(?m)^    desk \d", "versions that docs/OPERATORS.md shows"),
                                ("docs/desk.1.in", "@VERSION@", "the version of docs/desk.1.in"),
                                ("README.md", "`logic ", "logics that README.md names")):
            changed = re.sub(old, lambda m: f"{m[0]}9", stated.content(f"{documents.kit.TOP}/{name}"), count=1)
            real = documents.read
            found = self.found(documents.versions, read=lambda it, name=name, changed=changed, real=real:
                               changed if it == name else real(it))
            self.assertEqual(found, [what])

    def test_the_lists_of_files_are_counted(self):
        found = documents.judged()
        self.assertEqual(sorted(number for number, _ in found.values())[::len(found) - 1], [1, 16])
        self.assertEqual((found["every_limit"], found["make_and_live"][1] > 9), ((16, 15), True))

    def test_clauses_and_names_must_be_those_of_the_code(self):
        good = "`Desk::submit` (`acts`, which is `Acts`: `judged`; `faults`), `make` of `rtgs_book_file` (`stops`)"
        self.assertEqual(self.found(documents.cited_clauses, good), [])
        self.assertEqual(self.found(documents.cited_clauses, "`Desk::submit` (`actions`)"), ["clauses of Desk::submit"])
        text = "## Beside the main promises\n\n`numbers_are_distinct` `Desk::none` `no_such_name` `SqlKeeper` `clap`\n"
        self.assertEqual(self.found(documents.names, "README.md", text),
                         [f"README.md names `{it}`" for it in ("Desk::none", "no_such_name")])


    def test_a_document_calls_on_no_evidence_of_another_tree(self):
        text = "evidence/README.md says it, evidence/gate.txt too, and [it](evidence/kills.txt)"
        self.assertEqual(self.found(documents.called_on, "README.md", text, {"gate", "kills"}), [])
        self.assertEqual(self.found(documents.called_on, "README.md", text, {"gate"}),
                         ["README.md calls on evidence/kills.txt, which is of this tree"])

    def states(self, lines, tree, own):
        """Returns the findings, and the names of this tree, where these files stand in for those of evidence."""
        report = quiet()
        finding = findings.Finding("", findings.Tree("", *tree), "", "", True, [], lines)
        found = {it: finding for it in ("asserted", "gate")}
        with mock.patch.object(findings, "all_files", lambda: found), \
                mock.patch.object(documents.evidence, "tree", lambda: findings.Tree("", *own)):
            names = documents.states(report)
        return report.wrong, names

    def test_evidence_is_of_this_tree_or_says_what_its_tests_assert(self):
        lines = documents.asserted.lines()
        self.assertEqual(self.states(lines, "ab", "ab"), (0, {"asserted", "gate"}))
        self.assertEqual(self.states(lines, "ab", "cb"), (0, {"asserted"}))
        self.assertEqual(self.states(lines, "ab", "ac"), (0, {"asserted"}))
        self.assertEqual(self.states(["A", *lines[1:]], "ab", "ab")[0], 1)
        self.assertEqual(self.states(lines[:-1], "ab", "ab")[0], 1)


class Handbooks(unittest.TestCase):
    TEXT = "Say:\n\n    $ desk init a\n    initialised\n\n    $ desk queue a\n\n```sql\n    $ no command\n```\n"

    def test_commands_have_the_lines_behind_them(self):
        wanted = [("desk init a", ["initialised"]), ("desk queue a", [])]
        self.assertEqual(handbooks.commands(self.TEXT, handbooks.SHOWN), wanted)

    def test_a_shell_tells_the_streams_of_a_command_apart(self):
        with desks.room() as folder, handbooks.Session(folder) as session:
            said = session.run("echo 8080; echo refused >&2; echo b; (exit 3)")
            self.assertEqual(said, handbooks.Ended(3, ["8080", "b"], ["refused"]))
            self.assertEqual(session.run("SEEN=1"), handbooks.Ended(0, [], []))
            self.assertEqual(session.run("(sleep 0.1; exit 3) > server.txt & sleep 0"), (0, [], []))
            self.assertEqual(session.run("wait $! && echo well"), (3, [], []))
            self.assertEqual(session.run("exit"), (-1, [], []))

    def test_a_refusal_that_is_shown_stands_on_standard_error_and_has_its_status(self):
        for shown, wanted in (
                (["opened", "repeated"], (0, ["opened", "repeated"], [])),
                (["refused 19 Overdrawn ALFA 1"], (1, [], ["refused 19 Overdrawn ALFA 1"])),
                (["refused 91 StoreFault"], (3, [], ["refused 91 StoreFault"])),
                (["refused 91 StoreFault", "System command returns 768"],
                 (0, [], ["refused 91 StoreFault", "System command returns 768"])),
                (["Error: it is locked (5)"], (5, [], ["Error: it is locked (5)"])),
        ):
            self.assertEqual(handbooks.ended(shown), wanted)

    def test_what_is_shown_of_the_tour_is_what_it_prints(self):
        text = "```text\nno\n```\n\n    bin/tour\n\nIt prints:\n\n```text\n$ b\nc\n```\n\n```text\nno\n```\n"
        for printed, status, wrong in (("a\n$ b\nc\nd\n", 0, 0), ("$ b\nd\nc\n", 0, 1), ("a$ b\nc\n", 0, 1),
                                       ("$ b\nc\n", 1, 1)):
            report, ran = quiet(), mock.Mock(stdout=printed, returncode=status)
            with mock.patch.object(handbooks.subprocess, "run", lambda *_, ran=ran, **__: ran):
                handbooks.tour(text, report)
            self.assertEqual(report.wrong, wrong, printed)
        self.assertEqual(len(handbooks.OF_THE_TOUR.findall(handbooks.document("README.md"))), 1)

    def test_no_command_of_a_handbook_shows_lines_of_both_streams(self):
        for name, shown in (("OPERATORS", handbooks.SHOWN), ("AUDITORS", handbooks.SHOWN),
                            ("BANKS", handbooks.SHOWN_TO_BANKS)):
            for command, lines in handbooks.commands(handbooks.handbook(name), shown):
                _, out, err = handbooks.ended(lines)
                self.assertFalse(out and err, command)

    def test_a_fault_stands_under_its_query_with_what_is_found_of_it(self):
        text = ("-- Q3, forms: none.\n-- more\nSELECT 'Q3';\nSELECT 1;\n-- fault: DELETE\n--        FROM mark\n"
                "-- gives: `1` and `2`\n-- others: Q4 Q5\n-- desk: 94 Inconsistent 9\n"
                "-- fault: VACUUM\n-- desk: opens it\n")
        queries, faults = handbooks.audit_of(text)
        self.assertEqual(queries, {"Q3": "SELECT 1;"})
        self.assertEqual(faults, [("Q3", "DELETE FROM mark", ["1", "2"], ["Q4", "Q5"], "94 Inconsistent 9"),
                                  ("Q3", "VACUUM", [], [], "opens it")])

    def test_the_handbooks_show_commands_queries_and_faults(self):
        self.assertGreater(len(handbooks.commands(handbooks.handbook("OPERATORS"), handbooks.SHOWN)), 50)
        self.assertGreater(len(handbooks.commands(handbooks.handbook("BANKS"), handbooks.SHOWN_TO_BANKS)), 5)
        queries, faults = handbooks.audit_of(handbooks.document(handbooks.QUERIES))
        self.assertEqual(len(faults), handbooks.document(handbooks.QUERIES).count("-- fault: "))
        self.assertEqual({it.query for it in faults} - set(queries), {"What no query finds"})
        self.assertEqual(set(queries) - {it.query for it in faults}, set())


class Edges(unittest.TestCase):
    """How a run ends stands in for the program."""

    def test_an_answer_names_a_refusal_or_what_is_printed(self):
        self.assertEqual(edges.wanted("!19 ALFA 1"), (runs.Ran(1, "", "refused 19 Overdrawn ALFA 1\n"), False))
        self.assertEqual(edges.wanted("=repeated"), (runs.Ran(0, "repeated\n"), False))
        self.assertEqual(edges.wanted("opened / auto"), (runs.Ran(0, "opened\nauto\n"), True))

    def tried(self, answer, line="init @", content=None):
        """Returns what is found where a run ends so, and leaves this in the book's file."""
        report = quiet()

        def run(*_, **how):
            if content is not None:
                with open(f"{how['cwd']}/{edges.BOOK}", "w", encoding="utf-8") as it:
                    it.write(content)
            return answer

        with desks.room() as folder, mock.patch.object(runs, "run", run):
            tried = edges.Edges(folder, report)
            tried.follows(f"{line} => initialised")
        return report.wrong, tried.met

    def test_a_run_that_ends_with_0_must_have_acted_and_said_so(self):
        done = runs.Ran(0, "initialised\n")
        self.assertEqual(self.tried(done, content="1"), (0, set()))
        self.assertEqual(self.tried(done), (1, set()))
        self.assertEqual(self.tried(done._replace(status=3), content="1"), (1, set()))
        self.assertEqual(self.tried(runs.Ran(0, "", "initialised\n"), content="1"), (1, set()))
        self.assertEqual(self.tried(runs.refused(96)), (1, {96}))

    def test_each_refusal_of_a_run_and_each_command_is_among_the_lines(self):
        answers = [line.split(" => ")[1] for line in edges.RUNS]
        refused = {int(it[1:].split(" ")[0]) for it in answers if it.startswith("!")}
        # (those of other files, of a taken port and of lack of memory)
        others = {90, 91, 93, 94, 95, 97}
        unmet = edges.OF_ROWS | edges.AT_THE_LAST_NUMBER | edges.NEVER
        self.assertEqual(refused | others | unmet, set(runs.refusals()))
        self.assertFalse((refused | others) & unmet)
        with open(f"{desks.kit.TOP}/docs/SPECIFICATION.md", encoding="utf-8") as it:
            told = set(re.findall(r"^    desk ([a-z]+) FILE", it.read(), re.M))
        self.assertEqual({it.split(" ")[0] for it in edges.EACH}, told)


class HostileFiles(unittest.TestCase):
    def test_each_file_has_a_name_of_its_own(self):
        names = [name for name, _ in hostile.all_files()]
        self.assertEqual(len(names), len(set(names)))
        self.assertIn(hostile.MOVED_IN, names)

    def test_chance_changes_a_file_in_the_same_way_each_time(self):
        data = bytes(range(256)) * 64
        changed = [[hostile.changed_by(chance, data) for _ in range(50)] for chance in map(random.Random, (1, 1))]
        self.assertEqual(*changed)
        self.assertGreater(len(set(changed[0])), 20)

    def judged(self, said, is_kept, is_moved_in=False):
        return hostile_files.is_well("", said, is_kept, is_moved_in)

    def test_a_file_must_be_kept_and_have_an_answer_that_operators_are_told_of(self):
        for said in ("report", "refused 91 StoreFault", "refused 93 NotADeskFile", "refused 94 Inconsistent 16"):
            self.assertTrue(self.judged(said, True), said)
            self.assertFalse(self.judged(said, False), said)
        for said in ("NO END", "refused 94 Inconsistent 17", "refused 90 OutOfMemory", "101: '' 'panic'"):
            self.assertFalse(self.judged(said, True), said)

    def test_the_one_file_whose_log_is_moved_in_must_change(self):
        self.assertTrue(self.judged("report", False, True))
        self.assertFalse(self.judged("report", True, True))

    def test_a_migrated_file_must_be_reported_on(self):
        for said in ("report", "refused 91 StoreFault"):
            with mock.patch.object(hostile_files, "asked", lambda book, said=said: (said, 0)):
                self.assertEqual(self.judged("migrated", False), said == "report")

    def test_what_became_of_the_files_beside_is_told(self):
        self.assertEqual(hostile_files.became({"": b"", "-wal": b"1"}, {"": b"", "-shm": b"22"}),
                         "-wal changed, gone; -shm new, 2 bytes")


class Migrations(unittest.TestCase):
    def test_each_rule_is_broken(self):
        self.assertEqual({rule for rule, _ in migrations.UNSOUND}, set(range(1, 15)))

    def test_each_older_version_of_the_tables_migrates_a_book(self):
        since = {migrations.SINCE.get(name, 1) for name in migrations.BOOKS}
        self.assertEqual(since, set(desks.OLDER))
        self.assertEqual(set(migrations.NO_DESK_OF), set(desks.OLDER))

    def test_every_command_but_two_is_refused(self):
        with open(f"{desks.kit.TOP}/docs/SPECIFICATION.md", encoding="utf-8") as it:
            told = set(re.findall(r"^    desk ([a-z]+) FILE", it.read(), re.M))
        tried = {it.split(" ")[0] for it in migrations.OTHERS}
        self.assertEqual(tried, told - {"init", "migrate"})


class Refusals(unittest.TestCase):
    def test_how_far_a_call_came_is_the_last_line_of_its_test(self):
        text = "tests::a: begins\ntests::b: called\n  tests::a: Refused\n"
        self.assertEqual(refusals.last_word(text, "tests::a"), "Refused")
        self.assertIsNone(refusals.last_word(text, "tests::c"))

    def test_requests_that_came_to_the_same_are_told_together(self):
        self.assertEqual(refusals.counted(["Refused", "Refused", "Ample"]), "1 to 2 Refused, 3 Ample")
        self.assertEqual(refusals.counted([]), "none")
        self.assertEqual(refusals.summed(["Refused", "Ample", "Refused"]), "3 requests: 1 Ample, 2 Refused")
        self.assertEqual(refusals.summed(["Other"]), "1 requests: 1 Other")
        self.assertEqual(refusals.summed([]), "0 requests: none")

    def test_the_requests_of_the_state_made_again_are_left_out(self):
        program = refusals.Program.__new__(refusals.Program)
        words = {6: "Refused", 7: "Ample", 8: "Ample", 9: "called", 3: "made", 4: "begins"}
        program.run = lambda _, number: (words.get(number), [2, 5])
        self.assertEqual(program.outcomes("tests::a"), ["Refused", "Ample"])

    def test_a_call_that_came_to_what_no_test_allows_is_wrong(self):
        report = quiet()
        def said(_, number):
            return f"test tests::a ... tests::a: {('called', 'Other')[number - 1]}\n"

        with mock.patch.object(refusals.kit, "tests_with_a_request_refused", said):
            refusals.by_rt_try(1, 2, "crate", report)
            self.assertEqual((report.right, report.wrong), (2, 0))
            refusals.by_rt_try(2, 2, "crate", report)
            self.assertEqual((report.right, report.wrong), (2, 1))


class Plants(unittest.TestCase):
    """What rt plant prints is stood in for by these lines."""

    def found(self, said):
        report, given = quiet(), mock.Mock(crates=["low"], minutes=1)
        with mock.patch.object(plants.kit, "planted", return_value=said):
            plants.run(given, report)
        return report

    def test_what_is_proved_is_listed_below_the_counts(self):
        report = self.found("    proves      src/a.rt:3 f: { None }\nplants crate=low proves=1 refused=2\n")
        self.assertEqual((report.right, report.wrong), (1, 0))
        proved = "    proves      src/a.rt:3 f: { None }"
        last = "1 crates: 1 wrong bodies are proved, each listed for a reader to judge"
        self.assertEqual(report.found, ["low: plants crate=low proves=1 refused=2", proved, last])

    def test_a_crate_that_is_not_judged_is_wrong(self):
        self.assertEqual(self.found("rt: low is not proved\n").wrong, 1)


if __name__ == "__main__":
    unittest.main()
