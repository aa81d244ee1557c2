#!/usr/bin/env python3
"""Stands in the tests for the kit's command: it has what kit.py calls, proves nothing, and notes each command in a
file."""
import os
import sys
import types

REFUSED, AT_LIMIT, BAD, UNSURE, MISSED = "refused", "limit", "bad", "unsure", "missed"
SETTLED = (REFUSED, AT_LIMIT, BAD)


class Crate:
    """A crate of a tree that has three, of which desk stands on the others."""

    def __init__(self, top, name, lower):
        self.folder, self.name, self.lower, self.out = f"{top}/crates/{name}", name, lower, None
        self.is_program, self.of_kit = name == "desk", ["std"]

    def below(self):
        return self.lower

    def sources_below(self):
        return [word for it in self.lower for word in ("--lib", f"{it.name}:std={it.folder}/src/lib.rt")]

    def build_rlib(self, _flags, anew):
        self.out.write(f"{self.name} is proved{' anew' if anew else ''}\n")
        return 0


def crates_below(folder):
    top, _, name = folder.partition("/crates")
    lower = [Crate(top, "low", []), Crate(top, "rtgs_cli_arguments", [])]
    return [*lower, Crate(top, name[1:] or "desk", lower)]


def kit_sources(names):
    return [word for it in dict.fromkeys(names) for word in ("--lib", f"{it}:=lib.rt")]


KIT = os.path.dirname(os.path.dirname(os.path.realpath(__file__)))
rtlib = types.SimpleNamespace(crates_below=crates_below, guarded=lambda: [], lock=lambda crates: [],
                              kit_sources=kit_sources, KIT=KIT, RUNNER=f"{KIT}/bin/rattle-test")


def processors():
    return 2


def free():
    return int(os.environ.get("FREE_MEMORY", "10000000000"))


def drop_to_nobody():
    return []


def need(_crate):
    return 1000


def run(*_given):
    return 0


def in_lanes(tasks):
    given = {}
    for key, (_, _, _, call) in tasks.items():
        given[key] = call(given, 1)
    return given


def edits_of(crate):
    folder = f"{crate.folder}/must-fail"
    return ([f"{folder}/{it}" for it in sorted(os.listdir(folder))] if os.path.isdir(folder) else []), []


def read_edit(edit, _folder):
    return None, "it does not apply" if "lost" in edit else ""


def must_fail(_crate, edit, _flags, kept=None):
    kind = MISSED if "missed" in edit else REFUSED
    return kind, f"{os.path.basename(edit)}: {kind}{' over what was kept' if kept else ''}"


def checked(_crate, _texts, _flags, _kept):
    return types.SimpleNamespace(returncode=0)


def main(words):
    crates = crates_below(os.getcwd())
    in_lanes({(it.name, "proof"): ([], 1, need(it), lambda given, jobs: True) for it in crates})
    run(crates[0], False)
    print(f"ran {' '.join(words)}")
    done = 2 if "--anew" in words else 1
    print(f"rt: ok; done in this run: {done} of the 2 proofs (of crates) and 0 of the 0 must-fail edits")
    print("2 passed, 0 failed")
    return 0


if __name__ == "__main__":
    with open(f"{os.path.dirname(os.path.abspath(__file__))}/called", "a", encoding="utf-8") as called:
        called.write(f"{' '.join(sys.argv[1:])}\n")
    if sys.argv[1:] == ["version"]:
        print("a kit of the tests")
    if sys.argv[1:] == ["run"]:
        os.makedirs("out", exist_ok=True)
        with open("out/desk", "w", encoding="utf-8") as program:
            program.write("#!/bin/sh\n")
        os.chmod("out/desk", 0o755)
