"""Where the code answers that memory ran out (90, or 69 for a reply), or that the store failed (91).

No contract can say that memory was refused, or that a store met a fault: a body that answers so whenever it likes is
proved. So each place that gives one of these answers has to stand right behind its cause, and what does not is found
here. Memory ran out

- in an arm of a `match` whose pattern is an error for lack of memory, and no other, or any error of what fails for
  that alone;
- behind a `let Ok(..) = .. else`, or an `if` that compares the kind of an error;
- in the `from` that `?` calls with the error of an allocation.

The store failed in an arm whose pattern is that fault, behind `if self.failed`, and in the functions that say what an
error of a store means, or are given what it holds. And what these are told is what the engine told: nothing else makes
an error of the engine, and only one of the commit itself is told as such.
"""
import functools
import re

import kit
from lib import contracts

# crates that no run of the program is made of
LEFT_OUT = ("desk_bench",)
# behind it where it is asked for, and not given; and before it where it is compared, or is a type
ASKED = re.compile(r"[\s)]*(?:\([^()]*\))?[\s)]*(?:(?:\|(?:[^=;{},]|\{ ?\.\. ?\})*)?(?:\bif\b[^=;{}]*)?=>|=(?![=>]))")
COMPARED = re.compile(r"(?:[=!]=|\bmatches!\([^;]*)\s*(?:\w+(?:::|\())*$")
TYPE = re.compile(r"(?:->|: )\s*Result<[^;={}]*$")
# a block that gives up at once, and an arm, up to what it gives
RETURNS = r"\s*\{\s*return [\w:(]*$"
ARM = re.compile(r"([^,;{}]*(?:\{ ?\.\. ?\}[^,;{}]*)?)=>(?!.*=>)(?!.*\b(?:if|else|for|while)\b)", re.S)


class Answer:
    """An answer: the words for its cause, what gives it, which patterns of an arm are the cause, what else may stand
    before it, and in which functions of which crates it is given for another reason, which is stated there."""

    def __init__(self, words, given, arm, before, stated=()):
        self.words, self.stated = words, stated
        self.given, self.arm, self.before = re.compile(given), re.compile(arm, re.S), re.compile(before)

    def has_a_cause(self, before):
        """Tells whether the cause stands before the answer, by the text before it in its function."""
        statement = re.split(r"[;}]\s*(?![,)\s}]*=>)", before)[-1]
        arm = ARM.search(statement)
        return bool(self.before.search(statement) or arm and self.arm.fullmatch(arm.group(1)))

    def given_freely(self, code, function):
        """Yields the places of a function where the answer is given and its cause does not stand before it."""
        body = code.bare[function.body : function.end]
        for it in self.given.finditer(body):
            before, behind = body[: it.start()], body[it.end() :]
            if ASKED.match(behind) or COMPARED.search(before[before.rfind(";") + 1 :]) or TYPE.search(before):
                continue
            if not self.has_a_cause(re.sub(r"(?:\w+::)+$", "", before)):
                yield function.body + it.start()


# functions that give the answer for others: each call of one has to stand behind the cause
FOR_OTHERS = ("out_of_memory", "answer_lost", "without_room")
FROM = re.compile(r"fn from\(\w+: Alloc(?:Error|Failed<)")
MEMORY = Answer(
    "memory ran out",
    rf"\b(?:AllocError|AllocFailed|OutOfMemory|(?:{'|'.join(FOR_OTHERS)})(?=(?:::<[^>()]*>)?\())\b",
    r"\s*Err\(_\)\s*|(?!.*\bOk\()(?!.*\|\|).*(?:::OutOfMemory\b|\.is_memory\(\)).*",
    rf"(?:\blet Ok\([^;]*\belse|\bif \w+(?:\.\w+\(\))* == \w+::OutOfMemory){RETURNS}",
    {("rtgs_http_bodies", "refusal_of"), ("rtgs_book_file", "created")},
)
STORE = Answer(
    "the store failed",
    r"\b(?:Fault|Refusal)::StoreFault\b|\bCommitFault::Store\b",
    r"(?!.*\bOk\().*(?:::StoreFault|\bCommitFault::Store)\b.*",
    rf"\bif self\.failed{RETURNS}",
    {
        ("rtgs_sql_loading", "fault_of"), ("rtgs_sql_look_ups", "fault_of"), ("rtgs_tables", "fault_of"),
        ("rtgs_sql_look_ups", "only_record"), ("rtgs_sql_look_ups", "dated"), ("rtgs_desk", "submit"),
        ("rtgs_desk", "refused"), ("rtgs_book_file", "fault_of"), ("rtgs_book_file", "opening"),
        ("rtgs_book_file", "vacancy"), ("rtgs_book_file", "unless_made"), ("rtgs_book_file", "fault_of_path"),
        ("rtgs_book_file", "fault_of_copying"),
    },
)
NONE = r"(?!)"
COMMIT = Answer("a commit failed", r"\bStopped::AtCommit\b", NONE,
                r"\bmatch tx\.commit\(\) \{[^{}]*\bErr\(error\) => Err\($")
ENGINE = Answer("the engine failed", r"\bError::SqliteFailure\b", NONE, NONE, {("rtgs_sql_columns", "check_number")})
ANSWERS = (MEMORY, STORE, COMMIT, ENGINE)


def places(answer, module):
    """Yields of a file the function and the line of each place where the answer is given without its cause."""
    for function in module.all:
        if answer is MEMORY and (function.name in FOR_OTHERS or FROM.match(function.head)):
            continue
        for at in answer.given_freely(module.code, function):
            yield function.name, module.code.text.count("\n", 0, at) + 1


@functools.lru_cache(maxsize=None)
def found(answer):
    """Returns how often the answer is named, and the places that give it without its cause, in all crates."""
    many, free = 0, []
    for crate in contracts.listed(kit.TOP):
        for module in crate.modules.values() if crate.name not in LEFT_OUT else ():
            many += sum(len(answer.given.findall(module.code.bare[it.body : it.end])) for it in module.all)
            free += [f"{crate.name}::{function}, line {line}" for function, line in places(answer, module)
                     if (crate.name, function) not in answer.stated]
    return many, free
