"""Where the code answers that memory ran out, or that the store failed: what stands behind a cause, and what is found
that does not."""
import os
import tempfile
import unittest

from lib import causes, contracts

BEHIND_CAUSES = """
// Err(AllocError) in a comment
fn told(alloc: Global, fault: Fault) -> Result<Vec<u8>, AllocError>
    ensures { IfErr result (λ error. error ≡ AllocError) }
{
    let tried: Result<u64, AllocError> = none(alloc);
    let Ok(room) = Vec::with_capacity(alloc, 3) else {
        return Err(Fault::OutOfMemory);
    };
    if error.kind() == ErrorKind::OutOfMemory {
        return report(Failure::from(AllocError), err);
    }
    match fault {
        Fault::OutOfMemory => Refusal::OutOfMemory,
        Fault::Inconsistent { .. } | Fault::OutOfMemory if is_alive(conn) => {
            CommitFault::OutOfMemory
        }
        Fault::StoreFault | Fault::Inconsistent { .. } => Refusal::StoreFault,
        CommitFault::Store | CommitFault::Failed => Fault::StoreFault,
        Err(error) if error.is_memory() => Err(HttpFault::OutOfMemory),
        Err(_) => Err(Unfinished {
            said: none,
            cause: NoSession::OutOfMemory,
        }),
    }
}

impl From<AllocError> for Fault {
    fn from(_error: AllocError) -> Fault {
        Fault::OutOfMemory
    }
}

impl Keeper {
    fn find(&mut self) -> Result<Option<Order>, Fault>
        ensures { result ≢ Err Fault.StoreFault }
    {
        if self.failed {
            return Err(Fault::StoreFault);
        }
        let found = find(&mut self.conn);
        if let Err(Fault::StoreFault) = found {
            self.failed = true;
        }
        found
    }
}

fn write(conn: &mut Connection<S>) -> Result<(), Stopped> {
    match stage(&mut tx, rows) {
        Ok(()) => {}
        Err(Error::SqliteFailure(ErrorCode::OutOfMemory)) if is_alive(conn) => return none,
        Err(error) => return Err(Stopped::Before(error)),
    }
    match tx.commit() {
        Ok(()) => Ok(()),
        Err(error) => Err(Stopped::AtCommit(error)),
    }
}

impl Reply {
    /// It gives the answer for others.
    pub fn out_of_memory() -> Reply {
        Reply::of(AllocError)
    }
}
"""

# each is the body of a function that gives up as it likes: for lack of memory, and by a fault of the store
FREE_OF_MEMORY = [
    "    if orders.len() > 100_000 {\n        return Err(AllocError);\n    }\n    orders.iter().collect(alloc)",
    "    if accounts.len() > 64 {\n        return Reply::out_of_memory();\n    }\n    Reply::of(accounts)",
    "    for row in rows {\n        read(row)?;\n    }\n    Err(Fault::OutOfMemory)",
    "    match rows {\n        Ok(rows) => rows,\n        Err(error) => Err(AllocError),\n    }",
    "    match rows {\n        [] => Ok(none),\n        _ => Err(Refusal::OutOfMemory),\n    }",
    "    match rows {\n        Err(_) => if many {\n            Err(AllocError)\n        } else { rest },\n    }",
    "    match read(rows) {\n        Err(_) => none,\n        Ok(_) => Err(AllocError),\n    }",
    "    find(rows).ok_or(Fault::OutOfMemory)",
    "    Err(Unfinished {\n        cause: NoSession::OutOfMemory,\n        store,\n    })",
    "    let mut failure = none;\n    failure = Fault::OutOfMemory;\n    Err(failure)",
    "    let Some(row) = rows.first() else {\n        return Err(Refusal::OutOfMemory);\n    };\n    Ok(row)",
    "    match rows {\n        Err(_) | Ok(_) if many => Err(AllocError),\n        _ => none,\n    }",
    "    match rows {\n        Err(it) if it.is_memory() || many => Err(AllocError),\n        it => it,\n    }",
    "    if text.len() > 200 {\n        return Reply::answer_lost();\n    }\n    Reply::of(text)",
    "    let Ok(row) = rows.first() else {\n        return none;\n    };\n    Err(AllocError)",
    "    Err(without_room::<T>(rows))",
]


FREE_OF_A_COMMIT = [
    "    match stage(tx) {\n        Ok(()) => {}\n        Err(error) => return Err(Stopped::AtCommit(error)),\n    }",
    "    if rows.len() > 64 {\n        return Err(Stopped::AtCommit(error));\n    }\n    tx.commit()",
]
FREE_OF_THE_ENGINE = [
    "    match stage(tx) {\n        Err(_) => Err(Error::SqliteFailure(code)),\n        it => it,\n    }",
]
FREE_OF_THE_STORE = [
    "    if number > 50_000 {\n        return Err(Fault::StoreFault);\n    }\n    first(number)",
    "    match seek(conn) {\n        Ok(at) => Ok(at),\n        Err(_) => Err(Fault::StoreFault),\n    }",
    "    match seek(conn) {\n        Err(Fault::OutOfMemory) => Err(Fault::StoreFault),\n        it => it,\n    }",
    "    let Ok(at) = seek(conn) else {\n        return Err(Fault::StoreFault);\n    };\n    Ok(at)",
    "    for _ in 0..3 {\n        go(conn)?;\n    }\n    Err(CommitFault::Store)",
]
FREE = (FREE_OF_MEMORY, FREE_OF_THE_STORE, FREE_OF_A_COMMIT, FREE_OF_THE_ENGINE)


class Causes(unittest.TestCase):
    def setUp(self):
        self.room = tempfile.TemporaryDirectory()
        self.addCleanup(self.room.cleanup)

    def places(self, answer, text):
        path = f"{self.room.name}/lib.rt"
        with open(path, "w", encoding="utf-8") as it:
            it.write(text)
        return list(causes.places(answer, contracts.Module(os.path.dirname(path), path)))

    def test_an_answer_behind_its_cause_is_passed_over(self):
        for answer in causes.ANSWERS:
            self.assertEqual(self.places(answer, BEHIND_CAUSES), [])

    def test_each_body_that_gives_up_as_it_likes_is_found(self):
        for answer, bodies in zip(causes.ANSWERS, FREE):
            for body in bodies:
                self.assertEqual([it for it, _ in self.places(answer, f"fn it() {{\n{body}\n}}\n")], ["it"], body)

    def test_the_line_is_told(self):
        self.assertEqual(self.places(causes.MEMORY, "fn it() {\n    none();\n    Err(AllocError)\n}\n"), [("it", 3)])

    def test_the_tree_has_places_and_none_that_stands_alone(self):
        for answer, least in zip(causes.ANSWERS, (50, 20, 2, 4)):
            many, free = causes.found(answer)
            self.assertGreater(many, least, answer.words)
            self.assertEqual(free, [])
