"""Wrong bodies: what an edit changes, what a check says of it, and which answers no longer fit."""
import argparse
import os
import sys
import tempfile
import unittest

ROOT = os.path.realpath(f"{os.path.dirname(os.path.realpath(__file__))}/../..")
sys.path.insert(0, f"{ROOT}/tools")
import bodies

CODE = """//! Lanes.

const MOST: usize = 3;

/// A lane.
pub struct Lane {
    waits: usize,
}

impl Lane {
    /// Whether there is room.
    #[must_use]
    pub fn has_room(&self) -> bool
        ensures { result ≡ nat_lt self.now MOST }
    {
        self.waits < MOST
    }

    fn put(&mut self) -> bool {
        if self.has_room() {
            self.waits += 1;
            return true;
        }
        false
    }
}

impl Drop for Lane {
    fn drop(self) {
        let Lane { waits: _ } = self;
    }
}

impl From<Fault> for Error {
    fn from(fault: Fault) -> Error {
        Error::Fault(fault)
    }
}

pub(crate) fn filled(lane: &mut Lane) -> bool {
    lane.put() && least(lane)
}
"""

# an answer that no longer fits, beside a goal that is not proved
STALE = """checked rt_mail::lane::filled, 1 of 1
./proofs/lane/filled/Answers.antt:9:82: error: `returns`: as printed, the two types differ only where one has `w32`
  computed as far as they go, the two types differ
note: src/lane.rt:41:17: it is not proved that what `put` requires holds at this call (`put-requires`); `grind` gave up at one of its limits
note: src/lane.rt:16:9: it is not proved that what the function ensures holds when it returns (`returns`); the facts known there allow values at which this goal is false
fn rt_mail::lane::filled: not proved
fn rt_mail::lane::Lane::has_room: no proof: expected answers in ./proofs/lane/Lane/has_room/Answers.antt; `search` did not prove `returns`, `loop-a-preserved`
crate rt_mail: modules loaded=0 checked=64
only=2 proved=0
"""

ANSWERS = """-- what fills
use Rattle.std.proofs.Common.{sym, ap, ◌∙◌,
    arith}
use Rattle.rt_mail.proofs.lane.filled.Goals as goal

-- one more
more : (n : ℕ) → n < n + 1
more zero = tt
more (suc n) =
    more n

pub returns : goal.returns
unfolding Filled
returns c = record {
    room = more c.n;
}

pub put-requires : goal.put-requires
put-requires c = omega arith
"""


class Functions(unittest.TestCase):
    def test_names(self):
        names = [name for name, _ in bodies.functions_in("src/lane.rt", CODE)]
        self.assertEqual(names, ["Lane::has_room", "Lane::put", "Lane::drop", "ErrorFromFault::from", "lane::filled"])
        code = "impl<S: Read + Drop, K: Keys> Socket<Paced<S>, K> {\n    fn left(&self) {\n    }\n}\nimpl<S, K> Socket<S, K> {\n    fn right(&self) {\n    }\n}\n"
        self.assertEqual([name for name, _ in bodies.functions_in("src/socket.rt", code)], ["Socket+Paced+S+K::left", "Socket::right"])
        self.assertEqual([name for name, _ in bodies.functions_in("src/lib.rt", "pub fn run() {\n}\n")], ["run"])
        self.assertEqual([name for name, _ in bodies.functions_in("src/lib.rt", 'pub extern "C" fn run() {\n}\n')], ["run"])
        self.assertEqual([name for name, _ in bodies.functions_in("src/steps/mod.rt", "fn kind() {\n}\n")], ["steps::kind"])

    def test_names_of_a_lent_type(self):
        code = "impl<'a, T> IntoIterator for &'a Lane<T> {\n    fn into_iter(self) -> Iter<'a, T> {\n    }\n}\n"
        self.assertEqual([name for name, _ in bodies.functions_in("src/lane.rt", code)], ["RefLaneIntoIterator::into_iter"])

    def test_place(self):
        at = CODE.index("self.waits += 1")
        self.assertEqual(bodies.function_at("src/lane.rt", CODE, at), "Lane::put")
        self.assertIsNone(bodies.function_at("src/lane.rt", CODE, CODE.index("const")))

    def test_callers(self):
        texts = {"src/lane.rt": CODE, "src/lib.rt": "pub fn all(lane: &mut Lane) {\n    crate::lane::filled(lane);\n}\n"}
        self.assertEqual(bodies.callers_of("Lane::put", texts), ["lane::filled"])
        self.assertEqual(bodies.callers_of("lane::filled", texts), ["all"])
        self.assertEqual(bodies.callers_of("all", texts), [])


class Checks(unittest.TestCase):
    def setUp(self):
        self.said = bodies.Said(STALE)

    def test_stale(self):
        self.assertEqual(self.said.stale(), {"proofs/lane/filled/Answers.antt": {9}})

    def test_goals(self):
        self.assertEqual(self.said.goals("rt_mail", "lane::filled", {"src/lane.rt": CODE}), {"put-requires": False})
        self.assertEqual(self.said.goals("rt_mail", "Lane::has_room", {"src/lane.rt": CODE}), {"returns": True, "loop-a-preserved": False})
        self.assertEqual(self.said.goals("rt_mail", "Lane::put", {"src/lane.rt": CODE}), {})

    def test_judged(self):
        self.assertTrue(self.said.has_judged)
        self.assertFalse(bodies.Said("src/lane.rt:3:1: error: [borrow-e0382]\nrt: mend these first\n").has_judged)

    def test_line(self):
        self.assertEqual(self.said.own_line("rt_mail", "lane::filled"), "not proved")
        self.assertTrue(self.said.own_line("rt_mail", "Lane::has_room").startswith("no proof: "))
        self.assertEqual(self.said.own_line("rt_mail", "Lane::put"), "")


class Answers(unittest.TestCase):
    def test_pieces(self):
        names = [name for name, _, _ in bodies.pieces_of(ANSWERS)]
        self.assertEqual(names, ["", "", "more", "returns", "put-requires"])

    def test_one_is_taken_away(self):
        left, names = bodies.without(ANSWERS, {13})
        self.assertEqual(names, ["returns"])
        self.assertEqual(left, ANSWERS[: ANSWERS.index("pub returns")] + ANSWERS[ANSWERS.index("\npub put-requires") :])

    def test_a_lemma_is_taken_away_whole(self):
        left, names = bodies.without(ANSWERS, {10})
        self.assertEqual(names, ["more"])
        self.assertNotIn("(suc n)", left)

    def test_an_import_is_taken_away_whole(self):
        left, names = bodies.without(ANSWERS, {3})
        self.assertEqual(names, [""])
        self.assertNotIn("arith}", left)

    def test_files_of_a_function(self):
        self.assertTrue(bodies.is_of("proofs/lane/Lane/put/Answers.antt", "Lane::put"))
        self.assertTrue(bodies.is_of("proofs/lane/+put/Answers.antt", "Lane::put"))
        self.assertFalse(bodies.is_of("proofs/lane/Lane/put/Answers.antt", "Mail::put"))
        self.assertTrue(bodies.is_of("proofs/lane/+way/Answers.antt", "lane::there", "way"))
        self.assertFalse(bodies.is_of("proofs/lane/+there/Answers.antt", "lane::there", "way"))

    def test_a_cycle_of_calls_has_its_answers_in_one_file(self):
        ways = "#[cycle(way)]\nfn there() {}\n\n#[cycle(way)]\n#[inline]\npub fn back() {}\n\nfn home() {}\n"
        cycles = bodies.cycles_in({"src/lane.rt": ways})
        self.assertEqual(cycles, {"lane::there": "way", "lane::back": "way"})
        taken = bodies.Taken("", cycles)
        taken.names = {"proofs/lane/+way/Answers.antt": {"back-returns"}}
        self.assertTrue(taken.had("lane::back", "back-returns-clause-ok"))
        self.assertFalse(taken.had("lane::home", "back-returns"))

    def test_taken_and_put_back(self):
        file = "proofs/lane/filled/Answers.antt"
        with tempfile.TemporaryDirectory() as room:
            os.makedirs(os.path.dirname(f"{room}/{file}"))
            bodies.write(f"{room}/{file}", ANSWERS)
            taken = bodies.Taken(room)
            self.assertTrue(taken.take({file: {13}}))
            self.assertFalse(taken.take({file: {1}}))
            self.assertTrue(taken.had("lane::filled", "returns"))
            self.assertTrue(taken.had("lane::filled", "returns-clause-room"))
            self.assertFalse(taken.had("lane::filled", "put-requires"))
            self.assertFalse(taken.had("Lane::put", "returns"))
            self.assertFalse(taken.invariants("lane::filled"))
            taken.put_back()
            self.assertEqual(bodies.read(f"{room}/{file}"), ANSWERS)


class Verdicts(unittest.TestCase):
    FILE = "proofs/lane/filled/Answers.antt"

    def verdict(self, goals, is_proved=False, is_last=True, gone=()):
        taken = bodies.Taken("")
        taken.names = dict(gone)
        return bodies.verdict_of("lane::filled", goals, is_proved, taken, is_last)

    def test_a_goal_refuses(self):
        self.assertEqual(self.verdict({"returns": False}, is_last=False), bodies.REFUSED)
        self.assertEqual(self.verdict({"put-requires": False}, gone={self.FILE: {"returns"}}), bodies.REFUSED)

    def test_a_goal_without_its_answer_says_less(self):
        self.assertEqual(self.verdict({"returns": False}, gone={self.FILE: {"returns"}}), bodies.OPEN)
        self.assertEqual(self.verdict({"returns": True}, gone={self.FILE: {"returns"}}), bodies.REFUSED)

    def test_an_answer_refuses_nothing(self):
        self.assertIsNone(self.verdict({}, is_last=False))
        self.assertEqual(self.verdict({}, is_proved=True, gone={self.FILE: {"returns"}}), bodies.ANSWER)
        self.assertEqual(self.verdict({}, is_proved=True), bodies.PROVED)
        self.assertEqual(self.verdict({"returns": False}, gone={"proofs/lane/filled/Invariants.antt": {"invariant-loop-a"}}), bodies.ANSWER)

    def test_a_goal_that_came_for_another_says_less(self):
        taken = bodies.Taken("")
        taken.lost = {self.FILE}
        self.assertIsNone(bodies.verdict_of("lane::filled", {"returns-then": False}, False, taken, False))
        self.assertEqual(bodies.verdict_of("lane::filled", {"returns-then": False}, False, taken, True), bodies.OPEN)
        self.assertEqual(bodies.verdict_of("lane::filled", {"returns-then": True}, False, taken, False), bodies.REFUSED)
        self.assertEqual(bodies.verdict_of("lane::least", {"returns-then": False}, False, taken, False), bodies.REFUSED)

    def test_what_says_nothing(self):
        self.assertEqual(self.verdict({}), bodies.UNTOLD)


class Judging(unittest.TestCase):
    """Checks that are answered by a script of what rt says, turn after turn."""

    FILE = "proofs/lane/filled/Answers.antt"
    STALE = f"./{FILE}:13:9: error: `returns`: expected type\nfn rt_mail::lane::filled: not proved\nonly=1 proved=0\n"
    OPEN = "fn rt_mail::lane::filled: no proof: expected answers in ./x; `search` did not prove `returns`\nonly=1 proved=0\n"
    PROVED = "fn rt_mail::lane::filled: proved\nonly=1 proved=1\n"

    def judged(self, *said):
        with tempfile.TemporaryDirectory() as room:
            for file, text in (("src/lane.rt", CODE), (self.FILE, ANSWERS)):
                os.makedirs(os.path.dirname(f"{room}/{file}"), exist_ok=True)
                bodies.write(f"{room}/{file}", text)
            turns, real = iter(said), bodies.run
            bodies.run = lambda words, folder: argparse.Namespace(stdout=next(turns))
            try:
                found = bodies.judged("rt_mail", ["lane::filled"], room, [])
            finally:
                bodies.run = real
            self.assertEqual(bodies.read(f"{room}/{self.FILE}"), ANSWERS)
            self.assertEqual(list(turns), [])
            return found and found["lane::filled"]

    def test_an_open_verdict_has_its_goals(self):
        wanted = f"note: `returns` of {self.FILE} must prove: c.args.lane ≤ 3\nnote: `returns` of proofs/lane/least/Answers.antt must prove: ⊥\n"
        found = self.judged(self.STALE, wanted + self.OPEN)
        self.assertEqual((found, found.goals), (bodies.OPEN, {"returns": "c.args.lane ≤ 3"}))
        self.assertEqual(self.judged(self.STALE, self.OPEN).goals, {"returns": ""})

    def test_a_goal_that_is_there_no_more(self):
        gone = f"./{self.FILE}:13:9: error: `goal.returns`: module `Rattle.rt_mail.proofs.lane.filled.Goals` has no `returns` that can be named from here\n"
        self.assertEqual(bodies.Said(gone).lost(), {self.FILE})
        self.assertEqual(bodies.Said(self.STALE).lost(), set())
        other = self.OPEN.replace("returns", "returns-then")
        self.assertEqual(self.judged(gone + other, other), bodies.OPEN)

    def test_a_check_that_is_cut_off_is_made_again(self):
        cut = "checked rt_mail::lane::filled, 1 of 3\n"
        self.assertEqual(self.judged(cut, self.PROVED), bodies.PROVED)
        self.assertEqual(self.judged(self.STALE, cut, self.OPEN), bodies.OPEN)
        self.assertEqual(self.judged(cut, cut), bodies.UNTOLD)
        self.assertFalse(bodies.Said("src/lane.rt:3:1: error: [borrow-e0382]\n").is_cut_off)

    def test_verdicts(self):
        self.assertEqual(self.judged(self.PROVED), bodies.PROVED)
        self.assertEqual(self.judged(self.OPEN), bodies.REFUSED)
        self.assertEqual(self.judged(self.STALE, self.PROVED), bodies.ANSWER)
        self.assertEqual(self.judged(self.STALE, self.OPEN), bodies.OPEN)
        self.assertEqual(self.judged(self.STALE, self.OPEN.replace("returns", "put-requires")), bodies.REFUSED)
        self.assertEqual(self.judged("fn rt_mail::lane::filled: not proved; it calls `x`, which is not proved\nonly=1 proved=0\n"), bodies.UNTOLD)
        self.assertIsNone(self.judged("src/lane.rt:3:1: error: [borrow-e0382]\n"))


class Edits(unittest.TestCase):
    def made(self, text, code=CODE):
        room = tempfile.TemporaryDirectory()
        self.addCleanup(room.cleanup)
        os.makedirs(f"{room.name}/src")
        bodies.write(f"{room.name}/src/lane.rt", code)
        bodies.write(f"{room.name}/full.edit", text)
        return bodies.Edit("rt_mail", f"{room.name}/full.edit"), room.name

    def test_applied(self):
        edit, folder = self.made("central: no room\nfile: src/lane.rt\nold: self.waits < MOST\nnew: true\n")
        texts, why = edit.applied({}, folder)
        self.assertEqual((why, texts["src/lane.rt"]), ("", CODE.replace("self.waits < MOST", "true")))
        self.assertEqual((edit.name, edit.central, edit.functions(folder)), ("rt_mail/full", "no room", ["Lane::has_room"]))

    def test_a_text_that_stands_once_behind_what_was_made_before(self):
        edit, folder = self.made("file: src/lane.rt\nold: self.waits < MOST\nnew: true\nold: self.waits\nnew: self.others\n")
        self.assertEqual(edit.applied({}, folder)[1], "")
        self.assertEqual(edit.functions(folder), ["Lane::has_room", "Lane::put"])

    def test_that_does_not_apply(self):
        for text, why in (
            ("file: src/lane.rt\nold: false\nnew: true\n", ""),
            ("file: src/lane.rt\nold: MOST\nnew: 4\n", "its old text stands 3 times in src/lane.rt"),
            ("file: src/mail.rt\nold: a\nnew: b\n", "there is no src/mail.rt"),
            ("file: specs/Lane.antt\nold: a\nnew: b\n", "it has no 'file: src/..' and 'old:' before a 'new:'"),
            ("file: src/lane.rt\n", "it has no 'old:' and 'new:'"),
        ):
            edit, folder = self.made(text)
            self.assertEqual(edit.applied({}, folder)[1], why)

    def test_groups(self):
        first, folder = self.made("file: src/lane.rt\nold: self.waits < MOST\nnew: true\n")
        second, third = bodies.Edit("rt_mail", first.file), bodies.Edit("rt_mail", first.file)
        third.pairs = [("src/lane.rt", "self.waits += 1", "self.waits += 2"), ("src/lane.rt", "lane.put()", "true")]
        groups, alone = bodies.groups_of([first, second, third], folder)
        self.assertEqual((groups, alone), ([{"Lane::has_room": first}, {"Lane::has_room": second}], [third]))

    def test_groups_of_what_can_be_made_together(self):
        first, folder = self.made("file: src/lane.rt\nold: self.waits < MOST\nnew: true || false\n")
        second, third = bodies.Edit("rt_mail", first.file), bodies.Edit("rt_mail", first.file)
        second.pairs = [("src/lane.rt", "self.waits += 1", "self.waits += 2; let _ = lane.put()")]
        third.pairs = [("src/lane.rt", "lane.put()", "true")]
        groups, alone = bodies.groups_of([first, second, third], folder)
        self.assertEqual((groups, alone), ([{"lane::filled": third}, {"Lane::has_room": first, "Lane::put": second}], []))

    def test_made_and_put_back(self):
        edit, folder = self.made("file: src/lane.rt\nold: self.waits < MOST\nnew: true\n")
        with bodies.Applied([edit], folder):
            self.assertNotIn("self.waits < MOST", bodies.read(f"{folder}/src/lane.rt"))
        self.assertEqual(bodies.read(f"{folder}/src/lane.rt"), CODE)


if __name__ == "__main__":
    unittest.main()
