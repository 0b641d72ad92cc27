"""Threads over one client: what is read of what they print, and what the judge lets through and does not."""
import os
import sys
import tempfile
import unittest

ROOT = os.path.realpath(f"{os.path.dirname(os.path.realpath(__file__))}/../..")
sys.path[:0] = [f"{ROOT}/tools/sessions", f"{ROOT}/tools"]
import stress
from bodies import read, write

# Two seats and the server; the first one listens, and the second one writes.
PRINTED = """== 7 0 served
-- steps
0	["connected"]	done
3	["ok",1]	done
-- heard
-- views

== 7 1 open
-- steps
1	["listen",1,"/a",[]]	done 1
-- heard
listened 1
L1 value 5
-- views
view 1
leaf 5

== 7 2 emptied
-- steps
2	["set",2,"/a",5]	done 1
4	["close",2]	done
-- heard
wrote 1
R1 ok
-- views

"""
# What the console prints for these steps, and for the views that are asked for behind them.
SAID = "done\ndone 1\ndone 1\nL1 value 5\ndone\nR1 ok\ndone\nrefused core 2 UnknownListener\nleaf 5\nrefused core 2 UnknownListener\n"


class Threads(unittest.TestCase):
    def judged(self, printed, said=SAID):
        """What is wrong with these threads, by a console that says that."""
        with tempfile.TemporaryDirectory() as room:
            write(f"{room}/said", said)
            write(f"{room}/console", f"#!/bin/sh\ncat > {room}/asked\ncat {room}/said\n")
            os.chmod(f"{room}/console", 0o755)
            judge = stress.Stress(f"{room}/console")
            judge.judge(printed)
            self.asked = read(f"{room}/asked").splitlines() if os.path.exists(f"{room}/asked") else []
        return judge

    def test_all_is_told(self):
        judge = self.judged(PRINTED)
        self.assertEqual((judge.wrong, judge.steps, judge.changes), ([], 5, 4))
        self.assertEqual(dict(judge.done), {"connected": 1, "listen": 1, "set": 1, "ok": 1, "close": 1})
        self.assertEqual(self.asked[:3], ['["connected"]', '["listen",1,"/a",[]]', '["set",2,"/a",5]'])
        self.assertEqual(self.asked[5:], ['["view",0]', '["view",1]', '["view",0]'])
        self.assertIn("no merge was done", judge.lacking(5))

    def test_less_is_told(self):
        for lost in ("L1 value 5\n", "listened 1\n", "R1 ok\n"):
            [why] = self.judged(PRINTED.replace(lost, "")).wrong
            self.assertIn("was told", why)
        self.assertEqual(self.judged(PRINTED.replace("R1 ok\n", "").replace("2 emptied", "2 left")).wrong, [])

    def test_more_is_told(self):
        for ended in ("emptied", "left"):
            [why] = self.judged(PRINTED.replace("R1 ok\n", "R1 ok\nR1 ok\n").replace("2 emptied", f"2 {ended}")).wrong
            self.assertIn("not []", why)

    def test_another_order(self):
        [why] = self.judged(PRINTED.replace("wrote 1\nR1 ok\n", "R1 ok\nwrote 1\n")).wrong
        self.assertIn("seat 2 was told ['R1 ok'], not ['wrote 1']", why)

    def test_another_answer(self):
        [why] = self.judged(PRINTED.replace('["ok",1]	done', '["ok",1]	stale')).wrong
        self.assertIn("was answered stale, not done", why)

    def test_another_view(self):
        [why] = self.judged(PRINTED.replace("leaf 5", "leaf 6")).wrong
        self.assertIn("shows ['leaf 6'], not ['leaf 5'], of listener 1", why)

    def test_numbers_of_steps(self):
        for other in ("3", "7"):
            [why] = self.judged(PRINTED.replace('4	["close"', f'{other}	["close"')).wrong
            self.assertIn("has no number", why)

    def test_one_gives_up(self):
        [why] = self.judged(PRINTED.replace("7 1 open", "7 1 lost")).wrong
        self.assertIn("place 1 gave up", why)

    def test_nothing(self):
        self.assertEqual(self.judged("").wrong, ["nothing was run"])


if __name__ == "__main__":
    unittest.main()
