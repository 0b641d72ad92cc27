"""The tests of the binding, which need no socket: python3 test_kaltewi.py, with a library where kaltewi.py looks for one."""
import glob
import json
import os
import unittest

import kaltewi

ROOT = os.path.realpath(f"{os.path.dirname(os.path.realpath(__file__))}/../..")


def read(file):
    with open(file, "rb") as it:
        return it.read()


class Scripts(unittest.TestCase):
    def test_each_script_prints_what_the_console_prints(self):
        scripts = sorted(glob.glob(f"{ROOT}/tests/scripts/*.script"))
        self.assertTrue(scripts)
        for script in scripts:
            with self.subTest(script), kaltewi.Core() as core:
                printed = "".join(core.lines(read(script).splitlines()))
                self.assertEqual(printed.encode(), read(script.replace(".script", ".out")))

    def test_a_small_room_loses_nothing(self):
        with kaltewi.Core(room=1) as core:
            self.assertEqual(core.line('["connected"]'), "done\n")
            self.assertEqual(core.line('["listen",1,"/a",[]]'), "done 1\n")

    def test_a_line_of_no_form_is_bad(self):
        with kaltewi.Core() as core:
            with self.assertRaises(kaltewi.BadLine) as bad:
                core.line('["connect"]')
            self.assertEqual(bad.exception.text, "bad line 1\n")
            self.assertEqual(core.line(b""), "")

    def test_any_bytes_are_safe(self):
        with kaltewi.Core() as core:
            for line in (b"\xff", b"\0", b"[" * 1000, b'["set",1,"/","' + b"x" * 100000 + b'"]'):
                self.assertTrue(list(core.lines([line])))

    def test_a_closed_core_says_so(self):
        core = kaltewi.Core()
        core.close()
        core.close()
        with self.assertRaises(kaltewi.Closed):
            core.line('["connected"]')


HELLO = '{"k":"hello","version":2}'


def told(tag, path, value):
    return json.dumps({"k": "data", "tag": tag, "path": path, "value": value})


class Clients(unittest.TestCase):
    def test_a_seat_is_told_of_what_it_listens_to(self):
        with kaltewi.Client() as client:
            ann = client.seat()
            client.connected()
            self.assertEqual(ann.listen("/chat"), 1)
            self.assertEqual(list(client.outgoing()), [HELLO, '{"k":"listen","path":"/chat","tag":1}'])
            self.assertTrue(client.receive(told(1, "/chat", {"m1": "hi"})))
            whole = {"k": "value", "value": {"m1": "hi"}}
            added = {"k": "added", "key": "m1", "value": "hi", "after": None}
            batch = {"k": "batch", "listener": 1, "changes": [added, whole]}
            self.assertEqual(list(ann), [{"k": "listened", "listener": 1}, batch])
            self.assertEqual(list(ann), [])

    def test_writes_are_settled(self):
        with kaltewi.Client(rings=[8, 8]) as client:
            ann, bob = client.seat(1), client.seat(2)
            client.connected()
            self.assertEqual([ann.set("/a", 1), bob.update({"/b": 2, "/c": None}), ann.remove("/d")], [1, 2, 3])
            self.assertEqual([json.loads(it)["k"] for it in client.outgoing()], ["hello", "put", "merge", "put"])
            client.receive('{"k":"ok","id":1}')
            client.receive('{"k":"no","id":2,"why":"denied"}')
            self.assertEqual(list(ann), [{"k": "wrote", "id": 1}, {"k": "wrote", "id": 3}, {"k": "ok", "id": 1}])
            self.assertEqual(list(bob), [{"k": "wrote", "id": 2}, {"k": "no", "id": 2, "why": "denied"}])

    def test_whole_floats_are_whole_numbers(self):
        with kaltewi.Client() as client:
            ann = client.seat()
            client.connected()
            ann.set("/a", {"x": 10 / 2, "y": [2.0, True], "z": {"deep": (-3.0,)}})
            ann.update({"/b": 4.0})
            whole = {"x": 5, "y": {"0": 2, "1": True}, "z": {"deep": {"0": -3}}}
            self.assertEqual([json.loads(it).get("value") for it in client.outgoing()], [None, whole, None])
            with self.assertRaises(kaltewi.Refused) as refused:
                ann.set("/a", 0.5)
            self.assertEqual((refused.exception.layer, refused.exception.name), ("tree", "NotWhole"))
            with self.assertRaises(ValueError):
                ann.set("/a", float("inf"))

    def test_the_end_of_the_connection_is_prepared(self):
        with kaltewi.Client() as client:
            ann = client.seat()
            client.connected()
            numbers = [ann.on_disconnect("/here", None), ann.on_disconnect_update({"/a/b": 1}), ann.cancel_disconnect("/here")]
            self.assertEqual(numbers, [1, 2, 3])
            self.assertEqual([json.loads(it)["k"] for it in client.outgoing()], ["hello", "od-put", "od-merge", "od-cancel"])
            client.disconnected()

    def test_a_query_is_kept_until_its_listener_ends(self):
        with kaltewi.Client() as client:
            ann, query = client.seat(), {"limit": ["last", 2], "order": "/score"}
            listener = ann.listen("/scores", query)
            self.assertEqual(client.cover(), ['T1 /scores {"limit":["last",2],"order":"/score"} by L1'])
            ann.unlisten(listener)
            self.assertEqual(client.cover(), ["T none"])

    def test_a_listener_is_told_the_kinds_that_it_wants(self):
        with kaltewi.Client() as client:
            ann = client.seat()
            client.connected()
            few, all_kinds = ann.listen("/a", kinds=["changed", "added"]), ann.listen("/a")
            client.receive('{"k":"data","path":"/a","tag":1,"value":{"x":1}}')
            told = {it["listener"]: [change["k"] for change in it["changes"]] for it in ann if it["k"] == "batch"}
            self.assertEqual(told, {few: ["added"], all_kinds: ["added", "value"]})
            ann.want(few, ["value"])
            ann.set("/a/x", 2)
            told = {it["listener"]: [change["k"] for change in it["changes"]] for it in ann if it["k"] == "batch"}
            self.assertEqual(told, {few: ["value"], all_kinds: ["changed", "value"]})
            with self.assertRaises(KeyError):
                ann.want(few, ["child_added"])

    def test_an_order_alone_is_a_query(self):
        with kaltewi.Client() as client:
            ann = client.seat()
            ann.listen("/a", {"order": "value"})
            client.connected()
            self.assertEqual(list(client.outgoing())[1:], ['{"k":"listen","path":"/a","tag":1}'])
            client.receive('{"k":"data","path":"/a","tag":1,"value":{"x":3,"y":1}}')
            batch = [it for it in ann if it["k"] == "batch"][0]
            self.assertEqual([it.get("key") for it in batch["changes"]], ["y", "x", None])

    def test_a_full_ring_refuses_nothing(self):
        with kaltewi.Client(rings=[1, 1]) as client:
            ann, bob = client.seat(1), client.seat(2)
            numbers = [ann.set("/a", it) for it in range(200)]
            self.assertEqual(next(iter(ann)), {"k": "wrote", "id": 1})
            listener = bob.listen("/a")
            bob.unlisten(listener)
            self.assertEqual([it["id"] for it in client.seat(1)], numbers[1:])
            self.assertEqual([it["k"] for it in bob], ["listened", "batch", "unlistened"])

    def test_push_ids_rise(self):
        with kaltewi.Client() as client:
            self.assertEqual(client.push_key(1_700_000_000_000, bytes(12)), "-NjEtLV-------------")
            self.assertEqual(client.push_key(1_700_000_000_000, bytes(12)), "-NjEtLV------------0")
            key, request = client.seat().push("/chat", "hi")
            self.assertEqual((len(key), request), (20, 1))

    def test_what_is_wrong_is_said(self):
        with kaltewi.Client(rings=[1]) as client:
            ann = client.seat()
            with self.assertRaises(kaltewi.Refused) as refused:
                ann.set("/a.b", 1)
            self.assertEqual((refused.exception.layer, refused.exception.name, refused.exception.code), ("tree", "BadKey", 1))
            with self.assertRaises(kaltewi.Refused) as refused:
                client.disconnected()
            self.assertEqual(str(refused.exception), "core 10 NotConnected")
            with self.assertRaises(kaltewi.Refused):
                ann.listen("/a", {"limit": ["first", 0], "order": "key"})
            with self.assertRaises(kaltewi.BadText):
                client.receive(b"\xff")
            with self.assertRaises(kaltewi.WrongSeat):
                client.seat(2).set("/a", 1)
            with self.assertRaises(kaltewi.TooManySeats):
                kaltewi.Client(rings=[1] * 65)

    def test_a_small_room_loses_nothing(self):
        with kaltewi.Client(room=1) as client:
            ann = client.seat()
            client.connected()
            ann.set("/a", "x" * 1000)
            self.assertEqual([len(it) for it in client.outgoing()], [len(HELLO), 1041])
            self.assertEqual(list(ann), [{"k": "wrote", "id": 1}])

    def test_a_closed_client_says_so(self):
        client = kaltewi.Client()
        client.close()
        client.close()
        for call in (client.connected, client.cover, client.push_key, lambda: list(client.seat())):
            with self.assertRaises(kaltewi.Closed):
                call()


if __name__ == "__main__":
    unittest.main()
