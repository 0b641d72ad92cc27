"""What makes and judges the module of WebAssembly: the text for another target, what a module has, and whether a package's sums fit it."""
import hashlib
import json
import os
import shutil
import sys
import tempfile
import unittest
from unittest import mock

ROOT = os.path.realpath(f"{os.path.dirname(os.path.realpath(__file__))}/../..")
sys.path[:0] = [f"{ROOT}/tools/web", f"{ROOT}/tools/sessions", f"{ROOT}/tools"]
import module
import retarget
import sums
import web_parts
from bodies import write

HEAD = [f'target datalayout = "{retarget.FROM}"\n', 'target triple = "x86_64-unknown-linux-gnu"\n']


def made(*lines, is_program=False):
    return list(retarget.retargeted([*HEAD, *lines], is_program))


class Texts(unittest.TestCase):
    def test_another_target(self):
        self.assertEqual(made(), [f'target datalayout = "{retarget.TO}"\n', 'target triple = "wasm64-unknown-unknown"\n'])
        line = 'attributes #0 = { "probe-stack"="inline-asm" sanitize_address "target-cpu"="x86-64" }\n'
        self.assertEqual(made(line)[2:], ["attributes #0 = { nounwind }\n"])
        call, fill = 'define internal i32 @"rt_ffi::core_calls::kw_core_open"(ptr %0) {\n', "  call void @llvm.memset.p0.i64(ptr %r1, i8 -86, i64 8, i1 false)\n"
        self.assertEqual(made(call, fill, is_program=True)[2:], ["define i32 @kw_core_open(ptr %0) {\n"])
        self.assertEqual(made(call, fill)[2:], [call, fill])
        self.assertEqual(made("  %a = call double @llvm.arithmetic.fence.f64(double %b)\n")[2:], ["  %a = fadd double %b, -0.0\n"])

    def test_a_word_of_the_processor(self):
        shuffled = made("declare <16 x i8> @llvm.x86.ssse3.pshuf.b.128(<16 x i8>, <16 x i8>)\n", "  %a = call <16 x i8> @llvm.x86.ssse3.pshuf.b.128(<16 x i8> %b, <16 x i8> %c)\n")
        self.assertEqual(shuffled[2:], ["  %a = call <16 x i8> @kw_shuffled(<16 x i8> %b, <16 x i8> %c)\n", retarget.SHUFFLED])

    def test_what_is_not_known(self):
        for line in ("declare i32 @llvm.x86.rdtsc()\n", "  %a = fadd x86_fp80 %b, %c\n", '  call void asm sideeffect "nop", ""()\n', "  %a = load i8, ptr addrspace(10) %b\n"):
            with self.assertRaises(retarget.Unknown, msg=line):
                made(line)
        barrier = f"  call void {retarget.BARRIER}\n"
        self.assertEqual(made(barrier)[2:], [barrier])
        self.assertEqual(len(made('@x = constant [9 x i8] c"x86_fp80!"\n')), 3)
        for head in (HEAD[:1], [HEAD[0].replace("i64:64", "i64:32"), HEAD[1]], [HEAD[0], HEAD[1].replace("x86_64", "aarch64")]):
            with self.assertRaises(retarget.Unknown):
                list(retarget.retargeted(head))


class Modules(unittest.TestCase):
    def judged(self, *parts):
        with tempfile.TemporaryDirectory() as room:
            with open(f"{room}/x.wasm", "wb") as it:
                it.write(b"\0asm\1\0\0\0" + b"".join(bytes([kind, len(content)]) + content for kind, content in parts))
            module.judge(f"{room}/x.wasm", {"memory", "kw_x"})

    def test_what_a_module_has(self):
        memory, exports = (5, b"\1\0\2"), (7, b"\2\6memory\2\0\4kw_x\0\0")
        self.judged(memory, exports)
        for parts in ([memory, (7, b"\1\6memory\2\0")], [(2, b"\1\1a\1b\0\0"), memory, exports], [(5, b"\1\4\2"), exports]):
            with self.assertRaises(module.Stop):
                self.judged(*parts)

    def test_numbers(self):
        self.assertEqual(module.number(b"\xe5\x8e\x26x", 0), (624485, 3))


class Parts(unittest.TestCase):
    def test_a_strange_toolchain_fails_the_part(self):
        found = []
        with tempfile.TemporaryDirectory() as room, mock.patch.multiple(
            web_parts, why_no_node=lambda: "", part=lambda name, why="", clock=None: found.append(why)
        ), mock.patch.object(shutil, "which", lambda name: name), mock.patch.object(module, "needs", mock.Mock(side_effect=module.Stop("it has no clang"))):
            self.assertEqual(web_parts.keeping(room), "rt")
            self.assertEqual(web_parts.made_of(room), (None, None))
        self.assertEqual(found, ["it has no clang"])

    def test_no_part_without_wasm_opt(self):
        with tempfile.TemporaryDirectory() as room, mock.patch.object(web_parts, "why_no_node", lambda: ""), mock.patch.object(shutil, "which", lambda name: None):
            self.assertEqual(web_parts.keeping(room), "rt")
            self.assertEqual(web_parts.made_of(room), (None, None))


class Sums(unittest.TestCase):
    def package(self, room, version=None, made="proved", **more):
        """A package whose sums are those of its module, but for what is said otherwise."""
        version = version or sums.version()
        with open(f"{room}/kaltewi.wasm", "wb") as it:
            it.write(b"module")
        write(f"{room}/package.json", json.dumps({"version": more.get("named", version)}))
        found = more.get("sum", hashlib.sha256(b"module").hexdigest())
        write(f"{room}/kaltewi.sums", f"# version: {version}\n# made: {made}\n# toolchain: kit\n# lowered by: it\n{found}  {sums.MODULE}\n{'0' * 64}  tools/web/heap.c\n")
        return list(sums.faults(room))

    def test_what_fits(self):
        with tempfile.TemporaryDirectory() as room:
            self.assertEqual(self.package(room), [])
            self.assertEqual(len(self.package(room, made="unproved")), 1)
            self.assertEqual(len(self.package(room, sum="0" * 64)), 1)
            self.assertEqual(len(self.package(room, version="0.0.1", named=sums.version())), 1)
            self.assertEqual(len(self.package(room, version="0.0.1")), 1)

    def test_which_sources_have_changed(self):
        here = sums.sums_now()
        self.assertIn("crates/rt_ffi/src/lib.rt", here)
        self.assertIn("tools/web/heap.c", here)
        self.assertEqual(sums.changed({**here, sums.MODULE: "0"}), [])
        first = sorted(here)[0]
        self.assertEqual(sums.changed({**here, first: "0"}), [first])
        self.assertEqual(sums.changed({**here, "crates/gone.rt": "0"}), ["crates/gone.rt"])

    def test_the_package_has_its_parts(self):
        lost = [it for it in json.loads(web_parts.read(f"{sums.PACKAGE}/package.json"))["files"] if not os.path.exists(f"{sums.PACKAGE}/{it}")]
        self.assertEqual(lost, [])


if __name__ == "__main__":
    unittest.main()
