"""What the gate proved stays in the checkout: the libraries, so that `rt check`, `rt run` and `rt lib` there prove none anew.

These commands take a library that stands in crates/NAME/out/rlib with the sum of all that it is made from, by the kit's own reckoning (rtlib.py). The sum is
taken of the copy that was proved, so that a source that changed meanwhile is proved again. Where the kit looks otherwise, nothing is left."""
import json
import os
import shutil
import subprocess
import sys

sys.path.insert(0, os.path.dirname(os.path.realpath(__file__)))
from parts import crates

SUMS = """
import json, os, sys
root, kit = sys.argv[1:]
sys.path.insert(0, f"{kit}/bin")
import rtlib
known, sums, made = {}, {}, rtlib.Crate.stamp

def once(crate):
    if crate.name not in sums:
        sums[crate.name] = made(crate)
    return sums[crate.name]

rtlib.Crate.stamp = once
print(json.dumps({it: rtlib.Crate(f"{root}/crates/{it}", root, known).stamp() for it in sorted(os.listdir(f"{root}/crates"))}))
"""


def sums(copy):
    """The sum of each crate of a copy; none where the kit has no such reckoning."""
    kit = os.path.dirname(subprocess.run(["rt", "doc"], capture_output=True, text=True, check=True).stdout.strip())
    ran = subprocess.run([sys.executable, "-B", "-c", SUMS, copy, kit], cwd=copy, capture_output=True, text=True)
    try:
        return json.loads(ran.stdout) if not ran.returncode else {}
    except ValueError:
        return {}


def keep_libraries(copy, to):
    """Moves the libraries that are proved and built in the copy to where the commands of the toolchain find them."""
    known = sums(copy)
    for name in crates():
        built, place = f"{copy}/crates/{name}/out/rlib", f"{to}/crates/{name}/out/rlib"
        if name in known and os.path.isdir(built) and os.path.isdir(f"{to}/crates/{name}"):
            shutil.rmtree(place, ignore_errors=True)
            os.makedirs(os.path.dirname(place), exist_ok=True)
            shutil.move(built, place)
            with open(f"{place}/stamp", "w", encoding="utf-8") as it:
                it.write(known[name])


def main():
    """Of a copy and a checkout."""
    keep_libraries(*sys.argv[1:3])


if __name__ == "__main__":
    main()
