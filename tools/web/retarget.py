"""The LLVM text that the toolchain had compiled for x86-64, as one for wasm64.

Another target, and no processor of x86-64. The text is the same for both otherwise: words and pointers of 64 bits, each place in a struct as a number
of bytes. What would not be the same stops it: another layout of data, words of x86-64's processors, its floats of 80 bits, pieces of assembler.
Of an unproved program, and of that alone, the calls become exports, and its memory is not filled at each entry."""
import re

FROM = "e-m:e-p270:32:32-p271:32:32-p272:64:64-i64:64-i128:128-f80:128-n8:16:32:64-S128"
TO = "e-m:e-p:64:64-p10:8:8-p20:8:8-i64:64-i128:128-n32:64-S128-ni:1:10:20"
WORDS = re.compile(r' (?:"probe-stack"="[^"]*"|"stack-probe-size"="\d+"|"target-cpu"="[^"]*"|"target-features"="[^"]*"|"frame-pointer"="\w+"|sanitize_address)(?= )')
# A fence of floats keeps sums apart under rules that rattle does not use, and LLVM can't split one of two floats on wasm64: x + -0.0 is x.
FENCE = re.compile(r"call double @llvm\.arithmetic\.fence\.f64\(double (\S+)\)")
# The one word of x86-64's processors in the text (ryu's shuffle of 16 bytes) as a function of LLVM's own words.
SHUFFLE = "@llvm.x86.ssse3.pshuf.b.128"
SHUFFLED = """
define internal <16 x i8> @kw_shuffled(<16 x i8> %v, <16 x i8> %at) nounwind {
entry:
  %from = alloca [16 x i8], align 16
  %index = alloca [16 x i8], align 16
  %to = alloca [16 x i8], align 16
  store <16 x i8> %v, ptr %from, align 16
  store <16 x i8> %at, ptr %index, align 16
  br label %loop
loop:
  %i = phi i64 [ 0, %entry ], [ %next, %loop ]
  %pi = getelementptr i8, ptr %index, i64 %i
  %a = load i8, ptr %pi, align 1
  %low = and i8 %a, 15
  %wide = zext i8 %low to i64
  %pf = getelementptr i8, ptr %from, i64 %wide
  %b = load i8, ptr %pf, align 1
  %none = icmp slt i8 %a, 0
  %c = select i1 %none, i8 0, i8 %b
  %pt = getelementptr i8, ptr %to, i64 %i
  store i8 %c, ptr %pt, align 1
  %next = add i64 %i, 1
  %more = icmp ult i64 %next, 16
  br i1 %more, label %loop, label %done
done:
  %r = load <16 x i8>, ptr %to, align 16
  ret <16 x i8> %r
}
"""
OWN = re.compile(r'@"[\w:]+::(kw_\w+)"')
FILL = re.compile(r"^  call void @llvm\.memset\.p0\.i64\(ptr %r\d+, i8 -86, ")
STRANGE = re.compile(r"@llvm\.x86\.[\w.]+|\bx86_\w+|\bcall \S+ asm\b|\bmodule asm\b|\baddrspace\(\d+\)")
SEEN = re.compile(r"^(?:target|attributes) |x86|\basm\b|addrspace|arithmetic\.fence|::kw_|i8 -86")  # the few lines that are looked at
BARRIER = 'asm sideeffect "", "~{memory}"()'  # no word of any processor: it keeps the order of what is read and written
QUOTED = re.compile(r'"[^"]*"')  # a name, or a constant's bytes, which may read as anything


class Unknown(Exception):
    """What the text has that is not known here."""


def retargeted(lines, is_program=False):
    """The lines of the text, for wasm64: of a library that is proved, or of a program that isn't."""
    is_shuffled, heads = False, set()
    for line in lines:
        if not SEEN.search(line):
            yield line
            continue
        if line.startswith("target "):
            heads.add(line.split()[1])
            yield headed(line)
            continue
        if SHUFFLE in line:
            is_shuffled = True
            if line.startswith("declare"):
                continue
            line = line.replace(SHUFFLE, "@kw_shuffled")
        strange = STRANGE.search(QUOTED.sub("", line.replace(BARRIER, "")))
        if strange:
            raise Unknown(f"'{strange[0]}'")
        if line.startswith("attributes "):
            yield WORDS.sub("", line).replace("{ }", "{ nounwind }")
        elif is_program and OWN.search(line):
            line = OWN.sub(r"@\1", line)
            yield line.replace("define internal", "define") if line.startswith("define") and "@kw_" in line.split("(")[0] else line
        elif not (is_program and FILL.match(line)):
            yield FENCE.sub(r"fadd double \1, -0.0", line)
    if heads != {"datalayout", "triple"}:
        raise Unknown("no target")
    if is_shuffled:
        yield SHUFFLED


def headed(line):
    """The line that names the target, or how its data are laid out."""
    word, value = line.split()[1], line.partition('"')[2].rstrip('"\n')
    if word == "triple" and value.startswith("x86_64-"):
        return 'target triple = "wasm64-unknown-unknown"\n'
    if word == "datalayout" and value == FROM:
        return f'target datalayout = "{TO}"\n'
    raise Unknown(f"'{word} {value}'")
