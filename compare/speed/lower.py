"""lower.py CLANG MODULE OUT: compiles an LLVM module of the toolchain as this machine's own code, OUT.o.

The toolchain emits x86-64; on an Arm machine the module is retargeted first. Each function of `timed`, and the root and its guess, gets a
face that C can call, in which a slice is a pointer and a length. The program that only served to reach the code goes, so that it takes no
part in inlining.
"""
import platform
import re
import subprocess
import sys

ARM_LAYOUT = "e-m:e-p270:32:32-p271:32:32-p272:64:64-i8:8:32-i16:16:32-i64:64-i128:128-n32:64-S128-Fn32"
FACES = {"root::roots::root": "timed_root", "root::roots::guess": "timed_guess"}


def read(clang, module):
    words = [clang, "--target=x86_64-unknown-linux-gnu", "-S", "-emit-llvm", "-x", "ir", module, "-o", "-", "-O3", "-Xclang", "-disable-llvm-passes"]
    return subprocess.run(words, check=True, capture_output=True, text=True).stdout


def without_program(text):
    text = re.sub(r"^define i32 @main\(\).*?^\}\n", "", text, flags=re.S | re.M)
    return re.sub(r'^define internal void @"timer::main"\(\).*?^\}\n', "", text, flags=re.S | re.M)


def face(kind, function, name, parameters):
    kinds = [parameter.split()[0] for parameter in parameters]
    outer = ", ".join(f"{kind_} %p{i}" for i, kind_ in enumerate(kinds))
    inner = ", ".join(f"{kind_} noundef %p{i}" for i, kind_ in enumerate(kinds))
    call = f'  %r = call noundef {kind} @"{function}"({inner})\n  ret {kind} %r\n'
    return f'define {kind} @{name}({outer}) #0 {{\n{call}}}\n'


def faces(text):
    made = ""
    for found in re.finditer(r'^define internal noundef (\S+) @"([\w:]+)"\(([^)]*)\)', text, flags=re.M):
        kind, function, parameters = found.group(1), found.group(2), re.findall("[^,]+", found.group(3))
        name = FACES.get(function, function.split("::")[-1] if re.match(r"timed::timed_", function) else None)
        if name:
            made += face(kind, function, name, parameters)
    return made


def for_arm(text):
    text = re.sub(r"target datalayout = .*", f'target datalayout = "{ARM_LAYOUT}"', text)
    text = re.sub(r"target triple = .*", 'target triple = "aarch64-unknown-linux-gnu"', text)
    return text.replace('"target-cpu"="x86-64"', '"target-cpu"="generic"').replace('"probe-stack"="inline-asm"', "")


def main():
    clang, module, out = sys.argv[1:]
    text = without_program(read(clang, module))
    text += faces(text)
    target = ["--target=x86_64-unknown-linux-gnu", "-march=x86-64"]
    if platform.machine() == "aarch64":
        text = for_arm(text)
        target = ["--target=aarch64-unknown-linux-gnu", "-ffp-contract=off"]
    with open(out + ".ll", "w") as file:
        file.write(text)
    words = "-ffunction-sections -fdata-sections --no-default-config -c -x ir -fPIC -O3".split()
    subprocess.run([clang] + target + words + [out + ".ll", "-o", out + ".o"], check=True)


main()
