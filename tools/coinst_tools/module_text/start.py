"""The `main` of a proved build: it refuses a processor that lacks a feature of x86-64-v2, and calls the program."""

from __future__ import annotations

REFUSAL = b"this machine lacks a feature of x86-64-v2, which this program was built for: run it on another machine, or build it with --cpu x86-64\n"
# What x86-64-v2 wants of a processor, as the C library says it: the number of a leaf, and the bits that are set in its word.
FEATURES = ((0, 9970177), (2, 1))
WORD_AT = 24
REFUSED = 127


class Code:
    """The lines of a function that is written from its top, with the registers in their order."""

    def __init__(self, head: str) -> None:
        self.lines, self.count = [head, "start:"], 0

    def add(self, line: str) -> None:
        self.lines.append("  " + line)

    def make(self, value: str) -> str:
        """The next register, which has the value."""
        register = "%%r%d" % self.count
        self.count += 1
        self.add("%s = %s" % (register, value))
        return register


def lacks(code: Code, leaf: int, wanted: int) -> str:
    """The bits of a leaf that are wanted, and that this processor has not."""
    address = code.make("call ptr @__x86_get_cpuid_feature_leaf(i32 %d)" % leaf)
    word = code.make("load i32, ptr %s, align 4, !noundef !1" % code.make("getelementptr inbounds nuw i8, ptr %s, i64 %d" % (address, WORD_AT)))
    unset = code.make("xor i64 %s, %d" % (code.make("zext i32 %s to i64" % word), wanted))
    return code.make("and i64 %s, %d" % (unset, wanted))


def refuse(code: Code) -> None:
    text = code.make("alloca [%d x i8], align 1" % len(REFUSAL))
    for place, byte in enumerate(REFUSAL):
        code.add("store i8 %d, ptr %s, align 1" % (byte, code.make("getelementptr inbounds nuw i8, ptr %s, i64 %d" % (text, place))))
    code.make("call i64 @__write(i32 2, ptr %s, i64 %d)" % (text, len(REFUSAL)))
    code.add("ret i32 %d" % REFUSED)


def main_of(crate: str, attributes: str) -> list[str]:
    code, lacking = Code("define i32 @main() %s {" % attributes), "0"
    code.make("call i64 @__sysv_signal(i32 13, i64 1)")
    for leaf, wanted in FEATURES:
        lacking = code.make("or i64 %s, %s" % (lacks(code, leaf, wanted), lacking))
    code.add("br i1 %s, label %%run, label %%refuse" % code.make("icmp eq i64 %s, 0" % lacking))
    code.lines.append("run:")
    code.add("ret i32 " + code.make('call i32 @"%s::main+start"()' % crate))
    code.lines.append("refuse:")
    refuse(code)
    return [*code.lines, "}", ""]
