#!/usr/bin/env python3
"""Fails where a stack probe of a compiled library or program stands anywhere but at a function's entry.

    tools/stack_probes.py FILE
    tools/stack_probes.py --self-test

A frame of more than 0xc00 bytes is touched at each 0xc00, which is less than a page, before it is used. LLVM does so with a loop that
takes register r11:

    mov    %rsp,%r11                (or both at once: lea -0x45c00(%rsp),%r11)
    sub    $0x45c00,%r11
    sub    $0xc00,%rsp
    movq   $0x0,(%rsp)
    cmp    %r11,%rsp
    jne    to the sub of %rsp

At a function's entry r11 is free. Once the loop had been moved behind the first tests of a function, where r11 held a value,
and the function gave wrong answers (docs/DECISIONS.md, "Frames of their own"). So the loop may stand behind nothing but the
instructions of a prologue. The steps of a smaller frame are written out, without a loop and without a register; they have to
stand there too. Whatever else lowers the stack in a loop, touches it a step below, lowers it by more than a step at once or by a
register, or gives back more than a step that no probe was seen for, is a probe of another form and fails: another compiler's
probes must be looked at before they are trusted.

One other form is known, in `main`, with which the toolchain begins each program: room for the message that the processor is too old is
taken behind tests. That loop is made before registers are given out, so it takes none that holds a value.
"""
import re
import subprocess
import sys

STEP_BYTES = 0xC00
FUNCTION = re.compile(r"^[0-9a-f]+ <(.+)>:$")
INSTRUCTION = re.compile(r"^ *([0-9a-f]+):\t([^#<]+)")

LOOP = r"sub \$0xc00,%rsp;(mov|or)q \$0x0,\(%rsp\);cmp %r11,%rsp;jne \w+"
SETUPS = {1: r"lea -0x\w+\(%rsp\),%r11", 2: r"mov %rsp,%r11;sub \$0x\w+,%r11"}  # by the number of their instructions
STEP = r"sub \$0xc00,%rsp;(mov|or)q \$0x0,\(%rsp\)"
TOUCH = r"(mov|or|xor|and|add|test|cmp)[bwlq]? .*\w*\(%rsp\).*"
PROLOGUE = rf"(({STEP}|endbr64|nop|push %\w+|mov %rsp,%rbp|(sub|and) \$\w+,%rsp);)*"
LEAVES = r"j\w+ .*|call.*|ret.*"
# What stands before, in and behind the loop in a program's `main`: instructions with a register and two jumps.
IN_MAIN = (
    r"mov %rsp,(?P<by>%r\w+);sub \$0x\w+,(?P=by);cmp %rsp,(?P=by);jge (?P<out>\w+);"
    r"xorq \$0x0,\(%rsp\);sub \$0xc00,%rsp;cmp %rsp,(?P=by);jl (?P<again>\w+);mov (?P=by),%rsp"
)


def functions(text):
    """The functions of a disassembly: their names and their instructions, each with its address."""
    found = []
    for line in text.splitlines():
        if (start := FUNCTION.match(line)) and not start[1].startswith(".L"):
            found.append((start[1], []))
        elif (one := INSTRUCTION.match(line)) and found:
            found[-1][1].append((int(one[1], 16), " ".join(one[2].split())))
    return [(name, code) for name, code in found if code]


def lowered(words):
    """By how much an instruction lowers the stack, below 0 if it raises it; None if it cannot be told."""
    if by := re.fullmatch(r"(sub|add) \$(0x\w+),%rsp", words):
        number = int(by[2], 16)
        signed = number - 2**64 if number >= 2**63 else number
        return signed if by[1] == "sub" else -signed
    if by := re.fullmatch(r"lea -(0x\w+)\(%rsp\),%rsp", words):
        return int(by[1], 16)
    return None if re.fullmatch(r"(sub|add|mov) .*,%rsp", words) and words != "mov %rbp,%rsp" else 0


def loops(code):
    """The loops without a jump or a call inside that lower the stack: the numbers of their first and their last instruction."""
    number = {address: i for i, (address, _) in enumerate(code)}
    for last, (_, words) in enumerate(code):
        jump = re.fullmatch(r"(?:j|loop)\w* ([0-9a-f]+)", words)
        first = number.get(int(jump[1], 16), last + 1) if jump else last + 1
        inside = [w for _, w in code[first:last]]
        if any(lowered(w) is None or lowered(w) > 0 for w in inside) and not any(re.fullmatch(LEAVES, w) for w in inside):
            yield first, last


def judge(name, code):
    """The probes of a function that stand at its entry, loops and steps written out; and its faults."""
    words = [w for _, w in code]
    good, steps, faults, in_loop = 0, 0, [], set()

    def joined(first, last):
        return ";".join(words[first:last])

    def at_entry(i):
        return not name.endswith(".cold") and re.fullmatch(PROLOGUE, "".join(w + ";" for w in words[:i]))

    def in_main(first, last):
        """Whether this loop is the one of a program's `main`."""
        form = re.fullmatch(IN_MAIN, joined(max(first - 4, 0), last + 2)) if name == "main" else None
        return form and [int(form[it], 16) for it in ("again", "out")] == [code[first][0], code[last + 1][0]]

    def fault(i, what):
        faults.append(f"{name}, at {code[i][0]:x}: {what} ({words[i]})")

    for first, last in loops(code):
        if in_main(first, last):
            in_loop.update(range(first, last + 2))
            continue
        in_loop.update(range(first, last + 1))
        setup = next((first - n for n, s in SETUPS.items() if first >= n and re.fullmatch(s, joined(first - n, first))), None)
        if setup is None or not re.fullmatch(LOOP, joined(first, last + 1)):
            fault(first, "a probe of another form")
        elif at_entry(setup):
            good += 1
        else:
            fault(setup, "a stack probe behind the function's entry")
    for i, w in enumerate(words):
        by = 0 if i in in_loop else lowered(w)
        if by is None or by > STEP_BYTES:
            fault(i, "a probe of another form, or none: the stack lowered by more than a step or by a register")
        elif by == STEP_BYTES and re.fullmatch(STEP, joined(i, i + 2)) and at_entry(i):
            steps += 1
        elif by == STEP_BYTES and re.fullmatch(TOUCH, joined(i + 1, i + 2)):
            fault(i, "a probe of another form, or behind the function's entry")
        elif by < -STEP_BYTES and not good + steps and not faults:
            fault(i, "a probe of another form, or none: more than a step given back")
    return good, steps, faults


def report(text):
    """The exit code and what is said of a disassembly."""
    found = functions(text)
    if not found:
        return 1, "no function found"
    judged = [(name, *judge(name, code)) for name, code in found]
    faults = [f for _, _, _, faults in judged for f in faults]
    if faults:
        return 1, "\n".join(faults)
    looped = [name for name, good, _, _ in judged for _ in range(good)]
    written = [name for name, _, steps, _ in judged if steps]
    lines = [f"{len(looped)} stack probes, all at a function's entry"] + ["  " + name for name in looped]
    if written:
        lines += ["written out at the entry, without a register:"] + ["  " + name for name in written]
    return 0, "\n".join(lines)


# Disassemblies, and what must be said of each.
LOOP_AT_ENTRY = """
0000000000000000 <large>:
   0:\tendbr64
   4:\tpush   %rbp
   5:\tpush   %rbx
   6:\tmov    %rsp,%r11
   9:\tsub    $0x45c00,%r11
  10:\tsub    $0xc00,%rsp
  17:\tmovq   $0x0,(%rsp)
  1f:\tcmp    %r11,%rsp
  22:\tjne    10 <large+0x10>
  24:\tsub    $0x470,%rsp
  28:\tret
"""
OTHERS_AT_ENTRY = """
0000000000000030 <crate::large<T>>:
  30:\tpush   %rbp
  31:\tmov    %rsp,%rbp
  34:\tlea    -0x45c00(%rsp),%r11
  3c:\tsub    $0xc00,%rsp
  43:\tmovq   $0x0,(%rsp)
  4b:\tcmp    %r11,%rsp
  4e:\tjne    3c <crate::large<T>+0xc>
  50:\tlea    -0x8(%rbp),%rsp
  54:\tret
0000000000000060 <middle>:
  60:\tpush   %rbx
  61:\tsub    $0xc00,%rsp
  68:\tmovq   $0x0,(%rsp)
  70:\tsub    $0xc00,%rsp
  77:\tmovq   $0x0,(%rsp)
  7f:\tsub    $0xb70,%rsp
  86:\tadd    $0x2370,%rsp
  8d:\tret
0000000000000090 <small>:
  90:\ttest   %rdi,%rdi
  93:\tje     9e <small+0xe>
  95:\tsub    $0x18,%rsp
  99:\tadd    $0x18,%rsp
  9d:\tjmp    90 <small>
  9e:\tret
"""
MAIN = """
00000000000000a0 <main>:
  a0:\tpush   %rbp
  a1:\tmov    %rsp,%rbp
  a4:\ttest   $0x982201,%ebx
  aa:\tjne    b6 <main+0x16>
  ac:\tlea    -0x8(%rbp),%rsp
  b0:\tpop    %rbp
  b1:\tjmp    30 <keep::main+start>
  b6:\tmov    %rsp,%rsi
  b9:\tsub    $0x90,%rsi
  c0:\tcmp    %rsp,%rsi
  c3:\tjge    d6 <main+0x36>
  c5:\txorq   $0x0,(%rsp)
  ca:\tsub    $0xc00,%rsp
  d1:\tcmp    %rsp,%rsi
  d4:\tjl     c5 <main+0x25>
  d6:\tmov    %rsi,%rsp
  d9:\tlea    -0x8(%rbp),%rsp
  dd:\tpop    %rbp
  de:\tret
"""
SELF_TESTS = [
    (0, "2 stack probes, all at a function's entry", LOOP_AT_ENTRY + OTHERS_AT_ENTRY),
    (0, "0 stack probes", OTHERS_AT_ENTRY[OTHERS_AT_ENTRY.index("0000000000000090") :]),
    (0, "1 stack probes, all at a function's entry", LOOP_AT_ENTRY + MAIN),
    (1, "no function found", ""),
    (1, "no function found", "\nhost.o:     file format elf64-x86-64\n"),
    # behind a test and a jump
    (1, "large, at 6: a stack probe behind", LOOP_AT_ENTRY.replace("0:\tendbr64", "0:\tje     28 <large+0x28>")),
    (1, "large, at 6: a stack probe behind", LOOP_AT_ENTRY.replace("0:\tendbr64", "0:\ttest   %rdi,%rdi")),
    (1, "large, at 6: a stack probe behind", LOOP_AT_ENTRY.replace("5:\tpush   %rbx", "5:\tmov    (%rdi),%r11")),
    (1, "middle, at 61: a probe of another form", OTHERS_AT_ENTRY.replace("60:\tpush   %rbx", "60:\ttest   %rdi,%rdi")),
    # a part of a function that has been moved away begins without an entry
    (1, "large.cold, at 6: a stack probe behind", LOOP_AT_ENTRY.replace("<large>", "<large.cold>")),
    # another beginning, register, touch or end, another step
    (1, "large, at 10: a probe of another form", LOOP_AT_ENTRY.replace("sub    $0x45c00,%r11", "mov    %rdi,%r11")),
    (1, "large, at 10: a probe of another form", LOOP_AT_ENTRY.replace("%r11", "%rax")),
    (1, "large, at 10: a probe of another form", LOOP_AT_ENTRY.replace("movq   $0x0,(%rsp)", "test   %rax,(%rsp)")),
    (1, "large, at 10: a probe of another form", LOOP_AT_ENTRY.replace("jne", "ja ")),
    (1, "large, at 10: a probe of another form", LOOP_AT_ENTRY.replace("0xc00,", "0x800,")),
    # no probe in the function, or none that is seen
    (1, "middle, at 86: a probe of another form", re.sub(r"sub    \$0xc00.*|movq.*", "nop", OTHERS_AT_ENTRY)),
    (1, "middle, at 7f: a probe of another form", OTHERS_AT_ENTRY.replace("sub    $0xb70", "sub    $0x4b70")),
    (1, "middle, at 7f: a probe of another form", OTHERS_AT_ENTRY.replace("sub    $0xb70", "sub    %rax")),
    # what is allowed in `main` elsewhere, or with another register, step or end
    (1, "other, at c5: a probe of another form", MAIN.replace("<main>", "<other>")),
    (1, "main, at c5: a probe of another form", MAIN.replace("d1:\tcmp    %rsp,%rsi", "d1:\tcmp    %rsp,%rdi")),
    (1, "main, at c5: a probe of another form", MAIN.replace("$0xc00", "$0x1000")),
    (1, "main, at c5: a probe of another form", MAIN.replace("mov    %rsi,%rsp", "mov    %rax,%rsp")),
    (1, "main, at c5: a probe of another form", MAIN.replace("jge    d6", "jge    d9")),
]


def self_test():
    wrong = [(code, said, report(text)) for code, said, text in SELF_TESTS if report(text)[0] != code or said not in report(text)[1]]
    for code, said, got in wrong:
        print(f"expected {code}, {said!r}; got {got[0]}, {got[1]!r}")
    return 1 if wrong else 0


def main(arguments):
    if arguments == ["--self-test"]:
        return self_test()
    if len(arguments) != 1:
        sys.exit(__doc__)
    run = subprocess.run(["objdump", "-d", "--no-show-raw-insn", arguments[0]], capture_output=True, text=True)
    if run.returncode:
        sys.exit(run.stderr)
    code, said = report(run.stdout)
    print(said)
    return code


if __name__ == "__main__":
    sys.exit(main(sys.argv[1:]))
