# SPDX-License-Identifier: MIT OR Apache-2.0
"""Which instructions of the archive a processor of level x86-64-v2 does not have.

One encoding needs a second look. LLVM compiles a search for the lowest set bit to `rep bsf`, which objdump prints as
`tzcnt`. A processor without tzcnt ignores the prefix and runs `bsf`. Both have the same result, unless the operand is 0:
then tzcnt's is the number of bits, and bsf leaves its destination as it was (AMD documents this, Intel's processors do
so, and LLVM relies on it). So each one here must be one of these, which the code before it shows:

- Its operand is not 0: `or` has set a bit in it, or a branch has compared it with 0. The mask of a vector whose words
  were compared and then packed is not 0 if a branch has compared the mask before the packing with 0.
- It searches 64 bits, and its destination has 64 in it.

Anything else is code for processors that have tzcnt."""

import re

# What is later than x86-64-v2, and whatever has two sources and a result (AVX and later).
LATER = re.compile(
    r"(v(?!err$|erw$)\w+|andn|bextr|blsi|blsmsk|blsr|bzhi|mulx|pdep|pext|rorx|sarx|shlx|shrx|[lt]zcnt|movbe|adcx|adox"
    r"|aes\w+|sha(1|256)\w+|pclmul\w+|rd(rand|seed)|xsave\w*|xbegin|k(mov|and|or)[bwdq])$"
)
LINE = re.compile(r"^ +([0-9a-f]+):\t(?:(?:lock|rep|repz|repnz|data16|cs|notrack|bnd) )*(\w+)\s*(.*?)\s*(?:#.*)?$")
TARGET = re.compile(r"^([0-9a-f]+)\b")
FLAGS = re.compile(r"(and|or|xor|add|sub|test|neg|shr|shl|sar|inc|dec)[bwlq]?$")
LEAVES = re.compile(r"(jmp|ret|ud2|hlt)[qlw]?$")
LOOKS = re.compile(r"(cmp|test|bt|push|nop)[bwlq]?$")
# These write registers that are not their last operand, or call what does.
OTHERS = re.compile(r"(|call|syscall|mul|div|idiv|cmpxchg\w*|xchg|xadd|stos|movs|lods|scas|cpuid|cltq|cltd|cqto|cwtl|cwtd)[bwlq]?$")


def parts_of(name):
    """The register of which this is a part, and how many of the lowest bits (of %ah, none): %al, %ax, %eax and %rax are
    one register."""
    name = name.lstrip("%")
    found = re.fullmatch(r"(r\d+)([bwd]?)", name)
    if found:
        return found[1], {"b": 8, "w": 16, "d": 32, "": 64}[found[2]]
    bits = {"r": 64, "e": 32}.get(name[0], {"l": 8, "h": 0}.get(name[-1], 16))
    name = re.sub(r"^[re](?=\w\w$)", "", name)
    return re.sub(r"^([abcd])[lhx]$", r"\1", re.sub(r"^(si|di|bp|sp)l$", r"\1", name)), bits


def operands(text):
    """The operands of an instruction, the last of which is its result."""
    return re.findall(r"(?:[^,(]|\([^)]*\))+", text)


class Code:
    """The instructions of an archive in order, and for each place the jumps that lead there."""

    def __init__(self, printed):
        self.lines, self.at, self.jumps, section = [], {}, {}, 0
        goes = []
        for line in printed.splitlines():
            found = LINE.match(line)
            if found:
                self.at[section, found[1]] = len(self.lines)
                target = TARGET.match(found[3]) if found[2].startswith("j") else None
                if target:
                    goes.append((len(self.lines), (section, target[1])))
                self.lines.append((found[2], operands(found[3])))
            elif line.startswith("Disassembly of section"):
                section += 1  # each begins at address 0
            elif line.endswith(">:"):
                self.lines.append(("", []))  # a function begins
        for place, target in goes:
            self.jumps.setdefault(self.at.get(target), []).append(place)

    def words(self):
        return {word for word, _ in self.lines if word}

    def is_not_zero(self, place, register, bits, depth=0):
        """Whether these lowest bits of a register cannot be 0 before the instruction at a place: on each way there."""
        jumps, before = self.jumps.get(place, []), place - 1
        while self.lines[before][0].startswith(("nop", "xchg")) and before not in self.jumps:
            before -= 1  # (between two functions or loops)
        falls = not LEAVES.match(self.lines[before][0])
        if depth > 40 or not (jumps or falls):
            return False
        return all(self.is_shown_by_jump(it, register, bits, "jne", depth) for it in jumps) and (
            not falls or self.is_shown_by(before, register, bits, depth)
        )

    def is_shown_by_jump(self, place, register, bits, word, depth):
        """The same after a jump: one that was taken (jne), or one that was not (je)."""
        if self.lines[place][0] == word and self.is_compared(place - 1, register, bits):
            return True
        return self.is_not_zero(place, register, bits, depth + 1)

    def is_compared(self, place, register, bits):
        """Whether the flags before the next instruction say if some of these bits are set."""
        while re.match(r"(mov|lea|nop|set|cmov)", self.lines[place][0]):
            if parts_of(self.lines[place][1][-1])[0] == register:
                return False
            place -= 1
        word, parts = self.lines[place]
        if not FLAGS.match(word) or not parts:
            return False
        sees = [parts_of(it) for it in (parts if word.startswith("test") else parts[-1:])]
        return all(it == register and seen <= bits for it, seen in sees)

    def is_shown_by(self, place, register, bits, depth):
        """The same after the instruction at a place, if it goes on to the next one."""
        word, parts = self.lines[place]
        if word.startswith("j"):
            return self.is_shown_by_jump(place, register, bits, "je", depth)
        if OTHERS.match(word):
            return False
        if not parts or LOOKS.match(word) or parts_of(parts[-1])[0] != register:
            return self.is_not_zero(place, register, bits, depth + 1)
        if re.match(r"or[bwlq]?$", word) and parts[0].startswith("$"):
            return int(parts[0][1:], 16) & ((1 << min(bits, parts_of(parts[-1])[1])) - 1) != 0
        if re.match(r"mov(z..?|[bwlq])?$", word) and parts[0].startswith("%"):
            source, width = parts_of(parts[0])
            return self.is_not_zero(place, source, min(bits, width), depth + 1)
        return word == "pmovmskb" and bits >= 8 and self.is_packed_mask(place, parts)

    def is_packed_mask(self, place, parts):
        """Whether this is the mask of words that `pcmpeqw` made all ones or 0, packed to bytes, and the mask before the
        packing is not 0. (Then one of its lowest 8 bits is set.)"""
        compared, mask, test, branch, packed = self.lines[max(place - 5, 0):place] if place >= 5 else [("", [])] * 5
        vector = parts[0]
        return (
            compared[0] == "pcmpeqw" and compared[1][-1] == vector and mask == ("pmovmskb", parts)
            and test == ("test", [parts[-1], parts[-1]]) and branch[0] == "je" and packed == ("packsswb", [vector, vector])
            and not any(it in self.jumps for it in range(place - 4, place + 1))
        )

    def has_64(self, place, parts):
        """Whether a search of 64 bits finds 64 in its destination."""
        before, results = self.lines[place - 1], [parts_of(it) for it in parts]
        is_set = before[0] == "mov" and before[1][0] == "$0x40" and place not in self.jumps
        return is_set and [bits for _, bits in results] == [64, 64] and parts_of(before[1][1])[0] == results[1][0] != results[0][0]

    def unguarded(self):
        """The addresses of searches for a bit that have another result on a processor without tzcnt, for all that is
        seen here."""
        places = {place: at for at, place in self.at.items()}
        for place, (word, parts) in enumerate(self.lines):
            if word != "tzcnt":
                continue
            is_same = parts[0].startswith("%") and self.is_not_zero(place, *parts_of(parts[0]))
            if not is_same and not self.has_64(place, parts):
                yield places[place][1]


def later(printed):
    """What a processor of level x86-64-v2 does not have, in what objdump prints; None if there is nothing."""
    code = Code(printed)
    words = sorted(it for it in code.words() if LATER.match(it) and it != "tzcnt")
    words += [f"tzcnt at {it}, whose operand may be 0" for it in code.unguarded()]
    return f"it has {', '.join(words)}" if words else None if len(code.words()) > 30 else "objdump printed few instructions"
