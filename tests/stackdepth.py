#!/usr/bin/env python3
"""What the functions of an x86-64 archive use of the stack and of the registers, read off its disassembly.

usage: stackdepth.py OBJDUMP ARCHIVE [NAME..]      OBJDUMP is LLVM's, as the kit has it

Prints a line for each global function, or for those that are named, with what it and its callees in the archive use:
- its name;
- the most stack, in octets, return address included;
- the red zone, in octets: how far below the stack pointer it keeps something without moving it; 0 where nothing is kept there;
- the registers beside the general ones, by kind (xmm of SSE), and instructions that change such without naming them; - where there is none;
- the functions outside the archive that it calls, whose own stack and registers are not counted.

A function's bound is 8 for its return address, all that its code pushes and subtracts from the stack pointer, and the deeper of its red
zone and its deepest callee. What is popped is never taken off, so the bound is one from above. Code that can't be told this way
(recursion, indirect calls, another change of the stack pointer, growth inside a loop, a copy of the stack pointer, as a frame pointer is,
from which the code goes down) ends the program with a message and status 1 where one of these functions reaches it. Growth is inside a
loop where the code can come to it again; in a function that jumps by a table, which is not read, where it stands between a jump backward
and its target. A register may hold such a copy from where it gets one to where it gets something else, along every way that the code can
take, which behind a jump by a table may be any."""
import re
import subprocess
import sys

HEAD = re.compile(r'^[0-9a-f]+ <(.+)>:$')
CODE = re.compile(r'^\s*([0-9a-f]+):\s+(\S+)\s*(.*?)\s*(?:#.*)?$')
RELOCATION = re.compile(r'^\s*([0-9a-f]+):\s+R_X86_64_(\w+)\s+(.+?)(?:[-+]0x[0-9a-f]+)?$')
GENERAL = re.compile(r'[re]?[a-d]x|[a-d][hl]|[re]?[sd]i|[sd]il|[re]?[sb]p|[sb]pl|r(?:8|9|1[0-5])[dwb]?|[re]ip|[c-gs]s')
MORE = re.compile(r'f\w+|wait|emms|v\w+|\w*mxcsr|xsave\w*|xrstor\w*')  # of x87, MMX, SSE or AVX, and change more than they name
# The names of one register, by its 64-bit name; a call leaves nothing of the caller's in those of CALLED.
NAMES = {**{f'{low}{letter}{high}': f'r{letter}x' for letter in 'abcd' for low, high in (('r', 'x'), ('e', 'x'), ('', 'x'), ('', 'l'), ('', 'h'))},
         **{f'{low}{name}{high}': f'r{name}' for name in ('si', 'di', 'sp', 'bp') for low, high in (('r', ''), ('e', ''), ('', ''), ('', 'l'))},
         **{f'r{number}{size}': f'r{number}' for number in range(8, 16) for size in ('', 'd', 'w', 'b')}}
CALLED = {'rax', 'rcx', 'rdx', 'rsi', 'rdi', 'r8', 'r9', 'r10', 'r11'}
GLOBAL = re.compile(r'^[0-9a-f]+ g\s+F \S+\s+[0-9a-f]+ (?:\.hidden )?(.+)$')


def die(message):
    sys.exit(f'stackdepth: {message}')


class Function:
    def __init__(self, name):
        self.name = name
        self.grows = []       # (place, octets)
        self.code = []        # (place, instruction, operands)
        self.jumps = {}       # by place, where a jump within the function goes to
        self.has_table = False
        self.kept = False     # whether an address of the stack was stored somewhere, so that it may be loaded again
        self.red_zone = 0
        self.registers = set()
        self.callees = set()
        self.open = None      # a call or jump whose target is the next relocation
        self.fault = None     # why it can't be bounded

    def refuse(self, why):
        self.fault = self.fault or f'{self.name}: {why}'

    def take(self, place, op, args):
        self.code.append((place, op, args))
        if self.open:
            if self.open.startswith('call'):
                self.refuse(f'a call at {place:x} whose target is not known')
            self.open = None
        self.take_operands(place, op, args)
        if op.startswith('push'):
            self.grows.append((place, 8))
        elif op.startswith('call'):
            if args.startswith('*'):
                self.refuse(f'an indirect call at {place:x}: {args}')
            self.open = op
        elif op.startswith('j'):
            self.has_table = self.has_table or args.startswith('*')
            if target := re.match(r'(?:0x)?([0-9a-f]+) <', args):
                self.jumps[place] = int(target[1], 16)
            self.open = op
        elif re.search(r'(^|,\s*)%[re]?spl?$', args) and not op.startswith(('cmp', 'test', 'pop')):
            self.take_change(place, op, args)
        elif op.startswith(('enter', 'leave')):
            self.refuse(f'{op} at {place:x}')

    def take_operands(self, place, op, args):
        """Which registers it names, and whether it reaches below the stack pointer."""
        names = set(re.findall(r'%([a-z]+\d*[a-z]*)', args))
        kinds = {name.rstrip('0123456789') for name in names if not GENERAL.fullmatch(name)}
        self.registers |= kinds | ({op} if MORE.fullmatch(op) else set())
        for low in re.findall(r'-(0x[0-9a-f]+)\(%rsp', args):
            self.red_zone = max(self.red_zone, int(low, 16))

    def leave(self):
        """The last jump leaves the function."""
        self.jumps.pop(self.code[-1][0], None)

    def take_change(self, place, op, args):
        """An instruction that ends in the stack pointer: only sums with a constant are known."""
        constant = re.match(r'^\$(-?0x[0-9a-f]+|-?\d+), %rsp$', args)
        if not constant or not op.startswith(('sub', 'add')):
            return self.refuse(f'{op} {args} at {place:x}')
        octets = int(constant[1], 0)
        if octets >> 63:
            octets -= 1 << 64
        if op.startswith('add'):
            octets = -octets
        if octets > 0:
            self.grows.append((place, octets))

    def end(self):
        if self.open and self.open.startswith('call'):
            self.refuse('a last call whose target is not known')
        for place, base in self.going_down():
            self.refuse(f'%{base} may point below the stack pointer at {place:x}')
        for place, _ in self.grows:
            if self.comes_again(place):
                self.refuse(f'the stack grows at {place:x}, in a loop')

    def following(self):
        """By place, those that may be next."""
        places = [place for place, _, _ in self.code]
        nexts = {place: {following} for place, following in zip(places, places[1:] + [None])}
        for place, op, args in self.code:
            if op.startswith(('jmp', 'ret', 'ud2', 'hlt')):
                nexts[place] = set()
            if op.startswith('jmp') and args.startswith('*'):
                nexts[place] = set(places)
            nexts[place] |= {self.jumps[place]} if place in self.jumps else set()
        return {place: following & set(places) for place, following in nexts.items()}

    def comes_again(self, start):
        """Whether the code can come from a place to the same place."""
        if self.has_table:
            return any(target <= start <= place for place, target in self.jumps.items())
        nexts, reached, ahead = self.following(), set(), {start}
        while ahead:
            ahead = set().union(*(nexts[place] for place in ahead)) - reached
            reached |= ahead
        return start in reached

    def going_down(self):
        """Where the code goes down from a register that may hold an address of the stack, and the register."""
        nexts, changed = self.following(), True
        holding = {place: set() for place in nexts}
        while changed:
            changed, kept = False, self.kept
            for place, op, args in self.code:
                after = self.held_after(holding[place], op, args)
                for following in nexts[place]:
                    changed = changed or not after <= holding[following]
                    holding[following] |= after
            changed = changed or kept != self.kept
        for place, _, args in self.code:
            yield from ((place, base) for base in re.findall(r'-0x[0-9a-f]+\(%(\w+)', args) if base in holding[place])

    def held_after(self, held, op, args):
        """Which registers may hold an address of the stack behind an instruction, given those before it."""
        if op.startswith('call'):
            return held - CALLED
        if op.startswith(('cmp', 'test', 'push', 'j', 'nop')):
            return held
        operands = re.findall(r'[^,(]*\([^)]*\)|[^,\s]+', args)
        last = operands[-1].strip() if operands else ''
        given = {NAMES.get(name, name) for operand in operands[:-1] for name in re.findall(r'%(\w+)', operand)
                 if op.startswith('lea') or '(' not in operand}
        is_copy = bool(given & (held | {'rsp'})) or self.kept and any('(' in operand for operand in operands[:-1])
        if op.startswith('xchg') and (is_copy or NAMES.get(last[1:]) in held):
            self.kept = True
            return held | given | {NAMES.get(last[1:], last)}
        if not last.startswith('%'):
            self.kept = self.kept or op.startswith('mov') and is_copy
            return held
        name = NAMES.get(last[1:], last[1:])
        if re.fullmatch(r'e\w\w|r\d+d', last[1:]):
            return held - {name}  # 32 bits, and the higher ones are zeros
        if op.startswith(('mov', 'lea', 'pop', 'set')):
            return held | {name} if is_copy else held - {name}
        return held | {name} if is_copy else held


def read(objdump, archive):
    lines = subprocess.run([objdump, '-d', '-r', '-t', '--no-show-raw-insn', archive], capture_output=True, text=True, check=True).stdout
    functions, names, now = {}, set(), None
    for line in lines.splitlines():
        if m := GLOBAL.match(line):
            names.add(m[1])
        elif m := HEAD.match(line):
            if m[1] in functions:
                die(f'two functions are called {m[1]}')
            now = functions[m[1]] = Function(m[1])
        elif now and (m := RELOCATION.match(line)):
            if now.open:
                now.callees.add(m[3].removeprefix('.text.'))
                now.leave()
                now.open = None
        elif now and (m := CODE.match(line)):
            now.take(int(m[1], 16), m[2], m[3])
    for function in functions.values():
        function.end()
    if not names:
        die(f'{archive} has no global function')
    return functions, names


def uses(functions, name, above=()):
    """What a call of it uses: octets of stack, octets of red zone, other registers than the general ones, and functions outside."""
    if name in above:
        die(f'recursion through {name}')
    if name not in functions:
        return 8, 0, set(), {name}
    function = functions[name]
    if function.fault:
        die(function.fault)
    below = red_zone = function.red_zone
    registers, outside = set(function.registers), set()
    for callee in function.callees:
        octets, its_red_zone, its_registers, its_outside = uses(functions, callee, above + (name,))
        below, red_zone = max(below, octets), max(red_zone, its_red_zone)
        registers |= its_registers
        outside |= its_outside
    return 8 + sum(octets for _, octets in function.grows) + below, red_zone, registers, outside


def main():
    if len(sys.argv) < 3:
        sys.exit(__doc__)
    functions, names = read(sys.argv[1], sys.argv[2])
    for name in sorted(names if len(sys.argv) == 3 else sys.argv[3:]):
        if name not in names:
            die(f'{sys.argv[2]} has no global function {name}')
        octets, red_zone, registers, outside = uses(functions, name)
        print(name, octets, red_zone, ','.join(sorted(registers)) or '-', *sorted(outside))


main()
