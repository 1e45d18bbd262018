"""Random cartridges of the kind `soup`: a circle of short exercises."""

import machine
import tia
from writer import (
    BRANCHES, CONTINUE, COUNTER, DOCUMENTED, GO_ON, HANDLER, INDEXED, INSTAT, INTIM, ONE_BYTE, OPCODE_OF, PLAIN,
    PLAIN_WITHOUT_X, SLED, SLED_END, SUBROUTINE, SWBCNT, T1024T, THREE_BYTES, TIM1T, TO_BE_TAKEN, UNDOCUMENTED,
    Writer,
)


class Soup(Writer):
    """One exercise after the other. What they find is in the registers, which a trace shows."""

    def __init__(self, rng, size):
        super().__init__(rng, size)
        self.returns_by_rti = rng.random() < 0.5
        self.branches_at_end = rng.random() < 0.5
        self.is_long = rng.random() < 0.5  # frames end by their number of lines, as a rule
        if self.is_long:
            self.rare = (tia.VSYNC, tia.VBLANK)

    def write(self):
        exercises = (
            (12, lambda: self.some_plain(5)), (7, self.indexed), (6, self.by_pointer), (6, self.branch), (3, self.loop),
            (2, self.branch_over_page_edge), (3, self.jump), (2, self.call), (5, self.stack), (3, self.return_by_hand),
            (3, self.break_), (5, self.decimal), (7, self.timer), (4, self.ports), (2, self.code_in_ram),
            (1, self.timer_as_address), (6, self.tia_writes), (4, self.tia_reads), (2, self.sync), (3, self.strobes),
            (2, self.wrap_counter), (1, self.timer_as_opcode),
        )
        weights = [weight for weight, _ in exercises]
        if self.has_branch_at_end():
            self.op("JMP", "target", self.address(self.at + 6))
            self.early_handler = self.address()
            self.op("JMP", "target", self.part(HANDLER))
        self.op(self.rng.choice(("CLD", "SED", "NOP")))
        self.set_stack(0xFF)
        while self.room() > 400:
            self.rng.choices(exercises, weights)[0][1]()
        self.end()
        return self.finish(self.write_handler)

    def has_branch_at_end(self):
        """BRK's vector leads to the first page, so its high byte, at FFFF, is a branch: 10, 30 and so on."""
        return self.branches_at_end and self.base % 4096 == 0

    def write_handler(self):
        """The handler of BRK; an RTI goes on behind the BRK, the other way goes on wherever the stack stands."""
        if self.returns_by_rti:
            for name, mode in self.rng.sample((("INC", "zp"), ("LDA", "imm"), ("TSX", "imp"), ("CLI", "imp")), 2):
                self.op(name, mode, 0x8A)
            self.op("RTI")
        else:
            self.set_stack(0xFF)
            self.op("JMP", "pointer", CONTINUE)

    def end(self):
        """Back to the start, or to an undocumented opcode, or to code that nobody wrote."""
        ends = (self.circle, self.circle, self.circle, self.halt, self.halt, self.jump_astray, self.operand_is_timer)
        self.rng.choice(ends)()

    def circle(self):
        self.op("JMP", "target", self.base)

    def halt(self):
        self.put(self.rng.choice(UNDOCUMENTED))

    def jump_astray(self):
        """Into the TIA, the ports, RAM, or over the end of memory, where the program counter wraps."""
        for port in range(4):
            self.store_value(self.riot_address(port), self.rng.choice(DOCUMENTED + [0xFF]))
        for byte in range(self.rng.randrange(1, 8)):
            self.store_value(0xFF - byte, self.rng.choice(DOCUMENTED))
        self.op("JMP", "target", self.rng.choice((
            self.rng.randrange(128), self.riot_address(self.rng.randrange(4)),
            self.riot_address(self.rng.randrange(32)), self.rng.randrange(0xF0, 0x100),
            self.rng.randrange(0xFFF8, 0x10000), self.rng.randrange(65536))))

    def operand_is_timer(self):
        """Code in a port whose immediate operand is INTIM: then INSTAT, the next opcode, tells the flag still."""
        self.store_value(self.riot_address(SWBCNT), OPCODE_OF[self.rng.choice(("LDA", "ADC", "CPX")), "imm"])
        self.set_continue(0)
        self.start_timer_for_address(self.rng.choice((True, False)))
        self.op("JMP", "target", self.riot_address(SWBCNT))

    # -- exercises of the processor

    def indexed(self):
        """An indexed instruction with a known index reaches a chosen address, often over a page's edge."""
        name, mode = self.rng.choice([pair for pair in PLAIN if pair[1] in INDEXED])
        index = self.value()
        self.load("LDX" if mode[-1] == "x" else "LDY", index)
        base = (self.operand_for(mode[:-1]) - index) % 65536
        self.op(name, mode, self.near_page_edge(base, index) if self.rng.random() < 0.2 else base)

    def near_page_edge(self, base, index):
        """The base with another low byte, so that it and the index make 255 or 256, or 0."""
        return base // 256 * 256 + (self.rng.choice((255, 256)) - index) % 256

    def by_pointer(self):
        """A pointer in RAM, at FF and 00 too, or in the TIA, whose registers are its bytes then."""
        name, mode = self.rng.choice([pair for pair in PLAIN if pair[1] in ("indx", "indy")])
        at = self.rng.choice((self.rng.randrange(0x80, 0xFF), 0xFF, self.rng.randrange(0x80)))
        index, target = self.value(), self.any_address()
        start = target if mode == "indx" else (target - index) % 65536
        if self.rng.random() < 0.2:
            start = self.near_page_edge(start, index)
        self.store_value(at, start % 256)
        self.store_value((at + 1) % 256, start // 256)
        self.load("LDX" if mode == "indx" else "LDY", index)
        self.op(name, mode, at - index if mode == "indx" else at)

    def branch(self):
        if self.rng.random() < 0.5:
            self.op(self.rng.choice(("SEC", "CLC", "CLV")))
        else:
            self.load(self.rng.choice(("LDA", "CMP", "ADC", "CPX", "CPY")), self.value())
        ahead = self.branch_ahead(self.rng.choice(BRANCHES))
        self.some_plain(4)
        self.land(ahead)

    def loop(self):
        self.load("LDX", self.rng.randrange(1, 6))
        start = self.at
        self.some_plain(5, PLAIN_WITHOUT_X)
        self.op("DEX")
        self.branch_back("BNE", start)

    def branch_over_page_edge(self):
        """A branch ahead and one back, somewhere around a page's edge."""
        start = (self.at // 256 + 1) * 256 - self.rng.randrange(20)
        if start < self.at + 3 or self.room() < 800:
            return
        self.op("JMP", "target", self.address(start))
        self.at = start
        self.op("CLC")
        ahead = self.branch_ahead("BCC")
        back = self.at
        out_at = self.at + 1
        self.op("JMP", "target")
        self.land(ahead)
        self.op("SEC")
        self.branch_back("BCS", back)
        self.image[out_at:out_at + 2] = (self.address() % 256, self.address() // 256)

    def jump(self):
        self.rng.choice((self.jump_over, self.jump_by_ram, self.jump_by_page_end, self.jump_by_zero_page_end))()

    def jump_over(self):
        skipped = self.rng.randrange(5)
        self.op("JMP", "target", self.address(self.at + 3 + skipped))
        self.put(*(self.rng.randrange(256) for _ in range(skipped)))

    def jump_by_ram(self):
        self.set_continue(3)
        self.op("JMP", "pointer", self.ram_address(CONTINUE))

    def jump_by_page_end(self):
        """The pointer's low byte is the last one of the data page, and its high byte the first one of it."""
        self.set_continue(3)
        self.op("JMP", "pointer", self.part(HANDLER) - 1)

    def jump_by_zero_page_end(self):
        """JMP (00FF): the high byte comes from 0000, the TIA. Whatever it is, the target is RAM."""
        at = self.rng.randrange(SLED, SLED_END)
        self.store_value(0xFF, at)
        target = self.address(self.at + 15)
        self.store_code(at, (OPCODE_OF["JMP", "target"], target % 256, target // 256))
        self.op("JMP", "pointer", self.rng.choice((0x00FF, 0x04FF, 0x20FF)))

    def call(self):
        if self.rng.random() < 0.7:
            self.set_stack(self.rng.randrange(0xA0, 0x100))
            self.op("JSR", "target", self.part(SUBROUTINE))
        else:
            self.op("JSR", "target", self.address(self.at + 3))

    def stack(self):
        """Pushes and pulls wherever S stands: in RAM, in the TIA, and over both ends."""
        self.set_stack(self.rng.choice((0x00, 0xFF, 0x80, self.rng.randrange(256))))
        for _ in range(self.rng.randrange(1, 6)):
            name = self.rng.choice(("PHA", "PHP", "PLA", "PLP", "TSX", "JSR", "LDA"))
            if name == "JSR":
                self.op(name, "target", self.address(self.at + 3))
            else:
                self.op(name, "imm" if name == "LDA" else "imp", self.value())
        self.set_stack(0xFF)

    def return_by_hand(self):
        """RTS or RTI to the next instruction, whose address was pushed."""
        is_rti = self.rng.random() < 0.5
        self.set_stack(self.rng.randrange(0xA0, 0x100))
        target = self.address(self.at + (10 if is_rti else 7))
        pushed = target if is_rti else target - 1
        for byte in (pushed // 256, pushed % 256) + ((self.value(),) if is_rti else ()):
            self.load("LDA", byte)
            self.op("PHA")
        self.op("RTI" if is_rti else "RTS")

    def wrap_counter(self):
        """The program counter goes over FFFF: by an RTS, or by a branch back from 0001."""
        if self.has_branch_at_end():
            self.branch_back_over_the_end()
        elif not self.returns_by_rti:
            self.return_to_zero()

    def return_to_zero(self):
        """An RTS pulls FFFF. 0000 reads 0, since no missile is there: BRK, whose handler goes on behind here."""
        self.set_continue(17)
        self.set_stack(0xFF)
        self.load("LDA", 0)
        self.op("STA", "zp", tia.ENAM0)
        self.load("LDA", 0xFF)
        self.op("PHA")
        self.op("PHA")
        self.op("STA", "zp", tia.CXCLR)
        self.op("NOP")
        self.op("NOP")
        self.op("NOP")
        self.op("RTS")

    def branch_back_over_the_end(self):
        """A branch at FFFF with what 0000 reads: missile 0 meets player 1 and perhaps player 0, so 80 or C0."""
        for register, value in ((tia.NUSIZ0, 0x30), (tia.GRP1, 0xFF), (tia.ENAM0, 2), (tia.RESMP0, 0),
                                (tia.VDELP1, 0)):
            self.load("LDA", value)
            self.op("STA", "zp", register)
        for register in (tia.WSYNC, tia.RESM0, tia.RESP1, tia.WSYNC, tia.WSYNC):
            self.op("STA", "zp", register)
        name = machine.OPCODES[self.base // 256][0]
        before, value = TO_BE_TAKEN[name]
        ahead = {"LDA": 2, "BIT": 3}.get(before, 1) + 3
        self.set_continue(ahead)
        if before == "BIT":
            self.op("BIT", "abs", self.part(GO_ON))  # 6C: V is set
        else:
            self.op(before, "imp" if value is None else "imm", value or 0)
        self.op("JMP", "target", 0xFFFF)

    def break_(self):
        if self.returns_by_rti:
            self.set_stack(self.rng.randrange(0xA0, 0x100))
        else:
            self.set_continue(5)
            self.set_stack(self.rng.randrange(256))
        self.op("BRK")
        self.put(self.rng.randrange(256))

    def decimal(self):
        self.op("SED")
        for _ in range(self.rng.randrange(1, 6)):
            any_byte = self.digits if self.rng.random() < 0.5 else self.value
            if self.rng.random() < 0.6:
                self.load("LDA", any_byte())
            if self.rng.random() < 0.5:
                self.op(self.rng.choice(("SEC", "CLC")))
            self.load(self.rng.choice(("ADC", "SBC")), any_byte())
        self.op(self.rng.choice(("CLD", "NOP", "CLD")))

    def code_in_ram(self):
        """A few instructions in RAM, and back by a jump or an RTS."""
        at = self.rng.randrange(0x94, 0xD0)
        code = []
        for _ in range(self.rng.randrange(1, 4)):
            name, mode = self.rng.choice([pair for pair in PLAIN if pair[1] not in THREE_BYTES])
            code += [OPCODE_OF[name, mode]] + ([] if mode in ONE_BYTE else [self.operand_for(mode)])
        if self.rng.random() < 0.5:
            self.store_code(at, code + [OPCODE_OF["RTS", "imp"]])
            self.op("JSR", "target", self.ram_address(at))
        else:
            target = self.address(self.at + 4 * (len(code) + 3) + 3)
            self.store_code(at, code + [OPCODE_OF["JMP", "target"], target % 256, target // 256])
            self.op("JMP", "target", self.ram_address(at))

    # -- exercises of the RIOT

    def timer(self):
        """Sets the timer, waits, and reads it, all by mirrors."""
        kind = self.rng.choice((0, 0, 0, 1, 1, 2, 3))
        count = self.rng.choice((0, 0, 1, 2, 3, self.rng.randrange(256)))
        self.store_value(self.timer_address(TIM1T + kind), count)
        for _ in range(self.rng.randrange(1, 6)):
            if self.rng.random() < 0.6:
                self.delay()
            if self.rng.random() < 0.1:
                self.wait_for_lines(self.rng.choice((1, 1, 9, 14)))  # 14 lines are more than 1,024 cycles
            self.touch_timer()

    def touch_timer(self):
        low_bits = self.rng.choice((INTIM, INSTAT, INSTAT, 6, 7)) + self.rng.choice((0, 16))
        if self.rng.random() < 0.15:
            name = self.rng.choice(("INC", "DEC", "ASL", "LSR", "ROL", "ROR"))
        elif self.rng.random() < 0.1:
            name, low_bits = "STA", low_bits % 16  # with A4 low: nothing
        else:
            name = self.rng.choice(("LDA", "LDA", "LDX", "LDY", "BIT", "CMP", "ADC", "EOR"))
        self.op(name, "abs", self.timer_address(low_bits))

    def ports(self):
        for _ in range(self.rng.randrange(1, 5)):
            port = self.rng.randrange(4)
            address = self.riot_address(port) + self.rng.choice((0, 8, 16))
            if self.rng.random() < 0.5:
                self.store_value(address, self.value())
            else:
                self.op(self.rng.choice(("LDA", "LDX", "LDY", "BIT", "INC", "LSR")), "abs", address)

    def start_timer_for_address(self, is_underflowed):
        """After this INTIM is a place in the run of NOPs for a while, with the flag set or clear."""
        if is_underflowed:
            self.load("LDA", 0)
            self.op("STA", "abs", self.timer_address(TIM1T))
            self.load("LDX", self.rng.randrange(12, 17))  # 61 to 98 cycles, so INTIM falls to 255 - 60 or less
            self.op("DEX")
            self.branch_back("BNE", self.at - 1)
        else:
            self.load("LDA", self.rng.randrange(SLED + 2, SLED_END))
            self.op("STA", "abs", self.timer_address(T1024T))

    def timer_as_address(self):
        """INTIM and INSTAT as the bytes of an operand or of a pointer: these reads leave the flag."""
        self.load("LDX", SLED_END - SLED)
        self.load("LDA", OPCODE_OF["NOP", "imp"])
        self.op("STA", "zpx", SLED)
        self.op("DEX")
        self.branch_back("BPL", self.at - 3)
        self.store_value(self.riot_address(SWBCNT), OPCODE_OF["JMP", "target"])
        back_at = self.at
        self.store_code(SLED_END, (OPCODE_OF["JMP", "target"], 0, 0))
        self.start_timer_for_address(self.rng.random() < 0.7)
        if self.rng.random() < 0.5:
            self.op("JMP", "pointer", self.timer_address(INTIM))
        else:
            self.op("JMP", "target", self.riot_address(SWBCNT))
        self.image[back_at + 5], self.image[back_at + 9] = self.address() % 256, self.address() // 256
        for low_bits in (INSTAT, INTIM, INSTAT):
            self.op("LDA", "abs", self.timer_address(low_bits))

    def timer_as_opcode(self):
        """Code at INTIM, with the flag set or clear."""
        if self.rng.random() < 0.5:
            self.timer_is_a_jump()
        elif not self.returns_by_rti:
            self.timer_is_an_opcode_before_a_break()

    def timer_is_a_jump(self):
        """180 cycles after TIM1T was set to 0 INTIM is 4C, behind it are INSTAT, 80, and 4C again: JMP 4C80, in RAM."""
        if self.at % 256 > 160:
            return  # the loop would lie over a page's edge and take longer
        out_at = self.at
        self.store_code(COUNTER, (OPCODE_OF["JMP", "target"], 0, 0))
        self.load("LDA", 0)
        self.op("STA", "abs", self.timer_address(TIM1T))
        self.load("LDX", 34)  # with the loop 2 + 34 * 5 - 1 cycles
        self.op("DEX")
        self.branch_back("BNE", self.at - 1)
        for _ in range(3):
            self.op("NOP")
        self.op("JMP", "target", self.riot_address(INTIM))
        self.image[out_at + 5], self.image[out_at + 9] = self.address() % 256, self.address() // 256
        for low_bits in (INSTAT, INTIM, INSTAT):
            self.op("LDA", "abs", self.timer_address(low_bits))

    def timer_is_an_opcode_before_a_break(self):
        """INTIM is an opcode of one byte, and INSTAT, 0, is BRK."""
        opcode = self.rng.choice([OPCODE_OF[name, "imp"] for name in ("TAX", "INY", "SEC", "TXA", "SED", "PHA", "TSX")])
        self.set_continue(8)
        self.load("LDA", opcode + 1)
        self.op("STA", "abs", self.timer_address(T1024T))
        self.op("JMP", "target", self.riot_address(INTIM))

    # -- exercises of the TIA

    def tia_writes(self):
        for _ in range(self.rng.randrange(1, 6)):
            register = self.any_register()
            self.write_register(register, self.value_for(register))

    def tia_reads(self):
        for _ in range(self.rng.randrange(1, 5)):
            name = self.rng.choice(("LDA", "LDX", "LDY", "BIT", "EOR", "ASL", "INC"))
            address = self.tia_address(self.rng.randrange(16))
            self.op(name, "abs", address + self.rng.choice((0, 16, 32, 48)))

    def sync(self):
        if self.is_long or self.rng.random() < 0.6:
            self.strobe(tia.WSYNC)
        else:
            register = self.rng.choice((tia.VSYNC, tia.VBLANK))
            self.write_register(register, self.value())

    def strobes(self):
        for _ in range(self.rng.randrange(1, 4)):
            self.delay()
            self.strobe(self.rng.choice(tuple(tia.PLACE_STROBES) + (tia.HMOVE, tia.HMCLR, tia.CXCLR)))
