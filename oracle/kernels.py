"""Random cartridges of the kinds `kernel`, `quick` and `long`: frame loops that draw."""

import tia
from writer import COUNTER, DATA, INPUTS, INSTAT, INTIM, SWBCNT, SWCHA, TIM1T, UNDOCUMENTED, Writer


class Kernel(Writer):
    """A frame loop that draws: bands of lines, each with its own writes somewhere along the line."""

    def __init__(self, rng, size, masks=()):
        super().__init__(rng, size)
        self.masks = masks  # a frame is drawn where the counter has none of the bits of one of these
        self.is_quick = bool(masks)
        # VBLANK's D6 stays set for many frames, and D1 clear.
        self.latches_buttons = rng.random() < (0.5 if self.is_quick else 0.2)
        # Some read no input in frames where the counter has one of these bits, and some read ports alone that show no pin, or one.
        self.idle_mask = rng.choice((0, 1, 2, 3, 6, 7))
        self.reads_ports_alone = not self.latches_buttons and rng.random() < 0.25
        self.free = "AX"  # Y counts the lines of a band

    def write(self):
        self.op("CLD")
        self.set_stack(0xFF)
        self.begin()
        start = self.at
        self.begin_frame()
        self.read_inputs()
        if self.is_quick:
            self.op("LDA", "zp", COUNTER)
            self.load("AND", self.rng.choice(self.masks))
            self.loop_back("BNE", start)
        self.blank_lines()
        if self.latches_buttons:
            self.show_buttons()
        lines, wanted = 0, self.rng.choice((20, 80, 110, 140))
        while lines < wanted and self.room() > 400:
            lines += self.band()
        self.end_frame(start)
        return self.finish(lambda: self.op("RTI"))

    def begin(self):
        """Most registers get a value before the first frame."""
        for register in range(tia.NUSIZ0, tia.RESMP1 + 1):
            if register not in tia.PLACE_STROBES and self.rng.random() < 0.85:
                self.write_register(register, self.value_for(register))
        if self.latches_buttons:
            self.write_register(tia.VBLANK, 0x40)
        if self.rng.random() < 0.3:
            for port in range(4):
                self.store_value(self.riot_address(port), self.value())
        if self.reads_ports_alone:
            for direction in (SWCHA + 1, SWBCNT):
                self.store_value(self.riot_address(direction), self.rng.choice((0xFF, 0xFF, 0xFE)))
        for register in tia.PLACE_STROBES:
            self.delay()
            self.strobe(register)

    def begin_frame(self):
        if self.rng.random() < 0.3 and not self.latches_buttons:
            self.frame_ends_in_black_edge()
        else:
            if self.rng.random() < 0.6 and not self.latches_buttons:
                self.write_register(tia.VBLANK, self.rng.choice((0x00, 0x02, 0x40, 0x42)))
            self.begin_sync()
        for _ in range(self.rng.randrange(1 if self.is_quick else 4)):
            self.strobe(tia.WSYNC)
        self.write_register(tia.VSYNC, self.value() & 0xFD)
        self.op("INC", "zp", COUNTER)
        if self.latches_buttons:
            self.unlatch_in_some_frames()
        if self.rng.random() < 0.15:
            self.halt_in_a_later_frame()

    def begin_sync(self):
        """VSYNC's D1 is set: by a store, by a push, or by DEC, which reads the collisions at 0."""
        way = self.rng.random()
        if way < 0.7:
            self.write_register(tia.VSYNC, self.value() | 2)
        elif way < 0.9:
            self.set_stack(self.rng.choice((0x00, 0x40)))
            self.load("LDA", self.value() | 2)
            self.op("PHA")
            self.set_stack(0xFF)
        else:
            self.op("DEC", "zp", tia.VSYNC)  # 00 reads D7 and D6 alone, so one less has D1

    def frame_ends_in_black_edge(self):
        """All objects lie on pixels 2 to 7, HMOVE blackens these, and the frame ends before they come.

        Then everything is switched off before the next line, so the collisions that are read don't have these pixels.
        """
        for register in (tia.HMCLR, tia.WSYNC) + tuple(tia.PLACE_STROBES):
            self.op("STA", "zp", register)
        for register, value in ((tia.GRP0, 0xF8), (tia.GRP1, 0xF8), (tia.NUSIZ0, 0x10), (tia.NUSIZ1, 0x20),
                                (tia.CTRLPF, 0x20), (tia.VBLANK, self.rng.choice((0, 2)))):
            self.load("LDA", value)
            self.op("STA", "zp", register)
        self.load("LDA", 2)
        self.load("LDX", 0)
        self.op("STA", "zp", tia.WSYNC)
        self.op("STA", "zp", tia.CXCLR)
        if self.rng.random() < 0.8:
            self.op("STA", "zp", tia.HMOVE)
        self.op("STA", "zp", tia.VSYNC)
        for _ in range(self.rng.randrange(7, 12)):
            self.op("NOP")
        for register in (tia.GRP0, tia.GRP1, tia.ENAM0, tia.ENAM1, tia.ENABL):
            self.op("STX", "zp", register)
        self.show(self.rng.randrange(8))

    def unlatch_in_some_frames(self):
        self.op("LDA", "zp", COUNTER)
        mask = self.rng.choice((3, 7, 15))
        self.load("AND", mask)
        self.load("CMP", self.rng.randrange(mask + 1))
        ahead = self.branch_ahead("BNE")
        for value in (0x00, 0x40):
            self.load("LDA", value)
            self.op("STA", "zp", tia.VBLANK)
        self.land(ahead)

    def halt_in_a_later_frame(self):
        self.op("LDA", "zp", COUNTER)
        self.load("CMP", self.rng.randrange(1, 6))
        ahead = self.branch_ahead("BNE")
        self.put(self.rng.choice(UNDOCUMENTED))
        self.land(ahead)

    def read_inputs(self):
        """What the controllers say is folded into RAM, in all frames or in some."""
        ahead = None
        if self.idle_mask:
            self.op("LDA", "zp", COUNTER)
            self.load("AND", self.idle_mask)
            ahead = self.branch_ahead("BNE")
        buttons = (self.tia_address(0x0C), self.tia_address(0x0D))
        for byte in range(6):
            ports = (self.riot_address(SWCHA), self.riot_address(SWCHA + 2))
            self.op("LDA", "abs", self.rng.choice(buttons if self.latches_buttons else ports if self.reads_ports_alone else buttons + ports))
            if self.rng.random() < (0.9 if self.latches_buttons else 0.5):
                self.op(self.rng.choice(("EOR", "ADC")), "zp", INPUTS + byte)
            self.op("STA", "zp", INPUTS + byte)
        if ahead is not None:
            self.land(ahead)

    def blank_lines(self):
        """Some 30 lines, counted or timed."""
        if self.rng.random() < 0.5:
            self.wait_for_lines(self.rng.randrange(24, 36))
        else:
            self.store_value(self.timer_address(TIM1T + 2), self.rng.randrange(28, 43))
            start = self.at
            self.op("LDA", "abs", self.timer_address(INTIM))
            self.branch_back("BNE", start)
        if self.rng.random() < 0.7 and not self.latches_buttons:
            self.write_register(tia.VBLANK, self.value() & 0x7D)

    def band(self):
        """Lines of equal writes; Y counts them down. Gives how many they are."""
        lines = self.rng.choice((1, 2, 8, 20, 30, 60))
        self.load("LDY", lines)
        start = self.at
        if self.rng.random() < 0.9:
            self.strobe(tia.WSYNC)
        for _ in range(self.rng.randrange(2, 10)):
            self.action()
        self.op("DEY")
        self.loop_back("BNE", start)
        return lines

    def action(self):
        actions = (
            (8, self.set_register), (5, self.set_from_line), (5, self.place), (4, self.delay), (3, self.motion),
            (4, lambda: self.show(self.rng.randrange(16))), (3, self.show_input), (1, lambda: self.strobe(tia.CXCLR)),
            (1, lambda: self.strobe(tia.WSYNC)), (1, self.modify_register), (1, self.push_to_register),
            (1, self.decimal_colour), (1, self.wait_by_counter), (2, self.let_missile_go),
            (3, self.delayed_copies),
        )
        self.rng.choices(actions, [weight for weight, _ in actions])[0][1]()

    def set_register(self):
        register = self.rng.randrange(tia.NUSIZ0, 0x40)
        self.write_register(register, self.value_for(register))

    def set_from_line(self):
        register = self.rng.choice((tia.GRP0, tia.GRP1, tia.PF0, tia.PF1, tia.PF2, tia.COLUBK, tia.COLUPF, tia.COLUP0,
                                    tia.COLUP1, tia.NUSIZ0, tia.NUSIZ1, tia.CTRLPF, tia.HMP0, tia.HMBL, tia.ENABL))
        if self.rng.random() < 0.5:
            self.op("STY", "zp", register)
        else:
            self.op("LDA", "absy", self.part(DATA) + self.rng.randrange(100))
            self.op("STA", "zp", register)

    def place(self):
        self.delay()
        self.strobe(self.rng.choice(tuple(tia.PLACE_STROBES)))

    def motion(self):
        for register in (tia.HMP0, tia.HMP1, tia.HMM0, tia.HMM1, tia.HMBL):
            if self.rng.random() < 0.3:
                self.write_register(register, self.value())
        self.strobe(self.rng.choice((tia.HMOVE, tia.HMOVE, tia.HMCLR)))

    def show_buttons(self):
        """Both buttons as they read now, and what was read before."""
        for register, address in ((tia.COLUBK, 0x0C), (tia.GRP0, 0x0D), (tia.PF1, INPUTS), (tia.PF2, INPUTS + 1)):
            self.op("LDA", "zp", address)
            self.op("STA", "zp", register)
        self.wait_for_lines(self.rng.randrange(1, 8))

    def shown_register(self):
        return self.rng.choice((tia.COLUBK, tia.COLUPF, tia.PF1, tia.PF2, tia.GRP0, tia.COLUP0, tia.COLUP1))

    def show(self, address):
        """What a read of the TIA gives becomes a colour or a shape."""
        self.op("LDA", "abs", self.tia_address(address) + self.rng.choice((0, 16, 32, 48)))
        if self.rng.random() < 0.5:
            self.load("ORA", self.rng.randrange(64))
        self.op("STA", "zp", self.shown_register())

    def show_input(self):
        way = self.rng.randrange(3)
        if way == 0:
            self.op("LDA", "zp", self.rng.choice((COUNTER, INPUTS + self.rng.randrange(6))))
        elif way == 1:
            self.op("LDA", "abs", self.riot_address(self.rng.choice((0, 2, INTIM, INSTAT))))
        else:
            self.op("LDA", "zp", self.rng.choice((0x0C, 0x0D)) + self.rng.choice((0, 16, 32, 64)))
        self.op("STA", "zp", self.shown_register())

    def modify_register(self):
        """A shift or a count at a TIA address: it reads what is there to read and writes another register."""
        name = self.rng.choice(("INC", "DEC", "ASL", "LSR", "ROL", "ROR"))
        self.op(name, "zp", self.rng.randrange(tia.NUSIZ0, 0x80))

    def push_to_register(self):
        registers = (tia.ENABL, tia.ENAM1, tia.GRP1, tia.PF2, tia.COLUBK, self.rng.randrange(4, 64))
        self.set_stack(self.rng.choice(registers))
        self.op(self.rng.choice(("PHP", "PHA")))
        self.set_stack(0xFF)

    def decimal_colour(self):
        self.op("SED")
        self.op(self.rng.choice(("ADC", "SBC")), "imm", self.digits())
        self.op("CLD")
        self.op("STA", "zp", tia.COLUBK)

    def wait_by_counter(self):
        """A few cycles more or less in each frame."""
        self.op("LDA", "zp", COUNTER)
        self.load("AND", 7)
        self.op("TAX")
        start = self.at
        self.op("DEX")
        self.branch_back("BPL", start)

    def let_missile_go(self):
        """From its player's place, by RESMP from 1 to 0."""
        player = self.rng.randrange(2)
        if self.rng.random() < 0.5:
            self.write_register(tia.NUSIZ0 + player, self.rng.choice((0x05, 0x37)))
        for value in (2, 0):
            self.write_register(tia.RESMP0 + player, value)

    def delayed_copies(self):
        """New and old copies of a player or the ball, one shown after the other."""
        delay = self.rng.choice((tia.VDELP0, tia.VDELP1, tia.VDELBL))
        self.write_register(delay, self.rng.randrange(2))
        for _ in range(self.rng.randrange(1, 4)):
            register = self.rng.choice((tia.GRP0, tia.GRP1, tia.ENABL))
            self.write_register(register, self.value_for(register))

    def end_frame(self, start):
        """Some last lines, perhaps too many, so that the frame ends by its number of lines."""
        self.wait_for_lines(self.rng.choice((1, 10, 20, 100)))
        self.op("JMP", "target", self.address(start))
