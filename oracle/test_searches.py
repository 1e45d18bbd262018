"""Checks of searches.py and of the comparison in `search`: what docs/FORMATS.md says of goals, names and choices, spaces that were searched on paper, and wrong answers, each of which
must be reported. They are part of oracle/selftest."""

import copy
import pathlib
import random
import re
import unittest
from collections import Counter
from unittest import mock

import answers
import beginnings
import commands
import machine
import resting
import searches
import spaces

search = answers.load_script("search")
NAMES = {"score": 0x82, "x": 0x85, "lives": 0x9C}
NOTHING, RIGHT, LEFT = machine.NOTHING, "R.... ..... .....", ".L... ..... ....."
END_OF_FRAME = "A902 8500 A900 8500 4C00F0"
# The byte at 80 counts the frames in which the stick is held to the right; to the left it halts the machine.
COUNTER = "AD8002 3002 E680" + "AD8002 2940 D001 02" + END_OF_FRAME


def cartridge(code):
    return answers.image_of("load", ["000=" + code.replace(" ", ""), "FFC=00F0"]).frame


def fault_of(read, *given):
    try:
        read(*given)
    except searches.hands.Fault as fault:
        return str(fault)
    return None


class Goals(unittest.TestCase):
    def value(self, text, ram=bytes(128)):
        return searches.read_goal("most " + text, NAMES).value(ram)

    def test_page(self):
        """docs/FORMATS.md, "Goals of a search": its goals, and the texts that are none."""
        with open(pathlib.Path(__file__).parent.parent / "docs" / "FORMATS.md") as file:
            page = file.read().split("## Goals of a search")[1]
        block = page.split("With the names file below:")[1].split("\n\n")[1]
        goals = [line.strip() for line in block.split("\n")]
        self.assertEqual(len(goals), 3)
        for goal in goals:
            searches.read_goal(goal, NAMES)
        for text, place in (("x == 1 and y == 2", "goal word 5: end expected"), ("( x )", "goal word 4: operator expected"), ("(x == 1)", "goal word 2: operand expected"), ("x = 1", "goal word 3: operator expected")):
            self.assertIn("`%s`" % text, page)
            self.assertEqual(fault_of(searches.read_goal, "reach " + text, dict(NAMES, y=0x86)), place)
        for word in ("$85", "0x85", "byte:8a", "085", "-1"):
            self.assertIn("`%s`" % word, page)
            self.assertEqual(fault_of(searches.read_goal, "reach " + word, NAMES), "goal word 2: operand expected")

    def test_faults(self):
        for text, fault in (
                ("reach", searches.NO_KIND), ("Reach 1", searches.NO_KIND), ("reach ", "goal word 2: operand expected"), ("reach x ", "goal word 3: operator expected"),
                ("reach  x", "goal word 2: operand expected"), ("reach x ==", "goal word 4: operand expected"), ("reach ( x == 1", "goal word 6: ) expected"), ("reach ( x == 1 == 1 )", "goal word 6: ) expected"),
                ("reach not", "goal word 3: operand expected"), ("reach x == 1 ", "goal word 5: end expected"), ("reach AB", "goal word 2: operand expected"), ("reach y", "goal word 2: operand expected"),
                ("reach byte:7F", "goal word 2: operand expected"), ("reach 4294967296", "goal word 2: operand expected"), ("reach and", "goal word 2: operand expected")):
            self.assertEqual(fault_of(searches.read_goal, text, NAMES), fault, text)

    def test_depth(self):
        # 64 within one another are understood, the 65th is word 66. An operand that is no word is that, at any depth.
        for words in ("not " * 64, "not ( " * 32):
            text = "reach " + words + "x" + " + 1 )" * words.count("(")
            searches.read_goal(text, NAMES)
            self.assertEqual(fault_of(searches.read_goal, text.replace("reach ", "reach not "), NAMES), "goal word 66: too deep")
            self.assertEqual(fault_of(searches.read_goal, text.replace("x", ")"), NAMES), "goal word 66: operand expected")
        self.assertIsNone(fault_of(searches.read_goal, "reach " + "not " * 64 + "x == " + "not " * 64 + "x", NAMES))

    def test_weight(self):
        # 2 to the power of 48, times a number's weight, which is one more than the number.
        pairs = "( ( pair:80 * pair:82 ) * pair:84 )"
        for text, is_great in ((pairs + " * 32766", False), (pairs + " * 32767", True), ("( %s * 32766 ) + %s" % (pairs, pairs), True), ("4294967295 * 2147483646", False), ("4294967295 * 2147483647", True),
                               ("( 4294967295 * 2147483646 ) < 4294967294", False), ("( 4294967295 * 2147483646 ) < 4294967295", True), ("not ( ( 4294967295 * 2147483646 ) or 4294967294 )", True)):
            self.assertEqual(fault_of(searches.read_goal, "most " + text, NAMES), searches.GREAT if is_great else None, text)

    def test_values(self):
        ram = bytes([0x12, 0x34, 0x99, 0xAF]) + bytes(123) + b"\x07"
        for text, value in (("byte:81", 0x34), ("bcd:82", 99), ("bcd:83", 115), ("pair:80", 0x3412), ("pair:FF", 0x1207), ("score", 0x99), ("pair:score", 0xAF99), ("bcd:score", 99), ("85", 85), ("byte:85", 0),
                            ("0 - 1", -1), ("( 0 - 1 ) < 0", 1), ("not 7", 0), ("not x", 1), ("not x == 1", 1), ("not ( x == 1 )", 1), ("not ( x == 0 )", 0), ("( 2 - 3 ) and ( 0 - 5 )", 1), ("0 or ( 0 - 1 )", 1),
                            ("3 and 0", 0), ("( 2 + 3 ) * ( 4 - 6 )", -10), ("2 <= 2", 1), ("2 < 2", 0), ("3 >= 2", 1), ("2 > 2", 0), ("2 != 2", 0), ("byte:80 == 18", 1)):
            self.assertEqual(self.value(text, ram), value, text)


class Files(unittest.TestCase):
    def test_names(self):
        self.assertEqual(searches.read_names(b"score 82\nx 85\nlives 9C\n"), NAMES)
        self.assertEqual(searches.read_names(b""), {})
        for text, fault in ((b"x 85", "1: end"), (b"x 85\ny", "2: end"), (b"x85\n", "1: space"), (b"\n", "1: space"), (b"x 7F\n", "1: address"), (b"x 8a\n", "1: address"), (b"x  85\n", "1: address"), (b"9 7F\n", "1: address"),
                            (b"x 85 \n", "1: address"), (b"x 85\r\n", "1: address"), (b"9 85\n", "1: name"), (b" 85\n", "1: name"), (b"AB 85\n", "1: name"), (b"not 85\n", "1: name"), (b"x 85\nx 86\n", "2: name"), (b"\xe4 85\n", "1: name")):
            self.assertEqual(fault_of(searches.read_names, text), "names line " + fault, text)
        self.assertEqual(list(searches.read_names(b"Ab 85\nABC 85\nA 85\n_ 85\n")), ["Ab", "ABC", "A", "_"])

    def test_choices(self):
        right = RIGHT.encode()
        self.assertEqual(searches.read_choices(right + b"\n" + right + b"\n"), [RIGHT, RIGHT])
        for text, fault in ((b"", "1: end"), (right, "1: end"), (b"\n", "1: frame"), (right + b"\n\n", "2: frame"), (right + b"\n...", "2: end"), (right + b" x2\n", "1: frame")):
            self.assertEqual(fault_of(searches.read_choices, text), "choices line " + fault, text)

    def test_stick(self):
        self.assertEqual(len(set(searches.STICK)), 18)
        self.assertEqual([searches.STICK[place] for place in (0, 1, 5, 8, 9, 17)], [NOTHING, RIGHT, "R.D.. ..... .....", ".L.U. ..... .....", "....F ..... .....", ".L.UF ..... ....."])


class OnPaper(unittest.TestCase):
    """Spaces of COUNTER: a frame with the stick to the right takes four cycles more, so after k choices there are as many states as numbers from 0 to k."""

    def answer(self, goal, choices=(NOTHING, RIGHT), count=3, hold=1, most=1000, part=searches.WHOLE):
        space = searches.Space(cartridge(COUNTER), [RIGHT], choices, count, hold, part)
        return searches.answer(space, searches.read_goal(goal, {}), most)

    def test_reach(self):
        for goal, sequence in (("reach byte:80 == 1", ()), ("reach byte:80 == 2", (1,)), ("reach byte:80 == 4", (1, 1, 1))):
            self.assertEqual(self.answer(goal), ("best of all 8 sequences", sequence))
        self.assertEqual(self.answer("reach byte:80 == 5"), ("none: not one of all 8 sequences reaches it", None))
        self.assertEqual(self.answer("reach byte:80 == 5", hold=2), ("best of all 8 sequences", (1, 1)))
        self.assertEqual(self.answer("reach byte:80 == 4", hold=2), ("none: not one of all 8 sequences reaches it", None))

    def test_extremes(self):
        for goal, sequence in (("most byte:80", (1, 1, 1)), ("least byte:80", (0, 0, 0)), ("most byte:80 == 3", (0, 1, 1)), ("least byte:80 == 1", (0, 0, 1)), ("most 7", (0, 0, 0))):
            self.assertEqual(self.answer(goal), ("best of all 8 sequences", sequence), goal)
        self.assertEqual(self.answer("least byte:80", count=0), ("best of all 1 sequences", ()))

    def test_stops(self):
        self.assertEqual(self.answer("reach byte:80 == 5", most=2), ("stopped: more than 2 states in layer 2: none of up to 1 frames reaches it", None))
        self.assertEqual(self.answer("reach byte:80 == 5", most=3, hold=5, count=4), ("stopped: more than 3 states in layer 3: none of up to 10 frames reaches it", None))
        self.assertEqual(self.answer("reach byte:80 == 3", most=2, hold=3), ("stopped: more than 2 states in layer 2: none of up to 3 frames reaches it", None))
        self.assertEqual(self.answer("most byte:80", most=3), ("stopped: more than 3 states in layer 3", None))
        self.assertEqual(self.answer("most byte:80", most=4), ("best of all 8 sequences", (1, 1, 1)))

    def test_halts(self):
        # To the left the machine halts: its RAM stays, nothing follows, and it is in its layer.
        self.assertEqual(self.answer("most byte:80", (LEFT,), 2), ("none: each of all 1 sequences halts before its end", None))
        self.assertEqual(self.answer("most byte:80", (LEFT,), 1), ("best of all 1 sequences", (0,)))
        self.assertEqual(self.answer("least byte:80", (RIGHT, LEFT), 2), ("best of all 4 sequences", (0, 1)))
        self.assertEqual(self.answer("reach byte:80 == 3", (LEFT, RIGHT), 3), ("best of all 8 sequences", (1, 1)))
        self.assertEqual(self.answer("reach byte:80 == 9", (LEFT, RIGHT), 3, most=1), ("stopped: more than 1 states in layer 1: none of up to 0 frames reaches it", None))

    def test_parts(self):
        # Of two choices the first part of two has nothing at first, the second one the stick to the right.
        for part, goal, answer in (
                ((1, 2), "reach byte:80 == 2", ("best of all 4 sequences", (0, 1))), ((2, 2), "reach byte:80 == 2", ("best of all 4 sequences", (1,))),
                ((1, 2), "reach byte:80 == 1", ("best of all 4 sequences", ())), ((2, 2), "reach byte:80 == 1", ("best of all 4 sequences", ())),
                ((1, 2), "reach byte:80 == 4", ("none: not one of all 4 sequences reaches it", None)), ((2, 2), "least byte:80", ("best of all 4 sequences", (1, 0, 0))),
                ((1, 2), "most byte:80", ("best of all 4 sequences", (0, 1, 1))), ((1, 2), "most byte:80 == 3", ("best of all 4 sequences", (0, 1, 1))),
                ((2, 2), "reach byte:80 == 5", ("none: not one of all 4 sequences reaches it", None)), ((2, 3), "most byte:80", ("best of all 4 sequences", (0, 1, 1))),
                ((1, 3), "reach byte:80 == 2", ("none: not one of all 0 sequences reaches it", None)), ((1, 3), "reach byte:80 == 1", ("best of all 0 sequences", ())),
                ((1, 3), "most byte:80", ("none: each of all 0 sequences halts before its end", None))):
            self.assertEqual(self.answer(goal, part=part), ("part %d of %d: " % part + answer[0], answer[1]), (part, goal))
        self.assertEqual(self.answer("most byte:80", part=(2, 2), most=2), ("part 2 of 2: stopped: more than 2 states in layer 3", None))
        for part in ((1, 3), (2, 3), (1, 1000000)):
            self.assertEqual(self.answer("least byte:80", count=0, part=part), ("part %d of %d: best of all 1 sequences" % part, ()))

    def test_firsts(self):
        # The parts of any number have each choice once, in order.
        for choices in range(1, 21):
            for parts in list(range(1, 45)) + [1000, 1000000]:
                numbers = range(1, parts + 1) if parts < 50 else [1, parts // 2, parts]
                found = [choice for number in numbers for choice in searches.firsts_of((number, parts), choices)]
                self.assertTrue(parts > 50 or found == list(range(choices)), (choices, parts))
        self.assertEqual([list(searches.firsts_of((number, 4), 18)) for number in (1, 2, 3, 4)], [[0, 1, 2, 3], [4, 5, 6, 7, 8], [9, 10, 11, 12], [13, 14, 15, 16, 17]])

    def test_words(self):
        for word in spaces.NO_PARTS:
            self.assertRaises(commands.Wrong, commands.part_of, word)
        for word, part in (("1/1", (1, 1)), ("18/18", (18, 18)), ("1/1000000", (1, 1000000)), ("1000000/1000000", (1000000, 1000000))):
            self.assertEqual(commands.part_of(word), part)

    def test_script(self):
        space = searches.Space(cartridge(COUNTER), [RIGHT], (NOTHING, RIGHT), 3, 2)
        script = "insert 4 1 ..... ..... .....\nreplace 1 2 R.... ..... .....\nreplace 3 2 ..... ..... .....\n"
        self.assertEqual(searches.script_of((1, 0), space, 1, 4).decode(), script)
        self.assertEqual(searches.script_of((), space, 1, 1), b"")
        self.assertFalse(searches.script_of((1, 0), space, 1, 5).startswith(b"insert"))

    def test_states(self):
        # A state has the bits of a register that are used, and those of PF0 that aren't.
        for code, states in (("8509", 2), ("8515", 1), ("8504", 1), ("850D", 2), ("4A4A4A4A 850D", 2), ("4A4A4A4A 8520", 1), ("8520", 2)):
            space = searches.Space(cartridge("AD8002 29C0 " + code + END_OF_FRAME), [], (RIGHT, LEFT), 1, 1)
            self.assertEqual(space.sizes[1], states, code)

    def test_plain_machine(self):
        """What some sequences of random spaces leave is what the plain machine leaves, which plays them from power-on."""
        rng, played = random.Random("plain"), 0
        while played < 150:
            plan = spaces.Plan(rng, 100)
            if plan.kind not in ("walker", "brief"):
                continue
            space = plan.space()
            one = rng.choice(rng.choice([layer for layer in space.layers if layer]))
            inputs = plan.inputs[:plan.start] + [space.choices[choice] for choice in one.sequence for _ in range(plan.hold)]
            model = machine.Machine(plan.cartridge.image)
            machine.play(model, inputs)
            self.assertEqual((beginnings.state_of(model), model.halt is not None), (one.state, one.is_halted))
            played += len(inputs)


# ---- wrong answers

def changed(space, layers):
    """The space as if its sequences were these."""
    found = copy.copy(space)
    found.layers, found.sizes = layers, [len(searches.different(layer)) for layer in layers]
    return found


def without(space, leaves_out):
    """The space without some sequences of each layer, and all that go on from them."""
    layers, gone = [], set()
    for layer in space.layers:
        left = [one for one in layer if one.sequence[:-1] not in gone or not one.sequence]
        out = leaves_out(left)
        gone |= {one.sequence for one in layer} - {one.sequence for one in left} | out
        layers.append([one for one in left if one.sequence not in out])
    return changed(space, layers)


def of_equal_ram(layer):
    """All of one RAM but the first."""
    first = {one.ram: one.sequence for one in reversed(layer)}
    return {one.sequence for one in layer if first[one.ram] != one.sequence}


def of_last_state(layer):
    return {one.sequence for one in layer if one.state == layer[-1].state} if len(layer) > 1 else set()


def of_halted(layer):
    return {one.sequence for one in layer if one.is_halted}


def going_on(space):
    """Halted states go on."""
    layers, ended = [], []
    for layer in space.layers:
        layers.append(sorted(layer + ended, key=lambda one: one.sequence))
        ended = [one._replace(sequence=one.sequence + (choice,)) for one in layers[-1] if one.is_halted for choice in space.choices_after(one)]
    return changed(space, layers)


ANSWER, SCRIPT, READ_NAMES = searches.answer, searches.script_of, searches.read_names


def over(make):
    """The answer to a space that is made of the one that is searched."""
    return lambda space, goal, most: ANSWER(make(space), goal, most)


def with_verdict(make):
    def wrong(space, goal, most):
        found = ANSWER(space, goal, most)
        return found._replace(verdict=make(found.verdict, space))
    return wrong


def one_less(pattern):
    return with_verdict(lambda verdict, _: re.sub(pattern, lambda match: str(int(match.group()) - 1), verdict))


def only_for(kinds, wrong):
    return lambda space, goal, most: (wrong if goal.kind in kinds else ANSWER)(space, goal, most)


def of_last_first(space):
    """All that begin with the last of a part's first choices."""
    last = space.firsts[-1:] if space.part != searches.WHOLE else ()
    return lambda layer: {one.sequence for one in layer if one.sequence[:1] and one.sequence[0] in last}


def of_unbound(space):
    """All that have a choice with which no sequence of the part begins."""
    return lambda layer: {one.sequence for one in layer if one.sequence and one.sequence[-1] not in space.firsts}


EXTREMES = ("most", "least")
WRONG_ANSWERS = {
    "a layer's last state is left out": over(lambda space: without(space, of_last_state)),
    "states are merged by RAM alone": over(lambda space: without(space, of_equal_ram)),
    "a halted state goes on": over(going_on),
    "a halted state has no value": only_for(EXTREMES, over(lambda space: without(space, of_halted))),
    "a halted state reaches no goal": only_for(("reach",), over(lambda space: without(space, of_halted))),
    "the goal isn't looked at before the first choice": over(lambda space: changed(space, [[]] + space.layers[1:])),
    "the goal isn't looked at after the last choice": only_for(("reach",), over(lambda space: changed(space, space.layers[:-1]))),
    "the last of equals is taken": over(lambda space: changed(space, [layer[::-1] for layer in space.layers])),
    "the greatest is taken for the least": only_for(EXTREMES, lambda space, goal, most: ANSWER(space, goal._replace(kind="most"), most)),
    "one state less may be kept": lambda space, goal, most: ANSWER(space, goal, most - 1),
    "one state more may be kept": lambda space, goal, most: ANSWER(space, goal, most + 1),
    "a stop is told as none": with_verdict(lambda verdict, space: space.begin() + "none: not one of all %d sequences reaches it" % space.number() if "stopped" in verdict else verdict),
    "one sequence less is counted": one_less(r"(?<=all )[0-9]+"),
    "a part loses its last first choice": over(lambda space: without(space, of_last_first(space))),
    "a part binds every choice": over(lambda space: without(space, of_unbound(space))),
    "a part's sequences are counted as the whole's": with_verdict(lambda verdict, space: re.sub(r"(?<=all )[0-9]+", str(len(space.choices) ** space.count), verdict)),
    "the verdict names no part": with_verdict(lambda verdict, space: verdict.removeprefix(space.begin())),
    "the layer before is named": one_less(r"(?<=layer )[0-9]+"),
    "the frames before are named": one_less(r"(?<=up to )[0-9]+"),
}
WRONG_SCRIPTS = {
    "the script is a frame late": lambda sequence, space, start, length: SCRIPT(sequence, space, start + 1, length),
    "missing frames aren't put in": lambda sequence, space, start, length: SCRIPT(sequence, space, start, searches.hands.MOST),
    "frames are put in for the longest sequences": lambda sequence, space, start, length: SCRIPT(sequence, space, start, length - space.hold * (space.count - len(sequence))),
    "the last change is left out": lambda sequence, space, start, length: SCRIPT(sequence[:-1], space, start, length),
}
WRONG_LOOKS = {
    "bcd": (searches.byte_at, 256), "byte": (searches.digits_at, 256),
    "pair": (lambda address: lambda ram: 256 * ram[address - 0x80] + ram[(address + 1) % 128], 65536),
}
WRONG_OPERATORS = {"<=": "<", ">=": ">", "<": "<=", ">": ">=", "+": "-", "-": "+", "*": "+", "==": "!=", "!=": "==", "and": "or", "or": "and"}
WRONG_NUMBERS = {"DEEPEST": (63, 65), "TOO_GREAT": (2 ** 62, 2 ** 63 + 1, 2 ** 64), "GREATEST": (2 ** 32 - 2, 2 ** 32)}


def mistakes():
    """Each mistake by its name, with what puts it in."""
    for name, wrong in WRONG_ANSWERS.items():
        yield name, mock.patch.object(searches, "answer", wrong)
    for name, wrong in WRONG_SCRIPTS.items():
        yield name, mock.patch.object(searches, "script_of", wrong)
    for name, wrong in WRONG_LOOKS.items():
        yield name + ":", mock.patch.dict(searches.LOOKS, {name: wrong})
    for name, wrong in WRONG_OPERATORS.items():
        yield name, mock.patch.dict(searches.OPERATORS, {name: searches.OPERATORS[wrong]})
    for name, values in WRONG_NUMBERS.items():
        for value in values:
            yield "%s %d" % (name, value), mock.patch.object(searches, name, value)
    yield "a name twice", mock.patch.object(searches, "is_name", lambda word, names: IS_NAME(word, {}))
    yield "no names", mock.patch.object(searches, "read_names", lambda text: READ_NAMES(text) and {})


IS_NAME = searches.is_name


class Planted(unittest.TestCase):
    """What `search` finds with its cases, where the program has a mistake."""

    CASES, SEQUENCES = 900, 250

    def case(self, number):
        try:
            return search.Case("planted", number, Counter(), self.SEQUENCES)
        except resting.Open:
            return None

    def test_mistakes(self):
        """The program is a second run of the model, with one mistake at a time: each must be found by one of the cases."""
        missed = dict(mistakes())
        for number in range(self.CASES):
            case = self.case(number)
            for name in list(missed) if case else []:
                with missed[name]:
                    try:
                        found = case.answer(Counter())
                    except resting.Open:
                        continue
                if case.difference((found.output, found.errors, found.status)):
                    del missed[name]
        self.assertEqual(list(missed), [])

    def test_right_and_wrong_bytes(self):
        kinds = Counter()
        for number in range(40):
            case = self.case(number)
            if case is None or case.wanted == commands.WRONG:
                continue
            output, errors, status = case.wanted
            kinds[status] += 1
            self.assertIsNone(case.difference((output, errors, status)))
            for wrong in ((output + b"\n", errors, status), (output, errors + b"\n", status), (output, errors, 1 - status), (errors, output, status), (output, b"", status), (output, errors, None), (b"x", errors, status)):
                self.assertIsNotNone(case.difference(wrong), (number, wrong))
        self.assertGreater(min(kinds[0], kinds[1]), 3)
