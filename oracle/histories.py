"""One sequential history that several clients' answers are compared with.

Written from docs/FORMATS.md, "Conversation", "History" and "Several conversations".
"""

from collections import Counter

import drafts
from answers import EDITS, TOLD_AT_ONCE, Answers, Movie, at_of, hands, made, told_at_once, understood

UNHEARD = "edits whose answer nobody heard"


class History(Answers):
    """Compares clients' logs, each a list of (line, answer), with the history that their accepted edits make."""

    def __init__(self, clients, movie, facts, report):
        """The movie is there by two edits of the first seat, which no client has sent."""
        # `replay`: the edits' lines, and between them a line for each fact, with its name and its value.
        super().__init__(facts, Counter(), [], report)
        self.clients = {client["number"]: client for client in clients}
        self.logs, self.left_open = {}, {}
        for client in clients:
            number, log = client["number"], self.each_answer(client["log"])
            self.logs[number], self.left_open[number] = drafts.apart(number, log, (facts, self.counts, self.replay, report))
        self.first = [Movie(movie.cart, []), movie]
        self.start = len(self.first)
        self.edits, self.strokes, self.told = {}, {}, {}
        self.lost, self.maker = {number: 0 for number in self.clients}, 0

    def each_answer(self, log):
        """Lines with one answer each: a strip is as many `picture` lines, and each of them may name other numbers of edits."""
        lines = []
        for line, answer in log:
            said = understood(line) if isinstance(answer, list) else None
            if said:
                lines += [("picture %d" % (said.numbers[0] + place), one) for place, one in enumerate(answer)]
            else:
                lines.append((line, answer[0] if isinstance(answer, list) else answer))
        return lines

    # -- first pass: numbers

    def read_logs(self):
        """Puts each accepted edit at its number, and each history's entries at theirs; a seat's numbers never fall."""
        for number, log in self.logs.items():
            last = self.start
            for turn in log:
                last = self.read_answer(number, turn, last)
        self.last = max([self.start] + list(self.edits) + [entry + 1 for entry in self.told])

    def read_answer(self, number, turn, last):
        line, head, body = turn[:3]
        words = head.split(" ")
        try:
            at = at_of(words)
        except (ValueError, IndexError):
            self.differ(number, line, head, "an answer of docs/FORMATS.md")
            return last
        if at is None:
            return last
        if at < last + (words[0] == "edit"):
            self.differ(number, line, head, "a number of edits not less than %d" % (last + (words[0] == "edit")))
        if words[0] == "edit":
            self.claim(at, number, line, head)
        if words[0] == "commit" and turn.draft:
            self.read_commit(number, turn, last, at)
        if words[0] == "moved" and turn.draft and at <= turn.draft.at:
            self.differ(number, line, head, "a number of edits greater than %d, at which the draft began" % turn.draft.at)
        if words[0] == "history":
            self.read_entries(number, line, head, body)
        return max(at, last)

    def claim(self, at, number, line, head):
        if at in self.edits:
            self.differ(number, line, head, "a number of its own: seat %d's %r has it, too" % self.edits[at][:2])
        self.edits[at] = (number, line, head)

    def read_commit(self, number, turn, last, at):
        """The draft's edits follow the one with which it began, with none between that its seat knew of."""
        first = turn.draft.at
        if last > first or not first <= at <= first + 2:
            self.differ(number, turn.line, turn.head, "at most two edits after %d, and none before that" % first)
            return
        for place in range(at - first):
            self.claim(first + place + 1, number, turn.line, turn.head)
            self.strokes[first + place + 1] = (turn.draft, place)

    def read_entries(self, number, line, head, body):
        entries = {}
        try:
            _, _, first, count, size = head.split(" ")
            lines = body.split("\n")
            fits = lines.pop() == "" and len(body) == int(size)
            for text in lines:
                entry, seat, said = text.split(" ", 2)
                entries.setdefault((int(entry), int(seat)), []).append(said)
            wanted = list(range(int(first), int(first) + int(count)))
            fits = fits and [entry for entry, _ in entries] == wanted
        except ValueError:
            fits = False
        if not fits:
            self.differ(number, line, head, "COUNT entries from FROM on: %r" % body[:200])
            return
        for (entry, seat), lines in entries.items():
            if self.told.setdefault(entry, (seat, lines)) != (seat, lines):
                self.differ(number, line, head, "entry %d as it was told before: %r, not %r" % (entry, self.told[entry], (seat, lines)))

    # -- second pass: each answer at its number

    def compare(self):
        self.read_logs()
        places = {number: 0 for number in self.clients}
        for at in range(self.last + 1):
            if at > 0:
                self.make_edit(at)
            if at >= self.start:
                for number, log in self.logs.items():
                    places[number] = self.compare_looks(number, log, places[number], at)
        for number, log in self.logs.items():
            for turn in log[places[number]:]:
                self.differ(number, turn.line, turn.head, "a number of edits up to %d" % self.last)
        self.compare_end()
        return self.now

    def compare_end(self):
        """The first client asks for entries at the end until there are none: it has all edits then."""
        asked = [turn for turn in self.logs.get(0, []) if turn.line.startswith("history ") and turn.head.startswith("history ")]
        line, head = asked[-1][:2] if asked else ("the whole history", "no answer")
        self.expect(0, line, head, "history %d %d 0 0" % (self.last, self.last))

    def make_edit(self, at):
        """The edit of this number."""
        before, told = self.now, self.told.get(at - 1)
        by_told = self.made_by_told(at, before, told)
        if at <= self.start:
            number = 0
            self.make(self.first[at - 1])
        elif at in self.strokes:
            number = self.edits[at][0]
            self.make(self.made_by_stroke(number, at, told))
        elif at in self.edits:
            number, line, head = self.edits[at]
            self.make(self.made_by_line(number, line, head, at))
            self.counts[line.split(" ")[0]] += 1
            self.replay.append((line, None, None))
        elif by_told is None:
            self.differ(None, "", "", "an edit of the number %d, of which nobody told" % at)
            return
        else:
            number = told[0]
            self.make(by_told)
            self.replay += [(line, None, None) for line in told[1]]
            self.find_lost(number, before, at)
        if told is not None and (told[0] != number or by_told is not None and by_told != self.now):
            self.differ(number, "", "entry %d: %r" % (at - 1, told), "seat %d's edit %r" % (number, self.edits.get(at)))
        self.counts["changes of seat"] += number != self.maker
        self.maker = number

    def made_by_stroke(self, number, at, told):
        """An edit of a draft that was committed, which must be told by its very lines."""
        draft, place = self.strokes[at]
        if draft.edits is None or place >= len(draft.edits):
            self.differ(number, "commit", "an edit of the number %d" % at, "the draft's edits: %r" % draft.edits)
            return self.now
        lines, movie = draft.edits[place], self.now
        for line in lines:
            movie = made(movie, understood(line))
            self.replay.append((line, None, None))
        if told is not None and told[1] != lines:
            self.differ(number, "commit", "entry %d: %r" % (at - 1, told), "the draft's edit: %r" % lines)
        return movie

    def made_by_told(self, at, movie, told):
        """What the lines of an entry make, one after the other."""
        if told is None:
            return None
        try:
            for line in told[1]:
                said = understood(line)
                if said is None or said.kind not in ("insert", "replace", "delete", "load"):
                    raise hands.Fault("not understood")
                movie = made(movie, said)
        except hands.Fault as fault:
            self.differ(told[0], "", "entry %d: %r" % (at - 1, told), "lines of a script that can be made: %s" % fault)
            return None
        self.counts["entries"] += 1
        return movie

    def made_by_line(self, number, line, head, at):
        said = understood(line)
        try:
            movie = made(self.now, said)
        except (hands.Fault, TypeError, AttributeError) as fault:
            self.differ(number, line, head, "%s at %d edits and %d frames" % (fault, at - 1, len(self.now.frames)))
            return self.now
        self.expect(number, line, head, "edit %d len %d" % (at, len(movie.frames)))
        return movie

    def find_lost(self, number, before, at):
        """An edit whose answer nobody heard: one of the lines that its client sent last, in their order."""
        lines = self.clients[number]["unanswered"] if number in self.clients and self.left_open[number] is None else []
        while self.lost.get(number, 0) < len(lines):
            said = understood(lines[self.lost[number]])
            self.lost[number] += 1
            try:
                if said and (said.kind in EDITS or said.kind == "load") and made(before, said) == self.now:
                    self.counts[UNHEARD] += 1
                    return
            except hands.Fault:
                pass
        self.differ(number, "", "entry %d: %r" % (at - 1, self.told[at - 1]), "no foreign edit: this is no line that was sent")

    # -- looks

    def of_history(self, number, line, head, body, at, first):
        """As many of the entries that were told as one answer has. The first client was told all of them."""
        entries = [self.told.get(entry) for entry in range(first, min(at, first + TOLD_AT_ONCE + 1))]
        if None in entries:
            self.differ(number, line, head, "entries %d to %d, which nobody was told" % (first, first + len(entries) - 1))
            return
        self.expect(number, line, head, "history %d %d %d %d" % (at, first, told_at_once(entries), len(body)))

    def compare_looks(self, number, log, place, at):
        """Compares a client's answers up to the first one at a later number."""
        while place < len(log):
            turn = log[place]
            line, head, body = turn[:3]
            words = head.split(" ")
            try:
                named = at_of(words)
            except (ValueError, IndexError):
                named = None
            if named is not None and named > at:
                break
            place += 1
            self.counts["answers"] += 1
            if words[0] == "edit" or named is not None and named < at:
                continue
            if line in drafts.LINES:
                self.look_at_draft(number, turn, at)
            else:
                self.look(number, line, head, body, at)
        return place

    def look_at_draft(self, number, turn, at):
        """A line that is about a draft. One that opens it is followed by the lines in the draft, whatever others do meanwhile."""
        self.counts[turn.line] += 1
        if turn.head in ("no draft", "in draft", "dropped") or turn.head.startswith("moved"):
            self.counts["moved" if turn.head.startswith("moved") else turn.head] += 1
        wanted = {"begin": self.of_begin, "commit": self.of_commit, "drop": self.of_drop}[turn.line](turn, at)
        self.expect(number, turn.line, turn.head, wanted)
        if turn.opened is not None:
            turn.opened.compare(self.now)

    def of_begin(self, turn, at):
        return "begin %d %d" % (at, len(self.now.frames)) if turn.draft is None else "in draft"

    def of_commit(self, turn, at):
        draft = turn.draft
        if draft is None:
            return "no draft"
        if not turn.head.startswith("commit "):
            return "moved %d" % at
        if draft.edits is None:
            return "a draft that began at the number of edits that `begin` named"
        self.counts["commits of %d edits" % len(draft.edits)] += 1
        if self.now != draft.now:
            self.differ(draft.number, turn.line, "the movie at %d edits" % at, "the draft's movie")
        return "commit %d %d" % (draft.at + len(draft.edits), len(draft.now.frames))

    def of_drop(self, turn, _at):
        return "no draft" if turn.draft is None else "dropped"
