#!/usr/bin/env python3
"""A slow model of the table, from which sheets.py knows what a command will do.

    python3 model.py < sheet

prints what the sheet should print: a third opinion where two programs differ.
Every call lists all its causes of refusal; the smallest number answers.
"""

import sys
from collections import Counter

LIMIT = 10**12
MAX_SHEET = 65536
PLACES = 256
SEATS = range(1, 8)
SPACES = range(1, 6)
LAYERS = {n: "table" for n in range(1, 19)}
LAYERS.update({n: "game" for n in (3, 6, 12, 13, 14, 15)})
LAYERS.update({n: "sheet" for n in (19, 20, 21, 22)})

# Operand widths in bytes; a deal is read apart.
WIDTHS = {
    "T": (1, 4, 4, 8, 2, 2, 2, 2, 2, 8),
    "I": (1, 8), "C": (1, 8), "F": (8,), "W": (8,), "B": (1, 1, 4),
    "R": (1,), "L": (1,), "S": (), "V": (),
}
NAMES_SEAT = "ICBRL"


# The sheet: a command is a tuple of its letter and operands, a deal's operand its cards.

def encode(command):
    letter, *operands = command
    if letter == "D":
        cards = bytes(operands[0])
        return b"D" + bytes([len(cards)]) + cards.ljust(40, b"\0")
    pairs = zip(operands, WIDTHS[letter])
    return letter.encode() + b"".join(n.to_bytes(width, "big") for n, width in pairs)


def decode(sheet, place):
    """A command and the place behind it, or the number of a refusal."""
    letter = chr(sheet[place])
    if letter != "D" and letter not in WIDTHS:
        return 20
    widths = (1,) * 41 if letter == "D" else WIDTHS[letter]
    end = place + 1 + sum(widths)
    if end > len(sheet):
        return 19
    operands, at = [], place + 1
    for width in widths:
        operands.append(int.from_bytes(sheet[at:at + width], "big"))
        at += width
    if letter != "D":
        return (letter, *operands), end
    count, cards = operands[0], operands[1:]
    if count > 40 or any(cards[count:]):
        return 21
    return ("D", bytes(cards[:count])), end


# Cards and hands.

def is_card(byte):
    return byte >> 4 in range(2, 15) and byte & 15 in range(4)


def rows(size):
    """Every row of a number of ranks, with its head."""
    found = {frozenset(range(head - size + 1, head + 1)): head for head in range(size + 1, 15)}
    found[frozenset([14, *range(2, size + 1)])] = size
    return found


ROWS = {3: rows(3), 5: rows(5)}
ORDER = {
    3: ["odd", "pair", "flush", "straight", "three", "straight flush"],
    5: ["odd", "pair", "two pairs", "three", "straight", "flush", "full house", "four",
        "straight flush", "royal flush"],
}
SHAPES = {
    (3,): "three", (2, 1): "pair", (4, 1): "four", (3, 2): "full house",
    (3, 1, 1): "three", (2, 2, 1): "two pairs", (2, 1, 1, 1): "pair",
}


def class_of(cards):
    size = len(cards)
    held = Counter(card >> 4 for card in cards)
    shape = tuple(sorted(held.values(), reverse=True))
    if shape in SHAPES:
        return SHAPES[shape]
    head = ROWS[size].get(frozenset(held))
    flush = len({card & 15 for card in cards}) == 1
    if head and flush:
        return "royal flush" if size == 5 and head == 14 else "straight flush"
    return "flush" if flush else "straight" if head else "odd"


def weight(cards):
    """What hands are compared by: class, ranks, suit."""
    size = len(cards)
    kind = class_of(cards)
    held = Counter(card >> 4 for card in cards)
    ranks = sorted(held, key=lambda rank: (held[rank], rank), reverse=True)
    head = ROWS[size].get(frozenset(held))
    if head:
        ranks = [head]
    elif kind in ("three", "four", "full house"):
        ranks = ranks[:1]
    suit = 0
    if size == 5 and kind not in ("three", "four", "full house"):
        suit = max(card & 15 for card in cards if card >> 4 == ranks[0])
    return ORDER[size].index(kind), ranks, suit


# The games. Stakes are a dict from space to amount.

class Poker:
    def lawful(self, staking, cards):
        if not all(map(is_card, cards)) or len(set(cards)) < len(cards):
            return 12
        return 13 if len(cards) != self.size * (len(staking) + 1) else None

    def hands(self, seat, staking, cards):
        size, at = self.size, sorted(staking).index(seat)
        return cards[size * at:size * (at + 1)], cards[-size:]

    def companion(self, space, stakes):
        return True

    def against(self, ante, raised, hand, bank, pay):
        if not self.opens(bank):
            return 2 * ante + raised
        if weight(hand) > weight(bank):
            return 2 * ante + raised + pay
        return ante + raised if weight(hand) == weight(bank) else 0


class Fortune(Poker):
    size, spaces = 3, (1, 3)

    def __init__(self, cap, odds):
        self.good = cap == 0 and all(1 <= n <= 1000 for n in odds)
        self.odds = dict(zip(["straight flush", "three", "straight", "flush", "pair"], odds))

    def opens(self, bank):
        return class_of(bank) != "odd" or max(bank) >> 4 >= 12

    def choice(self, stakes):
        return 1 in stakes

    def may_leave(self, stakes):
        return 3 not in stakes

    def raised(self, stakes):
        return stakes.get(1, 0)

    def returned(self, seat, stakes, choice, staking, cards):
        if choice == "L":
            return 0
        hand, bank = self.hands(seat, staking, cards)
        kind, ante, plus = class_of(hand), stakes.get(1, 0), stakes.get(3, 0)
        back = plus * (1 + self.odds[kind]) if kind != "odd" else 0
        if choice == "R":
            back += self.against(ante, ante, hand, bank, ante)
            back += ante * {"straight flush": 5, "three": 4, "straight": 1}.get(kind, 0)
        return back

    def ceiling(self, stakes):
        return 7 * stakes.get(1, 0) + stakes.get(3, 0) * max(self.odds.values())


class Stud(Poker):
    size, spaces = 5, (1,)
    pays = dict(zip(ORDER[5], (1, 1, 2, 3, 4, 5, 7, 20, 50, 50)))

    def __init__(self, cap, odds):
        self.good = 1 <= cap <= 10**9 and not any(odds)
        self.cap = cap

    def opens(self, bank):
        return class_of(bank) != "odd" or {13, 14} <= {card >> 4 for card in bank}

    def choice(self, stakes):
        return 1 in stakes

    def may_leave(self, stakes):
        return True

    def raised(self, stakes):
        return 2 * stakes.get(1, 0)

    def returned(self, seat, stakes, choice, staking, cards):
        if choice != "R":
            return 0
        hand, bank = self.hands(seat, staking, cards)
        kind, ante = class_of(hand), stakes[1]
        pay = 2 * ante * self.pays[kind]
        if kind in ("four", "straight flush", "royal flush"):
            pay = min(pay, self.cap)
        return self.against(ante, 2 * ante, hand, bank, pay)

    def ceiling(self, stakes):
        ante = stakes.get(1, 0)
        return ante + max(14 * ante, min(100 * ante, self.cap))


class Makccarat:
    spaces = SPACES

    def __init__(self, second, cap, odds):
        self.second = second
        posted, rest = (odds[:2], odds[2:]) if second else ([], odds)
        self.good = cap == 0 and all(1 <= n <= 1000 for n in posted) and not any(rest)
        tie, pair = posted if second else (14, 11)
        self.odds = {1: 1, 2: 1, 3: tie, 4: pair, 5: pair}

    def companion(self, space, stakes):
        return space < 4 or any(main in stakes for main in (1, 2, 3))

    @staticmethod
    def total(cards):
        points = [{14: 1}.get(card >> 4, card >> 4) for card in cards]
        return sum(n for n in points if n < 10) % 10

    def sides(self, cards):
        """The cards of both sides, as far as they are called for, and how many those are."""
        sides = {"p": [cards[0], cards[2]], "b": [cards[1], cards[3]]}
        total = lambda side: self.total(sides[side])
        p, b = total("p"), total("b")
        if max(p, b) >= 8:
            return sides, 4
        if p == b:
            order = "pb"
        else:
            low, high = ("p", "b") if p < b else ("b", "p")
            order = low
            if len(cards) > 4:
                now = self.total(sides[low] + [cards[4]])
                if now > total(high) or now == total(high) and not self.second:
                    order += high
        for side, card in zip(order, cards[4:]):
            sides[side].append(card)
        return sides, 4 + len(order)

    def lawful(self, staking, cards):
        if not all(map(is_card, cards)):
            return 12
        return 13 if len(cards) < 4 or self.sides(cards)[1] != len(cards) else None

    def choice(self, stakes):
        return False

    def may_leave(self, stakes):
        return True

    def raised(self, stakes):
        return 0

    def returned(self, seat, stakes, choice, staking, cards):
        sides, _ = self.sides(cards)
        p, b = self.total(sides["p"]), self.total(sides["b"])
        wins = {1: p > b, 2: b > p, 3: p == b, 4: cards[0] >> 4 == cards[2] >> 4,
                5: cards[1] >> 4 == cards[3] >> 4}
        back = sum(stake * (1 + self.odds[at]) for at, stake in stakes.items() if wins[at])
        return back + (stakes.get(1, 0) + stakes.get(2, 0) if p == b else 0)

    def ceiling(self, stakes):
        return sum(stake * self.odds[at] for at, stake in stakes.items())


def game_of(number, cap, odds):
    return {1: lambda: Fortune(cap, odds), 2: lambda: Stud(cap, odds),
            3: lambda: Makccarat(False, cap, odds),
            4: lambda: Makccarat(True, cap, odds)}[number]()


# The table.

class Refused(Exception):
    def __init__(self, number, seat):
        self.number, self.seat = number, seat


def judge(causes, seat):
    """Refuses with the smallest number whose condition holds."""
    numbers = [number for number, holds in causes if holds]
    if numbers:
        number = min(numbers)
        raise Refused(number, 0 if number == 2 or number > 18 else seat)


class Table:
    def __init__(self, number, minimum, maximum, cap, *rest):
        odds, tray = list(rest[:5]), rest[5]
        known = number in (1, 2, 3, 4)
        self.game = game_of(number, cap, odds) if known else None
        judge([(9, tray > LIMIT), (18, not known or not self.game.good),
               (18, not 1 <= minimum <= maximum <= 10**6)], 0)
        self.minimum, self.maximum, self.tray = minimum, maximum, tray
        self.racks = dict.fromkeys(SEATS, 0)
        self.stakes = {seat: {} for seat in SEATS}
        self.choices, self.cards, self.rounds = {}, None, 0

    def staking(self):
        return [seat for seat in SEATS if self.stakes[seat]]

    def laid(self, seat):
        raised = self.game.raised(self.stakes[seat]) if self.choices.get(seat) == "R" else 0
        return sum(self.stakes[seat].values()) + raised

    def spaces(self):
        return sum(map(self.laid, SEATS))

    def total(self):
        return self.tray + sum(self.racks.values()) + self.spaces()

    def ceilings(self):
        return sum(map(self.game.ceiling, self.stakes.values()))

    def due(self, seat):
        """Whether the seat still has a choice to make."""
        return seat in SEATS and self.game.choice(self.stakes[seat]) and seat not in self.choices

    def perform(self, command):
        """Performs a command and answers the entries it writes, or raises Refused."""
        letter, *operands = command
        return getattr(self, "do_" + letter)(*operands) or []

    def do_T(self, *operands):
        raise Refused(1, 0)

    def do_I(self, seat, amount):
        judge([(2, seat not in SEATS), (4, amount == 0), (9, self.total() + amount > LIMIT)], seat)
        self.racks[seat] += amount

    def do_C(self, seat, amount):
        judge([(2, seat not in SEATS), (4, amount == 0), (7, amount > self.racks.get(seat, 0))],
              seat)
        self.racks[seat] -= amount

    def do_F(self, amount):
        judge([(4, amount == 0), (9, self.total() + amount > LIMIT)], 0)
        self.tray += amount

    def do_W(self, amount):
        judge([(4, amount == 0), (8, self.tray - amount < self.ceilings())], 0)
        self.tray -= amount

    def do_B(self, seat, space, amount):
        old = self.stakes.get(seat, {})
        ceilings = self.ceilings() - self.game.ceiling(old) + self.game.ceiling(
            {**old, space: amount}) if space in self.game.spaces else 0
        judge([(1, self.cards is not None), (2, seat not in SEATS),
               (3, space not in self.game.spaces),
               (4, not self.minimum <= amount <= self.maximum), (5, space in old),
               (6, not self.game.companion(space, old)), (7, amount > self.racks.get(seat, 0)),
               (8, self.tray < ceilings)], seat)
        self.racks[seat] -= amount
        self.stakes[seat][space] = amount

    def do_D(self, cards):
        fault = self.game.lawful(self.staking(), cards)
        judge([(1, self.cards is not None), (10, not self.staking()),
               (11, self.rounds == 10**6), (fault, fault is not None)], 0)
        self.cards = cards
        self.rounds += 1

    def do_R(self, seat):
        due = self.due(seat)
        raised = self.game.raised(self.stakes[seat]) if due else 0
        judge([(1, self.cards is None), (2, seat not in SEATS),
               (7, due and self.racks.get(seat, 0) < raised), (14, not due)], seat)
        self.racks[seat] -= raised
        self.choices[seat] = "R"

    def do_L(self, seat):
        due = self.due(seat)
        judge([(1, self.cards is None), (2, seat not in SEATS), (14, not due),
               (15, due and not self.game.may_leave(self.stakes[seat]))], seat)
        self.choices[seat] = "L"

    def do_S(self):
        judge([(1, self.cards is None)], 0)
        missing = [seat for seat in SEATS if self.due(seat)]
        judge([(16, bool(missing))], missing[0] if missing else 0)
        entries, staking = [], self.staking()
        for seat in staking:
            laid = self.laid(seat)
            back = self.game.returned(seat, self.stakes[seat], self.choices.get(seat), staking,
                                      self.cards)
            self.tray += laid - back
            self.racks[seat] += back
            entries.append((self.rounds, seat, laid, back, back - laid))
        assert self.tray >= 0
        self.clear()
        return entries

    def do_V(self):
        judge([(1, self.cards is None)], 0)
        for seat in SEATS:
            self.racks[seat] += self.laid(seat)
        self.clear()

    def clear(self):
        self.stakes = {seat: {} for seat in SEATS}
        self.choices, self.cards = {}, None


# The program.

def note(place, number, seat):
    return f"X {place} {number} {seat} {LAYERS[number]}"


def printed(sheet):
    """The lines that a sheet prints."""
    if len(sheet) > MAX_SHEET:
        return [note(0, 22, 0)]
    if not sheet:
        return []
    read = decode(sheet, 0)
    if isinstance(read, int):
        return [note(0, read, 0)]
    command, place = read
    if command[0] != "T":
        return [note(0, 1, command[1] if command[0] in NAMES_SEAT else 0)]
    try:
        table = Table(*command[1:])
    except Refused as refused:
        return [note(0, refused.number, refused.seat)]

    lines, entries, notes = [], [], []
    while place < len(sheet):
        if len(entries) > PLACES - 7 or len(notes) == PLACES:
            lines += entries + notes
            entries, notes = [], []
        read = decode(sheet, place)
        if isinstance(read, int):
            notes.append(note(place, read, 0))
            break
        command, behind = read
        try:
            for entry in table.perform(command):
                entries.append("E " + " ".join(map(str, entry)))
        except Refused as refused:
            notes.append(note(place, refused.number, refused.seat))
        place = behind
    racks = sum(table.racks.values())
    return lines + entries + notes + [f"Z {table.tray} {racks} {table.spaces()}"]


if __name__ == "__main__":
    for line in printed(sys.stdin.buffer.read(MAX_SHEET + 1)):
        print(line)
