#!/usr/bin/env python3
"""Makes sheets of commands; the same arguments always make the same sheet.

    python3 sheets.py GAME SIZE > sheet     a long evening at game 1 to 4, of SIZE bytes
    python3 sheets.py fuzz SEED > sheet     a short one, with many foolish commands
    python3 sheets.py fuzz SEED COUNT DIR   COUNT of them, from that seed on, as files DIR/SEED.sheet
"""

import random
import sys

from model import LIMIT, MAX_SHEET, SEATS, Refused, Table, encode

PACK = [16 * rank + suit for rank in range(2, 15) for suit in range(4)]
BIG = [10**9, LIMIT - 1, LIMIT, LIMIT + 1, 2**63, 2**64 - 1]
ODD_SEATS = [0, 8, 9, 255]
ODD_SPACES = [0, 6, 255]


class Sheet:
    """A sheet under way, with the table that its commands lead to."""

    def __init__(self, rng, opening):
        self.rng = rng
        self.bytes = bytearray(encode(opening))
        self.opening = opening
        self.number = opening[1]
        self.table = Table(*opening[1:])
        self.refusals, self.entries = 0, 0

    @property
    def game(self):
        return self.table.game

    def put(self, *command):
        """Appends a command; tells whether the table accepts it."""
        self.bytes += encode(command)
        try:
            self.entries += len(self.table.perform(command))
        except Refused:
            self.refusals += 1
            return False
        return True

    def idle_seat(self):
        idle = [seat for seat in SEATS if not self.table.stakes[seat]]
        return self.rng.choice(idle) if idle else None

    # Cards.

    def lawful_cards(self, shaped=False):
        """Cards for the seats that stake now; `shaped` makes good hands frequent."""
        staking = len(self.table.staking())
        if self.number in (3, 4):
            return makccarat_cards(self.rng, self.game)
        if shaped:
            return shaped_hands(self.rng, self.game.size, staking + 1)
        return self.rng.sample(PACK, self.game.size * (staking + 1))

    def unlawful_cards(self):
        rng, cards = self.rng, list(self.lawful_cards())
        fault = rng.randrange(5)
        if fault == 0 and len(cards) > 1:
            cards.pop(rng.randrange(len(cards)))
        elif fault == 1 and len(cards) < 40:
            cards.append(rng.choice([c for c in PACK if c not in cards]))
        elif fault == 2:
            cards[rng.randrange(len(cards))] = rng.choice([0, 0x1F, 0x24, 0xE4, 0xF0, 255])
        elif fault == 3:
            cards[0] = cards[-1]
        else:
            cards = [rng.choice(PACK) for _ in range(rng.randrange(41))]
        return cards

    # Refused commands. Each answers a command for a number, or None where there is none now.

    def refused(self, number):
        rng, table = self.rng, self.table
        seat, dealt = rng.choice(SEATS), table.cards is not None
        low, high = table.minimum, table.maximum
        space = rng.choice(self.game.spaces)
        idle, staking = self.idle_seat(), table.staking()
        chosen = [s for s in SEATS if not table.due(s)]
        if number == 1:
            betting = [("B", seat, space, low), ("D", self.lawful_cards())]
            playing = [("R", seat), ("L", seat), ("S",), ("V",)]
            return rng.choice([self.opening] + (betting if dealt else playing))
        if number == 2:
            odd = rng.choice(ODD_SEATS)
            stage = [("R", odd), ("L", odd)] if dealt else [("B", odd, space, low)]
            return rng.choice([("I", odd, 100), ("C", odd, 100), *stage])
        if number == 3 and not dealt:
            never = [s for s in range(1, 6) if s not in self.game.spaces] + ODD_SPACES
            return ("B", seat, rng.choice(never), low)
        if number == 4:
            stage = [] if dealt else [("B", seat, space, low - 1), ("B", seat, space, high + 1)]
            return rng.choice([("I", seat, 0), ("C", seat, 0), ("F", 0), ("W", 0), *stage])
        if number == 5 and not dealt and staking:
            seat = rng.choice(staking)
            return ("B", seat, rng.choice(list(table.stakes[seat])), low)
        if number == 6 and not dealt and idle and self.number in (3, 4):
            return ("B", idle, rng.choice([4, 5]), low)
        if number == 7:
            return ("C", seat, rng.choice([table.racks[seat] + 1, *BIG[1:]]))
        if number == 8:
            return ("W", rng.choice([table.tray - table.ceilings() + 1, table.tray + 1, *BIG[1:]]))
        if number == 9:
            amount = rng.choice([LIMIT - table.total() + 1, *BIG[2:]])
            return rng.choice([("F", amount), ("I", seat, amount)])
        if number == 10 and not dealt and not staking:
            return ("D", rng.sample(PACK, 4))
        if number == 12 and not dealt and staking:
            cards = list(self.lawful_cards())
            cards[rng.randrange(len(cards))] = rng.choice([0x10, 0x24, 0xF3])
            return ("D", cards)
        if number == 13 and not dealt and staking:
            return ("D", self.lawful_cards()[1:])
        if number == 14 and dealt:
            return (rng.choice("RL"), rng.choice(chosen)) if chosen else None
        if number == 15 and dealt:
            barred = [s for s in SEATS if table.due(s) and not self.game.may_leave(table.stakes[s])]
            return ("L", rng.choice(barred)) if barred else None
        if number == 16 and dealt and any(map(table.due, SEATS)):
            return ("S",)
        return None


def makccarat_cards(rng, game):
    row = [rng.choice(PACK) for _ in range(6)]
    return next(row[:n] for n in (4, 5, 6) if game.lawful([], row[:n]) is None)


def shaped_hands(rng, size, count):
    """Hands of many classes, often alike, while the pack lasts; the rest at random."""
    pack, hands = set(PACK), []
    for left in range(count, 0, -1):
        hand = shaped_hand(rng, size, pack, hands)
        if len(set(hand)) != size or not set(hand) <= pack:
            hand = rng.sample(sorted(pack), size)
        hands.append(hand)
        pack -= set(hand)
    rng.shuffle(hands)
    return [card for hand in hands for card in hand]


def shaped_hand(rng, size, pack, hands):
    """A hand of some class; it may ask for cards that are gone."""
    suit, shape = rng.randrange(4), rng.randrange(8)
    if shape in (0, 7) and hands:
        # The ranks of another hand, of one suit if there are such cards.
        cards = sorted(pack)
        rng.shuffle(cards)
        if shape == 0:
            cards.sort(key=lambda card: card & 15 != suit)
        hand = []
        for like in rng.choice(hands):
            hand += [c for c in cards if c >> 4 == like >> 4 and c not in hand][:1]
        return hand
    if shape in (1, 2):
        # A row, often at either end, of one suit or of several.
        head = rng.choice([14, 14, size, size, size + 1, rng.randrange(size, 15)])
        ranks = [14 if r == 1 else r for r in range(head - size + 1, head + 1)]
        suits = [suit] * size if shape == 1 else [rng.randrange(4) for _ in ranks]
        return [16 * r + s for r, s in zip(ranks, suits)]
    if shape == 3:
        return rng.sample([card for card in PACK if card & 15 == suit], size)
    if shape in (4, 5):
        # Ranks held several times.
        groups = {3: [[3], [2, 1]], 5: [[4, 1], [3, 2], [3, 1, 1], [2, 2, 1], [2, 1, 1, 1]]}[size]
        group = rng.choice(groups)
        ranks = rng.sample(range(2, 15), len(group))
        return [16 * r + s for r, n in zip(ranks, group) for s in rng.sample(range(4), n)]
    # Low odd cards, with which a bank may fail to open.
    top = rng.choice([12, 13, 14, 15])
    return [16 * r + rng.randrange(4) for r in rng.sample(range(2, top), size)]


def opening_of(rng, number, tray, low=10, high=10000):
    cap, odds = 0, [0] * 5
    if number == 1:
        odds = [40, 30, 6, 4, 1]
    if number == 2:
        cap = 500000
    if number == 4:
        odds = [14, 11, 0, 0, 0]
    return ("T", number, low, high, cap, *odds, tray)


# A long evening.

def bench(number, size):
    """The shorter sheet of a game is the beginning of the longer, but for its last commands."""
    rng = random.Random(f"evening {number}")
    sheet = Sheet(rng, opening_of(rng, number, 10**11))
    for seat in SEATS:
        sheet.put("I", seat, 10**9)
    fits = bytes(sheet.bytes)
    while len(sheet.bytes) <= size:
        fits = bytes(sheet.bytes)
        evening_round(sheet)
    return fill_up(fits, size)


def evening_round(sheet):
    rng, table = sheet.rng, sheet.table
    # Before a third of the rounds somebody makes a mistake.
    mistake = rng.randrange(1, 17) if rng.random() < 0.35 else 0

    def blunder(*numbers):
        command = sheet.refused(mistake) if mistake in numbers else None
        if command:
            sheet.put(*command)

    blunder(1, 2, 3, 4, 10)
    for seat in sorted(rng.sample(SEATS, rng.randint(2, 7))):
        for space in evening_spaces(rng, sheet.number):
            sheet.put("B", seat, space, 10 * rng.randint(1, 200))
    blunder(5, 6, 7, 8, 9, 12, 13)
    sheet.put("D", sheet.lawful_cards())
    blunder(15, 16)
    if rng.random() < 0.03:
        sheet.put("V")
        return
    for seat in table.staking():
        if table.due(seat):
            leaves = rng.random() < 0.3 and table.game.may_leave(table.stakes[seat])
            sheet.put("L" if leaves else "R", seat)
    blunder(14)
    sheet.put("S")
    for command in (("I", rng.choice(SEATS), 5000), ("C", rng.choice(SEATS), 2000),
                    ("F", 100000), ("W", 50000)):
        if rng.random() < 0.05:
            sheet.put(*command)


def evening_spaces(rng, number):
    if number == 1:
        return rng.choice([[1], [1], [1, 3], [1, 3], [3]])
    if number == 2:
        return [1]
    return rng.choice([[1], [2], [1], [2], [1, 3], [2, 3], [1, 4], [2, 5], [2, 4, 5], [3, 4]])


def fill_up(sheet, size):
    """Fills the last bytes with commands that fit, the last ones refused."""
    endings = [("I", 1, 100), ("F", 100), ("B", 1, 1, 10), ("R", 1), ("S",)]
    while len(sheet) < size:
        command = next(c for c in endings if len(encode(c)) <= size - len(sheet))
        sheet += encode(command)
    return sheet


# A short one, with many foolish commands.

def fuzz(seed):
    rng = random.Random(f"fuzz {seed}")
    if rng.random() < 0.10:
        return bad_beginning(rng)
    low, high = rng.choice([(10, 1000), (1, 10**6), (5, 5), (100, 50000), (1, 7)])
    number = rng.choice([1, 1, 2, 2, 3, 4])
    kind = rng.random()
    many_refusals, many_entries = kind < 0.04, 0.04 <= kind < 0.12
    opening = fuzz_opening(rng, number, low, high, limit=10**11 if many_entries else LIMIT)
    sheet = Sheet(rng, opening)

    length = rng.randrange(60, 2000)
    refusals = 256 + rng.choice([-1, 0, 1, rng.randrange(400)])
    entries = 249 + rng.choice([-1, 0, 1, rng.randrange(600)])

    def done():
        if many_refusals:
            return sheet.refusals >= refusals
        if many_entries:
            return sheet.entries >= entries
        return len(sheet.bytes) >= length

    folly = 0.9 if many_refusals else 0.08 if many_entries else rng.choice([0.1, 0.3, 0.6])
    rich = many_entries or rng.random() < 0.6
    while not done():
        fuzz_round(sheet, folly, rich, many_entries)
    return fuzz_ending(sheet)


def bad_beginning(rng):
    rest = encode(("I", 1, 1000)) + encode(("S",))
    kind = rng.choice([0, 1, 1, 2, 3, 4, 4, 4, 4, 5])
    if kind == 0:
        return b""
    if kind == 1:
        # A first command that opens nothing.
        seat = rng.choice([*SEATS, *ODD_SEATS])
        first = rng.choice([("I", seat, 10), ("C", seat, 0), ("F", 1), ("W", 0), ("B", seat, 9, 5),
                            ("D", [0x93] * 4), ("R", seat), ("L", seat), ("S",), ("V",)])
        return encode(first) + rest
    if kind == 2:
        return bytes([rng.randrange(256) for _ in range(rng.randrange(1, 60))])
    number = rng.randrange(1, 5)
    opening = list(opening_of(rng, number, 10**6))
    if kind == 3:
        return encode(opening)[:rng.randrange(1, 36)]
    if kind == 4:
        # One field out of bounds.
        field = rng.randrange(1, len(opening))
        opening[field] = rng.choice([0, 1, 5, 1001, 10001, 65535, opening[field] + 1])
        if rng.random() < 0.3:
            opening[4], opening[-1] = rng.choice(BIG), rng.choice(BIG)
        opening[1] %= 256
        return encode(opening) + rest
    deal = bytearray(encode(("D", [0x93, 0x50])))
    deal[1] = rng.choice([1, 2, 40, 41, 255])
    return bytes(deal) + rest


def fuzz_opening(rng, number, low, high, limit):
    """An opening with lawful conditions, often at their bounds."""
    opening = list(opening_of(rng, number, 0, low, high))
    odds = lambda: rng.choice([1, 2, 40, 1000, rng.randint(1, 1000)])
    if number == 1:
        opening[5:10] = [odds() for _ in range(5)]
    if number == 2:
        opening[4] = rng.choice([1, 10**9, 10 * low, 100 * low, rng.randint(1, 40 * high)])
    if number == 4:
        opening[5:7] = [odds(), odds()]
    tray = rng.choice([0, 7 * low, 100 * high, 10**9, 10**11, LIMIT - 1000, LIMIT])
    opening[-1] = min(tray, limit)
    return tuple(opening)


def fuzz_round(sheet, folly, rich, long):
    rng, table = sheet.rng, sheet.table
    low, high = table.minimum, table.maximum

    def fool():
        while rng.random() < folly:
            sheet.put(*foolish(sheet))

    def supply(seat):
        """Chips for a seat and the bank, as far as the limit of all chips allows."""
        if table.total() == LIMIT and table.tray:
            sheet.put("W", min(table.tray, 100 * high))
        room = LIMIT - table.total()
        if table.racks[seat] < 10 * high and room:
            sheet.put("I", seat, min(room, rng.choice([high, 20 * high])))
        room = LIMIT - table.total()
        if rich and table.tray < 10**9 and room:
            sheet.put("F", min(room, 10**10))

    if table.cards is None:
        seats = rng.sample(SEATS, rng.choice([7, 7, 6, 5, 3, 1] if long else [1, 1, 2, 3, 5, 7]))
        for seat in seats:
            if rich or rng.random() < 0.3:
                supply(seat)
            spaces = rng.sample(list(table.game.spaces), rng.randint(1, len(table.game.spaces)))
            for space in sorted(spaces) if rng.random() < 0.7 else spaces:
                fool()
                amount = rng.choice([low, high, rng.randint(low, high)])
                at_brink = table.racks[seat]
                if low <= at_brink <= high and rng.random() < 0.3:
                    amount = at_brink
                sheet.put("B", seat, space, amount)
        edge = table.tray - table.ceilings()
        if edge > 0 and not rich and rng.random() < 0.3:
            sheet.put("W", edge + rng.choice([0, 1]))
        fool()
        if table.staking():
            sheet.put("D", sheet.lawful_cards(shaped=rng.random() < 0.8))
    fool()
    if table.cards is not None:
        due = [seat for seat in table.staking() if table.due(seat)]
        rng.shuffle(due)
        for seat in due:
            if rng.random() < 0.03:
                continue
            if not sheet.put("L" if rng.random() < 0.2 else "R", seat) and rng.random() < 0.8:
                room = LIMIT - table.total()
                if room:
                    sheet.put("I", seat, min(room, 2 * high))
                sheet.put("R", seat)
            fool()
        sheet.put("V" if rng.random() < 0.08 else "S")
    room = LIMIT - table.total()
    if room and rng.random() < 0.2:
        sheet.put(*rng.choice([("F", min(room, 100 * high)), ("I", rng.choice(SEATS), room),
                               ("F", room + rng.choice([0, 1]))]))
    if rng.random() < 0.2:
        seat = rng.choice(SEATS)
        sheet.put("C", seat, max(1, table.racks[seat] - rng.choice([0, 0, -1, 1, low, high])))


def foolish(sheet):
    """A command that is likely to be refused, though not always."""
    rng, table = sheet.rng, sheet.table
    if rng.random() < 0.6:
        command = sheet.refused(rng.randrange(1, 17))
        if command:
            return tuple(command)
    low, high = table.minimum, table.maximum
    seat = rng.choice([*SEATS, *SEATS, *ODD_SEATS])
    space = rng.choice([*range(1, 6), *range(1, 6), *ODD_SPACES])
    stake = rng.choice([0, low - 1, low, high, high + 1, 2**32 - 1])
    amount = rng.choice([0, 1, low, high, *BIG, rng.randrange(10**6), rng.randrange(2**64)])
    return rng.choice([
        ("B", seat, space, stake), ("B", seat, space, stake), ("B", seat, space, stake),
        ("I", seat, amount), ("C", seat, amount), ("F", amount), ("W", amount),
        ("R", seat), ("L", seat), ("R", seat), ("L", seat), ("S",), ("V",), ("S",),
        ("D", sheet.unlawful_cards()), ("D", sheet.unlawful_cards()),
        sheet.opening,
    ])


def fuzz_ending(sheet):
    rng, made = sheet.rng, bytes(sheet.bytes)
    tail = encode(("I", 1, 1000)) + encode(("S",)) + encode(("V",))
    kind = rng.random()
    if kind < 0.12:
        return made[:rng.randrange(36, len(made) + 1)]
    if kind < 0.18:
        return made + bytes([rng.choice([0, 0x41, 0x53 + 32, 255])]) + tail
    if kind < 0.26:
        deal = bytearray(encode(("D", [0x93, 0x50, 0xD2])))
        deal[1] = rng.choice([0, 1, 2, 40, 41, 42, 255])
        if rng.random() < 0.3:
            deal[41] = 1
        return made + bytes(deal) + tail
    if kind < 0.28:
        # The longest sheet, and the first that is too long.
        size = MAX_SHEET + rng.choice([-1, 0, 1, 2, 5000])
        return made + b"S" * (size - len(made))
    return made


def main():
    kind, number, *rest = sys.argv[1:]
    if kind != "fuzz":
        sys.stdout.buffer.write(bench(int(kind), int(number)))
    elif not rest:
        sys.stdout.buffer.write(fuzz(int(number)))
    else:
        count, directory = rest
        for seed in range(int(number), int(number) + int(count)):
            with open(f"{directory}/{seed}.sheet", "wb") as file:
                file.write(fuzz(seed))


if __name__ == "__main__":
    main()
