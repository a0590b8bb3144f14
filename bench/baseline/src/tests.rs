//! Whole sheets, and what they print.

use std::collections::BTreeMap;

use crate::cards::Card;
use crate::hands::{FiveHand, ThreeHand};
use crate::program::settle_sheet;

const MIN: u32 = 10;
const MAX: u32 = 1000;

/// Builds a sheet command by command.
#[derive(Clone, Default)]
struct Sheet(Vec<u8>);

impl Sheet {
    fn open(game: u8, cap: u64, odds: [u16; 5], tray: u64) -> Self {
        Sheet::open_with(game, MIN, MAX, cap, odds, tray)
    }

    fn open_with(game: u8, min: u32, max: u32, cap: u64, odds: [u16; 5], tray: u64) -> Self {
        let mut sheet = Sheet::default();
        sheet.0.extend([b'T', game]);
        sheet.0.extend(min.to_be_bytes());
        sheet.0.extend(max.to_be_bytes());
        sheet.0.extend(cap.to_be_bytes());
        sheet
            .0
            .extend(odds.iter().flat_map(|odds| odds.to_be_bytes()));
        sheet.0.extend(tray.to_be_bytes());
        sheet
    }

    fn fortune() -> Self {
        Sheet::open(1, 0, [40, 30, 6, 4, 1], 1_000_000)
    }

    fn stud() -> Self {
        Sheet::open(2, 3000, [0; 5], 1_000_000)
    }

    fn makccarat(game: u8) -> Self {
        let odds = if game == 3 { [0; 5] } else { [8, 12, 0, 0, 0] };
        Sheet::open(game, 0, odds, 100_000)
    }

    fn seat_amount(mut self, code: u8, seat: u8, amount: u64) -> Self {
        self.0.extend([code, seat]);
        self.0.extend(amount.to_be_bytes());
        self
    }

    fn buy(self, seat: u8, amount: u64) -> Self {
        self.seat_amount(b'I', seat, amount)
    }

    fn cash(self, seat: u8, amount: u64) -> Self {
        self.seat_amount(b'C', seat, amount)
    }

    fn amount(mut self, code: u8, amount: u64) -> Self {
        self.0.push(code);
        self.0.extend(amount.to_be_bytes());
        self
    }

    fn fill(self, amount: u64) -> Self {
        self.amount(b'F', amount)
    }

    fn draw(self, amount: u64) -> Self {
        self.amount(b'W', amount)
    }

    fn bet(mut self, seat: u8, space: u8, amount: u32) -> Self {
        self.0.extend([b'B', seat, space]);
        self.0.extend(amount.to_be_bytes());
        self
    }

    fn deal_bytes(mut self, cards: &[u8]) -> Self {
        self.0.extend([b'D', cards.len() as u8]);
        self.0.extend(cards);
        self.0.extend(vec![0; 40 - cards.len()]);
        self
    }

    /// Cards as words, such as `10h` or `As`.
    fn deal(self, cards: &str) -> Self {
        let cards: Vec<u8> = cards.split_whitespace().map(card).collect();
        self.deal_bytes(&cards)
    }

    fn bytes(mut self, bytes: &[u8]) -> Self {
        self.0.extend(bytes);
        self
    }

    fn raise(self, seat: u8) -> Self {
        self.bytes(&[b'R', seat])
    }

    fn leave(self, seat: u8) -> Self {
        self.bytes(&[b'L', seat])
    }

    fn settle(self) -> Self {
        self.bytes(b"S")
    }

    fn void(self) -> Self {
        self.bytes(b"V")
    }

    fn printed(&self) -> String {
        let mut out = Vec::new();
        settle_sheet(&self.0, &mut out).unwrap();
        String::from_utf8(out).unwrap()
    }

    /// The first words of the notes without their places: number, seat, layer.
    fn notes(&self) -> Vec<String> {
        self.printed()
            .lines()
            .filter(|line| line.starts_with('X'))
            .map(|line| line.split(' ').skip(2).collect::<Vec<_>>().join(" "))
            .collect()
    }

    /// What each entry says was returned.
    fn returns(&self) -> Vec<u64> {
        assert_eq!(self.notes(), Vec::<String>::new());
        self.printed()
            .lines()
            .filter(|line| line.starts_with('E'))
            .map(|line| line.split(' ').nth(4).unwrap().parse().unwrap())
            .collect()
    }
}

fn card(word: &str) -> u8 {
    let (rank, suit) = word.split_at(word.len() - 1);
    let rank = match rank {
        "J" => 11,
        "Q" => 12,
        "K" => 13,
        "A" => 14,
        number => number.parse().unwrap(),
    };
    16 * rank + "dchs".find(suit).unwrap() as u8
}

/// One seat that raises an ante of 100.
fn fortune_return(cards: &str) -> u64 {
    let round = Sheet::fortune().buy(1, 1000).bet(1, 1, 100).deal(cards);
    round.raise(1).settle().returns()[0]
}

fn stud_return(cards: &str) -> u64 {
    let round = Sheet::stud().buy(1, 1000).bet(1, 1, 100).deal(cards);
    round.raise(1).settle().returns()[0]
}

fn pair_plus_return(cards: &str) -> u64 {
    let round = Sheet::fortune().buy(1, 1000).bet(1, 3, 100).deal(cards);
    round.settle().returns()[0]
}

/// One seat with 100 on each of the five spaces.
fn makccarat_return(game: u8, cards: &str) -> u64 {
    let bets = (1..=5).fold(Sheet::makccarat(game).buy(1, 1000), |sheet, space| {
        sheet.bet(1, space, 100)
    });
    bets.deal(cards).settle().returns()[0]
}

#[test]
fn one_round() {
    let sheet = Sheet::makccarat(3)
        .buy(1, 1000)
        .bet(1, 1, 100)
        .bet(1, 1, 100)
        .deal_bytes(&[0x93, 0x50, 0xd2, 0x31])
        .settle();
    assert_eq!(
        sheet.printed(),
        "E 1 1 100 200 100\nX 53 5 1 table\nZ 99900 1100 0\n"
    );
}

#[test]
fn fortune_hands() {
    // A straight against a lower and a higher one: the bonus comes either way.
    assert_eq!(fortune_return("4d 3c 2h 3d 2c Ah"), 500);
    assert_eq!(fortune_return("3d 2c Ah 4d 3c 2h"), 100);
    // Whether the bank opens.
    assert_eq!(fortune_return("Kd 4c 2s Qd 4h 2c"), 400);
    assert_eq!(fortune_return("2d 4c 3h Jd 10c 8h"), 400);
    assert_eq!(fortune_return("5d 4c 2h Jd 10c 8h"), 300);
    assert_eq!(fortune_return("5d 4c 2h 3d 3c 6h"), 0);
    assert_eq!(fortune_return("5d 5c 2h 3d 2c Ah"), 0);
    assert_eq!(fortune_return("3d 3h 3c 5h 6h 7h"), 400);
    assert_eq!(fortune_return("8d 9d 10d 5h 6h 7h"), 900);
    assert_eq!(fortune_return("8d 8h 8s 8c 6h 7h"), 800);
    // Ties: equal sequences, pairs and odd cards.
    assert_eq!(fortune_return("5d 6c 7h 5h 6d 7c"), 300);
    assert_eq!(fortune_return("5d 6d 7d 5h 6h 7h"), 700);
    assert_eq!(fortune_return("9d 9c 2h 9h 9s 2c"), 200);
    assert_eq!(fortune_return("9d 9c 3h 9h 9s 2c"), 400);
    assert_eq!(fortune_return("9d 9c Kh 10h 10s 2c"), 0);
    assert_eq!(fortune_return("Ad 9c 2h As 9s 2c"), 200);
    assert_eq!(fortune_return("Ad 9d 3d As 9s 2s"), 400);
    // No sequence goes round the corner.
    assert_eq!(fortune_return("2d Ac Kh As Qs 10c"), 400);
    assert_eq!(fortune_return("2d Ad Kd As Qs 10s"), 400);
    assert_eq!(fortune_return("Ad Kc Qh Ks Qs Jc"), 500);
}

#[test]
fn pair_plus() {
    assert_eq!(pair_plus_return("2d 3d Ad Ks Kd Kc"), 4100);
    assert_eq!(pair_plus_return("2d 2c 2h Ks Kd Kc"), 3100);
    assert_eq!(pair_plus_return("2d 3c 4h Ks Kd Kc"), 700);
    assert_eq!(pair_plus_return("2d 7d 4d Ks Kd Kc"), 500);
    assert_eq!(pair_plus_return("2d 2c 4d 3s 5d 7c"), 200);
    assert_eq!(pair_plus_return("Ad Kc Jd 3s 5d 7c"), 0);
    let both = Sheet::fortune()
        .buy(2, 1000)
        .bet(2, 1, 100)
        .bet(2, 3, 10)
        .deal("7d 7c 7h Kd 9c 2s")
        .raise(2)
        .settle();
    assert_eq!(both.returns(), [200 + 400 + 200 + 310]);
}

#[test]
fn stud_hands() {
    assert_eq!(stud_return("Kd Kc Kh 5d 5c Ad Ac 2h 3h 4h"), 1800);
    assert_eq!(stud_return("9d 9c 9h 9s 5c Ad Ac 2h 3h 4h"), 3400);
    assert_eq!(stud_return("10h 10c 9d 7d 6d 10s 10d 9h 7h 6h"), 0);
    assert_eq!(stud_return("10s 10d 9d 7d 6d 10h 10c 9h 7h 6h"), 600);
    // Each class against a pair of aces.
    assert_eq!(stud_return("10d Jd Qd Kd 9d As Ac 2h 3h 4h"), 3400);
    assert_eq!(stud_return("10d Jd Qd Kd Ad As Ac 2h 3h 4h"), 3400);
    assert_eq!(stud_return("2d Jd Qd Kd 9d As Ac 2h 3h 4h"), 1400);
    assert_eq!(stud_return("Ah 2d 3c 4d 5d As Ac 2h 3h 4h"), 1200);
    assert_eq!(stud_return("8h 8d 8c 4d 5d As Ac 2h 3h 4h"), 1000);
    assert_eq!(stud_return("8h 8d 7c 7d 5d As Ac 2h 3h 4h"), 800);
    assert_eq!(stud_return("Ah Ad 7c 8d 5d As Ac 2h 3h 4h"), 600);
    assert_eq!(stud_return("Kh Kd Qc Jd 9d As Ac 2h 3h 4h"), 0);
    // Odd cards, and whether the bank opens.
    assert_eq!(stud_return("2h 3d 4c 5d 7d As Qc Jh 10h 9h"), 400);
    assert_eq!(stud_return("Ah Kd 6c 3d 2d As Kc 7h 5h 4h"), 0);
    assert_eq!(stud_return("Ah Kd 7c 5d 4d As Kc 6h 2h 3h"), 600);
    assert_eq!(stud_return("As Kd 7c 5d 4d Ah Kc 7h 5h 4h"), 600);
    assert_eq!(stud_return("2h 2d 4c 5d 7d As Kc 3h 9h 6h"), 600);
    // In 5-4-3-2-A the five decides, by rank and by suit.
    assert_eq!(stud_return("As 2d 3c 4d 5d Ad 2s 3s 4s 5s"), 0);
    assert_eq!(stud_return("As 2d 3c 4d 5d Ad 2s 3s 4s 5c"), 0);
    assert_eq!(stud_return("Ad 2d 3c 4d 5s As 2s 3s 4s 5c"), 1200);
    assert_eq!(stud_return("Ad 2d 3c 4d 5s 6s 2s 3s 4s 5c"), 0);
    // The higher suit within the higher pair.
    assert_eq!(stud_return("Js Jd 4d 4c Ah Jc Jh 4h 4s As"), 800);
    // A row round the corner is none.
    assert_eq!(stud_return("Ad Kd 2c 3d 4s 5s 5d 6s 7s 8c"), 0);
}

#[test]
fn makccarat_rounds() {
    // The banker catches up: the first way goes on, the second ends in a tie.
    let ranks = "4d 2d 3d 3h 2s 9c";
    assert_eq!(makccarat_return(3, ranks), 200);
    assert_eq!(
        makccarat_return(4, &ranks[..ranks.len() - 3]),
        200 + 100 * 9
    );
    let second = Sheet::makccarat(4).buy(1, 1000).bet(1, 1, 100).deal(ranks);
    assert_eq!(second.notes(), ["13 0 game"]);

    for game in [3, 4] {
        let pairs = if game == 3 { 12 } else { 13 };
        // Eight or nine on a side ends it, a tie too.
        assert_eq!(makccarat_return(game, "9d 5d Kd 3h"), 200);
        assert_eq!(
            makccarat_return(game, "4d 5d 4h 3h"),
            100 * pairs + tie(game)
        );
        // Equal totals: each adds one.
        assert_eq!(makccarat_return(game, "2d 3d 3h 2h 4c Ac"), 200);
        // The lower adds one and stays lower.
        assert_eq!(makccarat_return(game, "2d 4d Kh 2h Ac"), 200);
        // The lower becomes higher, and the other adds one.
        assert_eq!(makccarat_return(game, "2d 4d Kh 2h 6c Ah"), 200);
        assert_eq!(makccarat_return(game, "4d 2d 2h Kh 6c 6h"), 200);
    }
}

/// What stakes of 100 on player, banker and tie return at a tie.
fn tie(game: u8) -> u64 {
    200 + 100 * if game == 3 { 15 } else { 9 }
}

#[test]
fn several_seats() {
    let sheet = Sheet::makccarat(3)
        .buy(7, 500)
        .buy(2, 500)
        .bet(7, 1, 100)
        .bet(2, 2, 50)
        .bet(2, 1, 20)
        .deal("9d 5d Kd 3h")
        .settle()
        .bet(7, 2, 30)
        .deal("9d 5d Kd 3h");
    assert_eq!(
        sheet.clone().settle().printed(),
        "E 1 2 70 40 -30\nE 1 7 100 200 100\nE 2 7 30 0 -30\nZ 99960 1040 0\n"
    );
    assert_eq!(
        sheet.void().printed(),
        "E 1 2 70 40 -30\nE 1 7 100 200 100\nZ 99930 1070 0\n"
    );
}

#[test]
fn raises_lie_on_spaces_and_left_seats_lose() {
    let dealt = Sheet::stud()
        .buy(1, 300)
        .buy(3, 300)
        .bet(3, 1, 100)
        .bet(1, 1, 50)
        .deal("2d 3d 4d 5d 7d 2h 3h 4h 5h 7c Ad Kd Qd Jd 9d");
    assert!(dealt.printed().ends_with("Z 1000000 450 150\n"));
    let chosen = dealt.raise(3).leave(1);
    assert!(chosen.printed().ends_with("Z 1000000 250 350\n"));
    assert!(chosen
        .clone()
        .void()
        .printed()
        .ends_with("Z 1000000 600 0\n"));
    assert_eq!(
        chosen.settle().printed(),
        "E 1 1 50 0 -50\nE 1 3 300 0 -300\nZ 1000350 250 0\n"
    );
}

#[test]
fn stage_and_seat() {
    let betting = Sheet::makccarat(3).raise(9).leave(0).settle().void();
    assert_eq!(
        betting.notes(),
        ["1 9 table", "1 0 table", "1 0 table", "1 0 table"]
    );
    let dealt = Sheet::makccarat(3)
        .buy(1, 1000)
        .bet(1, 1, 100)
        .deal("9d 5d Kd 3h")
        .bet(8, 9, 0)
        .deal("")
        .bytes(&Sheet::makccarat(3).0)
        .raise(8)
        .leave(0)
        .raise(1)
        .leave(2);
    assert_eq!(
        dealt.notes(),
        [
            "1 8 table",
            "1 0 table",
            "1 0 table",
            "2 0 table",
            "2 0 table",
            "14 1 game",
            "14 2 game"
        ]
    );
    let seats = Sheet::makccarat(3)
        .buy(0, 0)
        .cash(8, 0)
        .bet(255, 9, 0)
        .buy(7, 0)
        .cash(7, 0)
        .cash(7, 1)
        .fill(0)
        .draw(0);
    assert_eq!(
        seats.notes(),
        [
            "2 0 table",
            "2 0 table",
            "2 0 table",
            "4 7 table",
            "4 7 table",
            "7 7 table",
            "4 0 table",
            "4 0 table"
        ]
    );
}

#[test]
fn bets() {
    let sheet = Sheet::makccarat(3)
        .buy(1, 1500)
        .bet(1, 0, 0)
        .bet(1, 6, 100)
        .bet(1, 4, 0)
        .bet(1, 4, MIN - 1)
        .bet(1, 1, MAX + 1)
        .bet(1, 4, 100)
        .bet(1, 5, 100)
        .bet(1, 1, MAX)
        .bet(1, 1, MIN - 1)
        .bet(1, 1, MAX)
        .bet(1, 2, MAX)
        .bet(1, 4, MIN);
    assert_eq!(
        sheet.notes(),
        [
            "3 1 game",
            "3 1 game",
            "4 1 table",
            "4 1 table",
            "4 1 table",
            "6 1 game",
            "6 1 game",
            "4 1 table",
            "5 1 table",
            "7 1 table"
        ]
    );
    for (game, spaces) in [(Sheet::fortune(), [2, 4, 5]), (Sheet::stud(), [2, 3, 5])] {
        let game = game.buy(1, 1000);
        for space in spaces {
            assert_eq!(game.clone().bet(1, space, 100).notes(), ["3 1 game"]);
        }
    }
}

#[test]
fn tray_and_ceilings() {
    // A tie's 14 times 100 are covered exactly.
    let exact = Sheet::open(3, 0, [0; 5], 1400).buy(1, 5000).buy(2, 5000);
    assert_eq!(exact.clone().bet(1, 3, 100).notes(), Vec::<String>::new());
    assert_eq!(exact.clone().bet(1, 3, 101).notes(), ["8 1 table"]);
    let covered = exact.bet(1, 3, 100);
    assert_eq!(covered.clone().bet(2, 1, 10).notes(), ["8 2 table"]);
    assert_eq!(covered.clone().draw(1).notes(), ["8 0 table"]);
    assert_eq!(covered.clone().draw(u64::MAX).notes(), ["8 0 table"]);
    let filled = covered.fill(1).draw(1);
    assert_eq!(filled.notes(), Vec::<String>::new());
    // They hold on while the table is dealt, and end with the round.
    let dealt = filled.deal("9d 5d Kd 3h");
    assert_eq!(dealt.clone().draw(1).notes(), ["8 0 table"]);
    assert_eq!(dealt.void().draw(1400).notes(), Vec::<String>::new());

    let stud = |cap, tray| {
        Sheet::open(2, cap, [0; 5], tray)
            .buy(1, 5000)
            .bet(1, 1, 100)
    };
    assert_eq!(stud(1, 1500).notes(), Vec::<String>::new());
    assert_eq!(stud(1, 1499).notes(), ["8 1 table"]);
    assert_eq!(stud(2000, 2099).notes(), ["8 1 table"]);
    assert_eq!(stud(2000, 2100).notes(), Vec::<String>::new());
    assert_eq!(stud(1_000_000, 10_099).notes(), ["8 1 table"]);
    assert_eq!(stud(1_000_000, 10_100).notes(), Vec::<String>::new());
    // A seat that left counts until the spaces are empty.
    let left = stud(1, 1500).deal("2d 3d 4d 5d 7d 2h 3h 4h 5h 7c").leave(1);
    assert_eq!(left.clone().draw(1).notes(), ["8 0 table"]);
    assert_eq!(left.settle().draw(1600).notes(), Vec::<String>::new());

    let fortune = |tray| {
        Sheet::open(1, 0, [1, 2, 50, 3, 1], tray)
            .buy(1, 5000)
            .bet(1, 1, 100)
            .bet(1, 3, 10)
    };
    assert_eq!(fortune(1200).notes(), Vec::<String>::new());
    assert_eq!(fortune(1199).notes(), ["8 1 table"]);
}

#[test]
fn limit_of_all_chips() {
    let limit = 1_000_000_000_000;
    let full = Sheet::open(3, 0, [0; 5], limit - 10).buy(1, 10);
    assert_eq!(full.notes(), Vec::<String>::new());
    assert_eq!(
        full.clone().buy(1, 1).fill(1).buy(2, u64::MAX).notes(),
        ["9 1 table", "9 0 table", "9 2 table"]
    );
    assert_eq!(full.bet(1, 1, 10).fill(1).notes(), ["9 0 table"]);
}

#[test]
fn deals() {
    let one = Sheet::stud().buy(1, 1000);
    assert_eq!(one.clone().deal_bytes(&[1; 40]).notes(), ["10 0 table"]);
    let one = one.bet(1, 1, 100);
    let lawful = "2d 3d 4d 5d 7d 2h 3h 4h 5h 7c";
    assert_eq!(one.clone().deal("").notes(), ["13 0 game"]);
    assert_eq!(one.clone().deal(&lawful[3..]).notes(), ["13 0 game"]);
    assert_eq!(one.clone().deal("2d 2d").notes(), ["12 0 game"]);
    assert_eq!(
        one.clone().deal(&format!("{lawful} 2d")).notes(),
        ["12 0 game"]
    );
    for byte in [0, 0x1f, 0x24, 0xe4, 0xf0, 0xff] {
        assert_eq!(one.clone().deal_bytes(&[byte]).notes(), ["12 0 game"]);
    }
    let cards = Sheet::makccarat(3).buy(1, 1000).bet(1, 1, 100);
    assert_eq!(cards.clone().deal("9d 5d Kd").notes(), ["13 0 game"]);
    assert_eq!(cards.clone().deal("9d 5d Kd 3h 2d").notes(), ["13 0 game"]);
    assert_eq!(cards.clone().deal("2d 5d Kd Kh").notes(), ["13 0 game"]);
    assert_eq!(cards.clone().deal("2d 5d Kd Kh 4d").notes(), ["13 0 game"]);
    assert_eq!(
        cards.clone().deal("2d 2d 2d 2d 2d 2d").settle().returns(),
        [100]
    );
    assert_eq!(
        cards.deal_bytes(&[0x93, 0x50, 0xd2, 0x31, 0x10]).notes(),
        ["12 0 game"]
    );
}

#[test]
fn choices() {
    let dealt = Sheet::fortune()
        .buy(2, 150)
        .buy(4, 1000)
        .buy(5, 1000)
        .bet(2, 1, 100)
        .bet(4, 1, 100)
        .bet(4, 3, 100)
        .bet(5, 3, 100)
        .deal("2d 3d 5d 2h 3h 5h 2s 3s 5s 2c 3c 5c");
    let sheet = dealt
        .settle()
        .raise(2)
        .leave(2)
        .settle()
        .leave(4)
        .raise(4)
        .raise(4)
        .leave(4)
        .raise(2)
        .raise(5)
        .leave(5)
        .raise(1);
    assert_eq!(
        sheet.notes(),
        [
            "16 2 table",
            "7 2 table",
            "16 4 table",
            "15 4 game",
            "14 4 game",
            "14 4 game",
            "14 2 game",
            "14 5 game",
            "14 5 game",
            "14 1 game"
        ]
    );
    let settled = sheet.settle().printed();
    assert!(settled.starts_with("E 1 2 100 0 -100\nE 1 4 300 "));
    assert!(settled.contains("\nE 1 5 100 500 400\n"));
}

#[test]
fn conditions() {
    let ok = |sheet: Sheet| assert!(sheet.printed().starts_with('Z'));
    let refused = |sheet: Sheet, line: &str| assert_eq!(sheet.printed(), line);
    let broken = "X 0 18 0 table\n";
    let limit = 1_000_000_000_000;
    ok(Sheet::open_with(3, 1, 1_000_000, 0, [0; 5], limit));
    ok(Sheet::open_with(3, 5, 5, 0, [0; 5], 0));
    ok(Sheet::open(1, 0, [1000, 1, 1, 1, 1], 0));
    ok(Sheet::open(2, 1_000_000_000, [0; 5], 0));
    ok(Sheet::open(4, 0, [1000, 1, 0, 0, 0], 0));
    refused(
        Sheet::open_with(9, 0, 0, 0, [0; 5], limit + 1),
        "X 0 9 0 table\n",
    );
    refused(Sheet::open_with(3, 0, 5, 0, [0; 5], 0), broken);
    refused(Sheet::open_with(3, 6, 5, 0, [0; 5], 0), broken);
    refused(Sheet::open_with(3, 1, 1_000_001, 0, [0; 5], 0), broken);
    refused(Sheet::open(0, 0, [0; 5], 0), broken);
    refused(Sheet::open(5, 0, [0; 5], 0), broken);
    refused(Sheet::open(1, 1, [1; 5], 0), broken);
    refused(Sheet::open(1, 0, [1, 1, 1, 1, 0], 0), broken);
    refused(Sheet::open(1, 0, [1, 1001, 1, 1, 1], 0), broken);
    refused(Sheet::open(2, 0, [0; 5], 0), broken);
    refused(Sheet::open(2, 1_000_000_001, [0; 5], 0), broken);
    refused(Sheet::open(2, 1, [0, 0, 0, 0, 1], 0), broken);
    refused(Sheet::open(3, 1, [0; 5], 0), broken);
    refused(Sheet::open(3, 0, [0, 0, 1, 0, 0], 0), broken);
    refused(Sheet::open(4, 0, [1, 0, 0, 0, 0], 0), broken);
    refused(Sheet::open(4, 0, [1, 1, 0, 1, 0], 0), broken);
    refused(Sheet::open(4, 1, [1, 1, 0, 0, 0], 0), broken);
    refused(Sheet::open(5, 0, [0; 5], 0).buy(1, 0).bytes(b"!"), broken);
}

#[test]
fn first_command() {
    let printed = |sheet: Sheet| sheet.printed();
    let empty = Sheet::default;
    assert_eq!(printed(empty()), "");
    assert_eq!(printed(empty().buy(200, 0)), "X 0 1 200 table\n");
    assert_eq!(printed(empty().settle()), "X 0 1 0 table\n");
    assert_eq!(printed(empty().deal("")), "X 0 1 0 table\n");
    assert_eq!(printed(empty().bytes(b"T")), "X 0 19 0 sheet\n");
    assert_eq!(printed(empty().bytes(b"?")), "X 0 20 0 sheet\n");
    let mut long = empty().deal("").0;
    long[1] = 41;
    assert_eq!(printed(Sheet(long)), "X 0 21 0 sheet\n");
    assert_eq!(printed(Sheet(vec![b'?'; 65_537])), "X 0 22 0 sheet\n");
    assert_eq!(printed(Sheet(vec![b'?'; 65_536])), "X 0 20 0 sheet\n");
}

#[test]
fn unreadable_commands() {
    let open = Sheet::makccarat(3);
    let last = "Z 100000 0 0\n";
    let printed = |rest: &[u8]| open.clone().bytes(rest).printed();
    assert_eq!(printed(b"!SSS"), format!("X 36 20 0 sheet\n{last}"));
    assert_eq!(
        printed(b"SI\x01"),
        format!("X 36 1 0 table\nX 37 19 0 sheet\n{last}")
    );
    // Cut short goes before a count that is too large.
    assert_eq!(printed(b"D\xff"), format!("X 36 19 0 sheet\n{last}"));
    let mut deal = Sheet::default().deal("2d").0;
    deal[41] = 1;
    assert_eq!(printed(&deal), format!("X 36 21 0 sheet\n{last}"));
    deal[1] = 40;
    assert_eq!(printed(&deal), format!("X 36 10 0 table\n{last}"));
    deal[1] = 41;
    deal[41] = 0;
    assert_eq!(printed(&deal), format!("X 36 21 0 sheet\n{last}"));
    assert_eq!(printed(&deal[..41]), format!("X 36 19 0 sheet\n{last}"));
}

#[test]
fn full_rolls() {
    // The 256th note ends a run where more commands follow.
    let refused = Sheet::makccarat(3).bytes(&[b'S'; 256]);
    let one_more = refused
        .clone()
        .buy(1, 1000)
        .bet(1, 1, 100)
        .deal("9d 5d Kd 3h")
        .settle();
    let lines: Vec<String> = one_more.printed().lines().map(String::from).collect();
    assert_eq!(lines.len(), 258);
    assert_eq!(lines[255], "X 291 1 0 table");
    assert_eq!(lines[256], "E 1 1 100 200 100");
    assert_eq!(refused.printed().lines().count(), 257);

    // A run goes on only while seven entries find a place.
    let mut rounds = Sheet::makccarat(3).buy(1, 1000);
    for _ in 0..251 {
        rounds = rounds.bet(1, 1, 10).deal("9d 5d Kd 3h").settle().settle();
    }
    let lines: Vec<char> = rounds
        .printed()
        .lines()
        .map(|line| line.chars().next().unwrap())
        .collect();
    // 250 entries leave six places; the refused Settle behind the 250th is in the next run.
    assert!(lines[..250].iter().all(|&kind| kind == 'E'));
    assert!(lines[250..499].iter().all(|&kind| kind == 'X'));
    assert_eq!(lines[499..], ['E', 'X', 'X', 'Z']);
}

/// How many hands of a pack are of each class, from the lowest class up.
#[test]
fn census() {
    let bytes: Vec<u8> = (2..=14)
        .flat_map(|rank| (0..4).map(move |suit| 16 * rank + suit))
        .collect();
    let pack = Card::all(&bytes).unwrap();
    let (mut threes, mut fives) = (BTreeMap::new(), BTreeMap::new());
    for a in 0..52 {
        for b in 0..a {
            for c in 0..b {
                let hand = [pack[a], pack[b], pack[c]];
                *threes.entry(ThreeHand::from(hand).class).or_insert(0) += 1;
                for d in 0..c {
                    for e in 0..d {
                        let hand = [pack[a], pack[b], pack[c], pack[d], pack[e]];
                        *fives.entry(FiveHand::from(hand).class).or_insert(0) += 1;
                    }
                }
            }
        }
    }
    let threes: Vec<u32> = threes.into_values().collect();
    assert_eq!(threes, [16_440, 3_744, 1_096, 720, 52, 48]);
    let fives: Vec<u32> = fives.into_values().collect();
    assert_eq!(
        fives,
        [1_302_540, 1_098_240, 123_552, 54_912, 10_200, 5_108, 3_744, 624, 36, 4]
    );
}
