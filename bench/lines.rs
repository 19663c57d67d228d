// Line files for the bench: big lines whose times are taken, small random lines, and files that are damaged. Each comes from a seed.

pub const LIP: u8 = 0;
pub const CLOSED: u8 = 1;
pub const DRAWN: u8 = 2;

pub const MOST_TOP: u32 = 2_560_000;
const LONGEST_FILE: usize = 25_616;

// Numbers that look random, the same for the same seed.
pub struct Dice(u64);

impl Dice {
    pub fn new(seed: u64) -> Dice {
        Dice(seed.wrapping_mul(0x9E37_79B9_7F4A_7C15) ^ 0x5DEE_CE66_D1CE_4E5B)
    }

    pub fn next(&mut self) -> u64 {
        self.0 = self.0.wrapping_add(0x9E37_79B9_7F4A_7C15);
        let mut z = self.0;
        z = (z ^ (z >> 30)).wrapping_mul(0xBF58_476D_1CE4_E5B9);
        z = (z ^ (z >> 27)).wrapping_mul(0x94D0_49BB_1331_11EB);
        z ^ (z >> 31)
    }

    // A number from 0 on, below n.
    pub fn below(&mut self, n: u64) -> u64 {
        self.next() % n
    }

    // A number from low to high.
    pub fn between(&mut self, low: i64, high: i64) -> i64 {
        low + self.below((high - low + 1) as u64) as i64
    }

    // True once in n times.
    pub fn once_in(&mut self, n: u64) -> bool {
        self.below(n) == 0
    }
}

#[derive(Clone)]
pub struct Place {
    pub theirs: bool,
    pub name: Vec<u8>,
    pub moves: Vec<(u16, i16)>,
}

#[derive(Clone)]
pub struct Line {
    pub places: Vec<Place>,
    pub kind: u8,
    pub top: u32,
    pub draw: u16,
}

impl Line {
    pub fn file(&self) -> Vec<u8> {
        let mut file = Vec::new();
        for place in &self.places {
            file.extend(&place.name);
        }
        for (target, amount) in self.places.iter().flat_map(|place| &place.moves) {
            file.extend(target.to_le_bytes());
            file.extend(amount.to_le_bytes());
        }
        for place in &self.places {
            file.extend([place.theirs as u8, place.name.len() as u8]);
            file.extend((place.moves.len() as u16).to_le_bytes());
        }
        let moves: usize = self.places.iter().map(|place| place.moves.len()).sum();
        file.extend((self.places.len() as u16).to_le_bytes());
        file.extend((moves as u16).to_le_bytes());
        file.extend(self.top.to_le_bytes());
        file.extend(self.draw.to_le_bytes());
        file.extend([self.kind, 1]);
        file.extend((4 * (self.places.len() + moves) as u32).to_le_bytes());
        file
    }
}

// ---- big lines ----

// So many places, of both owners by chance, with so many moves each to places at random; the amounts are from a range for ours and theirs.
fn random(seed: u64, places: u64, moves: u64, ours: (i64, i64), theirs: (i64, i64)) -> Vec<Place> {
    let mut dice = Dice::new(seed);
    (0..places)
        .map(|_| {
            let owner = dice.once_in(2);
            let (low, high) = if owner { theirs } else { ours };
            let moves = (0..moves).map(|_| (dice.below(places) as u16, dice.between(low, high) as i16)).collect();
            Place { theirs: owner, name: Vec::new(), moves }
        })
        .collect()
}

// A ring of 256 places with so many moves each, all to the next place. Every turn loses a litre, at place 0, and gains so much at each place
// as the vessel draws there. Where a place has more moves than one, the others are worse for whoever chooses.
fn ring(moves: i64, draw: i64) -> Vec<Place> {
    (0..256)
        .map(|p| {
            let theirs = p % 2 == 1;
            let best = draw - (p == 0) as i64;
            let amount = |m: i64| if theirs { best + m } else { best - m };
            let moves = (0..moves).map(|m| ((p as u16 + 1) % 256, amount(m) as i16)).collect();
            Place { theirs, name: Vec::new(), moves }
        })
        .collect()
}

// One place with 4,096 moves to itself.
fn one(theirs: bool, amount: impl Fn(i64) -> i64) -> Vec<Place> {
    let moves = (0..4_096).map(|m| (0, amount(m) as i16)).collect();
    vec![Place { theirs, name: Vec::new(), moves }]
}

// A line whose times are taken: for `least` or for `mark`.
pub struct Big {
    pub name: String,
    pub file: Vec<u8>,
    pub marked: bool,
}

fn big(name: &str, places: Vec<Place>, kind: u8, top: u32, draw: u16, marked: bool) -> Big {
    let moves: usize = places.iter().map(|place| place.moves.len()).sum();
    let vessel = match kind {
        LIP => format!("lip {top}"),
        CLOSED => format!("closed {top}"),
        _ => format!("drawn {top} {draw}"),
    };
    let name = format!("{name}, {} {}, {moves} moves, {vessel}", places.len(), if places.len() == 1 { "place" } else { "places" });
    Big { name, file: Line { places, kind, top, draw }.file(), marked }
}

// The lines for `least`.
pub fn big_rows() -> Vec<Big> {
    let lip = |name: &str, places, top| big(name, places, LIP, top, 0, false);
    let drawn = |name: &str, places, top, draw| big(name, places, DRAWN, top, draw, false);
    vec![
        lip("random", random(1, 256, 16, (-10_000, 10_000), (-10_000, 10_000)), MOST_TOP),
        drawn("random", random(2, 256, 16, (-9_000, 10_000), (-9_000, 10_000)), MOST_TOP, 100),
        lip("drifting", random(3, 256, 16, (-400, 0), (-9, 600)), 400_000),
        drawn("drifting", random(4, 256, 16, (-400, 2), (-9, 600)), 400_000, 10),
        lip("leaking", random(5, 256, 16, (-9, -3), (-3, 0)), 100_000),
        drawn("leaking", random(6, 256, 16, (-3, 0), (0, 3)), 100_000, 3),
        lip("ring, a litre a turn", ring(16, 0), 10_000),
        drawn("ring, a litre a turn", ring(16, 1), 10_000, 1),
        lip("ring, a litre a turn", ring(1, 0), 200_000),
        drawn("ring, a litre a turn", ring(1, 1), 200_000, 1),
        lip("random", random(7, 64, 64, (-300, 20), (-20, 300)), 1_023),
        drawn("random", random(8, 64, 64, (-300, 25), (-15, 300)), 1_023, 5),
        lip("drifting", random(9, 64, 64, (-40, -1), (0, 40)), 1_023),
        lip("leaking", random(10, 64, 64, (-9, -1), (-1, 0)), 1_023),
        lip("one place of ours", one(false, |m| -1 - m), 65_535),
        lip("one place of theirs", one(true, |m| m % 97 - 1), 65_535),
        drawn("one place of ours", one(false, |m| -m), 65_535, 1),
    ]
}

// The lines on which `least` makes the most changes that a line file can ask for, with as many moves to look at for each: 256 places, the
// highest top, and a litre lost at a time.
pub fn worst_rows() -> Vec<Big> {
    let lip = |name: &str, places| big(name, places, LIP, MOST_TOP, 0, false);
    vec![
        lip("ring, a litre a turn", ring(16, 0)),
        lip("ring, a litre a turn", ring(1, 0)),
        lip("a litre a move", random(24, 256, 16, (-1, -1), (-1, -1))),
        lip("a litre a move, one place of ours", one(false, |_| -1)),
    ]
}

// The lines for `mark`.
pub fn big_marks() -> Vec<Big> {
    let lip = |name: &str, places, top| big(name, places, LIP, top, 0, true);
    let closed = |name: &str, places, top| big(name, places, CLOSED, top, 0, true);
    let drawn = |name: &str, places, top, draw| big(name, places, DRAWN, top, draw, true);
    vec![
        lip("random", random(11, 256, 16, (-90, 20), (-20, 60)), 255),
        closed("random", random(12, 256, 16, (-60, 60), (-5, 5)), 255),
        drawn("random", random(13, 256, 16, (-80, 30), (-10, 70)), 255, 5),
        lip("drifting", random(14, 256, 16, (-20, 0), (0, 40)), 255),
        closed("drifting", random(15, 256, 16, (-3, 6), (-2, 3)), 255),
        drawn("drifting", random(16, 256, 16, (-17, 3), (3, 43)), 255, 3),
        lip("leaking", random(17, 256, 16, (-9, -3), (-3, 0)), 255),
        closed("leaking", random(18, 256, 16, (-9, -1), (-1, 0)), 255),
        drawn("leaking", random(19, 256, 16, (-3, 0), (0, 3)), 255, 1),
        lip("ring, a litre a turn", ring(16, 0), 255),
        closed("ring, a litre a turn", ring(16, 0), 255),
        drawn("ring, a litre a turn", ring(16, 1), 255, 1),
        lip("random", random(20, 64, 64, (-300, 20), (-20, 300)), 1_023),
        closed("random", random(21, 64, 64, (-200, 200), (-9, 9)), 1_023),
        drawn("random", random(22, 64, 64, (-300, 25), (-15, 300)), 1_023, 5),
        lip("leaking", random(23, 64, 64, (-9, -1), (-1, 0)), 1_023),
        lip("one place of ours", one(false, |m| -1 - m), 65_535),
        closed("one place of ours", one(false, |m| -1 - m), 65_535),
        drawn("one place of ours", one(false, |m| -m), 65_535, 1),
        lip("one place of theirs", one(true, |m| m % 97 - 1), 65_535),
        closed("one place of theirs", one(true, |m| m % 97), 65_535),
        drawn("one place of theirs", one(true, |m| m % 97), 65_535, 1),
    ]
}

// ---- small lines ----

// A line of few places, moves and litres, of any kind, with names. Some have places without a good fill, some amounts at the limits, a few a
// top that is too high to mark.
pub fn small(dice: &mut Dice) -> Line {
    let n = 1 + dice.below(6);
    let span = 1 + dice.below(9) as i64;
    let (bias, kind) = (dice.between(-2, 2), dice.below(3) as u8);
    let extreme = dice.once_in(9);
    let amount = |dice: &mut Dice| match dice.below(8) {
        0 if extreme => -10_000,
        1 if extreme => 10_000,
        _ => (dice.between(-span, span) + bias) as i16,
    };
    let places = (0..n)
        .map(|_| {
            let theirs = dice.once_in(2);
            let name = (0..dice.below(9)).map(|_| dice.between(32, 126) as u8).collect();
            let count = 1 + dice.below(4);
            Place { theirs, name, moves: (0..count).map(|_| (dice.below(n) as u16, amount(dice))).collect() }
        })
        .collect();
    let top = match dice.below(40) {
        0 => dice.between(65_536 / n as i64 - 2, 65_536 / n as i64 + 1) as u32,
        1 => dice.below(MOST_TOP as u64 + 1) as u32,
        2..6 => 0,
        _ => dice.below(4 * span as u64 + 1) as u32,
    };
    let draw = match kind {
        DRAWN if dice.once_in(20) => 10_000,
        DRAWN => 1 + dice.below(3) as u16,
        _ => 0,
    };
    Line { places, kind, top, draw }
}

// ---- files that are damaged ----

// A number that a field may be wrong by.
fn odd(dice: &mut Dice) -> u64 {
    let numbers = [0, 1, 2, 3, 32, 33, 255, 256, 257, 4_095, 4_096, 4_097, 10_000, 10_001, 32_767, 32_768, 65_535, 65_536, 2_560_000, 2_560_001, 4_294_967_295];
    match dice.below(4) {
        0 => dice.next(),
        _ => numbers[dice.below(numbers.len() as u64) as usize],
    }
}

// Puts a number into so many bytes, if they are there.
fn put(file: &mut [u8], at: usize, size: usize, number: u64) {
    if let Some(bytes) = file.get_mut(at..at + size) {
        bytes.copy_from_slice(&number.to_le_bytes()[..size]);
    }
}

// Breaks a file in one place: a bit, a byte, a field of the trailer or of a record, a part taken out or put in.
fn damage(dice: &mut Dice, file: &mut Vec<u8>) {
    let len = file.len();
    let at = dice.below(len as u64 + 1) as usize;
    let trailer = len.saturating_sub(16);
    match dice.below(12) {
        0 if at < len => file[at] ^= 1 << dice.below(8),
        1 if at < len => file[at] = dice.next() as u8,
        2 => file.truncate(at),
        3 => drop(file.drain(..at)),
        4 => file.extend((0..1 + dice.below(20)).map(|_| dice.next() as u8)),
        5 => drop(file.splice(at..at, (0..1 + dice.below(8)).map(|_| dice.between(32, 126) as u8))),
        6 => drop(file.drain(at..(at + 1 + dice.below(8) as usize).min(len))),
        7 | 8 => {
            let (field, size) = [(0, 2), (2, 2), (4, 4), (8, 2), (10, 1), (11, 1), (12, 4)][dice.below(7) as usize];
            let number = odd(dice);
            put(file, trailer + field, size, number);
        }
        // a field of a record, where records of 4 bytes end at the trailer
        9 | 10 => {
            let back = 4 * (1 + dice.below(trailer as u64 / 4 + 1) as usize);
            let (field, size) = [(0, 1), (1, 1), (0, 2), (2, 2)][dice.below(4) as usize];
            let number = odd(dice);
            put(file, trailer.saturating_sub(back) + field, size, number);
        }
        _ => {
            let n = dice.below(40);
            drop(file.splice(..0, (0..n).map(|_| dice.between(30, 128) as u8)));
        }
    }
}

// A trailer that agrees with itself, over records and names of which some are wrong.
fn likely(dice: &mut Dice) -> Vec<u8> {
    let (places, kind) = (1 + dice.below(5), dice.below(3) as u8);
    let moves = places + dice.below(4);
    let mut file: Vec<u8> = (0..dice.below(12)).map(|_| dice.between(31, 127) as u8).collect();
    for _ in 0..moves {
        let targets = places + dice.once_in(9) as u64;
        file.extend((dice.below(targets) as u16).to_le_bytes());
        file.extend((dice.between(-10_001, 10_001) as i16).to_le_bytes());
    }
    for _ in 0..places {
        file.extend([dice.once_in(2) as u8 + dice.once_in(30) as u8, dice.below(4) as u8]);
        file.extend((dice.below(3) as u16).to_le_bytes());
    }
    let draw = if kind == DRAWN { dice.below(10_002) } else { dice.once_in(30) as u64 } as u16;
    file.extend((places as u16).to_le_bytes());
    file.extend((moves as u16).to_le_bytes());
    file.extend((dice.below(MOST_TOP as u64 + 2) as u32).to_le_bytes());
    file.extend(draw.to_le_bytes());
    file.extend([kind, 1]);
    file.extend((4 * (places + moves) as u32).to_le_bytes());
    file
}

// The longest file there is, or nearly: 256 places with long names and 4,096 moves.
fn long(dice: &mut Dice) -> Vec<u8> {
    let mut places = random(dice.next(), 256, 16, (-10_000, 10_000), (-10_000, 10_000));
    for place in &mut places {
        place.name = (0..32).map(|_| dice.between(32, 126) as u8).collect();
    }
    if dice.once_in(2) {
        let short = dice.below(256) as usize;
        places[short].name.pop();
    }
    let file = Line { places, kind: LIP, top: dice.below(MOST_TOP as u64 + 1) as u32, draw: 0 }.file();
    assert!(file.len() <= LONGEST_FILE);
    file
}

// A file that is damaged, or random bytes, or, now and then, one that is whole.
pub fn damaged(dice: &mut Dice) -> Vec<u8> {
    let mut file = match dice.below(20) {
        0 => {
            let len = if dice.once_in(8) { LONGEST_FILE as u64 - 3 + dice.below(8) } else { dice.below(60) };
            return (0..len).map(|_| dice.next() as u8).collect();
        }
        1 if dice.once_in(4) => long(dice),
        2..6 => likely(dice),
        _ => small(dice).file(),
    };
    let times = [0, 1, 1, 1, 1, 2, 3][dice.below(7) as usize];
    for _ in 0..times {
        damage(dice, &mut file);
    }
    file
}
