// Makes the worst lines for a look-ahead that we know of, as line files in a folder, and asks `shiftlog` about each: bench/ahead runs it.
use std::io::Write;
use std::path::Path;
use std::process::{Command, Stdio};
use std::time::Instant;

const OURS: u8 = 0;
const THEIRS: u8 = 1;
const TOP: u32 = 2_560_000;

// A place: its owner, and the target and amount of each move.
type Place = (u8, Vec<(u16, i16)>);

// Numbers that look random, the same on every run.
struct Dice(u64);

impl Dice {
    fn below(&mut self, n: u64) -> u64 {
        self.0 = self.0.wrapping_mul(6_364_136_223_846_793_005).wrapping_add(1_442_695_040_888_963_407);
        (self.0 >> 33) % n
    }
}

fn file_of(places: &[Place], kind: u8, top: u32, draw: u16) -> Vec<u8> {
    let mut file = Vec::new();
    for (target, amount) in places.iter().flat_map(|(_, moves)| moves) {
        file.extend(target.to_le_bytes());
        file.extend(amount.to_le_bytes());
    }
    for (owner, moves) in places {
        file.extend([*owner, 0]);
        file.extend((moves.len() as u16).to_le_bytes());
    }
    let moves: usize = places.iter().map(|(_, moves)| moves.len()).sum();
    file.extend((places.len() as u16).to_le_bytes());
    file.extend((moves as u16).to_le_bytes());
    file.extend(top.to_le_bytes());
    file.extend(draw.to_le_bytes());
    file.extend([kind, 1]);
    file.extend((4 * (places.len() + moves) as u32).to_le_bytes());
    file
}

// So many places of one owner, or of both in turn, with moves to places at random and amounts in a range.
fn random(places: u64, owner: Option<u8>, low: i64, high: i64) -> Vec<Place> {
    let mut dice = Dice(7);
    (0..places)
        .map(|p| {
            let moves = (0..4_096 / places)
                .map(|_| (dice.below(places) as u16, (low + dice.below((high - low + 1) as u64) as i64) as i16))
                .collect();
            (owner.unwrap_or((p % 2) as u8), moves)
        })
        .collect()
}

// A place of theirs with moves to 255 places of ours, each with one move back.
fn hub() -> Vec<Place> {
    let mut places: Vec<Place> = vec![(THEIRS, (0..3_841).map(|i| (1 + (i % 255) as u16, -(i as i16))).collect())];
    places.extend((0..255).map(|p| (OURS, vec![(0, -39 * p as i16)])));
    places
}

fn one(owner: u8, amount: impl Fn(i32) -> i32) -> Vec<Place> {
    vec![(owner, (0..4_096).map(|i| (0, amount(i) as i16)).collect())]
}

// The answer of `shiftlog` to one look-ahead, and its milliseconds, the start of the program and the reading of the file included.
fn ask(program: &str, file: &Path, fill: u32) -> (String, u128) {
    let begun = Instant::now();
    let mut child = Command::new(program)
        .arg(file)
        .stdin(Stdio::piped())
        .stdout(Stdio::piped())
        .spawn()
        .expect("the program starts");
    child.stdin.take().expect("its input").write_all(format!("ahead 0 {fill} 6\n").as_bytes()).expect("is written");
    let out = child.wait_with_output().expect("it ends");
    let text = String::from_utf8_lossy(&out.stdout).into_owned();
    let said = text.lines().nth(1).unwrap_or("").rsplit(": ").next().unwrap_or("").to_string();
    (said, begun.elapsed().as_millis())
}

fn main() {
    let words: Vec<String> = std::env::args().collect();
    let (program, folder) = (&words[1], Path::new(&words[2]));
    let lines: Vec<(&str, Vec<Place>, u32, Vec<u32>)> = vec![
        ("1 place of theirs, takes out 1 to 4,096", one(THEIRS, |i| -i - 1), TOP, vec![24_582, 24_576, 24_575]),
        ("1 place of theirs, takes out or pours in up to 10,000", one(THEIRS, |i| -10_000 + i * 20_000 / 4_095), TOP, vec![60_006, 59_000, 20_000]),
        ("1 place of ours, takes out 5,905 to 10,000", one(OURS, |i| -10_000 + i), TOP, vec![35_429, 30_000]),
        ("1 place of ours, pours in 5,905 to 10,000", one(OURS, |i| 10_000 - i), 35_430, vec![0]),
        ("256 places of ours, 16 moves each", random(256, Some(OURS), -10_000, -8_000), TOP, vec![47_999, 55_000]),
        ("256 places of theirs, 16 moves each", random(256, Some(THEIRS), -10_000, 10_000), TOP, vec![55_000, 59_000]),
        ("256 places of both, 16 moves each", random(256, None, -10_000, -8_000), TOP, vec![47_999, 55_000]),
        ("64 places of ours, 64 moves each", random(64, Some(OURS), -10_000, -8_000), TOP, vec![47_999, 50_000]),
        ("16 places of ours, 256 moves each", random(16, Some(OURS), -10_000, -8_000), TOP, vec![47_999, 50_000]),
        ("16 places of both, 256 moves each", random(16, None, -10_000, -8_000), TOP, vec![47_999, 55_000]),
        ("1 hub of theirs, 3,841 moves to 255 places of ours and back", hub(), TOP, vec![41_000, 41_300]),
    ];
    println!("| line | fill | lip | closed | drawn by 1 |\n|---|---|---|---|---|");
    for (name, places, top, fills) in &lines {
        for fill in fills {
            let mut cells = Vec::new();
            for (kind, draw) in [(0, 0), (1, 0), (2, 1)] {
                let file = folder.join("worst.line");
                std::fs::write(&file, file_of(places, kind, *top, draw)).expect("the file is written");
                let (said, ms) = ask(program, &file, *fill);
                cells.push(format!("{ms} ms, {said}"));
            }
            println!("| {name} | {fill} | {} |", cells.join(" | "));
        }
    }
}
