// Tests of the reference: its ways of making rows and marks against each other, rows against marks, and its answers against what the documents say.

use crate::lines::{self, Dice, Line, Place};
use crate::reference::{self, Fault, Marks, NEVER, Rows};
use std::fs;
use std::process::exit;

fn fail(text: &str) -> ! {
    println!("THE REFERENCE IS WRONG: {text}");
    exit(1);
}

fn hold(text: &str, good: bool) {
    if !good {
        fail(text);
    }
}

// The line of the example in docs/LINE-FILE.md.
const EXAMPLE: [u8; 40] = [
    0x70, 0x69, 0x74, 0x70, 0x72, 0x65, 0x73, 0x73, 0x01, 0x00, 0x05, 0x00, 0x00, 0x00, 0xFB, 0xFF, 0x00, 0x03, 0x01, 0x00,
    0x00, 0x05, 0x01, 0x00, 0x02, 0x00, 0x02, 0x00, 0x06, 0x00, 0x00, 0x00, 0x00, 0x00, 0x00, 0x01, 0x10, 0x00, 0x00, 0x00,
];

// ---- reading ----

// The example with some bytes replaced.
fn edited(edits: &[(usize, u8)]) -> Vec<u8> {
    let mut file = EXAMPLE.to_vec();
    for &(at, byte) in edits {
        file[at] = byte;
    }
    file
}

fn refused(file: &[u8], number: u32, layer: u32, spot: u64) {
    let answer = reference::check(file).map(|_| ());
    let wanted = Fault { number, layer, spot };
    hold(&format!("{file:?} is answered {answer:?} and not {wanted:?}"), answer == Err(wanted));
}

fn reading() {
    hold("the example is refused", reference::check(&EXAMPLE).is_ok());
    refused(&vec![0; 25_617], 1, 1, 25_616);
    refused(&[], 2, 1, 0);
    refused(&EXAMPLE[25..], 2, 1, 15);
    let trailer_alone = [&EXAMPLE[24..36], &[16, 0, 0, 0]].concat();
    refused(&trailer_alone, 9, 1, 0);
    refused(&EXAMPLE[1..], 11, 3, 2);
    refused(&[b"x".as_slice(), &EXAMPLE].concat(), 11, 3, 2);
    for (edits, number, layer, spot) in [
        (&[(35, 0), (34, 9), (24, 0)][..], 3, 2, 35),
        (&[(35, 2)], 3, 2, 35),
        (&[(34, 3), (24, 0)], 4, 2, 34),
        (&[(24, 0), (26, 0)], 5, 2, 24),
        (&[(24, 1), (25, 1), (26, 0)], 5, 2, 24),
        (&[(26, 1), (31, 9)], 6, 2, 26),
        (&[(26, 1), (27, 16)], 6, 2, 26),
        (&[(28, 0x01), (29, 0x10), (30, 0x27), (32, 1)], 7, 2, 28),
        (&[(32, 1), (36, 0)], 7, 2, 32),
        (&[(34, 1), (33, 1)], 7, 2, 32),
        (&[(34, 2)], 7, 2, 32),
        (&[(34, 2), (32, 0x11), (33, 0x27)], 7, 2, 32),
        (&[(36, 12), (16, 2)], 8, 2, 36),
        (&[(39, 1)], 8, 2, 36),
        (&[(27, 4), (36, 16), (37, 16)], 9, 1, 24),
        (&[(20, 2), (18, 5)], 10, 3, 1),
        (&[(16, 2), (20, 2)], 10, 3, 0),
        (&[(17, 33)], 10, 3, 0),
        (&[(22, 0), (0, 0)], 10, 3, 1),
        (&[(18, 2), (0, 0)], 11, 3, 2),
        (&[(17, 4), (10, 0xFF), (11, 0x7F)], 11, 3, 2),
        (&[(3, 127), (5, 31), (8, 2)], 12, 2, 3),
        (&[(7, 31)], 12, 2, 7),
        (&[(8, 2), (12, 2)], 13, 3, 0),
        (&[(13, 1)], 13, 3, 1),
        (&[(14, 0xEF), (15, 0xD8)], 13, 3, 1),
        (&[(10, 0x11), (11, 0x27)], 13, 3, 0),
        (&[(10, 0x00), (11, 0x80)], 13, 3, 0),
    ] {
        refused(&edited(edits), number, layer, spot);
    }
    for edits in [
        &[(10, 0x10), (11, 0x27), (14, 0xF0), (15, 0xD8)][..],
        &[(28, 0x00), (29, 0x10), (30, 0x27)],
        &[(34, 2), (32, 0x10), (33, 0x27)],
        &[(34, 2), (32, 1)],
        &[(34, 1), (0, 32), (1, 126)],
    ] {
        hold(&format!("{edits:?} is refused"), reference::check(&edited(edits)).is_ok());
    }
}

// ---- the documents ----

fn sheets() {
    let mut marks = vec![0; 8_192];
    let text = reference::sheet_text(&EXAMPLE, &mut marks);
    let wanted = "line 2 places 2 moves lip 6 rounds 1\n0 ours 0 0 0 pit\n1 ours 5 247 0 press\n";
    hold(&format!("the sheet of the example is {text}"), text == wanted);
    let Ok(told) = fs::read_to_string("examples/README.md") else { fail("examples/README.md cannot be read") };
    for name in ["mill", "hall", "decanter"] {
        let Ok(file) = fs::read(format!("examples/{name}.line")) else { fail("an example cannot be read") };
        let text = reference::sheet_text(&file, &mut marks);
        hold(&format!("examples/README.md has no such sheet:\n{text}"), told.contains(&format!("```\n{text}```")));
    }
}

fn place(theirs: bool, moves: &[(u16, i16)]) -> Place {
    Place { theirs, name: Vec::new(), moves: moves.to_vec() }
}

// The worked cases of docs/GAMES.md.
fn worked_cases() {
    let p = vec![place(false, &[(1, 5)]), place(false, &[(0, -5)])];
    let q = vec![place(false, &[(1, -3), (0, 2)]), place(true, &[(0, 4), (0, -2)])];
    let line = |places: &[Place], kind, top, draw| Line { places: places.to_vec(), kind, top, draw }.file();
    for (name, file, wanted) in [
        ("P, lip 6", line(&p, lines::LIP, 6, 0), ([0, 5], 1)),
        ("P, lip 5", line(&p, lines::LIP, 5, 0), ([0, 5], 1)),
        ("P, lip 4", line(&p, lines::LIP, 4, 0), ([NEVER, NEVER], 2)),
        ("P, drawn 6, draw 1", line(&p, lines::DRAWN, 6, 1), ([NEVER, NEVER], 3)),
        ("Q, lip 10", line(&q, lines::LIP, 10, 0), ([0, 2], 1)),
    ] {
        for rows in [Rows::Whole, Rows::Changed, Rows::Tight] {
            let (mut row, mut next) = ([7; 2], [8; 2]);
            let answer = reference::least(&file, rows, &mut row, &mut next, 22);
            hold(&format!("{name} by {rows:?}: {answer:?} {row:?}"), answer == Ok(wanted.1) && row == wanted.0 && next == row);
        }
    }
    let mut rows = [reference::Row::default(); 2];
    let answer = reference::sheet(&line(&q, lines::LIP, 10, 0), &mut [], &mut rows);
    hold("the plan of Q at place 0 is not move 1", answer.is_ok() && rows[0].mv == 1);
    let n = NEVER;
    for (name, file, wanted, rounds) in [
        ("P, closed 6", line(&p, lines::CLOSED, 6, 0), vec![n, n, 1, 1, 1, 1, 1, 1, 1, 1, 1, 1, n, n, 0, 99], 1),
        ("Q, closed 5", line(&q, lines::CLOSED, 5, 0), vec![4, 4, 3, 3, 2, 2, 1, 1, 1, 1, 1, 1, 0, 99], 4),
    ] {
        for how in [Marks::Rounds, Marks::Fills, Marks::Line] {
            let mut marks = vec![99; wanted.len()];
            let answer = reference::mark(&file, how, &mut marks);
            hold(&format!("{name} by {how:?}: {answer:?} {marks:?}"), answer == Ok(rounds) && marks == wanted);
        }
    }
    for (h, litres) in [(144, 0), (145, 1), (1_199, 574), (1_200, 576)] {
        hold("the gauge", reference::dip(h) == litres);
    }
    for litres in 0..=576 {
        let h = reference::height(litres);
        hold("the height", reference::dip(h) >= litres && (h == 0 || reference::dip(h - 1) < litres));
    }
    hold("the height of what the gauge has not", reference::height(577) == NEVER);
    let marked = |top: u32| {
        let places = vec![place(false, &[(0, 0)]); 64];
        reference::mark(&line(&places, lines::LIP, top, 0), Marks::Fills, &mut vec![0; 65_537]).map_err(|fault| (fault.number, fault.spot))
    };
    hold("64 places with top 1,023 and 1,024", marked(1_023) == Ok(0) && marked(1_024) == Err((16, 1_024)));
}

// ---- one way against another ----

fn same_rows(seed: u64, file: &[u8], places: usize, budgets: &[u64]) {
    for &budget in budgets {
        let made = |rows: Rows| {
            let (mut row, mut next) = (vec![1; places], vec![2; places]);
            let answer = reference::least(file, rows, &mut row, &mut next, budget);
            (answer, row, next)
        };
        let whole = made(Rows::Whole);
        for rows in [Rows::Changed, Rows::Tight] {
            hold(&format!("whole rows and {rows:?}, seed {seed}, budget {budget}"), whole == made(rows));
        }
    }
}

// Marks by each way, and on a graded vessel rows against marks: a fill is good from the entry on and not below it, and row j has the lowest fill
// with a mark above j.
fn same_marks(seed: u64, line: &Line, file: &[u8]) {
    let (places, width) = (line.places.len(), line.top as usize + 1);
    let mut all = Vec::new();
    for how in [Marks::Rounds, Marks::Fills, Marks::Line] {
        let mut marks = vec![5; places * width + 2];
        let answer = reference::mark(file, how, &mut marks);
        all.push((answer, marks));
    }
    hold(&format!("three ways to mark, seed {seed}"), all[0] == all[1] && all[0] == all[2] && all[0].0.is_ok());
    let (answer, marks) = &all[0];
    let largest = marks[..places * width].iter().copied().filter(|&mark| mark != NEVER).max().unwrap_or(0);
    hold(&format!("the rounds of marks, seed {seed}"), *answer == Ok(largest));
    if line.kind == lines::CLOSED {
        return;
    }
    let lowest = |place: usize, j: u64| {
        let of = &marks[place * width..(place + 1) * width];
        of.iter().position(|&mark| mark == NEVER || mark as u64 > j).map_or(NEVER, |fill| fill as u32)
    };
    let (mut row, mut next) = (vec![0; places], vec![0; places]);
    for j in [0, 1, 2, 5, u64::MAX] {
        let answer = reference::least(file, Rows::Whole, &mut row, &mut next, j);
        // an accepted row is that of all numbers of moves
        let moves = if answer.is_ok() { u64::MAX } else { j };
        let good = (0..places).all(|place| row[place] == lowest(place, moves) && next[place] == lowest(place, moves.saturating_add(1)));
        hold(&format!("rows against marks, seed {seed}, budget {j}"), good);
    }
}

pub fn run() {
    reading();
    sheets();
    worked_cases();
    let (mut rows, mut marked) = (0, 0);
    for seed in 1..=4_000 {
        let dice = &mut Dice::new(seed);
        let line = lines::small(dice);
        let file = line.file();
        let fills = line.places.len() as u64 * (line.top as u64 + 1);
        hold(&format!("a small line is refused, seed {seed}"), reference::check(&file).is_ok());
        if line.kind != lines::CLOSED {
            same_rows(seed, &file, line.places.len(), &[0, 1, 2, 7, fills]);
            rows += 1;
        }
        if fills <= 4_000 {
            same_marks(seed, &line, &file);
            marked += 1;
        }
    }
    println!("the reference against itself: rows of {rows} lines and marks of {marked} in three ways each, reading and the documents: well\n");
}
