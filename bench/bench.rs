// The bench: takes the times of the library on big lines beside those of a reference, and compares what both answer, entry by entry.
// bench/run builds and runs it; `bench/run --help` says how.

mod hopper;
mod lines;
mod reference;
mod selftest;

use hopper::{Fault, NEVER, Row, Shift};
use lines::{Big, Dice};
use reference::{Marks, Rows};
use std::fmt::Debug;
use std::process::exit;
use std::time::{Duration, Instant};

const HELP: &str = "words, all of them optional:
  self       tests the reference against itself and against the documents
  times      takes times on the big lines, and compares the answers there
  worst      takes times of least on the slowest lines known, which takes minutes; only where asked for
  compare    compares answers on small lines, damaged files and shift logs
  lines=TEXT only the big lines with this in their name
  seed=N     another seed than 1 for what is compared
  small=N    so many small lines, 5000 otherwise
  damaged=N  so many damaged files, 20000 otherwise
  logs=N     so many shift logs, 3000 otherwise
without self, times, worst or compare the others are done, all three";

// ---- what is compared ----

const CALLS: [&str; 12] = [
    "check", "places", "least", "mark", "sheet", "open", "order", "done", "withdrawn", "arrived", "close", "others on damaged files",
];

// The refusals that each call can give, beside those of reading.
const REFUSALS: [&[usize]; 12] = [
    &[],
    &[],
    &[4, 19, 20],
    &[16, 17],
    &[14, 16, 17],
    &[16, 17, 18, 23, 27],
    &[28, 29, 17, 30, 31],
    &[32, 29, 30, 35, 33],
    &[32],
    &[28, 29, 34, 35, 33],
    &[28],
    &[],
];

// How often each call was compared, by the number of its answer.
struct Tally([[u64; 36]; 12]);

impl Tally {
    // Compares what a call left; the first element of both is its answer. Ends the program where they differ.
    fn same<T: PartialEq + Debug>(&mut self, call: usize, seed: u64, told: &dyn Debug, library: (Fault, T), reference: (Fault, T)) {
        if library != reference {
            let name = CALLS[call];
            println!("DIFFERENT in {name}, seed {seed}");
            println!("  on {}", shortened(told));
            println!("  library   {}", shortened(&library));
            println!("  reference {}", shortened(&reference));
            exit(1);
        }
        self.0[call][library.0.number as usize] += 1;
    }

    fn print(&self) {
        let mut sum = 0;
        for (call, counts) in CALLS.iter().zip(&self.0) {
            let all: u64 = counts.iter().sum();
            if all == 0 {
                continue;
            }
            let refusals: Vec<String> =
                (1..36).filter(|&n| counts[n] > 0).map(|n| format!("{n}: {}", counts[n])).collect();
            println!("  {call}: {all} compared, {} accepted, refused {}", counts[0], refusals.join(", "));
            sum += all;
        }
        println!("  {sum} calls compared, none different");
    }

    // Says which refusals were never met.
    fn print_missing(&self) {
        for (call, name) in CALLS.iter().enumerate() {
            let reading = if matches!(*name, "check" | "others on damaged files") { 1..14 } else { 0..0 };
            let missing: Vec<usize> =
                reading.chain(REFUSALS[call].iter().copied()).filter(|&n| self.0[call][n] == 0).collect();
            if !missing.is_empty() {
                println!("  never met in {name}: {missing:?}");
            }
        }
    }
}

fn shortened(value: &dyn Debug) -> String {
    let text = format!("{value:?}");
    match text.char_indices().nth(1_200) {
        Some((at, _)) => format!("{}...", &text[..at]),
        None => text,
    }
}

fn fault_of<T>(answer: Result<T, reference::Fault>) -> Fault {
    match answer {
        Ok(_) => Fault::default(),
        Err(reference::Fault { number, layer, spot }) => Fault { number, layer, spot },
    }
}

// What stands in a number before a call that may not write it.
const BEFORE: u32 = 0xABCD_1234;
const BEFORE_LONG: u64 = 0xABCD_1234_5678_9ABC;
const ROW_BEFORE: Row = Row { place: 11, owner: 22, fill: 33, height: 44, mv: 55 };

fn noise(dice: &mut Dice, len: usize) -> Vec<u32> {
    let first = dice.next() as u32;
    (0..len as u32).map(|i| first.wrapping_add(i.wrapping_mul(0x9E37_79B9))).collect()
}

fn same_check(tally: &mut Tally, seed: u64, file: &[u8]) {
    let library = unsafe { hopper::hopper_check(file.as_ptr(), file.len()) };
    tally.same(0, seed, &file, (library, ()), (fault_of(reference::check(file)), ()));
}

fn same_places(tally: &mut Tally, call: usize, seed: u64, file: &[u8]) {
    let (mut places, mut needed) = (BEFORE, BEFORE_LONG);
    let library = unsafe { hopper::hopper_places(file.as_ptr(), file.len(), &mut places, &mut needed) };
    let answer = reference::Line::read(file);
    let wanted = answer.as_ref().map_or((BEFORE, BEFORE_LONG), |line| (line.numbers.places as u32, line.fills() + 1));
    tally.same(call, seed, &file, (library, (places, needed)), (fault_of(answer), wanted));
}

fn same_least(tally: &mut Tally, call: usize, seed: u64, file: &[u8], buffers: (Vec<u32>, Vec<u32>), budget: u64, rows: Rows) {
    let (mut row, mut next) = buffers.clone();
    let mut rounds = BEFORE_LONG;
    let library = unsafe {
        let (row, next) = (row.as_mut_slice(), next.as_mut_slice());
        hopper::hopper_least(file.as_ptr(), file.len(), row.as_mut_ptr(), row.len(), next.as_mut_ptr(), next.len(), budget, &mut rounds)
    };
    let told = (file, budget, buffers.0.len(), buffers.1.len());
    let (mut wanted_row, mut wanted_next) = buffers.clone();
    let answer = reference::least(file, rows, &mut wanted_row, &mut wanted_next, budget);
    let wanted = (answer.unwrap_or(BEFORE_LONG), wanted_row, wanted_next);
    tally.same(call, seed, &told, (library, (rounds, row, next)), (fault_of(answer), wanted));
}

fn same_mark(tally: &mut Tally, call: usize, seed: u64, file: &[u8], before: Vec<u32>) {
    let (mut marks, mut rounds) = (before.clone(), BEFORE);
    let library = unsafe { hopper::hopper_mark(file.as_ptr(), file.len(), marks.as_mut_ptr(), marks.len(), &mut rounds) };
    let told = (file, before.len());
    let mut wanted = before;
    let answer = reference::mark(file, Marks::Fills, &mut wanted);
    tally.same(call, seed, &told, (library, (rounds, marks)), (fault_of(answer), (answer.unwrap_or(BEFORE), wanted)));
}

fn same_sheet(tally: &mut Tally, call: usize, seed: u64, file: &[u8], before: Vec<u32>, row_count: usize) {
    let (mut marks, mut rounds, mut rows) = (before.clone(), BEFORE_LONG, vec![ROW_BEFORE; row_count]);
    let library = unsafe {
        hopper::hopper_sheet(file.as_ptr(), file.len(), marks.as_mut_ptr(), marks.len(), rows.as_mut_ptr(), rows.len(), &mut rounds)
    };
    let told = (file, before.len(), row_count);
    let mut wanted = before;
    let mut made = vec![reference::Row::default(); row_count];
    let answer = reference::sheet(file, &mut wanted, &mut made);
    let mut wanted_rows = vec![ROW_BEFORE; row_count];
    if let (Ok(_), Ok(line)) = (answer, reference::Line::read(file)) {
        for (wanted, row) in wanted_rows.iter_mut().zip(&made).take(line.numbers.places) {
            *wanted = Row { place: row.place, owner: row.theirs as u32, fill: row.fill, height: row.height, mv: row.mv };
        }
    }
    let reference = (fault_of(answer), (answer.unwrap_or(BEFORE_LONG), wanted, wanted_rows));
    tally.same(call, seed, &told, (library, (rounds, marks, rows)), reference);
}

// ---- small lines ----

// Mostly what is needed or a few more, else a few fewer, or none.
fn about(dice: &mut Dice, needed: u64) -> usize {
    let len = match dice.below(12) {
        0 => needed.saturating_sub(1 + dice.below(3)),
        1 => 0,
        2..6 => needed + dice.below(5),
        _ => needed,
    };
    len.min(70_000) as usize
}

fn compare_small(tally: &mut Tally, seed: u64) {
    let dice = &mut Dice::new(seed);
    let line = lines::small(dice);
    let file = line.file();
    let fills = line.places.len() as u64 * (line.top as u64 + 1);
    let places = line.places.len() as u64;
    same_check(tally, seed, &file);
    same_places(tally, 1, seed, &file);
    for budget in [0, 1, 2, dice.below(20), fills, u64::MAX] {
        let (row, next) = (about(dice, places), about(dice, places));
        let buffers = (noise(dice, row), noise(dice, next));
        let rows = if dice.once_in(2) { Rows::Whole } else { Rows::Changed };
        same_least(tally, 2, seed, &file, buffers, budget, rows);
    }
    let buffer = about(dice, fills + 1);
    let marks = noise(dice, buffer);
    same_mark(tally, 3, seed, &file, marks);
    let (buffer, rows) = (about(dice, fills + 1), about(dice, places));
    let marks = noise(dice, buffer);
    same_sheet(tally, 4, seed, &file, marks, rows);
}

// ---- damaged files ----

fn compare_damaged(tally: &mut Tally, seed: u64) {
    let dice = &mut Dice::new(seed);
    let file = lines::damaged(dice);
    same_check(tally, seed, &file);
    // the other calls read too, and pass a refusal on; lines that are accepted are compared as small lines are
    if reference::check(&file).is_err() && dice.once_in(5) {
        let call = 11;
        let (marks, row, next) = (noise(dice, 50), noise(dice, 6), noise(dice, 6));
        same_places(tally, call, seed, &file);
        same_least(tally, call, seed, &file, (row, next), 9, Rows::Changed);
        same_mark(tally, call, seed, &file, marks.clone());
        same_sheet(tally, call, seed, &file, marks, 6);
    }
}

// ---- shifts ----

// A shift of C as one of the reference.
fn shift_of(shift: &Shift) -> reference::Shift {
    let Shift { number, place, level, ordered, mv } = *shift;
    reference::Shift { number, place, level, order: (ordered != 0).then_some(mv) }
}

// What a call leaves of the shift of C: all as it was where it refuses.
fn left<T>(before: Shift, after: reference::Shift, answer: &Result<T, reference::Fault>) -> Shift {
    let reference::Shift { number, place, level, order } = after;
    match answer {
        Ok(_) => Shift { number, place, level, ordered: order.is_some() as u32, mv: order.unwrap_or(0) },
        Err(_) => before,
    }
}

// What a list of calls is made on.
struct Log {
    line: lines::Line,
    file: Vec<u8>,
    marks: Vec<u32>,
    other: Vec<u8>,
    shift: Shift,
    // The number of the last answer of a call that a file is shown to.
    answered: u32,
}

impl Log {
    fn new(dice: &mut Dice) -> Log {
        let line = lines::small(dice);
        let file = line.file();
        let fills = line.places.len() as u64 * (line.top as u64 + 1);
        let extra = if dice.once_in(4) { dice.below(9) } else { 0 };
        let mut marks = noise(dice, (fills + 1 + extra).min(65_546) as usize);
        // where there are too many fills, the marks stay noise
        let _ = reference::mark(&file, Marks::Line, &mut marks);
        if dice.once_in(4) {
            let share = 1 + dice.below(6);
            for entry in marks.iter_mut().take(200) {
                if dice.once_in(share) {
                    *entry = if dice.once_in(2) { NEVER } else { dice.below(9) as u32 };
                }
            }
        }
        if dice.once_in(12) {
            marks.truncate(marks.len() - 1 - dice.below(marks.len() as u64) as usize);
        }
        let other = if dice.once_in(6) { lines::damaged(dice) } else { lines::small(dice).file() };
        Log { line, file, marks, other, shift: Shift::default(), answered: 0 }
    }

    // Mostly the file of the log, at times another.
    fn shown(&self, dice: &mut Dice) -> &[u8] {
        if dice.once_in(25) { &self.other } else { &self.file }
    }

    // A place and a fill to open at: mostly a good one, if one is found.
    fn start(&self, dice: &mut Dice) -> (u32, u32) {
        let width = self.line.top as u64 + 1;
        let n = self.line.places.len() as u64;
        for _ in 0..20 {
            let at = dice.below(n * width);
            if dice.once_in(12) {
                return (dice.below(n + 2) as u32, dice.below(width + 3) as u32);
            }
            if self.marks.get(at as usize) == Some(&NEVER) {
                return ((at / width) as u32, (at % width) as u32);
            }
        }
        (dice.below(n + 1) as u32, dice.below(width + 1) as u32)
    }

    // The numbers of the open order, or one of them another.
    fn order(&self, dice: &mut Dice) -> (u32, u32, u32) {
        let Shift { number, place, mv, .. } = self.shift;
        match dice.below(12) {
            0 => (number.wrapping_add(1 + dice.below(2) as u32), place, mv),
            1 => (number, place.wrapping_add(1), mv),
            2 => (number, place, mv.wrapping_add(1)),
            3 if dice.once_in(4) => (dice.next() as u32, dice.next() as u32, dice.next() as u32),
            _ => (number, place, mv),
        }
    }

    fn moves_here(&self) -> (bool, u64) {
        self.line.places.get(self.shift.place as usize).map_or((false, 1), |place| (place.theirs, place.moves.len() as u64))
    }

    // The number of the next call: mostly one that fits where the shift stands.
    fn next_call(&self, dice: &mut Dice) -> usize {
        // where the shift cannot go on, another is opened, sooner or later
        let stuck = matches!(self.answered, 16..=18 | 23 | 27 | 29 | 31 | 33);
        if stuck && self.shift.ordered == 0 && dice.once_in(2) {
            return 5;
        }
        if dice.once_in(5) {
            return 5 + dice.below(6) as usize;
        }
        if self.shift.ordered != 0 {
            return if dice.once_in(4) { 8 } else { 7 };
        }
        if self.moves_here().0 { 9 } else { 6 }
    }

    // A caller keeps the numbers of a shift, and may write what it likes in them.
    fn tamper(&mut self, dice: &mut Dice) {
        let number = if dice.once_in(3) { dice.next() as u32 } else { dice.below(7) as u32 };
        match dice.below(5) {
            0 => self.shift.number = number,
            1 => self.shift.place = number,
            2 => self.shift.level = number,
            3 => self.shift.ordered = number,
            _ => self.shift.mv = number,
        }
    }

    fn compare_open(&mut self, dice: &mut Dice, tally: &mut Tally, seed: u64) {
        let (number, (place, fill)) = (dice.next() as u32, self.start(dice));
        let (file, before) = (self.shown(dice), self.shift);
        let mut shift = before;
        let library = unsafe {
            hopper::hopper_open(file.as_ptr(), file.len(), self.marks.as_ptr(), self.marks.len(), number, place, fill, &mut shift)
        };
        let answer = reference::open(file, &self.marks, number, place, fill);
        let wanted = answer.map_or(before, |opened| left(before, opened, &answer));
        let told = (file, &self.marks, number, place, fill);
        tally.same(5, seed, &told, (library, shift), (fault_of(answer), wanted));
        (self.shift, self.answered) = (shift, library.number);
    }

    fn compare_order(&mut self, dice: &mut Dice, tally: &mut Tally, seed: u64) {
        let (file, before) = (self.shown(dice), self.shift);
        let (mut shift, mut mv) = (before, BEFORE);
        let marks = &self.marks[..if dice.once_in(30) { self.marks.len() / 2 } else { self.marks.len() }];
        let library =
            unsafe { hopper::hopper_order(file.as_ptr(), file.len(), marks.as_ptr(), marks.len(), &mut shift, &mut mv) };
        let mut after = shift_of(&before);
        let answer = after.order(file, marks);
        let wanted = (answer.unwrap_or(BEFORE), left(before, after, &answer));
        tally.same(6, seed, &(file, marks, before), (library, (mv, shift)), (fault_of(answer), wanted));
        (self.shift, self.answered) = (shift, library.number);
    }

    fn compare_done(&mut self, dice: &mut Dice, tally: &mut Tally, seed: u64) {
        let (number, place, mv) = self.order(dice);
        let (file, before) = (self.shown(dice), self.shift);
        let mut shift = before;
        let library = unsafe { hopper::hopper_done(file.as_ptr(), file.len(), &mut shift, number, place, mv) };
        let mut after = shift_of(&before);
        let answer = after.done(file, number, place, mv);
        let told = (file, before, number, place, mv);
        tally.same(7, seed, &told, (library, shift), (fault_of(answer), left(before, after, &answer)));
        (self.shift, self.answered) = (shift, library.number);
    }

    fn compare_withdrawn(&mut self, dice: &mut Dice, tally: &mut Tally, seed: u64) {
        let (number, place, mv) = self.order(dice);
        let (mut shift, before) = (self.shift, self.shift);
        let library = unsafe { hopper::hopper_withdrawn(&mut shift, number, place, mv) };
        let mut after = shift_of(&before);
        let answer = after.withdrawn(number, place, mv);
        let told = (before, number, place, mv);
        tally.same(8, seed, &told, (library, shift), (fault_of(answer), left(before, after, &answer)));
        self.shift = shift;
    }

    fn compare_arrived(&mut self, dice: &mut Dice, tally: &mut Tally, seed: u64) {
        let count = self.moves_here().1;
        let mv = if dice.once_in(10) { count as u32 + dice.below(3) as u32 } else { dice.below(count) as u32 };
        let (file, before) = (self.shown(dice), self.shift);
        let mut shift = before;
        let library = unsafe { hopper::hopper_arrived(file.as_ptr(), file.len(), &mut shift, mv) };
        let mut after = shift_of(&before);
        let answer = after.arrived(file, mv);
        tally.same(9, seed, &(file, before, mv), (library, shift), (fault_of(answer), left(before, after, &answer)));
        (self.shift, self.answered) = (shift, library.number);
    }

    fn compare_close(&mut self, tally: &mut Tally, seed: u64) {
        let (shift, mut place, mut level) = (self.shift, BEFORE, BEFORE);
        let library = unsafe { hopper::hopper_close(&shift, &mut place, &mut level) };
        let answer = shift_of(&self.shift).close();
        let wanted = (answer.unwrap_or((BEFORE, BEFORE)), self.shift);
        tally.same(10, seed, &self.shift, (library, ((place, level), shift)), (fault_of(answer), wanted));
    }
}

fn compare_log(tally: &mut Tally, seed: u64) {
    let dice = &mut Dice::new(seed);
    let mut log = Log::new(dice);
    log.compare_open(dice, tally, seed);
    for _ in 0..40 {
        if dice.once_in(15) {
            log.tamper(dice);
        }
        match log.next_call(dice) {
            5 => log.compare_open(dice, tally, seed),
            6 => log.compare_order(dice, tally, seed),
            7 => log.compare_done(dice, tally, seed),
            8 => log.compare_withdrawn(dice, tally, seed),
            9 => log.compare_arrived(dice, tally, seed),
            _ => log.compare_close(tally, seed),
        }
    }
}

// ---- times ----

// The milliseconds of the fastest of several runs: three or more, up to a third of a second in all; of a long one two, and of a very long one that one.
fn fastest(mut call: impl FnMut()) -> f64 {
    let (mut least, mut all, mut runs) = (Duration::MAX, Duration::ZERO, 0);
    while runs < 1 || (runs < 2 && all < Duration::from_secs(10)) || (runs < 3 && all < Duration::from_secs(4)) || (runs < 200 && all < Duration::from_millis(330)) {
        let begun = Instant::now();
        call();
        let taken = begun.elapsed();
        least = least.min(taken);
        all += taken;
        runs += 1;
    }
    least.as_secs_f64() * 1_000.0
}

fn milliseconds(time: Option<f64>) -> String {
    time.map_or("-".to_string(), |ms| if ms < 10.0 { format!("{ms:.3}") } else { format!("{ms:.1}") })
}

// Ends the program where what the library left differs from what the reference left.
fn same_big<T: PartialEq + Debug>(name: &str, library: T, reference: T) {
    if library != reference {
        println!("DIFFERENT on the big line: {name}");
        println!("  library   {}", shortened(&library));
        println!("  reference {}", shortened(&reference));
        exit(1);
    }
}

// Moves that all whole rows together look at, above which they are not made.
const MOST_LOOKS: u64 = 1_000_000_000;

// Takes the times of `least` on a line; answers the ratio.
fn times_of_least(line: &Big) -> f64 {
    let file = &line.file;
    let Ok(numbers) = reference::check(file) else { panic!("the file of a big line is refused: {}", line.name) };
    let n = numbers.places;
    let budget = n as u64 * (numbers.top as u64 + 1);
    let before = (vec![BEFORE; n + 3], vec![BEFORE; n + 3]);
    let run = |rows: Rows| {
        let (mut row, mut next) = before.clone();
        let mut answer = Ok(0);
        let time = fastest(|| answer = reference::least(file, rows, &mut row, &mut next, budget));
        (time, (answer.map_err(|fault| fault.number), row, next))
    };
    let (changed, wanted) = run(Rows::Changed);
    let rounds = wanted.0.unwrap_or(0);
    let by = |rows_by: Rows| {
        (rounds * (numbers.moves as u64) < MOST_LOOKS).then(|| {
            let (time, left) = run(rows_by);
            same_big("one way of the reference and another", left, wanted.clone());
            time
        })
    };
    let (whole, tight) = (by(Rows::Whole), by(Rows::Tight));
    let (mut row, mut next) = before.clone();
    let mut answer = Ok(0);
    let library = fastest(|| answer = hopper::least(file, &mut row, &mut next, budget));
    same_big(&line.name, (answer.map_err(|fault| fault.number), row, next), wanted);
    let better = whole.map_or(changed, |whole| whole.min(changed));
    let ratio = library / better;
    println!(
        "| {} | {rounds} | {} | {} | {} | {ratio:.2} | {} |",
        line.name,
        milliseconds(Some(library)),
        milliseconds(whole),
        milliseconds(Some(changed)),
        milliseconds(tight)
    );
    ratio
}

// Takes the times of `mark` on a line; answers the ratio.
fn times_of_mark(line: &Big) -> f64 {
    let file = &line.file;
    let Ok(read) = reference::Line::read(file) else { panic!("the file of a big line is refused: {}", line.name) };
    let before = vec![BEFORE; read.fills() as usize + 4];
    let run = |how: Marks| {
        let mut marks = before.clone();
        let mut answer = Ok(0);
        let time = fastest(|| answer = reference::mark(file, how, &mut marks));
        (time, (answer.map_err(|fault| fault.number), marks))
    };
    let (by_fills, wanted) = run(Marks::Fills);
    let (by_line, left) = run(Marks::Line);
    same_big("both worklists", left, wanted.clone());
    let rounds = wanted.0.unwrap_or(0);
    let mut marks = before.clone();
    let mut answer = Ok(0);
    let library = fastest(|| answer = hopper::mark(file, &mut marks));
    same_big(&line.name, (answer.map_err(|fault| fault.number), marks), wanted);
    let ratio = library / by_fills;
    println!(
        "| {} | {rounds} | {} | {} | {ratio:.2} | {} |",
        line.name,
        milliseconds(Some(library)),
        milliseconds(Some(by_fills)),
        milliseconds(Some(by_line))
    );
    ratio
}

// Compares the other calls that are made on a big line.
fn compare_big(tally: &mut Tally, line: &Big) {
    let Ok(numbers) = reference::check(&line.file) else { return };
    same_check(tally, 0, &line.file);
    same_places(tally, 1, 0, &line.file);
    let fills = numbers.places as u64 * (numbers.top as u64 + 1);
    let marks = if line.marked { vec![BEFORE; fills as usize + 4] } else { Vec::new() };
    same_sheet(tally, 4, 0, &line.file, marks, numbers.places + 2);
    if !line.marked {
        for budget in [0, 1, 100] {
            let buffers = (vec![BEFORE; numbers.places + 2], vec![BEFORE; numbers.places]);
            same_least(tally, 2, 0, &line.file, buffers, budget, Rows::Whole);
        }
    }
}

// Takes the times of `least` on the lines.
fn rows_table(lines: &[Big]) {
    println!("least: the ratio is the library's time to the better of whole rows and changed rows\n");
    println!("| line | rounds | library | whole rows | changed rows | ratio | for comparison: whole rows in arrays of 256 |\n|---|---|---|---|---|---|---|");
    let worst = lines.iter().map(times_of_least).fold(0.0, f64::max);
    println!("\nworst ratio of least: {worst:.2}\n");
}

fn times(tally: &mut Tally, wanted: &str) {
    let least: Vec<Big> = lines::big_rows().into_iter().filter(|line| line.name.contains(wanted)).collect();
    let mark: Vec<Big> = lines::big_marks().into_iter().filter(|line| line.name.contains(wanted)).collect();
    println!("Times are in milliseconds, reading of the file included; each is the fastest of several runs.\n");
    rows_table(&least);
    println!("mark: the ratio is the library's time to the worklist with a list of the fills that lead to each fill\n");
    println!("| line | rounds | library | worklist | ratio | for comparison: a worklist with lists of the line's moves only |\n|---|---|---|---|---|---|");
    let worst = mark.iter().map(times_of_mark).fold(0.0, f64::max);
    println!("\nworst ratio of mark: {worst:.2}\n");
    for line in least.iter().chain(&mark) {
        compare_big(tally, line);
    }
    println!("big lines: {} rows and {} marks compared entry by entry, none different\n", least.len(), mark.len());
}

// ---- all of it ----

struct Wanted {
    selftest: bool,
    times: bool,
    worst: bool,
    compare: bool,
    lines: String,
    seed: u64,
    small: u64,
    damaged: u64,
    logs: u64,
}

impl Wanted {
    fn of(words: impl Iterator<Item = String>) -> Option<Wanted> {
        let mut wanted = Wanted {
            selftest: false,
            times: false,
            worst: false,
            compare: false,
            lines: String::new(),
            seed: 1,
            small: 5_000,
            damaged: 20_000,
            logs: 3_000,
        };
        for word in words {
            match word.split_once('=') {
                None if word == "self" => wanted.selftest = true,
                None if word == "times" => wanted.times = true,
                None if word == "worst" => wanted.worst = true,
                None if word == "compare" => wanted.compare = true,
                Some(("lines", text)) => wanted.lines = text.to_string(),
                Some(("seed", n)) => wanted.seed = n.parse().ok()?,
                Some(("small", n)) => wanted.small = n.parse().ok()?,
                Some(("damaged", n)) => wanted.damaged = n.parse().ok()?,
                Some(("logs", n)) => wanted.logs = n.parse().ok()?,
                _ => return None,
            }
        }
        if !(wanted.selftest || wanted.times || wanted.worst || wanted.compare) {
            (wanted.selftest, wanted.times, wanted.compare) = (true, true, true);
        }
        Some(wanted)
    }
}

fn main() {
    let Some(wanted) = Wanted::of(std::env::args().skip(1)) else {
        println!("{HELP}");
        exit(2);
    };
    let mut tally = Tally([[0; 36]; 12]);
    if wanted.selftest {
        selftest::run();
    }
    if wanted.times {
        times(&mut tally, &wanted.lines);
    }
    if wanted.worst {
        rows_table(&lines::worst_rows().into_iter().filter(|line| line.name.contains(&wanted.lines)).collect::<Vec<_>>());
    }
    if wanted.compare {
        // each line, file and log has a seed of its own, which a difference names: with seed=N it comes first
        let seeds = |n: u64| wanted.seed..wanted.seed + n;
        seeds(wanted.small).for_each(|seed| compare_small(&mut tally, seed));
        println!("small lines: {} compared", wanted.small);
        seeds(wanted.damaged).for_each(|seed| compare_damaged(&mut tally, seed));
        println!("damaged and random files: {} compared", wanted.damaged);
        seeds(wanted.logs).for_each(|seed| compare_log(&mut tally, seed));
        println!("shift logs: {} compared, call by call", wanted.logs);
        tally.print_missing();
    }
    tally.print();
}
