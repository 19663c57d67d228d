// An example to copy: a panel in Rust, over include/hopper.h as hopper.rs has it. It prints the plan sheet of a line file, and runs a shift.
//
//     panel FILE                       the sheet
//     panel FILE PLACE FILL MOVE...    then a shift from that place and fill; the moves are those of the other side, in their order
//
// At a place of ours it orders and reports the order done; at a place of theirs it takes the next of the moves. It closes the shift where there
// is none left, or after 20 moves. What is refused is printed as number, layer, spot. To build it:
//
//     rustc -O --edition 2024 -o panel bench/panel.rs -C link-arg=libpanel.a

mod hopper;

use hopper::{Fault, LONGEST_FILE, MOST_MARKS, MOST_PLACES, NEVER, OURS, Row, Shift};
use std::env;
use std::fs::File;
use std::io::{self, Read};
use std::process::ExitCode;

// A call was refused, and that was printed.
struct Refused;

// What a call answers; prints a refusal.
fn accepted<T>(call: &str, answer: Result<T, Fault>) -> Result<T, Refused> {
    answer.map_err(|fault| {
        println!("{call}: {fault}");
        Refused
    })
}

// What a shift needs from call to call: the file and its marks; and the rows of the sheet, which say who chooses at a place.
struct Panel {
    file: Vec<u8>,
    marks: Vec<u32>,
    rows: Vec<Row>,
}

// A file; one that is too long is cut one byte above the longest, and refused as too long.
fn file_bytes(name: &str) -> io::Result<Vec<u8>> {
    let mut file = Vec::new();
    File::open(name)?.take(LONGEST_FILE as u64 + 1).read_to_end(&mut file)?;
    Ok(file)
}

fn number_or(number: u32, word: &str) -> String {
    if number == NEVER { word.to_string() } else { number.to_string() }
}

impl Panel {
    fn new(file: Vec<u8>) -> Panel {
        Panel { file, marks: vec![0; MOST_MARKS], rows: vec![Row::default(); MOST_PLACES] }
    }

    fn print_sheet(&mut self) -> Result<(), Refused> {
        let (places, marks_needed) = accepted("read", hopper::places(&self.file))?;
        let rounds = accepted("sheet", hopper::sheet(&self.file, &mut self.marks, &mut self.rows))?;
        println!("{places} places, {} fills, rounds {rounds}", marks_needed - 1);
        for row in &self.rows[..places as usize] {
            let owner = if row.owner == OURS { "ours" } else { "theirs" };
            let (fill, height, mv) = (number_or(row.fill, "none"), number_or(row.height, "-"), number_or(row.mv, "-"));
            println!("{} {owner} {fill} {height} {mv}", row.place);
        }
        Ok(())
    }

    // Orders a move and reports it done. A panel shows the order, and reports when the move was made; where it cannot be made, it calls
    // `withdrawn` with the order.
    fn our_move(&self, shift: &mut Shift) -> Result<(), Refused> {
        let order = accepted("order", shift.order(&self.file, &self.marks))?;
        println!("order: move {} at place {}", order.mv, order.place);
        let done = accepted("done", shift.done(&self.file, order));
        if done.is_err() {
            accepted("withdrawn", shift.withdrawn(order))?;
            return done;
        }
        println!("done: at place {}, level {}", shift.place, shift.level);
        Ok(())
    }

    fn their_move(&self, shift: &mut Shift, mv: u32) -> Result<(), Refused> {
        accepted("arrived", shift.arrived(&self.file, mv))?;
        println!("arrived: move {mv}, at place {}, level {}", shift.place, shift.level);
        Ok(())
    }

    // Makes the moves of a shift, as long as there are moves of the other side where they are asked for.
    fn go_on(&self, shift: &mut Shift, moves: &[u32]) -> Result<(), Refused> {
        let mut moves = moves.iter();
        for _ in 0..20 {
            // a shift that goes on stands at a place of the line, so its row is there
            if self.rows[shift.place as usize].owner == OURS {
                self.our_move(shift)?;
            } else {
                match moves.next() {
                    Some(&mv) => self.their_move(shift, mv)?,
                    None => break,
                }
            }
        }
        Ok(())
    }

    // Runs a shift from a place and a fill, with the moves of the other side.
    fn run_shift(&mut self, place: u32, fill: u32, moves: &[u32]) -> Result<(), Refused> {
        accepted("mark", hopper::mark(&self.file, &mut self.marks))?;
        let mut shift = accepted("open", Shift::open(&self.file, &self.marks, 1, place, fill))?;
        println!("open: at place {}, level {}", shift.place, shift.level);
        let gone = self.go_on(&mut shift, moves);
        let (place, level) = accepted("close", shift.close())?;
        println!("close: at place {place}, level {level}");
        gone
    }
}

fn main() -> ExitCode {
    let args: Vec<String> = env::args().skip(1).collect();
    let numbers: Option<Vec<u32>> = args.iter().skip(1).map(|word| word.parse().ok()).collect();
    let (Some(name), Some(numbers)) = (args.first(), numbers) else {
        eprintln!("panel FILE [PLACE FILL MOVE...]");
        return ExitCode::from(2);
    };
    let file = match file_bytes(name) {
        Ok(file) => file,
        Err(error) => {
            eprintln!("{name} cannot be read: {error}");
            return ExitCode::from(2);
        }
    };
    let mut panel = Panel::new(file);
    let answer = panel.print_sheet().and_then(|()| match numbers.as_slice() {
        [place, fill, moves @ ..] => panel.run_shift(*place, *fill, moves),
        _ => Ok(()),
    });
    if answer.is_ok() { ExitCode::SUCCESS } else { ExitCode::FAILURE }
}
