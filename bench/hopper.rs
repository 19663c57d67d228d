// The header include/hopper.h in Rust: its types, its functions, and safe calls of them on slices.
// A Rust program copies this file and links the library.
#![allow(dead_code)]

// No such number: a fill that there is not, a mark of a fill that holds for ever.
pub const NEVER: u32 = u32::MAX;

pub const MOST_PLACES: usize = 256;
pub const MOST_MARKS: usize = 65_537;
pub const LONGEST_FILE: usize = 25_616;

pub const OURS: u32 = 0;
pub const THEIRS: u32 = 1;

// What a call answers: number 0 where it accepts, else a refusal.
#[repr(C)]
#[derive(Clone, Copy, PartialEq, Eq, Debug, Default)]
pub struct Fault {
    pub number: u32,
    pub layer: u32,
    pub spot: u64,
}

impl std::fmt::Display for Fault {
    fn fmt(&self, f: &mut std::fmt::Formatter) -> std::fmt::Result {
        write!(f, "refused {} {} {}", self.number, self.layer, self.spot)
    }
}

// What a plan sheet says of one place; NEVER where there is no fill, height or move.
#[repr(C)]
#[derive(Clone, Copy, PartialEq, Eq, Debug, Default)]
pub struct Row {
    pub place: u32,
    pub owner: u32,
    pub fill: u32,
    pub height: u32,
    pub mv: u32,
}

// A shift, in plain numbers; `ordered` is 1 while an order is out.
#[repr(C)]
#[derive(Clone, Copy, PartialEq, Eq, Debug, Default)]
pub struct Shift {
    pub number: u32,
    pub place: u32,
    pub level: u32,
    pub ordered: u32,
    pub mv: u32,
}

// An order that was given out: done or withdrawn tells it back.
#[derive(Clone, Copy, PartialEq, Eq, Debug)]
pub struct Order {
    pub number: u32,
    pub place: u32,
    pub mv: u32,
}

// As in C: no bytes between the fields, and none after them.
const _: () = assert!(size_of::<Fault>() == 16 && size_of::<Row>() == 20 && size_of::<Shift>() == 20);

unsafe extern "C" {
    pub fn hopper_check(file: *const u8, len: usize) -> Fault;
    pub fn hopper_places(file: *const u8, len: usize, places: *mut u32, fills_plus_one: *mut u64) -> Fault;
    pub fn hopper_least(
        file: *const u8,
        len: usize,
        row: *mut u32,
        row_len: usize,
        next: *mut u32,
        next_len: usize,
        budget: u64,
        rounds: *mut u64,
    ) -> Fault;
    pub fn hopper_mark(file: *const u8, len: usize, marks: *mut u32, marks_len: usize, rounds: *mut u32) -> Fault;
    pub fn hopper_sheet(
        file: *const u8,
        len: usize,
        marks: *mut u32,
        marks_len: usize,
        rows: *mut Row,
        rows_len: usize,
        rounds: *mut u64,
    ) -> Fault;
    pub fn hopper_open(
        file: *const u8,
        len: usize,
        marks: *const u32,
        marks_len: usize,
        number: u32,
        place: u32,
        fill: u32,
        out: *mut Shift,
    ) -> Fault;
    pub fn hopper_order(
        file: *const u8,
        len: usize,
        marks: *const u32,
        marks_len: usize,
        shift: *mut Shift,
        mv: *mut u32,
    ) -> Fault;
    pub fn hopper_done(file: *const u8, len: usize, shift: *mut Shift, number: u32, place: u32, mv: u32) -> Fault;
    pub fn hopper_withdrawn(shift: *mut Shift, number: u32, place: u32, mv: u32) -> Fault;
    pub fn hopper_arrived(file: *const u8, len: usize, shift: *mut Shift, mv: u32) -> Fault;
    pub fn hopper_close(shift: *const Shift, place: *mut u32, level: *mut u32) -> Fault;
}

fn answer<T>(fault: Fault, accepted: T) -> Result<T, Fault> {
    if fault.number == 0 { Ok(accepted) } else { Err(fault) }
}

// Whether the file is accepted.
pub fn check(file: &[u8]) -> Result<(), Fault> {
    let fault = unsafe { hopper_check(file.as_ptr(), file.len()) };
    answer(fault, ())
}

// How many places the line has, and how many entries its marks need.
pub fn places(file: &[u8]) -> Result<(u32, u64), Fault> {
    let (mut places, mut needed) = (0, 0);
    let fault = unsafe { hopper_places(file.as_ptr(), file.len(), &mut places, &mut needed) };
    answer(fault, (places, needed))
}

// Fills both rows with the least good fills over a lip or a drawn hopper, and answers the rounds.
pub fn least(file: &[u8], row: &mut [u32], next: &mut [u32], budget: u64) -> Result<u64, Fault> {
    let mut rounds = 0;
    let fault = unsafe {
        hopper_least(file.as_ptr(), file.len(), row.as_mut_ptr(), row.len(), next.as_mut_ptr(), next.len(), budget, &mut rounds)
    };
    answer(fault, rounds)
}

// Marks all fills, and answers the rounds.
pub fn mark(file: &[u8], marks: &mut [u32]) -> Result<u32, Fault> {
    let mut rounds = 0;
    let fault = unsafe { hopper_mark(file.as_ptr(), file.len(), marks.as_mut_ptr(), marks.len(), &mut rounds) };
    answer(fault, rounds)
}

// Fills the rows of the plan sheet, and answers the rounds; the marks are used where the hopper is closed.
pub fn sheet(file: &[u8], marks: &mut [u32], rows: &mut [Row]) -> Result<u64, Fault> {
    let mut rounds = 0;
    let fault = unsafe {
        hopper_sheet(file.as_ptr(), file.len(), marks.as_mut_ptr(), marks.len(), rows.as_mut_ptr(), rows.len(), &mut rounds)
    };
    answer(fault, rounds)
}

impl Shift {
    // Opens a shift at a place and a fill that the marks call good.
    pub fn open(file: &[u8], marks: &[u32], number: u32, place: u32, fill: u32) -> Result<Shift, Fault> {
        let mut shift = Shift::default();
        let fault =
            unsafe { hopper_open(file.as_ptr(), file.len(), marks.as_ptr(), marks.len(), number, place, fill, &mut shift) };
        answer(fault, shift)
    }

    // Orders the first move that is poured to a good fill.
    pub fn order(&mut self, file: &[u8], marks: &[u32]) -> Result<Order, Fault> {
        let mut mv = 0;
        let fault = unsafe { hopper_order(file.as_ptr(), file.len(), marks.as_ptr(), marks.len(), self, &mut mv) };
        answer(fault, Order { number: self.number, place: self.place, mv })
    }

    // Reports an order done.
    pub fn done(&mut self, file: &[u8], order: Order) -> Result<(), Fault> {
        let Order { number, place, mv } = order;
        let fault = unsafe { hopper_done(file.as_ptr(), file.len(), self, number, place, mv) };
        answer(fault, ())
    }

    // Takes an order back.
    pub fn withdrawn(&mut self, order: Order) -> Result<(), Fault> {
        let Order { number, place, mv } = order;
        let fault = unsafe { hopper_withdrawn(self, number, place, mv) };
        answer(fault, ())
    }

    // Reports a move of the other side.
    pub fn arrived(&mut self, file: &[u8], mv: u32) -> Result<(), Fault> {
        let fault = unsafe { hopper_arrived(file.as_ptr(), file.len(), self, mv) };
        answer(fault, ())
    }

    // Ends the shift, and answers its place and level. Make no more calls on it.
    pub fn close(&self) -> Result<(u32, u32), Fault> {
        let (mut place, mut level) = (0, 0);
        let fault = unsafe { hopper_close(self, &mut place, &mut level) };
        answer(fault, (place, level))
    }
}
