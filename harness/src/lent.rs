//! Lists lent to a function in memory that notices what it should not do: each list lies against a page that may not be touched, so that a read or a
//! write past it stops the program; on its other side stand known bytes, which are looked at afterwards.
use std::ffi::{c_int, c_long, c_void};

unsafe extern "C" {
    fn mmap(at: *mut c_void, length: usize, protection: c_int, flags: c_int, file: c_int, offset: c_long) -> *mut c_void;
    fn mprotect(at: *mut c_void, length: usize, protection: c_int) -> c_int;
}

const NONE: c_int = 0;
const READ_WRITE: c_int = 3;
const PRIVATE_ANONYMOUS: c_int = 0x22;
const PAGE: usize = 4096;
/// The most that one list takes.
const ROOM: usize = 1024 * PAGE;
const KNOWN: u8 = 0xA5;
/// How many known bytes stand beside a list.
const BESIDE: usize = 64;

struct Place {
    start: *mut u8,
    list: *mut u8,
    bytes: usize,
    lent: Vec<u8>,
    kind: Kind,
}

/// What a function may do with a list.
#[derive(Clone, Copy, PartialEq)]
enum Kind {
    /// Read it.
    Input,
    /// Write to it, but not where it refuses by 1 to 12.
    Output,
    /// Write to it as working memory, but not where a choice is unknown.
    Room,
    /// Write to it in any case.
    Answer,
}

/// What a call must have left as it was, beside what it may only read.
#[derive(Clone, Copy, PartialEq, PartialOrd)]
pub enum Kept {
    Nothing,
    Outputs,
    OutputsAndRooms,
}

/// Places for lists, taken one after the other for each call.
pub struct Lender {
    places: Vec<Place>,
    taken: usize,
    /// Lists lie against the page above them, or against the one below.
    pub high: bool,
}

impl Place {
    fn new() -> Place {
        let all = unsafe { mmap(std::ptr::null_mut(), ROOM + 2 * PAGE, NONE, PRIVATE_ANONYMOUS, -1, 0) };
        assert_ne!(all as isize, -1, "mmap");
        let start = unsafe { all.cast::<u8>().add(PAGE) };
        assert_eq!(unsafe { mprotect(start.cast(), ROOM, READ_WRITE) }, 0, "mprotect");
        Place { start, list: start, bytes: 0, lent: vec![], kind: Kind::Input }
    }

    /// Where the known bytes beside the list stand, and how many.
    fn beside(&self, high: bool) -> (*mut u8, usize) {
        let n = BESIDE.min(ROOM - self.bytes);
        (if high { self.list.wrapping_sub(n) } else { self.list.wrapping_add(self.bytes) }, n)
    }

    fn write_beside(&mut self, high: bool) {
        let (at, n) = self.beside(high);
        unsafe { std::ptr::write_bytes(at, KNOWN, n) };
    }

    /// Whether the bytes beside the list are still the known ones.
    fn kept_beside(&self, high: bool) -> bool {
        let (at, n) = self.beside(high);
        unsafe { std::slice::from_raw_parts(at, n) }.iter().all(|b| *b == KNOWN)
    }

    fn bytes(&self) -> &[u8] {
        unsafe { std::slice::from_raw_parts(self.list, self.bytes) }
    }
}

/// The types of words: any bytes are a word.
pub trait Word: Copy {}
impl Word for u8 {}
impl Word for u32 {}
impl Word for u64 {}

impl Lender {
    pub fn new(lists: usize) -> Lender {
        Lender { places: (0..lists).map(|_| Place::new()).collect(), taken: 0, high: true }
    }

    /// What was lent before is taken back.
    pub fn start(&mut self, high: bool) {
        self.taken = 0;
        self.high = high;
    }

    fn place<T: Word>(&mut self, list: &[T], kind: Kind) -> (*mut T, usize) {
        let high = self.high;
        let place = &mut self.places[self.taken];
        self.taken += 1;
        let bytes = unsafe { std::slice::from_raw_parts(list.as_ptr().cast::<u8>(), size_of_val(list)) };
        assert!(bytes.len() <= ROOM, "a list of {} bytes", bytes.len());
        place.bytes = bytes.len();
        place.list = if high { place.start.wrapping_add(ROOM - bytes.len()) } else { place.start };
        place.lent.clear();
        place.lent.extend(bytes);
        place.kind = kind;
        place.write_beside(high);
        unsafe { std::ptr::copy_nonoverlapping(bytes.as_ptr(), place.list, bytes.len()) };
        (place.list.cast(), list.len())
    }

    /// A list to be read.
    pub fn read<T: Word>(&mut self, list: &[T]) -> (*const T, usize) {
        let (at, n) = self.place(list, Kind::Input);
        (at, n)
    }

    /// A list to be written, unless the function refuses by 1 to 12.
    pub fn write<T: Word>(&mut self, list: &[T]) -> (*mut T, usize) {
        self.place(list, Kind::Output)
    }

    /// A list that the function may write to, unless a choice is unknown.
    pub fn room<T: Word>(&mut self, list: &[T]) -> (*mut T, usize) {
        self.place(list, Kind::Room)
    }

    /// Numbers that the function writes in any case.
    pub fn answer<T: Word>(&mut self, list: &[T]) -> *mut T {
        self.place(list, Kind::Answer).0
    }

    /// The list lent as number i.
    pub fn list(&self, i: usize) -> &[u8] {
        self.places[i].bytes()
    }

    /// Nothing was written beside a list or to an input, and nothing to what must be kept.
    pub fn check(&self, kept: Kept) -> Result<(), String> {
        for (i, place) in self.places[..self.taken].iter().enumerate() {
            if !place.kept_beside(self.high) {
                return Err(format!("bytes beside list {i} were written"));
            }
            let untouched = match place.kind {
                Kind::Input => true,
                Kind::Output => Kept::Outputs <= kept,
                Kind::Room => Kept::OutputsAndRooms <= kept,
                Kind::Answer => false,
            };
            if untouched && place.bytes() != place.lent {
                return Err(format!("list {i} was written"));
            }
        }
        Ok(())
    }
}

#[cfg(test)]
mod tests {
    use super::*;

    /// What a function must not do is noticed, on either side.
    #[test]
    fn notices() {
        for high in [false, true] {
            let mut lender = Lender::new(3);
            lender.start(high);
            let input = lender.read(&[1u32, 2, 3]).0.cast_mut();
            let output = lender.write(&[4u32, 5]).0;
            let room = lender.room(&[6u32]).0;
            assert!(lender.check(Kept::OutputsAndRooms).is_ok());
            unsafe { *room = 7 };
            assert!(lender.check(Kept::Outputs).is_ok());
            assert!(lender.check(Kept::OutputsAndRooms).is_err());
            unsafe { *output = 6 };
            assert!(lender.check(Kept::Nothing).is_ok());
            assert!(lender.check(Kept::Outputs).is_err());
            unsafe { *input = 6 };
            assert!(lender.check(Kept::Nothing).is_err());
            let beside = if high { output.wrapping_sub(1) } else { output.wrapping_add(2) };
            unsafe {
                *input = 1;
                *beside = 6;
            }
            assert!(lender.check(Kept::Nothing).is_err());
        }
    }
}
