//! The mutants of this crate: the folder in front of the program's own name says which one is on. If that folder is
//! `reached`, none is, and the file `noted` beside it gets the number of each that is reached.
use std::sync::atomic::{AtomicBool, AtomicU32, AtomicUsize, Ordering::Relaxed};

const UNKNOWN: usize = usize::MAX;
/// A mutant that is asked for more often than a test does keeps a loop from its end.
const MOST: u32 = 1 << 25;
static ON: AtomicUsize = AtomicUsize::new(UNKNOWN);
static ASKED: AtomicU32 = AtomicU32::new(0);
static REACHED: [AtomicBool; 1 << 16] = [const { AtomicBool::new(false) }; 1 << 16];

#[inline]
pub fn is(number: usize) -> bool {
    let on = ON.load(Relaxed);
    if on == UNKNOWN {
        return first(number);
    }
    on == number && counted()
}

fn counted() -> bool {
    if ASKED.fetch_add(1, Relaxed) > MOST {
        std::process::exit(101);
    }
    true
}

#[cold]
#[inline(never)]
fn first(number: usize) -> bool {
    use std::io::Write;
    if REACHED[number].load(Relaxed) {
        return false;
    }
    let own = std::path::PathBuf::from(std::env::args_os().next().unwrap_or_default());
    let folder = own.parent().unwrap_or(&own);
    let name = folder.file_name().unwrap_or_default().to_string_lossy();
    if name == "reached" {
        if !REACHED[number].swap(true, Relaxed) {
            let file = std::fs::OpenOptions::new().append(true).open(folder.with_file_name("noted"));
            file.unwrap().write_all(format!("{number}\n").as_bytes()).unwrap();
        }
        return false;
    }
    ON.store(name.parse().unwrap_or(0), Relaxed);
    is(number)
}

pub trait Number {
    fn next(self) -> Self;
}

macro_rules! number {
    ($($it:ty)*) => { $(impl Number for $it {
        #[inline]
        fn next(self) -> $it {
            self.wrapping_add(1)
        }
    })* }
}

number! { u8 u16 u32 u64 u128 usize i8 i16 i32 i64 isize }

impl Number for char {
    fn next(self) -> char {
        char::from_u32(self as u32 + 1).unwrap_or(self)
    }
}

/// The value, or the next one if the mutant is on.
#[inline]
pub fn larger<T: Number>(number: usize, value: T) -> T {
    if is(number) {
        value.next()
    } else {
        value
    }
}
