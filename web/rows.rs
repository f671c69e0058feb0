//! The rows of the crate for Rust (bindings/compare/rows.rs) as a module: a table goes in, and what
//! is wrong comes out, or nothing.
use std::sync::Mutex;

#[path = "../bindings/compare/rows.rs"]
mod rows;

static TABLE: Mutex<Vec<u8>> = Mutex::new(Vec::new());
static SAID: Mutex<String> = Mutex::new(String::new());

/// Makes room for a table of `len` bytes, and returns where it is to be written.
#[no_mangle]
pub extern "C" fn input(len: usize) -> *mut u8 {
    let mut table = TABLE.lock().unwrap();
    *table = vec![0; len];
    table.as_mut_ptr()
}

/// Compares each row of the table, and returns how many there are. Stops at a row that differs.
#[no_mangle]
pub extern "C" fn compare() -> usize {
    std::panic::set_hook(Box::new(|info| *SAID.lock().unwrap() = info.to_string()));
    rows::compare(
        "the table",
        std::str::from_utf8(&TABLE.lock().unwrap()).unwrap(),
    )
}

/// The number of bytes of the message about failures.
#[no_mangle]
pub extern "C" fn said() -> usize {
    SAID.lock().unwrap().len()
}

/// Where these are.
#[no_mangle]
pub extern "C" fn output() -> *const u8 {
    SAID.lock().unwrap().as_ptr()
}
