//! The call into the static library, and its records as the proved sources have them. All that is
//! unsafe is in this file. With `--cfg portable` the library is that of bindings/c/portable.
#[cfg(portable)]
#[path = "../c/portable/src/lib.rs"]
mod portable;
#[cfg(not(portable))]
#[path = "../../crates/flat_reading/src/records.rt"]
#[allow(dead_code)]
pub mod records;
#[cfg(portable)]
use portable::{dephungo_read, Rooms};
#[cfg(portable)]
pub use portable::records;
use records::*;

#[cfg(not(portable))]
#[link(name = "dephungo", kind = "static")]
#[link(name = "libc_c", kind = "static")]
unsafe extern "C" {
    fn dephungo_read(
        input: *const u8,
        input_length: usize,
        snippet: *const u8,
        snippet_length: usize,
        options: *const Options,
        buffers: *mut Rooms,
        answer: *mut Answer,
    ) -> u32;
}

/// The pointers to the buffers of a call, and the rooms there, as the header has them.
#[cfg(not(portable))]
#[repr(C)]
struct Rooms {
    steps: *mut Step,
    step_room: usize,
    specs: *mut Spec,
    spec_room: usize,
    faults: *mut Fault,
    fault_room: usize,
    texts: *mut u8,
    text_room: usize,
    lines: *mut Extent,
    line_room: usize,
    peeks: *mut Peek,
    peek_room: usize,
}

/// The buffers into which a reading is written. The length of each vector is its room.
pub struct Buffers {
    steps: Vec<Step>,
    specs: Vec<Spec>,
    faults: Vec<Fault>,
    texts: Vec<u8>,
    lines: Vec<Extent>,
    peeks: Vec<Peek>,
    answer: Answer,
    /// The pointers to the vectors, which stay as long as they are.
    rooms: Rooms,
}

/// What a reading has written into its buffers.
pub struct Records<'b> {
    pub steps: &'b [Step],
    pub specs: &'b [Spec],
    pub faults: &'b [Fault],
    pub texts: &'b [u8],
    pub lines: &'b [Extent],
    pub peeks: &'b [Peek],
    pub answer: Answer,
}

/// Options, an answer or any other record, each byte of which is this one.
fn filled<T: Copy>(byte: u8) -> T {
    let mut record = std::mem::MaybeUninit::uninit();
    // SAFETY: it is asked only for records and bytes, which are plain integers.
    unsafe {
        std::ptr::write_bytes(record.as_mut_ptr(), byte, 1);
        record.assume_init()
    }
}

/// Options, an answer or any other record, with nothing but zeros.
pub fn blank<T: Copy>() -> T {
    filled(0)
}

impl Buffers {
    /// Buffers with room for the records that an answer counts, and with so much for peeks. Whoever
    /// reads a field that the library did not write finds a wrong number there.
    pub fn with_room(told: Answer, peek_room: usize) -> Self {
        let mut steps = vec![filled(0xa5); told.steps];
        let mut specs = vec![filled(0xa5); told.specs];
        let mut faults = vec![filled(0xa5); told.faults];
        let mut texts = vec![0xa5; told.texts];
        let mut lines = vec![filled(0xa5); told.lines];
        let mut peeks = vec![filled(0xa5); peek_room];
        let rooms = Rooms {
            steps: steps.as_mut_ptr(),
            step_room: steps.len(),
            specs: specs.as_mut_ptr(),
            spec_room: specs.len(),
            faults: faults.as_mut_ptr(),
            fault_room: faults.len(),
            texts: texts.as_mut_ptr(),
            text_room: texts.len(),
            lines: lines.as_mut_ptr(),
            line_room: lines.len(),
            peeks: peeks.as_mut_ptr(),
            peek_room,
        };
        Buffers { steps, specs, faults, texts, lines, peeks, answer: filled(0xa5), rooms }
    }

    /// Reads an input into them, as far as they go, and returns the code of the library.
    pub fn read(&mut self, input: &str, snippet: &str, options: &Options) -> u32 {
        // SAFETY: each pointer is that of a reference, of a slice or of a vector that is as it was
        // when the pointer was taken, and its length goes with it; what is written is borrowed for
        // this call alone, and a record may hold any numbers.
        unsafe {
            dephungo_read(
                input.as_ptr(),
                input.len(),
                snippet.as_ptr(),
                snippet.len(),
                options,
                &mut self.rooms,
                &mut self.answer,
            )
        }
    }

    /// What is in them.
    pub fn records(&self) -> Records<'_> {
        Records {
            steps: &self.steps,
            specs: &self.specs,
            faults: &self.faults,
            texts: &self.texts,
            lines: &self.lines,
            peeks: &self.peeks,
            answer: self.answer,
        }
    }
}
