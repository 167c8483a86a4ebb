//! Says in which case the program was ended by a signal, which only a faulty call can bring about.

use crate::{fail, NOW};

extern "C" {
    /// Of the C library, which the standard library links.
    fn signal(number: i32, handler: extern "C" fn(i32)) -> usize;
}

/// The signals of a forbidden instruction, an abort, a forbidden address, a division by zero and a forbidden place in memory.
const SIGNALS: [i32; 5] = [4, 6, 7, 8, 11];

pub fn watch() {
    for number in SIGNALS {
        // The handler ends the program. It allocates and prints, which is sound enough where a call that does neither was interrupted.
        unsafe { signal(number, ended) };
    }
}

/// Prints the case and its sheet, and ends the program.
extern "C" fn ended(number: i32) {
    fail(NOW.get(), &format!("a call was ended by signal {number}"));
}
