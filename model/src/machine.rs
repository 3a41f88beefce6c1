//! The kernel with its store, stepped by lines.

use crate::calls::{step, Answer};
use crate::check;
use crate::kernel::Kernel;
use crate::line::{read_call, ITEM_BYTES};
use crate::refusals::NOT_A_CALL;
use crate::store::STORE_BYTES;

pub struct Machine {
    pub kernel: Kernel,
    pub store: Vec<u8>,
    /// Room for the item of the line being read.
    item: [u8; ITEM_BYTES],
    /// Assert the soundness sentence and more after each call.
    pub check: bool,
}

impl Machine {
    /// "The program starts from the fresh kernel and a store of zeros."
    pub fn new(check: bool) -> Machine {
        Machine { kernel: Kernel::fresh(), store: vec![0; STORE_BYTES], item: [0; ITEM_BYTES], check }
    }

    /// The answer to one line with its newline.
    pub fn answer(&mut self, line: &[u8]) -> Answer {
        match read_call(line, &mut self.item) {
            None => Answer::Refused(NOT_A_CALL),
            Some(call) if self.check => check::checked_step(&mut self.kernel, &mut self.store, &call),
            Some(call) => step(&mut self.kernel, &mut self.store, &call),
        }
    }
}
