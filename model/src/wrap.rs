//! The one journal in which the count returns to 0, four times. Too long to be stored, and nothing in it is random.

use crate::kernel::{FOR_EVER, MOST_ADVANCE};
use crate::retire::call;

/// The last count before it returns to 0.
const LAST: u32 = u32::MAX;

/// P6, the delay of 1 at tick 4,294,967,295, with single ticks over the return to 0; then short advances over it, one
/// of 65,535 ticks with tasks due on both sides, and one with nobody due. After each, calls that show the lines.
pub fn journal() -> Vec<u8> {
    let mut journal = Journal { text: String::new(), count: 0 };
    by_single_ticks(&mut journal);
    by_short_advances(&mut journal);
    by_one_advance(&mut journal);
    by_one_jump(&mut journal);
    journal.text.into_bytes()
}

/// The lines so far, and the tick count after them.
struct Journal {
    text: String,
    count: u32,
}

impl Journal {
    fn call(&mut self, fields: &[u32]) {
        call(&mut self.text, fields);
    }

    fn calls(&mut self, calls: &[&[u32]]) {
        for fields in calls {
            self.call(fields);
        }
    }

    fn tick(&mut self) {
        self.call(&[17]);
        self.count = self.count.wrapping_add(1);
    }

    fn advance(&mut self, ticks: u32) {
        self.call(&[18, ticks]);
        self.count = self.count.wrapping_add(ticks);
    }

    /// Advances up to this count, as far as they go but for the last.
    fn advance_to(&mut self, count: u32) {
        while self.count != count {
            self.advance(self.to(count).min(MOST_ADVANCE));
        }
    }

    /// The ticks from now to this count.
    fn to(&self, count: u32) -> u32 {
        count.wrapping_sub(self.count)
    }

    /// Refused, so the count stays.
    fn refused(&mut self) {
        self.calls(&[&[18, 0], &[18, MOST_ADVANCE + 1], &[18, FOR_EVER]]);
        self.calls(&[&[8], &[18, 1], &[18, 0], &[9]]);
    }
}

/// Task 1 (priority 3) runs, and task 2 (2) is ready, while 65,537 advances bring the count from 0 to 4,294,967,295.
fn by_single_ticks(journal: &mut Journal) {
    journal.calls(&[&[1, 3], &[1, 2]]);
    journal.advance_to(LAST);
    journal.refused();
    // Due at 0 and at 1; idle runs.
    journal.call(&[6, 1]);
    journal.call(&[6, 2]);
    journal.tick();
    journal.tick();
    // Task 1 was woken first; without it task 2 runs, and then idle.
    journal.calls(&[&[3, 1], &[3, 2]]);
}

/// Task 1 is due at 0 from the start; its wake tick is smaller than the count all the way. Idle runs.
fn by_short_advances(journal: &mut Journal) {
    journal.advance(1);
    journal.call(&[4, 1]);
    journal.call(&[6, journal.to(0)]);
    journal.advance_to(LAST - 2);
    // Queue 0; task 4 (5) is due at 1, task 2 (2) at 4,294,967,295, and the wait of task 3 (2) at 0 like task 1.
    journal.calls(&[&[10, 1, 1], &[4, 2], &[1, 2], &[1, 5]]);
    journal.call(&[6, journal.to(1)]);
    journal.call(&[6, journal.to(LAST)]);
    journal.call(&[14, 0, journal.to(0)]);
    journal.refused();
    // Nobody; then task 2, overtaken by task 1 at 0; then task 4.
    journal.advance(1);
    journal.advance(2);
    journal.advance(1);
    journal.calls(&[&[3, 4], &[3, 1], &[7], &[7], &[3, 2], &[3, 3]]);
}

/// Idle runs until the last advance, which is of 65,535 ticks, up to 50, and meets the wakes.
fn by_one_advance(journal: &mut Journal) {
    journal.advance_to(100);
    // Task 5 (2) takes mutex 1 and is due at 2.
    journal.calls(&[&[11], &[1, 2], &[15, 1, 0]]);
    journal.call(&[6, journal.to(2)]);
    // Task 1 (3) lends it 3, and its wait ends at 5. Task 6 (3) is due at 4,294,967,295.
    journal.call(&[4, 1]);
    journal.call(&[15, 1, journal.to(5)]);
    journal.call(&[1, 3]);
    journal.call(&[6, journal.to(LAST)]);
    // The wait of task 3 (2) and the delay of task 2 (2) end at 4,294,967,294, that of task 4 (5) at 7.
    journal.call(&[4, 3]);
    journal.call(&[14, 0, journal.to(LAST - 1)]);
    journal.call(&[4, 2]);
    journal.call(&[6, journal.to(LAST - 1)]);
    journal.call(&[4, 4]);
    journal.call(&[6, journal.to(7)]);
    // Task 7 (1) waits for ever. Task 8 (6) is due at 53.
    journal.call(&[1, 1]);
    journal.call(&[14, 0, FOR_EVER]);
    journal.call(&[1, 6]);
    journal.call(&[6, journal.to(53)]);
    journal.advance_to(50u32.wrapping_sub(MOST_ADVANCE));
    journal.refused();
    journal.advance(MOST_ADVANCE);
    // Task 4 runs until task 8 is due. Below them stand 1 and 6 with 3, a line that turned from 2 to 6, and 5, 3 and 2
    // with 2: at 5, as it ran, the loan of task 5 ended. From 4,294,967,295 to 2 task 6 was alone.
    journal.advance(2);
    journal.advance(1);
    journal.calls(&[&[3, 8], &[3, 4], &[7], &[3, 6], &[3, 1], &[16, 1], &[3, 5], &[7], &[3, 2], &[3, 3]]);
}

/// Task 7 gets what it waits for and runs, and nobody is due within the last long advance, up to 39,999: task 4 is due
/// at 40,000.
fn by_one_jump(journal: &mut Journal) {
    journal.text += "13\t0\ta5\t0\n";
    journal.advance_to(60_000);
    journal.call(&[4, 4]);
    journal.call(&[6, journal.to(40_000)]);
    journal.advance_to(39_999u32.wrapping_sub(MOST_ADVANCE));
    journal.advance(MOST_ADVANCE);
    journal.advance(1);
}
