//! The one journal in which slots are given up for the last time. Too long to be stored, and nothing in it is random.

use crate::kernel::{number_of, LAST_USE, RETIRED, SLOTS};

/// The task slot that is retired; the slots above it are free meanwhile.
const TASK_SLOT: usize = 1;
/// The object slot that is retired; all others are taken meanwhile.
const OBJECT_SLOT: usize = 15;
/// At each such use, calls by a number that names nothing stand between create and delete, make and remove.
const EACH: u32 = 64;

/// Slot 1 of the tasks is used 65,536 times, then slot 15 of the objects. After each: its numbers name nothing, the
/// others are taken until there is none, and one that is given up is used again.
pub fn journal() -> Vec<u8> {
    let mut text = String::new();
    retire_a_task(&mut text);
    retire_an_object(&mut text);
    text.into_bytes()
}

/// A call's line with these fields.
pub(crate) fn call(text: &mut String, fields: &[u32]) {
    let fields: Vec<String> = fields.iter().map(u32::to_string).collect();
    *text += &fields.join("\t");
    text.push('\n');
}

/// A send of one byte, without a wait.
fn send(text: &mut String, object: u32) {
    *text += &format!("13\t{object}\ta5\t0\n");
}

/// Uses that are not this one: the last before it, the next, and one whose numbers are from 1,048,576 on.
fn others(uses: u32) -> impl Iterator<Item = u32> {
    [uses.checked_sub(1), Some(uses + 1), Some(uses + RETIRED)].into_iter().flatten()
}

fn retire_a_task(text: &mut String) {
    for uses in 0..=LAST_USE {
        // It runs as soon as it is created, and deletes itself.
        call(text, &[1, 3]);
        if uses % EACH == 0 || uses == LAST_USE {
            for wrong in others(uses) {
                call(text, &[2, number_of(TASK_SLOT, wrong)]);
                call(text, &[3, number_of(TASK_SLOT, wrong)]);
                call(text, &[4, number_of(TASK_SLOT, wrong)]);
                call(text, &[5, number_of(TASK_SLOT, wrong), 2]);
            }
            call(text, &[5, number_of(TASK_SLOT, uses), 4]);
        }
        call(text, &[2, number_of(TASK_SLOT, uses)]);
    }
    for uses in [0, LAST_USE, RETIRED] {
        call(text, &[2, number_of(TASK_SLOT, uses)]);
    }
    // Slots 2 to 15, then none.
    for _ in 2..=SLOTS {
        call(text, &[1, 3]);
    }
    call(text, &[2, 9]);
    call(text, &[1, 3]);
    call(text, &[1, 3]);
}

/// Two or three of these fit what the number names: a queue's, a mutex's or a group's.
fn calls_of_each_kind(text: &mut String, object: u32) {
    send(text, object);
    call(text, &[14, object, 0]);
    call(text, &[15, object, 0]);
    call(text, &[16, object]);
    call(text, &[21, object, 7]);
    call(text, &[22, object, 4]);
    call(text, &[23, object, 3, 1, 1, 0]);
}

fn retire_an_object(text: &mut String) {
    for _ in 0..OBJECT_SLOT {
        call(text, &[11]);
    }
    for uses in 0..=LAST_USE {
        let object = number_of(OBJECT_SLOT, uses);
        // A queue and another kind by turns; from one such use to the next that is a mutex of either kind or a group.
        let other = [[11, 19, 20][(uses / EACH % 3) as usize]];
        call(text, if uses % 2 == 0 { &[10, 2, 1][..] } else { &other });
        if uses % EACH < 2 || uses == LAST_USE {
            for wrong in others(uses).map(|wrong| number_of(OBJECT_SLOT, wrong)) {
                calls_of_each_kind(text, wrong);
                call(text, &[12, wrong]);
            }
            calls_of_each_kind(text, object);
        }
        call(text, &[12, object]);
    }
    for uses in [0, LAST_USE, RETIRED] {
        call(text, &[12, number_of(OBJECT_SLOT, uses)]);
    }
    // None at once; slot 9 once given up; then none again.
    call(text, &[11]);
    call(text, &[19]);
    call(text, &[20]);
    call(text, &[10, 2, 1]);
    call(text, &[12, 9]);
    call(text, &[20]);
    call(text, &[10, 2, 1]);
    call(text, &[11]);
    call(text, &[19]);
    call(text, &[20]);
}
