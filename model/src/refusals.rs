//! What is turned away. "Of the numbers that apply, the one that stands first in this
//! table is given, and none otherwise."
//!
//! `refusal` goes by call, with the rows that can apply to it in the table's order.
//! `refusal_by_rows` is the table itself, row by row; the self-check compares the two.
//! Row 1 (soundness) is asserted by the self-check; row 3 belongs to the line reader.

use crate::calls::{Call, Named};
use crate::chains::leads_back;
use crate::groups::{Wish, ALL_BITS};
use crate::kernel::{
    Kernel, Kind, Mutex, ObjectSlot, Stand, TaskSlot, FOR_EVER, IDLE, MOST_ADVANCE, MOST_CAPACITY, MOST_HOLD,
    MOST_ITEM, MOST_PENDED, MOST_PRODUCT, MOST_TAKES, PRIORITIES,
};
use crate::loans::lends;
use crate::store::STORE_BYTES;

pub const NOT_A_CALL: u8 = 3;
pub const CIRCLE: u8 = 17;
pub const COUNT_FULL: u8 = 18;

/// The table's rows in its order, without 1 and 3. "17, circle, which stands directly before 14";
/// "18, count full, directly after 12".
const ROWS: [u8; 16] = [2, 4, 5, 6, 7, 8, 9, 10, 11, 12, COUNT_FULL, 13, CIRCLE, 14, 15, 16];

fn first_of(rows: &[(u8, bool)]) -> Option<u8> {
    rows.iter().find(|row| row.1).map(|row| row.0)
}

fn bad_priority(priority: u32) -> bool {
    priority >= PRIORITIES as u32
}

fn bad_queue(capacity: u32, size: u32) -> bool {
    !(1..=MOST_CAPACITY).contains(&capacity) || size > MOST_ITEM || capacity * size > MOST_PRODUCT
}

/// "bits above the 24"
fn bad_bits(bits: u32) -> bool {
    bits > ALL_BITS
}

/// "bits above the 24, a flag above 1 or an empty wait mask"
fn bad_wish(mask: u32, all: u32, clear: u32) -> bool {
    bad_bits(mask) || mask == 0 || all > 1 || clear > 1
}

/// The refusal of this call, if it is turned away.
pub fn refusal(kernel: &Kernel, store: &[u8], call: &Call) -> Option<u8> {
    if store.len() != STORE_BYTES {
        return Some(2);
    }
    let caller = kernel.running;
    let idle_calls = caller == IDLE;
    let held = kernel.hold > 0;
    match *call {
        Call::Create { priority } => first_of(&[(4, bad_priority(priority)), (9, kernel.free_task().is_none())]),
        Call::Delete { task } => {
            let Some(task) = kernel.find_task(task) else { return Some(5) };
            first_of(&[(7, task == IDLE), (8, held && task == caller), (10, kernel.holds_a_mutex(task))])
        }
        Call::Suspend { task } => {
            let Some(task) = kernel.find_task(task) else { return Some(5) };
            first_of(&[(7, task == IDLE), (8, held && task == caller)])
        }
        Call::Resume { task } => {
            let Some(task) = kernel.find_task(task) else { return Some(5) };
            first_of(&[(13, kernel.task(task).stand != Stand::Suspended)])
        }
        Call::SetPriority { task, priority } => {
            if bad_priority(priority) {
                return Some(4);
            }
            let Some(task) = kernel.find_task(task) else { return Some(5) };
            first_of(&[(7, task == IDLE && priority != 0)])
        }
        Call::Delay { ticks } => first_of(&[(4, ticks == FOR_EVER), (7, idle_calls), (8, held)]),
        Call::Yield => first_of(&[(8, held)]),
        Call::Hold => first_of(&[(15, kernel.hold == MOST_HOLD)]),
        Call::Release => first_of(&[(15, !held)]),
        Call::MakeQueue { capacity, size } => {
            first_of(&[(4, bad_queue(capacity, size)), (9, kernel.free_object().is_none())])
        }
        Call::MakeMutex | Call::MakeRecursiveMutex | Call::MakeGroup => {
            first_of(&[(9, kernel.free_object().is_none())])
        }
        Call::Remove { object } => {
            let Some(object) = kernel.find_object(object) else { return Some(5) };
            let object = kernel.object(object);
            first_of(&[(10, object.holder().is_some() || !object.waiters.is_empty())])
        }
        Call::Send { object, item, wait } => {
            let Some((_, queue)) = kernel.find_queue(object) else { return Some(5) };
            first_of(&[
                (6, item.len() != queue.size as usize),
                (7, wait != 0 && idle_calls),
                (8, wait != 0 && held),
                (14, wait == 0 && queue.count == queue.capacity),
            ])
        }
        Call::Receive { object, wait } => {
            let Some((_, queue)) = kernel.find_queue(object) else { return Some(5) };
            first_of(&[(7, wait != 0 && idle_calls), (8, wait != 0 && held), (14, wait == 0 && queue.count == 0)])
        }
        Call::Take { object, wait } => {
            let Some((_, mutex)) = kernel.find_mutex(object) else { return Some(5) };
            let again = mutex.holder == Some(caller);
            let another = mutex.holder.filter(|&holder| holder != caller);
            first_of(&[
                (7, idle_calls),
                (8, wait != 0 && held),
                (12, again && !mutex.recursive),
                (COUNT_FULL, again && mutex.count == MOST_TAKES),
                (CIRCLE, another.is_some_and(|holder| leads_back(kernel, holder, caller))),
                (14, wait == 0 && another.is_some()),
            ])
        }
        Call::Give { object } => {
            let Some((_, mutex)) = kernel.find_mutex(object) else { return Some(5) };
            first_of(&[(11, mutex.holder != Some(caller))])
        }
        Call::Tick => first_of(&[(16, held && kernel.pended == MOST_PENDED)]),
        Call::Advance { ticks } => first_of(&[(4, !(1..=MOST_ADVANCE).contains(&ticks)), (8, held)]),
        Call::SetBits { object, bits } | Call::ClearBits { object, bits } => {
            first_of(&[(4, bad_bits(bits)), (5, kernel.find_group(object).is_none())])
        }
        Call::WaitBits { object, mask, all, clear, wait } => {
            if bad_wish(mask, all, clear) {
                return Some(4);
            }
            refusal_of_wait(kernel, object, Wish { mask, all: all == 1, clear: clear == 1 }, wait)
        }
    }
}

/// The refusal of a wait on an event group whose numbers are in range: "all others as for queues".
fn refusal_of_wait(kernel: &Kernel, object: u32, wish: Wish, wait: u32) -> Option<u8> {
    let Some((_, group)) = kernel.find_group(object) else { return Some(5) };
    first_of(&[
        (7, wait != 0 && kernel.running == IDLE),
        (8, wait != 0 && kernel.hold > 0),
        (14, wait == 0 && !wish.satisfied_by(group.bits)),
    ])
}

/// The same, read off the table: the first row that applies.
pub fn refusal_by_rows(kernel: &Kernel, store: &[u8], call: &Call) -> Option<u8> {
    ROWS.into_iter().find(|&row| row_applies(row, kernel, store, call))
}

fn row_applies(row: u8, kernel: &Kernel, store: &[u8], call: &Call) -> bool {
    let caller = kernel.running;
    let is_caller = |number: u32| kernel.find_task(number) == Some(caller);
    let is_idle = |number: u32| kernel.find_task(number) == Some(IDLE);
    match row {
        // "the store is not 9,216 bytes long"
        2 => store.len() != STORE_BYTES,
        // "priority, capacity, size or product out of range; delay of 4,294,967,295"; request
        // 4: "4 for n out of range"; request 8: "4 for bits above the 24, a flag above 1 or an empty
        // wait mask"
        4 => match *call {
            Call::Create { priority } | Call::SetPriority { priority, .. } => priority > 31,
            Call::MakeQueue { capacity, size } => {
                !(1..=64).contains(&capacity) || size > 64 || u64::from(capacity) * u64::from(size) > 512
            }
            Call::Delay { ticks } => ticks == 4_294_967_295,
            Call::Advance { ticks } => ticks == 0 || ticks > 65_535,
            Call::SetBits { bits, .. } | Call::ClearBits { bits, .. } => bits >> 24 != 0,
            Call::WaitBits { mask, all, clear, .. } => {
                !(1..1 << 24).contains(&mask) || [all, clear].iter().any(|flag| ![0, 1].contains(flag))
            }
            _ => false,
        },
        // "task or object number names none, or an object of the wrong kind"; "5 covers a
        // wrong use part"
        5 => match call.named() {
            Named::Nothing => false,
            Named::Task(number) => task_of(kernel, number).is_none(),
            Named::Object(number) => !object_of(kernel, number).is_some_and(|kind| fits(call, kind)),
        },
        // "the item's length is not the queue's item size"
        6 => match *call {
            Call::Send { object, item, .. } => {
                kernel.find_queue(object).is_some_and(|(_, queue)| item.len() != usize::from(queue.size))
            }
            _ => false,
        },
        // "delete or suspend of idle; idle set to a priority other than 0; delay, take,
        // or any wait other than 0 by idle"
        7 => match *call {
            Call::Delete { task } | Call::Suspend { task } => is_idle(task),
            Call::SetPriority { task, priority } => is_idle(task) && priority != 0,
            Call::Delay { .. } | Call::Take { .. } => caller == IDLE,
            Call::Send { wait, .. } | Call::Receive { wait, .. } | Call::WaitBits { wait, .. } => {
                caller == IDLE && wait != 0
            }
            _ => false,
        },
        // "with a hold: delay, yield, any wait other than 0, delete or suspend of the
        // caller"; request 4: "8 with a hold"
        8 => {
            kernel.hold != 0
                && match *call {
                    Call::Delay { .. } | Call::Yield | Call::Advance { .. } => true,
                    Call::Send { wait, .. }
                    | Call::Receive { wait, .. }
                    | Call::Take { wait, .. }
                    | Call::WaitBits { wait, .. } => wait != 0,
                    Call::Delete { task } | Call::Suspend { task } => is_caller(task),
                    _ => false,
                }
        }
        // "create or make with no free slot"; "9 means no slot that may still be used"
        9 => match *call {
            Call::Create { .. } => kernel.tasks.iter().all(|task| !task.is_free() || task.uses == 65_536),
            Call::MakeQueue { .. } | Call::MakeMutex | Call::MakeRecursiveMutex | Call::MakeGroup => {
                kernel.objects.iter().all(|object| !object.is_free() || object.uses == 65_536)
            }
            _ => false,
        },
        // "delete of a task that holds a mutex; remove of a held mutex or an object with waiters"
        10 => match *call {
            Call::Delete { task } => kernel.find_task(task).is_some_and(|task| kernel.holds_a_mutex(task)),
            Call::Remove { object } => kernel.find_object(object).is_some_and(|object| {
                let object = kernel.object(object);
                object.holder().is_some() || !object.waiters.is_empty()
            }),
            _ => false,
        },
        // "give of a mutex that the caller does not hold"
        11 => match *call {
            Call::Give { object } => kernel.find_mutex(object).is_some_and(|(_, mutex)| mutex.holder != Some(caller)),
            _ => false,
        },
        // "take by the holder"; "Ordinary mutexes keep refusal 12"
        12 => own_take(kernel, call).is_some_and(|mutex| !mutex.recursive),
        // "up to 255 times in all"
        COUNT_FULL => own_take(kernel, call).is_some_and(|mutex| mutex.recursive && mutex.count >= 255),
        // "resume of a task not suspended"
        13 => match *call {
            Call::Resume { task } => {
                kernel.find_task(task).is_some_and(|task| kernel.task(task).stand != Stand::Suspended)
            }
            _ => false,
        },
        // "Turn down a take, of any wait, exactly if the chain from that mutex's holder, through
        // mutexes being waited on, leads back to the caller": the holder lends to the caller then.
        // "its holder's take is no circle"
        CIRCLE => match *call {
            Call::Take { object, .. } => {
                let holder = kernel.find_mutex(object).and_then(|(_, mutex)| mutex.holder);
                holder.is_some_and(|holder| holder != caller && lends(kernel, holder, caller))
            }
            _ => false,
        },
        // "wait 0 where the caller would have to wait"; request 8: "14 with wait 0 unsatisfied"
        14 => match *call {
            Call::WaitBits { object, mask, all, wait: 0, .. } => {
                kernel.find_group(object).is_some_and(|(_, group)| !has_bits(group.bits, mask, all == 1))
            }
            Call::Send { object, wait: 0, .. } => {
                kernel.find_queue(object).is_some_and(|(_, queue)| queue.count == queue.capacity)
            }
            Call::Receive { object, wait: 0 } => kernel.find_queue(object).is_some_and(|(_, queue)| queue.count == 0),
            Call::Take { object, wait: 0 } => {
                kernel.find_mutex(object).is_some_and(|(_, mutex)| mutex.holder.is_some_and(|holder| holder != caller))
            }
            _ => false,
        },
        // "hold at depth 255; release at depth 0"
        15 => match *call {
            Call::Hold => kernel.hold == 255,
            Call::Release => kernel.hold == 0,
            _ => false,
        },
        // "tick with a hold and 65,535 pended"
        16 => matches!(call, Call::Tick) && kernel.hold != 0 && kernel.pended == 65_535,
        _ => false,
    }
}

/// The table's own way to what a number names: it is looked for among the numbers of all
/// that exists.
fn task_of(kernel: &Kernel, number: u32) -> Option<TaskSlot> {
    TaskSlot::all().filter(|&task| !kernel.task(task).is_free()).find(|&task| kernel.task_number(task) == number)
}

fn object_of(kernel: &Kernel, number: u32) -> Option<Kind> {
    ObjectSlot::all()
        .filter(|&object| !kernel.object(object).is_free())
        .find(|&object| kernel.object_number(object) == number)
        .map(|object| kernel.object(object).kind)
}

/// "any bit of the mask or all of them", bit by bit.
pub fn has_bits(bits: u32, mask: u32, all: bool) -> bool {
    let is_set = |bit: u32| bits >> bit & 1 == 1;
    let mut asked = (0..24).filter(|bit| mask >> bit & 1 == 1);
    if all {
        asked.all(is_set)
    } else {
        asked.any(is_set)
    }
}

/// The mutex that this call takes, if the caller is its holder.
fn own_take(kernel: &Kernel, call: &Call) -> Option<Mutex> {
    let Call::Take { object, .. } = *call else { return None };
    kernel.find_mutex(object).map(|(_, mutex)| mutex).filter(|mutex| mutex.holder == Some(kernel.running))
}

/// Whether the call is for an object of this kind.
fn fits(call: &Call, kind: Kind) -> bool {
    match call {
        Call::Send { .. } | Call::Receive { .. } => matches!(kind, Kind::Queue(_)),
        Call::Take { .. } | Call::Give { .. } => matches!(kind, Kind::Mutex(_)),
        Call::SetBits { .. } | Call::ClearBits { .. } | Call::WaitBits { .. } => matches!(kind, Kind::Group(_)),
        _ => true,
    }
}
