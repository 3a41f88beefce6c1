//! The self-check's part on event groups: the soundness sentences, and what one call did to bits, waiters and slips,
//! by looking at kernel and store before and after.

use crate::calls::{Answer, Call};
use crate::check::{must, Seen};
use crate::groups::{wish_of, Group, Wish};
use crate::kernel::{Kernel, Kind, ObjectSlot, Outcome, Role, Stand, Task, TaskSlot};
use crate::refusals::has_bits;
use crate::store::slip;

pub fn check_bits(group: Group) -> Result<(), String> {
    must(group.bits >> 24 == 0, "an event group has 24 bits")
}

/// "Waiters stand only where unsatisfied, with a mask and flags that the call accepts." Flags are 0 or 1 by their type.
pub fn check_watcher(wish: Wish, group: Group) -> Result<(), String> {
    must((1..1 << 24).contains(&wish.mask), "a waiter on an event group has a mask that the call accepts")?;
    must(!has_bits(group.bits, wish.mask, wish.all), "waiters stand only where unsatisfied")
}

/// What an accepted call did to event groups and who waits on them.
pub fn check_group_step(before: Seen, call: &Call, answer: Answer, after: Seen) -> Result<(), String> {
    let named = |number: u32| before.kernel.find_group(number).ok_or("an accepted call on bits names an event group");
    match *call {
        Call::SetBits { object, bits } => {
            let (object, group) = named(object)?;
            check_set(before, object, group.bits | bits, after)
        }
        Call::ClearBits { object, bits } => {
            let (object, group) = named(object)?;
            let left = with_bits(before.kernel, object, group.bits & !bits);
            must(left == *after.kernel && before.store == after.store, "a clear takes the bits out, and that is all")
        }
        Call::WaitBits { object, mask, all, clear, wait } => {
            let (object, group) = named(object)?;
            let wish = Wish { mask, all: all == 1, clear: clear == 1 };
            match answer {
                Answer::Waiting => check_begun(before, object, wish, wait, after),
                _ => check_at_once(before, object, wish, group.bits, after),
            }
        }
        _ => check_others(before, after),
    }
}

/// The kernel with other bits in this group.
fn with_bits(kernel: &Kernel, object: ObjectSlot, bits: u32) -> Kernel {
    let mut kernel = kernel.clone();
    kernel.object_mut(object).kind = Kind::Group(Group { bits });
    kernel
}

/// The store with the bits on the slips of these tasks: "four bytes, low byte first".
fn with_slips(store: &[u8], tasks: &[TaskSlot], bits: u32) -> Vec<u8> {
    let mut store = store.to_vec();
    for &task in tasks {
        for (place, byte) in store[slip(task, 4)].iter_mut().enumerate() {
            *byte = (bits >> (8 * place) & 0xff) as u8;
        }
    }
    store
}

/// Who is woken, in order of slots, and the bits that are left, if the waiters are judged in this order: "all judged on
/// the same bits, and the clears happen together afterwards".
fn judge(kernel: &Kernel, waiters: &[TaskSlot], bits: u32) -> (Vec<TaskSlot>, u32) {
    let mut woken = Vec::new();
    let mut left = bits;
    for &task in waiters {
        let Some(wish) = wish_of(kernel, task).filter(|wish| has_bits(bits, wish.mask, wish.all)) else { continue };
        woken.push(task);
        // From what is left, not from what the others are judged on.
        for bit in (0..24).filter(|bit| wish.clear && wish.mask >> bit & 1 == 1) {
            left &= !(1 << bit);
        }
    }
    woken.sort_by_key(|task| task.index());
    (woken, left)
}

/// Exactly those whom the joined bits satisfy are woken, whoever is judged first.
fn check_set(before: Seen, object: ObjectSlot, joined: u32, after: Seen) -> Result<(), String> {
    let waiters = &before.kernel.object(object).waiters;
    let last_first: Vec<TaskSlot> = waiters.iter().rev().copied().collect();
    let by_slots: Vec<TaskSlot> = TaskSlot::all().filter(|task| waiters.contains(task)).collect();
    let (woken, left) = judge(before.kernel, &last_first, joined);
    must(judge(before.kernel, &by_slots, joined) == (woken.clone(), left), "the order of judging changes nothing")?;
    for task in TaskSlot::all() {
        let was = *before.kernel.task(task);
        let wanted =
            if woken.contains(&task) { Task { stand: Stand::Ready, outcome: Outcome::Done, ..was } } else { was };
        must(*after.kernel.task(task) == wanted, "a set wakes those whom the bits satisfy, and no one else")?;
    }
    let mut objects = with_bits(before.kernel, object, left).objects;
    objects[object.index()].waiters.retain(|task| !woken.contains(task));
    must(objects == after.kernel.objects, "a set joins the bits in, and all clears happen afterwards")?;
    let satisfied = |&task: &TaskSlot| wish_of(after.kernel, task).is_some_and(|wish| wish.satisfied_by(joined));
    must(!after.kernel.object(object).waiters.iter().any(satisfied), "nobody satisfied is still waiting")?;
    must(with_slips(before.store, &woken, joined) == after.store, "each woken task's slip gets the bits as judged")
}

/// The caller was satisfied at once, and nothing but the bits and its slip changes.
fn check_at_once(before: Seen, object: ObjectSlot, wish: Wish, bits: u32, after: Seen) -> Result<(), String> {
    must(has_bits(bits, wish.mask, wish.all), "who does not wait is satisfied")?;
    let left = if wish.clear { bits & !wish.mask } else { bits };
    must(with_bits(before.kernel, object, left) == *after.kernel, "satisfied at once, it goes on as it was")?;
    let slips = with_slips(before.store, &[before.kernel.running], bits);
    must(slips == after.store, "the slip of a caller satisfied at once gets the bits as judged")
}

/// The caller waits, with its mask, flags and wake tick.
fn check_begun(before: Seen, object: ObjectSlot, wish: Wish, wait: u32, after: Seen) -> Result<(), String> {
    let caller = before.kernel.running;
    let wake = before.kernel.wake_tick(wait);
    let stand = Stand::Waiting { object, role: Role::Watcher(wish), wake };
    for task in TaskSlot::all() {
        let was = *before.kernel.task(task);
        let wanted = if task == caller { Task { stand, outcome: Outcome::None, ..was } } else { was };
        must(
            *after.kernel.task(task) == wanted,
            "the caller waits with its mask, flags and wake tick, and lends nothing",
        )?;
    }
    let mut objects = before.kernel.objects.clone();
    objects[object.index()].waiters.push(caller);
    must(objects == after.kernel.objects && before.store == after.store, "a wait that begins leaves bits and slips")
}

/// Any other call leaves the bits, and ends a wait on an event group only by its time, by a suspend or by a delete; the
/// slip stays as it was.
fn check_others(before: Seen, after: Seen) -> Result<(), String> {
    let ticks = after.kernel.tick.wrapping_sub(before.kernel.tick);
    for object in ObjectSlot::all() {
        let (old, new) = (before.kernel.object(object), after.kernel.object(object));
        if let (Kind::Group(_), true) = (old.kind, old.uses == new.uses) {
            must(old.kind == new.kind, "no other call changes the bits")?;
        }
    }
    for task in TaskSlot::all().filter(|&task| wish_of(before.kernel, task).is_some()) {
        let (old, new) = (before.kernel.task(task), after.kernel.task(task));
        let is_due = before.kernel.distance(task).is_some_and(|left| left <= ticks);
        let fits = match new.stand {
            Stand::Ready => new.outcome == Outcome::TimeRanOut && is_due,
            Stand::Suspended => new.outcome == Outcome::BrokenOff,
            Stand::Free => new.uses == old.uses + 1,
            stand => stand == old.stand && !is_due,
        };
        must(fits, "a wait on an event group ends by a set, its time, a suspend or a delete")?;
        let bytes = slip(task, 64);
        must(before.store[bytes.clone()] == after.store[bytes], "a wait that goes on or ends so leaves the slip")?;
    }
    Ok(())
}
