//! Event groups: 24 bits that are set and cleared, and tasks that wait until some of them, or all, are set.

use crate::kernel::{Kernel, Kind, ObjectSlot, Role, Stand, TaskSlot};
use crate::store;

/// "24 bits"
pub const ALL_BITS: u32 = 16_777_215;

/// "24 bits, at first 0"
#[derive(Clone, Copy, PartialEq, Eq, Debug, Default)]
pub struct Group {
    pub bits: u32,
}

/// What a waiter asks for. "The flags all and clear are 0 or 1: any bit of the mask or all of them, kept or cleared when
/// satisfied."
#[derive(Clone, Copy, PartialEq, Eq, Debug)]
pub struct Wish {
    pub mask: u32,
    pub all: bool,
    pub clear: bool,
}

impl Wish {
    pub fn satisfied_by(self, bits: u32) -> bool {
        let found = bits & self.mask;
        if self.all {
            found == self.mask
        } else {
            found != 0
        }
    }

    /// The bits that are taken out once it is satisfied.
    pub fn cleared(self) -> u32 {
        if self.clear {
            self.mask
        } else {
            0
        }
    }
}

/// What this task waits for, if it waits on an event group.
pub fn wish_of(kernel: &Kernel, task: TaskSlot) -> Option<Wish> {
    match kernel.task(task).stand {
        Stand::Waiting { role: Role::Watcher(wish), .. } => Some(wish),
        _ => None,
    }
}

/// "gets the bits as they were judged, four bytes, low byte first"
fn put_on_slip(store: &mut [u8], task: TaskSlot, bits: u32) {
    store[store::slip(task, 4)].copy_from_slice(&bits.to_le_bytes());
}

/// "A set wakes every waiter that the bits satisfy, outcome 1, in first-waiter order, all judged on the same bits, and
/// the clears happen together afterwards."
pub fn set(kernel: &mut Kernel, store: &mut [u8], object: ObjectSlot, group: Group, bits: u32) {
    let judged = group.bits | bits;
    let mut cleared = 0;
    while let Some((waiter, wish)) = first_satisfied(kernel, object, judged) {
        kernel.wake_waiter(waiter);
        put_on_slip(store, waiter, judged);
        cleared |= wish.cleared();
    }
    kernel.object_mut(object).kind = Kind::Group(Group { bits: judged & !cleared });
}

/// The first waiter of those whom these bits satisfy.
fn first_satisfied(kernel: &Kernel, object: ObjectSlot, bits: u32) -> Option<(TaskSlot, Wish)> {
    let satisfied = |task: TaskSlot| wish_of(kernel, task).filter(|wish| wish.satisfied_by(bits));
    let first = kernel.first_waiter_that(object, |task| satisfied(task).is_some())?;
    satisfied(first).map(|wish| (first, wish))
}

/// With fewer bits nobody is satisfied who was not before, so nobody is woken.
pub fn clear(kernel: &mut Kernel, object: ObjectSlot, group: Group, bits: u32) {
    kernel.object_mut(object).kind = Kind::Group(Group { bits: group.bits & !bits });
}

/// A caller satisfied at once gets the bits as they were before its own clear; another waits.
pub fn wait(kernel: &mut Kernel, store: &mut [u8], object: ObjectSlot, group: Group, wish: Wish, wait: u32) {
    if wish.satisfied_by(group.bits) {
        put_on_slip(store, kernel.running, group.bits);
        clear(kernel, object, group, wish.cleared());
    } else {
        kernel.wait_running(object, Role::Watcher(wish), wait);
    }
}
