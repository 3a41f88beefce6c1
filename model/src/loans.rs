//! Loans: "a task's effective priority is the largest own priority among itself and all tasks
//! that wait, directly or along a chain of holders, on a mutex it holds." The rule is here
//! twice: the kernel goes by a search, and the self-check compares it with walks.

use crate::chains::holder_over;
use crate::kernel::{Kernel, TaskSlot, TASKS};

/// A set of task slots, a bit for each.
type Slots = u16;

/// The effective priority in each slot, by a search from it over those who wait.
pub fn by_search(kernel: &Kernel) -> [u8; TASKS] {
    let waiters = waiters_of_holders(kernel);
    std::array::from_fn(|slot| {
        let lenders = lenders(slot, &waiters);
        let own = |other: usize| if lenders >> other & 1 == 1 { kernel.tasks[other].own } else { 0 };
        (0..TASKS).map(own).max().expect("there are slots")
    })
}

/// For each slot, who waits on a mutex that its task holds, by the lists of the objects.
fn waiters_of_holders(kernel: &Kernel) -> [Slots; TASKS] {
    let mut waiters = [0; TASKS];
    for object in &kernel.objects {
        if let Some(holder) = object.holder() {
            for waiter in &object.waiters {
                waiters[holder.index()] |= 1 << waiter.index();
            }
        }
    }
    waiters
}

/// Whether this task lends to the other: it is that one, or waits, directly or along a chain of
/// holders, on a mutex that the other holds.
pub fn lends(kernel: &Kernel, task: TaskSlot, other: TaskSlot) -> bool {
    lenders(other.index(), &waiters_of_holders(kernel)) >> task.index() & 1 == 1
}

/// All who lend to this slot, itself among them. "a circle must still end": each is looked at
/// once.
fn lenders(slot: usize, waiters: &[Slots; TASKS]) -> Slots {
    let mut found: Slots = 1 << slot;
    let mut left = found;
    while left != 0 {
        let next = left.trailing_zeros() as usize;
        left &= left - 1;
        let new = waiters[next] & !found;
        found |= new;
        left |= new;
    }
    found
}

/// The same by walks, one from each task along the holders, by what the tasks say of
/// themselves. Only the waits of those for whom `waits` is true count. After as many steps as
/// there are tasks a walk has met all that it can meet.
pub fn by_walks(kernel: &Kernel, waits: impl Fn(TaskSlot) -> bool) -> [u8; TASKS] {
    let mut effective = kernel.tasks.map(|task| task.own);
    for lender in TaskSlot::all() {
        let mut at = lender;
        for _ in 0..TASKS {
            let Some(holder) = holder_over(kernel, at).filter(|_| waits(at)) else { break };
            let so_far = &mut effective[holder.index()];
            *so_far = kernel.task(lender).own.max(*so_far);
            at = holder;
        }
    }
    effective
}
