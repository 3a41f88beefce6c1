//! Chains: a task that waits on a mutex, the mutex's holder, whom that one waits for, and so on. A
//! wait on a queue is no link.

use crate::kernel::{Kernel, Stand, TaskSlot, TASKS};

/// The holder of the mutex on which this task waits, if it waits on one.
pub fn holder_over(kernel: &Kernel, task: TaskSlot) -> Option<TaskSlot> {
    let Stand::Waiting { object, .. } = kernel.task(task).stand else { return None };
    kernel.object(object).holder()
}

/// Whether somebody waits on a mutex that this task holds.
pub fn has_waiters(kernel: &Kernel, task: TaskSlot) -> bool {
    TaskSlot::all().any(|other| holder_over(kernel, other) == Some(task))
}

/// The holders along the chain from this task, the nearest first; on a circle each of them once.
pub fn chain(kernel: &Kernel, task: TaskSlot) -> Vec<TaskSlot> {
    let mut chain = Vec::new();
    let mut at = task;
    while let Some(holder) = holder_over(kernel, at) {
        if chain.contains(&holder) {
            break;
        }
        chain.push(holder);
        at = holder;
    }
    chain
}

/// Whether "the chain from that mutex's holder, through mutexes being waited on, leads back to the
/// caller". After as many steps as there are tasks it has met all that it can meet, so it ends on a
/// circle too.
pub fn leads_back(kernel: &Kernel, holder: TaskSlot, caller: TaskSlot) -> bool {
    let chain = std::iter::successors(Some(holder), |&at| holder_over(kernel, at));
    chain.take(TASKS).any(|task| task == caller)
}
