//! What a journal exercises of recursive mutexes: takes by the holder, gives that leave it the holder, the last give,
//! and what others meet meanwhile.

use crate::calls::Call;
use crate::chains::has_waiters;
use crate::coverage::Coverage;
use crate::kernel::{Kernel, Kind, Mutex, ObjectSlot, Outcome, Stand, TaskSlot, FOR_EVER, IDLE, MOST_TAKES};
use crate::refusals::{CIRCLE, COUNT_FULL};

/// What was seen of the mutex in one object slot.
#[derive(Clone, Copy, Default)]
pub struct Nesting {
    /// The largest count that its holder, or the last one, has reached.
    deepest: u32,
    /// Whether its holder got it by a give.
    handed_on: bool,
    /// The number of the task that gave it last, and its own.
    given: Option<(u32, u32)>,
    /// Whether the slot had a recursive mutex before.
    was_recursive: bool,
}

/// The recursive mutex of this number.
fn recursive(kernel: &Kernel, number: u32) -> Option<(ObjectSlot, Mutex)> {
    kernel.find_mutex(number).filter(|(_, mutex)| mutex.recursive)
}

/// Whether the object is a mutex that its holder has taken more than once.
fn is_nested(kernel: &Kernel, object: ObjectSlot) -> bool {
    matches!(kernel.object(object).kind, Kind::Mutex(mutex) if mutex.count > 1)
}

/// The mutexes that this task has taken more than once.
fn nested_by(kernel: &Kernel, task: TaskSlot) -> impl Iterator<Item = ObjectSlot> + '_ {
    ObjectSlot::all().filter(move |&object| is_nested(kernel, object) && kernel.object(object).holder() == Some(task))
}

/// Whether this task waits on a mutex that its holder has taken more than once.
fn waits_on_nested(kernel: &Kernel, task: TaskSlot) -> bool {
    matches!(kernel.task(task).stand, Stand::Waiting { object, .. } if is_nested(kernel, object))
}

fn has_loan(kernel: &Kernel, task: TaskSlot) -> bool {
    kernel.task(task).effective > kernel.task(task).own
}

impl Coverage {
    /// Names what an accepted call did to a recursive mutex, or while one was taken more than once.
    pub fn observe_again(&mut self, before: &Kernel, call: &Call, after: &Kernel) {
        match *call {
            Call::Take { object, wait } => {
                let (object, mutex) = before.find_mutex(object).expect("accepted");
                if mutex.recursive {
                    self.observe_recursive_take(before, object, mutex, wait, after);
                }
            }
            Call::Give { object } => {
                let (slot, mutex) = before.find_mutex(object).expect("accepted");
                match (mutex.recursive, mutex.count) {
                    (false, _) => {}
                    (true, 1) => self.observe_last_give(before, slot, after),
                    (true, _) => self.observe_inner_give(before, slot, mutex),
                }
                self.nesting[slot.index()].given = Some((before.running_number(), object));
            }
            Call::Tick | Call::Release | Call::Advance { .. } => self.observe_timeouts(before, call, after),
            Call::Suspend { task } | Call::Delete { task } => {
                let task = before.find_task(task).expect("accepted");
                let suspend = matches!(call, Call::Suspend { .. });
                self.event_if(suspend && waits_on_nested(before, task), "suspend: a waiter at count above 1");
                self.event_if(!suspend && waits_on_nested(before, task), "delete: a waiter at count above 1");
                let holds = nested_by(before, task).next().is_some();
                self.event_if(suspend && holds, "suspend: a holder at count above 1");
            }
            Call::Resume { task } => {
                let task = before.find_task(task).expect("accepted");
                self.event_if(nested_by(before, task).next().is_some(), "resume: a holder at count above 1");
            }
            Call::MakeQueue { .. } | Call::MakeMutex | Call::MakeRecursiveMutex | Call::MakeGroup => {
                let made = before.free_object().expect("accepted");
                let was_recursive = self.nesting[made.index()].was_recursive;
                self.nesting[made.index()] = Nesting { was_recursive, ..Nesting::default() };
                let again = before.object(made).uses > 0;
                match call {
                    Call::MakeMutex => {
                        self.event_if(was_recursive, "make: an ordinary mutex where a recursive one was")
                    }
                    Call::MakeRecursiveMutex => self.event_if(again, "make: a recursive mutex in a slot used again"),
                    Call::MakeGroup => self.event_if(was_recursive, "make: an event group where a recursive mutex was"),
                    _ => self.event_if(was_recursive, "make: a queue where a recursive mutex was"),
                }
            }
            Call::Remove { object } => {
                if let Some((object, _)) = recursive(before, object) {
                    let deepest = self.nesting[object.index()].deepest;
                    self.event("remove: a recursive mutex");
                    self.event_if(deepest > 1, "remove: a recursive mutex that was taken again");
                    self.nesting[object.index()].was_recursive = true;
                }
            }
            _ => {}
        }
    }

    /// The caller takes a recursive mutex for the first time, takes it again, or waits on it.
    fn observe_recursive_take(&mut self, before: &Kernel, object: ObjectSlot, mutex: Mutex, wait: u32, after: &Kernel) {
        let caller = before.running;
        let seen = self.nesting[object.index()];
        let Some(holder) = mutex.holder else {
            self.event("take: a free recursive mutex");
            self.event_if(seen.deepest > 1, "take: a free recursive mutex that was taken again before");
            self.nesting[object.index()] = Nesting { deepest: 1, handed_on: false, ..seen };
            return;
        };
        if holder != caller {
            let lent = after.task(holder).effective > before.task(holder).effective;
            self.event_if(mutex.count > 1, "take: waits at count above 1");
            self.event_if(mutex.count > 1 && lent, "take: priority lent at count above 1");
            self.event_if(mutex.count == MOST_TAKES, "full: another waits");
            return;
        }
        let count = mutex.count + 1;
        self.event(match wait {
            0 => "again: wait 0",
            FOR_EVER => "again: a wait for ever",
            _ => "again: a timed wait",
        });
        self.event(match count {
            2 => "again: count 2",
            3..=9 => "again: count 3 to 9",
            MOST_TAKES => "again: count 255",
            _ => "again: count 10 to 254",
        });
        self.event_if(before.hold > 0, "again: under a hold");
        self.event_if(!before.object(object).waiters.is_empty(), "again: others wait on it");
        self.event_if(has_loan(before, caller), "again: with a loan");
        self.event_if(seen.handed_on, "again: by one to whom it was handed on");
        self.event_if(count <= seen.deepest, "again: after a give");
        let another = nested_by(before, caller).any(|other| other != object);
        self.event_if(another, "again: another one is at count above 1");
        self.nesting[object.index()].deepest = seen.deepest.max(count);
    }

    /// "each give takes one off": the caller stays the holder.
    fn observe_inner_give(&mut self, before: &Kernel, object: ObjectSlot, mutex: Mutex) {
        let waiters = &before.object(object).waiters;
        self.event_if(waiters.is_empty(), "give: one off, nobody waits");
        self.event_if(!waiters.is_empty(), "give: one off, others wait");
        self.event_if(!waiters.is_empty() && mutex.count == 2, "give: one off, down to 1, others wait");
        let lent = !waiters.is_empty() && has_loan(before, before.running);
        self.event_if(lent, "give: one off, the loan stays");
        let chained = waiters.iter().any(|&waiter| has_waiters(before, waiter));
        self.event_if(lent && chained, "give: one off, a loan along a chain stays");
        self.event_if(before.hold > 0, "give: one off, under a hold");
    }

    /// "only the last hands it on, at count 1, or frees it"
    fn observe_last_give(&mut self, before: &Kernel, object: ObjectSlot, after: &Kernel) {
        let seen = self.nesting[object.index()];
        let again = seen.deepest > 1;
        let all = seen.deepest == MOST_TAKES;
        let caller = before.running;
        if after.object(object).holder().is_none() {
            self.event_if(again, "give: the last of several, it is free");
            self.event_if(all, "give: the last of 255, it is free");
            self.event_if(
                again && seen.handed_on,
                "give: the last of several by one to whom it was handed on, it is free",
            );
        } else {
            self.event("give: a recursive mutex is handed on");
            self.event_if(again, "give: the last of several, it is handed on");
            self.event_if(all, "give: the last of 255, it is handed on");
            let ends = after.task(caller).effective < before.task(caller).effective;
            self.event_if(again && ends, "give: the last of several, the loan ends");
            let stay = !after.object(object).waiters.is_empty();
            self.event_if(again && stay, "give: the last of several, it is handed on and others wait");
            self.event_if(again && seen.handed_on, "give: the last of several, it is handed on once more");
            self.nesting[object.index()] = Nesting { deepest: 1, handed_on: true, ..seen };
        }
        self.event_if(all && seen.handed_on, "give: the last of 255 by one to whom it was handed on");
    }

    /// Waits that end on a tick while the mutex stays as it is.
    fn observe_timeouts(&mut self, before: &Kernel, call: &Call, after: &Kernel) {
        let timed_out = |task: &TaskSlot| {
            let slot = after.task(*task);
            waits_on_nested(before, *task) && slot.stand == Stand::Ready && slot.outcome == Outcome::TimeRanOut
        };
        if !TaskSlot::all().any(|task| timed_out(&task)) {
            return;
        }
        self.event(match call {
            Call::Tick => "tick: a waiter timed out at count above 1",
            Call::Release => "release: a waiter timed out at count above 1",
            _ => "advance: a waiter timed out at count above 1",
        });
        let falls = |task: TaskSlot| after.task(task).effective < before.task(task).effective;
        let ends = TaskSlot::all().any(|task| falls(task) && nested_by(before, task).next().is_some());
        self.event_if(ends, "again: a loan ends by a timeout at count above 1");
    }

    /// A call that was refused by this row, and has to do with a recursive mutex.
    pub fn observe_refused_again(&mut self, kernel: &Kernel, call: &Call, row: u8) {
        match *call {
            Call::Take { object, wait } => {
                if let Some((object, mutex)) = kernel.find_mutex(object) {
                    self.observe_refused_take_again(kernel, object, mutex, wait, row);
                }
            }
            Call::Give { object } if row == 11 => {
                let Some((slot, mutex)) = recursive(kernel, object) else { return };
                self.event_if(mutex.holder.is_none(), "give: of a free recursive mutex is 11");
                self.event_if(mutex.count > 1, "give: by another at count above 1 is 11");
                let once_more = self.nesting[slot.index()].given == Some((kernel.running_number(), object));
                self.event_if(once_more, "give: once too often is 11");
            }
            Call::Delete { task } if row == 10 => {
                let task = kernel.find_task(task).expect("refused for what it holds");
                self.event_if(nested_by(kernel, task).next().is_some(), "delete: a holder at count above 1 is 10");
                let given =
                    |object: ObjectSlot| kernel.object(object).holder() == Some(task) && self.is_given(kernel, object);
                self.event_if(ObjectSlot::all().any(given), "delete: a holder after a give is 10");
            }
            Call::Remove { object } if row == 10 => {
                let Some((object, mutex)) = recursive(kernel, object) else { return };
                self.event_if(mutex.count > 1, "remove: a mutex at count above 1 is 10");
                self.event_if(self.is_given(kernel, object), "remove: a mutex after a give is 10");
            }
            Call::Send { object, .. } if row == 5 => {
                self.event_if(recursive(kernel, object).is_some(), "send: to a recursive mutex is 5");
            }
            Call::Receive { object, .. } if row == 5 => {
                self.event_if(recursive(kernel, object).is_some(), "receive: from a recursive mutex is 5");
            }
            _ => {}
        }
    }

    /// Whether the holder of this mutex has given it, and still holds it.
    fn is_given(&self, kernel: &Kernel, object: ObjectSlot) -> bool {
        matches!(kernel.object(object).kind, Kind::Mutex(mutex) if mutex.count < self.nesting[object.index()].deepest)
    }

    fn observe_refused_take_again(&mut self, kernel: &Kernel, object: ObjectSlot, mutex: Mutex, wait: u32, row: u8) {
        let caller = kernel.running;
        let seen = self.nesting[object.index()];
        let own = mutex.recursive && mutex.holder == Some(caller);
        let waiters = !kernel.object(object).waiters.is_empty();
        let full = mutex.count == MOST_TAKES;
        match row {
            7 if mutex.recursive && caller == IDLE => self.event(match wait {
                0 => "again: idle's take of a recursive mutex is 7",
                _ => "again: idle's take of a recursive mutex with a wait is 7",
            }),
            8 => {
                self.event_if(own, "again: a wait under a hold is 8");
                self.event_if(own && full, "full: a wait under a hold is 8");
            }
            12 => {
                let recursive_too = nested_by(kernel, caller).next().is_some();
                self.event_if(recursive_too, "again: an ordinary mutex is 12, another is at count above 1");
                self.event_if(seen.was_recursive, "again: an ordinary mutex is 12 where a recursive one was");
            }
            COUNT_FULL => {
                self.event(match wait {
                    0 => "full: wait 0",
                    FOR_EVER => "full: a wait for ever",
                    _ => "full: a timed wait",
                });
                self.event(if waiters { "full: others wait on it" } else { "full: nobody waits on it" });
                self.event_if(kernel.hold > 0, "full: under a hold");
                self.event_if(seen.handed_on, "full: by one to whom it was handed on");
            }
            CIRCLE => {
                self.event_if(mutex.count > 1, "circle: the mutex is at count above 1");
                let asked_for = nested_by(kernel, caller).any(|own| !kernel.object(own).waiters.is_empty());
                self.event_if(asked_for, "circle: others wait on the caller's mutex at count above 1");
            }
            14 => {
                self.event_if(mutex.count > 1, "take: wait 0 at count above 1 is 14");
                self.event_if(full, "full: another's take is 14");
            }
            _ => {}
        }
    }
}
