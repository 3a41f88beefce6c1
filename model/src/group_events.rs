//! What a journal exercises of event groups, beside what a set does: clears, waits, how they end, and what is turned away.

use crate::calls::Call;
use crate::coverage::Coverage;
use crate::groups::{wish_of, Group, Wish, ALL_BITS};
use crate::kernel::{apart, Kernel, Kind, ObjectSlot, Outcome, Stand, TaskSlot, FOR_EVER, IDLE};

/// Whether one of them waits for all of a mask that has some of these bits.
fn has_waiter_for(kernel: &Kernel, object: ObjectSlot, bits: u32) -> bool {
    let asks = |task: &TaskSlot| wish_of(kernel, *task).is_some_and(|wish| wish.all && wish.mask & bits != 0);
    kernel.object(object).waiters.iter().any(asks)
}

impl Coverage {
    /// Names what an accepted call did to an event group, or to one who waits on it.
    pub fn observe_groups(&mut self, before: &Kernel, call: &Call, after: &Kernel) {
        match *call {
            Call::MakeGroup => {
                let made = before.free_object().expect("accepted");
                self.event_if(before.object(made).uses > 0, "make: an event group in a slot used again");
            }
            Call::Remove { object } => self.observe_removed_group(before, object),
            Call::SetBits { object, bits } => {
                let (object, group) = before.find_group(object).expect("accepted");
                self.observe_set(before, object, group, bits, after);
            }
            Call::ClearBits { object, bits } => {
                let (object, group) = before.find_group(object).expect("accepted");
                self.observe_clear(before, object, group, bits);
            }
            Call::WaitBits { object, mask, all, clear, wait } => {
                let (object, group) = before.find_group(object).expect("accepted");
                let wish = Wish { mask, all: all == 1, clear: clear == 1 };
                if after.is_blocked(before.running) {
                    self.observe_begun(before, object, group, wish, wait);
                } else {
                    self.observe_at_once(before, object, group, wish, wait);
                }
            }
            Call::Tick | Call::Release | Call::Advance { .. } => self.observe_run_out(before, call, after),
            Call::Suspend { task } | Call::Delete { task } | Call::SetPriority { task, .. } => {
                let task = before.find_task(task).expect("accepted");
                self.observe_watcher(before, call, task);
            }
            Call::Take { object, .. } => {
                let holder = before.find_object(object).and_then(|object| before.object(object).holder());
                let lent = |task: TaskSlot| after.task(task).effective > before.task(task).effective;
                let watches = holder.is_some_and(|holder| wish_of(before, holder).is_some() && lent(holder));
                self.event_if(watches, "take: priority lent to one who waits on an event group");
            }
            _ => {}
        }
    }

    fn observe_removed_group(&mut self, before: &Kernel, object: u32) {
        if let Some((_, group)) = before.find_group(object) {
            self.event("remove: an event group");
            self.event_if(group.bits != 0, "remove: an event group with bits");
        }
    }

    fn observe_clear(&mut self, before: &Kernel, object: ObjectSlot, group: Group, bits: u32) {
        self.event_if(bits == 0, "clear: 0 bits");
        self.event_if(bits & group.bits != 0, "clear: bits that were set");
        self.event_if(bits != 0 && bits & group.bits == 0, "clear: bits that were not set");
        self.event_if(bits == ALL_BITS, "clear: all 24 bits");
        self.event_if(group.bits & !bits != 0, "clear: others stay");
        self.event_if(!before.object(object).waiters.is_empty(), "clear: some wait");
        let loses = has_waiter_for(before, object, bits & group.bits);
        self.event_if(loses, "clear: bits of one who waits for all");
        self.event_if(before.hold > 0, "clear: under a hold");
        self.event_if(before.running == IDLE, "clear: by idle");
    }

    /// The caller is satisfied at once.
    fn observe_at_once(&mut self, before: &Kernel, object: ObjectSlot, group: Group, wish: Wish, wait: u32) {
        self.event(match wait {
            0 => "bits: at once, wait 0",
            FOR_EVER => "bits: at once, a wait for ever",
            _ => "bits: at once, a timed wait",
        });
        self.event(match (wish.all, wish.clear) {
            (true, true) => "bits: at once, all, cleared",
            (true, false) => "bits: at once, all, kept",
            (false, true) => "bits: at once, any, cleared",
            (false, false) => "bits: at once, any, kept",
        });
        let part = group.bits & wish.mask != wish.mask;
        self.event_if(part, "bits: at once, any, not all of them");
        let beside = group.bits & !wish.mask != 0;
        self.event_if(wish.clear && beside, "bits: at once, cleared, others stay");
        let waiters = !before.object(object).waiters.is_empty();
        self.event_if(waiters, "bits: at once, others wait");
        let loses = has_waiter_for(before, object, wish.cleared() & group.bits);
        self.event_if(loses, "bits: at once, cleared bits of one who waits for all");
        self.event_if(before.running == IDLE, "bits: at once, by idle");
        self.event_if(before.hold > 0, "bits: at once, under a hold");
        self.event_if(before.task(before.running).outcome != Outcome::None, "bits: at once, an outcome stays");
    }

    /// The caller begins to wait.
    fn observe_begun(&mut self, before: &Kernel, object: ObjectSlot, group: Group, wish: Wish, wait: u32) {
        let caller = before.running;
        let some = group.bits & wish.mask != 0;
        self.event(match (wish.all, some) {
            (true, false) => "bits: waits for all, none is set",
            (true, true) => "bits: waits for all, some are set",
            _ => "bits: waits for any",
        });
        self.event(if wish.clear { "bits: waits to clear" } else { "bits: waits to keep" });
        self.event(if wait == FOR_EVER { "bits: waits for ever" } else { "bits: waits some ticks" });
        self.event_if(!wish.all && group.bits != 0, "bits: waits for any, others are set");
        self.event_if(wish.mask == ALL_BITS, "bits: waits with a mask of all 24");
        let waiters = before.object(object).waiters.len();
        self.event_if(waiters > 0, "bits: waits behind others");
        self.event_if(waiters > 3, "bits: the fifth to wait, and more");
        self.event_if(before.holds_a_mutex(caller), "bits: a holder waits");
        let slot = before.task(caller);
        self.event_if(slot.effective > slot.own, "bits: a task with a loan waits");
    }

    /// Waits that end on a tick.
    fn observe_run_out(&mut self, before: &Kernel, call: &Call, after: &Kernel) {
        let ended = |task: &TaskSlot| wish_of(before, *task).is_some() && after.task(*task).stand == Stand::Ready;
        let ended: Vec<TaskSlot> = TaskSlot::all().filter(ended).collect();
        if ended.is_empty() {
            return;
        }
        self.event(match call {
            Call::Tick => "tick: a wait on an event group ran out",
            Call::Release => "release: a wait on an event group ran out",
            _ => "advance: a wait on an event group ran out",
        });
        self.event_if(ended.len() > 1, "bits: several waits ran out in one call");
        let some = |task: &TaskSlot| match before.task(*task).stand {
            Stand::Waiting { object, .. } => {
                matches!(before.object(object).kind, Kind::Group(group) if group.bits != 0)
            }
            _ => false,
        };
        self.event_if(ended.iter().any(some), "bits: a wait ran out with some bits set");
    }

    fn observe_watcher(&mut self, before: &Kernel, call: &Call, task: TaskSlot) {
        if wish_of(before, task).is_some() {
            self.event(match call {
                Call::Suspend { .. } => "suspend: a waiter on an event group",
                Call::Delete { .. } => "delete: a waiter on an event group",
                _ => "set priority: a waiter on an event group",
            });
        }
    }

    /// A call that was refused by this row, and has to do with an event group.
    pub fn observe_refused_groups(&mut self, kernel: &Kernel, call: &Call, row: u8) {
        match *call {
            Call::SetBits { object, .. } | Call::ClearBits { object, .. } | Call::WaitBits { object, .. }
                if row < 6 =>
            {
                match row {
                    4 => self.observe_out_of_range(kernel, call),
                    _ => self.observe_no_group(kernel, object),
                }
            }
            Call::WaitBits { object, mask, all, clear, .. } => {
                let (_, group) = kernel.find_group(object).expect("rows 4 and 5 have passed");
                let wish = Wish { mask, all: all == 1, clear: clear == 1 };
                self.observe_refused_wait(kernel, group, wish, row);
            }
            Call::Remove { object } if row == 10 => {
                self.event_if(kernel.find_group(object).is_some(), "remove: an event group with waiters is 10");
            }
            Call::Send { object, .. } | Call::Receive { object, .. } if kernel.find_group(object).is_some() => {
                self.event("bits: an event group is no queue, 5");
            }
            Call::Take { object, .. } | Call::Give { object } if kernel.find_group(object).is_some() => {
                self.event("bits: an event group is no mutex, 5");
            }
            _ => {}
        }
    }

    /// A call on bits whose number names no event group.
    fn observe_no_group(&mut self, kernel: &Kernel, number: u32) {
        let (slot, _) = apart(number);
        match (kernel.find_object(number), kernel.objects[slot].kind) {
            (Some(_), Kind::Queue(_)) => self.event("bits: a queue is no event group, 5"),
            (Some(_), _) => self.event("bits: a mutex is no event group, 5"),
            (None, Kind::Group(_)) => self.event("bits: an event group's slot by another use, 5"),
            _ => {}
        }
    }

    /// "4 for bits above the 24, a flag above 1 or an empty wait mask"
    fn observe_out_of_range(&mut self, kernel: &Kernel, call: &Call) {
        let (object, bits) = match *call {
            Call::SetBits { object, bits } => {
                self.event("bits: set above the 24 is 4");
                (object, bits)
            }
            Call::ClearBits { object, bits } => {
                self.event("bits: cleared above the 24 is 4");
                (object, bits)
            }
            Call::WaitBits { object, mask, all, clear, .. } => {
                self.event_if(mask > ALL_BITS, "bits: a mask above the 24 is 4");
                self.event_if(mask == 0, "bits: an empty mask is 4");
                let right = (1..=ALL_BITS).contains(&mask);
                self.event_if(right && all > 1 && clear <= 1, "bits: only all above 1 is 4");
                self.event_if(right && all <= 1 && clear > 1, "bits: only clear above 1 is 4");
                (object, mask)
            }
            _ => return,
        };
        self.event_if(bits == ALL_BITS + 1, "bits: 16,777,216 is 4");
        self.event_if(kernel.find_group(object).is_none(), "bits: 4 before 5");
    }

    /// A wait that no row before 7 turned away.
    fn observe_refused_wait(&mut self, kernel: &Kernel, group: Group, wish: Wish, row: u8) {
        let some = group.bits & wish.mask != 0;
        match (row, wish.satisfied_by(group.bits)) {
            (7, false) => self.event("bits: idle's wait is 7"),
            (7, true) => self.event("bits: idle's wait where satisfied is 7"),
            (8, false) => self.event("bits: a wait under a hold is 8"),
            (8, true) => self.event("bits: a wait under a hold where satisfied is 8"),
            _ => {
                self.event(match (wish.all, some) {
                    (true, true) => "bits: wait 0 for all, some are set, is 14",
                    (true, false) => "bits: wait 0 for all, none is set, is 14",
                    _ => "bits: wait 0 for any is 14",
                });
                self.event_if(kernel.hold > 0, "bits: wait 0 under a hold is 14");
                self.event_if(kernel.running == IDLE, "bits: idle's wait 0 is 14");
            }
        }
    }
}
