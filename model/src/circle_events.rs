//! What a journal exercises of circles: takes that would close one, and takes whose chain ends
//! elsewhere.

use crate::chains::{chain, has_waiters, leads_back};
use crate::coverage::Coverage;
use crate::kernel::{Kernel, Role, Stand, TaskSlot, FOR_EVER};
use crate::refusals::CIRCLE;

/// How many tasks would be on the circle that this caller closes.
fn tasks_on_circle(kernel: &Kernel, holder: TaskSlot, caller: TaskSlot) -> usize {
    let between = chain(kernel, holder).iter().position(|&task| task == caller);
    between.map_or(0, |between| between + 2)
}

fn mutexes_of(kernel: &Kernel, task: TaskSlot) -> usize {
    kernel.objects.iter().filter(|object| object.holder() == Some(task)).count()
}

impl Coverage {
    /// A take of a held mutex that was refused by this row.
    pub fn observe_refused_take(&mut self, kernel: &Kernel, object: u32, wait: u32, row: u8) {
        let Some(holder) = kernel.find_mutex(object).and_then(|(_, mutex)| mutex.holder) else { return };
        let caller = kernel.running;
        let elsewhere = !leads_back(kernel, holder, caller);
        let links = chain(kernel, holder).len() + 1;
        match row {
            8 => self.event_if(!elsewhere && holder != caller, "circle: a wait under a hold is 8"),
            12 => self.event_if(has_waiters(kernel, caller), "circle: the holder's own take is 12, others wait for it"),
            14 => {
                self.event_if(links > 2, "take: wait 0, a chain of three links and more ends elsewhere");
                self.event_if(has_waiters(kernel, caller), "take: wait 0 with waiters, the chain ends elsewhere");
            }
            CIRCLE => {
                self.observe_circle(kernel, object, holder);
                self.observe_circle_wait(kernel, wait);
            }
            _ => {}
        }
    }

    /// The circle that is not closed.
    fn observe_circle(&mut self, kernel: &Kernel, object: u32, holder: TaskSlot) {
        let caller = kernel.running;
        match tasks_on_circle(kernel, holder, caller) {
            2 => self.event("circle: of two"),
            3 => self.event("circle: of three"),
            4..=7 => self.event("circle: of four to seven"),
            8..=14 => self.event("circle: of eight to fourteen"),
            15 => self.event("circle: of all fifteen tasks"),
            many => unreachable!("a circle of {many}"),
        }
        let (mutex, _) = kernel.find_mutex(object).expect("refused as a circle");
        self.event_if(kernel.object(mutex).waiters.len() > 1, "circle: several wait on that mutex already");
        self.event_if(mutexes_of(kernel, caller) > 1, "circle: the caller holds several");
        self.event_if(mutexes_of(kernel, holder) > 1, "circle: the holder holds several");
        let asked = Some((kernel.running_number(), object));
        self.event_if(self.refused_circles[caller.index()] == asked, "circle: the same take again");
        self.refused_circles[caller.index()] = asked;
    }

    /// "of any wait"
    fn observe_circle_wait(&mut self, kernel: &Kernel, wait: u32) {
        self.event(match wait {
            0 => "circle: wait 0",
            FOR_EVER => "circle: a wait for ever",
            _ => "circle: a timed wait",
        });
        self.event_if(kernel.hold > 0, "circle: under a hold");
        self.event_if(kernel.pended > 0, "circle: with ticks pended");
    }

    /// An accepted take.
    pub fn observe_accepted_take(&mut self, before: &Kernel, object: u32, after: &Kernel) {
        let caller = before.running;
        let asked = Some((before.running_number(), object));
        let again = self.refused_circles[caller.index()] == asked;
        if again {
            self.refused_circles[caller.index()] = None;
        }
        let with_waiters = has_waiters(before, caller);
        let chain = chain(after, caller);
        let Some(&last) = chain.last() else {
            self.event_if(again, "take: a circle before, now the caller's");
            self.event_if(with_waiters, "take: a free mutex, the caller has waiters");
            return;
        };
        self.event_if(again, "take: a circle before, now waits");
        self.event_if(with_waiters, "take: with waiters, the chain ends elsewhere");
        self.event_if(with_waiters && chain.len() > 2, "take: with waiters, a chain of three links and more");
        self.event_if(chain.len() > 6, "take: a chain of seven links and more");
        self.event_if(chain.len() == 14, "take: a chain of all fifteen tasks");
        self.event_if(
            chain.len() > 1,
            match after.task(last).stand {
                Stand::Delayed { .. } => "take: a chain to a delayed task",
                Stand::Suspended => "take: a chain to a suspended task",
                Stand::Waiting { role: Role::Watcher(_), .. } => "take: a chain to a task that waits on an event group",
                Stand::Waiting { .. } => "take: a chain to a task that waits on a queue",
                _ => "take: a chain to a ready task",
            },
        );
    }
}
