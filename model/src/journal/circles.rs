//! The author's plans for circles: a long chain is made, and then takes are tried; some would close
//! a circle, others lead elsewhere.

use super::{call, decimal, Author, Fields, Plan, MOST_AHEAD};
use crate::chains::{chain, has_waiters, leads_back};
use crate::kernel::{Kernel, Kind, ObjectSlot, Role, Stand, TaskSlot, FOR_EVER, IDLE, OBJECTS, TASKS};

/// Idle never waits, so a chain of all others has a link less than these are.
pub(super) const MOST_LINKS: usize = TASKS - 2;

/// Where the task at which a chain ends is to stand.
#[derive(Clone, Copy, PartialEq)]
pub(super) enum Rest {
    Ready,
    Delayed,
    Suspended,
    OnAQueue,
    OnAGroup,
}

/// The mutexes that another task holds: those whose chain leads back to the caller, and the others.
pub(super) fn held_by_others(kernel: &Kernel) -> (Vec<ObjectSlot>, Vec<ObjectSlot>) {
    let caller = kernel.running;
    let holder_of = |object: &ObjectSlot| kernel.object(*object).holder();
    let of_another = |object: &ObjectSlot| holder_of(object).is_some_and(|holder| holder != caller);
    let back = |object: &ObjectSlot| holder_of(object).is_some_and(|holder| leads_back(kernel, holder, caller));
    ObjectSlot::all().filter(of_another).partition(back)
}

/// How many links the chain from this mutex's holder has.
pub(super) fn links_from(kernel: &Kernel, object: ObjectSlot) -> usize {
    kernel.object(object).holder().map_or(0, |holder| chain(kernel, holder).len())
}

impl Author {
    /// A plan for one chain of so many links.
    pub(super) fn stretch_tasks(&mut self, links: usize) -> Plan {
        const RESTS: [Rest; 6] =
            [Rest::Ready, Rest::Ready, Rest::Delayed, Rest::Suspended, Rest::OnAQueue, Rest::OnAGroup];
        let rest = self.random.pick(&RESTS);
        Plan::Stretch(10 + 5 * links as u32, links, rest)
    }

    /// What the running task does for a chain of so many links; none if it stands, or cannot be made.
    pub(super) fn stretch_call(&mut self, links: usize, rest: Rest) -> Option<Fields> {
        let kernel = &self.machine.kernel;
        let caller = kernel.running;
        if TaskSlot::all().any(|task| chain(kernel, task).len() >= links) {
            return None;
        }
        if caller == IDLE {
            return self.another_task();
        }
        if !kernel.holds_a_mutex(caller) {
            return self.first_mutex(links);
        }
        let (_, elsewhere) = held_by_others(kernel);
        let joins = !has_waiters(kernel, caller) || self.random.percent(15);
        if links < MOST_LINKS && self.random.percent(12) {
            if let Some(fields) = self.again_call() {
                return Some(fields);
            }
        }
        if joins && !elsewhere.is_empty() {
            return Some(self.link_at_the_far_end(&elsewhere, links));
        }
        match rest {
            Rest::Ready => self.another_task(),
            _ => Some(self.rest_call(rest)),
        }
    }

    /// The caller waits on one of these mutexes, mostly on one at the far end of the longest chain.
    fn link_at_the_far_end(&mut self, mutexes: &[ObjectSlot], links: usize) -> Fields {
        let all = links == MOST_LINKS;
        let any = self.random.pick(mutexes);
        let far = mutexes.iter().max_by_key(|&&object| links_from(&self.machine.kernel, object));
        let object = if all || self.random.percent(70) { *far.unwrap_or(&any) } else { any };
        let wait = match self.random.below(100) {
            0..=84 if all => FOR_EVER,
            0..=44 => FOR_EVER,
            45..=84 => self.random.between(10, 60),
            _ => self.random.between(2, 9),
        };
        call(&[15, self.kernel().object_number(object), wait])
    }

    /// A task above the running one is created, or gets its turn; without a free slot, one that holds nothing goes.
    pub(super) fn another_task(&mut self) -> Option<Fields> {
        let kernel = &self.machine.kernel;
        let caller = kernel.running;
        let level = u32::from(kernel.task(caller).effective);
        if level == 31 && kernel.running_line().len() > 1 {
            return Some(call(&[7]));
        }
        if kernel.free_task().is_some() {
            let idle = caller == IDLE && self.random.percent(70);
            let priority = if idle { self.random.between(1, 20) } else { level + self.random.pick(&[1, 1, 1, 2]) };
            return Some(call(&[1, priority.min(31)]));
        }
        let is_light = |task: &TaskSlot| *task != caller && *task != IDLE && !kernel.holds_a_mutex(*task);
        TaskSlot::all().find(is_light).map(|task| call(&[2, kernel.task_number(task)]))
    }

    /// The caller takes a free mutex, or makes it; without a free slot, another object without waiters goes for the
    /// longest chain.
    fn first_mutex(&mut self, links: usize) -> Option<Fields> {
        let fields = self.take_a_free_one();
        if self.refusal_of(&fields).is_none() {
            return Some(fields);
        }
        if links < MOST_LINKS {
            return None;
        }
        let kernel = self.kernel();
        let unused = |object: &ObjectSlot| {
            !matches!(kernel.object(*object).kind, Kind::Mutex(_)) && kernel.object(*object).waiters.is_empty()
        };
        ObjectSlot::all().find(unused).map(|object| call(&[12, kernel.object_number(object)]))
    }

    /// A free mutex goes if most objects are mutexes, so that there is room for others again.
    pub(super) fn spare_mutex(&self) -> Option<Fields> {
        let kernel = self.kernel();
        let is_mutex = |object: &ObjectSlot| matches!(kernel.object(*object).kind, Kind::Mutex(_));
        let mutexes: Vec<ObjectSlot> = ObjectSlot::all().filter(is_mutex).collect();
        let spare = mutexes.iter().rfind(|&&object| kernel.object(object).holder().is_none())?;
        (mutexes.len() > 11 * OBJECTS / 16).then(|| call(&[12, kernel.object_number(*spare)]))
    }

    /// The running task goes to stand so.
    fn rest_call(&mut self, rest: Rest) -> Fields {
        let kernel = &self.machine.kernel;
        let ticks = self.random.between(3, 12);
        match rest {
            Rest::Delayed => call(&[6, ticks]),
            Rest::OnAQueue => {
                let is_empty =
                    |object: &ObjectSlot| matches!(kernel.object(*object).kind, Kind::Queue(queue) if queue.count == 0);
                let wait = if self.random.percent(50) { FOR_EVER } else { ticks };
                match ObjectSlot::all().find(is_empty) {
                    Some(queue) => call(&[14, kernel.object_number(queue), wait]),
                    None => call(&[10, 2, 1]),
                }
            }
            Rest::OnAGroup => {
                let is_group = |object: &ObjectSlot| matches!(kernel.object(*object).kind, Kind::Group(_));
                let wait = if self.random.percent(50) { FOR_EVER } else { ticks };
                match ObjectSlot::all().find(is_group) {
                    Some(group) => self.begin_at(group, wait),
                    None => call(&[20]),
                }
            }
            Rest::Ready | Rest::Suspended => call(&[3, kernel.running_number()]),
        }
    }

    /// What follows on `Close`.
    pub(super) fn after_close(&mut self) -> Plan {
        let due = self.kernel().tick.wrapping_add(MOST_AHEAD);
        match self.random.below(100) {
            _ if self.kernel().hold > 0 => Plan::Descend,
            _ if self.kernel().free_task().is_none() => Plan::Untie(30),
            0..=39 => Plan::Stir(due, self.random.below(12)),
            _ => Plan::Untie(self.random.between(6, 24)),
        }
    }

    /// A take that may close a circle, or what changes whether it does. So many lines are left; `last` is who asked last,
    /// and for which mutex.
    pub(super) fn close_call(&mut self, left: u32, last: Option<(TaskSlot, ObjectSlot)>) -> Option<Fields> {
        let kernel = &self.machine.kernel;
        let caller = kernel.running;
        if caller == IDLE {
            return self.wake_a_holder();
        }
        let (back, elsewhere) = held_by_others(kernel);
        let for_another = last.is_some_and(|(asker, _)| asker != caller);
        match self.random.below(100) {
            // So that the other may get what it asked for.
            0..=34 if for_another => self.give_call(),
            0..=54 => {
                let again = last.filter(|&(asker, _)| asker == caller && self.random.percent(45));
                let object = again.map(|(_, object)| object).or_else(|| self.asked_for(&back, &elsewhere))?;
                self.plan = Plan::Close(left, Some((caller, object)));
                Some(self.ask(object))
            }
            55..=61 => {
                let own = |object: &ObjectSlot| kernel.object(*object).holder() == Some(caller);
                let object = ObjectSlot::all().find(own)?;
                Some(self.ask(object))
            }
            62..=72 => Some(call(&[if kernel.hold == 0 { 8 } else { 9 }])),
            73..=80 => self.break_a_link(),
            81..=87 => Some(call(&[17])),
            88..=92 => self.give_call(),
            93..=95 => self.bring_a_task(),
            _ => None,
        }
    }

    /// A take that would close a circle: of one of these mutexes.
    pub(super) fn circle_call(&mut self, back: &[ObjectSlot]) -> Option<Fields> {
        let object = self.asked_for(back, back)?;
        Some(self.ask(object))
    }

    /// A take of any wait.
    pub(super) fn ask(&mut self, object: ObjectSlot) -> Fields {
        let wait = self.any_wait();
        call(&[15, self.kernel().object_number(object), wait])
    }

    /// Somebody who waits for the caller, directly or along a chain, is suspended.
    fn break_a_link(&mut self) -> Option<Fields> {
        let kernel = &self.machine.kernel;
        let waits = |task: &TaskSlot| chain(kernel, *task).contains(&kernel.running);
        let links: Vec<TaskSlot> = TaskSlot::all().filter(waits).collect();
        if links.is_empty() {
            return self.bring_a_task();
        }
        let link = self.random.pick(&links);
        Some(call(&[3, self.kernel().task_number(link)]))
    }

    /// A mutex to be asked for: mostly one whose chain leads back to the caller, the longest way, with the most waiters
    /// or any.
    fn asked_for(&mut self, back: &[ObjectSlot], elsewhere: &[ObjectSlot]) -> Option<ObjectSlot> {
        let mutexes = if back.is_empty() || self.random.percent(12) { elsewhere } else { back };
        if mutexes.is_empty() {
            return None;
        }
        let kernel = &self.machine.kernel;
        let way = |object: &&ObjectSlot| {
            let holder = kernel.object(**object).holder()?;
            chain(kernel, holder).iter().position(|&task| task == kernel.running)
        };
        match self.random.below(100) {
            0..=39 => mutexes.iter().max_by_key(way).copied(),
            40..=59 => mutexes.iter().max_by_key(|object| kernel.object(**object).waiters.len()).copied(),
            _ => Some(self.random.pick(mutexes)),
        }
    }

    /// "of any wait"; with a hold mostly 0.
    pub(super) fn any_wait(&mut self) -> u32 {
        let held = self.kernel().hold > 0;
        match self.random.below(100) {
            0..=64 if held => 0,
            0..=34 => 0,
            35..=69 => self.random.between(1, 9),
            _ => FOR_EVER,
        }
    }

    /// For idle: a task that others wait for is resumed, or gets what it waits for; else a tick.
    fn wake_a_holder(&mut self) -> Option<Fields> {
        let kernel = &self.machine.kernel;
        let holder = TaskSlot::all().find(|&task| has_waiters(kernel, task) && chain(kernel, task).is_empty());
        match holder {
            Some(holder) => Some(self.wake(holder)),
            None => self.bring_a_task(),
        }
    }

    /// For idle: this task is resumed, or gets what it waits for on a queue or an event group; else a tick.
    pub(super) fn wake(&mut self, task: TaskSlot) -> Fields {
        let kernel = &self.machine.kernel;
        match kernel.task(task).stand {
            Stand::Suspended => call(&[4, kernel.task_number(task)]),
            Stand::Waiting { object, role: role @ (Role::Sender | Role::Receiver), .. } => {
                let number = kernel.object_number(object);
                let mut fields = call(&[if role == Role::Receiver { 13 } else { 14 }, number]);
                if role == Role::Receiver {
                    fields.push(self.item(number, 0));
                }
                fields.push(decimal(0));
                fields
            }
            Stand::Waiting { object, role: Role::Watcher(_), .. } => self.set_for(task, object),
            _ => {
                let ticks = kernel.distance(task).unwrap_or(1).min(MOST_AHEAD);
                if self.random.percent(50) {
                    call(&[17])
                } else {
                    call(&[18, ticks])
                }
            }
        }
    }
}
