//! The author's plans for recursive mutexes: one is taken again and again, others wait on it, and it is given as often;
//! then whoever got it does the same.

use super::{call, decimal, Author, Fields, Plan, MOST_AHEAD};
use crate::kernel::{Kernel, Kind, Mutex, ObjectSlot, Stand, TaskSlot, FOR_EVER, IDLE, MOST_TAKES};

/// What is done with one recursive mutex.
#[derive(Clone, Copy, PartialEq)]
pub(super) struct Nest {
    object: ObjectSlot,
    /// How often its holder takes it.
    most: u32,
    /// Whether others are to wait on it.
    shared: bool,
    /// Who goes this way; nobody at first.
    holder: Option<TaskSlot>,
    way: Way,
}

#[derive(Clone, Copy, PartialEq)]
enum Way {
    Up,
    /// The count is reached, and stays about there for this many lines.
    Top(u32),
    Down,
}

fn mutex_in(kernel: &Kernel, object: ObjectSlot) -> Option<Mutex> {
    match kernel.object(object).kind {
        Kind::Mutex(mutex) => Some(mutex),
        _ => None,
    }
}

/// The mutexes of one kind that the running task holds.
fn own_mutexes(kernel: &Kernel, recursive: bool) -> Vec<ObjectSlot> {
    let is_own = |mutex: Mutex| mutex.recursive == recursive && mutex.holder == Some(kernel.running);
    ObjectSlot::all().filter(|&object| mutex_in(kernel, object).is_some_and(is_own)).collect()
}

impl Author {
    /// A plan for a few takes.
    pub(super) fn nest_a_few(&mut self) -> Plan {
        let most = self.random.pick(&[2, 2, 3, 3, 4, 6, 12]);
        let lines = self.random.between(20, 30 + 5 * most);
        let shared = self.random.percent(60);
        self.nest(lines, most, shared)
    }

    /// A plan for as many takes as there can be, by one task or, every other time, by two.
    pub(super) fn nest_all(&mut self) -> Plan {
        self.nest_shared = !self.nest_shared;
        self.nest(1_300, MOST_TAKES, self.nest_shared)
    }

    /// A recursive mutex that nobody holds, or any, or one that is still to be made.
    fn nest(&mut self, lines: u32, most: u32, shared: bool) -> Plan {
        let kernel = &self.machine.kernel;
        let is_recursive = |object: &ObjectSlot| mutex_in(kernel, *object).is_some_and(|mutex| mutex.recursive);
        let found: Vec<ObjectSlot> = ObjectSlot::all().filter(is_recursive).collect();
        let free = found.iter().copied().find(|&object| kernel.object(object).holder().is_none());
        let any = if found.is_empty() { None } else { Some(self.random.pick(&found)) };
        let object = if !shared || self.random.percent(50) { free } else { any };
        match object.or(self.kernel().free_object()) {
            Some(object) => Plan::Nest(lines, Nest { object, most, shared, holder: None, way: Way::Up }),
            None => Plan::None,
        }
    }

    /// What the running task does with the mutex.
    pub(super) fn nest_call(&mut self, left: u32, nest: Nest) -> Option<Fields> {
        let kernel = &self.machine.kernel;
        let caller = kernel.running;
        if kernel.free_object() == Some(nest.object) && nest.holder.is_none() {
            return Some(call(&[19]));
        }
        let mutex = mutex_in(kernel, nest.object).filter(|mutex| mutex.recursive && left > 0);
        let Some(mutex) = mutex else {
            self.plan = self.after_nest(nest);
            return None;
        };
        self.plan = Plan::Nest(left - 1, nest);
        match mutex.holder {
            _ if caller == IDLE => self.nest_by_idle(nest, mutex),
            None => self.nest_of_nobody(left - 1, nest),
            Some(holder) if holder == caller => self.nest_by_holder(left - 1, nest, mutex),
            Some(holder) => self.nest_by_another(nest, mutex, holder),
        }
    }

    /// What was not given yet is given, so that few mutexes stay at a high count.
    fn after_nest(&self, nest: Nest) -> Plan {
        let count = mutex_in(self.kernel(), nest.object).map_or(0, |mutex| mutex.count);
        if count > 3 && nest.way != Way::Down {
            Plan::Nest(count + count / 4, Nest { way: Way::Down, ..nest })
        } else {
            Plan::None
        }
    }

    /// The caller may take it; after it was given, it is given once too often, or goes.
    fn nest_of_nobody(&mut self, left: u32, nest: Nest) -> Option<Fields> {
        let number = self.kernel().object_number(nest.object);
        let given = nest.way == Way::Down;
        match self.random.below(100) {
            0..=24 if given => Some(call(&[16, number])),
            25..=36 if given => {
                self.plan = Plan::None;
                Some(call(&[12, number]))
            }
            37..=44 if given => Some(call(&[2, self.kernel().running_number()])),
            0..=4 => Some(call(&[16, number])),
            _ => {
                let nest = Nest { holder: Some(self.kernel().running), way: Way::Up, ..nest };
                self.plan = Plan::Nest(left, nest);
                Some(self.ask(nest.object))
            }
        }
    }

    fn nest_by_holder(&mut self, left: u32, nest: Nest, mutex: Mutex) -> Option<Fields> {
        let all = nest.most == MOST_TAKES;
        let lines = if all { 36 } else { 9 };
        let way = match nest.way {
            // Handed on, or held before there was a plan.
            _ if nest.holder != mutex.holder => Way::Up,
            Way::Up if mutex.count >= nest.most => Way::Top(self.random.between(lines / 3, lines)),
            Way::Top(0) => Way::Down,
            Way::Top(left) => Way::Top(left - 1),
            way => way,
        };
        let nest = Nest { holder: mutex.holder, way, ..nest };
        self.plan = Plan::Nest(left, nest);
        // Few other calls on the long way, and many once the count is full.
        let other = match way {
            Way::Top(_) if all => 50,
            Way::Up | Way::Down if all => 4,
            _ => 22,
        };
        if self.random.percent(other) {
            return self.meanwhile(nest);
        }
        let give = match way {
            Way::Up => 3,
            Way::Top(_) if all => 15,
            Way::Top(_) => 30,
            Way::Down => 94,
        };
        if self.random.percent(give) {
            return Some(call(&[16, self.kernel().object_number(nest.object)]));
        }
        Some(self.ask(nest.object))
    }

    /// What else the holder does.
    fn meanwhile(&mut self, nest: Nest) -> Option<Fields> {
        let kernel = &self.machine.kernel;
        let number = kernel.object_number(nest.object);
        let waiters = &kernel.object(nest.object).waiters;
        match self.random.below(100) {
            0..=39 if nest.shared && waiters.len() < 3 && kernel.hold == 0 => self.another_task(),
            0..=13 => Some(call(&[if kernel.hold == 0 { 8 } else { 9 }])),
            14..=27 if kernel.hold == 0 => {
                let ticks = self.random.between(1, 4);
                Some(if self.random.percent(50) { call(&[17]) } else { call(&[18, ticks]) })
            }
            14..=27 => Some(call(&[self.random.pick(&[9, 17, 17])])),
            28..=39 => self.again_call(),
            40..=47 => Some(call(&[2, kernel.running_number()])),
            48..=55 => Some(call(&[12, number])),
            56..=61 => Some(self.as_a_queue(number)),
            62..=69 if !waiters.is_empty() => {
                let waiter = kernel.task_number(self.random.pick(waiters));
                Some(call(&[self.random.pick(&[2, 3, 3]), waiter]))
            }
            70..=76 => Some(self.ordinary_again()),
            77..=81 => Some(call(&[3, kernel.running_number()])),
            82..=85 => Some(call(&[6, self.random.between(1, MOST_AHEAD)])),
            86..=91 => self.another_task(),
            _ => None,
        }
    }

    /// For one that is not the holder: it waits, or is turned away, or makes room.
    fn nest_by_another(&mut self, nest: Nest, mutex: Mutex, holder: TaskSlot) -> Option<Fields> {
        let kernel = &self.machine.kernel;
        let number = kernel.object_number(nest.object);
        let choice = self.random.below(100);
        if kernel.hold > 0 && choice < 60 {
            return Some(call(&[9]));
        }
        let (waits, asks) = match nest.shared {
            true if mutex.count == MOST_TAKES => (35, 62),
            true => (52, 62),
            false => (3, 13),
        };
        match choice {
            _ if choice < waits => {
                let wait = match self.random.below(100) {
                    0..=44 => self.random.between(1, 6),
                    45..=69 => self.random.between(7, 60),
                    _ => FOR_EVER,
                };
                Some(call(&[15, number, wait]))
            }
            _ if choice < asks => Some(call(&[15, number, 0])),
            62..=71 => Some(call(&[16, number])),
            72..=76 => Some(call(&[2, kernel.task_number(holder)])),
            77..=81 => Some(call(&[12, number])),
            82..=84 => self.again_call(),
            85..=89 => Some(call(&[3, kernel.running_number()])),
            _ if kernel.task(holder).stand == Stand::Suspended => Some(call(&[4, kernel.task_number(holder)])),
            _ => Some(call(&[6, self.random.between(1, MOST_AHEAD)])),
        }
    }

    /// Idle is turned away, or the holder is brought to run.
    fn nest_by_idle(&mut self, nest: Nest, mutex: Mutex) -> Option<Fields> {
        let number = self.kernel().object_number(nest.object);
        match (self.random.below(100), mutex.holder) {
            (0..=10, _) => Some(self.ask(nest.object)),
            (11..=12, _) => Some(call(&[16, number])),
            (13..=15, Some(_)) => Some(call(&[12, number])),
            (16..=18, Some(holder)) => Some(call(&[2, self.kernel().task_number(holder)])),
            (_, Some(holder)) => Some(self.wake(holder)),
            _ => self.bring_a_task(),
        }
    }

    /// The caller takes one of its recursive mutexes again.
    pub(super) fn again_call(&mut self) -> Option<Fields> {
        let own = own_mutexes(self.kernel(), true);
        if own.is_empty() {
            return None;
        }
        let object = self.random.pick(&own);
        Some(self.ask(object))
    }

    /// The caller takes one of its ordinary mutexes again; without one, it takes a free one.
    fn ordinary_again(&mut self) -> Fields {
        match own_mutexes(self.kernel(), false).first() {
            Some(&object) => self.ask(object),
            None => self.take_a_free_one(),
        }
    }

    /// A send or receive by this number.
    pub(super) fn as_a_queue(&mut self, number: u32) -> Fields {
        let send = self.random.percent(50);
        let mut fields = call(&[if send { 13 } else { 14 }, number]);
        if send {
            fields.push(self.item(number, 0));
        }
        fields.push(decimal(self.any_wait()));
        fields
    }
}
