//! The author's plans for event groups: several wait on one, for some of few bits, and bits are set and cleared.

use super::{call, decimal, Author, Fields, Plan, MOST_AHEAD};
use crate::groups::{wish_of, Group, Wish, ALL_BITS};
use crate::kernel::{Kernel, Kind, ObjectSlot, TaskSlot, FOR_EVER, IDLE};

/// More groups than these leave little room for other objects.
const MOST_GROUPS: usize = 3;

/// What is done with one event group.
#[derive(Clone, Copy, PartialEq)]
pub(super) struct Gate {
    object: ObjectSlot,
    /// Few bits, so that masks overlap.
    bits: u32,
    /// How many are to wait before bits are set.
    crowd: usize,
    /// Whether it was found, or made since.
    stands: bool,
}

fn group_in(kernel: &Kernel, object: ObjectSlot) -> Option<Group> {
    match kernel.object(object).kind {
        Kind::Group(group) => Some(group),
        _ => None,
    }
}

fn groups(kernel: &Kernel) -> Vec<ObjectSlot> {
    ObjectSlot::all().filter(|&object| group_in(kernel, object).is_some()).collect()
}

/// What those who wait on this group ask for.
fn wishes(kernel: &Kernel, object: ObjectSlot) -> Vec<Wish> {
    kernel.object(object).waiters.iter().filter_map(|&task| wish_of(kernel, task)).collect()
}

fn wait_for(number: u32, wish: Wish, wait: u32) -> Fields {
    call(&[23, number, wish.mask, u32::from(wish.all), u32::from(wish.clear), wait])
}

impl Author {
    /// A plan for one group that stands, or is to be made.
    pub(super) fn open_a_gate(&mut self) -> Plan {
        let found = groups(self.kernel());
        let any = if found.is_empty() { None } else { Some(self.random.pick(&found)) };
        let new = self.kernel().free_object().filter(|_| found.len() < MOST_GROUPS);
        let object = if self.random.percent(50) { new.or(any) } else { any.or(new) };
        let crowd = self.random.pick(&[1, 2, 2, 3, 3, 4, 6]);
        let bits = self.few_bits();
        let lines = self.random.between(14, 26 + 6 * crowd);
        match object {
            Some(object) => {
                let stands = group_in(self.kernel(), object).is_some();
                Plan::Gate(lines, Gate { object, bits, crowd: crowd as usize, stands })
            }
            None => Plan::None,
        }
    }

    /// Two to five of the 24, those at the borders of bytes more often.
    fn few_bits(&mut self) -> u32 {
        let count = self.random.between(2, 5);
        (0..count).fold(0, |bits, _| bits | 1 << self.random.pick(&[0, 1, 7, 8, 12, 15, 16, 20, 22, 23]))
    }

    /// Some of these bits, or none.
    fn some_of(&mut self, bits: u32) -> u32 {
        bits & self.random.word() as u32
    }

    /// What the running task does at the gate.
    pub(super) fn gate_call(&mut self, left: u32, gate: Gate) -> Option<Fields> {
        let kernel = &self.machine.kernel;
        if !gate.stands && kernel.free_object() == Some(gate.object) {
            return Some(call(&[20]));
        }
        let Some(group) = group_in(kernel, gate.object).filter(|_| left > 0) else {
            self.plan = Plan::None;
            return self.after_gate(gate);
        };
        self.plan = Plan::Gate(left - 1, Gate { stands: true, ..gate });
        let waiters = kernel.object(gate.object).waiters.len();
        if kernel.running == IDLE {
            return self.gate_by_idle(gate, group, waiters);
        }
        if kernel.hold > 0 {
            return self.gate_under_a_hold(gate, group);
        }
        match self.random.below(100) {
            0..=47 if waiters < gate.crowd => Some(self.wait_at(gate, group)),
            48..=66 if waiters < gate.crowd => self.another_at(gate),
            0..=42 => Some(self.set_call(gate)),
            43..=50 => Some(self.wait_at(gate, group)),
            _ => self.at_the_gate(gate, group),
        }
    }

    /// One group too many goes, if nobody waits on it.
    fn after_gate(&mut self, gate: Gate) -> Option<Fields> {
        let kernel = self.kernel();
        let many = groups(kernel).len() > MOST_GROUPS || kernel.free_object().is_none();
        let number = kernel.object_number(gate.object);
        let goes = group_in(kernel, gate.object).is_some() && (many || self.random.percent(35));
        goes.then(|| call(&[12, number]))
    }

    /// The caller waits, mostly; where every bit is set, some are cleared.
    fn wait_at(&mut self, gate: Gate, group: Group) -> Fields {
        let number = self.kernel().object_number(gate.object);
        match self.wish_at(gate, group, false) {
            Some(wish) => wait_for(number, wish, self.time_at()),
            None => call(&[22, number, gate.bits]),
        }
    }

    /// Something to ask for, of the few bits; one that is satisfied or not, if it is found.
    fn wish_at(&mut self, gate: Gate, group: Group, satisfied: bool) -> Option<Wish> {
        let wishes: Vec<Wish> = (0..12).map(|_| self.any_wish(gate)).collect();
        wishes.into_iter().find(|wish| wish.satisfied_by(group.bits) == satisfied)
    }

    fn any_wish(&mut self, gate: Gate) -> Wish {
        let mask = match self.random.below(100) {
            0..=69 => self.some_of(gate.bits),
            70..=91 => gate.bits,
            92..=94 => ALL_BITS,
            _ => 1 << self.random.below(24),
        };
        let mask = if mask == 0 { gate.bits } else { mask };
        Wish { mask, all: self.random.percent(50), clear: self.random.percent(55) }
    }

    /// For how long; never 0.
    fn time_at(&mut self) -> u32 {
        match self.random.below(100) {
            0..=39 => FOR_EVER,
            40..=74 => self.random.between(1, MOST_AHEAD),
            _ => self.random.between(9, 60),
        }
    }

    /// Another task comes: above the running one, level with it, or level with one who waits.
    fn another_at(&mut self, gate: Gate) -> Option<Fields> {
        let kernel = &self.machine.kernel;
        let level = |task: TaskSlot| u32::from(kernel.task(task).effective);
        let waiters = &kernel.object(gate.object).waiters;
        let lent = waiters.iter().find(|&&task| level(task) > u32::from(kernel.task(task).own));
        if kernel.free_task().is_none() || self.random.percent(if lent.is_some() { 10 } else { 40 }) {
            return self.another_task();
        }
        let any = (!waiters.is_empty()).then(|| self.random.pick(waiters));
        let beside = lent.copied().or(any).filter(|_| self.random.percent(60));
        Some(call(&[1, level(beside.unwrap_or(kernel.running))]))
    }

    /// A set that satisfies one, several, or nobody.
    fn set_call(&mut self, gate: Gate) -> Fields {
        let kernel = &self.machine.kernel;
        let wishes = wishes(kernel, gate.object);
        let number = kernel.object_number(gate.object);
        let bits = match self.random.below(100) {
            0..=29 if !wishes.is_empty() => {
                let wish = self.random.pick(&wishes);
                self.needed(wish)
            }
            30..=51 => {
                let some: Vec<Wish> = wishes.iter().copied().filter(|_| self.random.percent(60)).collect();
                some.into_iter().fold(0, |bits, wish| bits | self.needed(wish))
            }
            52..=66 => gate.bits,
            67..=84 => self.some_of(gate.bits),
            85..=89 => 0,
            90..=92 => ALL_BITS,
            93..=96 => self.some_of(ALL_BITS),
            _ => 1 << 23,
        };
        call(&[21, number, bits])
    }

    /// Bits that satisfy this one.
    fn needed(&mut self, wish: Wish) -> u32 {
        let some = self.some_of(wish.mask);
        if wish.all || some == 0 {
            wish.mask
        } else {
            some
        }
    }

    /// For idle: somebody comes or is woken, or idle is turned away.
    fn gate_by_idle(&mut self, gate: Gate, group: Group, waiters: usize) -> Option<Fields> {
        let number = self.kernel().object_number(gate.object);
        match self.random.below(100) {
            0..=49 if waiters < gate.crowd => self.another_task(),
            0..=52 => Some(self.set_call(gate)),
            53..=64 => self.another_at(gate),
            65..=82 => Some(self.asks_at(gate, group)),
            83..=85 => Some(self.clear_at(number, gate)),
            86..=88 => Some(call(&[12, number])),
            89..=95 => Some(self.time_passes()),
            _ => Some(self.refused_at(gate)),
        }
    }

    fn gate_under_a_hold(&mut self, gate: Gate, group: Group) -> Option<Fields> {
        let number = self.kernel().object_number(gate.object);
        match self.random.below(100) {
            0..=34 => Some(self.set_call(gate)),
            35..=44 => Some(self.clear_at(number, gate)),
            45..=57 => Some(self.asks_at(gate, group)),
            58..=62 => self.another_at(gate),
            63..=68 => Some(call(&[17])),
            _ => Some(call(&[9])),
        }
    }

    fn clear_at(&mut self, number: u32, gate: Gate) -> Fields {
        let bits = match self.random.below(100) {
            0..=54 => self.some_of(gate.bits),
            55..=74 => gate.bits,
            75..=84 => 0,
            85..=91 => ALL_BITS,
            _ => self.some_of(ALL_BITS),
        };
        call(&[22, number, bits])
    }

    /// A wait that is satisfied at once, or turned away.
    fn asks_at(&mut self, gate: Gate, group: Group) -> Fields {
        let number = self.kernel().object_number(gate.object);
        let satisfied = self.random.percent(60);
        let wish = self.wish_at(gate, group, satisfied).unwrap_or_else(|| self.any_wish(gate));
        // Idle, and anyone under a hold, is turned away for the wait alone.
        let turned_away = self.kernel().running == IDLE || self.kernel().hold > 0;
        let wait = match self.random.below(100) {
            0..=49 if turned_away => self.time_at(),
            _ if wish.satisfied_by(group.bits) => self.any_wait(),
            _ => 0,
        };
        wait_for(number, wish, wait)
    }

    fn time_passes(&mut self) -> Fields {
        let ticks = self.random.between(1, 5);
        if self.kernel().hold > 0 || self.random.percent(50) {
            call(&[17])
        } else {
            call(&[18, ticks])
        }
    }

    /// What else the running task does.
    fn at_the_gate(&mut self, gate: Gate, group: Group) -> Option<Fields> {
        let kernel = &self.machine.kernel;
        let number = kernel.object_number(gate.object);
        let waiters = &kernel.object(gate.object).waiters;
        match self.random.below(100) {
            0..=15 => Some(self.asks_at(gate, group)),
            16..=25 => Some(self.clear_at(number, gate)),
            26..=35 => Some(self.time_passes()),
            36..=43 => Some(call(&[8])),
            44..=52 if !waiters.is_empty() => Some(self.stir_a_waiter(gate)),
            53..=64 => self.lend_at(gate),
            65..=67 => Some(call(&[12, number])),
            68..=77 => Some(self.refused_at(gate)),
            78..=80 => Some(call(&[6, self.random.between(1, MOST_AHEAD)])),
            81..=83 => Some(call(&[3, kernel.running_number()])),
            84..=87 => Some(call(&[7])),
            _ => None,
        }
    }

    /// One who waits, the first to come or any, is suspended, deleted or set to another priority.
    fn stir_a_waiter(&mut self, gate: Gate) -> Fields {
        let waiters = self.kernel().object(gate.object).waiters.clone();
        let waiter = if self.random.percent(30) { waiters[0] } else { self.random.pick(&waiters) };
        let number = self.kernel().task_number(waiter);
        let mut fields = call(&[self.random.pick(&[2, 3, 3, 5, 5]), number]);
        if fields[0] == b"5" {
            let level = u32::from(self.kernel().task(waiter).effective);
            fields.push(decimal((level + self.random.below(4)).saturating_sub(1).min(31)));
        }
        fields
    }

    /// The caller lends to a holder who waits at the gate; without one, it takes a mutex itself, to wait with it.
    fn lend_at(&mut self, gate: Gate) -> Option<Fields> {
        let kernel = &self.machine.kernel;
        let caller = kernel.running;
        let waits = |object: &ObjectSlot| {
            kernel.object(*object).holder().is_some_and(|task| kernel.object(gate.object).waiters.contains(&task))
        };
        let held: Vec<ObjectSlot> = ObjectSlot::all().filter(waits).collect();
        if held.is_empty() {
            return (!kernel.holds_a_mutex(caller)).then(|| self.take_a_free_one());
        }
        let wait = self.time_at();
        let object = self.random.pick(&held);
        Some(call(&[15, self.kernel().object_number(object), wait]))
    }

    /// A call that is turned away for its numbers.
    fn refused_at(&mut self, gate: Gate) -> Fields {
        let number = self.kernel().object_number(gate.object);
        let above = self.random.pick(&[ALL_BITS + 1, ALL_BITS + 1, ALL_BITS + 2, 1 << 31, FOR_EVER]);
        let wish = self.any_wish(gate);
        let wait = self.any_wait();
        let flags = [u32::from(wish.all), u32::from(wish.clear)];
        let flag = self.random.pick(&[2, 2, 3, 256, FOR_EVER]);
        match self.random.below(13) {
            0 => call(&[21, number, above]),
            1 => call(&[22, number, above]),
            2 => call(&[23, number, above, flags[0], flags[1], wait]),
            3 => call(&[23, number, 0, flags[0], flags[1], wait]),
            4 => call(&[23, number, wish.mask, flag, flags[1], wait]),
            5 => call(&[23, number, wish.mask, flags[0], flag, wait]),
            6 => self.as_a_queue(number),
            7 => call(&[16, number]),
            8 => call(&[15, number, wait]),
            _ => self.of_another_kind(gate, wish, wait),
        }
    }

    /// A call on bits of what is no event group, or by a number of another use.
    fn of_another_kind(&mut self, gate: Gate, wish: Wish, wait: u32) -> Fields {
        let kernel = &self.machine.kernel;
        let is_other = |object: &ObjectSlot| matches!(kernel.object(*object).kind, Kind::Queue(_) | Kind::Mutex(_));
        let mut others: Vec<ObjectSlot> = ObjectSlot::all().filter(is_other).collect();
        // There are more mutexes, mostly.
        others.sort_by_key(|&object| kernel.object(object).holder().is_some());
        others.truncate(if self.random.percent(50) { 1 } else { others.len() });
        let other = if others.is_empty() { gate.object } else { self.random.pick(&others) };
        let number = self.kernel().object_number(other);
        let number = if other == gate.object || self.random.percent(20) { self.other_use(number) } else { number };
        match self.random.below(3) {
            0 => call(&[21, number, wish.mask]),
            1 => call(&[22, number, wish.mask]),
            _ => wait_for(number, wish, wait),
        }
    }

    /// The arguments of a call on bits; each is wild so many times in a hundred.
    pub(super) fn on_bits(&mut self, number: u32, wildness: u32) -> Fields {
        let object = self.object(number, wildness);
        if number != 23 {
            return call(&[object, self.bits(wildness)]);
        }
        // Three of its numbers can be out of range, so each seldom is.
        let seldom = wildness / 3;
        let mut fields = call(&[object, self.bits(seldom), self.flag(seldom), self.flag(seldom)]);
        fields.push(self.wait(wildness, false));
        fields
    }

    /// Bits for any call: few of them, so that they meet.
    fn bits(&mut self, wildness: u32) -> u32 {
        if self.random.percent(wildness) {
            return self.random.pick(&[0, 0, 1, ALL_BITS, ALL_BITS + 1, ALL_BITS + 1, ALL_BITS + 2, 1 << 31, FOR_EVER]);
        }
        match self.random.below(100) {
            0..=69 => self.random.between(1, 7),
            70..=89 => self.few_bits(),
            90..=94 => ALL_BITS,
            _ => self.random.below(ALL_BITS + 1),
        }
    }

    fn flag(&mut self, wildness: u32) -> u32 {
        if self.random.percent(wildness) {
            self.random.pick(&[0, 1, 2, 2, 3, 255, 256, FOR_EVER])
        } else {
            self.random.below(2)
        }
    }

    /// A wait of so long on this group, which makes the caller wait as long as a bit is not set.
    pub(super) fn begin_at(&mut self, object: ObjectSlot, wait: u32) -> Fields {
        let bits = group_in(self.kernel(), object).map_or(0, |group| group.bits);
        let wishes: Vec<Wish> = (0..8)
            .map(|_| Wish { mask: self.bits(0), all: self.random.percent(70), clear: self.random.percent(50) })
            .collect();
        let every = Wish { mask: ALL_BITS, all: true, clear: false };
        let wish = wishes.into_iter().find(|wish| !wish.satisfied_by(bits)).unwrap_or(every);
        wait_for(self.kernel().object_number(object), wish, wait)
    }

    /// A set that wakes this one, who waits on this group.
    pub(super) fn set_for(&self, task: TaskSlot, object: ObjectSlot) -> Fields {
        let bits = wish_of(self.kernel(), task).map_or(0, |wish| wish.mask);
        call(&[21, self.kernel().object_number(object), bits])
    }
}
