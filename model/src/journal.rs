//! A seeded author of random journals. It runs the model on what it writes, so that
//! most calls are accepted and meet a busy kernel.

use crate::calls::{Answer, Call};
use crate::chains;
use crate::coverage::Coverage;
use crate::damage;
use crate::groups::ALL_BITS;
use crate::kernel::{
    apart, number_of, Kernel, Kind, Mutex, ObjectSlot, Stand, TaskSlot, FOR_EVER, IDLE, LAST_USE, MOST_ADVANCE,
    MOST_HOLD, MOST_PENDED, RETIRED, TASKS,
};
use crate::line::{read_call, ITEM_BYTES};
use crate::machine::Machine;
use crate::random::Random;
use crate::refusals::{refusal, CIRCLE};
use again::Nest;
use circles::{held_by_others, links_from, Rest, MOST_LINKS};
use events::Gate;

mod again;
mod circles;
mod events;

/// How often each call is tried, by call number; one row for each mood.
#[rustfmt::skip]
const MOODS: [[u32; 24]; 11] = [
    // cre del sus res set dly yld hld rel mkq mkm rem snd rcv tak giv tick adv mkr mkg sbt cbt wbt
    [0,  6,  2,  4,  6,  5,  7,  4,  2,  4,  4,  3,  2, 17, 17,  9,  8, 12, 21,  2,  1,  4,  2,  5], // mixed
    [0,  6,  2,  3,  4,  2, 16,  4,  2,  4,  3,  1,  1, 10, 10,  6,  4, 30, 16,  1,  1,  2,  1,  4], // time
    [0,  6,  2,  3,  4,  3,  3,  2,  1,  3,  4,  0,  2, 32, 32,  1,  2,  8, 16,  0,  0,  1,  1,  1], // queues
    [0,  6,  2,  4,  5,  8,  4,  2,  1,  3,  0,  4,  1,  2,  2, 26, 16,  8, 20,  3,  0,  1,  1,  2], // mutexes
    [0,  4,  2,  4,  4,  5,  6,  1, 12, 12,  3,  1,  1,  9,  9,  5,  5, 24, 15,  1,  1,  3,  2,  3], // holds
    [0, 12, 12,  8, 10,  6,  4,  2,  1,  3, 10,  7, 14, 10, 10,  6,  5,  6, 16,  5,  5,  2,  1,  3], // slots
    [0,  8,  1,  2,  4,  6,  4, 16,  1,  3,  2,  1,  1,  5,  5,  6,  6, 24, 17,  1,  1,  2,  1,  3], // crowd
    [0,  2,  1,  6,  2,  3, 24,  2,  2,  6,  4,  1,  2, 14, 23,  6,  2,  6, 13,  1,  1,  4,  2,  5], // quiet: idle runs often
    [0,  6,  2,  3,  5,  4, 20,  4,  1,  3,  3,  1,  1, 10, 11,  9,  4,  3, 72,  1,  1,  2,  1,  4], // sleep
    [0,  9,  1,  2,  4,  6,  9,  6,  1,  3,  3,  1,  1,  9,  9,  9,  7,  3, 72,  1,  1,  2,  1,  4], // sleep in a crowd
    [0,  8,  2,  3,  4,  5,  5,  4,  2,  4,  2,  1,  2,  4,  4,  7,  5,  8, 16,  1,  3, 16,  6, 28], // events
];

/// The refusals that are aimed at. The count is full only after 255 takes, which `Nest` makes.
const AIMED: [u8; 13] = [4, 5, 6, 7, 8, 9, 10, 11, 12, 13, 14, 15, CIRCLE];

/// Calls that can get each refusal that is aimed at, some more often.
#[rustfmt::skip]
const CALLS_OF_ROW: [&[u32]; 18] = [
    &[], &[], &[], &[],
    &[1, 5, 6, 10, 18, 18, 18, 21, 22, 23],
    &[2, 2, 3, 3, 4, 5, 5, 12, 12, 13, 13, 14, 15, 16, 21, 22, 23],
    &[13],
    &[2, 3, 5, 6, 13, 14, 15, 23],
    &[2, 3, 6, 7, 13, 14, 15, 18, 18, 23],
    &[1, 10, 11, 19, 20],
    &[2, 12],
    &[16],
    &[15],
    &[4],
    &[13, 14, 15, 23],
    &[8, 9],
    &[],
    &[15],
];

/// Tasks gather for a tick that is at most so far ahead.
const MOST_AHEAD: u32 = 8;

/// A task that is not alone in its line seldom advances further: that takes as many turns.
const MOST_TURNS: u32 = 400;

/// Something that takes many lines.
#[derive(Clone, Copy, PartialEq)]
enum Plan {
    None,
    /// Long waits for this many lines, then `Pend`.
    Settle(u32),
    /// Ticks under a hold up to 65,535, then this many more lines.
    Pend(u32),
    /// Holds up to depth 255, then this many more lines.
    Climb(u32),
    /// Releases down to depth 0; now and then `Gather` or `Untie` follows.
    Descend,
    /// Delays and waits that end on this tick or one of the next two, for this many lines, then `Pass`.
    Gather(u32, u32),
    /// Ticks up to this one, in this way; then `Descend`.
    Pass(u32, Way),
    /// Mutexes are taken, and waited on up to this tick or one of the next two, for this many lines, so that chains
    /// come about, and takes that would close a circle; then `Stir`. Or many wait on one mutex, and `Untie` follows.
    Link(u32, u32, bool),
    /// Calls that change what is lent along chains, for this many lines, then `Pass` to this tick or `Untie`.
    Stir(u32, u32),
    /// Mutexes are given back, for this many lines.
    Untie(u32),
    /// Tasks are deleted, and who holds a mutex gives it, until more than so many task slots are free or for this many
    /// lines; then `Link`, `Pair` or `Stretch`.
    Clear(u32, usize),
    /// For this many lines one chain is made, up to so many links; then `Close`.
    Stretch(u32, usize, Rest),
    /// Takes that would close a circle, and others, for this many lines; with who asked last, and for which mutex. Then
    /// `Stir` or `Untie`.
    Close(u32, Option<(TaskSlot, ObjectSlot)>),
    /// Tasks of the first priority each take a mutex, and tasks of the second each wait on one of these up to this tick
    /// or the next, for this many lines; then `Pass` or `Untie`.
    Pair(u32, u32, (u32, u32)),
    /// One recursive mutex is taken again, waited on and given, for this many lines.
    Nest(u32, Nest),
    /// Several wait on one event group, and bits are set and cleared, for this many lines.
    Gate(u32, Gate),
    /// Waits that end about when the count returns to 0, for this many lines, then `Lap`.
    Await(u32),
    /// Advances up to this count, each by a task alone in its line; then `Gather`, or `Pass` over the return to 0.
    Lap(u32),
    /// Sends to this queue until it is full and this many lines more, then `Drain`.
    Fill(ObjectSlot, u32),
    /// Receives from this queue for this many lines.
    Drain(ObjectSlot, u32),
    /// Deletes the task in this slot and creates another, again and again, for this many lines.
    RenewTask(TaskSlot, u32),
    /// Removes the object in this slot and makes another, again and again, for this many lines.
    RenewObject(ObjectSlot, u32),
}

#[derive(Clone, Copy, PartialEq)]
enum Way {
    /// Call 17, one after the other.
    Single,
    /// The same under a hold.
    Pended,
    /// Call 18, one or several.
    Advance,
}

type Fields = Vec<Vec<u8>>;

pub struct Author {
    random: Random,
    machine: Machine,
    lines: u64,
    written: u64,
    mood: usize,
    mood_left: u32,
    /// Priorities of new tasks in this mood.
    low: u32,
    high: u32,
    plan: Plan,
    pend_at: u64,
    lap_at: u64,
    nest_at: u64,
    /// Whether others are to wait on the mutex whose count was filled last.
    nest_shared: bool,
    ends_cut: bool,
    coverage: Option<Coverage>,
}

impl Author {
    pub fn new(seed: u64, lines: u64) -> Author {
        let mut random = Random::new(seed);
        // 65,535 pended ticks need that many lines, so only a long journal has them.
        let pend_at =
            if lines >= 100_000 { lines / 20 + u64::from(random.below((lines / 5) as u32)) } else { u64::MAX };
        // The count's return to 0 needs 65,537 lines more, and comes after them.
        let lap_at = if lines >= 300_000 { lines / 2 + u64::from(random.below((lines / 8) as u32)) } else { u64::MAX };
        // A full count needs 255 lines and as many to give it back, so a short journal seldom has one.
        let nest_at = u64::from(random.below((4 * lines).clamp(1, 16_000) as u32));
        let nest_shared = random.percent(50);
        let ends_cut = random.percent(25);
        Author {
            random,
            machine: Machine::new(false),
            lines,
            written: 0,
            mood: 0,
            mood_left: 0,
            low: 0,
            high: 31,
            plan: Plan::None,
            pend_at,
            lap_at,
            nest_at,
            nest_shared,
            ends_cut,
            coverage: None,
        }
    }

    pub fn with_coverage(mut self) -> Author {
        self.coverage = Some(Coverage::default());
        self
    }

    pub fn coverage(&self) -> Option<&Coverage> {
        self.coverage.as_ref()
    }

    /// The next line, or none when all are written.
    pub fn next_line(&mut self) -> Option<Vec<u8>> {
        if self.written == self.lines {
            return None;
        }
        self.written += 1;
        let is_last = self.written == self.lines;
        let fields = self.next_call();
        let line = if is_last && self.ends_cut {
            self.cut(&fields)
        } else if self.random.percent(4) {
            self.damage(&fields)
        } else {
            damage::join(&fields)
        };
        self.run(&line);
        Some(line)
    }

    /// A last line without a newline.
    fn cut(&mut self, fields: &Fields) -> Vec<u8> {
        if let Some(coverage) = &mut self.coverage {
            *coverage.damaged.entry("cut end").or_insert(0) += 1;
        }
        let mut line = damage::join(fields);
        line.pop();
        match self.random.below(4) {
            0 => line.truncate(1),
            1 => line.resize(self.random.pick(&[255, 256, 257, 3_000]), b'1'),
            _ => {}
        }
        line
    }

    fn damage(&mut self, fields: &Fields) -> Vec<u8> {
        let mut kind = self.random.pick(&damage::KINDS);
        // These are large; seldom is enough.
        if (kind == "longer than a read buffer" && !self.random.percent(5))
            || (kind == "5000 bytes" && !self.random.percent(50))
        {
            kind = "257 bytes";
        }
        if let Some(coverage) = &mut self.coverage {
            *coverage.damaged.entry(kind).or_insert(0) += 1;
        }
        damage::damaged(kind, fields, &mut self.random)
    }

    /// Runs the line in the author's own machine.
    fn run(&mut self, line: &[u8]) {
        let Some(coverage) = &mut self.coverage else {
            self.machine.answer(line);
            return;
        };
        let before = self.machine.kernel.clone();
        let answer = self.machine.answer(line);
        let mut item = [0; ITEM_BYTES];
        let call = read_call(line, &mut item);
        coverage.answer(call.as_ref(), answer);
        match (call, answer) {
            (None, _) => {}
            (Some(call), Answer::Refused(row)) => coverage.observe_refused(&before, &self.machine.store, &call, row),
            (Some(call), _) => coverage.observe(&before, &call, &self.machine.kernel),
        }
    }

    fn kernel(&self) -> &Kernel {
        &self.machine.kernel
    }

    /// The refusal that this call would get now.
    fn refusal_of(&self, fields: &Fields) -> Option<u8> {
        let line = damage::join(fields);
        let mut item = [0; ITEM_BYTES];
        let call: Call = read_call(&line, &mut item).expect("the author writes call lines");
        refusal(self.kernel(), &self.machine.store, &call)
    }

    fn next_call(&mut self) -> Fields {
        if self.mood_left == 0 {
            self.new_mood();
        }
        self.mood_left -= 1;
        if self.written >= self.pend_at && self.plan == Plan::None {
            self.pend_at = u64::MAX;
            self.plan = Plan::Settle(60);
        }
        if self.written >= self.lap_at && self.plan == Plan::None {
            self.lap_at = u64::MAX;
            self.plan = Plan::Await(60);
        }
        let left = self.lines - self.written;
        if self.plan == Plan::None && left > 700 && self.random.below(3_500) == 0 {
            self.plan = Plan::Climb(8);
        }
        if self.plan == Plan::None && self.kernel().hold == 0 && self.random.below(14) == 0 {
            self.plan = self.gather_tasks();
        }
        if self.plan == Plan::None && self.kernel().hold == 0 && self.random.below(26) == 0 {
            self.plan = if self.random.percent(25) { self.link_tasks() } else { Plan::Clear(24, TASKS / 2) };
        }
        if self.plan == Plan::None && self.kernel().hold == 0 && self.random.below(120) == 0 {
            let links = self.random.between(1, 8);
            self.plan = self.stretch_tasks(links as usize);
        }
        // Long enough for a chain of all tasks.
        if self.plan == Plan::None && self.kernel().hold == 0 && self.random.below(800) == 0 {
            self.plan = Plan::Clear(60, MOST_LINKS);
        }
        if self.plan == Plan::None && self.random.below(130) == 0 {
            self.plan = self.nest_a_few();
        }
        if self.plan == Plan::None && self.random.below(72) == 0 {
            self.plan = self.open_a_gate();
        }
        // Long enough for a task to fill the count and give all back; mostly another does so after it.
        if self.plan == Plan::None && left > 700 && self.written >= self.nest_at {
            self.nest_at = self.written + u64::from(self.random.between(8_000, 24_000));
            self.plan = self.nest_all();
        }
        if self.plan == Plan::None && self.random.below(210) == 0 {
            self.plan = self.fill_a_queue();
        }
        if self.plan == Plan::None && self.random.below(240) == 0 {
            let lines = self.random.between(4, 40);
            self.plan = self.renew_a_slot(lines);
        }
        // Long enough for a use above 255.
        if self.plan == Plan::None && left > 2_000 && self.random.below(4_500) == 0 {
            self.plan = self.renew_a_slot(800);
        }
        if let Some(fields) = self.planned_call() {
            return fields;
        }
        match self.random.below(100) {
            0..=7 => self.aimed_call(),
            8..=9 => self.faulty_call(),
            10..=16 => self.misnamed_call(),
            _ => self.accepted_call(),
        }
    }

    fn new_mood(&mut self) {
        self.mood = self.random.below(MOODS.len() as u32) as usize;
        self.mood_left = self.random.between(20, 400);
        let span = self.random.pick(&[0, 1, 2, 4, 12, 31]);
        self.low = if self.random.percent(15) { 0 } else { self.random.below(32 - span) };
        self.high = self.low + span;
    }

    /// A plan for several tasks that become due together, some ticks from now.
    fn gather_tasks(&mut self) -> Plan {
        let ticks = self.random.between(3, MOST_AHEAD);
        Plan::Gather(self.kernel().tick.wrapping_add(ticks), self.random.between(6, 24))
    }

    /// A plan for chains of waits that end together, some ticks from now. Few priorities, so that lines have several.
    fn link_tasks(&mut self) -> Plan {
        let span = self.random.pick(&[1, 2, 3, 5, 31]);
        self.low = self.random.below(32 - span);
        self.high = self.low + span;
        let ticks = self.random.between(3, MOST_AHEAD);
        let crowd = self.random.percent(25);
        Plan::Link(self.kernel().tick.wrapping_add(ticks), self.random.between(10, 40), crowd)
    }

    /// A plan for loans that end together. Who is to take a mutex is level with the running task.
    fn pair_tasks(&mut self) -> Plan {
        let kernel = self.kernel();
        let level = u32::from(kernel.task(kernel.running).effective);
        let tick = kernel.tick;
        if level > 30 {
            return Plan::None;
        }
        let low = level.max(1);
        let high = self.random.between(low + 1, 31);
        Plan::Pair(tick.wrapping_add(self.random.between(3, MOST_AHEAD)), 30, (low, high))
    }

    /// Ticks up to this one and two more, in any way; one by one over the count's return to 0.
    fn pass_to(&mut self, due: u32) -> Plan {
        let until = due.wrapping_add(2);
        let way = match self.random.below(100) {
            0..=40 => Way::Single,
            41..=73 => Way::Pended,
            _ if until < self.kernel().tick => Way::Pended,
            _ => Way::Advance,
        };
        Plan::Pass(until, way)
    }

    /// A plan for the queue of most places, or none without one.
    fn fill_a_queue(&mut self) -> Plan {
        let capacity = |object: &ObjectSlot| match self.kernel().object(*object).kind {
            Kind::Queue(queue) => queue.capacity,
            _ => 0,
        };
        let largest = ObjectSlot::all().max_by_key(capacity).filter(|object| capacity(object) > 0);
        largest.map_or(Plan::None, |object| Plan::Fill(object, 12))
    }

    /// A plan for one slot: the next to be taken, one that can be given up, or any but idle's.
    fn renew_a_slot(&mut self, lines: u32) -> Plan {
        let next = self.random.percent(75);
        if self.random.percent(45) {
            let slots: Vec<TaskSlot> = TaskSlot::all().filter(|&task| task != IDLE).collect();
            let any = self.random.pick(&slots);
            Plan::RenewTask(self.kernel().free_task().filter(|_| next).unwrap_or(any), lines)
        } else {
            let kernel = &self.machine.kernel;
            let slots: Vec<ObjectSlot> = ObjectSlot::all().collect();
            let any = self.random.pick(&slots);
            let unused = |object: &ObjectSlot| {
                kernel.object(*object).holder().is_none() && kernel.object(*object).waiters.is_empty()
            };
            let next = kernel.free_object().or_else(|| ObjectSlot::all().find(unused)).filter(|_| next);
            Plan::RenewObject(next.unwrap_or(any), lines)
        }
    }

    /// This call if it is accepted; now and then none, and another is made.
    fn mostly(&mut self, fields: Fields) -> Option<Fields> {
        let accepted = self.refusal_of(&fields).is_none();
        if accepted && self.random.percent(85) {
            Some(fields)
        } else {
            None
        }
    }

    fn planned_call(&mut self) -> Option<Fields> {
        let hold = self.kernel().hold;
        let often = self.random.percent(95);
        match self.plan {
            Plan::None => None,
            Plan::Settle(0) => {
                self.plan = Plan::Pend(25);
                Some(call(&[8]))
            }
            Plan::Settle(left) => {
                self.plan = Plan::Settle(left - 1);
                if hold > 0 {
                    return Some(call(&[9]));
                }
                if self.kernel().running == IDLE {
                    return self.bring_a_task().or_else(|| Some(self.any_but(18)));
                }
                let wait = match self.random.below(100) {
                    0..=49 => self.random.between(62_000, 65_600),
                    50..=64 => self.wait_like_another(),
                    _ => self.random.between(1, 65_000),
                };
                Some(self.begin(wait))
            }
            Plan::Pend(0) | Plan::Climb(0) => {
                self.plan = Plan::Descend;
                Some(call(&[9]))
            }
            Plan::Pend(left) => {
                if hold == 0 {
                    return Some(call(&[8]));
                }
                if self.kernel().pended == MOST_PENDED {
                    self.plan = Plan::Pend(left - 1);
                }
                // Few other calls, so that long waits last.
                let other = self.random.below(3_000) == 0;
                Some(if other { self.any_but(9) } else { call(&[17]) })
            }
            Plan::Climb(left) => {
                if hold == MOST_HOLD {
                    self.plan = Plan::Climb(left - 1);
                }
                Some(if often { call(&[8]) } else { self.any_but(9) })
            }
            Plan::Descend => {
                if hold == 0 {
                    self.plan = match self.random.below(100) {
                        0..=29 => self.gather_tasks(),
                        30..=39 => Plan::Untie(self.random.between(6, 20)),
                        _ => Plan::None,
                    };
                    return None;
                }
                if often {
                    Some(call(&[9]))
                } else {
                    None
                }
            }
            Plan::Gather(due, left) => {
                let ticks = due.wrapping_sub(self.kernel().tick);
                let idle_calls = self.kernel().running == IDLE;
                let enough = left == 0 || (idle_calls && self.random.percent(15));
                if enough || !(2..=MOST_AHEAD).contains(&ticks) {
                    self.plan = self.pass_to(due);
                    return None;
                }
                self.plan = Plan::Gather(due, left - 1);
                if hold > 0 {
                    return Some(call(&[9]));
                }
                // Others in between, so that not all begin on one tick, nor in the order in which they were made.
                let number = match self.random.below(100) {
                    0..=69 if idle_calls => return self.bring_a_task(),
                    0..=59 => {
                        let later = self.random.pick(&[0, 0, 0, 0, 1, 2]);
                        return Some(self.begin(ticks + later));
                    }
                    60..=74 => 7,
                    75..=81 => 17,
                    82..=89 => self.random.pick(&[1, 2, 3, 4, 5]),
                    _ => return None,
                };
                let fields = self.candidate(number, 0);
                self.mostly(fields)
            }
            Plan::Pass(until, way) => {
                let kernel = self.kernel();
                let ticks = until.wrapping_sub(kernel.tick).wrapping_sub(kernel.pended);
                if !(1..=MOST_AHEAD + 2).contains(&ticks) {
                    self.plan = Plan::Descend;
                    return None;
                }
                match way {
                    Way::Pended if hold == 0 => Some(call(&[8])),
                    Way::Advance if hold == 0 => {
                        let some = self.random.between(1, ticks);
                        self.mostly(call(&[18, some]))
                    }
                    _ => self.mostly(call(&[17])),
                }
            }
            Plan::Link(due, left, crowd) => {
                let ticks = due.wrapping_sub(self.kernel().tick);
                if left == 0 || !(1..=MOST_AHEAD).contains(&ticks) {
                    self.plan = if crowd { Plan::Untie(16) } else { Plan::Stir(due, self.random.below(20)) };
                    return None;
                }
                self.plan = Plan::Link(due, left - 1, crowd);
                let fields = if hold > 0 { Some(call(&[9])) } else { self.link_call(ticks, crowd) };
                fields.filter(|fields| often && self.refusal_of(fields).is_none_or(|row| row == CIRCLE))
            }
            Plan::Stir(due, left) => {
                let ticks = due.wrapping_sub(self.kernel().tick);
                if left == 0 || !(1..=MOST_AHEAD).contains(&ticks) {
                    let untie = self.random.percent(35);
                    self.plan = if untie { Plan::Untie(8) } else { self.pass_to(due) };
                    return None;
                }
                self.plan = Plan::Stir(due, left - 1);
                let release = hold > 0 && self.random.percent(70);
                let fields = if release { Some(call(&[9])) } else { self.stir_call() };
                fields.filter(|fields| often && self.refusal_of(fields).is_none())
            }
            Plan::Clear(left, most) => {
                let free = self.kernel().tasks.iter().filter(|task| task.is_free()).count();
                if left == 0 || free > most {
                    self.plan = match self.random.below(100) {
                        _ if most == MOST_LINKS => self.stretch_tasks(MOST_LINKS),
                        0..=49 => self.link_tasks(),
                        _ => self.pair_tasks(),
                    };
                    return None;
                }
                self.plan = Plan::Clear(left - 1, most);
                let fields = if hold > 0 { Some(call(&[9])) } else { self.clear_call() };
                fields.filter(|fields| often && self.refusal_of(fields).is_none())
            }
            Plan::Stretch(left, links, rest) => {
                if hold > 0 {
                    return Some(call(&[9]));
                }
                let fields = if left == 0 { None } else { self.stretch_call(links, rest) };
                self.plan = match fields {
                    Some(_) => Plan::Stretch(left - 1, links, rest),
                    None => Plan::Close(self.random.between(8, 24), None),
                };
                fields.filter(|fields| self.refusal_of(fields).is_none())
            }
            Plan::Close(0, _) => {
                self.plan = self.after_close();
                None
            }
            Plan::Close(left, last) => {
                self.plan = Plan::Close(left - 1, last);
                self.close_call(left - 1, last)
            }
            Plan::Pair(due, left, (low, high)) => {
                let ticks = due.wrapping_sub(self.kernel().tick);
                if left == 0 || !(1..=MOST_AHEAD).contains(&ticks) {
                    self.plan = self.pass_to(due);
                    return None;
                }
                self.plan = Plan::Pair(due, left - 1, (low, high));
                if hold > 0 {
                    return Some(call(&[9]));
                }
                let fields = self.pair_call(ticks, low, high);
                if fields.is_none() {
                    self.plan = if self.random.percent(30) { Plan::Untie(8) } else { self.pass_to(due) };
                }
                fields.filter(|fields| often && self.refusal_of(fields).is_none())
            }
            Plan::Nest(left, nest) => self.nest_call(left, nest),
            Plan::Gate(left, gate) => self.gate_call(left, gate),
            Plan::Untie(0) => {
                self.plan = Plan::None;
                None
            }
            Plan::Untie(left) => {
                self.plan = Plan::Untie(left - 1);
                self.untie_call()
            }
            Plan::Await(0) => {
                // Short of the return, so that many calls meet it; or past it, so that one advance does.
                let (short, past) = (0u32.wrapping_sub(self.random.between(1, 7)), self.random.between(1, 60_000));
                self.plan = Plan::Lap(if self.random.percent(60) { short } else { past });
                None
            }
            Plan::Await(left) => {
                self.plan = Plan::Await(left - 1);
                if hold > 0 {
                    return Some(call(&[9]));
                }
                if self.kernel().running == IDLE {
                    return self.bring_a_task().or_else(|| Some(self.any_but(18)));
                }
                let wake = self.random.below(40).wrapping_sub(20);
                let wait = wake.wrapping_sub(self.kernel().tick).clamp(1, FOR_EVER - 1);
                Some(self.begin(wait))
            }
            Plan::Lap(until) => {
                if hold > 0 {
                    return Some(call(&[9]));
                }
                let kernel = self.kernel();
                let left = until.wrapping_sub(kernel.tick);
                // There, or past it by a damaged line.
                if left == 0 || left > FOR_EVER - MOST_ADVANCE {
                    self.plan = if self.random.percent(50) { self.pass_to(0) } else { self.gather_tasks() };
                    return None;
                }
                Some(match *kernel.running_line() {
                    [_, .., IDLE] => call(&[5, kernel.running_number(), 1]),
                    [_, .., last] => call(&[3, kernel.task_number(last)]),
                    _ => call(&[18, left.min(MOST_ADVANCE)]),
                })
            }
            Plan::Fill(object, left) | Plan::Drain(object, left) => {
                let fill = matches!(self.plan, Plan::Fill(..));
                let Kind::Queue(queue) = self.kernel().object(object).kind else {
                    self.plan = Plan::None;
                    return None;
                };
                if !fill || queue.count == queue.capacity {
                    self.plan = match (fill, left) {
                        (true, 0) => Plan::Drain(object, 12 + u32::from(queue.capacity) / 2),
                        (true, _) => Plan::Fill(object, left - 1),
                        (false, 0) => Plan::None,
                        (false, _) => Plan::Drain(object, left - 1),
                    };
                }
                let number = self.kernel().object_number(object);
                let mut fields = call(&[if fill { 13 } else { 14 }, number]);
                if fill {
                    fields.push(self.item(number, 0));
                }
                fields.push(self.wait(0, false));
                self.mostly(fields)
            }
            Plan::RenewTask(_, 0) | Plan::RenewObject(_, 0) => {
                self.plan = Plan::None;
                None
            }
            Plan::RenewTask(task, left) => {
                self.plan = Plan::RenewTask(task, left - 1);
                let number = self.kernel().task_number(task);
                if !self.kernel().task(task).is_free() {
                    return self.mostly(call(&[2, number]));
                }
                if self.random.percent(20) {
                    return Some(self.freed_call(number, &[2, 3, 4, 5]));
                }
                let create = self.candidate(1, 0);
                self.mostly(create)
            }
            Plan::RenewObject(object, left) => {
                self.plan = Plan::RenewObject(object, left - 1);
                let number = self.kernel().object_number(object);
                if !self.kernel().object(object).is_free() {
                    let own = self.kernel().object(object).holder() == Some(self.kernel().running);
                    let waited_on = !self.kernel().object(object).waiters.is_empty();
                    let is_group = matches!(self.kernel().object(object).kind, Kind::Group(_));
                    return self.mostly(match (is_group && waited_on, own) {
                        (true, _) => call(&[21, number, ALL_BITS]),
                        (_, true) => call(&[16, number]),
                        _ => call(&[12, number]),
                    });
                }
                if self.random.percent(20) {
                    return Some(self.freed_call(number, &[12, 13, 14, 15, 16, 21, 22, 23]));
                }
                let kind = self.random.pick(&[10, 10, 10, 11, 11, 19, 19, 20, 20, 20]);
                let make = self.candidate(kind, 0);
                self.mostly(make)
            }
        }
    }

    /// The running task takes a mutex, and another on which it waits for about so many ticks, or asks for one that would
    /// close a circle; or another task is brought to run.
    fn link_call(&mut self, ticks: u32, crowd: bool) -> Option<Fields> {
        if self.kernel().running == IDLE {
            return self.bring_a_task();
        }
        let kernel = &self.machine.kernel;
        let caller = kernel.running;
        let (back, elsewhere) = held_by_others(kernel);
        let holds = kernel.holds_a_mutex(caller);
        let lent = chains::has_waiters(kernel, caller);
        if self.random.percent(10) {
            if let Some(fields) = self.again_call() {
                return Some(fields);
            }
        }
        let choice = self.random.below(100);
        if choice < 12 || (!holds && choice < 85) {
            return Some(self.take_a_free_one());
        }
        if !back.is_empty() && self.random.percent(18) {
            return self.circle_call(&back);
        }
        // Who has waiters makes room for more of them, mostly.
        let begins = match (lent, crowd) {
            (true, true) => 0,
            (true, false) => 35,
            _ => 85,
        };
        if choice < begins && !elsewhere.is_empty() {
            let object = self.link_to(&elsewhere, crowd);
            let wait = match self.random.below(100) {
                0..=79 => ticks + self.random.pick(&[0, 0, 0, 0, 1, 2]),
                80..=89 => self.random.between(10, 40),
                _ => FOR_EVER,
            };
            return Some(call(&[15, self.kernel().object_number(object), wait]));
        }
        let level = u32::from(self.kernel().task(caller).effective);
        let fields = match self.random.below(100) {
            0..=14 => self.candidate(1, 0),
            // Above the running task, or level with it.
            15..=74 => call(&[1, (level + self.random.pick(&[0, 1, 1, 2, 4])).min(31)]),
            75..=84 => call(&[7]),
            85..=92 => call(&[6, ticks + self.random.below(3)]),
            _ => call(&[3, self.kernel().running_number()]),
        };
        Some(fields)
    }

    /// A task that holds nothing is deleted, or one that holds a mutex is brought to give it.
    fn clear_call(&mut self) -> Option<Fields> {
        let kernel = &self.machine.kernel;
        let others: Vec<TaskSlot> = TaskSlot::all()
            .filter(|&task| task != IDLE && task != kernel.running && !kernel.task(task).is_free())
            .collect();
        let (holders, light): (Vec<TaskSlot>, Vec<TaskSlot>) =
            others.iter().partition(|&&task| kernel.holds_a_mutex(task));
        if !light.is_empty() {
            let task = self.random.pick(&light);
            return Some(call(&[2, self.kernel().task_number(task)]));
        }
        if kernel.running != IDLE {
            let caller = kernel.running_number();
            return self.give_call().or(Some(call(&[2, caller])));
        }
        let holder = *holders.first()?;
        let number = if kernel.task(holder).stand == Stand::Suspended { 4 } else { 3 };
        Some(call(&[number, kernel.task_number(holder)]))
    }

    /// A free mutex is taken; without one, it is made, of either kind.
    fn take_a_free_one(&mut self) -> Fields {
        let kernel = &self.machine.kernel;
        let is_free =
            |object: &ObjectSlot| matches!(kernel.object(*object).kind, Kind::Mutex(mutex) if mutex.holder.is_none());
        match ObjectSlot::all().find(is_free) {
            Some(object) => call(&[15, kernel.object_number(object), 0]),
            None => call(&[self.random.pick(&[11, 19])]),
        }
    }

    /// What the running task does for `Pair`; none if that is reached, or it has neither priority.
    fn pair_call(&mut self, ticks: u32, low: u32, high: u32) -> Option<Fields> {
        const PAIRS: usize = 3;
        let kernel = &self.machine.kernel;
        let caller = kernel.running;
        let is_of = |task: TaskSlot, own: u32| u32::from(kernel.task(task).own) == own;
        let holders: Vec<TaskSlot> =
            TaskSlot::all().filter(|&task| kernel.holds_a_mutex(task) && is_of(task, low)).collect();
        let held_by =
            |holder: TaskSlot| ObjectSlot::all().find(|&object| kernel.object(object).holder() == Some(holder));
        let unlent: Vec<TaskSlot> =
            holders.iter().copied().filter(|&task| task != caller && !chains::has_waiters(kernel, task)).collect();
        let yields_to =
            |own: u32| kernel.running_line().iter().any(|&other| is_of(other, own) && !kernel.holds_a_mutex(other));
        let enough = holders.len() >= PAIRS;
        if is_of(caller, high) && !kernel.holds_a_mutex(caller) {
            let holder = if self.random.percent(70) { unlent.last() } else { holders.first() };
            let object = kernel.object_number(held_by(*holder?)?);
            return Some(call(&[15, object, ticks + self.random.pick(&[0, 0, 0, 1])]));
        }
        if caller != IDLE && !is_of(caller, low) {
            return None;
        }
        if caller != IDLE && (!kernel.holds_a_mutex(caller) || self.random.percent(8)) {
            return Some(self.take_a_free_one());
        }
        let own = if enough { high } else { low };
        let done = enough && unlent.is_empty() && chains::has_waiters(kernel, caller);
        match (done, yields_to(own)) {
            (true, _) => None,
            (_, true) => Some(call(&[7])),
            _ => Some(call(&[1, own])),
        }
    }

    /// One of these mutexes: at the end of the longest chain, with the most waiters, or any.
    fn link_to(&mut self, mutexes: &[ObjectSlot], crowd: bool) -> ObjectSlot {
        let kernel = &self.machine.kernel;
        let found = match self.random.below(100) {
            _ if crowd => mutexes.iter().max_by_key(|object| kernel.object(**object).waiters.len()),
            0..=54 => mutexes.iter().max_by_key(|object| links_from(kernel, **object)),
            55..=74 => mutexes.iter().max_by_key(|object| kernel.object(**object).waiters.len()),
            _ => None,
        };
        found.copied().unwrap_or_else(|| self.random.pick(mutexes))
    }

    /// A call that changes what is lent.
    fn stir_call(&mut self) -> Option<Fields> {
        let kernel = &self.machine.kernel;
        let links = |task: &TaskSlot| chains::chain(kernel, *task).len();
        let mut takers: Vec<TaskSlot> = TaskSlot::all().filter(|task| links(task) > 0).collect();
        takers.sort_by_key(|task| std::cmp::Reverse(links(task)));
        let holders: Vec<TaskSlot> = TaskSlot::all().filter(|&task| kernel.holds_a_mutex(task)).collect();
        let light: Vec<TaskSlot> = takers.iter().copied().filter(|task| !holders.contains(task)).collect();
        // Those far up a chain more often.
        takers.truncate(if self.random.percent(50) { 2 } else { takers.len() });
        let choice = self.random.below(100);
        let (number, tasks) = match choice {
            0..=44 => (5, &takers),
            45..=54 => (5, &holders),
            55..=60 => (3, &takers),
            61..=65 => (2, &light),
            66..=70 => return self.bring_a_task(),
            71..=85 => return self.give_call(),
            86..=88 => return Some(call(&[17])),
            _ => return None,
        };
        if tasks.is_empty() {
            return None;
        }
        let task = self.random.pick(tasks);
        let mut fields = call(&[number, self.kernel().task_number(task)]);
        if number == 5 {
            let level = u32::from(self.kernel().task(task).effective);
            fields.push(match self.random.below(100) {
                0..=29 => self.priority(0),
                30..=59 => decimal(self.random.between(level, 31)),
                60..=84 => decimal(self.random.between(0, level)),
                _ => decimal(self.random.below(32)),
            });
        }
        Some(fields)
    }

    /// The running task gives a mutex, mostly one with waiters.
    fn give_call(&mut self) -> Option<Fields> {
        let kernel = &self.machine.kernel;
        let own = |object: &ObjectSlot| kernel.object(*object).holder() == Some(kernel.running);
        let held: Vec<ObjectSlot> = ObjectSlot::all().filter(own).collect();
        let waited_on = held.iter().max_by_key(|object| kernel.object(**object).waiters.len())?;
        let object = if self.random.percent(70) { *waited_on } else { self.random.pick(&held) };
        let fields = call(&[16, self.kernel().object_number(object)]);
        self.mostly(fields)
    }

    /// The running task gives a mutex; without one, it goes, or one of too many mutexes does.
    fn untie_call(&mut self) -> Option<Fields> {
        if let Some(fields) = self.give_call().or_else(|| self.spare_mutex()) {
            return Some(fields);
        }
        if self.kernel().running == IDLE {
            return self.bring_a_task();
        }
        let caller = self.kernel().running_number();
        let fields = match self.random.below(100) {
            0..=39 => call(&[2, caller]),
            40..=59 => call(&[3, caller]),
            60..=79 => self.candidate(6, 0),
            _ => return None,
        };
        self.mostly(fields)
    }

    /// A delay of so many ticks, or a wait of so many on an object that makes the caller wait.
    fn begin(&mut self, wait: u32) -> Fields {
        let kernel = &self.machine.kernel;
        let waits: Vec<(u32, ObjectSlot)> = ObjectSlot::all()
            .filter_map(|object| {
                let number = match kernel.object(object).kind {
                    Kind::Queue(queue) if queue.count == queue.capacity => 13,
                    Kind::Queue(queue) if queue.count == 0 => 14,
                    Kind::Mutex(Mutex { holder: Some(holder), .. })
                        if !chains::leads_back(kernel, holder, kernel.running) =>
                    {
                        15
                    }
                    Kind::Group(group) if group.bits != ALL_BITS => 23,
                    _ => return None,
                };
                Some((number, object))
            })
            .collect();
        if waits.is_empty() || self.random.percent(45) {
            return call(&[6, wait]);
        }
        let (number, object) = self.random.pick(&waits);
        if number == 23 {
            return self.begin_at(object, wait);
        }
        let object = self.kernel().object_number(object);
        let mut fields = call(&[number, object]);
        if number == 13 {
            fields.push(self.item(object, 0));
        }
        fields.push(decimal(wait));
        fields
    }

    /// For idle: a task is created or resumed, mostly.
    fn bring_a_task(&mut self) -> Option<Fields> {
        let number = self.random.pick(&[1, 1, 4]);
        let fields = self.candidate(number, 0);
        self.mostly(fields)
    }

    /// A call by the mood that is accepted, and is not of this number.
    fn any_but(&mut self, number: u32) -> Fields {
        loop {
            let fields = self.accepted_call();
            if value(&fields[0]) != number {
                return fields;
            }
        }
    }

    /// A call by the mood that is accepted; after many tries, any.
    fn accepted_call(&mut self) -> Fields {
        for _ in 0..40 {
            let number = self.call_by_mood();
            let fields = self.candidate(number, 0);
            if self.refusal_of(&fields).is_none() {
                return fields;
            }
        }
        call(&[17])
    }

    /// A call that gets one chosen refusal, if one is found.
    fn aimed_call(&mut self) -> Fields {
        let mut row = self.random.pick(&AIMED) as usize;
        if self.kernel().running == IDLE && self.random.percent(30) {
            row = 7;
        } else if self.kernel().hold > 0 && self.random.percent(30) {
            row = 8;
        }
        for _ in 0..60 {
            let number = self.random.pick(CALLS_OF_ROW[row]);
            let wildness = if row == 7 || row == 8 { 60 } else { self.random.pick(&[0, 20, 50]) };
            let fields = self.candidate(number, wildness);
            if self.refusal_of(&fields) == Some(row as u8) {
                return fields;
            }
        }
        self.accepted_call()
    }

    /// A call that would be accepted but for the use part of its number, if one is found.
    fn misnamed_call(&mut self) -> Fields {
        for _ in 0..40 {
            let number = self.random.pick(CALLS_OF_ROW[5]);
            let mut fields = self.candidate(number, 0);
            if self.refusal_of(&fields).is_none() {
                fields[1] = decimal(self.other_use(value(&fields[1])));
                return fields;
            }
        }
        self.accepted_call()
    }

    /// One of these calls for a free slot, by its next number or by another use.
    fn freed_call(&mut self, next: u32, calls: &[u32]) -> Fields {
        let number = self.random.pick(calls);
        let mut fields = self.candidate(number, 0);
        fields[1] = decimal(if self.random.percent(40) { next } else { self.other_use(next) });
        fields
    }

    /// Any call with wild arguments; often several refusals apply.
    fn faulty_call(&mut self) -> Fields {
        let number = self.random.between(1, 23);
        self.candidate(number, 50)
    }

    fn call_by_mood(&mut self) -> u32 {
        let kernel = &self.machine.kernel;
        let mut weights = MOODS[self.mood];
        // With nobody but idle to run, bring tasks back.
        if kernel.running == IDLE {
            for number in [1, 4, 17, 18] {
                weights[number] *= 3;
            }
        }
        if kernel.hold > 3 {
            weights[9] *= 4;
        }
        let mut left = self.random.below(weights.iter().sum());
        for (number, weight) in weights.iter().enumerate() {
            if left < *weight {
                return number as u32;
            }
            left -= weight;
        }
        17
    }

    /// A call of this number; each argument is wild so many times in a hundred.
    fn candidate(&mut self, number: u32, wildness: u32) -> Fields {
        let mut fields = call(&[number]);
        match number {
            1 => fields.push(self.priority(wildness)),
            2..=4 => fields.push(decimal(self.task(number, wildness))),
            5 => {
                fields.push(decimal(self.task(number, wildness)));
                let idle = fields[1] == b"0" && self.random.percent(70);
                let priority = if idle { decimal(0) } else { self.priority(wildness) };
                fields.push(priority);
            }
            6 => {
                let wait = self.wait(wildness, true);
                fields.push(wait);
            }
            10 => {
                let (capacity, size) = self.shape(wildness);
                fields.push(decimal(capacity));
                fields.push(decimal(size));
            }
            12 => fields.push(decimal(self.object(number, wildness))),
            13 => {
                let object = self.object(number, wildness);
                let item = self.item(object, wildness);
                fields.push(decimal(object));
                fields.push(item);
                fields.push(self.wait(wildness, false));
            }
            14 | 15 => {
                fields.push(decimal(self.object(number, wildness)));
                fields.push(self.wait(wildness, false));
            }
            16 => fields.push(decimal(self.object(number, wildness))),
            18 => fields.push(decimal(self.ticks(wildness))),
            21..=23 => fields.extend(self.on_bits(number, wildness)),
            _ => {}
        }
        fields
    }

    fn priority(&mut self, wildness: u32) -> Vec<u8> {
        if self.random.percent(wildness) {
            return decimal(self.random.pick(&[0, 1, 31, 32, 33, 40, 63, 64, 255, 256, 287, 65_536, FOR_EVER]));
        }
        if self.random.percent(85) {
            decimal(self.random.between(self.low, self.high))
        } else {
            decimal(self.random.below(32))
        }
    }

    /// Any number: of a slot as it is now, taken or free, of another use, or none of these.
    fn wild_number(&mut self, of_slots: &[u32]) -> u32 {
        let number = self.random.pick(of_slots);
        match self.random.below(10) {
            0..=5 => number,
            6..=7 => self.other_use(number),
            _ => self.random.pick(&[0, 0, 0, 1, 15, 16, 17, 31, 255, 256, 65_536, 1_048_575, 1_048_576, FOR_EVER]),
        }
    }

    /// A number of the same slot with another use part.
    fn other_use(&mut self, right: u32) -> u32 {
        let (slot, uses) = apart(right);
        let other = match if uses > 0 { self.random.below(100) } else { self.random.between(60, 99) } {
            // Given up, mostly the last one.
            0..=39 => uses - 1,
            40..=59 => self.random.below(uses),
            // Not yet given out.
            60..=79 => uses + self.random.pick(&[1, 1, 1, 2, 16, 256, 4_096]),
            80..=84 => LAST_USE,
            // From 1,048,576 on.
            85..=89 => RETIRED,
            _ => uses + RETIRED * self.random.pick(&[1, 2, 256, 4_095]),
        };
        number_of(slot, other)
    }

    fn task(&mut self, number: u32, wildness: u32) -> u32 {
        let of_slots: Vec<u32> = TaskSlot::all().map(|task| self.kernel().task_number(task)).collect();
        if self.random.percent(wildness) {
            return self.wild_number(&of_slots);
        }
        let kernel = &self.machine.kernel;
        let choice = self.random.below(100);
        let wanted: Vec<TaskSlot> = TaskSlot::all()
            .filter(|&task| {
                let stand = kernel.task(task).stand;
                let waits = matches!(stand, Stand::Waiting { .. });
                match (number, choice) {
                    (4, _) => stand == Stand::Suspended,
                    (_, 0..=29) => waits,
                    (_, 30..=39) => kernel.is_blocked(task),
                    (3 | 5, 40..=64) => kernel.holds_a_mutex(task),
                    (2, 40..=64) => !kernel.holds_a_mutex(task) && stand != Stand::Free,
                    (_, 65..=79) => task == kernel.running,
                    (_, 80..=81) | (5, 82..=83) => task == IDLE,
                    _ => stand != Stand::Free && task != IDLE,
                }
            })
            .collect();
        if wanted.is_empty() {
            return self.random.pick(&of_slots);
        }
        let task = self.random.pick(&wanted);
        self.kernel().task_number(task)
    }

    fn object(&mut self, number: u32, wildness: u32) -> u32 {
        let of_slots: Vec<u32> = ObjectSlot::all().map(|object| self.kernel().object_number(object)).collect();
        if self.random.percent(wildness) {
            return self.wild_number(&of_slots);
        }
        let kernel = &self.machine.kernel;
        let caller = kernel.running;
        let choice = self.random.below(100);
        let wanted: Vec<ObjectSlot> = ObjectSlot::all()
            .filter(|&object| {
                let slot = kernel.object(object);
                match (number, slot.kind) {
                    (_, Kind::Free) => false,
                    (12, _) => true,
                    (13 | 14, Kind::Queue(_)) => choice >= 25 || !slot.waiters.is_empty(),
                    (15, Kind::Mutex(mutex)) => match choice {
                        0..=43 => mutex.holder.is_some_and(|holder| holder != caller),
                        44..=81 => mutex.holder.is_none(),
                        82..=84 => mutex.recursive && mutex.holder == Some(caller),
                        85..=87 => mutex.holder == Some(caller),
                        _ => true,
                    },
                    (16, Kind::Mutex(mutex)) => choice >= 90 || mutex.holder == Some(caller),
                    (21..=23, Kind::Group(_)) => choice >= 40 || !slot.waiters.is_empty(),
                    _ => false,
                }
            })
            .collect();
        if wanted.is_empty() {
            return self.random.pick(&of_slots);
        }
        // The first ones more often, so that waiters gather.
        let last = if self.random.percent(50) { wanted.len().min(3) } else { wanted.len() };
        let object = self.random.pick(&wanted[..last]);
        self.kernel().object_number(object)
    }

    fn wait(&mut self, wildness: u32, delay: bool) -> Vec<u8> {
        if self.random.percent(wildness) {
            return decimal(self.random.pick(&[0, 1, 2, 65_535, 2_147_483_648, 4_294_967_294, FOR_EVER]));
        }
        let kernel = &self.machine.kernel;
        if !delay && (kernel.running == IDLE || kernel.hold > 0) && self.random.percent(90) {
            return decimal(0);
        }
        let wait = match self.random.below(100) {
            0..=21 if !delay => 0,
            0..=5 => 0,
            6..=54 => self.random.between(1, 6),
            55..=72 => self.wait_like_another(),
            73..=78 => self.random.between(7, 300),
            79..=80 => self.random.pick(&[65_535, 70_000, 1 << 31, FOR_EVER - 1]),
            // Mostly the wake tick is smaller than the count.
            81..=83 => 0u32.wrapping_sub(self.random.between(2, 300)),
            _ if delay => self.random.between(1, 12),
            _ => FOR_EVER,
        };
        decimal(wait)
    }

    /// A wait that ends with another task's.
    fn wait_like_another(&mut self) -> u32 {
        let distances = self.distances(FOR_EVER);
        if distances.is_empty() {
            2
        } else {
            self.random.pick(&distances)
        }
    }

    /// The distances to all wakes that are at most so far ahead.
    fn distances(&self, most: u32) -> Vec<u32> {
        let kernel = self.kernel();
        TaskSlot::all().filter_map(|task| kernel.distance(task)).filter(|&distance| distance <= most).collect()
    }

    /// An advance's ticks.
    fn ticks(&mut self, wildness: u32) -> u32 {
        if self.random.percent(wildness) {
            return self.random.pick(&[0, 0, 1, 65_534, 65_535, 65_536, 65_536, 65_537, 131_071, 1 << 31, FOR_EVER]);
        }
        let line = self.kernel().running_line().len() as u32;
        let most = if line == 1 || self.random.percent(14) { MOST_ADVANCE } else { MOST_TURNS };
        let ticks = match self.random.below(100) {
            0..=29 => self.random.between(1, 5),
            // Around the next wake, or any.
            30..=64 => {
                let mut distances = self.distances(most);
                distances.sort_unstable();
                let end = if self.random.percent(50) { 1 } else { distances.len() };
                let distance = if distances.is_empty() { 2 } else { self.random.pick(&distances[..end]) };
                near(distance, self.random.below(3))
            }
            // Around one round of the line, or several.
            65..=84 => near(line * self.random.between(1, 4), self.random.below(3)),
            85..=93 => self.random.between(6, 40),
            94..=98 => self.random.between(41, 999),
            _ => self.random.pick(&[1_000, 30_000, 65_534, MOST_ADVANCE, MOST_ADVANCE]),
        };
        ticks.clamp(1, most)
    }

    fn shape(&mut self, wildness: u32) -> (u32, u32) {
        if self.random.percent(wildness) {
            let capacity = self.random.pick(&[0, 1, 8, 32, 63, 64, 65, 128, 256, 65_536, FOR_EVER]);
            let size = self.random.pick(&[0, 1, 8, 9, 16, 17, 63, 64, 65, 128, 256, 65_536, FOR_EVER]);
            return (capacity, size);
        }
        match self.random.below(10) {
            0..=1 => (self.random.between(1, 3), 0),
            2 => (self.random.between(1, 64), 0),
            3..=5 => (self.random.between(1, 3), self.random.between(1, 64)),
            6 => {
                self.random.pick(&[(64, 8), (8, 64), (16, 32), (32, 16), (1, 64), (64, 1), (7, 64), (51, 10), (10, 51)])
            }
            7..=8 => {
                let capacity = self.random.between(1, 8);
                (capacity, self.random.between(1, 64))
            }
            _ => {
                let size = self.random.between(1, 64);
                (self.random.between(1, (512 / size).min(64)), size)
            }
        }
    }

    fn item(&mut self, object: u32, wildness: u32) -> Vec<u8> {
        let size = match self.kernel().find_queue(object) {
            Some((_, queue)) => u32::from(queue.size),
            None => self.random.below(5),
        };
        let length = if self.random.percent(wildness) {
            self.random.pick(&[0, 1, size.saturating_sub(1), (size + 1).min(64), 63, 64])
        } else {
            size
        };
        const HEX: &[u8; 16] = b"0123456789abcdef";
        (0..2 * length).map(|_| self.random.pick(HEX)).collect()
    }
}

fn decimal(number: u32) -> Vec<u8> {
    number.to_string().into_bytes()
}

/// One less, the same or one more.
fn near(number: u32, choice: u32) -> u32 {
    (number + choice).saturating_sub(1)
}

fn value(field: &[u8]) -> u32 {
    String::from_utf8_lossy(field).parse().expect("the author writes decimal numbers")
}

fn call(numbers: &[u32]) -> Fields {
    numbers.iter().map(|&number| decimal(number)).collect()
}

/// A whole journal.
pub fn journal(seed: u64, lines: u64) -> Vec<u8> {
    let mut author = Author::new(seed, lines);
    let mut bytes = Vec::new();
    while let Some(line) = author.next_line() {
        bytes.extend_from_slice(&line);
    }
    bytes
}
