//! What a journal exercises: calls, refusals, damage and events inside the kernel.

use crate::again_events::Nesting;
use crate::calls::{jump, single_ticks, Answer, Call, Named};
use crate::kernel::{
    apart, number_of, Kernel, ObjectSlot, Outcome, Role, Stand, TaskSlot, FOR_EVER, IDLE, MOST_ADVANCE, OBJECTS,
    RETIRED, TASKS,
};
use crate::refusals::refusal;
use std::collections::BTreeMap;

/// Why a number names nothing.
struct Reasons {
    free: &'static str,
    old: &'static str,
    old_and_free: &'static str,
    not_yet: &'static str,
    beyond: &'static str,
    only_use: &'static str,
}

const OF_TASKS: Reasons = Reasons {
    free: "task: a free slot's next number",
    old: "task: an old number, another task in its slot",
    old_and_free: "task: an old number, its slot free",
    not_yet: "task: a use too high",
    beyond: "task: 1,048,576 and more",
    only_use: "task: refused for the use alone",
};

const OF_OBJECTS: Reasons = Reasons {
    free: "object: a free slot's next number",
    old: "object: an old number, another object in its slot",
    old_and_free: "object: an old number, its slot free",
    not_yet: "object: a use too high",
    beyond: "object: 1,048,576 and more",
    only_use: "object: refused for the use alone",
};

/// How two tasks were woken on the same tick, and on two ticks of one call.
struct Together {
    against_slots: &'static str,
    against_slots_in_a_line: &'static str,
    delayed_and_waiting: &'static str,
    begun_apart: &'static str,
    later: &'static str,
}

const BY_A_TICK: Together = Together {
    against_slots: "tick: woken together, not in order of slots",
    against_slots_in_a_line: "tick: woken together into one line, not in order of slots",
    delayed_and_waiting: "tick: woken together, one delayed and one waiting",
    begun_apart: "tick: woken together, begun on different ticks",
    later: "tick: never, it is one",
};

const BY_A_PENDED_TICK: Together = Together {
    against_slots: "release: woken together, not in order of slots",
    against_slots_in_a_line: "release: woken together into one line, not in order of slots",
    delayed_and_waiting: "release: woken together, one delayed and one waiting",
    begun_apart: "release: woken together, begun on different ticks",
    later: "release: began earlier, woken on a later tick into one line",
};

const BY_AN_ADVANCE: Together = Together {
    against_slots: "advance: woken together, not in order of slots",
    against_slots_in_a_line: "advance: woken together into one line, not in order of slots",
    delayed_and_waiting: "advance: woken together, one delayed and one waiting",
    begun_apart: "advance: woken together, begun on different ticks",
    later: "advance: began earlier, woken on a later tick into one line",
};

/// What the single ticks of an advance did, one by one; those that change the count alone are
/// passed over.
#[derive(Default)]
struct Ticks {
    woken: usize,
    /// Ticks that woke somebody, and that woke more than one.
    waking: u32,
    waking_several: u32,
    /// Ticks that turned a line of several, and of these the ones after the running task was
    /// overtaken, and the ones that also woke a task into that line.
    turns: u32,
    turns_of_a_higher_line: u32,
    turns_behind_the_woken: u32,
    /// Ticks on which the running task was overtaken, and the ticks left after the last of these.
    overtaken: u32,
    after_overtaken: u32,
    /// Ticks that woke somebody before the count was 0 again.
    waking_before_0: u32,
}

impl Ticks {
    fn of_advance(before: &Kernel, ticks: u32) -> Ticks {
        let mut seen = Ticks::default();
        let mut kernel = before.clone();
        let mut left = ticks;
        loop {
            left -= jump(&mut kernel, left);
            if left == 0 {
                return seen;
            }
            let (running, blocked, line) = (kernel.running, kernel.began.len(), kernel.running_line().len());
            let level = kernel.task(running).effective as usize;
            single_ticks(&mut kernel, 1);
            left -= 1;
            let woken = blocked - kernel.began.len();
            let higher = kernel.task(kernel.running).effective as usize > level;
            let turned = !higher && kernel.running != running;
            seen.woken += woken;
            seen.turns += u32::from(turned);
            seen.turns_of_a_higher_line += u32::from(turned && seen.overtaken > 0);
            seen.turns_behind_the_woken += u32::from(turned && kernel.lines[level].len() > line);
            if higher {
                seen.overtaken += 1;
                seen.after_overtaken = left;
            }
            seen.waking += u32::from(woken > 0);
            seen.waking_several += u32::from(woken > 1);
            seen.waking_before_0 += u32::from(woken > 0 && kernel.tick > before.tick);
        }
    }
}

#[derive(Default)]
pub struct Coverage {
    pub lines: u64,
    pub accepted: [u64; 24],
    pub waiting: [u64; 24],
    pub refused: [u64; 19],
    pub refused_by_call: BTreeMap<(usize, u8), u64>,
    pub damaged: BTreeMap<&'static str, u64>,
    pub events: BTreeMap<&'static str, u64>,
    /// The tick count when each task last began a delay or wait.
    began_at: [u32; TASKS],
    /// The caller's and the mutex's number of the last take from each slot that was refused as a circle.
    pub refused_circles: [Option<(u32, u32)>; TASKS],
    /// What was seen of the mutex in each object slot.
    pub nesting: [Nesting; OBJECTS],
}

impl Coverage {
    pub fn event(&mut self, name: &'static str) {
        *self.events.entry(name).or_insert(0) += 1;
    }

    pub fn event_if(&mut self, happened: bool, name: &'static str) {
        if happened {
            self.event(name);
        }
    }

    pub fn answer(&mut self, call: Option<&Call>, answer: Answer) {
        self.lines += 1;
        let number = call.map_or(0, |call| call.number());
        match answer {
            Answer::Refused(row) => {
                self.refused[row as usize] += 1;
                *self.refused_by_call.entry((number, row)).or_insert(0) += 1;
            }
            Answer::Waiting => {
                self.accepted[number] += 1;
                self.waiting[number] += 1;
            }
            _ => self.accepted[number] += 1,
        }
    }

    /// Names what there is to say of a refused call.
    pub fn observe_refused(&mut self, kernel: &Kernel, store: &[u8], call: &Call, row: u8) {
        if row == 5 {
            self.observe_unnamed(kernel, store, call);
        }
        if let Call::Take { object, wait } = *call {
            self.observe_refused_take(kernel, object, wait, row);
        }
        self.observe_refused_again(kernel, call, row);
        self.observe_refused_groups(kernel, call, row);
        if let Call::Advance { ticks } = *call {
            let held = kernel.hold > 0;
            self.event_if(row == 4 && ticks == 0, "advance: 0 ticks refused");
            self.event_if(row == 4 && ticks == MOST_ADVANCE + 1, "advance: 65,536 ticks refused");
            self.event_if(row == 4 && ticks == FOR_EVER, "advance: 4,294,967,295 ticks refused");
            self.event_if(row == 4 && held, "advance: out of range and with a hold");
            self.event_if(row == 8, "advance: refused with a hold");
            self.event_if(row == 8 && kernel.pended > 0, "advance: refused with ticks pended");
        }
    }

    /// Names why a call's number names nothing; the call was refused 5.
    fn observe_unnamed(&mut self, kernel: &Kernel, store: &[u8], call: &Call) {
        let (reasons, named) = match call.named() {
            Named::Nothing => return,
            Named::Task(number) => (OF_TASKS, number),
            Named::Object(number) => (OF_OBJECTS, number),
        };
        let (slot, part) = apart(named);
        let (uses, free) = match call.named() {
            Named::Task(_) => (kernel.tasks[slot].uses, kernel.tasks[slot].is_free()),
            _ => (kernel.objects[slot].uses, kernel.objects[slot].is_free()),
        };
        self.event_if(part == uses && free, reasons.free);
        self.event_if(part < uses && !free, reasons.old);
        self.event_if(part < uses && free, reasons.old_and_free);
        self.event_if(part > uses && part < RETIRED, reasons.not_yet);
        self.event_if(part >= RETIRED, reasons.beyond);
        let right = call.naming(number_of(slot, uses));
        self.event_if(part != uses && refusal(kernel, store, &right).is_none(), reasons.only_use);
    }

    /// Names what an accepted call did, by the kernel before and after.
    pub fn observe(&mut self, before: &Kernel, call: &Call, after: &Kernel) {
        self.observe_loans(before, call, after);
        self.observe_again(before, call, after);
        self.observe_groups(before, call, after);
        let caller = before.running;
        let woken = |outcome: Outcome| {
            TaskSlot::all()
                .filter(|&task| before.is_blocked(task) && after.task(task).stand == Stand::Ready)
                .filter(|&task| after.task(task).outcome == outcome)
                .count()
        };
        let overtaken = after.running != caller && after.task(caller).stand == Stand::Ready;
        let stays_head = after.lines[after.task(caller).effective as usize].first() == Some(&caller);
        self.event_if(
            overtaken && stays_head && after.task(caller).effective == before.task(caller).effective,
            "running task overtaken",
        );
        self.event_if(after.task(after.running).uses > 0, "runs: a task in a slot used again");
        self.event_if(caller == IDLE, "idle: calls");
        self.event_if(before.lines[0].len() > 1, "idle: shares its line");
        let below_another = after.hold > 0 && after.highest_line() > after.task(caller).effective as usize;
        self.event_if(below_another, "hold: a higher line is occupied");
        if after.tick < before.tick {
            self.event(match call {
                Call::Tick => "count: returned to 0 by a tick",
                Call::Release => "count: returned to 0 by a release",
                _ => "count: returned to 0 by an advance",
            });
        }
        if after.is_blocked(caller) {
            self.began_at[caller.index()] = before.tick;
            let wake = after.task(caller).wake();
            self.event_if(wake.is_some_and(|wake| wake < after.tick), "wait: a wake tick smaller than the count");
        }
        match *call {
            Call::Tick if before.hold == 0 => {
                self.observe_wakes(before, 1, after, &BY_A_TICK);
                let timed_out = woken(Outcome::TimeRanOut);
                let due = timed_out + woken(Outcome::Done);
                self.event_if(timed_out > 0, "tick: a waiter timed out");
                self.event_if(due == 1, "tick: one task due");
                self.event_if(due > 1, "tick: several tasks due together");
                let line = before.running_line();
                let higher = after.task(after.running).effective > before.task(caller).effective;
                self.event_if(line.len() > 1 && !higher, "tick: a line of two or more turned");
                self.event_if(higher, "tick: no turn, a higher line was woken");
            }
            Call::Release if after.hold == 0 => {
                let due = woken(Outcome::TimeRanOut) + woken(Outcome::Done);
                if before.pended > 1 {
                    self.observe_wakes(before, before.pended, after, &BY_A_PENDED_TICK);
                }
                self.event_if(before.pended > 1, "release: several pended ticks run");
                self.event_if(before.pended > 1 && due > 1, "release: several tasks woken by pended ticks");
                self.event_if(before.pended > 60_000, "release: over 60,000 pended ticks run");
                let long_wait = TaskSlot::all().any(|task| match before.task(task).stand {
                    Stand::Waiting { wake: Some(wake), .. } => {
                        let left = wake.wrapping_sub(before.tick);
                        left > 60_000 && left <= before.pended
                    }
                    _ => false,
                });
                self.event_if(long_wait, "release: a wait of over 60,000 ticks ran out");
                self.event_if(before.running != after.running, "release: another task runs");
            }
            Call::Advance { ticks } => {
                self.observe_wakes(before, ticks, after, &BY_AN_ADVANCE);
                self.observe_advance(before, ticks, after);
            }
            Call::Hold => self.event_if(after.hold == 255, "hold: depth 255 reached"),
            Call::Send { object, .. } => {
                let (object, queue) = before.find_queue(object).expect("accepted");
                self.observe_first_waiter(before, object);
                let direct = queue.count == 0 && !before.object(object).waiters.is_empty();
                self.event_if(direct, "send: passed to a waiting receiver");
                let wraps = !direct && queue.count < queue.capacity && queue.first + queue.count >= queue.capacity;
                self.event_if(wraps, "send: appended past the ring's end");
                self.event_if(after.is_blocked(caller), "send: waits on a full queue");
                self.event_if(queue.size == 0, "send: size 0");
                self.event_if(queue.size == 64, "send: size 64");
                self.event_if(
                    u32::from(queue.size) * u32::from(queue.capacity) == 512,
                    "send: part of 512 bytes all used",
                );
            }
            Call::Receive { object, .. } => {
                let (object, queue) = before.find_queue(object).expect("accepted");
                self.observe_first_waiter(before, object);
                let moved_in = queue.count > 0 && !before.object(object).waiters.is_empty();
                self.event_if(moved_in, "receive: a waiting sender's item moved in");
                self.event_if(queue.count > 0 && queue.first + 1 == queue.capacity, "receive: first wrapped to 0");
                self.event_if(after.is_blocked(caller), "receive: waits on an empty queue");
                self.event_if(moved_in && queue.capacity > 8, "receive: moved in at capacity above 8");
            }
            Call::Take { object, .. } => {
                let (_, mutex) = before.find_mutex(object).expect("accepted");
                match mutex.holder {
                    // It is counted by `observe_again`.
                    Some(holder) if holder == caller => {}
                    Some(holder) => {
                        self.observe_accepted_take(before, object, after);
                        let raised = after.task(holder).effective > before.task(holder).effective;
                        self.event_if(raised, "take: priority lent");
                        let ready = before.task(holder).stand == Stand::Ready;
                        self.event_if(raised && ready, "take: priority lent to a ready holder");
                        let waits = before.is_blocked(holder);
                        self.event_if(raised && waits, "take: priority lent to a blocked holder");
                        self.event_if(raised && !ready && !waits, "take: priority lent to a suspended holder");
                    }
                    None => {
                        self.observe_accepted_take(before, object, after);
                        self.event_if(before.holds_a_mutex(caller), "take: a second mutex");
                    }
                }
            }
            Call::Give { object } => {
                let (object, mutex) = before.find_mutex(object).expect("accepted");
                if mutex.count == 1 {
                    self.observe_first_waiter(before, object);
                    self.event_if(!before.object(object).waiters.is_empty(), "give: passed to a waiter");
                }
            }
            Call::Suspend { task } | Call::Delete { task } => {
                let task = before.find_task(task).expect("accepted");
                let suspend = matches!(call, Call::Suspend { .. });
                let waits = matches!(before.task(task).stand, Stand::Waiting { .. });
                let delayed = matches!(before.task(task).stand, Stand::Delayed { .. });
                self.event_if(suspend && waits, "suspend: a waiter");
                self.event_if(suspend && delayed, "suspend: a delayed task");
                self.event_if(suspend && before.holds_a_mutex(task), "suspend: a holder");
                self.event_if(suspend && task == caller, "suspend: the caller");
                self.event_if(!suspend && waits, "delete: a waiter");
                self.event_if(!suspend && delayed, "delete: a delayed task");
                self.event_if(!suspend && task == caller, "delete: the caller");
            }
            Call::SetPriority { task, .. } => {
                let task = before.find_task(task).expect("accepted");
                let waits = matches!(before.task(task).stand, Stand::Waiting { .. });
                self.event_if(waits, "set priority: a waiter");
                self.event_if(task == caller, "set priority: the caller");
                self.event_if(task == IDLE, "set priority: idle to 0");
            }
            Call::Create { .. } => {
                let last = before.tasks.iter().rposition(|task| !task.is_free());
                let made = before.free_task().expect("accepted");
                self.event_if(Some(made.index()) < last, "create: a slot below the last one");
                self.event_if(before.task(made).uses > 0, "create: a slot used again");
                self.event_if(before.task(made).uses > 255, "create: a use above 255");
            }
            Call::MakeQueue { .. } | Call::MakeMutex | Call::MakeRecursiveMutex | Call::MakeGroup => {
                let last = before.objects.iter().rposition(|object| !object.is_free());
                let made = before.free_object().expect("accepted");
                self.event_if(Some(made.index()) < last, "make: a slot below the last one");
                self.event_if(before.object(made).uses > 0, "make: a slot used again");
                self.event_if(before.object(made).uses > 255, "make: a use above 255");
            }
            Call::Remove { object } => {
                let filled = before.find_queue(object).is_some_and(|(_, queue)| queue.count > 0);
                self.event_if(filled, "remove: a queue with items");
            }
            _ => {}
        }
    }

    /// Names how a call that ran so many ticks woke any two tasks.
    fn observe_wakes(&mut self, before: &Kernel, ticks: u32, after: &Kernel, names: &Together) {
        let left = |task: TaskSlot| before.distance(task);
        let is_due = |task: &TaskSlot| left(*task).is_some_and(|left| left <= ticks);
        let due: Vec<TaskSlot> = before.began.iter().copied().filter(is_due).collect();
        let [mut against, mut in_a_line, mut mixed, mut begun_apart, mut later] = [false; 5];
        for (place, &first) in due.iter().enumerate() {
            for &second in &due[place + 1..] {
                let together = left(first) == left(second);
                let one_line = after.task(first).effective == after.task(second).effective;
                let waits = |task: TaskSlot| matches!(before.task(task).stand, Stand::Waiting { .. });
                against |= together && first.index() > second.index();
                in_a_line |= together && one_line && first.index() > second.index();
                mixed |= together && waits(first) != waits(second);
                begun_apart |= together && self.began_at[first.index()] != self.began_at[second.index()];
                later |= one_line && left(first) > left(second);
            }
        }
        self.event_if(against, names.against_slots);
        self.event_if(in_a_line, names.against_slots_in_a_line);
        self.event_if(mixed, names.delayed_and_waiting);
        self.event_if(begun_apart, names.begun_apart);
        self.event_if(later, names.later);
    }

    /// Names what an advance did, by its single ticks.
    fn observe_advance(&mut self, before: &Kernel, ticks: u32, after: &Kernel) {
        let seen = Ticks::of_advance(before, ticks);
        let line = before.running_line().len() as u32;
        let nobody_due = seen.woken == 0;
        self.event_if(nobody_due, "advance: nobody due");
        self.event_if(seen.woken == 1, "advance: one task due");
        self.event_if(seen.waking_several > 0, "advance: several tasks due on one tick");
        self.event_if(seen.waking > 1, "advance: tasks due on different ticks");
        self.event_if(seen.waking > 3, "advance: tasks due on four ticks and more");
        let alone = line == 1 && ticks > 1;
        self.event_if(alone && nobody_due, "advance: alone in the line and nobody due");
        self.event_if(alone && before.quiet_ticks() == ticks - 1, "advance: alone in the line, due on the last tick");
        self.event_if(before.quiet_ticks() == ticks, "advance: due one tick after the last");
        self.event_if(seen.turns > 0, "advance: a line of several turned");
        let turns_only = line > 1 && nobody_due;
        self.event_if(turns_only && ticks > line, "advance: more ticks than the line is long");
        self.event_if(turns_only && ticks.is_multiple_of(line), "advance: whole rounds of the line");
        self.event_if(turns_only && ticks < line, "advance: less than a round of the line");
        self.event_if(seen.turns_behind_the_woken > 0, "advance: turned behind a woken task");
        self.event_if(seen.overtaken > 0, "advance: running task overtaken");
        self.event_if(seen.overtaken > 1, "advance: running task overtaken twice");
        self.event_if(seen.after_overtaken > 0, "advance: overtaken, then more ticks");
        self.event_if(seen.turns_of_a_higher_line > 0, "advance: overtaken, then a higher line turned");
        let timed_out = |role: Role| {
            TaskSlot::all().any(|task| match before.task(task).stand {
                Stand::Waiting { role: its, .. } => its == role && after.task(task).stand == Stand::Ready,
                _ => false,
            })
        };
        self.event_if(timed_out(Role::Sender), "advance: a sender timed out");
        self.event_if(timed_out(Role::Receiver), "advance: a receiver timed out");
        self.event_if(timed_out(Role::Taker), "advance: a taker timed out");
        let has_loan = |task: TaskSlot| after.task(task).effective > after.task(task).own;
        self.event_if(has_loan(before.running), "advance: by a task with a loan");
        let loan_woken =
            TaskSlot::all().any(|task| before.is_blocked(task) && !after.is_blocked(task) && has_loan(task));
        self.event_if(loan_woken, "advance: a task with a loan woken");
        let smaller = before.tasks.iter().any(|task| task.wake().is_some_and(|wake| wake < before.tick));
        self.event_if(smaller, "advance: a wake tick smaller than the count");
        self.event_if(smaller && !nobody_due, "advance: a wake tick smaller than the count, and others due");
        self.event_if(ticks == MOST_ADVANCE, "advance: 65,535 ticks");
        self.event_if(ticks >= 100 && line > 1, "advance: 100 ticks and more by one of several in a line");
        self.event_if(ticks >= 60_000 && seen.turns > 50_000, "advance: over 50,000 turns");
        let both_sides = seen.waking_before_0 > 0 && seen.waking > seen.waking_before_0;
        self.event_if(both_sides, "advance: tasks due before and after the count returned to 0");
    }

    fn observe_first_waiter(&mut self, before: &Kernel, object: ObjectSlot) {
        let waiters = &before.object(object).waiters;
        let Some(first) = before.first_waiter(object) else { return };
        let best = before.task(first).effective;
        let equals = waiters.iter().filter(|&&task| before.task(task).effective == best).count();
        self.event_if(waiters[0] != first, "first waiter: not the earliest");
        self.event_if(equals > 1, "first waiter: earliest of equals");
    }

    pub fn report(&self) -> String {
        const NAMES: [&str; 24] = [
            "-",
            "create",
            "delete",
            "suspend",
            "resume",
            "set priority",
            "delay",
            "yield",
            "hold",
            "release",
            "make queue",
            "make mutex",
            "remove",
            "send",
            "receive",
            "take",
            "give",
            "tick",
            "advance",
            "make recursive",
            "make group",
            "set bits",
            "clear bits",
            "wait for bits",
        ];
        let mut text = format!("lines {}\n\naccepted (of these waiting)\n", self.lines);
        for (number, name) in NAMES.iter().enumerate().skip(1) {
            let (accepted, waiting) = (self.accepted[number], self.waiting[number]);
            text += &format!("{number:>4} {name:<14}{accepted:>8} {waiting:>8}\n");
        }
        text += &format!("     {:<14}{:>8}\n\nrefused\n", "all", self.accepted.iter().sum::<u64>());
        for row in 3..=18u8 {
            let by_call: Vec<String> = self
                .refused_by_call
                .iter()
                .filter(|((number, r), _)| *r == row && *number > 0)
                .map(|((number, _), count)| format!("{} {}", NAMES[*number], count))
                .collect();
            text += &format!("{:>4} {:>8}  {}\n", row, self.refused[row as usize], by_call.join(", "));
        }
        text += "\nevents\n";
        for (name, count) in &self.events {
            text += &format!("{count:>8}  {name}\n");
        }
        text += &format!("\ndamaged lines {}\n", self.damaged.values().sum::<u64>());
        for (name, count) in &self.damaged {
            text += &format!("{count:>8}  {name}\n");
        }
        text
    }
}
