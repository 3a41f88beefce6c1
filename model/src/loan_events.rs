//! What a journal exercises of loans: chains, and how a call changes who has which effective
//! priority.

use crate::calls::{jump, single_ticks, Call};
use crate::chains::{chain, has_waiters, holder_over};
use crate::coverage::Coverage;
use crate::kernel::{Kernel, ObjectSlot, Stand, TaskSlot};

/// A name each for what a tick, a release and an advance do.
type Names = [&'static str; 3];

const ENDS: Names = ["tick: a loan ends", "release: a loan ends", "advance: a loan ends"];
const ENDS_FAR: Names = [
    "tick: a loan ends over several links",
    "release: a loan ends over several links",
    "advance: a loan ends over several links",
];
const SMALLER: Names = [
    "tick: a loan ends, a smaller one stays",
    "release: a loan ends, a smaller one stays",
    "advance: a loan ends, a smaller one stays",
];
const NO_CHANGE: Names = [
    "tick: a taker timed out, nobody falls",
    "release: a taker timed out, nobody falls",
    "advance: a taker timed out, nobody falls",
];
const MIDDLE: Names = [
    "tick: the middle of a chain timed out",
    "release: the middle of a chain timed out",
    "advance: the middle of a chain timed out",
];
const END_OF_CHAIN: Names = [
    "tick: the end of a chain timed out",
    "release: the end of a chain timed out",
    "advance: the end of a chain timed out",
];
const WOKEN: Names = [
    "tick: a task woken as its loan ends",
    "release: a task woken as its loan ends",
    "advance: a task woken as its loan ends",
];
const TWO: Names = [
    "tick: two loans end, both holders move",
    "release: two loans end, both holders move",
    "advance: two loans end, both holders move",
];
const INTO_ONE: Names =
    ["tick: two move into one line", "release: two move into one line", "advance: two move into one line"];
const NOT_AS_THEY_STOOD: Names = [
    "tick: two move into one line, not as they stood",
    "release: two move into one line, not as they stood",
    "advance: two move into one line, not as they stood",
];
const BEHIND: Names = [
    "tick: moved behind a task woken into that line",
    "release: moved behind a task woken into that line",
    "advance: moved behind a task woken into that line",
];
const OF_RUNNING: Names = [
    "tick: the running task's loan ends",
    "release: the running task's loan ends",
    "advance: the running task's loan ends",
];
const BEFORE_OTHERS: Names = [
    "tick: the running task comes before others",
    "release: the running task comes before others",
    "advance: the running task comes before others",
];

/// The kernel before and after each tick of this call that wakes somebody.
fn waking_ticks(before: &Kernel, call: &Call) -> Vec<(Kernel, Kernel)> {
    let pended = matches!(call, Call::Release);
    let mut left = match *call {
        Call::Tick if before.hold == 0 => 1,
        Call::Release if before.hold == 1 => before.pended,
        Call::Advance { ticks } => ticks,
        _ => 0,
    };
    let mut kernel = before.clone();
    let mut seen = Vec::new();
    while left > 0 {
        let was = (kernel.quiet_ticks() == 0).then(|| kernel.clone());
        let passed = if pended { kernel.quiet_ticks().min(left) } else { jump(&mut kernel, left) };
        match (pended, passed) {
            (true, 0) => kernel.count_and_wake(),
            (true, _) => kernel.tick = kernel.tick.wrapping_add(passed),
            (false, 0) => single_ticks(&mut kernel, 1),
            (false, _) => {}
        }
        left -= passed.max(1);
        seen.extend(was.map(|was| (was, kernel.clone())));
    }
    seen
}

/// Those whose effective priority is another one after, in order of slots.
fn changed(before: &Kernel, after: &Kernel) -> Vec<TaskSlot> {
    let exists = |task: &TaskSlot| !before.task(*task).is_free() && !after.task(*task).is_free();
    let differs = |task: &TaskSlot| before.task(*task).effective != after.task(*task).effective;
    TaskSlot::all().filter(exists).filter(differs).collect()
}

/// How many links from this task the farthest of these is; 0 if none is on its chain.
fn links(kernel: &Kernel, task: TaskSlot, these: &[TaskSlot]) -> usize {
    chain(kernel, task).iter().rposition(|holder| these.contains(holder)).map_or(0, |place| place + 1)
}

fn has_loan(kernel: &Kernel, task: TaskSlot) -> bool {
    kernel.task(task).effective > kernel.task(task).own
}

impl Coverage {
    /// Names what an accepted call did to loans, by the kernel before and after.
    pub fn observe_loans(&mut self, before: &Kernel, call: &Call, after: &Kernel) {
        self.observe_shape(before);
        self.observe_running(before, after);
        match *call {
            Call::Take { .. } if after.is_blocked(before.running) => self.observe_lending(before, after),
            Call::Give { object } => {
                let (object, mutex) = before.find_mutex(object).expect("accepted");
                if mutex.count == 1 {
                    self.observe_give(before, object, after);
                }
            }
            Call::SetPriority { task, .. } => {
                self.observe_own(before, before.find_task(task).expect("accepted"), after);
            }
            Call::Suspend { task } | Call::Delete { task } => {
                let task = before.find_task(task).expect("accepted");
                self.observe_broken_off(before, task, matches!(call, Call::Suspend { .. }), after);
            }
            Call::Resume { task } => {
                let task = before.find_task(task).expect("accepted");
                self.event_if(has_loan(after, task), "resume: a task with a loan");
            }
            Call::Tick | Call::Release | Call::Advance { .. } => {
                let way = match call {
                    Call::Tick => 0,
                    Call::Release => 1,
                    _ => 2,
                };
                for (before, after) in waking_ticks(before, call) {
                    self.observe_ends(&before, &after, way);
                }
            }
            _ => {}
        }
    }

    /// Chains that stand as a call begins, without a hold.
    fn observe_shape(&mut self, kernel: &Kernel) {
        if kernel.hold > 0 {
            return;
        }
        let longest = TaskSlot::all().map(|task| chain(kernel, task).len()).max().unwrap_or(0);
        self.event_if(longest >= 3, "chain: three links and more stand");
        self.event_if(longest >= 5, "chain: five links and more stand");
        self.event_if(longest >= 10, "chain: ten links and more stand");
        self.event_if(longest == 14, "chain: of all fifteen tasks stands");
    }

    /// The running task's line changes.
    fn observe_running(&mut self, before: &Kernel, after: &Kernel) {
        let caller = before.running;
        if !changed(before, after).contains(&caller) || after.task(caller).stand != Stand::Ready {
            return;
        }
        let line = &after.lines[after.task(caller).effective as usize];
        self.event_if(line.len() > 1 && line[0] == caller, "running task: comes before others");
        self.event_if(after.hold > 0, "running task: its line changes under a hold");
        let higher = after.task(caller).effective > before.task(caller).effective;
        self.event_if(higher, "running task: its line goes up");
        self.event_if(!higher && after.running != caller, "running task: its line goes down, another runs");
    }

    /// The caller begins to wait on a mutex.
    fn observe_lending(&mut self, before: &Kernel, after: &Kernel) {
        let caller = before.running;
        let raised = changed(before, after);
        let links_raised = links(after, caller, &raised);
        let length = chain(after, caller).len();
        self.event_if(length == 2, "take: a chain of two links");
        self.event_if(length > 2, "take: a chain of three links and more");
        self.event_if(raised.is_empty(), "take: nobody raised");
        self.event_if(links_raised == 2, "take: lent over two links");
        self.event_if(links_raised > 2, "take: lent over three links and more");
        let far_and_ready = links_raised > 1 && raised.iter().any(|&task| after.task(task).stand == Stand::Ready);
        self.event_if(far_and_ready, "take: lent to a ready task along a chain");
        let by_loan = before.task(caller).effective > before.task(caller).own;
        self.event_if(by_loan && !raised.is_empty(), "take: by a task with a loan, passed on");
    }

    /// The caller gives a mutex for the last time.
    fn observe_give(&mut self, before: &Kernel, object: ObjectSlot, after: &Kernel) {
        let caller = before.running;
        let own = after.task(caller).own;
        let (old, new) = (before.task(caller).effective, after.task(caller).effective);
        self.event_if(new > own && new == old, "give: loan kept, another mutex still held");
        self.event_if(new > own && new < old, "give: a smaller loan stays");
        self.event_if(old > own && new == own, "give: own priority comes back");
        self.event_if(
            old > own && new == own && after.holds_a_mutex(caller),
            "give: loan ends, another mutex still held",
        );
        self.event_if(before.object(object).waiters.len() > 1, "give: waiters stay");
        let Some(holder) = after.object(object).holder() else { return };
        self.event_if(has_loan(after, holder), "give: the new holder has a loan");
        self.event_if(has_waiters(before, holder), "give: the new holder has waiters of its own");
        let larger = |other: &TaskSlot| before.task(*other).own > before.task(holder).own;
        let by_loan = before.object(object).waiters.iter().any(larger);
        self.event_if(by_loan, "give: first waiter by what is lent to it");
    }

    /// This task's own priority changes.
    fn observe_own(&mut self, before: &Kernel, task: TaskSlot, after: &Kernel) {
        let (old, new) = (before.task(task), after.task(task));
        let up = new.own > old.own;
        let down = new.own < old.own;
        let moved = changed(before, after);
        let links = links(before, task, &moved);
        self.event_if(up && links == 1, "set priority: up, passed over one link");
        self.event_if(up && links == 2, "set priority: up, passed over two links");
        self.event_if(up && links > 2, "set priority: up, passed over three links and more");
        self.event_if(down && links == 1, "set priority: down, passed over one link");
        self.event_if(down && links == 2, "set priority: down, passed over two links");
        self.event_if(down && links > 2, "set priority: down, passed over three links and more");
        let waits = holder_over(before, task).is_some();
        self.event_if(down && waits && links == 0, "set priority: a waiter lower, other loans stay");
        let ready = |other: &TaskSlot| before.task(*other).stand == Stand::Ready;
        self.event_if(links > 0 && moved.iter().any(ready), "set priority: a ready holder moves");
        if before.holds_a_mutex(task) && !up {
            self.event_if(
                new.effective == old.effective && has_loan(after, task),
                "set priority: a holder lower, its loan stays",
            );
            self.event_if(
                new.effective < old.effective && has_loan(after, task),
                "set priority: a holder lower, down to its loan",
            );
            self.event_if(
                new.effective < old.effective && !has_loan(after, task),
                "set priority: a holder lower, nothing lent",
            );
        }
        self.event_if(has_loan(before, task) && new.effective > old.effective, "set priority: a holder above its loan");
    }

    /// This task is suspended or deleted.
    fn observe_broken_off(&mut self, before: &Kernel, task: TaskSlot, suspended: bool, after: &Kernel) {
        if holder_over(before, task).is_none() {
            return;
        }
        let links = links(before, task, &changed(before, after));
        if suspended {
            self.event_if(links > 0, "suspend: a waiter, its loan ends");
            self.event_if(links > 1, "suspend: a waiter, its loan ends over several links");
            self.event_if(links == 0, "suspend: a waiter, other loans stay");
            self.event_if(links > 0 && has_waiters(before, task), "suspend: the middle of a chain, a loan ends");
        } else {
            self.event_if(links > 0, "delete: a waiter, its loan ends");
            self.event_if(links > 1, "delete: a waiter, its loan ends over several links");
            self.event_if(links == 0, "delete: a waiter, other loans stay");
        }
    }

    /// One tick that wakes somebody, and the waits that end on it.
    fn observe_ends(&mut self, before: &Kernel, after: &Kernel, way: usize) {
        let woken: Vec<TaskSlot> = before.began.iter().copied().filter(|&task| !after.is_blocked(task)).collect();
        let takers: Vec<TaskSlot> = woken.iter().copied().filter(|&task| holder_over(before, task).is_some()).collect();
        if takers.is_empty() {
            return;
        }
        let fallen = changed(before, after);
        let reach = |task: &TaskSlot| links(before, *task, &fallen);
        self.event_if(!fallen.is_empty(), ENDS[way]);
        self.event_if(takers.iter().any(|task| reach(task) > 1), ENDS_FAR[way]);
        self.event_if(fallen.iter().any(|&task| has_loan(after, task)), SMALLER[way]);
        self.event_if(takers.iter().any(|task| reach(task) == 0), NO_CHANGE[way]);
        let in_the_middle = |task: &TaskSlot| reach(task) > 0 && has_waiters(after, *task);
        self.event_if(takers.iter().any(in_the_middle), MIDDLE[way]);
        let at_the_end =
            |task: &TaskSlot| reach(task) > 0 && chain(before, *task).len() > 1 && !has_waiters(before, *task);
        self.event_if(takers.iter().any(at_the_end), END_OF_CHAIN[way]);
        self.event_if(fallen.iter().any(|task| woken.contains(task)), WOKEN[way]);
        self.observe_moves(before, &woken, &fallen, after, way);
    }

    /// Those who move on one tick.
    fn observe_moves(&mut self, before: &Kernel, woken: &[TaskSlot], fallen: &[TaskSlot], after: &Kernel, way: usize) {
        let running = before.running;
        let line_of = |task: TaskSlot| &after.lines[after.task(task).effective as usize];
        if fallen.contains(&running) {
            self.event(OF_RUNNING[way]);
            self.event_if(line_of(running).len() > 1, BEFORE_OTHERS[way]);
        }
        let movers: Vec<TaskSlot> =
            fallen.iter().copied().filter(|&task| task != running && after.task(task).stand == Stand::Ready).collect();
        let stood = |task: TaskSlot| {
            let place = woken.iter().position(|&other| other == task);
            let line = &before.lines[before.task(task).effective as usize];
            (place, line.iter().position(|&other| other == task))
        };
        let [mut two, mut into_one, mut not_as_they_stood] = [false; 3];
        for (place, &first) in movers.iter().enumerate() {
            for &second in &movers[place + 1..] {
                let one_line = after.task(first).effective == after.task(second).effective;
                let from_one_line = before.task(first).effective == before.task(second).effective;
                two = true;
                into_one |= one_line;
                not_as_they_stood |= one_line && from_one_line && stood(first) > stood(second);
            }
        }
        self.event_if(two, TWO[way]);
        self.event_if(into_one, INTO_ONE[way]);
        self.event_if(not_as_they_stood, NOT_AS_THEY_STOOD[way]);
        let woken_there = |task: &TaskSlot| {
            woken
                .iter()
                .any(|other| !fallen.contains(other) && after.task(*other).effective == after.task(*task).effective)
        };
        self.event_if(movers.iter().any(woken_there), BEHIND[way]);
    }
}
