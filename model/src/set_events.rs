//! What a journal exercises of sets: whom the bits satisfy, what is cleared, and where the woken stand.

use crate::coverage::Coverage;
use crate::groups::{wish_of, Group, Wish, ALL_BITS};
use crate::kernel::{Kernel, ObjectSlot, Stand, TaskSlot, IDLE};

type Waiter = (TaskSlot, Wish);

/// Those who wait on this group, in first-waiter order.
fn in_turn(kernel: &Kernel, object: ObjectSlot) -> Vec<Waiter> {
    let mut waiters: Vec<Waiter> = kernel
        .object(object)
        .waiters
        .iter()
        .filter_map(|&task| wish_of(kernel, task).map(|wish| (task, wish)))
        .collect();
    waiters.sort_by_key(|(task, _)| std::cmp::Reverse(kernel.task(*task).effective));
    waiters
}

/// How many would be woken if each were judged on what the clears before it had left.
fn one_after_another(waiters: &[Waiter], bits: u32) -> usize {
    let mut left = bits;
    let mut woken = 0;
    for (_, wish) in waiters {
        if wish.satisfied_by(left) {
            left &= !wish.cleared();
            woken += 1;
        }
    }
    woken
}

/// Whether this holds of any two of these.
fn any_two<T>(these: &[T], holds: impl Fn(&T, &T) -> bool) -> bool {
    these.iter().enumerate().any(|(place, first)| these[place + 1..].iter().any(|second| holds(first, second)))
}

impl Coverage {
    /// Names what an accepted set did.
    pub fn observe_set(&mut self, before: &Kernel, object: ObjectSlot, group: Group, bits: u32, after: &Kernel) {
        let joined = group.bits | bits;
        let waiters = in_turn(before, object);
        let woken: Vec<Waiter> = waiters.iter().copied().filter(|(_, wish)| wish.satisfied_by(joined)).collect();
        self.observe_bits_set(before, object, group, bits);
        self.event(match (waiters.len(), woken.len()) {
            (0, _) => "set: nobody waits",
            (_, 0) => "set: nobody satisfied",
            (_, 1) => "set: one woken",
            (_, 2) => "set: two woken",
            _ => "set: three and more woken",
        });
        if woken.is_empty() {
            return;
        }
        self.event_if(woken.len() < waiters.len(), "set: some woken, others go on waiting");
        self.event_if(before.hold > 0, "set: woken under a hold");
        self.observe_woken(before, group, joined, &woken);
        self.observe_clears(object, &waiters, &woken, group, joined, after);
        let tasks: Vec<TaskSlot> = woken.iter().map(|(task, _)| *task).collect();
        self.observe_places(before, object, &tasks, after);
    }

    fn observe_bits_set(&mut self, before: &Kernel, object: ObjectSlot, group: Group, bits: u32) {
        let waiters = !before.object(object).waiters.is_empty();
        self.event_if(bits == 0, "set: 0 bits");
        self.event_if(bits == 0 && waiters, "set: 0 bits, some wait");
        self.event_if(bits != 0 && group.bits | bits == group.bits, "set: bits that were set already");
        self.event_if(bits == ALL_BITS, "set: all 24 bits");
        self.event_if(bits >> 23 == 1 && bits != ALL_BITS, "set: the highest bit");
        self.event_if(before.hold > 0, "set: under a hold");
        self.event_if(before.running == IDLE, "set: by idle");
    }

    /// Why each was woken, and what it had waited for.
    fn observe_woken(&mut self, before: &Kernel, group: Group, joined: u32, woken: &[Waiter]) {
        for &(task, wish) in woken {
            let several = wish.mask.count_ones() > 1;
            let part = several && joined & wish.mask != wish.mask;
            self.event_if(wish.all && several, "set: all of several bits");
            self.event_if(wish.all && group.bits & wish.mask != 0, "set: all, with bits of an earlier set");
            self.event_if(!wish.all && part, "set: any, not all of them");
            self.event_if(joined & !wish.mask != 0, "set: a slip gets bits beside the mask");
            self.event(match before.distance(task) {
                None => "set: a wait for ever ends",
                Some(1) => "set: a timed wait ends, one tick before its time",
                Some(_) => "set: a timed wait ends",
            });
            let slot = before.task(task);
            self.event_if(slot.effective > slot.own, "set: a task with a loan woken");
            self.event_if(before.holds_a_mutex(task), "set: a holder woken");
        }
        let both = woken.iter().any(|(_, wish)| wish.all) && woken.iter().any(|(_, wish)| !wish.all);
        self.event_if(both, "set: one by all and one by any");
        let bytes = [joined & 0xff, joined >> 8 & 0xff, joined >> 16];
        self.event_if(bytes.iter().all(|&byte| byte != 0), "set: bits in three bytes of a slip");
    }

    /// "the clears happen together afterwards"
    fn observe_clears(
        &mut self,
        object: ObjectSlot,
        waiters: &[Waiter],
        woken: &[Waiter],
        group: Group,
        joined: u32,
        after: &Kernel,
    ) {
        let cleared = woken.iter().fold(0, |bits, (_, wish)| bits | wish.cleared());
        let clearing = woken.iter().filter(|(_, wish)| wish.clear).count();
        self.event_if(clearing == 0, "set: nobody clears");
        self.event_if(clearing == 1, "set: one clears");
        self.event_if(clearing > 1, "set: several clear");
        let overlap = |first: &Waiter, second: &Waiter| first.1.cleared() & second.1.cleared() != 0;
        self.event_if(any_two(woken, overlap), "set: two clear the same bit");
        self.event_if(one_after_another(waiters, joined) < woken.len(), "set: a clear would have starved another");
        let mut reversed = waiters.to_vec();
        reversed.reverse();
        let starved = one_after_another(&reversed, joined) < woken.len();
        self.event_if(starved, "set: a clear would have starved another, judged in reverse");
        let stays = |(task, _): &&Waiter| after.object(object).waiters.contains(task);
        let loses = |(_, wish): &Waiter| wish.mask & joined & cleared != 0;
        self.event_if(waiters.iter().filter(stays).any(loses), "set: a clear takes bits of one who goes on waiting");
        self.event_if(clearing > 0 && group.bits & cleared != 0, "set: a clear takes bits of an earlier set");
        self.event_if(clearing > 0 && joined & !cleared != 0, "set: bits beside the cleared ones stay");
        self.event_if(joined & !cleared == 0, "set: nothing is left");
        let kept = |(_, wish): &Waiter| !wish.clear && wish.mask & cleared != 0;
        self.event_if(woken.iter().any(kept), "set: one keeps what another clears");
    }

    /// "in first-waiter order": the woken are in this order.
    fn observe_places(&mut self, before: &Kernel, object: ObjectSlot, woken: &[TaskSlot], after: &Kernel) {
        let level = |task: TaskSlot| before.task(task).effective;
        let own = |task: TaskSlot| before.task(task).own;
        let one_line = |first: &TaskSlot, second: &TaskSlot| level(*first) == level(*second);
        self.event_if(any_two(woken, one_line), "set: two woken into one line");
        let against = |first: &TaskSlot, second: &TaskSlot| one_line(first, second) && first.index() > second.index();
        self.event_if(any_two(woken, against), "set: two woken into one line, not in order of slots");
        let owns_less = |first: &TaskSlot, second: &TaskSlot| one_line(first, second) && own(*first) < own(*second);
        self.event_if(any_two(woken, owns_less), "set: two woken into one line, the earlier owns less");
        let came: Vec<TaskSlot> =
            before.object(object).waiters.iter().copied().filter(|task| woken.contains(task)).collect();
        self.event_if(came != woken, "set: woken in another order than they came");
        let behind = |task: &TaskSlot| !before.lines[level(*task) as usize].is_empty();
        self.event_if(woken.iter().any(behind), "set: woken behind others of its line");
        self.event_if(woken.contains(&after.running), "set: a woken task runs");
        let caller = before.running;
        let stays = after.running == caller && after.task(caller).stand == Stand::Ready && before.hold == 0;
        self.event_if(stays, "set: the caller runs on, some are woken");
    }
}
