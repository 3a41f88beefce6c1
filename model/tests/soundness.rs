//! The self-check finds kernels that are not sound.

mod common;

use common::{held_by, object, order_of, session, task};
use model::check::soundness;
use model::groups::{Group, Wish, ALL_BITS};
use model::kernel::{Kernel, Kind, Mutex, Outcome, Queue, Role, Stand};

/// Task 1 (priority 3, holds mutex 0) runs; task 2 (5) waits on it; task 3 (4) is ready;
/// task 4 (9) is delayed; task 5 waits on the empty queue 1; task 6 is suspended; task 7 waits behind task 5.
/// Of those that are delayed or wait, 2 began first, then 4, 5 and 7.
fn busy() -> Kernel {
    session(
        "1 2 -> ok 1 1
         5 1 3 -> ok 0 1
         11 -> ok 0 1
         10 2 1 -> ok 1 1
         15 0 0 -> ok 0 1
         1 5 -> ok 2 2
         15 0 10 -> wait 0 1
         1 4 -> ok 3 1
         1 9 -> ok 4 4
         6 7 -> wait 0 1
         1 9 -> ok 5 5
         14 1 4294967295 -> wait 0 1
         1 9 -> ok 6 6
         3 6 -> ok 0 1
         1 9 -> ok 7 7
         14 1 4294967295 -> wait 0 1
         17 -> ok 0 1",
    )
    .kernel
}

/// What is wrong, the sentence that it breaks, and how it is brought about.
type Breach = (&'static str, &'static str, fn(&mut Kernel));

const IDLE: &str = "idle is as above";
const ONCE: &str = "each ready task stands once in the line";
const RANGES: &str = "counts and places obey the ranges";
const OUTCOME: &str = "an outcome is 0 if delayed or waiting";
const ORDER: &str = "the order has each of them";
const ORDER_ONCE: &str = "the order has each of them once";
const ORDER_ELSE: &str = "the order has no one else";
const ORDER_AGREES: &str = "the order agrees with each object's list";
const CIRCLE: &str = "there is no circle";
const COUNT: &str = "the count of a held mutex is 1 to 255, of an ordinary one 1";
const NO_COUNT: &str = "a free mutex has no count";
const LOANS: &str = "effective is what the rule of loans says";
const BITS: &str = "an event group has 24 bits";
const MASK: &str = "a waiter on an event group has a mask that the call accepts";
const UNSATISFIED: &str = "waiters stand only where unsatisfied";
const FITS: &str = "a waiter fits its object";
const MOST: &str = "a use is at most 65,536";
const MOST_TAKEN: &str = "in a taken slot 65,535";

fn queue(capacity: u8, size: u8, first: u8, count: u8) -> Kind {
    Kind::Queue(Queue { capacity, size, first, count })
}

fn mutex(recursive: bool, holder: Option<usize>, count: u32) -> Kind {
    Kind::Mutex(Mutex { recursive, holder: holder.map(task), count })
}

fn group(bits: u32) -> Kind {
    Kind::Group(Group { bits })
}

/// Task 1 (3) runs and holds mutex 2. Event group 0 has bits 1 and 16; task 2 (5) waits on it for all of 3, task 3 (6)
/// for any of 12, and task 4 (9) on the empty queue 1.
fn gated() -> Kernel {
    session(
        "20 -> ok 0 0
         10 2 1 -> ok 1 0
         11 -> ok 2 0
         21 0 17 -> ok 0 0
         1 3 -> ok 1 1
         15 2 0 -> ok 0 1
         1 5 -> ok 2 2
         23 0 3 1 1 7 -> wait 0 1
         1 6 -> ok 3 3
         23 0 12 0 0 4294967295 -> wait 0 1
         1 9 -> ok 4 4
         14 1 9 -> wait 0 1",
    )
    .kernel
}

/// The kernel with this task waiting for something else, on the same object.
fn set_role(kernel: &mut Kernel, slot: usize, new: Role) {
    if let Stand::Waiting { role, .. } = &mut kernel.tasks[slot].stand {
        *role = new;
    }
}

fn set_wish(kernel: &mut Kernel, slot: usize, mask: u32, all: bool, clear: bool) {
    set_role(kernel, slot, Role::Watcher(Wish { mask, all, clear }));
}

#[test]
fn waiters_on_an_event_group_are_sound_where_unsatisfied_alone() {
    assert_eq!(soundness(&gated()), Ok(()));
    for mask in [1, 2, 3, 16, 17, 18, 1 << 23, (1 << 23) + 1, ALL_BITS - 17, ALL_BITS] {
        for (all, clear) in [(false, false), (false, true), (true, false), (true, true)] {
            let mut kernel = gated();
            set_wish(&mut kernel, 3, mask, all, clear);
            let satisfied = if all { mask & !17 == 0 } else { mask & 17 != 0 };
            let verdict = if satisfied { Err(UNSATISFIED.to_string()) } else { Ok(()) };
            assert_eq!(soundness(&kernel), verdict, "{mask} {all} {clear}");
        }
    }
    // Any bits are sound where nobody waits.
    for bits in [0, 1, 17, 1 << 23, ALL_BITS] {
        let mut kernel = gated();
        kernel.objects[3].kind = group(bits);
        assert_eq!(soundness(&kernel), Ok(()), "{bits}");
    }
}

#[test]
fn each_breach_of_event_groups_is_found() {
    let breaches: [Breach; 26] = [
        ("a 25th bit", BITS, |k| k.objects[0].kind = group(1 << 24)),
        ("a 25th bit, nobody waits", BITS, |k| k.objects[3].kind = group(1 << 24)),
        ("the 32nd bit", BITS, |k| k.objects[3].kind = group(1 << 31)),
        ("all 32 bits", BITS, |k| k.objects[3].kind = group(u32::MAX)),
        ("an empty mask, all", MASK, |k| set_wish(k, 2, 0, true, false)),
        ("an empty mask, any", MASK, |k| set_wish(k, 3, 0, false, true)),
        ("a mask of the 25th bit", MASK, |k| set_wish(k, 2, 1 << 24, true, true)),
        ("a mask with the 25th bit", MASK, |k| set_wish(k, 3, (1 << 24) + 4, false, false)),
        ("a mask with the 32nd bit", MASK, |k| set_wish(k, 3, (1 << 31) + 2, true, false)),
        ("satisfied by all", UNSATISFIED, |k| k.objects[0].kind = group(3)),
        ("satisfied by all and more", UNSATISFIED, |k| k.objects[0].kind = group(19)),
        ("satisfied by any", UNSATISFIED, |k| k.objects[0].kind = group(4)),
        ("satisfied by all of any", UNSATISFIED, |k| k.objects[0].kind = group(12)),
        ("satisfied by every bit", UNSATISFIED, |k| k.objects[0].kind = group(ALL_BITS)),
        ("a receiver on an event group", FITS, |k| set_role(k, 2, Role::Receiver)),
        ("a sender on an event group", FITS, |k| set_role(k, 3, Role::Sender)),
        ("a taker on an event group", FITS, |k| set_role(k, 3, Role::Taker)),
        ("a mask of a waiter on a queue", FITS, |k| set_wish(k, 4, 3, true, true)),
        ("a mask of a waiter on a mutex", FITS, |k| k.objects[0].kind = held_by(1)),
        ("a mask of a waiter on a free mutex", FITS, |k| k.objects[0].kind = mutex(true, None, 0)),
        ("a mask of a waiter on a free slot", FITS, |k| k.objects[0].kind = Kind::Free),
        ("waiter not listed", "each object lists its waiters", |k| k.objects[0].waiters.truncate(1)),
        ("another listed", "and no one else", |k| k.objects[0].waiters.push(task(4))),
        ("waiters swapped in the order", ORDER_AGREES, |k| k.began.swap(0, 1)),
        ("outcome of a waiter", OUTCOME, |k| k.tasks[2].outcome = Outcome::Done),
        ("wake tick is the count", "no wake tick of a delayed or waiting task equals the tick count", |k| k.tick = 7),
    ];
    for (name, sentence, breach) in breaches {
        let mut kernel = gated();
        breach(&mut kernel);
        assert_eq!(soundness(&kernel), Err(sentence.to_string()), "{name}");
    }
}

/// It "lends no priority": with a loan to a holder of anything the kernel is not sound.
#[test]
fn a_wait_on_an_event_group_lends_nothing() {
    for effective in [4, 5, 6] {
        let mut kernel = gated();
        kernel.set_effective(task(1), effective);
        assert_eq!(soundness(&kernel), Err(LOANS.to_string()), "{effective}");
    }
}

#[test]
fn a_busy_kernel_is_sound() {
    assert_eq!(soundness(&busy()), Ok(()));
    assert_eq!(soundness(&Kernel::fresh()), Ok(()));
}

#[test]
fn the_largest_uses_are_sound() {
    let mut kernel = busy();
    for slot in &mut kernel.tasks[1..] {
        slot.uses = if slot.is_free() { 65_536 } else { 65_535 };
    }
    for slot in &mut kernel.objects {
        slot.uses = if slot.is_free() { 65_536 } else { 65_535 };
    }
    assert_eq!(soundness(&kernel), Ok(()));
}

#[test]
fn every_count_from_1_to_255_is_sound() {
    for count in 1..=255 {
        let mut kernel = busy();
        kernel.objects[0].kind = mutex(true, Some(1), count);
        kernel.objects[2].kind = mutex(true, Some(6), count);
        kernel.objects[3].kind = mutex(true, None, 0);
        assert_eq!(soundness(&kernel), Ok(()), "{count}");
    }
}

/// The lists of objects say nothing on a delayed task, nor on waiters of two objects.
#[test]
fn the_order_of_others_is_free() {
    assert_eq!(order_of(&busy()), [2, 4, 5, 7]);
    for order in [[4, 2, 5, 7], [5, 2, 4, 7], [5, 7, 2, 4], [5, 4, 7, 2]] {
        let mut kernel = busy();
        kernel.began = order.map(task).to_vec();
        assert_eq!(soundness(&kernel), Ok(()), "{order:?}");
    }
}

/// Task 6 (9) waits on mutex 2, which task 2 holds: its loan goes to task 2, and along the chain to task 1.
fn chained() -> Kernel {
    let mut kernel = busy();
    kernel.objects[2].kind = held_by(2);
    kernel.objects[2].waiters.push(task(6));
    kernel.tasks[6].stand = Stand::Waiting { object: object(2), role: Role::Taker, wake: None };
    kernel.began.push(task(6));
    kernel.set_effective(task(2), 9);
    kernel.set_effective(task(1), 9);
    kernel
}

#[test]
fn a_chain_is_sound_with_its_loans_alone() {
    assert_eq!(soundness(&chained()), Ok(()));
    for (slot, effective) in [(1, 5), (1, 8), (1, 10), (2, 5), (2, 8), (2, 10), (6, 8), (6, 10)] {
        let mut kernel = chained();
        kernel.set_effective(task(slot), effective);
        assert_eq!(soundness(&kernel), Err(LOANS.to_string()), "task {slot} at {effective}");
    }
}

/// Task 1, which runs no more, waits on this mutex too.
fn closed(mut kernel: Kernel, mutex: usize) -> Kernel {
    kernel.leave_line(task(1));
    kernel.tasks[1].stand = Stand::Waiting { object: object(mutex), role: Role::Taker, wake: None };
    kernel.objects[mutex].waiters.push(task(1));
    kernel.began.push(task(1));
    kernel.running = task(3);
    kernel
}

#[test]
fn a_circle_is_not_sound() {
    // Tasks 1 and 2, with task 6 before them; all have the largest own priority, as the rule of loans says.
    let circle = closed(chained(), 2);
    assert_eq!(soundness(&circle), Err(CIRCLE.to_string()));
    for (first, second) in [(31, 31), (10, 10), (5, 5), (9, 5), (5, 9), (3, 9)] {
        let mut kernel = circle.clone();
        kernel.set_effective(task(1), first);
        kernel.set_effective(task(2), second);
        assert_eq!(soundness(&kernel), Err(CIRCLE.to_string()), "{first}, {second}");
    }
    // Tasks 1, 2 and 6: task 1 waits on mutex 3, which task 6 holds.
    let mut kernel = chained();
    kernel.objects[3].kind = held_by(6);
    assert_eq!(soundness(&kernel), Ok(()));
    assert_eq!(soundness(&closed(kernel, 3)), Err(CIRCLE.to_string()));
}

#[test]
fn what_is_no_circle_is_sound() {
    // Task 1 waits on mutex 3, and its holder, task 3, waits for nobody, is suspended, or waits on queue 1.
    let mut kernel = chained();
    kernel.objects[3].kind = held_by(3);
    let mut kernel = closed(kernel, 3);
    kernel.set_effective(task(3), 9);
    assert_eq!(soundness(&kernel), Ok(()));
    kernel.leave_line(task(3));
    kernel.running = task(0);
    kernel.tasks[3].stand = Stand::Suspended;
    assert_eq!(soundness(&kernel), Ok(()));
    kernel.tasks[3].stand = Stand::Waiting { object: object(1), role: Role::Receiver, wake: None };
    kernel.objects[1].waiters.push(task(3));
    kernel.began.push(task(3));
    assert_eq!(soundness(&kernel), Ok(()));
}

#[test]
fn each_breach_is_found() {
    let breaches: [Breach; 70] = [
        ("idle suspended", IDLE, |k| {
            k.leave_line(task(0));
            k.tasks[0].stand = Stand::Suspended;
        }),
        ("idle raised", IDLE, |k| k.set_effective(task(0), 1)),
        ("idle holds", "idle never waits or holds", |k| k.objects[2].kind = held_by(0)),
        ("ready task in no line", ONCE, |k| k.leave_line(task(3))),
        ("ready task twice", ONCE, |k| k.lines[4].push(task(3))),
        ("ready task in another line", "in the line of its effective priority", |k| k.tasks[3].effective = 6),
        ("suspended task in a line", "nobody else stands in a line", |k| k.lines[4].push(task(6))),
        ("running task not at the head", "the running task heads its line", |k| {
            k.set_effective(task(3), 5);
            k.tasks[3].own = 5;
            k.lines[5].rotate_left(1);
        }),
        ("a lower task runs", "with hold 0 no higher line is occupied", |k| k.running = task(3)),
        ("receiver on a filled queue", "receivers wait only on an empty queue", |k| {
            k.objects[1].kind = queue(2, 1, 0, 1)
        }),
        ("sender on a queue with room", "senders only on a full one", |k| {
            k.tasks[5].stand = Stand::Waiting { object: object(1), role: Role::Sender, wake: None }
        }),
        ("taker on a free mutex", FITS, |k| {
            k.objects[0].kind = Kind::Mutex(Mutex::free(false));
            k.tasks[1].own = 5;
        }),
        ("taker is the holder", "takers only on a mutex held by another", |k| {
            k.objects[0].kind = held_by(2);
            k.tasks[1].own = 5;
        }),
        ("waiter listed twice", "each object lists its waiters once", |k| k.objects[0].waiters.push(task(2))),
        ("waiter not listed", "each object lists its waiters", |k| k.objects[0].waiters.clear()),
        ("another listed", "and no one else", |k| k.objects[0].waiters.push(task(3))),
        ("listed by a free object", "and no one else", |k| k.object_mut(object(3)).waiters.push(task(2))),
        ("delayed task missing in the order", ORDER, |k| k.began.retain(|&other| other != task(4))),
        ("waiter missing in the order", ORDER, |k| k.began.retain(|&other| other != task(2))),
        ("waiter for ever missing in the order", ORDER, |k| k.began.retain(|&other| other != task(7))),
        ("nobody in the order", ORDER, |k| k.began.clear()),
        ("delayed task twice in the order", ORDER_ONCE, |k| k.began.push(task(4))),
        ("waiter twice in the order", ORDER_ONCE, |k| k.began.insert(0, task(5))),
        ("one twice for another in the order", ORDER_ONCE, |k| k.began[3] = task(5)),
        ("running task in the order", ORDER_ELSE, |k| k.began.push(task(1))),
        ("ready task in the order", ORDER_ELSE, |k| k.began.insert(0, task(3))),
        ("suspended task in the order", ORDER_ELSE, |k| k.began.push(task(6))),
        ("free slot in the order", ORDER_ELSE, |k| k.began.push(task(9))),
        ("idle in the order", ORDER_ELSE, |k| k.began.insert(0, task(0))),
        ("another for a delayed task in the order", ORDER_ELSE, |k| k.began[1] = task(3)),
        ("waiters of one object swapped in the order", ORDER_AGREES, |k| k.began.swap(2, 3)),
        ("the same, others between them", ORDER_AGREES, |k| k.began = [7, 2, 4, 5].map(task).to_vec()),
        ("waiters swapped in the object's list", ORDER_AGREES, |k| k.objects[1].waiters.swap(0, 1)),
        ("effective below own", LOANS, |k| k.tasks[6].own = 10),
        ("loan without a mutex", LOANS, |k| k.tasks[6].own = 1),
        ("loan of nobody", LOANS, |k| {
            k.objects[2].kind = held_by(6);
            k.tasks[6].effective = 10;
        }),
        ("loan too large", LOANS, |k| k.set_effective(task(1), 6)),
        ("loan too small", LOANS, |k| (k.tasks[2].own, k.tasks[2].effective) = (6, 6)),
        ("loan of a waiter on a queue", LOANS, |k| (k.tasks[5].own, k.tasks[5].effective) = (3, 9)),
        ("holder does not exist", "holders exist", |k| k.objects[2].kind = held_by(9)),
        ("held at count 0", COUNT, |k| k.objects[0].kind = mutex(true, Some(1), 0)),
        ("held at count 0, nobody waits", COUNT, |k| k.objects[2].kind = mutex(true, Some(6), 0)),
        ("held at count 256", COUNT, |k| k.objects[0].kind = mutex(true, Some(1), 256)),
        ("held at count 256, nobody waits", COUNT, |k| k.objects[2].kind = mutex(true, Some(6), 256)),
        ("ordinary mutex at count 0", COUNT, |k| k.objects[0].kind = mutex(false, Some(1), 0)),
        ("ordinary mutex at count 2", COUNT, |k| k.objects[0].kind = mutex(false, Some(1), 2)),
        ("count 1 of nobody", NO_COUNT, |k| k.objects[2].kind = mutex(true, None, 1)),
        ("count 255 of nobody", NO_COUNT, |k| k.objects[2].kind = mutex(true, None, 255)),
        ("count of nobody, ordinary mutex", NO_COUNT, |k| k.objects[2].kind = mutex(false, None, 1)),
        ("taker on a free recursive mutex", FITS, |k| {
            k.objects[0].kind = mutex(true, None, 0);
            k.tasks[1].own = 5;
        }),
        ("taker is the holder of a recursive mutex", "takers only on a mutex held by another", |k| {
            k.objects[0].kind = mutex(true, Some(2), 2);
            k.tasks[1].own = 5;
        }),
        ("idle holds a recursive mutex", "idle never waits or holds", |k| k.objects[2].kind = mutex(true, Some(0), 2)),
        ("holder of a recursive mutex does not exist", "holders exist", |k| {
            k.objects[2].kind = mutex(true, Some(9), 2)
        }),
        ("wake tick is the count", "no wake tick of a delayed or waiting task equals the tick count", |k| k.tick = 7),
        ("priority out of range", RANGES, |k| (k.tasks[6].own, k.tasks[6].effective) = (32, 32)),
        ("first out of range", RANGES, |k| k.objects[1].kind = queue(2, 1, 2, 0)),
        ("count out of range", RANGES, |k| k.objects[2].kind = queue(2, 1, 0, 3)),
        ("product out of range", RANGES, |k| k.objects[1].kind = queue(64, 9, 0, 0)),
        ("hold out of range", RANGES, |k| k.hold = 256),
        ("outcome of a waiter", OUTCOME, |k| k.tasks[2].outcome = Outcome::Done),
        ("outcome of a delayed task", OUTCOME, |k| k.tasks[4].outcome = Outcome::BrokenOff),
        ("pended without a hold", "with hold 0 nothing is pended", |k| k.pended = 1),
        ("free task not fresh", "free slots carry the fresh values", |k| k.tasks[9].own = 1),
        ("use of idle", "idle's use is 0", |k| k.tasks[0].uses = 1),
        ("use of a free task slot", MOST, |k| k.tasks[9].uses = 65_537),
        ("use of a free object slot", MOST, |k| k.objects[9].uses = 65_537),
        ("use far too large", MOST, |k| k.objects[9].uses = u32::MAX),
        ("use of a ready task", MOST_TAKEN, |k| k.tasks[3].uses = 65_536),
        ("use of a waiting task", MOST_TAKEN, |k| k.tasks[2].uses = 65_536),
        ("use of an object", MOST_TAKEN, |k| k.objects[1].uses = 65_536),
    ];
    for (name, sentence, breach) in breaches {
        let mut kernel = busy();
        breach(&mut kernel);
        assert_eq!(soundness(&kernel), Err(sentence.to_string()), "{name}");
    }
}
