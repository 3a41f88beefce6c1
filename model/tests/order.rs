//! Request 3, sentence by sentence: tasks due together are made ready in the order in which they began.

mod common;

use common::{go_on, line_of, order_of, repeat, session, task};
use model::calls::{step, Answer, Call};
use model::check::soundness;
use model::kernel::{Kernel, Outcome};
use model::machine::Machine;

/// Tasks 1 and 2 (priority 5) are ready, and task 1 runs.
fn two() -> Machine {
    session("1 5 -> ok 1 1\n1 5 -> ok 2 1")
}

#[test]
fn two_delays_in_either_order() {
    let mut machine = two();
    go_on(&mut machine, "6 2 -> wait 0 2\n6 2 -> wait 0 0\n17 -> ok 0 0\n17 -> ok 0 1");
    assert_eq!(line_of(&machine.kernel, 5), [1, 2]);
    let mut machine = two();
    go_on(&mut machine, "7 -> ok 0 2\n6 2 -> wait 0 1\n6 2 -> wait 0 0\n17 -> ok 0 0\n17 -> ok 0 2");
    assert_eq!(line_of(&machine.kernel, 5), [2, 1]);
}

#[test]
fn the_later_one_does_not_keep_going_first() {
    let mut machine = two();
    go_on(&mut machine, "1 5 -> ok 3 1\n7 -> ok 0 2\n7 -> ok 0 3");
    for _ in 0..4 {
        go_on(&mut machine, "6 2 -> wait 0 1\n6 2 -> wait 0 2\n6 2 -> wait 0 0\n17 -> ok 0 0\n17 -> ok 0 3");
        assert_eq!(line_of(&machine.kernel, 5), [3, 1, 2]);
    }
}

#[test]
fn a_slot_used_again_comes_as_it_began() {
    let mut machine = two();
    // Slot 1 is given up and used again while task 2 is delayed.
    go_on(
        &mut machine,
        "2 1 -> ok 0 2
         6 3 -> wait 0 0
         1 5 -> ok 17 17
         6 3 -> wait 0 0
         17 -> ok 0 0
         17 -> ok 0 0
         17 -> ok 0 2",
    );
    assert_eq!(line_of(&machine.kernel, 5), [2, 1]);
}

/// A delay of 2 ticks, and a wait of 2 by each role; with the outcome when due.
const BLOCKING: [(&str, Outcome); 4] = [
    ("6 2", Outcome::Done),
    ("14 0 2", Outcome::TimeRanOut),
    ("13 1 _ 2", Outcome::TimeRanOut),
    ("15 2 2", Outcome::TimeRanOut),
];

/// Queue 0 is empty, queue 1 full, and mutex 2 held by task 1, which is suspended. Tasks 2 and 3 (priority 5) make
/// these two calls, task 3 first if `swapped`. Idle runs then. Gives the slots of the first and the second.
fn begun(first: &str, second: &str, swapped: bool) -> (Machine, usize, usize) {
    let mut machine = session(
        "10 1 1 -> ok 0 0
         10 1 0 -> ok 1 0
         13 1 _ 0 -> ok 0 0
         11 -> ok 2 0
         1 9 -> ok 1 1
         15 2 0 -> ok 0 1
         3 1 -> ok 0 0
         1 5 -> ok 2 2
         1 5 -> ok 3 2",
    );
    if swapped {
        go_on(&mut machine, "7 -> ok 0 3");
    }
    let (a, b) = if swapped { (3, 2) } else { (2, 3) };
    go_on(&mut machine, &format!("{first} -> wait 0 {b}\n{second} -> wait 0 0"));
    assert_eq!(order_of(&machine.kernel), [a, b]);
    (machine, a, b)
}

/// Each pair of a delay or wait and another, by two tasks in either order.
fn each_pair(check: fn(&mut Machine, usize, usize)) {
    for (first, first_outcome) in BLOCKING {
        for (second, second_outcome) in BLOCKING {
            for swapped in [false, true] {
                let (mut machine, a, b) = begun(first, second, swapped);
                check(&mut machine, a, b);
                assert_eq!(line_of(&machine.kernel, 5), [a, b], "{first}, {second}");
                assert_eq!(machine.kernel.task(task(a)).outcome, first_outcome, "{first}, {second}");
                assert_eq!(machine.kernel.task(task(b)).outcome, second_outcome, "{first}, {second}");
                assert_eq!(order_of(&machine.kernel), []);
                assert!(machine.kernel.objects.iter().all(|object| object.waiters.is_empty()));
            }
        }
    }
}

#[test]
fn delays_and_waits_due_on_a_tick() {
    each_pair(|machine, a, _| go_on(machine, &format!("17 -> ok 0 0\n17 -> ok 0 {a}")));
}

#[test]
fn delays_and_waits_due_on_a_pended_tick() {
    // The last of the pended ticks, one in the middle, and one after which depth 0 is reached in two steps.
    each_pair(|machine, a, _| go_on(machine, &format!("8 -> ok 0 0\n17 -> ok 0 0\n17 -> ok 0 0\n9 -> ok 0 {a}")));
    each_pair(|machine, a, _| {
        go_on(machine, "8 -> ok 0 0");
        repeat(machine, 5, "17 -> ok 0 0");
        go_on(machine, &format!("9 -> ok 0 {a}"));
    });
    each_pair(|machine, a, _| {
        go_on(machine, "17 -> ok 0 0\n8 -> ok 0 0\n8 -> ok 0 0\n17 -> ok 0 0\n17 -> ok 0 0");
        go_on(machine, &format!("9 -> ok 0 0\n9 -> ok 0 {a}"));
    });
}

#[test]
fn each_pended_tick_in_turn() {
    let mut machine = two();
    // Tasks 4, 3, 2 and 1 begin in this order; 3 and 1 are due on tick 2, 4 and 2 on tick 3.
    go_on(
        &mut machine,
        "10 1 1 -> ok 0 1
         1 5 -> ok 3 1
         1 5 -> ok 4 1
         7 -> ok 0 2
         7 -> ok 0 3
         7 -> ok 0 4
         6 3 -> wait 0 1
         7 -> ok 0 2
         7 -> ok 0 3
         14 0 2 -> wait 0 1
         7 -> ok 0 2
         14 0 3 -> wait 0 1
         6 2 -> wait 0 0
         8 -> ok 0 0
         17 -> ok 0 0
         17 -> ok 0 0
         17 -> ok 0 0
         17 -> ok 0 0",
    );
    assert_eq!(order_of(&machine.kernel), [4, 3, 2, 1]);
    go_on(&mut machine, "9 -> ok 0 3");
    assert_eq!(line_of(&machine.kernel, 5), [3, 1, 4, 2]);
    assert_eq!((order_of(&machine.kernel), machine.kernel.tick), (vec![], 4));
}

#[test]
fn begun_on_different_ticks() {
    // Who waits longer began earlier; the same for a wait.
    for (first, second) in [("6 5", "6 4"), ("14 0 5", "6 4"), ("6 5", "14 0 4"), ("14 0 5", "14 0 4")] {
        let mut machine = two();
        go_on(&mut machine, "10 1 1 -> ok 0 1\n7 -> ok 0 2");
        go_on(&mut machine, &format!("{first} -> wait 0 1\n17 -> ok 0 1\n{second} -> wait 0 0"));
        repeat(&mut machine, 3, "17 -> ok 0 0");
        go_on(&mut machine, "17 -> ok 0 2");
        assert_eq!(line_of(&machine.kernel, 5), [2, 1], "{first}, {second}");
    }
}

#[test]
fn suspended_and_resumed_it_has_begun_later() {
    for call in ["6 4", "14 0 4"] {
        let mut machine = two();
        go_on(&mut machine, &format!("10 1 1 -> ok 0 1\n{call} -> wait 0 2\n{call} -> wait 0 0"));
        assert_eq!(order_of(&machine.kernel), [1, 2]);
        go_on(&mut machine, "3 1 -> ok 0 0");
        assert_eq!(order_of(&machine.kernel), [2]);
        go_on(&mut machine, &format!("4 1 -> ok 0 1\n{call} -> wait 0 0"));
        assert_eq!(order_of(&machine.kernel), [2, 1]);
        repeat(&mut machine, 3, "17 -> ok 0 0");
        go_on(&mut machine, "17 -> ok 0 2");
        assert_eq!(line_of(&machine.kernel, 5), [2, 1], "{call}");
    }
}

#[test]
fn woken_before_its_time_it_has_begun_later() {
    // Task 1 waits for ever and gets an item; then it is delayed for the tick on which task 2 is due.
    let mut machine = two();
    go_on(
        &mut machine,
        "10 1 1 -> ok 0 1
         14 0 4294967295 -> wait 0 2
         6 2 -> wait 0 0
         13 0 aa 0 -> ok 0 1
         6 2 -> wait 0 0",
    );
    assert_eq!(order_of(&machine.kernel), [2, 1]);
    go_on(&mut machine, "17 -> ok 0 0\n17 -> ok 0 2");
    assert_eq!(line_of(&machine.kernel, 5), [2, 1]);
}

#[test]
fn a_changed_priority_keeps_the_place() {
    for call in ["6 3", "14 0 3"] {
        let mut machine = two();
        go_on(&mut machine, &format!("10 1 1 -> ok 0 1\n7 -> ok 0 2\n{call} -> wait 0 1\n6 3 -> wait 0 0"));
        // Up and down again, then both up, who began first at first and at last.
        go_on(&mut machine, "5 2 8 -> ok 0 0\n5 2 5 -> ok 0 0");
        go_on(&mut machine, "5 2 7 -> ok 0 0\n5 1 7 -> ok 0 0\n5 2 6 -> ok 0 0\n5 2 7 -> ok 0 0");
        assert_eq!(order_of(&machine.kernel), [2, 1]);
        go_on(&mut machine, "17 -> ok 0 0\n17 -> ok 0 0\n17 -> ok 0 2");
        assert_eq!(line_of(&machine.kernel, 7), [2, 1], "{call}");
    }
}

#[test]
fn a_loan_keeps_the_place() {
    // Task 3 holds the mutex and is delayed first; task 1 lends it 5 before and after it is due with task 2.
    let mut machine = session(
        "11 -> ok 0 0
         1 5 -> ok 1 1
         3 1 -> ok 0 0
         1 5 -> ok 2 2
         3 2 -> ok 0 0
         1 3 -> ok 3 3
         15 0 0 -> ok 0 3
         6 2 -> wait 0 0
         4 2 -> ok 0 2
         6 2 -> wait 0 0
         4 1 -> ok 0 1
         15 0 9 -> wait 0 0",
    );
    assert_eq!(machine.kernel.task(task(3)).effective, 5);
    assert_eq!(order_of(&machine.kernel), [3, 2, 1]);
    go_on(&mut machine, "17 -> ok 0 0\n17 -> ok 0 3");
    assert_eq!(line_of(&machine.kernel, 5), [3, 2]);
}

#[test]
fn a_ready_holder_stands_before_the_woken() {
    // Task 1 (3) runs with the 5 that tasks 3, 4 and 2 lend. The waits of 3 and 2 end, and it goes to the tail behind
    // them.
    let mut machine = session(
        "11 -> ok 0 0
         1 3 -> ok 1 1
         15 0 0 -> ok 0 1
         8 -> ok 0 1
         1 5 -> ok 2 1
         1 5 -> ok 3 1
         1 5 -> ok 4 1
         9 -> ok 0 2
         7 -> ok 0 3
         15 0 2 -> wait 0 4
         15 0 9 -> wait 0 2
         15 0 2 -> wait 0 1
         17 -> ok 0 1",
    );
    assert_eq!(line_of(&machine.kernel, 5), [1]);
    go_on(&mut machine, "17 -> ok 0 3");
    assert_eq!(line_of(&machine.kernel, 5), [3, 2, 1]);
}

#[test]
fn each_goes_to_the_tail_of_its_own_line() {
    let mut machine = session(
        "8 -> ok 0 0
         1 5 -> ok 1 0
         1 7 -> ok 2 0
         1 5 -> ok 3 0
         1 7 -> ok 4 0
         9 -> ok 0 2
         7 -> ok 0 4
         6 3 -> wait 0 2
         6 3 -> wait 0 1
         7 -> ok 0 3
         6 3 -> wait 0 1
         6 3 -> wait 0 0
         1 5 -> ok 5 5
         17 -> ok 0 5
         17 -> ok 0 5
         17 -> ok 0 4",
    );
    assert_eq!(line_of(&machine.kernel, 7), [4, 2]);
    assert_eq!(line_of(&machine.kernel, 5), [5, 3, 1]);
    go_on(&mut machine, "6 9 -> wait 0 2\n6 9 -> wait 0 5\n6 9 -> wait 0 3\n6 9 -> wait 0 1");
}

#[test]
fn it_has_each_of_them_once() {
    let mut machine = two();
    assert_eq!(order_of(&Kernel::fresh()), []);
    // A delay of 0, a yield, a take of a free mutex and a call refused begin nothing.
    go_on(&mut machine, "11 -> ok 0 1\n10 1 1 -> ok 1 1\n6 0 -> ok 0 2\n7 -> ok 0 1\n15 0 9 -> ok 0 1");
    go_on(&mut machine, "14 1 0 -> no 14 1\n6 4294967295 -> no 4 1\n15 0 9 -> no 12 1\n8 -> ok 0 1\n6 3 -> no 8 1");
    go_on(&mut machine, "9 -> ok 0 1\n7 -> ok 0 2");
    assert_eq!(order_of(&machine.kernel), []);
    go_on(&mut machine, "1 5 -> ok 3 2\n1 5 -> ok 4 2\n15 0 9 -> wait 0 1\n6 9 -> wait 0 3");
    go_on(&mut machine, "14 1 4294967295 -> wait 0 4\n14 1 4294967295 -> wait 0 0");
    assert_eq!(order_of(&machine.kernel), [2, 1, 3, 4]);
    // One gets an item, one is suspended, one deleted, and the last is due.
    go_on(&mut machine, "13 1 aa 0 -> ok 0 3");
    assert_eq!(order_of(&machine.kernel), [2, 1, 4]);
    go_on(&mut machine, "3 2 -> ok 0 3");
    assert_eq!(order_of(&machine.kernel), [1, 4]);
    go_on(&mut machine, "2 4 -> ok 0 3");
    assert_eq!(order_of(&machine.kernel), [1]);
    repeat(&mut machine, 8, "17 -> ok 0 3");
    assert_eq!(order_of(&machine.kernel), [1]);
    go_on(&mut machine, "17 -> ok 0 1");
    assert_eq!(order_of(&machine.kernel), []);
}

#[test]
fn a_give_and_a_receive_take_one_out() {
    // Task 1 holds mutex 0, and queue 1 is full. Task 3 waits to take before task 2, and task 5 to send before task 4;
    // the more urgent is first waiter.
    let mut machine = session(
        "1 3 -> ok 1 1
         11 -> ok 0 1
         15 0 0 -> ok 0 1
         10 1 1 -> ok 1 1
         13 1 aa 0 -> ok 0 1
         1 4 -> ok 2 2
         3 2 -> ok 0 1
         1 6 -> ok 3 3
         15 0 9 -> wait 0 1
         1 8 -> ok 4 4
         3 4 -> ok 0 1
         1 7 -> ok 5 5
         13 1 bb 9 -> wait 0 1
         5 3 2 -> ok 0 1
         1 9 -> ok 6 6
         4 4 -> ok 0 6
         4 2 -> ok 0 6
         2 6 -> ok 0 4
         13 1 cc 9 -> wait 0 2
         15 0 9 -> wait 0 1",
    );
    assert_eq!(order_of(&machine.kernel), [3, 5, 4, 2]);
    go_on(&mut machine, "16 0 -> ok 0 2");
    assert_eq!(order_of(&machine.kernel), [3, 5, 4]);
    go_on(&mut machine, "14 1 0 -> ok 0 4");
    assert_eq!(order_of(&machine.kernel), [3, 5]);
}

#[test]
fn the_order_crosses_the_wrap() {
    // A journal takes 65,537 lines to reach this tick (tests/advance.rs); here the count is set by hand.
    let mut kernel = Kernel::fresh();
    let mut store = vec![0; 9_216];
    kernel.tick = u32::MAX - 1;
    let mut go = |call: Call, answer: Answer| {
        assert_eq!(step(&mut kernel, &mut store, &call), answer);
        assert_eq!(soundness(&kernel), Ok(()));
    };
    go(Call::Create { priority: 5 }, Answer::Made(1));
    go(Call::Create { priority: 5 }, Answer::Made(2));
    go(Call::Yield, Answer::Done);
    go(Call::Delay { ticks: 3 }, Answer::Waiting);
    go(Call::Tick, Answer::Done);
    go(Call::Delay { ticks: 2 }, Answer::Waiting);
    go(Call::Tick, Answer::Done);
    go(Call::Tick, Answer::Done);
    assert_eq!((kernel.tick, kernel.running), (1, task(2)));
    assert_eq!(line_of(&kernel, 5), [2, 1]);
}
