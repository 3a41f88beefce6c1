//! Document 01's session and its cases on both sides of the gate, P1 to P12.

mod common;

use common::{go_on, line_of, repeat, session, task};
use model::calls::{step, Answer, Call};
use model::check;
use model::kernel::{Kernel, Stand};
use model::machine::Machine;

#[test]
fn p1_the_session() {
    session(
        "1 3 -> ok 1 1
         11 -> ok 0 1
         15 0 0 -> ok 0 1
         1 5 -> ok 2 2
         15 0 10 -> wait 0 1
         1 4 -> ok 3 1
         16 0 -> ok 0 2
         16 0 -> ok 0 2
         2 0 -> no 7 2",
    );
}

#[test]
fn p2_priority_31_and_32() {
    session("1 31 -> ok 1 1\n1 32 -> no 4 1");
}

#[test]
fn p3_p4_product_512_and_576() {
    session("10 64 8 -> ok 0 0\n10 64 9 -> no 4 0");
}

#[test]
fn p5_fifteen_creates() {
    let mut machine = Machine::new(true);
    for number in 1..=15 {
        go_on(&mut machine, &format!("1 0 -> ok {number} 0"));
    }
    go_on(&mut machine, "1 0 -> no 9 0");
}

#[test]
fn p6_delay_across_the_wrap() {
    // A journal takes 65,537 lines to reach this tick (tests/advance.rs); here the count is set by hand.
    let mut kernel = Kernel::fresh();
    let mut store = vec![0; 9_216];
    kernel.tick = u32::MAX;
    assert_eq!(step(&mut kernel, &mut store, &Call::Create { priority: 1 }), Answer::Made(1));
    assert_eq!(step(&mut kernel, &mut store, &Call::Delay { ticks: 1 }), Answer::Waiting);
    assert_eq!(kernel.task(task(1)).stand, Stand::Delayed { wake: 0 });
    assert_eq!(step(&mut kernel, &mut store, &Call::Tick), Answer::Done);
    assert_eq!((kernel.tick, kernel.running), (0, task(1)));
    assert_eq!(check::soundness(&kernel), Ok(()));
}

#[test]
fn p7_priority_before_no_free_slot() {
    let mut machine = Machine::new(true);
    for number in 1..=15 {
        go_on(&mut machine, &format!("1 0 -> ok {number} 0"));
    }
    go_on(&mut machine, "1 40 -> no 4 0\n1 31 -> no 9 0");
}

#[test]
fn p8_delete_of_a_holder() {
    session(
        "1 3 -> ok 1 1
         11 -> ok 0 1
         15 0 0 -> ok 0 1
         2 1 -> no 10 1
         16 0 -> ok 0 1
         2 1 -> ok 0 0",
    );
}

#[test]
fn p9_nested_holds() {
    let mut machine = Machine::new(true);
    repeat(&mut machine, 255, "8 -> ok 0 0");
    go_on(&mut machine, "8 -> no 15 0");
    repeat(&mut machine, 255, "9 -> ok 0 0");
    go_on(&mut machine, "9 -> no 15 0");
}

/// "P10 changes: the holder keeps only what its waiters lend."
#[test]
fn p10_a_holder_set_lower() {
    let holder = "1 9 -> ok 1 1\n1 5 -> ok 2 1\n11 -> ok 0 1\n15 0 0 -> ok 0 1";
    // Nobody waits.
    let mut machine = session(holder);
    go_on(&mut machine, "5 1 2 -> ok 0 2");
    assert_eq!((machine.kernel.task(task(1)).own, machine.kernel.task(task(1)).effective), (2, 2));
    // Task 2 waits.
    let mut machine = session(holder);
    go_on(&mut machine, "3 1 -> ok 0 2\n15 0 10 -> wait 0 0\n4 1 -> ok 0 1\n5 1 2 -> ok 0 1");
    assert_eq!((machine.kernel.task(task(1)).own, machine.kernel.task(task(1)).effective), (2, 5));
    go_on(&mut machine, "16 0 -> ok 0 2");
    assert_eq!(machine.kernel.task(task(1)).effective, 2);
}

#[test]
fn p11_a_full_semaphore() {
    session("10 1 0 -> ok 0 0\n13 0 _ 0 -> ok 0 0\n13 0 _ 0 -> no 14 0");
}

#[test]
fn p12_a_tick_turns_the_line() {
    let mut machine = session("1 4 -> ok 1 1\n1 4 -> ok 2 1\n17 -> ok 0 2");
    assert_eq!(line_of(&machine.kernel, 4), [2, 1]);
    go_on(&mut machine, "17 -> ok 0 1");
}
