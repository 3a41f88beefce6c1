//! Rules one by one, and document 01's easy ways to get it wrong.

mod common;

use common::{go_on, held_by, line_of, object, repeat, session, slip, task};
use model::calls::{step, Answer, Call};
use model::kernel::{Kernel, Outcome, Stand};
use model::machine::Machine;

#[test]
fn a_wrong_store_is_refused_on_every_call() {
    let mut kernel = Kernel::fresh();
    for length in [0, 9_215, 9_217] {
        let mut store = vec![0; length];
        assert_eq!(step(&mut kernel, &mut store, &Call::Yield), Answer::Refused(2));
        assert_eq!(step(&mut kernel, &mut store, &Call::Create { priority: 99 }), Answer::Refused(2));
        assert_eq!(step(&mut kernel, &mut store, &Call::MakeRecursiveMutex), Answer::Refused(2));
        assert_eq!(step(&mut kernel, &mut store, &Call::MakeGroup), Answer::Refused(2));
        assert_eq!(step(&mut kernel, &mut store, &Call::SetBits { object: 9, bits: u32::MAX }), Answer::Refused(2));
    }
    assert_eq!(kernel, Kernel::fresh());
}

#[test]
fn an_overtaken_task_keeps_its_turn() {
    let mut machine = session("1 4 -> ok 1 1\n1 4 -> ok 2 1\n1 9 -> ok 3 3");
    assert_eq!(line_of(&machine.kernel, 4), [1, 2]);
    go_on(&mut machine, "3 3 -> ok 0 1");
}

#[test]
fn a_giver_with_another_mutex_keeps_its_loan() {
    let mut machine = session(
        "1 3 -> ok 1 1
         11 -> ok 0 1
         11 -> ok 1 1
         15 0 0 -> ok 0 1
         15 1 0 -> ok 0 1
         1 8 -> ok 2 2
         15 1 4294967295 -> wait 0 1
         1 5 -> ok 3 1
         16 0 -> ok 0 1",
    );
    assert_eq!(machine.kernel.task(task(1)).effective, 8);
    go_on(&mut machine, "16 1 -> ok 0 2");
    assert_eq!(machine.kernel.task(task(1)).effective, 3);
}

#[test]
fn a_suspended_waiter_gets_no_item() {
    let machine = session(
        "10 2 1 -> ok 0 0
         1 5 -> ok 1 1
         14 0 4294967295 -> wait 0 0
         3 1 -> ok 0 0
         13 0 aa 0 -> ok 0 0",
    );
    assert_eq!(slip(&machine, 1, 1), [0]);
    assert_eq!(machine.kernel.task(task(1)).outcome, Outcome::BrokenOff);
    assert_eq!(machine.store[0], 0xaa);
}

#[test]
fn items_lie_where_the_document_says() {
    let mut machine = session(
        "11 -> ok 0 0
         10 3 2 -> ok 1 0
         13 1 0102 0 -> ok 0 0
         13 1 0304 0 -> ok 0 0
         14 1 0 -> ok 0 0
         13 1 0506 0 -> ok 0 0
         13 1 0708 0 -> ok 0 0
         1 7 -> ok 1 1
         13 1 090a 5 -> wait 0 0",
    );
    // First is 1; the third item went to place 2, the fourth to place 0.
    assert_eq!(machine.store[512..518], [7, 8, 3, 4, 5, 6]);
    assert_eq!(slip(&machine, 0, 3), [1, 2, 0]);
    assert_eq!(slip(&machine, 1, 3), [9, 10, 0]);
    // A receive moves the waiting sender's item in behind the others.
    go_on(&mut machine, "14 1 0 -> ok 0 1");
    assert_eq!(slip(&machine, 0, 2), [3, 4]);
    assert_eq!(machine.store[512..518], [7, 8, 9, 10, 5, 6]);
    assert_eq!(machine.kernel.task(task(1)).outcome, Outcome::Done);
}

#[test]
fn a_receiver_gets_the_item_directly() {
    let machine = session(
        "10 1 3 -> ok 0 0
         1 7 -> ok 1 1
         14 0 9 -> wait 0 0
         1 9 -> ok 2 2
         14 0 9 -> wait 0 0
         13 0 aabbcc 0 -> ok 0 2",
    );
    assert_eq!(slip(&machine, 2, 4), [0xaa, 0xbb, 0xcc, 0]);
    assert_eq!(slip(&machine, 1, 4), [0; 4]);
    assert!(machine.store[..512].iter().all(|&byte| byte == 0));
    assert_eq!(machine.kernel.find_queue(0).unwrap().1.count, 0);
}

#[test]
fn first_moves_for_size_0_too() {
    let machine = session("10 3 0 -> ok 0 0\n13 0 _ 0 -> ok 0 0\n14 0 0 -> ok 0 0");
    let (_, queue) = machine.kernel.find_queue(0).unwrap();
    assert_eq!((queue.first, queue.count), (1, 0));
}

#[test]
fn a_wait_can_time_out_and_a_wait_for_ever_not() {
    let mut machine = session(
        "10 1 0 -> ok 0 0
         1 5 -> ok 1 1
         1 5 -> ok 2 1
         14 0 4294967295 -> wait 0 2
         14 0 1 -> wait 0 0
         17 -> ok 0 2",
    );
    assert_eq!(machine.kernel.task(task(2)).outcome, Outcome::TimeRanOut);
    repeat(&mut machine, 5, "17 -> ok 0 2");
    assert!(matches!(machine.kernel.task(task(1)).stand, Stand::Waiting { wake: None, .. }));
}

#[test]
fn release_runs_pended_ticks_without_a_turn() {
    let mut machine = session(
        "1 5 -> ok 1 1
         1 5 -> ok 2 1
         1 4 -> ok 3 1
         1 5 -> ok 4 1
         3 4 -> ok 0 1
         5 3 5 -> ok 0 1
         6 2 -> wait 0 2
         6 1 -> wait 0 3
         4 4 -> ok 0 3
         8 -> ok 0 3
         8 -> ok 0 3
         17 -> ok 0 3
         17 -> ok 0 3
         9 -> ok 0 3
         9 -> ok 0 3",
    );
    // Task 2 was due one tick before task 1.
    assert_eq!(line_of(&machine.kernel, 5), [3, 4, 2, 1]);
    assert_eq!((machine.kernel.tick, machine.kernel.pended), (2, 0));
    go_on(&mut machine, "17 -> ok 0 4");
}

#[test]
fn a_tick_that_wakes_a_higher_task_does_not_turn_the_line() {
    let machine = session(
        "1 9 -> ok 1 1
         6 1 -> wait 0 0
         1 5 -> ok 2 2
         1 5 -> ok 3 2
         17 -> ok 0 1",
    );
    assert_eq!(line_of(&machine.kernel, 5), [2, 3]);
}

#[test]
fn pended_ticks_stop_at_65535() {
    let mut machine = session("1 5 -> ok 1 1\n6 65535 -> wait 0 0\n1 5 -> ok 2 2\n6 65536 -> wait 0 0\n8 -> ok 0 0");
    machine.check = false;
    repeat(&mut machine, 65_535, "17 -> ok 0 0");
    go_on(&mut machine, "17 -> no 16 0\n9 -> ok 0 1\n6 4294967294 -> wait 0 0\n17 -> ok 0 2");
}

#[test]
fn idle_and_hold_rows() {
    session(
        "6 0 -> no 7 0
         6 4294967295 -> no 4 0
         11 -> ok 0 0
         10 1 1 -> ok 1 0
         15 0 0 -> no 7 0
         15 1 0 -> no 5 0
         13 1 aa 1 -> no 7 0
         13 1 aabb 1 -> no 6 0
         14 1 1 -> no 7 0
         14 1 0 -> no 14 0
         5 0 0 -> ok 0 0
         5 0 1 -> no 7 0
         5 0 32 -> no 4 0
         4 0 -> no 13 0
         16 0 -> no 11 0
         7 -> ok 0 0
         8 -> ok 0 0
         6 1 -> no 7 0
         7 -> no 8 0
         1 3 -> ok 1 0
         9 -> ok 0 1
         8 -> ok 0 1
         6 0 -> no 8 1
         15 0 0 -> ok 0 1
         15 0 1 -> no 8 1
         15 0 0 -> no 12 1
         13 1 aa 1 -> no 8 1
         2 1 -> no 8 1
         3 1 -> no 8 1
         9 -> ok 0 1
         2 1 -> no 10 1
         12 0 -> no 10 1
         3 1 -> ok 0 0
         3 1 -> ok 0 0
         4 1 -> ok 0 1
         4 1 -> no 13 1",
    );
}

#[test]
fn the_next_task_in_a_slot_holds_nothing() {
    let machine = session(
        "11 -> ok 0 0
         1 3 -> ok 1 1
         15 0 0 -> ok 0 1
         16 0 -> ok 0 1
         2 1 -> ok 0 0
         1 3 -> ok 17 17
         16 0 -> no 11 17
         15 0 0 -> ok 0 17",
    );
    assert_eq!(machine.kernel.object(object(0)).kind, held_by(1));
}

#[test]
fn set_priority_of_a_waiter_counts_when_it_is_chosen() {
    session(
        "10 1 0 -> ok 0 0
         1 5 -> ok 1 1
         14 0 4294967295 -> wait 0 0
         1 6 -> ok 2 2
         14 0 4294967295 -> wait 0 0
         5 1 6 -> ok 0 0
         13 0 _ 0 -> ok 0 1
         3 1 -> ok 0 0
         13 0 _ 0 -> ok 0 2",
    );
}

#[test]
fn a_changed_priority_moves_the_task() {
    let mut machine = Machine::new(true);
    go_on(&mut machine, "1 5 -> ok 1 1\n1 5 -> ok 2 1\n1 7 -> ok 3 3\n1 7 -> ok 4 3");
    // The running task goes to the head, another to the tail.
    go_on(&mut machine, "5 3 5 -> ok 0 4");
    assert_eq!(line_of(&machine.kernel, 5), [3, 1, 2]);
    go_on(&mut machine, "5 1 7 -> ok 0 4\n5 1 7 -> ok 0 4");
    assert_eq!(line_of(&machine.kernel, 7), [4, 1]);
    go_on(&mut machine, "5 4 5 -> ok 0 1");
    assert_eq!(line_of(&machine.kernel, 5), [4, 3, 2]);
}
