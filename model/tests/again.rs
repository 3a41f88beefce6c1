//! Request 7, sentence by sentence: the holder of a recursive mutex may take it again, and gives it as often.

mod common;

use common::{go_on, line_of, object, repeat, session, task};
use model::calls::{step, Answer, Call};
use model::journal::journal;
use model::kernel::{Kernel, Kind, Mutex, Outcome, Stand, TaskSlot};
use model::line::{read_call, ITEM_BYTES};
use model::machine::Machine;
use std::collections::BTreeMap;

/// No wait, one tick, the longest that ends, and for ever.
const WAITS: [u32; 4] = [0, 1, 4_294_967_294, 4_294_967_295];

fn mutex(machine: &Machine, slot: usize) -> Mutex {
    match machine.kernel.object(object(slot)).kind {
        Kind::Mutex(mutex) => mutex,
        kind => panic!("{kind:?}"),
    }
}

/// The slot of the holder of this mutex and its count; of a free one none.
fn held(machine: &Machine, slot: usize) -> Option<(usize, u32)> {
    let Mutex { holder, count, .. } = mutex(machine, slot);
    assert_eq!(holder.is_none(), count == 0);
    holder.map(|holder| (holder.index(), count))
}

fn effective<const N: usize>(machine: &Machine, slots: [usize; N]) -> [u8; N] {
    slots.map(|slot| machine.kernel.task(task(slot)).effective)
}

/// Task 1, the calibration routine (3), holds the recursive mutex 0 at this count and runs.
fn calibration(count: usize) -> Machine {
    let mut machine = session("1 3 -> ok 1 1\n19 -> ok 0 1");
    repeat(&mut machine, count, "15 0 0 -> ok 0 1");
    assert_eq!(held(&machine, 0), Some((1, count as u32)));
    machine
}

/// The same, and task 2 (5) waits on it for so many ticks.
fn with_a_waiter(count: usize, ticks: u32) -> Machine {
    let mut machine = calibration(count);
    go_on(&mut machine, &format!("1 5 -> ok 2 2\n15 0 {ticks} -> wait 0 1"));
    assert_eq!(effective(&machine, [1, 2]), [5, 5]);
    machine
}

/// This take is refused, and nothing changes.
fn refused(machine: &mut Machine, object: u32, wait: u32, row: u8) {
    let (kernel, store) = (machine.kernel.clone(), machine.store.clone());
    go_on(machine, &format!("15 {object} {wait} -> no {row} {}", kernel.running_number()));
    assert!(machine.kernel == kernel && machine.store == store);
}

#[test]
fn it_is_made_like_the_others() {
    let mut machine =
        session("19 -> ok 0 0\n11 -> ok 1 0\n10 1 1 -> ok 2 0\n19 -> ok 3 0\n12 1 -> ok 0 0\n19 -> ok 17 0");
    assert_eq!((mutex(&machine, 0), mutex(&machine, 1)), (Mutex::free(true), Mutex::free(true)));
    go_on(&mut machine, "8 -> ok 0 0\n19 -> ok 4 0\n1 3 -> ok 1 0\n9 -> ok 0 1\n11 -> ok 5 1\n19 -> ok 6 1");
    assert_eq!((mutex(&machine, 4), mutex(&machine, 5)), (Mutex::free(true), Mutex::free(false)));
    for slot in 7..16 {
        go_on(&mut machine, &format!("19 -> ok {slot} 1"));
    }
    go_on(&mut machine, "19 -> no 9 1\n11 -> no 9 1\n10 1 1 -> no 9 1\n12 9 -> ok 0 1\n19 -> ok 25 1\n19 -> no 9 1");
}

/// The request's two routines: the calibration routine calls the meter routine, and both take.
#[test]
fn both_routines_take() {
    let mut machine = calibration(1);
    go_on(&mut machine, "15 0 4294967295 -> ok 0 1\n16 0 -> ok 0 1");
    assert_eq!(held(&machine, 0), Some((1, 1)));
    go_on(&mut machine, "1 5 -> ok 2 2\n15 0 0 -> no 14 2\n16 0 -> no 11 2\n3 2 -> ok 0 1\n16 0 -> ok 0 1");
    assert_eq!(held(&machine, 0), None);
    go_on(&mut machine, "4 2 -> ok 0 2\n15 0 0 -> ok 0 2");
}

#[test]
fn at_each_wait() {
    for wait in WAITS {
        let mut machine = session(&format!("1 3 -> ok 1 1\n19 -> ok 0 1\n15 0 {wait} -> ok 0 1"));
        repeat(&mut machine, 3, &format!("15 0 {wait} -> ok 0 1"));
        assert_eq!(held(&machine, 0), Some((1, 4)), "{wait}");
        assert_eq!(machine.kernel.task(task(1)).stand, Stand::Ready);
    }
}

#[test]
fn up_to_255_times_in_all() {
    let mut machine = calibration(255);
    for wait in WAITS {
        refused(&mut machine, 0, wait, 18);
    }
    // One given makes room for one.
    go_on(&mut machine, "16 0 -> ok 0 1\n15 0 7 -> ok 0 1\n15 0 7 -> no 18 1");
    repeat(&mut machine, 254, "16 0 -> ok 0 1");
    assert_eq!(held(&machine, 0), Some((1, 1)));
    go_on(&mut machine, "2 1 -> no 10 1\n16 0 -> ok 0 1");
    assert_eq!(held(&machine, 0), None);
    go_on(&mut machine, "16 0 -> no 11 1\n15 0 0 -> ok 0 1\n16 0 -> ok 0 1\n16 0 -> no 11 1\n2 1 -> ok 0 0");
}

#[test]
fn only_the_last_hands_it_on() {
    let mut machine = with_a_waiter(3, 100);
    let waits = machine.kernel.task(task(2)).stand;
    for count in [2, 1] {
        go_on(&mut machine, "16 0 -> ok 0 1");
        assert_eq!((held(&machine, 0), effective(&machine, [1])), (Some((1, count)), [5]));
        assert_eq!(machine.kernel.task(task(2)).stand, waits);
    }
    go_on(&mut machine, "16 0 -> ok 0 2");
    assert_eq!((held(&machine, 0), effective(&machine, [1])), (Some((2, 1)), [3]));
    assert_eq!(machine.kernel.task(task(2)).outcome, Outcome::Done);
    // It needs as many gives as it takes, whatever the holder before it took.
    go_on(&mut machine, "15 0 0 -> ok 0 2\n15 0 9 -> ok 0 2\n16 0 -> ok 0 2\n16 0 -> ok 0 2");
    go_on(&mut machine, "6 1 -> wait 0 1\n15 0 0 -> no 14 1\n17 -> ok 0 2\n16 0 -> ok 0 2");
    assert_eq!(held(&machine, 0), None);
    go_on(&mut machine, "16 0 -> no 11 2\n6 1 -> wait 0 1\n15 0 0 -> ok 0 1");
    assert_eq!(held(&machine, 0), Some((1, 1)));
}

#[test]
fn at_count_1_from_a_full_count() {
    let mut machine = with_a_waiter(255, 4_294_967_295);
    for wait in WAITS {
        refused(&mut machine, 0, wait, 18);
    }
    repeat(&mut machine, 254, "16 0 -> ok 0 1");
    assert_eq!((held(&machine, 0), effective(&machine, [1])), (Some((1, 1)), [5]));
    go_on(&mut machine, "16 0 -> ok 0 2");
    assert_eq!(held(&machine, 0), Some((2, 1)));
    repeat(&mut machine, 254, "15 0 0 -> ok 0 2");
    for wait in WAITS {
        refused(&mut machine, 0, wait, 18);
    }
    // Task 1 waits on it, and gets it at count 1 in turn.
    go_on(&mut machine, "6 1 -> wait 0 1\n15 0 50 -> wait 0 0\n17 -> ok 0 2\n15 0 0 -> no 18 2");
    repeat(&mut machine, 255, "16 0 -> ok 0 2");
    assert_eq!(held(&machine, 0), Some((1, 1)));
    go_on(&mut machine, "16 0 -> no 11 2\n3 2 -> ok 0 1\n16 0 -> ok 0 1\n16 0 -> no 11 1");
}

#[test]
fn the_first_waiter_gets_it() {
    // Tasks 2 and 3 (5 and 9) wait; task 3 is more urgent, and task 2 goes on waiting.
    let mut machine = with_a_waiter(2, 100);
    go_on(&mut machine, "1 9 -> ok 3 3\n15 0 100 -> wait 0 1\n16 0 -> ok 0 1\n16 0 -> ok 0 3");
    assert_eq!((held(&machine, 0), effective(&machine, [1, 2, 3])), (Some((3, 1)), [3, 5, 9]));
    go_on(&mut machine, "15 0 0 -> ok 0 3\n16 0 -> ok 0 3\n5 3 1 -> ok 0 3");
    assert_eq!(effective(&machine, [3]), [5]);
    go_on(&mut machine, "16 0 -> ok 0 2");
    assert_eq!((held(&machine, 0), effective(&machine, [3])), (Some((2, 1)), [1]));
}

#[test]
fn loans_along_a_chain_stay_until_the_last_give() {
    // Task 1 (2) holds mutex 0 twice; task 2 (5) holds mutex 1 twice and waits on 0; task 3 (9) waits on 1.
    let mut machine = session(
        "1 2 -> ok 1 1
         19 -> ok 0 1
         19 -> ok 1 1
         15 0 0 -> ok 0 1
         15 0 0 -> ok 0 1
         1 5 -> ok 2 2
         15 1 0 -> ok 0 2
         15 1 0 -> ok 0 2
         15 0 100 -> wait 0 1
         1 9 -> ok 3 3
         15 1 100 -> wait 0 1",
    );
    assert_eq!(effective(&machine, [1, 2, 3]), [9, 9, 9]);
    go_on(&mut machine, "15 0 5 -> ok 0 1\n16 0 -> ok 0 1\n16 0 -> ok 0 1");
    assert_eq!((held(&machine, 0), effective(&machine, [1, 2, 3])), (Some((1, 1)), [9, 9, 9]));
    go_on(&mut machine, "16 0 -> ok 0 2");
    assert_eq!((held(&machine, 0), effective(&machine, [1, 2, 3])), (Some((2, 1)), [2, 9, 9]));
    // Mutex 0, which was handed on, does not count for mutex 1.
    go_on(&mut machine, "16 1 -> ok 0 2\n16 0 -> ok 0 2");
    assert_eq!((held(&machine, 1), effective(&machine, [1, 2, 3])), (Some((2, 1)), [2, 9, 9]));
    go_on(&mut machine, "16 1 -> ok 0 3");
    assert_eq!((held(&machine, 1), effective(&machine, [1, 2, 3])), (Some((3, 1)), [2, 5, 9]));
}

/// The kernel with another count in mutex 0.
fn with_count(kernel: &Kernel, count: u32) -> Kernel {
    let mut kernel = kernel.clone();
    if let Kind::Mutex(mutex) = &mut kernel.object_mut(object(0)).kind {
        mutex.count = count;
    }
    kernel
}

#[test]
fn nothing_but_the_count_changes() {
    // Task 1 has an outcome, a loan and a neighbour in its line; task 2 waits.
    let mut machine = session("1 3 -> ok 1 1\n19 -> ok 0 1\n6 1 -> wait 0 0\n17 -> ok 0 1\n15 0 0 -> ok 0 1");
    go_on(&mut machine, "1 5 -> ok 2 2\n15 0 100 -> wait 0 1\n1 5 -> ok 3 1");
    assert_eq!((line_of(&machine.kernel, 5), machine.kernel.task(task(1)).outcome), (vec![1, 3], Outcome::Done));
    let (kernel, store) = (machine.kernel.clone(), machine.store.clone());
    for (count, wait) in (2..).zip(WAITS) {
        go_on(&mut machine, &format!("15 0 {wait} -> ok 0 1"));
        assert_eq!(machine.kernel, with_count(&kernel, count));
    }
    for count in [4, 3, 2, 1] {
        go_on(&mut machine, "16 0 -> ok 0 1");
        assert_eq!(machine.kernel, with_count(&kernel, count));
    }
    assert!(machine.store == store);
}

#[test]
fn ordinary_mutexes_keep_12() {
    let mut machine = session("1 3 -> ok 1 1\n11 -> ok 0 1\n19 -> ok 1 1\n15 0 0 -> ok 0 1\n15 1 0 -> ok 0 1");
    for wait in WAITS {
        refused(&mut machine, 0, wait, 12);
        go_on(&mut machine, &format!("15 1 {wait} -> ok 0 1"));
        refused(&mut machine, 0, wait, 12);
    }
    assert_eq!((held(&machine, 0), held(&machine, 1)), (Some((1, 1)), Some((1, 5))));
    // With a waiter, and with a recursive one at its full count.
    go_on(&mut machine, "1 5 -> ok 2 2\n15 0 100 -> wait 0 1");
    repeat(&mut machine, 250, "15 1 0 -> ok 0 1");
    for wait in WAITS {
        refused(&mut machine, 0, wait, 12);
        refused(&mut machine, 1, wait, 18);
    }
    go_on(&mut machine, "16 0 -> ok 0 2\n15 0 0 -> no 12 2\n16 0 -> ok 0 2\n16 0 -> no 11 2");
}

#[test]
fn its_holders_take_is_no_circle() {
    // Task 2 holds mutex 1, of either kind, and waits on mutex 0, which task 1 holds.
    for make in [11, 19] {
        let mut machine = calibration(1);
        go_on(&mut machine, &format!("{make} -> ok 1 1\n1 5 -> ok 2 2\n15 1 0 -> ok 0 2\n15 0 100 -> wait 0 1"));
        for wait in WAITS {
            go_on(&mut machine, &format!("15 0 {wait} -> ok 0 1"));
            refused(&mut machine, 1, wait, 17);
        }
        // At a full count it is 18, and the other is 17 as before.
        repeat(&mut machine, 250, "15 0 0 -> ok 0 1");
        for wait in WAITS {
            refused(&mut machine, 0, wait, 18);
            refused(&mut machine, 1, wait, 17);
        }
        // As long as one take is not given, it is a circle.
        repeat(&mut machine, 254, "16 0 -> ok 0 1");
        refused(&mut machine, 1, 9, 17);
        go_on(&mut machine, "16 0 -> ok 0 2\n6 1 -> wait 0 1\n15 1 0 -> no 14 1\n15 1 9 -> wait 0 0");
    }
}

#[test]
fn a_circle_over_recursive_mutexes() {
    // Each of three holds one, twice, and waits on that of the one before; the first asks for the others'.
    let mut machine = calibration(2);
    go_on(
        &mut machine,
        "19 -> ok 1 1
         19 -> ok 2 1
         1 4 -> ok 2 2
         15 1 0 -> ok 0 2
         15 1 0 -> ok 0 2
         15 0 99 -> wait 0 1
         1 5 -> ok 3 3
         15 2 0 -> ok 0 3
         15 2 0 -> ok 0 3
         15 1 99 -> wait 0 1",
    );
    for wait in WAITS {
        refused(&mut machine, 1, wait, 17);
        refused(&mut machine, 2, wait, 17);
    }
    go_on(&mut machine, "15 0 9 -> ok 0 1\n3 2 -> ok 0 1\n15 2 0 -> no 14 1\n15 2 9 -> wait 0 0");
}

#[test]
fn the_rows_before_it() {
    // 7: idle, whatever the wait and the count. 5: no mutex.
    let mut machine = session("19 -> ok 0 0\n10 1 1 -> ok 1 0");
    for wait in WAITS {
        refused(&mut machine, 0, wait, 7);
        refused(&mut machine, 1, wait, 5);
    }
    go_on(&mut machine, "1 3 -> ok 1 1\n15 0 0 -> ok 0 1\n15 0 0 -> ok 0 1\n3 1 -> ok 0 0");
    for wait in WAITS {
        refused(&mut machine, 0, wait, 7);
    }
    // 8: any wait other than 0 with a hold, at any count; wait 0 counts on.
    go_on(&mut machine, "4 1 -> ok 0 1\n8 -> ok 0 1");
    for wait in &WAITS[1..] {
        refused(&mut machine, 0, *wait, 8);
    }
    repeat(&mut machine, 253, "15 0 0 -> ok 0 1");
    refused(&mut machine, 0, 0, 18);
    for wait in &WAITS[1..] {
        refused(&mut machine, 0, *wait, 8);
    }
    go_on(&mut machine, "17 -> ok 0 1\n16 0 -> ok 0 1\n15 0 0 -> ok 0 1\n9 -> ok 0 1");
    for wait in WAITS {
        refused(&mut machine, 0, wait, 18);
    }
    // 2 and 5 stand before it.
    let take = Call::Take { object: 0, wait: 0 };
    assert_eq!(step(&mut machine.kernel, &mut [0; 9_215], &take), Answer::Refused(2));
    for number in [16, 32, 9, 1_048_576] {
        refused(&mut machine, number, 0, 5);
    }
    // A full count is the holder's affair: others wait, or are told 14.
    go_on(&mut machine, "1 5 -> ok 2 2\n15 0 0 -> no 14 2\n15 0 100 -> wait 0 1\n15 0 0 -> no 18 1");
}

#[test]
fn under_a_hold_the_waiter_gets_it_and_runs_later() {
    let mut machine = with_a_waiter(2, 100);
    go_on(&mut machine, "8 -> ok 0 1\n15 0 0 -> ok 0 1\n16 0 -> ok 0 1\n16 0 -> ok 0 1\n16 0 -> ok 0 1");
    assert_eq!((held(&machine, 0), effective(&machine, [1])), (Some((2, 1)), [3]));
    go_on(&mut machine, "15 0 0 -> no 14 1\n16 0 -> no 11 1\n9 -> ok 0 2\n15 0 0 -> ok 0 2");
}

#[test]
fn who_does_not_hold_it_cannot_give_it() {
    let mut machine = with_a_waiter(2, 100);
    go_on(
        &mut machine,
        "1 9 -> ok 3 3\n16 0 -> no 11 3\n3 3 -> ok 0 1\n6 1 -> wait 0 0\n16 0 -> no 11 0\n17 -> ok 0 1",
    );
    assert_eq!(held(&machine, 0), Some((1, 2)));
    // Free, and by the one who gave it.
    let mut machine = calibration(2);
    go_on(&mut machine, "16 0 -> ok 0 1\n16 0 -> ok 0 1\n16 0 -> no 11 1\n15 0 0 -> ok 0 1");
    assert_eq!(held(&machine, 0), Some((1, 1)));
}

#[test]
fn as_long_as_it_is_held() {
    let mut machine = calibration(2);
    go_on(&mut machine, "2 1 -> no 10 1\n12 0 -> no 10 1\n16 0 -> ok 0 1\n2 1 -> no 10 1\n12 0 -> no 10 1");
    go_on(&mut machine, "3 1 -> ok 0 0\n2 1 -> no 10 0\n12 0 -> no 10 0\n4 1 -> ok 0 1\n16 0 -> ok 0 1");
    go_on(&mut machine, "12 0 -> ok 0 1\n2 1 -> ok 0 0");
    // Handed on, it is held by another.
    let mut machine = with_a_waiter(2, 100);
    go_on(
        &mut machine,
        "16 0 -> ok 0 1\n12 0 -> no 10 1\n16 0 -> ok 0 2\n2 1 -> ok 0 2\n2 2 -> no 10 2\n12 0 -> no 10 2",
    );
}

#[test]
fn it_is_no_queue_and_a_queue_is_no_mutex() {
    let mut machine = calibration(2);
    go_on(&mut machine, "13 0 _ 0 -> no 5 1\n13 0 aa 9 -> no 5 1\n14 0 0 -> no 5 1\n14 0 9 -> no 5 1");
    go_on(&mut machine, "10 1 1 -> ok 1 1\n15 1 0 -> no 5 1\n16 1 -> no 5 1");
    assert_eq!(held(&machine, 0), Some((1, 2)));
}

#[test]
fn a_waiter_times_out_meanwhile() {
    const BY_TICKS: &str = "17 -> ok 0 1\n15 0 0 -> ok 0 1\n17 -> ok 0 2";
    const BY_AN_ADVANCE: &str = "15 0 0 -> ok 0 1\n18 5 -> ok 0 2";
    const BY_A_RELEASE: &str = "8 -> ok 0 1\n17 -> ok 0 1\n17 -> ok 0 1\n15 0 0 -> ok 0 1\n9 -> ok 0 2";
    for calls in [BY_TICKS, BY_AN_ADVANCE, BY_A_RELEASE] {
        let mut machine = with_a_waiter(2, 2);
        go_on(&mut machine, calls);
        assert_eq!((held(&machine, 0), effective(&machine, [1, 2])), (Some((1, 3)), [3, 5]));
        assert_eq!(machine.kernel.task(task(2)).outcome, Outcome::TimeRanOut);
        go_on(&mut machine, "3 2 -> ok 0 1\n16 0 -> ok 0 1\n16 0 -> ok 0 1\n16 0 -> ok 0 1\n16 0 -> no 11 1");
    }
}

#[test]
fn a_waiter_goes_meanwhile() {
    for (call, outcome) in [("3 2", Outcome::BrokenOff), ("2 2", Outcome::None)] {
        let mut machine = with_a_waiter(2, 100);
        go_on(&mut machine, &format!("{call} -> ok 0 1"));
        assert_eq!((held(&machine, 0), effective(&machine, [1])), (Some((1, 2)), [3]));
        assert_eq!(machine.kernel.task(task(2)).outcome, outcome);
        go_on(&mut machine, "16 0 -> ok 0 1\n16 0 -> ok 0 1");
        assert_eq!(held(&machine, 0), None);
    }
}

#[test]
fn a_holder_that_rests_keeps_its_count() {
    for (rest, word, back) in
        [("3 1", "ok", "4 1 -> ok 0 1"), ("6 5", "wait", "18 5 -> ok 0 1"), ("14 1 9", "wait", "13 1 aa 0 -> ok 0 1")]
    {
        let mut machine = calibration(3);
        go_on(&mut machine, &format!("10 1 1 -> ok 1 1\n{rest} -> {word} 0 0\n1 5 -> ok 2 2\n15 0 99 -> wait 0 0"));
        assert_eq!((held(&machine, 0), effective(&machine, [1])), (Some((1, 3)), [5]));
        go_on(&mut machine, &format!("{back}\n15 0 0 -> ok 0 1\n16 0 -> ok 0 1\n16 0 -> ok 0 1\n16 0 -> ok 0 1"));
        go_on(&mut machine, "16 0 -> ok 0 2");
        assert_eq!(held(&machine, 0), Some((2, 1)));
    }
}

#[test]
fn each_has_a_count_of_its_own() {
    let mut machine = calibration(2);
    go_on(&mut machine, "19 -> ok 1 1\n15 1 0 -> ok 0 1\n15 0 0 -> ok 0 1\n15 1 9 -> ok 0 1\n15 0 9 -> ok 0 1");
    assert_eq!((held(&machine, 0), held(&machine, 1)), (Some((1, 4)), Some((1, 2))));
    go_on(&mut machine, "16 0 -> ok 0 1\n16 1 -> ok 0 1\n16 1 -> ok 0 1\n16 1 -> no 11 1\n2 1 -> no 10 1");
    assert_eq!((held(&machine, 0), held(&machine, 1)), (Some((1, 3)), None));
    // A full one leaves room in the other.
    repeat(&mut machine, 252, "15 0 0 -> ok 0 1");
    go_on(&mut machine, "15 0 0 -> no 18 1\n15 1 0 -> ok 0 1\n15 1 0 -> ok 0 1\n15 0 0 -> no 18 1");
    assert_eq!((held(&machine, 0), held(&machine, 1)), (Some((1, 255)), Some((1, 2))));
}

#[test]
fn a_slot_used_again_begins_without_a_count() {
    let mut machine = calibration(3);
    repeat(&mut machine, 3, "16 0 -> ok 0 1");
    go_on(&mut machine, "12 0 -> ok 0 1\n19 -> ok 16 1\n15 0 0 -> no 5 1\n15 16 0 -> ok 0 1");
    assert_eq!(held(&machine, 0), Some((1, 1)));
    // An ordinary one after it, and the other way round.
    go_on(&mut machine, "15 16 0 -> ok 0 1\n16 16 -> ok 0 1\n16 16 -> ok 0 1\n12 16 -> ok 0 1\n11 -> ok 32 1");
    go_on(&mut machine, "15 32 0 -> ok 0 1\n15 32 0 -> no 12 1\n16 32 -> ok 0 1\n16 32 -> no 11 1\n12 32 -> ok 0 1");
    go_on(&mut machine, "19 -> ok 48 1\n15 48 0 -> ok 0 1\n15 48 0 -> ok 0 1");
    // The next task in a slot does not hold what the last one gave.
    go_on(&mut machine, "16 48 -> ok 0 1\n16 48 -> ok 0 1\n2 1 -> ok 0 0\n1 3 -> ok 17 17\n16 48 -> no 11 17");
}

#[test]
fn a_free_one_is_taken_at_count_1_by_anyone() {
    let mut machine = calibration(5);
    repeat(&mut machine, 5, "16 0 -> ok 0 1");
    go_on(
        &mut machine,
        "1 5 -> ok 2 2\n15 0 9 -> ok 0 2\n16 0 -> ok 0 2\n16 0 -> no 11 2\n3 2 -> ok 0 1\n15 0 0 -> ok 0 1",
    );
    assert_eq!(held(&machine, 0), Some((1, 1)));
}

/// Each mutex beside a plain list of takes: who took it, once for each take that was not given yet. All by full
/// numbers, from the calls and answers; only whom a give wakes is looked up.
#[test]
fn counts_beside_a_list_of_takes() {
    let (mut again, mut full, mut inner, mut handed_on) = (0, 0, 0, 0);
    for seed in 7_000..7_035 {
        let mut machine = Machine::new(false);
        let mut takes: BTreeMap<u32, Vec<u32>> = BTreeMap::new();
        for line in journal(seed, 6_000).split_inclusive(|&byte| byte == b'\n') {
            let before = machine.kernel.clone();
            let answer = machine.answer(line);
            let mut item = [0; ITEM_BYTES];
            let Some(call) = read_call(line, &mut item) else { continue };
            let caller = before.running_number();
            let was_blocked = |task: &TaskSlot| before.is_blocked(*task) && !machine.kernel.is_blocked(*task);
            match (call, answer) {
                (Call::MakeMutex | Call::MakeRecursiveMutex, Answer::Made(number)) => {
                    takes.insert(number, Vec::new());
                }
                (Call::Remove { object }, Answer::Done) => {
                    assert!(takes.remove(&object).unwrap_or_default().is_empty())
                }
                (Call::Take { object, .. }, Answer::Done) => {
                    let list = takes.get_mut(&object).unwrap();
                    assert!(list.iter().all(|&taker| taker == caller) && list.len() < 255);
                    again += u32::from(!list.is_empty());
                    list.push(caller);
                }
                (Call::Take { object, .. }, Answer::Refused(18)) => {
                    assert_eq!(takes[&object], [caller; 255]);
                    full += 1;
                }
                (Call::Give { object }, Answer::Done) => {
                    let list = takes.get_mut(&object).unwrap();
                    assert_eq!(list.pop(), Some(caller));
                    let woken = TaskSlot::all().find(was_blocked).map(|task| before.task_number(task));
                    assert!(list.is_empty() || woken.is_none());
                    inner += u32::from(!list.is_empty());
                    handed_on += u32::from(woken.is_some());
                    list.extend(woken);
                }
                (Call::Give { object }, Answer::Refused(11)) => assert!(!takes[&object].contains(&caller)),
                _ => {}
            }
            for (&number, list) in &takes {
                let (_, mutex) = machine.kernel.find_mutex(number).unwrap();
                let holder = mutex.holder.map(|holder| machine.kernel.task_number(holder));
                assert_eq!((holder, mutex.count as usize), (list.last().copied(), list.len()), "seed {seed}");
            }
        }
    }
    assert!(again > 3_000 && full > 20 && inner > 3_000 && handed_on > 300, "{again} {full} {inner} {handed_on}");
}

/// The kernel with ordinary mutexes in place of recursive ones.
fn flat(kernel: &Kernel) -> Kernel {
    let mut kernel = kernel.clone();
    for slot in &mut kernel.objects {
        if let Kind::Mutex(mutex) = slot.kind {
            slot.kind = Kind::Mutex(Mutex::free(false).passed_to(mutex.holder));
        }
    }
    kernel
}

/// Journals beside the same ones without the takes of a holder and the gives that leave it the holder, and with call 11
/// for 19: all other answers are the same, and so are the kernels but for kinds and counts.
#[test]
fn without_the_inner_takes_it_is_an_ordinary_one() {
    let (mut left_out, mut same) = (0, 0);
    for seed in 7_200..7_225 {
        let (mut machine, mut ordinary) = (Machine::new(false), Machine::new(false));
        let mut counts: BTreeMap<u32, u32> = BTreeMap::new();
        for line in journal(seed, 6_000).split_inclusive(|&byte| byte == b'\n') {
            let answer = machine.answer(line);
            let mut item = [0; ITEM_BYTES];
            let call = read_call(line, &mut item);
            let inner = match (call, answer) {
                (Some(Call::Take { object, .. }), Answer::Done) => {
                    let count = counts.entry(object).or_insert(0);
                    *count += 1;
                    *count > 1
                }
                (Some(Call::Give { object }), Answer::Done) => {
                    let count = counts.get_mut(&object).unwrap();
                    *count -= 1;
                    let inner = *count > 0;
                    // Handed on, it is taken once.
                    if machine.kernel.find_mutex(object).unwrap().1.holder.is_some() && !inner {
                        *count = 1;
                    }
                    inner
                }
                (_, answer) => answer == Answer::Refused(18),
            };
            if !inner {
                let line = if call == Some(Call::MakeRecursiveMutex) { b"11\n" } else { line };
                assert_eq!(ordinary.answer(line), answer, "seed {seed}");
                same += 1;
            }
            left_out += u32::from(inner);
            assert_eq!(flat(&machine.kernel), ordinary.kernel, "seed {seed}");
        }
        assert!(machine.store == ordinary.store);
    }
    assert!(left_out > 5_000 && same > 90_000, "{left_out} {same}");
}
