//! Request 8, sentence by sentence: event groups, on which a task waits for several things at once.

mod common;

use common::{go_on, line_of, object, order_of, repeat, session, slip, task};
use model::calls::{step, Answer, Call};
use model::check::Seen;
use model::group_check::check_group_step;
use model::groups::{Group, Wish, ALL_BITS};
use model::journal::journal;
use model::kernel::{Kernel, Kind, Outcome, Role, Stand, TaskSlot};
use model::line::{read_call, ITEM_BYTES};
use model::machine::Machine;
use std::collections::{BTreeMap, BTreeSet};

/// No wait, one tick, the longest that ends, and for ever.
const WAITS: [u32; 4] = [0, 1, 4_294_967_294, 4_294_967_295];

fn bits(machine: &Machine, slot: usize) -> u32 {
    match machine.kernel.object(object(slot)).kind {
        Kind::Group(group) => group.bits,
        kind => panic!("{kind:?}"),
    }
}

fn outcome(machine: &Machine, slot: usize) -> Outcome {
    machine.kernel.task(task(slot)).outcome
}

/// The slots of those who wait on this object, as they came.
fn waiters(machine: &Machine, slot: usize) -> Vec<usize> {
    machine.kernel.object(object(slot)).waiters.iter().map(|task| task.index()).collect()
}

/// Task 1 (5), the gate, waits on event group 0 with these arguments; idle runs.
fn gate(arguments: &str) -> Machine {
    session(&format!("20 -> ok 0 0\n1 5 -> ok 1 1\n23 0 {arguments} -> wait 0 0"))
}

/// This call is refused, and nothing changes.
fn refused(machine: &mut Machine, call: &str, row: u8) {
    let (kernel, store) = (machine.kernel.clone(), machine.store.clone());
    go_on(machine, &format!("{call} -> no {row} {}", kernel.running_number()));
    assert!(machine.kernel == kernel && machine.store == store, "{call}");
}

/// Fills the slip of the running task with bytes that no bits leave there.
fn fill_slip(machine: &mut Machine, queue: u32) {
    let running = machine.kernel.running_number();
    let item = "ee".repeat(64);
    go_on(machine, &format!("13 {queue} {item} 0 -> ok 0 {running}\n14 {queue} 0 -> ok 0 {running}"));
}

#[test]
fn it_is_made_like_the_others() {
    let mut machine =
        session("20 -> ok 0 0\n11 -> ok 1 0\n10 1 1 -> ok 2 0\n20 -> ok 3 0\n12 1 -> ok 0 0\n20 -> ok 17 0");
    assert_eq!([0, 1, 3].map(|slot| bits(&machine, slot)), [0; 3]);
    go_on(&mut machine, "8 -> ok 0 0\n20 -> ok 4 0\n1 3 -> ok 1 0\n9 -> ok 0 1\n11 -> ok 5 1\n20 -> ok 6 1");
    for slot in 7..16 {
        go_on(&mut machine, &format!("20 -> ok {slot} 1"));
    }
    go_on(&mut machine, "20 -> no 9 1\n11 -> no 9 1\n10 1 1 -> no 9 1\n12 9 -> ok 0 1\n20 -> ok 25 1\n20 -> no 9 1");
}

/// The request's gate: it opens when tag, meter and washer are all ready.
#[test]
fn the_gate_opens_when_all_three_are_ready() {
    let mut machine = gate("7 1 1 4294967295");
    go_on(&mut machine, "1 2 -> ok 2 2\n1 3 -> ok 3 3\n1 4 -> ok 4 4");
    // The washer, the meter and the tag task, each by its bit.
    go_on(&mut machine, "21 0 4 -> ok 0 4\n3 4 -> ok 0 3\n21 0 2 -> ok 0 3\n3 3 -> ok 0 2\n21 0 4 -> ok 0 2");
    assert_eq!((bits(&machine, 0), outcome(&machine, 1), waiters(&machine, 0)), (6, Outcome::None, vec![1]));
    assert_eq!(slip(&machine, 1, 4), [0; 4]);
    go_on(&mut machine, "21 0 1 -> ok 0 1");
    assert_eq!((bits(&machine, 0), outcome(&machine, 1), waiters(&machine, 0)), (0, Outcome::Done, vec![]));
    assert_eq!(slip(&machine, 1, 5), [7, 0, 0, 0, 0]);
    // For the next cow it waits again.
    go_on(&mut machine, "23 0 7 1 1 0 -> no 14 1\n23 0 7 1 1 9 -> wait 0 2");
}

#[test]
fn any_bit_of_the_mask() {
    for (set, woken) in [(1, true), (2, true), (4, true), (7, true), (6, true), (8, false), (ALL_BITS - 7, false)] {
        let mut machine = gate("7 0 0 4294967295");
        go_on(&mut machine, &format!("21 0 {set} -> ok 0 {}", u32::from(woken)));
        assert_eq!((bits(&machine, 0), outcome(&machine, 1) == Outcome::Done), (set, woken), "{set}");
        assert_eq!(slip(&machine, 1, 4)[0], if woken { set as u8 } else { 0 });
    }
}

#[test]
fn all_bits_of_the_mask() {
    for (set, woken) in [(1, false), (6, false), (7, true), (15, true), (ALL_BITS - 1, false), (ALL_BITS, true)] {
        let mut machine = gate("7 1 0 4294967295");
        go_on(&mut machine, &format!("21 0 {set} -> ok 0 {}", u32::from(woken)));
        assert_eq!((bits(&machine, 0), outcome(&machine, 1) == Outcome::Done), (set, woken), "{set}");
    }
    // Of one bit, any and all are the same.
    for all in [0, 1] {
        let mut machine = gate(&format!("8388608 {all} 1 9"));
        go_on(&mut machine, "21 0 8388607 -> ok 0 0\n21 0 8388608 -> ok 0 1");
        assert_eq!((bits(&machine, 0), slip(&machine, 1, 4)), (8_388_607, &[255, 255, 255, 0][..]));
    }
}

#[test]
fn kept_or_cleared_when_satisfied() {
    // Cleared is the whole mask, of any too; other bits stay, also those of the same set.
    for (arguments, left) in
        [("6 1 0 9", 0x8f), ("6 1 1 9", 0x89), ("6 0 0 9", 0x8f), ("6 0 1 9", 0x89), ("50 0 1 9", 0x8d)]
    {
        let mut machine = gate(arguments);
        go_on(&mut machine, "21 0 128 -> ok 0 0\n21 0 15 -> ok 0 1");
        assert_eq!((bits(&machine, 0), slip(&machine, 1, 4)), (left, &[0x8f, 0, 0, 0][..]), "{arguments}");
    }
}

/// A task with an outcome (1) and a neighbour in its line; group 0 has bits 5.
fn satisfied_caller() -> Machine {
    let mut machine =
        session("20 -> ok 0 0\n1 5 -> ok 1 1\n6 1 -> wait 0 0\n17 -> ok 0 1\n1 5 -> ok 2 1\n21 0 5 -> ok 0 1");
    go_on(&mut machine, "10 1 64 -> ok 1 1");
    fill_slip(&mut machine, 1);
    machine
}

#[test]
fn satisfied_at_once() {
    for wait in WAITS {
        for (wish, left) in [("5 1 0", 5), ("5 1 1", 0), ("4 1 1", 1), ("6 0 0", 5), ("6 0 1", 1), ("16777215 0 1", 0)]
        {
            let mut machine = satisfied_caller();
            let (mut kernel, mut store) = (machine.kernel.clone(), machine.store.clone());
            go_on(&mut machine, &format!("23 0 {wish} {wait} -> ok 0 1"));
            // The bits as they were judged, before its own clear; the outcome, the line and all other bytes stay.
            kernel.object_mut(object(0)).kind = Kind::Group(Group { bits: left });
            store[8_192 + 64..][..4].copy_from_slice(&[5, 0, 0, 0]);
            assert!(machine.kernel == kernel && machine.store == store, "{wish} {wait}");
            assert_eq!((outcome(&machine, 1), line_of(&machine.kernel, 5)), (Outcome::Done, vec![1, 2]));
        }
    }
}

#[test]
fn unsatisfied_it_waits() {
    for (wish, mask, all, clear) in [("6 1 1", 6, true, true), ("10 0 0", 10, false, false), ("7 1 0", 7, true, false)]
    {
        let mut machine = satisfied_caller();
        refused(&mut machine, &format!("23 0 {wish} 0"), 14);
        for (wait, wake) in [(1u32, Some(2)), (4_294_967_294, Some(4_294_967_295)), (4_294_967_295, None)] {
            let mut machine = satisfied_caller();
            let store = machine.store.clone();
            go_on(&mut machine, &format!("23 0 {wish} {wait} -> wait 0 2"));
            let role = Role::Watcher(Wish { mask, all, clear });
            assert_eq!(machine.kernel.task(task(1)).stand, Stand::Waiting { object: object(0), role, wake });
            assert_eq!((outcome(&machine, 1), bits(&machine, 0)), (Outcome::None, 5));
            assert_eq!((waiters(&machine, 0), order_of(&machine.kernel)), (vec![1], vec![1]));
            assert!(machine.store == store);
        }
    }
}

/// Tasks 1, 2 and so on, each with its priority, wait on event group 0 in this order; idle runs.
fn crowd(wishes: &[(u8, &str)]) -> Machine {
    let mut machine = session("20 -> ok 0 0");
    for (number, (priority, arguments)) in (1..).zip(wishes) {
        go_on(&mut machine, &format!("1 {priority} -> ok {number} {number}\n23 0 {arguments} -> wait 0 0"));
    }
    machine
}

#[test]
fn a_set_wakes_every_waiter_that_the_bits_satisfy() {
    // All of 3, any of 12, all of 12, any of 16, all of 19.
    let wishes = [(5, "3 1 0 9"), (4, "12 0 0 9"), (6, "12 1 0 9"), (5, "16 0 0 9"), (5, "19 1 0 9")];
    for (set, woken) in [
        (0, vec![]),
        (1, vec![]),
        (3, vec![1]),
        (4, vec![2]),
        (8, vec![2]),
        (12, vec![2, 3]),
        (15, vec![1, 2, 3]),
        (16, vec![4]),
        (19, vec![1, 4, 5]),
        (20, vec![2, 4]),
        (31, vec![1, 2, 3, 4, 5]),
        (32, vec![]),
        (16_777_184, vec![]),
        (16_777_215, vec![1, 2, 3, 4, 5]),
    ] {
        let mut machine = crowd(&wishes);
        let call = Call::SetBits { object: 0, bits: set };
        assert_eq!(step(&mut machine.kernel, &mut machine.store, &call), Answer::Done);
        let done: Vec<usize> = (1..6).filter(|&slot| outcome(&machine, slot) == Outcome::Done).collect();
        assert_eq!(done, woken, "{set}");
        for slot in 1..6 {
            let ready = machine.kernel.task(task(slot)).stand == Stand::Ready;
            let word = if woken.contains(&slot) { set } else { 0 };
            assert_eq!((ready, slip(&machine, slot, 4)), (woken.contains(&slot), &word.to_le_bytes()[..]), "{set}");
        }
        let others: Vec<usize> = (1..6).filter(|slot| !woken.contains(slot)).collect();
        assert_eq!((waiters(&machine, 0), bits(&machine, 0)), (others, set));
    }
}

#[test]
fn bits_of_earlier_sets_count() {
    let mut machine = crowd(&[(5, "7 1 0 99"), (6, "10 1 1 99")]);
    go_on(&mut machine, "21 0 1 -> ok 0 0\n21 0 4 -> ok 0 0\n21 0 16 -> ok 0 0\n21 0 16 -> ok 0 0");
    assert_eq!((bits(&machine, 0), waiters(&machine, 0)), (21, vec![1, 2]));
    go_on(&mut machine, "21 0 2 -> ok 0 1");
    assert_eq!((bits(&machine, 0), slip(&machine, 1, 4)), (23, &[23, 0, 0, 0][..]));
    go_on(&mut machine, "21 0 8 -> ok 0 2");
    assert_eq!((bits(&machine, 0), slip(&machine, 2, 4)), (21, &[31, 0, 0, 0][..]));
}

/// "all judged on the same bits, and the clears happen together afterwards": judged one after the other, the clear of
/// the first would have starved the second.
#[test]
fn a_clear_starves_nobody() {
    for wishes in [
        [(6, "3 1 1 9"), (5, "3 1 1 9")],
        [(6, "3 1 1 9"), (5, "3 1 0 9")],
        [(6, "1 0 1 9"), (5, "3 1 1 9")],
        [(6, "3 0 1 9"), (5, "2 0 0 9")],
        [(5, "3 1 1 9"), (5, "3 0 1 9")],
        [(5, "3 1 0 9"), (6, "3 1 1 9")],
    ] {
        let mut machine = crowd(&wishes);
        let first = if wishes[1].0 > wishes[0].0 { 2 } else { 1 };
        go_on(&mut machine, &format!("21 0 7 -> ok 0 {first}"));
        assert_eq!((outcome(&machine, 1), outcome(&machine, 2)), (Outcome::Done, Outcome::Done), "{wishes:?}");
        // Both have the bits as they were judged, and the masks of those who asked for it are gone.
        assert_eq!((slip(&machine, 1, 4), slip(&machine, 2, 4)), (&[7, 0, 0, 0][..], &[7, 0, 0, 0][..]));
        assert_eq!(bits(&machine, 0), 4, "{wishes:?}");
    }
}

#[test]
fn all_clears_together() {
    // All five are satisfied; four masks are cleared, and with them what task 3 would keep.
    let mut machine = crowd(&[(5, "3 1 1 9"), (6, "6 0 1 9"), (5, "20 0 0 9"), (7, "48 0 1 9"), (8, "72 1 1 9")]);
    go_on(&mut machine, "21 0 95 -> ok 0 5");
    assert_eq!((bits(&machine, 0), waiters(&machine, 0)), (0, vec![]));
    let mut machine = crowd(&[(5, "3 1 1 9"), (6, "6 0 1 9"), (5, "20 0 0 9"), (7, "96 1 1 9"), (8, "72 1 1 9")]);
    go_on(&mut machine, "21 0 95 -> ok 0 5");
    // Task 4 lacks 32 and goes on waiting, and 64 was cleared for task 5.
    assert_eq!((bits(&machine, 0), waiters(&machine, 0)), (16, vec![4]));
    go_on(&mut machine, "3 5 -> ok 0 2\n21 0 32 -> ok 0 2");
    assert_eq!(waiters(&machine, 0), [4]);
    go_on(&mut machine, "21 0 64 -> ok 0 4");
    assert_eq!((bits(&machine, 0), slip(&machine, 4, 4)), (16, &[112, 0, 0, 0][..]));
}

#[test]
fn in_first_waiter_order() {
    // Highest effective priority first, and in one line who came first; not by slot.
    let mut machine = session("20 -> ok 0 0\n1 5 -> ok 1 1\n1 5 -> ok 2 1\n1 5 -> ok 3 1\n1 4 -> ok 4 1");
    go_on(&mut machine, "7 -> ok 0 2\n23 0 1 1 0 99 -> wait 0 3\n23 0 1 0 1 99 -> wait 0 1\n23 0 1 1 1 99 -> wait 0 4");
    go_on(&mut machine, "23 0 3 0 0 99 -> wait 0 0\n1 5 -> ok 5 5\n1 4 -> ok 6 5");
    assert_eq!(waiters(&machine, 0), [2, 3, 1, 4]);
    go_on(&mut machine, "21 0 1 -> ok 0 5");
    // The woken stand behind who was ready.
    assert_eq!((line_of(&machine.kernel, 5), line_of(&machine.kernel, 4)), (vec![5, 2, 3, 1], vec![6, 4]));
    go_on(&mut machine, "3 5 -> ok 0 2\n3 2 -> ok 0 3\n3 3 -> ok 0 1\n3 1 -> ok 0 6\n7 -> ok 0 4");
}

#[test]
fn the_order_goes_by_what_is_lent() {
    // Task 1 (2) holds mutex 1 and waits, task 2 (9) lends it 9, and task 3 (9) waits after it.
    let mut machine = session("20 -> ok 0 0\n11 -> ok 1 0\n1 2 -> ok 1 1\n15 1 0 -> ok 0 1\n23 0 1 0 0 99 -> wait 0 0");
    go_on(&mut machine, "1 9 -> ok 2 2\n15 1 99 -> wait 0 0\n1 9 -> ok 3 3\n23 0 1 0 0 99 -> wait 0 0");
    go_on(&mut machine, "21 0 1 -> ok 0 1");
    assert_eq!(line_of(&machine.kernel, 9), [1, 3]);
    go_on(&mut machine, "16 1 -> ok 0 3\n7 -> ok 0 2");
    assert_eq!((line_of(&machine.kernel, 9), line_of(&machine.kernel, 2)), (vec![2, 3], vec![1]));
}

#[test]
fn set_to_another_priority_while_it_waits() {
    let mut machine = crowd(&[(5, "1 1 0 9"), (6, "1 1 0 9"), (7, "1 1 0 9")]);
    go_on(&mut machine, "5 1 7 -> ok 0 0\n5 2 7 -> ok 0 0\n21 0 1 -> ok 0 1");
    assert_eq!(line_of(&machine.kernel, 7), [1, 2, 3]);
}

#[test]
fn four_bytes_low_byte_first() {
    // 0x123456, and what stood on the slip before it; the fourth byte is 0, the others stay.
    let mut machine = session("20 -> ok 0 0\n10 1 64 -> ok 1 0\n1 5 -> ok 1 1");
    fill_slip(&mut machine, 1);
    go_on(&mut machine, "23 0 1193046 1 0 99 -> wait 0 0\n21 0 1193046 -> ok 0 1");
    let mut wanted = [0xee; 64];
    wanted[..4].copy_from_slice(&[0x56, 0x34, 0x12, 0]);
    assert_eq!(slip(&machine, 1, 64), wanted);
    // The same for one who is satisfied at once, with bits beside its mask.
    fill_slip(&mut machine, 1);
    go_on(&mut machine, "21 0 8388608 -> ok 0 1\n23 0 16 0 1 0 -> ok 0 1");
    wanted[..4].copy_from_slice(&[0x56, 0x34, 0x92, 0]);
    assert_eq!(slip(&machine, 1, 64), wanted);
    assert_eq!(bits(&machine, 0), 0x92_3446);
    // No other byte of the store is touched: the queue's part has its item, idle's slip nothing.
    let others = (0..9_216).filter(|at| machine.store[*at] != 0 && !(8_256..8_320).contains(at));
    assert!(others.eq(512..576));
}

#[test]
fn set_and_clear_of_no_bits() {
    let mut machine = gate("3 1 1 99");
    let kernel = machine.kernel.clone();
    go_on(&mut machine, "21 0 0 -> ok 0 0\n22 0 0 -> ok 0 0");
    assert_eq!(machine.kernel, kernel);
    go_on(&mut machine, "21 0 6 -> ok 0 0\n21 0 0 -> ok 0 0\n22 0 0 -> ok 0 0");
    assert_eq!((bits(&machine, 0), waiters(&machine, 0)), (6, vec![1]));
}

#[test]
fn a_clear_takes_bits_out_and_wakes_nobody() {
    let mut machine = crowd(&[(5, "3 1 1 99"), (6, "4 0 0 99")]);
    go_on(&mut machine, "21 0 9 -> ok 0 0\n22 0 5 -> ok 0 0");
    assert_eq!((bits(&machine, 0), waiters(&machine, 0)), (8, vec![1, 2]));
    // What was cleared has to be set again.
    go_on(&mut machine, "21 0 2 -> ok 0 0\n22 0 16777215 -> ok 0 0");
    assert_eq!(bits(&machine, 0), 0);
    go_on(&mut machine, "21 0 1 -> ok 0 0\n21 0 2 -> ok 0 1\n22 0 16777215 -> ok 0 1\n21 0 4 -> ok 0 2");
    assert_eq!((slip(&machine, 1, 4), slip(&machine, 2, 4)), (&[3, 0, 0, 0][..], &[4, 0, 0, 0][..]));
}

#[test]
fn each_group_has_bits_of_its_own() {
    let mut machine = session("20 -> ok 0 0\n20 -> ok 1 0\n1 5 -> ok 1 1\n23 0 1 1 0 99 -> wait 0 0");
    go_on(&mut machine, "1 5 -> ok 2 2\n23 1 1 1 1 99 -> wait 0 0\n21 1 1 -> ok 0 2");
    assert_eq!((bits(&machine, 0), bits(&machine, 1), waiters(&machine, 0)), (0, 0, vec![1]));
    go_on(&mut machine, "21 0 1 -> ok 0 2\n23 1 1 1 0 0 -> no 14 2\n23 0 1 1 0 0 -> ok 0 2\n22 1 1 -> ok 0 2");
    assert_eq!((bits(&machine, 0), bits(&machine, 1)), (1, 0));
}

#[test]
fn timeouts_leave_the_slip_and_the_bits() {
    const BY_TICKS: &str = "17 -> ok 0 0\n17 -> ok 0 1";
    const BY_AN_ADVANCE: &str = "18 2 -> ok 0 1";
    const BY_A_RELEASE: &str = "8 -> ok 0 0\n17 -> ok 0 0\n17 -> ok 0 0\n17 -> ok 0 0\n9 -> ok 0 1";
    for calls in [BY_TICKS, BY_AN_ADVANCE, BY_A_RELEASE] {
        let mut machine = session("20 -> ok 0 0\n10 1 64 -> ok 1 0\n21 0 1 -> ok 0 0\n1 5 -> ok 1 1");
        fill_slip(&mut machine, 1);
        go_on(&mut machine, "23 0 3 1 1 2 -> wait 0 0");
        go_on(&mut machine, calls);
        assert_eq!((outcome(&machine, 1), bits(&machine, 0)), (Outcome::TimeRanOut, 1));
        assert_eq!((slip(&machine, 1, 64), waiters(&machine, 0)), (&[0xee; 64][..], vec![]));
        // It is asked no more: the set that would have woken it finds nobody, and its bits stay.
        go_on(&mut machine, "21 0 2 -> ok 0 1");
        assert_eq!((bits(&machine, 0), outcome(&machine, 1)), (3, Outcome::TimeRanOut));
        assert_eq!(slip(&machine, 1, 64), [0xee; 64]);
    }
}

#[test]
fn broken_off_it_leaves_the_slip_and_the_bits() {
    for (call, ends) in [("3 1", Outcome::BrokenOff), ("2 1", Outcome::None)] {
        let mut machine = session("20 -> ok 0 0\n10 1 64 -> ok 1 0\n1 5 -> ok 1 1");
        fill_slip(&mut machine, 1);
        go_on(&mut machine, &format!("23 0 1 1 1 99 -> wait 0 0\n{call} -> ok 0 0\n21 0 1 -> ok 0 0"));
        assert_eq!((outcome(&machine, 1), bits(&machine, 0)), (ends, 1));
        assert_eq!((slip(&machine, 1, 64), waiters(&machine, 0)), (&[0xee; 64][..], vec![]));
    }
    // One of two: the other is woken.
    let mut machine = crowd(&[(5, "1 1 1 99"), (6, "1 1 0 99")]);
    go_on(&mut machine, "3 1 -> ok 0 0\n21 0 1 -> ok 0 2");
    assert_eq!((bits(&machine, 0), outcome(&machine, 1), outcome(&machine, 2)), (1, Outcome::BrokenOff, Outcome::Done));
    // Resumed, it does not wait any more.
    go_on(&mut machine, "4 1 -> ok 0 2\n3 2 -> ok 0 1\n23 0 1 1 0 0 -> ok 0 1");
}

#[test]
fn due_together_with_others() {
    // Tasks 4, 1, 2 and 3 begin in this order, two of them to wait for bits, and all are due on tick 3.
    let mut machine = session("20 -> ok 0 0\n10 1 1 -> ok 1 0\n11 -> ok 2 0\n1 5 -> ok 1 1\n1 5 -> ok 2 1");
    go_on(&mut machine, "1 5 -> ok 3 1\n1 5 -> ok 4 1\n7 -> ok 0 2\n7 -> ok 0 3\n7 -> ok 0 4");
    go_on(&mut machine, "23 0 1 0 0 3 -> wait 0 1\n6 3 -> wait 0 2\n23 0 1 1 1 3 -> wait 0 3\n14 1 3 -> wait 0 0");
    go_on(&mut machine, "17 -> ok 0 0\n17 -> ok 0 0\n17 -> ok 0 4");
    assert_eq!(line_of(&machine.kernel, 5), [4, 1, 2, 3]);
    let ran_out = Outcome::TimeRanOut;
    assert_eq!([1, 2, 3, 4].map(|slot| outcome(&machine, slot)), [Outcome::Done, ran_out, ran_out, ran_out]);
}

#[test]
fn a_set_just_before_the_time_runs_out() {
    let mut machine = gate("1 1 0 2");
    go_on(&mut machine, "17 -> ok 0 0\n21 0 1 -> ok 0 1\n17 -> ok 0 1\n17 -> ok 0 1");
    assert_eq!((outcome(&machine, 1), machine.kernel.tick), (Outcome::Done, 3));
    // Pended ticks end no wait before the release, so under a hold the set still finds the waiter.
    let mut machine = gate("1 1 0 2");
    go_on(&mut machine, "8 -> ok 0 0\n17 -> ok 0 0\n17 -> ok 0 0\n21 0 1 -> ok 0 0\n9 -> ok 0 1");
    assert_eq!(outcome(&machine, 1), Outcome::Done);
}

#[test]
fn under_a_hold_the_woken_run_later() {
    let mut machine = crowd(&[(5, "3 1 1 99"), (6, "2 0 1 99")]);
    go_on(&mut machine, "8 -> ok 0 0\n21 0 1 -> ok 0 0\n21 0 2 -> ok 0 0\n21 0 8 -> ok 0 0");
    assert_eq!((bits(&machine, 0), outcome(&machine, 1), outcome(&machine, 2)), (8, Outcome::Done, Outcome::Done));
    go_on(&mut machine, "23 0 8 1 1 0 -> ok 0 0\n23 0 8 1 1 0 -> no 14 0\n22 0 8 -> ok 0 0\n9 -> ok 0 2");
    assert_eq!((slip(&machine, 0, 4), slip(&machine, 1, 4)), (&[8, 0, 0, 0][..], &[3, 0, 0, 0][..]));
}

#[test]
fn no_wait_but_0_with_a_hold() {
    let mut machine = session("20 -> ok 0 0\n21 0 1 -> ok 0 0\n1 5 -> ok 1 1\n8 -> ok 0 1");
    for wait in &WAITS[1..] {
        // Satisfied or not, whatever the flags.
        for wish in ["1 1 0", "1 0 1", "3 0 0", "2 1 0", "3 1 1"] {
            refused(&mut machine, &format!("23 0 {wish} {wait}"), 8);
        }
    }
    refused(&mut machine, "23 0 2 1 0 0", 14);
    go_on(&mut machine, "23 0 3 0 1 0 -> ok 0 1");
    assert_eq!(bits(&machine, 0), 0);
}

#[test]
fn idle_waits_for_nothing() {
    let mut machine = session("20 -> ok 0 0\n21 0 1 -> ok 0 0");
    for held in ["8 -> ok 0 0", "9 -> ok 0 0"] {
        for wait in &WAITS[1..] {
            for wish in ["1 1 0", "1 0 1", "3 0 0", "2 1 0", "3 1 1"] {
                refused(&mut machine, &format!("23 0 {wish} {wait}"), 7);
            }
        }
        refused(&mut machine, "23 0 2 0 0 0", 14);
        go_on(&mut machine, held);
    }
    // Wait 0 is idle's too, and its slip is task 0's.
    go_on(&mut machine, "21 0 65536 -> ok 0 0\n23 0 1 1 1 0 -> ok 0 0\n22 0 65536 -> ok 0 0");
    assert_eq!((slip(&machine, 0, 4), bits(&machine, 0)), (&[1, 0, 1, 0][..], 0));
}

#[test]
fn bits_above_the_24() {
    let mut machine = session("20 -> ok 0 0\n1 5 -> ok 1 1");
    for above in [16_777_216u32, 16_777_217, 33_554_432, 2_147_483_648, 4_294_967_295] {
        refused(&mut machine, &format!("21 0 {above}"), 4);
        refused(&mut machine, &format!("22 0 {above}"), 4);
        for wait in WAITS {
            refused(&mut machine, &format!("23 0 {above} 0 0 {wait}"), 4);
            refused(&mut machine, &format!("23 0 {above} 1 1 {wait}"), 4);
        }
    }
    go_on(&mut machine, "21 0 16777215 -> ok 0 1\n23 0 16777215 1 0 0 -> ok 0 1\n22 0 16777215 -> ok 0 1");
    go_on(&mut machine, "21 0 8388608 -> ok 0 1\n23 0 8388608 1 1 0 -> ok 0 1\n23 0 16777215 0 0 0 -> no 14 1");
    assert_eq!((slip(&machine, 1, 4), bits(&machine, 0)), (&[0, 0, 128, 0][..], 0));
}

#[test]
fn flags_and_an_empty_mask() {
    let mut machine = session("20 -> ok 0 0\n21 0 1 -> ok 0 0\n1 5 -> ok 1 1");
    for wait in WAITS {
        for flags in ["0 0", "0 1", "1 0", "1 1"] {
            refused(&mut machine, &format!("23 0 0 {flags} {wait}"), 4);
        }
        for flag in [2, 3, 255, 256, 65_536, 2_147_483_648, 4_294_967_295u32] {
            refused(&mut machine, &format!("23 0 1 {flag} 0 {wait}"), 4);
            refused(&mut machine, &format!("23 0 1 0 {flag} {wait}"), 4);
            refused(&mut machine, &format!("23 0 2 {flag} {flag} {wait}"), 4);
        }
    }
}

#[test]
fn row_4_before_5_and_the_rows_after_it() {
    let mut machine = session("20 -> ok 0 0\n11 -> ok 1 0\n21 0 1 -> ok 0 0");
    // No object, or one of another kind, and out of range; 2 stands before both.
    for number in [1, 9, 16, 4_294_967_295u32] {
        for call in ["21 N 16777216", "22 N 16777216", "23 N 16777216 0 0 0", "23 N 0 0 0 9", "23 N 1 2 0 9"] {
            refused(&mut machine, &call.replace('N', &number.to_string()), 4);
        }
        for call in ["21 N 0", "22 N 16777215", "23 N 1 0 0 0", "23 N 2 1 1 9", "23 N 1 0 1 4294967295"] {
            refused(&mut machine, &call.replace('N', &number.to_string()), 5);
        }
    }
    for call in [
        Call::SetBits { object: 0, bits: 1 },
        Call::ClearBits { object: 9, bits: u32::MAX },
        Call::WaitBits { object: 0, mask: 0, all: 0, clear: 0, wait: 0 },
    ] {
        assert_eq!(step(&mut machine.kernel, &mut [0; 9_217], &call), Answer::Refused(2));
    }
    // Idle under a hold: 4, 5, 7; a task: 4, 5, 8; then 14.
    go_on(&mut machine, "8 -> ok 0 0\n23 0 0 0 0 9 -> no 4 0\n23 1 1 0 0 9 -> no 5 0\n23 0 2 0 0 9 -> no 7 0");
    go_on(&mut machine, "9 -> ok 0 0\n1 5 -> ok 1 1\n8 -> ok 0 1\n23 0 1 2 0 9 -> no 4 1\n23 1 1 0 0 9 -> no 5 1");
    go_on(&mut machine, "23 0 2 0 0 9 -> no 8 1\n23 0 2 0 0 0 -> no 14 1\n9 -> ok 0 1\n23 0 2 0 0 0 -> no 14 1");
}

#[test]
fn it_is_no_queue_and_no_mutex() {
    let mut machine = session("20 -> ok 0 0\n1 5 -> ok 1 1\n21 0 1 -> ok 0 1");
    for call in ["13 0 _ 0", "13 0 aa 9", "14 0 0", "14 0 9", "15 0 0", "15 0 9", "16 0"] {
        refused(&mut machine, call, 5);
    }
    go_on(&mut machine, "10 1 0 -> ok 1 1\n11 -> ok 2 1\n19 -> ok 3 1\n15 3 0 -> ok 0 1");
    for number in [1, 2, 3] {
        for call in ["21 N 1", "22 N 1", "23 N 1 0 0 0", "23 N 1 1 1 9"] {
            refused(&mut machine, &call.replace('N', &number.to_string()), 5);
        }
    }
}

#[test]
fn old_numbers_name_nothing() {
    let mut machine = session("20 -> ok 0 0\n21 0 7 -> ok 0 0\n12 0 -> ok 0 0\n21 0 1 -> no 5 0\n21 16 1 -> no 5 0");
    go_on(&mut machine, "20 -> ok 16 0\n21 0 1 -> no 5 0\n22 0 1 -> no 5 0\n23 0 1 0 0 0 -> no 5 0\n12 0 -> no 5 0");
    // What the last one left is gone.
    assert_eq!(bits(&machine, 0), 0);
    go_on(&mut machine, "23 16 7 0 0 0 -> no 14 0\n21 16 1 -> ok 0 0\n23 16 1 0 0 0 -> ok 0 0\n12 16 -> ok 0 0");
    // Another kind in its slot, and the other way round.
    go_on(&mut machine, "10 1 1 -> ok 32 0\n21 32 1 -> no 5 0\n13 32 aa 0 -> ok 0 0\n12 32 -> ok 0 0\n20 -> ok 48 0");
    go_on(&mut machine, "14 48 0 -> no 5 0\n23 48 16777215 0 0 0 -> no 14 0");
}

#[test]
fn a_group_with_waiters_is_not_removed() {
    let mut machine = crowd(&[(5, "1 1 0 5"), (6, "2 1 0 99")]);
    refused(&mut machine, "12 0", 10);
    go_on(&mut machine, "18 5 -> ok 0 1\n12 0 -> no 10 1\n21 0 2 -> ok 0 2\n12 0 -> ok 0 2\n20 -> ok 16 2");
    assert_eq!(bits(&machine, 0), 0);
}

#[test]
fn a_wait_on_it_lends_nothing_and_ends_a_chain() {
    // Task 1 (2) holds mutex 1 and waits on group 0, task 2 (5) waits there too; task 3 (9) waits on mutex 1.
    let mut machine = session("20 -> ok 0 0\n11 -> ok 1 0\n11 -> ok 2 0\n1 2 -> ok 1 1\n15 1 0 -> ok 0 1");
    go_on(&mut machine, "23 0 1 1 0 99 -> wait 0 0\n1 5 -> ok 2 2\n23 0 2 1 0 99 -> wait 0 0");
    go_on(&mut machine, "1 9 -> ok 3 3\n15 2 0 -> ok 0 3\n15 1 99 -> wait 0 0");
    assert_eq!([1, 2, 3].map(|slot| machine.kernel.task(task(slot)).effective), [9, 5, 9]);
    // Task 1 is woken with its loan, and may not wait for task 3; on the group it may wait again.
    go_on(&mut machine, "21 0 1 -> ok 0 1\n15 2 9 -> no 17 1\n23 0 1 1 1 0 -> ok 0 1\n23 0 1 1 1 9 -> wait 0 0");
}

#[test]
fn two_who_wait_for_each_others_bits_are_no_circle() {
    // Task 1 would set bit 2 once it has bit 1, and task 2 the other way round; no holder, no circle.
    let mut machine = session("20 -> ok 0 0\n11 -> ok 1 0\n1 3 -> ok 1 1\n15 1 0 -> ok 0 1\n1 4 -> ok 2 2");
    go_on(&mut machine, "23 0 1 1 1 4294967295 -> wait 0 1\n23 0 2 1 1 4294967295 -> wait 0 0");
    repeat(&mut machine, 3, "17 -> ok 0 0");
    go_on(&mut machine, "1 5 -> ok 3 3\n15 1 0 -> no 14 3\n15 1 9 -> wait 0 0\n21 0 2 -> ok 0 1\n16 1 -> ok 0 3");
}

/// A way to change a kernel.
type Change = fn(&mut Kernel);

/// The self-check accepts what this call did, and finds each of these changes to it, and each byte of the store here.
fn finds(machine: &Machine, call: &Call, changes: &[Change], bytes: &[usize]) {
    let before = Seen { kernel: &machine.kernel, store: &machine.store };
    let (mut kernel, mut store) = (machine.kernel.clone(), machine.store.clone());
    let answer = step(&mut kernel, &mut store, call);
    let is_right =
        |kernel: &Kernel, store: &[u8]| check_group_step(before, call, answer, Seen { kernel, store }).is_ok();
    assert!(is_right(&kernel, &store), "{call:?}");
    for (number, change) in changes.iter().enumerate() {
        let mut wrong = kernel.clone();
        change(&mut wrong);
        assert!(!is_right(&wrong, &store), "{call:?}, {number}");
    }
    for &at in bytes {
        let mut wrong = store.clone();
        wrong[at] ^= 1;
        assert!(!is_right(&kernel, &wrong), "{call:?}, byte {at}");
    }
}

/// Tasks 1 and 2 (5 and 6) wait on group 0 for all of 3 and any of 2, to clear, task 3 (4) for all of 24. Bit 8 is set,
/// and in group 1 bit 1.
fn three_waiters() -> Machine {
    let mut machine = crowd(&[(5, "3 1 1 9"), (6, "2 0 1 9"), (4, "24 1 0 3")]);
    go_on(&mut machine, "21 0 8 -> ok 0 0\n20 -> ok 1 0\n21 1 1 -> ok 0 0");
    machine
}

fn put_bits(kernel: &mut Kernel, slot: usize, bits: u32) {
    kernel.object_mut(object(slot)).kind = Kind::Group(Group { bits });
}

#[test]
fn a_wrong_set_is_found() {
    let changes: [Change; 10] = [
        // Judged one after the other, task 1 would go on waiting.
        |k| {
            let role = Role::Watcher(Wish { mask: 3, all: true, clear: true });
            k.tasks[1].stand = Stand::Waiting { object: object(0), role, wake: Some(9) };
            k.tasks[1].outcome = Outcome::None;
            k.objects[0].waiters.insert(0, task(1));
        },
        |k| k.tasks[1].stand = Stand::Suspended,
        |k| k.tasks[2].outcome = Outcome::TimeRanOut,
        |k| k.tasks[3].stand = Stand::Ready,
        |k| put_bits(k, 0, 15),
        |k| put_bits(k, 0, 13),
        |k| put_bits(k, 0, 8),
        |k| put_bits(k, 0, 0),
        |k| put_bits(k, 1, 0),
        |k| k.objects[0].waiters.clear(),
    ];
    // In any of the first four bytes of a slip, behind them, and of one who was not woken.
    let bytes = [8_256, 8_257, 8_258, 8_259, 8_260, 8_319, 8_320, 8_384, 8_192, 0];
    finds(&three_waiters(), &Call::SetBits { object: 0, bits: 7 }, &changes, &bytes);
}

#[test]
fn a_wrong_clear_or_wait_is_found() {
    let mut machine = three_waiters();
    let wakes: Change = |k| k.wake_waiter(task(3));
    let others: [Change; 4] = [wakes, |k| put_bits(k, 0, 9), |k| put_bits(k, 1, 0), |k| k.tasks[1].own = 9];
    finds(&machine, &Call::ClearBits { object: 0, bits: 8 }, &others, &[0, 8_192, 8_256]);
    go_on(&mut machine, "1 7 -> ok 4 4");
    // Satisfied at once: before its own clear, and nobody else's slip.
    let at_once = Call::WaitBits { object: 0, mask: 8, all: 0, clear: 1, wait: 5 };
    let outcome: Change = |k| k.tasks[4].outcome = Outcome::Done;
    finds(&machine, &at_once, &[others[0], others[1], others[2], outcome], &[8_448, 8_451, 8_452, 8_256]);
    // It waits with what it asked for.
    let begun = Call::WaitBits { object: 0, mask: 9, all: 1, clear: 1, wait: 5 };
    let asks: Change = |k| {
        let role = Role::Watcher(Wish { mask: 9, all: true, clear: false });
        k.tasks[4].stand = Stand::Waiting { object: object(0), role, wake: Some(5) };
    };
    let lends: Change = |k| k.tasks[1].effective = 7;
    finds(&machine, &begun, &[others[0], others[1], others[2], outcome, asks, lends], &[8_448, 8_256]);
}

#[test]
fn a_wrong_end_of_a_wait_is_found() {
    // Task 3 is due on the third tick; tasks 1 and 2 go on waiting.
    let machine = three_waiters();
    let woken: Change = |k| k.wake_waiter(task(1));
    let bits: Change = |k| put_bits(k, 0, 0);
    let done: Change = |k| k.tasks[3].outcome = Outcome::Done;
    let resumed: Change = |k| k.tasks[3].stand = Stand::Ready;
    finds(&machine, &Call::Tick, &[woken, bits, resumed], &[8_256, 8_320]);
    finds(&machine, &Call::Advance { ticks: 3 }, &[woken, bits, done], &[8_256, 8_384, 8_387]);
    finds(&machine, &Call::Suspend { task: 3 }, &[woken, bits, done, resumed], &[8_384]);
    finds(&machine, &Call::Delete { task: 3 }, &[woken, bits], &[8_256]);
    finds(&machine, &Call::SetPriority { task: 3, priority: 9 }, &[woken, bits], &[8_384]);
}

/// What a plain model knows of one who waits: its bits, both flags, and the line of its call.
type Asked = (BTreeSet<u32>, bool, bool, usize);

#[derive(Default)]
struct Plain {
    /// For each group, by its full number, the places of the bits that are set.
    groups: BTreeMap<u32, BTreeSet<u32>>,
    /// For each waiter, by its full number, the group and what it asks for.
    asked: BTreeMap<u32, (u32, Asked)>,
    woken: u32,
    together: u32,
    at_once: u32,
    starved: u32,
}

fn places(bits: u32) -> BTreeSet<u32> {
    (0..24).filter(|place| bits & 1 << place != 0).collect()
}

fn meets(set: &BTreeSet<u32>, asked: &BTreeSet<u32>, all: bool) -> bool {
    if all {
        asked.is_subset(set)
    } else {
        !asked.is_disjoint(set)
    }
}

/// The four bytes of these bits.
fn word(set: &BTreeSet<u32>) -> [u8; 4] {
    [0, 1, 2, 3].map(|byte| set.iter().filter(|&place| place / 8 == byte).map(|place| 1 << (place % 8)).sum())
}

impl Plain {
    /// An accepted set: gives the numbers of those who are woken, by the line on which they began, and the bits judged.
    fn set(&mut self, group: u32, bits: u32) -> (Vec<u32>, BTreeSet<u32>) {
        let mut judged = self.groups[&group].clone();
        judged.extend(places(bits));
        let met = |(on, asked): &(u32, Asked)| *on == group && meets(&judged, &asked.0, asked.1);
        let mut woken: Vec<(usize, u32)> =
            self.asked.iter().filter(|(_, asked)| met(asked)).map(|(task, (_, asked))| (asked.3, *task)).collect();
        woken.sort_unstable();
        let mut left = judged.clone();
        let (mut starving, mut starved) = (judged.clone(), 0);
        for (_, task) in &woken {
            let (_, (asked, all, clear, _)) = self.asked.remove(task).unwrap();
            starved += u32::from(!meets(&starving, &asked, all));
            if clear {
                left.retain(|place| !asked.contains(place));
                starving.retain(|place| !asked.contains(place));
            }
        }
        self.groups.insert(group, left);
        self.woken += woken.len() as u32;
        self.together += u32::from(woken.len() > 1);
        self.starved += u32::from(starved > 0);
        (woken.into_iter().map(|(_, task)| task).collect(), judged)
    }

    /// A call with its answer, on this line. Gives the slips that it wrote: by task number, and the bits.
    fn observe(&mut self, call: &Call, answer: Answer, at: usize, caller: u32) -> (Vec<u32>, BTreeSet<u32>) {
        match (*call, answer) {
            (_, Answer::Refused(_)) => {}
            (Call::MakeGroup, Answer::Made(number)) => {
                self.groups.insert(number, BTreeSet::new());
            }
            (Call::Remove { object }, _) => {
                self.groups.remove(&object);
            }
            (Call::SetBits { object, bits }, _) => return self.set(object, bits),
            (Call::ClearBits { object, bits }, _) => {
                let out = places(bits);
                self.groups.get_mut(&object).unwrap().retain(|place| !out.contains(place));
            }
            (Call::WaitBits { object, mask, all, clear, .. }, Answer::Waiting) => {
                self.asked.insert(caller, (object, (places(mask), all == 1, clear == 1, at)));
            }
            (Call::WaitBits { object, mask, all, clear, .. }, _) => {
                let judged = self.groups[&object].clone();
                assert!(meets(&judged, &places(mask), all == 1));
                self.at_once += 1;
                if clear == 1 {
                    self.groups.get_mut(&object).unwrap().retain(|place| !places(mask).contains(place));
                }
                return (vec![caller], judged);
            }
            (Call::Suspend { task } | Call::Delete { task }, _) => {
                self.asked.remove(&task);
            }
            _ => {}
        }
        (Vec::new(), BTreeSet::new())
    }
}

/// Random journals beside plain sets of bits, all by full numbers, from the calls and answers; only whose wait a tick has
/// ended is looked up.
#[test]
fn groups_beside_plain_sets() {
    let mut plain = Plain::default();
    for seed in 8_000..8_030 {
        let mut machine = Machine::new(false);
        (plain.groups, plain.asked) = (BTreeMap::new(), BTreeMap::new());
        for (at, line) in journal(seed, 6_000).split_inclusive(|&byte| byte == b'\n').enumerate() {
            let (before, store) = (machine.kernel.clone(), machine.store.clone());
            let answer = machine.answer(line);
            let mut item = [0; ITEM_BYTES];
            let Some(call) = read_call(line, &mut item) else { continue };
            let (written, judged) = plain.observe(&call, answer, at, before.running_number());
            let kernel = &machine.kernel;
            if kernel.tick != before.tick {
                plain.asked.retain(|&task, _| kernel.find_task(task).is_some_and(|task| kernel.is_blocked(task)));
            }
            same_groups(&plain, kernel);
            let slips = written.iter().map(|&task| kernel.find_task(task).unwrap());
            if matches!(call, Call::SetBits { .. } | Call::WaitBits { .. }) {
                same_slips(&store, slips.collect(), &judged, &machine.store);
            }
            if matches!(call, Call::SetBits { .. }) {
                in_one_line_as_they_came(kernel, &written);
            }
        }
    }
    let counts = (plain.woken, plain.together, plain.at_once, plain.starved);
    assert!(counts.0 > 2_000 && counts.1 > 500 && counts.2 > 500 && counts.3 > 200, "{counts:?}");
}

/// The kernel's groups and waiters are the plain model's.
fn same_groups(plain: &Plain, kernel: &Kernel) {
    let is_group = |slot: &usize| matches!(kernel.objects[*slot].kind, Kind::Group(_));
    assert_eq!((0..16).filter(is_group).count(), plain.groups.len());
    for (&number, set) in &plain.groups {
        let (object, group) = kernel.find_group(number).unwrap();
        assert_eq!(places(group.bits), *set);
        let waiters: BTreeSet<u32> =
            kernel.object(object).waiters.iter().map(|&waiter| kernel.task_number(waiter)).collect();
        let asked = plain.asked.iter().filter(|(_, (on, _))| *on == number).map(|(task, _)| *task);
        assert_eq!(waiters, asked.collect());
    }
}

/// The store with the judged bits on these slips, and nothing else, is the one after the call.
fn same_slips(before: &[u8], slips: Vec<TaskSlot>, judged: &BTreeSet<u32>, after: &[u8]) {
    let mut wanted = before.to_vec();
    for task in slips {
        wanted[8_192 + 64 * task.index()..][..4].copy_from_slice(&word(judged));
    }
    assert!(wanted == after);
}

/// These tasks, in the order in which they came, stand so at the end of their lines; the running one may be at the head.
fn in_one_line_as_they_came(kernel: &Kernel, woken: &[u32]) {
    for line in &kernel.lines {
        let stand: Vec<u32> = line.iter().map(|&task| kernel.task_number(task)).collect();
        let of_line: Vec<u32> = woken.iter().copied().filter(|task| stand.contains(task)).collect();
        assert!(stand.ends_with(&of_line), "{stand:?} {of_line:?}");
    }
}

/// One bit, waited for with clear, is a semaphore of one place: the same session with a queue of capacity 1 and size 0
/// leaves the same tasks, as long as only one waits.
#[test]
fn one_bit_beside_a_semaphore() {
    let calls = [
        ("20", "10 1 0", "ok 0 0"),
        ("1 5", "1 5", "ok 1 1"),
        ("23 0 1 1 1 0", "14 0 0", "no 14 1"),
        ("21 0 1", "13 0 _ 0", "ok 0 1"),
        ("23 0 1 1 1 9", "14 0 9", "ok 0 1"),
        ("23 0 1 0 1 9", "14 0 9", "wait 0 0"),
        ("12 0", "12 0", "no 10 0"),
        ("21 0 1", "13 0 _ 0", "ok 0 1"),
        ("23 0 1 1 1 2", "14 0 2", "wait 0 0"),
        ("18 2", "18 2", "ok 0 1"),
        ("23 0 1 1 1 9", "14 0 9", "wait 0 0"),
        ("3 1", "3 1", "ok 0 0"),
        ("21 0 1", "13 0 _ 0", "ok 0 0"),
        ("23 0 1 1 1 9", "14 0 9", "no 7 0"),
        ("4 1", "4 1", "ok 0 1"),
        ("8", "8", "ok 0 1"),
        ("23 0 1 1 1 9", "14 0 9", "no 8 1"),
        ("23 0 1 1 1 0", "14 0 0", "ok 0 1"),
    ];
    let (mut events, mut queue) = (Machine::new(true), Machine::new(true));
    for (of_events, of_queue, answer) in calls {
        go_on(&mut events, &format!("{of_events} -> {answer}"));
        go_on(&mut queue, &format!("{of_queue} -> {answer}"));
        for slot in [0, 1] {
            let (one, other) = (events.kernel.task(task(slot)), queue.kernel.task(task(slot)));
            assert_eq!((one.wake(), one.outcome), (other.wake(), other.outcome), "{of_events}");
        }
        assert_eq!((&events.kernel.lines, &events.kernel.began), (&queue.kernel.lines, &queue.kernel.began));
    }
}
