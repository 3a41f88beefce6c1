//! Request 1, sentence by sentence: a number is slot + 16 × use.

mod common;

use common::{answers, go_on, object, repeat, session, slip, task};
use model::calls::{step, Answer, Call};
use model::check::soundness;
use model::kernel::{Kernel, Kind};
use model::machine::Machine;
use model::retire;

/// Beside idle a task in slot 1 (priority 3, runs) and one in slot 2 (2); a queue (two of 1 byte) in slot 0 and a mutex
/// in slot 1. All slots but task slot 2 were given up twice before, so the numbers are 33 and 2, 32 and 33.
fn used() -> Machine {
    session(
        "1 3 -> ok 1 1
         2 1 -> ok 0 0
         1 3 -> ok 17 17
         2 17 -> ok 0 0
         1 3 -> ok 33 33
         1 2 -> ok 2 33
         10 2 1 -> ok 0 33
         11 -> ok 1 33
         12 0 -> ok 0 33
         12 1 -> ok 0 33
         11 -> ok 16 33
         10 2 1 -> ok 17 33
         12 17 -> ok 0 33
         12 16 -> ok 0 33
         10 2 1 -> ok 32 33
         11 -> ok 33 33",
    )
}

fn uses(kernel: &Kernel) -> (Vec<u32>, Vec<u32>) {
    (kernel.tasks.iter().map(|task| task.uses).collect(), kernel.objects.iter().map(|object| object.uses).collect())
}

/// This use in this slot, 0 in all others.
fn but_one(slot: usize, uses: u32) -> Vec<u32> {
    (0..16).map(|other| if other == slot { uses } else { 0 }).collect()
}

#[test]
fn each_slot_has_its_own_use() {
    assert_eq!(uses(&Kernel::fresh()), (vec![0; 16], vec![0; 16]));
    let mut machine = session("1 0 -> ok 1 0\n1 0 -> ok 2 0\n2 1 -> ok 0 0");
    assert_eq!(uses(&machine.kernel), (but_one(1, 1), vec![0; 16]));
    go_on(&mut machine, "11 -> ok 0 0\n11 -> ok 1 0\n12 1 -> ok 0 0\n11 -> ok 17 0\n12 17 -> ok 0 0");
    assert_eq!(uses(&machine.kernel), (but_one(1, 1), but_one(1, 2)));
    go_on(&mut machine, "1 0 -> ok 17 0\n1 0 -> ok 3 0\n11 -> ok 33 0\n11 -> ok 2 0");
}

#[test]
fn nothing_else_makes_a_use_go_up() {
    let mut machine = used();
    let before = uses(&machine.kernel);
    // Every call but delete and remove, and these two turned away.
    go_on(
        &mut machine,
        "15 33 0 -> ok 0 33
         2 33 -> no 10 33
         12 33 -> no 10 33
         16 33 -> ok 0 33
         13 32 aa 0 -> ok 0 33
         14 32 0 -> ok 0 33
         5 33 4 -> ok 0 33
         6 1 -> wait 0 2
         17 -> ok 0 33
         7 -> ok 0 33
         3 2 -> ok 0 33
         4 2 -> ok 0 33
         8 -> ok 0 33
         2 33 -> no 8 33
         17 -> ok 0 33
         9 -> ok 0 33
         14 32 1 -> wait 0 2
         12 32 -> no 10 2
         2 0 -> no 7 2
         2 17 -> no 5 2
         12 17 -> no 5 2
         1 1 -> ok 3 2
         11 -> ok 2 2
         19 -> ok 3 2
         20 -> ok 4 2
         21 4 1 -> ok 0 2
         23 4 1 1 0 0 -> ok 0 2
         22 4 1 -> ok 0 2
         23 4 1 1 0 0 -> no 14 2
         18 1 -> ok 0 33",
    );
    assert_eq!(uses(&machine.kernel), before);
}

/// Every call that names a task or an object, with this number, and the answer it gets.
fn calls_of_tasks(number: u32, answer: &str) -> String {
    format!("2 {number} -> {answer}\n3 {number} -> {answer}\n4 {number} -> {answer}\n5 {number} 1 -> {answer}\n")
}

fn calls_of_objects(number: u32, answer: &str) -> String {
    format!(
        "12 {number} -> {answer}\n13 {number} aa 0 -> {answer}\n14 {number} 0 -> {answer}
         15 {number} 0 -> {answer}\n16 {number} -> {answer}\n21 {number} 1 -> {answer}
         22 {number} 1 -> {answer}\n23 {number} 1 0 0 0 -> {answer}\n"
    )
}

#[test]
fn another_use_names_nothing() {
    let mut machine = used();
    // Old, not yet given out, as near as a lost digit, and from 1,048,576 on.
    let parts = [0, 1, 3, 18, 258, 4_098, 65_535, 65_536, 65_538, 131_074, 16_777_218, 268_369_922];
    for part in parts {
        go_on(&mut machine, &calls_of_tasks(1 + 16 * part, "no 5 33"));
        go_on(&mut machine, &calls_of_objects(16 * part, "no 5 33"));
        go_on(&mut machine, &calls_of_objects(1 + 16 * part, "no 5 33"));
    }
    for number in [1_048_575, 1_048_576, 1_048_577, 2_147_483_648, 4_294_967_295] {
        go_on(&mut machine, &calls_of_tasks(number, "no 5 33"));
        go_on(&mut machine, &calls_of_objects(number, "no 5 33"));
    }
}

#[test]
fn a_free_slot_has_nothing_to_name() {
    let mut machine = used();
    // Never used, by its number and others.
    for number in [9, 25, 1_048_569] {
        go_on(&mut machine, &calls_of_tasks(number, "no 5 33"));
        go_on(&mut machine, &calls_of_objects(number, "no 5 33"));
    }
    // Given up: by the old number, and by the one that comes next.
    go_on(&mut machine, "2 2 -> ok 0 33\n12 33 -> ok 0 33");
    for (task, object) in [(2, 33), (18, 49)] {
        go_on(&mut machine, &calls_of_tasks(task, "no 5 33"));
        go_on(&mut machine, &calls_of_objects(object, "no 5 33"));
    }
}

#[test]
fn full_numbers_in_every_call() {
    let mut machine = used();
    go_on(
        &mut machine,
        "5 33 4 -> ok 0 33
         13 32 aa 0 -> ok 0 33
         14 32 0 -> ok 0 33
         15 33 0 -> ok 0 33
         16 33 -> ok 0 33
         3 33 -> ok 0 2
         4 33 -> ok 0 33
         12 32 -> ok 0 33
         12 33 -> ok 0 33
         2 33 -> ok 0 2
         1 9 -> ok 49 49
         10 1 0 -> ok 48 49
         11 -> ok 49 49",
    );
}

#[test]
fn a_task_number_is_no_object_number() {
    // 33 is task slot 1 and object slot 1 at use 2; after the remove it is a task alone.
    let mut machine = used();
    go_on(&mut machine, "12 33 -> ok 0 33\n15 33 0 -> no 5 33\n11 -> ok 49 33\n2 49 -> no 5 33\n2 33 -> ok 0 2");
}

#[test]
fn the_running_field_has_the_full_number() {
    let mut machine = used();
    go_on(
        &mut machine,
        "17 -> ok 0 33
         24 -> no 3 33
         6 1 -> wait 0 2
         6 1 -> wait 0 0
         17 -> ok 0 33
         2 33 -> ok 0 2
         1 3 -> ok 49 49",
    );
    assert_eq!(answers(b"1\t3\n2\t1\n1\t3\n1\t3"), b"ok\t1\t1\nok\t0\t0\nok\t17\t17\nno\t3\t17\n");
}

#[test]
fn the_store_goes_by_slots() {
    let mut machine = used();
    go_on(&mut machine, "13 32 aa 0 -> ok 0 33\n13 32 bb 0 -> ok 0 33\n13 32 cc 5 -> wait 0 2");
    assert_eq!(machine.store[..3], [0xaa, 0xbb, 0]);
    assert_eq!(slip(&machine, 1, 2), [0xcc, 0]);
    go_on(&mut machine, "14 32 0 -> ok 0 33");
    assert_eq!(slip(&machine, 2, 2), [0xaa, 0]);
    assert_eq!(machine.store[..3], [0xcc, 0xbb, 0]);
    let others = machine.store.iter().enumerate().filter(|&(at, &byte)| byte != 0 && at >= 2);
    assert_eq!(others.map(|(at, _)| at).collect::<Vec<_>>(), [8_192 + 64, 8_192 + 128]);
}

#[test]
fn what_the_last_one_left_is_gone() {
    // The queue had an item and the task an outcome; the next ones have neither.
    let mut machine = session(
        "10 2 1 -> ok 0 0
         13 0 aa 0 -> ok 0 0
         1 3 -> ok 1 1
         6 1 -> wait 0 0
         17 -> ok 0 1
         12 0 -> ok 0 1
         10 2 1 -> ok 16 1
         14 16 0 -> no 14 1
         2 1 -> ok 0 0",
    );
    assert_eq!(machine.kernel.tasks[1], model::kernel::Task::free(1));
    go_on(&mut machine, "1 3 -> ok 17 17");
    assert_eq!(machine.kernel.task(task(1)).outcome, model::kernel::Outcome::None);
}

#[test]
fn rows_before_and_after_5() {
    let mut machine = used();
    go_on(
        &mut machine,
        "5 17 32 -> no 4 33
         5 17 31 -> no 5 33
         13 16 aabb 0 -> no 5 33
         13 32 aabb 0 -> no 6 33
         14 33 0 -> no 5 33
         15 32 0 -> no 5 33
         8 -> ok 0 33
         14 16 1 -> no 5 33
         14 32 1 -> no 8 33
         2 1 -> no 5 33
         2 33 -> no 8 33
         9 -> ok 0 33
         3 33 -> ok 0 2
         3 2 -> ok 0 0
         15 17 0 -> no 5 0
         15 33 0 -> no 7 0
         14 0 1 -> no 5 0
         14 32 1 -> no 7 0
         4 17 -> no 5 0
         4 33 -> ok 0 33",
    );
}

#[test]
fn idle_is_number_0_for_ever() {
    let mut machine = used();
    for number in [16, 32, 1_048_560, 1_048_576, 4_294_967_280] {
        go_on(&mut machine, &calls_of_tasks(number, "no 5 33"));
    }
    go_on(&mut machine, "2 0 -> no 7 33\n3 0 -> no 7 33\n4 0 -> no 13 33\n5 0 0 -> ok 0 33\n5 0 1 -> no 7 33");
    go_on(&mut machine, "3 33 -> ok 0 2\n2 2 -> ok 0 0");
}

/// The fresh kernel, with these uses in slot 2 of both tables. No slot below can be taken then: task slot 1 and object
/// slots 0 and 1 are.
fn with_uses(uses: u32) -> Machine {
    let mut machine = Machine::new(true);
    machine.kernel.tasks[2].uses = uses;
    machine.kernel.objects[2].uses = uses;
    assert_eq!(soundness(&machine.kernel), Ok(()));
    go_on(&mut machine, "1 0 -> ok 1 0\n11 -> ok 0 0\n11 -> ok 1 0");
    machine
}

#[test]
fn the_last_use_and_after() {
    let mut machine = with_uses(65_534);
    go_on(&mut machine, "1 0 -> ok 1048546 0\n2 1048546 -> ok 0 0\n1 0 -> ok 1048562 0\n2 1048562 -> ok 0 0");
    go_on(&mut machine, "11 -> ok 1048546 0\n12 1048546 -> ok 0 0\n10 1 1 -> ok 1048562 0\n12 1048562 -> ok 0 0");
    assert_eq!(uses(&machine.kernel), (but_one(2, 65_536), but_one(2, 65_536)));
    assert!(machine.kernel.task(task(2)).is_free());
    assert_eq!(machine.kernel.object(object(2)).kind, Kind::Free);
    for number in [2, 18, 1_048_546, 1_048_562, 1_048_578] {
        go_on(&mut machine, &calls_of_tasks(number, "no 5 0"));
        go_on(&mut machine, &calls_of_objects(number, "no 5 0"));
    }
    // "not used again": the next slot is taken. "any other freed slot is".
    go_on(&mut machine, "1 0 -> ok 3 0\n11 -> ok 3 0\n2 1 -> ok 0 0\n12 0 -> ok 0 0");
    go_on(&mut machine, "1 0 -> ok 17 0\n10 1 1 -> ok 16 0\n1 0 -> ok 4 0\n11 -> ok 4 0");
}

#[test]
fn no_slot_that_may_still_be_used() {
    let mut machine = with_uses(65_536);
    for slot in 3..16 {
        go_on(&mut machine, &format!("1 0 -> ok {slot} 0\n11 -> ok {slot} 0"));
    }
    // Slot 2 is free, and 9 is given.
    go_on(
        &mut machine,
        "1 0 -> no 9 0\n1 32 -> no 4 0\n11 -> no 9 0\n10 1 1 -> no 9 0\n10 0 1 -> no 4 0\n19 -> no 9 0\n20 -> no 9 0",
    );
    go_on(&mut machine, "2 15 -> ok 0 0\n12 15 -> ok 0 0\n1 0 -> ok 31 0\n10 1 1 -> ok 31 0");
    go_on(&mut machine, "1 0 -> no 9 0\n11 -> no 9 0\n12 31 -> ok 0 0\n19 -> ok 47 0\n19 -> no 9 0");
    go_on(&mut machine, "12 47 -> ok 0 0\n20 -> ok 63 0\n20 -> no 9 0");
}

#[test]
fn all_slots_retired() {
    let mut machine = Machine::new(true);
    machine.kernel.tasks[1..].iter_mut().for_each(|slot| slot.uses = 65_535);
    machine.kernel.objects.iter_mut().for_each(|slot| slot.uses = 65_535);
    for slot in 1..16 {
        let number = 1_048_560 + slot;
        go_on(&mut machine, &format!("1 0 -> ok {number} 0\n2 {number} -> ok 0 0"));
    }
    for slot in 0..16 {
        let number = 1_048_560 + slot;
        go_on(&mut machine, &format!("11 -> ok {number} 0\n12 {number} -> ok 0 0"));
    }
    go_on(&mut machine, "1 0 -> no 9 0\n11 -> no 9 0\n10 1 1 -> no 9 0\n19 -> no 9 0\n20 -> no 9 0\n7 -> ok 0 0");
    assert!(machine.kernel.tasks[1..].iter().all(|slot| slot.is_free() && slot.uses == 65_536));
    assert!(machine.kernel.objects.iter().all(|slot| slot.is_free() && slot.uses == 65_536));
}

#[test]
fn a_slot_used_65536_times() {
    let mut machine = Machine::new(false);
    for uses in 0..65_536 {
        let number = 1 + 16 * uses;
        assert_eq!(made(&mut machine, &Call::Create { priority: 1 }), number);
        assert_eq!(machine.kernel.running_number(), number);
        assert_eq!(step(&mut machine.kernel, &mut machine.store, &Call::Delete { task: number }), Answer::Done);
        let number = 16 * uses;
        assert_eq!(made(&mut machine, &Call::MakeMutex), number);
        assert_eq!(step(&mut machine.kernel, &mut machine.store, &Call::Remove { object: number }), Answer::Done);
    }
    assert_eq!(made(&mut machine, &Call::Create { priority: 1 }), 2);
    assert_eq!(made(&mut machine, &Call::MakeMutex), 1);
    repeat(&mut machine, 3, "2 1048577 -> no 5 2");
    assert_eq!(soundness(&machine.kernel), Ok(()));
}

fn made(machine: &mut Machine, call: &Call) -> u32 {
    match step(&mut machine.kernel, &mut machine.store, call) {
        Answer::Made(number) => number,
        other => panic!("{call:?}: {other:?}"),
    }
}

#[test]
fn the_journal_that_retires_slots() {
    let journal = retire::journal();
    let answers = String::from_utf8(answers(&journal)).unwrap();
    let lines = answers.lines().count();
    assert_eq!(lines, journal.split_inclusive(|&byte| byte == b'\n').count());
    let count = |answer: &str| answers.lines().filter(|line| line.starts_with(answer)).count();
    // 65,536 times in and out, twice; 14 and 15 others; two used again. Nothing but 5 and 9 is refused.
    assert!(count("ok\t") > 4 * 65_536 + 14 + 15 + 2 * 2);
    assert!(count("no\t5\t") > 40_000);
    assert_eq!(count("no\t9\t"), 10);
    assert_eq!(count("ok\t") + count("no\t5\t") + count("no\t9\t"), lines);
    assert_eq!((count("ok\t1048561\t1048561"), count("ok\t1048575\t")), (1, 1));
    let none = "no\t9\t2\n".repeat(4);
    assert!(answers.ends_with(&format!("{none}ok\t0\t2\nok\t25\t2\n{none}")));
}
