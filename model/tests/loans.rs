//! Request 5, sentence by sentence: a loan goes along the chain of holders, and is worked out afresh.

mod common;

use common::{any_held_by, go_on, held_by, line_of, object, repeat, session, task};
use model::calls::{step, Answer, Call};
use model::chains::chain;
use model::check::{has_circle, soundness};
use model::journal::journal;
use model::kernel::{Kernel, ObjectSlot, Outcome, Role, Stand, TaskSlot};
use model::loans::{by_search, by_walks};
use model::machine::Machine;
use model::random::Random;

/// The effective priorities of these slots.
fn effective<const N: usize>(machine: &Machine, slots: [usize; N]) -> [u8; N] {
    slots.map(|slot| machine.kernel.task(task(slot)).effective)
}

fn own<const N: usize>(machine: &Machine, slots: [usize; N]) -> [u8; N] {
    slots.map(|slot| machine.kernel.task(task(slot)).own)
}

/// The request's chain: task 1, the tag task (2), holds mutex 0; task 2, the meter task (5), holds mutex 1 and waits on
/// mutex 0 for so many ticks; task 3, the record writer (9), waits on mutex 1. Task 1 runs.
fn parlour(meter_waits: u32, writer_waits: u32) -> Machine {
    session(&format!(
        "1 2 -> ok 1 1
         11 -> ok 0 1
         11 -> ok 1 1
         15 0 0 -> ok 0 1
         1 5 -> ok 2 2
         15 1 0 -> ok 0 2
         15 0 {meter_waits} -> wait 0 1
         1 9 -> ok 3 3
         15 1 {writer_waits} -> wait 0 1"
    ))
}

#[test]
fn the_tag_task_gets_the_record_writers_priority() {
    let mut machine = parlour(100, 100);
    assert_eq!(effective(&machine, [1, 2, 3]), [9, 9, 9]);
    assert_eq!(own(&machine, [1, 2, 3]), [2, 5, 9]);
    // Nobody below 9 gets in between. Each give hands the loan's end on.
    go_on(&mut machine, "1 8 -> ok 4 1\n16 0 -> ok 0 2");
    assert_eq!(effective(&machine, [1, 2, 3]), [2, 9, 9]);
    go_on(&mut machine, "16 1 -> ok 0 3");
    assert_eq!(effective(&machine, [1, 2, 3]), [2, 5, 9]);
    go_on(&mut machine, "16 1 -> ok 0 3\n6 5 -> wait 0 4");
}

#[test]
fn a_loan_ends_by_timeout_and_the_mutex_stays_held() {
    let mut machine = parlour(100, 2);
    go_on(&mut machine, "17 -> ok 0 1\n17 -> ok 0 3");
    assert_eq!(effective(&machine, [1, 2, 3]), [5, 5, 9]);
    assert_eq!(machine.kernel.object(object(1)).kind, held_by(2));
    assert_eq!(machine.kernel.task(task(3)).outcome, Outcome::TimeRanOut);
    // The running task was moved, and heads the line of 5; the next to come stands behind it.
    assert_eq!(line_of(&machine.kernel, 5), [1]);
    go_on(&mut machine, "1 5 -> ok 4 3\n3 3 -> ok 0 1\n7 -> ok 0 4");
}

#[test]
fn the_middle_of_a_chain_times_out() {
    // The meter task keeps what the record writer lends; the tag task gets nothing more.
    let mut machine = parlour(2, 100);
    go_on(&mut machine, "17 -> ok 0 1\n17 -> ok 0 2");
    assert_eq!(effective(&machine, [1, 2, 3]), [2, 9, 9]);
    assert_eq!(line_of(&machine.kernel, 9), [2]);
    // It waits again, and the loan goes on.
    go_on(&mut machine, "15 0 9 -> wait 0 1");
    assert_eq!(effective(&machine, [1, 2, 3]), [9, 9, 9]);
}

#[test]
fn suspension_and_deletion_of_a_waiter_take_its_loan() {
    for call in ["2 3", "3 3"] {
        let mut machine = parlour(100, 100);
        go_on(&mut machine, &format!("{call} -> ok 0 1"));
        assert_eq!(effective(&machine, [1, 2]), [5, 5], "{call}");
    }
    // In the middle; its own loan stays, and comes back to the tag task as it waits again.
    let mut machine = parlour(100, 100);
    go_on(&mut machine, "3 2 -> ok 0 1");
    assert_eq!(effective(&machine, [1, 2, 3]), [2, 9, 9]);
    go_on(&mut machine, "4 2 -> ok 0 2\n15 0 4294967295 -> wait 0 1");
    assert_eq!(effective(&machine, [1, 2, 3]), [9, 9, 9]);
    // One waiter of two, with another loan left.
    let mut machine = parlour(100, 100);
    go_on(&mut machine, "1 12 -> ok 4 4\n15 1 9 -> wait 0 1");
    assert_eq!(effective(&machine, [1, 2]), [12, 12]);
    go_on(&mut machine, "2 4 -> ok 0 1");
    assert_eq!(effective(&machine, [1, 2]), [9, 9]);
}

#[test]
fn a_delayed_and_a_suspended_holder_get_the_number() {
    for (call, back) in [("6 3", "17 -> ok 0 0\n17 -> ok 0 0\n17 -> ok 0 1"), ("3 1", "4 1 -> ok 0 1")] {
        let mut machine = session("1 2 -> ok 1 1\n11 -> ok 0 1\n15 0 0 -> ok 0 1");
        let answer = if call == "6 3" { "wait" } else { "ok" };
        go_on(&mut machine, &format!("{call} -> {answer} 0 0\n1 9 -> ok 2 2\n15 0 50 -> wait 0 0"));
        assert_eq!(effective(&machine, [1]), [9]);
        assert!(machine.kernel.lines[9].is_empty());
        go_on(&mut machine, back);
        assert_eq!(line_of(&machine.kernel, 9), [1]);
    }
}

#[test]
fn a_wait_on_a_queue_lends_nothing_and_ends_the_chain() {
    // Task 1 (2) holds mutex 0 and waits on queue 1; task 2 (5) waits there too, task 3 (9) on mutex 0.
    let machine = session(
        "11 -> ok 0 0
         10 1 1 -> ok 1 0
         1 2 -> ok 1 1
         15 0 0 -> ok 0 1
         14 1 9 -> wait 0 0
         1 5 -> ok 2 2
         14 1 9 -> wait 0 0
         1 9 -> ok 3 3
         15 0 9 -> wait 0 0",
    );
    assert_eq!(effective(&machine, [1, 2, 3]), [9, 5, 9]);
}

#[test]
fn first_waiter_goes_by_what_is_lent() {
    // Task 2 (5) waits on queue 1, and then task 1 (2), to which task 3 lends 9; or is set to lend 4.
    for (lent, first) in [(9, 1), (4, 2)] {
        let mut machine = session(
            "11 -> ok 0 0
             10 1 1 -> ok 1 0
             1 2 -> ok 1 1
             15 0 0 -> ok 0 1
             1 5 -> ok 2 2
             14 1 99 -> wait 0 1
             14 1 99 -> wait 0 0
             1 9 -> ok 3 3
             15 0 99 -> wait 0 0",
        );
        go_on(&mut machine, &format!("5 3 {lent} -> ok 0 0\n13 1 aa 0 -> ok 0 {first}"));
    }
}

/// How many tasks are on the circle of this task, if it is on one.
fn circle(kernel: &Kernel, task: TaskSlot) -> Option<usize> {
    chain(kernel, task).iter().position(|&holder| holder == task).map(|place| place + 1)
}

/// The running task closes a circle: it begins to wait on this mutex by hand, since its take is turned down. The kernel
/// is not sound then, and "a circle must still end".
fn close_by_hand(machine: &mut Machine, mutex: usize, wait: u32) {
    go_on(machine, &format!("15 {mutex} {wait} -> no 17 {}", machine.kernel.running_number()));
    machine.check = false;
    machine.kernel.wait_running(object(mutex), Role::Taker, wait);
    machine.kernel.work_out_loans();
    machine.kernel.choose();
}

/// Tasks 1 and 2 (3 and 4) hold mutexes 0 and 1, and wait on each other's: task 1 for so many ticks. Idle runs.
fn two_on_a_circle(first_waits: u32) -> Machine {
    let mut machine = session(
        "1 3 -> ok 1 1
         11 -> ok 0 1
         11 -> ok 1 1
         15 0 0 -> ok 0 1
         1 4 -> ok 2 2
         15 1 0 -> ok 0 2
         15 0 4294967295 -> wait 0 1",
    );
    close_by_hand(&mut machine, 1, first_waits);
    assert_eq!(machine.kernel.running, task(0));
    machine
}

#[test]
fn a_circle_of_two() {
    let mut machine = two_on_a_circle(4);
    assert_eq!(effective(&machine, [1, 2]), [4, 4]);
    assert_eq!((circle(&machine.kernel, task(1)), circle(&machine.kernel, task(2))), (Some(2), Some(2)));
    // Task 3 (9) waits before it, so both have 9; set lower, both have what is then the largest.
    go_on(&mut machine, "1 9 -> ok 3 3\n15 1 9 -> wait 0 0");
    assert_eq!(effective(&machine, [1, 2, 3]), [9, 9, 9]);
    go_on(&mut machine, "5 3 1 -> ok 0 0");
    assert_eq!(effective(&machine, [1, 2, 3]), [4, 4, 1]);
    go_on(&mut machine, "5 1 7 -> ok 0 0");
    assert_eq!(effective(&machine, [1, 2, 3]), [7, 7, 1]);
    go_on(&mut machine, "5 1 2 -> ok 0 0\n5 2 1 -> ok 0 0");
    assert_eq!(effective(&machine, [1, 2, 3]), [2, 2, 1]);
    // The wait of task 1 ends, and the circle with it: what task 2 lends stays.
    go_on(&mut machine, "5 2 6 -> ok 0 0");
    repeat(&mut machine, 3, "17 -> ok 0 0");
    go_on(&mut machine, "17 -> ok 0 1");
    machine.check = true;
    assert_eq!(effective(&machine, [1, 2, 3]), [6, 6, 1]);
    assert_eq!((chain(&machine.kernel, task(3)).len(), circle(&machine.kernel, task(2))), (2, None));
    go_on(&mut machine, "16 0 -> ok 0 2");
    assert_eq!(effective(&machine, [1, 2, 3]), [2, 6, 1]);
}

#[test]
fn a_circle_broken_by_suspension() {
    let mut machine = two_on_a_circle(4_294_967_295);
    go_on(&mut machine, "3 2 -> ok 0 0");
    assert_eq!(effective(&machine, [1, 2]), [3, 4]);
    let mut machine = two_on_a_circle(4_294_967_295);
    go_on(&mut machine, "3 1 -> ok 0 0");
    assert_eq!(effective(&machine, [1, 2]), [4, 4]);
    go_on(&mut machine, "4 1 -> ok 0 1\n2 2 -> no 10 1\n16 0 -> ok 0 2");
    assert_eq!(effective(&machine, [1, 2]), [3, 4]);
}

#[test]
fn a_circle_of_three() {
    // Task 1 waits on task 2's mutex, 2 on 3's, 3 on 1's.
    let mut machine = session(
        "11 -> ok 0 0
         11 -> ok 1 0
         11 -> ok 2 0
         1 3 -> ok 1 1
         15 0 0 -> ok 0 1
         1 4 -> ok 2 2
         15 1 0 -> ok 0 2
         1 5 -> ok 3 3
         15 2 0 -> ok 0 3
         15 0 50 -> wait 0 1
         3 1 -> ok 0 2
         15 2 50 -> wait 0 0
         4 1 -> ok 0 1",
    );
    close_by_hand(&mut machine, 1, 50);
    assert_eq!(effective(&machine, [1, 2, 3]), [5, 5, 5]);
    assert_eq!(circle(&machine.kernel, task(2)), Some(3));
    go_on(&mut machine, "5 2 8 -> ok 0 0");
    assert_eq!(effective(&machine, [1, 2, 3]), [8, 8, 8]);
    go_on(&mut machine, "5 2 0 -> ok 0 0");
    assert_eq!(effective(&machine, [1, 2, 3]), [5, 5, 5]);
}

/// Tasks 1 to 4 (1, 3, 5 and 7), each waiting on the mutex of the one before; task 1 runs beside task 5 (4).
fn three_links() -> Machine {
    session(
        "11 -> ok 0 0
         11 -> ok 1 0
         11 -> ok 2 0
         1 1 -> ok 1 1
         15 0 0 -> ok 0 1
         1 3 -> ok 2 2
         15 1 0 -> ok 0 2
         15 0 99 -> wait 0 1
         1 5 -> ok 3 3
         15 2 0 -> ok 0 3
         15 1 99 -> wait 0 1
         1 7 -> ok 4 4
         15 2 99 -> wait 0 1
         1 4 -> ok 5 1",
    )
}

#[test]
fn a_waiters_own_priority_travels_three_links() {
    let mut machine = three_links();
    assert_eq!(effective(&machine, [1, 2, 3, 4]), [7, 7, 7, 7]);
    go_on(&mut machine, "5 4 6 -> ok 0 1");
    assert_eq!(effective(&machine, [1, 2, 3, 4]), [6, 6, 6, 6]);
    assert_eq!((line_of(&machine.kernel, 7), line_of(&machine.kernel, 6)), (vec![], vec![1]));
    go_on(&mut machine, "5 4 2 -> ok 0 1");
    assert_eq!(effective(&machine, [1, 2, 3, 4]), [5, 5, 5, 2]);
    go_on(&mut machine, "5 3 2 -> ok 0 5");
    assert_eq!(effective(&machine, [1, 2, 3, 4]), [3, 3, 2, 2]);
    go_on(&mut machine, "5 4 31 -> ok 0 1");
    assert_eq!(effective(&machine, [1, 2, 3, 4]), [31, 31, 31, 31]);
    assert_eq!(own(&machine, [1, 2, 3, 4]), [1, 3, 2, 31]);
    go_on(&mut machine, "5 4 0 -> ok 0 5\n5 2 0 -> ok 0 5");
    assert_eq!(effective(&machine, [1, 2, 3, 4]), [2, 2, 2, 0]);
}

#[test]
fn a_running_task_moves_to_the_head_of_its_line() {
    // Task 1 runs with 7, and task 5 (4) is ready; set to 4, the loan brings task 1 before task 5.
    let mut machine = three_links();
    go_on(&mut machine, "5 3 1 -> ok 0 1\n5 4 4 -> ok 0 1");
    assert_eq!(line_of(&machine.kernel, 4), [1, 5]);
    // Up again, and by a waiter's suspension to 3, below task 5.
    go_on(&mut machine, "5 4 9 -> ok 0 1\n3 4 -> ok 0 5");
    assert_eq!((line_of(&machine.kernel, 4), line_of(&machine.kernel, 3)), (vec![5], vec![1]));
    // Not running, it comes to the tail.
    go_on(&mut machine, "5 3 4 -> ok 0 5");
    assert_eq!(line_of(&machine.kernel, 4), [5, 1]);
}

#[test]
fn under_a_hold_the_running_task_stays() {
    let mut machine = three_links();
    go_on(&mut machine, "8 -> ok 0 1\n3 2 -> ok 0 1");
    assert_eq!(effective(&machine, [1, 2, 3]), [1, 7, 7]);
    assert_eq!(line_of(&machine.kernel, 1), [1]);
    go_on(&mut machine, "9 -> ok 0 5");
}

/// Tasks 2 and 1 (2) hold mutexes 0 and 1, tasks 3 and 4 (6) wait on these for so many ticks: task 3 on task 2's first.
/// Task 5 (9) runs; in the line of 6 task 2 stands before task 1, and in the line of 2 stands task 6.
fn two_loans(first: u32, second: u32) -> Machine {
    let machine = session(&format!(
        "11 -> ok 0 0
         11 -> ok 1 0
         1 2 -> ok 1 1
         15 1 0 -> ok 0 1
         1 2 -> ok 2 1
         7 -> ok 0 2
         15 0 0 -> ok 0 2
         1 6 -> ok 3 3
         15 0 {first} -> wait 0 2
         1 6 -> ok 4 2
         7 -> ok 0 4
         15 1 {second} -> wait 0 2
         1 9 -> ok 5 5
         1 2 -> ok 6 5"
    ));
    assert_eq!((line_of(&machine.kernel, 6), line_of(&machine.kernel, 2)), (vec![2, 1], vec![6]));
    machine
}

#[test]
fn two_loans_that_end_on_one_tick() {
    // "tasks whose line changes move in order of task number": task 1 before task 2, though it stood behind.
    let mut machine = two_loans(2, 2);
    go_on(&mut machine, "17 -> ok 0 5\n17 -> ok 0 5");
    assert_eq!((line_of(&machine.kernel, 6), line_of(&machine.kernel, 2)), (vec![3, 4], vec![6, 1, 2]));
    // The same by a release, and within an advance.
    let mut machine = two_loans(2, 2);
    go_on(&mut machine, "8 -> ok 0 5\n17 -> ok 0 5\n17 -> ok 0 5\n17 -> ok 0 5\n9 -> ok 0 5");
    assert_eq!((line_of(&machine.kernel, 6), line_of(&machine.kernel, 2)), (vec![3, 4], vec![6, 1, 2]));
    let mut machine = two_loans(2, 2);
    go_on(&mut machine, "18 3 -> ok 0 5");
    assert_eq!((line_of(&machine.kernel, 6), line_of(&machine.kernel, 2)), (vec![3, 4], vec![6, 1, 2]));
}

#[test]
fn two_loans_that_end_one_after_the_other() {
    // Task 2's first: it comes before task 1, on ticks, on pended ticks and within an advance.
    for calls in ["17\n17\n17", "8\n17\n17\n17\n9", "18 3"] {
        let mut machine = two_loans(2, 3);
        go_on(&mut machine, &calls.lines().map(|call| format!("{call} -> ok 0 5\n")).collect::<String>());
        assert_eq!((line_of(&machine.kernel, 6), line_of(&machine.kernel, 2)), (vec![3, 4], vec![6, 2, 1]), "{calls}");
        assert_eq!(effective(&machine, [1, 2]), [2, 2]);
    }
}

#[test]
fn woken_as_its_loan_ends() {
    // Task 1 (2) holds the mutex and is delayed, task 2 (6) waits on it, task 3 (2) is delayed: all until tick 3. Task
    // 1 is made ready in the line of 6, and then moves behind task 3, which began last.
    let mut machine = session(
        "11 -> ok 0 0
         1 2 -> ok 1 1
         15 0 0 -> ok 0 1
         6 3 -> wait 0 0
         1 6 -> ok 2 2
         15 0 3 -> wait 0 0
         1 2 -> ok 3 3
         6 3 -> wait 0 0
         1 1 -> ok 4 4
         17 -> ok 0 4
         17 -> ok 0 4",
    );
    assert_eq!(effective(&machine, [1]), [6]);
    go_on(&mut machine, "17 -> ok 0 2");
    assert_eq!((line_of(&machine.kernel, 6), line_of(&machine.kernel, 2)), (vec![2], vec![3, 1]));
}

#[test]
fn turns_and_moves_on_one_tick() {
    // The line of 9 turns while two loans of 6 end below it.
    let mut machine = two_loans(2, 2);
    go_on(&mut machine, "1 9 -> ok 7 5\n17 -> ok 0 7\n17 -> ok 0 5");
    assert_eq!((line_of(&machine.kernel, 9), line_of(&machine.kernel, 2)), (vec![5, 7], vec![6, 1, 2]));
    // The running task's own loan ends: whoever lent is above it then, so that it heads its new line, and no line turns.
    let mut machine = session(
        "11 -> ok 0 0
         1 4 -> ok 1 1
         15 0 0 -> ok 0 1
         1 6 -> ok 2 2
         15 0 2 -> wait 0 1
         1 4 -> ok 3 1
         17 -> ok 0 1
         17 -> ok 0 2",
    );
    assert_eq!((line_of(&machine.kernel, 6), line_of(&machine.kernel, 4)), (vec![2], vec![1, 3]));
    go_on(&mut machine, "3 2 -> ok 0 1\n17 -> ok 0 3");
}

#[test]
fn a_mutex_handed_on_while_another_waits() {
    // Task 3 (29) gets the mutex, and task 2 (11) still waits; set to 10, task 3 has 11.
    let mut machine = session(
        "11 -> ok 0 0
         1 5 -> ok 1 1
         15 0 0 -> ok 0 1
         1 11 -> ok 2 2
         15 0 50 -> wait 0 1
         1 29 -> ok 3 3
         15 0 50 -> wait 0 1
         16 0 -> ok 0 3",
    );
    assert_eq!(effective(&machine, [1, 2, 3]), [5, 11, 29]);
    go_on(&mut machine, "5 3 10 -> ok 0 3");
    assert_eq!(effective(&machine, [1, 2, 3]), [5, 11, 11]);
    go_on(&mut machine, "16 0 -> ok 0 2");
    assert_eq!((effective(&machine, [1, 2, 3]), own(&machine, [3])), ([5, 11, 10], [10]));
}

#[test]
fn a_waiter_set_lower_and_another_that_comes() {
    // Task 1 (7) holds; task 2 (20) waits and is set to 3; then task 3 (8) waits: 8, not 20.
    let mut machine = session(
        "11 -> ok 0 0
         1 7 -> ok 1 1
         15 0 0 -> ok 0 1
         1 20 -> ok 2 2
         15 0 50 -> wait 0 1",
    );
    assert_eq!(effective(&machine, [1]), [20]);
    go_on(&mut machine, "5 2 3 -> ok 0 1");
    assert_eq!(effective(&machine, [1]), [7]);
    go_on(&mut machine, "1 8 -> ok 3 3\n15 0 50 -> wait 0 1");
    assert_eq!(effective(&machine, [1, 2, 3]), [8, 3, 8]);
    go_on(&mut machine, "16 0 -> ok 0 3");
    assert_eq!(effective(&machine, [1, 2, 3]), [7, 3, 8]);
}

#[test]
fn a_take_refused_lends_nothing() {
    let mut machine = parlour(100, 100);
    go_on(&mut machine, "1 20 -> ok 4 4\n15 0 0 -> no 14 4\n15 1 0 -> no 14 4");
    assert_eq!(effective(&machine, [1, 2]), [9, 9]);
}

/// The rule a third way: round by round, each holder gets the largest that its waiters have; a chain has at most as many
/// links as there are tasks.
fn by_rounds(kernel: &Kernel) -> [u8; 16] {
    let mut effective = kernel.tasks.map(|task| task.own);
    for _ in 0..16 {
        let last = effective;
        for object in &kernel.objects {
            if let Some(holder) = object.holder() {
                let most = object.waiters.iter().map(|waiter| last[waiter.index()]).max().unwrap_or(0);
                effective[holder.index()] = effective[holder.index()].max(most);
            }
        }
    }
    effective
}

#[test]
fn three_ways_on_random_journals() {
    let (mut lent, mut over_links) = (0, 0);
    for seed in 5_000..5_060 {
        let mut machine = Machine::new(false);
        for line in journal(seed, 2_000).split_inclusive(|&byte| byte == b'\n') {
            machine.answer(line);
            let kernel = &machine.kernel;
            let effective = kernel.tasks.map(|task| task.effective);
            assert_eq!(effective, by_search(kernel), "seed {seed}");
            assert_eq!(effective, by_walks(kernel, |_| true), "seed {seed}");
            assert_eq!(effective, by_rounds(kernel), "seed {seed}");
            lent += u32::from(kernel.tasks.iter().any(|task| task.effective > task.own));
            over_links += u32::from(TaskSlot::all().any(|task| chain(kernel, task).len() > 2));
        }
    }
    assert!(lent > 20_000 && over_links > 3_000, "{lent} {over_links}");
}

/// Any tasks that hold any mutexes, and wait on any that another holds.
fn tangle(random: &mut Random) -> Kernel {
    let mut kernel = Kernel::fresh();
    let tasks: Vec<TaskSlot> = TaskSlot::all().skip(1).collect();
    for &task in &tasks {
        kernel.task_mut(task).own = random.below(32) as u8;
        kernel.task_mut(task).stand = Stand::Suspended;
    }
    for object in ObjectSlot::all() {
        kernel.object_mut(object).kind = any_held_by(random.pick(&tasks), random);
    }
    let objects: Vec<ObjectSlot> = ObjectSlot::all().collect();
    let percent = random.pick(&[30, 60, 90, 100]);
    for &task in &tasks {
        let object = random.pick(&objects);
        if random.percent(percent) && kernel.object(object).holder() != Some(task) {
            kernel.task_mut(task).stand = Stand::Waiting { object, role: Role::Taker, wake: None };
            kernel.object_mut(object).waiters.push(task);
            kernel.began.push(task);
        }
    }
    kernel
}

/// Tangles that no journal reaches in few lines, or at all: the three ways agree, and a call works them out and leaves
/// a kernel that is sound but for a circle.
#[test]
fn three_ways_on_tangles() {
    let mut random = Random::new(5);
    let (mut longest, mut largest, mut sound) = (0, 0, 0);
    for _ in 0..20_000 {
        let mut kernel = tangle(&mut random);
        let effective = by_search(&kernel);
        assert_eq!(effective, by_walks(&kernel, |_| true));
        assert_eq!(effective, by_rounds(&kernel));
        longest = longest.max(TaskSlot::all().map(|task| chain(&kernel, task).len()).max().unwrap());
        largest = largest.max(TaskSlot::all().filter_map(|task| circle(&kernel, task)).max().unwrap_or(0));
        assert_eq!(step(&mut kernel, &mut [0; 9_216], &Call::Hold), Answer::Done);
        assert_eq!(kernel.tasks.map(|task| task.effective), effective);
        assert_eq!(has_circle(&kernel), TaskSlot::all().any(|task| circle(&kernel, task).is_some()));
        let verdict = if has_circle(&kernel) { Err("there is no circle".to_string()) } else { Ok(()) };
        assert_eq!(soundness(&kernel), verdict);
        sound += u32::from(verdict.is_ok());
    }
    assert!(longest > 8 && largest > 5 && sound > 2_000, "{longest} {largest} {sound}");
}
