//! Request 6, sentence by sentence: a take is turned down exactly if it would close a circle.

mod common;

use common::{any_held_by, go_on, line_of, object, repeat, session, task};
use model::calls::{step, Answer, Call};
use model::check::{has_circle, soundness};
use model::journal::journal;
use model::kernel::{Kernel, Kind, Mutex, ObjectSlot, Outcome, Role, Stand, Task, TaskSlot, FOR_EVER};
use model::line::{read_call, ITEM_BYTES};
use model::machine::Machine;
use model::random::Random;
use model::refusals::{refusal, refusal_by_rows};

/// No wait, one tick, the longest that ends, and for ever.
const WAITS: [u32; 4] = [0, 1, 4_294_967_294, 4_294_967_295];

/// The running task is turned down by 17 for this mutex, whatever the wait, and nothing changes.
fn turned_down(machine: &mut Machine, mutex: u32) {
    let (kernel, store) = (machine.kernel.clone(), machine.store.clone());
    for wait in WAITS {
        go_on(machine, &format!("15 {mutex} {wait} -> no 17 {}", kernel.running_number()));
    }
    assert!(machine.kernel == kernel && machine.store == store);
}

/// The request's two: task 1, the washer (3), holds mutex 0, and task 2, the record writer (4), holds mutex 1 and waits
/// on mutex 0 for so many ticks. Task 1 runs.
fn two(writer_waits: u32) -> Machine {
    session(&format!(
        "1 3 -> ok 1 1
         11 -> ok 0 1
         11 -> ok 1 1
         15 0 0 -> ok 0 1
         1 4 -> ok 2 2
         15 1 0 -> ok 0 2
         15 0 {writer_waits} -> wait 0 1"
    ))
}

/// Tasks 1 to `tasks` (with these priorities), each holding a mutex, 0 and so on, and each but task 1 waiting for ever on
/// the mutex of the one before. Task 1 runs.
fn ladder(tasks: u32) -> Machine {
    let mut machine = session("1 1 -> ok 1 1\n11 -> ok 0 1\n15 0 0 -> ok 0 1");
    for number in 2..=tasks {
        let (own, before) = (number - 1, number - 2);
        go_on(&mut machine, &format!("1 {number} -> ok {number} {number}\n11 -> ok {own} {number}"));
        go_on(&mut machine, &format!("15 {own} 0 -> ok 0 {number}\n15 {before} 4294967295 -> wait 0 1"));
    }
    machine
}

#[test]
fn a_circle_of_two() {
    let mut machine = two(100);
    turned_down(&mut machine, 1);
    // The washer gives what it holds, and both go on.
    go_on(&mut machine, "16 0 -> ok 0 2\n16 0 -> ok 0 2\n16 1 -> ok 0 2\n6 5 -> wait 0 1");
    go_on(&mut machine, "15 1 100 -> ok 0 1\n15 0 100 -> ok 0 1");
}

#[test]
fn a_circle_of_three() {
    let mut machine = ladder(3);
    turned_down(&mut machine, 2);
    turned_down(&mut machine, 1);
    // Task 1 gives, and task 2 runs, for which task 3 waits.
    go_on(&mut machine, "16 0 -> ok 0 2");
    turned_down(&mut machine, 2);
    go_on(&mut machine, "16 1 -> ok 0 3");
    // Nobody waits for task 3, so it may wait for task 2.
    go_on(&mut machine, "15 0 9 -> wait 0 2");
    turned_down(&mut machine, 2);
}

#[test]
fn a_circle_of_all_fifteen_tasks() {
    let mut machine = ladder(15);
    for mutex in (1..15).rev() {
        turned_down(&mut machine, mutex);
    }
    // Each in turn gives its first mutex to the next, which cannot wait for any behind it.
    for number in 1..15 {
        go_on(&mut machine, &format!("16 {} -> ok 0 {}", number - 1, number + 1));
        for mutex in number + 1..15 {
            turned_down(&mut machine, mutex);
        }
    }
}

#[test]
fn a_chain_of_all_fifteen_tasks_is_no_circle() {
    for own in ["", "11 -> ok 14 15\n15 14 0 -> ok 0 15"] {
        let mut machine = ladder(14);
        go_on(&mut machine, "1 15 -> ok 15 15");
        go_on(&mut machine, own);
        go_on(&mut machine, "15 13 0 -> no 14 15\n15 0 0 -> no 14 15\n15 13 100 -> wait 0 1");
        assert!((1..16).all(|slot| machine.kernel.task(task(slot)).effective == 15));
    }
}

/// Task 1 holds mutex 0 and rests, task 2 holds mutex 1 and waits on mutex 0; task 3 holds mutex 2. All but task 1 can
/// wait for it.
#[test]
fn a_chain_to_a_task_at_rest() {
    for (rest, word) in [("6 50", "wait"), ("3 1", "ok"), ("14 3 50", "wait"), ("14 3 4294967295", "wait")] {
        let mut machine = session("11 -> ok 0 0\n11 -> ok 1 0\n11 -> ok 2 0\n10 1 1 -> ok 3 0");
        go_on(&mut machine, &format!("1 3 -> ok 1 1\n15 0 0 -> ok 0 1\n{rest} -> {word} 0 0"));
        go_on(&mut machine, "1 4 -> ok 2 2\n15 1 0 -> ok 0 2\n15 0 99 -> wait 0 0");
        go_on(&mut machine, "1 5 -> ok 3 3\n15 2 0 -> ok 0 3\n15 1 99 -> wait 0 0");
        assert_eq!(machine.kernel.task(task(1)).effective, 5, "{rest}");
        // Back again, it cannot wait for them.
        match rest {
            "3 1" => go_on(&mut machine, "4 1 -> ok 0 1"),
            "6 50" => go_on(&mut machine, "18 50 -> ok 0 1"),
            _ => go_on(&mut machine, "13 3 aa 0 -> ok 0 1"),
        }
        turned_down(&mut machine, 1);
        turned_down(&mut machine, 2);
    }
}

#[test]
fn a_wait_on_a_queue_is_no_link() {
    // Task 2 holds mutex 1 and waits on queue 2, to which only task 1 would send; task 1 may wait for it all the same.
    session(
        "1 3 -> ok 1 1
         11 -> ok 0 1
         11 -> ok 1 1
         10 1 1 -> ok 2 1
         15 0 0 -> ok 0 1
         1 4 -> ok 2 2
         15 1 0 -> ok 0 2
         14 2 4294967295 -> wait 0 1
         15 1 0 -> no 14 1
         15 1 9 -> wait 0 0",
    );
}

#[test]
fn two_wait_on_one_mutex() {
    // Tasks 2 and 3 hold mutexes 1 and 2, and wait on mutex 0 of task 1; task 4 holds mutex 3 and waits on task 2's.
    let mut machine = session(
        "1 3 -> ok 1 1
         11 -> ok 0 1
         11 -> ok 1 1
         11 -> ok 2 1
         11 -> ok 3 1
         15 0 0 -> ok 0 1
         1 4 -> ok 2 2
         15 1 0 -> ok 0 2
         15 0 99 -> wait 0 1
         1 5 -> ok 3 3
         15 2 0 -> ok 0 3
         15 0 99 -> wait 0 1
         1 6 -> ok 4 4
         15 3 0 -> ok 0 4
         15 1 99 -> wait 0 1",
    );
    for mutex in [1, 2, 3, 1, 2, 3] {
        turned_down(&mut machine, mutex);
    }
    // Without task 3 the way over task 2 is left, and without that none is.
    go_on(&mut machine, "3 3 -> ok 0 1\n15 2 0 -> no 14 1");
    turned_down(&mut machine, 1);
    turned_down(&mut machine, 3);
    go_on(&mut machine, "3 2 -> ok 0 1\n15 1 0 -> no 14 1\n15 3 9 -> wait 0 0");
}

#[test]
fn a_link_made_by_a_give() {
    // Tasks 2 and 3 (4 and 5) wait on mutex 0, and task 2 holds mutex 1. Task 3 gets mutex 0, so task 2 waits for it.
    let mut machine = two(100);
    go_on(&mut machine, "1 5 -> ok 3 3\n15 0 100 -> wait 0 1\n16 0 -> ok 0 3");
    turned_down(&mut machine, 1);
    // Task 1 holds nothing, so it may wait for either.
    go_on(&mut machine, "6 1 -> wait 0 1\n15 1 0 -> no 14 1\n15 0 0 -> no 14 1\n15 1 5 -> wait 0 0");
}

#[test]
fn a_chain_that_ends_at_another_task() {
    // Task 1 holds mutex 0, on which task 2 waits, which holds mutex 1. Task 3 holds mutex 2, on which task 4 waits,
    // which holds mutex 3. Task 1 may wait for task 4, though it has a waiter; then task 3 may not wait for task 2.
    let mut machine = two(100);
    go_on(
        &mut machine,
        "11 -> ok 2 1
         11 -> ok 3 1
         1 6 -> ok 3 3
         15 2 0 -> ok 0 3
         1 7 -> ok 4 4
         15 3 0 -> ok 0 4
         15 2 100 -> wait 0 3
         6 5 -> wait 0 1
         15 3 0 -> no 14 1
         15 3 100 -> wait 0 0
         18 5 -> ok 0 3",
    );
    turned_down(&mut machine, 0);
    turned_down(&mut machine, 1);
    turned_down(&mut machine, 3);
    go_on(&mut machine, "15 2 0 -> no 12 3");
}

#[test]
fn a_free_mutex_is_no_circle() {
    for wait in WAITS {
        let mut machine = two(100);
        go_on(&mut machine, &format!("11 -> ok 2 1\n15 2 {wait} -> ok 0 1"));
        turned_down(&mut machine, 1);
    }
}

#[test]
fn the_rows_before_it() {
    // 12: the holder takes again, with a waiter on the mutex.
    let mut machine = two(100);
    for wait in WAITS {
        go_on(&mut machine, &format!("15 0 {wait} -> no 12 1"));
    }
    // 8: any wait other than 0 with a hold; wait 0 is 17 there, and of its own mutex 12.
    go_on(&mut machine, "8 -> ok 0 1\n15 1 0 -> no 17 1\n15 0 0 -> no 12 1");
    for wait in &WAITS[1..] {
        go_on(&mut machine, &format!("15 1 {wait} -> no 8 1\n15 0 {wait} -> no 8 1"));
    }
    go_on(&mut machine, "9 -> ok 0 1");
    turned_down(&mut machine, 1);
    // 5: the number names no mutex. 2: the store.
    go_on(&mut machine, "10 1 1 -> ok 2 1\n15 2 0 -> no 5 1\n15 17 0 -> no 5 1\n15 9 0 -> no 5 1");
    let take = Call::Take { object: 1, wait: 0 };
    assert_eq!(step(&mut machine.kernel, &mut [0; 9_215], &take), Answer::Refused(2));
    // 7: idle's take, whatever the mutex.
    go_on(&mut machine, "6 1 -> wait 0 0\n15 1 0 -> no 7 0\n15 0 0 -> no 7 0");
}

#[test]
fn it_stands_before_14() {
    // A third task is told 14 where the washer is told 17.
    let mut machine = two(100);
    go_on(&mut machine, "15 1 0 -> no 17 1\n1 9 -> ok 3 3\n15 1 0 -> no 14 3\n15 0 0 -> no 14 3");
}

#[test]
fn after_a_timeout_the_take_is_accepted() {
    const BY_TICKS: &str = "17 -> ok 0 1\n17 -> ok 0 1\n15 1 9 -> no 17 1\n17 -> ok 0 2";
    const BY_ADVANCES: &str = "18 2 -> ok 0 1\n15 1 9 -> no 17 1\n18 1 -> ok 0 2";
    // Pended ticks end no wait before the release.
    const BY_A_RELEASE: &str = "8 -> ok 0 1\n17 -> ok 0 1\n17 -> ok 0 1\n17 -> ok 0 1\n15 1 0 -> no 17 1\n9 -> ok 0 2";
    for calls in [BY_TICKS, BY_ADVANCES, BY_A_RELEASE] {
        let mut machine = two(3);
        go_on(&mut machine, calls);
        assert_eq!(machine.kernel.task(task(2)).outcome, Outcome::TimeRanOut);
        // The washer may wait for the record writer now, and then not the other way round.
        go_on(&mut machine, "6 2 -> wait 0 1\n15 1 0 -> no 14 1\n15 1 9 -> wait 0 0\n18 2 -> ok 0 2");
        turned_down(&mut machine, 0);
    }
}

#[test]
fn after_a_suspension_the_take_is_accepted() {
    let mut machine = two(100);
    go_on(&mut machine, "3 2 -> ok 0 1\n15 1 0 -> no 14 1\n15 1 9 -> wait 0 0\n4 2 -> ok 0 2");
    turned_down(&mut machine, 0);
    // In the middle of a longer chain: what lies behind it leads to task 1 no more, what lies before it does.
    let mut machine = ladder(6);
    go_on(&mut machine, "3 4 -> ok 0 1\n15 3 0 -> no 14 1\n15 4 0 -> no 14 1\n15 5 0 -> no 14 1");
    turned_down(&mut machine, 1);
    turned_down(&mut machine, 2);
    go_on(&mut machine, "15 5 9 -> wait 0 0");
}

/// A link holds a mutex, so that it is deleted only once it has given that.
#[test]
fn after_a_deletion_the_take_is_accepted() {
    let mut machine = two(100);
    go_on(&mut machine, "2 2 -> no 10 1");
    turned_down(&mut machine, 1);
    go_on(&mut machine, "3 2 -> ok 0 1\n4 2 -> ok 0 2\n16 1 -> ok 0 2\n2 2 -> ok 0 1\n15 1 9 -> ok 0 1");
    // The slot's next task is no link.
    go_on(&mut machine, "16 1 -> ok 0 1\n1 5 -> ok 18 18\n15 1 0 -> ok 0 18\n3 18 -> ok 0 1\n15 1 9 -> wait 0 0");
}

#[test]
fn after_a_give_the_take_is_accepted() {
    // Task 1 holds mutexes 0 and 2, and task 2 waits on mutex 0 alone: given that, task 1 may wait for task 2.
    let mut machine = two(100);
    go_on(&mut machine, "11 -> ok 2 1\n15 2 0 -> ok 0 1");
    turned_down(&mut machine, 1);
    go_on(&mut machine, "16 2 -> ok 0 1");
    turned_down(&mut machine, 1);
    go_on(&mut machine, "16 0 -> ok 0 2\n6 3 -> wait 0 1\n15 1 9 -> wait 0 0");
}

#[test]
fn slots_used_again() {
    let mut machine = session(
        "1 3 -> ok 1 1
         2 1 -> ok 0 0
         11 -> ok 0 0
         12 0 -> ok 0 0
         1 3 -> ok 17 17
         11 -> ok 16 17
         11 -> ok 1 17
         15 16 0 -> ok 0 17
         1 4 -> ok 2 2
         15 1 0 -> ok 0 2
         15 16 99 -> wait 0 17
         15 0 0 -> no 5 17
         15 16 0 -> no 12 17",
    );
    turned_down(&mut machine, 1);
}

#[test]
fn a_take_turned_down_begins_and_lends_nothing() {
    let mut machine = two(100);
    go_on(&mut machine, "5 1 20 -> ok 0 1");
    turned_down(&mut machine, 1);
    assert_eq!(machine.kernel.task(task(2)).effective, 4);
    assert_eq!((machine.kernel.began.len(), line_of(&machine.kernel, 20)), (1, vec![1]));
    repeat(&mut machine, 50, "17 -> ok 0 1");
    turned_down(&mut machine, 1);
}

/// Who waits for whom over any number of links, by the closure of the table of single ones.
fn waits_for(kernel: &Kernel) -> [[bool; 16]; 16] {
    let mut table = [[false; 16]; 16];
    for mutex in &kernel.objects {
        if let Some(holder) = mutex.holder() {
            for waiter in &mutex.waiters {
                table[waiter.index()][holder.index()] = true;
            }
        }
    }
    for over in 0..16 {
        for from in 0..16 {
            for to in 0..16 {
                table[from][to] |= table[from][over] && table[over][to];
            }
        }
    }
    table
}

/// Whether the running task would wait for itself if it waited on this mutex.
fn would_wait_for_itself(kernel: &Kernel, mutex: ObjectSlot) -> bool {
    let mut tried = kernel.clone();
    tried.wait_running(mutex, Role::Taker, FOR_EVER);
    let caller = kernel.running.index();
    waits_for(&tried)[caller][caller]
}

#[test]
fn exactly_if_on_random_journals() {
    let (mut refused, mut accepted) = (0, 0);
    for seed in 6_000..6_060 {
        let mut machine = Machine::new(false);
        for line in journal(seed, 2_000).split_inclusive(|&byte| byte == b'\n') {
            let before = machine.kernel.clone();
            let answer = machine.answer(line);
            assert!(!has_circle(&machine.kernel) && (0..16).all(|slot| !waits_for(&machine.kernel)[slot][slot]));
            let mut item = [0; ITEM_BYTES];
            let Some(Call::Take { object, .. }) = read_call(line, &mut item) else { continue };
            let holder = before.find_mutex(object).and_then(|(_, mutex)| mutex.holder);
            if matches!(answer, Answer::Refused(2..=12)) || holder.is_none_or(|holder| holder == before.running) {
                assert_ne!(answer, Answer::Refused(17));
                continue;
            }
            let (mutex, _) = before.find_mutex(object).unwrap();
            let circle = would_wait_for_itself(&before, mutex);
            assert_eq!(answer == Answer::Refused(17), circle, "seed {seed}");
            refused += u32::from(circle);
            accepted += u32::from(!circle);
        }
    }
    assert!(refused > 150 && accepted > 3_000, "{refused} {accepted}");
}

/// Any tasks that hold any mutexes and wait on any of them, so that no circle stands; the first task runs.
fn tangle(random: &mut Random) -> Kernel {
    let mut kernel = Kernel::fresh();
    let tasks: Vec<TaskSlot> = TaskSlot::all().skip(1).collect();
    for &task in &tasks {
        let own = random.between(1, 31) as u8;
        *kernel.task_mut(task) = Task { own, effective: own, stand: Stand::Suspended, ..Task::free(0) };
    }
    for object in ObjectSlot::all() {
        let free = random.percent(10);
        let holder = random.pick(&tasks);
        kernel.object_mut(object).kind =
            if free { Kind::Mutex(Mutex::free(random.percent(50))) } else { any_held_by(holder, random) };
    }
    let objects: Vec<ObjectSlot> = ObjectSlot::all().collect();
    for _ in 0..40 {
        let (task, mutex) = (random.pick(&tasks[1..]), random.pick(&objects));
        if kernel.task(task).stand == Stand::Suspended && kernel.object(mutex).holder().is_some() {
            kernel.running = task;
            kernel.make_ready(task);
            if would_wait_for_itself(&kernel, mutex) {
                kernel.leave_line(task);
                kernel.task_mut(task).stand = Stand::Suspended;
            } else {
                kernel.wait_running(mutex, Role::Taker, FOR_EVER);
            }
        }
    }
    kernel.make_ready(tasks[0]);
    kernel.running = tasks[0];
    kernel.work_out_loans();
    kernel
}

/// Tangles that no journal reaches in few lines: both readings of the table give 17 exactly if the caller would wait for
/// itself, with 12 and 18 before and 14 after it.
#[test]
fn exactly_if_on_tangles() {
    let mut random = Random::new(6);
    let (mut refused, mut others, mut full) = (0, 0, 0);
    for _ in 0..2_000 {
        let kernel = tangle(&mut random);
        assert_eq!(soundness(&kernel), Ok(()));
        for mutex in ObjectSlot::all() {
            let call = Call::Take { object: kernel.object_number(mutex), wait: 0 };
            let (_, asked) = kernel.find_mutex(kernel.object_number(mutex)).unwrap();
            let wanted = match asked.holder {
                None => None,
                Some(holder) if holder == kernel.running => match (asked.recursive, asked.count) {
                    (false, _) => Some(12),
                    (true, 255) => Some(18),
                    (true, _) => None,
                },
                Some(_) if would_wait_for_itself(&kernel, mutex) => Some(17),
                Some(_) => Some(14),
            };
            assert_eq!(refusal(&kernel, &[0; 9_216], &call), wanted);
            assert_eq!(refusal_by_rows(&kernel, &[0; 9_216], &call), wanted);
            refused += u32::from(wanted == Some(17));
            others += u32::from(wanted == Some(14));
            full += u32::from(wanted == Some(18));
        }
    }
    assert!(refused > 3_000 && others > 3_000 && full > 150, "{refused} {others} {full}");
}

/// In a kernel made by hand with a circle the chain of a take must still end, on the circle or before it.
#[test]
fn a_chain_into_a_circle_ends() {
    let mut machine = two(100);
    machine.kernel.wait_running(object(1), Role::Taker, FOR_EVER);
    machine.kernel.work_out_loans();
    machine.kernel.choose();
    assert!(has_circle(&machine.kernel));
    machine.check = false;
    go_on(&mut machine, "1 9 -> ok 3 3\n15 0 0 -> no 14 3\n15 1 0 -> no 14 3\n15 1 9 -> wait 0 0");
}
