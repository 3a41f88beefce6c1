//! Request 4, sentence by sentence: an advance of n is n single ticks one by one.

mod common;

use common::{answers, go_on, line_of, object, order_of, repeat, session, task};
use model::calls::{jump, single_ticks, step, Answer, Call};
use model::check::soundness;
use model::filter;
use model::journal::journal;
use model::kernel::{Kernel, Outcome, Stand, TaskSlot};
use model::machine::Machine;
use model::random::Random;
use model::wrap;

const STORE: [u8; 9_216] = [0x5a; 9_216];

/// The kernel after this call, which is done and leaves the store as it was.
fn after(kernel: &Kernel, call: Call) -> Kernel {
    let (mut kernel, mut store) = (kernel.clone(), STORE);
    assert_eq!(step(&mut kernel, &mut store, &call), Answer::Done, "{call:?}");
    assert_eq!(store, STORE);
    kernel
}

fn advanced(kernel: &Kernel, ticks: u32) -> Kernel {
    after(kernel, Call::Advance { ticks })
}

fn ticked(kernel: &Kernel, ticks: u32) -> Kernel {
    (0..ticks).fold(kernel.clone(), |kernel, _| after(&kernel, Call::Tick))
}

/// Kernels that random journals reach, with hold 0 or not.
fn on_the_way(seeds: std::ops::Range<u64>, mut look: impl FnMut(&Kernel, &mut Random)) {
    for seed in seeds {
        let mut random = Random::new(seed);
        let mut machine = Machine::new(false);
        for line in journal(seed, 1_500).split_inclusive(|&byte| byte == b'\n') {
            machine.answer(line);
            if random.percent(12) {
                look(&machine.kernel, &mut random);
            }
        }
    }
}

/// The same kernel, so many ticks later or earlier: the count and all wake ticks are moved.
fn moved(kernel: &Kernel, by: u32) -> Kernel {
    let mut kernel = kernel.clone();
    kernel.tick = kernel.tick.wrapping_add(by);
    for slot in &mut kernel.tasks {
        if let Stand::Delayed { wake } | Stand::Waiting { wake: Some(wake), .. } = &mut slot.stand {
            *wake = wake.wrapping_add(by);
        }
    }
    kernel
}

/// A number of ticks for this kernel, seldom a large one.
fn some_ticks(kernel: &Kernel, random: &mut Random) -> u32 {
    let near: Vec<u32> = TaskSlot::all().filter_map(|task| kernel.distance(task)).filter(|&left| left < 300).collect();
    let line = kernel.running_line().len() as u32;
    match random.below(100) {
        0..=39 if !near.is_empty() => (random.pick(&near) + random.below(3)).saturating_sub(1).max(1),
        40..=64 => (line * random.between(1, 5) + random.below(3)).saturating_sub(1).max(1),
        65..=69 => random.between(100, 999),
        70 => random.pick(&[65_534, 65_535]),
        _ => random.between(1, 20),
    }
}

#[test]
fn the_result_is_that_of_single_ticks() {
    let (mut compared, mut jumps, mut turns, mut wakes) = (0, 0, 0, 0);
    on_the_way(4_000..4_060, |kernel, random| {
        if kernel.hold > 0 {
            return;
        }
        let ticks = some_ticks(kernel, random);
        // Where it is, and with the count's return to 0 on one of the ticks.
        let to_0 = 0u32.wrapping_sub(kernel.tick).wrapping_sub(random.between(1, ticks));
        for kernel in [kernel.clone(), moved(kernel, to_0)] {
            let result = advanced(&kernel, ticks);
            let one_by_one = if ticks < 1_000 { ticked(&kernel, ticks) } else { single(&kernel, ticks) };
            assert_eq!(result, one_by_one, "{ticks} ticks from {kernel:?}");
            assert_eq!(result.tick, kernel.tick.wrapping_add(ticks));
            assert_eq!(soundness(&result), Ok(()));
            compared += 1;
            let alone = kernel.running_line().len() == 1;
            let woken = kernel.began.len() > result.began.len();
            jumps += u32::from(alone && !woken && ticks > 1);
            turns += u32::from(!alone);
            wakes += u32::from(woken);
        }
        // The count's place does not matter.
        assert_eq!(advanced(&moved(kernel, to_0), ticks), moved(&advanced(kernel, ticks), to_0));
    });
    assert!(compared > 10_000 && jumps > 2_000 && turns > 2_000 && wakes > 2_000, "{compared} {jumps} {turns} {wakes}");
}

fn single(kernel: &Kernel, ticks: u32) -> Kernel {
    let mut kernel = kernel.clone();
    single_ticks(&mut kernel, ticks);
    kernel
}

/// The loop that `--check` runs beside each advance is call 17 so many times.
#[test]
fn single_ticks_are_calls_17() {
    on_the_way(4_100..4_120, |kernel, random| {
        if kernel.hold == 0 {
            let ticks = random.between(1, 60);
            assert_eq!(single(kernel, ticks), ticked(kernel, ticks));
        }
    });
}

/// "the call can jump where the running task is alone in its line and nothing is due", and nowhere else.
#[test]
fn the_jump_is_that_of_single_ticks() {
    let (mut far, mut none) = (0, 0);
    on_the_way(4_200..4_260, |kernel, random| {
        if kernel.hold > 0 {
            return;
        }
        let left = some_ticks(kernel, random);
        let to_0 = 0u32.wrapping_sub(kernel.tick).wrapping_sub(random.between(1, left));
        for kernel in [kernel.clone(), moved(kernel, to_0)] {
            let mut jumped = kernel.clone();
            let ticks = jump(&mut jumped, left);
            assert_eq!(jumped, single(&kernel, ticks));
            assert_eq!(Kernel { tick: kernel.tick, ..jumped.clone() }, kernel, "only the count changes");
            let alone = kernel.running_line().len() == 1;
            let somebody_due = single(&jumped, 1).began.len() < jumped.began.len();
            assert!(ticks == left || !alone || somebody_due, "it goes as far as it can");
            assert!(ticks == 0 || alone);
            far += u32::from(ticks > 1);
            none += u32::from(ticks == 0);
        }
    });
    assert!(far > 3_000 && none > 3_000, "{far} {none}");
}

#[test]
fn one_after_another_is_one() {
    on_the_way(4_300..4_330, |kernel, random| {
        if kernel.hold > 0 {
            return;
        }
        let first = some_ticks(kernel, random).min(65_534);
        let between = advanced(kernel, first);
        let second = some_ticks(&between, random).min(65_535 - first);
        assert_eq!(advanced(&between, second), advanced(kernel, first + second), "{first}, {second}");
        assert_eq!(advanced(kernel, 1), after(kernel, Call::Tick));
    });
}

#[test]
fn lines_beside_lines_of_17() {
    for seed in 4_400..4_430 {
        let (mut by_advances, mut by_ticks) = (Machine::new(false), Machine::new(false));
        for line in journal(seed, 1_500).split_inclusive(|&byte| byte == b'\n') {
            let ticks = String::from_utf8_lossy(line).strip_prefix("18\t").and_then(|rest| rest.trim().parse().ok());
            let answer = by_advances.answer(line);
            match (answer, ticks) {
                (Answer::Done, Some(ticks)) if line.ends_with(b"\n") => {
                    for _ in 0..ticks {
                        assert_eq!(by_ticks.answer(b"17\n"), Answer::Done);
                    }
                }
                _ => assert_eq!(by_ticks.answer(line), answer),
            }
            assert_eq!(by_advances.kernel, by_ticks.kernel, "seed {seed}");
        }
        assert!(by_advances.store == by_ticks.store);
    }
}

#[test]
fn out_of_range() {
    let mut machine = session("1 5 -> ok 1 1\n1 5 -> ok 2 1");
    for ticks in [0u32, 65_536, 65_537, 131_071, 131_072, 2_147_483_648, 4_294_901_761, 4_294_967_295] {
        go_on(&mut machine, &format!("18 {ticks} -> no 4 1"));
    }
    assert_eq!((machine.kernel.tick, line_of(&machine.kernel, 5)), (0, vec![1, 2]));
    go_on(&mut machine, "18 1 -> ok 0 2\n18 65535 -> ok 0 1\n18 65534 -> ok 0 1");
    assert_eq!(machine.kernel.tick, 131_070);
}

#[test]
fn with_a_hold() {
    let mut machine = session("1 5 -> ok 1 1\n8 -> ok 0 1");
    // Out of range stands first; nothing is pended, and pended ticks stay.
    go_on(&mut machine, "18 1 -> no 8 1\n18 65535 -> no 8 1\n18 0 -> no 4 1\n18 65536 -> no 4 1");
    assert_eq!((machine.kernel.tick, machine.kernel.pended), (0, 0));
    go_on(&mut machine, "17 -> ok 0 1\n8 -> ok 0 1\n18 1 -> no 8 1\n9 -> ok 0 1\n18 1 -> no 8 1");
    assert_eq!((machine.kernel.tick, machine.kernel.pended), (0, 1));
    go_on(&mut machine, "9 -> ok 0 1\n18 1 -> ok 0 1");
    assert_eq!((machine.kernel.tick, machine.kernel.pended), (2, 0));
    // By idle too, which is no cause for 7.
    session("8 -> ok 0 0\n18 1 -> no 8 0\n18 0 -> no 4 0\n9 -> ok 0 0\n18 1 -> ok 0 0\n18 0 -> no 4 0");
}

#[test]
fn a_wrong_store_stands_first() {
    let mut kernel = Kernel::fresh();
    for ticks in [0, 1] {
        assert_eq!(step(&mut kernel, &mut [0; 9_215], &Call::Advance { ticks }), Answer::Refused(2));
    }
    assert_eq!(kernel, Kernel::fresh());
}

#[test]
fn no_other_line_is_a_call_18() {
    for line in
        ["18", "18\t", "18\t1\t", "18\t1\t1", "18\t01", "18\t-1", "18\t4294967296", "18 1", "018\t1", "19\t1", "24"]
    {
        assert_eq!(answers(format!("{line}\n").as_bytes()), b"no\t3\t0\n", "{line}");
    }
    assert_eq!(answers(b"18\t1"), b"no\t3\t0\n");
    for call in 24..=40 {
        let lines = format!("{call}\n{call}\t1\n{call}\t1\t1\n{call}\t1\t1\t1\t1\t1\n");
        assert_eq!(answers(lines.as_bytes()), b"no\t3\t0\n".repeat(4), "{call}");
    }
}

/// Tasks 1 to 3 (priority 5) are ready, and task 1 runs.
fn three() -> Machine {
    session("1 5 -> ok 1 1\n1 5 -> ok 2 1\n1 5 -> ok 3 1")
}

#[test]
fn turns_of_the_line() {
    for (ticks, line) in [(1, [2, 3, 1]), (2, [3, 1, 2]), (3, [1, 2, 3]), (4, [2, 3, 1]), (65_535, [1, 2, 3])] {
        let mut machine = three();
        go_on(&mut machine, &format!("18 {ticks} -> ok 0 {}", line[0]));
        assert_eq!((line_of(&machine.kernel, 5), machine.kernel.tick), (line.to_vec(), ticks));
    }
    let mut machine = three();
    go_on(&mut machine, "18 65534 -> ok 0 3\n18 2 -> ok 0 2\n18 3 -> ok 0 2\n18 65535 -> ok 0 2");
    // Idle with others in its line.
    session("1 0 -> ok 1 0\n1 0 -> ok 2 0\n18 1 -> ok 0 1\n18 1 -> ok 0 2\n18 1 -> ok 0 0\n18 5 -> ok 0 2");
}

#[test]
fn the_turn_stays_with_the_line() {
    // Task 4 sleeps for 2; the line has turned once before it overtakes, and does not turn below it.
    let mut machine = three();
    go_on(&mut machine, "1 7 -> ok 4 4\n6 2 -> wait 0 1\n18 9 -> ok 0 4");
    assert_eq!(line_of(&machine.kernel, 5), [2, 3, 1]);
    go_on(&mut machine, "3 4 -> ok 0 2");
}

#[test]
fn a_higher_line_turns_too() {
    // Tasks 4 and 5 wake on tick 2, task 5 first. Their line turns on each of the three ticks after it.
    let mut machine = three();
    go_on(&mut machine, "1 7 -> ok 4 4\n1 7 -> ok 5 4\n7 -> ok 0 5\n6 2 -> wait 0 4\n6 2 -> wait 0 1\n18 5 -> ok 0 4");
    assert_eq!(line_of(&machine.kernel, 7), [4, 5]);
    assert_eq!(line_of(&machine.kernel, 5), [2, 3, 1]);
}

#[test]
fn woken_into_the_running_line() {
    // Tick 1: task 1 goes behind task 2. Tick 2: task 3 is made ready, and task 2 goes behind it. Tick 3: task 1 goes.
    for (ticks, line) in [(1, vec![2, 1]), (2, vec![1, 3, 2]), (3, vec![3, 2, 1])] {
        let mut machine = three();
        go_on(&mut machine, "7 -> ok 0 2\n7 -> ok 0 3\n6 2 -> wait 0 1");
        go_on(&mut machine, &format!("18 {ticks} -> ok 0 {}", line[0]));
        assert_eq!(line_of(&machine.kernel, 5), line);
    }
}

/// Task 1 waits to receive from queue 0, task 2 to take mutex 1, which task 3 (2) holds with a loan of 5, task 4 to
/// send to queue 2. Due on ticks 2, 3 and 4; task 5 (4), delayed, on tick 3. Idle runs; task 3 is suspended.
fn waiting() -> Machine {
    session(
        "10 1 1 -> ok 0 0
         11 -> ok 1 0
         10 1 0 -> ok 2 0
         13 2 _ 0 -> ok 0 0
         1 5 -> ok 1 1
         14 0 2 -> wait 0 0
         1 5 -> ok 2 2
         1 2 -> ok 3 2
         3 2 -> ok 0 3
         15 1 0 -> ok 0 3
         4 2 -> ok 0 2
         15 1 3 -> wait 0 3
         3 3 -> ok 0 0
         1 5 -> ok 4 4
         13 2 _ 4 -> wait 0 0
         1 4 -> ok 5 5
         6 3 -> wait 0 0",
    )
}

#[test]
fn waits_that_end() {
    let mut machine = waiting();
    go_on(&mut machine, "18 1 -> ok 0 0\n18 1 -> ok 0 1");
    assert_eq!(order_of(&machine.kernel), [2, 4, 5]);
    let mut machine = waiting();
    // Tick 2: task 1. Tick 3: task 2 behind it, then task 1 goes to the tail. Tick 4: task 4, then task 2 goes.
    go_on(&mut machine, "18 4 -> ok 0 1");
    assert_eq!((line_of(&machine.kernel, 5), line_of(&machine.kernel, 4)), (vec![1, 4, 2], vec![5]));
    assert_eq!(order_of(&machine.kernel), []);
    for (slot, outcome) in [(1, Outcome::TimeRanOut), (2, Outcome::TimeRanOut), (4, Outcome::TimeRanOut)] {
        assert_eq!(machine.kernel.task(task(slot)).outcome, outcome);
    }
    assert_eq!(machine.kernel.task(task(5)).outcome, Outcome::Done);
    assert!((0..3).all(|slot| machine.kernel.object(object(slot)).waiters.is_empty()));
    // The loan has ended with the wait of task 2, and the mutex is still held.
    assert_eq!(machine.kernel.task(task(3)).effective, 2);
    go_on(&mut machine, "4 3 -> ok 0 1\n18 3 -> ok 0 1");
    assert_eq!(line_of(&machine.kernel, 2), [3]);
}

#[test]
fn whoever_began_earlier_is_first() {
    // Tasks 3, 1 and 2 begin in this order and are due together; the line then turns.
    for (ticks, runs) in [(4, 3), (5, 1), (6, 2), (7, 3)] {
        let mut machine = three();
        go_on(&mut machine, "7 -> ok 0 2\n7 -> ok 0 3\n6 4 -> wait 0 1\n6 4 -> wait 0 2\n6 4 -> wait 0 0");
        go_on(&mut machine, &format!("18 3 -> ok 0 0\n18 {} -> ok 0 {runs}", ticks - 3));
        let mut machine = three();
        go_on(&mut machine, "7 -> ok 0 2\n7 -> ok 0 3\n6 4 -> wait 0 1\n6 4 -> wait 0 2\n6 4 -> wait 0 0");
        go_on(&mut machine, &format!("18 {ticks} -> ok 0 {runs}"));
    }
}

#[test]
fn a_wake_tick_smaller_than_the_count() {
    // At tick 100 task 1 sleeps until 98 and task 2 until 105.
    let mut machine =
        session("1 5 -> ok 1 1\n1 4 -> ok 2 1\n18 100 -> ok 0 1\n6 4294967294 -> wait 0 2\n6 5 -> wait 0 0");
    assert_eq!(machine.kernel.task(task(1)).stand, Stand::Delayed { wake: 98 });
    go_on(&mut machine, "18 4 -> ok 0 0\n18 1 -> ok 0 2\n18 65535 -> ok 0 2");
    assert_eq!(order_of(&machine.kernel), [1]);
}

#[test]
fn due_on_the_last_tick_and_one_after() {
    for distance in [1, 2, 3, 100, 65_534, 65_535] {
        let mut machine = session(&format!("1 5 -> ok 1 1\n6 {distance} -> wait 0 0"));
        if distance > 1 {
            go_on(&mut machine, &format!("18 {} -> ok 0 0\n18 1 -> ok 0 1", distance - 1));
        }
        session(&format!("1 5 -> ok 1 1\n6 {distance} -> wait 0 0\n18 {distance} -> ok 0 1"));
    }
    session("1 5 -> ok 1 1\n6 65536 -> wait 0 0\n18 65535 -> ok 0 0\n17 -> ok 0 1");
    session("10 1 1 -> ok 0 0\n1 5 -> ok 1 1\n14 0 4294967295 -> wait 0 0\n18 65535 -> ok 0 0");
}

#[test]
fn an_advance_among_other_calls() {
    // A wait begun after an advance counts from its last tick; pended ticks come on top.
    let mut machine = session("1 5 -> ok 1 1\n18 1000 -> ok 0 1\n6 3 -> wait 0 0\n18 1 -> ok 0 0\n8 -> ok 0 0");
    assert_eq!(machine.kernel.task(task(1)).wake(), Some(1_003));
    repeat(&mut machine, 2, "17 -> ok 0 0");
    go_on(&mut machine, "9 -> ok 0 1");
    assert_eq!(machine.kernel.tick, 1_003);
}

#[test]
fn p6_by_hand() {
    let mut kernel = Kernel::fresh();
    kernel.tick = u32::MAX;
    let mut store = STORE;
    assert_eq!(step(&mut kernel, &mut store, &Call::Create { priority: 1 }), Answer::Made(1));
    assert_eq!(step(&mut kernel, &mut store, &Call::Delay { ticks: 1 }), Answer::Waiting);
    let result = advanced(&kernel, 1);
    assert_eq!((result.tick, result.running), (0, task(1)));
    let result = advanced(&kernel, 65_535);
    assert_eq!((result.tick, result.running), (65_534, task(1)));
}

/// What the journal over the wrap says, equal lines once.
const OVER_THE_WRAP: &str = "
    1 3 -> ok 1 1
    1 2 -> ok 2 1
    65537 times 18 65535 -> ok 0 1
    18 0 -> no 4 1
    18 65536 -> no 4 1
    18 4294967295 -> no 4 1
    8 -> ok 0 1
    18 1 -> no 8 1
    18 0 -> no 4 1
    9 -> ok 0 1
    6 1 -> wait 0 2
    6 2 -> wait 0 0
    2 times 17 -> ok 0 1
    3 1 -> ok 0 2
    3 2 -> ok 0 0
    18 1 -> ok 0 0
    4 1 -> ok 0 1
    6 4294967294 -> wait 0 0
    65536 times 18 65535 -> ok 0 0
    18 65531 -> ok 0 0
    10 1 1 -> ok 0 0
    4 2 -> ok 0 2
    1 2 -> ok 3 2
    1 5 -> ok 4 4
    6 4 -> wait 0 2
    6 2 -> wait 0 3
    14 0 3 -> wait 0 0
    18 0 -> no 4 0
    18 65536 -> no 4 0
    18 4294967295 -> no 4 0
    8 -> ok 0 0
    18 1 -> no 8 0
    18 0 -> no 4 0
    9 -> ok 0 0
    18 1 -> ok 0 0
    18 2 -> ok 0 1
    18 1 -> ok 0 4
    3 4 -> ok 0 1
    3 1 -> ok 0 2
    7 -> ok 0 3
    7 -> ok 0 2
    3 2 -> ok 0 3
    3 3 -> ok 0 0
    18 99 -> ok 0 0
    11 -> ok 1 0
    1 2 -> ok 5 5
    15 1 0 -> ok 0 5
    6 4294967198 -> wait 0 0
    4 1 -> ok 0 1
    15 1 4294967201 -> wait 0 0
    1 3 -> ok 6 6
    6 4294967195 -> wait 0 0
    4 3 -> ok 0 3
    14 0 4294967194 -> wait 0 0
    4 2 -> ok 0 2
    6 4294967194 -> wait 0 0
    4 4 -> ok 0 4
    6 4294967203 -> wait 0 0
    1 1 -> ok 7 7
    14 0 4294967295 -> wait 0 0
    1 6 -> ok 8 8
    6 4294967249 -> wait 0 0
    65535 times 18 65535 -> ok 0 0
    18 65486 -> ok 0 0
    18 0 -> no 4 0
    18 65536 -> no 4 0
    18 4294967295 -> no 4 0
    8 -> ok 0 0
    18 1 -> no 8 0
    18 0 -> no 4 0
    9 -> ok 0 0
    18 65535 -> ok 0 4
    18 2 -> ok 0 4
    18 1 -> ok 0 8
    3 8 -> ok 0 4
    3 4 -> ok 0 1
    7 -> ok 0 6
    3 6 -> ok 0 1
    3 1 -> ok 0 5
    16 1 -> ok 0 5
    3 5 -> ok 0 3
    7 -> ok 0 2
    3 2 -> ok 0 3
    3 3 -> ok 0 0
    13 0 a5 0 -> ok 0 7
    18 59947 -> ok 0 7
    4 4 -> ok 0 4
    6 4294947296 -> wait 0 7
    65535 times 18 65535 -> ok 0 7
    18 45535 -> ok 0 7
    18 65535 -> ok 0 7
    18 1 -> ok 0 4";

#[test]
fn the_journal_over_the_wrap() {
    let journal = wrap::journal();
    // Without the self-check, which would run each single tick.
    let (mut machine, mut output) = (Machine::new(false), Vec::new());
    filter::run(&mut &journal[..], &mut output, &mut machine).unwrap();
    let (calls, answers) = (String::from_utf8(journal).unwrap(), String::from_utf8(output).unwrap());
    assert_eq!(calls.lines().count(), answers.lines().count());
    let rows: Vec<String> =
        calls.lines().zip(answers.lines()).map(|row| format!("{} -> {}", row.0, row.1).replace('\t', " ")).collect();
    let mut shown = String::new();
    for equal in rows.chunk_by(|row, next| row == next) {
        let times = if equal.len() > 1 { format!("{} times ", equal.len()) } else { String::new() };
        shown += &format!("\n    {times}{}", equal[0]);
    }
    assert_eq!(shown, OVER_THE_WRAP);
    assert_eq!((machine.kernel.tick, soundness(&machine.kernel)), (40_000, Ok(())));
}
