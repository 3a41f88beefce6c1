//! Helpers of the tests.
#![allow(dead_code)]

use model::filter;
use model::kernel::{Kernel, Kind, Mutex, ObjectSlot, TaskSlot};
use model::machine::Machine;
use model::random::Random;

/// The filter's answers to these bytes, with the self-check on.
pub fn answers(journal: &[u8]) -> Vec<u8> {
    let mut output = Vec::new();
    filter::run(&mut &journal[..], &mut output, &mut Machine::new(true)).unwrap();
    output
}

/// Runs a session; each line is "call fields -> answer fields", parted by spaces.
/// `_` stands for an empty item.
pub fn session(text: &str) -> Machine {
    let mut machine = Machine::new(true);
    go_on(&mut machine, text);
    machine
}

pub fn go_on(machine: &mut Machine, text: &str) {
    for line in text.lines().map(str::trim).filter(|line| !line.is_empty()) {
        let (call, expected) = line.split_once(" -> ").expect("call -> answer");
        let call = format!("{}\n", call.replace(' ', "\t").replace('_', ""));
        let mut output = Vec::new();
        filter::run(&mut call.as_bytes(), &mut output, machine).unwrap();
        let answer = String::from_utf8(output).unwrap();
        assert_eq!(answer, format!("{}\n", expected.replace(' ', "\t")), "{line}");
    }
}

/// The same call many times, each with this answer.
pub fn repeat(machine: &mut Machine, times: usize, line: &str) {
    for _ in 0..times {
        go_on(machine, line);
    }
}

pub fn task(slot: usize) -> TaskSlot {
    TaskSlot::all().nth(slot).unwrap()
}

pub fn object(slot: usize) -> ObjectSlot {
    ObjectSlot::all().nth(slot).unwrap()
}

/// An ordinary mutex that this task holds.
pub fn held_by(slot: usize) -> Kind {
    Kind::Mutex(Mutex { recursive: false, holder: Some(task(slot)), count: 1 })
}

/// A mutex of either kind that this task holds, at a low or a high count.
pub fn any_held_by(holder: TaskSlot, random: &mut Random) -> Kind {
    let recursive = random.percent(50);
    let count = if recursive { random.pick(&[1, 2, 254, 255]) } else { 1 };
    Kind::Mutex(Mutex { recursive, holder: Some(holder), count })
}

/// The slots of a line's tasks.
pub fn line_of(kernel: &Kernel, priority: usize) -> Vec<usize> {
    kernel.lines[priority].iter().map(|task| task.index()).collect()
}

/// The slots of delayed and waiting tasks, as they began.
pub fn order_of(kernel: &Kernel) -> Vec<usize> {
    kernel.began.iter().map(|task| task.index()).collect()
}

pub fn slip(machine: &Machine, slot: usize, length: usize) -> &[u8] {
    &machine.store[model::store::slip(task(slot), length)]
}
