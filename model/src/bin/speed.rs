//! The same steps as crates/speed, on the model: three letters on standard input, a digit on standard output.

use model::calls::{step, Call};
use model::check::soundness;
use model::kernel::{Kernel, FOR_EVER};
use model::store::STORE_BYTES;
use std::io::Read;

const ITEM: [u8; 8] = [7; 8];

/// A kernel is taken afresh after so many turns, before a slot is retired.
const TURNS: u32 = 50_000;

/// The pair of a turn. Each turn of h, i and j gives a slot up, so its numbers go by the turn.
fn pair(letter: u8, m: u32, turn: u32) -> (Call<'static>, Call<'static>) {
    let made = 2 + 16 * turn;
    match letter {
        b'a' => (Call::Yield, Call::Yield),
        b'b' => (Call::Hold, Call::Release),
        b'c' => (Call::Send { object: 0, item: &ITEM, wait: 0 }, Call::Receive { object: 0, wait: 0 }),
        b'd' => (Call::Take { object: 1, wait: 0 }, Call::Give { object: 1 }),
        b'e' => (Call::Tick, Call::Tick),
        b'f' => (Call::SetPriority { task: 1, priority: 4 }, Call::SetPriority { task: 1, priority: 3 }),
        b'g' => (Call::Suspend { task: m }, Call::Resume { task: m }),
        b'h' => (Call::Delete { task: m + 16 * turn }, Call::Create { priority: 3 }),
        b'i' => (Call::MakeMutex, Call::Remove { object: made }),
        b'j' => (Call::MakeQueue { capacity: 4, size: 8 }, Call::Remove { object: made }),
        b'k' => (Call::Delay { ticks: 1 }, Call::Tick),
        b'r' => (Call::SetBits { object: 2, bits: 6 }, Call::SetBits { object: 2, bits: 6 }),
        b't' => (Call::ClearBits { object: 2, bits: 6 }, Call::ClearBits { object: 2, bits: 6 }),
        b'u' => (wait(0, 0), wait(0, 0)),
        _ => (Call::Resume { task: 1 }, Call::Resume { task: 1 }),
    }
}

/// For the one bit of event group 2.
fn wait(clear: u32, wait: u32) -> Call<'static> {
    Call::WaitBits { object: 2, mask: 1, all: 1, clear, wait }
}

/// The kernel that a letter's turns begin with: for r, t and u there is an event group with a bit set, for s one on which each
/// task waits.
fn begun(letter: u8, m: u32, first: &Kernel, store: &mut [u8]) -> Kernel {
    let mut kernel = first.clone();
    if (b'r'..=b'u').contains(&letter) {
        step(&mut kernel, store, &Call::MakeGroup);
    }
    match letter {
        b'r' | b't' | b'u' => {
            step(&mut kernel, store, &Call::SetBits { object: 2, bits: 1 });
        }
        b's' => {
            for _ in 0..m {
                step(&mut kernel, store, &wait(1, FOR_EVER));
            }
        }
        _ => {}
    }
    kernel
}

fn letter(b: u8) -> u32 {
    u32::from(b.saturating_sub(b'a'))
}

/// The pair so many times; z is the soundness test and s a set that wakes every task, each twice a turn.
fn turns(kind: u8, m: u32, times: u32, prepared: &Kernel, store: &mut [u8]) -> u32 {
    let first = begun(kind, m, prepared, store);
    let mut kernel = first.clone();
    let mut sum = 0u32;
    if kind == b'z' {
        for _ in 0..times {
            sum = sum.wrapping_add(u32::from(soundness(&kernel).is_ok()));
            sum = sum.wrapping_add(u32::from(soundness(&kernel).is_ok()));
        }
    } else if kind == b's' {
        for _ in 0..2 * times {
            kernel.clone_from(&first);
            step(&mut kernel, store, &Call::SetBits { object: 2, bits: 1 });
            sum = sum.wrapping_add(kernel.running_number());
        }
    } else {
        for time in 0..times {
            let turn = time % TURNS;
            if turn == 0 {
                kernel.clone_from(&first);
            }
            let (a, b) = pair(kind, m, turn);
            step(&mut kernel, store, &a);
            step(&mut kernel, store, &b);
            sum = sum.wrapping_add(kernel.running_number());
        }
    }
    sum
}

fn main() {
    let mut input = Vec::new();
    std::io::stdin().read_to_end(&mut input).expect("three letters");
    let m = letter(input[1]);
    let times = letter(input[2]) * 1_000;
    let mut store = vec![0; STORE_BYTES];
    let mut kernel = Kernel::fresh();
    for _ in 0..m {
        step(&mut kernel, &mut store, &Call::Create { priority: 3 });
    }
    step(&mut kernel, &mut store, &Call::MakeQueue { capacity: 4, size: 8 });
    step(&mut kernel, &mut store, &Call::MakeMutex);
    let sum = if input[0] == b'y' {
        let kinds = b"zabcdefghijklrstu";
        kinds.iter().fold(0u32, |sum, &kind| sum.wrapping_add(turns(kind, m, times, &kernel, &mut store)))
    } else {
        turns(input[0], m, times * 100, &kernel, &mut store)
    };
    println!("{}", sum % 10);
}
