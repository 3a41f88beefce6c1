//! The 23 calls: what each does once it is not turned away.

use crate::groups::{self, Group, Wish};
use crate::kernel::{Kernel, Kind, Mutex, ObjectSlot, Outcome, Queue, Role, Stand, Task, TaskSlot};
use crate::refusals::refusal;
use crate::store;

/// "Call numbers 1 to 17, arguments in this order"; "call 18, advance: n ticks"; "call 19, make
/// recursive mutex"; "20 make; 21 set bits: object, bits; 22 clear bits: object, bits; 23 wait:
/// object, mask, all, clear, wait". Numbers are as the line has them.
#[derive(Clone, Copy, PartialEq, Eq, Debug)]
pub enum Call<'a> {
    Create { priority: u32 },
    Delete { task: u32 },
    Suspend { task: u32 },
    Resume { task: u32 },
    SetPriority { task: u32, priority: u32 },
    Delay { ticks: u32 },
    Yield,
    Hold,
    Release,
    MakeQueue { capacity: u32, size: u32 },
    MakeMutex,
    Remove { object: u32 },
    Send { object: u32, item: &'a [u8], wait: u32 },
    Receive { object: u32, wait: u32 },
    Take { object: u32, wait: u32 },
    Give { object: u32 },
    Tick,
    Advance { ticks: u32 },
    MakeRecursiveMutex,
    MakeGroup,
    SetBits { object: u32, bits: u32 },
    ClearBits { object: u32, bits: u32 },
    WaitBits { object: u32, mask: u32, all: u32, clear: u32, wait: u32 },
}

impl Call<'_> {
    pub fn number(&self) -> usize {
        match self {
            Call::Create { .. } => 1,
            Call::Delete { .. } => 2,
            Call::Suspend { .. } => 3,
            Call::Resume { .. } => 4,
            Call::SetPriority { .. } => 5,
            Call::Delay { .. } => 6,
            Call::Yield => 7,
            Call::Hold => 8,
            Call::Release => 9,
            Call::MakeQueue { .. } => 10,
            Call::MakeMutex => 11,
            Call::Remove { .. } => 12,
            Call::Send { .. } => 13,
            Call::Receive { .. } => 14,
            Call::Take { .. } => 15,
            Call::Give { .. } => 16,
            Call::Tick => 17,
            Call::Advance { .. } => 18,
            Call::MakeRecursiveMutex => 19,
            Call::MakeGroup => 20,
            Call::SetBits { .. } => 21,
            Call::ClearBits { .. } => 22,
            Call::WaitBits { .. } => 23,
        }
    }

    /// What the call names.
    pub fn named(&self) -> Named {
        match *self {
            Call::Delete { task } | Call::Suspend { task } | Call::Resume { task } | Call::SetPriority { task, .. } => {
                Named::Task(task)
            }
            Call::Remove { object }
            | Call::Send { object, .. }
            | Call::Receive { object, .. }
            | Call::Take { object, .. }
            | Call::Give { object }
            | Call::SetBits { object, .. }
            | Call::ClearBits { object, .. }
            | Call::WaitBits { object, .. } => Named::Object(object),
            _ => Named::Nothing,
        }
    }

    /// The same call with another number for what it names.
    pub fn naming(mut self, number: u32) -> Self {
        match &mut self {
            Call::Delete { task } | Call::Suspend { task } | Call::Resume { task } | Call::SetPriority { task, .. } => {
                *task = number
            }
            Call::Remove { object }
            | Call::Send { object, .. }
            | Call::Receive { object, .. }
            | Call::Take { object, .. }
            | Call::Give { object }
            | Call::SetBits { object, .. }
            | Call::ClearBits { object, .. }
            | Call::WaitBits { object, .. } => *object = number,
            _ => {}
        }
        self
    }
}

/// The number in a call, by what it is meant for.
#[derive(Clone, Copy, PartialEq, Eq, Debug)]
pub enum Named {
    Nothing,
    Task(u32),
    Object(u32),
}

/// "An accepted call answers done, made with the new number, or waiting".
#[derive(Clone, Copy, PartialEq, Eq, Debug)]
pub enum Answer {
    Done,
    Made(u32),
    Waiting,
    Refused(u8),
}

/// One call. "A refusal returns the number; the kernel and all lent bytes stay."
pub fn step(kernel: &mut Kernel, store: &mut [u8], call: &Call) -> Answer {
    if let Some(number) = refusal(kernel, store, call) {
        return Answer::Refused(number);
    }
    // "The caller is the running task."
    let caller = kernel.running;
    let made = take_effect(kernel, store, call);
    end(kernel);
    match made {
        Some(number) => Answer::Made(number),
        // "waiting (given exactly if the caller is now delayed or waits on an object)"
        None if kernel.is_blocked(caller) => Answer::Waiting,
        None => Answer::Done,
    }
}

/// "Every accepted call ends with choose", and the loans are "worked out afresh before choose".
fn end(kernel: &mut Kernel) {
    kernel.work_out_loans();
    kernel.choose();
}

const NAMED: &str = "the refusals have seen that the number names one";

/// The effect of an accepted call, without its end. Gives the new number, if any.
fn take_effect(kernel: &mut Kernel, store: &mut [u8], call: &Call) -> Option<u32> {
    match *call {
        Call::Create { priority } => return Some(create(kernel, priority as u8)),
        Call::Delete { task } => delete(kernel, kernel.find_task(task).expect(NAMED)),
        Call::Suspend { task } => suspend(kernel, kernel.find_task(task).expect(NAMED)),
        // "made ready"
        Call::Resume { task } => kernel.make_ready(kernel.find_task(task).expect(NAMED)),
        // "own changes"
        Call::SetPriority { task, priority } => {
            let task = kernel.find_task(task).expect(NAMED);
            kernel.task_mut(task).own = priority as u8;
        }
        // "0: as yield; else delayed"
        Call::Delay { ticks: 0 } => kernel.turn_running_line(),
        Call::Delay { ticks } => kernel.delay_running(ticks),
        // "the head of its line goes to the tail"
        Call::Yield => kernel.turn_running_line(),
        // "depth up, down"
        Call::Hold => kernel.hold += 1,
        Call::Release => release(kernel),
        Call::Tick => tick(kernel),
        Call::Advance { ticks } => advance(kernel, ticks),
        Call::MakeQueue { capacity, size } => {
            return Some(make(kernel, Kind::Queue(Queue::empty(capacity as u8, size as u8))));
        }
        Call::MakeMutex => return Some(make(kernel, Kind::Mutex(Mutex::free(false)))),
        Call::MakeRecursiveMutex => return Some(make(kernel, Kind::Mutex(Mutex::free(true)))),
        Call::MakeGroup => return Some(make(kernel, Kind::Group(Group::default()))),
        Call::Remove { object } => remove(kernel, kernel.find_object(object).expect(NAMED)),
        _ => on_an_object(kernel, store, call),
    }
    None
}

/// The effect of a call on an object that stays.
fn on_an_object(kernel: &mut Kernel, store: &mut [u8], call: &Call) {
    match *call {
        Call::Send { object, item, wait } => {
            let (object, queue) = kernel.find_queue(object).expect(NAMED);
            send(kernel, store, object, queue, item, wait);
        }
        Call::Receive { object, wait } => {
            let (object, queue) = kernel.find_queue(object).expect(NAMED);
            receive(kernel, store, object, queue, wait);
        }
        Call::Take { object, wait } => {
            let (object, mutex) = kernel.find_mutex(object).expect(NAMED);
            take(kernel, object, mutex, wait);
        }
        Call::Give { object } => {
            let (object, mutex) = kernel.find_mutex(object).expect(NAMED);
            give(kernel, object, mutex);
        }
        Call::SetBits { object, bits } => {
            let (object, group) = kernel.find_group(object).expect(NAMED);
            groups::set(kernel, store, object, group, bits);
        }
        Call::ClearBits { object, bits } => {
            let (object, group) = kernel.find_group(object).expect(NAMED);
            groups::clear(kernel, object, group, bits);
        }
        Call::WaitBits { object, mask, all, clear, wait } => {
            let (object, group) = kernel.find_group(object).expect(NAMED);
            let wish = Wish { mask, all: all == 1, clear: clear == 1 };
            groups::wait(kernel, store, object, group, wish, wait);
        }
        _ => unreachable!("no call on an object: {call:?}"),
    }
}

/// "lowest free slot; ready"
fn create(kernel: &mut Kernel, priority: u8) -> u32 {
    let task = kernel.free_task().expect("row 9 has passed");
    let uses = kernel.task(task).uses;
    *kernel.task_mut(task) = Task { own: priority, effective: priority, ..Task::free(uses) };
    kernel.make_ready(task);
    kernel.task_number(task)
}

/// "leaves any wait; slot is free and used again"; its use goes up by one
fn delete(kernel: &mut Kernel, task: TaskSlot) {
    match kernel.task(task).stand {
        Stand::Ready => kernel.leave_line(task),
        Stand::Delayed { .. } | Stand::Waiting { .. } => kernel.leave_wait(task),
        Stand::Suspended | Stand::Free => {}
    }
    let uses = kernel.task(task).uses + 1;
    *kernel.task_mut(task) = Task::free(uses);
}

fn suspend(kernel: &mut Kernel, task: TaskSlot) {
    match kernel.task(task).stand {
        // "if delayed or waiting, leaves that with outcome 3"
        Stand::Delayed { .. } | Stand::Waiting { .. } => {
            kernel.leave_wait(task);
            kernel.task_mut(task).outcome = Outcome::BrokenOff;
        }
        // "if ready, outcome stays"
        Stand::Ready => kernel.leave_line(task),
        // "already suspended: nothing changes"
        Stand::Suspended | Stand::Free => {}
    }
    kernel.task_mut(task).stand = Stand::Suspended;
}

/// "Release to depth 0 runs each pended tick's count and wakes in turn, without the
/// turn of the line, and chooses once."
fn release(kernel: &mut Kernel) {
    kernel.hold -= 1;
    if kernel.hold == 0 {
        let pended = kernel.pended;
        kernel.pended = 0;
        for _ in 0..pended {
            kernel.count_and_wake();
        }
    }
}

/// "lowest free object"
fn make(kernel: &mut Kernel, kind: Kind) -> u32 {
    let object = kernel.free_object().expect("row 9 has passed");
    kernel.object_mut(object).kind = kind;
    kernel.object_number(object)
}

/// "items in it are dropped"; the slot's use goes up by one
fn remove(kernel: &mut Kernel, object: ObjectSlot) {
    let slot = kernel.object_mut(object);
    slot.kind = Kind::Free;
    slot.uses += 1;
}

fn send(kernel: &mut Kernel, store: &mut [u8], object: ObjectSlot, queue: Queue, item: &[u8], wait: u32) {
    // Receivers wait only on an empty queue and senders only on a full one, so with
    // the queue empty all waiters are receivers.
    if queue.count == 0 {
        // "If a receiver waits, the first waiter gets the item in the first bytes of its
        // slip and is made ready, outcome 1; the queue is untouched."
        if let Some(receiver) = kernel.wake_first_waiter(object) {
            store[store::slip(receiver, item.len())].copy_from_slice(item);
            return;
        }
    }
    if queue.count < queue.capacity {
        // "Else, if there is room, the item is appended."
        store[store::item(object, &queue, queue.count as usize)].copy_from_slice(item);
        kernel.object_mut(object).kind = Kind::Queue(Queue { count: queue.count + 1, ..queue });
    } else {
        // "Else the item goes to the caller's slip and the caller waits."
        store[store::slip(kernel.running, item.len())].copy_from_slice(item);
        kernel.wait_running(object, Role::Sender, wait);
    }
}

fn receive(kernel: &mut Kernel, store: &mut [u8], object: ObjectSlot, queue: Queue, wait: u32) {
    // "Empty: the caller waits."
    if queue.count == 0 {
        kernel.wait_running(object, Role::Receiver, wait);
        return;
    }
    let was_full = queue.count == queue.capacity;
    let size = queue.size as usize;
    // "The oldest item goes to the caller's slip and first moves on one place";
    // `first` moves for size 0 too.
    store.copy_within(store::item(object, &queue, 0), store::slip(kernel.running, size).start);
    let mut queue = Queue { first: (queue.first + 1) % queue.capacity, count: queue.count - 1, ..queue };
    // "then, if a sender waits, the first waiter's item is appended from its slip and
    // it is made ready, outcome 1." With the queue full all waiters are senders.
    if was_full {
        if let Some(sender) = kernel.wake_first_waiter(object) {
            let place = store::item(object, &queue, queue.count as usize);
            store.copy_within(store::slip(sender, size), place.start);
            queue.count += 1;
        }
    }
    kernel.object_mut(object).kind = Kind::Queue(queue);
}

fn take(kernel: &mut Kernel, object: ObjectSlot, mutex: Mutex, wait: u32) {
    let caller = kernel.running;
    let taken = match mutex.holder {
        // "A free mutex becomes the caller's."
        None => mutex.passed_to(Some(caller)),
        // "Its holder may take it again".
        Some(holder) if holder == caller => Mutex { count: mutex.count + 1, ..mutex },
        // "Held by another: the caller waits".
        Some(_) => return kernel.wait_running(object, Role::Taker, wait),
    };
    kernel.object_mut(object).kind = Kind::Mutex(taken);
}

fn give(kernel: &mut Kernel, object: ObjectSlot, mutex: Mutex) {
    let given = match mutex.count {
        // "only the last hands it on": "The first waiter becomes holder and is made ready, outcome
        // 1; with none, the mutex is free."
        1 => mutex.passed_to(kernel.wake_first_waiter(object)),
        // "each give takes one off"
        _ => Mutex { count: mutex.count - 1, ..mutex },
    };
    kernel.object_mut(object).kind = Kind::Mutex(given);
}

fn tick(kernel: &mut Kernel) {
    // "With a hold, pended goes up by one."
    if kernel.hold > 0 {
        kernel.pended += 1;
        return;
    }
    kernel.count_and_wake();
    // "then, if no higher line is occupied, the running task goes to the tail of its line"
    if kernel.highest_line() == kernel.task(kernel.running).effective as usize {
        kernel.turn_running_line();
    }
}

/// "the result must equal n single ticks one by one, turns of the line and wakes included".
/// Each of them is a whole call 17.
pub fn single_ticks(kernel: &mut Kernel, ticks: u32) {
    for _ in 0..ticks {
        tick(kernel);
        end(kernel);
    }
}

/// The same, with one shortcut.
fn advance(kernel: &mut Kernel, ticks: u32) {
    let mut left = ticks;
    while left > 0 {
        left -= jump(kernel, left);
        if left > 0 {
            single_ticks(kernel, 1);
            left -= 1;
        }
    }
}

/// The shortcut: "the call can jump where the running task is alone in its line and nothing
/// is due". On such a tick the count goes up, nobody is woken, no loan ends, and the turn of a
/// line of one leaves it as it was. Gives how many ticks were passed, at most as many as are left.
pub fn jump(kernel: &mut Kernel, left: u32) -> u32 {
    let alone = kernel.running_line().len() == 1;
    let ticks = if alone { kernel.quiet_ticks().min(left) } else { 0 };
    kernel.tick = kernel.tick.wrapping_add(ticks);
    ticks
}
