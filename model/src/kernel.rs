//! The kernel value: task slots, object slots, the lines of ready tasks and the order in
//! which delayed and waiting tasks began. Quoted sentences are document 01's, and those of
//! requests 1 and 3 to 8 in document 02.

use crate::groups::{Group, Wish};
use crate::loans;

/// "16 task slots, 0 to 15."
pub const TASKS: usize = 16;
/// "16 object slots, 0 to 15, each free, a queue or a mutex", or an event group.
pub const OBJECTS: usize = 16;
/// "each number slot + 16 × use"
pub const SLOTS: u32 = 16;
/// "A slot given up at use 65,535 then has use 65,536 and is not used again".
pub const LAST_USE: u32 = 65_535;
pub const RETIRED: u32 = 65_536;
/// "Priorities 0 to 31; larger is more urgent."
pub const PRIORITIES: usize = 32;
/// "A queue has capacity 1 to 64 and item size 0 to 64 bytes".
pub const MOST_CAPACITY: u32 = 64;
pub const MOST_ITEM: u32 = 64;
/// "with capacity times size at most 512".
pub const MOST_PRODUCT: u32 = 512;
/// "Hold depth 0 to 255."
pub const MOST_HOLD: u32 = 255;
/// "Pended ticks 0 to 65,535."
pub const MOST_PENDED: u32 = 65_535;
/// "advance: n ticks, 1 to 65,535"
pub const MOST_ADVANCE: u32 = 65_535;
/// "Its holder may take it again, up to 255 times in all".
pub const MOST_TAKES: u32 = 255;
/// "4,294,967,295 means for ever."
pub const FOR_EVER: u32 = 4_294_967_295;

/// A slot of the task table. "a task number must never be usable where an object number
/// is meant": the doors below are the only way from a number to a slot.
#[derive(Clone, Copy, PartialEq, Eq, Debug)]
pub struct TaskSlot(u8);

/// A slot of the object table.
#[derive(Clone, Copy, PartialEq, Eq, Debug)]
pub struct ObjectSlot(u8);

/// "Task 0 is idle".
pub const IDLE: TaskSlot = TaskSlot(0);

impl TaskSlot {
    pub fn all() -> impl Iterator<Item = TaskSlot> {
        (0..TASKS as u8).map(TaskSlot)
    }
    pub fn index(self) -> usize {
        self.0 as usize
    }
}

impl ObjectSlot {
    pub fn all() -> impl Iterator<Item = ObjectSlot> {
        (0..OBJECTS as u8).map(ObjectSlot)
    }
    pub fn index(self) -> usize {
        self.0 as usize
    }
}

/// The number of what is in this slot at this use.
pub fn number_of(slot: usize, uses: u32) -> u32 {
    slot as u32 + SLOTS * uses
}

/// A number taken apart: its slot, and its use part.
pub fn apart(number: u32) -> (usize, u32) {
    ((number % SLOTS) as usize, number / SLOTS)
}

/// "Outcome of a task's last blocked call".
#[derive(Clone, Copy, PartialEq, Eq, Debug)]
pub enum Outcome {
    /// "0 none or still waiting"
    None = 0,
    /// "1 done"
    Done = 1,
    /// "2 time ran out"
    TimeRanOut = 2,
    /// "3 broken off"
    BrokenOff = 3,
}

/// What a waiting task waits for.
#[derive(Clone, Copy, PartialEq, Eq, Debug)]
pub enum Role {
    Sender,
    Receiver,
    Taker,
    /// On an event group. No other waiter has a mask or flags.
    Watcher(Wish),
}

/// "An existing task is ready, delayed, waiting on one object, or suspended."
/// A number that a state does not use does not exist here.
#[derive(Clone, Copy, PartialEq, Eq, Debug)]
pub enum Stand {
    Free,
    Ready,
    Delayed {
        wake: u32,
    },
    /// "a wait for ever has no wake tick"
    Waiting {
        object: ObjectSlot,
        role: Role,
        wake: Option<u32>,
    },
    Suspended,
}

/// "Each task has its own priority and its effective one."
#[derive(Clone, Copy, PartialEq, Eq, Debug)]
pub struct Task {
    /// "a slot's use starts at 0 and goes up by one at each delete or remove"
    pub uses: u32,
    pub stand: Stand,
    pub own: u8,
    pub effective: u8,
    pub outcome: Outcome,
}

impl Task {
    /// "a free slot keeps its use, all else in it being fresh"
    pub const fn free(uses: u32) -> Task {
        Task { uses, stand: Stand::Free, own: 0, effective: 0, outcome: Outcome::None }
    }

    pub fn is_free(&self) -> bool {
        self.stand == Stand::Free
    }

    /// The tick on which a delayed or waiting task is due, if there is one.
    pub fn wake(&self) -> Option<u32> {
        match self.stand {
            Stand::Delayed { wake } => Some(wake),
            Stand::Waiting { wake, .. } => wake,
            _ => None,
        }
    }
}

#[derive(Clone, Copy, PartialEq, Eq, Debug)]
pub struct Queue {
    pub capacity: u8,
    pub size: u8,
    /// The place of the oldest item.
    pub first: u8,
    pub count: u8,
}

impl Queue {
    /// "empty, first 0"
    pub const fn empty(capacity: u8, size: u8) -> Queue {
        Queue { capacity, size, first: 0, count: 0 }
    }
}

/// A mutex of either kind. They differ in how often the holder may take it.
#[derive(Clone, Copy, PartialEq, Eq, Debug)]
pub struct Mutex {
    pub recursive: bool,
    pub holder: Option<TaskSlot>,
    /// How often the holder has taken it and not given it yet; 0 if nobody holds it.
    pub count: u32,
}

impl Mutex {
    pub const fn free(recursive: bool) -> Mutex {
        Mutex { recursive, holder: None, count: 0 }
    }

    /// "hands it on, at count 1, or frees it"
    pub fn passed_to(self, holder: Option<TaskSlot>) -> Mutex {
        Mutex { holder, count: u32::from(holder.is_some()), ..self }
    }
}

#[derive(Clone, Copy, PartialEq, Eq, Debug)]
pub enum Kind {
    Free,
    Queue(Queue),
    Mutex(Mutex),
    Group(Group),
}

/// "each object lists its waiters once, in order of arrival"
#[derive(Clone, PartialEq, Eq, Debug)]
pub struct Object {
    /// As a task slot's.
    pub uses: u32,
    pub kind: Kind,
    pub waiters: Vec<TaskSlot>,
}

impl Object {
    pub fn is_free(&self) -> bool {
        self.kind == Kind::Free
    }

    /// Who holds it; nobody if it is no mutex.
    pub fn holder(&self) -> Option<TaskSlot> {
        match self.kind {
            Kind::Mutex(mutex) => mutex.holder,
            _ => None,
        }
    }
}

#[derive(Clone, PartialEq, Eq, Debug)]
pub struct Kernel {
    pub tasks: [Task; TASKS],
    pub objects: [Object; OBJECTS],
    /// "Each priority has a line of its ready tasks"; index 0 is the head.
    pub lines: [Vec<TaskSlot>; PRIORITIES],
    /// One bit for each occupied line; it repeats what `lines` says.
    pub occupied: u32,
    /// "The kernel has to remember that order among delayed and waiting tasks together."
    /// Whoever began first is at index 0; those that wait for ever are in it too.
    pub began: Vec<TaskSlot>,
    pub running: TaskSlot,
    pub tick: u32,
    pub hold: u32,
    pub pended: u32,
}

impl Kernel {
    /// "The fresh kernel has idle alone, tick 0, hold 0, no objects."
    pub fn fresh() -> Kernel {
        let mut kernel = Kernel {
            tasks: [Task::free(0); TASKS],
            objects: std::array::from_fn(|_| Object { uses: 0, kind: Kind::Free, waiters: Vec::with_capacity(TASKS) }),
            lines: std::array::from_fn(|_| Vec::with_capacity(TASKS)),
            occupied: 0,
            began: Vec::with_capacity(TASKS),
            running: IDLE,
            tick: 0,
            hold: 0,
            pended: 0,
        };
        kernel.make_ready(IDLE);
        kernel
    }

    pub fn task(&self, task: TaskSlot) -> &Task {
        &self.tasks[task.index()]
    }

    pub fn task_mut(&mut self, task: TaskSlot) -> &mut Task {
        &mut self.tasks[task.index()]
    }

    pub fn object(&self, object: ObjectSlot) -> &Object {
        &self.objects[object.index()]
    }

    pub fn object_mut(&mut self, object: ObjectSlot) -> &mut Object {
        &mut self.objects[object.index()]
    }

    /// The door of task numbers: the slot of the task that this one names. "A number whose
    /// use part differs from the slot's names nothing." A free slot has nothing to name,
    /// and no taken one has a use above 65,535, so a number from 1,048,576 on names nothing.
    pub fn find_task(&self, number: u32) -> Option<TaskSlot> {
        let (slot, uses) = apart(number);
        let task = &self.tasks[slot];
        (task.uses == uses && !task.is_free()).then_some(TaskSlot(slot as u8))
    }

    /// The door of object numbers, for any kind.
    pub fn find_object(&self, number: u32) -> Option<ObjectSlot> {
        let (slot, uses) = apart(number);
        let object = &self.objects[slot];
        (object.uses == uses && !object.is_free()).then_some(ObjectSlot(slot as u8))
    }

    /// The queue of this number.
    pub fn find_queue(&self, number: u32) -> Option<(ObjectSlot, Queue)> {
        let object = self.find_object(number)?;
        match self.object(object).kind {
            Kind::Queue(queue) => Some((object, queue)),
            _ => None,
        }
    }

    /// The mutex of this number.
    pub fn find_mutex(&self, number: u32) -> Option<(ObjectSlot, Mutex)> {
        let object = self.find_object(number)?;
        match self.object(object).kind {
            Kind::Mutex(mutex) => Some((object, mutex)),
            _ => None,
        }
    }

    /// The event group of this number.
    pub fn find_group(&self, number: u32) -> Option<(ObjectSlot, Group)> {
        let object = self.find_object(number)?;
        match self.object(object).kind {
            Kind::Group(group) => Some((object, group)),
            _ => None,
        }
    }

    /// The number of the task in this slot; of a free slot, the one that its next task has.
    pub fn task_number(&self, task: TaskSlot) -> u32 {
        number_of(task.index(), self.task(task).uses)
    }

    /// The number of the running task.
    pub fn running_number(&self) -> u32 {
        self.task_number(self.running)
    }

    /// The number of the object in this slot; of a free slot, the one that its next object has.
    pub fn object_number(&self, object: ObjectSlot) -> u32 {
        number_of(object.index(), self.object(object).uses)
    }

    /// "lowest free slot" that may still be used
    pub fn free_task(&self) -> Option<TaskSlot> {
        TaskSlot::all().find(|&task| self.task(task).is_free() && self.task(task).uses < RETIRED)
    }

    /// "lowest free object" that may still be used
    pub fn free_object(&self) -> Option<ObjectSlot> {
        ObjectSlot::all().find(|&object| self.object(object).is_free() && self.object(object).uses < RETIRED)
    }

    pub fn holds_a_mutex(&self, task: TaskSlot) -> bool {
        self.objects.iter().any(|object| object.holder() == Some(task))
    }

    /// Delayed, or waiting on an object.
    pub fn is_blocked(&self, task: TaskSlot) -> bool {
        matches!(self.task(task).stand, Stand::Delayed { .. } | Stand::Waiting { .. })
    }

    /// "The distance to a wake is the wake tick minus the count, subtracted with wrap". After
    /// so many ticks the task is due.
    pub fn distance(&self, task: TaskSlot) -> Option<u32> {
        self.task(task).wake().map(|wake| wake.wrapping_sub(self.tick))
    }

    /// On so many ticks from now nobody is due: one less than the distance to the next wake.
    /// "no wake tick of a delayed or waiting task equals the tick count", so that is at least 1.
    pub fn quiet_ticks(&self) -> u32 {
        let next = self.began.iter().filter_map(|&task| self.distance(task)).min();
        next.map_or(u32::MAX, |next| next - 1)
    }

    /// The line of the running task, which heads it.
    pub fn running_line(&self) -> &[TaskSlot] {
        &self.lines[self.task(self.running).effective as usize]
    }

    /// The highest occupied line. Idle is always ready, so there is one.
    pub fn highest_line(&self) -> usize {
        31 - self.occupied.leading_zeros() as usize
    }

    /// "Choose. With hold 0, the head of the highest occupied line runs; a task
    /// overtaken stays at the head of its line. With a hold, the running task stays."
    pub fn choose(&mut self) {
        if self.hold == 0 {
            self.running = self.lines[self.highest_line()][0];
        }
    }

    /// "Made ready means put at the tail of the line."
    pub fn make_ready(&mut self, task: TaskSlot) {
        let slot = self.task_mut(task);
        slot.stand = Stand::Ready;
        let priority = slot.effective as usize;
        self.lines[priority].push(task);
        self.occupied |= 1 << priority;
    }

    /// A ready task leaves its line.
    pub fn leave_line(&mut self, task: TaskSlot) {
        let priority = self.task(task).effective as usize;
        let line = &mut self.lines[priority];
        let place = line.iter().position(|&other| other == task).expect("a ready task is in its line");
        line.remove(place);
        if line.is_empty() {
            self.occupied &= !(1 << priority);
        }
    }

    /// "It is worked out afresh before choose, and after each tick's wakes; tasks whose line
    /// changes move in order of task number." Nothing else changes an effective priority.
    pub fn work_out_loans(&mut self) {
        let effective = loans::by_search(self);
        for task in TaskSlot::all() {
            self.set_effective(task, effective[task.index()]);
        }
    }

    /// "A ready task whose effective priority changes moves to the new line, at the
    /// head if running, else at the tail; unchanged, it stays."
    pub fn set_effective(&mut self, task: TaskSlot, effective: u8) {
        if self.task(task).effective == effective {
            return;
        }
        if self.task(task).stand != Stand::Ready {
            self.task_mut(task).effective = effective;
            return;
        }
        self.leave_line(task);
        self.task_mut(task).effective = effective;
        let line = &mut self.lines[effective as usize];
        if task == self.running {
            line.insert(0, task);
        } else {
            line.push(task);
        }
        self.occupied |= 1 << effective;
    }

    /// "the head of its line goes to the tail"; the running task heads its line.
    pub fn turn_running_line(&mut self) {
        let priority = self.task(self.running).effective as usize;
        let line = &mut self.lines[priority];
        if line.len() > 1 {
            line.rotate_left(1);
        }
    }

    /// A delayed or waiting task ends that: it leaves the remembered order and, if it waits
    /// on an object, the object's list.
    pub fn leave_wait(&mut self, task: TaskSlot) {
        let place = self.began.iter().position(|&other| other == task).expect("a blocked task is in the order");
        self.began.remove(place);
        if let Stand::Waiting { object, .. } = self.task(task).stand {
            let waiters = &mut self.object_mut(object).waiters;
            let place = waiters.iter().position(|&other| other == task).expect("a waiter is in its object's list");
            waiters.remove(place);
        }
    }

    /// "First waiter: highest effective priority, then earliest arrival."
    pub fn first_waiter(&self, object: ObjectSlot) -> Option<TaskSlot> {
        self.first_waiter_that(object, |_| true)
    }

    /// The same among those who are meant.
    pub fn first_waiter_that(&self, object: ObjectSlot, is_meant: impl Fn(TaskSlot) -> bool) -> Option<TaskSlot> {
        let mut first: Option<TaskSlot> = None;
        for &waiter in self.object(object).waiters.iter().filter(|&&waiter| is_meant(waiter)) {
            match first {
                Some(best) if self.task(best).effective >= self.task(waiter).effective => {}
                _ => first = Some(waiter),
            }
        }
        first
    }

    /// A waiter leaves its object "and is made ready, outcome 1".
    pub fn wake_waiter(&mut self, waiter: TaskSlot) {
        self.leave_wait(waiter);
        self.task_mut(waiter).outcome = Outcome::Done;
        self.make_ready(waiter);
    }

    /// The same for the first waiter.
    pub fn wake_first_waiter(&mut self, object: ObjectSlot) -> Option<TaskSlot> {
        let waiter = self.first_waiter(object)?;
        self.wake_waiter(waiter);
        Some(waiter)
    }

    /// "The wake tick is the tick count plus the wait, wrapped at 2^32".
    pub fn wake_tick(&self, wait: u32) -> Option<u32> {
        if wait == FOR_EVER {
            None
        } else {
            Some(self.tick.wrapping_add(wait))
        }
    }

    /// "A delay or wait sets it to 0 as it begins." The caller leaves its line, and is the
    /// last that began.
    fn block_running(&mut self, stand: Stand) {
        let caller = self.running;
        self.leave_line(caller);
        let slot = self.task_mut(caller);
        slot.stand = stand;
        slot.outcome = Outcome::None;
        self.began.push(caller);
    }

    pub fn delay_running(&mut self, ticks: u32) {
        let wake = self.tick.wrapping_add(ticks);
        self.block_running(Stand::Delayed { wake });
    }

    pub fn wait_running(&mut self, object: ObjectSlot, role: Role, wait: u32) {
        let wake = self.wake_tick(wait);
        self.block_running(Stand::Waiting { object, role, wake });
        let caller = self.running;
        self.object_mut(object).waiters.push(caller);
    }

    /// One tick's count and wakes, and then the loans. "the count goes up, then the due tasks are made ready",
    /// "a delayed one with outcome 1, a waiting one leaving its object with outcome 2".
    /// "Among tasks due on one tick, make ready first whoever began its delay or wait
    /// earlier."
    pub fn count_and_wake(&mut self) {
        // "after which it returns to 0"
        self.tick = self.tick.wrapping_add(1);
        // "the task is due when the count equals it"
        let is_due = |task: &TaskSlot| self.task(*task).wake() == Some(self.tick);
        let due: Vec<TaskSlot> = self.began.iter().copied().filter(is_due).collect();
        for task in due {
            let delayed = matches!(self.task(task).stand, Stand::Delayed { .. });
            self.leave_wait(task);
            self.task_mut(task).outcome = if delayed { Outcome::Done } else { Outcome::TimeRanOut };
            self.make_ready(task);
        }
        self.work_out_loans();
    }
}
