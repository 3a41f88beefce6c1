//! The self-check: document 01's soundness sentence, with request 1's clauses on uses,
//! request 3's on the remembered order, request 5's on loans, request 6's on circles, request 7's on
//! counts and request 8's on event groups, over the kernel's own structures, and what can be said of
//! one step by looking at the kernel before and after: the lines, by when each task was last put into
//! one; the takes that are not given back; of an advance, that it is as many single ticks. What a call
//! did to event groups is in `group_check`.

use crate::calls::{single_ticks, step, Answer, Call, Named};
use crate::group_check::{check_bits, check_group_step, check_watcher};
use crate::groups::Group;
use crate::kernel::{
    Kernel, Kind, Mutex, ObjectSlot, Outcome, Role, Stand, Task, TaskSlot, FOR_EVER, IDLE, LAST_USE, MOST_HOLD,
    MOST_PENDED, MOST_TAKES, PRIORITIES, RETIRED, TASKS,
};
use crate::loans::{by_search, by_walks};
use crate::refusals::{refusal, refusal_by_rows, CIRCLE};

pub(crate) fn must(holds: bool, sentence: &str) -> Result<(), String> {
    if holds {
        Ok(())
    } else {
        Err(sentence.to_string())
    }
}

/// The kernel and the store, before a call or after it.
#[derive(Clone, Copy)]
pub struct Seen<'s> {
    pub kernel: &'s Kernel,
    pub store: &'s [u8],
}

/// "A kernel value is sound when: ..."
pub fn soundness(kernel: &Kernel) -> Result<(), String> {
    check_idle(kernel)?;
    check_lines(kernel)?;
    check_waiters(kernel)?;
    check_order(kernel)?;
    for task in TaskSlot::all() {
        check_task(kernel, task)?;
    }
    must(!has_circle(kernel), "there is no circle")?;
    check_loans(kernel)?;
    for object in ObjectSlot::all() {
        check_object(kernel, object)?;
    }
    must(kernel.hold <= MOST_HOLD && kernel.pended <= MOST_PENDED, "counts and places obey the ranges")?;
    must(kernel.hold > 0 || kernel.pended == 0, "with hold 0 nothing is pended")
}

fn check_idle(kernel: &Kernel) -> Result<(), String> {
    let idle = kernel.task(IDLE);
    must(idle.stand == Stand::Ready && idle.own == 0 && idle.effective == 0, "idle is as above")?;
    must(idle.uses == 0, "idle's use is 0")?;
    must(!kernel.holds_a_mutex(IDLE), "idle never waits or holds")
}

fn check_lines(kernel: &Kernel) -> Result<(), String> {
    let mut times_in_a_line = [0; TASKS];
    for (priority, line) in kernel.lines.iter().enumerate() {
        must(
            (kernel.occupied >> priority & 1 == 1) != line.is_empty(),
            "the word of occupied lines repeats the lines",
        )?;
        for &task in line {
            let slot = kernel.task(task);
            must(slot.stand == Stand::Ready, "nobody else stands in a line")?;
            must(slot.effective as usize == priority, "in the line of its effective priority")?;
            times_in_a_line[task.index()] += 1;
        }
    }
    for task in TaskSlot::all() {
        let ready = kernel.task(task).stand == Stand::Ready;
        must(times_in_a_line[task.index()] == usize::from(ready), "each ready task stands once in the line")?;
    }
    let own_line = kernel.task(kernel.running).effective as usize;
    must(kernel.lines[own_line].first() == Some(&kernel.running), "the running task heads its line")?;
    let highest = (0..PRIORITIES).rev().find(|&priority| !kernel.lines[priority].is_empty());
    must(kernel.hold > 0 || highest == Some(own_line), "with hold 0 no higher line is occupied")
}

fn check_waiters(kernel: &Kernel) -> Result<(), String> {
    for object in ObjectSlot::all() {
        let slot = kernel.object(object);
        for (place, &waiter) in slot.waiters.iter().enumerate() {
            must(!slot.waiters[..place].contains(&waiter), "each object lists its waiters once")?;
            let waits_here = matches!(kernel.task(waiter).stand, Stand::Waiting { object: on, .. } if on == object);
            must(waits_here, "and no one else")?;
        }
    }
    for task in TaskSlot::all() {
        if let Stand::Waiting { object, role, .. } = kernel.task(task).stand {
            let slot = kernel.object(object);
            must(slot.waiters.contains(&task), "each object lists its waiters")?;
            match (role, slot.kind) {
                (Role::Receiver, Kind::Queue(queue)) => {
                    must(queue.count == 0, "receivers wait only on an empty queue")?
                }
                (Role::Sender, Kind::Queue(queue)) => {
                    must(queue.count == queue.capacity, "senders only on a full one")?
                }
                (Role::Taker, Kind::Mutex(Mutex { holder: Some(holder), .. })) => {
                    must(holder != task, "takers only on a mutex held by another")?
                }
                (Role::Watcher(wish), Kind::Group(group)) => check_watcher(wish, group)?,
                _ => must(false, "a waiter fits its object")?,
            }
        }
    }
    Ok(())
}

/// "In a sound kernel it has each of them once and no one else, and agrees with each
/// object's list." Those in it who wait on an object are, in this order, the object's list.
fn check_order(kernel: &Kernel) -> Result<(), String> {
    for (place, &task) in kernel.began.iter().enumerate() {
        must(kernel.is_blocked(task), "the order has no one else")?;
        must(!kernel.began[..place].contains(&task), "the order has each of them once")?;
    }
    for task in TaskSlot::all().filter(|&task| kernel.is_blocked(task)) {
        must(kernel.began.contains(&task), "the order has each of them")?;
    }
    for object in ObjectSlot::all() {
        let waits_here =
            |task: &&TaskSlot| matches!(kernel.task(**task).stand, Stand::Waiting { object: on, .. } if on == object);
        let of_object = kernel.began.iter().filter(waits_here);
        must(of_object.eq(&kernel.object(object).waiters), "the order agrees with each object's list")?;
    }
    Ok(())
}

/// "a use is at most 65,536, in a taken slot 65,535"
fn check_use(uses: u32, free: bool) -> Result<(), String> {
    must(uses <= RETIRED, "a use is at most 65,536")?;
    must(free || uses <= LAST_USE, "in a taken slot 65,535")
}

fn check_task(kernel: &Kernel, task: TaskSlot) -> Result<(), String> {
    let slot = kernel.task(task);
    check_use(slot.uses, slot.is_free())?;
    if slot.is_free() {
        return must(*slot == Task::free(slot.uses), "free slots carry the fresh values");
    }
    must((slot.own.max(slot.effective) as usize) < PRIORITIES, "counts and places obey the ranges")?;
    must(slot.wake() != Some(kernel.tick), "no wake tick of a delayed or waiting task equals the tick count")?;
    must(!kernel.is_blocked(task) || slot.outcome == Outcome::None, "an outcome is 0 if delayed or waiting")
}

/// "a kernel value with one is not sound". A mutex's waiter waits for its holder; such a pair is
/// struck off as soon as that holder waits for nobody any more. What stays then is a circle, and
/// who waits for it.
pub fn has_circle(kernel: &Kernel) -> bool {
    let mut pairs: Vec<(TaskSlot, TaskSlot)> = Vec::new();
    for object in &kernel.objects {
        if let Some(holder) = object.holder() {
            pairs.extend(object.waiters.iter().map(|&waiter| (waiter, holder)));
        }
    }
    loop {
        let waiting: Vec<TaskSlot> = pairs.iter().map(|pair| pair.0).collect();
        pairs.retain(|(_, holder)| waiting.contains(holder));
        if pairs.len() == waiting.len() {
            return !pairs.is_empty();
        }
    }
}

/// "Soundness and demand 3's last sentence read this rule from now on".
fn check_loans(kernel: &Kernel) -> Result<(), String> {
    let effective = by_walks(kernel, |_| true);
    must(kernel.tasks.map(|task| task.effective) == effective, "effective is what the rule of loans says")
}

fn check_object(kernel: &Kernel, object: ObjectSlot) -> Result<(), String> {
    let slot = kernel.object(object);
    check_use(slot.uses, slot.is_free())?;
    match slot.kind {
        Kind::Free => must(slot.waiters.is_empty(), "free slots carry the fresh values"),
        Kind::Queue(queue) => {
            let product = u32::from(queue.capacity) * u32::from(queue.size);
            let shape = (1..=64).contains(&queue.capacity) && queue.size <= 64 && product <= 512;
            let places = queue.first < queue.capacity && queue.count <= queue.capacity;
            must(shape && places, "counts and places obey the ranges")
        }
        Kind::Mutex(mutex) => {
            let exists = mutex.holder.is_none_or(|holder| !kernel.task(holder).is_free());
            must(exists, "holders exist")?;
            check_count(mutex)
        }
        Kind::Group(group) => check_bits(group),
    }
}

/// "up to 255 times in all"; an ordinary one is taken once. Without a holder there is no count.
fn check_count(mutex: Mutex) -> Result<(), String> {
    let most = if mutex.recursive { MOST_TAKES } else { 1 };
    match mutex.holder {
        Some(_) => {
            must((1..=most).contains(&mutex.count), "the count of a held mutex is 1 to 255, of an ordinary one 1")
        }
        None => must(mutex.count == 0, "a free mutex has no count"),
    }
}

/// A step with every assertion around it.
pub fn checked_step(kernel: &mut Kernel, store: &mut [u8], call: &Call) -> Answer {
    let before = kernel.clone();
    let store_before = store.to_vec();
    let by_rows = refusal_by_rows(kernel, store, call);
    let by_call = refusal(kernel, store, call);
    assert_eq!(by_call, by_rows, "the two readings of the refusal table differ on {call:?} in {before:?}");
    let answer = step(kernel, store, call);
    let (old, new) = (Seen { kernel: &before, store: &store_before }, Seen { kernel, store });
    let verdict = soundness(kernel).and_then(|()| check_step(old, call, answer, new));
    if let Err(sentence) = verdict {
        panic!("{sentence}\ncall {call:?}\nanswer {answer:?}\nbefore {before:?}\nafter {kernel:?}");
    }
    answer
}

fn check_step(old: Seen, call: &Call, answer: Answer, new: Seen) -> Result<(), String> {
    let (before, after) = (old.kernel, new.kernel);
    if let Answer::Refused(row) = answer {
        must(before == after && old.store == new.store, "the kernel and all lent bytes stay")?;
        return match *call {
            Call::Take { object, .. } if row == CIRCLE => check_turned_down(before, object),
            _ => Ok(()),
        };
    }
    let caller = before.running;
    must(
        (answer == Answer::Waiting) == after.is_blocked(caller),
        "waiting is given exactly if the caller is now delayed or waits",
    )?;
    let may_store =
        matches!(call, Call::Send { .. } | Call::Receive { .. } | Call::SetBits { .. } | Call::WaitBits { .. });
    must(old.store == new.store || may_store, "no other call changes the store")?;
    must(before.hold == 0 || after.hold == 0 || caller == after.running, "with a hold, the running task stays")?;
    must(by_search(after) == by_walks(after, |_| true), "a search and walks find the same loans")?;
    check_uses(before, call, answer, after)?;
    check_takes(before, call, answer, after)?;
    check_group_step(old, call, answer, new)?;
    if let Answer::Made(number) = answer {
        check_made(before, call, number, after)?;
    }
    for object in ObjectSlot::all() {
        check_arrival(&before.object(object).waiters, &after.object(object).waiters, caller)?;
    }
    check_arrival(&before.began, &after.began, caller)?;
    match *call {
        Call::Advance { ticks } => check_advance(before, ticks, after),
        _ if after.tick != before.tick => check_places(before, &moments_of_ticks(before, after.tick), call, after),
        _ => check_places(before, &moments_of_call(before, after), call, after),
    }
}

/// Had the caller begun to wait, there would be a circle.
fn check_turned_down(before: &Kernel, object: u32) -> Result<(), String> {
    let mut kernel = before.clone();
    let (object, _) = kernel.find_mutex(object).ok_or("a take refused as a circle names a mutex")?;
    kernel.wait_running(object, Role::Taker, FOR_EVER);
    must(has_circle(&kernel), "a take refused as a circle would close one")
}

/// "in order of arrival", and the order in which delays and waits began: who stays keeps
/// the order, and only the caller can come, last.
fn check_arrival(old: &[TaskSlot], new: &[TaskSlot], caller: TaskSlot) -> Result<(), String> {
    let stayed: Vec<TaskSlot> = old.iter().copied().filter(|task| new.contains(task)).collect();
    let came = &new[stayed.len().min(new.len())..];
    must(new.starts_with(&stayed), "who stays keeps the order of arrival")?;
    must(came.is_empty() || came == [caller], "only the caller can begin to wait")
}

/// When a task was last put into a line within a call: on which of its ticks, whether as its
/// line changed and not as it was made ready, and which of those.
type Moment = (u32, bool, usize);

/// "Among tasks due on one tick, make ready first whoever began its delay or wait earlier";
/// then "tasks whose line changes move in order of task number". So for each tick up to this
/// count, by the waits that are left after it.
fn moments_of_ticks(before: &Kernel, count: u32) -> [Option<Moment>; TASKS] {
    let ticks = count.wrapping_sub(before.tick);
    let within = |task: TaskSlot, ticks: u32| before.distance(task).is_some_and(|distance| distance <= ticks);
    let mut waking: Vec<u32> = before.began.iter().filter_map(|&task| before.distance(task)).collect();
    waking.retain(|&tick| tick <= ticks);
    waking.sort_unstable();
    waking.dedup();
    let mut moments = [None; TASKS];
    let mut effective = before.tasks.map(|task| task.effective);
    for tick in waking {
        for (place, &task) in before.began.iter().enumerate() {
            if before.distance(task) == Some(tick) {
                moments[task.index()] = Some((tick, false, place));
            }
        }
        let changed = by_walks(before, |task| !within(task, tick));
        for task in TaskSlot::all() {
            let slot = task.index();
            let is_ready = before.task(task).stand == Stand::Ready || within(task, tick);
            if is_ready && changed[slot] != effective[slot] {
                moments[slot] = Some((tick, true, slot));
            }
        }
        effective = changed;
    }
    moments
}

/// The same for a call that runs no tick: a set makes several ready in first-waiter order, which in
/// one line is that of arrival, another call at most one; and then those whose line changes move.
fn moments_of_call(before: &Kernel, after: &Kernel) -> [Option<Moment>; TASKS] {
    std::array::from_fn(|slot| {
        let (old, new) = (&before.tasks[slot], &after.tasks[slot]);
        let was = if old.is_free() { new.own } else { old.effective };
        match new.stand {
            Stand::Ready if new.effective != was => Some((0, true, slot)),
            Stand::Ready if old.stand != Stand::Ready => {
                let place = before.began.iter().position(|task| task.index() == slot);
                Some((0, false, place.unwrap_or(0)))
            }
            _ => None,
        }
    })
}

/// Each line has those who stayed, then those who came as they came; but a running task comes
/// to the head. A turn is last.
fn check_places(before: &Kernel, moments: &[Option<Moment>; TASKS], call: &Call, after: &Kernel) -> Result<(), String> {
    let caller = before.running;
    let mut came: Vec<TaskSlot> = TaskSlot::all().filter(|task| moments[task.index()].is_some()).collect();
    came.sort_by_key(|task| moments[task.index()]);
    let turns = match call {
        Call::Yield | Call::Delay { ticks: 0 } => true,
        Call::Tick => before.hold == 0 && after.highest_line() == after.task(caller).effective as usize,
        _ => false,
    };
    for (priority, line) in after.lines.iter().enumerate() {
        let stayed = |task: &&TaskSlot| after.task(**task).stand == Stand::Ready && moments[task.index()].is_none();
        let of_line = |task: &&TaskSlot| after.task(**task).effective as usize == priority;
        let mut wanted: Vec<TaskSlot> = before.lines[priority].iter().filter(stayed).copied().collect();
        wanted.extend(came.iter().filter(of_line));
        if let Some(place) = wanted.iter().position(|&task| task == caller) {
            wanted[..=place].rotate_right(1);
            if turns {
                wanted.rotate_left(1);
            }
        }
        must(*line == wanted, "who comes into a line stands as it came, a running task at the head")?;
    }
    Ok(())
}

/// "the result must equal n single ticks one by one". Here each of them is run, and looked at
/// if it wakes somebody.
fn check_advance(before: &Kernel, ticks: u32, after: &Kernel) -> Result<(), String> {
    let mut kernel = before.clone();
    for _ in 0..ticks {
        let was = (kernel.quiet_ticks() == 0).then(|| kernel.clone());
        single_ticks(&mut kernel, 1);
        if let Some(was) = was {
            check_places(&was, &moments_of_ticks(&was, kernel.tick), &Call::Tick, &kernel)?;
        }
    }
    must(kernel == *after, "the result must equal n single ticks one by one")
}

/// A use "goes up by one at each delete or remove", that of the slot whose number is in the
/// call, and stays otherwise.
fn check_uses(before: &Kernel, call: &Call, answer: Answer, after: &Kernel) -> Result<(), String> {
    let accepted = !matches!(answer, Answer::Refused(_));
    let ends = accepted && matches!(call, Call::Delete { .. } | Call::Remove { .. });
    for task in TaskSlot::all() {
        let ended = ends && call.named() == Named::Task(before.task_number(task));
        let uses = before.task(task).uses + u32::from(ended);
        must(after.task(task).uses == uses, "a task slot's use goes up by one at each delete")?;
    }
    for object in ObjectSlot::all() {
        let ended = ends && call.named() == Named::Object(before.object_number(object));
        let uses = before.object(object).uses + u32::from(ended);
        must(after.object(object).uses == uses, "an object slot's use goes up by one at each remove")?;
    }
    Ok(())
}

/// Who holds this mutex, once for each take that is not given back.
fn takes(kernel: &Kernel, object: ObjectSlot) -> Vec<TaskSlot> {
    match kernel.object(object).kind {
        Kind::Mutex(Mutex { holder: Some(holder), count, .. }) => vec![holder; count as usize],
        _ => Vec::new(),
    }
}

/// A take that does not wait puts the caller on this list, and a give takes one off and puts on it
/// who waits no more. A list with two tasks on it would be no mutex's, so "only the last hands it
/// on". No other call changes it.
fn check_takes(before: &Kernel, call: &Call, answer: Answer, after: &Kernel) -> Result<(), String> {
    for object in ObjectSlot::all() {
        let mut wanted = takes(before, object);
        if answer == Answer::Done && call.named() == Named::Object(before.object_number(object)) {
            match call {
                Call::Take { .. } => wanted.push(before.running),
                Call::Give { .. } => {
                    let waits = |task: &&TaskSlot| after.object(object).waiters.contains(task);
                    wanted.pop();
                    wanted.extend(before.object(object).waiters.iter().filter(|task| !waits(task)));
                }
                _ => {}
            }
        }
        must(takes(after, object) == wanted, "each take puts one on the count, each give takes one off")?;
        if let (Kind::Mutex(old), Kind::Mutex(new)) = (before.object(object).kind, after.object(object).kind) {
            must(old.recursive == new.recursive, "a mutex stays of its kind")?;
        }
    }
    Ok(())
}

/// The new number named nothing, and now names what was made.
fn check_made(before: &Kernel, call: &Call, number: u32, after: &Kernel) -> Result<(), String> {
    let is_mutex = |recursive: bool| after.find_mutex(number).is_some_and(|(_, mutex)| mutex == Mutex::free(recursive));
    let is_new = match call {
        Call::Create { .. } => before.find_task(number).is_none() && after.find_task(number).is_some(),
        Call::MakeQueue { .. } => before.find_object(number).is_none() && after.find_queue(number).is_some(),
        Call::MakeMutex => before.find_object(number).is_none() && is_mutex(false),
        Call::MakeGroup => {
            let made = after.find_group(number).map(|(_, group)| group);
            before.find_object(number).is_none() && made == Some(Group { bits: 0 })
        }
        _ => before.find_object(number).is_none() && is_mutex(true),
    };
    must(is_new, "made with the new number")
}
