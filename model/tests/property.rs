//! Random journals with the self-check on, and what a long journal must exercise.

mod common;

use common::answers;
use model::calls::{Answer, Call, Named};
use model::damage;
use model::journal::{journal, Author};
use model::kernel::{apart, Stand, TaskSlot};
use model::line::{read_call, ITEM_BYTES};
use model::machine::Machine;
use std::collections::{BTreeSet, VecDeque};

#[test]
fn every_kernel_on_the_way_is_sound() {
    let mut lines = 0;
    for seed in 0..150 {
        let journal = journal(seed, 2_000);
        lines += answers(&journal).iter().filter(|&&byte| byte == b'\n').count();
    }
    assert_eq!(lines, 300_000);
}

/// What 280,000 lines must exercise, and how often at least.
const EVENTS: [(&str, u64); 411] = [
    ("advance: 0 ticks refused", 10),
    ("advance: 100 ticks and more by one of several in a line", 100),
    ("advance: 4,294,967,295 ticks refused", 5),
    ("advance: 65,535 ticks", 10),
    ("advance: 65,536 ticks refused", 10),
    ("advance: a line of several turned", 1_000),
    ("advance: a loan ends", 1_000),
    ("advance: a loan ends over several links", 200),
    ("advance: a loan ends, a smaller one stays", 150),
    ("advance: a receiver timed out", 200),
    ("advance: a sender timed out", 200),
    ("advance: a taker timed out", 500),
    ("advance: a taker timed out, nobody falls", 800),
    ("advance: a task with a loan woken", 250),
    ("advance: a task woken as its loan ends", 200),
    ("advance: a wait on an event group ran out", 330),
    ("advance: a waiter timed out at count above 1", 350),
    ("advance: a wake tick smaller than the count", 1_000),
    ("advance: a wake tick smaller than the count, and others due", 1_000),
    ("advance: alone in the line and nobody due", 1_000),
    ("advance: alone in the line, due on the last tick", 200),
    ("advance: began earlier, woken on a later tick into one line", 100),
    ("advance: by a task with a loan", 350),
    ("advance: due one tick after the last", 200),
    ("advance: less than a round of the line", 200),
    ("advance: more ticks than the line is long", 500),
    ("advance: moved behind a task woken into that line", 40),
    ("advance: nobody due", 1_000),
    ("advance: one task due", 1_000),
    ("advance: out of range and with a hold", 10),
    ("advance: over 50,000 turns", 5),
    ("advance: overtaken, then a higher line turned", 100),
    ("advance: overtaken, then more ticks", 500),
    ("advance: refused with a hold", 50),
    ("advance: refused with ticks pended", 50),
    ("advance: running task overtaken", 1_000),
    ("advance: running task overtaken twice", 100),
    ("advance: several tasks due on one tick", 500),
    ("advance: tasks due on different ticks", 500),
    ("advance: tasks due on four ticks and more", 20),
    ("advance: the end of a chain timed out", 200),
    ("advance: the middle of a chain timed out", 200),
    ("advance: the running task comes before others", 100),
    ("advance: the running task's loan ends", 150),
    ("advance: turned behind a woken task", 500),
    ("advance: two loans end, both holders move", 60),
    ("advance: two move into one line", 15),
    ("advance: two move into one line, not as they stood", 10),
    ("advance: whole rounds of the line", 200),
    ("advance: woken together into one line, not in order of slots", 100),
    ("advance: woken together, begun on different ticks", 200),
    ("advance: woken together, not in order of slots", 500),
    ("advance: woken together, one delayed and one waiting", 200),
    ("again: a loan ends by a timeout at count above 1", 350),
    ("again: a timed wait", 950),
    ("again: a wait for ever", 750),
    ("again: a wait under a hold is 8", 300),
    ("again: after a give", 450),
    ("again: an ordinary mutex is 12 where a recursive one was", 90),
    ("again: an ordinary mutex is 12, another is at count above 1", 20),
    ("again: another one is at count above 1", 190),
    ("again: by one to whom it was handed on", 700),
    ("again: count 10 to 254", 1_600),
    ("again: count 2", 500),
    ("again: count 255", 12),
    ("again: count 3 to 9", 1_000),
    ("again: idle's take of a recursive mutex is 7", 20),
    ("again: idle's take of a recursive mutex with a wait is 7", 20),
    ("again: others wait on it", 1_200),
    ("again: under a hold", 600),
    ("again: wait 0", 1_600),
    ("again: with a loan", 800),
    ("bits: 16,777,216 is 4", 35),
    ("bits: 4 before 5", 45),
    ("bits: a holder waits", 820),
    ("bits: a mask above the 24 is 4", 19),
    ("bits: a mutex is no event group, 5", 100),
    ("bits: a queue is no event group, 5", 35),
    ("bits: a task with a loan waits", 140),
    ("bits: a wait ran out with some bits set", 480),
    ("bits: a wait under a hold is 8", 18),
    ("bits: a wait under a hold where satisfied is 8", 25),
    ("bits: an empty mask is 4", 14),
    ("bits: an event group is no mutex, 5", 25),
    ("bits: an event group is no queue, 5", 16),
    ("bits: an event group's slot by another use, 5", 330),
    ("bits: at once, a timed wait", 190),
    ("bits: at once, a wait for ever", 60),
    ("bits: at once, all, cleared", 65),
    ("bits: at once, all, kept", 70),
    ("bits: at once, an outcome stays", 400),
    ("bits: at once, any, cleared", 180),
    ("bits: at once, any, kept", 170),
    ("bits: at once, any, not all of them", 190),
    ("bits: at once, by idle", 20),
    ("bits: at once, cleared bits of one who waits for all", 35),
    ("bits: at once, cleared, others stay", 210),
    ("bits: at once, others wait", 180),
    ("bits: at once, under a hold", 120),
    ("bits: at once, wait 0", 240),
    ("bits: cleared above the 24 is 4", 35),
    ("bits: idle's wait 0 is 14", 16),
    ("bits: idle's wait is 7", 13),
    ("bits: idle's wait where satisfied is 7", 9),
    ("bits: only all above 1 is 4", 20),
    ("bits: only clear above 1 is 4", 20),
    ("bits: set above the 24 is 4", 35),
    ("bits: several waits ran out in one call", 75),
    ("bits: the fifth to wait, and more", 130),
    ("bits: wait 0 for all, none is set, is 14", 110),
    ("bits: wait 0 for all, some are set, is 14", 40),
    ("bits: wait 0 for any is 14", 110),
    ("bits: wait 0 under a hold is 14", 25),
    ("bits: waits behind others", 1_300),
    ("bits: waits for all, none is set", 930),
    ("bits: waits for all, some are set", 510),
    ("bits: waits for any", 870),
    ("bits: waits for any, others are set", 560),
    ("bits: waits for ever", 700),
    ("bits: waits some ticks", 1_600),
    ("bits: waits to clear", 1_200),
    ("bits: waits to keep", 1_000),
    ("bits: waits with a mask of all 24", 100),
    ("chain: five links and more stand", 400),
    ("chain: of all fifteen tasks stands", 25),
    ("chain: ten links and more stand", 300),
    ("chain: three links and more stand", 4_000),
    ("circle: a timed wait", 100),
    ("circle: a wait for ever", 80),
    ("circle: a wait under a hold is 8", 25),
    ("circle: of all fifteen tasks", 5),
    ("circle: of eight to fourteen", 20),
    ("circle: of four to seven", 60),
    ("circle: of three", 60),
    ("circle: of two", 200),
    ("circle: others wait on the caller's mutex at count above 1", 100),
    ("circle: several wait on that mutex already", 6),
    ("circle: the caller holds several", 150),
    ("circle: the holder holds several", 50),
    ("circle: the holder's own take is 12, others wait for it", 60),
    ("circle: the mutex is at count above 1", 30),
    ("circle: the same take again", 120),
    ("circle: under a hold", 50),
    ("circle: wait 0", 150),
    ("circle: with ticks pended", 10),
    ("clear: 0 bits", 45),
    ("clear: all 24 bits", 30),
    ("clear: bits of one who waits for all", 50),
    ("clear: bits that were not set", 260),
    ("clear: bits that were set", 310),
    ("clear: by idle", 30),
    ("clear: others stay", 450),
    ("clear: some wait", 310),
    ("clear: under a hold", 140),
    ("create: a slot below the last one", 100),
    ("create: a slot used again", 1_000),
    ("create: a use above 255", 20),
    ("delete: a delayed task", 100),
    ("delete: a holder after a give is 10", 45),
    ("delete: a holder at count above 1 is 10", 90),
    ("delete: a waiter", 100),
    ("delete: a waiter at count above 1", 70),
    ("delete: a waiter on an event group", 210),
    ("delete: a waiter, its loan ends", 100),
    ("delete: a waiter, its loan ends over several links", 15),
    ("delete: a waiter, other loans stay", 90),
    ("delete: the caller", 100),
    ("first waiter: earliest of equals", 100),
    ("first waiter: not the earliest", 100),
    ("full: a timed wait", 9),
    ("full: a wait for ever", 7),
    ("full: a wait under a hold is 8", 2),
    ("full: another waits", 3),
    ("full: another's take is 14", 3),
    ("full: by one to whom it was handed on", 15),
    ("full: nobody waits on it", 7),
    ("full: others wait on it", 25),
    ("full: under a hold", 4),
    ("full: wait 0", 20),
    ("give: a recursive mutex is handed on", 400),
    ("give: a smaller loan stays", 3),
    ("give: by another at count above 1 is 11", 90),
    ("give: first waiter by what is lent to it", 3),
    ("give: loan ends, another mutex still held", 100),
    ("give: loan kept, another mutex still held", 100),
    ("give: of a free recursive mutex is 11", 40),
    ("give: once too often is 11", 20),
    ("give: one off, a loan along a chain stays", 80),
    ("give: one off, down to 1, others wait", 130),
    ("give: one off, nobody waits", 1_700),
    ("give: one off, others wait", 1_400),
    ("give: one off, the loan stays", 850),
    ("give: one off, under a hold", 900),
    ("give: own priority comes back", 100),
    ("give: passed to a waiter", 100),
    ("give: the last of 255 by one to whom it was handed on", 2),
    ("give: the last of 255, it is free", 2),
    ("give: the last of 255, it is handed on", 2),
    ("give: the last of several by one to whom it was handed on, it is free", 40),
    ("give: the last of several, it is free", 300),
    ("give: the last of several, it is handed on", 110),
    ("give: the last of several, it is handed on and others wait", 35),
    ("give: the last of several, it is handed on once more", 20),
    ("give: the last of several, the loan ends", 80),
    ("give: the new holder has a loan", 40),
    ("give: the new holder has waiters of its own", 50),
    ("give: waiters stay", 60),
    ("hold: a higher line is occupied", 100),
    ("hold: depth 255 reached", 5),
    ("idle: calls", 100),
    ("idle: shares its line", 100),
    ("make: a queue where a recursive mutex was", 500),
    ("make: a recursive mutex in a slot used again", 350),
    ("make: a slot below the last one", 100),
    ("make: a slot used again", 1_000),
    ("make: a use above 255", 20),
    ("make: an event group in a slot used again", 210),
    ("make: an event group where a recursive mutex was", 210),
    ("make: an ordinary mutex where a recursive one was", 350),
    ("object: 1,048,576 and more", 200),
    ("object: a free slot's next number", 50),
    ("object: a use too high", 200),
    ("object: an old number, another object in its slot", 1_000),
    ("object: an old number, its slot free", 50),
    ("object: refused for the use alone", 1_000),
    ("receive: a waiting sender's item moved in", 100),
    ("receive: first wrapped to 0", 100),
    ("receive: from a recursive mutex is 5", 45),
    ("receive: moved in at capacity above 8", 100),
    ("receive: waits on an empty queue", 100),
    ("release: a loan ends", 300),
    ("release: a loan ends over several links", 80),
    ("release: a loan ends, a smaller one stays", 30),
    ("release: a taker timed out, nobody falls", 300),
    ("release: a task woken as its loan ends", 100),
    ("release: a wait of over 60,000 ticks ran out", 1),
    ("release: a wait on an event group ran out", 100),
    ("release: a waiter timed out at count above 1", 120),
    ("release: another task runs", 100),
    ("release: began earlier, woken on a later tick into one line", 200),
    ("release: moved behind a task woken into that line", 20),
    ("release: over 60,000 pended ticks run", 1),
    ("release: several pended ticks run", 100),
    ("release: several tasks woken by pended ticks", 500),
    ("release: the end of a chain timed out", 90),
    ("release: the middle of a chain timed out", 50),
    ("release: the running task comes before others", 20),
    ("release: the running task's loan ends", 40),
    ("release: two loans end, both holders move", 30),
    ("release: two move into one line", 10),
    ("release: two move into one line, not as they stood", 6),
    ("release: woken together into one line, not in order of slots", 200),
    ("release: woken together, begun on different ticks", 200),
    ("release: woken together, not in order of slots", 400),
    ("release: woken together, one delayed and one waiting", 400),
    ("remove: a mutex after a give is 10", 60),
    ("remove: a mutex at count above 1 is 10", 130),
    ("remove: a queue with items", 100),
    ("remove: a recursive mutex", 350),
    ("remove: a recursive mutex that was taken again", 30),
    ("remove: an event group", 210),
    ("remove: an event group with bits", 85),
    ("remove: an event group with waiters is 10", 170),
    ("resume: a holder at count above 1", 300),
    ("resume: a task with a loan", 150),
    ("running task overtaken", 100),
    ("running task: comes before others", 400),
    ("running task: its line changes under a hold", 150),
    ("running task: its line goes down, another runs", 800),
    ("running task: its line goes up", 100),
    ("runs: a task in a slot used again", 1_000),
    ("send: appended past the ring's end", 100),
    ("send: part of 512 bytes all used", 100),
    ("send: passed to a waiting receiver", 100),
    ("send: size 0", 100),
    ("send: size 64", 100),
    ("send: to a recursive mutex is 5", 40),
    ("send: waits on a full queue", 100),
    ("set priority: a holder above its loan", 40),
    ("set priority: a holder lower, down to its loan", 40),
    ("set priority: a holder lower, its loan stays", 100),
    ("set priority: a holder lower, nothing lent", 700),
    ("set priority: a ready holder moves", 100),
    ("set priority: a waiter", 100),
    ("set priority: a waiter lower, other loans stay", 150),
    ("set priority: a waiter on an event group", 150),
    ("set priority: down, passed over one link", 150),
    ("set priority: down, passed over three links and more", 10),
    ("set priority: down, passed over two links", 30),
    ("set priority: idle to 0", 100),
    ("set priority: the caller", 100),
    ("set priority: up, passed over one link", 100),
    ("set priority: up, passed over three links and more", 15),
    ("set priority: up, passed over two links", 30),
    ("set: 0 bits", 120),
    ("set: 0 bits, some wait", 75),
    ("set: a clear takes bits of an earlier set", 80),
    ("set: a clear takes bits of one who goes on waiting", 75),
    ("set: a clear would have starved another", 220),
    ("set: a clear would have starved another, judged in reverse", 210),
    ("set: a holder woken", 440),
    ("set: a slip gets bits beside the mask", 990),
    ("set: a task with a loan woken", 55),
    ("set: a timed wait ends", 660),
    ("set: a timed wait ends, one tick before its time", 55),
    ("set: a wait for ever ends", 530),
    ("set: a woken task runs", 440),
    ("set: all 24 bits", 80),
    ("set: all of several bits", 490),
    ("set: all, with bits of an earlier set", 210),
    ("set: any, not all of them", 160),
    ("set: bits beside the cleared ones stay", 310),
    ("set: bits in three bytes of a slip", 400),
    ("set: bits that were set already", 220),
    ("set: by idle", 120),
    ("set: nobody clears", 170),
    ("set: nobody satisfied", 310),
    ("set: nobody waits", 570),
    ("set: nothing is left", 95),
    ("set: one by all and one by any", 190),
    ("set: one clears", 260),
    ("set: one keeps what another clears", 200),
    ("set: one woken", 260),
    ("set: several clear", 160),
    ("set: some woken, others go on waiting", 210),
    ("set: the caller runs on, some are woken", 100),
    ("set: the highest bit", 250),
    ("set: three and more woken", 180),
    ("set: two clear the same bit", 160),
    ("set: two woken", 160),
    ("set: two woken into one line", 160),
    ("set: two woken into one line, not in order of slots", 90),
    ("set: two woken into one line, the earlier owns less", 9),
    ("set: under a hold", 420),
    ("set: woken behind others of its line", 180),
    ("set: woken in another order than they came", 80),
    ("set: woken under a hold", 65),
    ("suspend: a delayed task", 100),
    ("suspend: a holder", 100),
    ("suspend: a holder at count above 1", 300),
    ("suspend: a waiter", 100),
    ("suspend: a waiter at count above 1", 130),
    ("suspend: a waiter on an event group", 130),
    ("suspend: a waiter, its loan ends", 200),
    ("suspend: a waiter, its loan ends over several links", 30),
    ("suspend: a waiter, other loans stay", 200),
    ("suspend: the caller", 100),
    ("suspend: the middle of a chain, a loan ends", 50),
    ("take: a chain of all fifteen tasks", 10),
    ("take: a chain of seven links and more", 120),
    ("take: a chain of three links and more", 500),
    ("take: a chain of two links", 900),
    ("take: a chain to a delayed task", 700),
    ("take: a chain to a ready task", 300),
    ("take: a chain to a suspended task", 400),
    ("take: a chain to a task that waits on a queue", 150),
    ("take: a chain to a task that waits on an event group", 140),
    ("take: a circle before, now the caller's", 2),
    ("take: a circle before, now waits", 15),
    ("take: a free mutex, the caller has waiters", 200),
    ("take: a free recursive mutex", 1_500),
    ("take: a free recursive mutex that was taken again before", 250),
    ("take: a second mutex", 100),
    ("take: by a task with a loan, passed on", 300),
    ("take: lent over three links and more", 70),
    ("take: lent over two links", 150),
    ("take: lent to a ready task along a chain", 80),
    ("take: nobody raised", 3_000),
    ("take: priority lent", 100),
    ("take: priority lent at count above 1", 500),
    ("take: priority lent to a blocked holder", 100),
    ("take: priority lent to a ready holder", 100),
    ("take: priority lent to a suspended holder", 50),
    ("take: priority lent to one who waits on an event group", 60),
    ("take: wait 0 at count above 1 is 14", 110),
    ("take: wait 0 with waiters, the chain ends elsewhere", 25),
    ("take: wait 0, a chain of three links and more ends elsewhere", 40),
    ("take: waits at count above 1", 1_100),
    ("take: with waiters, a chain of three links and more", 25),
    ("take: with waiters, the chain ends elsewhere", 700),
    ("task: 1,048,576 and more", 200),
    ("task: a free slot's next number", 50),
    ("task: a use too high", 200),
    ("task: an old number, another task in its slot", 1_000),
    ("task: an old number, its slot free", 50),
    ("task: refused for the use alone", 1_000),
    ("tick: a line of two or more turned", 100),
    ("tick: a loan ends", 500),
    ("tick: a loan ends over several links", 100),
    ("tick: a loan ends, a smaller one stays", 60),
    ("tick: a taker timed out, nobody falls", 400),
    ("tick: a task woken as its loan ends", 100),
    ("tick: a wait on an event group ran out", 180),
    ("tick: a waiter timed out", 100),
    ("tick: a waiter timed out at count above 1", 190),
    ("tick: moved behind a task woken into that line", 20),
    ("tick: no turn, a higher line was woken", 100),
    ("tick: one task due", 100),
    ("tick: several tasks due together", 1_000),
    ("tick: the end of a chain timed out", 100),
    ("tick: the middle of a chain timed out", 90),
    ("tick: the running task comes before others", 40),
    ("tick: the running task's loan ends", 90),
    ("tick: two loans end, both holders move", 40),
    ("tick: two move into one line", 15),
    ("tick: two move into one line, not as they stood", 8),
    ("tick: woken together into one line, not in order of slots", 250),
    ("tick: woken together, begun on different ticks", 500),
    ("tick: woken together, not in order of slots", 800),
    ("tick: woken together, one delayed and one waiting", 500),
    ("wait: a wake tick smaller than the count", 500),
];

#[test]
fn a_long_journal_meets_every_call_refusal_and_event() {
    let mut author = Author::new(1, 280_000).with_coverage();
    while author.next_line().is_some() {}
    let coverage = author.coverage().unwrap();
    assert_eq!(coverage.lines, 280_000);
    for number in 1..=23 {
        assert!(coverage.accepted[number] >= 500, "call {number}: {}", coverage.accepted[number]);
    }
    for row in 3..=15 {
        assert!(coverage.refused[row] >= 100, "refusal {row}: {}", coverage.refused[row]);
    }
    assert!(coverage.refused[16] >= 5);
    assert!(coverage.refused[17] >= 500, "refusal 17: {}", coverage.refused[17]);
    assert!(coverage.refused[18] >= 50, "refusal 18: {}", coverage.refused[18]);
    for row in [4, 8] {
        assert!(coverage.refused_by_call[&(18, row)] >= 50, "advance, refusal {row}");
    }
    for (number, row, least) in [(19, 9, 50), (20, 9, 50), (21, 4, 20), (22, 4, 20), (23, 4, 50), (23, 14, 200)] {
        let count = coverage.refused_by_call[&(number, row)];
        assert!(count >= least, "call {number}, refusal {row}: {count}");
    }
    for (name, least) in EVENTS {
        let count = coverage.events.get(name).copied().unwrap_or(0);
        assert!(count >= least, "{name}: {count}");
    }
    for name in coverage.events.keys() {
        assert!(EVENTS.iter().any(|(known, _)| known == name), "{name} is counted and not asked for");
    }
    for kind in damage::KINDS {
        let count = coverage.damaged.get(kind).copied().unwrap_or(0);
        let least = if kind == "longer than a read buffer" { 5 } else { 20 };
        assert!(count >= least, "{kind}: {count}");
    }
}

/// Journals long enough for the count to return to 0.
#[test]
fn a_longer_journal_returns_to_0() {
    const RETURNS: [&str; 4] = [
        "count: returned to 0 by a tick",
        "count: returned to 0 by a release",
        "count: returned to 0 by an advance",
        "advance: tasks due before and after the count returned to 0",
    ];
    let mut counts = [0; 4];
    for seed in 1..=8 {
        let mut author = Author::new(seed, 300_000).with_coverage();
        while author.next_line().is_some() {}
        let events = &author.coverage().unwrap().events;
        let count = |name: &str| events.get(name).copied().unwrap_or(0);
        for (row, name) in RETURNS.iter().enumerate() {
            counts[row] += count(name);
        }
    }
    assert!(counts[..3].iter().sum::<u64>() >= 8 && counts.iter().all(|&count| count > 0), "{counts:?}");
}

#[test]
fn advance_leaves_room_for_other_calls() {
    let (mut lines, mut advances) = (0, 0);
    for seed in 1..=20 {
        let mut author = Author::new(seed, 20_000).with_coverage();
        while author.next_line().is_some() {}
        let coverage = author.coverage().unwrap();
        lines += coverage.lines;
        advances += coverage.accepted[18];
    }
    assert!((8..=14).contains(&(lines / advances)), "{advances} of {lines}");
}

#[test]
fn a_seed_gives_one_journal() {
    assert!(journal(3, 5_000) == journal(3, 5_000));
    assert!(journal(3, 5_000) != journal(4, 5_000));
}

/// Numbers beside plain sets of those given out and those not given up since: none is given out twice, and a call whose
/// number is not in the second set is turned away.
#[test]
fn a_number_is_given_out_once() {
    let (mut given_out, mut refused) = (0, 0);
    for seed in 2_000..2_040 {
        let mut machine = Machine::new(false);
        let (mut tasks, mut objects) = (BTreeSet::from([0]), BTreeSet::new());
        let (mut all_tasks, mut all_objects) = (BTreeSet::from([0]), BTreeSet::new());
        for line in journal(seed, 2_000).split_inclusive(|&byte| byte == b'\n') {
            let answer = machine.answer(line);
            let mut item = [0; ITEM_BYTES];
            let Some(call) = read_call(line, &mut item) else { continue };
            let named = match call.named() {
                Named::Nothing => true,
                Named::Task(number) => tasks.contains(&number),
                Named::Object(number) => objects.contains(&number),
            };
            assert!(named || matches!(answer, Answer::Refused(4 | 5)), "{call:?}");
            refused += u64::from(!named);
            match (call, answer) {
                (_, Answer::Refused(_)) => {}
                (Call::Create { .. }, Answer::Made(number)) => {
                    given_out += 1;
                    tasks.insert(number);
                    assert!(all_tasks.insert(number), "{number}");
                }
                (_, Answer::Made(number)) => {
                    given_out += 1;
                    objects.insert(number);
                    assert!(all_objects.insert(number), "{number}");
                }
                (Call::Delete { task }, _) => assert!(tasks.remove(&task)),
                (Call::Remove { object }, _) => assert!(objects.remove(&object)),
                _ => {}
            }
            assert!(tasks.contains(&machine.kernel.running_number()), "the running task exists");
        }
    }
    assert!(given_out >= 2_000 && refused >= 2_000, "{given_out}, {refused}");
}

/// The lines of a journal, with as many single ticks for each accepted advance but the long ones.
fn one_by_one(journal: &[u8]) -> Vec<Vec<u8>> {
    let mut machine = Machine::new(false);
    let mut lines: Vec<Vec<u8>> = Vec::new();
    for line in journal.split_inclusive(|&byte| byte == b'\n') {
        let mut item = [0; ITEM_BYTES];
        match (read_call(line, &mut item), machine.answer(line)) {
            (Some(Call::Advance { ticks: ticks @ ..=300 }), Answer::Done) => {
                lines.extend(vec![b"17\n".to_vec(); ticks as usize])
            }
            _ => lines.push(line.to_vec()),
        }
    }
    lines
}

/// Wakes beside a plain record of the lines on which delays and waits began: in each priority's line the woken stand by
/// the tick on which they were due, then by that line.
#[test]
fn who_began_earlier_is_made_ready_first() {
    let (mut together, mut against_slots) = (0, 0);
    for seed in 3_000..3_060 {
        let mut machine = Machine::new(false);
        let mut began = [0; 16];
        for (at, line) in one_by_one(&journal(seed, 2_000)).iter().enumerate() {
            let before = machine.kernel.clone();
            if machine.answer(line) == Answer::Waiting {
                began[before.running.index()] = at;
            }
            // Of an advance the lines have turned since.
            if machine.kernel.tick == before.tick || line.starts_with(b"18\t") {
                continue;
            }
            for line in &machine.kernel.lines {
                // Whose loan has ended came into this line as it moved.
                let kept = |task: TaskSlot| before.task(task).effective == machine.kernel.task(task).effective;
                let woken: Vec<TaskSlot> =
                    line.iter().copied().filter(|&task| before.is_blocked(task) && kept(task)).collect();
                let moments = woken.iter().map(|&task| {
                    let distance = before.distance(task).expect("a woken task was due");
                    (distance, began[task.index()])
                });
                assert!(moments.is_sorted_by(|first, second| first < second), "seed {seed}, line {}", at + 1);
                together += u64::from(woken.len() > 1);
                against_slots += u64::from(!woken.is_sorted_by_key(|task| task.index()));
            }
        }
    }
    assert!(together >= 1_000 && against_slots >= 500, "{together}, {against_slots}");
}

/// Each queue beside a plain deque of items: what is received is what was sent, in order.
#[test]
fn items_come_out_as_they_went_in() {
    let (mut handed_over, mut taken_out, mut moved_in) = (0, 0, 0);
    for seed in 1_000..1_105 {
        let mut machine = Machine::new(false);
        let mut deques: Vec<VecDeque<Vec<u8>>> = vec![VecDeque::new(); 16];
        let mut waiting_items: Vec<Vec<u8>> = vec![Vec::new(); 16];
        for line in journal(seed, 2_000).split_inclusive(|&byte| byte == b'\n') {
            let before = machine.kernel.clone();
            let answer = machine.answer(line);
            let mut item = [0; ITEM_BYTES];
            let (Some(call), false) = (read_call(line, &mut item), matches!(answer, Answer::Refused(_))) else {
                continue;
            };
            let caller = before.running;
            let woken = TaskSlot::all().find(|&task| {
                matches!(before.task(task).stand, Stand::Waiting { .. })
                    && machine.kernel.task(task).stand == Stand::Ready
            });
            let slip = |task: TaskSlot, length: usize| machine.store[model::store::slip(task, length)].to_vec();
            match call {
                Call::MakeQueue { .. } => {
                    if let Answer::Made(number) = answer {
                        deques[apart(number).0].clear();
                    }
                }
                Call::Send { object, item, .. } => match (answer, woken) {
                    (Answer::Waiting, _) => waiting_items[caller.index()] = item.to_vec(),
                    (_, Some(receiver)) => {
                        handed_over += 1;
                        assert_eq!(slip(receiver, item.len()), item);
                    }
                    _ => deques[apart(object).0].push_back(item.to_vec()),
                },
                Call::Receive { object, .. } if answer != Answer::Waiting => {
                    let deque = &mut deques[apart(object).0];
                    let oldest = deque.pop_front().expect("the queue has an item");
                    taken_out += 1;
                    assert_eq!(slip(caller, oldest.len()), oldest);
                    if let Some(sender) = woken {
                        moved_in += 1;
                        deque.push_back(waiting_items[sender.index()].clone());
                    }
                    assert_eq!(machine.kernel.find_queue(object).unwrap().1.count as usize, deque.len());
                }
                _ => {}
            }
        }
    }
    assert!(handed_over >= 500 && taken_out >= 5_000 && moved_in >= 500, "{handed_over}, {taken_out}, {moved_in}");
}
