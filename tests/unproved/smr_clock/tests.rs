// Two workers leave and come, on another thread each time, while a third retires and polls.
use crate::{Bare, Clock, Goal, Pass, Vacancy};
use std::sync::atomic::{AtomicU64, Ordering};
use std::test::Fail;
use std::thread::{Threads, join};

/// How often each of the two leaves and comes.
const STAYS: u64 = 1_000;

/// How many sections a stay has, and how often each looks at the hands.
const SECTIONS: u64 = 4;

const LOOKS: u64 = 8;

const WINDOW: u64 = 64;

/// What the threads tell each other.
#[derive(Drop)]
struct Tally {
    /// The greatest goal that a yes was said of.
    said: AtomicU64,
    /// Sections whose entry mark is known.
    marked: AtomicU64,
    /// How many of those were before a goal that a yes was said of, or below the read hand.
    strays: AtomicU64,
    /// Whether the two have gone.
    gone: AtomicU64,
}

/// A section. Where the write hand is the same before and behind its enter, that hand is its entry mark.
fn section(clock: &Clock<Bare>, tally: &Tally, pass: &mut Pass<Bare>) {
    let (_, before) = clock.hands(pass);
    if clock.enter(pass).is_err() {
        return;
    }
    let (_, mark) = clock.hands(pass);
    if before == mark {
        tally.marked.fetch_add(1, Ordering::SeqCst);
        for _ in 0..LOOKS {
            let (read, _) = clock.hands(pass);
            if read > mark || tally.said.load(Ordering::SeqCst) > mark {
                tally.strays.fetch_add(1, Ordering::SeqCst);
            }
        }
    }
    clock.exit(pass);
}

/// A worker comes, and leaves after some sections.
fn stay(clock: &Clock<Bare>, tally: &Tally, vacancy: Vacancy<Bare>) -> Vacancy<Bare> {
    let mut pass = clock.come(vacancy);
    for _ in 0..SECTIONS {
        section(clock, tally, &mut pass);
    }
    clock.leave(pass)
}

/// Both stay at the same time, again and again. Who was on the one thread is on the other the next time.
fn stays<R: Threads + Sync>(
    rt: &R,
    clock: &Clock<Bare>,
    tally: &Tally,
    first: Vacancy<Bare>,
    second: Vacancy<Bare>,
) {
    let mut here = first;
    let mut there = second;
    for _ in 0..STAYS {
        let (one, other) = join(
            rt,
            move || stay(clock, tally, here),
            move || stay(clock, tally, there),
        );
        here = other;
        there = one;
    }
    tally.gone.store(1, Ordering::SeqCst);
}

/// Advances where there is room, and polls the last goal. Answers whether the hands were right.
fn retires(
    clock: &Clock<Bare>,
    tally: &Tally,
    pass: &mut Pass<Bare>,
    last: &mut Option<Goal>,
) -> bool {
    if let Ok(goal) = clock.advance(pass) {
        *last = Some(goal);
    }
    let mut note = clock.note(pass);
    if let Some(goal) = last {
        if clock.poll(&mut note, goal) {
            tally.said.store(goal.number, Ordering::SeqCst);
        }
    }
    clock.absorb(pass, note);
    let (read, write) = clock.hands(pass);
    read % 2 == 1 && write % 2 == 1 && read <= write && write - read <= WINDOW
}

/// Until both have gone. Answers whether the hands were right all the time.
fn retires_on(clock: &Clock<Bare>, tally: &Tally, pass: Pass<Bare>) -> bool {
    let mut pass = pass;
    let mut last = None;
    let mut right = true;
    while tally.gone.load(Ordering::SeqCst) == 0 {
        right &= retires(clock, tally, &mut pass, &mut last);
    }
    right && retires(clock, tally, &mut pass, &mut last)
}

#[test]
fn no_section_of_who_came_is_before_a_goal_that_a_yes_was_said_of(rt: HostRuntime) -> Result<(), Fail> {
    let (clock, mut passes) = Clock::<Bare>::new(rt.alloc(), 3, 4_294_967_001, WINDOW)?;
    let tally = Tally {
        said: AtomicU64::new(0),
        marked: AtomicU64::new(0),
        strays: AtomicU64::new(0),
        gone: AtomicU64::new(0),
    };
    let (Some(third), Some(second), Some(first)) = (passes.pop(), passes.pop(), passes.pop()) else {
        return Err("no passes".into());
    };
    let (first, second) = (clock.leave(first), clock.leave(second));
    let (_, right) = join(
        &rt,
        || stays(&rt, &clock, &tally, first, second),
        || retires_on(&clock, &tally, third),
    );
    assert!(rt; right);
    assert_eq!(rt; tally.strays.load(Ordering::SeqCst), 0);
    assert!(rt; tally.said.load(Ordering::SeqCst) > 4_294_967_001);
    assert!(rt; tally.marked.load(Ordering::SeqCst) > 0);
    Ok(())
}
