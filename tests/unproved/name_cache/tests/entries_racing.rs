ghost use Rattle.std.specs.Prelude.{◌≡◌, ◌<◌, ◌+◌, ◌%◌, ◌^◌, Some, IsSome, IfOk, IfSome};
ghost use Rattle.smr_core.specs.declared.holder.Phase.{Phase};
ghost use Rattle.smr_clock.specs.Belongs.{IsPassOf, holder, setup_of};
ghost use Rattle.name_rows.specs.Belongs.{IsNamesClock};
ghost use Rattle.name_rows.specs.Entries.{IsEntryOf, entry_state};
ghost use Rattle.name_rows.specs.Roots.{IsRootOf};
ghost use Rattle.name_rows.specs.Rows.{IsRowOf};
ghost use Rattle.name_rows.specs.declared.entry.EntryState.{EntryState};

use super::*;
use name_rows::{Entry, Names, Opened, Root, Row, find, link, make, raise, ripe, stamp, write};
use smr_clock::{Clock, Pass};
use std::alloc::Global;
use std::test::Fail;
use std::thread::{Threads, join};
use uma_life::Memory;

/// The values of a key are from this many times the key on.
const SPAN: u64 = 1000;

const TURNS: u64 = 5000;

// A look of a reader. Whether what it found was bound to that key.
fn look(clock: &Clock<Names>, pass: &mut Pass<Names>, key: u64) -> bool
    requires here { IsPassOf clock.now pass.old }
    requires names { IsNamesClock clock.now }
    requires outside { (holder pass.old).phase ≡ Phase.Outside }
    ensures here { IsPassOf clock.now pass.new }
    ensures outside { (holder pass.new).phase ≡ Phase.Outside }
{
    let Ok(()) = clock.enter(pass) else {
        return true;
    };
    let found = find(clock, pass, key);
    clock.exit(pass);
    match found {
        Some(value) => value / SPAN == key,
        None => true,
    }
}

fn looks(clock: &Clock<Names>, mut pass: Pass<Names>) -> bool
    requires here { IsPassOf clock.now pass }
    requires names { IsNamesClock clock.now }
    requires outside { (holder pass).phase ≡ Phase.Outside }
{
    let mut right = true;
    for turn in 0..TURNS {
        if !look(clock, &mut pass, 1 + turn % 2) {
            right = false;
        }
    }
    right
}

// Writes a clean entry, links it, and stamps that which was there.
fn bind(clock: &Clock<Names>, row: &mut Row, entry: Entry, key: u64, value: u64) -> Option<Entry>
    requires here { IsRowOf clock.now row.old × IsEntryOf clock.now entry }
    requires names { IsNamesClock clock.now }
    requires clean { entry_state entry ≡ Some EntryState.Clean }
    ensures here { IsRowOf clock.now row.new }
    ensures other_here { IfSome result (λ other. IsEntryOf clock.now other) }
    ensures words { IfSome result (λ other. IsSome other.words) }
{
    if key % u64::from(clock.plan().0) != u64::from(row.number()) || row.version() >= 1 << 40 {
        return None;
    }
    let mut entry = entry;
    write(clock, &mut entry, key, value);
    let (_version, evicted) = link(clock, row, entry);
    let mut evicted = evicted?;
    stamp(clock, &mut evicted);
    Some(evicted)
}

// The read hand goes on as far as the open sections let it.
fn go_on(clock: &Clock<Names>, pass: &mut Pass<Names>)
    requires here { IsPassOf clock.now pass.old }
    ensures here { IsPassOf clock.now pass.new }
{
    if let Ok(goal) = clock.advance(pass) {
        let mut note = clock.note(pass);
        clock.poll(&mut note, &goal);
    }
}

// A turn of the writer: it binds by the spare entry where that is ripe. Answers the entry that is spare after it.
fn turn(
    clock: &Clock<Names>,
    pass: &mut Pass<Names>,
    row: &mut Row,
    spare: Entry,
    turn: u64,
) -> Option<Entry>
    requires here { IsPassOf clock.now pass.old × IsRowOf clock.now row.old × IsEntryOf clock.now spare }
    requires names { IsNamesClock clock.now }
    requires words { IsSome spare.words }
    ensures here { IsPassOf clock.now pass.new × IsRowOf clock.now row.new }
    ensures spare { IfSome result (λ other. IsEntryOf clock.now other) }
    ensures words { IfSome result (λ other. IsSome other.words) }
{
    go_on(clock, pass);
    let mut spare = spare;
    let Ok(()) = ripe(clock, &mut spare) else {
        return Some(spare);
    };
    let key = 1 + turn % 2;
    bind(clock, row, spare, key, key * SPAN + turn % SPAN)
}

fn turns(clock: &Clock<Names>, mut pass: Pass<Names>, mut row: Row, first: Entry) -> bool
    requires here { IsPassOf clock.now pass × IsRowOf clock.now row × IsEntryOf clock.now first }
    requires names { IsNamesClock clock.now }
    requires words { IsSome first.words }
{
    let mut spare = first;
    for number in 0..TURNS {
        let Some(next) = turn(clock, &mut pass, &mut row, spare, number) else {
            return false;
        };
        spare = next;
    }
    true
}

fn two_look<R: Threads + Sync>(
    rt: &R,
    clock: &Clock<Names>,
    first: Pass<Names>,
    second: Pass<Names>,
) -> bool
    requires here { IsPassOf clock.now first × IsPassOf clock.now second }
    requires names { IsNamesClock clock.now }
    requires outside { ((holder first).phase ≡ Phase.Outside) × ((holder second).phase ≡ Phase.Outside) }
{
    let (one, other) = join(
        rt,
        move || -> bool
            requires { IsPassOf clock.now first × IsNamesClock clock.now × ((holder first).phase ≡ Phase.Outside) }
        { looks(clock, first) },
        move || -> bool
            requires { IsPassOf clock.now second × IsNamesClock clock.now × ((holder second).phase ≡ Phase.Outside) }
        { looks(clock, second) },
    );
    one && other
}

fn three_look<R: Threads + Sync>(
    rt: &R,
    clock: &Clock<Names>,
    first: Pass<Names>,
    second: Pass<Names>,
    third: Pass<Names>,
) -> bool
    requires here { IsPassOf clock.now first × IsPassOf clock.now second × IsPassOf clock.now third }
    requires names { IsNamesClock clock.now }
    requires outside { ((holder first).phase ≡ Phase.Outside) × ((holder second).phase ≡ Phase.Outside) × ((holder third).phase ≡ Phase.Outside) }
{
    let (one, others) = join(
        rt,
        move || -> bool
            requires { IsPassOf clock.now first × IsNamesClock clock.now × ((holder first).phase ≡ Phase.Outside) }
        { looks(clock, first) },
        move || -> bool
            requires { IsPassOf clock.now second × IsPassOf clock.now third × IsNamesClock clock.now × ((holder second).phase ≡ Phase.Outside) × ((holder third).phase ≡ Phase.Outside) }
        { two_look(rt, clock, second, third) },
    );
    one && others
}

// A writer binds two keys of one row in turn while three readers look them up. Whether all went right.
fn race<R: Threads + Sync>(
    rt: &R,
    clock: &Clock<Names>,
    passes: (Pass<Names>, Pass<Names>, Pass<Names>, Pass<Names>),
    row: Row,
    spare: Entry,
) -> bool
    requires here { IsPassOf clock.now passes.0 × IsPassOf clock.now passes.1 × IsPassOf clock.now passes.2 × IsPassOf clock.now passes.3 }
    requires parts_here { IsRowOf clock.now row × IsEntryOf clock.now spare }
    requires names { IsNamesClock clock.now }
    requires words { IsSome spare.words }
    requires outside { ((holder passes.1).phase ≡ Phase.Outside) × ((holder passes.2).phase ≡ Phase.Outside) × ((holder passes.3).phase ≡ Phase.Outside) }
{
    let (writer, first, second, third) = passes;
    let (wrote, right) = join(
        rt,
        move || -> bool
            requires { IsPassOf clock.now writer × IsRowOf clock.now row × IsEntryOf clock.now spare × IsNamesClock clock.now × IsSome spare.words }
        { turns(clock, writer, row, spare) },
        move || -> bool
            requires { IsPassOf clock.now first × IsPassOf clock.now second × IsPassOf clock.now third × IsNamesClock clock.now × ((holder first).phase ≡ Phase.Outside) × ((holder second).phase ≡ Phase.Outside) × ((holder third).phase ≡ Phase.Outside) }
        { three_look(rt, clock, first, second, third) },
    );
    wrote && right
}

// A clock of four seats with one row, and two entries in the root.
fn four_seats(
    alloc: Global,
) -> Result<
    (
        Clock<Names>,
        (Pass<Names>, Pass<Names>, Pass<Names>, Pass<Names>),
        Row,
        Root,
    ),
    Memory,
>
    ensures names { IfOk result (λ made. IsNamesClock made.0) }
    ensures here { IfOk result (λ made. IsPassOf made.0 made.1.0 × IsPassOf made.0 made.1.1 × IsPassOf made.0 made.1.2 × IsPassOf made.0 made.1.3) }
    ensures outside { IfOk result (λ made. ((holder made.1.1).phase ≡ Phase.Outside) × ((holder made.1.2).phase ≡ Phase.Outside) × ((holder made.1.3).phase ≡ Phase.Outside)) }
    ensures row { IfOk result (λ made. IsRowOf made.0 made.2) }
    ensures root { IfOk result (λ made. IsRootOf made.0 made.3) }
{
    let Ok(opened) = make(alloc, 4, 1, 8, 1, 2, 0) else {
        return Err(Memory);
    };
    let Opened {
        clock,
        passes,
        rows,
        root,
    } = opened;
    let mut passes = passes.into_vec();
    let third = passes.pop();
    let second = passes.pop();
    let first = passes.pop();
    let writer = passes.pop();
    let (Some(writer), Some(first), Some(second), Some(third)) = (writer, first, second, third)
    else {
        return Err(Memory);
    };
    let Some(row) = rows.into_vec().pop() else {
        return Err(Memory);
    };
    Ok((clock, (writer, first, second, third), row, root))
}

// An entry that has words, which may be written.
fn clean(clock: &Clock<Names>, root: &mut Root, no: u32) -> Result<Entry, Memory>
    requires here { IsRootOf clock.now root.old }
    requires names { IsNamesClock clock.now }
    ensures here { IsRootOf clock.now root.new }
    ensures entry_here { IfOk result (λ entry. IsEntryOf clock.now entry) }
    ensures words { IfOk result (λ entry. IsSome entry.words) }
    ensures clean { IfOk result (λ entry. entry_state entry ≡ Some EntryState.Clean) }
{
    let mut entry = raise(clock, root, no);
    let Ok(()) = entry.keg_init() else {
        return Err(Memory);
    };
    let Ok(()) = ripe(clock, &mut entry) else {
        return Err(Memory);
    };
    Ok(entry)
}

#[test]
fn readers_find_only_what_was_bound_to_their_key(rt: HostRuntime) -> Result<(), Fail> {
    let (clock, passes, mut row, mut root) = four_seats(rt.alloc())?;
    let first = clean(&clock, &mut root, 0)?;
    let spare = clean(&clock, &mut root, 1)?;
    assert!(rt; bind(&clock, &mut row, first, 1, SPAN).is_none());
    assert!(rt; race(&rt, &clock, passes, row, spare));
    Ok(())
}
