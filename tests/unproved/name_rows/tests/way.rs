ghost use Rattle.std.specs.Prelude.{◌≡◌, ◌<◌, ◌+◌, ◌%◌, ◌^◌, Some, IsSome, IfOk, IfSome};
ghost use Rattle.smr_core.specs.declared.holder.Phase.{Phase};
ghost use Rattle.smr_clock.specs.Belongs.{IsPassOf, holder, setup_of};
ghost use Rattle.name_rows.specs.Belongs.{IsNamesClock};
ghost use Rattle.name_rows.specs.Entries.{IsEntryOf, entry_state};
ghost use Rattle.name_rows.specs.Roots.{IsRootOf};
ghost use Rattle.name_rows.specs.Rows.{IsRowOf};
ghost use Rattle.name_rows.specs.declared.entry.EntryState.{EntryState};

use crate::{
    Entry, Names, Opened, Root, Row, Unripe, find, link, make, raise, ripe, stamp, write,
};
use smr_clock::{AdvanceRefused, Clock, Memory, Pass};
use smr_core::Phase;
use std::alloc::Global;
use std::test::Fail;

// A clock of two seats at 1 and 1, the passes of a writer and of a reader, one row at version 0, and a root of two entries.
fn one_row(alloc: Global) -> Result<(Clock<Names>, Pass<Names>, Pass<Names>, Row, Root), Memory>
    ensures names { IfOk result (λ made. IsNamesClock made.0) }
    ensures plan { IfOk result (λ made. (setup_of made.0).plan ≡ (1, 2)) }
    ensures here { IfOk result (λ made. IsPassOf made.0 made.1 × IsPassOf made.0 made.2) }
    ensures outside { IfOk result (λ made. ((holder made.1).phase ≡ Phase.Outside) × ((holder made.2).phase ≡ Phase.Outside)) }
    ensures row { IfOk result (λ made. IsRowOf made.0 made.3 × (made.3.number ≡ 0) × (made.3.version ≡ 0)) }
    ensures root { IfOk result (λ made. IsRootOf made.0 made.4) }
{
    let Ok(opened) = make(alloc, 2, 1, 8, 1, 2, 0) else {
        return Err(Memory);
    };
    let Opened {
        clock,
        passes,
        rows,
        root,
    } = opened;
    let mut passes = passes.into_vec();
    let second = passes.pop();
    let first = passes.pop();
    let (Some(first), Some(second)) = (first, second) else {
        return Err(Memory);
    };
    let Some(row) = rows.into_vec().pop() else {
        return Err(Memory);
    };
    Ok((clock, first, second, row, root))
}

// Writes a clean entry, links it, and stamps that which was there.
fn bind(clock: &Clock<Names>, row: &mut Row, entry: Entry, key: u64, value: u64) -> Option<Entry>
    requires here { IsRowOf clock.now row.old × IsEntryOf clock.now entry }
    requires names { IsNamesClock clock.now }
    requires clean { entry_state entry ≡ Some EntryState.Clean }
    requires of_row { key % (setup_of clock.now).plan.0 ≡ row.old.number }
    requires low { row.old.version + 2 < 2 ^ 44 }
    ensures here { IsRowOf clock.now row.new }
    ensures other_here { IfSome result (λ other. IsEntryOf clock.now other) }
    ensures row { (row.new.number ≡ row.old.number) × (row.new.version ≡ row.old.version + 1) }
    ensures stamped { IfSome result (λ other. IsSome other.words) }
{
    let mut entry = entry;
    write(clock, &mut entry, key, value);
    let (_version, evicted) = link(clock, row, entry);
    let mut evicted = evicted?;
    stamp(clock, &mut evicted);
    Some(evicted)
}

// The read hand goes on as far as the open sections let it.
fn go_on(clock: &Clock<Names>, pass: &mut Pass<Names>) -> Result<bool, AdvanceRefused>
    requires here { IsPassOf clock.now pass.old }
    ensures here { IsPassOf clock.now pass.new }
{
    let goal = clock.advance(pass)?;
    let mut note = clock.note(pass);
    Ok(clock.poll(&mut note, &goal))
}

// An entry that may be written: both hooks of its life that ask for words are behind it.
fn clean(clock: &Clock<Names>, root: &mut Root, no: u32) -> Result<Entry, Memory>
    requires here { IsRootOf clock.now root.old }
    requires names { IsNamesClock clock.now }
    ensures here { IsRootOf clock.now root.new }
    ensures entry_here { IfOk result (λ entry. IsEntryOf clock.now entry) }
    ensures clean { IfOk result (λ entry. entry_state entry ≡ Some EntryState.Clean) }
{
    let mut entry = raise(clock, root, no);
    let Ok(()) = entry.keg_init() else {
        return Err(Memory);
    };
    let Ok(()) = ripe(clock, &mut entry) else {
        return Err(Memory);
    };
    Ok(entry)
}

#[test]
fn an_entry_is_written_again_only_once_its_readers_have_left(rt: HostRuntime) -> Result<(), Fail> {
    let (clock, mut writer, mut reader, mut row, mut root) = one_row(rt.alloc())?;
    let first = clean(&clock, &mut root, 0)?;
    let second = clean(&clock, &mut root, 1)?;
    clock.enter(&mut reader)?;
    assert_eq!(rt; find(&clock, &mut reader, 3), None);
    bind(&clock, &mut row, first, 3, 30);
    assert_eq!(rt; find(&clock, &mut reader, 3), Some(30));
    let Some(mut evicted) = bind(&clock, &mut row, second, 4, 40) else {
        return Err(Memory)?;
    };
    assert_eq!(rt;
        (find(&clock, &mut reader, 3), find(&clock, &mut reader, 4)),
        (None, Some(40))
    );
    assert!(rt; !go_on(&clock, &mut writer)?);
    let unripe = Unripe { read: 1, stamp: 3 };
    assert_eq!(rt; ripe(&clock, &mut evicted), Err(unripe));
    assert_eq!(rt; find(&clock, &mut reader, 4), Some(40));
    clock.exit(&mut reader);
    assert!(rt; go_on(&clock, &mut writer)?);
    clock.enter(&mut reader)?;
    assert_eq!(rt; ripe(&clock, &mut evicted), Ok(()));
    assert_eq!(rt; find(&clock, &mut reader, 4), Some(40));
    bind(&clock, &mut row, evicted, 3, 50);
    assert_eq!(rt;
        (find(&clock, &mut reader, 3), find(&clock, &mut reader, 4)),
        (Some(50), None)
    );
    assert_eq!(rt;
        (row.key(), row.value(), row.version()),
        (Some(3), Some(50), 3)
    );
    clock.exit(&mut reader);
    Ok(())
}
