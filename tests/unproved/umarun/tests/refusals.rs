//! The refusals that ledgers keep.
use super::*;
use zone_stats::Refusal;

/// Traces of one zone, and the refusal that the last worker's ledger keeps.
fn refusals() -> [(&'static str, Refusal); 8] {
    [
        (
            "uma 1\nworkers 1\ndomains 1\nzone box 256 4 4 4 0 plain\nalloc 0 box 0\nalloc 0 box 1\nalloc 0 box 2\nalloc 0 box 3\nalloc 0 box 4\nfree 0 0\nalloc 0 box 5\nend\n",
            Refusal::AtLimit { out: 4, limit: 4 },
        ),
        // A limit counts what is cached on the other worker's seat.
        (
            "uma 1\nworkers 2\ndomains 1\nzone box 256 4 4 4 0 plain\nalloc 0 box 0\nround\ngive 0 0 1 0\nalloc 1 box 1\nend\n",
            Refusal::AtLimit { out: 4, limit: 4 },
        ),
        // A limit that is lowered below what is out takes nothing away.
        (
            "uma 2\nworkers 1\ndomains 1\nzone box 256 4 4 4 0 plain\nalloc 0 box 0\nalloc 0 box 1\nalloc 0 box 2\nalloc 0 box 3\nround\nsetmax box 2\nalloc 0 box 4\nfree 0 0\nfree 0 1\nalloc 0 box 5\nend\n",
            Refusal::AtLimit { out: 4, limit: 2 },
        ),
        (
            "uma 1\nworkers 1\ndomains 1\nzone box 1024 1 4 0 2 plain\nalloc 0 box 0\nalloc 0 box 1\nalloc 0 box 2\nend\n",
            Refusal::Reserved {
                free: 2,
                reserve: 2,
            },
        ),
        (
            "uma 1\nworkers 1\ndomains 1\nzone box 1024 1 4 0 2 plain\nalloc 0 box 0\nalloc 0 box 1\nalloc 0 box 2\nalloc 0 box 3 reserve\nalloc 0 box 4 reserve\nalloc 0 box 5 reserve\nend\n",
            Refusal::Full { slabs: 1, made: 1 },
        ),
        (
            "uma 1\nworkers 1\ndomains 1\nzone box 4096 1 4 0 0 plain\nalloc 0 box 0\nalloc 0 box 1\nend\n",
            Refusal::Full { slabs: 1, made: 1 },
        ),
        (
            "uma 1\nworkers 1\ndomains 1\nzone box 256 4 4 0 0 plain\nalloc 0 box 0 arg 7\nend\n",
            Refusal::Ctor { code: 7 },
        ),
        (
            "uma 1\nworkers 1\ndomains 1\nzone box 256 4 4 1 0 plain\nalloc 0 box 0\nalloc 0 box 1 arg 7\nfree 0 0\nalloc 0 box 2 arg 254\nend\n",
            Refusal::Ctor { code: 254 },
        ),
    ]
}

/// The refusal that the last worker's ledger of the first zone keeps.
fn kept_by_the_last(finish: &Finish) -> Option<Refusal> {
    let report = finish.report.as_ref()?;
    let ledgers = report.ledgers.as_slice().first()?;
    ledgers.as_slice().last()?.last
}

#[test]
fn the_last_refusal_is_kept_with_its_numbers(rt: HostRuntime) -> Result<(), Fail> {
    for (input, refusal) in refusals() {
        let finish = replayed_under(&rt, input, &FreeGate)?;
        assert_eq!(rt; kept_by_the_last(&finish), Some(refusal), "{input}");
    }
    Ok(())
}

#[test]
fn a_worker_that_never_leaves_its_section_meets_the_cap(rt: HostRuntime) -> Result<(), Fail> {
    let input = texts::never_leaving(rt.alloc())?;
    let finish = replayed_under(&rt, input.as_str(), &FreeGate)?;
    let full = Refusal::Full {
        slabs: 4,
        made: 4,
    };
    assert_eq!(rt; kept_by_the_last(&finish), Some(full));
    Ok(())
}

#[test]
fn each_of_sixteen_workers_keeps_the_limit_that_it_met(rt: HostRuntime) -> Result<(), Fail> {
    let input = texts::sixteen_at_a_limit(rt.alloc())?;
    let finish = replayed_under(&rt, input.as_str(), &FreeGate)?;
    let report = finish.report.expect(&rt, "a report");
    let ledgers = report.ledgers.as_slice();
    assert_eq!(rt; ledgers.len(), 1);
    assert_eq!(rt; ledgers[0].as_slice().len(), 16);
    for ledger in ledgers[0].as_slice() {
        assert_eq!(rt; ledger.last, Some(Refusal::AtLimit { out: 1, limit: 1 }));
    }
    Ok(())
}
