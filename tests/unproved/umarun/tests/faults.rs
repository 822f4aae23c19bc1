//! Streams that fail.
use super::*;
use crate::fault::Fault;
use crate::replaying::Status;

/// A text that is replayed, without operations.
const EMPTY_BOX: &str = "uma 1\nworkers 1\ndomains 1\nzone box 256 4 4 0 0 plain\nend\n";

// The words, the reads and the writes that fail, from 1; how the run ends, and whether a report is there.
type FaultRow = (
    &'static [&'static str],
    &'static [u64],
    &'static [u64],
    Status,
    Fault,
    bool,
);

#[test]
fn a_fault_of_reading_leaves_no_report_and_one_of_writing_does(
    rt: HostRuntime,
) -> Result<(), Fail> {
    let rows: [FaultRow; 3] = [
        (
            &["replay"],
            &[2],
            &[],
            Status::ReadFault,
            Fault::Read,
            false,
        ),
        (
            &["replay"],
            &[],
            &[1],
            Status::WriteFault,
            Fault::Write,
            true,
        ),
        (
            &["bulk", "7", "1", "1"],
            &[],
            &[1],
            Status::WriteFault,
            Fault::Write,
            true,
        ),
    ];
    for (words, reads, writes, status, fault, is_there) in rows {
        let outside = Outside {
            each: 16,
            room: 4096,
            failing_reads: reads.to_vec(rt.alloc())?,
            failing_writes: writes.to_vec(rt.alloc())?,
        };
        let (finish, written) = end_of(&rt, words, EMPTY_BOX, outside, &FreeGate)?;
        assert_eq!(rt; finish.status, status, "{words:?}");
        assert_eq!(rt; finish.fault, Some(fault), "{words:?}");
        assert_eq!(rt; finish.report.is_some(), is_there, "{words:?}");
        assert_eq!(rt; finish.hall.is_some(), is_there, "{words:?}");
        assert_eq!(rt; written.len(), 0, "{words:?}");
    }
    Ok(())
}

/// A trace without names, and one with.
const READ_BY_SEVEN: [&str; 2] = [
    "uma 1\nworkers 1\ndomains 1\nzone box 256 4 4 0 0 plain\nalloc 0 box 0\nalloc 0 box 1\nalloc 0 box 2\nfree 0 1\nend\n",
    "uma 1\nworkers 1\ndomains 1\nclock 1 8\ndetail\nnames dir 8 2 4\nbind 0 3 30\nlook 0 3\nbind 0 11 110\nlook 0 3\nunbind 0 11\nlook 0 11\nend\n",
];

#[test]
fn each_read_of_seven_bytes_may_fail(rt: HostRuntime) -> Result<(), Fail> {
    for input in READ_BY_SEVEN {
        // The last read is of the end.
        let reads = (input.len() as u64 + 6) / 7 + 1;
        for failing in 1..=reads + 1 {
            let outside = Outside {
                each: 7,
                room: 4096,
                failing_reads: [failing].to_vec(rt.alloc())?,
                failing_writes: Vec::new(rt.alloc()),
            };
            let (finish, written) = end_of(&rt, &["replay"], input, outside, &FreeGate)?;
            let fails = failing <= reads;
            let status = if fails { Status::ReadFault } else { Status::Good };
            assert_eq!(rt; finish.status, status, "read {failing}");
            assert_eq!(rt; finish.report.is_none(), fails, "read {failing}");
            assert_eq!(rt; written.is_empty(), fails, "read {failing}");
        }
    }
    Ok(())
}

/// A section is open while five items are freed and four more asked for.
const OPEN: &str =
    "uma 1\nworkers 1\ndomains 1\nclock 1 8\ndetail\nzone node 512 4 4 0 0 smr\nenter 0\nalloc 0 node 0\nalloc 0 node 1\nalloc 0 node 2\nalloc 0 node 3\nalloc 0 node 4\nfree 0 0\nfree 0 1\nfree 0 2\nfree 0 3\nfree 0 4\nalloc 0 node 5\nalloc 0 node 6\nalloc 0 node 7\nalloc 0 node 8\nend\n";
const OPEN_FRONT: &str =
    "ITEM              SIZE    LIMIT     USED     FREE        REQ     FAIL SLEEP  XDOMAIN\nnode               512        0        4       12          9        0     0        0\nhooks node 0 9 0 0 5\n";
/// What no schedule changes of the front of four workers' table.
const FOUR_FRONT: &str =
    "ITEM              SIZE    LIMIT     USED     FREE        REQ     FAIL SLEEP  XDOMAIN\nVNODE              448        0     1996";

#[test]
fn a_front_of_the_table_goes_into_little_room(rt: HostRuntime) -> Result<(), Fail> {
    let four = texts::four_workers(rt.alloc())?;
    for (input, front) in [(OPEN, OPEN_FRONT), (four.as_str(), FOUR_FRONT)] {
        for room in 0..=120 {
            // The long one at four of them: tests/faults goes through the others.
            if input.len() > 1000 && room % 40 != 0 {
                continue;
            }
            let outside = Outside {
                each: 4096,
                room,
                failing_reads: Vec::new(rt.alloc()),
                failing_writes: Vec::new(rt.alloc()),
            };
            let (finish, written) = end_of(&rt, &["replay"], input, outside, &FreeGate)?;
            assert_eq!(rt; finish.status, Status::WriteFault, "room {room}");
            assert_eq!(rt; finish.fault, Some(Fault::Write), "room {room}");
            assert_eq!(rt; finish.report.is_some(), true, "room {room}");
            assert_eq!(rt; written.as_slice(), &front.as_bytes()[..room], "room {room}");
        }
    }
    Ok(())
}

/// Three zones of one keg; the second one's seat is drained.
const SECONDS: &str =
    "uma 1\nworkers 1\ndomains 1\ndetail\nzone base 512 4 4 0 0 plain\nsecond a base 4 0 plain\nsecond b base 4 0 plain\nalloc 0 base 0\nalloc 0 a 1\nfree 0 1\ndrainseat 0 a\nalloc 0 b 2\nend\n";
const SECONDS_TABLE: &str =
    "ITEM              SIZE    LIMIT     USED     FREE        REQ     FAIL SLEEP  XDOMAIN\nbase               512        0        1        3          1        0     0        0\na                  512        0        0        0          1        0     0        0\nb                  512        0        1        3          1        0     0        0\nhooks base 0 1 0 0 0\nhooks a 4 1 1 4 0\nhooks b 4 1 0 0 0\nkeg base 1 0 8 0\n";

#[test]
fn a_byte_a_read_is_the_whole_input(rt: HostRuntime) -> Result<(), Fail> {
    let outside = Outside {
        each: 1,
        room: 4096,
        failing_reads: Vec::new(rt.alloc()),
        failing_writes: Vec::new(rt.alloc()),
    };
    let (finish, written) = end_of(&rt, &["replay"], SECONDS, outside, &FreeGate)?;
    assert_eq!(rt; finish.status, Status::Good);
    assert_eq!(rt; written.as_slice(), SECONDS_TABLE.as_bytes());
    Ok(())
}
