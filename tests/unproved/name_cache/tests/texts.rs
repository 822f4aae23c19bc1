use crate::BindRefused;
use std::test::Fail;
use zone_stats::Refusal;

#[test]
fn a_refused_bind_says_why(rt: HostRuntime) -> Result<(), Fail> {
    let refusal = Refusal::Full { slabs: 1, made: 1 };
    let rows = [
        (BindRefused::Zone { refusal }, "all 1 slabs are in use"),
        (
            BindRefused::Worn { row: 3, version: 8 },
            "row 3 is worn at version 8",
        ),
        (
            BindRefused::Unripe { read: 3, stamp: 5 },
            "the entry's stamp 5 is above the read hand 3",
        ),
        (BindRefused::Memory, "out of memory"),
    ];
    for (refused, expected) in rows {
        let text = format!(in rt.alloc(); "{refused}")?;
        assert_eq!(rt; text.as_str(), expected);
    }
    Ok(())
}
