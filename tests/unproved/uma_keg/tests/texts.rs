use crate::{FetchRefused, KegRefused};
use std::test::Fail;
use zone_stats::Refusal;

#[test]
fn a_refusal_of_a_keg_names_what_is_out_of_range(rt: HostRuntime) -> Result<(), Fail> {
    let size = format!(in rt.alloc(); "{}", KegRefused::Size { size: 7 })?;
    assert_eq!(rt; size.as_str(), "an item of 7 bytes: it has 8 to 4096");
    let slabs = format!(in rt.alloc(); "{}", KegRefused::Slabs { slabs: 1025 })?;
    assert_eq!(rt; slabs.as_str(), "a keg of 1025 slabs: it has 1 to 1024");
    Ok(())
}

#[test]
fn a_refusal_of_a_fetch_has_the_refusals_own_text(rt: HostRuntime) -> Result<(), Fail> {
    let rows = [
        (
            FetchRefused::Refused {
                refusal: Refusal::AtLimit { out: 2, limit: 3 },
            },
            "2 items out at a limit of 3",
        ),
        (
            FetchRefused::Refused {
                refusal: Refusal::Init { code: 9 },
            },
            "refused by init with code 9",
        ),
        (FetchRefused::Memory, "out of memory"),
    ];
    for (refused, expected) in rows {
        let text = format!(in rt.alloc(); "{refused}")?;
        assert_eq!(rt; text.as_str(), expected);
    }
    Ok(())
}
