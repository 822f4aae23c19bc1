use super::setting::new_cache;
use super::worker::new_worker;
use crate::Receipt;
use std::test::Fail;

#[test]
fn what_a_pass_took_out_is_gone_for_whom_it_tells(rt: HostRuntime) -> Result<(), Fail> {
    let alloc = rt.alloc();
    let (cache, clock, passes) = new_cache(alloc, 8, 1, 0)?;
    let mut one = new_worker(&rt, alloc, &cache, &clock, passes)?;
    assert!(rt; one.bind(&rt, alloc, 3, 30)?.is_ok());
    assert_eq!(rt; one.reader_looks(3)?, Some(30));
    let out = Some((30, Receipt { row: 3, version: 2 }));
    assert_eq!(rt; one.unbind(&rt, alloc, 3)?, out);
    one.tell_reader();
    assert_eq!(rt; one.reader_looks(3)?, None);
    assert_eq!(rt; one.look(3)?, None);
    Ok(())
}
