use crate::is_head;

#[test]
fn a_first_line_names_its_kind_and_version_1(rt: HostRuntime) {
    assert!(rt; is_head(b"uma 1", b"uma"));
    assert!(rt; is_head(b"uma \t1 ", b"uma"));
    assert!(rt; !is_head(b"uma 2", b"uma"));
    assert!(rt; !is_head(b"uma", b"uma"));
    assert!(rt; !is_head(b"smr 1", b"uma"));
    assert!(rt; !is_head(b"uma 1 1", b"uma"));
}
