use crate::{FreeGate, Gate, Go};

/// What a worker sees of a gate.
fn may_go<G: Gate>(gate: &G) -> bool {
    let mut visit = gate.open();
    let goes = gate.at(&mut visit, 0, 1) == Go::Go;
    gate.done(&mut visit, 0, 1);
    goes
}

#[test]
fn the_free_gate_holds_nobody(rt: HostRuntime) {
    assert!(rt; may_go(&FreeGate));
}
