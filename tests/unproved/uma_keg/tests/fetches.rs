ghost use Rattle.std.specs.Prelude.{true, false};
ghost use Rattle.zone_stats.specs.declared.refusal.Refusal.TheVariants.{AtLimit, Reserved, Full};
ghost use Rattle.uma_keg.specs.Fetch.{EndsAs, Refuses, Gives};

/// How fetches end, worked by hand: at a limit, and above one that was lowered; by the first slab, with as many items as
/// lie beyond the reserve; at the reserve, and with the right to it; from a full keg; by the second slab; and with as many
/// items as a limit allows.
pub fn worked_fetches()
    ensures at_limit { EndsAs (record { per_slab = 16; reserve = 0; out = 4; limit = 4; free = 12; slabs = 1; cap = 4; made = 1 })
        (record { most = 4; reserve = true }) (Refuses (AtLimit 4 4)) }
    ensures above_limit { EndsAs (record { per_slab = 16; reserve = 0; out = 8; limit = 2; free = 8; slabs = 1; cap = 4; made = 1 })
        (record { most = 4; reserve = true }) (Refuses (AtLimit 8 2)) }
    ensures beyond_reserve { EndsAs (record { per_slab = 4; reserve = 2; out = 0; limit = 0; free = 0; slabs = 0; cap = 1; made = 0 })
        (record { most = 4; reserve = true }) (Gives 2) }
    ensures at_reserve { EndsAs (record { per_slab = 4; reserve = 2; out = 2; limit = 0; free = 2; slabs = 1; cap = 1; made = 1 })
        (record { most = 4; reserve = false }) (Refuses (Reserved 2 2)) }
    ensures with_right { EndsAs (record { per_slab = 4; reserve = 2; out = 2; limit = 0; free = 2; slabs = 1; cap = 1; made = 1 })
        (record { most = 4; reserve = true }) (Gives 1) }
    ensures full { EndsAs (record { per_slab = 4; reserve = 2; out = 4; limit = 0; free = 0; slabs = 1; cap = 1; made = 1 })
        (record { most = 4; reserve = true }) (Refuses (Full 1 1)) }
    ensures two_slabs { EndsAs (record { per_slab = 1; reserve = 1; out = 0; limit = 0; free = 0; slabs = 1; cap = 4; made = 7 })
        (record { most = 4; reserve = false }) (Gives 1) }
    ensures two_slabs_full { EndsAs (record { per_slab = 1; reserve = 9; out = 0; limit = 0; free = 0; slabs = 1; cap = 3; made = 7 })
        (record { most = 4; reserve = false }) (Refuses (Reserved 2 9)) }
    ensures up_to_limit { EndsAs (record { per_slab = 16; reserve = 0; out = 1; limit = 4; free = 0; slabs = 0; cap = 4; made = 0 })
        (record { most = 4; reserve = false }) (Gives 3) }
{}
