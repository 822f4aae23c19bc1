ghost use Rattle.std.specs.Prelude.{◌≡◌, length, IfOk};

use super::body::Plain;
use deed_book::Book;
use smr_clock::{Bare, Clock};
use std::alloc::Global;
use std::snapshot::Snapshot;
use std::test::Fail;
use uma_bucket::{Inbox, InboxKey, Port};

/// So many ports, of one inbox.
pub(super) fn new_ports(
    alloc: Global,
    clock: &Clock<Bare>,
    book: &Book,
    domains: u8,
) -> Result<Vec<Port<Plain, Bare>>, Fail>
    ensures { IfOk result (λ ports. length ports.items ≡ domains) }
{
    let key = InboxKey {
        clock: Snapshot::of(clock),
        book: Snapshot::of(book),
        zone: 0,
        domains,
    };
    let (inbox, mut taker) = Inbox::<Plain, Bare>::new(alloc, &key)?;
    let mut ports = Vec::new(alloc);
    for _ in 0..domains {
        ports.push(inbox.port(&mut taker))?;
    }
    Ok(ports)
}
