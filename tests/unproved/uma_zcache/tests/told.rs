use crate::{ZAllocRefused, ZRefused, ZSeatRefused};
use deed_book::Memory;

/// Why there is no item, if there is none; where memory is wanting the test stops.
pub(super) fn alloc_told<T: Drop>(
    answer: Result<T, ZAllocRefused>,
) -> Result<Option<ZAllocRefused>, Memory> {
    match answer {
        Err(ZAllocRefused::Memory) => Err(Memory),
        Err(refused) => Ok(Some(refused)),
        Ok(_) => Ok(None),
    }
}

/// Why there is no cache, likewise.
pub(super) fn cache_told<T: Drop>(answer: Result<T, ZRefused>) -> Result<Option<ZRefused>, Memory> {
    match answer {
        Err(ZRefused::Memory) => Err(Memory),
        Err(refused) => Ok(Some(refused)),
        Ok(_) => Ok(None),
    }
}

/// Why there is no seat, likewise.
pub(super) fn seat_told<T: Drop>(
    answer: Result<T, ZSeatRefused>,
) -> Result<Option<ZSeatRefused>, Memory> {
    match answer {
        Err(ZSeatRefused::Memory) => Err(Memory),
        Err(refused) => Ok(Some(refused)),
        Ok(_) => Ok(None),
    }
}
