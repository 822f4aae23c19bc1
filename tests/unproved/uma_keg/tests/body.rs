use uma_item::Item;

/// The data of an item: its number, and the mark of the hooks that ran `fini` on it last, 0 at first.
#[derive(Drop)]
pub struct Marked {
    pub no: u32,
    pub mark: u8,
}

/// An item of a number and a mark.
pub type Plain = Item<Marked>;
