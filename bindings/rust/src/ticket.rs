//! Tickets: slots that know their version.

/// A slot with the version that the map had when the ticket was taken, by
/// [`Map::ticket`](crate::Map::ticket) or [`Store::ticket`](crate::Store::ticket). It is a type of
/// its own: a slot is not a ticket, and nothing makes one of a number.
///
/// Reading through it returns the entry of the slot, or refuses with
/// [`Refusal::Stale`](crate::Refusal::Stale) if the map has changed since: at least once and fewer
/// than 4,294,967,296 times. After exactly that many changes the ticket can pass.
///
/// This holds if each change is made to the newest map and none to an older copy. Two maps that
/// were made from one copy may have the same version and other entries. A
/// [`Store`](crate::Store) changes its own map, so its tickets are safe as long as they are read in
/// the same store. docs/MANUAL.md, at the top of the repository, has examples.
///
#[cfg_attr(iset_linked, doc = "```")]
#[cfg_attr(not(iset_linked), doc = "```no_run")]
/// use iset_proved::{Refusal, Store};
///
/// # fn main() -> Result<(), Refusal> {
/// let (mut nodes, mut colours) = ([0; 4 * 8], [0; 1]);
/// let list = [[10, 20, 1], [10, 30, 2], [25, 40, 3]];
/// let mut store = Store::build(&mut nodes, &mut colours, &list)?;
/// let ticket = store.ticket(2);
/// assert_eq!(store.read_ticket(ticket)?.value, 3);
/// store.remove(0)?;
/// assert_eq!(store.read_ticket(ticket), Err(Refusal::Stale));
/// # Ok(())
/// # }
/// ```
#[derive(Clone, Copy, Debug, PartialEq, Eq, Hash)]
pub struct Ticket {
    slot: u64,
    version: u32,
}

impl Ticket {
    pub(crate) const fn new(slot: u64, version: u32) -> Ticket {
        Ticket { slot, version }
    }

    /// The slot.
    pub const fn slot(self) -> u64 {
        self.slot
    }

    /// The version of the map that it was taken from.
    pub const fn version(self) -> u32 {
        self.version
    }
}
