//! A safe wrapper over the proved monitor's C interface (`include/mpt.h`).
//!
//! A [`Monitor`] makes the calls on memory that its caller lends ([`Lent`]), or that a `Table` owns
//! (feature `std`; without it the crate is `no_std`). Numbers that must not be mixed have kinds of
//! their own: [`Address`], [`PageNumber`], [`Sdid`], [`Slot`], [`Register`]. Each takes any value,
//! since it is the monitor's work to refuse.
//!
//! With the feature `proved`, `Monitor::proved` calls the proved library. Without it the types
//! are here all the same, and a [`Monitor`] can stand over any other [`Interface`].
//!
//! Cases C and E of document 01, on memory that the caller lends:
//!
#![cfg_attr(feature = "proved", doc = "```")]
#![cfg_attr(not(feature = "proved"), doc = "```ignore")]
//! use mpt_monitor::*;
//!
//! let (mut words, mut slots) = ([0; 16 * PAGE_WORDS], [0; SLOTS]);
//! let mut table = Lent::new(Frame { paw: 32, first: PageNumber(0x80000) }, &mut words, &mut slots);
//! let monitor = Monitor::proved();
//! monitor.open(&mut table, Slot(0), Sdid(5))?;
//! let edit = Edit {
//!     slot: Slot(0),
//!     start: Address(0x4000_0000),
//!     length: 0x1000,
//!     permission: Permission::Rw,
//!     limit: MOST_STORES,
//! };
//! let edited = monitor.edit(&mut table, edit)?;
//! assert_eq!(edited, Edited { stores: 544, all: true, fence: Fence::Domain(Sdid(5)) });
//! let store = Kind::Itself(Access::Store);
//! let look = |slot| monitor.lookup_slot(&table, slot, Privilege::Supervisor, store, Address(0x4000_0FFF));
//! assert_eq!(look(Slot(0))?, Verdict::Allowed);
//! assert_eq!(look(Slot(1)), Err(Refusal::BadSlot)); // it is empty
//! assert_eq!(monitor.apart(&table, Strength::Strict)?, Separation::Apart); // one domain, and its table is closed to it
//! # Ok::<(), Refusal>(())
//! ```
//!
//! One kind in another's place does not compile. Right are
//!
//! ```
//! # use mpt_monitor::*;
//! let frame = Frame { paw: 32, first: PageNumber(0x80000) };
//! fn open<I: Interface>(monitor: &Monitor<I>, table: &mut Lent) -> Result<Register, Refusal> {
//!     monitor.open(table, Slot(0), Sdid(5))
//! }
//! ```
//!
//! and wrong, an address for a page number, and slot and SDID swapped:
//!
//! ```compile_fail,E0308
//! # use mpt_monitor::*;
//! let frame = Frame { paw: 32, first: Address(0x8000_0000) };
//! ```
//!
//! ```compile_fail,E0308
//! # use mpt_monitor::*;
//! fn open<I: Interface>(monitor: &Monitor<I>, table: &mut Lent) -> Result<Register, Refusal> {
//!     monitor.open(table, Sdid(5), Slot(0))
//! }
//! ```
//!
//! `examples/firmware.rs` is a main loop that goes on after a reset.
#![cfg_attr(not(feature = "std"), no_std)]

mod answer;
mod call;
mod interface;
mod monitor;
#[cfg(feature = "proved")]
mod proved;
mod table;
mod types;
pub mod word;

pub use answer::{Answer, Cause, Edited, Fence, Refusal, Separation, Verdict};
pub use call::{Call, Edit, Reading, View, ViewMut, Writing};
pub use interface::Interface;
pub use monitor::Monitor;
#[cfg(feature = "proved")]
pub use proved::{Proved, VERSION};
#[cfg(feature = "std")]
pub use table::Table;
pub use table::{Frame, Lent, Memory, LEAST_LIMIT, MOST_STORES, PAGE_WORDS, SLOTS};
pub use types::{Access, Address, Kind, PageNumber, Permission, Privilege, Register, Sdid, Slot, Strength};
