//! Document 01, with items 3, 6 and 13 of document 02, again: written from the papers alone and sharing nothing
//! with the proved monitor.
//!
//! The way of thinking here is by maps: a domain is a permission for each page. An edit decodes
//! the GiBs it touches to such a map, changes the map, works out the finished form of the map, and
//! compares that form with the table to find the stores. It is written to be read beside the
//! paper, not to be fast.
//!
//! | file | holds |
//! |---|---|
//! | `frame` | PAW, lent pages, registers |
//! | `walk` | entries, the walk, the lookup |
//! | `sound` | the sound table and its free pages |
//! | `domain` | opening and closing |
//! | `map` | the permissions of a GiB page by page, and its finished form |
//! | `edit` | the store list and the edit |
//! | `apart` | whether the domains are kept apart |

mod apart;
mod domain;
mod edit;
mod frame;
mod map;
mod sound;
mod walk;

pub use apart::{apart, Separation, Strength};
pub use domain::{close, open};
pub use edit::{edit, store_list, Asked, Edited, Fence, Store};
pub use frame::{Frame, Register};
pub use map::{block_map, gib_map};
pub use sound::{free_pages, sound, used_pages};
pub use walk::{l1_permissions, lookup, permission_at, Access, Looked, Original, Privilege, Role, L2};

/// A permission as the paper numbers it: 0 none, 1 rx, 2 rw, 3 rwx.
pub type Permission = u8;

/// A refusal's number in the paper's table.
pub type Refusal = u64;

/// The eight slots beside a frame; zero means empty.
pub type Slots = [u64; 8];
