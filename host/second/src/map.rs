//! The permissions of a GiB page by page, and the finished form that such a map has.

use crate::frame::Frame;
use crate::walk::{l1_permissions, L2};
use crate::Permission;

/// Pages in a piece of 2 MiB, a block of 32 MiB, and a GiB.
const PIECE_PAGES: usize = 512;
pub const BLOCK_PAGES: usize = 16 * PIECE_PAGES;
pub const GIB_BLOCKS: usize = 32;
pub const GIB_PAGES: usize = GIB_BLOCKS * BLOCK_PAGES;

/// The form that a block has when an edit is finished.
#[derive(Clone, Copy, Debug, PartialEq, Eq)]
pub enum Form {
    /// Its GiB is of one permission.
    Whole(Permission),
    /// Each of its 2 MiB pieces is of one permission.
    Pieces([Permission; 16]),
    /// Any other block: page by page.
    Pages,
}

/// The permission of each page of a GiB in a sound table.
pub fn gib_map(frame: Frame, words: &[u64], root: u64, gib: usize) -> Vec<Permission> {
    let root = frame.page(words, root).expect("a sound table's roots are lent");
    let mut map = Vec::with_capacity(GIB_PAGES);
    for &entry in &root[gib * GIB_BLOCKS..(gib + 1) * GIB_BLOCKS] {
        push_block(frame, words, entry, &mut map);
    }
    map
}

/// The permission of each page of the block that an L2 entry of a sound table speaks for.
pub fn block_map(frame: Frame, words: &[u64], entry: u64) -> Vec<Permission> {
    let mut map = Vec::with_capacity(BLOCK_PAGES);
    push_block(frame, words, entry, &mut map);
    map
}

/// The permission of each 2 MiB piece of such a block, where the entry gives it by pieces or as a whole.
pub fn piece_map(entry: u64) -> Option<Vec<Permission>> {
    match L2::from_word(entry).expect("a sound table's entries keep the rules") {
        L2::Whole(permission) => Some(vec![permission; 16]),
        L2::Pieces(each) => Some(each.to_vec()),
        L2::Pages(_) => None,
    }
}

fn push_block(frame: Frame, words: &[u64], entry: u64, map: &mut Vec<Permission>) {
    match L2::from_word(entry).expect("a sound table's entries keep the rules") {
        L2::Whole(permission) => map.resize(map.len() + BLOCK_PAGES, permission),
        L2::Pieces(each) => {
            each.iter().for_each(|&permission| map.resize(map.len() + PIECE_PAGES, permission));
        }
        L2::Pages(page) => {
            let page = frame.page(words, page).expect("a sound table's L1 pages are lent");
            page.iter().for_each(|&entry| push_fields(map, entry));
        }
    }
}

fn push_fields(map: &mut Vec<Permission>, entry: u64) {
    map.extend(l1_permissions(entry).expect("a sound table has no reserved bit set"));
}

/// "a GiB of one permission is 32 entries of that 1G type; otherwise a block whose 2 MiB pieces
/// are each of one permission is TYPE 6; any other block is TYPE 4."
pub fn finished_form(map: &[Permission]) -> Vec<Form> {
    match one_permission(map) {
        Some(permission) => vec![Form::Whole(permission); GIB_BLOCKS],
        None => map.chunks(BLOCK_PAGES).map(block_form).collect(),
    }
}

fn block_form(block: &[Permission]) -> Form {
    let mut each = [0; 16];
    for (piece, pages) in each.iter_mut().zip(block.chunks(PIECE_PAGES)) {
        match one_permission(pages) {
            Some(permission) => *piece = permission,
            None => return Form::Pages,
        }
    }
    Form::Pieces(each)
}

/// The one permission that all these pages have, if they do: each page is as its neighbour.
fn one_permission(pages: &[Permission]) -> Option<Permission> {
    (pages[1..] == pages[..pages.len() - 1]).then(|| pages[0])
}

/// The 512 entries of an L1 page that says what a block's map says.
pub fn l1_entries(block: &[Permission]) -> Vec<u64> {
    let entry =
        |fields: &[Permission]| fields.iter().rev().fold(0, |word, &permission| word << 4 | u64::from(permission));
    block.chunks(16).map(entry).collect()
}
