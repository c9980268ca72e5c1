"""What `run` expects to read. Who changes one of these says here why an edit's stores are still made in
order, and why a call still marks its pages once."""
# Every function that is lent words to store into, and who calls it. A number: so many times.
CALLS = """
table/store store_word: entries/put put_next, slots/zero zero_page
entries/put put_next: entries/put put, entries/rows fill
entries/put put: entries/fresh new_entry, entries/link link_page, entries/put put_changed
entries/put put_changed: edit/block put_entry, entries/own same_entry, entries/rows flat_row, entries/rows pieces_row
entries/rows fill: entries/fresh old_fill, entries/rows flat_entries
entries/rows flat_row: entries/rows flat_entries 3
entries/rows flat_entries: edit/block flat_blocks
entries/rows pieces_row: edit/block mixed_blocks
entries/fresh new_entry: entries/fresh new_entries
entries/fresh new_entries: entries/fresh fill_page, entries/fresh old_fill
entries/fresh old_fill: entries/fresh old_entries
entries/fresh old_entries: entries/fresh fill_page 2
entries/fresh fill_page: entries/link link_table
entries/link link_page: entries/link link_table
entries/link link_table: edit/block store_table
entries/own same_entry: entries/own same_table
entries/own same_table: entries/own own_table
entries/own own_table: edit/block store_table
edit/block put_entry: edit/block store_block 2
edit/block store_table: edit/block store_block
edit/block store_block: edit/block one_block
edit/block one_block: edit/block mixed_blocks
edit/block flat_blocks: edit/block next_blocks
edit/block mixed_blocks: edit/block next_blocks
edit/block next_blocks: edit/lib store_range
edit/lib store_range: edit/lib make
edit/lib make: monitor/lib edit_open
monitor/lib edit_open: monitor/lib edit_slot
monitor/lib edit_slot: monitor/lib edit
monitor/lib edit: api/lib mpt_edit
api/lib mpt_edit: api_c/lib mpt_edit
api_c/lib mpt_edit:
slots/zero zero_page: slots/lib open_at
slots/lib open_at: slots/lib open_slot
slots/lib open_slot: slots/lib open
slots/lib open: api/lib mpt_open
api/lib mpt_open: api_c/lib mpt_open
api_c/lib mpt_open:
"""

EXPECTED = {
    "calls": CALLS,
    # to what is not a plain name, and where that name is from: the one into lent words, marks of pages and of SDIDs, where the L1 pages of a block begin, and a copy of the slots
    "assignments": """
table/store store_word: words[at], words: &mut[Word]
marks/lib take: marks[at], marks: &mut Marks
sound/lib admit: *free, free: &mut Marks
apart/crowd gather: tables[count], tables = [0usize;8]
slots/lib open_at: after[slot as usize], after = slots: [Word;8]
slots/lib close_at: after[at], after = slots: [Word;8]
""",
    # what may be stored into: the lent words, by that name alone, and the marks; and what a text is written to
    "&mut": """
words: &mut[Word]
marks: &mut Marks
free: &mut Marks
sdids: &mut Marks
&mut left
&mut marks
&mut sdids
f: &mut fmt::Formatter<W>
""",
    "bodies": """
table/store store_word: words[at]=word;
entries/put put_next: store_word(words,at,word);let more=left.more;Budget{more:more-1,last:at,}
""",
    # document 02, item 4: "mark pages once a call and pick from the marks", and "the picking is lent the marks and no table"
    "marks": """
sound/lib admit: apart/lib apart, api/lib mpt_sound, monitor/lib edit_slot, slots/lib close_slot, slots/lib open_slot
slots/lib close_slot: slots/lib close
slots/lib close: api/lib mpt_close
sound/pick free_pages(f:Frame,n:usize,free:&Marks): monitor/lib edit_open, slots/lib open_slot
sound/pick next_free(f:Frame,n:usize,free:&mut Marks): sound/pick free_pages 2
""",
    # an edit's limit is handed out once, and used up store by store
    "limits": "edit/lib make, entries/put put_next",
    # those that lead to an edit's stores, or mark pages, do so once: they do not loop
    "loops": "",
    # what is asked of a value beside its length: its elements, which of two numbers, whether there is one; and nothing that could store
    "methods": "apart/lib is_some, apart/who enumerate, apart/who iter, forms/blocks is_err 2, forms/blocks rev, marks/lib enumerate, marks/lib iter, sound/lib step_by, types/needed_page and, types/needed_page unwrap_or, types/pages min, types/pages saturating_sub",
    # names that would hide one of these: an import or a type under another name, a reference that a pattern makes, code from elsewhere; and what a
    # trait calls: the conversions of codes and numbers and the texts of answers, none of which is lent a word
    "other names": """
table/board type Word=u64
marks/lib type Marks=[u64;4]
types/code impl TryFrom<u64>for Kind
types/code impl TryFrom<u64>for Permission
types/code impl TryFrom<u64>for Privilege
types/code impl TryFrom<u64>for Strength
types/code type Error=UnknownCode 4
types/number impl From<Cause>for u64
types/number impl From<Refusal>for u64
types/rights impl From<Access>for Cause
types/rights impl From<Permission>for u64
types/text impl fmt::Display for Answer
types/text impl fmt::Display for Permission
types/text impl fmt::Display for Refusal
types/text write! 7
""",
    "code from elsewhere": "api/lib u64::from, forms/gibs u64::from, marks/lib u64::trailing_zeros, monitor/lib u64::from, types/code u64::from 4, types/rights u64::from, types/text fmt::Display 3, types/text fmt::Formatter 3, types/text fmt::Result 3, types/text fmt::Write 3, types/text std, types/text std::fmt, types/text u64::from 2",
    # where a proof says what stands, so that something is ahead; and who names the laws that begin an edit. (One is the name in an import, two
    # are a law's signature and its definition.)
    "stands =": "shapes/proofs/Order 2",
    "ahead_start": "sequence/proofs/Facts 2, shapes/proofs/Order 3",
    "ahead_each": "shapes/proofs/Order 2",
    "facts": "edit/proofs/store_range/Answers 2, sequence/proofs/Facts 3",
}
