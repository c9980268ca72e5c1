# expect.awk: the stores of drive.c's calls for each case, in order, worked out from document 01: place and size.
function store(page, entry) { printf "%x,8\n", 1610612736 + page * 4096 + entry * 8 }
function entries(page, from, to,   k) { for (k = from; k < to; k++) store(page, k) }
BEGIN {
    entries(0, 0, 512)                  # opening zeroes the lowest free page
    if (name == "wide") {
        entries(0, 0, 64)               # 0 to 2 GiB: two GiBs of 32 entries
        entries(0, 96, 512)             # 3 to 16 GiB
        entries(0, 0, 64)               # all 16 GiB: each entry that changes, upward; GiB 2 reads none already
        entries(0, 96, 512)
    } else {
        entries(1, 0, 512)              # C: the new L1 page, then the entry that links it, then the other blocks of the GiB
        entries(0, 32, 64)
        if (name == "F") store(1, 0)    # one L1 entry
        if (name ~ /[GH]/) entries(0, 32, 64)
        if (name == "H") entries(0, 32, 64)
    }
}
