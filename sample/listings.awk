# Reads the listings of two heads with a plain cuckoo table and with ours, and compares them word by word: for show.awk
# and picture.awk, which come behind it. Before each listing stands table=plain or table=ours, and head=1 or head=2. The
# words of a pocket or a drawer place are what its row has behind its number; where there is no row they are 0.
BEGIN { FS = "," }
/^P,/ { keep($2 "." $3, $4, $NF, 4) }
/^D,/ { keep("drawer " ++places[table, head], $2, $NF, 2) }

function keep(at, card, tier, first,   i) {
    cards[table, head, at] = card
    tiers[table, head, at] = tier
    seats[at] = 1
    for (i = first; i <= NF; i++) words[table, head, at, i - first] = $i
}

# How many words at a pocket or a place differ between the heads. None has more than 3.
function differ(table, at,   i, count) {
    for (i = 0; i < 3; i++) count += words[table, 1, at, i] + 0 != words[table, 2, at, i] + 0
    return count + 0
}

function all_that_differ(table,   at, count) {
    for (at in seats) count += differ(table, at)
    return count + 0
}
