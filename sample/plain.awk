# A plain cuckoo table with a drawer, to show beside the list of this repository. It takes the sessions of the console
# and answers as it does; the listing has P,rack,pocket,card,tier and D,card,tier. Run with hash.awk before it and
#     way=meets   a card takes its pocket in rack 0 and pushes away the card that it meets, which goes to its other rack
#     way=looks   it looks for an empty one of its two pockets first, and pushes only if there is none
# After 32 pushes the card that is left over goes to the drawer. Where a card ends depends on what was there before it.
BEGIN { FS = OFS = ","; most = 32 }
NR == 1 { r = $1; s = $2; station = $3; next }
$1 == "A" { print $0, add($2, $3) }
$1 == "W" { print $0, withdraw($2) }
$1 == "L" { print $0, looked_up($2) }
END { list_rack(0); list_rack(1); list_drawer() }

function looked_up(card) {
    if (card < 10) return "R5"
    return card in tier ? tier[card] : "N"
}

# The refusals of the console, in its order.
function add(card, at,   part) {
    part = int(card / 10)
    if (card < 10) return 5
    if (at > 7) return 9
    if (part in issue && issue[part] != card) return 13
    if (part in issue) return tier[card] != at ? 10 : 6
    if (!seat(card)) return 8
    issue[part] = card
    tier[card] = at
    return 0
}

# Puts a card into one of its pockets if that is empty, and says whether it was.
function rests(card, rack,   p) {
    p = pocket(rack, card, r, station)
    if ((rack, p) in held) return 0
    held[rack, p] = card
    return 1
}

function seat(card,   rack, pushes) {
    pushed = 0
    for (pushes = 0; pushes < most; pushes++) {
        rack = pushes % 2
        if (rests(card, rack) || (way == "looks" && rests(card, 1 - rack))) return 1
        card = push(card, rack)
    }
    if (drawn < s) {
        drawer[++drawn] = card
        return 1
    }
    push_back(card)
    return 0
}

# The card takes its pocket in the rack; gives the one that was there.
function push(card, rack,   p, other) {
    p = pocket(rack, card, r, station)
    other = held[rack, p]
    held[rack, p] = card
    way_back[++pushed] = rack SUBSEP p
    return other
}

# Undoes the pushes, the last one first: a refusal leaves the table as it was.
function push_back(card,   other) {
    while (pushed > 0) {
        other = held[way_back[pushed]]
        held[way_back[pushed--]] = card
        card = other
    }
}

function withdraw(card) {
    if (card < 10) return 5
    if (!(card in tier)) return 7
    lift(card, 0)
    lift(card, 1)
    take_from_drawer(card)
    delete tier[card]
    delete issue[int(card / 10)]
    return 0
}

function lift(card, rack,   p) {
    p = pocket(rack, card, r, station)
    if ((rack, p) in held && held[rack, p] == card) delete held[rack, p]
}

function take_from_drawer(card,   i, kept) {
    for (i = 1; i <= drawn; i++) if (drawer[i] != card) drawer[++kept] = drawer[i]
    drawn = kept + 0
}

function list_rack(rack,   p) {
    for (p = 0; p < r; p++) if ((rack, p) in held) print "P", rack, p, held[rack, p], tier[held[rack, p]]
}

function list_drawer(   i) { for (i = 1; i <= drawn; i++) print "D", drawer[i], tier[drawer[i]] }
