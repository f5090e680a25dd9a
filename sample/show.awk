# Where the cards sit on two heads with a plain cuckoo table, and on two with ours: a row for each pocket that is filled
# somewhere. Behind listings.awk, with the number of pockets in each rack as r.
END {
    form = "  %-10s%-16s%-16s%-12s%-16s%s\n"
    printf "  %-10s%-44s%s\n", "", "a plain cuckoo table", "this list"
    printf form, "pocket", "head one", "head two", "", "head one", "head two"
    show_rack(0)
    show_rack(1)
    show_drawer()
}

function seated(table, head, at) {
    return (table, head, at) in cards ? cards[table, head, at] " tier " tiers[table, head, at] : "-"
}

function show(at) {
    if (!(at in seats)) return
    printf form, at, seated("plain", 1, at), seated("plain", 2, at), differ("plain", at) ? "<- differ" : "",
        seated("ours", 1, at), seated("ours", 2, at) (differ("ours", at) ? "   <- differ" : "")
}

function show_rack(rack,   p) { for (p = 0; p < r; p++) show(rack "." p) }

function show_drawer(   i) { for (i = 1; ("drawer " i) in seats; i++) show("drawer " i) }
