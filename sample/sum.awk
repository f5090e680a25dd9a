# How many words differ between two heads with a plain cuckoo table, and between two with ours, in one line. Behind
# listings.awk. The status is 0 only if some differ there and none here.
END {
    plain = all_that_differ("plain")
    ours = all_that_differ("ours")
    printf "Words that differ between the two heads: %s in the plain table, %s here.\n", number(plain), number(ours)
    exit !(plain > 0 && ours == 0)
}

function number(count) { return count == 0 ? "none" : count }
