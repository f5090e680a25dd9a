# Draws docs/two-heads.svg: the pockets of two heads with a plain cuckoo table and of two with ours, and where the heads
# differ. Behind listings.awk, with the number of pockets in each rack as r. A drawer is not drawn. After `make run`:
#     sample/compare picture.awk >docs/two-heads.svg
BEGIN {
    wide = 51; high = 40 # a pocket
    ink = "#222222"; grey = "#6b6b6b"; red = "#c0392b"; blue = "#0072b2"
    past[1] = "head one: the six cards, ascending"
    past[2] = "head two: descending, amid a promotion that was cancelled"
}
END {
    open_picture("Two pump heads, the same six cards, different pasts")
    text(30, 66, 14, grey, "The console compares the heads word by word, and locks a pump whose list differs.")
    panel("plain", 30, red, "A plain cuckoo table")
    panel("ours", 570, blue, "This list")
    print "</svg>"
}

function open_picture(title) {
    printf "<svg xmlns=\"http://www.w3.org/2000/svg\" viewBox=\"0 0 1060 470\" width=\"1060\" height=\"470\" "
    print "font-family=\"DejaVu Sans, Verdana, sans-serif\" role=\"img\">"
    print "<title>" title "</title>"
    print "<rect width=\"1060\" height=\"470\" fill=\"#ffffff\"/>"
    text(30, 40, 22, ink, title, "font-weight=\"bold\"")
}

function text(x, y, size, colour, what, more) {
    printf "<text x=\"%d\" y=\"%d\" font-size=\"%d\" fill=\"%s\"%s>%s</text>\n", x, y, size, colour,
        more == "" ? "" : " " more, what
}

# Two heads with one kind of table, one above the other, and what the console finds.
function panel(table, x, colour, title,   count) {
    count = all_that_differ(table)
    printf "<rect x=\"%d\" y=\"84\" width=\"460\" height=\"5\" fill=\"%s\"/>\n", x, colour
    text(x, 114, 18, colour, title, "font-weight=\"bold\"")
    draw_head(table, 1, x, 144)
    draw_head(table, 2, x, 284)
    printf "<rect x=\"%d\" y=\"416\" width=\"460\" height=\"36\" rx=\"6\" fill=\"%s\"/>\n", x, colour
    text(x + 230, 440, 16, "#ffffff", verdict(count), "text-anchor=\"middle\" font-weight=\"bold\"")
}

function verdict(count) {
    return count == 0 ? "No word differs: both pumps sell." : count " words differ: a pump is locked."
}

function draw_head(table, which, x, y) {
    text(x, y, 13, ink, past[which])
    rack_of(table, which, 0, x, y + 14)
    rack_of(table, which, 1, x, y + 14 + high + 6)
}

function rack_of(table, which, rack, x, y,   p) {
    text(x, y + high / 2 + 4, 12, grey, "rack " rack)
    for (p = 0; p < r; p++) draw_pocket(table, which, rack "." p, x + 52 + wide * p, y)
}

# A pocket with its card and tier; red where the other head has something else there.
function draw_pocket(table, which, at, x, y,   other, filled, middle) {
    other = differ(table, at)
    filled = (table, which, at) in cards
    middle = "text-anchor=\"middle\""
    printf "<rect x=\"%d\" y=\"%d\" width=\"%d\" height=\"%d\" fill=\"%s\" stroke=\"%s\" stroke-width=\"%s\"/>\n",
        x + 1, y, wide - 3, high, other ? "#fbdcd8" : filled ? "#e3eef7" : "#ffffff", other ? red : "#b5b5b5",
        other ? 3 : 1
    if (filled) {
        text(x + wide / 2, y + 18, 11, ink, cards[table, which, at], middle)
        text(x + wide / 2, y + 32, 10, grey, "tier " tiers[table, which, at], middle)
    } else if (other) text(x + wide / 2, y + 24, 11, red, "empty", middle)
}
