# Where a card may sit, by the rule of include/pinorange_hashes.h with the house tabulation, so that the plain table of
# plain.awk has the pockets of the proved one, in an awk of any make: tests/sample holds it to the console.
function house(i) { return (25173 * i * i + 13849) % 65521 }

# The pocket of a card in a rack of r pockets: the entries at the bytes of its number without the issue, lowest first,
# and the one of the station.
function pocket(rack, card, r, station,   start, part, low, sum, i) {
    start = 1280 * rack
    part = int(card / 10)
    low = part % 256
    sum = house(start + 1024 + (low + station) % 256)
    for (i = 0; i < 4; i++) {
        sum += house(start + 256 * i + part % 256)
        part = int(part / 256)
    }
    return sum % r
}
