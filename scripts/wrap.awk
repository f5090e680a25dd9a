# Texts in 120 columns, for the scripts that write documents: `wrap(text, first, rest)` prints the text, its first line
# behind `first` and the others behind `rest`. What stands between backticks stays on one line, and no line but the
# first begins with what would be the mark of a list: such a word stays with the one before it.

# Columns and not bytes: of a character beyond ASCII only the first byte counts. Run awk with LC_ALL=C.
function columns(text) {
    gsub(/[\200-\277]/, "", text)
    return length(text)
}

function wrap(text, first, rest,   n, i, word, item, quoted, line, begun) {
    n = split(text, word, " ")
    line = first
    for (i = 1; i <= n; i++) {
        item = word[i]
        # A piece that opens a backtick and does not close it goes on with the next word.
        for (quoted = item; gsub(/`/, "", quoted) % 2 && i < n; quoted = item) item = item " " word[++i]
        while (i < n && word[i + 1] ~ /^([-+*>]|#+|[0-9]+[.)])$/) item = item " " word[++i]
        if (begun && columns(line) + 1 + columns(item) > 120) {
            print line
            line = rest
            begun = 0
        }
        line = line (begun ? " " : "") item
        begun = 1
    }
    print line
}
