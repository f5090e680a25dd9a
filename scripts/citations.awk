# What documents cite, for tests/claims and scripts/sizes. Prints, parted by tabs, a kind, 'document:line', a path from
# the root of this repository and a name ('-' where there is none):
#
#     heading  its text
#     item     an item of a list, with how many files it cites
#     link     the file that it leads to, with the heading
#     file     a path between backticks
#     name     a name that a file is said to declare: `path: name, name`, or a link to a source with names behind a
#              colon, each between backticks
#     base     the name of a file without its folder, between backticks
#     crate    a path in a crate, which is not named: `src/lib.rt`
#     inside   `crate::name`, with the crate as the path
#     target   `make name`
#     word     any other name between backticks
#     quoted   what stands in double quotes
#     unused, undefined    a label that is defined and not cited, or the other way round
#
# Lines of one paragraph, or of one item or row, are read as one. Code that is set apart is passed over.

function say(kind, path, name) { print kind "\t" place "\t" path "\t" (name == "" ? "-" : name) }

# A path without '.' and '..'.
function plain(path,   n, i, part, m, kept, out) {
    n = split(path, part, "/")
    for (i = 1; i <= n; i++)
        if (part[i] == ".." && m > 0) m--
        else if (part[i] != "." && part[i] != "") kept[++m] = part[i]
    for (i = 1; i <= m; i++) out = out (i > 1 ? "/" : "") kept[i]
    return out
}

# A link's target: its path is told from the folder of the document. Names may follow where it is a source.
function follow(target, rest,   path, heading, folder) {
    if (target ~ /^[a-z]+:/) return rest
    path = heading = target
    sub(/#.*/, "", path)
    if (heading !~ /#/) heading = ""
    sub(/^[^#]*#/, "", heading)
    folder = document
    if (!sub(/\/[^\/]*$/, "", folder)) folder = ""
    path = path == "" ? document : plain(folder "/" path)
    say("link", path, heading)
    cited++
    if (path !~ /\.(antt|rt|rs|c|h)$/) return rest
    if (rest !~ /^: `/) return rest
    rest = substr(rest, 3)
    while (match(rest, /^`[^`]*`/)) {
        say("name", path, substr(rest, 2, RLENGTH - 2))
        rest = substr(rest, RLENGTH + 1)
        if (rest !~ /^, `/) break
        rest = substr(rest, 3)
    }
    return rest
}

# What stands between backticks. Paths are told from the root, or from crates/.
function item(text,   path, names, n, i, name) {
    if (text ~ /^make [a-z]+$/) { say("target", "-", substr(text, 6)); return }
    path = text
    sub(/:? .*/, "", path)
    # With a word in capitals for what varies (`proofs/PATH/FUNCTION/Proof.antt`) it is no file.
    if (path ~ /(^|\/)[A-Z]+\//) return
    if (path ~ /^[A-Za-z_.]+\/[A-Za-z0-9_.\/+-]*$/) {
        if (path ~ /^(src|specs|proofs|must-fail)\//) { say("crate", "-", path); return }
        if (path !~ /^(\.ci|target|rust|crates|docs|include|sample|scripts|tests|tools)\//) path = "crates/" path
        sub(/\/$/, "", path)
        say("file", path)
        cited++
        names = text
        if (!sub(/^[^ ]*: /, "", names)) return
        n = split(names, name, /, */)
        for (i = 1; i <= n; i++) say("name", path, name[i])
    } else if (text ~ /^[A-Za-z_-]+\.(antt|rt|rs|c|h|md|txt|toml|edit|awk|svg|a)$/) say("base", "-", text)
    else if (text ~ /^[a-z_]+::[A-Za-z_]+$/) {
        n = split(text, name, "::")
        say("inside", name[1], name[2])
    } else if (text ~ /^[A-Za-z][A-Za-z0-9_'-]+(\.[A-Za-z][A-Za-z0-9_'-]+)?$/) {
        n = split(text, name, ".")
        for (i = 1; i <= n; i++) say("word", "-", name[i])
    }
}

function read(text,   n, i, piece, label) {
    cited = 0
    n = split(text, piece, "\"")
    for (i = 2; i < n; i += 2) say("quoted", "-", piece[i])
    while (match(text, /[`\[]/)) {
        text = substr(text, RSTART)
        if (match(text, /^`[^`]*`/)) {
            item(substr(text, 2, RLENGTH - 2))
            text = substr(text, RLENGTH + 1)
        } else if (match(text, /^\[[^\]]*\]\([^)]*\)/)) {
            label = substr(text, 1, RLENGTH - 1)
            sub(/^\[[^\]]*\]\(/, "", label)
            text = follow(label, substr(text, RLENGTH + 1))
        } else if (match(text, /^\[[^\]]*\]/) && (document, substr(text, 2, RLENGTH - 2)) in defined) {
            label = substr(text, 2, RLENGTH - 2)
            used[document, label] = 1
            text = follow(defined[document, label], substr(text, RLENGTH + 1))
        } else if (match(text, /^\[[^\]]*\]: `/) || match(text, /^\[[a-z_]+\/[^\]]*\]/)) {
            say("undefined", "-", substr(text, 2, index(text, "]") - 2))
            text = substr(text, RLENGTH + 1)
        } else text = substr(text, 2)
    }
}

# The texts of one document, when all of it was read: labels are defined at its end.
function told(   i) {
    for (i = 1; i <= texts; i++) {
        place = document ":" line_of[i]
        if (text_of[i] ~ /^#+ /) {
            sub(/^#+ /, "", text_of[i])
            say("heading", document, text_of[i])
        }
        read(text_of[i])
        if (text_of[i] ~ /^- /) say("item", document, cited)
    }
    for (i = 1; i <= labels; i++) {
        place = document ":" label_line[i]
        if (!((document, label_of[i]) in used)) say("unused", "-", label_of[i])
    }
    texts = labels = 0
}

FNR == 1 { told(); document = FILENAME; begin = 1; fenced = code = 0 }
/^ *```/ { fenced = !fenced; begin = 1; next }
fenced { next }
/^ *$/ { begin = 1; next }
begin && /^    / { code = 1 }
!/^    / { code = 0 }
code { next }
/^\[[^\]]*\]: [^ `]+$/ {
    label_of[++labels] = substr($0, 2, index($0, "]: ") - 2)
    label_line[labels] = FNR
    defined[document, label_of[labels]] = substr($0, index($0, "]: ") + 3)
    next
}
begin || /^ *(- |[0-9]+\. |#+ |\|)/ { text_of[++texts] = $0; line_of[texts] = FNR; begin = /^#/; next }
{ sub(/^ */, ""); text_of[texts] = text_of[texts] " " $0 }
END { told() }
