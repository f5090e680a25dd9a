# A page of this repository as it stands in target/lib: a link to a file that is delivered leads to where that lies, any
# other becomes its text, with the file's name in the repository. Run with page (its name from the root of the
# repository, which it keeps there) and files (a file with the names of all that is delivered, from target/lib).
BEGIN {
    while ((getline name < files) > 0) note(name)
    folder = page
    if (!sub(/\/[^\/]*$/, "", folder)) folder = ""
}
{ print with_links($0) }

# A file is there, and so are the folders that it lies in.
function note(file) {
    there[file] = 1
    while (sub(/\/[^\/]*$/, "", file)) there[file] = 1
}

function with_links(line,   before, found) {
    before = ""
    while (match(line, /\[[^][]*\]\([^()]*\)/)) {
        found = substr(line, RSTART, RLENGTH)
        before = before substr(line, 1, RSTART - 1)
        line = substr(line, RSTART + RLENGTH)
        before = before link(found)
    }
    return before line
}

function link(found,   text, target, anchor, at) {
    text = target = found
    sub(/\]\([^()]*\)$/, "", text)
    sub(/^.*\]\(/, "", target)
    sub(/\)$/, "", target)
    if (target ~ /^#|^[a-z]+:/) return found
    anchor = target
    if (!sub(/^[^#]*#/, "#", anchor)) anchor = ""
    sub(/#.*$/, "", target)
    at = from_root(target)
    if (at in there) return found
    if (delivered(at) in there) return renamed(text, at) "](" back() delivered(at) anchor ")"
    sub(/^\[/, "", text)
    return index(text, at) ? text : text " (`" at "` in the repository)"
}

# The name from the root of what a page in its folder calls `target`.
function from_root(target,   path) {
    path = folder == "" ? target : folder "/" target
    sub(/\/$/, "", path)
    while (sub(/[^\/]+\/\.\.\//, "", path)) { }
    return path
}

# A text that names the file by where it lies in the repository names it by where it lies here.
function renamed(text, at,   start) {
    start = index(text, at)
    return start ? substr(text, 1, start - 1) delivered(at) substr(text, start + length(at)) : text
}

# From the page's folder to the root.
function back(   path) {
    path = folder == "" ? "" : folder "/"
    gsub(/[^\/]+\//, "../", path)
    return path
}

# Where scripts/lib lays a file of the repository.
function delivered(at) {
    sub(/^include\//, "", at)
    sub(/^tests\/c\//, "examples/", at)
    return at
}
