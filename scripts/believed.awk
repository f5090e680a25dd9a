# Finds what a reader must believe, for scripts/sizes. Input: the files of specs/ and src/ of all crates, and the files of
# laws in their proofs/. It begins with the laws and definitions named in `roots`, by a name or by 'file:name', where a
# field stands for its record, and with the contracts of the functions that the static libraries export (of the crates
# named in `libraries`; `#[unsafe(no_mangle)]`), and follows every definition, record, data type, struct and enum that a
# text cites, as far as the kit's library. Proofs are not followed: of a law only its statement counts, of a definition
# its declaration and its body.
#
# Prints, parted by tabs, a file, its definitions in their order, and how many lines these have that are not blank and
# no comment; with why=1, 'file name cites file name' instead. Fails if a root is declared nowhere or twice, and if a
# text has a name that is neither bound in it, nor declared in its file, nor imported there.
BEGIN {
    n = split("pub abbrev unfoldable record data where let in elim module as Type Unit result ensures fn extern mut " \
        "struct enum u16 u32 i32", words, " ")
    for (i = 1; i <= n; i++) of_language[words[i]] = 1
    n = split(libraries, words, " ")
    for (i = 1; i <= n; i++) exports[words[i]] = 1
    for (i = 1; i < ARGC; i++) if (split(ARGV[i], words, "/") > 2 && words[1] == "crates") ours[words[2]] = 1
}

function fail(what) { print "FAILED: " what > "/dev/stderr"; failed = 1 }

# What a module path means, `Rattle.CRATE.specs.FILE` or with `proofs`: a file, 'code of CRATE' for the structs and enums
# that a crate declares, '' in the library.
function place(path,   part) {
    split(path, part, ".")
    if (part[1] != "Rattle" || !(part[2] in ours)) return ""
    if (part[4] == "declared") return "code of " part[2]
    return "crates/" part[2] "/" part[3] "/" part[4] ".antt"
}

# `PATH.{name, name as other}` and `PATH as other`, of a line that begins with `use`. An operator is used without its
# `◌`.
function import(line,   path, n, i, item, part) {
    sub(/;$/, "", line)
    if (line !~ /\{/) {
        split(line, part, " as ")
        alias[FILENAME, part[2]] = place(part[1])
        return
    }
    path = line
    sub(/\.\{.*/, "", path)
    gsub(/^[^{]*\{|\}.*/, "", line)
    n = split(line, item, /, */)
    for (i = 1; i <= n; i++) {
        if (split(item[i], part, " as ") == 1) part[2] = part[1]
        gsub(/◌/, "", part[2])
        imported[FILENAME, part[2]] = imported[FILENAME, part[2]] place(path) "\t" part[1] "\n"
    }
}

# `CRATE::{Name, Name}` or `CRATE::Name`, of code.
function import_code(text,   name, n, i, from) {
    match(text, /::/)
    from = "code of " substr(text, 1, RSTART - 1)
    text = substr(text, RSTART + 2)
    gsub(/[{};\n]/, " ", text)
    n = split(text, name, /[ ,]+/)
    for (i = 1; i <= n; i++) imported[FILENAME, name[i]] = from "\t" name[i] "\n"
}

# A declaration: a definition, type, law, contract or section (`module _`). Its text is kept in pieces, the statement
# and each clause, because what a clause binds is bound in it alone.
function declare(name, kind) {
    here = ++declared
    name_of[here] = name
    kind_of[here] = kind
    file_of[here] = FILENAME
    section_of[here] = depth ? sections[depth] : 0
    known[FILENAME, name] = known[FILENAME, name] " " here
    rooted(name)
    proof = 0
    piece($0)
}
function rooted(name) {
    by_name[name] = by_name[name] " " here
    by_name[FILENAME ":" name] = by_name[FILENAME ":" name] " " here
}
function piece(line) { text[here, ++pieces[here]] = line; lines[here]++ }
function goes_on(line) { text[here, pieces[here]] = text[here, pieces[here]] "\n" line; lines[here]++ }

FNR == 1 {
    here = depth = heading = exporting = coded = using = 0
    crate = FILENAME
    gsub(/^crates\/|\/.*/, "", crate)
}

# Code: structs and enums, and of an exported function its signature and its contract.
FILENAME ~ /\.rt$/ {
    if (/^ *(\/\/.*)?$/) next
    if (/^ghost use /) import(substr($0, 11))
    else if (using || /^use [a-z_]+::([A-Za-z]|\{)/) {
        code = using ? code "\n" $0 : substr($0, 5)
        using = !/;$/
        if (!using) import_code(code)
    } else if (crate in exports && /^#\[unsafe\(no_mangle\)\]/) exporting = 1
    else if (exporting == 1) {
        match($0, /fn [a-z_0-9]+/)
        declare(substr($0, RSTART + 3, RLENGTH - 3), "contract")
        believe(here)
        exporting = 2
    } else if (exporting) {
        if ($0 == "{") exporting = 0
        else goes_on($0)
    } else if (/^pub (struct|enum) /) {
        declare($3, "type")
        known["code of " crate, $3] = " " here
        coded = 1
    } else if (coded) {
        goes_on($0)
        if ($0 == "}") coded = 0
    }
    next
}

# Specs. What stands deeper than the last declaration goes on with it; what stands as deep is a clause of it, or
# another.
/^ *(--.*)?$/ || /^pub mod / { next }
/^use / { import(substr($0, 5)); next }
{
    match($0, /^ */)
    indent = RLENGTH
    if (heading) {
        goes_on($0)
        heading = !/ where$/
        next
    }
    if (here && kind_of[here] != "section" && indent > level) {
        if (!proof) goes_on($0)
        # a constructor stands for its data type, and a root that is a field for its record
        if (data && $2 == ":") known[FILENAME, $1] = known[FILENAME, $1] " " here
        if (kind_of[here] == "type" && $1 == "pub" && $3 == ":") rooted($2)
        next
    }
    while (depth && indent <= margin[depth]) depth--
    level = indent
    kind = "law"
    for (i = 1; $i == "pub" || $i == "abbrev" || $i == "unfoldable"; i++) if ($i != "pub") kind = "definition"
    data = $i == "data"
    if ($i == "module") {
        declare("", "section")
        sections[++depth] = here
        margin[depth] = indent
        heading = !/ where$/
    } else if ($i == "record" || $i == "data") declare($(i + 1), "type")
    else if ($(i + 1) == ":") declare($i, kind)
    else if ($i == "unfolding" || $i == "ruleset" || kind_of[here] != "definition") proof = 1
    else piece($0)
}

# What is believed is followed when all files have been read.
function believe(d) { if (!believed[d]++) queue[++queued] = d }

# The declarations that a name means in a file, at declaration d; of several in the file the last one before d. None,
# and `found`, where it comes from the library or is a variant of an enum, which is cited by its own name beside it.
function meaning(file, name, d,   n, i, several, all, item, part) {
    found = 1
    if ((file, name) in known) {
        n = split(known[file, name], several, " ")
        for (i = n; i > 1 && several[i] + 0 > d + 0; i--) continue
        return several[i]
    }
    found = (file, name) in imported
    if (!found) return ""
    n = split(imported[file, name], item, "\n")
    for (i = 1; i < n; i++) {
        split(item[i], part, "\t")
        if ((part[1], part[2]) in known) all = all known[part[1], part[2]]
        else if (part[1] ~ /^crates/) fail(file ": " part[2] " is not in " part[1])
    }
    return all
}

# Whether a word of a pattern is a constructor; any other word is bound by it.
function constructor(d, name,   n, i, means) {
    n = split(meaning(file_of[d], name, d), means, " ")
    for (i = 1; i <= n; i++) if (kind_of[means[i]] != "type") return 0
    return found
}

# A word that is not bound: what it means is believed, if it is a definition or a type. `A.b` is b of a type or file A.
function cite(d, word,   n, i, means, head) {
    if (word in of_language || word !~ /[A-Za-z]/ || word ~ /^[.0-9"]/) return
    head = word
    sub(/\..*/, "", head)
    if ((file_of[d], head) in alias) {
        sub(/^[^.]*\./, "", word)
        n = split(known[alias[file_of[d], head], word], means, " ")
    } else {
        n = split(meaning(file_of[d], head, d), means, " ")
        if (!found) fail(file_of[d] ": " name_of[d] ": what is " word "?")
    }
    for (i = 1; i <= n; i++) if (kind_of[means[i]] == "definition" || kind_of[means[i]] == "type") {
        if (why && means[i] != d) print file_of[d], name_of[d], "cites", file_of[means[i]], name_of[means[i]]
        believe(means[i])
    }
}

# Piece p of declaration d: first which names it binds, and which words are no use of a name; then what it cites.
function follow(d, p,   t, n, i, j, head, level, word, apart, bound, part, s) {
    t = text[d, p]
    if (file_of[d] ~ /\.rt$/) {
        gsub(/[][&]/, " ", t)
        gsub(/: /, " : ", t)
    }
    gsub(/[(){};,]/, " & ", t)
    gsub(/\n/, " \n ", t)
    n = split(t, word, / +/)
    for (s = section_of[d]; s; s = section_of[s]) {
        j = split(binds[s], part, " ")
        for (i = 1; i <= j; i++) bound[part[i]] = 1
    }
    # the patterns of a clause
    for (i = 1; p > 1 && i <= n && word[i] != "="; i++)
        if (!constructor(d, word[i]) && word[i] != name_of[d]) bound[word[i]] = 1
    for (i = 1; i <= n; i++) {
        if (word[i] == ":") {
            for (j = i - 1; j > 0 && word[j] !~ /^[(){};,\n]$/ && word[j] != "pub" && word[j] != "let"; j--)
                bound[word[j]] = apart[j] = 1
        } else if (word[i] == "=") apart[i - 1] = 1
        else if (word[i] == "let") bound[word[i + 1]] = 1
        else if (word[i] == "ensures" && word[i + 1] != "{") apart[i + 1] = 1
        else if (word[i] == "\n" && text[d, 1] ~ /^pub enum/) apart[i + 1] = 1
        else if (word[i] == "↦") {
            for (j = i - 1; j > 0 && word[j] != "[" && word[j] != "|"; j--)
                if (!constructor(d, word[j])) bound[word[j]] = 1
        } else if (word[i] == "λ") {
            # as far as the dot; types of binders stand in parentheses
            level = 0
            for (j = i + 1; j <= n && (level > 0 || word[j] !~ /\.$/); j++) {
                if (word[j] == "(") level++
                else if (word[j] == ")") level--
                else if (level == 0) bound[word[j]] = 1
            }
            bound[substr(word[j], 1, length(word[j]) - 1)] = apart[j] = 1
        }
    }
    if (kind_of[d] == "section") for (head in bound) binds[d] = binds[d] " " head
    for (i = 1; i <= n; i++) {
        head = word[i]
        sub(/\..*/, "", head)
        if (!(i in apart) && !(head in bound)) cite(d, word[i])
    }
}

END {
    n = split(roots, root, " ")
    for (i = 1; i <= n; i++) {
        m = split(by_name[root[i]], places, " ")
        if (m == 1) believe(places[1])
        else fail(root[i] " is declared in " m " places")
    }
    for (q = 1; q <= queued; q++) {
        d = queue[q]
        # the sections that it stands in, from the outermost in, and then itself
        k = 0
        for (s = d; s; s = section_of[s]) around[++k] = s
        for (; k; k--) {
            believe(around[k])
            if (!followed[around[k]]++) for (p = 1; p <= pieces[around[k]]; p++) follow(around[k], p)
        }
    }
    for (d = 1; d <= declared; d++) if (believed[d]) {
        f = file_of[d]
        if (!(f in sum)) order[++files] = f
        sum[f] += lines[d]
        if (name_of[d] != "") names[f] = names[f] (names[f] == "" ? "" : ", ") name_of[d]
    }
    if (!why) for (i = 1; i <= files; i++) print order[i] "\t" names[order[i]] "\t" sum[order[i]]
    exit failed
}
