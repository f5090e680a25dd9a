# What two heads were told and what they answered, side by side and in words: from two outputs of the console, before
# each of which stands head=1 or head=2.
BEGIN {
    FS = ","
    word["A"] = "add"; word["W"] = "withdraw"; word["L"] = "look up"
    refusal[5] = "blank card"; refusal[9] = "no such tier"; refusal[13] = "another issue is listed"
    refusal[10] = "listed at another tier"; refusal[6] = "listed already"; refusal[7] = "not listed"
    refusal[8] = "drawer full"
}
/^[AWL],/ { line[head, ++lines[head]] = sprintf("%-21s%s", request(), answer()) }
END { show(lines[1] > lines[2] ? lines[1] : lines[2]) }

function request() { return word[$1] " " $2 ($1 == "A" ? ", tier " $3 : "") }

function answer() {
    if ($1 == "L") return $NF == "N" ? "not listed" : $NF == "R5" ? "blank card" : "listed, tier " $NF
    return $NF == 0 ? "done" : "refused: " refusal[$NF]
}

function show(count,   i) {
    printf "  %-56s%s\n", "head one", "head two"
    for (i = 1; i <= count; i++) printf "  %-56s%s\n", line[1, i], line[2, i]
}
