# The tables of bench/host: reads the counts at its marks, then the names of what stood between them.
function commas(n,   s) {
    s = ""
    for (n = sprintf("%d", n + 0.5); length(n) > 3; n = substr(n, 1, length(n) - 3)) s = "," substr(n, length(n) - 2) s
    return n s
}
function shown(what, form) { return ((what, form) in value) ? value[what, form] : "-" }
function put(what, form, n,   before) {
    before = ((what, form) in value) ? value[what, form] " / " : ""
    value[what, form] = before commas(n)
}
# A row for each case of one sort: what stands before its name, or nothing for the cases that have no such word.
function rows_of(sort, names,   forms, form, k, i, line) {
    forms = split(names, form, "|")
    for (k = 1; k <= rows; k++) {
        if (kind[order[k]] != sort) continue
        line = "| " substr(order[k], sort == "" ? 1 : length(sort) + 3) " |"
        for (i = 1; i <= forms; i++) line = line " " shown(order[k], form[i]) " |"
        print line
    }
}
NR == FNR { count[NR] = $1; next }
/^turns / { split($0, word, " "); turns = word[2]; next }
/^sum / { next }
{
    split($0, part, "|")
    loops++
    took = count[2 * loops] - count[2 * loops - 1]
    if (part[1] == "base") { base[part[3]] = took; next }
    if (part[1] ~ /^shape/) {
        took -= base[part[4]]
        shapes++
        if (took > most["any"]) { most["any"] = took; at["any"] = part[3] ": " part[2] }
        if (part[1] ~ /Tick$/ && took > most["Tick"]) { most["Tick"] = took; at["Tick"] = part[3] ": " part[2] }
        next
    }
    put(part[1], part[3], (took - base[part[4]]) / turns)
    if (!(part[1] in kind)) {
        kind[part[1]] = match(part[1], /^(regions|query|copy): /) ? substr(part[1], 1, RLENGTH - 2) : part[1] ~ /^read/ ? "read" : ""
        order[++rows] = part[1]
    }
}
END {
    print "\n### One event in a host\n"
    print "| event | `core_live` | `core_step` | `core_inner` | C, checked | C, trusting |"
    print "|---|---|---|---|---|---|"
    rows_of("", "core_live|core_step|core_inner|C checked|C trusting")
    print "\n### The dearest configuration\n"
    print "Each event of the table above on each of these shapes, " commas(shapes) " calls: 1 to 8 VMs, 1 to 64 slots, three tables, the queue empty"
    print "and full, no regions.\n"
    print "| | `core_live` | where |"
    print "|---|---|---|"
    print "| the dearest Tick | " commas(most["Tick"]) " | " at["Tick"] " |"
    print "| the dearest event | " commas(most["any"]) " | " at["any"] " |"
    print "\n### Regions\n"
    print "| Tick, the slot lasts; the regions are | `core_live` | C, checked |"
    print "|---|---|---|"
    rows_of("regions", "core_live|C checked")
    print "\n| access query | `core_allows` | C, checked | C, trusting |"
    print "|---|---|---|---|"
    rows_of("query", "core_allows|C checked|C trusting")
    print "\n### A Copy in a host\n"
    print "| Copy | `core_copy` | C, checked | C, trusting | `memmove` alone |"
    print "|---|---|---|---|---|"
    rows_of("copy", "core_copy|C checked|C trusting|memmove")
    print "\n### Images\n"
    print "| | ours | C |"
    print "|---|---|---|"
    print "| `core_fresh`: an image is read | " shown("read", "core_fresh") " | " shown("read", "C") " |"
    print "| `core_fresh`: an image with 8 regions of each VM is read | " shown("read with regions", "core_fresh") " | " shown("read with regions", "C") " |"
}
