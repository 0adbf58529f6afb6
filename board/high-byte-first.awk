# Makes of a module that was lowered for a machine which stores the low byte of a number first one for a machine that stores the high byte first.
# Two things in it go by that order. Where a module has them in a form that is not known here, this ends with 1.
function fail(what) { print "high-byte-first.awk: " what > "/dev/stderr"; exit 1 }

# The tag of an enum lies in a slot as wide as the enum's alignment, is stored as a number of that width, and is read as the slot's first byte.
/^define / { split("", narrow) }
/^ *%[^ ]+ = zext i8 / { narrow[$1] = 1 }
match($0, /^ *store i(16|32|64) [^,]+, ptr [^,]+, align 1$/) {
    width = substr($2, 2) + 0; value = $3; sub(/,$/, "", value); place = $5
    if (value ~ /^[0-9]+$/) {
        if (value + 0 > 255) fail("a tag of " value)
        printf "  store i%d %.0f, ptr %s align 1\n", width, value * 2 ^ (width - 8), place
    } else {
        if (!(value in narrow)) fail("line " NR " stores what is no byte: " $0)
        printf "  %%high.%d = shl i%d %s, %d\n  store i%d %%high.%d, ptr %s align 1\n", NR, width, value, width - 8, width, NR, place
    }
    next
}
# A constant stands as bytes, numbers of several bytes among it low byte first, as wide as the constant's alignment.
/^@static\.[0-9]+ = .* constant \[[0-9]+ x i8\] c".*", align [248]$/ {
    wide = $NF; match($0, / c".*", align/); head = substr($0, 1, RSTART + 2); text = substr($0, RSTART + 3, RLENGTH - 11); n = 0
    while (text != "") {
        if (substr(text, 1, 1) == "\\") { byte[n++] = substr(text, 1, 3); text = substr(text, 4) }
        else { byte[n++] = substr(text, 1, 1); text = substr(text, 2) }
    }
    if (n % wide) fail("a constant of " n " bytes")
    printf "%s", head
    for (i = 0; i < n; i += wide) for (j = wide - 1; j >= 0; j--) printf "%s", byte[i + j]
    print "\", align " wide
    next
}
# A table of names: a pointer and a length for each, then a tag in its first byte, or a number; the names stand behind the last. Nothing in the module
# says how wide the numbers are, so that those of more than a byte are told by the first name of their table. A wrong width gives other answers.
BEGIN {
    wide_by["HEADER_SIZE"] = 8; wide_by["START_AIRPLAY"] = 4
    wide_by["INFRA_BSSID_CHANNEL_PRESENT"] = 2; wide_by["LOG_TRIGGER_ID_PRESENT"] = 2; wide_by["CHANNEL_6"] = 2
}
function turned(from, wide,    i, text) {
    for (i = wide - 1; i >= 0; i--) text = text byte[from + i]
    return text
}
/^@static\.[0-9]+ = private constant <\{ ptr, / {
    line = $0; groups = 0; taken = 0
    while (match(line, / c"[^"]*"/)) {
        before[++groups] = substr(line, 1, RSTART + 2); from[groups] = taken
        text = substr(line, RSTART + 3, RLENGTH - 4); line = substr(line, RSTART + RLENGTH - 1)
        while (text != "") { n = substr(text, 1, 1) == "\\" ? 3 : 1; byte[taken++] = substr(text, 1, n); text = substr(text, n + 1) }
    }
    match($0, /ptr @static\.[0-9]+, i64 [0-9]+/); split(substr($0, RSTART, RLENGTH), word, " "); each = word[4] / groups - 8
    if (each != 16 && each != 24) fail("a table of entries of " each " bytes")
    names = ""; for (i = from[groups] + each; i < taken; i++) names = names byte[i]
    wide = 1; for (name in wide_by) if (index(names, name) == 1) wide = wide_by[name]
    for (g = 1; g <= groups; g++) {
        printf "%s%s%s", before[g], turned(from[g], 8), turned(from[g] + 8, wide)
        for (i = from[g] + 8 + wide; i < (g < groups ? from[g + 1] : taken); i++) printf "%s", byte[i]
    }
    print line
    next
}
{ print }
