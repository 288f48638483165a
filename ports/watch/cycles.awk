# A section's instructions, and its least and most cycles on a Cortex-M4 by the reference manual (DDI 0439, table 3-1; no wait states), from what sections.so wrote.
#
#     arm-none-eabi-objdump -d --no-show-raw-insn IMAGE > IMAGE.s
#     awk [-v calls=20 -v top=12] -f cycles.awk IMAGE.s FOLDER/1
#
# With top, also the share of each kind of instruction, and the functions with the most instructions, for each of so many calls.
# Least: loads and stores pipelined (1), branches not taken where that fits the counts, P = 1, divisions 2, IT folded. Most: loads 2, every branch taken, P = 3, divisions 12.
FNR == NR {
    if ($0 ~ /^[0-9a-f]+ <.*>:$/) { name = $2; gsub(/[<>:]/, "", name); next }
    if ($0 ~ /^ +[0-9a-f]+:\t/) {
        split($0, part, "\t")
        a = part[1]; gsub(/[ :]/, "", a)
        if (prior != "") after[prior] = a
        prior = a
        word[a] = part[2]; rest[a] = part[3]; owner[a] = name
    }
    next
}
{ ran[$1] = $2 }
function registers(s,    k, m, list, n, pair) {
    sub(/.*\{/, "", s); sub(/\}.*/, "", s)
    m = split(s, list, /, */); n = 0
    for (k = 1; k <= m; k++) n += (list[k] ~ /-/) ? number(list[k]) : 1
    return n
}
function number(s,    e) { split(s, e, "-"); return index_of(e[2]) - index_of(e[1]) + 1 }
function index_of(r) { if (r == "ip") return 12; if (r == "fp") return 11; if (r == "sl") return 10; sub(/^[rsd]/, "", r); return r + 0 }
END {
    for (a in ran) {
        c = ran[a]; w = word[a]; r = rest[a]; o = owner[a]; lo = 1; hi = 1
        base = w; sub(/\.[nw]$/, "", base)
        if (base ~ /^(push|stmdb|stmia|ldmia|ldmdb|pop|vpush|vpop|vldm|vstm)/) {
            k = registers(r); lo = hi = 1 + k
            if (r ~ /pc/) { lo += 1; hi += 3 }
            kind = "load or store"
        } else if (base ~ /^(ldrd|strd)/) { lo = hi = 3; kind = "load or store" }
        else if (base ~ /^(ldr|str|vldr|vstr)/) { hi = 2; kind = "load or store"; if (r ~ /^pc/) { lo += 1; hi += 3 } }
        else if (base ~ /^(udiv|sdiv)/) { lo = 2; hi = 12; kind = "udiv" }
        else if (base ~ /^(mla|mls)$/) { lo = hi = 2; kind = "multiply" }
        else if (base ~ /^(mul|umull|smull|umlal|smlal|umaal|smul|smla)/) kind = "multiply"
        else if (base ~ /^it/) { lo = 0; kind = "it" }
        else if (base ~ /^(b|bl|bx|blx)$/) { lo = 2; hi = 4; kind = "branch" }
        else if (base ~ /^(tbb|tbh)$/) { lo = 3; hi = 5; kind = "branch" }
        else if (base ~ /^(cbz|cbnz|b(eq|ne|cs|cc|hs|lo|mi|pl|vs|vc|hi|ls|ge|lt|gt|le))$/) {
            hi = 4; kind = "branch"
            f = (after[a] in ran) ? ran[after[a]] : 0
            taken = c > f ? c - f : 0
            least += taken
        } else kind = "other"
        total += c; least += c * lo; most += c * hi
        kinds[kind] += c; in_function[o] += c
    }
    printf "%.0f %.0f %.0f\n", total, least, most
    if (top) {
        for (k in kinds) printf "    %5.1f %%  %s\n", 100 * kinds[k] / total, k | "sort -rn"
        close("sort -rn")
        for (o in in_function) printf "%14.1f %5.1f %%  %s\n", in_function[o] / calls, 100 * in_function[o] / total, o | ("sort -rn | head -" top)
    }
}
