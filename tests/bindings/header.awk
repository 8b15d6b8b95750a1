# What include/nyrkovash.h declares, a line each. The last part of `const`, `size` and `at` is an expression in C:
#   text NAME "TEXT"                 const NAME VALUE            size STRUCT BYTES
#   fields STRUCT FIELD:TYPE..       at STRUCT FIELD PLACE BYTES
#   call NAME PARAMETER:TYPE..       TYPE with `in` or `out` before it is behind a pointer
#   macro NAME PARAMETER..
function plain(type) {
    sub(/^uint/, "u", type)
    sub(/_t$/, "", type)
    sub(/^nyr_/, "", type)
    return type == "size" ? "usize" : type
}
function struct(text, name, count, i, part, word, many, line) {
    name = text
    sub(/.*[}] *nyr_/, "", name)
    gsub(/.*[{]|[}].*/, "", text)
    print "size " name " sizeof(nyr_" name ")"
    count = split(text, part, ";")
    for (i = 1; i < count; i++) {
        split(part[i], word, " ")
        many = ""
        if (match(word[2], /\[.*\]/)) {
            many = "*" substr(word[2], RSTART + 1, RLENGTH - 2)
            sub(/NYR_/, "", many)
            word[2] = substr(word[2], 1, RSTART - 1)
        }
        line = line " " word[2] ":" plain(word[1]) many
        print "at " name " " word[2] " offsetof(nyr_" name "," word[2] ") sizeof(((nyr_" name "*)0)->" word[2] ")"
    }
    print "fields " name line
}
function call(text, name, count, i, part, out, line) {
    name = substr(text, match(text, /nyr_[a-z0-9_]*/) + 4, RLENGTH - 4)
    gsub(/.*\(|\).*/, "", text)
    count = text == "void" ? 0 : split(text, part, ",")
    for (i = 1; i <= count; i++) {
        out = part[i] !~ /\*/ ? "" : part[i] ~ /const / ? "in " : "out "
        gsub(/const |\*/, "", part[i])
        sub(/^ */, "", part[i])
        line = line " " substr(part[i], index(part[i], " ") + 1) ":" out plain(substr(part[i], 1, index(part[i], " ") - 1))
    }
    print "call " name line
}
function macro(text, name, count, i, part, line) {
    name = substr(text, match(text, /NYR_[A-Z0-9_]*/) + 4, RLENGTH - 4)
    gsub(/.*[A-Z]\(|\)$/, "", text)
    count = split(text, part, ", ")
    for (i = 1; i <= count; i++)
        line = line " " part[i]
    print "macro " name line
}
function names(text, count, i, part) {
    gsub(/.*[{]|[}].*/, "", text)
    count = split(text, part, ",")
    for (i = 1; i <= count; i++)
        if (match(part[i], /NYR_[A-Z0-9_]*/))
            print "const " substr(part[i], RSTART + 4, RLENGTH - 4) " " substr(part[i], RSTART, RLENGTH)
}
{ all = all $0 "\n" }
END {
    while (match(all, /\/\*([^*]|\*+[^*\/])*\*+\//))
        all = substr(all, 1, RSTART - 1) substr(all, RSTART + RLENGTH)
    defined = "#define NYR_[A-Z0-9_]*[(][a-z, ]*[)]|#define NYR_[A-Z0-9_]* [^\n]*"
    declared = "enum [{][^}]*[}]|typedef struct [{][^}]*[}] nyr_[a-z0-9_]*|uint32_t nyr_[a-z0-9_]*[(][^)]*[)]"
    while (match(all, defined "|" declared)) {
        one = substr(all, RSTART, RLENGTH)
        all = substr(all, RSTART + RLENGTH)
        gsub(/[ \n]+/, " ", one)
        if (one ~ /^#define NYR_[A-Z0-9_]*\(/)
            macro(one)
        else if (one ~ /^#define/) {
            split(one, word, " ")
            name = substr(word[2], 5)
            print word[3] ~ /"/ ? "text " name " " word[3] : "const " name " " word[2]
        } else if (one ~ /^enum/)
            names(one)
        else if (one ~ /^typedef/)
            struct(one)
        else
            call(one)
    }
}
