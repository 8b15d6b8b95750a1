# What bindings/rust declares (names.rs, structs.rs, c.rs), as header.awk has it, but for the places of fields.
# AnyMessage is any_message.
function lower(name, out) {
    while (match(name, /[a-z][A-Z]/)) {
        out = out substr(name, 1, RSTART) "_"
        name = substr(name, RSTART + 1)
    }
    return tolower(out name)
}
function plain(type, many) {
    if (type ~ /^\[/) {
        many = type
        gsub(/.*; |\]/, "", many)
        gsub(/\[|;.*/, "", type)
        return lower(type) "*" many
    }
    return lower(type)
}
function call(text, name, count, i, part, pair, line) {
    name = text
    sub(/pub fn nyr_/, "", name)
    sub(/\(.*/, "", name)
    gsub(/.*\(|,? ?\) -> u32;/, "", text)
    count = split(text, part, ",")
    for (i = 1; i <= count; i++) {
        split(part[i], pair, ":")
        gsub(/ /, "", pair[1])
        sub(/^ /, "", pair[2])
        sub(/^\*const /, "in ", pair[2])
        sub(/^\*mut /, "out ", pair[2])
        line = line " " pair[1] ":" plain(pair[2])
    }
    print "call " name line
}
/^ *\/\// { next }
{ sub(/^ +/, "") }
/^pub const .*: &str = / { sub(/;/, "", $6); sub(/:/, "", $3); print "text " $3 " " $6 }
/^pub const .*: u[0-9a-z]+ = / { gsub(/[_;]/, "", $6); sub(/:/, "", $3); print "const " $3 " " $6 }
/^pub struct / { name = lower($3); line = ""; inside = 1; next }
/^}/ { if (inside) print "fields " name line; inside = 0 }
inside { sub(/,$/, ""); type = $0; sub(/^pub [a-z_]*: /, "", type); sub(/:/, "", $2); line = line " " $2 ":" plain(type) }
/^const _: \(\) = assert!\(size_of::</ {
    name = $0
    gsub(/.*size_of::<|>.*/, "", name)
    sub(/\);/, "", $NF)
    print "size " lower(name) " " $NF
}
/^pub const fn / {
    name = $4
    sub(/\(.*/, "", name)
    gsub(/.*\(|\).*|: u32/, "")
    gsub(/, /, " ")
    print "macro " toupper(name) " " $0
}
/^pub fn nyr_/ { text = ""; calling = 1 }
calling { text = text (text == "" ? "" : " ") $0; if (/;$/) { call(text); calling = 0 } }
