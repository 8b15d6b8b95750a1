# What include/nyrkovash.ads declares, as header.awk has it.
function plain(type) {
    if (type == "Nyr_Size") return "usize"
    if (type == "Nyr_Channel_Array") return "channel*CHANNELS"
    if (match(type, /Nyr_Words \(0 \.\. [0-9]+\)/)) return "u64*" (substr(type, 16, RLENGTH - 16) + 1)
    sub(/^Unsigned_/, "u", type)
    sub(/^Nyr_/, "", type)
    return tolower(type)
}
# `at` is a word of Ada's own.
function field(name) {
    name = tolower(name)
    return name == "at_item" ? "at" : name
}
function passed(type, out) {
    out = "in "
    if (sub(/^in out /, "", type)) out = "out "
    if (type == "Nyr_Bytes") return out "u8"
    if (type == "Nyr_Ids") return out "u16"
    if (type == "Nyr_Words") return out "u64"
    return (type ~ /^Unsigned_|^Nyr_Size$/ && out == "in " ? "" : out) plain(type)
}
function call(text, name, count, i, part, pair, line) {
    name = text
    sub(/.*External_Name => "nyr_/, "", name)
    sub(/".*/, "", name)
    count = sub(/^function [A-Za-z0-9_]* \(/, "", text)
    sub(/\) return Unsigned_32 .*/, "", text)
    count = count ? split(text, part, "; ") : 0
    for (i = 1; i <= count; i++) {
        split(part[i], pair, " : ")
        line = line " " tolower(pair[1]) ":" passed(pair[2])
    }
    print "call " name line
}
{ sub(/ *--.*/, ""); sub(/^ +/, ""); gsub(/ +/, " "); }
/ : constant String := / { sub(/;$/, "", $6); print "text " toupper(substr($1, 5)) " " $6 }
/ : constant := / {
    gsub(/[;_]/, "", $5)
    if ($5 ~ /^16#/) { sub(/^16#/, "0x", $5); sub(/#$/, "", $5) }
    print "const " toupper(substr($1, 5)) " " $5
}
/^type .* is record/ { name = tolower(substr($2, 5)); line = ""; inside = 1; next }
/^for .* use record/ { name = tolower(substr($2, 5)); places = 1; next }
/^end record/ { if (inside) print "fields " name line; inside = places = 0 }
inside { sub(/;$/, ""); type = $0; sub(/.* : /, "", type); line = line " " field($1) ":" plain(type) }
places { gsub(/[;_]/, "", $7); print "at " name " " field($1) " " $3 " (" $7 "+1)/8" }
/^for .*'Size use / { sub(/'Size/, "", $2); gsub(/[;_]/, "", $4); print "size " tolower(substr($2, 5)) " " $4 "/8" }
/^function .* return Unsigned_64 is$/ {
    name = toupper(substr($2, 5))
    gsub(/.*\(|\).*| : Unsigned_32/, "")
    gsub(/; /, " ")
    print "macro " name " " tolower($0)
    next
}
/^function / { text = ""; calling = 1 }
calling { text = text (text == "" ? "" : " ") $0; if (/;$/ && text ~ /External_Name/) { call(text); calling = 0 } }
