# Of the exported functions of nyrkovash: on standard output a program that calls each of them, and in the file `calls` each as C
# calls it, in LLVM's language.
function kind_of(type) {
    if (type ~ /^&(mut )?\[[a-z0-9]+\]$/) return "slice"
    if (type ~ /^&/) return "place"
    return "number"
}
# A number of a constant: itself, or by way of the crate that has it.
function length_of(name) {
    if (name ~ /^[0-9]+$/) return name
    if (literal[name] != "") return literal[name]
    return home[name] "::" name
}
function bits(type) { return type == "usize" ? "i64" : "i" substr(type, 2) }
function one(text, path, name, i, n, params, param, type, mutable, element, size, made, given, taken, handed, held, k, at, kind) {
    name = text
    sub(/\(.*/, "", name)
    sub(/.* /, "", name)
    sub(/^[^(]*\(/, "", text)
    sub(/\)$/, "", text)
    n = split(text, params, ",")
    k = 0
    at = 0
    for (i = 1; i <= n; i++) {
        param = params[i]
        gsub(/^[ \n]+|[ \n]+$/, "", param)
        if (param == "") continue
        type = param
        sub(/^[a-z_]+: */, "", type)
        kind = kind_of(type)
        mutable = type ~ /^&mut/ ? "&mut " : "&"
        if (kind == "number") {
            given = given (given ? ", " : "") "0"
            taken = taken (taken ? ", " : "") bits(type) " noundef %a" at
            handed = handed (handed ? ", " : "") bits(type) " %a" at
            at++
            continue
        }
        if (type == "&mut usize") {
            made = made "    let mut v" i ": usize = 0;\n"
            given = given (given ? ", " : "") "&mut v" i
        } else {
            element = type
            sub(/^&(mut )?\[/, "", element)
            size = element
            sub(/[;\]].*/, "", element)
            made = made "    let mut v" i " = [0" element "; " (kind == "slice" ? "8" : length_of(bare(size))) "];\n"
            if (kind == "slice") made = made "    let n" i ": usize = 8;\n"
            given = given (given ? ", " : "") mutable "v" i (kind == "slice" ? "[..n" i "]" : "")
        }
        taken = taken (taken ? ", " : "") "ptr noundef %a" at
        if (kind == "place") {
            handed = handed (handed ? ", " : "") "ptr %a" at
            at++
            continue
        }
        taken = taken ", i64 noundef %a" (at + 1)
        held = held "  %r" k " = alloca [16 x i8], align 8\n  store ptr %a" at ", ptr %r" k ", align 8\n"
        held = held "  %r" (k + 1) " = getelementptr i8, ptr %r" k ", i64 8\n  store i64 %a" (at + 1) ", ptr %r" (k + 1) ", align 8\n"
        handed = handed (handed ? ", " : "") "ptr %r" k
        k += 2
        at += 2
    }
    print "fn call_" name "() -> u32 {\n" made "    nyrkovash::" name "(" given ")\n}\n"
    all = all "    all = all | call_" name "();\n"
    print "define noundef i32 @" name "(" taken ") #0 {\nstart:" >calls
    print held "  %r" k " = call i32 @\"nyrkovash::" path "::" name "\"(" handed ")\n  ret i32 %r" k "\n}\n" >calls
}
function bare(size) {
    sub(/^[a-z0-9]+; */, "", size)
    sub(/\].*/, "", size)
    return size
}
{
    parts = split(FILENAME, part, "/")
    crate = part[2]
    if (match($0, /const [A-Z_0-9]+: usize = /)) {
        name = substr($0, RSTART + 6, RLENGTH - 16)
        value = substr($0, RSTART + RLENGTH)
        sub(/;.*/, "", value)
        if (value ~ /^[0-9]+$/) literal[name] = value
        home[name] = crate
    }
    if (crate == "nyrkovash") {
        path = part[parts]
        sub(/\.rt$/, "", path)
        whole[path] = whole[path] $0 "\n"
    }
}
END {
    for (path in whole) {
        text = whole[path]
        while (match(text, /pub extern "C" fn nyr_[a-z0-9_]*\([^)]*\)/)) {
            found = substr(text, RSTART, RLENGTH)
            text = substr(text, RSTART + RLENGTH)
            # by name, as in the archive
            for (i = count++; i > 0 && exported[i - 1] > found; i--) {
                exported[i] = exported[i - 1]
                stands[i] = stands[i - 1]
            }
            exported[i] = found
            stands[i] = path
        }
    }
    for (i = 0; i < count; i++) one(exported[i], stands[i])
    print "fn main() {\n    let mut all: u32 = 0;\n" all "}"
}
