# Reads a header as clang prints it, and writes what it declares: to the file `c` a line of macros for each struct that a call takes or
# hands back and for each size, and to the file `rust` one macro with each such struct, each call and each size, in Rust's words for a type.

# A parameter: `TYPE NAME`, `TYPE *NAME`, `const TYPE *NAME` or `const TYPE NAME[SIZE]`.
function parameter(text, word) {
    split(text, word, " ")
    if (word[1] == "const" && word[3] ~ /^\*/) return "*const " word[2]
    if (word[1] == "const") return "&" array(word[2], word[3])
    if (word[2] ~ /^\*/) return "*mut " word[1]
    return word[1]
}

# The type of NAME[SIZE], or of a plain NAME.
function array(type, name) {
    if (!sub(/^.*\[/, "", name)) return type
    sub(/\].*/, "", name)
    return "[" type "; " name "]"
}

# Tells a struct, where it is one and was not told.
function tell(name) {
    if (!(name in fields_c) || told[name]++) return
    print "BEGIN(" name ")" fields_c[name] " END" > c
    structs = structs "struct " name " = " in_ffi(name) " {" fields_rust[name] " }\n"
}

# ffi.rs has another way to write a name: `gm_length_answer` is `LengthAnswer`.
function in_ffi(name, part, count, k, made) {
    count = split(name, part, "_")
    for (k = 2; k <= count; k++) made = made toupper(substr(part[k], 1, 1)) substr(part[k], 2)
    return made
}

{ sub(/;$/, "") }
# The sizes stand in the one enum that has no name.
/^enum / { unnamed = $0 == "enum {" }
unnamed && /^    GM_[A-Z_]+ = / {
    print "SIZE(" $1 ")" > c
    sizes = sizes "size " $1 " = " substr($1, 4) ";\n"
}
/^typedef struct / { in_c = in_rust = "" }
/^    [a-zA-Z0-9_]+ [a-z]+(\[[0-9]+\])?$/ {
    name = $2
    sub(/\[.*/, "", name)
    in_c = in_c " FIELD(" name ")"
    in_rust = in_rust " " name ": " array($1, $2) ","
}
/^} gm_[a-z_]+$/ {
    fields_c[$2] = in_c
    fields_rust[$2] = in_rust
}
/^[a-z0-9_]+ gm_[a-z_]+\(.*\)$/ {
    tell($1)
    name = $2
    sub(/\(.*/, "", name)
    text = $0
    gsub(/^[^(]*\(|\)$/, "", text)
    count = split(text, each, ", ")
    types = ""
    for (k = 1; k <= count; k++) {
        types = types parameter(each[k]) ", "
        split(each[k], word, " ")
        tell(word[1])
    }
    calls = calls "fn " name "(" types ") -> " $1 ";\n"
}
END { print "declared! {\n" structs calls sizes "}" > rust }
