# What a definition reaches: the part of an awk program that tools/believe and tools/promises share. It reads the files of crates/*/specs and crates/*/src, each behind a line `@ file`. `reach(where[name])` fills `done`
# with what the definition `name` reaches, `order` with the same, itself last, and `library` with the names that it takes from the library; `forget()` comes before.

# a definition is a paragraph: what stands from its first line to the next empty one, without the comment above it
function begin() { group = file "#" line; first[group] = line; home[group] = file; text[group] = ""; groups[++count] = group }
function named(name) { gsub(/◌/, "", name); if (name != "" && !((file SUBSEP name) in own)) { own[file, name] = group; if (!(name in where)) where[name] = group; shown[group] = shown[group] (shown[group] == "" ? "" : ", ") "`" name "`" } }
function silent(name) { gsub(/◌/, "", name); if (name != "" && !((file SUBSEP name) in own)) { own[file, name] = group; if (!(name in where)) where[name] = group } }
$1 == "@" && NF == 2 { file = $2; line = 0; group = ""; coded = file ~ /\.rt$/; split(file, of_path, "/"); ours[of_path[2]] = 1; next }
{ line++ }
coded {
    if ($0 ~ /^pub (struct|enum) /) { begin(); named($3); type = 1 }
    if (group != "" && type) { text[group] = text[group] " " $0; last[group] = line; lines[group]++ }
    if ($0 ~ /^}/) { group = ""; type = 0 }
    next
}
# an import that takes several lines is read as one
/^use .*\{$/ { open = $0; next }
open != "" { open = open $0; if ($0 !~ /^}/) next; $0 = open; open = ""; gsub(/, *}/, "}") }
/^use / {
    from = $2; sub(/\.\{.*/, "", from)
    names = $0; sub(/^[^{]*\{/, "", names); sub(/\}.*/, "", names)
    many = split(names, each, /, */)
    for (i = 1; i <= many; i++) { name = each[i]; gsub(/◌/, "", name); taken[file, name] = from }
    next
}
/^$/ { group = ""; next }
/^ *--/ || /^infix/ { next }
{
    if (group == "") { begin(); data = 0 }
    text[group] = text[group] " " $0
    last[group] = line
    lines[group]++
    rest = $0
    sub(/^ *((abbrev|unfoldable|mutual) )*/, "", rest)
    if (rest ~ /^pub (record|data) /) { split(rest, word, " "); named(word[3]); data = (word[2] == "data") }
    else if (data && $0 ~ /^ +[^ ]+ :/) { split(rest, word, " "); silent(word[1]) }
    else if (rest ~ /^(pub )?[^ (]+ :( |$)/ && $0 !~ /^  +pub / ) { sub(/^pub /, "", rest); split(rest, word, " "); named(word[1]); data = 0 }
    else if ($0 ~ /^  pub [^ ]+ :( |$)/ && text[group] ~ /^ *(unfoldable )?mutual/) { sub(/^pub /, "", rest); split(rest, word, " "); named(word[1]) }
}
# the crate that a path `Rattle.NAME..` names; it is the library's where no file of such a crate is read
function crate_in(path,   part) { split(path, part, "."); return part[2] }
function target(file, name,   from) {
    if ((file SUBSEP name) in own) return own[file, name]
    if (!((file SUBSEP name) in taken)) return ""
    from = taken[file, name]
    if (!(from ~ /^Rattle\./ && (crate_in(from) in ours))) return "library"
    return (name in where) ? where[name] : ""
}
# what a definition names: other definitions, each as `file#line`, and what it takes from the library
function names_in(group,   n, i, word, seen, used, to, all) {
    used = text[group]
    # a field of a record (`r.field`) is no name of a definition
    gsub(/\.[a-z][A-Za-z0-9_]*/, " ", used)
    gsub(/λ|→|×|⊎|≡|∷/, " ", used)
    n = split(used, word, /[][ (){};,.|<>=:"]+/)
    for (i = 1; i <= n; i++) {
        used = word[i]
        gsub(/◌/, "", used)
        if (used == "" || used in seen) continue
        seen[used] = 1
        to = target(home[group], used)
        if (to != "") all = all " " (to == "library" ? used : to)
    }
    return all
}
function forget() { split("", done); split("", order); split("", library); reached = 0 }
function reach(group,   n, i, to) {
    done[group] = 1
    if (!(group in near)) near[group] = names_in(group)
    n = split(near[group], to, " ")
    for (i = 1; i <= n; i++) {
        if (to[i] !~ /#/) library[to[i]] = 1
        else if (!(to[i] in done)) reach(to[i])
    }
    order[++reached] = group
}
