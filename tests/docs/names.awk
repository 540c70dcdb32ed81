# Reads what is there (`KIND NAME [PLACE]` lines, the first file) and then the docs; prints each name of
# a doc that is not there, with its doc and line, and fails if there is one.
# In a path a word of capitals, such as CRATE or FUNCTION.antt, stands for any name; so does *.

FNR == 1 { input++; fenced = 0; head = "" }

input == 1 && $1 == "theorem" { declared[$2, $3]; theorem[$2]; next }
input == 1 && $1 == "cited" { cited[$3 ": " $2] = $2; next }
input == 1 { there[$1, $2]; counted[$1]++ }
input == 1 && $1 == "file" { note_file($2) }
input == 1 && $1 == "crate" { inside[$2] }
input == 1 && $1 == "edit" { unnamed[$2] = "edit" }
input == 1 && $1 == "crate" { unnamed[$2] = "crate" }
input == 1 { next }

/^ *```/ { fenced = !fenced; next }
fenced || /^    / { next }

{
    doc = FILENAME
    sub(/^\.\//, "", doc)
    if ($0 ~ /^\|/) row($0); else head = ""
    links($0)
    spans = split($0, span, "`")
    for (i = 1; i <= spans; i++) if (i % 2) plain(span[i]); else quoted(span[i])
}

END {
    for (name in unnamed) wrong("docs/: no doc names the " unnamed[name] " " name)
    if (counted["rule"]) for (c in cited) if (!(("rule", cited[c]) in there)) wrong(c ": no doc has this rule")
    printf "docs: %d names looked up, %d wrong\n", looked, failed
    exit failed > 0
}

function wrong(what) { print what; failed++ }

# held KIND NAME IS: counts a name that was looked up, and tells it if it is not there
function held(kind, name, is) {
    looked++
    if (!is) wrong(doc ":" FNR ": no " kind " " name)
}

function note_file(path,    part) {
    files[path]
    part = path
    sub(/.*\//, "", part)
    base[part]
    sub(/\.[a-z]+$/, "", part)
    base[part]
    sub(/\/.*/, "", path)
    top[path]
}

# Whether a path is there, as it stands or with the ending of a file of code.
function found(path,    parts, n, k, pattern, f) {
    sub(/\/$/, "", path)
    if (path in files || (path ".antt") in files || (path ".rt") in files) return 1
    n = split(path, parts, "/")
    for (k = 1; k <= n; k++) {
        if (parts[k] ~ /^[A-Z]+(\.(antt|rt|edit))?$/) sub(/^[A-Z]+/, "*", parts[k])
        pattern = pattern (k > 1 ? "/" : "^") parts[k]
    }
    if (pattern !~ /\*/) return 0
    gsub(/\./, "[.]", pattern)
    gsub(/\*/, "[^/]*", pattern)
    for (f in files) if (f ~ pattern "$") return 1
    return 0
}

# A word with a slash: a file if it starts in the repository or in a crate, else it may be an edit.
function path_of(word) {
    sub(/^\.\//, "", word)
    if (word ~ /^target\//) return ""
    if (word ~ /^[A-Za-z0-9_.]+\/(src|specs|proofs|must-fail)(\/|$)/ && word !~ /^crates\//) return "crates/" word
    split(word, part, "/")
    return part[1] in top ? word : ""
}

# Words of a text: paths are held to the files, rules to the rules.
function plain(text,    words, word, n, k) {
    n = split(text, words, /[ ,;:()|]+/)
    for (k = 1; k <= n; k++) {
        word = words[k]
        sub(/\.+$/, "", word)
        if (word ~ /^R[0-9]+\.[0-9]+$/ && counted["rule"]) held("rule", word, ("rule", word) in there)
        if (word ~ /^[A-Za-z0-9_.*-]+(\/[A-Za-z0-9_.*-]+)+$/ && path_of(word) != "") held("file", word, found(path_of(word)))
    }
}

# What stands between backquotes.
function quoted(text,    name, names, n) {
    if (doc ~ /^docs\//) delete unnamed[text]
    if (text ~ / /) { plain(text); return }
    if (("edit", text) in there) held("edit", text, 1)
    else if (text ~ /\/./ && path_of(text) != "") held("file", text, found(path_of(text)))
    else if (text ~ /^[a-z][a-z0-9_]*\/[a-z0-9_]+$/) held("edit", text, 0)
    else if (text ~ /^[A-Za-z0-9_-]+\.(antt|rt|md|rs|h|c|sh|txt|edit)$/) held("file", text, text in base)
    else if (text ~ /^[a-z][a-z0-9_]*(-[a-z0-9_]+)+$/) held("theorem", text, text in theorem || text in base)
    else if (text ~ /^[A-Za-z_][A-Za-z0-9_]*(::[A-Za-z_][A-Za-z0-9_]*)*$/ && text ~ /::|[a-z0-9]_[a-z0-9]|[a-z][a-z0-9]+[A-Z]/) {
        n = split(text, names, "::")
        for (name = 1; name <= n; name++) held("name in the code", names[name], ("word", names[name]) in there)
        if (n > 1 && names[1] ~ /^[a-z]/) held("crate", names[1], ("crate", names[1]) in there || names[1] ~ /^(libc|io|std)$/)
    }
}

# The targets of links, from the doc's own folder.
function links(text,    target, folder) {
    while (match(text, /\]\([^)]*\)/)) {
        target = substr(text, RSTART + 2, RLENGTH - 3)
        text = substr(text, RSTART + RLENGTH)
        sub(/#.*/, "", target)
        if (target == "" || target ~ /:\/\//) continue
        folder = doc
        if (!sub(/[^\/]*$/, "", folder)) folder = ""
        target = folder target
        while (sub(/[^\/]+\/\.\.\//, "", target)) continue
        held("file", target, found(target))
    }
}

# A row of a table: its column `crate` names crates; what its column `theorem` names is declared in a
# file of its last column, which stands in a crate's proofs/ if it has no folder.
function row(text,    cells, n, k, names, m, j, places) {
    gsub(/\\\|/, "", text)
    n = split(text, cells, / *\| */)
    if (head == "") { head = text; split(text, heads, / *\| */); return }
    if (text ~ /^[|: -]+$/) return
    for (k = 2; k < n; k++) {
        m = split(cells[k], names, /[`, ]+/)
        for (j = 1; j <= m; j++) {
            if (names[j] == "") continue
            if (heads[k] == "crate") held("crate", names[j], ("crate", names[j]) in there)
            if (heads[k] == "theorem") held("theorem", names[j] " in " cells[n - 1], stands(names[j], cells[n - 1]))
        }
    }
}

function stands(name, places,    place, n, k, d, key) {
    n = split(places, place, /[`, ]+/)
    for (k = 1; k <= n; k++) {
        if (place[k] !~ /\//) place[k] = "crates/[^/]*/proofs/" place[k]
        for (d in declared) {
            split(d, key, SUBSEP)
            if (key[1] == name && key[2] ~ "^" place[k] "(/.*)?(\\.antt)?$") return 1
        }
    }
    return 0
}
