# Makes of a page or a unit of the repository the one that is installed:
#   - what stands between the marks `repository` and `end` is left out;
#   - what stands commented between the marks `installed` and `end` is written: behind `.\"+ ` in a manual page, and between
#     `<!--+` and `+-->` in any other;
#   - commands and files are named as they are installed;
#   - a link goes to the place at which packaging/files.txt installs its file, and is plain text if the file is not installed.
# A mark is a line of its own, `.\" repository` in a manual page and `<!-- repository -->` elsewhere. The places come from the
# environment, since awk would take a backslash in an assignment for an escape.

# Puts the new text for each old one; neither is a pattern.
function swap(line, old, new,    at, done) {
    done = ""
    while ((at = index(line, old)) > 0) {
        done = done substr(line, 1, at - 1) new
        line = substr(line, at + length(old))
    }
    return done line
}

function fail(why) {
    print FILENAME ":" FNR ": " why > "/dev/stderr"
    failed = 1
    exit 1
}

# Reads the list of what is installed: for each source a pattern, and its place, from the folder of pages on if it is there.
function read_list(    line, word, pattern, name) {
    while ((getline line < "packaging/files.txt") > 0)
        if (split(line, word, " ") == 4 && line !~ /^#/) {
            pattern = word[3]
            gsub(/\./, "\\.", pattern)
            gsub(/\*/, "[^/]*", pattern)
            sources[++count] = word[3]
            patterns[count] = "^" pattern "$"
            places[count] = swap(word[4], "@docdir@/", "")
            for (name in ENVIRON)
                places[count] = swap(places[count], "@" name "@", ENVIRON[name])
        }
}

# The place of a file or folder of the repository, from the folder of pages on, or nothing if it is not installed. Of two
# places it is the one in that folder.
function place_of(path,    at, name, found) {
    name = path
    sub(/.*\//, "", name)
    found = ""
    for (at = 1; at <= count; at++)
        if (path ~ patterns[at] && (found == "" || places[at] !~ /^\//))
            found = places[at] ~ /\/$/ ? places[at] name : places[at]
    if (found != "")
        return found
    # A folder of which something is installed below the same name.
    sub(/\/$/, "", path)
    for (at = 1; at <= count; at++)
        if (index(sources[at], path "/") == 1 && index(places[at], path "/") == 1)
            return path
    return ""
}

# What a link of the page goes to when installed, or nothing if its file is not.
function target_of(link,    path, folder, place, up) {
    if (link ~ /^(#|[a-z]+:)/)
        return link
    path = link
    sub(/#.*/, "", path)
    folder = FILENAME
    if (!sub(/\/[^\/]*$/, "", folder))
        folder = ""
    while (sub(/^\.\.\//, "", path))
        if (!sub(/\/[^\/]*$/, "", folder))
            folder = ""
    place = place_of(folder == "" ? path : folder "/" path)
    if (place == "")
        return ""
    up = place_of(FILENAME)
    sub(/[^\/]*$/, "", up)
    gsub(/[^\/]+\//, "../", up)
    return (place ~ /^\// ? "" : up) place substr(link, index(link "#", "#"))
}

# The line with each link as it is when installed. A number stands for a target until all places in the text are named.
function relinked(line,    done, before, target, at) {
    done = ""
    while (match(line, /\]\([^() ]+\)/)) {
        target = target_of(substr(line, RSTART + 2, RLENGTH - 3))
        before = substr(line, 1, RSTART - 1)
        line = substr(line, RSTART + RLENGTH)
        if (target != "") {
            targets[++links] = target
            done = done before "](\001" links "\001)"
            continue
        }
        for (at = length(before); at > 0 && substr(before, at, 1) != "["; at--)
            ;
        if (at == 0)
            fail("a link goes over the end of a line: put it on one line")
        done = done substr(before, 1, at - 1) substr(before, at + 1)
    }
    return done line
}

BEGIN {
    part = "both"
    program = ENVIRON["libexecdir"] "/market/market"
    live = ENVIRON["libexecdir"] "/market/live"
    docs = ENVIRON["docdir"] "/"
    read_list()
}

/^(\.\\"|<!--) (repository|installed|end)( -->)?$/ {
    if (($2 == "end") == (part == "both"))
        fail("the mark " $2 " is out of place: each repository and each installed needs an end behind it")
    part = $2 == "end" ? "both" : $2
    next
}
part == "repository" { next }
part == "installed" && /^(<!--\+|\+-->)$/ { next }
part == "installed" { sub(/^\.\\"\+ ?/, "") }
{
    line = FILENAME ~ /\.md$/ ? relinked($0) : $0
    line = swap(line, "../../crates/market/out/market", program)
    line = swap(line, "crates/market/out/market", program)
    line = swap(line, "crates/live/out/live", live)
    line = swap(line, "/usr/local/libexec/market/", ENVIRON["libexecdir"] "/market/")
    line = swap(line, "/usr/local/share/market/units", ENVIRON["unitdir"])
    line = swap(line, "/usr/local/bin/cogmaula", ENVIRON["bindir"] "/cogmaula")
    line = swap(line, "./market ", "market ")
    line = swap(line, "\"./market\"", "\"market\"")
    line = swap(line, "./python/cogmaula/cluster.schema.json", "python/cogmaula/cluster.schema.json")
    line = swap(line, "python/cogmaula/cluster.schema.json", ENVIRON["datadir"] "/market/python/cogmaula/cluster.schema.json")
    line = swap(line, "docs/CLUSTER_FILE.md", docs "CLUSTER_FILE.md")
    line = swap(line, "docs/SERVE.md", docs "SERVE.md")
    line = swap(line, "docs/RELAY.md", docs "RELAY.md")
    line = swap(line, "examples/", docs "examples/")
    line = swap(line, "pictures/", docs "pictures/")
    for (; links > 0; links--)
        line = swap(line, "\001" links "\001", targets[links])
    if (line ~ /^\.TH MARKET /)
        line = swap(line, " market ", " \"market " ENVIRON["version"] "\" ")
    print line
}
END { if (!failed && part != "both") { print FILENAME ": the last mark has no end: add one" > "/dev/stderr"; exit 1 } }
