# Prints the crates of crates.txt that the crates in `tops` stand on, and these, each after those below it.
# usage: awk -F: -v tops="xvsh_main" -f dist/parts.awk crates.txt
/^#/ || NF < 2 { next }
{
    split($1, words, " ")
    below[words[1]] = $2
}
END {
    count = split(tops, wanted, " ")
    for (place = 1; place <= count; place++) visit(wanted[place])
}
function visit(name, words, total, place) {
    if (!(name in below) || name in visited) return
    visited[name] = 1
    total = split(below[name], words, " ")
    for (place = 1; place <= total; place++) visit(words[place])
    print name
}
