# Prints the lines of crates.txt of the program vengine, of the library referee_c and of the crates that they depend on, as they are.
/^[^#]*:/ {
    split($0, part, ":")
    split(part[1], word, " ")
    depends[word[1]] = part[2]
    sub(/#.*/, "", depends[word[1]])
    line[++lines] = $0
    named[lines] = word[1]
}

function visit(name,    i, count, below) {
    if (!(name in depends) || seen[name]++)
        return
    count = split(depends[name], below, " ")
    for (i = 1; i <= count; i++)
        visit(below[i])
}

END {
    visit("vengine")
    visit("referee_c")
    for (i = 1; i <= lines; i++)
        if (named[i] in seen)
            print line[i]
}
