# The base that most sequences have, at each place; of several the first one in the order of letters.

{
    for (at = 1; at <= length($0); at++) {
        count[at, substr($0, at, 1)]++
    }
    if (length($0) > longest) {
        longest = length($0)
    }
}

END {
    for (at = 1; at <= longest; at++) {
        best = "N"
        most = 0
        for (number = 1; number <= 4; number++) {
            base = substr("ACGT", number, 1)
            if (count[at, base] > most) {
                best = base
                most = count[at, base]
            }
        }
        whole = whole best
    }
    print ">" name
    print whole
}
