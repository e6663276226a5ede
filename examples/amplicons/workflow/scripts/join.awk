# The amplicon of each pair of reads: the second read, turned round, joined to the end of the first where `overlap` bases or more are the same. Pairs
# without an overlap are logged.
BEGIN { complement["A"] = "T"; complement["C"] = "G"; complement["G"] = "C"; complement["T"] = "A" }
NR % 4 == 1 { name = substr($1, 2) }
NR % 4 == 2 {
  first = $1
  second = ""
  for (i = length($2); i > 0; i--) second = second complement[substr($2, i, 1)]
  for (n = length(first); n >= overlap; n--) {
    if (substr(first, length(first) - n + 1) == substr(second, 1, n)) { print first substr(second, n + 1); next }
  }
  print name " has no overlap" > "/dev/stderr"
}
