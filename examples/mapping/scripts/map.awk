# Each read with the place where its front stands in the genome, the place and the bases of the first difference, and how many there are.
NR == FNR && FNR == 1 { genome = $0; next }
NR == FNR { if (!($1 in at)) at[$1] = $2; seed = length($1); next }
FNR % 4 == 1 { name = substr($0, 2) }
FNR % 4 == 2 {
  place = at[substr($0, 1, seed)]
  if (!place) { print name " is not found" > "/dev/stderr"; next }
  different = 0
  where = change = "-"
  for (i = 1; i <= length($0); i++) {
    base = substr(genome, place + i - 1, 1)
    if (base != substr($0, i, 1)) { different++; if (where == "-") { where = place + i - 1; change = base ">" substr($0, i, 1) } }
  }
  print name, place, where, change, different
}
