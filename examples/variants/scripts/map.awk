# Each read with the place, chromosome and position, that it fits with the fewest mismatches, and their number. Reads that fit nowhere are logged.
BEGIN { OFS = "\t" }
NR == FNR { genome[$1] = $2; names[++chromosomes] = $1; next }
FNR % 4 == 1 { name = substr($1, 2) }
FNR % 4 == 2 {
  fewest = mismatches + 1
  for (c = 1; c <= chromosomes; c++) {
    for (at = 1; at + length($1) - 1 <= length(genome[names[c]]); at++) {
      different = differences($1, substr(genome[names[c]], at, length($1)))
      if (different < fewest) { fewest = different; chromosome = names[c]; position = at }
    }
  }
  if (fewest > mismatches) print name " fits nowhere" > "/dev/stderr"
  else print name, chromosome, position, fewest, $1
}

function differences(one, other,    i, n) {
  for (i = 1; i <= length(one); i++) n += substr(one, i, 1) != substr(other, i, 1)
  return n + 0
}
