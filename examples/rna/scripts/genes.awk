# A line for each gene, and in it a column for each sample: the reads of all its lanes.
NR == FNR { if (/^>/) genes[++rows] = substr($1, 2); next }
!($2 in seen) { seen[$2] = 1; samples[++columns] = $2 }
{ reads[$1, $2] += $4 }
END {
  printf "gene"
  for (c = 1; c <= columns; c++) printf "\t%s", samples[c]
  print ""
  for (r = 1; r <= rows; r++) {
    printf "%s", genes[r]
    for (c = 1; c <= columns; c++) printf "\t%d", reads[genes[r], samples[c]]
    print ""
  }
}
