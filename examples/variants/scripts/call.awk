# The places where at least `depth` reads have the same base, and not that of the genome: chromosome, position, both bases, the sample, and how many
# of its reads at this place have the base.
BEGIN { OFS = "\t" }
NR == FNR { genome[$1] = $2; names[++chromosomes] = $1; next }
{
  for (i = 1; i <= length($5); i++) {
    reads[$2, $3 + i - 1]++
    with[$2, $3 + i - 1, substr($5, i, 1)]++
  }
}
END {
  split("A C G T", bases, " ")
  for (c = 1; c <= chromosomes; c++) {
    for (at = 1; at <= length(genome[names[c]]); at++) {
      old = substr(genome[names[c]], at, 1)
      for (b = 1; b <= 4; b++) {
        n = with[names[c], at, bases[b]]
        if (bases[b] != old && n >= depth) print names[c], at, old, bases[b], sample, n "/" reads[names[c], at]
      }
    }
  }
}
