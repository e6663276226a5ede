# A line for each variant, and in it a column for each of `samples`: how many of its reads have the variant, or a dot. Reads calls sorted by place.
BEGIN {
  columns = split(samples, sample, " ")
  printf "chromosome\tposition\tchange"
  for (s = 1; s <= columns; s++) printf "\t%s", sample[s]
  print ""
}
{ variant = $1 "\t" $2 "\t" $3 ">" $4 }
NR > 1 && variant != last { print_line() }
{ last = variant; reads[$5] = $6 }
END { if (NR > 0) print_line() }

function print_line(    s) {
  printf "%s", last
  for (s = 1; s <= columns; s++) printf "\t%s", (sample[s] in reads) ? reads[sample[s]] : "."
  print ""
  split("", reads)
}
