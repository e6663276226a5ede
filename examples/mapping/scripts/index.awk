# The places, from 1, of each short text of the genome, and the genome itself in the first line.
/^>/ { next }
{ genome = genome $0 }
END {
  print genome
  for (at = 1; at + seed - 1 <= length(genome); at++) print substr(genome, at, seed), at
}
