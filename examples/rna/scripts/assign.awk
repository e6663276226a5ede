# The gene of each read: the first one whose transcript has the read in it. The other reads are logged.
NR == FNR && /^>/ { genes[++n] = substr($1, 2); next }
NR == FNR { transcript[n] = transcript[n] $1; next }
{
  for (gene = 1; gene <= n; gene++) {
    if (index(transcript[gene], $1)) { print genes[gene]; next }
  }
  print $1 " is in no transcript" > "/dev/stderr"
}
