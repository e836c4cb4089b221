# Shows the end of a day as a person likes to read it. The files are the configuration's source text, the calls and the answers; a call and its answer go
# together by their order. bytes.awk has `number`.
FILENAME == ARGV[1] {
  if ($1 == "maker") maker[++makers] = $2
  if ($1 == "tariff") column[++columns] = $2
  if ($1 == "bill") { bill_maker[bills + 0] = $2; bill_column[bills++ + 0] = $3 }
  next
}
FILENAME == ARGV[2] {
  if ($0 != "" && $0 !~ /^#/) call[++calls] = $0
  next
}
{
  split(call[++answers], word, " ")
  if (word[1] == "date") { day = $1 " " $2; time = $3 }
  if (word[1] == "fleet") fleet[++fleets] = time "  " $0
  if (word[1] == "register" && word[2] == 202) amount[bill_maker[word[3]], bill_column[word[3]]] = $0 ~ /^refused/ ? $0 : number($0, 1, 4)
}
END {
  column[++columns] = "all"
  print "The hall on " day
  print ""
  print "Meters"
  for (k = 1; k <= fleets; k++) print fleet[k]
  print ""
  printf "%-12s", "Open bills"
  for (k = 1; k <= columns; k++) printf "%10s", column[k] == "all" ? "All" : column[k]
  print ""
  for (i = 1; i <= makers; i++) {
    printf "%-12s", maker[i]
    for (k = 1; k <= columns; k++) printf "%10s", (maker[i], column[k]) in amount ? amount[maker[i], column[k]] : "-"
    print ""
  }
}
