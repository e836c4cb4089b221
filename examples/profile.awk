# Shows the load profile as bars, for each maker: a line for each period, oldest first, with the time of its end, the units and the bar. The files are the configuration's source
# text, the calls and the answers; bytes.awk has `number`. It shows the slots that the last profile line before the start has chosen; maker 0 is shown by slot 0, and so on.
# A short period, which a clock set has closed or a start has begun, is marked; where it has no units it is left out. Dots stand for the time between two lines.

function clock(stamp) { return sprintf("%02d:%02d", int(stamp / 3600) % 24, int(stamp / 60) % 60) }

# As many marks for a unit, or units for a mark, as make the longest bar 50 marks at most.
function bar(units, text, k) {
  for (k = most > 50 ? int(units * 50 / most) : units * int(50 / most); k > 0; k--) text = text "#"
  return text
}

function keep(record, k) {
  records++
  stamp[records] = number(record, 0, 4)
  state[records] = number(record, 4, 1)
  for (k = 0; k < 8; k++) {
    value[records, slot[k]] = number(record, 5 + 8 * k, 8, 1)
    if (value[records, slot[k]] != 0) some[records] = 1
  }
}

function show(name, i, k, last) {
  print ""
  print name
  for (k = 1; k <= records; k++) {
    if (state[k] == 1 && !some[k]) continue
    if (last != "" && stamp[k] - last > 60 * minutes) print "..."
    printf("%s %-5s %6d%s\n", clock(stamp[k]), state[k] == 1 ? "short" : "", value[k, i], value[k, i] > 0 ? " " bar(value[k, i]) : "")
    last = stamp[k]
  }
}

BEGIN { for (k = 0; k < 8; k++) slot[k] = k }
FILENAME == ARGV[1] {
  if ($1 == "period") minutes = $2
  if ($1 == "maker") maker[makers++] = $2
  next
}
FILENAME == ARGV[2] {
  if ($0 != "" && $0 !~ /^#/) call[++calls] = $0
  next
}
{
  split(call[++answers], word, " ")
  if (word[1] == "profile") for (k = 0; k < 8; k++) next_slot[k] = word[k + 3]
  if (word[1] == "start") for (k in next_slot) slot[k] = next_slot[k]
  if (word[1] == "record" && $0 !~ /^refused/) keep($0)
}
END {
  for (k = 1; k <= records; k++) for (i = 0; i < makers; i++) if (value[k, i] > most) most = value[k, i]
  print "Load profile: the units of each period of " minutes " minutes, by the time of its end"
  for (i = 0; i < makers; i++) show(maker[i], i)
}
