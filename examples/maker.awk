# Shows what a maker has read, as a person likes to read it. The files are the configuration's source text, the calls and the answers; a call and its answer go together by their order. bytes.awk has
# `number`. Of several makers it shows the last one.

function clock(stamp) { return sprintf("%02d:%02d:%02d", int(stamp / 3600) % 24, int(stamp / 60) % 60, stamp % 60) }

function heading(text) { print ""; print text }

# What a register is called. That of a maker's slot, the fleet, the clock and the tariffs need no name.
function name_of(group, i) { return group == 82 ? meter[i] : group == 202 ? bill[i] : group == 203 ? input[i] : "group " group ", " i }

function show_meter(name, b) {
  printf "%-20s %s %12d%s\n", name, clock(number(b, 0, 4)), number(b, 4, 4, 1), number(b, 8, 1) % 2 == 1 ? "  invalid" : ""
}

function show_input(name, b) { printf "%-20s %8d %6d/%d\n", name, number(b, 0, 2), number(b, 2, 2), denominator[name] }

# All registers of a group that were read.
function show_all(group, k) {
  for (k = 1; k <= reads; k++) {
    if (read_group[k] != group) continue
    if (group == 82) show_meter(name_of(group, read_number[k]), bytes[k])
    else if (group == 203) show_input(name_of(group, read_number[k]), bytes[k])
    else printf "%-20s %8d\n", name_of(group, read_number[k]), number(bytes[k], 1, 4)
  }
}

# The last register of a group that was read.
function last(group, k) {
  for (k = reads; k > 0; k--) if (read_group[k] == group) return bytes[k]
}

function show_fleet(b) { printf "%d of %d awake, together %d\n", number(b, 1, 1), number(b, 0, 1), number(b, 5, 8, 1) }

BEGIN { who = -1 }
FILENAME == ARGV[1] {
  if ($1 == "maker") maker[makers++ + 0] = $2
  if ($1 == "input") { input[inputs++ + 0] = $2; denominator[$2] = $7 }
  if ($1 == "bill") bill[bills++ + 0] = $2 " " $3
  if ($1 == "meter") meter[meters++ + 0] = $2
  next
}
FILENAME == ARGV[2] {
  if ($0 != "" && $0 !~ /^#/) call[++calls] = $0
  next
}
{
  if (split(call[++answers], word, " ") < 4 || word[1] != "maker" || !(word[2] in maker)) next
  if (word[2] != who) { who = word[2]; reads = refusals = 0 }
  if ($1 == "refused") { refusal[++refusals] = sprintf("%-20s %s", name_of(word[3], word[4]), $0); next }
  read_group[++reads] = word[3]
  read_number[reads] = word[4]
  bytes[reads] = $0
}
END {
  print "What " maker[who] " reads at " clock(number(last(206), 0, 4))
  heading("Meters")
  show_all(82)
  show_fleet(last(204))
  heading("Inputs               rejected  left over")
  show_all(203)
  heading("Open bills")
  show_all(202)
  heading("Units to " clock(number(last(201), 1, 4)) sprintf("%12d", number(last(201), 5, 8, 1)))
  heading("Not on its list")
  for (k = 1; k <= refusals; k++) print refusal[k]
}
