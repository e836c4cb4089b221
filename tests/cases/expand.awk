# Takes a case apart, as README.md beside this file says what one is: for its first, second... image the files OUT/1.entries, OUT/1.calls, OUT/1.answers, and OUT/1.looks where
# looks are asked for, those of the makers once a list was given. A line that has no place ends it with a message.

function fail(what) { print FILENAME ":" FNR ": " what | "cat 1>&2"; failed = 1; exit 1 }

function entry(text) { entries = entries text "\n" }

# A call, with `ok` as its answer until another is given, and `renewed` where it is a reading.
function call(text) {
  flush()
  waiting = text
  answer = text ~ /^(reading|readout|blockreadout)/ ? "renewed" : "ok"
  given = 0
}

function flush() {
  if (waiting == "") return
  print waiting > (out "/" n ".calls")
  print answer > (out "/" n ".answers")
  if (looks) {
    print waiting > (out "/" n ".looks")
    if (waiting ~ /^list/) makers = 1
    if (waiting ~ /^(profile|list|start|sample|set|reading|readout|blockreadout|reset)/ && !pulsing) printf "%s%s", look, (makers ? maker_look : "") > (out "/" n ".looks")
  }
  waiting = ""
}

BEGIN {
  count = split("82 32 89 1 90 32 91 16 201 16 202 16 203 16 204 1 206 1", group, " ")
  for (g = 1; g <= count; g += 2) for (i = 0; i < group[g + 1]; i++) {
    look = look "register " group[g] " " i "\n"
    for (m = 0; m < 3; m++) maker_look = maker_look "maker " m " " group[g] " " i "\n"
  }
  look = look "fleet\nimage\nrecord 0\nrecord 1\nrecord 2\n"
}
/^#/ || $0 == "" { next }
$0 == "[image]" { flush(); n++; entries = ""; section = "image"; next }
$0 == "[changes]" { flush(); n++; section = "image"; next }
$0 == "[calls]" || $0 == "[calls and looks]" {
  if (section != "image") fail("calls without an image")
  section = "calls"
  looks = $0 == "[calls and looks]"
  makers = 0
  printf "%s", entries > (out "/" n ".entries")
  next
}
section == "image" { entry($0); next }
section != "calls" { fail("neither an entry nor a call") }
/^= / {
  if (waiting == "" || given) fail("an answer without a call")
  given = 1
  answer = substr($0, 3)
  if (waiting ~ /^(register|record|maker)/ && answer !~ /^refused/) gsub(/ /, "", answer)
  next
}
$1 == "pulses" {
  if (NF != 3) fail("pulses COUNT BITS")
  flush()
  pulsing = 1
  for (i = 0; i < $2; i++) { call("sample " $3); call("sample 0") }
  flush()
  pulsing = 0
  next
}
{ call($0) }
END { if (!failed) flush() }
