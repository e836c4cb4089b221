# Shows the pages of the hall display in frames, as they hang on the wall. The file is the answers: only those of a display begin with a bar, and they have two lines of sixteen characters behind bars.
function edge() { print "+----------------+" }

BEGIN { print "The hall display" }
/^\|/ {
  if (pages++) print ""
  edge()
  print substr($0, 1, 18)
  print substr($0, 18, 18)
  edge()
}
