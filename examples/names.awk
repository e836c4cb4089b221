# The names of a configuration's source text, for image and lists: the things of a kind are numbered in the order in which they stand.
function fail(what) { print FILENAME ":" FNR ": " what | "cat 1>&2"; failed = 1; exit 1 }
function named(kind, name) {
  if (!((kind, name) in number)) fail("no " kind " is called " name)
  return number[kind, name]
}
function name_it(kind, name) { number[kind, name] = count[kind] + 0; return count[kind]++ + 0 }

# The things that the line names from a word on: bit i for thing i.
function mask_of(kind, from, k, mask) {
  for (k = from; k <= NF; k++) mask += 2 ^ named(kind, $k)
  return mask + 0
}
