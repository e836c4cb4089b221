# The number of some bytes at a place of a text of hexadecimal digits, the least significant first. With `signed` it is two's complement.
function number(hex, at, count, signed, k, n, high) {
  n = 0
  high = signed && digit(hex, at + count - 1, 1) >= 8
  for (k = count - 1; k >= 0; k--) n = 256 * n + (high ? 255 - byte(hex, at + k) : byte(hex, at + k))
  return high ? -n - 1 : n
}

function byte(hex, at) { return 16 * digit(hex, at, 1) + digit(hex, at, 2) }
function digit(hex, at, k) { return index("0123456789abcdef", substr(hex, 2 * at + k, 1)) - 1 }
