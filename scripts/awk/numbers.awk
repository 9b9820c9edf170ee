# Whole numbers of any length, as their decimal texts: awk's own are exact to 2^53 alone, and labels have 128 bits.

function magnitude(x) { return x ~ /^-/ ? substr(x, 2) : x "" }
function trimmed(x) { sub(/^0+/, "", x); return x == "" ? "0" : x }
function signed(is_negative, x) { return is_negative && x != "0" ? "-" x : x }
function is_less(a, b) { return length(a) != length(b) ? length(a) < length(b) : (a "") < (b "") }

# The sum of two magnitudes, digit by digit from the right; the first less the second, which is not greater.
function added(a, b,   made, carry, i, j, digit) {
  i = length(a); j = length(b); carry = 0
  while (i > 0 || j > 0 || carry) {
    digit = carry + (i > 0 ? substr(a, i--, 1) : 0) + (j > 0 ? substr(b, j--, 1) : 0)
    made = (digit % 10) made
    carry = (digit > 9)
  }
  return trimmed(made)
}

function less(a, b,   made, borrowed, i, j, digit) {
  i = length(a); j = length(b); borrowed = 0
  while (i > 0) {
    digit = substr(a, i--, 1) - borrowed - (j > 0 ? substr(b, j--, 1) : 0)
    borrowed = (digit < 0)
    made = (digit + 10 * borrowed) made
  }
  return trimmed(made)
}

function multiplied(a, b,   made, i, k) {
  made = "0"
  for (i = 1; i <= length(b); i++) {
    made = trimmed(made "0")
    for (k = substr(b, i, 1); k > 0; k--) made = added(made, a)
  }
  return made
}

function divided(a, b,   made, rest, i, k) {
  rest = "0"
  for (i = 1; i <= length(a); i++) {
    rest = trimmed(rest substr(a, i, 1))
    for (k = 0; !is_less(rest, b); k++) rest = less(rest, b)
    made = made k
  }
  return trimmed(made)
}

function negated(x) { return x ~ /^-/ ? substr(x, 2) : signed(1, x "") }

function plus(x, y,   a, b) {
  a = magnitude(x); b = magnitude(y)
  if ((x ~ /^-/) == (y ~ /^-/)) return signed(x ~ /^-/, added(a, b))
  return is_less(a, b) ? signed(y ~ /^-/, less(b, a)) : signed(x ~ /^-/, less(a, b))
}

function times(x, y) { return signed((x ~ /^-/) != (y ~ /^-/), multiplied(magnitude(x), magnitude(y))) }

# Truncated towards zero.
function quotient(x, y) { return signed((x ~ /^-/) != (y ~ /^-/), divided(magnitude(x), magnitude(y))) }
