# Prints a line for each call of integers::rounded in a terminal build, which has the names of functions and no line numbers:
# the value and the divisor, the quotient and the remainder, by how much the next whole number lies farther than the quotient,
# times the divisor, and the answer. See docs/TRACING.md.
set pagination off
set confirm off
break integers::rounded
break integers::farther_by
break integers::with_step
run
while $_isvoid($_exitcode)
  set $value = $rdi
  set $divisor = $rsi
  continue
  finish
  set $farther_by = $rax
  continue
  set $quotient = $rdi
  set $remainder = $rsi
  finish
  printf "rounded %ld / %ld: quotient %ld, remainder %ld, next farther by %ld: %ld\n", $value, $divisor, $quotient, $remainder, $farther_by, $rax
  continue
end
