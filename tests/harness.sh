# The tally of tests in bash: `passes` and `fails` count, and `ends` prints the last line and gives the exit status.
passed=0
failed=0
passes() {
  passed=$((passed + 1))
}
fails() {
  failed=$((failed + 1))
}
ends() {
  echo "$passed passed, $failed failed"
  [ "$failed" = 0 ]
}
