! Sets a count that only its own module may change.
program assigned
  use counts
  implicit none
  print *, made
  made = 0
end program assigned
