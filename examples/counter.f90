! A count that only its own module may change.
! Other units read it; an assignment to it outside of the module is refused.
module counter
  integer, protected :: count = 3
end module counter

program show
  use counter
  integer :: twice
  twice = count + count
  print *, count, twice
end program show
