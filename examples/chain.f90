! Two modules in a chain: what the first one declares reaches the program
! through the second one, with its protection.
module limits
  integer, protected :: lowest = 1, highest = 12
end module limits

module months
  use limits
  integer :: month = 7
end module months

program season
  use months
  integer :: left
  month = month + 2
  left = highest - month
  print *, month, left, lowest
end program season
