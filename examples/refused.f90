! A module's promise that is broken: the assignment in the program is refused.
module account
  integer, protected :: balance = 100
end module account

module bank
  use account
end module bank

program thief
  use bank
  balance = 0
  print *, balance
end program thief
