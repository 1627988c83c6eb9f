! Hands a count that only its own module may change to a procedure that sets it.
program lent
  use counts, only: so_far => made
  use pools
  implicit none
  type(pool) :: scores
  call open_pool(scores, 8)
  call taken_back(scores, number = so_far)
end program lent
