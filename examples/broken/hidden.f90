! Asks for a procedure that its module keeps to itself.
program hidden
  use pools, only: pool, open_pool, widen
  implicit none
  type(pool) :: scores
  call open_pool(scores, 8)
end program hidden
