! Promises to leave its argument as it is, and changes it.
module readers
  use pools
  implicit none
contains
  subroutine look(p)
    type(pool), intent(in) :: p
    print *, used_of(p)
    p%is_open = .false.
  end subroutine look
end module readers

program reader
  use readers
  implicit none
  type(pool) :: scores
  call open_pool(scores, 8)
  call look(scores)
end program reader
