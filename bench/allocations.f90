module holders
  implicit none
  type holder
    integer, allocatable :: words(:)
  end type holder
end module holders
program allocations
  use holders
  implicit none
  integer, parameter :: live = 10000, times = 1000000
  type(holder) :: held(live)
  integer :: i, k, x
  do i = 1, live
    allocate (held(i)%words(mod(i, 16)))
  end do
  x = 12345
  do i = 1, times
    x = mod(x * 73 + 41, 20011)
    k = mod(x, live) + 1
    deallocate (held(k)%words)
    allocate (held(k)%words(mod(x, 16)))
  end do
  k = 0
  do i = 1, live
    k = k + size(held(i)%words)
  end do
  print *, k
end program allocations
