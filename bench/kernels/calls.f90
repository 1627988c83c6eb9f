module steps
  implicit none
contains
  integer function next(n) result(r)
    integer, intent(in) :: n
    r = mod(n * 17 + 5, 1009)
  end function next
  subroutine add(total, n)
    integer, intent(inout) :: total
    integer, intent(in) :: n
    total = mod(total + n, 100003)
  end subroutine add
end module steps
program calls
  use steps
  implicit none
  integer :: i, n, total
  n = 1
  total = 0
  do i = 1, 100000
    n = next(n + 0)
    call add(total, n)
  end do
  print *, total
end program calls
