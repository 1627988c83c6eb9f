module m
  implicit none
contains
  subroutine swap(x, y)
    integer, intent(inout) :: x, y
    integer :: t
    t = x
    x = y
    y = t
  end subroutine swap
end module m
program swaps
  use m
  implicit none
  integer :: a(100), i, k
  do i = 1, 100
    a(i) = mod(i * 37, 101)
  end do
  do k = 1, 400
    do i = 1, 99
      if (a(i) > a(i + 1)) call swap(a(i), a(i + 1))
    end do
  end do
  print *, a(1), a(50), a(100)
end program swaps
