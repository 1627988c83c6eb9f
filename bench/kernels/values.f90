module m
  implicit none
contains
  integer function twice(i)
    integer, intent(in) :: i
    twice = mod(2 * i, 10007)
  end function twice
  integer function less(i, j)
    integer, intent(in) :: i, j
    less = i - j
  end function less
end module m
program values
  use m
  implicit none
  integer :: s, i
  s = 0
  do i = 1, 20000
    s = less(twice(twice(s + i)), 3)
  end do
  print *, s
end program values
