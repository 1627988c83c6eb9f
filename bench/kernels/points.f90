module m
  implicit none
  type point
    integer :: x, y
  end type point
contains
  integer function norm(p)
    type(point), intent(in) :: p
    norm = abs(p%x) + abs(p%y)
  end function norm
  subroutine shift(p, by)
    type(point), intent(inout) :: p
    integer, intent(in) :: by
    p%x = p%x + by
    p%y = p%y - by
  end subroutine shift
end module m
program points
  use m
  implicit none
  type(point) :: q(50)
  integer :: i, k, s
  do i = 1, 50
    q(i)%x = i
    q(i)%y = 0
  end do
  s = 0
  do k = 1, 200
    do i = 1, 50
      call shift(q(i), 1)
      s = mod(s + norm(q(i)), 10007)
    end do
  end do
  print *, s
end program points
