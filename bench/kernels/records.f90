module points
  implicit none
  type point
    integer :: x, y
    logical :: is_seen
  end type point
end module points
program records
  use points
  implicit none
  integer, parameter :: n = 1000
  type(point) :: p(n)
  integer :: i, k, s
  do i = 1, n
    p(i)%x = mod(i * 37, 101)
    p(i)%y = mod(i * 53, 97)
    p(i)%is_seen = .false.
  end do
  s = 0
  do k = 1, 100
    do i = 1, n
      if (p(i)%is_seen) then
        p(i)%y = mod(p(i)%y + 1, 97)
      else
        p(i)%x = mod(p(i)%x + p(i)%y, 101)
      end if
      p(i)%is_seen = p(i)%x > p(i)%y
    end do
  end do
  do i = 1, n
    s = s + p(i)%x - p(i)%y
  end do
  print *, s
end program records
