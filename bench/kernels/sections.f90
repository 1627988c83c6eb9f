program sections
  implicit none
  integer, allocatable :: v(:), w(:)
  integer :: i, k, n, s
  n = 1000
  allocate (v(n), w(n))
  do i = 1, n
    v(i) = mod(i * 37, 101)
    w(i) = mod(i * 53, 97)
  end do
  do k = 1, 100
    v(1:n:2) = w(1:n:2)
    w(2:n:2) = v(n:2:-2)
    v(3:n - 1) = v(4:n)
  end do
  s = 0
  do i = 1, n
    s = mod(s * 3 + v(i) + w(i), 1000003)
  end do
  print *, s
end program sections
