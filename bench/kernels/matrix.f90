program matrix
  implicit none
  integer, allocatable :: a(:, :), b(:, :), c(:, :)
  integer :: i, j, k, n, s
  n = 50
  allocate (a(n, n), b(n, n), c(n, n))
  do j = 1, n
    do i = 1, n
      a(i, j) = mod(i * j, 13)
      b(i, j) = mod(i + j, 11)
    end do
  end do
  do j = 1, n
    do i = 1, n
      s = 0
      do k = 1, n
        s = s + a(i, k) * b(k, j)
      end do
      c(i, j) = s
    end do
  end do
  s = 0
  do j = 1, n
    do i = 1, n
      s = mod(s + c(i, j), 1000003)
    end do
  end do
  print *, s
end program matrix
