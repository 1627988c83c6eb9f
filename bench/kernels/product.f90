program product
  implicit none
  integer, parameter :: n = 60
  integer :: a(n, n), b(n, n), c(n, n), i, j, k, s
  do i = 1, n
    do j = 1, n
      a(i, j) = mod(i * 3 + j, 7)
      b(i, j) = mod(i + j * 5, 11)
    end do
  end do
  do i = 1, n
    do j = 1, n
      s = 0
      do k = 1, n
        s = s + a(i, k) * b(k, j)
      end do
      c(i, j) = s
    end do
  end do
  print *, c(1, 1), c(n, n), c(7, 31)
end program product
