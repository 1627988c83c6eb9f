program sort
  implicit none
  integer, parameter :: n = 600
  integer :: v(n), i, j, x, s
  x = 12345
  do i = 1, n
    x = mod(x * 73 + 41, 20011)
    v(i) = x
  end do
  do i = 2, n
    x = v(i)
    j = i - 1
    do
      if (j < 1) exit
      if (v(j) <= x) exit
      v(j + 1) = v(j)
      j = j - 1
    end do
    v(j + 1) = x
  end do
  s = 0
  do i = 1, n
    s = mod(s * 3 + v(i), 1000003)
  end do
  print *, v(1), v(n), s
end program sort
