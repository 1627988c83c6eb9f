program returns
  implicit none
  integer :: v(5), w(5), i, k, s
  s = 0
  w = 0
  do k = 1, 20
    v = w
    v(1) = v(1) + k
    print *, v
    do i = 1, 10000
      s = mod(s * 3 + i, 100003)
      v(mod(i, 5) + 1) = s
    end do
    w = v
  end do
  print *, s
end program returns
