program nested
  implicit none
  integer :: i, j, s
  s = 0
  do i = 1, 1000
    do j = 1, 1000
      if (mod(i * j, 3) == 0) then
        s = s + 1
      else
        s = s - 1
      end if
    end do
  end do
  print *, s
end program nested
