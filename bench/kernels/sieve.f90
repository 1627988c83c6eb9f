program sieve
  implicit none
  integer, parameter :: most = 200000
  logical :: is_composite(most)
  integer :: i, j, count
  count = 0
  do i = 2, most
    if (.not. is_composite(i)) then
      count = count + 1
      j = i + i
      do while (j <= most)
        is_composite(j) = .true.
        j = j + i
      end do
    end if
  end do
  print *, count
end program sieve
