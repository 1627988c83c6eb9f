program states
  implicit none
  integer :: i, state, count(0:3)
  state = 0
  count = 0
  do i = 1, 200000
    select case (state)
    case (0)
      state = 1
      if (mod(i, 5) == 0) state = 3
    case (1)
      state = 2
    case (2)
      state = 0
      if (mod(i, 7) == 0) state = 1
    case default
      state = 0
    end select
    count(state) = count(state) + 1
  end do
  print *, count
end program states
