module trees
  implicit none
  type leaf
    integer, allocatable :: values(:)
  end type leaf
  type tree
    type(leaf), allocatable :: leaves(:)
    integer :: mark
  end type tree
end module trees
program copies
  use trees
  implicit none
  type(tree) :: a, b
  integer :: i, j, k, s
  allocate (a%leaves(20))
  do i = 1, 20
    allocate (a%leaves(i)%values(50))
    do j = 1, 50
      a%leaves(i)%values(j) = i * j
    end do
  end do
  s = 0
  do k = 1, 200
    a%mark = k
    b = a
    b%leaves(mod(k, 20) + 1)%values(1) = k
    s = mod(s + b%leaves(3)%values(1) + b%mark, 1000003)
  end do
  print *, s
end program copies
