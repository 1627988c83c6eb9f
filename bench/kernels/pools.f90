module pools
  implicit none
  type item
    integer :: number
    integer, allocatable :: marks(:)
  end type item
  type pool
    type(item), allocatable :: items(:)
    integer :: count
  end type pool
contains
  subroutine add(l, number)
    type(pool), intent(inout) :: l
    integer, intent(in) :: number
    l%count = l%count + 1
    l%items(l%count)%number = number
    allocate (l%items(l%count)%marks(3))
    l%items(l%count)%marks(1) = number
    l%items(l%count)%marks(2) = mod(number, 7)
    l%items(l%count)%marks(3) = mod(number, 11)
  end subroutine add
  subroutine drop(l)
    type(pool), intent(inout) :: l
    deallocate (l%items(l%count)%marks)
    l%count = l%count - 1
  end subroutine drop
end module pools
program main
  use pools
  implicit none
  type(pool) :: l
  integer :: i, k, s
  s = 0
  allocate (l%items(500))
  l%count = 0
  do k = 1, 20
    do i = 1, 500
      call add(l, i * k)
    end do
    do i = 1, l%count
      s = mod(s + l%items(i)%marks(2) * l%items(i)%marks(3) + l%items(i)%number, 1000003)
    end do
    do i = 1, 500
      call drop(l)
    end do
  end do
  print *, s
end program main
