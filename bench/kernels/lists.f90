module lists
  implicit none
  type item
    integer :: number
    integer, allocatable :: marks(:)
  end type item
  type list
    type(item), allocatable :: items(:)
    integer :: count
  end type list
contains
  subroutine open_list(l)
    type(list), intent(out) :: l
    allocate (l%items(4))
    l%count = 0
  end subroutine open_list
  subroutine add(l, number)
    type(list), intent(inout) :: l
    integer, intent(in) :: number
    type(item), allocatable :: more(:)
    integer :: i
    if (l%count == size(l%items)) then
      allocate (more(2 * l%count))
      do i = 1, l%count
        more(i)%number = l%items(i)%number
        call move_alloc(l%items(i)%marks, more(i)%marks)
      end do
      call move_alloc(more, l%items)
    end if
    l%count = l%count + 1
    l%items(l%count)%number = number
    allocate (l%items(l%count)%marks(3))
    l%items(l%count)%marks(1) = number
    l%items(l%count)%marks(2) = mod(number, 7)
    l%items(l%count)%marks(3) = mod(number, 11)
  end subroutine add
end module lists
program main
  use lists
  implicit none
  type(list) :: l
  integer :: i, k, s
  s = 0
  do k = 1, 20
    call open_list(l)
    do i = 1, 500
      call add(l, i * k)
    end do
    do i = 1, l%count
      s = mod(s + l%items(i)%marks(2) * l%items(i)%marks(3) + l%items(i)%number, 1000003)
    end do
  end do
  print *, s
end program main
