module handles
  implicit none
  integer :: closed = 0
  type handle
    integer, allocatable :: number
  contains
    final :: close_handle
  end type handle
contains
  subroutine close_handle(h)
    type(handle), intent(inout) :: h
    if (allocated(h%number)) closed = closed + h%number
  end subroutine close_handle
  subroutine use_one(i)
    integer, intent(in) :: i
    type(handle) :: h
    allocate (h%number)
    h%number = mod(i, 10)
  end subroutine use_one
end module handles
program finals
  use handles
  implicit none
  integer :: i
  do i = 1, 20000
    call use_one(i)
  end do
  print *, closed
end program finals
