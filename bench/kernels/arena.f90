module arenas
  implicit none
  type node
    integer :: key, left, right
  end type node
  type arena
    type(node), allocatable :: nodes(:)
    integer :: used
  end type arena
contains
  subroutine open_arena(a, most)
    type(arena), intent(out) :: a
    integer, intent(in) :: most
    allocate (a%nodes(most))
    a%used = 0
  end subroutine open_arena
  subroutine insert(a, key)
    type(arena), intent(inout) :: a
    integer, intent(in) :: key
    integer :: at, next
    logical :: is_left
    a%used = a%used + 1
    a%nodes(a%used)%key = key
    a%nodes(a%used)%left = 0
    a%nodes(a%used)%right = 0
    if (a%used == 1) return
    at = 1
    do
      is_left = key < a%nodes(at)%key
      if (is_left) then
        next = a%nodes(at)%left
      else
        next = a%nodes(at)%right
      end if
      if (next == 0) exit
      at = next
    end do
    if (is_left) then
      a%nodes(at)%left = a%used
    else
      a%nodes(at)%right = a%used
    end if
  end subroutine insert
end module arenas
program main
  use arenas
  implicit none
  type(arena) :: a
  integer :: i, x, s
  call open_arena(a, 3000)
  x = 12345
  do i = 1, 3000
    x = mod(x * 73 + 41, 20011)
    call insert(a, x)
  end do
  s = 0
  do i = 1, 3000
    s = mod(s * 3 + a%nodes(i)%left + a%nodes(i)%right, 1000003)
  end do
  print *, s
end program main
