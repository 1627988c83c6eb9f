! Pools of numbers. Only this module sees what a pool is made of, so a pool is
! always as its procedures leave it; one that goes out of sight gives back its
! room by itself, and is counted.
module pools
  use limits
  use counts, only: note_made, note_freed, note_items
  implicit none
  private
  public :: pool, open_pool, put, taken_back, used_of, room_of, total_of, largest_of

  type pool
    private
    integer, allocatable :: slots(:)
    integer :: used = 0
    logical, public :: is_open = .false.
  contains
    final :: close_pool
  end type pool

contains

  ! Opens a pool with room for so many numbers.
  subroutine open_pool(p, wanted)
    type(pool), intent(inout) :: p
    integer, intent(in) :: wanted
    if (p%is_open) return
    allocate (p%slots(clamped(wanted)))
    p%used = 0
    p%is_open = .true.
    call note_made()
  end subroutine open_pool

  ! What happens to a pool that goes out of sight.
  subroutine close_pool(p)
    type(pool), intent(inout) :: p
    if (.not. p%is_open) return
    call note_items(-p%used)
    call note_freed()
    p%is_open = .false.
  end subroutine close_pool

  ! More room: the numbers stay, in their order.
  subroutine widen(p, status)
    type(pool), intent(inout) :: p
    integer, intent(out) :: status
    integer, allocatable :: wider(:)
    integer :: i
    allocate (wider(grown(size(p%slots))), stat = status)
    if (status /= 0) return
    do i = 1, p%used
      wider(i) = p%slots(i)
    end do
    call move_alloc(from = wider, to = p%slots)
  end subroutine widen

  ! Puts a number into a pool; tells whether it is there.
  subroutine put(p, number, is_there)
    type(pool), intent(inout) :: p
    integer, intent(in) :: number
    logical, intent(out) :: is_there
    integer :: status
    is_there = .false.
    if (.not. p%is_open) return
    if (p%used == size(p%slots)) then
      if (p%used == largest) return
      call widen(p, status)
      if (status /= 0) return
    end if
    p%used = p%used + 1
    p%slots(p%used) = number
    call note_items(1)
    is_there = .true.
  end subroutine put

  ! Takes back the number that was put last; 0 where there is none.
  subroutine taken_back(p, number)
    type(pool), intent(inout) :: p
    integer, intent(out) :: number
    number = 0
    if (p%used == 0) return
    number = p%slots(p%used)
    p%used = p%used - 1
    call note_items(-1)
  end subroutine taken_back

  pure integer function used_of(p)
    type(pool), intent(in) :: p
    used_of = p%used
  end function used_of

  pure integer function room_of(p)
    type(pool), intent(in) :: p
    room_of = 0
    if (allocated(p%slots)) room_of = size(p%slots) - p%used
  end function room_of

  pure integer(8) function total_of(p) result(total)
    type(pool), intent(in) :: p
    integer :: i
    total = 0_8
    do i = 1, p%used
      total = total + p%slots(i)
    end do
  end function total_of

  pure integer function largest_of(p) result(found)
    type(pool), intent(in) :: p
    integer :: i
    found = 0
    if (p%used == 0) return
    found = p%slots(1)
    do i = 2, p%used
      found = max(found, p%slots(i))
    end do
  end function largest_of

end module pools
