! Counts that everyone may read, and that only this module changes.
module counts
  implicit none
  private
  public :: made, freed, items, note_made, note_freed, note_items, live, is_even

  integer, protected :: made = 0
  integer, protected :: freed = 0
  ! a whole run may count past the range of the plain kind
  integer(8), protected :: items = 0_8

contains

  subroutine note_made()
    made = made + 1
  end subroutine note_made

  subroutine note_freed()
    freed = freed + 1
  end subroutine note_freed

  ! Adds so many items; a negative number takes them away.
  subroutine note_items(many)
    integer, intent(in) :: many
    items = items + many
    if (items < 0) items = 0_8
  end subroutine note_items

  ! How many objects are there now.
  integer function live()
    live = made - freed
  end function live

  pure logical function is_even(n)
    integer, intent(in) :: n
    is_even = mod(n, 2) == 0
  end function is_even

end module counts
