! What the other modules agree on: the largest sizes, and how one size follows
! from another. Nothing here changes during a run.
module limits
  implicit none
  private
  public :: smallest, largest, wide, grown, within, clamped, is_power_of_two

  integer, parameter :: smallest = 4
  integer, parameter :: largest = 1024
  ! the largest count of a whole run, of the wide kind
  integer(8), parameter :: wide = 9000000000_8
  integer, parameter :: factor = 2

contains

  ! The size behind this one, when there is no more room.
  pure integer function grown(size_now) result(next)
    integer, intent(in) :: size_now
    next = clamped(size_now * factor)
  end function grown

  ! Whether there may be an array of this size.
  pure logical function within(wanted)
    integer, intent(in) :: wanted
    within = wanted >= smallest .and. wanted <= largest
  end function within

  ! The nearest size that there may be.
  pure integer function clamped(wanted)
    integer, intent(in) :: wanted
    if (wanted < smallest) then
      clamped = smallest
    else if (wanted > largest) then
      clamped = largest
    else
      clamped = wanted
    end if
  end function clamped

  pure recursive logical function is_power_of_two(n) result(answer)
    integer, intent(in) :: n
    select case (n)
    case (:0)
      answer = .false.
    case (1)
      answer = .true.
    case default
      answer = .false.
      if (mod(n, 2) == 0) answer = is_power_of_two(n / 2)
    end select
  end function is_power_of_two

end module limits
