#!/usr/bin/env python3
"""Writes modules of the whole language, of about so many megabytes, and a program, to standard output: `f3 check` accepts them."""
import sys

UNIT = '''module shapes_{u}
{use}  implicit none
  private
  public :: box, area, grow, total  ! what others see
  integer, parameter :: limit = 100
  integer :: width(3) = [1, 2, {u}]
  integer, protected :: total = 0
  type box
    private
    integer :: low, high
    integer, allocatable :: cells(:, :)
    logical :: is_open = .true.
  contains
    final :: clear
  end type box
contains
  ! The area of a box, by its bounds.
  pure integer function area(b) result(n)
    type(box), intent(in) :: b
    integer :: i, j
    n = 0
    do i = lbound(b%cells, 1), ubound(b%cells, 1)
      do j = 1, size(b%cells, 2), 1
        if (b%cells(i, j) > 0 .and. .not. b%is_open) then
          n = n + b%cells(i, j) * (b%high - b%low + 1) ** 2
        else if (b%cells(i, j) == -1) then
          exit
        else
          n = n - mod(b%cells(i, j), limit) / 2
        end if
      end do
    end do
  end function area

  recursive subroutine grow(b, by, done)
    type(box), intent(inout) :: b
    integer, intent(in) :: by
    logical, intent(out) :: done
    integer, allocatable :: wider(:, :)
    integer :: stat
    select case (by)
    case (:0)
      done = .false.
      return
    case (1, 2, 4:8)
      b%high = b%high + by
    case default
      call grow(b, by / 2, done)
    end select
    allocate (wider(b%low:b%high + by, 3), stat = stat)
    if (stat /= 0) stop 17
    wider(1:2, :) = width(by) + limit
    call move_alloc(wider, b%cells)
    do while (total < limit)
      total = total + max(by, 1)
      if (total == 42) cycle
      print *, 'the total of this box is ', total, "and it's", b%is_open
    end do
    done = b%cells(1, 1) >= width(1) .or. total == limit
  end subroutine grow

  subroutine clear(b)
    type(box), intent(inout) :: b
    if (allocated(b%cells)) deallocate (b%cells)
    b%low = 0; b%high = -1  ! empty
  end subroutine clear
end module shapes_{u}
'''

size = int(float(sys.argv[1]) * 1_000_000)
written = 0
unit = 0
while written < size:
    text = UNIT.replace("{use}", f"  use shapes_{unit - 1}, only: other => area\n" if unit % 10 else "").replace("{u}", str(unit))
    sys.stdout.write(text)
    written += len(text)
    unit += 1
print(f"program p\n  use shapes_{unit - 1}\n  print *, total\nend program p")
