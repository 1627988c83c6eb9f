! Queues of numbers: what came first goes first. A queue is two pools; the
! second is filled from the first when it is empty.
module queues
  use pools, only: pool, open_pool, put, taken_back, used_of
  implicit none
  private
  public :: queue, open_queue, join, leave, waiting, is_empty

  type queue
    private
    type(pool) :: coming
    type(pool) :: going
    integer, public :: turned = 0
  end type queue

contains

  subroutine open_queue(q, wanted)
    type(queue), intent(inout) :: q
    integer, intent(in) :: wanted
    call open_pool(q%coming, wanted)
    call open_pool(q%going, wanted)
  end subroutine open_queue

  ! Joins at the end.
  subroutine join(q, number, is_there)
    type(queue), intent(inout) :: q
    integer, intent(in) :: number
    logical, intent(out) :: is_there
    call put(q%coming, number, is_there)
  end subroutine join

  ! All that are coming go over, the last one first.
  subroutine turn(q)
    type(queue), intent(inout) :: q
    integer :: number
    logical :: is_there
    associate (from => q%coming, to => q%going)
      do while (used_of(from) > 0)
        call taken_back(from, number)
        call put(to, number, is_there)
        if (.not. is_there) exit
      end do
    end associate
    q%turned = q%turned + 1
  end subroutine turn

  ! Leaves from the front; 0 where nothing waits.
  subroutine leave(q, number)
    type(queue), intent(inout) :: q
    integer, intent(out) :: number
    if (used_of(q%going) == 0) call turn(q)
    call taken_back(q%going, number)
  end subroutine leave

  pure integer function waiting(q)
    type(queue), intent(in) :: q
    waiting = used_of(q%coming) + used_of(q%going)
  end function waiting

  pure logical function is_empty(q)
    type(queue), intent(in) :: q
    is_empty = waiting(q) == 0
  end function is_empty

end module queues
