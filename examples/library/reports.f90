! Lines about what is going on.
module reports
  use counts
  use queues, only: queue, waiting, is_empty
  use pools, only: pool, used_of, room_of, total_of
  implicit none
  private
  public :: report_counts, report_pool, report_queue, histogram

contains

  subroutine report_counts()
    print *, 'made', made, 'freed', freed, 'live', live()
    print *, 'items', items
  end subroutine report_counts

  subroutine report_pool(p)
    type(pool), intent(in) :: p
    print *, 'used', used_of(p), 'room', room_of(p), 'total', total_of(p)
  end subroutine report_pool

  subroutine report_queue(q)
    type(queue), intent(in) :: q
    if (is_empty(q)) then
      print *, 'nobody waits'
    else
      print *, 'waiting', waiting(q), 'turned', q%turned
    end if
  end subroutine report_queue

  ! How many of these numbers fall to each of the places of a table.
  subroutine histogram(numbers, table)
    integer, intent(in) :: numbers(:)
    integer, intent(out) :: table(0:)
    integer :: i, place
    do i = lbound(table, 1), ubound(table, 1)
      table(i) = 0
    end do
    do i = 1, size(numbers)
      place = modulo(numbers(i), size(table))
      table(place) = table(place) + 1
    end do
  end subroutine histogram

end module reports
