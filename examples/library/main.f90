! Uses the library.
program main
  use limits, only: smallest, is_power_of_two
  use pools
  use queues
  use reports
  implicit none
  type(queue) :: line
  type(pool) :: scores
  integer :: i, number
  integer :: table(0:3)
  logical :: is_there
  call open_queue(line, smallest)
  call open_pool(scores, smallest)
  do i = 1, 20
    call join(line, i * i, is_there)
    if (.not. is_there) stop 1
  end do
  do while (.not. is_empty(line))
    call leave(line, number)
    if (is_power_of_two(number)) cycle
    call put(scores, number, is_there)
  end do
  call histogram([1, 2, 3, 4, 5, 6, 7], table)
  print *, table
  call report_pool(scores)
  call report_queue(line)
  call report_counts()
  print *, 'largest', largest_of(scores), 'open', scores%is_open
end program main
