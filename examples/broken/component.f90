! Reaches into a pool, past the procedures of its module.
program component
  use pools
  implicit none
  type(pool) :: scores
  logical :: is_there
  call open_pool(scores, 8)
  call put(scores, 7, is_there)
  scores%used = 0
end program component
