! Sets a count that only its own module may change, by another name.
program associated
  use counts
  implicit none
  associate (all => items)
    print *, all
    all = 0_8
  end associate
end program associated
