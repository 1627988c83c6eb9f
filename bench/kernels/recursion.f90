module numbers
  implicit none
contains
  recursive integer function fib(n) result(r)
    integer, intent(in) :: n
    if (n < 2) then
      r = n
    else
      r = fib(n - 1) + fib(n - 2)
    end if
  end function fib
end module numbers
program recursion
  use numbers
  implicit none
  print *, fib(22)
end program recursion
