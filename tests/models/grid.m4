include(`algorithms.m4')dnl
# COUNT processes in a grid of splitters: M. Moir and J. H. Anderson, 1995. Each takes a name of its own.
registers eval(COUNT * (COUNT + 1))
check distinct
check triangle
check ended
each(`ME', 1, COUNT, `process
  use grid 0 COUNT ME
end
')dnl
