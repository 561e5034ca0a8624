include(`algorithms.m4')dnl
# COUNT processes at a splitter: L. Lamport, 1987; M. Moir and J. H. Anderson, 1995. At most one stops.
registers 2
check atmost 1 1
check ended
each(`ME', 1, COUNT, `process
  use split 0 ME
end
')dnl
