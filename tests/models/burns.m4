include(`algorithms.m4')dnl
# Mutual exclusion by one bit each, for COUNT processes: J. E. Burns, 1981. Who would wait gives up, and who
# gets in stays in. At most one gets in.
named(`WANTS', COUNT)dnl
define(`LAST', eval(COUNT - 1))dnl
registers REGISTERS
check atmost 1 1
check ended
dnl
dnl none(FIRST, LAST): gives up where one of these wants in.
define(`none', `each(`OTHER', $1, $2, `  read v0 WANTS(OTHER)
  if v0
    write WANTS(ME) 0
    halt
  fi
')')dnl
each(`ME', 0, LAST, `process
none(0, eval(ME - 1))dnl
  write WANTS(ME) 1
none(0, eval(ME - 1))dnl
none(eval(ME + 1), LAST)dnl
  emit 1
end
')dnl
