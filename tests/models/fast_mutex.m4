include(`algorithms.m4')dnl
# Mutual exclusion that is fast where a process is alone, for COUNT processes: L. Lamport, 1987. Who would
# wait gives up, and who gets in stays in. At most one gets in.
named(`FIRST')dnl
named(`SECOND')dnl
named(`WANTS', COUNT)dnl
define(`LAST', eval(COUNT - 1))dnl
registers REGISTERS
# Registers: 0 and 1: who wrote last, counted from 1; behind them each process, 1 wants in.
check atmost 1 1
check ended
each(`ME', 0, LAST, `define(`NAME', eval(ME + 1))dnl
process
  write WANTS(ME) 1
  write FIRST NAME
  read v0 SECOND
  if v0
    write WANTS(ME) 0
    halt
  fi
  write SECOND NAME
  read v0 FIRST
  if v0 = NAME
    emit 1
    halt
  fi
  write WANTS(ME) 0
others(`OTHER', 0, LAST, `  read v0 WANTS(OTHER)
  if v0
    halt
  fi
')dnl
  read v0 SECOND
  if v0 = NAME
    emit 1
  fi
end
')dnl
