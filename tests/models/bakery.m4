include(`algorithms.m4')dnl
# Mutual exclusion by a bakery, for COUNT processes: L. Lamport, 1974. Who would wait gives up, and who gets
# in stays in. At most one gets in.
named(`TICKET', COUNT)dnl
define(`LAST', eval(COUNT - 1))dnl
registers REGISTERS
# Register p: the number of process p; 0 where it does not take part, 1 while it chooses.
check atmost 1 1
check ended
each(`ME', 0, LAST, `process
  write TICKET(ME) 1
  set v0 1
others(`OTHER', 0, LAST, `  read v1 TICKET(OTHER)
  if v0 < v1
    set v0 v1
  fi
  set v1 0
')dnl
  set v0 v0 + 1
  write TICKET(ME) v0
others(`OTHER', 0, LAST, `  read v1 TICKET(OTHER)
  if v1
    if v1 < v0
      halt
    fi
ifelse(eval(OTHER < ME), 1, `    if v1 = v0
      halt
    fi
')dnl
    set v1 0
  fi
')dnl
  emit 1
end
')dnl
