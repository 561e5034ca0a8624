include(`algorithms.m4')dnl
# Mutual exclusion by a waiting room with two doors, for COUNT processes: B. K. Szymanski, 1988. Who would
# wait gives up, and who gets in stays in. At most one gets in.
named(`FLAG', COUNT)dnl
define(`LAST', eval(COUNT - 1))dnl
registers REGISTERS
# Register p, of process p: 1 it wants in, 2 it waits for others, 3 it is in the doorway, 4 it is in the room.
check atmost 1 1
check ended
each(`ME', 0, LAST, `process
  write FLAG(ME) 1
others(`OTHER', 0, LAST, `  read v0 FLAG(OTHER)
  if 2 < v0
    halt
  fi
')dnl
  write FLAG(ME) 3
  # v1: whether one more wants in; v2: whether the room was closed.
others(`OTHER', 0, LAST, `  read v0 FLAG(OTHER)
  if v0 = 1
    set v1 1
  fi
')dnl
  if v1
    write FLAG(ME) 2
others(`OTHER', 0, LAST, `    read v0 FLAG(OTHER)
    if v0 = 4
      set v2 1
    fi
')dnl
    if v2 = 0
      halt
    fi
  fi
  set v0 0
  set v1 0
  set v2 0
  write FLAG(ME) 4
each(`OTHER', 0, eval(ME - 1), `  read v0 FLAG(OTHER)
  if 1 < v0
    halt
  fi
')dnl
  emit 1
end
')dnl
