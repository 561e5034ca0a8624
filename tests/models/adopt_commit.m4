include(`algorithms.m4')dnl
# Adopt-commit of COUNT processes that propose 1, 2, 1, 2 and so on: E. Gafni, 1998. A process emits 10 and
# the value where it commits to it, and else the value that it adopts.
named(`PROPOSED', COUNT)dnl
named(`SECOND', COUNT)dnl
define(`LAST', eval(COUNT - 1))dnl
registers REGISTERS
# Registers: what each proposes; behind them with what each goes into the second round, 10 and the value where
# it saw no other one.
check within 1 12
check ended
each(`ME', 0, LAST, `define(`OWN', eval(ME % 2 + 1))dnl
process
  write PROPOSED(ME) OWN
  # v1: whether another value was seen.
others(`OTHER', 0, LAST, `  read v0 PROPOSED(OTHER)
  if v0
    if v0 = OWN
    else
      set v1 1
    fi
  fi
')dnl
  set v0 0
  set v3 OWN
  if v1 = 0
    set v3 v3 + 10
  fi
  write SECOND(ME) v3
  # v1: the value that one may commit to; v2: whether one saw two values.
  set v1 0
  set v2 v3 < 10
  if v2 = 0
    set v1 v3
  fi
others(`OTHER', 0, LAST, `  read v0 SECOND(OTHER)
  if v0
    if v0 < 10
      set v2 1
    else
      set v1 v0
    fi
  fi
')dnl
  set v0 0
  if v1 = 0
    emit OWN
  else
    if v2
      emit v1 - 10
    else
      emit v1
    fi
  fi
end
')dnl
