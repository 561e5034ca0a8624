include(`algorithms.m4')dnl
# Mutual exclusion by a filter, for COUNT processes: G. L. Peterson, 1981. At each level one stays behind, the
# one that came last. Who would wait gives up, and who gets in stays in. At most one gets in.
named(`LEVEL', COUNT)dnl
named(`VICTIM', COUNT)dnl
define(`LAST', eval(COUNT - 1))dnl
registers REGISTERS
# Register p: the level of process p; behind them, of each level from 1 on, who came last, counted from 1.
check atmost 1 1
check ended
each(`ME', 0, LAST, `process
each(`HERE', 1, LAST, `  write LEVEL(ME) HERE
  write VICTIM(HERE) eval(ME + 1)
others(`OTHER', 0, LAST, `  read v0 LEVEL(OTHER)
  if v0 < HERE
  else
    read v1 VICTIM(HERE)
    if v1 = eval(ME + 1)
      halt
    fi
    set v1 0
  fi
  set v0 0
')')dnl
  emit 1
end
')dnl
