dnl Process ME of atomic_counter.m4: process 0 counts twice, process 1 once.
  repeat eval(2 - ME)
deeper(begins(3))
    set v0 v0 + 1
    write OWN(ME) v0
    read v1 OWN(0)
    read v2 OWN(1)
    set v1 v1 + v2
ifdef(`LAST_SUM', `    write SUM v1
', `    if 1 < v1
      if v1 = 3
        write BIT(1) 1
      fi
      write SWITCH 1
    else
      read v2 SWITCH
      if v2 = 0
        write BIT(0) 1
      fi
    fi
')dnl
deeper(ends(0))
  done
