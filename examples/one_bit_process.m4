dnl Process ME of one_bit.m4.
dnl
dnl look(FIRST, LAST): v1 is then whether one of these others wants in. With a third argument it looks again,
dnl once each process is blocked or has left.
define(`look', `    set v1 0`'others(`OTHER', `$1', `$2', `
    read v0 WANTS(OTHER)
    if v0
'`ifelse($3, , , `never(OTHER, `      ')')'`      set v1 1
    fi')')dnl
dnl
dnl never(OTHER, SPACES): a bit that is not up any more once each process is blocked or has left.
define(`never', `ifdef(`KEEPS_BIT', , `ifelse($1, 2, `dnl
$2# never: process 2 has left or given way with its bit taken back
')')')dnl
dnl
dnl blocked(FIRST, LAST): it waits for these others, and looks again.
define(`blocked', `      write STILL(ME) 1
      scan 0 STILL 3
      set v2 [0] * [1]
      if v2 * [2]
deeper(deeper(look(`$1', `$2', again)))
        if v1
ifelse($1, 1, `never(2, `          ')')dnl
          write STILL(ME) 2
          scan 0 STILL 3
          set v2 [0] * [1]
          set v2 v2 * [2]
          if v2 = 8
            emit 8
          fi
        fi
      fi
      halt')dnl
dnl
dnl passes: no lower one wants in. It gets in where no higher one does, either.
define(`passes', `ifelse(ME, 2, , `look(ME, 2)
    if v1
      # It waits until no higher one wants in.
blocked(ME, 2)
    fi
')    write WANTS(ME) 0
    write STILL(ME) 2
    emit 1
    halt')dnl
dnl
dnl gives_way: a lower one wants in.
define(`gives_way', `ifdef(`KEEPS_BIT', , `      write WANTS(ME) 0
')deeper(look(0, ME))
      if v1
        # It gives way until no lower one wants in.
deeper(blocked(0, ME))
      fi')dnl
  repeat 2
    write WANTS(ME) 1
ifelse(ME, 0, `passes
', `look(0, ME)
    if v1
gives_way
    else
deeper(passes)
    fi
')dnl
  done
