dnl Process ME of atomic_snapshot.m4: it scans once.
begins(3)
  read v0 SEGMENT(0)
  read v1 SEGMENT(1)
  # v5 and v6: how often each segment moved. In three turns nothing moves, or one of them moves twice.
  repeat 3
    read v2 SEGMENT(0)
    read v3 SEGMENT(1)
    set v4 0
    set v7 v0 = v2
    set v8 v1 = v3
    if v7 = 0
      set v5 v5 + 1
    fi
    if v8 = 0
      set v6 v6 + 1
    fi
    if v7 * v8
      # It found both twice.
parts(v2)
      set v7 v8 * 10
parts(v3)
      set v7 v7 + v8
      set v7 v7 * 10
      set v4 1
    else
      # It takes what the writer of one that moved twice scanned.
      if v5 = MOVES
deeper(parts(v2, ifelse(MOVES, 2, last)))
        set v7 v9
        set v4 1
      fi
      if v6 = MOVES
ifelse(MOVES, 2, `        # never: process 1 updates once
')dnl
deeper(parts(v3))
        set v7 v9
        set v4 1
      fi
    fi
    if v4
deeper(deeper(ends(v7)))
      halt
enough(`    ')dnl
    fi
ifelse(MOVES, 1, `    # never: one move is enough
')dnl
    set v0 v2
    set v1 v3
  done
