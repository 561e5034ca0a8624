dnl Process ME of atomic_snapshot.m4: process 0 updates its segment twice, process 1 once.
define(`OTHER', eval(1 - ME))dnl
define(`digit_of', `ifelse($1, 0, 100, 10)')dnl
  repeat eval(2 - ME)
deeper(begins(3))
    # It scans. Its own segment is known, so it collects the other one.
    # v2: how often that one moved; v3: whether the scan is done; v4: what it scanned; v5: the own value.
    set v2 0
    set v3 0
    read v0 SEGMENT(OTHER)
    repeat 2
      if v3 = 0
        read v1 SEGMENT(OTHER)
deeper(parts(v1))
        if v0 = v1
          set v8 v8 * digit_of(OTHER)
          set v4 v5 * digit_of(ME)
          set v4 v4 + v8
          set v3 1
        else
          set v2 v2 + 1
          if v2 = MOVES
ifelse(ME`'MOVES, 02, `            # never: process 1 updates once
')dnl
            set v4 v9
            set v3 1
enough(`          ')dnl
          fi
        fi
        set v0 v1
      fi
    done
    set v5 v5 + 1
    set v6 v5 * 1000
    write SEGMENT(ME) v6 + v4
deeper(ends(0))
  done
