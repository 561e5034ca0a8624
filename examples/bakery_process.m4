dnl Process ME of bakery.m4.
  # It chooses a number greater than each that it sees, its own 1 among them.
  write TICKET(ME) CHOOSING
  repeat 3
    read SEEN OTHER
    if NUMBER < SEEN
      set NUMBER SEEN
    fi
    set OTHER OTHER + 1
  done
  set NUMBER NUMBER + 1
  write TICKET(ME) NUMBER
  # The process with the lower number goes first; of two with the same number, the lower process.
  set OTHER 0
  repeat 3
    read SEEN OTHER
    set FIRST SEEN < NUMBER
    if SEEN = NUMBER
      set FIRST OTHER < ME
    fi
    if SEEN = 0
      set FIRST 0
    fi
    if FIRST
      halt
    fi
    set OTHER OTHER + 1
  done
  emit 1
