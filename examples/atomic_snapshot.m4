include(`algorithms.m4')dnl
# A snapshot of two segments with helping: an update scans first, and writes what it found beside its value.
# Who sees a segment move twice takes what was written there: that of process 0, which updates twice. For
# examples/linearizable: snapshot 'w1 w2' w1 scan.
ifdef(`ONE_MOVE',
`# Here one move is enough. An outcome is not linearizable.',
`# Each outcome is linearizable.')
named(`SEGMENT', 2)dnl
named(`FINISHED', 3)dnl
registers REGISTERS
# A segment has a value, and behind it what its writer scanned, a digit for each process. Registers 2 to 4: how
# many operations each process has finished.
# register 0: segment[0]
# register 1: segment[1]
check nofault
check ended
define(`MOVES', ifdef(`ONE_MOVE', 1, 2))dnl
dnl
dnl parts(SEGMENT): v8 is then its value, and v9 what its writer scanned. With a second argument its value is
dnl that of the last update.
define(`parts', `      set v8 0
      set v9 $1
      repeat 2
        if 999 < v9
          set v9 v9 - 1000
          set v8 v8 + 1
ifelse(`$2', , , `        else
          # never: it is the second update
')dnl
        fi
      done')dnl
dnl
dnl enough(SPACES): the other branch, where one move is enough.
define(`enough', `ifdef(`ONE_MOVE', `$1else
$1  # never: one move is enough
')')dnl
processes(0, 1, `atomic_snapshot_updater.m4')dnl
processes(2, 2, `atomic_snapshot_scanner.m4')dnl
ifdef(`ONE_MOVE', `# expect: fails judge', `# expect: holds')
# with: --length 28
# judge: examples/linearizable snapshot 'w1 w2' w1 scan
