divert(-1)
# What sources that m4 makes have in common: such a source begins with include(`algorithms.m4')dnl, and is
# made by m4 -I examples. Behind a number sign nothing is replaced, since it begins a comment for m4, too.

# each(`NAME', FIRST, LAST, `TEXT'): the text once for each number from FIRST to LAST, for which NAME stands
# in it.
define(`each', `ifelse(eval($2 <= $3), 1, `once(`$1', $2, `$4')each(`$1', eval($2 + 1), `$3', `$4')')')
define(`once', `pushdef(`$1', $2)$3`'popdef(`$1')')

# others(`NAME', FIRST, LAST, `TEXT'): the same, but for the number ME.
define(`others', `each(`$1', `$2', `$3', `ifelse($1, ME, , `$4')')')

# named(`NAME', COUNT): the next COUNT registers, or the next one, have this name: NAME is the first of them,
# NAME(I) the one that is I behind it. REGISTERS is how many have a name so far.
define(`REGISTERS', 0)
define(`named', `define(`$1', `register_at('REGISTERS`, $'`@)')define(`REGISTERS', named_with(`$2'))')
define(`named_with', `eval(REGISTERS + ifelse(`$1', , 1, `$1'))')
define(`register_at', `ifelse(`$2', , `$1', `eval($1 + $2)')')

# processes(FIRST, LAST, `FILE'): a process for each number from FIRST to LAST. FILE has its lines, in which
# ME is that number.
define(`processes', `each(`ME', `$1', `$2', `process
include(`$3')end
')')

# deeper(TEXT): the text of another macro with its lines two spaces further in.
define(`deeper', `patsubst(`$*', `^', `  ')')

# begins(COUNT), on a line of its own: an operation of one of COUNT processes begins, as docs/LINEARIZABLE.md
# wants it. FINISHED names COUNT registers; v15 and the cells from 24 on are used.
define(`begins', `  scan 24 FINISHED $1
  set v15 [24]
each(`CELL', 25, eval(23 + $1), `  set v15 v15 * 10
  set v15 v15 + [CELL]
')  emit v15')

# ends(RESULT), on a line of its own: it ends with this result. v14 counts the operations that the process has
# finished.
define(`ends', `  emit $1
  set v14 v14 + 1
  write FINISHED(ME) v14')
divert(0)dnl
