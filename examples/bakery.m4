include(`algorithms.m4')dnl
# Mutual exclusion of three by the bakery, as in bakery.reg: m4 gives names to registers and to what a process
# holds, and makes each process of one text.
named(`TICKET', 3)dnl
define(`CHOOSING', 1)dnl
# What a process holds: its number, what it sees of another one, whether that one goes first, and which one
# that is.
define(`NUMBER', `v0')dnl
define(`SEEN', `v1')dnl
define(`FIRST', `v2')dnl
define(`OTHER', `v6')dnl
registers REGISTERS
check atmost 1 1
check ended
processes(0, 2, `bakery_process.m4')dnl
