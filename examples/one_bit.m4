include(`algorithms.m4')dnl
# Mutual exclusion of three with a bit each, asked for deadlocks: a process gives way to lower ones, and waits
# for higher ones.
ifdef(`KEEPS_BIT',
`# It keeps its bit where it gives way. Each that has not left may be blocked.',
`# It takes its bit back where it gives way.')
named(`WANTS', 3)dnl
named(`STILL', 3)dnl
registers REGISTERS
# Registers: 0 to 2: each process, 1 wants in; 3 to 5: each process, 1 is blocked, 2 is so still, or has left.
# A process emits 1 where it got in, and 8 where none can go on any more.
check atmost 8 0
check ended
processes(0, 2, `one_bit_process.m4')dnl
ifdef(`KEEPS_BIT', `# expect: fails check atmost 8 0', `# expect: holds')
# with: --length 48
