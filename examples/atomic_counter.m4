include(`algorithms.m4')dnl
# A counter of two processes, made of a register for each and the register of max_register.reg for their sum,
# for examples/linearizable: counter 'inc inc' inc r.
ifdef(`LAST_SUM',
`# Here the last sum that was written is read. An outcome is not linearizable.',
`# Each outcome is linearizable.')
named(`OWN', 2)dnl
named(`FINISHED', 3)dnl
ifdef(`LAST_SUM', `named(`SUM')', `named(`SWITCH')named(`BIT', 2)')dnl
registers REGISTERS
# Registers: 0 and 1: how often each process counted; 2 to 4: how many operations each process has finished;
ifdef(`LAST_SUM',
`# 5: the sum.',
`# 5: whether the sum was above 1; 6: the lower bit of a sum up to 1; 7: that of a greater one.')
check ended
processes(0, 1, `atomic_counter_process.m4')dnl
# It reads.
process
define(`ME', 2)dnl
begins(3)
ifdef(`LAST_SUM', `  read v1 SUM
', `  read v0 SWITCH
  if v0
    read v1 BIT(1)
    set v1 v1 + 2
  else
    read v1 BIT(0)
  fi
')dnl
ends(v1)
end
ifdef(`LAST_SUM', `# expect: fails judge', `# expect: holds')
# with: --length 26
# judge: examples/linearizable counter 'inc inc' inc r
