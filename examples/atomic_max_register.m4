include(`algorithms.m4')dnl
# The register of max_register.reg, which holds the greatest value written so far, for examples/linearizable:
# max-register w3 w1 'r r'.
ifdef(`NO_LOOK',
`# Here a small value is written without a look at the switch. An outcome is not linearizable.',
`# Each outcome is linearizable.')
named(`SWITCH')dnl
named(`BIT', 2)dnl
named(`FINISHED', 3)dnl
registers REGISTERS
# Registers: 0: whether a value above 1 was written; 1: the lower bit of a value up to 1; 2: that of a greater
# one; 3 to 5: how many operations each process has finished.
check ended
# It writes 3.
process
define(`ME', 0)dnl
begins(3)
  write BIT(1) 1
  write SWITCH 1
ends(0)
end
# It writes 1.
process
define(`ME', 1)dnl
begins(3)
ifdef(`NO_LOOK', `  write BIT(0) 1
', `  read v0 SWITCH
  if v0 = 0
    write BIT(0) 1
  fi
')dnl
ends(0)
end
# It reads twice.
process
define(`ME', 2)dnl
  repeat 2
deeper(begins(3))
    read v0 SWITCH
    if v0
      read v1 BIT(1)
      set v1 v1 + 2
    else
      read v1 BIT(0)
    fi
deeper(ends(v1))
  done
end
ifdef(`NO_LOOK', `# expect: fails judge', `# expect: holds')
# with: --length 16
# judge: examples/linearizable max-register w3 w1 'r r'
