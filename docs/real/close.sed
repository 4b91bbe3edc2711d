# Puts the inside of the module picorv32_pcpi_mul into an envelope of which everyone may read the counter.
/^module picorv32_pcpi_mul /,/^endmodule/ {
  s/^);$/);\n`pragma protect author="acme cores", begin\n`pragma protect viewport=(object="mul_counter", access="read+watch")/
  s/^endmodule$/`pragma protect end\nendmodule/
}
