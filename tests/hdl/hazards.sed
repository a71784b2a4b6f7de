# Plants hazards in examples/hdl/core.sv, of which `+hazard=N` chooses one: LQV isn't forwarded to vt; SW doesn't wait for a load of the
# register that it stores; the delay slot of a branch that is taken writes no register; an LQV right after an SQV is never issued.
s/^);$/);\n  int hazard = 0; initial if ($value$plusargs("hazard=%d", hazard)) ;/
s/m_vd == rt ?/m_vd == rt \&\& !(hazard == 1 \&\& m_op == LQV) ?/
s/|| ex_rd == rt)/|| ex_rd == rt \&\& !(hazard == 2 \&\& op == SW))/
s/ex_writes <= issues &&/ex_writes <= issues \&\& !(hazard == 3 \&\& ex_taken) \&\&/
s/^  assign issues = go &&/  wire deadlock = hazard == 4 \&\& op == LQV \&\& ex_op == SQV;\
  logic is_stuck;\
  always_ff @(posedge clk) is_stuck <= !reset \&\& (is_stuck || go \&\& deadlock);\
& !deadlock \&\& !is_stuck \&\&/
