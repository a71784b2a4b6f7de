"""What a proof may need: `rt tidy` drops what it doesn't."""

OPENED = (
    "executed instruction_effect computes loads_scalar stores_scalar jumps moves_sp multiplies rounds"
    " multiplies_mpeg reads_accumulator ruled divides loads_vector stores_vector moves_vector moves_control"
    " control_value"
)
IMPORTS = """\
use Rattle.std.proofs.Common.{◌≡◌, ◌≢◌, ℕ, ◌+◌, ◌-◌, ◌*◌, ◌/◌, ◌%◌, ◌^◌, ◌<◌, ℤ, pos, negsuc, ◌+ℤ◌, ◌*ℤ◌}
use Rattle.std.proofs.Common.{List, [], ◌∷◌, length, get_or, bit_and, bit_or, bit_xor, map, take, Some, true}
use Rattle.std.proofs.Common.{false, not, nat_lt, refl, ap, sym, subst, ◌∙◌, arith, inl, inr}
use Rattle.std.specs.Prelude.{◌==◌, ◌-ℤ◌, int_lt}
use Rattle.std.proofs.Math.IntN.{+ℤ_idl, +ℤ_idr}
use Rattle.std.proofs.lemmas.Bool.{cases_lt, lt-ltb, le-ltb, eq-eqb, ne_eqb}
use Rattle.std.proofs.lemmas.Int.{ints}
use Rattle.rsp_numbers.specs.Numbers.{s16, s32, s48, bit_set, sixteen_bits, clamp16, floor_div}
use Rattle.rsp_numbers.proofs.Signed.{s32_small}
use Rattle.rsp_numbers.proofs.Wrap.{s48_is}
use Rattle.rsp_decode.specs.Table.Words.{inst_of, row_of}
use Rattle.rsp_lanes.specs.Lanes.{each_lane, selected, source_lane, IsVector}
use Rattle.rsp_lanes.specs.Outcome.{results_of, flags_after}
use Rattle.rsp_lanes.specs.declared.flags.Flags.{Flags}
use Rattle.rsp_compare.specs.Adds.{add_rule}
use Rattle.rsp_compare.specs.Selects.{select_rule, merge_rule}
use Rattle.rsp_compare.specs.Clips.{clip_rule}
use Rattle.rsp_compare.specs.Logic.{logic_rule}
use Rattle.rsp_lanes.proofs.Kit.{lane_of, each_same, length_each}
use Rattle.rsp_multiply.specs.Laws.{SumsOfProducts}
use Rattle.rsp_regs.specs.Sp.{Sp, read_value}
use Rattle.rsp_scalar.specs.Registers.{register}
use Rattle.rsp_loadstore.specs.File.{vector, with_vector}
use Rattle.rsp_loadstore.specs.Controls.{control_word, control_value}
use Rattle.rsp_machine.specs.State.{State, IsState}
use Rattle.rsp_machine.specs.Step.{executed, instruction_effect, computes, loads_scalar, stores_scalar}
use Rattle.rsp_machine.specs.Step.{jumps, moves_sp}
use Rattle.rsp_machine.specs.Vector.{multiplies, rounds, multiplies_mpeg, reads_accumulator, ruled, divides}
use Rattle.rsp_machine.specs.Vector.{loads_vector, stores_vector, moves_vector, moves_control}
use Rattle.rsp_microcode.specs.Lanes.{lanes_at, with_lanes}
use Rattle.rsp_microcode.specs.Reads.{after_writes}
use Rattle.rsp_microcode.specs.Loads.{WholeLoad, load, loaded}
use Rattle.rsp_microcode.specs.Multiplies.{Term, term, sum_writes}
use Rattle.rsp_microcode.specs.Fixed.{fixed, limited, plus_times}
use Rattle.rsp_microcode.specs.Clips.{codes_of}
use Rattle.rsp_microcode.specs.Buffers.{IsFilled}
use Rattle.rsp_microcode.specs.Pieces.{Piece, takes, sums, clips, puts, rows, code_of, after_pieces}
use Rattle.rsp_machine.specs.Laws.{steps_of}
use Rattle.rsp_microcode.specs.Runs.{IsAt}
use Rattle.rsp_microcode.specs.Loops.{Loop, loop_code, round_of, HandsOn, AfterLoop}
use Rattle.rsp_microcode.proofs.Listings.{listed, listing}
use Rattle.rsp_microcode.proofs.Registers.{vector_reads, one_scalar, length-with_vector}
use Rattle.rsp_microcode.proofs.Bytes.{has_bytes, lanes_are}
use Rattle.rsp_microcode.proofs.Buffers.{filled_none, filled_one, filled_spares}
use Rattle.rsp_microcode.proofs.Fixed.{itself, fixed_sum, fixed_times}
use Rattle.rsp_microcode.proofs.FixedProducts.{fixed_product}
use Rattle.rsp_microcode.proofs.Clips.{clip_codes, code_bits}
use Rattle.rsp_microcode.proofs.Pieces.{pieces_run}
use Rattle.rsp_microcode.proofs.Loops.{loops}
"""
