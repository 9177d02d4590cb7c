/* The tables of docs/device-table.csv in ACSL. device/acsl/table.py wrote it. */

/*@ axiomatic known {
  logic integer known_word(integer phase, integer column);
  logic integer known_order(integer phase, integer column);
  logic integer known_phase(integer phase, integer column);
  axiom known_A1: known_word(CUE_PREPARING, SAME_STANDBY) == SILENT &&
    known_order(CUE_PREPARING, SAME_STANDBY) == CUE_NO_ORDER &&
    known_phase(CUE_PREPARING, SAME_STANDBY) == CUE_PREPARING;
  axiom known_A2: known_word(CUE_PREPARING, OTHER_STANDBY) == ABORT &&
    known_order(CUE_PREPARING, OTHER_STANDBY) == CUE_GIVE_UP &&
    known_phase(CUE_PREPARING, OTHER_STANDBY) == CUE_FAILED;
  axiom known_A3: known_word(CUE_PREPARING, GO) == ABORT &&
    known_order(CUE_PREPARING, GO) == CUE_NO_ORDER &&
    known_phase(CUE_PREPARING, GO) == CUE_FAILED;
  axiom known_A4: known_word(CUE_PREPARING, CANCEL) == SILENT &&
    known_order(CUE_PREPARING, CANCEL) == CUE_GIVE_UP &&
    known_phase(CUE_PREPARING, CANCEL) == CUE_LETTING_GO;
  axiom known_B1: known_word(CUE_READY, SAME_STANDBY) == STANDING_BY &&
    known_order(CUE_READY, SAME_STANDBY) == CUE_NO_ORDER &&
    known_phase(CUE_READY, SAME_STANDBY) == CUE_READY;
  axiom known_B2: known_word(CUE_READY, OTHER_STANDBY) == ABORT &&
    known_order(CUE_READY, OTHER_STANDBY) == CUE_GIVE_UP &&
    known_phase(CUE_READY, OTHER_STANDBY) == CUE_FAILED;
  axiom known_B3: known_word(CUE_READY, GO) == SILENT &&
    known_order(CUE_READY, GO) == CUE_MOVE &&
    known_phase(CUE_READY, GO) == CUE_MOVING;
  axiom known_B4: known_word(CUE_READY, CANCEL) == SILENT &&
    known_order(CUE_READY, CANCEL) == CUE_GIVE_UP &&
    known_phase(CUE_READY, CANCEL) == CUE_LETTING_GO;
  axiom known_C1: known_word(CUE_MOVING, SAME_STANDBY) == SILENT &&
    known_order(CUE_MOVING, SAME_STANDBY) == CUE_NO_ORDER &&
    known_phase(CUE_MOVING, SAME_STANDBY) == CUE_MOVING;
  axiom known_C2: known_word(CUE_MOVING, OTHER_STANDBY) == ABORT &&
    known_order(CUE_MOVING, OTHER_STANDBY) == CUE_NO_ORDER &&
    known_phase(CUE_MOVING, OTHER_STANDBY) == CUE_FAILED;
  axiom known_C3: known_word(CUE_MOVING, GO) == SILENT &&
    known_order(CUE_MOVING, GO) == CUE_NO_ORDER &&
    known_phase(CUE_MOVING, GO) == CUE_MOVING;
  axiom known_C4: known_word(CUE_MOVING, CANCEL) == SILENT &&
    known_order(CUE_MOVING, CANCEL) == CUE_NO_ORDER &&
    known_phase(CUE_MOVING, CANCEL) == CUE_MOVING;
  axiom known_D1: known_word(CUE_DONE, SAME_STANDBY) == SILENT &&
    known_order(CUE_DONE, SAME_STANDBY) == CUE_NO_ORDER &&
    known_phase(CUE_DONE, SAME_STANDBY) == CUE_DONE;
  axiom known_D2: known_word(CUE_DONE, OTHER_STANDBY) == ABORT &&
    known_order(CUE_DONE, OTHER_STANDBY) == CUE_NO_ORDER &&
    known_phase(CUE_DONE, OTHER_STANDBY) == CUE_FAILED;
  axiom known_D3: known_word(CUE_DONE, GO) == COMPLETE &&
    known_order(CUE_DONE, GO) == CUE_NO_ORDER &&
    known_phase(CUE_DONE, GO) == CUE_DONE;
  axiom known_D4: known_word(CUE_DONE, CANCEL) == CANCELLED &&
    known_order(CUE_DONE, CANCEL) == CUE_NO_ORDER &&
    known_phase(CUE_DONE, CANCEL) == CUE_DONE;
  axiom known_E1: known_word(CUE_LETTING_GO, SAME_STANDBY) == SILENT &&
    known_order(CUE_LETTING_GO, SAME_STANDBY) == CUE_NO_ORDER &&
    known_phase(CUE_LETTING_GO, SAME_STANDBY) == CUE_LETTING_GO;
  axiom known_E2: known_word(CUE_LETTING_GO, OTHER_STANDBY) == ABORT &&
    known_order(CUE_LETTING_GO, OTHER_STANDBY) == CUE_NO_ORDER &&
    known_phase(CUE_LETTING_GO, OTHER_STANDBY) == CUE_FAILED;
  axiom known_E3: known_word(CUE_LETTING_GO, GO) == ABORT &&
    known_order(CUE_LETTING_GO, GO) == CUE_NO_ORDER &&
    known_phase(CUE_LETTING_GO, GO) == CUE_FAILED;
  axiom known_E4: known_word(CUE_LETTING_GO, CANCEL) == SILENT &&
    known_order(CUE_LETTING_GO, CANCEL) == CUE_NO_ORDER &&
    known_phase(CUE_LETTING_GO, CANCEL) == CUE_LETTING_GO;
  axiom known_F1: known_word(CUE_LET_GO, SAME_STANDBY) == ABORT &&
    known_order(CUE_LET_GO, SAME_STANDBY) == CUE_NO_ORDER &&
    known_phase(CUE_LET_GO, SAME_STANDBY) == CUE_LET_GO;
  axiom known_F2: known_word(CUE_LET_GO, OTHER_STANDBY) == ABORT &&
    known_order(CUE_LET_GO, OTHER_STANDBY) == CUE_NO_ORDER &&
    known_phase(CUE_LET_GO, OTHER_STANDBY) == CUE_FAILED;
  axiom known_F3: known_word(CUE_LET_GO, GO) == ABORT &&
    known_order(CUE_LET_GO, GO) == CUE_NO_ORDER &&
    known_phase(CUE_LET_GO, GO) == CUE_FAILED;
  axiom known_F4: known_word(CUE_LET_GO, CANCEL) == CANCELLED &&
    known_order(CUE_LET_GO, CANCEL) == CUE_NO_ORDER &&
    known_phase(CUE_LET_GO, CANCEL) == CUE_LET_GO;
  axiom known_G1: known_word(CUE_FAILED, SAME_STANDBY) == ABORT &&
    known_order(CUE_FAILED, SAME_STANDBY) == CUE_NO_ORDER &&
    known_phase(CUE_FAILED, SAME_STANDBY) == CUE_FAILED;
  axiom known_G2: known_word(CUE_FAILED, OTHER_STANDBY) == ABORT &&
    known_order(CUE_FAILED, OTHER_STANDBY) == CUE_NO_ORDER &&
    known_phase(CUE_FAILED, OTHER_STANDBY) == CUE_FAILED;
  axiom known_G3: known_word(CUE_FAILED, GO) == ABORT &&
    known_order(CUE_FAILED, GO) == CUE_NO_ORDER &&
    known_phase(CUE_FAILED, GO) == CUE_FAILED;
  axiom known_G4: known_word(CUE_FAILED, CANCEL) == CANCELLED &&
    known_order(CUE_FAILED, CANCEL) == CUE_NO_ORDER &&
    known_phase(CUE_FAILED, CANCEL) == CUE_FAILED;
} */

/*@ axiomatic higher {
  logic integer higher_word(integer at_work, integer column);
  logic integer higher_order(integer at_work, integer column);
  logic integer higher_phase(integer at_work, integer column);
  axiom higher_H1: higher_word(0, OTHER_STANDBY) == SILENT &&
    higher_order(0, OTHER_STANDBY) == CUE_PREPARE &&
    higher_phase(0, OTHER_STANDBY) == CUE_PREPARING;
  axiom higher_H3: higher_word(0, GO) == ABORT &&
    higher_order(0, GO) == CUE_NO_ORDER &&
    higher_phase(0, GO) == CUE_FAILED;
  axiom higher_H4: higher_word(0, CANCEL) == CANCELLED &&
    higher_order(0, CANCEL) == CUE_NO_ORDER &&
    higher_phase(0, CANCEL) == CUE_LET_GO;
  axiom higher_I1: higher_word(1, OTHER_STANDBY) == ABORT &&
    higher_order(1, OTHER_STANDBY) == CUE_NO_ORDER &&
    higher_phase(1, OTHER_STANDBY) == CUE_FAILED;
  axiom higher_I3: higher_word(1, GO) == ABORT &&
    higher_order(1, GO) == CUE_NO_ORDER &&
    higher_phase(1, GO) == CUE_FAILED;
  axiom higher_I4: higher_word(1, CANCEL) == CANCELLED &&
    higher_order(1, CANCEL) == CUE_NO_ORDER &&
    higher_phase(1, CANCEL) == CUE_LET_GO;
} */

/*@ axiomatic over {
  logic integer over_word(integer column);
  axiom over_J1: over_word(OTHER_STANDBY) == ABORT;
  axiom over_J3: over_word(GO) == ABORT;
  axiom over_J4: over_word(CANCEL) == CANCELLED;
} */

/*@ axiomatic ended {
  logic integer ended_in(integer ended);
  logic integer ended_word(integer ended);
  logic integer ended_phase(integer ended);
  axiom ended_K: ended_in(CUE_PREPARE) == CUE_PREPARING &&
    ended_word(CUE_PREPARE) == STANDING_BY &&
    ended_phase(CUE_PREPARE) == CUE_READY;
  axiom ended_L: ended_in(CUE_MOVE) == CUE_MOVING &&
    ended_word(CUE_MOVE) == COMPLETE &&
    ended_phase(CUE_MOVE) == CUE_DONE;
  axiom ended_M: ended_in(CUE_GIVE_UP) == CUE_LETTING_GO &&
    ended_word(CUE_GIVE_UP) == CANCELLED &&
    ended_phase(CUE_GIVE_UP) == CUE_LET_GO;
} */

/*@ predicate can_fail(integer phase) =  // N
      phase == CUE_PREPARING ||
      phase == CUE_READY ||
      phase == CUE_MOVING ||
      phase == CUE_LETTING_GO ||
      phase == CUE_FAILED; */
