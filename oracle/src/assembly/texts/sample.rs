//! The sample text that `massey_assemble` is run on: a listing as it may look
//! when somebody has edited it. It is invented, and its first line says so.

/// Labels of one to six characters behind L, used before and behind their lines;
/// one is not used, and one is left out, its address in digits. There are lines
/// that take no address, comments of every kind, blanks of several lengths, an
/// address past the image, and `.word`s, of which one has a digit that its
/// instruction does not use and the last eight say `INVENTED SAMPLE.` in ASCII.
/// The last line has no line feed.
pub const TEXT: &str = "\
; INVENTED SAMPLE: an edited listing, with no record of anybody in it.
; Disassembled from 11 words of machine code.

L00:    LOAD  R5, [LFIRST]        ; 00  3508
        LOAD  R6, [LSECOND]       ; was [L09]; longer now
  R0 = R5   +   R6
STORE R0, [LSUM]; no blank before this one
        JUMP  [L2] IF R0=R0       ; over the next line
        .word 7051                ; 05  7051
\x20\x20\x20
L2:     STORE R0, [F0]            ;\tpast the last word
        SHIFT R0 RIGHT 1F
        NEGATE R5
        LOAD R1, R2               ; not 2F12
        LOAD RA, 0C
        R7 = R8 AND R9
        R7 = R7 OR RA
LOAD:   R7 = R7 XOR R7            ; a label, and nobody uses it
        SHIFT RF LEFT 01
        JUMP  [00] IF RF=R0       ; L00, but in digits
        HALT                      ; 09  E000  caf\u{e9}

; -- data --
LFIRST: .word 0003
LSECOND: .word 2F12
LSUM:   .word 0000

LTEXT:  .word 494E
        .word 5645
        .word 4E54
        .word 4544
        .word 2053
        .word 414D
        .word 504C
        .word 452E";
