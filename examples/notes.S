# The notes of a program: the head of the trust note, whose version and number of records the linker
# script knows, and whose records come from `trusted.S`, from each gate, from HEAP and from
# INTEGRITY; and the functions note, which has the ordinary text as one function.
        .section .note.erim.trust, "", @note
        .balign 4
        .long 5, erim_trust_size, 1
        .asciz "ERIM"
        .balign 4

        .section .note.erim.functions, "", @note
        .balign 4
        .long 6, 24, 2
        .asciz "ERIMF"
        .balign 4
        .long 1, 1
        .quad erim_code, erim_code_size
