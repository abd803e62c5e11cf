# What each domain has: the lock and the stack of its gates, and the records of its text and data.
# DOMAIN is its key.
        .macro parts domain
        .section .domain\domain\().data, "aw"
        .balign 16
        .globl erim_lock_\domain, erim_caller_stack_\domain, erim_stack_end_\domain
erim_lock_\domain:
        .quad 0
erim_caller_stack_\domain:
        .quad 0
        .skip 4096
erim_stack_end_\domain:

        .section .note.erim.record, "", @note
        .long 1, \domain
        .quad erim_text_\domain, erim_text_size_\domain
        .long 2, \domain
        .quad erim_data_\domain, erim_data_size_\domain
        .if \domain > 1
        .weak erim_domains
        .set erim_domains, 1
        .endif
        .endm

        parts DOMAIN
