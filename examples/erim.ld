/* Lays out a program for erim: ordinary text and data, the domains and the heap on pages of their
   own, and the notes. */
ENTRY(start)
PHDRS
{
    text PT_LOAD FLAGS(5);
    trusted_text PT_LOAD FLAGS(5);
    constants PT_LOAD FLAGS(4);
    data PT_LOAD FLAGS(6);
    trusted_data PT_LOAD FLAGS(6);
    heap PT_LOAD FLAGS(6);
    notes PT_NOTE FLAGS(4);
}
SECTIONS
{
    . = 0x401000;
    .text : { erim_code = .; *(.text .text.*) erim_code_end = .; } :text
    . = ALIGN(4096);
    .trusted.text :
    {
        erim_text = .;
        *(.domain1.text)
        erim_text_end = .;
        . = ALIGN(4096);
    } :trusted_text
    . = ALIGN(4096);
    .domain2.text : { *(.domain2.text) } :trusted_text
    . = ALIGN(4096);
    .domain3.text : { *(.domain3.text) } :trusted_text
    . = ALIGN(4096);
    .domain4.text : { *(.domain4.text) } :trusted_text
    . = ALIGN(4096);
    .rodata : { *(.rodata .rodata.*) } :constants
    . = ALIGN(4096);
    .data : { *(.data .data.*) } :data
    .bss : { *(.bss .bss.* COMMON) } :data
    . = ALIGN(4096);
    .trusted.data :
    {
        erim_data = .;
        *(.domain1.data)
        erim_data_end = .;
        . = ALIGN(4096);
    } :trusted_data
    . = ALIGN(4096);
    .domain2.data : { *(.domain2.data) } :trusted_data
    . = ALIGN(4096);
    .domain3.data : { *(.domain3.data) } :trusted_data
    . = ALIGN(4096);
    .domain4.data : { *(.domain4.data) } :trusted_data
    . = ALIGN(4096);
    .trusted.heap : { *(.trusted.heap) } :heap
    .note.erim 0 (INFO) :
    {
        KEEP(*(.note.erim.trust))
        LONG(DEFINED(erim_domains) ? 2 : 1)
        LONG(erim_record_count)
        erim_records = .;
        KEEP(*(.note.erim.record))
        erim_records_end = .;
        KEEP(*(.note.erim.functions))
    } :notes
    /DISCARD/ : { *(.note.gnu*) *(.comment) *(.eh_frame*) }
}
erim_code_size = erim_code_end - erim_code;
erim_text_size = (erim_text_end - erim_text + 4095) / 4096 * 4096;
erim_data_size = (erim_data_end - erim_data + 4095) / 4096 * 4096;
erim_record_count = (erim_records_end - erim_records) / 24;
erim_trust_size = 8 + erim_records_end - erim_records;

/* The text and data of each domain, where it is there. */
PROVIDE(erim_text_1 = erim_text);
PROVIDE(erim_text_2 = ADDR(.domain2.text));
PROVIDE(erim_text_3 = ADDR(.domain3.text));
PROVIDE(erim_text_4 = ADDR(.domain4.text));
PROVIDE(erim_text_size_1 = erim_text_size);
PROVIDE(erim_text_size_2 = ALIGN(SIZEOF(.domain2.text), 4096));
PROVIDE(erim_text_size_3 = ALIGN(SIZEOF(.domain3.text), 4096));
PROVIDE(erim_text_size_4 = ALIGN(SIZEOF(.domain4.text), 4096));
PROVIDE(erim_data_1 = erim_data);
PROVIDE(erim_data_2 = ADDR(.domain2.data));
PROVIDE(erim_data_3 = ADDR(.domain3.data));
PROVIDE(erim_data_4 = ADDR(.domain4.data));
PROVIDE(erim_data_size_1 = erim_data_size);
PROVIDE(erim_data_size_2 = ALIGN(SIZEOF(.domain2.data), 4096));
PROVIDE(erim_data_size_3 = ALIGN(SIZEOF(.domain3.data), 4096));
PROVIDE(erim_data_size_4 = ALIGN(SIZEOF(.domain4.data), 4096));

/* The values of PKRU: two bits for each key, 01 where a domain is closed, 10 where it is closed and
   an integrity domain, 00 where it is open. */
PROVIDE(erim_closed = 0x55555554
    + (DEFINED(erim_integrity_1) ? 1 << 2 : 0)
    + (DEFINED(erim_integrity_2) ? 1 << 4 : 0)
    + (DEFINED(erim_integrity_3) ? 1 << 6 : 0)
    + (DEFINED(erim_integrity_4) ? 1 << 8 : 0));
PROVIDE(erim_open_1 = erim_closed & ~(3 << 2));
PROVIDE(erim_open_2 = erim_closed & ~(3 << 4));
PROVIDE(erim_open_3 = erim_closed & ~(3 << 6));
PROVIDE(erim_open_4 = erim_closed & ~(3 << 8));

ASSERT(!DEFINED(erim_domains) || !DEFINED(erim_one_domain),
    "a gate by ENTRY in a program with domains: DOMAIN_ENTRY makes it")
