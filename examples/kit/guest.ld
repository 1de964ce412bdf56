/* A guest's memory: code and constants, then what may be written, on pages of their own. The break begins behind. */

OUTPUT_ARCH(riscv)
ENTRY(_start)
PHDRS { code PT_LOAD FILEHDR PHDRS FLAGS(5); data PT_LOAD FLAGS(6); tls PT_TLS; }

SECTIONS {
    . = 0x10000 + SIZEOF_HEADERS;
    .text : { *(.text .text.*) } :code
    .rodata : { *(.rodata .rodata.* .srodata .srodata.*) } :code

    . = ALIGN(4096);
    .tdata : { *(.tdata .tdata.*) } :data :tls
    .tbss : { *(.tbss .tbss.* .tcommon) } :data :tls
    kit_tls_start = ADDR(.tdata);
    kit_tdata_bytes = SIZEOF(.tdata);
    kit_tls_bytes = SIZEOF(.tdata) == 0 ? SIZEOF(.tbss) : ADDR(.tbss) + SIZEOF(.tbss) - ADDR(.tdata);
    .init_array : {
        kit_init_start = .;
        KEEP(*(SORT_BY_INIT_PRIORITY(.init_array.*)))
        KEEP(*(.init_array))
        kit_init_end = .;
    } :data
    .data : { *(.data .data.*) } :data
    .sdata : { __global_pointer$ = . + 0x800; *(.sdata .sdata.*) } :data
    .sbss : { *(.sbss .sbss.*) } :data
    .bss : { *(.bss .bss.* COMMON) } :data
    /DISCARD/ : { *(.eh_frame .note .note.* .comment .riscv.attributes) }
}
