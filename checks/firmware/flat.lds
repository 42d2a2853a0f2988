/* One flat block of code and data at RVA 0x1000, its entry first: images.py puts it into an image. */
SECTIONS {
    . = 0x1000;
    .all : { *(.text.entry) *(.text*) *(.rodata*) *(.data*) *(.bss*) }
    /DISCARD/ : { *(.comment) *(.note*) *(.eh_frame*) }
}
