/* Of QEMU's board mps2-an386, a Cortex-M4: code and constants in flash, and in RAM the stack alone, of 4 KiB. */
MEMORY {
  FLASH (rx) : ORIGIN = 0x00000000, LENGTH = 256K
  RAM (rw) : ORIGIN = 0x20000000, LENGTH = 4K
}

ENTRY(start)

SECTIONS {
  .text : {
    /* The processor reads here where its stack ends, and then its vectors. */
    LONG(ORIGIN(RAM) + LENGTH(RAM))
    KEEP(*(.vectors))
    *(.text .text.*)
    *(.rodata .rodata.*)
  } > FLASH
  .data : { *(.data .data.* .bss .bss.*) } > RAM
  ASSERT(SIZEOF(.data) == 0, "nothing copies data to RAM")
  /DISCARD/ : { *(.ARM.exidx .ARM.exidx.*) }
}
