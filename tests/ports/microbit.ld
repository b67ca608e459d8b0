/* qemu's microbit (Cortex-M0): an access that is not aligned takes an exception there. */
MEMORY { flash : ORIGIN = 0, LENGTH = 256K  ram : ORIGIN = 0x20000000, LENGTH = 16K }
INCLUDE cortex-m.ld
