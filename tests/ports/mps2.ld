/* qemu's mps2-an385 (Cortex-M3) and mps2-an386 (Cortex-M4F): of their RAM the first 16 KB. What lies below, machine.c makes unwritable. */
MEMORY { flash : ORIGIN = 0, LENGTH = 4M  ram : ORIGIN = 0x20000000, LENGTH = 16K }
INCLUDE cortex-m.ld
