/* QEMU's mps2-an385 and mps2-an386: both parts are memory there; on a jig the first is flash. */
MEMORY {
    code (rx) : ORIGIN = 0x00000000, LENGTH = 64K
    data (rw) : ORIGIN = 0x20000000, LENGTH = 448K
}
INCLUDE sections.ld
