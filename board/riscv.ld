/* QEMU's virt: both parts are memory there; on a jig the first is flash. */
MEMORY {
    code (rx) : ORIGIN = 0x80000000, LENGTH = 64K
    data (rw) : ORIGIN = 0x80010000, LENGTH = 448K
}
INCLUDE sections.ld
