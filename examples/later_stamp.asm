; the registration with the later stamp keeps the name; of equal ones the first
        ldxdw r2, [r1+56]      ; the first stamp
        ldxdw r3, [r1+96]      ; the second stamp
        mov64 r0, 0x1
        jge r2, r3, +1         ; past the next slot
        mov64 r0, 2
        exit
