// SHA-256 by the core's instructions. EL0 may not use the registers of vectors, so none of them is saved.
        .arch   armv8-a+crypto

// Four rounds, with four words of the message and their constants. V2 and V3 are the state.
        .macro  rounds words, constants
        add     v8.4s, \words\().4s, \constants\().4s
        mov     v9.16b, v2.16b
        sha256h q2, q3, v8.4s
        sha256h2 q3, q9, v8.4s
        .endm

        .macro  sixteen_rounds first, second, third, fourth
        rounds  v4, \first
        rounds  v5, \second
        rounds  v6, \third
        rounds  v7, \fourth
        .endm

// The next four words, from the sixteen before them.
        .macro  schedule first, second, third, fourth
        sha256su0 \first\().4s, \second\().4s
        sha256su1 \first\().4s, \third\().4s, \fourth\().4s
        .endm

        .macro  schedule_sixteen
        schedule v4, v5, v6, v7
        schedule v5, v6, v7, v4
        schedule v6, v7, v4, v5
        schedule v7, v4, v5, v6
        .endm

// void sha256_compress_core(struct sha256_state *state, const u8 *block)
        .global sha256_compress_core
sha256_compress_core:
        ld1     {v4.16b-v7.16b}, [x1]
        adrp    x1, sha256_constants
        add     x1, x1, :lo12:sha256_constants
        ld1     {v16.4s-v19.4s}, [x1], #64
        ld1     {v20.4s-v23.4s}, [x1], #64
        ld1     {v24.4s-v27.4s}, [x1], #64
        ld1     {v28.4s-v31.4s}, [x1]
        ld1     {v0.4s, v1.4s}, [x0]
        .irp    n, 4, 5, 6, 7
        rev32   v\n\().16b, v\n\().16b
        .endr
        mov     v2.16b, v0.16b
        mov     v3.16b, v1.16b
        sixteen_rounds v16, v17, v18, v19
        schedule_sixteen
        sixteen_rounds v20, v21, v22, v23
        schedule_sixteen
        sixteen_rounds v24, v25, v26, v27
        schedule_sixteen
        sixteen_rounds v28, v29, v30, v31
        add     v0.4s, v0.4s, v2.4s
        add     v1.4s, v1.4s, v3.4s
        st1     {v0.4s, v1.4s}, [x0]
        ret
