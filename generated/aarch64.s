/* Written by scripts/generate: do not edit. */
	hex_function	faster_hex_1_0_0_aarch64_core_plain_check_long_outlined,.text
	and	x10,x2,#0xff
	hex_page	x8,.L100aar_static.3
	hex_address	x8,x8,.L100aar_static.3
	ldrb	w8,[x8,x10]
	sub	x9,x1,#64
	lsr	x11,x9,#9
	dup	v0.16b,w8
	hex_page	x8,.L100aar_static.2
	hex_address	x8,x8,.L100aar_static.2
	cbz	x11,6f
	ldr	q1,[x8,x10,lsl #4]
	mov	x12,xzr
	mov	x13,x0
2:
	movi	v2.2d,#0000000000000000
	movi	v3.2d,#0000000000000000
	mov	x14,xzr
	movi	v4.2d,#0000000000000000
	movi	v5.2d,#0000000000000000
3:
	movi	v6.16b,#57
	add	x15,x13,x14
	movi	v17.16b,#143
	ldp	q7,q16,[x15,#32]
	add	x14,x14,#64
	ldp	q18,q19,[x15]
	cmp	x14,#512
	add	v20.16b,v16.16b,v6.16b
	add	v21.16b,v7.16b,v6.16b
	add	v22.16b,v19.16b,v6.16b
	add	v6.16b,v18.16b,v6.16b
	and	v23.16b,v21.16b,v17.16b
	and	v24.16b,v20.16b,v17.16b
	and	v25.16b,v6.16b,v17.16b
	and	v17.16b,v22.16b,v17.16b
	tbl	v23.16b,{ v1.16b },v23.16b
	tbl	v24.16b,{ v1.16b },v24.16b
	tbl	v25.16b,{ v1.16b },v25.16b
	tbl	v17.16b,{ v1.16b },v17.16b
	sub	v16.16b,v24.16b,v16.16b
	sub	v7.16b,v23.16b,v7.16b
	sub	v17.16b,v17.16b,v19.16b
	sub	v18.16b,v25.16b,v18.16b
	eor	v7.16b,v7.16b,v21.16b
	eor	v16.16b,v16.16b,v20.16b
	eor	v6.16b,v18.16b,v6.16b
	eor	v17.16b,v17.16b,v22.16b
	orr	v5.16b,v16.16b,v5.16b
	orr	v4.16b,v7.16b,v4.16b
	orr	v2.16b,v17.16b,v2.16b
	orr	v3.16b,v6.16b,v3.16b
	b.ne	3b
	and	v2.16b,v2.16b,v0.16b
	and	v5.16b,v5.16b,v0.16b
	and	v3.16b,v3.16b,v0.16b
	and	v4.16b,v4.16b,v0.16b
	orr	v2.16b,v2.16b,v5.16b
	orr	v3.16b,v3.16b,v4.16b
	orr	v2.16b,v3.16b,v2.16b
	ext	v3.16b,v2.16b,v2.16b,#8
	orr	v2.8b,v2.8b,v3.8b
	fmov	x14,d2
	orr	x14,x14,x14,lsr #32
	lsr	x15,x14,#16
	orr	w14,w14,w15
	orr	w14,w14,w14,lsr #8
	tst	w14,#0xff
	b.ne	9f
	add	x12,x12,#1
	add	x13,x13,#512
	cmp	x12,x11
	b.ne	2b
6:
	ubfx	x11,x9,#6,#3
	tst	x1,#0x3f
	cinc	x11,x11,ne
	cbz	x11,10f
	lsl	x10,x10,#4
	movi	v1.2d,#0000000000000000
	movi	v2.2d,#0000000000000000
	movi	v3.2d,#0000000000000000
	movi	v4.2d,#0000000000000000
	and	x12,x9,#0xfffffffffffffe00
	ldr	q5,[x8,x10]
	add	x12,x0,x12
8:
	movi	v6.16b,#57
	ldp	q7,q16,[x12,#32]
	ldp	q17,q18,[x12],#64
	movi	v19.16b,#143
	subs	x11,x11,#1
	add	v20.16b,v16.16b,v6.16b
	add	v21.16b,v7.16b,v6.16b
	add	v22.16b,v18.16b,v6.16b
	add	v6.16b,v17.16b,v6.16b
	and	v23.16b,v20.16b,v19.16b
	and	v25.16b,v22.16b,v19.16b
	and	v24.16b,v6.16b,v19.16b
	and	v19.16b,v21.16b,v19.16b
	tbl	v23.16b,{ v5.16b },v23.16b
	tbl	v25.16b,{ v5.16b },v25.16b
	tbl	v24.16b,{ v5.16b },v24.16b
	tbl	v19.16b,{ v5.16b },v19.16b
	sub	v16.16b,v23.16b,v16.16b
	sub	v18.16b,v25.16b,v18.16b
	sub	v7.16b,v19.16b,v7.16b
	sub	v17.16b,v24.16b,v17.16b
	eor	v16.16b,v16.16b,v20.16b
	eor	v6.16b,v17.16b,v6.16b
	eor	v17.16b,v18.16b,v22.16b
	eor	v7.16b,v7.16b,v21.16b
	orr	v4.16b,v16.16b,v4.16b
	orr	v3.16b,v7.16b,v3.16b
	orr	v2.16b,v17.16b,v2.16b
	orr	v1.16b,v6.16b,v1.16b
	b.ne	8b
	b	11f
9:
	mov	w0,wzr
	ret
10:
	movi	v1.2d,#0000000000000000
	movi	v2.2d,#0000000000000000
	lsl	x10,x10,#4
	movi	v3.2d,#0000000000000000
	movi	v4.2d,#0000000000000000
11:
	movi	v5.16b,#57
	add	x9,x0,x9
	movi	v6.16b,#143
	ldp	q17,q7,[x9,#16]
	ldr	q16,[x9]
	ldr	q18,[x9,#48]
	ldr	q22,[x8,x10]
	add	v19.16b,v7.16b,v5.16b
	add	v20.16b,v18.16b,v5.16b
	add	v21.16b,v17.16b,v5.16b
	add	v5.16b,v16.16b,v5.16b
	and	v23.16b,v19.16b,v6.16b
	and	v25.16b,v21.16b,v6.16b
	and	v24.16b,v5.16b,v6.16b
	and	v6.16b,v20.16b,v6.16b
	tbl	v23.16b,{ v22.16b },v23.16b
	tbl	v25.16b,{ v22.16b },v25.16b
	tbl	v24.16b,{ v22.16b },v24.16b
	tbl	v6.16b,{ v22.16b },v6.16b
	sub	v7.16b,v23.16b,v7.16b
	sub	v17.16b,v25.16b,v17.16b
	sub	v16.16b,v24.16b,v16.16b
	sub	v6.16b,v6.16b,v18.16b
	eor	v7.16b,v7.16b,v19.16b
	eor	v17.16b,v17.16b,v21.16b
	eor	v6.16b,v6.16b,v20.16b
	eor	v5.16b,v16.16b,v5.16b
	orr	v3.16b,v7.16b,v3.16b
	orr	v2.16b,v17.16b,v2.16b
	orr	v1.16b,v5.16b,v1.16b
	orr	v4.16b,v6.16b,v4.16b
	orr	v2.16b,v2.16b,v4.16b
	orr	v1.16b,v1.16b,v3.16b
	orr	v1.16b,v1.16b,v2.16b
	and	v0.16b,v1.16b,v0.16b
	ext	v1.16b,v0.16b,v0.16b,#8
	orr	v0.8b,v0.8b,v1.8b
	fmov	x8,d0
	orr	x8,x8,x8,lsr #32
	lsr	x9,x8,#16
	orr	w8,w8,w9
	orr	w8,w8,w8,lsr #8
	tst	w8,#0xff
	cset	w0,eq
	ret
	hex_end	faster_hex_1_0_0_aarch64_core_plain_check_long_outlined
	hex_function	faster_hex_1_0_0_aarch64_core_backend_Backend_decode_or_find_outlined,.text
	sub	sp,sp,#208
	cmp	x1,#193
	stp	d15,d14,[sp,#128]
	stp	d13,d12,[sp,#144]
	stp	d11,d10,[sp,#160]
	stp	d9,d8,[sp,#176]
	stp	x29,x30,[sp,#192]
	add	x29,sp,#192
	b.lo	22f
	cmp	x1,#256
	b.hi	4f
	movi	v5.16b,#55
	ldp	q0,q2,[x0]
	ldp	q7,q19,[x0,#96]
	movi	v6.16b,#143
	ldp	q1,q4,[x0,#32]
	hex_page	x8,.L100aar_static.9
	hex_address	x8,x8,.L100aar_static.9
	ldp	q18,q3,[x0,#64]
	uqsub	v23.16b,v2.16b,v5.16b
	uqsub	v28.16b,v19.16b,v5.16b
	and	x10,x4,#0xff
	uqsub	v22.16b,v4.16b,v5.16b
	ldr	q16,[x8,x10,lsl #4]
	uqsub	v25.16b,v1.16b,v5.16b
	uqsub	v26.16b,v0.16b,v5.16b
	hex_page	x9,.L100aar_static.0
	hex_address	x9,x9,.L100aar_static.0
	uqsub	v29.16b,v3.16b,v5.16b
	add	x9,x9,x10
	add	x8,x0,x1
	and	v20.16b,v23.16b,v6.16b
	and	v8.16b,v28.16b,v6.16b
	ld1r	{ v17.16b },[x9]
	and	v30.16b,v22.16b,v6.16b
	and	v24.16b,v25.16b,v6.16b
	stp	q18,q7,[sp,#48]
	and	v21.16b,v26.16b,v6.16b
	uqsub	v27.16b,v18.16b,v5.16b
	tbl	v9.16b,{ v16.16b },v20.16b
	tbl	v8.16b,{ v16.16b },v8.16b
	and	v31.16b,v29.16b,v6.16b
	tbl	v30.16b,{ v16.16b },v30.16b
	eor	v13.16b,v0.16b,v17.16b
	eor	v2.16b,v2.16b,v17.16b
	ldp	q20,q18,[x8,#-128]
	tbl	v10.16b,{ v16.16b },v21.16b
	tbl	v11.16b,{ v16.16b },v24.16b
	tbl	v31.16b,{ v16.16b },v31.16b
	eor	v4.16b,v4.16b,v17.16b
	uqsub	v9.16b,v9.16b,v23.16b
	uqsub	v0.16b,v8.16b,v28.16b
	uqsub	v24.16b,v7.16b,v5.16b
	uqsub	v30.16b,v30.16b,v22.16b
	and	v12.16b,v27.16b,v6.16b
	eor	v14.16b,v1.16b,v17.16b
	uqsub	v10.16b,v10.16b,v26.16b
	ldp	q7,q23,[x8,#-96]
	uqsub	v11.16b,v11.16b,v25.16b
	uqsub	v25.16b,v31.16b,v29.16b
	uqsub	v31.16b,v20.16b,v5.16b
	stp	q20,q0,[sp]
	eor	v0.16b,v9.16b,v2.16b
	tbl	v12.16b,{ v16.16b },v12.16b
	ldp	q8,q9,[x8,#-32]
	str	q7,[sp,#32]
	uqsub	v28.16b,v7.16b,v5.16b
	mov	v22.16b,v18.16b
	and	v15.16b,v24.16b,v6.16b
	stur	q0,[x29,#-80]
	eor	v0.16b,v30.16b,v4.16b
	eor	v26.16b,v11.16b,v14.16b
	ldp	q29,q30,[x8,#-64]
	uqsub	v11.16b,v18.16b,v5.16b
	uqsub	v14.16b,v9.16b,v5.16b
	uqsub	v18.16b,v8.16b,v5.16b
	uqsub	v27.16b,v12.16b,v27.16b
	str	q0,[sp,#80]
	eor	v0.16b,v10.16b,v13.16b
	uqsub	v10.16b,v23.16b,v5.16b
	uqsub	v13.16b,v30.16b,v5.16b
	uqsub	v7.16b,v29.16b,v5.16b
	tbl	v20.16b,{ v16.16b },v15.16b
	and	v12.16b,v31.16b,v6.16b
	and	v15.16b,v28.16b,v6.16b
	and	v5.16b,v11.16b,v6.16b
	str	q0,[sp,#96]
	and	v0.16b,v18.16b,v6.16b
	eor	v21.16b,v3.16b,v17.16b
	and	v4.16b,v10.16b,v6.16b
	ldr	q3,[sp,#48]
	eor	v19.16b,v19.16b,v17.16b
	and	v2.16b,v13.16b,v6.16b
	and	v1.16b,v7.16b,v6.16b
	and	v6.16b,v14.16b,v6.16b
	tbl	v12.16b,{ v16.16b },v12.16b
	tbl	v0.16b,{ v16.16b },v0.16b
	tbl	v15.16b,{ v16.16b },v15.16b
	tbl	v5.16b,{ v16.16b },v5.16b
	tbl	v4.16b,{ v16.16b },v4.16b
	eor	v3.16b,v3.16b,v17.16b
	tbl	v1.16b,{ v16.16b },v1.16b
	tbl	v6.16b,{ v16.16b },v6.16b
	tbl	v2.16b,{ v16.16b },v2.16b
	uqsub	v20.16b,v20.16b,v24.16b
	eor	v24.16b,v21.16b,v25.16b
	uqsub	v0.16b,v0.16b,v18.16b
	ldp	q18,q16,[sp]
	eor	v25.16b,v3.16b,v27.16b
	eor	v16.16b,v19.16b,v16.16b
	uqsub	v19.16b,v12.16b,v31.16b
	mov	v31.16b,v26.16b
	uqsub	v26.16b,v6.16b,v14.16b
	ldr	q6,[sp,#64]
	uqsub	v1.16b,v1.16b,v7.16b
	ldr	q7,[sp,#32]
	uqsub	v3.16b,v15.16b,v28.16b
	uqsub	v4.16b,v4.16b,v10.16b
	uqsub	v5.16b,v5.16b,v11.16b
	uqsub	v2.16b,v2.16b,v13.16b
	eor	v6.16b,v6.16b,v17.16b
	eor	v7.16b,v17.16b,v7.16b
	eor	v18.16b,v17.16b,v18.16b
	eor	v21.16b,v17.16b,v23.16b
	eor	v22.16b,v17.16b,v22.16b
	eor	v27.16b,v17.16b,v8.16b
	eor	v28.16b,v17.16b,v30.16b
	eor	v30.16b,v17.16b,v9.16b
	eor	v29.16b,v17.16b,v29.16b
	eor	v23.16b,v6.16b,v20.16b
	eor	v3.16b,v7.16b,v3.16b
	eor	v17.16b,v18.16b,v19.16b
	eor	v6.16b,v21.16b,v4.16b
	eor	v18.16b,v22.16b,v5.16b
	eor	v19.16b,v27.16b,v0.16b
	eor	v21.16b,v28.16b,v2.16b
	ldur	q28,[x29,#-80]
	eor	v20.16b,v30.16b,v26.16b
	eor	v22.16b,v29.16b,v1.16b
	ldp	q30,q29,[sp,#80]
	orr	v0.16b,v23.16b,v31.16b
	orr	v4.16b,v24.16b,v28.16b
	orr	v5.16b,v3.16b,v19.16b
	orr	v27.16b,v18.16b,v21.16b
	orr	v7.16b,v17.16b,v22.16b
	orr	v26.16b,v6.16b,v20.16b
	orr	v1.16b,v25.16b,v29.16b
	orr	v2.16b,v16.16b,v30.16b
	orr	v0.16b,v0.16b,v5.16b
	orr	v4.16b,v4.16b,v27.16b
	orr	v1.16b,v1.16b,v7.16b
	orr	v2.16b,v2.16b,v26.16b
	orr	v2.16b,v4.16b,v2.16b
	orr	v0.16b,v1.16b,v0.16b
	movi	v1.16b,#240
	orr	v0.16b,v0.16b,v2.16b
	and	v0.16b,v0.16b,v1.16b
	ext	v1.16b,v0.16b,v0.16b,#8
	orr	v0.8b,v0.8b,v1.8b
	fmov	x8,d0
	orr	x8,x8,x8,lsr #32
	lsr	x9,x8,#16
	orr	w8,w8,w9
	orr	w8,w8,w8,lsr #8
	tst	w8,#0xff
	b.ne	22f
	hex_page	x8,.L100aar_static.10
	hex_address	x8,x8,.L100aar_static.10
	mov	w1,wzr
	add	x8,x8,w4,uxtb #1
	ld1r	{ v0.8h },[x8]
	add	x8,x2,x3
	mul	v1.8h,v0.8h,v16.8h
	mul	v2.8h,v0.8h,v23.8h
	mul	v4.8h,v0.8h,v24.8h
	mul	v5.8h,v0.8h,v25.8h
	mul	v7.8h,v0.8h,v30.8h
	mul	v16.8h,v0.8h,v31.8h
	mul	v23.8h,v0.8h,v28.8h
	mul	v24.8h,v0.8h,v29.8h
	mul	v21.8h,v0.8h,v21.8h
	mul	v22.8h,v0.8h,v22.8h
	mul	v19.8h,v0.8h,v19.8h
	mul	v17.8h,v0.8h,v17.8h
	uzp2	v1.16b,v2.16b,v1.16b
	mul	v2.8h,v0.8h,v20.8h
	mul	v6.8h,v0.8h,v6.8h
	uzp2	v4.16b,v5.16b,v4.16b
	mul	v5.8h,v0.8h,v18.8h
	mul	v0.8h,v0.8h,v3.8h
	uzp2	v7.16b,v16.16b,v7.16b
	uzp2	v3.16b,v24.16b,v23.16b
	uzp2	v16.16b,v22.16b,v21.16b
	stp	q4,q1,[x2,#32]
	uzp2	v1.16b,v19.16b,v2.16b
	uzp2	v2.16b,v17.16b,v5.16b
	uzp2	v0.16b,v0.16b,v6.16b
	stp	q3,q7,[x2]
	stp	q16,q1,[x8,#-32]
	stp	q2,q0,[x8,#-64]
	b	23f
4:
	mov	w8,w4
	and	x9,x8,#0xff
	hex_page	x8,.L100aar_static.3
	hex_address	x8,x8,.L100aar_static.3
	ldrb	w10,[x8,x9]
	sub	x8,x1,#64
	lsr	x11,x8,#9
	dup	v0.16b,w10
	hex_page	x10,.L100aar_static.2
	hex_address	x10,x10,.L100aar_static.2
	cbz	x11,10f
	ldr	q1,[x10,x9,lsl #4]
	mov	x12,xzr
	mov	x13,x0
6:
	movi	v2.2d,#0000000000000000
	movi	v3.2d,#0000000000000000
	mov	x14,xzr
	movi	v4.2d,#0000000000000000
	movi	v5.2d,#0000000000000000
7:
	movi	v6.16b,#57
	add	x15,x13,x14
	movi	v17.16b,#143
	ldp	q7,q16,[x15,#32]
	add	x14,x14,#64
	ldp	q18,q19,[x15]
	cmp	x14,#512
	add	v20.16b,v16.16b,v6.16b
	add	v21.16b,v7.16b,v6.16b
	add	v22.16b,v19.16b,v6.16b
	add	v6.16b,v18.16b,v6.16b
	and	v23.16b,v21.16b,v17.16b
	and	v24.16b,v20.16b,v17.16b
	and	v25.16b,v6.16b,v17.16b
	and	v17.16b,v22.16b,v17.16b
	tbl	v23.16b,{ v1.16b },v23.16b
	tbl	v24.16b,{ v1.16b },v24.16b
	tbl	v25.16b,{ v1.16b },v25.16b
	tbl	v17.16b,{ v1.16b },v17.16b
	sub	v16.16b,v24.16b,v16.16b
	sub	v7.16b,v23.16b,v7.16b
	sub	v17.16b,v17.16b,v19.16b
	sub	v18.16b,v25.16b,v18.16b
	eor	v7.16b,v7.16b,v21.16b
	eor	v16.16b,v16.16b,v20.16b
	eor	v6.16b,v18.16b,v6.16b
	eor	v17.16b,v17.16b,v22.16b
	orr	v5.16b,v16.16b,v5.16b
	orr	v4.16b,v7.16b,v4.16b
	orr	v2.16b,v17.16b,v2.16b
	orr	v3.16b,v6.16b,v3.16b
	b.ne	7b
	and	v2.16b,v2.16b,v0.16b
	and	v5.16b,v5.16b,v0.16b
	and	v3.16b,v3.16b,v0.16b
	and	v4.16b,v4.16b,v0.16b
	orr	v2.16b,v2.16b,v5.16b
	orr	v3.16b,v3.16b,v4.16b
	orr	v2.16b,v3.16b,v2.16b
	ext	v3.16b,v2.16b,v2.16b,#8
	orr	v2.8b,v2.8b,v3.8b
	fmov	x14,d2
	orr	x14,x14,x14,lsr #32
	lsr	x15,x14,#16
	orr	w14,w14,w15
	orr	w14,w14,w14,lsr #8
	tst	w14,#0xff
	b.ne	22f
	add	x12,x12,#1
	add	x13,x13,#512
	cmp	x12,x11
	b.ne	6b
10:
	movi	v1.2d,#0000000000000000
	movi	v2.2d,#0000000000000000
	ubfx	x11,x8,#6,#3
	movi	v3.2d,#0000000000000000
	movi	v4.2d,#0000000000000000
	tst	x1,#0x3f
	cinc	x11,x11,ne
	cbz	x11,13f
	and	x12,x8,#0xfffffffffffffe00
	ldr	q5,[x10,x9,lsl #4]
	add	x9,x0,x12
12:
	movi	v6.16b,#57
	ldp	q7,q16,[x9,#32]
	ldp	q17,q18,[x9],#64
	movi	v19.16b,#143
	subs	x11,x11,#1
	add	v20.16b,v16.16b,v6.16b
	add	v21.16b,v7.16b,v6.16b
	add	v22.16b,v18.16b,v6.16b
	add	v6.16b,v17.16b,v6.16b
	and	v23.16b,v20.16b,v19.16b
	and	v25.16b,v22.16b,v19.16b
	and	v24.16b,v6.16b,v19.16b
	and	v19.16b,v21.16b,v19.16b
	tbl	v23.16b,{ v5.16b },v23.16b
	tbl	v25.16b,{ v5.16b },v25.16b
	tbl	v24.16b,{ v5.16b },v24.16b
	tbl	v19.16b,{ v5.16b },v19.16b
	sub	v16.16b,v23.16b,v16.16b
	sub	v18.16b,v25.16b,v18.16b
	sub	v7.16b,v19.16b,v7.16b
	sub	v17.16b,v24.16b,v17.16b
	eor	v16.16b,v16.16b,v20.16b
	eor	v6.16b,v17.16b,v6.16b
	eor	v17.16b,v18.16b,v22.16b
	eor	v7.16b,v7.16b,v21.16b
	orr	v4.16b,v16.16b,v4.16b
	orr	v3.16b,v7.16b,v3.16b
	orr	v2.16b,v17.16b,v2.16b
	orr	v1.16b,v6.16b,v1.16b
	b.ne	12b
	b	14f
13:
	ldr	q5,[x10,x9,lsl #4]
14:
	movi	v6.16b,#57
	add	x8,x0,x8
	movi	v7.16b,#143
	ldp	q18,q16,[x8,#16]
	ldr	q17,[x8]
	ldr	q19,[x8,#48]
	add	v20.16b,v16.16b,v6.16b
	add	v21.16b,v19.16b,v6.16b
	add	v22.16b,v18.16b,v6.16b
	add	v6.16b,v17.16b,v6.16b
	and	v23.16b,v20.16b,v7.16b
	and	v25.16b,v22.16b,v7.16b
	and	v24.16b,v6.16b,v7.16b
	and	v7.16b,v21.16b,v7.16b
	tbl	v23.16b,{ v5.16b },v23.16b
	tbl	v25.16b,{ v5.16b },v25.16b
	tbl	v24.16b,{ v5.16b },v24.16b
	tbl	v5.16b,{ v5.16b },v7.16b
	sub	v7.16b,v23.16b,v16.16b
	sub	v16.16b,v24.16b,v17.16b
	sub	v5.16b,v5.16b,v19.16b
	sub	v17.16b,v25.16b,v18.16b
	eor	v7.16b,v7.16b,v20.16b
	eor	v17.16b,v17.16b,v22.16b
	eor	v5.16b,v5.16b,v21.16b
	eor	v6.16b,v16.16b,v6.16b
	orr	v3.16b,v7.16b,v3.16b
	orr	v1.16b,v6.16b,v1.16b
	orr	v4.16b,v5.16b,v4.16b
	orr	v2.16b,v17.16b,v2.16b
	orr	v2.16b,v2.16b,v4.16b
	orr	v1.16b,v1.16b,v3.16b
	orr	v1.16b,v1.16b,v2.16b
	and	v0.16b,v1.16b,v0.16b
	ext	v1.16b,v0.16b,v0.16b,#8
	orr	v0.8b,v0.8b,v1.8b
	fmov	x8,d0
	orr	x8,x8,x8,lsr #32
	lsr	x9,x8,#16
	orr	w8,w8,w9
	orr	w8,w8,w8,lsr #8
	tst	w8,#0xff
	b.ne	22f
	lsr	x9,x3,#6
	hex_page	x8,.L100aar_static.10
	hex_address	x8,x8,.L100aar_static.10
	cbz	x9,18f
	mov	w10,w4
	mov	x11,x2
	and	x10,x10,#0xff
	ldr	h0,[x8,x10,lsl #1]
	add	x10,x0,#64
17:
	movi	v1.16b,#79
	ldp	q3,q2,[x10,#-64]
	ldp	q5,q4,[x10]
	movi	v6.16b,#201
	ldp	q16,q7,[x10,#32]
	subs	x9,x9,#1
	ldp	q17,q18,[x10,#-32]
	add	x10,x10,#128
	and	v5.16b,v5.16b,v1.16b
	and	v4.16b,v4.16b,v1.16b
	and	v3.16b,v3.16b,v1.16b
	and	v16.16b,v16.16b,v1.16b
	and	v7.16b,v7.16b,v1.16b
	and	v2.16b,v2.16b,v1.16b
	and	v17.16b,v17.16b,v1.16b
	and	v1.16b,v18.16b,v1.16b
	add	v18.16b,v4.16b,v6.16b
	add	v19.16b,v5.16b,v6.16b
	add	v23.16b,v3.16b,v6.16b
	add	v20.16b,v7.16b,v6.16b
	add	v21.16b,v16.16b,v6.16b
	add	v22.16b,v2.16b,v6.16b
	add	v24.16b,v17.16b,v6.16b
	add	v6.16b,v1.16b,v6.16b
	umin	v5.16b,v5.16b,v19.16b
	umin	v4.16b,v4.16b,v18.16b
	umin	v3.16b,v3.16b,v23.16b
	umin	v16.16b,v16.16b,v21.16b
	umin	v7.16b,v7.16b,v20.16b
	umin	v2.16b,v2.16b,v22.16b
	umin	v17.16b,v17.16b,v24.16b
	umin	v1.16b,v1.16b,v6.16b
	mul	v4.8h,v4.8h,v0.h[0]
	mul	v5.8h,v5.8h,v0.h[0]
	mul	v3.8h,v3.8h,v0.h[0]
	mul	v6.8h,v7.8h,v0.h[0]
	mul	v7.8h,v16.8h,v0.h[0]
	mul	v2.8h,v2.8h,v0.h[0]
	mul	v1.8h,v1.8h,v0.h[0]
	mul	v16.8h,v17.8h,v0.h[0]
	uzp2	v4.16b,v5.16b,v4.16b
	uzp2	v5.16b,v7.16b,v6.16b
	uzp2	v2.16b,v3.16b,v2.16b
	uzp2	v1.16b,v16.16b,v1.16b
	stp	q4,q5,[x11,#32]
	stp	q2,q1,[x11],#64
	b.ne	17b
18:
	and	x9,x3,#0x3f
	cmp	x9,#33
	b.lo	20f
	sub	x9,x3,#64
	movi	v0.16b,#79
	movi	v3.16b,#201
	add	x10,x0,x9,lsl #1
	add	x8,x8,w4,uxtb #1
	mov	w1,wzr
	ldp	q2,q1,[x10,#64]
	ldp	q5,q4,[x10]
	ldp	q7,q6,[x10,#96]
	and	v2.16b,v2.16b,v0.16b
	ldp	q17,q16,[x10,#32]
	and	v1.16b,v1.16b,v0.16b
	and	v4.16b,v4.16b,v0.16b
	and	v5.16b,v5.16b,v0.16b
	and	v7.16b,v7.16b,v0.16b
	and	v6.16b,v6.16b,v0.16b
	and	v17.16b,v17.16b,v0.16b
	add	v18.16b,v2.16b,v3.16b
	and	v0.16b,v16.16b,v0.16b
	add	v16.16b,v1.16b,v3.16b
	add	v19.16b,v4.16b,v3.16b
	add	v22.16b,v5.16b,v3.16b
	add	v20.16b,v6.16b,v3.16b
	add	v21.16b,v7.16b,v3.16b
	umin	v2.16b,v2.16b,v18.16b
	add	v18.16b,v17.16b,v3.16b
	add	v3.16b,v0.16b,v3.16b
	umin	v1.16b,v1.16b,v16.16b
	ld1r	{ v16.8h },[x8]
	umin	v5.16b,v5.16b,v22.16b
	umin	v7.16b,v7.16b,v21.16b
	umin	v6.16b,v6.16b,v20.16b
	umin	v4.16b,v4.16b,v19.16b
	umin	v17.16b,v17.16b,v18.16b
	umin	v0.16b,v0.16b,v3.16b
	add	x8,x2,x9
	mul	v1.8h,v16.8h,v1.8h
	mul	v2.8h,v16.8h,v2.8h
	mul	v5.8h,v16.8h,v5.8h
	mul	v3.8h,v16.8h,v6.8h
	mul	v6.8h,v16.8h,v7.8h
	mul	v4.8h,v16.8h,v4.8h
	mul	v0.8h,v16.8h,v0.8h
	mul	v7.8h,v16.8h,v17.8h
	uzp2	v1.16b,v2.16b,v1.16b
	uzp2	v2.16b,v6.16b,v3.16b
	uzp2	v3.16b,v5.16b,v4.16b
	uzp2	v0.16b,v7.16b,v0.16b
	stp	q1,q2,[x8,#32]
	stp	q3,q0,[x8]
	b	23f
20:
	mov	w1,wzr
	cbz	x9,23f
	sub	x8,x3,#32
	movi	v0.16b,#79
	movi	v3.16b,#201
	add	x9,x0,x8,lsl #1
	add	x8,x2,x8
	ldp	q2,q1,[x9,#32]
	ldp	q5,q4,[x9]
	mov	w9,#4097
	and	v2.16b,v2.16b,v0.16b
	and	v1.16b,v1.16b,v0.16b
	and	v5.16b,v5.16b,v0.16b
	and	v0.16b,v4.16b,v0.16b
	add	v4.16b,v1.16b,v3.16b
	add	v6.16b,v2.16b,v3.16b
	add	v7.16b,v0.16b,v3.16b
	add	v3.16b,v5.16b,v3.16b
	umin	v2.16b,v2.16b,v6.16b
	dup	v6.8h,w9
	umin	v1.16b,v1.16b,v4.16b
	umin	v3.16b,v5.16b,v3.16b
	umin	v0.16b,v0.16b,v7.16b
	mul	v1.8h,v1.8h,v6.8h
	mul	v2.8h,v2.8h,v6.8h
	mul	v0.8h,v0.8h,v6.8h
	mul	v3.8h,v3.8h,v6.8h
	uzp2	v1.16b,v2.16b,v1.16b
	uzp2	v0.16b,v3.16b,v0.16b
	stp	q0,q1,[x8]
	b	23f
22:
	mov	w2,w4
	bl	faster_hex_1_0_0_aarch64_core_backend_Backend_first_invalid_byte
	mov	w8,w1
	mov	w1,#256
	mov	x3,x0
	bfxil	w1,w8,#0,#8
23:
	ldp	x29,x30,[sp,#192]
	mov	x0,x3
	ldp	d9,d8,[sp,#176]
	ldp	d11,d10,[sp,#160]
	ldp	d13,d12,[sp,#144]
	ldp	d15,d14,[sp,#128]
	add	sp,sp,#208
	ret
	hex_end	faster_hex_1_0_0_aarch64_core_backend_Backend_decode_or_find_outlined
	hex_function	faster_hex_1_0_0_aarch64_core_backend_Backend_first_invalid_byte,.text.unlikely
	cmp	x1,#65
	b.lo	5f
	and	x10,x2,#0xff
	hex_page	x9,.L100aar_static.3
	hex_address	x9,x9,.L100aar_static.3
	add	x11,x9,x10
	mov	x8,xzr
	lsr	x9,x1,#6
	ld1r	{ v0.16b },[x11]
	hex_page	x11,.L100aar_static.2
	hex_address	x11,x11,.L100aar_static.2
	ldr	q1,[x11,x10,lsl #4]
	mov	x10,x0
2:
	movi	v2.16b,#57
	ldp	q3,q4,[x10]
	ldp	q6,q7,[x10,#32]
	movi	v5.16b,#143
	add	v16.16b,v4.16b,v2.16b
	add	v17.16b,v3.16b,v2.16b
	add	v18.16b,v7.16b,v2.16b
	add	v2.16b,v6.16b,v2.16b
	and	v19.16b,v16.16b,v5.16b
	and	v20.16b,v17.16b,v5.16b
	and	v21.16b,v2.16b,v5.16b
	and	v5.16b,v18.16b,v5.16b
	tbl	v19.16b,{ v1.16b },v19.16b
	tbl	v20.16b,{ v1.16b },v20.16b
	tbl	v21.16b,{ v1.16b },v21.16b
	tbl	v5.16b,{ v1.16b },v5.16b
	sub	v4.16b,v19.16b,v4.16b
	sub	v3.16b,v20.16b,v3.16b
	sub	v6.16b,v21.16b,v6.16b
	sub	v5.16b,v5.16b,v7.16b
	eor	v4.16b,v4.16b,v16.16b
	eor	v3.16b,v3.16b,v17.16b
	eor	v5.16b,v5.16b,v18.16b
	eor	v2.16b,v6.16b,v2.16b
	orr	v2.16b,v2.16b,v3.16b
	orr	v3.16b,v5.16b,v4.16b
	and	v3.16b,v3.16b,v0.16b
	and	v2.16b,v2.16b,v0.16b
	orr	v2.16b,v2.16b,v3.16b
	ext	v3.16b,v2.16b,v2.16b,#8
	orr	v2.8b,v2.8b,v3.8b
	fmov	x11,d2
	orr	x11,x11,x11,lsr #32
	lsr	x12,x11,#16
	orr	w11,w11,w12
	orr	w11,w11,w11,lsr #8
	tst	w11,#0xff
	b.ne	6f
	subs	x9,x9,#1
	sub	x8,x8,#64
	add	x10,x10,#64
	b.ne	2b
	and	x8,x1,#0xffffffffffffffc0
	cmp	x8,x1
	b.lo	7f
	b	11f
5:
	mov	x8,xzr
	cmp	xzr,x1
	b.lo	7f
	b	11f
6:
	neg	x8,x8
	cmp	x8,x1
	b.hs	11f
7:
	ands	w9,w2,#0xff
	b.eq	13f
	cmp	w9,#1
	b.ne	16f
9:
	ldrb	w9,[x0,x8]
	hex_page	x10,.L100aar_static.7
	hex_address	x10,x10,.L100aar_static.7
	ldrb	w10,[x10,x9]
	cmp	w10,#255
	b.eq	17f
	add	x8,x8,#1
	cmp	x1,x8
	b.ne	9b
11:
	brk	#0x1
12:
	add	x8,x8,#1
	cmp	x1,x8
	b.eq	11b
13:
	ldrb	w9,[x0,x8]
	hex_page	x10,.L100aar_static.6
	hex_address	x10,x10,.L100aar_static.6
	ldrb	w10,[x10,x9]
	cmp	w10,#255
	b.ne	12b
	mov	x0,x8
	mov	w1,w9
	ret
15:
	add	x8,x8,#1
	cmp	x1,x8
	b.eq	11b
16:
	ldrb	w9,[x0,x8]
	hex_page	x10,.L100aar_static.8
	hex_address	x10,x10,.L100aar_static.8
	ldrb	w10,[x10,x9]
	cmp	w10,#255
	b.ne	15b
17:
	mov	x0,x8
	mov	w1,w9
	ret
	hex_end	faster_hex_1_0_0_aarch64_core_backend_Backend_first_invalid_byte
	hex_function	faster_hex_1_0_0_aarch64_core_backend_Backend_first_invalid,.text
	sub	sp,sp,#192
	cmp	x1,#32
	stp	d15,d14,[sp,#80]
	stp	d13,d12,[sp,#96]
	stp	d11,d10,[sp,#112]
	stp	d9,d8,[sp,#128]
	stp	x29,x30,[sp,#144]
	add	x29,sp,#144
	str	x21,[sp,#160]
	stp	x20,x19,[sp,#176]
	b.hi	5f
	cmp	x1,#15
	b.hi	8f
	cbz	x1,40f
	cmp	x1,#1
	b.ne	18f
	mov	w8,w2
	hex_page	x10,.L100aar_static.0
	hex_address	x10,x10,.L100aar_static.0
	and	x8,x8,#0xff
	ldrb	w9,[x0]
	hex_page	x11,.L100aar_static.1
	hex_address	x11,x11,.L100aar_static.1
	ldrb	w10,[x10,x8]
	ldrb	w8,[x11,x8]
	sub	w11,w9,#48
	orr	w9,w10,w9
	and	w10,w11,#0xff
	sub	w8,w9,w8
	subs	w9,w10,#9
	and	w8,w8,#0xff
	csel	w9,wzr,w9,lo
	subs	w8,w8,#5
	csel	w8,wzr,w8,lo
	cmp	w9,w8
	csel	w9,w9,w8,lo
	mov	x8,xzr
	cbnz	w9,28f
	b	12f
5:
	cmp	x1,#256
	b.hi	13f
	cmp	x1,#64
	b.hi	14f
	movi	v0.16b,#57
	add	x8,x0,x1
	movi	v3.16b,#143
	ldp	q1,q2,[x0]
	hex_page	x9,.L100aar_static.2
	hex_address	x9,x9,.L100aar_static.2
	ldp	q4,q5,[x8,#-32]
	mov	w8,w2
	add	v6.16b,v1.16b,v0.16b
	add	v7.16b,v2.16b,v0.16b
	and	x8,x8,#0xff
	add	v16.16b,v5.16b,v0.16b
	add	v0.16b,v4.16b,v0.16b
	ldr	q17,[x9,x8,lsl #4]
	hex_page	x9,.L100aar_static.3
	hex_address	x9,x9,.L100aar_static.3
	and	v18.16b,v6.16b,v3.16b
	and	v19.16b,v7.16b,v3.16b
	add	x8,x9,x8
	and	v20.16b,v0.16b,v3.16b
	and	v3.16b,v16.16b,v3.16b
	tbl	v18.16b,{ v17.16b },v18.16b
	tbl	v19.16b,{ v17.16b },v19.16b
	tbl	v20.16b,{ v17.16b },v20.16b
	tbl	v3.16b,{ v17.16b },v3.16b
	sub	v1.16b,v18.16b,v1.16b
	sub	v2.16b,v19.16b,v2.16b
	sub	v3.16b,v3.16b,v5.16b
	sub	v4.16b,v20.16b,v4.16b
	eor	v1.16b,v1.16b,v6.16b
	eor	v2.16b,v2.16b,v7.16b
	eor	v0.16b,v4.16b,v0.16b
	eor	v3.16b,v3.16b,v16.16b
	orr	v2.16b,v3.16b,v2.16b
	orr	v0.16b,v0.16b,v1.16b
	ld1r	{ v1.16b },[x8]
	orr	v0.16b,v0.16b,v2.16b
	b	9f
8:
	movi	v0.16b,#57
	add	x8,x0,x1
	ldr	q1,[x0]
	ldur	q2,[x8,#-16]
	movi	v3.16b,#143
	mov	w8,w2
	and	x8,x8,#0xff
	hex_page	x9,.L100aar_static.2
	hex_address	x9,x9,.L100aar_static.2
	ldr	q6,[x9,x8,lsl #4]
	hex_page	x9,.L100aar_static.3
	hex_address	x9,x9,.L100aar_static.3
	add	v4.16b,v1.16b,v0.16b
	add	v0.16b,v2.16b,v0.16b
	add	x8,x9,x8
	and	v5.16b,v4.16b,v3.16b
	and	v3.16b,v0.16b,v3.16b
	tbl	v5.16b,{ v6.16b },v5.16b
	tbl	v3.16b,{ v6.16b },v3.16b
	sub	v1.16b,v5.16b,v1.16b
	sub	v2.16b,v3.16b,v2.16b
	eor	v1.16b,v1.16b,v4.16b
	eor	v0.16b,v2.16b,v0.16b
	orr	v0.16b,v0.16b,v1.16b
	ld1r	{ v1.16b },[x8]
9:
	and	v0.16b,v0.16b,v1.16b
	ext	v1.16b,v0.16b,v0.16b,#8
	orr	v0.8b,v0.8b,v1.8b
10:
	fmov	x8,d0
	orr	x8,x8,x8,lsr #32
	lsr	x9,x8,#16
	orr	w8,w8,w9
	orr	w8,w8,w8,lsr #8
11:
	tst	w8,#0xff
	mov	x8,xzr
	b.ne	28f
12:
	mov	w0,wzr
	mov	x1,x8
	b	41f
13:
	mov	x19,x0
	mov	x20,x1
	mov	x21,x2
	bl	faster_hex_1_0_0_aarch64_core_plain_check_long_outlined
	mov	x2,x21
	mov	x1,x20
	mov	w8,w0
	mov	x0,x19
	tbz	w8,#0,24f
	b	39f
14:
	mov	w8,w2
	hex_page	x9,.L100aar_static.2
	hex_address	x9,x9,.L100aar_static.2
	and	x8,x8,#0xff
	cmp	x1,#128
	ldr	q0,[x9,x8,lsl #4]
	b.hi	20f
	movi	v1.16b,#57
	ldp	q3,q4,[x0]
	ldp	q5,q6,[x0,#32]
	movi	v2.16b,#143
	add	x9,x0,x1
	cmp	x1,#97
	ldp	q20,q19,[x9,#-32]
	add	v16.16b,v3.16b,v1.16b
	add	v7.16b,v4.16b,v1.16b
	add	v17.16b,v6.16b,v1.16b
	add	v18.16b,v5.16b,v1.16b
	add	v21.16b,v19.16b,v1.16b
	add	v24.16b,v20.16b,v1.16b
	and	v22.16b,v16.16b,v2.16b
	and	v23.16b,v7.16b,v2.16b
	and	v26.16b,v17.16b,v2.16b
	and	v25.16b,v18.16b,v2.16b
	and	v27.16b,v21.16b,v2.16b
	and	v28.16b,v24.16b,v2.16b
	tbl	v22.16b,{ v0.16b },v22.16b
	tbl	v23.16b,{ v0.16b },v23.16b
	tbl	v26.16b,{ v0.16b },v26.16b
	tbl	v25.16b,{ v0.16b },v25.16b
	tbl	v27.16b,{ v0.16b },v27.16b
	sub	v3.16b,v22.16b,v3.16b
	tbl	v22.16b,{ v0.16b },v28.16b
	sub	v4.16b,v23.16b,v4.16b
	sub	v6.16b,v26.16b,v6.16b
	sub	v5.16b,v25.16b,v5.16b
	sub	v19.16b,v27.16b,v19.16b
	eor	v16.16b,v3.16b,v16.16b
	eor	v7.16b,v4.16b,v7.16b
	eor	v18.16b,v5.16b,v18.16b
	eor	v5.16b,v6.16b,v17.16b
	sub	v4.16b,v22.16b,v20.16b
	eor	v3.16b,v19.16b,v21.16b
	eor	v4.16b,v4.16b,v24.16b
	orr	v5.16b,v5.16b,v7.16b
	orr	v6.16b,v18.16b,v16.16b
	b.lo	17f
	ldp	q7,q16,[x9,#-64]
	add	v17.16b,v16.16b,v1.16b
	add	v1.16b,v7.16b,v1.16b
	and	v18.16b,v1.16b,v2.16b
	and	v2.16b,v17.16b,v2.16b
	tbl	v18.16b,{ v0.16b },v18.16b
	tbl	v0.16b,{ v0.16b },v2.16b
	sub	v0.16b,v0.16b,v16.16b
	sub	v2.16b,v18.16b,v7.16b
	eor	v1.16b,v2.16b,v1.16b
	eor	v0.16b,v0.16b,v17.16b
	orr	v5.16b,v0.16b,v5.16b
	orr	v6.16b,v1.16b,v6.16b
17:
	orr	v0.16b,v6.16b,v4.16b
	orr	v1.16b,v5.16b,v3.16b
	hex_page	x9,.L100aar_static.3
	hex_address	x9,x9,.L100aar_static.3
	add	x8,x9,x8
	ld1r	{ v2.16b },[x8]
	orr	v0.16b,v0.16b,v1.16b
	b	23f
18:
	cmp	x1,#3
	b.hi	42f
	add	x8,x0,x1
	ldr	h0,[x0]
	movi	v1.2s,#57
	ldur	h2,[x8,#-2]
	movi	v4.2d,#0000000000000000
	movi	v5.2d,#0000000000000000
	ushll	v0.8h,v0.8b,#0
	mov	w8,w2
	hex_page	x9,.L100aar_static.2
	hex_address	x9,x9,.L100aar_static.2
	ushll	v2.8h,v2.8b,#0
	and	x8,x8,#0xff
	uaddw	v3.4s,v1.4s,v0.4h
	uaddw	v1.4s,v1.4s,v2.4h
	fmov	d6,d3
	mov	v3.b[1],v3.b[4]
	fmov	d7,d1
	mov	v1.b[1],v1.b[4]
	mov	v5.h[0],v3.h[0]
	movi	v3.16b,#143
	mov	v4.h[0],v1.h[0]
	and	v1.16b,v5.16b,v3.16b
	and	v3.16b,v4.16b,v3.16b
	ldr	q4,[x9,x8,lsl #4]
	hex_page	x9,.L100aar_static.3
	hex_address	x9,x9,.L100aar_static.3
	tbl	v1.16b,{ v4.16b },v1.16b
	tbl	v3.16b,{ v4.16b },v3.16b
	mov	b4,v1.b[0]
	mov	b5,v3.b[0]
	mov	v4.b[4],v1.b[1]
	mov	v5.b[4],v3.b[1]
	usubw	v0.4s,v4.4s,v0.4h
	usubw	v1.4s,v5.4s,v2.4h
	ldr	b2,[x9,x8]
	eor	v0.8b,v0.8b,v6.8b
	dup	v2.2s,v2.s[0]
	eor	v1.8b,v1.8b,v7.8b
	orr	v0.8b,v1.8b,v0.8b
	and	v0.8b,v0.8b,v2.8b
	fmov	x8,d0
	lsr	x9,x8,#32
	orr	w8,w8,w9
	b	11b
20:
	movi	v2.16b,#57
	ldp	q6,q3,[x0,#32]
	ldp	q18,q19,[x0]
	movi	v20.16b,#143
	ldp	q16,q5,[x0,#96]
	add	x9,x0,x1
	ldp	q26,q27,[x9,#-32]
	cmp	x1,#193
	add	v1.16b,v6.16b,v2.16b
	add	v21.16b,v19.16b,v2.16b
	add	v23.16b,v18.16b,v2.16b
	add	v17.16b,v3.16b,v2.16b
	add	v22.16b,v5.16b,v2.16b
	add	v28.16b,v16.16b,v2.16b
	ldp	q9,q10,[x9,#-64]
	add	v8.16b,v27.16b,v2.16b
	stp	q3,q1,[sp,#32]
	and	v24.16b,v1.16b,v20.16b
	and	v25.16b,v21.16b,v20.16b
	ldp	q1,q7,[x0,#64]
	and	v30.16b,v23.16b,v20.16b
	and	v12.16b,v17.16b,v20.16b
	add	v11.16b,v26.16b,v2.16b
	add	v13.16b,v10.16b,v2.16b
	tbl	v24.16b,{ v0.16b },v24.16b
	tbl	v25.16b,{ v0.16b },v25.16b
	add	v14.16b,v9.16b,v2.16b
	add	v29.16b,v7.16b,v2.16b
	tbl	v30.16b,{ v0.16b },v30.16b
	add	v31.16b,v1.16b,v2.16b
	stp	q1,q16,[sp]
	tbl	v12.16b,{ v0.16b },v12.16b
	and	v3.16b,v8.16b,v20.16b
	str	q5,[sp,#64]
	and	v4.16b,v14.16b,v20.16b
	and	v5.16b,v13.16b,v20.16b
	and	v1.16b,v29.16b,v20.16b
	and	v15.16b,v31.16b,v20.16b
	sub	v6.16b,v24.16b,v6.16b
	and	v24.16b,v22.16b,v20.16b
	sub	v19.16b,v25.16b,v19.16b
	and	v25.16b,v28.16b,v20.16b
	sub	v18.16b,v30.16b,v18.16b
	and	v30.16b,v11.16b,v20.16b
	ldr	q16,[sp,#32]
	tbl	v1.16b,{ v0.16b },v1.16b
	tbl	v15.16b,{ v0.16b },v15.16b
	tbl	v3.16b,{ v0.16b },v3.16b
	tbl	v24.16b,{ v0.16b },v24.16b
	tbl	v25.16b,{ v0.16b },v25.16b
	sub	v12.16b,v12.16b,v16.16b
	eor	v23.16b,v18.16b,v23.16b
	eor	v18.16b,v19.16b,v21.16b
	ldr	q19,[sp,#48]
	tbl	v30.16b,{ v0.16b },v30.16b
	tbl	v4.16b,{ v0.16b },v4.16b
	sub	v1.16b,v1.16b,v7.16b
	ldp	q7,q16,[sp]
	tbl	v5.16b,{ v0.16b },v5.16b
	eor	v19.16b,v6.16b,v19.16b
	ldr	q6,[sp,#64]
	sub	v16.16b,v25.16b,v16.16b
	sub	v7.16b,v15.16b,v7.16b
	eor	v17.16b,v12.16b,v17.16b
	sub	v3.16b,v3.16b,v27.16b
	sub	v6.16b,v24.16b,v6.16b
	sub	v21.16b,v30.16b,v26.16b
	sub	v4.16b,v4.16b,v9.16b
	sub	v5.16b,v5.16b,v10.16b
	eor	v25.16b,v1.16b,v29.16b
	eor	v24.16b,v7.16b,v31.16b
	eor	v7.16b,v16.16b,v28.16b
	eor	v3.16b,v3.16b,v8.16b
	eor	v22.16b,v6.16b,v22.16b
	eor	v1.16b,v21.16b,v11.16b
	eor	v4.16b,v4.16b,v14.16b
	eor	v6.16b,v5.16b,v13.16b
	orr	v18.16b,v25.16b,v18.16b
	orr	v7.16b,v7.16b,v19.16b
	orr	v16.16b,v22.16b,v17.16b
	orr	v17.16b,v24.16b,v23.16b
	b.lo	22f
	ldp	q19,q5,[x9,#-96]
	ldp	q21,q22,[x9,#-128]
	add	v23.16b,v5.16b,v2.16b
	add	v24.16b,v19.16b,v2.16b
	add	v25.16b,v22.16b,v2.16b
	add	v2.16b,v21.16b,v2.16b
	and	v26.16b,v23.16b,v20.16b
	and	v27.16b,v2.16b,v20.16b
	and	v28.16b,v25.16b,v20.16b
	and	v20.16b,v24.16b,v20.16b
	tbl	v26.16b,{ v0.16b },v26.16b
	tbl	v27.16b,{ v0.16b },v27.16b
	tbl	v28.16b,{ v0.16b },v28.16b
	tbl	v0.16b,{ v0.16b },v20.16b
	sub	v5.16b,v26.16b,v5.16b
	sub	v0.16b,v0.16b,v19.16b
	sub	v19.16b,v28.16b,v22.16b
	sub	v20.16b,v27.16b,v21.16b
	eor	v5.16b,v5.16b,v23.16b
	eor	v2.16b,v20.16b,v2.16b
	eor	v19.16b,v19.16b,v25.16b
	eor	v0.16b,v0.16b,v24.16b
	orr	v16.16b,v5.16b,v16.16b
	orr	v7.16b,v0.16b,v7.16b
	orr	v18.16b,v19.16b,v18.16b
	orr	v17.16b,v2.16b,v17.16b
22:
	orr	v0.16b,v18.16b,v6.16b
	orr	v2.16b,v16.16b,v3.16b
	hex_page	x9,.L100aar_static.3
	hex_address	x9,x9,.L100aar_static.3
	orr	v3.16b,v17.16b,v4.16b
	orr	v1.16b,v7.16b,v1.16b
	add	x8,x9,x8
	orr	v0.16b,v0.16b,v2.16b
	ld1r	{ v2.16b },[x8]
	orr	v1.16b,v3.16b,v1.16b
	orr	v0.16b,v1.16b,v0.16b
23:
	and	v0.16b,v2.16b,v0.16b
	ext	v1.16b,v0.16b,v0.16b,#8
	orr	v0.8b,v0.8b,v1.8b
	fmov	x8,d0
	orr	x8,x8,x8,lsr #32
	lsr	x9,x8,#16
	orr	w8,w8,w9
	orr	w8,w8,w8,lsr #8
	tst	w8,#0xff
	b.eq	39f
24:
	and	x10,x2,#0xff
	hex_page	x9,.L100aar_static.3
	hex_address	x9,x9,.L100aar_static.3
	add	x11,x9,x10
	mov	x8,xzr
	lsr	x9,x1,#6
	ld1r	{ v0.16b },[x11]
	hex_page	x11,.L100aar_static.2
	hex_address	x11,x11,.L100aar_static.2
	ldr	q1,[x11,x10,lsl #4]
	mov	x10,x0
25:
	movi	v2.16b,#57
	ldp	q3,q4,[x10]
	ldp	q6,q7,[x10,#32]
	movi	v5.16b,#143
	add	v16.16b,v4.16b,v2.16b
	add	v17.16b,v3.16b,v2.16b
	add	v18.16b,v7.16b,v2.16b
	add	v2.16b,v6.16b,v2.16b
	and	v19.16b,v16.16b,v5.16b
	and	v20.16b,v17.16b,v5.16b
	and	v21.16b,v2.16b,v5.16b
	and	v5.16b,v18.16b,v5.16b
	tbl	v19.16b,{ v1.16b },v19.16b
	tbl	v20.16b,{ v1.16b },v20.16b
	tbl	v21.16b,{ v1.16b },v21.16b
	tbl	v5.16b,{ v1.16b },v5.16b
	sub	v4.16b,v19.16b,v4.16b
	sub	v3.16b,v20.16b,v3.16b
	sub	v6.16b,v21.16b,v6.16b
	sub	v5.16b,v5.16b,v7.16b
	eor	v4.16b,v4.16b,v16.16b
	eor	v3.16b,v3.16b,v17.16b
	eor	v5.16b,v5.16b,v18.16b
	eor	v2.16b,v6.16b,v2.16b
	orr	v2.16b,v2.16b,v3.16b
	orr	v3.16b,v5.16b,v4.16b
	and	v3.16b,v3.16b,v0.16b
	and	v2.16b,v2.16b,v0.16b
	orr	v2.16b,v2.16b,v3.16b
	ext	v3.16b,v2.16b,v2.16b,#8
	orr	v2.8b,v2.8b,v3.8b
	fmov	x11,d2
	orr	x11,x11,x11,lsr #32
	lsr	x12,x11,#16
	orr	w11,w11,w12
	orr	w11,w11,w11,lsr #8
	tst	w11,#0xff
	b.ne	38f
	subs	x9,x9,#1
	sub	x8,x8,#64
	add	x10,x10,#64
	b.ne	25b
	and	x8,x1,#0xffffffffffffffc0
28:
	cmp	x8,x1
	b.hs	39f
29:
	ands	w9,w2,#0xff
	b.eq	34f
	cmp	w9,#1
	b.ne	36f
31:
	ldrb	w9,[x0,x8]
	hex_page	x10,.L100aar_static.7
	hex_address	x10,x10,.L100aar_static.7
	ldrb	w9,[x10,x9]
	cmp	w9,#255
	b.eq	37f
	add	x8,x8,#1
	cmp	x1,x8
	b.ne	31b
	b	39f
33:
	add	x8,x8,#1
	cmp	x1,x8
	b.eq	39f
34:
	ldrb	w9,[x0,x8]
	hex_page	x10,.L100aar_static.6
	hex_address	x10,x10,.L100aar_static.6
	ldrb	w9,[x10,x9]
	cmp	w9,#255
	b.ne	33b
	b	37f
35:
	add	x8,x8,#1
	cmp	x1,x8
	b.eq	39f
36:
	ldrb	w9,[x0,x8]
	hex_page	x10,.L100aar_static.8
	hex_address	x10,x10,.L100aar_static.8
	ldrb	w9,[x10,x9]
	cmp	w9,#255
	b.ne	35b
37:
	mov	w0,#1
	mov	x1,x8
	b	41f
38:
	neg	x8,x8
	cmp	x8,x1
	b.lo	29b
39:
	mov	x1,xzr
40:
	mov	w0,wzr
41:
	ldp	x20,x19,[sp,#176]
	ldr	x21,[sp,#160]
	ldp	x29,x30,[sp,#144]
	ldp	d9,d8,[sp,#128]
	ldp	d11,d10,[sp,#112]
	ldp	d13,d12,[sp,#96]
	ldp	d15,d14,[sp,#80]
	add	sp,sp,#192
	ret
42:
	mov	w8,w2
	hex_page	x9,.L100aar_static.2
	hex_address	x9,x9,.L100aar_static.2
	and	x8,x8,#0xff
	hex_page	x10,.L100aar_static.3
	hex_address	x10,x10,.L100aar_static.3
	ldr	q0,[x9,x8,lsl #4]
	ldrb	w8,[x10,x8]
	cmp	x1,#7
	add	x9,x0,x1
	b.hi	44f
	movi	v1.4h,#57
	ldr	s2,[x0]
	ldur	s3,[x9,#-4]
	movi	v6.2d,#0000000000000000
	movi	v7.2d,#0000000000000000
	uaddw	v4.8h,v1.8h,v2.8b
	uaddw	v1.8h,v1.8h,v3.8b
	uzp1	v5.8b,v4.8b,v0.8b
	uzp1	v16.8b,v1.8b,v0.8b
	mov	v7.s[0],v5.s[0]
	mov	v6.s[0],v16.s[0]
	movi	v5.16b,#143
	and	v7.16b,v7.16b,v5.16b
	and	v5.16b,v6.16b,v5.16b
	tbl	v6.16b,{ v0.16b },v7.16b
	tbl	v0.16b,{ v0.16b },v5.16b
	zip1	v5.8b,v6.8b,v0.8b
	zip1	v0.8b,v0.8b,v0.8b
	usubw	v2.8h,v5.8h,v2.8b
	usubw	v0.8h,v0.8h,v3.8b
	eor	v2.8b,v2.8b,v4.8b
	eor	v0.8b,v0.8b,v1.8b
	dup	v1.4h,w8
	orr	v0.8b,v0.8b,v2.8b
	and	v0.8b,v0.8b,v1.8b
	fmov	x8,d0
	lsr	x9,x8,#32
	orr	w8,w8,w9
	orr	w8,w8,w8,lsr #16
	b	11b
44:
	movi	v1.8b,#57
	ldr	d2,[x0]
	ldur	d3,[x9,#-8]
	movi	v4.16b,#143
	add	v5.8b,v2.8b,v1.8b
	add	v1.8b,v3.8b,v1.8b
	and	v6.16b,v5.16b,v4.16b
	and	v4.16b,v1.16b,v4.16b
	tbl	v6.16b,{ v0.16b },v6.16b
	tbl	v0.16b,{ v0.16b },v4.16b
	sub	v2.8b,v6.8b,v2.8b
	sub	v0.8b,v0.8b,v3.8b
	eor	v2.8b,v2.8b,v5.8b
	eor	v0.8b,v0.8b,v1.8b
	dup	v1.8b,w8
	orr	v0.8b,v0.8b,v2.8b
	and	v0.8b,v0.8b,v1.8b
	b	10b
	hex_end	faster_hex_1_0_0_aarch64_core_backend_Backend_first_invalid
	hex_function	faster_hex_1_0_0_aarch64_codec_pieces_read_long_piece,.text
	sub	sp,sp,#80
	stp	d13,d12,[sp,#16]
	stp	d11,d10,[sp,#32]
	stp	d9,d8,[sp,#48]
	stp	x29,x30,[sp,#64]
	add	x29,sp,#64
	tbnz	w1,#0,28f
	mov	x8,x3
	lsr	x3,x1,#1
	cmp	x8,x3
	b.lo	28f
	cmp	x1,#192
	b.hi	27f
	cmp	x1,#15
	b.hi	9f
	cmp	x1,#2
	b.lo	8f
	cmp	x1,#3
	add	x8,x0,x1
	b.hi	16f
	ldr	h0,[x0]
	sub	x8,x8,#2
	movi	v2.4h,#55
	movi	v3.16b,#143
	ld1	{ v0.h }[1],[x8]
	zip1	v0.8b,v0.8b,v0.8b
	fmov	d1,d0
	bic	v1.4h,#255,lsl #8
	uqsub	v1.4h,v1.4h,v2.4h
	movi	v2.2d,#0000000000000000
	umov	w8,v1.h[0]
	umov	w9,v1.h[1]
	mov	v2.b[0],w8
	umov	w8,v1.h[2]
	mov	v2.b[1],w9
	umov	w9,v1.h[3]
	mov	v2.b[2],w8
	and	x8,x4,#0xff
	mov	v2.b[3],w9
	hex_page	x9,.L100aar_static.9
	hex_address	x9,x9,.L100aar_static.9
	and	v2.16b,v2.16b,v3.16b
	ldr	q3,[x9,x8,lsl #4]
	hex_page	x9,.L100aar_static.0
	hex_address	x9,x9,.L100aar_static.0
	tbl	v2.16b,{ v3.16b },v2.16b
	ldr	b3,[x9,x8]
	dup	v3.4h,v3.h[0]
	zip1	v2.8b,v2.8b,v0.8b
	eor	v0.8b,v3.8b,v0.8b
	bic	v2.4h,#255,lsl #8
	uqsub	v1.4h,v2.4h,v1.4h
	movi	v2.4h,#240
	eor	v0.8b,v1.8b,v0.8b
	and	v1.8b,v0.8b,v2.8b
	fmov	x8,d1
	lsr	x9,x8,#32
	orr	w8,w8,w9
	orr	w8,w8,w8,lsr #16
	tst	w8,#0xff
	b.ne	27f
	uzp1	v0.8b,v0.8b,v0.8b
	mov	w8,#4097
	dup	v1.2s,w8
	add	x8,x2,x3
	zip1	v0.4h,v0.4h,v0.4h
	mul	v0.2s,v0.2s,v1.2s
	movi	d1,#0x00ffff0000ffff
	and	v0.8b,v0.8b,v1.8b
	ushr	v0.2s,v0.2s,#8
	mov	s1,v0.s[1]
	str	b0,[x2]
	stur	b1,[x8,#-1]
8:
	ldp	x29,x30,[sp,#64]
	ldp	d9,d8,[sp,#48]
	ldp	d11,d10,[sp,#32]
	ldp	d13,d12,[sp,#16]
	add	sp,sp,#80
	ret
9:
	cmp	x1,#32
	b.hi	13f
	movi	v0.16b,#55
	b.ne	19f
	ldp	q1,q2,[x0]
	movi	v4.16b,#143
	mov	w8,w4
	hex_page	x9,.L100aar_static.9
	hex_address	x9,x9,.L100aar_static.9
	and	x8,x8,#0xff
	uqsub	v3.16b,v2.16b,v0.16b
	uqsub	v0.16b,v1.16b,v0.16b
	ldr	q6,[x9,x8,lsl #4]
	hex_page	x9,.L100aar_static.0
	hex_address	x9,x9,.L100aar_static.0
	add	x8,x9,x8
	and	v5.16b,v0.16b,v4.16b
	and	v4.16b,v3.16b,v4.16b
	tbl	v5.16b,{ v6.16b },v5.16b
	tbl	v4.16b,{ v6.16b },v4.16b
	ld1r	{ v6.16b },[x8]
	eor	v2.16b,v6.16b,v2.16b
	uqsub	v3.16b,v4.16b,v3.16b
	uqsub	v0.16b,v5.16b,v0.16b
	eor	v4.16b,v6.16b,v1.16b
	eor	v1.16b,v3.16b,v2.16b
	eor	v0.16b,v0.16b,v4.16b
	movi	v2.16b,#240
	orr	v3.16b,v0.16b,v1.16b
	and	v2.16b,v3.16b,v2.16b
	ext	v3.16b,v2.16b,v2.16b,#8
	orr	v2.8b,v2.8b,v3.8b
	fmov	x8,d2
	orr	x8,x8,x8,lsr #32
	lsr	x9,x8,#16
	orr	w8,w8,w9
	orr	w8,w8,w8,lsr #8
	tst	w8,#0xff
	b.ne	27f
	mov	w8,#4097
	dup	v2.8h,w8
	mul	v1.8h,v1.8h,v2.8h
	mul	v0.8h,v0.8h,v2.8h
	uzp2	v0.16b,v0.16b,v1.16b
	str	q0,[x2]
	ldp	x29,x30,[sp,#64]
	ldp	d9,d8,[sp,#48]
	ldp	d11,d10,[sp,#32]
	ldp	d13,d12,[sp,#16]
	add	sp,sp,#80
	ret
13:
	cmp	x1,#64
	b.hi	21f
	movi	v0.16b,#55
	add	x8,x0,x1
	movi	v5.16b,#143
	ldp	q1,q2,[x0]
	hex_page	x9,.L100aar_static.9
	hex_address	x9,x9,.L100aar_static.9
	ldp	q3,q4,[x8,#-32]
	mov	w8,w4
	uqsub	v6.16b,v2.16b,v0.16b
	uqsub	v7.16b,v1.16b,v0.16b
	and	x8,x8,#0xff
	uqsub	v16.16b,v4.16b,v0.16b
	uqsub	v0.16b,v3.16b,v0.16b
	ldr	q19,[x9,x8,lsl #4]
	hex_page	x9,.L100aar_static.0
	hex_address	x9,x9,.L100aar_static.0
	add	x8,x9,x8
	and	v17.16b,v7.16b,v5.16b
	and	v18.16b,v6.16b,v5.16b
	and	v20.16b,v0.16b,v5.16b
	and	v5.16b,v16.16b,v5.16b
	tbl	v17.16b,{ v19.16b },v17.16b
	tbl	v18.16b,{ v19.16b },v18.16b
	tbl	v20.16b,{ v19.16b },v20.16b
	tbl	v5.16b,{ v19.16b },v5.16b
	ld1r	{ v19.16b },[x8]
	uqsub	v7.16b,v17.16b,v7.16b
	uqsub	v6.16b,v18.16b,v6.16b
	eor	v1.16b,v19.16b,v1.16b
	uqsub	v17.16b,v20.16b,v0.16b
	uqsub	v5.16b,v5.16b,v16.16b
	eor	v3.16b,v19.16b,v3.16b
	eor	v2.16b,v19.16b,v2.16b
	eor	v4.16b,v19.16b,v4.16b
	eor	v0.16b,v7.16b,v1.16b
	eor	v1.16b,v17.16b,v3.16b
	eor	v3.16b,v6.16b,v2.16b
	eor	v2.16b,v5.16b,v4.16b
	movi	v6.16b,#240
	orr	v4.16b,v3.16b,v2.16b
	orr	v5.16b,v0.16b,v1.16b
	orr	v4.16b,v5.16b,v4.16b
	and	v4.16b,v4.16b,v6.16b
	ext	v5.16b,v4.16b,v4.16b,#8
	orr	v4.8b,v4.8b,v5.8b
	fmov	x8,d4
	orr	x8,x8,x8,lsr #32
	lsr	x9,x8,#16
	orr	w8,w8,w9
	orr	w8,w8,w8,lsr #8
	tst	w8,#0xff
	b.ne	27f
	mov	w8,#4097
	dup	v4.8h,w8
	add	x8,x2,x3
	mul	v3.8h,v3.8h,v4.8h
	mul	v0.8h,v0.8h,v4.8h
	mul	v1.8h,v1.8h,v4.8h
	mul	v2.8h,v2.8h,v4.8h
	uzp2	v0.16b,v0.16b,v3.16b
	uzp2	v1.16b,v1.16b,v2.16b
	str	q0,[x2]
	stur	q1,[x8,#-16]
	ldp	x29,x30,[sp,#64]
	ldp	d9,d8,[sp,#48]
	ldp	d11,d10,[sp,#32]
	ldp	d13,d12,[sp,#16]
	add	sp,sp,#80
	ret
16:
	mov	w9,w4
	hex_page	x10,.L100aar_static.9
	hex_address	x10,x10,.L100aar_static.9
	and	x9,x9,#0xff
	cmp	x1,#7
	ldr	q0,[x10,x9,lsl #4]
	b.hi	24f
	ldr	s1,[x0]
	sub	x8,x8,#4
	movi	v2.8b,#55
	movi	v3.16b,#143
	ld1	{ v1.s }[1],[x8]
	hex_page	x8,.L100aar_static.0
	hex_address	x8,x8,.L100aar_static.0
	add	x8,x8,w4,uxtb
	uqsub	v2.8b,v1.8b,v2.8b
	and	v3.16b,v2.16b,v3.16b
	tbl	v0.16b,{ v0.16b },v3.16b
	ld1r	{ v3.8b },[x8]
	eor	v1.8b,v3.8b,v1.8b
	uqsub	v0.8b,v0.8b,v2.8b
	movi	v2.8b,#240
	eor	v0.8b,v0.8b,v1.8b
	and	v1.8b,v0.8b,v2.8b
	fmov	x8,d1
	orr	x8,x8,x8,lsr #32
	lsr	x9,x8,#16
	orr	w8,w8,w9
	orr	w8,w8,w8,lsr #8
	tst	w8,#0xff
	b.ne	27f
	mov	w8,#4097
	dup	v1.4h,w8
	add	x8,x2,x3
	mul	v0.4h,v0.4h,v1.4h
	ushr	v0.4h,v0.4h,#8
	ushll	v0.4s,v0.4h,#0
	ext	v1.16b,v0.16b,v0.16b,#8
	mov	s2,v0.s[1]
	str	b0,[x2]
	mov	s3,v1.s[1]
	stur	b2,[x2,#1]
	stur	b1,[x8,#-2]
	stur	b3,[x8,#-1]
	ldp	x29,x30,[sp,#64]
	ldp	d9,d8,[sp,#48]
	ldp	d11,d10,[sp,#32]
	ldp	d13,d12,[sp,#16]
	add	sp,sp,#80
	ret
19:
	add	x8,x0,x1
	ldr	q1,[x0]
	movi	v4.16b,#143
	ldur	q2,[x8,#-16]
	mov	w8,w4
	hex_page	x9,.L100aar_static.9
	hex_address	x9,x9,.L100aar_static.9
	and	x8,x8,#0xff
	uqsub	v3.16b,v2.16b,v0.16b
	uqsub	v0.16b,v1.16b,v0.16b
	ldr	q6,[x9,x8,lsl #4]
	hex_page	x9,.L100aar_static.0
	hex_address	x9,x9,.L100aar_static.0
	add	x8,x9,x8
	and	v5.16b,v0.16b,v4.16b
	and	v4.16b,v3.16b,v4.16b
	tbl	v5.16b,{ v6.16b },v5.16b
	tbl	v4.16b,{ v6.16b },v4.16b
	ld1r	{ v6.16b },[x8]
	eor	v1.16b,v6.16b,v1.16b
	eor	v2.16b,v6.16b,v2.16b
	uqsub	v0.16b,v5.16b,v0.16b
	uqsub	v3.16b,v4.16b,v3.16b
	eor	v0.16b,v0.16b,v1.16b
	eor	v1.16b,v3.16b,v2.16b
	movi	v2.16b,#240
	orr	v3.16b,v0.16b,v1.16b
	and	v2.16b,v3.16b,v2.16b
	ext	v3.16b,v2.16b,v2.16b,#8
	orr	v2.8b,v2.8b,v3.8b
	fmov	x8,d2
	orr	x8,x8,x8,lsr #32
	lsr	x9,x8,#16
	orr	w8,w8,w9
	orr	w8,w8,w8,lsr #8
	tst	w8,#0xff
	b.ne	27f
	mov	w8,#4097
	dup	v2.8h,w8
	add	x8,x2,x3
	mul	v0.8h,v0.8h,v2.8h
	mul	v1.8h,v1.8h,v2.8h
	shrn	v0.8b,v0.8h,#8
	shrn	v1.8b,v1.8h,#8
	str	d0,[x2]
	stur	d1,[x8,#-8]
	ldp	x29,x30,[sp,#64]
	ldp	d9,d8,[sp,#48]
	ldp	d11,d10,[sp,#32]
	ldp	d13,d12,[sp,#16]
	add	sp,sp,#80
	ret
21:
	movi	v7.16b,#55
	ldp	q1,q0,[x0,#32]
	ldp	q2,q3,[x0]
	movi	v6.16b,#143
	mov	w8,w4
	hex_page	x9,.L100aar_static.9
	hex_address	x9,x9,.L100aar_static.9
	and	x8,x8,#0xff
	cmp	x1,#128
	uqsub	v16.16b,v0.16b,v7.16b
	uqsub	v17.16b,v1.16b,v7.16b
	uqsub	v18.16b,v3.16b,v7.16b
	uqsub	v19.16b,v2.16b,v7.16b
	ldr	q5,[x9,x8,lsl #4]
	hex_page	x9,.L100aar_static.0
	hex_address	x9,x9,.L100aar_static.0
	add	x8,x9,x8
	and	v20.16b,v16.16b,v6.16b
	and	v22.16b,v18.16b,v6.16b
	and	v23.16b,v17.16b,v6.16b
	and	v21.16b,v19.16b,v6.16b
	ld1r	{ v4.16b },[x8]
	tbl	v20.16b,{ v5.16b },v20.16b
	tbl	v22.16b,{ v5.16b },v22.16b
	tbl	v23.16b,{ v5.16b },v23.16b
	tbl	v21.16b,{ v5.16b },v21.16b
	eor	v0.16b,v0.16b,v4.16b
	eor	v1.16b,v1.16b,v4.16b
	eor	v3.16b,v3.16b,v4.16b
	eor	v2.16b,v2.16b,v4.16b
	uqsub	v16.16b,v20.16b,v16.16b
	uqsub	v17.16b,v23.16b,v17.16b
	uqsub	v18.16b,v22.16b,v18.16b
	uqsub	v19.16b,v21.16b,v19.16b
	eor	v0.16b,v16.16b,v0.16b
	eor	v1.16b,v17.16b,v1.16b
	eor	v3.16b,v18.16b,v3.16b
	eor	v2.16b,v19.16b,v2.16b
	b.hi	26f
	add	x8,x0,x1
	ldp	q18,q16,[x8,#-48]
	ldur	q17,[x8,#-64]
	ldur	q19,[x8,#-16]
	uqsub	v20.16b,v16.16b,v7.16b
	uqsub	v21.16b,v19.16b,v7.16b
	uqsub	v22.16b,v18.16b,v7.16b
	uqsub	v7.16b,v17.16b,v7.16b
	eor	v17.16b,v17.16b,v4.16b
	and	v23.16b,v20.16b,v6.16b
	and	v25.16b,v22.16b,v6.16b
	and	v24.16b,v7.16b,v6.16b
	and	v6.16b,v21.16b,v6.16b
	tbl	v23.16b,{ v5.16b },v23.16b
	tbl	v25.16b,{ v5.16b },v25.16b
	tbl	v24.16b,{ v5.16b },v24.16b
	tbl	v5.16b,{ v5.16b },v6.16b
	eor	v6.16b,v16.16b,v4.16b
	uqsub	v16.16b,v23.16b,v20.16b
	uqsub	v20.16b,v25.16b,v22.16b
	uqsub	v5.16b,v5.16b,v21.16b
	uqsub	v21.16b,v24.16b,v7.16b
	eor	v7.16b,v18.16b,v4.16b
	eor	v18.16b,v19.16b,v4.16b
	eor	v6.16b,v6.16b,v16.16b
	eor	v4.16b,v7.16b,v20.16b
	eor	v7.16b,v18.16b,v5.16b
	eor	v5.16b,v17.16b,v21.16b
	orr	v16.16b,v6.16b,v1.16b
	orr	v19.16b,v4.16b,v3.16b
	orr	v17.16b,v5.16b,v2.16b
	orr	v18.16b,v7.16b,v0.16b
	orr	v18.16b,v19.16b,v18.16b
	orr	v16.16b,v17.16b,v16.16b
	movi	v17.16b,#240
	orr	v16.16b,v16.16b,v18.16b
	and	v16.16b,v16.16b,v17.16b
	ext	v17.16b,v16.16b,v16.16b,#8
	orr	v16.8b,v16.8b,v17.8b
	fmov	x8,d16
	orr	x8,x8,x8,lsr #32
	lsr	x9,x8,#16
	orr	w8,w8,w9
	orr	w8,w8,w8,lsr #8
	tst	w8,#0xff
	b.ne	27f
	mov	w8,#4097
	dup	v16.8h,w8
	add	x8,x2,x3
	mul	v3.8h,v3.8h,v16.8h
	mul	v2.8h,v2.8h,v16.8h
	mul	v1.8h,v1.8h,v16.8h
	mul	v0.8h,v0.8h,v16.8h
	mul	v6.8h,v6.8h,v16.8h
	mul	v7.8h,v7.8h,v16.8h
	mul	v4.8h,v4.8h,v16.8h
	mul	v5.8h,v5.8h,v16.8h
	uzp2	v2.16b,v2.16b,v3.16b
	uzp2	v0.16b,v1.16b,v0.16b
	uzp2	v1.16b,v6.16b,v7.16b
	uzp2	v3.16b,v5.16b,v4.16b
	stp	q2,q0,[x2]
	stp	q3,q1,[x8,#-32]
	ldp	x29,x30,[sp,#64]
	ldp	d9,d8,[sp,#48]
	ldp	d11,d10,[sp,#32]
	ldp	d13,d12,[sp,#16]
	add	sp,sp,#80
	ret
24:
	ldr	d1,[x0]
	ldur	d2,[x8,#-8]
	movi	v3.16b,#55
	hex_page	x8,.L100aar_static.0
	hex_address	x8,x8,.L100aar_static.0
	mov	v1.d[1],v2.d[0]
	movi	v2.16b,#143
	add	x8,x8,w4,uxtb
	uqsub	v3.16b,v1.16b,v3.16b
	and	v2.16b,v3.16b,v2.16b
	tbl	v0.16b,{ v0.16b },v2.16b
	ld1r	{ v2.16b },[x8]
	eor	v1.16b,v2.16b,v1.16b
	movi	v2.16b,#240
	uqsub	v0.16b,v0.16b,v3.16b
	eor	v0.16b,v0.16b,v1.16b
	and	v1.16b,v0.16b,v2.16b
	ext	v2.16b,v1.16b,v1.16b,#8
	orr	v1.8b,v1.8b,v2.8b
	fmov	x8,d1
	orr	x8,x8,x8,lsr #32
	lsr	x9,x8,#16
	orr	w8,w8,w9
	orr	w8,w8,w8,lsr #8
	tst	w8,#0xff
	b.ne	27f
	mov	w8,#4097
	dup	v1.8h,w8
	add	x8,x2,x3
	mul	v0.8h,v0.8h,v1.8h
	ushr	v1.8h,v0.8h,#8
	shrn	v0.8b,v0.8h,#8
	dup	v1.2d,v1.d[1]
	str	s0,[x2]
	xtn	v1.8b,v1.8h
	stur	s1,[x8,#-4]
	ldp	x29,x30,[sp,#64]
	ldp	d9,d8,[sp,#48]
	ldp	d11,d10,[sp,#32]
	ldp	d13,d12,[sp,#16]
	add	sp,sp,#80
	ret
26:
	ldp	q16,q18,[x0,#80]
	add	x8,x0,x1
	ldr	q17,[x0,#64]
	ldr	q19,[x0,#112]
	ldp	q20,q21,[x8,#-64]
	ldp	q24,q25,[x8,#-32]
	uqsub	v22.16b,v18.16b,v7.16b
	uqsub	v23.16b,v17.16b,v7.16b
	uqsub	v26.16b,v19.16b,v7.16b
	uqsub	v27.16b,v16.16b,v7.16b
	uqsub	v28.16b,v21.16b,v7.16b
	uqsub	v30.16b,v20.16b,v7.16b
	eor	v18.16b,v18.16b,v4.16b
	uqsub	v29.16b,v25.16b,v7.16b
	uqsub	v7.16b,v24.16b,v7.16b
	eor	v17.16b,v17.16b,v4.16b
	and	v8.16b,v22.16b,v6.16b
	eor	v19.16b,v19.16b,v4.16b
	and	v31.16b,v23.16b,v6.16b
	and	v9.16b,v27.16b,v6.16b
	and	v10.16b,v26.16b,v6.16b
	and	v11.16b,v28.16b,v6.16b
	and	v12.16b,v30.16b,v6.16b
	and	v13.16b,v29.16b,v6.16b
	and	v6.16b,v7.16b,v6.16b
	tbl	v8.16b,{ v5.16b },v8.16b
	tbl	v31.16b,{ v5.16b },v31.16b
	tbl	v9.16b,{ v5.16b },v9.16b
	tbl	v10.16b,{ v5.16b },v10.16b
	tbl	v11.16b,{ v5.16b },v11.16b
	tbl	v12.16b,{ v5.16b },v12.16b
	tbl	v13.16b,{ v5.16b },v13.16b
	tbl	v5.16b,{ v5.16b },v6.16b
	uqsub	v6.16b,v8.16b,v22.16b
	uqsub	v22.16b,v31.16b,v23.16b
	uqsub	v23.16b,v10.16b,v26.16b
	uqsub	v26.16b,v9.16b,v27.16b
	uqsub	v27.16b,v11.16b,v28.16b
	uqsub	v28.16b,v13.16b,v29.16b
	uqsub	v29.16b,v12.16b,v30.16b
	eor	v30.16b,v16.16b,v4.16b
	uqsub	v31.16b,v5.16b,v7.16b
	eor	v7.16b,v4.16b,v21.16b
	eor	v21.16b,v4.16b,v25.16b
	eor	v5.16b,v18.16b,v6.16b
	eor	v6.16b,v4.16b,v20.16b
	eor	v20.16b,v4.16b,v24.16b
	eor	v18.16b,v17.16b,v22.16b
	eor	v16.16b,v19.16b,v23.16b
	eor	v19.16b,v30.16b,v26.16b
	eor	v4.16b,v7.16b,v27.16b
	eor	v7.16b,v21.16b,v28.16b
	eor	v6.16b,v6.16b,v29.16b
	eor	v17.16b,v20.16b,v31.16b
	orr	v20.16b,v5.16b,v1.16b
	orr	v21.16b,v19.16b,v3.16b
	orr	v22.16b,v16.16b,v0.16b
	orr	v23.16b,v18.16b,v2.16b
	orr	v20.16b,v20.16b,v17.16b
	orr	v23.16b,v23.16b,v6.16b
	orr	v22.16b,v22.16b,v7.16b
	orr	v21.16b,v21.16b,v4.16b
	orr	v21.16b,v21.16b,v22.16b
	orr	v20.16b,v23.16b,v20.16b
	movi	v22.16b,#240
	orr	v20.16b,v20.16b,v21.16b
	and	v20.16b,v20.16b,v22.16b
	ext	v21.16b,v20.16b,v20.16b,#8
	orr	v20.8b,v20.8b,v21.8b
	fmov	x8,d20
	orr	x8,x8,x8,lsr #32
	lsr	x9,x8,#16
	orr	w8,w8,w9
	orr	w8,w8,w8,lsr #8
	tst	w8,#0xff
	b.eq	29f
27:
	bl	faster_hex_1_0_0_aarch64_core_backend_Backend_decode_or_find_outlined
	tst	w1,#0xffff
	b.eq	8b
28:
	brk	#0x1
29:
	mov	w8,#4097
	dup	v20.8h,w8
	add	x8,x2,x3
	mul	v3.8h,v3.8h,v20.8h
	mul	v2.8h,v2.8h,v20.8h
	mul	v1.8h,v1.8h,v20.8h
	mul	v0.8h,v0.8h,v20.8h
	mul	v19.8h,v19.8h,v20.8h
	mul	v18.8h,v18.8h,v20.8h
	mul	v5.8h,v5.8h,v20.8h
	mul	v16.8h,v16.8h,v20.8h
	mul	v17.8h,v17.8h,v20.8h
	mul	v7.8h,v7.8h,v20.8h
	uzp2	v2.16b,v2.16b,v3.16b
	mul	v3.8h,v4.8h,v20.8h
	mul	v4.8h,v6.8h,v20.8h
	uzp2	v0.16b,v1.16b,v0.16b
	uzp2	v1.16b,v18.16b,v19.16b
	uzp2	v5.16b,v5.16b,v16.16b
	uzp2	v6.16b,v17.16b,v7.16b
	stp	q2,q0,[x2]
	uzp2	v2.16b,v4.16b,v3.16b
	stp	q1,q5,[x2,#32]
	stp	q2,q6,[x8,#-32]
	ldp	x29,x30,[sp,#64]
	ldp	d9,d8,[sp,#48]
	ldp	d11,d10,[sp,#32]
	ldp	d13,d12,[sp,#16]
	add	sp,sp,#80
	ret
	hex_end	faster_hex_1_0_0_aarch64_codec_pieces_read_long_piece
	hex_merged	16
	.p2align	4,0x0
.L100aar_CPI5_0:
	.byte	1,2,4,8,16,32,64,128,1,2,4,8,16,32,64,128
	hex_function	faster_hex_1_0_0_aarch64_codec_spaced_run_len,.text
	mov	w8,#192
	cmp	x1,#192
	csel	x8,x1,x8,lo
	cmp	x1,#0
	cset	w9,ne
	cmp	x1,#32
	b.hs	5f
	cmp	x8,x9
	b.eq	4f
2:
	ldrb	w10,[x0,x9]
	cmp	w10,#33
	b.lo	9f
	add	x9,x9,#1
	cmp	x8,x9
	b.ne	2b
4:
	mov	x0,x8
	ret
5:
	sub	x10,x8,#32
6:
	cmp	x10,x9
	movi	v0.16b,#33
	csel	x9,x10,x9,lo
	add	x11,x0,x9
	ldp	q1,q2,[x11]
	hex_page	x11,.L100aar_CPI5_0
	cmhi	v2.16b,v0.16b,v2.16b
	cmhi	v0.16b,v0.16b,v1.16b
	hex_value	q1,x11,.L100aar_CPI5_0
	and	v0.16b,v0.16b,v1.16b
	and	v1.16b,v2.16b,v1.16b
	addp	v0.16b,v0.16b,v1.16b
	addp	v0.16b,v0.16b,v0.16b
	addp	v0.16b,v0.16b,v0.16b
	fmov	w11,s0
	cbnz	w11,8f
	add	x9,x9,#32
	cmp	x9,x8
	b.lo	6b
	b	4b
8:
	rbit	w10,w11
	clz	w10,w10
	add	x9,x9,x10
	cmp	x8,x9
	csel	x8,x8,x9,lo
	cmp	x9,#0
	csinc	x0,x8,xzr,ne
	ret
9:
	mov	x8,x9
	mov	x0,x8
	ret
	hex_end	faster_hex_1_0_0_aarch64_codec_spaced_run_len
	hex_function	faster_hex_1_0_0_aarch64_codec_spaced_line_count,.text
	str	d10,[sp,#-112]!
	stp	d9,d8,[sp,#8]
	stp	x29,x30,[sp,#24]
	add	x29,sp,#24
	str	x27,[sp,#40]
	stp	x26,x25,[sp,#48]
	stp	x24,x23,[sp,#64]
	stp	x22,x21,[sp,#80]
	stp	x20,x19,[sp,#96]
	cbz	x2,58f
	mov	w24,w4
	mov	x20,x3
	mov	x21,x2
	mov	x22,x1
	mov	x23,x0
	cmp	x2,#33
	b.hs	36f
2:
	add	x25,x20,x21
	cmp	x25,x22
	b.hi	58f
	mov	w8,w24
	mov	x19,xzr
	add	x26,x23,x21
	and	x27,x8,#0xff
	b	6f
4:
	ldrb	w8,[x26]
	ldrb	w9,[x23,x21]
	cmp	w8,w9
	b.ne	59f
5:
	sub	x22,x22,x25
	add	x19,x19,#1
	add	x23,x23,x25
	cmp	x25,x22
	b.hi	59f
6:
	cmp	x21,#32
	b.hi	10f
	cmp	x21,#15
	b.hi	13f
	cmp	x21,#1
	b.ne	16f
	hex_page	x9,.L100aar_static.0
	hex_address	x9,x9,.L100aar_static.0
	ldrb	w8,[x23]
	ldrb	w9,[x9,x27]
	hex_page	x10,.L100aar_static.1
	hex_address	x10,x10,.L100aar_static.1
	ldrb	w10,[x10,x27]
	orr	w9,w9,w8
	sub	w8,w8,#48
	and	w8,w8,#0xff
	sub	w9,w9,w10
	subs	w8,w8,#9
	and	w9,w9,#0xff
	csel	w8,wzr,w8,lo
	subs	w9,w9,#5
	csel	w9,wzr,w9,lo
	cmp	w8,w9
	csel	w8,w8,w9,lo
	cbz	w8,31f
	b	59f
10:
	cmp	x21,#256
	b.hi	15f
	cmp	x21,#64
	b.hi	18f
	movi	v0.16b,#57
	add	x8,x23,x21
	movi	v3.16b,#143
	ldp	q1,q2,[x23]
	ldp	q4,q5,[x8,#-32]
	hex_page	x8,.L100aar_static.2
	hex_address	x8,x8,.L100aar_static.2
	add	v6.16b,v1.16b,v0.16b
	add	v7.16b,v2.16b,v0.16b
	ldr	q17,[x8,x27,lsl #4]
	add	v16.16b,v5.16b,v0.16b
	add	v0.16b,v4.16b,v0.16b
	hex_page	x8,.L100aar_static.3
	hex_address	x8,x8,.L100aar_static.3
	and	v18.16b,v6.16b,v3.16b
	and	v19.16b,v7.16b,v3.16b
	add	x8,x8,x27
	and	v20.16b,v0.16b,v3.16b
	and	v3.16b,v16.16b,v3.16b
	tbl	v18.16b,{ v17.16b },v18.16b
	tbl	v19.16b,{ v17.16b },v19.16b
	tbl	v20.16b,{ v17.16b },v20.16b
	tbl	v3.16b,{ v17.16b },v3.16b
	sub	v1.16b,v18.16b,v1.16b
	sub	v2.16b,v19.16b,v2.16b
	sub	v3.16b,v3.16b,v5.16b
	sub	v4.16b,v20.16b,v4.16b
	eor	v1.16b,v1.16b,v6.16b
	eor	v2.16b,v2.16b,v7.16b
	eor	v0.16b,v4.16b,v0.16b
	eor	v3.16b,v3.16b,v16.16b
	orr	v2.16b,v3.16b,v2.16b
	orr	v0.16b,v0.16b,v1.16b
	ld1r	{ v1.16b },[x8]
	orr	v0.16b,v0.16b,v2.16b
	b	14f
13:
	movi	v0.16b,#57
	add	x8,x23,x21
	ldr	q1,[x23]
	ldur	q2,[x8,#-16]
	movi	v3.16b,#143
	hex_page	x8,.L100aar_static.2
	hex_address	x8,x8,.L100aar_static.2
	ldr	q6,[x8,x27,lsl #4]
	hex_page	x8,.L100aar_static.3
	hex_address	x8,x8,.L100aar_static.3
	add	v4.16b,v1.16b,v0.16b
	add	v0.16b,v2.16b,v0.16b
	add	x8,x8,x27
	and	v5.16b,v4.16b,v3.16b
	and	v3.16b,v0.16b,v3.16b
	tbl	v5.16b,{ v6.16b },v5.16b
	tbl	v3.16b,{ v6.16b },v3.16b
	sub	v1.16b,v5.16b,v1.16b
	sub	v2.16b,v3.16b,v2.16b
	eor	v1.16b,v1.16b,v4.16b
	eor	v0.16b,v2.16b,v0.16b
	orr	v0.16b,v0.16b,v1.16b
	ld1r	{ v1.16b },[x8]
14:
	and	v0.16b,v0.16b,v1.16b
	b	28f
15:
	mov	x0,x23
	mov	x1,x21
	mov	w2,w24
	bl	faster_hex_1_0_0_aarch64_core_plain_check_long_outlined
	tbnz	w0,#0,31f
	b	59f
16:
	cmp	x21,#3
	b.hi	22f
	add	x8,x23,x21
	ldr	h0,[x23]
	movi	v1.2s,#57
	ldur	h2,[x8,#-2]
	movi	v4.2d,#0000000000000000
	movi	v5.2d,#0000000000000000
	ushll	v0.8h,v0.8b,#0
	hex_page	x8,.L100aar_static.2
	hex_address	x8,x8,.L100aar_static.2
	ushll	v2.8h,v2.8b,#0
	uaddw	v3.4s,v1.4s,v0.4h
	uaddw	v1.4s,v1.4s,v2.4h
	fmov	d6,d3
	mov	v3.b[1],v3.b[4]
	fmov	d7,d1
	mov	v1.b[1],v1.b[4]
	mov	v5.h[0],v3.h[0]
	movi	v3.16b,#143
	mov	v4.h[0],v1.h[0]
	and	v1.16b,v5.16b,v3.16b
	and	v3.16b,v4.16b,v3.16b
	ldr	q4,[x8,x27,lsl #4]
	hex_page	x8,.L100aar_static.3
	hex_address	x8,x8,.L100aar_static.3
	tbl	v1.16b,{ v4.16b },v1.16b
	tbl	v3.16b,{ v4.16b },v3.16b
	mov	b4,v1.b[0]
	mov	b5,v3.b[0]
	mov	v4.b[4],v1.b[1]
	mov	v5.b[4],v3.b[1]
	usubw	v0.4s,v4.4s,v0.4h
	usubw	v1.4s,v5.4s,v2.4h
	ldr	b2,[x8,x27]
	eor	v0.8b,v0.8b,v6.8b
	dup	v2.2s,v2.s[0]
	eor	v1.8b,v1.8b,v7.8b
	orr	v0.8b,v1.8b,v0.8b
	and	v0.8b,v0.8b,v2.8b
	fmov	x8,d0
	lsr	x9,x8,#32
	orr	w8,w8,w9
	b	30f
18:
	movi	v1.16b,#57
	hex_page	x8,.L100aar_static.2
	hex_address	x8,x8,.L100aar_static.2
	ldr	q0,[x8,x27,lsl #4]
	cmp	x21,#128
	b.hi	24f
	ldp	q3,q4,[x23]
	movi	v2.16b,#143
	ldp	q5,q6,[x23,#32]
	cmp	x21,#97
	add	x8,x23,x21
	add	v7.16b,v3.16b,v1.16b
	add	v16.16b,v4.16b,v1.16b
	add	v17.16b,v6.16b,v1.16b
	add	v18.16b,v5.16b,v1.16b
	and	v19.16b,v7.16b,v2.16b
	and	v20.16b,v16.16b,v2.16b
	and	v21.16b,v18.16b,v2.16b
	and	v22.16b,v17.16b,v2.16b
	tbl	v19.16b,{ v0.16b },v19.16b
	tbl	v20.16b,{ v0.16b },v20.16b
	tbl	v21.16b,{ v0.16b },v21.16b
	tbl	v22.16b,{ v0.16b },v22.16b
	sub	v3.16b,v19.16b,v3.16b
	sub	v4.16b,v20.16b,v4.16b
	sub	v6.16b,v22.16b,v6.16b
	sub	v5.16b,v21.16b,v5.16b
	eor	v7.16b,v3.16b,v7.16b
	eor	v3.16b,v4.16b,v16.16b
	eor	v4.16b,v5.16b,v18.16b
	eor	v5.16b,v6.16b,v17.16b
	orr	v3.16b,v5.16b,v3.16b
	orr	v4.16b,v4.16b,v7.16b
	b.lo	21f
	ldp	q5,q6,[x8,#-64]
	add	v7.16b,v6.16b,v1.16b
	add	v16.16b,v5.16b,v1.16b
	and	v17.16b,v16.16b,v2.16b
	and	v18.16b,v7.16b,v2.16b
	tbl	v17.16b,{ v0.16b },v17.16b
	tbl	v18.16b,{ v0.16b },v18.16b
	sub	v6.16b,v18.16b,v6.16b
	sub	v5.16b,v17.16b,v5.16b
	eor	v5.16b,v5.16b,v16.16b
	eor	v6.16b,v6.16b,v7.16b
	orr	v3.16b,v6.16b,v3.16b
	orr	v4.16b,v5.16b,v4.16b
21:
	ldp	q5,q6,[x8,#-32]
	add	v7.16b,v6.16b,v1.16b
	add	v1.16b,v5.16b,v1.16b
	and	v16.16b,v1.16b,v2.16b
	and	v2.16b,v7.16b,v2.16b
	tbl	v16.16b,{ v0.16b },v16.16b
	tbl	v0.16b,{ v0.16b },v2.16b
	sub	v2.16b,v16.16b,v5.16b
	sub	v0.16b,v0.16b,v6.16b
	eor	v0.16b,v0.16b,v7.16b
	eor	v1.16b,v2.16b,v1.16b
	orr	v1.16b,v4.16b,v1.16b
	orr	v0.16b,v3.16b,v0.16b
	b	27f
22:
	hex_page	x8,.L100aar_static.2
	hex_address	x8,x8,.L100aar_static.2
	hex_page	x9,.L100aar_static.3
	hex_address	x9,x9,.L100aar_static.3
	ldr	q0,[x8,x27,lsl #4]
	cmp	x21,#7
	ldrb	w8,[x9,x27]
	b.hi	35f
	movi	v1.4h,#57
	add	x9,x23,x21
	ldr	s2,[x23]
	ldur	s3,[x9,#-4]
	movi	v6.2d,#0000000000000000
	movi	v7.2d,#0000000000000000
	uaddw	v4.8h,v1.8h,v2.8b
	uaddw	v1.8h,v1.8h,v3.8b
	uzp1	v5.8b,v4.8b,v0.8b
	uzp1	v16.8b,v1.8b,v0.8b
	mov	v7.s[0],v5.s[0]
	mov	v6.s[0],v16.s[0]
	movi	v5.16b,#143
	and	v7.16b,v7.16b,v5.16b
	and	v5.16b,v6.16b,v5.16b
	tbl	v6.16b,{ v0.16b },v7.16b
	tbl	v0.16b,{ v0.16b },v5.16b
	zip1	v5.8b,v6.8b,v0.8b
	zip1	v0.8b,v0.8b,v0.8b
	usubw	v2.8h,v5.8h,v2.8b
	usubw	v0.8h,v0.8h,v3.8b
	eor	v2.8b,v2.8b,v4.8b
	eor	v0.8b,v0.8b,v1.8b
	dup	v1.4h,w8
	orr	v0.8b,v0.8b,v2.8b
	and	v0.8b,v0.8b,v1.8b
	fmov	x8,d0
	lsr	x9,x8,#32
	orr	w8,w8,w9
	orr	w8,w8,w8,lsr #16
	b	30f
24:
	ldp	q3,q4,[x23]
	movi	v2.16b,#143
	ldp	q5,q6,[x23,#32]
	cmp	x21,#193
	ldp	q7,q16,[x23,#96]
	add	x8,x23,x21
	ldp	q19,q20,[x23,#64]
	add	v17.16b,v4.16b,v1.16b
	add	v18.16b,v3.16b,v1.16b
	add	v21.16b,v6.16b,v1.16b
	add	v22.16b,v5.16b,v1.16b
	add	v23.16b,v16.16b,v1.16b
	add	v24.16b,v7.16b,v1.16b
	add	v25.16b,v20.16b,v1.16b
	add	v26.16b,v19.16b,v1.16b
	and	v28.16b,v17.16b,v2.16b
	and	v27.16b,v18.16b,v2.16b
	and	v29.16b,v22.16b,v2.16b
	and	v30.16b,v21.16b,v2.16b
	and	v31.16b,v23.16b,v2.16b
	and	v10.16b,v24.16b,v2.16b
	and	v8.16b,v26.16b,v2.16b
	and	v9.16b,v25.16b,v2.16b
	tbl	v28.16b,{ v0.16b },v28.16b
	tbl	v27.16b,{ v0.16b },v27.16b
	tbl	v29.16b,{ v0.16b },v29.16b
	tbl	v30.16b,{ v0.16b },v30.16b
	tbl	v31.16b,{ v0.16b },v31.16b
	tbl	v10.16b,{ v0.16b },v10.16b
	tbl	v8.16b,{ v0.16b },v8.16b
	tbl	v9.16b,{ v0.16b },v9.16b
	sub	v4.16b,v28.16b,v4.16b
	sub	v3.16b,v27.16b,v3.16b
	sub	v6.16b,v30.16b,v6.16b
	sub	v5.16b,v29.16b,v5.16b
	sub	v16.16b,v31.16b,v16.16b
	sub	v7.16b,v10.16b,v7.16b
	sub	v20.16b,v9.16b,v20.16b
	sub	v19.16b,v8.16b,v19.16b
	eor	v17.16b,v4.16b,v17.16b
	eor	v18.16b,v3.16b,v18.16b
	eor	v3.16b,v5.16b,v22.16b
	eor	v4.16b,v6.16b,v21.16b
	eor	v5.16b,v16.16b,v23.16b
	eor	v7.16b,v7.16b,v24.16b
	eor	v16.16b,v19.16b,v26.16b
	eor	v6.16b,v20.16b,v25.16b
	orr	v4.16b,v5.16b,v4.16b
	orr	v3.16b,v7.16b,v3.16b
	orr	v6.16b,v6.16b,v17.16b
	orr	v5.16b,v16.16b,v18.16b
	b.lo	26f
	ldp	q16,q7,[x8,#-96]
	ldp	q17,q18,[x8,#-128]
	add	v19.16b,v7.16b,v1.16b
	add	v20.16b,v16.16b,v1.16b
	add	v21.16b,v18.16b,v1.16b
	add	v22.16b,v17.16b,v1.16b
	and	v23.16b,v19.16b,v2.16b
	and	v26.16b,v20.16b,v2.16b
	and	v24.16b,v22.16b,v2.16b
	and	v25.16b,v21.16b,v2.16b
	tbl	v23.16b,{ v0.16b },v23.16b
	tbl	v26.16b,{ v0.16b },v26.16b
	tbl	v24.16b,{ v0.16b },v24.16b
	tbl	v25.16b,{ v0.16b },v25.16b
	sub	v7.16b,v23.16b,v7.16b
	sub	v16.16b,v26.16b,v16.16b
	sub	v18.16b,v25.16b,v18.16b
	sub	v17.16b,v24.16b,v17.16b
	eor	v7.16b,v7.16b,v19.16b
	eor	v16.16b,v16.16b,v20.16b
	eor	v17.16b,v17.16b,v22.16b
	eor	v18.16b,v18.16b,v21.16b
	orr	v4.16b,v7.16b,v4.16b
	orr	v3.16b,v16.16b,v3.16b
	orr	v6.16b,v18.16b,v6.16b
	orr	v5.16b,v17.16b,v5.16b
26:
	ldp	q16,q7,[x8,#-64]
	ldp	q17,q18,[x8,#-32]
	add	v19.16b,v7.16b,v1.16b
	add	v20.16b,v18.16b,v1.16b
	add	v21.16b,v17.16b,v1.16b
	add	v1.16b,v16.16b,v1.16b
	and	v22.16b,v19.16b,v2.16b
	and	v23.16b,v1.16b,v2.16b
	and	v24.16b,v21.16b,v2.16b
	and	v2.16b,v20.16b,v2.16b
	tbl	v22.16b,{ v0.16b },v22.16b
	tbl	v23.16b,{ v0.16b },v23.16b
	tbl	v24.16b,{ v0.16b },v24.16b
	tbl	v0.16b,{ v0.16b },v2.16b
	sub	v2.16b,v22.16b,v7.16b
	sub	v7.16b,v23.16b,v16.16b
	sub	v16.16b,v24.16b,v17.16b
	sub	v0.16b,v0.16b,v18.16b
	eor	v2.16b,v2.16b,v19.16b
	eor	v0.16b,v0.16b,v20.16b
	eor	v16.16b,v16.16b,v21.16b
	eor	v1.16b,v7.16b,v1.16b
	orr	v2.16b,v6.16b,v2.16b
	orr	v0.16b,v4.16b,v0.16b
	orr	v1.16b,v5.16b,v1.16b
	orr	v3.16b,v3.16b,v16.16b
	orr	v1.16b,v1.16b,v3.16b
	orr	v0.16b,v2.16b,v0.16b
27:
	hex_page	x8,.L100aar_static.3
	hex_address	x8,x8,.L100aar_static.3
	orr	v0.16b,v1.16b,v0.16b
	add	x8,x8,x27
	ld1r	{ v2.16b },[x8]
	and	v0.16b,v2.16b,v0.16b
28:
	ext	v1.16b,v0.16b,v0.16b,#8
	orr	v0.8b,v0.8b,v1.8b
29:
	fmov	x8,d0
	orr	x8,x8,x8,lsr #32
	lsr	x9,x8,#16
	orr	w8,w8,w9
	orr	w8,w8,w8,lsr #8
30:
	tst	w8,#0xff
	b.ne	59f
31:
	cbz	x20,5b
	cmp	x20,#1
	b.eq	4b
	ldrb	w8,[x26]
	ldrb	w9,[x23,x21]
	cmp	w8,w9
	b.ne	59f
	add	x8,x23,x21
	ldrb	w9,[x26,#1]
	ldrb	w8,[x8,#1]
	cmp	w9,w8
	b.eq	5b
	b	59f
35:
	movi	v1.8b,#57
	add	x9,x23,x21
	ldr	d2,[x23]
	ldur	d3,[x9,#-8]
	movi	v4.16b,#143
	add	v5.8b,v2.8b,v1.8b
	add	v1.8b,v3.8b,v1.8b
	and	v6.16b,v5.16b,v4.16b
	and	v4.16b,v1.16b,v4.16b
	tbl	v6.16b,{ v0.16b },v6.16b
	tbl	v0.16b,{ v0.16b },v4.16b
	sub	v2.8b,v6.8b,v2.8b
	sub	v0.8b,v0.8b,v3.8b
	eor	v2.8b,v2.8b,v5.8b
	eor	v0.8b,v0.8b,v1.8b
	dup	v1.8b,w8
	orr	v0.8b,v0.8b,v2.8b
	and	v0.8b,v0.8b,v1.8b
	b	29b
36:
	cmp	x21,#64
	b.hi	46f
	add	x8,x20,x21
	cmp	x8,x22
	b.hi	58f
	and	x9,x24,#0xff
	hex_page	x10,.L100aar_static.3
	hex_address	x10,x10,.L100aar_static.3
	add	x10,x10,x9
	mov	x19,xzr
	ld1r	{ v0.16b },[x10]
	hex_page	x10,.L100aar_static.2
	hex_address	x10,x10,.L100aar_static.2
	ldr	q1,[x10,x9,lsl #4]
	add	x9,x23,x21
	b	41f
39:
	ldrb	w10,[x9]
	ldrb	w11,[x23,x21]
	cmp	w10,w11
	b.ne	59f
40:
	sub	x22,x22,x8
	add	x19,x19,#1
	add	x23,x23,x8
	cmp	x8,x22
	b.hi	59f
41:
	movi	v2.16b,#57
	add	x10,x23,x21
	movi	v5.16b,#143
	ldp	q3,q4,[x23]
	ldp	q6,q7,[x10,#-32]
	add	v16.16b,v4.16b,v2.16b
	add	v17.16b,v3.16b,v2.16b
	add	v18.16b,v7.16b,v2.16b
	add	v2.16b,v6.16b,v2.16b
	and	v19.16b,v16.16b,v5.16b
	and	v20.16b,v17.16b,v5.16b
	and	v21.16b,v2.16b,v5.16b
	and	v5.16b,v18.16b,v5.16b
	tbl	v19.16b,{ v1.16b },v19.16b
	tbl	v20.16b,{ v1.16b },v20.16b
	tbl	v21.16b,{ v1.16b },v21.16b
	tbl	v5.16b,{ v1.16b },v5.16b
	sub	v4.16b,v19.16b,v4.16b
	sub	v3.16b,v20.16b,v3.16b
	sub	v6.16b,v21.16b,v6.16b
	sub	v5.16b,v5.16b,v7.16b
	eor	v4.16b,v4.16b,v16.16b
	eor	v3.16b,v3.16b,v17.16b
	eor	v5.16b,v5.16b,v18.16b
	eor	v2.16b,v6.16b,v2.16b
	orr	v2.16b,v2.16b,v3.16b
	orr	v3.16b,v5.16b,v4.16b
	and	v3.16b,v3.16b,v0.16b
	and	v2.16b,v2.16b,v0.16b
	orr	v2.16b,v2.16b,v3.16b
	ext	v3.16b,v2.16b,v2.16b,#8
	orr	v2.8b,v2.8b,v3.8b
	fmov	x10,d2
	orr	x10,x10,x10,lsr #32
	lsr	x11,x10,#16
	orr	w10,w10,w11
	orr	w10,w10,w10,lsr #8
	tst	w10,#0xff
	b.ne	59f
	cbz	x20,40b
	cmp	x20,#1
	b.eq	39b
	ldrb	w10,[x9]
	ldrb	w11,[x23,x21]
	cmp	w10,w11
	b.ne	59f
	add	x10,x23,x21
	ldrb	w11,[x9,#1]
	ldrb	w10,[x10,#1]
	cmp	w11,w10
	b.eq	40b
	b	59f
46:
	cmp	x21,#96
	b.hi	56f
	add	x8,x20,x21
	cmp	x8,x22
	b.hi	58f
	and	x9,x24,#0xff
	hex_page	x10,.L100aar_static.3
	hex_address	x10,x10,.L100aar_static.3
	add	x10,x10,x9
	mov	x19,xzr
	ld1r	{ v0.16b },[x10]
	hex_page	x10,.L100aar_static.2
	hex_address	x10,x10,.L100aar_static.2
	ldr	q1,[x10,x9,lsl #4]
	add	x9,x23,x21
	b	51f
49:
	ldrb	w10,[x9]
	ldrb	w11,[x23,x21]
	cmp	w10,w11
	b.ne	59f
50:
	sub	x22,x22,x8
	add	x19,x19,#1
	add	x23,x23,x8
	cmp	x8,x22
	b.hi	59f
51:
	movi	v2.16b,#57
	ldp	q3,q4,[x23]
	ldp	q6,q7,[x23,#32]
	movi	v5.16b,#143
	add	x10,x23,x21
	ldp	q21,q20,[x10,#-32]
	add	v16.16b,v4.16b,v2.16b
	add	v17.16b,v3.16b,v2.16b
	add	v18.16b,v7.16b,v2.16b
	add	v19.16b,v6.16b,v2.16b
	add	v22.16b,v20.16b,v2.16b
	add	v2.16b,v21.16b,v2.16b
	and	v23.16b,v17.16b,v5.16b
	and	v24.16b,v16.16b,v5.16b
	and	v26.16b,v18.16b,v5.16b
	and	v25.16b,v19.16b,v5.16b
	and	v27.16b,v22.16b,v5.16b
	and	v5.16b,v2.16b,v5.16b
	tbl	v23.16b,{ v1.16b },v23.16b
	tbl	v24.16b,{ v1.16b },v24.16b
	tbl	v26.16b,{ v1.16b },v26.16b
	tbl	v25.16b,{ v1.16b },v25.16b
	tbl	v27.16b,{ v1.16b },v27.16b
	tbl	v5.16b,{ v1.16b },v5.16b
	sub	v4.16b,v24.16b,v4.16b
	sub	v3.16b,v23.16b,v3.16b
	sub	v7.16b,v26.16b,v7.16b
	sub	v6.16b,v25.16b,v6.16b
	sub	v20.16b,v27.16b,v20.16b
	sub	v5.16b,v5.16b,v21.16b
	eor	v3.16b,v3.16b,v17.16b
	eor	v4.16b,v4.16b,v16.16b
	eor	v7.16b,v7.16b,v18.16b
	eor	v6.16b,v6.16b,v19.16b
	eor	v16.16b,v20.16b,v22.16b
	eor	v2.16b,v5.16b,v2.16b
	orr	v4.16b,v7.16b,v4.16b
	orr	v3.16b,v6.16b,v3.16b
	orr	v2.16b,v3.16b,v2.16b
	orr	v3.16b,v4.16b,v16.16b
	and	v3.16b,v3.16b,v0.16b
	and	v2.16b,v2.16b,v0.16b
	orr	v2.16b,v2.16b,v3.16b
	ext	v3.16b,v2.16b,v2.16b,#8
	orr	v2.8b,v2.8b,v3.8b
	fmov	x10,d2
	orr	x10,x10,x10,lsr #32
	lsr	x11,x10,#16
	orr	w10,w10,w11
	orr	w10,w10,w10,lsr #8
	tst	w10,#0xff
	b.ne	59f
	cbz	x20,50b
	cmp	x20,#1
	b.eq	49b
	ldrb	w10,[x9]
	ldrb	w11,[x23,x21]
	cmp	w10,w11
	b.ne	59f
	add	x10,x23,x21
	ldrb	w11,[x9,#1]
	ldrb	w10,[x10,#1]
	cmp	w11,w10
	b.eq	50b
	b	59f
56:
	cmp	x21,#128
	b.hi	2b
	add	x8,x20,x21
	cmp	x8,x22
	b.ls	60f
58:
	mov	x19,xzr
59:
	mov	x0,x19
	ldp	x20,x19,[sp,#96]
	ldp	x22,x21,[sp,#80]
	ldr	x27,[sp,#40]
	ldp	x24,x23,[sp,#64]
	ldp	x26,x25,[sp,#48]
	ldp	x29,x30,[sp,#24]
	ldp	d9,d8,[sp,#8]
	ldr	d10,[sp],#112
	ret
60:
	and	x9,x24,#0xff
	hex_page	x10,.L100aar_static.3
	hex_address	x10,x10,.L100aar_static.3
	add	x10,x10,x9
	mov	x19,xzr
	ld1r	{ v0.16b },[x10]
	hex_page	x10,.L100aar_static.2
	hex_address	x10,x10,.L100aar_static.2
	ldr	q1,[x10,x9,lsl #4]
	add	x9,x23,x21
	b	63f
61:
	ldrb	w10,[x9]
	ldrb	w11,[x23,x21]
	cmp	w10,w11
	b.ne	59b
62:
	sub	x22,x22,x8
	add	x19,x19,#1
	add	x23,x23,x8
	cmp	x8,x22
	b.hi	59b
63:
	movi	v2.16b,#57
	add	x10,x23,x21
	movi	v3.16b,#143
	ldp	q4,q5,[x23]
	ldp	q6,q7,[x10,#-32]
	ldp	q16,q17,[x23,#32]
	ldp	q18,q19,[x10,#-64]
	add	v22.16b,v5.16b,v2.16b
	add	v20.16b,v7.16b,v2.16b
	add	v21.16b,v6.16b,v2.16b
	add	v23.16b,v4.16b,v2.16b
	add	v24.16b,v16.16b,v2.16b
	add	v25.16b,v17.16b,v2.16b
	add	v26.16b,v19.16b,v2.16b
	add	v2.16b,v18.16b,v2.16b
	and	v30.16b,v22.16b,v3.16b
	and	v27.16b,v21.16b,v3.16b
	and	v28.16b,v20.16b,v3.16b
	and	v29.16b,v23.16b,v3.16b
	and	v31.16b,v24.16b,v3.16b
	and	v8.16b,v25.16b,v3.16b
	and	v9.16b,v2.16b,v3.16b
	and	v3.16b,v26.16b,v3.16b
	tbl	v30.16b,{ v1.16b },v30.16b
	tbl	v27.16b,{ v1.16b },v27.16b
	tbl	v28.16b,{ v1.16b },v28.16b
	tbl	v29.16b,{ v1.16b },v29.16b
	tbl	v31.16b,{ v1.16b },v31.16b
	tbl	v8.16b,{ v1.16b },v8.16b
	tbl	v9.16b,{ v1.16b },v9.16b
	tbl	v3.16b,{ v1.16b },v3.16b
	sub	v5.16b,v30.16b,v5.16b
	sub	v6.16b,v27.16b,v6.16b
	sub	v7.16b,v28.16b,v7.16b
	sub	v4.16b,v29.16b,v4.16b
	sub	v16.16b,v31.16b,v16.16b
	sub	v17.16b,v8.16b,v17.16b
	sub	v18.16b,v9.16b,v18.16b
	sub	v3.16b,v3.16b,v19.16b
	eor	v5.16b,v5.16b,v22.16b
	eor	v7.16b,v7.16b,v20.16b
	eor	v6.16b,v6.16b,v21.16b
	eor	v4.16b,v4.16b,v23.16b
	eor	v16.16b,v16.16b,v24.16b
	eor	v17.16b,v17.16b,v25.16b
	eor	v3.16b,v3.16b,v26.16b
	eor	v2.16b,v18.16b,v2.16b
	orr	v4.16b,v4.16b,v6.16b
	orr	v5.16b,v5.16b,v7.16b
	orr	v2.16b,v16.16b,v2.16b
	orr	v3.16b,v17.16b,v3.16b
	orr	v2.16b,v4.16b,v2.16b
	orr	v3.16b,v5.16b,v3.16b
	and	v3.16b,v3.16b,v0.16b
	and	v2.16b,v2.16b,v0.16b
	orr	v2.16b,v2.16b,v3.16b
	ext	v3.16b,v2.16b,v2.16b,#8
	orr	v2.8b,v2.8b,v3.8b
	fmov	x10,d2
	orr	x10,x10,x10,lsr #32
	lsr	x11,x10,#16
	orr	w10,w10,w11
	orr	w10,w10,w10,lsr #8
	tst	w10,#0xff
	b.ne	59b
	cbz	x20,62b
	cmp	x20,#1
	b.eq	61b
	ldrb	w10,[x9]
	ldrb	w11,[x23,x21]
	cmp	w10,w11
	b.ne	59b
	add	x10,x23,x21
	ldrb	w11,[x9,#1]
	ldrb	w10,[x10,#1]
	cmp	w11,w10
	b.eq	62b
	b	59b
	hex_end	faster_hex_1_0_0_aarch64_codec_spaced_line_count
	hex_function	faster_hex_1_0_0_aarch64_codec_spaced_survey,.text
	stp	x29,x30,[sp,#-96]!
	ldp	x8,x9,[x2]
	mov	x29,sp
	ldr	x10,[x2,#16]
	stp	x24,x23,[sp,#48]
	mov	w23,#1
	stp	x20,x19,[sp,#80]
	add	x9,x9,x8
	mul	x19,x10,x8
	stp	x28,x27,[sp,#16]
	stp	x26,x25,[sp,#32]
	mul	x24,x10,x9
	stp	x22,x21,[sp,#64]
	b	2f
1:
	add	x24,x24,#1
2:
	cmp	x24,x1
	b.hs	15f
3:
	ldrb	w8,[x0,x24]
	mov	w9,#1
	mov	x10,#13824
	movk	x10,#1,lsl #32
	lsl	x9,x9,x8
	cmp	w8,#32
	and	x8,x9,x10
	ccmp	x8,#0,#4,ls
	b.ne	1b
	sub	x28,x1,x24
	mov	x26,x0
	add	x0,x0,x24
	mov	x25,x1
	sub	x1,x1,x24
	mov	w20,w3
	bl	faster_hex_1_0_0_aarch64_codec_spaced_run_len
	and	x27,x0,#0xfffffffffffffffe
	mov	x21,x0
	cmp	x28,x27
	b.ls	9f
	add	x9,x26,x27
	mov	x8,x26
	mov	x22,xzr
	ldrb	w9,[x9,x24]
	cmp	w9,#32
	b.hi	13f
	mov	w10,#1
	lsl	x9,x10,x9
	mov	x10,#13824
	movk	x10,#1,lsl #32
	tst	x9,x10
	mov	x9,x25
	b.eq	11f
	orr	x10,x21,#0x1
	cmp	x28,x10
	b.ls	10f
	add	x10,x8,x10
	ldrb	w10,[x10,x24]
	sub	w11,w10,#9
	cmp	w11,#2
	mov	w11,#32
	ccmp	w10,w11,#4,hs
	and	w10,w10,#0xfe
	ccmp	w10,#12,#4,ne
	mov	w10,#1
	cinc	x22,x10,eq
	b	11f
9:
	mov	x22,xzr
	mov	x9,x25
	mov	x8,x26
	b	11f
10:
	mov	w22,#1
11:
	add	x0,x8,x24
	sub	x1,x9,x24
	and	x2,x21,#0xfffffffffffffffe
	mov	x3,x22
	mov	w4,w20
	bl	faster_hex_1_0_0_aarch64_codec_spaced_line_count
	cbz	x0,14f
	add	x8,x22,x27
	madd	x19,x0,x27,x19
	mov	x1,x25
	mov	w3,w20
	madd	x24,x0,x8,x24
	mov	x0,x26
	cmp	x24,x25
	b.lo	3b
	b	15f
13:
	mov	x9,x25
	b	11b
14:
	add	x0,x26,x24
	mov	x1,x21
	mov	w2,w20
	add	x22,x21,x24
	bl	faster_hex_1_0_0_aarch64_codec_spaced_survey_bytes
	mov	x8,x0
	mov	w9,w1
	mov	w3,w20
	mov	x0,x26
	mov	x1,x25
	cmp	x22,x25
	add	x19,x8,x19
	and	w23,w23,w9
	mov	x24,x22
	b.lo	3b
15:
	and	w1,w23,#0x1
	mov	x0,x19
	ldp	x20,x19,[sp,#80]
	ldp	x22,x21,[sp,#64]
	ldp	x24,x23,[sp,#48]
	ldp	x26,x25,[sp,#32]
	ldp	x28,x27,[sp,#16]
	ldp	x29,x30,[sp],#96
	ret
	hex_end	faster_hex_1_0_0_aarch64_codec_spaced_survey
	hex_function	faster_hex_1_0_0_aarch64_codec_spaced_survey_bytes,.text
	cbz	x1,28f
	mov	x8,x0
	mov	x0,xzr
	mov	x11,x1
	mov	x9,x8
2:
	mov	w10,#1
	add	x9,x9,#1
	sub	x10,x10,x11
3:
	ldurb	w11,[x9,#-1]
	mov	w12,#1
	mov	x13,#13824
	movk	x13,#1,lsl #32
	lsl	x12,x12,x11
	cmp	w11,#32
	and	x11,x12,x13
	ccmp	x11,#0,#4,ls
	b.eq	5f
	add	x10,x10,#1
	add	x9,x9,#1
	cmp	x10,#1
	b.ne	3b
	b	6f
5:
	add	x0,x0,#1
	neg	x11,x10
	cbnz	x10,2b
6:
	and	w9,w2,#0xff
	cmp	w9,#2
	b.eq	23f
	cmp	w9,#1
	b.eq	17f
	b	9f
8:
	sub	x1,x1,#1
	cbz	x1,29f
9:
	ldrb	w9,[x8],#1
	mov	w10,#1
	mov	x11,#13824
	lsl	x10,x10,x9
	movk	x11,#1,lsl #32
	cmp	w9,#32
	and	x10,x10,x11
	ccmp	x10,#0,#4,ls
	b.ne	8b
	cmp	w9,#48
	b.lo	15f
	cmp	w9,#58
	b.lo	8b
	cmp	w9,#65
	b.lo	15f
	cmp	w9,#71
	b.lo	8b
	sub	w9,w9,#97
	cmp	w9,#5
	b.ls	8b
15:
	mov	w1,wzr
	ret
16:
	sub	x1,x1,#1
	cbz	x1,29f
17:
	ldrb	w9,[x8],#1
	mov	w10,#1
	mov	x11,#13824
	lsl	x10,x10,x9
	movk	x11,#1,lsl #32
	cmp	w9,#32
	and	x10,x10,x11
	ccmp	x10,#0,#4,ls
	b.ne	16b
	cmp	w9,#48
	b.lo	15b
	cmp	w9,#58
	b.lo	16b
	sub	w9,w9,#97
	cmp	w9,#5
	b.ls	16b
	mov	w1,wzr
	ret
22:
	sub	x1,x1,#1
	cbz	x1,29f
23:
	ldrb	w9,[x8],#1
	mov	w10,#1
	mov	x11,#13824
	lsl	x10,x10,x9
	movk	x11,#1,lsl #32
	cmp	w9,#32
	and	x10,x10,x11
	ccmp	x10,#0,#4,ls
	b.ne	22b
	cmp	w9,#48
	b.lo	15b
	cmp	w9,#58
	b.lo	22b
	sub	w9,w9,#65
	cmp	w9,#5
	b.ls	22b
	mov	w1,wzr
	ret
28:
	mov	x0,xzr
29:
	mov	w1,#1
	ret
	hex_end	faster_hex_1_0_0_aarch64_codec_spaced_survey_bytes
	hex_function	faster_hex_1_0_0_aarch64_codec_spaced_invalid_error,.text.unlikely
	cbz	x2,24f
	and	w8,w3,#0xff
	cmp	w8,#2
	b.eq	9f
	cmp	w8,#1
	b.ne	15f
	mov	x8,xzr
	b	5f
4:
	add	x8,x8,#1
	cmp	x2,x8
	b.eq	24f
5:
	ldrb	w9,[x1,x8]
	mov	w10,#1
	mov	x11,#13824
	movk	x11,#1,lsl #32
	lsl	x10,x10,x9
	cmp	w9,#32
	and	x10,x10,x11
	ccmp	x10,#0,#4,ls
	b.ne	4b
	cmp	w9,#48
	b.lo	23f
	cmp	w9,#58
	b.lo	4b
	sub	w9,w9,#97
	cmp	w9,#5
	b.ls	4b
	b	23f
9:
	mov	x8,xzr
	b	11f
10:
	add	x8,x8,#1
	cmp	x2,x8
	b.eq	24f
11:
	ldrb	w9,[x1,x8]
	mov	w10,#1
	mov	x11,#13824
	movk	x11,#1,lsl #32
	lsl	x10,x10,x9
	cmp	w9,#32
	and	x10,x10,x11
	ccmp	x10,#0,#4,ls
	b.ne	10b
	cmp	w9,#48
	b.lo	23f
	cmp	w9,#58
	b.lo	10b
	sub	w9,w9,#65
	cmp	w9,#5
	b.ls	10b
	b	23f
15:
	mov	x8,xzr
	b	17f
16:
	add	x8,x8,#1
	cmp	x2,x8
	b.eq	24f
17:
	ldrb	w9,[x1,x8]
	mov	w10,#1
	mov	x11,#13824
	movk	x11,#1,lsl #32
	lsl	x10,x10,x9
	cmp	w9,#32
	and	x10,x10,x11
	ccmp	x10,#0,#4,ls
	b.ne	16b
	cmp	w9,#48
	b.lo	23f
	cmp	w9,#58
	b.lo	16b
	cmp	w9,#65
	b.lo	23f
	cmp	w9,#71
	b.lo	16b
	sub	w9,w9,#97
	cmp	w9,#5
	b.ls	16b
23:
	ldrb	w9,[x1,x8]
	stp	xzr,x8,[x0]
	stur	wzr,[x0,#17]
	strb	w9,[x0,#16]
	str	wzr,[x0,#20]
	ret
24:
	brk	#0x1
	hex_end	faster_hex_1_0_0_aarch64_codec_spaced_invalid_error
	hex_function	faster_hex_1_0_0_aarch64_codec_spaced_decode_runs,.text
	sub	sp,sp,#160
	stp	x20,x19,[sp,#144]
	mov	x20,x2
	ldr	q0,[x4]
	ldr	x8,[x4,#16]
	stp	x22,x21,[sp,#128]
	mov	x21,x1
	add	x2,sp,#32
	mov	x1,x20
	stp	x29,x30,[sp,#64]
	stp	x28,x27,[sp,#80]
	add	x29,sp,#64
	mov	x22,x0
	stp	x26,x25,[sp,#96]
	stp	x24,x23,[sp,#112]
	mov	w23,w5
	str	q0,[sp,#32]
	str	x8,[sp,#48]
	bl	faster_hex_1_0_0_aarch64_codec_spaced_decode_lines
	ldp	x8,x10,[sp,#32]
	ldr	x9,[sp,#48]
	add	x10,x10,x8
	mul	x27,x9,x10
	cmp	x27,x21
	b.hs	36f
	lsr	x8,x8,#1
	mul	x26,x9,x8
2:
	add	x28,x27,#1
3:
	ldrb	w19,[x22,x27]
	mov	w8,#1
	mov	x9,#13824
	movk	x9,#1,lsl #32
	lsl	x8,x8,x19
	cmp	w19,#32
	and	x8,x8,x9
	ccmp	x8,#0,#4,ls
	b.eq	5f
	add	x27,x27,#1
	add	x28,x28,#1
	cmp	x27,x21
	b.lo	3b
	b	36f
5:
	add	x0,x22,x27
	sub	x1,x21,x27
	str	w23,[sp,#4]
	sub	x25,x21,x27
	bl	faster_hex_1_0_0_aarch64_codec_spaced_run_len
	and	x8,x0,#0xfffffffffffffffe
	mov	x23,x0
	cmp	x25,x8
	b.ls	10f
	add	x8,x22,x8
	mov	x24,xzr
	ldrb	w8,[x8,x27]
	cmp	w8,#32
	b.hi	12f
	mov	w9,#1
	lsl	x8,x9,x8
	mov	x9,#13824
	movk	x9,#1,lsl #32
	tst	x8,x9
	b.eq	12f
	orr	x8,x23,#0x1
	cmp	x25,x8
	b.ls	11f
	add	x8,x22,x8
	ldrb	w8,[x8,x27]
	sub	w9,w8,#9
	cmp	w9,#2
	mov	w9,#32
	ccmp	w8,w9,#4,hs
	and	w8,w8,#0xfe
	ccmp	w8,#12,#4,ne
	mov	w8,#1
	cinc	x24,x8,eq
	b	12f
10:
	mov	x24,xzr
	b	12f
11:
	mov	w24,#1
12:
	ldr	w4,[sp,#4]
	add	x0,x22,x27
	sub	x1,x21,x27
	and	x2,x23,#0xfffffffffffffffe
	mov	x3,x24
	bl	faster_hex_1_0_0_aarch64_codec_spaced_line_count
	and	x8,x23,#0xfffffffffffffffe
	str	x0,[sp,#24]
	stp	x8,x24,[sp,#8]
	cbz	x0,14f
	mov	x25,x0
	add	x0,x22,x27
	add	x1,x20,x26
	add	x2,sp,#8
	and	x19,x23,#0xfffffffffffffffe
	bl	faster_hex_1_0_0_aarch64_codec_spaced_decode_lines
	lsr	x9,x23,#1
	add	x8,x24,x19
	ldr	w23,[sp,#4]
	madd	x27,x25,x8,x27
	mul	x8,x25,x9
	cmp	x27,x21
	add	x26,x8,x26
	b.lo	2b
	b	36f
14:
	sub	x8,x21,#1
	ldr	w23,[sp,#4]
	cmp	x8,x27
	b.eq	37f
15:
	ldrb	w8,[x22,x28]
	mov	w9,#1
	mov	x10,#13824
	movk	x10,#1,lsl #32
	lsl	x9,x9,x8
	cmp	w8,#32
	and	x8,x9,x10
	ccmp	x8,#0,#4,ls
	b.eq	17f
	add	x28,x28,#1
	cmp	x21,x28
	b.ne	15b
	b	37f
17:
	subs	w9,w19,#48
	b.lo	37f
	ldrb	w8,[x22,x28]
	cmp	w19,#57
	b.ls	26f
	cmp	w19,#65
	b.lo	37f
	and	w9,w23,#0xff
	cmp	w19,#71
	b.hs	23f
	cmp	w9,#1
	b.eq	37f
	sub	w9,w19,#55
	b	26f
23:
	cmp	w9,#2
	b.eq	37f
	sub	w9,w19,#103
	and	w9,w9,#0xff
	cmp	w9,#250
	b.lo	37f
	sub	w9,w19,#87
26:
	subs	w10,w8,#48
	b.lo	37f
	cmp	w8,#57
	b.ls	35f
	cmp	w8,#65
	b.lo	37f
	and	w10,w23,#0xff
	cmp	w8,#71
	b.hs	32f
	cmp	w10,#1
	b.eq	37f
	sub	w10,w8,#55
	b	35f
32:
	cmp	w10,#2
	b.eq	37f
	sub	w10,w8,#103
	and	w10,w10,#0xff
	cmp	w10,#250
	b.lo	37f
	sub	w10,w8,#87
35:
	add	w8,w10,w9,lsl #4
	add	x27,x28,#1
	strb	w8,[x20,x26]
	mov	w8,#1
	cmp	x27,x21
	add	x26,x8,x26
	b.lo	2b
36:
	ldp	x20,x19,[sp,#144]
	ldp	x22,x21,[sp,#128]
	ldp	x24,x23,[sp,#112]
	ldp	x26,x25,[sp,#96]
	ldp	x28,x27,[sp,#80]
	ldp	x29,x30,[sp,#64]
	add	sp,sp,#160
	ret
37:
	brk	#0x1
	hex_end	faster_hex_1_0_0_aarch64_codec_spaced_decode_runs
	hex_function	faster_hex_1_0_0_aarch64_codec_spaced_decode_lines,.text
	sub	sp,sp,#16
	ldp	x17,x13,[x2]
	ldr	x8,[x2,#16]
	subs	x9,x17,#32
	b.hs	6f
1:
	cbz	x8,31f
	subs	x11,x17,#2
	b.lo	31f
	lsr	x9,x17,#1
	cmp	x17,#3
	add	x10,x13,x17
	b.hi	22f
	sub	x12,x9,#1
5:
	ldr	h0,[x0]
	add	x13,x0,x11
	movi	v1.4h,#79
	movi	v2.4h,#201
	subs	x8,x8,#1
	add	x0,x0,x10
	ld1	{ v0.h }[1],[x13]
	mov	w13,#4097
	zip1	v0.8b,v0.8b,v0.8b
	and	v0.8b,v0.8b,v1.8b
	add	v1.4h,v0.4h,v2.4h
	bic	v1.4h,#1,lsl #8
	umin	v0.4h,v0.4h,v1.4h
	dup	v1.2s,w13
	uzp1	v0.8b,v0.8b,v0.8b
	zip1	v0.4h,v0.4h,v0.4h
	mul	v0.2s,v0.2s,v1.2s
	movi	d1,#0x00ffff0000ffff
	and	v0.8b,v0.8b,v1.8b
	ushr	v0.2s,v0.2s,#8
	mov	s1,v0.s[1]
	str	b0,[x1]
	str	b1,[x1,x12]
	add	x1,x1,x9
	b.ne	5b
	b	31f
6:
	cmp	x17,#64
	b.hi	10f
	cbz	x8,31f
	lsr	x10,x17,#1
	add	x11,x13,x17
	sub	x12,x10,#16
9:
	movi	v0.16b,#79
	ldp	q2,q1,[x0]
	add	x13,x0,x9
	movi	v3.16b,#201
	subs	x8,x8,#1
	ldp	q5,q4,[x13]
	mov	w13,#4097
	add	x0,x0,x11
	and	v2.16b,v2.16b,v0.16b
	and	v1.16b,v1.16b,v0.16b
	and	v5.16b,v5.16b,v0.16b
	and	v0.16b,v4.16b,v0.16b
	add	v4.16b,v1.16b,v3.16b
	add	v6.16b,v2.16b,v3.16b
	add	v7.16b,v0.16b,v3.16b
	add	v3.16b,v5.16b,v3.16b
	umin	v2.16b,v2.16b,v6.16b
	dup	v6.8h,w13
	umin	v1.16b,v1.16b,v4.16b
	umin	v3.16b,v5.16b,v3.16b
	umin	v0.16b,v0.16b,v7.16b
	mul	v1.8h,v1.8h,v6.8h
	mul	v2.8h,v2.8h,v6.8h
	mul	v0.8h,v0.8h,v6.8h
	mul	v3.8h,v3.8h,v6.8h
	uzp2	v1.16b,v2.16b,v1.16b
	uzp2	v0.16b,v3.16b,v0.16b
	str	q1,[x1]
	str	q0,[x1,x12]
	add	x1,x1,x10
	b.ne	9b
	b	31f
10:
	cmp	x17,#96
	b.hi	14f
	cbz	x8,31f
	lsr	x9,x17,#1
	add	x12,x13,x17
	sub	x10,x9,#16
	lsl	x11,x10,#1
13:
	movi	v0.16b,#79
	ldp	q2,q1,[x0,#32]
	ldp	q4,q3,[x0]
	movi	v5.16b,#201
	mov	w13,#4097
	subs	x8,x8,#1
	and	v2.16b,v2.16b,v0.16b
	and	v1.16b,v1.16b,v0.16b
	and	v4.16b,v4.16b,v0.16b
	and	v3.16b,v3.16b,v0.16b
	add	v6.16b,v1.16b,v5.16b
	add	v7.16b,v2.16b,v5.16b
	add	v17.16b,v4.16b,v5.16b
	add	v16.16b,v3.16b,v5.16b
	umin	v2.16b,v2.16b,v7.16b
	dup	v7.8h,w13
	umin	v1.16b,v1.16b,v6.16b
	umin	v4.16b,v4.16b,v17.16b
	umin	v3.16b,v3.16b,v16.16b
	add	x13,x0,x11
	add	x0,x0,x12
	mul	v1.8h,v1.8h,v7.8h
	mul	v2.8h,v2.8h,v7.8h
	mul	v3.8h,v3.8h,v7.8h
	mul	v4.8h,v4.8h,v7.8h
	uzp2	v1.16b,v2.16b,v1.16b
	uzp2	v2.16b,v4.16b,v3.16b
	stp	q2,q1,[x1]
	ldp	q2,q1,[x13]
	and	v2.16b,v2.16b,v0.16b
	and	v0.16b,v1.16b,v0.16b
	add	v1.16b,v0.16b,v5.16b
	add	v3.16b,v2.16b,v5.16b
	umin	v2.16b,v2.16b,v3.16b
	umin	v0.16b,v0.16b,v1.16b
	mul	v0.8h,v0.8h,v7.8h
	mul	v1.8h,v2.8h,v7.8h
	uzp2	v0.16b,v1.16b,v0.16b
	str	q0,[x1,x10]
	add	x1,x1,x9
	b.ne	13b
	b	31f
14:
	cmp	x17,#128
	b.hi	1b
	cbz	x8,31f
	lsr	x9,x17,#1
	and	x12,x17,#0x3e
	add	x13,x13,x17
	and	x14,x17,#0xc0
	sub	x10,x9,#32
	lsl	x11,x10,#1
	b	18f
17:
	subs	x8,x8,#1
	add	x1,x1,x9
	add	x0,x0,x13
	b.eq	31f
18:
	movi	v0.16b,#79
	ldp	q3,q2,[x0,#32]
	ldp	q5,q4,[x0]
	movi	v1.16b,#201
	mov	w15,#4097
	cmp	x14,#64
	and	v3.16b,v3.16b,v0.16b
	and	v6.16b,v2.16b,v0.16b
	and	v5.16b,v5.16b,v0.16b
	and	v4.16b,v4.16b,v0.16b
	add	v7.16b,v6.16b,v1.16b
	add	v2.16b,v3.16b,v1.16b
	add	v17.16b,v5.16b,v1.16b
	add	v16.16b,v4.16b,v1.16b
	umin	v3.16b,v3.16b,v2.16b
	dup	v2.8h,w15
	umin	v6.16b,v6.16b,v7.16b
	umin	v5.16b,v5.16b,v17.16b
	umin	v4.16b,v4.16b,v16.16b
	mul	v6.8h,v6.8h,v2.8h
	mul	v3.8h,v3.8h,v2.8h
	mul	v4.8h,v4.8h,v2.8h
	mul	v5.8h,v5.8h,v2.8h
	uzp2	v3.16b,v3.16b,v6.16b
	uzp2	v4.16b,v5.16b,v4.16b
	stp	q4,q3,[x1]
	b.eq	20f
	ldp	q4,q3,[x0,#96]
	ldp	q6,q5,[x0,#64]
	and	v4.16b,v4.16b,v0.16b
	and	v3.16b,v3.16b,v0.16b
	and	v6.16b,v6.16b,v0.16b
	and	v0.16b,v5.16b,v0.16b
	add	v5.16b,v3.16b,v1.16b
	add	v7.16b,v4.16b,v1.16b
	add	v16.16b,v0.16b,v1.16b
	add	v1.16b,v6.16b,v1.16b
	umin	v4.16b,v4.16b,v7.16b
	umin	v3.16b,v3.16b,v5.16b
	umin	v1.16b,v6.16b,v1.16b
	umin	v0.16b,v0.16b,v16.16b
	mul	v3.8h,v3.8h,v2.8h
	mul	v4.8h,v4.8h,v2.8h
	mul	v0.8h,v0.8h,v2.8h
	mul	v1.8h,v1.8h,v2.8h
	uzp2	v2.16b,v4.16b,v3.16b
	uzp2	v0.16b,v1.16b,v0.16b
	stp	q0,q2,[x1,#32]
20:
	cbz	x12,17b
	movi	v0.16b,#79
	add	x15,x0,x11
	movi	v3.16b,#201
	ldp	q2,q1,[x15,#32]
	ldp	q5,q4,[x15]
	mov	w15,#4097
	and	v2.16b,v2.16b,v0.16b
	and	v1.16b,v1.16b,v0.16b
	and	v5.16b,v5.16b,v0.16b
	and	v0.16b,v4.16b,v0.16b
	add	v4.16b,v1.16b,v3.16b
	add	v6.16b,v2.16b,v3.16b
	add	v7.16b,v0.16b,v3.16b
	add	v3.16b,v5.16b,v3.16b
	umin	v2.16b,v2.16b,v6.16b
	dup	v6.8h,w15
	umin	v1.16b,v1.16b,v4.16b
	umin	v3.16b,v5.16b,v3.16b
	umin	v0.16b,v0.16b,v7.16b
	add	x15,x1,x10
	mul	v1.8h,v1.8h,v6.8h
	mul	v2.8h,v2.8h,v6.8h
	mul	v0.8h,v0.8h,v6.8h
	mul	v3.8h,v3.8h,v6.8h
	uzp2	v1.16b,v2.16b,v1.16b
	uzp2	v0.16b,v3.16b,v0.16b
	stp	q0,q1,[x15]
	b	17b
22:
	cmp	x17,#7
	b.hi	25f
	sub	x11,x9,#2
	sub	x12,x17,#4
24:
	ldr	s0,[x0]
	add	x13,x0,x12
	movi	v1.8b,#79
	movi	v2.8b,#201
	subs	x8,x8,#1
	add	x0,x0,x10
	ld1	{ v0.s }[1],[x13]
	mov	w13,#4097
	and	v0.8b,v0.8b,v1.8b
	add	v1.8b,v0.8b,v2.8b
	dup	v2.4h,w13
	add	x13,x1,x11
	umin	v0.8b,v0.8b,v1.8b
	mul	v0.4h,v0.4h,v2.4h
	ushr	v0.4h,v0.4h,#8
	ushll	v0.4s,v0.4h,#0
	ext	v1.16b,v0.16b,v0.16b,#8
	mov	s2,v0.s[1]
	str	b0,[x1]
	mov	s3,v1.s[1]
	stur	b2,[x1,#1]
	add	x1,x1,x9
	str	b1,[x13]
	stur	b3,[x13,#1]
	b.ne	24b
	b	31f
25:
	cmp	x17,#15
	b.hi	28f
	sub	x11,x9,#4
	sub	x12,x17,#8
27:
	ldr	d0,[x0]
	ldr	d1,[x0,x12]
	movi	v2.16b,#201
	mov	w13,#4097
	subs	x8,x8,#1
	add	x0,x0,x10
	mov	v0.d[1],v1.d[0]
	movi	v1.16b,#79
	and	v0.16b,v0.16b,v1.16b
	add	v1.16b,v0.16b,v2.16b
	umin	v0.16b,v0.16b,v1.16b
	dup	v1.8h,w13
	mul	v0.8h,v0.8h,v1.8h
	ushr	v1.8h,v0.8h,#8
	shrn	v0.8b,v0.8h,#8
	dup	v1.2d,v1.d[1]
	str	s0,[x1]
	xtn	v1.8b,v1.8h
	str	s1,[x1,x11]
	add	x1,x1,x9
	b.ne	27b
	b	31f
28:
	cmp	x17,#32
	b.hs	32f
	sub	x11,x9,#8
	sub	x12,x17,#16
30:
	movi	v0.16b,#79
	ldr	q1,[x0]
	movi	v2.16b,#201
	ldr	q3,[x0,x12]
	mov	w13,#4097
	subs	x8,x8,#1
	add	x0,x0,x10
	and	v1.16b,v1.16b,v0.16b
	and	v0.16b,v3.16b,v0.16b
	add	v3.16b,v1.16b,v2.16b
	add	v2.16b,v0.16b,v2.16b
	umin	v1.16b,v1.16b,v3.16b
	dup	v3.8h,w13
	umin	v0.16b,v0.16b,v2.16b
	mul	v1.8h,v1.8h,v3.8h
	mul	v0.8h,v0.8h,v3.8h
	shrn	v1.8b,v1.8h,#8
	shrn	v0.8b,v0.8h,#8
	str	d1,[x1]
	str	d0,[x1,x11]
	add	x1,x1,x9
	b.ne	30b
31:
	add	sp,sp,#16
	ret
32:
	sub	x14,x9,#32
	lsr	x15,x17,#6
	mov	x11,xzr
	lsl	x16,x14,#1
	mov	x12,xzr
	mov	x13,xzr
	and	x17,x17,#0x3e
	mov	x18,x0
	mov	x2,x1
	b	34f
33:
	add	x11,x11,#1
	add	x12,x12,x9
	add	x13,x10,x13
	cmp	x11,x8
	add	x2,x2,x9
	add	x18,x18,x10
	b.eq	31b
34:
	cbz	x15,37f
	mov	x3,x18
	mov	x4,x15
	mov	x5,x2
36:
	movi	v0.16b,#79
	ldp	q2,q1,[x3,#32]
	ldp	q4,q3,[x3],#64
	movi	v5.16b,#201
	mov	w6,#4097
	subs	x4,x4,#1
	and	v2.16b,v2.16b,v0.16b
	and	v1.16b,v1.16b,v0.16b
	and	v4.16b,v4.16b,v0.16b
	and	v0.16b,v3.16b,v0.16b
	add	v3.16b,v1.16b,v5.16b
	add	v6.16b,v2.16b,v5.16b
	add	v7.16b,v0.16b,v5.16b
	add	v5.16b,v4.16b,v5.16b
	umin	v2.16b,v2.16b,v6.16b
	dup	v6.8h,w6
	umin	v1.16b,v1.16b,v3.16b
	umin	v3.16b,v4.16b,v5.16b
	umin	v0.16b,v0.16b,v7.16b
	mul	v1.8h,v1.8h,v6.8h
	mul	v2.8h,v2.8h,v6.8h
	mul	v0.8h,v0.8h,v6.8h
	mul	v3.8h,v3.8h,v6.8h
	uzp2	v1.16b,v2.16b,v1.16b
	uzp2	v0.16b,v3.16b,v0.16b
	stp	q0,q1,[x5],#32
	b.ne	36b
37:
	cbz	x17,33b
	add	x3,x0,x13
	movi	v0.16b,#79
	movi	v3.16b,#201
	add	x3,x3,x16
	ldp	q2,q1,[x3,#32]
	ldp	q5,q4,[x3]
	mov	w3,#4097
	and	v2.16b,v2.16b,v0.16b
	and	v1.16b,v1.16b,v0.16b
	and	v5.16b,v5.16b,v0.16b
	and	v0.16b,v4.16b,v0.16b
	add	v4.16b,v1.16b,v3.16b
	add	v6.16b,v2.16b,v3.16b
	add	v7.16b,v0.16b,v3.16b
	add	v3.16b,v5.16b,v3.16b
	umin	v2.16b,v2.16b,v6.16b
	dup	v6.8h,w3
	umin	v1.16b,v1.16b,v4.16b
	umin	v3.16b,v5.16b,v3.16b
	umin	v0.16b,v0.16b,v7.16b
	add	x3,x1,x12
	add	x3,x3,x14
	mul	v1.8h,v1.8h,v6.8h
	mul	v2.8h,v2.8h,v6.8h
	mul	v0.8h,v0.8h,v6.8h
	mul	v3.8h,v3.8h,v6.8h
	uzp2	v1.16b,v2.16b,v1.16b
	uzp2	v0.16b,v3.16b,v0.16b
	stp	q0,q1,[x3]
	b	33b
	hex_end	faster_hex_1_0_0_aarch64_codec_spaced_decode_lines
	hex_merged	16
	.p2align	4,0x0
.L100aar_CPI12_0:
	.byte	167,168,169,0,0,0,0,0,0,144,161,162,163,164,165,166
	hex_export	faster_hex_1_0_0_aarch64_check
	hint	#34
	sub	sp,sp,#160
	cmp	x1,#32
	stp	d15,d14,[sp,#80]
	stp	d13,d12,[sp,#96]
	stp	d11,d10,[sp,#112]
	stp	d9,d8,[sp,#128]
	stp	x29,x30,[sp,#144]
	add	x29,sp,#144
	b.hi	5f
	cmp	x1,#15
	b.hi	8f
	cbz	x1,19f
	cmp	x1,#1
	b.ne	21f
	ldrb	w8,[x0]
	sub	w9,w8,#48
	orr	w8,w8,#0x20
	and	w9,w9,#0xff
	sub	w8,w8,#97
	subs	w9,w9,#9
	and	w8,w8,#0xff
	csel	w9,wzr,w9,lo
	subs	w8,w8,#5
	csel	w8,wzr,w8,lo
	cmp	w9,w8
	csel	w8,w9,w8,lo
	b	23f
5:
	cmp	x1,#256
	b.hi	14f
	cmp	x1,#64
	b.hi	15f
	movi	v0.16b,#57
	add	x8,x0,x1
	movi	v3.16b,#143
	ldp	q1,q2,[x0]
	ldp	q4,q5,[x8,#-32]
	hex_page	x8,.L100aar_CPI12_0
	hex_value	q17,x8,.L100aar_CPI12_0
	add	v6.16b,v1.16b,v0.16b
	add	v7.16b,v2.16b,v0.16b
	add	v16.16b,v5.16b,v0.16b
	add	v0.16b,v4.16b,v0.16b
	and	v18.16b,v6.16b,v3.16b
	and	v19.16b,v7.16b,v3.16b
	and	v20.16b,v0.16b,v3.16b
	and	v3.16b,v16.16b,v3.16b
	tbl	v18.16b,{ v17.16b },v18.16b
	tbl	v19.16b,{ v17.16b },v19.16b
	tbl	v20.16b,{ v17.16b },v20.16b
	tbl	v3.16b,{ v17.16b },v3.16b
	sub	v1.16b,v18.16b,v1.16b
	sub	v2.16b,v19.16b,v2.16b
	sub	v3.16b,v3.16b,v5.16b
	sub	v4.16b,v20.16b,v4.16b
	eor	v1.16b,v1.16b,v6.16b
	eor	v2.16b,v2.16b,v7.16b
	eor	v0.16b,v4.16b,v0.16b
	eor	v3.16b,v3.16b,v16.16b
	orr	v2.16b,v3.16b,v2.16b
	orr	v0.16b,v0.16b,v1.16b
	movi	v1.16b,#160
	orr	v0.16b,v0.16b,v2.16b
	and	v0.16b,v0.16b,v1.16b
	b	10f
8:
	movi	v0.16b,#57
	add	x8,x0,x1
	ldr	q1,[x0]
	ldur	q2,[x8,#-16]
	movi	v3.16b,#143
	hex_page	x8,.L100aar_CPI12_0
	hex_value	q6,x8,.L100aar_CPI12_0
	add	v4.16b,v1.16b,v0.16b
	add	v0.16b,v2.16b,v0.16b
	and	v5.16b,v4.16b,v3.16b
	and	v3.16b,v0.16b,v3.16b
	tbl	v5.16b,{ v6.16b },v5.16b
	tbl	v3.16b,{ v6.16b },v3.16b
	sub	v1.16b,v5.16b,v1.16b
	sub	v2.16b,v3.16b,v2.16b
	eor	v1.16b,v1.16b,v4.16b
	eor	v0.16b,v2.16b,v0.16b
9:
	movi	v2.16b,#160
	orr	v0.16b,v0.16b,v1.16b
	and	v0.16b,v0.16b,v2.16b
10:
	ext	v1.16b,v0.16b,v0.16b,#8
	orr	v0.8b,v0.8b,v1.8b
11:
	fmov	x8,d0
	orr	x8,x8,x8,lsr #32
	lsr	x9,x8,#16
	orr	w8,w8,w9
	orr	w8,w8,w8,lsr #8
12:
	tst	w8,#0xff
13:
	cset	w0,eq
	b	20f
14:
	mov	w2,wzr
	bl	faster_hex_1_0_0_aarch64_core_plain_check_long_outlined
	b	20f
15:
	cmp	x1,#128
	b.hi	24f
	movi	v0.16b,#57
	ldp	q3,q4,[x0]
	ldp	q5,q6,[x0,#32]
	movi	v1.16b,#143
	add	x8,x0,x1
	hex_page	x9,.L100aar_CPI12_0
	cmp	x1,#97
	ldp	q20,q19,[x8,#-32]
	hex_value	q2,x9,.L100aar_CPI12_0
	add	v16.16b,v3.16b,v0.16b
	add	v7.16b,v4.16b,v0.16b
	add	v17.16b,v6.16b,v0.16b
	add	v18.16b,v5.16b,v0.16b
	add	v21.16b,v19.16b,v0.16b
	add	v24.16b,v20.16b,v0.16b
	and	v22.16b,v16.16b,v1.16b
	and	v23.16b,v7.16b,v1.16b
	and	v26.16b,v17.16b,v1.16b
	and	v25.16b,v18.16b,v1.16b
	and	v27.16b,v21.16b,v1.16b
	and	v28.16b,v24.16b,v1.16b
	tbl	v22.16b,{ v2.16b },v22.16b
	tbl	v23.16b,{ v2.16b },v23.16b
	tbl	v26.16b,{ v2.16b },v26.16b
	tbl	v25.16b,{ v2.16b },v25.16b
	tbl	v27.16b,{ v2.16b },v27.16b
	sub	v3.16b,v22.16b,v3.16b
	tbl	v22.16b,{ v2.16b },v28.16b
	sub	v4.16b,v23.16b,v4.16b
	sub	v6.16b,v26.16b,v6.16b
	sub	v5.16b,v25.16b,v5.16b
	sub	v19.16b,v27.16b,v19.16b
	eor	v16.16b,v3.16b,v16.16b
	eor	v7.16b,v4.16b,v7.16b
	eor	v18.16b,v5.16b,v18.16b
	eor	v5.16b,v6.16b,v17.16b
	sub	v4.16b,v22.16b,v20.16b
	eor	v3.16b,v19.16b,v21.16b
	eor	v4.16b,v4.16b,v24.16b
	orr	v5.16b,v5.16b,v7.16b
	orr	v6.16b,v18.16b,v16.16b
	b.lo	18f
	ldp	q7,q16,[x8,#-64]
	add	v17.16b,v16.16b,v0.16b
	add	v0.16b,v7.16b,v0.16b
	and	v18.16b,v0.16b,v1.16b
	and	v1.16b,v17.16b,v1.16b
	tbl	v18.16b,{ v2.16b },v18.16b
	tbl	v1.16b,{ v2.16b },v1.16b
	sub	v1.16b,v1.16b,v16.16b
	sub	v2.16b,v18.16b,v7.16b
	eor	v0.16b,v2.16b,v0.16b
	eor	v1.16b,v1.16b,v17.16b
	orr	v5.16b,v1.16b,v5.16b
	orr	v6.16b,v0.16b,v6.16b
18:
	orr	v0.16b,v6.16b,v4.16b
	orr	v1.16b,v5.16b,v3.16b
	b	9b
19:
	mov	w0,#1
20:
	ldp	x29,x30,[sp,#144]
	ldp	d9,d8,[sp,#128]
	ldp	d11,d10,[sp,#112]
	ldp	d13,d12,[sp,#96]
	ldp	d15,d14,[sp,#80]
	add	sp,sp,#160
	ret
21:
	cmp	x1,#3
	b.hi	27f
	add	x8,x0,x1
	ldr	h0,[x0]
	movi	v1.2s,#57
	ldur	h2,[x8,#-2]
	movi	v5.2d,#0000000000000000
	movi	v6.2d,#0000000000000000
	ushll	v0.8h,v0.8b,#0
	hex_page	x8,.L100aar_CPI12_0
	ushll	v2.8h,v2.8b,#0
	uaddw	v3.4s,v1.4s,v0.4h
	uaddw	v1.4s,v1.4s,v2.4h
	fmov	d4,d3
	mov	v3.b[1],v3.b[4]
	fmov	d7,d1
	mov	v1.b[1],v1.b[4]
	mov	v6.h[0],v3.h[0]
	movi	v3.16b,#143
	mov	v5.h[0],v1.h[0]
	and	v1.16b,v6.16b,v3.16b
	and	v3.16b,v5.16b,v3.16b
	hex_value	q5,x8,.L100aar_CPI12_0
	tbl	v1.16b,{ v5.16b },v1.16b
	tbl	v3.16b,{ v5.16b },v3.16b
	mov	b5,v1.b[0]
	mov	b6,v3.b[0]
	mov	v5.b[4],v1.b[1]
	mov	v6.b[4],v3.b[1]
	usubw	v0.4s,v5.4s,v0.4h
	usubw	v1.4s,v6.4s,v2.4h
	movi	v2.2s,#160
	eor	v0.8b,v0.8b,v4.8b
	eor	v1.8b,v1.8b,v7.8b
	orr	v0.8b,v1.8b,v0.8b
	and	v0.8b,v0.8b,v2.8b
	fmov	x8,d0
	lsr	x9,x8,#32
	orr	w8,w8,w9
23:
	cmp	w8,#0
	b	13b
24:
	movi	v1.16b,#57
	ldp	q4,q6,[x0]
	ldp	q16,q0,[x0,#32]
	movi	v20.16b,#143
	ldp	q3,q2,[x0,#96]
	hex_page	x9,.L100aar_CPI12_0
	ldp	q23,q24,[x0,#64]
	add	x8,x0,x1
	add	v7.16b,v6.16b,v1.16b
	add	v25.16b,v4.16b,v1.16b
	add	v21.16b,v16.16b,v1.16b
	stp	q0,q2,[sp,#48]
	add	v22.16b,v2.16b,v1.16b
	hex_value	q2,x9,.L100aar_CPI12_0
	ldp	q9,q10,[x8,#-64]
	str	q3,[sp,#32]
	and	v26.16b,v7.16b,v20.16b
	and	v28.16b,v25.16b,v20.16b
	and	v27.16b,v21.16b,v20.16b
	add	v3.16b,v3.16b,v1.16b
	add	v5.16b,v24.16b,v1.16b
	add	v31.16b,v23.16b,v1.16b
	add	v14.16b,v9.16b,v1.16b
	add	v18.16b,v0.16b,v1.16b
	add	v13.16b,v10.16b,v1.16b
	tbl	v26.16b,{ v2.16b },v26.16b
	tbl	v28.16b,{ v2.16b },v28.16b
	tbl	v27.16b,{ v2.16b },v27.16b
	ldp	q29,q30,[x8,#-32]
	and	v0.16b,v3.16b,v20.16b
	stp	q3,q5,[sp]
	and	v15.16b,v31.16b,v20.16b
	and	v12.16b,v18.16b,v20.16b
	and	v19.16b,v13.16b,v20.16b
	ldr	q17,[sp,#48]
	cmp	x1,#193
	sub	v6.16b,v26.16b,v6.16b
	and	v26.16b,v5.16b,v20.16b
	sub	v4.16b,v28.16b,v4.16b
	and	v5.16b,v14.16b,v20.16b
	add	v8.16b,v30.16b,v1.16b
	add	v11.16b,v29.16b,v1.16b
	sub	v16.16b,v27.16b,v16.16b
	and	v27.16b,v22.16b,v20.16b
	tbl	v0.16b,{ v2.16b },v0.16b
	tbl	v26.16b,{ v2.16b },v26.16b
	tbl	v15.16b,{ v2.16b },v15.16b
	eor	v25.16b,v4.16b,v25.16b
	tbl	v4.16b,{ v2.16b },v5.16b
	tbl	v12.16b,{ v2.16b },v12.16b
	and	v28.16b,v11.16b,v20.16b
	and	v3.16b,v8.16b,v20.16b
	tbl	v27.16b,{ v2.16b },v27.16b
	tbl	v5.16b,{ v2.16b },v19.16b
	eor	v19.16b,v6.16b,v7.16b
	ldr	q7,[sp,#32]
	ldr	q6,[sp,#64]
	tbl	v28.16b,{ v2.16b },v28.16b
	eor	v21.16b,v16.16b,v21.16b
	sub	v16.16b,v15.16b,v23.16b
	sub	v0.16b,v0.16b,v7.16b
	sub	v7.16b,v26.16b,v24.16b
	tbl	v3.16b,{ v2.16b },v3.16b
	sub	v23.16b,v4.16b,v9.16b
	ldr	q4,[sp,#16]
	sub	v12.16b,v12.16b,v17.16b
	sub	v6.16b,v27.16b,v6.16b
	sub	v5.16b,v5.16b,v10.16b
	eor	v24.16b,v16.16b,v31.16b
	eor	v26.16b,v7.16b,v4.16b
	ldr	q4,[sp]
	eor	v17.16b,v12.16b,v18.16b
	sub	v18.16b,v28.16b,v29.16b
	sub	v3.16b,v3.16b,v30.16b
	eor	v22.16b,v6.16b,v22.16b
	eor	v7.16b,v0.16b,v4.16b
	eor	v6.16b,v5.16b,v13.16b
	eor	v4.16b,v3.16b,v8.16b
	eor	v0.16b,v18.16b,v11.16b
	eor	v3.16b,v23.16b,v14.16b
	orr	v16.16b,v22.16b,v17.16b
	orr	v7.16b,v7.16b,v21.16b
	orr	v18.16b,v26.16b,v19.16b
	orr	v17.16b,v24.16b,v25.16b
	b.lo	26f
	ldp	q19,q5,[x8,#-96]
	ldp	q21,q22,[x8,#-128]
	add	v23.16b,v5.16b,v1.16b
	add	v24.16b,v19.16b,v1.16b
	add	v25.16b,v22.16b,v1.16b
	add	v1.16b,v21.16b,v1.16b
	and	v26.16b,v23.16b,v20.16b
	and	v27.16b,v1.16b,v20.16b
	and	v28.16b,v25.16b,v20.16b
	and	v20.16b,v24.16b,v20.16b
	tbl	v26.16b,{ v2.16b },v26.16b
	tbl	v27.16b,{ v2.16b },v27.16b
	tbl	v28.16b,{ v2.16b },v28.16b
	tbl	v2.16b,{ v2.16b },v20.16b
	sub	v5.16b,v26.16b,v5.16b
	sub	v2.16b,v2.16b,v19.16b
	sub	v19.16b,v28.16b,v22.16b
	sub	v20.16b,v27.16b,v21.16b
	eor	v5.16b,v5.16b,v23.16b
	eor	v1.16b,v20.16b,v1.16b
	eor	v19.16b,v19.16b,v25.16b
	eor	v2.16b,v2.16b,v24.16b
	orr	v16.16b,v5.16b,v16.16b
	orr	v7.16b,v2.16b,v7.16b
	orr	v18.16b,v19.16b,v18.16b
	orr	v17.16b,v1.16b,v17.16b
26:
	orr	v1.16b,v18.16b,v6.16b
	orr	v2.16b,v16.16b,v4.16b
	orr	v3.16b,v17.16b,v3.16b
	orr	v0.16b,v7.16b,v0.16b
	orr	v1.16b,v1.16b,v2.16b
	orr	v0.16b,v3.16b,v0.16b
	b	9b
27:
	cmp	x1,#7
	add	x8,x0,x1
	b.hi	29f
	movi	v0.4h,#57
	ldr	s1,[x0]
	ldur	s2,[x8,#-4]
	movi	v5.2d,#0000000000000000
	movi	v6.2d,#0000000000000000
	hex_page	x8,.L100aar_CPI12_0
	uaddw	v3.8h,v0.8h,v1.8b
	uaddw	v0.8h,v0.8h,v2.8b
	uzp1	v4.8b,v3.8b,v0.8b
	uzp1	v7.8b,v0.8b,v0.8b
	mov	v6.s[0],v4.s[0]
	mov	v5.s[0],v7.s[0]
	movi	v4.16b,#143
	and	v6.16b,v6.16b,v4.16b
	and	v4.16b,v5.16b,v4.16b
	hex_value	q5,x8,.L100aar_CPI12_0
	tbl	v6.16b,{ v5.16b },v6.16b
	tbl	v4.16b,{ v5.16b },v4.16b
	zip1	v5.8b,v6.8b,v0.8b
	zip1	v4.8b,v4.8b,v0.8b
	usubw	v1.8h,v5.8h,v1.8b
	usubw	v2.8h,v4.8h,v2.8b
	eor	v1.8b,v1.8b,v3.8b
	eor	v0.8b,v2.8b,v0.8b
	movi	v2.4h,#160
	orr	v0.8b,v0.8b,v1.8b
	and	v0.8b,v0.8b,v2.8b
	fmov	x8,d0
	lsr	x9,x8,#32
	orr	w8,w8,w9
	orr	w8,w8,w8,lsr #16
	b	12b
29:
	movi	v0.8b,#57
	ldr	d1,[x0]
	ldur	d2,[x8,#-8]
	movi	v3.16b,#143
	hex_page	x8,.L100aar_CPI12_0
	hex_value	q6,x8,.L100aar_CPI12_0
	add	v4.8b,v1.8b,v0.8b
	add	v0.8b,v2.8b,v0.8b
	and	v5.16b,v4.16b,v3.16b
	and	v3.16b,v0.16b,v3.16b
	tbl	v5.16b,{ v6.16b },v5.16b
	tbl	v3.16b,{ v6.16b },v3.16b
	sub	v1.8b,v5.8b,v1.8b
	sub	v2.8b,v3.8b,v2.8b
	eor	v1.8b,v1.8b,v4.8b
	eor	v0.8b,v2.8b,v0.8b
	movi	v2.8b,#160
	orr	v0.8b,v0.8b,v1.8b
	and	v0.8b,v0.8b,v2.8b
	b	11b
	hex_end	faster_hex_1_0_0_aarch64_check
	hex_merged	16
	.p2align	4,0x0
.L100aar_CPI13_0:
	.byte	167,168,169,0,0,0,0,0,0,144,145,146,147,148,149,150
	hex_export	faster_hex_1_0_0_aarch64_check_lower
	hint	#34
	sub	sp,sp,#160
	cmp	x1,#32
	stp	d15,d14,[sp,#80]
	stp	d13,d12,[sp,#96]
	stp	d11,d10,[sp,#112]
	stp	d9,d8,[sp,#128]
	stp	x29,x30,[sp,#144]
	add	x29,sp,#144
	b.hi	5f
	cmp	x1,#15
	b.hi	8f
	cbz	x1,19f
	cmp	x1,#1
	b.ne	21f
	ldrb	w8,[x0]
	sub	w9,w8,#48
	sub	w8,w8,#97
	and	w9,w9,#0xff
	and	w8,w8,#0xff
	subs	w9,w9,#9
	csel	w9,wzr,w9,lo
	subs	w8,w8,#5
	csel	w8,wzr,w8,lo
	cmp	w9,w8
	csel	w8,w9,w8,lo
	b	23f
5:
	cmp	x1,#256
	b.hi	14f
	cmp	x1,#64
	b.hi	15f
	movi	v0.16b,#57
	add	x8,x0,x1
	movi	v3.16b,#143
	ldp	q1,q2,[x0]
	ldp	q4,q5,[x8,#-32]
	hex_page	x8,.L100aar_CPI13_0
	hex_value	q17,x8,.L100aar_CPI13_0
	add	v6.16b,v1.16b,v0.16b
	add	v7.16b,v2.16b,v0.16b
	add	v16.16b,v5.16b,v0.16b
	add	v0.16b,v4.16b,v0.16b
	and	v18.16b,v6.16b,v3.16b
	and	v19.16b,v7.16b,v3.16b
	and	v20.16b,v0.16b,v3.16b
	and	v3.16b,v16.16b,v3.16b
	tbl	v18.16b,{ v17.16b },v18.16b
	tbl	v19.16b,{ v17.16b },v19.16b
	tbl	v20.16b,{ v17.16b },v20.16b
	tbl	v3.16b,{ v17.16b },v3.16b
	sub	v1.16b,v18.16b,v1.16b
	sub	v2.16b,v19.16b,v2.16b
	sub	v3.16b,v3.16b,v5.16b
	sub	v4.16b,v20.16b,v4.16b
	eor	v1.16b,v1.16b,v6.16b
	eor	v2.16b,v2.16b,v7.16b
	eor	v0.16b,v4.16b,v0.16b
	eor	v3.16b,v3.16b,v16.16b
	orr	v2.16b,v3.16b,v2.16b
	orr	v0.16b,v0.16b,v1.16b
	movi	v1.16b,#160
	orr	v0.16b,v0.16b,v2.16b
	and	v0.16b,v0.16b,v1.16b
	b	10f
8:
	movi	v0.16b,#57
	add	x8,x0,x1
	ldr	q1,[x0]
	ldur	q2,[x8,#-16]
	movi	v3.16b,#143
	hex_page	x8,.L100aar_CPI13_0
	hex_value	q6,x8,.L100aar_CPI13_0
	add	v4.16b,v1.16b,v0.16b
	add	v0.16b,v2.16b,v0.16b
	and	v5.16b,v4.16b,v3.16b
	and	v3.16b,v0.16b,v3.16b
	tbl	v5.16b,{ v6.16b },v5.16b
	tbl	v3.16b,{ v6.16b },v3.16b
	sub	v1.16b,v5.16b,v1.16b
	sub	v2.16b,v3.16b,v2.16b
	eor	v1.16b,v1.16b,v4.16b
	eor	v0.16b,v2.16b,v0.16b
9:
	movi	v2.16b,#160
	orr	v0.16b,v0.16b,v1.16b
	and	v0.16b,v0.16b,v2.16b
10:
	ext	v1.16b,v0.16b,v0.16b,#8
	orr	v0.8b,v0.8b,v1.8b
11:
	fmov	x8,d0
	orr	x8,x8,x8,lsr #32
	lsr	x9,x8,#16
	orr	w8,w8,w9
	orr	w8,w8,w8,lsr #8
12:
	tst	w8,#0xff
13:
	cset	w0,eq
	b	20f
14:
	mov	w2,#1
	bl	faster_hex_1_0_0_aarch64_core_plain_check_long_outlined
	b	20f
15:
	cmp	x1,#128
	b.hi	24f
	movi	v0.16b,#57
	ldp	q3,q4,[x0]
	ldp	q5,q6,[x0,#32]
	movi	v1.16b,#143
	add	x8,x0,x1
	hex_page	x9,.L100aar_CPI13_0
	cmp	x1,#97
	ldp	q20,q19,[x8,#-32]
	hex_value	q2,x9,.L100aar_CPI13_0
	add	v16.16b,v3.16b,v0.16b
	add	v7.16b,v4.16b,v0.16b
	add	v17.16b,v6.16b,v0.16b
	add	v18.16b,v5.16b,v0.16b
	add	v21.16b,v19.16b,v0.16b
	add	v24.16b,v20.16b,v0.16b
	and	v22.16b,v16.16b,v1.16b
	and	v23.16b,v7.16b,v1.16b
	and	v26.16b,v17.16b,v1.16b
	and	v25.16b,v18.16b,v1.16b
	and	v27.16b,v21.16b,v1.16b
	and	v28.16b,v24.16b,v1.16b
	tbl	v22.16b,{ v2.16b },v22.16b
	tbl	v23.16b,{ v2.16b },v23.16b
	tbl	v26.16b,{ v2.16b },v26.16b
	tbl	v25.16b,{ v2.16b },v25.16b
	tbl	v27.16b,{ v2.16b },v27.16b
	sub	v3.16b,v22.16b,v3.16b
	tbl	v22.16b,{ v2.16b },v28.16b
	sub	v4.16b,v23.16b,v4.16b
	sub	v6.16b,v26.16b,v6.16b
	sub	v5.16b,v25.16b,v5.16b
	sub	v19.16b,v27.16b,v19.16b
	eor	v16.16b,v3.16b,v16.16b
	eor	v7.16b,v4.16b,v7.16b
	eor	v18.16b,v5.16b,v18.16b
	eor	v5.16b,v6.16b,v17.16b
	sub	v4.16b,v22.16b,v20.16b
	eor	v3.16b,v19.16b,v21.16b
	eor	v4.16b,v4.16b,v24.16b
	orr	v5.16b,v5.16b,v7.16b
	orr	v6.16b,v18.16b,v16.16b
	b.lo	18f
	ldp	q7,q16,[x8,#-64]
	add	v17.16b,v16.16b,v0.16b
	add	v0.16b,v7.16b,v0.16b
	and	v18.16b,v0.16b,v1.16b
	and	v1.16b,v17.16b,v1.16b
	tbl	v18.16b,{ v2.16b },v18.16b
	tbl	v1.16b,{ v2.16b },v1.16b
	sub	v1.16b,v1.16b,v16.16b
	sub	v2.16b,v18.16b,v7.16b
	eor	v0.16b,v2.16b,v0.16b
	eor	v1.16b,v1.16b,v17.16b
	orr	v5.16b,v1.16b,v5.16b
	orr	v6.16b,v0.16b,v6.16b
18:
	orr	v0.16b,v6.16b,v4.16b
	orr	v1.16b,v5.16b,v3.16b
	b	9b
19:
	mov	w0,#1
20:
	ldp	x29,x30,[sp,#144]
	ldp	d9,d8,[sp,#128]
	ldp	d11,d10,[sp,#112]
	ldp	d13,d12,[sp,#96]
	ldp	d15,d14,[sp,#80]
	add	sp,sp,#160
	ret
21:
	cmp	x1,#3
	b.hi	27f
	add	x8,x0,x1
	ldr	h0,[x0]
	movi	v1.2s,#57
	ldur	h2,[x8,#-2]
	movi	v5.2d,#0000000000000000
	movi	v6.2d,#0000000000000000
	ushll	v0.8h,v0.8b,#0
	hex_page	x8,.L100aar_CPI13_0
	ushll	v2.8h,v2.8b,#0
	uaddw	v3.4s,v1.4s,v0.4h
	uaddw	v1.4s,v1.4s,v2.4h
	fmov	d4,d3
	mov	v3.b[1],v3.b[4]
	fmov	d7,d1
	mov	v1.b[1],v1.b[4]
	mov	v6.h[0],v3.h[0]
	movi	v3.16b,#143
	mov	v5.h[0],v1.h[0]
	and	v1.16b,v6.16b,v3.16b
	and	v3.16b,v5.16b,v3.16b
	hex_value	q5,x8,.L100aar_CPI13_0
	tbl	v1.16b,{ v5.16b },v1.16b
	tbl	v3.16b,{ v5.16b },v3.16b
	mov	b5,v1.b[0]
	mov	b6,v3.b[0]
	mov	v5.b[4],v1.b[1]
	mov	v6.b[4],v3.b[1]
	usubw	v0.4s,v5.4s,v0.4h
	usubw	v1.4s,v6.4s,v2.4h
	movi	v2.2s,#160
	eor	v0.8b,v0.8b,v4.8b
	eor	v1.8b,v1.8b,v7.8b
	orr	v0.8b,v1.8b,v0.8b
	and	v0.8b,v0.8b,v2.8b
	fmov	x8,d0
	lsr	x9,x8,#32
	orr	w8,w8,w9
23:
	cmp	w8,#0
	b	13b
24:
	movi	v1.16b,#57
	ldp	q4,q6,[x0]
	ldp	q16,q0,[x0,#32]
	movi	v20.16b,#143
	ldp	q3,q2,[x0,#96]
	hex_page	x9,.L100aar_CPI13_0
	ldp	q23,q24,[x0,#64]
	add	x8,x0,x1
	add	v7.16b,v6.16b,v1.16b
	add	v25.16b,v4.16b,v1.16b
	add	v21.16b,v16.16b,v1.16b
	stp	q0,q2,[sp,#48]
	add	v22.16b,v2.16b,v1.16b
	hex_value	q2,x9,.L100aar_CPI13_0
	ldp	q9,q10,[x8,#-64]
	str	q3,[sp,#32]
	and	v26.16b,v7.16b,v20.16b
	and	v28.16b,v25.16b,v20.16b
	and	v27.16b,v21.16b,v20.16b
	add	v3.16b,v3.16b,v1.16b
	add	v5.16b,v24.16b,v1.16b
	add	v31.16b,v23.16b,v1.16b
	add	v14.16b,v9.16b,v1.16b
	add	v18.16b,v0.16b,v1.16b
	add	v13.16b,v10.16b,v1.16b
	tbl	v26.16b,{ v2.16b },v26.16b
	tbl	v28.16b,{ v2.16b },v28.16b
	tbl	v27.16b,{ v2.16b },v27.16b
	ldp	q29,q30,[x8,#-32]
	and	v0.16b,v3.16b,v20.16b
	stp	q3,q5,[sp]
	and	v15.16b,v31.16b,v20.16b
	and	v12.16b,v18.16b,v20.16b
	and	v19.16b,v13.16b,v20.16b
	ldr	q17,[sp,#48]
	cmp	x1,#193
	sub	v6.16b,v26.16b,v6.16b
	and	v26.16b,v5.16b,v20.16b
	sub	v4.16b,v28.16b,v4.16b
	and	v5.16b,v14.16b,v20.16b
	add	v8.16b,v30.16b,v1.16b
	add	v11.16b,v29.16b,v1.16b
	sub	v16.16b,v27.16b,v16.16b
	and	v27.16b,v22.16b,v20.16b
	tbl	v0.16b,{ v2.16b },v0.16b
	tbl	v26.16b,{ v2.16b },v26.16b
	tbl	v15.16b,{ v2.16b },v15.16b
	eor	v25.16b,v4.16b,v25.16b
	tbl	v4.16b,{ v2.16b },v5.16b
	tbl	v12.16b,{ v2.16b },v12.16b
	and	v28.16b,v11.16b,v20.16b
	and	v3.16b,v8.16b,v20.16b
	tbl	v27.16b,{ v2.16b },v27.16b
	tbl	v5.16b,{ v2.16b },v19.16b
	eor	v19.16b,v6.16b,v7.16b
	ldr	q7,[sp,#32]
	ldr	q6,[sp,#64]
	tbl	v28.16b,{ v2.16b },v28.16b
	eor	v21.16b,v16.16b,v21.16b
	sub	v16.16b,v15.16b,v23.16b
	sub	v0.16b,v0.16b,v7.16b
	sub	v7.16b,v26.16b,v24.16b
	tbl	v3.16b,{ v2.16b },v3.16b
	sub	v23.16b,v4.16b,v9.16b
	ldr	q4,[sp,#16]
	sub	v12.16b,v12.16b,v17.16b
	sub	v6.16b,v27.16b,v6.16b
	sub	v5.16b,v5.16b,v10.16b
	eor	v24.16b,v16.16b,v31.16b
	eor	v26.16b,v7.16b,v4.16b
	ldr	q4,[sp]
	eor	v17.16b,v12.16b,v18.16b
	sub	v18.16b,v28.16b,v29.16b
	sub	v3.16b,v3.16b,v30.16b
	eor	v22.16b,v6.16b,v22.16b
	eor	v7.16b,v0.16b,v4.16b
	eor	v6.16b,v5.16b,v13.16b
	eor	v4.16b,v3.16b,v8.16b
	eor	v0.16b,v18.16b,v11.16b
	eor	v3.16b,v23.16b,v14.16b
	orr	v16.16b,v22.16b,v17.16b
	orr	v7.16b,v7.16b,v21.16b
	orr	v18.16b,v26.16b,v19.16b
	orr	v17.16b,v24.16b,v25.16b
	b.lo	26f
	ldp	q19,q5,[x8,#-96]
	ldp	q21,q22,[x8,#-128]
	add	v23.16b,v5.16b,v1.16b
	add	v24.16b,v19.16b,v1.16b
	add	v25.16b,v22.16b,v1.16b
	add	v1.16b,v21.16b,v1.16b
	and	v26.16b,v23.16b,v20.16b
	and	v27.16b,v1.16b,v20.16b
	and	v28.16b,v25.16b,v20.16b
	and	v20.16b,v24.16b,v20.16b
	tbl	v26.16b,{ v2.16b },v26.16b
	tbl	v27.16b,{ v2.16b },v27.16b
	tbl	v28.16b,{ v2.16b },v28.16b
	tbl	v2.16b,{ v2.16b },v20.16b
	sub	v5.16b,v26.16b,v5.16b
	sub	v2.16b,v2.16b,v19.16b
	sub	v19.16b,v28.16b,v22.16b
	sub	v20.16b,v27.16b,v21.16b
	eor	v5.16b,v5.16b,v23.16b
	eor	v1.16b,v20.16b,v1.16b
	eor	v19.16b,v19.16b,v25.16b
	eor	v2.16b,v2.16b,v24.16b
	orr	v16.16b,v5.16b,v16.16b
	orr	v7.16b,v2.16b,v7.16b
	orr	v18.16b,v19.16b,v18.16b
	orr	v17.16b,v1.16b,v17.16b
26:
	orr	v1.16b,v18.16b,v6.16b
	orr	v2.16b,v16.16b,v4.16b
	orr	v3.16b,v17.16b,v3.16b
	orr	v0.16b,v7.16b,v0.16b
	orr	v1.16b,v1.16b,v2.16b
	orr	v0.16b,v3.16b,v0.16b
	b	9b
27:
	cmp	x1,#7
	add	x8,x0,x1
	b.hi	29f
	movi	v0.4h,#57
	ldr	s1,[x0]
	ldur	s2,[x8,#-4]
	movi	v5.2d,#0000000000000000
	movi	v6.2d,#0000000000000000
	hex_page	x8,.L100aar_CPI13_0
	uaddw	v3.8h,v0.8h,v1.8b
	uaddw	v0.8h,v0.8h,v2.8b
	uzp1	v4.8b,v3.8b,v0.8b
	uzp1	v7.8b,v0.8b,v0.8b
	mov	v6.s[0],v4.s[0]
	mov	v5.s[0],v7.s[0]
	movi	v4.16b,#143
	and	v6.16b,v6.16b,v4.16b
	and	v4.16b,v5.16b,v4.16b
	hex_value	q5,x8,.L100aar_CPI13_0
	tbl	v6.16b,{ v5.16b },v6.16b
	tbl	v4.16b,{ v5.16b },v4.16b
	zip1	v5.8b,v6.8b,v0.8b
	zip1	v4.8b,v4.8b,v0.8b
	usubw	v1.8h,v5.8h,v1.8b
	usubw	v2.8h,v4.8h,v2.8b
	eor	v1.8b,v1.8b,v3.8b
	eor	v0.8b,v2.8b,v0.8b
	movi	v2.4h,#160
	orr	v0.8b,v0.8b,v1.8b
	and	v0.8b,v0.8b,v2.8b
	fmov	x8,d0
	lsr	x9,x8,#32
	orr	w8,w8,w9
	orr	w8,w8,w8,lsr #16
	b	12b
29:
	movi	v0.8b,#57
	ldr	d1,[x0]
	ldur	d2,[x8,#-8]
	movi	v3.16b,#143
	hex_page	x8,.L100aar_CPI13_0
	hex_value	q6,x8,.L100aar_CPI13_0
	add	v4.8b,v1.8b,v0.8b
	add	v0.8b,v2.8b,v0.8b
	and	v5.16b,v4.16b,v3.16b
	and	v3.16b,v0.16b,v3.16b
	tbl	v5.16b,{ v6.16b },v5.16b
	tbl	v3.16b,{ v6.16b },v3.16b
	sub	v1.8b,v5.8b,v1.8b
	sub	v2.8b,v3.8b,v2.8b
	eor	v1.8b,v1.8b,v4.8b
	eor	v0.8b,v2.8b,v0.8b
	movi	v2.8b,#160
	orr	v0.8b,v0.8b,v1.8b
	and	v0.8b,v0.8b,v2.8b
	b	11b
	hex_end	faster_hex_1_0_0_aarch64_check_lower
	hex_merged	16
	.p2align	4,0x0
.L100aar_CPI14_0:
	.byte	167,169,169,0,0,0,0,0,0,145,161,163,163,165,165,167
	hex_export	faster_hex_1_0_0_aarch64_check_upper
	hint	#34
	sub	sp,sp,#160
	cmp	x1,#32
	stp	d15,d14,[sp,#80]
	stp	d13,d12,[sp,#96]
	stp	d11,d10,[sp,#112]
	stp	d9,d8,[sp,#128]
	stp	x29,x30,[sp,#144]
	add	x29,sp,#144
	b.hi	5f
	cmp	x1,#15
	b.hi	8f
	cbz	x1,19f
	cmp	x1,#1
	b.ne	21f
	ldrb	w8,[x0]
	sub	w9,w8,#48
	sub	w8,w8,#65
	and	w9,w9,#0xff
	and	w8,w8,#0xff
	subs	w9,w9,#9
	csel	w9,wzr,w9,lo
	subs	w8,w8,#5
	csel	w8,wzr,w8,lo
	cmp	w9,w8
	csel	w8,w9,w8,lo
	b	23f
5:
	cmp	x1,#256
	b.hi	14f
	cmp	x1,#64
	b.hi	15f
	movi	v0.16b,#57
	add	x8,x0,x1
	movi	v3.16b,#143
	ldp	q1,q2,[x0]
	ldp	q4,q5,[x8,#-32]
	hex_page	x8,.L100aar_CPI14_0
	hex_value	q17,x8,.L100aar_CPI14_0
	add	v6.16b,v1.16b,v0.16b
	add	v7.16b,v2.16b,v0.16b
	add	v16.16b,v5.16b,v0.16b
	add	v0.16b,v4.16b,v0.16b
	and	v18.16b,v6.16b,v3.16b
	and	v19.16b,v7.16b,v3.16b
	and	v20.16b,v0.16b,v3.16b
	and	v3.16b,v16.16b,v3.16b
	tbl	v18.16b,{ v17.16b },v18.16b
	tbl	v19.16b,{ v17.16b },v19.16b
	tbl	v20.16b,{ v17.16b },v20.16b
	tbl	v3.16b,{ v17.16b },v3.16b
	sub	v1.16b,v18.16b,v1.16b
	sub	v2.16b,v19.16b,v2.16b
	sub	v3.16b,v3.16b,v5.16b
	sub	v4.16b,v20.16b,v4.16b
	eor	v1.16b,v1.16b,v6.16b
	eor	v2.16b,v2.16b,v7.16b
	eor	v0.16b,v4.16b,v0.16b
	eor	v3.16b,v3.16b,v16.16b
	orr	v2.16b,v3.16b,v2.16b
	orr	v0.16b,v0.16b,v1.16b
	movi	v1.16b,#161
	orr	v0.16b,v0.16b,v2.16b
	and	v0.16b,v0.16b,v1.16b
	b	10f
8:
	movi	v0.16b,#57
	add	x8,x0,x1
	ldr	q1,[x0]
	ldur	q2,[x8,#-16]
	movi	v3.16b,#143
	hex_page	x8,.L100aar_CPI14_0
	hex_value	q6,x8,.L100aar_CPI14_0
	add	v4.16b,v1.16b,v0.16b
	add	v0.16b,v2.16b,v0.16b
	and	v5.16b,v4.16b,v3.16b
	and	v3.16b,v0.16b,v3.16b
	tbl	v5.16b,{ v6.16b },v5.16b
	tbl	v3.16b,{ v6.16b },v3.16b
	sub	v1.16b,v5.16b,v1.16b
	sub	v2.16b,v3.16b,v2.16b
	eor	v1.16b,v1.16b,v4.16b
	eor	v0.16b,v2.16b,v0.16b
9:
	movi	v2.16b,#161
	orr	v0.16b,v0.16b,v1.16b
	and	v0.16b,v0.16b,v2.16b
10:
	ext	v1.16b,v0.16b,v0.16b,#8
	orr	v0.8b,v0.8b,v1.8b
11:
	fmov	x8,d0
	orr	x8,x8,x8,lsr #32
	lsr	x9,x8,#16
	orr	w8,w8,w9
	orr	w8,w8,w8,lsr #8
12:
	tst	w8,#0xff
13:
	cset	w0,eq
	b	20f
14:
	mov	w2,#2
	bl	faster_hex_1_0_0_aarch64_core_plain_check_long_outlined
	b	20f
15:
	cmp	x1,#128
	b.hi	24f
	movi	v0.16b,#57
	ldp	q3,q4,[x0]
	ldp	q5,q6,[x0,#32]
	movi	v1.16b,#143
	add	x8,x0,x1
	hex_page	x9,.L100aar_CPI14_0
	cmp	x1,#97
	ldp	q20,q19,[x8,#-32]
	hex_value	q2,x9,.L100aar_CPI14_0
	add	v16.16b,v3.16b,v0.16b
	add	v7.16b,v4.16b,v0.16b
	add	v17.16b,v6.16b,v0.16b
	add	v18.16b,v5.16b,v0.16b
	add	v21.16b,v19.16b,v0.16b
	add	v24.16b,v20.16b,v0.16b
	and	v22.16b,v16.16b,v1.16b
	and	v23.16b,v7.16b,v1.16b
	and	v26.16b,v17.16b,v1.16b
	and	v25.16b,v18.16b,v1.16b
	and	v27.16b,v21.16b,v1.16b
	and	v28.16b,v24.16b,v1.16b
	tbl	v22.16b,{ v2.16b },v22.16b
	tbl	v23.16b,{ v2.16b },v23.16b
	tbl	v26.16b,{ v2.16b },v26.16b
	tbl	v25.16b,{ v2.16b },v25.16b
	tbl	v27.16b,{ v2.16b },v27.16b
	sub	v3.16b,v22.16b,v3.16b
	tbl	v22.16b,{ v2.16b },v28.16b
	sub	v4.16b,v23.16b,v4.16b
	sub	v6.16b,v26.16b,v6.16b
	sub	v5.16b,v25.16b,v5.16b
	sub	v19.16b,v27.16b,v19.16b
	eor	v16.16b,v3.16b,v16.16b
	eor	v7.16b,v4.16b,v7.16b
	eor	v18.16b,v5.16b,v18.16b
	eor	v5.16b,v6.16b,v17.16b
	sub	v4.16b,v22.16b,v20.16b
	eor	v3.16b,v19.16b,v21.16b
	eor	v4.16b,v4.16b,v24.16b
	orr	v5.16b,v5.16b,v7.16b
	orr	v6.16b,v18.16b,v16.16b
	b.lo	18f
	ldp	q7,q16,[x8,#-64]
	add	v17.16b,v16.16b,v0.16b
	add	v0.16b,v7.16b,v0.16b
	and	v18.16b,v0.16b,v1.16b
	and	v1.16b,v17.16b,v1.16b
	tbl	v18.16b,{ v2.16b },v18.16b
	tbl	v1.16b,{ v2.16b },v1.16b
	sub	v1.16b,v1.16b,v16.16b
	sub	v2.16b,v18.16b,v7.16b
	eor	v0.16b,v2.16b,v0.16b
	eor	v1.16b,v1.16b,v17.16b
	orr	v5.16b,v1.16b,v5.16b
	orr	v6.16b,v0.16b,v6.16b
18:
	orr	v0.16b,v6.16b,v4.16b
	orr	v1.16b,v5.16b,v3.16b
	b	9b
19:
	mov	w0,#1
20:
	ldp	x29,x30,[sp,#144]
	ldp	d9,d8,[sp,#128]
	ldp	d11,d10,[sp,#112]
	ldp	d13,d12,[sp,#96]
	ldp	d15,d14,[sp,#80]
	add	sp,sp,#160
	ret
21:
	cmp	x1,#3
	b.hi	27f
	add	x8,x0,x1
	ldr	h0,[x0]
	movi	v1.2s,#57
	ldur	h2,[x8,#-2]
	movi	v5.2d,#0000000000000000
	movi	v6.2d,#0000000000000000
	ushll	v0.8h,v0.8b,#0
	hex_page	x8,.L100aar_CPI14_0
	ushll	v2.8h,v2.8b,#0
	uaddw	v3.4s,v1.4s,v0.4h
	uaddw	v1.4s,v1.4s,v2.4h
	fmov	d4,d3
	mov	v3.b[1],v3.b[4]
	fmov	d7,d1
	mov	v1.b[1],v1.b[4]
	mov	v6.h[0],v3.h[0]
	movi	v3.16b,#143
	mov	v5.h[0],v1.h[0]
	and	v1.16b,v6.16b,v3.16b
	and	v3.16b,v5.16b,v3.16b
	hex_value	q5,x8,.L100aar_CPI14_0
	tbl	v1.16b,{ v5.16b },v1.16b
	tbl	v3.16b,{ v5.16b },v3.16b
	mov	b5,v1.b[0]
	mov	b6,v3.b[0]
	mov	v5.b[4],v1.b[1]
	mov	v6.b[4],v3.b[1]
	usubw	v0.4s,v5.4s,v0.4h
	usubw	v1.4s,v6.4s,v2.4h
	movi	v2.2s,#161
	eor	v0.8b,v0.8b,v4.8b
	eor	v1.8b,v1.8b,v7.8b
	orr	v0.8b,v1.8b,v0.8b
	and	v0.8b,v0.8b,v2.8b
	fmov	x8,d0
	lsr	x9,x8,#32
	orr	w8,w8,w9
23:
	cmp	w8,#0
	b	13b
24:
	movi	v1.16b,#57
	ldp	q4,q6,[x0]
	ldp	q16,q0,[x0,#32]
	movi	v20.16b,#143
	ldp	q3,q2,[x0,#96]
	hex_page	x9,.L100aar_CPI14_0
	ldp	q23,q24,[x0,#64]
	add	x8,x0,x1
	add	v7.16b,v6.16b,v1.16b
	add	v25.16b,v4.16b,v1.16b
	add	v21.16b,v16.16b,v1.16b
	stp	q0,q2,[sp,#48]
	add	v22.16b,v2.16b,v1.16b
	hex_value	q2,x9,.L100aar_CPI14_0
	ldp	q9,q10,[x8,#-64]
	str	q3,[sp,#32]
	and	v26.16b,v7.16b,v20.16b
	and	v28.16b,v25.16b,v20.16b
	and	v27.16b,v21.16b,v20.16b
	add	v3.16b,v3.16b,v1.16b
	add	v5.16b,v24.16b,v1.16b
	add	v31.16b,v23.16b,v1.16b
	add	v14.16b,v9.16b,v1.16b
	add	v18.16b,v0.16b,v1.16b
	add	v13.16b,v10.16b,v1.16b
	tbl	v26.16b,{ v2.16b },v26.16b
	tbl	v28.16b,{ v2.16b },v28.16b
	tbl	v27.16b,{ v2.16b },v27.16b
	ldp	q29,q30,[x8,#-32]
	and	v0.16b,v3.16b,v20.16b
	stp	q3,q5,[sp]
	and	v15.16b,v31.16b,v20.16b
	and	v12.16b,v18.16b,v20.16b
	and	v19.16b,v13.16b,v20.16b
	ldr	q17,[sp,#48]
	cmp	x1,#193
	sub	v6.16b,v26.16b,v6.16b
	and	v26.16b,v5.16b,v20.16b
	sub	v4.16b,v28.16b,v4.16b
	and	v5.16b,v14.16b,v20.16b
	add	v8.16b,v30.16b,v1.16b
	add	v11.16b,v29.16b,v1.16b
	sub	v16.16b,v27.16b,v16.16b
	and	v27.16b,v22.16b,v20.16b
	tbl	v0.16b,{ v2.16b },v0.16b
	tbl	v26.16b,{ v2.16b },v26.16b
	tbl	v15.16b,{ v2.16b },v15.16b
	eor	v25.16b,v4.16b,v25.16b
	tbl	v4.16b,{ v2.16b },v5.16b
	tbl	v12.16b,{ v2.16b },v12.16b
	and	v28.16b,v11.16b,v20.16b
	and	v3.16b,v8.16b,v20.16b
	tbl	v27.16b,{ v2.16b },v27.16b
	tbl	v5.16b,{ v2.16b },v19.16b
	eor	v19.16b,v6.16b,v7.16b
	ldr	q7,[sp,#32]
	ldr	q6,[sp,#64]
	tbl	v28.16b,{ v2.16b },v28.16b
	eor	v21.16b,v16.16b,v21.16b
	sub	v16.16b,v15.16b,v23.16b
	sub	v0.16b,v0.16b,v7.16b
	sub	v7.16b,v26.16b,v24.16b
	tbl	v3.16b,{ v2.16b },v3.16b
	sub	v23.16b,v4.16b,v9.16b
	ldr	q4,[sp,#16]
	sub	v12.16b,v12.16b,v17.16b
	sub	v6.16b,v27.16b,v6.16b
	sub	v5.16b,v5.16b,v10.16b
	eor	v24.16b,v16.16b,v31.16b
	eor	v26.16b,v7.16b,v4.16b
	ldr	q4,[sp]
	eor	v17.16b,v12.16b,v18.16b
	sub	v18.16b,v28.16b,v29.16b
	sub	v3.16b,v3.16b,v30.16b
	eor	v22.16b,v6.16b,v22.16b
	eor	v7.16b,v0.16b,v4.16b
	eor	v6.16b,v5.16b,v13.16b
	eor	v4.16b,v3.16b,v8.16b
	eor	v0.16b,v18.16b,v11.16b
	eor	v3.16b,v23.16b,v14.16b
	orr	v16.16b,v22.16b,v17.16b
	orr	v7.16b,v7.16b,v21.16b
	orr	v18.16b,v26.16b,v19.16b
	orr	v17.16b,v24.16b,v25.16b
	b.lo	26f
	ldp	q19,q5,[x8,#-96]
	ldp	q21,q22,[x8,#-128]
	add	v23.16b,v5.16b,v1.16b
	add	v24.16b,v19.16b,v1.16b
	add	v25.16b,v22.16b,v1.16b
	add	v1.16b,v21.16b,v1.16b
	and	v26.16b,v23.16b,v20.16b
	and	v27.16b,v1.16b,v20.16b
	and	v28.16b,v25.16b,v20.16b
	and	v20.16b,v24.16b,v20.16b
	tbl	v26.16b,{ v2.16b },v26.16b
	tbl	v27.16b,{ v2.16b },v27.16b
	tbl	v28.16b,{ v2.16b },v28.16b
	tbl	v2.16b,{ v2.16b },v20.16b
	sub	v5.16b,v26.16b,v5.16b
	sub	v2.16b,v2.16b,v19.16b
	sub	v19.16b,v28.16b,v22.16b
	sub	v20.16b,v27.16b,v21.16b
	eor	v5.16b,v5.16b,v23.16b
	eor	v1.16b,v20.16b,v1.16b
	eor	v19.16b,v19.16b,v25.16b
	eor	v2.16b,v2.16b,v24.16b
	orr	v16.16b,v5.16b,v16.16b
	orr	v7.16b,v2.16b,v7.16b
	orr	v18.16b,v19.16b,v18.16b
	orr	v17.16b,v1.16b,v17.16b
26:
	orr	v1.16b,v18.16b,v6.16b
	orr	v2.16b,v16.16b,v4.16b
	orr	v3.16b,v17.16b,v3.16b
	orr	v0.16b,v7.16b,v0.16b
	orr	v1.16b,v1.16b,v2.16b
	orr	v0.16b,v3.16b,v0.16b
	b	9b
27:
	cmp	x1,#7
	add	x8,x0,x1
	b.hi	29f
	movi	v0.4h,#57
	ldr	s1,[x0]
	ldur	s2,[x8,#-4]
	movi	v5.2d,#0000000000000000
	movi	v6.2d,#0000000000000000
	hex_page	x8,.L100aar_CPI14_0
	uaddw	v3.8h,v0.8h,v1.8b
	uaddw	v0.8h,v0.8h,v2.8b
	uzp1	v4.8b,v3.8b,v0.8b
	uzp1	v7.8b,v0.8b,v0.8b
	mov	v6.s[0],v4.s[0]
	mov	v5.s[0],v7.s[0]
	movi	v4.16b,#143
	and	v6.16b,v6.16b,v4.16b
	and	v4.16b,v5.16b,v4.16b
	hex_value	q5,x8,.L100aar_CPI14_0
	tbl	v6.16b,{ v5.16b },v6.16b
	tbl	v4.16b,{ v5.16b },v4.16b
	zip1	v5.8b,v6.8b,v0.8b
	zip1	v4.8b,v4.8b,v0.8b
	usubw	v1.8h,v5.8h,v1.8b
	usubw	v2.8h,v4.8h,v2.8b
	eor	v1.8b,v1.8b,v3.8b
	eor	v0.8b,v2.8b,v0.8b
	movi	v2.4h,#161
	orr	v0.8b,v0.8b,v1.8b
	and	v0.8b,v0.8b,v2.8b
	fmov	x8,d0
	lsr	x9,x8,#32
	orr	w8,w8,w9
	orr	w8,w8,w8,lsr #16
	b	12b
29:
	movi	v0.8b,#57
	ldr	d1,[x0]
	ldur	d2,[x8,#-8]
	movi	v3.16b,#143
	hex_page	x8,.L100aar_CPI14_0
	hex_value	q6,x8,.L100aar_CPI14_0
	add	v4.8b,v1.8b,v0.8b
	add	v0.8b,v2.8b,v0.8b
	and	v5.16b,v4.16b,v3.16b
	and	v3.16b,v0.16b,v3.16b
	tbl	v5.16b,{ v6.16b },v5.16b
	tbl	v3.16b,{ v6.16b },v3.16b
	sub	v1.8b,v5.8b,v1.8b
	sub	v2.8b,v3.8b,v2.8b
	eor	v1.8b,v1.8b,v4.8b
	eor	v0.8b,v2.8b,v0.8b
	movi	v2.8b,#161
	orr	v0.8b,v0.8b,v1.8b
	and	v0.8b,v0.8b,v2.8b
	b	11b
	hex_end	faster_hex_1_0_0_aarch64_check_upper
	hex_merged	16
	.p2align	4,0x0
.L100aar_CPI15_0:
	.byte	16,17,18,0,0,0,0,0,0,0,117,116,123,118,121,120
	hex_export	faster_hex_1_0_0_aarch64_decode
	hint	#34
	sub	sp,sp,#80
	stp	d13,d12,[sp,#16]
	stp	d11,d10,[sp,#32]
	stp	d9,d8,[sp,#48]
	stp	x29,x30,[sp,#64]
	add	x29,sp,#64
	tbnz	w1,#0,3f
	lsr	x8,x1,#1
	cmp	x3,x8
	b.hs	4f
	mov	w1,#2
	b	30f
3:
	mov	x8,xzr
	mov	w1,#1
	b	30f
4:
	cmp	x1,#192
	b.hi	29f
	cmp	x1,#15
	b.hi	8f
	cmp	x1,#2
	b.hs	12f
	mov	x1,xzr
	b	30f
8:
	cmp	x1,#32
	b.hi	15f
	movi	v0.16b,#55
	b.ne	18f
	ldp	q1,q2,[x0]
	movi	v4.16b,#143
	hex_page	x9,.L100aar_CPI15_0
	hex_value	q6,x9,.L100aar_CPI15_0
	uqsub	v3.16b,v2.16b,v0.16b
	uqsub	v0.16b,v1.16b,v0.16b
	and	v5.16b,v0.16b,v4.16b
	and	v4.16b,v3.16b,v4.16b
	tbl	v5.16b,{ v6.16b },v5.16b
	tbl	v4.16b,{ v6.16b },v4.16b
	movi	v6.16b,#32
	uqsub	v3.16b,v4.16b,v3.16b
	uqsub	v0.16b,v5.16b,v0.16b
	eor	v2.16b,v2.16b,v6.16b
	eor	v4.16b,v1.16b,v6.16b
	eor	v1.16b,v2.16b,v3.16b
	eor	v0.16b,v4.16b,v0.16b
	movi	v2.16b,#240
	orr	v3.16b,v0.16b,v1.16b
	and	v2.16b,v3.16b,v2.16b
	ext	v3.16b,v2.16b,v2.16b,#8
	orr	v2.8b,v2.8b,v3.8b
	fmov	x9,d2
	orr	x9,x9,x9,lsr #32
	lsr	x10,x9,#16
	orr	w9,w9,w10
	orr	w9,w9,w9,lsr #8
	tst	w9,#0xff
	b.ne	29f
	mov	w8,#4097
	mov	x1,xzr
	dup	v2.8h,w8
	mov	w8,#16
	mul	v1.8h,v1.8h,v2.8h
	mul	v0.8h,v0.8h,v2.8h
	uzp2	v0.16b,v0.16b,v1.16b
	str	q0,[x2]
	b	30f
12:
	cmp	x1,#3
	add	x9,x0,x1
	b.hi	20f
	ldr	h0,[x0]
	sub	x9,x9,#2
	movi	v2.4h,#55
	movi	v3.16b,#143
	ld1	{ v0.h }[1],[x9]
	zip1	v0.8b,v0.8b,v0.8b
	fmov	d1,d0
	bic	v1.4h,#255,lsl #8
	uqsub	v1.4h,v1.4h,v2.4h
	movi	v2.2d,#0000000000000000
	umov	w9,v1.h[0]
	umov	w10,v1.h[1]
	mov	v2.b[0],w9
	umov	w9,v1.h[2]
	mov	v2.b[1],w10
	umov	w10,v1.h[3]
	mov	v2.b[2],w9
	hex_page	x9,.L100aar_CPI15_0
	mov	v2.b[3],w10
	and	v2.16b,v2.16b,v3.16b
	hex_value	q3,x9,.L100aar_CPI15_0
	tbl	v2.16b,{ v3.16b },v2.16b
	movi	v3.4h,#32
	zip1	v2.8b,v2.8b,v0.8b
	eor	v0.8b,v0.8b,v3.8b
	bic	v2.4h,#255,lsl #8
	uqsub	v1.4h,v2.4h,v1.4h
	movi	v2.4h,#240
	eor	v0.8b,v0.8b,v1.8b
	and	v1.8b,v0.8b,v2.8b
	fmov	x9,d1
	lsr	x10,x9,#32
	orr	w9,w9,w10
	orr	w9,w9,w9,lsr #16
	tst	w9,#0xff
	b.ne	29f
	uzp1	v0.8b,v0.8b,v0.8b
	mov	w9,#4097
	mov	x1,xzr
	dup	v1.2s,w9
	add	x9,x2,x8
	zip1	v0.4h,v0.4h,v0.4h
	mul	v0.2s,v0.2s,v1.2s
	movi	d1,#0x00ffff0000ffff
	and	v0.8b,v0.8b,v1.8b
	ushr	v0.2s,v0.2s,#8
	mov	s1,v0.s[1]
	str	b0,[x2]
	stur	b1,[x9,#-1]
	b	30f
15:
	cmp	x1,#64
	b.hi	23f
	movi	v0.16b,#55
	add	x9,x0,x1
	movi	v5.16b,#143
	ldp	q1,q2,[x0]
	movi	v21.16b,#32
	ldp	q3,q4,[x9,#-32]
	hex_page	x9,.L100aar_CPI15_0
	hex_value	q17,x9,.L100aar_CPI15_0
	uqsub	v6.16b,v1.16b,v0.16b
	uqsub	v7.16b,v4.16b,v0.16b
	uqsub	v16.16b,v3.16b,v0.16b
	uqsub	v0.16b,v2.16b,v0.16b
	eor	v1.16b,v1.16b,v21.16b
	eor	v3.16b,v3.16b,v21.16b
	eor	v2.16b,v2.16b,v21.16b
	eor	v4.16b,v4.16b,v21.16b
	and	v18.16b,v6.16b,v5.16b
	and	v19.16b,v0.16b,v5.16b
	and	v20.16b,v16.16b,v5.16b
	and	v5.16b,v7.16b,v5.16b
	tbl	v18.16b,{ v17.16b },v18.16b
	tbl	v19.16b,{ v17.16b },v19.16b
	tbl	v20.16b,{ v17.16b },v20.16b
	tbl	v5.16b,{ v17.16b },v5.16b
	uqsub	v6.16b,v18.16b,v6.16b
	uqsub	v16.16b,v20.16b,v16.16b
	uqsub	v17.16b,v19.16b,v0.16b
	uqsub	v5.16b,v5.16b,v7.16b
	eor	v0.16b,v1.16b,v6.16b
	movi	v6.16b,#240
	eor	v1.16b,v3.16b,v16.16b
	eor	v3.16b,v2.16b,v17.16b
	eor	v2.16b,v4.16b,v5.16b
	orr	v4.16b,v3.16b,v2.16b
	orr	v5.16b,v0.16b,v1.16b
	orr	v4.16b,v5.16b,v4.16b
	and	v4.16b,v4.16b,v6.16b
	ext	v5.16b,v4.16b,v4.16b,#8
	orr	v4.8b,v4.8b,v5.8b
	fmov	x9,d4
	orr	x9,x9,x9,lsr #32
	lsr	x10,x9,#16
	orr	w9,w9,w10
	orr	w9,w9,w9,lsr #8
	tst	w9,#0xff
	b.ne	29f
	mov	w9,#4097
	mov	x1,xzr
	dup	v4.8h,w9
	add	x9,x2,x8
	mul	v3.8h,v3.8h,v4.8h
	mul	v0.8h,v0.8h,v4.8h
	mul	v1.8h,v1.8h,v4.8h
	mul	v2.8h,v2.8h,v4.8h
	uzp2	v0.16b,v0.16b,v3.16b
	uzp2	v1.16b,v1.16b,v2.16b
	str	q0,[x2]
	stur	q1,[x9,#-16]
	b	30f
18:
	add	x9,x0,x1
	ldr	q1,[x0]
	movi	v4.16b,#143
	ldur	q2,[x9,#-16]
	hex_page	x9,.L100aar_CPI15_0
	hex_value	q6,x9,.L100aar_CPI15_0
	uqsub	v3.16b,v2.16b,v0.16b
	uqsub	v0.16b,v1.16b,v0.16b
	and	v5.16b,v0.16b,v4.16b
	and	v4.16b,v3.16b,v4.16b
	tbl	v5.16b,{ v6.16b },v5.16b
	tbl	v4.16b,{ v6.16b },v4.16b
	movi	v6.16b,#32
	uqsub	v0.16b,v5.16b,v0.16b
	uqsub	v3.16b,v4.16b,v3.16b
	eor	v1.16b,v1.16b,v6.16b
	eor	v2.16b,v2.16b,v6.16b
	eor	v0.16b,v1.16b,v0.16b
	eor	v1.16b,v2.16b,v3.16b
	movi	v2.16b,#240
	orr	v3.16b,v0.16b,v1.16b
	and	v2.16b,v3.16b,v2.16b
	ext	v3.16b,v2.16b,v2.16b,#8
	orr	v2.8b,v2.8b,v3.8b
	fmov	x9,d2
	orr	x9,x9,x9,lsr #32
	lsr	x10,x9,#16
	orr	w9,w9,w10
	orr	w9,w9,w9,lsr #8
	tst	w9,#0xff
	b.ne	29f
	mov	w9,#4097
	mov	x1,xzr
	dup	v2.8h,w9
	add	x9,x2,x8
	mul	v0.8h,v0.8h,v2.8h
	mul	v1.8h,v1.8h,v2.8h
	shrn	v0.8b,v0.8h,#8
	shrn	v1.8b,v1.8h,#8
	str	d0,[x2]
	stur	d1,[x9,#-8]
	b	30f
20:
	cmp	x1,#7
	b.hi	26f
	ldr	s0,[x0]
	sub	x9,x9,#4
	movi	v1.8b,#55
	movi	v2.16b,#143
	ld1	{ v0.s }[1],[x9]
	hex_page	x9,.L100aar_CPI15_0
	hex_value	q3,x9,.L100aar_CPI15_0
	uqsub	v1.8b,v0.8b,v1.8b
	and	v2.16b,v1.16b,v2.16b
	tbl	v2.16b,{ v3.16b },v2.16b
	movi	v3.8b,#32
	uqsub	v1.8b,v2.8b,v1.8b
	eor	v0.8b,v0.8b,v3.8b
	movi	v2.8b,#240
	eor	v0.8b,v0.8b,v1.8b
	and	v1.8b,v0.8b,v2.8b
	fmov	x9,d1
	orr	x9,x9,x9,lsr #32
	lsr	x10,x9,#16
	orr	w9,w9,w10
	orr	w9,w9,w9,lsr #8
	tst	w9,#0xff
	b.ne	29f
	mov	w9,#4097
	mov	x1,xzr
	dup	v1.4h,w9
	add	x9,x2,x8
	mul	v0.4h,v0.4h,v1.4h
	ushr	v0.4h,v0.4h,#8
	ushll	v0.4s,v0.4h,#0
	ext	v1.16b,v0.16b,v0.16b,#8
	mov	s2,v0.s[1]
	str	b0,[x2]
	mov	s3,v1.s[1]
	stur	b2,[x2,#1]
	stur	b1,[x9,#-2]
	stur	b3,[x9,#-1]
	b	30f
23:
	movi	v7.16b,#55
	ldp	q1,q0,[x0,#32]
	ldp	q2,q3,[x0]
	movi	v6.16b,#143
	hex_page	x9,.L100aar_CPI15_0
	movi	v4.16b,#32
	cmp	x1,#128
	hex_value	q5,x9,.L100aar_CPI15_0
	uqsub	v16.16b,v0.16b,v7.16b
	uqsub	v17.16b,v1.16b,v7.16b
	uqsub	v18.16b,v3.16b,v7.16b
	uqsub	v19.16b,v2.16b,v7.16b
	eor	v0.16b,v0.16b,v4.16b
	eor	v1.16b,v1.16b,v4.16b
	eor	v3.16b,v3.16b,v4.16b
	eor	v2.16b,v2.16b,v4.16b
	and	v20.16b,v16.16b,v6.16b
	and	v22.16b,v18.16b,v6.16b
	and	v23.16b,v17.16b,v6.16b
	and	v21.16b,v19.16b,v6.16b
	tbl	v20.16b,{ v5.16b },v20.16b
	tbl	v22.16b,{ v5.16b },v22.16b
	tbl	v23.16b,{ v5.16b },v23.16b
	tbl	v21.16b,{ v5.16b },v21.16b
	uqsub	v16.16b,v20.16b,v16.16b
	uqsub	v17.16b,v23.16b,v17.16b
	uqsub	v18.16b,v22.16b,v18.16b
	uqsub	v19.16b,v21.16b,v19.16b
	eor	v0.16b,v0.16b,v16.16b
	eor	v1.16b,v1.16b,v17.16b
	eor	v3.16b,v3.16b,v18.16b
	eor	v2.16b,v2.16b,v19.16b
	b.hi	28f
	add	x9,x0,x1
	ldp	q18,q16,[x9,#-48]
	ldur	q17,[x9,#-64]
	ldur	q19,[x9,#-16]
	uqsub	v20.16b,v16.16b,v7.16b
	uqsub	v21.16b,v19.16b,v7.16b
	uqsub	v22.16b,v18.16b,v7.16b
	uqsub	v7.16b,v17.16b,v7.16b
	eor	v17.16b,v17.16b,v4.16b
	and	v23.16b,v20.16b,v6.16b
	and	v25.16b,v22.16b,v6.16b
	and	v24.16b,v7.16b,v6.16b
	and	v6.16b,v21.16b,v6.16b
	tbl	v23.16b,{ v5.16b },v23.16b
	tbl	v25.16b,{ v5.16b },v25.16b
	tbl	v24.16b,{ v5.16b },v24.16b
	tbl	v5.16b,{ v5.16b },v6.16b
	eor	v6.16b,v16.16b,v4.16b
	uqsub	v16.16b,v23.16b,v20.16b
	uqsub	v20.16b,v25.16b,v22.16b
	uqsub	v5.16b,v5.16b,v21.16b
	uqsub	v21.16b,v24.16b,v7.16b
	eor	v7.16b,v18.16b,v4.16b
	eor	v18.16b,v19.16b,v4.16b
	eor	v6.16b,v6.16b,v16.16b
	eor	v4.16b,v7.16b,v20.16b
	eor	v7.16b,v18.16b,v5.16b
	eor	v5.16b,v17.16b,v21.16b
	orr	v16.16b,v6.16b,v1.16b
	orr	v19.16b,v4.16b,v3.16b
	orr	v17.16b,v5.16b,v2.16b
	orr	v18.16b,v7.16b,v0.16b
	orr	v18.16b,v19.16b,v18.16b
	orr	v16.16b,v17.16b,v16.16b
	movi	v17.16b,#240
	orr	v16.16b,v16.16b,v18.16b
	and	v16.16b,v16.16b,v17.16b
	ext	v17.16b,v16.16b,v16.16b,#8
	orr	v16.8b,v16.8b,v17.8b
	fmov	x9,d16
	orr	x9,x9,x9,lsr #32
	lsr	x10,x9,#16
	orr	w9,w9,w10
	orr	w9,w9,w9,lsr #8
	tst	w9,#0xff
	b.ne	29f
	mov	w9,#4097
	mov	x1,xzr
	dup	v16.8h,w9
	add	x9,x2,x8
	mul	v3.8h,v3.8h,v16.8h
	mul	v2.8h,v2.8h,v16.8h
	mul	v1.8h,v1.8h,v16.8h
	mul	v0.8h,v0.8h,v16.8h
	mul	v6.8h,v6.8h,v16.8h
	mul	v7.8h,v7.8h,v16.8h
	mul	v4.8h,v4.8h,v16.8h
	mul	v5.8h,v5.8h,v16.8h
	uzp2	v2.16b,v2.16b,v3.16b
	uzp2	v0.16b,v1.16b,v0.16b
	uzp2	v1.16b,v6.16b,v7.16b
	uzp2	v3.16b,v5.16b,v4.16b
	stp	q2,q0,[x2]
	stp	q3,q1,[x9,#-32]
	b	30f
26:
	ldr	d0,[x0]
	ldur	d1,[x9,#-8]
	movi	v2.16b,#143
	hex_page	x9,.L100aar_CPI15_0
	mov	v0.d[1],v1.d[0]
	movi	v1.16b,#55
	hex_value	q3,x9,.L100aar_CPI15_0
	uqsub	v1.16b,v0.16b,v1.16b
	and	v2.16b,v1.16b,v2.16b
	tbl	v2.16b,{ v3.16b },v2.16b
	movi	v3.16b,#32
	uqsub	v1.16b,v2.16b,v1.16b
	eor	v0.16b,v0.16b,v3.16b
	movi	v2.16b,#240
	eor	v0.16b,v0.16b,v1.16b
	and	v1.16b,v0.16b,v2.16b
	ext	v2.16b,v1.16b,v1.16b,#8
	orr	v1.8b,v1.8b,v2.8b
	fmov	x9,d1
	orr	x9,x9,x9,lsr #32
	lsr	x10,x9,#16
	orr	w9,w9,w10
	orr	w9,w9,w9,lsr #8
	tst	w9,#0xff
	b.ne	29f
	mov	w9,#4097
	mov	x1,xzr
	dup	v1.8h,w9
	add	x9,x2,x8
	mul	v0.8h,v0.8h,v1.8h
	ushr	v1.8h,v0.8h,#8
	shrn	v0.8b,v0.8h,#8
	dup	v1.2d,v1.d[1]
	str	s0,[x2]
	xtn	v1.8b,v1.8h
	stur	s1,[x9,#-4]
	b	30f
28:
	ldp	q16,q18,[x0,#80]
	add	x9,x0,x1
	ldr	q17,[x0,#64]
	ldr	q19,[x0,#112]
	ldp	q20,q21,[x9,#-64]
	ldp	q24,q25,[x9,#-32]
	uqsub	v22.16b,v18.16b,v7.16b
	uqsub	v23.16b,v17.16b,v7.16b
	uqsub	v26.16b,v19.16b,v7.16b
	uqsub	v27.16b,v16.16b,v7.16b
	uqsub	v28.16b,v21.16b,v7.16b
	uqsub	v30.16b,v20.16b,v7.16b
	eor	v18.16b,v18.16b,v4.16b
	uqsub	v29.16b,v25.16b,v7.16b
	uqsub	v7.16b,v24.16b,v7.16b
	eor	v17.16b,v17.16b,v4.16b
	and	v8.16b,v22.16b,v6.16b
	eor	v19.16b,v19.16b,v4.16b
	and	v31.16b,v23.16b,v6.16b
	and	v9.16b,v27.16b,v6.16b
	and	v10.16b,v26.16b,v6.16b
	and	v11.16b,v28.16b,v6.16b
	and	v12.16b,v30.16b,v6.16b
	and	v13.16b,v29.16b,v6.16b
	and	v6.16b,v7.16b,v6.16b
	tbl	v8.16b,{ v5.16b },v8.16b
	tbl	v31.16b,{ v5.16b },v31.16b
	tbl	v9.16b,{ v5.16b },v9.16b
	tbl	v10.16b,{ v5.16b },v10.16b
	tbl	v11.16b,{ v5.16b },v11.16b
	tbl	v12.16b,{ v5.16b },v12.16b
	tbl	v13.16b,{ v5.16b },v13.16b
	tbl	v5.16b,{ v5.16b },v6.16b
	uqsub	v6.16b,v8.16b,v22.16b
	uqsub	v22.16b,v31.16b,v23.16b
	uqsub	v23.16b,v10.16b,v26.16b
	uqsub	v26.16b,v9.16b,v27.16b
	uqsub	v27.16b,v11.16b,v28.16b
	uqsub	v28.16b,v13.16b,v29.16b
	uqsub	v29.16b,v12.16b,v30.16b
	eor	v30.16b,v16.16b,v4.16b
	uqsub	v31.16b,v5.16b,v7.16b
	eor	v7.16b,v21.16b,v4.16b
	eor	v21.16b,v25.16b,v4.16b
	eor	v5.16b,v18.16b,v6.16b
	eor	v6.16b,v20.16b,v4.16b
	eor	v20.16b,v24.16b,v4.16b
	eor	v18.16b,v17.16b,v22.16b
	eor	v16.16b,v19.16b,v23.16b
	eor	v19.16b,v30.16b,v26.16b
	eor	v4.16b,v7.16b,v27.16b
	eor	v7.16b,v21.16b,v28.16b
	eor	v6.16b,v6.16b,v29.16b
	eor	v17.16b,v20.16b,v31.16b
	orr	v20.16b,v5.16b,v1.16b
	orr	v21.16b,v19.16b,v3.16b
	orr	v22.16b,v16.16b,v0.16b
	orr	v23.16b,v18.16b,v2.16b
	orr	v20.16b,v20.16b,v17.16b
	orr	v23.16b,v23.16b,v6.16b
	orr	v22.16b,v22.16b,v7.16b
	orr	v21.16b,v21.16b,v4.16b
	orr	v21.16b,v21.16b,v22.16b
	orr	v20.16b,v23.16b,v20.16b
	movi	v22.16b,#240
	orr	v20.16b,v20.16b,v21.16b
	and	v20.16b,v20.16b,v22.16b
	ext	v21.16b,v20.16b,v20.16b,#8
	orr	v20.8b,v20.8b,v21.8b
	fmov	x9,d20
	orr	x9,x9,x9,lsr #32
	lsr	x10,x9,#16
	orr	w9,w9,w10
	orr	w9,w9,w9,lsr #8
	tst	w9,#0xff
	b.eq	31f
29:
	mov	x3,x8
	mov	w4,wzr
	bl	faster_hex_1_0_0_aarch64_core_backend_Backend_decode_or_find_outlined
	mov	w9,#3
	tst	w1,#0xffff
	mov	w8,w1
	csel	x1,xzr,x9,eq
	bfi	x1,x8,#8,#8
	mov	x8,x0
30:
	ldp	x29,x30,[sp,#64]
	mov	x0,x8
	ldp	d9,d8,[sp,#48]
	ldp	d11,d10,[sp,#32]
	ldp	d13,d12,[sp,#16]
	add	sp,sp,#80
	ret
31:
	mov	w9,#4097
	mov	x1,xzr
	dup	v20.8h,w9
	add	x9,x2,x8
	mul	v3.8h,v3.8h,v20.8h
	mul	v2.8h,v2.8h,v20.8h
	mul	v1.8h,v1.8h,v20.8h
	mul	v0.8h,v0.8h,v20.8h
	mul	v19.8h,v19.8h,v20.8h
	mul	v18.8h,v18.8h,v20.8h
	mul	v5.8h,v5.8h,v20.8h
	mul	v16.8h,v16.8h,v20.8h
	mul	v17.8h,v17.8h,v20.8h
	mul	v7.8h,v7.8h,v20.8h
	uzp2	v2.16b,v2.16b,v3.16b
	mul	v3.8h,v4.8h,v20.8h
	mul	v4.8h,v6.8h,v20.8h
	uzp2	v0.16b,v1.16b,v0.16b
	uzp2	v1.16b,v18.16b,v19.16b
	uzp2	v5.16b,v5.16b,v16.16b
	uzp2	v6.16b,v17.16b,v7.16b
	stp	q2,q0,[x2]
	uzp2	v2.16b,v4.16b,v3.16b
	stp	q1,q5,[x2,#32]
	stp	q2,q6,[x9,#-32]
	b	30b
	hex_end	faster_hex_1_0_0_aarch64_decode
	hex_merged	16
	.p2align	4,0x0
.L100aar_CPI16_0:
	.byte	48,49,50,51,52,53,54,55,56,57,97,98,99,100,101,102
.L100aar_CPI16_1:
	.byte	48,49,50,51,52,53,54,55,56,57,65,66,67,68,69,70
.L100aar_CPI16_2:
	.byte	0,16,1,17,0,16,1,17,0,16,1,17,0,16,1,17
	hex_export	faster_hex_1_0_0_aarch64_encode
	hint	#34
	mov	x8,x1
	cmp	x1,x3,lsr #1
	b.ls	2f
	bic	x9,x8,x8,asr #63
	cmp	x8,#0
	mov	w8,#2
	mov	w10,#4
	lsl	x9,x9,#1
	csel	x1,x10,x8,mi
	b	23f
2:
	lsl	x9,x8,#1
	subs	x10,x8,#32
	b.hi	5f
	b.ne	7f
	movi	v0.16b,#15
	ldp	q2,q1,[x0]
	tst	w4,#0x1
	hex_page	x9,.L100aar_CPI16_0
	mov	x1,xzr
	csetm	w8,ne
	hex_value	q5,x9,.L100aar_CPI16_0
	dup	v3.16b,w8
	hex_page	x8,.L100aar_CPI16_1
	ushr	v4.16b,v1.16b,#4
	and	v1.16b,v1.16b,v0.16b
	and	v0.16b,v2.16b,v0.16b
	ushr	v2.16b,v2.16b,#4
	hex_value	q6,x8,.L100aar_CPI16_1
	mov	w8,#64
	mov	x0,x8
	bsl	v3.16b,v6.16b,v5.16b
	zip2	v5.16b,v4.16b,v1.16b
	zip1	v1.16b,v4.16b,v1.16b
	zip2	v4.16b,v2.16b,v0.16b
	zip1	v0.16b,v2.16b,v0.16b
	tbl	v2.16b,{ v3.16b },v5.16b
	tbl	v1.16b,{ v3.16b },v1.16b
	tbl	v4.16b,{ v3.16b },v4.16b
	tbl	v0.16b,{ v3.16b },v0.16b
	stp	q1,q2,[x2,#32]
	stp	q0,q4,[x2]
	ret
5:
	subs	x11,x8,#64
	b.hi	11f
	movi	v0.16b,#15
	ldp	q2,q1,[x0]
	tst	w4,#0x1
	hex_page	x11,.L100aar_CPI16_0
	mov	x1,xzr
	csetm	w8,ne
	hex_value	q5,x11,.L100aar_CPI16_0
	dup	v3.16b,w8
	hex_page	x8,.L100aar_CPI16_1
	ushr	v4.16b,v1.16b,#4
	and	v1.16b,v1.16b,v0.16b
	ushr	v7.16b,v2.16b,#4
	and	v2.16b,v2.16b,v0.16b
	hex_value	q6,x8,.L100aar_CPI16_1
	add	x8,x0,x10
	bsl	v3.16b,v6.16b,v5.16b
	zip2	v5.16b,v4.16b,v1.16b
	zip1	v1.16b,v4.16b,v1.16b
	zip2	v4.16b,v7.16b,v2.16b
	zip1	v2.16b,v7.16b,v2.16b
	tbl	v5.16b,{ v3.16b },v5.16b
	tbl	v1.16b,{ v3.16b },v1.16b
	tbl	v4.16b,{ v3.16b },v4.16b
	tbl	v2.16b,{ v3.16b },v2.16b
	stp	q1,q5,[x2,#32]
	stp	q2,q4,[x2]
	ldp	q2,q1,[x8]
	add	x8,x2,x10,lsl #1
	ushr	v4.16b,v1.16b,#4
	and	v1.16b,v1.16b,v0.16b
	ushr	v5.16b,v2.16b,#4
	and	v0.16b,v2.16b,v0.16b
	zip2	v2.16b,v4.16b,v1.16b
	zip1	v1.16b,v4.16b,v1.16b
	zip2	v4.16b,v5.16b,v0.16b
	zip1	v0.16b,v5.16b,v0.16b
	tbl	v2.16b,{ v3.16b },v2.16b
	tbl	v1.16b,{ v3.16b },v1.16b
	tbl	v4.16b,{ v3.16b },v4.16b
	tbl	v0.16b,{ v3.16b },v0.16b
	stp	q1,q2,[x8,#32]
	b	22f
7:
	cmp	x8,#7
	b.hi	15f
	mov	x1,x8
	cbz	x8,24f
	cmp	x8,#1
	b.ne	27f
	ldrb	w8,[x0]
	tst	w4,#0x1
	movi	v2.2d,#0xff00ff00ff00ff
	csetm	w9,ne
	mov	x1,xzr
	lsr	w10,w8,#4
	and	w8,w8,#0xf
	dup	v0.16b,w9
	dup	v1.16b,w8
	hex_page	x8,.L100aar_CPI16_0
	hex_page	x9,.L100aar_CPI16_1
	dup	v3.16b,w10
	hex_value	q4,x8,.L100aar_CPI16_0
	hex_value	q5,x9,.L100aar_CPI16_1
	mov	w8,#2
	bsl	v0.16b,v5.16b,v4.16b
	mov	x0,x8
	bit	v1.16b,v3.16b,v2.16b
	tbl	v0.16b,{ v0.16b },v1.16b
	mov	b1,v0.b[1]
	str	b0,[x2]
	stur	b1,[x2,#1]
	ret
11:
	tst	w4,#0x1
	hex_page	x13,.L100aar_CPI16_0
	hex_page	x14,.L100aar_CPI16_1
	csetm	w12,ne
	hex_value	q1,x13,.L100aar_CPI16_0
	hex_value	q2,x14,.L100aar_CPI16_1
	dup	v0.16b,w12
	cmp	x8,#128
	bsl	v0.16b,v2.16b,v1.16b
	b.hi	17f
	movi	v1.16b,#15
	ldp	q3,q2,[x0]
	cmp	x8,#97
	ushr	v4.16b,v2.16b,#4
	ushr	v5.16b,v3.16b,#4
	and	v2.16b,v2.16b,v1.16b
	and	v3.16b,v3.16b,v1.16b
	zip2	v6.16b,v4.16b,v2.16b
	zip1	v2.16b,v4.16b,v2.16b
	zip2	v4.16b,v5.16b,v3.16b
	zip1	v3.16b,v5.16b,v3.16b
	tbl	v5.16b,{ v0.16b },v6.16b
	tbl	v2.16b,{ v0.16b },v2.16b
	tbl	v4.16b,{ v0.16b },v4.16b
	tbl	v3.16b,{ v0.16b },v3.16b
	stp	q2,q5,[x2,#32]
	stp	q3,q4,[x2]
	ldp	q3,q2,[x0,#32]
	ushr	v4.16b,v2.16b,#4
	and	v2.16b,v2.16b,v1.16b
	ushr	v5.16b,v3.16b,#4
	and	v3.16b,v3.16b,v1.16b
	zip2	v6.16b,v4.16b,v2.16b
	zip1	v2.16b,v4.16b,v2.16b
	zip2	v4.16b,v5.16b,v3.16b
	zip1	v3.16b,v5.16b,v3.16b
	tbl	v5.16b,{ v0.16b },v6.16b
	tbl	v2.16b,{ v0.16b },v2.16b
	tbl	v4.16b,{ v0.16b },v4.16b
	tbl	v3.16b,{ v0.16b },v3.16b
	stp	q2,q5,[x2,#96]
	stp	q3,q4,[x2,#64]
	b.lo	14f
	add	x8,x0,x11
	ldp	q3,q2,[x8]
	add	x8,x2,x11,lsl #1
	ushr	v4.16b,v2.16b,#4
	and	v2.16b,v2.16b,v1.16b
	ushr	v5.16b,v3.16b,#4
	and	v3.16b,v3.16b,v1.16b
	zip2	v6.16b,v4.16b,v2.16b
	zip1	v2.16b,v4.16b,v2.16b
	zip2	v4.16b,v5.16b,v3.16b
	zip1	v3.16b,v5.16b,v3.16b
	tbl	v5.16b,{ v0.16b },v6.16b
	tbl	v2.16b,{ v0.16b },v2.16b
	tbl	v4.16b,{ v0.16b },v4.16b
	tbl	v3.16b,{ v0.16b },v3.16b
	stp	q2,q5,[x8,#32]
	stp	q3,q4,[x8]
14:
	mov	x1,xzr
	b	21f
15:
	tst	w4,#0x1
	hex_page	x11,.L100aar_CPI16_0
	hex_page	x12,.L100aar_CPI16_1
	csetm	w10,ne
	hex_value	q1,x11,.L100aar_CPI16_0
	hex_value	q2,x12,.L100aar_CPI16_1
	dup	v0.16b,w10
	mov	x1,xzr
	subs	x10,x8,#16
	bsl	v0.16b,v2.16b,v1.16b
	b.hi	25f
	movi	v1.8b,#15
	ldr	d2,[x0]
	sub	x8,x8,#8
	ushr	v3.8b,v2.8b,#4
	and	v2.8b,v2.8b,v1.8b
	zip1	v2.16b,v3.16b,v2.16b
	tbl	v2.16b,{ v0.16b },v2.16b
	str	q2,[x2]
	ldr	d2,[x0,x8]
	lsl	x8,x8,#1
	ushr	v3.8b,v2.8b,#4
	and	v1.8b,v2.8b,v1.8b
	zip1	v1.16b,v3.16b,v1.16b
	tbl	v0.16b,{ v0.16b },v1.16b
	str	q0,[x2,x8]
	b	23f
17:
	lsr	x11,x8,#5
	mov	x12,x0
	mov	x13,x2
18:
	movi	v1.16b,#15
	subs	x11,x11,#1
	ldp	q3,q2,[x12],#32
	ushr	v4.16b,v2.16b,#4
	and	v2.16b,v2.16b,v1.16b
	ushr	v5.16b,v3.16b,#4
	and	v1.16b,v3.16b,v1.16b
	zip2	v3.16b,v4.16b,v2.16b
	zip1	v2.16b,v4.16b,v2.16b
	zip2	v4.16b,v5.16b,v1.16b
	zip1	v1.16b,v5.16b,v1.16b
	tbl	v3.16b,{ v0.16b },v3.16b
	tbl	v2.16b,{ v0.16b },v2.16b
	tbl	v4.16b,{ v0.16b },v4.16b
	tbl	v1.16b,{ v0.16b },v1.16b
	stp	q2,q3,[x13,#32]
	stp	q1,q4,[x13],#64
	b.ne	18b
	tst	x8,#0x1f
	b.eq	26f
	mov	x1,xzr
	movi	v1.16b,#15
21:
	add	x8,x0,x10
	ldp	q3,q2,[x8]
	add	x8,x2,x10,lsl #1
	ushr	v4.16b,v2.16b,#4
	and	v2.16b,v2.16b,v1.16b
	ushr	v5.16b,v3.16b,#4
	and	v1.16b,v3.16b,v1.16b
	zip2	v3.16b,v4.16b,v2.16b
	zip1	v2.16b,v4.16b,v2.16b
	zip2	v4.16b,v5.16b,v1.16b
	zip1	v1.16b,v5.16b,v1.16b
	tbl	v3.16b,{ v0.16b },v3.16b
	tbl	v2.16b,{ v0.16b },v2.16b
	tbl	v4.16b,{ v0.16b },v4.16b
	tbl	v0.16b,{ v0.16b },v1.16b
	stp	q2,q3,[x8,#32]
22:
	stp	q0,q4,[x8]
23:
	mov	x8,x9
24:
	mov	x0,x8
	ret
25:
	movi	v1.16b,#15
	ldr	q2,[x0]
	add	x8,x2,x10,lsl #1
	ushr	v3.16b,v2.16b,#4
	and	v2.16b,v2.16b,v1.16b
	tbl	v3.16b,{ v0.16b },v3.16b
	tbl	v2.16b,{ v0.16b },v2.16b
	zip1	v4.16b,v3.16b,v2.16b
	zip2	v2.16b,v3.16b,v2.16b
	stp	q4,q2,[x2]
	ldr	q2,[x0,x10]
	ushr	v3.16b,v2.16b,#4
	and	v1.16b,v2.16b,v1.16b
	tbl	v2.16b,{ v0.16b },v3.16b
	tbl	v0.16b,{ v0.16b },v1.16b
	zip1	v1.16b,v2.16b,v0.16b
	zip2	v0.16b,v2.16b,v0.16b
	stp	q1,q0,[x8]
	b	23b
26:
	mov	x1,xzr
	b	23b
27:
	tst	w4,#0x1
	hex_page	x11,.L100aar_CPI16_0
	hex_page	x12,.L100aar_CPI16_1
	csetm	w10,ne
	hex_value	q1,x11,.L100aar_CPI16_0
	hex_value	q2,x12,.L100aar_CPI16_1
	dup	v0.16b,w10
	cmp	x8,#3
	bsl	v0.16b,v2.16b,v1.16b
	b.hi	29f
	ldr	h1,[x0]
	hex_page	x10,.L100aar_CPI16_2
	sub	x8,x8,#2
	hex_value	q3,x10,.L100aar_CPI16_2
	mov	x1,xzr
	ushll	v1.8h,v1.8b,#0
	ushll	v2.4s,v1.4h,#0
	ushr	v1.2s,v2.2s,#4
	bic	v2.2s,#240
	mov	v2.b[1],v2.b[4]
	mov	v1.b[1],v1.b[4]
	tbl	v1.16b,{ v1.16b,v2.16b },v3.16b
	tbl	v1.16b,{ v0.16b },v1.16b
	zip1	v1.16b,v1.16b,v0.16b
	xtn	v1.8b,v1.8h
	str	s1,[x2]
	ldr	h1,[x0,x8]
	lsl	x8,x8,#1
	ushll	v1.8h,v1.8b,#0
	ushll	v2.4s,v1.4h,#0
	ushr	v1.2s,v2.2s,#4
	bic	v2.2s,#240
	mov	v2.b[1],v2.b[4]
	mov	v1.b[1],v1.b[4]
	tbl	v1.16b,{ v1.16b,v2.16b },v3.16b
	tbl	v0.16b,{ v0.16b },v1.16b
	zip1	v0.16b,v0.16b,v0.16b
	xtn	v0.8b,v0.8h
	str	s0,[x2,x8]
	b	23b
29:
	ldr	s1,[x0]
	sub	x8,x8,#4
	mov	x1,xzr
	ushll	v1.8h,v1.8b,#0
	ushr	v2.4h,v1.4h,#4
	bic	v1.4h,#240
	umov	w10,v2.h[0]
	umov	w11,v1.h[0]
	umov	w12,v2.h[1]
	umov	w13,v1.h[1]
	umov	w14,v2.h[2]
	umov	w15,v1.h[2]
	umov	w16,v2.h[3]
	umov	w17,v1.h[3]
	fmov	s3,w10
	mov	v3.b[1],w11
	mov	v3.b[2],w12
	mov	v3.b[3],w13
	mov	v3.b[4],w14
	mov	v3.b[5],w15
	mov	v3.b[6],w16
	mov	v3.b[7],w17
	mov	v3.b[8],w10
	mov	v3.b[9],w11
	mov	v3.b[10],w12
	mov	v3.b[11],w13
	mov	v3.b[12],w14
	mov	v3.b[13],w15
	mov	v3.b[14],w16
	mov	v3.b[15],w17
	tbl	v1.16b,{ v0.16b },v3.16b
	str	d1,[x2]
	ldr	s1,[x0,x8]
	lsl	x8,x8,#1
	ushll	v1.8h,v1.8b,#0
	ushr	v2.4h,v1.4h,#4
	bic	v1.4h,#240
	umov	w10,v2.h[0]
	umov	w11,v1.h[0]
	umov	w12,v2.h[1]
	umov	w13,v1.h[1]
	umov	w14,v2.h[2]
	umov	w15,v1.h[2]
	umov	w16,v2.h[3]
	umov	w17,v1.h[3]
	fmov	s3,w10
	mov	v3.b[1],w11
	mov	v3.b[2],w12
	mov	v3.b[3],w13
	mov	v3.b[4],w14
	mov	v3.b[5],w15
	mov	v3.b[6],w16
	mov	v3.b[7],w17
	mov	v3.b[8],w10
	mov	v3.b[9],w11
	mov	v3.b[10],w12
	mov	v3.b[11],w13
	mov	v3.b[12],w14
	mov	v3.b[13],w15
	mov	v3.b[14],w16
	mov	v3.b[15],w17
	tbl	v0.16b,{ v0.16b },v3.16b
	str	d0,[x2,x8]
	b	23b
	hex_end	faster_hex_1_0_0_aarch64_encode
	hex_merged	16
	.p2align	4,0x0
.L100aar_CPI17_0:
	.byte	48,49,50,51,52,53,54,55,56,57,97,98,99,100,101,102
.L100aar_CPI17_1:
	.byte	48,49,50,51,52,53,54,55,56,57,65,66,67,68,69,70
	hex_export	faster_hex_1_0_0_aarch64_encode_grouped
	hint	#34
	mov	x8,xzr
	mov	w9,#6
	cbz	x5,6f
	sxtb	w10,w6
	tbnz	w10,#31,6f
	and	w10,w6,#0xff
	cmp	w10,#48
	b.hs	7f
3:
	tbnz	x1,#63,5f
	cmp	x1,#0
	lsl	x9,x1,#1
	cset	w8,ne
	sub	x8,x1,x8
	udiv	x8,x8,x5
	cmn	x8,x9
	b.lo	12f
5:
	mov	x8,xzr
	mov	w9,#4
6:
	mov	x0,x8
	mov	x1,x9
	ret
7:
	cmp	w10,#58
	b.hs	9f
	mov	x8,xzr
	mov	w9,#6
	mov	x0,x8
	mov	x1,x9
	ret
9:
	cmp	w10,#65
	b.lo	3b
	mov	x8,xzr
	cmp	w10,#71
	mov	w9,#6
	b.lo	6b
	sub	w11,w10,#97
	cmp	w11,#6
	b.hs	3b
	b	6b
12:
	add	x8,x8,x9
	cmp	x3,x8
	b.hs	14f
	mov	w9,#2
	mov	x0,x8
	mov	x1,x9
	ret
14:
	cmp	x5,#4
	b.eq	20f
	cmp	x5,#1
	b.ne	24f
	hex_page	x8,.L100aar_static.15
	hex_address	x8,x8,.L100aar_static.15
	hex_page	x9,.L100aar_static.14
	hex_address	x9,x9,.L100aar_static.14
	tst	w4,#0x1
	csel	x11,x9,x8,ne
	cmp	x1,#2
	b.lo	31f
	sub	x12,x1,#1
	mov	x8,xzr
	mov	x9,x2
	mov	x13,x12
	mov	x14,x0
18:
	ldrb	w15,[x14],#1
	sub	x13,x13,#1
	sub	x8,x8,#3
	ldrh	w15,[x11,x15,lsl #1]
	strb	w10,[x9,#2]
	strh	w15,[x9],#3
	cbnz	x13,18b
	neg	x10,x8
	b	32f
20:
	hex_page	x8,.L100aar_static.15
	hex_address	x8,x8,.L100aar_static.15
	hex_page	x9,.L100aar_static.14
	hex_address	x9,x9,.L100aar_static.14
	tst	w4,#0x1
	csel	x8,x9,x8,ne
	cmp	x1,#5
	b.lo	33f
	mov	x11,xzr
	mov	x9,xzr
	mov	x12,x0
22:
	ldrb	w13,[x12]
	add	x14,x2,x9
	sub	x11,x11,#4
	add	x9,x9,#9
	ldrh	w13,[x8,x13,lsl #1]
	strh	w13,[x14]
	ldrb	w13,[x12,#1]
	ldrh	w13,[x8,x13,lsl #1]
	strh	w13,[x14,#2]
	ldrb	w13,[x12,#2]
	ldrh	w13,[x8,x13,lsl #1]
	strh	w13,[x14,#4]
	ldrb	w13,[x12,#3]
	add	x12,x12,#4
	ldrh	w15,[x8,x13,lsl #1]
	add	x13,x1,x11
	strb	w10,[x14,#8]
	cmp	x13,#4
	strh	w15,[x14,#6]
	b.hi	22b
	neg	x10,x11
	mov	x1,x13
	b	34f
24:
	cmp	x5,x1
	b.hs	38f
	lsl	x9,x5,#1
	hex_page	x11,.L100aar_static.15
	hex_address	x11,x11,.L100aar_static.15
	tst	w4,#0x1
	hex_page	x12,.L100aar_static.14
	hex_address	x12,x12,.L100aar_static.14
	csetm	w8,ne
	csel	x12,x12,x11,ne
	cmp	x5,#7
	b.hi	51f
	mov	x11,xzr
	mov	x8,xzr
	add	x13,x2,#1
	add	x14,x9,#1
	mov	x15,x0
27:
	mov	x16,xzr
	mov	x17,x13
28:
	ldrb	w18,[x15,x16]
	add	x16,x16,#1
	cmp	x5,x16
	ldrh	w18,[x12,x18,lsl #1]
	sturh	w18,[x17,#-1]
	add	x17,x17,#2
	b.ne	28b
	add	x11,x11,x5
	add	x8,x8,x9
	add	x13,x13,x14
	sub	x16,x1,x11
	strb	w10,[x2,x8]
	add	x8,x8,#1
	cmp	x5,x16
	add	x15,x15,x5
	b.lo	27b
	mov	x1,x16
	b	39f
31:
	mov	x12,xzr
	mov	x10,xzr
	mov	x8,xzr
	mov	x9,xzr
	cbz	x1,6b
32:
	ldrb	w8,[x0,x12]
	mov	x9,xzr
	ldrh	w8,[x11,x8,lsl #1]
	strh	w8,[x2,x10]
	add	x8,x10,#2
	mov	x0,x8
	mov	x1,x9
	ret
33:
	mov	x9,xzr
	mov	x10,xzr
34:
	cbz	x1,37f
	add	x11,x9,x2
	add	x10,x0,x10
	mov	x12,x1
	add	x11,x11,#1
36:
	ldrb	w13,[x10],#1
	subs	x12,x12,#1
	ldrh	w13,[x8,x13,lsl #1]
	sturh	w13,[x11,#-1]
	add	x11,x11,#2
	b.ne	36b
37:
	add	x8,x9,x1,lsl #1
	mov	x9,xzr
	mov	x0,x8
	mov	x1,x9
	ret
38:
	mov	x8,xzr
	mov	x11,xzr
39:
	cmp	x1,#7
	add	x10,x0,x11
	add	x9,x2,x8
	b.hi	48f
	hex_page	x11,.L100aar_static.15
	hex_address	x11,x11,.L100aar_static.15
	tst	w4,#0x1
	hex_page	x12,.L100aar_static.14
	hex_address	x12,x12,.L100aar_static.14
	csel	x11,x12,x11,ne
	cbz	x1,81f
	ldrb	w12,[x10]
	cmp	x1,#1
	ldrh	w12,[x11,x12,lsl #1]
	strh	w12,[x9]
	b.eq	81f
	ldrb	w12,[x10,#1]
	cmp	x1,#2
	ldrh	w12,[x11,x12,lsl #1]
	strh	w12,[x9,#2]
	b.eq	81f
	ldrb	w12,[x10,#2]
	cmp	x1,#3
	ldrh	w12,[x11,x12,lsl #1]
	strh	w12,[x9,#4]
	b.eq	81f
	ldrb	w12,[x10,#3]
	cmp	x1,#4
	ldrh	w12,[x11,x12,lsl #1]
	strh	w12,[x9,#6]
	b.eq	81f
	ldrb	w12,[x10,#4]
	cmp	x1,#5
	ldrh	w12,[x11,x12,lsl #1]
	strh	w12,[x9,#8]
	b.eq	81f
	ldrb	w12,[x10,#5]
	cmp	x1,#6
	ldrh	w12,[x11,x12,lsl #1]
	strh	w12,[x9,#10]
	b.eq	81f
	ldrb	w10,[x10,#6]
	ldrh	w10,[x11,x10,lsl #1]
	strh	w10,[x9,#12]
	add	x8,x8,x1,lsl #1
	mov	x9,xzr
	mov	x0,x8
	mov	x1,x9
	ret
48:
	subs	x11,x1,#32
	b.hi	55f
	tst	w4,#0x1
	hex_page	x12,.L100aar_CPI17_0
	hex_page	x13,.L100aar_CPI17_1
	csetm	w11,ne
	hex_value	q1,x12,.L100aar_CPI17_0
	hex_value	q2,x13,.L100aar_CPI17_1
	dup	v0.16b,w11
	cmp	x1,#32
	bsl	v0.16b,v2.16b,v1.16b
	b.ne	57f
	movi	v1.16b,#15
	ldp	q3,q2,[x10]
	ushr	v4.16b,v2.16b,#4
	ushr	v5.16b,v3.16b,#4
	and	v2.16b,v2.16b,v1.16b
	b	79f
51:
	hex_page	x11,.L100aar_CPI17_0
	hex_page	x12,.L100aar_CPI17_1
	dup	v0.16b,w8
	hex_value	q1,x11,.L100aar_CPI17_0
	hex_value	q2,x12,.L100aar_CPI17_1
	cmp	x5,#32
	sub	x12,x5,#16
	sub	x13,x5,#8
	bsl	v0.16b,v2.16b,v1.16b
	b.hi	59f
	b.ne	65f
	mov	x11,xzr
	mov	x8,xzr
	add	x12,x2,x9
54:
	movi	v1.16b,#15
	add	x13,x0,x11
	sub	x1,x1,#32
	ldp	q3,q2,[x13]
	add	x13,x2,x8
	add	x14,x8,x9
	cmp	x1,#32
	add	x11,x11,#32
	ushr	v4.16b,v2.16b,#4
	and	v2.16b,v2.16b,v1.16b
	ushr	v5.16b,v3.16b,#4
	and	v1.16b,v3.16b,v1.16b
	zip2	v3.16b,v4.16b,v2.16b
	zip1	v2.16b,v4.16b,v2.16b
	zip2	v4.16b,v5.16b,v1.16b
	zip1	v1.16b,v5.16b,v1.16b
	tbl	v3.16b,{ v0.16b },v3.16b
	tbl	v2.16b,{ v0.16b },v2.16b
	tbl	v4.16b,{ v0.16b },v4.16b
	tbl	v1.16b,{ v0.16b },v1.16b
	stp	q2,q3,[x13,#32]
	stp	q1,q4,[x13]
	strb	w10,[x12,x8]
	add	x8,x14,#1
	b.hi	54b
	b	39b
55:
	subs	x12,x1,#64
	b.hi	62f
	movi	v0.16b,#15
	ldp	q2,q1,[x10]
	tst	w4,#0x1
	hex_page	x13,.L100aar_CPI17_0
	add	x10,x10,x11
	csetm	w12,ne
	hex_value	q5,x13,.L100aar_CPI17_0
	dup	v3.16b,w12
	hex_page	x12,.L100aar_CPI17_1
	ushr	v4.16b,v1.16b,#4
	and	v1.16b,v1.16b,v0.16b
	ushr	v7.16b,v2.16b,#4
	and	v2.16b,v2.16b,v0.16b
	hex_value	q6,x12,.L100aar_CPI17_1
	bsl	v3.16b,v6.16b,v5.16b
	zip2	v5.16b,v4.16b,v1.16b
	zip1	v1.16b,v4.16b,v1.16b
	zip2	v4.16b,v7.16b,v2.16b
	zip1	v2.16b,v7.16b,v2.16b
	tbl	v5.16b,{ v3.16b },v5.16b
	tbl	v1.16b,{ v3.16b },v1.16b
	tbl	v4.16b,{ v3.16b },v4.16b
	tbl	v2.16b,{ v3.16b },v2.16b
	stp	q1,q5,[x9,#32]
	stp	q2,q4,[x9]
	add	x9,x9,x11,lsl #1
	ldp	q2,q1,[x10]
	ushr	v4.16b,v1.16b,#4
	and	v1.16b,v1.16b,v0.16b
	ushr	v5.16b,v2.16b,#4
	and	v0.16b,v2.16b,v0.16b
	zip2	v2.16b,v4.16b,v1.16b
	zip1	v1.16b,v4.16b,v1.16b
	zip2	v4.16b,v5.16b,v0.16b
	zip1	v0.16b,v5.16b,v0.16b
	tbl	v2.16b,{ v3.16b },v2.16b
	tbl	v1.16b,{ v3.16b },v1.16b
	tbl	v4.16b,{ v3.16b },v4.16b
	tbl	v0.16b,{ v3.16b },v0.16b
	stp	q1,q2,[x9,#32]
	b	80f
57:
	subs	x11,x1,#16
	b.hi	68f
	movi	v1.8b,#15
	ldr	d2,[x10]
	sub	x11,x1,#8
	ushr	v3.8b,v2.8b,#4
	and	v2.8b,v2.8b,v1.8b
	zip1	v2.16b,v3.16b,v2.16b
	tbl	v2.16b,{ v0.16b },v2.16b
	str	q2,[x9]
	ldr	d2,[x10,x11]
	lsl	x10,x11,#1
	ushr	v3.8b,v2.8b,#4
	and	v1.8b,v2.8b,v1.8b
	zip1	v1.16b,v3.16b,v1.16b
	tbl	v0.16b,{ v0.16b },v1.16b
	str	q0,[x9,x10]
	add	x8,x8,x1,lsl #1
	mov	x9,xzr
	mov	x0,x8
	mov	x1,x9
	ret
59:
	cmp	x5,#64
	sub	x12,x5,#32
	b.hi	69f
	mov	x11,xzr
	mov	x8,xzr
	add	x12,x0,x12
	add	x13,x2,x9
61:
	movi	v1.16b,#15
	add	x14,x0,x11
	add	x15,x12,x11
	ldp	q3,q2,[x14]
	add	x14,x2,x8
	sub	x1,x1,x5
	add	x11,x11,x5
	cmp	x5,x1
	ushr	v4.16b,v2.16b,#4
	and	v2.16b,v2.16b,v1.16b
	ushr	v5.16b,v3.16b,#4
	and	v3.16b,v3.16b,v1.16b
	zip2	v6.16b,v4.16b,v2.16b
	zip1	v2.16b,v4.16b,v2.16b
	zip2	v4.16b,v5.16b,v3.16b
	zip1	v3.16b,v5.16b,v3.16b
	tbl	v5.16b,{ v0.16b },v6.16b
	tbl	v2.16b,{ v0.16b },v2.16b
	tbl	v4.16b,{ v0.16b },v4.16b
	tbl	v3.16b,{ v0.16b },v3.16b
	stp	q2,q5,[x14,#32]
	stp	q3,q4,[x14]
	add	x14,x13,x8
	add	x8,x8,x9
	ldp	q3,q2,[x15]
	add	x8,x8,#1
	strb	w10,[x14]
	ushr	v4.16b,v2.16b,#4
	and	v2.16b,v2.16b,v1.16b
	ushr	v5.16b,v3.16b,#4
	and	v1.16b,v3.16b,v1.16b
	zip2	v3.16b,v4.16b,v2.16b
	zip1	v2.16b,v4.16b,v2.16b
	zip2	v4.16b,v5.16b,v1.16b
	zip1	v1.16b,v5.16b,v1.16b
	tbl	v3.16b,{ v0.16b },v3.16b
	tbl	v2.16b,{ v0.16b },v2.16b
	tbl	v4.16b,{ v0.16b },v4.16b
	tbl	v1.16b,{ v0.16b },v1.16b
	stp	q2,q3,[x14,#-32]
	stp	q1,q4,[x14,#-64]
	b.lo	61b
	b	39b
62:
	tst	w4,#0x1
	hex_page	x14,.L100aar_CPI17_0
	hex_page	x15,.L100aar_CPI17_1
	csetm	w13,ne
	hex_value	q1,x14,.L100aar_CPI17_0
	hex_value	q2,x15,.L100aar_CPI17_1
	dup	v0.16b,w13
	cmp	x1,#128
	bsl	v0.16b,v2.16b,v1.16b
	b.hi	74f
	movi	v1.16b,#15
	ldp	q3,q2,[x10]
	cmp	x1,#97
	ushr	v4.16b,v2.16b,#4
	ushr	v5.16b,v3.16b,#4
	and	v2.16b,v2.16b,v1.16b
	and	v3.16b,v3.16b,v1.16b
	zip2	v6.16b,v4.16b,v2.16b
	zip1	v2.16b,v4.16b,v2.16b
	zip2	v4.16b,v5.16b,v3.16b
	zip1	v3.16b,v5.16b,v3.16b
	tbl	v5.16b,{ v0.16b },v6.16b
	tbl	v2.16b,{ v0.16b },v2.16b
	tbl	v4.16b,{ v0.16b },v4.16b
	tbl	v3.16b,{ v0.16b },v3.16b
	stp	q2,q5,[x9,#32]
	stp	q3,q4,[x9]
	ldp	q3,q2,[x10,#32]
	ushr	v4.16b,v2.16b,#4
	and	v2.16b,v2.16b,v1.16b
	ushr	v5.16b,v3.16b,#4
	and	v3.16b,v3.16b,v1.16b
	zip2	v6.16b,v4.16b,v2.16b
	zip1	v2.16b,v4.16b,v2.16b
	zip2	v4.16b,v5.16b,v3.16b
	zip1	v3.16b,v5.16b,v3.16b
	tbl	v5.16b,{ v0.16b },v6.16b
	tbl	v2.16b,{ v0.16b },v2.16b
	tbl	v4.16b,{ v0.16b },v4.16b
	tbl	v3.16b,{ v0.16b },v3.16b
	stp	q2,q5,[x9,#96]
	stp	q3,q4,[x9,#64]
	b.lo	78f
	add	x13,x10,x12
	add	x12,x9,x12,lsl #1
	ldp	q3,q2,[x13]
	ushr	v4.16b,v2.16b,#4
	and	v2.16b,v2.16b,v1.16b
	ushr	v5.16b,v3.16b,#4
	and	v3.16b,v3.16b,v1.16b
	zip2	v6.16b,v4.16b,v2.16b
	zip1	v2.16b,v4.16b,v2.16b
	zip2	v4.16b,v5.16b,v3.16b
	zip1	v3.16b,v5.16b,v3.16b
	tbl	v5.16b,{ v0.16b },v6.16b
	tbl	v2.16b,{ v0.16b },v2.16b
	tbl	v4.16b,{ v0.16b },v4.16b
	tbl	v3.16b,{ v0.16b },v3.16b
	stp	q2,q5,[x12,#32]
	stp	q3,q4,[x12]
	b	78f
65:
	cmp	x5,#17
	b.hs	82f
	mov	x11,xzr
	mov	x8,xzr
	add	x12,x0,x13
	add	x13,x2,x9
67:
	movi	v1.8b,#15
	ldr	d2,[x0,x11]
	add	x14,x13,x8
	sub	x1,x1,x5
	ushr	v3.8b,v2.8b,#4
	cmp	x5,x1
	and	v2.8b,v2.8b,v1.8b
	zip1	v2.16b,v3.16b,v2.16b
	tbl	v2.16b,{ v0.16b },v2.16b
	str	q2,[x2,x8]
	add	x8,x8,x9
	ldr	d2,[x12,x11]
	add	x11,x11,x5
	add	x8,x8,#1
	strb	w10,[x14]
	ushr	v3.8b,v2.8b,#4
	and	v1.8b,v2.8b,v1.8b
	zip1	v1.16b,v3.16b,v1.16b
	tbl	v1.16b,{ v0.16b },v1.16b
	stur	q1,[x14,#-16]
	b.lo	67b
	b	39b
68:
	movi	v1.16b,#15
	ldr	q2,[x10]
	ushr	v3.16b,v2.16b,#4
	and	v2.16b,v2.16b,v1.16b
	tbl	v3.16b,{ v0.16b },v3.16b
	tbl	v2.16b,{ v0.16b },v2.16b
	zip1	v4.16b,v3.16b,v2.16b
	zip2	v2.16b,v3.16b,v2.16b
	stp	q4,q2,[x9]
	add	x9,x9,x11,lsl #1
	ldr	q2,[x10,x11]
	ushr	v3.16b,v2.16b,#4
	and	v1.16b,v2.16b,v1.16b
	tbl	v2.16b,{ v0.16b },v3.16b
	tbl	v0.16b,{ v0.16b },v1.16b
	zip1	v1.16b,v2.16b,v0.16b
	zip2	v0.16b,v2.16b,v0.16b
	stp	q1,q0,[x9]
	add	x8,x8,x1,lsl #1
	mov	x9,xzr
	mov	x0,x8
	mov	x1,x9
	ret
69:
	cmp	x5,#129
	b.hs	84f
	mov	x11,xzr
	mov	x8,xzr
	add	x13,x2,x9
	mov	x14,x0
	b	72f
71:
	add	x15,x14,x12
	sub	x11,x11,x5
	add	x16,x13,x8
	ldp	q3,q2,[x15]
	add	x15,x1,x11
	add	x8,x8,x9
	cmp	x5,x15
	add	x14,x14,x5
	add	x8,x8,#1
	strb	w10,[x16]
	ushr	v4.16b,v2.16b,#4
	and	v2.16b,v2.16b,v1.16b
	ushr	v5.16b,v3.16b,#4
	and	v1.16b,v3.16b,v1.16b
	zip2	v3.16b,v4.16b,v2.16b
	zip1	v2.16b,v4.16b,v2.16b
	zip2	v4.16b,v5.16b,v1.16b
	zip1	v1.16b,v5.16b,v1.16b
	tbl	v3.16b,{ v0.16b },v3.16b
	tbl	v2.16b,{ v0.16b },v2.16b
	tbl	v4.16b,{ v0.16b },v4.16b
	tbl	v1.16b,{ v0.16b },v1.16b
	stp	q2,q3,[x16,#-32]
	stp	q1,q4,[x16,#-64]
	b.hs	91f
72:
	movi	v1.16b,#15
	ldp	q3,q2,[x14]
	add	x15,x2,x8
	cmp	x5,#97
	ushr	v4.16b,v2.16b,#4
	ushr	v5.16b,v3.16b,#4
	and	v2.16b,v2.16b,v1.16b
	and	v3.16b,v3.16b,v1.16b
	zip2	v6.16b,v4.16b,v2.16b
	zip1	v2.16b,v4.16b,v2.16b
	zip2	v4.16b,v5.16b,v3.16b
	zip1	v3.16b,v5.16b,v3.16b
	tbl	v5.16b,{ v0.16b },v6.16b
	tbl	v2.16b,{ v0.16b },v2.16b
	tbl	v4.16b,{ v0.16b },v4.16b
	tbl	v3.16b,{ v0.16b },v3.16b
	stp	q2,q5,[x15,#32]
	stp	q3,q4,[x15]
	ldp	q3,q2,[x14,#32]
	ushr	v4.16b,v2.16b,#4
	and	v2.16b,v2.16b,v1.16b
	ushr	v5.16b,v3.16b,#4
	and	v3.16b,v3.16b,v1.16b
	zip2	v6.16b,v4.16b,v2.16b
	zip1	v2.16b,v4.16b,v2.16b
	zip2	v4.16b,v5.16b,v3.16b
	zip1	v3.16b,v5.16b,v3.16b
	tbl	v5.16b,{ v0.16b },v6.16b
	tbl	v2.16b,{ v0.16b },v2.16b
	tbl	v4.16b,{ v0.16b },v4.16b
	tbl	v3.16b,{ v0.16b },v3.16b
	stp	q2,q5,[x15,#96]
	stp	q3,q4,[x15,#64]
	b.lo	71b
	add	x15,x14,x12
	ldp	q3,q2,[x15,#-32]
	add	x15,x13,x8
	ushr	v4.16b,v2.16b,#4
	and	v2.16b,v2.16b,v1.16b
	ushr	v5.16b,v3.16b,#4
	and	v3.16b,v3.16b,v1.16b
	zip2	v6.16b,v4.16b,v2.16b
	zip1	v2.16b,v4.16b,v2.16b
	zip2	v4.16b,v5.16b,v3.16b
	zip1	v3.16b,v5.16b,v3.16b
	tbl	v5.16b,{ v0.16b },v6.16b
	tbl	v2.16b,{ v0.16b },v2.16b
	tbl	v4.16b,{ v0.16b },v4.16b
	tbl	v3.16b,{ v0.16b },v3.16b
	stp	q2,q5,[x15,#-96]
	stp	q3,q4,[x15,#-128]
	b	71b
74:
	lsr	x12,x1,#5
	mov	x13,x10
	mov	x14,x9
75:
	movi	v1.16b,#15
	subs	x12,x12,#1
	ldp	q3,q2,[x13],#32
	ushr	v4.16b,v2.16b,#4
	and	v2.16b,v2.16b,v1.16b
	ushr	v5.16b,v3.16b,#4
	and	v1.16b,v3.16b,v1.16b
	zip2	v3.16b,v4.16b,v2.16b
	zip1	v2.16b,v4.16b,v2.16b
	zip2	v4.16b,v5.16b,v1.16b
	zip1	v1.16b,v5.16b,v1.16b
	tbl	v3.16b,{ v0.16b },v3.16b
	tbl	v2.16b,{ v0.16b },v2.16b
	tbl	v4.16b,{ v0.16b },v4.16b
	tbl	v1.16b,{ v0.16b },v1.16b
	stp	q2,q3,[x14,#32]
	stp	q1,q4,[x14],#64
	b.ne	75b
	tst	x1,#0x1f
	b.eq	81f
	movi	v1.16b,#15
78:
	add	x10,x10,x11
	add	x9,x9,x11,lsl #1
	ldp	q3,q2,[x10]
	ushr	v4.16b,v2.16b,#4
	and	v2.16b,v2.16b,v1.16b
	ushr	v5.16b,v3.16b,#4
79:
	and	v1.16b,v3.16b,v1.16b
	zip2	v3.16b,v4.16b,v2.16b
	zip1	v2.16b,v4.16b,v2.16b
	zip2	v4.16b,v5.16b,v1.16b
	zip1	v1.16b,v5.16b,v1.16b
	tbl	v3.16b,{ v0.16b },v3.16b
	tbl	v2.16b,{ v0.16b },v2.16b
	tbl	v4.16b,{ v0.16b },v4.16b
	tbl	v0.16b,{ v0.16b },v1.16b
	stp	q2,q3,[x9,#32]
80:
	stp	q0,q4,[x9]
81:
	add	x8,x8,x1,lsl #1
	mov	x9,xzr
	mov	x0,x8
	mov	x1,x9
	ret
82:
	mov	x11,xzr
	mov	x8,xzr
	add	x12,x0,x12
	add	x13,x2,x9
83:
	movi	v1.16b,#15
	ldr	q2,[x0,x11]
	add	x14,x2,x8
	sub	x1,x1,x5
	ushr	v3.16b,v2.16b,#4
	cmp	x5,x1
	and	v2.16b,v2.16b,v1.16b
	tbl	v3.16b,{ v0.16b },v3.16b
	tbl	v4.16b,{ v0.16b },v2.16b
	zip2	v2.16b,v3.16b,v4.16b
	st2	{ v3.8b,v4.8b },[x14],#16
	str	q2,[x14]
	add	x14,x13,x8
	add	x8,x8,x9
	ldr	q2,[x12,x11]
	sub	x15,x14,#32
	add	x11,x11,x5
	add	x8,x8,#1
	strb	w10,[x14]
	ushr	v3.16b,v2.16b,#4
	and	v1.16b,v2.16b,v1.16b
	tbl	v2.16b,{ v0.16b },v3.16b
	tbl	v3.16b,{ v0.16b },v1.16b
	zip2	v1.16b,v2.16b,v3.16b
	st2	{ v2.8b,v3.8b },[x15]
	stur	q1,[x14,#-16]
	b.lo	83b
	b	39b
84:
	lsr	x13,x5,#5
	lsl	x15,x12,#1
	mov	x11,xzr
	mov	x8,xzr
	and	x14,x5,#0x1f
	add	x16,x9,#1
	mov	x17,x0
	mov	x18,x2
	b	86f
85:
	add	x11,x11,x5
	add	x8,x8,x9
	add	x18,x18,x16
	sub	x3,x1,x11
	strb	w10,[x2,x8]
	add	x8,x8,#1
	cmp	x5,x3
	add	x17,x17,x5
	b.hs	92f
86:
	cbz	x13,89f
	mov	x3,x17
	mov	x6,x18
	mov	x7,x13
88:
	movi	v1.16b,#15
	subs	x7,x7,#1
	ldp	q3,q2,[x3],#32
	ushr	v4.16b,v2.16b,#4
	and	v2.16b,v2.16b,v1.16b
	ushr	v5.16b,v3.16b,#4
	and	v1.16b,v3.16b,v1.16b
	zip2	v3.16b,v4.16b,v2.16b
	zip1	v2.16b,v4.16b,v2.16b
	zip2	v4.16b,v5.16b,v1.16b
	zip1	v1.16b,v5.16b,v1.16b
	tbl	v3.16b,{ v0.16b },v3.16b
	tbl	v2.16b,{ v0.16b },v2.16b
	tbl	v4.16b,{ v0.16b },v4.16b
	tbl	v1.16b,{ v0.16b },v1.16b
	stp	q2,q3,[x6,#32]
	stp	q1,q4,[x6],#64
	b.ne	88b
89:
	cbz	x14,85b
	add	x3,x0,x11
	movi	v1.16b,#15
	add	x3,x3,x12
	ldp	q3,q2,[x3]
	add	x3,x2,x8
	add	x3,x3,x15
	ushr	v4.16b,v2.16b,#4
	and	v2.16b,v2.16b,v1.16b
	ushr	v5.16b,v3.16b,#4
	and	v1.16b,v3.16b,v1.16b
	zip2	v3.16b,v4.16b,v2.16b
	zip1	v2.16b,v4.16b,v2.16b
	zip2	v4.16b,v5.16b,v1.16b
	zip1	v1.16b,v5.16b,v1.16b
	tbl	v3.16b,{ v0.16b },v3.16b
	tbl	v2.16b,{ v0.16b },v2.16b
	tbl	v4.16b,{ v0.16b },v4.16b
	tbl	v1.16b,{ v0.16b },v1.16b
	stp	q2,q3,[x3,#32]
	stp	q1,q4,[x3]
	b	85b
91:
	neg	x11,x11
	mov	x1,x15
	b	39b
92:
	mov	x1,x3
	b	39b
	hex_end	faster_hex_1_0_0_aarch64_encode_grouped
	hex_export	faster_hex_1_0_0_aarch64_check_with_case
	hint	#34
	sub	sp,sp,#160
	and	w8,w2,#0xff
	stp	d15,d14,[sp,#80]
	cmp	w8,#2
	stp	d13,d12,[sp,#96]
	stp	d11,d10,[sp,#112]
	stp	d9,d8,[sp,#128]
	stp	x29,x30,[sp,#144]
	add	x29,sp,#144
	b.hi	6f
	cmp	x1,#32
	b.hi	7f
	cmp	x1,#15
	b.hi	10f
	cbz	x1,20f
	cmp	x1,#1
	b.ne	22f
	and	x9,x2,#0xff
	hex_page	x10,.L100aar_static.0
	hex_address	x10,x10,.L100aar_static.0
	ldrb	w8,[x0]
	ldrb	w10,[x10,x9]
	hex_page	x11,.L100aar_static.1
	hex_address	x11,x11,.L100aar_static.1
	ldrb	w9,[x11,x9]
	sub	w11,w8,#48
	orr	w8,w10,w8
	and	w10,w11,#0xff
	sub	w8,w8,w9
	subs	w9,w10,#9
	and	w8,w8,#0xff
	csel	w9,wzr,w9,lo
	subs	w8,w8,#5
	csel	w8,wzr,w8,lo
	cmp	w9,w8
	csel	w8,w9,w8,lo
	cmp	w8,#0
	cset	w0,eq
	b	21f
6:
	mov	w0,wzr
	b	21f
7:
	cmp	x1,#256
	b.hi	15f
	cmp	x1,#64
	b.hi	16f
	movi	v0.16b,#57
	add	x8,x0,x1
	movi	v3.16b,#143
	ldp	q1,q2,[x0]
	and	x9,x2,#0xff
	ldp	q4,q5,[x8,#-32]
	hex_page	x8,.L100aar_static.2
	hex_address	x8,x8,.L100aar_static.2
	add	v6.16b,v1.16b,v0.16b
	add	v7.16b,v2.16b,v0.16b
	ldr	q17,[x8,x9,lsl #4]
	add	v16.16b,v5.16b,v0.16b
	add	v0.16b,v4.16b,v0.16b
	hex_page	x8,.L100aar_static.3
	hex_address	x8,x8,.L100aar_static.3
	and	v18.16b,v6.16b,v3.16b
	and	v19.16b,v7.16b,v3.16b
	add	x8,x8,x9
	and	v20.16b,v0.16b,v3.16b
	and	v3.16b,v16.16b,v3.16b
	tbl	v18.16b,{ v17.16b },v18.16b
	tbl	v19.16b,{ v17.16b },v19.16b
	tbl	v20.16b,{ v17.16b },v20.16b
	tbl	v3.16b,{ v17.16b },v3.16b
	sub	v1.16b,v18.16b,v1.16b
	sub	v2.16b,v19.16b,v2.16b
	sub	v3.16b,v3.16b,v5.16b
	sub	v4.16b,v20.16b,v4.16b
	eor	v1.16b,v1.16b,v6.16b
	eor	v2.16b,v2.16b,v7.16b
	eor	v0.16b,v4.16b,v0.16b
	eor	v3.16b,v3.16b,v16.16b
	orr	v2.16b,v3.16b,v2.16b
	orr	v0.16b,v0.16b,v1.16b
	ld1r	{ v1.16b },[x8]
	orr	v0.16b,v0.16b,v2.16b
	b	11f
10:
	movi	v0.16b,#57
	add	x8,x0,x1
	ldr	q1,[x0]
	ldur	q2,[x8,#-16]
	movi	v3.16b,#143
	and	x8,x2,#0xff
	hex_page	x9,.L100aar_static.2
	hex_address	x9,x9,.L100aar_static.2
	ldr	q6,[x9,x8,lsl #4]
	hex_page	x9,.L100aar_static.3
	hex_address	x9,x9,.L100aar_static.3
	add	v4.16b,v1.16b,v0.16b
	add	v0.16b,v2.16b,v0.16b
	add	x8,x9,x8
	and	v5.16b,v4.16b,v3.16b
	and	v3.16b,v0.16b,v3.16b
	tbl	v5.16b,{ v6.16b },v5.16b
	tbl	v3.16b,{ v6.16b },v3.16b
	sub	v1.16b,v5.16b,v1.16b
	sub	v2.16b,v3.16b,v2.16b
	eor	v1.16b,v1.16b,v4.16b
	eor	v0.16b,v2.16b,v0.16b
	orr	v0.16b,v0.16b,v1.16b
	ld1r	{ v1.16b },[x8]
11:
	and	v0.16b,v0.16b,v1.16b
12:
	ext	v1.16b,v0.16b,v0.16b,#8
	orr	v0.8b,v0.8b,v1.8b
13:
	fmov	x8,d0
	orr	x8,x8,x8,lsr #32
	lsr	x9,x8,#16
	orr	w8,w8,w9
	orr	w8,w8,w8,lsr #8
14:
	tst	w8,#0xff
	cset	w0,eq
	b	21f
15:
	bl	faster_hex_1_0_0_aarch64_core_plain_check_long_outlined
	b	21f
16:
	and	x8,x2,#0xff
	hex_page	x9,.L100aar_static.2
	hex_address	x9,x9,.L100aar_static.2
	ldr	q0,[x9,x8,lsl #4]
	cmp	x1,#128
	b.hi	24f
	movi	v1.16b,#57
	ldp	q3,q4,[x0]
	ldp	q5,q6,[x0,#32]
	movi	v2.16b,#143
	add	x9,x0,x1
	cmp	x1,#97
	ldp	q20,q19,[x9,#-32]
	add	v16.16b,v3.16b,v1.16b
	add	v7.16b,v4.16b,v1.16b
	add	v17.16b,v6.16b,v1.16b
	add	v18.16b,v5.16b,v1.16b
	add	v21.16b,v19.16b,v1.16b
	add	v24.16b,v20.16b,v1.16b
	and	v22.16b,v16.16b,v2.16b
	and	v23.16b,v7.16b,v2.16b
	and	v26.16b,v17.16b,v2.16b
	and	v25.16b,v18.16b,v2.16b
	and	v27.16b,v21.16b,v2.16b
	and	v28.16b,v24.16b,v2.16b
	tbl	v22.16b,{ v0.16b },v22.16b
	tbl	v23.16b,{ v0.16b },v23.16b
	tbl	v26.16b,{ v0.16b },v26.16b
	tbl	v25.16b,{ v0.16b },v25.16b
	tbl	v27.16b,{ v0.16b },v27.16b
	sub	v3.16b,v22.16b,v3.16b
	tbl	v22.16b,{ v0.16b },v28.16b
	sub	v4.16b,v23.16b,v4.16b
	sub	v6.16b,v26.16b,v6.16b
	sub	v5.16b,v25.16b,v5.16b
	sub	v19.16b,v27.16b,v19.16b
	eor	v16.16b,v3.16b,v16.16b
	eor	v7.16b,v4.16b,v7.16b
	eor	v18.16b,v5.16b,v18.16b
	eor	v5.16b,v6.16b,v17.16b
	sub	v4.16b,v22.16b,v20.16b
	eor	v3.16b,v19.16b,v21.16b
	eor	v4.16b,v4.16b,v24.16b
	orr	v5.16b,v5.16b,v7.16b
	orr	v6.16b,v18.16b,v16.16b
	b.lo	19f
	ldp	q7,q16,[x9,#-64]
	add	v17.16b,v16.16b,v1.16b
	add	v1.16b,v7.16b,v1.16b
	and	v18.16b,v1.16b,v2.16b
	and	v2.16b,v17.16b,v2.16b
	tbl	v18.16b,{ v0.16b },v18.16b
	tbl	v0.16b,{ v0.16b },v2.16b
	sub	v0.16b,v0.16b,v16.16b
	sub	v2.16b,v18.16b,v7.16b
	eor	v1.16b,v2.16b,v1.16b
	eor	v0.16b,v0.16b,v17.16b
	orr	v5.16b,v0.16b,v5.16b
	orr	v6.16b,v1.16b,v6.16b
19:
	orr	v0.16b,v6.16b,v4.16b
	orr	v1.16b,v5.16b,v3.16b
	hex_page	x9,.L100aar_static.3
	hex_address	x9,x9,.L100aar_static.3
	add	x8,x9,x8
	ld1r	{ v2.16b },[x8]
	orr	v0.16b,v0.16b,v1.16b
	and	v0.16b,v2.16b,v0.16b
	b	12b
20:
	mov	w0,#1
21:
	ldp	x29,x30,[sp,#144]
	ldp	d9,d8,[sp,#128]
	ldp	d11,d10,[sp,#112]
	ldp	d13,d12,[sp,#96]
	ldp	d15,d14,[sp,#80]
	add	sp,sp,#160
	ret
22:
	cmp	x1,#3
	b.hi	27f
	add	x8,x0,x1
	ldr	h0,[x0]
	movi	v1.2s,#57
	ldur	h2,[x8,#-2]
	movi	v4.2d,#0000000000000000
	movi	v5.2d,#0000000000000000
	ushll	v0.8h,v0.8b,#0
	and	x8,x2,#0xff
	hex_page	x9,.L100aar_static.2
	hex_address	x9,x9,.L100aar_static.2
	ushll	v2.8h,v2.8b,#0
	uaddw	v3.4s,v1.4s,v0.4h
	uaddw	v1.4s,v1.4s,v2.4h
	fmov	d6,d3
	mov	v3.b[1],v3.b[4]
	fmov	d7,d1
	mov	v1.b[1],v1.b[4]
	mov	v5.h[0],v3.h[0]
	movi	v3.16b,#143
	mov	v4.h[0],v1.h[0]
	and	v1.16b,v5.16b,v3.16b
	and	v3.16b,v4.16b,v3.16b
	ldr	q4,[x9,x8,lsl #4]
	hex_page	x9,.L100aar_static.3
	hex_address	x9,x9,.L100aar_static.3
	tbl	v1.16b,{ v4.16b },v1.16b
	tbl	v3.16b,{ v4.16b },v3.16b
	mov	b4,v1.b[0]
	mov	b5,v3.b[0]
	mov	v4.b[4],v1.b[1]
	mov	v5.b[4],v3.b[1]
	usubw	v0.4s,v4.4s,v0.4h
	usubw	v1.4s,v5.4s,v2.4h
	ldr	b2,[x9,x8]
	eor	v0.8b,v0.8b,v6.8b
	dup	v2.2s,v2.s[0]
	eor	v1.8b,v1.8b,v7.8b
	orr	v0.8b,v1.8b,v0.8b
	and	v0.8b,v0.8b,v2.8b
	fmov	x8,d0
	lsr	x9,x8,#32
	orr	w8,w8,w9
	b	14b
24:
	movi	v2.16b,#57
	ldp	q6,q3,[x0,#32]
	ldp	q18,q19,[x0]
	movi	v20.16b,#143
	ldp	q16,q5,[x0,#96]
	add	x9,x0,x1
	ldp	q26,q27,[x9,#-32]
	cmp	x1,#193
	add	v1.16b,v6.16b,v2.16b
	add	v21.16b,v19.16b,v2.16b
	add	v23.16b,v18.16b,v2.16b
	add	v17.16b,v3.16b,v2.16b
	add	v22.16b,v5.16b,v2.16b
	add	v28.16b,v16.16b,v2.16b
	ldp	q9,q10,[x9,#-64]
	add	v8.16b,v27.16b,v2.16b
	stp	q3,q1,[sp,#32]
	and	v24.16b,v1.16b,v20.16b
	and	v25.16b,v21.16b,v20.16b
	ldp	q1,q7,[x0,#64]
	and	v30.16b,v23.16b,v20.16b
	and	v12.16b,v17.16b,v20.16b
	add	v11.16b,v26.16b,v2.16b
	add	v13.16b,v10.16b,v2.16b
	tbl	v24.16b,{ v0.16b },v24.16b
	tbl	v25.16b,{ v0.16b },v25.16b
	add	v14.16b,v9.16b,v2.16b
	add	v29.16b,v7.16b,v2.16b
	tbl	v30.16b,{ v0.16b },v30.16b
	add	v31.16b,v1.16b,v2.16b
	stp	q1,q16,[sp]
	tbl	v12.16b,{ v0.16b },v12.16b
	and	v3.16b,v8.16b,v20.16b
	str	q5,[sp,#64]
	and	v4.16b,v14.16b,v20.16b
	and	v5.16b,v13.16b,v20.16b
	and	v1.16b,v29.16b,v20.16b
	and	v15.16b,v31.16b,v20.16b
	sub	v6.16b,v24.16b,v6.16b
	and	v24.16b,v22.16b,v20.16b
	sub	v19.16b,v25.16b,v19.16b
	and	v25.16b,v28.16b,v20.16b
	sub	v18.16b,v30.16b,v18.16b
	and	v30.16b,v11.16b,v20.16b
	ldr	q16,[sp,#32]
	tbl	v1.16b,{ v0.16b },v1.16b
	tbl	v15.16b,{ v0.16b },v15.16b
	tbl	v3.16b,{ v0.16b },v3.16b
	tbl	v24.16b,{ v0.16b },v24.16b
	tbl	v25.16b,{ v0.16b },v25.16b
	sub	v12.16b,v12.16b,v16.16b
	eor	v23.16b,v18.16b,v23.16b
	eor	v18.16b,v19.16b,v21.16b
	ldr	q19,[sp,#48]
	tbl	v30.16b,{ v0.16b },v30.16b
	tbl	v4.16b,{ v0.16b },v4.16b
	sub	v1.16b,v1.16b,v7.16b
	ldp	q7,q16,[sp]
	tbl	v5.16b,{ v0.16b },v5.16b
	eor	v19.16b,v6.16b,v19.16b
	ldr	q6,[sp,#64]
	sub	v16.16b,v25.16b,v16.16b
	sub	v7.16b,v15.16b,v7.16b
	eor	v17.16b,v12.16b,v17.16b
	sub	v3.16b,v3.16b,v27.16b
	sub	v6.16b,v24.16b,v6.16b
	sub	v21.16b,v30.16b,v26.16b
	sub	v4.16b,v4.16b,v9.16b
	sub	v5.16b,v5.16b,v10.16b
	eor	v25.16b,v1.16b,v29.16b
	eor	v24.16b,v7.16b,v31.16b
	eor	v7.16b,v16.16b,v28.16b
	eor	v3.16b,v3.16b,v8.16b
	eor	v22.16b,v6.16b,v22.16b
	eor	v1.16b,v21.16b,v11.16b
	eor	v4.16b,v4.16b,v14.16b
	eor	v6.16b,v5.16b,v13.16b
	orr	v18.16b,v25.16b,v18.16b
	orr	v7.16b,v7.16b,v19.16b
	orr	v16.16b,v22.16b,v17.16b
	orr	v17.16b,v24.16b,v23.16b
	b.lo	26f
	ldp	q19,q5,[x9,#-96]
	ldp	q21,q22,[x9,#-128]
	add	v23.16b,v5.16b,v2.16b
	add	v24.16b,v19.16b,v2.16b
	add	v25.16b,v22.16b,v2.16b
	add	v2.16b,v21.16b,v2.16b
	and	v26.16b,v23.16b,v20.16b
	and	v27.16b,v2.16b,v20.16b
	and	v28.16b,v25.16b,v20.16b
	and	v20.16b,v24.16b,v20.16b
	tbl	v26.16b,{ v0.16b },v26.16b
	tbl	v27.16b,{ v0.16b },v27.16b
	tbl	v28.16b,{ v0.16b },v28.16b
	tbl	v0.16b,{ v0.16b },v20.16b
	sub	v5.16b,v26.16b,v5.16b
	sub	v0.16b,v0.16b,v19.16b
	sub	v19.16b,v28.16b,v22.16b
	sub	v20.16b,v27.16b,v21.16b
	eor	v5.16b,v5.16b,v23.16b
	eor	v2.16b,v20.16b,v2.16b
	eor	v19.16b,v19.16b,v25.16b
	eor	v0.16b,v0.16b,v24.16b
	orr	v16.16b,v5.16b,v16.16b
	orr	v7.16b,v0.16b,v7.16b
	orr	v18.16b,v19.16b,v18.16b
	orr	v17.16b,v2.16b,v17.16b
26:
	orr	v0.16b,v18.16b,v6.16b
	orr	v2.16b,v16.16b,v3.16b
	hex_page	x9,.L100aar_static.3
	hex_address	x9,x9,.L100aar_static.3
	orr	v3.16b,v17.16b,v4.16b
	orr	v1.16b,v7.16b,v1.16b
	add	x8,x9,x8
	orr	v0.16b,v0.16b,v2.16b
	ld1r	{ v2.16b },[x8]
	orr	v1.16b,v3.16b,v1.16b
	orr	v0.16b,v1.16b,v0.16b
	and	v0.16b,v2.16b,v0.16b
	b	12b
27:
	hex_page	x8,.L100aar_static.2
	hex_address	x8,x8,.L100aar_static.2
	and	x9,x2,#0xff
	hex_page	x10,.L100aar_static.3
	hex_address	x10,x10,.L100aar_static.3
	ldr	q0,[x8,x9,lsl #4]
	ldrb	w8,[x10,x9]
	cmp	x1,#7
	add	x9,x0,x1
	b.hi	29f
	movi	v1.4h,#57
	ldr	s2,[x0]
	ldur	s3,[x9,#-4]
	movi	v6.2d,#0000000000000000
	movi	v7.2d,#0000000000000000
	uaddw	v4.8h,v1.8h,v2.8b
	uaddw	v1.8h,v1.8h,v3.8b
	uzp1	v5.8b,v4.8b,v0.8b
	uzp1	v16.8b,v1.8b,v0.8b
	mov	v7.s[0],v5.s[0]
	mov	v6.s[0],v16.s[0]
	movi	v5.16b,#143
	and	v7.16b,v7.16b,v5.16b
	and	v5.16b,v6.16b,v5.16b
	tbl	v6.16b,{ v0.16b },v7.16b
	tbl	v0.16b,{ v0.16b },v5.16b
	zip1	v5.8b,v6.8b,v0.8b
	zip1	v0.8b,v0.8b,v0.8b
	usubw	v2.8h,v5.8h,v2.8b
	usubw	v0.8h,v0.8h,v3.8b
	eor	v2.8b,v2.8b,v4.8b
	eor	v0.8b,v0.8b,v1.8b
	dup	v1.4h,w8
	orr	v0.8b,v0.8b,v2.8b
	and	v0.8b,v0.8b,v1.8b
	fmov	x8,d0
	lsr	x9,x8,#32
	orr	w8,w8,w9
	orr	w8,w8,w8,lsr #16
	b	14b
29:
	movi	v1.8b,#57
	ldr	d2,[x0]
	ldur	d3,[x9,#-8]
	movi	v4.16b,#143
	add	v5.8b,v2.8b,v1.8b
	add	v1.8b,v3.8b,v1.8b
	and	v6.16b,v5.16b,v4.16b
	and	v4.16b,v1.16b,v4.16b
	tbl	v6.16b,{ v0.16b },v6.16b
	tbl	v0.16b,{ v0.16b },v4.16b
	sub	v2.8b,v6.8b,v2.8b
	sub	v0.8b,v0.8b,v3.8b
	eor	v2.8b,v2.8b,v5.8b
	eor	v0.8b,v0.8b,v1.8b
	dup	v1.8b,w8
	orr	v0.8b,v0.8b,v2.8b
	and	v0.8b,v0.8b,v1.8b
	b	13b
	hex_end	faster_hex_1_0_0_aarch64_check_with_case
	hex_export	faster_hex_1_0_0_aarch64_decode_grouped
	hint	#34
	sub	sp,sp,#128
	and	w8,w4,#0xff
	stp	x20,x19,[sp,#112]
	cmp	w8,#3
	stp	x29,x30,[sp,#32]
	add	x29,sp,#32
	csel	w20,w4,wzr,lo
	cmp	w8,#2
	stp	x28,x27,[sp,#48]
	stp	x26,x25,[sp,#64]
	stp	x24,x23,[sp,#80]
	stp	x22,x21,[sp,#96]
	b.hi	8f
	mov	x19,x0
	mov	x0,xzr
	mov	w9,#6
	cbz	x5,9f
	and	w22,w6,#0xff
	sxtb	w8,w22
	tbnz	w8,#31,9f
	cmp	w22,#48
	b.hs	10f
4:
	lsr	x0,x1,#1
	cmp	x0,x5
	b.hs	12f
	tbnz	w1,#0,13f
	cmp	x3,x0
	b.hs	18f
7:
	mov	w9,#2
	b	9f
8:
	mov	x0,xzr
	mov	w9,#5
9:
	ldp	x20,x19,[sp,#112]
	mov	x1,x9
	ldp	x22,x21,[sp,#96]
	ldp	x24,x23,[sp,#80]
	ldp	x26,x25,[sp,#64]
	ldp	x28,x27,[sp,#48]
	ldp	x29,x30,[sp,#32]
	add	sp,sp,#128
	ret
10:
	cmp	w22,#58
	b.hs	14f
	mov	x0,xzr
	mov	w9,#6
	b	9b
12:
	mov	w8,#1
	orr	x9,x8,x5,lsl #1
	udiv	x8,x1,x9
	msub	x9,x8,x9,x1
	and	x10,x9,#0x1
	cmp	x9,#0
	ccmp	x10,#0,#0,ne
	b.eq	17f
13:
	mov	x0,xzr
	mov	w9,#7
	b	9b
14:
	cmp	w22,#65
	b.lo	4b
	mov	x0,xzr
	cmp	w22,#71
	mov	w9,#6
	b.lo	9b
	sub	w8,w22,#97
	cmp	w8,#6
	b.hs	4b
	b	9b
17:
	mul	x8,x8,x5
	add	x0,x8,x9,lsr #1
	cmp	x3,x0
	b.lo	7b
18:
	cmp	x5,x0
	mov	x26,x5
	stur	x0,[x29,#-8]
	stp	x2,x1,[sp,#8]
	b.hs	29f
	lsl	x21,x5,#1
	cmp	x21,#16
	b.hs	44f
	and	x8,x5,#0x7fffffffffffffff
	cbz	x8,61f
	ands	w9,w4,#0xff
	hex_page	x8,.L100aar_static.8
	hex_address	x8,x8,.L100aar_static.8
	hex_page	x10,.L100aar_static.7
	hex_address	x10,x10,.L100aar_static.7
	cmp	w9,#1
	csel	x8,x10,x8,eq
	tst	w4,#0xff
	hex_page	x9,.L100aar_static.6
	hex_address	x9,x9,.L100aar_static.6
	mov	x27,xzr
	add	x24,x19,#1
	csel	x25,x9,x8,eq
	add	x11,x21,#1
	mov	x23,x0
22:
	add	x28,x27,x21
	mov	x8,x24
	and	x9,x5,#0x7fffffffffffffff
23:
	ldurb	w10,[x8,#-1]
	ldrb	w10,[x25,x10]
	cmp	w10,#255
	b.eq	26f
	ldrb	w10,[x8],#2
	ldrb	w10,[x25,x10]
	cmp	w10,#255
	b.eq	26f
	subs	x9,x9,#1
	b.ne	23b
	b	27f
26:
	add	x0,x19,x27
	mov	x1,x21
	mov	w2,w20
	bl	faster_hex_1_0_0_aarch64_core_backend_Backend_first_invalid
	mov	w8,w0
	ldur	x0,[x29,#-8]
	add	x11,x21,#1
	and	w8,w8,#0xff
	mov	x5,x26
	cmp	w8,#1
	mov	x8,x1
	ldp	x2,x1,[sp,#8]
	b.eq	67f
27:
	ldrb	w8,[x19,x28]
	cmp	w8,w22
	b.ne	76f
	sub	x23,x23,x5
	add	x27,x28,#1
	add	x24,x24,x11
	cmp	x5,x23
	b.lo	22b
	b	30f
29:
	mov	x27,xzr
30:
	sub	x8,x1,x27
	cmp	x8,#15
	b.hi	36f
	lsr	x8,x8,#1
	cbz	x8,38f
	and	x9,x20,#0xff
	hex_page	x10,.L100aar_switch.table.faster_hex_1_0_0_aarch64_decode_grouped.48
	hex_address	x10,x10,.L100aar_switch.table.faster_hex_1_0_0_aarch64_decode_grouped.48
	ldr	x9,[x10,x9,lsl #3]
	add	x10,x27,x19
	add	x10,x10,#1
33:
	ldurb	w11,[x10,#-1]
	ldrb	w11,[x9,x11]
	cmp	w11,#255
	b.eq	36f
	ldrb	w11,[x10],#2
	ldrb	w11,[x9,x11]
	cmp	w11,#255
	b.eq	36f
	subs	x8,x8,#1
	b.ne	33b
	b	38f
36:
	ldr	x8,[sp,#16]
	add	x0,x19,x27
	mov	w2,w20
	sub	x1,x8,x27
	bl	faster_hex_1_0_0_aarch64_core_backend_Backend_first_invalid
	mov	w8,w0
	ldur	x0,[x29,#-8]
	mov	x5,x26
	and	w8,w8,#0xff
	cmp	w8,#1
	mov	x8,x1
	ldp	x2,x1,[sp,#8]
	b.ne	38f
	add	x28,x8,x27
	b	76f
38:
	cmp	x5,x0
	b.hs	48f
	mov	w28,#1
	lsl	x21,x5,#1
	cmp	x5,#8
	bfi	x28,x5,#1,#63
	b.hs	49f
	ands	w8,w20,#0xff
	hex_page	x10,.L100aar_static.8
	hex_address	x10,x10,.L100aar_static.8
	hex_page	x11,.L100aar_static.7
	hex_address	x11,x11,.L100aar_static.7
	cmp	w8,#1
	csel	x8,x11,x10,eq
	tst	w20,#0xff
	hex_page	x10,.L100aar_static.6
	hex_address	x10,x10,.L100aar_static.6
	mov	x27,xzr
	mov	x9,xzr
	csel	x8,x10,x8,eq
	add	x10,x19,#1
	add	x11,x21,#1
	mov	x12,x2
41:
	mov	x13,xzr
	mov	x14,x10
42:
	ldurb	w15,[x14,#-1]
	ldrb	w16,[x14],#2
	ldrb	w15,[x8,x15]
	ldrb	w16,[x8,x16]
	add	w15,w16,w15,lsl #4
	strb	w15,[x12,x13]
	add	x13,x13,#1
	cmp	x5,x13
	b.ne	42b
	add	x9,x9,x5
	add	x27,x27,x28
	add	x12,x12,x5
	sub	x3,x0,x9
	add	x10,x10,x11
	cmp	x5,x3
	b.lo	41b
	b	52f
44:
	mov	x27,xzr
	add	x23,x19,x21
	mov	x24,x0
45:
	add	x0,x19,x27
	mov	x1,x21
	mov	w2,w20
	bl	faster_hex_1_0_0_aarch64_core_backend_Backend_first_invalid
	and	w8,w0,#0xff
	cmp	w8,#1
	b.eq	68f
	ldrb	w8,[x23,x27]
	cmp	w8,w22
	b.ne	66f
	ldp	x2,x1,[sp,#8]
	sub	x24,x24,x26
	add	x8,x27,x21
	ldur	x0,[x29,#-8]
	mov	x5,x26
	cmp	x26,x24
	add	x27,x8,#1
	b.lo	45b
	b	30b
48:
	mov	x9,xzr
	mov	x27,xzr
	mov	x3,x0
	b	52f
49:
	mov	x23,xzr
	mov	x27,xzr
	mov	x22,x2
50:
	add	x0,x19,x27
	mov	x1,x21
	mov	x2,x22
	mov	x3,x5
	mov	w4,w20
	bl	faster_hex_1_0_0_aarch64_codec_pieces_read_long_piece
	ldur	x0,[x29,#-8]
	sub	x23,x23,x26
	mov	x5,x26
	add	x27,x27,x28
	add	x22,x22,x26
	add	x3,x0,x23
	cmp	x26,x3
	b.lo	50b
	ldp	x2,x1,[sp,#8]
	neg	x9,x23
52:
	cmp	x3,#7
	add	x8,x19,x27
	add	x2,x2,x9
	b.hi	60f
	cbz	x3,59f
	and	x9,x20,#0xff
	hex_page	x10,.L100aar_switch.table.faster_hex_1_0_0_aarch64_decode_grouped.48
	hex_address	x10,x10,.L100aar_switch.table.faster_hex_1_0_0_aarch64_decode_grouped.48
	ldr	x10,[x10,x9,lsl #3]
	ldrb	w9,[x8]
	ldrb	w11,[x8,#1]
	cmp	x3,#1
	ldrb	w9,[x10,x9]
	ldrb	w11,[x10,x11]
	add	w9,w11,w9,lsl #4
	strb	w9,[x2]
	b.eq	59f
	ldrb	w9,[x8,#2]
	ldrb	w11,[x8,#3]
	cmp	x3,#2
	ldrb	w9,[x10,x9]
	ldrb	w11,[x10,x11]
	add	w9,w11,w9,lsl #4
	strb	w9,[x2,#1]
	b.eq	59f
	ldrb	w9,[x8,#4]
	ldrb	w11,[x8,#5]
	cmp	x3,#3
	ldrb	w9,[x10,x9]
	ldrb	w11,[x10,x11]
	add	w9,w11,w9,lsl #4
	strb	w9,[x2,#2]
	b.eq	59f
	ldrb	w9,[x8,#6]
	ldrb	w11,[x8,#7]
	cmp	x3,#4
	ldrb	w9,[x10,x9]
	ldrb	w11,[x10,x11]
	add	w9,w11,w9,lsl #4
	strb	w9,[x2,#3]
	b.eq	59f
	ldrb	w9,[x8,#8]
	ldrb	w11,[x8,#9]
	cmp	x3,#5
	ldrb	w9,[x10,x9]
	ldrb	w11,[x10,x11]
	add	w9,w11,w9,lsl #4
	strb	w9,[x2,#4]
	b.ne	77f
59:
	mov	x9,xzr
	b	9b
60:
	sub	x1,x1,x27
	mov	x0,x8
	mov	w4,w20
	bl	faster_hex_1_0_0_aarch64_codec_pieces_read_long_piece
	ldur	x0,[x29,#-8]
	mov	x9,xzr
	b	9b
61:
	ands	w8,w4,#0xff
	b.eq	69f
	cmp	w8,#1
	b.ne	72f
	mov	x27,xzr
	mov	x8,x0
64:
	ldrb	w9,[x19,x27]
	cmp	w9,w22
	b.ne	75f
	sub	x8,x8,x5
	add	x27,x27,#1
	cmp	x5,x8
	b.lo	64b
	b	30b
66:
	add	x28,x21,x27
	b	76f
67:
	mov	x1,x8
68:
	add	x28,x1,x27
	b	76f
69:
	mov	x27,xzr
	mov	x8,x0
70:
	ldrb	w9,[x19,x27]
	cmp	w9,w22
	b.ne	75f
	sub	x8,x8,x5
	add	x27,x27,#1
	cmp	x5,x8
	b.lo	70b
	b	30b
72:
	mov	x27,xzr
	mov	x8,x0
73:
	ldrb	w9,[x19,x27]
	cmp	w9,w22
	b.ne	75f
	sub	x8,x8,x5
	add	x27,x27,#1
	cmp	x5,x8
	b.lo	73b
	b	30b
75:
	mov	x28,x27
76:
	ldrb	w8,[x19,x28]
	mov	w9,#3
	mov	x0,x28
	orr	x9,x9,x8,lsl #8
	b	9b
77:
	ldrb	w9,[x8,#10]
	ldrb	w11,[x8,#11]
	cmp	x3,#6
	ldrb	w9,[x10,x9]
	ldrb	w11,[x10,x11]
	add	w9,w11,w9,lsl #4
	strb	w9,[x2,#5]
	mov	x9,xzr
	b.eq	9b
	ldrb	w11,[x8,#12]
	ldrb	w8,[x8,#13]
	ldrb	w11,[x10,x11]
	ldrb	w8,[x10,x8]
	add	w8,w8,w11,lsl #4
	strb	w8,[x2,#6]
	b	9b
	hex_end	faster_hex_1_0_0_aarch64_decode_grouped
	hex_export	faster_hex_1_0_0_aarch64_decode_spaced
	hint	#34
	and	w8,w4,#0xff
	cmp	w8,#2
	b.hi	6f
	sub	sp,sp,#128
	stp	x29,x30,[sp,#48]
	add	x29,sp,#48
	str	x25,[sp,#64]
	stp	x24,x23,[sp,#80]
	mov	x23,x3
	stp	x22,x21,[sp,#96]
	mov	x21,x0
	mov	x22,x2
	stp	x20,x19,[sp,#112]
	mov	w19,w4
	mov	x20,x1
	stp	xzr,xzr,[sp]
	str	xzr,[sp,#16]
	bl	faster_hex_1_0_0_aarch64_codec_spaced_run_len
	and	x24,x0,#0xfffffffffffffffe
	mov	x25,xzr
	cmp	x20,x24
	b.ls	8f
	ldrb	w8,[x21,x24]
	mov	x25,xzr
	cmp	w8,#32
	b.hi	8f
	mov	w9,#1
	lsl	x8,x9,x8
	mov	x9,#13824
	movk	x9,#1,lsl #32
	tst	x8,x9
	b.eq	8f
	orr	x8,x0,#0x1
	cmp	x20,x8
	b.ls	7f
	ldrb	w8,[x21,x8]
	sub	w9,w8,#9
	cmp	w9,#2
	mov	w9,#32
	ccmp	w8,w9,#4,hs
	and	w8,w8,#0xfe
	ccmp	w8,#12,#4,ne
	mov	w8,#1
	cinc	x25,x8,eq
	b	8f
6:
	mov	x0,xzr
	mov	w1,#5
	ret
7:
	mov	w25,#1
8:
	mov	x0,x21
	mov	x1,x20
	mov	x2,x24
	mov	x3,x25
	mov	w4,w19
	bl	faster_hex_1_0_0_aarch64_codec_spaced_line_count
	str	x0,[sp,#40]
	add	x2,sp,#24
	mov	x0,x21
	mov	x1,x20
	mov	w3,w19
	stp	x24,x25,[sp,#24]
	bl	faster_hex_1_0_0_aarch64_codec_spaced_survey
	tbnz	w0,#0,18f
	lsr	x0,x0,#1
	cmp	x23,x0
	b.hs	11f
10:
	mov	w1,#2
	b	19f
11:
	tbz	w1,#0,13f
	mov	x23,x0
	add	x4,sp,#24
	mov	x0,x21
	mov	x1,x20
	mov	x2,x22
	mov	x3,x23
	mov	w5,w19
	bl	faster_hex_1_0_0_aarch64_codec_spaced_decode_runs
	mov	x0,x23
	mov	x1,xzr
	b	19f
13:
	mov	x0,sp
	mov	x1,x21
	mov	x2,x20
	mov	w3,w19
	bl	faster_hex_1_0_0_aarch64_codec_spaced_invalid_error
	ldrb	w8,[sp]
	cmp	w8,#2
	b.gt	16f
	ldr	x0,[sp,#8]
	cbz	w8,20f
	cmp	w8,#1
	b.eq	10b
	b	17f
16:
	sub	w8,w8,#4
	cmp	w8,#2
	b.hs	18f
17:
	mov	x0,xzr
	mov	w1,#4
	b	19f
18:
	mov	x0,xzr
	mov	w1,#1
19:
	ldp	x20,x19,[sp,#112]
	ldr	x25,[sp,#64]
	ldp	x22,x21,[sp,#96]
	ldp	x24,x23,[sp,#80]
	ldp	x29,x30,[sp,#48]
	add	sp,sp,#128
	ret
20:
	ldr	x8,[sp,#16]
	mov	w1,#3
	bfi	x1,x8,#8,#8
	b	19b
	hex_end	faster_hex_1_0_0_aarch64_decode_spaced
	hex_export	faster_hex_1_0_0_aarch64_decode_with_case
	hint	#34
	sub	sp,sp,#80
	and	w8,w4,#0xff
	stp	d13,d12,[sp,#16]
	cmp	w8,#2
	stp	d11,d10,[sp,#32]
	stp	d9,d8,[sp,#48]
	stp	x29,x30,[sp,#64]
	add	x29,sp,#64
	b.hi	5f
	tbnz	w1,#0,6f
	lsr	x9,x1,#1
	mov	x8,x9
	cmp	x3,x9
	b.hs	7f
	mov	w1,#2
4:
	mov	x0,x8
	ldp	x29,x30,[sp,#64]
	ldp	d9,d8,[sp,#48]
	ldp	d11,d10,[sp,#32]
	ldp	d13,d12,[sp,#16]
	add	sp,sp,#80
	ret
5:
	mov	x0,xzr
	mov	w1,#5
	ldp	x29,x30,[sp,#64]
	ldp	d9,d8,[sp,#48]
	ldp	d11,d10,[sp,#32]
	ldp	d13,d12,[sp,#16]
	add	sp,sp,#80
	ret
6:
	mov	x0,xzr
	mov	w1,#1
	ldp	x29,x30,[sp,#64]
	ldp	d9,d8,[sp,#48]
	ldp	d11,d10,[sp,#32]
	ldp	d13,d12,[sp,#16]
	add	sp,sp,#80
	ret
7:
	cmp	x1,#192
	b.hi	32f
	cmp	x1,#15
	b.hi	11f
	cmp	x1,#2
	b.hs	15f
	mov	x1,xzr
	b	4b
11:
	cmp	x1,#32
	b.hi	18f
	movi	v0.16b,#55
	b.ne	21f
	ldp	q1,q2,[x0]
	movi	v4.16b,#143
	mov	w9,w4
	hex_page	x10,.L100aar_static.9
	hex_address	x10,x10,.L100aar_static.9
	and	x9,x9,#0xff
	uqsub	v3.16b,v2.16b,v0.16b
	uqsub	v0.16b,v1.16b,v0.16b
	ldr	q6,[x10,x9,lsl #4]
	hex_page	x10,.L100aar_static.0
	hex_address	x10,x10,.L100aar_static.0
	add	x9,x10,x9
	and	v5.16b,v0.16b,v4.16b
	and	v4.16b,v3.16b,v4.16b
	tbl	v5.16b,{ v6.16b },v5.16b
	tbl	v4.16b,{ v6.16b },v4.16b
	ld1r	{ v6.16b },[x9]
	eor	v2.16b,v6.16b,v2.16b
	uqsub	v3.16b,v4.16b,v3.16b
	uqsub	v0.16b,v5.16b,v0.16b
	eor	v4.16b,v6.16b,v1.16b
	eor	v1.16b,v3.16b,v2.16b
	eor	v0.16b,v0.16b,v4.16b
	movi	v2.16b,#240
	orr	v3.16b,v0.16b,v1.16b
	and	v2.16b,v3.16b,v2.16b
	ext	v3.16b,v2.16b,v2.16b,#8
	orr	v2.8b,v2.8b,v3.8b
	fmov	x9,d2
	orr	x9,x9,x9,lsr #32
	lsr	x10,x9,#16
	orr	w9,w9,w10
	orr	w9,w9,w9,lsr #8
	tst	w9,#0xff
	b.ne	32f
	mov	w8,#4097
	mov	x1,xzr
	mov	w0,#16
	dup	v2.8h,w8
	mul	v1.8h,v1.8h,v2.8h
	mul	v0.8h,v0.8h,v2.8h
	uzp2	v0.16b,v0.16b,v1.16b
	str	q0,[x2]
	ldp	x29,x30,[sp,#64]
	ldp	d9,d8,[sp,#48]
	ldp	d11,d10,[sp,#32]
	ldp	d13,d12,[sp,#16]
	add	sp,sp,#80
	ret
15:
	cmp	x1,#3
	add	x9,x0,x1
	b.hi	23f
	ldr	h0,[x0]
	sub	x9,x9,#2
	movi	v2.4h,#55
	movi	v3.16b,#143
	ld1	{ v0.h }[1],[x9]
	zip1	v0.8b,v0.8b,v0.8b
	fmov	d1,d0
	bic	v1.4h,#255,lsl #8
	uqsub	v1.4h,v1.4h,v2.4h
	movi	v2.2d,#0000000000000000
	umov	w9,v1.h[0]
	umov	w10,v1.h[1]
	mov	v2.b[0],w9
	umov	w9,v1.h[2]
	mov	v2.b[1],w10
	umov	w10,v1.h[3]
	mov	v2.b[2],w9
	and	x9,x4,#0xff
	mov	v2.b[3],w10
	hex_page	x10,.L100aar_static.9
	hex_address	x10,x10,.L100aar_static.9
	and	v2.16b,v2.16b,v3.16b
	ldr	q3,[x10,x9,lsl #4]
	hex_page	x10,.L100aar_static.0
	hex_address	x10,x10,.L100aar_static.0
	tbl	v2.16b,{ v3.16b },v2.16b
	ldr	b3,[x10,x9]
	dup	v3.4h,v3.h[0]
	zip1	v2.8b,v2.8b,v0.8b
	eor	v0.8b,v3.8b,v0.8b
	bic	v2.4h,#255,lsl #8
	uqsub	v1.4h,v2.4h,v1.4h
	movi	v2.4h,#240
	eor	v0.8b,v1.8b,v0.8b
	and	v1.8b,v0.8b,v2.8b
	fmov	x9,d1
	lsr	x10,x9,#32
	orr	w9,w9,w10
	orr	w9,w9,w9,lsr #16
	tst	w9,#0xff
	b.ne	32f
	uzp1	v0.8b,v0.8b,v0.8b
	mov	w9,#4097
	mov	x0,x8
	dup	v1.2s,w9
	add	x8,x2,x8
	mov	x1,xzr
	zip1	v0.4h,v0.4h,v0.4h
	mul	v0.2s,v0.2s,v1.2s
	movi	d1,#0x00ffff0000ffff
	and	v0.8b,v0.8b,v1.8b
	ushr	v0.2s,v0.2s,#8
	mov	s1,v0.s[1]
	str	b0,[x2]
	stur	b1,[x8,#-1]
	ldp	x29,x30,[sp,#64]
	ldp	d9,d8,[sp,#48]
	ldp	d11,d10,[sp,#32]
	ldp	d13,d12,[sp,#16]
	add	sp,sp,#80
	ret
18:
	cmp	x1,#64
	b.hi	26f
	movi	v0.16b,#55
	add	x9,x0,x1
	movi	v5.16b,#143
	ldp	q1,q2,[x0]
	hex_page	x10,.L100aar_static.9
	hex_address	x10,x10,.L100aar_static.9
	ldp	q3,q4,[x9,#-32]
	mov	w9,w4
	uqsub	v6.16b,v2.16b,v0.16b
	uqsub	v7.16b,v1.16b,v0.16b
	and	x9,x9,#0xff
	uqsub	v16.16b,v4.16b,v0.16b
	uqsub	v0.16b,v3.16b,v0.16b
	ldr	q19,[x10,x9,lsl #4]
	hex_page	x10,.L100aar_static.0
	hex_address	x10,x10,.L100aar_static.0
	add	x9,x10,x9
	and	v17.16b,v7.16b,v5.16b
	and	v18.16b,v6.16b,v5.16b
	and	v20.16b,v0.16b,v5.16b
	and	v5.16b,v16.16b,v5.16b
	tbl	v17.16b,{ v19.16b },v17.16b
	tbl	v18.16b,{ v19.16b },v18.16b
	tbl	v20.16b,{ v19.16b },v20.16b
	tbl	v5.16b,{ v19.16b },v5.16b
	ld1r	{ v19.16b },[x9]
	uqsub	v7.16b,v17.16b,v7.16b
	uqsub	v6.16b,v18.16b,v6.16b
	eor	v1.16b,v19.16b,v1.16b
	uqsub	v17.16b,v20.16b,v0.16b
	uqsub	v5.16b,v5.16b,v16.16b
	eor	v3.16b,v19.16b,v3.16b
	eor	v2.16b,v19.16b,v2.16b
	eor	v4.16b,v19.16b,v4.16b
	eor	v0.16b,v1.16b,v7.16b
	eor	v1.16b,v3.16b,v17.16b
	eor	v3.16b,v2.16b,v6.16b
	eor	v2.16b,v4.16b,v5.16b
	movi	v6.16b,#240
	orr	v4.16b,v3.16b,v2.16b
	orr	v5.16b,v0.16b,v1.16b
	orr	v4.16b,v5.16b,v4.16b
	and	v4.16b,v4.16b,v6.16b
	ext	v5.16b,v4.16b,v4.16b,#8
	orr	v4.8b,v4.8b,v5.8b
	fmov	x9,d4
	orr	x9,x9,x9,lsr #32
	lsr	x10,x9,#16
	orr	w9,w9,w10
	orr	w9,w9,w9,lsr #8
	tst	w9,#0xff
	b.ne	32f
	mov	w9,#4097
	mov	x0,x8
	add	x8,x2,x8
	dup	v4.8h,w9
	mov	x1,xzr
	mul	v3.8h,v3.8h,v4.8h
	mul	v0.8h,v0.8h,v4.8h
	mul	v1.8h,v1.8h,v4.8h
	mul	v2.8h,v2.8h,v4.8h
	uzp2	v0.16b,v0.16b,v3.16b
	uzp2	v1.16b,v1.16b,v2.16b
	str	q0,[x2]
	stur	q1,[x8,#-16]
	ldp	x29,x30,[sp,#64]
	ldp	d9,d8,[sp,#48]
	ldp	d11,d10,[sp,#32]
	ldp	d13,d12,[sp,#16]
	add	sp,sp,#80
	ret
21:
	add	x9,x0,x1
	ldr	q1,[x0]
	movi	v4.16b,#143
	ldur	q2,[x9,#-16]
	mov	w9,w4
	hex_page	x10,.L100aar_static.9
	hex_address	x10,x10,.L100aar_static.9
	and	x9,x9,#0xff
	uqsub	v3.16b,v2.16b,v0.16b
	uqsub	v0.16b,v1.16b,v0.16b
	ldr	q6,[x10,x9,lsl #4]
	hex_page	x10,.L100aar_static.0
	hex_address	x10,x10,.L100aar_static.0
	add	x9,x10,x9
	and	v5.16b,v0.16b,v4.16b
	and	v4.16b,v3.16b,v4.16b
	tbl	v5.16b,{ v6.16b },v5.16b
	tbl	v4.16b,{ v6.16b },v4.16b
	ld1r	{ v6.16b },[x9]
	eor	v1.16b,v6.16b,v1.16b
	eor	v2.16b,v6.16b,v2.16b
	uqsub	v0.16b,v5.16b,v0.16b
	uqsub	v3.16b,v4.16b,v3.16b
	eor	v0.16b,v0.16b,v1.16b
	eor	v1.16b,v3.16b,v2.16b
	movi	v2.16b,#240
	orr	v3.16b,v0.16b,v1.16b
	and	v2.16b,v3.16b,v2.16b
	ext	v3.16b,v2.16b,v2.16b,#8
	orr	v2.8b,v2.8b,v3.8b
	fmov	x9,d2
	orr	x9,x9,x9,lsr #32
	lsr	x10,x9,#16
	orr	w9,w9,w10
	orr	w9,w9,w9,lsr #8
	tst	w9,#0xff
	b.ne	32f
	mov	w9,#4097
	mov	x0,x8
	add	x8,x2,x8
	dup	v2.8h,w9
	mov	x1,xzr
	mul	v0.8h,v0.8h,v2.8h
	mul	v1.8h,v1.8h,v2.8h
	shrn	v0.8b,v0.8h,#8
	shrn	v1.8b,v1.8h,#8
	str	d0,[x2]
	stur	d1,[x8,#-8]
	ldp	x29,x30,[sp,#64]
	ldp	d9,d8,[sp,#48]
	ldp	d11,d10,[sp,#32]
	ldp	d13,d12,[sp,#16]
	add	sp,sp,#80
	ret
23:
	mov	w10,w4
	hex_page	x11,.L100aar_static.9
	hex_address	x11,x11,.L100aar_static.9
	and	x10,x10,#0xff
	cmp	x1,#7
	ldr	q0,[x11,x10,lsl #4]
	b.hi	29f
	ldr	s1,[x0]
	sub	x9,x9,#4
	movi	v2.8b,#55
	movi	v3.16b,#143
	ld1	{ v1.s }[1],[x9]
	hex_page	x9,.L100aar_static.0
	hex_address	x9,x9,.L100aar_static.0
	add	x9,x9,w4,uxtb
	uqsub	v2.8b,v1.8b,v2.8b
	and	v3.16b,v2.16b,v3.16b
	tbl	v0.16b,{ v0.16b },v3.16b
	ld1r	{ v3.8b },[x9]
	eor	v1.8b,v3.8b,v1.8b
	uqsub	v0.8b,v0.8b,v2.8b
	movi	v2.8b,#240
	eor	v0.8b,v0.8b,v1.8b
	and	v1.8b,v0.8b,v2.8b
	fmov	x9,d1
	orr	x9,x9,x9,lsr #32
	lsr	x10,x9,#16
	orr	w9,w9,w10
	orr	w9,w9,w9,lsr #8
	tst	w9,#0xff
	b.ne	32f
	mov	w9,#4097
	mov	x0,x8
	add	x8,x2,x8
	dup	v1.4h,w9
	mov	x1,xzr
	mul	v0.4h,v0.4h,v1.4h
	ushr	v0.4h,v0.4h,#8
	ushll	v0.4s,v0.4h,#0
	ext	v1.16b,v0.16b,v0.16b,#8
	mov	s2,v0.s[1]
	str	b0,[x2]
	mov	s3,v1.s[1]
	stur	b2,[x2,#1]
	stur	b1,[x8,#-2]
	stur	b3,[x8,#-1]
	ldp	x29,x30,[sp,#64]
	ldp	d9,d8,[sp,#48]
	ldp	d11,d10,[sp,#32]
	ldp	d13,d12,[sp,#16]
	add	sp,sp,#80
	ret
26:
	movi	v7.16b,#55
	ldp	q1,q0,[x0,#32]
	ldp	q2,q3,[x0]
	movi	v6.16b,#143
	mov	w9,w4
	hex_page	x10,.L100aar_static.9
	hex_address	x10,x10,.L100aar_static.9
	and	x9,x9,#0xff
	cmp	x1,#128
	uqsub	v16.16b,v0.16b,v7.16b
	uqsub	v17.16b,v1.16b,v7.16b
	uqsub	v18.16b,v3.16b,v7.16b
	uqsub	v19.16b,v2.16b,v7.16b
	ldr	q5,[x10,x9,lsl #4]
	hex_page	x10,.L100aar_static.0
	hex_address	x10,x10,.L100aar_static.0
	add	x9,x10,x9
	and	v20.16b,v16.16b,v6.16b
	and	v22.16b,v18.16b,v6.16b
	and	v23.16b,v17.16b,v6.16b
	and	v21.16b,v19.16b,v6.16b
	ld1r	{ v4.16b },[x9]
	tbl	v20.16b,{ v5.16b },v20.16b
	tbl	v22.16b,{ v5.16b },v22.16b
	tbl	v23.16b,{ v5.16b },v23.16b
	tbl	v21.16b,{ v5.16b },v21.16b
	eor	v0.16b,v0.16b,v4.16b
	eor	v1.16b,v1.16b,v4.16b
	eor	v3.16b,v3.16b,v4.16b
	eor	v2.16b,v2.16b,v4.16b
	uqsub	v16.16b,v20.16b,v16.16b
	uqsub	v17.16b,v23.16b,v17.16b
	uqsub	v18.16b,v22.16b,v18.16b
	uqsub	v19.16b,v21.16b,v19.16b
	eor	v0.16b,v16.16b,v0.16b
	eor	v1.16b,v17.16b,v1.16b
	eor	v3.16b,v18.16b,v3.16b
	eor	v2.16b,v19.16b,v2.16b
	b.hi	31f
	add	x9,x0,x1
	ldp	q18,q16,[x9,#-48]
	ldur	q17,[x9,#-64]
	ldur	q19,[x9,#-16]
	uqsub	v20.16b,v16.16b,v7.16b
	uqsub	v21.16b,v19.16b,v7.16b
	uqsub	v22.16b,v18.16b,v7.16b
	uqsub	v7.16b,v17.16b,v7.16b
	eor	v17.16b,v4.16b,v17.16b
	and	v23.16b,v20.16b,v6.16b
	and	v25.16b,v22.16b,v6.16b
	and	v24.16b,v7.16b,v6.16b
	and	v6.16b,v21.16b,v6.16b
	tbl	v23.16b,{ v5.16b },v23.16b
	tbl	v25.16b,{ v5.16b },v25.16b
	tbl	v24.16b,{ v5.16b },v24.16b
	tbl	v5.16b,{ v5.16b },v6.16b
	eor	v6.16b,v4.16b,v16.16b
	uqsub	v16.16b,v23.16b,v20.16b
	uqsub	v20.16b,v25.16b,v22.16b
	uqsub	v5.16b,v5.16b,v21.16b
	uqsub	v21.16b,v24.16b,v7.16b
	eor	v7.16b,v4.16b,v18.16b
	eor	v18.16b,v4.16b,v19.16b
	eor	v6.16b,v6.16b,v16.16b
	eor	v4.16b,v7.16b,v20.16b
	eor	v7.16b,v18.16b,v5.16b
	eor	v5.16b,v17.16b,v21.16b
	orr	v16.16b,v6.16b,v1.16b
	orr	v19.16b,v4.16b,v3.16b
	orr	v17.16b,v5.16b,v2.16b
	orr	v18.16b,v7.16b,v0.16b
	orr	v18.16b,v19.16b,v18.16b
	orr	v16.16b,v17.16b,v16.16b
	movi	v17.16b,#240
	orr	v16.16b,v16.16b,v18.16b
	and	v16.16b,v16.16b,v17.16b
	ext	v17.16b,v16.16b,v16.16b,#8
	orr	v16.8b,v16.8b,v17.8b
	fmov	x9,d16
	orr	x9,x9,x9,lsr #32
	lsr	x10,x9,#16
	orr	w9,w9,w10
	orr	w9,w9,w9,lsr #8
	tst	w9,#0xff
	b.ne	32f
	mov	w9,#4097
	mov	x0,x8
	add	x8,x2,x8
	dup	v16.8h,w9
	mov	x1,xzr
	mul	v3.8h,v3.8h,v16.8h
	mul	v2.8h,v2.8h,v16.8h
	mul	v1.8h,v1.8h,v16.8h
	mul	v0.8h,v0.8h,v16.8h
	mul	v6.8h,v6.8h,v16.8h
	mul	v7.8h,v7.8h,v16.8h
	mul	v4.8h,v4.8h,v16.8h
	mul	v5.8h,v5.8h,v16.8h
	uzp2	v2.16b,v2.16b,v3.16b
	uzp2	v0.16b,v1.16b,v0.16b
	uzp2	v1.16b,v6.16b,v7.16b
	uzp2	v3.16b,v5.16b,v4.16b
	stp	q2,q0,[x2]
	stp	q3,q1,[x8,#-32]
	ldp	x29,x30,[sp,#64]
	ldp	d9,d8,[sp,#48]
	ldp	d11,d10,[sp,#32]
	ldp	d13,d12,[sp,#16]
	add	sp,sp,#80
	ret
29:
	ldr	d1,[x0]
	ldur	d2,[x9,#-8]
	movi	v3.16b,#55
	hex_page	x9,.L100aar_static.0
	hex_address	x9,x9,.L100aar_static.0
	mov	v1.d[1],v2.d[0]
	movi	v2.16b,#143
	add	x9,x9,w4,uxtb
	uqsub	v3.16b,v1.16b,v3.16b
	and	v2.16b,v3.16b,v2.16b
	tbl	v0.16b,{ v0.16b },v2.16b
	ld1r	{ v2.16b },[x9]
	eor	v1.16b,v2.16b,v1.16b
	movi	v2.16b,#240
	uqsub	v0.16b,v0.16b,v3.16b
	eor	v0.16b,v0.16b,v1.16b
	and	v1.16b,v0.16b,v2.16b
	ext	v2.16b,v1.16b,v1.16b,#8
	orr	v1.8b,v1.8b,v2.8b
	fmov	x9,d1
	orr	x9,x9,x9,lsr #32
	lsr	x10,x9,#16
	orr	w9,w9,w10
	orr	w9,w9,w9,lsr #8
	tst	w9,#0xff
	b.ne	32f
	mov	w9,#4097
	mov	x0,x8
	add	x8,x2,x8
	dup	v1.8h,w9
	mov	x1,xzr
	mul	v0.8h,v0.8h,v1.8h
	ushr	v1.8h,v0.8h,#8
	shrn	v0.8b,v0.8h,#8
	dup	v1.2d,v1.d[1]
	str	s0,[x2]
	xtn	v1.8b,v1.8h
	stur	s1,[x8,#-4]
	ldp	x29,x30,[sp,#64]
	ldp	d9,d8,[sp,#48]
	ldp	d11,d10,[sp,#32]
	ldp	d13,d12,[sp,#16]
	add	sp,sp,#80
	ret
31:
	ldp	q16,q18,[x0,#80]
	add	x9,x0,x1
	ldr	q17,[x0,#64]
	ldr	q19,[x0,#112]
	ldp	q20,q21,[x9,#-64]
	ldp	q24,q25,[x9,#-32]
	uqsub	v22.16b,v18.16b,v7.16b
	uqsub	v23.16b,v17.16b,v7.16b
	uqsub	v26.16b,v19.16b,v7.16b
	uqsub	v27.16b,v16.16b,v7.16b
	uqsub	v28.16b,v21.16b,v7.16b
	uqsub	v30.16b,v20.16b,v7.16b
	eor	v18.16b,v4.16b,v18.16b
	uqsub	v29.16b,v25.16b,v7.16b
	uqsub	v7.16b,v24.16b,v7.16b
	eor	v17.16b,v4.16b,v17.16b
	and	v8.16b,v22.16b,v6.16b
	eor	v19.16b,v4.16b,v19.16b
	and	v31.16b,v23.16b,v6.16b
	and	v9.16b,v27.16b,v6.16b
	and	v10.16b,v26.16b,v6.16b
	and	v11.16b,v28.16b,v6.16b
	and	v12.16b,v30.16b,v6.16b
	and	v13.16b,v29.16b,v6.16b
	and	v6.16b,v7.16b,v6.16b
	tbl	v8.16b,{ v5.16b },v8.16b
	tbl	v31.16b,{ v5.16b },v31.16b
	tbl	v9.16b,{ v5.16b },v9.16b
	tbl	v10.16b,{ v5.16b },v10.16b
	tbl	v11.16b,{ v5.16b },v11.16b
	tbl	v12.16b,{ v5.16b },v12.16b
	tbl	v13.16b,{ v5.16b },v13.16b
	tbl	v5.16b,{ v5.16b },v6.16b
	uqsub	v6.16b,v8.16b,v22.16b
	uqsub	v22.16b,v31.16b,v23.16b
	uqsub	v23.16b,v10.16b,v26.16b
	uqsub	v26.16b,v9.16b,v27.16b
	uqsub	v27.16b,v11.16b,v28.16b
	uqsub	v28.16b,v13.16b,v29.16b
	uqsub	v29.16b,v12.16b,v30.16b
	eor	v30.16b,v4.16b,v16.16b
	uqsub	v31.16b,v5.16b,v7.16b
	eor	v7.16b,v4.16b,v21.16b
	eor	v21.16b,v4.16b,v25.16b
	eor	v5.16b,v18.16b,v6.16b
	eor	v6.16b,v4.16b,v20.16b
	eor	v20.16b,v4.16b,v24.16b
	eor	v18.16b,v17.16b,v22.16b
	eor	v16.16b,v19.16b,v23.16b
	eor	v19.16b,v30.16b,v26.16b
	eor	v4.16b,v7.16b,v27.16b
	eor	v7.16b,v21.16b,v28.16b
	eor	v6.16b,v6.16b,v29.16b
	eor	v17.16b,v20.16b,v31.16b
	orr	v20.16b,v5.16b,v1.16b
	orr	v21.16b,v19.16b,v3.16b
	orr	v22.16b,v16.16b,v0.16b
	orr	v23.16b,v18.16b,v2.16b
	orr	v20.16b,v20.16b,v17.16b
	orr	v23.16b,v23.16b,v6.16b
	orr	v22.16b,v22.16b,v7.16b
	orr	v21.16b,v21.16b,v4.16b
	orr	v21.16b,v21.16b,v22.16b
	orr	v20.16b,v23.16b,v20.16b
	movi	v22.16b,#240
	orr	v20.16b,v20.16b,v21.16b
	and	v20.16b,v20.16b,v22.16b
	ext	v21.16b,v20.16b,v20.16b,#8
	orr	v20.8b,v20.8b,v21.8b
	fmov	x9,d20
	orr	x9,x9,x9,lsr #32
	lsr	x10,x9,#16
	orr	w9,w9,w10
	orr	w9,w9,w9,lsr #8
	tst	w9,#0xff
	b.eq	33f
32:
	mov	x3,x8
	bl	faster_hex_1_0_0_aarch64_core_backend_Backend_decode_or_find_outlined
	mov	w9,#3
	tst	w1,#0xffff
	mov	w8,w1
	csel	x1,xzr,x9,eq
	bfi	x1,x8,#8,#8
	ldp	x29,x30,[sp,#64]
	ldp	d9,d8,[sp,#48]
	ldp	d11,d10,[sp,#32]
	ldp	d13,d12,[sp,#16]
	add	sp,sp,#80
	ret
33:
	mov	w9,#4097
	mov	x0,x8
	add	x8,x2,x8
	dup	v20.8h,w9
	mov	x1,xzr
	mul	v3.8h,v3.8h,v20.8h
	mul	v2.8h,v2.8h,v20.8h
	mul	v1.8h,v1.8h,v20.8h
	mul	v0.8h,v0.8h,v20.8h
	mul	v19.8h,v19.8h,v20.8h
	mul	v18.8h,v18.8h,v20.8h
	mul	v5.8h,v5.8h,v20.8h
	mul	v16.8h,v16.8h,v20.8h
	mul	v17.8h,v17.8h,v20.8h
	mul	v7.8h,v7.8h,v20.8h
	uzp2	v2.16b,v2.16b,v3.16b
	mul	v3.8h,v4.8h,v20.8h
	mul	v4.8h,v6.8h,v20.8h
	uzp2	v0.16b,v1.16b,v0.16b
	uzp2	v1.16b,v18.16b,v19.16b
	uzp2	v5.16b,v5.16b,v16.16b
	uzp2	v6.16b,v17.16b,v7.16b
	stp	q2,q0,[x2]
	uzp2	v2.16b,v4.16b,v3.16b
	stp	q1,q5,[x2,#32]
	stp	q2,q6,[x8,#-32]
	ldp	x29,x30,[sp,#64]
	ldp	d9,d8,[sp,#48]
	ldp	d11,d10,[sp,#32]
	ldp	d13,d12,[sp,#16]
	add	sp,sp,#80
	ret
	hex_end	faster_hex_1_0_0_aarch64_decode_with_case
	hex_export	faster_hex_1_0_0_aarch64_first_invalid
	hint	#34
	and	w8,w2,#0xff
	cmp	w8,#2
	b.hi	3f
	stp	x29,x30,[sp,#-32]!
	str	x19,[sp,#16]
	mov	x29,sp
	mov	x19,x0
	bl	faster_hex_1_0_0_aarch64_core_backend_Backend_first_invalid
	tst	w0,#0xff
	b.eq	4f
	ldrb	w8,[x19,x1]
	mov	w9,#3
	mov	x0,x1
	orr	x1,x9,x8,lsl #8
	ldr	x19,[sp,#16]
	ldp	x29,x30,[sp],#32
	ret
3:
	mov	x0,xzr
	mov	w1,#5
	ret
4:
	mov	x1,xzr
	mov	x0,xzr
	ldr	x19,[sp,#16]
	ldp	x29,x30,[sp],#32
	ret
	hex_end	faster_hex_1_0_0_aarch64_first_invalid
	hex_constant	.L100aar_static.0
.L100aar_static.0:
	.asciz	" \000"
	hex_constant	.L100aar_static.1
.L100aar_static.1:
	.ascii	"aaA"
	hex_constant	.L100aar_static.2
.L100aar_static.2:
	.ascii	"\247\250\251\000\000\000\000\000\000\220\241\242\243\244\245\246\247\250\251\000\000\000\000\000\000\220\221\222\223\224\225\226\247\251\251\000\000\000\000\000\000\221\241\243\243\245\245\247"
	hex_constant	.L100aar_static.3
.L100aar_static.3:
	.ascii	"\240\240\241"
	hex_constant	.L100aar_static.6
.L100aar_static.6:
	.zero	48,255
	.ascii	"\000\001\002\003\004\005\006\007\b\t\377\377\377\377\377\377\377\n\013\f\r\016\017"
	.zero	26,255
	.ascii	"\n\013\f\r\016\017"
	.zero	153,255
	hex_constant	.L100aar_static.7
.L100aar_static.7:
	.zero	48,255
	.ascii	"\000\001\002\003\004\005\006\007\b\t"
	.zero	39,255
	.ascii	"\n\013\f\r\016\017"
	.zero	153,255
	hex_constant	.L100aar_static.8
.L100aar_static.8:
	.zero	48,255
	.ascii	"\000\001\002\003\004\005\006\007\b\t\377\377\377\377\377\377\377\n\013\f\r\016\017"
	.zero	185,255
	hex_constant	.L100aar_static.9
.L100aar_static.9:
	.ascii	"\020\021\022\000\000\000\000\000\000\000ut{vyx012\000\000\000\000\000\000\000\225\224\233\226\231\230012\000\000\000\000\000\000\000UT[VYX"
	hex_merged	8
	.p2align	1,0x0
.L100aar_static.10:
	.asciz	"\001\020\001\020\001\020\000"
	hex_constant	.L100aar_static.14
.L100aar_static.14:
	.ascii	"000102030405060708090A0B0C0D0E0F101112131415161718191A1B1C1D1E1F202122232425262728292A2B2C2D2E2F303132333435363738393A3B3C3D3E3F404142434445464748494A4B4C4D4E4F505152535455565758595A5B5C5D5E5F606162636465666768696A6B6C6D6E6F707172737475767778797A7B7C7D7E7F808182838485868788898A8B8C8D8E8F909192939495969798999A9B9C9D9E9FA0A1A2A3A4A5A6A7A8A9AAABACADAEAFB0B1B2B3B4B5B6B7B8B9BABBBCBDBEBFC0C1C2C3C4C5C6C7C8C9CACBCCCDCECFD0D1D2D3D4D5D6D7D8D9DADBDCDDDEDFE0E1E2E3E4E5E6E7E8E9EAEBECEDEEEFF0F1F2F3F4F5F6F7F8F9FAFBFCFDFEFF"
	hex_constant	.L100aar_static.15
.L100aar_static.15:
	.ascii	"000102030405060708090a0b0c0d0e0f101112131415161718191a1b1c1d1e1f202122232425262728292a2b2c2d2e2f303132333435363738393a3b3c3d3e3f404142434445464748494a4b4c4d4e4f505152535455565758595a5b5c5d5e5f606162636465666768696a6b6c6d6e6f707172737475767778797a7b7c7d7e7f808182838485868788898a8b8c8d8e8f909192939495969798999a9b9c9d9e9fa0a1a2a3a4a5a6a7a8a9aaabacadaeafb0b1b2b3b4b5b6b7b8b9babbbcbdbebfc0c1c2c3c4c5c6c7c8c9cacbcccdcecfd0d1d2d3d4d5d6d7d8d9dadbdcdddedfe0e1e2e3e4e5e6e7e8e9eaebecedeeeff0f1f2f3f4f5f6f7f8f9fafbfcfdfeff"
	hex_addresses	.L100aar_switch.table.faster_hex_1_0_0_aarch64_decode_grouped.48
	.p2align	3,0x0
.L100aar_switch.table.faster_hex_1_0_0_aarch64_decode_grouped.48:
	.quad	.L100aar_static.6
	.quad	.L100aar_static.7
	.quad	.L100aar_static.8
