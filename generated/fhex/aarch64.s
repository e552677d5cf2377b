/* Written by scripts/generate: do not edit. */
	hex_merged	8
	.p2align	3,0x0
.LCPI0_0:
	.byte	116,111,116,97,0,0,0,0
	hex_export	fhex_main_start
	stp	d15,d14,[sp,#-160]!
	stp	d13,d12,[sp,#16]
	stp	d11,d10,[sp,#32]
	stp	d9,d8,[sp,#48]
	stp	x29,x30,[sp,#64]
	add	x29,sp,#64
	stp	x28,x27,[sp,#80]
	stp	x26,x25,[sp,#96]
	stp	x24,x23,[sp,#112]
	stp	x22,x21,[sp,#128]
	stp	x20,x19,[sp,#144]
	sub	sp,sp,#560
	movi	v0.2d,#0000000000000000
	mov	x26,xzr
	mov	x20,xzr
	add	x27,sp,#208
	sub	x19,x29,#88
	add	x25,sp,#304
	stp	x19,xzr,[x27,#224]
	str	xzr,[x27,#240]
	stp	q0,q0,[sp,#80]
1:
	mov	w28,#64
	mov	w22,#256
	b	3f
2:
	adds	x8,x22,x22
	csinv	x22,x8,xzr,lo
	subs	w28,w28,#1
	b.eq	73f
3:
	sub	x21,x29,#88
	stp	xzr,xzr,[x25,#8]
	str	x21,[x27,#96]
	cbnz	x22,8f
	mov	x23,xzr
5:
	mov	x0,x20
	mov	x1,x21
	mov	x2,x23
	bl	fhex_arg
	mov	w8,#36
	cmn	x0,#1
	mov	w9,#22
	csel	w8,w9,w8,eq
	mov	x24,x0
	csel	w0,wzr,w8,gt
	bl	fhex_set_errno
	bl	fhex_errno
	cmp	w0,#36
	b.ne	11f
	ldr	x8,[x27,#112]
	cbz	x8,2b
	mov	x0,x21
	bl	fhex_dealloc
	b	2b
8:
	add	x0,sp,#304
	mov	x1,x22
	bl	std_alloc_vec_Vec_grow_amortized
	cbz	w0,71f
	ldp	x21,x8,[x27,#96]
	add	x23,x8,x22
	cmp	x8,x23
	b.hs	5b
	add	x0,x21,x8
	mov	w1,wzr
	mov	x2,x22
	bl	memset
	b	5b
11:
	cbnz	w0,17f
	cmp	x24,x23
	add	x0,sp,#304
	mov	x1,x21
	csel	x8,x24,x23,lo
	cmp	x24,#0
	ldr	x23,[x27,#112]
	csel	x22,x8,xzr,gt
	stp	xzr,xzr,[x27,#96]
	mov	x2,x22
	str	xzr,[x27,#112]
	bl	core_str_utf8_from_utf8
	ldrb	w8,[sp,#304]
	cmp	w8,#1
	b.eq	88f
	ldr	x8,[x27,#240]
	cmp	x8,x26
	b.eq	15f
14:
	mov	w8,#24
	add	x20,x20,#1
	madd	x8,x26,x8,x19
	add	x26,x26,#1
	cmn	x20,#1
	stp	x21,x22,[x8]
	str	x23,[x8,#16]
	str	x26,[x27,#232]
	b.ne	1b
	b	19f
15:
	sub	x0,x29,#192
	mov	w1,#1
	bl	std_alloc_vec_Vec_grow_amortized_
	cbz	w0,213f
	ldp	x19,x26,[x27,#224]
	b	14b
17:
	ldr	x8,[x27,#112]
	cbz	x8,19f
	mov	x0,x21
	bl	fhex_dealloc
19:
	ldr	x20,[x27,#224]
	ldr	x23,[x27,#240]
	mov	x24,xzr
	mov	x25,xzr
	mov	x19,xzr
	sub	x10,x29,#88
	sub	x9,x29,#88
	add	x13,x20,#24
	str	x9,[sp,#64]
	str	x10,[x27,#96]
	cmp	x25,#0
	csel	x28,xzr,xzr,eq
20:
	ldr	x22,[sp,#64]
	cbz	x26,41f
	mov	w8,#24
	sub	x21,x26,#1
	madd	x8,x19,x8,x20
	add	x19,x19,#1
	ldr	x9,[x8,#16]
	cbz	x9,24f
	ldr	x0,[x8]
	bl	fhex_dealloc
	add	x13,x20,#24
	b	24f
23:
	ldr	x22,[sp,#64]
	mov	x21,x26
24:
	cbz	x21,41f
	add	x8,x19,x19,lsl #1
	cmp	x25,x28
	sub	x26,x21,#1
	lsl	x12,x8,#3
	add	x8,x20,x12
	b.ne	27f
	add	x19,x19,#1
	b	32f
27:
	mov	w9,#24
	ldr	x10,[x8,#16]
	ldr	q0,[x8]
	madd	x9,x25,x9,x22
	add	x8,x25,#1
	str	x10,[x9,#16]
	str	q0,[x9]
	cbz	x26,85f
	mov	w10,#24
	mov	x9,xzr
	sub	x11,x8,x28
	madd	x10,x25,x10,x22
	add	x8,x13,x12
	add	x10,x10,#24
29:
	cmn	x11,x9
	b.eq	31f
	ldr	x12,[x8,#16]
	ldr	q0,[x8],#24
	add	x9,x9,#1
	cmp	x26,x9
	str	x12,[x10,#16]
	str	q0,[x10],#24
	b.ne	29b
	b	40f
31:
	add	x10,x19,x9
	sub	x9,x21,x9
	add	x19,x10,#2
	sub	x21,x9,#1
	sub	x26,x9,#2
32:
	ldp	x22,x25,[x8]
	sub	x9,x24,x28
	mov	x10,x24
	ldr	x24,[x8,#16]
	cmp	x21,x9
	mov	x9,x10
	stp	x28,x10,[x27,#104]
	b.hi	34f
33:
	mov	w8,#24
	ldr	x10,[x27,#96]
	madd	x8,x28,x8,x10
	str	x10,[sp,#64]
	stp	x22,x25,[x8]
	add	x25,x28,#1
	str	x24,[x8,#16]
	mov	w8,#1
	mov	x24,x9
	str	x25,[x27,#104]
	cmp	x25,#0
	csel	x28,xzr,x9,eq
	tbz	w8,#0,20b
	b	23b
34:
	add	x0,sp,#304
	mov	x1,x21
	bl	std_alloc_vec_Vec_grow_amortized_
	ldp	x28,x8,[x27,#104]
	tbnz	w0,#0,38f
	mov	x9,x8
	cmp	x8,x28
	add	x13,x20,#24
	b.ne	33b
	add	x0,sp,#304
	mov	w1,#1
	bl	std_alloc_vec_Vec_grow_amortized_
	cbz	w0,228f
	ldp	x28,x9,[x27,#104]
	b	39f
38:
	mov	x9,x8
39:
	add	x13,x20,#24
	b	33b
40:
	add	x8,x25,x9
	add	x25,x8,#1
41:
	cbz	x23,43f
42:
	mov	x0,x20
	bl	fhex_dealloc
43:
	sub	x21,x29,#88
	str	x24,[sp,#48]
	stp	xzr,xzr,[x27,#104]
	str	x21,[x27,#96]
	cbz	x25,55f
	mov	x8,xzr
	mov	x11,xzr
	mov	x28,xzr
	add	x19,sp,#304
	sub	x20,x29,#88
	mov	x24,x25
45:
	add	x9,x20,x28,lsl #4
	mov	x23,xzr
	mov	x12,x20
	sub	x10,x28,x8
	add	x22,x22,#24
	add	x9,x9,#8
46:
	ldp	x20,x26,[x22,#-24]
	cmn	x10,x23
	b.eq	48f
	add	x23,x23,#1
	stp	x20,x26,[x9,#-8]
	add	x22,x22,#24
	cmp	x24,x23
	add	x9,x9,#16
	b.ne	46b
	b	54f
48:
	sub	x9,x11,x8
	sub	x28,x24,x23
	stp	x12,x8,[x27,#96]
	cmp	x28,x9
	str	x11,[x27,#112]
	b.hi	50f
49:
	ldr	x12,[x27,#96]
	sub	x10,x24,#1
	sub	x24,x28,#1
	adds	x28,x8,#1
	add	x9,x12,x8,lsl #4
	csel	x8,xzr,x11,hs
	cmp	x10,x23
	stp	x20,x26,[x9]
	mov	x20,x12
	stp	xzr,xzr,[x19,#8]
	b.ne	45b
	b	56f
50:
	add	x0,sp,#304
	sub	x1,x24,x23
	bl	std_alloc_vec_Vec_grow_amortized__
	ldp	x8,x11,[x27,#104]
	tbnz	w0,#0,49b
	cmp	x11,x8
	b.ne	49b
	add	x0,sp,#304
	mov	w1,#1
	bl	std_alloc_vec_Vec_grow_amortized__
	cbz	w0,265f
	ldp	x8,x11,[x27,#104]
	b	49b
54:
	add	x28,x28,x23
	mov	x20,x12
	b	56f
55:
	mov	x11,xzr
	mov	x28,xzr
	sub	x20,x29,#88
56:
	mov	w0,#65536
	mov	w1,#1
	str	x11,[sp,#56]
	mov	w19,#65536
	bl	fhex_alloc
	tst	w0,#0x1
	csel	x21,x1,x21,ne
	csel	x24,x19,xzr,ne
	cmp	x28,#1
	b.ne	102f
	ldp	x22,x23,[x20]
	hex_page	x2,.Lstatic.3
	hex_address	x2,x2,.Lstatic.3
	mov	w3,#7
	mov	x0,x22
	mov	x1,x23
	bl	core_cmp_text_RefStrPartialEq_eq
	cbz	w0,65f
	movi	v0.2d,#0000000000000000
	sub	x8,x29,#88
	add	x0,sp,#224
	sub	x1,x29,#88
	mov	w2,wzr
	mov	w3,wzr
	stp	xzr,xzr,[sp,#184]
	str	xzr,[sp,#176]
	stp	q0,q0,[x27,#96]
	stp	q0,q0,[x27,#128]
	stp	q0,q0,[x27,#160]
	stp	q0,q0,[x27,#192]
	stp	q0,q0,[sp,#112]
	stp	q0,q0,[sp,#144]
	stp	x8,xzr,[x27,#16]
	stp	xzr,x8,[x27,#32]
	stp	xzr,xzr,[x27,#48]
	bl	program_vectors_Report_ref_A_add
	and	w8,w0,#0xff
	tbnz	w8,#0,282f
	add	x0,sp,#224
	sub	x1,x29,#88
	mov	w2,#1
	mov	w3,wzr
	bl	program_vectors_Report_ref_A_add
	and	w8,w0,#0xff
	tbnz	w8,#0,282f
	add	x0,sp,#224
	sub	x1,x29,#88
	mov	w2,#2
	mov	w3,wzr
	bl	program_vectors_Report_ref_A_add
	and	w8,w0,#0xff
	tbnz	w8,#0,282f
	add	x0,sp,#224
	sub	x1,x29,#88
	mov	w2,#3
	mov	w3,wzr
	bl	program_vectors_Report_ref_A_add
	and	w8,w0,#0xff
	tbnz	w8,#0,282f
	add	x0,sp,#224
	sub	x1,x29,#88
	mov	w2,#4
	mov	w3,wzr
	bl	program_vectors_Report_ref_A_add
	and	w8,w0,#0xff
	tbnz	w8,#0,282f
	add	x0,sp,#224
	sub	x1,x29,#88
	mov	w2,#5
	mov	w3,wzr
	bl	program_vectors_Report_ref_A_add
	ldr	x22,[sp,#64]
	and	w8,w0,#0xff
	tbz	w8,#0,160f
	ldr	x8,[x27,#32]
	cbnz	x8,283f
	b	284f
65:
	hex_page	x2,.Lstatic.46
	hex_address	x2,x2,.Lstatic.46
	mov	x0,x22
	mov	x1,x23
	mov	w3,#6
	bl	core_cmp_text_RefStrPartialEq_eq
	tbz	w0,#0,67f
	mov	w19,wzr
	b	100f
67:
	hex_page	x2,.Lstatic.47
	hex_address	x2,x2,.Lstatic.47
	mov	x0,x22
	mov	x1,x23
	mov	w3,#12
	bl	core_cmp_text_RefStrPartialEq_eq
	tbz	w0,#0,69f
	mov	w19,#1
	b	100f
69:
	hex_page	x2,.Lstatic.48
	hex_address	x2,x2,.Lstatic.48
	mov	x0,x22
	mov	x1,x23
	mov	w3,#6
	bl	core_cmp_text_RefStrPartialEq_eq
	tbz	w0,#0,86f
	mov	w19,#2
	b	100f
71:
	ldr	x8,[x27,#112]
	cbz	x8,73f
	ldr	x0,[x27,#96]
	bl	fhex_dealloc
73:
	ldr	x20,[x27,#240]
	cbz	x26,78f
	add	x21,x19,#16
	b	76f
75:
	subs	x26,x26,#1
	add	x21,x21,#24
	b.eq	78f
76:
	ldr	x8,[x21]
	cbz	x8,75b
	ldur	x0,[x21,#-16]
	bl	fhex_dealloc
	b	75b
78:
	cbz	x20,80f
79:
	mov	x0,x19
	bl	fhex_dealloc
80:
	sub	x8,x29,#192
	sub	x9,x29,#192
81:
	mov	w10,#21
	mov	w11,#38
	strb	w10,[sp,#304]
	sturb	w11,[x29,#-192]
	ldrb	w9,[x9]
	cmp	w9,#38
	b.ne	83f
82:
	mov	w8,#6
	b	84f
83:
	strb	w10,[sp,#304]
	sturb	w11,[x29,#-192]
	ldrb	w8,[x8]
	cmp	w8,#21
	mov	w8,#3
	cinc	x8,x8,eq
84:
	add	x0,sp,#80
	stp	x8,xzr,[sp,#80]
	stp	xzr,xzr,[sp,#96]
	bl	program_program_refuse
	mov	w23,w0
	b	296f
85:
	mov	x25,x8
	cbnz	x23,42b
	b	43b
86:
	hex_page	x2,.Lstatic.49
	hex_address	x2,x2,.Lstatic.49
	mov	x0,x22
	mov	x1,x23
	mov	w3,#12
	bl	core_cmp_text_RefStrPartialEq_eq
	tbz	w0,#0,98f
	mov	w19,#3
	b	100f
88:
	cbz	x23,90f
	mov	x0,x21
	bl	fhex_dealloc
90:
	ldr	x19,[x27,#224]
	ldr	x20,[x27,#240]
	cbz	x26,95f
	add	x21,x19,#16
	b	93f
92:
	subs	x26,x26,#1
	add	x21,x21,#24
	b.eq	95f
93:
	ldr	x8,[x21]
	cbz	x8,92b
	ldur	x0,[x21,#-16]
	bl	fhex_dealloc
	b	92b
95:
	cbz	x20,97f
	mov	x0,x19
	bl	fhex_dealloc
97:
	add	x8,sp,#304
	add	x9,sp,#304
	b	81b
98:
	hex_page	x2,.Lstatic.50
	hex_address	x2,x2,.Lstatic.50
	mov	x0,x22
	mov	x1,x23
	mov	w3,#12
	bl	core_cmp_text_RefStrPartialEq_eq
	cbz	w0,102f
	mov	w19,#4
100:
	movi	v0.2d,#0000000000000000
	add	x0,sp,#224
	sub	x1,x29,#88
	str	xzr,[x27,#48]
	stp	q0,q0,[x27,#16]
	bl	program_input_read_input
	ldrb	w8,[sp,#224]
	ldr	x22,[x27,#40]
	cbz	w8,105f
	ldrb	w19,[sp,#232]
	ldrb	w28,[sp,#240]
	ldr	x23,[x27,#48]
	b	103f
102:
	mov	x23,xzr
	mov	x22,xzr
	mov	x28,xzr
	mov	w19,#1
103:
	add	x0,sp,#304
	stp	x19,x28,[x27,#96]
	stp	x22,x23,[x27,#112]
	bl	program_program_refuse
	ldr	x8,[sp,#56]
	mov	w23,w0
104:
	ldr	x22,[sp,#64]
	b	285f
105:
	movi	v0.2d,#0000000000000000
	ldp	x2,x3,[x27,#24]
	cmp	w19,#1
	stp	x21,xzr,[x27,#96]
	str	x24,[x27,#112]
	str	xzr,[x27,#216]
	stur	q0,[x27,#120]
	stur	q0,[x27,#136]
	stur	q0,[x27,#152]
	stur	q0,[x27,#168]
	stur	q0,[x27,#184]
	stur	q0,[x27,#200]
	b.le	109f
	cmp	w19,#2
	b.eq	111f
	cmp	w19,#3
	b.ne	112f
	mov	w28,#1
	b	113f
109:
	add	x0,sp,#304
	str	x2,[sp,#40]
	cbnz	w19,124f
	mov	w1,wzr
	b	125f
111:
	mov	w28,wzr
	b	113f
112:
	mov	w28,#2
113:
	cbz	x3,115f
	sub	x19,x3,#1
	ldrb	w8,[x2,x19]
	cmp	w8,#10
	b.eq	116f
115:
	mov	x19,x3
116:
	tbnz	w19,#0,123f
	str	x2,[sp,#40]
	cbz	x19,127f
	lsr	x23,x19,#1
	mov	w1,#1
	mov	x0,x23
	bl	fhex_alloc
	tbz	w0,#0,128f
	mov	x26,x1
	cmp	x19,#2
	b.ne	135f
	ldr	x0,[sp,#40]
	strb	wzr,[x26]
121:
	add	x8,x0,x19
	ldr	h0,[x0]
	movi	v2.4h,#55
	sub	x8,x8,#2
	movi	v3.16b,#143
	ld1	{ v0.h }[1],[x8]
	zip1	v0.8b,v0.8b,v0.8b
	fmov	d1,d0
	bic	v1.4h,#255,lsl #8
	uqsub	v1.4h,v1.4h,v2.4h
	movi	v2.2d,#0000000000000000
	umov	w8,v1.h[0]
	umov	w9,v1.h[1]
	mov	v2.b[0],w8
	umov	w8,v1.h[2]
	mov	v2.b[1],w9
	umov	w9,v1.h[3]
	mov	v2.b[2],w8
	hex_page	x8,.Lstatic.19
	hex_address	x8,x8,.Lstatic.19
	mov	v2.b[3],w9
	and	v2.16b,v2.16b,v3.16b
	ldr	q3,[x8,w28,uxtw #4]
	hex_page	x8,.Lstatic.20
	hex_address	x8,x8,.Lstatic.20
	tbl	v2.16b,{ v3.16b },v2.16b
	ldr	b3,[x8,w28,uxtw]
	dup	v3.4h,v3.h[0]
	zip1	v2.8b,v2.8b,v0.8b
	eor	v0.8b,v3.8b,v0.8b
	bic	v2.4h,#255,lsl #8
	uqsub	v1.4h,v2.4h,v1.4h
	movi	v2.4h,#240
	eor	v0.8b,v1.8b,v0.8b
	and	v1.8b,v0.8b,v2.8b
	fmov	x8,d1
	lsr	x9,x8,#32
	orr	w8,w8,w9
	orr	w8,w8,w8,lsr #16
	tst	w8,#0xff
	b.ne	275f
	uzp1	v0.8b,v0.8b,v0.8b
	mov	w8,#4097
	dup	v1.2s,w8
	add	x8,x26,x23
	zip1	v0.4h,v0.4h,v0.4h
	mul	v0.2s,v0.2s,v1.2s
	movi	d1,#0x00ffff0000ffff
	and	v0.8b,v0.8b,v1.8b
	ushr	v0.2s,v0.2s,#8
	mov	s1,v0.s[1]
	str	b0,[x26]
	stur	b1,[x8,#-1]
	b	137f
123:
	mov	w0,wzr
	mov	x1,xzr
	mov	x23,xzr
	mov	w28,#3
	b	129f
124:
	mov	w1,#1
125:
	bl	program_operation_put_text_line
	ldr	q0,[x27,#96]
	ldr	x8,[x27,#112]
	tst	w0,#0xff
	str	q0,[x27,#64]
	str	x8,[x27,#80]
	b.eq	165f
126:
	ldr	x2,[sp,#40]
	mov	x23,xzr
	mov	x1,xzr
	mov	x28,xzr
	b	130f
127:
	stp	x21,xzr,[x27,#64]
	str	x24,[x27,#80]
	b	165f
128:
	ldr	x2,[sp,#40]
	mov	x28,xzr
	mov	x1,xzr
	mov	x23,xzr
	mov	w0,#2
129:
	str	x21,[x27,#64]
	str	x24,[x27,#80]
130:
	and	w8,w0,#0xff
	mov	x26,x20
	cmp	w8,#2
	b.eq	133f
	cmp	w8,#1
	b.ne	134f
	mov	x28,xzr
	mov	x1,xzr
	mov	x23,xzr
	mov	w20,wzr
	mov	w19,#5
	b	166f
133:
	mov	x28,xzr
	mov	x1,xzr
	mov	x23,xzr
	mov	w20,wzr
	mov	w19,#6
	b	166f
134:
	mov	x19,xzr
	mov	w20,wzr
	b	166f
135:
	sub	x2,x23,#1
	mov	x0,x26
	mov	w1,wzr
	bl	memset
	cmp	x19,#2049
	sub	x8,x23,#1
	strb	wzr,[x26,x8]
	b.lo	171f
	ldr	x0,[sp,#40]
	mov	x1,x26
	mov	x2,x23
	mov	w3,w28
	bl	core_backend_Backend_decode_owned
	tbz	w0,#0,275f
137:
	mov	x21,xzr
138:
	ldp	x28,x8,[x27,#104]
	movi	v0.2d,#0000000000000000
	sub	x24,x23,x21
	sub	x10,x29,#192
	add	x9,x26,x21
	sub	x19,x29,#192
	sub	x8,x8,x28
	cmp	x24,x8
	stp	q0,q0,[x10]
	stp	q0,q0,[x10,#32]
	stp	q0,q0,[x10,#64]
	b.hs	157f
	ldr	x8,[x27,#96]
	add	x0,x8,x28
	sub	x9,x0,x9
	cmp	x9,x24
	b.hs	146f
	cmp	x24,#8
	b.lo	142f
	add	x9,x28,x8
	add	x10,x26,x21
	sub	x9,x9,x10
	cmp	x9,#32
	b.hs	148f
142:
	mov	x9,xzr
143:
	add	x10,x9,x21
	add	x11,x9,x28
	neg	x9,x23
	add	x9,x10,x9
	add	x10,x26,x10
	add	x8,x8,x11
144:
	ldrb	w11,[x10],#1
	adds	x9,x9,#1
	strb	w11,[x8],#1
	b.lo	144b
145:
	add	x8,x28,x24
	str	x8,[x27,#104]
	cbnz	x24,147f
	b	159f
146:
	add	x1,x26,x21
	sub	x2,x23,x21
	bl	memmove
	add	x8,x28,x24
	str	x8,[x27,#104]
	cbz	x24,159f
147:
	add	x21,x24,x21
	cmp	x21,x23
	b.lo	138b
	b	163f
148:
	cmp	x24,#32
	b.hs	150f
	mov	x9,xzr
	b	154f
150:
	add	x12,x8,x28
	add	x11,x26,#16
	and	x10,x24,#0x18
	and	x9,x24,#0x7fffffffffffffe0
	add	x11,x11,x21
	add	x12,x12,#16
	and	x13,x24,#0x7fffffffffffffe0
151:
	ldp	q0,q1,[x11,#-16]
	subs	x13,x13,#32
	add	x11,x11,#32
	stp	q0,q1,[x12,#-16]
	add	x12,x12,#32
	b.ne	151b
	cmp	x24,x9
	b.eq	145b
	cbz	x10,143b
154:
	mov	x10,x9
	and	x9,x24,#0x7ffffffffffffff8
	add	x11,x10,x21
	add	x12,x10,x28
	sub	x10,x10,x9
	add	x11,x26,x11
	add	x12,x8,x12
155:
	ldr	d0,[x11],#8
	adds	x10,x10,#8
	str	d0,[x12],#8
	b.ne	155b
	cmp	x24,x9
	b.eq	145b
	b	143b
157:
	sub	x0,x29,#192
	add	x1,sp,#304
	add	x2,x26,x21
	sub	x3,x23,x21
	bl	std_io_buffered_BufWriter_write_cold
	ldurb	w8,[x29,#-192]
	cbnz	w8,159f
	ldr	x24,[x19,#8]
	cbnz	x24,147b
159:
	mov	w19,#1
	b	164f
160:
	ldp	x23,x8,[x27,#48]
	sub	x13,x29,#192
	ldp	q1,q0,[x27,#16]
	mov	w10,#32
	stur	w10,[x29,#-160]
	mov	x10,#-1
	stp	x23,x8,[x27]
	subs	x8,x8,x23
	stp	q1,q0,[x27,#224]
	csel	x8,xzr,x8,lo
	str	x8,[sp,#200]
	ldp	x9,x8,[x13,#8]
	stp	xzr,xzr,[x27,#280]
	stur	xzr,[x13,#36]
	sub	x11,x8,x9
	stur	wzr,[x29,#-148]
	cmp	x11,#5
	str	x10,[x13,#48]
	b.ls	252f
161:
	ldr	x10,[x13]
	hex_page	x11,.Lstatic.5
	hex_address	x11,x11,.Lstatic.5
	add	x10,x10,x9
	add	x9,x9,#6
	sub	x11,x10,x11
	cmp	x11,#5
	b.hi	176f
	hex_page	x11,.LCPI0_0
	hex_value	d0,x11,.LCPI0_0
	mov	w11,#8300
	strh	w11,[x10,#4]
	str	s0,[x10]
	b	177f
163:
	mov	w19,wzr
164:
	mov	x0,x26
	bl	fhex_dealloc
	mov	w0,w19
	ldr	q0,[x27,#96]
	ldr	x8,[x27,#112]
	tst	w19,#0xff
	str	q0,[x27,#64]
	str	x8,[x27,#80]
	b.ne	126b
165:
	movi	v0.2d,#0000000000000000
	sub	x8,x29,#192
	sub	x0,x29,#192
	add	x1,sp,#272
	mov	x26,x20
	stp	q0,q0,[x8]
	stp	q0,q0,[x8,#32]
	stp	q0,q0,[x8,#64]
	bl	std_io_buffered_BufWriter_flush_buf
	ldurb	w8,[x29,#-192]
	ldr	x2,[sp,#40]
	mov	x28,xzr
	mov	x1,xzr
	mov	x23,xzr
	cmp	w8,#0
	mov	w8,#5
	cset	w20,eq
	csel	x19,xzr,x8,eq
166:
	cbz	x22,168f
	mov	x0,x2
	mov	x21,x1
	bl	fhex_dealloc
	mov	x1,x21
168:
	ldr	x21,[x27,#64]
	ldr	x24,[x27,#80]
	tbz	w20,#0,170f
	ldr	x8,[sp,#56]
	mov	w23,wzr
	mov	x20,x26
	b	104b
170:
	mov	x22,x1
	mov	x20,x26
	b	103b
171:
	ldr	x0,[sp,#40]
	cmp	x19,#15
	b.hi	221f
	cmp	x19,#3
	b.ls	121b
	hex_page	x8,.Lstatic.19
	hex_address	x8,x8,.Lstatic.19
	cmp	x19,#7
	ldr	q0,[x8,w28,uxtw #4]
	add	x9,x0,x19
	mov	w8,w28
	b.hi	245f
	ldr	s1,[x0]
	sub	x9,x9,#4
	movi	v2.8b,#55
	movi	v3.16b,#143
	ld1	{ v1.s }[1],[x9]
	hex_page	x9,.Lstatic.20
	hex_address	x9,x9,.Lstatic.20
	add	x8,x9,x8
	uqsub	v2.8b,v1.8b,v2.8b
	and	v3.16b,v2.16b,v3.16b
	tbl	v0.16b,{ v0.16b },v3.16b
	ld1r	{ v3.8b },[x8]
	eor	v1.8b,v3.8b,v1.8b
	uqsub	v0.8b,v0.8b,v2.8b
	movi	v2.8b,#240
	eor	v0.8b,v0.8b,v1.8b
	and	v1.8b,v0.8b,v2.8b
	fmov	x8,d1
	orr	x8,x8,x8,lsr #32
	lsr	x9,x8,#16
	orr	w8,w8,w9
	orr	w8,w8,w8,lsr #8
	tst	w8,#0xff
	b.ne	275f
	mov	w8,#4097
	dup	v1.4h,w8
	add	x8,x26,x23
	mul	v0.4h,v0.4h,v1.4h
	ushr	v0.4h,v0.4h,#8
	ushll	v0.4s,v0.4h,#0
	ext	v1.16b,v0.16b,v0.16b,#8
	mov	s2,v0.s[1]
	str	b0,[x26]
	mov	s3,v1.s[1]
	stur	b2,[x26,#1]
	stur	b1,[x8,#-2]
	stur	b3,[x8,#-1]
	b	137b
176:
	mov	w12,#28532
	mov	w11,#8300
	movk	w12,#24948,lsl #16
	strh	w11,[x10,#4]
	str	w12,[x10]
177:
	sub	x0,x29,#192
	add	x1,sp,#216
	stp	x9,x8,[x13,#8]
	bl	core_fmt_formatter_Formatter_write_piece
	and	w8,w0,#0xff
	sub	x19,x29,#192
	tbnz	w8,#0,280f
	mov	w8,#32
	sub	x22,x29,#192
	mov	x9,#-1
	stur	w8,[x29,#-160]
	ldr	x8,[x19,#56]
	stur	xzr,[x22,#36]
	stur	wzr,[x22,#44]
	str	x9,[x19,#48]
	cbnz	x8,262f
	ldp	x9,x8,[x19,#8]
	sub	x10,x8,x9
	cmp	x10,#7
	b.ls	263f
180:
	mov	x12,#28704
	ldr	x10,[x19]
	add	x11,x9,#8
	movk	x12,#29537,lsl #16
	movk	x12,#25971,lsl #32
	movk	x12,#8292,lsl #48
	str	x12,[x10,x9]
	stp	x11,x8,[x19,#8]
181:
	sub	x0,x29,#192
	add	x1,sp,#200
	bl	core_fmt_formatter_Formatter_write_piece
	and	w8,w0,#0xff
	tbnz	w8,#0,280f
	mov	w8,#32
	ldr	x9,[x19,#56]
	stur	xzr,[x22,#36]
	stur	w8,[x29,#-160]
	mov	x8,#-1
	stur	wzr,[x22,#44]
	str	x8,[x19,#48]
	cbnz	x9,277f
	ldp	x9,x8,[x19,#8]
	sub	x10,x8,x9
	cmp	x10,#7
	b.ls	278f
184:
	mov	x12,#26144
	ldr	x10,[x19]
	add	x11,x9,#8
	movk	x12,#26977,lsl #16
	movk	x12,#25964,lsl #32
	movk	x12,#8292,lsl #48
	str	x12,[x10,x9]
	stp	x11,x8,[x19,#8]
185:
	sub	x0,x29,#192
	add	x1,sp,#208
	bl	core_fmt_formatter_Formatter_write_piece
	and	w8,w0,#0xff
	tbnz	w8,#0,280f
	mov	w8,#32
	ldr	x9,[x19,#56]
	str	x20,[sp,#40]
	stur	w8,[x29,#-160]
	mov	x8,#-1
	stur	xzr,[x22,#36]
	stur	wzr,[x22,#44]
	str	x8,[x19,#48]
	cbnz	x9,297f
	ldp	x9,x8,[x19,#8]
	cmp	x8,x9
	b.eq	298f
188:
	sub	x13,x29,#192
	add	x11,x9,#1
	mov	w12,#10
	ldr	x10,[x13]
	strb	w12,[x10,x9]
	stp	x11,x8,[x13,#8]
	ldp	q0,q1,[x13]
	stp	q0,q1,[x27,#16]
189:
	movi	v0.2d,#0000000000000000
	stp	x21,xzr,[x27,#96]
	ldr	x26,[x27,#32]
	ldp	x20,x21,[x27,#16]
	str	x24,[x27,#112]
	str	xzr,[x27,#216]
	stur	q0,[x27,#120]
	stur	q0,[x27,#136]
	stur	q0,[x27,#152]
	stur	q0,[x27,#168]
	stur	q0,[x27,#184]
	stur	q0,[x27,#200]
	cbz	x21,258f
	mov	x24,xzr
191:
	ldp	x28,x8,[x27,#104]
	movi	v0.2d,#0000000000000000
	sub	x22,x21,x24
	sub	x10,x29,#192
	add	x9,x20,x24
	sub	x19,x29,#192
	sub	x8,x8,x28
	cmp	x22,x8
	stp	q0,q0,[x10]
	stp	q0,q0,[x10,#32]
	stp	q0,q0,[x10,#64]
	b.hs	210f
	ldr	x8,[x27,#96]
	add	x0,x8,x28
	sub	x9,x0,x9
	cmp	x9,x22
	b.hs	199f
	cmp	x22,#8
	b.lo	195f
	add	x9,x28,x8
	add	x10,x24,x20
	sub	x9,x9,x10
	cmp	x9,#32
	b.hs	201f
195:
	mov	x9,xzr
196:
	add	x10,x9,x24
	add	x11,x9,x28
	neg	x9,x21
	add	x9,x10,x9
	add	x10,x20,x10
	add	x8,x8,x11
197:
	ldrb	w11,[x10],#1
	adds	x9,x9,#1
	strb	w11,[x8],#1
	b.lo	197b
198:
	add	x8,x28,x22
	str	x8,[x27,#104]
	cbnz	x22,200f
	b	212f
199:
	add	x1,x20,x24
	sub	x2,x21,x24
	bl	memmove
	add	x8,x28,x22
	str	x8,[x27,#104]
	cbz	x22,212f
200:
	add	x24,x22,x24
	cmp	x24,x21
	b.lo	191b
	b	258f
201:
	cmp	x22,#32
	b.hs	203f
	mov	x9,xzr
	b	207f
203:
	add	x12,x8,x28
	add	x11,x20,#16
	and	x10,x22,#0x18
	and	x9,x22,#0xffffffffffffffe0
	add	x11,x11,x24
	add	x12,x12,#16
	and	x13,x22,#0xffffffffffffffe0
204:
	ldp	q0,q1,[x11,#-16]
	subs	x13,x13,#32
	add	x11,x11,#32
	stp	q0,q1,[x12,#-16]
	add	x12,x12,#32
	b.ne	204b
	cmp	x22,x9
	b.eq	198b
	cbz	x10,196b
207:
	mov	x10,x9
	and	x9,x22,#0xfffffffffffffff8
	add	x11,x10,x24
	add	x12,x10,x28
	sub	x10,x10,x9
	add	x11,x20,x11
	add	x12,x8,x12
208:
	ldr	d0,[x11],#8
	adds	x10,x10,#8
	str	d0,[x12],#8
	b.ne	208b
	cmp	x22,x9
	b.eq	198b
	b	196b
210:
	sub	x0,x29,#192
	add	x1,sp,#304
	add	x2,x20,x24
	sub	x3,x21,x24
	bl	std_io_buffered_BufWriter_write_cold
	ldurb	w8,[x29,#-192]
	cbnz	w8,212f
	ldr	x22,[x19,#8]
	cbnz	x22,200b
212:
	ldr	q0,[x27,#96]
	ldr	x8,[x27,#112]
	str	q0,[sp,#176]
	str	x8,[sp,#192]
	b	259f
213:
	cbz	x23,215f
	mov	x0,x21
	bl	fhex_dealloc
215:
	ldp	x19,x20,[x27,#224]
	ldr	x21,[x27,#240]
	cbz	x20,220f
	add	x22,x19,#16
	b	218f
217:
	subs	x20,x20,#1
	add	x22,x22,#24
	b.eq	220f
218:
	ldr	x8,[x22]
	cbz	x8,217b
	ldur	x0,[x22,#-16]
	bl	fhex_dealloc
	b	217b
220:
	cbnz	x21,79b
	b	80b
221:
	cmp	x19,#32
	b.hi	225f
	movi	v0.16b,#55
	b.ne	247f
	ldp	q1,q2,[x0]
	movi	v3.16b,#143
	hex_page	x8,.Lstatic.19
	hex_address	x8,x8,.Lstatic.19
	ldr	q6,[x8,w28,uxtw #4]
	hex_page	x8,.Lstatic.20
	hex_address	x8,x8,.Lstatic.20
	uqsub	v4.16b,v2.16b,v0.16b
	uqsub	v0.16b,v1.16b,v0.16b
	add	x8,x8,w28,uxtw
	and	v5.16b,v0.16b,v3.16b
	and	v3.16b,v4.16b,v3.16b
	tbl	v5.16b,{ v6.16b },v5.16b
	tbl	v3.16b,{ v6.16b },v3.16b
	ld1r	{ v6.16b },[x8]
	eor	v2.16b,v6.16b,v2.16b
	uqsub	v3.16b,v3.16b,v4.16b
	uqsub	v0.16b,v5.16b,v0.16b
	eor	v4.16b,v6.16b,v1.16b
	eor	v1.16b,v3.16b,v2.16b
	eor	v0.16b,v0.16b,v4.16b
	movi	v2.16b,#240
	orr	v3.16b,v0.16b,v1.16b
	and	v2.16b,v3.16b,v2.16b
	ext	v3.16b,v2.16b,v2.16b,#8
	orr	v2.8b,v2.8b,v3.8b
	fmov	x8,d2
	orr	x8,x8,x8,lsr #32
	lsr	x9,x8,#16
	orr	w8,w8,w9
	orr	w8,w8,w8,lsr #8
	tst	w8,#0xff
	b.ne	275f
	mov	w8,#4097
	dup	v2.8h,w8
	mul	v1.8h,v1.8h,v2.8h
	mul	v0.8h,v0.8h,v2.8h
	uzp2	v0.16b,v0.16b,v1.16b
	str	q0,[x26]
	b	137b
225:
	cmp	x19,#64
	b.hi	249f
	movi	v0.16b,#55
	add	x8,x0,x19
	movi	v5.16b,#143
	ldp	q1,q2,[x0]
	ldp	q3,q4,[x8,#-32]
	hex_page	x8,.Lstatic.19
	hex_address	x8,x8,.Lstatic.19
	uqsub	v6.16b,v2.16b,v0.16b
	uqsub	v7.16b,v1.16b,v0.16b
	ldr	q19,[x8,w28,uxtw #4]
	uqsub	v16.16b,v4.16b,v0.16b
	uqsub	v0.16b,v3.16b,v0.16b
	hex_page	x8,.Lstatic.20
	hex_address	x8,x8,.Lstatic.20
	add	x8,x8,w28,uxtw
	and	v17.16b,v7.16b,v5.16b
	and	v18.16b,v6.16b,v5.16b
	and	v20.16b,v0.16b,v5.16b
	and	v5.16b,v16.16b,v5.16b
	tbl	v17.16b,{ v19.16b },v17.16b
	tbl	v18.16b,{ v19.16b },v18.16b
	tbl	v20.16b,{ v19.16b },v20.16b
	tbl	v5.16b,{ v19.16b },v5.16b
	ld1r	{ v19.16b },[x8]
	uqsub	v7.16b,v17.16b,v7.16b
	uqsub	v6.16b,v18.16b,v6.16b
	eor	v1.16b,v19.16b,v1.16b
	uqsub	v17.16b,v20.16b,v0.16b
	uqsub	v5.16b,v5.16b,v16.16b
	eor	v3.16b,v19.16b,v3.16b
	eor	v2.16b,v19.16b,v2.16b
	eor	v4.16b,v19.16b,v4.16b
	eor	v0.16b,v1.16b,v7.16b
	eor	v1.16b,v3.16b,v17.16b
	eor	v3.16b,v2.16b,v6.16b
	eor	v2.16b,v4.16b,v5.16b
	movi	v6.16b,#240
	orr	v4.16b,v3.16b,v2.16b
	orr	v5.16b,v0.16b,v1.16b
	orr	v4.16b,v5.16b,v4.16b
	and	v4.16b,v4.16b,v6.16b
	ext	v5.16b,v4.16b,v4.16b,#8
	orr	v4.8b,v4.8b,v5.8b
	fmov	x8,d4
	orr	x8,x8,x8,lsr #32
	lsr	x9,x8,#16
	orr	w8,w8,w9
	orr	w8,w8,w8,lsr #8
	tst	w8,#0xff
	b.ne	275f
	mov	w8,#4097
	dup	v4.8h,w8
	add	x8,x26,x23
	mul	v3.8h,v3.8h,v4.8h
	mul	v0.8h,v0.8h,v4.8h
	mul	v1.8h,v1.8h,v4.8h
	mul	v2.8h,v2.8h,v4.8h
	uzp2	v0.16b,v0.16b,v3.16b
	uzp2	v1.16b,v1.16b,v2.16b
	str	q0,[x26]
	stur	q1,[x8,#-16]
	b	137b
228:
	cbz	x24,230f
	mov	x0,x22
	bl	fhex_dealloc
230:
	cbz	x26,236f
	add	x8,x26,x19
	cmp	x19,x8
	b.hs	236f
	mov	w8,#24
	madd	x8,x19,x8,x20
	add	x19,x8,#16
	b	234f
233:
	subs	x26,x26,#1
	add	x19,x19,#24
	b.eq	236f
234:
	ldr	x8,[x19]
	cbz	x8,233b
	ldur	x0,[x19,#-16]
	bl	fhex_dealloc
	b	233b
236:
	cbz	x23,238f
	mov	x0,x20
	bl	fhex_dealloc
238:
	ldp	x19,x20,[x27,#96]
	ldr	x21,[x27,#112]
	cbz	x20,243f
	add	x22,x19,#16
	b	241f
240:
	subs	x20,x20,#1
	add	x22,x22,#24
	b.eq	243f
241:
	ldr	x8,[x22]
	cbz	x8,240b
	ldur	x0,[x22,#-16]
	bl	fhex_dealloc
	b	240b
243:
	cbz	x21,82b
	mov	x0,x19
	b	273f
245:
	ldr	d1,[x0]
	ldur	d2,[x9,#-8]
	movi	v3.16b,#143
	hex_page	x9,.Lstatic.20
	hex_address	x9,x9,.Lstatic.20
	mov	v1.d[1],v2.d[0]
	movi	v2.16b,#55
	add	x8,x9,x8
	uqsub	v2.16b,v1.16b,v2.16b
	and	v3.16b,v2.16b,v3.16b
	tbl	v0.16b,{ v0.16b },v3.16b
	ld1r	{ v3.16b },[x8]
	eor	v1.16b,v3.16b,v1.16b
	uqsub	v0.16b,v0.16b,v2.16b
	movi	v2.16b,#240
	eor	v0.16b,v0.16b,v1.16b
	and	v1.16b,v0.16b,v2.16b
	ext	v2.16b,v1.16b,v1.16b,#8
	orr	v1.8b,v1.8b,v2.8b
	fmov	x8,d1
	orr	x8,x8,x8,lsr #32
	lsr	x9,x8,#16
	orr	w8,w8,w9
	orr	w8,w8,w8,lsr #8
	tst	w8,#0xff
	b.ne	275f
	mov	w8,#4097
	dup	v1.8h,w8
	add	x8,x26,x23
	mul	v0.8h,v0.8h,v1.8h
	ushr	v1.8h,v0.8h,#8
	shrn	v0.8b,v0.8h,#8
	dup	v1.2d,v1.d[1]
	str	s0,[x26]
	xtn	v1.8b,v1.8h
	stur	s1,[x8,#-4]
	b	137b
247:
	add	x8,x0,x19
	ldr	q1,[x0]
	movi	v3.16b,#143
	ldur	q2,[x8,#-16]
	hex_page	x8,.Lstatic.19
	hex_address	x8,x8,.Lstatic.19
	ldr	q6,[x8,w28,uxtw #4]
	hex_page	x8,.Lstatic.20
	hex_address	x8,x8,.Lstatic.20
	uqsub	v4.16b,v2.16b,v0.16b
	uqsub	v0.16b,v1.16b,v0.16b
	add	x8,x8,w28,uxtw
	and	v5.16b,v0.16b,v3.16b
	and	v3.16b,v4.16b,v3.16b
	tbl	v5.16b,{ v6.16b },v5.16b
	tbl	v3.16b,{ v6.16b },v3.16b
	ld1r	{ v6.16b },[x8]
	eor	v1.16b,v6.16b,v1.16b
	eor	v2.16b,v6.16b,v2.16b
	uqsub	v0.16b,v5.16b,v0.16b
	uqsub	v3.16b,v3.16b,v4.16b
	eor	v0.16b,v0.16b,v1.16b
	eor	v1.16b,v3.16b,v2.16b
	movi	v2.16b,#240
	orr	v3.16b,v0.16b,v1.16b
	and	v2.16b,v3.16b,v2.16b
	ext	v3.16b,v2.16b,v2.16b,#8
	orr	v2.8b,v2.8b,v3.8b
	fmov	x8,d2
	orr	x8,x8,x8,lsr #32
	lsr	x9,x8,#16
	orr	w8,w8,w9
	orr	w8,w8,w8,lsr #8
	tst	w8,#0xff
	b.ne	275f
	mov	w8,#4097
	dup	v2.8h,w8
	add	x8,x26,x23
	mul	v0.8h,v0.8h,v2.8h
	mul	v1.8h,v1.8h,v2.8h
	shrn	v0.8b,v0.8h,#8
	shrn	v1.8b,v1.8h,#8
	str	d0,[x26]
	stur	d1,[x8,#-8]
	b	137b
249:
	cmp	x19,#128
	b.hi	254f
	movi	v4.16b,#55
	add	x9,x0,x19
	movi	v5.16b,#143
	ldp	q0,q2,[x0]
	hex_page	x8,.Lstatic.19
	hex_address	x8,x8,.Lstatic.19
	ldp	q1,q3,[x0,#32]
	ldp	q6,q7,[x9,#-64]
	ldr	q25,[x8,w28,uxtw #4]
	ldp	q16,q17,[x9,#-32]
	uqsub	v18.16b,v2.16b,v4.16b
	uqsub	v19.16b,v3.16b,v4.16b
	uqsub	v20.16b,v1.16b,v4.16b
	uqsub	v21.16b,v0.16b,v4.16b
	uqsub	v24.16b,v7.16b,v4.16b
	hex_page	x8,.Lstatic.20
	hex_address	x8,x8,.Lstatic.20
	uqsub	v22.16b,v17.16b,v4.16b
	uqsub	v23.16b,v16.16b,v4.16b
	uqsub	v4.16b,v6.16b,v4.16b
	and	v26.16b,v18.16b,v5.16b
	add	x8,x8,w28,uxtw
	and	v27.16b,v21.16b,v5.16b
	and	v28.16b,v20.16b,v5.16b
	and	v29.16b,v19.16b,v5.16b
	and	v30.16b,v24.16b,v5.16b
	and	v31.16b,v23.16b,v5.16b
	and	v8.16b,v22.16b,v5.16b
	and	v5.16b,v4.16b,v5.16b
	tbl	v26.16b,{ v25.16b },v26.16b
	tbl	v27.16b,{ v25.16b },v27.16b
	tbl	v28.16b,{ v25.16b },v28.16b
	tbl	v29.16b,{ v25.16b },v29.16b
	tbl	v30.16b,{ v25.16b },v30.16b
	tbl	v31.16b,{ v25.16b },v31.16b
	tbl	v8.16b,{ v25.16b },v8.16b
	tbl	v5.16b,{ v25.16b },v5.16b
	ld1r	{ v25.16b },[x8]
	uqsub	v18.16b,v26.16b,v18.16b
	uqsub	v21.16b,v27.16b,v21.16b
	uqsub	v20.16b,v28.16b,v20.16b
	uqsub	v19.16b,v29.16b,v19.16b
	uqsub	v24.16b,v30.16b,v24.16b
	uqsub	v22.16b,v8.16b,v22.16b
	uqsub	v23.16b,v31.16b,v23.16b
	uqsub	v26.16b,v5.16b,v4.16b
	eor	v2.16b,v2.16b,v25.16b
	eor	v3.16b,v3.16b,v25.16b
	eor	v0.16b,v0.16b,v25.16b
	eor	v1.16b,v1.16b,v25.16b
	eor	v16.16b,v16.16b,v25.16b
	eor	v27.16b,v7.16b,v25.16b
	eor	v17.16b,v17.16b,v25.16b
	eor	v25.16b,v6.16b,v25.16b
	eor	v5.16b,v18.16b,v2.16b
	eor	v4.16b,v19.16b,v3.16b
	eor	v6.16b,v21.16b,v0.16b
	eor	v7.16b,v20.16b,v1.16b
	eor	v2.16b,v16.16b,v23.16b
	eor	v0.16b,v27.16b,v24.16b
	eor	v3.16b,v17.16b,v22.16b
	eor	v1.16b,v25.16b,v26.16b
	orr	v16.16b,v2.16b,v7.16b
	orr	v19.16b,v0.16b,v5.16b
	orr	v17.16b,v1.16b,v6.16b
	orr	v18.16b,v3.16b,v4.16b
	orr	v18.16b,v19.16b,v18.16b
	orr	v16.16b,v17.16b,v16.16b
	movi	v17.16b,#240
	orr	v16.16b,v16.16b,v18.16b
	and	v16.16b,v16.16b,v17.16b
	ext	v17.16b,v16.16b,v16.16b,#8
	orr	v16.8b,v16.8b,v17.8b
	fmov	x8,d16
	orr	x8,x8,x8,lsr #32
	lsr	x9,x8,#16
	orr	w8,w8,w9
	orr	w8,w8,w8,lsr #8
	tst	w8,#0xff
	b.ne	275f
	mov	w8,#4097
	dup	v16.8h,w8
	add	x8,x26,x23
	mul	v5.8h,v5.8h,v16.8h
	mul	v6.8h,v6.8h,v16.8h
	mul	v7.8h,v7.8h,v16.8h
	mul	v4.8h,v4.8h,v16.8h
	mul	v2.8h,v2.8h,v16.8h
	mul	v3.8h,v3.8h,v16.8h
	mul	v0.8h,v0.8h,v16.8h
	mul	v1.8h,v1.8h,v16.8h
	uzp2	v5.16b,v6.16b,v5.16b
	uzp2	v4.16b,v7.16b,v4.16b
	uzp2	v2.16b,v2.16b,v3.16b
	uzp2	v0.16b,v1.16b,v0.16b
	stp	q5,q4,[x26]
	stur	q2,[x8,#-16]
	b	257f
252:
	sub	x0,x29,#192
	mov	w1,#6
	bl	std_alloc_vec_Vec_grow_amortized___
	sub	x19,x29,#192
	cbz	w0,280f
	ldp	x9,x8,[x19,#8]
	sub	x13,x29,#192
	b	161b
254:
	cmp	x19,#192
	b.hi	274f
	movi	v3.16b,#55
	ldp	q18,q6,[x0,#32]
	ldp	q16,q1,[x0]
	movi	v4.16b,#143
	hex_page	x8,.Lstatic.19
	hex_address	x8,x8,.Lstatic.19
	add	x9,x0,x19
	ldr	q0,[x8,w28,uxtw #4]
	ldp	q5,q2,[x0,#64]
	uqsub	v23.16b,v18.16b,v3.16b
	uqsub	v21.16b,v1.16b,v3.16b
	uqsub	v26.16b,v16.16b,v3.16b
	uqsub	v20.16b,v6.16b,v3.16b
	ldp	q22,q31,[x9,#-32]
	hex_page	x8,.Lstatic.20
	hex_address	x8,x8,.Lstatic.20
	uqsub	v11.16b,v2.16b,v3.16b
	add	x8,x8,w28,uxtw
	ldp	q17,q7,[x0,#96]
	and	v27.16b,v23.16b,v4.16b
	and	v29.16b,v21.16b,v4.16b
	and	v28.16b,v26.16b,v4.16b
	and	v30.16b,v20.16b,v4.16b
	uqsub	v12.16b,v31.16b,v3.16b
	ld1r	{ v24.16b },[x8]
	ldp	q19,q25,[x9,#-64]
	uqsub	v8.16b,v7.16b,v3.16b
	tbl	v27.16b,{ v0.16b },v27.16b
	tbl	v29.16b,{ v0.16b },v29.16b
	uqsub	v9.16b,v5.16b,v3.16b
	tbl	v28.16b,{ v0.16b },v28.16b
	uqsub	v10.16b,v17.16b,v3.16b
	tbl	v30.16b,{ v0.16b },v30.16b
	stp	q2,q5,[sp]
	uqsub	v13.16b,v25.16b,v3.16b
	uqsub	v14.16b,v19.16b,v3.16b
	eor	v18.16b,v18.16b,v24.16b
	eor	v5.16b,v1.16b,v24.16b
	and	v1.16b,v12.16b,v4.16b
	uqsub	v23.16b,v27.16b,v23.16b
	uqsub	v21.16b,v29.16b,v21.16b
	and	v27.16b,v11.16b,v4.16b
	uqsub	v29.16b,v22.16b,v3.16b
	and	v15.16b,v9.16b,v4.16b
	uqsub	v26.16b,v28.16b,v26.16b
	and	v28.16b,v10.16b,v4.16b
	and	v3.16b,v8.16b,v4.16b
	uqsub	v20.16b,v30.16b,v20.16b
	tbl	v27.16b,{ v0.16b },v27.16b
	eor	v6.16b,v6.16b,v24.16b
	and	v30.16b,v13.16b,v4.16b
	eor	v23.16b,v23.16b,v18.16b
	tbl	v18.16b,{ v0.16b },v1.16b
	and	v2.16b,v14.16b,v4.16b
	and	v4.16b,v29.16b,v4.16b
	tbl	v15.16b,{ v0.16b },v15.16b
	tbl	v28.16b,{ v0.16b },v28.16b
	tbl	v3.16b,{ v0.16b },v3.16b
	eor	v16.16b,v16.16b,v24.16b
	tbl	v30.16b,{ v0.16b },v30.16b
	tbl	v2.16b,{ v0.16b },v2.16b
	eor	v20.16b,v20.16b,v6.16b
	eor	v6.16b,v21.16b,v5.16b
	tbl	v0.16b,{ v0.16b },v4.16b
	uqsub	v21.16b,v27.16b,v11.16b
	uqsub	v27.16b,v18.16b,v12.16b
	eor	v4.16b,v17.16b,v24.16b
	ldp	q18,q17,[sp]
	eor	v1.16b,v26.16b,v16.16b
	uqsub	v5.16b,v28.16b,v10.16b
	uqsub	v16.16b,v15.16b,v9.16b
	uqsub	v3.16b,v3.16b,v8.16b
	eor	v7.16b,v7.16b,v24.16b
	uqsub	v26.16b,v30.16b,v13.16b
	eor	v17.16b,v17.16b,v24.16b
	eor	v28.16b,v18.16b,v24.16b
	uqsub	v2.16b,v2.16b,v14.16b
	uqsub	v29.16b,v0.16b,v29.16b
	eor	v0.16b,v24.16b,v25.16b
	eor	v25.16b,v24.16b,v31.16b
	eor	v4.16b,v4.16b,v5.16b
	eor	v5.16b,v24.16b,v19.16b
	eor	v22.16b,v24.16b,v22.16b
	eor	v18.16b,v17.16b,v16.16b
	eor	v16.16b,v7.16b,v3.16b
	eor	v19.16b,v28.16b,v21.16b
	eor	v0.16b,v0.16b,v26.16b
	eor	v7.16b,v25.16b,v27.16b
	eor	v5.16b,v5.16b,v2.16b
	eor	v17.16b,v22.16b,v29.16b
	orr	v2.16b,v4.16b,v23.16b
	orr	v3.16b,v19.16b,v6.16b
	orr	v21.16b,v16.16b,v20.16b
	orr	v22.16b,v18.16b,v1.16b
	orr	v2.16b,v2.16b,v17.16b
	orr	v22.16b,v22.16b,v5.16b
	orr	v21.16b,v21.16b,v7.16b
	orr	v3.16b,v3.16b,v0.16b
	orr	v3.16b,v3.16b,v21.16b
	orr	v2.16b,v22.16b,v2.16b
	movi	v21.16b,#240
	orr	v2.16b,v2.16b,v3.16b
	and	v2.16b,v2.16b,v21.16b
	ext	v3.16b,v2.16b,v2.16b,#8
	orr	v2.8b,v2.8b,v3.8b
	fmov	x8,d2
	orr	x8,x8,x8,lsr #32
	lsr	x9,x8,#16
	orr	w8,w8,w9
	orr	w8,w8,w8,lsr #8
	tst	w8,#0xff
	b.ne	275f
	mov	w8,#4097
	dup	v2.8h,w8
	add	x8,x26,x23
	mul	v3.8h,v6.8h,v2.8h
	mul	v1.8h,v1.8h,v2.8h
	mul	v6.8h,v23.8h,v2.8h
	mul	v20.8h,v20.8h,v2.8h
	mul	v19.8h,v19.8h,v2.8h
	mul	v18.8h,v18.8h,v2.8h
	mul	v4.8h,v4.8h,v2.8h
	mul	v16.8h,v16.8h,v2.8h
	mul	v17.8h,v17.8h,v2.8h
	mul	v7.8h,v7.8h,v2.8h
	mul	v0.8h,v0.8h,v2.8h
	mul	v2.8h,v5.8h,v2.8h
	uzp2	v1.16b,v1.16b,v3.16b
	uzp2	v3.16b,v6.16b,v20.16b
	uzp2	v5.16b,v18.16b,v19.16b
	uzp2	v4.16b,v4.16b,v16.16b
	uzp2	v6.16b,v17.16b,v7.16b
	uzp2	v0.16b,v2.16b,v0.16b
	stp	q1,q3,[x26]
	stp	q5,q4,[x26,#32]
	stur	q6,[x8,#-16]
257:
	stur	q0,[x8,#-32]
	b	137b
258:
	ldr	q0,[x27,#96]
	ldr	x8,[x27,#112]
	sub	x0,x29,#192
	add	x1,sp,#176
	str	q0,[sp,#176]
	movi	v0.2d,#0000000000000000
	str	x8,[sp,#192]
	sub	x8,x29,#192
	stp	q0,q0,[x8]
	stp	q0,q0,[x8,#32]
	stp	q0,q0,[x8,#64]
	bl	std_io_buffered_BufWriter_flush_buf
	ldurb	w8,[x29,#-192]
	cbz	w8,276f
259:
	mov	w8,#5
	add	x0,sp,#144
	stp	xzr,xzr,[sp,#160]
	stp	x8,xzr,[sp,#144]
	bl	program_program_refuse
	ldr	x21,[sp,#176]
	ldr	x24,[sp,#192]
	mov	w23,w0
	cbz	x26,261f
260:
	mov	x0,x20
	bl	fhex_dealloc
261:
	ldp	x8,x22,[sp,#56]
	ldr	x20,[sp,#40]
	b	285f
262:
	hex_page	x1,.Lstatic.6
	hex_address	x1,x1,.Lstatic.6
	sub	x0,x29,#192
	mov	w2,#8
	bl	core_fmt_formatter_Formatter_write_indented
	and	w8,w0,#0xff
	tbnz	w8,#0,280f
	b	181b
263:
	sub	x0,x29,#192
	mov	w1,#8
	bl	std_alloc_vec_Vec_grow_amortized___
	cbz	w0,280f
	ldp	x9,x8,[x19,#8]
	b	180b
265:
	ldr	x8,[x27,#112]
	cbz	x8,267f
	ldr	x0,[x27,#96]
	bl	fhex_dealloc
267:
	ldr	x8,[sp,#64]
	add	x19,x8,#16
	b	269f
268:
	subs	x25,x25,#1
	add	x19,x19,#24
	b.eq	271f
269:
	ldr	x8,[x19]
	cbz	x8,268b
	ldur	x0,[x19,#-16]
	bl	fhex_dealloc
	b	268b
271:
	ldr	x8,[sp,#48]
	cbz	x8,82b
	ldr	x0,[sp,#64]
273:
	bl	fhex_dealloc
	b	82b
274:
	mov	x1,x19
	mov	x2,x26
	mov	x3,x23
	mov	w4,w28
	bl	core_plain_decode_many_outlined
	tbnz	w0,#0,137b
275:
	mov	x3,x19
	ldr	x19,[sp,#40]
	mov	w0,#5
	mov	w1,wzr
	mov	w4,w28
	mov	x2,x19
	bl	core_backend_Backend_first_invalid_byte
	mov	x28,x0
	mov	x0,x26
	and	x23,x1,#0xff
	bl	fhex_dealloc
	mov	x1,x28
	mov	x2,x19
	mov	w0,wzr
	mov	x28,xzr
	b	129b
276:
	cmp	x23,#0
	ldr	x21,[sp,#176]
	ldr	x24,[sp,#192]
	cset	w23,ne
	cbnz	x26,260b
	b	261b
277:
	hex_page	x1,.Lstatic.7
	hex_address	x1,x1,.Lstatic.7
	sub	x0,x29,#192
	mov	w2,#8
	bl	core_fmt_formatter_Formatter_write_indented
	and	w8,w0,#0xff
	tbnz	w8,#0,280f
	b	185b
278:
	sub	x0,x29,#192
	mov	w1,#8
	bl	std_alloc_vec_Vec_grow_amortized___
	cbz	w0,280f
	ldp	x9,x8,[x19,#8]
	b	184b
280:
	ldp	q0,q1,[x19]
281:
	stp	q0,q1,[x27,#16]
282:
	ldr	x8,[x27,#32]
	ldr	x22,[sp,#64]
	cbz	x8,284f
283:
	ldr	x0,[x27,#16]
	bl	fhex_dealloc
284:
	mov	w8,#6
	add	x0,sp,#112
	str	x8,[sp,#112]
	bl	program_program_refuse
	ldr	x8,[sp,#56]
	mov	w23,w0
285:
	cbz	x24,287f
	mov	x0,x21
	bl	fhex_dealloc
	ldr	x8,[sp,#56]
287:
	cbz	x8,289f
	mov	x0,x20
	bl	fhex_dealloc
289:
	ldr	x20,[sp,#48]
	cbz	x25,294f
	add	x19,x22,#16
	b	292f
291:
	subs	x25,x25,#1
	add	x19,x19,#24
	b.eq	294f
292:
	ldr	x8,[x19]
	cbz	x8,291b
	ldur	x0,[x19,#-16]
	bl	fhex_dealloc
	b	291b
294:
	cbz	x20,296f
	mov	x0,x22
	bl	fhex_dealloc
296:
	and	w0,w23,#0xff
	add	sp,sp,#560
	ldp	x20,x19,[sp,#144]
	ldp	x22,x21,[sp,#128]
	ldp	x24,x23,[sp,#112]
	ldp	x26,x25,[sp,#96]
	ldp	x28,x27,[sp,#80]
	ldp	x29,x30,[sp,#64]
	ldp	d9,d8,[sp,#48]
	ldp	d11,d10,[sp,#32]
	ldp	d13,d12,[sp,#16]
	ldp	d15,d14,[sp],#160
	ret
297:
	hex_page	x1,.Lstatic.8
	hex_address	x1,x1,.Lstatic.8
	sub	x0,x29,#192
	mov	w2,#1
	bl	core_fmt_formatter_Formatter_write_indented
	ldp	q1,q0,[x19]
	tst	w0,#0xff
	ldr	x20,[sp,#40]
	str	q0,[x27,#80]
	stp	q1,q0,[x27,#16]
	b.ne	282b
	b	189b
298:
	sub	x0,x29,#192
	mov	w1,#1
	bl	std_alloc_vec_Vec_grow_amortized___
	sub	x8,x29,#192
	cbz	w0,300f
	ldp	x9,x8,[x8,#8]
	b	188b
300:
	ldp	q0,q1,[x8]
	ldr	x20,[sp,#40]
	b	281b
	hex_end	fhex_main_start
	hex_function	std_alloc_vec_Vec_grow_amortized,.text.unlikely
	ldr	x8,[x0,#8]
	cmn	x8,x1
	b.lo	2f
	mov	w0,wzr
	ret
2:
	stp	x29,x30,[sp,#-32]!
	ldr	x10,[x0,#16]
	add	x9,x8,x1
	mov	w11,#8
	cmp	x9,#8
	stp	x20,x19,[sp,#16]
	mov	x29,sp
	lsl	x12,x10,#1
	csel	x11,x9,x11,hi
	lsr	x13,x10,#62
	cmp	x11,x12
	csel	x9,x11,x12,hi
	cmp	x13,#0
	csel	x19,x9,x11,eq
	tbnz	x19,#63,7f
	cbz	x10,6f
	mov	x20,x0
	ldr	x0,[x0]
	mov	x1,x8
	mov	x2,x19
	mov	w3,#1
	bl	fhex_realloc
	tbz	w0,#0,7f
5:
	mov	w0,#1
	str	x1,[x20]
	str	x19,[x20,#16]
	ldp	x20,x19,[sp,#16]
	ldp	x29,x30,[sp],#32
	ret
6:
	mov	x20,x0
	mov	x0,x9
	mov	w1,#1
	bl	fhex_alloc
	tbnz	w0,#0,5b
7:
	mov	w0,wzr
	ldp	x20,x19,[sp,#16]
	ldp	x29,x30,[sp],#32
	ret
	hex_end	std_alloc_vec_Vec_grow_amortized
	hex_function	core_str_utf8_from_utf8,.text
	sub	sp,sp,#64
	stp	x22,x21,[sp,#32]
	mov	x21,x1
	stp	x20,x19,[sp,#48]
	mov	x20,x2
	mov	x19,x0
	stp	x29,x30,[sp,#16]
	add	x29,sp,#16
	cbz	x2,51f
	mov	x9,xzr
	sub	x22,x20,#8
	b	6f
2:
	and	w11,w11,#0xff
	tbnz	w11,#7,23f
3:
	mov	w12,#1
4:
	add	x8,x12,x9
5:
	cmp	x8,x20
	mov	x9,x8
	b.hs	51f
6:
	add	x8,x21,x9
	sub	x10,x20,x9
	ldrsb	w11,[x8]
	cmp	x10,#2
	b.lo	2b
	tbnz	w11,#31,2b
	ldrsb	w11,[x8,#1]
	tbnz	w11,#31,3b
	cmp	x10,#7
	stp	x21,x20,[sp]
	b.hi	28f
	ldrsb	w8,[x21,x9]
	tbnz	w8,#31,43f
	add	x8,x9,#1
	cmp	x8,x20
	b.eq	51f
	ldrsb	w10,[x21,x8]
	tbnz	w10,#31,5b
	add	x8,x9,#2
	cmp	x8,x20
	b.eq	51f
	ldrsb	w10,[x21,x8]
	tbnz	w10,#31,5b
	add	x8,x9,#3
	cmp	x8,x20
	b.eq	51f
	ldrsb	w10,[x21,x8]
	tbnz	w10,#31,5b
	add	x8,x9,#4
	cmp	x8,x20
	b.eq	51f
	ldrsb	w10,[x21,x8]
	tbnz	w10,#31,5b
	add	x8,x9,#5
	cmp	x8,x20
	b.eq	51f
	ldrsb	w10,[x21,x8]
	tbnz	w10,#31,5b
	add	x8,x9,#6
	cmp	x8,x20
	b.eq	51f
	ldrsb	w9,[x21,x8]
	tbnz	w9,#31,5b
	b	51f
23:
	cmp	w11,#194
	b.lo	59f
	cmp	w11,#223
	b.hi	36f
	cmp	x10,#2
	b.lo	58f
	ldrsb	w12,[x8,#1]
	cmn	w12,#65
	b.gt	55f
	mov	w12,#2
	b	4b
28:
	ldr	x8,[x8]
	mov	w10,#8
	ands	x8,x8,#0x8080808080808080
	rbit	x8,x8
	clz	x8,x8
	lsr	x8,x8,#3
	csel	x8,x10,x8,eq
	add	x8,x8,x9
	add	x9,x9,#8
	cmp	x8,x9
	b.lo	5b
	sub	x9,x20,x8
	cmp	x9,#32
	b.lo	32f
30:
	add	x9,x21,x8
	ldp	q1,q0,[x9]
	orr	v0.16b,v1.16b,v0.16b
	ext	v1.16b,v0.16b,v0.16b,#8
	orr	v0.8b,v0.8b,v1.8b
	fmov	x9,d0
	tst	x9,#0x8080808080808080
	b.ne	32f
	mov	x0,sp
	add	x1,x8,#32
	mov	x2,x20
	bl	core_slice_words_skip_far
	sub	x9,x20,x0
	mov	x8,x0
	cmp	x9,#31
	b.hi	30b
32:
	sub	x9,x20,x8
33:
	cmp	x9,#9
	b.lo	50f
	ldr	x10,[x21,x8]
	mov	w11,#8
	sub	x9,x9,#8
	ands	x10,x10,#0x8080808080808080
	rbit	x10,x10
	clz	x10,x10
	lsr	x10,x10,#3
	csel	x10,x11,x10,eq
	add	x11,x10,x8
	add	x8,x8,#8
	cmp	x11,x8
	b.hs	33b
	add	x8,x10,x8
	sub	x8,x8,#8
	b	5b
36:
	cmp	w11,#239
	b.hi	44f
	cmp	x10,#3
	b.lo	53f
	ldrsb	w12,[x8,#1]
	cmn	w12,#65
	b.gt	55f
	ldrsb	w13,[x8,#2]
	cmn	w13,#65
	b.gt	55f
	and	w13,w12,#0xff
	mov	w14,#-14464
	add	w13,w13,w11,lsl #6
	add	w13,w13,w14
	cmp	w13,#32
	b.lo	55f
	cmp	w13,#896
	mov	w12,#3
	csel	x14,xzr,x12,lo
	cmp	w13,#864
	b.lo	4b
	mov	x12,x14
	b	49f
43:
	mov	x8,x9
	b	5b
44:
	cmp	x10,#4
	b.lo	52f
	ldrsb	w12,[x8,#1]
	cmn	w12,#65
	b.gt	52f
	ldrsb	w13,[x8,#2]
	cmn	w13,#65
	b.gt	52f
	ldrsb	w13,[x8,#3]
	cmn	w13,#65
	b.gt	52f
	and	w12,w12,#0xff
	mov	w13,#-15488
	add	w12,w12,w11,lsl #6
	add	w13,w12,w13
	mov	w12,#4
	cmp	w13,#272
	csel	x12,x12,xzr,lo
	cmp	w13,#16
	b.lo	52f
49:
	cbnz	x12,4b
	b	52f
50:
	ldr	x8,[x21,x22]
	mov	w9,#8
	ands	x8,x8,#0x8080808080808080
	rbit	x8,x8
	clz	x8,x8
	lsr	x8,x8,#3
	csel	x8,x9,x8,eq
	add	x8,x8,x22
	b	5b
51:
	stp	xzr,x21,[x19]
	str	x20,[x19,#16]
	ldp	x20,x19,[sp,#48]
	ldp	x22,x21,[sp,#32]
	ldp	x29,x30,[sp,#16]
	add	sp,sp,#64
	ret
52:
	cmp	w11,#244
	b.hi	59f
53:
	cmp	x10,#2
	b.lo	58f
	ldrb	w12,[x8,#1]
55:
	cmp	w11,#240
	mov	w13,#-128
	mov	w14,#-112
	mov	w15,#-96
	csel	w13,w14,w13,eq
	cmp	w11,#224
	mov	w14,#-65
	csel	w13,w15,w13,eq
	mov	w15,#-113
	cmp	w11,#244
	and	w16,w13,#0xf0
	csel	w13,w15,w14,eq
	cmp	w11,#237
	mov	w11,#-97
	csel	w13,w11,w13,eq
	cmp	w16,w12,uxtb
	mov	w11,#257
	b.hi	60f
	and	w12,w12,#0xff
	cmp	w12,w13,uxtb
	b.hi	60f
	cmp	x10,#2
	b.ne	61f
58:
	mov	x11,xzr
	b	60f
59:
	mov	w11,#257
60:
	mov	w8,#1
	str	x11,[x19,#16]
	stp	x8,x9,[x19]
	ldp	x20,x19,[sp,#48]
	ldp	x22,x21,[sp,#32]
	ldp	x29,x30,[sp,#16]
	add	sp,sp,#64
	ret
61:
	ldrsb	w8,[x8,#2]
	cmn	w8,#65
	b.gt	63f
	cmp	x10,#3
	mov	w8,#769
	csel	x11,x8,xzr,hi
	b	60b
63:
	mov	w11,#513
	b	60b
	hex_end	core_str_utf8_from_utf8
	hex_function	core_slice_words_skip_far,.text
	sub	x8,x2,x1
	cmp	x8,#64
	b.lo	4f
	ldr	x9,[x0]
2:
	add	x10,x9,x1
	ldp	q0,q1,[x10,#32]
	ldp	q2,q3,[x10]
	orr	v1.16b,v3.16b,v1.16b
	orr	v0.16b,v2.16b,v0.16b
	orr	v0.16b,v0.16b,v1.16b
	ext	v1.16b,v0.16b,v0.16b,#8
	orr	v0.8b,v0.8b,v1.8b
	fmov	x10,d0
	tst	x10,#0x8080808080808080
	b.ne	4f
	sub	x8,x8,#64
	add	x1,x1,#64
	cmp	x8,#63
	b.hi	2b
4:
	mov	x0,x1
	ret
	hex_end	core_slice_words_skip_far
	hex_function	std_alloc_vec_Vec_grow_amortized_,.text.unlikely
	ldr	x8,[x0,#8]
	cmn	x8,x1
	b.lo	2f
	mov	w0,wzr
	ret
2:
	stp	x29,x30,[sp,#-32]!
	ldr	x9,[x0,#16]
	add	x10,x8,x1
	mov	w11,#4
	cmp	x10,#4
	stp	x20,x19,[sp,#16]
	mov	x29,sp
	lsl	x12,x9,#1
	csel	x11,x10,x11,hi
	lsr	x13,x9,#62
	cmp	x11,x12
	csel	x10,x11,x12,hi
	cmp	x13,#0
	csel	x19,x10,x11,eq
	mov	x11,#6148914691236517205
	movk	x11,#1365,lsl #48
	cmp	x19,x11
	b.hi	7f
	cbz	x9,6f
	add	x8,x8,x8,lsl #1
	add	x9,x19,x19,lsl #1
	mov	x20,x0
	ldr	x0,[x0]
	mov	w3,#8
	lsl	x1,x8,#3
	lsl	x2,x9,#3
	bl	fhex_realloc
	tbz	w0,#0,7f
5:
	mov	w0,#1
	str	x1,[x20]
	str	x19,[x20,#16]
	ldp	x20,x19,[sp,#16]
	ldp	x29,x30,[sp],#32
	ret
6:
	add	x8,x10,x10,lsl #1
	mov	x20,x0
	mov	w1,#8
	lsl	x0,x8,#3
	bl	fhex_alloc
	tbnz	w0,#0,5b
7:
	mov	w0,wzr
	ldp	x20,x19,[sp,#16]
	ldp	x29,x30,[sp],#32
	ret
	hex_end	std_alloc_vec_Vec_grow_amortized_
	hex_function	std_alloc_vec_Vec_grow_amortized__,.text.unlikely
	ldr	x8,[x0,#8]
	cmn	x8,x1
	b.lo	2f
	mov	w0,wzr
	ret
2:
	stp	x29,x30,[sp,#-32]!
	ldr	x9,[x0,#16]
	add	x10,x8,x1
	mov	w11,#4
	cmp	x10,#4
	stp	x20,x19,[sp,#16]
	mov	x29,sp
	lsl	x12,x9,#1
	csel	x11,x10,x11,hi
	lsr	x13,x9,#62
	cmp	x11,x12
	csel	x10,x11,x12,hi
	cmp	x13,#0
	csel	x19,x10,x11,eq
	lsr	x11,x19,#59
	cbnz	x11,7f
	cbz	x9,6f
	mov	x20,x0
	ldr	x0,[x0]
	lsl	x1,x8,#4
	lsl	x2,x19,#4
	mov	w3,#8
	bl	fhex_realloc
	tbz	w0,#0,7f
5:
	mov	w0,#1
	str	x1,[x20]
	str	x19,[x20,#16]
	ldp	x20,x19,[sp,#16]
	ldp	x29,x30,[sp],#32
	ret
6:
	mov	x20,x0
	lsl	x0,x10,#4
	mov	w1,#8
	bl	fhex_alloc
	tbnz	w0,#0,5b
7:
	mov	w0,wzr
	ldp	x20,x19,[sp,#16]
	ldp	x29,x30,[sp],#32
	ret
	hex_end	std_alloc_vec_Vec_grow_amortized__
	hex_merged	16
	.p2align	4,0x0
.LCPI6_0:
	.byte	1,2,4,8,16,32,64,128,1,2,4,8,16,32,64,128
	hex_function	core_cmp_text_RefStrPartialEq_eq,.text
	cmp	x1,x3
	b.ne	4f
	cmp	x1,#7
	b.hi	5f
	subs	x8,x1,#4
	b.lo	7f
	ldr	w9,[x0]
	ldr	w10,[x0,x8]
	ldr	w11,[x2]
	ldr	w8,[x2,x8]
	orr	x9,x9,x10,lsl #32
	orr	x10,x11,x8,lsl #32
	rev	x8,x9
	rev	x9,x10
	cmp	x8,x9
	cset	w0,eq
	ret
4:
	mov	w0,wzr
	ret
5:
	cmp	x1,#32
	b.hi	9f
	sub	x8,x1,#8
	mov	w11,#8
	ldr	x9,[x0]
	cmp	x8,#8
	ldr	x10,[x2]
	mov	w12,#16
	csel	x11,x8,x11,lo
	cmp	x8,#16
	csel	x12,x8,x12,lo
	ldr	x13,[x0,x11]
	ldr	x11,[x2,x11]
	cmp	x9,x10
	ldr	x9,[x0,x12]
	ldr	x10,[x2,x12]
	ccmp	x13,x11,#0,eq
	ldr	x11,[x0,x8]
	ldr	x8,[x2,x8]
	ccmp	x9,x10,#0,eq
	ccmp	x11,x8,#0,eq
	cset	w0,eq
	ret
7:
	cbz	x1,14f
	ldrb	w8,[x0]
	lsr	x9,x1,#1
	ldrb	w10,[x2]
	sub	x12,x1,#1
	ldrb	w11,[x0,x9]
	lsl	x8,x8,#16
	ldrb	w9,[x2,x9]
	lsl	x10,x10,#16
	orr	x8,x8,x11,lsl #8
	ldrb	w11,[x0,x12]
	orr	x9,x10,x9,lsl #8
	ldrb	w10,[x2,x12]
	orr	x8,x8,x11
	orr	x9,x9,x10
	cmp	x8,x9
	cset	w0,eq
	ret
9:
	cmp	x1,#65
	mov	x8,x0
	mov	x9,x2
	mov	x10,x1
	b.hs	11f
	ldp	q0,q2,[x0]
	sub	x8,x1,#16
	ldp	q1,q3,[x2]
	hex_page	x9,.LCPI6_0
	mov	w10,#32
	cmp	x8,#32
	ldr	q5,[x2,x8]
	cmeq	v0.16b,v0.16b,v1.16b
	hex_value	q1,x9,.LCPI6_0
	cmeq	v2.16b,v2.16b,v3.16b
	csel	x9,x8,x10,lo
	ldr	q3,[x0,x9]
	ldr	q4,[x2,x9]
	bic	v0.16b,v1.16b,v0.16b
	bic	v2.16b,v1.16b,v2.16b
	cmeq	v3.16b,v3.16b,v4.16b
	ldr	q4,[x0,x8]
	addp	v0.16b,v0.16b,v0.16b
	cmeq	v4.16b,v4.16b,v5.16b
	addp	v2.16b,v2.16b,v2.16b
	bic	v3.16b,v1.16b,v3.16b
	addp	v0.16b,v0.16b,v0.16b
	bic	v1.16b,v1.16b,v4.16b
	addp	v2.16b,v2.16b,v2.16b
	addp	v3.16b,v3.16b,v3.16b
	addp	v0.16b,v0.16b,v0.16b
	addp	v2.16b,v2.16b,v2.16b
	addp	v1.16b,v1.16b,v1.16b
	addp	v3.16b,v3.16b,v3.16b
	orr	v0.16b,v2.16b,v0.16b
	addp	v1.16b,v1.16b,v1.16b
	addp	v2.16b,v3.16b,v3.16b
	addp	v1.16b,v1.16b,v1.16b
	orr	v0.16b,v0.16b,v2.16b
	orr	v0.16b,v0.16b,v1.16b
	umov	w8,v0.h[0]
	tst	w8,#0xffff
	cset	w8,ne
	eor	w0,w8,#0x1
	ret
11:
	ldp	q0,q6,[x8]
	hex_page	x11,.LCPI6_0
	ldp	q1,q2,[x8,#32]
	ldp	q3,q7,[x9]
	ldp	q5,q4,[x9,#32]
	cmeq	v3.16b,v0.16b,v3.16b
	hex_value	q0,x11,.LCPI6_0
	cmeq	v2.16b,v2.16b,v4.16b
	cmeq	v1.16b,v1.16b,v5.16b
	cmeq	v4.16b,v6.16b,v7.16b
	bic	v3.16b,v0.16b,v3.16b
	bic	v4.16b,v0.16b,v4.16b
	bic	v1.16b,v0.16b,v1.16b
	bic	v2.16b,v0.16b,v2.16b
	addp	v3.16b,v3.16b,v4.16b
	addp	v1.16b,v1.16b,v2.16b
	addp	v1.16b,v3.16b,v1.16b
	addp	v1.16b,v1.16b,v1.16b
	fmov	x11,d1
	cbnz	x11,15f
	sub	x10,x10,#64
	add	x9,x9,#64
	add	x8,x8,#64
	cmp	x10,#65
	b.hs	11b
	sub	x8,x1,#64
	add	x9,x0,x8
	add	x8,x2,x8
	ldp	q1,q2,[x9]
	ldp	q3,q4,[x9,#32]
	ldp	q5,q6,[x8]
	ldp	q7,q16,[x8,#32]
	cmeq	v1.16b,v1.16b,v5.16b
	cmeq	v2.16b,v2.16b,v6.16b
	cmeq	v4.16b,v4.16b,v16.16b
	cmeq	v3.16b,v3.16b,v7.16b
	bic	v1.16b,v0.16b,v1.16b
	bic	v2.16b,v0.16b,v2.16b
	bic	v3.16b,v0.16b,v3.16b
	bic	v0.16b,v0.16b,v4.16b
	addp	v1.16b,v1.16b,v2.16b
	addp	v0.16b,v3.16b,v0.16b
	addp	v0.16b,v1.16b,v0.16b
	addp	v0.16b,v0.16b,v0.16b
	fmov	x8,d0
	cmp	x8,#0
	cset	w8,ne
	eor	w0,w8,#0x1
	ret
14:
	cmp	xzr,xzr
	cset	w0,eq
	ret
15:
	mov	w8,#1
	eor	w0,w8,#0x1
	ret
	hex_end	core_cmp_text_RefStrPartialEq_eq
	hex_merged	16
	.p2align	4,0x0
.LCPI7_0:
	.quad	1
	.quad	2
.LCPI7_1:
	.byte	1,2,4,8,16,32,64,128,1,2,4,8,16,32,64,128
.LCPI7_2:
	.byte	48,49,50,51,52,53,54,55,56,57,97,98,99,100,101,102
.LCPI7_3:
	.byte	48,49,50,51,52,53,54,55,56,57,65,66,67,68,69,70
.LCPI7_4:
	.byte	0,16,1,17,0,16,1,17,0,16,1,17,0,16,1,17
.LCPI7_5:
	.byte	48,49,50,0,0,0,0,0,0,0,149,148,155,150,153,152
	hex_function	program_vectors_Report_ref_A_add,.text
	stp	d13,d12,[sp,#-144]!
	stp	d11,d10,[sp,#16]
	stp	d9,d8,[sp,#32]
	stp	x29,x30,[sp,#48]
	add	x29,sp,#48
	stp	x28,x27,[sp,#64]
	stp	x26,x25,[sp,#80]
	stp	x24,x23,[sp,#96]
	stp	x22,x21,[sp,#112]
	stp	x20,x19,[sp,#128]
	sub	sp,sp,#368
	ubfiz	x8,x2,#3,#8
	hex_page	x9,.Lswitch.table.program_vectors_Report_ref_A_add
	hex_address	x9,x9,.Lswitch.table.program_vectors_Report_ref_A_add
	hex_page	x10,.Lswitch.table.program_vectors_Report_ref_A_add.223
	hex_address	x10,x10,.Lswitch.table.program_vectors_Report_ref_A_add.223
	mov	x21,xzr
	ldr	x28,[x9,x8]
	ldr	x20,[x10,x8]
	sub	x8,x29,#176
	orr	x8,x8,#0x3
	add	x24,sp,#112
	str	w3,[sp,#20]
	stp	x2,x1,[sp,#64]
	str	x8,[sp,#24]
	str	x28,[sp,#80]
	stp	x20,x0,[sp,#88]
	b	4f
1:
	ldp	x9,x8,[sp,#120]
2:
	ldr	x10,[sp,#112]
	add	x11,x9,#1
	mov	w12,#10
	strb	w12,[x10,x9]
	stp	x11,x8,[sp,#120]
	sub	x8,x29,#144
	ldp	q0,q1,[sp,#112]
	stp	q0,q1,[x8,#32]
	ldr	x8,[sp,#96]
	stp	q0,q1,[x8]
3:
	add	x21,x21,#1
	cmp	x21,#20
	b.eq	276f
4:
	mov	w8,#88
	hex_page	x9,.Lstatic.4
	hex_address	x9,x9,.Lstatic.4
	madd	x22,x21,x8,x9
	hex_page	x2,.Lstatic.9
	hex_address	x2,x2,.Lstatic.9
	mov	x0,x20
	mov	x1,x28
	mov	w3,#5
	ldrb	w23,[x22,#16]
	cmp	w23,#1
	cset	w19,hi
	bl	core_cmp_text_RefStrPartialEq_eq
	cmp	w19,w0
	b.ne	3b
	movi	v0.2d,#0000000000000000
	cmp	w23,#5
	hex_page	x26,.LCPI7_1
	stp	q0,q0,[sp,#112]
	stp	q0,q0,[sp,#144]
	stp	q0,q0,[sp,#176]
	stp	q0,q0,[sp,#208]
	b.ne	28f
	ldr	x8,[x22,#80]
	subs	x1,x8,#3
	b.lo	220f
	ldr	x15,[x22,#72]
	ldp	x24,x25,[x22,#24]
	sub	x9,x29,#112
	sub	x0,x29,#72
	ldrb	w8,[x15,#2]
	ldrb	w16,[x15]
	ldrb	w17,[x15,#1]
	stp	xzr,xzr,[x9,#8]
	cmp	w8,#42
	ldr	x8,[sp,#72]
	stur	x0,[x29,#-112]
	cset	w18,eq
	stur	x8,[x29,#-88]
	cbz	x25,46f
	mov	x9,xzr
	mov	x23,xzr
	sub	x8,x29,#72
9:
	sub	x10,x25,x23
	add	x20,x24,x23
	lsr	x11,x10,#5
	cbz	x11,13f
	mov	x12,xzr
	add	x13,x24,x23
11:
	movi	v0.16b,#10
	ldp	q1,q2,[x13],#32
	cmeq	v2.16b,v2.16b,v0.16b
	cmeq	v0.16b,v1.16b,v0.16b
	hex_value	q1,x26,.LCPI7_1
	and	v0.16b,v0.16b,v1.16b
	and	v1.16b,v2.16b,v1.16b
	addp	v0.16b,v0.16b,v1.16b
	addp	v0.16b,v0.16b,v0.16b
	addp	v0.16b,v0.16b,v0.16b
	fmov	w14,s0
	rbit	w14,w14
	clz	w14,w14
	cmp	w14,#31
	b.ls	19f
	sub	x11,x11,#1
	sub	x12,x12,#32
	cbnz	x11,11b
13:
	ands	x12,x10,#0x1f
	and	x10,x10,#0xffffffffffffffe0
	mov	x11,xzr
	b.eq	18f
	add	x13,x20,x10
15:
	ldrb	w14,[x13,x11]
	cmp	w14,#10
	b.eq	18f
	add	x11,x11,#1
	cmp	x12,x11
	b.ne	15b
	mov	x11,x12
18:
	add	x28,x11,x10
	cmp	x28,#7
	b.hs	20f
	b	55f
19:
	sub	x28,x14,x12
	cmp	x28,#7
	b.lo	55f
20:
	ldr	s0,[x20]
	movi	v1.8b,#55
	movi	v2.16b,#143
	hex_page	x10,.LCPI7_5
	ushll	v0.8h,v0.8b,#0
	hex_value	q3,x10,.LCPI7_5
	uzp1	v0.8b,v0.8b,v0.8b
	uqsub	v1.8b,v0.8b,v1.8b
	and	v2.16b,v1.16b,v2.16b
	tbl	v2.16b,{ v3.16b },v2.16b
	uqsub	v1.8b,v2.8b,v1.8b
	movi	v2.8b,#240
	eor	v8.8b,v1.8b,v0.8b
	and	v0.8b,v8.8b,v2.8b
	fmov	x10,d0
	orr	x10,x10,x10,lsr #32
	lsr	x11,x10,#16
	orr	w10,w10,w11
	orr	w10,w10,w10,lsr #8
	tst	w10,#0xff
	b.ne	54f
	ldrb	w10,[x20,#4]
	cmp	w10,#32
	b.ne	55f
	ldrb	w10,[x20,#5]
	cmp	w10,#42
	b.eq	24f
	cmp	w10,#32
	b.ne	55f
24:
	ldur	x11,[x29,#-96]
	cmp	w10,#42
	mov	w10,#65536
	csel	x19,x10,xzr,eq
	cmp	x11,x9
	b.eq	26f
25:
	mov	w10,#4097
	sub	x12,x28,#6
	add	x13,x23,x28
	dup	v0.4h,w10
	mov	x10,x9
	mov	w9,#24
	madd	x11,x10,x9,x8
	add	x23,x13,#1
	ldr	x28,[sp,#80]
	cmp	x23,x25
	mul	v0.4h,v8.4h,v0.4h
	str	x12,[x11,#16]
	add	x12,x20,#6
	ushr	v0.4h,v0.4h,#8
	uzp1	v0.8b,v0.8b,v0.8b
	ushll	v0.4s,v0.4h,#0
	mov	w9,v0.s[1]
	orr	x9,x19,x9
	stp	x9,x12,[x11]
	add	x9,x10,#1
	stur	x9,[x29,#-104]
	b.lo	9b
	b	58f
26:
	sub	x0,x29,#112
	str	w18,[sp,#32]
	mov	x27,x22
	str	w17,[sp,#40]
	mov	x22,x1
	str	w16,[sp,#48]
	str	x21,[sp,#56]
	mov	x21,x15
	bl	std_alloc_vec_Vec_grow_amortized____
	cbz	w0,287f
	ldp	x8,x9,[x29,#-112]
	mov	x15,x21
	ldr	x21,[sp,#56]
	ldr	w16,[sp,#48]
	mov	x1,x22
	ldr	w17,[sp,#40]
	ldr	w18,[sp,#32]
	mov	x22,x27
	b	25b
28:
	movi	v0.16b,#165
	ldr	x25,[x22,#80]
	add	x8,sp,#112
	cmp	x25,#129
	csel	x20,x8,xzr,lo
	cmp	x25,#128
	stp	q0,q0,[sp,#112]
	stp	q0,q0,[sp,#144]
	stp	q0,q0,[sp,#176]
	stp	q0,q0,[sp,#208]
	b.hi	220f
	ldp	x11,x27,[x22,#24]
	cmp	w23,#1
	b.le	43f
	cmp	w23,#2
	b.eq	36f
	cmp	w23,#3
	b.ne	36f
	cmp	x27,#3
	b.hi	69f
	tbnz	w27,#0,92f
	lsr	x26,x27,#1
	cmp	x25,x26
	b.hs	72f
35:
	mov	x8,xzr
	mov	w9,#1
	b	210f
36:
	add	x8,sp,#112
	cmp	w23,#4
	stp	x8,x25,[x29,#-112]
	sub	x8,x29,#112
	stp	xzr,xzr,[x8,#16]
	b.ne	47f
	subs	x15,x27,#3
	b.lo	220f
	ldrb	w20,[x11,#2]
	ldr	x9,[sp,#24]
	mov	w10,#8
	ldrh	w8,[x11]
	str	x11,[sp,#56]
	add	x16,x11,#3
	str	wzr,[x9]
	cmp	w20,#42
	strb	wzr,[x9,#4]
	sub	x9,x27,#11
	sturh	w8,[x29,#-176]
	cset	w8,eq
	cmp	x9,#8
	sturb	w8,[x29,#-174]
	csel	x10,x9,x10,lo
	cmp	x9,#16
	mov	w8,#16
	stp	x16,x15,[x29,#-168]
	csel	x11,x9,x8,lo
	cbz	x15,220f
	ldr	x8,[sp,#56]
	cmp	x15,#3
	add	x8,x8,x27
	b.hi	98f
	ldrb	w9,[x16]
	cmp	w9,#10
	b.eq	220f
	lsr	x9,x15,#1
	ldrb	w9,[x16,x9]
	cmp	w9,#10
	b.eq	220f
	ldurb	w8,[x8,#-1]
	cmp	w8,#10
	b.ne	166f
	b	220f
43:
	cbnz	w23,51f
	cmp	x27,x25,lsr #1
	b.ls	87f
	bic	x9,x27,x27,asr #63
	cmp	x27,#0
	mov	w10,#4
	mov	x8,xzr
	lsl	x9,x9,#1
	csel	x26,xzr,x9,mi
	csinc	x9,x10,xzr,mi
	b	210f
46:
	mov	w8,wzr
	mov	w23,#1
	ldrb	w9,[x22,#40]
	add	x24,sp,#112
	cbnz	w9,155f
	b	59f
47:
	hex_page	x8,.LCPI7_0
	mov	w9,#58
	sub	x10,x29,#144
	hex_value	q0,x8,.LCPI7_0
	sub	x0,x29,#112
	sub	x4,x29,#144
	mov	x1,x11
	mov	x2,x27
	mov	w3,wzr
	stur	wzr,[x10,#17]
	sturb	w9,[x29,#-128]
	str	q0,[x10]
	stur	wzr,[x10,#20]
	bl	io_digits_put_digits
	tst	w0,#0xff
	b.ne	220f
	ldur	x3,[x29,#-96]
	ldur	x20,[x29,#-112]
	ldrb	w8,[x22,#40]
	cbnz	w8,220f
49:
	ldr	x8,[x22,#48]
	cmp	x8,x3
	b.ne	220f
	ldr	x0,[x22,#72]
	mov	x1,x25
	mov	x2,x20
	bl	core_slice_reads_slice_T_starts_with
	tbnz	w0,#0,219f
	b	220f
51:
	tbnz	w27,#0,91f
	lsr	x26,x27,#1
	ldr	x19,[sp,#64]
	cmp	x25,x26
	b.hs	93f
	mov	w10,wzr
	mov	x8,xzr
	mov	x9,xzr
	mov	w11,#1
	b	204f
54:
	mov	x0,x20
	mov	w1,#4
	mov	w2,#1
	bl	core_backend_Backend_first_invalid
	tbz	w0,#0,289f
55:
	ldur	x8,[x29,#-96]
	cbz	x8,57f
	ldur	x0,[x29,#-112]
	bl	fhex_dealloc
57:
	ldr	x28,[sp,#80]
	mov	w20,wzr
	add	x24,sp,#112
	b	221f
58:
	ldur	x8,[x29,#-96]
	ldur	x0,[x29,#-112]
	cmp	x8,#0
	cset	w23,eq
	cmp	x10,#0
	cset	w8,eq
	ldrb	w9,[x22,#40]
	add	x24,sp,#112
	cbnz	w9,155f
59:
	ldr	x9,[x22,#48]
	eor	w8,w8,#0x1
	cmp	x9,#1
	csinc	w8,w8,wzr,eq
	tbnz	w8,#0,155f
	ldrb	w8,[x0,#2]
	cmp	w8,w18
	b.ne	155f
	ldrb	w8,[x0]
	mov	w20,wzr
	cmp	w8,w16
	b.ne	156f
	ldrb	w8,[x0,#1]
	cmp	w8,w17
	b.ne	156f
	ldr	x8,[x0,#16]
	cmp	x8,x1
	b.ne	155f
	ldr	x8,[x0,#8]
	cmp	x1,#4
	add	x2,x15,#3
	b.hs	135f
	cbz	x1,137f
	mov	x9,xzr
67:
	ldrb	w10,[x8,x9]
	ldrb	w11,[x2,x9]
	cmp	w10,w11
	b.ne	154f
	add	x9,x9,#1
	cmp	x1,x9
	b.ne	67b
	b	137f
69:
	mov	x9,#-3689348814741910324
	mov	x12,x11
	mov	x8,xzr
	movk	x9,#52429
	mov	x26,xzr
	umulh	x9,x27,x9
	lsr	x10,x9,#2
	add	x9,x10,x10,lsl #2
	subs	x11,x27,x9
	mov	w9,#3
	b.eq	210f
	tbnz	w11,#0,210f
	lsl	x8,x10,#1
	add	x26,x8,x11,lsr #1
	mov	x11,x12
	cmp	x25,x26
	b.lo	35b
72:
	str	x25,[sp,#48]
	cmp	x26,#3
	hex_page	x25,.Lstatic.27
	hex_address	x25,x25,.Lstatic.27
	mov	x23,xzr
	b.lo	81f
	mov	x24,x26
74:
	add	x8,x11,x23
	ldrb	w9,[x8]
	ldrb	w9,[x25,x9]
	cmp	w9,#255
	b.eq	78f
	ldrb	w8,[x8,#1]
	ldrb	w8,[x25,x8]
	cmp	w8,#255
	b.eq	78f
	add	x8,x11,x23
	ldrb	w9,[x8,#2]
	ldrb	w9,[x25,x9]
	cmp	w9,#255
	b.eq	78f
	ldrb	w8,[x8,#3]
	ldrb	w8,[x25,x8]
	cmp	w8,#255
	b.ne	79f
78:
	add	x0,x11,x23
	mov	w1,#4
	mov	w2,wzr
	mov	x19,x11
	bl	core_backend_Backend_first_invalid
	and	w8,w0,#0xff
	mov	x11,x19
	cmp	w8,#1
	b.eq	125f
79:
	add	x8,x11,x23
	ldrb	w8,[x8,#4]
	cmp	w8,#58
	b.ne	122f
	sub	x24,x24,#2
	add	x23,x23,#5
	cmp	x24,#2
	b.hi	74b
81:
	sub	x1,x27,x23
	mov	x19,x11
	add	x24,sp,#112
	cmp	x1,#15
	b.hi	101f
	lsr	x8,x1,#1
	cbz	x8,103f
	add	x9,x19,x23
	add	x9,x9,#1
84:
	ldurb	w10,[x9,#-1]
	ldrb	w10,[x25,x10]
	cmp	w10,#255
	b.eq	101f
	ldrb	w10,[x9],#2
	ldrb	w10,[x25,x10]
	cmp	w10,#255
	b.eq	101f
	subs	x8,x8,#1
	b.ne	84b
	b	103f
87:
	ldr	x0,[sp,#64]
	ldrb	w4,[x22,#17]
	lsl	x26,x27,#1
	and	w8,w0,#0xff
	cmp	w8,#5
	b.ne	97f
	subs	x8,x27,#32
	b.hi	100f
	b.ne	109f
	movi	v0.16b,#15
	ldp	q2,q1,[x11]
	cmp	w4,#0
	hex_page	x9,.LCPI7_2
	add	x20,sp,#112
	csetm	w8,ne
	hex_value	q5,x9,.LCPI7_2
	mov	w27,#64
	dup	v3.16b,w8
	hex_page	x8,.LCPI7_3
	ushr	v4.16b,v1.16b,#4
	and	v1.16b,v1.16b,v0.16b
	and	v0.16b,v2.16b,v0.16b
	ushr	v2.16b,v2.16b,#4
	hex_value	q6,x8,.LCPI7_3
	bsl	v3.16b,v6.16b,v5.16b
	zip2	v5.16b,v4.16b,v1.16b
	zip1	v1.16b,v4.16b,v1.16b
	zip2	v4.16b,v2.16b,v0.16b
	zip1	v0.16b,v2.16b,v0.16b
	tbl	v2.16b,{ v3.16b },v5.16b
	tbl	v1.16b,{ v3.16b },v1.16b
	tbl	v4.16b,{ v3.16b },v4.16b
	tbl	v0.16b,{ v3.16b },v0.16b
	stp	q1,q2,[sp,#144]
	stp	q0,q4,[sp,#112]
	b	206f
91:
	mov	w10,wzr
	mov	x8,xzr
	mov	x26,xzr
	mov	x9,xzr
	mov	w11,#3
	b	204f
92:
	mov	x8,xzr
	mov	x26,xzr
	mov	w9,#3
	b	210f
93:
	ldrb	w20,[x22,#17]
	cmp	x27,#192
	b.hi	203f
	and	w8,w19,#0xff
	cmp	w8,#5
	b.ne	113f
	ldr	w8,[sp,#20]
	and	w8,w8,#0xff
	cmp	w8,#3
	b.ne	128f
	add	x2,sp,#112
	mov	x0,x11
	mov	x1,x27
	mov	x3,x26
	mov	w4,w20
	mov	x23,x11
	bl	core_plain_decode_by_long_rows
	b	114f
97:
	add	x3,sp,#112
	mov	x1,x11
	mov	x2,x27
	add	x20,sp,#112
	bl	core_backend_Backend_encode_outlined
	b	205f
98:
	cmp	x15,#8
	b.hi	107f
	ldr	s0,[x16]
	sub	x8,x8,#4
	movi	v1.8b,#10
	ld1	{ v0.s }[1],[x8]
	cmeq	v0.8b,v0.8b,v1.8b
	umaxv	b0,v0.8b
	fmov	w8,s0
	tbnz	w8,#0,220f
	b	166f
100:
	movi	v0.16b,#15
	ldp	q3,q1,[x11]
	cmp	w4,#0
	hex_page	x10,.LCPI7_2
	add	x20,sp,#112
	csetm	w9,ne
	hex_value	q5,x10,.LCPI7_2
	mov	x27,x26
	dup	v2.16b,w9
	hex_page	x9,.LCPI7_3
	ushr	v4.16b,v1.16b,#4
	and	v1.16b,v1.16b,v0.16b
	ushr	v7.16b,v3.16b,#4
	and	v3.16b,v3.16b,v0.16b
	hex_value	q6,x9,.LCPI7_3
	add	x9,x11,x8
	add	x8,x20,x8,lsl #1
	bsl	v2.16b,v6.16b,v5.16b
	zip2	v5.16b,v4.16b,v1.16b
	zip1	v1.16b,v4.16b,v1.16b
	zip2	v4.16b,v7.16b,v3.16b
	zip1	v3.16b,v7.16b,v3.16b
	tbl	v5.16b,{ v2.16b },v5.16b
	tbl	v1.16b,{ v2.16b },v1.16b
	tbl	v4.16b,{ v2.16b },v4.16b
	tbl	v3.16b,{ v2.16b },v3.16b
	stp	q1,q5,[sp,#144]
	stp	q3,q4,[sp,#112]
	ldp	q3,q1,[x9]
	ushr	v4.16b,v1.16b,#4
	and	v1.16b,v1.16b,v0.16b
	ushr	v5.16b,v3.16b,#4
	and	v0.16b,v3.16b,v0.16b
	zip2	v3.16b,v4.16b,v1.16b
	zip1	v1.16b,v4.16b,v1.16b
	zip2	v4.16b,v5.16b,v0.16b
	zip1	v0.16b,v5.16b,v0.16b
	tbl	v3.16b,{ v2.16b },v3.16b
	tbl	v1.16b,{ v2.16b },v1.16b
	tbl	v4.16b,{ v2.16b },v4.16b
	tbl	v0.16b,{ v2.16b },v0.16b
	stp	q1,q3,[x8,#32]
	stp	q0,q4,[x8]
	b	206f
101:
	add	x0,x19,x23
	mov	w2,wzr
	bl	core_backend_Backend_first_invalid
	and	w8,w0,#0xff
	cmp	w8,#1
	b.ne	103f
	add	x26,x1,x23
	mov	x11,x19
	b	127f
103:
	cmp	x26,#3
	b.lo	117f
	mov	x10,xzr
	mov	x8,xzr
	add	x11,x20,#1
	mov	x12,x19
	mov	x9,x26
105:
	ldrb	w13,[x12]
	ldrb	w14,[x12,#1]
	sub	x9,x9,#2
	add	x8,x8,#2
	cmp	x9,#2
	sub	x10,x10,#5
	ldrb	w13,[x25,x13]
	ldrb	w14,[x25,x14]
	add	w13,w14,w13,lsl #4
	sturb	w13,[x11,#-1]
	ldrb	w13,[x12,#2]
	ldrb	w14,[x12,#3]
	add	x12,x12,#5
	ldrb	w13,[x25,x13]
	ldrb	w14,[x25,x14]
	add	w13,w14,w13,lsl #4
	strb	w13,[x11],#2
	b.hi	105b
	neg	x10,x10
	b	118f
107:
	cmp	x15,#32
	b.hi	123f
	ldr	d0,[x16]
	ldr	d1,[x16,x10]
	ldr	d2,[x16,x11]
	ldr	d3,[x16,x9]
	mov	v0.d[1],v1.d[0]
	movi	v1.16b,#10
	mov	v2.d[1],v3.d[0]
	cmeq	v0.16b,v0.16b,v1.16b
	cmeq	v2.16b,v2.16b,v1.16b
	hex_value	q1,x26,.LCPI7_1
	and	v0.16b,v0.16b,v1.16b
	and	v2.16b,v2.16b,v1.16b
	b	164f
109:
	cmp	x27,#7
	b.hi	133f
	cmp	x27,#1
	b.eq	151f
	cbnz	x27,152f
	add	x20,sp,#112
	b	206f
113:
	add	x3,sp,#112
	mov	w0,w19
	mov	x1,x11
	mov	x2,x27
	mov	x4,x26
	mov	w5,w20
	mov	x23,x11
	bl	core_backend_Backend_decode_outlined
114:
	mov	x11,x23
	tbz	w0,#0,203f
115:
	mov	x8,xzr
	mov	x9,xzr
116:
	mov	w10,#1
	mov	x11,x26
	mov	x26,xzr
	b	204f
117:
	mov	x8,xzr
	mov	x10,xzr
	mov	x9,x26
118:
	cbz	x9,121f
	add	x10,x19,x10
	add	x10,x10,#1
120:
	ldurb	w11,[x10,#-1]
	ldrb	w12,[x10],#2
	add	x20,sp,#112
	subs	x9,x9,#1
	ldrb	w11,[x25,x11]
	ldrb	w12,[x25,x12]
	add	w11,w12,w11,lsl #4
	strb	w11,[x20,x8]
	add	x8,x8,#1
	b.ne	120b
121:
	ldr	x25,[sp,#48]
	b	205f
122:
	add	x26,x23,#4
	b	126f
123:
	cmp	x15,#65
	b.hs	138f
	movi	v0.16b,#10
	ldp	q1,q2,[x8,#-32]
	ldp	q4,q3,[x16]
	hex_value	q5,x26,.LCPI7_1
	cmeq	v1.16b,v1.16b,v0.16b
	cmeq	v4.16b,v4.16b,v0.16b
	cmeq	v2.16b,v2.16b,v0.16b
	cmeq	v0.16b,v3.16b,v0.16b
	and	v1.16b,v1.16b,v5.16b
	and	v3.16b,v4.16b,v5.16b
	and	v2.16b,v2.16b,v5.16b
	and	v0.16b,v0.16b,v5.16b
	ext	v4.16b,v1.16b,v1.16b,#8
	ext	v5.16b,v3.16b,v3.16b,#8
	ext	v6.16b,v2.16b,v2.16b,#8
	ext	v7.16b,v0.16b,v0.16b,#8
	zip1	v1.16b,v1.16b,v4.16b
	zip1	v3.16b,v3.16b,v5.16b
	zip1	v2.16b,v2.16b,v6.16b
	zip1	v0.16b,v0.16b,v7.16b
	addv	h1,v1.8h
	addv	h3,v3.8h
	addv	h2,v2.8h
	addv	h0,v0.8h
	fmov	w8,s1
	fmov	w9,s3
	fmov	w10,s2
	fmov	w11,s0
	orr	w8,w9,w8
	orr	w9,w11,w10
	orr	w8,w8,w9
	b	165f
125:
	add	x26,x1,x23
126:
	add	x24,sp,#112
127:
	ldrb	w8,[x11,x26]
	ldr	x25,[sp,#48]
	mov	x9,xzr
	b	210f
128:
	cmp	x27,#15
	b.hi	146f
	cmp	x27,#2
	b.lo	115b
	cmp	x27,#3
	add	x8,x11,x27
	b.hi	192f
	ldr	h0,[x11]
	sub	x8,x8,#2
	movi	v2.4h,#55
	movi	v3.16b,#143
	ld1	{ v0.h }[1],[x8]
	zip1	v0.8b,v0.8b,v0.8b
	fmov	d1,d0
	bic	v1.4h,#255,lsl #8
	uqsub	v1.4h,v1.4h,v2.4h
	movi	v2.2d,#0000000000000000
	umov	w8,v1.h[0]
	umov	w9,v1.h[1]
	mov	v2.b[0],w8
	umov	w8,v1.h[2]
	mov	v2.b[1],w9
	umov	w9,v1.h[3]
	mov	v2.b[2],w8
	hex_page	x8,.Lstatic.19
	hex_address	x8,x8,.Lstatic.19
	mov	v2.b[3],w9
	and	v2.16b,v2.16b,v3.16b
	ldr	q3,[x8,x20,lsl #4]
	hex_page	x8,.Lstatic.20
	hex_address	x8,x8,.Lstatic.20
	tbl	v2.16b,{ v3.16b },v2.16b
	ldr	b3,[x8,x20]
	dup	v3.4h,v3.h[0]
	zip1	v2.8b,v2.8b,v0.8b
	eor	v0.8b,v3.8b,v0.8b
	bic	v2.4h,#255,lsl #8
	uqsub	v1.4h,v2.4h,v1.4h
	movi	v2.4h,#240
	eor	v0.8b,v1.8b,v0.8b
	and	v1.8b,v0.8b,v2.8b
	fmov	x8,d1
	lsr	x9,x8,#32
	orr	w8,w8,w9
	orr	w8,w8,w8,lsr #16
	tst	w8,#0xff
	b.ne	203f
	uzp1	v0.8b,v0.8b,v0.8b
	mov	w10,#4097
	mov	x8,xzr
	dup	v1.2s,w10
	add	x10,sp,#112
	mov	x9,xzr
	add	x10,x10,x26
	zip1	v0.4h,v0.4h,v0.4h
	mul	v0.2s,v0.2s,v1.2s
	movi	d1,#0x00ffff0000ffff
	and	v0.8b,v0.8b,v1.8b
	ushr	v0.2s,v0.2s,#8
	mov	s1,v0.s[1]
	str	b0,[sp,#112]
	stur	b1,[x10,#-1]
	b	116b
133:
	subs	x19,x27,#16
	b.hi	150f
	movi	v0.8b,#15
	cmp	w4,#0
	ldr	d1,[x11]
	csetm	w8,ne
	hex_page	x9,.LCPI7_2
	add	x20,sp,#112
	dup	v2.16b,w8
	hex_page	x8,.LCPI7_3
	ushr	v3.8b,v1.8b,#4
	hex_value	q4,x9,.LCPI7_2
	hex_value	q5,x8,.LCPI7_3
	sub	x8,x27,#8
	and	v1.8b,v1.8b,v0.8b
	mov	x27,x26
	bsl	v2.16b,v5.16b,v4.16b
	zip1	v1.16b,v3.16b,v1.16b
	tbl	v1.16b,{ v2.16b },v1.16b
	str	q1,[sp,#112]
	ldr	d1,[x11,x8]
	lsl	x8,x8,#1
	ushr	v3.8b,v1.8b,#4
	and	v0.8b,v1.8b,v0.8b
	zip1	v0.16b,v3.16b,v0.16b
	tbl	v0.16b,{ v2.16b },v0.16b
	str	q0,[x20,x8]
	b	206f
135:
	ldr	w9,[x8]
	ldr	w10,[x2]
	cmp	w9,w10
	b.ne	155f
	mov	x19,x0
	mov	x0,x8
	bl	core_cmp_slices_groups_equal
	mov	w8,w0
	mov	x0,x19
	cbz	w8,155f
137:
	mov	w20,#1
	b	156f
138:
	mov	x9,xzr
	mov	x10,x15
139:
	movi	v1.16b,#10
	add	x11,x16,x9
	hex_value	q0,x26,.LCPI7_1
	ldp	q2,q3,[x11,#32]
	ldp	q5,q4,[x11]
	cmeq	v2.16b,v2.16b,v1.16b
	cmeq	v3.16b,v3.16b,v1.16b
	cmeq	v5.16b,v5.16b,v1.16b
	cmeq	v1.16b,v4.16b,v1.16b
	and	v2.16b,v2.16b,v0.16b
	and	v3.16b,v3.16b,v0.16b
	and	v4.16b,v5.16b,v0.16b
	and	v1.16b,v1.16b,v0.16b
	ext	v5.16b,v2.16b,v2.16b,#8
	ext	v7.16b,v3.16b,v3.16b,#8
	ext	v6.16b,v4.16b,v4.16b,#8
	ext	v16.16b,v1.16b,v1.16b,#8
	zip1	v2.16b,v2.16b,v5.16b
	zip1	v3.16b,v3.16b,v7.16b
	zip1	v4.16b,v4.16b,v6.16b
	zip1	v1.16b,v1.16b,v16.16b
	addv	h2,v2.8h
	addv	h3,v3.8h
	addv	h4,v4.8h
	addv	h1,v1.8h
	fmov	w11,s2
	fmov	w13,s3
	fmov	w12,s4
	fmov	w14,s1
	orr	w11,w12,w11
	orr	w12,w14,w13
	orr	w11,w11,w12
	tst	w11,#0xffff
	b.ne	142f
	sub	x10,x10,#64
	add	x9,x9,#64
	cmp	x10,#63
	b.hi	139b
	and	x9,x15,#0xffffffffffffffc0
142:
	sub	x10,x15,x9
	cmp	x10,#32
	b.lo	163f
	ldr	x11,[sp,#56]
	add	x9,x11,x9
	add	x9,x9,#3
144:
	movi	v1.16b,#10
	ldp	q2,q3,[x9],#32
	cmeq	v3.16b,v3.16b,v1.16b
	cmeq	v1.16b,v2.16b,v1.16b
	and	v2.16b,v3.16b,v0.16b
	and	v1.16b,v1.16b,v0.16b
	ext	v3.16b,v2.16b,v2.16b,#8
	ext	v4.16b,v1.16b,v1.16b,#8
	zip1	v2.16b,v2.16b,v3.16b
	zip1	v1.16b,v1.16b,v4.16b
	addv	h2,v2.8h
	addv	h1,v1.8h
	fmov	w11,s2
	fmov	w12,s1
	orr	w11,w12,w11
	tst	w11,#0xffff
	b.ne	162f
	sub	x10,x10,#32
	cmp	x10,#31
	b.hi	144b
	b	163f
146:
	cmp	x27,#32
	b.hi	158f
	movi	v0.16b,#55
	b.ne	195f
	ldp	q1,q2,[x11]
	movi	v4.16b,#143
	hex_page	x8,.Lstatic.19
	hex_address	x8,x8,.Lstatic.19
	ldr	q6,[x8,x20,lsl #4]
	hex_page	x8,.Lstatic.20
	hex_address	x8,x8,.Lstatic.20
	uqsub	v3.16b,v2.16b,v0.16b
	uqsub	v0.16b,v1.16b,v0.16b
	add	x8,x8,x20
	and	v5.16b,v0.16b,v4.16b
	and	v4.16b,v3.16b,v4.16b
	tbl	v5.16b,{ v6.16b },v5.16b
	tbl	v4.16b,{ v6.16b },v4.16b
	ld1r	{ v6.16b },[x8]
	eor	v2.16b,v6.16b,v2.16b
	uqsub	v3.16b,v4.16b,v3.16b
	uqsub	v0.16b,v5.16b,v0.16b
	eor	v4.16b,v6.16b,v1.16b
	eor	v1.16b,v3.16b,v2.16b
	eor	v0.16b,v0.16b,v4.16b
	movi	v2.16b,#240
	orr	v3.16b,v0.16b,v1.16b
	and	v2.16b,v3.16b,v2.16b
	ext	v3.16b,v2.16b,v2.16b,#8
	orr	v2.8b,v2.8b,v3.8b
	fmov	x8,d2
	orr	x8,x8,x8,lsr #32
	lsr	x9,x8,#16
	orr	w8,w8,w9
	orr	w8,w8,w8,lsr #8
	tst	w8,#0xff
	b.ne	203f
	mov	w10,#4097
	mov	x8,xzr
	mov	x26,xzr
	dup	v2.8h,w10
	mov	x9,xzr
	mov	w10,#1
	mov	w11,#16
	mul	v1.8h,v1.8h,v2.8h
	mul	v0.8h,v0.8h,v2.8h
	uzp2	v0.16b,v0.16b,v1.16b
	str	q0,[sp,#112]
	b	204f
150:
	ldr	q0,[x11]
	add	x0,sp,#112
	mov	x1,xzr
	mov	w2,w4
	add	x20,sp,#112
	mov	w27,w4
	mov	x23,x11
	bl	core_encode_SplitEncode1632_write
	ldr	q0,[x23,x19]
	lsl	x1,x19,#1
	add	x0,sp,#112
	mov	w2,w27
	bl	core_encode_SplitEncode1632_write
	b	205f
151:
	ldrb	w8,[x11]
	cmp	w4,#0
	movi	v1.2d,#0xff00ff00ff00ff
	csetm	w9,ne
	hex_page	x10,.LCPI7_2
	add	x20,sp,#112
	dup	v0.16b,w9
	lsr	w9,w8,#4
	and	w8,w8,#0xf
	dup	v2.16b,w8
	hex_page	x8,.LCPI7_3
	hex_value	q4,x10,.LCPI7_2
	dup	v3.16b,w9
	hex_value	q5,x8,.LCPI7_3
	orr	x8,x20,#0x1
	mov	w27,#2
	bsl	v0.16b,v5.16b,v4.16b
	bsl	v1.16b,v3.16b,v2.16b
	tbl	v0.16b,{ v0.16b },v1.16b
	st1	{ v0.b }[1],[x8]
	str	b0,[sp,#112]
	b	206f
152:
	cmp	w4,#0
	hex_page	x9,.LCPI7_2
	hex_page	x10,.LCPI7_3
	csetm	w8,ne
	hex_value	q1,x9,.LCPI7_2
	hex_value	q2,x10,.LCPI7_3
	dup	v0.16b,w8
	cmp	x27,#3
	bsl	v0.16b,v2.16b,v1.16b
	b.hi	161f
	ldr	h1,[x11]
	hex_page	x8,.LCPI7_4
	add	x20,sp,#112
	hex_value	q3,x8,.LCPI7_4
	sub	x8,x27,#2
	mov	x27,x26
	ushll	v1.8h,v1.8b,#0
	ushll	v2.4s,v1.4h,#0
	ushr	v1.2s,v2.2s,#4
	bic	v2.2s,#240
	mov	v2.b[1],v2.b[4]
	mov	v1.b[1],v1.b[4]
	tbl	v1.16b,{ v1.16b,v2.16b },v3.16b
	tbl	v1.16b,{ v0.16b },v1.16b
	zip1	v1.16b,v1.16b,v0.16b
	xtn	v1.8b,v1.8h
	str	s1,[sp,#112]
	ldr	h1,[x11,x8]
	lsl	x8,x8,#1
	ushll	v1.8h,v1.8b,#0
	ushll	v2.4s,v1.4h,#0
	ushr	v1.2s,v2.2s,#4
	bic	v2.2s,#240
	mov	v2.b[1],v2.b[4]
	mov	v1.b[1],v1.b[4]
	tbl	v1.16b,{ v1.16b,v2.16b },v3.16b
	tbl	v0.16b,{ v0.16b },v1.16b
	zip1	v0.16b,v0.16b,v0.16b
	xtn	v0.8b,v0.8h
	str	s0,[x20,x8]
	b	206f
154:
	cmp	x9,x1
	b.hs	137b
155:
	mov	w20,wzr
156:
	tbnz	w23,#0,221f
	bl	fhex_dealloc
	b	221f
158:
	cmp	x27,#64
	b.hi	197f
	movi	v0.16b,#55
	add	x8,x11,x27
	movi	v5.16b,#143
	ldp	q1,q2,[x11]
	ldp	q3,q4,[x8,#-32]
	hex_page	x8,.Lstatic.19
	hex_address	x8,x8,.Lstatic.19
	uqsub	v6.16b,v2.16b,v0.16b
	uqsub	v7.16b,v1.16b,v0.16b
	ldr	q19,[x8,x20,lsl #4]
	uqsub	v16.16b,v4.16b,v0.16b
	uqsub	v0.16b,v3.16b,v0.16b
	hex_page	x8,.Lstatic.20
	hex_address	x8,x8,.Lstatic.20
	add	x8,x8,x20
	and	v17.16b,v7.16b,v5.16b
	and	v18.16b,v6.16b,v5.16b
	and	v20.16b,v0.16b,v5.16b
	and	v5.16b,v16.16b,v5.16b
	tbl	v17.16b,{ v19.16b },v17.16b
	tbl	v18.16b,{ v19.16b },v18.16b
	tbl	v20.16b,{ v19.16b },v20.16b
	tbl	v5.16b,{ v19.16b },v5.16b
	ld1r	{ v19.16b },[x8]
	uqsub	v7.16b,v17.16b,v7.16b
	uqsub	v6.16b,v18.16b,v6.16b
	eor	v1.16b,v19.16b,v1.16b
	uqsub	v17.16b,v20.16b,v0.16b
	uqsub	v5.16b,v5.16b,v16.16b
	eor	v3.16b,v19.16b,v3.16b
	eor	v2.16b,v19.16b,v2.16b
	eor	v4.16b,v19.16b,v4.16b
	eor	v0.16b,v7.16b,v1.16b
	eor	v1.16b,v17.16b,v3.16b
	eor	v3.16b,v6.16b,v2.16b
	eor	v2.16b,v5.16b,v4.16b
	movi	v6.16b,#240
	orr	v4.16b,v3.16b,v2.16b
	orr	v5.16b,v0.16b,v1.16b
	orr	v4.16b,v5.16b,v4.16b
	and	v4.16b,v4.16b,v6.16b
	ext	v5.16b,v4.16b,v4.16b,#8
	orr	v4.8b,v4.8b,v5.8b
	fmov	x8,d4
	orr	x8,x8,x8,lsr #32
	lsr	x9,x8,#16
	orr	w8,w8,w9
	orr	w8,w8,w8,lsr #8
	tst	w8,#0xff
	b.ne	203f
	mov	w10,#4097
	mov	x8,xzr
	mov	x9,xzr
	dup	v4.8h,w10
	add	x10,sp,#112
	add	x10,x10,x26
	mul	v3.8h,v3.8h,v4.8h
	mul	v0.8h,v0.8h,v4.8h
	mul	v1.8h,v1.8h,v4.8h
	mul	v2.8h,v2.8h,v4.8h
	uzp2	v0.16b,v0.16b,v3.16b
	uzp2	v1.16b,v1.16b,v2.16b
	str	q0,[sp,#112]
	stur	q1,[x10,#-16]
	b	116b
161:
	ldr	s1,[x11]
	mov	x16,x11
	add	x20,sp,#112
	ushll	v1.8h,v1.8b,#0
	ushr	v2.4h,v1.4h,#4
	bic	v1.4h,#240
	umov	w8,v2.h[0]
	umov	w9,v1.h[0]
	umov	w10,v2.h[1]
	umov	w11,v1.h[1]
	umov	w12,v2.h[2]
	umov	w13,v1.h[2]
	umov	w14,v2.h[3]
	umov	w15,v1.h[3]
	fmov	s3,w8
	mov	v3.b[1],w9
	mov	v3.b[2],w10
	mov	v3.b[3],w11
	mov	v3.b[4],w12
	mov	v3.b[5],w13
	mov	v3.b[6],w14
	mov	v3.b[7],w15
	mov	v3.b[8],w8
	sub	x8,x27,#4
	mov	x27,x26
	mov	v3.b[9],w9
	mov	v3.b[10],w10
	mov	v3.b[11],w11
	mov	v3.b[12],w12
	mov	v3.b[13],w13
	mov	v3.b[14],w14
	mov	v3.b[15],w15
	tbl	v1.16b,{ v0.16b },v3.16b
	str	d1,[sp,#112]
	ldr	s1,[x16,x8]
	lsl	x8,x8,#1
	ushll	v1.8h,v1.8b,#0
	ushr	v2.4h,v1.4h,#4
	bic	v1.4h,#240
	umov	w9,v2.h[0]
	umov	w10,v1.h[0]
	umov	w11,v2.h[1]
	umov	w12,v1.h[1]
	umov	w13,v2.h[2]
	umov	w14,v1.h[2]
	umov	w15,v2.h[3]
	umov	w16,v1.h[3]
	fmov	s3,w9
	mov	v3.b[1],w10
	mov	v3.b[2],w11
	mov	v3.b[3],w12
	mov	v3.b[4],w13
	mov	v3.b[5],w14
	mov	v3.b[6],w15
	mov	v3.b[7],w16
	mov	v3.b[8],w9
	mov	v3.b[9],w10
	mov	v3.b[10],w11
	mov	v3.b[11],w12
	mov	v3.b[12],w13
	mov	v3.b[13],w14
	mov	v3.b[14],w15
	mov	v3.b[15],w16
	tbl	v0.16b,{ v0.16b },v3.16b
	str	d0,[x20,x8]
	b	206f
162:
	cmp	x10,#31
	b.hi	220f
163:
	movi	v1.16b,#10
	ldp	q2,q3,[x8,#-32]
	cmeq	v3.16b,v3.16b,v1.16b
	cmeq	v1.16b,v2.16b,v1.16b
	and	v2.16b,v3.16b,v0.16b
	and	v0.16b,v1.16b,v0.16b
164:
	ext	v1.16b,v2.16b,v2.16b,#8
	ext	v3.16b,v0.16b,v0.16b,#8
	zip1	v1.16b,v2.16b,v1.16b
	zip1	v0.16b,v0.16b,v3.16b
	addv	h1,v1.8h
	addv	h0,v0.8h
	fmov	w8,s1
	fmov	w9,s0
	orr	w8,w9,w8
165:
	tst	w8,#0xffff
	b.ne	220f
166:
	sub	x8,x29,#144
	mov	w23,#32
	sub	x0,x29,#112
	sub	x1,x29,#176
	sub	x4,x29,#144
	mov	w2,#2
	mov	w3,#1
	stp	x16,x15,[sp,#32]
	str	x25,[sp,#48]
	stp	xzr,xzr,[x8,#8]
	sturh	w23,[x29,#-148]
	stur	xzr,[x29,#-144]
	bl	io_digits_put_digits
	tst	w0,#0xff
	b.eq	168f
167:
	add	x24,sp,#112
	b	220f
168:
	cmp	w20,#42
	mov	x19,xzr
	csel	w8,w20,w23,eq
	ldp	x23,x24,[x29,#-104]
	ldur	x20,[x29,#-112]
	sturb	w8,[x29,#-147]
169:
	subs	x8,x23,x24
	b.eq	167b
	mov	w9,#2
	sub	x10,x29,#148
	add	x0,x20,x24
	sub	x9,x9,x19
	add	x1,x10,x19
	cmp	x8,x9
	csel	x27,x8,x9,lo
	mov	x2,x27
	bl	memcpy
	add	x19,x27,x19
	add	x24,x27,x24
	cmp	x19,#2
	b.lo	169b
	ldr	x8,[sp,#56]
	mov	x25,xzr
	add	x9,x8,#19
	add	x19,x8,#3
	str	x9,[sp,#8]
	b	174f
172:
	add	x0,x20,x24
	add	x1,x12,x25
	mov	x2,x27
	bl	memmove
173:
	add	x25,x27,x25
	add	x24,x27,x24
	cmp	x25,x26
	b.hs	190f
174:
	subs	x8,x23,x24
	b.eq	167b
	ldp	x12,x26,[sp,#32]
	add	x11,x20,x24
	sub	x9,x26,x25
	add	x10,x12,x25
	cmp	x8,x9
	csel	x27,x8,x9,lo
	sub	x8,x11,x10
	cmp	x8,x27
	b.hs	172b
	cmp	x27,#8
	b.lo	178f
	ldr	x9,[sp,#56]
	sub	x8,x20,#3
	add	x8,x8,x24
	add	x9,x25,x9
	sub	x8,x8,x9
	cmp	x8,#32
	b.hs	181f
178:
	mov	x8,xzr
179:
	add	x9,x8,x25
	add	x10,x8,x24
	sub	x8,x27,x8
	add	x9,x19,x9
	add	x10,x20,x10
180:
	ldrb	w11,[x9],#1
	subs	x8,x8,#1
	strb	w11,[x10],#1
	b.ne	180b
	b	173b
181:
	cmp	x27,#32
	b.hs	183f
	mov	x8,xzr
	b	187f
183:
	ldr	x11,[sp,#8]
	add	x10,x20,#16
	and	x9,x27,#0x18
	and	x8,x27,#0xffffffffffffffe0
	add	x10,x10,x24
	and	x12,x27,#0xffffffffffffffe0
	add	x11,x11,x25
184:
	ldp	q0,q1,[x11,#-16]
	subs	x12,x12,#32
	add	x11,x11,#32
	stp	q0,q1,[x10,#-16]
	add	x10,x10,#32
	b.ne	184b
	cmp	x27,x8
	b.eq	173b
	cbz	x9,179b
187:
	mov	x9,x8
	and	x8,x27,#0xfffffffffffffff8
	add	x10,x9,x25
	add	x11,x9,x24
	sub	x9,x9,x8
	add	x10,x19,x10
	add	x11,x20,x11
188:
	ldr	d0,[x10],#8
	adds	x9,x9,#8
	str	d0,[x11],#8
	b.ne	188b
	cmp	x27,x8
	b.eq	173b
	b	179b
190:
	cmp	x23,x24
	b.eq	167b
	ldr	x25,[sp,#48]
	mov	w8,#10
	strb	w8,[x20,x24]
	add	x3,x24,#1
	add	x24,sp,#112
	ldrb	w8,[x22,#40]
	cbnz	w8,220f
	b	49b
192:
	hex_page	x9,.Lstatic.19
	hex_address	x9,x9,.Lstatic.19
	cmp	x27,#7
	ldr	q0,[x9,x20,lsl #4]
	b.hi	200f
	ldr	s1,[x11]
	sub	x8,x8,#4
	movi	v2.8b,#55
	movi	v3.16b,#143
	ld1	{ v1.s }[1],[x8]
	hex_page	x8,.Lstatic.20
	hex_address	x8,x8,.Lstatic.20
	add	x8,x8,x20
	uqsub	v2.8b,v1.8b,v2.8b
	and	v3.16b,v2.16b,v3.16b
	tbl	v0.16b,{ v0.16b },v3.16b
	ld1r	{ v3.8b },[x8]
	eor	v1.8b,v3.8b,v1.8b
	uqsub	v0.8b,v0.8b,v2.8b
	movi	v2.8b,#240
	eor	v0.8b,v0.8b,v1.8b
	and	v1.8b,v0.8b,v2.8b
	fmov	x8,d1
	orr	x8,x8,x8,lsr #32
	lsr	x9,x8,#16
	orr	w8,w8,w9
	orr	w8,w8,w8,lsr #8
	tst	w8,#0xff
	b.ne	203f
	mov	w10,#4097
	mov	x8,xzr
	mov	x9,xzr
	dup	v1.4h,w10
	add	x10,sp,#112
	add	x10,x10,x26
	mul	v0.4h,v0.4h,v1.4h
	ushr	v0.4h,v0.4h,#8
	ushll	v0.4s,v0.4h,#0
	ext	v1.16b,v0.16b,v0.16b,#8
	mov	s2,v0.s[1]
	str	b0,[sp,#112]
	mov	s3,v1.s[1]
	stur	b2,[sp,#113]
	stur	b1,[x10,#-2]
	stur	b3,[x10,#-1]
	b	116b
195:
	add	x8,x11,x27
	ldr	q1,[x11]
	movi	v4.16b,#143
	ldur	q2,[x8,#-16]
	hex_page	x8,.Lstatic.19
	hex_address	x8,x8,.Lstatic.19
	ldr	q6,[x8,x20,lsl #4]
	hex_page	x8,.Lstatic.20
	hex_address	x8,x8,.Lstatic.20
	uqsub	v3.16b,v2.16b,v0.16b
	uqsub	v0.16b,v1.16b,v0.16b
	add	x8,x8,x20
	and	v5.16b,v0.16b,v4.16b
	and	v4.16b,v3.16b,v4.16b
	tbl	v5.16b,{ v6.16b },v5.16b
	tbl	v4.16b,{ v6.16b },v4.16b
	ld1r	{ v6.16b },[x8]
	eor	v1.16b,v6.16b,v1.16b
	eor	v2.16b,v6.16b,v2.16b
	uqsub	v0.16b,v5.16b,v0.16b
	uqsub	v3.16b,v4.16b,v3.16b
	eor	v0.16b,v0.16b,v1.16b
	eor	v1.16b,v3.16b,v2.16b
	movi	v2.16b,#240
	orr	v3.16b,v0.16b,v1.16b
	and	v2.16b,v3.16b,v2.16b
	ext	v3.16b,v2.16b,v2.16b,#8
	orr	v2.8b,v2.8b,v3.8b
	fmov	x8,d2
	orr	x8,x8,x8,lsr #32
	lsr	x9,x8,#16
	orr	w8,w8,w9
	orr	w8,w8,w8,lsr #8
	tst	w8,#0xff
	b.ne	203f
	mov	w10,#4097
	mov	x8,xzr
	mov	x9,xzr
	dup	v2.8h,w10
	add	x10,sp,#112
	add	x10,x10,x26
	mul	v0.8h,v0.8h,v2.8h
	mul	v1.8h,v1.8h,v2.8h
	shrn	v0.8b,v0.8h,#8
	shrn	v1.8b,v1.8h,#8
	str	d0,[sp,#112]
	stur	d1,[x10,#-8]
	b	116b
197:
	movi	v7.16b,#55
	ldp	q1,q0,[x11,#32]
	ldp	q2,q3,[x11]
	movi	v6.16b,#143
	hex_page	x8,.Lstatic.19
	hex_address	x8,x8,.Lstatic.19
	cmp	x27,#128
	ldr	q5,[x8,x20,lsl #4]
	hex_page	x8,.Lstatic.20
	hex_address	x8,x8,.Lstatic.20
	uqsub	v16.16b,v0.16b,v7.16b
	uqsub	v17.16b,v1.16b,v7.16b
	uqsub	v18.16b,v3.16b,v7.16b
	uqsub	v19.16b,v2.16b,v7.16b
	add	x8,x8,x20
	ld1r	{ v4.16b },[x8]
	and	v20.16b,v16.16b,v6.16b
	and	v22.16b,v18.16b,v6.16b
	and	v23.16b,v17.16b,v6.16b
	and	v21.16b,v19.16b,v6.16b
	eor	v0.16b,v0.16b,v4.16b
	eor	v1.16b,v1.16b,v4.16b
	eor	v3.16b,v3.16b,v4.16b
	eor	v2.16b,v2.16b,v4.16b
	tbl	v20.16b,{ v5.16b },v20.16b
	tbl	v22.16b,{ v5.16b },v22.16b
	tbl	v23.16b,{ v5.16b },v23.16b
	tbl	v21.16b,{ v5.16b },v21.16b
	uqsub	v16.16b,v20.16b,v16.16b
	uqsub	v17.16b,v23.16b,v17.16b
	uqsub	v18.16b,v22.16b,v18.16b
	uqsub	v19.16b,v21.16b,v19.16b
	eor	v0.16b,v16.16b,v0.16b
	eor	v1.16b,v17.16b,v1.16b
	eor	v3.16b,v18.16b,v3.16b
	eor	v2.16b,v19.16b,v2.16b
	b.hi	202f
	add	x8,x11,x27
	ldp	q18,q16,[x8,#-48]
	ldur	q17,[x8,#-64]
	ldur	q19,[x8,#-16]
	uqsub	v20.16b,v16.16b,v7.16b
	uqsub	v21.16b,v19.16b,v7.16b
	uqsub	v22.16b,v18.16b,v7.16b
	uqsub	v7.16b,v17.16b,v7.16b
	eor	v17.16b,v4.16b,v17.16b
	and	v23.16b,v20.16b,v6.16b
	and	v25.16b,v22.16b,v6.16b
	and	v24.16b,v7.16b,v6.16b
	and	v6.16b,v21.16b,v6.16b
	tbl	v23.16b,{ v5.16b },v23.16b
	tbl	v25.16b,{ v5.16b },v25.16b
	tbl	v24.16b,{ v5.16b },v24.16b
	tbl	v5.16b,{ v5.16b },v6.16b
	eor	v6.16b,v4.16b,v16.16b
	uqsub	v16.16b,v23.16b,v20.16b
	uqsub	v20.16b,v25.16b,v22.16b
	uqsub	v5.16b,v5.16b,v21.16b
	uqsub	v21.16b,v24.16b,v7.16b
	eor	v7.16b,v4.16b,v18.16b
	eor	v18.16b,v4.16b,v19.16b
	eor	v6.16b,v6.16b,v16.16b
	eor	v4.16b,v7.16b,v20.16b
	eor	v7.16b,v18.16b,v5.16b
	eor	v5.16b,v17.16b,v21.16b
	orr	v16.16b,v6.16b,v1.16b
	orr	v19.16b,v4.16b,v3.16b
	orr	v17.16b,v5.16b,v2.16b
	orr	v18.16b,v7.16b,v0.16b
	orr	v18.16b,v19.16b,v18.16b
	orr	v16.16b,v17.16b,v16.16b
	movi	v17.16b,#240
	orr	v16.16b,v16.16b,v18.16b
	and	v16.16b,v16.16b,v17.16b
	ext	v17.16b,v16.16b,v16.16b,#8
	orr	v16.8b,v16.8b,v17.8b
	fmov	x8,d16
	orr	x8,x8,x8,lsr #32
	lsr	x9,x8,#16
	orr	w8,w8,w9
	orr	w8,w8,w8,lsr #8
	tst	w8,#0xff
	b.ne	203f
	mov	w10,#4097
	mov	x8,xzr
	mov	x9,xzr
	dup	v16.8h,w10
	add	x10,sp,#112
	add	x10,x10,x26
	mul	v3.8h,v3.8h,v16.8h
	mul	v2.8h,v2.8h,v16.8h
	mul	v1.8h,v1.8h,v16.8h
	mul	v0.8h,v0.8h,v16.8h
	mul	v6.8h,v6.8h,v16.8h
	mul	v7.8h,v7.8h,v16.8h
	mul	v4.8h,v4.8h,v16.8h
	mul	v5.8h,v5.8h,v16.8h
	uzp2	v2.16b,v2.16b,v3.16b
	uzp2	v0.16b,v1.16b,v0.16b
	uzp2	v1.16b,v6.16b,v7.16b
	uzp2	v3.16b,v5.16b,v4.16b
	stp	q2,q0,[sp,#112]
	stp	q3,q1,[x10,#-32]
	b	116b
200:
	ldr	d1,[x11]
	ldur	d2,[x8,#-8]
	movi	v3.16b,#143
	hex_page	x8,.Lstatic.20
	hex_address	x8,x8,.Lstatic.20
	mov	v1.d[1],v2.d[0]
	movi	v2.16b,#55
	add	x8,x8,x20
	uqsub	v2.16b,v1.16b,v2.16b
	and	v3.16b,v2.16b,v3.16b
	tbl	v0.16b,{ v0.16b },v3.16b
	ld1r	{ v3.16b },[x8]
	eor	v1.16b,v3.16b,v1.16b
	uqsub	v0.16b,v0.16b,v2.16b
	movi	v2.16b,#240
	eor	v0.16b,v0.16b,v1.16b
	and	v1.16b,v0.16b,v2.16b
	ext	v2.16b,v1.16b,v1.16b,#8
	orr	v1.8b,v1.8b,v2.8b
	fmov	x8,d1
	orr	x8,x8,x8,lsr #32
	lsr	x9,x8,#16
	orr	w8,w8,w9
	orr	w8,w8,w8,lsr #8
	tst	w8,#0xff
	b.ne	203f
	mov	w10,#4097
	mov	x8,xzr
	mov	x9,xzr
	dup	v1.8h,w10
	add	x10,sp,#112
	add	x10,x10,x26
	mul	v0.8h,v0.8h,v1.8h
	ushr	v1.8h,v0.8h,#8
	shrn	v0.8b,v0.8h,#8
	dup	v1.2d,v1.d[1]
	str	s0,[sp,#112]
	xtn	v1.8b,v1.8h
	stur	s1,[x10,#-4]
	b	116b
202:
	ldp	q16,q18,[x11,#80]
	add	x8,x11,x27
	ldr	q17,[x11,#64]
	ldr	q19,[x11,#112]
	ldp	q20,q21,[x8,#-64]
	ldp	q24,q25,[x8,#-32]
	uqsub	v22.16b,v18.16b,v7.16b
	uqsub	v23.16b,v17.16b,v7.16b
	uqsub	v26.16b,v19.16b,v7.16b
	uqsub	v27.16b,v16.16b,v7.16b
	uqsub	v28.16b,v21.16b,v7.16b
	uqsub	v30.16b,v20.16b,v7.16b
	eor	v18.16b,v4.16b,v18.16b
	uqsub	v29.16b,v25.16b,v7.16b
	uqsub	v7.16b,v24.16b,v7.16b
	eor	v17.16b,v4.16b,v17.16b
	and	v8.16b,v22.16b,v6.16b
	eor	v19.16b,v4.16b,v19.16b
	and	v31.16b,v23.16b,v6.16b
	and	v9.16b,v27.16b,v6.16b
	and	v10.16b,v26.16b,v6.16b
	and	v11.16b,v28.16b,v6.16b
	and	v12.16b,v30.16b,v6.16b
	and	v13.16b,v29.16b,v6.16b
	and	v6.16b,v7.16b,v6.16b
	tbl	v8.16b,{ v5.16b },v8.16b
	tbl	v31.16b,{ v5.16b },v31.16b
	tbl	v9.16b,{ v5.16b },v9.16b
	tbl	v10.16b,{ v5.16b },v10.16b
	tbl	v11.16b,{ v5.16b },v11.16b
	tbl	v12.16b,{ v5.16b },v12.16b
	tbl	v13.16b,{ v5.16b },v13.16b
	tbl	v5.16b,{ v5.16b },v6.16b
	uqsub	v6.16b,v8.16b,v22.16b
	uqsub	v22.16b,v31.16b,v23.16b
	uqsub	v23.16b,v10.16b,v26.16b
	uqsub	v26.16b,v9.16b,v27.16b
	uqsub	v27.16b,v11.16b,v28.16b
	uqsub	v28.16b,v13.16b,v29.16b
	uqsub	v29.16b,v12.16b,v30.16b
	eor	v30.16b,v4.16b,v16.16b
	uqsub	v31.16b,v5.16b,v7.16b
	eor	v7.16b,v4.16b,v21.16b
	eor	v21.16b,v4.16b,v25.16b
	eor	v5.16b,v18.16b,v6.16b
	eor	v6.16b,v4.16b,v20.16b
	eor	v20.16b,v4.16b,v24.16b
	eor	v18.16b,v17.16b,v22.16b
	eor	v16.16b,v19.16b,v23.16b
	eor	v19.16b,v30.16b,v26.16b
	eor	v4.16b,v7.16b,v27.16b
	eor	v7.16b,v21.16b,v28.16b
	eor	v6.16b,v6.16b,v29.16b
	eor	v17.16b,v20.16b,v31.16b
	orr	v20.16b,v5.16b,v1.16b
	orr	v21.16b,v19.16b,v3.16b
	orr	v22.16b,v16.16b,v0.16b
	orr	v23.16b,v18.16b,v2.16b
	orr	v20.16b,v20.16b,v17.16b
	orr	v23.16b,v23.16b,v6.16b
	orr	v22.16b,v22.16b,v7.16b
	orr	v21.16b,v21.16b,v4.16b
	orr	v21.16b,v21.16b,v22.16b
	orr	v20.16b,v23.16b,v20.16b
	movi	v22.16b,#240
	orr	v20.16b,v20.16b,v21.16b
	and	v20.16b,v20.16b,v22.16b
	ext	v21.16b,v20.16b,v20.16b,#8
	orr	v20.8b,v20.8b,v21.8b
	fmov	x8,d20
	orr	x8,x8,x8,lsr #32
	lsr	x9,x8,#16
	orr	w8,w8,w9
	orr	w8,w8,w8,lsr #8
	tst	w8,#0xff
	b.eq	275f
203:
	ldr	w1,[sp,#20]
	add	x4,sp,#112
	mov	w0,w19
	mov	x2,x11
	mov	x3,x27
	mov	x5,x26
	mov	w6,w20
	bl	core_backend_Backend_decode_or_find_outlined
	tst	w1,#0xffff
	and	w9,w1,#0xff
	csel	x11,x0,xzr,eq
	cset	w10,eq
	csel	x26,xzr,x0,eq
	and	x8,x11,#0xffffffffffffff00
204:
	and	x11,x11,#0xff
	cmp	w10,#0
	add	x12,sp,#112
	orr	x8,x8,x11
	csel	x20,x12,x11,ne
	csel	x26,x8,x26,ne
	csel	x8,xzr,x9,ne
	cbz	w10,209f
205:
	mov	x27,x26
206:
	ldrb	w8,[x22,#40]
	cbnz	w8,220f
	ldr	x8,[x22,#48]
	cmp	x8,x27
	b.ne	220f
	ldr	x0,[x22,#72]
	mov	x1,x25
	mov	x2,x20
	mov	x3,x27
	bl	core_slice_reads_slice_T_starts_with
	tbnz	w0,#0,219f
	b	220f
209:
	mov	x9,x20
210:
	ldrb	w10,[x22,#40]
	cbz	w10,220f
	ldrb	w10,[x22,#48]
	and	w9,w9,#0xff
	cmp	w10,w9
	b.ne	220f
	cmp	w9,#2
	b.gt	219f
	cbz	w9,217f
	cmp	w9,#1
	b.eq	218f
	ldr	x9,[x22,#56]
	cmp	x9,x26
	b.ne	220f
	ldr	x9,[x22,#64]
	cmp	x9,x8
	b.eq	219f
	b	220f
217:
	ldrb	w9,[x22,#64]
	cmp	w9,w8
	b.ne	220f
218:
	ldr	x8,[x22,#56]
	cmp	x8,x26
	b.ne	220f
219:
	ldr	x2,[x22,#72]
	add	x0,sp,#112
	mov	w1,#128
	mov	x3,x25
	bl	core_slice_reads_slice_T_starts_with
	mov	w20,w0
	b	221f
220:
	mov	w20,wzr
221:
	mov	w8,#1
	ldr	x11,[sp,#96]
	hex_page	x9,.Lstatic.10
	hex_address	x9,x9,.Lstatic.10
	dup	v0.2d,x8
	eor	w8,w20,#0x1
	ldp	q2,q1,[x11]
	ldr	q3,[x11,#32]
	cmp	w20,#0
	ldr	x27,[x11,#8]
	mov	w10,#32
	mov	v0.d[0],x8
	hex_page	x8,.Lstatic.11
	hex_address	x8,x8,.Lstatic.11
	stp	q2,q1,[sp,#112]
	csel	x25,x9,x8,ne
	ldp	x26,x23,[sp,#120]
	stp	xzr,xzr,[x24,#56]
	stur	xzr,[x24,#36]
	uqadd	v0.2d,v0.2d,v3.2d
	stur	wzr,[x24,#44]
	sub	x8,x23,x26
	str	w10,[sp,#144]
	cmp	x28,x8
	mov	x8,#-1
	str	x8,[sp,#160]
	str	q0,[x11,#32]
	b.hi	225f
	ldr	x24,[sp,#112]
	ldr	x1,[sp,#88]
	add	x8,x24,x26
	sub	x9,x8,x1
	cmp	x9,x28
	b.hs	227f
223:
	mov	x9,x1
	mov	x10,x28
224:
	ldrb	w11,[x9],#1
	subs	x10,x10,#1
	strb	w11,[x8],#1
	b.ne	224b
	b	228f
225:
	add	x0,sp,#112
	mov	x1,x28
	bl	std_alloc_vec_Vec_grow_amortized___
	cbz	w0,277f
	ldp	x26,x23,[sp,#120]
	ldr	x24,[sp,#112]
	ldr	x1,[sp,#88]
	add	x8,x24,x26
	sub	x9,x8,x1
	cmp	x9,x28
	b.lo	223b
227:
	add	x0,x24,x26
	mov	x2,x28
	bl	memcpy
228:
	mov	w9,#32
	add	x10,sp,#112
	add	x8,x26,x28
	str	w9,[sp,#144]
	ldr	x9,[sp,#168]
	stur	xzr,[x10,#36]
	stur	wzr,[x10,#44]
	mov	x10,#-1
	stp	x8,x23,[sp,#120]
	str	x10,[sp,#160]
	cbnz	x9,241f
	cmp	x23,x8
	b.eq	250f
230:
	mov	w9,#32
	strb	w9,[x24,x8]
	add	x8,x8,#1
	stp	x24,x8,[sp,#112]
	add	x24,sp,#112
	str	x23,[sp,#128]
231:
	ldp	x1,x26,[x22]
	mov	w8,#32
	ldr	x10,[sp,#168]
	mov	x9,#-1
	stur	xzr,[x24,#36]
	str	w8,[sp,#144]
	stur	wzr,[x24,#44]
	str	x9,[sp,#160]
	cbnz	x10,242f
	ldp	x23,x22,[sp,#120]
	sub	x8,x22,x23
	cmp	x26,x8
	b.hi	252f
	ldr	x8,[sp,#112]
	add	x0,x8,x23
	sub	x9,x0,x1
	cmp	x9,x26
	b.hs	254f
234:
	cmp	x26,#8
	b.lo	236f
	add	x9,x23,x8
	sub	x9,x9,x1
	cmp	x9,#32
	b.hs	239f
236:
	mov	x9,xzr
237:
	add	x11,x9,x23
	sub	x10,x26,x9
	add	x9,x1,x9
	add	x8,x8,x11
238:
	ldrb	w11,[x9],#1
	subs	x10,x10,#1
	strb	w11,[x8],#1
	b.ne	238b
	b	255f
239:
	cmp	x26,#32
	b.hs	243f
	mov	x9,xzr
	b	247f
241:
	hex_page	x1,.Lstatic.12
	hex_address	x1,x1,.Lstatic.12
	add	x0,sp,#112
	mov	w2,#1
	bl	core_fmt_formatter_Formatter_write_indented
	and	w8,w0,#0xff
	add	x24,sp,#112
	tbz	w8,#0,231b
	b	277f
242:
	add	x0,sp,#112
	mov	x2,x26
	bl	core_fmt_formatter_Formatter_write_indented
	and	w8,w0,#0xff
	tbz	w8,#0,256f
	b	277f
243:
	add	x12,x8,x23
	and	x10,x26,#0x18
	and	x9,x26,#0xffffffffffffffe0
	add	x11,x1,#16
	add	x12,x12,#16
	and	x13,x26,#0xffffffffffffffe0
244:
	ldp	q0,q1,[x11,#-16]
	subs	x13,x13,#32
	add	x11,x11,#32
	stp	q0,q1,[x12,#-16]
	add	x12,x12,#32
	b.ne	244b
	cmp	x26,x9
	b.eq	255f
	cbz	x10,237b
247:
	mov	x11,x9
	and	x9,x26,#0xfffffffffffffff8
	add	x12,x23,x11
	sub	x10,x11,x9
	add	x11,x1,x11
	add	x12,x8,x12
248:
	ldr	d0,[x11],#8
	adds	x10,x10,#8
	str	d0,[x12],#8
	b.ne	248b
	cmp	x26,x9
	b.eq	255f
	b	237b
250:
	add	x0,sp,#112
	mov	w1,#1
	bl	std_alloc_vec_Vec_grow_amortized___
	cbz	w0,277f
	ldp	x8,x23,[sp,#120]
	ldr	x24,[sp,#112]
	b	230b
252:
	mov	x19,x1
	add	x0,sp,#112
	mov	x1,x26
	bl	std_alloc_vec_Vec_grow_amortized___
	cbz	w0,277f
	ldp	x23,x22,[sp,#120]
	mov	x1,x19
	ldr	x8,[sp,#112]
	add	x0,x8,x23
	sub	x9,x0,x19
	cmp	x9,x26
	b.lo	234b
254:
	mov	x2,x26
	bl	memmove
255:
	add	x8,x23,x26
	stp	x8,x22,[sp,#120]
256:
	mov	w8,#32
	ldr	x9,[sp,#168]
	stur	xzr,[x24,#36]
	str	w8,[sp,#144]
	mov	x8,#-1
	stur	wzr,[x24,#44]
	str	x8,[sp,#160]
	cbnz	x9,263f
	ldp	x9,x8,[sp,#120]
	cmp	x8,x9
	b.eq	265f
258:
	ldr	x10,[sp,#112]
	add	x11,x9,#1
	mov	w12,#32
	strb	w12,[x10,x9]
	stp	x11,x8,[sp,#120]
259:
	mov	w8,#32
	ldr	x9,[sp,#168]
	stur	xzr,[x24,#36]
	str	w8,[sp,#144]
	mov	x8,#-1
	stur	wzr,[x24,#44]
	str	x8,[sp,#160]
	cbnz	x9,264f
	ldp	x9,x8,[sp,#120]
	sub	x10,x8,x9
	cmp	x10,#3
	b.ls	267f
	ldr	x10,[sp,#112]
	add	x10,x10,x9
	sub	x11,x10,x25
	cmp	x11,#3
	b.hi	269f
262:
	ldrb	w11,[x25]
	mov	w12,#97
	cmp	w20,#0
	mov	w13,#105
	mov	w14,#115
	strb	w12,[x10,#1]
	mov	w12,#108
	csel	w13,w14,w13,ne
	strb	w11,[x10]
	csel	w11,w14,w12,ne
	strb	w13,[x10,#2]
	strb	w11,[x10,#3]
	b	270f
263:
	hex_page	x1,.Lstatic.12
	hex_address	x1,x1,.Lstatic.12
	add	x0,sp,#112
	mov	w2,#1
	bl	core_fmt_formatter_Formatter_write_indented
	and	w8,w0,#0xff
	tbz	w8,#0,259b
	b	277f
264:
	add	x0,sp,#112
	mov	x1,x25
	mov	w2,#4
	bl	core_fmt_formatter_Formatter_write_indented
	and	w8,w0,#0xff
	tbz	w8,#0,271f
	b	277f
265:
	add	x0,sp,#112
	mov	w1,#1
	bl	std_alloc_vec_Vec_grow_amortized___
	cbz	w0,277f
	ldp	x9,x8,[sp,#120]
	b	258b
267:
	add	x0,sp,#112
	mov	w1,#4
	bl	std_alloc_vec_Vec_grow_amortized___
	cbz	w0,277f
	ldp	x9,x8,[sp,#120]
	ldr	x10,[sp,#112]
	add	x10,x10,x9
	sub	x11,x10,x25
	cmp	x11,#3
	b.ls	262b
269:
	ldr	w11,[x25]
	str	w11,[x10]
270:
	add	x9,x9,#4
	stp	x9,x8,[sp,#120]
271:
	mov	w8,#32
	ldr	x9,[sp,#168]
	stur	xzr,[x24,#36]
	str	w8,[sp,#144]
	mov	x8,#-1
	stur	wzr,[x24,#44]
	str	x8,[sp,#160]
	cbnz	x9,274f
	ldp	x9,x8,[sp,#120]
	ldr	x20,[sp,#88]
	cmp	x8,x9
	b.ne	2b
	add	x0,sp,#112
	mov	w1,#1
	bl	std_alloc_vec_Vec_grow_amortized___
	cbnz	w0,1b
	b	277f
274:
	hex_page	x1,.Lstatic.8
	hex_address	x1,x1,.Lstatic.8
	add	x0,sp,#112
	mov	w2,#1
	bl	core_fmt_formatter_Formatter_write_indented
	ldp	q1,q0,[sp,#112]
	sub	x8,x29,#144
	tst	w0,#0xff
	stp	q1,q0,[x8,#32]
	ldp	x20,x8,[sp,#88]
	stp	q1,q0,[x8]
	b.eq	3b
	b	278f
275:
	mov	w10,#4097
	mov	x8,xzr
	mov	x9,xzr
	dup	v20.8h,w10
	add	x10,sp,#112
	add	x10,x10,x26
	mul	v3.8h,v3.8h,v20.8h
	mul	v2.8h,v2.8h,v20.8h
	mul	v1.8h,v1.8h,v20.8h
	mul	v0.8h,v0.8h,v20.8h
	mul	v19.8h,v19.8h,v20.8h
	mul	v18.8h,v18.8h,v20.8h
	mul	v5.8h,v5.8h,v20.8h
	mul	v16.8h,v16.8h,v20.8h
	mul	v17.8h,v17.8h,v20.8h
	mul	v7.8h,v7.8h,v20.8h
	uzp2	v2.16b,v2.16b,v3.16b
	mul	v3.8h,v4.8h,v20.8h
	mul	v4.8h,v6.8h,v20.8h
	uzp2	v0.16b,v1.16b,v0.16b
	uzp2	v1.16b,v18.16b,v19.16b
	uzp2	v5.16b,v5.16b,v16.16b
	uzp2	v6.16b,v17.16b,v7.16b
	stp	q2,q0,[sp,#112]
	uzp2	v2.16b,v4.16b,v3.16b
	stp	q1,q5,[sp,#144]
	stp	q2,q6,[x10,#-32]
	b	116b
276:
	mov	w0,wzr
	b	286f
277:
	ldp	q0,q1,[sp,#112]
	sub	x8,x29,#144
	stp	q0,q1,[x8,#32]
	ldr	x8,[sp,#96]
	stp	q0,q1,[x8]
278:
	ldr	x8,[sp,#96]
	ldr	x8,[x8,#8]
	cbz	x27,283f
	cmp	x27,x8
	b.eq	283f
	cmp	x8,x27
	b.lo	285f
	cmp	x8,x27
	mov	w0,#1
	b.ls	286f
	ldr	x8,[sp,#96]
	ldr	x8,[x8]
	ldrsb	w8,[x8,x27]
	cmn	w8,#65
	b.gt	284f
	b	286f
283:
	cmp	x8,x27
	b.ls	285f
284:
	ldr	x8,[sp,#96]
	str	x27,[x8,#8]
285:
	mov	w0,#1
286:
	add	sp,sp,#368
	ldp	x20,x19,[sp,#128]
	ldp	x22,x21,[sp,#112]
	ldp	x24,x23,[sp,#96]
	ldp	x26,x25,[sp,#80]
	ldp	x28,x27,[sp,#64]
	ldp	x29,x30,[sp,#48]
	ldp	d9,d8,[sp,#32]
	ldp	d11,d10,[sp,#16]
	ldp	d13,d12,[sp],#144
	ret
287:
	ldur	x8,[x29,#-96]
	cbz	x8,285b
	ldur	x0,[x29,#-112]
	bl	fhex_dealloc
	b	285b
289:
	brk	#0x1
	hex_end	program_vectors_Report_ref_A_add
	hex_function	core_plain_decode_by_long_rows,.text
	cmp	x1,#15
	b.hi	3f
	cmp	x1,#2
	b.hs	7f
	mov	w0,#1
	ret
3:
	cmp	x1,#32
	b.hi	10f
	movi	v0.16b,#63
	and	x8,x4,#0xff
	hex_page	x9,.Lstatic.21
	hex_address	x9,x9,.Lstatic.21
	add	x8,x9,x8,lsl #6
	b.ne	13f
	ldp	q2,q1,[x0]
	ldp	q5,q6,[x8,#32]
	ldp	q3,q4,[x8]
	and	v7.16b,v1.16b,v0.16b
	and	v0.16b,v2.16b,v0.16b
	tbl	v0.16b,{ v3.16b,v4.16b,v5.16b,v6.16b },v0.16b
	tbl	v3.16b,{ v3.16b,v4.16b,v5.16b,v6.16b },v7.16b
	eor	v1.16b,v3.16b,v1.16b
	eor	v0.16b,v0.16b,v2.16b
	movi	v2.16b,#240
	orr	v3.16b,v0.16b,v1.16b
	and	v2.16b,v3.16b,v2.16b
	ext	v3.16b,v2.16b,v2.16b,#8
	orr	v2.8b,v2.8b,v3.8b
	fmov	x8,d2
	orr	x8,x8,x8,lsr #32
	lsr	x9,x8,#16
	orr	w8,w8,w9
	orr	w8,w8,w8,lsr #8
	tst	w8,#0xff
	b.eq	26f
	mov	w0,wzr
	ret
7:
	cmp	x1,#3
	add	x9,x0,x1
	b.hi	15f
	ldr	h0,[x0]
	sub	x8,x9,#2
	movi	v2.4h,#55
	movi	v3.16b,#143
	ld1	{ v0.h }[1],[x8]
	zip1	v0.8b,v0.8b,v0.8b
	fmov	d1,d0
	bic	v1.4h,#255,lsl #8
	uqsub	v1.4h,v1.4h,v2.4h
	movi	v2.2d,#0000000000000000
	umov	w8,v1.h[0]
	umov	w9,v1.h[1]
	mov	v2.b[0],w8
	umov	w8,v1.h[2]
	mov	v2.b[1],w9
	umov	w9,v1.h[3]
	mov	v2.b[2],w8
	and	x8,x4,#0xff
	mov	v2.b[3],w9
	hex_page	x9,.Lstatic.19
	hex_address	x9,x9,.Lstatic.19
	and	v2.16b,v2.16b,v3.16b
	ldr	q3,[x9,x8,lsl #4]
	hex_page	x9,.Lstatic.20
	hex_address	x9,x9,.Lstatic.20
	tbl	v2.16b,{ v3.16b },v2.16b
	ldr	b3,[x9,x8]
	dup	v3.4h,v3.h[0]
	zip1	v2.8b,v2.8b,v0.8b
	eor	v0.8b,v3.8b,v0.8b
	bic	v2.4h,#255,lsl #8
	uqsub	v1.4h,v2.4h,v1.4h
	movi	v2.4h,#240
	eor	v0.8b,v1.8b,v0.8b
	and	v1.8b,v0.8b,v2.8b
	fmov	x8,d1
	lsr	x9,x8,#32
	orr	w8,w8,w9
	orr	w8,w8,w8,lsr #16
	tst	w8,#0xff
	b.eq	27f
	mov	w0,wzr
	ret
10:
	cmp	x1,#64
	b.hi	18f
	hex_page	x8,.Lstatic.21
	hex_address	x8,x8,.Lstatic.21
	and	x9,x4,#0xff
	add	x8,x8,x9,lsl #6
	movi	v0.16b,#63
	add	x9,x0,x1
	ldp	q1,q3,[x9,#-32]
	ldp	q2,q16,[x0]
	ldp	q6,q7,[x8,#32]
	and	v17.16b,v3.16b,v0.16b
	and	v18.16b,v1.16b,v0.16b
	ldp	q4,q5,[x8]
	and	v19.16b,v16.16b,v0.16b
	and	v0.16b,v2.16b,v0.16b
	tbl	v18.16b,{ v4.16b,v5.16b,v6.16b,v7.16b },v18.16b
	tbl	v19.16b,{ v4.16b,v5.16b,v6.16b,v7.16b },v19.16b
	tbl	v20.16b,{ v4.16b,v5.16b,v6.16b,v7.16b },v0.16b
	tbl	v4.16b,{ v4.16b,v5.16b,v6.16b,v7.16b },v17.16b
	movi	v6.16b,#240
	eor	v0.16b,v18.16b,v1.16b
	eor	v2.16b,v20.16b,v2.16b
	eor	v1.16b,v4.16b,v3.16b
	eor	v3.16b,v19.16b,v16.16b
	orr	v4.16b,v3.16b,v1.16b
	orr	v5.16b,v2.16b,v0.16b
	orr	v4.16b,v5.16b,v4.16b
	and	v4.16b,v4.16b,v6.16b
	ext	v5.16b,v4.16b,v4.16b,#8
	orr	v4.8b,v4.8b,v5.8b
	fmov	x8,d4
	orr	x8,x8,x8,lsr #32
	lsr	x9,x8,#16
	orr	w8,w8,w9
	orr	w8,w8,w8,lsr #8
	tst	w8,#0xff
	b.eq	28f
	mov	w0,wzr
	ret
13:
	add	x9,x0,x1
	ldr	q1,[x0]
	ldur	q2,[x9,#-16]
	ldp	q5,q6,[x8,#32]
	ldp	q3,q4,[x8]
	and	v7.16b,v2.16b,v0.16b
	and	v0.16b,v1.16b,v0.16b
	tbl	v0.16b,{ v3.16b,v4.16b,v5.16b,v6.16b },v0.16b
	tbl	v3.16b,{ v3.16b,v4.16b,v5.16b,v6.16b },v7.16b
	eor	v0.16b,v0.16b,v1.16b
	eor	v1.16b,v3.16b,v2.16b
	movi	v2.16b,#240
	orr	v3.16b,v0.16b,v1.16b
	and	v2.16b,v3.16b,v2.16b
	ext	v3.16b,v2.16b,v2.16b,#8
	orr	v2.8b,v2.8b,v3.8b
	fmov	x8,d2
	orr	x8,x8,x8,lsr #32
	lsr	x9,x8,#16
	orr	w8,w8,w9
	orr	w8,w8,w8,lsr #8
	tst	w8,#0xff
	b.eq	29f
	mov	w0,wzr
	ret
15:
	and	x8,x4,#0xff
	hex_page	x10,.Lstatic.19
	hex_address	x10,x10,.Lstatic.19
	ldr	q0,[x10,x8,lsl #4]
	cmp	x1,#7
	b.hi	21f
	ldr	s1,[x0]
	sub	x9,x9,#4
	movi	v2.8b,#55
	movi	v3.16b,#143
	ld1	{ v1.s }[1],[x9]
	hex_page	x9,.Lstatic.20
	hex_address	x9,x9,.Lstatic.20
	add	x8,x9,x8
	uqsub	v2.8b,v1.8b,v2.8b
	and	v3.16b,v2.16b,v3.16b
	tbl	v0.16b,{ v0.16b },v3.16b
	ld1r	{ v3.8b },[x8]
	eor	v1.8b,v3.8b,v1.8b
	uqsub	v0.8b,v0.8b,v2.8b
	movi	v2.8b,#240
	eor	v0.8b,v0.8b,v1.8b
	and	v1.8b,v0.8b,v2.8b
	fmov	x8,d1
	orr	x8,x8,x8,lsr #32
	lsr	x9,x8,#16
	orr	w8,w8,w9
	orr	w8,w8,w8,lsr #8
	tst	w8,#0xff
	b.eq	31f
	mov	w0,wzr
	ret
18:
	cmp	x1,#128
	b.hi	23f
	hex_page	x8,.Lstatic.21
	hex_address	x8,x8,.Lstatic.21
	movi	v0.16b,#63
	and	x9,x4,#0xff
	add	x10,x0,x1
	ldp	q1,q2,[x0]
	add	x8,x8,x9,lsl #6
	ldp	q3,q5,[x0,#32]
	ldp	q16,q17,[x10,#-64]
	ldp	q22,q23,[x10,#-32]
	and	v7.16b,v2.16b,v0.16b
	ldp	q20,q21,[x8,#32]
	and	v4.16b,v5.16b,v0.16b
	and	v6.16b,v3.16b,v0.16b
	ldp	q18,q19,[x8]
	and	v24.16b,v1.16b,v0.16b
	and	v25.16b,v22.16b,v0.16b
	and	v26.16b,v23.16b,v0.16b
	and	v27.16b,v17.16b,v0.16b
	and	v0.16b,v16.16b,v0.16b
	tbl	v7.16b,{ v18.16b,v19.16b,v20.16b,v21.16b },v7.16b
	tbl	v28.16b,{ v18.16b,v19.16b,v20.16b,v21.16b },v4.16b
	tbl	v29.16b,{ v18.16b,v19.16b,v20.16b,v21.16b },v6.16b
	tbl	v24.16b,{ v18.16b,v19.16b,v20.16b,v21.16b },v24.16b
	tbl	v25.16b,{ v18.16b,v19.16b,v20.16b,v21.16b },v25.16b
	tbl	v30.16b,{ v18.16b,v19.16b,v20.16b,v21.16b },v0.16b
	tbl	v27.16b,{ v18.16b,v19.16b,v20.16b,v21.16b },v27.16b
	tbl	v18.16b,{ v18.16b,v19.16b,v20.16b,v21.16b },v26.16b
	eor	v4.16b,v7.16b,v2.16b
	eor	v0.16b,v28.16b,v5.16b
	eor	v7.16b,v29.16b,v3.16b
	eor	v6.16b,v24.16b,v1.16b
	eor	v3.16b,v25.16b,v22.16b
	eor	v1.16b,v27.16b,v17.16b
	eor	v5.16b,v18.16b,v23.16b
	eor	v2.16b,v30.16b,v16.16b
	orr	v16.16b,v3.16b,v7.16b
	orr	v17.16b,v2.16b,v6.16b
	orr	v18.16b,v5.16b,v0.16b
	orr	v19.16b,v1.16b,v4.16b
	orr	v18.16b,v19.16b,v18.16b
	orr	v16.16b,v17.16b,v16.16b
	movi	v17.16b,#240
	orr	v16.16b,v16.16b,v18.16b
	and	v16.16b,v16.16b,v17.16b
	ext	v17.16b,v16.16b,v16.16b,#8
	orr	v16.8b,v16.8b,v17.8b
	fmov	x8,d16
	orr	x8,x8,x8,lsr #32
	lsr	x9,x8,#16
	orr	w8,w8,w9
	orr	w8,w8,w8,lsr #8
	tst	w8,#0xff
	b.eq	32f
	mov	w0,wzr
	ret
21:
	ldr	d1,[x0]
	ldur	d2,[x9,#-8]
	movi	v3.16b,#143
	hex_page	x9,.Lstatic.20
	hex_address	x9,x9,.Lstatic.20
	mov	v1.d[1],v2.d[0]
	movi	v2.16b,#55
	add	x8,x9,x8
	uqsub	v2.16b,v1.16b,v2.16b
	and	v3.16b,v2.16b,v3.16b
	tbl	v0.16b,{ v0.16b },v3.16b
	ld1r	{ v3.16b },[x8]
	eor	v1.16b,v3.16b,v1.16b
	uqsub	v0.16b,v0.16b,v2.16b
	movi	v2.16b,#240
	eor	v0.16b,v0.16b,v1.16b
	and	v1.16b,v0.16b,v2.16b
	ext	v2.16b,v1.16b,v1.16b,#8
	orr	v1.8b,v1.8b,v2.8b
	fmov	x8,d1
	orr	x8,x8,x8,lsr #32
	lsr	x9,x8,#16
	orr	w8,w8,w9
	orr	w8,w8,w8,lsr #8
	tst	w8,#0xff
	b.eq	33f
	mov	w0,wzr
	ret
23:
	sub	sp,sp,#64
	cmp	x1,#192
	stp	d11,d10,[sp,#16]
	stp	d9,d8,[sp,#32]
	stp	x29,x30,[sp,#48]
	add	x29,sp,#48
	b.hi	30f
	hex_page	x8,.Lstatic.21
	hex_address	x8,x8,.Lstatic.21
	and	x9,x4,#0xff
	movi	v4.16b,#63
	add	x8,x8,x9,lsl #6
	add	x9,x0,x1
	ldp	q1,q0,[x0]
	ldp	q3,q2,[x0,#32]
	ldp	q20,q21,[x8,#32]
	ldp	q5,q17,[x0,#64]
	and	v7.16b,v0.16b,v4.16b
	ldp	q6,q22,[x0,#96]
	and	v23.16b,v3.16b,v4.16b
	ldp	q18,q19,[x8]
	and	v16.16b,v1.16b,v4.16b
	ldp	q24,q25,[x9,#-64]
	and	v26.16b,v2.16b,v4.16b
	and	v27.16b,v6.16b,v4.16b
	and	v30.16b,v22.16b,v4.16b
	and	v31.16b,v17.16b,v4.16b
	tbl	v28.16b,{ v18.16b,v19.16b,v20.16b,v21.16b },v7.16b
	tbl	v7.16b,{ v18.16b,v19.16b,v20.16b,v21.16b },v23.16b
	and	v8.16b,v5.16b,v4.16b
	ldp	q23,q29,[x9,#-32]
	tbl	v16.16b,{ v18.16b,v19.16b,v20.16b,v21.16b },v16.16b
	and	v10.16b,v25.16b,v4.16b
	and	v11.16b,v24.16b,v4.16b
	tbl	v26.16b,{ v18.16b,v19.16b,v20.16b,v21.16b },v26.16b
	tbl	v27.16b,{ v18.16b,v19.16b,v20.16b,v21.16b },v27.16b
	tbl	v8.16b,{ v18.16b,v19.16b,v20.16b,v21.16b },v8.16b
	tbl	v31.16b,{ v18.16b,v19.16b,v20.16b,v21.16b },v31.16b
	and	v9.16b,v29.16b,v4.16b
	and	v4.16b,v23.16b,v4.16b
	tbl	v30.16b,{ v18.16b,v19.16b,v20.16b,v21.16b },v30.16b
	tbl	v11.16b,{ v18.16b,v19.16b,v20.16b,v21.16b },v11.16b
	tbl	v10.16b,{ v18.16b,v19.16b,v20.16b,v21.16b },v10.16b
	eor	v7.16b,v7.16b,v3.16b
	tbl	v9.16b,{ v18.16b,v19.16b,v20.16b,v21.16b },v9.16b
	tbl	v20.16b,{ v18.16b,v19.16b,v20.16b,v21.16b },v4.16b
	eor	v18.16b,v16.16b,v1.16b
	eor	v16.16b,v26.16b,v2.16b
	eor	v19.16b,v28.16b,v0.16b
	eor	v3.16b,v27.16b,v6.16b
	eor	v6.16b,v8.16b,v5.16b
	eor	v4.16b,v30.16b,v22.16b
	eor	v17.16b,v31.16b,v17.16b
	eor	v0.16b,v10.16b,v25.16b
	eor	v1.16b,v11.16b,v24.16b
	eor	v2.16b,v9.16b,v29.16b
	eor	v5.16b,v20.16b,v23.16b
	orr	v20.16b,v3.16b,v7.16b
	orr	v21.16b,v17.16b,v19.16b
	orr	v22.16b,v4.16b,v16.16b
	orr	v23.16b,v6.16b,v18.16b
	orr	v20.16b,v20.16b,v5.16b
	orr	v23.16b,v23.16b,v1.16b
	orr	v22.16b,v22.16b,v2.16b
	orr	v21.16b,v21.16b,v0.16b
	orr	v21.16b,v21.16b,v22.16b
	orr	v20.16b,v23.16b,v20.16b
	movi	v22.16b,#240
	orr	v20.16b,v20.16b,v21.16b
	and	v20.16b,v20.16b,v22.16b
	ext	v21.16b,v20.16b,v20.16b,#8
	orr	v20.8b,v20.8b,v21.8b
	fmov	x8,d20
	orr	x8,x8,x8,lsr #32
	lsr	x9,x8,#16
	orr	w8,w8,w9
	orr	w8,w8,w8,lsr #8
	tst	w8,#0xff
	b.eq	34f
	mov	w0,wzr
	ldp	x29,x30,[sp,#48]
	ldp	d9,d8,[sp,#32]
	ldp	d11,d10,[sp,#16]
	add	sp,sp,#64
	ret
26:
	mov	w8,#4097
	mov	w0,#1
	dup	v2.8h,w8
	mul	v1.8h,v1.8h,v2.8h
	mul	v0.8h,v0.8h,v2.8h
	uzp2	v0.16b,v0.16b,v1.16b
	str	q0,[x2]
	ret
27:
	uzp1	v0.8b,v0.8b,v0.8b
	mov	w8,#4097
	dup	v1.2s,w8
	add	x8,x2,x3
	zip1	v0.4h,v0.4h,v0.4h
	mul	v0.2s,v0.2s,v1.2s
	movi	d1,#0x00ffff0000ffff
	and	v0.8b,v0.8b,v1.8b
	ushr	v0.2s,v0.2s,#8
	mov	s1,v0.s[1]
	str	b0,[x2]
	stur	b1,[x8,#-1]
	mov	w0,#1
	ret
28:
	mov	w8,#4097
	mov	w0,#1
	dup	v4.8h,w8
	add	x8,x2,x3
	mul	v3.8h,v3.8h,v4.8h
	mul	v2.8h,v2.8h,v4.8h
	mul	v0.8h,v0.8h,v4.8h
	mul	v1.8h,v1.8h,v4.8h
	uzp2	v2.16b,v2.16b,v3.16b
	uzp2	v0.16b,v0.16b,v1.16b
	str	q2,[x2]
	stur	q0,[x8,#-16]
	ret
29:
	mov	w8,#4097
	mov	w0,#1
	dup	v2.8h,w8
	add	x8,x2,x3
	mul	v0.8h,v0.8h,v2.8h
	mul	v1.8h,v1.8h,v2.8h
	shrn	v0.8b,v0.8h,#8
	shrn	v1.8b,v1.8h,#8
	str	d0,[x2]
	stur	d1,[x8,#-8]
	ret
30:
	bl	core_plain_decode_wide_outlined
	ldp	x29,x30,[sp,#48]
	ldp	d9,d8,[sp,#32]
	ldp	d11,d10,[sp,#16]
	add	sp,sp,#64
	ret
31:
	mov	w8,#4097
	mov	w0,#1
	dup	v1.4h,w8
	add	x8,x2,x3
	mul	v0.4h,v0.4h,v1.4h
	ushr	v0.4h,v0.4h,#8
	ushll	v0.4s,v0.4h,#0
	ext	v1.16b,v0.16b,v0.16b,#8
	mov	s2,v0.s[1]
	str	b0,[x2]
	mov	s3,v1.s[1]
	stur	b2,[x2,#1]
	stur	b1,[x8,#-2]
	stur	b3,[x8,#-1]
	ret
32:
	mov	w8,#4097
	mov	w0,#1
	dup	v16.8h,w8
	add	x8,x2,x3
	mul	v4.8h,v4.8h,v16.8h
	mul	v6.8h,v6.8h,v16.8h
	mul	v7.8h,v7.8h,v16.8h
	mul	v0.8h,v0.8h,v16.8h
	mul	v3.8h,v3.8h,v16.8h
	mul	v5.8h,v5.8h,v16.8h
	mul	v1.8h,v1.8h,v16.8h
	mul	v2.8h,v2.8h,v16.8h
	uzp2	v4.16b,v6.16b,v4.16b
	uzp2	v0.16b,v7.16b,v0.16b
	uzp2	v3.16b,v3.16b,v5.16b
	uzp2	v1.16b,v2.16b,v1.16b
	stp	q4,q0,[x2]
	stp	q1,q3,[x8,#-32]
	ret
33:
	mov	w8,#4097
	mov	w0,#1
	dup	v1.8h,w8
	add	x8,x2,x3
	mul	v0.8h,v0.8h,v1.8h
	ushr	v1.8h,v0.8h,#8
	shrn	v0.8b,v0.8h,#8
	dup	v1.2d,v1.d[1]
	str	s0,[x2]
	xtn	v1.8b,v1.8h
	stur	s1,[x8,#-4]
	ret
34:
	mov	w8,#4097
	mov	w0,#1
	dup	v20.8h,w8
	add	x8,x2,x3
	mul	v19.8h,v19.8h,v20.8h
	mul	v18.8h,v18.8h,v20.8h
	mul	v7.8h,v7.8h,v20.8h
	mul	v16.8h,v16.8h,v20.8h
	mul	v17.8h,v17.8h,v20.8h
	mul	v6.8h,v6.8h,v20.8h
	mul	v3.8h,v3.8h,v20.8h
	mul	v4.8h,v4.8h,v20.8h
	mul	v5.8h,v5.8h,v20.8h
	mul	v2.8h,v2.8h,v20.8h
	mul	v0.8h,v0.8h,v20.8h
	mul	v1.8h,v1.8h,v20.8h
	uzp2	v18.16b,v18.16b,v19.16b
	uzp2	v7.16b,v7.16b,v16.16b
	uzp2	v6.16b,v6.16b,v17.16b
	uzp2	v3.16b,v3.16b,v4.16b
	uzp2	v2.16b,v5.16b,v2.16b
	uzp2	v0.16b,v1.16b,v0.16b
	stp	q18,q7,[x2]
	stp	q6,q3,[x2,#32]
	stp	q0,q2,[x8,#-32]
	ldp	x29,x30,[sp,#48]
	ldp	d9,d8,[sp,#32]
	ldp	d11,d10,[sp,#16]
	add	sp,sp,#64
	ret
	hex_end	core_plain_decode_by_long_rows
	hex_function	core_plain_decode_wide_outlined,.text
	stp	x29,x30,[sp,#-16]!
	mov	w5,#2
	mov	x29,sp
	bl	core_plain_decode_many
	ldp	x29,x30,[sp],#16
	ret
	hex_end	core_plain_decode_wide_outlined
	hex_function	core_plain_decode_many,.text
	sub	sp,sp,#400
	cmp	x1,#256
	stp	d15,d14,[sp,#320]
	stp	d13,d12,[sp,#336]
	stp	d11,d10,[sp,#352]
	stp	d9,d8,[sp,#368]
	str	x30,[sp,#384]
	b.hi	4f
	and	x8,x4,#0xff
	movi	v16.16b,#63
	hex_page	x9,.Lstatic.21
	hex_address	x9,x9,.Lstatic.21
	ldp	q0,q2,[x0]
	add	x9,x9,x8,lsl #6
	ldp	q1,q27,[x0,#32]
	ldp	q19,q20,[x0,#96]
	ldp	q6,q7,[x9,#32]
	and	v23.16b,v0.16b,v16.16b
	ldp	q4,q5,[x9]
	and	v21.16b,v1.16b,v16.16b
	stp	q2,q0,[sp,#272]
	add	x9,x0,x1
	and	v22.16b,v2.16b,v16.16b
	ldp	q17,q18,[x0,#64]
	ldur	q30,[x9,#-128]
	tbl	v0.16b,{ v4.16b,v5.16b,v6.16b,v7.16b },v23.16b
	tbl	v23.16b,{ v4.16b,v5.16b,v6.16b,v7.16b },v21.16b
	and	v21.16b,v19.16b,v16.16b
	ldp	q31,q29,[x9,#-112]
	ldur	q15,[x9,#-16]
	ldp	q9,q11,[x9,#-80]
	str	q1,[sp,#304]
	ldp	q12,q14,[x9,#-48]
	and	v24.16b,v27.16b,v16.16b
	and	v25.16b,v18.16b,v16.16b
	and	v26.16b,v17.16b,v16.16b
	str	q0,[sp,#256]
	and	v28.16b,v20.16b,v16.16b
	tbl	v8.16b,{ v4.16b,v5.16b,v6.16b,v7.16b },v21.16b
	and	v21.16b,v29.16b,v16.16b
	and	v10.16b,v31.16b,v16.16b
	and	v13.16b,v30.16b,v16.16b
	and	v3.16b,v9.16b,v16.16b
	and	v2.16b,v12.16b,v16.16b
	and	v0.16b,v11.16b,v16.16b
	and	v1.16b,v15.16b,v16.16b
	and	v16.16b,v14.16b,v16.16b
	tbl	v22.16b,{ v4.16b,v5.16b,v6.16b,v7.16b },v22.16b
	tbl	v24.16b,{ v4.16b,v5.16b,v6.16b,v7.16b },v24.16b
	tbl	v26.16b,{ v4.16b,v5.16b,v6.16b,v7.16b },v26.16b
	tbl	v25.16b,{ v4.16b,v5.16b,v6.16b,v7.16b },v25.16b
	tbl	v28.16b,{ v4.16b,v5.16b,v6.16b,v7.16b },v28.16b
	tbl	v13.16b,{ v4.16b,v5.16b,v6.16b,v7.16b },v13.16b
	tbl	v10.16b,{ v4.16b,v5.16b,v6.16b,v7.16b },v10.16b
	tbl	v21.16b,{ v4.16b,v5.16b,v6.16b,v7.16b },v21.16b
	tbl	v3.16b,{ v4.16b,v5.16b,v6.16b,v7.16b },v3.16b
	tbl	v0.16b,{ v4.16b,v5.16b,v6.16b,v7.16b },v0.16b
	tbl	v2.16b,{ v4.16b,v5.16b,v6.16b,v7.16b },v2.16b
	tbl	v16.16b,{ v4.16b,v5.16b,v6.16b,v7.16b },v16.16b
	tbl	v5.16b,{ v4.16b,v5.16b,v6.16b,v7.16b },v1.16b
	ldr	q7,[sp,#256]
	ldp	q1,q4,[sp,#272]
	eor	v6.16b,v24.16b,v27.16b
	eor	v19.16b,v8.16b,v19.16b
	eor	v21.16b,v21.16b,v29.16b
	eor	v24.16b,v3.16b,v9.16b
	eor	v3.16b,v10.16b,v31.16b
	eor	v1.16b,v22.16b,v1.16b
	eor	v22.16b,v7.16b,v4.16b
	ldr	q4,[sp,#304]
	eor	v7.16b,v2.16b,v12.16b
	eor	v5.16b,v5.16b,v15.16b
	eor	v27.16b,v23.16b,v4.16b
	eor	v23.16b,v25.16b,v18.16b
	eor	v18.16b,v28.16b,v20.16b
	eor	v20.16b,v26.16b,v17.16b
	eor	v25.16b,v13.16b,v30.16b
	eor	v4.16b,v16.16b,v14.16b
	eor	v17.16b,v0.16b,v11.16b
	orr	v30.16b,v24.16b,v5.16b
	orr	v31.16b,v3.16b,v7.16b
	orr	v0.16b,v19.16b,v27.16b
	orr	v16.16b,v18.16b,v6.16b
	orr	v26.16b,v23.16b,v1.16b
	orr	v2.16b,v20.16b,v22.16b
	orr	v28.16b,v21.16b,v4.16b
	orr	v29.16b,v25.16b,v17.16b
	orr	v16.16b,v16.16b,v30.16b
	orr	v26.16b,v26.16b,v31.16b
	orr	v0.16b,v0.16b,v28.16b
	orr	v2.16b,v2.16b,v29.16b
	orr	v16.16b,v26.16b,v16.16b
	orr	v0.16b,v2.16b,v0.16b
	movi	v2.16b,#240
	orr	v0.16b,v0.16b,v16.16b
	and	v0.16b,v0.16b,v2.16b
	ext	v2.16b,v0.16b,v0.16b,#8
	orr	v0.8b,v0.8b,v2.8b
	fmov	x9,d0
	orr	x9,x9,x9,lsr #32
	lsr	x10,x9,#16
	orr	w9,w9,w10
	orr	w9,w9,w9,lsr #8
	tst	w9,#0xff
	b.ne	25f
	hex_page	x9,.Lstatic.22
	hex_address	x9,x9,.Lstatic.22
	add	x8,x9,x8,lsl #1
	ld1r	{ v0.8h },[x8]
	add	x8,x2,x3
	mul	v2.8h,v0.8h,v23.8h
	mul	v16.8h,v0.8h,v20.8h
	mul	v1.8h,v0.8h,v1.8h
	mul	v20.8h,v0.8h,v22.8h
	mul	v19.8h,v0.8h,v19.8h
	mul	v18.8h,v0.8h,v18.8h
	mul	v22.8h,v0.8h,v27.8h
	mul	v6.8h,v0.8h,v6.8h
	mul	v7.8h,v0.8h,v7.8h
	mul	v17.8h,v0.8h,v17.8h
	mul	v4.8h,v0.8h,v4.8h
	mul	v5.8h,v0.8h,v5.8h
	uzp2	v2.16b,v16.16b,v2.16b
	mul	v3.8h,v0.8h,v3.8h
	mul	v16.8h,v0.8h,v25.8h
	uzp2	v1.16b,v20.16b,v1.16b
	uzp2	v18.16b,v19.16b,v18.16b
	mul	v19.8h,v0.8h,v21.8h
	mul	v0.8h,v0.8h,v24.8h
	uzp2	v6.16b,v22.16b,v6.16b
	uzp2	v7.16b,v17.16b,v7.16b
	stp	q2,q18,[x2,#32]
	uzp2	v2.16b,v4.16b,v5.16b
	stp	q1,q6,[x2]
	uzp2	v1.16b,v16.16b,v3.16b
	uzp2	v0.16b,v19.16b,v0.16b
	stp	q7,q2,[x8,#-32]
	stp	q1,q0,[x8,#-64]
3:
	mov	w0,#1
	b	26f
4:
	cmp	x1,#384
	b.hi	9f
	and	w8,w5,#0xff
	cmp	w8,#2
	b.lo	14f
	hex_page	x9,.Lstatic.21
	hex_address	x9,x9,.Lstatic.21
	add	x10,x0,x1
	movi	v16.16b,#63
	and	x8,x4,#0xff
	ldp	q1,q0,[x10,#-128]
	add	x9,x9,x8,lsl #6
	ldp	q3,q2,[x10,#-96]
	ldp	q7,q6,[x10,#-64]
	ldp	q4,q21,[x10,#-32]
	and	v23.16b,v0.16b,v16.16b
	ldp	q19,q20,[x9,#32]
	and	v5.16b,v2.16b,v16.16b
	and	v22.16b,v3.16b,v16.16b
	ldp	q17,q18,[x9]
	and	v24.16b,v1.16b,v16.16b
	and	v25.16b,v4.16b,v16.16b
	and	v26.16b,v21.16b,v16.16b
	and	v27.16b,v6.16b,v16.16b
	and	v28.16b,v7.16b,v16.16b
	tbl	v23.16b,{ v17.16b,v18.16b,v19.16b,v20.16b },v23.16b
	tbl	v29.16b,{ v17.16b,v18.16b,v19.16b,v20.16b },v5.16b
	tbl	v22.16b,{ v17.16b,v18.16b,v19.16b,v20.16b },v22.16b
	tbl	v24.16b,{ v17.16b,v18.16b,v19.16b,v20.16b },v24.16b
	tbl	v25.16b,{ v17.16b,v18.16b,v19.16b,v20.16b },v25.16b
	tbl	v26.16b,{ v17.16b,v18.16b,v19.16b,v20.16b },v26.16b
	tbl	v28.16b,{ v17.16b,v18.16b,v19.16b,v20.16b },v28.16b
	tbl	v27.16b,{ v17.16b,v18.16b,v19.16b,v20.16b },v27.16b
	eor	v5.16b,v23.16b,v0.16b
	eor	v0.16b,v29.16b,v2.16b
	eor	v2.16b,v24.16b,v1.16b
	eor	v1.16b,v22.16b,v3.16b
	eor	v4.16b,v25.16b,v4.16b
	eor	v6.16b,v27.16b,v6.16b
	eor	v3.16b,v26.16b,v21.16b
	eor	v7.16b,v28.16b,v7.16b
	orr	v21.16b,v4.16b,v1.16b
	orr	v22.16b,v7.16b,v2.16b
	orr	v23.16b,v3.16b,v0.16b
	orr	v24.16b,v6.16b,v5.16b
	orr	v23.16b,v24.16b,v23.16b
	orr	v22.16b,v22.16b,v21.16b
	movi	v21.16b,#240
	orr	v22.16b,v22.16b,v23.16b
	and	v22.16b,v22.16b,v21.16b
	ext	v23.16b,v22.16b,v22.16b,#8
	orr	v22.8b,v22.8b,v23.8b
	fmov	x9,d22
	orr	x9,x9,x9,lsr #32
	lsr	x10,x9,#16
	orr	w9,w9,w10
	orr	w9,w9,w9,lsr #8
	tst	w9,#0xff
	b.ne	25f
	ldp	q26,q27,[x0,#64]
	stp	q7,q6,[sp,#112]
	ldp	q28,q29,[x0,#96]
	stp	q5,q4,[sp,#144]
	stp	q3,q2,[sp,#176]
	ldr	q15,[x0,#128]
	ldr	q12,[x0,#240]
	and	v10.16b,v26.16b,v16.16b
	and	v11.16b,v27.16b,v16.16b
	stp	q1,q0,[sp,#208]
	and	v13.16b,v29.16b,v16.16b
	and	v5.16b,v15.16b,v16.16b
	ldp	q0,q2,[x0]
	ldp	q1,q25,[x0,#32]
	tbl	v11.16b,{ v17.16b,v18.16b,v19.16b,v20.16b },v11.16b
	ldp	q22,q14,[x0,#144]
	tbl	v13.16b,{ v17.16b,v18.16b,v19.16b,v20.16b },v13.16b
	and	v31.16b,v0.16b,v16.16b
	stp	q2,q0,[sp,#288]
	and	v30.16b,v2.16b,v16.16b
	ldp	q21,q3,[x0,#176]
	and	v8.16b,v25.16b,v16.16b
	ldp	q4,q6,[x0,#208]
	and	v9.16b,v1.16b,v16.16b
	tbl	v0.16b,{ v17.16b,v18.16b,v19.16b,v20.16b },v31.16b
	and	v31.16b,v28.16b,v16.16b
	and	v23.16b,v22.16b,v16.16b
	and	v7.16b,v21.16b,v16.16b
	tbl	v8.16b,{ v17.16b,v18.16b,v19.16b,v20.16b },v8.16b
	tbl	v30.16b,{ v17.16b,v18.16b,v19.16b,v20.16b },v30.16b
	and	v2.16b,v4.16b,v16.16b
	tbl	v9.16b,{ v17.16b,v18.16b,v19.16b,v20.16b },v9.16b
	tbl	v5.16b,{ v17.16b,v18.16b,v19.16b,v20.16b },v5.16b
	tbl	v24.16b,{ v17.16b,v18.16b,v19.16b,v20.16b },v31.16b
	and	v31.16b,v14.16b,v16.16b
	tbl	v23.16b,{ v17.16b,v18.16b,v19.16b,v20.16b },v23.16b
	stp	q0,q1,[sp,#256]
	tbl	v0.16b,{ v17.16b,v18.16b,v19.16b,v20.16b },v10.16b
	and	v1.16b,v12.16b,v16.16b
	tbl	v7.16b,{ v17.16b,v18.16b,v19.16b,v20.16b },v7.16b
	tbl	v2.16b,{ v17.16b,v18.16b,v19.16b,v20.16b },v2.16b
	eor	v10.16b,v8.16b,v25.16b
	tbl	v31.16b,{ v17.16b,v18.16b,v19.16b,v20.16b },v31.16b
	eor	v22.16b,v23.16b,v22.16b
	str	q0,[sp,#240]
	and	v0.16b,v3.16b,v16.16b
	and	v16.16b,v6.16b,v16.16b
	eor	v23.16b,v2.16b,v4.16b
	tbl	v0.16b,{ v17.16b,v18.16b,v19.16b,v20.16b },v0.16b
	tbl	v16.16b,{ v17.16b,v18.16b,v19.16b,v20.16b },v16.16b
	tbl	v20.16b,{ v17.16b,v18.16b,v19.16b,v20.16b },v1.16b
	ldp	q1,q17,[sp,#288]
	ldr	q18,[sp,#256]
	eor	v19.16b,v5.16b,v15.16b
	eor	v5.16b,v7.16b,v21.16b
	orr	v21.16b,v22.16b,v23.16b
	eor	v8.16b,v18.16b,v17.16b
	ldr	q17,[sp,#272]
	eor	v1.16b,v30.16b,v1.16b
	eor	v18.16b,v16.16b,v6.16b
	eor	v20.16b,v20.16b,v12.16b
	eor	v25.16b,v0.16b,v3.16b
	eor	v30.16b,v9.16b,v17.16b
	ldr	q17,[sp,#240]
	eor	v9.16b,v11.16b,v27.16b
	eor	v27.16b,v13.16b,v29.16b
	eor	v29.16b,v17.16b,v26.16b
	eor	v26.16b,v24.16b,v28.16b
	eor	v17.16b,v31.16b,v14.16b
	orr	v4.16b,v9.16b,v1.16b
	orr	v7.16b,v19.16b,v25.16b
	orr	v16.16b,v5.16b,v20.16b
	orr	v3.16b,v27.16b,v10.16b
	orr	v0.16b,v26.16b,v30.16b
	orr	v2.16b,v29.16b,v8.16b
	orr	v6.16b,v17.16b,v18.16b
	orr	v4.16b,v4.16b,v21.16b
	orr	v3.16b,v3.16b,v16.16b
	orr	v0.16b,v0.16b,v6.16b
	orr	v2.16b,v2.16b,v7.16b
	orr	v3.16b,v4.16b,v3.16b
	orr	v0.16b,v2.16b,v0.16b
	movi	v2.16b,#240
	orr	v0.16b,v0.16b,v3.16b
	and	v0.16b,v0.16b,v2.16b
	ext	v2.16b,v0.16b,v0.16b,#8
	orr	v0.8b,v0.8b,v2.8b
	fmov	x9,d0
	orr	x9,x9,x9,lsr #32
	lsr	x10,x9,#16
	orr	w9,w9,w10
	orr	w9,w9,w9,lsr #8
	tst	w9,#0xff
	b.ne	25f
	hex_page	x9,.Lstatic.22
	hex_address	x9,x9,.Lstatic.22
	add	x8,x9,x8,lsl #1
	ld1r	{ v0.8h },[x8]
	add	x8,x2,x3
	mul	v1.8h,v0.8h,v1.8h
	mul	v4.8h,v0.8h,v8.8h
	mul	v16.8h,v0.8h,v30.8h
	mul	v21.8h,v0.8h,v10.8h
	mul	v2.8h,v0.8h,v9.8h
	mul	v3.8h,v0.8h,v29.8h
	mul	v6.8h,v0.8h,v26.8h
	mul	v7.8h,v0.8h,v27.8h
	mul	v17.8h,v0.8h,v17.8h
	mul	v5.8h,v0.8h,v5.8h
	mul	v22.8h,v0.8h,v22.8h
	mul	v19.8h,v0.8h,v19.8h
	uzp2	v1.16b,v4.16b,v1.16b
	mul	v4.8h,v0.8h,v18.8h
	mul	v18.8h,v0.8h,v20.8h
	uzp2	v16.16b,v16.16b,v21.16b
	uzp2	v2.16b,v3.16b,v2.16b
	ldr	q21,[sp,#112]
	uzp2	v6.16b,v6.16b,v7.16b
	ldp	q20,q7,[sp,#128]
	uzp2	v5.16b,v17.16b,v5.16b
	mul	v3.8h,v0.8h,v23.8h
	mul	v23.8h,v0.8h,v25.8h
	uzp2	v4.16b,v4.16b,v18.16b
	ldp	q17,q18,[sp,#208]
	stp	q1,q16,[x2]
	ldp	q1,q16,[sp,#176]
	stp	q2,q6,[x2,#32]
	ldr	q2,[sp,#160]
	mul	v7.8h,v0.8h,v7.8h
	mul	v20.8h,v0.8h,v20.8h
	mul	v21.8h,v0.8h,v21.8h
	mul	v17.8h,v0.8h,v17.8h
	mul	v2.8h,v0.8h,v2.8h
	mul	v1.8h,v0.8h,v1.8h
	mul	v16.8h,v0.8h,v16.8h
	mul	v0.8h,v0.8h,v18.8h
	uzp2	v3.16b,v23.16b,v3.16b
	uzp2	v6.16b,v19.16b,v22.16b
	uzp2	v18.16b,v21.16b,v20.16b
	uzp2	v1.16b,v2.16b,v1.16b
	uzp2	v2.16b,v16.16b,v7.16b
	uzp2	v0.16b,v17.16b,v0.16b
	stp	q6,q5,[x2,#64]
	stp	q3,q4,[x2,#96]
	stp	q18,q1,[x8,#-32]
	stp	q2,q0,[x8,#-64]
	b	3b
9:
	cmp	x1,#512
	b.hi	14f
	and	w8,w5,#0xff
	cmp	w8,#2
	b.lo	14f
	hex_page	x10,.Lstatic.21
	hex_address	x10,x10,.Lstatic.21
	and	x8,x4,#0xff
	add	x9,x0,x1
	movi	v28.16b,#63
	add	x10,x10,x8,lsl #6
	ldp	q0,q1,[x9,#-256]
	ldur	q10,[x9,#-16]
	ldp	q3,q2,[x9,#-224]
	ldp	q4,q5,[x9,#-192]
	ldp	q26,q27,[x10,#32]
	and	v17.16b,v1.16b,v28.16b
	and	v16.16b,v2.16b,v28.16b
	ldp	q24,q25,[x10]
	and	v19.16b,v0.16b,v28.16b
	and	v22.16b,v4.16b,v28.16b
	and	v18.16b,v3.16b,v28.16b
	stp	q5,q4,[sp,#272]
	ldp	q7,q9,[x9,#-160]
	tbl	v17.16b,{ v24.16b,v25.16b,v26.16b,v27.16b },v17.16b
	tbl	v16.16b,{ v24.16b,v25.16b,v26.16b,v27.16b },v16.16b
	and	v21.16b,v5.16b,v28.16b
	tbl	v19.16b,{ v24.16b,v25.16b,v26.16b,v27.16b },v19.16b
	tbl	v4.16b,{ v24.16b,v25.16b,v26.16b,v27.16b },v22.16b
	tbl	v18.16b,{ v24.16b,v25.16b,v26.16b,v27.16b },v18.16b
	ldp	q29,q30,[x9,#-128]
	and	v20.16b,v9.16b,v28.16b
	ldp	q31,q8,[x9,#-96]
	and	v23.16b,v7.16b,v28.16b
	eor	v1.16b,v17.16b,v1.16b
	eor	v5.16b,v16.16b,v2.16b
	tbl	v21.16b,{ v24.16b,v25.16b,v26.16b,v27.16b },v21.16b
	ldp	q17,q16,[x9,#-48]
	str	q4,[sp,#256]
	eor	v4.16b,v19.16b,v0.16b
	ldur	q19,[x9,#-64]
	eor	v6.16b,v18.16b,v3.16b
	str	q1,[sp,#304]
	and	v0.16b,v31.16b,v28.16b
	and	v1.16b,v29.16b,v28.16b
	and	v18.16b,v8.16b,v28.16b
	and	v22.16b,v30.16b,v28.16b
	and	v11.16b,v16.16b,v28.16b
	and	v12.16b,v10.16b,v28.16b
	and	v13.16b,v17.16b,v28.16b
	and	v14.16b,v19.16b,v28.16b
	tbl	v20.16b,{ v24.16b,v25.16b,v26.16b,v27.16b },v20.16b
	ldr	q3,[sp,#272]
	tbl	v15.16b,{ v24.16b,v25.16b,v26.16b,v27.16b },v23.16b
	tbl	v1.16b,{ v24.16b,v25.16b,v26.16b,v27.16b },v1.16b
	tbl	v0.16b,{ v24.16b,v25.16b,v26.16b,v27.16b },v0.16b
	tbl	v2.16b,{ v24.16b,v25.16b,v26.16b,v27.16b },v22.16b
	tbl	v18.16b,{ v24.16b,v25.16b,v26.16b,v27.16b },v18.16b
	tbl	v11.16b,{ v24.16b,v25.16b,v26.16b,v27.16b },v11.16b
	tbl	v14.16b,{ v24.16b,v25.16b,v26.16b,v27.16b },v14.16b
	tbl	v13.16b,{ v24.16b,v25.16b,v26.16b,v27.16b },v13.16b
	tbl	v12.16b,{ v24.16b,v25.16b,v26.16b,v27.16b },v12.16b
	eor	v3.16b,v21.16b,v3.16b
	eor	v23.16b,v20.16b,v9.16b
	ldr	q20,[sp,#288]
	ldr	q21,[sp,#256]
	eor	v15.16b,v15.16b,v7.16b
	eor	v7.16b,v0.16b,v31.16b
	eor	v9.16b,v21.16b,v20.16b
	eor	v20.16b,v1.16b,v29.16b
	eor	v18.16b,v18.16b,v8.16b
	eor	v21.16b,v2.16b,v30.16b
	eor	v16.16b,v11.16b,v16.16b
	eor	v22.16b,v13.16b,v17.16b
	eor	v17.16b,v12.16b,v10.16b
	mov	v10.16b,v3.16b
	eor	v19.16b,v14.16b,v19.16b
	ldr	q29,[sp,#304]
	mov	v3.16b,v9.16b
	orr	v0.16b,v15.16b,v6.16b
	orr	v1.16b,v9.16b,v4.16b
	orr	v2.16b,v23.16b,v5.16b
	orr	v30.16b,v7.16b,v16.16b
	orr	v29.16b,v10.16b,v29.16b
	orr	v31.16b,v20.16b,v19.16b
	orr	v8.16b,v18.16b,v17.16b
	orr	v9.16b,v21.16b,v22.16b
	orr	v0.16b,v0.16b,v30.16b
	orr	v1.16b,v1.16b,v31.16b
	orr	v2.16b,v2.16b,v8.16b
	orr	v29.16b,v29.16b,v9.16b
	orr	v0.16b,v1.16b,v0.16b
	movi	v1.16b,#240
	orr	v2.16b,v29.16b,v2.16b
	orr	v0.16b,v0.16b,v2.16b
	and	v0.16b,v0.16b,v1.16b
	ext	v1.16b,v0.16b,v0.16b,#8
	orr	v0.8b,v0.8b,v1.8b
	fmov	x9,d0
	orr	x9,x9,x9,lsr #32
	lsr	x10,x9,#16
	orr	w9,w9,w10
	orr	w9,w9,w9,lsr #8
	tst	w9,#0xff
	b.ne	25f
	ldp	q30,q8,[x0]
	stp	q3,q10,[sp]
	ldp	q31,q9,[x0,#32]
	stp	q15,q23,[sp,#32]
	stp	q19,q22,[sp,#64]
	ldr	q23,[x0,#240]
	and	v0.16b,v8.16b,v28.16b
	and	v1.16b,v30.16b,v28.16b
	stp	q17,q16,[sp,#96]
	and	v14.16b,v31.16b,v28.16b
	ldp	q10,q11,[x0,#64]
	stp	q21,q20,[sp,#128]
	and	v2.16b,v9.16b,v28.16b
	tbl	v0.16b,{ v24.16b,v25.16b,v26.16b,v27.16b },v0.16b
	tbl	v1.16b,{ v24.16b,v25.16b,v26.16b,v27.16b },v1.16b
	stp	q18,q7,[sp,#160]
	and	v15.16b,v10.16b,v28.16b
	ldp	q12,q13,[x0,#96]
	and	v3.16b,v11.16b,v28.16b
	ldp	q16,q29,[x0,#144]
	ldp	q17,q19,[x0,#176]
	ldr	q7,[x0,#128]
	ldp	q20,q22,[x0,#208]
	stp	q6,q5,[sp,#192]
	stp	q4,q0,[sp,#224]
	tbl	v0.16b,{ v24.16b,v25.16b,v26.16b,v27.16b },v14.16b
	tbl	v14.16b,{ v24.16b,v25.16b,v26.16b,v27.16b },v2.16b
	and	v4.16b,v12.16b,v28.16b
	and	v5.16b,v13.16b,v28.16b
	tbl	v6.16b,{ v24.16b,v25.16b,v26.16b,v27.16b },v3.16b
	and	v18.16b,v16.16b,v28.16b
	and	v21.16b,v7.16b,v28.16b
	and	v3.16b,v17.16b,v28.16b
	and	v2.16b,v20.16b,v28.16b
	stp	q0,q1,[sp,#272]
	tbl	v0.16b,{ v24.16b,v25.16b,v26.16b,v27.16b },v15.16b
	and	v15.16b,v29.16b,v28.16b
	and	v1.16b,v23.16b,v28.16b
	tbl	v4.16b,{ v24.16b,v25.16b,v26.16b,v27.16b },v4.16b
	tbl	v5.16b,{ v24.16b,v25.16b,v26.16b,v27.16b },v5.16b
	tbl	v21.16b,{ v24.16b,v25.16b,v26.16b,v27.16b },v21.16b
	tbl	v18.16b,{ v24.16b,v25.16b,v26.16b,v27.16b },v18.16b
	tbl	v3.16b,{ v24.16b,v25.16b,v26.16b,v27.16b },v3.16b
	tbl	v15.16b,{ v24.16b,v25.16b,v26.16b,v27.16b },v15.16b
	tbl	v2.16b,{ v24.16b,v25.16b,v26.16b,v27.16b },v2.16b
	str	q0,[sp,#256]
	and	v0.16b,v19.16b,v28.16b
	and	v28.16b,v22.16b,v28.16b
	eor	v12.16b,v4.16b,v12.16b
	eor	v3.16b,v3.16b,v17.16b
	tbl	v0.16b,{ v24.16b,v25.16b,v26.16b,v27.16b },v0.16b
	tbl	v28.16b,{ v24.16b,v25.16b,v26.16b,v27.16b },v28.16b
	tbl	v24.16b,{ v24.16b,v25.16b,v26.16b,v27.16b },v1.16b
	ldr	q1,[sp,#240]
	eor	v4.16b,v15.16b,v29.16b
	eor	v27.16b,v21.16b,v7.16b
	eor	v26.16b,v1.16b,v8.16b
	ldr	q1,[sp,#288]
	eor	v8.16b,v14.16b,v9.16b
	eor	v9.16b,v2.16b,v20.16b
	eor	v25.16b,v1.16b,v30.16b
	ldr	q1,[sp,#272]
	eor	v30.16b,v28.16b,v22.16b
	eor	v14.16b,v1.16b,v31.16b
	eor	v1.16b,v6.16b,v11.16b
	eor	v11.16b,v5.16b,v13.16b
	ldr	q5,[sp,#256]
	eor	v31.16b,v24.16b,v23.16b
	eor	v13.16b,v5.16b,v10.16b
	eor	v5.16b,v18.16b,v16.16b
	eor	v10.16b,v0.16b,v19.16b
	orr	v0.16b,v12.16b,v14.16b
	orr	v6.16b,v11.16b,v8.16b
	orr	v7.16b,v1.16b,v26.16b
	orr	v16.16b,v4.16b,v30.16b
	orr	v18.16b,v3.16b,v31.16b
	orr	v2.16b,v13.16b,v25.16b
	orr	v17.16b,v27.16b,v10.16b
	orr	v19.16b,v5.16b,v9.16b
	orr	v0.16b,v0.16b,v16.16b
	orr	v6.16b,v6.16b,v18.16b
	orr	v2.16b,v2.16b,v17.16b
	orr	v7.16b,v7.16b,v19.16b
	orr	v6.16b,v7.16b,v6.16b
	orr	v0.16b,v2.16b,v0.16b
	movi	v2.16b,#240
	orr	v0.16b,v0.16b,v6.16b
	and	v0.16b,v0.16b,v2.16b
	ext	v2.16b,v0.16b,v0.16b,#8
	orr	v0.8b,v0.8b,v2.8b
	fmov	x9,d0
	orr	x9,x9,x9,lsr #32
	lsr	x10,x9,#16
	orr	w9,w9,w10
	orr	w9,w9,w9,lsr #8
	tst	w9,#0xff
	b.ne	25f
	hex_page	x9,.Lstatic.22
	hex_address	x9,x9,.Lstatic.22
	add	x8,x9,x8,lsl #1
	ld1r	{ v24.8h },[x8]
	add	x8,x2,x3
	mul	v0.8h,v24.8h,v1.8h
	mul	v1.8h,v24.8h,v13.8h
	mul	v7.8h,v24.8h,v12.8h
	mul	v16.8h,v24.8h,v11.8h
	mul	v2.8h,v24.8h,v26.8h
	mul	v6.8h,v24.8h,v25.8h
	mul	v19.8h,v24.8h,v10.8h
	mul	v20.8h,v24.8h,v30.8h
	mul	v21.8h,v24.8h,v31.8h
	mul	v17.8h,v24.8h,v14.8h
	mul	v18.8h,v24.8h,v8.8h
	mul	v5.8h,v24.8h,v5.8h
	uzp2	v0.16b,v1.16b,v0.16b
	mul	v1.8h,v24.8h,v9.8h
	mul	v4.8h,v24.8h,v4.8h
	uzp2	v7.16b,v7.16b,v16.16b
	uzp2	v2.16b,v6.16b,v2.16b
	mul	v6.8h,v24.8h,v27.8h
	mul	v3.8h,v24.8h,v3.8h
	uzp2	v16.16b,v17.16b,v18.16b
	uzp2	v1.16b,v19.16b,v1.16b
	ldp	q19,q18,[sp,#160]
	stp	q0,q7,[x2,#32]
	uzp2	v0.16b,v20.16b,v21.16b
	uzp2	v5.16b,v6.16b,v5.16b
	ldp	q6,q17,[sp,#208]
	uzp2	v3.16b,v4.16b,v3.16b
	ldp	q7,q4,[sp]
	stp	q2,q16,[x2]
	ldr	q2,[sp,#192]
	ldr	q16,[sp,#304]
	mul	v18.8h,v24.8h,v18.8h
	stp	q1,q0,[x2,#96]
	ldp	q0,q1,[sp,#32]
	mul	v2.8h,v24.8h,v2.8h
	mul	v6.8h,v24.8h,v6.8h
	mul	v4.8h,v24.8h,v4.8h
	mul	v7.8h,v24.8h,v7.8h
	mul	v16.8h,v24.8h,v16.8h
	mul	v17.8h,v24.8h,v17.8h
	mul	v0.8h,v24.8h,v0.8h
	mul	v1.8h,v24.8h,v1.8h
	stp	q5,q3,[x2,#64]
	mul	v19.8h,v24.8h,v19.8h
	uzp2	v2.16b,v2.16b,v6.16b
	uzp2	v3.16b,v7.16b,v4.16b
	ldp	q5,q4,[sp,#64]
	uzp2	v0.16b,v0.16b,v1.16b
	ldp	q6,q1,[sp,#96]
	uzp2	v7.16b,v17.16b,v16.16b
	ldp	q16,q17,[sp,#128]
	mul	v4.8h,v24.8h,v4.8h
	mul	v5.8h,v24.8h,v5.8h
	mul	v1.8h,v24.8h,v1.8h
	mul	v6.8h,v24.8h,v6.8h
	mul	v16.8h,v24.8h,v16.8h
	mul	v17.8h,v24.8h,v17.8h
	stp	q3,q0,[x8,#-96]
	stp	q7,q2,[x8,#-128]
	uzp2	v2.16b,v18.16b,v19.16b
	uzp2	v4.16b,v5.16b,v4.16b
	uzp2	v0.16b,v1.16b,v6.16b
	uzp2	v1.16b,v17.16b,v16.16b
	stp	q4,q0,[x8,#-32]
	stp	q1,q2,[x8,#-64]
	b	3b
14:
	sub	x9,x1,#64
	lsr	x8,x9,#9
	cbz	x8,20f
	mov	w11,w4
	hex_page	x12,.Lstatic.21
	hex_address	x12,x12,.Lstatic.21
	and	x11,x11,#0xff
	mov	x10,xzr
	add	x11,x12,x11,lsl #6
	ldp	q0,q1,[x11]
	ldp	q2,q3,[x11,#32]
	mov	x11,x0
16:
	movi	v4.2d,#0000000000000000
	movi	v5.2d,#0000000000000000
	mov	x12,xzr
	movi	v6.2d,#0000000000000000
	movi	v7.2d,#0000000000000000
17:
	movi	v16.16b,#63
	add	x13,x11,x12
	add	x12,x12,#64
	ldp	q17,q18,[x13,#32]
	cmp	x12,#512
	ldp	q19,q20,[x13]
	and	v21.16b,v18.16b,v16.16b
	and	v22.16b,v17.16b,v16.16b
	and	v23.16b,v20.16b,v16.16b
	and	v16.16b,v19.16b,v16.16b
	tbl	v22.16b,{ v0.16b,v1.16b,v2.16b,v3.16b },v22.16b
	tbl	v21.16b,{ v0.16b,v1.16b,v2.16b,v3.16b },v21.16b
	tbl	v16.16b,{ v0.16b,v1.16b,v2.16b,v3.16b },v16.16b
	tbl	v23.16b,{ v0.16b,v1.16b,v2.16b,v3.16b },v23.16b
	eor	v17.16b,v22.16b,v17.16b
	eor	v18.16b,v21.16b,v18.16b
	eor	v16.16b,v16.16b,v19.16b
	eor	v19.16b,v23.16b,v20.16b
	orr	v7.16b,v18.16b,v7.16b
	orr	v6.16b,v17.16b,v6.16b
	orr	v4.16b,v19.16b,v4.16b
	orr	v5.16b,v16.16b,v5.16b
	b.ne	17b
	orr	v5.16b,v5.16b,v6.16b
	orr	v4.16b,v4.16b,v7.16b
	movi	v6.16b,#240
	orr	v4.16b,v5.16b,v4.16b
	and	v4.16b,v4.16b,v6.16b
	ext	v5.16b,v4.16b,v4.16b,#8
	orr	v4.8b,v4.8b,v5.8b
	fmov	x12,d4
	orr	x12,x12,x12,lsr #32
	lsr	x13,x12,#16
	orr	w12,w12,w13
	orr	w12,w12,w12,lsr #8
	tst	w12,#0xff
	b.ne	25f
	add	x10,x10,#1
	add	x11,x11,#512
	cmp	x10,x8
	b.ne	16b
20:
	ubfx	x8,x9,#6,#3
	tst	x1,#0x3f
	cinc	x11,x8,ne
	cbz	x11,23f
	and	x8,x4,#0xff
	hex_page	x12,.Lstatic.21
	hex_address	x12,x12,.Lstatic.21
	lsl	x10,x8,#6
	movi	v0.2d,#0000000000000000
	movi	v1.2d,#0000000000000000
	movi	v2.2d,#0000000000000000
	movi	v3.2d,#0000000000000000
	and	x13,x9,#0xfffffffffffffe00
	add	x12,x12,x10
	ldp	q4,q5,[x12]
	ldp	q6,q7,[x12,#32]
	add	x12,x0,x13
22:
	movi	v16.16b,#63
	ldp	q18,q17,[x12,#32]
	ldp	q19,q20,[x12],#64
	subs	x11,x11,#1
	and	v21.16b,v17.16b,v16.16b
	and	v22.16b,v18.16b,v16.16b
	and	v23.16b,v20.16b,v16.16b
	and	v16.16b,v19.16b,v16.16b
	tbl	v21.16b,{ v4.16b,v5.16b,v6.16b,v7.16b },v21.16b
	tbl	v23.16b,{ v4.16b,v5.16b,v6.16b,v7.16b },v23.16b
	tbl	v22.16b,{ v4.16b,v5.16b,v6.16b,v7.16b },v22.16b
	tbl	v16.16b,{ v4.16b,v5.16b,v6.16b,v7.16b },v16.16b
	eor	v17.16b,v21.16b,v17.16b
	eor	v18.16b,v22.16b,v18.16b
	eor	v16.16b,v16.16b,v19.16b
	eor	v19.16b,v23.16b,v20.16b
	orr	v3.16b,v17.16b,v3.16b
	orr	v2.16b,v18.16b,v2.16b
	orr	v1.16b,v19.16b,v1.16b
	orr	v0.16b,v16.16b,v0.16b
	b.ne	22b
	b	24f
23:
	and	x8,x4,#0xff
	movi	v0.2d,#0000000000000000
	movi	v1.2d,#0000000000000000
	movi	v2.2d,#0000000000000000
	movi	v3.2d,#0000000000000000
	lsl	x10,x8,#6
24:
	movi	v4.16b,#63
	add	x9,x0,x9
	hex_page	x11,.Lstatic.21
	hex_address	x11,x11,.Lstatic.21
	ldp	q7,q5,[x9,#16]
	add	x10,x11,x10
	ldr	q6,[x9]
	ldr	q20,[x9,#48]
	ldp	q18,q19,[x10,#32]
	ldp	q16,q17,[x10]
	and	v21.16b,v5.16b,v4.16b
	and	v22.16b,v20.16b,v4.16b
	and	v23.16b,v7.16b,v4.16b
	and	v4.16b,v6.16b,v4.16b
	tbl	v21.16b,{ v16.16b,v17.16b,v18.16b,v19.16b },v21.16b
	tbl	v4.16b,{ v16.16b,v17.16b,v18.16b,v19.16b },v4.16b
	tbl	v23.16b,{ v16.16b,v17.16b,v18.16b,v19.16b },v23.16b
	tbl	v16.16b,{ v16.16b,v17.16b,v18.16b,v19.16b },v22.16b
	eor	v5.16b,v21.16b,v5.16b
	eor	v7.16b,v23.16b,v7.16b
	eor	v16.16b,v16.16b,v20.16b
	eor	v4.16b,v4.16b,v6.16b
	orr	v2.16b,v5.16b,v2.16b
	orr	v0.16b,v4.16b,v0.16b
	orr	v3.16b,v16.16b,v3.16b
	orr	v1.16b,v7.16b,v1.16b
	orr	v1.16b,v1.16b,v3.16b
	orr	v0.16b,v0.16b,v2.16b
	movi	v2.16b,#240
	orr	v0.16b,v0.16b,v1.16b
	and	v0.16b,v0.16b,v2.16b
	ext	v1.16b,v0.16b,v0.16b,#8
	orr	v0.8b,v0.8b,v1.8b
	fmov	x9,d0
	orr	x9,x9,x9,lsr #32
	lsr	x10,x9,#16
	orr	w9,w9,w10
	orr	w9,w9,w9,lsr #8
	tst	w9,#0xff
	b.eq	27f
25:
	mov	w0,wzr
26:
	ldp	d9,d8,[sp,#368]
	ldr	x30,[sp,#384]
	ldp	d11,d10,[sp,#352]
	ldp	d13,d12,[sp,#336]
	ldp	d15,d14,[sp,#320]
	add	sp,sp,#400
	ret
27:
	lsr	x10,x3,#6
	hex_page	x9,.Lstatic.23
	hex_address	x9,x9,.Lstatic.23
	cbz	x10,30f
	ldp	q0,q1,[x9]
	hex_page	x11,.Lstatic.22
	hex_address	x11,x11,.Lstatic.22
	ldp	q2,q3,[x9,#32]
	ldr	h4,[x11,x8,lsl #1]
	add	x11,x0,#64
	mov	x12,x2
29:
	movi	v5.16b,#63
	ldp	q6,q7,[x11]
	ldp	q16,q17,[x11,#-64]
	subs	x10,x10,#1
	ldp	q18,q19,[x11,#32]
	ldp	q21,q20,[x11,#-32]
	add	x11,x11,#128
	and	v7.16b,v7.16b,v5.16b
	and	v6.16b,v6.16b,v5.16b
	and	v17.16b,v17.16b,v5.16b
	and	v19.16b,v19.16b,v5.16b
	and	v18.16b,v18.16b,v5.16b
	and	v16.16b,v16.16b,v5.16b
	and	v20.16b,v20.16b,v5.16b
	and	v5.16b,v21.16b,v5.16b
	tbl	v6.16b,{ v0.16b,v1.16b,v2.16b,v3.16b },v6.16b
	tbl	v7.16b,{ v0.16b,v1.16b,v2.16b,v3.16b },v7.16b
	tbl	v17.16b,{ v0.16b,v1.16b,v2.16b,v3.16b },v17.16b
	tbl	v18.16b,{ v0.16b,v1.16b,v2.16b,v3.16b },v18.16b
	tbl	v19.16b,{ v0.16b,v1.16b,v2.16b,v3.16b },v19.16b
	tbl	v16.16b,{ v0.16b,v1.16b,v2.16b,v3.16b },v16.16b
	tbl	v5.16b,{ v0.16b,v1.16b,v2.16b,v3.16b },v5.16b
	tbl	v20.16b,{ v0.16b,v1.16b,v2.16b,v3.16b },v20.16b
	mul	v7.8h,v7.8h,v4.h[0]
	mul	v6.8h,v6.8h,v4.h[0]
	mul	v17.8h,v17.8h,v4.h[0]
	mul	v19.8h,v19.8h,v4.h[0]
	mul	v18.8h,v18.8h,v4.h[0]
	mul	v16.8h,v16.8h,v4.h[0]
	mul	v20.8h,v20.8h,v4.h[0]
	mul	v5.8h,v5.8h,v4.h[0]
	uzp2	v6.16b,v6.16b,v7.16b
	uzp2	v7.16b,v18.16b,v19.16b
	uzp2	v16.16b,v16.16b,v17.16b
	uzp2	v5.16b,v5.16b,v20.16b
	stp	q6,q7,[x12,#32]
	stp	q16,q5,[x12],#64
	b.ne	29b
30:
	and	x10,x3,#0x3f
	cmp	x10,#33
	b.lo	32f
	sub	x10,x3,#64
	movi	v4.16b,#63
	add	x11,x0,x10,lsl #1
	ldp	q2,q3,[x9,#32]
	ldp	q0,q1,[x9]
	hex_page	x9,.Lstatic.22
	hex_address	x9,x9,.Lstatic.22
	ldp	q5,q6,[x11,#32]
	ldp	q7,q16,[x11,#64]
	add	x8,x9,x8,lsl #1
	ldp	q17,q18,[x11,#96]
	ldp	q19,q20,[x11]
	and	v6.16b,v6.16b,v4.16b
	and	v16.16b,v16.16b,v4.16b
	and	v7.16b,v7.16b,v4.16b
	and	v18.16b,v18.16b,v4.16b
	and	v17.16b,v17.16b,v4.16b
	and	v20.16b,v20.16b,v4.16b
	and	v19.16b,v19.16b,v4.16b
	and	v4.16b,v5.16b,v4.16b
	tbl	v5.16b,{ v0.16b,v1.16b,v2.16b,v3.16b },v7.16b
	tbl	v7.16b,{ v0.16b,v1.16b,v2.16b,v3.16b },v16.16b
	tbl	v16.16b,{ v0.16b,v1.16b,v2.16b,v3.16b },v17.16b
	tbl	v17.16b,{ v0.16b,v1.16b,v2.16b,v3.16b },v18.16b
	ld1r	{ v18.8h },[x8]
	tbl	v19.16b,{ v0.16b,v1.16b,v2.16b,v3.16b },v19.16b
	tbl	v20.16b,{ v0.16b,v1.16b,v2.16b,v3.16b },v20.16b
	tbl	v4.16b,{ v0.16b,v1.16b,v2.16b,v3.16b },v4.16b
	tbl	v0.16b,{ v0.16b,v1.16b,v2.16b,v3.16b },v6.16b
	add	x8,x2,x10
	mul	v1.8h,v18.8h,v7.8h
	mul	v2.8h,v18.8h,v5.8h
	mul	v3.8h,v18.8h,v17.8h
	mul	v5.8h,v18.8h,v16.8h
	mul	v6.8h,v18.8h,v20.8h
	mul	v7.8h,v18.8h,v19.8h
	mul	v4.8h,v18.8h,v4.8h
	mul	v0.8h,v18.8h,v0.8h
	uzp2	v1.16b,v2.16b,v1.16b
	uzp2	v2.16b,v5.16b,v3.16b
	uzp2	v3.16b,v7.16b,v6.16b
	uzp2	v0.16b,v4.16b,v0.16b
	stp	q1,q2,[x8,#32]
	stp	q3,q0,[x8]
	b	3b
32:
	cbz	x10,3b
	sub	x8,x3,#32
	movi	v0.16b,#63
	add	x10,x0,x8,lsl #1
	ldp	q3,q4,[x9,#32]
	ldp	q1,q2,[x9]
	mov	w9,#4097
	ldp	q5,q6,[x10,#32]
	add	x8,x2,x8
	ldp	q7,q16,[x10]
	and	v6.16b,v6.16b,v0.16b
	and	v5.16b,v5.16b,v0.16b
	and	v16.16b,v16.16b,v0.16b
	and	v0.16b,v7.16b,v0.16b
	dup	v7.8h,w9
	tbl	v5.16b,{ v1.16b,v2.16b,v3.16b,v4.16b },v5.16b
	tbl	v6.16b,{ v1.16b,v2.16b,v3.16b,v4.16b },v6.16b
	tbl	v0.16b,{ v1.16b,v2.16b,v3.16b,v4.16b },v0.16b
	tbl	v1.16b,{ v1.16b,v2.16b,v3.16b,v4.16b },v16.16b
	mul	v2.8h,v6.8h,v7.8h
	mul	v3.8h,v5.8h,v7.8h
	mul	v1.8h,v1.8h,v7.8h
	mul	v0.8h,v0.8h,v7.8h
	uzp2	v2.16b,v3.16b,v2.16b
	uzp2	v0.16b,v0.16b,v1.16b
	stp	q0,q2,[x8]
	b	3b
	hex_end	core_plain_decode_many
	hex_function	core_plain_decode_many_,.text
	sub	sp,sp,#464
	cmp	x1,#256
	stp	d15,d14,[sp,#384]
	stp	d13,d12,[sp,#400]
	stp	d11,d10,[sp,#416]
	stp	d9,d8,[sp,#432]
	str	x30,[sp,#448]
	b.hi	6f
	movi	v3.16b,#55
	ldp	q19,q1,[x0,#64]
	movi	v7.16b,#143
	ldp	q0,q5,[x0]
	ldp	q18,q6,[x0,#96]
	hex_page	x9,.Lstatic.19
	hex_address	x9,x9,.Lstatic.19
	ldp	q2,q4,[x0,#32]
	uqsub	v28.16b,v1.16b,v3.16b
	uqsub	v24.16b,v5.16b,v3.16b
	and	x8,x4,#0xff
	uqsub	v29.16b,v6.16b,v3.16b
	ldr	q16,[x9,x8,lsl #4]
	hex_page	x9,.Lstatic.20
	hex_address	x9,x9,.Lstatic.20
	uqsub	v22.16b,v4.16b,v3.16b
	uqsub	v26.16b,v0.16b,v3.16b
	add	x10,x9,x8
	uqsub	v25.16b,v2.16b,v3.16b
	uqsub	v27.16b,v19.16b,v3.16b
	and	v31.16b,v28.16b,v7.16b
	and	v20.16b,v24.16b,v7.16b
	ld1r	{ v17.16b },[x10]
	and	v10.16b,v29.16b,v7.16b
	add	x9,x0,x1
	str	q19,[sp,#304]
	and	v21.16b,v22.16b,v7.16b
	and	v23.16b,v26.16b,v7.16b
	str	q18,[sp,#336]
	tbl	v31.16b,{ v16.16b },v31.16b
	tbl	v8.16b,{ v16.16b },v20.16b
	eor	v13.16b,v0.16b,v17.16b
	tbl	v10.16b,{ v16.16b },v10.16b
	eor	v5.16b,v5.16b,v17.16b
	and	v30.16b,v25.16b,v7.16b
	tbl	v9.16b,{ v16.16b },v21.16b
	tbl	v11.16b,{ v16.16b },v23.16b
	eor	v2.16b,v2.16b,v17.16b
	ldp	q20,q19,[x9,#-128]
	uqsub	v23.16b,v18.16b,v3.16b
	uqsub	v0.16b,v31.16b,v28.16b
	uqsub	v24.16b,v8.16b,v24.16b
	tbl	v30.16b,{ v16.16b },v30.16b
	and	v12.16b,v27.16b,v7.16b
	eor	v21.16b,v6.16b,v17.16b
	uqsub	v8.16b,v9.16b,v22.16b
	eor	v9.16b,v4.16b,v17.16b
	uqsub	v11.16b,v11.16b,v26.16b
	uqsub	v31.16b,v20.16b,v3.16b
	mov	v22.16b,v19.16b
	and	v14.16b,v23.16b,v7.16b
	str	q0,[sp,#272]
	uqsub	v0.16b,v10.16b,v29.16b
	uqsub	v30.16b,v30.16b,v25.16b
	tbl	v12.16b,{ v16.16b },v12.16b
	mov	v25.16b,v20.16b
	eor	v20.16b,v1.16b,v17.16b
	eor	v22.16b,v17.16b,v22.16b
	str	q0,[sp,#256]
	eor	v0.16b,v24.16b,v5.16b
	ldp	q26,q24,[x9,#-96]
	uqsub	v27.16b,v12.16b,v27.16b
	tbl	v12.16b,{ v16.16b },v14.16b
	and	v14.16b,v31.16b,v7.16b
	str	q0,[sp,#320]
	eor	v0.16b,v8.16b,v9.16b
	ldp	q8,q9,[x9,#-32]
	uqsub	v28.16b,v26.16b,v3.16b
	uqsub	v10.16b,v24.16b,v3.16b
	tbl	v14.16b,{ v16.16b },v14.16b
	str	q0,[sp,#368]
	eor	v0.16b,v11.16b,v13.16b
	uqsub	v11.16b,v19.16b,v3.16b
	uqsub	v15.16b,v9.16b,v3.16b
	uqsub	v19.16b,v8.16b,v3.16b
	uqsub	v23.16b,v12.16b,v23.16b
	and	v6.16b,v28.16b,v7.16b
	str	q0,[sp,#288]
	eor	v0.16b,v30.16b,v2.16b
	and	v5.16b,v10.16b,v7.16b
	ldp	q29,q30,[x9,#-64]
	and	v4.16b,v11.16b,v7.16b
	tbl	v6.16b,{ v16.16b },v6.16b
	str	q0,[sp,#352]
	and	v0.16b,v19.16b,v7.16b
	tbl	v5.16b,{ v16.16b },v5.16b
	uqsub	v13.16b,v30.16b,v3.16b
	uqsub	v18.16b,v29.16b,v3.16b
	tbl	v4.16b,{ v16.16b },v4.16b
	ldr	q3,[sp,#304]
	eor	v29.16b,v17.16b,v29.16b
	tbl	v0.16b,{ v16.16b },v0.16b
	eor	v3.16b,v3.16b,v17.16b
	uqsub	v5.16b,v5.16b,v10.16b
	and	v2.16b,v13.16b,v7.16b
	and	v1.16b,v18.16b,v7.16b
	and	v7.16b,v15.16b,v7.16b
	uqsub	v4.16b,v4.16b,v11.16b
	uqsub	v0.16b,v0.16b,v19.16b
	eor	v19.16b,v17.16b,v26.16b
	tbl	v2.16b,{ v16.16b },v2.16b
	tbl	v1.16b,{ v16.16b },v1.16b
	tbl	v7.16b,{ v16.16b },v7.16b
	ldr	q16,[sp,#272]
	eor	v12.16b,v20.16b,v16.16b
	ldr	q16,[sp,#256]
	eor	v20.16b,v17.16b,v25.16b
	uqsub	v1.16b,v1.16b,v18.16b
	ldr	q18,[sp,#336]
	uqsub	v2.16b,v2.16b,v13.16b
	eor	v21.16b,v21.16b,v16.16b
	eor	v16.16b,v3.16b,v27.16b
	uqsub	v3.16b,v6.16b,v28.16b
	uqsub	v6.16b,v14.16b,v31.16b
	uqsub	v7.16b,v7.16b,v15.16b
	eor	v18.16b,v18.16b,v17.16b
	eor	v27.16b,v17.16b,v30.16b
	eor	v28.16b,v17.16b,v9.16b
	ldr	q31,[sp,#288]
	mov	v25.16b,v21.16b
	eor	v21.16b,v17.16b,v24.16b
	eor	v24.16b,v17.16b,v8.16b
	eor	v23.16b,v18.16b,v23.16b
	eor	v3.16b,v19.16b,v3.16b
	eor	v18.16b,v22.16b,v4.16b
	eor	v17.16b,v20.16b,v6.16b
	eor	v20.16b,v28.16b,v7.16b
	eor	v22.16b,v29.16b,v1.16b
	eor	v6.16b,v21.16b,v5.16b
	eor	v19.16b,v24.16b,v0.16b
	eor	v21.16b,v27.16b,v2.16b
	ldp	q29,q28,[sp,#352]
	ldr	q30,[sp,#320]
	orr	v1.16b,v16.16b,v31.16b
	orr	v7.16b,v17.16b,v22.16b
	orr	v4.16b,v12.16b,v30.16b
	orr	v5.16b,v3.16b,v19.16b
	orr	v24.16b,v6.16b,v20.16b
	orr	v0.16b,v23.16b,v29.16b
	orr	v2.16b,v25.16b,v28.16b
	orr	v27.16b,v18.16b,v21.16b
	orr	v1.16b,v1.16b,v7.16b
	orr	v0.16b,v0.16b,v5.16b
	orr	v2.16b,v2.16b,v24.16b
	orr	v4.16b,v4.16b,v27.16b
	orr	v2.16b,v4.16b,v2.16b
	orr	v0.16b,v1.16b,v0.16b
	movi	v1.16b,#240
	orr	v0.16b,v0.16b,v2.16b
	and	v0.16b,v0.16b,v1.16b
	ext	v1.16b,v0.16b,v0.16b,#8
	orr	v0.8b,v0.8b,v1.8b
	fmov	x9,d0
	orr	x9,x9,x9,lsr #32
	lsr	x10,x9,#16
	orr	w9,w9,w10
	orr	w9,w9,w9,lsr #8
	tst	w9,#0xff
	b.ne	27f
	hex_page	x9,.Lstatic.22
	hex_address	x9,x9,.Lstatic.22
	add	x8,x9,x8,lsl #1
	ld1r	{ v0.8h },[x8]
	add	x8,x2,x3
	mul	v1.8h,v0.8h,v12.8h
	mul	v2.8h,v0.8h,v16.8h
	mul	v4.8h,v0.8h,v30.8h
	mul	v5.8h,v0.8h,v31.8h
	mul	v7.8h,v0.8h,v23.8h
	mul	v16.8h,v0.8h,v25.8h
	mul	v23.8h,v0.8h,v29.8h
	mul	v24.8h,v0.8h,v28.8h
	mul	v21.8h,v0.8h,v21.8h
	mul	v22.8h,v0.8h,v22.8h
	mul	v17.8h,v0.8h,v17.8h
	mul	v3.8h,v0.8h,v3.8h
	uzp2	v1.16b,v2.16b,v1.16b
	mul	v2.8h,v0.8h,v19.8h
	mul	v19.8h,v0.8h,v20.8h
	uzp2	v4.16b,v5.16b,v4.16b
	mul	v5.8h,v0.8h,v18.8h
	uzp2	v7.16b,v7.16b,v16.16b
	mul	v0.8h,v0.8h,v6.8h
	uzp2	v6.16b,v23.16b,v24.16b
	uzp2	v16.16b,v22.16b,v21.16b
	stp	q1,q7,[x2,#32]
	uzp2	v1.16b,v2.16b,v19.16b
	uzp2	v2.16b,v17.16b,v5.16b
	uzp2	v0.16b,v3.16b,v0.16b
	stp	q4,q6,[x2]
3:
	stur	q16,[x8,#-32]
4:
	stur	q1,[x8,#-16]
	stp	q2,q0,[x8,#-64]
5:
	mov	w0,#1
	b	28f
6:
	cmp	x1,#384
	and	w8,w5,#0xff
	b.hi	11f
	and	w8,w8,#0xfe
	cmp	w8,#2
	b.ne	16f
	add	x8,x0,x1
	movi	v17.16b,#55
	movi	v16.16b,#143
	ldp	q1,q3,[x8,#-128]
	hex_page	x9,.Lstatic.19
	hex_address	x9,x9,.Lstatic.19
	ldp	q0,q2,[x8,#-96]
	ldp	q4,q5,[x8,#-64]
	hex_page	x10,.Lstatic.20
	hex_address	x10,x10,.Lstatic.20
	ldp	q20,q21,[x8,#-32]
	uqsub	v18.16b,v3.16b,v17.16b
	uqsub	v6.16b,v2.16b,v17.16b
	uqsub	v7.16b,v0.16b,v17.16b
	uqsub	v22.16b,v1.16b,v17.16b
	uqsub	v24.16b,v5.16b,v17.16b
	uqsub	v25.16b,v4.16b,v17.16b
	uqsub	v23.16b,v21.16b,v17.16b
	uqsub	v26.16b,v20.16b,v17.16b
	and	x8,x4,#0xff
	ldr	q19,[x9,x8,lsl #4]
	add	x9,x10,x8
	and	v27.16b,v18.16b,v16.16b
	and	v29.16b,v7.16b,v16.16b
	and	v30.16b,v6.16b,v16.16b
	and	v28.16b,v22.16b,v16.16b
	and	v31.16b,v25.16b,v16.16b
	and	v8.16b,v24.16b,v16.16b
	and	v9.16b,v23.16b,v16.16b
	and	v10.16b,v26.16b,v16.16b
	tbl	v27.16b,{ v19.16b },v27.16b
	tbl	v29.16b,{ v19.16b },v29.16b
	tbl	v30.16b,{ v19.16b },v30.16b
	tbl	v28.16b,{ v19.16b },v28.16b
	tbl	v31.16b,{ v19.16b },v31.16b
	tbl	v8.16b,{ v19.16b },v8.16b
	tbl	v9.16b,{ v19.16b },v9.16b
	tbl	v10.16b,{ v19.16b },v10.16b
	uqsub	v27.16b,v27.16b,v18.16b
	ld1r	{ v18.16b },[x9]
	uqsub	v6.16b,v30.16b,v6.16b
	uqsub	v22.16b,v28.16b,v22.16b
	uqsub	v7.16b,v29.16b,v7.16b
	uqsub	v24.16b,v8.16b,v24.16b
	uqsub	v23.16b,v9.16b,v23.16b
	uqsub	v25.16b,v31.16b,v25.16b
	uqsub	v26.16b,v10.16b,v26.16b
	eor	v3.16b,v3.16b,v18.16b
	eor	v2.16b,v2.16b,v18.16b
	eor	v1.16b,v1.16b,v18.16b
	eor	v28.16b,v0.16b,v18.16b
	eor	v20.16b,v20.16b,v18.16b
	eor	v29.16b,v5.16b,v18.16b
	eor	v21.16b,v21.16b,v18.16b
	eor	v30.16b,v4.16b,v18.16b
	eor	v5.16b,v27.16b,v3.16b
	eor	v0.16b,v6.16b,v2.16b
	eor	v2.16b,v22.16b,v1.16b
	eor	v1.16b,v7.16b,v28.16b
	eor	v4.16b,v20.16b,v26.16b
	eor	v6.16b,v29.16b,v24.16b
	eor	v3.16b,v21.16b,v23.16b
	eor	v7.16b,v30.16b,v25.16b
	orr	v20.16b,v4.16b,v1.16b
	orr	v23.16b,v6.16b,v5.16b
	orr	v21.16b,v7.16b,v2.16b
	orr	v22.16b,v3.16b,v0.16b
	orr	v22.16b,v23.16b,v22.16b
	orr	v21.16b,v21.16b,v20.16b
	movi	v20.16b,#240
	orr	v21.16b,v21.16b,v22.16b
	and	v21.16b,v21.16b,v20.16b
	ext	v22.16b,v21.16b,v21.16b,#8
	orr	v21.8b,v21.8b,v22.8b
	fmov	x9,d21
	orr	x9,x9,x9,lsr #32
	lsr	x10,x9,#16
	orr	w9,w9,w10
	orr	w9,w9,w9,lsr #8
	tst	w9,#0xff
	b.ne	27f
	ldp	q21,q23,[x0]
	ldr	q26,[x0,#240]
	ldp	q22,q24,[x0,#32]
	stp	q7,q6,[sp,#144]
	stp	q5,q4,[sp,#176]
	uqsub	v8.16b,v23.16b,v17.16b
	uqsub	v9.16b,v21.16b,v17.16b
	stp	q3,q2,[sp,#208]
	uqsub	v31.16b,v24.16b,v17.16b
	stp	q1,q0,[sp,#240]
	uqsub	v10.16b,v22.16b,v17.16b
	ldp	q3,q27,[x0,#64]
	eor	v23.16b,v18.16b,v23.16b
	ldp	q2,q29,[x0,#96]
	eor	v24.16b,v18.16b,v24.16b
	and	v28.16b,v8.16b,v16.16b
	and	v25.16b,v9.16b,v16.16b
	eor	v22.16b,v18.16b,v22.16b
	and	v12.16b,v31.16b,v16.16b
	uqsub	v11.16b,v27.16b,v17.16b
	and	v14.16b,v10.16b,v16.16b
	uqsub	v13.16b,v29.16b,v17.16b
	uqsub	v4.16b,v2.16b,v17.16b
	uqsub	v30.16b,v3.16b,v17.16b
	tbl	v0.16b,{ v19.16b },v28.16b
	tbl	v20.16b,{ v19.16b },v25.16b
	eor	v3.16b,v18.16b,v3.16b
	tbl	v12.16b,{ v19.16b },v12.16b
	tbl	v14.16b,{ v19.16b },v14.16b
	eor	v27.16b,v18.16b,v27.16b
	and	v15.16b,v11.16b,v16.16b
	eor	v29.16b,v18.16b,v29.16b
	and	v1.16b,v13.16b,v16.16b
	stp	q4,q2,[sp,#288]
	and	v2.16b,v30.16b,v16.16b
	uqsub	v0.16b,v0.16b,v8.16b
	uqsub	v20.16b,v20.16b,v9.16b
	eor	v9.16b,v18.16b,v21.16b
	uqsub	v8.16b,v12.16b,v31.16b
	tbl	v15.16b,{ v19.16b },v15.16b
	uqsub	v10.16b,v14.16b,v10.16b
	tbl	v1.16b,{ v19.16b },v1.16b
	and	v14.16b,v4.16b,v16.16b
	tbl	v2.16b,{ v19.16b },v2.16b
	ldp	q12,q31,[x0,#176]
	eor	v0.16b,v23.16b,v0.16b
	uqsub	v4.16b,v15.16b,v11.16b
	ldp	q28,q15,[x0,#208]
	uqsub	v5.16b,v31.16b,v17.16b
	uqsub	v25.16b,v2.16b,v30.16b
	str	q0,[sp,#368]
	eor	v0.16b,v24.16b,v8.16b
	uqsub	v8.16b,v1.16b,v13.16b
	uqsub	v24.16b,v28.16b,v17.16b
	str	q4,[sp,#272]
	uqsub	v4.16b,v26.16b,v17.16b
	eor	v26.16b,v18.16b,v26.16b
	str	q0,[sp,#352]
	eor	v0.16b,v9.16b,v20.16b
	uqsub	v20.16b,v15.16b,v17.16b
	ldp	q9,q11,[x0,#144]
	and	v1.16b,v5.16b,v16.16b
	and	v2.16b,v24.16b,v16.16b
	eor	v25.16b,v3.16b,v25.16b
	str	q0,[sp,#336]
	eor	v0.16b,v22.16b,v10.16b
	ldr	q10,[x0,#128]
	uqsub	v13.16b,v11.16b,v17.16b
	uqsub	v22.16b,v12.16b,v17.16b
	uqsub	v23.16b,v9.16b,v17.16b
	uqsub	v21.16b,v10.16b,v17.16b
	tbl	v17.16b,{ v19.16b },v14.16b
	tbl	v1.16b,{ v19.16b },v1.16b
	str	q0,[sp,#320]
	and	v0.16b,v20.16b,v16.16b
	tbl	v2.16b,{ v19.16b },v2.16b
	and	v14.16b,v13.16b,v16.16b
	and	v6.16b,v23.16b,v16.16b
	and	v7.16b,v22.16b,v16.16b
	and	v30.16b,v21.16b,v16.16b
	and	v16.16b,v4.16b,v16.16b
	tbl	v0.16b,{ v19.16b },v0.16b
	uqsub	v1.16b,v1.16b,v5.16b
	uqsub	v2.16b,v2.16b,v24.16b
	tbl	v14.16b,{ v19.16b },v14.16b
	tbl	v6.16b,{ v19.16b },v6.16b
	tbl	v7.16b,{ v19.16b },v7.16b
	tbl	v30.16b,{ v19.16b },v30.16b
	tbl	v16.16b,{ v19.16b },v16.16b
	ldp	q19,q5,[sp,#288]
	uqsub	v0.16b,v0.16b,v20.16b
	eor	v5.16b,v18.16b,v5.16b
	eor	v20.16b,v18.16b,v10.16b
	uqsub	v17.16b,v17.16b,v19.16b
	ldr	q19,[sp,#272]
	eor	v24.16b,v18.16b,v15.16b
	uqsub	v3.16b,v14.16b,v13.16b
	uqsub	v7.16b,v7.16b,v22.16b
	uqsub	v6.16b,v6.16b,v23.16b
	uqsub	v21.16b,v30.16b,v21.16b
	uqsub	v4.16b,v16.16b,v4.16b
	eor	v27.16b,v27.16b,v19.16b
	eor	v19.16b,v29.16b,v8.16b
	eor	v16.16b,v18.16b,v11.16b
	eor	v22.16b,v18.16b,v12.16b
	eor	v23.16b,v18.16b,v9.16b
	eor	v29.16b,v18.16b,v28.16b
	eor	v30.16b,v18.16b,v31.16b
	eor	v8.16b,v5.16b,v17.16b
	eor	v9.16b,v16.16b,v3.16b
	eor	v28.16b,v20.16b,v21.16b
	eor	v18.16b,v22.16b,v7.16b
	ldp	q17,q21,[sp,#320]
	eor	v31.16b,v23.16b,v6.16b
	ldp	q16,q20,[sp,#352]
	mov	v23.16b,v25.16b
	eor	v25.16b,v24.16b,v0.16b
	eor	v29.16b,v29.16b,v2.16b
	eor	v26.16b,v26.16b,v4.16b
	eor	v30.16b,v30.16b,v1.16b
	orr	v0.16b,v8.16b,v17.16b
	orr	v1.16b,v23.16b,v21.16b
	orr	v2.16b,v19.16b,v16.16b
	orr	v3.16b,v27.16b,v20.16b
	orr	v4.16b,v9.16b,v25.16b
	orr	v6.16b,v18.16b,v26.16b
	orr	v7.16b,v31.16b,v29.16b
	orr	v5.16b,v28.16b,v30.16b
	orr	v0.16b,v0.16b,v4.16b
	orr	v2.16b,v2.16b,v6.16b
	orr	v3.16b,v3.16b,v7.16b
	orr	v1.16b,v1.16b,v5.16b
	orr	v2.16b,v3.16b,v2.16b
	orr	v0.16b,v1.16b,v0.16b
	movi	v1.16b,#240
	orr	v0.16b,v0.16b,v2.16b
	and	v0.16b,v0.16b,v1.16b
	ext	v1.16b,v0.16b,v0.16b,#8
	orr	v0.8b,v0.8b,v1.8b
	fmov	x9,d0
	orr	x9,x9,x9,lsr #32
	lsr	x10,x9,#16
	orr	w9,w9,w10
	orr	w9,w9,w9,lsr #8
	tst	w9,#0xff
	b.ne	27f
	hex_page	x9,.Lstatic.22
	hex_address	x9,x9,.Lstatic.22
	add	x8,x9,x8,lsl #1
	ld1r	{ v0.8h },[x8]
	add	x8,x2,x3
	mul	v1.8h,v0.8h,v27.8h
	mul	v2.8h,v0.8h,v23.8h
	mul	v3.8h,v0.8h,v20.8h
	mul	v4.8h,v0.8h,v21.8h
	mul	v5.8h,v0.8h,v8.8h
	mul	v6.8h,v0.8h,v19.8h
	mul	v7.8h,v0.8h,v17.8h
	mul	v16.8h,v0.8h,v16.8h
	mul	v17.8h,v0.8h,v31.8h
	mul	v19.8h,v0.8h,v28.8h
	mul	v20.8h,v0.8h,v9.8h
	mul	v21.8h,v0.8h,v30.8h
	uzp2	v1.16b,v2.16b,v1.16b
	mul	v2.8h,v0.8h,v29.8h
	mul	v22.8h,v0.8h,v26.8h
	uzp2	v3.16b,v4.16b,v3.16b
	uzp2	v5.16b,v5.16b,v6.16b
	mul	v4.8h,v0.8h,v25.8h
	uzp2	v7.16b,v7.16b,v16.16b
	mul	v6.8h,v0.8h,v18.8h
	ldr	q18,[sp,#176]
	ldp	q23,q16,[sp,#144]
	mul	v18.8h,v0.8h,v18.8h
	uzp2	v2.16b,v21.16b,v2.16b
	stp	q1,q5,[x2,#32]
	uzp2	v5.16b,v19.16b,v17.16b
	ldr	q1,[sp,#192]
	stp	q3,q7,[x2]
	ldp	q3,q7,[sp,#208]
	ldp	q17,q19,[sp,#240]
	mul	v16.8h,v0.8h,v16.8h
	mul	v23.8h,v0.8h,v23.8h
	mul	v1.8h,v0.8h,v1.8h
	uzp2	v4.16b,v4.16b,v22.16b
	mul	v3.8h,v0.8h,v3.8h
	mul	v7.8h,v0.8h,v7.8h
	uzp2	v6.16b,v20.16b,v6.16b
	mul	v17.8h,v0.8h,v17.8h
	mul	v0.8h,v0.8h,v19.8h
	uzp2	v16.16b,v23.16b,v16.16b
	stp	q2,q4,[x2,#96]
	uzp2	v1.16b,v1.16b,v3.16b
	uzp2	v2.16b,v7.16b,v18.16b
	stp	q5,q6,[x2,#64]
	uzp2	v0.16b,v17.16b,v0.16b
	b	3b
11:
	cmp	x1,#512
	b.hi	16f
	and	w8,w8,#0xfe
	cmp	w8,#2
	b.ne	16f
	add	x9,x0,x1
	movi	v1.16b,#55
	movi	v5.16b,#143
	ldp	q0,q3,[x9,#-256]
	hex_page	x10,.Lstatic.19
	hex_address	x10,x10,.Lstatic.19
	ldp	q4,q2,[x9,#-224]
	ldp	q16,q17,[x9,#-192]
	and	x8,x4,#0xff
	uqsub	v27.16b,v3.16b,v1.16b
	uqsub	v26.16b,v0.16b,v1.16b
	ldr	q22,[x10,x8,lsl #4]
	uqsub	v24.16b,v4.16b,v1.16b
	uqsub	v25.16b,v2.16b,v1.16b
	hex_page	x10,.Lstatic.20
	hex_address	x10,x10,.Lstatic.20
	uqsub	v28.16b,v17.16b,v1.16b
	uqsub	v19.16b,v16.16b,v1.16b
	ldp	q7,q18,[x9,#-160]
	add	x10,x10,x8
	and	v20.16b,v27.16b,v5.16b
	and	v23.16b,v26.16b,v5.16b
	ld1r	{ v6.16b },[x10]
	and	v30.16b,v24.16b,v5.16b
	and	v21.16b,v25.16b,v5.16b
	uqsub	v29.16b,v18.16b,v1.16b
	and	v31.16b,v28.16b,v5.16b
	stp	q7,q16,[sp,#288]
	tbl	v8.16b,{ v22.16b },v20.16b
	tbl	v11.16b,{ v22.16b },v23.16b
	eor	v3.16b,v3.16b,v6.16b
	tbl	v30.16b,{ v22.16b },v30.16b
	tbl	v9.16b,{ v22.16b },v21.16b
	eor	v0.16b,v0.16b,v6.16b
	tbl	v31.16b,{ v22.16b },v31.16b
	ldp	q23,q16,[x9,#-128]
	and	v10.16b,v29.16b,v5.16b
	uqsub	v21.16b,v7.16b,v1.16b
	and	v12.16b,v19.16b,v5.16b
	uqsub	v27.16b,v8.16b,v27.16b
	uqsub	v26.16b,v11.16b,v26.16b
	eor	v2.16b,v2.16b,v6.16b
	uqsub	v30.16b,v30.16b,v24.16b
	uqsub	v8.16b,v9.16b,v25.16b
	eor	v9.16b,v4.16b,v6.16b
	ldp	q7,q20,[x9,#-96]
	tbl	v10.16b,{ v22.16b },v10.16b
	uqsub	v4.16b,v31.16b,v28.16b
	tbl	v12.16b,{ v22.16b },v12.16b
	and	v11.16b,v21.16b,v5.16b
	eor	v3.16b,v27.16b,v3.16b
	eor	v0.16b,v26.16b,v0.16b
	mov	v24.16b,v16.16b
	ldp	q27,q28,[x9,#-64]
	uqsub	v26.16b,v7.16b,v1.16b
	eor	v2.16b,v8.16b,v2.16b
	uqsub	v8.16b,v20.16b,v1.16b
	eor	v17.16b,v17.16b,v6.16b
	stp	q4,q7,[sp,#256]
	uqsub	v4.16b,v10.16b,v29.16b
	uqsub	v29.16b,v23.16b,v1.16b
	stp	q0,q3,[sp,#352]
	eor	v0.16b,v30.16b,v9.16b
	uqsub	v9.16b,v16.16b,v1.16b
	ldp	q30,q31,[x9,#-32]
	uqsub	v10.16b,v28.16b,v1.16b
	uqsub	v15.16b,v27.16b,v1.16b
	uqsub	v12.16b,v12.16b,v19.16b
	tbl	v19.16b,{ v22.16b },v11.16b
	stp	q0,q2,[sp,#320]
	and	v2.16b,v26.16b,v5.16b
	and	v11.16b,v29.16b,v5.16b
	uqsub	v13.16b,v31.16b,v1.16b
	uqsub	v14.16b,v30.16b,v1.16b
	and	v3.16b,v9.16b,v5.16b
	str	q4,[sp,#240]
	and	v4.16b,v8.16b,v5.16b
	and	v16.16b,v10.16b,v5.16b
	and	v7.16b,v15.16b,v5.16b
	ldr	q0,[sp,#304]
	tbl	v2.16b,{ v22.16b },v2.16b
	tbl	v3.16b,{ v22.16b },v3.16b
	tbl	v11.16b,{ v22.16b },v11.16b
	uqsub	v21.16b,v19.16b,v21.16b
	and	v1.16b,v14.16b,v5.16b
	and	v5.16b,v13.16b,v5.16b
	eor	v0.16b,v0.16b,v6.16b
	tbl	v4.16b,{ v22.16b },v4.16b
	tbl	v16.16b,{ v22.16b },v16.16b
	ldr	q19,[sp,#256]
	tbl	v7.16b,{ v22.16b },v7.16b
	eor	v18.16b,v18.16b,v6.16b
	eor	v23.16b,v6.16b,v23.16b
	tbl	v1.16b,{ v22.16b },v1.16b
	tbl	v5.16b,{ v22.16b },v5.16b
	eor	v17.16b,v17.16b,v19.16b
	ldr	q19,[sp,#240]
	eor	v12.16b,v0.16b,v12.16b
	uqsub	v0.16b,v2.16b,v26.16b
	uqsub	v25.16b,v3.16b,v9.16b
	ldp	q3,q2,[sp,#272]
	eor	v19.16b,v18.16b,v19.16b
	uqsub	v18.16b,v11.16b,v29.16b
	uqsub	v4.16b,v4.16b,v8.16b
	uqsub	v16.16b,v16.16b,v10.16b
	uqsub	v5.16b,v5.16b,v13.16b
	uqsub	v7.16b,v7.16b,v15.16b
	uqsub	v1.16b,v1.16b,v14.16b
	eor	v2.16b,v2.16b,v6.16b
	eor	v3.16b,v6.16b,v3.16b
	eor	v20.16b,v6.16b,v20.16b
	eor	v24.16b,v6.16b,v24.16b
	eor	v26.16b,v6.16b,v30.16b
	eor	v28.16b,v6.16b,v28.16b
	eor	v29.16b,v6.16b,v31.16b
	eor	v30.16b,v6.16b,v27.16b
	eor	v8.16b,v2.16b,v21.16b
	eor	v21.16b,v3.16b,v0.16b
	ldp	q3,q2,[sp,#352]
	eor	v27.16b,v23.16b,v18.16b
	eor	v23.16b,v20.16b,v4.16b
	ldp	q0,q4,[sp,#320]
	eor	v25.16b,v24.16b,v25.16b
	mov	v24.16b,v17.16b
	eor	v17.16b,v26.16b,v1.16b
	eor	v31.16b,v28.16b,v16.16b
	eor	v26.16b,v29.16b,v5.16b
	eor	v29.16b,v30.16b,v7.16b
	orr	v0.16b,v8.16b,v0.16b
	orr	v1.16b,v12.16b,v3.16b
	orr	v4.16b,v19.16b,v4.16b
	orr	v5.16b,v24.16b,v2.16b
	orr	v7.16b,v21.16b,v17.16b
	orr	v28.16b,v25.16b,v31.16b
	orr	v16.16b,v27.16b,v29.16b
	orr	v20.16b,v23.16b,v26.16b
	orr	v0.16b,v0.16b,v7.16b
	orr	v5.16b,v5.16b,v28.16b
	orr	v1.16b,v1.16b,v16.16b
	orr	v4.16b,v4.16b,v20.16b
	orr	v4.16b,v5.16b,v4.16b
	orr	v0.16b,v1.16b,v0.16b
	movi	v1.16b,#240
	orr	v0.16b,v0.16b,v4.16b
	and	v0.16b,v0.16b,v1.16b
	ext	v1.16b,v0.16b,v0.16b,#8
	orr	v0.8b,v0.8b,v1.8b
	fmov	x9,d0
	orr	x9,x9,x9,lsr #32
	lsr	x10,x9,#16
	orr	w9,w9,w10
	orr	w9,w9,w9,lsr #8
	tst	w9,#0xff
	b.ne	27f
	ldp	q4,q5,[x0,#32]
	movi	v0.16b,#143
	ldp	q3,q11,[x0,#64]
	stp	q8,q29,[sp]
	stp	q31,q26,[sp,#32]
	ldr	q9,[x0,#128]
	stp	q17,q25,[sp,#64]
	ldp	q17,q1,[x0]
	stp	q12,q24,[sp,#96]
	movi	v24.16b,#55
	stp	q27,q23,[sp,#128]
	stp	q21,q19,[sp,#160]
	ldp	q19,q13,[x0,#96]
	uqsub	v16.16b,v1.16b,v24.16b
	uqsub	v7.16b,v5.16b,v24.16b
	uqsub	v20.16b,v17.16b,v24.16b
	uqsub	v28.16b,v4.16b,v24.16b
	uqsub	v29.16b,v11.16b,v24.16b
	uqsub	v2.16b,v13.16b,v24.16b
	eor	v1.16b,v6.16b,v1.16b
	eor	v5.16b,v6.16b,v5.16b
	uqsub	v14.16b,v3.16b,v24.16b
	stp	q3,q19,[sp,#224]
	uqsub	v21.16b,v19.16b,v24.16b
	eor	v17.16b,v6.16b,v17.16b
	and	v31.16b,v16.16b,v0.16b
	and	v8.16b,v7.16b,v0.16b
	and	v30.16b,v20.16b,v0.16b
	and	v12.16b,v28.16b,v0.16b
	and	v15.16b,v29.16b,v0.16b
	and	v18.16b,v2.16b,v0.16b
	and	v19.16b,v14.16b,v0.16b
	eor	v4.16b,v6.16b,v4.16b
	tbl	v31.16b,{ v22.16b },v31.16b
	tbl	v8.16b,{ v22.16b },v8.16b
	tbl	v30.16b,{ v22.16b },v30.16b
	tbl	v3.16b,{ v22.16b },v12.16b
	tbl	v15.16b,{ v22.16b },v15.16b
	tbl	v18.16b,{ v22.16b },v18.16b
	str	q21,[sp,#208]
	ldp	q12,q10,[x0,#144]
	tbl	v19.16b,{ v22.16b },v19.16b
	uqsub	v16.16b,v31.16b,v16.16b
	uqsub	v7.16b,v8.16b,v7.16b
	uqsub	v20.16b,v30.16b,v20.16b
	uqsub	v3.16b,v3.16b,v28.16b
	and	v8.16b,v21.16b,v0.16b
	uqsub	v21.16b,v15.16b,v29.16b
	ldp	q30,q29,[x0,#176]
	uqsub	v15.16b,v18.16b,v2.16b
	ldr	q18,[x0,#240]
	uqsub	v31.16b,v10.16b,v24.16b
	uqsub	v19.16b,v19.16b,v14.16b
	eor	v1.16b,v1.16b,v16.16b
	ldp	q28,q16,[x0,#208]
	str	q21,[sp,#192]
	uqsub	v21.16b,v18.16b,v24.16b
	eor	v18.16b,v6.16b,v18.16b
	str	q1,[sp,#304]
	eor	v1.16b,v5.16b,v7.16b
	uqsub	v7.16b,v12.16b,v24.16b
	uqsub	v23.16b,v16.16b,v24.16b
	tbl	v5.16b,{ v22.16b },v8.16b
	eor	v8.16b,v6.16b,v11.16b
	eor	v11.16b,v6.16b,v13.16b
	and	v14.16b,v31.16b,v0.16b
	eor	v16.16b,v6.16b,v16.16b
	str	q1,[sp,#272]
	eor	v1.16b,v17.16b,v20.16b
	uqsub	v20.16b,v30.16b,v24.16b
	uqsub	v17.16b,v28.16b,v24.16b
	and	v25.16b,v7.16b,v0.16b
	tbl	v14.16b,{ v22.16b },v14.16b
	str	q1,[sp,#256]
	eor	v1.16b,v4.16b,v3.16b
	uqsub	v4.16b,v9.16b,v24.16b
	uqsub	v24.16b,v29.16b,v24.16b
	and	v26.16b,v20.16b,v0.16b
	ldr	q3,[sp,#224]
	and	v27.16b,v17.16b,v0.16b
	tbl	v25.16b,{ v22.16b },v25.16b
	str	q1,[sp,#288]
	and	v1.16b,v23.16b,v0.16b
	eor	v3.16b,v6.16b,v3.16b
	and	v13.16b,v4.16b,v0.16b
	tbl	v26.16b,{ v22.16b },v26.16b
	and	v2.16b,v24.16b,v0.16b
	and	v0.16b,v21.16b,v0.16b
	tbl	v27.16b,{ v22.16b },v27.16b
	tbl	v1.16b,{ v22.16b },v1.16b
	eor	v19.16b,v3.16b,v19.16b
	uqsub	v3.16b,v14.16b,v31.16b
	tbl	v13.16b,{ v22.16b },v13.16b
	uqsub	v7.16b,v25.16b,v7.16b
	eor	v25.16b,v6.16b,v30.16b
	tbl	v0.16b,{ v22.16b },v0.16b
	tbl	v2.16b,{ v22.16b },v2.16b
	ldr	q22,[sp,#208]
	uqsub	v20.16b,v26.16b,v20.16b
	uqsub	v17.16b,v27.16b,v17.16b
	eor	v26.16b,v6.16b,v12.16b
	uqsub	v5.16b,v5.16b,v22.16b
	uqsub	v23.16b,v1.16b,v23.16b
	eor	v1.16b,v6.16b,v10.16b
	uqsub	v4.16b,v13.16b,v4.16b
	eor	v27.16b,v6.16b,v28.16b
	eor	v28.16b,v6.16b,v29.16b
	uqsub	v21.16b,v0.16b,v21.16b
	ldr	q0,[sp,#240]
	uqsub	v2.16b,v2.16b,v24.16b
	eor	v24.16b,v6.16b,v9.16b
	ldr	q22,[sp,#192]
	eor	v29.16b,v26.16b,v7.16b
	eor	v0.16b,v6.16b,v0.16b
	eor	v30.16b,v16.16b,v23.16b
	eor	v31.16b,v27.16b,v17.16b
	eor	v22.16b,v8.16b,v22.16b
	eor	v8.16b,v11.16b,v15.16b
	eor	v6.16b,v24.16b,v4.16b
	eor	v9.16b,v18.16b,v21.16b
	eor	v10.16b,v28.16b,v2.16b
	eor	v11.16b,v0.16b,v5.16b
	eor	v0.16b,v1.16b,v3.16b
	eor	v1.16b,v25.16b,v20.16b
	ldp	q24,q20,[sp,#256]
	orr	v18.16b,v29.16b,v31.16b
	ldp	q21,q23,[sp,#288]
	orr	v16.16b,v6.16b,v10.16b
	orr	v7.16b,v0.16b,v30.16b
	orr	v17.16b,v1.16b,v9.16b
	orr	v3.16b,v19.16b,v24.16b
	orr	v4.16b,v8.16b,v20.16b
	orr	v2.16b,v11.16b,v21.16b
	orr	v5.16b,v22.16b,v23.16b
	orr	v3.16b,v3.16b,v16.16b
	orr	v4.16b,v4.16b,v17.16b
	orr	v2.16b,v2.16b,v7.16b
	orr	v5.16b,v5.16b,v18.16b
	orr	v4.16b,v5.16b,v4.16b
	orr	v2.16b,v3.16b,v2.16b
	movi	v3.16b,#240
	orr	v2.16b,v2.16b,v4.16b
	and	v2.16b,v2.16b,v3.16b
	ext	v3.16b,v2.16b,v2.16b,#8
	orr	v2.8b,v2.8b,v3.8b
	fmov	x9,d2
	orr	x9,x9,x9,lsr #32
	lsr	x10,x9,#16
	orr	w9,w9,w10
	orr	w9,w9,w9,lsr #8
	tst	w9,#0xff
	b.ne	27f
	hex_page	x9,.Lstatic.22
	hex_address	x9,x9,.Lstatic.22
	add	x8,x9,x8,lsl #1
	ld1r	{ v4.8h },[x8]
	add	x8,x2,x3
	mul	v5.8h,v4.8h,v23.8h
	mul	v7.8h,v4.8h,v24.8h
	mul	v2.8h,v4.8h,v22.8h
	mul	v3.8h,v4.8h,v19.8h
	mul	v16.8h,v4.8h,v11.8h
	mul	v17.8h,v4.8h,v8.8h
	mul	v18.8h,v4.8h,v21.8h
	mul	v19.8h,v4.8h,v20.8h
	mul	v6.8h,v4.8h,v6.8h
	mul	v20.8h,v4.8h,v10.8h
	mul	v21.8h,v4.8h,v30.8h
	mul	v22.8h,v4.8h,v9.8h
	uzp2	v5.16b,v7.16b,v5.16b
	mul	v7.8h,v4.8h,v29.8h
	mul	v0.8h,v4.8h,v0.8h
	uzp2	v2.16b,v3.16b,v2.16b
	mul	v3.8h,v4.8h,v31.8h
	uzp2	v16.16b,v16.16b,v17.16b
	uzp2	v17.16b,v18.16b,v19.16b
	mul	v1.8h,v4.8h,v1.8h
	uzp2	v6.16b,v6.16b,v7.16b
	ldp	q7,q18,[sp,#336]
	uzp2	v3.16b,v20.16b,v3.16b
	stp	q2,q16,[x2,#32]
	uzp2	v2.16b,v21.16b,v22.16b
	stp	q5,q17,[x2]
	ldr	q5,[sp,#320]
	uzp2	v0.16b,v0.16b,v1.16b
	mul	v7.8h,v4.8h,v7.8h
	ldp	q16,q1,[sp,#96]
	mul	v5.8h,v4.8h,v5.8h
	ldr	q17,[sp,#368]
	mul	v18.8h,v4.8h,v18.8h
	stp	q3,q2,[x2,#96]
	ldr	q2,[sp]
	ldp	q19,q3,[sp,#160]
	mul	v1.8h,v4.8h,v1.8h
	mul	v16.8h,v4.8h,v16.8h
	mul	v17.8h,v4.8h,v17.8h
	mul	v2.8h,v4.8h,v2.8h
	mul	v3.8h,v4.8h,v3.8h
	stp	q6,q0,[x2,#64]
	uzp2	v0.16b,v5.16b,v7.16b
	ldp	q6,q5,[sp,#16]
	mul	v19.8h,v4.8h,v19.8h
	uzp2	v1.16b,v16.16b,v1.16b
	uzp2	v16.16b,v18.16b,v17.16b
	ldr	q17,[sp,#80]
	mul	v5.8h,v4.8h,v5.8h
	mul	v6.8h,v4.8h,v6.8h
	uzp2	v2.16b,v2.16b,v3.16b
	ldp	q7,q3,[sp,#48]
	mul	v17.8h,v4.8h,v17.8h
	ldp	q18,q20,[sp,#128]
	stp	q16,q0,[x8,#-128]
	mul	v3.8h,v4.8h,v3.8h
	mul	v7.8h,v4.8h,v7.8h
	uzp2	v5.16b,v6.16b,v5.16b
	mul	v18.8h,v4.8h,v18.8h
	mul	v4.8h,v4.8h,v20.8h
	stp	q1,q2,[x8,#-96]
	uzp2	v1.16b,v3.16b,v7.16b
	stur	q5,[x8,#-32]
	uzp2	v2.16b,v18.16b,v17.16b
	uzp2	v0.16b,v19.16b,v4.16b
	b	4b
16:
	and	x8,x4,#0xff
	hex_page	x9,.Lstatic.24
	hex_address	x9,x9,.Lstatic.24
	ldrb	w9,[x9,x8]
	sub	x10,x1,#64
	lsr	x11,x10,#9
	dup	v0.16b,w9
	hex_page	x9,.Lstatic.25
	hex_address	x9,x9,.Lstatic.25
	cbz	x11,22f
	ldr	q1,[x9,x8,lsl #4]
	mov	x12,xzr
	mov	x13,x0
18:
	movi	v2.2d,#0000000000000000
	movi	v3.2d,#0000000000000000
	mov	x14,xzr
	movi	v4.2d,#0000000000000000
	movi	v5.2d,#0000000000000000
19:
	movi	v6.16b,#57
	add	x15,x13,x14
	movi	v17.16b,#143
	ldp	q7,q16,[x15,#32]
	add	x14,x14,#64
	ldp	q18,q19,[x15]
	cmp	x14,#512
	add	v20.16b,v16.16b,v6.16b
	add	v21.16b,v7.16b,v6.16b
	add	v22.16b,v19.16b,v6.16b
	add	v6.16b,v18.16b,v6.16b
	and	v23.16b,v21.16b,v17.16b
	and	v24.16b,v20.16b,v17.16b
	and	v25.16b,v6.16b,v17.16b
	and	v17.16b,v22.16b,v17.16b
	tbl	v23.16b,{ v1.16b },v23.16b
	tbl	v24.16b,{ v1.16b },v24.16b
	tbl	v25.16b,{ v1.16b },v25.16b
	tbl	v17.16b,{ v1.16b },v17.16b
	sub	v16.16b,v24.16b,v16.16b
	sub	v7.16b,v23.16b,v7.16b
	sub	v17.16b,v17.16b,v19.16b
	sub	v18.16b,v25.16b,v18.16b
	eor	v7.16b,v7.16b,v21.16b
	eor	v16.16b,v16.16b,v20.16b
	eor	v6.16b,v18.16b,v6.16b
	eor	v17.16b,v17.16b,v22.16b
	orr	v5.16b,v16.16b,v5.16b
	orr	v4.16b,v7.16b,v4.16b
	orr	v2.16b,v17.16b,v2.16b
	orr	v3.16b,v6.16b,v3.16b
	b.ne	19b
	and	v2.16b,v2.16b,v0.16b
	and	v5.16b,v5.16b,v0.16b
	and	v3.16b,v3.16b,v0.16b
	and	v4.16b,v4.16b,v0.16b
	orr	v2.16b,v2.16b,v5.16b
	orr	v3.16b,v3.16b,v4.16b
	orr	v2.16b,v3.16b,v2.16b
	ext	v3.16b,v2.16b,v2.16b,#8
	orr	v2.8b,v2.8b,v3.8b
	fmov	x14,d2
	orr	x14,x14,x14,lsr #32
	lsr	x15,x14,#16
	orr	w14,w14,w15
	orr	w14,w14,w14,lsr #8
	tst	w14,#0xff
	b.ne	27f
	add	x12,x12,#1
	add	x13,x13,#512
	cmp	x12,x11
	b.ne	18b
22:
	ubfx	x11,x10,#6,#3
	tst	x1,#0x3f
	cinc	x12,x11,ne
	cbz	x12,25f
	lsl	x11,x8,#4
	movi	v1.2d,#0000000000000000
	movi	v2.2d,#0000000000000000
	movi	v3.2d,#0000000000000000
	movi	v4.2d,#0000000000000000
	and	x13,x10,#0xfffffffffffffe00
	ldr	q5,[x9,x11]
	add	x13,x0,x13
24:
	movi	v6.16b,#57
	ldp	q7,q16,[x13,#32]
	ldp	q17,q18,[x13],#64
	movi	v19.16b,#143
	subs	x12,x12,#1
	add	v20.16b,v16.16b,v6.16b
	add	v21.16b,v7.16b,v6.16b
	add	v22.16b,v18.16b,v6.16b
	add	v6.16b,v17.16b,v6.16b
	and	v23.16b,v20.16b,v19.16b
	and	v25.16b,v22.16b,v19.16b
	and	v24.16b,v6.16b,v19.16b
	and	v19.16b,v21.16b,v19.16b
	tbl	v23.16b,{ v5.16b },v23.16b
	tbl	v25.16b,{ v5.16b },v25.16b
	tbl	v24.16b,{ v5.16b },v24.16b
	tbl	v19.16b,{ v5.16b },v19.16b
	sub	v16.16b,v23.16b,v16.16b
	sub	v18.16b,v25.16b,v18.16b
	sub	v7.16b,v19.16b,v7.16b
	sub	v17.16b,v24.16b,v17.16b
	eor	v16.16b,v16.16b,v20.16b
	eor	v6.16b,v17.16b,v6.16b
	eor	v17.16b,v18.16b,v22.16b
	eor	v7.16b,v7.16b,v21.16b
	orr	v4.16b,v16.16b,v4.16b
	orr	v3.16b,v7.16b,v3.16b
	orr	v2.16b,v17.16b,v2.16b
	orr	v1.16b,v6.16b,v1.16b
	b.ne	24b
	b	26f
25:
	movi	v1.2d,#0000000000000000
	movi	v2.2d,#0000000000000000
	lsl	x11,x8,#4
	movi	v3.2d,#0000000000000000
	movi	v4.2d,#0000000000000000
26:
	movi	v5.16b,#57
	add	x10,x0,x10
	movi	v6.16b,#143
	ldp	q17,q7,[x10,#16]
	ldr	q16,[x10]
	ldr	q18,[x10,#48]
	ldr	q22,[x9,x11]
	add	v19.16b,v7.16b,v5.16b
	add	v20.16b,v18.16b,v5.16b
	add	v21.16b,v17.16b,v5.16b
	add	v5.16b,v16.16b,v5.16b
	and	v23.16b,v19.16b,v6.16b
	and	v25.16b,v21.16b,v6.16b
	and	v24.16b,v5.16b,v6.16b
	and	v6.16b,v20.16b,v6.16b
	tbl	v23.16b,{ v22.16b },v23.16b
	tbl	v25.16b,{ v22.16b },v25.16b
	tbl	v24.16b,{ v22.16b },v24.16b
	tbl	v6.16b,{ v22.16b },v6.16b
	sub	v7.16b,v23.16b,v7.16b
	sub	v17.16b,v25.16b,v17.16b
	sub	v16.16b,v24.16b,v16.16b
	sub	v6.16b,v6.16b,v18.16b
	eor	v7.16b,v7.16b,v19.16b
	eor	v17.16b,v17.16b,v21.16b
	eor	v6.16b,v6.16b,v20.16b
	eor	v5.16b,v16.16b,v5.16b
	orr	v3.16b,v7.16b,v3.16b
	orr	v2.16b,v17.16b,v2.16b
	orr	v1.16b,v5.16b,v1.16b
	orr	v4.16b,v6.16b,v4.16b
	orr	v2.16b,v2.16b,v4.16b
	orr	v1.16b,v1.16b,v3.16b
	orr	v1.16b,v1.16b,v2.16b
	and	v0.16b,v1.16b,v0.16b
	ext	v1.16b,v0.16b,v0.16b,#8
	orr	v0.8b,v0.8b,v1.8b
	fmov	x9,d0
	orr	x9,x9,x9,lsr #32
	lsr	x10,x9,#16
	orr	w9,w9,w10
	orr	w9,w9,w9,lsr #8
	tst	w9,#0xff
	b.eq	29f
27:
	mov	w0,wzr
28:
	ldp	d9,d8,[sp,#432]
	ldr	x30,[sp,#448]
	ldp	d11,d10,[sp,#416]
	ldp	d13,d12,[sp,#400]
	ldp	d15,d14,[sp,#384]
	add	sp,sp,#464
	ret
29:
	lsr	x9,x3,#6
	cbz	x9,32f
	hex_page	x10,.Lstatic.22
	hex_address	x10,x10,.Lstatic.22
	mov	x11,x2
	ldr	h0,[x10,x8,lsl #1]
	add	x10,x0,#64
31:
	movi	v1.16b,#79
	ldp	q3,q2,[x10,#-64]
	ldp	q5,q4,[x10]
	movi	v6.16b,#201
	ldp	q16,q7,[x10,#32]
	subs	x9,x9,#1
	ldp	q17,q18,[x10,#-32]
	add	x10,x10,#128
	and	v5.16b,v5.16b,v1.16b
	and	v4.16b,v4.16b,v1.16b
	and	v3.16b,v3.16b,v1.16b
	and	v16.16b,v16.16b,v1.16b
	and	v7.16b,v7.16b,v1.16b
	and	v2.16b,v2.16b,v1.16b
	and	v17.16b,v17.16b,v1.16b
	and	v1.16b,v18.16b,v1.16b
	add	v18.16b,v4.16b,v6.16b
	add	v19.16b,v5.16b,v6.16b
	add	v23.16b,v3.16b,v6.16b
	add	v20.16b,v7.16b,v6.16b
	add	v21.16b,v16.16b,v6.16b
	add	v22.16b,v2.16b,v6.16b
	add	v24.16b,v17.16b,v6.16b
	add	v6.16b,v1.16b,v6.16b
	umin	v5.16b,v5.16b,v19.16b
	umin	v4.16b,v4.16b,v18.16b
	umin	v3.16b,v3.16b,v23.16b
	umin	v16.16b,v16.16b,v21.16b
	umin	v7.16b,v7.16b,v20.16b
	umin	v2.16b,v2.16b,v22.16b
	umin	v17.16b,v17.16b,v24.16b
	umin	v1.16b,v1.16b,v6.16b
	mul	v4.8h,v4.8h,v0.h[0]
	mul	v5.8h,v5.8h,v0.h[0]
	mul	v3.8h,v3.8h,v0.h[0]
	mul	v6.8h,v7.8h,v0.h[0]
	mul	v7.8h,v16.8h,v0.h[0]
	mul	v2.8h,v2.8h,v0.h[0]
	mul	v1.8h,v1.8h,v0.h[0]
	mul	v16.8h,v17.8h,v0.h[0]
	uzp2	v4.16b,v5.16b,v4.16b
	uzp2	v5.16b,v7.16b,v6.16b
	uzp2	v2.16b,v3.16b,v2.16b
	uzp2	v1.16b,v16.16b,v1.16b
	stp	q4,q5,[x11,#32]
	stp	q2,q1,[x11],#64
	b.ne	31b
32:
	and	x9,x3,#0x3f
	cmp	x9,#33
	b.lo	34f
	sub	x9,x3,#64
	movi	v0.16b,#79
	movi	v1.16b,#201
	add	x10,x0,x9,lsl #1
	ldp	q3,q2,[x10,#64]
	ldp	q5,q4,[x10]
	ldp	q7,q6,[x10,#32]
	ldp	q17,q16,[x10,#96]
	and	v3.16b,v3.16b,v0.16b
	and	v2.16b,v2.16b,v0.16b
	and	v4.16b,v4.16b,v0.16b
	and	v5.16b,v5.16b,v0.16b
	and	v7.16b,v7.16b,v0.16b
	hex_page	x10,.Lstatic.22
	hex_address	x10,x10,.Lstatic.22
	and	v17.16b,v17.16b,v0.16b
	and	v16.16b,v16.16b,v0.16b
	add	v18.16b,v3.16b,v1.16b
	and	v0.16b,v6.16b,v0.16b
	add	v6.16b,v2.16b,v1.16b
	add	v19.16b,v4.16b,v1.16b
	add	v22.16b,v5.16b,v1.16b
	add	x8,x10,x8,lsl #1
	add	v20.16b,v16.16b,v1.16b
	add	v21.16b,v17.16b,v1.16b
	umin	v3.16b,v3.16b,v18.16b
	add	v18.16b,v7.16b,v1.16b
	add	v1.16b,v0.16b,v1.16b
	umin	v2.16b,v2.16b,v6.16b
	ld1r	{ v6.8h },[x8]
	umin	v5.16b,v5.16b,v22.16b
	umin	v4.16b,v4.16b,v19.16b
	umin	v17.16b,v17.16b,v21.16b
	umin	v16.16b,v16.16b,v20.16b
	add	x8,x2,x9
	umin	v7.16b,v7.16b,v18.16b
	umin	v0.16b,v0.16b,v1.16b
	mul	v1.8h,v6.8h,v2.8h
	mul	v2.8h,v6.8h,v3.8h
	mul	v4.8h,v6.8h,v4.8h
	mul	v3.8h,v6.8h,v16.8h
	mul	v16.8h,v6.8h,v17.8h
	mul	v5.8h,v6.8h,v5.8h
	mul	v0.8h,v6.8h,v0.8h
	mul	v6.8h,v6.8h,v7.8h
	uzp2	v1.16b,v2.16b,v1.16b
	uzp2	v2.16b,v16.16b,v3.16b
	uzp2	v3.16b,v5.16b,v4.16b
	uzp2	v0.16b,v6.16b,v0.16b
	stp	q1,q2,[x8,#32]
	stp	q3,q0,[x8]
	b	5b
34:
	cbz	x9,5b
	sub	x8,x3,#32
	movi	v0.16b,#79
	movi	v3.16b,#201
	add	x9,x0,x8,lsl #1
	add	x8,x2,x8
	ldp	q2,q1,[x9,#32]
	ldp	q5,q4,[x9]
	mov	w9,#4097
	and	v2.16b,v2.16b,v0.16b
	and	v1.16b,v1.16b,v0.16b
	and	v5.16b,v5.16b,v0.16b
	and	v0.16b,v4.16b,v0.16b
	add	v4.16b,v1.16b,v3.16b
	add	v6.16b,v2.16b,v3.16b
	add	v7.16b,v0.16b,v3.16b
	add	v3.16b,v5.16b,v3.16b
	umin	v2.16b,v2.16b,v6.16b
	dup	v6.8h,w9
	umin	v1.16b,v1.16b,v4.16b
	umin	v3.16b,v5.16b,v3.16b
	umin	v0.16b,v0.16b,v7.16b
	mul	v1.8h,v1.8h,v6.8h
	mul	v2.8h,v2.8h,v6.8h
	mul	v0.8h,v0.8h,v6.8h
	mul	v3.8h,v3.8h,v6.8h
	uzp2	v1.16b,v2.16b,v1.16b
	uzp2	v0.16b,v3.16b,v0.16b
	stp	q0,q1,[x8]
	b	5b
	hex_end	core_plain_decode_many_
	hex_function	core_plain_decode_many_outlined,.text
	stp	x29,x30,[sp,#-16]!
	mov	w5,#1
	mov	x29,sp
	bl	core_plain_decode_many_
	ldp	x29,x30,[sp],#16
	ret
	hex_end	core_plain_decode_many_outlined
	hex_merged	16
	.p2align	4,0x0
.LCPI13_0:
	.byte	1,1,1,1,1,1,1,11,11,11,15,15,15,15,15,15
.LCPI13_1:
	.byte	128,128,128,128,48,55,128,87,128,48,128,128,128,128,128,128
	hex_function	core_backend_Backend_decode_outlined,.text
	stp	x29,x30,[sp,#-48]!
	and	w8,w0,#0xff
	stp	x20,x19,[sp,#32]
	mov	x19,x3
	cmp	w8,#2
	stp	x22,x21,[sp,#16]
	mov	x29,sp
	b.gt	4f
	cbz	w8,14f
	cmp	w8,#1
	b.ne	6f
3:
	cmp	x2,#16
	b.lo	21f
	b	31f
4:
	cmp	w8,#3
	b.eq	20f
	cmp	w8,#5
	b.ne	3b
6:
	cmp	x2,#16
	b.lo	21f
	cmp	x2,#32
	b.lo	31f
8:
	mov	x21,x1
	mov	x0,x1
	mov	x1,x2
	mov	w2,w5
	mov	x20,x4
	bl	core_lane_probe_check_lanes
	cbz	w0,19f
	lsr	x10,x20,#4
	mov	x8,x20
	mov	x9,x21
	cbz	x10,12f
	mov	x11,x9
	mov	x12,x19
11:
	movi	v0.16b,#143
	hex_page	x13,.LCPI13_0
	subs	x10,x10,#1
	ldp	q1,q2,[x11],#32
	hex_value	q5,x13,.LCPI13_0
	hex_page	x13,.LCPI13_1
	and	v3.16b,v2.16b,v0.16b
	and	v4.16b,v1.16b,v0.16b
	ushr	v6.4s,v1.4s,#3
	tbl	v4.16b,{ v5.16b },v4.16b
	tbl	v3.16b,{ v5.16b },v3.16b
	ushr	v5.4s,v2.4s,#3
	urhadd	v4.16b,v4.16b,v6.16b
	urhadd	v3.16b,v3.16b,v5.16b
	and	v3.16b,v3.16b,v0.16b
	and	v0.16b,v4.16b,v0.16b
	hex_value	q4,x13,.LCPI13_1
	mov	w13,#4097
	tbl	v0.16b,{ v4.16b },v0.16b
	tbl	v3.16b,{ v4.16b },v3.16b
	sub	v0.16b,v1.16b,v0.16b
	sub	v1.16b,v2.16b,v3.16b
	dup	v2.8h,w13
	mul	v1.8h,v1.8h,v2.8h
	mul	v0.8h,v0.8h,v2.8h
	uzp2	v0.16b,v0.16b,v1.16b
	str	q0,[x12],#16
	b.ne	11b
12:
	tst	x8,#0xf
	b.eq	44f
	sub	x8,x8,#16
	movi	v0.16b,#143
	mov	w0,#1
	add	x9,x9,x8,lsl #1
	ldp	q1,q2,[x9]
	hex_page	x9,.LCPI13_0
	hex_value	q5,x9,.LCPI13_0
	hex_page	x9,.LCPI13_1
	and	v3.16b,v2.16b,v0.16b
	and	v4.16b,v1.16b,v0.16b
	ushr	v6.4s,v1.4s,#3
	tbl	v4.16b,{ v5.16b },v4.16b
	tbl	v3.16b,{ v5.16b },v3.16b
	ushr	v5.4s,v2.4s,#3
	urhadd	v4.16b,v4.16b,v6.16b
	urhadd	v3.16b,v3.16b,v5.16b
	and	v3.16b,v3.16b,v0.16b
	and	v0.16b,v4.16b,v0.16b
	hex_value	q4,x9,.LCPI13_1
	mov	w9,#4097
	tbl	v0.16b,{ v4.16b },v0.16b
	tbl	v3.16b,{ v4.16b },v3.16b
	sub	v0.16b,v1.16b,v0.16b
	sub	v1.16b,v2.16b,v3.16b
	dup	v2.8h,w9
	mul	v1.8h,v1.8h,v2.8h
	mul	v0.8h,v0.8h,v2.8h
	uzp2	v0.16b,v0.16b,v1.16b
	str	q0,[x19,x8]
	ldp	x20,x19,[sp,#32]
	ldp	x22,x21,[sp,#16]
	ldp	x29,x30,[sp],#48
	ret
14:
	cmp	x2,#15
	b.ls	21f
	mov	x20,x1
	mov	x0,x1
	mov	x1,x2
	mov	w2,w5
	mov	x21,x4
	mov	x22,x5
	bl	core_look_ups_check_by_look_up
	cbz	w0,19f
	cbz	x21,44f
	mov	w9,w22
	hex_page	x10,.Lswitch.table.core_backend_Backend_first_invalid_byte
	hex_address	x10,x10,.Lswitch.table.core_backend_Backend_first_invalid_byte
	and	x9,x9,#0xff
	mov	x8,x21
	ldr	x9,[x10,x9,lsl #3]
	add	x10,x20,#1
18:
	ldurb	w11,[x10,#-1]
	ldrb	w12,[x10],#2
	subs	x8,x8,#1
	mov	w0,#1
	ldrb	w11,[x9,x11]
	ldrb	w12,[x9,x12]
	add	w11,w12,w11,lsl #4
	strb	w11,[x19],#1
	b.ne	18b
19:
	ldp	x20,x19,[sp,#32]
	ldp	x22,x21,[sp,#16]
	ldp	x29,x30,[sp],#48
	ret
20:
	cmp	x2,#16
	b.hs	30f
21:
	lsr	x8,x2,#1
	cbz	x8,27f
	mov	w9,w5
	hex_page	x10,.Lswitch.table.core_backend_Backend_first_invalid_byte
	hex_address	x10,x10,.Lswitch.table.core_backend_Backend_first_invalid_byte
	and	x9,x9,#0xff
	mov	x11,xzr
	ldr	x9,[x10,x9,lsl #3]
	add	x10,x1,#1
23:
	ldurb	w12,[x10,#-1]
	mov	w0,wzr
	ldrb	w12,[x9,x12]
	cmp	w12,#255
	b.eq	19b
	ldrb	w13,[x10],#2
	ldrb	w13,[x9,x13]
	cmp	w13,#255
	b.eq	19b
	add	w12,w13,w12,lsl #4
	subs	x8,x8,#1
	bfi	x12,x11,#8,#56
	mov	x11,x12
	b.ne	23b
	cbnz	x4,28f
	b	44f
27:
	mov	x12,xzr
	cbz	x4,44f
28:
	sub	x8,x19,#1
29:
	strb	w12,[x8,x4]
	lsr	x12,x12,#8
	subs	x4,x4,#1
	b.ne	29b
	b	44f
30:
	cmp	x2,#32
	b.hs	37f
31:
	mov	x20,x1
	mov	x0,x1
	mov	x1,x2
	mov	w2,w5
	mov	x22,x4
	mov	x21,x5
	bl	core_lane_probe_check_lanes_
	cbz	w0,19b
	lsr	x13,x22,#3
	mov	x11,x22
	hex_page	x10,.Lstatic.20
	hex_address	x10,x10,.Lstatic.20
	hex_page	x8,.Lstatic.30
	hex_address	x8,x8,.Lstatic.30
	mov	x9,x20
	mov	x12,x21
	cbz	x13,35f
	and	x14,x12,#0xff
	add	x15,x10,x14
	add	x14,x8,x14
	ld1r	{ v0.16b },[x15]
	ld1r	{ v1.16b },[x14]
	mov	x14,x9
	mov	x15,x19
34:
	movi	v2.16b,#198
	ldr	q3,[x14],#16
	movi	v4.16b,#6
	movi	v5.16b,#10
	mov	w16,#4097
	subs	x13,x13,#1
	add	v2.16b,v3.16b,v2.16b
	orr	v3.16b,v0.16b,v3.16b
	uqsub	v2.16b,v2.16b,v4.16b
	movi	v4.16b,#16
	sub	v3.16b,v3.16b,v1.16b
	uqadd	v3.16b,v3.16b,v5.16b
	add	v2.16b,v2.16b,v4.16b
	umin	v2.16b,v2.16b,v3.16b
	dup	v3.8h,w16
	mul	v2.8h,v2.8h,v3.8h
	shrn	v2.8b,v2.8h,#8
	str	d2,[x15],#8
	b.ne	34b
35:
	tst	x11,#0x7
	b.eq	44f
	sub	x11,x11,#8
	movi	v0.16b,#198
	movi	v3.16b,#6
	and	x12,x12,#0xff
	lsl	x13,x11,#1
	movi	v4.16b,#10
	add	x10,x10,x12
	add	x8,x8,x12
	mov	w0,#1
	ld1r	{ v1.16b },[x10]
	ldr	q2,[x9,x13]
	add	v0.16b,v2.16b,v0.16b
	orr	v1.16b,v1.16b,v2.16b
	ld1r	{ v2.16b },[x8]
	mov	w8,#4097
	uqsub	v0.16b,v0.16b,v3.16b
	sub	v1.16b,v1.16b,v2.16b
	movi	v2.16b,#16
	uqadd	v1.16b,v1.16b,v4.16b
	add	v0.16b,v0.16b,v2.16b
	umin	v0.16b,v0.16b,v1.16b
	dup	v1.8h,w8
	mul	v0.8h,v0.8h,v1.8h
	shrn	v0.8b,v0.8h,#8
	str	d0,[x19,x11]
	ldp	x20,x19,[sp,#32]
	ldp	x22,x21,[sp,#16]
	ldp	x29,x30,[sp],#48
	ret
37:
	cmp	x2,#64
	b.lo	8b
	mov	x20,x1
	mov	x0,x1
	mov	x1,x2
	mov	w2,w5
	mov	x21,x4
	bl	core_lane_probe_check_lanes__
	cbz	w0,19b
	lsr	x12,x21,#5
	mov	x11,x21
	hex_page	x9,.LCPI13_0
	hex_page	x8,.LCPI13_1
	mov	x10,x20
	cbz	x12,42f
	mov	x13,x10
	mov	x14,x19
41:
	movi	v0.16b,#143
	ldp	q1,q2,[x13,#32]
	ldp	q3,q4,[x13],#64
	hex_value	q7,x9,.LCPI13_0
	mov	w15,#4097
	subs	x12,x12,#1
	ushr	v18.4s,v2.4s,#3
	ushr	v19.4s,v1.4s,#3
	and	v5.16b,v2.16b,v0.16b
	and	v6.16b,v1.16b,v0.16b
	and	v16.16b,v4.16b,v0.16b
	and	v17.16b,v3.16b,v0.16b
	ushr	v20.4s,v3.4s,#3
	tbl	v6.16b,{ v7.16b },v6.16b
	tbl	v5.16b,{ v7.16b },v5.16b
	tbl	v17.16b,{ v7.16b },v17.16b
	tbl	v7.16b,{ v7.16b },v16.16b
	ushr	v16.4s,v4.4s,#3
	urhadd	v6.16b,v19.16b,v6.16b
	urhadd	v5.16b,v18.16b,v5.16b
	urhadd	v17.16b,v20.16b,v17.16b
	urhadd	v7.16b,v16.16b,v7.16b
	hex_value	q16,x8,.LCPI13_1
	and	v5.16b,v5.16b,v0.16b
	and	v6.16b,v6.16b,v0.16b
	and	v7.16b,v7.16b,v0.16b
	and	v0.16b,v17.16b,v0.16b
	tbl	v6.16b,{ v16.16b },v6.16b
	tbl	v5.16b,{ v16.16b },v5.16b
	tbl	v0.16b,{ v16.16b },v0.16b
	tbl	v7.16b,{ v16.16b },v7.16b
	dup	v16.8h,w15
	sub	v1.16b,v1.16b,v6.16b
	sub	v2.16b,v2.16b,v5.16b
	sub	v0.16b,v3.16b,v0.16b
	sub	v3.16b,v4.16b,v7.16b
	mul	v2.8h,v2.8h,v16.8h
	mul	v1.8h,v1.8h,v16.8h
	mul	v3.8h,v3.8h,v16.8h
	mul	v0.8h,v0.8h,v16.8h
	uzp2	v1.16b,v1.16b,v2.16b
	uzp2	v0.16b,v0.16b,v3.16b
	stp	q0,q1,[x14],#32
	b.ne	41b
42:
	tst	x11,#0x1f
	b.eq	44f
	sub	x11,x11,#32
	movi	v0.16b,#143
	hex_value	q7,x9,.LCPI13_0
	add	x10,x10,x11,lsl #1
	mov	w0,#1
	ldp	q1,q2,[x10,#32]
	ldp	q3,q4,[x10]
	and	v5.16b,v2.16b,v0.16b
	and	v6.16b,v1.16b,v0.16b
	ushr	v18.4s,v2.4s,#3
	and	v16.16b,v4.16b,v0.16b
	and	v17.16b,v3.16b,v0.16b
	ushr	v19.4s,v1.4s,#3
	ushr	v20.4s,v3.4s,#3
	tbl	v6.16b,{ v7.16b },v6.16b
	tbl	v5.16b,{ v7.16b },v5.16b
	tbl	v17.16b,{ v7.16b },v17.16b
	tbl	v7.16b,{ v7.16b },v16.16b
	ushr	v16.4s,v4.4s,#3
	urhadd	v6.16b,v19.16b,v6.16b
	urhadd	v5.16b,v18.16b,v5.16b
	urhadd	v17.16b,v20.16b,v17.16b
	urhadd	v7.16b,v16.16b,v7.16b
	hex_value	q16,x8,.LCPI13_1
	mov	w8,#4097
	and	v5.16b,v5.16b,v0.16b
	and	v6.16b,v6.16b,v0.16b
	and	v7.16b,v7.16b,v0.16b
	and	v0.16b,v17.16b,v0.16b
	tbl	v6.16b,{ v16.16b },v6.16b
	tbl	v5.16b,{ v16.16b },v5.16b
	tbl	v0.16b,{ v16.16b },v0.16b
	tbl	v7.16b,{ v16.16b },v7.16b
	dup	v16.8h,w8
	add	x8,x19,x11
	sub	v1.16b,v1.16b,v6.16b
	sub	v2.16b,v2.16b,v5.16b
	sub	v0.16b,v3.16b,v0.16b
	sub	v3.16b,v4.16b,v7.16b
	mul	v2.8h,v2.8h,v16.8h
	mul	v1.8h,v1.8h,v16.8h
	mul	v3.8h,v3.8h,v16.8h
	mul	v0.8h,v0.8h,v16.8h
	uzp2	v1.16b,v1.16b,v2.16b
	uzp2	v0.16b,v0.16b,v3.16b
	stp	q0,q1,[x8]
	ldp	x20,x19,[sp,#32]
	ldp	x22,x21,[sp,#16]
	ldp	x29,x30,[sp],#48
	ret
44:
	mov	w0,#1
	ldp	x20,x19,[sp,#32]
	ldp	x22,x21,[sp,#16]
	ldp	x29,x30,[sp],#48
	ret
	hex_end	core_backend_Backend_decode_outlined
	hex_merged	16
	.p2align	4,0x0
.LCPI14_0:
	.byte	1,1,1,1,1,1,1,11,11,11,15,15,15,15,15,15
.LCPI14_1:
	.byte	1,2,4,8,16,32,64,128,1,2,4,8,16,32,64,128
	hex_function	core_lane_probe_check_lanes__,.text
	mov	w8,w2
	lsr	x9,x1,#6
	and	x10,x8,#0xff
	hex_page	x8,.Lstatic.26
	hex_address	x8,x8,.Lstatic.26
	ldr	q2,[x8,x10,lsl #4]
	mov	x10,x0
1:
	movi	v1.16b,#143
	ldp	q3,q4,[x10]
	ldp	q5,q6,[x10,#32]
	hex_page	x11,.LCPI14_0
	hex_value	q0,x11,.LCPI14_0
	hex_page	x11,.LCPI14_1
	ushr	v19.4s,v3.4s,#3
	ushr	v22.4s,v4.4s,#3
	and	v7.16b,v3.16b,v1.16b
	and	v16.16b,v6.16b,v1.16b
	and	v17.16b,v5.16b,v1.16b
	and	v18.16b,v4.16b,v1.16b
	ushr	v20.4s,v6.4s,#3
	ushr	v21.4s,v5.4s,#3
	tbl	v7.16b,{ v0.16b },v7.16b
	tbl	v17.16b,{ v0.16b },v17.16b
	tbl	v16.16b,{ v0.16b },v16.16b
	tbl	v18.16b,{ v0.16b },v18.16b
	urhadd	v7.16b,v19.16b,v7.16b
	urhadd	v17.16b,v21.16b,v17.16b
	urhadd	v16.16b,v20.16b,v16.16b
	urhadd	v18.16b,v22.16b,v18.16b
	movi	v19.16b,#128
	and	v7.16b,v7.16b,v1.16b
	and	v16.16b,v16.16b,v1.16b
	and	v17.16b,v17.16b,v1.16b
	and	v1.16b,v18.16b,v1.16b
	eor	v3.16b,v3.16b,v19.16b
	eor	v6.16b,v6.16b,v19.16b
	eor	v5.16b,v5.16b,v19.16b
	tbl	v7.16b,{ v2.16b },v7.16b
	tbl	v17.16b,{ v2.16b },v17.16b
	tbl	v16.16b,{ v2.16b },v16.16b
	tbl	v1.16b,{ v2.16b },v1.16b
	eor	v4.16b,v4.16b,v19.16b
	uqsub	v3.16b,v3.16b,v7.16b
	uqsub	v5.16b,v5.16b,v17.16b
	uqsub	v6.16b,v6.16b,v16.16b
	uqsub	v4.16b,v4.16b,v1.16b
	hex_value	q1,x11,.LCPI14_1
	cmge	v3.16b,v3.16b,#0
	cmge	v6.16b,v6.16b,#0
	cmge	v5.16b,v5.16b,#0
	cmge	v4.16b,v4.16b,#0
	and	v3.16b,v3.16b,v1.16b
	and	v5.16b,v5.16b,v1.16b
	and	v6.16b,v6.16b,v1.16b
	and	v4.16b,v4.16b,v1.16b
	addp	v3.16b,v3.16b,v4.16b
	addp	v4.16b,v5.16b,v6.16b
	addp	v3.16b,v3.16b,v4.16b
	addp	v3.16b,v3.16b,v3.16b
	fmov	x11,d3
	cbnz	x11,5f
	subs	x9,x9,#1
	add	x10,x10,#64
	b.ne	1b
	tst	x1,#0x3f
	b.eq	6f
	movi	v2.16b,#143
	add	x9,x0,x1
	ldp	q3,q4,[x9,#-64]
	ldp	q5,q6,[x9,#-32]
	and	x9,x2,#0xff
	and	v7.16b,v3.16b,v2.16b
	and	v18.16b,v4.16b,v2.16b
	ushr	v19.4s,v3.4s,#3
	and	v16.16b,v6.16b,v2.16b
	and	v17.16b,v5.16b,v2.16b
	ushr	v20.4s,v5.4s,#3
	ushr	v21.4s,v4.4s,#3
	tbl	v7.16b,{ v0.16b },v7.16b
	tbl	v18.16b,{ v0.16b },v18.16b
	tbl	v17.16b,{ v0.16b },v17.16b
	tbl	v0.16b,{ v0.16b },v16.16b
	ushr	v16.4s,v6.4s,#3
	urhadd	v7.16b,v19.16b,v7.16b
	urhadd	v18.16b,v21.16b,v18.16b
	ldr	q19,[x8,x9,lsl #4]
	urhadd	v17.16b,v20.16b,v17.16b
	urhadd	v0.16b,v16.16b,v0.16b
	movi	v16.16b,#128
	and	v7.16b,v7.16b,v2.16b
	and	v0.16b,v0.16b,v2.16b
	and	v17.16b,v17.16b,v2.16b
	and	v2.16b,v18.16b,v2.16b
	eor	v3.16b,v3.16b,v16.16b
	eor	v6.16b,v6.16b,v16.16b
	eor	v5.16b,v5.16b,v16.16b
	tbl	v7.16b,{ v19.16b },v7.16b
	eor	v4.16b,v4.16b,v16.16b
	tbl	v2.16b,{ v19.16b },v2.16b
	tbl	v17.16b,{ v19.16b },v17.16b
	tbl	v0.16b,{ v19.16b },v0.16b
	uqsub	v3.16b,v3.16b,v7.16b
	uqsub	v2.16b,v4.16b,v2.16b
	uqsub	v4.16b,v5.16b,v17.16b
	uqsub	v0.16b,v6.16b,v0.16b
	cmge	v3.16b,v3.16b,#0
	cmge	v0.16b,v0.16b,#0
	cmge	v4.16b,v4.16b,#0
	cmge	v2.16b,v2.16b,#0
	and	v3.16b,v3.16b,v1.16b
	and	v2.16b,v2.16b,v1.16b
	and	v4.16b,v4.16b,v1.16b
	and	v0.16b,v0.16b,v1.16b
	addp	v1.16b,v3.16b,v2.16b
	addp	v0.16b,v4.16b,v0.16b
	addp	v0.16b,v1.16b,v0.16b
	addp	v0.16b,v0.16b,v0.16b
	fmov	x8,d0
	cmp	x8,#0
	cset	w0,eq
	ret
5:
	mov	w0,wzr
	ret
6:
	mov	w0,#1
	ret
	hex_end	core_lane_probe_check_lanes__
	hex_function	core_look_ups_check_by_look_up,.text
	mov	w8,#1
	cbz	x1,8f
	and	x9,x2,#0xff
	hex_page	x10,.Lswitch.table.core_backend_Backend_first_invalid_byte
	hex_address	x10,x10,.Lswitch.table.core_backend_Backend_first_invalid_byte
	ldr	x9,[x10,x9,lsl #3]
	cmp	x1,#1
	b.ne	3f
	mov	x10,xzr
	b	6f
3:
	and	x10,x1,#0xfffffffffffffffe
	add	x11,x0,#1
	and	x13,x1,#0xfffffffffffffffe
	mov	w12,#1
4:
	ldurb	w14,[x11,#-1]
	ldrb	w15,[x11],#2
	ldrb	w14,[x9,x14]
	ldrb	w15,[x9,x15]
	cmp	w14,#255
	cset	w14,ne
	cmp	w15,#255
	cset	w15,ne
	subs	x13,x13,#2
	and	w8,w8,w14
	and	w12,w12,w15
	b.ne	4b
	cmp	x1,x10
	and	w8,w12,w8
	b.eq	8f
6:
	sub	x11,x1,x10
	add	x10,x0,x10
7:
	ldrb	w12,[x10],#1
	ldrb	w12,[x9,x12]
	cmp	w12,#255
	cset	w12,ne
	subs	x11,x11,#1
	and	w8,w8,w12
	b.ne	7b
8:
	mov	w0,w8
	ret
	hex_end	core_look_ups_check_by_look_up
	hex_merged	16
	.p2align	4,0x0
.LCPI16_0:
	.byte	1,1,1,1,1,1,1,11,11,11,15,15,15,15,15,15
.LCPI16_1:
	.byte	1,2,4,8,16,32,64,128,1,2,4,8,16,32,64,128
	hex_function	core_lane_probe_check_lanes,.text
	lsr	x11,x1,#5
	hex_page	x9,.Lstatic.26
	hex_address	x9,x9,.Lstatic.26
	hex_page	x10,.LCPI16_0
	hex_page	x8,.LCPI16_1
	cbz	x11,4f
	and	x12,x2,#0xff
	ldr	q0,[x9,x12,lsl #4]
	mov	x12,x0
2:
	movi	v1.16b,#143
	hex_value	q6,x10,.LCPI16_0
	ldp	q2,q3,[x12],#32
	and	v4.16b,v3.16b,v1.16b
	and	v5.16b,v2.16b,v1.16b
	ushr	v7.4s,v2.4s,#3
	tbl	v5.16b,{ v6.16b },v5.16b
	tbl	v4.16b,{ v6.16b },v4.16b
	ushr	v6.4s,v3.4s,#3
	urhadd	v5.16b,v7.16b,v5.16b
	urhadd	v4.16b,v6.16b,v4.16b
	and	v4.16b,v4.16b,v1.16b
	and	v1.16b,v5.16b,v1.16b
	movi	v5.16b,#128
	tbl	v1.16b,{ v0.16b },v1.16b
	tbl	v4.16b,{ v0.16b },v4.16b
	eor	v3.16b,v3.16b,v5.16b
	eor	v2.16b,v2.16b,v5.16b
	uqsub	v1.16b,v2.16b,v1.16b
	uqsub	v2.16b,v3.16b,v4.16b
	hex_value	q3,x8,.LCPI16_1
	cmge	v2.16b,v2.16b,#0
	cmge	v1.16b,v1.16b,#0
	and	v1.16b,v1.16b,v3.16b
	and	v2.16b,v2.16b,v3.16b
	addp	v1.16b,v1.16b,v2.16b
	addp	v1.16b,v1.16b,v1.16b
	addp	v1.16b,v1.16b,v1.16b
	fmov	w13,s1
	cbnz	w13,6f
	subs	x11,x11,#1
	b.ne	2b
4:
	tst	x1,#0x1f
	b.eq	7f
	movi	v0.16b,#143
	add	x11,x0,x1
	hex_value	q5,x10,.LCPI16_0
	ldp	q1,q2,[x11,#-32]
	and	x10,x2,#0xff
	and	v3.16b,v2.16b,v0.16b
	and	v4.16b,v1.16b,v0.16b
	ushr	v6.4s,v1.4s,#3
	tbl	v4.16b,{ v5.16b },v4.16b
	tbl	v3.16b,{ v5.16b },v3.16b
	ushr	v5.4s,v2.4s,#3
	urhadd	v4.16b,v6.16b,v4.16b
	urhadd	v3.16b,v5.16b,v3.16b
	ldr	q5,[x9,x10,lsl #4]
	and	v3.16b,v3.16b,v0.16b
	and	v0.16b,v4.16b,v0.16b
	movi	v4.16b,#128
	tbl	v0.16b,{ v5.16b },v0.16b
	tbl	v3.16b,{ v5.16b },v3.16b
	eor	v2.16b,v2.16b,v4.16b
	eor	v1.16b,v1.16b,v4.16b
	uqsub	v0.16b,v1.16b,v0.16b
	uqsub	v1.16b,v2.16b,v3.16b
	hex_value	q2,x8,.LCPI16_1
	cmge	v1.16b,v1.16b,#0
	cmge	v0.16b,v0.16b,#0
	and	v0.16b,v0.16b,v2.16b
	and	v1.16b,v1.16b,v2.16b
	addp	v0.16b,v0.16b,v1.16b
	addp	v0.16b,v0.16b,v0.16b
	addp	v0.16b,v0.16b,v0.16b
	fmov	w8,s0
	cmp	w8,#0
	cset	w0,eq
	ret
6:
	mov	w0,wzr
	ret
7:
	mov	w0,#1
	ret
	hex_end	core_lane_probe_check_lanes
	hex_merged	16
	.p2align	4,0x0
.LCPI17_0:
	.byte	1,2,4,8,16,32,64,128,1,2,4,8,16,32,64,128
	hex_function	core_lane_probe_check_lanes_,.text
	lsr	x11,x1,#4
	hex_page	x10,.Lstatic.20
	hex_address	x10,x10,.Lstatic.20
	hex_page	x9,.Lstatic.30
	hex_address	x9,x9,.Lstatic.30
	hex_page	x8,.LCPI17_0
	cbz	x11,4f
	and	x12,x2,#0xff
	add	x13,x10,x12
	add	x12,x9,x12
	ld1r	{ v0.16b },[x13]
	ld1r	{ v1.16b },[x12]
	mov	x12,x0
2:
	ldr	q2,[x12],#16
	movi	v3.16b,#208
	movi	v5.16b,#9
	movi	v6.16b,#5
	mov	w14,#65535
	orr	v4.16b,v0.16b,v2.16b
	add	v2.16b,v2.16b,v3.16b
	sub	v3.16b,v4.16b,v1.16b
	uqsub	v2.16b,v2.16b,v5.16b
	uqsub	v3.16b,v3.16b,v6.16b
	umin	v2.16b,v2.16b,v3.16b
	hex_value	q3,x8,.LCPI17_0
	cmeq	v2.16b,v2.16b,#0
	and	v2.16b,v2.16b,v3.16b
	addp	v2.16b,v2.16b,v2.16b
	addp	v2.16b,v2.16b,v2.16b
	addp	v2.16b,v2.16b,v2.16b
	umov	w13,v2.h[0]
	bics	wzr,w14,w13
	b.ne	6f
	subs	x11,x11,#1
	b.ne	2b
4:
	tst	x1,#0xf
	b.eq	7f
	and	x11,x2,#0xff
	add	x12,x0,x1
	movi	v2.16b,#208
	add	x10,x10,x11
	ldur	q1,[x12,#-16]
	add	x9,x9,x11
	ld1r	{ v0.16b },[x10]
	ld1r	{ v3.16b },[x9]
	movi	v4.16b,#9
	movi	v5.16b,#5
	mov	w9,#65535
	orr	v0.16b,v0.16b,v1.16b
	add	v1.16b,v1.16b,v2.16b
	sub	v0.16b,v0.16b,v3.16b
	uqsub	v1.16b,v1.16b,v4.16b
	uqsub	v0.16b,v0.16b,v5.16b
	umin	v0.16b,v1.16b,v0.16b
	hex_value	q1,x8,.LCPI17_0
	cmeq	v0.16b,v0.16b,#0
	and	v0.16b,v0.16b,v1.16b
	addp	v0.16b,v0.16b,v0.16b
	addp	v0.16b,v0.16b,v0.16b
	addp	v0.16b,v0.16b,v0.16b
	umov	w8,v0.h[0]
	bics	wzr,w9,w8
	cset	w0,eq
	ret
6:
	mov	w0,wzr
	ret
7:
	mov	w0,#1
	ret
	hex_end	core_lane_probe_check_lanes_
	hex_function	core_backend_Backend_first_invalid,.text
	sub	sp,sp,#192
	cmp	x1,#32
	stp	d15,d14,[sp,#80]
	stp	d13,d12,[sp,#96]
	stp	d11,d10,[sp,#112]
	stp	d9,d8,[sp,#128]
	stp	x29,x30,[sp,#144]
	add	x29,sp,#144
	str	x21,[sp,#160]
	stp	x20,x19,[sp,#176]
	b.hi	5f
	cmp	x1,#15
	b.hi	8f
	cbz	x1,35f
	cmp	x1,#1
	b.ne	18f
	mov	w8,w2
	hex_page	x10,.Lstatic.20
	hex_address	x10,x10,.Lstatic.20
	and	x8,x8,#0xff
	ldrb	w9,[x0]
	hex_page	x11,.Lstatic.30
	hex_address	x11,x11,.Lstatic.30
	ldrb	w10,[x10,x8]
	ldrb	w8,[x11,x8]
	sub	w11,w9,#48
	orr	w9,w10,w9
	and	w10,w11,#0xff
	sub	w8,w9,w8
	subs	w9,w10,#9
	and	w8,w8,#0xff
	csel	w9,wzr,w9,lo
	subs	w8,w8,#5
	csel	w8,wzr,w8,lo
	cmp	w9,w8
	csel	w9,w9,w8,lo
	mov	x8,xzr
	cbnz	w9,28f
	b	12f
5:
	cmp	x1,#256
	b.hi	13f
	cmp	x1,#64
	b.hi	14f
	movi	v0.16b,#57
	add	x8,x0,x1
	movi	v3.16b,#143
	ldp	q1,q2,[x0]
	hex_page	x9,.Lstatic.25
	hex_address	x9,x9,.Lstatic.25
	ldp	q4,q5,[x8,#-32]
	mov	w8,w2
	add	v6.16b,v1.16b,v0.16b
	add	v7.16b,v2.16b,v0.16b
	and	x8,x8,#0xff
	add	v16.16b,v5.16b,v0.16b
	add	v0.16b,v4.16b,v0.16b
	ldr	q17,[x9,x8,lsl #4]
	hex_page	x9,.Lstatic.24
	hex_address	x9,x9,.Lstatic.24
	and	v18.16b,v6.16b,v3.16b
	and	v19.16b,v7.16b,v3.16b
	add	x8,x9,x8
	and	v20.16b,v0.16b,v3.16b
	and	v3.16b,v16.16b,v3.16b
	tbl	v18.16b,{ v17.16b },v18.16b
	tbl	v19.16b,{ v17.16b },v19.16b
	tbl	v20.16b,{ v17.16b },v20.16b
	tbl	v3.16b,{ v17.16b },v3.16b
	sub	v1.16b,v18.16b,v1.16b
	sub	v2.16b,v19.16b,v2.16b
	sub	v3.16b,v3.16b,v5.16b
	sub	v4.16b,v20.16b,v4.16b
	eor	v1.16b,v1.16b,v6.16b
	eor	v2.16b,v2.16b,v7.16b
	eor	v0.16b,v4.16b,v0.16b
	eor	v3.16b,v3.16b,v16.16b
	orr	v2.16b,v3.16b,v2.16b
	orr	v0.16b,v0.16b,v1.16b
	ld1r	{ v1.16b },[x8]
	orr	v0.16b,v0.16b,v2.16b
	b	9f
8:
	movi	v0.16b,#57
	add	x8,x0,x1
	ldr	q1,[x0]
	ldur	q2,[x8,#-16]
	movi	v3.16b,#143
	mov	w8,w2
	and	x8,x8,#0xff
	hex_page	x9,.Lstatic.25
	hex_address	x9,x9,.Lstatic.25
	ldr	q6,[x9,x8,lsl #4]
	hex_page	x9,.Lstatic.24
	hex_address	x9,x9,.Lstatic.24
	add	v4.16b,v1.16b,v0.16b
	add	v0.16b,v2.16b,v0.16b
	add	x8,x9,x8
	and	v5.16b,v4.16b,v3.16b
	and	v3.16b,v0.16b,v3.16b
	tbl	v5.16b,{ v6.16b },v5.16b
	tbl	v3.16b,{ v6.16b },v3.16b
	sub	v1.16b,v5.16b,v1.16b
	sub	v2.16b,v3.16b,v2.16b
	eor	v1.16b,v1.16b,v4.16b
	eor	v0.16b,v2.16b,v0.16b
	orr	v0.16b,v0.16b,v1.16b
	ld1r	{ v1.16b },[x8]
9:
	and	v0.16b,v0.16b,v1.16b
	ext	v1.16b,v0.16b,v0.16b,#8
	orr	v0.8b,v0.8b,v1.8b
10:
	fmov	x8,d0
	orr	x8,x8,x8,lsr #32
	lsr	x9,x8,#16
	orr	w8,w8,w9
	orr	w8,w8,w8,lsr #8
11:
	tst	w8,#0xff
	mov	x8,xzr
	b.ne	28f
12:
	mov	w0,wzr
	mov	x1,x8
	b	36f
13:
	mov	x19,x0
	mov	x20,x1
	mov	x21,x2
	bl	core_plain_check_long_outlined
	mov	x2,x21
	mov	x1,x20
	mov	w8,w0
	mov	x0,x19
	tbz	w8,#0,24f
	b	34f
14:
	mov	w8,w2
	hex_page	x9,.Lstatic.25
	hex_address	x9,x9,.Lstatic.25
	and	x8,x8,#0xff
	cmp	x1,#128
	ldr	q0,[x9,x8,lsl #4]
	b.hi	20f
	movi	v1.16b,#57
	ldp	q3,q4,[x0]
	ldp	q5,q6,[x0,#32]
	movi	v2.16b,#143
	add	x9,x0,x1
	cmp	x1,#97
	ldp	q20,q19,[x9,#-32]
	add	v16.16b,v3.16b,v1.16b
	add	v7.16b,v4.16b,v1.16b
	add	v17.16b,v6.16b,v1.16b
	add	v18.16b,v5.16b,v1.16b
	add	v21.16b,v19.16b,v1.16b
	add	v24.16b,v20.16b,v1.16b
	and	v22.16b,v16.16b,v2.16b
	and	v23.16b,v7.16b,v2.16b
	and	v26.16b,v17.16b,v2.16b
	and	v25.16b,v18.16b,v2.16b
	and	v27.16b,v21.16b,v2.16b
	and	v28.16b,v24.16b,v2.16b
	tbl	v22.16b,{ v0.16b },v22.16b
	tbl	v23.16b,{ v0.16b },v23.16b
	tbl	v26.16b,{ v0.16b },v26.16b
	tbl	v25.16b,{ v0.16b },v25.16b
	tbl	v27.16b,{ v0.16b },v27.16b
	sub	v3.16b,v22.16b,v3.16b
	tbl	v22.16b,{ v0.16b },v28.16b
	sub	v4.16b,v23.16b,v4.16b
	sub	v6.16b,v26.16b,v6.16b
	sub	v5.16b,v25.16b,v5.16b
	sub	v19.16b,v27.16b,v19.16b
	eor	v16.16b,v3.16b,v16.16b
	eor	v7.16b,v4.16b,v7.16b
	eor	v18.16b,v5.16b,v18.16b
	eor	v5.16b,v6.16b,v17.16b
	sub	v4.16b,v22.16b,v20.16b
	eor	v3.16b,v19.16b,v21.16b
	eor	v4.16b,v4.16b,v24.16b
	orr	v5.16b,v5.16b,v7.16b
	orr	v6.16b,v18.16b,v16.16b
	b.lo	17f
	ldp	q7,q16,[x9,#-64]
	add	v17.16b,v16.16b,v1.16b
	add	v1.16b,v7.16b,v1.16b
	and	v18.16b,v1.16b,v2.16b
	and	v2.16b,v17.16b,v2.16b
	tbl	v18.16b,{ v0.16b },v18.16b
	tbl	v0.16b,{ v0.16b },v2.16b
	sub	v0.16b,v0.16b,v16.16b
	sub	v2.16b,v18.16b,v7.16b
	eor	v1.16b,v2.16b,v1.16b
	eor	v0.16b,v0.16b,v17.16b
	orr	v5.16b,v0.16b,v5.16b
	orr	v6.16b,v1.16b,v6.16b
17:
	orr	v0.16b,v6.16b,v4.16b
	orr	v1.16b,v5.16b,v3.16b
	hex_page	x9,.Lstatic.24
	hex_address	x9,x9,.Lstatic.24
	add	x8,x9,x8
	ld1r	{ v2.16b },[x8]
	orr	v0.16b,v0.16b,v1.16b
	b	23f
18:
	cmp	x1,#3
	b.hi	37f
	add	x8,x0,x1
	ldr	h0,[x0]
	movi	v1.2s,#57
	ldur	h2,[x8,#-2]
	movi	v4.2d,#0000000000000000
	movi	v5.2d,#0000000000000000
	ushll	v0.8h,v0.8b,#0
	mov	w8,w2
	hex_page	x9,.Lstatic.25
	hex_address	x9,x9,.Lstatic.25
	ushll	v2.8h,v2.8b,#0
	and	x8,x8,#0xff
	uaddw	v3.4s,v1.4s,v0.4h
	uaddw	v1.4s,v1.4s,v2.4h
	fmov	d6,d3
	mov	v3.b[1],v3.b[4]
	fmov	d7,d1
	mov	v1.b[1],v1.b[4]
	mov	v5.h[0],v3.h[0]
	movi	v3.16b,#143
	mov	v4.h[0],v1.h[0]
	and	v1.16b,v5.16b,v3.16b
	and	v3.16b,v4.16b,v3.16b
	ldr	q4,[x9,x8,lsl #4]
	hex_page	x9,.Lstatic.24
	hex_address	x9,x9,.Lstatic.24
	tbl	v1.16b,{ v4.16b },v1.16b
	tbl	v3.16b,{ v4.16b },v3.16b
	mov	b4,v1.b[0]
	mov	b5,v3.b[0]
	mov	v4.b[4],v1.b[1]
	mov	v5.b[4],v3.b[1]
	usubw	v0.4s,v4.4s,v0.4h
	usubw	v1.4s,v5.4s,v2.4h
	ldr	b2,[x9,x8]
	eor	v0.8b,v0.8b,v6.8b
	dup	v2.2s,v2.s[0]
	eor	v1.8b,v1.8b,v7.8b
	orr	v0.8b,v1.8b,v0.8b
	and	v0.8b,v0.8b,v2.8b
	fmov	x8,d0
	lsr	x9,x8,#32
	orr	w8,w8,w9
	b	11b
20:
	movi	v2.16b,#57
	ldp	q6,q3,[x0,#32]
	ldp	q18,q19,[x0]
	movi	v20.16b,#143
	ldp	q16,q5,[x0,#96]
	add	x9,x0,x1
	ldp	q26,q27,[x9,#-32]
	cmp	x1,#193
	add	v1.16b,v6.16b,v2.16b
	add	v21.16b,v19.16b,v2.16b
	add	v23.16b,v18.16b,v2.16b
	add	v17.16b,v3.16b,v2.16b
	add	v22.16b,v5.16b,v2.16b
	add	v28.16b,v16.16b,v2.16b
	ldp	q9,q10,[x9,#-64]
	add	v8.16b,v27.16b,v2.16b
	stp	q3,q1,[sp,#32]
	and	v24.16b,v1.16b,v20.16b
	and	v25.16b,v21.16b,v20.16b
	ldp	q1,q7,[x0,#64]
	and	v30.16b,v23.16b,v20.16b
	and	v12.16b,v17.16b,v20.16b
	add	v11.16b,v26.16b,v2.16b
	add	v13.16b,v10.16b,v2.16b
	tbl	v24.16b,{ v0.16b },v24.16b
	tbl	v25.16b,{ v0.16b },v25.16b
	add	v14.16b,v9.16b,v2.16b
	add	v29.16b,v7.16b,v2.16b
	tbl	v30.16b,{ v0.16b },v30.16b
	add	v31.16b,v1.16b,v2.16b
	stp	q1,q16,[sp]
	tbl	v12.16b,{ v0.16b },v12.16b
	and	v3.16b,v8.16b,v20.16b
	str	q5,[sp,#64]
	and	v4.16b,v14.16b,v20.16b
	and	v5.16b,v13.16b,v20.16b
	and	v1.16b,v29.16b,v20.16b
	and	v15.16b,v31.16b,v20.16b
	sub	v6.16b,v24.16b,v6.16b
	and	v24.16b,v22.16b,v20.16b
	sub	v19.16b,v25.16b,v19.16b
	and	v25.16b,v28.16b,v20.16b
	sub	v18.16b,v30.16b,v18.16b
	and	v30.16b,v11.16b,v20.16b
	ldr	q16,[sp,#32]
	tbl	v1.16b,{ v0.16b },v1.16b
	tbl	v15.16b,{ v0.16b },v15.16b
	tbl	v3.16b,{ v0.16b },v3.16b
	tbl	v24.16b,{ v0.16b },v24.16b
	tbl	v25.16b,{ v0.16b },v25.16b
	sub	v12.16b,v12.16b,v16.16b
	eor	v23.16b,v18.16b,v23.16b
	eor	v18.16b,v19.16b,v21.16b
	ldr	q19,[sp,#48]
	tbl	v30.16b,{ v0.16b },v30.16b
	tbl	v4.16b,{ v0.16b },v4.16b
	sub	v1.16b,v1.16b,v7.16b
	ldp	q7,q16,[sp]
	tbl	v5.16b,{ v0.16b },v5.16b
	eor	v19.16b,v6.16b,v19.16b
	ldr	q6,[sp,#64]
	sub	v16.16b,v25.16b,v16.16b
	sub	v7.16b,v15.16b,v7.16b
	eor	v17.16b,v12.16b,v17.16b
	sub	v3.16b,v3.16b,v27.16b
	sub	v6.16b,v24.16b,v6.16b
	sub	v21.16b,v30.16b,v26.16b
	sub	v4.16b,v4.16b,v9.16b
	sub	v5.16b,v5.16b,v10.16b
	eor	v25.16b,v1.16b,v29.16b
	eor	v24.16b,v7.16b,v31.16b
	eor	v7.16b,v16.16b,v28.16b
	eor	v3.16b,v3.16b,v8.16b
	eor	v22.16b,v6.16b,v22.16b
	eor	v1.16b,v21.16b,v11.16b
	eor	v4.16b,v4.16b,v14.16b
	eor	v6.16b,v5.16b,v13.16b
	orr	v18.16b,v25.16b,v18.16b
	orr	v7.16b,v7.16b,v19.16b
	orr	v16.16b,v22.16b,v17.16b
	orr	v17.16b,v24.16b,v23.16b
	b.lo	22f
	ldp	q19,q5,[x9,#-96]
	ldp	q21,q22,[x9,#-128]
	add	v23.16b,v5.16b,v2.16b
	add	v24.16b,v19.16b,v2.16b
	add	v25.16b,v22.16b,v2.16b
	add	v2.16b,v21.16b,v2.16b
	and	v26.16b,v23.16b,v20.16b
	and	v27.16b,v2.16b,v20.16b
	and	v28.16b,v25.16b,v20.16b
	and	v20.16b,v24.16b,v20.16b
	tbl	v26.16b,{ v0.16b },v26.16b
	tbl	v27.16b,{ v0.16b },v27.16b
	tbl	v28.16b,{ v0.16b },v28.16b
	tbl	v0.16b,{ v0.16b },v20.16b
	sub	v5.16b,v26.16b,v5.16b
	sub	v0.16b,v0.16b,v19.16b
	sub	v19.16b,v28.16b,v22.16b
	sub	v20.16b,v27.16b,v21.16b
	eor	v5.16b,v5.16b,v23.16b
	eor	v2.16b,v20.16b,v2.16b
	eor	v19.16b,v19.16b,v25.16b
	eor	v0.16b,v0.16b,v24.16b
	orr	v16.16b,v5.16b,v16.16b
	orr	v7.16b,v0.16b,v7.16b
	orr	v18.16b,v19.16b,v18.16b
	orr	v17.16b,v2.16b,v17.16b
22:
	orr	v0.16b,v18.16b,v6.16b
	orr	v2.16b,v16.16b,v3.16b
	hex_page	x9,.Lstatic.24
	hex_address	x9,x9,.Lstatic.24
	orr	v3.16b,v17.16b,v4.16b
	orr	v1.16b,v7.16b,v1.16b
	add	x8,x9,x8
	orr	v0.16b,v0.16b,v2.16b
	ld1r	{ v2.16b },[x8]
	orr	v1.16b,v3.16b,v1.16b
	orr	v0.16b,v1.16b,v0.16b
23:
	and	v0.16b,v2.16b,v0.16b
	ext	v1.16b,v0.16b,v0.16b,#8
	orr	v0.8b,v0.8b,v1.8b
	fmov	x8,d0
	orr	x8,x8,x8,lsr #32
	lsr	x9,x8,#16
	orr	w8,w8,w9
	orr	w8,w8,w8,lsr #8
	tst	w8,#0xff
	b.eq	34f
24:
	and	x10,x2,#0xff
	hex_page	x9,.Lstatic.24
	hex_address	x9,x9,.Lstatic.24
	add	x11,x9,x10
	mov	x8,xzr
	lsr	x9,x1,#6
	ld1r	{ v0.16b },[x11]
	hex_page	x11,.Lstatic.25
	hex_address	x11,x11,.Lstatic.25
	ldr	q1,[x11,x10,lsl #4]
	mov	x10,x0
25:
	movi	v2.16b,#57
	ldp	q3,q4,[x10]
	ldp	q6,q7,[x10,#32]
	movi	v5.16b,#143
	add	v16.16b,v4.16b,v2.16b
	add	v17.16b,v3.16b,v2.16b
	add	v18.16b,v7.16b,v2.16b
	add	v2.16b,v6.16b,v2.16b
	and	v19.16b,v16.16b,v5.16b
	and	v20.16b,v17.16b,v5.16b
	and	v21.16b,v2.16b,v5.16b
	and	v5.16b,v18.16b,v5.16b
	tbl	v19.16b,{ v1.16b },v19.16b
	tbl	v20.16b,{ v1.16b },v20.16b
	tbl	v21.16b,{ v1.16b },v21.16b
	tbl	v5.16b,{ v1.16b },v5.16b
	sub	v4.16b,v19.16b,v4.16b
	sub	v3.16b,v20.16b,v3.16b
	sub	v6.16b,v21.16b,v6.16b
	sub	v5.16b,v5.16b,v7.16b
	eor	v4.16b,v4.16b,v16.16b
	eor	v3.16b,v3.16b,v17.16b
	eor	v5.16b,v5.16b,v18.16b
	eor	v2.16b,v6.16b,v2.16b
	orr	v2.16b,v2.16b,v3.16b
	orr	v3.16b,v5.16b,v4.16b
	and	v3.16b,v3.16b,v0.16b
	and	v2.16b,v2.16b,v0.16b
	orr	v2.16b,v2.16b,v3.16b
	ext	v3.16b,v2.16b,v2.16b,#8
	orr	v2.8b,v2.8b,v3.8b
	fmov	x11,d2
	orr	x11,x11,x11,lsr #32
	lsr	x12,x11,#16
	orr	w11,w11,w12
	orr	w11,w11,w11,lsr #8
	tst	w11,#0xff
	b.ne	33f
	subs	x9,x9,#1
	sub	x8,x8,#64
	add	x10,x10,#64
	b.ne	25b
	and	x8,x1,#0xffffffffffffffc0
28:
	cmp	x8,x1
	b.hs	34f
29:
	hex_page	x9,.Lstatic.28
	hex_address	x9,x9,.Lstatic.28
	tst	w2,#0xff
	hex_page	x10,.Lstatic.27
	hex_address	x10,x10,.Lstatic.27
	csel	x9,x10,x9,eq
30:
	ldrb	w10,[x0,x8]
	ldrb	w10,[x9,x10]
	cmp	w10,#255
	b.eq	32f
	add	x8,x8,#1
	cmp	x1,x8
	b.ne	30b
	b	34f
32:
	mov	w0,#1
	mov	x1,x8
	b	36f
33:
	neg	x8,x8
	cmp	x8,x1
	b.lo	29b
34:
	mov	x1,xzr
35:
	mov	w0,wzr
36:
	ldp	x20,x19,[sp,#176]
	ldr	x21,[sp,#160]
	ldp	x29,x30,[sp,#144]
	ldp	d9,d8,[sp,#128]
	ldp	d11,d10,[sp,#112]
	ldp	d13,d12,[sp,#96]
	ldp	d15,d14,[sp,#80]
	add	sp,sp,#192
	ret
37:
	mov	w8,w2
	hex_page	x9,.Lstatic.25
	hex_address	x9,x9,.Lstatic.25
	and	x8,x8,#0xff
	hex_page	x10,.Lstatic.24
	hex_address	x10,x10,.Lstatic.24
	ldr	q0,[x9,x8,lsl #4]
	ldrb	w8,[x10,x8]
	cmp	x1,#7
	add	x9,x0,x1
	b.hi	39f
	movi	v1.4h,#57
	ldr	s2,[x0]
	ldur	s3,[x9,#-4]
	movi	v6.2d,#0000000000000000
	movi	v7.2d,#0000000000000000
	uaddw	v4.8h,v1.8h,v2.8b
	uaddw	v1.8h,v1.8h,v3.8b
	uzp1	v5.8b,v4.8b,v0.8b
	uzp1	v16.8b,v1.8b,v0.8b
	mov	v7.s[0],v5.s[0]
	mov	v6.s[0],v16.s[0]
	movi	v5.16b,#143
	and	v7.16b,v7.16b,v5.16b
	and	v5.16b,v6.16b,v5.16b
	tbl	v6.16b,{ v0.16b },v7.16b
	tbl	v0.16b,{ v0.16b },v5.16b
	zip1	v5.8b,v6.8b,v0.8b
	zip1	v0.8b,v0.8b,v0.8b
	usubw	v2.8h,v5.8h,v2.8b
	usubw	v0.8h,v0.8h,v3.8b
	eor	v2.8b,v2.8b,v4.8b
	eor	v0.8b,v0.8b,v1.8b
	dup	v1.4h,w8
	orr	v0.8b,v0.8b,v2.8b
	and	v0.8b,v0.8b,v1.8b
	fmov	x8,d0
	lsr	x9,x8,#32
	orr	w8,w8,w9
	orr	w8,w8,w8,lsr #16
	b	11b
39:
	movi	v1.8b,#57
	ldr	d2,[x0]
	ldur	d3,[x9,#-8]
	movi	v4.16b,#143
	add	v5.8b,v2.8b,v1.8b
	add	v1.8b,v3.8b,v1.8b
	and	v6.16b,v5.16b,v4.16b
	and	v4.16b,v1.16b,v4.16b
	tbl	v6.16b,{ v0.16b },v6.16b
	tbl	v0.16b,{ v0.16b },v4.16b
	sub	v2.8b,v6.8b,v2.8b
	sub	v0.8b,v0.8b,v3.8b
	eor	v2.8b,v2.8b,v5.8b
	eor	v0.8b,v0.8b,v1.8b
	dup	v1.8b,w8
	orr	v0.8b,v0.8b,v2.8b
	and	v0.8b,v0.8b,v1.8b
	b	10b
	hex_end	core_backend_Backend_first_invalid
	hex_function	core_plain_check_long_outlined,.text
	and	x10,x2,#0xff
	hex_page	x8,.Lstatic.24
	hex_address	x8,x8,.Lstatic.24
	ldrb	w8,[x8,x10]
	sub	x9,x1,#64
	lsr	x11,x9,#9
	dup	v0.16b,w8
	hex_page	x8,.Lstatic.25
	hex_address	x8,x8,.Lstatic.25
	cbz	x11,6f
	ldr	q1,[x8,x10,lsl #4]
	mov	x12,xzr
	mov	x13,x0
2:
	movi	v2.2d,#0000000000000000
	movi	v3.2d,#0000000000000000
	mov	x14,xzr
	movi	v4.2d,#0000000000000000
	movi	v5.2d,#0000000000000000
3:
	movi	v6.16b,#57
	add	x15,x13,x14
	movi	v17.16b,#143
	ldp	q7,q16,[x15,#32]
	add	x14,x14,#64
	ldp	q18,q19,[x15]
	cmp	x14,#512
	add	v20.16b,v16.16b,v6.16b
	add	v21.16b,v7.16b,v6.16b
	add	v22.16b,v19.16b,v6.16b
	add	v6.16b,v18.16b,v6.16b
	and	v23.16b,v21.16b,v17.16b
	and	v24.16b,v20.16b,v17.16b
	and	v25.16b,v6.16b,v17.16b
	and	v17.16b,v22.16b,v17.16b
	tbl	v23.16b,{ v1.16b },v23.16b
	tbl	v24.16b,{ v1.16b },v24.16b
	tbl	v25.16b,{ v1.16b },v25.16b
	tbl	v17.16b,{ v1.16b },v17.16b
	sub	v16.16b,v24.16b,v16.16b
	sub	v7.16b,v23.16b,v7.16b
	sub	v17.16b,v17.16b,v19.16b
	sub	v18.16b,v25.16b,v18.16b
	eor	v7.16b,v7.16b,v21.16b
	eor	v16.16b,v16.16b,v20.16b
	eor	v6.16b,v18.16b,v6.16b
	eor	v17.16b,v17.16b,v22.16b
	orr	v5.16b,v16.16b,v5.16b
	orr	v4.16b,v7.16b,v4.16b
	orr	v2.16b,v17.16b,v2.16b
	orr	v3.16b,v6.16b,v3.16b
	b.ne	3b
	and	v2.16b,v2.16b,v0.16b
	and	v5.16b,v5.16b,v0.16b
	and	v3.16b,v3.16b,v0.16b
	and	v4.16b,v4.16b,v0.16b
	orr	v2.16b,v2.16b,v5.16b
	orr	v3.16b,v3.16b,v4.16b
	orr	v2.16b,v3.16b,v2.16b
	ext	v3.16b,v2.16b,v2.16b,#8
	orr	v2.8b,v2.8b,v3.8b
	fmov	x14,d2
	orr	x14,x14,x14,lsr #32
	lsr	x15,x14,#16
	orr	w14,w14,w15
	orr	w14,w14,w14,lsr #8
	tst	w14,#0xff
	b.ne	9f
	add	x12,x12,#1
	add	x13,x13,#512
	cmp	x12,x11
	b.ne	2b
6:
	ubfx	x11,x9,#6,#3
	tst	x1,#0x3f
	cinc	x11,x11,ne
	cbz	x11,10f
	lsl	x10,x10,#4
	movi	v1.2d,#0000000000000000
	movi	v2.2d,#0000000000000000
	movi	v3.2d,#0000000000000000
	movi	v4.2d,#0000000000000000
	and	x12,x9,#0xfffffffffffffe00
	ldr	q5,[x8,x10]
	add	x12,x0,x12
8:
	movi	v6.16b,#57
	ldp	q7,q16,[x12,#32]
	ldp	q17,q18,[x12],#64
	movi	v19.16b,#143
	subs	x11,x11,#1
	add	v20.16b,v16.16b,v6.16b
	add	v21.16b,v7.16b,v6.16b
	add	v22.16b,v18.16b,v6.16b
	add	v6.16b,v17.16b,v6.16b
	and	v23.16b,v20.16b,v19.16b
	and	v25.16b,v22.16b,v19.16b
	and	v24.16b,v6.16b,v19.16b
	and	v19.16b,v21.16b,v19.16b
	tbl	v23.16b,{ v5.16b },v23.16b
	tbl	v25.16b,{ v5.16b },v25.16b
	tbl	v24.16b,{ v5.16b },v24.16b
	tbl	v19.16b,{ v5.16b },v19.16b
	sub	v16.16b,v23.16b,v16.16b
	sub	v18.16b,v25.16b,v18.16b
	sub	v7.16b,v19.16b,v7.16b
	sub	v17.16b,v24.16b,v17.16b
	eor	v16.16b,v16.16b,v20.16b
	eor	v6.16b,v17.16b,v6.16b
	eor	v17.16b,v18.16b,v22.16b
	eor	v7.16b,v7.16b,v21.16b
	orr	v4.16b,v16.16b,v4.16b
	orr	v3.16b,v7.16b,v3.16b
	orr	v2.16b,v17.16b,v2.16b
	orr	v1.16b,v6.16b,v1.16b
	b.ne	8b
	b	11f
9:
	mov	w0,wzr
	ret
10:
	movi	v1.2d,#0000000000000000
	movi	v2.2d,#0000000000000000
	lsl	x10,x10,#4
	movi	v3.2d,#0000000000000000
	movi	v4.2d,#0000000000000000
11:
	movi	v5.16b,#57
	add	x9,x0,x9
	movi	v6.16b,#143
	ldp	q17,q7,[x9,#16]
	ldr	q16,[x9]
	ldr	q18,[x9,#48]
	ldr	q22,[x8,x10]
	add	v19.16b,v7.16b,v5.16b
	add	v20.16b,v18.16b,v5.16b
	add	v21.16b,v17.16b,v5.16b
	add	v5.16b,v16.16b,v5.16b
	and	v23.16b,v19.16b,v6.16b
	and	v25.16b,v21.16b,v6.16b
	and	v24.16b,v5.16b,v6.16b
	and	v6.16b,v20.16b,v6.16b
	tbl	v23.16b,{ v22.16b },v23.16b
	tbl	v25.16b,{ v22.16b },v25.16b
	tbl	v24.16b,{ v22.16b },v24.16b
	tbl	v6.16b,{ v22.16b },v6.16b
	sub	v7.16b,v23.16b,v7.16b
	sub	v17.16b,v25.16b,v17.16b
	sub	v16.16b,v24.16b,v16.16b
	sub	v6.16b,v6.16b,v18.16b
	eor	v7.16b,v7.16b,v19.16b
	eor	v17.16b,v17.16b,v21.16b
	eor	v6.16b,v6.16b,v20.16b
	eor	v5.16b,v16.16b,v5.16b
	orr	v3.16b,v7.16b,v3.16b
	orr	v2.16b,v17.16b,v2.16b
	orr	v1.16b,v5.16b,v1.16b
	orr	v4.16b,v6.16b,v4.16b
	orr	v2.16b,v2.16b,v4.16b
	orr	v1.16b,v1.16b,v3.16b
	orr	v1.16b,v1.16b,v2.16b
	and	v0.16b,v1.16b,v0.16b
	ext	v1.16b,v0.16b,v0.16b,#8
	orr	v0.8b,v0.8b,v1.8b
	fmov	x8,d0
	orr	x8,x8,x8,lsr #32
	lsr	x9,x8,#16
	orr	w8,w8,w9
	orr	w8,w8,w8,lsr #8
	tst	w8,#0xff
	cset	w0,eq
	ret
	hex_end	core_plain_check_long_outlined
	hex_function	std_alloc_vec_Vec_grow_amortized____,.text.unlikely
	ldr	x8,[x0,#8]
	cmn	x8,#1
	b.eq	5f
	stp	x29,x30,[sp,#-32]!
	ldr	x9,[x0,#16]
	cmp	x8,#3
	mov	w10,#3
	csel	x11,x8,x10,hi
	stp	x20,x19,[sp,#16]
	mov	x29,sp
	lsl	x10,x9,#1
	add	x12,x11,#1
	lsr	x13,x9,#62
	cmp	x12,x10
	csinc	x10,x10,x11,ls
	cmp	x13,#0
	csinc	x19,x10,x11,eq
	mov	x11,#6148914691236517205
	movk	x11,#1365,lsl #48
	cmp	x19,x11
	b.hi	7f
	cbz	x9,6f
	add	x8,x8,x8,lsl #1
	add	x9,x19,x19,lsl #1
	mov	x20,x0
	ldr	x0,[x0]
	mov	w3,#8
	lsl	x1,x8,#3
	lsl	x2,x9,#3
	bl	fhex_realloc
	tbz	w0,#0,7f
4:
	mov	w0,#1
	str	x1,[x20]
	str	x19,[x20,#16]
	ldp	x20,x19,[sp,#16]
	ldp	x29,x30,[sp],#32
	ret
5:
	mov	w0,wzr
	ret
6:
	add	x8,x10,x10,lsl #1
	mov	x20,x0
	mov	w1,#8
	lsl	x0,x8,#3
	bl	fhex_alloc
	tbnz	w0,#0,4b
7:
	mov	w0,wzr
	ldp	x20,x19,[sp,#16]
	ldp	x29,x30,[sp],#32
	ret
	hex_end	std_alloc_vec_Vec_grow_amortized____
	hex_merged	16
	.p2align	4,0x0
.LCPI21_0:
	.byte	1,2,4,8,16,32,64,128,1,2,4,8,16,32,64,128
	hex_function	core_cmp_slices_groups_equal,.text
	subs	x9,x1,#8
	b.hi	2f
	sub	x8,x1,#4
	ldr	s0,[x0]
	ldr	s1,[x2]
	add	x9,x0,x8
	add	x8,x2,x8
	ld1	{ v0.s }[1],[x9]
	ld1	{ v1.s }[1],[x8]
	fmov	x8,d0
	fmov	x9,d1
	cmp	x8,x9
	cset	w8,ne
	eor	w0,w8,#0x1
	ret
2:
	subs	x8,x1,#32
	b.hi	4f
	cmp	x9,#8
	mov	w8,#8
	mov	w10,#16
	csel	x8,x9,x8,lo
	cmp	x9,#16
	ldr	d0,[x0]
	ldr	d1,[x2]
	ldr	d2,[x0,x8]
	ldr	d3,[x2,x8]
	csel	x8,x9,x10,lo
	ldr	d5,[x2,x9]
	ldr	d4,[x0,x8]
	mov	v0.d[1],v2.d[0]
	mov	v1.d[1],v3.d[0]
	ldr	d2,[x2,x8]
	ldr	d3,[x0,x9]
	mov	v4.d[1],v3.d[0]
	mov	v2.d[1],v5.d[0]
	cmeq	v0.16b,v0.16b,v1.16b
	cmeq	v1.16b,v4.16b,v2.16b
	b	17f
4:
	cmp	x1,#65
	b.hs	6f
	ldp	q1,q0,[x0]
	add	x9,x2,x8
	ldp	q3,q2,[x2]
	add	x8,x0,x8
	ldp	q4,q5,[x9]
	cmeq	v1.16b,v1.16b,v3.16b
	cmeq	v0.16b,v0.16b,v2.16b
	ldp	q2,q3,[x8]
	mvn	v1.16b,v1.16b
	mvn	v0.16b,v0.16b
	cmeq	v2.16b,v2.16b,v4.16b
	cmeq	v3.16b,v3.16b,v5.16b
	orn	v0.16b,v0.16b,v3.16b
	orn	v1.16b,v1.16b,v2.16b
	orr	v0.16b,v1.16b,v0.16b
	umaxv	b0,v0.16b
	fmov	w8,s0
	and	w8,w8,#0x1
	eor	w0,w8,#0x1
	ret
6:
	and	x9,x1,#0xffffffffffffffc0
	add	x10,x0,#32
	add	x12,x2,#32
	mov	w11,#32
	mov	x13,x1
7:
	ldp	q0,q3,[x12,#-32]
	ldp	q1,q2,[x10,#-32]
	ldp	q4,q5,[x12],#64
	cmeq	v0.16b,v1.16b,v0.16b
	cmeq	v1.16b,v2.16b,v3.16b
	ldp	q2,q3,[x10],#64
	mvn	v0.16b,v0.16b
	mvn	v1.16b,v1.16b
	cmeq	v2.16b,v2.16b,v4.16b
	cmeq	v3.16b,v3.16b,v5.16b
	orn	v0.16b,v0.16b,v2.16b
	orn	v1.16b,v1.16b,v3.16b
	orr	v0.16b,v1.16b,v0.16b
	umaxv	b0,v0.16b
	fmov	w14,s0
	tbnz	w14,#0,10f
	sub	x13,x13,#64
	add	x11,x11,#64
	cmp	x13,#63
	b.hi	7b
	sub	x10,x1,x9
	cmp	x10,#32
	b.hs	11f
	b	16f
10:
	sub	x9,x11,#32
	sub	x10,x1,x9
	cmp	x10,#32
	b.lo	16f
11:
	add	x11,x0,x9
	add	x9,x2,x9
12:
	ldp	q0,q1,[x11],#32
	ldp	q2,q3,[x9],#32
	hex_page	x12,.LCPI21_0
	cmeq	v1.16b,v1.16b,v3.16b
	cmeq	v0.16b,v0.16b,v2.16b
	hex_value	q2,x12,.LCPI21_0
	bic	v1.16b,v2.16b,v1.16b
	bic	v0.16b,v2.16b,v0.16b
	ext	v2.16b,v1.16b,v1.16b,#8
	ext	v3.16b,v0.16b,v0.16b,#8
	zip1	v1.16b,v1.16b,v2.16b
	zip1	v0.16b,v0.16b,v3.16b
	addv	h1,v1.8h
	addv	h0,v0.8h
	fmov	w12,s1
	fmov	w13,s0
	orr	w12,w13,w12
	tst	w12,#0xffff
	b.ne	14f
	sub	x10,x10,#32
	cmp	x10,#31
	b.hi	12b
	b	16f
14:
	cmp	x10,#31
	b.ls	16f
	mov	w8,#1
	eor	w0,w8,#0x1
	ret
16:
	add	x9,x0,x8
	add	x8,x2,x8
	ldp	q0,q3,[x8]
	ldp	q1,q2,[x9]
	cmeq	v0.16b,v1.16b,v0.16b
	cmeq	v1.16b,v2.16b,v3.16b
17:
	mvn	v0.16b,v0.16b
	orn	v0.16b,v0.16b,v1.16b
	umaxv	b0,v0.16b
	fmov	w8,s0
	and	w8,w8,#0x1
	eor	w0,w8,#0x1
	ret
	hex_end	core_cmp_slices_groups_equal
	hex_merged	16
	.p2align	4,0x0
.LCPI22_0:
	.byte	48,49,50,51,52,53,54,55,56,57,97,98,99,100,101,102
.LCPI22_1:
	.byte	48,49,50,51,52,53,54,55,56,57,65,66,67,68,69,70
	hex_function	core_encode_SplitEncode1632_write,.text
	cmp	w2,#0
	hex_page	x8,.LCPI22_0
	movi	v2.16b,#15
	csetm	w9,ne
	hex_value	q3,x8,.LCPI22_0
	add	x8,x0,x1
	dup	v1.16b,w9
	hex_page	x9,.LCPI22_1
	hex_value	q4,x9,.LCPI22_1
	bsl	v1.16b,v4.16b,v3.16b
	ushr	v3.16b,v0.16b,#4
	and	v0.16b,v0.16b,v2.16b
	tbl	v2.16b,{ v1.16b },v3.16b
	tbl	v0.16b,{ v1.16b },v0.16b
	zip1	v1.16b,v2.16b,v0.16b
	zip2	v0.16b,v2.16b,v0.16b
	stp	q1,q0,[x8]
	ret
	hex_end	core_encode_SplitEncode1632_write
	hex_merged	16
	.p2align	4,0x0
.LCPI23_0:
	.byte	48,49,50,51,52,53,54,55,56,57,97,98,99,100,101,102
.LCPI23_1:
	.byte	48,49,50,51,52,53,54,55,56,57,65,66,67,68,69,70
	hex_function	core_backend_Backend_encode_outlined,.text
	and	w8,w0,#0xff
	mov	w9,#1
	lsl	w8,w9,w8
	mov	w9,#44
	tst	w8,w9
	b.eq	8f
	cmp	x2,#8
	b.lo	10f
	cmp	x2,#16
	b.lo	12f
	subs	x8,x2,#32
	b.lo	17f
	cmp	w4,#0
	hex_page	x10,.LCPI23_0
	hex_page	x11,.LCPI23_1
	csetm	w9,ne
	hex_value	q0,x10,.LCPI23_0
	hex_value	q1,x11,.LCPI23_1
	dup	v2.16b,w9
	lsr	x9,x2,#5
	mov	x10,x3
	mov	x11,x1
	bsl	v2.16b,v1.16b,v0.16b
5:
	movi	v3.16b,#15
	subs	x9,x9,#1
	ldp	q5,q4,[x11],#32
	ushr	v6.16b,v4.16b,#4
	and	v4.16b,v4.16b,v3.16b
	ushr	v7.16b,v5.16b,#4
	and	v3.16b,v5.16b,v3.16b
	zip2	v5.16b,v6.16b,v4.16b
	zip1	v4.16b,v6.16b,v4.16b
	zip2	v6.16b,v7.16b,v3.16b
	zip1	v3.16b,v7.16b,v3.16b
	tbl	v5.16b,{ v2.16b },v5.16b
	tbl	v4.16b,{ v2.16b },v4.16b
	tbl	v6.16b,{ v2.16b },v6.16b
	tbl	v3.16b,{ v2.16b },v3.16b
	stp	q4,q5,[x10,#32]
	stp	q3,q6,[x10],#64
	b.ne	5b
	tst	x2,#0x1f
	b.eq	16f
	movi	v2.16b,#15
	add	x9,x1,x8
	cmp	w4,#0
	ldp	q4,q3,[x9]
	csetm	w9,ne
	dup	v5.16b,w9
	add	x8,x3,x8,lsl #1
	ushr	v6.16b,v3.16b,#4
	and	v3.16b,v3.16b,v2.16b
	and	v2.16b,v4.16b,v2.16b
	ushr	v4.16b,v4.16b,#4
	bit	v0.16b,v1.16b,v5.16b
	zip2	v1.16b,v6.16b,v3.16b
	zip1	v3.16b,v6.16b,v3.16b
	zip2	v5.16b,v4.16b,v2.16b
	zip1	v2.16b,v4.16b,v2.16b
	tbl	v1.16b,{ v0.16b },v1.16b
	tbl	v3.16b,{ v0.16b },v3.16b
	tbl	v4.16b,{ v0.16b },v5.16b
	tbl	v0.16b,{ v0.16b },v2.16b
	stp	q3,q1,[x8,#32]
	stp	q0,q4,[x8]
	ret
8:
	mov	w9,#18
	tst	w8,w9
	b.eq	10f
	cmp	x2,#8
	b.hs	11f
10:
	mov	x0,x1
	mov	x1,x2
	mov	x2,x3
	mov	w3,w4
	b	core_look_ups_encode_by_look_up
11:
	cmp	x2,#16
	b.hs	17f
12:
	cmp	w4,#0
	hex_page	x9,.LCPI23_0
	hex_page	x10,.LCPI23_1
	csetm	w8,ne
	hex_value	q0,x9,.LCPI23_0
	hex_value	q1,x10,.LCPI23_1
	dup	v2.16b,w8
	lsr	x8,x2,#3
	mov	x9,x3
	mov	x10,x1
	bsl	v2.16b,v1.16b,v0.16b
13:
	movi	v3.8b,#15
	ldr	d4,[x10],#8
	subs	x8,x8,#1
	ushr	v5.8b,v4.8b,#4
	and	v3.8b,v4.8b,v3.8b
	zip1	v3.16b,v5.16b,v3.16b
	tbl	v3.16b,{ v2.16b },v3.16b
	str	q3,[x9],#16
	b.ne	13b
	tst	x2,#0x7
	b.eq	16f
	movi	v2.8b,#15
	sub	x8,x2,#8
	cmp	w4,#0
	ldr	d3,[x1,x8]
	csetm	w9,ne
	lsl	x8,x8,#1
	dup	v4.16b,w9
	ushr	v5.8b,v3.8b,#4
	and	v2.8b,v3.8b,v2.8b
	bit	v0.16b,v1.16b,v4.16b
	zip1	v1.16b,v5.16b,v2.16b
	tbl	v0.16b,{ v0.16b },v1.16b
	str	q0,[x3,x8]
16:
	ret
17:
	cmp	w4,#0
	hex_page	x9,.LCPI23_0
	hex_page	x10,.LCPI23_1
	csetm	w8,ne
	hex_value	q0,x9,.LCPI23_0
	hex_value	q1,x10,.LCPI23_1
	dup	v2.16b,w8
	lsr	x8,x2,#4
	mov	x9,x3
	mov	x10,x1
	bsl	v2.16b,v1.16b,v0.16b
18:
	movi	v3.16b,#15
	ldr	q4,[x10],#16
	subs	x8,x8,#1
	ushr	v5.16b,v4.16b,#4
	and	v3.16b,v4.16b,v3.16b
	zip2	v4.16b,v5.16b,v3.16b
	zip1	v3.16b,v5.16b,v3.16b
	tbl	v4.16b,{ v2.16b },v4.16b
	tbl	v3.16b,{ v2.16b },v3.16b
	stp	q3,q4,[x9],#32
	b.ne	18b
	tst	x2,#0xf
	b.eq	16b
	movi	v2.16b,#15
	sub	x8,x2,#16
	cmp	w4,#0
	ldr	q3,[x1,x8]
	csetm	w9,ne
	add	x8,x3,x8,lsl #1
	dup	v4.16b,w9
	and	v2.16b,v3.16b,v2.16b
	ushr	v3.16b,v3.16b,#4
	bit	v0.16b,v1.16b,v4.16b
	zip2	v1.16b,v3.16b,v2.16b
	zip1	v2.16b,v3.16b,v2.16b
	tbl	v1.16b,{ v0.16b },v1.16b
	tbl	v0.16b,{ v0.16b },v2.16b
	stp	q0,q1,[x8]
	ret
	hex_end	core_backend_Backend_encode_outlined
	hex_function	core_look_ups_encode_by_look_up,.text
	hex_page	x8,.Lstatic.34
	hex_address	x8,x8,.Lstatic.34
	cmp	w3,#0
	hex_page	x9,.Lstatic.33
	hex_address	x9,x9,.Lstatic.33
	csel	x8,x9,x8,ne
	cbz	x1,3f
	add	x9,x2,#1
2:
	ldrb	w10,[x0],#1
	subs	x1,x1,#1
	ldrh	w10,[x8,x10,lsl #1]
	sturh	w10,[x9,#-1]
	add	x9,x9,#2
	b.ne	2b
3:
	ret
	hex_end	core_look_ups_encode_by_look_up
	hex_function	core_backend_Backend_decode_or_find_outlined,.text
	stp	x29,x30,[sp,#-64]!
	stp	x24,x23,[sp,#16]
	mov	w23,w1
	cmp	x3,#193
	stp	x22,x21,[sp,#32]
	mov	x21,x3
	mov	x22,x2
	stp	x20,x19,[sp,#48]
	mov	w20,w6
	mov	w24,w0
	mov	x29,sp
	b.lo	7f
	and	w8,w24,#0xff
	mov	x19,x5
	cmp	w8,#5
	b.ne	4f
	and	w8,w23,#0xff
	mov	x0,x22
	mov	x1,x21
	mov	x2,x4
	mov	x3,x19
	mov	w4,w20
	cmp	w8,#3
	b.ne	6f
	mov	w5,#3
	bl	core_plain_decode_many
	tbnz	w0,#0,5f
	b	7f
4:
	mov	w0,w24
	mov	x1,x22
	mov	x2,x21
	mov	x3,x4
	mov	x4,x19
	mov	w5,w20
	bl	core_backend_Backend_decode_outlined
	tbz	w0,#0,7f
5:
	mov	w1,wzr
	mov	x0,x19
	ldp	x20,x19,[sp,#48]
	ldp	x22,x21,[sp,#32]
	ldp	x24,x23,[sp,#16]
	ldp	x29,x30,[sp],#64
	ret
6:
	mov	w5,w23
	bl	core_plain_decode_many_
	tbnz	w0,#0,5b
7:
	mov	w0,w24
	mov	w1,w23
	mov	x2,x22
	mov	x3,x21
	mov	w4,w20
	bl	core_backend_Backend_first_invalid_byte
	mov	w8,w1
	mov	w1,#256
	bfxil	w1,w8,#0,#8
	ldp	x20,x19,[sp,#48]
	ldp	x22,x21,[sp,#32]
	ldp	x24,x23,[sp,#16]
	ldp	x29,x30,[sp],#64
	ret
	hex_end	core_backend_Backend_decode_or_find_outlined
	hex_function	core_backend_Backend_first_invalid_byte,.text.unlikely
	stp	x29,x30,[sp,#-64]!
	stp	x22,x21,[sp,#32]
	mov	w21,w4
	cmp	x3,#65
	stp	x20,x19,[sp,#48]
	mov	x19,x3
	mov	x20,x2
	stp	x24,x23,[sp,#16]
	mov	x29,sp
	b.lo	7f
	and	w8,w0,#0xff
	lsr	x23,x19,#6
	cmp	w8,#2
	b.gt	8f
	cbz	w8,13f
	cmp	w8,#1
	b.eq	10f
	mov	x24,xzr
	mov	x22,x20
5:
	mov	x0,x22
	mov	w1,#64
	mov	w2,w21
	bl	core_lane_probe_check_lanes
	cbz	w0,23f
	sub	x23,x23,#1
	sub	x24,x24,#64
	add	x22,x22,#64
	cbnz	x23,5b
	b	27f
7:
	mov	x0,xzr
	cmp	xzr,x19
	b.lo	28f
	b	31f
8:
	cmp	w8,#5
	b.eq	16f
	cmp	w8,#4
	b.ne	20f
10:
	mov	x24,xzr
	mov	x22,x20
11:
	mov	x0,x22
	mov	w1,#64
	mov	w2,w21
	bl	core_lane_probe_check_lanes_
	cbz	w0,23f
	sub	x23,x23,#1
	sub	x24,x24,#64
	add	x22,x22,#64
	cbnz	x23,11b
	b	27f
13:
	mov	x24,xzr
	mov	x22,x20
14:
	mov	x0,x22
	mov	w1,#64
	mov	w2,w21
	bl	core_look_ups_check_by_look_up
	cbz	w0,23f
	sub	x23,x23,#1
	sub	x24,x24,#64
	add	x22,x22,#64
	cbnz	x23,14b
	b	27f
16:
	and	w8,w1,#0xff
	and	x9,x21,#0xff
	cmp	w8,#3
	mov	x8,xzr
	b.ne	24f
	hex_page	x10,.Lstatic.21
	hex_address	x10,x10,.Lstatic.21
	add	x9,x10,x9,lsl #6
	ldp	q0,q1,[x9]
	ldp	q2,q3,[x9,#32]
	mov	x9,x20
18:
	movi	v4.16b,#63
	ldp	q5,q6,[x9]
	ldp	q7,q16,[x9,#32]
	and	v17.16b,v5.16b,v4.16b
	and	v18.16b,v6.16b,v4.16b
	and	v19.16b,v16.16b,v4.16b
	and	v4.16b,v7.16b,v4.16b
	tbl	v17.16b,{ v0.16b,v1.16b,v2.16b,v3.16b },v17.16b
	tbl	v18.16b,{ v0.16b,v1.16b,v2.16b,v3.16b },v18.16b
	tbl	v19.16b,{ v0.16b,v1.16b,v2.16b,v3.16b },v19.16b
	tbl	v4.16b,{ v0.16b,v1.16b,v2.16b,v3.16b },v4.16b
	eor	v5.16b,v17.16b,v5.16b
	eor	v6.16b,v18.16b,v6.16b
	eor	v4.16b,v4.16b,v7.16b
	eor	v7.16b,v19.16b,v16.16b
	orr	v6.16b,v7.16b,v6.16b
	orr	v4.16b,v4.16b,v5.16b
	movi	v5.16b,#240
	orr	v4.16b,v4.16b,v6.16b
	and	v4.16b,v4.16b,v5.16b
	ext	v5.16b,v4.16b,v4.16b,#8
	orr	v4.8b,v4.8b,v5.8b
	fmov	x10,d4
	orr	x10,x10,x10,lsr #32
	lsr	x11,x10,#16
	orr	w10,w10,w11
	orr	w10,w10,w10,lsr #8
	tst	w10,#0xff
	b.ne	33f
	sub	x23,x23,#1
	sub	x8,x8,#64
	add	x9,x9,#64
	cbnz	x23,18b
	b	27f
20:
	mov	x24,xzr
	mov	x22,x20
21:
	mov	x0,x22
	mov	w1,#64
	mov	w2,w21
	bl	core_lane_probe_check_lanes__
	cbz	w0,23f
	sub	x23,x23,#1
	sub	x24,x24,#64
	add	x22,x22,#64
	cbnz	x23,21b
	b	27f
23:
	neg	x0,x24
	cmp	x0,x19
	b.lo	28f
	b	31f
24:
	hex_page	x10,.Lstatic.24
	hex_address	x10,x10,.Lstatic.24
	add	x10,x10,x9
	ld1r	{ v0.16b },[x10]
	hex_page	x10,.Lstatic.25
	hex_address	x10,x10,.Lstatic.25
	ldr	q1,[x10,x9,lsl #4]
	mov	x9,x20
25:
	movi	v2.16b,#57
	ldp	q3,q4,[x9]
	ldp	q6,q7,[x9,#32]
	movi	v5.16b,#143
	add	v16.16b,v4.16b,v2.16b
	add	v17.16b,v3.16b,v2.16b
	add	v18.16b,v7.16b,v2.16b
	add	v2.16b,v6.16b,v2.16b
	and	v19.16b,v16.16b,v5.16b
	and	v20.16b,v17.16b,v5.16b
	and	v21.16b,v2.16b,v5.16b
	and	v5.16b,v18.16b,v5.16b
	tbl	v19.16b,{ v1.16b },v19.16b
	tbl	v20.16b,{ v1.16b },v20.16b
	tbl	v21.16b,{ v1.16b },v21.16b
	tbl	v5.16b,{ v1.16b },v5.16b
	sub	v4.16b,v19.16b,v4.16b
	sub	v3.16b,v20.16b,v3.16b
	sub	v6.16b,v21.16b,v6.16b
	sub	v5.16b,v5.16b,v7.16b
	eor	v4.16b,v4.16b,v16.16b
	eor	v3.16b,v3.16b,v17.16b
	eor	v5.16b,v5.16b,v18.16b
	eor	v2.16b,v6.16b,v2.16b
	orr	v2.16b,v2.16b,v3.16b
	orr	v3.16b,v5.16b,v4.16b
	and	v3.16b,v3.16b,v0.16b
	and	v2.16b,v2.16b,v0.16b
	orr	v2.16b,v2.16b,v3.16b
	ext	v3.16b,v2.16b,v2.16b,#8
	orr	v2.8b,v2.8b,v3.8b
	fmov	x10,d2
	orr	x10,x10,x10,lsr #32
	lsr	x11,x10,#16
	orr	w10,w10,w11
	orr	w10,w10,w10,lsr #8
	tst	w10,#0xff
	b.ne	33f
	sub	x23,x23,#1
	sub	x8,x8,#64
	add	x9,x9,#64
	cbnz	x23,25b
27:
	and	x0,x19,#0xffffffffffffffc0
	cmp	x0,x19
	b.hs	31f
28:
	and	x8,x21,#0xff
	hex_page	x9,.Lswitch.table.core_backend_Backend_first_invalid_byte
	hex_address	x9,x9,.Lswitch.table.core_backend_Backend_first_invalid_byte
	ldr	x8,[x9,x8,lsl #3]
29:
	ldrb	w1,[x20,x0]
	ldrb	w9,[x8,x1]
	cmp	w9,#255
	b.eq	32f
	add	x0,x0,#1
	cmp	x19,x0
	b.ne	29b
31:
	brk	#0x1
32:
	ldp	x20,x19,[sp,#48]
	ldp	x22,x21,[sp,#32]
	ldp	x24,x23,[sp,#16]
	ldp	x29,x30,[sp],#64
	ret
33:
	neg	x0,x8
	cmp	x0,x19
	b.lo	28b
	b	31b
	hex_end	core_backend_Backend_first_invalid_byte
	hex_function	io_digits_put_digits,.text
	stp	x29,x30,[sp,#-96]!
	stp	x28,x27,[sp,#16]
	mov	x29,sp
	stp	x26,x25,[sp,#32]
	stp	x24,x23,[sp,#48]
	stp	x22,x21,[sp,#64]
	stp	x20,x19,[sp,#80]
	sub	sp,sp,#1584
	str	xzr,[sp]
	mov	w20,w3
	mov	x21,x2
	ldrb	w8,[x4]
	mov	x22,x1
	mov	x19,x0
	cbz	w8,22f
	ldr	x23,[x4,#8]
	ldrb	w26,[x4,#16]
	cmp	x21,#128
	b.hi	43f
	movi	v0.2d,#0000000000000000
	add	x2,sp,#32
	mov	x0,x22
	mov	x1,x21
	mov	x3,x23
	mov	w4,w26
	mov	w5,w20
	add	x21,sp,#32
	stp	q0,q0,[sp,#32]
	stp	q0,q0,[sp,#64]
	stp	q0,q0,[sp,#96]
	stp	q0,q0,[sp,#128]
	stp	q0,q0,[sp,#160]
	stp	q0,q0,[sp,#192]
	stp	q0,q0,[sp,#224]
	stp	q0,q0,[sp,#256]
	stp	q0,q0,[sp,#288]
	stp	q0,q0,[sp,#320]
	stp	q0,q0,[sp,#352]
	stp	q0,q0,[sp,#384]
	bl	codec_grouped_write_with_room
	cbz	x0,96f
	ldr	x8,[x19,#16]
	mov	x20,x0
	mov	x22,xzr
	add	x23,x21,#16
	b	6f
4:
	mov	x2,x21
	bl	memmove
5:
	ldr	x8,[x19,#16]
	add	x22,x21,x22
	cmp	x22,x20
	add	x8,x8,x21
	str	x8,[x19,#16]
	b.hs	95f
6:
	ldr	x9,[x19,#8]
	subs	x10,x9,x8
	b.eq	94f
	ldr	x9,[x19]
	add	x11,sp,#32
	sub	x12,x20,x22
	add	x1,x11,x22
	cmp	x10,x12
	add	x0,x9,x8
	csel	x21,x10,x12,lo
	sub	x10,x0,x1
	cmp	x10,x21
	b.hs	4b
	cmp	x21,#8
	b.lo	10f
	add	x10,sp,#32
	add	x11,x8,x9
	add	x10,x22,x10
	sub	x10,x11,x10
	cmp	x10,#32
	b.hs	13f
10:
	mov	x10,xzr
11:
	add	x11,x10,x22
	add	x12,sp,#32
	add	x13,x10,x8
	sub	x8,x21,x10
	add	x10,x12,x11
	add	x9,x9,x13
12:
	ldrb	w11,[x10],#1
	subs	x8,x8,#1
	strb	w11,[x9],#1
	b.ne	12b
	b	5b
13:
	cmp	x21,#32
	b.hs	15f
	mov	x10,xzr
	b	19f
15:
	add	x13,x9,x8
	and	x11,x21,#0x18
	and	x10,x21,#0xffffffffffffffe0
	add	x12,x23,x22
	add	x13,x13,#16
	and	x14,x21,#0xffffffffffffffe0
16:
	ldp	q0,q1,[x12,#-16]
	subs	x14,x14,#32
	add	x12,x12,#32
	stp	q0,q1,[x13,#-16]
	add	x13,x13,#32
	b.ne	16b
	cmp	x21,x10
	b.eq	5b
	cbz	x11,11b
19:
	mov	x11,x10
	and	x10,x21,#0xfffffffffffffff8
	add	x13,sp,#32
	add	x12,x11,x22
	add	x14,x8,x11
	sub	x11,x11,x10
	add	x12,x13,x12
	add	x13,x9,x14
20:
	ldr	d0,[x12],#8
	adds	x11,x11,#8
	str	d0,[x13],#8
	b.ne	20b
	cmp	x21,x10
	b.eq	5b
	b	11b
22:
	cmp	x21,#128
	b.hi	72f
	movi	v0.2d,#0000000000000000
	add	x3,sp,#32
	mov	x0,x22
	mov	x1,x21
	mov	w2,w20
	mov	w4,#256
	stp	q0,q0,[sp,#32]
	stp	q0,q0,[sp,#64]
	stp	q0,q0,[sp,#96]
	stp	q0,q0,[sp,#128]
	stp	q0,q0,[sp,#160]
	stp	q0,q0,[sp,#192]
	stp	q0,q0,[sp,#224]
	stp	q0,q0,[sp,#256]
	bl	io_digits_encoded
	cbz	x1,95f
	ldr	x8,[x19,#16]
	mov	x20,x1
	mov	x21,x0
	mov	x23,xzr
	add	x24,x0,#16
	b	27f
25:
	add	x1,x21,x23
	mov	x2,x22
	bl	memmove
26:
	ldr	x8,[x19,#16]
	add	x23,x22,x23
	cmp	x23,x20
	add	x8,x8,x22
	str	x8,[x19,#16]
	b.hs	95f
27:
	ldr	x9,[x19,#8]
	subs	x10,x9,x8
	b.eq	94f
	ldr	x9,[x19]
	sub	x11,x20,x23
	add	x12,x21,x23
	cmp	x10,x11
	add	x0,x9,x8
	csel	x22,x10,x11,lo
	sub	x10,x0,x12
	cmp	x10,x22
	b.hs	25b
	cmp	x22,#8
	b.lo	31f
	add	x10,x8,x9
	add	x11,x23,x21
	sub	x10,x10,x11
	cmp	x10,#32
	b.hs	34f
31:
	mov	x10,xzr
32:
	add	x11,x10,x23
	add	x12,x10,x8
	sub	x8,x22,x10
	add	x10,x21,x11
	add	x9,x9,x12
33:
	ldrb	w11,[x10],#1
	subs	x8,x8,#1
	strb	w11,[x9],#1
	b.ne	33b
	b	26b
34:
	cmp	x22,#32
	b.hs	36f
	mov	x10,xzr
	b	40f
36:
	add	x13,x9,x8
	and	x11,x22,#0x18
	and	x10,x22,#0xffffffffffffffe0
	add	x12,x24,x23
	add	x13,x13,#16
	and	x14,x22,#0xffffffffffffffe0
37:
	ldp	q0,q1,[x12,#-16]
	subs	x14,x14,#32
	add	x12,x12,#32
	stp	q0,q1,[x13,#-16]
	add	x13,x13,#32
	b.ne	37b
	cmp	x22,x10
	b.eq	26b
	cbz	x11,32b
40:
	mov	x11,x10
	and	x10,x22,#0xfffffffffffffff8
	add	x12,x11,x23
	add	x13,x8,x11
	sub	x11,x11,x10
	add	x12,x21,x12
	add	x13,x9,x13
41:
	ldr	d0,[x12],#8
	adds	x11,x11,#8
	str	d0,[x13],#8
	b.ne	41b
	cmp	x22,x10
	b.eq	26b
	b	32b
43:
	add	x0,sp,#32
	mov	w1,wzr
	mov	w2,#1536
	add	x24,sp,#32
	bl	memset
	cmp	x23,#512
	mov	w8,#512
	mov	x28,xzr
	csel	x8,x23,x8,lo
	str	w26,[sp,#28]
	str	x8,[sp,#8]
	add	x8,x24,#16
	str	x8,[sp,#16]
	b	45f
44:
	add	x28,x25,x28
	ldr	w26,[sp,#28]
	mov	w20,w22
	cmp	x28,x21
	mov	x22,x24
	b.hs	95f
45:
	cbz	x28,49f
	cbz	x23,97f
	udiv	x8,x28,x23
	msub	x8,x8,x23,x28
	cbz	x8,52f
	sub	x8,x23,x8
	sub	x9,x21,x28
	mov	x24,x22
	cmp	x8,x9
	add	x0,x22,x28
	add	x2,sp,#32
	csel	x8,x8,x9,lo
	mov	w9,#512
	cmp	x8,#512
	csel	x25,x8,x9,lo
	b	51f
49:
	cbz	x23,97f
	ldr	x10,[sp,#8]
	mov	w9,#512
	add	x2,sp,#32
	mov	x24,x22
	mov	x0,x22
	and	w8,w10,#0xffff
	udiv	w8,w9,w8
	mul	w8,w8,w10
	and	x8,x8,#0xffff
	cmp	x21,x8
	csel	x25,x21,x8,lo
51:
	mov	x1,x25
	mov	x3,x23
	mov	w4,w26
	mov	w5,w20
	mov	w22,w20
	bl	codec_grouped_write_with_room
	adds	x27,xzr,x0
	b.ne	53f
	b	44b
52:
	ldr	x10,[sp,#8]
	mov	w9,#512
	add	x0,x22,x28
	mov	x3,x23
	mov	w4,w26
	mov	w5,w20
	and	w8,w10,#0xffff
	mov	x24,x22
	mov	w22,w20
	udiv	w8,w9,w8
	sub	x9,x21,x28
	mul	w8,w8,w10
	and	x8,x8,#0xffff
	cmp	x9,x8
	csel	x25,x9,x8,lo
	add	x8,sp,#32
	orr	x2,x8,#0x1
	mov	x1,x25
	bl	codec_grouped_write_with_room
	mov	w8,#1
	strb	w26,[sp,#32]
	adds	x27,x8,x0
	b.eq	44b
53:
	ldr	x8,[x19,#16]
	mov	x20,xzr
	b	56f
54:
	mov	x2,x26
	bl	memmove
55:
	ldr	x8,[x19,#16]
	add	x20,x26,x20
	cmp	x20,x27
	add	x8,x8,x26
	str	x8,[x19,#16]
	b.hs	44b
56:
	ldr	x9,[x19,#8]
	subs	x10,x9,x8
	b.eq	94f
	ldr	x9,[x19]
	add	x11,sp,#32
	sub	x12,x27,x20
	add	x1,x11,x20
	cmp	x10,x12
	add	x0,x9,x8
	csel	x26,x10,x12,lo
	sub	x10,x0,x1
	cmp	x10,x26
	b.hs	54b
	cmp	x26,#8
	b.lo	60f
	add	x10,sp,#32
	add	x11,x8,x9
	add	x10,x20,x10
	sub	x10,x11,x10
	cmp	x10,#32
	b.hs	63f
60:
	mov	x10,xzr
61:
	add	x11,x10,x20
	add	x12,sp,#32
	add	x13,x10,x8
	sub	x8,x26,x10
	add	x10,x12,x11
	add	x9,x9,x13
62:
	ldrb	w11,[x10],#1
	subs	x8,x8,#1
	strb	w11,[x9],#1
	b.ne	62b
	b	55b
63:
	cmp	x26,#32
	b.hs	65f
	mov	x10,xzr
	b	69f
65:
	ldr	x12,[sp,#16]
	add	x13,x9,x8
	and	x11,x26,#0x18
	and	x10,x26,#0xffffffffffffffe0
	add	x13,x13,#16
	and	x14,x26,#0xffffffffffffffe0
	add	x12,x12,x20
66:
	ldp	q0,q1,[x12,#-16]
	subs	x14,x14,#32
	add	x12,x12,#32
	stp	q0,q1,[x13,#-16]
	add	x13,x13,#32
	b.ne	66b
	cmp	x26,x10
	b.eq	55b
	cbz	x11,61b
69:
	mov	x11,x10
	and	x10,x26,#0xfffffffffffffff8
	add	x13,sp,#32
	add	x12,x11,x20
	add	x14,x8,x11
	sub	x11,x11,x10
	add	x12,x13,x12
	add	x13,x9,x14
70:
	ldr	d0,[x12],#8
	adds	x11,x11,#8
	str	d0,[x13],#8
	b.ne	70b
	cmp	x26,x10
	b.eq	55b
	b	61b
72:
	add	x0,sp,#32
	mov	w1,wzr
	mov	w2,#1024
	bl	memset
	mov	x27,xzr
	str	x22,[sp]
	b	74f
73:
	add	x27,x23,x27
	mov	w20,w22
	ldr	x22,[sp]
	cmp	x27,x21
	b.hs	95f
74:
	sub	x8,x21,x27
	mov	w9,#512
	add	x0,x22,x27
	cmp	x8,#512
	add	x3,sp,#32
	mov	w2,w20
	csel	x23,x8,x9,lo
	mov	w4,#1024
	mov	w22,w20
	mov	x1,x23
	bl	io_digits_encoded
	cbz	x1,73b
	ldr	x8,[x19,#16]
	mov	x24,x1
	mov	x25,x0
	mov	x28,xzr
	add	x20,x0,#16
	b	78f
76:
	add	x1,x25,x28
	mov	x2,x26
	bl	memmove
77:
	ldr	x8,[x19,#16]
	add	x28,x26,x28
	cmp	x28,x24
	add	x8,x8,x26
	str	x8,[x19,#16]
	b.hs	73b
78:
	ldr	x9,[x19,#8]
	subs	x10,x9,x8
	b.eq	94f
	ldr	x9,[x19]
	sub	x11,x24,x28
	add	x12,x25,x28
	cmp	x10,x11
	add	x0,x9,x8
	csel	x26,x10,x11,lo
	sub	x10,x0,x12
	cmp	x10,x26
	b.hs	76b
	cmp	x26,#8
	b.lo	82f
	add	x10,x8,x9
	add	x11,x28,x25
	sub	x10,x10,x11
	cmp	x10,#32
	b.hs	85f
82:
	mov	x10,xzr
83:
	add	x11,x10,x28
	add	x12,x10,x8
	sub	x8,x26,x10
	add	x10,x25,x11
	add	x9,x9,x12
84:
	ldrb	w11,[x10],#1
	subs	x8,x8,#1
	strb	w11,[x9],#1
	b.ne	84b
	b	77b
85:
	cmp	x26,#32
	b.hs	87f
	mov	x10,xzr
	b	91f
87:
	add	x13,x9,x8
	and	x11,x26,#0x18
	and	x10,x26,#0xffffffffffffffe0
	add	x12,x20,x28
	add	x13,x13,#16
	and	x14,x26,#0xffffffffffffffe0
88:
	ldp	q0,q1,[x12,#-16]
	subs	x14,x14,#32
	add	x12,x12,#32
	stp	q0,q1,[x13,#-16]
	add	x13,x13,#32
	b.ne	88b
	cmp	x26,x10
	b.eq	77b
	cbz	x11,83b
91:
	mov	x11,x10
	and	x10,x26,#0xfffffffffffffff8
	add	x12,x11,x28
	add	x13,x8,x11
	sub	x11,x11,x10
	add	x12,x25,x12
	add	x13,x9,x13
92:
	ldr	d0,[x12],#8
	adds	x11,x11,#8
	str	d0,[x13],#8
	b.ne	92b
	cmp	x26,x10
	b.eq	77b
	b	83b
94:
	ldr	x8,[x19,#24]
	mov	w0,#1
	adds	x8,x8,#1
	csinv	x8,x8,xzr,lo
	str	x8,[x19,#24]
	b	96f
95:
	mov	w0,wzr
96:
	add	sp,sp,#1584
	ldp	x20,x19,[sp,#80]
	ldp	x22,x21,[sp,#64]
	ldp	x24,x23,[sp,#48]
	ldp	x26,x25,[sp,#32]
	ldp	x28,x27,[sp,#16]
	ldp	x29,x30,[sp],#96
	ret
97:
	brk	#0x1
	hex_end	io_digits_put_digits
	hex_merged	16
	.p2align	4,0x0
.LCPI28_0:
	.byte	48,49,50,51,52,53,54,55,56,57,97,98,99,100,101,102
.LCPI28_1:
	.byte	48,49,50,51,52,53,54,55,56,57,65,66,67,68,69,70
.LCPI28_2:
	.byte	0,16,1,17,0,16,1,17,0,16,1,17,0,16,1,17
	hex_function	io_digits_encoded,.text
	cmp	x1,x4,lsr #1
	b.hi	25f
	subs	x8,x1,#32
	b.hi	5f
	b.ne	7f
	movi	v0.16b,#15
	ldp	q2,q1,[x0]
	cmp	w2,#0
	hex_page	x9,.LCPI28_0
	csetm	w8,ne
	hex_value	q5,x9,.LCPI28_0
	dup	v3.16b,w8
	hex_page	x8,.LCPI28_1
	ushr	v4.16b,v1.16b,#4
	and	v1.16b,v1.16b,v0.16b
	and	v0.16b,v2.16b,v0.16b
	ushr	v2.16b,v2.16b,#4
	hex_value	q6,x8,.LCPI28_1
	bsl	v3.16b,v6.16b,v5.16b
	zip2	v5.16b,v4.16b,v1.16b
	zip1	v1.16b,v4.16b,v1.16b
	zip2	v4.16b,v2.16b,v0.16b
	zip1	v0.16b,v2.16b,v0.16b
	tbl	v2.16b,{ v3.16b },v5.16b
	tbl	v1.16b,{ v3.16b },v1.16b
	tbl	v4.16b,{ v3.16b },v4.16b
	tbl	v0.16b,{ v3.16b },v0.16b
	stp	q1,q2,[x3,#32]
	stp	q0,q4,[x3]
4:
	lsl	x1,x1,#1
	mov	x0,x3
	ret
5:
	subs	x9,x1,#64
	b.hi	11f
	movi	v0.16b,#15
	ldp	q2,q1,[x0]
	cmp	w2,#0
	hex_page	x10,.LCPI28_0
	csetm	w9,ne
	hex_value	q5,x10,.LCPI28_0
	dup	v3.16b,w9
	hex_page	x9,.LCPI28_1
	ushr	v4.16b,v1.16b,#4
	and	v1.16b,v1.16b,v0.16b
	ushr	v7.16b,v2.16b,#4
	and	v2.16b,v2.16b,v0.16b
	hex_value	q6,x9,.LCPI28_1
	add	x9,x0,x8
	add	x8,x3,x8,lsl #1
	bsl	v3.16b,v6.16b,v5.16b
	zip2	v5.16b,v4.16b,v1.16b
	zip1	v1.16b,v4.16b,v1.16b
	zip2	v4.16b,v7.16b,v2.16b
	zip1	v2.16b,v7.16b,v2.16b
	tbl	v5.16b,{ v3.16b },v5.16b
	tbl	v1.16b,{ v3.16b },v1.16b
	tbl	v4.16b,{ v3.16b },v4.16b
	tbl	v2.16b,{ v3.16b },v2.16b
	stp	q1,q5,[x3,#32]
	stp	q2,q4,[x3]
	ldp	q2,q1,[x9]
	ushr	v4.16b,v1.16b,#4
	and	v1.16b,v1.16b,v0.16b
	ushr	v5.16b,v2.16b,#4
	and	v0.16b,v2.16b,v0.16b
	zip2	v2.16b,v4.16b,v1.16b
	zip1	v1.16b,v4.16b,v1.16b
	zip2	v4.16b,v5.16b,v0.16b
	zip1	v0.16b,v5.16b,v0.16b
	tbl	v2.16b,{ v3.16b },v2.16b
	tbl	v1.16b,{ v3.16b },v1.16b
	tbl	v4.16b,{ v3.16b },v4.16b
	tbl	v0.16b,{ v3.16b },v0.16b
	stp	q1,q2,[x8,#32]
	stp	q0,q4,[x8]
	lsl	x1,x1,#1
	mov	x0,x3
	ret
7:
	cmp	x1,#7
	b.hi	15f
	cbz	x1,4b
	cmp	x1,#1
	b.ne	22f
	ldrb	w8,[x0]
	cmp	w2,#0
	movi	v1.2d,#0xff00ff00ff00ff
	csetm	w9,ne
	hex_page	x10,.LCPI28_0
	dup	v0.16b,w9
	lsr	w9,w8,#4
	and	w8,w8,#0xf
	dup	v2.16b,w8
	hex_page	x8,.LCPI28_1
	hex_value	q4,x10,.LCPI28_0
	dup	v3.16b,w9
	hex_value	q5,x8,.LCPI28_1
	bsl	v0.16b,v5.16b,v4.16b
	bsl	v1.16b,v3.16b,v2.16b
	tbl	v0.16b,{ v0.16b },v1.16b
	mov	b1,v0.b[1]
	str	b0,[x3]
	stur	b1,[x3,#1]
	lsl	x1,x1,#1
	mov	x0,x3
	ret
11:
	cmp	w2,#0
	hex_page	x11,.LCPI28_0
	hex_page	x12,.LCPI28_1
	csetm	w10,ne
	hex_value	q1,x11,.LCPI28_0
	hex_value	q2,x12,.LCPI28_1
	dup	v0.16b,w10
	cmp	x1,#128
	bsl	v0.16b,v2.16b,v1.16b
	b.hi	17f
	movi	v1.16b,#15
	ldp	q3,q2,[x0]
	cmp	x1,#97
	ushr	v4.16b,v2.16b,#4
	ushr	v5.16b,v3.16b,#4
	and	v2.16b,v2.16b,v1.16b
	and	v3.16b,v3.16b,v1.16b
	zip2	v6.16b,v4.16b,v2.16b
	zip1	v2.16b,v4.16b,v2.16b
	zip2	v4.16b,v5.16b,v3.16b
	zip1	v3.16b,v5.16b,v3.16b
	tbl	v5.16b,{ v0.16b },v6.16b
	tbl	v2.16b,{ v0.16b },v2.16b
	tbl	v4.16b,{ v0.16b },v4.16b
	tbl	v3.16b,{ v0.16b },v3.16b
	stp	q2,q5,[x3,#32]
	stp	q3,q4,[x3]
	ldp	q3,q2,[x0,#32]
	ushr	v4.16b,v2.16b,#4
	and	v2.16b,v2.16b,v1.16b
	ushr	v5.16b,v3.16b,#4
	and	v3.16b,v3.16b,v1.16b
	zip2	v6.16b,v4.16b,v2.16b
	zip1	v2.16b,v4.16b,v2.16b
	zip2	v4.16b,v5.16b,v3.16b
	zip1	v3.16b,v5.16b,v3.16b
	tbl	v5.16b,{ v0.16b },v6.16b
	tbl	v2.16b,{ v0.16b },v2.16b
	tbl	v4.16b,{ v0.16b },v4.16b
	tbl	v3.16b,{ v0.16b },v3.16b
	stp	q2,q5,[x3,#96]
	stp	q3,q4,[x3,#64]
	b.lo	14f
	add	x10,x0,x9
	add	x9,x3,x9,lsl #1
	ldp	q3,q2,[x10]
	ushr	v4.16b,v2.16b,#4
	and	v2.16b,v2.16b,v1.16b
	ushr	v5.16b,v3.16b,#4
	and	v3.16b,v3.16b,v1.16b
	zip2	v6.16b,v4.16b,v2.16b
	zip1	v2.16b,v4.16b,v2.16b
	zip2	v4.16b,v5.16b,v3.16b
	zip1	v3.16b,v5.16b,v3.16b
	tbl	v5.16b,{ v0.16b },v6.16b
	tbl	v2.16b,{ v0.16b },v2.16b
	tbl	v4.16b,{ v0.16b },v4.16b
	tbl	v3.16b,{ v0.16b },v3.16b
	stp	q2,q5,[x9,#32]
	stp	q3,q4,[x9]
14:
	add	x9,x0,x8
	add	x8,x3,x8,lsl #1
	ldp	q3,q2,[x9]
	ushr	v4.16b,v2.16b,#4
	and	v2.16b,v2.16b,v1.16b
	ushr	v5.16b,v3.16b,#4
	and	v1.16b,v3.16b,v1.16b
	zip2	v3.16b,v4.16b,v2.16b
	zip1	v2.16b,v4.16b,v2.16b
	zip2	v4.16b,v5.16b,v1.16b
	zip1	v1.16b,v5.16b,v1.16b
	tbl	v3.16b,{ v0.16b },v3.16b
	tbl	v2.16b,{ v0.16b },v2.16b
	tbl	v4.16b,{ v0.16b },v4.16b
	tbl	v0.16b,{ v0.16b },v1.16b
	stp	q2,q3,[x8,#32]
	stp	q0,q4,[x8]
	lsl	x1,x1,#1
	mov	x0,x3
	ret
15:
	cmp	w2,#0
	hex_page	x9,.LCPI28_0
	hex_page	x10,.LCPI28_1
	csetm	w8,ne
	hex_value	q1,x9,.LCPI28_0
	hex_value	q2,x10,.LCPI28_1
	dup	v0.16b,w8
	subs	x8,x1,#16
	bsl	v0.16b,v2.16b,v1.16b
	b.hi	21f
	movi	v1.8b,#15
	ldr	d2,[x0]
	sub	x8,x1,#8
	ushr	v3.8b,v2.8b,#4
	and	v2.8b,v2.8b,v1.8b
	zip1	v2.16b,v3.16b,v2.16b
	tbl	v2.16b,{ v0.16b },v2.16b
	str	q2,[x3]
	ldr	d2,[x0,x8]
	lsl	x8,x8,#1
	ushr	v3.8b,v2.8b,#4
	and	v1.8b,v2.8b,v1.8b
	zip1	v1.16b,v3.16b,v1.16b
	tbl	v0.16b,{ v0.16b },v1.16b
	str	q0,[x3,x8]
	lsl	x1,x1,#1
	mov	x0,x3
	ret
17:
	lsr	x9,x1,#5
	mov	x10,x3
	mov	x11,x0
18:
	movi	v3.16b,#15
	subs	x9,x9,#1
	ldp	q5,q4,[x11],#32
	ushr	v6.16b,v4.16b,#4
	and	v4.16b,v4.16b,v3.16b
	ushr	v7.16b,v5.16b,#4
	and	v3.16b,v5.16b,v3.16b
	zip2	v5.16b,v6.16b,v4.16b
	zip1	v4.16b,v6.16b,v4.16b
	zip2	v6.16b,v7.16b,v3.16b
	zip1	v3.16b,v7.16b,v3.16b
	tbl	v5.16b,{ v0.16b },v5.16b
	tbl	v4.16b,{ v0.16b },v4.16b
	tbl	v6.16b,{ v0.16b },v6.16b
	tbl	v3.16b,{ v0.16b },v3.16b
	stp	q4,q5,[x10,#32]
	stp	q3,q6,[x10],#64
	b.ne	18b
	tst	x1,#0x1f
	b.eq	4b
	movi	v0.16b,#15
	add	x9,x0,x8
	cmp	w2,#0
	ldp	q4,q3,[x9]
	csetm	w9,ne
	dup	v5.16b,w9
	add	x8,x3,x8,lsl #1
	ushr	v6.16b,v3.16b,#4
	and	v3.16b,v3.16b,v0.16b
	and	v0.16b,v4.16b,v0.16b
	bit	v1.16b,v2.16b,v5.16b
	ushr	v4.16b,v4.16b,#4
	zip2	v2.16b,v6.16b,v3.16b
	zip1	v3.16b,v6.16b,v3.16b
	zip2	v5.16b,v4.16b,v0.16b
	zip1	v0.16b,v4.16b,v0.16b
	tbl	v2.16b,{ v1.16b },v2.16b
	tbl	v3.16b,{ v1.16b },v3.16b
	tbl	v4.16b,{ v1.16b },v5.16b
	tbl	v0.16b,{ v1.16b },v0.16b
	stp	q3,q2,[x8,#32]
	stp	q0,q4,[x8]
	lsl	x1,x1,#1
	mov	x0,x3
	ret
21:
	movi	v1.16b,#15
	ldr	q2,[x0]
	ushr	v3.16b,v2.16b,#4
	and	v2.16b,v2.16b,v1.16b
	tbl	v3.16b,{ v0.16b },v3.16b
	tbl	v2.16b,{ v0.16b },v2.16b
	zip1	v4.16b,v3.16b,v2.16b
	zip2	v2.16b,v3.16b,v2.16b
	stp	q4,q2,[x3]
	ldr	q2,[x0,x8]
	add	x8,x3,x8,lsl #1
	ushr	v3.16b,v2.16b,#4
	and	v1.16b,v2.16b,v1.16b
	tbl	v2.16b,{ v0.16b },v3.16b
	tbl	v0.16b,{ v0.16b },v1.16b
	zip1	v1.16b,v2.16b,v0.16b
	zip2	v0.16b,v2.16b,v0.16b
	stp	q1,q0,[x8]
	lsl	x1,x1,#1
	mov	x0,x3
	ret
22:
	cmp	w2,#0
	hex_page	x9,.LCPI28_0
	hex_page	x10,.LCPI28_1
	csetm	w8,ne
	hex_value	q1,x9,.LCPI28_0
	hex_value	q2,x10,.LCPI28_1
	dup	v0.16b,w8
	cmp	x1,#3
	bsl	v0.16b,v2.16b,v1.16b
	b.hi	24f
	ldr	h1,[x0]
	hex_page	x8,.LCPI28_2
	hex_value	q3,x8,.LCPI28_2
	sub	x8,x1,#2
	ushll	v1.8h,v1.8b,#0
	ushll	v2.4s,v1.4h,#0
	ushr	v1.2s,v2.2s,#4
	bic	v2.2s,#240
	mov	v2.b[1],v2.b[4]
	mov	v1.b[1],v1.b[4]
	tbl	v1.16b,{ v1.16b,v2.16b },v3.16b
	tbl	v1.16b,{ v0.16b },v1.16b
	zip1	v1.16b,v1.16b,v0.16b
	xtn	v1.8b,v1.8h
	str	s1,[x3]
	ldr	h1,[x0,x8]
	lsl	x8,x8,#1
	ushll	v1.8h,v1.8b,#0
	ushll	v2.4s,v1.4h,#0
	ushr	v1.2s,v2.2s,#4
	bic	v2.2s,#240
	mov	v2.b[1],v2.b[4]
	mov	v1.b[1],v1.b[4]
	tbl	v1.16b,{ v1.16b,v2.16b },v3.16b
	tbl	v0.16b,{ v0.16b },v1.16b
	zip1	v0.16b,v0.16b,v0.16b
	xtn	v0.8b,v0.8h
	str	s0,[x3,x8]
	lsl	x1,x1,#1
	mov	x0,x3
	ret
24:
	ldr	s1,[x0]
	ushll	v1.8h,v1.8b,#0
	ushr	v2.4h,v1.4h,#4
	bic	v1.4h,#240
	umov	w8,v2.h[0]
	umov	w9,v1.h[0]
	umov	w10,v2.h[1]
	umov	w11,v1.h[1]
	umov	w12,v2.h[2]
	umov	w13,v1.h[2]
	umov	w14,v2.h[3]
	umov	w15,v1.h[3]
	fmov	s3,w8
	mov	v3.b[1],w9
	mov	v3.b[2],w10
	mov	v3.b[3],w11
	mov	v3.b[4],w12
	mov	v3.b[5],w13
	mov	v3.b[6],w14
	mov	v3.b[7],w15
	mov	v3.b[8],w8
	sub	x8,x1,#4
	mov	v3.b[9],w9
	mov	v3.b[10],w10
	mov	v3.b[11],w11
	mov	v3.b[12],w12
	mov	v3.b[13],w13
	mov	v3.b[14],w14
	mov	v3.b[15],w15
	tbl	v1.16b,{ v0.16b },v3.16b
	str	d1,[x3]
	ldr	s1,[x0,x8]
	lsl	x8,x8,#1
	ushll	v1.8h,v1.8b,#0
	ushr	v2.4h,v1.4h,#4
	bic	v1.4h,#240
	umov	w9,v2.h[0]
	umov	w10,v1.h[0]
	umov	w11,v2.h[1]
	umov	w12,v1.h[1]
	umov	w13,v2.h[2]
	umov	w14,v1.h[2]
	umov	w15,v2.h[3]
	umov	w16,v1.h[3]
	fmov	s3,w9
	mov	v3.b[1],w10
	mov	v3.b[2],w11
	mov	v3.b[3],w12
	mov	v3.b[4],w13
	mov	v3.b[5],w14
	mov	v3.b[6],w15
	mov	v3.b[7],w16
	mov	v3.b[8],w9
	mov	v3.b[9],w10
	mov	v3.b[10],w11
	mov	v3.b[11],w12
	mov	v3.b[12],w13
	mov	v3.b[13],w14
	mov	v3.b[14],w15
	mov	v3.b[15],w16
	tbl	v0.16b,{ v0.16b },v3.16b
	str	d0,[x3,x8]
	lsl	x1,x1,#1
	mov	x0,x3
	ret
25:
	brk	#0x1
	hex_end	io_digits_encoded
	hex_merged	16
	.p2align	4,0x0
.LCPI29_0:
	.byte	48,49,50,51,52,53,54,55,56,57,97,98,99,100,101,102
.LCPI29_1:
	.byte	48,49,50,51,52,53,54,55,56,57,65,66,67,68,69,70
	hex_function	codec_grouped_write_with_room,.text
	cmp	x3,#4
	b.eq	6f
	cmp	x3,#1
	b.ne	10f
	hex_page	x8,.Lstatic.34
	hex_address	x8,x8,.Lstatic.34
	hex_page	x9,.Lstatic.33
	hex_address	x9,x9,.Lstatic.33
	cmp	w5,#0
	csel	x9,x9,x8,ne
	cmp	x1,#2
	b.lo	23f
	sub	x10,x1,#1
	mov	x8,xzr
	mov	x11,x2
	mov	x12,x10
	mov	x13,x0
4:
	ldrb	w14,[x13],#1
	sub	x12,x12,#1
	sub	x8,x8,#3
	ldrh	w14,[x9,x14,lsl #1]
	strb	w4,[x11,#2]
	strh	w14,[x11],#3
	cbnz	x12,4b
	neg	x11,x8
	ldrb	w8,[x0,x10]
	add	x0,x11,#2
	ldrh	w8,[x9,x8,lsl #1]
	strh	w8,[x2,x11]
	ret
6:
	hex_page	x8,.Lstatic.34
	hex_address	x8,x8,.Lstatic.34
	hex_page	x9,.Lstatic.33
	hex_address	x9,x9,.Lstatic.33
	cmp	w5,#0
	csel	x8,x9,x8,ne
	cmp	x1,#5
	b.lo	25f
	mov	x10,xzr
	mov	x9,xzr
	mov	x11,x0
8:
	ldrb	w12,[x11]
	add	x13,x2,x9
	sub	x10,x10,#4
	add	x9,x9,#9
	ldrh	w12,[x8,x12,lsl #1]
	strh	w12,[x13]
	ldrb	w12,[x11,#1]
	ldrh	w12,[x8,x12,lsl #1]
	strh	w12,[x13,#2]
	ldrb	w12,[x11,#2]
	ldrh	w12,[x8,x12,lsl #1]
	strh	w12,[x13,#4]
	ldrb	w12,[x11,#3]
	add	x11,x11,#4
	ldrh	w14,[x8,x12,lsl #1]
	add	x12,x1,x10
	strb	w4,[x13,#8]
	cmp	x12,#4
	strh	w14,[x13,#6]
	b.hi	8b
	neg	x10,x10
	mov	x1,x12
	cbnz	x12,26f
	b	28f
10:
	cmp	x3,x1
	b.hs	29f
	lsl	x9,x3,#1
	hex_page	x10,.Lstatic.34
	hex_address	x10,x10,.Lstatic.34
	cmp	w5,#0
	hex_page	x11,.Lstatic.33
	hex_address	x11,x11,.Lstatic.33
	csetm	w8,ne
	csel	x11,x11,x10,ne
	cmp	x3,#7
	b.hi	42f
	cbz	x3,14f
	mov	x10,xzr
	mov	x8,xzr
	add	x12,x2,x9
	b	16f
14:
	strb	w4,[x2],#1
	b	14b
15:
	sub	x1,x1,x3
	add	x13,x8,x9
	add	x10,x10,x3
	cmp	x3,x1
	strb	w4,[x12,x8]
	add	x8,x13,#1
	b.hs	30f
16:
	ldrb	w13,[x0,x10]
	cmp	x3,#1
	ldrh	w13,[x11,x13,lsl #1]
	strh	w13,[x2,x8]
	b.eq	15b
	add	x14,x0,x10
	cmp	x3,#2
	ldrb	w13,[x14,#1]
	ldrh	w15,[x11,x13,lsl #1]
	add	x13,x2,x8
	strh	w15,[x13,#2]
	b.eq	15b
	ldrb	w14,[x14,#2]
	cmp	x3,#3
	ldrh	w14,[x11,x14,lsl #1]
	strh	w14,[x13,#4]
	b.eq	15b
	add	x14,x0,x10
	cmp	x3,#4
	ldrb	w13,[x14,#3]
	ldrh	w15,[x11,x13,lsl #1]
	add	x13,x2,x8
	strh	w15,[x13,#6]
	b.eq	15b
	ldrb	w14,[x14,#4]
	cmp	x3,#5
	ldrh	w14,[x11,x14,lsl #1]
	strh	w14,[x13,#8]
	b.eq	15b
	add	x13,x0,x10
	cmp	x3,#6
	ldrb	w14,[x13,#5]
	ldrh	w15,[x11,x14,lsl #1]
	add	x14,x2,x8
	strh	w15,[x14,#10]
	b.eq	15b
	ldrb	w13,[x13,#6]
	ldrh	w13,[x11,x13,lsl #1]
	strh	w13,[x14,#12]
	b	15b
23:
	mov	x10,xzr
	mov	x11,xzr
	mov	x8,xzr
	cbz	x1,73f
	ldrb	w8,[x0,x10]
	add	x0,x11,#2
	ldrh	w8,[x9,x8,lsl #1]
	strh	w8,[x2,x11]
	ret
25:
	mov	x9,xzr
	mov	x10,xzr
	cbz	x1,28f
26:
	add	x11,x9,x2
	add	x10,x0,x10
	mov	x12,x1
	add	x11,x11,#1
27:
	ldrb	w13,[x10],#1
	subs	x12,x12,#1
	ldrh	w13,[x8,x13,lsl #1]
	sturh	w13,[x11,#-1]
	add	x11,x11,#2
	b.ne	27b
28:
	add	x0,x9,x1,lsl #1
	ret
29:
	mov	x8,xzr
	mov	x10,xzr
30:
	cmp	x1,#7
	add	x10,x0,x10
	add	x9,x2,x8
	b.hi	39f
	hex_page	x11,.Lstatic.34
	hex_address	x11,x11,.Lstatic.34
	cmp	w5,#0
	hex_page	x12,.Lstatic.33
	hex_address	x12,x12,.Lstatic.33
	csel	x11,x12,x11,ne
	cbz	x1,72f
	ldrb	w12,[x10]
	cmp	x1,#1
	ldrh	w12,[x11,x12,lsl #1]
	strh	w12,[x9]
	b.eq	72f
	ldrb	w12,[x10,#1]
	cmp	x1,#2
	ldrh	w12,[x11,x12,lsl #1]
	strh	w12,[x9,#2]
	b.eq	72f
	ldrb	w12,[x10,#2]
	cmp	x1,#3
	ldrh	w12,[x11,x12,lsl #1]
	strh	w12,[x9,#4]
	b.eq	72f
	ldrb	w12,[x10,#3]
	cmp	x1,#4
	ldrh	w12,[x11,x12,lsl #1]
	strh	w12,[x9,#6]
	b.eq	72f
	ldrb	w12,[x10,#4]
	cmp	x1,#5
	ldrh	w12,[x11,x12,lsl #1]
	strh	w12,[x9,#8]
	b.eq	72f
	ldrb	w12,[x10,#5]
	cmp	x1,#6
	ldrh	w12,[x11,x12,lsl #1]
	strh	w12,[x9,#10]
	b.eq	72f
	ldrb	w10,[x10,#6]
	ldrh	w10,[x11,x10,lsl #1]
	strh	w10,[x9,#12]
	b	72f
39:
	subs	x11,x1,#32
	b.hi	46f
	cmp	w5,#0
	hex_page	x12,.LCPI29_0
	hex_page	x13,.LCPI29_1
	csetm	w11,ne
	hex_value	q1,x12,.LCPI29_0
	hex_value	q2,x13,.LCPI29_1
	dup	v0.16b,w11
	cmp	x1,#32
	bsl	v0.16b,v2.16b,v1.16b
	b.ne	51f
	movi	v1.16b,#15
	ldp	q3,q2,[x10]
	ushr	v4.16b,v2.16b,#4
	ushr	v5.16b,v3.16b,#4
	and	v2.16b,v2.16b,v1.16b
	b	70f
42:
	hex_page	x10,.LCPI29_0
	hex_page	x11,.LCPI29_1
	dup	v0.16b,w8
	hex_value	q1,x10,.LCPI29_0
	hex_value	q2,x11,.LCPI29_1
	cmp	x3,#32
	sub	x11,x3,#16
	sub	x12,x3,#8
	bsl	v0.16b,v2.16b,v1.16b
	b.hi	48f
	b.ne	56f
	mov	x10,xzr
	mov	x8,xzr
	add	x11,x2,x9
45:
	movi	v1.16b,#15
	add	x12,x0,x10
	sub	x1,x1,#32
	ldp	q3,q2,[x12]
	add	x12,x2,x8
	add	x13,x8,x9
	cmp	x1,#32
	add	x10,x10,#32
	ushr	v4.16b,v2.16b,#4
	and	v2.16b,v2.16b,v1.16b
	ushr	v5.16b,v3.16b,#4
	and	v1.16b,v3.16b,v1.16b
	zip2	v3.16b,v4.16b,v2.16b
	zip1	v2.16b,v4.16b,v2.16b
	zip2	v4.16b,v5.16b,v1.16b
	zip1	v1.16b,v5.16b,v1.16b
	tbl	v3.16b,{ v0.16b },v3.16b
	tbl	v2.16b,{ v0.16b },v2.16b
	tbl	v4.16b,{ v0.16b },v4.16b
	tbl	v1.16b,{ v0.16b },v1.16b
	stp	q2,q3,[x12,#32]
	stp	q1,q4,[x12]
	strb	w4,[x11,x8]
	add	x8,x13,#1
	b.hi	45b
	b	30b
46:
	subs	x12,x1,#64
	b.hi	53f
	movi	v0.16b,#15
	ldp	q2,q1,[x10]
	cmp	w5,#0
	hex_page	x13,.LCPI29_0
	add	x10,x10,x11
	csetm	w12,ne
	hex_value	q5,x13,.LCPI29_0
	dup	v3.16b,w12
	hex_page	x12,.LCPI29_1
	ushr	v4.16b,v1.16b,#4
	and	v1.16b,v1.16b,v0.16b
	ushr	v7.16b,v2.16b,#4
	and	v2.16b,v2.16b,v0.16b
	hex_value	q6,x12,.LCPI29_1
	bsl	v3.16b,v6.16b,v5.16b
	zip2	v5.16b,v4.16b,v1.16b
	zip1	v1.16b,v4.16b,v1.16b
	zip2	v4.16b,v7.16b,v2.16b
	zip1	v2.16b,v7.16b,v2.16b
	tbl	v5.16b,{ v3.16b },v5.16b
	tbl	v1.16b,{ v3.16b },v1.16b
	tbl	v4.16b,{ v3.16b },v4.16b
	tbl	v2.16b,{ v3.16b },v2.16b
	stp	q1,q5,[x9,#32]
	stp	q2,q4,[x9]
	add	x9,x9,x11,lsl #1
	ldp	q2,q1,[x10]
	ushr	v4.16b,v1.16b,#4
	and	v1.16b,v1.16b,v0.16b
	ushr	v5.16b,v2.16b,#4
	and	v0.16b,v2.16b,v0.16b
	zip2	v2.16b,v4.16b,v1.16b
	zip1	v1.16b,v4.16b,v1.16b
	zip2	v4.16b,v5.16b,v0.16b
	zip1	v0.16b,v5.16b,v0.16b
	tbl	v2.16b,{ v3.16b },v2.16b
	tbl	v1.16b,{ v3.16b },v1.16b
	tbl	v4.16b,{ v3.16b },v4.16b
	tbl	v0.16b,{ v3.16b },v0.16b
	stp	q1,q2,[x9,#32]
	b	71f
48:
	cmp	x3,#64
	sub	x11,x3,#32
	b.hi	59f
	mov	x10,xzr
	mov	x8,xzr
	add	x11,x0,x11
	add	x12,x2,x9
50:
	movi	v1.16b,#15
	add	x13,x0,x10
	add	x14,x11,x10
	ldp	q3,q2,[x13]
	add	x13,x2,x8
	sub	x1,x1,x3
	add	x10,x10,x3
	cmp	x3,x1
	ushr	v4.16b,v2.16b,#4
	and	v2.16b,v2.16b,v1.16b
	ushr	v5.16b,v3.16b,#4
	and	v3.16b,v3.16b,v1.16b
	zip2	v6.16b,v4.16b,v2.16b
	zip1	v2.16b,v4.16b,v2.16b
	zip2	v4.16b,v5.16b,v3.16b
	zip1	v3.16b,v5.16b,v3.16b
	tbl	v5.16b,{ v0.16b },v6.16b
	tbl	v2.16b,{ v0.16b },v2.16b
	tbl	v4.16b,{ v0.16b },v4.16b
	tbl	v3.16b,{ v0.16b },v3.16b
	stp	q2,q5,[x13,#32]
	stp	q3,q4,[x13]
	add	x13,x12,x8
	add	x8,x8,x9
	ldp	q3,q2,[x14]
	add	x8,x8,#1
	strb	w4,[x13]
	ushr	v4.16b,v2.16b,#4
	and	v2.16b,v2.16b,v1.16b
	ushr	v5.16b,v3.16b,#4
	and	v1.16b,v3.16b,v1.16b
	zip2	v3.16b,v4.16b,v2.16b
	zip1	v2.16b,v4.16b,v2.16b
	zip2	v4.16b,v5.16b,v1.16b
	zip1	v1.16b,v5.16b,v1.16b
	tbl	v3.16b,{ v0.16b },v3.16b
	tbl	v2.16b,{ v0.16b },v2.16b
	tbl	v4.16b,{ v0.16b },v4.16b
	tbl	v1.16b,{ v0.16b },v1.16b
	stp	q2,q3,[x13,#-32]
	stp	q1,q4,[x13,#-64]
	b.lo	50b
	b	30b
51:
	subs	x11,x1,#16
	b.hi	64f
	movi	v1.8b,#15
	ldr	d2,[x10]
	sub	x11,x1,#8
	ushr	v3.8b,v2.8b,#4
	and	v2.8b,v2.8b,v1.8b
	zip1	v2.16b,v3.16b,v2.16b
	tbl	v2.16b,{ v0.16b },v2.16b
	str	q2,[x9]
	ldr	d2,[x10,x11]
	lsl	x10,x11,#1
	ushr	v3.8b,v2.8b,#4
	and	v1.8b,v2.8b,v1.8b
	zip1	v1.16b,v3.16b,v1.16b
	tbl	v0.16b,{ v0.16b },v1.16b
	str	q0,[x9,x10]
	b	72f
53:
	cmp	w5,#0
	hex_page	x14,.LCPI29_0
	hex_page	x15,.LCPI29_1
	csetm	w13,ne
	hex_value	q1,x14,.LCPI29_0
	hex_value	q2,x15,.LCPI29_1
	dup	v0.16b,w13
	cmp	x1,#128
	bsl	v0.16b,v2.16b,v1.16b
	b.hi	65f
	movi	v1.16b,#15
	ldp	q3,q2,[x10]
	cmp	x1,#97
	ushr	v4.16b,v2.16b,#4
	ushr	v5.16b,v3.16b,#4
	and	v2.16b,v2.16b,v1.16b
	and	v3.16b,v3.16b,v1.16b
	zip2	v6.16b,v4.16b,v2.16b
	zip1	v2.16b,v4.16b,v2.16b
	zip2	v4.16b,v5.16b,v3.16b
	zip1	v3.16b,v5.16b,v3.16b
	tbl	v5.16b,{ v0.16b },v6.16b
	tbl	v2.16b,{ v0.16b },v2.16b
	tbl	v4.16b,{ v0.16b },v4.16b
	tbl	v3.16b,{ v0.16b },v3.16b
	stp	q2,q5,[x9,#32]
	stp	q3,q4,[x9]
	ldp	q3,q2,[x10,#32]
	ushr	v4.16b,v2.16b,#4
	and	v2.16b,v2.16b,v1.16b
	ushr	v5.16b,v3.16b,#4
	and	v3.16b,v3.16b,v1.16b
	zip2	v6.16b,v4.16b,v2.16b
	zip1	v2.16b,v4.16b,v2.16b
	zip2	v4.16b,v5.16b,v3.16b
	zip1	v3.16b,v5.16b,v3.16b
	tbl	v5.16b,{ v0.16b },v6.16b
	tbl	v2.16b,{ v0.16b },v2.16b
	tbl	v4.16b,{ v0.16b },v4.16b
	tbl	v3.16b,{ v0.16b },v3.16b
	stp	q2,q5,[x9,#96]
	stp	q3,q4,[x9,#64]
	b.lo	69f
	add	x13,x10,x12
	add	x12,x9,x12,lsl #1
	ldp	q3,q2,[x13]
	ushr	v4.16b,v2.16b,#4
	and	v2.16b,v2.16b,v1.16b
	ushr	v5.16b,v3.16b,#4
	and	v3.16b,v3.16b,v1.16b
	zip2	v6.16b,v4.16b,v2.16b
	zip1	v2.16b,v4.16b,v2.16b
	zip2	v4.16b,v5.16b,v3.16b
	zip1	v3.16b,v5.16b,v3.16b
	tbl	v5.16b,{ v0.16b },v6.16b
	tbl	v2.16b,{ v0.16b },v2.16b
	tbl	v4.16b,{ v0.16b },v4.16b
	tbl	v3.16b,{ v0.16b },v3.16b
	stp	q2,q5,[x12,#32]
	stp	q3,q4,[x12]
	b	69f
56:
	cmp	x3,#17
	b.hs	74f
	mov	x10,xzr
	mov	x8,xzr
	add	x11,x0,x12
	add	x12,x2,x9
58:
	movi	v1.8b,#15
	ldr	d2,[x0,x10]
	add	x13,x12,x8
	sub	x1,x1,x3
	ushr	v3.8b,v2.8b,#4
	cmp	x3,x1
	and	v2.8b,v2.8b,v1.8b
	zip1	v2.16b,v3.16b,v2.16b
	tbl	v2.16b,{ v0.16b },v2.16b
	str	q2,[x2,x8]
	add	x8,x8,x9
	ldr	d2,[x11,x10]
	add	x10,x10,x3
	add	x8,x8,#1
	strb	w4,[x13]
	ushr	v3.8b,v2.8b,#4
	and	v1.8b,v2.8b,v1.8b
	zip1	v1.16b,v3.16b,v1.16b
	tbl	v1.16b,{ v0.16b },v1.16b
	stur	q1,[x13,#-16]
	b.lo	58b
	b	30b
59:
	cmp	x3,#129
	b.hs	76f
	mov	x10,xzr
	mov	x8,xzr
	add	x12,x2,x9
	mov	x13,x0
	b	62f
61:
	add	x14,x13,x11
	sub	x10,x10,x3
	add	x15,x12,x8
	ldp	q3,q2,[x14]
	add	x14,x1,x10
	add	x8,x8,x9
	cmp	x3,x14
	add	x13,x13,x3
	add	x8,x8,#1
	strb	w4,[x15]
	ushr	v4.16b,v2.16b,#4
	and	v2.16b,v2.16b,v1.16b
	ushr	v5.16b,v3.16b,#4
	and	v1.16b,v3.16b,v1.16b
	zip2	v3.16b,v4.16b,v2.16b
	zip1	v2.16b,v4.16b,v2.16b
	zip2	v4.16b,v5.16b,v1.16b
	zip1	v1.16b,v5.16b,v1.16b
	tbl	v3.16b,{ v0.16b },v3.16b
	tbl	v2.16b,{ v0.16b },v2.16b
	tbl	v4.16b,{ v0.16b },v4.16b
	tbl	v1.16b,{ v0.16b },v1.16b
	stp	q2,q3,[x15,#-32]
	stp	q1,q4,[x15,#-64]
	b.hs	83f
62:
	movi	v1.16b,#15
	ldp	q3,q2,[x13]
	add	x14,x2,x8
	cmp	x3,#97
	ushr	v4.16b,v2.16b,#4
	ushr	v5.16b,v3.16b,#4
	and	v2.16b,v2.16b,v1.16b
	and	v3.16b,v3.16b,v1.16b
	zip2	v6.16b,v4.16b,v2.16b
	zip1	v2.16b,v4.16b,v2.16b
	zip2	v4.16b,v5.16b,v3.16b
	zip1	v3.16b,v5.16b,v3.16b
	tbl	v5.16b,{ v0.16b },v6.16b
	tbl	v2.16b,{ v0.16b },v2.16b
	tbl	v4.16b,{ v0.16b },v4.16b
	tbl	v3.16b,{ v0.16b },v3.16b
	stp	q2,q5,[x14,#32]
	stp	q3,q4,[x14]
	ldp	q3,q2,[x13,#32]
	ushr	v4.16b,v2.16b,#4
	and	v2.16b,v2.16b,v1.16b
	ushr	v5.16b,v3.16b,#4
	and	v3.16b,v3.16b,v1.16b
	zip2	v6.16b,v4.16b,v2.16b
	zip1	v2.16b,v4.16b,v2.16b
	zip2	v4.16b,v5.16b,v3.16b
	zip1	v3.16b,v5.16b,v3.16b
	tbl	v5.16b,{ v0.16b },v6.16b
	tbl	v2.16b,{ v0.16b },v2.16b
	tbl	v4.16b,{ v0.16b },v4.16b
	tbl	v3.16b,{ v0.16b },v3.16b
	stp	q2,q5,[x14,#96]
	stp	q3,q4,[x14,#64]
	b.lo	61b
	add	x14,x13,x11
	ldp	q3,q2,[x14,#-32]
	add	x14,x12,x8
	ushr	v4.16b,v2.16b,#4
	and	v2.16b,v2.16b,v1.16b
	ushr	v5.16b,v3.16b,#4
	and	v3.16b,v3.16b,v1.16b
	zip2	v6.16b,v4.16b,v2.16b
	zip1	v2.16b,v4.16b,v2.16b
	zip2	v4.16b,v5.16b,v3.16b
	zip1	v3.16b,v5.16b,v3.16b
	tbl	v5.16b,{ v0.16b },v6.16b
	tbl	v2.16b,{ v0.16b },v2.16b
	tbl	v4.16b,{ v0.16b },v4.16b
	tbl	v3.16b,{ v0.16b },v3.16b
	stp	q2,q5,[x14,#-96]
	stp	q3,q4,[x14,#-128]
	b	61b
64:
	movi	v1.16b,#15
	ldr	q2,[x10]
	ushr	v3.16b,v2.16b,#4
	and	v2.16b,v2.16b,v1.16b
	tbl	v3.16b,{ v0.16b },v3.16b
	tbl	v2.16b,{ v0.16b },v2.16b
	zip1	v4.16b,v3.16b,v2.16b
	zip2	v2.16b,v3.16b,v2.16b
	stp	q4,q2,[x9]
	add	x9,x9,x11,lsl #1
	ldr	q2,[x10,x11]
	ushr	v3.16b,v2.16b,#4
	and	v1.16b,v2.16b,v1.16b
	tbl	v2.16b,{ v0.16b },v3.16b
	tbl	v0.16b,{ v0.16b },v1.16b
	zip1	v1.16b,v2.16b,v0.16b
	zip2	v0.16b,v2.16b,v0.16b
	stp	q1,q0,[x9]
	b	72f
65:
	lsr	x12,x1,#5
	mov	x13,x10
	mov	x14,x9
66:
	movi	v1.16b,#15
	subs	x12,x12,#1
	ldp	q3,q2,[x13],#32
	ushr	v4.16b,v2.16b,#4
	and	v2.16b,v2.16b,v1.16b
	ushr	v5.16b,v3.16b,#4
	and	v1.16b,v3.16b,v1.16b
	zip2	v3.16b,v4.16b,v2.16b
	zip1	v2.16b,v4.16b,v2.16b
	zip2	v4.16b,v5.16b,v1.16b
	zip1	v1.16b,v5.16b,v1.16b
	tbl	v3.16b,{ v0.16b },v3.16b
	tbl	v2.16b,{ v0.16b },v2.16b
	tbl	v4.16b,{ v0.16b },v4.16b
	tbl	v1.16b,{ v0.16b },v1.16b
	stp	q2,q3,[x14,#32]
	stp	q1,q4,[x14],#64
	b.ne	66b
	tst	x1,#0x1f
	b.eq	72f
	movi	v1.16b,#15
69:
	add	x10,x10,x11
	add	x9,x9,x11,lsl #1
	ldp	q3,q2,[x10]
	ushr	v4.16b,v2.16b,#4
	and	v2.16b,v2.16b,v1.16b
	ushr	v5.16b,v3.16b,#4
70:
	and	v1.16b,v3.16b,v1.16b
	zip2	v3.16b,v4.16b,v2.16b
	zip1	v2.16b,v4.16b,v2.16b
	zip2	v4.16b,v5.16b,v1.16b
	zip1	v1.16b,v5.16b,v1.16b
	tbl	v3.16b,{ v0.16b },v3.16b
	tbl	v2.16b,{ v0.16b },v2.16b
	tbl	v4.16b,{ v0.16b },v4.16b
	tbl	v0.16b,{ v0.16b },v1.16b
	stp	q2,q3,[x9,#32]
71:
	stp	q0,q4,[x9]
72:
	add	x8,x8,x1,lsl #1
73:
	mov	x0,x8
	ret
74:
	mov	x10,xzr
	mov	x8,xzr
	add	x11,x0,x11
	add	x12,x2,x9
75:
	movi	v1.16b,#15
	ldr	q2,[x0,x10]
	add	x13,x2,x8
	sub	x1,x1,x3
	ushr	v3.16b,v2.16b,#4
	cmp	x3,x1
	and	v2.16b,v2.16b,v1.16b
	tbl	v3.16b,{ v0.16b },v3.16b
	tbl	v4.16b,{ v0.16b },v2.16b
	zip2	v2.16b,v3.16b,v4.16b
	st2	{ v3.8b,v4.8b },[x13],#16
	str	q2,[x13]
	add	x13,x12,x8
	add	x8,x8,x9
	ldr	q2,[x11,x10]
	sub	x14,x13,#32
	add	x10,x10,x3
	add	x8,x8,#1
	strb	w4,[x13]
	ushr	v3.16b,v2.16b,#4
	and	v1.16b,v2.16b,v1.16b
	tbl	v2.16b,{ v0.16b },v3.16b
	tbl	v3.16b,{ v0.16b },v1.16b
	zip2	v1.16b,v2.16b,v3.16b
	st2	{ v2.8b,v3.8b },[x14]
	stur	q1,[x13,#-16]
	b.lo	75b
	b	30b
76:
	lsr	x12,x3,#5
	lsl	x14,x11,#1
	mov	x10,xzr
	mov	x8,xzr
	and	x13,x3,#0x1f
	add	x15,x9,#1
	mov	x16,x0
	mov	x17,x2
	b	78f
77:
	add	x10,x10,x3
	add	x8,x8,x9
	add	x17,x17,x15
	sub	x18,x1,x10
	strb	w4,[x2,x8]
	add	x8,x8,#1
	cmp	x3,x18
	add	x16,x16,x3
	b.hs	84f
78:
	cbz	x12,81f
	mov	x18,x16
	mov	x6,x17
	mov	x7,x12
80:
	movi	v1.16b,#15
	subs	x7,x7,#1
	ldp	q3,q2,[x18],#32
	ushr	v4.16b,v2.16b,#4
	and	v2.16b,v2.16b,v1.16b
	ushr	v5.16b,v3.16b,#4
	and	v1.16b,v3.16b,v1.16b
	zip2	v3.16b,v4.16b,v2.16b
	zip1	v2.16b,v4.16b,v2.16b
	zip2	v4.16b,v5.16b,v1.16b
	zip1	v1.16b,v5.16b,v1.16b
	tbl	v3.16b,{ v0.16b },v3.16b
	tbl	v2.16b,{ v0.16b },v2.16b
	tbl	v4.16b,{ v0.16b },v4.16b
	tbl	v1.16b,{ v0.16b },v1.16b
	stp	q2,q3,[x6,#32]
	stp	q1,q4,[x6],#64
	b.ne	80b
81:
	cbz	x13,77b
	add	x18,x0,x10
	movi	v1.16b,#15
	add	x18,x18,x11
	ldp	q3,q2,[x18]
	add	x18,x2,x8
	add	x18,x18,x14
	ushr	v4.16b,v2.16b,#4
	and	v2.16b,v2.16b,v1.16b
	ushr	v5.16b,v3.16b,#4
	and	v1.16b,v3.16b,v1.16b
	zip2	v3.16b,v4.16b,v2.16b
	zip1	v2.16b,v4.16b,v2.16b
	zip2	v4.16b,v5.16b,v1.16b
	zip1	v1.16b,v5.16b,v1.16b
	tbl	v3.16b,{ v0.16b },v3.16b
	tbl	v2.16b,{ v0.16b },v2.16b
	tbl	v4.16b,{ v0.16b },v4.16b
	tbl	v1.16b,{ v0.16b },v1.16b
	stp	q2,q3,[x18,#32]
	stp	q1,q4,[x18]
	b	77b
83:
	neg	x10,x10
	mov	x1,x14
	b	30b
84:
	mov	x1,x18
	b	30b
	hex_end	codec_grouped_write_with_room
	hex_merged	16
	.p2align	4,0x0
.LCPI30_0:
	.byte	1,2,4,8,16,32,64,128,1,2,4,8,16,32,64,128
	hex_function	core_slice_reads_slice_T_starts_with,.text
	cmp	x1,x3
	b.hs	2f
	mov	w0,wzr
	ret
2:
	cmp	x3,#3
	b.hi	5f
	cbz	x3,9f
	lsr	x8,x3,#1
	ldrb	w9,[x2]
	ldrb	w10,[x0]
	sub	x11,x3,#1
	ldrb	w12,[x2,x8]
	ldrb	w8,[x0,x8]
	cmp	w9,w10
	ldrb	w9,[x2,x11]
	ldrb	w10,[x0,x11]
	ccmp	w12,w8,#0,eq
	ccmp	w9,w10,#0,eq
	cset	w8,ne
	eor	w0,w8,#0x1
	ret
5:
	subs	x9,x3,#8
	b.hi	7f
	sub	x8,x3,#4
	ldr	s0,[x2]
	ldr	s1,[x0]
	add	x9,x2,x8
	add	x8,x0,x8
	ld1	{ v0.s }[1],[x9]
	ld1	{ v1.s }[1],[x8]
	fmov	x8,d0
	fmov	x9,d1
	cmp	x8,x9
	cset	w8,ne
	eor	w0,w8,#0x1
	ret
7:
	subs	x8,x3,#32
	b.hi	10f
	cmp	x9,#8
	mov	w8,#8
	mov	w10,#16
	csel	x8,x9,x8,lo
	cmp	x9,#16
	ldr	d0,[x2]
	ldr	d1,[x0]
	ldr	d2,[x2,x8]
	ldr	d3,[x0,x8]
	csel	x8,x9,x10,lo
	ldr	d5,[x0,x9]
	ldr	d4,[x2,x8]
	mov	v0.d[1],v2.d[0]
	mov	v1.d[1],v3.d[0]
	ldr	d2,[x0,x8]
	ldr	d3,[x2,x9]
	mov	v4.d[1],v3.d[0]
	mov	v2.d[1],v5.d[0]
	cmeq	v0.16b,v0.16b,v1.16b
	cmeq	v1.16b,v4.16b,v2.16b
	b	23f
9:
	eor	w0,wzr,#0x1
	ret
10:
	cmp	x3,#65
	b.hs	12f
	ldp	q1,q0,[x2]
	add	x9,x0,x8
	ldp	q3,q2,[x0]
	add	x8,x2,x8
	ldp	q4,q5,[x9]
	cmeq	v1.16b,v1.16b,v3.16b
	cmeq	v0.16b,v0.16b,v2.16b
	ldp	q2,q3,[x8]
	mvn	v1.16b,v1.16b
	mvn	v0.16b,v0.16b
	cmeq	v2.16b,v2.16b,v4.16b
	cmeq	v3.16b,v3.16b,v5.16b
	orn	v0.16b,v0.16b,v3.16b
	orn	v1.16b,v1.16b,v2.16b
	orr	v0.16b,v1.16b,v0.16b
	umaxv	b0,v0.16b
	fmov	w8,s0
	and	w8,w8,#0x1
	eor	w0,w8,#0x1
	ret
12:
	and	x9,x3,#0xffffffffffffffc0
	add	x10,x2,#32
	add	x12,x0,#32
	mov	w11,#32
	mov	x13,x3
13:
	ldp	q0,q3,[x12,#-32]
	ldp	q1,q2,[x10,#-32]
	ldp	q4,q5,[x12],#64
	cmeq	v0.16b,v1.16b,v0.16b
	cmeq	v1.16b,v2.16b,v3.16b
	ldp	q2,q3,[x10],#64
	mvn	v0.16b,v0.16b
	mvn	v1.16b,v1.16b
	cmeq	v2.16b,v2.16b,v4.16b
	cmeq	v3.16b,v3.16b,v5.16b
	orn	v0.16b,v0.16b,v2.16b
	orn	v1.16b,v1.16b,v3.16b
	orr	v0.16b,v1.16b,v0.16b
	umaxv	b0,v0.16b
	fmov	w14,s0
	tbnz	w14,#0,15f
	sub	x13,x13,#64
	add	x11,x11,#64
	cmp	x13,#63
	b.hi	13b
	b	16f
15:
	sub	x9,x11,#32
16:
	sub	x10,x3,x9
	cmp	x10,#32
	b.lo	22f
	add	x11,x0,x9
	add	x9,x2,x9
18:
	ldp	q0,q1,[x9],#32
	ldp	q2,q3,[x11],#32
	hex_page	x12,.LCPI30_0
	cmeq	v1.16b,v1.16b,v3.16b
	cmeq	v0.16b,v0.16b,v2.16b
	hex_value	q2,x12,.LCPI30_0
	bic	v1.16b,v2.16b,v1.16b
	bic	v0.16b,v2.16b,v0.16b
	ext	v2.16b,v1.16b,v1.16b,#8
	ext	v3.16b,v0.16b,v0.16b,#8
	zip1	v1.16b,v1.16b,v2.16b
	zip1	v0.16b,v0.16b,v3.16b
	addv	h1,v1.8h
	addv	h0,v0.8h
	fmov	w12,s1
	fmov	w13,s0
	orr	w12,w13,w12
	tst	w12,#0xffff
	b.ne	20f
	sub	x10,x10,#32
	cmp	x10,#31
	b.hi	18b
	b	22f
20:
	cmp	x10,#31
	b.ls	22f
	mov	w8,#1
	eor	w0,w8,#0x1
	ret
22:
	add	x9,x2,x8
	add	x8,x0,x8
	ldp	q0,q3,[x8]
	ldp	q1,q2,[x9]
	cmeq	v0.16b,v1.16b,v0.16b
	cmeq	v1.16b,v2.16b,v3.16b
23:
	mvn	v0.16b,v0.16b
	orn	v0.16b,v0.16b,v1.16b
	umaxv	b0,v0.16b
	fmov	w8,s0
	and	w8,w8,#0x1
	eor	w0,w8,#0x1
	ret
	hex_end	core_slice_reads_slice_T_starts_with
	hex_function	std_alloc_vec_Vec_grow_amortized___,.text.unlikely
	ldr	x8,[x0,#8]
	cmn	x8,x1
	b.lo	2f
	mov	w0,wzr
	ret
2:
	stp	x29,x30,[sp,#-32]!
	ldr	x10,[x0,#16]
	add	x9,x8,x1
	mov	w11,#8
	cmp	x9,#8
	stp	x20,x19,[sp,#16]
	mov	x29,sp
	lsl	x12,x10,#1
	csel	x11,x9,x11,hi
	lsr	x13,x10,#62
	cmp	x11,x12
	csel	x9,x11,x12,hi
	cmp	x13,#0
	csel	x19,x9,x11,eq
	tbnz	x19,#63,7f
	cbz	x10,6f
	mov	x20,x0
	ldr	x0,[x0]
	mov	x1,x8
	mov	x2,x19
	mov	w3,#1
	bl	fhex_realloc
	tbz	w0,#0,7f
5:
	mov	w0,#1
	str	x1,[x20]
	str	x19,[x20,#16]
	ldp	x20,x19,[sp,#16]
	ldp	x29,x30,[sp],#32
	ret
6:
	mov	x20,x0
	mov	x0,x9
	mov	w1,#1
	bl	fhex_alloc
	tbnz	w0,#0,5b
7:
	mov	w0,wzr
	ldp	x20,x19,[sp,#16]
	ldp	x29,x30,[sp],#32
	ret
	hex_end	std_alloc_vec_Vec_grow_amortized___
	hex_function	core_fmt_formatter_Formatter_write_indented,.text.unlikely
	stp	x29,x30,[sp,#-80]!
	str	x25,[sp,#16]
	mov	x29,sp
	stp	x24,x23,[sp,#32]
	stp	x22,x21,[sp,#48]
	stp	x20,x19,[sp,#64]
	cbz	x2,16f
	mov	x21,x2
	mov	x20,x1
	mov	x19,x0
	mov	x8,xzr
	mov	x24,xzr
	b	4f
2:
	mov	w23,#1
	add	x1,x20,x25
	mov	x0,x19
	mov	x2,x22
	strb	w23,[x19,#64]
	bl	core_fmt_formatter_Formatter_write_raw
	and	w9,w0,#0xff
	mov	x8,x24
	tbnz	w9,#0,18f
3:
	cmp	x24,x21
	b.eq	10f
4:
	ldrb	w10,[x20,x24]
	mov	x9,x24
	add	x24,x24,#1
	cmp	w10,#10
	b.ne	3b
	subs	x22,x24,x8
	csel	x25,xzr,x8,lo
	cmp	x8,x9
	mov	x8,x24
	b.hi	3b
	ldrb	w8,[x19,#64]
	cmp	w8,#1
	b.ne	2b
	ldr	x23,[x19,#56]
	cbz	x23,2b
8:
	hex_page	x1,.Lstatic.41
	hex_address	x1,x1,.Lstatic.41
	mov	x0,x19
	mov	w2,#4
	bl	core_fmt_formatter_Formatter_write_raw
	and	w8,w0,#0xff
	tbnz	w8,#0,17f
	subs	x23,x23,#1
	b.ne	8b
	b	2b
10:
	cmp	x8,x21
	csel	x22,xzr,x8,hi
	subs	x8,x21,x8
	csel	x21,xzr,x8,lo
	b.ls	16f
	ldrb	w8,[x19,#64]
	cmp	w8,#1
	b.ne	15f
	ldr	x23,[x19,#56]
	cbz	x23,15f
13:
	hex_page	x1,.Lstatic.41
	hex_address	x1,x1,.Lstatic.41
	mov	x0,x19
	mov	w2,#4
	bl	core_fmt_formatter_Formatter_write_raw
	and	w8,w0,#0xff
	tbnz	w8,#0,17f
	subs	x23,x23,#1
	b.ne	13b
15:
	add	x1,x20,x22
	mov	x0,x19
	mov	x2,x21
	strb	wzr,[x19,#64]
	ldp	x20,x19,[sp,#64]
	ldp	x22,x21,[sp,#48]
	ldr	x25,[sp,#16]
	ldp	x24,x23,[sp,#32]
	ldp	x29,x30,[sp],#80
	b	core_fmt_formatter_Formatter_write_raw
16:
	mov	w23,wzr
	b	18f
17:
	mov	w23,#1
18:
	mov	w0,w23
	ldp	x20,x19,[sp,#64]
	ldp	x22,x21,[sp,#48]
	ldr	x25,[sp,#16]
	ldp	x24,x23,[sp,#32]
	ldp	x29,x30,[sp],#80
	ret
	hex_end	core_fmt_formatter_Formatter_write_indented
	hex_function	core_fmt_formatter_Formatter_write_raw,.text
	cbz	x2,21f
	mov	x9,xzr
	b	4f
2:
	mov	w8,#1
3:
	add	x9,x8,x9
	cmp	x9,x2
	b.hs	21f
4:
	ldrsb	w8,[x1,x9]
	tbz	w8,#31,2b
	add	x10,x9,#1
	cmp	x2,x10
	b.ls	28f
	ldrsb	w11,[x1,x10]
	tbz	w11,#31,28f
	and	w10,w8,#0xff
	cmn	w11,#64
	mov	w8,#-64
	csel	w11,w11,w8,lo
	cmp	w10,#194
	mov	w8,#1
	b.lo	32f
	and	w11,w11,#0x7f
	cmp	w11,#63
	b.hi	32f
	cmp	w10,#224
	b.hs	11f
	mov	w8,#2
	b	3b
11:
	add	x8,x9,#2
	cmp	x2,x8
	b.ls	28f
	ldrsb	w8,[x1,x8]
	cmn	w8,#65
	b.gt	28f
	cmp	w10,#239
	b.hi	17f
	lsl	w8,w10,#12
	add	w8,w8,w11,lsl #6
	sub	w8,w8,#224,lsl #12
	cmp	w8,#2048
	b.lo	28f
	lsr	w8,w8,#11
	cmp	w8,#27
	mov	w8,#3
	b.lo	3b
	cmp	w10,#238
	b.hs	3b
	b	28f
17:
	add	x8,x9,#3
	cmp	x2,x8
	b.ls	28f
	ldrsb	w8,[x1,x8]
	cmn	w8,#65
	b.gt	28f
	lsl	w8,w10,#18
	mov	w10,#-62980096
	add	w8,w8,w11,lsl #12
	add	w8,w8,w10
	lsr	w8,w8,#20
	cbnz	w8,28f
	mov	w8,#4
	b	3b
21:
	stp	x29,x30,[sp,#-48]!
	stp	x22,x21,[sp,#16]
	mov	x22,x0
	mov	x29,sp
	stp	x20,x19,[sp,#32]
	ldp	x9,x19,[x22,#8]!
	sub	x8,x19,x9
	cmp	x2,x8
	b.hi	42f
22:
	ldr	x20,[x0]
	add	x21,x9,x2
	stp	xzr,xzr,[x22]
	add	x8,x20,x9
	sub	x10,x8,x1
	cmp	x10,x2
	b.hs	29f
	cmp	x2,#8
	b.lo	25f
	add	x8,x9,x20
	sub	x8,x8,x1
	cmp	x8,#32
	b.hs	33f
25:
	mov	x8,xzr
26:
	add	x10,x8,x9
	sub	x9,x2,x8
	add	x8,x1,x8
	add	x10,x20,x10
27:
	ldrb	w11,[x8],#1
	subs	x9,x9,#1
	strb	w11,[x10],#1
	b.ne	27b
	b	30f
28:
	mov	w0,#1
	ret
29:
	mov	x22,x0
	mov	x0,x8
	bl	memmove
	mov	x0,x22
30:
	mov	w8,wzr
	stp	x20,x21,[x0]
	str	x19,[x0,#16]
31:
	ldp	x20,x19,[sp,#32]
	ldp	x22,x21,[sp,#16]
	ldp	x29,x30,[sp],#48
32:
	mov	w0,w8
	ret
33:
	cmp	x2,#32
	b.hs	35f
	mov	x8,xzr
	b	39f
35:
	add	x12,x9,x20
	and	x10,x2,#0x18
	and	x8,x2,#0xffffffffffffffe0
	add	x11,x1,#16
	add	x12,x12,#16
	and	x13,x2,#0xffffffffffffffe0
36:
	ldp	q0,q1,[x11,#-16]
	subs	x13,x13,#32
	add	x11,x11,#32
	stp	q0,q1,[x12,#-16]
	add	x12,x12,#32
	b.ne	36b
	cmp	x2,x8
	b.eq	30b
	cbz	x10,26b
39:
	mov	x11,x8
	and	x8,x2,#0xfffffffffffffff8
	add	x12,x9,x11
	sub	x10,x11,x8
	add	x11,x1,x11
	add	x12,x20,x12
40:
	ldr	d0,[x11],#8
	adds	x10,x10,#8
	str	d0,[x12],#8
	b.ne	40b
	cmp	x2,x8
	b.eq	30b
	b	26b
42:
	mov	x20,x1
	mov	x1,x2
	mov	x19,x0
	mov	x21,x2
	bl	std_alloc_vec_Vec_grow_amortized___
	cbz	w0,44f
	mov	x0,x19
	ldp	x9,x19,[x19,#8]
	mov	x2,x21
	mov	x1,x20
	b	22b
44:
	mov	w8,#1
	b	31b
	hex_end	core_fmt_formatter_Formatter_write_raw
	hex_function	core_fmt_formatter_Formatter_write_piece,.text
	sub	sp,sp,#80
	mov	w8,#32
	stur	xzr,[x0,#36]
	str	w8,[x0,#32]
	mov	x8,#-1
	str	wzr,[x0,#44]
	str	x8,[x0,#48]
	ldr	x8,[x1]
	stp	x20,x19,[sp,#64]
	mov	x19,x0
	stp	x29,x30,[sp,#32]
	add	x29,sp,#32
	cmp	x8,#100
	stp	x22,x21,[sp,#48]
	stp	xzr,xzr,[sp,#8]
	str	xzr,[sp,#24]
	b.lo	5f
	mov	x9,xzr
2:
	mov	x11,#62915
	mov	x10,x8
	lsr	x8,x8,#2
	movk	x11,#23592,lsl #16
	mov	w12,#205
	movk	x11,#49807,lsl #32
	movk	x11,#10485,lsl #48
	umulh	x8,x8,x11
	mov	w11,#100
	lsr	x8,x8,#2
	msub	w11,w8,w11,w10
	lsr	x10,x10,#4
	cmp	x10,#624
	and	w13,w11,#0xff
	mul	w12,w13,w12
	mov	w13,#10
	lsr	w12,w12,#11
	msub	w11,w12,w13,w11
	add	x13,sp,#8
	orr	w10,w12,#0x30
	add	x13,x13,x9
	sub	x9,x9,#2
	strb	w10,[x13,#22]
	orr	w11,w11,#0x30
	strb	w11,[x13,#23]
	b.hi	2b
	add	x9,x9,#24
	cmp	x8,#10
	b.hs	6f
4:
	sub	x9,x9,#1
	add	x10,sp,#8
	orr	w8,w8,#0x30
	strb	w8,[x10,x9]
	b	7f
5:
	mov	w9,#24
	cmp	x8,#10
	b.lo	4b
6:
	and	w10,w8,#0xff
	mov	w11,#205
	mul	w10,w10,w11
	mov	w11,#10
	lsr	w10,w10,#11
	msub	w8,w10,w11,w8
	add	x11,sp,#8
	orr	w10,w10,#0x30
	add	x11,x11,x9
	sub	x9,x9,#2
	sturb	w10,[x11,#-2]
	orr	w8,w8,#0x30
	sturb	w8,[x11,#-1]
7:
	add	x8,sp,#8
	ldr	x10,[x19,#56]
	mov	w11,#24
	add	x1,x8,x9
	mov	w8,#45
	sub	x2,x11,x9
	sturb	w8,[x1,#-1]
	cbnz	x10,10f
	ldp	x8,x20,[x19,#8]
	sub	x9,x20,x8
	cmp	x2,x9
	b.hi	11f
9:
	ldr	x21,[x19]
	add	x22,x8,x2
	add	x0,x21,x8
	bl	memcpy
	mov	w0,wzr
	stp	x21,x22,[x19]
	str	x20,[x19,#16]
	ldp	x20,x19,[sp,#64]
	ldp	x22,x21,[sp,#48]
	ldp	x29,x30,[sp,#32]
	add	sp,sp,#80
	ret
10:
	mov	x0,x19
	bl	core_fmt_formatter_Formatter_write_indented
	and	w0,w0,#0xff
	ldp	x20,x19,[sp,#64]
	ldp	x22,x21,[sp,#48]
	ldp	x29,x30,[sp,#32]
	add	sp,sp,#80
	ret
11:
	mov	x21,x1
	mov	x0,x19
	mov	x1,x2
	mov	x22,x2
	bl	std_alloc_vec_Vec_grow_amortized___
	cbz	w0,13f
	ldp	x8,x20,[x19,#8]
	mov	x1,x21
	mov	x2,x22
	b	9b
13:
	mov	w0,#1
	ldp	x20,x19,[sp,#64]
	ldp	x22,x21,[sp,#48]
	ldp	x29,x30,[sp,#32]
	add	sp,sp,#80
	ret
	hex_end	core_fmt_formatter_Formatter_write_piece
	hex_merged	16
	.p2align	4,0x0
.LCPI35_0:
	.byte	0,1,2,3,4,5,6,7,8,9,10,11,12,13,14,15
.LCPI35_1:
	.byte	16,17,18,19,20,21,22,23,24,25,26,27,28,29,30,31
	hex_merged	8
	.p2align	3,0x0
.LCPI35_2:
	.byte	32,33,34,35,36,37,38,39
	hex_function	std_io_buffered_BufWriter_write_cold,.text.unlikely
	stp	x29,x30,[sp,#-80]!
	stp	x28,x25,[sp,#16]
	mov	x29,sp
	stp	x24,x23,[sp,#32]
	stp	x22,x21,[sp,#48]
	stp	x20,x19,[sp,#64]
	sub	sp,sp,#512
	movi	v0.2d,#0000000000000000
	ldr	x22,[x1,#16]
	mov	x20,x3
	mov	x21,x2
	mov	x19,x0
	sub	x23,x29,#96
	cmp	x22,x3
	stp	q0,q0,[sp,#80]
	stp	q0,q0,[sp,#112]
	stp	q0,q0,[sp,#144]
	b.ls	4f
	mov	x25,x1
	stp	q0,q0,[x29,#-96]
	ldr	x8,[x25,#8]!
	stp	q0,q0,[x29,#-64]
	stp	q0,q0,[x29,#-32]
	sub	x9,x22,x8
	cmp	x9,x20
	b.hs	9f
	sub	x0,x29,#96
	mov	x24,x1
	bl	std_io_buffered_BufWriter_flush_buf
	ldurb	w8,[x29,#-96]
	cbz	w8,8f
	ldurb	w8,[x29,#-81]
	ldurh	w9,[x23,#13]
	ldur	w10,[x23,#9]
	ldp	q0,q1,[x29,#-64]
	ldur	q2,[x29,#-80]
	orr	w8,w9,w8,lsl #16
	lsl	x9,x10,#8
	mov	w10,#1
	ldp	q3,q4,[x29,#-32]
	str	q2,[sp]
	orr	x8,x9,x8,lsl #40
	ldurb	w9,[x29,#-88]
	stp	q0,q1,[sp,#16]
	stp	q2,q0,[x19,#16]
	and	x11,x8,#0xff00
	and	x8,x8,#0xffffffffffff0000
	stp	q3,q4,[sp,#48]
	orr	x9,x11,x9
	stp	q1,q3,[x19,#48]
	orr	x8,x8,x9
	str	q4,[x19,#80]
	stp	x10,x8,[x19]
	b	23f
4:
	add	x0,sp,#80
	bl	std_io_buffered_BufWriter_flush_buf
	ldrb	w8,[sp,#80]
	cbz	w8,6f
	ldp	q0,q1,[sp,#128]
	mov	w9,#1
	ldr	x8,[sp,#88]
	stp	q0,q1,[x19,#48]
	ldr	q0,[sp,#160]
	stp	x9,x8,[x19]
	str	q0,[x19,#80]
	ldp	q0,q2,[sp,#96]
	stp	q0,q2,[x19,#16]
	b	23f
6:
	movi	v0.2d,#0000000000000000
	mov	w0,#1
	mov	x1,x21
	mov	x2,x20
	stp	q0,q0,[sp,#272]
	stp	q0,q0,[sp,#304]
	str	q0,[sp,#256]
	stp	q0,q0,[x29,#-176]
	stp	q0,q0,[x29,#-144]
	stur	q0,[x29,#-112]
	bl	fhex_write
	tbnz	x0,#63,17f
	cmp	x0,x20
	mov	x9,xzr
	csel	x8,x0,x20,lo
	lsr	x10,x8,#8
	b	21f
8:
	ldp	x8,x22,[x24,#8]
	mov	x1,x24
	sub	x9,x22,x8
	cmp	x20,x9
	b.hi	33f
9:
	ldr	x23,[x1]
	add	x24,x8,x20
	stp	xzr,xzr,[x25]
	add	x0,x23,x8
	sub	x9,x0,x21
	cmp	x9,x20
	b.hs	15f
	cmp	x20,#8
	b.lo	12f
	add	x9,x8,x23
	sub	x9,x9,x21
	cmp	x9,#32
	b.hs	24f
12:
	mov	x9,xzr
13:
	add	x10,x9,x8
	sub	x8,x20,x9
	add	x9,x21,x9
	add	x10,x23,x10
14:
	ldrb	w11,[x9],#1
	subs	x8,x8,#1
	strb	w11,[x10],#1
	b.ne	14b
	b	16f
15:
	mov	x25,x1
	mov	x1,x21
	mov	x2,x20
	bl	memmove
	mov	x1,x25
16:
	movi	v0.2d,#0000000000000000
	stp	x23,x24,[x1]
	str	x22,[x1,#16]
	stp	xzr,x20,[x19]
	stp	q0,q0,[x19,#16]
	stp	q0,q0,[x19,#48]
	str	q0,[x19,#80]
	b	23f
17:
	sub	x0,x29,#96
	sub	x20,x29,#96
	bl	std_io_io_error_last_error
	ldur	q0,[x23,#24]
	ldur	q1,[x23,#40]
	hex_page	x9,.LCPI35_0
	ldur	x8,[x29,#-96]
	ldur	q2,[x23,#8]
	hex_page	x10,.LCPI35_1
	stp	q0,q1,[x29,#-160]
	ldur	q0,[x23,#56]
	ldur	q1,[x23,#72]
	ubfx	x11,x8,#8,#8
	stur	q2,[x29,#-176]
	stp	q0,q1,[x29,#-128]
	hex_value	q0,x9,.LCPI35_0
	hex_page	x9,.LCPI35_2
	hex_value	q1,x10,.LCPI35_1
	hex_value	d2,x9,.LCPI35_2
	lsr	x10,x8,#8
	mov	w9,#40
	cmp	w11,#41
	stp	q0,q1,[x29,#-96]
	stur	d2,[x29,#-64]
	sturb	w9,[x29,#-56]
	b.hs	20f
	ubfx	x9,x8,#8,#6
	ldrb	w9,[x20,x9]
	cmp	w9,#35
	b.ne	20f
	movi	v0.2d,#0000000000000000
	mov	w8,#10241
	mov	w9,#1
	stp	q0,q0,[sp,#272]
	stp	q0,q0,[sp,#304]
	str	q0,[sp,#256]
	b	22f
20:
	mov	w9,#1
21:
	ldp	q0,q1,[x29,#-144]
	bfi	x8,x10,#8,#8
	ldur	q2,[x29,#-112]
	stp	q0,q1,[sp,#288]
	ldp	q1,q0,[x29,#-176]
	str	q2,[sp,#320]
	stp	q1,q0,[sp,#256]
22:
	ldp	q0,q1,[sp,#288]
	ldr	q2,[sp,#320]
	ldp	q4,q3,[sp,#256]
	stp	x9,x8,[x19]
	str	q2,[sp,#240]
	stp	q0,q1,[sp,#208]
	stp	q4,q3,[sp,#176]
	stp	q0,q1,[x19,#48]
	str	q2,[x19,#80]
	stp	q4,q3,[x19,#16]
23:
	add	sp,sp,#512
	ldp	x20,x19,[sp,#64]
	ldp	x22,x21,[sp,#48]
	ldp	x24,x23,[sp,#32]
	ldp	x28,x25,[sp,#16]
	ldp	x29,x30,[sp],#80
	ret
24:
	cmp	x20,#32
	b.hs	26f
	mov	x9,xzr
	b	30f
26:
	add	x12,x8,x23
	and	x10,x20,#0x18
	and	x9,x20,#0xffffffffffffffe0
	add	x11,x21,#16
	add	x12,x12,#16
	and	x13,x20,#0xffffffffffffffe0
27:
	ldp	q0,q1,[x11,#-16]
	subs	x13,x13,#32
	add	x11,x11,#32
	stp	q0,q1,[x12,#-16]
	add	x12,x12,#32
	b.ne	27b
	cmp	x20,x9
	b.eq	16b
	cbz	x10,13b
30:
	mov	x11,x9
	and	x9,x20,#0xfffffffffffffff8
	add	x12,x8,x11
	sub	x10,x11,x9
	add	x11,x21,x11
	add	x12,x23,x12
31:
	ldr	d0,[x11],#8
	adds	x10,x10,#8
	str	d0,[x12],#8
	b.ne	31b
	cmp	x20,x9
	b.eq	16b
	b	13b
33:
	mov	x0,x1
	mov	x1,x20
	bl	std_alloc_vec_Vec_grow_amortized
	cbz	w0,35f
	ldp	x8,x22,[x24,#8]
	mov	x1,x24
	b	9b
35:
	brk	#0x1
	hex_end	std_io_buffered_BufWriter_write_cold
	hex_merged	16
	.p2align	4,0x0
.LCPI36_0:
	.byte	0,1,2,3,4,5,6,7,8,9,10,11,12,13,14,15
.LCPI36_1:
	.byte	16,17,18,19,20,21,22,23,24,25,26,27,28,29,30,31
.LCPI36_3:
	.quad	10241
	.quad	0
.LCPI36_4:
	.quad	8386094071426675301
	.quad	3327647950551527009
.LCPI36_5:
	.quad	2334399978102268015
	.quad	7378714103803897972
.LCPI36_6:
	.quad	2168578
	.quad	8367798494427701606
.LCPI36_7:
	.quad	8243122676036560750
	.quad	8247252226244751904
.LCPI36_8:
	.quad	2334956330749617522
	.quad	7598814411626672751
.LCPI36_9:
	.quad	2823682
	.quad	2337496988606947687
	hex_merged	8
	.p2align	3,0x0
.LCPI36_2:
	.byte	32,33,34,35,36,37,38,39
	hex_function	std_io_buffered_BufWriter_flush_buf,.text
	sub	sp,sp,#352
	movi	v0.2d,#0000000000000000
	stp	x24,x23,[sp,#304]
	stp	x22,x21,[sp,#320]
	ldp	x23,x22,[x1]
	stp	x20,x19,[sp,#336]
	mov	x20,x1
	mov	x19,x0
	mov	x21,xzr
	stp	x29,x30,[sp,#256]
	add	x29,sp,#256
	stp	x28,x27,[sp,#272]
	stp	x26,x25,[sp,#288]
	stp	q0,q0,[sp,#32]
	cbz	x22,12f
	add	x24,sp,#128
2:
	mov	x26,xzr
	sub	x25,x22,x21
3:
	adds	x26,x26,#1
	b.hs	14f
	add	x1,x23,x21
	sub	x2,x22,x21
	mov	w0,#1
	bl	fhex_write
	tbz	x0,#63,10f
	add	x0,sp,#128
	add	x27,sp,#128
	bl	std_io_io_error_last_error
	ldur	q0,[x24,#56]
	ldur	q1,[x24,#72]
	hex_page	x8,.LCPI36_0
	ldr	x9,[sp,#128]
	hex_value	q3,x8,.LCPI36_0
	hex_page	x8,.LCPI36_1
	stp	q0,q1,[x29,#-32]
	ldp	q2,q0,[sp,#128]
	ubfx	w10,w9,#8,#8
	hex_value	q4,x8,.LCPI36_1
	hex_page	x8,.LCPI36_2
	ldr	q1,[sp,#160]
	hex_value	d5,x8,.LCPI36_2
	mov	w11,#40
	ldr	x8,[sp,#176]
	cmp	w10,#41
	stp	q3,q4,[sp,#128]
	str	d5,[sp,#160]
	strb	w11,[sp,#168]
	b.hs	8f
	ubfx	x10,x9,#8,#6
	ldrb	w10,[x27,x10]
	cmp	w10,#35
	b.ne	8f
	movi	v0.2d,#0000000000000000
	hex_page	x9,.LCPI36_3
	mov	x8,xzr
	hex_value	q2,x9,.LCPI36_3
	movi	v1.2d,#0000000000000000
	mov	w9,#40
	stp	q0,q0,[sp,#96]
	and	w10,w9,#0xff
	stp	q3,q4,[sp,#128]
	cmp	w10,#41
	str	d5,[sp,#160]
	strb	w11,[sp,#168]
	b.lo	9f
	b	13f
8:
	ldp	q6,q7,[x29,#-32]
	lsr	x9,x9,#8
	stp	q6,q7,[sp,#96]
	and	w10,w9,#0xff
	stp	q3,q4,[sp,#128]
	cmp	w10,#41
	str	d5,[sp,#160]
	strb	w11,[sp,#168]
	b.hs	13f
9:
	and	x9,x9,#0x3f
	add	x10,sp,#128
	ldrb	w9,[x10,x9]
	cmp	w9,#35
	b.eq	3b
	b	13f
10:
	movi	v0.2d,#0000000000000000
	cmp	x0,x25
	csel	x8,x0,x25,lo
	stp	q0,q0,[sp,#64]
	cbz	x8,33f
	add	x21,x8,x21
	cmp	x21,x22
	b.lo	2b
12:
	ldp	q2,q3,[sp,#32]
	mov	w9,wzr
	mov	x8,xzr
	movi	v1.2d,#0000000000000000
	stp	q2,q3,[sp]
	movi	v2.2d,#0000000000000000
	ldr	x11,[x20,#8]
	subs	x10,x11,x21
	b.ne	16f
	b	30f
13:
	ldp	q3,q4,[sp,#96]
	stp	q3,q4,[sp,#64]
	b	15f
14:
	hex_page	x8,.LCPI36_7
	movi	v3.16b,#46
	hex_page	x9,.LCPI36_8
	hex_value	q1,x8,.LCPI36_7
	mov	x8,#25961
	hex_page	x10,.LCPI36_9
	movk	x8,#11891,lsl #16
	hex_value	q0,x9,.LCPI36_8
	hex_value	q2,x10,.LCPI36_9
	movk	x8,#11822,lsl #32
	movk	x8,#11822,lsl #48
	stp	q3,q3,[sp,#64]
15:
	ldp	q3,q4,[sp,#64]
	stp	q3,q4,[sp]
	mov	w9,#1
	ldr	x11,[x20,#8]
	subs	x10,x11,x21
	b.eq	30f
16:
	ldr	x12,[x20]
	cmp	x10,#8
	mov	x13,xzr
	b.lo	27f
	add	x14,x21,#31
	cmp	x14,#32
	b.lo	27f
	cmp	x10,#32
	b.hs	20f
	mov	x13,xzr
	b	24f
20:
	mov	v4.16b,v2.16b
	and	x14,x10,#0x18
	and	x13,x10,#0xffffffffffffffe0
	mov	x15,x12
	and	x16,x10,#0xffffffffffffffe0
21:
	add	x17,x15,x21
	subs	x16,x16,#32
	ldp	q2,q3,[x17]
	stp	q2,q3,[x15],#32
	b.ne	21b
	mov	v2.16b,v4.16b
	cmp	x10,x13
	b.eq	29f
	cbz	x14,27f
24:
	mov	v3.16b,v2.16b
	mov	x15,x13
	and	x13,x10,#0xfffffffffffffff8
	sub	x14,x15,x13
	add	x15,x12,x15
25:
	ldr	d2,[x15,x21]
	adds	x14,x14,#8
	str	d2,[x15],#8
	b.ne	25b
	mov	v2.16b,v3.16b
	cmp	x10,x13
	b.eq	29f
27:
	sub	x11,x11,x13
	add	x12,x12,x13
	sub	x11,x11,x21
28:
	ldrb	w13,[x12,x21]
	subs	x11,x11,#1
	strb	w13,[x12],#1
	b.ne	28b
29:
	ldr	x21,[x20,#8]
30:
	cmp	x21,x10
	b.ls	32f
	str	x10,[x20,#8]
32:
	stur	q0,[x19,#24]
	ldp	x22,x21,[sp,#320]
	stur	q1,[x19,#40]
	ldp	q0,q1,[sp]
	strb	w9,[x19]
	ldp	x24,x23,[sp,#304]
	stur	q2,[x19,#8]
	ldp	x26,x25,[sp,#288]
	str	x8,[x19,#56]
	ldp	x28,x27,[sp,#272]
	stp	q0,q1,[x19,#64]
	ldp	x20,x19,[sp,#336]
	ldp	x29,x30,[sp,#256]
	add	sp,sp,#352
	ret
33:
	movi	v2.16b,#46
	hex_page	x10,.LCPI36_6
	hex_page	x8,.LCPI36_4
	hex_page	x9,.LCPI36_5
	hex_value	q3,x10,.LCPI36_6
	hex_value	q1,x8,.LCPI36_4
	hex_value	q0,x9,.LCPI36_5
	mov	x8,#1012762419733073422
	orr	x8,x8,#0x2222222222222222
	stp	q2,q2,[sp]
	mov	v2.16b,v3.16b
	mov	w9,#1
	ldr	x11,[x20,#8]
	subs	x10,x11,x21
	b.ne	16b
	b	30b
	hex_end	std_io_buffered_BufWriter_flush_buf
	hex_function	std_io_io_error_last_error,.text
	stp	x29,x30,[sp,#-32]!
	str	x19,[sp,#16]
	mov	x29,sp
	mov	x19,x0
	bl	fhex_errno
	tbnz	w0,#31,4f
	sub	w8,w0,#1
	cmp	w8,#121
	b.hi	4f
	hex_page	x9,1000f
	hex_address	x9,x9,1000f
	adr	x10,3f
	ldrb	w11,[x9,x8]
	add	x10,x10,x11,lsl #2
	mov	w8,#1
	br	x10
3:
	mov	w8,#36
	b	5f
4:
	mov	w8,#41
5:
	movi	v0.2d,#0000000000000000
	strb	wzr,[x19]
	strb	w8,[x19,#1]
	strh	wzr,[x19,#2]
	str	w0,[x19,#4]
	stur	q0,[x19,#8]
	stur	q0,[x19,#24]
	stur	q0,[x19,#40]
	stur	q0,[x19,#56]
	stur	q0,[x19,#72]
	ldr	x19,[sp,#16]
	ldp	x29,x30,[sp],#32
	ret
6:
	mov	w8,#4
	b	5b
7:
	mov	w8,#7
	b	5b
8:
	mov	w8,#26
	b	5b
9:
	mov	w8,#39
	b	5b
10:
	mov	w8,#9
	b	5b
11:
	mov	w8,#8
	b	5b
12:
	mov	w8,#30
	b	5b
13:
	mov	w8,#25
	b	5b
14:
	mov	w8,#32
	b	5b
15:
	mov	w8,#33
	b	5b
16:
	mov	w8,#22
	b	5b
17:
	mov	w8,#31
	b	5b
18:
	mov	w8,#29
	b	5b
19:
	mov	w8,#18
	b	5b
20:
	mov	w8,#10
	b	5b
21:
	mov	w8,#28
	b	5b
22:
	mov	w8,#14
	b	5b
23:
	mov	w8,#12
	b	5b
24:
	mov	w8,#5
	b	5b
25:
	mov	w8,#3
	b	5b
26:
	mov	w8,wzr
	b	5b
27:
	mov	w8,#13
	b	5b
28:
	mov	w8,#38
	b	5b
29:
	mov	w8,#11
	b	5b
30:
	mov	w8,#35
	b	5b
31:
	mov	w8,#34
	b	5b
32:
	mov	w8,#20
	b	5b
33:
	mov	w8,#15
	b	5b
34:
	mov	w8,#19
	b	5b
35:
	mov	w8,#16
	b	5b
36:
	mov	w8,#6
	b	5b
37:
	mov	w8,#27
	b	5b
38:
	mov	w8,#24
	b	5b
39:
	mov	w8,#2
	b	5b
40:
	mov	w8,#17
	b	5b
	hex_end	std_io_io_error_last_error
	hex_jumps	std_io_io_error_last_error
1000:
	.byte	(5b-3b)>>2
	.byte	(26b-3b)>>2
	.byte	(4b-3b)>>2
	.byte	(30b-3b)>>2
	.byte	(4b-3b)>>2
	.byte	(4b-3b)>>2
	.byte	(31b-3b)>>2
	.byte	(4b-3b)>>2
	.byte	(4b-3b)>>2
	.byte	(4b-3b)>>2
	.byte	(27b-3b)>>2
	.byte	(28b-3b)>>2
	.byte	(5b-3b)>>2
	.byte	(4b-3b)>>2
	.byte	(4b-3b)>>2
	.byte	(21b-3b)>>2
	.byte	(23b-3b)>>2
	.byte	(17b-3b)>>2
	.byte	(4b-3b)>>2
	.byte	(22b-3b)>>2
	.byte	(33b-3b)>>2
	.byte	(32b-3b)>>2
	.byte	(4b-3b)>>2
	.byte	(4b-3b)>>2
	.byte	(4b-3b)>>2
	.byte	(18b-3b)>>2
	.byte	(37b-3b)>>2
	.byte	(38b-3b)>>2
	.byte	(13b-3b)>>2
	.byte	(40b-3b)>>2
	.byte	(14b-3b)>>2
	.byte	(29b-3b)>>2
	.byte	(4b-3b)>>2
	.byte	(4b-3b)>>2
	.byte	(12b-3b)>>2
	.byte	(15b-3b)>>2
	.byte	(4b-3b)>>2
	.byte	(3b-3b)>>2
	.byte	(35b-3b)>>2
	.byte	(19b-3b)>>2
	.byte	(4b-3b)>>2
	.byte	(4b-3b)>>2
	.byte	(4b-3b)>>2
	.byte	(4b-3b)>>2
	.byte	(4b-3b)>>2
	.byte	(4b-3b)>>2
	.byte	(4b-3b)>>2
	.byte	(4b-3b)>>2
	.byte	(4b-3b)>>2
	.byte	(4b-3b)>>2
	.byte	(4b-3b)>>2
	.byte	(4b-3b)>>2
	.byte	(4b-3b)>>2
	.byte	(4b-3b)>>2
	.byte	(4b-3b)>>2
	.byte	(4b-3b)>>2
	.byte	(4b-3b)>>2
	.byte	(4b-3b)>>2
	.byte	(4b-3b)>>2
	.byte	(4b-3b)>>2
	.byte	(4b-3b)>>2
	.byte	(4b-3b)>>2
	.byte	(4b-3b)>>2
	.byte	(4b-3b)>>2
	.byte	(4b-3b)>>2
	.byte	(4b-3b)>>2
	.byte	(4b-3b)>>2
	.byte	(4b-3b)>>2
	.byte	(4b-3b)>>2
	.byte	(4b-3b)>>2
	.byte	(4b-3b)>>2
	.byte	(4b-3b)>>2
	.byte	(4b-3b)>>2
	.byte	(4b-3b)>>2
	.byte	(4b-3b)>>2
	.byte	(4b-3b)>>2
	.byte	(4b-3b)>>2
	.byte	(4b-3b)>>2
	.byte	(4b-3b)>>2
	.byte	(4b-3b)>>2
	.byte	(4b-3b)>>2
	.byte	(4b-3b)>>2
	.byte	(4b-3b)>>2
	.byte	(4b-3b)>>2
	.byte	(4b-3b)>>2
	.byte	(4b-3b)>>2
	.byte	(4b-3b)>>2
	.byte	(4b-3b)>>2
	.byte	(4b-3b)>>2
	.byte	(4b-3b)>>2
	.byte	(4b-3b)>>2
	.byte	(4b-3b)>>2
	.byte	(4b-3b)>>2
	.byte	(4b-3b)>>2
	.byte	(3b-3b)>>2
	.byte	(4b-3b)>>2
	.byte	(4b-3b)>>2
	.byte	(11b-3b)>>2
	.byte	(10b-3b)>>2
	.byte	(20b-3b)>>2
	.byte	(24b-3b)>>2
	.byte	(4b-3b)>>2
	.byte	(36b-3b)>>2
	.byte	(25b-3b)>>2
	.byte	(4b-3b)>>2
	.byte	(4b-3b)>>2
	.byte	(7b-3b)>>2
	.byte	(4b-3b)>>2
	.byte	(4b-3b)>>2
	.byte	(16b-3b)>>2
	.byte	(39b-3b)>>2
	.byte	(4b-3b)>>2
	.byte	(6b-3b)>>2
	.byte	(4b-3b)>>2
	.byte	(9b-3b)>>2
	.byte	(34b-3b)>>2
	.byte	(4b-3b)>>2
	.byte	(4b-3b)>>2
	.byte	(4b-3b)>>2
	.byte	(4b-3b)>>2
	.byte	(4b-3b)>>2
	.byte	(8b-3b)>>2
	hex_merged	16
	.p2align	4,0x0
.LCPI38_0:
	.quad	1
	.quad	6
.LCPI38_1:
	.quad	1
	.quad	7
.LCPI38_2:
	.quad	1
	.quad	3
	hex_function	program_input_read_input,.text
	stp	x29,x30,[sp,#-80]!
	sub	x9,sp,#15,lsl #12
	stp	x28,x25,[sp,#16]
	mov	x29,sp
	sub	x9,x9,#3072
	stp	x24,x23,[sp,#32]
	stp	x22,x21,[sp,#48]
	stp	x20,x19,[sp,#64]
1:
	sub	sp,sp,#3072
	cmp	sp,x9
	str	xzr,[sp]
	b.ne	1b
	sub	sp,sp,#1152
	mov	x20,x1
	mov	x19,x0
	add	x0,sp,#32
	mov	w1,wzr
	mov	w2,#65536
	str	xzr,[sp]
	add	x23,sp,#32
	bl	memset
	sub	x22,x29,#1
	mov	w0,#16842752
	mov	w1,#1
	stp	x22,xzr,[sp]
	stp	xzr,x20,[sp,#16]
	bl	fhex_alloc
	tbz	w0,#0,4f
	mov	w21,#16842752
	mov	x22,x1
	str	x1,[sp]
	str	x21,[sp,#16]
	b	5f
4:
	mov	x21,xzr
5:
	mov	x24,xzr
	add	x23,x23,#16
	b	8f
6:
	add	x0,x22,x24
	add	x1,sp,#32
	mov	x2,x20
	bl	memmove
7:
	add	x24,x24,x20
	mov	w8,#16777216
	cmp	x24,x8
	stp	x24,x21,[sp,#8]
	b.hi	32f
8:
	add	x1,sp,#32
	mov	w0,wzr
	mov	w2,#65536
	bl	fhex_read
	tbnz	x0,#63,28f
	cmp	x0,#16,lsl #12
	mov	w8,#65536
	csel	x20,x0,x8,lo
	cbz	x0,31f
	sub	x8,x21,x24
	cmp	x20,x8
	b.hi	26f
	add	x8,x22,x24
	add	x9,sp,#32
	sub	x8,x8,x9
	cmp	x8,x20
	b.hs	6b
12:
	cmp	x0,#8
	b.lo	14f
	add	x8,sp,#32
	sub	x8,x24,x8
	add	x8,x8,x22
	cmp	x8,#32
	b.hs	17f
14:
	mov	x8,xzr
15:
	add	x10,sp,#32
	add	x11,x8,x24
	sub	x9,x20,x8
	add	x8,x10,x8
	add	x10,x22,x11
16:
	ldrb	w11,[x8],#1
	subs	x9,x9,#1
	strb	w11,[x10],#1
	b.ne	16b
	b	7b
17:
	cmp	x0,#32
	b.hs	19f
	mov	x8,xzr
	b	23f
19:
	add	x10,x22,x24
	and	x9,x20,#0x18
	and	x8,x20,#0x1ffe0
	add	x10,x10,#16
	mov	x11,x23
	and	x12,x20,#0x1ffe0
20:
	ldp	q0,q1,[x11,#-16]
	subs	x12,x12,#32
	add	x11,x11,#32
	stp	q0,q1,[x10,#-16]
	add	x10,x10,#32
	b.ne	20b
	cmp	x20,x8
	b.eq	7b
	cbz	x9,15b
23:
	mov	x10,x8
	and	x8,x20,#0x1fff8
	add	x11,sp,#32
	add	x12,x24,x10
	sub	x9,x10,x8
	add	x10,x11,x10
	add	x11,x22,x12
24:
	ldr	d0,[x10],#8
	adds	x9,x9,#8
	str	d0,[x11],#8
	b.ne	24b
	cmp	x20,x8
	b.eq	7b
	b	15b
26:
	mov	x25,x0
	mov	x0,sp
	mov	x1,x20
	bl	std_alloc_vec_Vec_grow_amortized___
	cbz	w0,37f
	ldp	x24,x21,[sp,#8]
	mov	x0,x25
	ldr	x22,[sp]
	add	x8,x22,x24
	add	x9,sp,#32
	sub	x8,x8,x9
	cmp	x8,x20
	b.hs	6b
	b	12b
28:
	sub	x0,x29,#96
	bl	std_io_io_error_last_error
	cbz	x21,30f
	ldr	x0,[sp]
	bl	fhex_dealloc
30:
	hex_page	x8,.LCPI38_2
	hex_value	q0,x8,.LCPI38_2
	b	35f
31:
	ldr	x8,[sp]
	ldr	x9,[sp,#24]
	stp	x24,x21,[x19,#16]
	stp	xzr,x8,[x19]
	str	x9,[x19,#32]
	b	36f
32:
	cbz	x21,34f
	ldr	x0,[sp]
	bl	fhex_dealloc
34:
	hex_page	x8,.LCPI38_1
	hex_value	q0,x8,.LCPI38_1
35:
	stp	xzr,xzr,[x19,#24]
	str	q0,[x19]
	str	xzr,[x19,#16]
36:
	add	sp,sp,#16,lsl #12
	add	sp,sp,#128
	ldp	x20,x19,[sp,#64]
	ldp	x22,x21,[sp,#48]
	ldp	x24,x23,[sp,#32]
	ldp	x28,x25,[sp,#16]
	ldp	x29,x30,[sp],#80
	ret
37:
	ldr	x8,[sp,#16]
	cbz	x8,39f
	ldr	x0,[sp]
	bl	fhex_dealloc
39:
	hex_page	x8,.LCPI38_0
	hex_value	q0,x8,.LCPI38_0
	b	35b
	hex_end	program_input_read_input
	hex_function	program_operation_put_text_line,.text
	sub	sp,sp,#224
	stp	x22,x21,[sp,#192]
	mov	x22,x2
	mov	w21,w1
	mov	w1,#32
	mov	x2,xzr
	stp	x29,x30,[sp,#176]
	stp	x20,x19,[sp,#208]
	add	x29,sp,#176
	mov	x20,x3
	mov	x19,x0
	bl	io_padding_put_copies
	tst	w0,#0xff
	b.ne	3f
	add	x4,sp,#80
	mov	x0,x19
	mov	x1,x22
	mov	x2,x20
	mov	w3,w21
	stp	xzr,xzr,[sp,#80]
	str	xzr,[sp,#96]
	bl	io_digits_put_digits_
	tst	w0,#0xff
	b.ne	3f
	mov	x0,x19
	mov	w1,#32
	mov	x2,xzr
	bl	io_padding_put_copies
	tst	w0,#0xff
	b.eq	4f
3:
	mov	w0,#1
	ldp	x20,x19,[sp,#208]
	ldp	x22,x21,[sp,#192]
	ldp	x29,x30,[sp,#176]
	add	sp,sp,#224
	ret
4:
	ldp	x9,x8,[x19,#8]
	movi	v0.2d,#0000000000000000
	sub	x10,x8,x9
	cmp	x10,#2
	stp	q0,q0,[sp,#80]
	stp	q0,q0,[sp,#112]
	stp	q0,q0,[sp,#144]
	b.lo	7f
	ldr	x10,[x19]
	mov	w11,#10
	strb	w11,[x10,x9]
	add	x9,x9,#1
	stp	x10,x9,[x19]
	str	x8,[x19,#16]
6:
	mov	w0,wzr
	ldp	x20,x19,[sp,#208]
	ldp	x22,x21,[sp,#192]
	ldp	x29,x30,[sp,#176]
	add	sp,sp,#224
	ret
7:
	hex_page	x2,.Lstatic.8
	hex_address	x2,x2,.Lstatic.8
	add	x0,sp,#80
	mov	x1,x19
	mov	w3,#1
	bl	std_io_buffered_BufWriter_write_cold
	ldp	q0,q1,[sp,#128]
	ldr	q2,[sp,#160]
	ldrb	w9,[sp,#80]
	ldr	x8,[sp,#88]
	str	q2,[sp,#64]
	stp	q0,q1,[sp,#32]
	ldp	q1,q0,[sp,#96]
	stp	q1,q0,[sp]
	cbz	w9,9f
	ldp	q0,q1,[sp,#16]
	mov	w0,#1
	ldr	x9,[x19,#120]
	ldr	q2,[sp]
	stp	x0,x8,[x19,#24]
	stur	q0,[x19,#56]
	adds	x8,x9,#1
	stur	q1,[x19,#72]
	ldp	q0,q1,[sp,#48]
	csinv	x8,x8,xzr,lo
	stur	q2,[x19,#40]
	str	x8,[x19,#120]
	stur	q0,[x19,#88]
	stur	q1,[x19,#104]
	ldp	x20,x19,[sp,#208]
	ldp	x22,x21,[sp,#192]
	ldp	x29,x30,[sp,#176]
	add	sp,sp,#224
	ret
9:
	cbnz	x8,6b
	ldr	x8,[x19,#120]
	mov	w0,#1
	adds	x8,x8,#1
	csinv	x8,x8,xzr,lo
	str	x8,[x19,#120]
	ldp	x20,x19,[sp,#208]
	ldp	x22,x21,[sp,#192]
	ldp	x29,x30,[sp,#176]
	add	sp,sp,#224
	ret
	hex_end	program_operation_put_text_line
	hex_function	io_digits_put_digits_,.text
	stp	x29,x30,[sp,#-96]!
	stp	x28,x27,[sp,#16]
	mov	x29,sp
	stp	x26,x25,[sp,#32]
	stp	x24,x23,[sp,#48]
	stp	x22,x21,[sp,#64]
	stp	x20,x19,[sp,#80]
	sub	sp,sp,#1792
	str	xzr,[sp]
	mov	w20,w3
	mov	x21,x2
	ldrb	w8,[x4]
	mov	x22,x1
	mov	x19,x0
	cbz	w8,26f
	ldr	x23,[x4,#8]
	ldrb	w24,[x4,#16]
	cmp	x21,#128
	b.hi	51f
	movi	v0.2d,#0000000000000000
	add	x2,sp,#64
	mov	x0,x22
	mov	x1,x21
	mov	x3,x23
	mov	w4,w24
	mov	w5,w20
	add	x23,sp,#64
	stp	q0,q0,[sp,#64]
	stp	q0,q0,[sp,#96]
	stp	q0,q0,[sp,#128]
	stp	q0,q0,[sp,#160]
	stp	q0,q0,[sp,#192]
	stp	q0,q0,[sp,#224]
	stp	q0,q0,[sp,#256]
	stp	q0,q0,[sp,#288]
	stp	q0,q0,[sp,#320]
	stp	q0,q0,[sp,#352]
	stp	q0,q0,[sp,#384]
	stp	q0,q0,[sp,#416]
	bl	codec_grouped_write_with_room
	cbz	x0,113f
	mov	x20,x0
	mov	x21,xzr
	sub	x22,x29,#112
	add	x23,x23,#16
	neg	x24,x0
4:
	ldp	x27,x26,[x19,#8]
	movi	v0.2d,#0000000000000000
	sub	x25,x20,x21
	add	x9,sp,#64
	add	x1,x9,x21
	sub	x8,x26,x27
	cmp	x25,x8
	stp	q0,q0,[x29,#-112]
	stp	q0,q0,[x29,#-80]
	stp	q0,q0,[x29,#-48]
	b.hs	24f
	ldr	x28,[x19]
	add	x8,x28,x27
	sub	x8,x8,x1
	cmp	x8,x25
	b.hs	11f
	cmp	x25,#8
	b.lo	8f
	add	x8,sp,#64
	add	x9,x27,x28
	add	x8,x21,x8
	sub	x8,x9,x8
	cmp	x8,#32
	b.hs	15f
8:
	mov	x8,xzr
9:
	add	x9,x8,x21
	add	x10,sp,#64
	add	x11,x8,x27
	add	x8,x9,x24
	add	x9,x10,x9
	add	x10,x28,x11
10:
	ldrb	w11,[x9],#1
	adds	x8,x8,#1
	strb	w11,[x10],#1
	b.lo	10b
	b	12f
11:
	add	x0,x28,x27
	sub	x2,x20,x21
	bl	memmove
12:
	add	x8,x27,x25
	str	x26,[x19,#16]
	stp	x28,x8,[x19]
13:
	cbz	x25,110f
	add	x21,x25,x21
	cmp	x21,x20
	b.lo	4b
	b	112f
15:
	cmp	x25,#32
	b.hs	17f
	mov	x8,xzr
	b	21f
17:
	add	x11,x28,x27
	and	x9,x25,#0x18
	and	x8,x25,#0xffffffffffffffe0
	add	x10,x23,x21
	add	x11,x11,#16
	and	x12,x25,#0xffffffffffffffe0
18:
	ldp	q0,q1,[x10,#-16]
	subs	x12,x12,#32
	add	x10,x10,#32
	stp	q0,q1,[x11,#-16]
	add	x11,x11,#32
	b.ne	18b
	cmp	x25,x8
	b.eq	12b
	cbz	x9,9b
21:
	mov	x9,x8
	and	x8,x25,#0xfffffffffffffff8
	add	x11,sp,#64
	add	x10,x9,x21
	add	x12,x9,x27
	sub	x9,x9,x8
	add	x10,x11,x10
	add	x11,x28,x12
22:
	ldr	d0,[x10],#8
	adds	x9,x9,#8
	str	d0,[x11],#8
	b.ne	22b
	cmp	x25,x8
	b.eq	12b
	b	9b
24:
	sub	x0,x29,#112
	sub	x3,x20,x21
	mov	x2,x1
	mov	x1,x19
	bl	std_io_buffered_BufWriter_write_cold
	ldp	q0,q1,[x22,#48]
	ldur	q2,[x22,#80]
	ldurb	w8,[x29,#-112]
	ldur	x25,[x29,#-104]
	stur	q2,[x29,#-128]
	stp	q0,q1,[x29,#-160]
	ldp	q1,q0,[x22,#16]
	stp	q1,q0,[x29,#-192]
	cbz	w8,13b
	ldp	q0,q1,[x29,#-176]
	mov	w1,wzr
	ldr	x8,[x19,#120]
	ldur	q2,[x29,#-192]
	mov	w0,#1
	stp	x0,x25,[x19,#24]
	b	109f
26:
	cmp	x21,#128
	b.hi	83f
	movi	v0.2d,#0000000000000000
	add	x3,sp,#64
	mov	x0,x22
	mov	x1,x21
	mov	w2,w20
	mov	w4,#256
	stp	q0,q0,[sp,#64]
	stp	q0,q0,[sp,#96]
	stp	q0,q0,[sp,#128]
	stp	q0,q0,[sp,#160]
	stp	q0,q0,[sp,#192]
	stp	q0,q0,[sp,#224]
	stp	q0,q0,[sp,#256]
	stp	q0,q0,[sp,#288]
	bl	io_digits_encoded
	cbz	x1,115f
	mov	x20,x1
	mov	x21,x0
	mov	x22,xzr
	sub	x23,x29,#112
	neg	x25,x1
29:
	ldp	x28,x27,[x19,#8]
	movi	v0.2d,#0000000000000000
	sub	x26,x20,x22
	sub	x8,x27,x28
	cmp	x26,x8
	add	x8,x21,x22
	stp	q0,q0,[x29,#-112]
	stp	q0,q0,[x29,#-80]
	stp	q0,q0,[x29,#-48]
	b.hs	49f
	ldr	x24,[x19]
	stp	xzr,xzr,[x19,#8]
	add	x9,x24,x28
	sub	x8,x9,x8
	cmp	x8,x26
	b.hs	36f
	cmp	x26,#8
	b.lo	33f
	add	x8,x28,x24
	add	x9,x22,x21
	sub	x8,x8,x9
	cmp	x8,#32
	b.hs	40f
33:
	mov	x8,xzr
34:
	add	x9,x8,x22
	add	x10,x8,x28
	add	x8,x9,x25
	add	x9,x21,x9
	add	x10,x24,x10
35:
	ldrb	w11,[x9],#1
	adds	x8,x8,#1
	strb	w11,[x10],#1
	b.lo	35b
	b	37f
36:
	add	x0,x24,x28
	add	x1,x21,x22
	sub	x2,x20,x22
	bl	memmove
37:
	add	x8,x28,x26
	str	x27,[x19,#16]
	stp	x24,x8,[x19]
38:
	cbz	x26,110f
	add	x22,x26,x22
	cmp	x22,x20
	b.lo	29b
	b	112f
40:
	cmp	x26,#32
	b.hs	42f
	mov	x8,xzr
	b	46f
42:
	add	x11,x24,x28
	add	x10,x21,#16
	and	x9,x26,#0x18
	and	x8,x26,#0xffffffffffffffe0
	add	x10,x10,x22
	add	x11,x11,#16
	and	x12,x26,#0xffffffffffffffe0
43:
	ldp	q0,q1,[x10,#-16]
	subs	x12,x12,#32
	add	x10,x10,#32
	stp	q0,q1,[x11,#-16]
	add	x11,x11,#32
	b.ne	43b
	cmp	x26,x8
	b.eq	37b
	cbz	x9,34b
46:
	mov	x9,x8
	and	x8,x26,#0xfffffffffffffff8
	add	x10,x9,x22
	add	x11,x9,x28
	sub	x9,x9,x8
	add	x10,x21,x10
	add	x11,x24,x11
47:
	ldr	d0,[x10],#8
	adds	x9,x9,#8
	str	d0,[x11],#8
	b.ne	47b
	cmp	x26,x8
	b.eq	37b
	b	34b
49:
	sub	x0,x29,#112
	add	x2,x21,x22
	sub	x3,x20,x22
	mov	x1,x19
	bl	std_io_buffered_BufWriter_write_cold
	ldp	q0,q1,[x23,#48]
	ldur	q2,[x23,#80]
	ldurb	w8,[x29,#-112]
	ldur	x26,[x29,#-104]
	stur	q2,[x29,#-128]
	stp	q0,q1,[x29,#-160]
	ldp	q1,q0,[x23,#16]
	stp	q1,q0,[x29,#-192]
	cbz	w8,38b
	ldp	q0,q1,[x29,#-176]
	mov	w0,#1
	ldr	x8,[x19,#120]
	ldur	q2,[x29,#-192]
	mov	w1,wzr
	stp	x0,x26,[x19,#24]
	stur	q0,[x19,#56]
	adds	x8,x8,#1
	stur	q1,[x19,#72]
	ldp	q0,q1,[x29,#-144]
	csinv	x8,x8,xzr,lo
	stur	q2,[x19,#40]
	str	x8,[x19,#120]
	stur	q0,[x19,#88]
	stur	q1,[x19,#104]
	b	114f
51:
	add	x0,sp,#64
	mov	w1,wzr
	mov	w2,#1536
	add	x25,sp,#64
	bl	memset
	cmp	x23,#512
	mov	w8,#512
	mov	x27,xzr
	csel	x8,x23,x8,lo
	str	w24,[sp,#28]
	str	x8,[sp,#16]
	add	x8,x25,#16
	str	x8,[sp,#8]
	str	w20,[sp,#52]
	stp	x22,x21,[sp,#32]
	b	53f
52:
	ldr	x8,[sp,#56]
	ldp	x22,x21,[sp,#32]
	ldr	w20,[sp,#52]
	ldr	w24,[sp,#28]
	add	x27,x8,x27
	cmp	x27,x21
	b.hs	112f
53:
	cbz	x27,57f
	cbz	x23,116f
	udiv	x8,x27,x23
	msub	x8,x8,x23,x27
	cbz	x8,60f
	sub	x8,x23,x8
	sub	x9,x21,x27
	add	x0,x22,x27
	cmp	x8,x9
	add	x2,sp,#64
	csel	x8,x8,x9,lo
	mov	w9,#512
	cmp	x8,#512
	csel	x1,x8,x9,lo
	b	59f
57:
	cbz	x23,116f
	ldr	x10,[sp,#16]
	mov	w9,#512
	add	x2,sp,#64
	mov	x0,x22
	and	w8,w10,#0xffff
	udiv	w8,w9,w8
	mul	w8,w8,w10
	and	x8,x8,#0xffff
	cmp	x21,x8
	csel	x1,x21,x8,lo
59:
	mov	x3,x23
	mov	w4,w24
	mov	w5,w20
	str	x1,[sp,#56]
	bl	codec_grouped_write_with_room
	mov	x8,xzr
	adds	x28,xzr,x0
	b.ne	61f
	b	52b
60:
	ldr	x10,[sp,#16]
	mov	w9,#512
	add	x0,x22,x27
	mov	x3,x23
	mov	w4,w24
	mov	w5,w20
	and	w8,w10,#0xffff
	udiv	w8,w9,w8
	sub	x9,x21,x27
	mul	w8,w8,w10
	and	x8,x8,#0xffff
	cmp	x9,x8
	csel	x1,x9,x8,lo
	add	x8,sp,#64
	orr	x2,x8,#0x1
	str	x1,[sp,#56]
	bl	codec_grouped_write_with_room
	mov	w8,#1
	strb	w24,[sp,#64]
	adds	x28,x8,x0
	b.eq	52b
61:
	mov	x26,xzr
	add	x20,x0,x8
62:
	ldp	x21,x24,[x19,#8]
	movi	v0.2d,#0000000000000000
	sub	x22,x28,x26
	add	x9,sp,#64
	add	x1,x9,x26
	sub	x8,x24,x21
	cmp	x22,x8
	stp	q0,q0,[x29,#-112]
	stp	q0,q0,[x29,#-80]
	stp	q0,q0,[x29,#-48]
	b.hs	82f
	ldr	x25,[x19]
	add	x8,x25,x21
	sub	x8,x8,x1
	cmp	x8,x22
	b.hs	69f
	cmp	x22,#8
	b.lo	66f
	add	x8,sp,#64
	add	x9,x21,x25
	add	x8,x26,x8
	sub	x8,x9,x8
	cmp	x8,#32
	b.hs	73f
66:
	mov	x8,xzr
67:
	sub	x9,x20,x8
	add	x10,x8,x26
	add	x11,sp,#64
	add	x12,x8,x21
	sub	x8,x9,x26
	add	x9,x11,x10
	add	x10,x25,x12
68:
	ldrb	w11,[x9],#1
	subs	x8,x8,#1
	strb	w11,[x10],#1
	b.ne	68b
	b	70f
69:
	add	x0,x25,x21
	sub	x2,x28,x26
	bl	memmove
70:
	add	x8,x21,x22
	str	x24,[x19,#16]
	stp	x25,x8,[x19]
71:
	cbz	x22,110f
	add	x26,x22,x26
	cmp	x26,x28
	b.lo	62b
	b	52b
73:
	cmp	x22,#32
	b.hs	75f
	mov	x8,xzr
	b	79f
75:
	ldr	x10,[sp,#8]
	add	x11,x25,x21
	and	x9,x22,#0x18
	and	x8,x22,#0xffffffffffffffe0
	add	x11,x11,#16
	and	x12,x22,#0xffffffffffffffe0
	add	x10,x10,x26
76:
	ldp	q0,q1,[x10,#-16]
	subs	x12,x12,#32
	add	x10,x10,#32
	stp	q0,q1,[x11,#-16]
	add	x11,x11,#32
	b.ne	76b
	cmp	x22,x8
	b.eq	70b
	cbz	x9,67b
79:
	mov	x9,x8
	and	x8,x22,#0xfffffffffffffff8
	add	x11,sp,#64
	add	x10,x9,x26
	add	x12,x9,x21
	sub	x9,x9,x8
	add	x10,x11,x10
	add	x11,x25,x12
80:
	ldr	d0,[x10],#8
	adds	x9,x9,#8
	str	d0,[x11],#8
	b.ne	80b
	cmp	x22,x8
	b.eq	70b
	b	67b
82:
	sub	x0,x29,#112
	sub	x3,x28,x26
	mov	x2,x1
	mov	x1,x19
	bl	std_io_buffered_BufWriter_write_cold
	sub	x9,x29,#112
	ldurb	w8,[x29,#-112]
	ldur	x22,[x29,#-104]
	ldp	q0,q1,[x9,#48]
	ldur	q2,[x9,#80]
	stur	q2,[x29,#-128]
	stp	q0,q1,[x29,#-160]
	ldp	q1,q0,[x9,#16]
	stp	q1,q0,[x29,#-192]
	cbz	w8,71b
	b	108f
83:
	add	x0,sp,#64
	mov	w1,wzr
	mov	w2,#1024
	bl	memset
	mov	x26,xzr
	str	w20,[sp,#52]
	stp	x22,x21,[sp,#32]
	b	85f
84:
	ldp	x22,x21,[sp,#32]
	add	x26,x23,x26
	ldr	w20,[sp,#52]
	cmp	x26,x21
	b.hs	112f
85:
	sub	x8,x21,x26
	mov	w9,#512
	add	x0,x22,x26
	cmp	x8,#512
	add	x3,sp,#64
	mov	w2,w20
	csel	x23,x8,x9,lo
	mov	w4,#1024
	mov	x1,x23
	bl	io_digits_encoded
	cbz	x1,84b
	mov	x24,x1
	mov	x25,x0
	mov	x20,xzr
87:
	ldp	x21,x27,[x19,#8]
	movi	v0.2d,#0000000000000000
	sub	x22,x24,x20
	sub	x8,x27,x21
	cmp	x22,x8
	add	x8,x25,x20
	stp	q0,q0,[x29,#-112]
	stp	q0,q0,[x29,#-80]
	stp	q0,q0,[x29,#-48]
	b.hs	107f
	ldr	x28,[x19]
	stp	xzr,xzr,[x19,#8]
	add	x9,x28,x21
	sub	x8,x9,x8
	cmp	x8,x22
	b.hs	94f
	cmp	x22,#8
	b.lo	91f
	add	x8,x21,x28
	add	x9,x20,x25
	sub	x8,x8,x9
	cmp	x8,#32
	b.hs	98f
91:
	mov	x8,xzr
92:
	add	x9,x8,x20
	add	x10,x8,x21
	neg	x8,x24
	add	x8,x9,x8
	add	x9,x25,x9
	add	x10,x28,x10
93:
	ldrb	w11,[x9],#1
	adds	x8,x8,#1
	strb	w11,[x10],#1
	b.lo	93b
	b	95f
94:
	add	x0,x28,x21
	add	x1,x25,x20
	sub	x2,x24,x20
	bl	memmove
95:
	add	x8,x21,x22
	str	x27,[x19,#16]
	stp	x28,x8,[x19]
96:
	cbz	x22,110f
	add	x20,x22,x20
	cmp	x20,x24
	b.lo	87b
	b	84b
98:
	cmp	x22,#32
	b.hs	100f
	mov	x8,xzr
	b	104f
100:
	add	x11,x28,x21
	add	x10,x25,#16
	and	x9,x22,#0x18
	and	x8,x22,#0xffffffffffffffe0
	add	x10,x10,x20
	add	x11,x11,#16
	and	x12,x22,#0xffffffffffffffe0
101:
	ldp	q0,q1,[x10,#-16]
	subs	x12,x12,#32
	add	x10,x10,#32
	stp	q0,q1,[x11,#-16]
	add	x11,x11,#32
	b.ne	101b
	cmp	x22,x8
	b.eq	95b
	cbz	x9,92b
104:
	mov	x9,x8
	and	x8,x22,#0xfffffffffffffff8
	add	x10,x9,x20
	add	x11,x9,x21
	sub	x9,x9,x8
	add	x10,x25,x10
	add	x11,x28,x11
105:
	ldr	d0,[x10],#8
	adds	x9,x9,#8
	str	d0,[x11],#8
	b.ne	105b
	cmp	x22,x8
	b.eq	95b
	b	92b
107:
	sub	x0,x29,#112
	add	x2,x25,x20
	sub	x3,x24,x20
	mov	x1,x19
	bl	std_io_buffered_BufWriter_write_cold
	sub	x9,x29,#112
	ldurb	w8,[x29,#-112]
	ldur	x22,[x29,#-104]
	ldp	q0,q1,[x9,#48]
	ldur	q2,[x9,#80]
	stur	q2,[x29,#-128]
	stp	q0,q1,[x29,#-160]
	ldp	q1,q0,[x9,#16]
	stp	q1,q0,[x29,#-192]
	cbz	w8,96b
108:
	ldp	q0,q1,[x29,#-176]
	mov	w0,#1
	ldr	x8,[x19,#120]
	ldur	q2,[x29,#-192]
	mov	w1,wzr
	stp	x0,x22,[x19,#24]
109:
	stur	q0,[x19,#56]
	adds	x8,x8,#1
	stur	q1,[x19,#72]
	ldp	q0,q1,[x29,#-144]
	stur	q0,[x19,#88]
	stur	q1,[x19,#104]
	csinv	x8,x8,xzr,lo
	stur	q2,[x19,#40]
	b	111f
110:
	ldr	x8,[x19,#120]
	mov	w0,#1
	mov	w1,#1
	adds	x8,x8,#1
	csinv	x8,x8,xzr,lo
111:
	str	x8,[x19,#120]
	b	114f
112:
	mov	w0,wzr
113:
	mov	w1,wzr
114:
	add	sp,sp,#1792
	ldp	x20,x19,[sp,#80]
	ldp	x22,x21,[sp,#64]
	ldp	x24,x23,[sp,#48]
	ldp	x26,x25,[sp,#32]
	ldp	x28,x27,[sp,#16]
	ldp	x29,x30,[sp],#96
	ret
115:
	mov	w0,wzr
	b	114b
116:
	brk	#0x1
	hex_end	io_digits_put_digits_
	hex_merged	16
	.p2align	4,0x0
.LCPI41_0:
	.word	4294967278
	.word	4294967284
	.word	4294967290
	.word	0
	hex_merged	8
	.p2align	3,0x0
.LCPI41_1:
	.hword	255
	.hword	63
	.hword	63
	.hword	63
.LCPI41_2:
	.hword	240
	.hword	128
	.hword	128
	.hword	128
	hex_function	io_padding_put_copies,.text
	cbz	x2,3f
	stp	x29,x30,[sp,#-96]!
	stp	x28,x27,[sp,#16]
	mov	x29,sp
	stp	x26,x25,[sp,#32]
	stp	x24,x23,[sp,#48]
	stp	x22,x21,[sp,#64]
	stp	x20,x19,[sp,#80]
	sub	sp,sp,#480
	movi	v0.2d,#0000000000000000
	cmp	x2,#64
	mov	w8,#64
	mov	x21,x2
	mov	w20,w1
	mov	x19,x0
	csel	x24,x2,x8,lo
	cmp	w1,#127
	stur	wzr,[x29,#-112]
	stp	q0,q0,[sp,#32]
	stp	q0,q0,[sp,#64]
	stp	q0,q0,[sp,#96]
	stp	q0,q0,[sp,#128]
	stp	q0,q0,[sp,#160]
	stp	q0,q0,[sp,#192]
	stp	q0,q0,[sp,#224]
	stp	q0,q0,[sp,#256]
	b.hi	4f
	sturb	w20,[x29,#-112]
	mov	w22,#1
	b	9f
3:
	mov	w1,wzr
	mov	w0,wzr
	ret
4:
	cmp	w20,#2047
	b.hi	6f
	lsr	w8,w20,#6
	mov	w9,#128
	mov	w22,#2
	bfxil	w9,w20,#0,#6
	orr	w8,w8,#0xc0
	sturb	w8,[x29,#-112]
	sturb	w9,[x29,#-111]
	b	9f
6:
	lsr	w8,w20,#16
	cbnz	w8,8f
	lsr	w8,w20,#12
	mov	w9,#128
	mov	w10,#128
	bfxil	w9,w20,#6,#6
	bfxil	w10,w20,#0,#6
	mov	w22,#3
	orr	w8,w8,#0xe0
	sturb	w8,[x29,#-112]
	sturb	w9,[x29,#-111]
	sturb	w10,[x29,#-110]
	b	9f
8:
	dup	v0.4s,w20
	hex_page	x8,.LCPI41_0
	mov	w22,#4
	hex_value	q1,x8,.LCPI41_0
	hex_page	x8,.LCPI41_1
	ushl	v0.4s,v0.4s,v1.4s
	hex_value	d1,x8,.LCPI41_1
	hex_page	x8,.LCPI41_2
	xtn	v0.4h,v0.4s
	and	v0.8b,v0.8b,v1.8b
	hex_value	d1,x8,.LCPI41_2
	add	v0.4h,v0.4h,v1.4h
	uzp1	v0.8b,v0.8b,v0.8b
	stur	s0,[x29,#-112]
9:
	mov	x23,xzr
	mov	x25,x24
10:
	add	x9,sp,#32
	sub	x1,x29,#112
	add	x0,x9,x23
	mov	x2,x22
	add	x23,x23,x22
	bl	memcpy
	subs	x25,x25,#1
	b.ne	10b
	lsr	x9,x21,#6
	cbz	x9,37f
	cbz	x23,37f
	mul	x22,x22,x24
	add	x8,sp,#32
	mov	x10,xzr
	add	x8,x8,#16
	stp	x9,x8,[sp,#8]
14:
	mov	x27,xzr
	str	x10,[sp,#24]
15:
	ldp	x28,x24,[x19,#8]
	movi	v0.2d,#0000000000000000
	sub	x26,x23,x27
	add	x9,sp,#32
	add	x1,x9,x27
	sub	x8,x24,x28
	cmp	x26,x8
	stp	q0,q0,[x29,#-112]
	stp	q0,q0,[x29,#-80]
	stp	q0,q0,[x29,#-48]
	b.hs	35f
	ldr	x25,[x19]
	add	x8,x25,x28
	sub	x8,x8,x1
	cmp	x8,x26
	b.hs	22f
	sub	x8,x22,x27
	cmp	x8,#8
	b.lo	19f
	add	x9,sp,#32
	add	x10,x28,x25
	add	x9,x27,x9
	sub	x9,x10,x9
	cmp	x9,#32
	b.hs	26f
19:
	mov	x9,xzr
20:
	add	x10,x9,x27
	add	x11,sp,#32
	add	x12,x9,x28
	neg	x8,x23
	add	x9,x11,x10
	add	x8,x8,x10
	add	x10,x25,x12
21:
	ldrb	w11,[x9],#1
	adds	x8,x8,#1
	strb	w11,[x10],#1
	b.lo	21b
	b	23f
22:
	add	x0,x25,x28
	sub	x2,x23,x27
	bl	memmove
23:
	add	x8,x23,x28
	str	x24,[x19,#16]
	sub	x8,x8,x27
	stp	x25,x8,[x19]
24:
	cbz	x26,61f
	add	x27,x26,x27
	cmp	x27,x23
	b.lo	15b
	b	36f
26:
	cmp	x8,#32
	b.hs	28f
	mov	x9,xzr
	b	32f
28:
	ldr	x11,[sp,#16]
	add	x12,x25,x28
	and	x10,x8,#0x18
	and	x9,x8,#0xffffffffffffffe0
	add	x12,x12,#16
	and	x13,x8,#0xffffffffffffffe0
	add	x11,x11,x27
29:
	ldp	q0,q1,[x11,#-16]
	subs	x13,x13,#32
	add	x11,x11,#32
	stp	q0,q1,[x12,#-16]
	add	x12,x12,#32
	b.ne	29b
	cmp	x8,x9
	b.eq	23b
	cbz	x10,20b
32:
	mov	x10,x9
	and	x9,x8,#0xfffffffffffffff8
	add	x12,sp,#32
	add	x11,x10,x27
	add	x13,x10,x28
	sub	x10,x10,x9
	add	x11,x12,x11
	add	x12,x25,x13
33:
	ldr	d0,[x11],#8
	adds	x10,x10,#8
	str	d0,[x12],#8
	b.ne	33b
	cmp	x8,x9
	b.eq	23b
	b	20b
35:
	sub	x0,x29,#112
	sub	x3,x23,x27
	mov	x2,x1
	mov	x1,x19
	bl	std_io_buffered_BufWriter_write_cold
	sub	x9,x29,#112
	ldurb	w8,[x29,#-112]
	ldur	x26,[x29,#-104]
	ldp	q0,q1,[x9,#48]
	ldur	q2,[x9,#80]
	stur	q2,[x29,#-128]
	stp	q0,q1,[x29,#-160]
	ldp	q1,q0,[x9,#16]
	stp	q1,q0,[x29,#-192]
	cbz	w8,24b
	b	64f
36:
	ldr	x10,[sp,#24]
	ldr	x9,[sp,#8]
	add	x10,x10,#1
	cmp	x10,x9
	b.ne	14b
37:
	cmp	w20,#16,lsl #12
	mov	w8,#3
	mov	w10,#2
	cinc	x9,x8,hs
	cmp	w20,#2048
	and	x8,x21,#0x3f
	csel	x9,x10,x9,lo
	cmp	w20,#128
	csinc	x9,x9,xzr,hs
	cbz	x8,62f
	umull	x21,w9,w8
	add	x22,sp,#32
	mov	x20,xzr
	sub	x23,x29,#112
	add	x24,x22,#16
39:
	ldp	x27,x26,[x19,#8]
	movi	v0.2d,#0000000000000000
	sub	x25,x21,x20
	sub	x8,x26,x27
	cmp	x25,x8
	add	x8,x22,x20
	stp	q0,q0,[x29,#-112]
	stp	q0,q0,[x29,#-80]
	stp	q0,q0,[x29,#-48]
	b.hs	59f
	ldr	x28,[x19]
	add	x9,x28,x27
	sub	x8,x9,x8
	cmp	x8,x25
	b.hs	46f
	cmp	x25,#8
	b.lo	43f
	add	x8,sp,#32
	add	x9,x27,x28
	add	x8,x20,x8
	sub	x8,x9,x8
	cmp	x8,#32
	b.hs	50f
43:
	mov	x8,xzr
44:
	sub	x9,x21,x8
	add	x10,x8,x20
	add	x11,sp,#32
	add	x12,x8,x27
	sub	x8,x9,x20
	add	x9,x11,x10
	add	x10,x28,x12
45:
	ldrb	w11,[x9],#1
	subs	x8,x8,#1
	strb	w11,[x10],#1
	b.ne	45b
	b	47f
46:
	add	x0,x28,x27
	add	x1,x22,x20
	sub	x2,x21,x20
	bl	memmove
47:
	add	x8,x27,x25
	str	x26,[x19,#16]
	stp	x28,x8,[x19]
48:
	cbz	x25,61f
	add	x20,x25,x20
	cmp	x20,x21
	b.lo	39b
	b	62f
50:
	cmp	x25,#32
	b.hs	52f
	mov	x8,xzr
	b	56f
52:
	add	x11,x28,x27
	and	x9,x25,#0x18
	and	x8,x25,#0x1e0
	add	x10,x24,x20
	add	x11,x11,#16
	and	x12,x25,#0x1e0
53:
	ldp	q0,q1,[x10,#-16]
	subs	x12,x12,#32
	add	x10,x10,#32
	stp	q0,q1,[x11,#-16]
	add	x11,x11,#32
	b.ne	53b
	cmp	x25,x8
	b.eq	47b
	cbz	x9,44b
56:
	mov	x9,x8
	and	x8,x25,#0x1f8
	add	x11,sp,#32
	add	x10,x9,x20
	add	x12,x9,x27
	sub	x9,x9,x8
	add	x10,x11,x10
	add	x11,x28,x12
57:
	ldr	d0,[x10],#8
	adds	x9,x9,#8
	str	d0,[x11],#8
	b.ne	57b
	cmp	x25,x8
	b.eq	47b
	b	44b
59:
	sub	x0,x29,#112
	add	x2,x22,x20
	sub	x3,x21,x20
	mov	x1,x19
	bl	std_io_buffered_BufWriter_write_cold
	ldp	q0,q1,[x23,#48]
	ldur	q2,[x23,#80]
	ldurb	w8,[x29,#-112]
	ldur	x25,[x29,#-104]
	stur	q2,[x29,#-128]
	stp	q0,q1,[x29,#-160]
	ldp	q1,q0,[x23,#16]
	stp	q1,q0,[x29,#-192]
	cbz	w8,48b
	ldp	q0,q1,[x29,#-176]
	mov	w0,#1
	ldr	x8,[x19,#120]
	ldur	q2,[x29,#-192]
	mov	w1,wzr
	stp	x0,x25,[x19,#24]
	b	65f
61:
	ldr	x8,[x19,#120]
	mov	w1,#1
	mov	w0,#1
	adds	x8,x8,#1
	csinv	x8,x8,xzr,lo
	str	x8,[x19,#120]
	b	63f
62:
	mov	w1,wzr
	mov	w0,wzr
63:
	add	sp,sp,#480
	ldp	x20,x19,[sp,#80]
	ldp	x22,x21,[sp,#64]
	ldp	x24,x23,[sp,#48]
	ldp	x26,x25,[sp,#32]
	ldp	x28,x27,[sp,#16]
	ldp	x29,x30,[sp],#96
	ret
64:
	ldp	q0,q1,[x29,#-176]
	mov	w1,wzr
	ldr	x8,[x19,#120]
	ldur	q2,[x29,#-192]
	mov	w0,#1
	stp	x0,x26,[x19,#24]
65:
	stur	q0,[x19,#56]
	adds	x8,x8,#1
	stur	q1,[x19,#72]
	ldp	q0,q1,[x29,#-144]
	csinv	x8,x8,xzr,lo
	str	x8,[x19,#120]
	stur	q0,[x19,#88]
	stur	q1,[x19,#104]
	stur	q2,[x19,#40]
	b	63b
	hex_end	io_padding_put_copies
	hex_function	core_backend_Backend_decode_owned,.text
	sub	sp,sp,#32
	and	x9,x3,#0xff
	hex_page	x8,.Lstatic.20
	hex_address	x8,x8,.Lstatic.20
	ldrb	w10,[x8,x9]
	hex_page	x11,.Lstatic.19
	hex_address	x11,x11,.Lstatic.19
	lsr	x8,x2,#6
	ldr	q1,[x11,x9,lsl #4]
	add	x9,x1,#32
	dup	v0.16b,w10
	add	x11,x0,#64
	stp	d9,d8,[sp,#16]
1:
	movi	v6.16b,#55
	ldp	q2,q4,[x11,#-64]
	ldp	q3,q5,[x11,#-32]
	movi	v7.16b,#143
	ldp	q16,q17,[x11]
	ldp	q18,q19,[x11,#32]
	uqsub	v20.16b,v4.16b,v6.16b
	uqsub	v21.16b,v5.16b,v6.16b
	uqsub	v22.16b,v3.16b,v6.16b
	uqsub	v23.16b,v2.16b,v6.16b
	uqsub	v25.16b,v17.16b,v6.16b
	uqsub	v26.16b,v16.16b,v6.16b
	uqsub	v24.16b,v19.16b,v6.16b
	uqsub	v6.16b,v18.16b,v6.16b
	eor	v4.16b,v0.16b,v4.16b
	eor	v5.16b,v0.16b,v5.16b
	eor	v2.16b,v0.16b,v2.16b
	eor	v3.16b,v0.16b,v3.16b
	and	v27.16b,v20.16b,v7.16b
	and	v29.16b,v22.16b,v7.16b
	and	v30.16b,v21.16b,v7.16b
	and	v28.16b,v23.16b,v7.16b
	and	v31.16b,v26.16b,v7.16b
	and	v8.16b,v25.16b,v7.16b
	and	v9.16b,v24.16b,v7.16b
	and	v7.16b,v6.16b,v7.16b
	eor	v18.16b,v0.16b,v18.16b
	tbl	v27.16b,{ v1.16b },v27.16b
	tbl	v29.16b,{ v1.16b },v29.16b
	tbl	v30.16b,{ v1.16b },v30.16b
	tbl	v28.16b,{ v1.16b },v28.16b
	tbl	v31.16b,{ v1.16b },v31.16b
	tbl	v8.16b,{ v1.16b },v8.16b
	tbl	v9.16b,{ v1.16b },v9.16b
	tbl	v7.16b,{ v1.16b },v7.16b
	eor	v19.16b,v0.16b,v19.16b
	uqsub	v20.16b,v27.16b,v20.16b
	uqsub	v21.16b,v30.16b,v21.16b
	uqsub	v22.16b,v29.16b,v22.16b
	uqsub	v23.16b,v28.16b,v23.16b
	uqsub	v25.16b,v8.16b,v25.16b
	uqsub	v26.16b,v31.16b,v26.16b
	uqsub	v24.16b,v9.16b,v24.16b
	uqsub	v6.16b,v7.16b,v6.16b
	eor	v27.16b,v0.16b,v17.16b
	eor	v28.16b,v0.16b,v16.16b
	eor	v7.16b,v4.16b,v20.16b
	eor	v5.16b,v5.16b,v21.16b
	eor	v17.16b,v3.16b,v22.16b
	eor	v16.16b,v2.16b,v23.16b
	eor	v4.16b,v27.16b,v25.16b
	eor	v2.16b,v18.16b,v6.16b
	eor	v3.16b,v19.16b,v24.16b
	eor	v6.16b,v28.16b,v26.16b
	orr	v21.16b,v4.16b,v7.16b
	orr	v18.16b,v2.16b,v17.16b
	orr	v19.16b,v6.16b,v16.16b
	orr	v20.16b,v3.16b,v5.16b
	orr	v20.16b,v21.16b,v20.16b
	orr	v18.16b,v19.16b,v18.16b
	movi	v19.16b,#240
	orr	v18.16b,v18.16b,v20.16b
	and	v18.16b,v18.16b,v19.16b
	ext	v19.16b,v18.16b,v18.16b,#8
	orr	v18.8b,v18.8b,v19.8b
	fmov	x12,d18
	orr	x12,x12,x12,lsr #32
	lsr	x13,x12,#16
	orr	w12,w12,w13
	orr	w12,w12,w12,lsr #8
	tst	w12,#0xff
	b.ne	24f
	mov	w12,#4097
	subs	x8,x8,#1
	add	x11,x11,#128
	dup	v18.8h,w12
	mul	v7.8h,v7.8h,v18.8h
	mul	v16.8h,v16.8h,v18.8h
	mul	v17.8h,v17.8h,v18.8h
	mul	v5.8h,v5.8h,v18.8h
	mul	v4.8h,v4.8h,v18.8h
	mul	v6.8h,v6.8h,v18.8h
	mul	v2.8h,v2.8h,v18.8h
	mul	v3.8h,v3.8h,v18.8h
	uzp2	v7.16b,v16.16b,v7.16b
	uzp2	v5.16b,v17.16b,v5.16b
	uzp2	v4.16b,v6.16b,v4.16b
	uzp2	v2.16b,v2.16b,v3.16b
	stp	q7,q5,[x9,#-32]
	stp	q4,q2,[x9],#64
	b.ne	1b
	and	x8,x2,#0xffffffffffffffc0
	and	x9,x2,#0x3f
	add	x11,x0,x8,lsl #1
	lsl	x12,x9,#1
	cmp	x9,#7
	add	x8,x1,x8
	b.hi	9f
	cbz	x9,8f
	cmp	x9,#1
	b.ne	16f
	add	x9,x11,x12
	ldr	h0,[x11]
	movi	v3.4h,#55
	sub	x9,x9,#2
	movi	v4.16b,#143
	ld1	{ v0.h }[1],[x9]
	zip1	v0.8b,v0.8b,v0.8b
	fmov	d2,d0
	bic	v2.4h,#255,lsl #8
	uqsub	v2.4h,v2.4h,v3.4h
	movi	v3.2d,#0000000000000000
	umov	w9,v2.h[0]
	umov	w11,v2.h[1]
	mov	v3.b[0],w9
	umov	w9,v2.h[2]
	mov	v3.b[1],w11
	umov	w11,v2.h[3]
	mov	v3.b[2],w9
	mov	v3.b[3],w11
	and	v3.16b,v3.16b,v4.16b
	tbl	v1.16b,{ v1.16b },v3.16b
	dup	v3.4h,w10
	zip1	v1.8b,v1.8b,v0.8b
	eor	v0.8b,v3.8b,v0.8b
	bic	v1.4h,#255,lsl #8
	uqsub	v1.4h,v1.4h,v2.4h
	movi	v2.4h,#240
	eor	v0.8b,v0.8b,v1.8b
	and	v1.8b,v0.8b,v2.8b
	fmov	x9,d1
	lsr	x10,x9,#32
	orr	w9,w9,w10
	orr	w9,w9,w9,lsr #16
	tst	w9,#0xff
	b.ne	24f
	uzp1	v0.8b,v0.8b,v0.8b
	ushll	v0.4s,v0.4h,#0
	mov	w9,v0.s[1]
	add	w9,w9,w9,lsl #12
	lsr	w9,w9,#8
	strb	w9,[x8]
8:
	mov	w0,#1
	ldp	d9,d8,[sp,#16]
	add	sp,sp,#32
	ret
9:
	cmp	x9,#16
	b.hi	13f
	movi	v2.16b,#55
	b.ne	19f
	ldp	q3,q4,[x11]
	movi	v6.16b,#143
	uqsub	v5.16b,v4.16b,v2.16b
	uqsub	v2.16b,v3.16b,v2.16b
	eor	v4.16b,v0.16b,v4.16b
	eor	v0.16b,v0.16b,v3.16b
	and	v7.16b,v2.16b,v6.16b
	and	v6.16b,v5.16b,v6.16b
	tbl	v7.16b,{ v1.16b },v7.16b
	tbl	v1.16b,{ v1.16b },v6.16b
	uqsub	v1.16b,v1.16b,v5.16b
	uqsub	v2.16b,v7.16b,v2.16b
	eor	v1.16b,v4.16b,v1.16b
	eor	v0.16b,v0.16b,v2.16b
	movi	v2.16b,#240
	orr	v3.16b,v0.16b,v1.16b
	and	v2.16b,v3.16b,v2.16b
	ext	v3.16b,v2.16b,v2.16b,#8
	orr	v2.8b,v2.8b,v3.8b
	fmov	x9,d2
	orr	x9,x9,x9,lsr #32
	lsr	x10,x9,#16
	orr	w9,w9,w10
	orr	w9,w9,w9,lsr #8
	tst	w9,#0xff
	b.ne	24f
	mov	w9,#4097
	dup	v2.8h,w9
	mul	v1.8h,v1.8h,v2.8h
	mul	v0.8h,v0.8h,v2.8h
	uzp2	v0.16b,v0.16b,v1.16b
	str	q0,[x8]
	mov	w0,#1
	ldp	d9,d8,[sp,#16]
	add	sp,sp,#32
	ret
13:
	cmp	x9,#32
	b.hi	21f
	movi	v2.16b,#55
	add	x10,x11,x12
	movi	v7.16b,#143
	ldp	q3,q4,[x11]
	ldp	q5,q6,[x10,#-32]
	uqsub	v16.16b,v3.16b,v2.16b
	eor	v3.16b,v0.16b,v3.16b
	uqsub	v17.16b,v6.16b,v2.16b
	uqsub	v18.16b,v5.16b,v2.16b
	uqsub	v2.16b,v4.16b,v2.16b
	eor	v4.16b,v0.16b,v4.16b
	and	v19.16b,v16.16b,v7.16b
	and	v20.16b,v2.16b,v7.16b
	and	v21.16b,v18.16b,v7.16b
	and	v7.16b,v17.16b,v7.16b
	tbl	v19.16b,{ v1.16b },v19.16b
	tbl	v20.16b,{ v1.16b },v20.16b
	tbl	v21.16b,{ v1.16b },v21.16b
	tbl	v1.16b,{ v1.16b },v7.16b
	uqsub	v7.16b,v19.16b,v16.16b
	uqsub	v16.16b,v21.16b,v18.16b
	uqsub	v2.16b,v20.16b,v2.16b
	uqsub	v17.16b,v1.16b,v17.16b
	eor	v1.16b,v0.16b,v5.16b
	eor	v5.16b,v0.16b,v6.16b
	movi	v6.16b,#240
	eor	v0.16b,v3.16b,v7.16b
	eor	v1.16b,v1.16b,v16.16b
	eor	v3.16b,v4.16b,v2.16b
	eor	v2.16b,v5.16b,v17.16b
	orr	v4.16b,v3.16b,v2.16b
	orr	v5.16b,v0.16b,v1.16b
	orr	v4.16b,v5.16b,v4.16b
	and	v4.16b,v4.16b,v6.16b
	ext	v5.16b,v4.16b,v4.16b,#8
	orr	v4.8b,v4.8b,v5.8b
	fmov	x10,d4
	orr	x10,x10,x10,lsr #32
	lsr	x11,x10,#16
	orr	w10,w10,w11
	orr	w10,w10,w10,lsr #8
	tst	w10,#0xff
	b.ne	24f
	mov	w10,#4097
	add	x9,x8,x9
	dup	v4.8h,w10
	mul	v3.8h,v3.8h,v4.8h
	mul	v0.8h,v0.8h,v4.8h
	mul	v1.8h,v1.8h,v4.8h
	mul	v2.8h,v2.8h,v4.8h
	uzp2	v0.16b,v0.16b,v3.16b
	uzp2	v1.16b,v1.16b,v2.16b
	str	q0,[x8]
	stur	q1,[x9,#-16]
	mov	w0,#1
	ldp	d9,d8,[sp,#16]
	add	sp,sp,#32
	ret
16:
	cmp	x9,#3
	add	x12,x11,x12
	b.hi	23f
	ldr	s0,[x11]
	sub	x11,x12,#4
	movi	v2.8b,#55
	movi	v3.16b,#143
	ld1	{ v0.s }[1],[x11]
	uqsub	v2.8b,v0.8b,v2.8b
	and	v3.16b,v2.16b,v3.16b
	tbl	v1.16b,{ v1.16b },v3.16b
	dup	v3.8b,w10
	uqsub	v1.8b,v1.8b,v2.8b
	eor	v0.8b,v3.8b,v0.8b
	movi	v2.8b,#240
	eor	v0.8b,v0.8b,v1.8b
	and	v1.8b,v0.8b,v2.8b
	fmov	x10,d1
	orr	x10,x10,x10,lsr #32
	lsr	x11,x10,#16
	orr	w10,w10,w11
	orr	w10,w10,w10,lsr #8
	tst	w10,#0xff
	b.ne	24f
	mov	w10,#4097
	dup	v1.4h,w10
	mul	v0.4h,v0.4h,v1.4h
	ushr	v0.4h,v0.4h,#8
	ushll	v0.4s,v0.4h,#0
	ext	v1.16b,v0.16b,v0.16b,#8
	mov	s2,v0.s[1]
	str	b0,[x8]
	mov	s3,v1.s[1]
	stur	b2,[x8,#1]
	add	x8,x8,x9
	stur	b1,[x8,#-2]
	stur	b3,[x8,#-1]
	mov	w0,#1
	ldp	d9,d8,[sp,#16]
	add	sp,sp,#32
	ret
19:
	add	x10,x11,x12
	ldr	q3,[x11]
	movi	v6.16b,#143
	ldur	q4,[x10,#-16]
	uqsub	v5.16b,v4.16b,v2.16b
	uqsub	v2.16b,v3.16b,v2.16b
	eor	v3.16b,v0.16b,v3.16b
	eor	v4.16b,v0.16b,v4.16b
	and	v7.16b,v2.16b,v6.16b
	and	v6.16b,v5.16b,v6.16b
	tbl	v7.16b,{ v1.16b },v7.16b
	tbl	v1.16b,{ v1.16b },v6.16b
	uqsub	v2.16b,v7.16b,v2.16b
	uqsub	v1.16b,v1.16b,v5.16b
	eor	v0.16b,v3.16b,v2.16b
	eor	v1.16b,v4.16b,v1.16b
	movi	v2.16b,#240
	orr	v3.16b,v0.16b,v1.16b
	and	v2.16b,v3.16b,v2.16b
	ext	v3.16b,v2.16b,v2.16b,#8
	orr	v2.8b,v2.8b,v3.8b
	fmov	x10,d2
	orr	x10,x10,x10,lsr #32
	lsr	x11,x10,#16
	orr	w10,w10,w11
	orr	w10,w10,w10,lsr #8
	tst	w10,#0xff
	b.ne	24f
	mov	w10,#4097
	add	x9,x8,x9
	dup	v2.8h,w10
	mul	v0.8h,v0.8h,v2.8h
	mul	v1.8h,v1.8h,v2.8h
	shrn	v0.8b,v0.8h,#8
	shrn	v1.8b,v1.8h,#8
	str	d0,[x8]
	stur	d1,[x9,#-8]
	mov	w0,#1
	ldp	d9,d8,[sp,#16]
	add	sp,sp,#32
	ret
21:
	movi	v6.16b,#55
	add	x10,x11,x12
	movi	v7.16b,#143
	ldp	q2,q4,[x11]
	ldp	q3,q5,[x11,#32]
	ldp	q16,q17,[x10,#-64]
	ldp	q18,q19,[x10,#-32]
	uqsub	v20.16b,v4.16b,v6.16b
	uqsub	v21.16b,v5.16b,v6.16b
	uqsub	v22.16b,v3.16b,v6.16b
	uqsub	v23.16b,v2.16b,v6.16b
	uqsub	v26.16b,v17.16b,v6.16b
	eor	v4.16b,v0.16b,v4.16b
	eor	v2.16b,v0.16b,v2.16b
	uqsub	v24.16b,v19.16b,v6.16b
	uqsub	v25.16b,v18.16b,v6.16b
	uqsub	v6.16b,v16.16b,v6.16b
	and	v27.16b,v20.16b,v7.16b
	eor	v3.16b,v0.16b,v3.16b
	eor	v18.16b,v0.16b,v18.16b
	and	v28.16b,v23.16b,v7.16b
	and	v29.16b,v22.16b,v7.16b
	and	v30.16b,v21.16b,v7.16b
	and	v31.16b,v26.16b,v7.16b
	eor	v17.16b,v0.16b,v17.16b
	eor	v19.16b,v0.16b,v19.16b
	and	v8.16b,v25.16b,v7.16b
	and	v9.16b,v24.16b,v7.16b
	and	v7.16b,v6.16b,v7.16b
	tbl	v27.16b,{ v1.16b },v27.16b
	tbl	v28.16b,{ v1.16b },v28.16b
	tbl	v29.16b,{ v1.16b },v29.16b
	tbl	v30.16b,{ v1.16b },v30.16b
	tbl	v31.16b,{ v1.16b },v31.16b
	eor	v16.16b,v0.16b,v16.16b
	tbl	v8.16b,{ v1.16b },v8.16b
	tbl	v9.16b,{ v1.16b },v9.16b
	tbl	v1.16b,{ v1.16b },v7.16b
	uqsub	v7.16b,v27.16b,v20.16b
	uqsub	v22.16b,v29.16b,v22.16b
	uqsub	v20.16b,v30.16b,v21.16b
	uqsub	v21.16b,v28.16b,v23.16b
	uqsub	v23.16b,v31.16b,v26.16b
	uqsub	v24.16b,v9.16b,v24.16b
	uqsub	v25.16b,v8.16b,v25.16b
	uqsub	v1.16b,v1.16b,v6.16b
	eor	v26.16b,v0.16b,v5.16b
	eor	v5.16b,v4.16b,v7.16b
	eor	v7.16b,v3.16b,v22.16b
	eor	v6.16b,v2.16b,v21.16b
	eor	v0.16b,v17.16b,v23.16b
	eor	v4.16b,v26.16b,v20.16b
	eor	v2.16b,v18.16b,v25.16b
	eor	v3.16b,v19.16b,v24.16b
	eor	v1.16b,v16.16b,v1.16b
	orr	v19.16b,v0.16b,v5.16b
	orr	v16.16b,v2.16b,v7.16b
	orr	v18.16b,v3.16b,v4.16b
	orr	v17.16b,v1.16b,v6.16b
	orr	v18.16b,v19.16b,v18.16b
	orr	v16.16b,v17.16b,v16.16b
	movi	v17.16b,#240
	orr	v16.16b,v16.16b,v18.16b
	and	v16.16b,v16.16b,v17.16b
	ext	v17.16b,v16.16b,v16.16b,#8
	orr	v16.8b,v16.8b,v17.8b
	fmov	x10,d16
	orr	x10,x10,x10,lsr #32
	lsr	x11,x10,#16
	orr	w10,w10,w11
	orr	w10,w10,w10,lsr #8
	tst	w10,#0xff
	b.ne	24f
	mov	w10,#4097
	add	x9,x8,x9
	dup	v16.8h,w10
	mul	v5.8h,v5.8h,v16.8h
	mul	v6.8h,v6.8h,v16.8h
	mul	v7.8h,v7.8h,v16.8h
	mul	v4.8h,v4.8h,v16.8h
	mul	v2.8h,v2.8h,v16.8h
	mul	v3.8h,v3.8h,v16.8h
	mul	v0.8h,v0.8h,v16.8h
	mul	v1.8h,v1.8h,v16.8h
	uzp2	v5.16b,v6.16b,v5.16b
	uzp2	v4.16b,v7.16b,v4.16b
	uzp2	v2.16b,v2.16b,v3.16b
	uzp2	v0.16b,v1.16b,v0.16b
	stp	q5,q4,[x8]
	stp	q0,q2,[x9,#-32]
	mov	w0,#1
	ldp	d9,d8,[sp,#16]
	add	sp,sp,#32
	ret
23:
	ldr	d2,[x11]
	ldur	d3,[x12,#-8]
	movi	v4.16b,#143
	mov	v2.d[1],v3.d[0]
	movi	v3.16b,#55
	uqsub	v3.16b,v2.16b,v3.16b
	eor	v0.16b,v0.16b,v2.16b
	movi	v2.16b,#240
	and	v4.16b,v3.16b,v4.16b
	tbl	v1.16b,{ v1.16b },v4.16b
	uqsub	v1.16b,v1.16b,v3.16b
	eor	v0.16b,v0.16b,v1.16b
	and	v1.16b,v0.16b,v2.16b
	ext	v2.16b,v1.16b,v1.16b,#8
	orr	v1.8b,v1.8b,v2.8b
	fmov	x10,d1
	orr	x10,x10,x10,lsr #32
	lsr	x11,x10,#16
	orr	w10,w10,w11
	orr	w10,w10,w10,lsr #8
	tst	w10,#0xff
	b.eq	25f
24:
	mov	w0,wzr
	ldp	d9,d8,[sp,#16]
	add	sp,sp,#32
	ret
25:
	mov	w10,#4097
	dup	v1.8h,w10
	mul	v0.8h,v0.8h,v1.8h
	ushr	v1.8h,v0.8h,#8
	shrn	v0.8b,v0.8h,#8
	dup	v1.2d,v1.d[1]
	str	s0,[x8]
	add	x8,x8,x9
	xtn	v1.8b,v1.8h
	stur	s1,[x8,#-4]
	mov	w0,#1
	ldp	d9,d8,[sp,#16]
	add	sp,sp,#32
	ret
	hex_end	core_backend_Backend_decode_owned
	hex_merged	8
	.p2align	3,0x0
.LCPI43_0:
	.byte	105,110,112,117,116,32,116,111
.LCPI43_1:
	.byte	111,32,108,111,0,0,0,0
.LCPI43_2:
	.byte	111,117,116,32,111,102,32,109
.LCPI43_3:
	.byte	101,109,111,114,0,0,0,0
.LCPI43_4:
	.byte	119,114,105,116,101,32,102,97
.LCPI43_5:
	.byte	105,108,101,100,0,0,0,0
.LCPI43_6:
	.byte	114,101,97,100,32,102,97,105
.LCPI43_9:
	.byte	45,108,105,110,101,115,124,100
.LCPI43_10:
	.byte	101,99,111,100,0,0,0,0
.LCPI43_15:
	.byte	124,118,101,99,116,111,114,115
.LCPI43_17:
	.byte	118,101,114,102,0,0,0,0
.LCPI43_19:
	.byte	32,109,117,115,116,32,98,101
.LCPI43_20:
	.byte	32,101,118,101,0,0,0,0
.LCPI43_21:
	.byte	101,120,112,101,99,116,101,100
.LCPI43_23:
	.byte	103,111,116,32,0,0,0,0
.LCPI43_25:
	.byte	97,116,32,108,101,97,115,116
.LCPI43_26:
	.byte	32,98,121,116,0,0,0,0
.LCPI43_29:
	.byte	32,97,116,32,105,110,100,101
	hex_merged	16
	.p2align	4,0x0
.LCPI43_7:
	.byte	117,115,97,103,101,58,32,102,104,101,120,45,115,116,114,101
.LCPI43_8:
	.byte	97,109,32,101,110,99,111,100,101,124,101,110,99,111,100,101
.LCPI43_11:
	.byte	117,115,97,103,101,58,32,102,104,101,120,32,101,110,99,111
.LCPI43_12:
	.byte	100,101,124,101,110,99,111,100,101,45,117,112,112,101,114,124
.LCPI43_13:
	.byte	100,101,99,111,100,101,124,100,101,99,111,100,101,45,108,111
.LCPI43_14:
	.byte	119,101,114,124,100,101,99,111,100,101,45,117,112,112,101,114
.LCPI43_16:
	.byte	101,110,99,111,100,101,100,32,108,101,110,103,116,104,32,111
.LCPI43_18:
	.byte	104,101,120,32,105,110,112,117,116,32,108,101,110,103,116,104
.LCPI43_22:
	.byte	32,100,101,99,111,100,101,100,32,98,121,116,101,115,44,32
.LCPI43_24:
	.byte	111,117,116,112,117,116,32,114,101,113,117,105,114,101,115,32
.LCPI43_27:
	.byte	105,110,118,97,108,105,100,32,104,101,120,32,98,121,116,101
.LCPI43_28:
	.quad	2
	.quad	-1
	hex_function	program_program_refuse,.text
	sub	sp,sp,#384
	movi	v0.2d,#0000000000000000
	mov	x8,sp
	stp	x24,x23,[sp,#336]
	stp	x20,x19,[sp,#368]
	ldrb	w20,[x0]
	mov	x9,#-1
	str	x8,[sp,#144]
	mov	w8,#32
	ldp	x23,x19,[x0,#16]
	str	w8,[sp,#152]
	ldrb	w8,[x0,#8]
	stp	x22,x21,[sp,#352]
	cmp	w20,#2
	add	x21,sp,#144
	stp	x29,x30,[sp,#288]
	add	x29,sp,#288
	stp	x28,x27,[sp,#304]
	stp	x26,x25,[sp,#320]
	str	xzr,[sp,#128]
	stp	q0,q0,[sp]
	stp	q0,q0,[sp,#32]
	stp	q0,q0,[sp,#64]
	stp	q0,q0,[sp,#96]
	stp	xzr,xzr,[sp,#176]
	stur	xzr,[sp,#156]
	str	wzr,[sp,#164]
	str	x9,[sp,#168]
	b.le	5f
	cmp	w20,#5
	b.gt	9f
	sub	w8,w20,#3
	mov	x9,sp
	cmp	w8,#2
	b.hs	12f
	hex_page	x8,.Lstatic.56
	hex_address	x8,x8,.Lstatic.56
	sub	x9,x9,x8
	cmp	x9,#10
	b.hi	19f
	hex_page	x8,.LCPI43_6
	mov	w9,#25964
	hex_value	d0,x8,.LCPI43_6
	mov	w8,#100
	strh	w9,[sp,#8]
	strb	w8,[sp,#10]
	str	d0,[sp]
	b	20f
5:
	cbz	w20,14f
	mov	x9,sp
	cmp	w20,#1
	b.ne	21f
	hex_page	x8,.Lstatic.51
	hex_address	x8,x8,.Lstatic.51
	sub	x9,x9,x8
	cmp	x9,#71
	b.hi	33f
	hex_page	x8,.LCPI43_11
	hex_page	x9,.LCPI43_12
	hex_value	q0,x8,.LCPI43_11
	hex_page	x8,.LCPI43_13
	hex_value	q1,x9,.LCPI43_12
	hex_page	x9,.LCPI43_14
	hex_value	q2,x8,.LCPI43_13
	hex_page	x8,.LCPI43_15
	stp	q0,q1,[sp]
	hex_value	q0,x9,.LCPI43_14
	hex_value	d1,x8,.LCPI43_15
	stp	q2,q0,[sp,#32]
	str	d1,[sp,#64]
	b	34f
9:
	mov	x9,sp
	cmp	w20,#6
	b.ne	23f
10:
	hex_page	x8,.Lstatic.54
	hex_address	x8,x8,.Lstatic.54
	sub	x9,x9,x8
	cmp	x9,#12
	b.hi	25f
	hex_page	x8,.LCPI43_2
	hex_page	x9,.LCPI43_3
	hex_value	d0,x8,.LCPI43_2
	hex_value	d1,x9,.LCPI43_3
	mov	w8,#121
	strb	w8,[sp,#12]
	str	d0,[sp]
	str	s1,[sp,#8]
	b	26f
12:
	hex_page	x8,.Lstatic.53
	hex_address	x8,x8,.Lstatic.53
	sub	x9,x9,x8
	cmp	x9,#11
	b.hi	27f
	hex_page	x8,.LCPI43_4
	hex_page	x9,.LCPI43_5
	hex_value	d0,x8,.LCPI43_4
	hex_value	d1,x9,.LCPI43_5
	str	d0,[sp]
	str	s1,[sp,#8]
	b	28f
14:
	cmp	w8,#2
	b.gt	29f
	mov	x22,#62915
	movk	x22,#23592,lsl #16
	movk	x22,#49807,lsl #32
	movk	x22,#10485,lsl #48
	cbz	w8,51f
	mov	x9,sp
	cmp	w8,#1
	b.ne	55f
	hex_page	x8,.Lstatic.59
	hex_address	x8,x8,.Lstatic.59
	sub	x9,x9,x8
	cmp	x9,#24
	b.hi	75f
	hex_page	x8,.LCPI43_24
	hex_page	x9,.LCPI43_25
	hex_value	q0,x8,.LCPI43_24
	hex_value	d1,x9,.LCPI43_25
	mov	w8,#32
	strb	w8,[sp,#24]
	str	q0,[sp]
	str	d1,[sp,#16]
	b	76f
19:
	mov	w9,#27753
	ldr	x8,[x8]
	movk	w9,#25701,lsl #16
	stur	w9,[sp,#7]
	str	x8,[sp]
20:
	mov	w8,#11
	b	39f
21:
	hex_page	x8,.Lstatic.52
	hex_address	x8,x8,.Lstatic.52
	sub	x9,x9,x8
	cmp	x9,#44
	b.hi	35f
	hex_page	x8,.LCPI43_7
	hex_page	x9,.LCPI43_8
	hex_value	q0,x8,.LCPI43_7
	hex_value	q1,x9,.LCPI43_8
	hex_page	x8,.LCPI43_9
	hex_page	x9,.LCPI43_10
	hex_value	d2,x8,.LCPI43_9
	mov	w8,#101
	stp	q0,q1,[sp]
	hex_value	d0,x9,.LCPI43_10
	str	d2,[sp,#32]
	str	s0,[sp,#40]
	strb	w8,[sp,#44]
	b	36f
23:
	hex_page	x8,.Lstatic.55
	hex_address	x8,x8,.Lstatic.55
	sub	x9,x9,x8
	cmp	x9,#13
	b.hi	37f
	hex_page	x8,.LCPI43_0
	hex_page	x9,.LCPI43_1
	hex_value	d0,x8,.LCPI43_0
	hex_value	d1,x9,.LCPI43_1
	mov	w8,#26478
	strh	w8,[sp,#12]
	str	d0,[sp]
	str	s1,[sp,#8]
	b	38f
25:
	ldr	x9,[x8]
	ldur	x8,[x8,#5]
	str	x9,[sp]
	stur	x8,[sp,#5]
26:
	mov	w8,#13
	b	39f
27:
	mov	w9,#27753
	ldr	x8,[x8]
	movk	w9,#25701,lsl #16
	str	w9,[sp,#8]
	str	x8,[sp]
28:
	mov	w8,#12
	b	39f
29:
	mov	x9,sp
	cmp	w8,#3
	b.eq	53f
	cmp	w8,#4
	b.ne	10b
	hex_page	x8,.Lstatic.64
	hex_address	x8,x8,.Lstatic.64
	sub	x9,x9,x8
	cmp	x9,#22
	b.hi	80f
	hex_page	x8,.LCPI43_16
	hex_page	x9,.LCPI43_17
	mov	w10,#28524
	hex_value	q0,x8,.LCPI43_16
	hex_value	d1,x9,.LCPI43_17
	mov	w8,#119
	strh	w10,[sp,#20]
	str	q0,[sp]
	str	s1,[sp,#16]
	strb	w8,[sp,#22]
	b	81f
33:
	ldp	q0,q1,[x8,#32]
	ldr	x9,[x8,#64]
	str	x9,[sp,#64]
	stp	q0,q1,[sp,#32]
	ldp	q1,q0,[x8]
	stp	q1,q0,[sp]
34:
	mov	w8,#72
	b	39f
35:
	ldp	q0,q1,[x8]
	ldur	q2,[x8,#29]
	stp	q0,q1,[sp]
	stur	q2,[sp,#29]
36:
	mov	w8,#45
	b	39f
37:
	ldr	x9,[x8]
	ldur	x8,[x8,#6]
	str	x9,[sp]
	stur	x8,[sp,#6]
38:
	mov	w8,#14
39:
	str	x8,[sp,#128]
40:
	mov	w8,#32
	ldr	x9,[sp,#176]
	stur	xzr,[x21,#12]
	str	w8,[sp,#152]
	mov	x8,#-1
	stur	wzr,[x21,#20]
	str	x8,[sp,#168]
	cbnz	x9,50f
	ldr	x8,[sp,#144]
	ldr	x9,[x8,#128]
	cmp	x9,#128
	b.eq	49f
	mov	w10,#10
	strb	w10,[x8,x9]
	add	x9,x9,#1
	str	x9,[x8,#128]
43:
	ldr	x19,[sp,#128]
	cbz	x19,49f
	mov	x21,xzr
45:
	mov	x8,sp
	sub	x2,x19,x21
	mov	w0,#2
	add	x1,x8,x21
	sub	x22,x19,x21
	bl	fhex_write
	tbnz	x0,#63,48f
	cmp	x0,x22
	csel	x8,x0,x22,lo
	cbz	x8,49f
	add	x21,x8,x21
	cmp	x21,x19
	b.lo	45b
	b	49f
48:
	sub	x0,x29,#96
	bl	std_io_io_error_last_error
49:
	mov	x9,#217020518514230019
	lsl	x8,x20,#3
	movk	x9,#513
	ldp	x20,x19,[sp,#368]
	movk	x9,#770,lsl #16
	ldp	x22,x21,[sp,#352]
	ldp	x24,x23,[sp,#336]
	lsr	x0,x9,x8
	ldp	x26,x25,[sp,#320]
	ldp	x28,x27,[sp,#304]
	ldp	x29,x30,[sp,#288]
	add	sp,sp,#384
	ret
50:
	hex_page	x1,.Lstatic.8
	hex_address	x1,x1,.Lstatic.8
	add	x0,sp,#144
	mov	w2,#1
	bl	core_fmt_formatter_Formatter_write_indented_
	and	w8,w0,#0xff
	tbz	w8,#0,43b
	b	49b
51:
	mov	x8,sp
	hex_page	x9,.Lstatic.57
	hex_address	x9,x9,.Lstatic.57
	sub	x8,x8,x9
	cmp	x8,#18
	and	x8,x19,#0xff
	b.hi	57f
	hex_page	x9,.LCPI43_27
	mov	w10,#12320
	hex_value	q0,x9,.LCPI43_27
	mov	w9,#120
	strh	w10,[sp,#16]
	strb	w9,[sp,#18]
	b	58f
53:
	hex_page	x8,.Lstatic.63
	hex_address	x8,x8,.Lstatic.63
	sub	x9,x9,x8
	cmp	x9,#28
	b.hi	73f
	hex_page	x8,.LCPI43_18
	hex_page	x9,.LCPI43_19
	hex_value	q0,x8,.LCPI43_18
	hex_page	x8,.LCPI43_20
	hex_value	d1,x9,.LCPI43_19
	hex_value	d2,x8,.LCPI43_20
	mov	w8,#110
	str	q0,[sp]
	str	d1,[sp,#16]
	str	s2,[sp,#24]
	strb	w8,[sp,#28]
	b	74f
55:
	hex_page	x8,.Lstatic.61
	hex_address	x8,x8,.Lstatic.61
	sub	x9,x9,x8
	cmp	x9,#8
	b.hi	82f
	hex_page	x8,.LCPI43_21
	hex_value	d0,x8,.LCPI43_21
	mov	w8,#32
	strb	w8,[sp,#8]
	str	d0,[sp]
	b	83f
57:
	mov	w10,#8293
	ldr	q0,[x9]
	movk	w10,#30768,lsl #16
	stur	w10,[sp,#15]
58:
	str	q0,[sp]
	movi	v0.2s,#1,lsl #24
	movi	v2.2d,#0000000000000000
	hex_page	x11,.LCPI43_28
	mov	w9,#19
	hex_value	q1,x11,.LCPI43_28
	mov	w10,#32
	str	x9,[sp,#128]
	mov	w9,#63
	str	w10,[sp,#152]
	str	q1,[sp,#160]
	str	s0,[sp,#156]
	stp	q2,q2,[x29,#-96]
	stp	q2,q2,[x29,#-64]
59:
	cmn	x9,#1
	b.eq	62f
	and	x10,x8,#0xf
	orr	w11,w10,#0x30
	add	w12,w10,#87
	cmp	x10,#10
	lsr	x10,x8,#4
	csel	w11,w11,w12,lo
	cmp	x8,#15
	sub	x8,x29,#96
	strb	w11,[x8,x9]
	sub	x9,x9,#1
	mov	x8,x10
	b.hi	59b
	add	x24,x9,#1
	b	63f
62:
	mov	x24,xzr
63:
	mov	w8,#64
	hex_page	x1,.Lstatic.40
	hex_address	x1,x1,.Lstatic.40
	sub	x19,x8,x24
	add	x0,sp,#144
	mov	w2,#2
	mov	x3,x19
	bl	core_fmt_formatter_Formatter_write_before_number
	tst	w0,#0xff
	b.ne	49b
	ldr	x9,[sp,#176]
	sub	x8,x29,#96
	cbnz	x9,129f
	ldr	x25,[sp,#144]
	mov	w9,#128
	ldr	x26,[x25,#128]
	sub	x9,x9,x26
	cmp	x9,x19
	b.lo	49b
	add	x0,x25,x26
	mov	x27,x1
	add	x1,x8,x24
	mov	x2,x19
	bl	memcpy
	add	x8,x26,x19
	mov	x2,x27
	str	x8,[x25,#128]
67:
	cbz	x2,69f
	ldr	w1,[sp,#152]
	add	x0,sp,#144
	bl	core_fmt_formatter_Formatter_write_char_n_times
	and	w8,w0,#0xff
	tbnz	w8,#0,49b
69:
	mov	w8,#32
	ldr	x9,[sp,#176]
	stur	xzr,[x21,#12]
	str	w8,[sp,#152]
	mov	x8,#-1
	stur	wzr,[x21,#20]
	str	x8,[sp,#168]
	cbnz	x9,130f
	ldr	x8,[sp,#144]
	ldr	x9,[x8,#128]
	sub	x10,x9,#119
	cmp	x10,#10
	b.lo	49b
	add	x10,x8,x9
	hex_page	x11,.Lstatic.58
	hex_address	x11,x11,.Lstatic.58
	sub	x12,x10,x11
	cmp	x12,#9
	b.hi	116f
	hex_page	x11,.LCPI43_29
	hex_value	d0,x11,.LCPI43_29
	mov	w11,#8312
	strh	w11,[x10,#8]
	str	d0,[x10]
	b	117f
73:
	ldr	q0,[x8]
	ldur	q1,[x8,#13]
	str	q0,[sp]
	stur	q1,[sp,#13]
74:
	mov	w8,#29
	b	39b
75:
	ldr	q0,[x8]
	ldur	q1,[x8,#9]
	str	q0,[sp]
	stur	q1,[sp,#9]
76:
	mov	w8,#25
	cmp	x23,#100
	stp	xzr,xzr,[x29,#-96]
	str	x8,[sp,#128]
	stur	xzr,[x29,#-80]
	b.lo	87f
	mov	x8,xzr
78:
	lsr	x10,x23,#2
	mov	x9,x23
	mov	w11,#205
	umulh	x10,x10,x22
	lsr	x23,x10,#2
	mov	w10,#100
	msub	w10,w23,w10,w9
	lsr	x9,x9,#4
	cmp	x9,#624
	and	w12,w10,#0xff
	mul	w11,w12,w11
	mov	w12,#10
	lsr	w11,w11,#11
	msub	w10,w11,w12,w10
	sub	x12,x29,#96
	orr	w9,w11,#0x30
	add	x12,x12,x8
	sub	x8,x8,#2
	strb	w9,[x12,#22]
	orr	w10,w10,#0x30
	strb	w10,[x12,#23]
	b.hi	78b
	add	x8,x8,#24
	b	88f
80:
	ldr	q0,[x8]
	ldur	x8,[x8,#15]
	str	q0,[sp]
	stur	x8,[sp,#15]
81:
	mov	w8,#23
	b	39b
82:
	ldr	x8,[x8]
	mov	w9,#32
	strb	w9,[sp,#8]
	str	x8,[sp]
83:
	cmp	x23,#100
	stp	xzr,xzr,[x29,#-96]
	stur	xzr,[x29,#-80]
	b.lo	90f
	mov	x8,xzr
85:
	lsr	x10,x23,#2
	mov	x9,x23
	mov	w11,#205
	umulh	x10,x10,x22
	lsr	x23,x10,#2
	mov	w10,#100
	msub	w10,w23,w10,w9
	lsr	x9,x9,#4
	cmp	x9,#624
	and	w12,w10,#0xff
	mul	w11,w12,w11
	mov	w12,#10
	lsr	w11,w11,#11
	msub	w10,w11,w12,w10
	sub	x12,x29,#96
	orr	w9,w11,#0x30
	add	x12,x12,x8
	sub	x8,x8,#2
	strb	w9,[x12,#22]
	orr	w10,w10,#0x30
	strb	w10,[x12,#23]
	b.hi	85b
	add	x8,x8,#24
	b	91f
87:
	mov	w8,#24
88:
	cmp	x23,#10
	b.lo	93f
	and	w9,w23,#0xff
	mov	w10,#205
	sub	x11,x29,#96
	mul	w9,w9,w10
	mov	w10,#10
	add	x11,x11,x8
	sub	x19,x8,#2
	lsr	w9,w9,#11
	msub	w10,w9,w10,w23
	orr	w9,w9,#0x30
	sturb	w9,[x11,#-2]
	orr	w10,w10,#0x30
	sturb	w10,[x11,#-1]
	b	94f
90:
	mov	w8,#24
91:
	cmp	x23,#10
	b.lo	98f
	and	w9,w23,#0xff
	mov	w10,#205
	sub	x11,x29,#96
	mul	w9,w9,w10
	mov	w10,#10
	add	x11,x11,x8
	sub	x24,x8,#2
	lsr	w9,w9,#11
	msub	w10,w9,w10,w23
	orr	w9,w9,#0x30
	sturb	w9,[x11,#-2]
	orr	w10,w10,#0x30
	sturb	w10,[x11,#-1]
	b	99f
93:
	sub	x19,x8,#1
	sub	x8,x29,#96
	orr	w9,w23,#0x30
	strb	w9,[x8,x19]
94:
	mov	w8,#24
	sub	x2,x8,x19
	cmp	x2,#104
	b.hs	49b
	sub	x8,x29,#96
	mov	x22,sp
	add	x0,x22,#25
	add	x1,x8,x19
	bl	memcpy
	add	x8,x19,#79
	cmp	x8,#6
	b.lo	49b
	sub	x8,x22,x19
	hex_page	x9,.Lstatic.60
	hex_address	x9,x9,.Lstatic.60
	add	x8,x8,#49
	sub	x9,x8,x9
	cmp	x9,#5
	b.hi	103f
	hex_page	x9,.LCPI43_26
	hex_value	d0,x9,.LCPI43_26
	mov	w9,#29541
	strh	w9,[x8,#4]
	str	s0,[x8]
	b	104f
98:
	sub	x24,x8,#1
	sub	x8,x29,#96
	orr	w9,w23,#0x30
	strb	w9,[x8,x24]
99:
	mov	w8,#24
	sub	x2,x8,x24
	cmp	x2,#120
	b.hs	49b
	sub	x8,x29,#96
	mov	w9,#9
	mov	x23,sp
	orr	x0,x23,x9
	add	x1,x8,x24
	bl	memcpy
	mov	w8,#33
	add	x10,x24,#95
	mov	w9,#32
	sub	x8,x8,x24
	cmp	x10,#20
	stur	xzr,[x21,#12]
	str	w9,[sp,#152]
	str	x8,[sp,#128]
	stur	wzr,[x21,#20]
	b.lo	49b
	add	x8,x23,x8
	hex_page	x9,.Lstatic.62
	hex_address	x9,x9,.Lstatic.62
	sub	x10,x8,x9
	cmp	x10,#19
	b.hi	105f
	hex_page	x9,.LCPI43_22
	hex_page	x10,.LCPI43_23
	hex_value	q0,x9,.LCPI43_22
	hex_value	d1,x10,.LCPI43_23
	str	q0,[x8]
	str	s1,[x8,#16]
	b	106f
103:
	mov	w10,#25120
	mov	w9,#29541
	movk	w10,#29817,lsl #16
	strh	w9,[x8,#4]
	str	w10,[x8]
104:
	mov	w8,#55
	sub	x8,x8,x19
	b	39b
105:
	mov	w10,#28519
	ldr	q0,[x9]
	movk	w10,#8308,lsl #16
	str	w10,[x8,#16]
	str	q0,[x8]
106:
	mov	w8,#32
	cmp	x19,#100
	stur	xzr,[x21,#12]
	str	w8,[sp,#152]
	mov	x8,#-1
	stur	wzr,[x21,#20]
	str	x8,[sp,#168]
	stp	xzr,xzr,[x29,#-96]
	stur	xzr,[x29,#-80]
	b.lo	110f
	mov	x8,xzr
108:
	lsr	x10,x19,#2
	mov	x9,x19
	mov	w11,#205
	umulh	x10,x10,x22
	lsr	x19,x10,#2
	mov	w10,#100
	msub	w10,w19,w10,w9
	lsr	x9,x9,#4
	cmp	x9,#624
	and	w12,w10,#0xff
	mul	w11,w12,w11
	mov	w12,#10
	lsr	w11,w11,#11
	msub	w10,w11,w12,w10
	sub	x12,x29,#96
	orr	w9,w11,#0x30
	add	x12,x12,x8
	sub	x8,x8,#2
	strb	w9,[x12,#22]
	orr	w10,w10,#0x30
	strb	w10,[x12,#23]
	b.hi	108b
	add	x8,x8,#24
	b	111f
110:
	mov	w8,#24
111:
	cmp	x19,#10
	b.lo	113f
	and	w9,w19,#0xff
	mov	w10,#205
	sub	x11,x29,#96
	mul	w9,w9,w10
	mov	w10,#10
	add	x11,x11,x8
	sub	x8,x8,#2
	lsr	w9,w9,#11
	msub	w10,w9,w10,w19
	orr	w9,w9,#0x30
	sturb	w9,[x11,#-2]
	orr	w10,w10,#0x30
	sturb	w10,[x11,#-1]
	b	114f
113:
	sub	x8,x8,#1
	sub	x9,x29,#96
	orr	w10,w19,#0x30
	strb	w10,[x9,x8]
114:
	mov	w9,#24
	sub	x19,x9,x8
	add	x9,x24,#75
	cmp	x9,x19
	b.lo	49b
	mov	w9,#53
	mov	x10,sp
	mov	x2,x19
	sub	x22,x9,x24
	sub	x9,x29,#96
	add	x0,x10,x22
	add	x1,x9,x8
	bl	memcpy
	add	x8,x19,x22
	b	39b
116:
	ldr	x11,[x11]
	mov	w12,#8312
	strh	w12,[x10,#8]
	str	x11,[x10]
117:
	add	x9,x9,#10
	str	x9,[x8,#128]
118:
	mov	w8,#32
	cmp	x23,#100
	stur	xzr,[x21,#12]
	str	w8,[sp,#152]
	mov	x8,#-1
	stur	wzr,[x21,#20]
	str	x8,[sp,#168]
	stp	xzr,xzr,[x29,#-96]
	stur	xzr,[x29,#-80]
	b.lo	122f
	mov	x8,xzr
120:
	lsr	x10,x23,#2
	mov	x9,x23
	mov	w11,#205
	umulh	x10,x10,x22
	lsr	x23,x10,#2
	mov	w10,#100
	msub	w10,w23,w10,w9
	lsr	x9,x9,#4
	cmp	x9,#624
	and	w12,w10,#0xff
	mul	w11,w12,w11
	mov	w12,#10
	lsr	w11,w11,#11
	msub	w10,w11,w12,w10
	sub	x12,x29,#96
	orr	w9,w11,#0x30
	add	x12,x12,x8
	sub	x8,x8,#2
	strb	w9,[x12,#22]
	orr	w10,w10,#0x30
	strb	w10,[x12,#23]
	b.hi	120b
	add	x8,x8,#24
	b	123f
122:
	mov	w8,#24
123:
	cmp	x23,#10
	b.lo	125f
	and	w9,w23,#0xff
	mov	w10,#205
	sub	x11,x29,#96
	mul	w9,w9,w10
	mov	w10,#10
	add	x11,x11,x8
	sub	x8,x8,#2
	lsr	w9,w9,#11
	msub	w10,w9,w10,w23
	orr	w9,w9,#0x30
	sturb	w9,[x11,#-2]
	orr	w10,w10,#0x30
	sturb	w10,[x11,#-1]
	b	126f
125:
	sub	x8,x8,#1
	sub	x9,x29,#96
	orr	w10,w23,#0x30
	strb	w10,[x9,x8]
126:
	sub	x9,x29,#96
	ldr	x10,[sp,#176]
	mov	w11,#24
	add	x1,x9,x8
	mov	w9,#45
	sub	x19,x11,x8
	sturb	w9,[x1,#-1]
	cbnz	x10,131f
	ldr	x22,[sp,#144]
	mov	w8,#128
	ldr	x23,[x22,#128]
	sub	x8,x8,x23
	cmp	x8,x19
	b.lo	49b
	add	x0,x22,x23
	mov	x2,x19
	bl	memcpy
	add	x8,x23,x19
	str	x8,[x22,#128]
	b	40b
129:
	add	x0,sp,#144
	mov	x25,x1
	add	x1,x8,x24
	mov	x2,x19
	bl	core_fmt_formatter_Formatter_write_indented_
	mov	x2,x25
	and	w8,w0,#0xff
	tbnz	w8,#0,49b
	b	67b
130:
	hex_page	x1,.Lstatic.58
	hex_address	x1,x1,.Lstatic.58
	add	x0,sp,#144
	mov	w2,#10
	bl	core_fmt_formatter_Formatter_write_indented_
	and	w8,w0,#0xff
	tbnz	w8,#0,49b
	b	118b
131:
	add	x0,sp,#144
	mov	x2,x19
	bl	core_fmt_formatter_Formatter_write_indented_
	and	w8,w0,#0xff
	tbz	w8,#0,40b
	b	49b
	hex_end	program_program_refuse
	hex_function	core_fmt_formatter_Formatter_write_before_number,.text
	sub	sp,sp,#96
	ldrb	w8,[x0,#14]
	ldr	x9,[x0,#16]
	ldrb	w10,[x0,#13]
	stp	x24,x23,[sp,#48]
	tst	w8,#0x1
	stp	x22,x21,[sp,#64]
	and	x21,x10,#0x1
	csel	x23,x2,xzr,ne
	subs	x8,x9,x3
	stp	x20,x19,[sp,#80]
	csel	x9,xzr,x8,lo
	ldrb	w8,[x0,#12]
	mov	x22,x1
	subs	x9,x9,x21
	mov	x20,x0
	stp	x29,x30,[sp,#16]
	csel	x19,xzr,x9,lo
	str	x25,[sp,#32]
	add	x29,sp,#16
	cbz	x23,5f
	b.ls	5f
	ldrsb	w9,[x22]
	cmn	w9,#65
	cset	w9,gt
	cmp	x23,#2
	sub	x19,x19,x9
	b.lo	5f
	cbz	x19,5f
	ldrsb	w9,[x22,#1]
	cmn	w9,#65
	cset	w9,gt
	sub	x19,x19,x9
5:
	ldrb	w9,[x20,#15]
	cmp	w8,#1
	b.eq	7f
	lsr	x10,x19,#1
	cmp	w8,#2
	csel	x8,x19,x10,ne
	tst	w9,#0x1
	csel	x24,xzr,x8,ne
	csel	x25,x19,xzr,ne
	cbnz	x24,8f
	b	9f
7:
	tst	w9,#0x1
	csel	x24,xzr,xzr,ne
	csel	x25,x19,xzr,ne
	cbz	x24,9f
8:
	ldr	w1,[x20,#8]
	mov	x0,x20
	mov	x2,x24
	bl	core_fmt_formatter_Formatter_write_char_n_times
	and	w8,w0,#0xff
	tbnz	w8,#0,26f
9:
	cbz	w21,12f
	ldr	x8,[x20,#32]
	cbnz	x8,29f
	hex_page	x1,.Lstatic.39
	hex_address	x1,x1,.Lstatic.39
	mov	x0,x20
	mov	x2,x21
	bl	core_fmt_formatter_Formatter_write_raw_
	and	w8,w0,#0xff
	tbnz	w8,#0,26f
12:
	subs	x8,x19,x24
	cbz	x23,22f
	csel	x8,xzr,x8,lo
	ldr	x9,[x20,#32]
	mov	x0,x20
	subs	x8,x8,x25
	mov	x1,x22
	mov	x2,x23
	csel	x21,xzr,x8,lo
	cbnz	x9,30f
	bl	core_fmt_formatter_Formatter_write_raw_
	and	w8,w0,#0xff
	tbnz	w8,#0,26f
15:
	cbz	x25,23f
16:
	mov	x8,#3472328296227680304
	cmp	x25,#17
	stp	x8,x8,[sp]
	b.lo	24f
17:
	ldr	x8,[x20,#32]
	cbnz	x8,21f
	ldr	x8,[x20]
	ldr	x9,[x8,#128]
	sub	x10,x9,#113
	cmp	x10,#16
	b.lo	26f
	ldr	q0,[sp]
	add	x10,x9,#16
	str	q0,[x8,x9]
	str	x10,[x8,#128]
20:
	sub	x19,x19,#16
	cmp	x19,#16
	b.hi	17b
	b	24f
21:
	mov	x1,sp
	mov	x0,x20
	mov	w2,#16
	bl	core_fmt_formatter_Formatter_write_indented_
	and	w8,w0,#0xff
	tbz	w8,#0,20b
	b	26f
22:
	csel	x8,xzr,x8,lo
	subs	x8,x8,x25
	csel	x21,xzr,x8,lo
	cbnz	x25,16b
23:
	mov	w0,wzr
	b	27f
24:
	ldr	x8,[x20,#32]
	cbnz	x8,31f
	ldr	x20,[x20]
	mov	w8,#128
	ldr	x22,[x20,#128]
	sub	x8,x8,x22
	cmp	x8,x19
	b.hs	28f
26:
	mov	x21,xzr
	mov	w0,#1
27:
	mov	x1,x21
	ldp	x20,x19,[sp,#80]
	ldp	x22,x21,[sp,#64]
	ldr	x25,[sp,#32]
	ldp	x24,x23,[sp,#48]
	ldp	x29,x30,[sp,#16]
	add	sp,sp,#96
	ret
28:
	add	x0,x20,x22
	mov	x1,sp
	mov	x2,x19
	bl	memcpy
	add	x8,x22,x19
	mov	w0,wzr
	str	x8,[x20,#128]
	b	27b
29:
	hex_page	x1,.Lstatic.39
	hex_address	x1,x1,.Lstatic.39
	mov	x0,x20
	mov	x2,x21
	bl	core_fmt_formatter_Formatter_write_indented_
	and	w8,w0,#0xff
	tbz	w8,#0,12b
	b	26b
30:
	bl	core_fmt_formatter_Formatter_write_indented_
	and	w8,w0,#0xff
	tbz	w8,#0,15b
	b	26b
31:
	mov	x1,sp
	mov	x0,x20
	mov	x2,x19
	bl	core_fmt_formatter_Formatter_write_indented_
	ands	w0,w0,#0xff
	csel	x21,xzr,x21,ne
	b	27b
	hex_end	core_fmt_formatter_Formatter_write_before_number
	hex_merged	16
	.p2align	4,0x0
.LCPI45_0:
	.word	4294967278
	.word	4294967284
	.word	4294967290
	.word	0
	hex_merged	8
	.p2align	3,0x0
.LCPI45_1:
	.hword	255
	.hword	63
	.hword	63
	.hword	63
.LCPI45_2:
	.hword	240
	.hword	128
	.hword	128
	.hword	128
	hex_function	core_fmt_formatter_Formatter_write_char_n_times,.text
	sub	sp,sp,#144
	stp	x20,x19,[sp,#128]
	mov	x19,x2
	mov	x20,x0
	cmp	w1,#127
	stp	x29,x30,[sp,#48]
	add	x29,sp,#48
	stp	x28,x27,[sp,#64]
	stp	x26,x25,[sp,#80]
	stp	x24,x23,[sp,#96]
	stp	x22,x21,[sp,#112]
	stp	xzr,xzr,[sp]
	str	xzr,[sp,#16]
	b.hi	7f
	mov	w8,w1
	mov	x9,#72340172838076673
	cmp	x19,#17
	mul	x8,x8,x9
	stp	x8,x8,[x29,#-16]
	b.lo	9f
2:
	ldr	x8,[x20,#32]
	cbnz	x8,6f
	ldr	x8,[x20]
	ldr	x9,[x8,#128]
	sub	x10,x9,#113
	cmp	x10,#16
	b.lo	18f
	ldur	q0,[x29,#-16]
	add	x10,x9,#16
	str	q0,[x8,x9]
	str	x10,[x8,#128]
5:
	sub	x19,x19,#16
	cmp	x19,#16
	b.hi	2b
	b	9f
6:
	sub	x1,x29,#16
	mov	x0,x20
	mov	w2,#16
	bl	core_fmt_formatter_Formatter_write_indented_
	and	w8,w0,#0xff
	tbz	w8,#0,5b
	b	18f
7:
	cmp	w1,#2047
	stur	wzr,[x29,#-20]
	b.hi	12f
	lsr	w8,w1,#6
	mov	w9,#128
	mov	w2,#2
	bfxil	w9,w1,#0,#6
	orr	w8,w8,#0xc0
	sturb	w8,[x29,#-20]
	sturb	w9,[x29,#-19]
	mov	x0,sp
	sub	x1,x29,#20
	bl	core_str_utf8_from_utf8
	ldrb	w8,[sp]
	cbnz	w8,18f
	b	20f
9:
	ldr	x8,[x20,#32]
	cbnz	x8,43f
	ldr	x20,[x20]
	mov	w8,#128
	ldr	x21,[x20,#128]
	sub	x8,x8,x21
	cmp	x8,x19
	b.lo	18f
	add	x0,x20,x21
	sub	x1,x29,#16
	mov	x2,x19
	bl	memcpy
	add	x8,x21,x19
	mov	w0,wzr
	str	x8,[x20,#128]
	b	19f
12:
	lsr	w8,w1,#11
	cmp	w8,#27
	b.lo	15f
	sub	w8,w1,#14,lsl #12
	cmp	w8,#258,lsl #12
	b.lo	15f
	mov	w8,#49135
	mov	w9,#189
	mov	w2,#3
	sturh	w8,[x29,#-20]
	sturb	w9,[x29,#-18]
	mov	x0,sp
	sub	x1,x29,#20
	bl	core_str_utf8_from_utf8
	ldrb	w8,[sp]
	cbnz	w8,18f
	b	20f
15:
	lsr	w8,w1,#16
	cbnz	w8,17f
	lsr	w8,w1,#12
	mov	w9,#128
	mov	w10,#128
	bfxil	w9,w1,#6,#6
	bfxil	w10,w1,#0,#6
	mov	w2,#3
	orr	w8,w8,#0xe0
	sturb	w8,[x29,#-20]
	sturb	w9,[x29,#-19]
	sturb	w10,[x29,#-18]
	mov	x0,sp
	sub	x1,x29,#20
	bl	core_str_utf8_from_utf8
	ldrb	w8,[sp]
	cbnz	w8,18f
	b	20f
17:
	dup	v0.4s,w1
	hex_page	x8,.LCPI45_0
	mov	w2,#4
	hex_value	q1,x8,.LCPI45_0
	hex_page	x8,.LCPI45_1
	ushl	v0.4s,v0.4s,v1.4s
	hex_value	d1,x8,.LCPI45_1
	hex_page	x8,.LCPI45_2
	xtn	v0.4h,v0.4s
	and	v0.8b,v0.8b,v1.8b
	hex_value	d1,x8,.LCPI45_2
	orr	v0.8b,v0.8b,v1.8b
	uzp1	v0.8b,v0.8b,v0.8b
	stur	s0,[x29,#-20]
	mov	x0,sp
	sub	x1,x29,#20
	bl	core_str_utf8_from_utf8
	ldrb	w8,[sp]
	cbz	w8,20f
18:
	mov	w0,#1
19:
	ldp	x20,x19,[sp,#128]
	ldp	x22,x21,[sp,#112]
	ldp	x24,x23,[sp,#96]
	ldp	x26,x25,[sp,#80]
	ldp	x28,x27,[sp,#64]
	ldp	x29,x30,[sp,#48]
	add	sp,sp,#144
	ret
20:
	ldp	x22,x21,[sp,#8]
	mov	x23,xzr
	and	x24,x21,#0xfffffffffffffff8
	and	x26,x21,#0xffffffffffffffe0
	neg	x27,x24
	b	23f
21:
	mov	x0,x20
	mov	x1,x22
	mov	x2,x21
	bl	core_fmt_formatter_Formatter_write_indented_
	and	w8,w0,#0xff
	tbnz	w8,#0,18b
	add	x23,x23,#1
	cmp	x23,x19
	b.eq	42f
23:
	ldr	x8,[x20,#32]
	cbnz	x8,21b
	ldr	x28,[x20]
	mov	w8,#128
	ldr	x25,[x28,#128]
	sub	x8,x8,x25
	cmp	x8,x21
	b.lo	18b
	add	x8,x28,x25
	sub	x8,x8,x22
	cmp	x8,x21
	b.hs	31f
	cmp	x21,#8
	b.lo	28f
	sub	x8,x25,x22
	add	x8,x8,x28
	cmp	x8,#32
	b.hs	33f
28:
	mov	x9,xzr
29:
	add	x10,x9,x25
	sub	x8,x21,x9
	add	x9,x22,x9
	add	x10,x28,x10
30:
	ldrb	w11,[x9],#1
	subs	x8,x8,#1
	strb	w11,[x10],#1
	b.ne	30b
	b	32f
31:
	add	x0,x28,x25
	mov	x1,x22
	mov	x2,x21
	bl	memmove
32:
	add	x8,x25,x21
	str	x8,[x28,#128]
	add	x23,x23,#1
	cmp	x23,x19
	b.ne	23b
	b	42f
33:
	cmp	x21,#32
	b.hs	35f
	mov	x10,xzr
	b	39f
35:
	add	x8,x28,x25
	add	x9,x22,#16
	and	x10,x21,#0xffffffffffffffe0
	add	x8,x8,#16
36:
	ldp	q0,q1,[x9,#-16]
	subs	x10,x10,#32
	add	x9,x9,#32
	stp	q0,q1,[x8,#-16]
	add	x8,x8,#32
	b.ne	36b
	cmp	x21,x26
	b.eq	32b
	and	x10,x21,#0xffffffffffffffe0
	and	x9,x21,#0xffffffffffffffe0
	and	x8,x21,#0x18
	cbz	x8,29b
39:
	add	x11,x10,x25
	add	x8,x27,x10
	add	x9,x22,x10
	add	x10,x28,x11
40:
	ldr	d0,[x9],#8
	adds	x8,x8,#8
	str	d0,[x10],#8
	b.ne	40b
	cmp	x21,x24
	and	x9,x21,#0xfffffffffffffff8
	b.eq	32b
	b	29b
42:
	mov	w0,wzr
	b	19b
43:
	sub	x1,x29,#16
	mov	x0,x20
	mov	x2,x19
	bl	core_fmt_formatter_Formatter_write_indented_
	and	w0,w0,#0xff
	b	19b
	hex_end	core_fmt_formatter_Formatter_write_char_n_times
	hex_function	core_fmt_formatter_Formatter_write_raw_,.text
	cbz	x2,21f
	mov	x9,xzr
	b	4f
2:
	mov	w8,#1
3:
	add	x9,x8,x9
	cmp	x9,x2
	b.hs	21f
4:
	ldrsb	w8,[x1,x9]
	tbz	w8,#31,2b
	add	x10,x9,#1
	cmp	x2,x10
	b.ls	23f
	ldrsb	w11,[x1,x10]
	tbz	w11,#31,23f
	and	w10,w8,#0xff
	cmn	w11,#64
	mov	w8,#-64
	csel	w11,w11,w8,lo
	cmp	w10,#194
	mov	w8,#1
	b.lo	24f
	and	w11,w11,#0x7f
	cmp	w11,#63
	b.hi	24f
	cmp	w10,#224
	b.hs	11f
	mov	w8,#2
	b	3b
11:
	add	x8,x9,#2
	cmp	x2,x8
	b.ls	23f
	ldrsb	w8,[x1,x8]
	cmn	w8,#65
	b.gt	23f
	cmp	w10,#239
	b.hi	17f
	lsl	w8,w10,#12
	add	w8,w8,w11,lsl #6
	sub	w8,w8,#224,lsl #12
	cmp	w8,#2048
	b.lo	23f
	lsr	w8,w8,#11
	cmp	w8,#27
	mov	w8,#3
	b.lo	3b
	cmp	w10,#238
	b.hs	3b
	b	23f
17:
	add	x8,x9,#3
	cmp	x2,x8
	b.ls	23f
	ldrsb	w8,[x1,x8]
	cmn	w8,#65
	b.gt	23f
	lsl	w8,w10,#18
	mov	w10,#-62980096
	add	w8,w8,w11,lsl #12
	add	w8,w8,w10
	lsr	w8,w8,#20
	cbnz	w8,23f
	mov	w8,#4
	b	3b
21:
	stp	x29,x30,[sp,#-48]!
	stp	x20,x19,[sp,#32]
	ldr	x20,[x0]
	mov	w8,#128
	str	x21,[sp,#16]
	mov	x29,sp
	ldr	x21,[x20,#128]
	sub	x8,x8,x21
	cmp	x8,x2
	b.hs	25f
	mov	w8,#1
	ldp	x20,x19,[sp,#32]
	ldr	x21,[sp,#16]
	ldp	x29,x30,[sp],#48
	mov	w0,w8
	ret
23:
	mov	w8,#1
24:
	mov	w0,w8
	ret
25:
	add	x8,x20,x21
	sub	x8,x8,x1
	cmp	x8,x2
	b.hs	31f
	cmp	x2,#8
	b.lo	28f
	add	x8,x21,x20
	sub	x8,x8,x1
	cmp	x8,#32
	b.hs	33f
28:
	mov	x8,xzr
29:
	add	x10,x8,x21
	sub	x9,x2,x8
	add	x8,x1,x8
	add	x10,x20,x10
30:
	ldrb	w11,[x8],#1
	subs	x9,x9,#1
	strb	w11,[x10],#1
	b.ne	30b
	b	32f
31:
	add	x0,x20,x21
	mov	x19,x2
	bl	memmove
	mov	x2,x19
32:
	mov	w8,wzr
	add	x9,x21,x2
	str	x9,[x20,#128]
	ldp	x20,x19,[sp,#32]
	ldr	x21,[sp,#16]
	ldp	x29,x30,[sp],#48
	mov	w0,w8
	ret
33:
	cmp	x2,#32
	b.hs	35f
	mov	x8,xzr
	b	39f
35:
	add	x11,x21,x20
	and	x9,x2,#0x18
	and	x8,x2,#0xffffffffffffffe0
	add	x10,x1,#16
	add	x11,x11,#16
	and	x12,x2,#0xffffffffffffffe0
36:
	ldp	q0,q1,[x10,#-16]
	subs	x12,x12,#32
	add	x10,x10,#32
	stp	q0,q1,[x11,#-16]
	add	x11,x11,#32
	b.ne	36b
	cmp	x2,x8
	b.eq	32b
	cbz	x9,29b
39:
	mov	x10,x8
	and	x8,x2,#0xfffffffffffffff8
	add	x11,x10,x21
	sub	x9,x10,x8
	add	x10,x1,x10
	add	x11,x20,x11
40:
	ldr	d0,[x10],#8
	adds	x9,x9,#8
	str	d0,[x11],#8
	b.ne	40b
	cmp	x2,x8
	b.eq	32b
	b	29b
	hex_end	core_fmt_formatter_Formatter_write_raw_
	hex_function	core_fmt_formatter_Formatter_write_indented_,.text.unlikely
	stp	x29,x30,[sp,#-80]!
	str	x25,[sp,#16]
	mov	x29,sp
	stp	x24,x23,[sp,#32]
	stp	x22,x21,[sp,#48]
	stp	x20,x19,[sp,#64]
	cbz	x2,16f
	mov	x21,x2
	mov	x20,x1
	mov	x19,x0
	mov	x8,xzr
	mov	x24,xzr
	b	4f
2:
	mov	w23,#1
	add	x1,x20,x25
	mov	x0,x19
	mov	x2,x22
	strb	w23,[x19,#40]
	bl	core_fmt_formatter_Formatter_write_raw_
	and	w9,w0,#0xff
	mov	x8,x24
	tbnz	w9,#0,18f
3:
	cmp	x24,x21
	b.eq	10f
4:
	ldrb	w10,[x20,x24]
	mov	x9,x24
	add	x24,x24,#1
	cmp	w10,#10
	b.ne	3b
	subs	x22,x24,x8
	csel	x25,xzr,x8,lo
	cmp	x8,x9
	mov	x8,x24
	b.hi	3b
	ldrb	w8,[x19,#40]
	cmp	w8,#1
	b.ne	2b
	ldr	x23,[x19,#32]
	cbz	x23,2b
8:
	hex_page	x1,.Lstatic.41
	hex_address	x1,x1,.Lstatic.41
	mov	x0,x19
	mov	w2,#4
	bl	core_fmt_formatter_Formatter_write_raw_
	and	w8,w0,#0xff
	tbnz	w8,#0,17f
	subs	x23,x23,#1
	b.ne	8b
	b	2b
10:
	cmp	x8,x21
	csel	x22,xzr,x8,hi
	subs	x8,x21,x8
	csel	x21,xzr,x8,lo
	b.ls	16f
	ldrb	w8,[x19,#40]
	cmp	w8,#1
	b.ne	15f
	ldr	x23,[x19,#32]
	cbz	x23,15f
13:
	hex_page	x1,.Lstatic.41
	hex_address	x1,x1,.Lstatic.41
	mov	x0,x19
	mov	w2,#4
	bl	core_fmt_formatter_Formatter_write_raw_
	and	w8,w0,#0xff
	tbnz	w8,#0,17f
	subs	x23,x23,#1
	b.ne	13b
15:
	add	x1,x20,x22
	mov	x0,x19
	mov	x2,x21
	strb	wzr,[x19,#40]
	ldp	x20,x19,[sp,#64]
	ldp	x22,x21,[sp,#48]
	ldr	x25,[sp,#16]
	ldp	x24,x23,[sp,#32]
	ldp	x29,x30,[sp],#80
	b	core_fmt_formatter_Formatter_write_raw_
16:
	mov	w23,wzr
	b	18f
17:
	mov	w23,#1
18:
	mov	w0,w23
	ldp	x20,x19,[sp,#64]
	ldp	x22,x21,[sp,#48]
	ldr	x25,[sp,#16]
	ldp	x24,x23,[sp,#32]
	ldp	x29,x30,[sp],#80
	ret
	hex_end	core_fmt_formatter_Formatter_write_indented_
	hex_constant	.Lstatic.3
.Lstatic.3:
	.ascii	"vectors"
	hex_addresses	.Lstatic.4
	.p2align	3,0x0
.Lstatic.4:
	.quad	.Lstatic.4+2355
	.asciz	"\003\000\000\000\000\000\000\000\000\000\000\000\000\000\000"
	.quad	.Lstatic.4+2350
	.ascii	"\005\000\000\000\000\000\000\000\000\000\000\000\000\000\000\000\n"
	.zero	23,0
	.quad	.Lstatic.4+2340
	.asciz	"\n\000\000\000\000\000\000"
	.quad	.Lstatic.4+2358
	.asciz	"\003\000\000\000\000\000\000\000\000\001\000\000\000\000\000"
	.quad	.Lstatic.4+2337
	.ascii	"\003\000\000\000\000\000\000\000\000\000\000\000\000\000\000\000\006"
	.zero	23,0
	.quad	.Lstatic.4+2331
	.asciz	"\006\000\000\000\000\000\000"
	.quad	.Lstatic.4+2361
	.asciz	"\003\000\000\000\000\000\000\000\000\000\000\000\000\000\000"
	.quad	.Lstatic.4+2329
	.asciz	"\002\000\000\000\000\000\000\000\001\000\000\000\000\000\000\000\001\000\000\000\000\000\000\000\004\000\000\000\000\000\000\000\000\000\000\000\000\000\000"
	.quad	.Lstatic.4+2326
	.asciz	"\003\000\000\000\000\000\000"
	.quad	.Lstatic.4+2364
	.asciz	"\003\000\000\000\000\000\000\000\001\000\000\000\000\000\000"
	.quad	.Lstatic.4+2320
	.ascii	"\006\000\000\000\000\000\000\000\000\000\000\000\000\000\000\000\003"
	.zero	23,0
	.quad	.Lstatic.4+2315
	.asciz	"\005\000\000\000\000\000\000"
	.quad	.Lstatic.4+2367
	.asciz	"\003\000\000\000\000\000\000\000\001\000\000\000\000\000\000"
	.quad	.Lstatic.4+2309
	.asciz	"\006\000\000\000\000\000\000\000\001\000\000\000\000\000\000\000\000\000\000\000\000\000\000\000\005\000\000\000\000\000\000\000g\000\000\000\000\000\000"
	.quad	.Lstatic.4+2326
	.asciz	"\003\000\000\000\000\000\000"
	.quad	.Lstatic.4+2370
	.asciz	"\003\000\000\000\000\000\000\000\001\000\000\000\000\000\000"
	.quad	.Lstatic.4+2308
	.ascii	"\001\000\000\000\000\000\000\000\001\000\000\000\000\000\000\000\003"
	.zero	23,0
	.quad	.Lstatic.4+2276
	.asciz	" \000\000\000\000\000\000"
	.quad	.Lstatic.4+2373
	.asciz	"\003\000\000\000\000\000\000\000\001\000\000\000\000\000\000"
	.quad	.Lstatic.4+2274
	.asciz	"\002\000\000\000\000\000\000\000\001\000\000\000\000\000\000\000\001\000\000\000\000\000\000\000\001\000\000\000\000\000\000\000\000\000\000\000\000\000\000"
	.quad	.Lstatic.4+2274
	.zero	8
	.quad	.Lstatic.4+2376
	.asciz	"\003\000\000\000\000\000\000\000\001\000\000\000\000\000\000"
	.quad	.Lstatic.4+2266
	.asciz	"\b\000\000\000\000\000\000\000\001\000\000\000\000\000\000\000\000\000\000\000\000\000\000\000\004\000\000\000\000\000\000\000g\000\000\000\000\000\000"
	.quad	.Lstatic.4+2262
	.asciz	"\004\000\000\000\000\000\000"
	.quad	.Lstatic.4+2379
	.asciz	"\003\000\000\000\000\000\000\000\001\001\000\000\000\000\000"
	.quad	.Lstatic.4+2266
	.asciz	"\b\000\000\000\000\000\000\000\001\000\000\000\000\000\000\000\000\000\000\000\000\000\000\000\001\000\000\000\000\000\000\000A\000\000\000\000\000\000"
	.quad	.Lstatic.4+2262
	.asciz	"\004\000\000\000\000\000\000"
	.quad	.Lstatic.4+2382
	.asciz	"\003\000\000\000\000\000\000\000\001\002\000\000\000\000\000"
	.quad	.Lstatic.4+2266
	.asciz	"\b\000\000\000\000\000\000\000\001\000\000\000\000\000\000\000\000\000\000\000\000\000\000\000\003\000\000\000\000\000\000\000b\000\000\000\000\000\000"
	.quad	.Lstatic.4+2262
	.asciz	"\004\000\000\000\000\000\000"
	.quad	.Lstatic.4+2385
	.asciz	"\003\000\000\000\000\000\000\000\001\000\000\000\000\000\000"
	.quad	.Lstatic.4+2260
	.ascii	"\002\000\000\000\000\000\000\000\001"
	.zero	23,0
	.ascii	"\303\000\000\000\000\000\000\000"
	.quad	.Lstatic.4+2262
	.asciz	"\004\000\000\000\000\000\000"
	.quad	.Lstatic.4+2388
	.asciz	"\003\000\000\000\000\000\000\000\001\000\000\000\000\000\000"
	.quad	.Lstatic.4+2196
	.asciz	"@\000\000\000\000\000\000\000\001\000\000\000\000\000\000\000\000\000\000\000\000\000\000\000\001\000\000\000\000\000\000\000\377\000\000\000\000\000\000"
	.quad	.Lstatic.4+2276
	.asciz	" \000\000\000\000\000\000"
	.quad	.Lstatic.4+2391
	.asciz	"\003\000\000\000\000\000\000\000\001\000\000\000\000\000\000"
	.quad	.Lstatic.4+2066
	.asciz	"\202\000\000\000\000\000\000\000\001\000\000\000\000\000\000\000\000\000\000\000\000\000\000\000\201\000\000\000\000\000\000\000!\000\000\000\000\000\000"
	.quad	.Lstatic.4+2001
	.asciz	"A\000\000\000\000\000\000"
	.quad	.Lstatic.4+2394
	.asciz	"\003\000\000\000\000\000\000\000\000\000\000\000\000\000\000"
	.quad	.Lstatic.4+1968
	.ascii	"!\000\000\000\000\000\000\000\000\000\000\000\000\000\000\000B"
	.zero	23,0
	.quad	.Lstatic.4+1902
	.asciz	"B\000\000\000\000\000\000"
	.quad	.Lstatic.4+2397
	.asciz	"\003\000\000\000\000\000\000\000\001\002\000\000\000\000\000"
	.quad	.Lstatic.4+1836
	.ascii	"B\000\000\000\000\000\000\000\000\000\000\000\000\000\000\000!"
	.zero	23,0
	.quad	.Lstatic.4+1796
	.asciz	"(\000\000\000\000\000\000"
	.quad	.Lstatic.4+2400
	.asciz	"\003\000\000\000\000\000\000\000\001\000\000\000\000\000\000"
	.quad	.Lstatic.4+1796
	.zero	40
	.quad	.Lstatic.4+2326
	.asciz	"\003\000\000\000\000\000\000"
	.quad	.Lstatic.4+2403
	.asciz	"\003\000\000\000\000\000\000\000\002\000\000\000\000\000\000"
	.quad	.Lstatic.4+1793
	.ascii	"\003\000\000\000\000\000\000\000\000\000\000\000\000\000\000\000\007"
	.zero	23,0
	.quad	.Lstatic.4+1786
	.asciz	"\007\000\000\000\000\000\000"
	.quad	.Lstatic.4+2406
	.asciz	"\003\000\000\000\000\000\000\000\003\000\000\000\000\000\000"
	.quad	.Lstatic.4+1779
	.asciz	"\007\000\000\000\000\000\000\000\001\000\000\000\000\000\000\000\000\000\000\000\000\000\000\000\002\000\000\000\000\000\000\000:\000\000\000\000\000\000"
	.quad	.Lstatic.4+2326
	.asciz	"\003\000\000\000\000\000\000"
	.quad	.Lstatic.4+2409
	.asciz	"\003\000\000\000\000\000\000\000\005\000\000\000\000\000\000"
	.quad	.Lstatic.4+1772
	.ascii	"\007\000\000\000\000\000\000\000\000\000\000\000\000\000\000\000\001"
	.zero	23,0
	.quad	.Lstatic.4+1768
	.asciz	"\004\000\000\000\000\000\000"
	.quad	.Lstatic.4+2412
	.asciz	"\003\000\000\000\000\000\000\000\004\000\000\000\000\000\000"
	.quad	.Lstatic.4+1768
	.ascii	"\004\000\000\000\000\000\000\000\000\000\000\000\000\000\000\000\b"
	.zero	23,0
	.quad	.Lstatic.4+1760
	.ascii	"\b\000\000\000\000\000\000\000AB01 *b\n\253\001*bab01 *b00:01020001:02\000\001\002\000\001\002\003\004\005\006\007\b\t\n\013\f\r\016\017\020\021\022\023\024\025\026\027\030\031\032\033\034\035\036\037 \245\245\245\245\245\245\245000102030405060708090A0B0C0D0E0F101112131415161718191A1B1C1D1E1F20000102030405060708090a0b0c0d0e0f101112131415161718191a1b1c1d1e1f20\000\001\002\003\004\005\006\007\b\t\n\013\f\r\016\017\020\021\022\023\024\025\026\027\030\031\032\033\034\035\036\037 "
	.zero	65,165
	.ascii	"111111111111111111111111111111111111111111111111111111111111111111111111111111111111111111111111111111111111111111111111111111111!7\37777777777777777777777777777777777777777777777777777777777777777\303\251\245\245\245\2450A0bg!ffgg"
	.zero	32,165
	.ascii	"g00ff0g\000\253\315\245\24500aBcD\245\245\245\253\31500ABFF\000\253\37768656c6c6fhellov01v02v03v04v05v06v07v08v09v10v11v12v13v14v15v16v17v18v19v20\000"
	hex_constant	.Lstatic.5
.Lstatic.5:
	.ascii	"total "
	hex_merged	8
.Lstatic.6:
	.ascii	" passed "
.Lstatic.7:
	.ascii	" failed "
	hex_constant	.Lstatic.8
.Lstatic.8:
	.byte	10
	hex_constant	.Lstatic.9
.Lstatic.9:
	.ascii	"plain"
	hex_merged	4
.Lstatic.10:
	.ascii	"pass"
.Lstatic.11:
	.ascii	"fail"
	hex_constant	.Lstatic.12
.Lstatic.12:
	.byte	32
	hex_constant	.Lstatic.13
.Lstatic.13:
	.ascii	"scalar"
	hex_constant	.Lstatic.14
.Lstatic.14:
	.ascii	"sse41"
	hex_merged	4
.Lstatic.15:
	.ascii	"avx2"
	hex_constant	.Lstatic.16
.Lstatic.16:
	.ascii	"avx512"
	hex_merged	4
.Lstatic.17:
	.ascii	"neon"
	hex_constant	.Lstatic.19
.Lstatic.19:
	.ascii	"\020\021\022\000\000\000\000\000\000\000ut{vyx012\000\000\000\000\000\000\000\225\224\233\226\231\230012\000\000\000\000\000\000\000UT[VYX"
	hex_constant	.Lstatic.20
.Lstatic.20:
	.asciz	" \000"
	hex_constant	.Lstatic.21
.Lstatic.21:
	.ascii	" KIOIKI'()*+,-./0123456789:;<=>?\000kioiki\007\b\t\n\013\f\r\016\0170000000000\032\033\034\035\036\037 !\"#$%&'()*+,-./0123456789:;<=>?\000kioiki\007\b\t\n\013\f\r\016\0170000000000\032\033\034\035\036\037 KIOIKI'()*+,-./0123456789:;<=>?\000\001\002\003\004\005\006\007\b\t\n\013\f\r\016\0170000000000\032\033\034\035\036\037"
	hex_merged	8
	.p2align	1,0x0
.Lstatic.22:
	.asciz	"\001\020\001\020\001\020\000"
	hex_constant	.Lstatic.23
	.p2align	6,0x0
.Lstatic.23:
	.ascii	"\000\n\013\f\r\016\017"
	.zero	26,0
	.ascii	"\n\013\f\r\016\017\000\000\000\000\000\000\000\000\000\000\001\002\003\004\005\006\007\b\t\000\000\000\000\000\000"
	hex_constant	.Lstatic.24
.Lstatic.24:
	.ascii	"\240\240\241"
	hex_constant	.Lstatic.25
.Lstatic.25:
	.ascii	"\247\250\251\000\000\000\000\000\000\220\241\242\243\244\245\246\247\250\251\000\000\000\000\000\000\220\221\222\223\224\225\226\247\251\251\000\000\000\000\000\000\221\241\243\243\245\245\247"
	hex_constant	.Lstatic.26
.Lstatic.26:
	.ascii	"\200\200\200\2000A\200a\2007\200\200\200\200\200\200\200\200\200\2000\200\200a\2007\200\200\200\200\200\200\200\200\200\2000A\200\200\2007\200\200\200\200\200\200"
	hex_constant	.Lstatic.27
.Lstatic.27:
	.zero	48,255
	.ascii	"\000\001\002\003\004\005\006\007\b\t\377\377\377\377\377\377\377\n\013\f\r\016\017"
	.zero	26,255
	.ascii	"\n\013\f\r\016\017"
	.zero	153,255
	hex_constant	.Lstatic.28
.Lstatic.28:
	.zero	48,255
	.ascii	"\000\001\002\003\004\005\006\007\b\t"
	.zero	39,255
	.ascii	"\n\013\f\r\016\017"
	.zero	153,255
	hex_constant	.Lstatic.29
.Lstatic.29:
	.zero	48,255
	.ascii	"\000\001\002\003\004\005\006\007\b\t\377\377\377\377\377\377\377\n\013\f\r\016\017"
	.zero	185,255
	hex_constant	.Lstatic.30
.Lstatic.30:
	.ascii	"aaA"
	hex_constant	.Lstatic.33
.Lstatic.33:
	.ascii	"000102030405060708090A0B0C0D0E0F101112131415161718191A1B1C1D1E1F202122232425262728292A2B2C2D2E2F303132333435363738393A3B3C3D3E3F404142434445464748494A4B4C4D4E4F505152535455565758595A5B5C5D5E5F606162636465666768696A6B6C6D6E6F707172737475767778797A7B7C7D7E7F808182838485868788898A8B8C8D8E8F909192939495969798999A9B9C9D9E9FA0A1A2A3A4A5A6A7A8A9AAABACADAEAFB0B1B2B3B4B5B6B7B8B9BABBBCBDBEBFC0C1C2C3C4C5C6C7C8C9CACBCCCDCECFD0D1D2D3D4D5D6D7D8D9DADBDCDDDEDFE0E1E2E3E4E5E6E7E8E9EAEBECEDEEEFF0F1F2F3F4F5F6F7F8F9FAFBFCFDFEFF"
	hex_constant	.Lstatic.34
.Lstatic.34:
	.ascii	"000102030405060708090a0b0c0d0e0f101112131415161718191a1b1c1d1e1f202122232425262728292a2b2c2d2e2f303132333435363738393a3b3c3d3e3f404142434445464748494a4b4c4d4e4f505152535455565758595a5b5c5d5e5f606162636465666768696a6b6c6d6e6f707172737475767778797a7b7c7d7e7f808182838485868788898a8b8c8d8e8f909192939495969798999a9b9c9d9e9fa0a1a2a3a4a5a6a7a8a9aaabacadaeafb0b1b2b3b4b5b6b7b8b9babbbcbdbebfc0c1c2c3c4c5c6c7c8c9cacbcccdcecfd0d1d2d3d4d5d6d7d8d9dadbdcdddedfe0e1e2e3e4e5e6e7e8e9eaebecedeeeff0f1f2f3f4f5f6f7f8f9fafbfcfdfeff"
	hex_constant	.Lstatic.39
.Lstatic.39:
	.byte	43
	hex_constant	.Lstatic.40
.Lstatic.40:
	.ascii	"0x"
	hex_merged	4
.Lstatic.41:
	.zero	4,32
	hex_constant	.Lstatic.46
.Lstatic.46:
	.ascii	"encode"
	hex_constant	.Lstatic.47
.Lstatic.47:
	.ascii	"encode-upper"
	hex_constant	.Lstatic.48
.Lstatic.48:
	.ascii	"decode"
	hex_constant	.Lstatic.49
.Lstatic.49:
	.ascii	"decode-lower"
	hex_constant	.Lstatic.50
.Lstatic.50:
	.ascii	"decode-upper"
	hex_constant	.Lstatic.51
.Lstatic.51:
	.ascii	"usage: fhex encode|encode-upper|decode|decode-lower|decode-upper|vectors"
	hex_constant	.Lstatic.52
.Lstatic.52:
	.ascii	"usage: fhex-stream encode|encode-lines|decode"
	hex_constant	.Lstatic.53
.Lstatic.53:
	.ascii	"write failed"
	hex_constant	.Lstatic.54
.Lstatic.54:
	.ascii	"out of memory"
	hex_constant	.Lstatic.55
.Lstatic.55:
	.ascii	"input too long"
	hex_constant	.Lstatic.56
.Lstatic.56:
	.ascii	"read failed"
	hex_constant	.Lstatic.57
.Lstatic.57:
	.ascii	"invalid hex byte 0x"
	hex_constant	.Lstatic.58
.Lstatic.58:
	.ascii	" at index "
	hex_constant	.Lstatic.59
.Lstatic.59:
	.ascii	"output requires at least "
	hex_constant	.Lstatic.60
.Lstatic.60:
	.ascii	" bytes"
	hex_constant	.Lstatic.61
.Lstatic.61:
	.ascii	"expected "
	hex_constant	.Lstatic.62
.Lstatic.62:
	.ascii	" decoded bytes, got "
	hex_constant	.Lstatic.63
.Lstatic.63:
	.ascii	"hex input length must be even"
	hex_constant	.Lstatic.64
.Lstatic.64:
	.ascii	"encoded length overflow"
	hex_constant	.Lswitch.table.program_vectors_Report_ref_A_add
	.p2align	3,0x0
.Lswitch.table.program_vectors_Report_ref_A_add:
	.quad	6
	.quad	5
	.quad	4
	.quad	6
	.quad	4
	.quad	5
	hex_addresses	.Lswitch.table.program_vectors_Report_ref_A_add.223
	.p2align	3,0x0
.Lswitch.table.program_vectors_Report_ref_A_add.223:
	.quad	.Lstatic.13
	.quad	.Lstatic.14
	.quad	.Lstatic.15
	.quad	.Lstatic.16
	.quad	.Lstatic.17
	.quad	.Lstatic.9
	hex_addresses	.Lswitch.table.core_backend_Backend_first_invalid_byte
	.p2align	3,0x0
.Lswitch.table.core_backend_Backend_first_invalid_byte:
	.quad	.Lstatic.27
	.quad	.Lstatic.28
	.quad	.Lstatic.29
