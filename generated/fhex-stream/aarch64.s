/* Written by scripts/generate: do not edit. */
	hex_merged	16
	.p2align	4,0x0
.LCPI0_0:
	.quad	1
	.quad	30
.LCPI0_1:
	.byte	1,2,4,8,16,32,64,128,1,2,4,8,16,32,64,128
	hex_export	fhex_main_start
	stp	x29,x30,[sp,#-96]!
	sub	x9,sp,#9,lsl #12
	stp	x28,x27,[sp,#16]
	mov	x29,sp
	sub	x9,x9,#3072
	stp	x26,x25,[sp,#32]
	stp	x24,x23,[sp,#48]
	stp	x22,x21,[sp,#64]
	stp	x20,x19,[sp,#80]
1:
	sub	sp,sp,#3072
	cmp	sp,x9
	str	xzr,[sp]
	b.ne	1b
	sub	sp,sp,#1456
	movi	v0.2d,#0000000000000000
	add	x28,sp,#6,lsl #12
	add	x27,sp,#2,lsl #12
	mov	x26,xzr
	mov	x20,xzr
	sub	x19,x29,#24
	add	x28,x28,#288
	add	x27,x27,#288
	str	xzr,[sp]
	str	xzr,[sp,#8496]
	str	x19,[sp,#8480]
	stp	q0,q0,[sp,#16]
	str	xzr,[sp,#8488]
3:
	mov	w25,#64
	mov	w22,#256
	b	5f
4:
	adds	x8,x22,x22
	csinv	x22,x8,xzr,lo
	subs	w25,w25,#1
	b.eq	103f
5:
	sub	x21,x29,#24
	stp	xzr,xzr,[x28,#8]
	str	x21,[sp,#24864]
	cbnz	x22,10f
	mov	x23,xzr
7:
	mov	x0,x20
	mov	x1,x21
	mov	x2,x23
	bl	fhex_arg
	mov	w8,#36
	cmn	x0,#1
	mov	w9,#22
	csel	w8,w9,w8,eq
	mov	x24,x0
	csel	w0,wzr,w8,gt
	bl	fhex_set_errno
	bl	fhex_errno
	cmp	w0,#36
	b.ne	13f
	ldr	x8,[sp,#24880]
	cbz	x8,4b
	mov	x0,x21
	bl	fhex_dealloc
	b	4b
10:
	add	x0,sp,#6,lsl #12
	mov	x1,x22
	add	x0,x0,#288
	bl	std_alloc_vec_Vec_grow_amortized
	cbz	w0,101f
	ldr	x8,[sp,#24872]
	ldr	x21,[sp,#24864]
	add	x23,x8,x22
	cmp	x8,x23
	b.hs	7b
	add	x0,x21,x8
	mov	w1,wzr
	mov	x2,x22
	bl	memset
	b	7b
13:
	cbnz	w0,19f
	cmp	x24,x23
	add	x0,sp,#6,lsl #12
	mov	x1,x21
	csel	x8,x24,x23,lo
	cmp	x24,#0
	ldr	x23,[sp,#24880]
	csel	x22,x8,xzr,gt
	add	x0,x0,#288
	str	xzr,[sp,#24872]
	mov	x2,x22
	str	xzr,[sp,#24864]
	str	xzr,[sp,#24880]
	bl	core_str_utf8_from_utf8
	ldrb	w8,[x28]
	cmp	w8,#1
	b.eq	118f
	ldr	x8,[sp,#8496]
	cmp	x8,x26
	b.eq	17f
16:
	mov	w8,#24
	add	x20,x20,#1
	madd	x8,x26,x8,x19
	add	x26,x26,#1
	cmn	x20,#1
	stp	x21,x22,[x8]
	str	x23,[x8,#16]
	str	x26,[sp,#8488]
	b.ne	3b
	b	21f
17:
	add	x0,sp,#2,lsl #12
	mov	w1,#1
	add	x0,x0,#288
	bl	std_alloc_vec_Vec_grow_amortized_
	cbz	w0,183f
	ldr	x26,[sp,#8488]
	ldr	x19,[sp,#8480]
	b	16b
19:
	ldr	x8,[sp,#24880]
	cbz	x8,21f
	mov	x0,x21
	bl	fhex_dealloc
21:
	ldr	x20,[sp,#8480]
	ldr	x9,[sp,#8496]
	mov	x23,xzr
	mov	x25,xzr
	mov	x24,xzr
	sub	x19,x29,#24
	add	x13,x20,#24
	str	x9,[sp,#8]
	str	x19,[sp,#24864]
	cmp	x25,#0
	csel	x27,xzr,xzr,eq
22:
	cbz	x26,43f
	mov	w8,#24
	sub	x21,x26,#1
	madd	x8,x24,x8,x20
	add	x24,x24,#1
	ldr	x9,[x8,#16]
	cbz	x9,26f
	ldr	x0,[x8]
	bl	fhex_dealloc
	add	x13,x20,#24
	b	26f
25:
	mov	x21,x26
26:
	cbz	x21,43f
	add	x8,x24,x24,lsl #1
	cmp	x25,x27
	sub	x26,x21,#1
	lsl	x12,x8,#3
	add	x8,x20,x12
	b.ne	29f
	add	x24,x24,#1
	b	34f
29:
	mov	w9,#24
	ldr	x10,[x8,#16]
	ldr	q0,[x8]
	madd	x9,x25,x9,x19
	add	x8,x25,#1
	str	x10,[x9,#16]
	str	q0,[x9]
	cbz	x26,116f
	mov	w10,#24
	mov	x9,xzr
	sub	x11,x8,x27
	madd	x10,x25,x10,x19
	add	x8,x13,x12
	add	x10,x10,#24
31:
	cmn	x11,x9
	b.eq	33f
	ldr	x12,[x8,#16]
	ldr	q0,[x8],#24
	add	x9,x9,#1
	cmp	x26,x9
	str	x12,[x10,#16]
	str	q0,[x10],#24
	b.ne	31b
	b	42f
33:
	add	x10,x24,x9
	sub	x9,x21,x9
	add	x24,x10,#2
	sub	x21,x9,#1
	sub	x26,x9,#2
34:
	ldp	x22,x25,[x8]
	sub	x9,x23,x27
	mov	x10,x23
	ldr	x23,[x8,#16]
	cmp	x21,x9
	mov	x9,x10
	str	x27,[sp,#24872]
	str	x10,[sp,#24880]
	b.hi	36f
35:
	mov	w8,#24
	ldr	x19,[sp,#24864]
	madd	x8,x27,x8,x19
	stp	x22,x25,[x8]
	add	x25,x27,#1
	str	x23,[x8,#16]
	mov	w8,#1
	mov	x23,x9
	str	x25,[sp,#24872]
	cmp	x25,#0
	csel	x27,xzr,x9,eq
	tbz	w8,#0,22b
	b	25b
36:
	add	x0,sp,#6,lsl #12
	mov	x1,x21
	add	x0,x0,#288
	bl	std_alloc_vec_Vec_grow_amortized_
	ldr	x27,[sp,#24872]
	ldr	x8,[sp,#24880]
	tbnz	w0,#0,40f
	mov	x9,x8
	cmp	x8,x27
	add	x13,x20,#24
	b.ne	35b
	add	x0,sp,#6,lsl #12
	mov	w1,#1
	add	x0,x0,#288
	bl	std_alloc_vec_Vec_grow_amortized_
	cbz	w0,195f
	ldr	x27,[sp,#24872]
	ldr	x9,[sp,#24880]
	b	41f
40:
	mov	x9,x8
41:
	add	x13,x20,#24
	b	35b
42:
	add	x8,x25,x9
	add	x25,x8,#1
43:
	ldr	x8,[sp,#8]
	cbz	x8,45f
44:
	mov	x0,x20
	bl	fhex_dealloc
45:
	sub	x8,x29,#24
	str	xzr,[sp,#24880]
	str	x8,[sp,#24864]
	str	xzr,[sp,#24872]
	cbz	x25,73f
	add	x21,sp,#6,lsl #12
	mov	x8,xzr
	mov	x12,xzr
	mov	x9,xzr
	add	x21,x21,#288
	sub	x13,x29,#24
	mov	x24,x25
	mov	x22,x19
	str	x23,[sp,#8]
47:
	add	x10,x13,x9,lsl #4
	mov	x23,xzr
	sub	x11,x9,x8
	add	x22,x22,#24
	add	x10,x10,#8
48:
	ldp	x26,x27,[x22,#-24]
	cmn	x11,x23
	b.eq	50f
	add	x23,x23,#1
	stp	x26,x27,[x10,#-8]
	add	x22,x22,#24
	cmp	x24,x23
	add	x10,x10,#16
	b.ne	48b
	b	56f
50:
	sub	x9,x12,x8
	sub	x20,x24,x23
	str	x13,[sp,#24864]
	cmp	x20,x9
	str	x8,[sp,#24872]
	str	x12,[sp,#24880]
	b.hi	52f
51:
	ldr	x13,[sp,#24864]
	sub	x11,x24,#1
	adds	x9,x8,#1
	sub	x24,x20,#1
	add	x10,x13,x8,lsl #4
	csel	x8,xzr,x12,hs
	cmp	x11,x23
	stp	x26,x27,[x10]
	stp	xzr,xzr,[x21,#8]
	b.ne	47b
	b	57f
52:
	add	x0,sp,#6,lsl #12
	sub	x1,x24,x23
	add	x0,x0,#288
	bl	std_alloc_vec_Vec_grow_amortized__
	ldr	x8,[sp,#24872]
	ldr	x12,[sp,#24880]
	tbnz	w0,#0,51b
	cmp	x12,x8
	b.ne	51b
	add	x0,sp,#6,lsl #12
	mov	w1,#1
	add	x0,x0,#288
	bl	std_alloc_vec_Vec_grow_amortized__
	cbz	w0,212f
	ldr	x8,[sp,#24872]
	ldr	x12,[sp,#24880]
	b	51b
56:
	add	x9,x9,x23
57:
	movi	v1.2d,#0000000000000000
	cmp	x9,#1
	stp	q1,q1,[sp,#48]
	b.ne	74f
	ldp	x10,x8,[x13]
	ldr	x23,[sp,#8]
	cmp	x8,#12
	b.eq	95f
	add	x11,sp,#2,lsl #12
	cmp	x8,#9
	add	x11,x11,#288
	b.eq	88f
	cmp	x8,#6
	b.ne	75f
	ldr	w8,[x10]
	ldur	w9,[x10,#2]
	orr	x8,x8,x9,lsl #32
	mov	x9,#25956
	movk	x9,#28515,lsl #16
	movk	x9,#28515,lsl #32
	movk	x9,#25956,lsl #48
	cmp	x8,x9
	b.eq	131f
	mov	x9,#28261
	mov	x26,x13
	mov	x24,x12
	movk	x9,#28515,lsl #16
	movk	x9,#28515,lsl #32
	movk	x9,#25956,lsl #48
	cmp	x8,x9
	b.eq	128f
	mov	x9,#11565
	movk	x9,#25960,lsl #16
	movk	x9,#25960,lsl #32
	movk	x9,#28780,lsl #48
	cmp	x8,x9
	b.ne	76f
	movi	v0.2d,#0000000000000000
	add	x8,sp,#6,lsl #12
	add	x0,sp,#2,lsl #12
	add	x8,x8,#288
	mov	x20,#-1
	mov	w22,#32
	add	x21,sp,#2,lsl #12
	hex_page	x1,.Lstatic.5
	hex_address	x1,x1,.Lstatic.5
	add	x0,x0,#288
	str	xzr,[sp,#24992]
	add	x21,x21,#288
	str	q0,[sp,#24976]
	str	q0,[sp,#24960]
	str	q0,[sp,#24944]
	str	q0,[sp,#24928]
	str	q0,[sp,#24912]
	str	q0,[sp,#24896]
	str	q0,[sp,#24880]
	str	q0,[sp,#24864]
	str	x8,[sp,#8480]
	str	xzr,[sp,#8520]
	str	xzr,[sp,#8512]
	stur	xzr,[x11,#12]
	str	w22,[sp,#8488]
	str	wzr,[sp,#8500]
	str	x20,[sp,#8504]
	bl	core_fmt_formatter_Formatter_write_piece
	and	w8,w0,#0xff
	tbnz	w8,#0,134f
	ldr	x8,[sp,#8512]
	str	w22,[sp,#8488]
	stur	xzr,[x21,#12]
	stur	wzr,[x21,#20]
	str	x20,[sp,#8504]
	cbnz	x8,191f
	ldr	x8,[sp,#8480]
	ldr	x9,[x8,#128]
	cmp	x9,#128
	b.eq	134f
	mov	w10,#10
	strb	w10,[x8,x9]
	add	x9,x9,#1
	str	x9,[x8,#128]
68:
	ldr	x20,[sp,#24992]
	cbz	x20,94f
	mov	x21,xzr
70:
	add	x8,sp,#6,lsl #12
	sub	x2,x20,x21
	mov	w0,#1
	add	x8,x8,#288
	sub	x22,x20,x21
	add	x1,x8,x21
	bl	fhex_write
	tbnz	x0,#63,133f
	cmp	x0,x22
	csel	x8,x0,x22,lo
	cbz	x8,134f
	add	x21,x8,x21
	cmp	x21,x20
	b.lo	70b
	b	94f
73:
	movi	v1.2d,#0000000000000000
	mov	x24,xzr
	mov	x8,xzr
	sub	x26,x29,#24
	b	77f
74:
	ldr	x23,[sp,#8]
75:
	mov	x26,x13
	mov	x24,x12
76:
	mov	x8,xzr
77:
	mov	w9,#2
78:
	add	x0,sp,#48
	stp	x9,x8,[sp,#48]
	str	q1,[sp,#64]
	bl	program_stream_refuse_stream
	mov	w21,w0
79:
	mov	x0,x26
	cbz	x24,81f
	bl	fhex_dealloc
81:
	cbz	x25,86f
	add	x20,x19,#16
	b	84f
83:
	subs	x25,x25,#1
	add	x20,x20,#24
	b.eq	86f
84:
	ldr	x8,[x20]
	cbz	x8,83b
	ldur	x0,[x20,#-16]
	bl	fhex_dealloc
	b	83b
86:
	cbz	x23,115f
	mov	x0,x19
	bl	fhex_dealloc
	b	115f
88:
	mov	x11,#11565
	ldr	x9,[x10]
	mov	x26,x13
	movk	x11,#25974,lsl #16
	mov	x24,x12
	mov	x8,xzr
	movk	x11,#29554,lsl #32
	movk	x11,#28521,lsl #48
	cmp	x9,x11
	mov	w9,#2
	b.ne	78b
	mov	x11,#30253
	ldur	x10,[x10,#1]
	movk	x11,#29285,lsl #16
	movk	x11,#26995,lsl #32
	movk	x11,#28271,lsl #48
	cmp	x10,x11
	b.ne	78b
	movi	v0.2d,#0000000000000000
	hex_page	x8,.Lstatic.3
	hex_address	x8,x8,.Lstatic.3
	ldr	q1,[x8]
	mov	w8,#2608
	mov	x20,xzr
	strh	w8,[x28,#16]
	mov	w8,#18
	str	q1,[sp,#24864]
	str	q0,[sp,#24976]
	stur	q0,[x28,#98]
	stur	q0,[x28,#82]
	stur	q0,[x28,#66]
	stur	q0,[x28,#50]
	stur	q0,[x28,#34]
	stur	q0,[x28,#18]
	str	x8,[sp,#24992]
91:
	mov	w8,#18
	add	x9,sp,#6,lsl #12
	mov	w0,#1
	add	x9,x9,#288
	sub	x21,x8,x20
	add	x1,x9,x20
	mov	x2,x21
	bl	fhex_write
	tbnz	x0,#63,133f
	cmp	x0,x21
	csel	x8,x0,x21,lo
	cbz	x8,134f
	add	x20,x8,x20
	cmp	x20,#18
	b.lo	91b
94:
	mov	w21,wzr
	mov	x9,xzr
	b	136f
95:
	mov	x11,#28261
	ldr	x9,[x10]
	add	x14,sp,#2,lsl #12
	movk	x11,#28515,lsl #16
	mov	x8,xzr
	add	x14,x14,#288
	movk	x11,#25956,lsl #32
	movk	x11,#27693,lsl #48
	cmp	x9,x11
	mov	w9,#2
	b.ne	117f
	mov	x11,#25956
	ldur	x10,[x10,#4]
	movk	x11,#27693,lsl #16
	movk	x11,#28265,lsl #32
	movk	x11,#29541,lsl #48
	cmp	x10,x11
	b.ne	117f
	movi	v0.2d,#0000000000000000
	hex_page	x8,.LCPI0_0
	add	x0,sp,#6,lsl #12
	add	x2,sp,#2,lsl #12
	add	x0,x0,#288
	add	x1,sp,#80
	add	x2,x2,#288
	mov	x26,x13
	mov	x24,x12
	str	xzr,[sp,#176]
	stp	q0,q0,[sp,#80]
	stp	q0,q0,[sp,#112]
	stp	q0,q0,[sp,#144]
	str	q0,[sp,#24864]
	str	q0,[sp,#24880]
	hex_value	q0,x8,.LCPI0_0
	mov	w8,#10
	str	xzr,[sp,#24896]
	str	q0,[sp,#8480]
	strb	w8,[x14,#16]
	stur	wzr,[x14,#17]
	str	wzr,[sp,#8500]
	bl	io_stream_encode_by
	ldrb	w9,[x28]
	ldr	x8,[sp,#24872]
	cbnz	w9,130f
	cbz	x8,173f
	hex_page	x1,.Lstatic.7
	hex_address	x1,x1,.Lstatic.7
	mov	w0,#1
	mov	w2,#1
	bl	fhex_write
	tbz	x0,#63,138f
	add	x0,sp,#6,lsl #12
	add	x0,x0,#288
	bl	std_io_io_error_last_error
	movi	v1.2d,#0000000000000000
	mov	x8,xzr
	mov	w21,#1
	mov	w9,#5
	cbnz	w21,78b
	b	79b
101:
	ldr	x8,[sp,#24880]
	cbz	x8,103f
	ldr	x0,[sp,#24864]
	bl	fhex_dealloc
103:
	ldr	x20,[sp,#8496]
	cbz	x26,108f
	add	x21,x19,#16
	b	106f
105:
	subs	x26,x26,#1
	add	x21,x21,#24
	b.eq	108f
106:
	ldr	x8,[x21]
	cbz	x8,105b
	ldur	x0,[x21,#-16]
	bl	fhex_dealloc
	b	105b
108:
	cbz	x20,110f
109:
	mov	x0,x19
	bl	fhex_dealloc
110:
	add	x8,sp,#2,lsl #12
	add	x9,sp,#2,lsl #12
111:
	add	x8,x8,#288
	mov	w10,#21
	mov	w11,#38
	add	x9,x9,#288
	strb	w10,[x28]
	strb	w11,[x27]
	ldrb	w9,[x9]
	cmp	w9,#38
	b.ne	113f
112:
	mov	w8,#6
	b	114f
113:
	strb	w10,[x28]
	strb	w11,[x27]
	ldrb	w8,[x8]
	cmp	w8,#21
	mov	w8,#3
	cinc	x8,x8,eq
114:
	add	x0,sp,#16
	stp	x8,xzr,[sp,#16]
	stp	xzr,xzr,[sp,#32]
	bl	program_stream_refuse_stream
	mov	w21,w0
115:
	and	w0,w21,#0xff
	add	sp,sp,#10,lsl #12
	add	sp,sp,#432
	ldp	x20,x19,[sp,#80]
	ldp	x22,x21,[sp,#64]
	ldp	x24,x23,[sp,#48]
	ldp	x26,x25,[sp,#32]
	ldp	x28,x27,[sp,#16]
	ldp	x29,x30,[sp],#96
	ret
116:
	mov	x25,x8
	ldr	x8,[sp,#8]
	cbnz	x8,44b
	b	45b
117:
	mov	x26,x13
	mov	x24,x12
	b	78b
118:
	cbz	x23,120f
	mov	x0,x21
	bl	fhex_dealloc
120:
	ldr	x19,[sp,#8480]
	ldr	x20,[sp,#8496]
	cbz	x26,125f
	add	x21,x19,#16
	b	123f
122:
	subs	x26,x26,#1
	add	x21,x21,#24
	b.eq	125f
123:
	ldr	x8,[x21]
	cbz	x8,122b
	ldur	x0,[x21,#-16]
	bl	fhex_dealloc
	b	122b
125:
	cbz	x20,127f
	mov	x0,x19
	bl	fhex_dealloc
127:
	add	x8,sp,#6,lsl #12
	add	x9,sp,#6,lsl #12
	b	111b
128:
	movi	v0.2d,#0000000000000000
	add	x0,sp,#6,lsl #12
	add	x2,sp,#2,lsl #12
	add	x0,x0,#288
	add	x1,sp,#80
	add	x2,x2,#288
	str	xzr,[sp,#176]
	str	xzr,[sp,#24896]
	stp	q0,q0,[sp,#80]
	stp	q0,q0,[sp,#112]
	stp	q0,q0,[sp,#144]
	str	q0,[sp,#24864]
	str	q0,[sp,#24880]
	str	xzr,[sp,#8496]
	str	xzr,[sp,#8480]
	str	xzr,[sp,#8488]
	bl	io_stream_encode_by
	ldrb	w8,[x28]
	cbz	w8,137f
	ldr	x8,[sp,#24872]
130:
	ldrb	w22,[x28,#16]
	ldur	q0,[x28,#24]
	b	177f
131:
	movi	v0.2d,#0000000000000000
	add	x0,sp,#6,lsl #12
	str	xzr,[x28,#16392]
	sub	x28,x29,#136
	mov	w8,#256
	add	x0,x0,#288
	mov	w1,wzr
	mov	w2,#16384
	mov	x26,x13
	mov	x24,x12
	strh	w8,[x28]
	stur	q0,[x28,#8]
	stp	q0,q0,[sp,#192]
	stp	q0,q0,[sp,#224]
	stp	q0,q0,[sp,#256]
	bl	memset
	add	x0,sp,#2,lsl #12
	mov	w1,wzr
	mov	w2,#16384
	add	x0,x0,#288
	bl	memset
	add	x0,sp,#288
	mov	w1,wzr
	mov	w2,#8192
	bl	memset
	add	x1,sp,#6,lsl #12
	add	x0,sp,#192
	mov	w2,#16384
	add	x1,x1,#288
	bl	io_stream_read_again
	ldrb	w9,[sp,#192]
	cbz	w9,139f
	mov	w8,wzr
	mov	w22,wzr
	b	176f
133:
	add	x0,sp,#2,lsl #12
	add	x0,x0,#288
	bl	std_io_io_error_last_error
134:
	mov	w21,#1
135:
	mov	w9,#5
136:
	movi	v1.2d,#0000000000000000
	mov	x8,xzr
	cbnz	w21,78b
	b	79b
137:
	hex_page	x1,.Lstatic.7
	hex_address	x1,x1,.Lstatic.7
	mov	w0,#1
	mov	w2,#1
	bl	fhex_write
	tbnz	x0,#63,182f
138:
	movi	v1.2d,#0000000000000000
	cmp	x0,#0
	mov	w9,#5
	mov	x8,xzr
	cset	w21,eq
	csel	x9,x9,xzr,eq
	cbnz	w21,78b
	b	79b
139:
	movi	v0.2d,#0000000000000000
	sub	x27,x29,#112
	b	141f
140:
	add	x1,sp,#6,lsl #12
	add	x0,sp,#192
	mov	w2,#16384
	add	x1,x1,#288
	bl	io_stream_read_again
	movi	v0.2d,#0000000000000000
	ldrb	w8,[sp,#192]
	cbnz	w8,211f
141:
	ldr	x21,[sp,#200]
	cbz	x21,192f
	ldrb	w8,[x28,#1]
	tbz	w8,#0,145f
	add	x2,sp,#6,lsl #12
	sub	x0,x29,#136
	add	x4,sp,#288
	add	x2,x2,#288
	mov	x1,x21
	mov	x3,x21
	bl	io_stream_decoder_Decoder_feed_valid
	and	w8,w0,#0xff
	cmp	w8,#1
	b.ne	147f
	mov	x22,x1
	b	166f
145:
	add	x2,sp,#6,lsl #12
	sub	x0,x29,#136
	add	x4,sp,#288
	add	x2,x2,#288
	mov	x1,x21
	mov	x3,x21
	stp	xzr,xzr,[x27,#8]
	bl	io_stream_decoder_Decoder_feed_valid
	and	w8,w0,#0xff
	cmp	w8,#1
	b.ne	153f
	mov	x22,x1
	movi	v0.2d,#0000000000000000
	mov	w8,wzr
	cbz	w8,166f
	b	194f
147:
	lsr	x8,x21,#5
	mov	x23,xzr
	cmp	x8,#0
	cset	w9,ne
	cmp	x21,#64
	sub	x9,x8,x9
	b.hs	155f
148:
	lsl	x9,x9,#5
	cmp	x9,x21
	b.hs	151f
	cmp	x8,#1
	csinc	x10,x8,xzr,lo
	add	x10,x21,x10,lsl #5
	sub	x8,x10,x8,lsl #5
	add	x10,sp,#6,lsl #12
	add	x10,x10,#288
	add	x9,x10,x9
150:
	ldrb	w10,[x9],#1
	and	w11,w10,#0xfe
	sub	w12,w10,#11
	cmp	w11,#12
	mov	w11,#32
	ccmp	w10,w11,#4,ne
	add	x11,sp,#2,lsl #12
	add	x11,x11,#288
	ccmn	w12,#2,#2,ne
	strb	w10,[x11,x23]
	cinc	x23,x23,lo
	subs	x8,x8,#1
	b.ne	150b
151:
	add	x2,sp,#2,lsl #12
	sub	x0,x29,#136
	add	x4,sp,#288
	add	x2,x2,#288
	mov	x1,x21
	mov	x3,x23
	stp	xzr,xzr,[x27,#8]
	bl	io_stream_decoder_Decoder_feed_valid
	and	w8,w0,#0xff
	cmp	w8,#1
	b.ne	160f
	mov	x22,x1
	movi	v0.2d,#0000000000000000
	mov	w8,wzr
	ldr	x23,[sp,#8]
	cbz	w8,166f
	b	194f
153:
	ldr	x8,[x28,#8]
	mov	w22,#4
	str	x22,[x28,#24]
	cmn	x21,x8
	b.lo	162f
	movi	v0.2d,#0000000000000000
	mov	w8,#1
	cbz	w8,166f
	b	194f
155:
	mov	x10,xzr
	b	157f
156:
	add	x13,sp,#2,lsl #12
	add	x11,x11,x23
	add	x10,x10,#1
	add	x13,x13,#288
	sub	x11,x11,x12
	cmp	x10,x9
	add	x13,x13,x23
	add	x23,x11,#32
	stp	q0,q1,[x13]
	b.hs	148b
157:
	lsl	x11,x10,#5
	add	x12,sp,#6,lsl #12
	movi	v2.16b,#33
	add	x12,x12,#288
	add	x12,x12,x11
	ldp	q0,q1,[x12]
	hex_page	x12,.LCPI0_1
	hex_value	q4,x12,.LCPI0_1
	mov	x12,x11
	cmhi	v3.16b,v2.16b,v1.16b
	cmhi	v2.16b,v2.16b,v0.16b
	and	v2.16b,v2.16b,v4.16b
	and	v3.16b,v3.16b,v4.16b
	addp	v2.16b,v2.16b,v3.16b
	addp	v2.16b,v2.16b,v2.16b
	addp	v2.16b,v2.16b,v2.16b
	fmov	w13,s2
	cbz	w13,156b
158:
	rbit	x15,x13
	add	x14,sp,#6,lsl #12
	add	x14,x14,#288
	add	x16,x14,x12
	clz	x15,x15
	ldrb	w17,[x16,x15]
	ldp	q0,q1,[x16]
	mov	w16,#32
	and	w18,w17,#0xfe
	cmp	w18,#12
	add	x18,sp,#2,lsl #12
	ccmp	w17,w16,#4,ne
	add	x16,x15,#1
	sub	w17,w17,#11
	add	x18,x18,#288
	lsr	x13,x13,x16
	ccmn	w17,#2,#2,ne
	add	x15,x15,x23
	add	x18,x18,x23
	add	x12,x16,x12
	cinc	x23,x15,lo
	stp	q0,q1,[x18]
	cbnz	x13,158b
	add	x13,x14,x12
	ldp	q0,q1,[x13]
	b	156b
160:
	ldr	x8,[x28,#8]
	mov	w22,#4
	str	x22,[x28,#24]
	cmn	x21,x8
	b.lo	164f
	movi	v0.2d,#0000000000000000
	mov	w8,#1
	ldr	x23,[sp,#8]
	cbz	w8,166f
	b	194f
162:
	ldrb	w8,[x28,#16]
	cmp	w8,#1
	cset	w8,eq
	and	w8,w8,w21
	add	x8,x8,x21,lsr #1
	cmp	x8,#2,lsl #12
	b.ls	171f
	movi	v0.2d,#0000000000000000
	mov	w22,#1
	mov	v0.d[0],x8
	mov	w8,#1
	cbz	w8,166f
	b	194f
164:
	ldrb	w8,[x28,#16]
	cmp	w8,#1
	cset	w8,eq
	and	w8,w8,w23
	add	x8,x8,x23,lsr #1
	cmp	x8,#2,lsl #12
	b.ls	172f
	movi	v0.2d,#0000000000000000
	mov	w22,#1
	mov	v0.d[0],x8
	mov	w8,w22
	ldr	x23,[sp,#8]
	cbnz	w8,194f
166:
	cbz	x22,140b
	mov	x20,xzr
168:
	add	x8,sp,#288
	sub	x2,x22,x20
	mov	w0,#1
	add	x1,x8,x20
	sub	x21,x22,x20
	bl	fhex_write
	tbnz	x0,#63,174f
	cmp	x0,x21
	csel	x8,x0,x21,lo
	cbz	x8,175f
	add	x20,x8,x20
	cmp	x20,x22
	b.lo	168b
	b	140b
171:
	add	x2,sp,#6,lsl #12
	sub	x0,x29,#112
	sub	x1,x29,#136
	add	x2,x2,#288
	mov	x3,x21
	bl	io_stream_decoder_Decoder_error_in
	ldrb	w22,[x28,#24]
	ldur	q0,[x28,#32]
	mov	w8,#1
	cbz	w8,166b
	b	194f
172:
	add	x2,sp,#6,lsl #12
	sub	x0,x29,#112
	sub	x1,x29,#136
	add	x2,x2,#288
	mov	x3,x21
	bl	io_stream_decoder_Decoder_error_in
	ldrb	w22,[x28,#24]
	ldur	q0,[x28,#32]
	mov	w8,#1
	ldr	x23,[sp,#8]
	cbz	w8,166b
	b	194f
173:
	movi	v1.2d,#0000000000000000
	mov	w21,wzr
	mov	x9,xzr
	b	79b
174:
	sub	x0,x29,#112
	bl	std_io_io_error_last_error
175:
	mov	w22,wzr
	mov	w8,#2
176:
	movi	v0.2d,#0000000000000000
177:
	movi	v1.2d,#0000000000000000
	ands	w8,w8,#0xff
	b.eq	180f
	cmp	w8,#2
	b.ne	181f
	mov	x8,xzr
	mov	w21,#1
	mov	w9,#5
	cbnz	w21,78b
	b	79b
180:
	mov	x8,xzr
	mov	w21,#1
	mov	w9,#3
	cbnz	w21,78b
	b	79b
181:
	mov	v1.16b,v0.16b
	mov	x9,xzr
	and	x8,x22,#0xff
	mov	w21,#1
	cbnz	w21,78b
	b	79b
182:
	add	x0,sp,#6,lsl #12
	add	x0,x0,#288
	bl	std_io_io_error_last_error
	mov	x8,xzr
	movi	v1.2d,#0000000000000000
	mov	w21,#1
	mov	w9,#5
	cbnz	w21,78b
	b	79b
183:
	cbz	x23,185f
	mov	x0,x21
	bl	fhex_dealloc
185:
	ldr	x20,[sp,#8488]
	ldr	x19,[sp,#8480]
	ldr	x21,[sp,#8496]
	cbz	x20,190f
	add	x22,x19,#16
	b	188f
187:
	subs	x20,x20,#1
	add	x22,x22,#24
	b.eq	190f
188:
	ldr	x8,[x22]
	cbz	x8,187b
	ldur	x0,[x22,#-16]
	bl	fhex_dealloc
	b	187b
190:
	cbnz	x21,109b
	b	110b
191:
	add	x0,sp,#2,lsl #12
	hex_page	x1,.Lstatic.7
	hex_address	x1,x1,.Lstatic.7
	add	x0,x0,#288
	mov	w2,#1
	mov	w21,#1
	bl	core_fmt_formatter_Formatter_write_indented
	and	w8,w0,#0xff
	tbz	w8,#0,68b
	b	135b
192:
	ldrb	w8,[x28,#16]
	cmp	w8,#1
	b.ne	94b
	mov	w22,#3
194:
	mov	w8,#1
	b	177b
195:
	cbz	x23,197f
	mov	x0,x22
	bl	fhex_dealloc
197:
	cbz	x26,203f
	add	x8,x26,x24
	cmp	x24,x8
	b.hs	203f
	mov	w8,#24
	madd	x8,x24,x8,x20
	add	x19,x8,#16
	b	201f
200:
	subs	x26,x26,#1
	add	x19,x19,#24
	b.eq	203f
201:
	ldr	x8,[x19]
	cbz	x8,200b
	ldur	x0,[x19,#-16]
	bl	fhex_dealloc
	b	200b
203:
	ldr	x8,[sp,#8]
	cbz	x8,205f
	mov	x0,x20
	bl	fhex_dealloc
205:
	ldr	x20,[sp,#24872]
	ldr	x19,[sp,#24864]
	ldr	x21,[sp,#24880]
	cbz	x20,210f
	add	x22,x19,#16
	b	208f
207:
	subs	x20,x20,#1
	add	x22,x22,#24
	b.eq	210f
208:
	ldr	x8,[x22]
	cbz	x8,207b
	ldur	x0,[x22,#-16]
	bl	fhex_dealloc
	b	207b
210:
	cbnz	x21,219f
	b	112b
211:
	mov	w8,wzr
	mov	w22,wzr
	b	177b
212:
	ldr	x8,[sp,#24880]
	cbz	x8,214f
	ldr	x0,[sp,#24864]
	bl	fhex_dealloc
214:
	add	x20,x19,#16
	b	216f
215:
	subs	x25,x25,#1
	add	x20,x20,#24
	b.eq	218f
216:
	ldr	x8,[x20]
	cbz	x8,215b
	ldur	x0,[x20,#-16]
	bl	fhex_dealloc
	b	215b
218:
	ldr	x8,[sp,#8]
	cbz	x8,112b
219:
	mov	x0,x19
	bl	fhex_dealloc
	b	112b
	hex_end	fhex_main_start
	hex_function	std_alloc_vec_Vec_grow_amortized,.text.unlikely
	ldr	x8,[x0,#8]
	cmn	x8,x1
	b.lo	2f
	mov	w0,wzr
	ret
2:
	stp	x29,x30,[sp,#-32]!
	ldr	x10,[x0,#16]
	add	x9,x8,x1
	mov	w11,#8
	cmp	x9,#8
	stp	x20,x19,[sp,#16]
	mov	x29,sp
	lsl	x12,x10,#1
	csel	x11,x9,x11,hi
	lsr	x13,x10,#62
	cmp	x11,x12
	csel	x9,x11,x12,hi
	cmp	x13,#0
	csel	x19,x9,x11,eq
	tbnz	x19,#63,7f
	cbz	x10,6f
	mov	x20,x0
	ldr	x0,[x0]
	mov	x1,x8
	mov	x2,x19
	mov	w3,#1
	bl	fhex_realloc
	tbz	w0,#0,7f
5:
	mov	w0,#1
	str	x1,[x20]
	str	x19,[x20,#16]
	ldp	x20,x19,[sp,#16]
	ldp	x29,x30,[sp],#32
	ret
6:
	mov	x20,x0
	mov	x0,x9
	mov	w1,#1
	bl	fhex_alloc
	tbnz	w0,#0,5b
7:
	mov	w0,wzr
	ldp	x20,x19,[sp,#16]
	ldp	x29,x30,[sp],#32
	ret
	hex_end	std_alloc_vec_Vec_grow_amortized
	hex_function	core_str_utf8_from_utf8,.text
	sub	sp,sp,#64
	stp	x22,x21,[sp,#32]
	mov	x21,x1
	stp	x20,x19,[sp,#48]
	mov	x20,x2
	mov	x19,x0
	stp	x29,x30,[sp,#16]
	add	x29,sp,#16
	cbz	x2,51f
	mov	x9,xzr
	sub	x22,x20,#8
	b	6f
2:
	and	w11,w11,#0xff
	tbnz	w11,#7,23f
3:
	mov	w12,#1
4:
	add	x8,x12,x9
5:
	cmp	x8,x20
	mov	x9,x8
	b.hs	51f
6:
	add	x8,x21,x9
	sub	x10,x20,x9
	ldrsb	w11,[x8]
	cmp	x10,#2
	b.lo	2b
	tbnz	w11,#31,2b
	ldrsb	w11,[x8,#1]
	tbnz	w11,#31,3b
	cmp	x10,#7
	stp	x21,x20,[sp]
	b.hi	28f
	ldrsb	w8,[x21,x9]
	tbnz	w8,#31,43f
	add	x8,x9,#1
	cmp	x8,x20
	b.eq	51f
	ldrsb	w10,[x21,x8]
	tbnz	w10,#31,5b
	add	x8,x9,#2
	cmp	x8,x20
	b.eq	51f
	ldrsb	w10,[x21,x8]
	tbnz	w10,#31,5b
	add	x8,x9,#3
	cmp	x8,x20
	b.eq	51f
	ldrsb	w10,[x21,x8]
	tbnz	w10,#31,5b
	add	x8,x9,#4
	cmp	x8,x20
	b.eq	51f
	ldrsb	w10,[x21,x8]
	tbnz	w10,#31,5b
	add	x8,x9,#5
	cmp	x8,x20
	b.eq	51f
	ldrsb	w10,[x21,x8]
	tbnz	w10,#31,5b
	add	x8,x9,#6
	cmp	x8,x20
	b.eq	51f
	ldrsb	w9,[x21,x8]
	tbnz	w9,#31,5b
	b	51f
23:
	cmp	w11,#194
	b.lo	59f
	cmp	w11,#223
	b.hi	36f
	cmp	x10,#2
	b.lo	58f
	ldrsb	w12,[x8,#1]
	cmn	w12,#65
	b.gt	55f
	mov	w12,#2
	b	4b
28:
	ldr	x8,[x8]
	mov	w10,#8
	ands	x8,x8,#0x8080808080808080
	rbit	x8,x8
	clz	x8,x8
	lsr	x8,x8,#3
	csel	x8,x10,x8,eq
	add	x8,x8,x9
	add	x9,x9,#8
	cmp	x8,x9
	b.lo	5b
	sub	x9,x20,x8
	cmp	x9,#32
	b.lo	32f
30:
	add	x9,x21,x8
	ldp	q1,q0,[x9]
	orr	v0.16b,v1.16b,v0.16b
	ext	v1.16b,v0.16b,v0.16b,#8
	orr	v0.8b,v0.8b,v1.8b
	fmov	x9,d0
	tst	x9,#0x8080808080808080
	b.ne	32f
	mov	x0,sp
	add	x1,x8,#32
	mov	x2,x20
	bl	core_slice_words_skip_far
	sub	x9,x20,x0
	mov	x8,x0
	cmp	x9,#31
	b.hi	30b
32:
	sub	x9,x20,x8
33:
	cmp	x9,#9
	b.lo	50f
	ldr	x10,[x21,x8]
	mov	w11,#8
	sub	x9,x9,#8
	ands	x10,x10,#0x8080808080808080
	rbit	x10,x10
	clz	x10,x10
	lsr	x10,x10,#3
	csel	x10,x11,x10,eq
	add	x11,x10,x8
	add	x8,x8,#8
	cmp	x11,x8
	b.hs	33b
	add	x8,x10,x8
	sub	x8,x8,#8
	b	5b
36:
	cmp	w11,#239
	b.hi	44f
	cmp	x10,#3
	b.lo	53f
	ldrsb	w12,[x8,#1]
	cmn	w12,#65
	b.gt	55f
	ldrsb	w13,[x8,#2]
	cmn	w13,#65
	b.gt	55f
	and	w13,w12,#0xff
	mov	w14,#-14464
	add	w13,w13,w11,lsl #6
	add	w13,w13,w14
	cmp	w13,#32
	b.lo	55f
	cmp	w13,#896
	mov	w12,#3
	csel	x14,xzr,x12,lo
	cmp	w13,#864
	b.lo	4b
	mov	x12,x14
	b	49f
43:
	mov	x8,x9
	b	5b
44:
	cmp	x10,#4
	b.lo	52f
	ldrsb	w12,[x8,#1]
	cmn	w12,#65
	b.gt	52f
	ldrsb	w13,[x8,#2]
	cmn	w13,#65
	b.gt	52f
	ldrsb	w13,[x8,#3]
	cmn	w13,#65
	b.gt	52f
	and	w12,w12,#0xff
	mov	w13,#-15488
	add	w12,w12,w11,lsl #6
	add	w13,w12,w13
	mov	w12,#4
	cmp	w13,#272
	csel	x12,x12,xzr,lo
	cmp	w13,#16
	b.lo	52f
49:
	cbnz	x12,4b
	b	52f
50:
	ldr	x8,[x21,x22]
	mov	w9,#8
	ands	x8,x8,#0x8080808080808080
	rbit	x8,x8
	clz	x8,x8
	lsr	x8,x8,#3
	csel	x8,x9,x8,eq
	add	x8,x8,x22
	b	5b
51:
	stp	xzr,x21,[x19]
	str	x20,[x19,#16]
	ldp	x20,x19,[sp,#48]
	ldp	x22,x21,[sp,#32]
	ldp	x29,x30,[sp,#16]
	add	sp,sp,#64
	ret
52:
	cmp	w11,#244
	b.hi	59f
53:
	cmp	x10,#2
	b.lo	58f
	ldrb	w12,[x8,#1]
55:
	cmp	w11,#240
	mov	w13,#-128
	mov	w14,#-112
	mov	w15,#-96
	csel	w13,w14,w13,eq
	cmp	w11,#224
	mov	w14,#-65
	csel	w13,w15,w13,eq
	mov	w15,#-113
	cmp	w11,#244
	and	w16,w13,#0xf0
	csel	w13,w15,w14,eq
	cmp	w11,#237
	mov	w11,#-97
	csel	w13,w11,w13,eq
	cmp	w16,w12,uxtb
	mov	w11,#257
	b.hi	60f
	and	w12,w12,#0xff
	cmp	w12,w13,uxtb
	b.hi	60f
	cmp	x10,#2
	b.ne	61f
58:
	mov	x11,xzr
	b	60f
59:
	mov	w11,#257
60:
	mov	w8,#1
	str	x11,[x19,#16]
	stp	x8,x9,[x19]
	ldp	x20,x19,[sp,#48]
	ldp	x22,x21,[sp,#32]
	ldp	x29,x30,[sp,#16]
	add	sp,sp,#64
	ret
61:
	ldrsb	w8,[x8,#2]
	cmn	w8,#65
	b.gt	63f
	cmp	x10,#3
	mov	w8,#769
	csel	x11,x8,xzr,hi
	b	60b
63:
	mov	w11,#513
	b	60b
	hex_end	core_str_utf8_from_utf8
	hex_function	core_slice_words_skip_far,.text
	sub	x8,x2,x1
	cmp	x8,#64
	b.lo	4f
	ldr	x9,[x0]
2:
	add	x10,x9,x1
	ldp	q0,q1,[x10,#32]
	ldp	q2,q3,[x10]
	orr	v1.16b,v3.16b,v1.16b
	orr	v0.16b,v2.16b,v0.16b
	orr	v0.16b,v0.16b,v1.16b
	ext	v1.16b,v0.16b,v0.16b,#8
	orr	v0.8b,v0.8b,v1.8b
	fmov	x10,d0
	tst	x10,#0x8080808080808080
	b.ne	4f
	sub	x8,x8,#64
	add	x1,x1,#64
	cmp	x8,#63
	b.hi	2b
4:
	mov	x0,x1
	ret
	hex_end	core_slice_words_skip_far
	hex_function	std_alloc_vec_Vec_grow_amortized_,.text.unlikely
	ldr	x8,[x0,#8]
	cmn	x8,x1
	b.lo	2f
	mov	w0,wzr
	ret
2:
	stp	x29,x30,[sp,#-32]!
	ldr	x9,[x0,#16]
	add	x10,x8,x1
	mov	w11,#4
	cmp	x10,#4
	stp	x20,x19,[sp,#16]
	mov	x29,sp
	lsl	x12,x9,#1
	csel	x11,x10,x11,hi
	lsr	x13,x9,#62
	cmp	x11,x12
	csel	x10,x11,x12,hi
	cmp	x13,#0
	csel	x19,x10,x11,eq
	mov	x11,#6148914691236517205
	movk	x11,#1365,lsl #48
	cmp	x19,x11
	b.hi	7f
	cbz	x9,6f
	add	x8,x8,x8,lsl #1
	add	x9,x19,x19,lsl #1
	mov	x20,x0
	ldr	x0,[x0]
	mov	w3,#8
	lsl	x1,x8,#3
	lsl	x2,x9,#3
	bl	fhex_realloc
	tbz	w0,#0,7f
5:
	mov	w0,#1
	str	x1,[x20]
	str	x19,[x20,#16]
	ldp	x20,x19,[sp,#16]
	ldp	x29,x30,[sp],#32
	ret
6:
	add	x8,x10,x10,lsl #1
	mov	x20,x0
	mov	w1,#8
	lsl	x0,x8,#3
	bl	fhex_alloc
	tbnz	w0,#0,5b
7:
	mov	w0,wzr
	ldp	x20,x19,[sp,#16]
	ldp	x29,x30,[sp],#32
	ret
	hex_end	std_alloc_vec_Vec_grow_amortized_
	hex_function	std_alloc_vec_Vec_grow_amortized__,.text.unlikely
	ldr	x8,[x0,#8]
	cmn	x8,x1
	b.lo	2f
	mov	w0,wzr
	ret
2:
	stp	x29,x30,[sp,#-32]!
	ldr	x9,[x0,#16]
	add	x10,x8,x1
	mov	w11,#4
	cmp	x10,#4
	stp	x20,x19,[sp,#16]
	mov	x29,sp
	lsl	x12,x9,#1
	csel	x11,x10,x11,hi
	lsr	x13,x9,#62
	cmp	x11,x12
	csel	x10,x11,x12,hi
	cmp	x13,#0
	csel	x19,x10,x11,eq
	lsr	x11,x19,#59
	cbnz	x11,7f
	cbz	x9,6f
	mov	x20,x0
	ldr	x0,[x0]
	lsl	x1,x8,#4
	lsl	x2,x19,#4
	mov	w3,#8
	bl	fhex_realloc
	tbz	w0,#0,7f
5:
	mov	w0,#1
	str	x1,[x20]
	str	x19,[x20,#16]
	ldp	x20,x19,[sp,#16]
	ldp	x29,x30,[sp],#32
	ret
6:
	mov	x20,x0
	lsl	x0,x10,#4
	mov	w1,#8
	bl	fhex_alloc
	tbnz	w0,#0,5b
7:
	mov	w0,wzr
	ldp	x20,x19,[sp,#16]
	ldp	x29,x30,[sp],#32
	ret
	hex_end	std_alloc_vec_Vec_grow_amortized__
	hex_merged	8
	.p2align	3,0x0
.LCPI6_0:
	.byte	105,110,112,117,116,32,116,111
.LCPI6_1:
	.byte	111,32,108,111,0,0,0,0
.LCPI6_2:
	.byte	111,117,116,32,111,102,32,109
.LCPI6_3:
	.byte	101,109,111,114,0,0,0,0
.LCPI6_4:
	.byte	119,114,105,116,101,32,102,97
.LCPI6_5:
	.byte	105,108,101,100,0,0,0,0
.LCPI6_6:
	.byte	114,101,97,100,32,102,97,105
.LCPI6_9:
	.byte	45,108,105,110,101,115,124,100
.LCPI6_10:
	.byte	101,99,111,100,0,0,0,0
.LCPI6_15:
	.byte	124,118,101,99,116,111,114,115
.LCPI6_17:
	.byte	118,101,114,102,0,0,0,0
.LCPI6_19:
	.byte	32,109,117,115,116,32,98,101
.LCPI6_20:
	.byte	32,101,118,101,0,0,0,0
.LCPI6_21:
	.byte	101,120,112,101,99,116,101,100
.LCPI6_23:
	.byte	103,111,116,32,0,0,0,0
.LCPI6_25:
	.byte	97,116,32,108,101,97,115,116
.LCPI6_26:
	.byte	32,98,121,116,0,0,0,0
.LCPI6_29:
	.byte	32,97,116,32,105,110,100,101
	hex_merged	16
	.p2align	4,0x0
.LCPI6_7:
	.byte	117,115,97,103,101,58,32,102,104,101,120,45,115,116,114,101
.LCPI6_8:
	.byte	97,109,32,101,110,99,111,100,101,124,101,110,99,111,100,101
.LCPI6_11:
	.byte	117,115,97,103,101,58,32,102,104,101,120,32,101,110,99,111
.LCPI6_12:
	.byte	100,101,124,101,110,99,111,100,101,45,117,112,112,101,114,124
.LCPI6_13:
	.byte	100,101,99,111,100,101,124,100,101,99,111,100,101,45,108,111
.LCPI6_14:
	.byte	119,101,114,124,100,101,99,111,100,101,45,117,112,112,101,114
.LCPI6_16:
	.byte	101,110,99,111,100,101,100,32,108,101,110,103,116,104,32,111
.LCPI6_18:
	.byte	104,101,120,32,105,110,112,117,116,32,108,101,110,103,116,104
.LCPI6_22:
	.byte	32,100,101,99,111,100,101,100,32,98,121,116,101,115,44,32
.LCPI6_24:
	.byte	111,117,116,112,117,116,32,114,101,113,117,105,114,101,115,32
.LCPI6_27:
	.byte	105,110,118,97,108,105,100,32,104,101,120,32,98,121,116,101
.LCPI6_28:
	.quad	2
	.quad	-1
	hex_function	core_fmt_formatter_Formatter_write_piece,.text
	sub	sp,sp,#192
	stp	x22,x21,[sp,#160]
	mov	w8,#32
	mov	x21,x0
	str	w8,[x21,#8]!
	mov	x22,x21
	mov	x8,#-1
	str	wzr,[x21,#12]
	str	xzr,[x22,#4]!
	str	x8,[x21,#16]
	ldrb	w8,[x1]
	stp	x29,x30,[sp,#96]
	add	x29,sp,#96
	str	x27,[sp,#112]
	cmp	w8,#2
	stp	x26,x25,[sp,#128]
	stp	x24,x23,[sp,#144]
	stp	x20,x19,[sp,#176]
	b.le	7f
	cmp	w8,#5
	b.gt	13f
	sub	w8,w8,#3
	cmp	w8,#2
	b.hs	18f
	ldr	x8,[x0,#32]
	cbnz	x8,73f
	ldr	x8,[x0]
	ldr	x9,[x8,#128]
	sub	x10,x9,#118
	cmp	x10,#11
	b.lo	35f
	add	x10,x8,x9
	hex_page	x11,.Lstatic.13
	hex_address	x11,x11,.Lstatic.13
	sub	x12,x10,x11
	cmp	x12,#10
	b.hi	42f
	hex_page	x11,.LCPI6_6
	mov	w12,#25964
	hex_value	d0,x11,.LCPI6_6
	mov	w11,#100
	strh	w12,[x10,#8]
	strb	w11,[x10,#10]
	str	d0,[x10]
	b	43f
7:
	cbz	w8,22f
	cmp	w8,#1
	b.ne	29f
	ldr	x8,[x0,#32]
	cbnz	x8,75f
	ldr	x8,[x0]
	ldr	x9,[x8,#128]
	sub	x10,x9,#57
	cmp	x10,#72
	b.lo	35f
	add	x10,x8,x9
	hex_page	x11,.Lstatic.8
	hex_address	x11,x11,.Lstatic.8
	sub	x12,x10,x11
	cmp	x12,#71
	b.hi	48f
	hex_page	x11,.LCPI6_11
	hex_page	x12,.LCPI6_12
	hex_value	q0,x11,.LCPI6_11
	hex_page	x11,.LCPI6_13
	hex_value	q1,x12,.LCPI6_12
	hex_page	x12,.LCPI6_14
	hex_value	q2,x11,.LCPI6_13
	hex_page	x11,.LCPI6_15
	stp	q0,q1,[x10]
	hex_value	q0,x12,.LCPI6_14
	hex_value	d1,x11,.LCPI6_15
	stp	q2,q0,[x10,#32]
	str	d1,[x10,#64]
	b	49f
13:
	cmp	w8,#6
	b.ne	33f
	ldr	x8,[x0,#32]
	cbnz	x8,76f
	ldr	x8,[x0]
	ldr	x9,[x8,#128]
	sub	x10,x9,#116
	cmp	x10,#13
	b.lo	35f
	add	x10,x8,x9
	hex_page	x11,.Lstatic.11
	hex_address	x11,x11,.Lstatic.11
	sub	x12,x10,x11
	cmp	x12,#12
	b.hi	50f
	hex_page	x11,.LCPI6_2
	hex_page	x12,.LCPI6_3
	hex_value	d0,x11,.LCPI6_2
	hex_value	d1,x12,.LCPI6_3
	mov	w11,#121
	strb	w11,[x10,#12]
	str	d0,[x10]
	str	s1,[x10,#8]
	b	51f
18:
	ldr	x8,[x0,#32]
	cbnz	x8,74f
	ldr	x8,[x0]
	ldr	x9,[x8,#128]
	sub	x10,x9,#117
	cmp	x10,#12
	b.lo	35f
	add	x10,x8,x9
	hex_page	x11,.Lstatic.10
	hex_address	x11,x11,.Lstatic.10
	sub	x12,x10,x11
	cmp	x12,#11
	b.hi	46f
	hex_page	x11,.LCPI6_4
	hex_page	x12,.LCPI6_5
	hex_value	d0,x11,.LCPI6_4
	hex_value	d1,x12,.LCPI6_5
	str	d0,[x10]
	str	s1,[x10,#8]
	b	47f
22:
	mov	w8,#32
	ldr	q0,[x21]
	ldr	x9,[x21,#16]
	str	w8,[x0,#8]
	mov	x8,#-1
	str	xzr,[x22]
	str	wzr,[x22,#8]
	str	x8,[x0,#24]
	ldrb	w8,[x1,#8]
	str	q0,[sp]
	str	x9,[sp,#16]
	cmp	w8,#2
	b.gt	36f
	cbz	w8,57f
	mov	x20,#62915
	cmp	w8,#1
	movk	x20,#23592,lsl #16
	movk	x20,#49807,lsl #32
	movk	x20,#10485,lsl #48
	b.ne	65f
	ldr	x23,[x1,#16]
	ldr	x8,[x0,#32]
	mov	x9,#-1
	str	wzr,[x22,#8]
	str	xzr,[x22]
	str	x9,[x0,#24]
	cbnz	x8,153f
	ldr	x8,[x0]
	ldr	x9,[x8,#128]
	sub	x10,x9,#104
	cmp	x10,#25
	b.lo	177f
	add	x10,x8,x9
	hex_page	x11,.Lstatic.16
	hex_address	x11,x11,.Lstatic.16
	sub	x12,x10,x11
	cmp	x12,#24
	b.hi	99f
	hex_page	x11,.LCPI6_24
	hex_page	x12,.LCPI6_25
	hex_value	q0,x11,.LCPI6_24
	hex_value	d1,x12,.LCPI6_25
	mov	w11,#32
	strb	w11,[x10,#24]
	str	q0,[x10]
	str	d1,[x10,#16]
	b	100f
29:
	ldr	x8,[x0,#32]
	cbnz	x8,77f
	ldr	x8,[x0]
	ldr	x9,[x8,#128]
	sub	x10,x9,#84
	cmp	x10,#45
	b.lo	35f
	add	x10,x8,x9
	hex_page	x11,.Lstatic.9
	hex_address	x11,x11,.Lstatic.9
	sub	x12,x10,x11
	cmp	x12,#44
	b.hi	52f
	hex_page	x11,.LCPI6_7
	hex_page	x12,.LCPI6_8
	hex_value	q0,x11,.LCPI6_7
	hex_value	q1,x12,.LCPI6_8
	hex_page	x11,.LCPI6_9
	hex_page	x12,.LCPI6_10
	hex_value	d2,x11,.LCPI6_9
	mov	w11,#101
	stp	q0,q1,[x10]
	hex_value	d0,x12,.LCPI6_10
	str	d2,[x10,#32]
	str	s0,[x10,#40]
	strb	w11,[x10,#44]
	b	53f
33:
	ldr	x8,[x0,#32]
	cbnz	x8,78f
	ldr	x8,[x0]
	ldr	x9,[x8,#128]
	sub	x10,x9,#115
	cmp	x10,#14
	b.hs	44f
35:
	mov	w0,#1
	b	179f
36:
	cmp	w8,#3
	b.eq	61f
	cmp	w8,#4
	b.ne	69f
	ldr	x8,[x0,#32]
	cbnz	x8,154f
	ldr	x8,[x0]
	ldr	x9,[x8,#128]
	sub	x10,x9,#106
	cmp	x10,#23
	b.lo	177f
	add	x10,x8,x9
	hex_page	x11,.Lstatic.21
	hex_address	x11,x11,.Lstatic.21
	sub	x12,x10,x11
	cmp	x12,#22
	b.hi	116f
	hex_page	x11,.LCPI6_16
	hex_page	x12,.LCPI6_17
	mov	w13,#28524
	hex_value	q0,x11,.LCPI6_16
	hex_value	d1,x12,.LCPI6_17
	mov	w11,#119
	strh	w13,[x10,#20]
	str	q0,[x10]
	str	s1,[x10,#16]
	strb	w11,[x10,#22]
	b	117f
42:
	mov	w12,#27753
	ldr	x11,[x11]
	movk	w12,#25701,lsl #16
	stur	w12,[x10,#7]
	str	x11,[x10]
43:
	mov	w0,wzr
	add	x9,x9,#11
	b	56f
44:
	add	x10,x8,x9
	hex_page	x11,.Lstatic.12
	hex_address	x11,x11,.Lstatic.12
	sub	x12,x10,x11
	cmp	x12,#13
	b.hi	54f
	hex_page	x11,.LCPI6_0
	hex_page	x12,.LCPI6_1
	hex_value	d0,x11,.LCPI6_0
	hex_value	d1,x12,.LCPI6_1
	mov	w11,#26478
	strh	w11,[x10,#12]
	str	d0,[x10]
	str	s1,[x10,#8]
	b	55f
46:
	mov	w12,#27753
	ldr	x11,[x11]
	movk	w12,#25701,lsl #16
	str	w12,[x10,#8]
	str	x11,[x10]
47:
	mov	w0,wzr
	add	x9,x9,#12
	b	56f
48:
	ldp	q0,q1,[x11,#32]
	ldr	x12,[x11,#64]
	str	x12,[x10,#64]
	str	q0,[x10,#32]
	ldr	q0,[x11,#16]
	str	q1,[x10,#48]
	ldr	q1,[x11]
	stp	q1,q0,[x10]
49:
	mov	w0,wzr
	add	x9,x9,#72
	b	56f
50:
	ldr	x12,[x11]
	ldur	x11,[x11,#5]
	str	x12,[x10]
	stur	x11,[x10,#5]
51:
	mov	w0,wzr
	add	x9,x9,#13
	b	56f
52:
	ldp	q0,q1,[x11]
	ldur	q2,[x11,#29]
	stp	q0,q1,[x10]
	stur	q2,[x10,#29]
53:
	mov	w0,wzr
	add	x9,x9,#45
	b	56f
54:
	ldr	x12,[x11]
	ldur	x11,[x11,#6]
	str	x12,[x10]
	stur	x11,[x10,#6]
55:
	mov	w0,wzr
	add	x9,x9,#14
56:
	str	x9,[x8,#128]
	b	179f
57:
	ldr	x23,[x1,#16]
	ldrb	w20,[x1,#24]
	mov	x9,#-1
	ldr	x8,[x0,#32]
	str	wzr,[x22,#8]
	str	xzr,[x22]
	str	x9,[x0,#24]
	cbnz	x8,151f
	ldr	x8,[x0]
	ldr	x9,[x8,#128]
	sub	x10,x9,#110
	cmp	x10,#19
	b.lo	177f
	add	x10,x8,x9
	hex_page	x11,.Lstatic.14
	hex_address	x11,x11,.Lstatic.14
	sub	x12,x10,x11
	cmp	x12,#18
	b.hi	80f
	hex_page	x11,.LCPI6_27
	mov	w12,#12320
	hex_value	q0,x11,.LCPI6_27
	mov	w11,#120
	strh	w12,[x10,#16]
	strb	w11,[x10,#18]
	b	81f
61:
	ldr	x8,[x0,#32]
	cbnz	x8,152f
	ldr	x8,[x0]
	ldr	x9,[x8,#128]
	sub	x10,x9,#100
	cmp	x10,#29
	b.lo	177f
	add	x10,x8,x9
	hex_page	x11,.Lstatic.20
	hex_address	x11,x11,.Lstatic.20
	sub	x12,x10,x11
	cmp	x12,#28
	b.hi	97f
	hex_page	x11,.LCPI6_18
	hex_page	x12,.LCPI6_19
	hex_value	q0,x11,.LCPI6_18
	hex_page	x11,.LCPI6_20
	hex_value	d1,x12,.LCPI6_19
	hex_value	d2,x11,.LCPI6_20
	mov	w11,#110
	str	q0,[x10]
	str	d1,[x10,#16]
	str	s2,[x10,#24]
	strb	w11,[x10,#28]
	b	98f
65:
	ldp	x24,x23,[x1,#16]
	mov	x9,#-1
	ldr	x8,[x0,#32]
	str	wzr,[x22,#8]
	str	xzr,[x22]
	str	x9,[x0,#24]
	cbnz	x8,155f
	ldr	x8,[x0]
	ldr	x9,[x8,#128]
	sub	x10,x9,#120
	cmp	x10,#9
	b.lo	177f
	add	x10,x8,x9
	hex_page	x11,.Lstatic.18
	hex_address	x11,x11,.Lstatic.18
	sub	x12,x10,x11
	cmp	x12,#8
	b.hi	118f
	hex_page	x11,.LCPI6_21
	hex_value	d0,x11,.LCPI6_21
	mov	w11,#32
	strb	w11,[x10,#8]
	str	d0,[x10]
	b	119f
69:
	ldr	x8,[x0,#32]
	cbnz	x8,156f
	ldr	x8,[x0]
	ldr	x9,[x8,#128]
	sub	x10,x9,#116
	cmp	x10,#13
	b.lo	177f
	add	x10,x8,x9
	hex_page	x11,.Lstatic.11
	hex_address	x11,x11,.Lstatic.11
	sub	x12,x10,x11
	cmp	x12,#12
	b.hi	135f
	hex_page	x11,.LCPI6_2
	hex_page	x12,.LCPI6_3
	hex_value	d0,x11,.LCPI6_2
	hex_value	d1,x12,.LCPI6_3
	mov	w11,#121
	strb	w11,[x10,#12]
	str	d0,[x10]
	str	s1,[x10,#8]
	b	136f
73:
	hex_page	x1,.Lstatic.13
	hex_address	x1,x1,.Lstatic.13
	mov	w2,#11
	b	79f
74:
	hex_page	x1,.Lstatic.10
	hex_address	x1,x1,.Lstatic.10
	mov	w2,#12
	b	79f
75:
	hex_page	x1,.Lstatic.8
	hex_address	x1,x1,.Lstatic.8
	mov	w2,#72
	b	79f
76:
	hex_page	x1,.Lstatic.11
	hex_address	x1,x1,.Lstatic.11
	mov	w2,#13
	b	79f
77:
	hex_page	x1,.Lstatic.9
	hex_address	x1,x1,.Lstatic.9
	mov	w2,#45
	b	79f
78:
	hex_page	x1,.Lstatic.12
	hex_address	x1,x1,.Lstatic.12
	mov	w2,#14
79:
	ldp	x20,x19,[sp,#176]
	ldr	x27,[sp,#112]
	ldp	x22,x21,[sp,#160]
	ldp	x24,x23,[sp,#144]
	ldp	x26,x25,[sp,#128]
	ldp	x29,x30,[sp,#96]
	add	sp,sp,#192
	b	core_fmt_formatter_Formatter_write_indented
80:
	mov	w12,#8293
	ldr	q0,[x11]
	movk	w12,#30768,lsl #16
	stur	w12,[x10,#15]
81:
	str	q0,[x10]
	add	x9,x9,#19
	str	x9,[x8,#128]
82:
	movi	v0.2s,#1,lsl #24
	movi	v1.2d,#0000000000000000
	hex_page	x8,.LCPI6_28
	hex_value	q2,x8,.LCPI6_28
	mov	w9,#32
	mov	w8,#63
	str	w9,[x0,#8]
	str	q2,[x0,#16]
	str	s0,[x0,#12]
	stp	q1,q1,[sp,#32]
	stp	q1,q1,[sp,#64]
83:
	cmn	x8,#1
	b.eq	86f
	and	x9,x20,#0xf
	orr	w10,w9,#0x30
	add	w11,w9,#87
	cmp	x9,#10
	lsr	x9,x20,#4
	csel	w10,w10,w11,lo
	add	x11,sp,#32
	cmp	x20,#15
	strb	w10,[x11,x8]
	sub	x8,x8,#1
	mov	x20,x9
	b.hi	83b
	add	x24,x8,#1
	b	87f
86:
	mov	x24,xzr
87:
	mov	w8,#64
	hex_page	x1,.Lstatic.24
	hex_address	x1,x1,.Lstatic.24
	sub	x20,x8,x24
	mov	w2,#2
	mov	x19,x0
	mov	x3,x20
	bl	core_fmt_formatter_Formatter_write_before_number
	tst	w0,#0xff
	b.ne	177f
	ldr	x9,[x19,#32]
	mov	x0,x19
	add	x8,sp,#32
	cbnz	x9,175f
	ldr	x25,[x0]
	mov	w9,#128
	ldr	x26,[x25,#128]
	sub	x9,x9,x26
	cmp	x9,x20
	b.lo	177f
	add	x0,x25,x26
	mov	x27,x1
	add	x1,x8,x24
	mov	x2,x20
	bl	memcpy
	add	x8,x26,x20
	mov	x2,x27
	str	x8,[x25,#128]
91:
	mov	x20,x19
	cbz	x2,93f
	ldr	w1,[x19,#8]
	mov	x0,x19
	bl	core_fmt_formatter_Formatter_write_char_n_times
	and	w8,w0,#0xff
	tbnz	w8,#0,177f
93:
	mov	w8,#32
	ldr	x9,[x20,#32]
	str	xzr,[x22]
	str	w8,[x20,#8]
	mov	x8,#-1
	str	wzr,[x22,#8]
	str	x8,[x20,#24]
	cbnz	x9,176f
	ldr	x8,[x20]
	ldr	x9,[x8,#128]
	sub	x10,x9,#119
	cmp	x10,#10
	b.lo	177f
	add	x10,x8,x9
	hex_page	x11,.Lstatic.15
	hex_address	x11,x11,.Lstatic.15
	sub	x12,x10,x11
	cmp	x12,#9
	b.hi	160f
	hex_page	x11,.LCPI6_29
	hex_value	d0,x11,.LCPI6_29
	mov	w11,#8312
	strh	w11,[x10,#8]
	str	d0,[x10]
	b	161f
97:
	ldr	q0,[x11]
	ldur	q1,[x11,#13]
	str	q0,[x10]
	stur	q1,[x10,#13]
98:
	add	x9,x9,#29
	mov	w0,wzr
	str	x9,[x8,#128]
	b	178f
99:
	ldr	q0,[x11]
	ldur	q1,[x11,#9]
	str	q0,[x10]
	stur	q1,[x10,#9]
100:
	add	x9,x9,#25
	str	x9,[x8,#128]
101:
	mov	w8,#32
	cmp	x23,#100
	str	xzr,[x22]
	str	w8,[x0,#8]
	mov	x8,#-1
	str	wzr,[x22,#8]
	str	x8,[x0,#24]
	stp	xzr,xzr,[sp,#32]
	str	xzr,[sp,#48]
	b.lo	105f
	mov	x8,xzr
103:
	lsr	x10,x23,#2
	mov	x9,x23
	mov	w11,#205
	umulh	x10,x10,x20
	lsr	x23,x10,#2
	mov	w10,#100
	msub	w10,w23,w10,w9
	lsr	x9,x9,#4
	cmp	x9,#624
	and	w12,w10,#0xff
	mul	w11,w12,w11
	mov	w12,#10
	lsr	w11,w11,#11
	msub	w10,w11,w12,w10
	add	x12,sp,#32
	orr	w9,w11,#0x30
	add	x12,x12,x8
	sub	x8,x8,#2
	strb	w9,[x12,#22]
	orr	w10,w10,#0x30
	strb	w10,[x12,#23]
	b.hi	103b
	add	x8,x8,#24
	b	106f
105:
	mov	w8,#24
106:
	cmp	x23,#10
	b.lo	108f
	and	w9,w23,#0xff
	mov	w10,#205
	add	x11,sp,#32
	mul	w9,w9,w10
	mov	w10,#10
	add	x11,x11,x8
	sub	x8,x8,#2
	lsr	w9,w9,#11
	msub	w10,w9,w10,w23
	orr	w9,w9,#0x30
	sturb	w9,[x11,#-2]
	orr	w10,w10,#0x30
	sturb	w10,[x11,#-1]
	b	109f
108:
	sub	x8,x8,#1
	add	x9,sp,#32
	orr	w10,w23,#0x30
	strb	w10,[x9,x8]
109:
	add	x9,sp,#32
	ldr	x10,[x0,#32]
	mov	w11,#24
	add	x1,x9,x8
	mov	w9,#45
	sub	x19,x11,x8
	sturb	w9,[x1,#-1]
	cbnz	x10,158f
	ldr	x23,[x0]
	mov	w8,#128
	ldr	x24,[x23,#128]
	sub	x8,x8,x24
	cmp	x8,x19
	b.lo	177f
	mov	x20,x0
	add	x0,x23,x24
	mov	x2,x19
	bl	memcpy
	add	x8,x24,x19
	str	x8,[x23,#128]
112:
	mov	w8,#32
	ldr	x9,[x20,#32]
	mov	x0,x20
	str	w8,[x20,#8]
	mov	x8,#-1
	str	xzr,[x22]
	str	wzr,[x22,#8]
	str	x8,[x20,#24]
	cbnz	x9,173f
	ldr	x8,[x0]
	ldr	x9,[x8,#128]
	sub	x10,x9,#123
	cmp	x10,#6
	b.lo	177f
	add	x10,x8,x9
	hex_page	x11,.Lstatic.17
	hex_address	x11,x11,.Lstatic.17
	sub	x11,x10,x11
	cmp	x11,#5
	b.hi	137f
	hex_page	x11,.LCPI6_26
	hex_value	d0,x11,.LCPI6_26
	mov	w11,#29541
	strh	w11,[x10,#4]
	str	s0,[x10]
	b	138f
116:
	ldr	q0,[x11]
	ldur	x11,[x11,#15]
	str	q0,[x10]
	stur	x11,[x10,#15]
117:
	add	x9,x9,#23
	mov	w0,wzr
	str	x9,[x8,#128]
	b	178f
118:
	ldr	x11,[x11]
	mov	w12,#32
	strb	w12,[x10,#8]
	str	x11,[x10]
119:
	add	x9,x9,#9
	str	x9,[x8,#128]
120:
	mov	w8,#32
	cmp	x24,#100
	str	xzr,[x22]
	str	w8,[x0,#8]
	mov	x8,#-1
	str	wzr,[x22,#8]
	str	x8,[x0,#24]
	stp	xzr,xzr,[sp,#32]
	str	xzr,[sp,#48]
	b.lo	124f
	mov	x8,xzr
122:
	lsr	x10,x24,#2
	mov	x9,x24
	mov	w11,#205
	umulh	x10,x10,x20
	lsr	x24,x10,#2
	mov	w10,#100
	msub	w10,w24,w10,w9
	lsr	x9,x9,#4
	cmp	x9,#624
	and	w12,w10,#0xff
	mul	w11,w12,w11
	mov	w12,#10
	lsr	w11,w11,#11
	msub	w10,w11,w12,w10
	add	x12,sp,#32
	orr	w9,w11,#0x30
	add	x12,x12,x8
	sub	x8,x8,#2
	strb	w9,[x12,#22]
	orr	w10,w10,#0x30
	strb	w10,[x12,#23]
	b.hi	122b
	add	x8,x8,#24
	b	125f
124:
	mov	w8,#24
125:
	cmp	x24,#10
	b.lo	127f
	and	w9,w24,#0xff
	mov	w10,#205
	add	x11,sp,#32
	mul	w9,w9,w10
	mov	w10,#10
	add	x11,x11,x8
	sub	x8,x8,#2
	lsr	w9,w9,#11
	msub	w10,w9,w10,w24
	orr	w9,w9,#0x30
	sturb	w9,[x11,#-2]
	orr	w10,w10,#0x30
	sturb	w10,[x11,#-1]
	b	128f
127:
	sub	x8,x8,#1
	add	x9,sp,#32
	orr	w10,w24,#0x30
	strb	w10,[x9,x8]
128:
	add	x9,sp,#32
	ldr	x10,[x0,#32]
	mov	w11,#24
	add	x1,x9,x8
	mov	w9,#45
	sub	x19,x11,x8
	sturb	w9,[x1,#-1]
	cbnz	x10,159f
	ldr	x25,[x0]
	mov	w8,#128
	ldr	x26,[x25,#128]
	sub	x8,x8,x26
	cmp	x8,x19
	b.lo	177f
	mov	x24,x0
	add	x0,x25,x26
	mov	x2,x19
	bl	memcpy
	add	x8,x26,x19
	str	x8,[x25,#128]
131:
	mov	w8,#32
	ldr	x9,[x24,#32]
	mov	x0,x24
	str	w8,[x24,#8]
	mov	x8,#-1
	str	xzr,[x22]
	str	wzr,[x22,#8]
	str	x8,[x24,#24]
	cbnz	x9,174f
	ldr	x8,[x0]
	ldr	x9,[x8,#128]
	sub	x10,x9,#109
	cmp	x10,#20
	b.lo	177f
	add	x10,x8,x9
	hex_page	x11,.Lstatic.19
	hex_address	x11,x11,.Lstatic.19
	sub	x12,x10,x11
	cmp	x12,#19
	b.hi	139f
	hex_page	x11,.LCPI6_22
	hex_page	x12,.LCPI6_23
	hex_value	q0,x11,.LCPI6_22
	hex_value	d1,x12,.LCPI6_23
	str	q0,[x10]
	str	s1,[x10,#16]
	b	140f
135:
	ldr	x12,[x11]
	ldur	x11,[x11,#5]
	str	x12,[x10]
	stur	x11,[x10,#5]
136:
	add	x9,x9,#13
	mov	w0,wzr
	str	x9,[x8,#128]
	b	178f
137:
	mov	w12,#25120
	mov	w11,#29541
	movk	w12,#29817,lsl #16
	strh	w11,[x10,#4]
	str	w12,[x10]
138:
	add	x9,x9,#6
	mov	w0,wzr
	str	x9,[x8,#128]
	b	178f
139:
	mov	w12,#28519
	ldr	q0,[x11]
	movk	w12,#8308,lsl #16
	str	w12,[x10,#16]
	str	q0,[x10]
140:
	add	x9,x9,#20
	str	x9,[x8,#128]
141:
	mov	w8,#32
	cmp	x23,#100
	str	xzr,[x22]
	str	w8,[x0,#8]
	mov	x8,#-1
	str	wzr,[x22,#8]
	str	x8,[x0,#24]
	stp	xzr,xzr,[sp,#32]
	str	xzr,[sp,#48]
	b.lo	145f
	mov	x8,xzr
143:
	lsr	x10,x23,#2
	mov	x9,x23
	mov	w11,#205
	umulh	x10,x10,x20
	lsr	x23,x10,#2
	mov	w10,#100
	msub	w10,w23,w10,w9
	lsr	x9,x9,#4
	cmp	x9,#624
	and	w12,w10,#0xff
	mul	w11,w12,w11
	mov	w12,#10
	lsr	w11,w11,#11
	msub	w10,w11,w12,w10
	add	x12,sp,#32
	orr	w9,w11,#0x30
	add	x12,x12,x8
	sub	x8,x8,#2
	strb	w9,[x12,#22]
	orr	w10,w10,#0x30
	strb	w10,[x12,#23]
	b.hi	143b
	add	x8,x8,#24
	b	146f
145:
	mov	w8,#24
146:
	cmp	x23,#10
	b.lo	148f
	and	w9,w23,#0xff
	mov	w10,#205
	add	x11,sp,#32
	mul	w9,w9,w10
	mov	w10,#10
	add	x11,x11,x8
	sub	x8,x8,#2
	lsr	w9,w9,#11
	msub	w10,w9,w10,w23
	orr	w9,w9,#0x30
	sturb	w9,[x11,#-2]
	orr	w10,w10,#0x30
	sturb	w10,[x11,#-1]
	b	149f
148:
	sub	x8,x8,#1
	add	x9,sp,#32
	orr	w10,w23,#0x30
	strb	w10,[x9,x8]
149:
	add	x9,sp,#32
	ldr	x10,[x0,#32]
	mov	w11,#24
	add	x1,x9,x8
	mov	w9,#45
	sub	x19,x11,x8
	sturb	w9,[x1,#-1]
	cbnz	x10,181f
	ldr	x20,[x0]
	mov	w8,#128
	ldr	x22,[x20,#128]
	sub	x8,x8,x22
	cmp	x8,x19
	b.lo	177f
	b	172f
151:
	hex_page	x1,.Lstatic.14
	hex_address	x1,x1,.Lstatic.14
	mov	w2,#19
	mov	x19,x0
	bl	core_fmt_formatter_Formatter_write_indented
	mov	w8,w0
	mov	x0,x19
	and	w8,w8,#0xff
	tbnz	w8,#0,177f
	b	82b
152:
	hex_page	x1,.Lstatic.20
	hex_address	x1,x1,.Lstatic.20
	mov	w2,#29
	b	157f
153:
	hex_page	x1,.Lstatic.16
	hex_address	x1,x1,.Lstatic.16
	mov	w2,#25
	mov	x19,x0
	bl	core_fmt_formatter_Formatter_write_indented
	mov	w8,w0
	mov	x0,x19
	and	w8,w8,#0xff
	tbnz	w8,#0,177f
	b	101b
154:
	hex_page	x1,.Lstatic.21
	hex_address	x1,x1,.Lstatic.21
	mov	w2,#23
	b	157f
155:
	hex_page	x1,.Lstatic.18
	hex_address	x1,x1,.Lstatic.18
	mov	w2,#9
	mov	x19,x0
	bl	core_fmt_formatter_Formatter_write_indented
	mov	w8,w0
	mov	x0,x19
	and	w8,w8,#0xff
	tbnz	w8,#0,177f
	b	120b
156:
	hex_page	x1,.Lstatic.11
	hex_address	x1,x1,.Lstatic.11
	mov	w2,#13
157:
	bl	core_fmt_formatter_Formatter_write_indented
	and	w0,w0,#0xff
	b	178f
158:
	mov	x2,x19
	mov	x20,x0
	bl	core_fmt_formatter_Formatter_write_indented
	and	w8,w0,#0xff
	tbnz	w8,#0,177f
	b	112b
159:
	mov	x2,x19
	mov	x24,x0
	bl	core_fmt_formatter_Formatter_write_indented
	and	w8,w0,#0xff
	tbnz	w8,#0,177f
	b	131b
160:
	ldr	x11,[x11]
	mov	w12,#8312
	strh	w12,[x10,#8]
	str	x11,[x10]
161:
	add	x9,x9,#10
	str	x9,[x8,#128]
162:
	mov	w8,#32
	cmp	x23,#100
	str	xzr,[x22]
	str	w8,[x20,#8]
	mov	x8,#-1
	str	wzr,[x22,#8]
	str	x8,[x20,#24]
	stp	xzr,xzr,[sp,#32]
	str	xzr,[sp,#48]
	b.lo	166f
	mov	x8,xzr
164:
	mov	x11,#62915
	lsr	x10,x23,#2
	mov	x9,x23
	movk	x11,#23592,lsl #16
	movk	x11,#49807,lsl #32
	movk	x11,#10485,lsl #48
	umulh	x10,x10,x11
	mov	w11,#205
	lsr	x23,x10,#2
	mov	w10,#100
	msub	w10,w23,w10,w9
	lsr	x9,x9,#4
	cmp	x9,#624
	and	w12,w10,#0xff
	mul	w11,w12,w11
	mov	w12,#10
	lsr	w11,w11,#11
	msub	w10,w11,w12,w10
	add	x12,sp,#32
	orr	w9,w11,#0x30
	add	x12,x12,x8
	sub	x8,x8,#2
	strb	w9,[x12,#22]
	orr	w10,w10,#0x30
	strb	w10,[x12,#23]
	b.hi	164b
	add	x8,x8,#24
	b	167f
166:
	mov	w8,#24
167:
	cmp	x23,#10
	b.lo	169f
	and	w9,w23,#0xff
	mov	w10,#205
	add	x11,sp,#32
	mul	w9,w9,w10
	mov	w10,#10
	add	x11,x11,x8
	sub	x8,x8,#2
	lsr	w9,w9,#11
	msub	w10,w9,w10,w23
	orr	w9,w9,#0x30
	sturb	w9,[x11,#-2]
	orr	w10,w10,#0x30
	sturb	w10,[x11,#-1]
	b	170f
169:
	sub	x8,x8,#1
	add	x9,sp,#32
	orr	w10,w23,#0x30
	strb	w10,[x9,x8]
170:
	add	x9,sp,#32
	ldr	x10,[x20,#32]
	mov	w11,#24
	add	x1,x9,x8
	mov	w9,#45
	sub	x19,x11,x8
	sturb	w9,[x1,#-1]
	cbnz	x10,180f
	ldr	x20,[x20]
	mov	w8,#128
	ldr	x22,[x20,#128]
	sub	x8,x8,x22
	cmp	x8,x19
	b.lo	177f
172:
	add	x0,x20,x22
	mov	x2,x19
	bl	memcpy
	add	x8,x22,x19
	mov	w0,wzr
	str	x8,[x20,#128]
	b	178f
173:
	hex_page	x1,.Lstatic.17
	hex_address	x1,x1,.Lstatic.17
	mov	w2,#6
	b	157b
174:
	hex_page	x1,.Lstatic.19
	hex_address	x1,x1,.Lstatic.19
	mov	w2,#20
	mov	x19,x0
	bl	core_fmt_formatter_Formatter_write_indented
	mov	w8,w0
	mov	x0,x19
	and	w8,w8,#0xff
	tbnz	w8,#0,177f
	b	141b
175:
	mov	x25,x1
	add	x1,x8,x24
	mov	x2,x20
	bl	core_fmt_formatter_Formatter_write_indented
	mov	x2,x25
	and	w8,w0,#0xff
	tbnz	w8,#0,177f
	b	91b
176:
	hex_page	x1,.Lstatic.15
	hex_address	x1,x1,.Lstatic.15
	mov	x0,x19
	mov	w2,#10
	bl	core_fmt_formatter_Formatter_write_indented
	mov	x20,x19
	and	w8,w0,#0xff
	tbz	w8,#0,162b
177:
	mov	w0,#1
178:
	ldr	q0,[sp]
	ldr	x8,[sp,#16]
	str	q0,[x21]
	str	x8,[x21,#16]
179:
	ldp	x20,x19,[sp,#176]
	ldr	x27,[sp,#112]
	ldp	x22,x21,[sp,#160]
	ldp	x24,x23,[sp,#144]
	ldp	x26,x25,[sp,#128]
	ldp	x29,x30,[sp,#96]
	add	sp,sp,#192
	ret
180:
	mov	x0,x20
181:
	mov	x2,x19
	b	157b
	hex_end	core_fmt_formatter_Formatter_write_piece
	hex_function	core_fmt_formatter_Formatter_write_before_number,.text
	sub	sp,sp,#96
	ldrb	w8,[x0,#14]
	ldr	x9,[x0,#16]
	ldrb	w10,[x0,#13]
	stp	x24,x23,[sp,#48]
	tst	w8,#0x1
	stp	x22,x21,[sp,#64]
	and	x21,x10,#0x1
	csel	x23,x2,xzr,ne
	subs	x8,x9,x3
	stp	x20,x19,[sp,#80]
	csel	x9,xzr,x8,lo
	ldrb	w8,[x0,#12]
	mov	x22,x1
	subs	x9,x9,x21
	mov	x20,x0
	stp	x29,x30,[sp,#16]
	csel	x19,xzr,x9,lo
	str	x25,[sp,#32]
	add	x29,sp,#16
	cbz	x23,5f
	b.ls	5f
	ldrsb	w9,[x22]
	cmn	w9,#65
	cset	w9,gt
	cmp	x23,#2
	sub	x19,x19,x9
	b.lo	5f
	cbz	x19,5f
	ldrsb	w9,[x22,#1]
	cmn	w9,#65
	cset	w9,gt
	sub	x19,x19,x9
5:
	ldrb	w9,[x20,#15]
	cmp	w8,#1
	b.eq	7f
	lsr	x10,x19,#1
	cmp	w8,#2
	csel	x8,x19,x10,ne
	tst	w9,#0x1
	csel	x24,xzr,x8,ne
	csel	x25,x19,xzr,ne
	cbnz	x24,8f
	b	9f
7:
	tst	w9,#0x1
	csel	x24,xzr,xzr,ne
	csel	x25,x19,xzr,ne
	cbz	x24,9f
8:
	ldr	w1,[x20,#8]
	mov	x0,x20
	mov	x2,x24
	bl	core_fmt_formatter_Formatter_write_char_n_times
	and	w8,w0,#0xff
	tbnz	w8,#0,26f
9:
	cbz	w21,12f
	ldr	x8,[x20,#32]
	cbnz	x8,29f
	hex_page	x1,.Lstatic.26
	hex_address	x1,x1,.Lstatic.26
	mov	x0,x20
	mov	x2,x21
	bl	core_fmt_formatter_Formatter_write_raw
	and	w8,w0,#0xff
	tbnz	w8,#0,26f
12:
	subs	x8,x19,x24
	cbz	x23,22f
	csel	x8,xzr,x8,lo
	ldr	x9,[x20,#32]
	mov	x0,x20
	subs	x8,x8,x25
	mov	x1,x22
	mov	x2,x23
	csel	x21,xzr,x8,lo
	cbnz	x9,30f
	bl	core_fmt_formatter_Formatter_write_raw
	and	w8,w0,#0xff
	tbnz	w8,#0,26f
15:
	cbz	x25,23f
16:
	mov	x8,#3472328296227680304
	cmp	x25,#17
	stp	x8,x8,[sp]
	b.lo	24f
17:
	ldr	x8,[x20,#32]
	cbnz	x8,21f
	ldr	x8,[x20]
	ldr	x9,[x8,#128]
	sub	x10,x9,#113
	cmp	x10,#16
	b.lo	26f
	ldr	q0,[sp]
	add	x10,x9,#16
	str	q0,[x8,x9]
	str	x10,[x8,#128]
20:
	sub	x19,x19,#16
	cmp	x19,#16
	b.hi	17b
	b	24f
21:
	mov	x1,sp
	mov	x0,x20
	mov	w2,#16
	bl	core_fmt_formatter_Formatter_write_indented
	and	w8,w0,#0xff
	tbz	w8,#0,20b
	b	26f
22:
	csel	x8,xzr,x8,lo
	subs	x8,x8,x25
	csel	x21,xzr,x8,lo
	cbnz	x25,16b
23:
	mov	w0,wzr
	b	27f
24:
	ldr	x8,[x20,#32]
	cbnz	x8,31f
	ldr	x20,[x20]
	mov	w8,#128
	ldr	x22,[x20,#128]
	sub	x8,x8,x22
	cmp	x8,x19
	b.hs	28f
26:
	mov	x21,xzr
	mov	w0,#1
27:
	mov	x1,x21
	ldp	x20,x19,[sp,#80]
	ldp	x22,x21,[sp,#64]
	ldr	x25,[sp,#32]
	ldp	x24,x23,[sp,#48]
	ldp	x29,x30,[sp,#16]
	add	sp,sp,#96
	ret
28:
	add	x0,x20,x22
	mov	x1,sp
	mov	x2,x19
	bl	memcpy
	add	x8,x22,x19
	mov	w0,wzr
	str	x8,[x20,#128]
	b	27b
29:
	hex_page	x1,.Lstatic.26
	hex_address	x1,x1,.Lstatic.26
	mov	x0,x20
	mov	x2,x21
	bl	core_fmt_formatter_Formatter_write_indented
	and	w8,w0,#0xff
	tbz	w8,#0,12b
	b	26b
30:
	bl	core_fmt_formatter_Formatter_write_indented
	and	w8,w0,#0xff
	tbz	w8,#0,15b
	b	26b
31:
	mov	x1,sp
	mov	x0,x20
	mov	x2,x19
	bl	core_fmt_formatter_Formatter_write_indented
	ands	w0,w0,#0xff
	csel	x21,xzr,x21,ne
	b	27b
	hex_end	core_fmt_formatter_Formatter_write_before_number
	hex_merged	16
	.p2align	4,0x0
.LCPI8_0:
	.word	4294967278
	.word	4294967284
	.word	4294967290
	.word	0
	hex_merged	8
	.p2align	3,0x0
.LCPI8_1:
	.hword	255
	.hword	63
	.hword	63
	.hword	63
.LCPI8_2:
	.hword	240
	.hword	128
	.hword	128
	.hword	128
	hex_function	core_fmt_formatter_Formatter_write_char_n_times,.text
	sub	sp,sp,#144
	stp	x20,x19,[sp,#128]
	mov	x19,x2
	mov	x20,x0
	cmp	w1,#127
	stp	x29,x30,[sp,#48]
	add	x29,sp,#48
	stp	x28,x27,[sp,#64]
	stp	x26,x25,[sp,#80]
	stp	x24,x23,[sp,#96]
	stp	x22,x21,[sp,#112]
	stp	xzr,xzr,[sp]
	str	xzr,[sp,#16]
	b.hi	7f
	mov	w8,w1
	mov	x9,#72340172838076673
	cmp	x19,#17
	mul	x8,x8,x9
	stp	x8,x8,[x29,#-16]
	b.lo	9f
2:
	ldr	x8,[x20,#32]
	cbnz	x8,6f
	ldr	x8,[x20]
	ldr	x9,[x8,#128]
	sub	x10,x9,#113
	cmp	x10,#16
	b.lo	18f
	ldur	q0,[x29,#-16]
	add	x10,x9,#16
	str	q0,[x8,x9]
	str	x10,[x8,#128]
5:
	sub	x19,x19,#16
	cmp	x19,#16
	b.hi	2b
	b	9f
6:
	sub	x1,x29,#16
	mov	x0,x20
	mov	w2,#16
	bl	core_fmt_formatter_Formatter_write_indented
	and	w8,w0,#0xff
	tbz	w8,#0,5b
	b	18f
7:
	cmp	w1,#2047
	stur	wzr,[x29,#-20]
	b.hi	12f
	lsr	w8,w1,#6
	mov	w9,#128
	mov	w2,#2
	bfxil	w9,w1,#0,#6
	orr	w8,w8,#0xc0
	sturb	w8,[x29,#-20]
	sturb	w9,[x29,#-19]
	mov	x0,sp
	sub	x1,x29,#20
	bl	core_str_utf8_from_utf8
	ldrb	w8,[sp]
	cbnz	w8,18f
	b	20f
9:
	ldr	x8,[x20,#32]
	cbnz	x8,43f
	ldr	x20,[x20]
	mov	w8,#128
	ldr	x21,[x20,#128]
	sub	x8,x8,x21
	cmp	x8,x19
	b.lo	18f
	add	x0,x20,x21
	sub	x1,x29,#16
	mov	x2,x19
	bl	memcpy
	add	x8,x21,x19
	mov	w0,wzr
	str	x8,[x20,#128]
	b	19f
12:
	lsr	w8,w1,#11
	cmp	w8,#27
	b.lo	15f
	sub	w8,w1,#14,lsl #12
	cmp	w8,#258,lsl #12
	b.lo	15f
	mov	w8,#49135
	mov	w9,#189
	mov	w2,#3
	sturh	w8,[x29,#-20]
	sturb	w9,[x29,#-18]
	mov	x0,sp
	sub	x1,x29,#20
	bl	core_str_utf8_from_utf8
	ldrb	w8,[sp]
	cbnz	w8,18f
	b	20f
15:
	lsr	w8,w1,#16
	cbnz	w8,17f
	lsr	w8,w1,#12
	mov	w9,#128
	mov	w10,#128
	bfxil	w9,w1,#6,#6
	bfxil	w10,w1,#0,#6
	mov	w2,#3
	orr	w8,w8,#0xe0
	sturb	w8,[x29,#-20]
	sturb	w9,[x29,#-19]
	sturb	w10,[x29,#-18]
	mov	x0,sp
	sub	x1,x29,#20
	bl	core_str_utf8_from_utf8
	ldrb	w8,[sp]
	cbnz	w8,18f
	b	20f
17:
	dup	v0.4s,w1
	hex_page	x8,.LCPI8_0
	mov	w2,#4
	hex_value	q1,x8,.LCPI8_0
	hex_page	x8,.LCPI8_1
	ushl	v0.4s,v0.4s,v1.4s
	hex_value	d1,x8,.LCPI8_1
	hex_page	x8,.LCPI8_2
	xtn	v0.4h,v0.4s
	and	v0.8b,v0.8b,v1.8b
	hex_value	d1,x8,.LCPI8_2
	orr	v0.8b,v0.8b,v1.8b
	uzp1	v0.8b,v0.8b,v0.8b
	stur	s0,[x29,#-20]
	mov	x0,sp
	sub	x1,x29,#20
	bl	core_str_utf8_from_utf8
	ldrb	w8,[sp]
	cbz	w8,20f
18:
	mov	w0,#1
19:
	ldp	x20,x19,[sp,#128]
	ldp	x22,x21,[sp,#112]
	ldp	x24,x23,[sp,#96]
	ldp	x26,x25,[sp,#80]
	ldp	x28,x27,[sp,#64]
	ldp	x29,x30,[sp,#48]
	add	sp,sp,#144
	ret
20:
	ldp	x22,x21,[sp,#8]
	mov	x23,xzr
	and	x24,x21,#0xfffffffffffffff8
	and	x26,x21,#0xffffffffffffffe0
	neg	x27,x24
	b	23f
21:
	mov	x0,x20
	mov	x1,x22
	mov	x2,x21
	bl	core_fmt_formatter_Formatter_write_indented
	and	w8,w0,#0xff
	tbnz	w8,#0,18b
	add	x23,x23,#1
	cmp	x23,x19
	b.eq	42f
23:
	ldr	x8,[x20,#32]
	cbnz	x8,21b
	ldr	x28,[x20]
	mov	w8,#128
	ldr	x25,[x28,#128]
	sub	x8,x8,x25
	cmp	x8,x21
	b.lo	18b
	add	x8,x28,x25
	sub	x8,x8,x22
	cmp	x8,x21
	b.hs	31f
	cmp	x21,#8
	b.lo	28f
	sub	x8,x25,x22
	add	x8,x8,x28
	cmp	x8,#32
	b.hs	33f
28:
	mov	x9,xzr
29:
	add	x10,x9,x25
	sub	x8,x21,x9
	add	x9,x22,x9
	add	x10,x28,x10
30:
	ldrb	w11,[x9],#1
	subs	x8,x8,#1
	strb	w11,[x10],#1
	b.ne	30b
	b	32f
31:
	add	x0,x28,x25
	mov	x1,x22
	mov	x2,x21
	bl	memmove
32:
	add	x8,x25,x21
	str	x8,[x28,#128]
	add	x23,x23,#1
	cmp	x23,x19
	b.ne	23b
	b	42f
33:
	cmp	x21,#32
	b.hs	35f
	mov	x10,xzr
	b	39f
35:
	add	x8,x28,x25
	add	x9,x22,#16
	and	x10,x21,#0xffffffffffffffe0
	add	x8,x8,#16
36:
	ldp	q0,q1,[x9,#-16]
	subs	x10,x10,#32
	add	x9,x9,#32
	stp	q0,q1,[x8,#-16]
	add	x8,x8,#32
	b.ne	36b
	cmp	x21,x26
	b.eq	32b
	and	x10,x21,#0xffffffffffffffe0
	and	x9,x21,#0xffffffffffffffe0
	and	x8,x21,#0x18
	cbz	x8,29b
39:
	add	x11,x10,x25
	add	x8,x27,x10
	add	x9,x22,x10
	add	x10,x28,x11
40:
	ldr	d0,[x9],#8
	adds	x8,x8,#8
	str	d0,[x10],#8
	b.ne	40b
	cmp	x21,x24
	and	x9,x21,#0xfffffffffffffff8
	b.eq	32b
	b	29b
42:
	mov	w0,wzr
	b	19b
43:
	sub	x1,x29,#16
	mov	x0,x20
	mov	x2,x19
	bl	core_fmt_formatter_Formatter_write_indented
	and	w0,w0,#0xff
	b	19b
	hex_end	core_fmt_formatter_Formatter_write_char_n_times
	hex_function	core_fmt_formatter_Formatter_write_raw,.text
	cbz	x2,21f
	mov	x9,xzr
	b	4f
2:
	mov	w8,#1
3:
	add	x9,x8,x9
	cmp	x9,x2
	b.hs	21f
4:
	ldrsb	w8,[x1,x9]
	tbz	w8,#31,2b
	add	x10,x9,#1
	cmp	x2,x10
	b.ls	23f
	ldrsb	w11,[x1,x10]
	tbz	w11,#31,23f
	and	w10,w8,#0xff
	cmn	w11,#64
	mov	w8,#-64
	csel	w11,w11,w8,lo
	cmp	w10,#194
	mov	w8,#1
	b.lo	24f
	and	w11,w11,#0x7f
	cmp	w11,#63
	b.hi	24f
	cmp	w10,#224
	b.hs	11f
	mov	w8,#2
	b	3b
11:
	add	x8,x9,#2
	cmp	x2,x8
	b.ls	23f
	ldrsb	w8,[x1,x8]
	cmn	w8,#65
	b.gt	23f
	cmp	w10,#239
	b.hi	17f
	lsl	w8,w10,#12
	add	w8,w8,w11,lsl #6
	sub	w8,w8,#224,lsl #12
	cmp	w8,#2048
	b.lo	23f
	lsr	w8,w8,#11
	cmp	w8,#27
	mov	w8,#3
	b.lo	3b
	cmp	w10,#238
	b.hs	3b
	b	23f
17:
	add	x8,x9,#3
	cmp	x2,x8
	b.ls	23f
	ldrsb	w8,[x1,x8]
	cmn	w8,#65
	b.gt	23f
	lsl	w8,w10,#18
	mov	w10,#-62980096
	add	w8,w8,w11,lsl #12
	add	w8,w8,w10
	lsr	w8,w8,#20
	cbnz	w8,23f
	mov	w8,#4
	b	3b
21:
	stp	x29,x30,[sp,#-48]!
	stp	x20,x19,[sp,#32]
	ldr	x20,[x0]
	mov	w8,#128
	str	x21,[sp,#16]
	mov	x29,sp
	ldr	x21,[x20,#128]
	sub	x8,x8,x21
	cmp	x8,x2
	b.hs	25f
	mov	w8,#1
	ldp	x20,x19,[sp,#32]
	ldr	x21,[sp,#16]
	ldp	x29,x30,[sp],#48
	mov	w0,w8
	ret
23:
	mov	w8,#1
24:
	mov	w0,w8
	ret
25:
	add	x8,x20,x21
	sub	x8,x8,x1
	cmp	x8,x2
	b.hs	31f
	cmp	x2,#8
	b.lo	28f
	add	x8,x21,x20
	sub	x8,x8,x1
	cmp	x8,#32
	b.hs	33f
28:
	mov	x8,xzr
29:
	add	x10,x8,x21
	sub	x9,x2,x8
	add	x8,x1,x8
	add	x10,x20,x10
30:
	ldrb	w11,[x8],#1
	subs	x9,x9,#1
	strb	w11,[x10],#1
	b.ne	30b
	b	32f
31:
	add	x0,x20,x21
	mov	x19,x2
	bl	memmove
	mov	x2,x19
32:
	mov	w8,wzr
	add	x9,x21,x2
	str	x9,[x20,#128]
	ldp	x20,x19,[sp,#32]
	ldr	x21,[sp,#16]
	ldp	x29,x30,[sp],#48
	mov	w0,w8
	ret
33:
	cmp	x2,#32
	b.hs	35f
	mov	x8,xzr
	b	39f
35:
	add	x11,x21,x20
	and	x9,x2,#0x18
	and	x8,x2,#0xffffffffffffffe0
	add	x10,x1,#16
	add	x11,x11,#16
	and	x12,x2,#0xffffffffffffffe0
36:
	ldp	q0,q1,[x10,#-16]
	subs	x12,x12,#32
	add	x10,x10,#32
	stp	q0,q1,[x11,#-16]
	add	x11,x11,#32
	b.ne	36b
	cmp	x2,x8
	b.eq	32b
	cbz	x9,29b
39:
	mov	x10,x8
	and	x8,x2,#0xfffffffffffffff8
	add	x11,x10,x21
	sub	x9,x10,x8
	add	x10,x1,x10
	add	x11,x20,x11
40:
	ldr	d0,[x10],#8
	adds	x9,x9,#8
	str	d0,[x11],#8
	b.ne	40b
	cmp	x2,x8
	b.eq	32b
	b	29b
	hex_end	core_fmt_formatter_Formatter_write_raw
	hex_function	core_fmt_formatter_Formatter_write_indented,.text.unlikely
	stp	x29,x30,[sp,#-80]!
	str	x25,[sp,#16]
	mov	x29,sp
	stp	x24,x23,[sp,#32]
	stp	x22,x21,[sp,#48]
	stp	x20,x19,[sp,#64]
	cbz	x2,16f
	mov	x21,x2
	mov	x20,x1
	mov	x19,x0
	mov	x8,xzr
	mov	x24,xzr
	b	4f
2:
	mov	w23,#1
	add	x1,x20,x25
	mov	x0,x19
	mov	x2,x22
	strb	w23,[x19,#40]
	bl	core_fmt_formatter_Formatter_write_raw
	and	w9,w0,#0xff
	mov	x8,x24
	tbnz	w9,#0,18f
3:
	cmp	x24,x21
	b.eq	10f
4:
	ldrb	w10,[x20,x24]
	mov	x9,x24
	add	x24,x24,#1
	cmp	w10,#10
	b.ne	3b
	subs	x22,x24,x8
	csel	x25,xzr,x8,lo
	cmp	x8,x9
	mov	x8,x24
	b.hi	3b
	ldrb	w8,[x19,#40]
	cmp	w8,#1
	b.ne	2b
	ldr	x23,[x19,#32]
	cbz	x23,2b
8:
	hex_page	x1,.Lstatic.27
	hex_address	x1,x1,.Lstatic.27
	mov	x0,x19
	mov	w2,#4
	bl	core_fmt_formatter_Formatter_write_raw
	and	w8,w0,#0xff
	tbnz	w8,#0,17f
	subs	x23,x23,#1
	b.ne	8b
	b	2b
10:
	cmp	x8,x21
	csel	x22,xzr,x8,hi
	subs	x8,x21,x8
	csel	x21,xzr,x8,lo
	b.ls	16f
	ldrb	w8,[x19,#40]
	cmp	w8,#1
	b.ne	15f
	ldr	x23,[x19,#32]
	cbz	x23,15f
13:
	hex_page	x1,.Lstatic.27
	hex_address	x1,x1,.Lstatic.27
	mov	x0,x19
	mov	w2,#4
	bl	core_fmt_formatter_Formatter_write_raw
	and	w8,w0,#0xff
	tbnz	w8,#0,17f
	subs	x23,x23,#1
	b.ne	13b
15:
	add	x1,x20,x22
	mov	x0,x19
	mov	x2,x21
	strb	wzr,[x19,#40]
	ldp	x20,x19,[sp,#64]
	ldp	x22,x21,[sp,#48]
	ldr	x25,[sp,#16]
	ldp	x24,x23,[sp,#32]
	ldp	x29,x30,[sp],#80
	b	core_fmt_formatter_Formatter_write_raw
16:
	mov	w23,wzr
	b	18f
17:
	mov	w23,#1
18:
	mov	w0,w23
	ldp	x20,x19,[sp,#64]
	ldp	x22,x21,[sp,#48]
	ldr	x25,[sp,#16]
	ldp	x24,x23,[sp,#32]
	ldp	x29,x30,[sp],#80
	ret
	hex_end	core_fmt_formatter_Formatter_write_indented
	hex_function	std_io_io_error_last_error,.text
	stp	x29,x30,[sp,#-32]!
	str	x19,[sp,#16]
	mov	x29,sp
	mov	x19,x0
	bl	fhex_errno
	tbnz	w0,#31,4f
	sub	w8,w0,#1
	cmp	w8,#121
	b.hi	4f
	hex_page	x9,1000f
	hex_address	x9,x9,1000f
	adr	x10,3f
	ldrb	w11,[x9,x8]
	add	x10,x10,x11,lsl #2
	mov	w8,#1
	br	x10
3:
	mov	w8,#36
	b	5f
4:
	mov	w8,#41
5:
	movi	v0.2d,#0000000000000000
	strb	wzr,[x19]
	strb	w8,[x19,#1]
	strh	wzr,[x19,#2]
	str	w0,[x19,#4]
	stur	q0,[x19,#8]
	stur	q0,[x19,#24]
	stur	q0,[x19,#40]
	stur	q0,[x19,#56]
	stur	q0,[x19,#72]
	ldr	x19,[sp,#16]
	ldp	x29,x30,[sp],#32
	ret
6:
	mov	w8,#4
	b	5b
7:
	mov	w8,#7
	b	5b
8:
	mov	w8,#26
	b	5b
9:
	mov	w8,#39
	b	5b
10:
	mov	w8,#9
	b	5b
11:
	mov	w8,#8
	b	5b
12:
	mov	w8,#30
	b	5b
13:
	mov	w8,#25
	b	5b
14:
	mov	w8,#32
	b	5b
15:
	mov	w8,#33
	b	5b
16:
	mov	w8,#22
	b	5b
17:
	mov	w8,#31
	b	5b
18:
	mov	w8,#29
	b	5b
19:
	mov	w8,#18
	b	5b
20:
	mov	w8,#10
	b	5b
21:
	mov	w8,#28
	b	5b
22:
	mov	w8,#14
	b	5b
23:
	mov	w8,#12
	b	5b
24:
	mov	w8,#5
	b	5b
25:
	mov	w8,#3
	b	5b
26:
	mov	w8,wzr
	b	5b
27:
	mov	w8,#13
	b	5b
28:
	mov	w8,#38
	b	5b
29:
	mov	w8,#11
	b	5b
30:
	mov	w8,#35
	b	5b
31:
	mov	w8,#34
	b	5b
32:
	mov	w8,#20
	b	5b
33:
	mov	w8,#15
	b	5b
34:
	mov	w8,#19
	b	5b
35:
	mov	w8,#16
	b	5b
36:
	mov	w8,#6
	b	5b
37:
	mov	w8,#27
	b	5b
38:
	mov	w8,#24
	b	5b
39:
	mov	w8,#2
	b	5b
40:
	mov	w8,#17
	b	5b
	hex_end	std_io_io_error_last_error
	hex_jumps	std_io_io_error_last_error
1000:
	.byte	(5b-3b)>>2
	.byte	(26b-3b)>>2
	.byte	(4b-3b)>>2
	.byte	(30b-3b)>>2
	.byte	(4b-3b)>>2
	.byte	(4b-3b)>>2
	.byte	(31b-3b)>>2
	.byte	(4b-3b)>>2
	.byte	(4b-3b)>>2
	.byte	(4b-3b)>>2
	.byte	(27b-3b)>>2
	.byte	(28b-3b)>>2
	.byte	(5b-3b)>>2
	.byte	(4b-3b)>>2
	.byte	(4b-3b)>>2
	.byte	(21b-3b)>>2
	.byte	(23b-3b)>>2
	.byte	(17b-3b)>>2
	.byte	(4b-3b)>>2
	.byte	(22b-3b)>>2
	.byte	(33b-3b)>>2
	.byte	(32b-3b)>>2
	.byte	(4b-3b)>>2
	.byte	(4b-3b)>>2
	.byte	(4b-3b)>>2
	.byte	(18b-3b)>>2
	.byte	(37b-3b)>>2
	.byte	(38b-3b)>>2
	.byte	(13b-3b)>>2
	.byte	(40b-3b)>>2
	.byte	(14b-3b)>>2
	.byte	(29b-3b)>>2
	.byte	(4b-3b)>>2
	.byte	(4b-3b)>>2
	.byte	(12b-3b)>>2
	.byte	(15b-3b)>>2
	.byte	(4b-3b)>>2
	.byte	(3b-3b)>>2
	.byte	(35b-3b)>>2
	.byte	(19b-3b)>>2
	.byte	(4b-3b)>>2
	.byte	(4b-3b)>>2
	.byte	(4b-3b)>>2
	.byte	(4b-3b)>>2
	.byte	(4b-3b)>>2
	.byte	(4b-3b)>>2
	.byte	(4b-3b)>>2
	.byte	(4b-3b)>>2
	.byte	(4b-3b)>>2
	.byte	(4b-3b)>>2
	.byte	(4b-3b)>>2
	.byte	(4b-3b)>>2
	.byte	(4b-3b)>>2
	.byte	(4b-3b)>>2
	.byte	(4b-3b)>>2
	.byte	(4b-3b)>>2
	.byte	(4b-3b)>>2
	.byte	(4b-3b)>>2
	.byte	(4b-3b)>>2
	.byte	(4b-3b)>>2
	.byte	(4b-3b)>>2
	.byte	(4b-3b)>>2
	.byte	(4b-3b)>>2
	.byte	(4b-3b)>>2
	.byte	(4b-3b)>>2
	.byte	(4b-3b)>>2
	.byte	(4b-3b)>>2
	.byte	(4b-3b)>>2
	.byte	(4b-3b)>>2
	.byte	(4b-3b)>>2
	.byte	(4b-3b)>>2
	.byte	(4b-3b)>>2
	.byte	(4b-3b)>>2
	.byte	(4b-3b)>>2
	.byte	(4b-3b)>>2
	.byte	(4b-3b)>>2
	.byte	(4b-3b)>>2
	.byte	(4b-3b)>>2
	.byte	(4b-3b)>>2
	.byte	(4b-3b)>>2
	.byte	(4b-3b)>>2
	.byte	(4b-3b)>>2
	.byte	(4b-3b)>>2
	.byte	(4b-3b)>>2
	.byte	(4b-3b)>>2
	.byte	(4b-3b)>>2
	.byte	(4b-3b)>>2
	.byte	(4b-3b)>>2
	.byte	(4b-3b)>>2
	.byte	(4b-3b)>>2
	.byte	(4b-3b)>>2
	.byte	(4b-3b)>>2
	.byte	(4b-3b)>>2
	.byte	(4b-3b)>>2
	.byte	(3b-3b)>>2
	.byte	(4b-3b)>>2
	.byte	(4b-3b)>>2
	.byte	(11b-3b)>>2
	.byte	(10b-3b)>>2
	.byte	(20b-3b)>>2
	.byte	(24b-3b)>>2
	.byte	(4b-3b)>>2
	.byte	(36b-3b)>>2
	.byte	(25b-3b)>>2
	.byte	(4b-3b)>>2
	.byte	(4b-3b)>>2
	.byte	(7b-3b)>>2
	.byte	(4b-3b)>>2
	.byte	(4b-3b)>>2
	.byte	(16b-3b)>>2
	.byte	(39b-3b)>>2
	.byte	(4b-3b)>>2
	.byte	(6b-3b)>>2
	.byte	(4b-3b)>>2
	.byte	(9b-3b)>>2
	.byte	(34b-3b)>>2
	.byte	(4b-3b)>>2
	.byte	(4b-3b)>>2
	.byte	(4b-3b)>>2
	.byte	(4b-3b)>>2
	.byte	(4b-3b)>>2
	.byte	(8b-3b)>>2
	hex_merged	16
	.p2align	4,0x0
.LCPI12_0:
	.byte	48,49,50,51,52,53,54,55,56,57,97,98,99,100,101,102
.LCPI12_1:
	.byte	0,16,1,17,0,16,1,17,0,16,1,17,0,16,1,17
	hex_function	io_stream_encode_by,.text
	stp	x29,x30,[sp,#-96]!
	sub	x9,sp,#7,lsl #12
	stp	x28,x27,[sp,#16]
	mov	x29,sp
	sub	x9,x9,#2048
	stp	x26,x25,[sp,#32]
	stp	x24,x23,[sp,#48]
	stp	x22,x21,[sp,#64]
	stp	x20,x19,[sp,#80]
1:
	sub	sp,sp,#3072
	cmp	sp,x9
	str	xzr,[sp]
	b.ne	1b
	sub	sp,sp,#2416
	movi	v0.2d,#0000000000000000
	str	xzr,[sp]
	mov	x19,x0
	add	x0,sp,#6,lsl #12
	mov	x20,x1
	ldrb	w28,[x2]
	ldr	x25,[x2,#8]
	ldrb	w23,[x2,#16]
	add	x24,sp,#6,lsl #12
	add	x0,x0,#176
	mov	w1,wzr
	mov	w2,#8192
	stp	q0,q0,[sp,#80]
	add	x24,x24,#176
	mov	w21,#8192
	stp	q0,q0,[sp,#112]
	stp	q0,q0,[sp,#144]
	bl	memset
	add	x0,sp,#176
	mov	w1,wzr
	mov	w2,#24576
	add	x22,sp,#176
	bl	memset
	lsr	x8,x25,#5
	cmp	x25,#2,lsl #12
	sub	x9,x25,#32
	mov	w10,#1
	lsl	x27,x25,#1
	mov	x26,xzr
	str	x8,[sp,#56]
	csel	x8,x25,x21,lo
	bfi	x10,x25,#1,#63
	stp	x10,x8,[sp,#40]
	lsl	x8,x9,#1
	add	x9,x24,x9
	orr	x11,x22,#0x1
	add	x10,x22,x27
	str	x8,[sp,#16]
	add	x8,x25,x24
	str	x9,[sp,#64]
	sub	x9,x8,#16
	sub	x8,x8,#8
	stp	x10,x11,[sp]
	stp	x8,x9,[sp,#24]
	str	w28,[sp,#76]
3:
	cmp	w28,#1
	mov	w21,w28
	b.ne	8f
	cbz	x26,9f
	cbz	x25,142f
	udiv	x8,x26,x25
	msub	x8,x8,x25,x26
	cbz	x8,10f
	sub	x8,x25,x8
	mov	w9,#8192
	cmp	x8,#2,lsl #12
	csel	x2,x8,x9,lo
	add	x1,sp,#6,lsl #12
	add	x0,sp,#80
	add	x1,x1,#176
	bl	io_stream_read_again
	ldrb	w8,[sp,#80]
	cbz	w8,11f
	b	137f
8:
	mov	w2,#8192
	add	x1,sp,#6,lsl #12
	add	x0,sp,#80
	add	x1,x1,#176
	bl	io_stream_read_again
	ldrb	w8,[sp,#80]
	cbz	w8,11f
	b	137f
9:
	cbz	x25,142f
10:
	ldr	x10,[sp,#48]
	mov	w9,#8192
	and	w8,w10,#0xffff
	udiv	w8,w9,w8
	mul	w8,w8,w10
	and	x2,x8,#0xffff
	add	x1,sp,#6,lsl #12
	add	x0,sp,#80
	add	x1,x1,#176
	bl	io_stream_read_again
	ldrb	w8,[sp,#80]
	cbnz	w8,137f
11:
	ldr	x28,[sp,#88]
	cbz	x28,138f
	hex_page	x9,.LCPI12_0
	cbz	w21,16f
	cbz	x26,20f
	cbz	x25,142f
	udiv	x8,x26,x25
	msub	x8,x8,x25,x26
	cmp	x8,#0
	cset	w8,eq
	b	21f
16:
	cmp	x28,#3,lsl #12
	b.hi	142f
	subs	x8,x28,#32
	b.hi	45f
	b.ne	64f
	movi	v0.16b,#15
	ldr	q1,[sp,#24768]
	ldr	q2,[sp,#24752]
	lsl	x22,x28,#1
	ushr	v3.16b,v1.16b,#4
	ushr	v4.16b,v2.16b,#4
	and	v1.16b,v1.16b,v0.16b
	and	v0.16b,v2.16b,v0.16b
	zip2	v2.16b,v3.16b,v1.16b
	zip1	v1.16b,v3.16b,v1.16b
	zip2	v5.16b,v4.16b,v0.16b
	zip1	v0.16b,v4.16b,v0.16b
	hex_value	q3,x9,.LCPI12_0
	tbl	v2.16b,{ v3.16b },v2.16b
	tbl	v1.16b,{ v3.16b },v1.16b
	tbl	v4.16b,{ v3.16b },v5.16b
	tbl	v0.16b,{ v3.16b },v0.16b
	stp	q1,q2,[sp,#208]
	stp	q0,q4,[sp,#176]
	b	115f
20:
	mov	w8,wzr
21:
	mov	w8,w8
	add	x10,sp,#176
	cmp	x25,#4
	orr	x12,x10,x8
	hex_page	x11,.Lstatic.35
	hex_address	x11,x11,.Lstatic.35
	b.eq	28f
	cmp	x25,#1
	b.ne	33f
	mov	x10,xzr
	subs	x9,x28,#1
	b.eq	27f
	ldr	x13,[sp,#8]
	add	x14,sp,#6,lsl #12
	mov	x15,x9
	add	x14,x14,#176
	add	x13,x13,x8
25:
	ldrb	w16,[x14],#1
	sub	x15,x15,#1
	strb	w23,[x13,#1]
	sub	x10,x10,#3
	ldrh	w16,[x11,x16,lsl #1]
	sturh	w16,[x13,#-1]
	add	x13,x13,#3
	cbnz	x15,25b
	neg	x10,x10
27:
	add	x13,sp,#6,lsl #12
	add	x13,x13,#176
	ldrb	w9,[x13,x9]
	ldrh	w9,[x11,x9,lsl #1]
	strh	w9,[x12,x10]
	add	x9,x10,#2
	b	112f
28:
	cmp	x28,#5
	b.lo	47f
	add	x10,sp,#6,lsl #12
	mov	x9,xzr
	mov	x13,x28
	add	x10,x10,#176
30:
	ldrb	w14,[x10]
	ldrb	w15,[x10,#1]
	add	x17,x12,x9
	ldrb	w16,[x10,#2]
	ldrb	w18,[x10,#3]
	sub	x13,x13,#4
	ldrh	w14,[x11,x14,lsl #1]
	ldrh	w15,[x11,x15,lsl #1]
	cmp	x13,#4
	add	x9,x9,#9
	add	x10,x10,#4
	strb	w23,[x17,#8]
	strh	w14,[x17]
	ldrh	w14,[x11,x16,lsl #1]
	strh	w15,[x17,#2]
	ldrh	w15,[x11,x18,lsl #1]
	strh	w14,[x17,#4]
	strh	w15,[x17,#6]
	b.hi	30b
	cbz	x13,84f
	add	x12,x12,x9
	b	48f
33:
	cmp	x25,x28
	b.hs	51f
	cmp	x25,#7
	b.hi	71f
	cbz	x25,140f
	ldr	x13,[sp]
	mov	x14,xzr
	mov	x10,xzr
	add	x15,x13,x8
	mov	x13,x28
	b	38f
37:
	sub	x13,x13,x25
	add	x16,x10,x27
	add	x14,x14,x25
	cmp	x25,x13
	strb	w23,[x15,x10]
	add	x10,x16,#1
	b.hs	52f
38:
	add	x16,sp,#6,lsl #12
	cmp	x25,#1
	add	x16,x16,#176
	ldrb	w17,[x16,x14]
	ldrh	w17,[x11,x17,lsl #1]
	strh	w17,[x12,x10]
	b.eq	37b
	add	x16,x16,x14
	cmp	x25,#2
	ldrb	w16,[x16,#1]
	ldrh	w17,[x11,x16,lsl #1]
	add	x16,x12,x10
	strh	w17,[x16,#2]
	b.eq	37b
	add	x17,sp,#6,lsl #12
	cmp	x25,#3
	add	x17,x17,#176
	add	x17,x17,x14
	ldrb	w18,[x17,#2]
	ldrh	w18,[x11,x18,lsl #1]
	strh	w18,[x16,#4]
	b.eq	37b
	ldrb	w16,[x17,#3]
	cmp	x25,#4
	ldrh	w17,[x11,x16,lsl #1]
	add	x16,x12,x10
	strh	w17,[x16,#6]
	b.eq	37b
	add	x17,sp,#6,lsl #12
	cmp	x25,#5
	add	x17,x17,#176
	add	x17,x17,x14
	ldrb	w18,[x17,#4]
	ldrh	w18,[x11,x18,lsl #1]
	strh	w18,[x16,#8]
	b.eq	37b
	ldrb	w16,[x17,#5]
	cmp	x25,#6
	ldrh	w17,[x11,x16,lsl #1]
	add	x16,x12,x10
	strh	w17,[x16,#10]
	b.eq	37b
	add	x17,sp,#6,lsl #12
	add	x17,x17,#176
	add	x17,x17,x14
	ldrb	w17,[x17,#6]
	ldrh	w17,[x11,x17,lsl #1]
	strh	w17,[x16,#12]
	b	37b
45:
	subs	x10,x28,#64
	b.hi	67f
	movi	v0.16b,#15
	ldr	q1,[sp,#24768]
	add	x10,sp,#6,lsl #12
	add	x10,x10,#176
	ldr	q2,[sp,#24752]
	lsl	x22,x28,#1
	ushr	v3.16b,v1.16b,#4
	add	x10,x10,x8
	ldp	q6,q5,[x10]
	ushr	v4.16b,v2.16b,#4
	and	v1.16b,v1.16b,v0.16b
	and	v2.16b,v2.16b,v0.16b
	ushr	v16.16b,v5.16b,#4
	and	v5.16b,v5.16b,v0.16b
	and	v0.16b,v6.16b,v0.16b
	zip2	v7.16b,v3.16b,v1.16b
	zip1	v1.16b,v3.16b,v1.16b
	ushr	v6.16b,v6.16b,#4
	hex_value	q3,x9,.LCPI12_0
	zip2	v17.16b,v4.16b,v2.16b
	zip1	v2.16b,v4.16b,v2.16b
	zip1	v4.16b,v16.16b,v5.16b
	zip2	v5.16b,v16.16b,v5.16b
	add	x9,sp,#176
	zip1	v16.16b,v6.16b,v0.16b
	zip2	v0.16b,v6.16b,v0.16b
	add	x8,x9,x8,lsl #1
	tbl	v7.16b,{ v3.16b },v7.16b
	tbl	v1.16b,{ v3.16b },v1.16b
	tbl	v17.16b,{ v3.16b },v17.16b
	tbl	v2.16b,{ v3.16b },v2.16b
	tbl	v4.16b,{ v3.16b },v4.16b
	tbl	v0.16b,{ v3.16b },v0.16b
	stp	q1,q7,[sp,#208]
	tbl	v1.16b,{ v3.16b },v5.16b
	tbl	v5.16b,{ v3.16b },v16.16b
	stp	q2,q17,[sp,#176]
	stp	q5,q0,[x8]
	stp	q4,q1,[x8,#32]
	b	115f
47:
	add	x10,sp,#6,lsl #12
	mov	x9,xzr
	mov	x13,x28
	add	x10,x10,#176
48:
	add	x12,x12,#1
	mov	x14,x13
49:
	ldrb	w15,[x10],#1
	subs	x14,x14,#1
	ldrh	w15,[x11,x15,lsl #1]
	sturh	w15,[x12,#-1]
	add	x12,x12,#2
	b.ne	49b
	lsl	x10,x13,#1
	add	x9,x9,x10
	b	112f
51:
	mov	x10,xzr
	mov	x14,xzr
	mov	x13,x28
52:
	add	x15,sp,#6,lsl #12
	cmp	x13,#7
	add	x12,x12,x10
	add	x15,x15,#176
	add	x14,x15,x14
	b.hi	61f
	cbz	x13,111f
	ldrb	w9,[x14]
	cmp	x13,#1
	ldrh	w9,[x11,x9,lsl #1]
	strh	w9,[x12]
	b.eq	111f
	ldrb	w9,[x14,#1]
	cmp	x13,#2
	ldrh	w9,[x11,x9,lsl #1]
	strh	w9,[x12,#2]
	b.eq	111f
	ldrb	w9,[x14,#2]
	cmp	x13,#3
	ldrh	w9,[x11,x9,lsl #1]
	strh	w9,[x12,#4]
	b.eq	111f
	ldrb	w9,[x14,#3]
	cmp	x13,#4
	ldrh	w9,[x11,x9,lsl #1]
	strh	w9,[x12,#6]
	b.eq	111f
	ldrb	w9,[x14,#4]
	cmp	x13,#5
	ldrh	w9,[x11,x9,lsl #1]
	strh	w9,[x12,#8]
	b.eq	111f
	ldrb	w9,[x14,#5]
	cmp	x13,#6
	ldrh	w9,[x11,x9,lsl #1]
	strh	w9,[x12,#10]
	b.eq	111f
	ldrb	w9,[x14,#6]
	ldrh	w9,[x11,x9,lsl #1]
	strh	w9,[x12,#12]
	b	111f
61:
	subs	x11,x13,#32
	b.hi	75f
	b.ne	88f
	movi	v0.16b,#15
	ldp	q2,q1,[x14]
	ushr	v3.16b,v1.16b,#4
	ushr	v4.16b,v2.16b,#4
	and	v1.16b,v1.16b,v0.16b
	and	v0.16b,v2.16b,v0.16b
	zip2	v2.16b,v3.16b,v1.16b
	zip1	v1.16b,v3.16b,v1.16b
	zip2	v5.16b,v4.16b,v0.16b
	zip1	v0.16b,v4.16b,v0.16b
	hex_value	q3,x9,.LCPI12_0
	tbl	v2.16b,{ v3.16b },v2.16b
	tbl	v1.16b,{ v3.16b },v1.16b
	tbl	v4.16b,{ v3.16b },v5.16b
	tbl	v0.16b,{ v3.16b },v0.16b
	stp	q1,q2,[x12,#32]
	stp	q0,q4,[x12]
	b	111f
64:
	cmp	x28,#7
	b.hi	77f
	add	x8,sp,#6,lsl #12
	cmp	x28,#1
	add	x8,x8,#176
	b.ne	94f
	ldrb	w8,[x8]
	movi	v0.2d,#0xff00ff00ff00ff
	lsl	x22,x28,#1
	lsr	w10,w8,#4
	and	w8,w8,#0xf
	dup	v1.16b,w8
	add	x8,sp,#176
	dup	v2.16b,w10
	orr	x8,x8,#0x1
	bsl	v0.16b,v2.16b,v1.16b
	hex_value	q1,x9,.LCPI12_0
	tbl	v0.16b,{ v1.16b },v0.16b
	st1	{ v0.b }[1],[x8]
	str	b0,[sp,#176]
	b	115f
67:
	cmp	x28,#128
	b.hi	79f
	movi	v0.16b,#15
	ldr	q1,[sp,#24768]
	ldr	q2,[sp,#24752]
	ldr	q5,[sp,#24800]
	ldr	q6,[sp,#24784]
	cmp	x28,#97
	ushr	v3.16b,v1.16b,#4
	ushr	v4.16b,v2.16b,#4
	ushr	v16.16b,v5.16b,#4
	ushr	v18.16b,v6.16b,#4
	and	v1.16b,v1.16b,v0.16b
	and	v2.16b,v2.16b,v0.16b
	and	v5.16b,v5.16b,v0.16b
	and	v6.16b,v6.16b,v0.16b
	zip2	v7.16b,v3.16b,v1.16b
	zip1	v3.16b,v3.16b,v1.16b
	hex_value	q1,x9,.LCPI12_0
	zip2	v17.16b,v4.16b,v2.16b
	zip1	v2.16b,v4.16b,v2.16b
	zip2	v4.16b,v16.16b,v5.16b
	zip1	v5.16b,v16.16b,v5.16b
	zip2	v16.16b,v18.16b,v6.16b
	zip1	v6.16b,v18.16b,v6.16b
	tbl	v7.16b,{ v1.16b },v7.16b
	tbl	v3.16b,{ v1.16b },v3.16b
	tbl	v17.16b,{ v1.16b },v17.16b
	tbl	v2.16b,{ v1.16b },v2.16b
	tbl	v4.16b,{ v1.16b },v4.16b
	tbl	v6.16b,{ v1.16b },v6.16b
	stp	q3,q7,[sp,#208]
	tbl	v3.16b,{ v1.16b },v5.16b
	tbl	v5.16b,{ v1.16b },v16.16b
	stp	q2,q17,[sp,#176]
	stp	q6,q5,[sp,#240]
	stp	q3,q4,[sp,#272]
	b.lo	70f
	add	x9,sp,#6,lsl #12
	add	x9,x9,#176
	add	x9,x9,x10
	ldp	q3,q2,[x9]
	add	x9,sp,#176
	add	x9,x9,x10,lsl #1
	ushr	v4.16b,v2.16b,#4
	and	v2.16b,v2.16b,v0.16b
	ushr	v5.16b,v3.16b,#4
	and	v3.16b,v3.16b,v0.16b
	zip2	v6.16b,v4.16b,v2.16b
	zip1	v2.16b,v4.16b,v2.16b
	zip2	v4.16b,v5.16b,v3.16b
	zip1	v3.16b,v5.16b,v3.16b
	tbl	v5.16b,{ v1.16b },v6.16b
	tbl	v2.16b,{ v1.16b },v2.16b
	tbl	v4.16b,{ v1.16b },v4.16b
	tbl	v3.16b,{ v1.16b },v3.16b
	stp	q2,q5,[x9,#32]
	stp	q3,q4,[x9]
70:
	add	x9,sp,#6,lsl #12
	add	x9,x9,#176
	add	x9,x9,x8
	ldp	q3,q2,[x9]
	add	x9,sp,#176
	add	x8,x9,x8,lsl #1
	ushr	v4.16b,v2.16b,#4
	and	v2.16b,v2.16b,v0.16b
	ushr	v5.16b,v3.16b,#4
	and	v0.16b,v3.16b,v0.16b
	zip2	v3.16b,v4.16b,v2.16b
	zip1	v2.16b,v4.16b,v2.16b
	zip2	v4.16b,v5.16b,v0.16b
	zip1	v0.16b,v5.16b,v0.16b
	tbl	v3.16b,{ v1.16b },v3.16b
	tbl	v2.16b,{ v1.16b },v2.16b
	tbl	v4.16b,{ v1.16b },v4.16b
	tbl	v0.16b,{ v1.16b },v0.16b
	b	83f
71:
	cmp	x25,#32
	b.hi	85f
	b.ne	97f
	mov	x14,xzr
	mov	x10,xzr
	add	x15,x12,x27
	mov	x13,x28
74:
	add	x16,sp,#6,lsl #12
	movi	v0.16b,#15
	sub	x13,x13,#32
	add	x16,x16,#176
	add	x17,x10,x27
	cmp	x13,#32
	add	x16,x16,x14
	add	x14,x14,#32
	ldp	q2,q1,[x16]
	add	x16,x12,x10
	ushr	v3.16b,v1.16b,#4
	and	v1.16b,v1.16b,v0.16b
	ushr	v4.16b,v2.16b,#4
	and	v0.16b,v2.16b,v0.16b
	zip2	v2.16b,v3.16b,v1.16b
	zip1	v1.16b,v3.16b,v1.16b
	hex_value	q3,x9,.LCPI12_0
	zip2	v5.16b,v4.16b,v0.16b
	zip1	v0.16b,v4.16b,v0.16b
	tbl	v2.16b,{ v3.16b },v2.16b
	tbl	v1.16b,{ v3.16b },v1.16b
	tbl	v4.16b,{ v3.16b },v5.16b
	tbl	v0.16b,{ v3.16b },v0.16b
	stp	q1,q2,[x16,#32]
	stp	q0,q4,[x16]
	strb	w23,[x15,x10]
	add	x10,x17,#1
	b.hi	74b
	b	52b
75:
	subs	x15,x13,#64
	b.hi	90f
	movi	v0.16b,#15
	ldp	q2,q1,[x14]
	add	x14,x14,x11
	ldp	q6,q5,[x14]
	ushr	v3.16b,v1.16b,#4
	ushr	v4.16b,v2.16b,#4
	and	v1.16b,v1.16b,v0.16b
	and	v2.16b,v2.16b,v0.16b
	ushr	v16.16b,v5.16b,#4
	and	v5.16b,v5.16b,v0.16b
	and	v0.16b,v6.16b,v0.16b
	ushr	v6.16b,v6.16b,#4
	zip2	v7.16b,v3.16b,v1.16b
	zip1	v1.16b,v3.16b,v1.16b
	hex_value	q3,x9,.LCPI12_0
	zip2	v17.16b,v4.16b,v2.16b
	zip1	v2.16b,v4.16b,v2.16b
	zip1	v4.16b,v16.16b,v5.16b
	zip2	v5.16b,v16.16b,v5.16b
	zip1	v16.16b,v6.16b,v0.16b
	zip2	v0.16b,v6.16b,v0.16b
	add	x9,x12,x11,lsl #1
	tbl	v7.16b,{ v3.16b },v7.16b
	tbl	v1.16b,{ v3.16b },v1.16b
	tbl	v17.16b,{ v3.16b },v17.16b
	tbl	v2.16b,{ v3.16b },v2.16b
	tbl	v4.16b,{ v3.16b },v4.16b
	tbl	v0.16b,{ v3.16b },v0.16b
	stp	q1,q7,[x12,#32]
	tbl	v1.16b,{ v3.16b },v5.16b
	tbl	v5.16b,{ v3.16b },v16.16b
	stp	q2,q17,[x12]
	stp	q5,q0,[x9]
	stp	q4,q1,[x9,#32]
	b	111f
77:
	subs	x8,x28,#16
	b.hi	96f
	movi	v0.8b,#15
	add	x10,sp,#6,lsl #12
	ldr	d1,[sp,#24752]
	sub	x8,x28,#8
	add	x10,x10,#176
	lsl	x22,x28,#1
	ldr	d2,[x10,x8]
	ushr	v3.8b,v1.8b,#4
	lsl	x8,x8,#1
	and	v1.8b,v1.8b,v0.8b
	and	v0.8b,v2.8b,v0.8b
	ushr	v2.8b,v2.8b,#4
	zip1	v1.16b,v3.16b,v1.16b
	zip1	v0.16b,v2.16b,v0.16b
	hex_value	q3,x9,.LCPI12_0
	add	x9,sp,#176
	tbl	v1.16b,{ v3.16b },v1.16b
	tbl	v0.16b,{ v3.16b },v0.16b
	str	q1,[sp,#176]
	str	q0,[x9,x8]
	b	115f
79:
	lsr	x10,x28,#5
	add	x12,sp,#6,lsl #12
	add	x11,sp,#176
	add	x12,x12,#176
80:
	movi	v0.16b,#15
	subs	x10,x10,#1
	ldp	q2,q1,[x12],#32
	ushr	v3.16b,v1.16b,#4
	and	v1.16b,v1.16b,v0.16b
	ushr	v4.16b,v2.16b,#4
	and	v2.16b,v2.16b,v0.16b
	hex_value	q0,x9,.LCPI12_0
	zip2	v5.16b,v3.16b,v1.16b
	zip1	v1.16b,v3.16b,v1.16b
	zip2	v3.16b,v4.16b,v2.16b
	zip1	v2.16b,v4.16b,v2.16b
	tbl	v4.16b,{ v0.16b },v5.16b
	tbl	v1.16b,{ v0.16b },v1.16b
	tbl	v3.16b,{ v0.16b },v3.16b
	tbl	v2.16b,{ v0.16b },v2.16b
	stp	q1,q4,[x11,#32]
	stp	q2,q3,[x11],#64
	b.ne	80b
	tst	x28,#0x1f
	b.eq	121f
	add	x9,sp,#6,lsl #12
	movi	v1.16b,#15
	add	x9,x9,#176
	add	x9,x9,x8
	ldp	q3,q2,[x9]
	add	x9,sp,#176
	add	x8,x9,x8,lsl #1
	ushr	v4.16b,v2.16b,#4
	and	v2.16b,v2.16b,v1.16b
	ushr	v5.16b,v3.16b,#4
	and	v1.16b,v3.16b,v1.16b
	zip2	v3.16b,v4.16b,v2.16b
	zip1	v2.16b,v4.16b,v2.16b
	zip2	v4.16b,v5.16b,v1.16b
	zip1	v1.16b,v5.16b,v1.16b
	tbl	v3.16b,{ v0.16b },v3.16b
	tbl	v2.16b,{ v0.16b },v2.16b
	tbl	v4.16b,{ v0.16b },v4.16b
	tbl	v0.16b,{ v0.16b },v1.16b
83:
	stp	q0,q4,[x8]
	lsl	x22,x28,#1
	stp	q2,q3,[x8,#32]
	b	115f
84:
	add	x9,x9,xzr
	b	112f
85:
	cmp	x25,#64
	b.hi	100f
	ldr	x13,[sp]
	mov	x14,xzr
	mov	x10,xzr
	add	x15,x13,x8
	mov	x13,x28
87:
	add	x16,sp,#6,lsl #12
	movi	v0.16b,#15
	add	x17,x15,x10
	add	x16,x16,#176
	sub	x13,x13,x25
	add	x16,x16,x14
	cmp	x25,x13
	ldp	q2,q1,[x16]
	ldr	x16,[sp,#64]
	add	x16,x16,x14
	add	x14,x14,x25
	ushr	v3.16b,v1.16b,#4
	and	v1.16b,v1.16b,v0.16b
	ushr	v4.16b,v2.16b,#4
	ldp	q6,q5,[x16]
	and	v2.16b,v2.16b,v0.16b
	add	x16,x12,x10
	add	x10,x10,x27
	zip2	v7.16b,v3.16b,v1.16b
	zip1	v1.16b,v3.16b,v1.16b
	hex_value	q3,x9,.LCPI12_0
	ushr	v16.16b,v5.16b,#4
	and	v5.16b,v5.16b,v0.16b
	and	v0.16b,v6.16b,v0.16b
	ushr	v6.16b,v6.16b,#4
	zip2	v17.16b,v4.16b,v2.16b
	zip1	v2.16b,v4.16b,v2.16b
	add	x10,x10,#1
	zip1	v4.16b,v16.16b,v5.16b
	tbl	v7.16b,{ v3.16b },v7.16b
	zip2	v5.16b,v16.16b,v5.16b
	tbl	v1.16b,{ v3.16b },v1.16b
	zip1	v16.16b,v6.16b,v0.16b
	zip2	v0.16b,v6.16b,v0.16b
	tbl	v17.16b,{ v3.16b },v17.16b
	tbl	v2.16b,{ v3.16b },v2.16b
	tbl	v4.16b,{ v3.16b },v4.16b
	stp	q1,q7,[x16,#32]
	tbl	v1.16b,{ v3.16b },v5.16b
	tbl	v5.16b,{ v3.16b },v16.16b
	tbl	v0.16b,{ v3.16b },v0.16b
	stp	q2,q17,[x16]
	strb	w23,[x17]
	stp	q4,q1,[x17,#-32]
	stp	q5,q0,[x17,#-64]
	b.lo	87b
	b	52b
88:
	subs	x11,x13,#16
	b.hi	105f
	movi	v0.8b,#15
	ldr	d1,[x14]
	sub	x11,x13,#8
	ldr	d2,[x14,x11]
	ushr	v3.8b,v1.8b,#4
	and	v1.8b,v1.8b,v0.8b
	and	v0.8b,v2.8b,v0.8b
	ushr	v2.8b,v2.8b,#4
	zip1	v1.16b,v3.16b,v1.16b
	zip1	v0.16b,v2.16b,v0.16b
	hex_value	q3,x9,.LCPI12_0
	lsl	x9,x11,#1
	tbl	v1.16b,{ v3.16b },v1.16b
	tbl	v0.16b,{ v3.16b },v0.16b
	str	q1,[x12]
	str	q0,[x12,x9]
	b	111f
90:
	cmp	x13,#128
	b.hi	106f
	movi	v0.16b,#15
	ldp	q2,q1,[x14]
	ldp	q6,q5,[x14,#32]
	cmp	x13,#97
	ushr	v3.16b,v1.16b,#4
	ushr	v4.16b,v2.16b,#4
	and	v1.16b,v1.16b,v0.16b
	and	v2.16b,v2.16b,v0.16b
	ushr	v16.16b,v5.16b,#4
	and	v5.16b,v5.16b,v0.16b
	ushr	v18.16b,v6.16b,#4
	and	v6.16b,v6.16b,v0.16b
	zip2	v7.16b,v3.16b,v1.16b
	zip1	v3.16b,v3.16b,v1.16b
	hex_value	q1,x9,.LCPI12_0
	zip2	v17.16b,v4.16b,v2.16b
	zip1	v2.16b,v4.16b,v2.16b
	zip2	v4.16b,v16.16b,v5.16b
	zip1	v5.16b,v16.16b,v5.16b
	zip2	v16.16b,v18.16b,v6.16b
	zip1	v6.16b,v18.16b,v6.16b
	tbl	v7.16b,{ v1.16b },v7.16b
	tbl	v3.16b,{ v1.16b },v3.16b
	tbl	v17.16b,{ v1.16b },v17.16b
	tbl	v2.16b,{ v1.16b },v2.16b
	tbl	v4.16b,{ v1.16b },v4.16b
	tbl	v6.16b,{ v1.16b },v6.16b
	stp	q3,q7,[x12,#32]
	tbl	v3.16b,{ v1.16b },v5.16b
	tbl	v5.16b,{ v1.16b },v16.16b
	stp	q2,q17,[x12]
	stp	q6,q5,[x12,#64]
	stp	q3,q4,[x12,#96]
	b.lo	93f
	add	x9,x14,x15
	ldp	q3,q2,[x9]
	add	x9,x12,x15,lsl #1
	ushr	v4.16b,v2.16b,#4
	and	v2.16b,v2.16b,v0.16b
	ushr	v5.16b,v3.16b,#4
	and	v3.16b,v3.16b,v0.16b
	zip2	v6.16b,v4.16b,v2.16b
	zip1	v2.16b,v4.16b,v2.16b
	zip2	v4.16b,v5.16b,v3.16b
	zip1	v3.16b,v5.16b,v3.16b
	tbl	v5.16b,{ v1.16b },v6.16b
	tbl	v2.16b,{ v1.16b },v2.16b
	tbl	v4.16b,{ v1.16b },v4.16b
	tbl	v3.16b,{ v1.16b },v3.16b
	stp	q2,q5,[x9,#32]
	stp	q3,q4,[x9]
93:
	add	x9,x14,x11
	ldp	q3,q2,[x9]
	add	x9,x12,x11,lsl #1
	ushr	v4.16b,v2.16b,#4
	and	v2.16b,v2.16b,v0.16b
	ushr	v5.16b,v3.16b,#4
	and	v0.16b,v3.16b,v0.16b
	zip2	v3.16b,v4.16b,v2.16b
	zip1	v2.16b,v4.16b,v2.16b
	zip2	v4.16b,v5.16b,v0.16b
	zip1	v0.16b,v5.16b,v0.16b
	tbl	v3.16b,{ v1.16b },v3.16b
	tbl	v2.16b,{ v1.16b },v2.16b
	tbl	v4.16b,{ v1.16b },v4.16b
	tbl	v0.16b,{ v1.16b },v0.16b
	b	110f
94:
	cmp	x28,#3
	b.hi	120f
	add	x10,sp,#6,lsl #12
	ldr	h0,[x8]
	sub	x8,x28,#2
	add	x10,x10,#176
	lsl	x22,x28,#1
	ldr	h1,[x10,x8]
	ushll	v0.8h,v0.8b,#0
	hex_page	x10,.LCPI12_1
	hex_value	q4,x10,.LCPI12_1
	lsl	x8,x8,#1
	ushll	v1.8h,v1.8b,#0
	ushll	v3.4s,v0.4h,#0
	ushll	v1.4s,v1.4h,#0
	ushr	v2.2s,v3.2s,#4
	bic	v3.2s,#240
	ushr	v0.2s,v1.2s,#4
	bic	v1.2s,#240
	mov	v3.b[1],v3.b[4]
	mov	v2.b[1],v2.b[4]
	mov	v1.b[1],v1.b[4]
	mov	v0.b[1],v0.b[4]
	tbl	v2.16b,{ v2.16b,v3.16b },v4.16b
	tbl	v0.16b,{ v0.16b,v1.16b },v4.16b
	hex_value	q1,x9,.LCPI12_0
	add	x9,sp,#176
	tbl	v2.16b,{ v1.16b },v2.16b
	tbl	v0.16b,{ v1.16b },v0.16b
	zip1	v1.16b,v2.16b,v0.16b
	zip1	v0.16b,v0.16b,v0.16b
	xtn	v1.8b,v1.8h
	xtn	v0.8b,v0.8h
	str	s1,[sp,#176]
	str	s0,[x9,x8]
	b	115f
96:
	movi	v0.16b,#15
	add	x10,sp,#6,lsl #12
	ldr	q1,[sp,#24752]
	add	x10,x10,#176
	hex_value	q4,x9,.LCPI12_0
	add	x9,sp,#176
	ldr	q2,[x10,x8]
	ushr	v3.16b,v1.16b,#4
	add	x8,x9,x8,lsl #1
	lsl	x22,x28,#1
	and	v1.16b,v1.16b,v0.16b
	and	v0.16b,v2.16b,v0.16b
	ushr	v2.16b,v2.16b,#4
	tbl	v3.16b,{ v4.16b },v3.16b
	tbl	v1.16b,{ v4.16b },v1.16b
	tbl	v2.16b,{ v4.16b },v2.16b
	tbl	v0.16b,{ v4.16b },v0.16b
	zip1	v4.16b,v3.16b,v1.16b
	zip2	v1.16b,v3.16b,v1.16b
	zip1	v3.16b,v2.16b,v0.16b
	zip2	v0.16b,v2.16b,v0.16b
	stp	q4,q1,[sp,#176]
	stp	q3,q0,[x8]
	b	115f
97:
	cmp	x25,#17
	b.hs	122f
	ldr	x13,[sp]
	mov	x14,xzr
	mov	x10,xzr
	add	x15,x13,x8
	mov	x13,x28
99:
	add	x16,sp,#6,lsl #12
	movi	v0.8b,#15
	sub	x13,x13,x25
	add	x16,x16,#176
	cmp	x25,x13
	ldr	d1,[x16,x14]
	ldr	x16,[sp,#24]
	ldr	d2,[x16,x14]
	ushr	v3.8b,v1.8b,#4
	and	v1.8b,v1.8b,v0.8b
	add	x16,x15,x10
	add	x14,x14,x25
	and	v0.8b,v2.8b,v0.8b
	ushr	v2.8b,v2.8b,#4
	zip1	v1.16b,v3.16b,v1.16b
	zip1	v0.16b,v2.16b,v0.16b
	hex_value	q2,x9,.LCPI12_0
	tbl	v1.16b,{ v2.16b },v1.16b
	tbl	v0.16b,{ v2.16b },v0.16b
	str	q1,[x12,x10]
	add	x10,x10,x27
	add	x10,x10,#1
	strb	w23,[x16]
	stur	q0,[x16,#-16]
	b.lo	99b
	b	52b
100:
	cmp	x25,#129
	b.hs	124f
	ldr	x13,[sp]
	add	x16,sp,#6,lsl #12
	mov	x14,xzr
	mov	x10,xzr
	add	x16,x16,#176
	add	x15,x13,x8
	b	103f
102:
	sub	x13,x25,#32
	sub	x14,x14,x25
	add	x17,x15,x10
	add	x13,x16,x13
	add	x10,x10,x27
	add	x16,x16,x25
	ldp	q3,q2,[x13]
	add	x13,x28,x14
	cmp	x25,x13
	add	x10,x10,#1
	strb	w23,[x17]
	ushr	v4.16b,v2.16b,#4
	and	v2.16b,v2.16b,v0.16b
	ushr	v5.16b,v3.16b,#4
	and	v0.16b,v3.16b,v0.16b
	zip2	v3.16b,v4.16b,v2.16b
	zip1	v2.16b,v4.16b,v2.16b
	zip2	v4.16b,v5.16b,v0.16b
	zip1	v0.16b,v5.16b,v0.16b
	tbl	v3.16b,{ v1.16b },v3.16b
	tbl	v2.16b,{ v1.16b },v2.16b
	tbl	v4.16b,{ v1.16b },v4.16b
	tbl	v0.16b,{ v1.16b },v0.16b
	stp	q2,q3,[x17,#-32]
	stp	q0,q4,[x17,#-64]
	b.hs	131f
103:
	movi	v0.16b,#15
	ldp	q2,q1,[x16]
	ldp	q6,q5,[x16,#32]
	add	x13,x12,x10
	cmp	x25,#97
	ushr	v3.16b,v1.16b,#4
	ushr	v4.16b,v2.16b,#4
	and	v1.16b,v1.16b,v0.16b
	and	v2.16b,v2.16b,v0.16b
	ushr	v16.16b,v5.16b,#4
	and	v5.16b,v5.16b,v0.16b
	ushr	v18.16b,v6.16b,#4
	and	v6.16b,v6.16b,v0.16b
	zip2	v7.16b,v3.16b,v1.16b
	zip1	v3.16b,v3.16b,v1.16b
	hex_value	q1,x9,.LCPI12_0
	zip2	v17.16b,v4.16b,v2.16b
	zip1	v2.16b,v4.16b,v2.16b
	zip2	v4.16b,v16.16b,v5.16b
	zip1	v5.16b,v16.16b,v5.16b
	zip2	v16.16b,v18.16b,v6.16b
	zip1	v6.16b,v18.16b,v6.16b
	tbl	v7.16b,{ v1.16b },v7.16b
	tbl	v3.16b,{ v1.16b },v3.16b
	tbl	v17.16b,{ v1.16b },v17.16b
	tbl	v2.16b,{ v1.16b },v2.16b
	tbl	v4.16b,{ v1.16b },v4.16b
	tbl	v6.16b,{ v1.16b },v6.16b
	stp	q3,q7,[x13,#32]
	tbl	v3.16b,{ v1.16b },v5.16b
	tbl	v5.16b,{ v1.16b },v16.16b
	stp	q2,q17,[x13]
	stp	q6,q5,[x13,#64]
	stp	q3,q4,[x13,#96]
	b.lo	102b
	sub	x13,x25,#32
	add	x13,x16,x13
	ldp	q3,q2,[x13,#-32]
	add	x13,x15,x10
	ushr	v4.16b,v2.16b,#4
	and	v2.16b,v2.16b,v0.16b
	ushr	v5.16b,v3.16b,#4
	and	v3.16b,v3.16b,v0.16b
	zip2	v6.16b,v4.16b,v2.16b
	zip1	v2.16b,v4.16b,v2.16b
	zip2	v4.16b,v5.16b,v3.16b
	zip1	v3.16b,v5.16b,v3.16b
	tbl	v5.16b,{ v1.16b },v6.16b
	tbl	v2.16b,{ v1.16b },v2.16b
	tbl	v4.16b,{ v1.16b },v4.16b
	tbl	v3.16b,{ v1.16b },v3.16b
	stp	q2,q5,[x13,#-96]
	stp	q3,q4,[x13,#-128]
	b	102b
105:
	movi	v0.16b,#15
	ldr	q1,[x14]
	ldr	q2,[x14,x11]
	hex_value	q4,x9,.LCPI12_0
	add	x9,x12,x11,lsl #1
	ushr	v3.16b,v1.16b,#4
	and	v1.16b,v1.16b,v0.16b
	and	v0.16b,v2.16b,v0.16b
	ushr	v2.16b,v2.16b,#4
	tbl	v3.16b,{ v4.16b },v3.16b
	tbl	v1.16b,{ v4.16b },v1.16b
	tbl	v2.16b,{ v4.16b },v2.16b
	tbl	v0.16b,{ v4.16b },v0.16b
	zip1	v4.16b,v3.16b,v1.16b
	zip2	v1.16b,v3.16b,v1.16b
	zip1	v3.16b,v2.16b,v0.16b
	zip2	v0.16b,v2.16b,v0.16b
	stp	q4,q1,[x12]
	stp	q3,q0,[x9]
	b	111f
106:
	lsr	x15,x13,#5
	mov	x16,x14
	mov	x17,x12
107:
	movi	v0.16b,#15
	subs	x15,x15,#1
	ldp	q2,q1,[x16],#32
	ushr	v3.16b,v1.16b,#4
	and	v1.16b,v1.16b,v0.16b
	ushr	v4.16b,v2.16b,#4
	and	v2.16b,v2.16b,v0.16b
	hex_value	q0,x9,.LCPI12_0
	zip2	v5.16b,v3.16b,v1.16b
	zip1	v1.16b,v3.16b,v1.16b
	zip2	v3.16b,v4.16b,v2.16b
	zip1	v2.16b,v4.16b,v2.16b
	tbl	v4.16b,{ v0.16b },v5.16b
	tbl	v1.16b,{ v0.16b },v1.16b
	tbl	v3.16b,{ v0.16b },v3.16b
	tbl	v2.16b,{ v0.16b },v2.16b
	stp	q1,q4,[x17,#32]
	stp	q2,q3,[x17],#64
	b.ne	107b
	tst	x13,#0x1f
	b.eq	111f
	movi	v1.16b,#15
	add	x9,x14,x11
	ldp	q3,q2,[x9]
	add	x9,x12,x11,lsl #1
	ushr	v4.16b,v2.16b,#4
	and	v2.16b,v2.16b,v1.16b
	ushr	v5.16b,v3.16b,#4
	and	v1.16b,v3.16b,v1.16b
	zip2	v3.16b,v4.16b,v2.16b
	zip1	v2.16b,v4.16b,v2.16b
	zip2	v4.16b,v5.16b,v1.16b
	zip1	v1.16b,v5.16b,v1.16b
	tbl	v3.16b,{ v0.16b },v3.16b
	tbl	v2.16b,{ v0.16b },v2.16b
	tbl	v4.16b,{ v0.16b },v4.16b
	tbl	v0.16b,{ v0.16b },v1.16b
110:
	stp	q0,q4,[x9]
	stp	q2,q3,[x9,#32]
111:
	add	x9,x10,x13,lsl #1
112:
	cbz	x8,114f
	strb	w23,[sp,#176]
114:
	adds	x22,x9,x8
	b.eq	119f
115:
	mov	x21,xzr
116:
	add	x8,sp,#176
	sub	x2,x22,x21
	mov	w0,#1
	add	x1,x8,x21
	sub	x24,x22,x21
	bl	fhex_write
	tbnz	x0,#63,132f
	cmp	x0,x24
	csel	x8,x0,x24,lo
	cbz	x8,133f
	add	x21,x8,x21
	cmp	x21,x22
	b.lo	116b
119:
	adds	x26,x28,x26
	ldr	w28,[sp,#76]
	b.lo	3b
	b	139f
120:
	add	x10,sp,#6,lsl #12
	ldr	s0,[x8]
	sub	x8,x28,#4
	add	x10,x10,#176
	ldr	s1,[x10,x8]
	ushll	v0.8h,v0.8b,#0
	lsl	x8,x8,#1
	ushll	v1.8h,v1.8b,#0
	ushr	v2.4h,v0.4h,#4
	bic	v0.4h,#240
	ushr	v3.4h,v1.4h,#4
	bic	v1.4h,#240
	umov	w10,v2.h[0]
	umov	w11,v0.h[0]
	umov	w14,v2.h[1]
	umov	w16,v0.h[1]
	umov	w18,v2.h[2]
	umov	w1,v0.h[2]
	umov	w12,v3.h[0]
	umov	w13,v1.h[0]
	umov	w15,v3.h[1]
	umov	w17,v1.h[1]
	umov	w0,v3.h[2]
	umov	w2,v1.h[2]
	fmov	s4,w10
	umov	w3,v2.h[3]
	umov	w4,v3.h[3]
	umov	w5,v0.h[3]
	umov	w6,v1.h[3]
	hex_value	q0,x9,.LCPI12_0
	fmov	s5,w12
	add	x9,sp,#176
	mov	v4.b[1],w11
	mov	v5.b[1],w13
	mov	v4.b[2],w14
	mov	v5.b[2],w15
	mov	v4.b[3],w16
	mov	v5.b[3],w17
	mov	v4.b[4],w18
	mov	v5.b[4],w0
	mov	v4.b[5],w1
	mov	v5.b[5],w2
	mov	v4.b[6],w3
	mov	v5.b[6],w4
	mov	v4.b[7],w5
	mov	v5.b[7],w6
	mov	v4.b[8],w10
	mov	v5.b[8],w12
	mov	v4.b[9],w11
	mov	v5.b[9],w13
	mov	v4.b[10],w14
	mov	v5.b[10],w15
	mov	v4.b[11],w16
	mov	v5.b[11],w17
	mov	v4.b[12],w18
	mov	v5.b[12],w0
	mov	v4.b[13],w1
	mov	v5.b[13],w2
	mov	v4.b[14],w3
	mov	v5.b[14],w4
	mov	v4.b[15],w5
	mov	v5.b[15],w6
	tbl	v1.16b,{ v0.16b },v4.16b
	tbl	v0.16b,{ v0.16b },v5.16b
	str	d1,[sp,#176]
	str	d0,[x9,x8]
121:
	lsl	x22,x28,#1
	b	115b
122:
	ldr	x13,[sp]
	mov	x14,xzr
	mov	x10,xzr
	add	x15,x13,x8
	mov	x13,x28
123:
	add	x16,sp,#6,lsl #12
	movi	v0.16b,#15
	hex_value	q3,x9,.LCPI12_0
	add	x16,x16,#176
	sub	x13,x13,x25
	ldr	q1,[x16,x14]
	add	x16,x12,x10
	cmp	x25,x13
	ushr	v2.16b,v1.16b,#4
	and	v1.16b,v1.16b,v0.16b
	tbl	v4.16b,{ v3.16b },v2.16b
	tbl	v5.16b,{ v3.16b },v1.16b
	st2	{ v4.8b,v5.8b },[x16],#16
	ldr	x17,[sp,#32]
	ldr	q1,[x17,x14]
	add	x17,x15,x10
	add	x10,x10,x27
	sub	x18,x17,#32
	add	x14,x14,x25
	add	x10,x10,#1
	ushr	v2.16b,v1.16b,#4
	and	v0.16b,v1.16b,v0.16b
	tbl	v1.16b,{ v3.16b },v2.16b
	tbl	v2.16b,{ v3.16b },v0.16b
	zip2	v0.16b,v4.16b,v5.16b
	zip2	v3.16b,v1.16b,v2.16b
	str	q0,[x16]
	st2	{ v1.8b,v2.8b },[x18]
	strb	w23,[x17]
	stur	q3,[x17,#-16]
	b.lo	123b
	b	52b
124:
	add	x15,sp,#6,lsl #12
	add	x16,sp,#6,lsl #12
	mov	x14,xzr
	mov	x10,xzr
	add	x15,x15,#176
	add	x16,x16,#176
	mov	x17,x12
	b	126f
125:
	add	x14,x14,x25
	ldr	x18,[sp,#40]
	add	x10,x10,x27
	sub	x13,x28,x14
	strb	w23,[x12,x10]
	add	x10,x10,#1
	cmp	x25,x13
	add	x17,x17,x18
	add	x16,x16,x25
	b.hs	52b
126:
	ldr	x13,[sp,#56]
	cbz	x13,129f
	ldr	x0,[sp,#56]
	mov	x13,x16
	mov	x18,x17
128:
	movi	v0.16b,#15
	subs	x0,x0,#1
	ldp	q2,q1,[x13],#32
	ushr	v3.16b,v1.16b,#4
	and	v1.16b,v1.16b,v0.16b
	ushr	v4.16b,v2.16b,#4
	and	v0.16b,v2.16b,v0.16b
	zip2	v2.16b,v3.16b,v1.16b
	zip1	v1.16b,v3.16b,v1.16b
	hex_value	q3,x9,.LCPI12_0
	zip2	v5.16b,v4.16b,v0.16b
	zip1	v0.16b,v4.16b,v0.16b
	tbl	v2.16b,{ v3.16b },v2.16b
	tbl	v1.16b,{ v3.16b },v1.16b
	tbl	v4.16b,{ v3.16b },v5.16b
	tbl	v0.16b,{ v3.16b },v0.16b
	stp	q1,q2,[x18,#32]
	stp	q0,q4,[x18],#64
	b.ne	128b
129:
	and	x13,x25,#0x1f
	cbz	x13,125b
	add	x13,x15,x14
	sub	x18,x25,#32
	movi	v0.16b,#15
	add	x13,x13,x18
	ldr	x18,[sp,#16]
	ldp	q2,q1,[x13]
	add	x13,x12,x10
	add	x13,x13,x18
	ushr	v3.16b,v1.16b,#4
	and	v1.16b,v1.16b,v0.16b
	ushr	v4.16b,v2.16b,#4
	and	v0.16b,v2.16b,v0.16b
	zip2	v2.16b,v3.16b,v1.16b
	zip1	v1.16b,v3.16b,v1.16b
	hex_value	q3,x9,.LCPI12_0
	zip2	v5.16b,v4.16b,v0.16b
	zip1	v0.16b,v4.16b,v0.16b
	tbl	v2.16b,{ v3.16b },v2.16b
	tbl	v1.16b,{ v3.16b },v1.16b
	tbl	v4.16b,{ v3.16b },v5.16b
	tbl	v0.16b,{ v3.16b },v0.16b
	stp	q1,q2,[x13,#32]
	stp	q0,q4,[x13]
	b	125b
131:
	neg	x14,x14
	b	52b
132:
	sub	x0,x29,#104
	bl	std_io_io_error_last_error
	add	x9,sp,#6,lsl #12
	sub	x8,x29,#104
	add	x9,x9,#176
	ldur	q0,[x8,#8]
	ldur	q1,[x8,#72]
	ldr	x9,[x9,#8280]
	ldur	q2,[x8,#56]
	ldur	q3,[x8,#24]
	ldur	q4,[x8,#40]
	mov	w8,#1
	str	q1,[x20,#80]
	stp	x8,x9,[x20]
	ldr	x8,[x20,#96]
	stp	q0,q3,[x29,#-192]
	adds	x8,x8,#1
	stp	q2,q1,[x29,#-144]
	csinv	x9,x8,xzr,lo
	mov	w8,#2
	stur	q4,[x29,#-160]
	stp	q0,q3,[x20,#16]
	stp	q4,q2,[x20,#48]
	str	x9,[x20,#96]
	b	134f
133:
	ldr	x8,[x20,#96]
	adds	x8,x8,#1
	csinv	x8,x8,xzr,lo
	str	x8,[x20,#96]
	mov	w8,#258
134:
	mov	w9,#1
	stp	x9,x8,[x19]
135:
	stp	xzr,xzr,[x19,#24]
	str	xzr,[x19,#16]
136:
	add	sp,sp,#8,lsl #12
	add	sp,sp,#368
	ldp	x20,x19,[sp,#80]
	ldp	x22,x21,[sp,#64]
	ldp	x24,x23,[sp,#48]
	ldp	x26,x25,[sp,#32]
	ldp	x28,x27,[sp,#16]
	ldp	x29,x30,[sp],#96
	ret
137:
	movi	v0.2d,#0000000000000000
	mov	w8,#1
	str	x8,[x19]
	stur	q0,[x19,#8]
	stur	q0,[x19,#24]
	b	136b
138:
	stp	xzr,x26,[x19]
	b	135b
139:
	mov	w8,#1
	stp	xzr,xzr,[x19,#24]
	dup	v0.2d,x8
	mov	w8,#4
	str	x8,[x19,#16]
	str	q0,[x19]
	b	136b
140:
	add	x9,sp,#176
	orr	x8,x9,x8
141:
	strb	w23,[x8],#1
	b	141b
142:
	brk	#0x1
	hex_end	io_stream_encode_by
	hex_merged	16
	.p2align	4,0x0
.LCPI13_0:
	.byte	0,1,2,3,4,5,6,7,8,9,10,11,12,13,14,15
.LCPI13_1:
	.byte	16,17,18,19,20,21,22,23,24,25,26,27,28,29,30,31
.LCPI13_3:
	.quad	1
	.quad	8961
	hex_merged	8
	.p2align	3,0x0
.LCPI13_2:
	.byte	32,33,34,35,36,37,38,39
	hex_function	io_stream_read_again,.text
	sub	sp,sp,#416
	stp	x29,x30,[sp,#336]
	add	x29,sp,#336
	str	x28,[sp,#352]
	stp	x24,x23,[sp,#368]
	mov	x23,#-1
	stp	x22,x21,[sp,#384]
	mov	x21,x1
	add	x22,sp,#160
	stp	x20,x19,[sp,#400]
	mov	x20,x2
	mov	x19,x0
1:
	mov	w0,wzr
	mov	x1,x21
	mov	x2,x20
	bl	fhex_read
	tbz	x0,#63,7f
	add	x0,sp,#160
	add	x24,sp,#160
	bl	std_io_io_error_last_error
	ldur	q0,[x22,#72]
	ldur	q1,[x22,#56]
	hex_page	x9,.LCPI13_0
	ldur	q4,[x22,#8]
	ldur	q2,[x22,#40]
	ldr	x8,[sp,#160]
	stp	q1,q0,[x29,#-32]
	ldur	q3,[x22,#24]
	stp	q2,q1,[sp,#32]
	ubfx	w10,w8,#8,#8
	stur	q2,[x29,#-48]
	stp	q4,q3,[sp]
	cmp	w10,#41
	stp	q0,q4,[sp,#64]
	stp	q3,q2,[sp,#96]
	stp	q1,q0,[sp,#128]
	hex_value	q0,x9,.LCPI13_0
	hex_page	x9,.LCPI13_1
	hex_value	q1,x9,.LCPI13_1
	hex_page	x9,.LCPI13_2
	hex_value	d2,x9,.LCPI13_2
	mov	w9,#40
	stp	q0,q1,[sp,#160]
	str	d2,[sp,#192]
	strb	w9,[sp,#200]
	b.hs	6f
	ubfx	x9,x8,#8,#6
	ldrb	w9,[x24,x9]
	cmp	w9,#35
	b.ne	6f
	subs	x23,x23,#1
	b.ne	1b
	movi	v0.2d,#0000000000000000
	hex_page	x8,.LCPI13_3
	hex_value	q1,x8,.LCPI13_3
	stp	q1,q0,[x19]
	stp	q0,q0,[x19,#32]
	stp	q0,q0,[x19,#64]
	b	9f
6:
	mov	w9,#1
	b	8f
7:
	movi	v0.2d,#0000000000000000
	cmp	x0,x20
	mov	x9,xzr
	csel	x8,x0,x20,lo
	stp	q0,q0,[sp,#80]
	stp	q0,q0,[sp,#112]
	str	q0,[sp,#144]
8:
	ldp	q0,q1,[sp,#112]
	ldr	q2,[sp,#144]
	stp	x9,x8,[x19]
	str	q2,[x19,#80]
	stp	q0,q1,[x19,#48]
	ldp	q1,q0,[sp,#80]
	stp	q1,q0,[x19,#16]
9:
	ldp	x20,x19,[sp,#400]
	ldr	x28,[sp,#352]
	ldp	x22,x21,[sp,#384]
	ldp	x24,x23,[sp,#368]
	ldp	x29,x30,[sp,#336]
	add	sp,sp,#416
	ret
	hex_end	io_stream_read_again
	hex_function	io_stream_decoder_Decoder_error_in,.text.unlikely
	ldrb	w9,[x1,#1]
	ldrb	w8,[x1]
	and	w8,w8,#0xff
	cmp	w9,#1
	b.ne	8f
	cmp	w8,#2
	b.ne	14f
	mov	x8,xzr
	b	4f
3:
	add	x8,x8,#1
	cmp	x3,x8
	b.eq	43f
4:
	ldrb	w9,[x2,x8]
	mov	w10,#1
	mov	x11,#13824
	movk	x11,#1,lsl #32
	lsl	x10,x10,x9
	cmp	w9,#32
	and	x10,x10,x11
	ccmp	x10,#0,#4,ls
	b.ne	3b
	cmp	w9,#48
	b.lo	42f
	cmp	w9,#58
	b.lo	3b
	sub	w9,w9,#65
	cmp	w9,#5
	b.ls	3b
	b	42f
8:
	cmp	w8,#2
	b.ne	21f
	mov	x8,xzr
	b	11f
10:
	add	x8,x8,#1
	cmp	x3,x8
	b.eq	43f
11:
	ldrb	w9,[x2,x8]
	cmp	w9,#48
	b.lo	42f
	cmp	w9,#58
	b.lo	10b
	sub	w9,w9,#65
	cmp	w9,#5
	b.ls	10b
	b	42f
14:
	cmp	w8,#1
	b.ne	27f
	mov	x8,xzr
	b	17f
16:
	add	x8,x8,#1
	cmp	x3,x8
	b.eq	43f
17:
	ldrb	w9,[x2,x8]
	mov	w10,#1
	mov	x11,#13824
	movk	x11,#1,lsl #32
	lsl	x10,x10,x9
	cmp	w9,#32
	and	x10,x10,x11
	ccmp	x10,#0,#4,ls
	b.ne	16b
	cmp	w9,#48
	b.lo	42f
	cmp	w9,#58
	b.lo	16b
	sub	w9,w9,#97
	cmp	w9,#5
	b.ls	16b
	b	42f
21:
	cmp	w8,#1
	b.ne	35f
	mov	x8,xzr
	b	24f
23:
	add	x8,x8,#1
	cmp	x3,x8
	b.eq	43f
24:
	ldrb	w9,[x2,x8]
	cmp	w9,#48
	b.lo	42f
	cmp	w9,#58
	b.lo	23b
	sub	w9,w9,#97
	cmp	w9,#5
	b.ls	23b
	b	42f
27:
	mov	x8,xzr
	b	29f
28:
	add	x8,x8,#1
	cmp	x3,x8
	b.eq	43f
29:
	ldrb	w9,[x2,x8]
	mov	w10,#1
	mov	x11,#13824
	movk	x11,#1,lsl #32
	lsl	x10,x10,x9
	cmp	w9,#32
	and	x10,x10,x11
	ccmp	x10,#0,#4,ls
	b.ne	28b
	cmp	w9,#48
	b.lo	42f
	cmp	w9,#58
	b.lo	28b
	cmp	w9,#65
	b.lo	42f
	cmp	w9,#71
	b.lo	28b
	sub	w9,w9,#97
	cmp	w9,#5
	b.ls	28b
	b	42f
35:
	mov	x8,xzr
	b	37f
36:
	add	x8,x8,#1
	cmp	x3,x8
	b.eq	43f
37:
	ldrb	w9,[x2,x8]
	cmp	w9,#48
	b.lo	42f
	cmp	w9,#58
	b.lo	36b
	cmp	w9,#65
	b.lo	42f
	cmp	w9,#71
	b.lo	36b
	sub	w9,w9,#97
	cmp	w9,#5
	b.ls	36b
42:
	ldr	x10,[x1,#8]
	ldrb	w9,[x2,x8]
	stur	wzr,[x0,#17]
	str	wzr,[x0,#20]
	add	x8,x10,x8
	strb	w9,[x0,#16]
	stp	xzr,x8,[x0]
	ret
43:
	brk	#0x1
	hex_end	io_stream_decoder_Decoder_error_in
	hex_function	io_stream_decoder_Decoder_feed_valid,.text
	sub	sp,sp,#208
	ldr	x8,[x0,#8]
	stp	x20,x19,[sp,#192]
	stp	d15,d14,[sp,#64]
	adds	x19,x1,x8
	stp	d13,d12,[sp,#80]
	stp	d11,d10,[sp,#96]
	stp	d9,d8,[sp,#112]
	stp	x29,x30,[sp,#128]
	add	x29,sp,#128
	stp	x26,x25,[sp,#144]
	stp	x24,x23,[sp,#160]
	stp	x22,x21,[sp,#176]
	b.hs	2f
	ldrb	w10,[x0,#16]
	mov	x9,x3
	lsr	x3,x3,#1
	cmp	w10,#1
	cset	w8,eq
	and	w8,w8,w9
	add	x20,x3,x8
	cmp	x20,#2,lsl #12
	b.ls	4f
2:
	mov	x5,xzr
	mov	w11,wzr
3:
	ldp	x20,x19,[sp,#192]
	mov	w0,w11
	ldp	x22,x21,[sp,#176]
	mov	x1,x5
	ldp	x24,x23,[sp,#160]
	ldp	x26,x25,[sp,#144]
	ldp	x29,x30,[sp,#128]
	ldp	d9,d8,[sp,#112]
	ldp	d11,d10,[sp,#96]
	ldp	d13,d12,[sp,#80]
	ldp	d15,d14,[sp,#64]
	add	sp,sp,#208
	ret
4:
	ldrb	w8,[x0]
	cmp	w10,#1
	b.ne	12f
	ldrb	w21,[x0,#17]
	cbz	x9,21f
	subs	w23,w21,#48
	b.lo	98f
	ldrb	w10,[x2]
	cmp	w21,#57
	b.ls	30f
	cmp	w21,#65
	b.lo	98f
	cmp	w21,#71
	b.hs	27f
	cmp	w8,#1
	b.eq	98f
	sub	w23,w21,#55
	b	30f
12:
	and	x1,x9,#0xfffffffffffffffe
	cmp	x1,x9
	b.ne	14f
	mov	w22,wzr
	mov	w21,wzr
	cbnz	x1,17f
	b	22f
14:
	ldrb	w21,[x2,x1]
	cmp	w21,#48
	b.lo	2b
	cmp	w21,#58
	b.hs	38f
16:
	mov	w22,#1
	cbz	x1,22f
17:
	cmp	x9,#15
	b.hi	23f
	cmp	x9,#3
	add	x10,x2,x1
	b.hi	41f
	ldr	h0,[x2]
	sub	x9,x10,#2
	movi	v2.4h,#55
	movi	v3.16b,#143
	ld1	{ v0.h }[1],[x9]
	zip1	v0.8b,v0.8b,v0.8b
	fmov	d1,d0
	bic	v1.4h,#255,lsl #8
	uqsub	v1.4h,v1.4h,v2.4h
	movi	v2.2d,#0000000000000000
	umov	w9,v1.h[0]
	umov	w10,v1.h[1]
	mov	v2.b[0],w9
	umov	w9,v1.h[2]
	mov	v2.b[1],w10
	umov	w10,v1.h[3]
	mov	v2.b[2],w9
	hex_page	x9,.Lstatic.38
	hex_address	x9,x9,.Lstatic.38
	mov	v2.b[3],w10
	and	v2.16b,v2.16b,v3.16b
	ldr	q3,[x9,x8,lsl #4]
	hex_page	x9,.Lstatic.39
	hex_address	x9,x9,.Lstatic.39
	tbl	v2.16b,{ v3.16b },v2.16b
	ldr	b3,[x9,x8]
	dup	v3.4h,v3.h[0]
	zip1	v2.8b,v2.8b,v0.8b
	eor	v0.8b,v3.8b,v0.8b
	bic	v2.4h,#255,lsl #8
	uqsub	v1.4h,v2.4h,v1.4h
	movi	v2.4h,#240
	eor	v0.8b,v1.8b,v0.8b
	and	v1.8b,v0.8b,v2.8b
	fmov	x8,d1
	lsr	x9,x8,#32
	orr	w8,w8,w9
	orr	w8,w8,w8,lsr #16
	tst	w8,#0xff
	b.ne	2b
	uzp1	v0.8b,v0.8b,v0.8b
	mov	w8,#4097
	dup	v1.2s,w8
	add	x8,x4,x3
	zip1	v0.4h,v0.4h,v0.4h
	mul	v0.2s,v0.2s,v1.2s
	movi	d1,#0x00ffff0000ffff
	and	v0.8b,v0.8b,v1.8b
	ushr	v0.2s,v0.2s,#8
	mov	s1,v0.s[1]
	str	b0,[x4]
	stur	b1,[x8,#-1]
	b	22f
21:
	mov	w22,#1
22:
	mov	w11,#1
	mov	x5,x20
	str	x19,[x0,#8]
	strb	w22,[x0,#16]
	strb	w21,[x0,#17]
	b	3b
23:
	cmp	x1,#32
	b.hi	44f
	movi	v0.16b,#55
	b.ne	55f
	ldp	q1,q2,[x2]
	movi	v4.16b,#143
	hex_page	x9,.Lstatic.38
	hex_address	x9,x9,.Lstatic.38
	ldr	q6,[x9,x8,lsl #4]
	hex_page	x9,.Lstatic.39
	hex_address	x9,x9,.Lstatic.39
	uqsub	v3.16b,v2.16b,v0.16b
	uqsub	v0.16b,v1.16b,v0.16b
	add	x8,x9,x8
	and	v5.16b,v0.16b,v4.16b
	and	v4.16b,v3.16b,v4.16b
	tbl	v5.16b,{ v6.16b },v5.16b
	tbl	v4.16b,{ v6.16b },v4.16b
	ld1r	{ v6.16b },[x8]
	eor	v2.16b,v6.16b,v2.16b
	uqsub	v3.16b,v4.16b,v3.16b
	uqsub	v0.16b,v5.16b,v0.16b
	eor	v4.16b,v6.16b,v1.16b
	eor	v1.16b,v3.16b,v2.16b
	eor	v0.16b,v0.16b,v4.16b
	movi	v2.16b,#240
	orr	v3.16b,v0.16b,v1.16b
	and	v2.16b,v3.16b,v2.16b
	ext	v3.16b,v2.16b,v2.16b,#8
	orr	v2.8b,v2.8b,v3.8b
	fmov	x8,d2
	orr	x8,x8,x8,lsr #32
	lsr	x9,x8,#16
	orr	w8,w8,w9
	orr	w8,w8,w8,lsr #8
	tst	w8,#0xff
	b.ne	2b
	mov	w8,#4097
	dup	v2.8h,w8
	mul	v1.8h,v1.8h,v2.8h
	mul	v0.8h,v0.8h,v2.8h
	uzp2	v0.16b,v0.16b,v1.16b
	str	q0,[x4]
	b	22b
27:
	sub	w11,w21,#103
	and	w11,w11,#0xff
	cmp	w11,#250
	b.lo	98f
	cmp	w8,#2
	b.eq	98f
	sub	w23,w21,#87
30:
	subs	w24,w10,#48
	b.lo	2b
	cmp	w10,#57
	b.hi	34f
32:
	sub	x12,x9,#1
	add	x10,x2,#1
	and	x1,x12,#0xfffffffffffffffe
	cmp	x1,x12
	b.ne	47f
	mov	w22,wzr
	mov	w21,wzr
	b	50f
34:
	cmp	w10,#65
	b.lo	2b
	cmp	w10,#71
	b.hs	66f
	cmp	w8,#1
	b.eq	2b
	sub	w24,w10,#55
	b	32b
38:
	cmp	w21,#65
	b.lo	2b
	cmp	w21,#71
	b.hs	69f
	cmp	w8,#1
	b.eq	2b
	b	16b
41:
	hex_page	x11,.Lstatic.38
	hex_address	x11,x11,.Lstatic.38
	cmp	x9,#7
	ldr	q0,[x11,x8,lsl #4]
	b.hi	57f
	ldr	s1,[x2]
	sub	x9,x10,#4
	movi	v2.8b,#55
	movi	v3.16b,#143
	ld1	{ v1.s }[1],[x9]
	hex_page	x9,.Lstatic.39
	hex_address	x9,x9,.Lstatic.39
	add	x8,x9,x8
	uqsub	v2.8b,v1.8b,v2.8b
	and	v3.16b,v2.16b,v3.16b
	tbl	v0.16b,{ v0.16b },v3.16b
	ld1r	{ v3.8b },[x8]
	eor	v1.8b,v3.8b,v1.8b
	uqsub	v0.8b,v0.8b,v2.8b
	movi	v2.8b,#240
	eor	v0.8b,v0.8b,v1.8b
	and	v1.8b,v0.8b,v2.8b
	fmov	x8,d1
	orr	x8,x8,x8,lsr #32
	lsr	x9,x8,#16
	orr	w8,w8,w9
	orr	w8,w8,w8,lsr #8
	tst	w8,#0xff
	b.ne	2b
	mov	w8,#4097
	dup	v1.4h,w8
	add	x8,x4,x3
	mul	v0.4h,v0.4h,v1.4h
	ushr	v0.4h,v0.4h,#8
	ushll	v0.4s,v0.4h,#0
	ext	v1.16b,v0.16b,v0.16b,#8
	mov	s2,v0.s[1]
	str	b0,[x4]
	mov	s3,v1.s[1]
	stur	b2,[x4,#1]
	stur	b1,[x8,#-2]
	stur	b3,[x8,#-1]
	b	22b
44:
	cmp	x1,#64
	b.hi	59f
	movi	v0.16b,#55
	add	x9,x2,x1
	movi	v5.16b,#143
	ldp	q1,q2,[x2]
	ldp	q3,q4,[x9,#-32]
	hex_page	x9,.Lstatic.38
	hex_address	x9,x9,.Lstatic.38
	uqsub	v6.16b,v2.16b,v0.16b
	uqsub	v7.16b,v1.16b,v0.16b
	ldr	q19,[x9,x8,lsl #4]
	uqsub	v16.16b,v4.16b,v0.16b
	uqsub	v0.16b,v3.16b,v0.16b
	hex_page	x9,.Lstatic.39
	hex_address	x9,x9,.Lstatic.39
	add	x8,x9,x8
	and	v17.16b,v7.16b,v5.16b
	and	v18.16b,v6.16b,v5.16b
	and	v20.16b,v0.16b,v5.16b
	and	v5.16b,v16.16b,v5.16b
	tbl	v17.16b,{ v19.16b },v17.16b
	tbl	v18.16b,{ v19.16b },v18.16b
	tbl	v20.16b,{ v19.16b },v20.16b
	tbl	v5.16b,{ v19.16b },v5.16b
	ld1r	{ v19.16b },[x8]
	uqsub	v7.16b,v17.16b,v7.16b
	uqsub	v6.16b,v18.16b,v6.16b
	eor	v1.16b,v19.16b,v1.16b
	uqsub	v17.16b,v20.16b,v0.16b
	uqsub	v5.16b,v5.16b,v16.16b
	eor	v3.16b,v19.16b,v3.16b
	eor	v2.16b,v19.16b,v2.16b
	eor	v4.16b,v19.16b,v4.16b
	eor	v0.16b,v1.16b,v7.16b
	eor	v1.16b,v3.16b,v17.16b
	eor	v3.16b,v2.16b,v6.16b
	eor	v2.16b,v4.16b,v5.16b
	movi	v6.16b,#240
	orr	v4.16b,v3.16b,v2.16b
	orr	v5.16b,v0.16b,v1.16b
	orr	v4.16b,v5.16b,v4.16b
	and	v4.16b,v4.16b,v6.16b
	ext	v5.16b,v4.16b,v4.16b,#8
	orr	v4.8b,v4.8b,v5.8b
	fmov	x8,d4
	orr	x8,x8,x8,lsr #32
	lsr	x9,x8,#16
	orr	w8,w8,w9
	orr	w8,w8,w8,lsr #8
	tst	w8,#0xff
	b.ne	2b
	mov	w8,#4097
	dup	v4.8h,w8
	add	x8,x4,x3
	mul	v3.8h,v3.8h,v4.8h
	mul	v0.8h,v0.8h,v4.8h
	mul	v1.8h,v1.8h,v4.8h
	mul	v2.8h,v2.8h,v4.8h
	uzp2	v0.16b,v0.16b,v3.16b
	uzp2	v1.16b,v1.16b,v2.16b
	str	q0,[x4]
	stur	q1,[x8,#-16]
	b	22b
47:
	ldrb	w21,[x10,x1]
	cmp	w21,#48
	b.lo	2b
	cmp	w21,#58
	b.hs	74f
49:
	mov	w22,#1
50:
	cbz	x1,97f
	lsr	x3,x12,#1
	cmp	x9,#16
	add	x11,x4,#1
	b.hi	62f
	cmp	x9,#4
	add	x12,x10,x1
	b.hi	77f
	ldr	h0,[x10]
	sub	x9,x12,#2
	movi	v2.4h,#55
	movi	v3.16b,#143
	ld1	{ v0.h }[1],[x9]
	zip1	v0.8b,v0.8b,v0.8b
	fmov	d1,d0
	bic	v1.4h,#255,lsl #8
	uqsub	v1.4h,v1.4h,v2.4h
	movi	v2.2d,#0000000000000000
	umov	w9,v1.h[0]
	umov	w10,v1.h[1]
	mov	v2.b[0],w9
	umov	w9,v1.h[2]
	mov	v2.b[1],w10
	umov	w10,v1.h[3]
	mov	v2.b[2],w9
	hex_page	x9,.Lstatic.38
	hex_address	x9,x9,.Lstatic.38
	mov	v2.b[3],w10
	and	v2.16b,v2.16b,v3.16b
	ldr	q3,[x9,x8,lsl #4]
	hex_page	x9,.Lstatic.39
	hex_address	x9,x9,.Lstatic.39
	tbl	v2.16b,{ v3.16b },v2.16b
	ldr	b3,[x9,x8]
	dup	v3.4h,v3.h[0]
	zip1	v2.8b,v2.8b,v0.8b
	eor	v0.8b,v3.8b,v0.8b
	bic	v2.4h,#255,lsl #8
	uqsub	v1.4h,v2.4h,v1.4h
	movi	v2.4h,#240
	eor	v0.8b,v1.8b,v0.8b
	and	v1.8b,v0.8b,v2.8b
	fmov	x8,d1
	lsr	x9,x8,#32
	orr	w8,w8,w9
	orr	w8,w8,w8,lsr #16
	tst	w8,#0xff
	b.ne	2b
	uzp1	v0.8b,v0.8b,v0.8b
	mov	w8,#4097
	dup	v1.2s,w8
	add	x8,x11,x3
	zip1	v0.4h,v0.4h,v0.4h
	mul	v0.2s,v0.2s,v1.2s
	movi	d1,#0x00ffff0000ffff
	and	v0.8b,v0.8b,v1.8b
	ushr	v0.2s,v0.2s,#8
	mov	s1,v0.s[1]
	str	b0,[x11]
	stur	b1,[x8,#-1]
	b	97f
55:
	add	x9,x2,x1
	ldr	q1,[x2]
	movi	v4.16b,#143
	ldur	q2,[x9,#-16]
	hex_page	x9,.Lstatic.38
	hex_address	x9,x9,.Lstatic.38
	ldr	q6,[x9,x8,lsl #4]
	hex_page	x9,.Lstatic.39
	hex_address	x9,x9,.Lstatic.39
	uqsub	v3.16b,v2.16b,v0.16b
	uqsub	v0.16b,v1.16b,v0.16b
	add	x8,x9,x8
	and	v5.16b,v0.16b,v4.16b
	and	v4.16b,v3.16b,v4.16b
	tbl	v5.16b,{ v6.16b },v5.16b
	tbl	v4.16b,{ v6.16b },v4.16b
	ld1r	{ v6.16b },[x8]
	eor	v1.16b,v6.16b,v1.16b
	eor	v2.16b,v6.16b,v2.16b
	uqsub	v0.16b,v5.16b,v0.16b
	uqsub	v3.16b,v4.16b,v3.16b
	eor	v0.16b,v0.16b,v1.16b
	eor	v1.16b,v3.16b,v2.16b
	movi	v2.16b,#240
	orr	v3.16b,v0.16b,v1.16b
	and	v2.16b,v3.16b,v2.16b
	ext	v3.16b,v2.16b,v2.16b,#8
	orr	v2.8b,v2.8b,v3.8b
	fmov	x8,d2
	orr	x8,x8,x8,lsr #32
	lsr	x9,x8,#16
	orr	w8,w8,w9
	orr	w8,w8,w8,lsr #8
	tst	w8,#0xff
	b.ne	2b
	mov	w8,#4097
	dup	v2.8h,w8
	add	x8,x4,x3
	mul	v0.8h,v0.8h,v2.8h
	mul	v1.8h,v1.8h,v2.8h
	shrn	v0.8b,v0.8h,#8
	shrn	v1.8b,v1.8h,#8
	str	d0,[x4]
	stur	d1,[x8,#-8]
	b	22b
57:
	ldr	d1,[x2]
	ldur	d2,[x10,#-8]
	movi	v3.16b,#143
	hex_page	x9,.Lstatic.39
	hex_address	x9,x9,.Lstatic.39
	mov	v1.d[1],v2.d[0]
	movi	v2.16b,#55
	add	x8,x9,x8
	uqsub	v2.16b,v1.16b,v2.16b
	and	v3.16b,v2.16b,v3.16b
	tbl	v0.16b,{ v0.16b },v3.16b
	ld1r	{ v3.16b },[x8]
	eor	v1.16b,v3.16b,v1.16b
	uqsub	v0.16b,v0.16b,v2.16b
	movi	v2.16b,#240
	eor	v0.16b,v0.16b,v1.16b
	and	v1.16b,v0.16b,v2.16b
	ext	v2.16b,v1.16b,v1.16b,#8
	orr	v1.8b,v1.8b,v2.8b
	fmov	x8,d1
	orr	x8,x8,x8,lsr #32
	lsr	x9,x8,#16
	orr	w8,w8,w9
	orr	w8,w8,w8,lsr #8
	tst	w8,#0xff
	b.ne	2b
	mov	w8,#4097
	dup	v1.8h,w8
	add	x8,x4,x3
	mul	v0.8h,v0.8h,v1.8h
	ushr	v1.8h,v0.8h,#8
	shrn	v0.8b,v0.8h,#8
	dup	v1.2d,v1.d[1]
	str	s0,[x4]
	xtn	v1.8b,v1.8h
	stur	s1,[x8,#-4]
	b	22b
59:
	cmp	x1,#128
	b.hi	71f
	movi	v4.16b,#55
	add	x9,x2,x1
	movi	v5.16b,#143
	ldp	q0,q2,[x2]
	ldp	q1,q3,[x2,#32]
	ldp	q6,q7,[x9,#-64]
	ldp	q16,q17,[x9,#-32]
	uqsub	v18.16b,v2.16b,v4.16b
	uqsub	v19.16b,v3.16b,v4.16b
	uqsub	v20.16b,v1.16b,v4.16b
	uqsub	v21.16b,v0.16b,v4.16b
	uqsub	v24.16b,v7.16b,v4.16b
	hex_page	x9,.Lstatic.38
	hex_address	x9,x9,.Lstatic.38
	uqsub	v22.16b,v17.16b,v4.16b
	uqsub	v23.16b,v16.16b,v4.16b
	uqsub	v4.16b,v6.16b,v4.16b
	and	v26.16b,v18.16b,v5.16b
	ldr	q25,[x9,x8,lsl #4]
	hex_page	x9,.Lstatic.39
	hex_address	x9,x9,.Lstatic.39
	and	v27.16b,v21.16b,v5.16b
	and	v28.16b,v20.16b,v5.16b
	and	v29.16b,v19.16b,v5.16b
	and	v30.16b,v24.16b,v5.16b
	add	x8,x9,x8
	and	v31.16b,v23.16b,v5.16b
	and	v8.16b,v22.16b,v5.16b
	and	v5.16b,v4.16b,v5.16b
	tbl	v26.16b,{ v25.16b },v26.16b
	tbl	v27.16b,{ v25.16b },v27.16b
	tbl	v28.16b,{ v25.16b },v28.16b
	tbl	v29.16b,{ v25.16b },v29.16b
	tbl	v30.16b,{ v25.16b },v30.16b
	tbl	v31.16b,{ v25.16b },v31.16b
	tbl	v8.16b,{ v25.16b },v8.16b
	tbl	v5.16b,{ v25.16b },v5.16b
	ld1r	{ v25.16b },[x8]
	uqsub	v18.16b,v26.16b,v18.16b
	uqsub	v21.16b,v27.16b,v21.16b
	uqsub	v20.16b,v28.16b,v20.16b
	uqsub	v19.16b,v29.16b,v19.16b
	uqsub	v24.16b,v30.16b,v24.16b
	uqsub	v22.16b,v8.16b,v22.16b
	uqsub	v23.16b,v31.16b,v23.16b
	uqsub	v26.16b,v5.16b,v4.16b
	eor	v2.16b,v2.16b,v25.16b
	eor	v3.16b,v3.16b,v25.16b
	eor	v0.16b,v0.16b,v25.16b
	eor	v1.16b,v1.16b,v25.16b
	eor	v16.16b,v16.16b,v25.16b
	eor	v27.16b,v7.16b,v25.16b
	eor	v17.16b,v17.16b,v25.16b
	eor	v25.16b,v6.16b,v25.16b
	eor	v5.16b,v18.16b,v2.16b
	eor	v4.16b,v19.16b,v3.16b
	eor	v6.16b,v21.16b,v0.16b
	eor	v7.16b,v20.16b,v1.16b
	eor	v2.16b,v16.16b,v23.16b
	eor	v0.16b,v27.16b,v24.16b
	eor	v3.16b,v17.16b,v22.16b
	eor	v1.16b,v25.16b,v26.16b
	orr	v16.16b,v2.16b,v7.16b
	orr	v19.16b,v0.16b,v5.16b
	orr	v17.16b,v1.16b,v6.16b
	orr	v18.16b,v3.16b,v4.16b
	orr	v18.16b,v19.16b,v18.16b
	orr	v16.16b,v17.16b,v16.16b
	movi	v17.16b,#240
	orr	v16.16b,v16.16b,v18.16b
	and	v16.16b,v16.16b,v17.16b
	ext	v17.16b,v16.16b,v16.16b,#8
	orr	v16.8b,v16.8b,v17.8b
	fmov	x8,d16
	orr	x8,x8,x8,lsr #32
	lsr	x9,x8,#16
	orr	w8,w8,w9
	orr	w8,w8,w8,lsr #8
	tst	w8,#0xff
	b.ne	2b
	mov	w8,#4097
	dup	v16.8h,w8
	add	x8,x4,x3
	mul	v5.8h,v5.8h,v16.8h
	mul	v6.8h,v6.8h,v16.8h
	mul	v7.8h,v7.8h,v16.8h
	mul	v4.8h,v4.8h,v16.8h
	mul	v2.8h,v2.8h,v16.8h
	mul	v3.8h,v3.8h,v16.8h
	mul	v0.8h,v0.8h,v16.8h
	mul	v1.8h,v1.8h,v16.8h
	uzp2	v5.16b,v6.16b,v5.16b
	uzp2	v4.16b,v7.16b,v4.16b
	uzp2	v2.16b,v2.16b,v3.16b
	uzp2	v0.16b,v1.16b,v0.16b
	stp	q5,q4,[x4]
	stp	q0,q2,[x8,#-32]
	b	22b
62:
	cmp	x1,#32
	b.hi	80f
	movi	v0.16b,#55
	b.ne	84f
	ldp	q1,q2,[x10]
	movi	v4.16b,#143
	hex_page	x9,.Lstatic.38
	hex_address	x9,x9,.Lstatic.38
	ldr	q6,[x9,x8,lsl #4]
	hex_page	x9,.Lstatic.39
	hex_address	x9,x9,.Lstatic.39
	uqsub	v3.16b,v2.16b,v0.16b
	uqsub	v0.16b,v1.16b,v0.16b
	add	x8,x9,x8
	and	v5.16b,v0.16b,v4.16b
	and	v4.16b,v3.16b,v4.16b
	tbl	v5.16b,{ v6.16b },v5.16b
	tbl	v4.16b,{ v6.16b },v4.16b
	ld1r	{ v6.16b },[x8]
	eor	v2.16b,v6.16b,v2.16b
	uqsub	v3.16b,v4.16b,v3.16b
	uqsub	v0.16b,v5.16b,v0.16b
	eor	v4.16b,v6.16b,v1.16b
	eor	v1.16b,v3.16b,v2.16b
	eor	v0.16b,v0.16b,v4.16b
	movi	v2.16b,#240
	orr	v3.16b,v0.16b,v1.16b
	and	v2.16b,v3.16b,v2.16b
	ext	v3.16b,v2.16b,v2.16b,#8
	orr	v2.8b,v2.8b,v3.8b
	fmov	x8,d2
	orr	x8,x8,x8,lsr #32
	lsr	x9,x8,#16
	orr	w8,w8,w9
	orr	w8,w8,w8,lsr #8
	tst	w8,#0xff
	b.ne	2b
	mov	w8,#4097
	dup	v2.8h,w8
	mul	v1.8h,v1.8h,v2.8h
	mul	v0.8h,v0.8h,v2.8h
	uzp2	v0.16b,v0.16b,v1.16b
	str	q0,[x11]
	b	97f
66:
	mov	w11,wzr
	cmp	w8,#2
	mov	x5,xzr
	b.eq	3b
	sub	w12,w10,#103
	and	w12,w12,#0xff
	cmp	w12,#250
	b.lo	3b
	sub	w24,w10,#87
	b	32b
69:
	mov	w11,wzr
	cmp	w8,#2
	mov	x5,xzr
	b.eq	3b
	sub	w10,w21,#103
	and	w10,w10,#0xff
	cmp	w10,#250
	b.hs	16b
	b	3b
71:
	mov	x23,x0
	cmp	x1,#192
	b.hi	83f
	movi	v1.16b,#55
	ldp	q19,q4,[x2,#32]
	ldp	q17,q0,[x2]
	movi	v5.16b,#143
	hex_page	x9,.Lstatic.38
	hex_address	x9,x9,.Lstatic.38
	hex_page	x10,.Lstatic.39
	hex_address	x10,x10,.Lstatic.39
	ldr	q2,[x9,x8,lsl #4]
	add	x9,x2,x1
	uqsub	v20.16b,v19.16b,v1.16b
	uqsub	v23.16b,v0.16b,v1.16b
	uqsub	v21.16b,v17.16b,v1.16b
	uqsub	v22.16b,v4.16b,v1.16b
	ldp	q16,q7,[x2,#96]
	ldp	q30,q24,[x9,#-64]
	add	x8,x10,x8
	ldp	q6,q3,[x2,#64]
	ld1r	{ v18.16b },[x8]
	and	v27.16b,v20.16b,v5.16b
	and	v28.16b,v23.16b,v5.16b
	and	v26.16b,v21.16b,v5.16b
	uqsub	v9.16b,v16.16b,v1.16b
	and	v29.16b,v22.16b,v5.16b
	uqsub	v14.16b,v30.16b,v1.16b
	ldp	q25,q31,[x9,#-32]
	uqsub	v8.16b,v6.16b,v1.16b
	tbl	v27.16b,{ v2.16b },v27.16b
	tbl	v28.16b,{ v2.16b },v28.16b
	tbl	v26.16b,{ v2.16b },v26.16b
	uqsub	v10.16b,v3.16b,v1.16b
	uqsub	v11.16b,v7.16b,v1.16b
	tbl	v29.16b,{ v2.16b },v29.16b
	eor	v19.16b,v19.16b,v18.16b
	uqsub	v12.16b,v31.16b,v1.16b
	uqsub	v13.16b,v24.16b,v1.16b
	stp	q30,q6,[sp,#16]
	and	v15.16b,v8.16b,v5.16b
	eor	v6.16b,v4.16b,v18.16b
	uqsub	v20.16b,v27.16b,v20.16b
	and	v27.16b,v9.16b,v5.16b
	uqsub	v23.16b,v28.16b,v23.16b
	uqsub	v28.16b,v25.16b,v1.16b
	and	v1.16b,v14.16b,v5.16b
	uqsub	v21.16b,v26.16b,v21.16b
	and	v26.16b,v10.16b,v5.16b
	and	v4.16b,v11.16b,v5.16b
	str	q3,[sp]
	tbl	v27.16b,{ v2.16b },v27.16b
	eor	v17.16b,v17.16b,v18.16b
	uqsub	v22.16b,v29.16b,v22.16b
	eor	v3.16b,v0.16b,v18.16b
	eor	v30.16b,v20.16b,v19.16b
	tbl	v19.16b,{ v2.16b },v1.16b
	and	v29.16b,v13.16b,v5.16b
	and	v0.16b,v12.16b,v5.16b
	tbl	v15.16b,{ v2.16b },v15.16b
	tbl	v26.16b,{ v2.16b },v26.16b
	tbl	v4.16b,{ v2.16b },v4.16b
	and	v5.16b,v28.16b,v5.16b
	eor	v1.16b,v21.16b,v17.16b
	eor	v21.16b,v23.16b,v3.16b
	ldr	q23,[sp]
	uqsub	v3.16b,v27.16b,v9.16b
	tbl	v29.16b,{ v2.16b },v29.16b
	tbl	v20.16b,{ v2.16b },v0.16b
	eor	v0.16b,v22.16b,v6.16b
	tbl	v2.16b,{ v2.16b },v5.16b
	uqsub	v22.16b,v19.16b,v14.16b
	ldr	q19,[sp,#32]
	eor	v16.16b,v16.16b,v18.16b
	uqsub	v6.16b,v15.16b,v8.16b
	uqsub	v4.16b,v4.16b,v11.16b
	uqsub	v5.16b,v26.16b,v10.16b
	eor	v7.16b,v7.16b,v18.16b
	eor	v19.16b,v19.16b,v18.16b
	eor	v23.16b,v23.16b,v18.16b
	uqsub	v17.16b,v29.16b,v13.16b
	eor	v3.16b,v16.16b,v3.16b
	ldr	q16,[sp,#16]
	uqsub	v20.16b,v20.16b,v12.16b
	uqsub	v26.16b,v2.16b,v28.16b
	eor	v2.16b,v18.16b,v24.16b
	eor	v27.16b,v18.16b,v31.16b
	eor	v24.16b,v18.16b,v16.16b
	eor	v25.16b,v18.16b,v25.16b
	eor	v18.16b,v19.16b,v6.16b
	eor	v16.16b,v7.16b,v4.16b
	eor	v19.16b,v23.16b,v5.16b
	orr	v4.16b,v3.16b,v30.16b
	eor	v2.16b,v2.16b,v17.16b
	eor	v7.16b,v27.16b,v20.16b
	eor	v6.16b,v24.16b,v22.16b
	eor	v17.16b,v25.16b,v26.16b
	orr	v22.16b,v18.16b,v1.16b
	orr	v5.16b,v19.16b,v21.16b
	orr	v20.16b,v16.16b,v0.16b
	orr	v4.16b,v4.16b,v17.16b
	orr	v22.16b,v22.16b,v6.16b
	orr	v20.16b,v20.16b,v7.16b
	orr	v5.16b,v5.16b,v2.16b
	orr	v4.16b,v22.16b,v4.16b
	orr	v5.16b,v5.16b,v20.16b
	movi	v20.16b,#240
	orr	v4.16b,v4.16b,v5.16b
	and	v4.16b,v4.16b,v20.16b
	ext	v5.16b,v4.16b,v4.16b,#8
	orr	v4.8b,v4.8b,v5.8b
	fmov	x8,d4
	orr	x8,x8,x8,lsr #32
	lsr	x9,x8,#16
	orr	w8,w8,w9
	orr	w8,w8,w8,lsr #8
	tst	w8,#0xff
	b.ne	2b
	mov	w8,#4097
	mov	x0,x23
	dup	v4.8h,w8
	add	x8,x4,x3
	mul	v5.8h,v21.8h,v4.8h
	mul	v1.8h,v1.8h,v4.8h
	mul	v20.8h,v30.8h,v4.8h
	mul	v0.8h,v0.8h,v4.8h
	mul	v19.8h,v19.8h,v4.8h
	mul	v18.8h,v18.8h,v4.8h
	mul	v3.8h,v3.8h,v4.8h
	mul	v16.8h,v16.8h,v4.8h
	mul	v17.8h,v17.8h,v4.8h
	mul	v7.8h,v7.8h,v4.8h
	mul	v2.8h,v2.8h,v4.8h
	mul	v4.8h,v6.8h,v4.8h
	uzp2	v1.16b,v1.16b,v5.16b
	uzp2	v0.16b,v20.16b,v0.16b
	uzp2	v5.16b,v18.16b,v19.16b
	uzp2	v3.16b,v3.16b,v16.16b
	uzp2	v6.16b,v17.16b,v7.16b
	stp	q1,q0,[x4]
	uzp2	v1.16b,v4.16b,v2.16b
	stp	q5,q3,[x4,#32]
	stp	q1,q6,[x8,#-32]
	b	22b
74:
	cmp	w21,#65
	b.lo	2b
	cmp	w21,#71
	b.hs	91f
	cmp	w8,#1
	b.eq	2b
	b	49b
77:
	hex_page	x13,.Lstatic.38
	hex_address	x13,x13,.Lstatic.38
	cmp	x9,#8
	ldr	q0,[x13,x8,lsl #4]
	b.hi	86f
	ldr	s1,[x10]
	sub	x9,x12,#4
	movi	v2.8b,#55
	movi	v3.16b,#143
	ld1	{ v1.s }[1],[x9]
	hex_page	x9,.Lstatic.39
	hex_address	x9,x9,.Lstatic.39
	add	x8,x9,x8
	uqsub	v2.8b,v1.8b,v2.8b
	and	v3.16b,v2.16b,v3.16b
	tbl	v0.16b,{ v0.16b },v3.16b
	ld1r	{ v3.8b },[x8]
	eor	v1.8b,v3.8b,v1.8b
	uqsub	v0.8b,v0.8b,v2.8b
	movi	v2.8b,#240
	eor	v0.8b,v0.8b,v1.8b
	and	v1.8b,v0.8b,v2.8b
	fmov	x8,d1
	orr	x8,x8,x8,lsr #32
	lsr	x9,x8,#16
	orr	w8,w8,w9
	orr	w8,w8,w8,lsr #8
	tst	w8,#0xff
	b.ne	2b
	mov	w8,#4097
	dup	v1.4h,w8
	add	x8,x11,x3
	mul	v0.4h,v0.4h,v1.4h
	ushr	v0.4h,v0.4h,#8
	ushll	v0.4s,v0.4h,#0
	ext	v1.16b,v0.16b,v0.16b,#8
	mov	s2,v0.s[1]
	str	b0,[x11]
	mov	s3,v1.s[1]
	stur	b2,[x11,#1]
	stur	b1,[x8,#-2]
	stur	b3,[x8,#-1]
	b	97f
80:
	cmp	x1,#64
	b.hi	88f
	movi	v0.16b,#55
	add	x9,x10,x1
	movi	v5.16b,#143
	ldp	q1,q2,[x10]
	ldp	q3,q4,[x9,#-32]
	hex_page	x9,.Lstatic.38
	hex_address	x9,x9,.Lstatic.38
	uqsub	v6.16b,v2.16b,v0.16b
	uqsub	v7.16b,v1.16b,v0.16b
	ldr	q19,[x9,x8,lsl #4]
	uqsub	v16.16b,v4.16b,v0.16b
	uqsub	v0.16b,v3.16b,v0.16b
	hex_page	x9,.Lstatic.39
	hex_address	x9,x9,.Lstatic.39
	add	x8,x9,x8
	and	v17.16b,v7.16b,v5.16b
	and	v18.16b,v6.16b,v5.16b
	and	v20.16b,v0.16b,v5.16b
	and	v5.16b,v16.16b,v5.16b
	tbl	v17.16b,{ v19.16b },v17.16b
	tbl	v18.16b,{ v19.16b },v18.16b
	tbl	v20.16b,{ v19.16b },v20.16b
	tbl	v5.16b,{ v19.16b },v5.16b
	ld1r	{ v19.16b },[x8]
	uqsub	v7.16b,v17.16b,v7.16b
	uqsub	v6.16b,v18.16b,v6.16b
	eor	v1.16b,v19.16b,v1.16b
	uqsub	v17.16b,v20.16b,v0.16b
	uqsub	v5.16b,v5.16b,v16.16b
	eor	v3.16b,v19.16b,v3.16b
	eor	v2.16b,v19.16b,v2.16b
	eor	v4.16b,v19.16b,v4.16b
	eor	v0.16b,v1.16b,v7.16b
	eor	v1.16b,v3.16b,v17.16b
	eor	v3.16b,v2.16b,v6.16b
	eor	v2.16b,v4.16b,v5.16b
	movi	v6.16b,#240
	orr	v4.16b,v3.16b,v2.16b
	orr	v5.16b,v0.16b,v1.16b
	orr	v4.16b,v5.16b,v4.16b
	and	v4.16b,v4.16b,v6.16b
	ext	v5.16b,v4.16b,v4.16b,#8
	orr	v4.8b,v4.8b,v5.8b
	fmov	x8,d4
	orr	x8,x8,x8,lsr #32
	lsr	x9,x8,#16
	orr	w8,w8,w9
	orr	w8,w8,w8,lsr #8
	tst	w8,#0xff
	b.ne	2b
	mov	w8,#4097
	dup	v4.8h,w8
	add	x8,x11,x3
	mul	v3.8h,v3.8h,v4.8h
	mul	v0.8h,v0.8h,v4.8h
	mul	v1.8h,v1.8h,v4.8h
	mul	v2.8h,v2.8h,v4.8h
	uzp2	v0.16b,v0.16b,v3.16b
	uzp2	v1.16b,v1.16b,v2.16b
	str	q0,[x11]
	stur	q1,[x8,#-16]
	b	97f
83:
	mov	x0,x2
	mov	x2,x4
	mov	w4,w8
	bl	core_plain_decode_many_outlined
	mov	w8,w0
	mov	x0,x23
	tbz	w8,#0,2b
	b	22b
84:
	add	x9,x10,x1
	ldr	q1,[x10]
	movi	v4.16b,#143
	ldur	q2,[x9,#-16]
	hex_page	x9,.Lstatic.38
	hex_address	x9,x9,.Lstatic.38
	ldr	q6,[x9,x8,lsl #4]
	hex_page	x9,.Lstatic.39
	hex_address	x9,x9,.Lstatic.39
	uqsub	v3.16b,v2.16b,v0.16b
	uqsub	v0.16b,v1.16b,v0.16b
	add	x8,x9,x8
	and	v5.16b,v0.16b,v4.16b
	and	v4.16b,v3.16b,v4.16b
	tbl	v5.16b,{ v6.16b },v5.16b
	tbl	v4.16b,{ v6.16b },v4.16b
	ld1r	{ v6.16b },[x8]
	eor	v1.16b,v6.16b,v1.16b
	eor	v2.16b,v6.16b,v2.16b
	uqsub	v0.16b,v5.16b,v0.16b
	uqsub	v3.16b,v4.16b,v3.16b
	eor	v0.16b,v0.16b,v1.16b
	eor	v1.16b,v3.16b,v2.16b
	movi	v2.16b,#240
	orr	v3.16b,v0.16b,v1.16b
	and	v2.16b,v3.16b,v2.16b
	ext	v3.16b,v2.16b,v2.16b,#8
	orr	v2.8b,v2.8b,v3.8b
	fmov	x8,d2
	orr	x8,x8,x8,lsr #32
	lsr	x9,x8,#16
	orr	w8,w8,w9
	orr	w8,w8,w8,lsr #8
	tst	w8,#0xff
	b.ne	2b
	mov	w8,#4097
	dup	v2.8h,w8
	add	x8,x11,x3
	mul	v0.8h,v0.8h,v2.8h
	mul	v1.8h,v1.8h,v2.8h
	shrn	v0.8b,v0.8h,#8
	shrn	v1.8b,v1.8h,#8
	str	d0,[x11]
	stur	d1,[x8,#-8]
	b	97f
86:
	ldr	d1,[x10]
	ldur	d2,[x12,#-8]
	movi	v3.16b,#143
	hex_page	x9,.Lstatic.39
	hex_address	x9,x9,.Lstatic.39
	mov	v1.d[1],v2.d[0]
	movi	v2.16b,#55
	add	x8,x9,x8
	uqsub	v2.16b,v1.16b,v2.16b
	and	v3.16b,v2.16b,v3.16b
	tbl	v0.16b,{ v0.16b },v3.16b
	ld1r	{ v3.16b },[x8]
	eor	v1.16b,v3.16b,v1.16b
	uqsub	v0.16b,v0.16b,v2.16b
	movi	v2.16b,#240
	eor	v0.16b,v0.16b,v1.16b
	and	v1.16b,v0.16b,v2.16b
	ext	v2.16b,v1.16b,v1.16b,#8
	orr	v1.8b,v1.8b,v2.8b
	fmov	x8,d1
	orr	x8,x8,x8,lsr #32
	lsr	x9,x8,#16
	orr	w8,w8,w9
	orr	w8,w8,w8,lsr #8
	tst	w8,#0xff
	b.ne	2b
	mov	w8,#4097
	dup	v1.8h,w8
	add	x8,x11,x3
	mul	v0.8h,v0.8h,v1.8h
	ushr	v1.8h,v0.8h,#8
	shrn	v0.8b,v0.8h,#8
	dup	v1.2d,v1.d[1]
	str	s0,[x11]
	xtn	v1.8b,v1.8h
	stur	s1,[x8,#-4]
	b	97f
88:
	cmp	x1,#128
	b.hi	93f
	movi	v4.16b,#55
	add	x9,x10,x1
	movi	v5.16b,#143
	ldp	q0,q2,[x10]
	ldp	q1,q3,[x10,#32]
	ldp	q6,q7,[x9,#-64]
	ldp	q16,q17,[x9,#-32]
	uqsub	v18.16b,v2.16b,v4.16b
	uqsub	v19.16b,v3.16b,v4.16b
	uqsub	v20.16b,v1.16b,v4.16b
	uqsub	v21.16b,v0.16b,v4.16b
	uqsub	v24.16b,v7.16b,v4.16b
	hex_page	x9,.Lstatic.38
	hex_address	x9,x9,.Lstatic.38
	uqsub	v22.16b,v17.16b,v4.16b
	uqsub	v23.16b,v16.16b,v4.16b
	uqsub	v4.16b,v6.16b,v4.16b
	and	v26.16b,v18.16b,v5.16b
	ldr	q25,[x9,x8,lsl #4]
	hex_page	x9,.Lstatic.39
	hex_address	x9,x9,.Lstatic.39
	and	v27.16b,v21.16b,v5.16b
	and	v28.16b,v20.16b,v5.16b
	and	v29.16b,v19.16b,v5.16b
	and	v30.16b,v24.16b,v5.16b
	add	x8,x9,x8
	and	v31.16b,v23.16b,v5.16b
	and	v8.16b,v22.16b,v5.16b
	and	v5.16b,v4.16b,v5.16b
	tbl	v26.16b,{ v25.16b },v26.16b
	tbl	v27.16b,{ v25.16b },v27.16b
	tbl	v28.16b,{ v25.16b },v28.16b
	tbl	v29.16b,{ v25.16b },v29.16b
	tbl	v30.16b,{ v25.16b },v30.16b
	tbl	v31.16b,{ v25.16b },v31.16b
	tbl	v8.16b,{ v25.16b },v8.16b
	tbl	v5.16b,{ v25.16b },v5.16b
	ld1r	{ v25.16b },[x8]
	uqsub	v18.16b,v26.16b,v18.16b
	uqsub	v21.16b,v27.16b,v21.16b
	uqsub	v20.16b,v28.16b,v20.16b
	uqsub	v19.16b,v29.16b,v19.16b
	uqsub	v24.16b,v30.16b,v24.16b
	uqsub	v22.16b,v8.16b,v22.16b
	uqsub	v23.16b,v31.16b,v23.16b
	uqsub	v26.16b,v5.16b,v4.16b
	eor	v2.16b,v2.16b,v25.16b
	eor	v3.16b,v3.16b,v25.16b
	eor	v0.16b,v0.16b,v25.16b
	eor	v1.16b,v1.16b,v25.16b
	eor	v16.16b,v16.16b,v25.16b
	eor	v27.16b,v7.16b,v25.16b
	eor	v17.16b,v17.16b,v25.16b
	eor	v25.16b,v6.16b,v25.16b
	eor	v5.16b,v18.16b,v2.16b
	eor	v4.16b,v19.16b,v3.16b
	eor	v6.16b,v21.16b,v0.16b
	eor	v7.16b,v20.16b,v1.16b
	eor	v2.16b,v16.16b,v23.16b
	eor	v0.16b,v27.16b,v24.16b
	eor	v3.16b,v17.16b,v22.16b
	eor	v1.16b,v25.16b,v26.16b
	orr	v16.16b,v2.16b,v7.16b
	orr	v19.16b,v0.16b,v5.16b
	orr	v17.16b,v1.16b,v6.16b
	orr	v18.16b,v3.16b,v4.16b
	orr	v18.16b,v19.16b,v18.16b
	orr	v16.16b,v17.16b,v16.16b
	movi	v17.16b,#240
	orr	v16.16b,v16.16b,v18.16b
	and	v16.16b,v16.16b,v17.16b
	ext	v17.16b,v16.16b,v16.16b,#8
	orr	v16.8b,v16.8b,v17.8b
	fmov	x8,d16
	orr	x8,x8,x8,lsr #32
	lsr	x9,x8,#16
	orr	w8,w8,w9
	orr	w8,w8,w8,lsr #8
	tst	w8,#0xff
	b.ne	2b
	mov	w8,#4097
	dup	v16.8h,w8
	add	x8,x11,x3
	mul	v5.8h,v5.8h,v16.8h
	mul	v6.8h,v6.8h,v16.8h
	mul	v7.8h,v7.8h,v16.8h
	mul	v4.8h,v4.8h,v16.8h
	mul	v2.8h,v2.8h,v16.8h
	mul	v3.8h,v3.8h,v16.8h
	mul	v0.8h,v0.8h,v16.8h
	mul	v1.8h,v1.8h,v16.8h
	uzp2	v5.16b,v6.16b,v5.16b
	uzp2	v4.16b,v7.16b,v4.16b
	uzp2	v2.16b,v2.16b,v3.16b
	uzp2	v0.16b,v1.16b,v0.16b
	stp	q5,q4,[x11]
	stp	q0,q2,[x8,#-32]
	b	97f
91:
	mov	w11,wzr
	cmp	w8,#2
	mov	x5,xzr
	b.eq	3b
	sub	w13,w21,#103
	and	w13,w13,#0xff
	cmp	w13,#250
	b.hs	49b
	b	3b
93:
	cmp	x1,#192
	b.hi	96f
	movi	v1.16b,#55
	ldur	q18,[x2,#33]
	ldur	q0,[x2,#17]
	ldur	q17,[x2,#1]
	movi	v5.16b,#143
	ldur	q4,[x2,#49]
	hex_page	x9,.Lstatic.38
	hex_address	x9,x9,.Lstatic.38
	ldur	q16,[x2,#97]
	ldr	q2,[x9,x8,lsl #4]
	add	x9,x10,x1
	hex_page	x12,.Lstatic.39
	hex_address	x12,x12,.Lstatic.39
	uqsub	v20.16b,v18.16b,v1.16b
	uqsub	v23.16b,v0.16b,v1.16b
	uqsub	v21.16b,v17.16b,v1.16b
	uqsub	v22.16b,v4.16b,v1.16b
	ldur	q6,[x2,#65]
	ldp	q30,q24,[x9,#-64]
	ldur	q3,[x2,#81]
	ldur	q7,[x2,#113]
	uqsub	v9.16b,v16.16b,v1.16b
	add	x8,x12,x8
	and	v27.16b,v20.16b,v5.16b
	and	v28.16b,v23.16b,v5.16b
	ld1r	{ v19.16b },[x8]
	and	v26.16b,v21.16b,v5.16b
	and	v29.16b,v22.16b,v5.16b
	uqsub	v14.16b,v30.16b,v1.16b
	ldp	q25,q31,[x9,#-32]
	uqsub	v8.16b,v6.16b,v1.16b
	tbl	v27.16b,{ v2.16b },v27.16b
	tbl	v28.16b,{ v2.16b },v28.16b
	uqsub	v10.16b,v3.16b,v1.16b
	tbl	v26.16b,{ v2.16b },v26.16b
	uqsub	v11.16b,v7.16b,v1.16b
	tbl	v29.16b,{ v2.16b },v29.16b
	eor	v18.16b,v18.16b,v19.16b
	uqsub	v12.16b,v31.16b,v1.16b
	uqsub	v13.16b,v24.16b,v1.16b
	stp	q30,q6,[sp,#16]
	and	v15.16b,v8.16b,v5.16b
	eor	v6.16b,v4.16b,v19.16b
	uqsub	v20.16b,v27.16b,v20.16b
	and	v27.16b,v9.16b,v5.16b
	uqsub	v23.16b,v28.16b,v23.16b
	uqsub	v28.16b,v25.16b,v1.16b
	and	v1.16b,v14.16b,v5.16b
	uqsub	v21.16b,v26.16b,v21.16b
	and	v26.16b,v10.16b,v5.16b
	and	v4.16b,v11.16b,v5.16b
	str	q3,[sp]
	tbl	v27.16b,{ v2.16b },v27.16b
	eor	v17.16b,v17.16b,v19.16b
	uqsub	v22.16b,v29.16b,v22.16b
	eor	v3.16b,v0.16b,v19.16b
	eor	v30.16b,v20.16b,v18.16b
	tbl	v18.16b,{ v2.16b },v1.16b
	and	v29.16b,v13.16b,v5.16b
	and	v0.16b,v12.16b,v5.16b
	tbl	v15.16b,{ v2.16b },v15.16b
	tbl	v26.16b,{ v2.16b },v26.16b
	tbl	v4.16b,{ v2.16b },v4.16b
	and	v5.16b,v28.16b,v5.16b
	eor	v1.16b,v21.16b,v17.16b
	eor	v21.16b,v23.16b,v3.16b
	ldr	q23,[sp]
	uqsub	v3.16b,v27.16b,v9.16b
	tbl	v29.16b,{ v2.16b },v29.16b
	tbl	v20.16b,{ v2.16b },v0.16b
	eor	v0.16b,v22.16b,v6.16b
	tbl	v2.16b,{ v2.16b },v5.16b
	uqsub	v22.16b,v18.16b,v14.16b
	ldr	q18,[sp,#32]
	eor	v16.16b,v16.16b,v19.16b
	uqsub	v6.16b,v15.16b,v8.16b
	uqsub	v4.16b,v4.16b,v11.16b
	uqsub	v5.16b,v26.16b,v10.16b
	eor	v7.16b,v7.16b,v19.16b
	eor	v18.16b,v18.16b,v19.16b
	eor	v23.16b,v23.16b,v19.16b
	uqsub	v17.16b,v29.16b,v13.16b
	eor	v3.16b,v16.16b,v3.16b
	ldr	q16,[sp,#16]
	uqsub	v20.16b,v20.16b,v12.16b
	uqsub	v26.16b,v2.16b,v28.16b
	eor	v2.16b,v19.16b,v24.16b
	eor	v27.16b,v19.16b,v31.16b
	eor	v24.16b,v19.16b,v16.16b
	eor	v25.16b,v19.16b,v25.16b
	eor	v18.16b,v18.16b,v6.16b
	eor	v16.16b,v7.16b,v4.16b
	eor	v19.16b,v23.16b,v5.16b
	orr	v4.16b,v3.16b,v30.16b
	eor	v2.16b,v2.16b,v17.16b
	eor	v7.16b,v27.16b,v20.16b
	eor	v6.16b,v24.16b,v22.16b
	eor	v17.16b,v25.16b,v26.16b
	orr	v22.16b,v18.16b,v1.16b
	orr	v5.16b,v19.16b,v21.16b
	orr	v20.16b,v16.16b,v0.16b
	orr	v4.16b,v4.16b,v17.16b
	orr	v22.16b,v22.16b,v6.16b
	orr	v20.16b,v20.16b,v7.16b
	orr	v5.16b,v5.16b,v2.16b
	orr	v4.16b,v22.16b,v4.16b
	orr	v5.16b,v5.16b,v20.16b
	movi	v20.16b,#240
	orr	v4.16b,v4.16b,v5.16b
	and	v4.16b,v4.16b,v20.16b
	ext	v5.16b,v4.16b,v4.16b,#8
	orr	v4.8b,v4.8b,v5.8b
	fmov	x8,d4
	orr	x8,x8,x8,lsr #32
	lsr	x9,x8,#16
	orr	w8,w8,w9
	orr	w8,w8,w8,lsr #8
	tst	w8,#0xff
	b.ne	2b
	mov	w8,#4097
	dup	v4.8h,w8
	add	x8,x11,x3
	mul	v5.8h,v21.8h,v4.8h
	mul	v1.8h,v1.8h,v4.8h
	mul	v20.8h,v30.8h,v4.8h
	mul	v0.8h,v0.8h,v4.8h
	mul	v19.8h,v19.8h,v4.8h
	mul	v18.8h,v18.8h,v4.8h
	mul	v3.8h,v3.8h,v4.8h
	mul	v16.8h,v16.8h,v4.8h
	mul	v17.8h,v17.8h,v4.8h
	mul	v7.8h,v7.8h,v4.8h
	mul	v2.8h,v2.8h,v4.8h
	mul	v4.8h,v6.8h,v4.8h
	uzp2	v1.16b,v1.16b,v5.16b
	uzp2	v0.16b,v20.16b,v0.16b
	uzp2	v5.16b,v18.16b,v19.16b
	uzp2	v3.16b,v3.16b,v16.16b
	uzp2	v6.16b,v17.16b,v7.16b
	stur	q1,[x4,#1]
	uzp2	v1.16b,v4.16b,v2.16b
	stur	q0,[x4,#17]
	stur	q5,[x4,#33]
	stur	q3,[x4,#49]
	stp	q1,q6,[x8,#-32]
	b	97f
96:
	add	x2,x4,#1
	mov	x25,x0
	mov	x0,x10
	mov	x26,x4
	mov	w4,w8
	bl	core_plain_decode_many_outlined
	mov	x4,x26
	mov	w8,w0
	mov	x0,x25
	cbz	w8,2b
97:
	add	w8,w24,w23,lsl #4
	strb	w8,[x4]
	b	22b
98:
	brk	#0x1
	hex_end	io_stream_decoder_Decoder_feed_valid
	hex_function	core_plain_decode_many_outlined,.text
	sub	sp,sp,#192
	cmp	x1,#256
	and	x8,x4,#0xff
	stp	d15,d14,[sp,#128]
	stp	d13,d12,[sp,#144]
	stp	d11,d10,[sp,#160]
	stp	d9,d8,[sp,#176]
	b.hi	3f
	movi	v4.16b,#55
	ldp	q1,q5,[x0]
	ldp	q18,q0,[x0,#64]
	movi	v7.16b,#143
	ldp	q2,q3,[x0,#32]
	hex_page	x9,.Lstatic.38
	hex_address	x9,x9,.Lstatic.38
	ldp	q6,q19,[x0,#96]
	uqsub	v28.16b,v5.16b,v4.16b
	uqsub	v31.16b,v0.16b,v4.16b
	uqsub	v25.16b,v1.16b,v4.16b
	uqsub	v27.16b,v3.16b,v4.16b
	ldr	q16,[x9,x8,lsl #4]
	hex_page	x10,.Lstatic.39
	hex_address	x10,x10,.Lstatic.39
	uqsub	v29.16b,v2.16b,v4.16b
	uqsub	v30.16b,v19.16b,v4.16b
	add	x10,x10,x8
	add	x9,x0,x1
	uqsub	v26.16b,v18.16b,v4.16b
	and	v21.16b,v28.16b,v7.16b
	and	v8.16b,v31.16b,v7.16b
	and	v20.16b,v25.16b,v7.16b
	and	v22.16b,v27.16b,v7.16b
	ld1r	{ v17.16b },[x10]
	str	q18,[sp,#32]
	and	v23.16b,v29.16b,v7.16b
	and	v9.16b,v30.16b,v7.16b
	uqsub	v24.16b,v6.16b,v4.16b
	tbl	v11.16b,{ v16.16b },v21.16b
	tbl	v8.16b,{ v16.16b },v8.16b
	tbl	v10.16b,{ v16.16b },v20.16b
	tbl	v12.16b,{ v16.16b },v22.16b
	eor	v15.16b,v3.16b,v17.16b
	eor	v5.16b,v5.16b,v17.16b
	ldp	q21,q22,[x9,#-96]
	tbl	v13.16b,{ v16.16b },v23.16b
	tbl	v9.16b,{ v16.16b },v9.16b
	eor	v1.16b,v1.16b,v17.16b
	and	v14.16b,v26.16b,v7.16b
	uqsub	v11.16b,v11.16b,v28.16b
	uqsub	v3.16b,v8.16b,v31.16b
	uqsub	v10.16b,v10.16b,v25.16b
	uqsub	v12.16b,v12.16b,v27.16b
	ldp	q20,q18,[x9,#-128]
	uqsub	v13.16b,v13.16b,v29.16b
	eor	v2.16b,v2.16b,v17.16b
	uqsub	v25.16b,v21.16b,v4.16b
	uqsub	v28.16b,v9.16b,v30.16b
	tbl	v14.16b,{ v16.16b },v14.16b
	str	q6,[sp,#64]
	stp	q3,q21,[sp]
	eor	v3.16b,v11.16b,v5.16b
	eor	v1.16b,v10.16b,v1.16b
	ldp	q21,q31,[x9,#-64]
	uqsub	v8.16b,v20.16b,v4.16b
	ldp	q9,q10,[x9,#-32]
	uqsub	v11.16b,v22.16b,v4.16b
	str	q3,[sp,#112]
	eor	v3.16b,v12.16b,v15.16b
	uqsub	v12.16b,v18.16b,v4.16b
	mov	v23.16b,v18.16b
	uqsub	v18.16b,v21.16b,v4.16b
	and	v29.16b,v24.16b,v7.16b
	uqsub	v15.16b,v10.16b,v4.16b
	uqsub	v30.16b,v9.16b,v4.16b
	mov	v27.16b,v20.16b
	stp	q3,q1,[sp,#80]
	eor	v1.16b,v13.16b,v2.16b
	uqsub	v13.16b,v31.16b,v4.16b
	and	v4.16b,v25.16b,v7.16b
	and	v6.16b,v12.16b,v7.16b
	uqsub	v26.16b,v14.16b,v26.16b
	eor	v20.16b,v0.16b,v17.16b
	and	v14.16b,v8.16b,v7.16b
	and	v5.16b,v11.16b,v7.16b
	str	q1,[sp,#48]
	and	v1.16b,v18.16b,v7.16b
	and	v0.16b,v30.16b,v7.16b
	and	v2.16b,v13.16b,v7.16b
	and	v7.16b,v15.16b,v7.16b
	ldr	q3,[sp,#32]
	tbl	v29.16b,{ v16.16b },v29.16b
	eor	v19.16b,v19.16b,v17.16b
	tbl	v4.16b,{ v16.16b },v4.16b
	tbl	v6.16b,{ v16.16b },v6.16b
	eor	v3.16b,v3.16b,v17.16b
	tbl	v14.16b,{ v16.16b },v14.16b
	tbl	v5.16b,{ v16.16b },v5.16b
	tbl	v2.16b,{ v16.16b },v2.16b
	tbl	v1.16b,{ v16.16b },v1.16b
	tbl	v0.16b,{ v16.16b },v0.16b
	tbl	v7.16b,{ v16.16b },v7.16b
	ldr	q16,[sp]
	eor	v28.16b,v19.16b,v28.16b
	uqsub	v29.16b,v29.16b,v24.16b
	eor	v22.16b,v17.16b,v22.16b
	eor	v24.16b,v20.16b,v16.16b
	eor	v16.16b,v3.16b,v26.16b
	uqsub	v3.16b,v4.16b,v25.16b
	ldr	q4,[sp,#64]
	uqsub	v20.16b,v6.16b,v12.16b
	ldr	q6,[sp,#16]
	uqsub	v19.16b,v14.16b,v8.16b
	uqsub	v5.16b,v5.16b,v11.16b
	uqsub	v2.16b,v2.16b,v13.16b
	uqsub	v7.16b,v7.16b,v15.16b
	uqsub	v1.16b,v1.16b,v18.16b
	uqsub	v0.16b,v0.16b,v30.16b
	eor	v4.16b,v4.16b,v17.16b
	eor	v6.16b,v17.16b,v6.16b
	eor	v18.16b,v17.16b,v27.16b
	mov	v27.16b,v28.16b
	eor	v25.16b,v17.16b,v23.16b
	eor	v26.16b,v17.16b,v9.16b
	eor	v28.16b,v17.16b,v31.16b
	eor	v30.16b,v17.16b,v10.16b
	eor	v31.16b,v17.16b,v21.16b
	eor	v23.16b,v4.16b,v29.16b
	ldr	q29,[sp,#48]
	eor	v4.16b,v6.16b,v3.16b
	eor	v17.16b,v18.16b,v19.16b
	eor	v6.16b,v22.16b,v5.16b
	eor	v18.16b,v25.16b,v20.16b
	eor	v19.16b,v26.16b,v0.16b
	eor	v21.16b,v28.16b,v2.16b
	eor	v20.16b,v30.16b,v7.16b
	ldr	q30,[sp,#112]
	eor	v22.16b,v31.16b,v1.16b
	orr	v0.16b,v23.16b,v29.16b
	ldp	q28,q31,[sp,#80]
	orr	v3.16b,v24.16b,v30.16b
	orr	v5.16b,v4.16b,v19.16b
	orr	v25.16b,v6.16b,v20.16b
	orr	v7.16b,v17.16b,v22.16b
	orr	v26.16b,v18.16b,v21.16b
	orr	v1.16b,v16.16b,v31.16b
	orr	v2.16b,v27.16b,v28.16b
	orr	v0.16b,v0.16b,v5.16b
	orr	v3.16b,v3.16b,v26.16b
	orr	v1.16b,v1.16b,v7.16b
	orr	v2.16b,v2.16b,v25.16b
	orr	v2.16b,v3.16b,v2.16b
	orr	v0.16b,v1.16b,v0.16b
	movi	v1.16b,#240
	orr	v0.16b,v0.16b,v2.16b
	and	v0.16b,v0.16b,v1.16b
	ext	v1.16b,v0.16b,v0.16b,#8
	orr	v0.8b,v0.8b,v1.8b
	fmov	x9,d0
	orr	x9,x9,x9,lsr #32
	lsr	x10,x9,#16
	orr	w9,w9,w10
	orr	w9,w9,w9,lsr #8
	tst	w9,#0xff
	b.ne	14f
	hex_page	x9,.Lstatic.41
	hex_address	x9,x9,.Lstatic.41
	add	x8,x9,x8,lsl #1
	ld1r	{ v0.8h },[x8]
	add	x8,x2,x3
	mul	v1.8h,v0.8h,v24.8h
	mul	v2.8h,v0.8h,v16.8h
	mul	v3.8h,v0.8h,v30.8h
	mul	v5.8h,v0.8h,v31.8h
	mul	v7.8h,v0.8h,v23.8h
	mul	v16.8h,v0.8h,v27.8h
	mul	v23.8h,v0.8h,v29.8h
	mul	v24.8h,v0.8h,v28.8h
	mul	v21.8h,v0.8h,v21.8h
	mul	v22.8h,v0.8h,v22.8h
	mul	v17.8h,v0.8h,v17.8h
	mul	v4.8h,v0.8h,v4.8h
	uzp2	v1.16b,v2.16b,v1.16b
	mul	v2.8h,v0.8h,v19.8h
	mul	v19.8h,v0.8h,v20.8h
	uzp2	v3.16b,v5.16b,v3.16b
	mul	v5.8h,v0.8h,v18.8h
	uzp2	v7.16b,v7.16b,v16.16b
	mul	v0.8h,v0.8h,v6.8h
	uzp2	v6.16b,v23.16b,v24.16b
	uzp2	v16.16b,v22.16b,v21.16b
	stp	q1,q7,[x2,#32]
	uzp2	v1.16b,v2.16b,v19.16b
	uzp2	v2.16b,v17.16b,v5.16b
	uzp2	v0.16b,v4.16b,v0.16b
	stp	q3,q6,[x2]
	stp	q16,q1,[x8,#-32]
	stp	q2,q0,[x8,#-64]
	b	22f
3:
	hex_page	x9,.Lstatic.43
	hex_address	x9,x9,.Lstatic.43
	ldrb	w10,[x9,x8]
	sub	x9,x1,#64
	lsr	x11,x9,#9
	dup	v0.16b,w10
	hex_page	x10,.Lstatic.44
	hex_address	x10,x10,.Lstatic.44
	cbz	x11,9f
	ldr	q1,[x10,x8,lsl #4]
	mov	x12,xzr
	mov	x13,x0
5:
	movi	v2.2d,#0000000000000000
	movi	v3.2d,#0000000000000000
	mov	x14,xzr
	movi	v4.2d,#0000000000000000
	movi	v5.2d,#0000000000000000
6:
	movi	v6.16b,#57
	add	x15,x13,x14
	movi	v17.16b,#143
	ldp	q7,q16,[x15,#32]
	add	x14,x14,#64
	ldp	q18,q19,[x15]
	cmp	x14,#512
	add	v20.16b,v16.16b,v6.16b
	add	v21.16b,v7.16b,v6.16b
	add	v22.16b,v19.16b,v6.16b
	add	v6.16b,v18.16b,v6.16b
	and	v23.16b,v21.16b,v17.16b
	and	v24.16b,v20.16b,v17.16b
	and	v25.16b,v6.16b,v17.16b
	and	v17.16b,v22.16b,v17.16b
	tbl	v23.16b,{ v1.16b },v23.16b
	tbl	v24.16b,{ v1.16b },v24.16b
	tbl	v25.16b,{ v1.16b },v25.16b
	tbl	v17.16b,{ v1.16b },v17.16b
	sub	v16.16b,v24.16b,v16.16b
	sub	v7.16b,v23.16b,v7.16b
	sub	v17.16b,v17.16b,v19.16b
	sub	v18.16b,v25.16b,v18.16b
	eor	v7.16b,v7.16b,v21.16b
	eor	v16.16b,v16.16b,v20.16b
	eor	v6.16b,v18.16b,v6.16b
	eor	v17.16b,v17.16b,v22.16b
	orr	v5.16b,v16.16b,v5.16b
	orr	v4.16b,v7.16b,v4.16b
	orr	v2.16b,v17.16b,v2.16b
	orr	v3.16b,v6.16b,v3.16b
	b.ne	6b
	and	v2.16b,v2.16b,v0.16b
	and	v5.16b,v5.16b,v0.16b
	and	v3.16b,v3.16b,v0.16b
	and	v4.16b,v4.16b,v0.16b
	orr	v2.16b,v2.16b,v5.16b
	orr	v3.16b,v3.16b,v4.16b
	orr	v2.16b,v3.16b,v2.16b
	ext	v3.16b,v2.16b,v2.16b,#8
	orr	v2.8b,v2.8b,v3.8b
	fmov	x14,d2
	orr	x14,x14,x14,lsr #32
	lsr	x15,x14,#16
	orr	w14,w14,w15
	orr	w14,w14,w14,lsr #8
	tst	w14,#0xff
	b.ne	14f
	add	x12,x12,#1
	add	x13,x13,#512
	cmp	x12,x11
	b.ne	5b
9:
	movi	v1.2d,#0000000000000000
	movi	v2.2d,#0000000000000000
	ubfx	x11,x9,#6,#3
	movi	v3.2d,#0000000000000000
	movi	v4.2d,#0000000000000000
	tst	x1,#0x3f
	cinc	x11,x11,ne
	cbz	x11,12f
	and	x12,x9,#0xfffffffffffffe00
	ldr	q5,[x10,x8,lsl #4]
	add	x10,x0,x12
11:
	movi	v6.16b,#57
	ldp	q7,q16,[x10,#32]
	ldp	q17,q18,[x10],#64
	movi	v19.16b,#143
	subs	x11,x11,#1
	add	v20.16b,v16.16b,v6.16b
	add	v21.16b,v7.16b,v6.16b
	add	v22.16b,v18.16b,v6.16b
	add	v6.16b,v17.16b,v6.16b
	and	v23.16b,v20.16b,v19.16b
	and	v25.16b,v22.16b,v19.16b
	and	v24.16b,v6.16b,v19.16b
	and	v19.16b,v21.16b,v19.16b
	tbl	v23.16b,{ v5.16b },v23.16b
	tbl	v25.16b,{ v5.16b },v25.16b
	tbl	v24.16b,{ v5.16b },v24.16b
	tbl	v19.16b,{ v5.16b },v19.16b
	sub	v16.16b,v23.16b,v16.16b
	sub	v18.16b,v25.16b,v18.16b
	sub	v7.16b,v19.16b,v7.16b
	sub	v17.16b,v24.16b,v17.16b
	eor	v16.16b,v16.16b,v20.16b
	eor	v6.16b,v17.16b,v6.16b
	eor	v17.16b,v18.16b,v22.16b
	eor	v7.16b,v7.16b,v21.16b
	orr	v4.16b,v16.16b,v4.16b
	orr	v3.16b,v7.16b,v3.16b
	orr	v2.16b,v17.16b,v2.16b
	orr	v1.16b,v6.16b,v1.16b
	b.ne	11b
	b	13f
12:
	ldr	q5,[x10,x8,lsl #4]
13:
	movi	v6.16b,#57
	add	x9,x0,x9
	movi	v7.16b,#143
	ldp	q18,q16,[x9,#16]
	ldr	q17,[x9]
	ldr	q19,[x9,#48]
	add	v20.16b,v16.16b,v6.16b
	add	v21.16b,v19.16b,v6.16b
	add	v22.16b,v18.16b,v6.16b
	add	v6.16b,v17.16b,v6.16b
	and	v23.16b,v20.16b,v7.16b
	and	v25.16b,v22.16b,v7.16b
	and	v24.16b,v6.16b,v7.16b
	and	v7.16b,v21.16b,v7.16b
	tbl	v23.16b,{ v5.16b },v23.16b
	tbl	v25.16b,{ v5.16b },v25.16b
	tbl	v24.16b,{ v5.16b },v24.16b
	tbl	v5.16b,{ v5.16b },v7.16b
	sub	v7.16b,v23.16b,v16.16b
	sub	v16.16b,v24.16b,v17.16b
	sub	v5.16b,v5.16b,v19.16b
	sub	v17.16b,v25.16b,v18.16b
	eor	v7.16b,v7.16b,v20.16b
	eor	v17.16b,v17.16b,v22.16b
	eor	v5.16b,v5.16b,v21.16b
	eor	v6.16b,v16.16b,v6.16b
	orr	v3.16b,v7.16b,v3.16b
	orr	v1.16b,v6.16b,v1.16b
	orr	v4.16b,v5.16b,v4.16b
	orr	v2.16b,v17.16b,v2.16b
	orr	v2.16b,v2.16b,v4.16b
	orr	v1.16b,v1.16b,v3.16b
	orr	v1.16b,v1.16b,v2.16b
	and	v0.16b,v1.16b,v0.16b
	ext	v1.16b,v0.16b,v0.16b,#8
	orr	v0.8b,v0.8b,v1.8b
	fmov	x9,d0
	orr	x9,x9,x9,lsr #32
	lsr	x10,x9,#16
	orr	w9,w9,w10
	orr	w9,w9,w9,lsr #8
	tst	w9,#0xff
	b.eq	15f
14:
	mov	w0,wzr
	ldp	d9,d8,[sp,#176]
	ldp	d11,d10,[sp,#160]
	ldp	d13,d12,[sp,#144]
	ldp	d15,d14,[sp,#128]
	add	sp,sp,#192
	ret
15:
	lsr	x10,x3,#6
	hex_page	x9,.Lstatic.41
	hex_address	x9,x9,.Lstatic.41
	cbz	x10,18f
	ldr	h0,[x9,x8,lsl #1]
	add	x11,x0,#64
	mov	x12,x2
17:
	movi	v1.16b,#79
	ldp	q3,q2,[x11,#-64]
	ldp	q5,q4,[x11]
	movi	v6.16b,#201
	ldp	q16,q7,[x11,#32]
	subs	x10,x10,#1
	ldp	q17,q18,[x11,#-32]
	add	x11,x11,#128
	and	v5.16b,v5.16b,v1.16b
	and	v4.16b,v4.16b,v1.16b
	and	v3.16b,v3.16b,v1.16b
	and	v16.16b,v16.16b,v1.16b
	and	v7.16b,v7.16b,v1.16b
	and	v2.16b,v2.16b,v1.16b
	and	v17.16b,v17.16b,v1.16b
	and	v1.16b,v18.16b,v1.16b
	add	v18.16b,v4.16b,v6.16b
	add	v19.16b,v5.16b,v6.16b
	add	v23.16b,v3.16b,v6.16b
	add	v20.16b,v7.16b,v6.16b
	add	v21.16b,v16.16b,v6.16b
	add	v22.16b,v2.16b,v6.16b
	add	v24.16b,v17.16b,v6.16b
	add	v6.16b,v1.16b,v6.16b
	umin	v5.16b,v5.16b,v19.16b
	umin	v4.16b,v4.16b,v18.16b
	umin	v3.16b,v3.16b,v23.16b
	umin	v16.16b,v16.16b,v21.16b
	umin	v7.16b,v7.16b,v20.16b
	umin	v2.16b,v2.16b,v22.16b
	umin	v17.16b,v17.16b,v24.16b
	umin	v1.16b,v1.16b,v6.16b
	mul	v4.8h,v4.8h,v0.h[0]
	mul	v5.8h,v5.8h,v0.h[0]
	mul	v3.8h,v3.8h,v0.h[0]
	mul	v6.8h,v7.8h,v0.h[0]
	mul	v7.8h,v16.8h,v0.h[0]
	mul	v2.8h,v2.8h,v0.h[0]
	mul	v1.8h,v1.8h,v0.h[0]
	mul	v16.8h,v17.8h,v0.h[0]
	uzp2	v4.16b,v5.16b,v4.16b
	uzp2	v5.16b,v7.16b,v6.16b
	uzp2	v2.16b,v3.16b,v2.16b
	uzp2	v1.16b,v16.16b,v1.16b
	stp	q4,q5,[x12,#32]
	stp	q2,q1,[x12],#64
	b.ne	17b
18:
	and	x10,x3,#0x3f
	cmp	x10,#33
	b.lo	20f
	sub	x10,x3,#64
	movi	v0.16b,#79
	movi	v3.16b,#201
	add	x11,x0,x10,lsl #1
	add	x8,x9,x8,lsl #1
	ldp	q2,q1,[x11,#64]
	ldp	q5,q4,[x11]
	ldp	q7,q6,[x11,#96]
	and	v2.16b,v2.16b,v0.16b
	ldp	q17,q16,[x11,#32]
	and	v1.16b,v1.16b,v0.16b
	and	v4.16b,v4.16b,v0.16b
	and	v5.16b,v5.16b,v0.16b
	and	v7.16b,v7.16b,v0.16b
	and	v6.16b,v6.16b,v0.16b
	and	v17.16b,v17.16b,v0.16b
	add	v18.16b,v2.16b,v3.16b
	and	v0.16b,v16.16b,v0.16b
	add	v16.16b,v1.16b,v3.16b
	add	v19.16b,v4.16b,v3.16b
	add	v22.16b,v5.16b,v3.16b
	add	v20.16b,v6.16b,v3.16b
	add	v21.16b,v7.16b,v3.16b
	umin	v2.16b,v2.16b,v18.16b
	add	v18.16b,v17.16b,v3.16b
	add	v3.16b,v0.16b,v3.16b
	umin	v1.16b,v1.16b,v16.16b
	ld1r	{ v16.8h },[x8]
	umin	v5.16b,v5.16b,v22.16b
	umin	v7.16b,v7.16b,v21.16b
	umin	v6.16b,v6.16b,v20.16b
	umin	v4.16b,v4.16b,v19.16b
	umin	v17.16b,v17.16b,v18.16b
	umin	v0.16b,v0.16b,v3.16b
	add	x8,x2,x10
	mul	v1.8h,v16.8h,v1.8h
	mul	v2.8h,v16.8h,v2.8h
	mul	v5.8h,v16.8h,v5.8h
	mul	v3.8h,v16.8h,v6.8h
	mul	v6.8h,v16.8h,v7.8h
	mul	v4.8h,v16.8h,v4.8h
	mul	v0.8h,v16.8h,v0.8h
	mul	v7.8h,v16.8h,v17.8h
	uzp2	v1.16b,v2.16b,v1.16b
	uzp2	v2.16b,v6.16b,v3.16b
	uzp2	v3.16b,v5.16b,v4.16b
	uzp2	v0.16b,v7.16b,v0.16b
	stp	q1,q2,[x8,#32]
	stp	q3,q0,[x8]
	b	22f
20:
	cbz	x10,22f
	sub	x8,x3,#32
	movi	v0.16b,#79
	movi	v3.16b,#201
	add	x9,x0,x8,lsl #1
	add	x8,x2,x8
	ldp	q2,q1,[x9,#32]
	ldp	q5,q4,[x9]
	mov	w9,#4097
	and	v2.16b,v2.16b,v0.16b
	and	v1.16b,v1.16b,v0.16b
	and	v5.16b,v5.16b,v0.16b
	and	v0.16b,v4.16b,v0.16b
	add	v4.16b,v1.16b,v3.16b
	add	v6.16b,v2.16b,v3.16b
	add	v7.16b,v0.16b,v3.16b
	add	v3.16b,v5.16b,v3.16b
	umin	v2.16b,v2.16b,v6.16b
	dup	v6.8h,w9
	umin	v1.16b,v1.16b,v4.16b
	umin	v3.16b,v5.16b,v3.16b
	umin	v0.16b,v0.16b,v7.16b
	mul	v1.8h,v1.8h,v6.8h
	mul	v2.8h,v2.8h,v6.8h
	mul	v0.8h,v0.8h,v6.8h
	mul	v3.8h,v3.8h,v6.8h
	uzp2	v1.16b,v2.16b,v1.16b
	uzp2	v0.16b,v3.16b,v0.16b
	stp	q0,q1,[x8]
22:
	mov	w0,#1
	ldp	d9,d8,[sp,#176]
	ldp	d11,d10,[sp,#160]
	ldp	d13,d12,[sp,#144]
	ldp	d15,d14,[sp,#128]
	add	sp,sp,#192
	ret
	hex_end	core_plain_decode_many_outlined
	hex_merged	8
	.p2align	3,0x0
.LCPI17_0:
	.byte	102,104,101,120,45,115,116,114
.LCPI17_1:
	.byte	101,97,109,58,0,0,0,0
.LCPI17_4:
	.byte	85,84,70,45,0,0,0,0
	hex_merged	16
	.p2align	4,0x0
.LCPI17_2:
	.byte	102,104,101,120,45,115,116,114,101,97,109,58,32,97,110,32
.LCPI17_3:
	.byte	97,114,103,117,109,101,110,116,32,105,115,32,110,111,116,32
	hex_function	program_stream_refuse_stream,.text
	sub	sp,sp,#352
	stp	x29,x30,[sp,#288]
	add	x29,sp,#288
	add	x11,sp,#32
	stp	x20,x19,[sp,#336]
	ldrb	w19,[x0]
	movi	v0.2d,#0000000000000000
	stur	x11,[x29,#-88]
	mov	w11,#1
	ldrb	w8,[x0,#8]
	ldp	x9,x10,[x0,#16]
	lsl	w11,w11,w19
	mov	w12,#235
	sub	x20,x29,#88
	str	x28,[sp,#304]
	tst	w11,w12
	stp	x22,x21,[sp,#320]
	stp	x19,x8,[sp]
	stp	x9,x10,[sp,#16]
	str	xzr,[sp,#160]
	stp	q0,q0,[sp,#32]
	stp	q0,q0,[sp,#64]
	stp	q0,q0,[sp,#96]
	stp	q0,q0,[sp,#128]
	stp	xzr,xzr,[x29,#-56]
	b.eq	7f
	stp	x9,x10,[x29,#-104]
	add	x10,sp,#32
	hex_page	x9,.Lstatic.51
	hex_address	x9,x9,.Lstatic.51
	stp	x19,x8,[x29,#-120]
	mov	w8,#32
	sub	x10,x10,x9
	mov	x11,#-1
	stur	w8,[x29,#-80]
	cmp	x10,#12
	stur	xzr,[x20,#12]
	stur	wzr,[x20,#20]
	stur	x11,[x29,#-64]
	b.hi	3f
	hex_page	x9,.LCPI17_0
	hex_page	x10,.LCPI17_1
	strb	w8,[sp,#44]
	hex_value	d0,x9,.LCPI17_0
	hex_value	d1,x10,.LCPI17_1
	str	d0,[sp,#32]
	str	s1,[sp,#40]
	b	4f
3:
	ldr	x8,[x9]
	ldur	x9,[x9,#5]
	str	x8,[sp,#32]
	stur	x9,[sp,#37]
4:
	mov	w8,#13
	sub	x0,x29,#88
	sub	x1,x29,#120
	str	x8,[sp,#160]
	bl	core_fmt_formatter_Formatter_write_piece
	and	w8,w0,#0xff
	tbnz	w8,#0,20f
5:
	mov	w8,#32
	ldur	x9,[x29,#-56]
	stur	xzr,[x20,#12]
	stur	w8,[x29,#-80]
	mov	x8,#-1
	stur	wzr,[x20,#20]
	stur	x8,[x29,#-64]
	cbnz	x9,21f
	ldur	x9,[x29,#-88]
	ldr	x8,[x9,#128]
	cmp	x8,#128
	b.ne	13f
	b	20f
7:
	cmp	w19,#2
	b.ne	9f
	mov	w8,#32
	stur	xzr,[x20,#12]
	sub	x0,x29,#88
	stur	w8,[x29,#-80]
	mov	x8,#-1
	mov	x1,sp
	stur	wzr,[x20,#20]
	stur	x8,[x29,#-64]
	bl	core_fmt_formatter_Formatter_write_piece
	and	w8,w0,#0xff
	tbz	w8,#0,5b
	b	20f
9:
	add	x9,sp,#32
	hex_page	x8,.Lstatic.50
	hex_address	x8,x8,.Lstatic.50
	sub	x9,x9,x8
	cmp	x9,#36
	b.hi	11f
	hex_page	x8,.LCPI17_2
	hex_page	x9,.LCPI17_3
	hex_value	q0,x8,.LCPI17_2
	hex_page	x8,.LCPI17_4
	hex_value	q1,x9,.LCPI17_3
	hex_value	d2,x8,.LCPI17_4
	mov	w8,#56
	stp	q0,q1,[sp,#32]
	str	s2,[sp,#64]
	strb	w8,[sp,#68]
	b	12f
11:
	ldp	q0,q1,[x8]
	ldur	x8,[x8,#29]
	stp	q0,q1,[sp,#32]
	stur	x8,[sp,#61]
12:
	mov	w8,#37
	add	x9,sp,#32
	str	x8,[sp,#160]
13:
	mov	w10,#10
	strb	w10,[x9,x8]
	add	x8,x8,#1
	str	x8,[x9,#128]
14:
	ldr	x20,[sp,#160]
	cbz	x20,20f
	mov	x21,xzr
16:
	add	x8,sp,#32
	sub	x2,x20,x21
	mov	w0,#2
	add	x1,x8,x21
	sub	x22,x20,x21
	bl	fhex_write
	tbnz	x0,#63,19f
	cmp	x0,x22
	csel	x8,x0,x22,lo
	cbz	x8,20f
	add	x21,x8,x21
	cmp	x21,x20
	b.lo	16b
	b	20f
19:
	sub	x0,x29,#88
	bl	std_io_io_error_last_error
20:
	mov	x9,#217020518514230019
	lsl	x8,x19,#3
	ldr	x28,[sp,#304]
	movk	x9,#513
	ldp	x20,x19,[sp,#336]
	movk	x9,#770,lsl #16
	ldp	x22,x21,[sp,#320]
	ldp	x29,x30,[sp,#288]
	lsr	x0,x9,x8
	add	sp,sp,#352
	ret
21:
	hex_page	x1,.Lstatic.7
	hex_address	x1,x1,.Lstatic.7
	sub	x0,x29,#88
	mov	w2,#1
	bl	core_fmt_formatter_Formatter_write_indented
	and	w8,w0,#0xff
	tbz	w8,#0,14b
	b	20b
	hex_end	program_stream_refuse_stream
	hex_constant	.Lstatic.3
.Lstatic.3:
	.ascii	"fhex-stream 1.0.0"
	hex_merged	32
	.p2align	3,0x0
.Lstatic.5:
	.ascii	"\002"
	.zero	31,0
	hex_constant	.Lstatic.7
.Lstatic.7:
	.byte	10
	hex_constant	.Lstatic.8
.Lstatic.8:
	.ascii	"usage: fhex encode|encode-upper|decode|decode-lower|decode-upper|vectors"
	hex_constant	.Lstatic.9
.Lstatic.9:
	.ascii	"usage: fhex-stream encode|encode-lines|decode"
	hex_constant	.Lstatic.10
.Lstatic.10:
	.ascii	"write failed"
	hex_constant	.Lstatic.11
.Lstatic.11:
	.ascii	"out of memory"
	hex_constant	.Lstatic.12
.Lstatic.12:
	.ascii	"input too long"
	hex_constant	.Lstatic.13
.Lstatic.13:
	.ascii	"read failed"
	hex_constant	.Lstatic.14
.Lstatic.14:
	.ascii	"invalid hex byte 0x"
	hex_constant	.Lstatic.15
.Lstatic.15:
	.ascii	" at index "
	hex_constant	.Lstatic.16
.Lstatic.16:
	.ascii	"output requires at least "
	hex_constant	.Lstatic.17
.Lstatic.17:
	.ascii	" bytes"
	hex_constant	.Lstatic.18
.Lstatic.18:
	.ascii	"expected "
	hex_constant	.Lstatic.19
.Lstatic.19:
	.ascii	" decoded bytes, got "
	hex_constant	.Lstatic.20
.Lstatic.20:
	.ascii	"hex input length must be even"
	hex_constant	.Lstatic.21
.Lstatic.21:
	.ascii	"encoded length overflow"
	hex_constant	.Lstatic.24
.Lstatic.24:
	.ascii	"0x"
	hex_constant	.Lstatic.26
.Lstatic.26:
	.byte	43
	hex_merged	4
.Lstatic.27:
	.zero	4,32
	hex_constant	.Lstatic.35
.Lstatic.35:
	.ascii	"000102030405060708090a0b0c0d0e0f101112131415161718191a1b1c1d1e1f202122232425262728292a2b2c2d2e2f303132333435363738393a3b3c3d3e3f404142434445464748494a4b4c4d4e4f505152535455565758595a5b5c5d5e5f606162636465666768696a6b6c6d6e6f707172737475767778797a7b7c7d7e7f808182838485868788898a8b8c8d8e8f909192939495969798999a9b9c9d9e9fa0a1a2a3a4a5a6a7a8a9aaabacadaeafb0b1b2b3b4b5b6b7b8b9babbbcbdbebfc0c1c2c3c4c5c6c7c8c9cacbcccdcecfd0d1d2d3d4d5d6d7d8d9dadbdcdddedfe0e1e2e3e4e5e6e7e8e9eaebecedeeeff0f1f2f3f4f5f6f7f8f9fafbfcfdfeff"
	hex_constant	.Lstatic.38
.Lstatic.38:
	.ascii	"\020\021\022\000\000\000\000\000\000\000ut{vyx012\000\000\000\000\000\000\000\225\224\233\226\231\230012\000\000\000\000\000\000\000UT[VYX"
	hex_constant	.Lstatic.39
.Lstatic.39:
	.asciz	" \000"
	hex_merged	8
	.p2align	1,0x0
.Lstatic.41:
	.asciz	"\001\020\001\020\001\020\000"
	hex_constant	.Lstatic.43
.Lstatic.43:
	.ascii	"\240\240\241"
	hex_constant	.Lstatic.44
.Lstatic.44:
	.ascii	"\247\250\251\000\000\000\000\000\000\220\241\242\243\244\245\246\247\250\251\000\000\000\000\000\000\220\221\222\223\224\225\226\247\251\251\000\000\000\000\000\000\221\241\243\243\245\245\247"
	hex_constant	.Lstatic.50
.Lstatic.50:
	.ascii	"fhex-stream: an argument is not UTF-8"
	hex_constant	.Lstatic.51
.Lstatic.51:
	.ascii	"fhex-stream: "
