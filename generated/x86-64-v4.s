/* Written by scripts/generate: do not edit. */
	hex_merged	64
	.p2align	6,0x0
.L100v4_CPI0_0:
	.zero	64,57
	hex_merged	4
	.p2align	2,0x0
.L100v4_CPI0_1:
	.zero	4,57
	hex_function	faster_hex_1_0_0_x86_64_v4_core_plain_check_wide_outlined,.text
	hex_cfi	startproc
	.p2align	5,,13
	cmpq	$512,%rsi
	ja	9f
	movzbl	%dl,%eax
	movl	%eax,%ecx
	shll	$4,%ecx
	leaq	.L100v4_static.2(%rip),%rdx
	vbroadcasti32x4	(%rcx,%rdx),%zmm0
	vpbroadcastd	.L100v4_CPI0_1(%rip),%zmm1
	vmovdqu64	(%rdi),%zmm2
	vmovdqu64	64(%rdi),%zmm3
	vmovdqu64	128(%rdi),%zmm4
	vmovdqu64	192(%rdi),%zmm5
	vpaddb	%zmm1,%zmm2,%zmm6
	vpshufb	%zmm6,%zmm0,%zmm7
	vpsubb	%zmm2,%zmm7,%zmm2
	vpaddb	%zmm1,%zmm3,%zmm7
	vinserti128	$1,%xmm0,%ymm0,%ymm8
	vinserti64x4	$1,%ymm8,%zmm8,%zmm8
	vpshufb	%zmm7,%zmm8,%zmm9
	vpsubb	%zmm3,%zmm9,%zmm3
	vpxorq	%zmm7,%zmm3,%zmm3
	vpternlogq	$246,%zmm6,%zmm2,%zmm3
	vpaddb	%zmm1,%zmm4,%zmm2
	vpshufb	%zmm2,%zmm8,%zmm6
	vpsubb	%zmm4,%zmm6,%zmm4
	vpxorq	%zmm2,%zmm4,%zmm2
	vpaddb	%zmm1,%zmm5,%zmm1
	vpshufb	%zmm1,%zmm8,%zmm4
	vpsubb	%zmm5,%zmm4,%zmm4
	vpxorq	%zmm1,%zmm4,%zmm1
	vpternlogq	$254,%zmm3,%zmm2,%zmm1
	leal	-1(%rsi),%ecx
	shrl	$6,%ecx
	.p2align	5,,10
	andl	$3,%ecx
	je	2f
	vmovdqu64	256(%rdi),%zmm2
	vpaddb	.L100v4_CPI0_0(%rip),%zmm2,%zmm3
	vshufi64x2	$0,%zmm0,%zmm0,%zmm4
	vpshufb	%zmm3,%zmm4,%zmm4
	vpsubb	%zmm2,%zmm4,%zmm2
	vpxorq	%zmm3,%zmm2,%zmm2
	.p2align	5,,10
	cmpl	$1,%ecx
	je	6f
	vmovdqu64	320(%rdi),%zmm3
	vpaddb	.L100v4_CPI0_0(%rip),%zmm3,%zmm4
	vshufi64x2	$0,%zmm0,%zmm0,%zmm5
	vpshufb	%zmm4,%zmm5,%zmm5
	vpsubb	%zmm3,%zmm5,%zmm3
	vpternlogq	$246,%zmm4,%zmm3,%zmm2
	.p2align	5,,10
	cmpl	$2,%ecx
	je	6f
	vmovdqu64	384(%rdi),%zmm3
	vpaddb	.L100v4_CPI0_0(%rip),%zmm3,%zmm4
	vshufi64x2	$0,%zmm0,%zmm0,%zmm5
	vpshufb	%zmm4,%zmm5,%zmm5
	vpsubb	%zmm3,%zmm5,%zmm3
	vpternlogq	$246,%zmm4,%zmm3,%zmm2
	.p2align	5,,6
	jmp	6f
9:
	leaq	-64(%rsi),%rcx
	movq	%rcx,%r8
	shrq	$9,%r8
	movzbl	%dl,%edx
	leaq	.L100v4_static.3(%rip),%rax
	movzbl	(%rdx,%rax),%eax
	.p2align	5,,6
	je	14f
	movl	%edx,%r9d
	shll	$4,%r9d
	leaq	.L100v4_static.2(%rip),%r10
	vmovdqu	(%r9,%r10),%xmm0
	vpbroadcastb	%eax,%zmm1
	leaq	448(%rdi),%r9
	.p2align	4
12:
	vpbroadcastd	.L100v4_CPI0_1(%rip),%zmm2
	vmovdqu64	-448(%r9),%zmm3
	vmovdqu64	-384(%r9),%zmm4
	vmovdqu64	-320(%r9),%zmm5
	vmovdqu64	-256(%r9),%zmm6
	vpaddb	%zmm2,%zmm3,%zmm7
	vshufi64x2	$0,%zmm0,%zmm0,%zmm8
	vpshufb	%zmm7,%zmm8,%zmm9
	vpsubb	%zmm3,%zmm9,%zmm3
	vpaddb	%zmm2,%zmm4,%zmm9
	vpshufb	%zmm9,%zmm8,%zmm10
	vpsubb	%zmm4,%zmm10,%zmm4
	vpxorq	%zmm9,%zmm4,%zmm4
	vpternlogq	$246,%zmm7,%zmm3,%zmm4
	vpaddb	%zmm2,%zmm5,%zmm3
	vpshufb	%zmm3,%zmm8,%zmm7
	vpsubb	%zmm5,%zmm7,%zmm5
	vpxorq	%zmm3,%zmm5,%zmm3
	vpaddb	%zmm2,%zmm6,%zmm5
	vpshufb	%zmm5,%zmm8,%zmm7
	vpsubb	%zmm6,%zmm7,%zmm6
	vpxorq	%zmm5,%zmm6,%zmm5
	vpternlogq	$254,%zmm4,%zmm3,%zmm5
	vmovdqu64	-192(%r9),%zmm3
	vpaddb	%zmm2,%zmm3,%zmm4
	vpshufb	%zmm4,%zmm8,%zmm6
	vpsubb	%zmm3,%zmm6,%zmm3
	vpxorq	%zmm4,%zmm3,%zmm3
	vmovdqu64	-128(%r9),%zmm4
	vpaddb	%zmm2,%zmm4,%zmm6
	vpshufb	%zmm6,%zmm8,%zmm7
	vpsubb	%zmm4,%zmm7,%zmm4
	vpxorq	%zmm6,%zmm4,%zmm4
	vpternlogq	$254,%zmm5,%zmm3,%zmm4
	vmovdqu64	-64(%r9),%zmm3
	vpaddb	%zmm2,%zmm3,%zmm5
	vpshufb	%zmm5,%zmm8,%zmm6
	vpsubb	%zmm3,%zmm6,%zmm3
	vpxorq	%zmm5,%zmm3,%zmm3
	vmovdqu64	(%r9),%zmm5
	vpaddb	%zmm2,%zmm5,%zmm2
	vpshufb	%zmm2,%zmm8,%zmm6
	vpsubb	%zmm5,%zmm6,%zmm5
	vpxorq	%zmm2,%zmm5,%zmm2
	vpternlogq	$254,%zmm4,%zmm3,%zmm2
	vptestmd	%zmm1,%zmm2,%k0
	kortestw	%k0,%k0
	.p2align	5,,6
	jne	13f
	addq	$512,%r9
	.p2align	5,,10
	decq	%r8
	jne	12b
14:
	movl	%ecx,%r9d
	shrl	$6,%r9d
	andl	$7,%r9d
	xorl	%r8d,%r8d
	testb	$63,%sil
	setne	%r8b
	.p2align	5,,10
	addq	%r9,%r8
	je	15f
	movq	%rcx,%rsi
	andq	$-512,%rsi
	shll	$4,%edx
	leaq	.L100v4_static.2(%rip),%r9
	vbroadcasti32x4	(%rdx,%r9),%zmm1
	vmovdqu64	(%rdi,%rsi),%zmm0
	vpaddb	.L100v4_CPI0_0(%rip),%zmm0,%zmm2
	vpshufb	%zmm2,%zmm1,%zmm3
	vpsubb	%zmm0,%zmm3,%zmm0
	vpxorq	%zmm2,%zmm0,%zmm0
	.p2align	5,,10
	cmpq	$1,%r8
	je	24f
	vmovdqu64	64(%rdi,%rsi),%zmm2
	vpaddb	.L100v4_CPI0_0(%rip),%zmm2,%zmm3
	vshufi64x2	$0,%zmm1,%zmm1,%zmm4
	vpshufb	%zmm3,%zmm4,%zmm4
	vpsubb	%zmm2,%zmm4,%zmm2
	vpternlogq	$246,%zmm3,%zmm2,%zmm0
	.p2align	5,,10
	cmpq	$2,%r8
	je	24f
	vmovdqu64	128(%rdi,%rsi),%zmm2
	vpaddb	.L100v4_CPI0_0(%rip),%zmm2,%zmm3
	vshufi64x2	$0,%zmm1,%zmm1,%zmm4
	vpshufb	%zmm3,%zmm4,%zmm4
	vpsubb	%zmm2,%zmm4,%zmm2
	vpternlogq	$246,%zmm3,%zmm2,%zmm0
	.p2align	5,,10
	cmpq	$3,%r8
	je	24f
	vmovdqu64	192(%rdi,%rsi),%zmm2
	vpaddb	.L100v4_CPI0_0(%rip),%zmm2,%zmm3
	vshufi64x2	$0,%zmm1,%zmm1,%zmm4
	vpshufb	%zmm3,%zmm4,%zmm4
	vpsubb	%zmm2,%zmm4,%zmm2
	vpternlogq	$246,%zmm3,%zmm2,%zmm0
	.p2align	5,,10
	cmpq	$4,%r8
	je	24f
	vmovdqu64	256(%rdi,%rsi),%zmm2
	vpaddb	.L100v4_CPI0_0(%rip),%zmm2,%zmm3
	vshufi64x2	$0,%zmm1,%zmm1,%zmm4
	vpshufb	%zmm3,%zmm4,%zmm4
	vpsubb	%zmm2,%zmm4,%zmm2
	vpternlogq	$246,%zmm3,%zmm2,%zmm0
	.p2align	5,,10
	cmpq	$5,%r8
	je	24f
	vmovdqu64	320(%rdi,%rsi),%zmm2
	vpaddb	.L100v4_CPI0_0(%rip),%zmm2,%zmm3
	vshufi64x2	$0,%zmm1,%zmm1,%zmm4
	vpshufb	%zmm3,%zmm4,%zmm4
	vpsubb	%zmm2,%zmm4,%zmm2
	vpternlogq	$246,%zmm3,%zmm2,%zmm0
	.p2align	5,,10
	cmpq	$6,%r8
	je	24f
	vmovdqu64	384(%rdi,%rsi),%zmm2
	vpaddb	.L100v4_CPI0_0(%rip),%zmm2,%zmm3
	vshufi64x2	$0,%zmm1,%zmm1,%zmm4
	vpshufb	%zmm3,%zmm4,%zmm4
	vpsubb	%zmm2,%zmm4,%zmm2
	vpternlogq	$246,%zmm3,%zmm2,%zmm0
	.p2align	5,,10
	cmpq	$7,%r8
	je	24f
	vmovdqu64	448(%rdi,%rsi),%zmm2
	vpaddb	.L100v4_CPI0_0(%rip),%zmm2,%zmm3
	vshufi64x2	$0,%zmm1,%zmm1,%zmm1
	vpshufb	%zmm3,%zmm1,%zmm1
	vpsubb	%zmm2,%zmm1,%zmm1
	vpternlogq	$246,%zmm3,%zmm1,%zmm0
	.p2align	5,,6
	jmp	24f
2:
	vpxor	%xmm2,%xmm2,%xmm2
6:
	vmovdqu64	-64(%rdi,%rsi),%zmm3
	vpaddb	.L100v4_CPI0_0(%rip),%zmm3,%zmm4
	vshufi64x2	$0,%zmm0,%zmm0,%zmm0
	vpshufb	%zmm4,%zmm0,%zmm0
	vpsubb	%zmm3,%zmm0,%zmm0
	vpxorq	%zmm4,%zmm0,%zmm0
	vpternlogq	$254,%zmm0,%zmm2,%zmm1
	leaq	.L100v4_static.3(%rip),%rcx
	vpbroadcastb	(%rax,%rcx),%zmm0
	vptestmd	%zmm1,%zmm0,%k0
	kortestw	%k0,%k0
	sete	%al
	vzeroupper
	.p2align	5,,1
	retq
13:
	xorl	%eax,%eax
	vzeroupper
	.p2align	5,,1
	retq
15:
	shll	$4,%edx
	vpxor	%xmm0,%xmm0,%xmm0
24:
	vmovdqu64	(%rdi,%rcx),%zmm1
	vpaddb	.L100v4_CPI0_0(%rip),%zmm1,%zmm2
	leaq	.L100v4_static.2(%rip),%rcx
	vbroadcasti32x4	(%rdx,%rcx),%zmm3
	vpshufb	%zmm2,%zmm3,%zmm3
	vpsubb	%zmm1,%zmm3,%zmm1
	vpternlogq	$222,%zmm2,%zmm0,%zmm1
	vpbroadcastb	%eax,%zmm0
	vptestmd	%zmm0,%zmm1,%k0
	kortestw	%k0,%k0
	sete	%al
	vzeroupper
	.p2align	5,,1
	retq
	hex_end	faster_hex_1_0_0_x86_64_v4_core_plain_check_wide_outlined
	hex_cfi	endproc
	hex_merged	64
	.p2align	6,0x0
.L100v4_CPI1_0:
	.zero	64,57
.L100v4_CPI1_1:
	.zero	64,79
.L100v4_CPI1_2:
	.zero	64,201
.L100v4_CPI1_3:
	.byte	0,0,0,0,0,0,0,0,1,3,5,7,9,11,13,15
	.byte	0,0,0,0,0,0,0,0,17,19,21,23,25,27,29,31
	.byte	0,0,0,0,0,0,0,0,33,35,37,39,41,43,45,47
	.byte	0,0,0,0,0,0,0,0,49,51,53,55,57,59,61,63
.L100v4_CPI1_4:
	.byte	1,3,5,7,9,11,13,15,0,0,0,0,0,0,0,0
	.byte	17,19,21,23,25,27,29,31,0,0,0,0,0,0,0,0
	.byte	33,35,37,39,41,43,45,47,0,0,0,0,0,0,0,0
	.byte	49,51,53,55,57,59,61,63,0,0,0,0,0,0,0,0
.L100v4_CPI1_5:
	.quad	0
	.quad	2
	.quad	4
	.quad	6
	.quad	9
	.quad	11
	.quad	13
	.quad	15
.L100v4_CPI1_6:
	.zero	64,55
.L100v4_CPI1_7:
	.zero	64,240
.L100v4_CPI1_8:
	.byte	128,128,128,128,128,128,128,128,1,3,5,7,9,11,13,15
	.byte	128,128,128,128,128,128,128,128,17,19,21,23,25,27,29,31
	.byte	128,128,128,128,128,128,128,128,33,35,37,39,41,43,45,47
	.byte	128,128,128,128,128,128,128,128,49,51,53,55,57,59,61,63
.L100v4_CPI1_9:
	.byte	1,3,5,7,9,11,13,15,128,128,128,128,128,128,128,128
	.byte	17,19,21,23,25,27,29,31,128,128,128,128,128,128,128,128
	.byte	33,35,37,39,41,43,45,47,128,128,128,128,128,128,128,128
	.byte	49,51,53,55,57,59,61,63,128,128,128,128,128,128,128,128
	hex_merged	4
	.p2align	2,0x0
.L100v4_CPI1_10:
	.zero	4,55
.L100v4_CPI1_11:
	.zero	4,240
.L100v4_CPI1_12:
	.zero	4,57
.L100v4_CPI1_13:
	.zero	4,79
.L100v4_CPI1_14:
	.zero	4,201
	hex_function	faster_hex_1_0_0_x86_64_v4_core_backend_Backend_decode_or_find_outlined,.text
	hex_cfi	startproc
	pushq	%r15
	hex_cfi	def_cfa_offset 16
	pushq	%r14
	hex_cfi	def_cfa_offset 24
	pushq	%rbx
	hex_cfi	def_cfa_offset 32
	hex_cfi	offset %rbx,-32
	hex_cfi	offset %r14,-24
	hex_cfi	offset %r15,-16
	.p2align	5,,13
	cmpq	$193,%rsi
	jb	32f
	movq	%rcx,%rax
	.p2align	5,,13
	cmpq	$256,%rsi
	ja	4f
	vpbroadcastd	.L100v4_CPI1_10(%rip),%zmm3
	vmovdqu64	(%rdi),%zmm1
	vmovdqu64	64(%rdi),%zmm4
	movzbl	%r8b,%ecx
	movl	%ecx,%r9d
	shll	$4,%r9d
	leaq	.L100v4_static.9(%rip),%r10
	vbroadcasti32x4	(%r9,%r10),%zmm5
	vpsubusb	%zmm3,%zmm1,%zmm0
	vinserti128	$1,%xmm5,%ymm5,%ymm2
	vinserti64x4	$1,%ymm2,%zmm2,%zmm6
	vpshufb	%zmm0,%zmm6,%zmm2
	vpsubusb	%zmm0,%zmm2,%zmm0
	leaq	.L100v4_static.0(%rip),%r9
	vpbroadcastb	(%rcx,%r9),%zmm7
	vpternlogq	$150,%zmm1,%zmm7,%zmm0
	vpsubusb	%zmm3,%zmm4,%zmm1
	vpshufb	%zmm1,%zmm6,%zmm2
	vpsubusb	%zmm1,%zmm2,%zmm2
	vpternlogq	$150,%zmm4,%zmm7,%zmm2
	vmovdqu64	-128(%rdi,%rsi),%zmm4
	vmovdqu64	-64(%rdi,%rsi),%zmm8
	vpsubusb	%zmm3,%zmm4,%zmm1
	vpshufb	%zmm1,%zmm5,%zmm5
	vpsubusb	%zmm1,%zmm5,%zmm1
	vpternlogq	$150,%zmm4,%zmm7,%zmm1
	vpsubusb	%zmm3,%zmm8,%zmm3
	vpshufb	%zmm3,%zmm6,%zmm4
	vpsubusb	%zmm3,%zmm4,%zmm3
	vpternlogq	$150,%zmm8,%zmm7,%zmm3
	vporq	%zmm0,%zmm2,%zmm4
	vpternlogq	$254,%zmm1,%zmm3,%zmm4
	vptestmd	.L100v4_CPI1_11(%rip){1to16},%zmm4,%k0
	kortestw	%k0,%k0
	.p2align	5,,6
	jne	32f
	leaq	.L100v4_static.10(%rip),%rsi
	vpbroadcastw	(%rsi,%rcx,2),%zmm4
	vpmullw	%zmm0,%zmm4,%zmm0
	vmovdqa64	.L100v4_CPI1_8(%rip),%zmm5
	vpmullw	%zmm2,%zmm4,%zmm2
	vpshufb	%zmm5,%zmm2,%zmm2
	vmovdqa64	.L100v4_CPI1_9(%rip),%zmm6
	vmovdqa64	.L100v4_CPI1_5(%rip),%zmm7
	vpshufb	%zmm6,%zmm0,%zmm0
	vpermt2q	%zmm2,%zmm7,%zmm0
	vmovdqu64	%zmm0,(%rdx)
	vpmullw	%zmm1,%zmm4,%zmm0
	vpmullw	%zmm3,%zmm4,%zmm1
	vpshufb	%zmm5,%zmm1,%zmm1
	vpshufb	%zmm6,%zmm0,%zmm0
	vpermt2q	%zmm1,%zmm7,%zmm0
	vmovdqu64	%zmm0,-64(%rdx,%rax)
	.p2align	5,,6
	jmp	35f
4:
	.p2align	5,,13
	cmpq	$384,%rsi
	ja	8f
	vpbroadcastd	.L100v4_CPI1_10(%rip),%zmm2
	vmovdqu64	-128(%rdi,%rsi),%zmm1
	vmovdqu64	-64(%rdi,%rsi),%zmm4
	movzbl	%r8b,%ecx
	movl	%ecx,%r9d
	shll	$4,%r9d
	leaq	.L100v4_static.9(%rip),%r10
	vbroadcasti32x4	(%r9,%r10),%zmm5
	vpsubusb	%zmm2,%zmm1,%zmm0
	vpshufb	%zmm0,%zmm5,%zmm3
	vpsubusb	%zmm0,%zmm3,%zmm0
	leaq	.L100v4_static.0(%rip),%r9
	vpbroadcastb	(%rcx,%r9),%zmm3
	vpternlogq	$150,%zmm1,%zmm3,%zmm0
	vpsubusb	%zmm2,%zmm4,%zmm1
	vinserti128	$1,%xmm5,%ymm5,%ymm6
	vinserti64x4	$1,%ymm6,%zmm6,%zmm6
	vpshufb	%zmm1,%zmm6,%zmm6
	vpsubusb	%zmm1,%zmm6,%zmm1
	vpternlogq	$150,%zmm4,%zmm3,%zmm1
	vporq	%zmm0,%zmm1,%zmm6
	vpbroadcastd	.L100v4_CPI1_11(%rip),%zmm4
	vptestmd	%zmm4,%zmm6,%k0
	kortestw	%k0,%k0
	.p2align	5,,6
	jne	32f
	vmovdqu64	(%rdi),%zmm6
	vmovdqu64	64(%rdi),%zmm8
	vmovdqu64	128(%rdi),%zmm9
	vmovdqu64	192(%rdi),%zmm10
	vpsubusb	%zmm2,%zmm6,%zmm7
	vshufi64x2	$0,%zmm5,%zmm5,%zmm11
	vpshufb	%zmm7,%zmm11,%zmm5
	vpsubusb	%zmm7,%zmm5,%zmm5
	vpternlogq	$150,%zmm6,%zmm3,%zmm5
	vpsubusb	%zmm2,%zmm8,%zmm6
	vpshufb	%zmm6,%zmm11,%zmm7
	vpsubusb	%zmm6,%zmm7,%zmm7
	vpternlogq	$150,%zmm8,%zmm3,%zmm7
	vpsubusb	%zmm2,%zmm9,%zmm6
	vpshufb	%zmm6,%zmm11,%zmm8
	vpsubusb	%zmm6,%zmm8,%zmm6
	vpternlogq	$150,%zmm9,%zmm3,%zmm6
	vpsubusb	%zmm2,%zmm10,%zmm2
	vpshufb	%zmm2,%zmm11,%zmm8
	vpsubusb	%zmm2,%zmm8,%zmm2
	vpternlogq	$150,%zmm10,%zmm3,%zmm2
	vporq	%zmm5,%zmm7,%zmm3
	vpternlogq	$254,%zmm6,%zmm2,%zmm3
	vptestmd	%zmm4,%zmm3,%k0
	kortestw	%k0,%k0
	.p2align	5,,6
	jne	32f
	leaq	.L100v4_static.10(%rip),%rsi
	vpbroadcastw	(%rsi,%rcx,2),%zmm3
	vpmullw	%zmm5,%zmm3,%zmm4
	vpmullw	%zmm7,%zmm3,%zmm5
	vmovdqa64	.L100v4_CPI1_8(%rip),%zmm7
	vpshufb	%zmm7,%zmm5,%zmm5
	vmovdqa64	.L100v4_CPI1_9(%rip),%zmm8
	vpshufb	%zmm8,%zmm4,%zmm4
	vmovdqa64	.L100v4_CPI1_5(%rip),%zmm9
	vpermt2q	%zmm5,%zmm9,%zmm4
	vmovdqu64	%zmm4,(%rdx)
	vpmullw	%zmm6,%zmm3,%zmm4
	vpmullw	%zmm2,%zmm3,%zmm2
	vpshufb	%zmm7,%zmm2,%zmm2
	vpshufb	%zmm8,%zmm4,%zmm4
	vpermt2q	%zmm2,%zmm9,%zmm4
	vmovdqu64	%zmm4,64(%rdx)
	vpmullw	%zmm0,%zmm3,%zmm0
	vpmullw	%zmm1,%zmm3,%zmm1
	vpshufb	%zmm7,%zmm1,%zmm1
	vpshufb	%zmm8,%zmm0,%zmm0
	vpermt2q	%zmm1,%zmm9,%zmm0
	vmovdqu64	%zmm0,-64(%rdx,%rax)
	.p2align	5,,6
	jmp	35f
8:
	.p2align	5,,13
	cmpq	$512,%rsi
	ja	12f
	vpbroadcastd	.L100v4_CPI1_10(%rip),%zmm4
	vmovdqu64	-256(%rdi,%rsi),%zmm1
	vmovdqu64	-192(%rdi,%rsi),%zmm3
	vmovdqu64	-128(%rdi,%rsi),%zmm7
	vmovdqu64	-64(%rdi,%rsi),%zmm8
	vpsubusb	%zmm4,%zmm1,%zmm0
	movzbl	%r8b,%ecx
	movl	%ecx,%r9d
	shll	$4,%r9d
	leaq	.L100v4_static.9(%rip),%r10
	vbroadcasti32x4	(%r9,%r10),%zmm6
	vpshufb	%zmm0,%zmm6,%zmm2
	vpsubusb	%zmm0,%zmm2,%zmm0
	leaq	.L100v4_static.0(%rip),%r9
	vpbroadcastb	(%rcx,%r9),%zmm5
	vpternlogq	$150,%zmm1,%zmm5,%zmm0
	vpsubusb	%zmm4,%zmm3,%zmm1
	vinserti128	$1,%xmm6,%ymm6,%ymm2
	vinserti64x4	$1,%ymm2,%zmm2,%zmm9
	vpshufb	%zmm1,%zmm9,%zmm2
	vpsubusb	%zmm1,%zmm2,%zmm2
	vpternlogq	$150,%zmm3,%zmm5,%zmm2
	vpsubusb	%zmm4,%zmm7,%zmm1
	vpshufb	%zmm1,%zmm9,%zmm3
	vpsubusb	%zmm1,%zmm3,%zmm1
	vpternlogq	$150,%zmm7,%zmm5,%zmm1
	vpsubusb	%zmm4,%zmm8,%zmm3
	vpshufb	%zmm3,%zmm9,%zmm7
	vpsubusb	%zmm3,%zmm7,%zmm3
	vpternlogq	$150,%zmm8,%zmm5,%zmm3
	vporq	%zmm0,%zmm2,%zmm8
	vpternlogq	$254,%zmm1,%zmm3,%zmm8
	vpbroadcastd	.L100v4_CPI1_11(%rip),%zmm7
	vptestmd	%zmm7,%zmm8,%k0
	kortestw	%k0,%k0
	.p2align	5,,6
	jne	32f
	vmovdqu64	(%rdi),%zmm8
	vmovdqu64	64(%rdi),%zmm10
	vmovdqu64	128(%rdi),%zmm11
	vmovdqu64	192(%rdi),%zmm12
	vpsubusb	%zmm4,%zmm8,%zmm9
	vshufi64x2	$0,%zmm6,%zmm6,%zmm13
	vpshufb	%zmm9,%zmm13,%zmm6
	vpsubusb	%zmm9,%zmm6,%zmm6
	vpternlogq	$150,%zmm8,%zmm5,%zmm6
	vpsubusb	%zmm4,%zmm10,%zmm8
	vpshufb	%zmm8,%zmm13,%zmm9
	vpsubusb	%zmm8,%zmm9,%zmm9
	vpternlogq	$150,%zmm10,%zmm5,%zmm9
	vpsubusb	%zmm4,%zmm11,%zmm8
	vpshufb	%zmm8,%zmm13,%zmm10
	vpsubusb	%zmm8,%zmm10,%zmm8
	vpternlogq	$150,%zmm11,%zmm5,%zmm8
	vpsubusb	%zmm4,%zmm12,%zmm4
	vpshufb	%zmm4,%zmm13,%zmm10
	vpsubusb	%zmm4,%zmm10,%zmm4
	vpternlogq	$150,%zmm12,%zmm5,%zmm4
	vporq	%zmm6,%zmm9,%zmm5
	vpternlogq	$254,%zmm8,%zmm4,%zmm5
	vptestmd	%zmm7,%zmm5,%k0
	kortestw	%k0,%k0
	.p2align	5,,6
	jne	32f
	leaq	.L100v4_static.10(%rip),%rsi
	vpbroadcastw	(%rsi,%rcx,2),%zmm5
	vpmullw	%zmm6,%zmm5,%zmm6
	vpmullw	%zmm9,%zmm5,%zmm7
	vmovdqa64	.L100v4_CPI1_8(%rip),%zmm9
	vpshufb	%zmm9,%zmm7,%zmm7
	vmovdqa64	.L100v4_CPI1_9(%rip),%zmm10
	vpshufb	%zmm10,%zmm6,%zmm6
	vmovdqa64	.L100v4_CPI1_5(%rip),%zmm11
	vpermt2q	%zmm7,%zmm11,%zmm6
	vmovdqu64	%zmm6,(%rdx)
	vpmullw	%zmm8,%zmm5,%zmm6
	vpmullw	%zmm4,%zmm5,%zmm4
	vpshufb	%zmm9,%zmm4,%zmm4
	vpshufb	%zmm10,%zmm6,%zmm6
	vpermt2q	%zmm4,%zmm11,%zmm6
	vmovdqu64	%zmm6,64(%rdx)
	vpmullw	%zmm0,%zmm5,%zmm0
	vpmullw	%zmm2,%zmm5,%zmm2
	vpshufb	%zmm9,%zmm2,%zmm2
	vpshufb	%zmm10,%zmm0,%zmm0
	vpermt2q	%zmm2,%zmm11,%zmm0
	vmovdqu64	%zmm0,-128(%rdx,%rax)
	vpmullw	%zmm1,%zmm5,%zmm0
	vpmullw	%zmm3,%zmm5,%zmm1
	vpshufb	%zmm9,%zmm1,%zmm1
	vpshufb	%zmm10,%zmm0,%zmm0
	vpermt2q	%zmm1,%zmm11,%zmm0
	vmovdqu64	%zmm0,-64(%rdx,%rax)
	.p2align	5,,6
	jmp	35f
12:
	leaq	-64(%rsi),%r10
	movq	%r10,%r11
	shrq	$9,%r11
	movzbl	%r8b,%ecx
	leaq	.L100v4_static.3(%rip),%r9
	movzbl	(%rcx,%r9),%r9d
	.p2align	5,,6
	je	16f
	movl	%ecx,%ebx
	shll	$4,%ebx
	leaq	.L100v4_static.2(%rip),%r14
	vmovdqu	(%rbx,%r14),%xmm0
	vpbroadcastb	%r9d,%zmm1
	leaq	448(%rdi),%rbx
	.p2align	4
14:
	vpbroadcastd	.L100v4_CPI1_12(%rip),%zmm2
	vmovdqu64	-448(%rbx),%zmm3
	vmovdqu64	-384(%rbx),%zmm4
	vmovdqu64	-320(%rbx),%zmm5
	vmovdqu64	-256(%rbx),%zmm6
	vpaddb	%zmm2,%zmm3,%zmm7
	vshufi64x2	$0,%zmm0,%zmm0,%zmm8
	vpshufb	%zmm7,%zmm8,%zmm9
	vpsubb	%zmm3,%zmm9,%zmm3
	vpaddb	%zmm2,%zmm4,%zmm9
	vpshufb	%zmm9,%zmm8,%zmm10
	vpsubb	%zmm4,%zmm10,%zmm4
	vpxorq	%zmm9,%zmm4,%zmm4
	vpternlogq	$246,%zmm7,%zmm3,%zmm4
	vpaddb	%zmm2,%zmm5,%zmm3
	vpshufb	%zmm3,%zmm8,%zmm7
	vpsubb	%zmm5,%zmm7,%zmm5
	vpternlogq	$222,%zmm3,%zmm4,%zmm5
	vpaddb	%zmm2,%zmm6,%zmm3
	vpshufb	%zmm3,%zmm8,%zmm4
	vpsubb	%zmm6,%zmm4,%zmm4
	vpternlogq	$222,%zmm3,%zmm5,%zmm4
	vmovdqu64	-192(%rbx),%zmm3
	vpaddb	%zmm2,%zmm3,%zmm5
	vpshufb	%zmm5,%zmm8,%zmm6
	vpsubb	%zmm3,%zmm6,%zmm3
	vpternlogq	$222,%zmm5,%zmm4,%zmm3
	vmovdqu64	-128(%rbx),%zmm4
	vpaddb	%zmm2,%zmm4,%zmm5
	vpshufb	%zmm5,%zmm8,%zmm6
	vpsubb	%zmm4,%zmm6,%zmm4
	vpternlogq	$222,%zmm5,%zmm3,%zmm4
	vmovdqu64	-64(%rbx),%zmm3
	vpaddb	%zmm2,%zmm3,%zmm5
	vpshufb	%zmm5,%zmm8,%zmm6
	vpsubb	%zmm3,%zmm6,%zmm3
	vpternlogq	$222,%zmm5,%zmm4,%zmm3
	vmovdqu64	(%rbx),%zmm4
	vpaddb	%zmm2,%zmm4,%zmm2
	vpshufb	%zmm2,%zmm8,%zmm5
	vpsubb	%zmm4,%zmm5,%zmm4
	vpternlogq	$222,%zmm2,%zmm3,%zmm4
	vptestmd	%zmm1,%zmm4,%k0
	kortestw	%k0,%k0
	.p2align	5,,6
	jne	32f
	addq	$512,%rbx
	.p2align	5,,10
	decq	%r11
	jne	14b
16:
	movl	%r10d,%ebx
	shrl	$6,%ebx
	andl	$7,%ebx
	xorl	%r11d,%r11d
	testb	$63,%sil
	setne	%r11b
	.p2align	5,,10
	addq	%rbx,%r11
	je	25f
	movq	%r10,%rbx
	andq	$-512,%rbx
	movl	%ecx,%r14d
	shll	$4,%r14d
	leaq	.L100v4_static.2(%rip),%r15
	vbroadcasti32x4	(%r14,%r15),%zmm0
	vmovdqu64	(%rdi,%rbx),%zmm1
	vpaddb	.L100v4_CPI1_0(%rip),%zmm1,%zmm2
	vpshufb	%zmm2,%zmm0,%zmm3
	vpsubb	%zmm1,%zmm3,%zmm1
	vpxorq	%zmm2,%zmm1,%zmm1
	.p2align	5,,10
	cmpq	$1,%r11
	je	26f
	vmovdqu64	64(%rdi,%rbx),%zmm2
	vpaddb	.L100v4_CPI1_0(%rip),%zmm2,%zmm3
	vshufi64x2	$0,%zmm0,%zmm0,%zmm4
	vpshufb	%zmm3,%zmm4,%zmm4
	vpsubb	%zmm2,%zmm4,%zmm2
	vpternlogq	$246,%zmm3,%zmm2,%zmm1
	.p2align	5,,10
	cmpq	$2,%r11
	je	26f
	vmovdqu64	128(%rdi,%rbx),%zmm2
	vpaddb	.L100v4_CPI1_0(%rip),%zmm2,%zmm3
	vshufi64x2	$0,%zmm0,%zmm0,%zmm4
	vpshufb	%zmm3,%zmm4,%zmm4
	vpsubb	%zmm2,%zmm4,%zmm2
	vpternlogq	$246,%zmm3,%zmm2,%zmm1
	.p2align	5,,10
	cmpq	$3,%r11
	je	26f
	vmovdqu64	192(%rdi,%rbx),%zmm2
	vpaddb	.L100v4_CPI1_0(%rip),%zmm2,%zmm3
	vshufi64x2	$0,%zmm0,%zmm0,%zmm4
	vpshufb	%zmm3,%zmm4,%zmm4
	vpsubb	%zmm2,%zmm4,%zmm2
	vpternlogq	$246,%zmm3,%zmm2,%zmm1
	.p2align	5,,10
	cmpq	$4,%r11
	je	26f
	vmovdqu64	256(%rdi,%rbx),%zmm2
	vpaddb	.L100v4_CPI1_0(%rip),%zmm2,%zmm3
	vshufi64x2	$0,%zmm0,%zmm0,%zmm4
	vpshufb	%zmm3,%zmm4,%zmm4
	vpsubb	%zmm2,%zmm4,%zmm2
	vpternlogq	$246,%zmm3,%zmm2,%zmm1
	.p2align	5,,10
	cmpq	$5,%r11
	je	26f
	vmovdqu64	320(%rdi,%rbx),%zmm2
	vpaddb	.L100v4_CPI1_0(%rip),%zmm2,%zmm3
	vshufi64x2	$0,%zmm0,%zmm0,%zmm4
	vpshufb	%zmm3,%zmm4,%zmm4
	vpsubb	%zmm2,%zmm4,%zmm2
	vpternlogq	$246,%zmm3,%zmm2,%zmm1
	.p2align	5,,10
	cmpq	$6,%r11
	je	26f
	vmovdqu64	384(%rdi,%rbx),%zmm2
	vpaddb	.L100v4_CPI1_0(%rip),%zmm2,%zmm3
	vshufi64x2	$0,%zmm0,%zmm0,%zmm4
	vpshufb	%zmm3,%zmm4,%zmm4
	vpsubb	%zmm2,%zmm4,%zmm2
	vpternlogq	$246,%zmm3,%zmm2,%zmm1
	.p2align	5,,10
	cmpq	$7,%r11
	je	26f
	vmovdqu64	448(%rdi,%rbx),%zmm2
	vpaddb	.L100v4_CPI1_0(%rip),%zmm2,%zmm3
	vshufi64x2	$0,%zmm0,%zmm0,%zmm4
	vpshufb	%zmm3,%zmm4,%zmm4
	vpsubb	%zmm2,%zmm4,%zmm2
	vpternlogq	$246,%zmm3,%zmm2,%zmm1
	.p2align	5,,6
	jmp	26f
25:
	movl	%ecx,%r11d
	shll	$4,%r11d
	leaq	.L100v4_static.2(%rip),%rbx
	vmovdqu	(%r11,%rbx),%xmm0
	vpxor	%xmm1,%xmm1,%xmm1
26:
	vmovdqu64	(%rdi,%r10),%zmm2
	vpaddb	.L100v4_CPI1_0(%rip),%zmm2,%zmm3
	vshufi64x2	$0,%zmm0,%zmm0,%zmm0
	vpshufb	%zmm3,%zmm0,%zmm0
	vpsubb	%zmm2,%zmm0,%zmm0
	vpternlogq	$222,%zmm3,%zmm1,%zmm0
	vpbroadcastb	%r9d,%zmm1
	vptestmd	%zmm1,%zmm0,%k0
	kortestw	%k0,%k0
	.p2align	5,,6
	jne	32f
	movq	%rax,%rsi
	shrq	$6,%rsi
	.p2align	5,,6
	je	30f
	leaq	.L100v4_static.10(%rip),%r8
	vpbroadcastw	(%r8,%rcx,2),%zmm0
	xorl	%r8d,%r8d
	.p2align	4
29:
	vpbroadcastd	.L100v4_CPI1_13(%rip),%zmm1
	vpandq	(%rdi,%r8,2),%zmm1,%zmm2
	vpbroadcastd	.L100v4_CPI1_14(%rip),%zmm3
	vpaddb	%zmm3,%zmm2,%zmm4
	vpminub	%zmm4,%zmm2,%zmm2
	vpandq	64(%rdi,%r8,2),%zmm1,%zmm1
	vpaddb	%zmm3,%zmm1,%zmm3
	vpminub	%zmm3,%zmm1,%zmm1
	vpmullw	%zmm2,%zmm0,%zmm2
	vpmullw	%zmm1,%zmm0,%zmm1
	vpshufb	.L100v4_CPI1_3(%rip),%zmm1,%zmm1
	vpshufb	.L100v4_CPI1_4(%rip),%zmm2,%zmm2
	vmovdqa64	.L100v4_CPI1_5(%rip),%zmm3
	vpermi2q	%zmm1,%zmm2,%zmm3
	vmovdqu64	%zmm3,(%rdx,%r8)
	addq	$64,%r8
	.p2align	5,,10
	decq	%rsi
	jne	29b
30:
	movl	%eax,%esi
	andl	$63,%esi
	.p2align	5,,10
	cmpq	$33,%rsi
	jb	33f
	vpbroadcastd	.L100v4_CPI1_13(%rip),%zmm0
	vpandq	-128(%rdi,%rax,2),%zmm0,%zmm1
	vpbroadcastd	.L100v4_CPI1_14(%rip),%zmm2
	vpaddb	%zmm2,%zmm1,%zmm3
	vpandq	-64(%rdi,%rax,2),%zmm0,%zmm0
	vpminub	%zmm3,%zmm1,%zmm1
	vpaddb	%zmm2,%zmm0,%zmm2
	vpminub	%zmm2,%zmm0,%zmm0
	leaq	.L100v4_static.10(%rip),%rsi
	vpbroadcastw	(%rsi,%rcx,2),%zmm2
	vpmullw	%zmm1,%zmm2,%zmm1
	vpmullw	%zmm0,%zmm2,%zmm0
	vpshufb	.L100v4_CPI1_3(%rip),%zmm0,%zmm0
	vpshufb	.L100v4_CPI1_4(%rip),%zmm1,%zmm1
	vmovdqa64	.L100v4_CPI1_5(%rip),%zmm2
	vpermi2q	%zmm0,%zmm1,%zmm2
	vmovdqu64	%zmm2,-64(%rdx,%rax)
	.p2align	5,,6
	jmp	35f
32:
	movzbl	%r8b,%edx
	vzeroupper
	.p2align	5,,5
	callq	faster_hex_1_0_0_x86_64_v4_core_backend_Backend_first_invalid_byte
	movzbl	%dl,%edx
	orl	$256,%edx
	popq	%rbx
	hex_cfi	def_cfa_offset 24
	popq	%r14
	hex_cfi	def_cfa_offset 16
	popq	%r15
	hex_cfi	def_cfa_offset 8
	.p2align	5,,1
	retq
33:
	hex_cfi	def_cfa_offset 32
	.p2align	5,,10
	testq	%rsi,%rsi
	je	35f
	vmovdqu64	-64(%rdi,%rax,2),%zmm0
	vpandd	.L100v4_CPI1_13(%rip){1to16},%zmm0,%zmm0
	vpaddb	.L100v4_CPI1_2(%rip),%zmm0,%zmm1
	vpminub	%zmm1,%zmm0,%zmm0
	vpsllw	$12,%zmm0,%zmm1
	vpaddw	%zmm1,%zmm0,%zmm0
	vpsrlw	$8,%zmm0,%zmm0
	vpmovwb	%zmm0,-32(%rdx,%rax)
35:
	xorl	%edx,%edx
	popq	%rbx
	hex_cfi	def_cfa_offset 24
	popq	%r14
	hex_cfi	def_cfa_offset 16
	popq	%r15
	hex_cfi	def_cfa_offset 8
	vzeroupper
	.p2align	5,,1
	retq
	hex_end	faster_hex_1_0_0_x86_64_v4_core_backend_Backend_decode_or_find_outlined
	hex_cfi	endproc
	hex_merged	32
	.p2align	5,0x0
.L100v4_CPI2_0:
	.zero	32,57
	hex_merged	4
	.p2align	2,0x0
.L100v4_CPI2_1:
	.zero	4,57
	hex_function	faster_hex_1_0_0_x86_64_v4_core_backend_Backend_first_invalid_byte,.text.unlikely
	hex_cfi	startproc
	movzbl	%dl,%ecx
	.p2align	5,,10
	cmpq	$65,%rsi
	jb	1f
	movq	%rsi,%r8
	shrq	$6,%r8
	movl	%ecx,%eax
	shll	$4,%eax
	leaq	.L100v4_static.2(%rip),%r9
	vmovdqu	(%rax,%r9),%xmm0
	leaq	.L100v4_static.3(%rip),%rax
	vpbroadcastb	(%rcx,%rax),%ymm1
	xorl	%eax,%eax
	.p2align	4
4:
	vpbroadcastd	.L100v4_CPI2_1(%rip),%ymm2
	vmovdqu	(%rdi,%rax),%ymm3
	vmovdqu	32(%rdi,%rax),%ymm4
	vpaddb	%ymm2,%ymm3,%ymm5
	vinserti128	$1,%xmm0,%ymm0,%ymm6
	vpshufb	%ymm5,%ymm6,%ymm7
	vpsubb	%ymm3,%ymm7,%ymm3
	vpaddb	%ymm2,%ymm4,%ymm2
	vpshufb	%ymm2,%ymm6,%ymm6
	vpsubb	%ymm4,%ymm6,%ymm4
	vpxor	%ymm2,%ymm4,%ymm2
	vpternlogq	$246,%ymm5,%ymm3,%ymm2
	vptest	%ymm1,%ymm2
	.p2align	5,,6
	jne	6f
	addq	$64,%rax
	.p2align	5,,10
	decq	%r8
	jne	4b
	movq	%rsi,%rax
	andq	$-64,%rax
	.p2align	5,,6
	jmp	6f
1:
	xorl	%eax,%eax
6:
	.p2align	5,,10
	cmpq	%rsi,%rax
	jae	15f
	.p2align	5,,10
	testb	%dl,%dl
	je	11f
	.p2align	5,,10
	cmpl	$1,%ecx
	jne	13f
	.p2align	4
9:
	movzbl	(%rdi,%rax),%edx
	leaq	.L100v4_static.7(%rip),%rcx
	.p2align	5,,10
	cmpb	$-1,(%rdx,%rcx)
	je	16f
	incq	%rax
	.p2align	5,,10
	cmpq	%rax,%rsi
	jne	9b
15:
	ud2
	.p2align	4
12:
	incq	%rax
	.p2align	5,,10
	cmpq	%rax,%rsi
	je	15b
11:
	movzbl	(%rdi,%rax),%edx
	leaq	.L100v4_static.6(%rip),%rcx
	.p2align	5,,10
	cmpb	$-1,(%rdx,%rcx)
	jne	12b
	.p2align	5,,6
	jmp	16f
	.p2align	4
14:
	incq	%rax
	.p2align	5,,10
	cmpq	%rax,%rsi
	je	15b
13:
	movzbl	(%rdi,%rax),%edx
	leaq	.L100v4_static.8(%rip),%rcx
	.p2align	5,,10
	cmpb	$-1,(%rdx,%rcx)
	jne	14b
16:
	vzeroupper
	.p2align	5,,1
	retq
	hex_end	faster_hex_1_0_0_x86_64_v4_core_backend_Backend_first_invalid_byte
	hex_cfi	endproc
	hex_merged	32
	.p2align	5,0x0
.L100v4_CPI3_0:
	.zero	32,33
	hex_function	faster_hex_1_0_0_x86_64_v4_codec_spaced_run_len,.text
	hex_cfi	startproc
	cmpq	$192,%rsi
	movl	$192,%eax
	cmovbq	%rsi,%rax
	xorl	%ecx,%ecx
	testq	%rsi,%rsi
	setne	%cl
	.p2align	5,,10
	cmpq	$32,%rsi
	jae	1f
	.p2align	4
	.p2align	5,,10
	cmpq	%rcx,%rax
	je	8f
6:
	.p2align	5,,10
	cmpb	$33,(%rdi,%rcx)
	jb	7f
	incq	%rcx
	.p2align	5,,10
	cmpq	%rcx,%rax
	jne	6b
8:
	vzeroupper
	.p2align	5,,1
	retq
1:
	leaq	-32(%rax),%rdx
	.p2align	4
2:
	cmpq	%rcx,%rdx
	cmovbq	%rdx,%rcx
	vmovdqu	(%rdi,%rcx),%ymm0
	vpcmpltub	.L100v4_CPI3_0(%rip),%ymm0,%k0
	kortestd	%k0,%k0
	.p2align	5,,6
	jne	3f
	addq	$32,%rcx
	.p2align	5,,10
	cmpq	%rax,%rcx
	jb	2b
	.p2align	5,,6
	jmp	8b
3:
	kmovd	%k0,%edx
	tzcntl	%edx,%edx
	addq	%rdx,%rcx
	cmpq	%rcx,%rax
	cmovaeq	%rcx,%rax
	testq	%rcx,%rcx
	movl	$1,%ecx
	cmoveq	%rcx,%rax
	vzeroupper
	.p2align	5,,1
	retq
7:
	movq	%rcx,%rax
	.p2align	5,,1
	retq
	hex_end	faster_hex_1_0_0_x86_64_v4_codec_spaced_run_len
	hex_cfi	endproc
	hex_merged	64
	.p2align	6,0x0
.L100v4_CPI4_0:
	.zero	64,57
	hex_merged	32
	.p2align	5,0x0
.L100v4_CPI4_1:
	.zero	32,57
	hex_merged	16
	.p2align	4,0x0
.L100v4_CPI4_2:
	.zero	16,57
.L100v4_CPI4_3:
	.byte	57,57,57,57,57,57,57,57,0,0,0,0,0,0,0,0
.L100v4_CPI4_4:
	.byte	57,57,57,57,0,0,0,0,0,0,0,0,0,0,0,0
.L100v4_CPI4_5:
	.byte	57,57,0,0,0,0,0,0,0,0,0,0,0,0,0,0
	hex_merged	4
	.p2align	2,0x0
.L100v4_CPI4_6:
	.zero	4,57
	hex_function	faster_hex_1_0_0_x86_64_v4_codec_spaced_line_count,.text
	hex_cfi	startproc
	pushq	%rbp
	hex_cfi	def_cfa_offset 16
	pushq	%r15
	hex_cfi	def_cfa_offset 24
	pushq	%r14
	hex_cfi	def_cfa_offset 32
	pushq	%r13
	hex_cfi	def_cfa_offset 40
	pushq	%r12
	hex_cfi	def_cfa_offset 48
	pushq	%rbx
	hex_cfi	def_cfa_offset 56
	subq	$24,%rsp
	hex_cfi	def_cfa_offset 80
	hex_cfi	offset %rbx,-56
	hex_cfi	offset %r12,-48
	hex_cfi	offset %r13,-40
	hex_cfi	offset %r14,-32
	hex_cfi	offset %r15,-24
	hex_cfi	offset %rbp,-16
	.p2align	5,,10
	testq	%rdx,%rdx
	je	4f
	movq	%rcx,%rbp
	movq	%rdx,%r11
	movq	%rsi,%r12
	.p2align	5,,10
	cmpq	$33,%rdx
	jae	6f
2:
	leaq	(%r11,%rbp),%r9
	.p2align	5,,10
	cmpq	%r12,%r9
	ja	4f
	movzbl	%r8b,%r15d
	movl	%r15d,%r14d
	shll	$4,%r14d
	xorl	%ebx,%ebx
	movq	%rdi,%r13
	movq	%rdi,8(%rsp)
	movq	%r14,(%rsp)
	.p2align	5,,6
	jmp	12f
	.p2align	4
10:
	movzbl	(%rdi,%r11),%eax
	.p2align	5,,10
	cmpb	(%r13,%r11),%al
	jne	5f
11:
	incq	%rbx
	addq	%r9,%r13
	subq	%r9,%r12
	.p2align	5,,10
	cmpq	%r12,%r9
	ja	5f
12:
	.p2align	5,,10
	cmpq	$32,%r11
	ja	16f
	.p2align	5,,10
	cmpq	$15,%r11
	ja	19f
	.p2align	5,,10
	cmpq	$1,%r11
	jne	21f
	movzbl	(%r13),%eax
	leal	-48(%rax),%ecx
	xorl	%r8d,%r8d
	subb	$9,%cl
	movzbl	%cl,%ecx
	cmovbl	%r8d,%ecx
	leaq	.L100v4_static.0(%rip),%rsi
	orb	(%r15,%rsi),%al
	leaq	.L100v4_static.1(%rip),%rsi
	subb	(%r15,%rsi),%al
	subb	$5,%al
	movzbl	%al,%eax
	cmovbl	%r8d,%eax
	cmpb	%al,%cl
	cmovbl	%ecx,%eax
	.p2align	5,,10
	testb	%al,%al
	je	31f
	.p2align	5,,6
	jmp	5f
	.p2align	4
16:
	.p2align	5,,13
	cmpq	$256,%r11
	ja	20f
	leaq	.L100v4_static.2(%rip),%rax
	vmovdqu	(%r14,%rax),%xmm1
	.p2align	5,,10
	cmpq	$64,%r11
	ja	23f
	vmovdqu	(%r13),%ymm0
	vpbroadcastd	.L100v4_CPI4_6(%rip),%ymm2
	vpaddb	%ymm2,%ymm0,%ymm3
	vinserti128	$1,%xmm1,%ymm1,%ymm1
	vpshufb	%ymm3,%ymm1,%ymm4
	vpsubb	%ymm0,%ymm4,%ymm0
	vmovdqu	-32(%r13,%r11),%ymm4
	vpaddb	%ymm2,%ymm4,%ymm2
	vpshufb	%ymm2,%ymm1,%ymm1
	vpsubb	%ymm4,%ymm1,%ymm1
	vpxor	%ymm2,%ymm1,%ymm1
	vpternlogq	$246,%ymm3,%ymm0,%ymm1
	leaq	.L100v4_static.3(%rip),%rax
	vpbroadcastb	(%r15,%rax),%ymm0
	vptest	%ymm0,%ymm1
	.p2align	5,,6
	je	31f
	.p2align	5,,6
	jmp	5f
	.p2align	4
19:
	vmovdqu	(%r13),%xmm0
	vpbroadcastd	.L100v4_CPI4_6(%rip),%xmm1
	vpaddb	%xmm1,%xmm0,%xmm2
	leaq	.L100v4_static.2(%rip),%rax
	vmovdqu	(%r14,%rax),%xmm3
	vpshufb	%xmm2,%xmm3,%xmm4
	vpsubb	%xmm0,%xmm4,%xmm0
	vmovdqu	-16(%r13,%r11),%xmm4
	vpaddb	%xmm1,%xmm4,%xmm1
	vpshufb	%xmm1,%xmm3,%xmm3
	vpsubb	%xmm4,%xmm3,%xmm3
	vpxor	%xmm1,%xmm3,%xmm1
	vpternlogq	$246,%xmm2,%xmm0,%xmm1
	leaq	.L100v4_static.3(%rip),%rax
	vpbroadcastb	(%r15,%rax),%xmm0
	vptest	%xmm0,%xmm1
	.p2align	5,,6
	je	31f
	.p2align	5,,6
	jmp	5f
	.p2align	4
20:
	movq	%r13,%rdi
	movq	%r11,%rsi
	movl	%r15d,%edx
	movq	%r9,%r14
	movq	%rbx,16(%rsp)
	movq	%r11,%rbx
	vzeroupper
	.p2align	5,,5
	callq	faster_hex_1_0_0_x86_64_v4_core_plain_check_wide_outlined
	movq	%rbx,%r11
	movq	16(%rsp),%rbx
	movq	%r14,%r9
	movq	(%rsp),%r14
	movq	8(%rsp),%rdi
	.p2align	5,,10
	testb	%al,%al
	jne	31f
	.p2align	5,,6
	jmp	5f
21:
	.p2align	5,,10
	cmpq	$3,%r11
	ja	25f
	movzwl	(%r13),%eax
	vmovd	%eax,%xmm0
	vpbroadcastd	.L100v4_CPI4_6(%rip),%xmm1
	vpaddb	%xmm1,%xmm0,%xmm2
	leaq	.L100v4_static.2(%rip),%rax
	vmovdqu	(%r14,%rax),%xmm3
	vpshufb	%xmm2,%xmm3,%xmm4
	vpsubb	%xmm0,%xmm4,%xmm0
	vpxor	%xmm2,%xmm0,%xmm0
	movzwl	-2(%r13,%r11),%eax
	vmovd	%eax,%xmm2
	vpaddb	%xmm1,%xmm2,%xmm1
	vpshufb	%xmm1,%xmm3,%xmm3
	vpsubb	%xmm2,%xmm3,%xmm2
	vpxor	%xmm1,%xmm2,%xmm1
	leaq	.L100v4_static.3(%rip),%rax
	vpbroadcastb	(%r15,%rax),%xmm2
	vpternlogq	$224,%xmm0,%xmm1,%xmm2
	vmovd	%xmm2,%eax
	.p2align	5,,10
	testw	%ax,%ax
	je	31f
	.p2align	5,,6
	jmp	5f
23:
	vmovdqu64	(%r13),%zmm0
	vpaddb	.L100v4_CPI4_0(%rip),%zmm0,%zmm2
	vshufi64x2	$0,%zmm1,%zmm1,%zmm3
	vpshufb	%zmm2,%zmm3,%zmm3
	vpsubb	%zmm0,%zmm3,%zmm0
	vpxorq	%zmm2,%zmm0,%zmm0
	.p2align	5,,13
	cmpq	$129,%r11
	jae	27f
	vmovdqu64	-64(%r13,%r11),%zmm2
	vpaddb	.L100v4_CPI4_0(%rip),%zmm2,%zmm3
	vshufi64x2	$0,%zmm1,%zmm1,%zmm1
	vpshufb	%zmm3,%zmm1,%zmm1
	vpsubb	%zmm2,%zmm1,%zmm1
	vpternlogq	$246,%zmm3,%zmm1,%zmm0
	leaq	.L100v4_static.3(%rip),%rax
	vpbroadcastb	(%r15,%rax),%zmm1
	vptestmd	%zmm1,%zmm0,%k0
	.p2align	5,,6
	jmp	30f
25:
	leaq	.L100v4_static.2(%rip),%rax
	vmovdqu	(%r14,%rax),%xmm0
	leaq	.L100v4_static.3(%rip),%rax
	movzbl	(%r15,%rax),%eax
	.p2align	5,,10
	cmpq	$7,%r11
	ja	35f
	vmovd	(%r13),%xmm1
	vpbroadcastd	.L100v4_CPI4_6(%rip),%xmm2
	vpaddb	%xmm2,%xmm1,%xmm3
	vpshufb	%xmm3,%xmm0,%xmm4
	vpsubb	%xmm1,%xmm4,%xmm1
	vpxor	%xmm3,%xmm1,%xmm1
	vmovd	-4(%r13,%r11),%xmm3
	vpaddb	%xmm2,%xmm3,%xmm2
	vpshufb	%xmm2,%xmm0,%xmm0
	vpsubb	%xmm3,%xmm0,%xmm0
	vpxor	%xmm2,%xmm0,%xmm0
	vpbroadcastb	%eax,%xmm2
	vpternlogq	$224,%xmm1,%xmm0,%xmm2
	vmovd	%xmm2,%eax
	.p2align	5,,10
	testl	%eax,%eax
	je	31f
	.p2align	5,,6
	jmp	5f
27:
	vmovdqu64	64(%r13),%zmm4
	vpbroadcastd	.L100v4_CPI4_6(%rip),%zmm2
	vpaddb	%zmm2,%zmm4,%zmm5
	vshufi64x2	$0,%zmm1,%zmm1,%zmm3
	vpshufb	%zmm5,%zmm3,%zmm6
	vpsubb	%zmm4,%zmm6,%zmm4
	vpternlogq	$246,%zmm5,%zmm4,%zmm0
	.p2align	5,,13
	cmpq	$193,%r11
	jb	29f
	vmovdqu64	-128(%r13,%r11),%zmm4
	vpaddb	.L100v4_CPI4_0(%rip),%zmm4,%zmm5
	vshufi64x2	$0,%zmm1,%zmm1,%zmm1
	vpshufb	%zmm5,%zmm1,%zmm1
	vpsubb	%zmm4,%zmm1,%zmm1
	vpternlogq	$246,%zmm5,%zmm1,%zmm0
29:
	vmovdqu64	-64(%r13,%r11),%zmm1
	vpaddb	%zmm2,%zmm1,%zmm2
	vpshufb	%zmm2,%zmm3,%zmm3
	vpsubb	%zmm1,%zmm3,%zmm1
	vpxorq	%zmm2,%zmm1,%zmm1
	vporq	%zmm1,%zmm0,%zmm0
	leaq	.L100v4_static.3(%rip),%rax
	vpbroadcastb	(%r15,%rax),%zmm1
	vptestmd	%zmm0,%zmm1,%k0
30:
	kortestw	%k0,%k0
	.p2align	5,,6
	jne	5f
	.p2align	4
31:
	.p2align	5,,10
	testq	%rbp,%rbp
	je	11b
	.p2align	5,,10
	cmpq	$1,%rbp
	je	10b
	movzbl	(%rdi,%r11),%eax
	.p2align	5,,10
	cmpb	(%r13,%r11),%al
	jne	5f
	movzbl	1(%rdi,%r11),%eax
	.p2align	5,,10
	cmpb	1(%r13,%r11),%al
	je	11b
	.p2align	5,,6
	jmp	5f
35:
	vmovq	(%r13),%xmm1
	vpbroadcastd	.L100v4_CPI4_6(%rip),%xmm2
	vpaddb	%xmm2,%xmm1,%xmm3
	vpshufb	%xmm3,%xmm0,%xmm4
	vpsubb	%xmm1,%xmm4,%xmm1
	vpxor	%xmm3,%xmm1,%xmm1
	vmovq	-8(%r13,%r11),%xmm3
	vpaddb	%xmm2,%xmm3,%xmm2
	vpshufb	%xmm2,%xmm0,%xmm0
	vpsubb	%xmm3,%xmm0,%xmm0
	vpxor	%xmm2,%xmm0,%xmm0
	vpbroadcastb	%eax,%xmm2
	vpternlogq	$224,%xmm1,%xmm0,%xmm2
	vmovq	%xmm2,%rax
	.p2align	5,,10
	testq	%rax,%rax
	je	31b
	.p2align	5,,6
	jmp	5f
6:
	.p2align	5,,10
	cmpq	$64,%r11
	ja	36f
	leaq	(%r11,%rbp),%rax
	.p2align	5,,10
	cmpq	%r12,%rax
	ja	4f
	movzbl	%r8b,%ecx
	leaq	.L100v4_static.3(%rip),%rdx
	vpbroadcastb	(%rcx,%rdx),%ymm0
	shll	$4,%ecx
	leaq	.L100v4_static.2(%rip),%rdx
	vmovdqu	(%rcx,%rdx),%xmm1
	xorl	%ebx,%ebx
	movq	%rdi,%rcx
	.p2align	5,,6
	jmp	42f
	.p2align	4
40:
	movzbl	(%rdi,%r11),%edx
	.p2align	5,,10
	cmpb	(%rcx,%r11),%dl
	jne	5f
41:
	incq	%rbx
	addq	%rax,%rcx
	subq	%rax,%r12
	.p2align	5,,10
	cmpq	%r12,%rax
	ja	5f
42:
	vmovdqu	(%rcx),%ymm2
	vpbroadcastd	.L100v4_CPI4_6(%rip),%ymm3
	vpaddb	%ymm3,%ymm2,%ymm4
	vinserti128	$1,%xmm1,%ymm1,%ymm5
	vpshufb	%ymm4,%ymm5,%ymm6
	vpsubb	%ymm2,%ymm6,%ymm2
	vmovdqu	-32(%rcx,%r11),%ymm6
	vpaddb	%ymm3,%ymm6,%ymm3
	vpshufb	%ymm3,%ymm5,%ymm5
	vpsubb	%ymm6,%ymm5,%ymm5
	vpxor	%ymm3,%ymm5,%ymm3
	vpternlogq	$246,%ymm4,%ymm2,%ymm3
	vptest	%ymm0,%ymm3
	.p2align	5,,6
	jne	5f
	.p2align	5,,10
	testq	%rbp,%rbp
	je	41b
	.p2align	5,,10
	cmpq	$1,%rbp
	je	40b
	movzbl	(%rdi,%r11),%edx
	.p2align	5,,10
	cmpb	(%rcx,%r11),%dl
	jne	5f
	movzbl	1(%rdi,%r11),%edx
	.p2align	5,,10
	cmpb	1(%rcx,%r11),%dl
	je	41b
	.p2align	5,,6
	jmp	5f
36:
	.p2align	5,,10
	cmpq	$96,%r11
	ja	47f
	leaq	(%r11,%rbp),%rax
	.p2align	5,,10
	cmpq	%r12,%rax
	ja	4f
	movzbl	%r8b,%ecx
	leaq	.L100v4_static.3(%rip),%rdx
	vpbroadcastb	(%rcx,%rdx),%zmm0
	shll	$4,%ecx
	leaq	.L100v4_static.2(%rip),%rdx
	vmovdqu	(%rcx,%rdx),%xmm1
	xorl	%ebx,%ebx
	movq	%rdi,%rcx
	.p2align	5,,6
	jmp	53f
51:
	movzbl	(%rdi,%r11),%edx
	.p2align	5,,10
	cmpb	(%rcx,%r11),%dl
	jne	5f
52:
	incq	%rbx
	addq	%rax,%rcx
	subq	%rax,%r12
	.p2align	5,,10
	cmpq	%r12,%rax
	ja	5f
53:
	vmovdqu64	(%rcx),%zmm2
	vpbroadcastd	.L100v4_CPI4_6(%rip),%zmm3
	vpaddb	%zmm3,%zmm2,%zmm4
	vshufi64x2	$0,%zmm1,%zmm1,%zmm5
	vpshufb	%zmm4,%zmm5,%zmm6
	vpsubb	%zmm2,%zmm6,%zmm2
	vmovdqu64	-64(%rcx,%r11),%zmm6
	vpaddb	%zmm3,%zmm6,%zmm3
	vpshufb	%zmm3,%zmm5,%zmm5
	vpsubb	%zmm6,%zmm5,%zmm5
	vpxorq	%zmm3,%zmm5,%zmm3
	vpternlogq	$246,%zmm4,%zmm2,%zmm3
	vptestmd	%zmm0,%zmm3,%k0
	kortestw	%k0,%k0
	.p2align	5,,6
	jne	5f
	.p2align	5,,10
	testq	%rbp,%rbp
	je	52b
	.p2align	5,,10
	cmpq	$1,%rbp
	je	51b
	movzbl	(%rdi,%r11),%edx
	.p2align	5,,10
	cmpb	(%rcx,%r11),%dl
	jne	5f
	movzbl	1(%rdi,%r11),%edx
	.p2align	5,,10
	cmpb	1(%rcx,%r11),%dl
	je	52b
	.p2align	5,,6
	jmp	5f
47:
	.p2align	5,,13
	cmpq	$128,%r11
	ja	2b
	leaq	(%r11,%rbp),%rax
	.p2align	5,,10
	cmpq	%r12,%rax
	jbe	58f
4:
	xorl	%ebx,%ebx
5:
	movq	%rbx,%rax
	addq	$24,%rsp
	hex_cfi	def_cfa_offset 56
	popq	%rbx
	hex_cfi	def_cfa_offset 48
	popq	%r12
	hex_cfi	def_cfa_offset 40
	popq	%r13
	hex_cfi	def_cfa_offset 32
	popq	%r14
	hex_cfi	def_cfa_offset 24
	popq	%r15
	hex_cfi	def_cfa_offset 16
	popq	%rbp
	hex_cfi	def_cfa_offset 8
	vzeroupper
	.p2align	5,,1
	retq
58:
	hex_cfi	def_cfa_offset 80
	movzbl	%r8b,%ecx
	leaq	.L100v4_static.3(%rip),%rdx
	vpbroadcastb	(%rcx,%rdx),%zmm0
	shll	$4,%ecx
	leaq	.L100v4_static.2(%rip),%rdx
	vmovdqu	(%rcx,%rdx),%xmm1
	xorl	%ebx,%ebx
	movq	%rdi,%rcx
	.p2align	5,,6
	jmp	61f
59:
	movzbl	(%rdi,%r11),%edx
	.p2align	5,,10
	cmpb	(%rcx,%r11),%dl
	jne	5b
60:
	incq	%rbx
	addq	%rax,%rcx
	subq	%rax,%r12
	.p2align	5,,10
	cmpq	%r12,%rax
	ja	5b
61:
	vmovdqu64	(%rcx),%zmm2
	vpbroadcastd	.L100v4_CPI4_6(%rip),%zmm3
	vpaddb	%zmm3,%zmm2,%zmm4
	vshufi64x2	$0,%zmm1,%zmm1,%zmm5
	vpshufb	%zmm4,%zmm5,%zmm6
	vpsubb	%zmm2,%zmm6,%zmm2
	vmovdqu64	-64(%rcx,%r11),%zmm6
	vpaddb	%zmm3,%zmm6,%zmm3
	vpshufb	%zmm3,%zmm5,%zmm5
	vpsubb	%zmm6,%zmm5,%zmm5
	vpxorq	%zmm3,%zmm5,%zmm3
	vpternlogq	$246,%zmm4,%zmm2,%zmm3
	vptestmd	%zmm0,%zmm3,%k0
	kortestw	%k0,%k0
	.p2align	5,,6
	jne	5b
	.p2align	5,,10
	testq	%rbp,%rbp
	je	60b
	.p2align	5,,10
	cmpq	$1,%rbp
	je	59b
	movzbl	(%rdi,%r11),%edx
	.p2align	5,,10
	cmpb	(%rcx,%r11),%dl
	jne	5b
	movzbl	1(%rdi,%r11),%edx
	.p2align	5,,10
	cmpb	1(%rcx,%r11),%dl
	je	60b
	.p2align	5,,6
	jmp	5b
	hex_end	faster_hex_1_0_0_x86_64_v4_codec_spaced_line_count
	hex_cfi	endproc
	hex_function	faster_hex_1_0_0_x86_64_v4_codec_spaced_survey,.text
	hex_cfi	startproc
	pushq	%rbp
	hex_cfi	def_cfa_offset 16
	pushq	%r15
	hex_cfi	def_cfa_offset 24
	pushq	%r14
	hex_cfi	def_cfa_offset 32
	pushq	%r13
	hex_cfi	def_cfa_offset 40
	pushq	%r12
	hex_cfi	def_cfa_offset 48
	pushq	%rbx
	hex_cfi	def_cfa_offset 56
	subq	$40,%rsp
	hex_cfi	def_cfa_offset 96
	hex_cfi	offset %rbx,-56
	hex_cfi	offset %r12,-48
	hex_cfi	offset %r13,-40
	hex_cfi	offset %r14,-32
	hex_cfi	offset %r15,-24
	hex_cfi	offset %rbp,-16
	movq	(%rdx),%r8
	movq	16(%rdx),%rax
	movq	8(%rdx),%r15
	addq	%r8,%r15
	imulq	%rax,%r15
	imulq	%r8,%rax
	movb	$1,%dl
	.p2align	5,,6
	jmp	15f
	.p2align	4
1:
	movzbl	(%rdi,%r15),%r8d
	.p2align	5,,10
	cmpq	$32,%r8
	ja	3f
	movabsq	$4294981120,%r9
	btq	%r8,%r9
	.p2align	5,,6
	jb	14f
3:
	movl	%ecx,12(%rsp)
	movb	%dl,11(%rsp)
	movq	%rax,24(%rsp)
	movq	%rdi,16(%rsp)
	addq	%r15,%rdi
	movq	%rsi,32(%rsp)
	movq	%rsi,%r12
	subq	%r15,%r12
	movq	%rdi,%rbp
	movq	%r12,%rsi
	.p2align	5,,5
	callq	faster_hex_1_0_0_x86_64_v4_codec_spaced_run_len
	movq	%rax,%rbx
	movq	%rax,%r14
	andq	$-2,%r14
	.p2align	5,,10
	cmpq	%r14,%r12
	jbe	8f
	movq	16(%rsp),%rax
	addq	%r14,%rax
	movzbl	(%r15,%rax),%ecx
	xorl	%r13d,%r13d
	cmpq	$32,%rcx
	movl	12(%rsp),%eax
	.p2align	5,,6
	ja	9f
	movabsq	$4294981120,%rdx
	btq	%rcx,%rdx
	movq	%rbp,%rdi
	.p2align	5,,6
	jae	10f
	movq	%rbx,%rcx
	orq	$1,%rcx
	movl	$1,%r13d
	.p2align	5,,10
	cmpq	%rcx,%r12
	jbe	10f
	addq	16(%rsp),%rcx
	movzbl	(%r15,%rcx),%ecx
	leal	-9(%rcx),%edx
	cmpb	$2,%dl
	setb	%dl
	movl	%ecx,%esi
	andb	$-2,%sil
	cmpb	$12,%sil
	sete	%sil
	cmpb	$32,%cl
	sete	%cl
	orb	%sil,%cl
	orb	%dl,%cl
	movzbl	%cl,%r13d
	incq	%r13
	.p2align	5,,6
	jmp	10f
8:
	xorl	%r13d,%r13d
	movl	12(%rsp),%eax
9:
	movq	%rbp,%rdi
10:
	movzbl	%al,%ebp
	movq	%r12,%rsi
	movq	%r14,%rdx
	movq	%r13,%rcx
	movq	%rdi,%r12
	movl	%ebp,%r8d
	.p2align	5,,5
	callq	faster_hex_1_0_0_x86_64_v4_codec_spaced_line_count
	.p2align	5,,10
	testq	%rax,%rax
	je	13f
	movq	%rax,%rcx
	addq	%r14,%r13
	imulq	%rax,%r13
	addq	%r13,%r15
	imulq	%r14,%rcx
	movq	24(%rsp),%rax
	addq	%rcx,%rax
	movq	32(%rsp),%rsi
	cmpq	%rsi,%r15
	movzbl	11(%rsp),%edx
	movl	12(%rsp),%ecx
	movq	16(%rsp),%rdi
	.p2align	5,,6
	jb	1b
	.p2align	5,,6
	jmp	16f
13:
	addq	%rbx,%r15
	movq	%r12,%rdi
	movq	%rbx,%rsi
	movl	%ebp,%edx
	.p2align	5,,5
	callq	faster_hex_1_0_0_x86_64_v4_codec_spaced_survey_bytes
	movq	%rax,%rcx
	movl	%edx,%esi
	movq	24(%rsp),%rax
	addq	%rcx,%rax
	movzbl	11(%rsp),%edx
	andb	%sil,%dl
	movq	32(%rsp),%rsi
	cmpq	%rsi,%r15
	movl	12(%rsp),%ecx
	movq	16(%rsp),%rdi
	.p2align	5,,6
	jb	1b
	.p2align	5,,6
	jmp	16f
	.p2align	4
14:
	incq	%r15
15:
	.p2align	5,,10
	cmpq	%rsi,%r15
	jb	1b
16:
	addq	$40,%rsp
	hex_cfi	def_cfa_offset 56
	popq	%rbx
	hex_cfi	def_cfa_offset 48
	popq	%r12
	hex_cfi	def_cfa_offset 40
	popq	%r13
	hex_cfi	def_cfa_offset 32
	popq	%r14
	hex_cfi	def_cfa_offset 24
	popq	%r15
	hex_cfi	def_cfa_offset 16
	popq	%rbp
	hex_cfi	def_cfa_offset 8
	.p2align	5,,1
	retq
	hex_end	faster_hex_1_0_0_x86_64_v4_codec_spaced_survey
	hex_cfi	endproc
	hex_function	faster_hex_1_0_0_x86_64_v4_codec_spaced_survey_bytes,.text
	hex_cfi	startproc
	movl	%edx,%ecx
	movb	$1,%dl
	xorl	%eax,%eax
	.p2align	5,,10
	testq	%rsi,%rsi
	je	32f
	movq	%rsi,%r9
	movq	%rdi,%r10
2:
	incq	%r10
	movl	$1,%r8d
	subq	%r9,%r8
	movq	%r8,%r9
	.p2align	4
3:
	movzbl	-1(%r10),%r11d
	movabsq	$4294981120,%r8
	.p2align	5,,10
	cmpq	$32,%r11
	ja	6f
	btq	%r11,%r8
	.p2align	5,,6
	jae	6f
	incq	%r10
	incq	%r9
	.p2align	5,,10
	cmpq	$1,%r9
	jne	3b
	.p2align	5,,6
	jmp	7f
6:
	incq	%rax
	negq	%r9
	.p2align	5,,6
	jb	2b
7:
	.p2align	5,,10
	cmpb	$2,%cl
	je	16f
	movzbl	%cl,%ecx
	.p2align	5,,10
	cmpl	$1,%ecx
	jne	23f
	xorl	%ecx,%ecx
	.p2align	5,,6
	jmp	11f
	.p2align	4
10:
	incq	%rcx
	.p2align	5,,10
	cmpq	%rcx,%rsi
	je	32f
11:
	movzbl	(%rdi,%rcx),%r9d
	.p2align	5,,10
	cmpq	$32,%r9
	ja	13f
	btq	%r9,%r8
	.p2align	5,,6
	jb	10b
13:
	.p2align	5,,10
	cmpb	$48,%r9b
	jb	31f
	cmpb	$58,%r9b
	setae	%r10b
	addb	$-97,%r9b
	cmpb	$6,%r9b
	setae	%r9b
	.p2align	5,,10
	testb	%r9b,%r10b
	je	10b
	xorl	%edx,%edx
	.p2align	5,,1
	retq
16:
	xorl	%ecx,%ecx
	.p2align	5,,6
	jmp	18f
	.p2align	4
17:
	incq	%rcx
	.p2align	5,,10
	cmpq	%rcx,%rsi
	je	32f
18:
	movzbl	(%rdi,%rcx),%r9d
	.p2align	5,,10
	cmpq	$32,%r9
	ja	20f
	btq	%r9,%r8
	.p2align	5,,6
	jb	17b
20:
	.p2align	5,,10
	cmpb	$48,%r9b
	jb	31f
	cmpb	$58,%r9b
	setae	%r10b
	addb	$-65,%r9b
	cmpb	$6,%r9b
	setae	%r9b
	.p2align	5,,10
	testb	%r9b,%r10b
	je	17b
	xorl	%edx,%edx
	.p2align	5,,1
	retq
23:
	xorl	%ecx,%ecx
	.p2align	5,,6
	jmp	25f
	.p2align	4
24:
	incq	%rcx
	.p2align	5,,10
	cmpq	%rcx,%rsi
	je	32f
25:
	movzbl	(%rdi,%rcx),%r9d
	.p2align	5,,10
	cmpq	$32,%r9
	ja	27f
	btq	%r9,%r8
	.p2align	5,,6
	jb	24b
27:
	.p2align	5,,10
	cmpb	$48,%r9b
	jb	31f
	.p2align	5,,10
	cmpb	$58,%r9b
	jb	24b
	.p2align	5,,10
	cmpb	$65,%r9b
	jb	31f
	cmpb	$71,%r9b
	setae	%r10b
	addb	$-97,%r9b
	cmpb	$6,%r9b
	setae	%r9b
	.p2align	5,,10
	testb	%r9b,%r10b
	je	24b
31:
	xorl	%edx,%edx
32:
	.p2align	5,,1
	retq
	hex_end	faster_hex_1_0_0_x86_64_v4_codec_spaced_survey_bytes
	hex_cfi	endproc
	hex_function	faster_hex_1_0_0_x86_64_v4_codec_spaced_invalid_error,.text.unlikely
	hex_cfi	startproc
	.p2align	5,,10
	testq	%rdx,%rdx
	je	23f
	.p2align	5,,10
	cmpb	$2,%cl
	je	9f
	movzbl	%cl,%eax
	.p2align	5,,10
	cmpl	$1,%eax
	jne	15f
	xorl	%eax,%eax
	.p2align	5,,6
	jmp	4f
	.p2align	4
8:
	incq	%rax
	.p2align	5,,10
	cmpq	%rax,%rdx
	je	23f
4:
	movzbl	(%rsi,%rax),%ecx
	.p2align	5,,10
	cmpq	$32,%rcx
	ja	6f
	movabsq	$4294981120,%r8
	btq	%rcx,%r8
	.p2align	5,,6
	jb	8b
6:
	.p2align	5,,10
	cmpb	$48,%cl
	jb	24f
	cmpb	$58,%cl
	setae	%r8b
	addb	$-97,%cl
	cmpb	$6,%cl
	setae	%cl
	.p2align	5,,10
	testb	%cl,%r8b
	je	8b
	.p2align	5,,6
	jmp	24f
9:
	xorl	%eax,%eax
	.p2align	5,,6
	jmp	10f
	.p2align	4
14:
	incq	%rax
	.p2align	5,,10
	cmpq	%rax,%rdx
	je	23f
10:
	movzbl	(%rsi,%rax),%ecx
	.p2align	5,,10
	cmpq	$32,%rcx
	ja	12f
	movabsq	$4294981120,%r8
	btq	%rcx,%r8
	.p2align	5,,6
	jb	14b
12:
	.p2align	5,,10
	cmpb	$48,%cl
	jb	24f
	cmpb	$58,%cl
	setae	%r8b
	addb	$-65,%cl
	cmpb	$6,%cl
	setae	%cl
	.p2align	5,,10
	testb	%cl,%r8b
	je	14b
	.p2align	5,,6
	jmp	24f
15:
	xorl	%eax,%eax
	.p2align	5,,6
	jmp	16f
	.p2align	4
22:
	incq	%rax
	.p2align	5,,10
	cmpq	%rax,%rdx
	je	23f
16:
	movzbl	(%rsi,%rax),%ecx
	.p2align	5,,10
	cmpq	$32,%rcx
	ja	18f
	movabsq	$4294981120,%r8
	btq	%rcx,%r8
	.p2align	5,,6
	jb	22b
18:
	.p2align	5,,10
	cmpb	$48,%cl
	jb	24f
	.p2align	5,,10
	cmpb	$58,%cl
	jb	22b
	.p2align	5,,10
	cmpb	$65,%cl
	jb	24f
	cmpb	$71,%cl
	setae	%r8b
	addb	$-97,%cl
	cmpb	$6,%cl
	setae	%cl
	.p2align	5,,10
	testb	%cl,%r8b
	je	22b
24:
	movzbl	(%rsi,%rax),%ecx
	movq	$0,(%rdi)
	movq	%rax,8(%rdi)
	movb	%cl,16(%rdi)
	movl	$0,17(%rdi)
	movl	$0,20(%rdi)
	.p2align	5,,1
	retq
23:
	ud2
	hex_end	faster_hex_1_0_0_x86_64_v4_codec_spaced_invalid_error
	hex_cfi	endproc
	hex_function	faster_hex_1_0_0_x86_64_v4_codec_spaced_decode_runs,.text
	hex_cfi	startproc
	pushq	%rbp
	hex_cfi	def_cfa_offset 16
	pushq	%r15
	hex_cfi	def_cfa_offset 24
	pushq	%r14
	hex_cfi	def_cfa_offset 32
	pushq	%r13
	hex_cfi	def_cfa_offset 40
	pushq	%r12
	hex_cfi	def_cfa_offset 48
	pushq	%rbx
	hex_cfi	def_cfa_offset 56
	subq	$120,%rsp
	hex_cfi	def_cfa_offset 176
	hex_cfi	offset %rbx,-56
	hex_cfi	offset %r12,-48
	hex_cfi	offset %r13,-40
	hex_cfi	offset %r14,-32
	hex_cfi	offset %r15,-24
	hex_cfi	offset %rbp,-16
	movl	%r9d,12(%rsp)
	movq	%rdx,%rcx
	movq	%rsi,%r15
	movq	%rdi,%r12
	movq	16(%r8),%rax
	movq	%rax,64(%rsp)
	vmovups	(%r8),%xmm0
	vmovaps	%xmm0,48(%rsp)
	leaq	48(%rsp),%rdx
	movq	%rcx,40(%rsp)
	movq	%rcx,%rsi
	.p2align	5,,5
	callq	faster_hex_1_0_0_x86_64_v4_codec_spaced_decode_lines
	movq	48(%rsp),%rax
	movq	64(%rsp),%rdx
	movq	56(%rsp),%r14
	addq	%rax,%r14
	imulq	%rdx,%r14
	.p2align	5,,10
	cmpq	%r15,%r14
	jae	41f
	shrq	%rax
	imulq	%rax,%rdx
	movl	$1,%esi
	subq	%r15,%rsi
2:
	movq	%r14,%rbp
	addq	$2,%r14
	.p2align	4
3:
	movzbl	(%r12,%rbp),%ebx
	movabsq	$4294981120,%r13
	.p2align	5,,10
	cmpq	$32,%rbx
	ja	6f
	btq	%rbx,%r13
	.p2align	5,,6
	jae	6f
	incq	%rbp
	incq	%r14
	.p2align	5,,10
	cmpq	%r15,%rbp
	jb	3b
	.p2align	5,,6
	jmp	41f
6:
	movq	%rsi,24(%rsp)
	movq	%rdx,32(%rsp)
	leaq	(%r12,%rbp),%rdi
	movq	%r15,%rsi
	subq	%rbp,%rsi
	movq	%rsi,16(%rsp)
	.p2align	5,,5
	callq	faster_hex_1_0_0_x86_64_v4_codec_spaced_run_len
	movq	16(%rsp),%rsi
	movq	%rax,%rdx
	andq	$-2,%rdx
	.p2align	5,,10
	cmpq	%rdx,%rsi
	jbe	11f
	leaq	(%r12,%rdx),%rcx
	movzbl	(%rbp,%rcx),%edi
	xorl	%ecx,%ecx
	.p2align	5,,10
	cmpq	$32,%rdi
	ja	12f
	btq	%rdi,%r13
	leaq	(%r12,%rbp),%rdi
	.p2align	5,,6
	jae	13f
	movq	%rax,%r8
	orq	$1,%r8
	movl	$1,%ecx
	.p2align	5,,10
	cmpq	%r8,%rsi
	jbe	13f
	addq	%r12,%r8
	movzbl	(%rbp,%r8),%r9d
	leal	-9(%r9),%ecx
	cmpb	$2,%cl
	setb	%cl
	movl	%r9d,%r8d
	andb	$-2,%r8b
	cmpb	$12,%r8b
	sete	%r8b
	cmpb	$32,%r9b
	sete	%r9b
	orb	%r8b,%r9b
	orb	%cl,%r9b
	movzbl	%r9b,%ecx
	incq	%rcx
	.p2align	5,,6
	jmp	13f
11:
	xorl	%ecx,%ecx
12:
	leaq	(%r12,%rbp),%rdi
13:
	movq	%rcx,88(%rsp)
	movq	%rax,80(%rsp)
	movzbl	12(%rsp),%r8d
	movq	%rdx,16(%rsp)
	.p2align	5,,5
	callq	faster_hex_1_0_0_x86_64_v4_codec_spaced_line_count
	movq	88(%rsp),%r8
	movq	16(%rsp),%rcx
	movq	%rcx,96(%rsp)
	movq	%r8,104(%rsp)
	movq	%rax,112(%rsp)
	.p2align	5,,10
	testq	%rax,%rax
	je	15f
	movq	%rax,72(%rsp)
	movq	40(%rsp),%rax
	movq	32(%rsp),%rbx
	leaq	(%rax,%rbx),%rsi
	leaq	96(%rsp),%rdx
	leaq	(%r12,%rbp),%rdi
	movq	%rcx,%r14
	movq	%r8,%r13
	.p2align	5,,5
	callq	faster_hex_1_0_0_x86_64_v4_codec_spaced_decode_lines
	movq	%rbx,%rdx
	addq	%r14,%r13
	movq	72(%rsp),%rcx
	imulq	%rcx,%r13
	addq	%rbp,%r13
	movq	80(%rsp),%rax
	shrq	%rax
	imulq	%rcx,%rax
	movq	%r13,%r14
	movq	24(%rsp),%rsi
	addq	%rax,%rdx
	.p2align	5,,10
	cmpq	%r15,%r14
	jb	2b
	.p2align	5,,6
	jmp	41f
15:
	leaq	-1(%r15),%rax
	cmpq	%rbp,%rax
	movq	32(%rsp),%rdx
	movq	24(%rsp),%rsi
	.p2align	5,,6
	je	42f
	.p2align	4
16:
	movzbl	-1(%r12,%r14),%eax
	.p2align	5,,10
	cmpq	$32,%rax
	ja	19f
	btq	%rax,%r13
	.p2align	5,,6
	jae	19f
	leaq	(%rsi,%r14),%rax
	incq	%rax
	incq	%r14
	.p2align	5,,10
	cmpq	$2,%rax
	jne	16b
	.p2align	5,,6
	jmp	42f
19:
	.p2align	5,,10
	cmpb	$48,%bl
	jb	42f
	movzbl	-1(%r12,%r14),%eax
	.p2align	5,,10
	cmpb	$57,%bl
	ja	22f
	addb	$-48,%bl
	.p2align	5,,6
	jmp	29f
22:
	.p2align	5,,10
	cmpb	$65,%bl
	jb	42f
	.p2align	5,,10
	cmpb	$71,%bl
	jae	26f
	.p2align	5,,10
	cmpb	$1,12(%rsp)
	je	42f
	addb	$-55,%bl
	.p2align	5,,6
	jmp	29f
26:
	.p2align	5,,10
	cmpb	$2,12(%rsp)
	je	42f
	leal	-103(%rbx),%ecx
	.p2align	5,,10
	cmpb	$-6,%cl
	jb	42f
	addb	$-87,%bl
29:
	.p2align	5,,10
	cmpb	$48,%al
	jb	42f
	.p2align	5,,10
	cmpb	$57,%al
	ja	32f
	addb	$-48,%al
	.p2align	5,,6
	jmp	39f
32:
	.p2align	5,,10
	cmpb	$65,%al
	jb	42f
	.p2align	5,,10
	cmpb	$71,%al
	jae	36f
	.p2align	5,,10
	cmpb	$1,12(%rsp)
	je	42f
	addb	$-55,%al
	.p2align	5,,6
	jmp	39f
36:
	.p2align	5,,10
	cmpb	$2,12(%rsp)
	je	42f
	leal	-103(%rax),%ecx
	.p2align	5,,10
	cmpb	$-6,%cl
	jb	42f
	addb	$-87,%al
39:
	shlb	$4,%bl
	addb	%al,%bl
	movq	40(%rsp),%rax
	movb	%bl,(%rax,%rdx)
	movl	$1,%eax
	addq	%rax,%rdx
	.p2align	5,,10
	cmpq	%r15,%r14
	jb	2b
41:
	addq	$120,%rsp
	hex_cfi	def_cfa_offset 56
	popq	%rbx
	hex_cfi	def_cfa_offset 48
	popq	%r12
	hex_cfi	def_cfa_offset 40
	popq	%r13
	hex_cfi	def_cfa_offset 32
	popq	%r14
	hex_cfi	def_cfa_offset 24
	popq	%r15
	hex_cfi	def_cfa_offset 16
	popq	%rbp
	hex_cfi	def_cfa_offset 8
	.p2align	5,,1
	retq
42:
	hex_cfi	def_cfa_offset 176
	ud2
	hex_end	faster_hex_1_0_0_x86_64_v4_codec_spaced_decode_runs
	hex_cfi	endproc
	hex_merged	64
	.p2align	6,0x0
.L100v4_CPI9_0:
	.zero	64,79
.L100v4_CPI9_1:
	.zero	64,201
	hex_merged	32
	.p2align	5,0x0
.L100v4_CPI9_2:
	.zero	32,79
.L100v4_CPI9_3:
	.zero	32,201
	hex_merged	16
	.p2align	4,0x0
.L100v4_CPI9_4:
	.zero	16,79
.L100v4_CPI9_5:
	.zero	16,201
.L100v4_CPI9_6:
	.byte	1,3,5,7,9,11,13,15,0,0,0,0,0,0,0,0
.L100v4_CPI9_7:
	.byte	79,79,79,79,79,79,79,79,0,0,0,0,0,0,0,0
.L100v4_CPI9_8:
	.byte	201,201,201,201,201,201,201,201,0,0,0,0,0,0,0,0
.L100v4_CPI9_9:
	.short	4097
	.short	4097
	.short	4097
	.short	4097
	.byte	0,0,0,0,0,0,0,0
.L100v4_CPI9_10:
	.byte	79,79,79,79,0,0,0,0,0,0,0,0,0,0,0,0
.L100v4_CPI9_11:
	.byte	201,201,201,201,0,0,0,0,0,0,0,0,0,0,0,0
.L100v4_CPI9_12:
	.short	4097
	.short	4097
	.byte	0,0,0,0,0,0,0,0,0,0,0,0
.L100v4_CPI9_16:
	.byte	1,3,5,7,9,11,13,15,0,0,0,0,0,0,0,0
	hex_merged	4
	.p2align	2,0x0
.L100v4_CPI9_13:
	.zero	4,79
.L100v4_CPI9_14:
	.zero	4,201
.L100v4_CPI9_15:
	.short	4097
	.short	4097
	hex_function	faster_hex_1_0_0_x86_64_v4_codec_spaced_decode_lines,.text
	hex_lower
	hex_cfi	startproc
	pushq	%rbp
	hex_cfi	def_cfa_offset 16
	pushq	%r15
	hex_cfi	def_cfa_offset 24
	pushq	%r14
	hex_cfi	def_cfa_offset 32
	pushq	%r13
	hex_cfi	def_cfa_offset 40
	pushq	%r12
	hex_cfi	def_cfa_offset 48
	pushq	%rbx
	hex_cfi	def_cfa_offset 56
	hex_cfi	offset %rbx,-56
	hex_cfi	offset %r12,-48
	hex_cfi	offset %r13,-40
	hex_cfi	offset %r14,-32
	hex_cfi	offset %r15,-24
	hex_cfi	offset %rbp,-16
	movq	(%rdx),%rax
	movq	8(%rdx),%r9
	movq	16(%rdx),%rcx
	.p2align	5,,10
	cmpq	$32,%rax
	jae	1f
25:
	.p2align	5,,10
	testq	%rcx,%rcx
	je	67f
	.p2align	5,,10
	cmpq	$2,%rax
	jb	67f
	movq	%rax,%rdx
	shrq	%rdx
	leaq	(%r9,%rax),%rbp
	.p2align	5,,10
	cmpq	$3,%rax
	ja	34f
	.p2align	5,,10
	cmpq	$1,%rcx
	jne	30f
	xorl	%r9d,%r9d
	xorl	%r14d,%r14d
	.p2align	5,,6
	jmp	33f
1:
	.p2align	5,,10
	cmpq	$64,%rax
	ja	9f
	.p2align	5,,10
	testq	%rcx,%rcx
	je	67f
	movq	%rax,%rdx
	shrq	%rdx
	.p2align	5,,10
	cmpq	$1,%rcx
	jne	5f
	xorl	%r13d,%r13d
	xorl	%r8d,%r8d
	.p2align	5,,6
	jmp	8f
9:
	.p2align	5,,10
	cmpq	$96,%rax
	ja	17f
	.p2align	5,,10
	testq	%rcx,%rcx
	je	67f
	movq	%rax,%rdx
	shrq	%rdx
	leaq	-32(,%rdx,2),%r8
	.p2align	5,,10
	cmpq	$1,%rcx
	jne	13f
	xorl	%r13d,%r13d
	xorl	%eax,%eax
	.p2align	5,,6
	jmp	16f
17:
	.p2align	5,,13
	cmpq	$128,%rax
	ja	25b
	.p2align	5,,10
	testq	%rcx,%rcx
	je	67f
	movq	%rax,%rdx
	shrq	%rdx
	addq	%rax,%r9
	movl	%eax,%r8d
	andl	$192,%r8d
	.p2align	5,,6
	jmp	20f
	.p2align	4
24:
	addq	%rdx,%rsi
	addq	%r9,%rdi
	.p2align	5,,10
	decq	%rcx
	je	67f
20:
	vmovdqu64	(%rdi),%zmm0
	vpandd	.L100v4_CPI9_13(%rip){1to16},%zmm0,%zmm0
	vpaddb	.L100v4_CPI9_1(%rip),%zmm0,%zmm1
	vpminub	%zmm1,%zmm0,%zmm0
	vpsllw	$12,%zmm0,%zmm1
	vpaddw	%zmm1,%zmm0,%zmm0
	vpsrlw	$8,%zmm0,%zmm0
	vpmovwb	%zmm0,(%rsi)
	.p2align	5,,10
	cmpl	$64,%r8d
	je	22f
	vmovdqu64	64(%rdi),%zmm0
	vpandd	.L100v4_CPI9_13(%rip){1to16},%zmm0,%zmm0
	vpaddb	.L100v4_CPI9_1(%rip),%zmm0,%zmm1
	vpminub	%zmm1,%zmm0,%zmm0
	vpsllw	$12,%zmm0,%zmm1
	vpaddw	%zmm1,%zmm0,%zmm0
	vpsrlw	$8,%zmm0,%zmm0
	vpmovwb	%zmm0,32(%rsi)
22:
	.p2align	5,,10
	testb	$62,%al
	je	24b
	vmovdqu64	-64(%rdi,%rdx,2),%zmm0
	vpandd	.L100v4_CPI9_13(%rip){1to16},%zmm0,%zmm0
	vpaddb	.L100v4_CPI9_1(%rip),%zmm0,%zmm1
	vpminub	%zmm1,%zmm0,%zmm0
	vpsllw	$12,%zmm0,%zmm1
	vpaddw	%zmm1,%zmm0,%zmm0
	vpsrlw	$8,%zmm0,%zmm0
	vpmovwb	%zmm0,-32(%rsi,%rdx)
	.p2align	5,,6
	jmp	24b
34:
	.p2align	5,,10
	cmpq	$7,%rax
	ja	41f
	.p2align	5,,10
	cmpq	$1,%rcx
	jne	37f
	xorl	%r9d,%r9d
	xorl	%r14d,%r14d
	.p2align	5,,6
	jmp	40f
5:
	movq	%rcx,%r10
	andq	$-2,%r10
	leaq	(%rsi,%rdx,2),%r11
	addq	$-16,%r11
	leaq	(%rsi,%rdx),%rbx
	leaq	(%rdi,%rax),%r14
	leaq	(%rax,%rax),%r8
	leaq	(%r8,%r9,2),%r15
	leaq	(%r9,%rax,2),%r8
	leaq	(%rdi,%r8),%r12
	addq	$-32,%r12
	addq	%rax,%r9
	addq	%rdi,%r9
	xorl	%r8d,%r8d
	xorl	%r13d,%r13d
	.p2align	4
6:
	vmovdqu	(%rdi,%r8),%ymm0
	vinserti64x4	$1,-32(%r14,%r8),%zmm0,%zmm0
	vpbroadcastd	.L100v4_CPI9_13(%rip),%zmm1
	vpandq	%zmm1,%zmm0,%zmm0
	vpbroadcastd	.L100v4_CPI9_14(%rip),%zmm2
	vpaddb	%zmm2,%zmm0,%zmm3
	vpminub	%zmm3,%zmm0,%zmm0
	vpsllw	$12,%zmm0,%zmm3
	vpaddw	%zmm3,%zmm0,%zmm0
	vpsrlw	$8,%zmm0,%zmm0
	vpmovwb	%zmm0,%ymm0
	vmovdqu	%xmm0,(%rsi,%r13)
	vextracti128	$1,%ymm0,-16(%rbx,%r13)
	vmovdqu	(%r9,%r8),%ymm0
	vinserti64x4	$1,(%r12,%r8),%zmm0,%zmm0
	vpandq	%zmm1,%zmm0,%zmm0
	vpaddb	%zmm2,%zmm0,%zmm1
	vpminub	%zmm1,%zmm0,%zmm0
	vpsllw	$12,%zmm0,%zmm1
	vpaddw	%zmm1,%zmm0,%zmm0
	vpsrlw	$8,%zmm0,%zmm0
	vpmovwb	%zmm0,%ymm0
	vmovdqu	%xmm0,(%rbx,%r13)
	vextracti128	$1,%ymm0,(%r11,%r13)
	addq	%rdx,%r13
	addq	%rdx,%r13
	addq	%r15,%r8
	.p2align	5,,10
	addq	$-2,%r10
	jne	6b
	.p2align	5,,10
	testb	$1,%cl
	je	67f
8:
	leaq	(%rdi,%r8),%rcx
	leaq	(%rsi,%r13),%r9
	vmovdqu	(%rdi,%r8),%ymm0
	vinserti64x4	$1,-32(%rax,%rcx),%zmm0,%zmm0
	vpandd	.L100v4_CPI9_13(%rip){1to16},%zmm0,%zmm0
	vpaddb	.L100v4_CPI9_1(%rip),%zmm0,%zmm1
	vpminub	%zmm1,%zmm0,%zmm0
	vpsllw	$12,%zmm0,%zmm1
	vpaddw	%zmm1,%zmm0,%zmm0
	vpsrlw	$8,%zmm0,%zmm0
	vpmovwb	%zmm0,%ymm0
	vmovdqu	%xmm0,(%rsi,%r13)
	vextracti128	$1,%ymm0,-16(%rdx,%r9)
	.p2align	5,,6
	jmp	67f
30:
	movq	%rcx,%r10
	andq	$-2,%r10
	leaq	-1(%rsi),%r11
	leaq	(%rdx,%rdx),%rbx
	leaq	(%rax,%rax),%r8
	leaq	(%r8,%r9,2),%r15
	leaq	(%r9,%rax,2),%r8
	leaq	(%rdi,%r8),%r12
	addq	$-2,%r12
	addq	%rdi,%rbp
	leaq	(%rdi,%rax),%r13
	movq	%rcx,%r9
	shrq	%r9
	imulq	%rdx,%r9
	addq	%r9,%r9
	xorl	%r14d,%r14d
	.p2align	4
31:
	movzwl	(%rdi,%r14),%r8d
	vmovd	%r8d,%xmm0
	vpinsrw	$1,-2(%r13,%r14),%xmm0,%xmm0
	vpbroadcastd	.L100v4_CPI9_13(%rip),%xmm1
	vpbroadcastd	.L100v4_CPI9_14(%rip),%xmm2
	vpand	%xmm1,%xmm0,%xmm0
	vpaddb	%xmm2,%xmm0,%xmm3
	vpminub	%xmm3,%xmm0,%xmm0
	vpbroadcastd	.L100v4_CPI9_15(%rip),%xmm3
	vpmullw	%xmm3,%xmm0,%xmm0
	vpextrb	$1,%xmm0,1(%r11)
	vpextrb	$3,%xmm0,(%r11,%rdx)
	movzwl	(%rbp,%r14),%r8d
	vmovd	%r8d,%xmm0
	vpinsrw	$1,(%r12,%r14),%xmm0,%xmm0
	vpand	%xmm1,%xmm0,%xmm0
	vpaddb	%xmm2,%xmm0,%xmm1
	vpminub	%xmm1,%xmm0,%xmm0
	vpmullw	%xmm3,%xmm0,%xmm0
	vpextrb	$1,%xmm0,1(%r11,%rdx)
	vpextrb	$3,%xmm0,(%r11,%rdx,2)
	addq	%rbx,%r11
	addq	%r15,%r14
	.p2align	5,,10
	addq	$-2,%r10
	jne	31b
	.p2align	5,,10
	testb	$1,%cl
	je	67f
33:
	leaq	(%rdi,%r14),%rcx
	movzwl	(%rdi,%r14),%edi
	vmovd	%edi,%xmm0
	vpinsrw	$1,-2(%rax,%rcx),%xmm0,%xmm0
	vpandd	.L100v4_CPI9_13(%rip){1to4},%xmm0,%xmm0
	leaq	(%rsi,%r9),%rax
	vpaddb	.L100v4_CPI9_11(%rip),%xmm0,%xmm1
	vpminub	%xmm1,%xmm0,%xmm0
	vpmullw	.L100v4_CPI9_12(%rip),%xmm0,%xmm0
	vpextrb	$1,%xmm0,(%rsi,%r9)
	vpextrb	$3,%xmm0,-1(%rdx,%rax)
	.p2align	5,,6
	jmp	67f
41:
	.p2align	5,,10
	cmpq	$15,%rax
	ja	48f
	.p2align	5,,10
	cmpq	$1,%rcx
	jne	44f
	xorl	%r9d,%r9d
	xorl	%r14d,%r14d
	.p2align	5,,6
	jmp	47f
13:
	movq	%rcx,%r10
	andq	$-2,%r10
	leaq	(%rsi,%rdx,2),%r11
	addq	$-16,%r11
	leaq	(%rsi,%rdx),%rbx
	leaq	(%rdi,%r8),%r14
	leaq	(%rax,%rax),%r15
	leaq	(%r15,%r9,2),%r15
	addq	%rax,%r9
	leaq	(%r9,%rdx,2),%rax
	leaq	(%rdi,%rax),%r12
	addq	$-32,%r12
	addq	%rdi,%r9
	xorl	%eax,%eax
	xorl	%r13d,%r13d
	.p2align	4
14:
	vpbroadcastd	.L100v4_CPI9_13(%rip),%zmm0
	vpandq	(%rdi,%rax),%zmm0,%zmm1
	vpbroadcastd	.L100v4_CPI9_14(%rip),%zmm2
	vpaddb	%zmm2,%zmm1,%zmm3
	vpminub	%zmm3,%zmm1,%zmm1
	vpsllw	$12,%zmm1,%zmm3
	vpaddw	%zmm3,%zmm1,%zmm1
	vpsrlw	$8,%zmm1,%zmm1
	vpmovwb	%zmm1,(%rsi,%r13)
	vpand	(%r14,%rax),%ymm0,%ymm1
	vpaddb	%ymm2,%ymm1,%ymm3
	vpminub	%ymm3,%ymm1,%ymm1
	vpsllw	$12,%ymm1,%ymm3
	vpaddw	%ymm3,%ymm1,%ymm1
	vpsrlw	$8,%ymm1,%ymm1
	vpmovwb	%ymm1,-16(%rbx,%r13)
	vpandq	(%r9,%rax),%zmm0,%zmm1
	vpaddb	%zmm2,%zmm1,%zmm3
	vpminub	%zmm3,%zmm1,%zmm1
	vpsllw	$12,%zmm1,%zmm3
	vpaddw	%zmm3,%zmm1,%zmm1
	vpsrlw	$8,%zmm1,%zmm1
	vpmovwb	%zmm1,(%rbx,%r13)
	vpand	(%r12,%rax),%ymm0,%ymm0
	vpaddb	%ymm2,%ymm0,%ymm1
	vpminub	%ymm1,%ymm0,%ymm0
	vpsllw	$12,%ymm0,%ymm1
	vpaddw	%ymm1,%ymm0,%ymm0
	vpsrlw	$8,%ymm0,%ymm0
	vpmovwb	%ymm0,(%r11,%r13)
	addq	%rdx,%r13
	addq	%rdx,%r13
	addq	%r15,%rax
	.p2align	5,,10
	addq	$-2,%r10
	jne	14b
	.p2align	5,,10
	testb	$1,%cl
	je	67f
16:
	addq	$-16,%rdx
	vpbroadcastd	.L100v4_CPI9_13(%rip),%zmm0
	vpandq	(%rdi,%rax),%zmm0,%zmm1
	addq	%rdi,%rax
	vpbroadcastd	.L100v4_CPI9_14(%rip),%zmm2
	vpaddb	%zmm2,%zmm1,%zmm3
	vpminub	%zmm3,%zmm1,%zmm1
	vpsllw	$12,%zmm1,%zmm3
	vpaddw	%zmm3,%zmm1,%zmm1
	vpsrlw	$8,%zmm1,%zmm1
	vpmovwb	%zmm1,(%rsi,%r13)
	leaq	(%rsi,%r13),%rcx
	vpand	(%r8,%rax),%ymm0,%ymm0
	vpaddb	%ymm2,%ymm0,%ymm1
	vpminub	%ymm1,%ymm0,%ymm0
	vpsllw	$12,%ymm0,%ymm1
	vpaddw	%ymm1,%ymm0,%ymm0
	vpsrlw	$8,%ymm0,%ymm0
	vpmovwb	%ymm0,(%rdx,%rcx)
	.p2align	5,,6
	jmp	67f
37:
	movq	%rcx,%r10
	andq	$-2,%r10
	leaq	-2(%rsi),%r11
	leaq	(%rdx,%rdx),%rbx
	leaq	(%rax,%rax),%r8
	leaq	(%r8,%r9,2),%r15
	leaq	(%r9,%rax,2),%r8
	leaq	(%rdi,%r8),%r12
	addq	$-4,%r12
	addq	%rdi,%rbp
	leaq	(%rdi,%rax),%r13
	movq	%rcx,%r9
	shrq	%r9
	imulq	%rdx,%r9
	addq	%r9,%r9
	xorl	%r14d,%r14d
	.p2align	4
38:
	vmovd	(%rdi,%r14),%xmm0
	vpinsrd	$1,-4(%r13,%r14),%xmm0,%xmm0
	vpbroadcastd	.L100v4_CPI9_13(%rip),%xmm1
	vpand	%xmm1,%xmm0,%xmm0
	vpbroadcastd	.L100v4_CPI9_14(%rip),%xmm2
	vpaddb	%xmm2,%xmm0,%xmm3
	vpminub	%xmm3,%xmm0,%xmm0
	vpbroadcastd	.L100v4_CPI9_15(%rip),%xmm3
	vpmullw	%xmm3,%xmm0,%xmm0
	vmovq	.L100v4_CPI9_16(%rip),%xmm4
	vpshufb	%xmm4,%xmm0,%xmm0
	vpextrw	$0,%xmm0,2(%r11)
	vpextrw	$1,%xmm0,(%r11,%rdx)
	vmovd	(%rbp,%r14),%xmm0
	vpinsrd	$1,(%r12,%r14),%xmm0,%xmm0
	vpand	%xmm1,%xmm0,%xmm0
	vpaddb	%xmm2,%xmm0,%xmm1
	vpminub	%xmm1,%xmm0,%xmm0
	vpmullw	%xmm3,%xmm0,%xmm0
	vpshufb	%xmm4,%xmm0,%xmm0
	vpextrw	$0,%xmm0,2(%r11,%rdx)
	vpextrw	$1,%xmm0,(%r11,%rdx,2)
	addq	%rbx,%r11
	addq	%r15,%r14
	.p2align	5,,10
	addq	$-2,%r10
	jne	38b
	.p2align	5,,10
	testb	$1,%cl
	je	67f
40:
	leaq	(%rdi,%r14),%rcx
	vmovd	(%rdi,%r14),%xmm0
	vpinsrd	$1,-4(%rax,%rcx),%xmm0,%xmm0
	vpandd	.L100v4_CPI9_13(%rip){1to4},%xmm0,%xmm0
	vpaddb	.L100v4_CPI9_8(%rip),%xmm0,%xmm1
	leaq	(%rsi,%r9),%rax
	vpminub	%xmm1,%xmm0,%xmm0
	vpmullw	.L100v4_CPI9_9(%rip),%xmm0,%xmm0
	vpshufb	.L100v4_CPI9_6(%rip),%xmm0,%xmm0
	vpextrw	$0,%xmm0,(%rsi,%r9)
	vpextrw	$1,%xmm0,-2(%rdx,%rax)
	.p2align	5,,6
	jmp	67f
48:
	.p2align	5,,10
	cmpq	$32,%rax
	jae	49f
	.p2align	5,,10
	cmpq	$1,%rcx
	jne	55f
	xorl	%r9d,%r9d
	xorl	%r14d,%r14d
	.p2align	5,,6
	jmp	58f
44:
	movq	%rcx,%r10
	andq	$-2,%r10
	leaq	-4(%rsi),%r11
	leaq	(%rdx,%rdx),%rbx
	leaq	(%rax,%rax),%r8
	leaq	(%r8,%r9,2),%r15
	leaq	(%r9,%rax,2),%r8
	leaq	(%rdi,%r8),%r12
	addq	$-8,%r12
	addq	%rdi,%rbp
	leaq	(%rdi,%rax),%r13
	movq	%rcx,%r9
	shrq	%r9
	imulq	%rdx,%r9
	addq	%r9,%r9
	xorl	%r14d,%r14d
	.p2align	4
45:
	vmovq	-8(%r13,%r14),%xmm0
	vmovq	(%rdi,%r14),%xmm1
	vpunpcklqdq	%xmm0,%xmm1,%xmm0
	vpbroadcastd	.L100v4_CPI9_13(%rip),%xmm1
	vpand	%xmm1,%xmm0,%xmm0
	vpbroadcastd	.L100v4_CPI9_14(%rip),%xmm2
	vpaddb	%xmm2,%xmm0,%xmm3
	vpminub	%xmm3,%xmm0,%xmm0
	vpsllw	$12,%xmm0,%xmm3
	vpaddw	%xmm3,%xmm0,%xmm0
	vmovq	.L100v4_CPI9_16(%rip),%xmm3
	vpshufb	%xmm3,%xmm0,%xmm0
	vmovd	%xmm0,4(%r11)
	vpextrd	$1,%xmm0,(%r11,%rdx)
	vmovq	(%r12,%r14),%xmm0
	vmovq	(%rbp,%r14),%xmm4
	vpunpcklqdq	%xmm0,%xmm4,%xmm0
	vpand	%xmm1,%xmm0,%xmm0
	vpaddb	%xmm2,%xmm0,%xmm1
	vpminub	%xmm1,%xmm0,%xmm0
	vpsllw	$12,%xmm0,%xmm1
	vpaddw	%xmm1,%xmm0,%xmm0
	vpshufb	%xmm3,%xmm0,%xmm0
	vmovd	%xmm0,4(%r11,%rdx)
	vpextrd	$1,%xmm0,(%r11,%rdx,2)
	addq	%rbx,%r11
	addq	%r15,%r14
	.p2align	5,,10
	addq	$-2,%r10
	jne	45b
	.p2align	5,,10
	testb	$1,%cl
	je	67f
47:
	leaq	(%rdi,%r14),%rcx
	vmovq	(%rdi,%r14),%xmm0
	vmovq	-8(%rax,%rcx),%xmm1
	vpunpcklqdq	%xmm1,%xmm0,%xmm0
	vpandd	.L100v4_CPI9_13(%rip){1to4},%xmm0,%xmm0
	vpaddb	.L100v4_CPI9_5(%rip),%xmm0,%xmm1
	vpminub	%xmm1,%xmm0,%xmm0
	vpsllw	$12,%xmm0,%xmm1
	vpaddw	%xmm1,%xmm0,%xmm0
	vpshufb	.L100v4_CPI9_6(%rip),%xmm0,%xmm0
	leaq	(%rsi,%r9),%rax
	vmovd	%xmm0,(%rsi,%r9)
	vpextrd	$1,%xmm0,-4(%rdx,%rax)
	.p2align	5,,6
	jmp	67f
49:
	movq	%rbp,.Lhex_below-8(%rsp)
	movq	%rax,%r11
	shrq	$6,%r11
	movl	%r11d,%ebx
	andl	$3,%ebx
	movq	%r11,.Lhex_below-16(%rsp)
	andq	$-4,%r11
	movq	%rbx,.Lhex_below-24(%rsp)
	shll	$5,%ebx
	xorl	%r14d,%r14d
	movq	%rdi,%r15
	movq	%rsi,%r12
	xorl	%r13d,%r13d
	xorl	%ebp,%ebp
	.p2align	5,,6
	jmp	50f
	.p2align	4
66:
	addq	%rdx,%r13
	movq	.Lhex_below-8(%rsp),%r8
	addq	%r8,%rbp
	incq	%r14
	addq	%rdx,%r12
	addq	%r8,%r15
	.p2align	5,,10
	cmpq	%rcx,%r14
	je	67f
50:
	.p2align	5,,10
	cmpq	$0,.Lhex_below-16(%rsp)
	je	64f
	.p2align	5,,13
	cmpq	$256,%rax
	jae	59f
	xorl	%r10d,%r10d
	.p2align	5,,6
	jmp	62f
59:
	movl	$96,%r9d
	xorl	%r10d,%r10d
	.p2align	4
60:
	vpbroadcastd	.L100v4_CPI9_13(%rip),%zmm0
	vpandq	-192(%r15,%r9,2),%zmm0,%zmm1
	vpbroadcastd	.L100v4_CPI9_14(%rip),%zmm2
	vpaddb	%zmm2,%zmm1,%zmm3
	vpminub	%zmm3,%zmm1,%zmm1
	vpsllw	$12,%zmm1,%zmm3
	vpaddw	%zmm3,%zmm1,%zmm1
	vpsrlw	$8,%zmm1,%zmm1
	vpmovwb	%zmm1,-96(%r12,%r9)
	vpandq	-128(%r15,%r9,2),%zmm0,%zmm1
	vpaddb	%zmm2,%zmm1,%zmm3
	vpminub	%zmm3,%zmm1,%zmm1
	vpsllw	$12,%zmm1,%zmm3
	vpaddw	%zmm3,%zmm1,%zmm1
	vpsrlw	$8,%zmm1,%zmm1
	vpmovwb	%zmm1,-64(%r12,%r9)
	vpandq	-64(%r15,%r9,2),%zmm0,%zmm1
	vpaddb	%zmm2,%zmm1,%zmm3
	vpminub	%zmm3,%zmm1,%zmm1
	vpsllw	$12,%zmm1,%zmm3
	vpaddw	%zmm3,%zmm1,%zmm1
	vpsrlw	$8,%zmm1,%zmm1
	vpmovwb	%zmm1,-32(%r12,%r9)
	vpandq	(%r15,%r9,2),%zmm0,%zmm0
	vpaddb	%zmm2,%zmm0,%zmm1
	vpminub	%zmm1,%zmm0,%zmm0
	vpsllw	$12,%zmm0,%zmm1
	vpaddw	%zmm1,%zmm0,%zmm0
	vpsrlw	$8,%zmm0,%zmm0
	vpmovwb	%zmm0,(%r12,%r9)
	addq	$4,%r10
	subq	$-128,%r9
	.p2align	5,,10
	cmpq	%r10,%r11
	jne	60b
	.p2align	5,,10
	cmpq	$0,.Lhex_below-24(%rsp)
	je	64f
62:
	movq	%r10,%r9
	shlq	$6,%r9
	addq	%r15,%r9
	shlq	$5,%r10
	addq	%r12,%r10
	xorl	%r8d,%r8d
	.p2align	4
63:
	vmovdqu64	(%r9,%r8,2),%zmm0
	vpandd	.L100v4_CPI9_13(%rip){1to16},%zmm0,%zmm0
	vpaddb	.L100v4_CPI9_1(%rip),%zmm0,%zmm1
	vpminub	%zmm1,%zmm0,%zmm0
	vpsllw	$12,%zmm0,%zmm1
	vpaddw	%zmm1,%zmm0,%zmm0
	vpsrlw	$8,%zmm0,%zmm0
	vpmovwb	%zmm0,(%r10,%r8)
	addq	$32,%r8
	.p2align	5,,10
	cmpq	%r8,%rbx
	jne	63b
64:
	.p2align	5,,10
	testb	$62,%al
	je	66b
	leaq	(%rdi,%rbp),%r8
	leaq	(%rsi,%r13),%r9
	vmovdqu64	-64(%r8,%rdx,2),%zmm0
	vpandd	.L100v4_CPI9_13(%rip){1to16},%zmm0,%zmm0
	vpaddb	.L100v4_CPI9_1(%rip),%zmm0,%zmm1
	vpminub	%zmm1,%zmm0,%zmm0
	vpsllw	$12,%zmm0,%zmm1
	vpaddw	%zmm1,%zmm0,%zmm0
	vpsrlw	$8,%zmm0,%zmm0
	vpmovwb	%zmm0,-32(%r9,%rdx)
	.p2align	5,,6
	jmp	66b
55:
	movq	%rcx,%r10
	andq	$-2,%r10
	leaq	-8(%rsi),%r11
	leaq	(%rdx,%rdx),%rbx
	leaq	(%rax,%rax),%r8
	leaq	(%r8,%r9,2),%r15
	leaq	(%r9,%rax,2),%r8
	leaq	(%rdi,%r8),%r12
	addq	$-16,%r12
	addq	%rdi,%rbp
	leaq	(%rdi,%rax),%r13
	movq	%rcx,%r9
	shrq	%r9
	imulq	%rdx,%r9
	addq	%r9,%r9
	xorl	%r14d,%r14d
56:
	vmovdqu	(%rdi,%r14),%xmm0
	vinserti128	$1,-16(%r13,%r14),%ymm0,%ymm0
	vpbroadcastd	.L100v4_CPI9_13(%rip),%ymm1
	vpand	%ymm1,%ymm0,%ymm0
	vpbroadcastd	.L100v4_CPI9_14(%rip),%ymm2
	vpaddb	%ymm2,%ymm0,%ymm3
	vpminub	%ymm3,%ymm0,%ymm0
	vpsllw	$12,%ymm0,%ymm3
	vpaddw	%ymm3,%ymm0,%ymm0
	vpsrlw	$8,%ymm0,%ymm0
	vpmovwb	%ymm0,%xmm0
	vmovq	%xmm0,8(%r11)
	vpextrq	$1,%xmm0,(%r11,%rdx)
	vmovdqu	(%rbp,%r14),%xmm0
	vinserti128	$1,(%r12,%r14),%ymm0,%ymm0
	vpand	%ymm1,%ymm0,%ymm0
	vpaddb	%ymm2,%ymm0,%ymm1
	vpminub	%ymm1,%ymm0,%ymm0
	vpsllw	$12,%ymm0,%ymm1
	vpaddw	%ymm1,%ymm0,%ymm0
	vpsrlw	$8,%ymm0,%ymm0
	vpmovwb	%ymm0,%xmm0
	vmovq	%xmm0,8(%r11,%rdx)
	vpextrq	$1,%xmm0,(%r11,%rdx,2)
	addq	%rbx,%r11
	addq	%r15,%r14
	.p2align	5,,10
	addq	$-2,%r10
	jne	56b
	.p2align	5,,10
	testb	$1,%cl
	je	67f
58:
	leaq	(%rdi,%r14),%rcx
	vmovdqu	(%rdi,%r14),%xmm0
	vinserti128	$1,-16(%rax,%rcx),%ymm0,%ymm0
	vpandd	.L100v4_CPI9_13(%rip){1to8},%ymm0,%ymm0
	vpaddb	.L100v4_CPI9_3(%rip),%ymm0,%ymm1
	vpminub	%ymm1,%ymm0,%ymm0
	vpsllw	$12,%ymm0,%ymm1
	vpaddw	%ymm1,%ymm0,%ymm0
	vpsrlw	$8,%ymm0,%ymm0
	vpmovwb	%ymm0,%xmm0
	leaq	(%rsi,%r9),%rax
	vmovq	%xmm0,(%rsi,%r9)
	vpextrq	$1,%xmm0,-8(%rdx,%rax)
67:
	popq	%rbx
	hex_cfi	def_cfa_offset 48
	popq	%r12
	hex_cfi	def_cfa_offset 40
	popq	%r13
	hex_cfi	def_cfa_offset 32
	popq	%r14
	hex_cfi	def_cfa_offset 24
	popq	%r15
	hex_cfi	def_cfa_offset 16
	popq	%rbp
	hex_cfi	def_cfa_offset 8
	vzeroupper
	hex_raise
	.p2align	5,,1
	retq
	hex_end	faster_hex_1_0_0_x86_64_v4_codec_spaced_decode_lines
	hex_cfi	endproc
	hex_merged	64
	.p2align	6,0x0
.L100v4_CPI10_0:
	.zero	64,57
.L100v4_CPI10_1:
	.byte	167,168,169,0,0,0,0,0,0,144,161,162,163,164,165,166
	.byte	167,168,169,0,0,0,0,0,0,144,161,162,163,164,165,166
	.byte	167,168,169,0,0,0,0,0,0,144,161,162,163,164,165,166
	.byte	167,168,169,0,0,0,0,0,0,144,161,162,163,164,165,166
.L100v4_CPI10_2:
	.zero	64,160
	hex_merged	32
	.p2align	5,0x0
.L100v4_CPI10_3:
	.zero	32,57
.L100v4_CPI10_4:
	.byte	167,168,169,0,0,0,0,0,0,144,161,162,163,164,165,166
	.byte	167,168,169,0,0,0,0,0,0,144,161,162,163,164,165,166
	hex_merged	8
	.p2align	3,0x0
.L100v4_CPI10_5:
	.quad	-6872316419617283936
	hex_merged	16
	.p2align	4,0x0
.L100v4_CPI10_6:
	.zero	16,57
.L100v4_CPI10_7:
	.byte	167,168,169,0,0,0,0,0,0,144,161,162,163,164,165,166
.L100v4_CPI10_8:
	.byte	57,57,57,57,57,57,57,57,0,0,0,0,0,0,0,0
.L100v4_CPI10_9:
	.byte	160,160,160,160,160,160,160,160,0,0,0,0,0,0,0,0
.L100v4_CPI10_10:
	.byte	57,57,57,57,0,0,0,0,0,0,0,0,0,0,0,0
.L100v4_CPI10_11:
	.byte	160,160,160,160,0,0,0,0,0,0,0,0,0,0,0,0
.L100v4_CPI10_12:
	.byte	57,57,0,0,0,0,0,0,0,0,0,0,0,0,0,0
.L100v4_CPI10_13:
	.byte	160,160,0,0,0,0,0,0,0,0,0,0,0,0,0,0
	hex_merged	4
	.p2align	2,0x0
.L100v4_CPI10_14:
	.zero	4,57
.L100v4_CPI10_15:
	.zero	4,160
	hex_export	faster_hex_1_0_0_x86_64_v4_check
	hex_cfi	startproc
	endbr64
	.p2align	5,,10
	cmpq	$32,%rsi
	ja	12f
	.p2align	5,,10
	cmpq	$15,%rsi
	ja	11f
	.p2align	5,,10
	testq	%rsi,%rsi
	je	3f
	.p2align	5,,10
	cmpq	$1,%rsi
	jne	6f
	movzbl	(%rdi),%eax
	leal	-48(%rax),%ecx
	xorl	%edx,%edx
	subb	$9,%cl
	movzbl	%cl,%ecx
	cmovbl	%edx,%ecx
	orb	$32,%al
	addb	$-97,%al
	subb	$5,%al
	movzbl	%al,%eax
	cmovbl	%edx,%eax
	cmpb	%al,%cl
	cmovbl	%ecx,%eax
	testb	%al,%al
	sete	%al
	.p2align	5,,1
	retq
12:
	.p2align	5,,13
	cmpq	$256,%rsi
	ja	21f
	.p2align	5,,10
	cmpq	$64,%rsi
	ja	15f
	vmovdqu	(%rdi),%ymm0
	vpbroadcastd	.L100v4_CPI10_14(%rip),%ymm1
	vpaddb	%ymm1,%ymm0,%ymm2
	vbroadcasti128	.L100v4_CPI10_7(%rip),%ymm3
	vpshufb	%ymm2,%ymm3,%ymm4
	vpsubb	%ymm0,%ymm4,%ymm0
	vmovdqu	-32(%rdi,%rsi),%ymm4
	vpaddb	%ymm1,%ymm4,%ymm1
	vpshufb	%ymm1,%ymm3,%ymm3
	vpsubb	%ymm4,%ymm3,%ymm3
	vpxor	%ymm1,%ymm3,%ymm1
	vpternlogq	$246,%ymm2,%ymm0,%ymm1
	vpbroadcastq	.L100v4_CPI10_5(%rip),%ymm0
	vptest	%ymm0,%ymm1
	sete	%al
	vzeroupper
	.p2align	5,,1
	retq
11:
	vmovdqu	(%rdi),%xmm0
	vpbroadcastd	.L100v4_CPI10_14(%rip),%xmm1
	vpaddb	%xmm1,%xmm0,%xmm2
	vmovdqa	.L100v4_CPI10_7(%rip),%xmm3
	vpshufb	%xmm2,%xmm3,%xmm4
	vpsubb	%xmm0,%xmm4,%xmm0
	vmovdqu	-16(%rdi,%rsi),%xmm4
	vpaddb	%xmm1,%xmm4,%xmm1
	vpshufb	%xmm1,%xmm3,%xmm3
	vpsubb	%xmm4,%xmm3,%xmm3
	vpxor	%xmm1,%xmm3,%xmm1
	vpternlogq	$246,%xmm2,%xmm0,%xmm1
	vpbroadcastq	.L100v4_CPI10_5(%rip),%xmm0
	vptest	%xmm0,%xmm1
	sete	%al
	.p2align	5,,1
	retq
21:
	pushq	%rax
	hex_cfi	def_cfa_offset 16
	xorl	%edx,%edx
	.p2align	5,,5
	callq	faster_hex_1_0_0_x86_64_v4_core_plain_check_wide_outlined
	addq	$8,%rsp
	hex_cfi	def_cfa_offset 8
	.p2align	5,,1
	retq
15:
	vmovdqu64	(%rdi),%zmm0
	vpaddb	.L100v4_CPI10_0(%rip),%zmm0,%zmm2
	vbroadcasti32x4	.L100v4_CPI10_7(%rip),%zmm1
	vpshufb	%zmm2,%zmm1,%zmm3
	vpsubb	%zmm0,%zmm3,%zmm0
	vpxorq	%zmm2,%zmm0,%zmm0
	.p2align	5,,13
	cmpq	$128,%rsi
	ja	17f
	vmovdqu64	-64(%rdi,%rsi),%zmm2
	vpaddb	.L100v4_CPI10_0(%rip),%zmm2,%zmm3
	vpshufb	%zmm3,%zmm1,%zmm1
	vpsubb	%zmm2,%zmm1,%zmm1
	vpternlogq	$246,%zmm3,%zmm1,%zmm0
	vptestmd	.L100v4_CPI10_15(%rip){1to16},%zmm0,%k0
	kortestw	%k0,%k0
	sete	%al
	vzeroupper
	.p2align	5,,1
	retq
3:
	movb	$1,%al
	.p2align	5,,1
	retq
6:
	.p2align	5,,10
	cmpq	$3,%rsi
	ja	8f
	movzwl	(%rdi),%eax
	vpbroadcastd	.L100v4_CPI10_14(%rip),%xmm0
	vmovd	%eax,%xmm1
	vpaddb	%xmm0,%xmm1,%xmm2
	vmovdqa	.L100v4_CPI10_7(%rip),%xmm3
	vpshufb	%xmm2,%xmm3,%xmm4
	vpsubb	%xmm1,%xmm4,%xmm1
	vpxor	%xmm2,%xmm1,%xmm1
	movzwl	-2(%rdi,%rsi),%eax
	vmovd	%eax,%xmm2
	vpaddb	%xmm0,%xmm2,%xmm0
	vpshufb	%xmm0,%xmm3,%xmm3
	vpsubb	%xmm2,%xmm3,%xmm2
	vpxor	%xmm0,%xmm2,%xmm0
	vpternlogd	$168,.L100v4_CPI10_15(%rip){1to4},%xmm1,%xmm0
	vmovd	%xmm0,%eax
	testw	%ax,%ax
	sete	%al
	.p2align	5,,1
	retq
17:
	vmovdqu64	64(%rdi),%zmm2
	vpbroadcastd	.L100v4_CPI10_14(%rip),%zmm3
	vpaddb	%zmm3,%zmm2,%zmm4
	vpshufb	%zmm4,%zmm1,%zmm5
	vpsubb	%zmm2,%zmm5,%zmm5
	vmovdqu64	-64(%rdi,%rsi),%zmm2
	vpaddb	%zmm3,%zmm2,%zmm3
	vpshufb	%zmm3,%zmm1,%zmm6
	vpsubb	%zmm2,%zmm6,%zmm2
	vpxorq	%zmm3,%zmm2,%zmm2
	vpternlogq	$246,%zmm4,%zmm5,%zmm0
	.p2align	5,,13
	cmpq	$193,%rsi
	jb	19f
	vmovdqu64	-128(%rdi,%rsi),%zmm3
	vpaddb	.L100v4_CPI10_0(%rip),%zmm3,%zmm4
	vpshufb	%zmm4,%zmm1,%zmm1
	vpsubb	%zmm3,%zmm1,%zmm1
	vpternlogq	$246,%zmm4,%zmm1,%zmm0
19:
	vporq	%zmm2,%zmm0,%zmm0
	vptestmd	.L100v4_CPI10_15(%rip){1to16},%zmm0,%k0
	kortestw	%k0,%k0
	sete	%al
	vzeroupper
	.p2align	5,,1
	retq
8:
	.p2align	5,,10
	cmpq	$7,%rsi
	ja	10f
	vmovd	(%rdi),%xmm0
	vpbroadcastd	.L100v4_CPI10_14(%rip),%xmm1
	vpaddb	%xmm1,%xmm0,%xmm2
	vmovdqa	.L100v4_CPI10_7(%rip),%xmm3
	vpshufb	%xmm2,%xmm3,%xmm4
	vpsubb	%xmm0,%xmm4,%xmm0
	vpxor	%xmm2,%xmm0,%xmm0
	vmovd	-4(%rdi,%rsi),%xmm2
	vpaddb	%xmm1,%xmm2,%xmm1
	vpshufb	%xmm1,%xmm3,%xmm3
	vpsubb	%xmm2,%xmm3,%xmm2
	vpxor	%xmm1,%xmm2,%xmm1
	vpternlogd	$168,.L100v4_CPI10_15(%rip){1to4},%xmm0,%xmm1
	vmovd	%xmm1,%eax
	testl	%eax,%eax
	sete	%al
	.p2align	5,,1
	retq
10:
	vmovq	(%rdi),%xmm0
	vpbroadcastd	.L100v4_CPI10_14(%rip),%xmm1
	vpaddb	%xmm1,%xmm0,%xmm2
	vmovdqa	.L100v4_CPI10_7(%rip),%xmm3
	vpshufb	%xmm2,%xmm3,%xmm4
	vpsubb	%xmm0,%xmm4,%xmm0
	vpxor	%xmm2,%xmm0,%xmm0
	vmovq	-8(%rdi,%rsi),%xmm2
	vpaddb	%xmm1,%xmm2,%xmm1
	vpshufb	%xmm1,%xmm3,%xmm3
	vpsubb	%xmm2,%xmm3,%xmm2
	vpxor	%xmm1,%xmm2,%xmm1
	vpternlogd	$168,.L100v4_CPI10_15(%rip){1to4},%xmm0,%xmm1
	vmovq	%xmm1,%rax
	testq	%rax,%rax
	sete	%al
	.p2align	5,,1
	retq
	hex_end	faster_hex_1_0_0_x86_64_v4_check
	hex_cfi	endproc
	hex_merged	64
	.p2align	6,0x0
.L100v4_CPI11_0:
	.zero	64,57
.L100v4_CPI11_1:
	.byte	167,168,169,0,0,0,0,0,0,144,145,146,147,148,149,150
	.byte	167,168,169,0,0,0,0,0,0,144,145,146,147,148,149,150
	.byte	167,168,169,0,0,0,0,0,0,144,145,146,147,148,149,150
	.byte	167,168,169,0,0,0,0,0,0,144,145,146,147,148,149,150
.L100v4_CPI11_2:
	.zero	64,160
	hex_merged	32
	.p2align	5,0x0
.L100v4_CPI11_3:
	.zero	32,57
.L100v4_CPI11_4:
	.byte	167,168,169,0,0,0,0,0,0,144,145,146,147,148,149,150
	.byte	167,168,169,0,0,0,0,0,0,144,145,146,147,148,149,150
	hex_merged	8
	.p2align	3,0x0
.L100v4_CPI11_5:
	.quad	-6872316419617283936
	hex_merged	16
	.p2align	4,0x0
.L100v4_CPI11_6:
	.zero	16,57
.L100v4_CPI11_7:
	.byte	167,168,169,0,0,0,0,0,0,144,145,146,147,148,149,150
.L100v4_CPI11_8:
	.byte	57,57,57,57,57,57,57,57,0,0,0,0,0,0,0,0
.L100v4_CPI11_9:
	.byte	160,160,160,160,160,160,160,160,0,0,0,0,0,0,0,0
.L100v4_CPI11_10:
	.byte	57,57,57,57,0,0,0,0,0,0,0,0,0,0,0,0
.L100v4_CPI11_11:
	.byte	160,160,160,160,0,0,0,0,0,0,0,0,0,0,0,0
.L100v4_CPI11_12:
	.byte	57,57,0,0,0,0,0,0,0,0,0,0,0,0,0,0
.L100v4_CPI11_13:
	.byte	160,160,0,0,0,0,0,0,0,0,0,0,0,0,0,0
	hex_merged	4
	.p2align	2,0x0
.L100v4_CPI11_14:
	.zero	4,57
.L100v4_CPI11_15:
	.zero	4,160
	hex_export	faster_hex_1_0_0_x86_64_v4_check_lower
	hex_cfi	startproc
	endbr64
	.p2align	5,,10
	cmpq	$32,%rsi
	ja	12f
	.p2align	5,,10
	cmpq	$15,%rsi
	ja	11f
	.p2align	5,,10
	testq	%rsi,%rsi
	je	3f
	.p2align	5,,10
	cmpq	$1,%rsi
	jne	6f
	movzbl	(%rdi),%eax
	leal	-48(%rax),%ecx
	xorl	%edx,%edx
	subb	$9,%cl
	movzbl	%cl,%ecx
	cmovbl	%edx,%ecx
	addb	$-97,%al
	subb	$5,%al
	movzbl	%al,%eax
	cmovbl	%edx,%eax
	cmpb	%al,%cl
	cmovbl	%ecx,%eax
	testb	%al,%al
	sete	%al
	.p2align	5,,1
	retq
12:
	.p2align	5,,13
	cmpq	$256,%rsi
	ja	21f
	.p2align	5,,10
	cmpq	$64,%rsi
	ja	15f
	vmovdqu	(%rdi),%ymm0
	vpbroadcastd	.L100v4_CPI11_14(%rip),%ymm1
	vpaddb	%ymm1,%ymm0,%ymm2
	vbroadcasti128	.L100v4_CPI11_7(%rip),%ymm3
	vpshufb	%ymm2,%ymm3,%ymm4
	vpsubb	%ymm0,%ymm4,%ymm0
	vmovdqu	-32(%rdi,%rsi),%ymm4
	vpaddb	%ymm1,%ymm4,%ymm1
	vpshufb	%ymm1,%ymm3,%ymm3
	vpsubb	%ymm4,%ymm3,%ymm3
	vpxor	%ymm1,%ymm3,%ymm1
	vpternlogq	$246,%ymm2,%ymm0,%ymm1
	vpbroadcastq	.L100v4_CPI11_5(%rip),%ymm0
	vptest	%ymm0,%ymm1
	sete	%al
	vzeroupper
	.p2align	5,,1
	retq
11:
	vmovdqu	(%rdi),%xmm0
	vpbroadcastd	.L100v4_CPI11_14(%rip),%xmm1
	vpaddb	%xmm1,%xmm0,%xmm2
	vmovdqa	.L100v4_CPI11_7(%rip),%xmm3
	vpshufb	%xmm2,%xmm3,%xmm4
	vpsubb	%xmm0,%xmm4,%xmm0
	vmovdqu	-16(%rdi,%rsi),%xmm4
	vpaddb	%xmm1,%xmm4,%xmm1
	vpshufb	%xmm1,%xmm3,%xmm3
	vpsubb	%xmm4,%xmm3,%xmm3
	vpxor	%xmm1,%xmm3,%xmm1
	vpternlogq	$246,%xmm2,%xmm0,%xmm1
	vpbroadcastq	.L100v4_CPI11_5(%rip),%xmm0
	vptest	%xmm0,%xmm1
	sete	%al
	.p2align	5,,1
	retq
21:
	pushq	%rax
	hex_cfi	def_cfa_offset 16
	movl	$1,%edx
	.p2align	5,,5
	callq	faster_hex_1_0_0_x86_64_v4_core_plain_check_wide_outlined
	addq	$8,%rsp
	hex_cfi	def_cfa_offset 8
	.p2align	5,,1
	retq
15:
	vmovdqu64	(%rdi),%zmm0
	vpaddb	.L100v4_CPI11_0(%rip),%zmm0,%zmm2
	vbroadcasti32x4	.L100v4_CPI11_7(%rip),%zmm1
	vpshufb	%zmm2,%zmm1,%zmm3
	vpsubb	%zmm0,%zmm3,%zmm0
	vpxorq	%zmm2,%zmm0,%zmm0
	.p2align	5,,13
	cmpq	$128,%rsi
	ja	17f
	vmovdqu64	-64(%rdi,%rsi),%zmm2
	vpaddb	.L100v4_CPI11_0(%rip),%zmm2,%zmm3
	vpshufb	%zmm3,%zmm1,%zmm1
	vpsubb	%zmm2,%zmm1,%zmm1
	vpternlogq	$246,%zmm3,%zmm1,%zmm0
	vptestmd	.L100v4_CPI11_15(%rip){1to16},%zmm0,%k0
	kortestw	%k0,%k0
	sete	%al
	vzeroupper
	.p2align	5,,1
	retq
3:
	movb	$1,%al
	.p2align	5,,1
	retq
6:
	.p2align	5,,10
	cmpq	$3,%rsi
	ja	8f
	movzwl	(%rdi),%eax
	vpbroadcastd	.L100v4_CPI11_14(%rip),%xmm0
	vmovd	%eax,%xmm1
	vpaddb	%xmm0,%xmm1,%xmm2
	vmovdqa	.L100v4_CPI11_7(%rip),%xmm3
	vpshufb	%xmm2,%xmm3,%xmm4
	vpsubb	%xmm1,%xmm4,%xmm1
	vpxor	%xmm2,%xmm1,%xmm1
	movzwl	-2(%rdi,%rsi),%eax
	vmovd	%eax,%xmm2
	vpaddb	%xmm0,%xmm2,%xmm0
	vpshufb	%xmm0,%xmm3,%xmm3
	vpsubb	%xmm2,%xmm3,%xmm2
	vpxor	%xmm0,%xmm2,%xmm0
	vpternlogd	$168,.L100v4_CPI11_15(%rip){1to4},%xmm1,%xmm0
	vmovd	%xmm0,%eax
	testw	%ax,%ax
	sete	%al
	.p2align	5,,1
	retq
17:
	vmovdqu64	64(%rdi),%zmm2
	vpbroadcastd	.L100v4_CPI11_14(%rip),%zmm3
	vpaddb	%zmm3,%zmm2,%zmm4
	vpshufb	%zmm4,%zmm1,%zmm5
	vpsubb	%zmm2,%zmm5,%zmm5
	vmovdqu64	-64(%rdi,%rsi),%zmm2
	vpaddb	%zmm3,%zmm2,%zmm3
	vpshufb	%zmm3,%zmm1,%zmm6
	vpsubb	%zmm2,%zmm6,%zmm2
	vpxorq	%zmm3,%zmm2,%zmm2
	vpternlogq	$246,%zmm4,%zmm5,%zmm0
	.p2align	5,,13
	cmpq	$193,%rsi
	jb	19f
	vmovdqu64	-128(%rdi,%rsi),%zmm3
	vpaddb	.L100v4_CPI11_0(%rip),%zmm3,%zmm4
	vpshufb	%zmm4,%zmm1,%zmm1
	vpsubb	%zmm3,%zmm1,%zmm1
	vpternlogq	$246,%zmm4,%zmm1,%zmm0
19:
	vporq	%zmm2,%zmm0,%zmm0
	vptestmd	.L100v4_CPI11_15(%rip){1to16},%zmm0,%k0
	kortestw	%k0,%k0
	sete	%al
	vzeroupper
	.p2align	5,,1
	retq
8:
	.p2align	5,,10
	cmpq	$7,%rsi
	ja	10f
	vmovd	(%rdi),%xmm0
	vpbroadcastd	.L100v4_CPI11_14(%rip),%xmm1
	vpaddb	%xmm1,%xmm0,%xmm2
	vmovdqa	.L100v4_CPI11_7(%rip),%xmm3
	vpshufb	%xmm2,%xmm3,%xmm4
	vpsubb	%xmm0,%xmm4,%xmm0
	vpxor	%xmm2,%xmm0,%xmm0
	vmovd	-4(%rdi,%rsi),%xmm2
	vpaddb	%xmm1,%xmm2,%xmm1
	vpshufb	%xmm1,%xmm3,%xmm3
	vpsubb	%xmm2,%xmm3,%xmm2
	vpxor	%xmm1,%xmm2,%xmm1
	vpternlogd	$168,.L100v4_CPI11_15(%rip){1to4},%xmm0,%xmm1
	vmovd	%xmm1,%eax
	testl	%eax,%eax
	sete	%al
	.p2align	5,,1
	retq
10:
	vmovq	(%rdi),%xmm0
	vpbroadcastd	.L100v4_CPI11_14(%rip),%xmm1
	vpaddb	%xmm1,%xmm0,%xmm2
	vmovdqa	.L100v4_CPI11_7(%rip),%xmm3
	vpshufb	%xmm2,%xmm3,%xmm4
	vpsubb	%xmm0,%xmm4,%xmm0
	vpxor	%xmm2,%xmm0,%xmm0
	vmovq	-8(%rdi,%rsi),%xmm2
	vpaddb	%xmm1,%xmm2,%xmm1
	vpshufb	%xmm1,%xmm3,%xmm3
	vpsubb	%xmm2,%xmm3,%xmm2
	vpxor	%xmm1,%xmm2,%xmm1
	vpternlogd	$168,.L100v4_CPI11_15(%rip){1to4},%xmm0,%xmm1
	vmovq	%xmm1,%rax
	testq	%rax,%rax
	sete	%al
	.p2align	5,,1
	retq
	hex_end	faster_hex_1_0_0_x86_64_v4_check_lower
	hex_cfi	endproc
	hex_merged	64
	.p2align	6,0x0
.L100v4_CPI12_0:
	.zero	64,57
.L100v4_CPI12_1:
	.byte	167,169,169,0,0,0,0,0,0,145,161,163,163,165,165,167
	.byte	167,169,169,0,0,0,0,0,0,145,161,163,163,165,165,167
	.byte	167,169,169,0,0,0,0,0,0,145,161,163,163,165,165,167
	.byte	167,169,169,0,0,0,0,0,0,145,161,163,163,165,165,167
.L100v4_CPI12_2:
	.zero	64,161
	hex_merged	32
	.p2align	5,0x0
.L100v4_CPI12_3:
	.zero	32,57
.L100v4_CPI12_4:
	.byte	167,169,169,0,0,0,0,0,0,145,161,163,163,165,165,167
	.byte	167,169,169,0,0,0,0,0,0,145,161,163,163,165,165,167
	hex_merged	8
	.p2align	3,0x0
.L100v4_CPI12_5:
	.quad	-6799976246779207263
	hex_merged	16
	.p2align	4,0x0
.L100v4_CPI12_6:
	.zero	16,57
.L100v4_CPI12_7:
	.byte	167,169,169,0,0,0,0,0,0,145,161,163,163,165,165,167
.L100v4_CPI12_8:
	.byte	57,57,57,57,57,57,57,57,0,0,0,0,0,0,0,0
.L100v4_CPI12_9:
	.byte	161,161,161,161,161,161,161,161,0,0,0,0,0,0,0,0
.L100v4_CPI12_10:
	.byte	57,57,57,57,0,0,0,0,0,0,0,0,0,0,0,0
.L100v4_CPI12_11:
	.byte	161,161,161,161,0,0,0,0,0,0,0,0,0,0,0,0
.L100v4_CPI12_12:
	.byte	57,57,0,0,0,0,0,0,0,0,0,0,0,0,0,0
.L100v4_CPI12_13:
	.byte	161,161,0,0,0,0,0,0,0,0,0,0,0,0,0,0
	hex_merged	4
	.p2align	2,0x0
.L100v4_CPI12_14:
	.zero	4,57
.L100v4_CPI12_15:
	.zero	4,161
	hex_export	faster_hex_1_0_0_x86_64_v4_check_upper
	hex_cfi	startproc
	endbr64
	.p2align	5,,10
	cmpq	$32,%rsi
	ja	12f
	.p2align	5,,10
	cmpq	$15,%rsi
	ja	11f
	.p2align	5,,10
	testq	%rsi,%rsi
	je	3f
	.p2align	5,,10
	cmpq	$1,%rsi
	jne	6f
	movzbl	(%rdi),%eax
	leal	-48(%rax),%ecx
	xorl	%edx,%edx
	subb	$9,%cl
	movzbl	%cl,%ecx
	cmovbl	%edx,%ecx
	addb	$-65,%al
	subb	$5,%al
	movzbl	%al,%eax
	cmovbl	%edx,%eax
	cmpb	%al,%cl
	cmovbl	%ecx,%eax
	testb	%al,%al
	sete	%al
	.p2align	5,,1
	retq
12:
	.p2align	5,,13
	cmpq	$256,%rsi
	ja	21f
	.p2align	5,,10
	cmpq	$64,%rsi
	ja	15f
	vmovdqu	(%rdi),%ymm0
	vpbroadcastd	.L100v4_CPI12_14(%rip),%ymm1
	vpaddb	%ymm1,%ymm0,%ymm2
	vbroadcasti128	.L100v4_CPI12_7(%rip),%ymm3
	vpshufb	%ymm2,%ymm3,%ymm4
	vpsubb	%ymm0,%ymm4,%ymm0
	vmovdqu	-32(%rdi,%rsi),%ymm4
	vpaddb	%ymm1,%ymm4,%ymm1
	vpshufb	%ymm1,%ymm3,%ymm3
	vpsubb	%ymm4,%ymm3,%ymm3
	vpxor	%ymm1,%ymm3,%ymm1
	vpternlogq	$246,%ymm2,%ymm0,%ymm1
	vpbroadcastq	.L100v4_CPI12_5(%rip),%ymm0
	vptest	%ymm0,%ymm1
	sete	%al
	vzeroupper
	.p2align	5,,1
	retq
11:
	vmovdqu	(%rdi),%xmm0
	vpbroadcastd	.L100v4_CPI12_14(%rip),%xmm1
	vpaddb	%xmm1,%xmm0,%xmm2
	vmovdqa	.L100v4_CPI12_7(%rip),%xmm3
	vpshufb	%xmm2,%xmm3,%xmm4
	vpsubb	%xmm0,%xmm4,%xmm0
	vmovdqu	-16(%rdi,%rsi),%xmm4
	vpaddb	%xmm1,%xmm4,%xmm1
	vpshufb	%xmm1,%xmm3,%xmm3
	vpsubb	%xmm4,%xmm3,%xmm3
	vpxor	%xmm1,%xmm3,%xmm1
	vpternlogq	$246,%xmm2,%xmm0,%xmm1
	vpbroadcastq	.L100v4_CPI12_5(%rip),%xmm0
	vptest	%xmm0,%xmm1
	sete	%al
	.p2align	5,,1
	retq
21:
	pushq	%rax
	hex_cfi	def_cfa_offset 16
	movl	$2,%edx
	.p2align	5,,5
	callq	faster_hex_1_0_0_x86_64_v4_core_plain_check_wide_outlined
	addq	$8,%rsp
	hex_cfi	def_cfa_offset 8
	.p2align	5,,1
	retq
15:
	vmovdqu64	(%rdi),%zmm0
	vpaddb	.L100v4_CPI12_0(%rip),%zmm0,%zmm2
	vbroadcasti32x4	.L100v4_CPI12_7(%rip),%zmm1
	vpshufb	%zmm2,%zmm1,%zmm3
	vpsubb	%zmm0,%zmm3,%zmm0
	vpxorq	%zmm2,%zmm0,%zmm0
	.p2align	5,,13
	cmpq	$128,%rsi
	ja	17f
	vmovdqu64	-64(%rdi,%rsi),%zmm2
	vpaddb	.L100v4_CPI12_0(%rip),%zmm2,%zmm3
	vpshufb	%zmm3,%zmm1,%zmm1
	vpsubb	%zmm2,%zmm1,%zmm1
	vpternlogq	$246,%zmm3,%zmm1,%zmm0
	vptestmd	.L100v4_CPI12_15(%rip){1to16},%zmm0,%k0
	kortestw	%k0,%k0
	sete	%al
	vzeroupper
	.p2align	5,,1
	retq
3:
	movb	$1,%al
	.p2align	5,,1
	retq
6:
	.p2align	5,,10
	cmpq	$3,%rsi
	ja	8f
	movzwl	(%rdi),%eax
	vpbroadcastd	.L100v4_CPI12_14(%rip),%xmm0
	vmovd	%eax,%xmm1
	vpaddb	%xmm0,%xmm1,%xmm2
	vmovdqa	.L100v4_CPI12_7(%rip),%xmm3
	vpshufb	%xmm2,%xmm3,%xmm4
	vpsubb	%xmm1,%xmm4,%xmm1
	vpxor	%xmm2,%xmm1,%xmm1
	movzwl	-2(%rdi,%rsi),%eax
	vmovd	%eax,%xmm2
	vpaddb	%xmm0,%xmm2,%xmm0
	vpshufb	%xmm0,%xmm3,%xmm3
	vpsubb	%xmm2,%xmm3,%xmm2
	vpxor	%xmm0,%xmm2,%xmm0
	vpternlogd	$168,.L100v4_CPI12_15(%rip){1to4},%xmm1,%xmm0
	vmovd	%xmm0,%eax
	testw	%ax,%ax
	sete	%al
	.p2align	5,,1
	retq
17:
	vmovdqu64	64(%rdi),%zmm2
	vpbroadcastd	.L100v4_CPI12_14(%rip),%zmm3
	vpaddb	%zmm3,%zmm2,%zmm4
	vpshufb	%zmm4,%zmm1,%zmm5
	vpsubb	%zmm2,%zmm5,%zmm5
	vmovdqu64	-64(%rdi,%rsi),%zmm2
	vpaddb	%zmm3,%zmm2,%zmm3
	vpshufb	%zmm3,%zmm1,%zmm6
	vpsubb	%zmm2,%zmm6,%zmm2
	vpxorq	%zmm3,%zmm2,%zmm2
	vpternlogq	$246,%zmm4,%zmm5,%zmm0
	.p2align	5,,13
	cmpq	$193,%rsi
	jb	19f
	vmovdqu64	-128(%rdi,%rsi),%zmm3
	vpaddb	.L100v4_CPI12_0(%rip),%zmm3,%zmm4
	vpshufb	%zmm4,%zmm1,%zmm1
	vpsubb	%zmm3,%zmm1,%zmm1
	vpternlogq	$246,%zmm4,%zmm1,%zmm0
19:
	vporq	%zmm2,%zmm0,%zmm0
	vptestmd	.L100v4_CPI12_15(%rip){1to16},%zmm0,%k0
	kortestw	%k0,%k0
	sete	%al
	vzeroupper
	.p2align	5,,1
	retq
8:
	.p2align	5,,10
	cmpq	$7,%rsi
	ja	10f
	vmovd	(%rdi),%xmm0
	vpbroadcastd	.L100v4_CPI12_14(%rip),%xmm1
	vpaddb	%xmm1,%xmm0,%xmm2
	vmovdqa	.L100v4_CPI12_7(%rip),%xmm3
	vpshufb	%xmm2,%xmm3,%xmm4
	vpsubb	%xmm0,%xmm4,%xmm0
	vpxor	%xmm2,%xmm0,%xmm0
	vmovd	-4(%rdi,%rsi),%xmm2
	vpaddb	%xmm1,%xmm2,%xmm1
	vpshufb	%xmm1,%xmm3,%xmm3
	vpsubb	%xmm2,%xmm3,%xmm2
	vpxor	%xmm1,%xmm2,%xmm1
	vpternlogd	$168,.L100v4_CPI12_15(%rip){1to4},%xmm0,%xmm1
	vmovd	%xmm1,%eax
	testl	%eax,%eax
	sete	%al
	.p2align	5,,1
	retq
10:
	vmovq	(%rdi),%xmm0
	vpbroadcastd	.L100v4_CPI12_14(%rip),%xmm1
	vpaddb	%xmm1,%xmm0,%xmm2
	vmovdqa	.L100v4_CPI12_7(%rip),%xmm3
	vpshufb	%xmm2,%xmm3,%xmm4
	vpsubb	%xmm0,%xmm4,%xmm0
	vpxor	%xmm2,%xmm0,%xmm0
	vmovq	-8(%rdi,%rsi),%xmm2
	vpaddb	%xmm1,%xmm2,%xmm1
	vpshufb	%xmm1,%xmm3,%xmm3
	vpsubb	%xmm2,%xmm3,%xmm2
	vpxor	%xmm1,%xmm2,%xmm1
	vpternlogd	$168,.L100v4_CPI12_15(%rip){1to4},%xmm0,%xmm1
	vmovq	%xmm1,%rax
	testq	%rax,%rax
	sete	%al
	.p2align	5,,1
	retq
	hex_end	faster_hex_1_0_0_x86_64_v4_check_upper
	hex_cfi	endproc
	hex_merged	64
	.p2align	6,0x0
.L100v4_CPI13_0:
	.zero	64,55
.L100v4_CPI13_1:
	.byte	16,17,18,0,0,0,0,0,0,0,117,116,123,118,121,120
	.byte	16,17,18,0,0,0,0,0,0,0,117,116,123,118,121,120
	.byte	16,17,18,0,0,0,0,0,0,0,117,116,123,118,121,120
	.byte	16,17,18,0,0,0,0,0,0,0,117,116,123,118,121,120
.L100v4_CPI13_2:
	.zero	64,32
.L100v4_CPI13_3:
	.zero	64,240
	hex_merged	32
	.p2align	5,0x0
.L100v4_CPI13_4:
	.zero	32,55
.L100v4_CPI13_5:
	.byte	16,17,18,0,0,0,0,0,0,0,117,116,123,118,121,120
	.byte	16,17,18,0,0,0,0,0,0,0,117,116,123,118,121,120
.L100v4_CPI13_6:
	.zero	32,32
	hex_merged	8
	.p2align	3,0x0
.L100v4_CPI13_7:
	.quad	-1085102592571150096
	hex_merged	16
	.p2align	4,0x0
.L100v4_CPI13_8:
	.zero	16,55
.L100v4_CPI13_9:
	.byte	16,17,18,0,0,0,0,0,0,0,117,116,123,118,121,120
.L100v4_CPI13_10:
	.zero	16,32
.L100v4_CPI13_11:
	.byte	1,3,5,7,9,11,13,15,0,0,0,0,0,0,0,0
.L100v4_CPI13_12:
	.byte	55,55,55,55,55,55,55,55,0,0,0,0,0,0,0,0
.L100v4_CPI13_13:
	.byte	32,32,32,32,32,32,32,32,0,0,0,0,0,0,0,0
.L100v4_CPI13_14:
	.byte	240,240,240,240,240,240,240,240,0,0,0,0,0,0,0,0
.L100v4_CPI13_15:
	.short	4097
	.short	4097
	.short	4097
	.short	4097
	.byte	0,0,0,0,0,0,0,0
.L100v4_CPI13_16:
	.byte	55,55,55,55,0,0,0,0,0,0,0,0,0,0,0,0
.L100v4_CPI13_17:
	.byte	32,32,32,32,0,0,0,0,0,0,0,0,0,0,0,0
.L100v4_CPI13_18:
	.byte	240,240,240,240,0,0,0,0,0,0,0,0,0,0,0,0
.L100v4_CPI13_19:
	.short	4097
	.short	4097
	.byte	0,0,0,0,0,0,0,0,0,0,0,0
	hex_merged	4
	.p2align	2,0x0
.L100v4_CPI13_20:
	.zero	4,32
.L100v4_CPI13_21:
	.zero	4,240
.L100v4_CPI13_22:
	.zero	4,55
	hex_export	faster_hex_1_0_0_x86_64_v4_decode
	hex_cfi	startproc
	endbr64
	.p2align	5,,10
	testb	$1,%sil
	jne	1f
	movq	%rsi,%rax
	shrq	%rax
	movl	$2,%r8d
	.p2align	5,,10
	cmpq	%rax,%rcx
	jb	31f
	.p2align	5,,13
	cmpq	$192,%rsi
	ja	30f
	.p2align	5,,10
	cmpq	$15,%rsi
	ja	15f
	.p2align	5,,10
	cmpq	$2,%rsi
	jae	7f
	xorl	%r8d,%r8d
	movq	%r8,%rdx
	.p2align	5,,1
	retq
1:
	movl	$1,%edx
	xorl	%eax,%eax
	.p2align	5,,1
	retq
15:
	.p2align	5,,10
	cmpq	$32,%rsi
	ja	21f
	.p2align	5,,6
	jne	19f
	vmovdqu	(%rdi),%ymm1
	vpsubusb	.L100v4_CPI13_4(%rip),%ymm1,%ymm0
	vbroadcasti128	.L100v4_CPI13_9(%rip),%ymm2
	vpshufb	%ymm0,%ymm2,%ymm2
	vpsubusb	%ymm0,%ymm2,%ymm0
	vpternlogd	$150,.L100v4_CPI13_20(%rip){1to8},%ymm1,%ymm0
	vpbroadcastq	.L100v4_CPI13_7(%rip),%ymm1
	vptest	%ymm1,%ymm0
	.p2align	5,,6
	jne	30f
	vpsllw	$12,%ymm0,%ymm1
	vpaddw	%ymm1,%ymm0,%ymm0
	vpsrlw	$8,%ymm0,%ymm0
	vpmovwb	%ymm0,(%rdx)
	movl	$16,%eax
	xorl	%r8d,%r8d
	movq	%r8,%rdx
	vzeroupper
	.p2align	5,,1
	retq
7:
	.p2align	5,,10
	cmpq	$3,%rsi
	ja	10f
	movzwl	(%rdi),%ecx
	vmovd	%ecx,%xmm0
	vpinsrw	$1,-2(%rdi,%rsi),%xmm0,%xmm1
	vpsubusb	.L100v4_CPI13_16(%rip),%xmm1,%xmm0
	vmovdqa	.L100v4_CPI13_9(%rip),%xmm2
	vpshufb	%xmm0,%xmm2,%xmm2
	vpsubusb	%xmm0,%xmm2,%xmm0
	vpternlogd	$150,.L100v4_CPI13_20(%rip){1to4},%xmm1,%xmm0
	vpandd	.L100v4_CPI13_21(%rip){1to4},%xmm0,%xmm1
	vmovd	%xmm1,%ecx
	.p2align	5,,10
	testl	%ecx,%ecx
	jne	30f
	vpmullw	.L100v4_CPI13_19(%rip),%xmm0,%xmm0
	vpextrb	$1,%xmm0,(%rdx)
	vpextrb	$3,%xmm0,-1(%rdx,%rax)
	xorl	%r8d,%r8d
	movq	%r8,%rdx
	.p2align	5,,1
	retq
21:
	.p2align	5,,10
	cmpq	$64,%rsi
	ja	24f
	vmovdqu	(%rdi),%ymm0
	vinserti64x4	$1,-32(%rdi,%rsi),%zmm0,%zmm1
	vpsubusb	.L100v4_CPI13_0(%rip),%zmm1,%zmm0
	vbroadcasti32x4	.L100v4_CPI13_9(%rip),%zmm2
	vpshufb	%zmm0,%zmm2,%zmm2
	vpsubusb	%zmm0,%zmm2,%zmm0
	vpternlogd	$150,.L100v4_CPI13_20(%rip){1to16},%zmm1,%zmm0
	vptestmd	.L100v4_CPI13_21(%rip){1to16},%zmm0,%k0
	kortestw	%k0,%k0
	.p2align	5,,6
	jne	30f
	vpsllw	$12,%zmm0,%zmm1
	vpaddw	%zmm1,%zmm0,%zmm0
	vpsrlw	$8,%zmm0,%zmm0
	vpmovwb	%zmm0,%ymm0
	vmovdqu	%xmm0,(%rdx)
	vextracti128	$1,%ymm0,-16(%rdx,%rax)
	xorl	%r8d,%r8d
	movq	%r8,%rdx
	vzeroupper
	.p2align	5,,1
	retq
19:
	vmovdqu	(%rdi),%xmm0
	vinserti128	$1,-16(%rdi,%rsi),%ymm0,%ymm1
	vpsubusb	.L100v4_CPI13_4(%rip),%ymm1,%ymm0
	vbroadcasti128	.L100v4_CPI13_9(%rip),%ymm2
	vpshufb	%ymm0,%ymm2,%ymm2
	vpsubusb	%ymm0,%ymm2,%ymm0
	vpternlogd	$150,.L100v4_CPI13_20(%rip){1to8},%ymm1,%ymm0
	vpbroadcastq	.L100v4_CPI13_7(%rip),%ymm1
	vptest	%ymm1,%ymm0
	.p2align	5,,6
	jne	30f
	vpsllw	$12,%ymm0,%ymm1
	vpaddw	%ymm1,%ymm0,%ymm0
	vpsrlw	$8,%ymm0,%ymm0
	vpmovwb	%ymm0,%xmm0
	vmovq	%xmm0,(%rdx)
	vpextrq	$1,%xmm0,-8(%rdx,%rax)
	xorl	%r8d,%r8d
	movq	%r8,%rdx
	vzeroupper
	.p2align	5,,1
	retq
10:
	.p2align	5,,10
	cmpq	$7,%rsi
	ja	13f
	vmovd	(%rdi),%xmm0
	vpinsrd	$1,-4(%rdi,%rsi),%xmm0,%xmm1
	vpsubusb	.L100v4_CPI13_12(%rip),%xmm1,%xmm0
	vmovdqa	.L100v4_CPI13_9(%rip),%xmm2
	vpshufb	%xmm0,%xmm2,%xmm2
	vpsubusb	%xmm0,%xmm2,%xmm0
	vpternlogd	$150,.L100v4_CPI13_20(%rip){1to4},%xmm1,%xmm0
	vpandd	.L100v4_CPI13_21(%rip){1to4},%xmm0,%xmm1
	vmovq	%xmm1,%rcx
	.p2align	5,,10
	testq	%rcx,%rcx
	jne	30f
	vpmullw	.L100v4_CPI13_15(%rip),%xmm0,%xmm0
	vpshufb	.L100v4_CPI13_11(%rip),%xmm0,%xmm0
	vpextrw	$0,%xmm0,(%rdx)
	vpextrw	$1,%xmm0,-2(%rdx,%rax)
	xorl	%r8d,%r8d
	movq	%r8,%rdx
	.p2align	5,,1
	retq
24:
	vmovdqu64	(%rdi),%zmm2
	vpsubusb	.L100v4_CPI13_0(%rip),%zmm2,%zmm0
	vbroadcasti32x4	.L100v4_CPI13_9(%rip),%zmm1
	vpshufb	%zmm0,%zmm1,%zmm3
	vpsubusb	%zmm0,%zmm3,%zmm0
	vpternlogd	$150,.L100v4_CPI13_20(%rip){1to16},%zmm2,%zmm0
	.p2align	5,,13
	cmpq	$128,%rsi
	ja	28f
	vmovdqu64	-64(%rdi,%rsi),%zmm2
	vpsubusb	.L100v4_CPI13_0(%rip),%zmm2,%zmm3
	vpshufb	%zmm3,%zmm1,%zmm1
	vpsubusb	%zmm3,%zmm1,%zmm1
	vpternlogd	$150,.L100v4_CPI13_20(%rip){1to16},%zmm2,%zmm1
	vporq	%zmm0,%zmm1,%zmm2
	vptestmd	.L100v4_CPI13_21(%rip){1to16},%zmm2,%k0
	kortestw	%k0,%k0
	.p2align	5,,6
	jne	30f
	vpsllw	$12,%zmm0,%zmm2
	vpaddw	%zmm2,%zmm0,%zmm0
	vpsrlw	$8,%zmm0,%zmm0
	vpmovwb	%zmm0,(%rdx)
	.p2align	5,,6
	jmp	27f
13:
	vmovq	-8(%rdi,%rsi),%xmm0
	vmovq	(%rdi),%xmm1
	vpunpcklqdq	%xmm0,%xmm1,%xmm1
	vpsubusb	.L100v4_CPI13_8(%rip),%xmm1,%xmm0
	vmovdqa	.L100v4_CPI13_9(%rip),%xmm2
	vpshufb	%xmm0,%xmm2,%xmm2
	vpsubusb	%xmm0,%xmm2,%xmm0
	vpternlogd	$150,.L100v4_CPI13_20(%rip){1to4},%xmm1,%xmm0
	vpbroadcastq	.L100v4_CPI13_7(%rip),%xmm1
	vptest	%xmm1,%xmm0
	.p2align	5,,6
	jne	30f
	vpsllw	$12,%xmm0,%xmm1
	vpaddw	%xmm1,%xmm0,%xmm0
	vpshufb	.L100v4_CPI13_11(%rip),%xmm0,%xmm0
	vmovd	%xmm0,(%rdx)
	vpextrd	$1,%xmm0,-4(%rdx,%rax)
	xorl	%r8d,%r8d
	movq	%r8,%rdx
	.p2align	5,,1
	retq
28:
	vmovdqu64	64(%rdi),%zmm3
	vpbroadcastd	.L100v4_CPI13_22(%rip),%zmm4
	vpsubusb	%zmm4,%zmm3,%zmm2
	vpshufb	%zmm2,%zmm1,%zmm5
	vpbroadcastd	.L100v4_CPI13_20(%rip),%zmm6
	vpsubusb	%zmm2,%zmm5,%zmm2
	vpternlogq	$150,%zmm3,%zmm6,%zmm2
	vmovdqu64	-64(%rdi,%rsi),%zmm3
	vpsubusb	%zmm4,%zmm3,%zmm4
	vpshufb	%zmm4,%zmm1,%zmm1
	vpsubusb	%zmm4,%zmm1,%zmm1
	vpternlogq	$150,%zmm6,%zmm3,%zmm1
	vmovdqa64	%zmm1,%zmm3
	vpternlogq	$254,%zmm0,%zmm2,%zmm3
	vptestmd	.L100v4_CPI13_21(%rip){1to16},%zmm3,%k0
	kortestw	%k0,%k0
	.p2align	5,,6
	je	29f
30:
	pushq	%rax
	hex_cfi	def_cfa_offset 16
	movq	%rax,%rcx
	xorl	%r8d,%r8d
	vzeroupper
	.p2align	5,,5
	callq	faster_hex_1_0_0_x86_64_v4_core_backend_Backend_decode_or_find_outlined
	xorl	%ecx,%ecx
	testw	%dx,%dx
	setne	%cl
	shll	$8,%edx
	movzwl	%dx,%edx
	leaq	(%rcx,%rcx,2),%r8
	orq	%rdx,%r8
	addq	$8,%rsp
	hex_cfi	def_cfa_offset 8
31:
	movq	%r8,%rdx
	.p2align	5,,1
	retq
29:
	vpsllw	$12,%zmm0,%zmm3
	vpaddw	%zmm3,%zmm0,%zmm0
	vpsrlw	$8,%zmm0,%zmm0
	vpmovwb	%zmm0,(%rdx)
	vpsllw	$12,%zmm2,%zmm0
	vpaddw	%zmm0,%zmm2,%zmm0
	vpsrlw	$8,%zmm0,%zmm0
	vpmovwb	%zmm0,32(%rdx)
27:
	vpsllw	$12,%zmm1,%zmm0
	vpaddw	%zmm0,%zmm1,%zmm0
	vpsrlw	$8,%zmm0,%zmm0
	vpmovwb	%zmm0,-32(%rdx,%rax)
	xorl	%r8d,%r8d
	movq	%r8,%rdx
	vzeroupper
	.p2align	5,,1
	retq
	hex_end	faster_hex_1_0_0_x86_64_v4_decode
	hex_cfi	endproc
	hex_merged	64
	.p2align	6,0x0
.L100v4_CPI14_0:
	.zero	64,57
	hex_merged	32
	.p2align	5,0x0
.L100v4_CPI14_1:
	.zero	32,57
	hex_merged	16
	.p2align	4,0x0
.L100v4_CPI14_2:
	.zero	16,57
.L100v4_CPI14_3:
	.byte	57,57,57,57,57,57,57,57,0,0,0,0,0,0,0,0
.L100v4_CPI14_4:
	.byte	57,57,57,57,0,0,0,0,0,0,0,0,0,0,0,0
.L100v4_CPI14_5:
	.byte	57,57,0,0,0,0,0,0,0,0,0,0,0,0,0,0
	hex_merged	4
	.p2align	2,0x0
.L100v4_CPI14_6:
	.zero	4,57
	hex_export	faster_hex_1_0_0_x86_64_v4_check_with_case
	hex_cfi	startproc
	endbr64
	.p2align	5,,10
	cmpb	$2,%dl
	ja	1f
	.p2align	5,,10
	cmpq	$32,%rsi
	ja	14f
	.p2align	5,,10
	cmpq	$15,%rsi
	ja	13f
	.p2align	5,,10
	testq	%rsi,%rsi
	je	5f
	.p2align	5,,10
	cmpq	$1,%rsi
	jne	8f
	movzbl	(%rdi),%eax
	leal	-48(%rax),%ecx
	xorl	%esi,%esi
	subb	$9,%cl
	movzbl	%cl,%ecx
	cmovbl	%esi,%ecx
	movzbl	%dl,%edx
	leaq	.L100v4_static.0(%rip),%rdi
	orb	(%rdx,%rdi),%al
	leaq	.L100v4_static.1(%rip),%rdi
	subb	(%rdx,%rdi),%al
	subb	$5,%al
	movzbl	%al,%eax
	cmovbl	%esi,%eax
	cmpb	%al,%cl
	cmovbl	%ecx,%eax
	testb	%al,%al
	sete	%al
	.p2align	5,,1
	retq
1:
	xorl	%eax,%eax
	.p2align	5,,1
	retq
14:
	.p2align	5,,13
	cmpq	$256,%rsi
	ja	23f
	.p2align	5,,10
	cmpq	$64,%rsi
	ja	17f
	vmovdqu	(%rdi),%ymm0
	vpbroadcastd	.L100v4_CPI14_6(%rip),%ymm1
	vpaddb	%ymm1,%ymm0,%ymm2
	movzbl	%dl,%eax
	leaq	.L100v4_static.3(%rip),%rcx
	vpbroadcastb	(%rax,%rcx),%ymm3
	shll	$4,%eax
	leaq	.L100v4_static.2(%rip),%rcx
	vbroadcasti128	(%rax,%rcx),%ymm4
	vpshufb	%ymm2,%ymm4,%ymm5
	vpsubb	%ymm0,%ymm5,%ymm0
	vmovdqu	-32(%rdi,%rsi),%ymm5
	vpaddb	%ymm1,%ymm5,%ymm1
	vpshufb	%ymm1,%ymm4,%ymm4
	vpsubb	%ymm5,%ymm4,%ymm4
	vpxor	%ymm1,%ymm4,%ymm1
	vpternlogq	$246,%ymm2,%ymm0,%ymm1
	vptest	%ymm3,%ymm1
	sete	%al
	vzeroupper
	.p2align	5,,1
	retq
13:
	vmovdqu	(%rdi),%xmm0
	vpbroadcastd	.L100v4_CPI14_6(%rip),%xmm1
	vpaddb	%xmm1,%xmm0,%xmm2
	movzbl	%dl,%eax
	leaq	.L100v4_static.3(%rip),%rcx
	vpbroadcastb	(%rax,%rcx),%xmm3
	shll	$4,%eax
	leaq	.L100v4_static.2(%rip),%rcx
	vmovdqu	(%rax,%rcx),%xmm4
	vpshufb	%xmm2,%xmm4,%xmm5
	vpsubb	%xmm0,%xmm5,%xmm0
	vmovdqu	-16(%rdi,%rsi),%xmm5
	vpaddb	%xmm1,%xmm5,%xmm1
	vpshufb	%xmm1,%xmm4,%xmm4
	vpsubb	%xmm5,%xmm4,%xmm4
	vpxor	%xmm1,%xmm4,%xmm1
	vpternlogq	$246,%xmm2,%xmm0,%xmm1
	vptest	%xmm3,%xmm1
	sete	%al
	.p2align	5,,1
	retq
23:
	pushq	%rax
	hex_cfi	def_cfa_offset 16
	movzbl	%dl,%edx
	.p2align	5,,5
	callq	faster_hex_1_0_0_x86_64_v4_core_plain_check_wide_outlined
	addq	$8,%rsp
	hex_cfi	def_cfa_offset 8
	.p2align	5,,1
	retq
17:
	movzbl	%dl,%eax
	movl	%eax,%ecx
	shll	$4,%ecx
	vmovdqu64	(%rdi),%zmm0
	vpaddb	.L100v4_CPI14_0(%rip),%zmm0,%zmm2
	leaq	.L100v4_static.2(%rip),%rdx
	vbroadcasti32x4	(%rcx,%rdx),%zmm1
	vpshufb	%zmm2,%zmm1,%zmm3
	vpsubb	%zmm0,%zmm3,%zmm0
	vpxorq	%zmm2,%zmm0,%zmm0
	.p2align	5,,13
	cmpq	$128,%rsi
	ja	19f
	vmovdqu64	-64(%rdi,%rsi),%zmm2
	vpaddb	.L100v4_CPI14_0(%rip),%zmm2,%zmm3
	vshufi64x2	$0,%zmm1,%zmm1,%zmm1
	vpshufb	%zmm3,%zmm1,%zmm1
	vpsubb	%zmm2,%zmm1,%zmm1
	vpternlogq	$246,%zmm3,%zmm1,%zmm0
	leaq	.L100v4_static.3(%rip),%rcx
	vpbroadcastb	(%rax,%rcx),%zmm1
	vptestmd	%zmm1,%zmm0,%k0
	kortestw	%k0,%k0
	sete	%al
	vzeroupper
	.p2align	5,,1
	retq
5:
	movb	$1,%al
	.p2align	5,,1
	retq
8:
	.p2align	5,,10
	cmpq	$3,%rsi
	ja	10f
	movzwl	(%rdi),%eax
	vmovd	%eax,%xmm0
	vpbroadcastd	.L100v4_CPI14_6(%rip),%xmm1
	movzbl	%dl,%eax
	leaq	.L100v4_static.3(%rip),%rcx
	vpbroadcastb	(%rax,%rcx),%xmm2
	vpaddb	%xmm1,%xmm0,%xmm3
	shll	$4,%eax
	leaq	.L100v4_static.2(%rip),%rcx
	vmovdqu	(%rax,%rcx),%xmm4
	vpshufb	%xmm3,%xmm4,%xmm5
	vpsubb	%xmm0,%xmm5,%xmm0
	vpxor	%xmm3,%xmm0,%xmm0
	movzwl	-2(%rdi,%rsi),%eax
	vmovd	%eax,%xmm3
	vpaddb	%xmm1,%xmm3,%xmm1
	vpshufb	%xmm1,%xmm4,%xmm4
	vpsubb	%xmm3,%xmm4,%xmm3
	vpxor	%xmm1,%xmm3,%xmm1
	vpternlogq	$224,%xmm0,%xmm1,%xmm2
	vmovd	%xmm2,%eax
	testw	%ax,%ax
	sete	%al
	.p2align	5,,1
	retq
19:
	vmovdqu64	64(%rdi),%zmm2
	vpbroadcastd	.L100v4_CPI14_6(%rip),%zmm3
	vpaddb	%zmm3,%zmm2,%zmm4
	vshufi64x2	$0,%zmm1,%zmm1,%zmm5
	vpshufb	%zmm4,%zmm5,%zmm6
	vpsubb	%zmm2,%zmm6,%zmm6
	vmovdqu64	-64(%rdi,%rsi),%zmm2
	vpaddb	%zmm3,%zmm2,%zmm3
	vpshufb	%zmm3,%zmm5,%zmm5
	vpsubb	%zmm2,%zmm5,%zmm2
	vpxorq	%zmm3,%zmm2,%zmm2
	vpternlogq	$246,%zmm4,%zmm6,%zmm0
	.p2align	5,,13
	cmpq	$193,%rsi
	jb	21f
	vmovdqu64	-128(%rdi,%rsi),%zmm3
	vpaddb	.L100v4_CPI14_0(%rip),%zmm3,%zmm4
	vshufi64x2	$0,%zmm1,%zmm1,%zmm1
	vpshufb	%zmm4,%zmm1,%zmm1
	vpsubb	%zmm3,%zmm1,%zmm1
	vpternlogq	$246,%zmm4,%zmm1,%zmm0
21:
	vporq	%zmm2,%zmm0,%zmm0
	leaq	.L100v4_static.3(%rip),%rcx
	vpbroadcastb	(%rax,%rcx),%zmm1
	vptestmd	%zmm0,%zmm1,%k0
	kortestw	%k0,%k0
	sete	%al
	vzeroupper
	.p2align	5,,1
	retq
10:
	movzbl	%dl,%ecx
	leaq	.L100v4_static.3(%rip),%rax
	movzbl	(%rcx,%rax),%eax
	shll	$4,%ecx
	leaq	.L100v4_static.2(%rip),%rdx
	vmovdqu	(%rcx,%rdx),%xmm0
	.p2align	5,,10
	cmpq	$7,%rsi
	ja	12f
	vmovd	(%rdi),%xmm1
	vpbroadcastd	.L100v4_CPI14_6(%rip),%xmm2
	vpaddb	%xmm2,%xmm1,%xmm3
	vpshufb	%xmm3,%xmm0,%xmm4
	vpsubb	%xmm1,%xmm4,%xmm1
	vpxor	%xmm3,%xmm1,%xmm1
	vmovd	-4(%rdi,%rsi),%xmm3
	vpaddb	%xmm2,%xmm3,%xmm2
	vpshufb	%xmm2,%xmm0,%xmm0
	vpsubb	%xmm3,%xmm0,%xmm0
	vpxor	%xmm2,%xmm0,%xmm0
	vpbroadcastb	%eax,%xmm2
	vpternlogq	$224,%xmm1,%xmm0,%xmm2
	vmovd	%xmm2,%eax
	testl	%eax,%eax
	sete	%al
	.p2align	5,,1
	retq
12:
	vmovq	(%rdi),%xmm1
	vpbroadcastd	.L100v4_CPI14_6(%rip),%xmm2
	vpaddb	%xmm2,%xmm1,%xmm3
	vpshufb	%xmm3,%xmm0,%xmm4
	vpsubb	%xmm1,%xmm4,%xmm1
	vpxor	%xmm3,%xmm1,%xmm1
	vmovq	-8(%rdi,%rsi),%xmm3
	vpaddb	%xmm2,%xmm3,%xmm2
	vpshufb	%xmm2,%xmm0,%xmm0
	vpsubb	%xmm3,%xmm0,%xmm0
	vpxor	%xmm2,%xmm0,%xmm0
	vpbroadcastb	%eax,%xmm2
	vpternlogq	$224,%xmm1,%xmm0,%xmm2
	vmovq	%xmm2,%rax
	testq	%rax,%rax
	sete	%al
	.p2align	5,,1
	retq
	hex_end	faster_hex_1_0_0_x86_64_v4_check_with_case
	hex_cfi	endproc
	hex_export	faster_hex_1_0_0_x86_64_v4_decode_spaced
	hex_cfi	startproc
	endbr64
	pushq	%rbp
	hex_cfi	def_cfa_offset 16
	pushq	%r15
	hex_cfi	def_cfa_offset 24
	pushq	%r14
	hex_cfi	def_cfa_offset 32
	pushq	%r13
	hex_cfi	def_cfa_offset 40
	pushq	%r12
	hex_cfi	def_cfa_offset 48
	pushq	%rbx
	hex_cfi	def_cfa_offset 56
	subq	$56,%rsp
	hex_cfi	def_cfa_offset 112
	hex_cfi	offset %rbx,-56
	hex_cfi	offset %r12,-48
	hex_cfi	offset %r13,-40
	hex_cfi	offset %r14,-32
	hex_cfi	offset %r15,-24
	hex_cfi	offset %rbp,-16
	movl	%r8d,%ebp
	.p2align	5,,10
	cmpb	$2,%bpl
	ja	6f
	movq	%rcx,%r12
	movq	%rsi,%rbx
	movq	%rdi,%r14
	movq	%rdx,24(%rsp)
	vxorps	%xmm0,%xmm0,%xmm0
	vmovaps	%xmm0,(%rsp)
	movq	$0,16(%rsp)
	.p2align	5,,5
	callq	faster_hex_1_0_0_x86_64_v4_codec_spaced_run_len
	movq	%rax,%r13
	andq	$-2,%r13
	.p2align	5,,10
	cmpq	%r13,%rbx
	jbe	7f
	movzbl	(%r14,%r13),%ecx
	xorl	%r15d,%r15d
	.p2align	5,,10
	cmpq	$32,%rcx
	ja	8f
	movabsq	$4294981120,%rdx
	btq	%rcx,%rdx
	.p2align	5,,6
	jae	8f
	orq	$1,%rax
	movl	$1,%r15d
	.p2align	5,,10
	cmpq	%rax,%rbx
	jbe	8f
	movzbl	(%r14,%rax),%eax
	leal	-9(%rax),%ecx
	cmpb	$2,%cl
	setb	%cl
	movl	%eax,%edx
	andb	$-2,%dl
	cmpb	$12,%dl
	sete	%dl
	cmpb	$32,%al
	sete	%al
	orb	%dl,%al
	orb	%cl,%al
	movzbl	%al,%r15d
	incq	%r15
	.p2align	5,,6
	jmp	8f
6:
	movl	$5,%edx
	.p2align	5,,6
	jmp	20f
7:
	xorl	%r15d,%r15d
8:
	movzbl	%bpl,%ebp
	movq	%r14,%rdi
	movq	%rbx,%rsi
	movq	%r13,%rdx
	movq	%r15,%rcx
	movl	%ebp,%r8d
	.p2align	5,,5
	callq	faster_hex_1_0_0_x86_64_v4_codec_spaced_line_count
	movq	%r13,32(%rsp)
	movq	%r15,40(%rsp)
	movq	%rax,48(%rsp)
	leaq	32(%rsp),%rdx
	movq	%r14,%rdi
	movq	%rbx,%rsi
	movl	%ebp,%ecx
	.p2align	5,,5
	callq	faster_hex_1_0_0_x86_64_v4_codec_spaced_survey
	.p2align	5,,10
	testb	$1,%al
	jne	19f
	shrq	%rax
	.p2align	5,,10
	cmpq	%rax,%r12
	jae	11f
10:
	movl	$2,%edx
	.p2align	5,,6
	jmp	21f
11:
	.p2align	5,,10
	cmpb	$1,%dl
	jne	13f
	leaq	32(%rsp),%r8
	movq	%r14,%rdi
	movq	%rbx,%rsi
	movq	24(%rsp),%rdx
	movq	%rax,%rcx
	movl	%ebp,%r9d
	movq	%rax,%rbx
	.p2align	5,,5
	callq	faster_hex_1_0_0_x86_64_v4_codec_spaced_decode_runs
	movq	%rbx,%rax
	xorl	%edx,%edx
	.p2align	5,,6
	jmp	21f
13:
	movq	%rsp,%rdi
	movq	%r14,%rsi
	movq	%rbx,%rdx
	movl	%ebp,%ecx
	.p2align	5,,5
	callq	faster_hex_1_0_0_x86_64_v4_codec_spaced_invalid_error
	movzbl	(%rsp),%ecx
	.p2align	5,,10
	cmpl	$2,%ecx
	jg	17f
	movq	8(%rsp),%rax
	.p2align	5,,10
	testl	%ecx,%ecx
	je	22f
	.p2align	5,,10
	cmpl	$1,%ecx
	je	10b
	.p2align	5,,6
	jmp	18f
17:
	addl	$-4,%ecx
	.p2align	5,,10
	cmpl	$2,%ecx
	jae	19f
18:
	movl	$4,%edx
	.p2align	5,,6
	jmp	20f
19:
	movl	$1,%edx
20:
	xorl	%eax,%eax
21:
	addq	$56,%rsp
	hex_cfi	def_cfa_offset 56
	popq	%rbx
	hex_cfi	def_cfa_offset 48
	popq	%r12
	hex_cfi	def_cfa_offset 40
	popq	%r13
	hex_cfi	def_cfa_offset 32
	popq	%r14
	hex_cfi	def_cfa_offset 24
	popq	%r15
	hex_cfi	def_cfa_offset 16
	popq	%rbp
	hex_cfi	def_cfa_offset 8
	.p2align	5,,1
	retq
22:
	hex_cfi	def_cfa_offset 112
	movq	16(%rsp),%rcx
	shll	$8,%ecx
	movzwl	%cx,%edx
	orq	$3,%rdx
	.p2align	5,,6
	jmp	21b
	hex_end	faster_hex_1_0_0_x86_64_v4_decode_spaced
	hex_cfi	endproc
	hex_merged	64
	.p2align	6,0x0
.L100v4_CPI16_0:
	.zero	64,55
.L100v4_CPI16_1:
	.zero	64,240
	hex_merged	32
	.p2align	5,0x0
.L100v4_CPI16_2:
	.zero	32,55
	hex_merged	8
	.p2align	3,0x0
.L100v4_CPI16_3:
	.quad	-1085102592571150096
	hex_merged	16
	.p2align	4,0x0
.L100v4_CPI16_4:
	.zero	16,55
.L100v4_CPI16_5:
	.byte	1,3,5,7,9,11,13,15,0,0,0,0,0,0,0,0
.L100v4_CPI16_6:
	.byte	55,55,55,55,55,55,55,55,0,0,0,0,0,0,0,0
.L100v4_CPI16_7:
	.byte	240,240,240,240,240,240,240,240,0,0,0,0,0,0,0,0
.L100v4_CPI16_8:
	.short	4097
	.short	4097
	.short	4097
	.short	4097
	.byte	0,0,0,0,0,0,0,0
.L100v4_CPI16_9:
	.byte	55,55,55,55,0,0,0,0,0,0,0,0,0,0,0,0
.L100v4_CPI16_10:
	.byte	240,240,240,240,0,0,0,0,0,0,0,0,0,0,0,0
.L100v4_CPI16_11:
	.short	4097
	.short	4097
	.byte	0,0,0,0,0,0,0,0,0,0,0,0
	hex_merged	4
	.p2align	2,0x0
.L100v4_CPI16_12:
	.zero	4,240
.L100v4_CPI16_13:
	.zero	4,55
	hex_export	faster_hex_1_0_0_x86_64_v4_decode_with_case
	hex_cfi	startproc
	endbr64
	.p2align	5,,10
	cmpb	$2,%r8b
	ja	1f
	.p2align	5,,10
	testb	$1,%sil
	jne	3f
	movq	%rsi,%rax
	shrq	%rax
	.p2align	5,,10
	cmpq	%rax,%rcx
	jae	6f
	movl	$2,%edx
	.p2align	5,,1
	retq
1:
	movl	$5,%edx
	xorl	%eax,%eax
	.p2align	5,,1
	retq
3:
	movl	$1,%edx
	xorl	%eax,%eax
	.p2align	5,,1
	retq
6:
	.p2align	5,,13
	cmpq	$192,%rsi
	ja	33f
	.p2align	5,,10
	cmpq	$15,%rsi
	ja	18f
	.p2align	5,,10
	cmpq	$2,%rsi
	jae	10f
	xorl	%edx,%edx
	.p2align	5,,1
	retq
18:
	.p2align	5,,10
	cmpq	$32,%rsi
	ja	24f
	.p2align	5,,6
	jne	22f
	vmovdqu	(%rdi),%ymm1
	vpsubusb	.L100v4_CPI16_2(%rip),%ymm1,%ymm2
	movzbl	%r8b,%ecx
	leaq	.L100v4_static.0(%rip),%r9
	vpbroadcastb	(%rcx,%r9),%ymm0
	shll	$4,%ecx
	leaq	.L100v4_static.9(%rip),%r9
	vbroadcasti128	(%rcx,%r9),%ymm3
	vpshufb	%ymm2,%ymm3,%ymm3
	vpsubusb	%ymm2,%ymm3,%ymm2
	vpternlogq	$150,%ymm2,%ymm1,%ymm0
	vpbroadcastq	.L100v4_CPI16_3(%rip),%ymm1
	vptest	%ymm1,%ymm0
	.p2align	5,,6
	jne	33f
	vpsllw	$12,%ymm0,%ymm1
	vpaddw	%ymm1,%ymm0,%ymm0
	vpsrlw	$8,%ymm0,%ymm0
	vpmovwb	%ymm0,(%rdx)
	movl	$16,%eax
	xorl	%edx,%edx
	vzeroupper
	.p2align	5,,1
	retq
10:
	.p2align	5,,10
	cmpq	$3,%rsi
	ja	13f
	movzwl	(%rdi),%ecx
	vmovd	%ecx,%xmm0
	vpinsrw	$1,-2(%rdi,%rsi),%xmm0,%xmm1
	vpsubusb	.L100v4_CPI16_9(%rip),%xmm1,%xmm2
	movzbl	%r8b,%ecx
	leaq	.L100v4_static.0(%rip),%r9
	vpbroadcastb	(%rcx,%r9),%xmm0
	shll	$4,%ecx
	leaq	.L100v4_static.9(%rip),%r9
	vmovdqu	(%rcx,%r9),%xmm3
	vpshufb	%xmm2,%xmm3,%xmm3
	vpsubusb	%xmm2,%xmm3,%xmm2
	vpternlogq	$150,%xmm2,%xmm1,%xmm0
	vpandd	.L100v4_CPI16_12(%rip){1to4},%xmm0,%xmm1
	vmovd	%xmm1,%ecx
	.p2align	5,,10
	testl	%ecx,%ecx
	jne	33f
	vpmullw	.L100v4_CPI16_11(%rip),%xmm0,%xmm0
	vpextrb	$1,%xmm0,(%rdx)
	vpextrb	$3,%xmm0,-1(%rdx,%rax)
	xorl	%edx,%edx
	.p2align	5,,1
	retq
24:
	.p2align	5,,10
	cmpq	$64,%rsi
	ja	27f
	vmovdqu	(%rdi),%ymm0
	vinserti64x4	$1,-32(%rdi,%rsi),%zmm0,%zmm1
	vpsubusb	.L100v4_CPI16_0(%rip),%zmm1,%zmm2
	movzbl	%r8b,%ecx
	leaq	.L100v4_static.0(%rip),%r9
	vpbroadcastb	(%rcx,%r9),%zmm0
	shll	$4,%ecx
	leaq	.L100v4_static.9(%rip),%r9
	vbroadcasti32x4	(%rcx,%r9),%zmm3
	vpshufb	%zmm2,%zmm3,%zmm3
	vpsubusb	%zmm2,%zmm3,%zmm2
	vpternlogq	$150,%zmm2,%zmm1,%zmm0
	vptestmd	.L100v4_CPI16_12(%rip){1to16},%zmm0,%k0
	kortestw	%k0,%k0
	.p2align	5,,6
	jne	33f
	vpsllw	$12,%zmm0,%zmm1
	vpaddw	%zmm1,%zmm0,%zmm0
	vpsrlw	$8,%zmm0,%zmm0
	vpmovwb	%zmm0,%ymm0
	vmovdqu	%xmm0,(%rdx)
	vextracti128	$1,%ymm0,-16(%rdx,%rax)
	xorl	%edx,%edx
	vzeroupper
	.p2align	5,,1
	retq
22:
	vmovdqu	(%rdi),%xmm0
	vinserti128	$1,-16(%rdi,%rsi),%ymm0,%ymm1
	vpsubusb	.L100v4_CPI16_2(%rip),%ymm1,%ymm2
	movzbl	%r8b,%ecx
	leaq	.L100v4_static.0(%rip),%r9
	vpbroadcastb	(%rcx,%r9),%ymm0
	shll	$4,%ecx
	leaq	.L100v4_static.9(%rip),%r9
	vbroadcasti128	(%rcx,%r9),%ymm3
	vpshufb	%ymm2,%ymm3,%ymm3
	vpsubusb	%ymm2,%ymm3,%ymm2
	vpternlogq	$150,%ymm2,%ymm1,%ymm0
	vpbroadcastq	.L100v4_CPI16_3(%rip),%ymm1
	vptest	%ymm1,%ymm0
	.p2align	5,,6
	jne	33f
	vpsllw	$12,%ymm0,%ymm1
	vpaddw	%ymm1,%ymm0,%ymm0
	vpsrlw	$8,%ymm0,%ymm0
	vpmovwb	%ymm0,%xmm0
	vmovq	%xmm0,(%rdx)
	vpextrq	$1,%xmm0,-8(%rdx,%rax)
	xorl	%edx,%edx
	vzeroupper
	.p2align	5,,1
	retq
13:
	movzbl	%r8b,%ecx
	movl	%ecx,%r9d
	shll	$4,%r9d
	leaq	.L100v4_static.9(%rip),%r10
	vmovdqu	(%r9,%r10),%xmm0
	.p2align	5,,10
	cmpq	$7,%rsi
	ja	16f
	vmovd	(%rdi),%xmm1
	vpinsrd	$1,-4(%rdi,%rsi),%xmm1,%xmm1
	vpsubusb	.L100v4_CPI16_6(%rip),%xmm1,%xmm2
	vpshufb	%xmm2,%xmm0,%xmm3
	leaq	.L100v4_static.0(%rip),%r9
	vpbroadcastb	(%rcx,%r9),%xmm0
	vpsubusb	%xmm2,%xmm3,%xmm2
	vpternlogq	$150,%xmm2,%xmm1,%xmm0
	vpandd	.L100v4_CPI16_12(%rip){1to4},%xmm0,%xmm1
	vmovq	%xmm1,%rcx
	.p2align	5,,10
	testq	%rcx,%rcx
	jne	33f
	vpmullw	.L100v4_CPI16_8(%rip),%xmm0,%xmm0
	vpshufb	.L100v4_CPI16_5(%rip),%xmm0,%xmm0
	vpextrw	$0,%xmm0,(%rdx)
	vpextrw	$1,%xmm0,-2(%rdx,%rax)
	xorl	%edx,%edx
	.p2align	5,,1
	retq
27:
	movzbl	%r8b,%ecx
	leaq	.L100v4_static.0(%rip),%r9
	vpbroadcastb	(%rcx,%r9),%zmm0
	shll	$4,%ecx
	vmovdqu64	(%rdi),%zmm3
	vpsubusb	.L100v4_CPI16_0(%rip),%zmm3,%zmm1
	leaq	.L100v4_static.9(%rip),%r9
	vbroadcasti32x4	(%rcx,%r9),%zmm2
	vpshufb	%zmm1,%zmm2,%zmm4
	vpsubusb	%zmm1,%zmm4,%zmm1
	vpternlogq	$150,%zmm3,%zmm0,%zmm1
	.p2align	5,,13
	cmpq	$128,%rsi
	ja	31f
	vmovdqu64	-64(%rdi,%rsi),%zmm3
	vpsubusb	.L100v4_CPI16_0(%rip),%zmm3,%zmm4
	vshufi64x2	$0,%zmm2,%zmm2,%zmm2
	vpshufb	%zmm4,%zmm2,%zmm2
	vpsubusb	%zmm4,%zmm2,%zmm2
	vpternlogq	$150,%zmm2,%zmm3,%zmm0
	vporq	%zmm1,%zmm0,%zmm2
	vptestmd	.L100v4_CPI16_12(%rip){1to16},%zmm2,%k0
	kortestw	%k0,%k0
	.p2align	5,,6
	jne	33f
	vpsllw	$12,%zmm1,%zmm2
	vpaddw	%zmm2,%zmm1,%zmm1
	vpsrlw	$8,%zmm1,%zmm1
	vpmovwb	%zmm1,(%rdx)
	vpsllw	$12,%zmm0,%zmm1
	vpaddw	%zmm1,%zmm0,%zmm0
	vpsrlw	$8,%zmm0,%zmm0
	vpmovwb	%zmm0,-32(%rdx,%rax)
	xorl	%edx,%edx
	vzeroupper
	.p2align	5,,1
	retq
16:
	vmovq	-8(%rdi,%rsi),%xmm1
	vmovq	(%rdi),%xmm2
	vpunpcklqdq	%xmm1,%xmm2,%xmm1
	vpsubusb	.L100v4_CPI16_4(%rip),%xmm1,%xmm2
	vpshufb	%xmm2,%xmm0,%xmm3
	leaq	.L100v4_static.0(%rip),%r9
	vpbroadcastb	(%rcx,%r9),%xmm0
	vpsubusb	%xmm2,%xmm3,%xmm2
	vpternlogq	$150,%xmm2,%xmm1,%xmm0
	vpbroadcastq	.L100v4_CPI16_3(%rip),%xmm1
	vptest	%xmm1,%xmm0
	.p2align	5,,6
	jne	33f
	vpsllw	$12,%xmm0,%xmm1
	vpaddw	%xmm1,%xmm0,%xmm0
	vpshufb	.L100v4_CPI16_5(%rip),%xmm0,%xmm0
	vmovd	%xmm0,(%rdx)
	vpextrd	$1,%xmm0,-4(%rdx,%rax)
	xorl	%edx,%edx
	.p2align	5,,1
	retq
31:
	vmovdqu64	64(%rdi),%zmm3
	vpbroadcastd	.L100v4_CPI16_13(%rip),%zmm4
	vpsubusb	%zmm4,%zmm3,%zmm5
	vshufi64x2	$0,%zmm2,%zmm2,%zmm6
	vpshufb	%zmm5,%zmm6,%zmm2
	vpsubusb	%zmm5,%zmm2,%zmm2
	vpternlogq	$150,%zmm3,%zmm0,%zmm2
	vmovdqu64	-64(%rdi,%rsi),%zmm5
	vpsubusb	%zmm4,%zmm5,%zmm3
	vpshufb	%zmm3,%zmm6,%zmm4
	vpsubusb	%zmm3,%zmm4,%zmm3
	vpternlogq	$150,%zmm5,%zmm0,%zmm3
	vmovdqa64	%zmm3,%zmm0
	vpternlogq	$254,%zmm1,%zmm2,%zmm0
	vptestmd	.L100v4_CPI16_12(%rip){1to16},%zmm0,%k0
	kortestw	%k0,%k0
	.p2align	5,,6
	je	32f
33:
	pushq	%rax
	hex_cfi	def_cfa_offset 16
	movzbl	%r8b,%r8d
	movq	%rax,%rcx
	vzeroupper
	.p2align	5,,5
	callq	faster_hex_1_0_0_x86_64_v4_core_backend_Backend_decode_or_find_outlined
	xorl	%ecx,%ecx
	testw	%dx,%dx
	setne	%cl
	shll	$8,%edx
	movzwl	%dx,%esi
	leaq	(%rcx,%rcx,2),%rdx
	orq	%rsi,%rdx
	addq	$8,%rsp
	hex_cfi	def_cfa_offset 8
	.p2align	5,,1
	retq
32:
	vpsllw	$12,%zmm1,%zmm0
	vpaddw	%zmm0,%zmm1,%zmm0
	vpsrlw	$8,%zmm0,%zmm0
	vpmovwb	%zmm0,(%rdx)
	vpsllw	$12,%zmm2,%zmm0
	vpaddw	%zmm0,%zmm2,%zmm0
	vpsrlw	$8,%zmm0,%zmm0
	vpmovwb	%zmm0,32(%rdx)
	vpsllw	$12,%zmm3,%zmm0
	vpaddw	%zmm0,%zmm3,%zmm0
	vpsrlw	$8,%zmm0,%zmm0
	vpmovwb	%zmm0,-32(%rdx,%rax)
	xorl	%edx,%edx
	vzeroupper
	.p2align	5,,1
	retq
	hex_end	faster_hex_1_0_0_x86_64_v4_decode_with_case
	hex_cfi	endproc
	hex_constant	.L100v4_static.0
.L100v4_static.0:
	.asciz	" \000"
	hex_constant	.L100v4_static.1
.L100v4_static.1:
	.ascii	"aaA"
	hex_constant	.L100v4_static.2
.L100v4_static.2:
	.ascii	"\247\250\251\000\000\000\000\000\000\220\241\242\243\244\245\246\247\250\251\000\000\000\000\000\000\220\221\222\223\224\225\226\247\251\251\000\000\000\000\000\000\221\241\243\243\245\245\247"
	hex_constant	.L100v4_static.3
.L100v4_static.3:
	.ascii	"\240\240\241"
	hex_constant	.L100v4_static.6
.L100v4_static.6:
	.zero	48,255
	.ascii	"\000\001\002\003\004\005\006\007\b\t\377\377\377\377\377\377\377\n\013\f\r\016\017"
	.zero	26,255
	.ascii	"\n\013\f\r\016\017"
	.zero	153,255
	hex_constant	.L100v4_static.7
.L100v4_static.7:
	.zero	48,255
	.ascii	"\000\001\002\003\004\005\006\007\b\t"
	.zero	39,255
	.ascii	"\n\013\f\r\016\017"
	.zero	153,255
	hex_constant	.L100v4_static.8
.L100v4_static.8:
	.zero	48,255
	.ascii	"\000\001\002\003\004\005\006\007\b\t\377\377\377\377\377\377\377\n\013\f\r\016\017"
	.zero	185,255
	hex_constant	.L100v4_static.9
.L100v4_static.9:
	.ascii	"\020\021\022\000\000\000\000\000\000\000ut{vyx012\000\000\000\000\000\000\000\225\224\233\226\231\230012\000\000\000\000\000\000\000UT[VYX"
	hex_merged	8
	.p2align	1,0x0
.L100v4_static.10:
	.asciz	"\001\020\001\020\001\020\000"
