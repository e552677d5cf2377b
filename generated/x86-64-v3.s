/* Written by scripts/generate: do not edit. */
	hex_merged	32
	.p2align	5,0x0
.L100v3_CPI0_0:
	.zero	32,57
	hex_merged	4
	.p2align	2,0x0
.L100v3_CPI0_1:
	.zero	4,57
	hex_function	faster_hex_1_0_0_x86_64_v3_core_plain_check_long_outlined,.text
	hex_cfi	startproc
	leaq	-64(%rsi),%r8
	movq	%r8,%r9
	shrq	$9,%r9
	movzbl	%dl,%ecx
	leaq	.L100v3_static.3(%rip),%rax
	movzbl	(%rcx,%rax),%eax
	.p2align	5,,6
	je	5f
	movl	%ecx,%edx
	shll	$4,%edx
	leaq	.L100v3_static.2(%rip),%r10
	vmovdqu	(%rdx,%r10),%xmm0
	vmovd	%eax,%xmm1
	vpbroadcastb	%xmm1,%ymm1
	leaq	448(%rdi),%rdx
	.p2align	4
3:
	vpbroadcastd	.L100v3_CPI0_1(%rip),%ymm2
	vmovdqu	-448(%rdx),%ymm4
	vmovdqu	-416(%rdx),%ymm5
	vmovdqu	-384(%rdx),%ymm6
	vmovdqu	-352(%rdx),%ymm7
	vpaddb	%ymm2,%ymm5,%ymm8
	vpaddb	%ymm2,%ymm4,%ymm9
	vinserti128	$1,%xmm0,%ymm0,%ymm3
	vpshufb	%ymm9,%ymm3,%ymm10
	vpshufb	%ymm8,%ymm3,%ymm11
	vpsubb	%ymm4,%ymm10,%ymm4
	vpsubb	%ymm5,%ymm11,%ymm5
	vpxor	%ymm5,%ymm8,%ymm5
	vpxor	%ymm4,%ymm9,%ymm4
	vpaddb	%ymm2,%ymm7,%ymm8
	vpaddb	%ymm2,%ymm6,%ymm9
	vpshufb	%ymm9,%ymm3,%ymm10
	vpshufb	%ymm8,%ymm3,%ymm11
	vpsubb	%ymm6,%ymm10,%ymm6
	vpsubb	%ymm7,%ymm11,%ymm7
	vpxor	%ymm7,%ymm8,%ymm7
	vpor	%ymm5,%ymm7,%ymm5
	vpxor	%ymm6,%ymm9,%ymm6
	vpor	%ymm4,%ymm6,%ymm6
	vmovdqu	-320(%rdx),%ymm4
	vmovdqu	-288(%rdx),%ymm7
	vpaddb	%ymm2,%ymm7,%ymm8
	vpaddb	%ymm2,%ymm4,%ymm9
	vpshufb	%ymm9,%ymm3,%ymm10
	vpshufb	%ymm8,%ymm3,%ymm11
	vpsubb	%ymm7,%ymm11,%ymm7
	vpsubb	%ymm4,%ymm10,%ymm4
	vpxor	%ymm4,%ymm9,%ymm9
	vpxor	%ymm7,%ymm8,%ymm4
	vmovdqu	-256(%rdx),%ymm7
	vmovdqu	-224(%rdx),%ymm8
	vpaddb	%ymm2,%ymm8,%ymm10
	vpaddb	%ymm2,%ymm7,%ymm11
	vpshufb	%ymm11,%ymm3,%ymm12
	vpshufb	%ymm10,%ymm3,%ymm13
	vpsubb	%ymm7,%ymm12,%ymm7
	vpsubb	%ymm8,%ymm13,%ymm8
	vpxor	%ymm10,%ymm8,%ymm8
	vpor	%ymm4,%ymm8,%ymm4
	vpor	%ymm5,%ymm4,%ymm4
	vpxor	%ymm7,%ymm11,%ymm5
	vpor	%ymm5,%ymm9,%ymm5
	vpor	%ymm6,%ymm5,%ymm5
	vmovdqu	-192(%rdx),%ymm6
	vmovdqu	-160(%rdx),%ymm7
	vpaddb	%ymm2,%ymm7,%ymm8
	vpaddb	%ymm2,%ymm6,%ymm9
	vpshufb	%ymm9,%ymm3,%ymm10
	vpshufb	%ymm8,%ymm3,%ymm11
	vpsubb	%ymm7,%ymm11,%ymm7
	vpsubb	%ymm6,%ymm10,%ymm6
	vpxor	%ymm6,%ymm9,%ymm6
	vpxor	%ymm7,%ymm8,%ymm7
	vmovdqu	-128(%rdx),%ymm8
	vmovdqu	-96(%rdx),%ymm9
	vpaddb	%ymm2,%ymm9,%ymm10
	vpaddb	%ymm2,%ymm8,%ymm11
	vpshufb	%ymm11,%ymm3,%ymm12
	vpshufb	%ymm10,%ymm3,%ymm13
	vpsubb	%ymm8,%ymm12,%ymm8
	vpsubb	%ymm9,%ymm13,%ymm9
	vpxor	%ymm10,%ymm9,%ymm9
	vpor	%ymm7,%ymm9,%ymm7
	vpxor	%ymm11,%ymm8,%ymm8
	vpor	%ymm6,%ymm8,%ymm6
	vmovdqu	-64(%rdx),%ymm8
	vmovdqu	-32(%rdx),%ymm9
	vpaddb	%ymm2,%ymm9,%ymm10
	vpaddb	%ymm2,%ymm8,%ymm11
	vpshufb	%ymm11,%ymm3,%ymm12
	vpshufb	%ymm10,%ymm3,%ymm13
	vpsubb	%ymm9,%ymm13,%ymm9
	vpsubb	%ymm8,%ymm12,%ymm8
	vpxor	%ymm11,%ymm8,%ymm8
	vpor	%ymm6,%ymm8,%ymm6
	vpor	%ymm5,%ymm6,%ymm5
	vpxor	%ymm10,%ymm9,%ymm6
	vpor	%ymm7,%ymm6,%ymm6
	vpor	%ymm4,%ymm6,%ymm4
	vmovdqu	(%rdx),%ymm6
	vmovdqu	32(%rdx),%ymm7
	vpaddb	%ymm2,%ymm7,%ymm8
	vpaddb	%ymm2,%ymm6,%ymm2
	vpshufb	%ymm2,%ymm3,%ymm9
	vpshufb	%ymm8,%ymm3,%ymm3
	vpsubb	%ymm6,%ymm9,%ymm6
	vpsubb	%ymm7,%ymm3,%ymm3
	vpxor	%ymm3,%ymm8,%ymm3
	vpor	%ymm4,%ymm3,%ymm3
	vpxor	%ymm2,%ymm6,%ymm2
	vpor	%ymm5,%ymm2,%ymm2
	vpand	%ymm1,%ymm3,%ymm3
	vpand	%ymm1,%ymm2,%ymm2
	vpor	%ymm3,%ymm2,%ymm2
	vptest	%ymm2,%ymm2
	.p2align	5,,6
	jne	4f
	addq	$512,%rdx
	.p2align	5,,10
	decq	%r9
	jne	3b
5:
	movl	%r8d,%r9d
	shrl	$6,%r9d
	andl	$7,%r9d
	xorl	%edx,%edx
	testb	$63,%sil
	setne	%dl
	.p2align	5,,10
	addq	%r9,%rdx
	je	6f
	movq	%r8,%rsi
	andq	$-512,%rsi
	shll	$4,%ecx
	leaq	.L100v3_static.2(%rip),%r9
	vbroadcasti128	(%rcx,%r9),%ymm2
	vmovdqu	(%rdi,%rsi),%ymm0
	vmovdqu	32(%rdi,%rsi),%ymm1
	vpbroadcastd	.L100v3_CPI0_1(%rip),%ymm3
	vpaddb	%ymm3,%ymm1,%ymm4
	vpaddb	%ymm3,%ymm0,%ymm5
	vpshufb	%ymm5,%ymm2,%ymm6
	vpshufb	%ymm4,%ymm2,%ymm7
	vpsubb	%ymm0,%ymm6,%ymm0
	vpsubb	%ymm1,%ymm7,%ymm1
	vpxor	%ymm4,%ymm1,%ymm1
	vpxor	%ymm5,%ymm0,%ymm0
	.p2align	5,,10
	cmpq	$1,%rdx
	je	15f
	vmovdqu	64(%rdi,%rsi),%ymm4
	vmovdqu	96(%rdi,%rsi),%ymm5
	vpaddb	%ymm3,%ymm5,%ymm6
	vpaddb	%ymm3,%ymm4,%ymm7
	vinserti128	$1,%xmm2,%ymm2,%ymm8
	vpshufb	%ymm7,%ymm8,%ymm9
	vpshufb	%ymm6,%ymm8,%ymm8
	vpsubb	%ymm5,%ymm8,%ymm5
	vpsubb	%ymm4,%ymm9,%ymm4
	vpxor	%ymm7,%ymm4,%ymm4
	vpxor	%ymm6,%ymm5,%ymm5
	vpor	%ymm1,%ymm5,%ymm1
	vpor	%ymm0,%ymm4,%ymm0
	.p2align	5,,10
	cmpq	$2,%rdx
	je	15f
	vmovdqu	128(%rdi,%rsi),%ymm4
	vmovdqu	160(%rdi,%rsi),%ymm5
	vpaddb	%ymm3,%ymm5,%ymm6
	vpaddb	%ymm3,%ymm4,%ymm7
	vinserti128	$1,%xmm2,%ymm2,%ymm8
	vpshufb	%ymm7,%ymm8,%ymm9
	vpshufb	%ymm6,%ymm8,%ymm8
	vpsubb	%ymm5,%ymm8,%ymm5
	vpsubb	%ymm4,%ymm9,%ymm4
	vpxor	%ymm7,%ymm4,%ymm4
	vpxor	%ymm6,%ymm5,%ymm5
	vpor	%ymm1,%ymm5,%ymm1
	vpor	%ymm0,%ymm4,%ymm0
	.p2align	5,,10
	cmpq	$3,%rdx
	je	15f
	vmovdqu	192(%rdi,%rsi),%ymm4
	vmovdqu	224(%rdi,%rsi),%ymm5
	vpaddb	%ymm3,%ymm5,%ymm6
	vpaddb	%ymm3,%ymm4,%ymm7
	vinserti128	$1,%xmm2,%ymm2,%ymm8
	vpshufb	%ymm7,%ymm8,%ymm9
	vpshufb	%ymm6,%ymm8,%ymm8
	vpsubb	%ymm5,%ymm8,%ymm5
	vpsubb	%ymm4,%ymm9,%ymm4
	vpxor	%ymm7,%ymm4,%ymm4
	vpxor	%ymm6,%ymm5,%ymm5
	vpor	%ymm1,%ymm5,%ymm1
	vpor	%ymm0,%ymm4,%ymm0
	.p2align	5,,10
	cmpq	$4,%rdx
	je	15f
	vmovdqu	256(%rdi,%rsi),%ymm4
	vmovdqu	288(%rdi,%rsi),%ymm5
	vpaddb	%ymm3,%ymm5,%ymm6
	vpaddb	%ymm3,%ymm4,%ymm7
	vinserti128	$1,%xmm2,%ymm2,%ymm8
	vpshufb	%ymm7,%ymm8,%ymm9
	vpshufb	%ymm6,%ymm8,%ymm8
	vpsubb	%ymm5,%ymm8,%ymm5
	vpsubb	%ymm4,%ymm9,%ymm4
	vpxor	%ymm7,%ymm4,%ymm4
	vpxor	%ymm6,%ymm5,%ymm5
	vpor	%ymm1,%ymm5,%ymm1
	vpor	%ymm0,%ymm4,%ymm0
	.p2align	5,,10
	cmpq	$5,%rdx
	je	15f
	vmovdqu	320(%rdi,%rsi),%ymm4
	vmovdqu	352(%rdi,%rsi),%ymm5
	vpaddb	%ymm3,%ymm5,%ymm6
	vpaddb	%ymm3,%ymm4,%ymm7
	vinserti128	$1,%xmm2,%ymm2,%ymm8
	vpshufb	%ymm7,%ymm8,%ymm9
	vpshufb	%ymm6,%ymm8,%ymm8
	vpsubb	%ymm5,%ymm8,%ymm5
	vpsubb	%ymm4,%ymm9,%ymm4
	vpxor	%ymm7,%ymm4,%ymm4
	vpxor	%ymm6,%ymm5,%ymm5
	vpor	%ymm1,%ymm5,%ymm1
	vpor	%ymm0,%ymm4,%ymm0
	.p2align	5,,10
	cmpq	$6,%rdx
	je	15f
	vmovdqu	384(%rdi,%rsi),%ymm4
	vmovdqu	416(%rdi,%rsi),%ymm5
	vpaddb	%ymm3,%ymm5,%ymm6
	vpaddb	%ymm3,%ymm4,%ymm7
	vinserti128	$1,%xmm2,%ymm2,%ymm8
	vpshufb	%ymm7,%ymm8,%ymm9
	vpshufb	%ymm6,%ymm8,%ymm8
	vpsubb	%ymm5,%ymm8,%ymm5
	vpsubb	%ymm4,%ymm9,%ymm4
	vpxor	%ymm7,%ymm4,%ymm4
	vpxor	%ymm6,%ymm5,%ymm5
	vpor	%ymm1,%ymm5,%ymm1
	vpor	%ymm0,%ymm4,%ymm0
	.p2align	5,,10
	cmpq	$7,%rdx
	je	15f
	vmovdqu	448(%rdi,%rsi),%ymm4
	vmovdqu	480(%rdi,%rsi),%ymm5
	vpaddb	%ymm3,%ymm5,%ymm6
	vpaddb	%ymm3,%ymm4,%ymm3
	vinserti128	$1,%xmm2,%ymm2,%ymm2
	vpshufb	%ymm3,%ymm2,%ymm7
	vpshufb	%ymm6,%ymm2,%ymm2
	vpsubb	%ymm5,%ymm2,%ymm2
	vpsubb	%ymm4,%ymm7,%ymm4
	vpxor	%ymm3,%ymm4,%ymm3
	vpxor	%ymm6,%ymm2,%ymm2
	vpor	%ymm1,%ymm2,%ymm1
	vpor	%ymm0,%ymm3,%ymm0
	.p2align	5,,6
	jmp	15f
4:
	xorl	%eax,%eax
	vzeroupper
	.p2align	5,,1
	retq
6:
	shll	$4,%ecx
	vpxor	%xmm0,%xmm0,%xmm0
	vpxor	%xmm1,%xmm1,%xmm1
15:
	vmovdqu	(%rdi,%r8),%ymm2
	vmovdqu	32(%rdi,%r8),%ymm3
	vpbroadcastd	.L100v3_CPI0_1(%rip),%ymm4
	vpaddb	%ymm4,%ymm3,%ymm5
	vpaddb	%ymm4,%ymm2,%ymm4
	leaq	.L100v3_static.2(%rip),%rdx
	vbroadcasti128	(%rcx,%rdx),%ymm6
	vpshufb	%ymm4,%ymm6,%ymm7
	vpshufb	%ymm5,%ymm6,%ymm6
	vpsubb	%ymm3,%ymm6,%ymm3
	vpsubb	%ymm2,%ymm7,%ymm2
	vpxor	%ymm4,%ymm2,%ymm2
	vpor	%ymm0,%ymm2,%ymm0
	vpxor	%ymm5,%ymm3,%ymm2
	vpor	%ymm1,%ymm2,%ymm1
	vpor	%ymm1,%ymm0,%ymm0
	vmovd	%eax,%xmm1
	vpbroadcastb	%xmm1,%ymm1
	vptest	%ymm1,%ymm0
	sete	%al
	vzeroupper
	.p2align	5,,1
	retq
	hex_end	faster_hex_1_0_0_x86_64_v3_core_plain_check_long_outlined
	hex_cfi	endproc
	hex_merged	32
	.p2align	5,0x0
.L100v3_CPI1_0:
	.zero	32,57
.L100v3_CPI1_1:
	.zero	32,79
.L100v3_CPI1_2:
	.zero	32,201
.L100v3_CPI1_3:
	.byte	0,0,0,0,0,0,0,0,1,3,5,7,9,11,13,15
	.byte	0,0,0,0,0,0,0,0,1,3,5,7,9,11,13,15
.L100v3_CPI1_4:
	.byte	1,3,5,7,9,11,13,15,0,0,0,0,0,0,0,0
	.byte	1,3,5,7,9,11,13,15,0,0,0,0,0,0,0,0
.L100v3_CPI1_5:
	.zero	32,55
.L100v3_CPI1_6:
	.zero	32,240
	hex_merged	4
	.p2align	2,0x0
.L100v3_CPI1_7:
	.zero	4,55
.L100v3_CPI1_9:
	.zero	4,57
.L100v3_CPI1_10:
	.zero	4,79
.L100v3_CPI1_11:
	.zero	4,201
	hex_merged	8
	.p2align	3,0x0
.L100v3_CPI1_8:
	.byte	1,3,5,7,9,11,13,15
	hex_function	faster_hex_1_0_0_x86_64_v3_core_backend_Backend_decode_or_find_outlined,.text
	hex_cfi	startproc
	pushq	%r15
	hex_cfi	def_cfa_offset 16
	pushq	%r14
	hex_cfi	def_cfa_offset 24
	pushq	%rbx
	hex_cfi	def_cfa_offset 32
	hex_cfi	offset %rbx,-32
	hex_cfi	offset %r14,-24
	hex_cfi	offset %r15,-16
	.p2align	5,,13
	cmpq	$193,%rsi
	jb	28f
	movq	%rcx,%rax
	.p2align	5,,13
	cmpq	$256,%rsi
	ja	4f
	vpbroadcastd	.L100v3_CPI1_7(%rip),%ymm2
	vmovdqu	(%rdi),%ymm0
	vmovdqu	32(%rdi),%ymm1
	vmovdqu	64(%rdi),%ymm3
	vmovdqu	96(%rdi),%ymm5
	vpsubusb	%ymm2,%ymm1,%ymm4
	vpsubusb	%ymm2,%ymm0,%ymm6
	movzbl	%r8b,%ecx
	movl	%ecx,%r9d
	shll	$4,%r9d
	leaq	.L100v3_static.9(%rip),%r10
	vbroadcasti128	(%r9,%r10),%ymm7
	vpshufb	%ymm6,%ymm7,%ymm8
	vpshufb	%ymm4,%ymm7,%ymm9
	vpsubusb	%ymm6,%ymm8,%ymm6
	vpsubusb	%ymm4,%ymm9,%ymm4
	leaq	.L100v3_static.0(%rip),%r9
	vpbroadcastb	(%rcx,%r9),%ymm8
	vpxor	%ymm0,%ymm8,%ymm0
	vpxor	%ymm0,%ymm6,%ymm0
	vpxor	%ymm1,%ymm8,%ymm1
	vpxor	%ymm1,%ymm4,%ymm1
	vpsubusb	%ymm2,%ymm5,%ymm4
	vpsubusb	%ymm2,%ymm3,%ymm6
	vpshufb	%ymm6,%ymm7,%ymm9
	vpshufb	%ymm4,%ymm7,%ymm10
	vpsubusb	%ymm6,%ymm9,%ymm6
	vpsubusb	%ymm4,%ymm10,%ymm9
	vpxor	%ymm3,%ymm8,%ymm3
	vpxor	%ymm6,%ymm3,%ymm4
	vpxor	%ymm5,%ymm8,%ymm3
	vpxor	%ymm3,%ymm9,%ymm5
	vmovdqu	-128(%rdi,%rsi),%ymm6
	vmovdqu	-96(%rdi,%rsi),%ymm3
	vmovdqu	-64(%rdi,%rsi),%ymm9
	vmovdqu	-32(%rdi,%rsi),%ymm10
	vpsubusb	%ymm2,%ymm3,%ymm11
	vpsubusb	%ymm2,%ymm6,%ymm12
	vpshufb	%ymm12,%ymm7,%ymm13
	vpshufb	%ymm11,%ymm7,%ymm14
	vpsubusb	%ymm11,%ymm14,%ymm11
	vpsubusb	%ymm12,%ymm13,%ymm12
	vpxor	%ymm3,%ymm8,%ymm3
	vpxor	%ymm3,%ymm11,%ymm3
	vpxor	%ymm6,%ymm8,%ymm6
	vpxor	%ymm6,%ymm12,%ymm6
	vpsubusb	%ymm2,%ymm10,%ymm11
	vpsubusb	%ymm2,%ymm9,%ymm2
	vpshufb	%ymm2,%ymm7,%ymm12
	vpshufb	%ymm11,%ymm7,%ymm7
	vpsubusb	%ymm2,%ymm12,%ymm2
	vpsubusb	%ymm11,%ymm7,%ymm7
	vpxor	%ymm9,%ymm8,%ymm9
	vpxor	%ymm2,%ymm9,%ymm2
	vpxor	%ymm10,%ymm8,%ymm8
	vpxor	%ymm7,%ymm8,%ymm7
	vpor	%ymm1,%ymm5,%ymm8
	vpor	%ymm0,%ymm4,%ymm9
	vpor	%ymm7,%ymm3,%ymm10
	vpor	%ymm10,%ymm8,%ymm8
	vpor	%ymm2,%ymm6,%ymm10
	vpor	%ymm10,%ymm9,%ymm9
	vpor	%ymm8,%ymm9,%ymm8
	vptest	.L100v3_CPI1_6(%rip),%ymm8
	.p2align	5,,6
	jne	28f
	leaq	.L100v3_static.10(%rip),%rsi
	vpbroadcastw	(%rsi,%rcx,2),%ymm8
	vpmullw	%ymm0,%ymm8,%ymm0
	vpmullw	%ymm1,%ymm8,%ymm1
	vpmullw	%ymm4,%ymm8,%ymm4
	vpmullw	%ymm5,%ymm8,%ymm5
	vpbroadcastq	.L100v3_CPI1_8(%rip),%ymm9
	vpshufb	%ymm9,%ymm1,%ymm1
	vpbroadcastq	.L100v3_CPI1_8(%rip),%ymm10
	vpshufb	%ymm10,%ymm0,%ymm0
	vpblendd	$204,%ymm1,%ymm0,%ymm0
	vpshufb	%ymm9,%ymm5,%ymm1
	vpshufb	%ymm10,%ymm4,%ymm4
	vpblendd	$204,%ymm1,%ymm4,%ymm1
	vpermq	$216,%ymm1,%ymm1
	vmovdqu	%ymm1,32(%rdx)
	vpermq	$216,%ymm0,%ymm0
	vmovdqu	%ymm0,(%rdx)
	vpmullw	%ymm6,%ymm8,%ymm0
	vpmullw	%ymm3,%ymm8,%ymm1
	vpmullw	%ymm2,%ymm8,%ymm2
	vpmullw	%ymm7,%ymm8,%ymm3
	vpshufb	%ymm9,%ymm1,%ymm1
	vpshufb	%ymm10,%ymm0,%ymm0
	vpblendd	$204,%ymm1,%ymm0,%ymm0
	vpshufb	%ymm9,%ymm3,%ymm1
	vpshufb	%ymm10,%ymm2,%ymm2
	vpblendd	$204,%ymm1,%ymm2,%ymm1
	vpermq	$216,%ymm1,%ymm1
	vmovdqu	%ymm1,-32(%rdx,%rax)
	vpermq	$216,%ymm0,%ymm0
	vmovdqu	%ymm0,-64(%rdx,%rax)
	.p2align	5,,6
	jmp	26f
4:
	leaq	-64(%rsi),%r10
	movq	%r10,%r11
	shrq	$9,%r11
	movzbl	%r8b,%ecx
	leaq	.L100v3_static.3(%rip),%r9
	movzbl	(%rcx,%r9),%r9d
	.p2align	5,,6
	je	8f
	movl	%ecx,%ebx
	shll	$4,%ebx
	leaq	.L100v3_static.2(%rip),%r14
	vmovdqu	(%rbx,%r14),%xmm0
	vmovd	%r9d,%xmm1
	vpbroadcastb	%xmm1,%ymm1
	leaq	448(%rdi),%rbx
	.p2align	4
6:
	vpbroadcastd	.L100v3_CPI1_9(%rip),%ymm2
	vmovdqu	-448(%rbx),%ymm4
	vmovdqu	-416(%rbx),%ymm5
	vmovdqu	-384(%rbx),%ymm6
	vmovdqu	-352(%rbx),%ymm7
	vpaddb	%ymm2,%ymm5,%ymm8
	vpaddb	%ymm2,%ymm4,%ymm9
	vinserti128	$1,%xmm0,%ymm0,%ymm3
	vpshufb	%ymm9,%ymm3,%ymm10
	vpshufb	%ymm8,%ymm3,%ymm11
	vpsubb	%ymm4,%ymm10,%ymm4
	vpsubb	%ymm5,%ymm11,%ymm5
	vpxor	%ymm5,%ymm8,%ymm5
	vpxor	%ymm4,%ymm9,%ymm4
	vpaddb	%ymm2,%ymm7,%ymm8
	vpaddb	%ymm2,%ymm6,%ymm9
	vpshufb	%ymm9,%ymm3,%ymm10
	vpshufb	%ymm8,%ymm3,%ymm11
	vpsubb	%ymm6,%ymm10,%ymm6
	vpsubb	%ymm7,%ymm11,%ymm7
	vpxor	%ymm7,%ymm8,%ymm7
	vpor	%ymm5,%ymm7,%ymm5
	vpxor	%ymm6,%ymm9,%ymm6
	vpor	%ymm4,%ymm6,%ymm6
	vmovdqu	-320(%rbx),%ymm4
	vmovdqu	-288(%rbx),%ymm7
	vpaddb	%ymm2,%ymm7,%ymm8
	vpaddb	%ymm2,%ymm4,%ymm9
	vpshufb	%ymm9,%ymm3,%ymm10
	vpshufb	%ymm8,%ymm3,%ymm11
	vpsubb	%ymm7,%ymm11,%ymm7
	vpsubb	%ymm4,%ymm10,%ymm4
	vpxor	%ymm4,%ymm9,%ymm9
	vpxor	%ymm7,%ymm8,%ymm4
	vmovdqu	-256(%rbx),%ymm7
	vmovdqu	-224(%rbx),%ymm8
	vpaddb	%ymm2,%ymm8,%ymm10
	vpaddb	%ymm2,%ymm7,%ymm11
	vpshufb	%ymm11,%ymm3,%ymm12
	vpshufb	%ymm10,%ymm3,%ymm13
	vpsubb	%ymm7,%ymm12,%ymm7
	vpsubb	%ymm8,%ymm13,%ymm8
	vpxor	%ymm10,%ymm8,%ymm8
	vpor	%ymm4,%ymm8,%ymm4
	vpor	%ymm4,%ymm5,%ymm4
	vpxor	%ymm7,%ymm11,%ymm5
	vpor	%ymm5,%ymm9,%ymm5
	vpor	%ymm5,%ymm6,%ymm5
	vmovdqu	-192(%rbx),%ymm6
	vmovdqu	-160(%rbx),%ymm7
	vpaddb	%ymm2,%ymm7,%ymm8
	vpaddb	%ymm2,%ymm6,%ymm9
	vpshufb	%ymm9,%ymm3,%ymm10
	vpshufb	%ymm8,%ymm3,%ymm11
	vpsubb	%ymm7,%ymm11,%ymm7
	vpsubb	%ymm6,%ymm10,%ymm6
	vpxor	%ymm6,%ymm9,%ymm6
	vpxor	%ymm7,%ymm8,%ymm7
	vmovdqu	-128(%rbx),%ymm8
	vmovdqu	-96(%rbx),%ymm9
	vpaddb	%ymm2,%ymm9,%ymm10
	vpaddb	%ymm2,%ymm8,%ymm11
	vpshufb	%ymm11,%ymm3,%ymm12
	vpshufb	%ymm10,%ymm3,%ymm13
	vpsubb	%ymm8,%ymm12,%ymm8
	vpsubb	%ymm9,%ymm13,%ymm9
	vpxor	%ymm10,%ymm9,%ymm9
	vpor	%ymm7,%ymm9,%ymm7
	vpxor	%ymm11,%ymm8,%ymm8
	vpor	%ymm6,%ymm8,%ymm6
	vmovdqu	-64(%rbx),%ymm8
	vmovdqu	-32(%rbx),%ymm9
	vpaddb	%ymm2,%ymm9,%ymm10
	vpaddb	%ymm2,%ymm8,%ymm11
	vpshufb	%ymm11,%ymm3,%ymm12
	vpshufb	%ymm10,%ymm3,%ymm13
	vpsubb	%ymm9,%ymm13,%ymm9
	vpsubb	%ymm8,%ymm12,%ymm8
	vpxor	%ymm11,%ymm8,%ymm8
	vpor	%ymm6,%ymm8,%ymm6
	vpor	%ymm6,%ymm5,%ymm5
	vpxor	%ymm10,%ymm9,%ymm6
	vpor	%ymm6,%ymm7,%ymm6
	vpor	%ymm6,%ymm4,%ymm4
	vmovdqu	(%rbx),%ymm6
	vmovdqu	32(%rbx),%ymm7
	vpaddb	%ymm2,%ymm7,%ymm8
	vpaddb	%ymm2,%ymm6,%ymm2
	vpshufb	%ymm2,%ymm3,%ymm9
	vpshufb	%ymm8,%ymm3,%ymm3
	vpsubb	%ymm6,%ymm9,%ymm6
	vpsubb	%ymm7,%ymm3,%ymm3
	vpxor	%ymm3,%ymm8,%ymm3
	vpor	%ymm3,%ymm4,%ymm3
	vpxor	%ymm2,%ymm6,%ymm2
	vpor	%ymm2,%ymm5,%ymm2
	vpand	%ymm1,%ymm3,%ymm3
	vpand	%ymm1,%ymm2,%ymm2
	vpor	%ymm3,%ymm2,%ymm2
	vptest	%ymm2,%ymm2
	.p2align	5,,6
	jne	28f
	addq	$512,%rbx
	.p2align	5,,10
	decq	%r11
	jne	6b
8:
	movl	%r10d,%ebx
	shrl	$6,%ebx
	andl	$7,%ebx
	xorl	%r11d,%r11d
	testb	$63,%sil
	setne	%r11b
	.p2align	5,,10
	addq	%rbx,%r11
	je	17f
	movq	%r10,%rbx
	andq	$-512,%rbx
	movl	%ecx,%r14d
	shll	$4,%r14d
	leaq	.L100v3_static.2(%rip),%r15
	vbroadcasti128	(%r14,%r15),%ymm0
	vmovdqu	(%rdi,%rbx),%ymm1
	vmovdqu	32(%rdi,%rbx),%ymm2
	vpbroadcastd	.L100v3_CPI1_9(%rip),%ymm3
	vpaddb	%ymm3,%ymm2,%ymm4
	vpaddb	%ymm3,%ymm1,%ymm5
	vpshufb	%ymm5,%ymm0,%ymm6
	vpshufb	%ymm4,%ymm0,%ymm7
	vpsubb	%ymm1,%ymm6,%ymm1
	vpsubb	%ymm2,%ymm7,%ymm2
	vpxor	%ymm4,%ymm2,%ymm2
	vpxor	%ymm5,%ymm1,%ymm1
	.p2align	5,,10
	cmpq	$1,%r11
	je	18f
	vmovdqu	64(%rdi,%rbx),%ymm4
	vmovdqu	96(%rdi,%rbx),%ymm5
	vpaddb	%ymm3,%ymm5,%ymm6
	vpaddb	%ymm3,%ymm4,%ymm7
	vinserti128	$1,%xmm0,%ymm0,%ymm8
	vpshufb	%ymm7,%ymm8,%ymm9
	vpshufb	%ymm6,%ymm8,%ymm8
	vpsubb	%ymm5,%ymm8,%ymm5
	vpsubb	%ymm4,%ymm9,%ymm4
	vpxor	%ymm7,%ymm4,%ymm4
	vpxor	%ymm6,%ymm5,%ymm5
	vpor	%ymm2,%ymm5,%ymm2
	vpor	%ymm1,%ymm4,%ymm1
	.p2align	5,,10
	cmpq	$2,%r11
	je	18f
	vmovdqu	128(%rdi,%rbx),%ymm4
	vmovdqu	160(%rdi,%rbx),%ymm5
	vpaddb	%ymm3,%ymm5,%ymm6
	vpaddb	%ymm3,%ymm4,%ymm7
	vinserti128	$1,%xmm0,%ymm0,%ymm8
	vpshufb	%ymm7,%ymm8,%ymm9
	vpshufb	%ymm6,%ymm8,%ymm8
	vpsubb	%ymm5,%ymm8,%ymm5
	vpsubb	%ymm4,%ymm9,%ymm4
	vpxor	%ymm7,%ymm4,%ymm4
	vpxor	%ymm6,%ymm5,%ymm5
	vpor	%ymm2,%ymm5,%ymm2
	vpor	%ymm1,%ymm4,%ymm1
	.p2align	5,,10
	cmpq	$3,%r11
	je	18f
	vmovdqu	192(%rdi,%rbx),%ymm4
	vmovdqu	224(%rdi,%rbx),%ymm5
	vpaddb	%ymm3,%ymm5,%ymm6
	vpaddb	%ymm3,%ymm4,%ymm7
	vinserti128	$1,%xmm0,%ymm0,%ymm8
	vpshufb	%ymm7,%ymm8,%ymm9
	vpshufb	%ymm6,%ymm8,%ymm8
	vpsubb	%ymm5,%ymm8,%ymm5
	vpsubb	%ymm4,%ymm9,%ymm4
	vpxor	%ymm7,%ymm4,%ymm4
	vpxor	%ymm6,%ymm5,%ymm5
	vpor	%ymm2,%ymm5,%ymm2
	vpor	%ymm1,%ymm4,%ymm1
	.p2align	5,,10
	cmpq	$4,%r11
	je	18f
	vmovdqu	256(%rdi,%rbx),%ymm4
	vmovdqu	288(%rdi,%rbx),%ymm5
	vpaddb	%ymm3,%ymm5,%ymm6
	vpaddb	%ymm3,%ymm4,%ymm7
	vinserti128	$1,%xmm0,%ymm0,%ymm8
	vpshufb	%ymm7,%ymm8,%ymm9
	vpshufb	%ymm6,%ymm8,%ymm8
	vpsubb	%ymm5,%ymm8,%ymm5
	vpsubb	%ymm4,%ymm9,%ymm4
	vpxor	%ymm7,%ymm4,%ymm4
	vpxor	%ymm6,%ymm5,%ymm5
	vpor	%ymm2,%ymm5,%ymm2
	vpor	%ymm1,%ymm4,%ymm1
	.p2align	5,,10
	cmpq	$5,%r11
	je	18f
	vmovdqu	320(%rdi,%rbx),%ymm4
	vmovdqu	352(%rdi,%rbx),%ymm5
	vpaddb	%ymm3,%ymm5,%ymm6
	vpaddb	%ymm3,%ymm4,%ymm7
	vinserti128	$1,%xmm0,%ymm0,%ymm8
	vpshufb	%ymm7,%ymm8,%ymm9
	vpshufb	%ymm6,%ymm8,%ymm8
	vpsubb	%ymm5,%ymm8,%ymm5
	vpsubb	%ymm4,%ymm9,%ymm4
	vpxor	%ymm7,%ymm4,%ymm4
	vpxor	%ymm6,%ymm5,%ymm5
	vpor	%ymm2,%ymm5,%ymm2
	vpor	%ymm1,%ymm4,%ymm1
	.p2align	5,,10
	cmpq	$6,%r11
	je	18f
	vmovdqu	384(%rdi,%rbx),%ymm4
	vmovdqu	416(%rdi,%rbx),%ymm5
	vpaddb	%ymm3,%ymm5,%ymm6
	vpaddb	%ymm3,%ymm4,%ymm7
	vinserti128	$1,%xmm0,%ymm0,%ymm8
	vpshufb	%ymm7,%ymm8,%ymm9
	vpshufb	%ymm6,%ymm8,%ymm8
	vpsubb	%ymm5,%ymm8,%ymm5
	vpsubb	%ymm4,%ymm9,%ymm4
	vpxor	%ymm7,%ymm4,%ymm4
	vpxor	%ymm6,%ymm5,%ymm5
	vpor	%ymm2,%ymm5,%ymm2
	vpor	%ymm1,%ymm4,%ymm1
	.p2align	5,,10
	cmpq	$7,%r11
	je	18f
	vmovdqu	448(%rdi,%rbx),%ymm4
	vmovdqu	480(%rdi,%rbx),%ymm5
	vpaddb	%ymm3,%ymm5,%ymm6
	vpaddb	%ymm3,%ymm4,%ymm3
	vinserti128	$1,%xmm0,%ymm0,%ymm7
	vpshufb	%ymm3,%ymm7,%ymm8
	vpshufb	%ymm6,%ymm7,%ymm7
	vpsubb	%ymm5,%ymm7,%ymm5
	vpsubb	%ymm4,%ymm8,%ymm4
	vpxor	%ymm3,%ymm4,%ymm3
	vpxor	%ymm6,%ymm5,%ymm4
	vpor	%ymm2,%ymm4,%ymm2
	vpor	%ymm1,%ymm3,%ymm1
	.p2align	5,,6
	jmp	18f
17:
	movl	%ecx,%r11d
	shll	$4,%r11d
	leaq	.L100v3_static.2(%rip),%rbx
	vmovdqu	(%r11,%rbx),%xmm0
	vpxor	%xmm1,%xmm1,%xmm1
	vpxor	%xmm2,%xmm2,%xmm2
18:
	vmovdqu	(%rdi,%r10),%ymm3
	vmovdqu	32(%rdi,%r10),%ymm4
	vpbroadcastd	.L100v3_CPI1_9(%rip),%ymm5
	vpaddb	%ymm5,%ymm4,%ymm6
	vpaddb	%ymm5,%ymm3,%ymm5
	vinserti128	$1,%xmm0,%ymm0,%ymm0
	vpshufb	%ymm5,%ymm0,%ymm7
	vpshufb	%ymm6,%ymm0,%ymm0
	vpsubb	%ymm4,%ymm0,%ymm0
	vpsubb	%ymm3,%ymm7,%ymm3
	vpxor	%ymm5,%ymm3,%ymm3
	vpor	%ymm1,%ymm3,%ymm1
	vpxor	%ymm6,%ymm0,%ymm0
	vpor	%ymm2,%ymm0,%ymm0
	vpor	%ymm0,%ymm1,%ymm0
	vmovd	%r9d,%xmm1
	vpbroadcastb	%xmm1,%ymm1
	vptest	%ymm1,%ymm0
	.p2align	5,,6
	jne	28f
	movq	%rax,%rsi
	shrq	$6,%rsi
	.p2align	5,,6
	je	22f
	leaq	.L100v3_static.10(%rip),%r8
	vpbroadcastw	(%r8,%rcx,2),%ymm0
	xorl	%r8d,%r8d
	.p2align	4
21:
	vpbroadcastd	.L100v3_CPI1_10(%rip),%ymm1
	vpand	32(%rdi,%r8,2),%ymm1,%ymm2
	vpand	(%rdi,%r8,2),%ymm1,%ymm3
	vpbroadcastd	.L100v3_CPI1_11(%rip),%ymm4
	vpaddb	%ymm4,%ymm3,%ymm5
	vpaddb	%ymm4,%ymm2,%ymm6
	vpminub	%ymm6,%ymm2,%ymm2
	vpminub	%ymm5,%ymm3,%ymm3
	vpand	96(%rdi,%r8,2),%ymm1,%ymm5
	vpand	64(%rdi,%r8,2),%ymm1,%ymm1
	vpaddb	%ymm4,%ymm1,%ymm6
	vpaddb	%ymm4,%ymm5,%ymm4
	vpminub	%ymm4,%ymm5,%ymm4
	vpminub	%ymm6,%ymm1,%ymm1
	vpmullw	%ymm3,%ymm0,%ymm3
	vpmullw	%ymm2,%ymm0,%ymm2
	vpmullw	%ymm1,%ymm0,%ymm1
	vpmullw	%ymm4,%ymm0,%ymm4
	vpbroadcastq	.L100v3_CPI1_8(%rip),%ymm5
	vpshufb	%ymm5,%ymm2,%ymm2
	vpbroadcastq	.L100v3_CPI1_8(%rip),%ymm6
	vpshufb	%ymm6,%ymm3,%ymm3
	vpblendd	$204,%ymm2,%ymm3,%ymm2
	vpermq	$216,%ymm2,%ymm2
	vpshufb	%ymm5,%ymm4,%ymm3
	vpshufb	%ymm6,%ymm1,%ymm1
	vpblendd	$204,%ymm3,%ymm1,%ymm1
	vpermq	$216,%ymm1,%ymm1
	vmovdqu	%ymm1,32(%rdx,%r8)
	vmovdqu	%ymm2,(%rdx,%r8)
	addq	$64,%r8
	.p2align	5,,10
	decq	%rsi
	jne	21b
22:
	movl	%eax,%esi
	andl	$63,%esi
	.p2align	5,,10
	cmpq	$33,%rsi
	jb	24f
	vpbroadcastd	.L100v3_CPI1_10(%rip),%ymm0
	vpand	-96(%rdi,%rax,2),%ymm0,%ymm1
	vpand	-128(%rdi,%rax,2),%ymm0,%ymm2
	vpbroadcastd	.L100v3_CPI1_11(%rip),%ymm3
	vpaddb	%ymm3,%ymm2,%ymm4
	vpaddb	%ymm3,%ymm1,%ymm5
	vpminub	%ymm5,%ymm1,%ymm1
	vpand	-32(%rdi,%rax,2),%ymm0,%ymm5
	vpand	-64(%rdi,%rax,2),%ymm0,%ymm0
	vpminub	%ymm4,%ymm2,%ymm2
	vpaddb	%ymm3,%ymm0,%ymm4
	vpaddb	%ymm3,%ymm5,%ymm3
	vpminub	%ymm3,%ymm5,%ymm3
	leaq	.L100v3_static.10(%rip),%rsi
	vpbroadcastw	(%rsi,%rcx,2),%ymm5
	vpminub	%ymm4,%ymm0,%ymm0
	vpmullw	%ymm2,%ymm5,%ymm2
	vpmullw	%ymm1,%ymm5,%ymm1
	vpmullw	%ymm0,%ymm5,%ymm0
	vpmullw	%ymm3,%ymm5,%ymm3
	vpbroadcastq	.L100v3_CPI1_8(%rip),%ymm4
	vpshufb	%ymm4,%ymm1,%ymm1
	vpbroadcastq	.L100v3_CPI1_8(%rip),%ymm5
	vpshufb	%ymm5,%ymm2,%ymm2
	vpblendd	$204,%ymm1,%ymm2,%ymm1
	vpshufb	%ymm4,%ymm3,%ymm2
	vpshufb	%ymm5,%ymm0,%ymm0
	vpblendd	$204,%ymm2,%ymm0,%ymm0
	vpermq	$216,%ymm0,%ymm0
	vmovdqu	%ymm0,-32(%rdx,%rax)
	vpermq	$216,%ymm1,%ymm0
	vmovdqu	%ymm0,-64(%rdx,%rax)
	.p2align	5,,6
	jmp	26f
24:
	.p2align	5,,10
	testq	%rsi,%rsi
	je	26f
	vpbroadcastd	.L100v3_CPI1_10(%rip),%ymm0
	vpand	-32(%rdi,%rax,2),%ymm0,%ymm1
	vpand	-64(%rdi,%rax,2),%ymm0,%ymm0
	vpbroadcastd	.L100v3_CPI1_11(%rip),%ymm2
	vpaddb	%ymm2,%ymm0,%ymm3
	vpaddb	%ymm2,%ymm1,%ymm2
	vpminub	%ymm2,%ymm1,%ymm1
	vpminub	%ymm3,%ymm0,%ymm0
	vpsllw	$12,%ymm0,%ymm2
	vpaddw	%ymm2,%ymm0,%ymm0
	vpsllw	$12,%ymm1,%ymm2
	vpaddw	%ymm2,%ymm1,%ymm1
	vpsrlw	$8,%ymm1,%ymm1
	vpsrlw	$8,%ymm0,%ymm0
	vpackuswb	%ymm1,%ymm0,%ymm0
	vpermq	$216,%ymm0,%ymm0
	vmovdqu	%ymm0,-32(%rdx,%rax)
26:
	xorl	%edx,%edx
	popq	%rbx
	hex_cfi	def_cfa_offset 24
	popq	%r14
	hex_cfi	def_cfa_offset 16
	popq	%r15
	hex_cfi	def_cfa_offset 8
	vzeroupper
	.p2align	5,,1
	retq
28:
	hex_cfi	def_cfa_offset 32
	movzbl	%r8b,%edx
	vzeroupper
	.p2align	5,,5
	callq	faster_hex_1_0_0_x86_64_v3_core_backend_Backend_first_invalid_byte
	movzbl	%dl,%edx
	orl	$256,%edx
	popq	%rbx
	hex_cfi	def_cfa_offset 24
	popq	%r14
	hex_cfi	def_cfa_offset 16
	popq	%r15
	hex_cfi	def_cfa_offset 8
	.p2align	5,,1
	retq
	hex_end	faster_hex_1_0_0_x86_64_v3_core_backend_Backend_decode_or_find_outlined
	hex_cfi	endproc
	hex_merged	32
	.p2align	5,0x0
.L100v3_CPI2_0:
	.zero	32,57
	hex_merged	4
	.p2align	2,0x0
.L100v3_CPI2_1:
	.zero	4,57
	hex_function	faster_hex_1_0_0_x86_64_v3_core_backend_Backend_first_invalid_byte,.text.unlikely
	hex_cfi	startproc
	movzbl	%dl,%ecx
	.p2align	5,,10
	cmpq	$65,%rsi
	jb	1f
	movq	%rsi,%r8
	shrq	$6,%r8
	movl	%ecx,%eax
	shll	$4,%eax
	leaq	.L100v3_static.2(%rip),%r9
	vmovdqu	(%rax,%r9),%xmm0
	leaq	.L100v3_static.3(%rip),%rax
	vpbroadcastb	(%rcx,%rax),%ymm1
	xorl	%eax,%eax
	.p2align	4
4:
	vpbroadcastd	.L100v3_CPI2_1(%rip),%ymm2
	vmovdqu	(%rdi,%rax),%ymm3
	vmovdqu	32(%rdi,%rax),%ymm4
	vpaddb	%ymm2,%ymm3,%ymm5
	vinserti128	$1,%xmm0,%ymm0,%ymm6
	vpshufb	%ymm5,%ymm6,%ymm7
	vpsubb	%ymm3,%ymm7,%ymm3
	vpxor	%ymm5,%ymm3,%ymm3
	vpaddb	%ymm2,%ymm4,%ymm2
	vpshufb	%ymm2,%ymm6,%ymm5
	vpsubb	%ymm4,%ymm5,%ymm4
	vpxor	%ymm2,%ymm4,%ymm2
	vpor	%ymm3,%ymm2,%ymm2
	vptest	%ymm1,%ymm2
	.p2align	5,,6
	jne	6f
	addq	$64,%rax
	.p2align	5,,10
	decq	%r8
	jne	4b
	movq	%rsi,%rax
	andq	$-64,%rax
	.p2align	5,,6
	jmp	6f
1:
	xorl	%eax,%eax
6:
	.p2align	5,,10
	cmpq	%rsi,%rax
	jae	15f
	.p2align	5,,10
	testb	%dl,%dl
	je	11f
	.p2align	5,,10
	cmpl	$1,%ecx
	jne	13f
	.p2align	4
9:
	movzbl	(%rdi,%rax),%edx
	leaq	.L100v3_static.7(%rip),%rcx
	.p2align	5,,10
	cmpb	$-1,(%rdx,%rcx)
	je	16f
	incq	%rax
	.p2align	5,,10
	cmpq	%rax,%rsi
	jne	9b
15:
	ud2
	.p2align	4
12:
	incq	%rax
	.p2align	5,,10
	cmpq	%rax,%rsi
	je	15b
11:
	movzbl	(%rdi,%rax),%edx
	leaq	.L100v3_static.6(%rip),%rcx
	.p2align	5,,10
	cmpb	$-1,(%rdx,%rcx)
	jne	12b
	.p2align	5,,6
	jmp	16f
	.p2align	4
14:
	incq	%rax
	.p2align	5,,10
	cmpq	%rax,%rsi
	je	15b
13:
	movzbl	(%rdi,%rax),%edx
	leaq	.L100v3_static.8(%rip),%rcx
	.p2align	5,,10
	cmpb	$-1,(%rdx,%rcx)
	jne	14b
16:
	vzeroupper
	.p2align	5,,1
	retq
	hex_end	faster_hex_1_0_0_x86_64_v3_core_backend_Backend_first_invalid_byte
	hex_cfi	endproc
	hex_merged	32
	.p2align	5,0x0
.L100v3_CPI3_0:
	.zero	32,57
	hex_merged	16
	.p2align	4,0x0
.L100v3_CPI3_1:
	.zero	16,57
.L100v3_CPI3_2:
	.byte	57,57,57,57,57,57,57,57,0,0,0,0,0,0,0,0
.L100v3_CPI3_3:
	.byte	57,57,57,57,0,0,0,0,0,0,0,0,0,0,0,0
.L100v3_CPI3_4:
	.byte	57,57,0,0,0,0,0,0,0,0,0,0,0,0,0,0
	hex_merged	4
	.p2align	2,0x0
.L100v3_CPI3_5:
	.zero	4,57
	hex_function	faster_hex_1_0_0_x86_64_v3_core_backend_Backend_first_invalid,.text
	hex_cfi	startproc
	pushq	%r15
	hex_cfi	def_cfa_offset 16
	pushq	%r14
	hex_cfi	def_cfa_offset 24
	pushq	%rbx
	hex_cfi	def_cfa_offset 32
	hex_cfi	offset %rbx,-32
	hex_cfi	offset %r14,-24
	hex_cfi	offset %r15,-16
	movl	%edx,%ebx
	movq	%rsi,%rdx
	.p2align	5,,10
	cmpq	$32,%rsi
	ja	7f
	.p2align	5,,10
	cmpq	$15,%rdx
	ja	11f
	.p2align	5,,10
	testq	%rdx,%rdx
	je	34f
	.p2align	5,,10
	cmpq	$1,%rdx
	jne	18f
	movzbl	(%rdi),%ecx
	leal	-48(%rcx),%esi
	xorl	%eax,%eax
	subb	$9,%sil
	movzbl	%sil,%esi
	cmovbl	%eax,%esi
	movzbl	%bl,%r8d
	leaq	.L100v3_static.0(%rip),%r9
	orb	(%r8,%r9),%cl
	leaq	.L100v3_static.1(%rip),%r9
	subb	(%r8,%r9),%cl
	subb	$5,%cl
	movzbl	%cl,%ecx
	cmovbl	%eax,%ecx
	cmpb	%cl,%sil
	cmovbl	%esi,%ecx
	.p2align	5,,10
	testb	%cl,%cl
	jne	28f
	.p2align	5,,6
	jmp	5f
7:
	.p2align	5,,13
	cmpq	$256,%rdx
	ja	13f
	.p2align	5,,10
	cmpq	$64,%rdx
	ja	14f
	vmovdqu	(%rdi),%ymm0
	vpbroadcastd	.L100v3_CPI3_5(%rip),%ymm1
	movzbl	%bl,%eax
	leaq	.L100v3_static.3(%rip),%rcx
	vpbroadcastb	(%rax,%rcx),%ymm2
	vpaddb	%ymm1,%ymm0,%ymm3
	shll	$4,%eax
	leaq	.L100v3_static.2(%rip),%rcx
	vbroadcasti128	(%rax,%rcx),%ymm4
	vpshufb	%ymm3,%ymm4,%ymm5
	vpsubb	%ymm0,%ymm5,%ymm0
	vpxor	%ymm3,%ymm0,%ymm0
	vmovdqu	-32(%rdi,%rdx),%ymm3
	vpaddb	%ymm1,%ymm3,%ymm1
	vpshufb	%ymm1,%ymm4,%ymm4
	vpsubb	%ymm3,%ymm4,%ymm3
	vpxor	%ymm1,%ymm3,%ymm1
	vpor	%ymm0,%ymm1,%ymm0
	xorl	%eax,%eax
	vptest	%ymm2,%ymm0
	.p2align	5,,6
	jne	28f
	.p2align	5,,6
	jmp	5f
11:
	vmovdqu	(%rdi),%xmm0
	vpbroadcastd	.L100v3_CPI3_5(%rip),%xmm1
	movzbl	%bl,%eax
	leaq	.L100v3_static.3(%rip),%rcx
	vpbroadcastb	(%rax,%rcx),%xmm2
	vpaddb	%xmm1,%xmm0,%xmm3
	shll	$4,%eax
	leaq	.L100v3_static.2(%rip),%rcx
	vmovdqu	(%rax,%rcx),%xmm4
	vpshufb	%xmm3,%xmm4,%xmm5
	vpsubb	%xmm0,%xmm5,%xmm0
	vpxor	%xmm3,%xmm0,%xmm0
	vmovdqu	-16(%rdi,%rdx),%xmm3
	vpaddb	%xmm1,%xmm3,%xmm1
	vpshufb	%xmm1,%xmm4,%xmm4
	vpsubb	%xmm3,%xmm4,%xmm3
	vpxor	%xmm1,%xmm3,%xmm1
	vpor	%xmm0,%xmm1,%xmm0
	xorl	%eax,%eax
	vptest	%xmm2,%xmm0
	.p2align	5,,6
	jne	28f
5:
	xorl	%edx,%edx
	popq	%rbx
	hex_cfi	def_cfa_offset 24
	popq	%r14
	hex_cfi	def_cfa_offset 16
	popq	%r15
	hex_cfi	def_cfa_offset 8
	vzeroupper
	.p2align	5,,1
	retq
13:
	hex_cfi	def_cfa_offset 32
	movzbl	%bl,%eax
	movq	%rdi,%r14
	movq	%rdx,%r15
	movq	%rdx,%rsi
	movl	%eax,%edx
	.p2align	5,,5
	callq	faster_hex_1_0_0_x86_64_v3_core_plain_check_long_outlined
	movq	%r14,%rdi
	movq	%r15,%rdx
	.p2align	5,,10
	testb	%al,%al
	je	24f
	.p2align	5,,6
	jmp	33f
14:
	movzbl	%bl,%eax
	movl	%eax,%ecx
	shll	$4,%ecx
	leaq	.L100v3_static.2(%rip),%rsi
	vmovdqu	(%rcx,%rsi),%xmm0
	vpbroadcastd	.L100v3_CPI3_5(%rip),%ymm2
	.p2align	5,,13
	cmpq	$128,%rdx
	ja	21f
	vmovdqu	(%rdi),%ymm1
	vmovdqu	32(%rdi),%ymm3
	vpaddb	%ymm2,%ymm1,%ymm4
	vinserti128	$1,%xmm0,%ymm0,%ymm5
	vpshufb	%ymm4,%ymm5,%ymm6
	vpsubb	%ymm1,%ymm6,%ymm1
	vpxor	%ymm4,%ymm1,%ymm1
	vpaddb	%ymm2,%ymm3,%ymm4
	vpshufb	%ymm4,%ymm5,%ymm6
	vpsubb	%ymm3,%ymm6,%ymm3
	vpxor	%ymm4,%ymm3,%ymm3
	vpor	%ymm1,%ymm3,%ymm1
	vmovdqu	-32(%rdi,%rdx),%ymm3
	vpaddb	%ymm2,%ymm3,%ymm2
	vpshufb	%ymm2,%ymm5,%ymm4
	vpsubb	%ymm3,%ymm4,%ymm3
	vpxor	%ymm2,%ymm3,%ymm2
	.p2align	5,,10
	cmpq	$97,%rdx
	jb	17f
	vmovdqu	-64(%rdi,%rdx),%ymm3
	vpaddb	.L100v3_CPI3_0(%rip),%ymm3,%ymm4
	vinserti128	$1,%xmm0,%ymm0,%ymm0
	vpshufb	%ymm4,%ymm0,%ymm0
	vpsubb	%ymm3,%ymm0,%ymm0
	vpxor	%ymm4,%ymm0,%ymm0
	vpor	%ymm1,%ymm0,%ymm1
17:
	leaq	.L100v3_static.3(%rip),%rcx
	vpbroadcastb	(%rax,%rcx),%ymm0
	vpor	%ymm2,%ymm1,%ymm1
	vptest	%ymm1,%ymm0
	.p2align	5,,6
	jne	24f
	.p2align	5,,6
	jmp	33f
18:
	.p2align	5,,10
	cmpq	$3,%rdx
	ja	40f
	movzwl	(%rdi),%eax
	vmovd	%eax,%xmm0
	vpbroadcastd	.L100v3_CPI3_5(%rip),%xmm1
	vpaddb	%xmm1,%xmm0,%xmm2
	movzbl	%bl,%eax
	leaq	.L100v3_static.3(%rip),%rcx
	vpbroadcastb	(%rax,%rcx),%xmm3
	shll	$4,%eax
	leaq	.L100v3_static.2(%rip),%rcx
	vmovdqu	(%rax,%rcx),%xmm4
	vpshufb	%xmm2,%xmm4,%xmm5
	vpsubb	%xmm0,%xmm5,%xmm0
	vpxor	%xmm2,%xmm0,%xmm0
	movzwl	-2(%rdi,%rdx),%eax
	vmovd	%eax,%xmm2
	vpaddb	%xmm1,%xmm2,%xmm1
	vpshufb	%xmm1,%xmm4,%xmm4
	vpsubb	%xmm2,%xmm4,%xmm2
	vpxor	%xmm1,%xmm2,%xmm1
	vpor	%xmm0,%xmm1,%xmm0
	vpand	%xmm3,%xmm0,%xmm0
	vmovd	%xmm0,%ecx
	xorl	%eax,%eax
	.p2align	5,,10
	testw	%cx,%cx
	jne	28f
	.p2align	5,,6
	jmp	5b
21:
	vmovdqu	(%rdi),%ymm1
	vmovdqu	32(%rdi),%ymm3
	vmovdqu	64(%rdi),%ymm4
	vmovdqu	96(%rdi),%ymm5
	vpaddb	%ymm2,%ymm3,%ymm6
	vpaddb	%ymm2,%ymm1,%ymm7
	vinserti128	$1,%xmm0,%ymm0,%ymm8
	vpshufb	%ymm7,%ymm8,%ymm9
	vpshufb	%ymm6,%ymm8,%ymm10
	vpsubb	%ymm3,%ymm10,%ymm3
	vpsubb	%ymm1,%ymm9,%ymm1
	vpxor	%ymm7,%ymm1,%ymm1
	vpxor	%ymm6,%ymm3,%ymm3
	vpaddb	%ymm2,%ymm5,%ymm6
	vpaddb	%ymm2,%ymm4,%ymm7
	vpshufb	%ymm7,%ymm8,%ymm9
	vpshufb	%ymm6,%ymm8,%ymm10
	vpsubb	%ymm5,%ymm10,%ymm5
	vpsubb	%ymm4,%ymm9,%ymm4
	vpxor	%ymm7,%ymm4,%ymm4
	vpor	%ymm1,%ymm4,%ymm1
	vpxor	%ymm6,%ymm5,%ymm4
	vpor	%ymm3,%ymm4,%ymm3
	vmovdqu	-64(%rdi,%rdx),%ymm4
	vmovdqu	-32(%rdi,%rdx),%ymm5
	vpaddb	%ymm2,%ymm5,%ymm6
	vpaddb	%ymm2,%ymm4,%ymm7
	vpshufb	%ymm7,%ymm8,%ymm9
	vpshufb	%ymm6,%ymm8,%ymm8
	vpsubb	%ymm4,%ymm9,%ymm4
	vpsubb	%ymm5,%ymm8,%ymm5
	vpxor	%ymm6,%ymm5,%ymm5
	vpxor	%ymm7,%ymm4,%ymm4
	.p2align	5,,13
	cmpq	$193,%rdx
	jb	23f
	vmovdqu	-128(%rdi,%rdx),%ymm6
	vmovdqu	-96(%rdi,%rdx),%ymm7
	vpaddb	%ymm2,%ymm7,%ymm8
	vpaddb	%ymm2,%ymm6,%ymm2
	vinserti128	$1,%xmm0,%ymm0,%ymm0
	vpshufb	%ymm2,%ymm0,%ymm9
	vpshufb	%ymm8,%ymm0,%ymm0
	vpsubb	%ymm7,%ymm0,%ymm0
	vpsubb	%ymm6,%ymm9,%ymm6
	vpxor	%ymm2,%ymm6,%ymm2
	vpxor	%ymm0,%ymm8,%ymm0
	vpor	%ymm3,%ymm0,%ymm3
	vpor	%ymm1,%ymm2,%ymm1
23:
	vpor	%ymm5,%ymm3,%ymm0
	leaq	.L100v3_static.3(%rip),%rcx
	vpbroadcastb	(%rax,%rcx),%ymm2
	vpor	%ymm4,%ymm1,%ymm1
	vpor	%ymm0,%ymm1,%ymm0
	vptest	%ymm0,%ymm2
	.p2align	5,,6
	je	33f
24:
	movq	%rdx,%rcx
	shrq	$6,%rcx
	movzbl	%bl,%eax
	leaq	.L100v3_static.3(%rip),%rsi
	vpbroadcastb	(%rax,%rsi),%ymm0
	shll	$4,%eax
	leaq	.L100v3_static.2(%rip),%rsi
	vmovdqu	(%rax,%rsi),%xmm1
	xorl	%eax,%eax
	.p2align	4
25:
	vpbroadcastd	.L100v3_CPI3_5(%rip),%ymm2
	vmovdqu	(%rdi,%rax),%ymm3
	vmovdqu	32(%rdi,%rax),%ymm4
	vpaddb	%ymm2,%ymm3,%ymm5
	vinserti128	$1,%xmm1,%ymm1,%ymm6
	vpshufb	%ymm5,%ymm6,%ymm7
	vpsubb	%ymm3,%ymm7,%ymm3
	vpxor	%ymm5,%ymm3,%ymm3
	vpaddb	%ymm2,%ymm4,%ymm2
	vpshufb	%ymm2,%ymm6,%ymm5
	vpsubb	%ymm4,%ymm5,%ymm4
	vpxor	%ymm2,%ymm4,%ymm2
	vpor	%ymm3,%ymm2,%ymm2
	vptest	%ymm0,%ymm2
	.p2align	5,,6
	jne	28f
	addq	$64,%rax
	.p2align	5,,10
	decq	%rcx
	jne	25b
	movq	%rdx,%rax
	andq	$-64,%rax
28:
	.p2align	5,,10
	cmpq	%rdx,%rax
	jae	33f
	.p2align	5,,10
	testb	%bl,%bl
	je	36f
	movzbl	%bl,%ecx
	.p2align	5,,10
	cmpl	$1,%ecx
	jne	38f
	.p2align	4
31:
	movzbl	(%rdi,%rax),%ecx
	leaq	.L100v3_static.7(%rip),%rsi
	.p2align	5,,10
	cmpb	$-1,(%rcx,%rsi)
	je	39f
	incq	%rax
	.p2align	5,,10
	cmpq	%rax,%rdx
	jne	31b
33:
	xorl	%edx,%edx
34:
	xorl	%eax,%eax
	popq	%rbx
	hex_cfi	def_cfa_offset 24
	popq	%r14
	hex_cfi	def_cfa_offset 16
	popq	%r15
	hex_cfi	def_cfa_offset 8
	vzeroupper
	.p2align	5,,1
	retq
	.p2align	4
35:
	hex_cfi	def_cfa_offset 32
	incq	%rax
	.p2align	5,,10
	cmpq	%rax,%rdx
	je	33b
36:
	movzbl	(%rdi,%rax),%ecx
	leaq	.L100v3_static.6(%rip),%rsi
	.p2align	5,,10
	cmpb	$-1,(%rcx,%rsi)
	jne	35b
	.p2align	5,,6
	jmp	39f
	.p2align	4
37:
	incq	%rax
	.p2align	5,,10
	cmpq	%rax,%rdx
	je	33b
38:
	movzbl	(%rdi,%rax),%ecx
	leaq	.L100v3_static.8(%rip),%rsi
	.p2align	5,,10
	cmpb	$-1,(%rcx,%rsi)
	jne	37b
39:
	movq	%rax,%rdx
	movb	$1,%al
	popq	%rbx
	hex_cfi	def_cfa_offset 24
	popq	%r14
	hex_cfi	def_cfa_offset 16
	popq	%r15
	hex_cfi	def_cfa_offset 8
	vzeroupper
	.p2align	5,,1
	retq
40:
	hex_cfi	def_cfa_offset 32
	movzbl	%bl,%ecx
	leaq	.L100v3_static.3(%rip),%rax
	movzbl	(%rcx,%rax),%eax
	shll	$4,%ecx
	leaq	.L100v3_static.2(%rip),%rsi
	vmovdqu	(%rcx,%rsi),%xmm0
	.p2align	5,,10
	cmpq	$7,%rdx
	ja	43f
	vmovd	(%rdi),%xmm1
	vpbroadcastd	.L100v3_CPI3_5(%rip),%xmm2
	vpaddb	%xmm2,%xmm1,%xmm3
	vpshufb	%xmm3,%xmm0,%xmm4
	vpsubb	%xmm1,%xmm4,%xmm1
	vpxor	%xmm3,%xmm1,%xmm1
	vmovd	-4(%rdi,%rdx),%xmm3
	vpaddb	%xmm2,%xmm3,%xmm2
	vpshufb	%xmm2,%xmm0,%xmm0
	vpsubb	%xmm3,%xmm0,%xmm0
	vpxor	%xmm2,%xmm0,%xmm0
	vpor	%xmm1,%xmm0,%xmm0
	vmovd	%eax,%xmm1
	vpbroadcastb	%xmm1,%xmm1
	vpand	%xmm1,%xmm0,%xmm0
	vmovd	%xmm0,%ecx
	xorl	%eax,%eax
	.p2align	5,,10
	testl	%ecx,%ecx
	jne	28b
	.p2align	5,,6
	jmp	5b
43:
	vmovq	(%rdi),%xmm1
	vpbroadcastd	.L100v3_CPI3_5(%rip),%xmm2
	vpaddb	%xmm2,%xmm1,%xmm3
	vpshufb	%xmm3,%xmm0,%xmm4
	vpsubb	%xmm1,%xmm4,%xmm1
	vpxor	%xmm3,%xmm1,%xmm1
	vmovq	-8(%rdi,%rdx),%xmm3
	vpaddb	%xmm2,%xmm3,%xmm2
	vpshufb	%xmm2,%xmm0,%xmm0
	vpsubb	%xmm3,%xmm0,%xmm0
	vpxor	%xmm2,%xmm0,%xmm0
	vpor	%xmm1,%xmm0,%xmm0
	vmovd	%eax,%xmm1
	vpbroadcastb	%xmm1,%xmm1
	vpand	%xmm1,%xmm0,%xmm0
	vmovq	%xmm0,%rcx
	xorl	%eax,%eax
	.p2align	5,,10
	testq	%rcx,%rcx
	jne	28b
	.p2align	5,,6
	jmp	5b
	hex_end	faster_hex_1_0_0_x86_64_v3_core_backend_Backend_first_invalid
	hex_cfi	endproc
	hex_merged	32
	.p2align	5,0x0
.L100v3_CPI4_0:
	.zero	32,55
.L100v3_CPI4_1:
	.zero	32,240
	hex_merged	8
	.p2align	3,0x0
.L100v3_CPI4_2:
	.quad	-1085102592571150096
	hex_merged	16
	.p2align	4,0x0
.L100v3_CPI4_3:
	.zero	16,55
.L100v3_CPI4_4:
	.zero	16,240
.L100v3_CPI4_5:
	.byte	1,3,5,7,9,11,13,15,0,0,0,0,0,0,0,0
.L100v3_CPI4_6:
	.byte	55,55,55,55,55,55,55,55,0,0,0,0,0,0,0,0
.L100v3_CPI4_7:
	.byte	240,240,240,240,240,240,240,240,0,0,0,0,0,0,0,0
.L100v3_CPI4_8:
	.short	4097
	.short	4097
	.short	4097
	.short	4097
	.byte	0,0,0,0,0,0,0,0
.L100v3_CPI4_9:
	.byte	1,3,5,7,9,11,13,15,1,3,5,7,9,11,13,15
.L100v3_CPI4_10:
	.byte	55,55,55,55,0,0,0,0,0,0,0,0,0,0,0,0
.L100v3_CPI4_11:
	.byte	240,240,240,240,0,0,0,0,0,0,0,0,0,0,0,0
.L100v3_CPI4_12:
	.short	4097
	.short	4097
	.byte	0,0,0,0,0,0,0,0,0,0,0,0
	hex_merged	4
	.p2align	2,0x0
.L100v3_CPI4_13:
	.zero	4,55
	hex_function	faster_hex_1_0_0_x86_64_v3_codec_pieces_read_long_piece,.text
	hex_cfi	startproc
	pushq	%rax
	hex_cfi	def_cfa_offset 16
	.p2align	5,,10
	testb	$1,%sil
	jne	30f
	movq	%rcx,%rax
	movq	%rsi,%rcx
	shrq	%rcx
	.p2align	5,,10
	cmpq	%rcx,%rax
	jb	30f
	.p2align	5,,13
	cmpq	$192,%rsi
	ja	29f
	.p2align	5,,10
	cmpq	$15,%rsi
	ja	13f
	.p2align	5,,10
	cmpq	$2,%rsi
	jb	22f
	.p2align	5,,10
	cmpq	$3,%rsi
	ja	8f
	movzwl	(%rdi),%eax
	vmovd	%eax,%xmm0
	vpinsrw	$1,-2(%rdi,%rsi),%xmm0,%xmm0
	vpsubusb	.L100v3_CPI4_10(%rip),%xmm0,%xmm1
	movzbl	%r8b,%eax
	leaq	.L100v3_static.0(%rip),%r9
	vpbroadcastb	(%rax,%r9),%xmm2
	shll	$4,%eax
	leaq	.L100v3_static.9(%rip),%r9
	vmovdqu	(%rax,%r9),%xmm3
	vpshufb	%xmm1,%xmm3,%xmm3
	vpsubusb	%xmm1,%xmm3,%xmm1
	vpxor	%xmm0,%xmm2,%xmm0
	vpxor	%xmm0,%xmm1,%xmm0
	vpand	.L100v3_CPI4_11(%rip),%xmm0,%xmm1
	vmovd	%xmm1,%eax
	.p2align	5,,10
	testl	%eax,%eax
	jne	29f
	vpmullw	.L100v3_CPI4_12(%rip),%xmm0,%xmm0
	vpextrb	$1,%xmm0,(%rdx)
	vpextrb	$3,%xmm0,-1(%rdx,%rcx)
	popq	%rax
	hex_cfi	def_cfa_offset 8
	.p2align	5,,1
	retq
13:
	hex_cfi	def_cfa_offset 16
	.p2align	5,,10
	cmpq	$32,%rsi
	ja	19f
	.p2align	5,,6
	jne	17f
	vmovdqu	(%rdi),%ymm0
	movzbl	%r8b,%eax
	leaq	.L100v3_static.0(%rip),%r9
	vpbroadcastb	(%rax,%r9),%ymm1
	vpsubusb	.L100v3_CPI4_0(%rip),%ymm0,%ymm2
	shll	$4,%eax
	leaq	.L100v3_static.9(%rip),%r9
	vbroadcasti128	(%rax,%r9),%ymm3
	vpshufb	%ymm2,%ymm3,%ymm3
	vpsubusb	%ymm2,%ymm3,%ymm2
	vpxor	%ymm0,%ymm1,%ymm0
	vpxor	%ymm0,%ymm2,%ymm0
	vpbroadcastq	.L100v3_CPI4_2(%rip),%ymm1
	vptest	%ymm1,%ymm0
	.p2align	5,,6
	jne	29f
	vpsllw	$12,%ymm0,%ymm1
	vpaddw	%ymm1,%ymm0,%ymm0
	vpsrlw	$8,%ymm0,%ymm0
	vextracti128	$1,%ymm0,%xmm1
	vpackuswb	%xmm1,%xmm0,%xmm0
	vmovdqu	%xmm0,(%rdx)
	popq	%rax
	hex_cfi	def_cfa_offset 8
	vzeroupper
	.p2align	5,,1
	retq
19:
	hex_cfi	def_cfa_offset 16
	.p2align	5,,10
	cmpq	$64,%rsi
	ja	23f
	vmovdqu	-32(%rdi,%rsi),%ymm0
	vpbroadcastd	.L100v3_CPI4_13(%rip),%ymm1
	vpsubusb	%ymm1,%ymm0,%ymm2
	movzbl	%r8b,%eax
	leaq	.L100v3_static.0(%rip),%r9
	vpbroadcastb	(%rax,%r9),%ymm3
	shll	$4,%eax
	leaq	.L100v3_static.9(%rip),%r9
	vbroadcasti128	(%rax,%r9),%ymm4
	vpshufb	%ymm2,%ymm4,%ymm5
	vpsubusb	%ymm2,%ymm5,%ymm2
	vmovdqu	(%rdi),%ymm5
	vpsubusb	%ymm1,%ymm5,%ymm1
	vpshufb	%ymm1,%ymm4,%ymm4
	vpsubusb	%ymm1,%ymm4,%ymm4
	vpxor	%ymm0,%ymm3,%ymm0
	vpxor	%ymm0,%ymm2,%ymm1
	vpxor	%ymm5,%ymm3,%ymm0
	vpxor	%ymm0,%ymm4,%ymm0
	vpor	%ymm1,%ymm0,%ymm2
	vptest	.L100v3_CPI4_1(%rip),%ymm2
	.p2align	5,,6
	jne	29f
	vpsllw	$12,%ymm1,%ymm2
	vpaddw	%ymm2,%ymm1,%ymm1
	vpsllw	$12,%ymm0,%ymm2
	vpaddw	%ymm2,%ymm0,%ymm0
	vpsrlw	$8,%ymm0,%ymm0
	vpsrlw	$8,%ymm1,%ymm1
	vpackuswb	%ymm1,%ymm0,%ymm0
	vpermq	$216,%ymm0,%ymm0
	vmovdqu	%xmm0,(%rdx)
	vextracti128	$1,%ymm0,-16(%rdx,%rcx)
	popq	%rax
	hex_cfi	def_cfa_offset 8
	vzeroupper
	.p2align	5,,1
	retq
8:
	hex_cfi	def_cfa_offset 16
	movzbl	%r8b,%eax
	movl	%eax,%r9d
	shll	$4,%r9d
	leaq	.L100v3_static.9(%rip),%r10
	vmovdqu	(%r9,%r10),%xmm0
	.p2align	5,,10
	cmpq	$7,%rsi
	ja	11f
	vmovd	(%rdi),%xmm1
	vpinsrd	$1,-4(%rdi,%rsi),%xmm1,%xmm1
	vpsubusb	.L100v3_CPI4_6(%rip),%xmm1,%xmm2
	leaq	.L100v3_static.0(%rip),%r9
	vpbroadcastb	(%rax,%r9),%xmm3
	vpshufb	%xmm2,%xmm0,%xmm0
	vpsubusb	%xmm2,%xmm0,%xmm0
	vpxor	%xmm3,%xmm0,%xmm0
	vpxor	%xmm1,%xmm0,%xmm0
	vpand	.L100v3_CPI4_7(%rip),%xmm0,%xmm1
	vmovq	%xmm1,%rax
	.p2align	5,,10
	testq	%rax,%rax
	jne	29f
	vpmullw	.L100v3_CPI4_8(%rip),%xmm0,%xmm0
	vpshufb	.L100v3_CPI4_9(%rip),%xmm0,%xmm0
	vpextrw	$0,%xmm0,(%rdx)
	vpextrw	$1,%xmm0,-2(%rdx,%rcx)
	popq	%rax
	hex_cfi	def_cfa_offset 8
	.p2align	5,,1
	retq
17:
	hex_cfi	def_cfa_offset 16
	vmovdqu	(%rdi),%xmm0
	vinserti128	$1,-16(%rdi,%rsi),%ymm0,%ymm0
	movzbl	%r8b,%eax
	leaq	.L100v3_static.0(%rip),%r9
	vpbroadcastb	(%rax,%r9),%ymm1
	vpsubusb	.L100v3_CPI4_0(%rip),%ymm0,%ymm2
	shll	$4,%eax
	leaq	.L100v3_static.9(%rip),%r9
	vbroadcasti128	(%rax,%r9),%ymm3
	vpshufb	%ymm2,%ymm3,%ymm3
	vpsubusb	%ymm2,%ymm3,%ymm2
	vpxor	%ymm0,%ymm1,%ymm0
	vpxor	%ymm0,%ymm2,%ymm0
	vpbroadcastq	.L100v3_CPI4_2(%rip),%ymm1
	vptest	%ymm1,%ymm0
	.p2align	5,,6
	jne	29f
	vpsllw	$12,%ymm0,%ymm1
	vpaddw	%ymm1,%ymm0,%ymm0
	vpsrlw	$8,%ymm0,%ymm0
	vextracti128	$1,%ymm0,%xmm1
	vpackuswb	%xmm1,%xmm0,%xmm0
	vmovq	%xmm0,(%rdx)
	vpextrq	$1,%xmm0,-8(%rdx,%rcx)
	popq	%rax
	hex_cfi	def_cfa_offset 8
	vzeroupper
	.p2align	5,,1
	retq
23:
	hex_cfi	def_cfa_offset 16
	movzbl	%r8b,%eax
	leaq	.L100v3_static.0(%rip),%r9
	vpbroadcastb	(%rax,%r9),%ymm2
	shll	$4,%eax
	vmovdqu	(%rdi),%ymm0
	vmovdqu	32(%rdi),%ymm1
	vpbroadcastd	.L100v3_CPI4_13(%rip),%ymm3
	vpsubusb	%ymm3,%ymm1,%ymm5
	vpsubusb	%ymm3,%ymm0,%ymm6
	leaq	.L100v3_static.9(%rip),%r9
	vbroadcasti128	(%rax,%r9),%ymm4
	vpshufb	%ymm5,%ymm4,%ymm7
	vpsubusb	%ymm5,%ymm7,%ymm5
	vpshufb	%ymm6,%ymm4,%ymm7
	vpsubusb	%ymm6,%ymm7,%ymm6
	vpxor	%ymm2,%ymm1,%ymm1
	vpxor	%ymm1,%ymm5,%ymm1
	vpxor	%ymm2,%ymm0,%ymm0
	vpxor	%ymm0,%ymm6,%ymm0
	.p2align	5,,13
	cmpq	$128,%rsi
	ja	27f
	vmovdqu	-64(%rdi,%rsi),%ymm5
	vmovdqu	-32(%rdi,%rsi),%ymm6
	vpsubusb	%ymm3,%ymm6,%ymm7
	vpsubusb	%ymm3,%ymm5,%ymm3
	vinserti128	$1,%xmm4,%ymm4,%ymm4
	vpshufb	%ymm3,%ymm4,%ymm8
	vpshufb	%ymm7,%ymm4,%ymm4
	vpsubusb	%ymm3,%ymm8,%ymm3
	vpsubusb	%ymm7,%ymm4,%ymm4
	vpxor	%ymm2,%ymm5,%ymm5
	vpxor	%ymm3,%ymm5,%ymm3
	vpxor	%ymm2,%ymm6,%ymm2
	vpxor	%ymm4,%ymm2,%ymm2
	vpor	%ymm1,%ymm2,%ymm4
	vpor	%ymm0,%ymm3,%ymm5
	vpor	%ymm4,%ymm5,%ymm4
	vptest	.L100v3_CPI4_1(%rip),%ymm4
	.p2align	5,,6
	jne	29f
	vpsllw	$12,%ymm1,%ymm4
	vpaddw	%ymm4,%ymm1,%ymm1
	vpsllw	$12,%ymm0,%ymm4
	vpaddw	%ymm4,%ymm0,%ymm0
	vpsrlw	$8,%ymm0,%ymm0
	vpsrlw	$8,%ymm1,%ymm1
	vpackuswb	%ymm1,%ymm0,%ymm0
	vpermq	$216,%ymm0,%ymm0
	vmovdqu	%ymm0,(%rdx)
	.p2align	5,,6
	jmp	26f
11:
	vmovq	-8(%rdi,%rsi),%xmm1
	vmovq	(%rdi),%xmm2
	vpunpcklqdq	%xmm1,%xmm2,%xmm1
	vpsubusb	.L100v3_CPI4_3(%rip),%xmm1,%xmm2
	vpshufb	%xmm2,%xmm0,%xmm0
	vpsubusb	%xmm2,%xmm0,%xmm0
	leaq	.L100v3_static.0(%rip),%r9
	vpbroadcastb	(%rax,%r9),%xmm2
	vpxor	%xmm1,%xmm2,%xmm1
	vpxor	%xmm1,%xmm0,%xmm0
	vptest	.L100v3_CPI4_4(%rip),%xmm0
	.p2align	5,,6
	jne	29f
	vpsllw	$12,%xmm0,%xmm1
	vpaddw	%xmm1,%xmm0,%xmm0
	vpshufb	.L100v3_CPI4_5(%rip),%xmm0,%xmm0
	vmovd	%xmm0,(%rdx)
	vpextrd	$1,%xmm0,-4(%rdx,%rcx)
	popq	%rax
	hex_cfi	def_cfa_offset 8
	.p2align	5,,1
	retq
27:
	hex_cfi	def_cfa_offset 16
	vmovdqu	64(%rdi),%ymm6
	vmovdqu	96(%rdi),%ymm5
	vpsubusb	%ymm3,%ymm5,%ymm7
	vpsubusb	%ymm3,%ymm6,%ymm8
	vinserti128	$1,%xmm4,%ymm4,%ymm9
	vpshufb	%ymm8,%ymm9,%ymm4
	vpshufb	%ymm7,%ymm9,%ymm10
	vpsubusb	%ymm7,%ymm10,%ymm7
	vpsubusb	%ymm8,%ymm4,%ymm4
	vpxor	%ymm2,%ymm5,%ymm5
	vpxor	%ymm7,%ymm5,%ymm5
	vpxor	%ymm2,%ymm6,%ymm6
	vpxor	%ymm4,%ymm6,%ymm4
	vmovdqu	-64(%rdi,%rsi),%ymm6
	vmovdqu	-32(%rdi,%rsi),%ymm7
	vpsubusb	%ymm3,%ymm7,%ymm8
	vpsubusb	%ymm3,%ymm6,%ymm3
	vpshufb	%ymm3,%ymm9,%ymm10
	vpshufb	%ymm8,%ymm9,%ymm9
	vpsubusb	%ymm3,%ymm10,%ymm3
	vpsubusb	%ymm8,%ymm9,%ymm8
	vpxor	%ymm6,%ymm2,%ymm6
	vpxor	%ymm3,%ymm6,%ymm3
	vpxor	%ymm7,%ymm2,%ymm2
	vpxor	%ymm2,%ymm8,%ymm2
	vpor	%ymm0,%ymm4,%ymm6
	vpor	%ymm1,%ymm5,%ymm7
	vpor	%ymm2,%ymm7,%ymm7
	vpor	%ymm3,%ymm6,%ymm6
	vpor	%ymm7,%ymm6,%ymm6
	vptest	.L100v3_CPI4_1(%rip),%ymm6
	.p2align	5,,6
	je	28f
29:
	movzbl	%r8b,%r8d
	vzeroupper
	.p2align	5,,5
	callq	faster_hex_1_0_0_x86_64_v3_core_backend_Backend_decode_or_find_outlined
	.p2align	5,,10
	testw	%dx,%dx
	jne	30f
22:
	popq	%rax
	hex_cfi	def_cfa_offset 8
	.p2align	5,,1
	retq
28:
	hex_cfi	def_cfa_offset 16
	vpsllw	$12,%ymm1,%ymm6
	vpaddw	%ymm6,%ymm1,%ymm1
	vpsllw	$12,%ymm0,%ymm6
	vpaddw	%ymm6,%ymm0,%ymm0
	vpsrlw	$8,%ymm0,%ymm0
	vpsrlw	$8,%ymm1,%ymm1
	vpackuswb	%ymm1,%ymm0,%ymm0
	vpermq	$216,%ymm0,%ymm0
	vmovdqu	%ymm0,(%rdx)
	vpsllw	$12,%ymm5,%ymm0
	vpaddw	%ymm0,%ymm5,%ymm0
	vpsllw	$12,%ymm4,%ymm1
	vpaddw	%ymm1,%ymm4,%ymm1
	vpsrlw	$8,%ymm1,%ymm1
	vpsrlw	$8,%ymm0,%ymm0
	vpackuswb	%ymm0,%ymm1,%ymm0
	vpermq	$216,%ymm0,%ymm0
	vmovdqu	%ymm0,32(%rdx)
26:
	vpsllw	$12,%ymm2,%ymm0
	vpaddw	%ymm0,%ymm2,%ymm0
	vpsllw	$12,%ymm3,%ymm1
	vpaddw	%ymm1,%ymm3,%ymm1
	vpsrlw	$8,%ymm1,%ymm1
	vpsrlw	$8,%ymm0,%ymm0
	vpackuswb	%ymm0,%ymm1,%ymm0
	vpermq	$216,%ymm0,%ymm0
	vmovdqu	%ymm0,-32(%rdx,%rcx)
	popq	%rax
	hex_cfi	def_cfa_offset 8
	vzeroupper
	.p2align	5,,1
	retq
30:
	hex_cfi	def_cfa_offset 16
	ud2
	hex_end	faster_hex_1_0_0_x86_64_v3_codec_pieces_read_long_piece
	hex_cfi	endproc
	hex_merged	32
	.p2align	5,0x0
.L100v3_CPI5_0:
	.zero	32,32
	hex_function	faster_hex_1_0_0_x86_64_v3_codec_spaced_run_len,.text
	hex_cfi	startproc
	cmpq	$192,%rsi
	movl	$192,%eax
	cmovbq	%rsi,%rax
	xorl	%ecx,%ecx
	testq	%rsi,%rsi
	setne	%cl
	.p2align	5,,10
	cmpq	$32,%rsi
	jae	1f
	.p2align	4
	.p2align	5,,10
	cmpq	%rcx,%rax
	je	8f
6:
	.p2align	5,,10
	cmpb	$33,(%rdi,%rcx)
	jb	7f
	incq	%rcx
	.p2align	5,,10
	cmpq	%rcx,%rax
	jne	6b
8:
	vzeroupper
	.p2align	5,,1
	retq
1:
	leaq	-32(%rax),%rdx
	.p2align	4
2:
	cmpq	%rcx,%rdx
	cmovbq	%rdx,%rcx
	vmovdqu	(%rdi,%rcx),%ymm0
	vpminub	.L100v3_CPI5_0(%rip),%ymm0,%ymm1
	vpcmpeqb	%ymm1,%ymm0,%ymm0
	vpmovmskb	%ymm0,%esi
	.p2align	5,,10
	testl	%esi,%esi
	jne	3f
	addq	$32,%rcx
	.p2align	5,,10
	cmpq	%rax,%rcx
	jb	2b
	.p2align	5,,6
	jmp	8b
3:
	xorl	%edx,%edx
	tzcntl	%esi,%edx
	addq	%rdx,%rcx
	cmpq	%rcx,%rax
	cmovaeq	%rcx,%rax
	testq	%rcx,%rcx
	movl	$1,%ecx
	cmoveq	%rcx,%rax
	vzeroupper
	.p2align	5,,1
	retq
7:
	movq	%rcx,%rax
	.p2align	5,,1
	retq
	hex_end	faster_hex_1_0_0_x86_64_v3_codec_spaced_run_len
	hex_cfi	endproc
	hex_merged	32
	.p2align	5,0x0
.L100v3_CPI6_0:
	.zero	32,57
	hex_merged	16
	.p2align	4,0x0
.L100v3_CPI6_1:
	.zero	16,57
.L100v3_CPI6_2:
	.byte	57,57,57,57,57,57,57,57,0,0,0,0,0,0,0,0
.L100v3_CPI6_3:
	.byte	57,57,57,57,0,0,0,0,0,0,0,0,0,0,0,0
.L100v3_CPI6_4:
	.byte	57,57,0,0,0,0,0,0,0,0,0,0,0,0,0,0
	hex_merged	4
	.p2align	2,0x0
.L100v3_CPI6_5:
	.zero	4,57
	hex_function	faster_hex_1_0_0_x86_64_v3_codec_spaced_line_count,.text
	hex_cfi	startproc
	pushq	%rbp
	hex_cfi	def_cfa_offset 16
	pushq	%r15
	hex_cfi	def_cfa_offset 24
	pushq	%r14
	hex_cfi	def_cfa_offset 32
	pushq	%r13
	hex_cfi	def_cfa_offset 40
	pushq	%r12
	hex_cfi	def_cfa_offset 48
	pushq	%rbx
	hex_cfi	def_cfa_offset 56
	subq	$24,%rsp
	hex_cfi	def_cfa_offset 80
	hex_cfi	offset %rbx,-56
	hex_cfi	offset %r12,-48
	hex_cfi	offset %r13,-40
	hex_cfi	offset %r14,-32
	hex_cfi	offset %r15,-24
	hex_cfi	offset %rbp,-16
	.p2align	5,,10
	testq	%rdx,%rdx
	je	4f
	movq	%rcx,%r15
	movq	%rdx,%r11
	movq	%rsi,%r12
	.p2align	5,,10
	cmpq	$33,%rdx
	jae	6f
2:
	leaq	(%r15,%r11),%r9
	.p2align	5,,10
	cmpq	%r12,%r9
	ja	4f
	movzbl	%r8b,%edx
	movl	%edx,%r14d
	shll	$4,%r14d
	xorl	%ebp,%ebp
	movq	%rdi,%r13
	movq	%rdi,16(%rsp)
	movq	%rdx,8(%rsp)
	movq	%r14,(%rsp)
	.p2align	5,,6
	jmp	12f
	.p2align	4
10:
	movzbl	(%rdi,%r11),%eax
	.p2align	5,,10
	cmpb	(%r13,%r11),%al
	jne	5f
11:
	incq	%rbp
	addq	%r9,%r13
	subq	%r9,%r12
	.p2align	5,,10
	cmpq	%r12,%r9
	ja	5f
12:
	.p2align	5,,10
	cmpq	$32,%r11
	ja	16f
	.p2align	5,,10
	cmpq	$15,%r11
	ja	19f
	.p2align	5,,10
	cmpq	$1,%r11
	jne	25f
	movzbl	(%r13),%eax
	leal	-48(%rax),%ecx
	xorl	%ebx,%ebx
	subb	$9,%cl
	movzbl	%cl,%ecx
	cmovbl	%ebx,%ecx
	leaq	.L100v3_static.0(%rip),%rsi
	orb	(%rdx,%rsi),%al
	leaq	.L100v3_static.1(%rip),%rsi
	subb	(%rdx,%rsi),%al
	subb	$5,%al
	movzbl	%al,%eax
	cmovbl	%ebx,%eax
	cmpb	%al,%cl
	cmovbl	%ecx,%eax
	.p2align	5,,10
	testb	%al,%al
	je	21f
	.p2align	5,,6
	jmp	5f
	.p2align	4
16:
	.p2align	5,,13
	cmpq	$256,%r11
	ja	20f
	.p2align	5,,10
	cmpq	$64,%r11
	ja	27f
	vmovdqu	(%r13),%ymm0
	vpbroadcastd	.L100v3_CPI6_5(%rip),%ymm1
	vpaddb	%ymm1,%ymm0,%ymm2
	leaq	.L100v3_static.2(%rip),%rax
	vbroadcasti128	(%r14,%rax),%ymm3
	vpshufb	%ymm2,%ymm3,%ymm4
	vpsubb	%ymm0,%ymm4,%ymm0
	vpxor	%ymm2,%ymm0,%ymm0
	vmovdqu	-32(%r13,%r11),%ymm2
	vpaddb	%ymm1,%ymm2,%ymm1
	vpshufb	%ymm1,%ymm3,%ymm3
	vpsubb	%ymm2,%ymm3,%ymm2
	leaq	.L100v3_static.3(%rip),%rax
	vpbroadcastb	(%rdx,%rax),%ymm3
	vpxor	%ymm1,%ymm2,%ymm1
	vpor	%ymm0,%ymm1,%ymm0
	vptest	%ymm3,%ymm0
	.p2align	5,,6
	je	21f
	.p2align	5,,6
	jmp	5f
	.p2align	4
19:
	vmovdqu	(%r13),%xmm0
	vpbroadcastd	.L100v3_CPI6_5(%rip),%xmm1
	vpaddb	%xmm1,%xmm0,%xmm2
	leaq	.L100v3_static.2(%rip),%rax
	vmovdqu	(%r14,%rax),%xmm3
	vpshufb	%xmm2,%xmm3,%xmm4
	vpsubb	%xmm0,%xmm4,%xmm0
	vpxor	%xmm2,%xmm0,%xmm0
	vmovdqu	-16(%r13,%r11),%xmm2
	vpaddb	%xmm1,%xmm2,%xmm1
	vpshufb	%xmm1,%xmm3,%xmm3
	vpsubb	%xmm2,%xmm3,%xmm2
	leaq	.L100v3_static.3(%rip),%rax
	vpbroadcastb	(%rdx,%rax),%xmm3
	vpxor	%xmm1,%xmm2,%xmm1
	vpor	%xmm0,%xmm1,%xmm0
	vptest	%xmm3,%xmm0
	.p2align	5,,6
	je	21f
	.p2align	5,,6
	jmp	5f
	.p2align	4
20:
	movq	%r13,%rdi
	movq	%r11,%rsi
	movq	%r9,%r14
	movq	%r11,%rbx
	vzeroupper
	.p2align	5,,5
	callq	faster_hex_1_0_0_x86_64_v3_core_plain_check_long_outlined
	movq	%rbx,%r11
	movq	8(%rsp),%rdx
	movq	%r14,%r9
	movq	(%rsp),%r14
	movq	16(%rsp),%rdi
	.p2align	5,,10
	testb	%al,%al
	je	5f
21:
	.p2align	5,,10
	testq	%r15,%r15
	je	11b
	.p2align	5,,10
	cmpq	$1,%r15
	je	10b
	movzbl	(%rdi,%r11),%eax
	.p2align	5,,10
	cmpb	(%r13,%r11),%al
	jne	5f
	movzbl	1(%rdi,%r11),%eax
	.p2align	5,,10
	cmpb	1(%r13,%r11),%al
	je	11b
	.p2align	5,,6
	jmp	5f
25:
	.p2align	5,,10
	cmpq	$3,%r11
	ja	31f
	movzwl	(%r13),%eax
	vmovd	%eax,%xmm0
	vpbroadcastd	.L100v3_CPI6_5(%rip),%xmm1
	vpaddb	%xmm1,%xmm0,%xmm2
	leaq	.L100v3_static.2(%rip),%rax
	vmovdqu	(%r14,%rax),%xmm3
	vpshufb	%xmm2,%xmm3,%xmm4
	vpsubb	%xmm0,%xmm4,%xmm0
	vpxor	%xmm2,%xmm0,%xmm0
	movzwl	-2(%r13,%r11),%eax
	vmovd	%eax,%xmm2
	vpaddb	%xmm1,%xmm2,%xmm1
	vpshufb	%xmm1,%xmm3,%xmm3
	vpsubb	%xmm2,%xmm3,%xmm2
	vpxor	%xmm1,%xmm2,%xmm1
	leaq	.L100v3_static.3(%rip),%rax
	vpbroadcastb	(%rdx,%rax),%xmm2
	vpor	%xmm0,%xmm1,%xmm0
	vpand	%xmm2,%xmm0,%xmm0
	vmovd	%xmm0,%eax
	.p2align	5,,10
	testw	%ax,%ax
	je	21b
	.p2align	5,,6
	jmp	5f
27:
	leaq	.L100v3_static.2(%rip),%rax
	vmovdqu	(%r14,%rax),%xmm0
	vpbroadcastd	.L100v3_CPI6_5(%rip),%ymm1
	.p2align	5,,13
	cmpq	$128,%r11
	ja	33f
	vmovdqu	(%r13),%ymm3
	vmovdqu	32(%r13),%ymm4
	vpaddb	%ymm1,%ymm3,%ymm5
	vinserti128	$1,%xmm0,%ymm0,%ymm2
	vpshufb	%ymm5,%ymm2,%ymm6
	vpsubb	%ymm3,%ymm6,%ymm3
	vpxor	%ymm5,%ymm3,%ymm3
	vpaddb	%ymm1,%ymm4,%ymm5
	vpshufb	%ymm5,%ymm2,%ymm6
	vpsubb	%ymm4,%ymm6,%ymm4
	vpxor	%ymm5,%ymm4,%ymm4
	vpor	%ymm3,%ymm4,%ymm3
	.p2align	5,,10
	cmpq	$97,%r11
	jb	30f
	vmovdqu	-64(%r13,%r11),%ymm4
	vpaddb	.L100v3_CPI6_0(%rip),%ymm4,%ymm5
	vinserti128	$1,%xmm0,%ymm0,%ymm0
	vpshufb	%ymm5,%ymm0,%ymm0
	vpsubb	%ymm4,%ymm0,%ymm0
	vpxor	%ymm5,%ymm0,%ymm0
	vpor	%ymm3,%ymm0,%ymm3
30:
	vmovdqu	-32(%r13,%r11),%ymm0
	vpaddb	%ymm1,%ymm0,%ymm1
	vpshufb	%ymm1,%ymm2,%ymm2
	vpsubb	%ymm0,%ymm2,%ymm0
	leaq	.L100v3_static.3(%rip),%rax
	vpbroadcastb	(%rdx,%rax),%ymm2
	vpxor	%ymm1,%ymm0,%ymm0
	vpor	%ymm0,%ymm3,%ymm0
	vptest	%ymm0,%ymm2
	.p2align	5,,6
	je	21b
	.p2align	5,,6
	jmp	5f
31:
	leaq	.L100v3_static.2(%rip),%rax
	vmovdqu	(%r14,%rax),%xmm0
	leaq	.L100v3_static.3(%rip),%rax
	movzbl	(%rdx,%rax),%eax
	.p2align	5,,10
	cmpq	$7,%r11
	ja	36f
	vmovd	(%r13),%xmm1
	vpbroadcastd	.L100v3_CPI6_5(%rip),%xmm2
	vpaddb	%xmm2,%xmm1,%xmm3
	vpshufb	%xmm3,%xmm0,%xmm4
	vpsubb	%xmm1,%xmm4,%xmm1
	vpxor	%xmm3,%xmm1,%xmm1
	vmovd	-4(%r13,%r11),%xmm3
	vpaddb	%xmm2,%xmm3,%xmm2
	vpshufb	%xmm2,%xmm0,%xmm0
	vpsubb	%xmm3,%xmm0,%xmm0
	vpxor	%xmm2,%xmm0,%xmm0
	vpor	%xmm1,%xmm0,%xmm0
	vmovd	%eax,%xmm1
	vpbroadcastb	%xmm1,%xmm1
	vpand	%xmm1,%xmm0,%xmm0
	vmovd	%xmm0,%eax
	.p2align	5,,10
	testl	%eax,%eax
	je	21b
	.p2align	5,,6
	jmp	5f
33:
	vmovdqu	(%r13),%ymm3
	vmovdqu	32(%r13),%ymm4
	vmovdqu	64(%r13),%ymm5
	vmovdqu	96(%r13),%ymm6
	vpaddb	%ymm1,%ymm4,%ymm7
	vpaddb	%ymm1,%ymm3,%ymm8
	vinserti128	$1,%xmm0,%ymm0,%ymm2
	vpshufb	%ymm8,%ymm2,%ymm9
	vpshufb	%ymm7,%ymm2,%ymm10
	vpsubb	%ymm4,%ymm10,%ymm4
	vpsubb	%ymm3,%ymm9,%ymm3
	vpxor	%ymm3,%ymm8,%ymm3
	vpxor	%ymm7,%ymm4,%ymm4
	vpaddb	%ymm1,%ymm6,%ymm7
	vpaddb	%ymm1,%ymm5,%ymm8
	vpshufb	%ymm8,%ymm2,%ymm9
	vpshufb	%ymm7,%ymm2,%ymm10
	vpsubb	%ymm6,%ymm10,%ymm6
	vpsubb	%ymm5,%ymm9,%ymm5
	vpxor	%ymm5,%ymm8,%ymm5
	vpor	%ymm3,%ymm5,%ymm3
	vpxor	%ymm7,%ymm6,%ymm5
	vpor	%ymm4,%ymm5,%ymm4
	.p2align	5,,13
	cmpq	$193,%r11
	jb	35f
	vmovdqu	-128(%r13,%r11),%ymm5
	vmovdqu	-96(%r13,%r11),%ymm6
	vpaddb	%ymm1,%ymm6,%ymm7
	vpaddb	%ymm1,%ymm5,%ymm8
	vinserti128	$1,%xmm0,%ymm0,%ymm0
	vpshufb	%ymm8,%ymm0,%ymm9
	vpshufb	%ymm7,%ymm0,%ymm0
	vpsubb	%ymm6,%ymm0,%ymm0
	vpsubb	%ymm5,%ymm9,%ymm5
	vpxor	%ymm5,%ymm8,%ymm5
	vpxor	%ymm7,%ymm0,%ymm0
	vpor	%ymm4,%ymm0,%ymm4
	vpor	%ymm3,%ymm5,%ymm3
35:
	vmovdqu	-64(%r13,%r11),%ymm0
	vmovdqu	-32(%r13,%r11),%ymm5
	vpaddb	%ymm1,%ymm5,%ymm6
	vpaddb	%ymm1,%ymm0,%ymm1
	vpshufb	%ymm1,%ymm2,%ymm7
	vpshufb	%ymm6,%ymm2,%ymm2
	vpsubb	%ymm0,%ymm7,%ymm0
	vpsubb	%ymm5,%ymm2,%ymm2
	vpxor	%ymm6,%ymm2,%ymm2
	vpor	%ymm2,%ymm4,%ymm2
	vpxor	%ymm1,%ymm0,%ymm0
	leaq	.L100v3_static.3(%rip),%rax
	vpbroadcastb	(%rdx,%rax),%ymm1
	vpor	%ymm0,%ymm3,%ymm0
	vpor	%ymm2,%ymm0,%ymm0
	vptest	%ymm0,%ymm1
	.p2align	5,,6
	je	21b
	.p2align	5,,6
	jmp	5f
36:
	vmovq	(%r13),%xmm1
	vpbroadcastd	.L100v3_CPI6_5(%rip),%xmm2
	vpaddb	%xmm2,%xmm1,%xmm3
	vpshufb	%xmm3,%xmm0,%xmm4
	vpsubb	%xmm1,%xmm4,%xmm1
	vpxor	%xmm3,%xmm1,%xmm1
	vmovq	-8(%r13,%r11),%xmm3
	vpaddb	%xmm2,%xmm3,%xmm2
	vpshufb	%xmm2,%xmm0,%xmm0
	vpsubb	%xmm3,%xmm0,%xmm0
	vpxor	%xmm2,%xmm0,%xmm0
	vpor	%xmm1,%xmm0,%xmm0
	vmovd	%eax,%xmm1
	vpbroadcastb	%xmm1,%xmm1
	vpand	%xmm1,%xmm0,%xmm0
	vmovq	%xmm0,%rax
	.p2align	5,,10
	testq	%rax,%rax
	je	21b
	.p2align	5,,6
	jmp	5f
6:
	.p2align	5,,10
	cmpq	$64,%r11
	ja	37f
	leaq	(%r15,%r11),%rax
	.p2align	5,,10
	cmpq	%r12,%rax
	ja	4f
	movzbl	%r8b,%ecx
	leaq	.L100v3_static.3(%rip),%rdx
	vpbroadcastb	(%rcx,%rdx),%ymm0
	shll	$4,%ecx
	leaq	.L100v3_static.2(%rip),%rdx
	vmovdqu	(%rcx,%rdx),%xmm1
	xorl	%ebp,%ebp
	movq	%rdi,%rcx
	.p2align	5,,6
	jmp	43f
	.p2align	4
41:
	movzbl	(%rdi,%r11),%edx
	.p2align	5,,10
	cmpb	(%rcx,%r11),%dl
	jne	5f
42:
	incq	%rbp
	addq	%rax,%rcx
	subq	%rax,%r12
	.p2align	5,,10
	cmpq	%r12,%rax
	ja	5f
43:
	vmovdqu	(%rcx),%ymm2
	vpbroadcastd	.L100v3_CPI6_5(%rip),%ymm3
	vpaddb	%ymm3,%ymm2,%ymm4
	vinserti128	$1,%xmm1,%ymm1,%ymm5
	vpshufb	%ymm4,%ymm5,%ymm6
	vpsubb	%ymm2,%ymm6,%ymm2
	vpxor	%ymm4,%ymm2,%ymm2
	vmovdqu	-32(%rcx,%r11),%ymm4
	vpaddb	%ymm3,%ymm4,%ymm3
	vpshufb	%ymm3,%ymm5,%ymm5
	vpsubb	%ymm4,%ymm5,%ymm4
	vpxor	%ymm3,%ymm4,%ymm3
	vpor	%ymm2,%ymm3,%ymm2
	vptest	%ymm0,%ymm2
	.p2align	5,,6
	jne	5f
	.p2align	5,,10
	testq	%r15,%r15
	je	42b
	.p2align	5,,10
	cmpq	$1,%r15
	je	41b
	movzbl	(%rdi,%r11),%edx
	.p2align	5,,10
	cmpb	(%rcx,%r11),%dl
	jne	5f
	movzbl	1(%rdi,%r11),%edx
	.p2align	5,,10
	cmpb	1(%rcx,%r11),%dl
	je	42b
	.p2align	5,,6
	jmp	5f
37:
	.p2align	5,,10
	cmpq	$96,%r11
	ja	48f
	leaq	(%r15,%r11),%rax
	.p2align	5,,10
	cmpq	%r12,%rax
	ja	4f
	movzbl	%r8b,%ecx
	leaq	.L100v3_static.3(%rip),%rdx
	vpbroadcastb	(%rcx,%rdx),%ymm0
	shll	$4,%ecx
	leaq	.L100v3_static.2(%rip),%rdx
	vmovdqu	(%rcx,%rdx),%xmm1
	xorl	%ebp,%ebp
	movq	%rdi,%rcx
	.p2align	5,,6
	jmp	54f
52:
	movzbl	(%rdi,%r11),%edx
	.p2align	5,,10
	cmpb	(%rcx,%r11),%dl
	jne	5f
53:
	incq	%rbp
	addq	%rax,%rcx
	subq	%rax,%r12
	.p2align	5,,10
	cmpq	%r12,%rax
	ja	5f
54:
	vpbroadcastd	.L100v3_CPI6_5(%rip),%ymm2
	vmovdqu	(%rcx),%ymm3
	vmovdqu	32(%rcx),%ymm4
	vpaddb	%ymm2,%ymm3,%ymm5
	vinserti128	$1,%xmm1,%ymm1,%ymm6
	vpshufb	%ymm5,%ymm6,%ymm7
	vpsubb	%ymm3,%ymm7,%ymm3
	vpxor	%ymm5,%ymm3,%ymm3
	vpaddb	%ymm2,%ymm4,%ymm5
	vpshufb	%ymm5,%ymm6,%ymm7
	vpsubb	%ymm4,%ymm7,%ymm4
	vpxor	%ymm5,%ymm4,%ymm4
	vpor	%ymm3,%ymm4,%ymm3
	vmovdqu	-32(%rcx,%r11),%ymm4
	vpaddb	%ymm2,%ymm4,%ymm2
	vpshufb	%ymm2,%ymm6,%ymm5
	vpsubb	%ymm4,%ymm5,%ymm4
	vpxor	%ymm2,%ymm4,%ymm2
	vpor	%ymm2,%ymm3,%ymm2
	vptest	%ymm0,%ymm2
	.p2align	5,,6
	jne	5f
	.p2align	5,,10
	testq	%r15,%r15
	je	53b
	.p2align	5,,10
	cmpq	$1,%r15
	je	52b
	movzbl	(%rdi,%r11),%edx
	.p2align	5,,10
	cmpb	(%rcx,%r11),%dl
	jne	5f
	movzbl	1(%rdi,%r11),%edx
	.p2align	5,,10
	cmpb	1(%rcx,%r11),%dl
	je	53b
	.p2align	5,,6
	jmp	5f
48:
	.p2align	5,,13
	cmpq	$128,%r11
	ja	2b
	leaq	(%r15,%r11),%rax
	.p2align	5,,10
	cmpq	%r12,%rax
	jbe	59f
4:
	xorl	%ebp,%ebp
5:
	movq	%rbp,%rax
	addq	$24,%rsp
	hex_cfi	def_cfa_offset 56
	popq	%rbx
	hex_cfi	def_cfa_offset 48
	popq	%r12
	hex_cfi	def_cfa_offset 40
	popq	%r13
	hex_cfi	def_cfa_offset 32
	popq	%r14
	hex_cfi	def_cfa_offset 24
	popq	%r15
	hex_cfi	def_cfa_offset 16
	popq	%rbp
	hex_cfi	def_cfa_offset 8
	vzeroupper
	.p2align	5,,1
	retq
59:
	hex_cfi	def_cfa_offset 80
	movzbl	%r8b,%ecx
	leaq	.L100v3_static.3(%rip),%rdx
	vpbroadcastb	(%rcx,%rdx),%ymm0
	shll	$4,%ecx
	leaq	.L100v3_static.2(%rip),%rdx
	vmovdqu	(%rcx,%rdx),%xmm1
	xorl	%ebp,%ebp
	movq	%rdi,%rcx
	.p2align	5,,6
	jmp	62f
60:
	movzbl	(%rdi,%r11),%edx
	.p2align	5,,10
	cmpb	(%rcx,%r11),%dl
	jne	5b
61:
	incq	%rbp
	addq	%rax,%rcx
	subq	%rax,%r12
	.p2align	5,,10
	cmpq	%r12,%rax
	ja	5b
62:
	vmovdqu	-64(%rcx,%r11),%ymm2
	vmovdqu	-32(%rcx,%r11),%ymm3
	vpbroadcastd	.L100v3_CPI6_5(%rip),%ymm4
	vpaddb	%ymm4,%ymm3,%ymm5
	vinserti128	$1,%xmm1,%ymm1,%ymm6
	vpshufb	%ymm5,%ymm6,%ymm7
	vpsubb	%ymm3,%ymm7,%ymm3
	vpxor	%ymm5,%ymm3,%ymm3
	vmovdqu	(%rcx),%ymm5
	vmovdqu	32(%rcx),%ymm7
	vpaddb	%ymm4,%ymm5,%ymm8
	vpshufb	%ymm8,%ymm6,%ymm9
	vpsubb	%ymm5,%ymm9,%ymm5
	vpxor	%ymm5,%ymm8,%ymm5
	vpor	%ymm3,%ymm5,%ymm3
	vpaddb	%ymm4,%ymm7,%ymm5
	vpshufb	%ymm5,%ymm6,%ymm8
	vpsubb	%ymm7,%ymm8,%ymm7
	vpxor	%ymm5,%ymm7,%ymm5
	vpaddb	%ymm4,%ymm2,%ymm4
	vpshufb	%ymm4,%ymm6,%ymm6
	vpsubb	%ymm2,%ymm6,%ymm2
	vpxor	%ymm4,%ymm2,%ymm2
	vpor	%ymm2,%ymm5,%ymm2
	vpor	%ymm2,%ymm3,%ymm2
	vptest	%ymm0,%ymm2
	.p2align	5,,6
	jne	5b
	.p2align	5,,10
	testq	%r15,%r15
	je	61b
	.p2align	5,,10
	cmpq	$1,%r15
	je	60b
	movzbl	(%rdi,%r11),%edx
	.p2align	5,,10
	cmpb	(%rcx,%r11),%dl
	jne	5b
	movzbl	1(%rdi,%r11),%edx
	.p2align	5,,10
	cmpb	1(%rcx,%r11),%dl
	je	61b
	.p2align	5,,6
	jmp	5b
	hex_end	faster_hex_1_0_0_x86_64_v3_codec_spaced_line_count
	hex_cfi	endproc
	hex_function	faster_hex_1_0_0_x86_64_v3_codec_spaced_survey,.text
	hex_cfi	startproc
	pushq	%rbp
	hex_cfi	def_cfa_offset 16
	pushq	%r15
	hex_cfi	def_cfa_offset 24
	pushq	%r14
	hex_cfi	def_cfa_offset 32
	pushq	%r13
	hex_cfi	def_cfa_offset 40
	pushq	%r12
	hex_cfi	def_cfa_offset 48
	pushq	%rbx
	hex_cfi	def_cfa_offset 56
	subq	$40,%rsp
	hex_cfi	def_cfa_offset 96
	hex_cfi	offset %rbx,-56
	hex_cfi	offset %r12,-48
	hex_cfi	offset %r13,-40
	hex_cfi	offset %r14,-32
	hex_cfi	offset %r15,-24
	hex_cfi	offset %rbp,-16
	movq	(%rdx),%r8
	movq	16(%rdx),%rax
	movq	8(%rdx),%r15
	addq	%r8,%r15
	imulq	%rax,%r15
	imulq	%r8,%rax
	movb	$1,%dl
	.p2align	5,,6
	jmp	15f
	.p2align	4
1:
	movzbl	(%rdi,%r15),%r8d
	.p2align	5,,10
	cmpq	$32,%r8
	ja	3f
	movabsq	$4294981120,%r9
	btq	%r8,%r9
	.p2align	5,,6
	jb	14f
3:
	movl	%ecx,12(%rsp)
	movb	%dl,11(%rsp)
	movq	%rax,24(%rsp)
	movq	%rdi,16(%rsp)
	addq	%r15,%rdi
	movq	%rsi,32(%rsp)
	movq	%rsi,%r12
	subq	%r15,%r12
	movq	%rdi,%rbp
	movq	%r12,%rsi
	.p2align	5,,5
	callq	faster_hex_1_0_0_x86_64_v3_codec_spaced_run_len
	movq	%rax,%rbx
	movq	%rax,%r14
	andq	$-2,%r14
	.p2align	5,,10
	cmpq	%r14,%r12
	jbe	8f
	movq	16(%rsp),%rax
	addq	%r14,%rax
	movzbl	(%r15,%rax),%ecx
	xorl	%r13d,%r13d
	cmpq	$32,%rcx
	movl	12(%rsp),%eax
	.p2align	5,,6
	ja	9f
	movabsq	$4294981120,%rdx
	btq	%rcx,%rdx
	movq	%rbp,%rdi
	.p2align	5,,6
	jae	10f
	movq	%rbx,%rcx
	orq	$1,%rcx
	movl	$1,%r13d
	.p2align	5,,10
	cmpq	%rcx,%r12
	jbe	10f
	addq	16(%rsp),%rcx
	movzbl	(%r15,%rcx),%ecx
	leal	-9(%rcx),%edx
	cmpb	$2,%dl
	setb	%dl
	movl	%ecx,%esi
	andb	$-2,%sil
	cmpb	$12,%sil
	sete	%sil
	cmpb	$32,%cl
	sete	%cl
	orb	%sil,%cl
	orb	%dl,%cl
	movzbl	%cl,%r13d
	incq	%r13
	.p2align	5,,6
	jmp	10f
8:
	xorl	%r13d,%r13d
	movl	12(%rsp),%eax
9:
	movq	%rbp,%rdi
10:
	movzbl	%al,%ebp
	movq	%r12,%rsi
	movq	%r14,%rdx
	movq	%r13,%rcx
	movq	%rdi,%r12
	movl	%ebp,%r8d
	.p2align	5,,5
	callq	faster_hex_1_0_0_x86_64_v3_codec_spaced_line_count
	.p2align	5,,10
	testq	%rax,%rax
	je	13f
	movq	%rax,%rcx
	addq	%r14,%r13
	imulq	%rax,%r13
	addq	%r13,%r15
	imulq	%r14,%rcx
	movq	24(%rsp),%rax
	addq	%rcx,%rax
	movq	32(%rsp),%rsi
	cmpq	%rsi,%r15
	movzbl	11(%rsp),%edx
	movl	12(%rsp),%ecx
	movq	16(%rsp),%rdi
	.p2align	5,,6
	jb	1b
	.p2align	5,,6
	jmp	16f
13:
	addq	%rbx,%r15
	movq	%r12,%rdi
	movq	%rbx,%rsi
	movl	%ebp,%edx
	.p2align	5,,5
	callq	faster_hex_1_0_0_x86_64_v3_codec_spaced_survey_bytes
	movq	%rax,%rcx
	movl	%edx,%esi
	movq	24(%rsp),%rax
	addq	%rcx,%rax
	movzbl	11(%rsp),%edx
	andb	%sil,%dl
	movq	32(%rsp),%rsi
	cmpq	%rsi,%r15
	movl	12(%rsp),%ecx
	movq	16(%rsp),%rdi
	.p2align	5,,6
	jb	1b
	.p2align	5,,6
	jmp	16f
	.p2align	4
14:
	incq	%r15
15:
	.p2align	5,,10
	cmpq	%rsi,%r15
	jb	1b
16:
	addq	$40,%rsp
	hex_cfi	def_cfa_offset 56
	popq	%rbx
	hex_cfi	def_cfa_offset 48
	popq	%r12
	hex_cfi	def_cfa_offset 40
	popq	%r13
	hex_cfi	def_cfa_offset 32
	popq	%r14
	hex_cfi	def_cfa_offset 24
	popq	%r15
	hex_cfi	def_cfa_offset 16
	popq	%rbp
	hex_cfi	def_cfa_offset 8
	.p2align	5,,1
	retq
	hex_end	faster_hex_1_0_0_x86_64_v3_codec_spaced_survey
	hex_cfi	endproc
	hex_function	faster_hex_1_0_0_x86_64_v3_codec_spaced_survey_bytes,.text
	hex_cfi	startproc
	movl	%edx,%ecx
	movb	$1,%dl
	xorl	%eax,%eax
	.p2align	5,,10
	testq	%rsi,%rsi
	je	32f
	movq	%rsi,%r9
	movq	%rdi,%r10
2:
	incq	%r10
	movl	$1,%r8d
	subq	%r9,%r8
	movq	%r8,%r9
	.p2align	4
3:
	movzbl	-1(%r10),%r11d
	movabsq	$4294981120,%r8
	.p2align	5,,10
	cmpq	$32,%r11
	ja	6f
	btq	%r11,%r8
	.p2align	5,,6
	jae	6f
	incq	%r10
	incq	%r9
	.p2align	5,,10
	cmpq	$1,%r9
	jne	3b
	.p2align	5,,6
	jmp	7f
6:
	incq	%rax
	negq	%r9
	.p2align	5,,6
	jb	2b
7:
	.p2align	5,,10
	cmpb	$2,%cl
	je	16f
	movzbl	%cl,%ecx
	.p2align	5,,10
	cmpl	$1,%ecx
	jne	23f
	xorl	%ecx,%ecx
	.p2align	5,,6
	jmp	11f
	.p2align	4
10:
	incq	%rcx
	.p2align	5,,10
	cmpq	%rcx,%rsi
	je	32f
11:
	movzbl	(%rdi,%rcx),%r9d
	.p2align	5,,10
	cmpq	$32,%r9
	ja	13f
	btq	%r9,%r8
	.p2align	5,,6
	jb	10b
13:
	.p2align	5,,10
	cmpb	$48,%r9b
	jb	31f
	cmpb	$58,%r9b
	setae	%r10b
	addb	$-97,%r9b
	cmpb	$6,%r9b
	setae	%r9b
	.p2align	5,,10
	testb	%r9b,%r10b
	je	10b
	xorl	%edx,%edx
	.p2align	5,,1
	retq
16:
	xorl	%ecx,%ecx
	.p2align	5,,6
	jmp	18f
	.p2align	4
17:
	incq	%rcx
	.p2align	5,,10
	cmpq	%rcx,%rsi
	je	32f
18:
	movzbl	(%rdi,%rcx),%r9d
	.p2align	5,,10
	cmpq	$32,%r9
	ja	20f
	btq	%r9,%r8
	.p2align	5,,6
	jb	17b
20:
	.p2align	5,,10
	cmpb	$48,%r9b
	jb	31f
	cmpb	$58,%r9b
	setae	%r10b
	addb	$-65,%r9b
	cmpb	$6,%r9b
	setae	%r9b
	.p2align	5,,10
	testb	%r9b,%r10b
	je	17b
	xorl	%edx,%edx
	.p2align	5,,1
	retq
23:
	xorl	%ecx,%ecx
	.p2align	5,,6
	jmp	25f
	.p2align	4
24:
	incq	%rcx
	.p2align	5,,10
	cmpq	%rcx,%rsi
	je	32f
25:
	movzbl	(%rdi,%rcx),%r9d
	.p2align	5,,10
	cmpq	$32,%r9
	ja	27f
	btq	%r9,%r8
	.p2align	5,,6
	jb	24b
27:
	.p2align	5,,10
	cmpb	$48,%r9b
	jb	31f
	.p2align	5,,10
	cmpb	$58,%r9b
	jb	24b
	.p2align	5,,10
	cmpb	$65,%r9b
	jb	31f
	cmpb	$71,%r9b
	setae	%r10b
	addb	$-97,%r9b
	cmpb	$6,%r9b
	setae	%r9b
	.p2align	5,,10
	testb	%r9b,%r10b
	je	24b
31:
	xorl	%edx,%edx
32:
	.p2align	5,,1
	retq
	hex_end	faster_hex_1_0_0_x86_64_v3_codec_spaced_survey_bytes
	hex_cfi	endproc
	hex_function	faster_hex_1_0_0_x86_64_v3_codec_spaced_invalid_error,.text.unlikely
	hex_cfi	startproc
	.p2align	5,,10
	testq	%rdx,%rdx
	je	23f
	.p2align	5,,10
	cmpb	$2,%cl
	je	9f
	movzbl	%cl,%eax
	.p2align	5,,10
	cmpl	$1,%eax
	jne	15f
	xorl	%eax,%eax
	.p2align	5,,6
	jmp	4f
	.p2align	4
8:
	incq	%rax
	.p2align	5,,10
	cmpq	%rax,%rdx
	je	23f
4:
	movzbl	(%rsi,%rax),%ecx
	.p2align	5,,10
	cmpq	$32,%rcx
	ja	6f
	movabsq	$4294981120,%r8
	btq	%rcx,%r8
	.p2align	5,,6
	jb	8b
6:
	.p2align	5,,10
	cmpb	$48,%cl
	jb	24f
	cmpb	$58,%cl
	setae	%r8b
	addb	$-97,%cl
	cmpb	$6,%cl
	setae	%cl
	.p2align	5,,10
	testb	%cl,%r8b
	je	8b
	.p2align	5,,6
	jmp	24f
9:
	xorl	%eax,%eax
	.p2align	5,,6
	jmp	10f
	.p2align	4
14:
	incq	%rax
	.p2align	5,,10
	cmpq	%rax,%rdx
	je	23f
10:
	movzbl	(%rsi,%rax),%ecx
	.p2align	5,,10
	cmpq	$32,%rcx
	ja	12f
	movabsq	$4294981120,%r8
	btq	%rcx,%r8
	.p2align	5,,6
	jb	14b
12:
	.p2align	5,,10
	cmpb	$48,%cl
	jb	24f
	cmpb	$58,%cl
	setae	%r8b
	addb	$-65,%cl
	cmpb	$6,%cl
	setae	%cl
	.p2align	5,,10
	testb	%cl,%r8b
	je	14b
	.p2align	5,,6
	jmp	24f
15:
	xorl	%eax,%eax
	.p2align	5,,6
	jmp	16f
	.p2align	4
22:
	incq	%rax
	.p2align	5,,10
	cmpq	%rax,%rdx
	je	23f
16:
	movzbl	(%rsi,%rax),%ecx
	.p2align	5,,10
	cmpq	$32,%rcx
	ja	18f
	movabsq	$4294981120,%r8
	btq	%rcx,%r8
	.p2align	5,,6
	jb	22b
18:
	.p2align	5,,10
	cmpb	$48,%cl
	jb	24f
	.p2align	5,,10
	cmpb	$58,%cl
	jb	22b
	.p2align	5,,10
	cmpb	$65,%cl
	jb	24f
	cmpb	$71,%cl
	setae	%r8b
	addb	$-97,%cl
	cmpb	$6,%cl
	setae	%cl
	.p2align	5,,10
	testb	%cl,%r8b
	je	22b
24:
	movzbl	(%rsi,%rax),%ecx
	movq	$0,(%rdi)
	movq	%rax,8(%rdi)
	movb	%cl,16(%rdi)
	movl	$0,17(%rdi)
	movl	$0,20(%rdi)
	.p2align	5,,1
	retq
23:
	ud2
	hex_end	faster_hex_1_0_0_x86_64_v3_codec_spaced_invalid_error
	hex_cfi	endproc
	hex_function	faster_hex_1_0_0_x86_64_v3_codec_spaced_decode_runs,.text
	hex_cfi	startproc
	pushq	%rbp
	hex_cfi	def_cfa_offset 16
	pushq	%r15
	hex_cfi	def_cfa_offset 24
	pushq	%r14
	hex_cfi	def_cfa_offset 32
	pushq	%r13
	hex_cfi	def_cfa_offset 40
	pushq	%r12
	hex_cfi	def_cfa_offset 48
	pushq	%rbx
	hex_cfi	def_cfa_offset 56
	subq	$120,%rsp
	hex_cfi	def_cfa_offset 176
	hex_cfi	offset %rbx,-56
	hex_cfi	offset %r12,-48
	hex_cfi	offset %r13,-40
	hex_cfi	offset %r14,-32
	hex_cfi	offset %r15,-24
	hex_cfi	offset %rbp,-16
	movl	%r9d,12(%rsp)
	movq	%rdx,%rcx
	movq	%rsi,%r15
	movq	%rdi,%r12
	movq	16(%r8),%rax
	movq	%rax,64(%rsp)
	vmovups	(%r8),%xmm0
	vmovaps	%xmm0,48(%rsp)
	leaq	48(%rsp),%rdx
	movq	%rcx,40(%rsp)
	movq	%rcx,%rsi
	.p2align	5,,5
	callq	faster_hex_1_0_0_x86_64_v3_codec_spaced_decode_lines
	movq	48(%rsp),%rax
	movq	64(%rsp),%rdx
	movq	56(%rsp),%r14
	addq	%rax,%r14
	imulq	%rdx,%r14
	.p2align	5,,10
	cmpq	%r15,%r14
	jae	41f
	shrq	%rax
	imulq	%rax,%rdx
	movl	$1,%esi
	subq	%r15,%rsi
2:
	movq	%r14,%rbp
	addq	$2,%r14
	.p2align	4
3:
	movzbl	(%r12,%rbp),%ebx
	movabsq	$4294981120,%r13
	.p2align	5,,10
	cmpq	$32,%rbx
	ja	6f
	btq	%rbx,%r13
	.p2align	5,,6
	jae	6f
	incq	%rbp
	incq	%r14
	.p2align	5,,10
	cmpq	%r15,%rbp
	jb	3b
	.p2align	5,,6
	jmp	41f
6:
	movq	%rsi,24(%rsp)
	movq	%rdx,32(%rsp)
	leaq	(%r12,%rbp),%rdi
	movq	%r15,%rsi
	subq	%rbp,%rsi
	movq	%rsi,16(%rsp)
	.p2align	5,,5
	callq	faster_hex_1_0_0_x86_64_v3_codec_spaced_run_len
	movq	16(%rsp),%rsi
	movq	%rax,%rdx
	andq	$-2,%rdx
	.p2align	5,,10
	cmpq	%rdx,%rsi
	jbe	11f
	leaq	(%r12,%rdx),%rcx
	movzbl	(%rbp,%rcx),%edi
	xorl	%ecx,%ecx
	.p2align	5,,10
	cmpq	$32,%rdi
	ja	12f
	btq	%rdi,%r13
	leaq	(%r12,%rbp),%rdi
	.p2align	5,,6
	jae	13f
	movq	%rax,%r8
	orq	$1,%r8
	movl	$1,%ecx
	.p2align	5,,10
	cmpq	%r8,%rsi
	jbe	13f
	addq	%r12,%r8
	movzbl	(%rbp,%r8),%r9d
	leal	-9(%r9),%ecx
	cmpb	$2,%cl
	setb	%cl
	movl	%r9d,%r8d
	andb	$-2,%r8b
	cmpb	$12,%r8b
	sete	%r8b
	cmpb	$32,%r9b
	sete	%r9b
	orb	%r8b,%r9b
	orb	%cl,%r9b
	movzbl	%r9b,%ecx
	incq	%rcx
	.p2align	5,,6
	jmp	13f
11:
	xorl	%ecx,%ecx
12:
	leaq	(%r12,%rbp),%rdi
13:
	movq	%rcx,88(%rsp)
	movq	%rax,80(%rsp)
	movzbl	12(%rsp),%r8d
	movq	%rdx,16(%rsp)
	.p2align	5,,5
	callq	faster_hex_1_0_0_x86_64_v3_codec_spaced_line_count
	movq	88(%rsp),%r8
	movq	16(%rsp),%rcx
	movq	%rcx,96(%rsp)
	movq	%r8,104(%rsp)
	movq	%rax,112(%rsp)
	.p2align	5,,10
	testq	%rax,%rax
	je	15f
	movq	%rax,72(%rsp)
	movq	40(%rsp),%rax
	movq	32(%rsp),%rbx
	leaq	(%rax,%rbx),%rsi
	leaq	96(%rsp),%rdx
	leaq	(%r12,%rbp),%rdi
	movq	%rcx,%r14
	movq	%r8,%r13
	.p2align	5,,5
	callq	faster_hex_1_0_0_x86_64_v3_codec_spaced_decode_lines
	movq	%rbx,%rdx
	addq	%r14,%r13
	movq	72(%rsp),%rcx
	imulq	%rcx,%r13
	addq	%rbp,%r13
	movq	80(%rsp),%rax
	shrq	%rax
	imulq	%rcx,%rax
	movq	%r13,%r14
	movq	24(%rsp),%rsi
	addq	%rax,%rdx
	.p2align	5,,10
	cmpq	%r15,%r14
	jb	2b
	.p2align	5,,6
	jmp	41f
15:
	leaq	-1(%r15),%rax
	cmpq	%rbp,%rax
	movq	32(%rsp),%rdx
	movq	24(%rsp),%rsi
	.p2align	5,,6
	je	42f
	.p2align	4
16:
	movzbl	-1(%r12,%r14),%eax
	.p2align	5,,10
	cmpq	$32,%rax
	ja	19f
	btq	%rax,%r13
	.p2align	5,,6
	jae	19f
	leaq	(%rsi,%r14),%rax
	incq	%rax
	incq	%r14
	.p2align	5,,10
	cmpq	$2,%rax
	jne	16b
	.p2align	5,,6
	jmp	42f
19:
	.p2align	5,,10
	cmpb	$48,%bl
	jb	42f
	movzbl	-1(%r12,%r14),%eax
	.p2align	5,,10
	cmpb	$57,%bl
	ja	22f
	addb	$-48,%bl
	.p2align	5,,6
	jmp	29f
22:
	.p2align	5,,10
	cmpb	$65,%bl
	jb	42f
	.p2align	5,,10
	cmpb	$71,%bl
	jae	26f
	.p2align	5,,10
	cmpb	$1,12(%rsp)
	je	42f
	addb	$-55,%bl
	.p2align	5,,6
	jmp	29f
26:
	.p2align	5,,10
	cmpb	$2,12(%rsp)
	je	42f
	leal	-103(%rbx),%ecx
	.p2align	5,,10
	cmpb	$-6,%cl
	jb	42f
	addb	$-87,%bl
29:
	.p2align	5,,10
	cmpb	$48,%al
	jb	42f
	.p2align	5,,10
	cmpb	$57,%al
	ja	32f
	addb	$-48,%al
	.p2align	5,,6
	jmp	39f
32:
	.p2align	5,,10
	cmpb	$65,%al
	jb	42f
	.p2align	5,,10
	cmpb	$71,%al
	jae	36f
	.p2align	5,,10
	cmpb	$1,12(%rsp)
	je	42f
	addb	$-55,%al
	.p2align	5,,6
	jmp	39f
36:
	.p2align	5,,10
	cmpb	$2,12(%rsp)
	je	42f
	leal	-103(%rax),%ecx
	.p2align	5,,10
	cmpb	$-6,%cl
	jb	42f
	addb	$-87,%al
39:
	shlb	$4,%bl
	addb	%al,%bl
	movq	40(%rsp),%rax
	movb	%bl,(%rax,%rdx)
	movl	$1,%eax
	addq	%rax,%rdx
	.p2align	5,,10
	cmpq	%r15,%r14
	jb	2b
41:
	addq	$120,%rsp
	hex_cfi	def_cfa_offset 56
	popq	%rbx
	hex_cfi	def_cfa_offset 48
	popq	%r12
	hex_cfi	def_cfa_offset 40
	popq	%r13
	hex_cfi	def_cfa_offset 32
	popq	%r14
	hex_cfi	def_cfa_offset 24
	popq	%r15
	hex_cfi	def_cfa_offset 16
	popq	%rbp
	hex_cfi	def_cfa_offset 8
	.p2align	5,,1
	retq
42:
	hex_cfi	def_cfa_offset 176
	ud2
	hex_end	faster_hex_1_0_0_x86_64_v3_codec_spaced_decode_runs
	hex_cfi	endproc
	hex_merged	32
	.p2align	5,0x0
.L100v3_CPI11_0:
	.zero	32,79
.L100v3_CPI11_1:
	.zero	32,201
	hex_merged	16
	.p2align	4,0x0
.L100v3_CPI11_2:
	.zero	16,79
.L100v3_CPI11_3:
	.zero	16,201
.L100v3_CPI11_4:
	.byte	1,3,5,7,9,11,13,15,1,3,5,7,9,11,13,15
.L100v3_CPI11_5:
	.byte	1,3,5,7,9,11,13,15,0,0,0,0,0,0,0,0
.L100v3_CPI11_6:
	.byte	79,79,79,79,79,79,79,79,0,0,0,0,0,0,0,0
.L100v3_CPI11_7:
	.byte	201,201,201,201,201,201,201,201,0,0,0,0,0,0,0,0
.L100v3_CPI11_8:
	.short	4097
	.short	4097
	.short	4097
	.short	4097
	.byte	0,0,0,0,0,0,0,0
.L100v3_CPI11_9:
	.byte	79,79,79,79,0,0,0,0,0,0,0,0,0,0,0,0
.L100v3_CPI11_10:
	.byte	201,201,201,201,0,0,0,0,0,0,0,0,0,0,0,0
.L100v3_CPI11_11:
	.short	4097
	.short	4097
	.byte	0,0,0,0,0,0,0,0,0,0,0,0
	hex_merged	4
	.p2align	2,0x0
.L100v3_CPI11_12:
	.zero	4,79
.L100v3_CPI11_13:
	.zero	4,201
.L100v3_CPI11_14:
	.short	4097
	.short	4097
	hex_merged	8
	.p2align	3,0x0
.L100v3_CPI11_15:
	.byte	1,3,5,7,9,11,13,15
	hex_function	faster_hex_1_0_0_x86_64_v3_codec_spaced_decode_lines,.text
	hex_lower
	hex_cfi	startproc
	pushq	%rbp
	hex_cfi	def_cfa_offset 16
	pushq	%r15
	hex_cfi	def_cfa_offset 24
	pushq	%r14
	hex_cfi	def_cfa_offset 32
	pushq	%r13
	hex_cfi	def_cfa_offset 40
	pushq	%r12
	hex_cfi	def_cfa_offset 48
	pushq	%rbx
	hex_cfi	def_cfa_offset 56
	hex_cfi	offset %rbx,-56
	hex_cfi	offset %r12,-48
	hex_cfi	offset %r13,-40
	hex_cfi	offset %r14,-32
	hex_cfi	offset %r15,-24
	hex_cfi	offset %rbp,-16
	movq	(%rdx),%rax
	movq	8(%rdx),%r9
	movq	16(%rdx),%rcx
	.p2align	5,,10
	cmpq	$32,%rax
	jae	1f
21:
	.p2align	5,,10
	testq	%rcx,%rcx
	je	62f
	.p2align	5,,10
	cmpq	$2,%rax
	jb	62f
	movq	%rax,%rdx
	shrq	%rdx
	leaq	(%r9,%rax),%r8
	.p2align	5,,10
	cmpq	$3,%rax
	ja	30f
	.p2align	5,,10
	cmpq	$1,%rcx
	jne	26f
	xorl	%r9d,%r9d
	xorl	%r10d,%r10d
	.p2align	5,,6
	jmp	29f
1:
	.p2align	5,,10
	cmpq	$64,%rax
	ja	9f
	.p2align	5,,10
	testq	%rcx,%rcx
	je	62f
	movq	%rax,%rdx
	shrq	%rdx
	.p2align	5,,10
	cmpq	$1,%rcx
	jne	5f
	xorl	%r13d,%r13d
	xorl	%r8d,%r8d
	.p2align	5,,6
	jmp	8f
9:
	.p2align	5,,10
	cmpq	$96,%rax
	ja	13f
	.p2align	5,,10
	testq	%rcx,%rcx
	je	62f
	addq	%rax,%r9
	shrq	%rax
	.p2align	4
12:
	vpbroadcastd	.L100v3_CPI11_12(%rip),%ymm0
	vpand	32(%rdi),%ymm0,%ymm1
	vpand	(%rdi),%ymm0,%ymm2
	vpbroadcastd	.L100v3_CPI11_13(%rip),%ymm3
	vpaddb	%ymm3,%ymm2,%ymm4
	vpaddb	%ymm3,%ymm1,%ymm5
	vpminub	%ymm5,%ymm1,%ymm1
	vpminub	%ymm4,%ymm2,%ymm2
	vpsllw	$12,%ymm2,%ymm4
	vpaddw	%ymm4,%ymm2,%ymm2
	vpsllw	$12,%ymm1,%ymm4
	vpaddw	%ymm4,%ymm1,%ymm1
	vpsrlw	$8,%ymm1,%ymm1
	vpsrlw	$8,%ymm2,%ymm2
	vpackuswb	%ymm1,%ymm2,%ymm1
	vpermq	$216,%ymm1,%ymm1
	vmovdqu	%ymm1,(%rsi)
	vpand	-32(%rdi,%rax,2),%ymm0,%ymm0
	vpaddb	%ymm3,%ymm0,%ymm1
	vpminub	%ymm1,%ymm0,%ymm0
	vpsllw	$12,%ymm0,%ymm1
	vpaddw	%ymm1,%ymm0,%ymm0
	vpsrlw	$8,%ymm0,%ymm0
	vextracti128	$1,%ymm0,%xmm1
	vpackuswb	%xmm1,%xmm0,%xmm0
	vmovdqu	%xmm0,-16(%rsi,%rax)
	addq	%rax,%rsi
	addq	%r9,%rdi
	.p2align	5,,10
	decq	%rcx
	jne	12b
	.p2align	5,,6
	jmp	62f
13:
	.p2align	5,,13
	cmpq	$128,%rax
	ja	21b
	.p2align	5,,10
	testq	%rcx,%rcx
	je	62f
	movq	%rax,%rdx
	shrq	%rdx
	addq	%rax,%r9
	movl	%eax,%r8d
	andl	$192,%r8d
	.p2align	5,,6
	jmp	16f
	.p2align	4
20:
	addq	%rdx,%rsi
	addq	%r9,%rdi
	.p2align	5,,10
	decq	%rcx
	je	62f
16:
	vpbroadcastd	.L100v3_CPI11_12(%rip),%ymm0
	vpand	32(%rdi),%ymm0,%ymm2
	vpand	(%rdi),%ymm0,%ymm3
	vpbroadcastd	.L100v3_CPI11_13(%rip),%ymm1
	vpaddb	%ymm1,%ymm3,%ymm4
	vpaddb	%ymm1,%ymm2,%ymm5
	vpminub	%ymm5,%ymm2,%ymm2
	vpminub	%ymm4,%ymm3,%ymm3
	vpsllw	$12,%ymm3,%ymm4
	vpaddw	%ymm4,%ymm3,%ymm3
	vpsllw	$12,%ymm2,%ymm4
	vpaddw	%ymm4,%ymm2,%ymm2
	vpsrlw	$8,%ymm2,%ymm2
	vpsrlw	$8,%ymm3,%ymm3
	vpackuswb	%ymm2,%ymm3,%ymm2
	vpermq	$216,%ymm2,%ymm2
	vmovdqu	%ymm2,(%rsi)
	.p2align	5,,10
	cmpl	$64,%r8d
	je	18f
	vpand	96(%rdi),%ymm0,%ymm2
	vpand	64(%rdi),%ymm0,%ymm3
	vpaddb	%ymm1,%ymm3,%ymm4
	vpaddb	%ymm1,%ymm2,%ymm5
	vpminub	%ymm5,%ymm2,%ymm2
	vpminub	%ymm4,%ymm3,%ymm3
	vpsllw	$12,%ymm3,%ymm4
	vpaddw	%ymm4,%ymm3,%ymm3
	vpsllw	$12,%ymm2,%ymm4
	vpaddw	%ymm4,%ymm2,%ymm2
	vpsrlw	$8,%ymm2,%ymm2
	vpsrlw	$8,%ymm3,%ymm3
	vpackuswb	%ymm2,%ymm3,%ymm2
	vpermq	$216,%ymm2,%ymm2
	vmovdqu	%ymm2,32(%rsi)
18:
	.p2align	5,,10
	testb	$62,%al
	je	20b
	vpand	-32(%rdi,%rdx,2),%ymm0,%ymm2
	vpand	-64(%rdi,%rdx,2),%ymm0,%ymm0
	vpaddb	%ymm1,%ymm0,%ymm3
	vpaddb	%ymm1,%ymm2,%ymm1
	vpminub	%ymm1,%ymm2,%ymm1
	vpminub	%ymm3,%ymm0,%ymm0
	vpsllw	$12,%ymm0,%ymm2
	vpaddw	%ymm2,%ymm0,%ymm0
	vpsllw	$12,%ymm1,%ymm2
	vpaddw	%ymm2,%ymm1,%ymm1
	vpsrlw	$8,%ymm1,%ymm1
	vpsrlw	$8,%ymm0,%ymm0
	vpackuswb	%ymm1,%ymm0,%ymm0
	vpermq	$216,%ymm0,%ymm0
	vmovdqu	%ymm0,-32(%rsi,%rdx)
	.p2align	5,,6
	jmp	20b
30:
	.p2align	5,,10
	cmpq	$7,%rax
	ja	37f
	.p2align	5,,10
	cmpq	$1,%rcx
	jne	33f
	xorl	%r9d,%r9d
	xorl	%r10d,%r10d
	.p2align	5,,6
	jmp	36f
5:
	movq	%rcx,%r10
	andq	$-2,%r10
	leaq	(%rsi,%rdx,2),%r11
	addq	$-16,%r11
	leaq	(%rsi,%rdx),%rbx
	leaq	(%rdi,%rax),%r14
	leaq	(%rax,%rax),%r8
	leaq	(%r8,%r9,2),%r15
	leaq	(%r9,%rax,2),%r8
	leaq	(%rdi,%r8),%r12
	addq	$-32,%r12
	addq	%rax,%r9
	addq	%rdi,%r9
	xorl	%r8d,%r8d
	xorl	%r13d,%r13d
	.p2align	4
6:
	vpbroadcastd	.L100v3_CPI11_12(%rip),%ymm0
	vpand	-32(%r14,%r8),%ymm0,%ymm1
	vpand	(%rdi,%r8),%ymm0,%ymm2
	vpbroadcastd	.L100v3_CPI11_13(%rip),%ymm3
	vpaddb	%ymm3,%ymm2,%ymm4
	vpaddb	%ymm3,%ymm1,%ymm5
	vpminub	%ymm5,%ymm1,%ymm1
	vpminub	%ymm4,%ymm2,%ymm2
	vpsllw	$12,%ymm2,%ymm4
	vpaddw	%ymm4,%ymm2,%ymm2
	vpsllw	$12,%ymm1,%ymm4
	vpaddw	%ymm4,%ymm1,%ymm1
	vpsrlw	$8,%ymm1,%ymm1
	vpsrlw	$8,%ymm2,%ymm2
	vpackuswb	%ymm1,%ymm2,%ymm1
	vpermq	$216,%ymm1,%ymm1
	vmovdqu	%xmm1,(%rsi,%r13)
	vextracti128	$1,%ymm1,-16(%rbx,%r13)
	vpand	(%r12,%r8),%ymm0,%ymm1
	vpand	(%r9,%r8),%ymm0,%ymm0
	vpaddb	%ymm3,%ymm0,%ymm2
	vpaddb	%ymm3,%ymm1,%ymm3
	vpminub	%ymm3,%ymm1,%ymm1
	vpminub	%ymm2,%ymm0,%ymm0
	vpsllw	$12,%ymm0,%ymm2
	vpaddw	%ymm2,%ymm0,%ymm0
	vpsllw	$12,%ymm1,%ymm2
	vpaddw	%ymm2,%ymm1,%ymm1
	vpsrlw	$8,%ymm1,%ymm1
	vpsrlw	$8,%ymm0,%ymm0
	vpackuswb	%ymm1,%ymm0,%ymm0
	vpermq	$216,%ymm0,%ymm0
	vmovdqu	%xmm0,(%rbx,%r13)
	vextracti128	$1,%ymm0,(%r11,%r13)
	addq	%rdx,%r13
	addq	%rdx,%r13
	addq	%r15,%r8
	.p2align	5,,10
	addq	$-2,%r10
	jne	6b
	.p2align	5,,10
	testb	$1,%cl
	je	62f
8:
	leaq	(%rdi,%r8),%rcx
	vpbroadcastd	.L100v3_CPI11_12(%rip),%ymm0
	vpand	(%rdi,%r8),%ymm0,%ymm1
	leaq	(%rsi,%r13),%rdi
	vpand	-32(%rax,%rcx),%ymm0,%ymm0
	vpbroadcastd	.L100v3_CPI11_13(%rip),%ymm2
	vpaddb	%ymm2,%ymm1,%ymm3
	vpaddb	%ymm2,%ymm0,%ymm2
	vpminub	%ymm3,%ymm1,%ymm1
	vpminub	%ymm2,%ymm0,%ymm0
	vpsllw	$12,%ymm1,%ymm2
	vpaddw	%ymm2,%ymm1,%ymm1
	vpsllw	$12,%ymm0,%ymm2
	vpaddw	%ymm2,%ymm0,%ymm0
	vpsrlw	$8,%ymm1,%ymm1
	vpsrlw	$8,%ymm0,%ymm0
	vpackuswb	%ymm0,%ymm1,%ymm0
	vpermq	$216,%ymm0,%ymm0
	vmovdqu	%xmm0,(%rsi,%r13)
	vextracti128	$1,%ymm0,-16(%rdx,%rdi)
	.p2align	5,,6
	jmp	62f
26:
	movq	%rcx,%r11
	andq	$-2,%r11
	leaq	-1(%rsi),%rbx
	leaq	(%rdx,%rdx),%r14
	leaq	(%rax,%rax),%r10
	leaq	(%r10,%r9,2),%r15
	leaq	(%r9,%rax,2),%r9
	leaq	(%rdi,%r9),%r12
	addq	$-2,%r12
	addq	%rdi,%r8
	leaq	(%rdi,%rax),%r13
	xorl	%r10d,%r10d
	xorl	%r9d,%r9d
	.p2align	4
27:
	movzwl	(%rdi,%r10),%ebp
	vmovd	%ebp,%xmm0
	vpinsrw	$1,-2(%r13,%r10),%xmm0,%xmm0
	vpbroadcastd	.L100v3_CPI11_12(%rip),%xmm1
	vpand	%xmm1,%xmm0,%xmm0
	vpbroadcastd	.L100v3_CPI11_13(%rip),%xmm2
	vpaddb	%xmm2,%xmm0,%xmm3
	vpminub	%xmm3,%xmm0,%xmm0
	vpbroadcastd	.L100v3_CPI11_14(%rip),%xmm3
	vpmullw	%xmm3,%xmm0,%xmm0
	vpextrb	$1,%xmm0,1(%rbx)
	vpextrb	$3,%xmm0,(%rbx,%rdx)
	movzwl	(%r8,%r10),%ebp
	vmovd	%ebp,%xmm0
	vpinsrw	$1,(%r12,%r10),%xmm0,%xmm0
	vpand	%xmm1,%xmm0,%xmm0
	vpaddb	%xmm2,%xmm0,%xmm1
	vpminub	%xmm1,%xmm0,%xmm0
	vpmullw	%xmm3,%xmm0,%xmm0
	vpextrb	$1,%xmm0,1(%rbx,%rdx)
	addq	%rdx,%r9
	vpextrb	$3,%xmm0,(%rbx,%rdx,2)
	addq	%rdx,%r9
	addq	%r14,%rbx
	addq	%r15,%r10
	.p2align	5,,10
	addq	$-2,%r11
	jne	27b
	.p2align	5,,10
	testb	$1,%cl
	je	62f
29:
	leaq	(%rdi,%r10),%rcx
	movzwl	(%rdi,%r10),%edi
	vmovd	%edi,%xmm0
	vpinsrw	$1,-2(%rax,%rcx),%xmm0,%xmm0
	vpand	.L100v3_CPI11_9(%rip),%xmm0,%xmm0
	vpaddb	.L100v3_CPI11_10(%rip),%xmm0,%xmm1
	vpminub	%xmm1,%xmm0,%xmm0
	vpmullw	.L100v3_CPI11_11(%rip),%xmm0,%xmm0
	vpextrb	$1,%xmm0,(%rsi,%r9)
	leaq	(%rsi,%r9),%rax
	vpextrb	$3,%xmm0,-1(%rdx,%rax)
	.p2align	5,,6
	jmp	62f
37:
	.p2align	5,,10
	cmpq	$15,%rax
	ja	44f
	.p2align	5,,10
	cmpq	$1,%rcx
	jne	40f
	xorl	%r9d,%r9d
	xorl	%r10d,%r10d
	.p2align	5,,6
	jmp	43f
33:
	movq	%rcx,%r11
	andq	$-2,%r11
	leaq	-2(%rsi),%rbx
	leaq	(%rdx,%rdx),%r14
	leaq	(%rax,%rax),%r10
	leaq	(%r10,%r9,2),%r15
	leaq	(%r9,%rax,2),%r9
	leaq	(%rdi,%r9),%r12
	addq	$-4,%r12
	addq	%rdi,%r8
	leaq	(%rdi,%rax),%r13
	xorl	%r10d,%r10d
	xorl	%r9d,%r9d
	.p2align	4
34:
	vmovd	(%rdi,%r10),%xmm0
	vpinsrd	$1,-4(%r13,%r10),%xmm0,%xmm0
	vpbroadcastd	.L100v3_CPI11_12(%rip),%xmm1
	vpand	%xmm1,%xmm0,%xmm0
	vpbroadcastd	.L100v3_CPI11_13(%rip),%xmm2
	vpaddb	%xmm2,%xmm0,%xmm3
	vpminub	%xmm3,%xmm0,%xmm0
	vpbroadcastd	.L100v3_CPI11_14(%rip),%xmm3
	vpmullw	%xmm3,%xmm0,%xmm0
	vpbroadcastq	.L100v3_CPI11_15(%rip),%xmm4
	vpshufb	%xmm4,%xmm0,%xmm0
	vpextrw	$0,%xmm0,2(%rbx)
	vpextrw	$1,%xmm0,(%rbx,%rdx)
	vmovd	(%r8,%r10),%xmm0
	vpinsrd	$1,(%r12,%r10),%xmm0,%xmm0
	vpand	%xmm1,%xmm0,%xmm0
	vpaddb	%xmm2,%xmm0,%xmm1
	vpminub	%xmm1,%xmm0,%xmm0
	vpmullw	%xmm3,%xmm0,%xmm0
	vpshufb	%xmm4,%xmm0,%xmm0
	vpextrw	$0,%xmm0,2(%rbx,%rdx)
	addq	%rdx,%r9
	vpextrw	$1,%xmm0,(%rbx,%rdx,2)
	addq	%rdx,%r9
	addq	%r14,%rbx
	addq	%r15,%r10
	.p2align	5,,10
	addq	$-2,%r11
	jne	34b
	.p2align	5,,10
	testb	$1,%cl
	je	62f
36:
	leaq	(%rdi,%r10),%rcx
	vmovd	(%rdi,%r10),%xmm0
	vpinsrd	$1,-4(%rax,%rcx),%xmm0,%xmm0
	vpand	.L100v3_CPI11_6(%rip),%xmm0,%xmm0
	vpaddb	.L100v3_CPI11_7(%rip),%xmm0,%xmm1
	vpminub	%xmm1,%xmm0,%xmm0
	vpmullw	.L100v3_CPI11_8(%rip),%xmm0,%xmm0
	vpshufb	.L100v3_CPI11_4(%rip),%xmm0,%xmm0
	vpextrw	$0,%xmm0,(%rsi,%r9)
	leaq	(%rsi,%r9),%rax
	vpextrw	$1,%xmm0,-2(%rdx,%rax)
	.p2align	5,,6
	jmp	62f
44:
	.p2align	5,,10
	cmpq	$32,%rax
	jae	45f
	.p2align	5,,10
	cmpq	$1,%rcx
	jne	51f
	xorl	%r9d,%r9d
	xorl	%r10d,%r10d
	.p2align	5,,6
	jmp	54f
40:
	movq	%rcx,%r11
	andq	$-2,%r11
	leaq	-4(%rsi),%rbx
	leaq	(%rdx,%rdx),%r14
	leaq	(%rax,%rax),%r10
	leaq	(%r10,%r9,2),%r15
	leaq	(%r9,%rax,2),%r9
	leaq	(%rdi,%r9),%r12
	addq	$-8,%r12
	addq	%rdi,%r8
	leaq	(%rdi,%rax),%r13
	xorl	%r10d,%r10d
	xorl	%r9d,%r9d
	.p2align	4
41:
	vmovq	-8(%r13,%r10),%xmm0
	vmovq	(%rdi,%r10),%xmm1
	vpunpcklqdq	%xmm0,%xmm1,%xmm0
	vpbroadcastd	.L100v3_CPI11_12(%rip),%xmm1
	vpand	%xmm1,%xmm0,%xmm0
	vpbroadcastd	.L100v3_CPI11_13(%rip),%xmm2
	vpaddb	%xmm2,%xmm0,%xmm3
	vpminub	%xmm3,%xmm0,%xmm0
	vpsllw	$12,%xmm0,%xmm3
	vpaddw	%xmm3,%xmm0,%xmm0
	vpbroadcastq	.L100v3_CPI11_15(%rip),%xmm3
	vpshufb	%xmm3,%xmm0,%xmm0
	vmovd	%xmm0,4(%rbx)
	vpextrd	$1,%xmm0,(%rbx,%rdx)
	vmovq	(%r12,%r10),%xmm0
	vmovq	(%r8,%r10),%xmm4
	vpunpcklqdq	%xmm0,%xmm4,%xmm0
	vpand	%xmm1,%xmm0,%xmm0
	vpaddb	%xmm2,%xmm0,%xmm1
	vpminub	%xmm1,%xmm0,%xmm0
	vpsllw	$12,%xmm0,%xmm1
	vpaddw	%xmm1,%xmm0,%xmm0
	vpshufb	%xmm3,%xmm0,%xmm0
	vmovd	%xmm0,4(%rbx,%rdx)
	addq	%rdx,%r9
	vpextrd	$1,%xmm0,(%rbx,%rdx,2)
	addq	%rdx,%r9
	addq	%r14,%rbx
	addq	%r15,%r10
	.p2align	5,,10
	addq	$-2,%r11
	jne	41b
	.p2align	5,,10
	testb	$1,%cl
	je	62f
43:
	leaq	(%rdi,%r10),%rcx
	vmovq	(%rdi,%r10),%xmm0
	vmovq	-8(%rax,%rcx),%xmm1
	vpunpcklqdq	%xmm1,%xmm0,%xmm0
	vpand	.L100v3_CPI11_2(%rip),%xmm0,%xmm0
	vpaddb	.L100v3_CPI11_3(%rip),%xmm0,%xmm1
	vpminub	%xmm1,%xmm0,%xmm0
	vpsllw	$12,%xmm0,%xmm1
	vpaddw	%xmm1,%xmm0,%xmm0
	vpshufb	.L100v3_CPI11_5(%rip),%xmm0,%xmm0
	vmovd	%xmm0,(%rsi,%r9)
	leaq	(%rsi,%r9),%rax
	vpextrd	$1,%xmm0,-4(%rdx,%rax)
	.p2align	5,,6
	jmp	62f
45:
	movq	%rax,%r9
	shrq	$6,%r9
	movq	%r9,%r10
	andq	$-2,%r10
	xorl	%r11d,%r11d
	movq	%rdi,%rbx
	movq	%rsi,%r14
	xorl	%r15d,%r15d
	xorl	%r12d,%r12d
	movq	%r9,.Lhex_below-8(%rsp)
	.p2align	5,,6
	jmp	46f
	.p2align	4
61:
	addq	%rdx,%r15
	addq	%r8,%r12
	incq	%r11
	addq	%rdx,%r14
	addq	%r8,%rbx
	.p2align	5,,10
	cmpq	%rcx,%r11
	je	62f
46:
	leaq	(%rdi,%r12),%rbp
	.p2align	5,,10
	testq	%r9,%r9
	je	59f
	.p2align	5,,10
	cmpq	$1,%r9
	jne	55f
	xorl	%r13d,%r13d
	.p2align	5,,6
	jmp	58f
55:
	movl	$32,%r9d
	xorl	%r13d,%r13d
	.p2align	4
56:
	vpbroadcastd	.L100v3_CPI11_12(%rip),%ymm0
	vpand	-32(%rbx,%r9,2),%ymm0,%ymm1
	vpand	-64(%rbx,%r9,2),%ymm0,%ymm2
	vpbroadcastd	.L100v3_CPI11_13(%rip),%ymm3
	vpaddb	%ymm3,%ymm2,%ymm4
	vpaddb	%ymm3,%ymm1,%ymm5
	vpminub	%ymm5,%ymm1,%ymm1
	vpminub	%ymm4,%ymm2,%ymm2
	vpsllw	$12,%ymm2,%ymm4
	vpaddw	%ymm4,%ymm2,%ymm2
	vpsllw	$12,%ymm1,%ymm4
	vpaddw	%ymm4,%ymm1,%ymm1
	vpsrlw	$8,%ymm1,%ymm1
	vpsrlw	$8,%ymm2,%ymm2
	vpackuswb	%ymm1,%ymm2,%ymm1
	vpermq	$216,%ymm1,%ymm1
	vmovdqu	%ymm1,-32(%r14,%r9)
	vpand	32(%rbx,%r9,2),%ymm0,%ymm1
	vpand	(%rbx,%r9,2),%ymm0,%ymm0
	vpaddb	%ymm3,%ymm0,%ymm2
	vpaddb	%ymm3,%ymm1,%ymm3
	vpminub	%ymm3,%ymm1,%ymm1
	vpminub	%ymm2,%ymm0,%ymm0
	vpsllw	$12,%ymm0,%ymm2
	vpaddw	%ymm2,%ymm0,%ymm0
	vpsllw	$12,%ymm1,%ymm2
	vpaddw	%ymm2,%ymm1,%ymm1
	vpsrlw	$8,%ymm1,%ymm1
	vpsrlw	$8,%ymm0,%ymm0
	vpackuswb	%ymm1,%ymm0,%ymm0
	vpermq	$216,%ymm0,%ymm0
	vmovdqu	%ymm0,(%r14,%r9)
	addq	$2,%r13
	addq	$64,%r9
	.p2align	5,,10
	cmpq	%r13,%r10
	jne	56b
	movq	.Lhex_below-8(%rsp),%r9
	.p2align	5,,10
	testb	$1,%r9b
	je	59f
58:
	movq	%r13,%r9
	shlq	$6,%r13
	vpbroadcastd	.L100v3_CPI11_12(%rip),%ymm0
	vpand	32(%rbp,%r13),%ymm0,%ymm1
	vpand	(%rbp,%r13),%ymm0,%ymm0
	shlq	$5,%r9
	vpbroadcastd	.L100v3_CPI11_13(%rip),%ymm2
	vpaddb	%ymm2,%ymm0,%ymm3
	vpaddb	%ymm2,%ymm1,%ymm2
	vpminub	%ymm2,%ymm1,%ymm1
	vpminub	%ymm3,%ymm0,%ymm0
	vpsllw	$12,%ymm0,%ymm2
	vpaddw	%ymm2,%ymm0,%ymm0
	vpsllw	$12,%ymm1,%ymm2
	vpaddw	%ymm2,%ymm1,%ymm1
	vpsrlw	$8,%ymm1,%ymm1
	vpsrlw	$8,%ymm0,%ymm0
	vpackuswb	%ymm1,%ymm0,%ymm0
	vpermq	$216,%ymm0,%ymm0
	leaq	(%rsi,%r15),%r13
	vmovdqu	%ymm0,(%r13,%r9)
	movq	.Lhex_below-8(%rsp),%r9
59:
	.p2align	5,,10
	testb	$62,%al
	je	61b
	vpbroadcastd	.L100v3_CPI11_12(%rip),%ymm0
	vpand	-32(%rbp,%rdx,2),%ymm0,%ymm1
	vpand	-64(%rbp,%rdx,2),%ymm0,%ymm0
	vpbroadcastd	.L100v3_CPI11_13(%rip),%ymm2
	vpaddb	%ymm2,%ymm0,%ymm3
	vpaddb	%ymm2,%ymm1,%ymm2
	vpminub	%ymm2,%ymm1,%ymm1
	vpminub	%ymm3,%ymm0,%ymm0
	vpsllw	$12,%ymm0,%ymm2
	vpaddw	%ymm2,%ymm0,%ymm0
	vpsllw	$12,%ymm1,%ymm2
	vpaddw	%ymm2,%ymm1,%ymm1
	vpsrlw	$8,%ymm1,%ymm1
	vpsrlw	$8,%ymm0,%ymm0
	vpackuswb	%ymm1,%ymm0,%ymm0
	vpermq	$216,%ymm0,%ymm0
	leaq	(%rsi,%r15),%r13
	vmovdqu	%ymm0,-32(%r13,%rdx)
	.p2align	5,,6
	jmp	61b
51:
	movq	%rcx,%r11
	andq	$-2,%r11
	leaq	-8(%rsi),%rbx
	leaq	(%rdx,%rdx),%r14
	leaq	(%rax,%rax),%r10
	leaq	(%r10,%r9,2),%r15
	leaq	(%r9,%rax,2),%r9
	leaq	(%rdi,%r9),%r12
	addq	$-16,%r12
	addq	%rdi,%r8
	leaq	(%rdi,%rax),%r13
	xorl	%r10d,%r10d
	xorl	%r9d,%r9d
52:
	vmovdqu	(%rdi,%r10),%xmm0
	vinserti128	$1,-16(%r13,%r10),%ymm0,%ymm0
	vpbroadcastd	.L100v3_CPI11_12(%rip),%ymm1
	vpand	%ymm1,%ymm0,%ymm0
	vpbroadcastd	.L100v3_CPI11_13(%rip),%ymm2
	vpaddb	%ymm2,%ymm0,%ymm3
	vpminub	%ymm3,%ymm0,%ymm0
	vpsllw	$12,%ymm0,%ymm3
	vpaddw	%ymm3,%ymm0,%ymm0
	vpsrlw	$8,%ymm0,%ymm0
	vextracti128	$1,%ymm0,%xmm3
	vpackuswb	%xmm3,%xmm0,%xmm0
	vmovq	%xmm0,8(%rbx)
	vpextrq	$1,%xmm0,(%rbx,%rdx)
	vmovdqu	(%r8,%r10),%xmm0
	vinserti128	$1,(%r12,%r10),%ymm0,%ymm0
	vpand	%ymm1,%ymm0,%ymm0
	vpaddb	%ymm2,%ymm0,%ymm1
	vpminub	%ymm1,%ymm0,%ymm0
	vpsllw	$12,%ymm0,%ymm1
	vpaddw	%ymm1,%ymm0,%ymm0
	vpsrlw	$8,%ymm0,%ymm0
	vextracti128	$1,%ymm0,%xmm1
	vpackuswb	%xmm1,%xmm0,%xmm0
	vmovq	%xmm0,8(%rbx,%rdx)
	addq	%rdx,%r9
	vpextrq	$1,%xmm0,(%rbx,%rdx,2)
	addq	%rdx,%r9
	addq	%r14,%rbx
	addq	%r15,%r10
	.p2align	5,,10
	addq	$-2,%r11
	jne	52b
	.p2align	5,,10
	testb	$1,%cl
	je	62f
54:
	leaq	(%rdi,%r10),%rcx
	vmovdqu	(%rdi,%r10),%xmm0
	vinserti128	$1,-16(%rax,%rcx),%ymm0,%ymm0
	vpand	.L100v3_CPI11_0(%rip),%ymm0,%ymm0
	vpaddb	.L100v3_CPI11_1(%rip),%ymm0,%ymm1
	vpminub	%ymm1,%ymm0,%ymm0
	vpsllw	$12,%ymm0,%ymm1
	vpaddw	%ymm1,%ymm0,%ymm0
	vpsrlw	$8,%ymm0,%ymm0
	vextracti128	$1,%ymm0,%xmm1
	vpackuswb	%xmm1,%xmm0,%xmm0
	vmovq	%xmm0,(%rsi,%r9)
	leaq	(%rsi,%r9),%rax
	vpextrq	$1,%xmm0,-8(%rdx,%rax)
62:
	popq	%rbx
	hex_cfi	def_cfa_offset 48
	popq	%r12
	hex_cfi	def_cfa_offset 40
	popq	%r13
	hex_cfi	def_cfa_offset 32
	popq	%r14
	hex_cfi	def_cfa_offset 24
	popq	%r15
	hex_cfi	def_cfa_offset 16
	popq	%rbp
	hex_cfi	def_cfa_offset 8
	vzeroupper
	hex_raise
	.p2align	5,,1
	retq
	hex_end	faster_hex_1_0_0_x86_64_v3_codec_spaced_decode_lines
	hex_cfi	endproc
	hex_merged	32
	.p2align	5,0x0
.L100v3_CPI12_0:
	.zero	32,57
.L100v3_CPI12_1:
	.byte	167,168,169,0,0,0,0,0,0,144,161,162,163,164,165,166
	.byte	167,168,169,0,0,0,0,0,0,144,161,162,163,164,165,166
.L100v3_CPI12_2:
	.zero	32,160
	hex_merged	8
	.p2align	3,0x0
.L100v3_CPI12_3:
	.quad	-6872316419617283936
	hex_merged	16
	.p2align	4,0x0
.L100v3_CPI12_4:
	.zero	16,57
.L100v3_CPI12_5:
	.byte	167,168,169,0,0,0,0,0,0,144,161,162,163,164,165,166
.L100v3_CPI12_6:
	.zero	16,160
.L100v3_CPI12_7:
	.byte	57,57,57,57,57,57,57,57,0,0,0,0,0,0,0,0
.L100v3_CPI12_8:
	.byte	160,160,160,160,160,160,160,160,0,0,0,0,0,0,0,0
.L100v3_CPI12_9:
	.byte	57,57,57,57,0,0,0,0,0,0,0,0,0,0,0,0
.L100v3_CPI12_10:
	.byte	160,160,160,160,0,0,0,0,0,0,0,0,0,0,0,0
.L100v3_CPI12_11:
	.byte	57,57,0,0,0,0,0,0,0,0,0,0,0,0,0,0
.L100v3_CPI12_12:
	.byte	160,160,0,0,0,0,0,0,0,0,0,0,0,0,0,0
	hex_merged	4
	.p2align	2,0x0
.L100v3_CPI12_13:
	.zero	4,57
	hex_export	faster_hex_1_0_0_x86_64_v3_check
	hex_cfi	startproc
	endbr64
	.p2align	5,,10
	cmpq	$32,%rsi
	ja	12f
	.p2align	5,,10
	cmpq	$15,%rsi
	ja	11f
	.p2align	5,,10
	testq	%rsi,%rsi
	je	3f
	.p2align	5,,10
	cmpq	$1,%rsi
	jne	6f
	movzbl	(%rdi),%eax
	leal	-48(%rax),%ecx
	xorl	%edx,%edx
	subb	$9,%cl
	movzbl	%cl,%ecx
	cmovbl	%edx,%ecx
	orb	$32,%al
	addb	$-97,%al
	subb	$5,%al
	movzbl	%al,%eax
	cmovbl	%edx,%eax
	cmpb	%al,%cl
	cmovbl	%ecx,%eax
	testb	%al,%al
	sete	%al
	.p2align	5,,1
	retq
12:
	.p2align	5,,13
	cmpq	$256,%rsi
	ja	23f
	.p2align	5,,10
	cmpq	$64,%rsi
	ja	15f
	vmovdqu	(%rdi),%ymm0
	vpbroadcastd	.L100v3_CPI12_13(%rip),%ymm1
	vpaddb	%ymm1,%ymm0,%ymm2
	vbroadcasti128	.L100v3_CPI12_5(%rip),%ymm3
	vpshufb	%ymm2,%ymm3,%ymm4
	vpsubb	%ymm0,%ymm4,%ymm0
	vpxor	%ymm2,%ymm0,%ymm0
	vmovdqu	-32(%rdi,%rsi),%ymm2
	vpaddb	%ymm1,%ymm2,%ymm1
	vpshufb	%ymm1,%ymm3,%ymm3
	vpsubb	%ymm2,%ymm3,%ymm2
	vpxor	%ymm1,%ymm2,%ymm1
	vpor	%ymm0,%ymm1,%ymm0
	vpbroadcastq	.L100v3_CPI12_3(%rip),%ymm1
	vptest	%ymm1,%ymm0
	sete	%al
	vzeroupper
	.p2align	5,,1
	retq
11:
	vmovdqu	(%rdi),%xmm0
	vpbroadcastd	.L100v3_CPI12_13(%rip),%xmm1
	vpaddb	%xmm1,%xmm0,%xmm2
	vmovdqa	.L100v3_CPI12_5(%rip),%xmm3
	vpshufb	%xmm2,%xmm3,%xmm4
	vpsubb	%xmm0,%xmm4,%xmm0
	vpxor	%xmm2,%xmm0,%xmm0
	vmovdqu	-16(%rdi,%rsi),%xmm2
	vpaddb	%xmm1,%xmm2,%xmm1
	vpshufb	%xmm1,%xmm3,%xmm3
	vpsubb	%xmm2,%xmm3,%xmm2
	vpxor	%xmm1,%xmm2,%xmm1
	vpor	%xmm0,%xmm1,%xmm0
	vptest	.L100v3_CPI12_6(%rip),%xmm0
	sete	%al
	.p2align	5,,1
	retq
23:
	pushq	%rax
	hex_cfi	def_cfa_offset 16
	xorl	%edx,%edx
	.p2align	5,,5
	callq	faster_hex_1_0_0_x86_64_v3_core_plain_check_long_outlined
	addq	$8,%rsp
	hex_cfi	def_cfa_offset 8
	.p2align	5,,1
	retq
15:
	.p2align	5,,13
	cmpq	$128,%rsi
	ja	20f
	vpbroadcastd	.L100v3_CPI12_13(%rip),%ymm2
	vmovdqu	(%rdi),%ymm0
	vmovdqu	32(%rdi),%ymm3
	vpaddb	%ymm2,%ymm0,%ymm4
	vbroadcasti128	.L100v3_CPI12_5(%rip),%ymm1
	vpshufb	%ymm4,%ymm1,%ymm5
	vpsubb	%ymm0,%ymm5,%ymm0
	vpxor	%ymm4,%ymm0,%ymm0
	vpaddb	%ymm2,%ymm3,%ymm4
	vpshufb	%ymm4,%ymm1,%ymm5
	vpsubb	%ymm3,%ymm5,%ymm3
	vpxor	%ymm4,%ymm3,%ymm3
	vpor	%ymm0,%ymm3,%ymm0
	vmovdqu	-32(%rdi,%rsi),%ymm3
	vpaddb	%ymm2,%ymm3,%ymm2
	vpshufb	%ymm2,%ymm1,%ymm4
	vpsubb	%ymm3,%ymm4,%ymm3
	vpxor	%ymm2,%ymm3,%ymm2
	.p2align	5,,10
	cmpq	$97,%rsi
	jb	18f
	vmovdqu	-64(%rdi,%rsi),%ymm3
	vpaddb	.L100v3_CPI12_0(%rip),%ymm3,%ymm4
	vpshufb	%ymm4,%ymm1,%ymm1
	vpsubb	%ymm3,%ymm1,%ymm1
	vpxor	%ymm4,%ymm1,%ymm1
	vpor	%ymm0,%ymm1,%ymm0
18:
	vpor	%ymm2,%ymm0,%ymm0
	vpbroadcastq	.L100v3_CPI12_3(%rip),%ymm1
	vptest	%ymm1,%ymm0
	sete	%al
	vzeroupper
	.p2align	5,,1
	retq
3:
	movb	$1,%al
	.p2align	5,,1
	retq
6:
	.p2align	5,,10
	cmpq	$3,%rsi
	ja	8f
	movzwl	(%rdi),%eax
	vmovd	%eax,%xmm0
	vpbroadcastd	.L100v3_CPI12_13(%rip),%xmm1
	vpaddb	%xmm1,%xmm0,%xmm2
	vmovdqa	.L100v3_CPI12_5(%rip),%xmm3
	vpshufb	%xmm2,%xmm3,%xmm4
	vpsubb	%xmm0,%xmm4,%xmm0
	vpxor	%xmm2,%xmm0,%xmm0
	movzwl	-2(%rdi,%rsi),%eax
	vmovd	%eax,%xmm2
	vpaddb	%xmm1,%xmm2,%xmm1
	vpshufb	%xmm1,%xmm3,%xmm3
	vpsubb	%xmm2,%xmm3,%xmm2
	vpxor	%xmm1,%xmm2,%xmm1
	vpor	%xmm0,%xmm1,%xmm0
	vpand	.L100v3_CPI12_12(%rip),%xmm0,%xmm0
	vmovd	%xmm0,%eax
	testw	%ax,%ax
	sete	%al
	.p2align	5,,1
	retq
20:
	vpbroadcastd	.L100v3_CPI12_13(%rip),%ymm0
	vmovdqu	(%rdi),%ymm1
	vmovdqu	32(%rdi),%ymm3
	vmovdqu	64(%rdi),%ymm4
	vmovdqu	96(%rdi),%ymm5
	vpaddb	%ymm0,%ymm3,%ymm6
	vpaddb	%ymm0,%ymm1,%ymm7
	vbroadcasti128	.L100v3_CPI12_5(%rip),%ymm2
	vpshufb	%ymm7,%ymm2,%ymm8
	vpshufb	%ymm6,%ymm2,%ymm9
	vpsubb	%ymm3,%ymm9,%ymm3
	vpsubb	%ymm1,%ymm8,%ymm1
	vpxor	%ymm7,%ymm1,%ymm1
	vpxor	%ymm6,%ymm3,%ymm3
	vpaddb	%ymm0,%ymm5,%ymm6
	vpaddb	%ymm0,%ymm4,%ymm7
	vpshufb	%ymm7,%ymm2,%ymm8
	vpshufb	%ymm6,%ymm2,%ymm9
	vpsubb	%ymm5,%ymm9,%ymm5
	vpsubb	%ymm4,%ymm8,%ymm4
	vpxor	%ymm7,%ymm4,%ymm4
	vpor	%ymm1,%ymm4,%ymm1
	vpxor	%ymm6,%ymm5,%ymm4
	vpor	%ymm3,%ymm4,%ymm3
	vmovdqu	-64(%rdi,%rsi),%ymm4
	vmovdqu	-32(%rdi,%rsi),%ymm5
	vpaddb	%ymm0,%ymm5,%ymm6
	vpaddb	%ymm0,%ymm4,%ymm7
	vpshufb	%ymm7,%ymm2,%ymm8
	vpshufb	%ymm6,%ymm2,%ymm9
	vpsubb	%ymm4,%ymm8,%ymm4
	vpsubb	%ymm5,%ymm9,%ymm5
	vpxor	%ymm6,%ymm5,%ymm5
	vpxor	%ymm7,%ymm4,%ymm4
	.p2align	5,,13
	cmpq	$193,%rsi
	jb	22f
	vmovdqu	-128(%rdi,%rsi),%ymm6
	vmovdqu	-96(%rdi,%rsi),%ymm7
	vpaddb	%ymm0,%ymm7,%ymm8
	vpaddb	%ymm0,%ymm6,%ymm0
	vpshufb	%ymm0,%ymm2,%ymm9
	vpshufb	%ymm8,%ymm2,%ymm2
	vpsubb	%ymm7,%ymm2,%ymm2
	vpsubb	%ymm6,%ymm9,%ymm6
	vpxor	%ymm0,%ymm6,%ymm0
	vpxor	%ymm2,%ymm8,%ymm2
	vpor	%ymm3,%ymm2,%ymm3
	vpor	%ymm1,%ymm0,%ymm1
22:
	vpor	%ymm5,%ymm3,%ymm0
	vpor	%ymm4,%ymm1,%ymm1
	vpor	%ymm0,%ymm1,%ymm0
	vptest	.L100v3_CPI12_2(%rip),%ymm0
	sete	%al
	vzeroupper
	.p2align	5,,1
	retq
8:
	.p2align	5,,10
	cmpq	$7,%rsi
	ja	10f
	vmovd	(%rdi),%xmm0
	vpbroadcastd	.L100v3_CPI12_13(%rip),%xmm1
	vpaddb	%xmm1,%xmm0,%xmm2
	vmovdqa	.L100v3_CPI12_5(%rip),%xmm3
	vpshufb	%xmm2,%xmm3,%xmm4
	vpsubb	%xmm0,%xmm4,%xmm0
	vpxor	%xmm2,%xmm0,%xmm0
	vmovd	-4(%rdi,%rsi),%xmm2
	vpaddb	%xmm1,%xmm2,%xmm1
	vpshufb	%xmm1,%xmm3,%xmm3
	vpsubb	%xmm2,%xmm3,%xmm2
	vpxor	%xmm1,%xmm2,%xmm1
	vpor	%xmm0,%xmm1,%xmm0
	vpand	.L100v3_CPI12_10(%rip),%xmm0,%xmm0
	vmovd	%xmm0,%eax
	testl	%eax,%eax
	sete	%al
	.p2align	5,,1
	retq
10:
	vmovq	(%rdi),%xmm0
	vpbroadcastd	.L100v3_CPI12_13(%rip),%xmm1
	vpaddb	%xmm1,%xmm0,%xmm2
	vmovdqa	.L100v3_CPI12_5(%rip),%xmm3
	vpshufb	%xmm2,%xmm3,%xmm4
	vpsubb	%xmm0,%xmm4,%xmm0
	vpxor	%xmm2,%xmm0,%xmm0
	vmovq	-8(%rdi,%rsi),%xmm2
	vpaddb	%xmm1,%xmm2,%xmm1
	vpshufb	%xmm1,%xmm3,%xmm3
	vpsubb	%xmm2,%xmm3,%xmm2
	vpxor	%xmm1,%xmm2,%xmm1
	vpor	%xmm0,%xmm1,%xmm0
	vpand	.L100v3_CPI12_8(%rip),%xmm0,%xmm0
	vmovq	%xmm0,%rax
	testq	%rax,%rax
	sete	%al
	.p2align	5,,1
	retq
	hex_end	faster_hex_1_0_0_x86_64_v3_check
	hex_cfi	endproc
	hex_merged	32
	.p2align	5,0x0
.L100v3_CPI13_0:
	.zero	32,57
.L100v3_CPI13_1:
	.byte	167,168,169,0,0,0,0,0,0,144,145,146,147,148,149,150
	.byte	167,168,169,0,0,0,0,0,0,144,145,146,147,148,149,150
.L100v3_CPI13_2:
	.zero	32,160
	hex_merged	8
	.p2align	3,0x0
.L100v3_CPI13_3:
	.quad	-6872316419617283936
	hex_merged	16
	.p2align	4,0x0
.L100v3_CPI13_4:
	.zero	16,57
.L100v3_CPI13_5:
	.byte	167,168,169,0,0,0,0,0,0,144,145,146,147,148,149,150
.L100v3_CPI13_6:
	.zero	16,160
.L100v3_CPI13_7:
	.byte	57,57,57,57,57,57,57,57,0,0,0,0,0,0,0,0
.L100v3_CPI13_8:
	.byte	160,160,160,160,160,160,160,160,0,0,0,0,0,0,0,0
.L100v3_CPI13_9:
	.byte	57,57,57,57,0,0,0,0,0,0,0,0,0,0,0,0
.L100v3_CPI13_10:
	.byte	160,160,160,160,0,0,0,0,0,0,0,0,0,0,0,0
.L100v3_CPI13_11:
	.byte	57,57,0,0,0,0,0,0,0,0,0,0,0,0,0,0
.L100v3_CPI13_12:
	.byte	160,160,0,0,0,0,0,0,0,0,0,0,0,0,0,0
	hex_merged	4
	.p2align	2,0x0
.L100v3_CPI13_13:
	.zero	4,57
	hex_export	faster_hex_1_0_0_x86_64_v3_check_lower
	hex_cfi	startproc
	endbr64
	.p2align	5,,10
	cmpq	$32,%rsi
	ja	12f
	.p2align	5,,10
	cmpq	$15,%rsi
	ja	11f
	.p2align	5,,10
	testq	%rsi,%rsi
	je	3f
	.p2align	5,,10
	cmpq	$1,%rsi
	jne	6f
	movzbl	(%rdi),%eax
	leal	-48(%rax),%ecx
	xorl	%edx,%edx
	subb	$9,%cl
	movzbl	%cl,%ecx
	cmovbl	%edx,%ecx
	addb	$-97,%al
	subb	$5,%al
	movzbl	%al,%eax
	cmovbl	%edx,%eax
	cmpb	%al,%cl
	cmovbl	%ecx,%eax
	testb	%al,%al
	sete	%al
	.p2align	5,,1
	retq
12:
	.p2align	5,,13
	cmpq	$256,%rsi
	ja	23f
	.p2align	5,,10
	cmpq	$64,%rsi
	ja	15f
	vmovdqu	(%rdi),%ymm0
	vpbroadcastd	.L100v3_CPI13_13(%rip),%ymm1
	vpaddb	%ymm1,%ymm0,%ymm2
	vbroadcasti128	.L100v3_CPI13_5(%rip),%ymm3
	vpshufb	%ymm2,%ymm3,%ymm4
	vpsubb	%ymm0,%ymm4,%ymm0
	vpxor	%ymm2,%ymm0,%ymm0
	vmovdqu	-32(%rdi,%rsi),%ymm2
	vpaddb	%ymm1,%ymm2,%ymm1
	vpshufb	%ymm1,%ymm3,%ymm3
	vpsubb	%ymm2,%ymm3,%ymm2
	vpxor	%ymm1,%ymm2,%ymm1
	vpor	%ymm0,%ymm1,%ymm0
	vpbroadcastq	.L100v3_CPI13_3(%rip),%ymm1
	vptest	%ymm1,%ymm0
	sete	%al
	vzeroupper
	.p2align	5,,1
	retq
11:
	vmovdqu	(%rdi),%xmm0
	vpbroadcastd	.L100v3_CPI13_13(%rip),%xmm1
	vpaddb	%xmm1,%xmm0,%xmm2
	vmovdqa	.L100v3_CPI13_5(%rip),%xmm3
	vpshufb	%xmm2,%xmm3,%xmm4
	vpsubb	%xmm0,%xmm4,%xmm0
	vpxor	%xmm2,%xmm0,%xmm0
	vmovdqu	-16(%rdi,%rsi),%xmm2
	vpaddb	%xmm1,%xmm2,%xmm1
	vpshufb	%xmm1,%xmm3,%xmm3
	vpsubb	%xmm2,%xmm3,%xmm2
	vpxor	%xmm1,%xmm2,%xmm1
	vpor	%xmm0,%xmm1,%xmm0
	vptest	.L100v3_CPI13_6(%rip),%xmm0
	sete	%al
	.p2align	5,,1
	retq
23:
	pushq	%rax
	hex_cfi	def_cfa_offset 16
	movl	$1,%edx
	.p2align	5,,5
	callq	faster_hex_1_0_0_x86_64_v3_core_plain_check_long_outlined
	addq	$8,%rsp
	hex_cfi	def_cfa_offset 8
	.p2align	5,,1
	retq
15:
	.p2align	5,,13
	cmpq	$128,%rsi
	ja	20f
	vpbroadcastd	.L100v3_CPI13_13(%rip),%ymm2
	vmovdqu	(%rdi),%ymm0
	vmovdqu	32(%rdi),%ymm3
	vpaddb	%ymm2,%ymm0,%ymm4
	vbroadcasti128	.L100v3_CPI13_5(%rip),%ymm1
	vpshufb	%ymm4,%ymm1,%ymm5
	vpsubb	%ymm0,%ymm5,%ymm0
	vpxor	%ymm4,%ymm0,%ymm0
	vpaddb	%ymm2,%ymm3,%ymm4
	vpshufb	%ymm4,%ymm1,%ymm5
	vpsubb	%ymm3,%ymm5,%ymm3
	vpxor	%ymm4,%ymm3,%ymm3
	vpor	%ymm0,%ymm3,%ymm0
	vmovdqu	-32(%rdi,%rsi),%ymm3
	vpaddb	%ymm2,%ymm3,%ymm2
	vpshufb	%ymm2,%ymm1,%ymm4
	vpsubb	%ymm3,%ymm4,%ymm3
	vpxor	%ymm2,%ymm3,%ymm2
	.p2align	5,,10
	cmpq	$97,%rsi
	jb	18f
	vmovdqu	-64(%rdi,%rsi),%ymm3
	vpaddb	.L100v3_CPI13_0(%rip),%ymm3,%ymm4
	vpshufb	%ymm4,%ymm1,%ymm1
	vpsubb	%ymm3,%ymm1,%ymm1
	vpxor	%ymm4,%ymm1,%ymm1
	vpor	%ymm0,%ymm1,%ymm0
18:
	vpor	%ymm2,%ymm0,%ymm0
	vpbroadcastq	.L100v3_CPI13_3(%rip),%ymm1
	vptest	%ymm1,%ymm0
	sete	%al
	vzeroupper
	.p2align	5,,1
	retq
3:
	movb	$1,%al
	.p2align	5,,1
	retq
6:
	.p2align	5,,10
	cmpq	$3,%rsi
	ja	8f
	movzwl	(%rdi),%eax
	vmovd	%eax,%xmm0
	vpbroadcastd	.L100v3_CPI13_13(%rip),%xmm1
	vpaddb	%xmm1,%xmm0,%xmm2
	vmovdqa	.L100v3_CPI13_5(%rip),%xmm3
	vpshufb	%xmm2,%xmm3,%xmm4
	vpsubb	%xmm0,%xmm4,%xmm0
	vpxor	%xmm2,%xmm0,%xmm0
	movzwl	-2(%rdi,%rsi),%eax
	vmovd	%eax,%xmm2
	vpaddb	%xmm1,%xmm2,%xmm1
	vpshufb	%xmm1,%xmm3,%xmm3
	vpsubb	%xmm2,%xmm3,%xmm2
	vpxor	%xmm1,%xmm2,%xmm1
	vpor	%xmm0,%xmm1,%xmm0
	vpand	.L100v3_CPI13_12(%rip),%xmm0,%xmm0
	vmovd	%xmm0,%eax
	testw	%ax,%ax
	sete	%al
	.p2align	5,,1
	retq
20:
	vpbroadcastd	.L100v3_CPI13_13(%rip),%ymm0
	vmovdqu	(%rdi),%ymm1
	vmovdqu	32(%rdi),%ymm3
	vmovdqu	64(%rdi),%ymm4
	vmovdqu	96(%rdi),%ymm5
	vpaddb	%ymm0,%ymm3,%ymm6
	vpaddb	%ymm0,%ymm1,%ymm7
	vbroadcasti128	.L100v3_CPI13_5(%rip),%ymm2
	vpshufb	%ymm7,%ymm2,%ymm8
	vpshufb	%ymm6,%ymm2,%ymm9
	vpsubb	%ymm3,%ymm9,%ymm3
	vpsubb	%ymm1,%ymm8,%ymm1
	vpxor	%ymm7,%ymm1,%ymm1
	vpxor	%ymm6,%ymm3,%ymm3
	vpaddb	%ymm0,%ymm5,%ymm6
	vpaddb	%ymm0,%ymm4,%ymm7
	vpshufb	%ymm7,%ymm2,%ymm8
	vpshufb	%ymm6,%ymm2,%ymm9
	vpsubb	%ymm5,%ymm9,%ymm5
	vpsubb	%ymm4,%ymm8,%ymm4
	vpxor	%ymm7,%ymm4,%ymm4
	vpor	%ymm1,%ymm4,%ymm1
	vpxor	%ymm6,%ymm5,%ymm4
	vpor	%ymm3,%ymm4,%ymm3
	vmovdqu	-64(%rdi,%rsi),%ymm4
	vmovdqu	-32(%rdi,%rsi),%ymm5
	vpaddb	%ymm0,%ymm5,%ymm6
	vpaddb	%ymm0,%ymm4,%ymm7
	vpshufb	%ymm7,%ymm2,%ymm8
	vpshufb	%ymm6,%ymm2,%ymm9
	vpsubb	%ymm4,%ymm8,%ymm4
	vpsubb	%ymm5,%ymm9,%ymm5
	vpxor	%ymm6,%ymm5,%ymm5
	vpxor	%ymm7,%ymm4,%ymm4
	.p2align	5,,13
	cmpq	$193,%rsi
	jb	22f
	vmovdqu	-128(%rdi,%rsi),%ymm6
	vmovdqu	-96(%rdi,%rsi),%ymm7
	vpaddb	%ymm0,%ymm7,%ymm8
	vpaddb	%ymm0,%ymm6,%ymm0
	vpshufb	%ymm0,%ymm2,%ymm9
	vpshufb	%ymm8,%ymm2,%ymm2
	vpsubb	%ymm7,%ymm2,%ymm2
	vpsubb	%ymm6,%ymm9,%ymm6
	vpxor	%ymm0,%ymm6,%ymm0
	vpxor	%ymm2,%ymm8,%ymm2
	vpor	%ymm3,%ymm2,%ymm3
	vpor	%ymm1,%ymm0,%ymm1
22:
	vpor	%ymm5,%ymm3,%ymm0
	vpor	%ymm4,%ymm1,%ymm1
	vpor	%ymm0,%ymm1,%ymm0
	vptest	.L100v3_CPI13_2(%rip),%ymm0
	sete	%al
	vzeroupper
	.p2align	5,,1
	retq
8:
	.p2align	5,,10
	cmpq	$7,%rsi
	ja	10f
	vmovd	(%rdi),%xmm0
	vpbroadcastd	.L100v3_CPI13_13(%rip),%xmm1
	vpaddb	%xmm1,%xmm0,%xmm2
	vmovdqa	.L100v3_CPI13_5(%rip),%xmm3
	vpshufb	%xmm2,%xmm3,%xmm4
	vpsubb	%xmm0,%xmm4,%xmm0
	vpxor	%xmm2,%xmm0,%xmm0
	vmovd	-4(%rdi,%rsi),%xmm2
	vpaddb	%xmm1,%xmm2,%xmm1
	vpshufb	%xmm1,%xmm3,%xmm3
	vpsubb	%xmm2,%xmm3,%xmm2
	vpxor	%xmm1,%xmm2,%xmm1
	vpor	%xmm0,%xmm1,%xmm0
	vpand	.L100v3_CPI13_10(%rip),%xmm0,%xmm0
	vmovd	%xmm0,%eax
	testl	%eax,%eax
	sete	%al
	.p2align	5,,1
	retq
10:
	vmovq	(%rdi),%xmm0
	vpbroadcastd	.L100v3_CPI13_13(%rip),%xmm1
	vpaddb	%xmm1,%xmm0,%xmm2
	vmovdqa	.L100v3_CPI13_5(%rip),%xmm3
	vpshufb	%xmm2,%xmm3,%xmm4
	vpsubb	%xmm0,%xmm4,%xmm0
	vpxor	%xmm2,%xmm0,%xmm0
	vmovq	-8(%rdi,%rsi),%xmm2
	vpaddb	%xmm1,%xmm2,%xmm1
	vpshufb	%xmm1,%xmm3,%xmm3
	vpsubb	%xmm2,%xmm3,%xmm2
	vpxor	%xmm1,%xmm2,%xmm1
	vpor	%xmm0,%xmm1,%xmm0
	vpand	.L100v3_CPI13_8(%rip),%xmm0,%xmm0
	vmovq	%xmm0,%rax
	testq	%rax,%rax
	sete	%al
	.p2align	5,,1
	retq
	hex_end	faster_hex_1_0_0_x86_64_v3_check_lower
	hex_cfi	endproc
	hex_merged	32
	.p2align	5,0x0
.L100v3_CPI14_0:
	.zero	32,57
.L100v3_CPI14_1:
	.byte	167,169,169,0,0,0,0,0,0,145,161,163,163,165,165,167
	.byte	167,169,169,0,0,0,0,0,0,145,161,163,163,165,165,167
.L100v3_CPI14_2:
	.zero	32,161
	hex_merged	8
	.p2align	3,0x0
.L100v3_CPI14_3:
	.quad	-6799976246779207263
	hex_merged	16
	.p2align	4,0x0
.L100v3_CPI14_4:
	.zero	16,57
.L100v3_CPI14_5:
	.byte	167,169,169,0,0,0,0,0,0,145,161,163,163,165,165,167
.L100v3_CPI14_6:
	.zero	16,161
.L100v3_CPI14_7:
	.byte	57,57,57,57,57,57,57,57,0,0,0,0,0,0,0,0
.L100v3_CPI14_8:
	.byte	161,161,161,161,161,161,161,161,0,0,0,0,0,0,0,0
.L100v3_CPI14_9:
	.byte	57,57,57,57,0,0,0,0,0,0,0,0,0,0,0,0
.L100v3_CPI14_10:
	.byte	161,161,161,161,0,0,0,0,0,0,0,0,0,0,0,0
.L100v3_CPI14_11:
	.byte	57,57,0,0,0,0,0,0,0,0,0,0,0,0,0,0
.L100v3_CPI14_12:
	.byte	161,161,0,0,0,0,0,0,0,0,0,0,0,0,0,0
	hex_merged	4
	.p2align	2,0x0
.L100v3_CPI14_13:
	.zero	4,57
	hex_export	faster_hex_1_0_0_x86_64_v3_check_upper
	hex_cfi	startproc
	endbr64
	.p2align	5,,10
	cmpq	$32,%rsi
	ja	12f
	.p2align	5,,10
	cmpq	$15,%rsi
	ja	11f
	.p2align	5,,10
	testq	%rsi,%rsi
	je	3f
	.p2align	5,,10
	cmpq	$1,%rsi
	jne	6f
	movzbl	(%rdi),%eax
	leal	-48(%rax),%ecx
	xorl	%edx,%edx
	subb	$9,%cl
	movzbl	%cl,%ecx
	cmovbl	%edx,%ecx
	addb	$-65,%al
	subb	$5,%al
	movzbl	%al,%eax
	cmovbl	%edx,%eax
	cmpb	%al,%cl
	cmovbl	%ecx,%eax
	testb	%al,%al
	sete	%al
	.p2align	5,,1
	retq
12:
	.p2align	5,,13
	cmpq	$256,%rsi
	ja	23f
	.p2align	5,,10
	cmpq	$64,%rsi
	ja	15f
	vmovdqu	(%rdi),%ymm0
	vpbroadcastd	.L100v3_CPI14_13(%rip),%ymm1
	vpaddb	%ymm1,%ymm0,%ymm2
	vbroadcasti128	.L100v3_CPI14_5(%rip),%ymm3
	vpshufb	%ymm2,%ymm3,%ymm4
	vpsubb	%ymm0,%ymm4,%ymm0
	vpxor	%ymm2,%ymm0,%ymm0
	vmovdqu	-32(%rdi,%rsi),%ymm2
	vpaddb	%ymm1,%ymm2,%ymm1
	vpshufb	%ymm1,%ymm3,%ymm3
	vpsubb	%ymm2,%ymm3,%ymm2
	vpxor	%ymm1,%ymm2,%ymm1
	vpor	%ymm0,%ymm1,%ymm0
	vpbroadcastq	.L100v3_CPI14_3(%rip),%ymm1
	vptest	%ymm1,%ymm0
	sete	%al
	vzeroupper
	.p2align	5,,1
	retq
11:
	vmovdqu	(%rdi),%xmm0
	vpbroadcastd	.L100v3_CPI14_13(%rip),%xmm1
	vpaddb	%xmm1,%xmm0,%xmm2
	vmovdqa	.L100v3_CPI14_5(%rip),%xmm3
	vpshufb	%xmm2,%xmm3,%xmm4
	vpsubb	%xmm0,%xmm4,%xmm0
	vpxor	%xmm2,%xmm0,%xmm0
	vmovdqu	-16(%rdi,%rsi),%xmm2
	vpaddb	%xmm1,%xmm2,%xmm1
	vpshufb	%xmm1,%xmm3,%xmm3
	vpsubb	%xmm2,%xmm3,%xmm2
	vpxor	%xmm1,%xmm2,%xmm1
	vpor	%xmm0,%xmm1,%xmm0
	vptest	.L100v3_CPI14_6(%rip),%xmm0
	sete	%al
	.p2align	5,,1
	retq
23:
	pushq	%rax
	hex_cfi	def_cfa_offset 16
	movl	$2,%edx
	.p2align	5,,5
	callq	faster_hex_1_0_0_x86_64_v3_core_plain_check_long_outlined
	addq	$8,%rsp
	hex_cfi	def_cfa_offset 8
	.p2align	5,,1
	retq
15:
	.p2align	5,,13
	cmpq	$128,%rsi
	ja	20f
	vpbroadcastd	.L100v3_CPI14_13(%rip),%ymm2
	vmovdqu	(%rdi),%ymm0
	vmovdqu	32(%rdi),%ymm3
	vpaddb	%ymm2,%ymm0,%ymm4
	vbroadcasti128	.L100v3_CPI14_5(%rip),%ymm1
	vpshufb	%ymm4,%ymm1,%ymm5
	vpsubb	%ymm0,%ymm5,%ymm0
	vpxor	%ymm4,%ymm0,%ymm0
	vpaddb	%ymm2,%ymm3,%ymm4
	vpshufb	%ymm4,%ymm1,%ymm5
	vpsubb	%ymm3,%ymm5,%ymm3
	vpxor	%ymm4,%ymm3,%ymm3
	vpor	%ymm0,%ymm3,%ymm0
	vmovdqu	-32(%rdi,%rsi),%ymm3
	vpaddb	%ymm2,%ymm3,%ymm2
	vpshufb	%ymm2,%ymm1,%ymm4
	vpsubb	%ymm3,%ymm4,%ymm3
	vpxor	%ymm2,%ymm3,%ymm2
	.p2align	5,,10
	cmpq	$97,%rsi
	jb	18f
	vmovdqu	-64(%rdi,%rsi),%ymm3
	vpaddb	.L100v3_CPI14_0(%rip),%ymm3,%ymm4
	vpshufb	%ymm4,%ymm1,%ymm1
	vpsubb	%ymm3,%ymm1,%ymm1
	vpxor	%ymm4,%ymm1,%ymm1
	vpor	%ymm0,%ymm1,%ymm0
18:
	vpor	%ymm2,%ymm0,%ymm0
	vpbroadcastq	.L100v3_CPI14_3(%rip),%ymm1
	vptest	%ymm1,%ymm0
	sete	%al
	vzeroupper
	.p2align	5,,1
	retq
3:
	movb	$1,%al
	.p2align	5,,1
	retq
6:
	.p2align	5,,10
	cmpq	$3,%rsi
	ja	8f
	movzwl	(%rdi),%eax
	vmovd	%eax,%xmm0
	vpbroadcastd	.L100v3_CPI14_13(%rip),%xmm1
	vpaddb	%xmm1,%xmm0,%xmm2
	vmovdqa	.L100v3_CPI14_5(%rip),%xmm3
	vpshufb	%xmm2,%xmm3,%xmm4
	vpsubb	%xmm0,%xmm4,%xmm0
	vpxor	%xmm2,%xmm0,%xmm0
	movzwl	-2(%rdi,%rsi),%eax
	vmovd	%eax,%xmm2
	vpaddb	%xmm1,%xmm2,%xmm1
	vpshufb	%xmm1,%xmm3,%xmm3
	vpsubb	%xmm2,%xmm3,%xmm2
	vpxor	%xmm1,%xmm2,%xmm1
	vpor	%xmm0,%xmm1,%xmm0
	vpand	.L100v3_CPI14_12(%rip),%xmm0,%xmm0
	vmovd	%xmm0,%eax
	testw	%ax,%ax
	sete	%al
	.p2align	5,,1
	retq
20:
	vpbroadcastd	.L100v3_CPI14_13(%rip),%ymm0
	vmovdqu	(%rdi),%ymm1
	vmovdqu	32(%rdi),%ymm3
	vmovdqu	64(%rdi),%ymm4
	vmovdqu	96(%rdi),%ymm5
	vpaddb	%ymm0,%ymm3,%ymm6
	vpaddb	%ymm0,%ymm1,%ymm7
	vbroadcasti128	.L100v3_CPI14_5(%rip),%ymm2
	vpshufb	%ymm7,%ymm2,%ymm8
	vpshufb	%ymm6,%ymm2,%ymm9
	vpsubb	%ymm3,%ymm9,%ymm3
	vpsubb	%ymm1,%ymm8,%ymm1
	vpxor	%ymm7,%ymm1,%ymm1
	vpxor	%ymm6,%ymm3,%ymm3
	vpaddb	%ymm0,%ymm5,%ymm6
	vpaddb	%ymm0,%ymm4,%ymm7
	vpshufb	%ymm7,%ymm2,%ymm8
	vpshufb	%ymm6,%ymm2,%ymm9
	vpsubb	%ymm5,%ymm9,%ymm5
	vpsubb	%ymm4,%ymm8,%ymm4
	vpxor	%ymm7,%ymm4,%ymm4
	vpor	%ymm1,%ymm4,%ymm1
	vpxor	%ymm6,%ymm5,%ymm4
	vpor	%ymm3,%ymm4,%ymm3
	vmovdqu	-64(%rdi,%rsi),%ymm4
	vmovdqu	-32(%rdi,%rsi),%ymm5
	vpaddb	%ymm0,%ymm5,%ymm6
	vpaddb	%ymm0,%ymm4,%ymm7
	vpshufb	%ymm7,%ymm2,%ymm8
	vpshufb	%ymm6,%ymm2,%ymm9
	vpsubb	%ymm4,%ymm8,%ymm4
	vpsubb	%ymm5,%ymm9,%ymm5
	vpxor	%ymm6,%ymm5,%ymm5
	vpxor	%ymm7,%ymm4,%ymm4
	.p2align	5,,13
	cmpq	$193,%rsi
	jb	22f
	vmovdqu	-128(%rdi,%rsi),%ymm6
	vmovdqu	-96(%rdi,%rsi),%ymm7
	vpaddb	%ymm0,%ymm7,%ymm8
	vpaddb	%ymm0,%ymm6,%ymm0
	vpshufb	%ymm0,%ymm2,%ymm9
	vpshufb	%ymm8,%ymm2,%ymm2
	vpsubb	%ymm7,%ymm2,%ymm2
	vpsubb	%ymm6,%ymm9,%ymm6
	vpxor	%ymm0,%ymm6,%ymm0
	vpxor	%ymm2,%ymm8,%ymm2
	vpor	%ymm3,%ymm2,%ymm3
	vpor	%ymm1,%ymm0,%ymm1
22:
	vpor	%ymm5,%ymm3,%ymm0
	vpor	%ymm4,%ymm1,%ymm1
	vpor	%ymm0,%ymm1,%ymm0
	vptest	.L100v3_CPI14_2(%rip),%ymm0
	sete	%al
	vzeroupper
	.p2align	5,,1
	retq
8:
	.p2align	5,,10
	cmpq	$7,%rsi
	ja	10f
	vmovd	(%rdi),%xmm0
	vpbroadcastd	.L100v3_CPI14_13(%rip),%xmm1
	vpaddb	%xmm1,%xmm0,%xmm2
	vmovdqa	.L100v3_CPI14_5(%rip),%xmm3
	vpshufb	%xmm2,%xmm3,%xmm4
	vpsubb	%xmm0,%xmm4,%xmm0
	vpxor	%xmm2,%xmm0,%xmm0
	vmovd	-4(%rdi,%rsi),%xmm2
	vpaddb	%xmm1,%xmm2,%xmm1
	vpshufb	%xmm1,%xmm3,%xmm3
	vpsubb	%xmm2,%xmm3,%xmm2
	vpxor	%xmm1,%xmm2,%xmm1
	vpor	%xmm0,%xmm1,%xmm0
	vpand	.L100v3_CPI14_10(%rip),%xmm0,%xmm0
	vmovd	%xmm0,%eax
	testl	%eax,%eax
	sete	%al
	.p2align	5,,1
	retq
10:
	vmovq	(%rdi),%xmm0
	vpbroadcastd	.L100v3_CPI14_13(%rip),%xmm1
	vpaddb	%xmm1,%xmm0,%xmm2
	vmovdqa	.L100v3_CPI14_5(%rip),%xmm3
	vpshufb	%xmm2,%xmm3,%xmm4
	vpsubb	%xmm0,%xmm4,%xmm0
	vpxor	%xmm2,%xmm0,%xmm0
	vmovq	-8(%rdi,%rsi),%xmm2
	vpaddb	%xmm1,%xmm2,%xmm1
	vpshufb	%xmm1,%xmm3,%xmm3
	vpsubb	%xmm2,%xmm3,%xmm2
	vpxor	%xmm1,%xmm2,%xmm1
	vpor	%xmm0,%xmm1,%xmm0
	vpand	.L100v3_CPI14_8(%rip),%xmm0,%xmm0
	vmovq	%xmm0,%rax
	testq	%rax,%rax
	sete	%al
	.p2align	5,,1
	retq
	hex_end	faster_hex_1_0_0_x86_64_v3_check_upper
	hex_cfi	endproc
	hex_merged	32
	.p2align	5,0x0
.L100v3_CPI15_0:
	.zero	32,55
.L100v3_CPI15_1:
	.byte	16,17,18,0,0,0,0,0,0,0,117,116,123,118,121,120
	.byte	16,17,18,0,0,0,0,0,0,0,117,116,123,118,121,120
.L100v3_CPI15_2:
	.zero	32,32
.L100v3_CPI15_3:
	.zero	32,240
	hex_merged	8
	.p2align	3,0x0
.L100v3_CPI15_4:
	.quad	-1085102592571150096
	hex_merged	16
	.p2align	4,0x0
.L100v3_CPI15_5:
	.zero	16,55
.L100v3_CPI15_6:
	.byte	16,17,18,0,0,0,0,0,0,0,117,116,123,118,121,120
.L100v3_CPI15_7:
	.zero	16,32
.L100v3_CPI15_8:
	.zero	16,240
.L100v3_CPI15_9:
	.byte	1,3,5,7,9,11,13,15,0,0,0,0,0,0,0,0
.L100v3_CPI15_10:
	.byte	55,55,55,55,55,55,55,55,0,0,0,0,0,0,0,0
.L100v3_CPI15_11:
	.byte	32,32,32,32,32,32,32,32,0,0,0,0,0,0,0,0
.L100v3_CPI15_12:
	.byte	240,240,240,240,240,240,240,240,0,0,0,0,0,0,0,0
.L100v3_CPI15_13:
	.short	4097
	.short	4097
	.short	4097
	.short	4097
	.byte	0,0,0,0,0,0,0,0
.L100v3_CPI15_14:
	.byte	1,3,5,7,9,11,13,15,1,3,5,7,9,11,13,15
.L100v3_CPI15_15:
	.byte	55,55,55,55,0,0,0,0,0,0,0,0,0,0,0,0
.L100v3_CPI15_16:
	.byte	32,32,32,32,0,0,0,0,0,0,0,0,0,0,0,0
.L100v3_CPI15_17:
	.byte	240,240,240,240,0,0,0,0,0,0,0,0,0,0,0,0
.L100v3_CPI15_18:
	.short	4097
	.short	4097
	.byte	0,0,0,0,0,0,0,0,0,0,0,0
	hex_merged	4
	.p2align	2,0x0
.L100v3_CPI15_19:
	.zero	4,55
.L100v3_CPI15_20:
	.zero	4,32
	hex_export	faster_hex_1_0_0_x86_64_v3_decode
	hex_cfi	startproc
	endbr64
	.p2align	5,,10
	testb	$1,%sil
	jne	1f
	movq	%rsi,%rax
	shrq	%rax
	movl	$2,%r8d
	.p2align	5,,10
	cmpq	%rax,%rcx
	jb	31f
	.p2align	5,,13
	cmpq	$192,%rsi
	ja	30f
	.p2align	5,,10
	cmpq	$15,%rsi
	ja	15f
	.p2align	5,,10
	cmpq	$2,%rsi
	jae	7f
	xorl	%r8d,%r8d
	movq	%r8,%rdx
	.p2align	5,,1
	retq
1:
	movl	$1,%edx
	xorl	%eax,%eax
	.p2align	5,,1
	retq
15:
	.p2align	5,,10
	cmpq	$32,%rsi
	ja	21f
	.p2align	5,,6
	jne	19f
	vmovdqu	(%rdi),%ymm0
	vpsubusb	.L100v3_CPI15_0(%rip),%ymm0,%ymm1
	vbroadcasti128	.L100v3_CPI15_6(%rip),%ymm2
	vpshufb	%ymm1,%ymm2,%ymm2
	vpsubusb	%ymm1,%ymm2,%ymm1
	vpxor	%ymm1,%ymm0,%ymm0
	vpxor	.L100v3_CPI15_2(%rip),%ymm0,%ymm0
	vpbroadcastq	.L100v3_CPI15_4(%rip),%ymm1
	vptest	%ymm1,%ymm0
	.p2align	5,,6
	jne	30f
	vpsllw	$12,%ymm0,%ymm1
	vpaddw	%ymm1,%ymm0,%ymm0
	vpsrlw	$8,%ymm0,%ymm0
	vextracti128	$1,%ymm0,%xmm1
	vpackuswb	%xmm1,%xmm0,%xmm0
	vmovdqu	%xmm0,(%rdx)
	movl	$16,%eax
	xorl	%r8d,%r8d
	movq	%r8,%rdx
	vzeroupper
	.p2align	5,,1
	retq
7:
	.p2align	5,,10
	cmpq	$3,%rsi
	ja	10f
	movzwl	(%rdi),%ecx
	vmovd	%ecx,%xmm0
	vpinsrw	$1,-2(%rdi,%rsi),%xmm0,%xmm0
	vpsubusb	.L100v3_CPI15_15(%rip),%xmm0,%xmm1
	vmovdqa	.L100v3_CPI15_6(%rip),%xmm2
	vpshufb	%xmm1,%xmm2,%xmm2
	vpsubusb	%xmm1,%xmm2,%xmm1
	vpxor	%xmm1,%xmm0,%xmm0
	vpxor	.L100v3_CPI15_16(%rip),%xmm0,%xmm0
	vpand	.L100v3_CPI15_17(%rip),%xmm0,%xmm1
	vmovd	%xmm1,%ecx
	.p2align	5,,10
	testl	%ecx,%ecx
	jne	30f
	vpmullw	.L100v3_CPI15_18(%rip),%xmm0,%xmm0
	vpextrb	$1,%xmm0,(%rdx)
	vpextrb	$3,%xmm0,-1(%rdx,%rax)
	xorl	%r8d,%r8d
	movq	%r8,%rdx
	.p2align	5,,1
	retq
21:
	.p2align	5,,10
	cmpq	$64,%rsi
	ja	24f
	vmovdqu	(%rdi),%ymm0
	vmovdqu	-32(%rdi,%rsi),%ymm1
	vpbroadcastd	.L100v3_CPI15_19(%rip),%ymm2
	vpsubusb	%ymm2,%ymm1,%ymm3
	vpsubusb	%ymm2,%ymm0,%ymm2
	vbroadcasti128	.L100v3_CPI15_6(%rip),%ymm4
	vpshufb	%ymm2,%ymm4,%ymm5
	vpshufb	%ymm3,%ymm4,%ymm4
	vpsubusb	%ymm3,%ymm4,%ymm3
	vpsubusb	%ymm2,%ymm5,%ymm2
	vpbroadcastd	.L100v3_CPI15_20(%rip),%ymm4
	vpxor	%ymm4,%ymm1,%ymm1
	vpxor	%ymm3,%ymm1,%ymm1
	vpxor	%ymm4,%ymm0,%ymm0
	vpxor	%ymm2,%ymm0,%ymm0
	vpor	%ymm1,%ymm0,%ymm2
	vptest	.L100v3_CPI15_3(%rip),%ymm2
	.p2align	5,,6
	jne	30f
	vpsllw	$12,%ymm1,%ymm2
	vpaddw	%ymm2,%ymm1,%ymm1
	vpsllw	$12,%ymm0,%ymm2
	vpaddw	%ymm2,%ymm0,%ymm0
	vpsrlw	$8,%ymm0,%ymm0
	vpsrlw	$8,%ymm1,%ymm1
	vpackuswb	%ymm1,%ymm0,%ymm0
	vpermq	$216,%ymm0,%ymm0
	vmovdqu	%xmm0,(%rdx)
	vextracti128	$1,%ymm0,-16(%rdx,%rax)
	xorl	%r8d,%r8d
	movq	%r8,%rdx
	vzeroupper
	.p2align	5,,1
	retq
19:
	vmovdqu	(%rdi),%xmm0
	vinserti128	$1,-16(%rdi,%rsi),%ymm0,%ymm0
	vpsubusb	.L100v3_CPI15_0(%rip),%ymm0,%ymm1
	vbroadcasti128	.L100v3_CPI15_6(%rip),%ymm2
	vpshufb	%ymm1,%ymm2,%ymm2
	vpsubusb	%ymm1,%ymm2,%ymm1
	vpxor	%ymm1,%ymm0,%ymm0
	vpxor	.L100v3_CPI15_2(%rip),%ymm0,%ymm0
	vpbroadcastq	.L100v3_CPI15_4(%rip),%ymm1
	vptest	%ymm1,%ymm0
	.p2align	5,,6
	jne	30f
	vpsllw	$12,%ymm0,%ymm1
	vpaddw	%ymm1,%ymm0,%ymm0
	vpsrlw	$8,%ymm0,%ymm0
	vextracti128	$1,%ymm0,%xmm1
	vpackuswb	%xmm1,%xmm0,%xmm0
	vmovq	%xmm0,(%rdx)
	vpextrq	$1,%xmm0,-8(%rdx,%rax)
	xorl	%r8d,%r8d
	movq	%r8,%rdx
	vzeroupper
	.p2align	5,,1
	retq
10:
	.p2align	5,,10
	cmpq	$7,%rsi
	ja	13f
	vmovd	(%rdi),%xmm0
	vpinsrd	$1,-4(%rdi,%rsi),%xmm0,%xmm0
	vpsubusb	.L100v3_CPI15_10(%rip),%xmm0,%xmm1
	vmovdqa	.L100v3_CPI15_6(%rip),%xmm2
	vpshufb	%xmm1,%xmm2,%xmm2
	vpsubusb	%xmm1,%xmm2,%xmm1
	vpxor	%xmm1,%xmm0,%xmm0
	vpxor	.L100v3_CPI15_11(%rip),%xmm0,%xmm0
	vpand	.L100v3_CPI15_12(%rip),%xmm0,%xmm1
	vmovq	%xmm1,%rcx
	.p2align	5,,10
	testq	%rcx,%rcx
	jne	30f
	vpmullw	.L100v3_CPI15_13(%rip),%xmm0,%xmm0
	vpshufb	.L100v3_CPI15_14(%rip),%xmm0,%xmm0
	vpextrw	$0,%xmm0,(%rdx)
	vpextrw	$1,%xmm0,-2(%rdx,%rax)
	xorl	%r8d,%r8d
	movq	%r8,%rdx
	.p2align	5,,1
	retq
24:
	vmovdqu	(%rdi),%ymm0
	vmovdqu	32(%rdi),%ymm1
	vpbroadcastd	.L100v3_CPI15_19(%rip),%ymm4
	vpsubusb	%ymm4,%ymm1,%ymm2
	vpsubusb	%ymm4,%ymm0,%ymm5
	vbroadcasti128	.L100v3_CPI15_6(%rip),%ymm3
	vpshufb	%ymm5,%ymm3,%ymm6
	vpshufb	%ymm2,%ymm3,%ymm7
	vpsubusb	%ymm2,%ymm7,%ymm7
	vpsubusb	%ymm5,%ymm6,%ymm5
	vpbroadcastd	.L100v3_CPI15_20(%rip),%ymm2
	vpxor	%ymm2,%ymm1,%ymm1
	vpxor	%ymm7,%ymm1,%ymm1
	vpxor	%ymm2,%ymm0,%ymm0
	vpxor	%ymm5,%ymm0,%ymm0
	.p2align	5,,13
	cmpq	$128,%rsi
	ja	28f
	vmovdqu	-64(%rdi,%rsi),%ymm5
	vmovdqu	-32(%rdi,%rsi),%ymm6
	vpsubusb	%ymm4,%ymm6,%ymm7
	vpsubusb	%ymm4,%ymm5,%ymm4
	vpshufb	%ymm4,%ymm3,%ymm8
	vpshufb	%ymm7,%ymm3,%ymm3
	vpsubusb	%ymm4,%ymm8,%ymm4
	vpsubusb	%ymm7,%ymm3,%ymm7
	vpxor	%ymm2,%ymm5,%ymm3
	vpxor	%ymm4,%ymm3,%ymm3
	vpxor	%ymm2,%ymm6,%ymm2
	vpxor	%ymm7,%ymm2,%ymm2
	vpor	%ymm1,%ymm2,%ymm4
	vpor	%ymm0,%ymm3,%ymm5
	vpor	%ymm4,%ymm5,%ymm4
	vptest	.L100v3_CPI15_3(%rip),%ymm4
	.p2align	5,,6
	jne	30f
	vpsllw	$12,%ymm1,%ymm4
	vpaddw	%ymm4,%ymm1,%ymm1
	vpsllw	$12,%ymm0,%ymm4
	vpaddw	%ymm4,%ymm0,%ymm0
	vpsrlw	$8,%ymm0,%ymm0
	vpsrlw	$8,%ymm1,%ymm1
	vpackuswb	%ymm1,%ymm0,%ymm0
	vpermq	$216,%ymm0,%ymm0
	vmovdqu	%ymm0,(%rdx)
	.p2align	5,,6
	jmp	27f
13:
	vmovq	-8(%rdi,%rsi),%xmm0
	vmovq	(%rdi),%xmm1
	vpunpcklqdq	%xmm0,%xmm1,%xmm0
	vpsubusb	.L100v3_CPI15_5(%rip),%xmm0,%xmm1
	vmovdqa	.L100v3_CPI15_6(%rip),%xmm2
	vpshufb	%xmm1,%xmm2,%xmm2
	vpsubusb	%xmm1,%xmm2,%xmm1
	vpxor	%xmm1,%xmm0,%xmm0
	vpxor	.L100v3_CPI15_7(%rip),%xmm0,%xmm0
	vptest	.L100v3_CPI15_8(%rip),%xmm0
	.p2align	5,,6
	jne	30f
	vpsllw	$12,%xmm0,%xmm1
	vpaddw	%xmm1,%xmm0,%xmm0
	vpshufb	.L100v3_CPI15_9(%rip),%xmm0,%xmm0
	vmovd	%xmm0,(%rdx)
	vpextrd	$1,%xmm0,-4(%rdx,%rax)
	xorl	%r8d,%r8d
	movq	%r8,%rdx
	.p2align	5,,1
	retq
28:
	vmovdqu	64(%rdi),%ymm5
	vmovdqu	96(%rdi),%ymm6
	vpsubusb	%ymm4,%ymm6,%ymm7
	vpsubusb	%ymm4,%ymm5,%ymm8
	vpshufb	%ymm8,%ymm3,%ymm9
	vpshufb	%ymm7,%ymm3,%ymm10
	vpsubusb	%ymm7,%ymm10,%ymm7
	vpsubusb	%ymm8,%ymm9,%ymm8
	vpxor	%ymm2,%ymm6,%ymm6
	vpxor	%ymm7,%ymm6,%ymm6
	vpxor	%ymm2,%ymm5,%ymm5
	vpxor	%ymm5,%ymm8,%ymm5
	vmovdqu	-64(%rdi,%rsi),%ymm7
	vmovdqu	-32(%rdi,%rsi),%ymm8
	vpsubusb	%ymm4,%ymm8,%ymm9
	vpsubusb	%ymm4,%ymm7,%ymm4
	vpshufb	%ymm4,%ymm3,%ymm10
	vpshufb	%ymm9,%ymm3,%ymm3
	vpsubusb	%ymm4,%ymm10,%ymm4
	vpsubusb	%ymm9,%ymm3,%ymm9
	vpxor	%ymm2,%ymm7,%ymm3
	vpxor	%ymm4,%ymm3,%ymm3
	vpxor	%ymm2,%ymm8,%ymm2
	vpxor	%ymm2,%ymm9,%ymm2
	vpor	%ymm0,%ymm5,%ymm4
	vpor	%ymm1,%ymm6,%ymm7
	vpor	%ymm2,%ymm7,%ymm7
	vpor	%ymm3,%ymm4,%ymm4
	vpor	%ymm7,%ymm4,%ymm4
	vptest	.L100v3_CPI15_3(%rip),%ymm4
	.p2align	5,,6
	je	29f
30:
	pushq	%rax
	hex_cfi	def_cfa_offset 16
	movq	%rax,%rcx
	xorl	%r8d,%r8d
	vzeroupper
	.p2align	5,,5
	callq	faster_hex_1_0_0_x86_64_v3_core_backend_Backend_decode_or_find_outlined
	xorl	%ecx,%ecx
	testw	%dx,%dx
	setne	%cl
	shll	$8,%edx
	movzwl	%dx,%edx
	leaq	(%rcx,%rcx,2),%r8
	orq	%rdx,%r8
	addq	$8,%rsp
	hex_cfi	def_cfa_offset 8
31:
	movq	%r8,%rdx
	.p2align	5,,1
	retq
29:
	vpsllw	$12,%ymm1,%ymm4
	vpaddw	%ymm4,%ymm1,%ymm1
	vpsllw	$12,%ymm0,%ymm4
	vpaddw	%ymm4,%ymm0,%ymm0
	vpsrlw	$8,%ymm0,%ymm0
	vpsrlw	$8,%ymm1,%ymm1
	vpackuswb	%ymm1,%ymm0,%ymm0
	vpermq	$216,%ymm0,%ymm0
	vmovdqu	%ymm0,(%rdx)
	vpsllw	$12,%ymm6,%ymm0
	vpaddw	%ymm0,%ymm6,%ymm0
	vpsllw	$12,%ymm5,%ymm1
	vpaddw	%ymm1,%ymm5,%ymm1
	vpsrlw	$8,%ymm1,%ymm1
	vpsrlw	$8,%ymm0,%ymm0
	vpackuswb	%ymm0,%ymm1,%ymm0
	vpermq	$216,%ymm0,%ymm0
	vmovdqu	%ymm0,32(%rdx)
27:
	vpsllw	$12,%ymm2,%ymm0
	vpaddw	%ymm0,%ymm2,%ymm0
	vpsllw	$12,%ymm3,%ymm1
	vpaddw	%ymm1,%ymm3,%ymm1
	vpsrlw	$8,%ymm1,%ymm1
	vpsrlw	$8,%ymm0,%ymm0
	vpackuswb	%ymm0,%ymm1,%ymm0
	vpermq	$216,%ymm0,%ymm0
	vmovdqu	%ymm0,-32(%rdx,%rax)
	xorl	%r8d,%r8d
	movq	%r8,%rdx
	vzeroupper
	.p2align	5,,1
	retq
	hex_end	faster_hex_1_0_0_x86_64_v3_decode
	hex_cfi	endproc
	hex_merged	32
	.p2align	5,0x0
.L100v3_CPI16_0:
	.byte	48,49,50,51,52,53,54,55,56,57,65,66,67,68,69,70
	.byte	48,49,50,51,52,53,54,55,56,57,65,66,67,68,69,70
.L100v3_CPI16_1:
	.byte	48,49,50,51,52,53,54,55,56,57,97,98,99,100,101,102
	.byte	48,49,50,51,52,53,54,55,56,57,97,98,99,100,101,102
.L100v3_CPI16_2:
	.zero	32,15
	hex_merged	16
	.p2align	4,0x0
.L100v3_CPI16_3:
	.byte	48,49,50,51,52,53,54,55,56,57,65,66,67,68,69,70
.L100v3_CPI16_4:
	.byte	48,49,50,51,52,53,54,55,56,57,97,98,99,100,101,102
.L100v3_CPI16_5:
	.zero	16,15
.L100v3_CPI16_6:
	.byte	15,15,15,15,15,15,15,15,15,0,15,0,15,0,15,0
.L100v3_CPI16_7:
	.byte	15,15,15,15,15,0,15,0,15,0,15,0,15,0,15,0
	hex_merged	4
	.p2align	2,0x0
.L100v3_CPI16_8:
	.zero	4,15
	hex_export	faster_hex_1_0_0_x86_64_v3_encode
	hex_cfi	startproc
	endbr64
	movq	%rdx,%r9
	movq	%rsi,%rdx
	shrq	%rcx
	.p2align	5,,10
	cmpq	%rcx,%rsi
	jbe	2f
	movq	%rdx,%rax
	sarq	$63,%rax
	andnq	%rdx,%rax,%rax
	addq	%rax,%rax
	shrq	$63,%rdx
	leaq	2(,%rdx,2),%rdx
	.p2align	5,,1
	retq
2:
	leaq	(%rdx,%rdx),%rax
	.p2align	5,,10
	cmpq	$32,%rdx
	ja	6f
	.p2align	5,,6
	jne	9f
	vmovdqu	(%rdi),%ymm0
	vpsrlw	$4,%ymm0,%ymm1
	vpbroadcastd	.L100v3_CPI16_8(%rip),%ymm2
	vpand	%ymm2,%ymm1,%ymm1
	vpand	%ymm2,%ymm0,%ymm0
	vpunpckhbw	%ymm0,%ymm1,%ymm2
	vpunpcklbw	%ymm0,%ymm1,%ymm1
	vperm2i128	$49,%ymm2,%ymm1,%ymm0
	vperm2i128	$32,%ymm2,%ymm1,%ymm1
	.p2align	5,,10
	testb	$1,%r8b
	jne	17f
	vbroadcasti128	.L100v3_CPI16_4(%rip),%ymm2
	.p2align	5,,6
	jmp	18f
6:
	.p2align	5,,10
	cmpq	$64,%rdx
	ja	14f
	vmovdqu	(%rdi),%ymm1
	vpsrlw	$4,%ymm1,%ymm2
	vpbroadcastd	.L100v3_CPI16_8(%rip),%ymm0
	vpand	%ymm0,%ymm2,%ymm2
	vpand	%ymm0,%ymm1,%ymm1
	vpunpckhbw	%ymm1,%ymm2,%ymm3
	vpunpcklbw	%ymm1,%ymm2,%ymm1
	vperm2i128	$49,%ymm3,%ymm1,%ymm2
	vperm2i128	$32,%ymm3,%ymm1,%ymm3
	.p2align	5,,10
	testb	$1,%r8b
	jne	19f
	vbroadcasti128	.L100v3_CPI16_4(%rip),%ymm1
	.p2align	5,,6
	jmp	20f
9:
	.p2align	5,,10
	cmpq	$7,%rdx
	ja	21f
	.p2align	5,,10
	testq	%rdx,%rdx
	je	42f
	.p2align	5,,10
	cmpq	$1,%rdx
	jne	43f
	movzbl	(%rdi),%eax
	.p2align	5,,10
	testb	$1,%r8b
	jne	45f
	vmovdqa	.L100v3_CPI16_4(%rip),%xmm0
	.p2align	5,,6
	jmp	46f
14:
	.p2align	5,,13
	cmpq	$128,%rdx
	ja	24f
	vpermq	$216,(%rdi),%ymm1
	vpsrlw	$4,%ymm1,%ymm2
	vpbroadcastd	.L100v3_CPI16_8(%rip),%ymm0
	vpand	%ymm0,%ymm2,%ymm3
	vpand	%ymm0,%ymm1,%ymm1
	vpunpckhbw	%ymm1,%ymm3,%ymm2
	vpunpcklbw	%ymm1,%ymm3,%ymm3
	.p2align	5,,10
	testb	$1,%r8b
	jne	29f
	vbroadcasti128	.L100v3_CPI16_4(%rip),%ymm1
	.p2align	5,,6
	jmp	30f
17:
	vbroadcasti128	.L100v3_CPI16_3(%rip),%ymm2
18:
	vpshufb	%ymm1,%ymm2,%ymm1
	vpshufb	%ymm0,%ymm2,%ymm0
	vmovdqu	%ymm0,32(%r9)
	vmovdqu	%ymm1,(%r9)
	movl	$64,%eax
	xorl	%edx,%edx
	vzeroupper
	.p2align	5,,1
	retq
19:
	vbroadcasti128	.L100v3_CPI16_3(%rip),%ymm1
20:
	vpshufb	%ymm3,%ymm1,%ymm3
	vpshufb	%ymm2,%ymm1,%ymm2
	vmovdqu	%ymm2,32(%r9)
	vmovdqu	%ymm3,(%r9)
	vmovdqu	-32(%rdi,%rdx),%ymm2
	vpsrlw	$4,%ymm2,%ymm3
	vpand	%ymm0,%ymm3,%ymm3
	vpand	%ymm0,%ymm2,%ymm0
	vpunpckhbw	%ymm0,%ymm3,%ymm2
	vpunpcklbw	%ymm0,%ymm3,%ymm0
	vperm2i128	$49,%ymm2,%ymm0,%ymm3
	vperm2i128	$32,%ymm2,%ymm0,%ymm0
	vpshufb	%ymm3,%ymm1,%ymm2
	.p2align	5,,6
	jmp	33f
21:
	.p2align	5,,10
	testb	$1,%r8b
	jne	34f
	vmovdqa	.L100v3_CPI16_4(%rip),%xmm0
	.p2align	5,,10
	cmpq	$16,%rdx
	jbe	35f
23:
	vmovdqu	(%rdi),%xmm1
	vpsrlw	$4,%xmm1,%xmm2
	vpbroadcastd	.L100v3_CPI16_8(%rip),%xmm3
	vpand	%xmm3,%xmm2,%xmm2
	vpshufb	%xmm2,%xmm0,%xmm2
	vpand	%xmm3,%xmm1,%xmm1
	vpshufb	%xmm1,%xmm0,%xmm1
	vpunpcklbw	%xmm1,%xmm2,%xmm4
	vmovdqu	%xmm4,(%r9)
	vpunpckhbw	%xmm1,%xmm2,%xmm1
	vmovdqu	%xmm1,16(%r9)
	vmovdqu	-16(%rdi,%rdx),%xmm1
	vpsrlw	$4,%xmm1,%xmm2
	vpand	%xmm3,%xmm2,%xmm2
	vpshufb	%xmm2,%xmm0,%xmm2
	vpand	%xmm3,%xmm1,%xmm1
	vpshufb	%xmm1,%xmm0,%xmm0
	vpunpcklbw	%xmm0,%xmm2,%xmm1
	vmovdqu	%xmm1,-32(%r9,%rdx,2)
	vpunpckhbw	%xmm0,%xmm2,%xmm0
	vmovdqu	%xmm0,-16(%r9,%rdx,2)
	xorl	%edx,%edx
	.p2align	5,,1
	retq
24:
	movq	%rdx,%rsi
	shrq	$5,%rsi
	.p2align	5,,10
	testb	$1,%r8b
	jne	36f
	vbroadcasti128	.L100v3_CPI16_4(%rip),%ymm0
	.p2align	5,,10
	cmpq	$1,%rsi
	je	37f
26:
	movq	%rsi,%r8
	andq	$-2,%r8
	movl	$32,%r10d
	xorl	%ecx,%ecx
	.p2align	4
27:
	vpermq	$216,-32(%rdi,%r10),%ymm1
	vpsrlw	$4,%ymm1,%ymm2
	vpbroadcastd	.L100v3_CPI16_8(%rip),%ymm3
	vpand	%ymm3,%ymm2,%ymm2
	vpand	%ymm3,%ymm1,%ymm1
	vpunpckhbw	%ymm1,%ymm2,%ymm4
	vpunpcklbw	%ymm1,%ymm2,%ymm1
	vpshufb	%ymm1,%ymm0,%ymm1
	vpshufb	%ymm4,%ymm0,%ymm2
	vmovdqu	%ymm1,-64(%r9,%r10,2)
	vmovdqu	%ymm2,-32(%r9,%r10,2)
	vpermq	$216,(%rdi,%r10),%ymm1
	vpsrlw	$4,%ymm1,%ymm2
	vpand	%ymm3,%ymm2,%ymm2
	vpand	%ymm3,%ymm1,%ymm1
	vpunpckhbw	%ymm1,%ymm2,%ymm3
	vpunpcklbw	%ymm1,%ymm2,%ymm1
	vpshufb	%ymm1,%ymm0,%ymm1
	vpshufb	%ymm3,%ymm0,%ymm2
	vmovdqu	%ymm1,(%r9,%r10,2)
	vmovdqu	%ymm2,32(%r9,%r10,2)
	addq	$2,%rcx
	addq	$64,%r10
	.p2align	5,,10
	cmpq	%rcx,%r8
	jne	27b
	.p2align	5,,10
	testb	$1,%sil
	jne	38f
	.p2align	5,,6
	jmp	39f
29:
	vbroadcasti128	.L100v3_CPI16_3(%rip),%ymm1
30:
	vpshufb	%ymm3,%ymm1,%ymm3
	vpshufb	%ymm2,%ymm1,%ymm2
	vmovdqu	%ymm2,32(%r9)
	vmovdqu	%ymm3,(%r9)
	vpermq	$216,32(%rdi),%ymm2
	vpsrlw	$4,%ymm2,%ymm3
	vpand	%ymm0,%ymm3,%ymm3
	vpand	%ymm0,%ymm2,%ymm2
	vpunpckhbw	%ymm2,%ymm3,%ymm4
	vpunpcklbw	%ymm2,%ymm3,%ymm2
	vpshufb	%ymm4,%ymm1,%ymm3
	vmovdqu	%ymm3,96(%r9)
	vpshufb	%ymm2,%ymm1,%ymm2
	vmovdqu	%ymm2,64(%r9)
	.p2align	5,,10
	cmpq	$97,%rdx
	jb	32f
	vpermq	$216,-64(%rdi,%rdx),%ymm2
	vpsrlw	$4,%ymm2,%ymm3
	vpand	%ymm0,%ymm3,%ymm3
	vpand	%ymm0,%ymm2,%ymm2
	vpunpckhbw	%ymm2,%ymm3,%ymm4
	vpunpcklbw	%ymm2,%ymm3,%ymm2
	vpshufb	%ymm2,%ymm1,%ymm2
	vpshufb	%ymm4,%ymm1,%ymm3
	vmovdqu	%ymm3,-96(%r9,%rdx,2)
	vmovdqu	%ymm2,-128(%r9,%rdx,2)
32:
	vpermq	$216,-32(%rdi,%rdx),%ymm2
	vpsrlw	$4,%ymm2,%ymm3
	vpand	%ymm0,%ymm3,%ymm3
	vpand	%ymm0,%ymm2,%ymm0
	vpunpckhbw	%ymm0,%ymm3,%ymm2
	vpunpcklbw	%ymm0,%ymm3,%ymm0
	vpshufb	%ymm2,%ymm1,%ymm2
33:
	vmovdqu	%ymm2,-32(%r9,%rdx,2)
	vpshufb	%ymm0,%ymm1,%ymm0
	vmovdqu	%ymm0,-64(%r9,%rdx,2)
	xorl	%edx,%edx
	vzeroupper
	.p2align	5,,1
	retq
34:
	vmovdqa	.L100v3_CPI16_3(%rip),%xmm0
	.p2align	5,,10
	cmpq	$16,%rdx
	ja	23b
35:
	vmovq	(%rdi),%xmm1
	vpsrlw	$4,%xmm1,%xmm2
	vpbroadcastd	.L100v3_CPI16_8(%rip),%xmm3
	vpunpcklbw	%xmm1,%xmm2,%xmm1
	vpand	%xmm3,%xmm1,%xmm1
	vpshufb	%xmm1,%xmm0,%xmm1
	vmovdqu	%xmm1,(%r9)
	vmovq	-8(%rdi,%rdx),%xmm1
	vpsrlw	$4,%xmm1,%xmm2
	vpunpcklbw	%xmm1,%xmm2,%xmm1
	vpand	%xmm3,%xmm1,%xmm1
	vpshufb	%xmm1,%xmm0,%xmm0
	vmovdqu	%xmm0,-16(%r9,%rdx,2)
	xorl	%edx,%edx
	.p2align	5,,1
	retq
36:
	vbroadcasti128	.L100v3_CPI16_3(%rip),%ymm0
	.p2align	5,,10
	cmpq	$1,%rsi
	jne	26b
37:
	xorl	%ecx,%ecx
38:
	movq	%rcx,%rsi
	shlq	$5,%rsi
	shlq	$6,%rcx
	vpermq	$216,(%rdi,%rsi),%ymm1
	vpsrlw	$4,%ymm1,%ymm2
	vpbroadcastd	.L100v3_CPI16_8(%rip),%ymm3
	vpand	%ymm3,%ymm2,%ymm2
	vpand	%ymm3,%ymm1,%ymm1
	vpunpckhbw	%ymm1,%ymm2,%ymm3
	vpunpcklbw	%ymm1,%ymm2,%ymm1
	vpshufb	%ymm1,%ymm0,%ymm1
	vpshufb	%ymm3,%ymm0,%ymm2
	vmovdqu	%ymm1,(%r9,%rcx)
	vmovdqu	%ymm2,32(%r9,%rcx)
39:
	.p2align	5,,10
	testb	$31,%dl
	je	41f
	vpermq	$216,-32(%rdi,%rdx),%ymm1
	vpsrlw	$4,%ymm1,%ymm2
	vpbroadcastd	.L100v3_CPI16_8(%rip),%ymm3
	vpand	%ymm3,%ymm2,%ymm2
	vpand	%ymm3,%ymm1,%ymm1
	vpunpckhbw	%ymm1,%ymm2,%ymm3
	vpunpcklbw	%ymm1,%ymm2,%ymm1
	vpshufb	%ymm3,%ymm0,%ymm2
	vmovdqu	%ymm2,-32(%r9,%rdx,2)
	vpshufb	%ymm1,%ymm0,%ymm0
	vmovdqu	%ymm0,-64(%r9,%rdx,2)
41:
	xorl	%edx,%edx
	vzeroupper
	.p2align	5,,1
	retq
42:
	movq	%rdx,%rax
	.p2align	5,,1
	retq
43:
	.p2align	5,,10
	testb	$1,%r8b
	jne	47f
	vmovdqa	.L100v3_CPI16_4(%rip),%xmm0
	.p2align	5,,6
	jmp	48f
45:
	vmovdqa	.L100v3_CPI16_3(%rip),%xmm0
46:
	movl	%eax,%ecx
	shrb	$4,%cl
	andb	$15,%al
	vmovd	%ecx,%xmm1
	vpinsrb	$1,%eax,%xmm1,%xmm1
	vpshufb	%xmm1,%xmm0,%xmm0
	vpextrw	$0,%xmm0,(%r9)
	movl	$2,%eax
	xorl	%edx,%edx
	.p2align	5,,1
	retq
47:
	vmovdqa	.L100v3_CPI16_3(%rip),%xmm0
48:
	.p2align	5,,10
	cmpq	$3,%rdx
	ja	50f
	movzwl	(%rdi),%ecx
	vmovd	%ecx,%xmm1
	vpsrlw	$4,%xmm1,%xmm2
	vpunpcklbw	%xmm1,%xmm2,%xmm1
	vpbroadcastd	.L100v3_CPI16_8(%rip),%xmm2
	vpand	%xmm2,%xmm1,%xmm1
	vpshufb	%xmm1,%xmm0,%xmm1
	vmovd	%xmm1,(%r9)
	movzwl	-2(%rdi,%rdx),%ecx
	vmovd	%ecx,%xmm1
	vpsrlw	$4,%xmm1,%xmm3
	vpunpcklbw	%xmm1,%xmm3,%xmm1
	vpand	%xmm2,%xmm1,%xmm1
	vpshufb	%xmm1,%xmm0,%xmm0
	vmovd	%xmm0,-4(%r9,%rdx,2)
	xorl	%edx,%edx
	.p2align	5,,1
	retq
50:
	vmovd	(%rdi),%xmm1
	vpsrlw	$4,%xmm1,%xmm2
	vpunpcklbw	%xmm1,%xmm2,%xmm1
	vpbroadcastd	.L100v3_CPI16_8(%rip),%xmm2
	vpand	%xmm2,%xmm1,%xmm1
	vpshufb	%xmm1,%xmm0,%xmm1
	vmovq	%xmm1,(%r9)
	vmovd	-4(%rdi,%rdx),%xmm1
	vpsrlw	$4,%xmm1,%xmm3
	vpunpcklbw	%xmm1,%xmm3,%xmm1
	vpand	%xmm2,%xmm1,%xmm1
	vpshufb	%xmm1,%xmm0,%xmm0
	vmovq	%xmm0,-8(%r9,%rdx,2)
	xorl	%edx,%edx
	.p2align	5,,1
	retq
	hex_end	faster_hex_1_0_0_x86_64_v3_encode
	hex_cfi	endproc
	hex_merged	32
	.p2align	5,0x0
.L100v3_CPI17_0:
	.byte	48,49,50,51,52,53,54,55,56,57,65,66,67,68,69,70
	.byte	48,49,50,51,52,53,54,55,56,57,65,66,67,68,69,70
.L100v3_CPI17_1:
	.byte	48,49,50,51,52,53,54,55,56,57,97,98,99,100,101,102
	.byte	48,49,50,51,52,53,54,55,56,57,97,98,99,100,101,102
.L100v3_CPI17_2:
	.zero	32,15
	hex_merged	16
	.p2align	4,0x0
.L100v3_CPI17_3:
	.zero	16,15
.L100v3_CPI17_4:
	.byte	48,49,50,51,52,53,54,55,56,57,65,66,67,68,69,70
.L100v3_CPI17_5:
	.byte	48,49,50,51,52,53,54,55,56,57,97,98,99,100,101,102
	hex_merged	4
	.p2align	2,0x0
.L100v3_CPI17_6:
	.zero	4,15
	hex_export	faster_hex_1_0_0_x86_64_v3_encode_grouped
	hex_lower
	hex_cfi	startproc
	endbr64
	pushq	%rbp
	hex_cfi	def_cfa_offset 16
	pushq	%r15
	hex_cfi	def_cfa_offset 24
	pushq	%r14
	hex_cfi	def_cfa_offset 32
	pushq	%r13
	hex_cfi	def_cfa_offset 40
	pushq	%r12
	hex_cfi	def_cfa_offset 48
	pushq	%rbx
	hex_cfi	def_cfa_offset 56
	hex_cfi	offset %rbx,-56
	hex_cfi	offset %r12,-48
	hex_cfi	offset %r13,-40
	hex_cfi	offset %r14,-32
	hex_cfi	offset %r15,-24
	hex_cfi	offset %rbp,-16
	movq	%rdx,%rax
	movq	%rdi,%r11
	movzbl	.Lhex_below+56(%rsp),%ebx
	testq	%r9,%r9
	sete	%dil
	testb	%bl,%bl
	sets	%r10b
	movl	$6,%edx
	orb	%dil,%r10b
	.p2align	5,,6
	jne	6f
	.p2align	5,,10
	cmpb	$48,%bl
	jae	7f
2:
	movl	$4,%edx
	.p2align	5,,10
	testq	%rsi,%rsi
	js	6f
	movq	%rax,%r10
	leaq	(%rsi,%rsi),%rdi
	cmpq	$1,%rsi
	movq	%rsi,%rax
	adcq	$-1,%rax
	movq	%rax,%rdx
	orq	%r9,%rdx
	shrq	$32,%rdx
	.p2align	5,,6
	je	13f
	xorl	%edx,%edx
	divq	%r9
	addq	%rdi,%rax
	movl	$4,%edx
	.p2align	5,,6
	jae	14f
	.p2align	5,,6
	jmp	6f
7:
	.p2align	5,,10
	cmpb	$58,%bl
	jb	6f
	.p2align	5,,10
	cmpb	$65,%bl
	jb	2b
	cmpb	$71,%bl
	setb	%dil
	leal	-97(%rbx),%r10d
	cmpb	$6,%r10b
	setb	%r10b
	orb	%dil,%r10b
	.p2align	5,,6
	je	2b
	.p2align	5,,6
	jmp	6f
13:
	xorl	%edx,%edx
	divl	%r9d
	addq	%rdi,%rax
	movl	$4,%edx
	.p2align	5,,6
	jae	14f
6:
	xorl	%eax,%eax
107:
	popq	%rbx
	hex_cfi	def_cfa_offset 48
	popq	%r12
	hex_cfi	def_cfa_offset 40
	popq	%r13
	hex_cfi	def_cfa_offset 32
	popq	%r14
	hex_cfi	def_cfa_offset 24
	popq	%r15
	hex_cfi	def_cfa_offset 16
	popq	%rbp
	hex_cfi	def_cfa_offset 8
	vzeroupper
	hex_raise
	.p2align	5,,1
	retq
14:
	hex_cfi	def_cfa_offset 56
	movl	$2,%edx
	.p2align	5,,10
	cmpq	%rax,%rcx
	jb	107b
	cmpq	$4,%r9
	movq	%r11,.Lhex_below-16(%rsp)
	.p2align	5,,6
	je	20f
	.p2align	5,,10
	cmpq	$1,%r9
	jne	23f
	leaq	.L100v3_static.14(%rip),%rax
	leaq	.L100v3_static.15(%rip),%rcx
	testb	$1,%r8b
	cmovneq	%rax,%rcx
	.p2align	5,,10
	cmpq	$2,%rsi
	jb	36f
	leaq	-1(%rsi),%rdx
	addq	$-2,%rsi
	movl	%edx,%edi
	andl	$3,%edi
	.p2align	5,,10
	cmpq	$3,%rsi
	jae	61f
	xorl	%esi,%esi
	xorl	%eax,%eax
	.p2align	5,,6
	jmp	64f
20:
	leaq	.L100v3_static.14(%rip),%rcx
	leaq	.L100v3_static.15(%rip),%rax
	testb	$1,%r8b
	cmovneq	%rcx,%rax
	.p2align	5,,10
	cmpq	$5,%rsi
	jb	37f
	xorl	%edx,%edx
	xorl	%ecx,%ecx
	.p2align	4
22:
	movzbl	(%r11,%rdx),%edi
	movzwl	(%rax,%rdi,2),%edi
	movw	%di,(%r10,%rcx)
	movzbl	1(%r11,%rdx),%edi
	movzwl	(%rax,%rdi,2),%edi
	movw	%di,2(%r10,%rcx)
	movzbl	2(%r11,%rdx),%edi
	movzwl	(%rax,%rdi,2),%edi
	movw	%di,4(%r10,%rcx)
	movzbl	3(%r11,%rdx),%edi
	movzwl	(%rax,%rdi,2),%edi
	movw	%di,6(%r10,%rcx)
	addq	$4,%rdx
	movb	%bl,8(%r10,%rcx)
	addq	$9,%rcx
	addq	$-4,%rsi
	.p2align	5,,10
	cmpq	$4,%rsi
	ja	22b
	.p2align	5,,6
	jmp	38f
23:
	cmpq	%rsi,%r9
	movl	%r8d,.Lhex_below-28(%rsp)
	.p2align	5,,6
	jae	41f
	leaq	(%r9,%r9),%rax
	movq	%rax,.Lhex_below-24(%rsp)
	movq	%r9,%r14
	shrq	$5,%r14
	vbroadcasti128	.L100v3_CPI17_4(%rip),%ymm1
	vbroadcasti128	.L100v3_CPI17_5(%rip),%ymm2
	leaq	-32(%r9),%r15
	leaq	-16(%r9),%rdx
	vmovdqa	%ymm1,%ymm0
	.p2align	5,,10
	testb	$1,%r8b
	jne	26f
	vmovdqa	%ymm2,%ymm0
26:
	.p2align	5,,6
	jne	28f
	vmovdqa	%xmm2,%xmm1
28:
	leaq	.L100v3_static.14(%rip),%rax
	leaq	.L100v3_static.15(%rip),%r12
	cmovneq	%rax,%r12
	movq	%r9,%rdi
	.p2align	5,,10
	subq	$8,%rdi
	jae	67f
	movl	%r9d,%r15d
	andl	$3,%r15d
	movl	%r9d,%r13d
	andl	$4,%r13d
	leaq	3(%r11),%rbp
	leaq	7(%r10),%r14
	leaq	(%r9,%r9),%rax
	incq	%rax
	movq	%rax,.Lhex_below-8(%rsp)
	xorl	%ebx,%ebx
	movq	%r11,%rdi
	movq	%r10,%rdx
	xorl	%r8d,%r8d
	.p2align	5,,6
	jmp	31f
30:
	movq	.Lhex_below-24(%rsp),%r8
	leaq	(%r9,%r9),%r11
	leaq	(%r8,%r11),%rax
	addq	%r9,%rbx
	movzbl	.Lhex_below+56(%rsp),%ecx
	movb	%cl,(%r10,%rax)
	addq	%r11,%r8
	incq	%r8
	movq	%rsi,%rcx
	subq	%rbx,%rcx
	addq	%r9,%rbp
	movq	.Lhex_below-8(%rsp),%rax
	addq	%rax,%r14
	addq	%rax,%rdx
	addq	%r9,%rdi
	cmpq	%rcx,%r9
	movq	.Lhex_below-16(%rsp),%r11
	.p2align	5,,6
	jae	42f
31:
	movq	%r8,.Lhex_below-24(%rsp)
	leaq	-1(%r9),%rax
	xorl	%ecx,%ecx
	.p2align	5,,10
	cmpq	$3,%rax
	jb	34f
	.p2align	4
32:
	movzbl	-3(%rbp,%rcx),%r8d
	movzwl	(%r12,%r8,2),%r8d
	movw	%r8w,-7(%r14,%rcx,2)
	movzbl	-2(%rbp,%rcx),%r8d
	movzwl	(%r12,%r8,2),%r8d
	movw	%r8w,-5(%r14,%rcx,2)
	movzbl	-1(%rbp,%rcx),%r8d
	movzwl	(%r12,%r8,2),%r8d
	movw	%r8w,-3(%r14,%rcx,2)
	movzbl	(%rbp,%rcx),%r8d
	movzwl	(%r12,%r8,2),%r8d
	movw	%r8w,-1(%r14,%rcx,2)
	addq	$4,%rcx
	.p2align	5,,10
	cmpq	%rcx,%r13
	jne	32b
	.p2align	5,,10
	testq	%r15,%r15
	je	30b
34:
	leaq	(%rdx,%rcx,2),%r8
	addq	%rdi,%rcx
	xorl	%r11d,%r11d
	.p2align	4
35:
	movzbl	(%rcx,%r11),%eax
	movzwl	(%r12,%rax,2),%eax
	movw	%ax,(%r8,%r11,2)
	incq	%r11
	.p2align	5,,10
	cmpq	%r11,%r15
	jne	35b
	.p2align	5,,6
	jmp	30b
36:
	xorl	%edx,%edx
	movl	$0,%eax
	.p2align	5,,10
	testq	%rsi,%rsi
	jne	66f
	.p2align	5,,6
	jmp	107b
37:
	xorl	%ecx,%ecx
	xorl	%edx,%edx
38:
	.p2align	5,,10
	testq	%rsi,%rsi
	je	60f
	movl	%esi,%edi
	andl	$3,%edi
	.p2align	5,,10
	cmpq	$4,%rsi
	jae	55f
	xorl	%r8d,%r8d
	.p2align	5,,6
	jmp	58f
41:
	xorl	%r8d,%r8d
	xorl	%ebx,%ebx
	movq	%rsi,%rcx
42:
	addq	%rbx,%r11
	addq	%r8,%r10
	.p2align	5,,10
	cmpq	$7,%rcx
	ja	51f
	leaq	.L100v3_static.14(%rip),%rax
	leaq	.L100v3_static.15(%rip),%rdx
	testb	$1,.Lhex_below-28(%rsp)
	cmovneq	%rax,%rdx
	.p2align	5,,10
	testq	%rcx,%rcx
	je	105f
	movzbl	(%r11),%eax
	movzwl	(%rdx,%rax,2),%eax
	movw	%ax,(%r10)
	.p2align	5,,10
	cmpq	$1,%rcx
	je	105f
	movzbl	1(%r11),%eax
	movzwl	(%rdx,%rax,2),%eax
	movw	%ax,2(%r10)
	.p2align	5,,10
	cmpq	$2,%rcx
	je	105f
	movzbl	2(%r11),%eax
	movzwl	(%rdx,%rax,2),%eax
	movw	%ax,4(%r10)
	.p2align	5,,10
	cmpq	$3,%rcx
	je	105f
	movzbl	3(%r11),%eax
	movzwl	(%rdx,%rax,2),%eax
	movw	%ax,6(%r10)
	.p2align	5,,10
	cmpq	$4,%rcx
	je	105f
	movzbl	4(%r11),%eax
	movzwl	(%rdx,%rax,2),%eax
	movw	%ax,8(%r10)
	.p2align	5,,10
	cmpq	$5,%rcx
	je	105f
	movzbl	5(%r11),%eax
	movzwl	(%rdx,%rax,2),%eax
	movw	%ax,10(%r10)
	.p2align	5,,10
	cmpq	$6,%rcx
	je	105f
	movzbl	6(%r11),%eax
	movzwl	(%rdx,%rax,2),%eax
	movw	%ax,12(%r10)
	.p2align	5,,6
	jmp	105f
51:
	cmpq	$32,%rcx
	movl	.Lhex_below-28(%rsp),%eax
	.p2align	5,,6
	ja	71f
	.p2align	5,,6
	jne	74f
	vmovdqu	(%r11),%ymm0
	vpsrlw	$4,%ymm0,%ymm1
	vpbroadcastd	.L100v3_CPI17_6(%rip),%ymm2
	vpand	%ymm2,%ymm1,%ymm1
	vpand	%ymm2,%ymm0,%ymm0
	vpunpckhbw	%ymm0,%ymm1,%ymm2
	vpunpcklbw	%ymm0,%ymm1,%ymm1
	vperm2i128	$49,%ymm2,%ymm1,%ymm0
	vperm2i128	$32,%ymm2,%ymm1,%ymm1
	.p2align	5,,10
	testb	$1,%al
	jne	82f
	vbroadcasti128	.L100v3_CPI17_5(%rip),%ymm2
	.p2align	5,,6
	jmp	83f
55:
	movl	%esi,%r9d
	andl	$4,%r9d
	leaq	(%rdx,%r11),%rbx
	addq	$3,%rbx
	leaq	(%rcx,%r10),%r14
	addq	$7,%r14
	xorl	%r8d,%r8d
56:
	movzbl	-3(%rbx,%r8),%r11d
	movzwl	(%rax,%r11,2),%r11d
	movw	%r11w,-7(%r14,%r8,2)
	movzbl	-2(%rbx,%r8),%r11d
	movzwl	(%rax,%r11,2),%r11d
	movw	%r11w,-5(%r14,%r8,2)
	movzbl	-1(%rbx,%r8),%r11d
	movzwl	(%rax,%r11,2),%r11d
	movw	%r11w,-3(%r14,%r8,2)
	movzbl	(%rbx,%r8),%r11d
	movzwl	(%rax,%r11,2),%r11d
	movw	%r11w,-1(%r14,%r8,2)
	addq	$4,%r8
	.p2align	5,,10
	cmpq	%r8,%r9
	jne	56b
	testq	%rdi,%rdi
	movq	.Lhex_below-16(%rsp),%r11
	.p2align	5,,6
	je	60f
58:
	leaq	(%rcx,%r8,2),%r9
	addq	%r10,%r9
	incq	%r9
	addq	%rdx,%r11
	addq	%r8,%r11
	xorl	%edx,%edx
	.p2align	4
59:
	movzbl	(%r11,%rdx),%r8d
	movzwl	(%rax,%r8,2),%r8d
	movw	%r8w,-1(%r9,%rdx,2)
	incq	%rdx
	.p2align	5,,10
	cmpq	%rdx,%rdi
	jne	59b
60:
	leaq	(%rcx,%rsi,2),%rax
	.p2align	5,,6
	jmp	106f
61:
	movq	%rdx,%r9
	andq	$-4,%r9
	xorl	%esi,%esi
	xorl	%eax,%eax
62:
	movzbl	(%r11,%rsi),%r8d
	movzwl	(%rcx,%r8,2),%r8d
	movw	%r8w,(%r10,%rax)
	movb	%bl,2(%r10,%rax)
	movzbl	1(%r11,%rsi),%r8d
	movzwl	(%rcx,%r8,2),%r8d
	movw	%r8w,3(%r10,%rax)
	movb	%bl,5(%r10,%rax)
	movzbl	2(%r11,%rsi),%r8d
	movzwl	(%rcx,%r8,2),%r8d
	movw	%r8w,6(%r10,%rax)
	movb	%bl,8(%r10,%rax)
	movzbl	3(%r11,%rsi),%r8d
	addq	$4,%rsi
	movzwl	(%rcx,%r8,2),%r8d
	movw	%r8w,9(%r10,%rax)
	movb	%bl,11(%r10,%rax)
	addq	$12,%rax
	.p2align	5,,10
	cmpq	%rsi,%r9
	jne	62b
	.p2align	5,,10
	testq	%rdi,%rdi
	je	66f
64:
	addq	%r11,%rsi
	xorl	%r9d,%r9d
	.p2align	4
65:
	movzbl	(%rsi,%r9),%r8d
	movzwl	(%rcx,%r8,2),%r8d
	movw	%r8w,(%r10,%rax)
	movb	%bl,2(%r10,%rax)
	addq	$3,%rax
	incq	%r9
	.p2align	5,,10
	cmpq	%r9,%rdi
	jne	65b
66:
	movzbl	(%r11,%rdx),%edx
	movzwl	(%rcx,%rdx,2),%ecx
	movw	%cx,(%r10,%rax)
	addq	$2,%rax
	.p2align	5,,6
	jmp	106f
67:
	.p2align	5,,10
	cmpq	$32,%r9
	ja	76f
	.p2align	5,,6
	jne	84f
	movq	.Lhex_below-24(%rsp),%rdi
	leaq	(%r10,%rdi),%rdx
	movq	%rbx,%rax
	xorl	%ebx,%ebx
	movq	%rsi,%rcx
	xorl	%r8d,%r8d
70:
	vmovdqu	(%r11,%rbx),%ymm1
	addq	$32,%rbx
	vpsrlw	$4,%ymm1,%ymm2
	vpbroadcastd	.L100v3_CPI17_6(%rip),%ymm3
	vpand	%ymm3,%ymm2,%ymm2
	vpand	%ymm3,%ymm1,%ymm1
	vpunpckhbw	%ymm1,%ymm2,%ymm3
	vpunpcklbw	%ymm1,%ymm2,%ymm1
	vperm2i128	$49,%ymm3,%ymm1,%ymm2
	vperm2i128	$32,%ymm3,%ymm1,%ymm1
	vpshufb	%ymm1,%ymm0,%ymm1
	vpshufb	%ymm2,%ymm0,%ymm2
	vmovdqu	%ymm2,32(%r10,%r8)
	vmovdqu	%ymm1,(%r10,%r8)
	movb	%al,(%rdx,%r8)
	addq	%rdi,%r8
	incq	%r8
	addq	$-32,%rcx
	.p2align	5,,10
	cmpq	$32,%rcx
	ja	70b
	.p2align	5,,6
	jmp	42b
71:
	.p2align	5,,10
	cmpq	$64,%rcx
	ja	79f
	vmovdqu	(%r11),%ymm1
	vpsrlw	$4,%ymm1,%ymm2
	vpbroadcastd	.L100v3_CPI17_6(%rip),%ymm0
	vpand	%ymm0,%ymm2,%ymm2
	vpand	%ymm0,%ymm1,%ymm1
	vpunpckhbw	%ymm1,%ymm2,%ymm3
	vpunpcklbw	%ymm1,%ymm2,%ymm1
	vperm2i128	$49,%ymm3,%ymm1,%ymm2
	vperm2i128	$32,%ymm3,%ymm1,%ymm3
	.p2align	5,,10
	testb	$1,%al
	jne	87f
	vbroadcasti128	.L100v3_CPI17_5(%rip),%ymm1
	.p2align	5,,6
	jmp	88f
74:
	.p2align	5,,10
	testb	$1,%al
	jne	89f
	vmovdqa	.L100v3_CPI17_5(%rip),%xmm0
	.p2align	5,,6
	jmp	90f
76:
	.p2align	5,,10
	cmpq	$64,%r9
	ja	92f
	addq	%r11,%r15
	leaq	(%r9,%r9),%rdi
	leaq	(%r10,%rdi),%rdx
	movq	%rbx,%rax
	xorl	%ebx,%ebx
	movq	%rsi,%rcx
	xorl	%r8d,%r8d
78:
	vmovdqu	(%r11,%rbx),%ymm1
	vpsrlw	$4,%ymm1,%ymm2
	vpbroadcastd	.L100v3_CPI17_6(%rip),%ymm3
	vpand	%ymm3,%ymm2,%ymm2
	vpand	%ymm3,%ymm1,%ymm1
	vpunpckhbw	%ymm1,%ymm2,%ymm4
	vpunpcklbw	%ymm1,%ymm2,%ymm1
	vperm2i128	$49,%ymm4,%ymm1,%ymm2
	vperm2i128	$32,%ymm4,%ymm1,%ymm1
	vpshufb	%ymm1,%ymm0,%ymm1
	vpshufb	%ymm2,%ymm0,%ymm2
	vmovdqu	%ymm2,32(%r10,%r8)
	vmovdqu	%ymm1,(%r10,%r8)
	vmovdqu	(%r15,%rbx),%ymm1
	leaq	(%rbx,%r9),%rbx
	vpsrlw	$4,%ymm1,%ymm2
	vpand	%ymm3,%ymm2,%ymm2
	vpand	%ymm3,%ymm1,%ymm1
	vpunpckhbw	%ymm1,%ymm2,%ymm3
	vpunpcklbw	%ymm1,%ymm2,%ymm1
	vperm2i128	$49,%ymm3,%ymm1,%ymm2
	vperm2i128	$32,%ymm3,%ymm1,%ymm1
	vpshufb	%ymm1,%ymm0,%ymm1
	vpshufb	%ymm2,%ymm0,%ymm2
	vmovdqu	%ymm2,-32(%rdx,%r8)
	vmovdqu	%ymm1,-64(%rdx,%r8)
	movb	%al,(%rdx,%r8)
	addq	%rdi,%r8
	incq	%r8
	subq	%r9,%rcx
	.p2align	5,,10
	cmpq	%rcx,%r9
	jb	78b
	.p2align	5,,6
	jmp	42b
79:
	.p2align	5,,13
	cmpq	$128,%rcx
	ja	97f
	vpermq	$216,(%r11),%ymm1
	vpsrlw	$4,%ymm1,%ymm2
	vpbroadcastd	.L100v3_CPI17_6(%rip),%ymm0
	vpand	%ymm0,%ymm2,%ymm3
	vpand	%ymm0,%ymm1,%ymm1
	vpunpckhbw	%ymm1,%ymm3,%ymm2
	vpunpcklbw	%ymm1,%ymm3,%ymm3
	.p2align	5,,10
	testb	$1,%al
	jne	100f
	vbroadcasti128	.L100v3_CPI17_5(%rip),%ymm1
	.p2align	5,,6
	jmp	101f
82:
	vbroadcasti128	.L100v3_CPI17_4(%rip),%ymm2
83:
	vpshufb	%ymm1,%ymm2,%ymm1
	vpshufb	%ymm0,%ymm2,%ymm0
	vmovdqu	%ymm0,32(%r10)
	vmovdqu	%ymm1,(%r10)
	.p2align	5,,6
	jmp	105f
84:
	.p2align	5,,10
	cmpq	$17,%r9
	jae	108f
	addq	%r11,%rdi
	leaq	(%r9,%r9),%r14
	leaq	(%r10,%r14),%rdx
	xorl	%ebx,%ebx
	movq	%rsi,%rcx
	xorl	%r8d,%r8d
	movzbl	.Lhex_below+56(%rsp),%eax
86:
	vmovq	(%r11,%rbx),%xmm0
	vpsrlw	$4,%xmm0,%xmm2
	vpbroadcastd	.L100v3_CPI17_6(%rip),%xmm3
	vpunpcklbw	%xmm0,%xmm2,%xmm0
	vpand	%xmm3,%xmm0,%xmm0
	vpshufb	%xmm0,%xmm1,%xmm0
	vmovdqu	%xmm0,(%r10,%r8)
	vmovq	(%rdi,%rbx),%xmm0
	addq	%r9,%rbx
	vpsrlw	$4,%xmm0,%xmm2
	vpunpcklbw	%xmm0,%xmm2,%xmm0
	vpand	%xmm3,%xmm0,%xmm0
	vpshufb	%xmm0,%xmm1,%xmm0
	vmovdqu	%xmm0,-16(%rdx,%r8)
	movb	%al,(%rdx,%r8)
	addq	%r14,%r8
	incq	%r8
	subq	%r9,%rcx
	.p2align	5,,10
	cmpq	%rcx,%r9
	jb	86b
	.p2align	5,,6
	jmp	42b
87:
	vbroadcasti128	.L100v3_CPI17_4(%rip),%ymm1
88:
	vpshufb	%ymm3,%ymm1,%ymm3
	vpshufb	%ymm2,%ymm1,%ymm2
	vmovdqu	%ymm2,32(%r10)
	vmovdqu	%ymm3,(%r10)
	vmovdqu	-32(%r11,%rcx),%ymm2
	vpsrlw	$4,%ymm2,%ymm3
	vpand	%ymm0,%ymm3,%ymm3
	vpand	%ymm0,%ymm2,%ymm0
	vpunpckhbw	%ymm0,%ymm3,%ymm2
	vpunpcklbw	%ymm0,%ymm3,%ymm0
	vperm2i128	$49,%ymm2,%ymm0,%ymm3
	vperm2i128	$32,%ymm2,%ymm0,%ymm0
	vpshufb	%ymm0,%ymm1,%ymm0
	vpshufb	%ymm3,%ymm1,%ymm1
	.p2align	5,,6
	jmp	104f
89:
	vmovdqa	.L100v3_CPI17_4(%rip),%xmm0
90:
	.p2align	5,,10
	cmpq	$16,%rcx
	ja	99f
	vmovq	(%r11),%xmm1
	vpsrlw	$4,%xmm1,%xmm2
	vpbroadcastd	.L100v3_CPI17_6(%rip),%xmm3
	vpunpcklbw	%xmm1,%xmm2,%xmm1
	vpand	%xmm3,%xmm1,%xmm1
	vpshufb	%xmm1,%xmm0,%xmm1
	vmovdqu	%xmm1,(%r10)
	vmovq	-8(%r11,%rcx),%xmm1
	vpsrlw	$4,%xmm1,%xmm2
	vpunpcklbw	%xmm1,%xmm2,%xmm1
	vpand	%xmm3,%xmm1,%xmm1
	vpshufb	%xmm1,%xmm0,%xmm0
	vmovdqu	%xmm0,-16(%r10,%rcx,2)
	.p2align	5,,6
	jmp	105f
92:
	cmpq	$128,%r9
	leaq	(%r9,%r9),%rax
	.p2align	5,,6
	ja	110f
	addq	%r11,%r15
	leaq	(%r10,%rax),%rdx
	xorl	%ebx,%ebx
	movq	%rsi,%rcx
	xorl	%esi,%esi
	.p2align	5,,6
	jmp	95f
94:
	leaq	(%r9,%r9),%rax
	leaq	(%rsi,%rax),%r8
	vpermq	$216,(%r15,%rbx),%ymm2
	addq	%r9,%rbx
	vpsrlw	$4,%ymm2,%ymm3
	vpand	%ymm1,%ymm3,%ymm3
	vpand	%ymm1,%ymm2,%ymm1
	vpunpckhbw	%ymm1,%ymm3,%ymm2
	vpunpcklbw	%ymm1,%ymm3,%ymm1
	vpshufb	%ymm1,%ymm0,%ymm1
	vpshufb	%ymm2,%ymm0,%ymm2
	vmovdqu	%ymm2,-32(%rdx,%rsi)
	vmovdqu	%ymm1,-64(%rdx,%rsi)
	movzbl	.Lhex_below+56(%rsp),%eax
	movb	%al,(%rdx,%rsi)
	incq	%r8
	subq	%r9,%rcx
	movq	%r8,%rsi
	.p2align	5,,10
	cmpq	%rcx,%r9
	jae	42b
95:
	vpermq	$216,(%r11,%rbx),%ymm2
	vpsrlw	$4,%ymm2,%ymm3
	vpbroadcastd	.L100v3_CPI17_6(%rip),%ymm1
	vpand	%ymm1,%ymm3,%ymm3
	vpand	%ymm1,%ymm2,%ymm2
	vpunpckhbw	%ymm2,%ymm3,%ymm4
	vpunpcklbw	%ymm2,%ymm3,%ymm2
	vpshufb	%ymm2,%ymm0,%ymm2
	vpshufb	%ymm4,%ymm0,%ymm3
	vmovdqu	%ymm3,32(%r10,%rsi)
	vmovdqu	%ymm2,(%r10,%rsi)
	vpermq	$216,32(%r11,%rbx),%ymm2
	vpsrlw	$4,%ymm2,%ymm3
	vpand	%ymm1,%ymm3,%ymm3
	vpand	%ymm1,%ymm2,%ymm2
	vpunpckhbw	%ymm2,%ymm3,%ymm4
	vpunpcklbw	%ymm2,%ymm3,%ymm2
	vpshufb	%ymm4,%ymm0,%ymm3
	vmovdqu	%ymm3,96(%r10,%rsi)
	vpshufb	%ymm2,%ymm0,%ymm2
	vmovdqu	%ymm2,64(%r10,%rsi)
	.p2align	5,,10
	cmpq	$97,%r9
	jb	94b
	vpermq	$216,-32(%r15,%rbx),%ymm2
	vpsrlw	$4,%ymm2,%ymm3
	vpand	%ymm1,%ymm3,%ymm3
	vpand	%ymm1,%ymm2,%ymm2
	vpunpckhbw	%ymm2,%ymm3,%ymm4
	vpunpcklbw	%ymm2,%ymm3,%ymm2
	vpshufb	%ymm2,%ymm0,%ymm2
	vpshufb	%ymm4,%ymm0,%ymm3
	vmovdqu	%ymm3,-96(%rdx,%rsi)
	vmovdqu	%ymm2,-128(%rdx,%rsi)
	.p2align	5,,6
	jmp	94b
97:
	movq	%rcx,%rsi
	shrq	$5,%rsi
	.p2align	5,,10
	testb	$1,%al
	jne	121f
	vbroadcasti128	.L100v3_CPI17_5(%rip),%ymm0
	.p2align	5,,6
	jmp	122f
99:
	vmovdqu	(%r11),%xmm1
	vpsrlw	$4,%xmm1,%xmm2
	vpbroadcastd	.L100v3_CPI17_6(%rip),%xmm3
	vpand	%xmm3,%xmm2,%xmm2
	vpshufb	%xmm2,%xmm0,%xmm2
	vpand	%xmm3,%xmm1,%xmm1
	vpshufb	%xmm1,%xmm0,%xmm1
	vpunpcklbw	%xmm1,%xmm2,%xmm4
	vpunpckhbw	%xmm1,%xmm2,%xmm1
	vmovdqu	%xmm4,(%r10)
	vmovdqu	%xmm1,16(%r10)
	vmovdqu	-16(%r11,%rcx),%xmm1
	vpsrlw	$4,%xmm1,%xmm2
	vpand	%xmm3,%xmm2,%xmm2
	vpshufb	%xmm2,%xmm0,%xmm2
	vpand	%xmm3,%xmm1,%xmm1
	vpshufb	%xmm1,%xmm0,%xmm0
	vpunpcklbw	%xmm0,%xmm2,%xmm1
	vpunpckhbw	%xmm0,%xmm2,%xmm0
	vmovdqu	%xmm1,-32(%r10,%rcx,2)
	vmovdqu	%xmm0,-16(%r10,%rcx,2)
	.p2align	5,,6
	jmp	105f
100:
	vbroadcasti128	.L100v3_CPI17_4(%rip),%ymm1
101:
	vpshufb	%ymm3,%ymm1,%ymm3
	vpshufb	%ymm2,%ymm1,%ymm2
	vmovdqu	%ymm2,32(%r10)
	vmovdqu	%ymm3,(%r10)
	vpermq	$216,32(%r11),%ymm2
	vpsrlw	$4,%ymm2,%ymm3
	vpand	%ymm0,%ymm3,%ymm3
	vpand	%ymm0,%ymm2,%ymm2
	vpunpckhbw	%ymm2,%ymm3,%ymm4
	vpunpcklbw	%ymm2,%ymm3,%ymm2
	vpshufb	%ymm4,%ymm1,%ymm3
	vmovdqu	%ymm3,96(%r10)
	vpshufb	%ymm2,%ymm1,%ymm2
	vmovdqu	%ymm2,64(%r10)
	.p2align	5,,10
	cmpq	$97,%rcx
	jb	103f
	vpermq	$216,-64(%r11,%rcx),%ymm2
	vpsrlw	$4,%ymm2,%ymm3
	vpand	%ymm0,%ymm3,%ymm3
	vpand	%ymm0,%ymm2,%ymm2
	vpunpckhbw	%ymm2,%ymm3,%ymm4
	vpunpcklbw	%ymm2,%ymm3,%ymm2
	vpshufb	%ymm2,%ymm1,%ymm2
	vpshufb	%ymm4,%ymm1,%ymm3
	vmovdqu	%ymm3,-96(%r10,%rcx,2)
	vmovdqu	%ymm2,-128(%r10,%rcx,2)
103:
	vpermq	$216,-32(%r11,%rcx),%ymm2
	vpsrlw	$4,%ymm2,%ymm3
	vpand	%ymm0,%ymm3,%ymm3
	vpand	%ymm0,%ymm2,%ymm0
	vpunpckhbw	%ymm0,%ymm3,%ymm2
	vpunpcklbw	%ymm0,%ymm3,%ymm0
	vpshufb	%ymm0,%ymm1,%ymm0
	vpshufb	%ymm2,%ymm1,%ymm1
104:
	vmovdqu	%ymm1,-32(%r10,%rcx,2)
	vmovdqu	%ymm0,-64(%r10,%rcx,2)
105:
	leaq	(%r8,%rcx,2),%rax
106:
	xorl	%edx,%edx
	.p2align	5,,6
	jmp	107b
108:
	addq	%r11,%rdx
	leaq	(%r9,%r9),%r14
	leaq	(%r10,%r14),%rdi
	xorl	%ebx,%ebx
	movq	%rsi,%rcx
	xorl	%r8d,%r8d
	movzbl	.Lhex_below+56(%rsp),%eax
109:
	vmovdqu	(%r11,%rbx),%xmm0
	vpsrlw	$4,%xmm0,%xmm2
	vpbroadcastd	.L100v3_CPI17_6(%rip),%xmm3
	vpand	%xmm3,%xmm2,%xmm2
	vpshufb	%xmm2,%xmm1,%xmm2
	vpand	%xmm3,%xmm0,%xmm0
	vpshufb	%xmm0,%xmm1,%xmm0
	vpunpcklbw	%xmm0,%xmm2,%xmm4
	vmovdqu	%xmm4,(%r10,%r8)
	vpunpckhbw	%xmm0,%xmm2,%xmm0
	vmovdqu	%xmm0,16(%r10,%r8)
	vmovdqu	(%rdx,%rbx),%xmm0
	leaq	(%rbx,%r9),%rbx
	vpsrlw	$4,%xmm0,%xmm2
	vpand	%xmm3,%xmm2,%xmm2
	vpshufb	%xmm2,%xmm1,%xmm2
	vpand	%xmm3,%xmm0,%xmm0
	vpshufb	%xmm0,%xmm1,%xmm0
	vpunpcklbw	%xmm0,%xmm2,%xmm3
	vpunpckhbw	%xmm0,%xmm2,%xmm0
	vmovdqu	%xmm3,-32(%rdi,%r8)
	vmovdqu	%xmm0,-16(%rdi,%r8)
	movb	%al,(%rdi,%r8)
	addq	%r14,%r8
	incq	%r8
	subq	%r9,%rcx
	.p2align	5,,10
	cmpq	%rcx,%r9
	jb	109b
	.p2align	5,,6
	jmp	42b
110:
	movq	%r14,%r15
	andq	$-2,%r15
	leaq	1(%rax),%r12
	xorl	%ebx,%ebx
	movq	%r10,%r13
	movq	%r11,%rbp
	xorl	%r8d,%r8d
	.p2align	5,,6
	jmp	112f
111:
	addq	%r9,%r8
	addq	%r9,%r8
	addq	%r9,%rbx
	movzbl	.Lhex_below+56(%rsp),%eax
	movb	%al,(%r10,%r8)
	incq	%r8
	movq	%rsi,%rcx
	subq	%rbx,%rcx
	addq	%r9,%rbp
	addq	%r12,%r13
	.p2align	5,,10
	cmpq	%rcx,%r9
	jae	42b
112:
	leaq	(%r11,%rbx),%rdx
	leaq	(%r10,%r8),%rcx
	.p2align	5,,10
	testq	%r14,%r14
	je	119f
	.p2align	5,,10
	cmpq	$1,%r14
	jne	115f
	xorl	%edi,%edi
	.p2align	5,,6
	jmp	118f
115:
	movq	%r12,%rax
	movl	$32,%r12d
	xorl	%edi,%edi
116:
	vpermq	$216,-32(%rbp,%r12),%ymm1
	vpsrlw	$4,%ymm1,%ymm2
	vpbroadcastd	.L100v3_CPI17_6(%rip),%ymm3
	vpand	%ymm3,%ymm2,%ymm2
	vpand	%ymm3,%ymm1,%ymm1
	vpunpckhbw	%ymm1,%ymm2,%ymm4
	vpunpcklbw	%ymm1,%ymm2,%ymm1
	vpshufb	%ymm1,%ymm0,%ymm1
	vpshufb	%ymm4,%ymm0,%ymm2
	vmovdqu	%ymm1,-64(%r13,%r12,2)
	vmovdqu	%ymm2,-32(%r13,%r12,2)
	vpermq	$216,(%rbp,%r12),%ymm1
	vpsrlw	$4,%ymm1,%ymm2
	vpand	%ymm3,%ymm2,%ymm2
	vpand	%ymm3,%ymm1,%ymm1
	vpunpckhbw	%ymm1,%ymm2,%ymm3
	vpunpcklbw	%ymm1,%ymm2,%ymm1
	vpshufb	%ymm1,%ymm0,%ymm1
	vpshufb	%ymm3,%ymm0,%ymm2
	vmovdqu	%ymm1,(%r13,%r12,2)
	vmovdqu	%ymm2,32(%r13,%r12,2)
	addq	$2,%rdi
	addq	$64,%r12
	.p2align	5,,10
	cmpq	%rdi,%r15
	jne	116b
	testb	$1,%r14b
	movq	%rax,%r12
	.p2align	5,,6
	je	119f
118:
	movq	%rdi,%rax
	shlq	$5,%rax
	shlq	$6,%rdi
	vpermq	$216,(%rdx,%rax),%ymm1
	vpsrlw	$4,%ymm1,%ymm2
	vpbroadcastd	.L100v3_CPI17_6(%rip),%ymm3
	vpand	%ymm3,%ymm2,%ymm2
	vpand	%ymm3,%ymm1,%ymm1
	vpunpckhbw	%ymm1,%ymm2,%ymm3
	vpunpcklbw	%ymm1,%ymm2,%ymm1
	vpshufb	%ymm1,%ymm0,%ymm1
	vpshufb	%ymm3,%ymm0,%ymm2
	vmovdqu	%ymm1,(%rcx,%rdi)
	vmovdqu	%ymm2,32(%rcx,%rdi)
119:
	.p2align	5,,10
	testb	$31,%r9b
	je	111b
	vpermq	$216,-32(%rdx,%r9),%ymm1
	vpsrlw	$4,%ymm1,%ymm2
	vpbroadcastd	.L100v3_CPI17_6(%rip),%ymm3
	vpand	%ymm3,%ymm2,%ymm2
	vpand	%ymm3,%ymm1,%ymm1
	vpunpckhbw	%ymm1,%ymm2,%ymm3
	vpunpcklbw	%ymm1,%ymm2,%ymm1
	vpshufb	%ymm1,%ymm0,%ymm1
	vpshufb	%ymm3,%ymm0,%ymm2
	vmovdqu	%ymm2,-32(%rcx,%r9,2)
	vmovdqu	%ymm1,-64(%rcx,%r9,2)
	.p2align	5,,6
	jmp	111b
121:
	vbroadcasti128	.L100v3_CPI17_4(%rip),%ymm0
122:
	.p2align	5,,10
	cmpq	$1,%rsi
	jne	124f
	xorl	%edx,%edx
	.p2align	5,,6
	jmp	127f
124:
	movq	%r8,%rax
	movq	%rsi,%rdi
	andq	$-2,%rdi
	movl	$32,%r8d
	xorl	%edx,%edx
125:
	vpermq	$216,-32(%r11,%r8),%ymm1
	vpsrlw	$4,%ymm1,%ymm2
	vpbroadcastd	.L100v3_CPI17_6(%rip),%ymm3
	vpand	%ymm3,%ymm2,%ymm2
	vpand	%ymm3,%ymm1,%ymm1
	vpunpckhbw	%ymm1,%ymm2,%ymm4
	vpunpcklbw	%ymm1,%ymm2,%ymm1
	vpshufb	%ymm1,%ymm0,%ymm1
	vpshufb	%ymm4,%ymm0,%ymm2
	vmovdqu	%ymm1,-64(%r10,%r8,2)
	vmovdqu	%ymm2,-32(%r10,%r8,2)
	vpermq	$216,(%r11,%r8),%ymm1
	vpsrlw	$4,%ymm1,%ymm2
	vpand	%ymm3,%ymm2,%ymm2
	vpand	%ymm3,%ymm1,%ymm1
	vpunpckhbw	%ymm1,%ymm2,%ymm3
	vpunpcklbw	%ymm1,%ymm2,%ymm1
	vpshufb	%ymm1,%ymm0,%ymm1
	vpshufb	%ymm3,%ymm0,%ymm2
	vmovdqu	%ymm1,(%r10,%r8,2)
	vmovdqu	%ymm2,32(%r10,%r8,2)
	addq	$2,%rdx
	addq	$64,%r8
	.p2align	5,,10
	cmpq	%rdx,%rdi
	jne	125b
	testb	$1,%sil
	movq	%rax,%r8
	.p2align	5,,6
	je	128f
127:
	movq	%rdx,%rax
	shlq	$5,%rax
	shlq	$6,%rdx
	vpermq	$216,(%r11,%rax),%ymm1
	vpsrlw	$4,%ymm1,%ymm2
	vpbroadcastd	.L100v3_CPI17_6(%rip),%ymm3
	vpand	%ymm3,%ymm2,%ymm2
	vpand	%ymm3,%ymm1,%ymm1
	vpunpckhbw	%ymm1,%ymm2,%ymm3
	vpunpcklbw	%ymm1,%ymm2,%ymm1
	vpshufb	%ymm1,%ymm0,%ymm1
	vpshufb	%ymm3,%ymm0,%ymm2
	vmovdqu	%ymm1,(%r10,%rdx)
	vmovdqu	%ymm2,32(%r10,%rdx)
128:
	.p2align	5,,10
	testb	$31,%cl
	je	105b
	vpermq	$216,-32(%r11,%rcx),%ymm1
	vpsrlw	$4,%ymm1,%ymm2
	vpbroadcastd	.L100v3_CPI17_6(%rip),%ymm3
	vpand	%ymm3,%ymm2,%ymm2
	vpand	%ymm3,%ymm1,%ymm1
	vpunpckhbw	%ymm1,%ymm2,%ymm3
	vpunpcklbw	%ymm1,%ymm2,%ymm1
	vpshufb	%ymm1,%ymm0,%ymm1
	vpshufb	%ymm3,%ymm0,%ymm0
	vmovdqu	%ymm0,-32(%r10,%rcx,2)
	vmovdqu	%ymm1,-64(%r10,%rcx,2)
	.p2align	5,,6
	jmp	105b
	hex_end	faster_hex_1_0_0_x86_64_v3_encode_grouped
	hex_cfi	endproc
	hex_merged	32
	.p2align	5,0x0
.L100v3_CPI18_0:
	.zero	32,57
	hex_merged	16
	.p2align	4,0x0
.L100v3_CPI18_1:
	.zero	16,57
.L100v3_CPI18_2:
	.byte	57,57,57,57,57,57,57,57,0,0,0,0,0,0,0,0
.L100v3_CPI18_3:
	.byte	57,57,57,57,0,0,0,0,0,0,0,0,0,0,0,0
.L100v3_CPI18_4:
	.byte	57,57,0,0,0,0,0,0,0,0,0,0,0,0,0,0
	hex_merged	4
	.p2align	2,0x0
.L100v3_CPI18_5:
	.zero	4,57
	hex_export	faster_hex_1_0_0_x86_64_v3_check_with_case
	hex_cfi	startproc
	endbr64
	.p2align	5,,10
	cmpb	$2,%dl
	ja	1f
	.p2align	5,,10
	cmpq	$32,%rsi
	ja	14f
	.p2align	5,,10
	cmpq	$15,%rsi
	ja	13f
	.p2align	5,,10
	testq	%rsi,%rsi
	je	5f
	.p2align	5,,10
	cmpq	$1,%rsi
	jne	8f
	movzbl	(%rdi),%eax
	leal	-48(%rax),%ecx
	xorl	%esi,%esi
	subb	$9,%cl
	movzbl	%cl,%ecx
	cmovbl	%esi,%ecx
	movzbl	%dl,%edx
	leaq	.L100v3_static.0(%rip),%rdi
	orb	(%rdx,%rdi),%al
	leaq	.L100v3_static.1(%rip),%rdi
	subb	(%rdx,%rdi),%al
	subb	$5,%al
	movzbl	%al,%eax
	cmovbl	%esi,%eax
	cmpb	%al,%cl
	cmovbl	%ecx,%eax
	testb	%al,%al
	sete	%al
	.p2align	5,,1
	retq
1:
	xorl	%eax,%eax
	.p2align	5,,1
	retq
14:
	.p2align	5,,13
	cmpq	$256,%rsi
	ja	24f
	.p2align	5,,10
	cmpq	$64,%rsi
	ja	17f
	vmovdqu	(%rdi),%ymm0
	vpbroadcastd	.L100v3_CPI18_5(%rip),%ymm1
	movzbl	%dl,%eax
	leaq	.L100v3_static.3(%rip),%rcx
	vpbroadcastb	(%rax,%rcx),%ymm2
	vpaddb	%ymm1,%ymm0,%ymm3
	shll	$4,%eax
	leaq	.L100v3_static.2(%rip),%rcx
	vbroadcasti128	(%rax,%rcx),%ymm4
	vpshufb	%ymm3,%ymm4,%ymm5
	vpsubb	%ymm0,%ymm5,%ymm0
	vpxor	%ymm3,%ymm0,%ymm0
	vmovdqu	-32(%rdi,%rsi),%ymm3
	vpaddb	%ymm1,%ymm3,%ymm1
	vpshufb	%ymm1,%ymm4,%ymm4
	vpsubb	%ymm3,%ymm4,%ymm3
	vpxor	%ymm1,%ymm3,%ymm1
	vpor	%ymm0,%ymm1,%ymm0
	vptest	%ymm2,%ymm0
	sete	%al
	vzeroupper
	.p2align	5,,1
	retq
13:
	vmovdqu	(%rdi),%xmm0
	vpbroadcastd	.L100v3_CPI18_5(%rip),%xmm1
	movzbl	%dl,%eax
	leaq	.L100v3_static.3(%rip),%rcx
	vpbroadcastb	(%rax,%rcx),%xmm2
	vpaddb	%xmm1,%xmm0,%xmm3
	shll	$4,%eax
	leaq	.L100v3_static.2(%rip),%rcx
	vmovdqu	(%rax,%rcx),%xmm4
	vpshufb	%xmm3,%xmm4,%xmm5
	vpsubb	%xmm0,%xmm5,%xmm0
	vpxor	%xmm3,%xmm0,%xmm0
	vmovdqu	-16(%rdi,%rsi),%xmm3
	vpaddb	%xmm1,%xmm3,%xmm1
	vpshufb	%xmm1,%xmm4,%xmm4
	vpsubb	%xmm3,%xmm4,%xmm3
	vpxor	%xmm1,%xmm3,%xmm1
	vpor	%xmm0,%xmm1,%xmm0
	vptest	%xmm2,%xmm0
	sete	%al
	.p2align	5,,1
	retq
24:
	pushq	%rax
	hex_cfi	def_cfa_offset 16
	movzbl	%dl,%edx
	.p2align	5,,5
	callq	faster_hex_1_0_0_x86_64_v3_core_plain_check_long_outlined
	addq	$8,%rsp
	hex_cfi	def_cfa_offset 8
	.p2align	5,,1
	retq
17:
	movzbl	%dl,%eax
	movl	%eax,%ecx
	shll	$4,%ecx
	leaq	.L100v3_static.2(%rip),%rdx
	vmovdqu	(%rcx,%rdx),%xmm0
	.p2align	5,,13
	cmpq	$128,%rsi
	ja	21f
	vpbroadcastd	.L100v3_CPI18_5(%rip),%ymm2
	vmovdqu	(%rdi),%ymm1
	vmovdqu	32(%rdi),%ymm3
	vpaddb	%ymm2,%ymm1,%ymm4
	vinserti128	$1,%xmm0,%ymm0,%ymm5
	vpshufb	%ymm4,%ymm5,%ymm6
	vpsubb	%ymm1,%ymm6,%ymm1
	vpxor	%ymm4,%ymm1,%ymm1
	vpaddb	%ymm2,%ymm3,%ymm4
	vpshufb	%ymm4,%ymm5,%ymm6
	vpsubb	%ymm3,%ymm6,%ymm3
	vpxor	%ymm4,%ymm3,%ymm3
	vpor	%ymm1,%ymm3,%ymm1
	vmovdqu	-32(%rdi,%rsi),%ymm3
	vpaddb	%ymm2,%ymm3,%ymm2
	vpshufb	%ymm2,%ymm5,%ymm4
	vpsubb	%ymm3,%ymm4,%ymm3
	vpxor	%ymm2,%ymm3,%ymm2
	.p2align	5,,10
	cmpq	$97,%rsi
	jb	20f
	vmovdqu	-64(%rdi,%rsi),%ymm3
	vpaddb	.L100v3_CPI18_0(%rip),%ymm3,%ymm4
	vinserti128	$1,%xmm0,%ymm0,%ymm0
	vpshufb	%ymm4,%ymm0,%ymm0
	vpsubb	%ymm3,%ymm0,%ymm0
	vpxor	%ymm4,%ymm0,%ymm0
	vpor	%ymm1,%ymm0,%ymm1
20:
	leaq	.L100v3_static.3(%rip),%rcx
	vpbroadcastb	(%rax,%rcx),%ymm0
	vpor	%ymm2,%ymm1,%ymm1
	vptest	%ymm1,%ymm0
	sete	%al
	vzeroupper
	.p2align	5,,1
	retq
5:
	movb	$1,%al
	.p2align	5,,1
	retq
8:
	.p2align	5,,10
	cmpq	$3,%rsi
	ja	10f
	movzwl	(%rdi),%eax
	vmovd	%eax,%xmm0
	vpbroadcastd	.L100v3_CPI18_5(%rip),%xmm1
	vpaddb	%xmm1,%xmm0,%xmm2
	movzbl	%dl,%eax
	leaq	.L100v3_static.3(%rip),%rcx
	vpbroadcastb	(%rax,%rcx),%xmm3
	shll	$4,%eax
	leaq	.L100v3_static.2(%rip),%rcx
	vmovdqu	(%rax,%rcx),%xmm4
	vpshufb	%xmm2,%xmm4,%xmm5
	vpsubb	%xmm0,%xmm5,%xmm0
	vpxor	%xmm2,%xmm0,%xmm0
	movzwl	-2(%rdi,%rsi),%eax
	vmovd	%eax,%xmm2
	vpaddb	%xmm1,%xmm2,%xmm1
	vpshufb	%xmm1,%xmm4,%xmm4
	vpsubb	%xmm2,%xmm4,%xmm2
	vpxor	%xmm1,%xmm2,%xmm1
	vpor	%xmm0,%xmm1,%xmm0
	vpand	%xmm3,%xmm0,%xmm0
	vmovd	%xmm0,%eax
	testw	%ax,%ax
	sete	%al
	.p2align	5,,1
	retq
21:
	vpbroadcastd	.L100v3_CPI18_5(%rip),%ymm1
	vmovdqu	(%rdi),%ymm2
	vmovdqu	32(%rdi),%ymm3
	vmovdqu	64(%rdi),%ymm4
	vmovdqu	96(%rdi),%ymm5
	vpaddb	%ymm1,%ymm3,%ymm6
	vpaddb	%ymm1,%ymm2,%ymm7
	vinserti128	$1,%xmm0,%ymm0,%ymm8
	vpshufb	%ymm7,%ymm8,%ymm9
	vpshufb	%ymm6,%ymm8,%ymm10
	vpsubb	%ymm3,%ymm10,%ymm3
	vpsubb	%ymm2,%ymm9,%ymm2
	vpxor	%ymm7,%ymm2,%ymm2
	vpxor	%ymm6,%ymm3,%ymm3
	vpaddb	%ymm1,%ymm5,%ymm6
	vpaddb	%ymm1,%ymm4,%ymm7
	vpshufb	%ymm7,%ymm8,%ymm9
	vpshufb	%ymm6,%ymm8,%ymm10
	vpsubb	%ymm5,%ymm10,%ymm5
	vpsubb	%ymm4,%ymm9,%ymm4
	vpxor	%ymm7,%ymm4,%ymm4
	vpor	%ymm2,%ymm4,%ymm2
	vpxor	%ymm6,%ymm5,%ymm4
	vpor	%ymm3,%ymm4,%ymm3
	vmovdqu	-64(%rdi,%rsi),%ymm4
	vmovdqu	-32(%rdi,%rsi),%ymm5
	vpaddb	%ymm1,%ymm5,%ymm6
	vpaddb	%ymm1,%ymm4,%ymm7
	vpshufb	%ymm7,%ymm8,%ymm9
	vpshufb	%ymm6,%ymm8,%ymm8
	vpsubb	%ymm4,%ymm9,%ymm4
	vpsubb	%ymm5,%ymm8,%ymm5
	vpxor	%ymm6,%ymm5,%ymm5
	vpxor	%ymm7,%ymm4,%ymm4
	.p2align	5,,13
	cmpq	$193,%rsi
	jb	23f
	vmovdqu	-128(%rdi,%rsi),%ymm6
	vmovdqu	-96(%rdi,%rsi),%ymm7
	vpaddb	%ymm1,%ymm7,%ymm8
	vpaddb	%ymm1,%ymm6,%ymm1
	vinserti128	$1,%xmm0,%ymm0,%ymm0
	vpshufb	%ymm1,%ymm0,%ymm9
	vpshufb	%ymm8,%ymm0,%ymm0
	vpsubb	%ymm7,%ymm0,%ymm0
	vpsubb	%ymm6,%ymm9,%ymm6
	vpxor	%ymm1,%ymm6,%ymm1
	vpxor	%ymm0,%ymm8,%ymm0
	vpor	%ymm3,%ymm0,%ymm3
	vpor	%ymm2,%ymm1,%ymm2
23:
	vpor	%ymm5,%ymm3,%ymm0
	vpor	%ymm4,%ymm2,%ymm1
	leaq	.L100v3_static.3(%rip),%rcx
	vpbroadcastb	(%rax,%rcx),%ymm2
	vpor	%ymm0,%ymm1,%ymm0
	vptest	%ymm0,%ymm2
	sete	%al
	vzeroupper
	.p2align	5,,1
	retq
10:
	movzbl	%dl,%ecx
	leaq	.L100v3_static.3(%rip),%rax
	movzbl	(%rcx,%rax),%eax
	shll	$4,%ecx
	leaq	.L100v3_static.2(%rip),%rdx
	vmovdqu	(%rcx,%rdx),%xmm0
	.p2align	5,,10
	cmpq	$7,%rsi
	ja	12f
	vmovd	(%rdi),%xmm1
	vpbroadcastd	.L100v3_CPI18_5(%rip),%xmm2
	vpaddb	%xmm2,%xmm1,%xmm3
	vpshufb	%xmm3,%xmm0,%xmm4
	vpsubb	%xmm1,%xmm4,%xmm1
	vpxor	%xmm3,%xmm1,%xmm1
	vmovd	-4(%rdi,%rsi),%xmm3
	vpaddb	%xmm2,%xmm3,%xmm2
	vpshufb	%xmm2,%xmm0,%xmm0
	vpsubb	%xmm3,%xmm0,%xmm0
	vpxor	%xmm2,%xmm0,%xmm0
	vpor	%xmm1,%xmm0,%xmm0
	vmovd	%eax,%xmm1
	vpbroadcastb	%xmm1,%xmm1
	vpand	%xmm1,%xmm0,%xmm0
	vmovd	%xmm0,%eax
	testl	%eax,%eax
	sete	%al
	.p2align	5,,1
	retq
12:
	vmovq	(%rdi),%xmm1
	vpbroadcastd	.L100v3_CPI18_5(%rip),%xmm2
	vpaddb	%xmm2,%xmm1,%xmm3
	vpshufb	%xmm3,%xmm0,%xmm4
	vpsubb	%xmm1,%xmm4,%xmm1
	vpxor	%xmm3,%xmm1,%xmm1
	vmovq	-8(%rdi,%rsi),%xmm3
	vpaddb	%xmm2,%xmm3,%xmm2
	vpshufb	%xmm2,%xmm0,%xmm0
	vpsubb	%xmm3,%xmm0,%xmm0
	vpxor	%xmm2,%xmm0,%xmm0
	vpor	%xmm1,%xmm0,%xmm0
	vmovd	%eax,%xmm1
	vpbroadcastb	%xmm1,%xmm1
	vpand	%xmm1,%xmm0,%xmm0
	vmovq	%xmm0,%rax
	testq	%rax,%rax
	sete	%al
	.p2align	5,,1
	retq
	hex_end	faster_hex_1_0_0_x86_64_v3_check_with_case
	hex_cfi	endproc
	hex_export	faster_hex_1_0_0_x86_64_v3_decode_grouped
	hex_cfi	startproc
	endbr64
	pushq	%rbp
	hex_cfi	def_cfa_offset 16
	pushq	%r15
	hex_cfi	def_cfa_offset 24
	pushq	%r14
	hex_cfi	def_cfa_offset 32
	pushq	%r13
	hex_cfi	def_cfa_offset 40
	pushq	%r12
	hex_cfi	def_cfa_offset 48
	pushq	%rbx
	hex_cfi	def_cfa_offset 56
	subq	$72,%rsp
	hex_cfi	def_cfa_offset 128
	hex_cfi	offset %rbx,-56
	hex_cfi	offset %r12,-48
	hex_cfi	offset %r13,-40
	hex_cfi	offset %r14,-32
	hex_cfi	offset %r15,-24
	hex_cfi	offset %rbp,-16
	xorl	%r12d,%r12d
	cmpb	$3,%r8b
	movl	%r8d,%ebp
	cmovael	%r12d,%ebp
	.p2align	5,,6
	jae	6f
	movq	%rsi,%r11
	movq	%rdi,%rsi
	movzbl	128(%rsp),%ebx
	testq	%r9,%r9
	sete	%al
	testb	%bl,%bl
	sets	%r10b
	movl	$6,%edi
	orb	%al,%r10b
	.p2align	5,,6
	jne	7f
	.p2align	5,,10
	cmpb	$48,%bl
	jae	8f
3:
	movq	%r11,%r12
	shrq	%r12
	cmpq	%r9,%r12
	movq	%rdx,40(%rsp)
	.p2align	5,,6
	jae	10f
	.p2align	5,,10
	testb	$1,%r11b
	jne	29f
	movl	$2,%edi
	.p2align	5,,10
	cmpq	%r12,%rcx
	jae	18f
	.p2align	5,,6
	jmp	79f
6:
	movl	$5,%edi
	.p2align	5,,6
	jmp	79f
8:
	.p2align	5,,10
	cmpb	$58,%bl
	jae	12f
7:
	xorl	%r12d,%r12d
	.p2align	5,,6
	jmp	79f
10:
	leaq	(%r9,%r9),%rax
	leaq	1(,%r9,2),%rdi
	orq	%r11,%rax
	shrq	$32,%rax
	.p2align	5,,6
	je	15f
	movq	%r11,%rax
	xorl	%edx,%edx
	divq	%rdi
	movq	%rdx,%r12
	.p2align	5,,6
	jmp	16f
12:
	.p2align	5,,10
	cmpb	$65,%bl
	jb	3b
	cmpb	$71,%bl
	setb	%al
	leal	-97(%rbx),%r10d
	cmpb	$6,%r10b
	setb	%r10b
	orb	%al,%r10b
	.p2align	5,,6
	je	3b
	.p2align	5,,6
	jmp	7b
15:
	movl	%r11d,%eax
	xorl	%edx,%edx
	divl	%edi
	movl	%edx,%r12d
16:
	testq	%r12,%r12
	sete	%dl
	movl	%r12d,%edi
	orb	%dl,%dil
	.p2align	5,,10
	testb	$1,%dil
	jne	29f
	imulq	%r9,%rax
	shrq	%r12
	addq	%rax,%r12
	movl	$2,%edi
	.p2align	5,,10
	cmpq	%r12,%rcx
	jb	79f
18:
	movzbl	%bpl,%eax
	movq	%rax,32(%rsp)
	cmpq	%r12,%r9
	movq	%r11,48(%rsp)
	movq	%r9,24(%rsp)
	movq	%r12,8(%rsp)
	movq	%rsi,(%rsp)
	.p2align	5,,6
	jae	30f
	leaq	(%r9,%r9),%r10
	.p2align	5,,10
	cmpq	$16,%r10
	jae	51f
	movb	$63,%al
	bzhiq	%rax,%r9,%r12
	.p2align	5,,6
	je	70f
	cmpb	$1,%r8b
	leaq	.L100v3_static.7(%rip),%rax
	leaq	.L100v3_static.8(%rip),%rcx
	cmoveq	%rax,%rcx
	testb	%r8b,%r8b
	leaq	.L100v3_static.6(%rip),%r13
	cmovneq	%rcx,%r13
	leaq	1(%rsi),%r15
	leaq	1(%r10),%r8
	xorl	%r14d,%r14d
	movq	8(%rsp),%rax
	movq	%r10,64(%rsp)
	movq	%r8,56(%rsp)
22:
	movq	%rax,16(%rsp)
	leaq	(%r14,%r10),%rbx
	leaq	(%rsi,%r14),%rdi
	xorl	%eax,%eax
	.p2align	4
23:
	movzbl	-1(%r15,%rax,2),%ecx
	.p2align	5,,10
	cmpb	$-1,(%r13,%rcx)
	je	26f
	movzbl	(%r15,%rax,2),%ecx
	.p2align	5,,10
	cmpb	$-1,(%r13,%rcx)
	je	26f
	incq	%rax
	.p2align	5,,10
	cmpq	%rax,%r12
	jne	23b
	.p2align	5,,6
	jmp	27f
26:
	movq	%r10,%rsi
	movq	32(%rsp),%rdx
	.p2align	5,,5
	callq	faster_hex_1_0_0_x86_64_v3_core_backend_Backend_first_invalid
	movq	56(%rsp),%r8
	movq	64(%rsp),%r10
	movq	(%rsp),%rsi
	movq	24(%rsp),%r9
	movq	48(%rsp),%r11
	.p2align	5,,10
	cmpb	$1,%al
	je	77f
27:
	movzbl	128(%rsp),%eax
	cmpb	%al,(%rsi,%rbx)
	movq	16(%rsp),%rax
	.p2align	5,,6
	jne	78f
	incq	%rbx
	subq	%r9,%rax
	addq	%r8,%r15
	movq	%rbx,%r14
	.p2align	5,,10
	cmpq	%rax,%r9
	jb	22b
	.p2align	5,,6
	jmp	31f
29:
	movl	$7,%edi
	xorl	%r12d,%r12d
	.p2align	5,,6
	jmp	79f
30:
	xorl	%ebx,%ebx
31:
	movq	%r11,%rax
	subq	%rbx,%rax
	cmpq	$15,%rax
	movq	8(%rsp),%r12
	movq	32(%rsp),%r15
	.p2align	5,,6
	ja	37f
	movq	%rax,%rcx
	shrq	%rcx
	.p2align	5,,6
	je	40f
	leaq	.L100v3_switch.table.faster_hex_1_0_0_x86_64_v3_decode_grouped.48(%rip),%rdi
	movq	(%rdi,%r15,8),%rdi
	movq	(%rsp),%rdx
	leaq	(%rbx,%rdx),%r8
	incq	%r8
	xorl	%r10d,%r10d
34:
	movzbl	-1(%r8,%r10,2),%r11d
	.p2align	5,,10
	cmpb	$-1,(%rdi,%r11)
	je	37f
	movzbl	(%r8,%r10,2),%r11d
	.p2align	5,,10
	cmpb	$-1,(%rdi,%r11)
	je	37f
	incq	%r10
	.p2align	5,,10
	cmpq	%r10,%rcx
	jne	34b
	.p2align	5,,6
	jmp	40f
37:
	movq	(%rsp),%rcx
	leaq	(%rcx,%rbx),%rdi
	movq	%rax,%rsi
	movl	%r15d,%edx
	.p2align	5,,5
	callq	faster_hex_1_0_0_x86_64_v3_core_backend_Backend_first_invalid
	movq	24(%rsp),%r9
	.p2align	5,,10
	cmpb	$1,%al
	jne	40f
	addq	%rdx,%rbx
39:
	movq	(%rsp),%rsi
	.p2align	5,,6
	jmp	78f
40:
	.p2align	5,,10
	cmpq	%r12,%r9
	jae	55f
	leaq	(%r9,%r9),%rsi
	leaq	1(,%r9,2),%rax
	.p2align	5,,10
	cmpq	$8,%r9
	jae	56f
	cmpb	$1,%bpl
	leaq	.L100v3_static.7(%rip),%rax
	leaq	.L100v3_static.8(%rip),%rcx
	cmoveq	%rax,%rcx
	testb	%bpl,%bpl
	leaq	.L100v3_static.6(%rip),%rax
	cmovneq	%rcx,%rax
	movl	%r9d,%r8d
	andl	$3,%r8d
	movl	%r9d,%r10d
	andl	$4,%r10d
	movq	%rsi,%rcx
	movq	(%rsp),%rsi
	leaq	7(%rsi),%r11
	incq	%rcx
	movq	%rcx,16(%rsp)
	movq	40(%rsp),%rdi
	leaq	3(%rdi),%r13
	xorl	%ebp,%ebp
	xorl	%ebx,%ebx
	.p2align	5,,6
	jmp	44f
43:
	addq	%r9,%rbx
	leaq	1(,%r9,2),%rcx
	addq	%rcx,%rbp
	movq	8(%rsp),%r12
	movq	%r12,%rcx
	subq	%rbx,%rcx
	movq	16(%rsp),%rdx
	addq	%rdx,%r11
	addq	%r9,%r13
	addq	%r9,%rdi
	addq	%rdx,%rsi
	cmpq	%rcx,%r9
	movq	32(%rsp),%r15
	.p2align	5,,6
	jae	59f
44:
	leaq	-1(%r9),%rcx
	.p2align	5,,10
	cmpq	$3,%rcx
	jae	46f
	xorl	%ecx,%ecx
	.p2align	5,,6
	jmp	49f
46:
	xorl	%ecx,%ecx
	.p2align	4
47:
	movzbl	-7(%r11,%rcx,2),%r15d
	movzbl	(%rax,%r15),%r15d
	movzbl	-6(%r11,%rcx,2),%r12d
	shlb	$4,%r15b
	addb	(%rax,%r12),%r15b
	movb	%r15b,-3(%r13,%rcx)
	movzbl	-5(%r11,%rcx,2),%r15d
	movzbl	(%rax,%r15),%r15d
	movzbl	-4(%r11,%rcx,2),%r12d
	shlb	$4,%r15b
	addb	(%rax,%r12),%r15b
	movb	%r15b,-2(%r13,%rcx)
	movzbl	-3(%r11,%rcx,2),%r15d
	movzbl	(%rax,%r15),%r15d
	movzbl	-2(%r11,%rcx,2),%r12d
	shlb	$4,%r15b
	addb	(%rax,%r12),%r15b
	movb	%r15b,-1(%r13,%rcx)
	movzbl	-1(%r11,%rcx,2),%r15d
	movzbl	(%rax,%r15),%r15d
	movzbl	(%r11,%rcx,2),%r12d
	shlb	$4,%r15b
	addb	(%rax,%r12),%r15b
	movb	%r15b,(%r13,%rcx)
	addq	$4,%rcx
	.p2align	5,,10
	cmpq	%rcx,%r10
	jne	47b
	.p2align	5,,10
	testq	%r8,%r8
	je	43b
49:
	leaq	(%rdi,%rcx),%r15
	leaq	(%rsi,%rcx,2),%rcx
	xorl	%r12d,%r12d
	.p2align	4
50:
	movzbl	(%rcx,%r12,2),%r14d
	movzbl	(%rax,%r14),%r14d
	movzbl	1(%rcx,%r12,2),%edx
	shlb	$4,%r14b
	addb	(%rax,%rdx),%r14b
	movb	%r14b,(%r15,%r12)
	incq	%r12
	.p2align	5,,10
	cmpq	%r12,%r8
	jne	50b
	.p2align	5,,6
	jmp	43b
51:
	leaq	(%rsi,%r10),%r15
	xorl	%r14d,%r14d
52:
	leaq	(%rsi,%r14),%rdi
	movq	%r10,%rsi
	movq	32(%rsp),%rdx
	movq	%r10,%r13
	.p2align	5,,5
	callq	faster_hex_1_0_0_x86_64_v3_core_backend_Backend_first_invalid
	.p2align	5,,10
	cmpb	$1,%al
	je	75f
	leaq	(%r14,%r13),%rbx
	movzbl	128(%rsp),%eax
	.p2align	5,,10
	cmpb	%al,(%r15,%r14)
	jne	39b
	movq	%r13,%r10
	incq	%rbx
	movq	24(%rsp),%r9
	subq	%r9,%r12
	movq	%rbx,%r14
	cmpq	%r12,%r9
	movq	48(%rsp),%r11
	movq	(%rsp),%rsi
	.p2align	5,,6
	jb	52b
	.p2align	5,,6
	jmp	31b
55:
	xorl	%ebx,%ebx
	xorl	%ebp,%ebp
	movq	%r12,%rcx
	.p2align	5,,6
	jmp	59f
56:
	xorl	%ebx,%ebx
	movq	40(%rsp),%r13
	xorl	%ebp,%ebp
	movq	%rsi,16(%rsp)
57:
	movq	(%rsp),%rcx
	leaq	(%rcx,%rbp),%rdi
	movq	%r13,%rdx
	movq	%r9,%rcx
	movl	%r15d,%r8d
	movq	%rbp,%r14
	movq	%r15,%rbp
	movq	%rax,%r15
	.p2align	5,,5
	callq	faster_hex_1_0_0_x86_64_v3_codec_pieces_read_long_piece
	movq	%r15,%rax
	movq	%rbp,%r15
	movq	%r14,%rbp
	movq	16(%rsp),%rsi
	movq	24(%rsp),%r9
	addq	%rax,%rbp
	addq	%r9,%r13
	subq	%r9,%rbx
	leaq	(%r12,%rbx),%rcx
	.p2align	5,,10
	cmpq	%rcx,%r9
	jb	57b
	negq	%rbx
59:
	movq	(%rsp),%rdi
	addq	%rbp,%rdi
	movq	40(%rsp),%r8
	addq	%rbx,%r8
	.p2align	5,,10
	cmpq	$7,%rcx
	ja	68f
	.p2align	5,,10
	testq	%rcx,%rcx
	je	69f
	leaq	.L100v3_switch.table.faster_hex_1_0_0_x86_64_v3_decode_grouped.48(%rip),%rax
	movq	(%rax,%r15,8),%rax
	movzbl	(%rdi),%edx
	movzbl	(%rax,%rdx),%edx
	movzbl	1(%rdi),%esi
	shlb	$4,%dl
	addb	(%rax,%rsi),%dl
	movb	%dl,(%r8)
	.p2align	5,,10
	cmpq	$1,%rcx
	je	69f
	movzbl	2(%rdi),%edx
	movzbl	(%rax,%rdx),%edx
	movzbl	3(%rdi),%esi
	shlb	$4,%dl
	addb	(%rax,%rsi),%dl
	movb	%dl,1(%r8)
	.p2align	5,,10
	cmpq	$2,%rcx
	je	69f
	movzbl	4(%rdi),%edx
	movzbl	(%rax,%rdx),%edx
	movzbl	5(%rdi),%esi
	shlb	$4,%dl
	addb	(%rax,%rsi),%dl
	movb	%dl,2(%r8)
	.p2align	5,,10
	cmpq	$3,%rcx
	je	69f
	movzbl	6(%rdi),%edx
	movzbl	(%rax,%rdx),%edx
	movzbl	7(%rdi),%esi
	shlb	$4,%dl
	addb	(%rax,%rsi),%dl
	movb	%dl,3(%r8)
	.p2align	5,,10
	cmpq	$4,%rcx
	je	69f
	movzbl	8(%rdi),%edx
	movzbl	(%rax,%rdx),%edx
	movzbl	9(%rdi),%esi
	shlb	$4,%dl
	addb	(%rax,%rsi),%dl
	movb	%dl,4(%r8)
	.p2align	5,,10
	cmpq	$5,%rcx
	je	69f
	movzbl	10(%rdi),%edx
	movzbl	(%rax,%rdx),%edx
	movzbl	11(%rdi),%esi
	shlb	$4,%dl
	addb	(%rax,%rsi),%dl
	movb	%dl,5(%r8)
	.p2align	5,,10
	cmpq	$6,%rcx
	je	69f
	movzbl	12(%rdi),%ecx
	movzbl	(%rax,%rcx),%ecx
	movzbl	13(%rdi),%edx
	shlb	$4,%cl
	addb	(%rax,%rdx),%cl
	movb	%cl,6(%r8)
	.p2align	5,,6
	jmp	69f
68:
	movq	48(%rsp),%rsi
	subq	%rbp,%rsi
	movq	%r8,%rdx
	movl	%r15d,%r8d
	.p2align	5,,5
	callq	faster_hex_1_0_0_x86_64_v3_codec_pieces_read_long_piece
69:
	xorl	%edi,%edi
	.p2align	5,,6
	jmp	79f
70:
	.p2align	5,,10
	testb	%r8b,%r8b
	je	80f
	movzbl	%r8b,%eax
	cmpl	$1,%eax
	movq	8(%rsp),%rax
	.p2align	5,,6
	jne	83f
	xorl	%ebx,%ebx
73:
	movzbl	128(%rsp),%ecx
	.p2align	5,,10
	cmpb	%cl,(%rsi,%rbx)
	jne	78f
	incq	%rbx
	subq	%r9,%rax
	.p2align	5,,10
	cmpq	%rax,%r9
	jb	73b
	.p2align	5,,6
	jmp	31b
75:
	movq	(%rsp),%rsi
77:
	addq	%rdx,%r14
	movq	%r14,%rbx
78:
	movzbl	(%rsi,%rbx),%edi
	shll	$8,%edi
	orq	$3,%rdi
	movq	%rbx,%r12
79:
	movq	%r12,%rax
	movq	%rdi,%rdx
	addq	$72,%rsp
	hex_cfi	def_cfa_offset 56
	popq	%rbx
	hex_cfi	def_cfa_offset 48
	popq	%r12
	hex_cfi	def_cfa_offset 40
	popq	%r13
	hex_cfi	def_cfa_offset 32
	popq	%r14
	hex_cfi	def_cfa_offset 24
	popq	%r15
	hex_cfi	def_cfa_offset 16
	popq	%rbp
	hex_cfi	def_cfa_offset 8
	.p2align	5,,1
	retq
80:
	hex_cfi	def_cfa_offset 128
	xorl	%ebx,%ebx
	movq	8(%rsp),%rax
81:
	movzbl	128(%rsp),%ecx
	.p2align	5,,10
	cmpb	%cl,(%rsi,%rbx)
	jne	78b
	incq	%rbx
	subq	%r9,%rax
	.p2align	5,,10
	cmpq	%rax,%r9
	jb	81b
	.p2align	5,,6
	jmp	31b
83:
	xorl	%ebx,%ebx
84:
	movzbl	128(%rsp),%ecx
	.p2align	5,,10
	cmpb	%cl,(%rsi,%rbx)
	jne	78b
	incq	%rbx
	subq	%r9,%rax
	.p2align	5,,10
	cmpq	%rax,%r9
	jb	84b
	.p2align	5,,6
	jmp	31b
	hex_end	faster_hex_1_0_0_x86_64_v3_decode_grouped
	hex_cfi	endproc
	hex_export	faster_hex_1_0_0_x86_64_v3_decode_spaced
	hex_cfi	startproc
	endbr64
	pushq	%rbp
	hex_cfi	def_cfa_offset 16
	pushq	%r15
	hex_cfi	def_cfa_offset 24
	pushq	%r14
	hex_cfi	def_cfa_offset 32
	pushq	%r13
	hex_cfi	def_cfa_offset 40
	pushq	%r12
	hex_cfi	def_cfa_offset 48
	pushq	%rbx
	hex_cfi	def_cfa_offset 56
	subq	$56,%rsp
	hex_cfi	def_cfa_offset 112
	hex_cfi	offset %rbx,-56
	hex_cfi	offset %r12,-48
	hex_cfi	offset %r13,-40
	hex_cfi	offset %r14,-32
	hex_cfi	offset %r15,-24
	hex_cfi	offset %rbp,-16
	movl	%r8d,%ebp
	.p2align	5,,10
	cmpb	$2,%bpl
	ja	6f
	movq	%rcx,%r12
	movq	%rsi,%rbx
	movq	%rdi,%r14
	movq	%rdx,24(%rsp)
	vxorps	%xmm0,%xmm0,%xmm0
	vmovaps	%xmm0,(%rsp)
	movq	$0,16(%rsp)
	.p2align	5,,5
	callq	faster_hex_1_0_0_x86_64_v3_codec_spaced_run_len
	movq	%rax,%r13
	andq	$-2,%r13
	.p2align	5,,10
	cmpq	%r13,%rbx
	jbe	7f
	movzbl	(%r14,%r13),%ecx
	xorl	%r15d,%r15d
	.p2align	5,,10
	cmpq	$32,%rcx
	ja	8f
	movabsq	$4294981120,%rdx
	btq	%rcx,%rdx
	.p2align	5,,6
	jae	8f
	orq	$1,%rax
	movl	$1,%r15d
	.p2align	5,,10
	cmpq	%rax,%rbx
	jbe	8f
	movzbl	(%r14,%rax),%eax
	leal	-9(%rax),%ecx
	cmpb	$2,%cl
	setb	%cl
	movl	%eax,%edx
	andb	$-2,%dl
	cmpb	$12,%dl
	sete	%dl
	cmpb	$32,%al
	sete	%al
	orb	%dl,%al
	orb	%cl,%al
	movzbl	%al,%r15d
	incq	%r15
	.p2align	5,,6
	jmp	8f
6:
	movl	$5,%edx
	.p2align	5,,6
	jmp	20f
7:
	xorl	%r15d,%r15d
8:
	movzbl	%bpl,%ebp
	movq	%r14,%rdi
	movq	%rbx,%rsi
	movq	%r13,%rdx
	movq	%r15,%rcx
	movl	%ebp,%r8d
	.p2align	5,,5
	callq	faster_hex_1_0_0_x86_64_v3_codec_spaced_line_count
	movq	%r13,32(%rsp)
	movq	%r15,40(%rsp)
	movq	%rax,48(%rsp)
	leaq	32(%rsp),%rdx
	movq	%r14,%rdi
	movq	%rbx,%rsi
	movl	%ebp,%ecx
	.p2align	5,,5
	callq	faster_hex_1_0_0_x86_64_v3_codec_spaced_survey
	.p2align	5,,10
	testb	$1,%al
	jne	19f
	shrq	%rax
	.p2align	5,,10
	cmpq	%rax,%r12
	jae	11f
10:
	movl	$2,%edx
	.p2align	5,,6
	jmp	21f
11:
	.p2align	5,,10
	cmpb	$1,%dl
	jne	13f
	leaq	32(%rsp),%r8
	movq	%r14,%rdi
	movq	%rbx,%rsi
	movq	24(%rsp),%rdx
	movq	%rax,%rcx
	movl	%ebp,%r9d
	movq	%rax,%rbx
	.p2align	5,,5
	callq	faster_hex_1_0_0_x86_64_v3_codec_spaced_decode_runs
	movq	%rbx,%rax
	xorl	%edx,%edx
	.p2align	5,,6
	jmp	21f
13:
	movq	%rsp,%rdi
	movq	%r14,%rsi
	movq	%rbx,%rdx
	movl	%ebp,%ecx
	.p2align	5,,5
	callq	faster_hex_1_0_0_x86_64_v3_codec_spaced_invalid_error
	movzbl	(%rsp),%ecx
	.p2align	5,,10
	cmpl	$2,%ecx
	jg	17f
	movq	8(%rsp),%rax
	.p2align	5,,10
	testl	%ecx,%ecx
	je	22f
	.p2align	5,,10
	cmpl	$1,%ecx
	je	10b
	.p2align	5,,6
	jmp	18f
17:
	addl	$-4,%ecx
	.p2align	5,,10
	cmpl	$2,%ecx
	jae	19f
18:
	movl	$4,%edx
	.p2align	5,,6
	jmp	20f
19:
	movl	$1,%edx
20:
	xorl	%eax,%eax
21:
	addq	$56,%rsp
	hex_cfi	def_cfa_offset 56
	popq	%rbx
	hex_cfi	def_cfa_offset 48
	popq	%r12
	hex_cfi	def_cfa_offset 40
	popq	%r13
	hex_cfi	def_cfa_offset 32
	popq	%r14
	hex_cfi	def_cfa_offset 24
	popq	%r15
	hex_cfi	def_cfa_offset 16
	popq	%rbp
	hex_cfi	def_cfa_offset 8
	.p2align	5,,1
	retq
22:
	hex_cfi	def_cfa_offset 112
	movq	16(%rsp),%rcx
	shll	$8,%ecx
	movzwl	%cx,%edx
	orq	$3,%rdx
	.p2align	5,,6
	jmp	21b
	hex_end	faster_hex_1_0_0_x86_64_v3_decode_spaced
	hex_cfi	endproc
	hex_merged	32
	.p2align	5,0x0
.L100v3_CPI21_0:
	.zero	32,55
.L100v3_CPI21_1:
	.zero	32,240
	hex_merged	8
	.p2align	3,0x0
.L100v3_CPI21_2:
	.quad	-1085102592571150096
	hex_merged	16
	.p2align	4,0x0
.L100v3_CPI21_3:
	.zero	16,55
.L100v3_CPI21_4:
	.zero	16,240
.L100v3_CPI21_5:
	.byte	1,3,5,7,9,11,13,15,0,0,0,0,0,0,0,0
.L100v3_CPI21_6:
	.byte	55,55,55,55,55,55,55,55,0,0,0,0,0,0,0,0
.L100v3_CPI21_7:
	.byte	240,240,240,240,240,240,240,240,0,0,0,0,0,0,0,0
.L100v3_CPI21_8:
	.short	4097
	.short	4097
	.short	4097
	.short	4097
	.byte	0,0,0,0,0,0,0,0
.L100v3_CPI21_9:
	.byte	1,3,5,7,9,11,13,15,1,3,5,7,9,11,13,15
.L100v3_CPI21_10:
	.byte	55,55,55,55,0,0,0,0,0,0,0,0,0,0,0,0
.L100v3_CPI21_11:
	.byte	240,240,240,240,0,0,0,0,0,0,0,0,0,0,0,0
.L100v3_CPI21_12:
	.short	4097
	.short	4097
	.byte	0,0,0,0,0,0,0,0,0,0,0,0
	hex_merged	4
	.p2align	2,0x0
.L100v3_CPI21_13:
	.zero	4,55
	hex_export	faster_hex_1_0_0_x86_64_v3_decode_with_case
	hex_cfi	startproc
	endbr64
	.p2align	5,,10
	cmpb	$2,%r8b
	ja	1f
	.p2align	5,,10
	testb	$1,%sil
	jne	3f
	movq	%rsi,%rax
	shrq	%rax
	.p2align	5,,10
	cmpq	%rax,%rcx
	jae	6f
	movl	$2,%edx
	.p2align	5,,1
	retq
1:
	movl	$5,%edx
	xorl	%eax,%eax
	.p2align	5,,1
	retq
3:
	movl	$1,%edx
	xorl	%eax,%eax
	.p2align	5,,1
	retq
6:
	.p2align	5,,13
	cmpq	$192,%rsi
	ja	33f
	.p2align	5,,10
	cmpq	$15,%rsi
	ja	18f
	.p2align	5,,10
	cmpq	$2,%rsi
	jae	10f
	xorl	%edx,%edx
	.p2align	5,,1
	retq
18:
	.p2align	5,,10
	cmpq	$32,%rsi
	ja	24f
	.p2align	5,,6
	jne	22f
	vmovdqu	(%rdi),%ymm0
	movzbl	%r8b,%ecx
	leaq	.L100v3_static.0(%rip),%r9
	vpbroadcastb	(%rcx,%r9),%ymm1
	vpsubusb	.L100v3_CPI21_0(%rip),%ymm0,%ymm2
	shll	$4,%ecx
	leaq	.L100v3_static.9(%rip),%r9
	vbroadcasti128	(%rcx,%r9),%ymm3
	vpshufb	%ymm2,%ymm3,%ymm3
	vpsubusb	%ymm2,%ymm3,%ymm2
	vpxor	%ymm0,%ymm1,%ymm0
	vpxor	%ymm0,%ymm2,%ymm0
	vpbroadcastq	.L100v3_CPI21_2(%rip),%ymm1
	vptest	%ymm1,%ymm0
	.p2align	5,,6
	jne	33f
	vpsllw	$12,%ymm0,%ymm1
	vpaddw	%ymm1,%ymm0,%ymm0
	vpsrlw	$8,%ymm0,%ymm0
	vextracti128	$1,%ymm0,%xmm1
	vpackuswb	%xmm1,%xmm0,%xmm0
	vmovdqu	%xmm0,(%rdx)
	movl	$16,%eax
	xorl	%edx,%edx
	vzeroupper
	.p2align	5,,1
	retq
10:
	.p2align	5,,10
	cmpq	$3,%rsi
	ja	13f
	movzwl	(%rdi),%ecx
	vmovd	%ecx,%xmm0
	vpinsrw	$1,-2(%rdi,%rsi),%xmm0,%xmm0
	vpsubusb	.L100v3_CPI21_10(%rip),%xmm0,%xmm1
	movzbl	%r8b,%ecx
	leaq	.L100v3_static.0(%rip),%r9
	vpbroadcastb	(%rcx,%r9),%xmm2
	shll	$4,%ecx
	leaq	.L100v3_static.9(%rip),%r9
	vmovdqu	(%rcx,%r9),%xmm3
	vpshufb	%xmm1,%xmm3,%xmm3
	vpsubusb	%xmm1,%xmm3,%xmm1
	vpxor	%xmm0,%xmm2,%xmm0
	vpxor	%xmm0,%xmm1,%xmm0
	vpand	.L100v3_CPI21_11(%rip),%xmm0,%xmm1
	vmovd	%xmm1,%ecx
	.p2align	5,,10
	testl	%ecx,%ecx
	jne	33f
	vpmullw	.L100v3_CPI21_12(%rip),%xmm0,%xmm0
	vpextrb	$1,%xmm0,(%rdx)
	vpextrb	$3,%xmm0,-1(%rdx,%rax)
	xorl	%edx,%edx
	.p2align	5,,1
	retq
24:
	.p2align	5,,10
	cmpq	$64,%rsi
	ja	27f
	vmovdqu	-32(%rdi,%rsi),%ymm0
	vpbroadcastd	.L100v3_CPI21_13(%rip),%ymm1
	vpsubusb	%ymm1,%ymm0,%ymm2
	movzbl	%r8b,%ecx
	leaq	.L100v3_static.0(%rip),%r9
	vpbroadcastb	(%rcx,%r9),%ymm3
	shll	$4,%ecx
	leaq	.L100v3_static.9(%rip),%r9
	vbroadcasti128	(%rcx,%r9),%ymm4
	vpshufb	%ymm2,%ymm4,%ymm5
	vpsubusb	%ymm2,%ymm5,%ymm2
	vmovdqu	(%rdi),%ymm5
	vpsubusb	%ymm1,%ymm5,%ymm1
	vpshufb	%ymm1,%ymm4,%ymm4
	vpsubusb	%ymm1,%ymm4,%ymm4
	vpxor	%ymm0,%ymm3,%ymm0
	vpxor	%ymm2,%ymm0,%ymm1
	vpxor	%ymm5,%ymm3,%ymm0
	vpxor	%ymm4,%ymm0,%ymm0
	vpor	%ymm1,%ymm0,%ymm2
	vptest	.L100v3_CPI21_1(%rip),%ymm2
	.p2align	5,,6
	jne	33f
	vpsllw	$12,%ymm1,%ymm2
	vpaddw	%ymm2,%ymm1,%ymm1
	vpsllw	$12,%ymm0,%ymm2
	vpaddw	%ymm2,%ymm0,%ymm0
	vpsrlw	$8,%ymm0,%ymm0
	vpsrlw	$8,%ymm1,%ymm1
	vpackuswb	%ymm1,%ymm0,%ymm0
	vpermq	$216,%ymm0,%ymm0
	vmovdqu	%xmm0,(%rdx)
	vextracti128	$1,%ymm0,-16(%rdx,%rax)
	xorl	%edx,%edx
	vzeroupper
	.p2align	5,,1
	retq
22:
	vmovdqu	(%rdi),%xmm0
	vinserti128	$1,-16(%rdi,%rsi),%ymm0,%ymm0
	movzbl	%r8b,%ecx
	leaq	.L100v3_static.0(%rip),%r9
	vpbroadcastb	(%rcx,%r9),%ymm1
	vpsubusb	.L100v3_CPI21_0(%rip),%ymm0,%ymm2
	shll	$4,%ecx
	leaq	.L100v3_static.9(%rip),%r9
	vbroadcasti128	(%rcx,%r9),%ymm3
	vpshufb	%ymm2,%ymm3,%ymm3
	vpsubusb	%ymm2,%ymm3,%ymm2
	vpxor	%ymm0,%ymm1,%ymm0
	vpxor	%ymm0,%ymm2,%ymm0
	vpbroadcastq	.L100v3_CPI21_2(%rip),%ymm1
	vptest	%ymm1,%ymm0
	.p2align	5,,6
	jne	33f
	vpsllw	$12,%ymm0,%ymm1
	vpaddw	%ymm1,%ymm0,%ymm0
	vpsrlw	$8,%ymm0,%ymm0
	vextracti128	$1,%ymm0,%xmm1
	vpackuswb	%xmm1,%xmm0,%xmm0
	vmovq	%xmm0,(%rdx)
	vpextrq	$1,%xmm0,-8(%rdx,%rax)
	xorl	%edx,%edx
	vzeroupper
	.p2align	5,,1
	retq
13:
	movzbl	%r8b,%ecx
	movl	%ecx,%r9d
	shll	$4,%r9d
	leaq	.L100v3_static.9(%rip),%r10
	vmovdqu	(%r9,%r10),%xmm0
	.p2align	5,,10
	cmpq	$7,%rsi
	ja	16f
	vmovd	(%rdi),%xmm1
	vpinsrd	$1,-4(%rdi,%rsi),%xmm1,%xmm1
	vpsubusb	.L100v3_CPI21_6(%rip),%xmm1,%xmm2
	leaq	.L100v3_static.0(%rip),%r9
	vpbroadcastb	(%rcx,%r9),%xmm3
	vpshufb	%xmm2,%xmm0,%xmm0
	vpsubusb	%xmm2,%xmm0,%xmm0
	vpxor	%xmm3,%xmm0,%xmm0
	vpxor	%xmm1,%xmm0,%xmm0
	vpand	.L100v3_CPI21_7(%rip),%xmm0,%xmm1
	vmovq	%xmm1,%rcx
	.p2align	5,,10
	testq	%rcx,%rcx
	jne	33f
	vpmullw	.L100v3_CPI21_8(%rip),%xmm0,%xmm0
	vpshufb	.L100v3_CPI21_9(%rip),%xmm0,%xmm0
	vpextrw	$0,%xmm0,(%rdx)
	vpextrw	$1,%xmm0,-2(%rdx,%rax)
	xorl	%edx,%edx
	.p2align	5,,1
	retq
27:
	movzbl	%r8b,%ecx
	leaq	.L100v3_static.0(%rip),%r9
	vpbroadcastb	(%rcx,%r9),%ymm2
	shll	$4,%ecx
	vmovdqu	(%rdi),%ymm0
	vmovdqu	32(%rdi),%ymm1
	vpbroadcastd	.L100v3_CPI21_13(%rip),%ymm3
	vpsubusb	%ymm3,%ymm1,%ymm5
	vpsubusb	%ymm3,%ymm0,%ymm6
	leaq	.L100v3_static.9(%rip),%r9
	vbroadcasti128	(%rcx,%r9),%ymm4
	vpshufb	%ymm5,%ymm4,%ymm7
	vpsubusb	%ymm5,%ymm7,%ymm5
	vpshufb	%ymm6,%ymm4,%ymm7
	vpsubusb	%ymm6,%ymm7,%ymm6
	vpxor	%ymm2,%ymm1,%ymm1
	vpxor	%ymm1,%ymm5,%ymm1
	vpxor	%ymm2,%ymm0,%ymm0
	vpxor	%ymm0,%ymm6,%ymm0
	.p2align	5,,13
	cmpq	$128,%rsi
	ja	31f
	vmovdqu	-64(%rdi,%rsi),%ymm5
	vmovdqu	-32(%rdi,%rsi),%ymm6
	vpsubusb	%ymm3,%ymm6,%ymm7
	vpsubusb	%ymm3,%ymm5,%ymm3
	vinserti128	$1,%xmm4,%ymm4,%ymm4
	vpshufb	%ymm3,%ymm4,%ymm8
	vpshufb	%ymm7,%ymm4,%ymm4
	vpsubusb	%ymm3,%ymm8,%ymm3
	vpsubusb	%ymm7,%ymm4,%ymm4
	vpxor	%ymm5,%ymm2,%ymm5
	vpxor	%ymm3,%ymm5,%ymm3
	vpxor	%ymm6,%ymm2,%ymm2
	vpxor	%ymm4,%ymm2,%ymm2
	vpor	%ymm1,%ymm2,%ymm4
	vpor	%ymm0,%ymm3,%ymm5
	vpor	%ymm4,%ymm5,%ymm4
	vptest	.L100v3_CPI21_1(%rip),%ymm4
	.p2align	5,,6
	jne	33f
	vpsllw	$12,%ymm1,%ymm4
	vpaddw	%ymm4,%ymm1,%ymm1
	vpsllw	$12,%ymm0,%ymm4
	vpaddw	%ymm4,%ymm0,%ymm0
	vpsrlw	$8,%ymm0,%ymm0
	vpsrlw	$8,%ymm1,%ymm1
	vpackuswb	%ymm1,%ymm0,%ymm0
	vpermq	$216,%ymm0,%ymm0
	vmovdqu	%ymm0,(%rdx)
	.p2align	5,,6
	jmp	30f
16:
	vmovq	-8(%rdi,%rsi),%xmm1
	vmovq	(%rdi),%xmm2
	vpunpcklqdq	%xmm1,%xmm2,%xmm1
	vpsubusb	.L100v3_CPI21_3(%rip),%xmm1,%xmm2
	vpshufb	%xmm2,%xmm0,%xmm0
	vpsubusb	%xmm2,%xmm0,%xmm0
	leaq	.L100v3_static.0(%rip),%r9
	vpbroadcastb	(%rcx,%r9),%xmm2
	vpxor	%xmm1,%xmm2,%xmm1
	vpxor	%xmm1,%xmm0,%xmm0
	vptest	.L100v3_CPI21_4(%rip),%xmm0
	.p2align	5,,6
	jne	33f
	vpsllw	$12,%xmm0,%xmm1
	vpaddw	%xmm1,%xmm0,%xmm0
	vpshufb	.L100v3_CPI21_5(%rip),%xmm0,%xmm0
	vmovd	%xmm0,(%rdx)
	vpextrd	$1,%xmm0,-4(%rdx,%rax)
	xorl	%edx,%edx
	.p2align	5,,1
	retq
31:
	vmovdqu	64(%rdi),%ymm6
	vmovdqu	96(%rdi),%ymm5
	vpsubusb	%ymm3,%ymm5,%ymm7
	vpsubusb	%ymm3,%ymm6,%ymm8
	vinserti128	$1,%xmm4,%ymm4,%ymm9
	vpshufb	%ymm8,%ymm9,%ymm4
	vpshufb	%ymm7,%ymm9,%ymm10
	vpsubusb	%ymm7,%ymm10,%ymm7
	vpsubusb	%ymm8,%ymm4,%ymm4
	vpxor	%ymm5,%ymm2,%ymm5
	vpxor	%ymm7,%ymm5,%ymm5
	vpxor	%ymm6,%ymm2,%ymm6
	vpxor	%ymm4,%ymm6,%ymm4
	vmovdqu	-64(%rdi,%rsi),%ymm6
	vmovdqu	-32(%rdi,%rsi),%ymm7
	vpsubusb	%ymm3,%ymm7,%ymm8
	vpsubusb	%ymm3,%ymm6,%ymm3
	vpshufb	%ymm3,%ymm9,%ymm10
	vpshufb	%ymm8,%ymm9,%ymm9
	vpsubusb	%ymm3,%ymm10,%ymm3
	vpsubusb	%ymm8,%ymm9,%ymm8
	vpxor	%ymm6,%ymm2,%ymm6
	vpxor	%ymm3,%ymm6,%ymm3
	vpxor	%ymm7,%ymm2,%ymm2
	vpxor	%ymm2,%ymm8,%ymm2
	vpor	%ymm0,%ymm4,%ymm6
	vpor	%ymm1,%ymm5,%ymm7
	vpor	%ymm2,%ymm7,%ymm7
	vpor	%ymm3,%ymm6,%ymm6
	vpor	%ymm7,%ymm6,%ymm6
	vptest	.L100v3_CPI21_1(%rip),%ymm6
	.p2align	5,,6
	je	32f
33:
	pushq	%rax
	hex_cfi	def_cfa_offset 16
	movzbl	%r8b,%r8d
	movq	%rax,%rcx
	vzeroupper
	.p2align	5,,5
	callq	faster_hex_1_0_0_x86_64_v3_core_backend_Backend_decode_or_find_outlined
	xorl	%ecx,%ecx
	testw	%dx,%dx
	setne	%cl
	shll	$8,%edx
	movzwl	%dx,%esi
	leaq	(%rcx,%rcx,2),%rdx
	orq	%rsi,%rdx
	addq	$8,%rsp
	hex_cfi	def_cfa_offset 8
	.p2align	5,,1
	retq
32:
	vpsllw	$12,%ymm1,%ymm6
	vpaddw	%ymm6,%ymm1,%ymm1
	vpsllw	$12,%ymm0,%ymm6
	vpaddw	%ymm6,%ymm0,%ymm0
	vpsrlw	$8,%ymm0,%ymm0
	vpsrlw	$8,%ymm1,%ymm1
	vpackuswb	%ymm1,%ymm0,%ymm0
	vpermq	$216,%ymm0,%ymm0
	vmovdqu	%ymm0,(%rdx)
	vpsllw	$12,%ymm5,%ymm0
	vpaddw	%ymm0,%ymm5,%ymm0
	vpsllw	$12,%ymm4,%ymm1
	vpaddw	%ymm1,%ymm4,%ymm1
	vpsrlw	$8,%ymm1,%ymm1
	vpsrlw	$8,%ymm0,%ymm0
	vpackuswb	%ymm0,%ymm1,%ymm0
	vpermq	$216,%ymm0,%ymm0
	vmovdqu	%ymm0,32(%rdx)
30:
	vpsllw	$12,%ymm2,%ymm0
	vpaddw	%ymm0,%ymm2,%ymm0
	vpsllw	$12,%ymm3,%ymm1
	vpaddw	%ymm1,%ymm3,%ymm1
	vpsrlw	$8,%ymm1,%ymm1
	vpsrlw	$8,%ymm0,%ymm0
	vpackuswb	%ymm0,%ymm1,%ymm0
	vpermq	$216,%ymm0,%ymm0
	vmovdqu	%ymm0,-32(%rdx,%rax)
	xorl	%edx,%edx
	vzeroupper
	.p2align	5,,1
	retq
	hex_end	faster_hex_1_0_0_x86_64_v3_decode_with_case
	hex_cfi	endproc
	hex_export	faster_hex_1_0_0_x86_64_v3_first_invalid
	hex_cfi	startproc
	endbr64
	.p2align	5,,10
	cmpb	$2,%dl
	ja	1f
	pushq	%rbx
	hex_cfi	def_cfa_offset 16
	hex_cfi	offset %rbx,-16
	movq	%rdi,%rbx
	movzbl	%dl,%edx
	.p2align	5,,5
	callq	faster_hex_1_0_0_x86_64_v3_core_backend_Backend_first_invalid
	.p2align	5,,10
	testb	%al,%al
	je	4f
	movq	%rdx,%rax
	movzbl	(%rbx,%rdx),%edx
	shll	$8,%edx
	orq	$3,%rdx
	popq	%rbx
	hex_cfi	def_cfa_offset 8
	hex_cfi	restore %rbx
	.p2align	5,,1
	retq
1:
	movl	$5,%edx
	xorl	%eax,%eax
	.p2align	5,,1
	retq
4:
	hex_cfi	def_cfa_offset 16
	hex_cfi	offset %rbx,-16
	xorl	%edx,%edx
	xorl	%eax,%eax
	popq	%rbx
	hex_cfi	def_cfa_offset 8
	hex_cfi	restore %rbx
	.p2align	5,,1
	retq
	hex_end	faster_hex_1_0_0_x86_64_v3_first_invalid
	hex_cfi	endproc
	hex_constant	.L100v3_static.0
.L100v3_static.0:
	.asciz	" \000"
	hex_constant	.L100v3_static.1
.L100v3_static.1:
	.ascii	"aaA"
	hex_constant	.L100v3_static.2
.L100v3_static.2:
	.ascii	"\247\250\251\000\000\000\000\000\000\220\241\242\243\244\245\246\247\250\251\000\000\000\000\000\000\220\221\222\223\224\225\226\247\251\251\000\000\000\000\000\000\221\241\243\243\245\245\247"
	hex_constant	.L100v3_static.3
.L100v3_static.3:
	.ascii	"\240\240\241"
	hex_constant	.L100v3_static.6
.L100v3_static.6:
	.zero	48,255
	.ascii	"\000\001\002\003\004\005\006\007\b\t\377\377\377\377\377\377\377\n\013\f\r\016\017"
	.zero	26,255
	.ascii	"\n\013\f\r\016\017"
	.zero	153,255
	hex_constant	.L100v3_static.7
.L100v3_static.7:
	.zero	48,255
	.ascii	"\000\001\002\003\004\005\006\007\b\t"
	.zero	39,255
	.ascii	"\n\013\f\r\016\017"
	.zero	153,255
	hex_constant	.L100v3_static.8
.L100v3_static.8:
	.zero	48,255
	.ascii	"\000\001\002\003\004\005\006\007\b\t\377\377\377\377\377\377\377\n\013\f\r\016\017"
	.zero	185,255
	hex_constant	.L100v3_static.9
.L100v3_static.9:
	.ascii	"\020\021\022\000\000\000\000\000\000\000ut{vyx012\000\000\000\000\000\000\000\225\224\233\226\231\230012\000\000\000\000\000\000\000UT[VYX"
	hex_merged	8
	.p2align	1,0x0
.L100v3_static.10:
	.asciz	"\001\020\001\020\001\020\000"
	hex_constant	.L100v3_static.14
.L100v3_static.14:
	.ascii	"000102030405060708090A0B0C0D0E0F101112131415161718191A1B1C1D1E1F202122232425262728292A2B2C2D2E2F303132333435363738393A3B3C3D3E3F404142434445464748494A4B4C4D4E4F505152535455565758595A5B5C5D5E5F606162636465666768696A6B6C6D6E6F707172737475767778797A7B7C7D7E7F808182838485868788898A8B8C8D8E8F909192939495969798999A9B9C9D9E9FA0A1A2A3A4A5A6A7A8A9AAABACADAEAFB0B1B2B3B4B5B6B7B8B9BABBBCBDBEBFC0C1C2C3C4C5C6C7C8C9CACBCCCDCECFD0D1D2D3D4D5D6D7D8D9DADBDCDDDEDFE0E1E2E3E4E5E6E7E8E9EAEBECEDEEEFF0F1F2F3F4F5F6F7F8F9FAFBFCFDFEFF"
	hex_constant	.L100v3_static.15
.L100v3_static.15:
	.ascii	"000102030405060708090a0b0c0d0e0f101112131415161718191a1b1c1d1e1f202122232425262728292a2b2c2d2e2f303132333435363738393a3b3c3d3e3f404142434445464748494a4b4c4d4e4f505152535455565758595a5b5c5d5e5f606162636465666768696a6b6c6d6e6f707172737475767778797a7b7c7d7e7f808182838485868788898a8b8c8d8e8f909192939495969798999a9b9c9d9e9fa0a1a2a3a4a5a6a7a8a9aaabacadaeafb0b1b2b3b4b5b6b7b8b9babbbcbdbebfc0c1c2c3c4c5c6c7c8c9cacbcccdcecfd0d1d2d3d4d5d6d7d8d9dadbdcdddedfe0e1e2e3e4e5e6e7e8e9eaebecedeeeff0f1f2f3f4f5f6f7f8f9fafbfcfdfeff"
	hex_addresses	.L100v3_switch.table.faster_hex_1_0_0_x86_64_v3_decode_grouped.48
	.p2align	3,0x0
.L100v3_switch.table.faster_hex_1_0_0_x86_64_v3_decode_grouped.48:
	.quad	.L100v3_static.6
	.quad	.L100v3_static.7
	.quad	.L100v3_static.8
