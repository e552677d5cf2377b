/* Written by scripts/generate: do not edit. */
	hex_merged	64
	.p2align	6,0x0
.L100vbm_CPI0_0:
	.zero	64,240
	hex_merged	4
	.p2align	2,0x0
.L100vbm_CPI0_1:
	.zero	4,240
	hex_function	faster_hex_1_0_0_x86_64_vbmi_core_plain_check_wide_outlined,.text
	hex_cfi	startproc
	cmpq	$512,%rsi
	ja	9f
	movzbl	%dl,%eax
	shll	$6,%eax
	leaq	.L100vbm_static.4(%rip),%rcx
	vmovdqu64	(%rax,%rcx),%zmm0
	vmovdqu64	(%rdi),%zmm1
	vmovdqu64	64(%rdi),%zmm2
	vmovdqu64	128(%rdi),%zmm3
	vmovdqu64	192(%rdi),%zmm4
	vpermb	%zmm0,%zmm1,%zmm5
	vpermb	%zmm0,%zmm2,%zmm6
	vpxorq	%zmm2,%zmm6,%zmm2
	vpternlogq	$246,%zmm1,%zmm5,%zmm2
	vpermb	%zmm0,%zmm3,%zmm1
	vpxorq	%zmm3,%zmm1,%zmm3
	vpermb	%zmm0,%zmm4,%zmm1
	vpxorq	%zmm4,%zmm1,%zmm1
	vpternlogq	$254,%zmm2,%zmm3,%zmm1
	leal	-1(%rsi),%eax
	shrl	$6,%eax
	andl	$3,%eax
	je	2f
	vmovdqu64	256(%rdi),%zmm2
	vpermb	%zmm0,%zmm2,%zmm3
	vpxorq	%zmm2,%zmm3,%zmm2
	cmpl	$1,%eax
	je	6f
	vmovdqu64	320(%rdi),%zmm3
	vpermb	%zmm0,%zmm3,%zmm4
	vpternlogq	$246,%zmm3,%zmm4,%zmm2
	cmpl	$2,%eax
	je	6f
	vmovdqu64	384(%rdi),%zmm3
	vpermb	%zmm0,%zmm3,%zmm4
	vpternlogq	$246,%zmm3,%zmm4,%zmm2
	jmp	6f
9:
	leaq	-64(%rsi),%rax
	movq	%rax,%r8
	shrq	$9,%r8
	movzbl	%dl,%ecx
	je	14f
	movl	%ecx,%edx
	shll	$6,%edx
	leaq	.L100vbm_static.4(%rip),%r9
	vmovdqu64	(%rdx,%r9),%zmm0
	leaq	448(%rdi),%rdx
	.p2align	4
12:
	vmovdqu64	-448(%rdx),%zmm1
	vmovdqu64	-384(%rdx),%zmm2
	vmovdqu64	-320(%rdx),%zmm3
	vmovdqu64	-256(%rdx),%zmm4
	vpermb	%zmm0,%zmm1,%zmm5
	vpermb	%zmm0,%zmm2,%zmm6
	vpxorq	%zmm2,%zmm6,%zmm2
	vpternlogq	$246,%zmm1,%zmm5,%zmm2
	vpermb	%zmm0,%zmm3,%zmm1
	vpxorq	%zmm3,%zmm1,%zmm1
	vpermb	%zmm0,%zmm4,%zmm3
	vpxorq	%zmm4,%zmm3,%zmm3
	vpternlogq	$254,%zmm2,%zmm1,%zmm3
	vmovdqu64	-192(%rdx),%zmm1
	vpermb	%zmm0,%zmm1,%zmm2
	vpxorq	%zmm1,%zmm2,%zmm1
	vmovdqu64	-128(%rdx),%zmm2
	vpermb	%zmm0,%zmm2,%zmm4
	vpxorq	%zmm2,%zmm4,%zmm2
	vpternlogq	$254,%zmm3,%zmm1,%zmm2
	vmovdqu64	-64(%rdx),%zmm1
	vpermb	%zmm0,%zmm1,%zmm3
	vpxorq	%zmm1,%zmm3,%zmm1
	vmovdqu64	(%rdx),%zmm3
	vpermb	%zmm0,%zmm3,%zmm4
	vpxorq	%zmm3,%zmm4,%zmm3
	vpternlogq	$254,%zmm2,%zmm1,%zmm3
	vptestmd	.L100vbm_CPI0_1(%rip){1to16},%zmm3,%k0
	kortestw	%k0,%k0
	jne	13f
	addq	$512,%rdx
	decq	%r8
	jne	12b
14:
	movl	%eax,%r8d
	shrl	$6,%r8d
	andl	$7,%r8d
	xorl	%edx,%edx
	testb	$63,%sil
	setne	%dl
	addq	%r8,%rdx
	je	15f
	movq	%rax,%rsi
	shll	$6,%ecx
	leaq	.L100vbm_static.4(%rip),%r8
	vmovdqu64	(%rcx,%r8),%zmm1
	andq	$-512,%rsi
	vmovdqu64	(%rdi,%rsi),%zmm0
	vpermb	%zmm1,%zmm0,%zmm2
	vpxorq	%zmm0,%zmm2,%zmm0
	cmpq	$1,%rdx
	je	24f
	vmovdqu64	64(%rdi,%rsi),%zmm2
	vpermb	%zmm1,%zmm2,%zmm3
	vpternlogq	$246,%zmm2,%zmm3,%zmm0
	cmpq	$2,%rdx
	je	24f
	vmovdqu64	128(%rdi,%rsi),%zmm2
	vpermb	%zmm1,%zmm2,%zmm3
	vpternlogq	$246,%zmm2,%zmm3,%zmm0
	cmpq	$3,%rdx
	je	24f
	vmovdqu64	192(%rdi,%rsi),%zmm2
	vpermb	%zmm1,%zmm2,%zmm3
	vpternlogq	$246,%zmm2,%zmm3,%zmm0
	cmpq	$4,%rdx
	je	24f
	vmovdqu64	256(%rdi,%rsi),%zmm2
	vpermb	%zmm1,%zmm2,%zmm3
	vpternlogq	$246,%zmm2,%zmm3,%zmm0
	cmpq	$5,%rdx
	je	24f
	vmovdqu64	320(%rdi,%rsi),%zmm2
	vpermb	%zmm1,%zmm2,%zmm3
	vpternlogq	$246,%zmm2,%zmm3,%zmm0
	cmpq	$6,%rdx
	je	24f
	vmovdqu64	384(%rdi,%rsi),%zmm2
	vpermb	%zmm1,%zmm2,%zmm3
	vpternlogq	$246,%zmm2,%zmm3,%zmm0
	cmpq	$7,%rdx
	je	24f
	vmovdqu64	448(%rdi,%rsi),%zmm2
	vpermb	%zmm1,%zmm2,%zmm1
	vpternlogq	$246,%zmm2,%zmm1,%zmm0
	jmp	24f
2:
	vpxor	%xmm2,%xmm2,%xmm2
6:
	vmovdqu64	-64(%rdi,%rsi),%zmm3
	vpermb	%zmm0,%zmm3,%zmm0
	vpxorq	%zmm3,%zmm0,%zmm0
	vpternlogq	$254,%zmm0,%zmm2,%zmm1
	vptestmd	.L100vbm_CPI0_1(%rip){1to16},%zmm1,%k0
	kortestw	%k0,%k0
	sete	%al
	vzeroupper
	retq
13:
	xorl	%eax,%eax
	vzeroupper
	retq
15:
	shll	$6,%ecx
	vpxor	%xmm0,%xmm0,%xmm0
24:
	vmovdqu64	(%rdi,%rax),%zmm1
	leaq	.L100vbm_static.4(%rip),%rax
	vpermb	(%rcx,%rax),%zmm1,%zmm2
	vpternlogq	$222,%zmm1,%zmm0,%zmm2
	vptestmd	.L100vbm_CPI0_1(%rip){1to16},%zmm2,%k0
	kortestw	%k0,%k0
	sete	%al
	vzeroupper
	retq
	hex_end	faster_hex_1_0_0_x86_64_vbmi_core_plain_check_wide_outlined
	hex_cfi	endproc
	hex_merged	64
	.p2align	6,0x0
.L100vbm_CPI1_0:
	.zero	64,240
.L100vbm_CPI1_1:
	.byte	1,3,5,7,9,11,13,15,17,19,21,23,25,27,29,31
	.byte	33,35,37,39,41,43,45,47,49,51,53,55,57,59,61,63
	.byte	65,67,69,71,73,75,77,79,81,83,85,87,89,91,93,95
	.byte	97,99,101,103,105,107,109,111,113,115,117,119,121,123,125,127
	hex_merged	4
	.p2align	2,0x0
.L100vbm_CPI1_2:
	.zero	4,240
	hex_function	faster_hex_1_0_0_x86_64_vbmi_core_backend_Backend_decode_or_find_outlined,.text
	hex_cfi	startproc
	pushq	%rbx
	hex_cfi	def_cfa_offset 16
	hex_cfi	offset %rbx,-16
	cmpq	$193,%rsi
	jb	32f
	movq	%rcx,%rax
	cmpq	$256,%rsi
	ja	5f
	movzbl	%r8b,%ecx
	movl	%ecx,%r9d
	shll	$6,%r9d
	leaq	.L100vbm_static.4(%rip),%r10
	vmovdqu64	(%r9,%r10),%zmm2
	vmovdqu64	(%rdi),%zmm0
	vmovdqu64	64(%rdi),%zmm1
	vpermb	%zmm2,%zmm0,%zmm3
	vpxorq	%zmm0,%zmm3,%zmm0
	vpermb	%zmm2,%zmm1,%zmm3
	vmovdqu64	-128(%rdi,%rsi),%zmm4
	vpxorq	%zmm1,%zmm3,%zmm3
	vmovdqu64	-64(%rdi,%rsi),%zmm5
	vpermb	%zmm2,%zmm4,%zmm1
	vpxorq	%zmm4,%zmm1,%zmm1
	vpermb	%zmm2,%zmm5,%zmm2
	vpxorq	%zmm5,%zmm2,%zmm2
	vporq	%zmm0,%zmm3,%zmm4
	vpternlogq	$254,%zmm1,%zmm2,%zmm4
	vptestmd	.L100vbm_CPI1_2(%rip){1to16},%zmm4,%k0
	kortestw	%k0,%k0
	jne	32f
	leaq	.L100vbm_static.10(%rip),%rsi
	vpbroadcastw	(%rsi,%rcx,2),%zmm4
	vpmullw	%zmm0,%zmm4,%zmm0
	vpmullw	%zmm3,%zmm4,%zmm3
	vmovdqa64	.L100vbm_CPI1_1(%rip),%zmm5
	vpermt2b	%zmm3,%zmm5,%zmm0
	vmovdqu64	%zmm0,(%rdx)
	vpmullw	%zmm1,%zmm4,%zmm0
	vpmullw	%zmm2,%zmm4,%zmm1
	vpermt2b	%zmm1,%zmm5,%zmm0
	vmovdqu64	%zmm0,-64(%rdx,%rax)
4:
	xorl	%edx,%edx
	popq	%rbx
	hex_cfi	def_cfa_offset 8
	vzeroupper
	retq
5:
	hex_cfi	def_cfa_offset 16
	cmpq	$384,%rsi
	ja	10f
	movzbl	%r8b,%ecx
	movl	%ecx,%r9d
	shll	$6,%r9d
	leaq	.L100vbm_static.4(%rip),%r10
	vmovdqu64	(%r9,%r10),%zmm2
	vmovdqu64	-128(%rdi,%rsi),%zmm0
	vmovdqu64	-64(%rdi,%rsi),%zmm1
	vpermb	%zmm2,%zmm0,%zmm3
	vpxorq	%zmm0,%zmm3,%zmm0
	vpermb	%zmm2,%zmm1,%zmm3
	vpxorq	%zmm1,%zmm3,%zmm1
	vporq	%zmm0,%zmm1,%zmm4
	vpbroadcastd	.L100vbm_CPI1_2(%rip),%zmm3
	vptestmd	%zmm3,%zmm4,%k0
	kortestw	%k0,%k0
	jne	32f
	vmovdqu64	(%rdi),%zmm4
	vmovdqu64	64(%rdi),%zmm6
	vmovdqu64	128(%rdi),%zmm7
	vmovdqu64	192(%rdi),%zmm8
	vpermb	%zmm2,%zmm4,%zmm5
	vpxorq	%zmm4,%zmm5,%zmm5
	vpermb	%zmm2,%zmm6,%zmm4
	vpxorq	%zmm6,%zmm4,%zmm6
	vpermb	%zmm2,%zmm7,%zmm4
	vpxorq	%zmm7,%zmm4,%zmm4
	vpermb	%zmm2,%zmm8,%zmm2
	vpxorq	%zmm8,%zmm2,%zmm2
	vporq	%zmm5,%zmm6,%zmm7
	vpternlogq	$254,%zmm4,%zmm2,%zmm7
	vptestmd	%zmm3,%zmm7,%k0
	kortestw	%k0,%k0
	jne	32f
	leaq	.L100vbm_static.10(%rip),%rsi
	vpbroadcastw	(%rsi,%rcx,2),%zmm3
	vpmullw	%zmm5,%zmm3,%zmm5
	vpmullw	%zmm6,%zmm3,%zmm6
	vmovdqa64	.L100vbm_CPI1_1(%rip),%zmm7
	vpermt2b	%zmm6,%zmm7,%zmm5
	vmovdqu64	%zmm5,(%rdx)
	vpmullw	%zmm4,%zmm3,%zmm4
	vpmullw	%zmm2,%zmm3,%zmm2
	vpermt2b	%zmm2,%zmm7,%zmm4
	vmovdqu64	%zmm4,64(%rdx)
	vpmullw	%zmm0,%zmm3,%zmm0
	vpmullw	%zmm1,%zmm3,%zmm1
	vpermt2b	%zmm1,%zmm7,%zmm0
	vmovdqu64	%zmm0,-64(%rdx,%rax)
	xorl	%edx,%edx
	popq	%rbx
	hex_cfi	def_cfa_offset 8
	vzeroupper
	retq
10:
	hex_cfi	def_cfa_offset 16
	cmpq	$512,%rsi
	ja	14f
	movzbl	%r8b,%ecx
	movl	%ecx,%r9d
	shll	$6,%r9d
	leaq	.L100vbm_static.4(%rip),%r10
	vmovdqu64	(%r9,%r10),%zmm4
	vmovdqu64	-256(%rdi,%rsi),%zmm0
	vmovdqu64	-192(%rdi,%rsi),%zmm2
	vmovdqu64	-128(%rdi,%rsi),%zmm5
	vmovdqu64	-64(%rdi,%rsi),%zmm6
	vpermb	%zmm4,%zmm0,%zmm1
	vpxorq	%zmm0,%zmm1,%zmm1
	vpermb	%zmm4,%zmm2,%zmm0
	vpxorq	%zmm2,%zmm0,%zmm3
	vpermb	%zmm4,%zmm5,%zmm0
	vpxorq	%zmm5,%zmm0,%zmm0
	vpermb	%zmm4,%zmm6,%zmm2
	vpxorq	%zmm6,%zmm2,%zmm2
	vporq	%zmm1,%zmm3,%zmm6
	vpternlogq	$254,%zmm0,%zmm2,%zmm6
	vpbroadcastd	.L100vbm_CPI1_2(%rip),%zmm5
	vptestmd	%zmm5,%zmm6,%k0
	kortestw	%k0,%k0
	jne	32f
	vmovdqu64	(%rdi),%zmm6
	vmovdqu64	64(%rdi),%zmm8
	vmovdqu64	128(%rdi),%zmm9
	vmovdqu64	192(%rdi),%zmm10
	vpermb	%zmm4,%zmm6,%zmm7
	vpxorq	%zmm6,%zmm7,%zmm7
	vpermb	%zmm4,%zmm8,%zmm6
	vpxorq	%zmm8,%zmm6,%zmm8
	vpermb	%zmm4,%zmm9,%zmm6
	vpxorq	%zmm9,%zmm6,%zmm6
	vpermb	%zmm4,%zmm10,%zmm4
	vpxorq	%zmm10,%zmm4,%zmm4
	vporq	%zmm7,%zmm8,%zmm9
	vpternlogq	$254,%zmm6,%zmm4,%zmm9
	vptestmd	%zmm5,%zmm9,%k0
	kortestw	%k0,%k0
	jne	32f
	leaq	.L100vbm_static.10(%rip),%rsi
	vpbroadcastw	(%rsi,%rcx,2),%zmm5
	vpmullw	%zmm7,%zmm5,%zmm7
	vpmullw	%zmm8,%zmm5,%zmm8
	vmovdqa64	.L100vbm_CPI1_1(%rip),%zmm9
	vpermt2b	%zmm8,%zmm9,%zmm7
	vmovdqu64	%zmm7,(%rdx)
	vpmullw	%zmm6,%zmm5,%zmm6
	vpmullw	%zmm4,%zmm5,%zmm4
	vpermt2b	%zmm4,%zmm9,%zmm6
	vmovdqu64	%zmm6,64(%rdx)
	vpmullw	%zmm1,%zmm5,%zmm1
	vpmullw	%zmm3,%zmm5,%zmm3
	vpermt2b	%zmm3,%zmm9,%zmm1
	vmovdqu64	%zmm1,-128(%rdx,%rax)
	vpmullw	%zmm0,%zmm5,%zmm0
	vpmullw	%zmm2,%zmm5,%zmm1
	vpermt2b	%zmm1,%zmm9,%zmm0
	vmovdqu64	%zmm0,-64(%rdx,%rax)
	xorl	%edx,%edx
	popq	%rbx
	hex_cfi	def_cfa_offset 8
	vzeroupper
	retq
14:
	hex_cfi	def_cfa_offset 16
	leaq	-64(%rsi),%rcx
	movq	%rcx,%r9
	shrq	$9,%r9
	je	18f
	movzbl	%r8b,%r10d
	shll	$6,%r10d
	leaq	.L100vbm_static.4(%rip),%r11
	vmovdqu64	(%r10,%r11),%zmm0
	leaq	448(%rdi),%r10
	.p2align	4
16:
	vmovdqu64	-448(%r10),%zmm1
	vmovdqu64	-384(%r10),%zmm2
	vmovdqu64	-320(%r10),%zmm3
	vmovdqu64	-256(%r10),%zmm4
	vpermb	%zmm0,%zmm1,%zmm5
	vpermb	%zmm0,%zmm2,%zmm6
	vpxorq	%zmm2,%zmm6,%zmm2
	vpternlogq	$246,%zmm1,%zmm5,%zmm2
	vpermb	%zmm0,%zmm3,%zmm1
	vpternlogq	$222,%zmm3,%zmm2,%zmm1
	vpermb	%zmm0,%zmm4,%zmm2
	vmovdqu64	-192(%r10),%zmm3
	vpternlogq	$222,%zmm4,%zmm1,%zmm2
	vpermb	%zmm0,%zmm3,%zmm1
	vpternlogq	$222,%zmm3,%zmm2,%zmm1
	vmovdqu64	-128(%r10),%zmm2
	vpermb	%zmm0,%zmm2,%zmm3
	vpternlogq	$222,%zmm2,%zmm1,%zmm3
	vmovdqu64	-64(%r10),%zmm1
	vpermb	%zmm0,%zmm1,%zmm2
	vmovdqu64	(%r10),%zmm4
	vpternlogq	$222,%zmm1,%zmm3,%zmm2
	vpermb	%zmm0,%zmm4,%zmm1
	vpternlogq	$222,%zmm4,%zmm2,%zmm1
	vptestmd	.L100vbm_CPI1_2(%rip){1to16},%zmm1,%k0
	kortestw	%k0,%k0
	jne	32f
	addq	$512,%r10
	decq	%r9
	jne	16b
18:
	movl	%ecx,%r10d
	shrl	$6,%r10d
	andl	$7,%r10d
	xorl	%r9d,%r9d
	testb	$63,%sil
	setne	%r9b
	addq	%r10,%r9
	je	27f
	movq	%rcx,%r10
	movzbl	%r8b,%r11d
	shll	$6,%r11d
	leaq	.L100vbm_static.4(%rip),%rbx
	vmovdqu64	(%r11,%rbx),%zmm0
	andq	$-512,%r10
	vmovdqu64	(%rdi,%r10),%zmm1
	vpermb	%zmm0,%zmm1,%zmm2
	vpxorq	%zmm1,%zmm2,%zmm1
	cmpq	$1,%r9
	je	28f
	vmovdqu64	64(%rdi,%r10),%zmm2
	vpermb	%zmm0,%zmm2,%zmm3
	vpternlogq	$246,%zmm2,%zmm3,%zmm1
	cmpq	$2,%r9
	je	28f
	vmovdqu64	128(%rdi,%r10),%zmm2
	vpermb	%zmm0,%zmm2,%zmm3
	vpternlogq	$246,%zmm2,%zmm3,%zmm1
	cmpq	$3,%r9
	je	28f
	vmovdqu64	192(%rdi,%r10),%zmm2
	vpermb	%zmm0,%zmm2,%zmm3
	vpternlogq	$246,%zmm2,%zmm3,%zmm1
	cmpq	$4,%r9
	je	28f
	vmovdqu64	256(%rdi,%r10),%zmm2
	vpermb	%zmm0,%zmm2,%zmm3
	vpternlogq	$246,%zmm2,%zmm3,%zmm1
	cmpq	$5,%r9
	je	28f
	vmovdqu64	320(%rdi,%r10),%zmm2
	vpermb	%zmm0,%zmm2,%zmm3
	vpternlogq	$246,%zmm2,%zmm3,%zmm1
	cmpq	$6,%r9
	je	28f
	vmovdqu64	384(%rdi,%r10),%zmm2
	vpermb	%zmm0,%zmm2,%zmm3
	vpternlogq	$246,%zmm2,%zmm3,%zmm1
	cmpq	$7,%r9
	je	28f
	vmovdqu64	448(%rdi,%r10),%zmm2
	vpermb	%zmm0,%zmm2,%zmm3
	vpternlogq	$246,%zmm2,%zmm3,%zmm1
	jmp	28f
27:
	movzbl	%r8b,%r9d
	shll	$6,%r9d
	leaq	.L100vbm_static.4(%rip),%r10
	vmovdqu64	(%r9,%r10),%zmm0
	vpxor	%xmm1,%xmm1,%xmm1
28:
	vmovdqu64	(%rdi,%rcx),%zmm2
	vpermb	%zmm0,%zmm2,%zmm0
	vpternlogq	$222,%zmm2,%zmm1,%zmm0
	vptestmd	.L100vbm_CPI1_2(%rip){1to16},%zmm0,%k0
	kortestw	%k0,%k0
	jne	32f
	movq	%rax,%rcx
	shrq	$6,%rcx
	je	37f
	vmovdqa64	.L100vbm_static.11(%rip),%zmm0
	movzbl	%r8b,%esi
	leaq	.L100vbm_static.10(%rip),%r9
	vpbroadcastw	(%r9,%rsi,2),%zmm1
	cmpq	$1,%rcx
	jne	33f
	xorl	%esi,%esi
	jmp	36f
32:
	movzbl	%r8b,%edx
	vzeroupper
	callq	faster_hex_1_0_0_x86_64_vbmi_core_backend_Backend_first_invalid_byte
	movzbl	%dl,%edx
	orl	$256,%edx
	popq	%rbx
	hex_cfi	def_cfa_offset 8
	retq
33:
	hex_cfi	def_cfa_offset 16
	movq	%rcx,%r9
	andq	$-2,%r9
	movl	$64,%r10d
	xorl	%esi,%esi
	.p2align	4
34:
	vmovdqu64	-128(%rdi,%r10,2),%zmm2
	vmovdqu64	-64(%rdi,%r10,2),%zmm3
	vpermb	%zmm0,%zmm2,%zmm2
	vpermb	%zmm0,%zmm3,%zmm3
	vpmullw	%zmm2,%zmm1,%zmm2
	vmovdqa64	.L100vbm_CPI1_1(%rip),%zmm4
	vpmullw	%zmm3,%zmm1,%zmm3
	vpermt2b	%zmm3,%zmm4,%zmm2
	vmovdqu64	%zmm2,-64(%rdx,%r10)
	vmovdqu64	(%rdi,%r10,2),%zmm2
	vmovdqu64	64(%rdi,%r10,2),%zmm3
	vpermb	%zmm0,%zmm2,%zmm2
	vpermb	%zmm0,%zmm3,%zmm3
	vpmullw	%zmm2,%zmm1,%zmm2
	vpmullw	%zmm3,%zmm1,%zmm3
	vpermt2b	%zmm3,%zmm4,%zmm2
	vmovdqu64	%zmm2,(%rdx,%r10)
	addq	$2,%rsi
	subq	$-128,%r10
	cmpq	%rsi,%r9
	jne	34b
	testb	$1,%cl
	je	37f
36:
	movq	%rsi,%rcx
	shlq	$7,%rsi
	vmovdqu64	(%rdi,%rsi),%zmm2
	shlq	$6,%rcx
	vmovdqu64	64(%rdi,%rsi),%zmm3
	vpermb	%zmm0,%zmm2,%zmm2
	vpermb	%zmm0,%zmm3,%zmm0
	vpmullw	%zmm2,%zmm1,%zmm2
	vpmullw	%zmm0,%zmm1,%zmm0
	vmovdqa64	.L100vbm_CPI1_1(%rip),%zmm1
	vpermi2b	%zmm0,%zmm2,%zmm1
	vmovdqu64	%zmm1,(%rdx,%rcx)
37:
	movl	%eax,%ecx
	andl	$63,%ecx
	cmpq	$33,%rcx
	jb	39f
	vmovdqa64	.L100vbm_static.11(%rip),%zmm0
	vmovdqu64	-128(%rdi,%rax,2),%zmm1
	vmovdqu64	-64(%rdi,%rax,2),%zmm2
	vpermb	%zmm0,%zmm1,%zmm1
	vpermb	%zmm0,%zmm2,%zmm0
	movzbl	%r8b,%ecx
	leaq	.L100vbm_static.10(%rip),%rsi
	vpbroadcastw	(%rsi,%rcx,2),%zmm2
	vpmullw	%zmm1,%zmm2,%zmm1
	vpmullw	%zmm0,%zmm2,%zmm0
	vmovdqa64	.L100vbm_CPI1_1(%rip),%zmm2
	vpermi2b	%zmm0,%zmm1,%zmm2
	vmovdqu64	%zmm2,-64(%rdx,%rax)
	xorl	%edx,%edx
	popq	%rbx
	hex_cfi	def_cfa_offset 8
	vzeroupper
	retq
39:
	hex_cfi	def_cfa_offset 16
	testq	%rcx,%rcx
	je	4b
	vmovdqu64	-64(%rdi,%rax,2),%zmm0
	vpermb	.L100vbm_static.11(%rip),%zmm0,%zmm0
	vpsllw	$12,%zmm0,%zmm1
	vpaddw	%zmm1,%zmm0,%zmm0
	vpsrlw	$8,%zmm0,%zmm0
	vpmovwb	%zmm0,-32(%rdx,%rax)
	xorl	%edx,%edx
	popq	%rbx
	hex_cfi	def_cfa_offset 8
	vzeroupper
	retq
	hex_end	faster_hex_1_0_0_x86_64_vbmi_core_backend_Backend_decode_or_find_outlined
	hex_cfi	endproc
	hex_merged	8
	.p2align	3,0x0
.L100vbm_CPI2_0:
	.quad	-1085102592571150096
	hex_function	faster_hex_1_0_0_x86_64_vbmi_core_backend_Backend_first_invalid_byte,.text.unlikely
	hex_cfi	startproc
	movzbl	%dl,%ecx
	cmpq	$65,%rsi
	jb	1f
	movq	%rsi,%r8
	shrq	$6,%r8
	movl	%ecx,%eax
	shll	$6,%eax
	leaq	.L100vbm_static.4(%rip),%r9
	vmovdqu64	(%rax,%r9),%zmm0
	xorl	%eax,%eax
	.p2align	4
4:
	vmovdqu	(%rdi,%rax),%ymm1
	vmovdqu	32(%rdi,%rax),%ymm2
	vpermb	%zmm0,%zmm1,%zmm3
	vpermb	%zmm0,%zmm2,%zmm4
	vpxor	%ymm2,%ymm4,%ymm2
	vpternlogq	$246,%ymm1,%ymm3,%ymm2
	vpbroadcastq	.L100vbm_CPI2_0(%rip),%ymm1
	vptest	%ymm1,%ymm2
	jne	6f
	addq	$64,%rax
	decq	%r8
	jne	4b
	movq	%rsi,%rax
	andq	$-64,%rax
	jmp	6f
1:
	xorl	%eax,%eax
6:
	cmpq	%rsi,%rax
	jae	15f
	testb	%dl,%dl
	je	11f
	cmpl	$1,%ecx
	jne	13f
	.p2align	4
9:
	movzbl	(%rdi,%rax),%edx
	leaq	.L100vbm_static.7(%rip),%rcx
	cmpb	$-1,(%rdx,%rcx)
	je	16f
	incq	%rax
	cmpq	%rax,%rsi
	jne	9b
15:
	ud2
	.p2align	4
12:
	incq	%rax
	cmpq	%rax,%rsi
	je	15b
11:
	movzbl	(%rdi,%rax),%edx
	leaq	.L100vbm_static.6(%rip),%rcx
	cmpb	$-1,(%rdx,%rcx)
	jne	12b
	jmp	16f
	.p2align	4
14:
	incq	%rax
	cmpq	%rax,%rsi
	je	15b
13:
	movzbl	(%rdi,%rax),%edx
	leaq	.L100vbm_static.8(%rip),%rcx
	cmpb	$-1,(%rdx,%rcx)
	jne	14b
16:
	vzeroupper
	retq
	hex_end	faster_hex_1_0_0_x86_64_vbmi_core_backend_Backend_first_invalid_byte
	hex_cfi	endproc
	hex_merged	32
	.p2align	5,0x0
.L100vbm_CPI3_0:
	.zero	32,33
	hex_function	faster_hex_1_0_0_x86_64_vbmi_codec_spaced_run_len,.text
	hex_cfi	startproc
	cmpq	$192,%rsi
	movl	$192,%eax
	cmovbq	%rsi,%rax
	xorl	%ecx,%ecx
	testq	%rsi,%rsi
	setne	%cl
	cmpq	$32,%rsi
	jae	1f
	.p2align	4
	cmpq	%rcx,%rax
	je	8f
6:
	cmpb	$33,(%rdi,%rcx)
	jb	7f
	incq	%rcx
	cmpq	%rcx,%rax
	jne	6b
8:
	vzeroupper
	retq
1:
	leaq	-32(%rax),%rdx
	.p2align	4
2:
	cmpq	%rcx,%rdx
	cmovbq	%rdx,%rcx
	vmovdqu	(%rdi,%rcx),%ymm0
	vpcmpltub	.L100vbm_CPI3_0(%rip),%ymm0,%k0
	kortestd	%k0,%k0
	jne	3f
	addq	$32,%rcx
	cmpq	%rax,%rcx
	jb	2b
	jmp	8b
3:
	kmovd	%k0,%edx
	tzcntl	%edx,%edx
	addq	%rdx,%rcx
	cmpq	%rcx,%rax
	cmovaeq	%rcx,%rax
	testq	%rcx,%rcx
	movl	$1,%ecx
	cmoveq	%rcx,%rax
	vzeroupper
	retq
7:
	movq	%rcx,%rax
	retq
	hex_end	faster_hex_1_0_0_x86_64_vbmi_codec_spaced_run_len
	hex_cfi	endproc
	hex_merged	64
	.p2align	6,0x0
.L100vbm_CPI4_0:
	.zero	64,240
	hex_merged	8
	.p2align	3,0x0
.L100vbm_CPI4_1:
	.quad	-1085102592571150096
	hex_merged	16
	.p2align	4,0x0
.L100vbm_CPI4_2:
	.byte	57,57,57,57,57,57,57,57,0,0,0,0,0,0,0,0
.L100vbm_CPI4_3:
	.byte	57,57,57,57,0,0,0,0,0,0,0,0,0,0,0,0
.L100vbm_CPI4_4:
	.byte	57,57,0,0,0,0,0,0,0,0,0,0,0,0,0,0
	hex_merged	4
	.p2align	2,0x0
.L100vbm_CPI4_5:
	.zero	4,57
.L100vbm_CPI4_6:
	.zero	4,240
	hex_function	faster_hex_1_0_0_x86_64_vbmi_codec_spaced_line_count,.text
	hex_cfi	startproc
	pushq	%rbp
	hex_cfi	def_cfa_offset 16
	pushq	%r15
	hex_cfi	def_cfa_offset 24
	pushq	%r14
	hex_cfi	def_cfa_offset 32
	pushq	%r13
	hex_cfi	def_cfa_offset 40
	pushq	%r12
	hex_cfi	def_cfa_offset 48
	pushq	%rbx
	hex_cfi	def_cfa_offset 56
	subq	$40,%rsp
	hex_cfi	def_cfa_offset 96
	hex_cfi	offset %rbx,-56
	hex_cfi	offset %r12,-48
	hex_cfi	offset %r13,-40
	hex_cfi	offset %r14,-32
	hex_cfi	offset %r15,-24
	hex_cfi	offset %rbp,-16
	testq	%rdx,%rdx
	je	4f
	movq	%rdx,%r15
	movq	%rsi,%r12
	cmpq	$33,%rdx
	jae	6f
2:
	leaq	(%rcx,%r15),%r9
	cmpq	%r12,%r9
	ja	4f
	movzbl	%r8b,%edx
	movl	%edx,%r14d
	shll	$6,%r14d
	movl	%edx,%eax
	shll	$4,%eax
	movq	%rax,8(%rsp)
	xorl	%ebx,%ebx
	movq	%rdi,%r13
	movq	%rdi,32(%rsp)
	movq	%rdx,24(%rsp)
	movq	%r9,16(%rsp)
	jmp	12f
	.p2align	4
10:
	movzbl	(%rdi,%r15),%eax
	cmpb	(%r13,%r15),%al
	jne	5f
11:
	incq	%rbx
	addq	%r9,%r13
	subq	%r9,%r12
	cmpq	%r12,%r9
	ja	5f
12:
	cmpq	$32,%r15
	ja	16f
	cmpq	$15,%r15
	ja	19f
	cmpq	$1,%r15
	jne	21f
	movzbl	(%r13),%eax
	leal	-48(%rax),%esi
	xorl	%r10d,%r10d
	subb	$9,%sil
	movzbl	%sil,%r8d
	cmovbl	%r10d,%r8d
	leaq	.L100vbm_static.0(%rip),%rsi
	orb	(%rdx,%rsi),%al
	leaq	.L100vbm_static.1(%rip),%rsi
	subb	(%rdx,%rsi),%al
	subb	$5,%al
	movzbl	%al,%eax
	cmovbl	%r10d,%eax
	cmpb	%al,%r8b
	cmovbl	%r8d,%eax
	testb	%al,%al
	je	31f
	jmp	5f
	.p2align	4
16:
	cmpq	$256,%r15
	ja	20f
	leaq	.L100vbm_static.4(%rip),%rax
	vmovdqu64	(%r14,%rax),%zmm0
	cmpq	$64,%r15
	ja	23f
	vmovdqu	(%r13),%ymm1
	vpermb	%zmm0,%zmm1,%zmm2
	vmovdqu	-32(%r13,%r15),%ymm3
	vpermb	%zmm0,%zmm3,%zmm0
	vpxor	%ymm3,%ymm0,%ymm0
	vpternlogq	$246,%ymm1,%ymm2,%ymm0
	vpbroadcastq	.L100vbm_CPI4_1(%rip),%ymm1
	vptest	%ymm1,%ymm0
	je	31f
	jmp	5f
	.p2align	4
19:
	vmovdqu	(%r13),%xmm0
	leaq	.L100vbm_static.4(%rip),%rax
	vmovdqu64	(%r14,%rax),%zmm1
	vpermb	%zmm1,%zmm0,%zmm2
	vmovdqu	-16(%r13,%r15),%xmm3
	vpermb	%zmm1,%zmm3,%zmm1
	vpxor	%xmm3,%xmm1,%xmm1
	vpternlogq	$246,%xmm0,%xmm2,%xmm1
	vpbroadcastq	.L100vbm_CPI4_1(%rip),%xmm0
	vptest	%xmm0,%xmm1
	je	31f
	jmp	5f
	.p2align	4
20:
	movq	%r13,%rdi
	movq	%r15,%rsi
	movq	%rcx,%rbp
	vzeroupper
	callq	faster_hex_1_0_0_x86_64_vbmi_core_plain_check_wide_outlined
	movq	24(%rsp),%rdx
	movq	%rbp,%rcx
	movq	16(%rsp),%r9
	movq	32(%rsp),%rdi
	testb	%al,%al
	jne	31f
	jmp	5f
21:
	cmpq	$3,%r15
	ja	25f
	movzwl	(%r13),%eax
	vmovd	%eax,%xmm0
	vpbroadcastd	.L100vbm_CPI4_5(%rip),%xmm1
	vpaddb	%xmm1,%xmm0,%xmm2
	leaq	.L100vbm_static.2(%rip),%rax
	movq	8(%rsp),%rsi
	vmovdqu	(%rsi,%rax),%xmm3
	vpshufb	%xmm2,%xmm3,%xmm4
	vpsubb	%xmm0,%xmm4,%xmm0
	vpxor	%xmm2,%xmm0,%xmm0
	movzwl	-2(%r13,%r15),%eax
	vmovd	%eax,%xmm2
	vpaddb	%xmm1,%xmm2,%xmm1
	vpshufb	%xmm1,%xmm3,%xmm3
	vpsubb	%xmm2,%xmm3,%xmm2
	vpxor	%xmm1,%xmm2,%xmm1
	leaq	.L100vbm_static.3(%rip),%rax
	vpbroadcastb	(%rdx,%rax),%xmm2
	vpternlogq	$224,%xmm0,%xmm1,%xmm2
	vmovd	%xmm2,%eax
	testw	%ax,%ax
	je	31f
	jmp	5f
23:
	vmovdqu64	(%r13),%zmm1
	vpermb	%zmm0,%zmm1,%zmm2
	vpxorq	%zmm1,%zmm2,%zmm1
	cmpq	$129,%r15
	jae	27f
	vmovdqu64	-64(%r13,%r15),%zmm2
	vpermb	%zmm0,%zmm2,%zmm0
	vpternlogq	$246,%zmm2,%zmm0,%zmm1
	vptestmd	.L100vbm_CPI4_6(%rip){1to16},%zmm1,%k0
	jmp	30f
25:
	leaq	.L100vbm_static.2(%rip),%rax
	movq	8(%rsp),%rsi
	vmovdqu	(%rsi,%rax),%xmm0
	leaq	.L100vbm_static.3(%rip),%rax
	movzbl	(%rdx,%rax),%eax
	cmpq	$7,%r15
	ja	35f
	vmovd	(%r13),%xmm1
	vpbroadcastd	.L100vbm_CPI4_5(%rip),%xmm2
	vpaddb	%xmm2,%xmm1,%xmm3
	vpshufb	%xmm3,%xmm0,%xmm4
	vpsubb	%xmm1,%xmm4,%xmm1
	vpxor	%xmm3,%xmm1,%xmm1
	vmovd	-4(%r13,%r15),%xmm3
	vpaddb	%xmm2,%xmm3,%xmm2
	vpshufb	%xmm2,%xmm0,%xmm0
	vpsubb	%xmm3,%xmm0,%xmm0
	vpxor	%xmm2,%xmm0,%xmm0
	vpbroadcastb	%eax,%xmm2
	vpternlogq	$224,%xmm1,%xmm0,%xmm2
	vmovd	%xmm2,%eax
	testl	%eax,%eax
	je	31f
	jmp	5f
27:
	vmovdqu64	64(%r13),%zmm2
	vpermb	%zmm0,%zmm2,%zmm3
	vpternlogq	$246,%zmm2,%zmm3,%zmm1
	cmpq	$193,%r15
	jb	29f
	vmovdqu64	-128(%r13,%r15),%zmm2
	vpermb	%zmm0,%zmm2,%zmm3
	vpternlogq	$246,%zmm2,%zmm3,%zmm1
29:
	vmovdqu64	-64(%r13,%r15),%zmm2
	vpermb	%zmm0,%zmm2,%zmm0
	vpxorq	%zmm2,%zmm0,%zmm0
	vporq	%zmm0,%zmm1,%zmm0
	vptestmd	.L100vbm_CPI4_6(%rip){1to16},%zmm0,%k0
30:
	kortestw	%k0,%k0
	jne	5f
	.p2align	4
31:
	testq	%rcx,%rcx
	je	11b
	cmpq	$1,%rcx
	je	10b
	movzbl	(%rdi,%r15),%eax
	cmpb	(%r13,%r15),%al
	jne	5f
	movzbl	1(%rdi,%r15),%eax
	cmpb	1(%r13,%r15),%al
	je	11b
	jmp	5f
35:
	vmovq	(%r13),%xmm1
	vpbroadcastd	.L100vbm_CPI4_5(%rip),%xmm2
	vpaddb	%xmm2,%xmm1,%xmm3
	vpshufb	%xmm3,%xmm0,%xmm4
	vpsubb	%xmm1,%xmm4,%xmm1
	vpxor	%xmm3,%xmm1,%xmm1
	vmovq	-8(%r13,%r15),%xmm3
	vpaddb	%xmm2,%xmm3,%xmm2
	vpshufb	%xmm2,%xmm0,%xmm0
	vpsubb	%xmm3,%xmm0,%xmm0
	vpxor	%xmm2,%xmm0,%xmm0
	vpbroadcastb	%eax,%xmm2
	vpternlogq	$224,%xmm1,%xmm0,%xmm2
	vmovq	%xmm2,%rax
	testq	%rax,%rax
	je	31b
	jmp	5f
6:
	cmpq	$64,%r15
	ja	36f
	leaq	(%rcx,%r15),%rax
	cmpq	%r12,%rax
	ja	4f
	movzbl	%r8b,%esi
	shll	$6,%esi
	leaq	.L100vbm_static.4(%rip),%rdx
	vmovdqu64	(%rsi,%rdx),%zmm0
	xorl	%ebx,%ebx
	movq	%rdi,%rsi
	jmp	42f
	.p2align	4
40:
	movzbl	(%rdi,%r15),%edx
	cmpb	(%rsi,%r15),%dl
	jne	5f
41:
	incq	%rbx
	addq	%rax,%rsi
	subq	%rax,%r12
	cmpq	%r12,%rax
	ja	5f
42:
	vmovdqu	(%rsi),%ymm1
	vpermb	%zmm0,%zmm1,%zmm2
	vmovdqu	-32(%rsi,%r15),%ymm3
	vpermb	%zmm0,%zmm3,%zmm4
	vpxor	%ymm3,%ymm4,%ymm3
	vpternlogq	$246,%ymm1,%ymm2,%ymm3
	vpbroadcastq	.L100vbm_CPI4_1(%rip),%ymm1
	vptest	%ymm1,%ymm3
	jne	5f
	testq	%rcx,%rcx
	je	41b
	cmpq	$1,%rcx
	je	40b
	movzbl	(%rdi,%r15),%edx
	cmpb	(%rsi,%r15),%dl
	jne	5f
	movzbl	1(%rdi,%r15),%edx
	cmpb	1(%rsi,%r15),%dl
	je	41b
	jmp	5f
36:
	cmpq	$96,%r15
	ja	47f
	leaq	(%rcx,%r15),%rax
	cmpq	%r12,%rax
	ja	4f
	movzbl	%r8b,%esi
	shll	$6,%esi
	leaq	.L100vbm_static.4(%rip),%rdx
	vmovdqu64	(%rsi,%rdx),%zmm0
	xorl	%ebx,%ebx
	movq	%rdi,%rsi
	jmp	53f
51:
	movzbl	(%rdi,%r15),%edx
	cmpb	(%rsi,%r15),%dl
	jne	5f
52:
	incq	%rbx
	addq	%rax,%rsi
	subq	%rax,%r12
	cmpq	%r12,%rax
	ja	5f
53:
	vmovdqu64	(%rsi),%zmm1
	vpermb	%zmm0,%zmm1,%zmm2
	vmovdqu64	-64(%rsi,%r15),%zmm3
	vpermb	%zmm0,%zmm3,%zmm4
	vpxorq	%zmm3,%zmm4,%zmm3
	vpternlogq	$246,%zmm1,%zmm2,%zmm3
	vptestmd	.L100vbm_CPI4_6(%rip){1to16},%zmm3,%k0
	kortestw	%k0,%k0
	jne	5f
	testq	%rcx,%rcx
	je	52b
	cmpq	$1,%rcx
	je	51b
	movzbl	(%rdi,%r15),%edx
	cmpb	(%rsi,%r15),%dl
	jne	5f
	movzbl	1(%rdi,%r15),%edx
	cmpb	1(%rsi,%r15),%dl
	je	52b
	jmp	5f
47:
	cmpq	$128,%r15
	ja	2b
	leaq	(%rcx,%r15),%rax
	cmpq	%r12,%rax
	jbe	58f
4:
	xorl	%ebx,%ebx
5:
	movq	%rbx,%rax
	addq	$40,%rsp
	hex_cfi	def_cfa_offset 56
	popq	%rbx
	hex_cfi	def_cfa_offset 48
	popq	%r12
	hex_cfi	def_cfa_offset 40
	popq	%r13
	hex_cfi	def_cfa_offset 32
	popq	%r14
	hex_cfi	def_cfa_offset 24
	popq	%r15
	hex_cfi	def_cfa_offset 16
	popq	%rbp
	hex_cfi	def_cfa_offset 8
	vzeroupper
	retq
58:
	hex_cfi	def_cfa_offset 96
	movzbl	%r8b,%esi
	shll	$6,%esi
	leaq	.L100vbm_static.4(%rip),%rdx
	vmovdqu64	(%rsi,%rdx),%zmm0
	xorl	%ebx,%ebx
	movq	%rdi,%rsi
	jmp	61f
59:
	movzbl	(%rdi,%r15),%edx
	cmpb	(%rsi,%r15),%dl
	jne	5b
60:
	incq	%rbx
	addq	%rax,%rsi
	subq	%rax,%r12
	cmpq	%r12,%rax
	ja	5b
61:
	vmovdqu64	(%rsi),%zmm1
	vpermb	%zmm0,%zmm1,%zmm2
	vmovdqu64	-64(%rsi,%r15),%zmm3
	vpermb	%zmm0,%zmm3,%zmm4
	vpxorq	%zmm3,%zmm4,%zmm3
	vpternlogq	$246,%zmm1,%zmm2,%zmm3
	vptestmd	.L100vbm_CPI4_6(%rip){1to16},%zmm3,%k0
	kortestw	%k0,%k0
	jne	5b
	testq	%rcx,%rcx
	je	60b
	cmpq	$1,%rcx
	je	59b
	movzbl	(%rdi,%r15),%edx
	cmpb	(%rsi,%r15),%dl
	jne	5b
	movzbl	1(%rdi,%r15),%edx
	cmpb	1(%rsi,%r15),%dl
	je	60b
	jmp	5b
	hex_end	faster_hex_1_0_0_x86_64_vbmi_codec_spaced_line_count
	hex_cfi	endproc
	hex_function	faster_hex_1_0_0_x86_64_vbmi_codec_spaced_survey,.text
	hex_cfi	startproc
	pushq	%rbp
	hex_cfi	def_cfa_offset 16
	pushq	%r15
	hex_cfi	def_cfa_offset 24
	pushq	%r14
	hex_cfi	def_cfa_offset 32
	pushq	%r13
	hex_cfi	def_cfa_offset 40
	pushq	%r12
	hex_cfi	def_cfa_offset 48
	pushq	%rbx
	hex_cfi	def_cfa_offset 56
	subq	$40,%rsp
	hex_cfi	def_cfa_offset 96
	hex_cfi	offset %rbx,-56
	hex_cfi	offset %r12,-48
	hex_cfi	offset %r13,-40
	hex_cfi	offset %r14,-32
	hex_cfi	offset %r15,-24
	hex_cfi	offset %rbp,-16
	movq	(%rdx),%r8
	movq	16(%rdx),%rax
	movq	8(%rdx),%r15
	addq	%r8,%r15
	imulq	%rax,%r15
	imulq	%r8,%rax
	movb	$1,%dl
	jmp	15f
	.p2align	4
1:
	movzbl	(%rdi,%r15),%r8d
	cmpq	$32,%r8
	ja	3f
	movabsq	$4294981120,%r9
	btq	%r8,%r9
	jb	14f
3:
	movl	%ecx,12(%rsp)
	movb	%dl,11(%rsp)
	movq	%rax,24(%rsp)
	movq	%rdi,16(%rsp)
	addq	%r15,%rdi
	movq	%rsi,32(%rsp)
	movq	%rsi,%r12
	subq	%r15,%r12
	movq	%rdi,%rbp
	movq	%r12,%rsi
	callq	faster_hex_1_0_0_x86_64_vbmi_codec_spaced_run_len
	movq	%rax,%rbx
	movq	%rax,%r14
	andq	$-2,%r14
	cmpq	%r14,%r12
	jbe	8f
	movq	16(%rsp),%rax
	addq	%r14,%rax
	movzbl	(%r15,%rax),%ecx
	xorl	%r13d,%r13d
	cmpq	$32,%rcx
	movl	12(%rsp),%eax
	ja	9f
	movabsq	$4294981120,%rdx
	btq	%rcx,%rdx
	movq	%rbp,%rdi
	jae	10f
	movq	%rbx,%rcx
	orq	$1,%rcx
	movl	$1,%r13d
	cmpq	%rcx,%r12
	jbe	10f
	addq	16(%rsp),%rcx
	movzbl	(%r15,%rcx),%ecx
	leal	-9(%rcx),%edx
	cmpb	$2,%dl
	setb	%dl
	movl	%ecx,%esi
	andb	$-2,%sil
	cmpb	$12,%sil
	sete	%sil
	cmpb	$32,%cl
	sete	%cl
	orb	%sil,%cl
	orb	%dl,%cl
	movzbl	%cl,%r13d
	incq	%r13
	jmp	10f
8:
	xorl	%r13d,%r13d
	movl	12(%rsp),%eax
9:
	movq	%rbp,%rdi
10:
	movzbl	%al,%ebp
	movq	%r12,%rsi
	movq	%r14,%rdx
	movq	%r13,%rcx
	movq	%rdi,%r12
	movl	%ebp,%r8d
	callq	faster_hex_1_0_0_x86_64_vbmi_codec_spaced_line_count
	testq	%rax,%rax
	je	13f
	movq	%rax,%rcx
	addq	%r14,%r13
	imulq	%rax,%r13
	addq	%r13,%r15
	imulq	%r14,%rcx
	movq	24(%rsp),%rax
	addq	%rcx,%rax
	movq	32(%rsp),%rsi
	cmpq	%rsi,%r15
	movzbl	11(%rsp),%edx
	movl	12(%rsp),%ecx
	movq	16(%rsp),%rdi
	jb	1b
	jmp	16f
13:
	addq	%rbx,%r15
	movq	%r12,%rdi
	movq	%rbx,%rsi
	movl	%ebp,%edx
	callq	faster_hex_1_0_0_x86_64_vbmi_codec_spaced_survey_bytes
	movq	%rax,%rcx
	movl	%edx,%esi
	movq	24(%rsp),%rax
	addq	%rcx,%rax
	movzbl	11(%rsp),%edx
	andb	%sil,%dl
	movq	32(%rsp),%rsi
	cmpq	%rsi,%r15
	movl	12(%rsp),%ecx
	movq	16(%rsp),%rdi
	jb	1b
	jmp	16f
	.p2align	4
14:
	incq	%r15
15:
	cmpq	%rsi,%r15
	jb	1b
16:
	addq	$40,%rsp
	hex_cfi	def_cfa_offset 56
	popq	%rbx
	hex_cfi	def_cfa_offset 48
	popq	%r12
	hex_cfi	def_cfa_offset 40
	popq	%r13
	hex_cfi	def_cfa_offset 32
	popq	%r14
	hex_cfi	def_cfa_offset 24
	popq	%r15
	hex_cfi	def_cfa_offset 16
	popq	%rbp
	hex_cfi	def_cfa_offset 8
	retq
	hex_end	faster_hex_1_0_0_x86_64_vbmi_codec_spaced_survey
	hex_cfi	endproc
	hex_function	faster_hex_1_0_0_x86_64_vbmi_codec_spaced_survey_bytes,.text
	hex_cfi	startproc
	movl	%edx,%ecx
	movb	$1,%dl
	xorl	%eax,%eax
	testq	%rsi,%rsi
	je	32f
	movq	%rsi,%r9
	movq	%rdi,%r10
2:
	incq	%r10
	movl	$1,%r8d
	subq	%r9,%r8
	movq	%r8,%r9
	.p2align	4
3:
	movzbl	-1(%r10),%r11d
	movabsq	$4294981120,%r8
	cmpq	$32,%r11
	ja	6f
	btq	%r11,%r8
	jae	6f
	incq	%r10
	incq	%r9
	cmpq	$1,%r9
	jne	3b
	jmp	7f
6:
	incq	%rax
	negq	%r9
	jb	2b
7:
	cmpb	$2,%cl
	je	16f
	movzbl	%cl,%ecx
	cmpl	$1,%ecx
	jne	23f
	xorl	%ecx,%ecx
	jmp	11f
	.p2align	4
10:
	incq	%rcx
	cmpq	%rcx,%rsi
	je	32f
11:
	movzbl	(%rdi,%rcx),%r9d
	cmpq	$32,%r9
	ja	13f
	btq	%r9,%r8
	jb	10b
13:
	cmpb	$48,%r9b
	jb	31f
	cmpb	$58,%r9b
	setae	%r10b
	addb	$-97,%r9b
	cmpb	$6,%r9b
	setae	%r9b
	testb	%r9b,%r10b
	je	10b
	xorl	%edx,%edx
	retq
16:
	xorl	%ecx,%ecx
	jmp	18f
	.p2align	4
17:
	incq	%rcx
	cmpq	%rcx,%rsi
	je	32f
18:
	movzbl	(%rdi,%rcx),%r9d
	cmpq	$32,%r9
	ja	20f
	btq	%r9,%r8
	jb	17b
20:
	cmpb	$48,%r9b
	jb	31f
	cmpb	$58,%r9b
	setae	%r10b
	addb	$-65,%r9b
	cmpb	$6,%r9b
	setae	%r9b
	testb	%r9b,%r10b
	je	17b
	xorl	%edx,%edx
	retq
23:
	xorl	%ecx,%ecx
	jmp	25f
	.p2align	4
24:
	incq	%rcx
	cmpq	%rcx,%rsi
	je	32f
25:
	movzbl	(%rdi,%rcx),%r9d
	cmpq	$32,%r9
	ja	27f
	btq	%r9,%r8
	jb	24b
27:
	cmpb	$48,%r9b
	jb	31f
	cmpb	$58,%r9b
	jb	24b
	cmpb	$65,%r9b
	jb	31f
	cmpb	$71,%r9b
	setae	%r10b
	addb	$-97,%r9b
	cmpb	$6,%r9b
	setae	%r9b
	testb	%r9b,%r10b
	je	24b
31:
	xorl	%edx,%edx
32:
	retq
	hex_end	faster_hex_1_0_0_x86_64_vbmi_codec_spaced_survey_bytes
	hex_cfi	endproc
	hex_function	faster_hex_1_0_0_x86_64_vbmi_codec_spaced_invalid_error,.text.unlikely
	hex_cfi	startproc
	testq	%rdx,%rdx
	je	23f
	cmpb	$2,%cl
	je	9f
	movzbl	%cl,%eax
	cmpl	$1,%eax
	jne	15f
	xorl	%eax,%eax
	jmp	4f
	.p2align	4
8:
	incq	%rax
	cmpq	%rax,%rdx
	je	23f
4:
	movzbl	(%rsi,%rax),%ecx
	cmpq	$32,%rcx
	ja	6f
	movabsq	$4294981120,%r8
	btq	%rcx,%r8
	jb	8b
6:
	cmpb	$48,%cl
	jb	24f
	cmpb	$58,%cl
	setae	%r8b
	addb	$-97,%cl
	cmpb	$6,%cl
	setae	%cl
	testb	%cl,%r8b
	je	8b
	jmp	24f
9:
	xorl	%eax,%eax
	jmp	10f
	.p2align	4
14:
	incq	%rax
	cmpq	%rax,%rdx
	je	23f
10:
	movzbl	(%rsi,%rax),%ecx
	cmpq	$32,%rcx
	ja	12f
	movabsq	$4294981120,%r8
	btq	%rcx,%r8
	jb	14b
12:
	cmpb	$48,%cl
	jb	24f
	cmpb	$58,%cl
	setae	%r8b
	addb	$-65,%cl
	cmpb	$6,%cl
	setae	%cl
	testb	%cl,%r8b
	je	14b
	jmp	24f
15:
	xorl	%eax,%eax
	jmp	16f
	.p2align	4
22:
	incq	%rax
	cmpq	%rax,%rdx
	je	23f
16:
	movzbl	(%rsi,%rax),%ecx
	cmpq	$32,%rcx
	ja	18f
	movabsq	$4294981120,%r8
	btq	%rcx,%r8
	jb	22b
18:
	cmpb	$48,%cl
	jb	24f
	cmpb	$58,%cl
	jb	22b
	cmpb	$65,%cl
	jb	24f
	cmpb	$71,%cl
	setae	%r8b
	addb	$-97,%cl
	cmpb	$6,%cl
	setae	%cl
	testb	%cl,%r8b
	je	22b
24:
	movzbl	(%rsi,%rax),%ecx
	movq	$0,(%rdi)
	movq	%rax,8(%rdi)
	movb	%cl,16(%rdi)
	movl	$0,17(%rdi)
	movl	$0,20(%rdi)
	retq
23:
	ud2
	hex_end	faster_hex_1_0_0_x86_64_vbmi_codec_spaced_invalid_error
	hex_cfi	endproc
	hex_function	faster_hex_1_0_0_x86_64_vbmi_codec_spaced_decode_runs,.text
	hex_cfi	startproc
	pushq	%rbp
	hex_cfi	def_cfa_offset 16
	pushq	%r15
	hex_cfi	def_cfa_offset 24
	pushq	%r14
	hex_cfi	def_cfa_offset 32
	pushq	%r13
	hex_cfi	def_cfa_offset 40
	pushq	%r12
	hex_cfi	def_cfa_offset 48
	pushq	%rbx
	hex_cfi	def_cfa_offset 56
	subq	$120,%rsp
	hex_cfi	def_cfa_offset 176
	hex_cfi	offset %rbx,-56
	hex_cfi	offset %r12,-48
	hex_cfi	offset %r13,-40
	hex_cfi	offset %r14,-32
	hex_cfi	offset %r15,-24
	hex_cfi	offset %rbp,-16
	movl	%r9d,12(%rsp)
	movq	%rdx,%rcx
	movq	%rsi,%r15
	movq	%rdi,%r12
	movq	16(%r8),%rax
	movq	%rax,64(%rsp)
	vmovups	(%r8),%xmm0
	vmovaps	%xmm0,48(%rsp)
	leaq	48(%rsp),%rdx
	movq	%rcx,40(%rsp)
	movq	%rcx,%rsi
	callq	faster_hex_1_0_0_x86_64_vbmi_codec_spaced_decode_lines
	movq	48(%rsp),%rax
	movq	64(%rsp),%rdx
	movq	56(%rsp),%r14
	addq	%rax,%r14
	imulq	%rdx,%r14
	cmpq	%r15,%r14
	jae	41f
	shrq	%rax
	imulq	%rax,%rdx
	movl	$1,%esi
	subq	%r15,%rsi
2:
	movq	%r14,%rbp
	addq	$2,%r14
	.p2align	4
3:
	movzbl	(%r12,%rbp),%ebx
	movabsq	$4294981120,%r13
	cmpq	$32,%rbx
	ja	6f
	btq	%rbx,%r13
	jae	6f
	incq	%rbp
	incq	%r14
	cmpq	%r15,%rbp
	jb	3b
	jmp	41f
6:
	movq	%rsi,24(%rsp)
	movq	%rdx,32(%rsp)
	leaq	(%r12,%rbp),%rdi
	movq	%r15,%rsi
	subq	%rbp,%rsi
	movq	%rsi,16(%rsp)
	callq	faster_hex_1_0_0_x86_64_vbmi_codec_spaced_run_len
	movq	16(%rsp),%rsi
	movq	%rax,%rdx
	andq	$-2,%rdx
	cmpq	%rdx,%rsi
	jbe	11f
	leaq	(%r12,%rdx),%rcx
	movzbl	(%rbp,%rcx),%edi
	xorl	%ecx,%ecx
	cmpq	$32,%rdi
	ja	12f
	btq	%rdi,%r13
	leaq	(%r12,%rbp),%rdi
	jae	13f
	movq	%rax,%r8
	orq	$1,%r8
	movl	$1,%ecx
	cmpq	%r8,%rsi
	jbe	13f
	addq	%r12,%r8
	movzbl	(%rbp,%r8),%r9d
	leal	-9(%r9),%ecx
	cmpb	$2,%cl
	setb	%cl
	movl	%r9d,%r8d
	andb	$-2,%r8b
	cmpb	$12,%r8b
	sete	%r8b
	cmpb	$32,%r9b
	sete	%r9b
	orb	%r8b,%r9b
	orb	%cl,%r9b
	movzbl	%r9b,%ecx
	incq	%rcx
	jmp	13f
11:
	xorl	%ecx,%ecx
12:
	leaq	(%r12,%rbp),%rdi
13:
	movq	%rcx,88(%rsp)
	movq	%rax,80(%rsp)
	movzbl	12(%rsp),%r8d
	movq	%rdx,16(%rsp)
	callq	faster_hex_1_0_0_x86_64_vbmi_codec_spaced_line_count
	movq	88(%rsp),%r8
	movq	16(%rsp),%rcx
	movq	%rcx,96(%rsp)
	movq	%r8,104(%rsp)
	movq	%rax,112(%rsp)
	testq	%rax,%rax
	je	15f
	movq	%rax,72(%rsp)
	movq	40(%rsp),%rax
	movq	32(%rsp),%rbx
	leaq	(%rax,%rbx),%rsi
	leaq	96(%rsp),%rdx
	leaq	(%r12,%rbp),%rdi
	movq	%rcx,%r14
	movq	%r8,%r13
	callq	faster_hex_1_0_0_x86_64_vbmi_codec_spaced_decode_lines
	movq	%rbx,%rdx
	addq	%r14,%r13
	movq	72(%rsp),%rcx
	imulq	%rcx,%r13
	addq	%rbp,%r13
	movq	80(%rsp),%rax
	shrq	%rax
	imulq	%rcx,%rax
	movq	%r13,%r14
	movq	24(%rsp),%rsi
	addq	%rax,%rdx
	cmpq	%r15,%r14
	jb	2b
	jmp	41f
15:
	leaq	-1(%r15),%rax
	cmpq	%rbp,%rax
	movq	32(%rsp),%rdx
	movq	24(%rsp),%rsi
	je	42f
	.p2align	4
16:
	movzbl	-1(%r12,%r14),%eax
	cmpq	$32,%rax
	ja	19f
	btq	%rax,%r13
	jae	19f
	leaq	(%rsi,%r14),%rax
	incq	%rax
	incq	%r14
	cmpq	$2,%rax
	jne	16b
	jmp	42f
19:
	cmpb	$48,%bl
	jb	42f
	movzbl	-1(%r12,%r14),%eax
	cmpb	$57,%bl
	ja	22f
	addb	$-48,%bl
	jmp	29f
22:
	cmpb	$65,%bl
	jb	42f
	cmpb	$71,%bl
	jae	26f
	cmpb	$1,12(%rsp)
	je	42f
	addb	$-55,%bl
	jmp	29f
26:
	cmpb	$2,12(%rsp)
	je	42f
	leal	-103(%rbx),%ecx
	cmpb	$-6,%cl
	jb	42f
	addb	$-87,%bl
29:
	cmpb	$48,%al
	jb	42f
	cmpb	$57,%al
	ja	32f
	addb	$-48,%al
	jmp	39f
32:
	cmpb	$65,%al
	jb	42f
	cmpb	$71,%al
	jae	36f
	cmpb	$1,12(%rsp)
	je	42f
	addb	$-55,%al
	jmp	39f
36:
	cmpb	$2,12(%rsp)
	je	42f
	leal	-103(%rax),%ecx
	cmpb	$-6,%cl
	jb	42f
	addb	$-87,%al
39:
	shlb	$4,%bl
	addb	%al,%bl
	movq	40(%rsp),%rax
	movb	%bl,(%rax,%rdx)
	movl	$1,%eax
	addq	%rax,%rdx
	cmpq	%r15,%r14
	jb	2b
41:
	addq	$120,%rsp
	hex_cfi	def_cfa_offset 56
	popq	%rbx
	hex_cfi	def_cfa_offset 48
	popq	%r12
	hex_cfi	def_cfa_offset 40
	popq	%r13
	hex_cfi	def_cfa_offset 32
	popq	%r14
	hex_cfi	def_cfa_offset 24
	popq	%r15
	hex_cfi	def_cfa_offset 16
	popq	%rbp
	hex_cfi	def_cfa_offset 8
	retq
42:
	hex_cfi	def_cfa_offset 176
	ud2
	hex_end	faster_hex_1_0_0_x86_64_vbmi_codec_spaced_decode_runs
	hex_cfi	endproc
	hex_merged	32
	.p2align	5,0x0
.L100vbm_CPI9_0:
	.zero	32,79
.L100vbm_CPI9_1:
	.zero	32,201
	hex_merged	16
	.p2align	4,0x0
.L100vbm_CPI9_2:
	.zero	16,79
.L100vbm_CPI9_3:
	.zero	16,201
.L100vbm_CPI9_4:
	.byte	1,3,5,7,9,11,13,15,0,0,0,0,0,0,0,0
.L100vbm_CPI9_5:
	.byte	79,79,79,79,79,79,79,79,0,0,0,0,0,0,0,0
.L100vbm_CPI9_6:
	.byte	201,201,201,201,201,201,201,201,0,0,0,0,0,0,0,0
.L100vbm_CPI9_7:
	.short	4097
	.short	4097
	.short	4097
	.short	4097
	.byte	0,0,0,0,0,0,0,0
.L100vbm_CPI9_8:
	.byte	79,79,79,79,0,0,0,0,0,0,0,0,0,0,0,0
.L100vbm_CPI9_9:
	.byte	201,201,201,201,0,0,0,0,0,0,0,0,0,0,0,0
.L100vbm_CPI9_10:
	.short	4097
	.short	4097
	.byte	0,0,0,0,0,0,0,0,0,0,0,0
.L100vbm_CPI9_14:
	.byte	1,3,5,7,9,11,13,15,0,0,0,0,0,0,0,0
	hex_merged	4
	.p2align	2,0x0
.L100vbm_CPI9_11:
	.zero	4,79
.L100vbm_CPI9_12:
	.zero	4,201
.L100vbm_CPI9_13:
	.short	4097
	.short	4097
	hex_function	faster_hex_1_0_0_x86_64_vbmi_codec_spaced_decode_lines,.text
	hex_lower
	hex_cfi	startproc
	pushq	%rbp
	hex_cfi	def_cfa_offset 16
	pushq	%r15
	hex_cfi	def_cfa_offset 24
	pushq	%r14
	hex_cfi	def_cfa_offset 32
	pushq	%r13
	hex_cfi	def_cfa_offset 40
	pushq	%r12
	hex_cfi	def_cfa_offset 48
	pushq	%rbx
	hex_cfi	def_cfa_offset 56
	hex_cfi	offset %rbx,-56
	hex_cfi	offset %r12,-48
	hex_cfi	offset %r13,-40
	hex_cfi	offset %r14,-32
	hex_cfi	offset %r15,-24
	hex_cfi	offset %rbp,-16
	movq	(%rdx),%rax
	movq	8(%rdx),%r9
	movq	16(%rdx),%rcx
	cmpq	$32,%rax
	jae	1f
27:
	testq	%rcx,%rcx
	je	73f
	cmpq	$2,%rax
	jb	73f
	movq	%rax,%rdx
	shrq	%rdx
	leaq	(%r9,%rax),%rbp
	cmpq	$3,%rax
	ja	36f
	cmpq	$1,%rcx
	jne	32f
	xorl	%r9d,%r9d
	xorl	%r14d,%r14d
	jmp	35f
1:
	cmpq	$64,%rax
	ja	9f
	testq	%rcx,%rcx
	je	73f
	movq	%rax,%rdx
	shrq	%rdx
	vmovdqa64	.L100vbm_static.11(%rip),%zmm0
	cmpq	$1,%rcx
	jne	5f
	xorl	%r13d,%r13d
	xorl	%r8d,%r8d
	jmp	8f
9:
	cmpq	$96,%rax
	ja	19f
	testq	%rcx,%rcx
	je	73f
	movq	%rax,%rdx
	shrq	%rdx
	vmovdqa64	.L100vbm_static.11(%rip),%zmm0
	leaq	-64(,%rdx,2),%r8
	cmpq	$1,%rcx
	jne	13f
	xorl	%r10d,%r10d
	xorl	%r11d,%r11d
	jmp	71f
19:
	cmpq	$128,%rax
	ja	27b
	testq	%rcx,%rcx
	je	73f
	movq	%rax,%rdx
	shrq	%rdx
	vmovdqa64	.L100vbm_static.11(%rip),%zmm0
	addq	%rax,%r9
	movl	%eax,%r8d
	andl	$192,%r8d
	jmp	22f
	.p2align	4
26:
	addq	%rdx,%rsi
	addq	%r9,%rdi
	decq	%rcx
	je	73f
22:
	vmovdqu64	(%rdi),%zmm1
	vpermb	%zmm0,%zmm1,%zmm1
	vpsllw	$12,%zmm1,%zmm2
	vpaddw	%zmm2,%zmm1,%zmm1
	vpsrlw	$8,%zmm1,%zmm1
	vpmovwb	%zmm1,(%rsi)
	cmpl	$64,%r8d
	je	24f
	vmovdqu64	64(%rdi),%zmm1
	vpermb	%zmm0,%zmm1,%zmm1
	vpsllw	$12,%zmm1,%zmm2
	vpaddw	%zmm2,%zmm1,%zmm1
	vpsrlw	$8,%zmm1,%zmm1
	vpmovwb	%zmm1,32(%rsi)
24:
	testb	$62,%al
	je	26b
	vmovdqu64	-64(%rdi,%rdx,2),%zmm1
	vpermb	%zmm0,%zmm1,%zmm1
	vpsllw	$12,%zmm1,%zmm2
	vpaddw	%zmm2,%zmm1,%zmm1
	vpsrlw	$8,%zmm1,%zmm1
	vpmovwb	%zmm1,-32(%rsi,%rdx)
	jmp	26b
36:
	cmpq	$7,%rax
	ja	43f
	cmpq	$1,%rcx
	jne	39f
	xorl	%r9d,%r9d
	xorl	%r14d,%r14d
	jmp	42f
5:
	movq	%rcx,%r10
	andq	$-2,%r10
	leaq	(%rsi,%rdx,2),%r11
	addq	$-16,%r11
	leaq	(%rsi,%rdx),%rbx
	leaq	(%rdi,%rax),%r14
	leaq	(%rax,%rax),%r8
	leaq	(%r8,%r9,2),%r15
	leaq	(%r9,%rax,2),%r8
	leaq	(%rdi,%r8),%r12
	addq	$-32,%r12
	addq	%rax,%r9
	addq	%rdi,%r9
	xorl	%r8d,%r8d
	xorl	%r13d,%r13d
	.p2align	4
6:
	vmovdqu	(%rdi,%r8),%ymm1
	vinserti64x4	$1,-32(%r14,%r8),%zmm1,%zmm1
	vpermb	%zmm0,%zmm1,%zmm1
	vpsllw	$12,%zmm1,%zmm2
	vpaddw	%zmm2,%zmm1,%zmm1
	vpsrlw	$8,%zmm1,%zmm1
	vpmovwb	%zmm1,%ymm1
	vmovdqu	%xmm1,(%rsi,%r13)
	vextracti128	$1,%ymm1,-16(%rbx,%r13)
	vmovdqu	(%r9,%r8),%ymm1
	vinserti64x4	$1,(%r12,%r8),%zmm1,%zmm1
	vpermb	%zmm0,%zmm1,%zmm1
	vpsllw	$12,%zmm1,%zmm2
	vpaddw	%zmm2,%zmm1,%zmm1
	vpsrlw	$8,%zmm1,%zmm1
	vpmovwb	%zmm1,%ymm1
	vmovdqu	%xmm1,(%rbx,%r13)
	vextracti128	$1,%ymm1,(%r11,%r13)
	addq	%rdx,%r13
	addq	%rdx,%r13
	addq	%r15,%r8
	addq	$-2,%r10
	jne	6b
	testb	$1,%cl
	je	73f
8:
	leaq	(%rdi,%r8),%rcx
	leaq	(%rsi,%r13),%r9
	vmovdqu	(%rdi,%r8),%ymm1
	vinserti64x4	$1,-32(%rax,%rcx),%zmm1,%zmm1
	vpermb	%zmm0,%zmm1,%zmm0
	vpsllw	$12,%zmm0,%zmm1
	vpaddw	%zmm1,%zmm0,%zmm0
	vpsrlw	$8,%zmm0,%zmm0
	vpmovwb	%zmm0,%ymm0
	vmovdqu	%xmm0,(%rsi,%r13)
	vextracti128	$1,%ymm0,-16(%rdx,%r9)
	jmp	73f
32:
	movq	%rcx,%r10
	andq	$-2,%r10
	leaq	-1(%rsi),%r11
	leaq	(%rdx,%rdx),%rbx
	leaq	(%rax,%rax),%r8
	leaq	(%r8,%r9,2),%r15
	leaq	(%r9,%rax,2),%r8
	leaq	(%rdi,%r8),%r12
	addq	$-2,%r12
	addq	%rdi,%rbp
	leaq	(%rdi,%rax),%r13
	movq	%rcx,%r9
	shrq	%r9
	imulq	%rdx,%r9
	addq	%r9,%r9
	xorl	%r14d,%r14d
	.p2align	4
33:
	movzwl	(%rdi,%r14),%r8d
	vmovd	%r8d,%xmm0
	vpinsrw	$1,-2(%r13,%r14),%xmm0,%xmm0
	vpbroadcastd	.L100vbm_CPI9_11(%rip),%xmm1
	vpbroadcastd	.L100vbm_CPI9_12(%rip),%xmm2
	vpand	%xmm1,%xmm0,%xmm0
	vpaddb	%xmm2,%xmm0,%xmm3
	vpminub	%xmm3,%xmm0,%xmm0
	vpbroadcastd	.L100vbm_CPI9_13(%rip),%xmm3
	vpmullw	%xmm3,%xmm0,%xmm0
	vpextrb	$1,%xmm0,1(%r11)
	vpextrb	$3,%xmm0,(%r11,%rdx)
	movzwl	(%rbp,%r14),%r8d
	vmovd	%r8d,%xmm0
	vpinsrw	$1,(%r12,%r14),%xmm0,%xmm0
	vpand	%xmm1,%xmm0,%xmm0
	vpaddb	%xmm2,%xmm0,%xmm1
	vpminub	%xmm1,%xmm0,%xmm0
	vpmullw	%xmm3,%xmm0,%xmm0
	vpextrb	$1,%xmm0,1(%r11,%rdx)
	vpextrb	$3,%xmm0,(%r11,%rdx,2)
	addq	%rbx,%r11
	addq	%r15,%r14
	addq	$-2,%r10
	jne	33b
	testb	$1,%cl
	je	73f
35:
	leaq	(%rdi,%r14),%rcx
	movzwl	(%rdi,%r14),%edi
	vmovd	%edi,%xmm0
	vpinsrw	$1,-2(%rax,%rcx),%xmm0,%xmm0
	vpandd	.L100vbm_CPI9_11(%rip){1to4},%xmm0,%xmm0
	leaq	(%rsi,%r9),%rax
	vpaddb	.L100vbm_CPI9_9(%rip),%xmm0,%xmm1
	vpminub	%xmm1,%xmm0,%xmm0
	vpmullw	.L100vbm_CPI9_10(%rip),%xmm0,%xmm0
	vpextrb	$1,%xmm0,(%rsi,%r9)
	vpextrb	$3,%xmm0,-1(%rdx,%rax)
	jmp	73f
43:
	cmpq	$15,%rax
	ja	50f
	cmpq	$1,%rcx
	jne	46f
	xorl	%r9d,%r9d
	xorl	%r14d,%r14d
	jmp	49f
13:
	movq	%rcx,%rbx
	andq	$-2,%rbx
	leaq	(%rdx,%rdx),%r14
	leaq	(%rax,%rax),%r10
	leaq	(%r10,%r9,2),%r15
	addq	%rax,%r9
	leaq	(%r9,%rdx,2),%r10
	leaq	(%rdi,%r10),%r12
	addq	$-64,%r12
	addq	%rdi,%r9
	leaq	(%rdi,%r8),%r13
	xorl	%r11d,%r11d
	xorl	%r10d,%r10d
	movq	%rsi,%rbp
	jmp	18f
	.p2align	4
17:
	addq	%r14,%rbp
	subq	%r14,%r10
	addq	%r15,%r11
	addq	$-2,%rbx
	je	69f
18:
	vmovdqu64	(%rdi,%r11),%zmm1
	vpermb	%zmm0,%zmm1,%zmm1
	vpsllw	$12,%zmm1,%zmm2
	vpaddw	%zmm2,%zmm1,%zmm1
	vpsrlw	$8,%zmm1,%zmm1
	vpmovwb	%zmm1,(%rbp)
	testb	$62,%al
	je	15f
	vmovdqu64	(%r13,%r11),%zmm1
	vpermb	%zmm0,%zmm1,%zmm1
	vpsllw	$12,%zmm1,%zmm2
	vpaddw	%zmm2,%zmm1,%zmm1
	vpsrlw	$8,%zmm1,%zmm1
	vpmovwb	%zmm1,-32(%rbp,%rdx)
15:
	vmovdqu64	(%r9,%r11),%zmm1
	vpermb	%zmm0,%zmm1,%zmm1
	vpsllw	$12,%zmm1,%zmm2
	vpaddw	%zmm2,%zmm1,%zmm1
	vpsrlw	$8,%zmm1,%zmm1
	vpmovwb	%zmm1,(%rbp,%rdx)
	testb	$62,%al
	je	17b
	vmovdqu64	(%r12,%r11),%zmm1
	vpermb	%zmm0,%zmm1,%zmm1
	vpsllw	$12,%zmm1,%zmm2
	vpaddw	%zmm2,%zmm1,%zmm1
	vpsrlw	$8,%zmm1,%zmm1
	vpmovwb	%zmm1,-32(%rbp,%r14)
	jmp	17b
69:
	testb	$1,%cl
	je	73f
	negq	%r10
71:
	vmovdqu64	(%rdi,%r11),%zmm1
	vpermb	%zmm0,%zmm1,%zmm1
	vpsllw	$12,%zmm1,%zmm2
	vpaddw	%zmm2,%zmm1,%zmm1
	vpsrlw	$8,%zmm1,%zmm1
	vpmovwb	%zmm1,(%rsi,%r10)
	testb	$62,%al
	je	73f
	addq	$-32,%rdx
	addq	%r11,%rdi
	addq	%r10,%rsi
	vmovdqu64	(%rdi,%r8),%zmm1
	vpermb	%zmm0,%zmm1,%zmm0
	vpsllw	$12,%zmm0,%zmm1
	vpaddw	%zmm1,%zmm0,%zmm0
	vpsrlw	$8,%zmm0,%zmm0
	vpmovwb	%zmm0,(%rsi,%rdx)
	jmp	73f
39:
	movq	%rcx,%r10
	andq	$-2,%r10
	leaq	-2(%rsi),%r11
	leaq	(%rdx,%rdx),%rbx
	leaq	(%rax,%rax),%r8
	leaq	(%r8,%r9,2),%r15
	leaq	(%r9,%rax,2),%r8
	leaq	(%rdi,%r8),%r12
	addq	$-4,%r12
	addq	%rdi,%rbp
	leaq	(%rdi,%rax),%r13
	movq	%rcx,%r9
	shrq	%r9
	imulq	%rdx,%r9
	addq	%r9,%r9
	xorl	%r14d,%r14d
	.p2align	4
40:
	vmovd	(%rdi,%r14),%xmm0
	vpinsrd	$1,-4(%r13,%r14),%xmm0,%xmm0
	vpbroadcastd	.L100vbm_CPI9_11(%rip),%xmm1
	vpand	%xmm1,%xmm0,%xmm0
	vpbroadcastd	.L100vbm_CPI9_12(%rip),%xmm2
	vpaddb	%xmm2,%xmm0,%xmm3
	vpminub	%xmm3,%xmm0,%xmm0
	vpbroadcastd	.L100vbm_CPI9_13(%rip),%xmm3
	vpmullw	%xmm3,%xmm0,%xmm0
	vmovq	.L100vbm_CPI9_14(%rip),%xmm4
	vpshufb	%xmm4,%xmm0,%xmm0
	vpextrw	$0,%xmm0,2(%r11)
	vpextrw	$1,%xmm0,(%r11,%rdx)
	vmovd	(%rbp,%r14),%xmm0
	vpinsrd	$1,(%r12,%r14),%xmm0,%xmm0
	vpand	%xmm1,%xmm0,%xmm0
	vpaddb	%xmm2,%xmm0,%xmm1
	vpminub	%xmm1,%xmm0,%xmm0
	vpmullw	%xmm3,%xmm0,%xmm0
	vpshufb	%xmm4,%xmm0,%xmm0
	vpextrw	$0,%xmm0,2(%r11,%rdx)
	vpextrw	$1,%xmm0,(%r11,%rdx,2)
	addq	%rbx,%r11
	addq	%r15,%r14
	addq	$-2,%r10
	jne	40b
	testb	$1,%cl
	je	73f
42:
	leaq	(%rdi,%r14),%rcx
	vmovd	(%rdi,%r14),%xmm0
	vpinsrd	$1,-4(%rax,%rcx),%xmm0,%xmm0
	vpandd	.L100vbm_CPI9_11(%rip){1to4},%xmm0,%xmm0
	vpaddb	.L100vbm_CPI9_6(%rip),%xmm0,%xmm1
	leaq	(%rsi,%r9),%rax
	vpminub	%xmm1,%xmm0,%xmm0
	vpmullw	.L100vbm_CPI9_7(%rip),%xmm0,%xmm0
	vpshufb	.L100vbm_CPI9_4(%rip),%xmm0,%xmm0
	vpextrw	$0,%xmm0,(%rsi,%r9)
	vpextrw	$1,%xmm0,-2(%rdx,%rax)
	jmp	73f
50:
	cmpq	$32,%rax
	jae	51f
	cmpq	$1,%rcx
	jne	57f
	xorl	%r9d,%r9d
	xorl	%r14d,%r14d
	jmp	60f
46:
	movq	%rcx,%r10
	andq	$-2,%r10
	leaq	-4(%rsi),%r11
	leaq	(%rdx,%rdx),%rbx
	leaq	(%rax,%rax),%r8
	leaq	(%r8,%r9,2),%r15
	leaq	(%r9,%rax,2),%r8
	leaq	(%rdi,%r8),%r12
	addq	$-8,%r12
	addq	%rdi,%rbp
	leaq	(%rdi,%rax),%r13
	movq	%rcx,%r9
	shrq	%r9
	imulq	%rdx,%r9
	addq	%r9,%r9
	xorl	%r14d,%r14d
	.p2align	4
47:
	vmovq	-8(%r13,%r14),%xmm0
	vmovq	(%rdi,%r14),%xmm1
	vpunpcklqdq	%xmm0,%xmm1,%xmm0
	vpbroadcastd	.L100vbm_CPI9_11(%rip),%xmm1
	vpand	%xmm1,%xmm0,%xmm0
	vpbroadcastd	.L100vbm_CPI9_12(%rip),%xmm2
	vpaddb	%xmm2,%xmm0,%xmm3
	vpminub	%xmm3,%xmm0,%xmm0
	vpsllw	$12,%xmm0,%xmm3
	vpaddw	%xmm3,%xmm0,%xmm0
	vmovq	.L100vbm_CPI9_14(%rip),%xmm3
	vpshufb	%xmm3,%xmm0,%xmm0
	vmovd	%xmm0,4(%r11)
	vpextrd	$1,%xmm0,(%r11,%rdx)
	vmovq	(%r12,%r14),%xmm0
	vmovq	(%rbp,%r14),%xmm4
	vpunpcklqdq	%xmm0,%xmm4,%xmm0
	vpand	%xmm1,%xmm0,%xmm0
	vpaddb	%xmm2,%xmm0,%xmm1
	vpminub	%xmm1,%xmm0,%xmm0
	vpsllw	$12,%xmm0,%xmm1
	vpaddw	%xmm1,%xmm0,%xmm0
	vpshufb	%xmm3,%xmm0,%xmm0
	vmovd	%xmm0,4(%r11,%rdx)
	vpextrd	$1,%xmm0,(%r11,%rdx,2)
	addq	%rbx,%r11
	addq	%r15,%r14
	addq	$-2,%r10
	jne	47b
	testb	$1,%cl
	je	73f
49:
	leaq	(%rdi,%r14),%rcx
	vmovq	(%rdi,%r14),%xmm0
	vmovq	-8(%rax,%rcx),%xmm1
	vpunpcklqdq	%xmm1,%xmm0,%xmm0
	vpandd	.L100vbm_CPI9_11(%rip){1to4},%xmm0,%xmm0
	vpaddb	.L100vbm_CPI9_3(%rip),%xmm0,%xmm1
	vpminub	%xmm1,%xmm0,%xmm0
	vpsllw	$12,%xmm0,%xmm1
	vpaddw	%xmm1,%xmm0,%xmm0
	vpshufb	.L100vbm_CPI9_4(%rip),%xmm0,%xmm0
	leaq	(%rsi,%r9),%rax
	vmovd	%xmm0,(%rsi,%r9)
	vpextrd	$1,%xmm0,-4(%rdx,%rax)
	jmp	73f
51:
	movq	%rbp,.Lhex_below-8(%rsp)
	movq	%rax,%r11
	shrq	$6,%r11
	vmovdqa64	.L100vbm_static.11(%rip),%zmm0
	movl	%r11d,%ebx
	andl	$3,%ebx
	movq	%r11,.Lhex_below-16(%rsp)
	andq	$-4,%r11
	movq	%rbx,.Lhex_below-24(%rsp)
	shll	$5,%ebx
	xorl	%r14d,%r14d
	movq	%rdi,%r15
	movq	%rsi,%r12
	xorl	%r13d,%r13d
	xorl	%ebp,%ebp
	jmp	52f
	.p2align	4
68:
	addq	%rdx,%r13
	movq	.Lhex_below-8(%rsp),%r8
	addq	%r8,%rbp
	incq	%r14
	addq	%rdx,%r12
	addq	%r8,%r15
	cmpq	%rcx,%r14
	je	73f
52:
	cmpq	$0,.Lhex_below-16(%rsp)
	je	66f
	cmpq	$256,%rax
	jae	61f
	xorl	%r10d,%r10d
	jmp	64f
61:
	movl	$96,%r9d
	xorl	%r10d,%r10d
	.p2align	4
62:
	vmovdqu64	-192(%r15,%r9,2),%zmm1
	vpermb	%zmm0,%zmm1,%zmm1
	vpsllw	$12,%zmm1,%zmm2
	vpaddw	%zmm2,%zmm1,%zmm1
	vpsrlw	$8,%zmm1,%zmm1
	vpmovwb	%zmm1,-96(%r12,%r9)
	vmovdqu64	-128(%r15,%r9,2),%zmm1
	vpermb	%zmm0,%zmm1,%zmm1
	vpsllw	$12,%zmm1,%zmm2
	vpaddw	%zmm2,%zmm1,%zmm1
	vpsrlw	$8,%zmm1,%zmm1
	vpmovwb	%zmm1,-64(%r12,%r9)
	vmovdqu64	-64(%r15,%r9,2),%zmm1
	vpermb	%zmm0,%zmm1,%zmm1
	vpsllw	$12,%zmm1,%zmm2
	vpaddw	%zmm2,%zmm1,%zmm1
	vpsrlw	$8,%zmm1,%zmm1
	vpmovwb	%zmm1,-32(%r12,%r9)
	vmovdqu64	(%r15,%r9,2),%zmm1
	vpermb	%zmm0,%zmm1,%zmm1
	vpsllw	$12,%zmm1,%zmm2
	vpaddw	%zmm2,%zmm1,%zmm1
	vpsrlw	$8,%zmm1,%zmm1
	vpmovwb	%zmm1,(%r12,%r9)
	addq	$4,%r10
	subq	$-128,%r9
	cmpq	%r10,%r11
	jne	62b
	cmpq	$0,.Lhex_below-24(%rsp)
	je	66f
64:
	movq	%r10,%r9
	shlq	$6,%r9
	addq	%r15,%r9
	shlq	$5,%r10
	addq	%r12,%r10
	xorl	%r8d,%r8d
	.p2align	4
65:
	vmovdqu64	(%r9,%r8,2),%zmm1
	vpermb	%zmm0,%zmm1,%zmm1
	vpsllw	$12,%zmm1,%zmm2
	vpaddw	%zmm2,%zmm1,%zmm1
	vpsrlw	$8,%zmm1,%zmm1
	vpmovwb	%zmm1,(%r10,%r8)
	addq	$32,%r8
	cmpq	%r8,%rbx
	jne	65b
66:
	testb	$62,%al
	je	68b
	leaq	(%rdi,%rbp),%r8
	leaq	(%rsi,%r13),%r9
	vmovdqu64	-64(%r8,%rdx,2),%zmm1
	vpermb	%zmm0,%zmm1,%zmm1
	vpsllw	$12,%zmm1,%zmm2
	vpaddw	%zmm2,%zmm1,%zmm1
	vpsrlw	$8,%zmm1,%zmm1
	vpmovwb	%zmm1,-32(%r9,%rdx)
	jmp	68b
57:
	movq	%rcx,%r10
	andq	$-2,%r10
	leaq	-8(%rsi),%r11
	leaq	(%rdx,%rdx),%rbx
	leaq	(%rax,%rax),%r8
	leaq	(%r8,%r9,2),%r15
	leaq	(%r9,%rax,2),%r8
	leaq	(%rdi,%r8),%r12
	addq	$-16,%r12
	addq	%rdi,%rbp
	leaq	(%rdi,%rax),%r13
	movq	%rcx,%r9
	shrq	%r9
	imulq	%rdx,%r9
	addq	%r9,%r9
	xorl	%r14d,%r14d
58:
	vmovdqu	(%rdi,%r14),%xmm0
	vinserti128	$1,-16(%r13,%r14),%ymm0,%ymm0
	vpbroadcastd	.L100vbm_CPI9_11(%rip),%ymm1
	vpand	%ymm1,%ymm0,%ymm0
	vpbroadcastd	.L100vbm_CPI9_12(%rip),%ymm2
	vpaddb	%ymm2,%ymm0,%ymm3
	vpminub	%ymm3,%ymm0,%ymm0
	vpsllw	$12,%ymm0,%ymm3
	vpaddw	%ymm3,%ymm0,%ymm0
	vpsrlw	$8,%ymm0,%ymm0
	vpmovwb	%ymm0,%xmm0
	vmovq	%xmm0,8(%r11)
	vpextrq	$1,%xmm0,(%r11,%rdx)
	vmovdqu	(%rbp,%r14),%xmm0
	vinserti128	$1,(%r12,%r14),%ymm0,%ymm0
	vpand	%ymm1,%ymm0,%ymm0
	vpaddb	%ymm2,%ymm0,%ymm1
	vpminub	%ymm1,%ymm0,%ymm0
	vpsllw	$12,%ymm0,%ymm1
	vpaddw	%ymm1,%ymm0,%ymm0
	vpsrlw	$8,%ymm0,%ymm0
	vpmovwb	%ymm0,%xmm0
	vmovq	%xmm0,8(%r11,%rdx)
	vpextrq	$1,%xmm0,(%r11,%rdx,2)
	addq	%rbx,%r11
	addq	%r15,%r14
	addq	$-2,%r10
	jne	58b
	testb	$1,%cl
	je	73f
60:
	leaq	(%rdi,%r14),%rcx
	vmovdqu	(%rdi,%r14),%xmm0
	vinserti128	$1,-16(%rax,%rcx),%ymm0,%ymm0
	vpandd	.L100vbm_CPI9_11(%rip){1to8},%ymm0,%ymm0
	vpaddb	.L100vbm_CPI9_1(%rip),%ymm0,%ymm1
	vpminub	%ymm1,%ymm0,%ymm0
	vpsllw	$12,%ymm0,%ymm1
	vpaddw	%ymm1,%ymm0,%ymm0
	vpsrlw	$8,%ymm0,%ymm0
	vpmovwb	%ymm0,%xmm0
	leaq	(%rsi,%r9),%rax
	vmovq	%xmm0,(%rsi,%r9)
	vpextrq	$1,%xmm0,-8(%rdx,%rax)
73:
	popq	%rbx
	hex_cfi	def_cfa_offset 48
	popq	%r12
	hex_cfi	def_cfa_offset 40
	popq	%r13
	hex_cfi	def_cfa_offset 32
	popq	%r14
	hex_cfi	def_cfa_offset 24
	popq	%r15
	hex_cfi	def_cfa_offset 16
	popq	%rbp
	hex_cfi	def_cfa_offset 8
	vzeroupper
	hex_raise
	retq
	hex_end	faster_hex_1_0_0_x86_64_vbmi_codec_spaced_decode_lines
	hex_cfi	endproc
	hex_merged	64
	.p2align	6,0x0
.L100vbm_CPI10_0:
	.zero	64,240
	hex_merged	8
	.p2align	3,0x0
.L100vbm_CPI10_1:
	.quad	-1085102592571150096
	hex_merged	16
	.p2align	4,0x0
.L100vbm_CPI10_2:
	.byte	57,57,57,57,57,57,57,57,0,0,0,0,0,0,0,0
.L100vbm_CPI10_3:
	.byte	167,168,169,0,0,0,0,0,0,144,161,162,163,164,165,166
.L100vbm_CPI10_4:
	.byte	160,160,160,160,160,160,160,160,0,0,0,0,0,0,0,0
.L100vbm_CPI10_5:
	.byte	57,57,57,57,0,0,0,0,0,0,0,0,0,0,0,0
.L100vbm_CPI10_6:
	.byte	160,160,160,160,0,0,0,0,0,0,0,0,0,0,0,0
.L100vbm_CPI10_7:
	.byte	57,57,0,0,0,0,0,0,0,0,0,0,0,0,0,0
.L100vbm_CPI10_8:
	.byte	160,160,0,0,0,0,0,0,0,0,0,0,0,0,0,0
	hex_merged	4
	.p2align	2,0x0
.L100vbm_CPI10_9:
	.zero	4,240
.L100vbm_CPI10_10:
	.zero	4,57
.L100vbm_CPI10_11:
	.zero	4,160
	hex_export	faster_hex_1_0_0_x86_64_vbmi_check
	hex_cfi	startproc
	endbr64
	cmpq	$32,%rsi
	ja	12f
	cmpq	$15,%rsi
	ja	11f
	testq	%rsi,%rsi
	je	3f
	cmpq	$1,%rsi
	jne	6f
	movzbl	(%rdi),%eax
	leal	-48(%rax),%ecx
	xorl	%edx,%edx
	subb	$9,%cl
	movzbl	%cl,%ecx
	cmovbl	%edx,%ecx
	orb	$32,%al
	addb	$-97,%al
	subb	$5,%al
	movzbl	%al,%eax
	cmovbl	%edx,%eax
	cmpb	%al,%cl
	cmovbl	%ecx,%eax
	testb	%al,%al
	sete	%al
	retq
12:
	cmpq	$256,%rsi
	ja	21f
	cmpq	$64,%rsi
	ja	15f
	vmovdqu	(%rdi),%ymm0
	vmovdqa64	.L100vbm_static.4(%rip),%zmm1
	vpermb	%zmm1,%zmm0,%zmm2
	vmovdqu	-32(%rdi,%rsi),%ymm3
	vpermb	%zmm1,%zmm3,%zmm1
	vpxor	%ymm3,%ymm1,%ymm1
	vpternlogq	$246,%ymm0,%ymm2,%ymm1
	vpbroadcastq	.L100vbm_CPI10_1(%rip),%ymm0
	vptest	%ymm0,%ymm1
	sete	%al
	vzeroupper
	retq
11:
	vmovdqu	(%rdi),%xmm0
	vmovdqa64	.L100vbm_static.4(%rip),%zmm1
	vpermb	%zmm1,%zmm0,%zmm2
	vmovdqu	-16(%rdi,%rsi),%xmm3
	vpermb	%zmm1,%zmm3,%zmm1
	vpxor	%xmm3,%xmm1,%xmm1
	vpternlogq	$246,%xmm0,%xmm2,%xmm1
	vpbroadcastq	.L100vbm_CPI10_1(%rip),%xmm0
	vptest	%xmm0,%xmm1
	sete	%al
	vzeroupper
	retq
21:
	pushq	%rax
	hex_cfi	def_cfa_offset 16
	xorl	%edx,%edx
	callq	faster_hex_1_0_0_x86_64_vbmi_core_plain_check_wide_outlined
	addq	$8,%rsp
	hex_cfi	def_cfa_offset 8
	retq
15:
	vmovdqu64	(%rdi),%zmm0
	vmovdqa64	.L100vbm_static.4(%rip),%zmm1
	vpermb	%zmm1,%zmm0,%zmm2
	vpxorq	%zmm0,%zmm2,%zmm0
	cmpq	$128,%rsi
	ja	17f
	vmovdqu64	-64(%rdi,%rsi),%zmm2
	vpermb	%zmm1,%zmm2,%zmm1
	vpternlogq	$246,%zmm2,%zmm1,%zmm0
	vptestmd	.L100vbm_CPI10_9(%rip){1to16},%zmm0,%k0
	kortestw	%k0,%k0
	sete	%al
	vzeroupper
	retq
3:
	movb	$1,%al
	retq
6:
	cmpq	$3,%rsi
	ja	8f
	movzwl	(%rdi),%eax
	vpbroadcastd	.L100vbm_CPI10_10(%rip),%xmm0
	vmovd	%eax,%xmm1
	vpaddb	%xmm0,%xmm1,%xmm2
	vmovdqa	.L100vbm_CPI10_3(%rip),%xmm3
	vpshufb	%xmm2,%xmm3,%xmm4
	vpsubb	%xmm1,%xmm4,%xmm1
	vpxor	%xmm2,%xmm1,%xmm1
	movzwl	-2(%rdi,%rsi),%eax
	vmovd	%eax,%xmm2
	vpaddb	%xmm0,%xmm2,%xmm0
	vpshufb	%xmm0,%xmm3,%xmm3
	vpsubb	%xmm2,%xmm3,%xmm2
	vpxor	%xmm0,%xmm2,%xmm0
	vpternlogd	$168,.L100vbm_CPI10_11(%rip){1to4},%xmm1,%xmm0
	vmovd	%xmm0,%eax
	testw	%ax,%ax
	sete	%al
	retq
17:
	vmovdqu64	64(%rdi),%zmm3
	vpermb	%zmm1,%zmm3,%zmm4
	vmovdqu64	-64(%rdi,%rsi),%zmm2
	vpermb	%zmm1,%zmm2,%zmm5
	vpxorq	%zmm2,%zmm5,%zmm2
	vpternlogq	$246,%zmm3,%zmm4,%zmm0
	cmpq	$193,%rsi
	jb	19f
	vmovdqu64	-128(%rdi,%rsi),%zmm3
	vpermb	%zmm1,%zmm3,%zmm1
	vpternlogq	$246,%zmm3,%zmm1,%zmm0
19:
	vporq	%zmm2,%zmm0,%zmm0
	vptestmd	.L100vbm_CPI10_9(%rip){1to16},%zmm0,%k0
	kortestw	%k0,%k0
	sete	%al
	vzeroupper
	retq
8:
	cmpq	$7,%rsi
	ja	10f
	vmovd	(%rdi),%xmm0
	vpbroadcastd	.L100vbm_CPI10_10(%rip),%xmm1
	vpaddb	%xmm1,%xmm0,%xmm2
	vmovdqa	.L100vbm_CPI10_3(%rip),%xmm3
	vpshufb	%xmm2,%xmm3,%xmm4
	vpsubb	%xmm0,%xmm4,%xmm0
	vpxor	%xmm2,%xmm0,%xmm0
	vmovd	-4(%rdi,%rsi),%xmm2
	vpaddb	%xmm1,%xmm2,%xmm1
	vpshufb	%xmm1,%xmm3,%xmm3
	vpsubb	%xmm2,%xmm3,%xmm2
	vpxor	%xmm1,%xmm2,%xmm1
	vpternlogd	$168,.L100vbm_CPI10_11(%rip){1to4},%xmm0,%xmm1
	vmovd	%xmm1,%eax
	testl	%eax,%eax
	sete	%al
	retq
10:
	vmovq	(%rdi),%xmm0
	vpbroadcastd	.L100vbm_CPI10_10(%rip),%xmm1
	vpaddb	%xmm1,%xmm0,%xmm2
	vmovdqa	.L100vbm_CPI10_3(%rip),%xmm3
	vpshufb	%xmm2,%xmm3,%xmm4
	vpsubb	%xmm0,%xmm4,%xmm0
	vpxor	%xmm2,%xmm0,%xmm0
	vmovq	-8(%rdi,%rsi),%xmm2
	vpaddb	%xmm1,%xmm2,%xmm1
	vpshufb	%xmm1,%xmm3,%xmm3
	vpsubb	%xmm2,%xmm3,%xmm2
	vpxor	%xmm1,%xmm2,%xmm1
	vpternlogd	$168,.L100vbm_CPI10_11(%rip){1to4},%xmm0,%xmm1
	vmovq	%xmm1,%rax
	testq	%rax,%rax
	sete	%al
	retq
	hex_end	faster_hex_1_0_0_x86_64_vbmi_check
	hex_cfi	endproc
	hex_merged	64
	.p2align	6,0x0
.L100vbm_CPI11_0:
	.zero	64,240
	hex_merged	8
	.p2align	3,0x0
.L100vbm_CPI11_1:
	.quad	-1085102592571150096
	hex_merged	16
	.p2align	4,0x0
.L100vbm_CPI11_2:
	.byte	57,57,57,57,57,57,57,57,0,0,0,0,0,0,0,0
.L100vbm_CPI11_3:
	.byte	167,168,169,0,0,0,0,0,0,144,145,146,147,148,149,150
.L100vbm_CPI11_4:
	.byte	160,160,160,160,160,160,160,160,0,0,0,0,0,0,0,0
.L100vbm_CPI11_5:
	.byte	57,57,57,57,0,0,0,0,0,0,0,0,0,0,0,0
.L100vbm_CPI11_6:
	.byte	160,160,160,160,0,0,0,0,0,0,0,0,0,0,0,0
.L100vbm_CPI11_7:
	.byte	57,57,0,0,0,0,0,0,0,0,0,0,0,0,0,0
.L100vbm_CPI11_8:
	.byte	160,160,0,0,0,0,0,0,0,0,0,0,0,0,0,0
	hex_merged	4
	.p2align	2,0x0
.L100vbm_CPI11_9:
	.zero	4,240
.L100vbm_CPI11_10:
	.zero	4,57
.L100vbm_CPI11_11:
	.zero	4,160
	hex_export	faster_hex_1_0_0_x86_64_vbmi_check_lower
	hex_cfi	startproc
	endbr64
	cmpq	$32,%rsi
	ja	12f
	cmpq	$15,%rsi
	ja	11f
	testq	%rsi,%rsi
	je	3f
	cmpq	$1,%rsi
	jne	6f
	movzbl	(%rdi),%eax
	leal	-48(%rax),%ecx
	xorl	%edx,%edx
	subb	$9,%cl
	movzbl	%cl,%ecx
	cmovbl	%edx,%ecx
	addb	$-97,%al
	subb	$5,%al
	movzbl	%al,%eax
	cmovbl	%edx,%eax
	cmpb	%al,%cl
	cmovbl	%ecx,%eax
	testb	%al,%al
	sete	%al
	retq
12:
	cmpq	$256,%rsi
	ja	21f
	cmpq	$64,%rsi
	ja	15f
	vmovdqu	(%rdi),%ymm0
	vmovdqa64	.L100vbm_static.4+64(%rip),%zmm1
	vpermb	%zmm1,%zmm0,%zmm2
	vmovdqu	-32(%rdi,%rsi),%ymm3
	vpermb	%zmm1,%zmm3,%zmm1
	vpxor	%ymm3,%ymm1,%ymm1
	vpternlogq	$246,%ymm0,%ymm2,%ymm1
	vpbroadcastq	.L100vbm_CPI11_1(%rip),%ymm0
	vptest	%ymm0,%ymm1
	sete	%al
	vzeroupper
	retq
11:
	vmovdqu	(%rdi),%xmm0
	vmovdqa64	.L100vbm_static.4+64(%rip),%zmm1
	vpermb	%zmm1,%zmm0,%zmm2
	vmovdqu	-16(%rdi,%rsi),%xmm3
	vpermb	%zmm1,%zmm3,%zmm1
	vpxor	%xmm3,%xmm1,%xmm1
	vpternlogq	$246,%xmm0,%xmm2,%xmm1
	vpbroadcastq	.L100vbm_CPI11_1(%rip),%xmm0
	vptest	%xmm0,%xmm1
	sete	%al
	vzeroupper
	retq
21:
	pushq	%rax
	hex_cfi	def_cfa_offset 16
	movl	$1,%edx
	callq	faster_hex_1_0_0_x86_64_vbmi_core_plain_check_wide_outlined
	addq	$8,%rsp
	hex_cfi	def_cfa_offset 8
	retq
15:
	vmovdqu64	(%rdi),%zmm0
	vmovdqa64	.L100vbm_static.4+64(%rip),%zmm1
	vpermb	%zmm1,%zmm0,%zmm2
	vpxorq	%zmm0,%zmm2,%zmm0
	cmpq	$128,%rsi
	ja	17f
	vmovdqu64	-64(%rdi,%rsi),%zmm2
	vpermb	%zmm1,%zmm2,%zmm1
	vpternlogq	$246,%zmm2,%zmm1,%zmm0
	vptestmd	.L100vbm_CPI11_9(%rip){1to16},%zmm0,%k0
	kortestw	%k0,%k0
	sete	%al
	vzeroupper
	retq
3:
	movb	$1,%al
	retq
6:
	cmpq	$3,%rsi
	ja	8f
	movzwl	(%rdi),%eax
	vpbroadcastd	.L100vbm_CPI11_10(%rip),%xmm0
	vmovd	%eax,%xmm1
	vpaddb	%xmm0,%xmm1,%xmm2
	vmovdqa	.L100vbm_CPI11_3(%rip),%xmm3
	vpshufb	%xmm2,%xmm3,%xmm4
	vpsubb	%xmm1,%xmm4,%xmm1
	vpxor	%xmm2,%xmm1,%xmm1
	movzwl	-2(%rdi,%rsi),%eax
	vmovd	%eax,%xmm2
	vpaddb	%xmm0,%xmm2,%xmm0
	vpshufb	%xmm0,%xmm3,%xmm3
	vpsubb	%xmm2,%xmm3,%xmm2
	vpxor	%xmm0,%xmm2,%xmm0
	vpternlogd	$168,.L100vbm_CPI11_11(%rip){1to4},%xmm1,%xmm0
	vmovd	%xmm0,%eax
	testw	%ax,%ax
	sete	%al
	retq
17:
	vmovdqu64	64(%rdi),%zmm3
	vpermb	%zmm1,%zmm3,%zmm4
	vmovdqu64	-64(%rdi,%rsi),%zmm2
	vpermb	%zmm1,%zmm2,%zmm5
	vpxorq	%zmm2,%zmm5,%zmm2
	vpternlogq	$246,%zmm3,%zmm4,%zmm0
	cmpq	$193,%rsi
	jb	19f
	vmovdqu64	-128(%rdi,%rsi),%zmm3
	vpermb	%zmm1,%zmm3,%zmm1
	vpternlogq	$246,%zmm3,%zmm1,%zmm0
19:
	vporq	%zmm2,%zmm0,%zmm0
	vptestmd	.L100vbm_CPI11_9(%rip){1to16},%zmm0,%k0
	kortestw	%k0,%k0
	sete	%al
	vzeroupper
	retq
8:
	cmpq	$7,%rsi
	ja	10f
	vmovd	(%rdi),%xmm0
	vpbroadcastd	.L100vbm_CPI11_10(%rip),%xmm1
	vpaddb	%xmm1,%xmm0,%xmm2
	vmovdqa	.L100vbm_CPI11_3(%rip),%xmm3
	vpshufb	%xmm2,%xmm3,%xmm4
	vpsubb	%xmm0,%xmm4,%xmm0
	vpxor	%xmm2,%xmm0,%xmm0
	vmovd	-4(%rdi,%rsi),%xmm2
	vpaddb	%xmm1,%xmm2,%xmm1
	vpshufb	%xmm1,%xmm3,%xmm3
	vpsubb	%xmm2,%xmm3,%xmm2
	vpxor	%xmm1,%xmm2,%xmm1
	vpternlogd	$168,.L100vbm_CPI11_11(%rip){1to4},%xmm0,%xmm1
	vmovd	%xmm1,%eax
	testl	%eax,%eax
	sete	%al
	retq
10:
	vmovq	(%rdi),%xmm0
	vpbroadcastd	.L100vbm_CPI11_10(%rip),%xmm1
	vpaddb	%xmm1,%xmm0,%xmm2
	vmovdqa	.L100vbm_CPI11_3(%rip),%xmm3
	vpshufb	%xmm2,%xmm3,%xmm4
	vpsubb	%xmm0,%xmm4,%xmm0
	vpxor	%xmm2,%xmm0,%xmm0
	vmovq	-8(%rdi,%rsi),%xmm2
	vpaddb	%xmm1,%xmm2,%xmm1
	vpshufb	%xmm1,%xmm3,%xmm3
	vpsubb	%xmm2,%xmm3,%xmm2
	vpxor	%xmm1,%xmm2,%xmm1
	vpternlogd	$168,.L100vbm_CPI11_11(%rip){1to4},%xmm0,%xmm1
	vmovq	%xmm1,%rax
	testq	%rax,%rax
	sete	%al
	retq
	hex_end	faster_hex_1_0_0_x86_64_vbmi_check_lower
	hex_cfi	endproc
	hex_merged	64
	.p2align	6,0x0
.L100vbm_CPI12_0:
	.zero	64,240
	hex_merged	8
	.p2align	3,0x0
.L100vbm_CPI12_1:
	.quad	-1085102592571150096
	hex_merged	16
	.p2align	4,0x0
.L100vbm_CPI12_2:
	.byte	57,57,57,57,57,57,57,57,0,0,0,0,0,0,0,0
.L100vbm_CPI12_3:
	.byte	167,169,169,0,0,0,0,0,0,145,161,163,163,165,165,167
.L100vbm_CPI12_4:
	.byte	161,161,161,161,161,161,161,161,0,0,0,0,0,0,0,0
.L100vbm_CPI12_5:
	.byte	57,57,57,57,0,0,0,0,0,0,0,0,0,0,0,0
.L100vbm_CPI12_6:
	.byte	161,161,161,161,0,0,0,0,0,0,0,0,0,0,0,0
.L100vbm_CPI12_7:
	.byte	57,57,0,0,0,0,0,0,0,0,0,0,0,0,0,0
.L100vbm_CPI12_8:
	.byte	161,161,0,0,0,0,0,0,0,0,0,0,0,0,0,0
	hex_merged	4
	.p2align	2,0x0
.L100vbm_CPI12_9:
	.zero	4,240
.L100vbm_CPI12_10:
	.zero	4,57
.L100vbm_CPI12_11:
	.zero	4,161
	hex_export	faster_hex_1_0_0_x86_64_vbmi_check_upper
	hex_cfi	startproc
	endbr64
	cmpq	$32,%rsi
	ja	12f
	cmpq	$15,%rsi
	ja	11f
	testq	%rsi,%rsi
	je	3f
	cmpq	$1,%rsi
	jne	6f
	movzbl	(%rdi),%eax
	leal	-48(%rax),%ecx
	xorl	%edx,%edx
	subb	$9,%cl
	movzbl	%cl,%ecx
	cmovbl	%edx,%ecx
	addb	$-65,%al
	subb	$5,%al
	movzbl	%al,%eax
	cmovbl	%edx,%eax
	cmpb	%al,%cl
	cmovbl	%ecx,%eax
	testb	%al,%al
	sete	%al
	retq
12:
	cmpq	$256,%rsi
	ja	21f
	cmpq	$64,%rsi
	ja	15f
	vmovdqu	(%rdi),%ymm0
	vmovdqa64	.L100vbm_static.4+128(%rip),%zmm1
	vpermb	%zmm1,%zmm0,%zmm2
	vmovdqu	-32(%rdi,%rsi),%ymm3
	vpermb	%zmm1,%zmm3,%zmm1
	vpxor	%ymm3,%ymm1,%ymm1
	vpternlogq	$246,%ymm0,%ymm2,%ymm1
	vpbroadcastq	.L100vbm_CPI12_1(%rip),%ymm0
	vptest	%ymm0,%ymm1
	sete	%al
	vzeroupper
	retq
11:
	vmovdqu	(%rdi),%xmm0
	vmovdqa64	.L100vbm_static.4+128(%rip),%zmm1
	vpermb	%zmm1,%zmm0,%zmm2
	vmovdqu	-16(%rdi,%rsi),%xmm3
	vpermb	%zmm1,%zmm3,%zmm1
	vpxor	%xmm3,%xmm1,%xmm1
	vpternlogq	$246,%xmm0,%xmm2,%xmm1
	vpbroadcastq	.L100vbm_CPI12_1(%rip),%xmm0
	vptest	%xmm0,%xmm1
	sete	%al
	vzeroupper
	retq
21:
	pushq	%rax
	hex_cfi	def_cfa_offset 16
	movl	$2,%edx
	callq	faster_hex_1_0_0_x86_64_vbmi_core_plain_check_wide_outlined
	addq	$8,%rsp
	hex_cfi	def_cfa_offset 8
	retq
15:
	vmovdqu64	(%rdi),%zmm0
	vmovdqa64	.L100vbm_static.4+128(%rip),%zmm1
	vpermb	%zmm1,%zmm0,%zmm2
	vpxorq	%zmm0,%zmm2,%zmm0
	cmpq	$128,%rsi
	ja	17f
	vmovdqu64	-64(%rdi,%rsi),%zmm2
	vpermb	%zmm1,%zmm2,%zmm1
	vpternlogq	$246,%zmm2,%zmm1,%zmm0
	vptestmd	.L100vbm_CPI12_9(%rip){1to16},%zmm0,%k0
	kortestw	%k0,%k0
	sete	%al
	vzeroupper
	retq
3:
	movb	$1,%al
	retq
6:
	cmpq	$3,%rsi
	ja	8f
	movzwl	(%rdi),%eax
	vpbroadcastd	.L100vbm_CPI12_10(%rip),%xmm0
	vmovd	%eax,%xmm1
	vpaddb	%xmm0,%xmm1,%xmm2
	vmovdqa	.L100vbm_CPI12_3(%rip),%xmm3
	vpshufb	%xmm2,%xmm3,%xmm4
	vpsubb	%xmm1,%xmm4,%xmm1
	vpxor	%xmm2,%xmm1,%xmm1
	movzwl	-2(%rdi,%rsi),%eax
	vmovd	%eax,%xmm2
	vpaddb	%xmm0,%xmm2,%xmm0
	vpshufb	%xmm0,%xmm3,%xmm3
	vpsubb	%xmm2,%xmm3,%xmm2
	vpxor	%xmm0,%xmm2,%xmm0
	vpternlogd	$168,.L100vbm_CPI12_11(%rip){1to4},%xmm1,%xmm0
	vmovd	%xmm0,%eax
	testw	%ax,%ax
	sete	%al
	retq
17:
	vmovdqu64	64(%rdi),%zmm3
	vpermb	%zmm1,%zmm3,%zmm4
	vmovdqu64	-64(%rdi,%rsi),%zmm2
	vpermb	%zmm1,%zmm2,%zmm5
	vpxorq	%zmm2,%zmm5,%zmm2
	vpternlogq	$246,%zmm3,%zmm4,%zmm0
	cmpq	$193,%rsi
	jb	19f
	vmovdqu64	-128(%rdi,%rsi),%zmm3
	vpermb	%zmm1,%zmm3,%zmm1
	vpternlogq	$246,%zmm3,%zmm1,%zmm0
19:
	vporq	%zmm2,%zmm0,%zmm0
	vptestmd	.L100vbm_CPI12_9(%rip){1to16},%zmm0,%k0
	kortestw	%k0,%k0
	sete	%al
	vzeroupper
	retq
8:
	cmpq	$7,%rsi
	ja	10f
	vmovd	(%rdi),%xmm0
	vpbroadcastd	.L100vbm_CPI12_10(%rip),%xmm1
	vpaddb	%xmm1,%xmm0,%xmm2
	vmovdqa	.L100vbm_CPI12_3(%rip),%xmm3
	vpshufb	%xmm2,%xmm3,%xmm4
	vpsubb	%xmm0,%xmm4,%xmm0
	vpxor	%xmm2,%xmm0,%xmm0
	vmovd	-4(%rdi,%rsi),%xmm2
	vpaddb	%xmm1,%xmm2,%xmm1
	vpshufb	%xmm1,%xmm3,%xmm3
	vpsubb	%xmm2,%xmm3,%xmm2
	vpxor	%xmm1,%xmm2,%xmm1
	vpternlogd	$168,.L100vbm_CPI12_11(%rip){1to4},%xmm0,%xmm1
	vmovd	%xmm1,%eax
	testl	%eax,%eax
	sete	%al
	retq
10:
	vmovq	(%rdi),%xmm0
	vpbroadcastd	.L100vbm_CPI12_10(%rip),%xmm1
	vpaddb	%xmm1,%xmm0,%xmm2
	vmovdqa	.L100vbm_CPI12_3(%rip),%xmm3
	vpshufb	%xmm2,%xmm3,%xmm4
	vpsubb	%xmm0,%xmm4,%xmm0
	vpxor	%xmm2,%xmm0,%xmm0
	vmovq	-8(%rdi,%rsi),%xmm2
	vpaddb	%xmm1,%xmm2,%xmm1
	vpshufb	%xmm1,%xmm3,%xmm3
	vpsubb	%xmm2,%xmm3,%xmm2
	vpxor	%xmm1,%xmm2,%xmm1
	vpternlogd	$168,.L100vbm_CPI12_11(%rip){1to4},%xmm0,%xmm1
	vmovq	%xmm1,%rax
	testq	%rax,%rax
	sete	%al
	retq
	hex_end	faster_hex_1_0_0_x86_64_vbmi_check_upper
	hex_cfi	endproc
	hex_merged	64
	.p2align	6,0x0
.L100vbm_CPI13_0:
	.zero	64,240
	hex_merged	8
	.p2align	3,0x0
.L100vbm_CPI13_1:
	.quad	-1085102592571150096
	hex_merged	16
	.p2align	4,0x0
.L100vbm_CPI13_2:
	.zero	16,55
.L100vbm_CPI13_3:
	.byte	16,17,18,0,0,0,0,0,0,0,117,116,123,118,121,120
.L100vbm_CPI13_4:
	.zero	16,32
.L100vbm_CPI13_5:
	.byte	1,3,5,7,9,11,13,15,0,0,0,0,0,0,0,0
.L100vbm_CPI13_6:
	.byte	55,55,55,55,55,55,55,55,0,0,0,0,0,0,0,0
.L100vbm_CPI13_7:
	.byte	32,32,32,32,32,32,32,32,0,0,0,0,0,0,0,0
.L100vbm_CPI13_8:
	.byte	240,240,240,240,240,240,240,240,0,0,0,0,0,0,0,0
.L100vbm_CPI13_9:
	.short	4097
	.short	4097
	.short	4097
	.short	4097
	.byte	0,0,0,0,0,0,0,0
.L100vbm_CPI13_10:
	.byte	55,55,55,55,0,0,0,0,0,0,0,0,0,0,0,0
.L100vbm_CPI13_11:
	.byte	32,32,32,32,0,0,0,0,0,0,0,0,0,0,0,0
.L100vbm_CPI13_12:
	.byte	240,240,240,240,0,0,0,0,0,0,0,0,0,0,0,0
.L100vbm_CPI13_13:
	.short	4097
	.short	4097
	.byte	0,0,0,0,0,0,0,0,0,0,0,0
	hex_merged	4
	.p2align	2,0x0
.L100vbm_CPI13_14:
	.zero	4,32
.L100vbm_CPI13_15:
	.zero	4,240
	hex_export	faster_hex_1_0_0_x86_64_vbmi_decode
	hex_cfi	startproc
	endbr64
	testb	$1,%sil
	jne	1f
	movq	%rsi,%rax
	shrq	%rax
	movl	$2,%r8d
	cmpq	%rax,%rcx
	jb	31f
	cmpq	$192,%rsi
	ja	30f
	cmpq	$15,%rsi
	ja	15f
	cmpq	$2,%rsi
	jae	7f
	xorl	%r8d,%r8d
	movq	%r8,%rdx
	retq
1:
	movl	$1,%edx
	xorl	%eax,%eax
	retq
15:
	cmpq	$32,%rsi
	ja	21f
	jne	19f
	vmovdqu	(%rdi),%ymm0
	vpermb	.L100vbm_static.4(%rip),%zmm0,%zmm1
	vpxor	%ymm0,%ymm1,%ymm0
	vpbroadcastq	.L100vbm_CPI13_1(%rip),%ymm1
	vptest	%ymm1,%ymm0
	jne	30f
	vpsllw	$12,%ymm0,%ymm1
	vpaddw	%ymm1,%ymm0,%ymm0
	vpsrlw	$8,%ymm0,%ymm0
	vpmovwb	%ymm0,(%rdx)
	movl	$16,%eax
	xorl	%r8d,%r8d
	movq	%r8,%rdx
	vzeroupper
	retq
7:
	cmpq	$3,%rsi
	ja	10f
	movzwl	(%rdi),%ecx
	vmovd	%ecx,%xmm0
	vpinsrw	$1,-2(%rdi,%rsi),%xmm0,%xmm1
	vpsubusb	.L100vbm_CPI13_10(%rip),%xmm1,%xmm0
	vmovdqa	.L100vbm_CPI13_3(%rip),%xmm2
	vpshufb	%xmm0,%xmm2,%xmm2
	vpsubusb	%xmm0,%xmm2,%xmm0
	vpternlogd	$150,.L100vbm_CPI13_14(%rip){1to4},%xmm1,%xmm0
	vpandd	.L100vbm_CPI13_15(%rip){1to4},%xmm0,%xmm1
	vmovd	%xmm1,%ecx
	testl	%ecx,%ecx
	jne	30f
	vpmullw	.L100vbm_CPI13_13(%rip),%xmm0,%xmm0
	vpextrb	$1,%xmm0,(%rdx)
	vpextrb	$3,%xmm0,-1(%rdx,%rax)
	xorl	%r8d,%r8d
	movq	%r8,%rdx
	retq
21:
	cmpq	$64,%rsi
	ja	24f
	vmovdqu	(%rdi),%ymm0
	vinserti64x4	$1,-32(%rdi,%rsi),%zmm0,%zmm0
	vpermb	.L100vbm_static.4(%rip),%zmm0,%zmm1
	vpxorq	%zmm0,%zmm1,%zmm0
	vptestmd	.L100vbm_CPI13_15(%rip){1to16},%zmm0,%k0
	kortestw	%k0,%k0
	jne	30f
	vpsllw	$12,%zmm0,%zmm1
	vpaddw	%zmm1,%zmm0,%zmm0
	vpsrlw	$8,%zmm0,%zmm0
	vpmovwb	%zmm0,%ymm0
	vmovdqu	%xmm0,(%rdx)
	vextracti128	$1,%ymm0,-16(%rdx,%rax)
	xorl	%r8d,%r8d
	movq	%r8,%rdx
	vzeroupper
	retq
19:
	vmovdqu	(%rdi),%xmm0
	vinserti128	$1,-16(%rdi,%rsi),%ymm0,%ymm0
	vpermb	.L100vbm_static.4(%rip),%zmm0,%zmm1
	vpxor	%ymm0,%ymm1,%ymm0
	vpbroadcastq	.L100vbm_CPI13_1(%rip),%ymm1
	vptest	%ymm1,%ymm0
	jne	30f
	vpsllw	$12,%ymm0,%ymm1
	vpaddw	%ymm1,%ymm0,%ymm0
	vpsrlw	$8,%ymm0,%ymm0
	vpmovwb	%ymm0,%xmm0
	vmovq	%xmm0,(%rdx)
	vpextrq	$1,%xmm0,-8(%rdx,%rax)
	xorl	%r8d,%r8d
	movq	%r8,%rdx
	vzeroupper
	retq
10:
	cmpq	$7,%rsi
	ja	13f
	vmovd	(%rdi),%xmm0
	vpinsrd	$1,-4(%rdi,%rsi),%xmm0,%xmm1
	vpsubusb	.L100vbm_CPI13_6(%rip),%xmm1,%xmm0
	vmovdqa	.L100vbm_CPI13_3(%rip),%xmm2
	vpshufb	%xmm0,%xmm2,%xmm2
	vpsubusb	%xmm0,%xmm2,%xmm0
	vpternlogd	$150,.L100vbm_CPI13_14(%rip){1to4},%xmm1,%xmm0
	vpandd	.L100vbm_CPI13_15(%rip){1to4},%xmm0,%xmm1
	vmovq	%xmm1,%rcx
	testq	%rcx,%rcx
	jne	30f
	vpmullw	.L100vbm_CPI13_9(%rip),%xmm0,%xmm0
	vpshufb	.L100vbm_CPI13_5(%rip),%xmm0,%xmm0
	vpextrw	$0,%xmm0,(%rdx)
	vpextrw	$1,%xmm0,-2(%rdx,%rax)
	xorl	%r8d,%r8d
	movq	%r8,%rdx
	retq
24:
	vmovdqu64	(%rdi),%zmm0
	vmovdqa64	.L100vbm_static.4(%rip),%zmm1
	vpermb	%zmm1,%zmm0,%zmm2
	vpxorq	%zmm0,%zmm2,%zmm0
	cmpq	$128,%rsi
	ja	28f
	vmovdqu64	-64(%rdi,%rsi),%zmm2
	vpermb	%zmm1,%zmm2,%zmm1
	vpxorq	%zmm2,%zmm1,%zmm1
	vporq	%zmm0,%zmm1,%zmm2
	vptestmd	.L100vbm_CPI13_15(%rip){1to16},%zmm2,%k0
	kortestw	%k0,%k0
	jne	30f
	vpsllw	$12,%zmm0,%zmm2
	vpaddw	%zmm2,%zmm0,%zmm0
	vpsrlw	$8,%zmm0,%zmm0
	vpmovwb	%zmm0,(%rdx)
	jmp	27f
13:
	vmovq	-8(%rdi,%rsi),%xmm0
	vmovq	(%rdi),%xmm1
	vpunpcklqdq	%xmm0,%xmm1,%xmm1
	vpsubusb	.L100vbm_CPI13_2(%rip),%xmm1,%xmm0
	vmovdqa	.L100vbm_CPI13_3(%rip),%xmm2
	vpshufb	%xmm0,%xmm2,%xmm2
	vpsubusb	%xmm0,%xmm2,%xmm0
	vpternlogd	$150,.L100vbm_CPI13_14(%rip){1to4},%xmm1,%xmm0
	vpbroadcastq	.L100vbm_CPI13_1(%rip),%xmm1
	vptest	%xmm1,%xmm0
	jne	30f
	vpsllw	$12,%xmm0,%xmm1
	vpaddw	%xmm1,%xmm0,%xmm0
	vpshufb	.L100vbm_CPI13_5(%rip),%xmm0,%xmm0
	vmovd	%xmm0,(%rdx)
	vpextrd	$1,%xmm0,-4(%rdx,%rax)
	xorl	%r8d,%r8d
	movq	%r8,%rdx
	retq
28:
	vmovdqu64	64(%rdi),%zmm2
	vpermb	%zmm1,%zmm2,%zmm3
	vpxorq	%zmm2,%zmm3,%zmm2
	vmovdqu64	-64(%rdi,%rsi),%zmm3
	vpermb	%zmm1,%zmm3,%zmm1
	vpxorq	%zmm3,%zmm1,%zmm1
	vmovdqa64	%zmm1,%zmm3
	vpternlogq	$254,%zmm0,%zmm2,%zmm3
	vptestmd	.L100vbm_CPI13_15(%rip){1to16},%zmm3,%k0
	kortestw	%k0,%k0
	je	29f
30:
	pushq	%rax
	hex_cfi	def_cfa_offset 16
	movq	%rax,%rcx
	xorl	%r8d,%r8d
	vzeroupper
	callq	faster_hex_1_0_0_x86_64_vbmi_core_backend_Backend_decode_or_find_outlined
	xorl	%ecx,%ecx
	testw	%dx,%dx
	setne	%cl
	shll	$8,%edx
	movzwl	%dx,%edx
	leaq	(%rcx,%rcx,2),%r8
	orq	%rdx,%r8
	addq	$8,%rsp
	hex_cfi	def_cfa_offset 8
31:
	movq	%r8,%rdx
	retq
29:
	vpsllw	$12,%zmm0,%zmm3
	vpaddw	%zmm3,%zmm0,%zmm0
	vpsrlw	$8,%zmm0,%zmm0
	vpmovwb	%zmm0,(%rdx)
	vpsllw	$12,%zmm2,%zmm0
	vpaddw	%zmm0,%zmm2,%zmm0
	vpsrlw	$8,%zmm0,%zmm0
	vpmovwb	%zmm0,32(%rdx)
27:
	vpsllw	$12,%zmm1,%zmm0
	vpaddw	%zmm0,%zmm1,%zmm0
	vpsrlw	$8,%zmm0,%zmm0
	vpmovwb	%zmm0,-32(%rdx,%rax)
	xorl	%r8d,%r8d
	movq	%r8,%rdx
	vzeroupper
	retq
	hex_end	faster_hex_1_0_0_x86_64_vbmi_decode
	hex_cfi	endproc
	hex_merged	64
	.p2align	6,0x0
.L100vbm_CPI14_0:
	.zero	64,240
	hex_merged	8
	.p2align	3,0x0
.L100vbm_CPI14_1:
	.quad	-1085102592571150096
	hex_merged	16
	.p2align	4,0x0
.L100vbm_CPI14_2:
	.byte	57,57,57,57,57,57,57,57,0,0,0,0,0,0,0,0
.L100vbm_CPI14_3:
	.byte	57,57,57,57,0,0,0,0,0,0,0,0,0,0,0,0
.L100vbm_CPI14_4:
	.byte	57,57,0,0,0,0,0,0,0,0,0,0,0,0,0,0
	hex_merged	4
	.p2align	2,0x0
.L100vbm_CPI14_5:
	.zero	4,240
.L100vbm_CPI14_6:
	.zero	4,57
	hex_export	faster_hex_1_0_0_x86_64_vbmi_check_with_case
	hex_cfi	startproc
	endbr64
	cmpb	$2,%dl
	ja	6f
	cmpq	$32,%rsi
	ja	7f
	cmpq	$15,%rsi
	ja	10f
	testq	%rsi,%rsi
	je	14f
	cmpq	$1,%rsi
	jne	15f
	movzbl	(%rdi),%eax
	leal	-48(%rax),%ecx
	xorl	%esi,%esi
	subb	$9,%cl
	movzbl	%cl,%ecx
	cmovbl	%esi,%ecx
	movzbl	%dl,%edx
	leaq	.L100vbm_static.0(%rip),%rdi
	orb	(%rdx,%rdi),%al
	leaq	.L100vbm_static.1(%rip),%rdi
	subb	(%rdx,%rdi),%al
	subb	$5,%al
	movzbl	%al,%eax
	cmovbl	%esi,%eax
	cmpb	%al,%cl
	cmovbl	%ecx,%eax
	testb	%al,%al
	sete	%al
	retq
6:
	xorl	%eax,%eax
	retq
7:
	cmpq	$256,%rsi
	ja	11f
	cmpq	$64,%rsi
	ja	12f
	vmovdqu	(%rdi),%ymm0
	movzbl	%dl,%eax
	shll	$6,%eax
	leaq	.L100vbm_static.4(%rip),%rcx
	vmovdqa64	(%rax,%rcx),%zmm1
	vpermb	%zmm1,%zmm0,%zmm2
	vmovdqu	-32(%rdi,%rsi),%ymm3
	vpermb	%zmm1,%zmm3,%zmm1
	vpxor	%ymm3,%ymm1,%ymm1
	vpternlogq	$246,%ymm0,%ymm2,%ymm1
	vpbroadcastq	.L100vbm_CPI14_1(%rip),%ymm0
	vptest	%ymm0,%ymm1
	sete	%al
	vzeroupper
	retq
10:
	vmovdqu	(%rdi),%xmm0
	movzbl	%dl,%eax
	shll	$6,%eax
	leaq	.L100vbm_static.4(%rip),%rcx
	vmovdqa64	(%rax,%rcx),%zmm1
	vpermb	%zmm1,%zmm0,%zmm2
	vmovdqu	-16(%rdi,%rsi),%xmm3
	vpermb	%zmm1,%zmm3,%zmm1
	vpxor	%xmm3,%xmm1,%xmm1
	vpternlogq	$246,%xmm0,%xmm2,%xmm1
	vpbroadcastq	.L100vbm_CPI14_1(%rip),%xmm0
	vptest	%xmm0,%xmm1
	sete	%al
	vzeroupper
	retq
11:
	pushq	%rax
	hex_cfi	def_cfa_offset 16
	movzbl	%dl,%edx
	callq	faster_hex_1_0_0_x86_64_vbmi_core_plain_check_wide_outlined
	addq	$8,%rsp
	hex_cfi	def_cfa_offset 8
	retq
12:
	movzbl	%dl,%eax
	shll	$6,%eax
	vmovdqu64	(%rdi),%zmm0
	leaq	.L100vbm_static.4(%rip),%rcx
	vmovdqa64	(%rax,%rcx),%zmm1
	vpermb	%zmm1,%zmm0,%zmm2
	vpxorq	%zmm0,%zmm2,%zmm0
	cmpq	$128,%rsi
	ja	17f
	vmovdqu64	-64(%rdi,%rsi),%zmm2
	vpermb	%zmm1,%zmm2,%zmm1
	vpternlogq	$246,%zmm2,%zmm1,%zmm0
	vptestmd	.L100vbm_CPI14_5(%rip){1to16},%zmm0,%k0
	kortestw	%k0,%k0
	sete	%al
	vzeroupper
	retq
14:
	movb	$1,%al
	retq
15:
	cmpq	$3,%rsi
	ja	21f
	movzwl	(%rdi),%eax
	vmovd	%eax,%xmm0
	vpbroadcastd	.L100vbm_CPI14_6(%rip),%xmm1
	movzbl	%dl,%eax
	leaq	.L100vbm_static.3(%rip),%rcx
	vpbroadcastb	(%rax,%rcx),%xmm2
	vpaddb	%xmm1,%xmm0,%xmm3
	shll	$4,%eax
	leaq	.L100vbm_static.2(%rip),%rcx
	vmovdqu	(%rax,%rcx),%xmm4
	vpshufb	%xmm3,%xmm4,%xmm5
	vpsubb	%xmm0,%xmm5,%xmm0
	vpxor	%xmm3,%xmm0,%xmm0
	movzwl	-2(%rdi,%rsi),%eax
	vmovd	%eax,%xmm3
	vpaddb	%xmm1,%xmm3,%xmm1
	vpshufb	%xmm1,%xmm4,%xmm4
	vpsubb	%xmm3,%xmm4,%xmm3
	vpxor	%xmm1,%xmm3,%xmm1
	vpternlogq	$224,%xmm0,%xmm1,%xmm2
	vmovd	%xmm2,%eax
	testw	%ax,%ax
	sete	%al
	retq
17:
	vmovdqu64	64(%rdi),%zmm3
	vpermb	%zmm1,%zmm3,%zmm4
	vmovdqu64	-64(%rdi,%rsi),%zmm2
	vpermb	%zmm1,%zmm2,%zmm5
	vpxorq	%zmm2,%zmm5,%zmm2
	vpternlogq	$246,%zmm3,%zmm4,%zmm0
	cmpq	$193,%rsi
	jb	19f
	vmovdqu64	-128(%rdi,%rsi),%zmm3
	vpermb	%zmm1,%zmm3,%zmm1
	vpternlogq	$246,%zmm3,%zmm1,%zmm0
19:
	vporq	%zmm2,%zmm0,%zmm0
	vptestmd	.L100vbm_CPI14_5(%rip){1to16},%zmm0,%k0
	kortestw	%k0,%k0
	sete	%al
	vzeroupper
	retq
21:
	movzbl	%dl,%ecx
	leaq	.L100vbm_static.3(%rip),%rax
	movzbl	(%rcx,%rax),%eax
	shll	$4,%ecx
	leaq	.L100vbm_static.2(%rip),%rdx
	vmovdqu	(%rcx,%rdx),%xmm0
	cmpq	$7,%rsi
	ja	23f
	vmovd	(%rdi),%xmm1
	vpbroadcastd	.L100vbm_CPI14_6(%rip),%xmm2
	vpaddb	%xmm2,%xmm1,%xmm3
	vpshufb	%xmm3,%xmm0,%xmm4
	vpsubb	%xmm1,%xmm4,%xmm1
	vpxor	%xmm3,%xmm1,%xmm1
	vmovd	-4(%rdi,%rsi),%xmm3
	vpaddb	%xmm2,%xmm3,%xmm2
	vpshufb	%xmm2,%xmm0,%xmm0
	vpsubb	%xmm3,%xmm0,%xmm0
	vpxor	%xmm2,%xmm0,%xmm0
	vpbroadcastb	%eax,%xmm2
	vpternlogq	$224,%xmm1,%xmm0,%xmm2
	vmovd	%xmm2,%eax
	testl	%eax,%eax
	sete	%al
	retq
23:
	vmovq	(%rdi),%xmm1
	vpbroadcastd	.L100vbm_CPI14_6(%rip),%xmm2
	vpaddb	%xmm2,%xmm1,%xmm3
	vpshufb	%xmm3,%xmm0,%xmm4
	vpsubb	%xmm1,%xmm4,%xmm1
	vpxor	%xmm3,%xmm1,%xmm1
	vmovq	-8(%rdi,%rsi),%xmm3
	vpaddb	%xmm2,%xmm3,%xmm2
	vpshufb	%xmm2,%xmm0,%xmm0
	vpsubb	%xmm3,%xmm0,%xmm0
	vpxor	%xmm2,%xmm0,%xmm0
	vpbroadcastb	%eax,%xmm2
	vpternlogq	$224,%xmm1,%xmm0,%xmm2
	vmovq	%xmm2,%rax
	testq	%rax,%rax
	sete	%al
	retq
	hex_end	faster_hex_1_0_0_x86_64_vbmi_check_with_case
	hex_cfi	endproc
	hex_export	faster_hex_1_0_0_x86_64_vbmi_decode_spaced
	hex_cfi	startproc
	endbr64
	pushq	%rbp
	hex_cfi	def_cfa_offset 16
	pushq	%r15
	hex_cfi	def_cfa_offset 24
	pushq	%r14
	hex_cfi	def_cfa_offset 32
	pushq	%r13
	hex_cfi	def_cfa_offset 40
	pushq	%r12
	hex_cfi	def_cfa_offset 48
	pushq	%rbx
	hex_cfi	def_cfa_offset 56
	subq	$56,%rsp
	hex_cfi	def_cfa_offset 112
	hex_cfi	offset %rbx,-56
	hex_cfi	offset %r12,-48
	hex_cfi	offset %r13,-40
	hex_cfi	offset %r14,-32
	hex_cfi	offset %r15,-24
	hex_cfi	offset %rbp,-16
	movl	%r8d,%ebp
	cmpb	$2,%bpl
	ja	6f
	movq	%rcx,%r12
	movq	%rsi,%rbx
	movq	%rdi,%r14
	movq	%rdx,24(%rsp)
	vxorps	%xmm0,%xmm0,%xmm0
	vmovaps	%xmm0,(%rsp)
	movq	$0,16(%rsp)
	callq	faster_hex_1_0_0_x86_64_vbmi_codec_spaced_run_len
	movq	%rax,%r13
	andq	$-2,%r13
	cmpq	%r13,%rbx
	jbe	7f
	movzbl	(%r14,%r13),%ecx
	xorl	%r15d,%r15d
	cmpq	$32,%rcx
	ja	8f
	movabsq	$4294981120,%rdx
	btq	%rcx,%rdx
	jae	8f
	orq	$1,%rax
	movl	$1,%r15d
	cmpq	%rax,%rbx
	jbe	8f
	movzbl	(%r14,%rax),%eax
	leal	-9(%rax),%ecx
	cmpb	$2,%cl
	setb	%cl
	movl	%eax,%edx
	andb	$-2,%dl
	cmpb	$12,%dl
	sete	%dl
	cmpb	$32,%al
	sete	%al
	orb	%dl,%al
	orb	%cl,%al
	movzbl	%al,%r15d
	incq	%r15
	jmp	8f
6:
	movl	$5,%edx
	jmp	20f
7:
	xorl	%r15d,%r15d
8:
	movzbl	%bpl,%ebp
	movq	%r14,%rdi
	movq	%rbx,%rsi
	movq	%r13,%rdx
	movq	%r15,%rcx
	movl	%ebp,%r8d
	callq	faster_hex_1_0_0_x86_64_vbmi_codec_spaced_line_count
	movq	%r13,32(%rsp)
	movq	%r15,40(%rsp)
	movq	%rax,48(%rsp)
	leaq	32(%rsp),%rdx
	movq	%r14,%rdi
	movq	%rbx,%rsi
	movl	%ebp,%ecx
	callq	faster_hex_1_0_0_x86_64_vbmi_codec_spaced_survey
	testb	$1,%al
	jne	19f
	shrq	%rax
	cmpq	%rax,%r12
	jae	11f
10:
	movl	$2,%edx
	jmp	21f
11:
	cmpb	$1,%dl
	jne	13f
	leaq	32(%rsp),%r8
	movq	%r14,%rdi
	movq	%rbx,%rsi
	movq	24(%rsp),%rdx
	movq	%rax,%rcx
	movl	%ebp,%r9d
	movq	%rax,%rbx
	callq	faster_hex_1_0_0_x86_64_vbmi_codec_spaced_decode_runs
	movq	%rbx,%rax
	xorl	%edx,%edx
	jmp	21f
13:
	movq	%rsp,%rdi
	movq	%r14,%rsi
	movq	%rbx,%rdx
	movl	%ebp,%ecx
	callq	faster_hex_1_0_0_x86_64_vbmi_codec_spaced_invalid_error
	movzbl	(%rsp),%ecx
	cmpl	$2,%ecx
	jg	17f
	movq	8(%rsp),%rax
	testl	%ecx,%ecx
	je	22f
	cmpl	$1,%ecx
	je	10b
	jmp	18f
17:
	addl	$-4,%ecx
	cmpl	$2,%ecx
	jae	19f
18:
	movl	$4,%edx
	jmp	20f
19:
	movl	$1,%edx
20:
	xorl	%eax,%eax
21:
	addq	$56,%rsp
	hex_cfi	def_cfa_offset 56
	popq	%rbx
	hex_cfi	def_cfa_offset 48
	popq	%r12
	hex_cfi	def_cfa_offset 40
	popq	%r13
	hex_cfi	def_cfa_offset 32
	popq	%r14
	hex_cfi	def_cfa_offset 24
	popq	%r15
	hex_cfi	def_cfa_offset 16
	popq	%rbp
	hex_cfi	def_cfa_offset 8
	retq
22:
	hex_cfi	def_cfa_offset 112
	movq	16(%rsp),%rcx
	shll	$8,%ecx
	movzwl	%cx,%edx
	orq	$3,%rdx
	jmp	21b
	hex_end	faster_hex_1_0_0_x86_64_vbmi_decode_spaced
	hex_cfi	endproc
	hex_merged	64
	.p2align	6,0x0
.L100vbm_CPI16_0:
	.zero	64,240
	hex_merged	8
	.p2align	3,0x0
.L100vbm_CPI16_1:
	.quad	-1085102592571150096
	hex_merged	16
	.p2align	4,0x0
.L100vbm_CPI16_2:
	.zero	16,55
.L100vbm_CPI16_3:
	.byte	1,3,5,7,9,11,13,15,0,0,0,0,0,0,0,0
.L100vbm_CPI16_4:
	.byte	55,55,55,55,55,55,55,55,0,0,0,0,0,0,0,0
.L100vbm_CPI16_5:
	.byte	240,240,240,240,240,240,240,240,0,0,0,0,0,0,0,0
.L100vbm_CPI16_6:
	.short	4097
	.short	4097
	.short	4097
	.short	4097
	.byte	0,0,0,0,0,0,0,0
.L100vbm_CPI16_7:
	.byte	55,55,55,55,0,0,0,0,0,0,0,0,0,0,0,0
.L100vbm_CPI16_8:
	.byte	240,240,240,240,0,0,0,0,0,0,0,0,0,0,0,0
.L100vbm_CPI16_9:
	.short	4097
	.short	4097
	.byte	0,0,0,0,0,0,0,0,0,0,0,0
	hex_merged	4
	.p2align	2,0x0
.L100vbm_CPI16_10:
	.zero	4,240
	hex_export	faster_hex_1_0_0_x86_64_vbmi_decode_with_case
	hex_cfi	startproc
	endbr64
	cmpb	$2,%r8b
	ja	1f
	testb	$1,%sil
	jne	3f
	movq	%rsi,%rax
	shrq	%rax
	cmpq	%rax,%rcx
	jae	6f
	movl	$2,%edx
	retq
1:
	movl	$5,%edx
	xorl	%eax,%eax
	retq
3:
	movl	$1,%edx
	xorl	%eax,%eax
	retq
6:
	cmpq	$192,%rsi
	ja	33f
	cmpq	$15,%rsi
	ja	18f
	cmpq	$2,%rsi
	jae	10f
	xorl	%edx,%edx
	retq
18:
	cmpq	$32,%rsi
	ja	24f
	jne	22f
	vmovdqu	(%rdi),%ymm0
	movzbl	%r8b,%ecx
	shll	$6,%ecx
	leaq	.L100vbm_static.4(%rip),%r9
	vpermb	(%rcx,%r9),%zmm0,%zmm1
	vpxor	%ymm0,%ymm1,%ymm0
	vpbroadcastq	.L100vbm_CPI16_1(%rip),%ymm1
	vptest	%ymm1,%ymm0
	jne	33f
	vpsllw	$12,%ymm0,%ymm1
	vpaddw	%ymm1,%ymm0,%ymm0
	vpsrlw	$8,%ymm0,%ymm0
	vpmovwb	%ymm0,(%rdx)
	movl	$16,%eax
	xorl	%edx,%edx
	vzeroupper
	retq
10:
	cmpq	$3,%rsi
	ja	13f
	movzwl	(%rdi),%ecx
	vmovd	%ecx,%xmm0
	vpinsrw	$1,-2(%rdi,%rsi),%xmm0,%xmm1
	vpsubusb	.L100vbm_CPI16_7(%rip),%xmm1,%xmm2
	movzbl	%r8b,%ecx
	leaq	.L100vbm_static.0(%rip),%r9
	vpbroadcastb	(%rcx,%r9),%xmm0
	shll	$4,%ecx
	leaq	.L100vbm_static.9(%rip),%r9
	vmovdqu	(%rcx,%r9),%xmm3
	vpshufb	%xmm2,%xmm3,%xmm3
	vpsubusb	%xmm2,%xmm3,%xmm2
	vpternlogq	$150,%xmm2,%xmm1,%xmm0
	vpandd	.L100vbm_CPI16_10(%rip){1to4},%xmm0,%xmm1
	vmovd	%xmm1,%ecx
	testl	%ecx,%ecx
	jne	33f
	vpmullw	.L100vbm_CPI16_9(%rip),%xmm0,%xmm0
	vpextrb	$1,%xmm0,(%rdx)
	vpextrb	$3,%xmm0,-1(%rdx,%rax)
	xorl	%edx,%edx
	retq
24:
	cmpq	$64,%rsi
	ja	27f
	vmovdqu	(%rdi),%ymm0
	vinserti64x4	$1,-32(%rdi,%rsi),%zmm0,%zmm0
	movzbl	%r8b,%ecx
	shll	$6,%ecx
	leaq	.L100vbm_static.4(%rip),%r9
	vpermb	(%rcx,%r9),%zmm0,%zmm1
	vpxorq	%zmm0,%zmm1,%zmm0
	vptestmd	.L100vbm_CPI16_10(%rip){1to16},%zmm0,%k0
	kortestw	%k0,%k0
	jne	33f
	vpsllw	$12,%zmm0,%zmm1
	vpaddw	%zmm1,%zmm0,%zmm0
	vpsrlw	$8,%zmm0,%zmm0
	vpmovwb	%zmm0,%ymm0
	vmovdqu	%xmm0,(%rdx)
	vextracti128	$1,%ymm0,-16(%rdx,%rax)
	xorl	%edx,%edx
	vzeroupper
	retq
22:
	vmovdqu	(%rdi),%xmm0
	vinserti128	$1,-16(%rdi,%rsi),%ymm0,%ymm0
	movzbl	%r8b,%ecx
	shll	$6,%ecx
	leaq	.L100vbm_static.4(%rip),%r9
	vpermb	(%rcx,%r9),%zmm0,%zmm1
	vpxor	%ymm0,%ymm1,%ymm0
	vpbroadcastq	.L100vbm_CPI16_1(%rip),%ymm1
	vptest	%ymm1,%ymm0
	jne	33f
	vpsllw	$12,%ymm0,%ymm1
	vpaddw	%ymm1,%ymm0,%ymm0
	vpsrlw	$8,%ymm0,%ymm0
	vpmovwb	%ymm0,%xmm0
	vmovq	%xmm0,(%rdx)
	vpextrq	$1,%xmm0,-8(%rdx,%rax)
	xorl	%edx,%edx
	vzeroupper
	retq
13:
	movzbl	%r8b,%ecx
	movl	%ecx,%r9d
	shll	$4,%r9d
	leaq	.L100vbm_static.9(%rip),%r10
	vmovdqu	(%r9,%r10),%xmm0
	cmpq	$7,%rsi
	ja	16f
	vmovd	(%rdi),%xmm1
	vpinsrd	$1,-4(%rdi,%rsi),%xmm1,%xmm1
	vpsubusb	.L100vbm_CPI16_4(%rip),%xmm1,%xmm2
	vpshufb	%xmm2,%xmm0,%xmm3
	leaq	.L100vbm_static.0(%rip),%r9
	vpbroadcastb	(%rcx,%r9),%xmm0
	vpsubusb	%xmm2,%xmm3,%xmm2
	vpternlogq	$150,%xmm2,%xmm1,%xmm0
	vpandd	.L100vbm_CPI16_10(%rip){1to4},%xmm0,%xmm1
	vmovq	%xmm1,%rcx
	testq	%rcx,%rcx
	jne	33f
	vpmullw	.L100vbm_CPI16_6(%rip),%xmm0,%xmm0
	vpshufb	.L100vbm_CPI16_3(%rip),%xmm0,%xmm0
	vpextrw	$0,%xmm0,(%rdx)
	vpextrw	$1,%xmm0,-2(%rdx,%rax)
	xorl	%edx,%edx
	retq
27:
	movzbl	%r8b,%ecx
	shll	$6,%ecx
	vmovdqu64	(%rdi),%zmm0
	leaq	.L100vbm_static.4(%rip),%r9
	vmovdqa64	(%rcx,%r9),%zmm1
	vpermb	%zmm1,%zmm0,%zmm2
	vpxorq	%zmm0,%zmm2,%zmm0
	cmpq	$128,%rsi
	ja	31f
	vmovdqu64	-64(%rdi,%rsi),%zmm2
	vpermb	%zmm1,%zmm2,%zmm1
	vpxorq	%zmm2,%zmm1,%zmm1
	vporq	%zmm0,%zmm1,%zmm2
	vptestmd	.L100vbm_CPI16_10(%rip){1to16},%zmm2,%k0
	kortestw	%k0,%k0
	jne	33f
	vpsllw	$12,%zmm0,%zmm2
	vpaddw	%zmm2,%zmm0,%zmm0
	vpsrlw	$8,%zmm0,%zmm0
	vpmovwb	%zmm0,(%rdx)
	jmp	30f
16:
	vmovq	-8(%rdi,%rsi),%xmm1
	vmovq	(%rdi),%xmm2
	vpunpcklqdq	%xmm1,%xmm2,%xmm1
	vpsubusb	.L100vbm_CPI16_2(%rip),%xmm1,%xmm2
	vpshufb	%xmm2,%xmm0,%xmm3
	leaq	.L100vbm_static.0(%rip),%r9
	vpbroadcastb	(%rcx,%r9),%xmm0
	vpsubusb	%xmm2,%xmm3,%xmm2
	vpternlogq	$150,%xmm2,%xmm1,%xmm0
	vpbroadcastq	.L100vbm_CPI16_1(%rip),%xmm1
	vptest	%xmm1,%xmm0
	jne	33f
	vpsllw	$12,%xmm0,%xmm1
	vpaddw	%xmm1,%xmm0,%xmm0
	vpshufb	.L100vbm_CPI16_3(%rip),%xmm0,%xmm0
	vmovd	%xmm0,(%rdx)
	vpextrd	$1,%xmm0,-4(%rdx,%rax)
	xorl	%edx,%edx
	retq
31:
	vmovdqu64	64(%rdi),%zmm2
	vpermb	%zmm1,%zmm2,%zmm3
	vpxorq	%zmm2,%zmm3,%zmm2
	vmovdqu64	-64(%rdi,%rsi),%zmm3
	vpermb	%zmm1,%zmm3,%zmm1
	vpxorq	%zmm3,%zmm1,%zmm1
	vmovdqa64	%zmm1,%zmm3
	vpternlogq	$254,%zmm0,%zmm2,%zmm3
	vptestmd	.L100vbm_CPI16_10(%rip){1to16},%zmm3,%k0
	kortestw	%k0,%k0
	je	32f
33:
	pushq	%rax
	hex_cfi	def_cfa_offset 16
	movzbl	%r8b,%r8d
	movq	%rax,%rcx
	vzeroupper
	callq	faster_hex_1_0_0_x86_64_vbmi_core_backend_Backend_decode_or_find_outlined
	xorl	%ecx,%ecx
	testw	%dx,%dx
	setne	%cl
	shll	$8,%edx
	movzwl	%dx,%esi
	leaq	(%rcx,%rcx,2),%rdx
	orq	%rsi,%rdx
	addq	$8,%rsp
	hex_cfi	def_cfa_offset 8
	retq
32:
	vpsllw	$12,%zmm0,%zmm3
	vpaddw	%zmm3,%zmm0,%zmm0
	vpsrlw	$8,%zmm0,%zmm0
	vpmovwb	%zmm0,(%rdx)
	vpsllw	$12,%zmm2,%zmm0
	vpaddw	%zmm0,%zmm2,%zmm0
	vpsrlw	$8,%zmm0,%zmm0
	vpmovwb	%zmm0,32(%rdx)
30:
	vpsllw	$12,%zmm1,%zmm0
	vpaddw	%zmm0,%zmm1,%zmm0
	vpsrlw	$8,%zmm0,%zmm0
	vpmovwb	%zmm0,-32(%rdx,%rax)
	xorl	%edx,%edx
	vzeroupper
	retq
	hex_end	faster_hex_1_0_0_x86_64_vbmi_decode_with_case
	hex_cfi	endproc
	hex_constant	.L100vbm_static.0
.L100vbm_static.0:
	.asciz	" \000"
	hex_constant	.L100vbm_static.1
.L100vbm_static.1:
	.ascii	"aaA"
	hex_constant	.L100vbm_static.2
.L100vbm_static.2:
	.ascii	"\247\250\251\000\000\000\000\000\000\220\241\242\243\244\245\246\247\250\251\000\000\000\000\000\000\220\221\222\223\224\225\226\247\251\251\000\000\000\000\000\000\221\241\243\243\245\245\247"
	hex_constant	.L100vbm_static.3
.L100vbm_static.3:
	.ascii	"\240\240\241"
	hex_constant	.L100vbm_static.4
	.p2align	6,0x0
.L100vbm_static.4:
	.ascii	" KIOIKI'()*+,-./0123456789:;<=>?\000kioiki\007\b\t\n\013\f\r\016\0170000000000\032\033\034\035\036\037 !\"#$%&'()*+,-./0123456789:;<=>?\000kioiki\007\b\t\n\013\f\r\016\0170000000000\032\033\034\035\036\037 KIOIKI'()*+,-./0123456789:;<=>?\000\001\002\003\004\005\006\007\b\t\n\013\f\r\016\0170000000000\032\033\034\035\036\037"
	hex_constant	.L100vbm_static.6
.L100vbm_static.6:
	.zero	48,255
	.ascii	"\000\001\002\003\004\005\006\007\b\t\377\377\377\377\377\377\377\n\013\f\r\016\017"
	.zero	26,255
	.ascii	"\n\013\f\r\016\017"
	.zero	153,255
	hex_constant	.L100vbm_static.7
.L100vbm_static.7:
	.zero	48,255
	.ascii	"\000\001\002\003\004\005\006\007\b\t"
	.zero	39,255
	.ascii	"\n\013\f\r\016\017"
	.zero	153,255
	hex_constant	.L100vbm_static.8
.L100vbm_static.8:
	.zero	48,255
	.ascii	"\000\001\002\003\004\005\006\007\b\t\377\377\377\377\377\377\377\n\013\f\r\016\017"
	.zero	185,255
	hex_constant	.L100vbm_static.9
.L100vbm_static.9:
	.ascii	"\020\021\022\000\000\000\000\000\000\000ut{vyx012\000\000\000\000\000\000\000\225\224\233\226\231\230012\000\000\000\000\000\000\000UT[VYX"
	hex_merged	8
	.p2align	1,0x0
.L100vbm_static.10:
	.asciz	"\001\020\001\020\001\020\000"
	hex_constant	.L100vbm_static.11
	.p2align	6,0x0
.L100vbm_static.11:
	.ascii	"\000\n\013\f\r\016\017"
	.zero	26,0
	.ascii	"\n\013\f\r\016\017\000\000\000\000\000\000\000\000\000\000\001\002\003\004\005\006\007\b\t\000\000\000\000\000\000"
