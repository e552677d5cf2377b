/* Written by scripts/generate: do not edit. */
	hex_function	faster_hex_1_0_0_x86_64_core_look_ups_check_by_look_up,.text
	hex_cfi	startproc
	testq	%rsi,%rsi
	je	1f
	movzbl	%dl,%eax
	leaq	.L100_switch.table.faster_hex_1_0_0_x86_64_decode_grouped.49(%rip),%rcx
	movq	(%rcx,%rax,8),%rcx
	movl	%esi,%edx
	andl	$3,%edx
	cmpq	$4,%rsi
	jae	5f
	movb	$1,%al
	xorl	%esi,%esi
	jmp	8f
1:
	movb	$1,%al
	retq
5:
	andq	$-4,%rsi
	movb	$1,%al
	xorl	%r8d,%r8d
	.p2align	4
6:
	movzbl	(%rdi,%r8),%r9d
	cmpb	$-1,(%rcx,%r9)
	setne	%r9b
	andb	%al,%r9b
	movzbl	1(%rdi,%r8),%eax
	cmpb	$-1,(%rcx,%rax)
	setne	%al
	movzbl	2(%rdi,%r8),%r10d
	cmpb	$-1,(%rcx,%r10)
	setne	%r10b
	andb	%al,%r10b
	andb	%r9b,%r10b
	movzbl	3(%rdi,%r8),%eax
	cmpb	$-1,(%rcx,%rax)
	setne	%al
	andb	%r10b,%al
	addq	$4,%r8
	cmpq	%r8,%rsi
	jne	6b
	testq	%rdx,%rdx
	je	2f
8:
	addq	%rsi,%rdi
	xorl	%esi,%esi
	.p2align	4
9:
	movzbl	(%rdi,%rsi),%r8d
	cmpb	$-1,(%rcx,%r8)
	setne	%r8b
	andb	%r8b,%al
	incq	%rsi
	cmpq	%rsi,%rdx
	jne	9b
2:
	retq
	hex_end	faster_hex_1_0_0_x86_64_core_look_ups_check_by_look_up
	hex_cfi	endproc
	hex_function	faster_hex_1_0_0_x86_64_core_backend_Backend_decode_outlined,.text
	hex_cfi	startproc
	pushq	%r15
	hex_cfi	def_cfa_offset 16
	pushq	%r14
	hex_cfi	def_cfa_offset 24
	pushq	%r12
	hex_cfi	def_cfa_offset 32
	pushq	%rbx
	hex_cfi	def_cfa_offset 40
	pushq	%rax
	hex_cfi	def_cfa_offset 48
	hex_cfi	offset %rbx,-40
	hex_cfi	offset %r12,-32
	hex_cfi	offset %r14,-24
	hex_cfi	offset %r15,-16
	movq	%rcx,%r15
	cmpq	$15,%rsi
	ja	15f
	shrq	%rsi
	je	2f
	movzbl	%r8b,%eax
	leaq	.L100_switch.table.faster_hex_1_0_0_x86_64_decode_grouped.49(%rip),%rcx
	movq	(%rcx,%rax,8),%r8
	xorl	%ecx,%ecx
	xorl	%ebx,%ebx
	.p2align	4
7:
	movzbl	(%rdi,%rbx,2),%eax
	movzbl	(%r8,%rax),%r9d
	xorl	%eax,%eax
	cmpb	$-1,%r9b
	je	24f
	movzbl	1(%rdi,%rbx,2),%r10d
	movzbl	(%r8,%r10),%r10d
	cmpb	$-1,%r10b
	je	24f
	movq	%rcx,%rax
	shlq	$8,%rax
	shlb	$4,%r9b
	addb	%r9b,%r10b
	movzbl	%r10b,%ecx
	orq	%rax,%rcx
	incq	%rbx
	cmpq	%rbx,%rsi
	jne	7b
	movb	$1,%al
	testq	%r15,%r15
	jne	4f
	jmp	24f
15:
	movq	%rdx,%rbx
	movzbl	%r8b,%r14d
	movq	%rdi,%r12
	movl	%r14d,%edx
	callq	faster_hex_1_0_0_x86_64_core_look_ups_check_by_look_up
	testb	%al,%al
	je	16f
	movb	$1,%al
	testq	%r15,%r15
	je	24f
	leaq	.L100_switch.table.faster_hex_1_0_0_x86_64_decode_grouped.49(%rip),%rcx
	movq	(%rcx,%r14,8),%rcx
	cmpq	$1,%r15
	jne	20f
	xorl	%edx,%edx
	movq	%rbx,%rsi
	movq	%r12,%rdi
	jmp	23f
16:
	xorl	%eax,%eax
	jmp	24f
2:
	xorl	%ecx,%ecx
	movb	$1,%al
	testq	%r15,%r15
	je	24f
4:
	leaq	(%rdx,%r15),%rsi
	movl	%r15d,%edi
	andl	$3,%edi
	cmpq	$4,%r15
	jae	10f
	xorl	%r8d,%r8d
	jmp	13f
10:
	movabsq	$9223372036854775804,%r8
	andq	%r15,%r8
	addq	%r15,%rdx
	decq	%rdx
	xorl	%r9d,%r9d
	.p2align	4
11:
	movb	%cl,(%rdx)
	movq	%r9,%rbx
	xorq	$-2,%rbx
	movb	%ch,(%rsi,%rbx)
	movl	%ecx,%r10d
	shrl	$16,%r10d
	movq	%r9,%r11
	xorq	$-3,%r11
	movb	%r10b,(%rsi,%r11)
	movl	%ecx,%r10d
	shrl	$24,%r10d
	movq	%r9,%r11
	xorq	$-4,%r11
	movb	%r10b,(%rsi,%r11)
	shrq	$32,%rcx
	addq	$4,%r9
	addq	$-4,%rdx
	cmpq	%r9,%r8
	jne	11b
	testq	%rdi,%rdi
	je	24f
13:
	notq	%r8
	addq	%r8,%rsi
	negq	%rdi
	xorl	%edx,%edx
	.p2align	4
14:
	movb	%cl,(%rsi,%rdx)
	shrq	$8,%rcx
	decq	%rdx
	cmpq	%rdx,%rdi
	jne	14b
	jmp	24f
20:
	movabsq	$9223372036854775804,%rdx
	orq	$2,%rdx
	andq	%r15,%rdx
	xorl	%r8d,%r8d
	movq	%rbx,%rsi
	movq	%r12,%rdi
	.p2align	4
21:
	movzbl	(%rdi,%r8,2),%r9d
	movzbl	(%rcx,%r9),%r9d
	movzbl	1(%rdi,%r8,2),%r10d
	shlb	$4,%r9b
	addb	(%rcx,%r10),%r9b
	movb	%r9b,(%rsi,%r8)
	movzbl	2(%rdi,%r8,2),%r9d
	movzbl	(%rcx,%r9),%r9d
	movzbl	3(%rdi,%r8,2),%r10d
	shlb	$4,%r9b
	addb	(%rcx,%r10),%r9b
	movb	%r9b,1(%rsi,%r8)
	addq	$2,%r8
	cmpq	%r8,%rdx
	jne	21b
	testb	$1,%r15b
	je	24f
23:
	movzbl	(%rdi,%rdx,2),%r8d
	movzbl	(%rcx,%r8),%r8d
	movzbl	1(%rdi,%rdx,2),%edi
	shlb	$4,%r8b
	addb	(%rcx,%rdi),%r8b
	movb	%r8b,(%rsi,%rdx)
24:
	addq	$8,%rsp
	hex_cfi	def_cfa_offset 40
	popq	%rbx
	hex_cfi	def_cfa_offset 32
	popq	%r12
	hex_cfi	def_cfa_offset 24
	popq	%r14
	hex_cfi	def_cfa_offset 16
	popq	%r15
	hex_cfi	def_cfa_offset 8
	retq
	hex_end	faster_hex_1_0_0_x86_64_core_backend_Backend_decode_outlined
	hex_cfi	endproc
	hex_function	faster_hex_1_0_0_x86_64_core_backend_Backend_decode_or_find_outlined,.text
	hex_cfi	startproc
	pushq	%rbp
	hex_cfi	def_cfa_offset 16
	pushq	%r15
	hex_cfi	def_cfa_offset 24
	pushq	%r14
	hex_cfi	def_cfa_offset 32
	pushq	%rbx
	hex_cfi	def_cfa_offset 40
	pushq	%rax
	hex_cfi	def_cfa_offset 48
	hex_cfi	offset %rbx,-40
	hex_cfi	offset %r14,-32
	hex_cfi	offset %r15,-24
	hex_cfi	offset %rbp,-16
	movq	%rsi,%r14
	movq	%rdi,%r15
	movzbl	%r8b,%ebp
	cmpq	$193,%rsi
	jb	3f
	movq	%rcx,%rbx
	movq	%r15,%rdi
	movq	%r14,%rsi
	movl	%ebp,%r8d
	callq	faster_hex_1_0_0_x86_64_core_backend_Backend_decode_outlined
	testb	%al,%al
	je	3f
	xorl	%edx,%edx
4:
	movq	%rbx,%rax
	addq	$8,%rsp
	hex_cfi	def_cfa_offset 40
	popq	%rbx
	hex_cfi	def_cfa_offset 32
	popq	%r14
	hex_cfi	def_cfa_offset 24
	popq	%r15
	hex_cfi	def_cfa_offset 16
	popq	%rbp
	hex_cfi	def_cfa_offset 8
	retq
3:
	hex_cfi	def_cfa_offset 48
	movq	%r15,%rdi
	movq	%r14,%rsi
	movl	%ebp,%edx
	callq	faster_hex_1_0_0_x86_64_core_backend_Backend_first_invalid_byte
	movq	%rax,%rbx
	movzbl	%dl,%edx
	orl	$256,%edx
	jmp	4b
	hex_end	faster_hex_1_0_0_x86_64_core_backend_Backend_decode_or_find_outlined
	hex_cfi	endproc
	hex_function	faster_hex_1_0_0_x86_64_core_backend_Backend_first_invalid_byte,.text.unlikely
	hex_cfi	startproc
	pushq	%r15
	hex_cfi	def_cfa_offset 16
	pushq	%r14
	hex_cfi	def_cfa_offset 24
	pushq	%r13
	hex_cfi	def_cfa_offset 32
	pushq	%r12
	hex_cfi	def_cfa_offset 40
	pushq	%rbx
	hex_cfi	def_cfa_offset 48
	hex_cfi	offset %rbx,-48
	hex_cfi	offset %r12,-40
	hex_cfi	offset %r13,-32
	hex_cfi	offset %r14,-24
	hex_cfi	offset %r15,-16
	movq	%rsi,%rbx
	movq	%rdi,%r14
	movzbl	%dl,%r12d
	cmpq	$65,%rsi
	jb	1f
	movq	%rbx,%r13
	shrq	$6,%r13
	xorl	%r15d,%r15d
	.p2align	4
3:
	leaq	(%r14,%r15),%rdi
	movl	$64,%esi
	movl	%r12d,%edx
	callq	faster_hex_1_0_0_x86_64_core_look_ups_check_by_look_up
	testb	%al,%al
	je	6f
	addq	$64,%r15
	decq	%r13
	jne	3b
	movq	%rbx,%r15
	andq	$-64,%r15
	jmp	6f
1:
	xorl	%r15d,%r15d
6:
	cmpq	%rbx,%r15
	jae	10f
	leaq	.L100_switch.table.faster_hex_1_0_0_x86_64_decode_grouped.49(%rip),%rax
	movq	(%rax,%r12,8),%rax
	.p2align	4
8:
	movzbl	(%r14,%r15),%edx
	cmpb	$-1,(%rax,%rdx)
	je	11f
	incq	%r15
	cmpq	%r15,%rbx
	jne	8b
10:
	ud2
11:
	movq	%r15,%rax
	popq	%rbx
	hex_cfi	def_cfa_offset 40
	popq	%r12
	hex_cfi	def_cfa_offset 32
	popq	%r13
	hex_cfi	def_cfa_offset 24
	popq	%r14
	hex_cfi	def_cfa_offset 16
	popq	%r15
	hex_cfi	def_cfa_offset 8
	retq
	hex_end	faster_hex_1_0_0_x86_64_core_backend_Backend_first_invalid_byte
	hex_cfi	endproc
	hex_function	faster_hex_1_0_0_x86_64_core_backend_Backend_encode_outlined,.text
	hex_cfi	startproc
	jmp	faster_hex_1_0_0_x86_64_core_look_ups_encode_by_look_up
	hex_end	faster_hex_1_0_0_x86_64_core_backend_Backend_encode_outlined
	hex_cfi	endproc
	hex_function	faster_hex_1_0_0_x86_64_core_look_ups_encode_by_look_up,.text
	hex_cfi	startproc
	leaq	.L100_static.14(%rip),%r8
	leaq	.L100_static.15(%rip),%rax
	testl	%ecx,%ecx
	cmovneq	%r8,%rax
	testq	%rsi,%rsi
	je	7f
	cmpq	$1,%rsi
	jne	3f
	xorl	%ecx,%ecx
	jmp	6f
3:
	movabsq	$9223372036854775806,%rcx
	andq	%rsi,%rcx
	xorl	%r8d,%r8d
	.p2align	4
4:
	movzbl	(%rdi,%r8),%r9d
	movzwl	(%rax,%r9,2),%r9d
	movw	%r9w,(%rdx,%r8,2)
	movzbl	1(%rdi,%r8),%r9d
	movzwl	(%rax,%r9,2),%r9d
	movw	%r9w,2(%rdx,%r8,2)
	addq	$2,%r8
	cmpq	%r8,%rcx
	jne	4b
	testb	$1,%sil
	je	7f
6:
	movzbl	(%rdi,%rcx),%esi
	movzwl	(%rax,%rsi,2),%eax
	movw	%ax,(%rdx,%rcx,2)
7:
	retq
	hex_end	faster_hex_1_0_0_x86_64_core_look_ups_encode_by_look_up
	hex_cfi	endproc
	hex_function	faster_hex_1_0_0_x86_64_core_backend_Backend_first_invalid,.text
	hex_cfi	startproc
	pushq	%r15
	hex_cfi	def_cfa_offset 16
	pushq	%r14
	hex_cfi	def_cfa_offset 24
	pushq	%r13
	hex_cfi	def_cfa_offset 32
	pushq	%r12
	hex_cfi	def_cfa_offset 40
	pushq	%rbx
	hex_cfi	def_cfa_offset 48
	hex_cfi	offset %rbx,-48
	hex_cfi	offset %r12,-40
	hex_cfi	offset %r13,-32
	hex_cfi	offset %r14,-24
	hex_cfi	offset %r15,-16
	movl	%edx,%ebx
	movq	%rsi,%r14
	movq	%rdi,%r15
	callq	faster_hex_1_0_0_x86_64_core_look_ups_check_by_look_up
	testb	%al,%al
	jne	12f
	movzbl	%bl,%r12d
	cmpq	$65,%r14
	jb	2f
	movq	%r14,%r13
	shrq	$6,%r13
	xorl	%ebx,%ebx
	.p2align	4
4:
	leaq	(%r15,%rbx),%rdi
	movl	$64,%esi
	movl	%r12d,%edx
	callq	faster_hex_1_0_0_x86_64_core_look_ups_check_by_look_up
	testb	%al,%al
	je	7f
	addq	$64,%rbx
	decq	%r13
	jne	4b
	movq	%r14,%rbx
	andq	$-64,%rbx
7:
	cmpq	%r14,%rbx
	jb	8f
	jmp	12f
2:
	xorl	%ebx,%ebx
	cmpq	%r14,%rbx
	jae	12f
8:
	leaq	.L100_switch.table.faster_hex_1_0_0_x86_64_decode_grouped.49(%rip),%rax
	movq	(%rax,%r12,8),%rax
	.p2align	4
9:
	movzbl	(%r15,%rbx),%ecx
	cmpb	$-1,(%rax,%rcx)
	je	10f
	incq	%rbx
	cmpq	%rbx,%r14
	jne	9b
12:
	xorl	%ebx,%ebx
	xorl	%eax,%eax
13:
	movq	%rbx,%rdx
	popq	%rbx
	hex_cfi	def_cfa_offset 40
	popq	%r12
	hex_cfi	def_cfa_offset 32
	popq	%r13
	hex_cfi	def_cfa_offset 24
	popq	%r14
	hex_cfi	def_cfa_offset 16
	popq	%r15
	hex_cfi	def_cfa_offset 8
	retq
10:
	hex_cfi	def_cfa_offset 48
	movb	$1,%al
	jmp	13b
	hex_end	faster_hex_1_0_0_x86_64_core_backend_Backend_first_invalid
	hex_cfi	endproc
	hex_function	faster_hex_1_0_0_x86_64_codec_pieces_read_long_piece,.text
	hex_cfi	startproc
	pushq	%rbp
	hex_cfi	def_cfa_offset 16
	pushq	%r15
	hex_cfi	def_cfa_offset 24
	pushq	%r14
	hex_cfi	def_cfa_offset 32
	pushq	%r12
	hex_cfi	def_cfa_offset 40
	pushq	%rbx
	hex_cfi	def_cfa_offset 48
	hex_cfi	offset %rbx,-48
	hex_cfi	offset %r12,-40
	hex_cfi	offset %r14,-32
	hex_cfi	offset %r15,-24
	hex_cfi	offset %rbp,-16
	testb	$1,%sil
	jne	5f
	movq	%rsi,%rbx
	shrq	%rbx
	cmpq	%rbx,%rcx
	jb	5f
	movzbl	%r8b,%ebp
	cmpq	$192,%rsi
	ja	4f
	movq	%rdi,%r14
	movq	%rsi,%r15
	movq	%rdx,%r12
	movq	%rbx,%rcx
	movl	%ebp,%r8d
	callq	faster_hex_1_0_0_x86_64_core_backend_Backend_decode_outlined
	movq	%r14,%rdi
	movq	%r15,%rsi
	movq	%r12,%rdx
	testb	%al,%al
	jne	6f
4:
	movq	%rbx,%rcx
	movl	%ebp,%r8d
	callq	faster_hex_1_0_0_x86_64_core_backend_Backend_decode_or_find_outlined
	testw	%dx,%dx
	jne	5f
6:
	popq	%rbx
	hex_cfi	def_cfa_offset 40
	popq	%r12
	hex_cfi	def_cfa_offset 32
	popq	%r14
	hex_cfi	def_cfa_offset 24
	popq	%r15
	hex_cfi	def_cfa_offset 16
	popq	%rbp
	hex_cfi	def_cfa_offset 8
	retq
5:
	hex_cfi	def_cfa_offset 48
	ud2
	hex_end	faster_hex_1_0_0_x86_64_codec_pieces_read_long_piece
	hex_cfi	endproc
	hex_merged	16
	.p2align	4,0x0
.L100_CPI8_0:
	.zero	16,32
	hex_function	faster_hex_1_0_0_x86_64_codec_spaced_run_len,.text
	hex_cfi	startproc
	cmpq	$192,%rsi
	movl	$192,%eax
	cmovbq	%rsi,%rax
	xorl	%ecx,%ecx
	testq	%rsi,%rsi
	setne	%cl
	cmpq	$32,%rsi
	jae	1f
	.p2align	4
	cmpq	%rcx,%rax
	je	8f
6:
	cmpb	$33,(%rdi,%rcx)
	jb	7f
	incq	%rcx
	cmpq	%rcx,%rax
	jne	6b
8:
	retq
1:
	leaq	-32(%rax),%rdx
	.p2align	4
2:
	cmpq	%rcx,%rdx
	cmovbq	%rdx,%rcx
	movdqu	(%rdi,%rcx),%xmm0
	movdqu	16(%rdi,%rcx),%xmm1
	movdqa	.L100_CPI8_0(%rip),%xmm2
	movdqa	%xmm0,%xmm3
	pminub	%xmm2,%xmm3
	pcmpeqb	%xmm0,%xmm3
	pmovmskb	%xmm3,%r8d
	pminub	%xmm1,%xmm2
	pcmpeqb	%xmm1,%xmm2
	pmovmskb	%xmm2,%esi
	shll	$16,%esi
	orl	%r8d,%esi
	jne	3f
	addq	$32,%rcx
	cmpq	%rax,%rcx
	jb	2b
	jmp	8b
3:
	rep		bsfl	%esi,%edx
	addq	%rdx,%rcx
	cmpq	%rcx,%rax
	cmovaeq	%rcx,%rax
	testq	%rcx,%rcx
	movl	$1,%ecx
	cmoveq	%rcx,%rax
	retq
7:
	movq	%rcx,%rax
	retq
	hex_end	faster_hex_1_0_0_x86_64_codec_spaced_run_len
	hex_cfi	endproc
	hex_function	faster_hex_1_0_0_x86_64_codec_spaced_line_count,.text
	hex_cfi	startproc
	pushq	%rbp
	hex_cfi	def_cfa_offset 16
	pushq	%r15
	hex_cfi	def_cfa_offset 24
	pushq	%r14
	hex_cfi	def_cfa_offset 32
	pushq	%r13
	hex_cfi	def_cfa_offset 40
	pushq	%r12
	hex_cfi	def_cfa_offset 48
	pushq	%rbx
	hex_cfi	def_cfa_offset 56
	subq	$24,%rsp
	hex_cfi	def_cfa_offset 80
	hex_cfi	offset %rbx,-56
	hex_cfi	offset %r12,-48
	hex_cfi	offset %r13,-40
	hex_cfi	offset %r14,-32
	hex_cfi	offset %r15,-24
	hex_cfi	offset %rbp,-16
	movl	%r8d,12(%rsp)
	testq	%rdx,%rdx
	je	11f
	movq	%rcx,%r13
	movq	%rdx,%r14
	movq	%rsi,%r15
	cmpq	$33,%rdx
	movq	%rdi,16(%rsp)
	jae	13f
2:
	leaq	(%r14,%r13),%rbp
	xorl	%ebx,%ebx
	cmpq	%r15,%rbp
	ja	12f
	movq	%rdi,%r12
	jmp	6f
	.p2align	4
4:
	movzbl	(%rcx,%r14),%eax
	cmpb	(%r12,%r14),%al
	jne	12f
5:
	incq	%rbx
	subq	%rbp,%r15
	addq	%rbp,%r12
	cmpq	%r15,%rbp
	ja	12f
6:
	movzbl	12(%rsp),%edx
	movq	%r12,%rdi
	movq	%r14,%rsi
	callq	faster_hex_1_0_0_x86_64_core_look_ups_check_by_look_up
	testb	%al,%al
	je	12f
	testq	%r13,%r13
	movq	16(%rsp),%rcx
	je	5b
	cmpq	$1,%r13
	je	4b
	movzbl	(%rcx,%r14),%eax
	cmpb	(%r12,%r14),%al
	jne	12f
	movzbl	1(%rcx,%r14),%eax
	cmpb	1(%r12,%r14),%al
	je	5b
	jmp	12f
13:
	cmpq	$64,%r14
	ja	23f
	leaq	(%r14,%r13),%rbp
	xorl	%ebx,%ebx
	cmpq	%r15,%rbp
	ja	12f
	movq	%rdi,%r12
	jmp	18f
	.p2align	4
16:
	movzbl	(%rcx,%r14),%eax
	cmpb	(%r12,%r14),%al
	jne	12f
17:
	incq	%rbx
	subq	%rbp,%r15
	addq	%rbp,%r12
	cmpq	%r15,%rbp
	ja	12f
18:
	movzbl	12(%rsp),%edx
	movq	%r12,%rdi
	movq	%r14,%rsi
	callq	faster_hex_1_0_0_x86_64_core_look_ups_check_by_look_up
	testb	%al,%al
	je	12f
	testq	%r13,%r13
	movq	16(%rsp),%rcx
	je	17b
	cmpq	$1,%r13
	je	16b
	movzbl	(%rcx,%r14),%eax
	cmpb	(%r12,%r14),%al
	jne	12f
	movzbl	1(%rcx,%r14),%eax
	cmpb	1(%r12,%r14),%al
	je	17b
	jmp	12f
23:
	cmpq	$96,%r14
	ja	33f
	leaq	(%r14,%r13),%rbp
	xorl	%ebx,%ebx
	cmpq	%r15,%rbp
	ja	12f
	movq	%rdi,%r12
	jmp	28f
26:
	movzbl	(%rcx,%r14),%eax
	cmpb	(%r12,%r14),%al
	jne	12f
27:
	incq	%rbx
	subq	%rbp,%r15
	addq	%rbp,%r12
	cmpq	%r15,%rbp
	ja	12f
28:
	movzbl	12(%rsp),%edx
	movq	%r12,%rdi
	movq	%r14,%rsi
	callq	faster_hex_1_0_0_x86_64_core_look_ups_check_by_look_up
	testb	%al,%al
	je	12f
	testq	%r13,%r13
	movq	16(%rsp),%rcx
	je	27b
	cmpq	$1,%r13
	je	26b
	movzbl	(%rcx,%r14),%eax
	cmpb	(%r12,%r14),%al
	jne	12f
	movzbl	1(%rcx,%r14),%eax
	cmpb	1(%r12,%r14),%al
	je	27b
	jmp	12f
33:
	cmpq	$128,%r14
	ja	2b
	leaq	(%r14,%r13),%rbp
	cmpq	%r15,%rbp
	jbe	36f
11:
	xorl	%ebx,%ebx
12:
	movq	%rbx,%rax
	addq	$24,%rsp
	hex_cfi	def_cfa_offset 56
	popq	%rbx
	hex_cfi	def_cfa_offset 48
	popq	%r12
	hex_cfi	def_cfa_offset 40
	popq	%r13
	hex_cfi	def_cfa_offset 32
	popq	%r14
	hex_cfi	def_cfa_offset 24
	popq	%r15
	hex_cfi	def_cfa_offset 16
	popq	%rbp
	hex_cfi	def_cfa_offset 8
	retq
36:
	hex_cfi	def_cfa_offset 80
	testq	%r13,%r13
	je	45f
	xorl	%ebx,%ebx
	movq	%rdi,%r12
	cmpq	$1,%r13
	jne	44f
38:
	movzbl	12(%rsp),%edx
	movq	%r12,%rdi
	movq	%r14,%rsi
	callq	faster_hex_1_0_0_x86_64_core_look_ups_check_by_look_up
	testb	%al,%al
	je	12b
	movq	16(%rsp),%rax
	movzbl	(%rax,%r14),%eax
	cmpb	(%r12,%r14),%al
	jne	12b
	incq	%rbx
	subq	%rbp,%r15
	addq	%rbp,%r12
	cmpq	%r15,%rbp
	jbe	38b
	jmp	12b
41:
	movq	16(%rsp),%rcx
	movzbl	(%rcx,%r14),%eax
	cmpb	(%r12,%r14),%al
	jne	12b
	movzbl	1(%rcx,%r14),%eax
	cmpb	1(%r12,%r14),%al
	jne	12b
	incq	%rbx
	subq	%rbp,%r15
	addq	%rbp,%r12
	cmpq	%r15,%rbp
	ja	12b
44:
	movzbl	12(%rsp),%edx
	movq	%r12,%rdi
	movq	%r14,%rsi
	callq	faster_hex_1_0_0_x86_64_core_look_ups_check_by_look_up
	testb	%al,%al
	jne	41b
	jmp	12b
45:
	subq	%r13,%r15
	subq	%r14,%rdi
	movq	%r13,%rbx
46:
	addq	%rbp,%rdi
	movzbl	12(%rsp),%edx
	movq	%rdi,%r12
	movq	%r14,%rsi
	callq	faster_hex_1_0_0_x86_64_core_look_ups_check_by_look_up
	testb	%al,%al
	je	12b
	subq	%rbp,%r15
	incq	%rbx
	cmpq	%r15,%rbp
	movq	%r12,%rdi
	jbe	46b
	jmp	12b
	hex_end	faster_hex_1_0_0_x86_64_codec_spaced_line_count
	hex_cfi	endproc
	hex_function	faster_hex_1_0_0_x86_64_codec_spaced_survey,.text
	hex_cfi	startproc
	pushq	%rbp
	hex_cfi	def_cfa_offset 16
	pushq	%r15
	hex_cfi	def_cfa_offset 24
	pushq	%r14
	hex_cfi	def_cfa_offset 32
	pushq	%r13
	hex_cfi	def_cfa_offset 40
	pushq	%r12
	hex_cfi	def_cfa_offset 48
	pushq	%rbx
	hex_cfi	def_cfa_offset 56
	subq	$40,%rsp
	hex_cfi	def_cfa_offset 96
	hex_cfi	offset %rbx,-56
	hex_cfi	offset %r12,-48
	hex_cfi	offset %r13,-40
	hex_cfi	offset %r14,-32
	hex_cfi	offset %r15,-24
	hex_cfi	offset %rbp,-16
	movq	(%rdx),%r8
	movq	16(%rdx),%rax
	movq	8(%rdx),%r15
	addq	%r8,%r15
	imulq	%rax,%r15
	imulq	%r8,%rax
	movb	$1,%dl
	jmp	15f
	.p2align	4
1:
	movzbl	(%rdi,%r15),%r8d
	cmpq	$32,%r8
	ja	3f
	movabsq	$4294981120,%r9
	btq	%r8,%r9
	jb	14f
3:
	movl	%ecx,12(%rsp)
	movb	%dl,11(%rsp)
	movq	%rax,24(%rsp)
	movq	%rdi,16(%rsp)
	addq	%r15,%rdi
	movq	%rsi,32(%rsp)
	movq	%rsi,%r12
	subq	%r15,%r12
	movq	%rdi,%rbp
	movq	%r12,%rsi
	callq	faster_hex_1_0_0_x86_64_codec_spaced_run_len
	movq	%rax,%rbx
	movq	%rax,%r14
	andq	$-2,%r14
	cmpq	%r14,%r12
	jbe	8f
	movq	16(%rsp),%rax
	addq	%r14,%rax
	movzbl	(%r15,%rax),%ecx
	xorl	%r13d,%r13d
	cmpq	$32,%rcx
	movl	12(%rsp),%eax
	ja	9f
	movabsq	$4294981120,%rdx
	btq	%rcx,%rdx
	movq	%rbp,%rdi
	jae	10f
	movq	%rbx,%rcx
	orq	$1,%rcx
	movl	$1,%r13d
	cmpq	%rcx,%r12
	jbe	10f
	addq	16(%rsp),%rcx
	movzbl	(%r15,%rcx),%ecx
	leal	-9(%rcx),%edx
	cmpb	$2,%dl
	setb	%dl
	movl	%ecx,%esi
	andb	$-2,%sil
	cmpb	$12,%sil
	sete	%sil
	cmpb	$32,%cl
	sete	%cl
	orb	%sil,%cl
	orb	%dl,%cl
	movzbl	%cl,%r13d
	incq	%r13
	jmp	10f
8:
	xorl	%r13d,%r13d
	movl	12(%rsp),%eax
9:
	movq	%rbp,%rdi
10:
	movzbl	%al,%ebp
	movq	%r12,%rsi
	movq	%r14,%rdx
	movq	%r13,%rcx
	movq	%rdi,%r12
	movl	%ebp,%r8d
	callq	faster_hex_1_0_0_x86_64_codec_spaced_line_count
	testq	%rax,%rax
	je	13f
	movq	%rax,%rcx
	addq	%r14,%r13
	imulq	%rax,%r13
	addq	%r13,%r15
	imulq	%r14,%rcx
	movq	24(%rsp),%rax
	addq	%rcx,%rax
	movq	32(%rsp),%rsi
	cmpq	%rsi,%r15
	movzbl	11(%rsp),%edx
	movl	12(%rsp),%ecx
	movq	16(%rsp),%rdi
	jb	1b
	jmp	16f
13:
	addq	%rbx,%r15
	movq	%r12,%rdi
	movq	%rbx,%rsi
	movl	%ebp,%edx
	callq	faster_hex_1_0_0_x86_64_codec_spaced_survey_bytes
	movq	%rax,%rcx
	movl	%edx,%esi
	movq	24(%rsp),%rax
	addq	%rcx,%rax
	movzbl	11(%rsp),%edx
	andb	%sil,%dl
	movq	32(%rsp),%rsi
	cmpq	%rsi,%r15
	movl	12(%rsp),%ecx
	movq	16(%rsp),%rdi
	jb	1b
	jmp	16f
	.p2align	4
14:
	incq	%r15
15:
	cmpq	%rsi,%r15
	jb	1b
16:
	addq	$40,%rsp
	hex_cfi	def_cfa_offset 56
	popq	%rbx
	hex_cfi	def_cfa_offset 48
	popq	%r12
	hex_cfi	def_cfa_offset 40
	popq	%r13
	hex_cfi	def_cfa_offset 32
	popq	%r14
	hex_cfi	def_cfa_offset 24
	popq	%r15
	hex_cfi	def_cfa_offset 16
	popq	%rbp
	hex_cfi	def_cfa_offset 8
	retq
	hex_end	faster_hex_1_0_0_x86_64_codec_spaced_survey
	hex_cfi	endproc
	hex_function	faster_hex_1_0_0_x86_64_codec_spaced_survey_bytes,.text
	hex_cfi	startproc
	movl	%edx,%ecx
	movb	$1,%dl
	xorl	%eax,%eax
	testq	%rsi,%rsi
	je	32f
	movq	%rsi,%r9
	movq	%rdi,%r10
2:
	incq	%r10
	movl	$1,%r8d
	subq	%r9,%r8
	movq	%r8,%r9
	.p2align	4
3:
	movzbl	-1(%r10),%r11d
	movabsq	$4294981120,%r8
	cmpq	$32,%r11
	ja	6f
	btq	%r11,%r8
	jae	6f
	incq	%r10
	incq	%r9
	cmpq	$1,%r9
	jne	3b
	jmp	7f
6:
	incq	%rax
	negq	%r9
	jb	2b
7:
	cmpb	$2,%cl
	je	16f
	movzbl	%cl,%ecx
	cmpl	$1,%ecx
	jne	23f
	xorl	%ecx,%ecx
	jmp	11f
	.p2align	4
10:
	incq	%rcx
	cmpq	%rcx,%rsi
	je	32f
11:
	movzbl	(%rdi,%rcx),%r9d
	cmpq	$32,%r9
	ja	13f
	btq	%r9,%r8
	jb	10b
13:
	cmpb	$48,%r9b
	jb	31f
	cmpb	$58,%r9b
	setae	%r10b
	addb	$-97,%r9b
	cmpb	$6,%r9b
	setae	%r9b
	testb	%r9b,%r10b
	je	10b
	xorl	%edx,%edx
	retq
16:
	xorl	%ecx,%ecx
	jmp	18f
	.p2align	4
17:
	incq	%rcx
	cmpq	%rcx,%rsi
	je	32f
18:
	movzbl	(%rdi,%rcx),%r9d
	cmpq	$32,%r9
	ja	20f
	btq	%r9,%r8
	jb	17b
20:
	cmpb	$48,%r9b
	jb	31f
	cmpb	$58,%r9b
	setae	%r10b
	addb	$-65,%r9b
	cmpb	$6,%r9b
	setae	%r9b
	testb	%r9b,%r10b
	je	17b
	xorl	%edx,%edx
	retq
23:
	xorl	%ecx,%ecx
	jmp	25f
	.p2align	4
24:
	incq	%rcx
	cmpq	%rcx,%rsi
	je	32f
25:
	movzbl	(%rdi,%rcx),%r9d
	cmpq	$32,%r9
	ja	27f
	btq	%r9,%r8
	jb	24b
27:
	cmpb	$48,%r9b
	jb	31f
	cmpb	$58,%r9b
	jb	24b
	cmpb	$65,%r9b
	jb	31f
	cmpb	$71,%r9b
	setae	%r10b
	addb	$-97,%r9b
	cmpb	$6,%r9b
	setae	%r9b
	testb	%r9b,%r10b
	je	24b
31:
	xorl	%edx,%edx
32:
	retq
	hex_end	faster_hex_1_0_0_x86_64_codec_spaced_survey_bytes
	hex_cfi	endproc
	hex_function	faster_hex_1_0_0_x86_64_codec_spaced_invalid_error,.text.unlikely
	hex_cfi	startproc
	testq	%rdx,%rdx
	je	23f
	cmpb	$2,%cl
	je	9f
	movzbl	%cl,%eax
	cmpl	$1,%eax
	jne	15f
	xorl	%eax,%eax
	jmp	4f
	.p2align	4
8:
	incq	%rax
	cmpq	%rax,%rdx
	je	23f
4:
	movzbl	(%rsi,%rax),%ecx
	cmpq	$32,%rcx
	ja	6f
	movabsq	$4294981120,%r8
	btq	%rcx,%r8
	jb	8b
6:
	cmpb	$48,%cl
	jb	24f
	cmpb	$58,%cl
	setae	%r8b
	addb	$-97,%cl
	cmpb	$6,%cl
	setae	%cl
	testb	%cl,%r8b
	je	8b
	jmp	24f
9:
	xorl	%eax,%eax
	jmp	10f
	.p2align	4
14:
	incq	%rax
	cmpq	%rax,%rdx
	je	23f
10:
	movzbl	(%rsi,%rax),%ecx
	cmpq	$32,%rcx
	ja	12f
	movabsq	$4294981120,%r8
	btq	%rcx,%r8
	jb	14b
12:
	cmpb	$48,%cl
	jb	24f
	cmpb	$58,%cl
	setae	%r8b
	addb	$-65,%cl
	cmpb	$6,%cl
	setae	%cl
	testb	%cl,%r8b
	je	14b
	jmp	24f
15:
	xorl	%eax,%eax
	jmp	16f
	.p2align	4
22:
	incq	%rax
	cmpq	%rax,%rdx
	je	23f
16:
	movzbl	(%rsi,%rax),%ecx
	cmpq	$32,%rcx
	ja	18f
	movabsq	$4294981120,%r8
	btq	%rcx,%r8
	jb	22b
18:
	cmpb	$48,%cl
	jb	24f
	cmpb	$58,%cl
	jb	22b
	cmpb	$65,%cl
	jb	24f
	cmpb	$71,%cl
	setae	%r8b
	addb	$-97,%cl
	cmpb	$6,%cl
	setae	%cl
	testb	%cl,%r8b
	je	22b
24:
	movzbl	(%rsi,%rax),%ecx
	movq	$0,(%rdi)
	movq	%rax,8(%rdi)
	movb	%cl,16(%rdi)
	movl	$0,17(%rdi)
	movl	$0,20(%rdi)
	retq
23:
	ud2
	hex_end	faster_hex_1_0_0_x86_64_codec_spaced_invalid_error
	hex_cfi	endproc
	hex_function	faster_hex_1_0_0_x86_64_codec_spaced_decode_runs,.text
	hex_cfi	startproc
	pushq	%rbp
	hex_cfi	def_cfa_offset 16
	pushq	%r15
	hex_cfi	def_cfa_offset 24
	pushq	%r14
	hex_cfi	def_cfa_offset 32
	pushq	%r13
	hex_cfi	def_cfa_offset 40
	pushq	%r12
	hex_cfi	def_cfa_offset 48
	pushq	%rbx
	hex_cfi	def_cfa_offset 56
	subq	$120,%rsp
	hex_cfi	def_cfa_offset 176
	hex_cfi	offset %rbx,-56
	hex_cfi	offset %r12,-48
	hex_cfi	offset %r13,-40
	hex_cfi	offset %r14,-32
	hex_cfi	offset %r15,-24
	hex_cfi	offset %rbp,-16
	movq	%rdx,%r9
	movq	%rsi,%r15
	movq	%rdi,%r12
	movq	16(%rcx),%rax
	movq	%rax,80(%rsp)
	movups	(%rcx),%xmm0
	movaps	%xmm0,64(%rsp)
	leaq	64(%rsp),%rdx
	movq	%r9,56(%rsp)
	movq	%r9,%rsi
	movl	%r8d,12(%rsp)
	movl	%r8d,%ecx
	callq	faster_hex_1_0_0_x86_64_codec_spaced_decode_lines
	movq	64(%rsp),%rax
	movq	80(%rsp),%rdx
	movq	72(%rsp),%rbx
	addq	%rax,%rbx
	imulq	%rdx,%rbx
	cmpq	%r15,%rbx
	jae	41f
	shrq	%rax
	imulq	%rax,%rdx
	movl	$1,%esi
	subq	%r15,%rsi
2:
	movq	%rbx,%r14
	addq	$2,%rbx
	.p2align	4
3:
	movzbl	(%r12,%r14),%ebp
	movabsq	$4294981120,%r13
	cmpq	$32,%rbp
	ja	6f
	btq	%rbp,%r13
	jae	6f
	incq	%r14
	incq	%rbx
	cmpq	%r15,%r14
	jb	3b
	jmp	41f
6:
	movq	%rsi,32(%rsp)
	movq	%rdx,40(%rsp)
	leaq	(%r12,%r14),%rdi
	movq	%r15,%rsi
	subq	%r14,%rsi
	movq	%rsi,16(%rsp)
	callq	faster_hex_1_0_0_x86_64_codec_spaced_run_len
	movq	16(%rsp),%rsi
	movq	%rax,%rdx
	andq	$-2,%rdx
	cmpq	%rdx,%rsi
	jbe	11f
	leaq	(%r12,%rdx),%rcx
	movzbl	(%r14,%rcx),%edi
	xorl	%ecx,%ecx
	cmpq	$32,%rdi
	ja	12f
	btq	%rdi,%r13
	leaq	(%r12,%r14),%rdi
	jae	13f
	movq	%rax,%r8
	orq	$1,%r8
	movl	$1,%ecx
	cmpq	%r8,%rsi
	jbe	13f
	addq	%r12,%r8
	movzbl	(%r14,%r8),%r9d
	leal	-9(%r9),%ecx
	cmpb	$2,%cl
	setb	%cl
	movl	%r9d,%r8d
	andb	$-2,%r8b
	cmpb	$12,%r8b
	sete	%r8b
	cmpb	$32,%r9b
	sete	%r9b
	orb	%r8b,%r9b
	orb	%cl,%r9b
	movzbl	%r9b,%ecx
	incq	%rcx
	jmp	13f
11:
	xorl	%ecx,%ecx
12:
	leaq	(%r12,%r14),%rdi
13:
	movq	%rcx,48(%rsp)
	movq	%rax,88(%rsp)
	movzbl	12(%rsp),%r8d
	movq	%rdx,16(%rsp)
	movl	%r8d,28(%rsp)
	callq	faster_hex_1_0_0_x86_64_codec_spaced_line_count
	movq	16(%rsp),%r8
	movq	%r8,96(%rsp)
	movq	48(%rsp),%rcx
	movq	%rcx,104(%rsp)
	movq	%rax,112(%rsp)
	testq	%rax,%rax
	je	15f
	movq	%rax,%rbp
	movq	56(%rsp),%rax
	movq	40(%rsp),%rbx
	leaq	(%rax,%rbx),%rsi
	leaq	96(%rsp),%rdx
	leaq	(%r12,%r14),%rdi
	movl	28(%rsp),%ecx
	movq	%r8,%r13
	callq	faster_hex_1_0_0_x86_64_codec_spaced_decode_lines
	movq	%rbx,%rdx
	movq	48(%rsp),%rbx
	addq	%r13,%rbx
	imulq	%rbp,%rbx
	addq	%r14,%rbx
	movq	88(%rsp),%rax
	shrq	%rax
	imulq	%rbp,%rax
	movq	32(%rsp),%rsi
	addq	%rax,%rdx
	cmpq	%r15,%rbx
	jb	2b
	jmp	41f
15:
	leaq	-1(%r15),%rax
	cmpq	%r14,%rax
	movq	40(%rsp),%rdx
	movq	32(%rsp),%rsi
	je	42f
	.p2align	4
16:
	movzbl	-1(%r12,%rbx),%eax
	cmpq	$32,%rax
	ja	19f
	btq	%rax,%r13
	jae	19f
	leaq	(%rsi,%rbx),%rax
	incq	%rax
	incq	%rbx
	cmpq	$2,%rax
	jne	16b
	jmp	42f
19:
	cmpb	$48,%bpl
	jb	42f
	movzbl	-1(%r12,%rbx),%eax
	cmpb	$57,%bpl
	ja	22f
	addb	$-48,%bpl
	jmp	29f
22:
	cmpb	$65,%bpl
	jb	42f
	cmpb	$71,%bpl
	jae	26f
	cmpb	$1,12(%rsp)
	je	42f
	addb	$-55,%bpl
	jmp	29f
26:
	cmpb	$2,12(%rsp)
	je	42f
	leal	-103(%rbp),%ecx
	cmpb	$-6,%cl
	jb	42f
	addb	$-87,%bpl
29:
	cmpb	$48,%al
	jb	42f
	cmpb	$57,%al
	ja	32f
	addb	$-48,%al
	jmp	39f
32:
	cmpb	$65,%al
	jb	42f
	cmpb	$71,%al
	jae	36f
	cmpb	$1,12(%rsp)
	je	42f
	addb	$-55,%al
	jmp	39f
36:
	cmpb	$2,12(%rsp)
	je	42f
	leal	-103(%rax),%ecx
	cmpb	$-6,%cl
	jb	42f
	addb	$-87,%al
39:
	shlb	$4,%bpl
	addb	%al,%bpl
	movq	56(%rsp),%rax
	movb	%bpl,(%rax,%rdx)
	movl	$1,%eax
	addq	%rax,%rdx
	cmpq	%r15,%rbx
	jb	2b
41:
	addq	$120,%rsp
	hex_cfi	def_cfa_offset 56
	popq	%rbx
	hex_cfi	def_cfa_offset 48
	popq	%r12
	hex_cfi	def_cfa_offset 40
	popq	%r13
	hex_cfi	def_cfa_offset 32
	popq	%r14
	hex_cfi	def_cfa_offset 24
	popq	%r15
	hex_cfi	def_cfa_offset 16
	popq	%rbp
	hex_cfi	def_cfa_offset 8
	retq
42:
	hex_cfi	def_cfa_offset 176
	ud2
	hex_end	faster_hex_1_0_0_x86_64_codec_spaced_decode_runs
	hex_cfi	endproc
	hex_function	faster_hex_1_0_0_x86_64_codec_spaced_decode_lines,.text
	hex_cfi	startproc
	pushq	%rbp
	hex_cfi	def_cfa_offset 16
	pushq	%r15
	hex_cfi	def_cfa_offset 24
	pushq	%r14
	hex_cfi	def_cfa_offset 32
	pushq	%r13
	hex_cfi	def_cfa_offset 40
	pushq	%r12
	hex_cfi	def_cfa_offset 48
	pushq	%rbx
	hex_cfi	def_cfa_offset 56
	subq	$24,%rsp
	hex_cfi	def_cfa_offset 80
	hex_cfi	offset %rbx,-56
	hex_cfi	offset %r12,-48
	hex_cfi	offset %r13,-40
	hex_cfi	offset %r14,-32
	hex_cfi	offset %r15,-24
	hex_cfi	offset %rbp,-16
	movq	%rsi,%rbx
	movq	%rdi,%r14
	movq	(%rdx),%r15
	movq	8(%rdx),%rax
	movq	16(%rdx),%r13
	cmpq	$32,%r15
	jae	1f
16:
	testq	%r13,%r13
	je	19f
	movq	%r15,%rdx
	shrq	%rdx
	movq	%rdx,8(%rsp)
	addq	%r15,%rax
	.p2align	4
18:
	movq	%r14,(%rsp)
	movzbl	%cl,%r8d
	movq	%r14,%rdi
	movq	%r15,%rsi
	movq	%rbx,%rdx
	movq	%r13,%r12
	movl	%ecx,%r13d
	movq	8(%rsp),%r14
	movq	%r14,%rcx
	movq	%r15,%rbp
	movq	%rax,%r15
	callq	faster_hex_1_0_0_x86_64_core_backend_Backend_decode_outlined
	movl	%r13d,%ecx
	movq	%r12,%r13
	movq	%r15,%rax
	movq	%rbp,%r15
	addq	%r14,%rbx
	movq	(%rsp),%r14
	addq	%rax,%r14
	decq	%r13
	jne	18b
	jmp	19f
1:
	cmpq	$64,%r15
	ja	6f
	testq	%r13,%r13
	je	19f
	movq	%r15,%r8
	shrq	%r8
	movzbl	%cl,%ebp
	movq	%r14,%rdi
	movq	%r15,%rsi
	movq	%rbx,%rdx
	movq	%r8,(%rsp)
	movq	%r8,%rcx
	movl	%ebp,%r8d
	movq	%rax,16(%rsp)
	callq	faster_hex_1_0_0_x86_64_core_backend_Backend_decode_outlined
	movq	16(%rsp),%rax
	cmpq	$1,%r13
	je	19f
	addq	%r15,%rax
	decq	%r13
	addq	%rax,%r14
	addq	(%rsp),%rbx
	movl	%ebp,8(%rsp)
	.p2align	4
5:
	movq	%r14,%rdi
	movq	%r15,%rsi
	movq	%rbx,%rdx
	movq	(%rsp),%r12
	movq	%r12,%rcx
	movl	%ebp,%r8d
	movq	%rax,%rbp
	callq	faster_hex_1_0_0_x86_64_core_backend_Backend_decode_outlined
	movq	%rbp,%rax
	movl	8(%rsp),%ebp
	addq	%rax,%r14
	addq	%r12,%rbx
	decq	%r13
	jne	5b
	jmp	19f
6:
	cmpq	$96,%r15
	ja	11f
	testq	%r13,%r13
	je	19f
	movq	%r15,%r8
	shrq	%r8
	movzbl	%cl,%ebp
	movq	%r14,%rdi
	movq	%r15,%rsi
	movq	%rbx,%rdx
	movq	%r8,(%rsp)
	movq	%r8,%rcx
	movl	%ebp,%r8d
	movq	%rax,16(%rsp)
	callq	faster_hex_1_0_0_x86_64_core_backend_Backend_decode_outlined
	movq	16(%rsp),%rax
	cmpq	$1,%r13
	je	19f
	addq	%r15,%rax
	decq	%r13
	addq	%rax,%r14
	addq	(%rsp),%rbx
	movl	%ebp,8(%rsp)
	.p2align	4
10:
	movq	%r14,%rdi
	movq	%r15,%rsi
	movq	%rbx,%rdx
	movq	(%rsp),%r12
	movq	%r12,%rcx
	movl	%ebp,%r8d
	movq	%rax,%rbp
	callq	faster_hex_1_0_0_x86_64_core_backend_Backend_decode_outlined
	movq	%rbp,%rax
	movl	8(%rsp),%ebp
	addq	%rax,%r14
	addq	%r12,%rbx
	decq	%r13
	jne	10b
	jmp	19f
11:
	cmpq	$128,%r15
	ja	16b
	testq	%r13,%r13
	je	19f
	movq	%r15,%r8
	shrq	%r8
	movzbl	%cl,%ebp
	movq	%r14,%rdi
	movq	%r15,%rsi
	movq	%rbx,%rdx
	movq	%r8,(%rsp)
	movq	%r8,%rcx
	movl	%ebp,%r8d
	movq	%rax,16(%rsp)
	callq	faster_hex_1_0_0_x86_64_core_backend_Backend_decode_outlined
	movq	16(%rsp),%rax
	cmpq	$1,%r13
	je	19f
	addq	%r15,%rax
	decq	%r13
	addq	%rax,%r14
	addq	(%rsp),%rbx
	movl	%ebp,8(%rsp)
	.p2align	4
15:
	movq	%r14,%rdi
	movq	%r15,%rsi
	movq	%rbx,%rdx
	movq	(%rsp),%r12
	movq	%r12,%rcx
	movl	%ebp,%r8d
	movq	%rax,%rbp
	callq	faster_hex_1_0_0_x86_64_core_backend_Backend_decode_outlined
	movq	%rbp,%rax
	movl	8(%rsp),%ebp
	addq	%rax,%r14
	addq	%r12,%rbx
	decq	%r13
	jne	15b
19:
	addq	$24,%rsp
	hex_cfi	def_cfa_offset 56
	popq	%rbx
	hex_cfi	def_cfa_offset 48
	popq	%r12
	hex_cfi	def_cfa_offset 40
	popq	%r13
	hex_cfi	def_cfa_offset 32
	popq	%r14
	hex_cfi	def_cfa_offset 24
	popq	%r15
	hex_cfi	def_cfa_offset 16
	popq	%rbp
	hex_cfi	def_cfa_offset 8
	retq
	hex_end	faster_hex_1_0_0_x86_64_codec_spaced_decode_lines
	hex_cfi	endproc
	hex_export	faster_hex_1_0_0_x86_64_check
	hex_cfi	startproc
	endbr64
	pushq	%rax
	hex_cfi	def_cfa_offset 16
	xorl	%edx,%edx
	callq	faster_hex_1_0_0_x86_64_core_look_ups_check_by_look_up
	popq	%rcx
	hex_cfi	def_cfa_offset 8
	retq
	hex_end	faster_hex_1_0_0_x86_64_check
	hex_cfi	endproc
	hex_export	faster_hex_1_0_0_x86_64_check_lower
	hex_cfi	startproc
	endbr64
	pushq	%rax
	hex_cfi	def_cfa_offset 16
	movl	$1,%edx
	callq	faster_hex_1_0_0_x86_64_core_look_ups_check_by_look_up
	popq	%rcx
	hex_cfi	def_cfa_offset 8
	retq
	hex_end	faster_hex_1_0_0_x86_64_check_lower
	hex_cfi	endproc
	hex_export	faster_hex_1_0_0_x86_64_check_upper
	hex_cfi	startproc
	endbr64
	pushq	%rax
	hex_cfi	def_cfa_offset 16
	movl	$2,%edx
	callq	faster_hex_1_0_0_x86_64_core_look_ups_check_by_look_up
	popq	%rcx
	hex_cfi	def_cfa_offset 8
	retq
	hex_end	faster_hex_1_0_0_x86_64_check_upper
	hex_cfi	endproc
	hex_export	faster_hex_1_0_0_x86_64_decode
	hex_cfi	startproc
	endbr64
	testb	$1,%sil
	jne	1f
	movq	%rsi,%rax
	shrq	%rax
	movl	$2,%r8d
	cmpq	%rax,%rcx
	jb	2f
	pushq	%r15
	hex_cfi	def_cfa_offset 16
	pushq	%r14
	hex_cfi	def_cfa_offset 24
	pushq	%r12
	hex_cfi	def_cfa_offset 32
	pushq	%rbx
	hex_cfi	def_cfa_offset 40
	pushq	%rax
	hex_cfi	def_cfa_offset 48
	hex_cfi	offset %rbx,-40
	hex_cfi	offset %r12,-32
	hex_cfi	offset %r14,-24
	hex_cfi	offset %r15,-16
	cmpq	$192,%rsi
	ja	7f
	movq	%rdi,%rbx
	movq	%rsi,%r14
	movq	%rdx,%r15
	movq	%rax,%rcx
	xorl	%r8d,%r8d
	movq	%rax,%r12
	callq	faster_hex_1_0_0_x86_64_core_backend_Backend_decode_outlined
	movq	%rbx,%rdi
	movq	%r14,%rsi
	movq	%r15,%rdx
	movl	%eax,%ecx
	movq	%r12,%rax
	testb	%cl,%cl
	je	7f
	xorl	%r8d,%r8d
	jmp	8f
1:
	hex_cfi	def_cfa_offset 8
	hex_cfi	restore %rbx
	hex_cfi	restore %r12
	hex_cfi	restore %r14
	hex_cfi	restore %r15
	movl	$1,%r8d
	xorl	%eax,%eax
2:
	movq	%r8,%rdx
	retq
7:
	hex_cfi	def_cfa_offset 48
	hex_cfi	offset %rbx,-40
	hex_cfi	offset %r12,-32
	hex_cfi	offset %r14,-24
	hex_cfi	offset %r15,-16
	movq	%rax,%rcx
	xorl	%r8d,%r8d
	callq	faster_hex_1_0_0_x86_64_core_backend_Backend_decode_or_find_outlined
	xorl	%ecx,%ecx
	testw	%dx,%dx
	setne	%cl
	shll	$8,%edx
	movzwl	%dx,%edx
	leaq	(%rcx,%rcx,2),%r8
	orq	%rdx,%r8
8:
	addq	$8,%rsp
	hex_cfi	def_cfa_offset 40
	popq	%rbx
	hex_cfi	def_cfa_offset 32
	popq	%r12
	hex_cfi	def_cfa_offset 24
	popq	%r14
	hex_cfi	def_cfa_offset 16
	popq	%r15
	hex_cfi	def_cfa_offset 8
	hex_cfi	restore %rbx
	hex_cfi	restore %r12
	hex_cfi	restore %r14
	hex_cfi	restore %r15
	movq	%r8,%rdx
	retq
	hex_end	faster_hex_1_0_0_x86_64_decode
	hex_cfi	endproc
	hex_export	faster_hex_1_0_0_x86_64_encode
	hex_cfi	startproc
	endbr64
	pushq	%rbx
	hex_cfi	def_cfa_offset 16
	hex_cfi	offset %rbx,-16
	movq	%rsi,%rbx
	shrq	%rcx
	cmpq	%rcx,%rsi
	jbe	1f
	xorl	%eax,%eax
	testq	%rbx,%rbx
	cmovgq	%rbx,%rax
	shrq	$63,%rbx
	leaq	2(,%rbx,2),%rdx
	movq	%rax,%rbx
	addq	%rbx,%rbx
	movq	%rbx,%rax
	popq	%rbx
	hex_cfi	def_cfa_offset 8
	retq
1:
	hex_cfi	def_cfa_offset 16
	movzbl	%r8b,%ecx
	andl	$1,%ecx
	movq	%rbx,%rsi
	callq	faster_hex_1_0_0_x86_64_core_backend_Backend_encode_outlined
	xorl	%edx,%edx
	addq	%rbx,%rbx
	movq	%rbx,%rax
	popq	%rbx
	hex_cfi	def_cfa_offset 8
	retq
	hex_end	faster_hex_1_0_0_x86_64_encode
	hex_cfi	endproc
	hex_export	faster_hex_1_0_0_x86_64_encode_grouped
	hex_cfi	startproc
	endbr64
	pushq	%rbp
	hex_cfi	def_cfa_offset 16
	pushq	%r15
	hex_cfi	def_cfa_offset 24
	pushq	%r14
	hex_cfi	def_cfa_offset 32
	pushq	%r13
	hex_cfi	def_cfa_offset 40
	pushq	%r12
	hex_cfi	def_cfa_offset 48
	pushq	%rbx
	hex_cfi	def_cfa_offset 56
	subq	$56,%rsp
	hex_cfi	def_cfa_offset 112
	hex_cfi	offset %rbx,-56
	hex_cfi	offset %r12,-48
	hex_cfi	offset %r13,-40
	hex_cfi	offset %r14,-32
	hex_cfi	offset %r15,-24
	hex_cfi	offset %rbp,-16
	movzbl	112(%rsp),%ebx
	testq	%r9,%r9
	sete	%al
	testb	%bl,%bl
	sets	%r11b
	movl	$6,%r10d
	orb	%al,%r11b
	jne	6f
	cmpb	$48,%bl
	jae	7f
2:
	movl	$4,%r10d
	testq	%rsi,%rsi
	js	6f
	movq	%rdx,32(%rsp)
	cmpq	$1,%rsi
	movq	%rsi,%rax
	adcq	$-1,%rax
	leaq	(%rsi,%rsi),%r14
	movq	%rax,%rdx
	orq	%r9,%rdx
	shrq	$32,%rdx
	je	13f
	xorl	%edx,%edx
	divq	%r9
	addq	%r14,%rax
	movq	32(%rsp),%rdx
	jae	14f
	jmp	6f
7:
	cmpb	$58,%bl
	jb	6f
	cmpb	$65,%bl
	jb	2b
	cmpb	$71,%bl
	setb	%al
	leal	-97(%rbx),%r11d
	cmpb	$6,%r11b
	setb	%r11b
	orb	%al,%r11b
	je	2b
	jmp	6f
13:
	xorl	%edx,%edx
	divl	%r9d
	addq	%r14,%rax
	movq	32(%rsp),%rdx
	jae	14f
6:
	xorl	%eax,%eax
59:
	movq	%r10,%rdx
	addq	$56,%rsp
	hex_cfi	def_cfa_offset 56
	popq	%rbx
	hex_cfi	def_cfa_offset 48
	popq	%r12
	hex_cfi	def_cfa_offset 40
	popq	%r13
	hex_cfi	def_cfa_offset 32
	popq	%r14
	hex_cfi	def_cfa_offset 24
	popq	%r15
	hex_cfi	def_cfa_offset 16
	popq	%rbp
	hex_cfi	def_cfa_offset 8
	retq
14:
	hex_cfi	def_cfa_offset 112
	movl	$2,%r10d
	cmpq	%rax,%rcx
	jb	59b
	cmpq	$4,%r9
	je	20f
	cmpq	$1,%r9
	jne	23f
	leaq	.L100_static.14(%rip),%rax
	leaq	.L100_static.15(%rip),%rcx
	testb	$1,%r8b
	cmovneq	%rax,%rcx
	cmpq	$2,%rsi
	jb	28f
	leaq	-1(%rsi),%r10
	cmpq	$2,%rsi
	jne	39f
	xorl	%esi,%esi
	xorl	%eax,%eax
	jmp	42f
20:
	leaq	.L100_static.14(%rip),%rcx
	leaq	.L100_static.15(%rip),%rax
	testb	$1,%r8b
	cmovneq	%rcx,%rax
	cmpq	$5,%rsi
	jb	29f
	xorl	%r8d,%r8d
	xorl	%ecx,%ecx
	.p2align	4
22:
	movzbl	(%rdi,%r8),%r9d
	movzwl	(%rax,%r9,2),%r9d
	movw	%r9w,(%rdx,%rcx)
	movzbl	1(%rdi,%r8),%r9d
	movzwl	(%rax,%r9,2),%r9d
	movw	%r9w,2(%rdx,%rcx)
	movzbl	2(%rdi,%r8),%r9d
	movzwl	(%rax,%r9,2),%r9d
	movw	%r9w,4(%rdx,%rcx)
	movzbl	3(%rdi,%r8),%r9d
	movzwl	(%rax,%r9,2),%r9d
	movw	%r9w,6(%rdx,%rcx)
	addq	$4,%r8
	movb	%bl,8(%rdx,%rcx)
	addq	$9,%rcx
	addq	$-4,%rsi
	cmpq	$4,%rsi
	ja	22b
	jmp	30f
23:
	leaq	.L100_static.14(%rip),%r11
	leaq	.L100_static.15(%rip),%r10
	movzbl	%r8b,%eax
	cmpq	%rsi,%r9
	jae	33f
	leaq	(%r9,%r9),%r12
	testb	$1,%r8b
	movq	%r10,%rcx
	cmovneq	%r11,%rcx
	cmpq	$8,%r9
	jae	44f
	cmpq	$1,%r9
	jne	60f
	leaq	(%rdx,%r12),%rax
	xorl	%ebp,%ebp
	xorl	%r13d,%r13d
27:
	movzbl	(%rdi,%rbp),%r9d
	movzwl	(%rcx,%r9,2),%r9d
	movw	%r9w,(%rdx,%r13)
	incq	%rbp
	movb	%bl,(%rax,%r13)
	addq	%r12,%r13
	incq	%r13
	addq	$-2,%r14
	decq	%rsi
	cmpq	$1,%rsi
	ja	27b
	jmp	49f
28:
	xorl	%r10d,%r10d
	movl	$0,%eax
	testq	%rsi,%rsi
	jne	43f
	jmp	59b
29:
	xorl	%ecx,%ecx
	xorl	%r8d,%r8d
30:
	testq	%rsi,%rsi
	je	38f
	cmpq	$1,%rsi
	jne	34f
	xorl	%r9d,%r9d
	jmp	37f
33:
	movl	%eax,12(%rsp)
	xorl	%r13d,%r13d
	xorl	%ebp,%ebp
	movq	%rsi,%rax
	jmp	47f
34:
	movl	%esi,%r9d
	andl	$6,%r9d
	leaq	(%rcx,%rdx),%r10
	addq	$3,%r10
	leaq	(%r8,%rdi),%r11
	incq	%r11
	xorl	%ebx,%ebx
35:
	movzbl	-1(%r11,%rbx),%r14d
	movzwl	(%rax,%r14,2),%ebp
	movw	%bp,-3(%r10,%rbx,2)
	movzbl	(%r11,%rbx),%r14d
	movzwl	(%rax,%r14,2),%ebp
	movw	%bp,-1(%r10,%rbx,2)
	addq	$2,%rbx
	cmpq	%rbx,%r9
	jne	35b
	testb	$1,%sil
	je	38f
37:
	addq	%r8,%rdi
	addq	%rcx,%rdx
	movzbl	(%rdi,%r9),%edi
	movzwl	(%rax,%rdi,2),%eax
	movw	%ax,(%rdx,%r9,2)
38:
	leaq	(%rcx,%rsi,2),%rax
	xorl	%r10d,%r10d
	jmp	59b
39:
	movq	%r10,%rsi
	andq	$-2,%rsi
	xorl	%eax,%eax
	xorl	%r8d,%r8d
40:
	movzbl	(%rdi,%r8),%r9d
	movzwl	(%rcx,%r9,2),%r9d
	movw	%r9w,(%rdx,%rax)
	movb	%bl,2(%rdx,%rax)
	movzbl	1(%rdi,%r8),%r9d
	addq	$2,%r8
	movzwl	(%rcx,%r9,2),%r9d
	movw	%r9w,3(%rdx,%rax)
	movb	%bl,5(%rdx,%rax)
	addq	$6,%rax
	cmpq	%r8,%rsi
	jne	40b
	testb	$1,%r10b
	je	43f
42:
	movzbl	(%rdi,%rsi),%esi
	movzwl	(%rcx,%rsi,2),%esi
	movw	%si,(%rdx,%rax)
	movb	%bl,2(%rdx,%rax)
	addq	$3,%rax
43:
	movzbl	(%rdi,%r10),%esi
	movzwl	(%rcx,%rsi,2),%ecx
	movw	%cx,(%rdx,%rax)
	addq	$2,%rax
	xorl	%r10d,%r10d
	jmp	59b
44:
	movl	%r8d,28(%rsp)
	leaq	1(%r12),%rcx
	movq	%rcx,16(%rsp)
	notq	%r12
	xorl	%r13d,%r13d
	movq	%rdx,%r14
	xorl	%ebp,%ebp
	movq	%rdi,40(%rsp)
	movq	%rdi,%r15
	movl	%eax,12(%rsp)
	movq	%rsi,48(%rsp)
45:
	addq	%r12,%r13
	movl	12(%rsp),%ecx
	andl	$1,%ecx
	movq	%r15,%rdi
	movq	%r9,%rsi
	movq	%r14,%rdx
	movq	%rbp,%rbx
	movq	%r13,%rbp
	movq	%r12,%r13
	movq	%r9,%r12
	callq	faster_hex_1_0_0_x86_64_core_backend_Backend_encode_outlined
	movq	%r12,%r9
	movq	%r13,%r12
	movq	%rbp,%r13
	movq	%rbx,%rbp
	movq	48(%rsp),%rsi
	movzbl	112(%rsp),%eax
	movb	%al,(%r14,%r9,2)
	addq	%r9,%r15
	subq	%r9,%rbp
	leaq	(%rsi,%rbp),%rax
	addq	16(%rsp),%r14
	cmpq	%rax,%r9
	jb	45b
	negq	%rbp
	negq	%r13
	movq	32(%rsp),%rdx
	movq	40(%rsp),%rdi
	movl	28(%rsp),%r8d
47:
	leaq	(%rax,%rax),%r14
	cmpq	$7,%rax
	ja	57f
	movq	%rax,%rsi
	leaq	.L100_static.15(%rip),%r10
	leaq	.L100_static.14(%rip),%r11
49:
	testb	$1,%r8b
	cmovneq	%r11,%r10
	testq	%rsi,%rsi
	je	58f
	movzbl	(%rdi,%rbp),%eax
	movzwl	(%r10,%rax,2),%eax
	movw	%ax,(%rdx,%r13)
	cmpq	$1,%rsi
	je	58f
	movzbl	1(%rdi,%rbp),%eax
	movzwl	(%r10,%rax,2),%eax
	movw	%ax,2(%rdx,%r13)
	cmpq	$2,%rsi
	je	58f
	movzbl	2(%rdi,%rbp),%eax
	movzwl	(%r10,%rax,2),%eax
	movw	%ax,4(%rdx,%r13)
	cmpq	$3,%rsi
	je	58f
	movzbl	3(%rdi,%rbp),%eax
	movzwl	(%r10,%rax,2),%eax
	movw	%ax,6(%rdx,%r13)
	cmpq	$4,%rsi
	je	58f
	movzbl	4(%rdi,%rbp),%eax
	movzwl	(%r10,%rax,2),%eax
	movw	%ax,8(%rdx,%r13)
	cmpq	$5,%rsi
	je	58f
	movzbl	5(%rdi,%rbp),%eax
	movzwl	(%r10,%rax,2),%eax
	movw	%ax,10(%rdx,%r13)
	cmpq	$6,%rsi
	je	58f
	movzbl	6(%rdi,%rbp),%eax
	movzwl	(%r10,%rax,2),%eax
	movw	%ax,12(%rdx,%r13)
	jmp	58f
57:
	addq	%r13,%rdx
	addq	%rbp,%rdi
	movl	12(%rsp),%ecx
	andl	$1,%ecx
	movq	%rax,%rsi
	callq	faster_hex_1_0_0_x86_64_core_backend_Backend_encode_outlined
58:
	addq	%r13,%r14
	xorl	%r10d,%r10d
	movq	%r14,%rax
	jmp	59b
60:
	movl	%eax,12(%rsp)
	movl	%r9d,%r10d
	andl	$6,%r10d
	leaq	3(%rdx),%r11
	leaq	1(%r12),%rax
	movq	%rax,16(%rsp)
	leaq	1(%rdi),%r14
	xorl	%ebp,%ebp
	xorl	%r13d,%r13d
	jmp	62f
61:
	movq	%rax,%r12
	addq	%r13,%rax
	addq	%r9,%rbp
	movzbl	112(%rsp),%ebx
	movb	%bl,(%rdx,%rax)
	addq	%r12,%r13
	incq	%r13
	movq	%rsi,%rax
	subq	%rbp,%rax
	addq	16(%rsp),%r11
	addq	%r9,%r14
	cmpq	%rax,%r9
	jae	47b
62:
	movq	%r12,%rax
	leaq	(%rdi,%rbp),%r15
	xorl	%ebx,%ebx
	.p2align	4
63:
	movzbl	-1(%r14,%rbx),%r12d
	movzwl	(%rcx,%r12,2),%r12d
	movw	%r12w,-3(%r11,%rbx,2)
	movzbl	(%r14,%rbx),%r12d
	movzwl	(%rcx,%r12,2),%r12d
	movw	%r12w,-1(%r11,%rbx,2)
	addq	$2,%rbx
	cmpq	%rbx,%r10
	jne	63b
	testb	$1,%r9b
	je	61b
	movzbl	(%r15,%r10),%ebx
	movzwl	(%rcx,%rbx,2),%ebx
	leaq	(%rdx,%r13),%r15
	movw	%bx,(%r15,%r10,2)
	jmp	61b
	hex_end	faster_hex_1_0_0_x86_64_encode_grouped
	hex_cfi	endproc
	hex_export	faster_hex_1_0_0_x86_64_check_with_case
	hex_cfi	startproc
	endbr64
	cmpb	$2,%dl
	ja	1f
	pushq	%rax
	hex_cfi	def_cfa_offset 16
	movzbl	%dl,%edx
	callq	faster_hex_1_0_0_x86_64_core_look_ups_check_by_look_up
	addq	$8,%rsp
	hex_cfi	def_cfa_offset 8
	retq
1:
	xorl	%eax,%eax
	retq
	hex_end	faster_hex_1_0_0_x86_64_check_with_case
	hex_cfi	endproc
	hex_export	faster_hex_1_0_0_x86_64_decode_grouped
	hex_cfi	startproc
	endbr64
	pushq	%rbp
	hex_cfi	def_cfa_offset 16
	pushq	%r15
	hex_cfi	def_cfa_offset 24
	pushq	%r14
	hex_cfi	def_cfa_offset 32
	pushq	%r13
	hex_cfi	def_cfa_offset 40
	pushq	%r12
	hex_cfi	def_cfa_offset 48
	pushq	%rbx
	hex_cfi	def_cfa_offset 56
	subq	$72,%rsp
	hex_cfi	def_cfa_offset 128
	hex_cfi	offset %rbx,-56
	hex_cfi	offset %r12,-48
	hex_cfi	offset %r13,-40
	hex_cfi	offset %r14,-32
	hex_cfi	offset %r15,-24
	hex_cfi	offset %rbp,-16
	xorl	%r15d,%r15d
	cmpb	$3,%r8b
	movl	%r8d,%ebp
	cmovael	%r15d,%ebp
	jae	6f
	movzbl	128(%rsp),%ebx
	testq	%r9,%r9
	sete	%al
	testb	%bl,%bl
	sets	%r10b
	movl	$6,%r11d
	orb	%al,%r10b
	jne	7f
	cmpb	$48,%bl
	jae	8f
3:
	movq	%rsi,%r15
	shrq	%r15
	cmpq	%r9,%r15
	movq	%rdx,24(%rsp)
	jae	10f
	testb	$1,%sil
	jne	29f
	movl	$2,%r11d
	cmpq	%r15,%rcx
	jae	18f
	jmp	77f
6:
	movl	$5,%r11d
	jmp	77f
8:
	cmpb	$58,%bl
	jae	12f
7:
	xorl	%r15d,%r15d
	jmp	77f
10:
	leaq	(%r9,%r9),%rax
	leaq	1(,%r9,2),%r10
	orq	%rsi,%rax
	shrq	$32,%rax
	je	15f
	movq	%rsi,%rax
	xorl	%edx,%edx
	divq	%r10
	movq	%rdx,%r15
	jmp	16f
12:
	cmpb	$65,%bl
	jb	3b
	cmpb	$71,%bl
	setb	%al
	leal	-97(%rbx),%r10d
	cmpb	$6,%r10b
	setb	%r10b
	orb	%al,%r10b
	je	3b
	jmp	7b
15:
	movl	%esi,%eax
	xorl	%edx,%edx
	divl	%r10d
	movl	%edx,%r15d
16:
	testq	%r15,%r15
	sete	%dl
	movl	%r15d,%r10d
	orb	%dl,%r10b
	testb	$1,%r10b
	jne	29f
	imulq	%r9,%rax
	shrq	%r15
	addq	%rax,%r15
	movq	24(%rsp),%rdx
	movl	$2,%r11d
	cmpq	%r15,%rcx
	jb	77f
18:
	movzbl	%bpl,%r10d
	cmpq	%r15,%r9
	movq	%rsi,32(%rsp)
	movq	%r9,40(%rsp)
	movq	%rdi,(%rsp)
	movq	%r10,8(%rsp)
	movq	%r15,64(%rsp)
	jae	30f
	leaq	(%r9,%r9),%r11
	cmpq	$16,%r11
	jae	48f
	movabsq	$9223372036854775807,%r14
	andq	%r9,%r14
	je	67f
	cmpb	$1,%r8b
	leaq	.L100_static.7(%rip),%rax
	leaq	.L100_static.8(%rip),%rcx
	cmoveq	%rax,%rcx
	testb	%r8b,%r8b
	leaq	.L100_static.6(%rip),%r13
	cmovneq	%rcx,%r13
	movq	%r15,%rax
	leaq	1(%rdi),%r15
	leaq	1(%r11),%r8
	xorl	%r12d,%r12d
	movq	%r11,56(%rsp)
	movq	%r8,48(%rsp)
22:
	movq	%rax,16(%rsp)
	leaq	(%r12,%r11),%rbx
	movq	(%rsp),%rax
	leaq	(%rax,%r12),%rdi
	xorl	%eax,%eax
	.p2align	4
23:
	movzbl	-1(%r15,%rax,2),%ecx
	cmpb	$-1,(%r13,%rcx)
	je	26f
	movzbl	(%r15,%rax,2),%ecx
	cmpb	$-1,(%r13,%rcx)
	je	26f
	incq	%rax
	cmpq	%rax,%r14
	jne	23b
	jmp	27f
26:
	movq	%r11,%rsi
	movl	%r10d,%edx
	callq	faster_hex_1_0_0_x86_64_core_backend_Backend_first_invalid
	movq	48(%rsp),%r8
	movq	56(%rsp),%r11
	movq	8(%rsp),%r10
	movq	40(%rsp),%r9
	movq	32(%rsp),%rsi
	movl	%eax,%ecx
	movq	%rdx,%rax
	movq	24(%rsp),%rdx
	cmpb	$1,%cl
	je	74f
27:
	movq	(%rsp),%rax
	movzbl	128(%rsp),%ecx
	cmpb	%cl,(%rax,%rbx)
	movq	16(%rsp),%rax
	jne	73f
	incq	%rbx
	subq	%r9,%rax
	addq	%r8,%r15
	movq	%rbx,%r12
	cmpq	%rax,%r9
	jb	22b
	jmp	31f
29:
	movl	$7,%r11d
	xorl	%r15d,%r15d
	jmp	77f
30:
	xorl	%ebx,%ebx
31:
	movq	%rsi,%rax
	subq	%rbx,%rax
	cmpq	$15,%rax
	movq	64(%rsp),%r15
	movq	(%rsp),%r13
	ja	37f
	movq	%rax,%rcx
	shrq	%rcx
	je	39f
	leaq	.L100_switch.table.faster_hex_1_0_0_x86_64_decode_grouped.49(%rip),%rdi
	movq	8(%rsp),%r8
	movq	(%rdi,%r8,8),%rdi
	leaq	(%rbx,%r13),%r8
	incq	%r8
	xorl	%r10d,%r10d
34:
	movzbl	-1(%r8,%r10,2),%r11d
	cmpb	$-1,(%rdi,%r11)
	je	37f
	movzbl	(%r8,%r10,2),%r11d
	cmpb	$-1,(%rdi,%r11)
	je	37f
	incq	%r10
	cmpq	%r10,%rcx
	jne	34b
	jmp	39f
37:
	leaq	(%rbx,%r13),%rdi
	movq	%rax,%rsi
	movq	8(%rsp),%rdx
	callq	faster_hex_1_0_0_x86_64_core_backend_Backend_first_invalid
	movq	40(%rsp),%r9
	movq	32(%rsp),%rsi
	movq	%rdx,%rcx
	movq	24(%rsp),%rdx
	cmpb	$1,%al
	jne	39f
	addq	%rcx,%rbx
	jmp	76f
39:
	cmpq	%r15,%r9
	jae	52f
	leaq	(%r9,%r9),%r12
	leaq	1(,%r9,2),%rax
	movq	%rax,16(%rsp)
	cmpq	$8,%r9
	jae	53f
	cmpb	$1,%bpl
	leaq	.L100_static.7(%rip),%rax
	leaq	.L100_static.8(%rip),%rcx
	cmoveq	%rax,%rcx
	testb	%bpl,%bpl
	leaq	.L100_static.6(%rip),%rax
	cmovneq	%rcx,%rax
	movl	%r9d,%edi
	andl	$6,%edi
	leaq	1(%rdx),%r8
	leaq	3(%r13),%r10
	incq	%r12
	xorl	%ebp,%ebp
	xorl	%ebx,%ebx
	jmp	44f
42:
	movq	%r13,%rcx
	addq	%rbp,%rcx
	leaq	(%rdx,%rbx),%r11
	movzbl	(%rcx,%rdi,2),%r14d
	movzbl	(%rax,%r14),%r14d
	movzbl	1(%rcx,%rdi,2),%ecx
	shlb	$4,%r14b
	addb	(%rax,%rcx),%r14b
	movb	%r14b,(%r11,%rdi)
43:
	addq	%r9,%rbx
	leaq	1(,%r9,2),%rcx
	addq	%rcx,%rbp
	movq	%r15,%rcx
	subq	%rbx,%rcx
	addq	%r9,%r8
	addq	%r12,%r10
	cmpq	%rcx,%r9
	jae	56f
44:
	cmpq	$1,%r9
	je	42b
	xorl	%ecx,%ecx
	.p2align	4
46:
	movzbl	-3(%r10,%rcx,2),%r11d
	movzbl	(%rax,%r11),%r11d
	movzbl	-2(%r10,%rcx,2),%r14d
	shlb	$4,%r11b
	addb	(%rax,%r14),%r11b
	movb	%r11b,-1(%r8,%rcx)
	movzbl	-1(%r10,%rcx,2),%r11d
	movzbl	(%rax,%r11),%r11d
	movzbl	(%r10,%rcx,2),%r14d
	shlb	$4,%r11b
	addb	(%rax,%r14),%r11b
	movb	%r11b,(%r8,%rcx)
	addq	$2,%rcx
	cmpq	%rcx,%rdi
	jne	46b
	testb	$1,%r9b
	jne	42b
	jmp	43b
48:
	leaq	(%rdi,%r11),%rax
	movq	%rax,16(%rsp)
	xorl	%r12d,%r12d
49:
	movq	(%rsp),%r13
	leaq	(%r12,%r13),%rdi
	movq	%r11,%rsi
	movl	%r10d,%edx
	movq	%r11,%r14
	callq	faster_hex_1_0_0_x86_64_core_backend_Backend_first_invalid
	cmpb	$1,%al
	je	75f
	leaq	(%r12,%r14),%rbx
	movzbl	128(%rsp),%eax
	movq	16(%rsp),%rcx
	cmpb	%al,(%rcx,%r12)
	jne	76f
	movq	%r14,%r11
	incq	%rbx
	movq	40(%rsp),%r9
	subq	%r9,%r15
	movq	%rbx,%r12
	cmpq	%r15,%r9
	movq	24(%rsp),%rdx
	movq	32(%rsp),%rsi
	movq	8(%rsp),%r10
	jb	49b
	jmp	31b
52:
	xorl	%ebx,%ebx
	xorl	%ebp,%ebp
	movq	%r15,%rcx
	jmp	56f
53:
	xorl	%ebx,%ebx
	movq	%rdx,%r13
	xorl	%ebp,%ebp
	movq	%r12,%r14
	movq	8(%rsp),%r12
54:
	movq	(%rsp),%rax
	leaq	(%rax,%rbp),%rdi
	movq	%r14,%rsi
	movq	%r13,%rdx
	movq	%r9,%rcx
	movl	%r12d,%r8d
	callq	faster_hex_1_0_0_x86_64_codec_pieces_read_long_piece
	movq	40(%rsp),%r9
	addq	16(%rsp),%rbp
	addq	%r9,%r13
	subq	%r9,%rbx
	leaq	(%r15,%rbx),%rcx
	cmpq	%rcx,%r9
	jb	54b
	negq	%rbx
	movq	24(%rsp),%rdx
	movq	32(%rsp),%rsi
	movq	(%rsp),%r13
56:
	addq	%rbp,%r13
	addq	%rbx,%rdx
	cmpq	$7,%rcx
	ja	65f
	testq	%rcx,%rcx
	movq	8(%rsp),%rsi
	je	66f
	leaq	.L100_switch.table.faster_hex_1_0_0_x86_64_decode_grouped.49(%rip),%rax
	movq	(%rax,%rsi,8),%rax
	movzbl	(%r13),%esi
	movzbl	(%rax,%rsi),%esi
	movzbl	1(%r13),%edi
	shlb	$4,%sil
	addb	(%rax,%rdi),%sil
	movb	%sil,(%rdx)
	cmpq	$1,%rcx
	je	66f
	movzbl	2(%r13),%esi
	movzbl	(%rax,%rsi),%esi
	movzbl	3(%r13),%edi
	shlb	$4,%sil
	addb	(%rax,%rdi),%sil
	movb	%sil,1(%rdx)
	cmpq	$2,%rcx
	je	66f
	movzbl	4(%r13),%esi
	movzbl	(%rax,%rsi),%esi
	movzbl	5(%r13),%edi
	shlb	$4,%sil
	addb	(%rax,%rdi),%sil
	movb	%sil,2(%rdx)
	cmpq	$3,%rcx
	je	66f
	movzbl	6(%r13),%esi
	movzbl	(%rax,%rsi),%esi
	movzbl	7(%r13),%edi
	shlb	$4,%sil
	addb	(%rax,%rdi),%sil
	movb	%sil,3(%rdx)
	cmpq	$4,%rcx
	je	66f
	movzbl	8(%r13),%esi
	movzbl	(%rax,%rsi),%esi
	movzbl	9(%r13),%edi
	shlb	$4,%sil
	addb	(%rax,%rdi),%sil
	movb	%sil,4(%rdx)
	cmpq	$5,%rcx
	je	66f
	movzbl	10(%r13),%esi
	movzbl	(%rax,%rsi),%esi
	movzbl	11(%r13),%edi
	shlb	$4,%sil
	addb	(%rax,%rdi),%sil
	movb	%sil,5(%rdx)
	cmpq	$6,%rcx
	je	66f
	movzbl	12(%r13),%ecx
	movzbl	(%rax,%rcx),%ecx
	movzbl	13(%r13),%esi
	shlb	$4,%cl
	addb	(%rax,%rsi),%cl
	movb	%cl,6(%rdx)
	jmp	66f
65:
	subq	%rbp,%rsi
	movq	%r13,%rdi
	movq	8(%rsp),%r8
	callq	faster_hex_1_0_0_x86_64_codec_pieces_read_long_piece
66:
	xorl	%r11d,%r11d
	jmp	77f
67:
	testb	%r8b,%r8b
	je	78f
	movzbl	%r8b,%eax
	xorl	%ebx,%ebx
	cmpl	$1,%eax
	jne	72f
69:
	movq	(%rsp),%r13
	movzbl	128(%rsp),%ecx
	cmpb	%cl,(%r13,%rbx)
	jne	76f
	incq	%rbx
	subq	%r9,%r15
	cmpq	%r15,%r9
	jb	69b
	jmp	31b
71:
	incq	%rbx
	subq	%r9,%r15
	cmpq	%r15,%r9
	jae	31b
72:
	movq	(%rsp),%r13
	movzbl	128(%rsp),%ecx
	cmpb	%cl,(%r13,%rbx)
	je	71b
	jmp	76f
73:
	movq	(%rsp),%r13
	jmp	76f
74:
	movq	%rax,%rdx
	movq	(%rsp),%r13
75:
	addq	%rdx,%r12
	movq	%r12,%rbx
76:
	movzbl	(%r13,%rbx),%r11d
	shll	$8,%r11d
	orq	$3,%r11
	movq	%rbx,%r15
77:
	movq	%r15,%rax
	movq	%r11,%rdx
	addq	$72,%rsp
	hex_cfi	def_cfa_offset 56
	popq	%rbx
	hex_cfi	def_cfa_offset 48
	popq	%r12
	hex_cfi	def_cfa_offset 40
	popq	%r13
	hex_cfi	def_cfa_offset 32
	popq	%r14
	hex_cfi	def_cfa_offset 24
	popq	%r15
	hex_cfi	def_cfa_offset 16
	popq	%rbp
	hex_cfi	def_cfa_offset 8
	retq
78:
	hex_cfi	def_cfa_offset 128
	xorl	%ebx,%ebx
79:
	movq	(%rsp),%r13
	movzbl	128(%rsp),%ecx
	cmpb	%cl,(%r13,%rbx)
	jne	76b
	incq	%rbx
	subq	%r9,%r15
	cmpq	%r15,%r9
	jb	79b
	jmp	31b
	hex_end	faster_hex_1_0_0_x86_64_decode_grouped
	hex_cfi	endproc
	hex_export	faster_hex_1_0_0_x86_64_decode_spaced
	hex_cfi	startproc
	endbr64
	pushq	%rbp
	hex_cfi	def_cfa_offset 16
	pushq	%r15
	hex_cfi	def_cfa_offset 24
	pushq	%r14
	hex_cfi	def_cfa_offset 32
	pushq	%r13
	hex_cfi	def_cfa_offset 40
	pushq	%r12
	hex_cfi	def_cfa_offset 48
	pushq	%rbx
	hex_cfi	def_cfa_offset 56
	subq	$56,%rsp
	hex_cfi	def_cfa_offset 112
	hex_cfi	offset %rbx,-56
	hex_cfi	offset %r12,-48
	hex_cfi	offset %r13,-40
	hex_cfi	offset %r14,-32
	hex_cfi	offset %r15,-24
	hex_cfi	offset %rbp,-16
	movl	%r8d,%ebp
	cmpb	$2,%bpl
	ja	6f
	movq	%rcx,%r12
	movq	%rsi,%rbx
	movq	%rdi,%r14
	movq	%rdx,24(%rsp)
	xorps	%xmm0,%xmm0
	movaps	%xmm0,(%rsp)
	movq	$0,16(%rsp)
	callq	faster_hex_1_0_0_x86_64_codec_spaced_run_len
	movq	%rax,%r13
	andq	$-2,%r13
	cmpq	%r13,%rbx
	jbe	7f
	movzbl	(%r14,%r13),%ecx
	xorl	%r15d,%r15d
	cmpq	$32,%rcx
	ja	8f
	movabsq	$4294981120,%rdx
	btq	%rcx,%rdx
	jae	8f
	orq	$1,%rax
	movl	$1,%r15d
	cmpq	%rax,%rbx
	jbe	8f
	movzbl	(%r14,%rax),%eax
	leal	-9(%rax),%ecx
	cmpb	$2,%cl
	setb	%cl
	movl	%eax,%edx
	andb	$-2,%dl
	cmpb	$12,%dl
	sete	%dl
	cmpb	$32,%al
	sete	%al
	orb	%dl,%al
	orb	%cl,%al
	movzbl	%al,%r15d
	incq	%r15
	jmp	8f
6:
	movl	$5,%edx
	jmp	20f
7:
	xorl	%r15d,%r15d
8:
	movzbl	%bpl,%ebp
	movq	%r14,%rdi
	movq	%rbx,%rsi
	movq	%r13,%rdx
	movq	%r15,%rcx
	movl	%ebp,%r8d
	callq	faster_hex_1_0_0_x86_64_codec_spaced_line_count
	movq	%r13,32(%rsp)
	movq	%r15,40(%rsp)
	movq	%rax,48(%rsp)
	leaq	32(%rsp),%rdx
	movq	%r14,%rdi
	movq	%rbx,%rsi
	movl	%ebp,%ecx
	callq	faster_hex_1_0_0_x86_64_codec_spaced_survey
	testb	$1,%al
	jne	19f
	shrq	%rax
	cmpq	%rax,%r12
	jae	11f
10:
	movl	$2,%edx
	jmp	21f
11:
	cmpb	$1,%dl
	jne	13f
	leaq	32(%rsp),%rcx
	movq	%r14,%rdi
	movq	%rbx,%rsi
	movq	24(%rsp),%rdx
	movl	%ebp,%r8d
	movq	%rax,%rbx
	callq	faster_hex_1_0_0_x86_64_codec_spaced_decode_runs
	movq	%rbx,%rax
	xorl	%edx,%edx
	jmp	21f
13:
	movq	%rsp,%rdi
	movq	%r14,%rsi
	movq	%rbx,%rdx
	movl	%ebp,%ecx
	callq	faster_hex_1_0_0_x86_64_codec_spaced_invalid_error
	movzbl	(%rsp),%ecx
	cmpl	$2,%ecx
	jg	17f
	movq	8(%rsp),%rax
	testl	%ecx,%ecx
	je	22f
	cmpl	$1,%ecx
	je	10b
	jmp	18f
17:
	addl	$-4,%ecx
	cmpl	$2,%ecx
	jae	19f
18:
	movl	$4,%edx
	jmp	20f
19:
	movl	$1,%edx
20:
	xorl	%eax,%eax
21:
	addq	$56,%rsp
	hex_cfi	def_cfa_offset 56
	popq	%rbx
	hex_cfi	def_cfa_offset 48
	popq	%r12
	hex_cfi	def_cfa_offset 40
	popq	%r13
	hex_cfi	def_cfa_offset 32
	popq	%r14
	hex_cfi	def_cfa_offset 24
	popq	%r15
	hex_cfi	def_cfa_offset 16
	popq	%rbp
	hex_cfi	def_cfa_offset 8
	retq
22:
	hex_cfi	def_cfa_offset 112
	movq	16(%rsp),%rcx
	shll	$8,%ecx
	movzwl	%cx,%edx
	orq	$3,%rdx
	jmp	21b
	hex_end	faster_hex_1_0_0_x86_64_decode_spaced
	hex_cfi	endproc
	hex_export	faster_hex_1_0_0_x86_64_decode_with_case
	hex_cfi	startproc
	endbr64
	cmpb	$2,%r8b
	ja	1f
	testb	$1,%sil
	jne	5f
	movq	%rsi,%rax
	shrq	%rax
	cmpq	%rax,%rcx
	jae	8f
	movl	$2,%edx
	retq
1:
	movl	$5,%edx
	xorl	%eax,%eax
	retq
5:
	movl	$1,%edx
	xorl	%eax,%eax
	retq
8:
	pushq	%r15
	hex_cfi	def_cfa_offset 16
	pushq	%r14
	hex_cfi	def_cfa_offset 24
	pushq	%r13
	hex_cfi	def_cfa_offset 32
	pushq	%r12
	hex_cfi	def_cfa_offset 40
	pushq	%rbx
	hex_cfi	def_cfa_offset 48
	hex_cfi	offset %rbx,-48
	hex_cfi	offset %r12,-40
	hex_cfi	offset %r13,-32
	hex_cfi	offset %r14,-24
	hex_cfi	offset %r15,-16
	movzbl	%r8b,%ebx
	cmpq	$192,%rsi
	ja	11f
	movq	%rdi,%r14
	movq	%rsi,%r15
	movq	%rdx,%r12
	movq	%rax,%rcx
	movl	%ebx,%r8d
	movq	%rax,%r13
	callq	faster_hex_1_0_0_x86_64_core_backend_Backend_decode_outlined
	movq	%r14,%rdi
	movq	%r15,%rsi
	movq	%r12,%rdx
	movl	%eax,%ecx
	movq	%r13,%rax
	testb	%cl,%cl
	je	11f
	xorl	%edx,%edx
	jmp	12f
11:
	movq	%rax,%rcx
	movl	%ebx,%r8d
	callq	faster_hex_1_0_0_x86_64_core_backend_Backend_decode_or_find_outlined
	xorl	%ecx,%ecx
	testw	%dx,%dx
	setne	%cl
	shll	$8,%edx
	movzwl	%dx,%esi
	leaq	(%rcx,%rcx,2),%rdx
	orq	%rsi,%rdx
12:
	popq	%rbx
	hex_cfi	def_cfa_offset 40
	popq	%r12
	hex_cfi	def_cfa_offset 32
	popq	%r13
	hex_cfi	def_cfa_offset 24
	popq	%r14
	hex_cfi	def_cfa_offset 16
	popq	%r15
	hex_cfi	def_cfa_offset 8
	hex_cfi	restore %rbx
	hex_cfi	restore %r12
	hex_cfi	restore %r13
	hex_cfi	restore %r14
	hex_cfi	restore %r15
	retq
	hex_end	faster_hex_1_0_0_x86_64_decode_with_case
	hex_cfi	endproc
	hex_export	faster_hex_1_0_0_x86_64_first_invalid
	hex_cfi	startproc
	endbr64
	cmpb	$2,%dl
	ja	1f
	pushq	%rbx
	hex_cfi	def_cfa_offset 16
	hex_cfi	offset %rbx,-16
	movq	%rdi,%rbx
	movzbl	%dl,%edx
	callq	faster_hex_1_0_0_x86_64_core_backend_Backend_first_invalid
	testb	%al,%al
	je	4f
	movq	%rdx,%rax
	movzbl	(%rbx,%rdx),%edx
	shll	$8,%edx
	orq	$3,%rdx
	popq	%rbx
	hex_cfi	def_cfa_offset 8
	hex_cfi	restore %rbx
	retq
1:
	movl	$5,%edx
	xorl	%eax,%eax
	retq
4:
	hex_cfi	def_cfa_offset 16
	hex_cfi	offset %rbx,-16
	xorl	%edx,%edx
	xorl	%eax,%eax
	popq	%rbx
	hex_cfi	def_cfa_offset 8
	hex_cfi	restore %rbx
	retq
	hex_end	faster_hex_1_0_0_x86_64_first_invalid
	hex_cfi	endproc
	hex_constant	.L100_static.6
.L100_static.6:
	.zero	48,255
	.ascii	"\000\001\002\003\004\005\006\007\b\t\377\377\377\377\377\377\377\n\013\f\r\016\017"
	.zero	26,255
	.ascii	"\n\013\f\r\016\017"
	.zero	153,255
	hex_constant	.L100_static.7
.L100_static.7:
	.zero	48,255
	.ascii	"\000\001\002\003\004\005\006\007\b\t"
	.zero	39,255
	.ascii	"\n\013\f\r\016\017"
	.zero	153,255
	hex_constant	.L100_static.8
.L100_static.8:
	.zero	48,255
	.ascii	"\000\001\002\003\004\005\006\007\b\t\377\377\377\377\377\377\377\n\013\f\r\016\017"
	.zero	185,255
	hex_constant	.L100_static.14
.L100_static.14:
	.ascii	"000102030405060708090A0B0C0D0E0F101112131415161718191A1B1C1D1E1F202122232425262728292A2B2C2D2E2F303132333435363738393A3B3C3D3E3F404142434445464748494A4B4C4D4E4F505152535455565758595A5B5C5D5E5F606162636465666768696A6B6C6D6E6F707172737475767778797A7B7C7D7E7F808182838485868788898A8B8C8D8E8F909192939495969798999A9B9C9D9E9FA0A1A2A3A4A5A6A7A8A9AAABACADAEAFB0B1B2B3B4B5B6B7B8B9BABBBCBDBEBFC0C1C2C3C4C5C6C7C8C9CACBCCCDCECFD0D1D2D3D4D5D6D7D8D9DADBDCDDDEDFE0E1E2E3E4E5E6E7E8E9EAEBECEDEEEFF0F1F2F3F4F5F6F7F8F9FAFBFCFDFEFF"
	hex_constant	.L100_static.15
.L100_static.15:
	.ascii	"000102030405060708090a0b0c0d0e0f101112131415161718191a1b1c1d1e1f202122232425262728292a2b2c2d2e2f303132333435363738393a3b3c3d3e3f404142434445464748494a4b4c4d4e4f505152535455565758595a5b5c5d5e5f606162636465666768696a6b6c6d6e6f707172737475767778797a7b7c7d7e7f808182838485868788898a8b8c8d8e8f909192939495969798999a9b9c9d9e9fa0a1a2a3a4a5a6a7a8a9aaabacadaeafb0b1b2b3b4b5b6b7b8b9babbbcbdbebfc0c1c2c3c4c5c6c7c8c9cacbcccdcecfd0d1d2d3d4d5d6d7d8d9dadbdcdddedfe0e1e2e3e4e5e6e7e8e9eaebecedeeeff0f1f2f3f4f5f6f7f8f9fafbfcfdfeff"
	hex_addresses	.L100_switch.table.faster_hex_1_0_0_x86_64_decode_grouped.49
	.p2align	3,0x0
.L100_switch.table.faster_hex_1_0_0_x86_64_decode_grouped.49:
	.quad	.L100_static.6
	.quad	.L100_static.7
	.quad	.L100_static.8
