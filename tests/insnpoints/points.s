# Each opcode of the back end, with its operands at their ends, in LLVM's assembly for BPF. r0 to r10 each stand as destination
# and as source; offsets are -32768, -1, 0, 32767; constants are the ends of their range, -1, 0, and 1 or a shift by 63.

# LD IMM DW, source 0: a 64-bit constant. The values lie on both sides of each change of sign of imm and next_imm.
	r0 = 0 ll
	r1 = 1 ll
	r2 = -1 ll
	r3 = 2147483647 ll
	r4 = 2147483648 ll
	r5 = -2147483648 ll
	r6 = 4294967295 ll
	r7 = -4294967296 ll
	r8 = 9223372036854775807 ll
	r9 = -9223372036854775808 ll
	r10 = 1311768467463790320 ll

# LD IMM DW, source 1: a map.
	ld_pseudo r1, 1, 0
	ld_pseudo r9, 1, 2147483647

# LDX MEM B
	r0 = *(u8 *)(r10 - 32768)
	r1 = *(u8 *)(r9 - 1)
	r2 = *(u8 *)(r8 + 0)
	r3 = *(u8 *)(r7 + 32767)

# LDX MEM H
	r4 = *(u16 *)(r6 - 32768)
	r5 = *(u16 *)(r5 - 1)
	r6 = *(u16 *)(r4 + 0)
	r7 = *(u16 *)(r3 + 32767)

# LDX MEM W
	r8 = *(u32 *)(r2 - 32768)
	r9 = *(u32 *)(r1 - 1)
	r10 = *(u32 *)(r0 + 0)
	r0 = *(u32 *)(r10 + 32767)

# LDX MEM DW
	r1 = *(u64 *)(r10 - 32768)
	r6 = *(u64 *)(r1 - 1)
	r3 = *(u64 *)(r6 + 0)
	r10 = *(u64 *)(r0 + 32767)

# STX MEM B
	*(u8 *)(r10 - 32768) = r0
	*(u8 *)(r9 - 1) = r1
	*(u8 *)(r8 + 0) = r2
	*(u8 *)(r7 + 32767) = r3

# STX MEM H
	*(u16 *)(r6 - 32768) = r4
	*(u16 *)(r5 - 1) = r5
	*(u16 *)(r4 + 0) = r6
	*(u16 *)(r3 + 32767) = r7

# STX MEM W
	*(u32 *)(r2 - 32768) = r8
	*(u32 *)(r1 - 1) = r9
	*(u32 *)(r0 + 0) = r10
	*(u32 *)(r10 + 32767) = r0

# STX MEM DW
	*(u64 *)(r10 - 32768) = r1
	*(u64 *)(r1 - 1) = r6
	*(u64 *)(r6 + 0) = r3
	*(u64 *)(r0 + 32767) = r10

# ALU64 K
	r0 += -2147483648
	r1 += -1
	r2 += 0
	r3 += 1
	r4 += 2147483647

	r5 -= -2147483648
	r6 -= -1
	r7 -= 0
	r8 -= 1
	r9 -= 2147483647

	r10 *= -2147483648
	r0 *= -1
	r1 *= 0
	r2 *= 1
	r3 *= 2147483647

	r4 /= -2147483648
	r5 /= -1
	r6 /= 0
	r7 /= 1
	r8 /= 2147483647

	r9 %= -2147483648
	r10 %= -1
	r0 %= 0
	r1 %= 1
	r2 %= 2147483647

	r3 <<= -2147483648
	r4 <<= -1
	r5 <<= 0
	r6 <<= 63
	r7 <<= 2147483647

	r8 >>= -2147483648
	r9 >>= -1
	r10 >>= 0
	r0 >>= 63
	r1 >>= 2147483647

# ALU64 X
	r0 += r10
	r10 += r0
	r5 += r5

	r1 -= r9
	r9 -= r1
	r6 -= r6

	r2 *= r8
	r8 *= r2
	r7 *= r7

	r3 /= r7
	r7 /= r3
	r8 /= r8

	r4 %= r6
	r6 %= r4
	r9 %= r9

	r5 <<= r4
	r4 <<= r5
	r10 <<= r10

	r6 >>= r3
	r3 >>= r6
	r0 >>= r0

# MOV64 K
	r0 = -2147483648
	r3 = -1
	r6 = 0
	r9 = 1
	r10 = 2147483647

# MOV64 X
	r0 = r10
	r10 = r0
	r6 = r1
	r2 = r9
	r7 = r7

# JA
	goto -32768
	goto -1
	goto +0
	goto +32767

# JEQ K
	if r0 == 0 goto -32768
	if r1 == -1 goto -1
	if r5 == -2147483648 goto +0
	if r9 == 2147483647 goto +32767
	if r10 == 1 goto +1

# JNE K
	if r0 != 0 goto +32767
	if r2 != -1 goto +0
	if r6 != -2147483648 goto -1
	if r8 != 2147483647 goto -32768
	if r10 != 1 goto -2

# CALL: helpers by number
	call -2147483648
	call -1
	call 0
	call 1
	call 2
	call 5
	call 14
	call 131
	call 132
	call 2147483647

# EXIT
	exit
